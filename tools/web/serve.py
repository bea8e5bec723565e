"""Serves a folder on this machine alone, and prints the address.

usage: tools/web/serve.py FOLDER [PORT]
"""
import functools
import http.server
import signal
import sys


#: What goes with each file: it may have changed when it is asked for again, is of the kind that is said, and no other page
#: may frame it.
HEADERS = {"Cache-Control": "no-cache", "X-Content-Type-Options": "nosniff", "Content-Security-Policy": "frame-ancestors 'none'"}


class Handler(http.server.SimpleHTTPRequestHandler):
    """Hands out the files as they are now, and says nothing of it."""

    extensions_map = {
        ".html": "text/html", ".js": "text/javascript", ".css": "text/css", ".json": "application/json",
        ".wasm": "application/wasm", ".md": "text/plain", "": "application/octet-stream",
    }

    def end_headers(self):
        for name, value in HEADERS.items():
            self.send_header(name, value)
        super().end_headers()

    def log_message(self, format, *words):
        pass


class Server(http.server.ThreadingHTTPServer):
    """Who goes away before all is handed out is no fault."""

    def handle_error(self, request, client_address):
        if not isinstance(sys.exc_info()[1], ConnectionError):
            super().handle_error(request, client_address)


def server_of(folder, port=0):
    """A server of a folder on 127.0.0.1, at a free port where none is named."""
    return Server(("127.0.0.1", port), functools.partial(Handler, directory=folder))


def main():
    if len(sys.argv) not in (2, 3) or not "".join(sys.argv[2:]).isdecimal() and len(sys.argv) == 3:
        sys.exit(__doc__)
    signal.signal(signal.SIGTERM, lambda *_: sys.exit(0))
    with server_of(sys.argv[1], int("".join(sys.argv[2:]) or 0)) as server:
        print(f"http://127.0.0.1:{server.server_port}/", flush=True)
        server.serve_forever()


if __name__ == "__main__":
    try:
        main()
    except OSError as error:
        sys.exit(f"serve: {error.strerror}")
    except KeyboardInterrupt:
        pass
