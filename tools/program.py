#!/usr/bin/env python3
"""Which program of this checkout stands, of which sources it is made, and how one is built without proofs.

usage: tools/program.py               builds the optimised program without proofs
       tools/program.py --contents    prints the sum of the sources of a proved program
"""
import contextlib
import fcntl
import hashlib
import os
import shutil
import subprocess
import sys
import time

TOP = os.path.dirname(os.path.dirname(os.path.abspath(__file__)))
TOOLS = os.path.join(TOP, "tools")
CRATES = os.path.join(TOP, "crates")
# The gate and `tools/prove` leave it there.
PROVED = os.path.join(CRATES, "replset", "out", "replset")
# The program that is built without proofs, and one that isn't optimised either, which soon stands. Git ignores the folder.
UNPROVED = os.path.join(TOP, "build", "replset")
QUICK = os.path.join(TOP, "build", "quick")

# A proved program is made of its definitions and proofs too.
PROVED_OF = ("src", "specs", "proofs")

# How many seconds a build takes where none was timed here yet.
USUAL_SECONDS = 150

# Statuses of the wrapper's own.
NO_TOOLCHAIN = 69
NOT_BUILT = 70

# The status of tools/build_unproved where the kit isn't made as it expects.
OTHER_KIT = 3


class Stop(Exception):
    """Why there is no program to run, with the status for it."""

    def __init__(self, status, why):
        super().__init__(why)
        self.status = status


def say(text):
    # Where standard error is closed, nothing is told.
    if sys.stderr:
        print(f"replset: {text}", file=sys.stderr, flush=True)


def libraries_of():
    """Of each crate of this repository the libraries that it names."""
    with open(os.path.join(TOP, "crates.txt")) as file:
        lines = [line.partition("#")[0].partition(":") for line in file]
    return {head.split()[0]: libraries.split() for head, colon, libraries in lines if colon}


def own_crates():
    """The program's crate and its libraries in this repository, each after those that it stands on."""
    found, needs = [], libraries_of()

    def visit(crate):
        if crate in needs and crate not in found:
            for library in needs[crate]:
                visit(library)
            found.append(crate)

    visit("replset")
    return found


def sources(parts):
    """The files that the program is made of: of each crate those below these folders."""
    yield os.path.join(TOP, "crates.txt")
    for crate in own_crates():
        for part in parts:
            for folder, _, names in os.walk(os.path.join(CRATES, crate, part)):
                yield from (os.path.join(folder, name) for name in names)


def contents(parts):
    """A sum of the names and the bytes of these sources."""
    whole = hashlib.sha256()
    for source in sorted(sources(parts)):
        with open(source, "rb") as file:
            part = hashlib.sha256(file.read()).hexdigest()
        whole.update(f"{os.path.relpath(source, TOP)} {part}\n".encode())
    return whole.hexdigest()


def noted(program, what):
    """What was noted beside a program, or nothing."""
    with contextlib.suppress(OSError), open(f"{program}.{what}") as file:
        return file.read().strip()
    return ""


def note(program, what, text):
    with open(f"{program}.{what}", "w") as file:
        file.write(f"{text}\n")


def is_current(program, parts):
    """Whether a program stands that is made of the present sources: none has changed since it was begun, or their
    times alone have, as in a copy or after a checkout of another revision and back."""
    if not os.access(program, os.X_OK):
        return False
    began = os.stat(program).st_mtime_ns
    if all(os.stat(source).st_mtime_ns <= began for source in sources(parts)):
        return True
    now = time.time()
    if noted(program, "sources") != contents(parts):
        return False
    os.utime(program, (now, now))
    return True


def proved():
    """The proved program of the present sources, where it stands."""
    return PROVED if is_current(PROVED, PROVED_OF) else None


def unproved():
    """The program that was built of the present sources without proofs, the faster one where both stand."""
    return next((program for program in (UNPROVED, QUICK) if is_current(program, ("src",))), None)


def stop_without_toolchain():
    if not shutil.which("rt"):
        raise Stop(NO_TOOLCHAIN, "the program isn't built yet, and there is no `rt` on the PATH, the toolchain's command, to build it")


@contextlib.contextmanager
def alone(program, how=fcntl.LOCK_EX):
    """Waits until no other call builds this program, or raises BlockingIOError where it is not to wait."""
    os.makedirs(os.path.dirname(program), exist_ok=True)
    with open(f"{program}.lock", "w") as lock:
        fcntl.flock(lock, how)
        yield


def called(*words, where=None):
    """Runs a tool, in a folder. Gives its end, with what it said."""
    return subprocess.run(words, cwd=where, stdin=subprocess.DEVNULL, stdout=subprocess.PIPE, stderr=subprocess.STDOUT, text=True)


def watched(program, *words):
    """Runs a tool that builds a program. A terminal is told each second how far it is. Gives its end, with what it said."""
    began, usual = time.time(), int(noted(program, "seconds") or USUAL_SECONDS)
    tool = subprocess.Popen(words, stdin=subprocess.DEVNULL, stdout=subprocess.PIPE, stderr=subprocess.STDOUT, text=True)
    shows = sys.stderr is not None and sys.stderr.isatty()
    while True:
        try:
            said, _ = tool.communicate(timeout=1)
            break
        except subprocess.TimeoutExpired:
            if shows:
                print(f"\rreplset: {time.time() - began:.0f} s of about {usual} s", end="", file=sys.stderr, flush=True)
    if shows:
        print("\r\033[K", end="", file=sys.stderr, flush=True)
    return tool.returncode, said, round(time.time() - began)


def build(program, *how):
    """Builds a program without proofs. False where the kit has no way to do so."""
    began, made, of = time.time(), f"{program}.new", contents(("src",))
    status, said, seconds = watched(program, os.path.join(TOOLS, "build_unproved"), *how, made)
    if status == OTHER_KIT:
        return False
    if status != 0:
        raise Stop(NOT_BUILT, f"the program could not be built\n{said}")
    # A source that changes meanwhile makes it old.
    os.utime(made, (began, began))
    note(program, "sources", of)
    note(program, "seconds", seconds)
    os.replace(made, program)
    say(f"built in {seconds} s")
    return True


def build_unproved():
    """Builds a program without proofs that isn't optimised. Gives how to call it: by `rt try` where the kit has no other way."""
    stop_without_toolchain()
    with alone(QUICK):
        standing = unproved()
        if standing:
            return [standing]
        seconds = noted(QUICK, "seconds") or USUAL_SECONDS
        say(f"building the program without proofs, in about {seconds} s; one that is ten times as fast follows in the background")
        if not build(QUICK, "--quick"):
            say("this kit keeps no program without proofs; `rt try` builds it for each run")
            return ["rt", "try", "--"]
    return [QUICK]


def optimise():
    """Builds the optimised program, where it doesn't stand. False where the kit has no way to do so."""
    if is_current(UNPROVED, ("src",)):
        return True
    stop_without_toolchain()
    say("building the program without proofs, which takes three minutes")
    return build(UNPROVED)


def optimise_later():
    """Has the optimised program built in the background, where no call does so yet."""
    nothing = dict.fromkeys(("stdin", "stdout", "stderr"), subprocess.DEVNULL)
    subprocess.Popen([sys.executable, os.path.abspath(__file__)], start_new_session=True, **nothing)


def prove():
    """Proves and builds the program, where no proved one stands."""
    if not proved():
        stop_without_toolchain()
        if subprocess.run([os.path.join(TOOLS, "prove")], stdin=subprocess.DEVNULL).returncode != 0:
            raise Stop(NOT_BUILT, "there is no proved program to run")


if __name__ == "__main__":
    if sys.argv[1:] == ["--contents"]:
        print(contents(PROVED_OF))
        sys.exit()
    os.nice(10)
    with contextlib.suppress(Stop, BlockingIOError), alone(UNPROVED, fcntl.LOCK_EX | fcntl.LOCK_NB):
        optimise()
