"""Runs `replset`, which plays a script on a replica set and prints what each command is answered.

usage: replset run < SCRIPT
       replset chaos SEED EVENTS NODES
       replset sync NODE < SCRIPT
       replset linear NODE COLL ID < SCRIPT
       replset watch COLL TOKEN NODE... < SCRIPT
       replset trace < SCRIPT
       replset check < TRACE

       replset --prove [WORD ..]    proves and builds the program first, then runs it on the words, where there are any
       replset --unproved WORD ..   runs the program that is built without proofs, even where a proved one stands
       replset --web [PORT]         serves a page in which scripts are played, on 127.0.0.1, and prints its address
       replset --install PREFIX     puts the program, the lab, the manual page and shell completion below PREFIX
       replset --uninstall PREFIX   removes all that was put below PREFIX; an installed program needs none
       replset --help | --version

Where no proved program of these sources stands, one is built without proofs. That takes a minute or two, the first time
and where a source changed, and standard error says that nothing was proved. It is built quickly and runs slowly; one that is
optimised is built in the background then, for three minutes, and is run from then on. `.ci/run`, the gate, proves and builds
all.
Standard output has what the program writes, and nothing else but what these options tell.

status: 0 the script was run, or the trace is that of a run
        1 out of memory
        2 the words are none of the above
        3 the input is no script; the line that is at fault is written
        4 the input could not be read
        5 the output could not be written
        6 the script has more than 8,388,608 bytes, or the trace more than 67,108,864
        7 a disk failed while the set was opened
        8 a disk of a new member failed
        9 what was to come after the script was refused; the last line tells why
        10 the input is no trace; the line that shows it is written
        69 there is no toolchain to build the program
        70 the program could not be built, proved or installed
"""
import contextlib
import os
import re
import shutil
import signal
import subprocess
import sys

sys.dont_write_bytecode = True
import program
from program import NOT_BUILT, TOP, Stop, say

# Where --install put the program, by whether it is proved. A checkout has no such folder.
INSTALLED = os.path.join(TOP, "program")

# ./replset hands on its input there, where it has one.
INPUT = 3

WRONG_WORDS = 2
OUTPUT_FAILED = 5

# The program itself writes a line with the statuses 2, 3, 9 and 10.
MEANING = {
    1: "out of memory; what was written is the beginning of the output",
    4: "the input could not be read",
    OUTPUT_FAILED: "the output could not be written; what was written is the beginning of it",
    6: "the script has more than 8,388,608 bytes, or the trace more than 67,108,864",
    7: "a disk failed while the set was opened",
    8: "a disk of the new member failed",
}

# The least and the greatest value of a number in the usage line, and the form of other words.
BOUNDS = {"SEED": (0, 2**64 - 1), "EVENTS": (0, 5_000), "NODES": (1, 50)}
FORMS = {"COLL": "[A-Za-z][A-Za-z0-9_.]{0,63}", "TOKEN": "start|[0-9a-f]{32}", "NODE": "n[0-9]{1,2}", "NODE...": "n[0-9]{1,2}"}
FORMS["ID"] = "(?s)[^-].*"

# How many words a name with dots may stand for.
MOST_WORDS = 50

# EVENTS times NODES.
MOST_PRODUCT = 50_000

NOTHING_PROVED = (
    "nothing was proved on this machine: this program is built from its sources without proofs; "
    "in a checkout `.ci/run` proves and builds it, and so does `./replset --prove`"
)


def usage():
    """The program's own usage line, as its source has it."""
    with open(os.path.join(TOP, "crates", "set_program", "src", "asking.rt")) as source:
        text = re.search(r'USAGE: &str = "(usage: .*?)\\n";', source.read(), re.DOTALL)[1]
    return re.sub(r"\\\n *", "", text)


def is_fit(name, word):
    if name in FORMS:
        return re.fullmatch(FORMS[name], word) is not None
    least, most = BOUNDS.get(name, (0, 0))
    return name not in BOUNDS or (re.fullmatch("[0-9]{1,20}", word) is not None and least <= int(word) <= most)


def is_short(told):
    """Whether a generated script that these words ask for has no more lines than a script may have."""
    return int(told.get("EVENTS", 0)) * int(told.get("NODES", 0)) <= MOST_PRODUCT


def is_asked_by(row, words):
    """Whether these words fit a row of the usage line: the same first word, and one word for each name. A name with
    dots stands for several."""
    _, first, *names = row.split()
    if row.endswith("..."):
        names += names[-1:] * min(len(words) - 1 - len(names), MOST_WORDS - 1)
    fits = len(words) == len(names) + 1 and all(map(is_fit, names, words[1:]))
    return words[:1] == [first] and fits and is_short(dict(zip(names, words[1:])))


def are_words(words):
    """Whether the program knows these words."""
    return any(is_asked_by(row, words) for row in usage().removeprefix("usage: ").split(" | "))


def stop_on_wrong_words(words):
    """Does what the program does where it is asked for nothing, so that it need not be built for that."""
    if not are_words(words):
        try:
            os.write(1, f"{usage()}\n".encode())
        except OSError:
            raise Stop(OUTPUT_FAILED, MEANING[OUTPUT_FAILED]) from None
        sys.exit(WRONG_WORDS)


def is_installed():
    return os.path.isdir(INSTALLED)


def installed_program():
    """How to call the program that --install put here, and whether it is proved."""
    for name in ("proved", "unproved"):
        path = os.path.join(INSTALLED, name)
        if os.path.exists(path):
            return [path], name == "proved"
    raise Stop(NOT_BUILT, f"there is no program in {INSTALLED}")


def unproved_program(words):
    """How to call the program that is built without proofs; it is built now where it doesn't stand."""
    standing = program.unproved()
    if not standing:
        stop_on_wrong_words(words)
    call = [standing] if standing else program.build_unproved()
    if call == [program.QUICK]:
        program.optimise_later()
    return call


def program_for(words):
    """How to call the program, and whether it is proved."""
    if is_installed():
        return installed_program()
    proved = program.proved()
    return ([proved], True) if proved else (unproved_program(words), False)


def handed_input():
    """The input of ./replset; none where that was closed."""
    with contextlib.suppress(OSError):
        os.fstat(INPUT)
        return INPUT
    return None


def run(call, words):
    """Runs the program, and gives its status. Signals for this process are for the program too."""
    where = None if len(call) == 1 else os.path.join(program.CRATES, "replset")
    child = subprocess.Popen([*call, *words], stdin=handed_input(), cwd=where)
    for number in (signal.SIGINT, signal.SIGTERM, signal.SIGHUP):
        signal.signal(number, lambda number, _: child.send_signal(number))
    status = child.wait()
    if status < 0:
        say(f"the program was ended by {signal.Signals(-status).name}")
        return 128 - status
    if status in MEANING:
        say(MEANING[status])
    return status


def run_any(words):
    """Runs the program that stands or can be built, and tells where nothing of it is proved."""
    call, is_proved = program_for(words)
    if not is_proved:
        say(NOTHING_PROVED)
    return run(call, words)


def run_unproved(words):
    return run(installed_program()[0] if is_installed() else unproved_program(words), words)


def prove(words):
    """Proves and builds the program, and runs it on the words, where there are any."""
    if is_installed():
        raise Stop(NOT_BUILT, "this is an installed program: --prove is for a checkout of its repository")
    if words:
        stop_on_wrong_words(words)
    program.prove()
    return run([program.PROVED], words) if words else 0


def web(words):
    """Makes the folder of the page, where it isn't that of the present sources, and serves it."""
    if is_installed() or len(words) > 1 or not all(map(str.isdecimal, words)):
        say("usage: ./replset --web [PORT], in a checkout")
        return WRONG_WORDS
    folder = os.path.join(TOP, "build", "web")
    if subprocess.run([os.path.join(program.TOOLS, "build_web"), folder], stdin=subprocess.DEVNULL).returncode:
        raise Stop(NOT_BUILT, "the page could not be made")
    serve = [sys.executable, os.path.join(program.TOOLS, "web", "serve.py"), folder, *words]
    os.execv(sys.executable, serve)


def version():
    """The commit of the checkout, and its date."""
    kept = os.path.join(TOP, "version")
    if os.path.exists(kept):
        with open(kept) as file:
            return file.read().strip()
    with contextlib.suppress(OSError):
        asked = program.called("git", "-C", TOP, "log", "-1", "--format=%h of %cs")
        if asked.returncode == 0:
            return asked.stdout.strip()
    return "of no commit"


def tell_version(_):
    print(f"replset {version()}")
    if is_installed():
        print("proved" if installed_program()[1] else "built without proofs")
    elif program.proved():
        print(f"proved: {program.PROVED}")
    else:
        standing = program.unproved()
        print(f"built without proofs: {standing}" if standing else "not built yet")
    return 0


def install(words):
    """Puts the program with all that goes with it below the folder that is named."""
    if len(words) != 1 or not words[0] or is_installed():
        say("usage: ./replset --install PREFIX, in a checkout")
        return WRONG_WORDS
    proved = program.proved()
    if not proved:
        with program.alone(program.UNPROVED):
            if not program.optimise():
                raise Stop(NOT_BUILT, "there is no program of its own to install")
        say(NOTHING_PROVED)
    kind = "proved" if proved else "unproved"
    installed = subprocess.run([os.path.join(program.TOOLS, "install"), words[0], proved or program.UNPROVED, kind, version()])
    return NOT_BUILT if installed.returncode else 0


def uninstall(words):
    """Removes each file that was put below the folder, and the folders that are empty then."""
    prefix = os.path.abspath(words[0]) if words else os.path.dirname(os.path.dirname(TOP))
    own = os.path.join(prefix, "libexec", "replset")
    if len(words) > 1 or not (words or is_installed()):
        say("usage: ./replset --uninstall PREFIX; an installed program needs no PREFIX")
        return WRONG_WORDS
    if not os.path.exists(os.path.join(own, "installed")):
        raise Stop(NOT_BUILT, f"nothing is installed in {prefix}")
    with open(os.path.join(own, "installed")) as file:
        paths = [os.path.join(prefix, line.rstrip("\n")) for line in file]
    for path in paths:
        with contextlib.suppress(FileNotFoundError):
            os.remove(path)
            print(path)
    shutil.rmtree(own)
    for folder in sorted({os.path.dirname(path) for path in paths} | {os.path.dirname(own)}, key=len, reverse=True):
        with contextlib.suppress(OSError):
            os.removedirs(folder)
    return 0


def tell_help(_):
    """An installed program has no use for what needs a checkout."""
    told = __doc__.strip()
    if is_installed():
        told = re.sub(r"\n *replset --(prove|web|install) .*", "", told)
        told = re.sub(r"\nWhere no proved program of these sources stands.*?builds\nall\.", "", told, flags=re.DOTALL)
        told = re.sub(r"\n +(69|70) .*", "", told)
    print(told)
    return 0


OPTIONS = {
    "--help": tell_help,
    "-h": tell_help,
    "--version": tell_version,
    "--install": install,
    "--uninstall": uninstall,
    "--prove": prove,
    "--web": web,
    "--unproved": run_unproved,
}


def main(words):
    option = OPTIONS.get(words[0]) if words else None
    return option(words[1:]) if option else run_any(words)


if __name__ == "__main__":
    try:
        sys.exit(main(sys.argv[1:]))
    except Stop as stop:
        say(stop)
        sys.exit(stop.status)
    except OSError as error:
        say(f"{error.strerror}: {error.filename}")
        sys.exit(NOT_BUILT)
    except KeyboardInterrupt:
        sys.exit(128 + signal.SIGINT)
