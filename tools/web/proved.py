#!/usr/bin/env python3
"""Keeps the module of the proved program, which tools/build_web then takes for the page: crates/replset/out/module.bc.

usage: tools/web/proved.py

The gate or tools/prove must have proved and built the program of these sources, whose libraries stand in crates/*/out. The
program's own crate is proved once more over them, and compiled. What the kit's compiler is handed for that is kept where it
makes the very program of it that stands there.

It ends with 1 where no such program stands, and with 3 where the kit isn't made as this expects.
"""
import filecmp
import os
import sys
import tempfile

sys.dont_write_bytecode = True
sys.path.insert(0, os.path.join(os.path.dirname(os.path.abspath(__file__)), ".."))
import program  # noqa: E402
from kit import KIT, TARGET, TOOLCHAIN, OtherKit, put_toolchain  # noqa: E402

#: Where the module is kept, with the sum of its sources beside it.
MODULE = os.path.join(os.path.dirname(program.PROVED), "module.bc")

NO_PROGRAM = 1
OTHER_KIT = 3

# Stands in for the kit's compiler: keeps the module, and has it compiled.
KEEPER = """#!/bin/sh
[ ! -f module.bc ] || cp module.bc "{module}"
exec "{toolchain}/bin/clang" "$@"
"""


def standing():
    """The module of the present sources' program, where it was kept."""
    is_same = os.path.isfile(MODULE) and program.noted(MODULE, "sources") == program.contents(program.PROVED_OF)
    return MODULE if is_same else None


def _rlib(crate, own):
    folder = os.path.join(program.CRATES, crate, "out", "rlib") if crate in own else os.path.join(KIT, "rlibs")
    return os.path.join(folder, f"{crate}.rlib")


def _libraries():
    """The flags that name the program's libraries, as they were built."""
    own = program.own_crates()[:-1]
    for library in ["std", *program.libraries_of()["replset"]]:
        yield from ("--extern", f"{library}={_rlib(library, own)}")
    for folder in [os.path.join(KIT, "rlibs"), *(os.path.dirname(_rlib(crate, own)) for crate in own)]:
        yield from ("-L", f"dependency={folder}")


def _build(room, module):
    """Proves and builds the program. Gives where it stands."""
    toolchain, made, built = (os.path.join(room, name) for name in ("toolchain", "replset.o", "replset"))
    put_toolchain(toolchain, KEEPER.format(module=module, toolchain=TOOLCHAIN))
    logic = ["--antt-project", f"{KIT}/rattle/logic/antt-project.json", "--logic-built", f"{KIT}/logic_built"]
    words = ["--crate-name", "replset", "src/main.rt", *_libraries(), *logic, "--backend", "llvm", "--toolchain", toolchain, "-o", made]
    link = ["--target", TARGET, "--toolchain", TOOLCHAIN, "-o", built, made, f"{KIT}/c/libos_c.a", f"{KIT}/c/liblibc_c.a"]
    for tool in (["rattle", "build", *words], ["rattle-link", *link]):
        done = program.called(f"{KIT}/bin/{tool[0]}", *tool[1:], where=os.path.join(program.CRATES, "replset"))
        if done.returncode:
            raise OtherKit(f"the program's crate was not built over the libraries in crates/*/out\n{done.stdout[-2000:]}")
    return built


def keep():
    """Keeps the module of the proved program."""
    sources = program.contents(program.PROVED_OF)
    if not program.proved():
        raise program.Stop(NO_PROGRAM, "no proved program of these sources stands: the gate and tools/prove build one")
    with program.alone(MODULE), tempfile.TemporaryDirectory(dir=os.path.dirname(MODULE)) as room:
        module = os.path.join(room, "module.bc")
        if not filecmp.cmp(_build(room, module), program.PROVED, shallow=False):
            raise OtherKit("the program that is built here isn't the one in crates/replset/out")
        os.replace(module, MODULE)
        program.note(MODULE, "sources", sources)


def main():
    if len(sys.argv) != 1:
        sys.exit(__doc__)
    try:
        if not standing():
            keep()
    except program.Stop as error:
        print(f"proved: {error}", file=sys.stderr)
        return NO_PROGRAM
    except (OtherKit, OSError) as error:
        print(f"proved: {error}", file=sys.stderr)
        return OTHER_KIT
    return 0


if __name__ == "__main__":
    sys.exit(main())
