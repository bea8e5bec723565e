"""The kit's compiler, and the module of a program as the kit hands it to that: for what is built without the kit's own word."""
import os
import re
import shutil
import subprocess
import sys
import tempfile

KIT = os.path.dirname(os.path.dirname(os.path.realpath(shutil.which("rt") or "")))
TOOLCHAIN = os.path.join(KIT, "toolchain")
CLANG = os.path.join(TOOLCHAIN, "bin", "clang")
TARGET = "x86_64-unknown-linux-gnu"

# Stands in for the kit's compiler: keeps the module that is to be tested at run time, and compiles nothing else of it.
KEEPER = """#!/bin/sh
case " $* " in *" -fsanitize=address "*) cp module.bc "{module}"; exit 1;; esac
exec "{kit}/toolchain/bin/clang" "$@"
"""

# Stands in for the prover, which `rt try` asks for hints beside its work.
SILENT = "#!/bin/sh\nexit 1\n"

FILLS = re.compile(r'^ +call void @llvm\.memset\.p0\.i64\(ptr %r\d+, i8 -86, i64 \d+, i1 false\)\n', re.M)
TESTS = re.compile(r'^ +call void @"rattle-llvm-checks::\w+"\(.*\n', re.M)
SLOWED = re.compile(r' sanitize_address "frame-pointer"="all" "probe-stack"="inline-asm"| "stack-probe-size"="\d+"')


class NotCompiled(Exception):
    """The sources aren't compiled."""


class OtherKit(Exception):
    """The kit isn't made as this expects."""


def _put_script(path, text):
    with open(path, "w") as out:
        out.write(text)
    os.chmod(path, 0o755)


def put_toolchain(folder, compiler):
    """Makes a folder that is the kit's toolchain, but with this script for its compiler."""
    os.makedirs(os.path.join(folder, "bin"))
    os.symlink(os.path.join(TOOLCHAIN, "lib"), os.path.join(folder, "lib"))
    for name in os.listdir(os.path.join(TOOLCHAIN, "bin")):
        if name != "clang":
            os.symlink(os.path.join(TOOLCHAIN, "bin", name), os.path.join(folder, "bin", name))
    _put_script(os.path.join(folder, "bin", "clang"), compiler)


def _kit_with_keeper(room, module):
    """A folder that is the kit but for its compiler and its prover."""
    bin_folder = os.path.join(room, "kit", "bin")
    os.makedirs(bin_folder)
    for name in os.listdir(KIT):
        if name not in ("bin", "toolchain"):
            os.symlink(os.path.join(KIT, name), os.path.join(room, "kit", name))
    _put_script(os.path.join(bin_folder, "rattle"), SILENT)
    for name in set(os.listdir(os.path.join(KIT, "bin"))) - {"rattle"}:
        put = shutil.copy if name in ("rt", "rtlib.py") else os.symlink
        put(os.path.join(KIT, "bin", name), os.path.join(bin_folder, name))
    put_toolchain(os.path.join(room, "kit", "toolchain"), KEEPER.format(module=module, kit=KIT))
    return os.path.join(bin_folder, "rt")


def keep_module(crate, module):
    """Puts the module of a program's crate there, unproved."""
    if not shutil.which("rt"):
        raise OtherKit("there is no `rt` on the PATH")
    with tempfile.TemporaryDirectory() as room:
        rt = _kit_with_keeper(room, module)
        tried = subprocess.run([sys.executable, rt, "try"], cwd=crate, stdin=subprocess.DEVNULL, capture_output=True, text=True)
    if not os.path.exists(module):
        said = (tried.stdout + tried.stderr)[-4000:]
        raise (NotCompiled if "error" in said else OtherKit)(f"{crate} was not compiled\n{said}")


def module_text(module, room):
    """The module as text, without the tests of indices and sums that `rt try` adds and the filling of what isn't yet written."""
    path = os.path.join(room, "module.ll")
    clang = [CLANG, f"--target={TARGET}", f"--sysroot={TOOLCHAIN}", "-march=x86-64", "--no-default-config"]
    subprocess.run([*clang, "-S", "-emit-llvm", "-O0", "-x", "ir", module, "-o", path], check=True)
    with open(path) as file:
        return SLOWED.sub("", TESTS.sub("", FILLS.sub("", file.read())))


def object_of(module, room, level, kind="-fPIE", changed=lambda text: text):
    """The object that LLVM makes of the module, whose text `changed` may change first."""
    text, made = os.path.join(room, "plain.ll"), os.path.join(room, "module.o")
    with open(text, "w") as file:
        file.write(changed(module_text(module, room)))
    clang = [CLANG, f"--target={TARGET}", f"--sysroot={TOOLCHAIN}", "-march=x86-64", "--no-default-config"]
    sections = ["-ffunction-sections", "-fdata-sections", kind, "-mllvm", "-trap-unreachable"]
    subprocess.run([*clang, *sections, level, "-c", "-x", "ir", text, "-o", made], check=True)
    return made
