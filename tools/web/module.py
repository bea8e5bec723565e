"""The program's module for a browser: the same code, compiled for wasm64 by the kit's own compiler, with the little C of tools/web/c."""
import os
import re
import subprocess
import tempfile

from kit import CLANG, module_text

C = os.path.join(os.path.dirname(os.path.abspath(__file__)), "c")
TARGET = "wasm64-unknown-unknown"

# How memory is laid out there, as the compiler says it for this target.
LAYOUT = "e-m:e-p:64:64-p10:8:8-p20:8:8-i64:64-i128:128-n32:64-S128-ni:1:10:20"

# A call of any number of arguments has none in wasm, where each call has its own form.
SYSCALL = ("call i64 (i64, ptr, i64, i64, ptr, ...) @syscall(", "call i64 @rattle_syscall(")
SYSCALL_HEAD = (
    "@syscall(i64 noundef, ptr noundef, i64 noundef, i64 noundef, ptr noundef, ...)",
    "@rattle_syscall(i64 noundef, ptr noundef, i64 noundef, i64 noundef, ptr noundef)",
)

# Which processor of the kit's own target a function is for.
CPU = re.compile(r' "target-cpu"="[^"]*"')

STACK = 8 << 20


def for_browser(text):
    """The text of a module, with the target of a browser in place of its own."""
    text = re.sub(r'target datalayout = ".*"', f'target datalayout = "{LAYOUT}"', text)
    text = CPU.sub("", text.replace("x86_64-unknown-linux-gnu", TARGET))
    text = text.replace('{ sanitize_address "frame-pointer"="all" }', "{ nounwind }")
    return text.replace(*SYSCALL).replace(*SYSCALL_HEAD)


def _compiled(room):
    """The objects of the C files."""
    for name in sorted(os.listdir(C)):
        if name.endswith(".c"):
            made = os.path.join(room, f"{name}.o")
            plain = ["-O2", "-ffreestanding", "-nostdinc", "-fno-builtin", "-Wno-unknown-attributes"]
            subprocess.run([CLANG, f"--target={TARGET}", "--no-default-config", *plain, "-c", os.path.join(C, name), "-o", made], check=True)
            yield made


def build_module(module, target):
    """Compiles a module that the kit's compiler was to have, and puts it there for browsers."""
    with tempfile.TemporaryDirectory() as room:
        text, made = os.path.join(room, "browser.ll"), os.path.join(room, "module.o")
        with open(text, "w") as file:
            file.write(for_browser(module_text(module, room)))
        clang = [CLANG, f"--target={TARGET}", "--no-default-config", "-mbulk-memory", "-ffunction-sections"]
        subprocess.run([*clang, "-O2", "-c", "-x", "ir", text, "-o", made], check=True)
        linker = os.path.join(room, "wasm-ld")
        os.symlink(CLANG, linker)
        link = ["-mwasm64", "--no-entry", "--export=main", "-z", f"stack-size={STACK}", "--stack-first", "--gc-sections", "-s"]
        subprocess.run([linker, *link, made, *_compiled(room), "-o", target], check=True)
