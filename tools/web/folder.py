"""The folder that a server serves: what stands in it, and of what it is made."""
import hashlib
import json
import os
import tempfile
from pathlib import Path

import program
from kit import CLANG, OtherKit, keep_module
from lab.drawing import STYLE

from . import proved
from .lab import lab_modules
from .module import build_module
from .scripts import scripts

TOP = Path(program.TOP)
TOOLS = TOP / "tools"
PAGE = TOOLS / "web" / "page"

#: The module for browsers, which is kept as long as nothing changes that it is made of. Git ignores the folder.
KEPT = TOP / "build" / "replset.wasm"

#: The pages that the lab's explanations are taken from.
PAGES = ("docs/REFERENCE.md", "docs/GLOSSARY.md")


def _sum_of(files):
    whole = hashlib.sha256()
    for file in files:
        whole.update(hashlib.sha256(Path(file).read_bytes()).digest())
    return whole.hexdigest()


def _build(module):
    """Builds the module for browsers, of a proved one or of none."""
    if module:
        build_module(module, KEPT)
        return
    unproved = KEPT.with_name("module.bc")
    unproved.unlink(missing_ok=True)
    program.say("building the program's module without proofs, and for browsers, which takes some minutes")
    keep_module(os.path.join(program.CRATES, "replset"), str(unproved))
    build_module(unproved, KEPT)


def module_for_browsers():
    """The module, whether it is of the proved program, and the sum of the sources."""
    if not os.access(CLANG, os.X_OK):
        raise OtherKit("there is no `rt` on the PATH, the toolchain's command, whose compiler builds the program for browsers")
    module = proved.standing()
    sources = program.contents(program.PROVED_OF if module else ("src",))
    made_of = [CLANG, TOOLS / "kit.py", TOOLS / "web" / "module.py", *sorted((TOOLS / "web" / "c").iterdir()), *filter(None, [module])]
    told = f"{sources} {_sum_of(made_of)}"
    with program.alone(str(KEPT)):
        if not KEPT.is_file() or program.noted(str(KEPT), "sources") != told:
            _build(module)
            program.note(str(KEPT), "sources", told)
    return KEPT.read_bytes(), module is not None, sources


def files():
    """What stands in the folder: each file's bytes by its path."""
    module, is_proved, sources = module_for_browsers()
    found = {"replset.wasm": module}
    for path in sorted(PAGE.rglob("*")):
        if path.is_file():
            found[path.relative_to(PAGE).as_posix()] = path.read_bytes()
    for name, text in lab_modules(TOOLS / "lab").items():
        found[f"lab/{name}"] = text.encode()
    for page in PAGES:
        found[page] = (TOP / page).read_bytes()
    found["drawing.css"] = (STYLE + (TOOLS / "lab" / "drawing.css").read_text(encoding="utf-8")).encode()
    found["scripts.json"] = json.dumps(scripts(TOP), ensure_ascii=False, indent=0).encode()
    found["built.json"] = json.dumps({"proved": is_proved, "sources": sources[:12]}).encode()
    return found


def make(out):
    """Makes the folder anew, and then puts it in the place of the old one. What is there and is no such folder is left alone."""
    if out.exists() and any(out.iterdir()) and not (out / "built.json").is_file():
        raise OSError(f"{out} has files of something else")
    out.parent.mkdir(parents=True, exist_ok=True)
    with tempfile.TemporaryDirectory(dir=out.parent) as room:
        fresh = Path(room) / "fresh"
        for path, content in files().items():
            target = fresh / path
            target.parent.mkdir(parents=True, exist_ok=True)
            target.write_bytes(content)
        if out.exists():
            out.rename(Path(room) / "old")
        fresh.rename(out)
