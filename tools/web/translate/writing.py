"""The modules of JavaScript, and which names of the lab they have."""
from __future__ import annotations

import ast
from pathlib import Path
from typing import Dict, List, Set

from .expressions import Expressions
from .modules import Lab, Module, Place
from .names import Names, named
from .statements import Statements

#: What stands over each module.
HEAD = "// Translated from tools/lab/{module}.py by tools/build_web.\n"


def translated(folder: Path, roots: List[Place], given: Set[Place]) -> Dict[str, str]:
    """The modules that the roots rest on, by their paths. What is given comes from `given.js`, under its own name."""
    lab = Lab(folder)
    needed = lab.needed(roots, given)
    names = Names(lab, needed)
    made: Dict[str, str] = {}
    for name in sorted(needed):
        own = {one for one in needed[name] if (name, one) not in given}
        if own:
            made[_path(name)] = _module(lab.module(name), own, names, needed, given)
    return made


def _path(module: str) -> str:
    return module.replace(".", "_") + ".js"


def _module(module: Module, own: Set[str], names: Names, needed: Dict[str, Set[str]], given: Set[Place]) -> str:
    statements = []
    seen: List[ast.stmt] = []
    for name, statement in module.definitions.items():
        if name in own and statement not in seen:
            seen.append(statement)
            statements.append(Statements(Expressions(module, names)).written(statement))
    told = HEAD.format(module=module.name.replace(".", "/")) + 'import * as py from "../python/python.js";\n'
    return told + _imports(module, needed, given, "\n".join(statements)) + "\n" + "\n".join(statements)


def _imports(module: Module, needed: Dict[str, Set[str]], given: Set[Place], text: str) -> str:
    """The lines that import what the text names of other modules."""
    found: Dict[str, Set[str]] = {}
    for name, place in module.imported.items():
        if place[1] in needed.get(place[0], set()) and named(name) in text:
            found.setdefault("../given.js" if place in given else f"./{_path(place[0])}", set()).add(named(place[1]))
    for module_name, name in given:
        if module_name == module.name and name in needed.get(module_name, set()):
            found.setdefault("../given.js", set()).add(named(name))
    return "".join(f'import {{ {", ".join(sorted(what))} }} from "{path}";\n' for path, what in sorted(found.items()))
