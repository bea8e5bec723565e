"""The modules that are translated: what stands in them, and what of it is needed."""
from __future__ import annotations

import ast
from dataclasses import dataclass, field
from pathlib import Path
from typing import Dict, Iterator, List, Optional, Set, Tuple

#: A name of the lab: its module, with dots, and the name in it.
Place = Tuple[str, str]


class NotTranslated(Exception):
    """Something that no translation is known of, with its module and line."""

    def __init__(self, module: str, node: ast.AST, what: str):
        super().__init__(f"tools/lab/{module.replace('.', '/')}.py, line {getattr(node, 'lineno', 0)}: {what} isn't translated")


@dataclass
class Module:
    """One module: its top level by name, what it takes from other modules of the lab, and what from Python's own."""

    name: str
    definitions: Dict[str, ast.stmt] = field(default_factory=dict)
    imported: Dict[str, Place] = field(default_factory=dict)
    libraries: Dict[str, str] = field(default_factory=dict)


class Lab:
    """The modules, read when they are asked for."""

    def __init__(self, folder: Path):
        self._folder = folder
        self._modules: Dict[str, Module] = {}

    def module(self, name: str) -> Module:
        """The module of that name."""
        if name not in self._modules:
            path = self._folder.joinpath(*name.split(".")).with_suffix(".py")
            self._modules[name] = _read(name, ast.parse(path.read_text(encoding="utf-8"), str(path)))
        return self._modules[name]

    def definition(self, place: Place) -> ast.stmt:
        """The statement that makes a name."""
        module, name = place
        found = self.module(module).definitions.get(name)
        if found is None:
            raise KeyError(f"tools/lab/{module}.py has no {name}")
        return found

    def needed(self, roots: List[Place], given: Set[Place]) -> Dict[str, Set[str]]:
        """Of each module the names that the roots rest on. What is given stands for itself, and nothing below it is needed."""
        found: Dict[str, Set[str]] = {}
        waiting = list(roots)
        while waiting:
            place = waiting.pop()
            names = found.setdefault(place[0], set())
            if place[1] in names:
                continue
            names.add(place[1])
            if place not in given:
                waiting += self._below(place)
        return found

    def _below(self, place: Place) -> Iterator[Place]:
        module = self.module(place[0])
        for name in sorted(_names_in(self.definition(place))):
            if name in module.imported:
                yield module.imported[name]
            elif name in module.definitions:
                yield place[0], name


def _read(name: str, tree: ast.Module) -> Module:
    module = Module(name)
    for statement in tree.body:
        if isinstance(statement, ast.ImportFrom) and statement.level:
            package = name.split(".")[: -statement.level]
            for alias in statement.names:
                where = ".".join([*package, *(statement.module or "").split(".")])
                module.imported[alias.asname or alias.name] = where, alias.name
        elif isinstance(statement, ast.ImportFrom):
            module.libraries.update({alias.asname or alias.name: alias.name for alias in statement.names})
        elif isinstance(statement, ast.Import):
            module.libraries.update({alias.asname or alias.name: alias.name for alias in statement.names})
        else:
            module.definitions.update({made: statement for made in _made_by(statement)})
    return module


def _made_by(statement: ast.stmt) -> List[str]:
    """The names that a statement of the top level makes."""
    if isinstance(statement, (ast.FunctionDef, ast.ClassDef)):
        return [statement.name]
    targets = statement.targets if isinstance(statement, ast.Assign) else []
    targets = [statement.target] if isinstance(statement, ast.AnnAssign) else targets
    return [node.id for target in targets for node in ast.walk(target) if isinstance(node, ast.Name)]


def _names_in(statement: ast.stmt) -> Set[str]:
    """All names that a statement reads when it is run; those of annotations don't count."""
    found: Set[str] = set()
    waiting: List[ast.AST] = [statement]
    while waiting:
        node = waiting.pop()
        if isinstance(node, ast.Name):
            found.add(node.id)
        for part, value in ast.iter_fields(node):
            if part in ("annotation", "returns"):
                continue
            waiting += [one for one in (value if isinstance(value, list) else [value]) if isinstance(one, ast.AST)]
    return found


def parameters_of(function: ast.FunctionDef) -> List[str]:
    """The names of a function's parameters."""
    return [one.arg for one in [*function.args.posonlyargs, *function.args.args, *function.args.kwonlyargs]]


def is_decorated(statement: ast.stmt, name: str) -> bool:
    """Whether `@name` stands over a function or a class."""
    marks = [mark.func if isinstance(mark, ast.Call) else mark for mark in getattr(statement, "decorator_list", [])]
    return any(isinstance(mark, ast.Name) and mark.id == name for mark in marks)


def is_named_tuple(statement: ast.ClassDef) -> bool:
    """Whether a class is a named tuple."""
    return any(isinstance(base, ast.Name) and base.id == "NamedTuple" for base in statement.bases)


def fields_of(statement: ast.ClassDef) -> List[ast.AnnAssign]:
    """The fields of a dataclass, or of a named tuple."""
    return [one for one in statement.body if isinstance(one, ast.AnnAssign)]


def says_truth(annotation: Optional[ast.expr]) -> bool:
    """Whether an annotation is `bool`."""
    return isinstance(annotation, ast.Name) and annotation.id == "bool"
