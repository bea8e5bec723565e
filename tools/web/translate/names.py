"""What a translation knows of the lab's names: which are classes, how functions are called, and what gives a truth value."""
from __future__ import annotations

import ast
from typing import Dict, List, Optional, Set, Tuple

from .modules import Lab, Module, Place, fields_of, is_decorated, parameters_of, says_truth

#: Words that JavaScript keeps for itself.
KEPT = frozenset(
    "arguments await case catch class const debugger default delete do enum eval export extends function implements interface let "
    "new package private protected public static super switch this throw typeof var void with yield".split()
)

#: Methods of Python's own types, whose values have none of them in JavaScript, or another.
METHODS = frozenset(
    "append count decode encode endswith extend find hex index insert isdecimal isspace join ljust lower lstrip partition pop remove "
    "replace rfind rsplit rstrip sort split startswith strip upper zfill".split()
)

#: What always gives a truth value.
TRUTHS = {"isinstance", "any", "all", "bool", "startswith", "endswith", "isdecimal", "isspace"}


def named(name: str) -> str:
    """A name as JavaScript may have it."""
    return f"{name}_" if name in KEPT else name


class Names:
    """What the needed part of the lab defines."""

    def __init__(self, lab: Lab, needed: Dict[str, Set[str]]):
        self._lab = lab
        self.classes: Set[Place] = set()
        #: The parameters of each method, and of each class, by its name.
        self._methods: Dict[str, Tuple[str, ...]] = {}
        self._functions: Dict[Place, Tuple[str, ...]] = {}
        #: The names of what can be called on an object.
        self.methods: Set[str] = set()
        self._truths: Dict[str, List[bool]] = {}
        for module, names in needed.items():
            for name in names:
                self._learn(module, name, lab.definition((module, name)))

    def place(self, module: Module, name: str) -> Optional[Place]:
        """Where a name of a module is defined in the lab; none where it is Python's own."""
        if name in module.imported:
            return module.imported[name]
        return (module.name, name) if name in module.definitions else None

    def is_class(self, module: Module, name: str) -> bool:
        """Whether a name is a class of the lab."""
        return self.place(module, name) in self.classes

    def parameters(self, module: Module, called: ast.expr) -> Optional[Tuple[str, ...]]:
        """The parameters of what is called, in order."""
        if isinstance(called, ast.Attribute):
            return self._methods.get(called.attr)
        place = self.place(module, called.id) if isinstance(called, ast.Name) else None
        return None if place is None else self._functions.get(place)

    def gives_truth(self, name: str) -> bool:
        """Whether all that has this name gives a truth value."""
        return name in TRUTHS or name in self._truths and all(self._truths[name])

    def _learn(self, module: str, name: str, statement: ast.stmt) -> None:
        if isinstance(statement, ast.FunctionDef):
            self._functions[module, name] = tuple(parameters_of(statement))
            self._truths.setdefault(name, []).append(says_truth(statement.returns))
        elif isinstance(statement, ast.ClassDef):
            self.classes.add((module, name))
            self._functions[module, name] = tuple(one.target.id for one in fields_of(statement) if isinstance(one.target, ast.Name))
            self._learn_class(module, name, statement)

    def _learn_class(self, module: str, name: str, statement: ast.ClassDef) -> None:
        for field in fields_of(statement):
            if isinstance(field.target, ast.Name):
                self._truths.setdefault(field.target.id, []).append(says_truth(field.annotation))
        for method in statement.body:
            if not isinstance(method, ast.FunctionDef):
                continue
            own = parameters_of(method)[0 if is_decorated(method, "staticmethod") else 1 :]
            self._truths.setdefault(method.name, []).append(says_truth(method.returns))
            if method.name == "__init__":
                self._functions[module, name] = tuple(own)
            elif not is_decorated(method, "property"):
                self.methods.add(method.name)
                self._methods[method.name] = tuple(own)
