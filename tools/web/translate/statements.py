"""Python's statements as JavaScript's."""
from __future__ import annotations

import ast
from typing import Callable, List, Optional, Set

from .expressions import OPERATORS, Expressions
from .modules import fields_of, is_decorated, is_named_tuple, parameters_of
from .names import named

STEP = "  "


class Statements:
    """Writes the statements of a module."""

    def __init__(self, expressions: Expressions):
        self._say = expressions
        self._lines: List[str] = []
        self._depth = 0

    def written(self, statement: ast.stmt) -> str:
        """A statement of the top level, which other modules may import."""
        self._lines = []
        if isinstance(statement, ast.ClassDef):
            self._class(statement)
        elif isinstance(statement, ast.FunctionDef):
            self._function(statement, f"function{_star(statement)} {named(statement.name)}", [])
        elif isinstance(statement, ast.Assign) and len(statement.targets) == 1:
            self._put(f"const {self._say.target(statement.targets[0])} = {self._say.value(statement.value)};")
        elif isinstance(statement, ast.AnnAssign) and statement.value is not None:
            self._put(f"const {self._say.target(statement.target)} = {self._say.value(statement.value)};")
        else:
            raise self._say.fault(statement, type(statement).__name__)
        self._lines[0] = f"export {self._lines[0]}"
        return "\n".join(self._lines) + "\n"

    def _put(self, line: str) -> None:
        self._lines.append(STEP * self._depth + line if line else "")

    def _open(self, head: str) -> None:
        self._put(f"{head} {{".lstrip())
        self._depth += 1

    def _close(self, tail: str = "") -> None:
        self._depth -= 1
        self._put("}" + tail)

    # Classes.

    def _class(self, node: ast.ClassDef) -> None:
        base = None if is_named_tuple(node) else next((self._say.value(one) for one in node.bases), None)
        self._open(f"class {named(node.name)}" + (f" extends {base}" if base else ""))
        if is_decorated(node, "dataclass") or is_named_tuple(node):
            self._fields(node)
        for part in node.body:
            if isinstance(part, ast.FunctionDef) and part.name == "__init__":
                self._constructor(part, base is not None)
            elif isinstance(part, ast.FunctionDef) and not part.name.startswith("__"):
                own = [] if is_decorated(part, "staticmethod") else ["const self = this;"]
                got = "get " if is_decorated(part, "property") else ""
                self._function(part, f"{got}{_star(part)}{named(part.name)}", own, skip=len(own))
        self._close()

    def _fields(self, node: ast.ClassDef) -> None:
        """What a dataclass or a named tuple has of itself: the names of its fields, and what makes one of their values."""
        names = [one.target.id for one in fields_of(node) if isinstance(one.target, ast.Name)]
        given = []
        for name, field in zip(names, fields_of(node)):
            given.append(named(name) + ("" if field.value is None else f" = {self._opening(field.value)}"))
        self._put(f"static fields = [{', '.join(repr(named(name)) for name in names)}];".replace("'", '"'))
        self._open(f"constructor({', '.join(given)})")
        for name in names:
            self._put(f"this.{named(name)} = {named(name)};")
        self._close()

    def _opening(self, value: ast.expr) -> str:
        """What a field is where nothing is given."""
        if isinstance(value, ast.Call) and isinstance(value.func, ast.Name) and value.func.id == "field":
            maker = value.keywords[0].value
            return self._say.value(ast.Call(maker, [], []))
        return self._say.value(value)

    def _constructor(self, node: ast.FunctionDef, derived: bool) -> None:
        """As JavaScript wants it, the class above comes first, and only then `self`."""
        first = next((one for one in node.body if _is_super(one)), None)
        own = ["super();"] if derived and first is None else []
        own += ["const self = this;"] if first is None else []
        self._function(node, "constructor", own, skip=1)

    # Functions.

    def _function(self, node: ast.FunctionDef, head: str, own: List[str], skip: int = 0) -> None:
        defaults: List[Optional[ast.expr]] = [*node.args.defaults]
        plain = node.args.args
        missing: List[Optional[ast.expr]] = [None] * (len(plain) - len(defaults))
        given = []
        for one, default in list(zip(plain, missing + defaults))[skip:]:
            given.append(named(one.arg) + ("" if default is None else f" = {self._say.value(default)}"))
        names = set(parameters_of(node))
        if node.args.vararg:
            given.append(f"...{named(node.args.vararg.arg)}")
            names.add(node.args.vararg.arg)
        made = _made_in(node) - names
        self._say.own.append(names | made)
        self._open(f"{head}({', '.join(given)})")
        for line in own:
            self._put(line)
        if made:
            self._put(f"let {', '.join(sorted(map(named, made)))};")
        self._body(node.body)
        self._close()
        self._say.own.pop()

    def _body(self, statements: List[ast.stmt]) -> None:
        for statement in statements:
            self._statement(statement)

    def _statement(self, node: ast.stmt) -> None:
        writer: Optional[Callable[[ast.stmt], None]] = getattr(self, f"_{type(node).__name__.lower()}", None)
        if writer is None:
            raise self._say.fault(node, type(node).__name__)
        writer(node)

    def _functiondef(self, node: ast.FunctionDef) -> None:
        self._put(f"{named(node.name)} =")
        self._function(node, f"{STEP}function{_star(node)} ", [])
        self._lines[-1] += ";"

    def _return(self, node: ast.Return) -> None:
        self._put("return null;" if node.value is None else f"return {self._say.value(node.value)};")

    def _pass(self, _: ast.Pass) -> None:
        pass

    def _break(self, _: ast.Break) -> None:
        self._put("break;")

    def _continue(self, _: ast.Continue) -> None:
        self._put("continue;")

    def _nonlocal(self, _: ast.Nonlocal) -> None:
        pass

    def _expr(self, node: ast.Expr) -> None:
        if isinstance(node.value, ast.Constant):
            return
        if isinstance(node.value, (ast.Yield, ast.YieldFrom)):
            star = "*" if isinstance(node.value, ast.YieldFrom) else ""
            self._put(f"yield{star} {self._say.value(node.value.value or ast.Constant(None))};")
        elif _is_super(node):
            assert isinstance(node.value, ast.Call)
            self._put(f"super({', '.join(map(self._say.value, node.value.args))});")
            self._put("const self = this;")
        else:
            self._put(f"{self._say.value(node.value)};")

    # Assignments.

    def _assign(self, node: ast.Assign) -> None:
        value = self._say.value(node.value)
        for target in node.targets:
            self._store(target, value)

    def _annassign(self, node: ast.AnnAssign) -> None:
        if node.value is not None:
            self._store(node.target, self._say.value(node.value))

    def _store(self, target: ast.expr, value: str) -> None:
        if isinstance(target, ast.Subscript) and isinstance(target.slice, ast.Slice):
            ends = f"{self._say.bound(target.slice.lower)}, {self._say.bound(target.slice.upper)}"
            self._put(f"py.set_slice({self._say.value(target.value)}, {ends}, {value});")
        elif isinstance(target, ast.Subscript):
            self._put(f"py.put({self._say.value(target.value)}, {self._say.value(target.slice)}, {value});")
        elif isinstance(target, ast.Tuple) and any(isinstance(one, ast.Subscript) for one in target.elts):
            self._open("")
            self._put(f"const $parts = py.unpack({value}, {len(target.elts)});")
            for place, one in enumerate(target.elts):
                self._store(one, f"$parts[{place}]")
            self._close()
        elif isinstance(target, ast.Tuple) and not any(isinstance(one, ast.Starred) for one in target.elts):
            self._put(f"{self._say.target(target)} = py.unpack({value}, {len(target.elts)});")
        else:
            self._put(f"{self._say.target(target)} = {value};")

    def _augassign(self, node: ast.AugAssign) -> None:
        old, value = self._say.value(node.target), self._say.value(node.value)
        call = "extend" if isinstance(node.op, ast.Add) else OPERATORS[type(node.op)]
        self._store(node.target, f"py.{call}({old}, {value})")

    def _delete(self, node: ast.Delete) -> None:
        for target in node.targets:
            if not isinstance(target, ast.Subscript):
                raise self._say.fault(node, "this")
            held = self._say.value(target.value)
            if isinstance(target.slice, ast.Slice):
                ends = f"{self._say.bound(target.slice.lower)}, {self._say.bound(target.slice.upper)}"
                self._put(f"py.set_slice({held}, {ends}, []);")
            else:
                self._put(f"py.remove({held}, {self._say.value(target.slice)});")

    # What branches and repeats.

    def _if(self, node: ast.If, word: str = "if") -> None:
        self._open(f"{word} ({self._say.truth(node.test)})")
        self._body(node.body)
        if not node.orelse:
            self._close()
        elif len(node.orelse) == 1 and isinstance(node.orelse[0], ast.If):
            self._depth -= 1
            self._if(node.orelse[0], "} else if")
        else:
            self._close(" else {")
            self._depth += 1
            self._body(node.orelse)
            self._close()

    def _while(self, node: ast.While) -> None:
        self._open(f"while ({self._say.truth(node.test)})")
        self._body(node.body)
        self._close()

    def _for(self, node: ast.For) -> None:
        self._open(f"for ({self._say.target(node.target)} of {self._say.value(node.iter)})")
        self._body(node.body)
        self._close()

    def _assert(self, _: ast.Assert) -> None:
        pass

    # Errors.

    def _raise(self, node: ast.Raise) -> None:
        self._put(f"throw {self._say.value(node.exc)};" if node.exc else "throw $fault;")

    def _try(self, node: ast.Try) -> None:
        if node.orelse:
            raise self._say.fault(node, "else after try")
        self._open("try")
        self._body(node.body)
        if node.handlers:
            self._close(" catch ($fault) {")
            self._depth += 1
            for place, handler in enumerate(node.handlers):
                self._handler(handler, place == 0)
            self._close(" else {")
            self._put(f"{STEP}throw $fault;")
            self._put("}")
        if node.finalbody:
            self._close(" finally {")
            self._depth += 1
            self._body(node.finalbody)
        self._close()

    def _handler(self, handler: ast.ExceptHandler, first: bool) -> None:
        kinds = handler.type.elts if isinstance(handler.type, ast.Tuple) else [handler.type]
        asked = ", ".join(self._say.value(kind) for kind in kinds if kind is not None)
        if first:
            self._open(f"if (py.caught($fault, {asked}))")
        else:
            self._close(f" else if (py.caught($fault, {asked})) {{")
            self._depth += 1
        if handler.name:
            self._put(f"{named(handler.name)} = $fault;")
        self._body(handler.body)


def _is_super(node: ast.stmt) -> bool:
    return isinstance(node, ast.Expr) and ast.unparse(node).startswith("super().__init__(")


def _star(node: ast.FunctionDef) -> str:
    """A star where a function gives its values one after another."""
    waiting: List[ast.AST] = [*node.body]
    while waiting:
        one = waiting.pop()
        if isinstance(one, (ast.Yield, ast.YieldFrom)):
            return "*"
        if not isinstance(one, (ast.FunctionDef, ast.Lambda)):
            waiting += ast.iter_child_nodes(one)
    return ""


def _made_in(node: ast.FunctionDef) -> Set[str]:
    """The names that a function makes, but for those of functions and comprehensions in it."""
    made: Set[str] = set()
    waiting: List[ast.AST] = [*node.body]
    while waiting:
        one = waiting.pop()
        if isinstance(one, ast.Name) and isinstance(one.ctx, ast.Store):
            made.add(one.id)
        elif isinstance(one, ast.FunctionDef):
            made.add(one.name)
        elif isinstance(one, ast.ExceptHandler) and one.name:
            made.add(one.name)
        if not isinstance(one, (ast.FunctionDef, ast.Lambda, ast.ListComp, ast.SetComp, ast.DictComp, ast.GeneratorExp)):
            waiting += ast.iter_child_nodes(one)
    return made - {name for one in node.body if isinstance(one, ast.Nonlocal) for name in one.names}
