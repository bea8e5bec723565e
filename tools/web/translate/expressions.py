"""Python's expressions as JavaScript's."""
from __future__ import annotations

import ast
import json
from typing import Callable, Dict, List, Optional, Set

from .modules import Module, NotTranslated
from .names import METHODS, Names, named

#: Operators that are calls, since Python's take more kinds of values, and whole numbers of any size.
OPERATORS = {
    ast.Add: "add", ast.Sub: "sub", ast.Mult: "mul", ast.Div: "div", ast.FloorDiv: "floordiv", ast.Mod: "mod", ast.Pow: "pow",
    ast.LShift: "shl", ast.RShift: "shr", ast.BitAnd: "and", ast.BitOr: "or", ast.BitXor: "xor",
}
ORDERS = {ast.Lt: "<", ast.LtE: "<=", ast.Gt: ">", ast.GtE: ">="}
ORDER_CALLS = {ast.Lt: "lt", ast.LtE: "le", ast.Gt: "gt", ast.GtE: "ge"}

#: A whole number beyond this is no number of JavaScript.
MOST_EXACT = 2**53 - 1


class Expressions:
    """Writes the expressions of a module."""

    def __init__(self, module: Module, names: Names):
        self.module, self.names = module, names
        #: The names that the function at hand, and those round it, make.
        self.own: List[Set[str]] = []
        self._count = 0
        #: Whether the module catches what an object hasn't.
        self._catches = any(
            isinstance(one, ast.Name) and one.id == "AttributeError" for made in module.definitions.values() for one in ast.walk(made)
        )

    def fault(self, node: ast.AST, what: str) -> NotTranslated:
        """What is thrown where something isn't translated."""
        return NotTranslated(self.module.name, node, what)

    def value(self, node: ast.expr) -> str:
        """An expression for its value."""
        writer: Optional[Callable[[ast.expr], str]] = getattr(self, f"_{type(node).__name__.lower()}", None)
        if writer is None:
            raise self.fault(node, type(node).__name__)
        return writer(node)

    def truth(self, node: ast.expr) -> str:
        """An expression for whether its value counts as true."""
        if isinstance(node, ast.BoolOp):
            sign = " && " if isinstance(node.op, ast.And) else " || "
            return "(" + sign.join(map(self.truth, node.values)) + ")"
        if isinstance(node, ast.UnaryOp) and isinstance(node.op, ast.Not):
            return f"!{self.truth(node.operand)}"
        return self.value(node) if self._is_truth(node) else f"py.bool({self.value(node)})"

    def _is_truth(self, node: ast.expr) -> bool:
        """Whether an expression gives true or false and nothing else."""
        if isinstance(node, ast.Call):
            called = node.func
            return self.names.gives_truth(called.attr if isinstance(called, ast.Attribute) else getattr(called, "id", ""))
        if isinstance(node, ast.Attribute):
            return self.names.gives_truth(node.attr)
        if isinstance(node, ast.BoolOp):
            return all(map(self._is_truth, node.values))
        is_constant = isinstance(node, ast.Constant) and isinstance(node.value, bool)
        return is_constant or isinstance(node, ast.Compare) or isinstance(node, ast.UnaryOp) and isinstance(node.op, ast.Not)

    # Single values.

    def _constant(self, node: ast.Constant) -> str:
        value = node.value
        if value is None or isinstance(value, bool):
            return {None: "null", True: "true", False: "false"}[value]
        if isinstance(value, str):
            return json.dumps(value)
        if isinstance(value, bytes):
            return f"py.bytes({json.dumps(value.decode('latin-1'))})"
        if isinstance(value, int):
            return str(value) if value <= MOST_EXACT else f"{value}n"
        if isinstance(value, float):
            return f"{value:g}" if value == round(value) else repr(value)
        raise self.fault(node, repr(value))

    def _name(self, node: ast.Name) -> str:
        name = node.id
        if any(name in own for own in self.own) or self.names.place(self.module, name):
            return named(name)
        return f"py.{self.module.libraries.get(name, name)}"

    def _attribute(self, node: ast.Attribute) -> str:
        if isinstance(node.value, ast.Name) and node.value.id == "str":
            return f"((text) => py.methods.{node.attr}(text))"
        held = self.value(node.value)
        if node.attr in self.names.methods:
            return f"py.bound({held}, {json.dumps(node.attr)})"
        known = isinstance(node.value, ast.Name) and (node.value.id == "self" or node.value.id in self.module.libraries)
        return f"py.attribute({held}, {json.dumps(node.attr)})" if self._catches and not known else f"{held}.{named(node.attr)}"

    def _joinedstr(self, node: ast.JoinedStr) -> str:
        parts = []
        for part in node.values:
            if isinstance(part, ast.Constant):
                text = json.dumps(part.value)[1:-1].replace('\\"', '"').replace("`", "\\`").replace("${", "\\${")
                parts.append(text)
            elif isinstance(part, ast.FormattedValue):
                parts.append("${" + self._formatted(part) + "}")
        return "`" + "".join(parts) + "`"

    def _formatted(self, part: ast.FormattedValue) -> str:
        value = self.value(part.value)
        if part.conversion == ord("r"):
            value = f"py.repr({value})"
        return f"py.str({value})" if part.format_spec is None else f"py.format({value}, {self.value(part.format_spec)})"

    def _starred(self, node: ast.Starred) -> str:
        return f"...{self.value(node.value)}"

    def _all(self, nodes: List[ast.expr]) -> str:
        return ", ".join(map(self.value, nodes))

    # Several values.

    def _list(self, node: ast.List) -> str:
        return f"[{self._all(node.elts)}]"

    def _tuple(self, node: ast.Tuple) -> str:
        return f"[{self._all(node.elts)}]"

    def _set(self, node: ast.Set) -> str:
        return f"py.set([{self._all(node.elts)}])"

    def _dict(self, node: ast.Dict) -> str:
        parts = []
        for key, value in zip(node.keys, node.values):
            said = self.value(value)
            parts.append(f"...{said}.items()" if key is None else f"[{self.value(key)}, {said}]")
        return f"py.dict([{', '.join(parts)}])"

    def _listcomp(self, node: ast.ListComp) -> str:
        return f"[...{self._generated(node.generators, node.elt)}]"

    def _setcomp(self, node: ast.SetComp) -> str:
        return f"py.set({self._generated(node.generators, node.elt)})"

    def _dictcomp(self, node: ast.DictComp) -> str:
        return f"py.dict({self._generated(node.generators, ast.Tuple([node.key, node.value], ast.Load()))})"

    def _generatorexp(self, node: ast.GeneratorExp) -> str:
        return self._generated(node.generators, node.elt)

    def _generated(self, loops: List[ast.comprehension], item: ast.expr) -> str:
        """What goes over the values of a comprehension."""
        opened, source = "", ""
        own: Set[str] = set()
        self.own.append(own)
        for place, loop in enumerate(loops):
            # The first is what the comprehension is called on; names in it are those round it.
            if place == 0:
                self.own.pop()
                source = self.value(loop.iter)
                self.own.append(own)
            goes_over = "$all" if place == 0 else self.value(loop.iter)
            own.update(one.id for one in ast.walk(loop.target) if isinstance(one, ast.Name))
            opened += f"for (const {self.target(loop.target)} of {goes_over}) "
            opened += "".join(f"if ({self.truth(test)}) " for test in loop.ifs)
        said = self.value(item)
        self.own.pop()
        return f"(function* ($all) {{ {opened}yield {said}; }})({source})"

    def target(self, node: ast.expr) -> str:
        """What is assigned to, where that is a name or several."""
        if isinstance(node, ast.Name):
            return named(node.id)
        if isinstance(node, (ast.Tuple, ast.List)):
            return "[" + ", ".join(map(self.target, node.elts)) + "]"
        if isinstance(node, ast.Starred):
            return f"...{self.target(node.value)}"
        if isinstance(node, ast.Attribute):
            return f"{self.value(node.value)}.{named(node.attr)}"
        raise self.fault(node, "this target")

    def _subscript(self, node: ast.Subscript) -> str:
        held, index = self.value(node.value), node.slice
        if isinstance(index, ast.Slice):
            return f"py.slice({held}, {self.bound(index.lower)}, {self.bound(index.upper)})"
        return f"py.get({held}, {self.value(index)})"

    def bound(self, node: Optional[ast.expr]) -> str:
        """An end of a slice."""
        return "null" if node is None else self.value(node)

    # Operators.

    def _unaryop(self, node: ast.UnaryOp) -> str:
        if isinstance(node.op, ast.Not):
            return self.truth(node)
        if isinstance(node.op, ast.USub) and isinstance(node.operand, ast.Constant):
            return f"-{self.value(node.operand)}"
        if isinstance(node.op, ast.USub):
            return f"py.sub(0, {self.value(node.operand)})"
        raise self.fault(node, type(node.op).__name__)

    def _binop(self, node: ast.BinOp) -> str:
        left, right = self.value(node.left), self.value(node.right)
        if isinstance(node.op, ast.Add) and (_is_text(node.left) or _is_text(node.right)):
            return f"({left} + {right})"
        return f"py.{OPERATORS[type(node.op)]}({left}, {right})"

    def _boolop(self, node: ast.BoolOp) -> str:
        if self._is_truth(node):
            return self.truth(node)
        said = self.value(node.values[-1])
        call = "both" if isinstance(node.op, ast.And) else "either"
        for one in reversed(node.values[:-1]):
            said = f"py.{call}({self.value(one)}, () => {said})"
        return said

    def _ifexp(self, node: ast.IfExp) -> str:
        return f"({self.truth(node.test)} ? {self.value(node.body)} : {self.value(node.orelse)})"

    def _compare(self, node: ast.Compare) -> str:
        values = [node.left, *node.comparators]
        if len(values) == 2:
            return self._compared(values[0], node.ops[0], values[1])
        self._count += 1
        names = [f"$c{self._count}_{place}" for place in range(len(values))]
        self.own.append(set(names))
        parts = [self._compared(ast.Name(one), op, ast.Name(other)) for one, op, other in zip(names, node.ops, names[1:])]
        self.own.pop()
        return f"(({', '.join(names)}) => {' && '.join(parts)})({self._all(values)})"

    def _compared(self, left: ast.expr, op: ast.cmpop, right: ast.expr) -> str:
        one, other = self.value(left), self.value(right)
        if isinstance(op, (ast.Is, ast.IsNot)):
            return f"({one} {'===' if isinstance(op, ast.Is) else '!=='} {other})"
        if isinstance(op, (ast.Eq, ast.NotEq)):
            if _is_plain(left) or _is_plain(right):
                return f"({one} {'===' if isinstance(op, ast.Eq) else '!=='} {other})"
            return f"{'' if isinstance(op, ast.Eq) else '!'}py.eq({one}, {other})"
        if isinstance(op, (ast.In, ast.NotIn)):
            return f"{'' if isinstance(op, ast.In) else '!'}py.has({other}, {one})"
        if _is_plain(left) or _is_plain(right):
            return f"({one} {ORDERS[type(op)]} {other})"
        return f"py.{ORDER_CALLS[type(op)]}({one}, {other})"

    # Calls.

    def _lambda(self, node: ast.Lambda) -> str:
        names = [one.arg for one in node.args.args]
        self.own.append(set(names))
        said = self.value(node.body)
        self.own.pop()
        return f"(({', '.join(map(named, names))}) => {said})"

    def _call(self, node: ast.Call) -> str:
        called = node.func
        if isinstance(called, ast.Name) and called.id == "isinstance":
            return self._isinstance(node)
        given = ", ".join(filter(None, [self._all(node.args), self._by_name(node)]))
        if isinstance(called, ast.Attribute):
            return self._method(called, given)
        made = isinstance(called, ast.Name) and self.names.is_class(self.module, called.id)
        made = made or isinstance(called, ast.Name) and called.id.endswith(("Error", "Exception")) and not self._is_own(called.id)
        return f"{'new ' if made else ''}{self.value(called)}({given})"

    def _is_own(self, name: str) -> bool:
        return any(name in own for own in self.own)

    def _method(self, called: ast.Attribute, given: str) -> str:
        held, name = called.value, called.attr
        if isinstance(held, ast.Name) and held.id in self.module.libraries and not self._is_own(held.id):
            return f"{self.value(held)}.{name}({given})"
        if isinstance(held, ast.Name) and held.id in ("dict", "bytes") and not self._is_own(held.id):
            return f"py.{held.id}.{name}({given})"
        if name in METHODS:
            return f"py.methods.{name}({', '.join(filter(None, [self.value(held), given]))})"
        return f"{self.value(held)}.{named(name)}({given})"

    def _by_name(self, node: ast.Call) -> str:
        """The arguments that are named in a call, in their places; of Python's own functions as one object."""
        if not node.keywords:
            return ""
        said: Dict[str, str] = {one.arg or "": self.value(one.value) for one in node.keywords}
        parameters = self.names.parameters(self.module, node.func)
        if parameters is None:
            return "{" + ", ".join(f"{name}: {value}" for name, value in said.items()) + "}"
        rest = parameters[len(node.args) :]
        if any(isinstance(one, ast.Starred) for one in node.args) or not set(said) <= set(rest):
            raise self.fault(node, f"the argument {', '.join(set(said) - set(rest))}")
        last = max(rest.index(name) for name in said)
        return ", ".join(said.get(name, "undefined") for name in rest[: last + 1])

    def _isinstance(self, node: ast.Call) -> str:
        kinds = node.args[1].elts if isinstance(node.args[1], ast.Tuple) else [node.args[1]]
        said = []
        for kind in kinds:
            if not isinstance(kind, ast.Name):
                raise self.fault(node, "this kind")
            said.append(named(kind.id) if self.names.is_class(self.module, kind.id) else json.dumps(kind.id))
        return f"py.isinstance({self.value(node.args[0])}, {', '.join(said)})"


def _is_text(node: ast.expr) -> bool:
    return isinstance(node, ast.JoinedStr) or isinstance(node, ast.Constant) and isinstance(node.value, str)


def _is_plain(node: ast.expr) -> bool:
    """Whether an expression is a number, a text or the like, so that JavaScript compares as Python does."""
    if isinstance(node, ast.UnaryOp):
        node = node.operand
    return _is_text(node) or isinstance(node, ast.Constant) and node.value is not None
