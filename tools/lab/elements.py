"""Elements of a drawing: the lab writes them as text, and a page that has a drawing of its own makes them one by one."""
from __future__ import annotations

from dataclasses import dataclass, field
from typing import Dict, List, Sequence, Union
from xml.sax.saxutils import escape

#: What an attribute is: a text, or a number.
Attributes = Dict[str, Union[str, int]]


@dataclass
class Element:
    """An element: its name, its attributes, and what stands in it."""

    name: str
    attributes: Attributes = field(default_factory=dict)
    inside: List[Union["Element", str]] = field(default_factory=list)


def markup(part: Union[Element, str]) -> str:
    """An element as text, or a text as it may stand in one."""
    if isinstance(part, str):
        return escape(part)
    attributes = "".join(f' {name}="{_value(str(value))}"' for name, value in part.attributes.items())
    if not part.inside:
        return f"<{part.name}{attributes}/>"
    return f"<{part.name}{attributes}>" + all_markup(part.inside) + f"</{part.name}>"


def all_markup(parts: Sequence[Union[Element, str]], between: str = "") -> str:
    """Several of them, with a text between."""
    return between.join([markup(part) for part in parts])


def _value(text: str) -> str:
    return escape(text).replace('"', "&quot;")
