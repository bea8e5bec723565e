"""For tests of applications: a plugin of pytest, and a state machine of Hypothesis. Neither needs to be
installed for the rest."""
from __future__ import annotations

from typing import TYPE_CHECKING, Any

if TYPE_CHECKING:
    from .machine import FailoverMachine

__all__ = ["FailoverMachine"]


def __getattr__(name: str) -> Any:
    if name != "FailoverMachine":
        raise AttributeError(name)
    try:
        from .machine import FailoverMachine
    except ModuleNotFoundError as fault:
        raise ImportError(f"FailoverMachine needs Hypothesis, which isn't installed here ({fault})") from None
    return FailoverMachine
