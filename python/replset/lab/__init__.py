"""The lab's modules: beside this file in an installed package, in `tools/lab` in a checkout."""
from pathlib import Path
from typing import List

__path__: List[str]

_IN_CHECKOUT = Path(__file__).resolve().parents[3] / "tools" / "lab"
if _IN_CHECKOUT.is_dir():
    __path__.append(str(_IN_CHECKOUT))
