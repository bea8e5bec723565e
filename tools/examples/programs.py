"""Which programs play the examples."""
from __future__ import annotations

import os
from pathlib import Path
from typing import List, Optional, Union

import program as checkout

#: The gate leaves the program as LLVM compiles it, and so as the compiler that is written in Rattle does.
BY_RATTLE = checkout.PROVED + ".by-rattle"

#: Each crate's folders whose change makes a proved program old.
PARTS = ("src", "specs", "proofs")


class Missing(Exception):
    """Why there is no program."""


def found() -> List[str]:
    """What the environment names; else proved ones of the present sources; else one without proofs."""
    named = os.environ.get("REPLSET")
    if named:
        if not is_program(named):
            raise Missing(f"REPLSET names {named}, which is no program")
        return [os.path.abspath(named)]
    proved = [place for place in (checkout.PROVED, BY_RATTLE) if checkout.is_current(place, PARTS)]
    return proved or [checkout.unproved() or built()]


def printer_of_scripts() -> Optional[str]:
    """The program that prints generated scripts, where it is built."""
    top = Path(checkout.TOP)
    named = os.environ.get("SEED_SCRIPT")
    places = [named] if named else [top / "crates/seed_script/out/seed_script", top / "build/seed_script"]
    return next((str(place) for place in places if is_program(place)), None)


def is_program(place: Union[str, Path]) -> bool:
    """Whether the file is one that can be run."""
    return os.path.isfile(place) and os.access(place, os.X_OK)


def built() -> str:
    """The optimised program, which is built without proofs."""
    try:
        with checkout.alone(checkout.UNPROVED):
            if checkout.optimise():
                return checkout.UNPROVED
    except checkout.Stop as stop:
        raise Missing(str(stop)) from None
    raise Missing("this kit keeps no program without proofs: set REPLSET to the path of one")
