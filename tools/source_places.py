"""Finds variants, functions and definitions in the sources by their names, for the pages that tools/pages writes.

Where something isn't found, `Missing` says what.
"""
import re
from functools import lru_cache
from pathlib import Path
from typing import Dict, Iterator, List, NamedTuple, Optional, Set, Tuple

TOP = Path(__file__).resolve().parents[1]
CRATES = TOP / "crates"
MODEL = CRATES / "set_model/specs"

SIGNATURE = re.compile(r"^\s*(?:abbrev |unfoldable )*(?:pub )?(?:record |data )?([\w']+)(?: \(.*| :.*| [A-Z{].* where)$")
FUNCTION = re.compile(r"^\s*(?:pub(?:\([a-z]+\))? )?(?:const )?fn (\w+)")
WORD = re.compile(r"[\w.']+")
PATTERN = r"[\w:]+(?:\s*\{[^{}]*\}|\s*\((?:[^()]|\([^()]*\))*\))?"
NOTHING_DONE = re.compile(r"true|false|None|unreachable!|Some\(\*|[\w:]+::\w+\b[^(]*$|Ok\(\w+::Ignored")
PLAIN_STEPS = {"answered", "replies", "refuses", "unreachable", "copy", "borrowed", "recall_sound", "recall_up", "make_place"}


class Missing(Exception):
    """Something that the page has to say isn't in the sources."""


class Place(NamedTuple):
    """A definition or a function, and its file."""
    name: str
    file: Path


class Variant(NamedTuple):
    """A variant of an enum, and what its comment says."""
    name: str
    says: str


# ---- code

@lru_cache(maxsize=None)
def lines_of(file: Path) -> Tuple[str, ...]:
    return tuple(file.read_text(encoding="utf-8").splitlines())


@lru_cache(maxsize=None)
def files_of(crate: str, kind: str) -> Tuple[Path, ...]:
    """A crate's files of code or of definitions."""
    ending = "rt" if kind == "src" else "antt"
    return tuple(sorted((CRATES / crate / kind).glob(f"**/*.{ending}")))


def variants(file: Path, name: str) -> List[Variant]:
    """The variants of an enum, in order."""
    lines = lines_of(file)
    if f"pub enum {name} {{" not in lines:
        raise Missing(f"{file.relative_to(TOP)} has no enum `{name}`")
    found: List[Variant] = []
    said: List[str] = []
    for line in lines[lines.index(f"pub enum {name} {{") + 1:]:
        if line == "}":
            break
        named = re.match(r"    (\w+)[ ,({]", line)
        if line.startswith("    ///"):
            said.append(line[7:].strip())
        elif named:
            found.append(Variant(named.group(1), " ".join(said)))
            said = []
    return found


def function_at(file: Path, at: int) -> str:
    """The function in which a line stands."""
    for line in reversed(lines_of(file)[:at + 1]):
        named = FUNCTION.match(line)
        if named:
            return named.group(1)
    return ""


def mentions(crates: List[str], pattern: str) -> Iterator[Tuple[Path, int]]:
    """The lines of code in which a pattern occurs, outside of comments, clauses and imports."""
    wanted = re.compile(pattern)
    for crate in crates:
        for file in files_of(crate, "src"):
            for at, line in enumerate(lines_of(file)):
                if wanted.search(line) and not re.match(r"\s*(//|requires|ensures|ghost|use )", line):
                    yield file, at


def arm_after(file: Path, at: int, start: int) -> Optional[str]:
    """What follows the arrow of the arm whose pattern has this place; none where the place isn't in a pattern."""
    text = "\n".join(lines_of(file)[at:at + 30])[start:]
    pattern = re.match(rf"{PATTERN}(?:\s*\|\s*{PATTERN})*\s*=>\s*", text)
    if not pattern:
        return None
    rest = text[pattern.end():]
    if not rest.startswith("{"):
        return re.split(r"\n\s*(?:\w+::|_ =>|\})", rest)[0]
    depth = 0
    for end, letter in enumerate(rest):
        depth += (letter == "{") - (letter == "}")
        if depth == 0:
            return rest[:end + 1]
    return rest


def called_in(body: str, likely: str) -> List[str]:
    """The functions that an arm calls, the likeliest first."""
    names = [name for name in re.findall(r"(?<![\w:])([a-z_]\w*)\(", body) if name not in PLAIN_STEPS]
    return sorted(names, key=lambda name: (name != likely, likely not in name))


def function_named(crates: List[str], name: str) -> Optional[Place]:
    """Where a function of this name is."""
    for crate in crates:
        for file in files_of(crate, "src"):
            if any(re.match(rf"\s*(?:pub(?:\([a-z]+\))? )?(?:const )?fn {name}\b", line) for line in lines_of(file)):
                return Place(name, file)
    return None


def done_by(crates: List[str], kind: str, variant: str, likely: str, deep: bool = True) -> List[Place]:
    """The functions that the arms of a variant call, or in which they are where they call none."""
    found: List[Place] = []
    for file, at in mentions(crates, rf"\b{kind}::{variant}\b"):
        body = arm_after(file, at, lines_of(file)[at].index(f"{kind}::{variant}"))
        if body is None or function_at(file, at).startswith("recall") or NOTHING_DONE.match(body):
            continue
        places = [function_named(crates, name) for name in called_in(body, likely)] if deep else []
        place = next((place for place in places if place), None) or Place(function_at(file, at), file)
        if place not in found:
            found.append(place)
    exact = [place for place in found if place.name == likely]
    return exact or found


def made_in(crates: List[str], kind: str, variant: str) -> List[Place]:
    """The functions that make a value of a variant."""
    found: List[Place] = []
    for file, at in mentions(crates, rf"\b{kind}::{variant}\b"):
        start = re.search(rf"\b{kind}::{variant}\b", lines_of(file)[at])
        if start and arm_after(file, at, start.start()) is None:
            place = Place(function_at(file, at), file)
            if place not in found:
                found.append(place)
    return found


# ---- definitions

class Definitions:
    """A file's definitions by name, and what the names that it imports are."""

    def __init__(self, file: Path) -> None:
        self.file = file
        self.bodies: Dict[str, List[str]] = {}
        self.imported: Dict[str, str] = {}
        current = ""
        for line in lines_of(file):
            if line.startswith(("use ", "pub use ")):
                self.add_import(line)
                continue
            begun = SIGNATURE.match(line)
            if begun and re.match(r"\s*(?:abbrev|unfoldable|pub)\b|\S+ :", line) and not re.match(r"\s+pub \w+ :", line):
                current = begun.group(1)
                self.bodies.setdefault(current, [])
            if current and not line.strip().startswith("--"):
                self.bodies[current].append(line)

    def add_import(self, line: str) -> None:
        listed = re.match(r"(?:pub )?use (\S+)\.\{(.*)\}", line)
        aliased = re.match(r"(?:pub )?use (\S+) as (\w+)", line)
        if listed:
            for item in listed.group(2).split(", "):
                name, _, other = item.partition(" as ")
                self.imported[other or name] = f"{listed.group(1)}.{name}"
        elif aliased:
            self.imported[aliased.group(2) + "."] = aliased.group(1)

    def names_in(self, name: str) -> Set[str]:
        """What a definition names, each with its module."""
        found = set()
        for word in WORD.findall("\n".join(self.bodies[name])):
            head, _, last = word.rpartition(".")
            if head and head + "." in self.imported:
                found.add(f"{self.imported[head + '.']}.{last}")
            elif word in self.imported:
                found.add(self.imported[word])
            elif word in self.bodies and word != name:
                found.add(f"{module_of(self.file)}.{word}")
        return found


def module_of(file: Path) -> str:
    """The module that a file of definitions is."""
    parts = file.relative_to(CRATES).with_suffix("").parts
    return ".".join(("Rattle",) + parts)


@lru_cache(maxsize=None)
def definitions(file: Path) -> Definitions:
    return Definitions(file)


def definition(module_and_name: str) -> Optional[Place]:
    """Where a definition is, by its module and its name."""
    module, _, name = module_and_name.rpartition(".")
    parts = module.split(".")
    if len(parts) < 4 or parts[2] != "specs" or "declared" in parts:
        return None
    file = (CRATES / parts[1] / "specs" / Path(*parts[3:])).with_suffix(".antt")
    return Place(name, file) if file.is_file() and name in definitions(file).bodies else None


def reached(start: Place, within: List[str]) -> Set[str]:
    """All that a definition names, itself or by definitions of these crates."""
    found: Set[str] = set()
    left = [start]
    seen = {start}
    while left:
        place = left.pop()
        for name in definitions(place.file).names_in(place.name):
            found.add(name)
            further = definition(name)
            if further and further not in seen and name.split(".")[1] in within:
                seen.add(further)
                left.append(further)
    return found


def of_kind(names: Set[str], kind: str) -> List[str]:
    """The variants of an enum among some names."""
    return sorted(name.rpartition(".")[2] for name in names if f".{kind}.TheVariants." in name)


def equations(file: Path, name: str, variant: str) -> str:
    """What stands right of a definition's equals sign for a variant."""
    text = "\n".join(definitions(file).bodies.get(name, []))
    found = re.search(rf"^\s*{name}\b[^=\n]*[(. ]{variant}\b[^=\n]*=((?:.|\n    )*)", text, re.MULTILINE)
    if not found:
        raise Missing(f"`{name}` of {file.relative_to(TOP)} has no case for `{variant}`")
    return found.group(1)


def cited(file: Path, text: str, without: Set[str]) -> List[Place]:
    """The definitions of set_model that a text cites, but for those of some files."""
    here = definitions(file)
    names = [here.imported.get(word, f"{module_of(file)}.{word}") for word in WORD.findall(text)]
    found = [definition(name) for name in names]
    return [place for place in found if place and place.file.parent == MODEL and place.file.stem not in without]
