"""The page of commands, messages, replies and refusals, for tools/pages: where each is defined, decided, read and written.

All of it is found by the names of variants in the sources. Where something isn't found, `Missing` says what.
"""
import re
from functools import lru_cache
from pathlib import Path
from typing import Dict, FrozenSet, List, Set, Tuple

from source_places import (CRATES, MODEL, TOP, WORD, Missing, Place, Variant, cited, definition, definitions, done_by, equations,
                           files_of, lines_of, made_in, mentions, of_kind, reached, variants)

LAWS = ["set_model", "safety_laws", "client_laws", "linear_read", "change_stream", "commit_machine"]
NODE = ["node_answers", "node_commands", "node_messages", "node_core", "set_world"]
CHECKER = ["checker_machine", "checker_node"]
PARTS = ["doc_update", "reconfig_core", "member_config", "write_concern", "election_core", "oplog_fetcher", "rollback_core"]

# ---- laws and tests

@lru_cache(maxsize=None)
def laws() -> Tuple[Tuple[Place, FrozenSet[str]], ...]:
    """Each law, a public call without arguments, with all that its clauses name by the definitions of laws."""
    found = []
    for crate in LAWS:
        for file in files_of(crate, "src"):
            lines = lines_of(file)
            for at, line in enumerate(lines):
                law = re.match(r"pub fn (\w+)\(\)$", line)
                if law:
                    clauses = " ".join(lines[at + 1:at + 40]).split("{}")[0]
                    found.append((Place(law.group(1), file), frozenset(law_names(file, clauses))))
    return tuple(found)


def law_names(file: Path, clauses: str) -> Set[str]:
    """What the clauses of a law name, by definitions of crates of laws and of the model's file of laws."""
    imported: Dict[str, str] = {}
    for line in lines_of(file):
        begun = re.match(r"ghost use (\S+)\.\{(.*)\};", line)
        if begun:
            imported.update({name: f"{begun.group(1)}.{name}" for name in begun.group(2).split(", ")})
    names: Set[str] = set()
    for word in WORD.findall(clauses):
        place = definition(imported[word]) if word in imported else None
        left, seen = [place] if place else [], set()
        while left:
            here = left.pop()
            if here in seen:
                continue
            seen.add(here)
            for name in definitions(here.file).names_in(here.name):
                names.add(name)
                further = definition(name)
                if further and (further.file.parent != MODEL or further.file.stem in ("Safety", "Sessions")):
                    left.append(further)
    return names


def laws_of(kind: str, variant: str) -> List[Place]:
    return [law for law, names in laws() if any(name.endswith(f".{kind}.TheVariants.{variant}") for name in names)]


def tests_of(begins: str) -> Tuple[List[str], List[str]]:
    """The crates of tests and the examples in which a line begins so."""
    wanted = re.compile(rf"(?:^|[\"'`]|\\n|\s){re.escape(begins)}[\d{{]", re.MULTILINE)
    crates = sorted(path.name for path in CRATES.glob("checks*") if any(
        wanted.search("\n".join(lines_of(file))) for file in files_of(path.name, "src")))
    shown = sorted(path.stem for path in (TOP / "examples").glob("*.replset") if re.search(
        rf"^{re.escape(begins)}\d", path.read_text(encoding="utf-8"), re.MULTILINE))
    return crates, shown


# ---- texts

def link(place: Place) -> str:
    return f"[`{place.name}`](../../{place.file.relative_to(TOP)})"


def links(places: List[Place], what: str) -> str:
    """Links to some places. There has to be one: `what` says of what."""
    if not places:
        raise Missing(f"{what} isn't found")
    return ", ".join(link(place) for place in places)


def first_text(file: Path, name: str, variant: str) -> str:
    """The first text in what a definition says of a variant."""
    found = re.search(r'"([^"]*)"', equations(file, name, variant))
    if not found:
        raise Missing(f"`{name}` of {file.relative_to(TOP)} has no text for `{variant}`")
    return found.group(1)


def named_in(file: Path, variant: str, alias: str) -> List[Place]:
    """The definitions of a file that name a variant."""
    wanted = re.compile(rf"\b{alias}\.{variant}\b")
    return [Place(name, file) for name, body in definitions(file).bodies.items() if wanted.search("\n".join(body))]


def meaning(variant: str) -> Place:
    """The definition of what a command does."""
    rows = MODEL / "Rows.antt"
    places = cited(rows, equations(rows, "row", variant), {"Stores", "Outcome", "Rows"})
    if places:
        return places[0]
    deliver = Place("deliver", MODEL / "Deliver.antt")
    if "deliver" not in definitions(deliver.file).bodies:
        raise Missing(f"the definition of `{variant}` isn't found")
    return deliver


def laws_text(kind: str, variant: str) -> str:
    found = laws_of(kind, variant)
    return f"Laws that name it: {', '.join(link(law) for law in found)}." if found else "No law names it."


def tests_text(begins: str, variant: str) -> str:
    crates, shown = tests_of(begins)
    if not crates and not shown:
        raise Missing(f"no test and no example has a line with `{begins}` for `{variant}`")
    few = ", ".join(f"[{name}](../../examples/{name}.replset)" for name in shown[:3])
    more = f" and {len(shown) - 3} more" if len(shown) > 3 else ""
    tested = ", ".join(f"`{crate}`" for crate in crates)
    parts = ([f"Tests: {tested}"] if crates else []) + ([f"examples: {few}{more}"] if shown else [])
    return "; ".join(parts) + "."


def command_lines(command: Variant) -> List[str]:
    name, what = command.name, f"the command `{command.name}`"
    texts, words = CRATES / "run_checker/specs/Commands.antt", CRATES / "script_words/specs/Commands.antt"
    begins = first_text(texts, "command_text", name)
    means = meaning(name)
    deep = means.name != "deliver"
    rows = MODEL / "Rows.antt"
    cites = cited(rows, equations(rows, "row", name), set()) + [means]
    replies = of_kind(set().union(*(reached(place, ["set_model"]) for place in cites)), "Reply")
    parsed = named_in(words, name, "commands")
    return [
        f"### {name}", "", command.says, "",
        f"- Defined by {link(means)}; the line of a script begins with `{begins.split(' ')[0]}`.",
        f"- At the node: {links(done_by(NODE, 'Command', name, means.name, deep), f'{what} at the node')}. In the checker: "
        f"{links(done_by(CHECKER, 'Command', name, means.name, deep)[:2], f'{what} in the checker')}.",
        f"- Read by {links(parsed, f'the reading of {what}')}, in code "
        f"{links(made_in(['script_words'], 'Command', name), f'the code that reads {what}')}; written in a trace by "
        f"{links(done_by(['run_checker'], 'Command', name, '', False)[-1:], f'the text of {what}')}.",
        "- Replies: " + ", ".join(f"`{reply}`" for reply in replies) + ".",
        f"- {laws_text('Command', name)} {tests_text(begins, name)}", "",
    ]


def message_lines(body: Variant) -> List[str]:
    name, what, rules = body.name, f"the message `{body.name}`", MODEL / "Deliver.antt"
    means = cited(rules, equations(rules, "told", name), {"Stores", "Outcome"})
    if not means:
        raise Missing(f"the definition of {what} isn't found")
    sent = [Place(found, file) for file in files_of("set_model", "specs") for found in definitions(file).bodies
            if file.stem not in ("Deliver", "Taking", "Safety") and any(
                one.endswith(f".Body.TheVariants.{name}") for one in definitions(file).names_in(found))]
    return [
        f"### {name}", "", body.says, "",
        f"- Sent by {links(sent, f'the sending of {what}')}; what it does at its receiver: {link(means[0])}.",
        f"- At the node: {links(done_by(['node_messages'], 'Body', name, means[0].name)[:3], f'{what} at the node')}. "
        f"In the checker: {links(done_by(CHECKER, 'Body', name, means[0].name)[:3], f'{what} in the checker')}.",
        "- Replies: " + ", ".join(f"`{reply}`" for reply in of_kind(reached(means[0], ["set_model"]), "Reply")) + ".",
        f"- {laws_text('Body', name)}", "",
    ]


def reply_lines(reply: Variant) -> str:
    texts, what = CRATES / "transcript/specs/Replies.antt", f"the reply `{reply.name}`"
    begins = re.search(r'"([^"]*)"', equations(texts, "reply_text", reply.name))
    told = f", printed as `{begins.group(1).strip()}` .." if begins else ""
    written = links(done_by(["transcript"], "Reply", reply.name, "", False)[-1:], f"the text of {what}")
    return f"- `{reply.name}`{told} by {written}: {reply.says}"


def decided(crates: List[str], kind: str, variant: str) -> List[Place]:
    """The functions that give a refusal, themselves or by the refusal of a part that they pass on."""
    places = made_in(crates, kind, variant)
    for file, at in mentions(crates, rf"\b{kind}::{variant}\b"):
        for other in re.findall(rf"\b(\w+)::{variant}\b", " ".join(lines_of(file)[max(0, at - 1):at + 1])):
            owner = next((crate for crate in PARTS if other != kind and any(
                f"pub enum {other} {{" in lines_of(part) for part in files_of(crate, "src"))), None)
            places += made_in([owner], other, variant) if owner else []
    return [place for at, place in enumerate(places) if place not in places[:at]]


def defined(variant: str, kind: str) -> List[Place]:
    """The definitions that name a refusal."""
    return [Place(name, file) for crate in ["set_model", "doc_update", "repl_msg"] for file in files_of(crate, "specs")
            for name in definitions(file).bodies if (file.stem, name) != ("Admitted", "refusal_of")
            and any(re.search(rf"\b{kind}(\.TheVariants)?\.{variant}$", one) for one in definitions(file).names_in(name))]


def refusal_lines(refusal: Variant, kind: str, text: str) -> List[str]:
    what = f"the refusal `{refusal.name}`"
    both = ["election_core"] if kind == "VoteRefusal" else []
    printed = first_text(CRATES / "transcript/specs/Refusals.antt", text, refusal.name).strip()
    return [
        f"- `{printed}`: {refusal.says}",
        f"  Defined in {links(defined(refusal.name, kind), f'the definition of {what}')}; decided at the node in "
        f"{links(decided(NODE + both, kind, refusal.name), f'the decision of {what} at the node')}, and in the "
        f"checker in {links(decided(CHECKER + both, kind, refusal.name), f'the decision of {what} in the checker')}.",
    ]


def commands_page(note: str) -> List[str]:
    """The lines of the page."""
    model, messages = CRATES / "set_model/src", CRATES / "repl_msg/src/message.rt"
    lines = ["# Commands, messages, replies and refusals", "", note, "",
             "Where each is defined, where the node and the checker do it, where it is read and written, and which laws and",
             "tests name it. Every law holds of runs of all commands; here are those that name the command. A node that is",
             "down refuses most of them. [DEFINITIONS](../DEFINITIONS.md) reads the definitions aloud.", "",
             "## Commands", ""]
    for command in variants(model / "command.rt", "Command"):
        lines += command_lines(command)
    lines += ["## Messages", ""]
    for body in variants(messages, "Body"):
        lines += message_lines(body)
    lines += ["## Replies", ""] + [reply_lines(reply) for reply in variants(model / "reply.rt", "Reply")] + [""]
    lines += ["## Refusals of commands", ""]
    for refusal in variants(model / "reply.rt", "Refusal"):
        lines += refusal_lines(refusal, "Refusal", "refusal_text")
    lines += ["", "## Why a message isn't taken", ""]
    for refusal in variants(model / "reply.rt", "Ignored"):
        lines += refusal_lines(refusal, "Ignored", "ignored_text")
    lines += ["", "## Why a vote isn't given", ""]
    for refusal in variants(messages, "VoteRefusal"):
        lines += refusal_lines(refusal, "VoteRefusal", "vote_refusal_text")
    return lines
