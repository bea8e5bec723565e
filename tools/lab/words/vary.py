"""`lab vary`: what may happen round a script, and what of it makes a difference."""
from __future__ import annotations

import argparse
import os
import re
from collections import Counter
from itertools import compress, repeat
from typing import Callable, Dict, Iterable, Iterator, List, Sequence, Tuple

from ..branches import End, Runs
from ..errors import DIFFERENT, INTERRUPT, NOTHING, WORDS, LabError
from ..expand import Expanded, read_expanded
from ..outcomes import Outcome, Watch, differences, usual_outcomes
from ..program import script_bytes, write_file
from ..script import set_size
from ..show import Progress
from ..telling import of_name, verdicts_of
from ..variations import KINDS, Variation, faults, lines_of, orders
from ..verdicts import MEANINGS, Verdict
from ..workers import some_in_order
from .shrink import pattern

SUMMARY = "plays variations of a script, and tells what makes a difference"
DETAILS = """\
Each delivery is lost (drop), comes twice (repeat), and comes after the next one (swap); after each line each node crashes
for good (crash), and crashes and comes back at once (bounce). In each run there is one of these faults, or with --faults 2
every two of them, too. With --orders the lines of the file that it names stand in each of their orders instead, a macro
with all lines that it came to. A short script is expanded first, and then not again.

Two things are compared with the script as it is: the replies that --watch names (a regular expression that is looked for in
each command and in its reply), and the documents that each node has at the end, where it is up in both. What comes of a
block's lists in another order is no difference. Told are also the verdicts of all runs ('lab verdict --help' names them);
with --verdict NAME that verdict alone is looked for.

Each variation has a number, by which --save N FILE keeps it as a script. All processors are used. An interrupt shows what
was found till then. The status is 1 where something differs, or where a verdict that was asked for comes of a variation."""

#: So many outcomes are shown, and so many variations of each, where not all are asked for.
MOST_OUTCOMES, MOST_NAMED = 12, 4


#: So many variations are played by one process before the next has its turn.
AT_A_TIME = 64

Texts = Tuple[str, ...]

#: What differs in a variation, where that is wanted; and of its verdicts, where they are, what they tell, and their names.
Answer = End[Texts, Tuple[Texts, Texts]]

#: A variation with its number.
Numbered = Tuple[int, Variation]

#: Variations by what they change.
Found = Dict[Texts, List[Numbered]]


def add_arguments(parser: argparse.ArgumentParser) -> None:
    """The word's arguments."""
    parser.add_argument("file", metavar="FILE", help="a script, short or plain; - for standard input")
    parser.add_argument("--watch", metavar="REGEX", help="which replies are compared")
    parser.add_argument("--only", metavar="KINDS", help=f"some of {','.join(KINDS)} (all of them without it)")
    parser.add_argument("--faults", metavar="N", type=int, choices=(1, 2), default=1, help="how many faults a run has at most (1)")
    parser.add_argument("--orders", metavar="LINES", type=_numbers, help="up to eight lines of the file, as 5,7,9, in all orders")
    verdict = parser.add_mutually_exclusive_group()
    verdict.add_argument("--verdict", metavar="NAME", choices=list(MEANINGS), help="which verdict alone is looked for")
    verdict.add_argument("--no-verdicts", action="store_true", help="look for no verdicts, which is faster")
    parser.add_argument("--save", metavar=("N", "FILE"), nargs=2, help="keep the variation with that number, and play none")
    parser.add_argument("--limit", metavar="N", type=int, help="play no more than so many, spread over the script")
    parser.add_argument("--all", action="store_true", help="show every outcome and every variation")
    parser.add_argument("-j", dest="jobs", metavar="N", type=int, default=os.cpu_count() or 1,
                        help="how many are played at a time (as many as there are processors)")


def _numbers(text: str) -> List[int]:
    if not re.fullmatch(r"\d{1,6}(,\d{1,6})*", text):
        raise argparse.ArgumentTypeError(f"'{text}' are no lines such as 5,7,9")
    return [int(number) for number in text.split(",")]


def _kinds(text: str) -> List[str]:
    kinds = text.split(",")
    wrong = [kind for kind in kinds if kind not in KINDS]
    if wrong:
        raise LabError(WORDS, f"--only knows {', '.join(KINDS)}, and no '{wrong[0]}'")
    return kinds


def _thinned(count: int, limit: int) -> Iterable[bool]:
    """Of so many variations, which are played: no more than the limit, spread evenly."""
    if not 0 < limit < count:
        return repeat(True, count)
    return (place * limit // count != (place - 1) * limit // count for place in range(count))


def _variations(arguments: argparse.Namespace, script: Expanded) -> Iterator[Variation]:
    if arguments.orders:
        return orders(script, arguments.orders)
    kinds = _kinds(arguments.only) if arguments.only else list(KINDS)
    return faults(script.lines, set_size(script.lines), kinds, arguments.faults)


def _answers(arguments: argparse.Namespace, script: Expanded) -> Callable[[List[Numbered]], List[Answer]]:
    """What gives the answers to variations that follow one another."""
    nodes, name = set_size(script.lines).nodes, arguments.verdict
    watch = Watch() if arguments.watch is None else Watch(pattern(arguments.watch))
    usual = usual_outcomes(script.lines, nodes, watch)
    also = frozenset(number for one in usual for number in one.replies)

    def compare(one: Outcome) -> Texts:
        return differences(script, usual, one)

    def judge(found: Sequence[Verdict]) -> Tuple[Texts, Texts]:
        wanted = of_name(found, name)
        return tuple(dict.fromkeys(one.told for one in wanted)), tuple(dict.fromkeys(one.name for one in wanted))

    runs = Runs(script.lines, watch._replace(also=also) if name is None else None, compare, None if arguments.no_verdicts else judge)
    return lambda some: list(runs.ends([variation.order(len(script.lines)) for _, variation in some]))


def _report(script: Expanded, found: Found, arguments: argparse.Namespace) -> Iterable[str]:
    played_, same = sum(map(len, found.values())), len(found.get((), []))
    if arguments.verdict is None:
        yield f"{played_} variations, of which {same} change nothing that is watched"
    else:
        yield f"{played_} variations, of which {played_ - same} have the verdict {arguments.verdict}"
    changing = sorted((item for item in found.items() if item[0]), key=lambda item: -len(item[1]))
    shown = changing if arguments.all else changing[:MOST_OUTCOMES]
    for told, names in shown:
        yield ""
        yield f"{len(names)} of them: {told[0]}"
        yield from (f"    and {one}" for one in told[1:])
        yield from (f"  - #{number} {one.told(script)}" for number, one in (names if arguments.all else names[:MOST_NAMED]))
        if len(names) > MOST_NAMED and not arguments.all:
            yield f"  - and {len(names) - MOST_NAMED} more"
    if len(shown) < len(changing):
        yield f"\nand {len(changing) - len(shown)} other outcomes (--all shows them)"


def _verdict_report(counts: "Counter[str]", usual: List[str]) -> Iterable[str]:
    """How many variations have each verdict, and whether the script as it is has it."""
    yield "\nverdicts:" + ("" if counts else " none")
    for name in MEANINGS:
        if counts[name]:
            yield f"  {name:18}  {counts[name]} variations" + (", and the script as it is" if name in usual else "")


def main(arguments: argparse.Namespace) -> int:
    """Plays the variations, and tells what they change."""
    script = read_expanded(arguments.file)
    if arguments.save:
        return _save(arguments, script)
    answers = _answers(arguments, script)
    usual = [] if arguments.no_verdicts else [verdict.name for verdict in verdicts_of(script.lines)]
    count = sum(1 for _ in _variations(arguments, script))
    wanted = compress(enumerate(_variations(arguments, script), 1), _thinned(count, arguments.limit or 0))
    count = min(count, arguments.limit or count)
    found: Found = {}
    counts: "Counter[str]" = Counter()
    interrupted = _play(wanted, count, answers, arguments.jobs, found, counts)
    print("\n".join(_report(script, found, arguments)))
    if not arguments.no_verdicts and arguments.verdict is None:
        print("\n".join(_verdict_report(counts, usual)))
    if interrupted:
        print(f"lab: interrupted, with {count - sum(map(len, found.values()))} variations not played")
        return INTERRUPT
    return DIFFERENT if any(found) else 0


def _save(arguments: argparse.Namespace, script: Expanded) -> int:
    """Keeps one variation as a script."""
    number, name = arguments.save
    for place, variation in enumerate(_variations(arguments, script), 1):
        if str(place) == number:
            lines, _ = lines_of(variation.order(len(script.lines)), script.lines)
            write_file(name, script_bytes([f"# {variation.told(script)}", *lines]))
            print(f"{name}: {variation.told(script)}")
            return 0
    raise LabError(NOTHING, f"there is no variation {number}")


def _play(
    wanted: Iterator[Numbered], count: int, answers: Callable[[List[Numbered]], List[Answer]], jobs: int, found: Found,
    counts: "Counter[str]",
) -> bool:
    """Puts each variation below what it changes. Gives whether the user interrupted it."""
    progress = Progress(count, "playing")
    try:
        for numbered, (compared, judged) in some_in_order(answers, wanted, jobs, AT_A_TIME):
            told, names = judged or ((), ())
            found.setdefault(told if compared is None else compared, []).append(numbered)
            for name in names:
                counts[name] += 1
            progress.step()
        return False
    except KeyboardInterrupt:
        return True
    finally:
        progress.close()
