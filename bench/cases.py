"""The scripts that `bench/run` times: each case is a function from a size to the lines of its script."""
from dataclasses import dataclass
from typing import Callable, List, Optional, Tuple

OPENING = ["set 1", "campaign n0", "drain n0"]


def inserts(n):
    return OPENING + [f"insert n0 items {{_id: {k}}}" for k in range(n)]


def shuffled(n):
    """Inserts whose keys come out of order."""
    return OPENING + [f"insert n0 items {{_id: {k * 7919 % n}}}" for k in range(n)]


def pairs(n):
    """Writers that begin and commit, two open at a time, so that half of the commits fill a hole."""
    lines = []
    for k in range(0, n // 2, 2):
        lines += [f"begin n0 w1 insert items {{_id: {k}}}", f"begin n0 w2 insert items {{_id: {k + 1}}}"]
        lines += ["commit n0 w2", "commit n0 w1"]
    return OPENING + lines


def mixed(n):
    """An insert, and then six updates of what was inserted before, in turn."""
    lines = []
    for k in range(n):
        lines.append(f"update n0 items {k % (k // 7 + 1)} {{$inc: {{n: 1}}}}" if k % 7 else f"insert n0 items {{_id: {k // 7}, n: 0}}")
    return OPENING + lines


def asked_twice(n, sessions):
    """Inserts of so many sessions in turn, each asked for twice."""
    lines = []
    for k in range(n // 2):
        lines += [f"retry n0 {k % sessions} {k // sessions + 1} insert items {{_id: {k}}}"] * 2
    return OPENING + lines


def retried(n):
    return asked_twice(n, 8)


def sessions(n):
    """Each write is the first of a session."""
    return asked_twice(n, n)


def writers(n):
    """A thousand writers that begin among the inserts and commit after them all."""
    lines = []
    for k in range(n):
        if k % (n // 1000) == 0 and k // (n // 1000) < 1000:
            lines.append(f"begin n0 w{k // (n // 1000)} insert others {{_id: {k}}}")
        lines.append(f"insert n0 items {{_id: {k}}}")
    return OPENING + lines + [f"commit n0 w{w}" for w in range(1000)]


def trace(sizes, steps):
    """The trace of commands with their replies, after the election of the only voter of a set of such sizes."""
    lines = [f"trace {sizes}", "event 2 - 0 campaign n0", "2: won 1", "event 3 - 0 drain n0", "3: primary 1 noop 1/0/1"]
    for k, (command, reply) in enumerate(steps):
        lines += [f"event {k + 4} - 0 {command}", f"{k + 4}: {reply}"]
    return lines


def traced(writes):
    """The trace of writes of one node."""
    return trace("1 1 1", [(write, f"written 1/0/{k + 2}") for k, write in enumerate(writes)])


def inserts_traced(n):
    """The trace of inserts."""
    return traced(inserts(n)[len(OPENING):])


def late_traced(n):
    """The trace of a thousand writers that begin before all inserts, and commit after them with a flush each."""
    writes = [(f"begin n0 w{w} insert others {{_id: {w}}}", f"begun 1/0/{w + 2}") for w in range(1000)]
    writes += [(f"insert n0 items {{_id: {k}}}", f"written 1/0/{k + 1002}") for k in range(n)]
    left = n + 1
    for w in range(1000):
        count = min(left + 1, 2000)
        left += 1 - count
        writes += [(f"commit n0 w{w}", f"committed 1/0/{w + 2}")]
        writes += [("flush n0", f"flushed {count} to 1/0/{w + 2 if w < 999 else n + 1001}")]
    return trace("1 1 1", writes)


def parse(n):
    """Lines of 40 bytes of which the last is faulty, so that all are read and nothing is run."""
    lines = [f"insert n0 items {{_id: {1_000_000 + k}, n: 12345}}" for k in range(n - 2)]
    return ["set 1", *lines, "insert n0 items {_id: 1000000, n: 1234x}"]


def flushed(n):
    """Inserts that are flushed after them all; a flush takes two thousand entries."""
    return inserts(n) + ["flush n0"] * (n // 2000 + 1)


def updates(n):
    return OPENING + ["insert n0 items {_id: 1, n: 0}"] + ["update n0 items 1 {$inc: {n: 1}}"] * n


def counted_beside(fields, n):
    """An update of one field, so many times, beside others."""
    return OPENING + [f"insert n0 items {{_id: 1, n: 0, {fields}}}"] + ["update n0 items 1 {$inc: {n: 1}}"] * n


def long_text(n):
    return counted_beside(f's: "{"x" * 100_000}"', n)


def long_array(n):
    return counted_beside(f"a: {list(range(1000))}", n)


def long_text_traced(n):
    return traced(long_text(n)[len(OPENING):])


def long_array_traced(n):
    return traced(long_array(n)[len(OPENING):])


def many_fields(n):
    """One of a hundred fields is set, each time to another value."""
    fields = ", ".join(f"f{k}: {k}" for k in range(100))
    return OPENING + [f"insert n0 items {{_id: 1, {fields}}}"] + [f"update n0 items 1 {{$set: {{f50: {1000 + k}}}}}" for k in range(n)]


def many_fields_traced(n):
    return traced(many_fields(n)[len(OPENING):])


def growing(n):
    """A document that gets a field more with each update."""
    return OPENING + ["insert n0 items {_id: 1}"] + [f"update n0 items 1 {{$set: {{f{k}: 1}}}}" for k in range(n)]


def reads(n):
    return OPENING + ["insert n0 items {_id: 7}"] + ["read n0 local items 7"] * n


def refusals(n):
    return OPENING + ["drain n0"] * n


def restarts(n):
    """Inserts that are flushed every hundred lines, a checkpoint every ten thousand, and at the end a crash and a restart."""
    lines = []
    for k in range(n):
        lines.append(f"insert n0 items {{_id: {k}}}")
        if k % 100 == 99:
            lines.append("flush n0")
        if k % 10_000 == 9_999:
            lines.append("checkpoint n0")
    return OPENING + lines + ["crash n0", "restart n0"]


def pulled(a, b):
    """What node a does to take what node b has."""
    return [f"heartbeat n{b} n{a}", f"deliver n{b} n{a}", f"fetch n{a}", f"deliver n{a} n{b}", f"deliver n{b} n{a}"]


def elected(x, nodes):
    """An election in which all others vote."""
    asked = [k for k in range(nodes) if k != x]
    asking = [line for k in asked for line in (f"deliver n{x} n{k}", f"deliver n{k} n{x}")]
    return [f"campaign n{x}", *asking, f"drain n{x}"]


def pulls(n):
    """A set of three, whose secondaries take every hundred inserts, flush and apply them."""
    lines = ["set 3", *elected(0, 3)]
    for k in range(n):
        lines.append(f"insert n0 items {{_id: {k}}}")
        if k % 100 == 99:
            for a in (1, 2):
                lines += pulled(a, 0) + [f"flush n{a}", f"apply n{a}"]
    return lines


def elections(n):
    """A set of five, in which each node is elected in turn, and the others take its no-op."""
    lines = ["set 5"]
    for k in range(n):
        x = k % 5
        lines += elected(x, 5) + [line for a in range(5) if a != x for line in pulled(a, x)]
    return lines


def rounds(n):
    """A set of seven, in which every hundred inserts are on all disks and known to be, and the last is acknowledged."""
    lines = ["set 7", *elected(0, 7)]
    for k in range(n):
        lines.append(f"insert n0 items {{_id: {k}}}")
        if k % 100 == 99:
            lines.append("flush n0")
            for a in range(1, 7):
                lines += pulled(a, 0) + [f"flush n{a}", f"report n{a} n0", f"deliver n{a} n0"]
            lines.append(f"ack n0 1/0/{k + 2} majority")
    return lines


def many(nodes, lines):
    """A set whose node 0 is elected, and whose no-op is on its disk."""
    return [f"set {nodes}", *elected(0, nodes), "flush n0", *lines]


def reported(a, b):
    """What node a does to tell node b how far it is."""
    return [f"report n{a} n{b}", f"deliver n{a} n{b}"]


def turns(nodes, count, each, more=()):
    """Inserts, flushed, taken, applied and flushed by every secondary, reported, and the last acknowledged."""
    lines = []
    for turn in range(count):
        lines += [f"insert n0 t {{_id: {turn * each + k}, n: {k}}}" for k in range(each)] + ["flush n0"]
        for a in range(1, nodes):
            lines += pulled(a, 0) + [f"apply n{a} 4", f"flush n{a}"] + reported(a, 0)
        lines += [f"ack n0 1/0/{2 + turn * each} majority", *more]
    return many(nodes, lines)


def flushes(n):
    """A thousand inserts and a flush, and after every tenth of these a checkpoint, a crash and a restart."""
    lines = []
    for turn in range(n):
        lines += [f"insert n0 t {{_id: {turn * 1000 + k}}}" for k in range(1000)] + ["flush n0"]
        if turn % 10 == 9:
            lines += ["checkpoint n0", "crash n0", "restart n0", "campaign n0", "drain n0"]
    return OPENING + lines


def batches_of_500(n):
    """A secondary without a vote takes five hundred inserts at a time, applies and flushes them."""
    lines = []
    for turn in range(n):
        lines += [f"insert n0 t {{_id: {turn * 500 + k}}}" for k in range(500)] + ["flush n0"]
        lines += pulled(1, 0) + ["apply n1 4", "flush n1"]
    return ["set 2 1", *OPENING[1:], *lines]


def pulls_of_one(n):
    """Two secondaries, which take and apply one insert each, in turn."""
    lines = []
    for k in range(n):
        a = 1 + k % 2
        lines += [f"insert n0 t {{_id: {k}}}", *pulled(a, 0), f"apply n{a} 4"]
    return ["set 3 1", *OPENING[1:], *lines]


def batches_of_5000(n):
    """Documents of five fields, taken and applied five thousand at a time after them all."""
    lines = [f'insert n0 items {{_id: {k}, name: "Kettle, 1.7 l", price: {k}, tags: ["wood", "large"], n: 0}}' for k in range(n)]
    lines += ["flush n0"] * (n // 2000) + pulled(1, 0) * (n // 5000) + ["apply n1 1"] * (n // 5000)
    return ["set 2 1", *OPENING[1:], *lines]


def rounds_of_500(n):
    return turns(3, n, 500)


def rounds_of_10(n):
    return turns(3, n, 10)


def rounds_of_7_nodes(n):
    return turns(7, n, 100)


def majority_reads(n):
    """Rounds of three nodes, with checkpoints of two and majority reads of two in each."""
    return turns(3, n, 100, ["checkpoint n1", "checkpoint n0", "read n2 majority t 5", "read n1 majority t 7"])


def crashes(n):
    """Five hundred inserts that a secondary takes, applies, flushes and reports, with a checkpoint, a crash and a restart of it."""
    lines = []
    for turn in range(n):
        lines += [f"insert n0 t {{_id: {turn * 500 + k}}}" for k in range(500)] + ["flush n0"]
        lines += pulled(1, 0) + ["apply n1 4", "flush n1"] + reported(1, 0)
        lines += ["heartbeat n0 n1", "deliver n0 n1", "checkpoint n1", "crash n1", "restart n1"]
    return many(3, lines)


def failovers_of_5(n):
    """Five inserts at each primary, which all others take and flush before the next one is elected."""
    lines = []
    for turn in range(1, n + 1):
        old, new = (turn - 1) % 5, turn % 5
        lines += [f"insert n{old} t {{_id: {turn * 5 + k}}}" for k in range(5)] + [f"flush n{old}"]
        for a in range(5):
            if a != old:
                lines += pulled(a, old) + [f"flush n{a}"]
        lines += elected(new, 5) + [f"flush n{new}"]
    return many(5, lines)


def failovers_of_7(n):
    """Elections of seven nodes in turn; each steps down, and all others take its no-op."""
    lines = []
    for turn in range(1, n + 1):
        x = turn % 7
        lines += elected(x, 7) + [f"stepdown n{x}"]
        for a in range(7):
            if a != x:
                lines += pulled(a, x)
    return many(7, lines)


def deep(n):
    """Documents of 90 nested arrays beside a document of 400 fields."""
    wide = ", ".join(f"f{k}: {k}" for k in range(400))
    return OPENING + [f'insert n0 t {{_id: {k}, a: {"[" * 90}{"]" * 90}, w: {{{wide}}}}}' for k in range(n)]


def dumps_deleted(n):
    """Documents that are inserted and deleted, and then as many dumps, which show none."""
    changes = [line for k in range(n) for line in (f"insert n0 t {{_id: {k}}}", f"delete n0 t {k}")]
    return OPENING + changes + ["dump n0 local"] * n


def dumps_uncommitted(n):
    """Inserts that no majority has, and then as many dumps of what a majority has."""
    return OPENING + [f"insert n0 t {{_id: {k}}}" for k in range(n)] + ["dump n0 majority"] * n


def dumps_collections(n):
    """The same, with each document in a collection of its own."""
    return OPENING + [f"insert n0 c{k} {{_id: {k}}}" for k in range(n)] + ["dump n0 majority"] * n


def asked_again(n, asking, again):
    """Inserts at the only voter of two, what is asked about them, and a message that is delivered again and again."""
    return ["set 2 1", *OPENING[1:], *[f"insert n0 t {{_id: {k}}}" for k in range(n)], *asking, *[again] * n]


def fetches_again(n):
    """A fetch of 5,000 entries that is answered again and again."""
    return asked_again(n, pulled(1, 0)[:3], "deliver m2")


def answers_again(n):
    """Its answer, which comes again and again once it is taken."""
    return asked_again(n, pulled(1, 0)[:4], "deliver m3")


def commons_again(n):
    """A question for common entries, which is answered again and again."""
    return asked_again(n, ["common n1 n0"], "deliver m0")


def asked_traced(n, asking, again, first):
    """The trace of `asked_again`, in which the first answer to what comes again is the message `first`."""
    steps = [(f"insert n0 t {{_id: {k}}}", f"written 1/0/{k + 2}") for k in range(n)] + asking
    return trace("2 1 1", steps + [(again, f"replied m{first + k}") for k in range(n)])


def fetches_traced(n):
    """The trace of `fetches_again`."""
    asking = [("heartbeat n0 n1", "sent m0"), ("deliver n0 n1", "replied m1"), ("fetch n1", "sent m2 to n0")]
    return asked_traced(n, asking, "deliver m2", 3)


def commons_traced(n):
    """The trace of `commons_again`."""
    return asked_traced(n, [("common n1 n0", "sent m0")], "deliver m0", 1)


def inserts_of_50(n):
    """Inserts at the primary of fifty."""
    return ["set 50", *elected(0, 50), *inserts(n)[len(OPENING):]]


def listed(lists, n):
    """The inserts of a block's lists, and the same without a block."""
    each = [[f"insert n0 items {{_id: {own * n + k}}}" for k in range(n)] for own in range(lists)]
    block = [line for own in each for line in ["thread", *own]]
    return OPENING + ["par", *block, "end"], OPENING + [line for own in each for line in own]


def blocks_of_one(n):
    """Blocks of one list of one line."""
    return ["set 1"] + ["par", "thread", "clock n0 1", "end"] * n


def empty_blocks(n):
    """Blocks of sixteen lists without a line."""
    return ["set 1"] + ["par", *["thread"] * 16, "end"] * n


def chaos(n):
    """A generated script has no lines here."""
    return []


@dataclass
class Case:
    """A script by its size: the smaller size that it is timed at, that at which its instructions are counted, the words of the
    program, the status that it ends with, and the millions of instructions and the MiB that it may take at the latter size."""
    script: Callable[[int], List[str]]
    timed: int
    counted: int
    words: Optional[Callable[[int], List[str]]] = None
    status: int = 0
    bound: Optional[Tuple[int, int]] = None

    def arguments(self, n):
        return self.words(n) if self.words else ["run"]


CASES = {
    # one node
    "inserts": Case(inserts, 95_000, 20_000),
    "shuffled": Case(shuffled, 95_000, 20_000),
    "retried": Case(retried, 50_000, 20_000),
    "sessions": Case(sessions, 50_000, 20_000),
    "pairs": Case(pairs, 60_000, 10_000),
    "watched": Case(flushed, 95_000, 20_000, words=lambda n: ["watch", "items", "start", "n0"]),
    "synced": Case(flushed, 95_000, 20_000, words=lambda n: ["sync", "n0"]),
    "checked": Case(inserts_traced, 95_000, 20_000, words=lambda n: ["check"]),
    "late_checked": Case(late_traced, 24_000, 24_000, words=lambda n: ["check"], bound=(2_300, 26)),
    "updates": Case(updates, 50_000, 5_000),
    "long_text": Case(long_text, 50_000, 5_000, bound=(80, 16)),
    "long_array": Case(long_array, 10_000, 10_000, bound=(1_000, 26)),
    "many_fields": Case(many_fields, 50_000, 20_000, bound=(600, 50)),
    "long_text_checked": Case(long_text_traced, 50_000, 5_000, words=lambda n: ["check"], bound=(90, 9)),
    "long_array_checked": Case(long_array_traced, 10_000, 10_000, words=lambda n: ["check"], bound=(1_000, 12)),
    "many_checked": Case(many_fields_traced, 50_000, 20_000, words=lambda n: ["check"], bound=(800, 28)),
    "growing": Case(growing, 2_000, 4_000, bound=(1_900, 100)),
    "mixed": Case(mixed, 90_000, 3_500),
    "writers": Case(writers, 40_000, 40_000),
    "reads": Case(reads, 90_000, 20_000),
    "refusals": Case(refusals, 90_000, 20_000),
    "restarts": Case(restarts, 30_000, 5_000),
    "flushes": Case(flushes, 20, 40),
    "deep": Case(deep, 300, 600),
    "parse": Case(parse, 100_000, 200_000, status=3),
    "dumps_deleted": Case(dumps_deleted, 8_000, 8_000, bound=(250, 16)),
    "dumps_uncommitted": Case(dumps_uncommitted, 20_000, 20_000, bound=(470, 22)),
    "dumps_collections": Case(dumps_collections, 8_000, 8_000, bound=(250, 16)),
    "blocks_of_one": Case(blocks_of_one, 24_000, 24_000),
    "empty_blocks": Case(empty_blocks, 5_500, 5_500),
    # a set
    "fetches_again": Case(fetches_again, 5_000, 5_000, bound=(80, 12)),
    "answers_again": Case(answers_again, 5_000, 5_000, bound=(80, 12)),
    "commons_again": Case(commons_again, 9_000, 9_000, bound=(150, 14)),
    "fetches_checked": Case(fetches_traced, 5_000, 5_000, words=lambda n: ["check"], bound=(130, 12)),
    "commons_checked": Case(commons_traced, 9_000, 9_000, words=lambda n: ["check"], bound=(250, 12)),
    "linear_of_50": Case(inserts_of_50, 190_000, 20_000, words=lambda n: ["linear", "n0", "items", "1"], bound=(2_600, 260)),
    "pulls": Case(pulls, 10_000, 2_000),
    "pulls_of_one": Case(pulls_of_one, 2_000, 4_000),
    "batches_of_500": Case(batches_of_500, 20, 40),
    "batches_of_5000": Case(batches_of_5000, 20_000, 40_000),
    "elections": Case(elections, 1_000, 100),
    "failovers_of_5": Case(failovers_of_5, 100, 200),
    "failovers_of_7": Case(failovers_of_7, 1_000, 2_000),
    "rounds": Case(rounds, 10_000, 2_000),
    "rounds_of_10": Case(rounds_of_10, 1_000, 2_000),
    "rounds_of_500": Case(rounds_of_500, 20, 40),
    "rounds_of_7_nodes": Case(rounds_of_7_nodes, 100, 200),
    "majority_reads": Case(majority_reads, 40, 80),
    "crashes": Case(crashes, 12, 24),
    "chaos": Case(chaos, 2_500, 5_000, words=lambda n: ["chaos", "7", str(n), "5"]),
    "chaos_of_7_nodes": Case(chaos, 500, 1_000, words=lambda n: ["chaos", "7", str(n), "7"]),
    "chaos_of_50_nodes": Case(chaos, 500, 1_000, words=lambda n: ["chaos", "7", str(n), "50"]),
}

# Blocks: so many lists of so many inserts each.
BLOCKS = {"two": (2, 50_000), "sixteen": (16, 10_000)}
