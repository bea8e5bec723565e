"""Short scripts made by chance: macros of all kinds, with plain lines between them."""
import random

DOCUMENTS = (
    "{{_id: {id}}}", "{{_id: {id}, n: {number}}}", '{{_id: "k{id}", s: "é😀"}}', "{{_id: {id}, at: ISODate(\"2024-02-29T12:00:00Z\")}}",
    "{{_id: ObjectId('0123456789abcdef0123456{digit}')}}", "{{'_id': {id}, big: NumberLong(\"9007199254740993\")}}",
    "{{_id: {id}, d: 1.5}}", "{{_id: {id}, b: BinData(0, 'AAEC'), t: Timestamp({{t: 4294967295, i: 0}})}}", "{{_id: NumberLong(null)}}",
    "{{_id: UUID('01234567-89ab-cdef-0123-4567{number:08x}'), '$oid': 5}}", "{{_id: {{$oid: 5}}}}", "{{_id: {id}, s: '\\ud83d\\ude00'}}",
)


class Author:
    """Writes one script."""

    def __init__(self, seed):
        self._dice = random.Random(seed)
        self._nodes = self._dice.choice((1, 2, 3, 3, 3, 4, 5, 7))
        self._last = 0

    def lines(self):
        """Its lines."""
        head = f"set {self._nodes}" + (f" {self._dice.randint(1, self._nodes)}" if self._dice.random() < 0.2 else "")
        begun = [head] + [f"elect {self._node()}"] * (self._dice.random() < 0.8)
        return begun + [self._line() for _ in range(self._dice.randint(2, 8))]

    def _node(self):
        return f"n{self._dice.randrange(self._nodes + (self._dice.random() < 0.02))}"

    def _document(self):
        self._last += 1
        form = self._dice.choice(DOCUMENTS)
        return form.format(id=self._last, number=self._dice.randint(0, 2**31 - 1), digit=self._dice.randrange(10))

    def _line(self):
        dice, node = self._dice, self._node()
        writes = [f"insert {node} t {self._document()}", f"update {node} t {max(1, self._last)} {{$inc: {{n: 1}}}}", f"delete {node} t 1"]
        macros = [
            f"elect {node}", f"elect {node} {self._node()}", f"pull {node}", f"pull {node} {self._node()}", f"spread {node}",
            f"await {node} last", f"await {node} last {dice.randint(1, 3)}", f"partition {node}", f"partition {node} {self._node()} | {self._node()}",
            "heal", f"repeat {dice.randint(1, 4)} {dice.choice((f'flush {node}', f'insert {node} r {{_id: #}}', f'spread {node}'))}",
            f"linear {node} t {max(1, self._last)}", f"watch t {dice.choice(('start', 'mine'))} {node} {self._node()}", f"sync {node}", "status",
            f"tick {dice.randint(1, 12)} {dice.randrange(2**64)}", f"notation {dice.choice(('own', 'mongosh'))}", f"ack {node} last majority",
        ]
        plain = [f"crash {node}", f"restart {node}", f"flush {node}", f"apply {node}", f"read {node} local t 1", f"dump {node} majority", "# a note"]
        return dice.choice(dice.choice((writes, writes, macros, macros, macros, plain)))


def script_of(seed):
    """The lines of a short script that are always the same for a seed."""
    return Author(seed).lines()
