"""Random scripts for `tools/fuzz/random_scripts`, by an author who knows the answers to what stands already.

A script has some parts of random steps, each a sequence that may well succeed (an election, a pull, a write that a
majority gets), with lines left out, said twice or put between. After each part the program is run, so that the next
one knows who is primary and how many messages there are. The last part settles the set: one primary, whom all follow.
"""
import json
import re

from script_members import Members
from script_player import Fault, Player
from script_sessions import Sessions

COLLECTIONS = ["t", "t", "t", "u"]
IDS = ["1", "2", "3", "4", "5", "3L", "-6", '"a"', "true"]
BAD_WRITES = [
    "insert t {n: 1}",
    "insert t {_id: null}",
    "replace t 1 {_id: 2}",
    "update t 2 {$inc: {s: 1}}",
    "update t 3 {$inc: {n: 9223372036854775807L}}",
    "update t 1 {$push: {n: 1}}",
    "update t 1 {}",
    "update t 1 {$set: {n: 1}, $unset: {n: 1}}",
    "update t 1 {$set: {_id: 1}}",
    "delete t null",
]


class Author(Members, Sessions):
    def __init__(self, dice, player, sizes, disk_faults):
        self.dice = dice
        self.player = player
        self.nodes, voters, members = sizes
        self.disk_faults = disk_faults
        self.noise = dice.choice([0, 0.02, 0.05, 0.12])
        self.primary = 0
        self.members = list(range(members))
        self.silent = set(range(voters, members))  # those without a vote
        self.version = 1
        self.sent = 0
        self.left_open = []
        self.asked = []
        self.seen = 0
        self.optimes = ["1/0/1"]
        self.lasts = ["0/0/0"] * self.nodes
        self.weights = [step[1] * dice.choice([0.4, 1, 1, 2]) for step in STEPS]

    # What the answers tell.

    def look(self):
        """Asks for the nodes' states, runs the script, and learns from the answers."""
        self.say(*(f"state n{k}" for k in range(self.nodes)))
        self.player.run()
        for number in range(max(2, self.seen + 1), len(self.player.lines) + 1):
            self.learn(self.player.lines[number - 1], self.player.answers[number])
        self.seen = len(self.player.lines)
        self.states = [self.state_of(k) for k in range(self.nodes)]
        primaries = [k for k in range(self.nodes) if self.states[k].get("role") == "Primary"]
        self.primary = max(primaries, key=lambda k: int(self.states[k]["term"]), default=None)
        versions = [int(state["config"].split("/")[1]) for state in self.states if state]
        self.version = max(versions, default=self.version)

    def state_of(self, k):
        words = self.player.last_answer(f"state n{k}").split(" ")
        return {} if words[0] == "refused" else {"role": words[1], **dict(zip(words[2::2], words[3::2]))}

    def learn(self, line, answer):
        sends = re.match(r"(?:sent|replied|candidate \d+ sent|dryrun \d+ sent) m(\d+)(?: (\d+))?$", answer)
        if sends:
            self.sent = max(self.sent, int(sends[1]) + int(sends[2] or 1))
        if re.match("(written|committed) ", answer):
            self.optimes = self.optimes[-5:] + [answer.split(" ")[1]]
        if answer.startswith("config "):
            members = json.loads(line.split(" ", 2)[2])["members"]
            self.members = [member["_id"] for member in members]
            self.silent = {member["_id"] for member in members if not member.get("votes", 1)}

    def say(self, *lines):
        self.player.lines += lines

    def put(self, *lines):
        """Lines of which some may be left out or said twice, and between which others may stand."""
        for line in lines:
            while self.dice.random() < self.noise:
                self.say(self.stray())
            if self.dice.random() >= self.noise / 2:
                self.say(line)
            if self.dice.random() < self.noise / 2:
                self.say(line)

    def some(self):
        return self.dice.randrange(self.nodes)

    def two(self):
        return self.dice.sample(range(self.nodes), 2)

    def other_than(self, k):
        return self.dice.choice([m for m in range(self.nodes) if m != k])

    def leader(self):
        """Mostly the primary as far as is known, of which some writes go astray."""
        return self.some() if self.primary is None or self.dice.random() < 0.04 else self.primary

    def stray(self):
        a, b = self.two()
        w = self.dice.randint(0, 3)
        return self.dice.choice(
            [f"deliver n{a} n{b}"] * 5
            + [f"deliver m{self.old_message()}"] * 5
            + [f"heartbeat n{a} n{b}", f"report n{a} n{b}", f"common n{a} n{b}", f"fetch n{a}", f"fetch n{b}"]
            + [f"apply n{a} {self.dice.randint(1, 16)}", f"flush n{a}", f"checkpoint n{a}", f"rolled n{a}"]
            + [f"commit n{a} w{w}", f"abort n{a} w{w}", f"drain n{a}", f"dryrun n{a}", f"clock n{a} {w}", f"restart n{a}"]
            + [f"read n{a} {self.level()} t {self.dice.choice(IDS)}", f"ack n{a} {self.dice.choice(self.optimes)} 2"]
        )

    def old_message(self):
        """A message's number, as far as those that are there can be known; some aren't."""
        likely = self.sent + (len(self.player.lines) - self.seen) // 2
        return self.dice.choice([self.dice.randint(0, likely), max(0, likely - self.dice.randint(0, 20))])

    def level(self):
        return self.dice.choice(["local", "majority"])

    def write(self):
        """A write without its node, in the form that `begin` takes."""
        dice, n = self.dice, self.dice.randint(-9, 99)
        if dice.random() < 0.06:
            return dice.choice(BAD_WRITES)
        place = f"{dice.choice(COLLECTIONS)} {dice.choice(IDS)}"
        collection, key = place.split(" ")
        return dice.choice(
            [f"insert {collection} {{_id: {key}, n: {n}}}"] * 4
            + [f'insert {collection} {{s: "{n}", _id: {key}, n: {n}L}}']
            + [f"update {place} {{$inc: {{n: 1}}}}"] * 3
            + [f'update {place} {{$set: {{s: "x{n}", z: [{n}, {{a: null}}]}}}}', f"update {place} {{$unset: {{s: 1, n: 1}}}}"]
            + [f"update {place} {{$inc: {{m: {n}}}, $set: {{b: true}}, $unset: {{z: 1}}}}"]
            + [f'replace {place} {{n: {n}, s: "r"}}', f"delete {place}"]
        )

    def write_at(self, k):
        op = self.write()
        kind, rest = op.split(" ", 1)
        return f"{kind} n{k} {rest}"

    # The steps.

    def elect(self, x=None, among=None):
        x = self.some() if x is None else x
        voters = [k for k in (range(self.nodes) if among is None else among) if k != x]
        self.dice.shuffle(voters)
        asked = voters if self.dice.random() < 0.6 else voters[: (self.nodes + 1) // 2]
        if self.dice.random() < 0.2:
            self.put(f"dryrun n{x}", *(line for k in asked for line in (f"deliver n{x} n{k}", f"deliver n{k} n{x}")))
        again = self.dice.random() < 0.15  # some votes come again and again, and others never
        self.put(f"campaign n{x}")
        for k in asked[: self.dice.randint(1, max(1, len(asked)))] if again else asked:
            self.put(f"deliver n{x} n{k}", f"deliver n{k} n{x}", *[f"deliver n{k} n{x}"] * (3 * again))
        self.put(f"drain n{x}")
        if self.dice.random() < 0.6:
            self.put(f"flush n{x}")
        self.primary = x

    def contest(self):
        """Two candidates of one term, and voters that crash between the two askings."""
        x, y = self.two()
        voters = [k for k in range(self.nodes) if k not in (x, y)]
        self.put(f"heartbeat n{x} n{y}", f"deliver n{x} n{y}", f"deliver n{y} n{x}", f"campaign n{x}", f"campaign n{y}")
        for k in voters:
            if k != voters[0] and self.dice.random() < 0.5:  # who hears of the term before it is asked
                self.put(f"heartbeat n{voters[0]} n{k}", f"deliver n{voters[0]} n{k}")
            self.put(f"deliver n{x} n{k}", f"deliver n{k} n{x}")
        restarted = [k for k in [x] + voters if self.dice.random() < 0.7]
        self.put(*(line for k in restarted for line in (f"crash n{k}", f"restart n{k}")))
        for k in [x] + voters:
            self.put(f"deliver n{y} n{k}", f"deliver n{k} n{y}")
        self.put(f"drain n{y}", f"drain n{x}")

    def writes(self):
        for _ in range(self.dice.randint(1, 5)):
            self.put(self.write_at(self.leader()))

    def writers(self):
        """Writers that end in another order, some of them only steps later; others pull meanwhile."""
        k = self.leader()
        names = [f"w{self.dice.randint(0, 4)}" for _ in range(self.dice.randint(1, 4))]
        op = self.write()
        self.put(*(f"begin n{k} {w} {op if self.dice.random() < 0.4 else self.write()}" for w in names))
        open_ones = self.left_open + [(k, w) for w in names]
        self.dice.shuffle(open_ones)
        count = len(open_ones) if self.dice.random() < 0.5 else len(open_ones) // 2
        for k, w in open_ones[:count]:
            if self.dice.random() < 0.2:
                self.put(self.dice.choice([self.write_at(k), f"flush n{k}", f"state n{k}"]))
            if self.dice.random() < 0.2:
                self.pull(source=k)
            self.put(f"{self.dice.choice(['commit', 'commit', 'commit', 'abort'])} n{k} {w}")
        self.left_open = open_ones[count:]

    def pull(self, y=None, source=None):
        source = self.leader() if source is None else source
        y = self.other_than(source) if y is None else y
        self.put(f"heartbeat n{source} n{y}", f"deliver n{source} n{y}")
        self.put(f"fetch n{y}", f"deliver n{y} n{source}", f"deliver n{source} n{y}")
        if self.dice.random() < 0.5:
            self.put(f"apply n{y} {self.dice.randint(1, 16)}")
        if self.dice.random() < 0.7:
            self.put(f"flush n{y}")
        if self.dice.random() < 0.8:
            self.put(f"report n{y} n{source}", f"deliver n{y} n{source}")

    def follow(self, y, source):
        """A pull whose lines all stand."""
        self.say(f"heartbeat n{source} n{y}", f"deliver n{source} n{y}")
        self.say(f"fetch n{y}", f"deliver n{y} n{source}", f"deliver n{source} n{y}")
        self.say(f"apply n{y}", f"flush n{y}", f"report n{y} n{source}", f"deliver n{y} n{source}")

    def replicate(self, p=None, got=None):
        """A write that most nodes get, and what the primary then tells of it."""
        p, w = self.leader() if p is None else p, f"w{self.dice.randint(5, 9)}"
        self.put(f"begin n{p} {w} insert v {{_id: {self.dice.randint(0, 999)}}}", f"commit n{p} {w}", f"flush n{p}")
        count = self.dice.choice([self.nodes - 1, self.nodes // 2])
        for y in self.dice.sample([k for k in range(self.nodes) if k != p], count) if got is None else got:
            self.follow(y, p) if self.dice.random() < 0.7 else self.pull(y, p)
        self.put(f"ack n{p} {w} majority", f"ack n{p} {w} {self.dice.randint(1, self.nodes + 1)}")
        self.put(f"ack n{p} {self.dice.choice(self.optimes)} {self.dice.choice(['majority', 'majority', '2'])}")

    def diverge(self):
        """A primary writes what nobody gets, another is elected without it, and the first one rolls back."""
        p = self.leader()
        x = self.other_than(p)
        self.writes()
        if self.dice.random() < 0.5:
            self.put(f"flush n{p}")
        self.elect(x, [k for k in range(self.nodes) if k != p])
        self.writes()
        self.roll_back(p, x)
        if self.dice.random() < 0.5:
            self.pull(p, x)

    def roll_back(self, y=None, source=None):
        source = self.leader() if source is None else source
        y = self.other_than(source) if y is None else y
        self.put(f"heartbeat n{source} n{y}", f"deliver n{source} n{y}")
        self.put(f"common n{y} n{source}", f"deliver n{y} n{source}", f"deliver n{source} n{y}", f"rolled n{y}")

    def crash(self):
        k = self.some() if self.dice.random() < 0.6 else self.leader()
        if self.dice.random() < 0.5:
            self.put(f"flush n{k}")
        self.put(f"crash n{k}" + self.dice.choice(["", " 1", f" {self.dice.randint(2, 999)}"]))
        for _ in range(self.dice.randint(0, 2)):
            self.put(self.stray())
        self.put(f"restart n{k}")

    def fail_disk(self):
        if not self.disk_faults:
            return
        k = self.leader() if self.dice.random() < 0.5 else self.some()
        pick = self.dice.choice(["", " 0", " 1", f" {self.dice.randint(2, 999)}"])
        self.say(f"diskfail n{k} {self.dice.choice(['journal', 'journal', 'checkpoint'])} {self.dice.randint(1, 9)}{pick}")
        self.dice.choice([self.writes, self.replicate, self.elect, self.diverge, self.crash, self.checkpoint])()
        self.put(f"flush n{k}", f"checkpoint n{k}", f"restart n{k}", f"restart n{k}")

    def reads(self):
        for _ in range(self.dice.randint(1, 3)):
            self.put(f"read n{self.some()} {self.level()} {self.dice.choice(COLLECTIONS)} {self.dice.choice(IDS)}")

    def show(self):
        k = self.some()
        self.say(f"state n{k}", f"log n{k}", f"dump n{k} local", f"dump n{k} majority")

    def old_messages(self):
        for _ in range(self.dice.randint(1, 6)):
            self.put(f"deliver m{self.old_message()}")

    def beat(self):
        a, b = self.two()
        self.put(f"heartbeat n{a} n{b}", f"deliver n{a} n{b}", f"deliver n{b} n{a}")

    def checkpoint(self):
        self.put(f"flush n{self.leader()}", f"checkpoint n{self.leader()}", f"checkpoint n{self.some()}")

    def step_down_or_clock(self):
        seconds = self.dice.choice([0, 1, 3, 5, 7, 7, 2147483647])
        self.put(self.dice.choice([f"stepdown n{self.leader()}", f"clock n{self.some()} {seconds}"]))

    def astray(self):
        for _ in range(self.dice.randint(1, 4)):
            self.say(self.stray())

    def part(self):
        """Some steps, after an election where none leads."""
        if self.primary is None:
            self.elect()
        if self.dice.random() < 0.3:
            self.part_ways()
        for step, _ in self.dice.choices(STEPS, self.weights, k=self.dice.randint(5, 12)):
            step(self)
        self.look()

    # The end.

    def settle(self):
        every = range(self.nodes)
        if self.disk_faults:
            self.say(*(f"diskfail n{k} {disk} 1000" for k in every for disk in ("journal", "checkpoint")))
        self.say(*(f"restart n{k}" for k in every), *(f"stepdown n{k}" for k in every))
        self.say(*(line for k in every[1:] for line in (f"heartbeat n{k} n0", f"deliver n{k} n0")))
        for _ in range(2):
            for k in every[1:]:
                self.say(f"heartbeat n0 n{k}", f"deliver n0 n{k}", f"deliver n{k} n0")
        self.say(*(f"dryrun n{k}" for k in every))
        self.look()
        electable = [k for k in every if self.player.last_answer(f"dryrun n{k}").startswith("dryrun")]
        x = max(electable, key=self.last)
        self.say(f"campaign n{x}")
        for k in every:
            if k != x:
                self.say(f"deliver n{x} n{k}", f"deliver n{k} n{x}")
        self.say(f"drain n{x}", f"flush n{x}")
        for _ in range(3 * self.nodes):
            self.catch_up(x)
            if len({self.last(k) for k in every}) == 1:
                break
        self.say(*(line for k in every if k != x for line in (f"heartbeat n{x} n{k}", f"deliver n{x} n{k}")))
        for k in every:
            self.say(f"state n{k}", f"log n{k}", f"dump n{k} local", f"dump n{k} majority")
        self.player.run()

    def last(self, k):
        return tuple(int(part) for part in self.states[k]["last"].split("/"))

    def catch_up(self, x):
        """Every other node gives up what the primary hasn't, and takes what its source has."""
        rest = [k for k in range(self.nodes) if k != x]
        for k in rest:
            self.say(f"heartbeat n{x} n{k}", f"deliver n{x} n{k}", f"deliver n{k} n{x}")
            self.say(f"common n{k} n{x}", f"deliver n{k} n{x}", f"deliver n{x} n{k}")
            self.say(*(line for j in rest if j != k for line in (f"heartbeat n{k} n{j}", f"deliver n{k} n{j}")))
        self.say(*(f"fetch n{k}" for k in rest))
        self.player.run()
        for k in rest:
            source = re.match(r"sent m\d+ to (n\d+)", self.player.last_answer(f"fetch n{k}"))
            if source:
                self.say(f"deliver n{k} {source[1]}", f"deliver {source[1]} n{k}")
            self.say(f"apply n{k}", f"flush n{k}", f"report n{k} n{x}", f"deliver n{k} n{x}")
        self.look()


# The steps, each with how often it is taken.
STEPS = [
    (Author.elect, 5),
    (Author.contest, 3),
    (Author.writes, 10),
    (Author.writers, 6),
    (Author.pull, 8),
    (Author.replicate, 10),
    (Author.session_writes, 6),
    (Author.ask_again, 6),
    (Author.diverge, 6),
    (Author.roll_back, 3),
    (Author.crash, 4),
    (Author.fail_disk, 4),
    (Author.reconfigure, 4),
    (Author.reads, 4),
    (Author.show, 4),
    (Author.old_messages, 4),
    (Author.beat, 3),
    (Author.checkpoint, 3),
    (Author.step_down_or_clock, 2),
    (Author.astray, 3),
]


def sizes_by(dice):
    """How many nodes, voters and members a set has."""
    if dice.random() < 0.6:
        nodes = dice.choice([3, 3, 5, 5, 7])
        return nodes, nodes, nodes
    nodes = dice.choice([3, 4, 5, 7, 9])
    voters = dice.randint(1, min(5, nodes))
    return nodes, voters, dice.randint(voters, nodes)


def play(program, dice):
    """A player that has played one whole random script."""
    sizes = sizes_by(dice)
    player = Player(program, sizes)
    author = Author(dice, player, sizes, disk_faults=dice.random() < 0.35)
    try:
        author.elect()
        for _ in range(dice.randint(3, 7)):
            author.part()
        author.settle()
    except Fault as fault:
        fault.player = player
        raise
    return player
