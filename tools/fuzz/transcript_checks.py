"""What a user may hold against the transcript of a script: `check(nodes, lines, answers)` gives the faults and counts."""
import collections
import re

from session_checks import SessionChecks

O = r"\d+/\d+/\d+"
WRITE = rf"written {O}|matched 0|unchanged"
SENT = r"sent m\d+"
DELIVERED = (
    rf"replied m\d+|won \d+|votes \d+ of \d+|vote refused (StaleTerm|AlreadyVoted|OlderConfig|OlderLog)|"
    rf"dry votes \d+ of \d+|heard|took \d+ last {O}|counted commit {O}|rolled back to {O} removed \d+|"
    r"ignored (OldTerm|NotCandidate|NotSecondary|OtherPlace|NotOlder|NotMember|NotPrimary|SameBranch)"
)
DOCUMENTS = r"documents \d+(\n\w+ \{.*\})*"
ENTRY = rf"{O} (n \{{msg: \"(new primary|note)\"\}}|[id] \w+ \{{.*\}}|u \w+ \S+ \{{.*\}})"
STATE = (
    rf"state (Secondary|Candidate|Draining|Primary) term \d+ vote (n\d|none) last {O} durable {O} applied {O} "
    rf"commit {O} config \d+/\d+ rollback \d+"
)
# What each command may answer beside a refusal.
SHAPES = {
    "insert": rf"written {O}",
    "replace": WRITE,
    "update": WRITE,
    "delete": rf"written {O}|matched 0",
    "retry": WRITE,
    "note": rf"written {O}",
    "begin": rf"begun {O}|matched 0|unchanged",
    "commit": rf"committed {O}",
    "abort": "aborted",
    "ack": rf"acked {O}",
    "read": r"found \{.*\}|missing",
    "dump": DOCUMENTS,
    "rolled": r"documents \d+(\n\w+ (\{.*\}|\S+ gone))*",
    "log": rf"entries \d+(\n{ENTRY})*",
    "state": STATE,
    "campaign": r"won \d+|candidate \d+ sent m\d+ \d+",
    "dryrun": r"dryrun \d+ sent m\d+ \d+",
    "drain": rf"primary \d+ noop {O}",
    "stepdown": "secondary",
    "heartbeat": SENT,
    "report": SENT,
    "common": SENT,
    "fetch": SENT + r" to n\d",
    "deliver": DELIVERED,
    "apply": rf"applied \d+ to {O}",
    "flush": rf"flushed \d+ to {O}",
    "checkpoint": rf"checkpoint {O}",
    "reconfig": r"config \d+/\d+",
    "crash": "down",
    "restart": rf"up last {O}",
    "diskfail": "armed",
    "clock": r"clock \d+",
}
# Each refusal with its values, and the commands that may meet it; where none stands, any may.
WRITES = "insert replace update delete retry begin"
REFUSALS = {
    "1 NodeDown": "",
    "2 NotPrimary": WRITES + " note ack drain stepdown reconfig",
    "3 DuplicateKey": "insert retry begin",
    "4 NoId": "insert retry begin",
    "5 BadIdKind": WRITES + " read",
    "6 ImmutableId": "replace update retry begin",
    "7 IncType": "update retry begin",
    "8 IncOverflow": "update retry begin",
    "9 DocTooLarge": WRITES,
    r"10 BadUpdate [1-4]": "update retry begin",
    r"11 WriteConflict w\d+": WRITES,
    "12 WriterOpen": "begin ack",
    "13 NoSuchWriter": "commit abort ack",
    r"14 SteppedDown \d+": "commit abort ack",
    r"15 Waiting \d+ \d+": "ack",
    r"16 CannotSatisfy \d+": "ack",
    "17 NoSuchMessage": "deliver",
    "18 NoSource": "fetch",
    r"19 NotElectable [12]": "campaign dryrun",
    "20 WrongVersion": "reconfig",
    r"21 ConfigRule [1-5]": "reconfig",
    "22 PrimaryNotMember": "reconfig",
    "23 TwoVoters": "reconfig",
    r"24 ConfigNotCommitted \d+ \d+": "reconfig",
    rf"25 TermNotCommitted {O}": "reconfig",
    r"26 OplogNotCommitted \d+ \d+": "reconfig",
    r"27 UnknownMember \d+": "reconfig",
    "28 NothingToDo": "apply flush checkpoint",
    "29 DiskFailed": "campaign drain deliver flush checkpoint reconfig restart",
    "30 NotDown": "restart",
    "31 TooManyOptimes": "deliver",
    r"32 OldNumber \d+": "retry",
}


def optime(text):
    return tuple(int(part) for part in text.split("/"))


def shape_fault(command, answer):
    """None where the answer has a shape of the command's."""
    if answer.startswith("refused "):
        for pattern, commands in REFUSALS.items():
            if re.fullmatch(pattern, answer[8:]) and (not commands or command in commands.split(" ")):
                return None
    elif re.fullmatch(SHAPES[command], answer):
        counted = re.match(r"(?:documents|entries) (\d+)", answer)
        if not counted or int(counted[1]) == answer.count("\n"):
            return None
    return "no answer of this command"


def fields(document):
    """The fields of a printed document, each as its text."""
    found, depth, name, start = {}, 0, None, 1
    for token in re.finditer(r'"(?:\\.|[^"\\])*"|[\[\]{}:,]', document):
        mark, place = token[0], token.start()
        depth += (mark in "[{") - (mark in "]}")
        if mark == ":" and depth == 1:
            name, start = document[start:place].strip(), place + 1
        if (mark == "," and depth == 1) or (mark == "}" and depth == 0):
            if name is not None:
                found[name] = document[start:place].strip()
            name, start = None, place + 1
    return found


def key_of(text):
    """int32 5 and int64 5 are one key."""
    return text.rstrip("L") if text[0] in "-0123456789" else text


def fold(entries):
    """The documents that a log leaves, as a dump prints them, and the entries that touch a document in a way they can't."""
    documents, wrong = {}, []
    for point, kind, rest in entries:
        if kind == "n":
            continue
        collection, rest = rest.split(" ", 1)
        if kind == "u":
            key, rest = rest.split(" ", 1)
        change = fields(rest)
        if kind != "u":
            key = change["_id"]
        place = (collection, key_of(key))
        if (place in documents) == (kind == "i"):
            wrong.append(point)
        if kind == "d":
            documents.pop(place, None)
        elif kind == "i" or "$v" not in change:
            documents[place] = change
        elif place in documents:
            documents[place].update(fields(change.get("$set", "{}")))
            for name in fields(change.get("$unset", "{}")):
                documents[place].pop(name, None)
    shown = (f"{place[0]} {{{', '.join(f'{n}: {v}' for n, v in d.items())}}}" for place, d in documents.items())
    return sorted(shown), wrong


class Checker:
    """Goes over the lines and answers of one script in their order."""

    def __init__(self, nodes):
        self.nodes = nodes
        self.faults = []
        self.counts = collections.Counter()
        self.place = ""
        self.ends = {}  # of each message, who sent it and who gets it, or None
        self.latest = {}
        self.up = [True] * nodes  # or None where it isn't known
        self.armed = [0] * nodes
        self.winners = {}
        self.texts = {}  # of each optime, the entry
        self.before = {}  # of each optime, that of the entry before it
        self.logs = []  # each log that was printed, with its place and node
        self.committed = {}  # what was acknowledged at majority or told as a commit point: where, and in which term
        self.told = [(0, 0, 0)] * nodes  # the greatest commit point that a node told since it came up
        self.ever_told = [(0, 0, 0)] * nodes
        self.durable = [(0, 0, 0)] * nodes
        self.unsure = [False] * nodes  # whether a disk failed since the node came up
        self.view = {}  # what was just shown of a node
        self.sessions = SessionChecks(self.fault, self.met)

    def fault(self, text):
        self.faults.append(f"{self.place}: {text}")

    def met(self, name):
        self.counts[name] += 1

    def line(self, number, line, answer):
        self.place = f"line {number} `{line}` answers `{answer.splitlines()[0]}`"
        words = line.split(" ")
        command = words[0]
        found = shape_fault(command, answer)
        if found:
            self.fault(found)
            return
        node = self.node_of(words)
        told = answer.split("\n")[0].split(" ")
        if command not in ("log", "dump", "state"):
            self.view = {}
        self.message(words, told)
        self.sessions.line(words, node, told)
        if told[0] == "refused":
            self.refusal(command, node, told)
            return
        if node is not None and self.up[node] is False and command not in ("restart", "clock", "diskfail"):
            self.fault("the node is down")
        self.answer(command, words, node, told, answer)

    def node_of(self, words):
        """Who acts or receives, as far as it is known."""
        if words[0] != "deliver":
            return int(words[1][1:])
        if len(words) == 3:
            return int(words[2][1:])
        return self.ends.get(int(words[1][1:]), (None, None))[1]

    def message(self, words, told):
        if "sent" not in told and told[0] != "replied":
            return
        first = int(next(word for word in told if word[0] == "m")[1:])
        if words[0] in ("campaign", "dryrun"):
            asker, count = int(words[1][1:]), int(told[-1])
            every = [k for k in range(self.nodes) if k != asker]
            for k in range(count):
                self.ends[first + k] = (asker, every[k] if count == len(every) else None)
        elif words[0] == "deliver" and len(words) == 2:
            self.ends[first] = self.ends.get(int(words[1][1:]), (None, None))[::-1]
        elif words[0] == "deliver":
            self.ends[first] = (int(words[2][1:]), int(words[1][1:]))
        else:
            self.ends[first] = (int(words[1][1:]), int((told[-1] if words[0] == "fetch" else words[2])[1:]))

    def refusal(self, command, node, told):
        name = told[2]
        self.counts["refused " + name] += 1
        if name == "NodeDown" and node is not None and self.up[node]:
            self.fault("the node is up")
        if name == "NotDown" and self.up[node] is False:
            self.fault("the node is down")
        if name == "DiskFailed":
            self.disk_failed(node)

    def disk_failed(self, node):
        self.counts["disk faults"] += 1
        if node is None:
            self.up = [None] * self.nodes
            return
        if self.armed[node] == 0:
            self.fault("no disk of this node was to fail")
        self.armed[node] -= 1
        self.up[node] = False
        self.unsure[node] = True

    def answer(self, command, words, node, told, answer):
        if told[0] == "won":
            self.won(node, int(told[1]))
        elif told[0] == "primary":
            self.counts["primaries"] += 1
            if self.winners.get(int(told[1])) != node:
                self.fault("this node didn't win that term")
        elif told[0] == "acked":
            self.counts["acknowledged at majority" if words[3] == "majority" else "acknowledged at a count"] += 1
            if words[3] == "majority":
                self.is_committed(optime(told[1]), optime(told[1])[0])
        elif told[0] == "counted":
            terms = [term for term, winner in self.winners.items() if winner == node]
            if terms:
                self.commit(node, optime(told[2]), max(terms))
            else:
                self.fault("this node never won")
        elif told[0] == "rolled":
            self.rolled(node, optime(told[3]), int(told[5]))
        elif told[0] == "flushed":
            self.durable[node] = optime(told[3])
        elif told[0] in ("up", "down", "armed"):
            self.disk_or_process(told, node)
        elif told[0] in ("config", "checkpoint", "took", "applied", "ignored", "vote"):
            self.counts[" ".join(told[:1] if told[0] not in ("ignored", "vote") else told)] += 1
        elif command in ("state", "log", "dump"):
            self.shown(command, words, node, told, answer)

    def won(self, node, term):
        self.counts["won"] += 1
        if self.winners.setdefault(term, node) != node:
            self.fault(f"n{self.winners[term]} won this term")

    def is_committed(self, at, term):
        if at not in self.committed or term < self.committed[at][1]:
            self.committed[at] = self.place, term

    def commit(self, node, at, term):
        if at < self.told[node]:
            self.fault(f"the commit point was {self.told[node]} before")
        if at != (0, 0, 0):
            self.is_committed(at, term)
        self.told[node] = at
        self.ever_told[node] = max(at, self.ever_told[node])

    def rolled(self, node, to, removed):
        self.counts["rolled back"] += 1
        self.counts["entries removed"] += removed
        if to < self.ever_told[node]:
            self.fault(f"the commit point was {self.ever_told[node]} before")
        self.durable[node] = min(self.durable[node], to)

    def disk_or_process(self, told, node):
        if told[0] == "armed":
            self.armed[node] += 1
        elif told[0] == "down":
            self.counts["crashes"] += 1
            self.up[node] = False
        else:
            self.counts["restarts"] += 1
            last = optime(told[2])
            if last < self.ever_told[node]:
                self.fault(f"the commit point was {self.ever_told[node]} before")
            if not self.unsure[node] and last != self.durable[node]:
                self.fault(f"the log was durable up to {self.durable[node]}")
            self.up[node], self.unsure[node] = True, False
            self.told[node], self.durable[node] = (0, 0, 0), last

    def shown(self, command, words, node, told, answer):
        if command == "state":
            state = dict(zip(told[2::2], told[3::2]), role=told[1])
            last, durable, applied, commit = (optime(state[name]) for name in ("last", "durable", "applied", "commit"))
            if not commit <= durable <= last or applied > last:
                self.fault("these points can't be")
            self.commit(node, commit, int(state["term"]))
            self.view = {"node": node, "state": state}
            if durable != self.durable[node]:
                self.fault(f"the log was durable up to {self.durable[node]}")
        elif command == "log":
            entries = [tuple(line.split(" ", 2)) for line in answer.split("\n")[1:]]
            self.log(node, entries)
            self.sessions.log(node, [entry[0] for entry in entries])
            if self.view.get("node") == node:
                self.view["log"] = entries
        elif self.view.get("node") == node and "log" in self.view:
            self.dump(words[2], answer.split("\n")[1:])

    def log(self, node, entries):
        points = [optime(entry[0]) for entry in entries]
        for one, next_one in zip(points, points[1:]):
            if one[0] > next_one[0] or one[1:] >= next_one[1:]:
                self.fault(f"{one} stands before {next_one}")
        for point, entry in zip(points, entries):
            if self.texts.setdefault(point, entry) != entry:
                self.fault(f"{entry} was {self.texts[point]} before")
        if self.view.get("node") == node and self.view["state"]["role"] != "Primary":  # it has no hole then
            for before, point in zip([(0, 0, 0)] + points, points):
                if self.before.setdefault(point, before) != before:
                    self.fault(f"{before} stands before {point}, and {self.before[point]} did")
        self.logs.append((self.place, node, set(points), max(points, default=(0, 0, 0))))

    def dump(self, level, documents):
        state, entries = self.view["state"], self.view["log"]
        commit, applied = optime(state["commit"]), optime(state["applied"])
        if level == "majority":
            entries = [entry for entry in entries if optime(entry[0]) <= min(commit, applied)]
        elif state["role"] != "Primary":
            entries = [entry for entry in entries if optime(entry[0]) <= applied]
        self.counts["dumps compared"] += 1
        given, wrong = fold(entries)
        if wrong:
            self.fault(f"the log inserts what is there, or changes what isn't, at {wrong}")
        if given != sorted(documents):
            self.fault(f"the log gives {given}, and shown are {sorted(documents)}")

    def end(self, lines, answers):
        """What holds of the whole script, and of the settled set at its end."""
        for point, (place, term) in self.committed.items():
            for log_place, _, points, last in self.logs:
                if last[0] > term and point not in points:
                    self.faults.append(f"{log_place}: without {point}, of {place}")
        final = [answers[len(lines) - 4 * k - j] for j in (0, 1, 2) for k in range(self.nodes)]
        for j, name in enumerate(("documents at majority", "documents", "log")):
            if len(set(final[j * self.nodes : (j + 1) * self.nodes])) != 1:
                self.faults.append(f"the nodes end with different {name}")
        for point, (place, _) in self.committed.items():
            if point not in self.logs[-1][2]:
                self.faults.append(f"the settled logs are without {point}, of {place}")
        states = [answers[len(lines) - 4 * k - 3].split(" ") for k in range(self.nodes)]
        if sum(state[1] == "Primary" for state in states) != 1:
            self.faults.append("the set ends without one primary")
        if any(state[7] != state[13] for state in states):
            self.faults.append("the set ends with entries that aren't committed")


def check(nodes, lines, answers, settled=True):
    checker = Checker(nodes)
    for number in sorted(answers):
        checker.line(number, lines[number - 1], answers[number])
    if settled:
        checker.end(lines, answers)
    checker.counts["lines"] = len(lines)
    return checker.faults, checker.counts
