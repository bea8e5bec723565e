"""Writes of sessions, for the authors of random scripts."""

SESSIONS = [0, 7, 7, 8, 4294967295]


class Sessions:
    """The steps of an author that ask for writes which may be asked for again. `asked` has all of them so far, as the session,
    the number and the write."""

    def next_asked(self):
        """The next write of a session, whose number mostly follows the last one."""
        session = self.dice.choice(SESSIONS)
        last = max((number for own, number, _ in self.asked if own == session), default=0)
        self.asked.append((session, last + self.dice.choice([1, 1, 1, 1, 2, 9]), self.write()))
        return self.asked[-1]

    def asking(self, k, write):
        session, number, op = write
        return f"retry n{k} {session} {number} {op if self.dice.random() < 0.9 else self.write()}"

    def earlier(self):
        """A write that was asked for before, mostly not long ago."""
        return self.dice.choice(self.asked[-6:] if self.dice.random() < 0.8 else self.asked)

    def session_writes(self):
        """Writes of sessions, some asked for twice, some of them late."""
        for _ in range(self.dice.randint(1, 5)):
            self.put(self.asking(self.leader(), self.next_asked()))
            if self.dice.random() < 0.6:
                self.put(self.asking(self.leader(), self.earlier()))
            if self.dice.random() < 0.2:
                self.put(f"note n{self.leader()}")

    def ask_again(self):
        """A write, then what makes it doubtful whether it is there, and the same write again at who may lead then."""
        p = self.leader()
        write = self.next_asked()
        self.put(self.asking(p, write))
        if self.dice.random() < 0.5:
            self.put(f"flush n{p}")
        x = self.other_than(p)
        if self.dice.random() < 0.5:
            self.pull(x, p)
        self.dice.choice([self.diverge, self.crash, self.contest, self.fail_disk, self.step_down_or_clock, self.replicate])()
        if self.dice.random() < 0.7:
            self.elect(self.dice.choice([x, x, p, self.some()]))
        for k in self.dice.sample(range(self.nodes), 2) + [self.leader()]:
            self.put(self.asking(k, write))
        if self.dice.random() < 0.5:
            self.put(self.asking(self.leader(), self.next_asked()), self.asking(self.leader(), write))
        self.say(f"log n{self.leader()}", f"log n{p}")
