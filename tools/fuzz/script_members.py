"""Changes of members, for the authors of random scripts."""


class Members:
    """The steps of an author that change the members."""

    def reconfigure(self):
        p = self.leader()
        self.replicate()
        members, silent = list(self.members), set(self.silent)
        outside = [k for k in range(self.nodes) if k not in members]
        if self.dice.random() < 0.3:
            self.change_vote(members, silent, p)
        elif outside and self.dice.random() < 0.6:
            members.append(self.dice.choice(outside))
            if self.dice.random() < 0.4:
                silent.add(members[-1])
        elif len(members) > 2:
            members.remove(self.dice.choice([k for k in members if k != p]))
        if self.dice.random() < 0.1:
            members = self.dice.choice([members[1:], members + [9], members + members[:1], [p], members + outside])
        self.configure(p, members, self.version + self.dice.choice([0, 1, 1, 1, 1, 1, 2]), silent)
        for k in self.dice.sample(range(self.nodes), self.dice.choice([self.nodes // 2, self.nodes])):
            if k != p:
                self.inform(k, p)

    def change_vote(self, members, silent, p):
        """A member gets its vote, or loses it."""
        voters = [k for k in members if k != p and k not in silent]
        others = [k for k in members if k in silent]
        if others and (not voters or self.dice.random() < 0.7):
            silent.remove(self.dice.choice(others))
        elif voters:
            silent.add(self.dice.choice(voters))

    def configure(self, p, members, version, silent=None):
        silent = self.silent if silent is None else silent
        voteless = '"votes":0' if self.dice.random() < 0.05 else '"votes":0,"priority":0'
        texts = [f'{{"_id":{k},{voteless}}}' if k in silent else f'{{"_id":{k}}}' for k in members]
        if len(members) > 2 and members[-1] not in silent and members[-1] != p and self.dice.random() < 0.2:
            texts[-1] = f'{{"_id":{members[-1]},"priority":0}}'
        settings = self.dice.choice(["", "", "", ',"settings":{"chainingAllowed":false}'])
        self.put(f'reconfig n{p} {{"version":{version},"members":[{",".join(texts)}]{settings}}}')

    def inform(self, y, source):
        """It hears of the configuration, and reports that, but fetches nothing."""
        self.put(f"heartbeat n{source} n{y}", f"deliver n{source} n{y}", f"report n{y} n{source}", f"deliver n{y} n{source}")

    def part_ways(self):
        """Changes of members on end, and an election among all who lack what was last acknowledged.

        Either one side hears of the changes, or nobody, and a write is on just enough of the new members; or those who lack a
        write that is acknowledged hear of the changes alone, maybe from a new primary, and fetch nothing."""
        p, every, members = self.leader(), range(self.nodes), list(self.members)
        self.gather(p)
        got = self.bare_majority(members, p, self.dice.sample(every, self.nodes))
        self.replicate(p, got)
        near = [k for k in every if k != p and k not in got]
        fetching = self.dice.random() < 0.5
        if fetching:
            near = self.dice.sample([k for k in every if k != p], self.nodes // 2)
        elif self.dice.random() < 0.6 and got:
            got.append(p)
            p = self.dice.choice(got[:-1])
            self.elect(p)
        tell = self.follow if fetching else self.inform
        told = near if self.dice.random() < 0.75 else []
        for step in range(1, self.dice.randint(2, 4)):
            for y in told:
                tell(y, p)
            for _ in range(self.dice.choice([1, 1, 1, 1, 2])):
                self.change(members, p, near)
            self.configure(p, members, self.version + step)
        for y in told:
            tell(y, p)
        if fetching or self.dice.random() < 0.2:
            got = self.bare_majority(members, p, near)
            self.replicate(p, got)
        lacking = [k for k in every if k != p and k not in got]
        x = self.dice.choice(lacking or [p])
        self.elect(x, lacking)
        self.writes()
        self.say(f"log n{x}")

    def gather(self, p):
        """All come up, give up what the primary hasn't, and take what it has."""
        self.put(f"flush n{p}")
        for k in range(self.nodes):
            if k != p:
                self.put(f"restart n{k}")
                self.roll_back(k, p)
                self.follow(k, p)

    def bare_majority(self, members, p, first):
        """Just as many voters beside p as make a majority with it, of these first."""
        voters = [k for k in members if k not in self.silent]
        rest = [k for k in first if k in voters and k != p] + [k for k in voters if k not in first and k != p]
        return rest[: len(voters) // 2]

    def change(self, members, p, near):
        """One comes in or leaves, mostly so that those who are near become the members."""
        outside = [k for k in range(self.nodes) if k not in members]
        leaving = [k for k in members if k != p]
        far = [k for k in leaving if k not in near]
        if outside and (self.dice.random() < 0.3 or not leaving):
            members.append(self.dice.choice([k for k in outside if k in near] or outside))
        elif leaving:
            members.remove(self.dice.choice(far if far and self.dice.random() < 0.8 else leaving))
