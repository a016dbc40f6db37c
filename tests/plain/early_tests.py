"""Runs of a chart by greatest rank followed by its core chart also where weak aborts lie in weak ones. When an inner one is left,
its inside looks at the flags of those around it first; so before that the weak aborts of these are tested in the core, ahead of the
chart, which tests them when the inside is done. They give the same: all steps that are left have a lesser rank than these tests,
and none of them writes what the tests read. That stages do not fall holds no longer; whether the core's run is admissible is
looked at itself."""
from related import Relation
from simulation import Broken, Simulation


class EarlyRelation(Relation):
    """`early` has the superstates whose weak aborts were tested ahead, each with the number of the one that was raised, or 0."""

    def __init__(self, *words):
        super().__init__(*words)
        self.early = {}

    def weak_tests(self, o):
        first = self.checks(self.c.holder[o])[0] + len(o.of_kind("strong"))
        return self.watcher[o].states[0].transitions[first:first + len(o.of_kind("weak"))]

    def watches(self, o):
        wanted = super().watches(o)
        if wanted is None or o not in self.early:
            return wanted
        if self.early[o]:
            return ("ended",)
        made = self.weak_tests(o)
        return wanted[:2] + ([t for t in wanted[2] if t not in made],)

    def weak_flag(self, s):
        return self.early.get(s, 0)


class EarlySimulation(Simulation):
    relation_of = EarlyRelation

    def step(self, t, stages):
        return super().step(t, [])

    def abort_test(self, r, s, where, access):
        if where != "within" or s not in self.relation.early:
            super().abort_test(r, s, where, access)

    def leave(self, r, s, where):
        early = self.relation.early
        for o in self.c.around(r) if where == "within" else []:
            if o.of_kind("weak") and o not in early:
                early[o] = self.tested_ahead(o)
        super().leave(r, s, where)
        for o in list(early):
            if o is s or s in self.c.around(self.c.holder[o]):
                del early[o]

    def tested_ahead(self, o):
        """The number of the weak abort of o that holds, or 0."""
        watcher, tests = self.relation.watcher[o], self.relation.weak_tests(o)
        x = self.relation.known[o].weak
        while (standing := self.d.standing[watcher])[0] == "acting" or (standing[0] == "trying" and standing[2][:1]
                                                                      and standing[2][0] in tests):
            self.step(watcher, [])
        return self.d.values[x]

    def begin(self, tick):
        self.relation.early = {}
        super().begin(tick)

    def follow(self, r):
        where, s, left = self.c.standing[r][:3]
        if where == "within" and left[0].kind == "weak" and s in self.relation.early:
            number = s.of_kind("weak").index(left[0]) + 1
            if (number == self.relation.early[s]) != self.holds(left[0]):
                raise Broken(f"a weak abort of {s.name} was tested ahead, and came out otherwise")
        super().follow(r)
