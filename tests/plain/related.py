"""What holds, within a tick, between a configuration of a chart and the one of its core chart that stands for it, by words of
crates/abort_expansion_laws/specs/Related: given the chart's, where each thread of the core chart stands.

Where aborts lie in aborts, a monitor has the weak checks of the superstates around it behind its tests, as a simple state has, and
their strong checks in front, as long as one of them guards; and who was woken inside of a superstate that guards may guard.
With `is_layered`, as in the relation of layered charts, nobody who was woken there guards, and a monitor has the strong checks in
front until its first weak test (`unseen`)."""
from expansion import aborts


def named(region, name):
    return next(s for s in region.states if s.name == name)


class Relation:
    """Of the plain machine of a chart and that of its core chart, which `expansion` made."""

    def __init__(self, machine, expansion, core, is_layered=False):
        self.c, self.d, self.known, self.is_layered = machine, core, expansion.known, is_layered
        self.thread, self.main, self.entry, self.behind, self.watcher, self.place = {}, {}, {}, {}, {}, {}
        # superstates whose monitors have yet to look at the strong flags around
        self.unseen = set()
        for region, made in zip(machine.chart.regions, expansion.chart.regions, strict=True):
            self.match(region, made)
        self.region_of = {t: r for r, t in self.thread.items()}
        self.watched = {g: o for o, g in self.watcher.items()}

    def match(self, region, made):
        self.thread[region] = made
        for s in region.states:
            self.main[s] = named(made, s.name)
            number = self.known[s].number if s.regions else None
            names = {piece.name: piece for piece in made.states}
            self.entry[s] = names.get(f"_e{number}", self.main[s])
            self.behind[s] = names.get(f"_b{number}")
            self.place[s] = made.states.index(self.entry[s])
            for inner, other in zip(s.regions, self.main[s].regions):
                self.match(inner, other)
            if s.regions and aborts(s):
                self.watcher[s] = self.main[s].regions[-1]

    # ---- of the chart alone

    def checks(self, r):
        """How many strong flags and how many weak ones are looked at in a region."""
        around = self.c.around(r)
        return sum(bool(s.of_kind("strong")) for s in around), sum(bool(s.of_kind("weak")) for s in around)

    def stays(self, s):
        return not aborts(s) and not any(map(aborts, self.c.around(self.c.holder[s])))

    def is_behind(self, s):
        """Whether it can only be left from outside, and its regions have ended: the fork of the core is over."""
        ended = all(self.c.standing[r] == ("ended",) for r in s.regions)
        return not self.stays(s) and not aborts(s) and not s.of_kind("join") and ended

    def is_inside(self, s):
        standing = self.c.standing[self.c.holder[s]]
        return standing is not None and standing[0] in ("guarding", "within") and standing[1] is s

    # ---- where threads stand

    def tests_of(self, r, s, tests):
        """The tests of a simple state or a continuation: strong checks in front while someone guards, these, and weak checks."""
        strong, weak = self.checks(r)
        all_tests = s.transitions
        return (all_tests[:strong] if self.c.is_guarded(r) else []) + tests + all_tests[len(all_tests) - weak:]

    def stands(self, r):
        """Where the thread of a region stands; of an effect the state that it comes from is left open."""
        standing, core = self.c.standing[r], self.main
        if standing is None:
            return None
        if standing[0] == "ended":
            s = self.c.superstate[r]
            return None if s and self.is_behind(s) else standing
        where, s, tests = standing[:3]
        if where == "acting":
            return self.acts(r, s, tests, standing[3])
        if where == "trying":
            first = self.checks(r)[0]
            led = [core[s].transitions[first + s.transitions.index(t)] for t in tests]
            return "trying", core[s], self.tests_of(r, core[s], led)
        if where == "entering":
            return "trying", self.entry[s], self.entry[s].transitions[-1 - len(tests):]
        if where == "within" and self.stays(s):
            return "within", core[s], core[s].of_kind("join") if tests else []
        if where == "within" and self.is_behind(s):
            return "trying", self.behind[s], self.tests_of(r, self.behind[s], [])
        return "within", core[s], core[s].of_kind("join")

    def acts(self, r, s, effects, target):
        holder = self.c.superstate[r]
        counter = self.known[holder].counter if holder else None
        last = [] if counter is None or not r.states[target].is_final else \
            [(counter, ("subtract", ("load", counter), ("value", 1)))]
        return "acting", None, effects + last, self.place[r.states[target]]

    def watches(self, o):
        """Where the monitor of a superstate stands."""
        r = self.c.holder[o]
        standing = self.c.standing[r]
        if standing is None or standing[0] not in ("guarding", "within") or standing[1] is not o:
            return None
        where, _, tests = standing
        watching = self.watcher[o].states[0]
        strong, weak = self.checks(r)
        own = watching.transitions[strong:len(watching.transitions) - weak]
        order = o.of_kind("strong") + o.of_kind("weak")
        raised = [own[order.index(t)] for t in tests if t.kind != "join"]
        rest = own[len(o.of_kind("strong")):] if where == "guarding" else own[len(order):]
        if self.is_layered:
            checks = watching.transitions[:strong] if o in self.unseen else []
            return "trying", watching, checks + raised + rest + watching.transitions[len(watching.transitions) - weak:]
        return "trying", watching, self.tests_of(r, watching, raised + rest)

    def wanted(self, t):
        return self.stands(self.region_of[t]) if t in self.region_of else self.watches(self.watched[t])

    def is_settled(self, t):
        wanted, standing = self.wanted(t), self.d.standing[t]
        if wanted and wanted[0] == "acting" and standing and standing[0] == "acting":
            return wanted[2:] == standing[2:]
        return wanted == standing

    # ---- flags, and what holds of the chart alone

    def weak_flag(self, s):
        return 0

    def wrong_flags(self):
        for s, given in self.known.items():
            if self.is_inside(s):
                left = sum(self.c.standing[r] != ("ended",) for r in s.regions)
                for x, n in (given.strong, 0), (given.weak, self.weak_flag(s)), (given.counter, left):
                    if x is not None and self.d.values[x] != n:
                        yield f"a flag of {s.name} is {self.d.values[x]} and not {n}"

    def wrong_of_chart(self):
        c = self.c
        woken = {"ended", "trying", "within"} | (set() if self.is_layered else {"guarding"})
        for r in c.regions:
            standing = c.standing[r]
            for s in c.around(r) if standing else []:
                if not self.is_inside(s):
                    yield f"{r.name} is there, and {s.name} around it is not open"
                if c.standing[c.holder[s]][0] in ("entering", "guarding") and standing[0] not in woken:
                    yield f"{r.name} is {standing[0]}, and {s.name} around it guards"
        for o in self.watcher if self.is_layered else []:
            if self.is_inside(o) and c.is_guarded(c.holder[o]) and o not in self.unseen:
                yield f"the monitor of {o.name} has looked, and somebody around guards"
        for s in self.known:
            standing = c.standing[c.holder[s]]
            if self.is_inside(s) and any(c.standing[r] is None for r in s.regions):
                yield f"{s.name} is open, and a region of it is not there"
            if self.is_inside(s) and standing[0] == "within" and [t for t in standing[2] if t.kind == "join"] != s.of_kind("join"):
                yield f"the tests of {s.name} do not end with its termination"

    def wrong(self):
        """What does not hold, if anything."""
        if self.d.values[:len(self.c.values)] != self.c.values:
            yield "the declared variables differ"
        for t in self.d.regions:
            if not self.is_settled(t):
                yield f"{t.name} stands {told(self.d.standing[t])} and not {told(self.wanted(t))}"
        yield from self.wrong_flags()
        yield from self.wrong_of_chart()


def told(standing):
    if standing is None:
        return "outside"
    where, *rest = standing
    if where == "ended":
        return where
    return f"{where} {rest[0].name if rest[0] else ''} with {len(rest[1])} left"
