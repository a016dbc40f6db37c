"""A plain machine of charts, by what a chart does and without any expansion of its aborts. A tick is one admissible run,
which is looked for: where a step has to come before one that was made, that one is taken back and made later.

Where a region stands is None (not entered), ("ended",), or, in a state s:
- ("trying", s, tests): s is simple; these tests are left for this tick;
- ("entering", s, tests): s is entered, strong aborts first, before its regions are;
- ("guarding", s, tests): strong aborts, before anything inside s steps;
- ("within", s, tests): the inside has its turn, and these come when it is done: weak aborts, then the termination;
- ("acting", s, effects, target): a transition out of s is taken."""
from machine import value
from programs import COMBINATIONS, loads

# steps of a tick, and steps that may be taken back in one
STEPS, TRIES = 5000, 3000


class NoRun(Exception):
    """No admissible run of the tick was found."""


class Endless(Exception):
    """The tick takes too many steps."""


def access_of(x, e):
    """What an effect reads, and what it writes: ("init", x, literal) or ("update", x, combination)."""
    if e[0] in COMBINATIONS + ["subtract"] and e[1] == ("load", x) and x not in loads(e[2]):
        return set(loads(e[2])), ("update", x, "add" if e[0] == "subtract" else e[0])
    return set(loads(e)), ("init", x, e[1] if e[0] == "value" else None)


def forbids(first, second):
    """Whether a step may not come before a concurrent one, by their accesses."""
    reads, write = first
    other = second[1]
    if other is None:
        return False
    if other[1] in reads:
        return True
    if write is None or write[1] != other[1]:
        return False
    if write[0] != other[0]:
        return write[0] == "update"
    if write[0] == "update":
        return write[2] != other[2]
    # two inits by one literal are none
    return write[2] is None or type(write[2]) is not type(other[2]) or write[2] != other[2]


class ChartMachine:
    def __init__(self, chart, random):
        self.chart, self.random = chart, random
        self.values = [False if v.kind == "bool" else 0 for v in chart.variables]
        # of each region the superstate that has it (None: the chart) and the regions around it, outermost first; of each
        # state the region that holds it
        self.superstate, self.path, self.holder = {}, {}, {}
        self.number(chart.regions, None, [])
        self.regions = list(self.path)
        self.standing = {r: None for r in self.regions}

    def number(self, regions, superstate, path):
        for r in regions:
            self.superstate[r], self.path[r] = superstate, path + [r]
            for s in r.states:
                self.holder[s] = r
                self.number(s.regions, s, path + [r])

    def around(self, r):
        """The superstates around a region."""
        return [self.superstate[p] for p in self.path[r] if self.superstate[p]]

    def inside(self, s):
        return [r for r in self.regions if s in self.around(r)]

    # ---- whose turn it is

    def has_work(self, r):
        standing = self.standing[r]
        if standing is None or standing[0] == "ended":
            return False
        if standing[0] == "acting":
            return True
        _, s, tests = standing
        if standing[0] == "within" and tests and tests[0].kind == "join":
            return all(self.standing[inner] == ("ended",) for inner in s.regions)
        return bool(tests)

    def is_guarded(self, r):
        holders = [self.standing[self.holder[s]] for s in self.around(r)]
        return any(standing[0] in ("entering", "guarding") for standing in holders)

    def is_enabled(self, r):
        if not self.has_work(r) or self.is_guarded(r):
            return False
        standing = self.standing[r]
        return standing[0] != "within" or not any(self.has_work(inner) for inner in self.inside(standing[1]))

    # ---- transitions

    def holds(self, s, t):
        """Whether a transition of s is taken that is tested."""
        return t.trigger is None or value(t.trigger, self.values)

    @staticmethod
    def asked_by(t):
        """The variables that a test of a transition reads."""
        return loads(t.trigger) if t.trigger else []

    def effects_of(self, s, t):
        """What is made when a transition of s is taken, before its target is come to."""
        return t.effects

    # ---- steps

    def come_to(self, r, s):
        """Region r enters its state s."""
        if s.is_final:
            self.standing[r] = ("ended",)
        elif not s.regions:
            self.standing[r] = ("trying", s, [t for t in s.transitions if t.immediate])
        else:
            tests = [t for t in s.of_kind("strong") if t.immediate]
            self.standing[r] = ("entering", s, tests)
            if not tests:
                self.open(r, s)

    def begin_in(self, r):
        """Region r is entered."""
        self.come_to(r, r.initial())

    def open(self, r, s):
        """The regions of s are entered."""
        self.standing[r] = ("within", s, [t for t in s.of_kind("weak") if t.immediate] + s.of_kind("join"))
        for inner in s.regions:
            self.begin_in(inner)

    def wake(self, r):
        """What is tested in a tick at whose start the region stood so."""
        standing = self.standing[r]
        if standing and standing[0] == "trying":
            self.standing[r] = ("trying", standing[1], standing[1].transitions)
        elif standing and standing[0] == "within":
            strong = standing[1].of_kind("strong")
            self.standing[r] = ("guarding", standing[1], strong) if strong else self.let_in(standing[1])

    @staticmethod
    def let_in(s):
        return ("within", s, s.of_kind("weak") + s.of_kind("join"))

    def act(self, r, s, effects, target):
        if effects:
            self.standing[r] = ("acting", s, effects, target)
        else:
            self.come_to(r, r.states[target])

    def step(self, r):
        where, s, tests = self.standing[r][:3]
        if where == "acting":
            (x, e), target = tests[0], self.standing[r][3]
            self.values[x] = value(e, self.values)
            self.act(r, s, tests[1:], target)
            return
        t = tests[0]
        if self.holds(s, t):
            effects = self.effects_of(s, t)
            for inner in self.inside(s):
                self.standing[inner] = None
            self.act(r, s, effects, t.target)
        elif len(tests) > 1 or where in ("trying", "within"):
            self.standing[r] = (where, s, tests[1:])
        elif where == "entering":
            self.open(r, s)
        else:
            self.standing[r] = self.let_in(s)

    def access(self, r):
        standing = self.standing[r]
        if standing[0] == "acting":
            return access_of(*standing[2][0])
        return set(self.asked_by(standing[2][0])), None

    # ---- runs

    def fork(self, p, q):
        """Whether two regions are, or lie inside, different regions of one superstate, and the region that holds it."""
        held = None
        for a, b in zip(self.path[p], self.path[q]):
            if a is not b:
                return self.superstate[a] is self.superstate[b], held
            held = a
        return False, None

    def clash(self, run, r, access):
        """The first step that should not stand before this one, or None."""
        for i, (p, other) in enumerate(run):
            if forbids(other, access):
                are_concurrent, held = self.fork(p, r)
                if are_concurrent and all(q is not held for q, _ in run[i + 1:]):
                    return i
        return None

    def saved(self):
        return list(self.values), dict(self.standing)

    def restore(self, saved):
        self.values, self.standing = saved

    def play(self):
        """Makes one admissible run to its end; returns its steps as pairs of a region and an access."""
        run, before, refused, put_off, tries = [], [], [set()], {}, 0

        def take_back(i):
            nonlocal tries
            tries += 1
            if i < 0 or tries > TRIES:
                raise NoRun()
            self.restore(before[i])
            put_off[run[i][0]] = put_off.get(run[i][0], 0) + 1
            refused[i].add(run[i][0])
            del run[i:], before[i:], refused[i + 1:]

        while ready := [r for r in self.regions if self.is_enabled(r)]:
            choices = [r for r in ready if r not in refused[-1]]
            if not choices:
                take_back(len(run) - 1)
                continue
            least = min(put_off.get(r, 0) for r in choices)
            r = self.random.choice([r for r in choices if put_off.get(r, 0) == least])
            access = self.access(r)
            i = self.clash(run, r, access)
            if i is not None:
                if forbids(access, run[i][1]):
                    raise NoRun()
                take_back(i)
                continue
            before.append(self.saved())
            run.append((r, access))
            refused.append(set())
            if len(run) > STEPS:
                raise Endless()
            self.step(r)
        return run

    def begin(self, inputs):
        """Begins a tick."""
        for x, v in enumerate(self.chart.variables):
            if v.role == "input":
                self.values[x] = inputs.get(v.name, False if v.kind == "bool" else 0)
        if all(standing is None for standing in self.standing.values()):
            for r in self.chart.regions:
                self.begin_in(r)
        else:
            for r in self.regions:
                self.wake(r)

    def tick(self, inputs):
        """Plays one tick; how many steps it took."""
        self.begin(inputs)
        return len(self.play())

    def active(self):
        """The states in which regions stand."""
        return {standing[1] for standing in self.standing.values() if standing and standing[0] != "ended"}

    def outputs(self):
        return {v.name: self.values[x] for x, v in enumerate(self.chart.variables) if v.role == "output"}
