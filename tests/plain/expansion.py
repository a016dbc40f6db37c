"""The expansion of strong and weak aborts, paragraph by paragraph: flags that are raised, looked at and answered take the
place of dropping what is inside. Each state that is made bears the state of the chart that it stands for, or None."""
from charts import Chart, Region, State, Transition
from programs import Variable
from reader import VARIABLES


class TooLarge(Exception):
    """The core chart has too many variables."""


class Superstate:
    """What a superstate is given: its number, and flags and a counter where it needs them, as places of variables."""

    def __init__(self, number):
        self.number, self.strong, self.weak, self.counter = number, None, None, None


def number(n):
    return ("value", n)


def is_number(x, n):
    return ("equal", ("load", x), number(n))


def go(immediate, trigger, effects, target):
    return Transition("go", immediate, trigger, effects, target)


def aborts(state):
    return bool(state.of_kind("strong") or state.of_kind("weak"))


class Expansion:
    def __init__(self, chart):
        self.variables = list(chart.variables)
        self.known = {}
        self.declare(chart.regions, False)
        if len(self.variables) > VARIABLES:
            raise TooLarge()
        self.chart = Chart(chart.name, self.variables, [self.region(r, [], None) for r in chart.regions])

    def add(self, name):
        self.variables.append(Variable(name, "local", "int"))
        return len(self.variables) - 1

    def declare(self, regions, weak_around):
        for s in (s for r in regions for s in r.states):
            if not s.regions:
                continue
            made = self.known[s] = Superstate(len(self.known) + 1)
            if s.of_kind("strong"):
                made.strong = self.add(f"_s{made.number}")
            if s.of_kind("weak"):
                made.weak = self.add(f"_w{made.number}")
            if s.of_kind("join") and (aborts(s) or weak_around):
                made.counter = self.add(f"_r{made.number}")
            self.declare(s.regions, weak_around or bool(s.of_kind("weak")))

    # ---- tests of flags: `around` are the enclosing superstates, outermost first. While a region is made, a target is
    # ("text", place in the text) or the name of a state that is added

    @staticmethod
    def strong_tests(around, immediate):
        return [go(immediate, ("not equal", ("load", o.strong), number(0)), [], "_l")
                for o in around if o.strong is not None]

    @staticmethod
    def weak_tests(around, immediate=True):
        return [go(immediate, ("not equal", ("load", o.weak), number(0)), [], "_l")
                for o in around if o.weak is not None]

    # ---- regions

    def region(self, region, around, holder):
        """`holder` is the superstate that has the region."""
        finals = {i for i, s in enumerate(region.states) if s.is_final}
        counter = holder.counter if holder else None
        countdown = [] if counter is None else [(counter, ("subtract", ("load", counter), number(1)))]

        def led(t, kind, immediate, trigger):
            """A transition of the text, tested by another trigger."""
            effects = t.effects + (countdown if t.target in finals else [])
            return Transition(kind, immediate, trigger, effects, ("text", t.target))

        made, places = [], {}
        first = region.states.index(region.initial())
        anew = counter is not None and first in finals
        if anew:
            made.append(State("_i", True, False, [], [go(True, None, countdown, ("text", first))]))
            made[0].stands_for = region.states[first]
        for i, s in enumerate(region.states):
            places["text", i] = len(made)
            pieces = self.pieces(s, around, led)
            pieces[0].is_initial = s.is_initial and not anew
            made += pieces
        if any(o.strong is not None or o.weak is not None for o in around):
            made.append(State("_l", False, True))
            made[-1].stands_for = None
        places.update({s.name: i for i, s in enumerate(made) if s.name.startswith("_")})
        # a fork that is entered from its preparation state has the name of its superstate
        places.update({("fork", s.name): i for i, s in enumerate(made)})
        for s in made:
            for t in s.transitions:
                t.target = places[t.target]
        return Region(region.name, made)

    def pieces(self, s, around, led):
        """The states that a state becomes."""
        if s.regions:
            return self.superstate(s, around, led)
        if s.is_final:
            made = State(s.name, False, True)
        else:
            own = [led(t, t.kind, t.immediate, t.trigger) for t in s.transitions]
            made = State(s.name, False, False, [],
                         self.strong_tests(around, False) + own + self.weak_tests(around))
        made.stands_for = s
        return [made]

    def superstate(self, s, around, led):
        own = self.known[s]
        regions = [self.region(r, around + [own], own) for r in s.regions]
        strong, weak, join = s.of_kind("strong"), s.of_kind("weak"), s.of_kind("join")
        tests = self.strong_tests(around, True) + self.weak_tests(around)
        if not aborts(s) and not tests:
            made = State(s.name, False, False, regions, [led(t, "join", False, None) for t in join])
            made.stands_for = s
            return [made]
        pieces = []
        if aborts(s) or own.counter is not None:
            put = [(x, number(n)) for x, n in ((own.strong, 0), (own.weak, 0), (own.counter, len(regions))) if x is not None]
            at_once = [led(t, "go", True, t.trigger) for t in strong if t.immediate]
            pieces.append(State(f"_e{own.number}", False, False, [], at_once + [go(True, None, put, ("fork", s.name))]))
        if aborts(s):
            regions.append(self.watcher(s, around))
        behind = f"_b{own.number}"
        pieces.append(State(s.name, False, False, regions, [Transition("join", False, None, [], behind)]))
        answers = self.strong_tests(around, True)
        answers += [led(t, "go", True, is_number(own.strong, i)) for i, t in enumerate(strong, 1)]
        answers += [led(t, "go", True, is_number(own.weak, i)) for i, t in enumerate(weak, 1)]
        if not join:
            answers += self.weak_tests(around)
        elif self.weak_tests(around):
            answers += [led(join[0], "go", True, is_number(own.counter, 0)), go(True, None, [], "_l")]
        else:
            answers.append(led(join[0], "go", True, None))
        pieces.append(State(behind, False, False, [], answers))
        for piece in pieces:
            piece.stands_for = s
        return pieces

    def watcher(self, s, around):
        own = self.known[s]
        tests = self.strong_tests(around, False)
        tests += [go(False, t.trigger, [(own.strong, number(i))], "_l") for i, t in enumerate(s.of_kind("strong"), 1)]
        tests += [go(t.immediate, t.trigger, [(own.weak, number(i))], "_l") for i, t in enumerate(s.of_kind("weak"), 1)]
        if own.counter is not None:
            tests.append(go(True, is_number(own.counter, 0), [], "_l"))
        tests += self.weak_tests(around)
        for t in tests:
            t.target = 1
        states = [State("_v", True, False, [], tests), State("_l", False, True)]
        for made in states:
            made.stands_for = None
        return Region(f"_g{own.number}", states)


def expand(chart):
    """The core chart, or TooLarge."""
    return Expansion(chart).chart
