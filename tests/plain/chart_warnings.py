"""The warnings of a chart, as plainly as possible. Each is a tuple of its code and of what it speaks of, in the order of the
text: ("W01", state, transition, output), ("W02", state, transition), ("W03", state), ("W04", local), ("W05", variable),
("W06", input), ("W07", state, transition, region), ("W08", state). States are numbered from 0 in the order of the text, those of
the whole chart, transitions and regions within their state."""
from programs import loads


def within(regions):
    """All transitions of these regions and of what is in them."""
    return [t for region in regions for state in region.states for t in within(state.regions) + state.transitions]


def asks(x, t):
    """Whether a transition needs the value of a variable: in its trigger, or for another variable."""
    return t.trigger is not None and x in loads(t.trigger) or any(y != x and x in loads(e) for y, e in t.effects)


def sets(x, t):
    return any(y == x for y, _ in t.effects)


def switches(x, t):
    """Whether it sets a variable to what is not the literal false or 0."""
    return any(y == x and e not in (("value", 0), ("value", False)) for y, e in t.effects)


def counts(x, t):
    """Whether it computes a variable from its own value."""
    return any(y == x and x in loads(e) for y, e in t.effects)


def at_entry(state):
    """The immediate transitions of a state and of those that are entered with it."""
    return [t for t in state.transitions if t.immediate] + [
        t for region in state.regions for inner in region.states if inner.is_initial for t in at_entry(inner)]


def turn(t):
    """In which turn a transition is tested; within one turn the order of the text counts."""
    return {"go": 0, "strong": 0, "weak": 1, "join": 2}[t.kind]


def led_at_once(state):
    """The place to which a state leads in the tick in which it is entered, whatever holds then; None where there is no such one."""
    first = sorted((t for t in state.transitions if t.immediate), key=turn)
    sure = next((i for i, t in enumerate(first) if t.trigger is None), None)
    targets = {t.target for t in first[:sure + 1]} if sure is not None else ()
    return targets.pop() if len(targets) == 1 else None


def on_the_way(states, place):
    """What is taken at the entry of the state at this place and of those to which it leads at once, one behind the other."""
    taken, passed = [], set()
    while place is not None and place not in passed:
        passed.add(place)
        taken += at_entry(states[place])
        place = led_at_once(states[place])
    return taken


def is_first(t):
    """Whether it is tested in the tick of entry too."""
    return t.immediate or t.kind == "join"


def is_forestalled(transitions, i):
    """Whether another transition without a trigger is taken in each tick in which this one would be tested, or keeps such a
    tick from coming."""
    t = transitions[i]
    for j, u in enumerate(transitions):
        goes_before = (turn(u), j) < (turn(t), i)
        if u.kind != "join" and u.trigger is None:
            if u.immediate and (goes_before or not is_first(t)) or not u.immediate and goes_before and not is_first(t):
                return True
    return False


def ends(region):
    return any(s.is_final for s in region.states)


class Warnings:
    def __init__(self, chart):
        self.chart, self.told, self.states = chart, [], 0
        every = within(chart.regions)
        for x, variable in enumerate(chart.variables):
            asked, is_set = any(asks(x, t) for t in every), any(sets(x, t) for t in every)
            if variable.role == "input" and not asked:
                self.told.append(("W06", x))
            if variable.role == "local" and not asked:
                self.told.append(("W04", x))
            if variable.role != "input" and not is_set:
                self.told.append(("W05", x))
        self.of_regions(chart.regions)

    def of_regions(self, regions):
        for region in regions:
            for i, state in enumerate(region.states):
                self.of_state(region.states, i, state)

    def of_state(self, states, i, state):
        number = self.states
        self.states += 1
        if not state.is_initial and not any(t.target == i for s in states if s is not state for t in s.transitions):
            self.told.append(("W03", number))
        if state.is_initial and len(states) > 1 and all(t.target == i for t in state.transitions):
            self.told.append(("W08", number))
        self.of_regions(state.regions)
        for k, t in enumerate(state.transitions):
            if t.kind == "join":
                self.told += [("W07", number, k, r) for r, region in enumerate(state.regions) if not ends(region)]
            if t.kind in ("strong", "weak"):
                inside, after = within(state.regions), [t] + on_the_way(states, t.target)
                self.told += [("W01", number, k, x) for x, v in enumerate(self.chart.variables)
                              if v.role == "output" and stays_on(x, inside, after)]
            if is_forestalled(state.transitions, k):
                self.told.append(("W02", number, k))


def stays_on(x, inside, after):
    """Whether the inside sets a variable to something and never computes it from its own value, and nothing sets it after."""
    is_switched, is_counted = any(switches(x, t) for t in inside), any(counts(x, t) for t in inside)
    return is_switched and not is_counted and not any(sets(x, t) for t in after)


def warnings_of(chart):
    return Warnings(chart).told
