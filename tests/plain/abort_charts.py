"""Random charts full of aborts: weak beside strong, immediate ones, aborts in aborts, aborts that read what the inside writes,
and terminations."""
from charts import Chart, State
from programs import COMPARISONS, VARIABLES
from random_charts import ChartGenerator


class AbortGenerator(ChartGenerator):
    """In a flat chart no superstate with aborts lies inside another one with aborts."""

    super_chances = 0.75, 0.25

    def __init__(self, seed, size, is_flat):
        super().__init__(seed, size, is_flat)
        self.curious = self.random.choice([0, 0.3, 0.6])

    def abort_trigger(self):
        """A test of an output or a local variable."""
        r = self.random
        x = r.choice([x for x, v in enumerate(VARIABLES) if v.role != "input"])
        if VARIABLES[x].kind == "bool":
            return ("load", x) if r.random() < 0.7 else ("not", ("load", x))
        return (r.choice([*COMPARISONS, "equal"]), ("load", x), ("value", r.choice([0, 1, 2, 3])))

    def transition(self, kind, at, states):
        t = super().transition(kind, at, states)
        r = self.random
        # what leads on has an image more often
        if t.target <= at < states - 1 and r.random() < 0.8:
            t.target = r.randrange(at + 1, states)
        if kind == "weak" and r.random() < self.curious or kind == "strong" and r.random() < self.curious / 3:
            t.trigger = self.abort_trigger()
        return t

    def superstate(self, depth, inside_aborts, at, count, is_initial):
        r = self.random
        kinds = [r.choice(["strong", "weak"]) for _ in range(r.choice([0, 1, 1, 1, 2, 2, 3]))]
        kinds = [] if self.is_flat and inside_aborts else kinds
        kinds += ["join"] * (r.random() < 0.5)
        r.shuffle(kinds)
        name = self.name("S")
        regions = self.regions(depth - 1, inside_aborts or kinds not in ([], ["join"]), r.choice([1, 1, 2, 2, 3]))
        return State(name, is_initial, False, regions, [self.transition(kind, at, count) for kind in kinds])


def abort_chart(seed, size, is_flat, depth=3):
    generator = AbortGenerator(seed, size, is_flat)
    return Chart("C", VARIABLES, generator.regions(depth, False, generator.random.choice([1, 1, 2])))
