"""Random charts."""
import random

from charts import Chart, Region, State, Transition
from programs import VARIABLES, Generator

WRITTEN = [x for x, v in enumerate(VARIABLES) if v.role != "input"]


class ChartGenerator(Generator):
    """Makes one random chart. In a flat one no superstate with aborts lies inside another one with aborts."""

    # how often a state but the last one, and the last one, is a superstate
    super_chances = 0.5, 0.15

    def __init__(self, seed, size, is_flat):
        super().__init__(seed, size)
        self.is_flat = is_flat
        self.count = 0
        # most variables are updated by one operator, the others are set; most triggers read inputs alone
        r = self.random
        of = {"int": ["add", "add", "min", "max", "multiply"], "bool": ["and", "or"]}
        self.combination = {x: r.choice(of[VARIABLES[x].kind]) if r.random() < 0.6 else None for x in WRITTEN}
        self.writable = WRITTEN
        self.daring = r.choice([0, 0, 0.05, 0.2])

    def name(self, letter):
        self.count += 1
        return f"{letter}{self.count}"

    def effect(self):
        r = self.random
        if r.random() < self.daring:
            return self.assignment()[1:]
        x = r.choice(self.writable)
        self.below = x if self.is_orderly else len(VARIABLES)
        kind, combination = VARIABLES[x].kind, self.combination[x]
        if combination:
            return x, (combination, ("load", x), self.expression(kind, r.randrange(2)))
        return x, self.expression(kind, r.randrange(3))

    def effects(self):
        return [self.effect() for _ in range(self.random.choice([0, 0, 1, 1, 1, 2]))] if self.writable else []

    def trigger(self):
        r = self.random
        if r.random() < self.daring:
            return self.condition(2)
        self.below = 3
        return self.expression("bool", r.choice([0, 0, 1, 2]))

    def transition(self, kind, at, states):
        """One out of the state at this place."""
        r = self.random
        immediate = kind != "join" and r.random() < 0.3
        sure = kind != "join" and r.random() < 0.85
        target = r.randrange(states)
        # what leads back to where it came from in one tick has no image
        if (immediate or kind != "go") and target <= at and r.random() < 0.9:
            target = states - 1
            if target <= at:
                immediate = False
        return Transition(kind, immediate, self.trigger() if sure else None, self.effects(), target)

    def regions(self, depth, inside_aborts, count):
        mine, made = self.writable, []
        for i in range(count):
            # what is set, and not updated, mostly belongs to one of the regions
            self.writable = [x for x in mine if self.combination[x] or count == 1 or x % count == i or self.random.random() < self.daring]
            made.append(self.region(depth, inside_aborts))
        self.writable = mine
        return made

    def region(self, depth, inside_aborts):
        r = self.random
        count = r.choice([1, 2, 2, 3, 3, 4])
        final = r.choice([None, None, count - 1, count - 1, 0])
        initial = 0 if r.random() < 0.85 else r.randrange(count)
        states = []
        for at in range(count):
            self.left -= 1
            if at == final:
                states.append(State(self.name("F"), at == initial, True))
            elif depth and self.left > 0 and r.random() < self.super_chances[at == count - 1]:
                states.append(self.superstate(depth, inside_aborts, at, count, at == initial))
            else:
                kinds = ["go"] * r.choice([0, 1, 1, 1, 2, 3])
                states.append(State(self.name("S"), at == initial, False, [],
                                    [self.transition(kind, at, count) for kind in kinds]))
        return Region(self.name("R"), states)

    def superstate(self, depth, inside_aborts, at, count, is_initial):
        r = self.random
        may_abort = not (self.is_flat and inside_aborts)
        kinds = [r.choice(["strong", "weak"]) for _ in range(r.choice([0, 1, 1, 2, 3] if self.is_flat else [0, 1, 1, 1, 2]))]
        kinds = kinds if may_abort else []
        kinds += ["join"] * (r.random() < 0.6)
        r.shuffle(kinds)
        name = self.name("S")
        regions = self.regions(depth - 1, inside_aborts or kinds not in ([], ["join"]), r.choice([1, 1, 2, 2, 3]))
        return State(name, is_initial, False, regions, [self.transition(kind, at, count) for kind in kinds])


def random_chart(seed, size, is_flat, depth=3):
    generator = ChartGenerator(seed, size, is_flat)
    return Chart("C", VARIABLES, generator.regions(depth, False, generator.random.choice([1, 2, 2, 3])))
