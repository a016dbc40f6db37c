"""Tick by tick of a chart that has an image: whether an admissible complete run exists, all such runs end alike, the run by
greatest rank is one of them, and its end is that of the image.

And what a proof by ranks goes by: whoever is enabled after a step was so before and stands where it stood, or has no greater rank
than the step had; and of two concurrent steps the one that has to come first has the greater rank."""
from all_runs import TooMany, ends_of
from chart_machine import ChartMachine, Endless, forbids
from charts import text_of_chart
from expansion import Expansion, TooLarge
from programs import Loop
from ranks import Image, RankedMachine

STEPS = 2000


class Counts:
    """What was tried: charts, ticks, those with several runs, with too many to make them all, with an abort that is taken, and
    with one inside a superstate with aborts; and charts and ticks that the core chart followed."""

    def __init__(self):
        self.charts = self.ticks = self.several = self.many = self.aborted = self.aborted_inside = 0
        self.followed = self.followed_ticks = 0

    def __str__(self):
        return (f"{self.charts} charts, {self.ticks} ticks, {self.several} of several runs, {self.many} of too many, "
                f"{self.aborted} with an abort, {self.aborted_inside} with one inside of others; "
                f"followed {self.followed} charts, {self.followed_ticks} ticks")


def image_of(chart):
    """The image of a chart, or None."""
    try:
        image = Image(Expansion(chart).chart)
    except (TooLarge, Loop):
        return None
    return image if image.is_valid else None


class Walk:
    """One run of a tick, in which the step that is chosen comes next, and what is wrong of it."""

    def __init__(self, machine, choose):
        self.machine, self.choose, self.run, self.ranks, self.wrong = machine, choose, [], [], []

    def enabled(self):
        m = self.machine
        return {r: (m.standing[r], m.rank(r)) for r in m.regions if m.is_enabled(r)}

    def rank_rises(self, before, after, rank):
        for r, (standing, other) in after.items():
            if other > rank and before.get(r, (None,))[0] is not standing:
                self.wrong.append(f"the rank rises from {rank} to {other} behind step {len(self.run)}")

    def is_out_of_order(self, r, access, rank):
        """Whether a concurrent step that stands before this one has to come behind it, and whether some such has no lesser rank."""
        m, wrong_order = self.machine, False
        for i, (p, other) in enumerate(self.run):
            are_concurrent, held = m.fork(p, r)
            if not are_concurrent or any(q is held for q, _ in self.run[i + 1:]):
                continue
            wrong_order = wrong_order or forbids(other, access)
            if forbids(other, access) and self.ranks[i] >= rank:
                self.wrong.append(f"step {len(self.run)} has to come before step {i}, of rank {self.ranks[i]}, and has rank {rank}")
            if forbids(access, other) and self.ranks[i] <= rank:
                self.wrong.append(f"step {i} has to come before step {len(self.run)}, of rank {rank}, and has rank {self.ranks[i]}")
        return wrong_order

    def made(self):
        """Makes the run; whether it is admissible."""
        m, is_admissible, ready = self.machine, True, self.enabled()
        while ready and not self.wrong:
            r = self.choose(ready)
            rank, access = ready[r][1], m.access(r)
            is_admissible = not self.is_out_of_order(r, access, rank) and is_admissible
            self.run.append((r, access))
            self.ranks.append(rank)
            if len(self.run) > STEPS:
                raise Endless()
            m.step(r)
            before, ready = ready, self.enabled()
            self.rank_rises(before, ready, rank)
        return is_admissible


def greatest(source):
    def choose(ready):
        most = max(rank for _, rank in ready.values())
        return source.choice([r for r, (_, rank) in ready.items() if rank == most])
    return choose


def copied(machine):
    """The same chart's machine where another one stands at the end of a tick."""
    made = ChartMachine(machine.chart, machine.random)
    made.values, made.standing = machine.saved()
    return made


def all_ends(machine, tick, limit, counts):
    """The ends of the tick by all its admissible runs, or None where they are too many."""
    machine.begin(tick)
    try:
        ends, runs = ends_of(machine, limit)
    except (TooMany, RecursionError):
        counts.many += 1
        return None
    counts.several += runs > 1
    return ends


def at_rest(end):
    """An end but for the tests that are left: they are made anew in the next tick."""
    values, standing = end
    return values, {r: where if where is None or where[0] == "ended" else where[1] for r, where in standing.items()}


def free_walk(chart, image, machine, tick, source):
    """A run in any order, admissible or not, and what of its ranks is wrong."""
    other = RankedMachine(chart, image, source)
    other.values, other.standing = machine.saved()
    other.begin(tick)
    walk = Walk(other, lambda ready: source.choice(list(ready)))
    try:
        walk.made()
    except Endless:
        walk.wrong.append("a run without an end")
    return walk.wrong


def check_tick(machine, over_image, tick, limit, source, counts):
    """What is wrong of one tick; both machines come to its end."""
    chart, image = machine.chart, machine.image
    wrong = free_walk(chart, image, machine, tick, source)
    ends = all_ends(copied(machine), tick, limit, counts)
    machine.begin(tick)
    walk = Walk(machine, greatest(source))
    try:
        is_admissible = walk.made()
    except Endless:
        return wrong + ["the run by greatest rank has no end"]
    counts.aborted += bool(machine.left)
    counts.aborted_inside += any(machine.left)
    if wrong or walk.wrong:
        return wrong + walk.wrong
    if not is_admissible:
        wrong.append("the run by greatest rank is not admissible")
    if ends is not None and len(ends) != 1:
        wrong.append(f"admissible complete runs have {len(ends)} ends")
    if ends and at_rest(machine.saved()) not in map(at_rest, ends):
        wrong.append("the run by greatest rank has another end")
    over_image.tick(tick)
    if over_image.values[:len(machine.values)] != machine.values or image.active(over_image) != machine.active():
        wrong.append("the image has another end")
    return wrong


def check_ticks(chart, ticks, source, counts, limit=4000):
    """What is wrong of a chart, if it has an image, up to the first tick of which something is."""
    image = image_of(chart)
    if image is None:
        return None
    counts.charts += 1
    machine, over_image = RankedMachine(chart, image, source), image.machine(source)
    for number, tick in enumerate(ticks, 1):
        counts.ticks += 1
        wrong = check_tick(machine, over_image, tick, limit, source, counts)
        if wrong:
            return [f"{text_of_chart(chart)}{ticks[:number]}: tick {number}: {what}" for what in wrong]
    return []
