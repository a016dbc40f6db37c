"""Runs of a chart followed by its core chart: to each step of the chart one of the core, its image, and steps that stand for none,
after which the relation holds again (related.py). What is done for a superstate with aborts has stages that never fall between
two steps of the thread that holds it, and the core's run is admissible where the chart's is."""
from chart_machine import ChartMachine
from expansion import Expansion
from machine import value
from related import Relation

SILENT = 2000


def has_weak_in_weak(regions, is_inside=False):
    """Whether a superstate with weak aborts lies inside another one with weak aborts."""
    for s in (s for region in regions for s in region.states):
        is_weak = bool(s.of_kind("weak"))
        if (is_weak and is_inside) or has_weak_in_weak(s.regions, is_inside or is_weak):
            return True
    return False


class Broken(Exception):
    """The core does not follow."""


class Simulation:
    def __init__(self, chart, source, is_layered=False):
        expansion = Expansion(chart)
        self.c, self.d = ChartMachine(chart, source), ChartMachine(expansion.chart, source)
        self.relation = self.relation_of(self.c, expansion, self.d, is_layered)
        self.declared, self.log, self.reached = len(chart.variables), [], {}
        self.flags = {}
        for s, given in expansion.known.items():
            for x, written, read in (given.strong, 0, 1), (given.weak, 2, 3), (given.counter, 1, 2):
                if x is not None:
                    self.flags[x] = s, written, read

    relation_of = Relation

    # ---- steps of the core

    def home(self, s):
        return self.relation.thread[self.c.holder[s]]

    def inside_of(self, r):
        return [(self.home(s), 1) for s in self.c.around(r)]

    def step(self, t, stages):
        """A step of a thread, with the stages that it has."""
        if not self.d.is_enabled(t):
            raise Broken(f"{t.name} cannot step")
        for h, stage in stages:
            if self.reached.get(h, 0) > stage:
                raise Broken(f"a step of {t.name} at stage {stage} of what {h.name} holds, after one at {self.reached[h]}")
        access = self.d.access(t)
        i = self.d.clash(self.log, t, access)
        self.is_admissible = self.is_admissible and i is None
        self.log.append((t, access))
        self.reached.pop(t, None)
        for h, stage in stages:
            self.reached[h] = max(stage, self.reached.get(h, 0))
        self.d.step(t)
        return access

    def silent(self, t):
        """A step that stands for none of the chart: it touches a flag alone, or nothing."""
        reads, write = self.d.access(t)
        stages = []
        for x in reads | ({write[1]} if write else set()):
            if x < self.declared:
                raise Broken(f"a silent step of {t.name} touches a variable of the chart")
            s, written, read = self.flags[x]
            h = self.home(s)
            if t is not h:
                # a read has whatever stage above that of the write
                stages.append((h, max(read, self.reached.get(h, 0)) if x in reads else written))
        self.step(t, stages)

    def image(self, r, t, stages, wanted):
        if self.step(t, self.inside_of(r) + stages) != wanted:
            raise Broken(f"the image of a step of {r.name} has another access")

    # ---- leaving a superstate

    def leave(self, r, s, where):
        """An abort of s was taken: all inside leaves, the fork is joined, and the answer is taken."""
        watcher, fork, home = self.relation.watcher.get(s), self.relation.main[s], self.relation.thread[r]
        self.relation.unseen -= {o for o in self.relation.unseen if o is s or s in self.c.around(self.c.holder[o])}
        if self.d.standing[watcher][0] == "acting":
            self.silent(watcher)
        inside = sorted(self.d.inside(fork), key=lambda t: -len(self.d.path[t]))
        for _ in range(SILENT):
            t = next((t for t in inside if self.d.is_enabled(t)), None)
            if t is None:
                break
            self.silent(t)
        self.silent(home)
        self.answer(home, s)

    def answer(self, home, s):
        while self.d.standing[home][:2] == ("trying", self.relation.behind[s]):
            self.silent(home)

    # ---- one step of the chart

    def abort_test(self, r, s, where, access):
        stage = 0 if where == "guarding" else 2
        if where == "within" and s in self.relation.unseen:
            # before its first weak test the monitor looks at the strong flags around
            for _ in range(self.relation.checks(r)[0]):
                self.silent(self.relation.watcher[s])
            self.relation.unseen.remove(s)
        self.image(r, self.relation.watcher[s], [(self.home(s), stage)], access)

    def holds(self, t):
        return t.trigger is None or value(t.trigger, self.c.values)

    def follow(self, r):
        where, s, left = self.c.standing[r][:3]
        access, first = self.c.access(r), left[0]
        is_taken = where != "acting" and self.holds(first)
        thread = self.relation.thread[r]
        self.c.step(r)
        if where == "guarding" or (where == "within" and first.kind == "weak"):
            self.abort_test(r, s, where, access)
            if is_taken:
                self.leave(r, s, where)
        else:
            watcher = self.relation.watcher.get(s) if where == "within" else None
            while watcher and self.d.standing[watcher] != ("ended",):
                self.silent(watcher)
            self.image(r, thread, [], access)
            if where == "within" and self.relation.behind[s]:
                self.answer(thread, s)
        self.settle()

    def settle(self):
        """Silent steps of threads that do not stand where they should, the innermost first."""
        threads = sorted(self.d.regions, key=lambda t: -len(self.d.path[t]))
        for _ in range(SILENT):
            t = next((t for t in threads if self.d.is_enabled(t) and not self.relation.is_settled(t)), None)
            if t is None:
                break
            self.silent(t)
        self.check("")

    def check(self, when):
        wrong = list(self.relation.wrong())
        if wrong:
            raise Broken("; ".join(wrong) + when)

    # ---- ticks

    def begin(self, tick):
        is_first = all(standing is None for standing in self.c.standing.values())
        self.log, self.reached, self.is_admissible = [], {}, True
        self.c.begin(tick)
        self.d.begin(tick)
        is_late = self.relation.is_layered and not is_first
        self.relation.unseen = {o for o in self.relation.watcher if is_late and self.relation.is_inside(o)}
        if is_first:
            self.settle()
        else:
            self.check(" at the start of the tick")

    def finish(self):
        """What was held back is done, and fails."""
        for _ in range(SILENT):
            t = next((t for t in self.d.regions if self.d.is_enabled(t)), None)
            if t is None:
                break
            self.silent(t)
        for t in self.d.regions:
            wanted = self.relation.wanted(t)
            if wanted and wanted[0] == "trying":
                wanted = "trying", wanted[1], []
            if self.d.standing[t] != wanted:
                raise Broken(f"at the end {t.name} does not rest as it should")
        if self.d.values[:self.declared] != self.c.values or list(self.relation.wrong_flags()):
            raise Broken("at the end the variables differ")

    def tick(self, inputs, run):
        """Follows a run of the chart: an admissible one where it is given by its regions, else one in any order."""
        self.begin(inputs)
        for r in run or self.free_run():
            self.follow(r)
        self.finish()
        if run is not None and not self.is_admissible:
            raise Broken("the core's run is not admissible")

    def free_run(self):
        while ready := [r for r in self.c.regions if self.c.is_enabled(r)]:
            yield self.c.random.choice(ready)
