"""The rank of each step of the plain machine of charts: the least priority of the nodes, in the image of the expanded chart, that do
what it does.

- tests and effects of a simple state have nodes of their own, those that are immediate in two places, on entry and later; both count
  where the tests that are left do not tell which;
- a strong abort that is tested on entry has that of the preparation state, and later that of the monitor;
- weak aborts and a termination have the join of their superstate's fork;
- the effects of aborts and of a termination have those of the continuation state, of a strong abort that is immediate those of the
  preparation state too; or, where the superstate stays as it is, those behind its fork.

A test without a trigger has no node: its rank is that of the node to which its thread comes next. So a rank is told by where its
region stands alone. And the plain machine of images, with the chart's states in which its threads rest."""
from chart_machine import ChartMachine
from expansion import aborts
from lowering import lower
from machine import Machine, value
from programs import Graph, loads
from tables import edges_of, least_tables


class Nodes:
    """Where the tests, the effects and the joins of a core chart stand in the graph of its lowering, by its transitions and
    whether they are tested on entry ("entry") or in later ticks ("later"); what follows a fork has neither."""

    def __init__(self, core, body, graph):
        self.graph, self.tests, self.effects, self.joins, self.rests = graph, {}, {}, {}, {}
        for region, branch in zip(core.regions, body[0][1], strict=True):
            self.region(region, branch)

    def region(self, region, body):
        initial, at = region.initial(), 0
        for s in [initial] + [s for s in region.states if s is not initial]:
            at = self.state(s, body, at + 1)

    def state(self, s, body, at):
        """Goes over what a state is lowered to, behind its label."""
        if s.is_final:
            return at + 1
        if s.regions:
            return self.superstate(s, body, at)
        at, is_left = self.transitions([t for t in s.transitions if t.immediate], "entry", body, at)
        if is_left:
            return at
        self.rests[self.graph.ids[id(body[at + 1])] + 1] = s
        at, is_left = self.transitions(s.transitions, "later", body, at + 2)
        return at if is_left else at + 1

    def superstate(self, s, body, at):
        for region, branch in zip(s.regions, body[at][1], strict=True):
            self.region(region, branch)
        self.joins[s] = self.graph.ids[id(body[at])] + 1
        self.rests[self.joins[s]] = s
        join = s.of_kind("join")
        if join:
            return self.taken(join[0], None, body, at + 1)
        self.rests[self.graph.ids[id(body[at + 2])] + 1] = s
        return at + 4

    def transitions(self, transitions, when, body, at):
        for t in transitions:
            self.tests[t, when] = self.graph.target(body, at, None)
            if t.trigger is None:
                return self.taken(t, when, body, at), True
            self.taken(t, when, body[at][2], 0)
            at += 1
        return at, False

    def taken(self, t, when, body, at):
        self.effects[t, when] = [self.graph.ids[id(s)] for s in body[at:at + len(t.effects)]]
        return at + len(t.effects) + 1


class Pieces:
    """The core states that stand for each state of a chart, and the monitors."""

    def __init__(self, chart, core):
        self.main, self.entry, self.behind, self.watching = {}, {}, {}, {}
        for region, made in zip(chart.regions, core.regions, strict=True):
            self.region(region, made)

    def region(self, region, made):
        named = {s.name: s for s in region.states}
        for piece in made.states:
            s = piece.stands_for
            if piece.name in named:
                self.main[s] = piece
                for inner, other in zip(s.regions, piece.regions):
                    self.region(inner, other)
                if len(piece.regions) > len(s.regions):
                    self.watching[s] = piece.regions[-1].states[0]
            elif piece.name.startswith("_e"):
                self.entry[s] = piece
            elif piece.name.startswith("_b"):
                self.behind[s] = piece


class Image:
    """The graph and the tables of a core chart, if it has an image, and where its states stand in it."""

    def __init__(self, core):
        body = lower(core)
        self.core, self.graph = core, Graph(body)
        flow, protocol, conflicts = edges_of(self.graph, loads)
        self.tables = None if conflicts else least_tables(self.graph, flow, protocol)
        self.is_valid = self.tables not in (None, "E12", "E13")
        self.nodes = Nodes(core, body, self.graph)

    def machine(self, source):
        return Machine(self.core.variables, self.graph, self.tables, source)

    def active(self, machine):
        """The states of the chart for which the machine's threads rest or wait."""
        nodes = [status[1] for status in machine.statuses if status and status[0] in ("paused", "waits")]
        states = [self.nodes.rests[n].stands_for for n in nodes if n in self.nodes.rests]
        return {s for s in states if s}


class RankedMachine(ChartMachine):
    """The plain machine of a chart, which knows the rank of each step."""

    def __init__(self, chart, image, random):
        super().__init__(chart, random)
        self.image, self.pieces = image, Pieces(chart, image.core)
        # of the superstates that aborts left in this tick, whether superstates with aborts are around each
        self.left = []

    def step(self, r):
        where, s, left = self.standing[r][:3]
        if where != "acting":
            t = left[0]
            if t.kind in ("strong", "weak") and (t.trigger is None or value(t.trigger, self.values)):
                self.left.append(any(map(aborts, self.around(r))))
        super().step(r)

    def begin(self, inputs):
        self.left = []
        super().begin(inputs)

    def checks(self, r):
        """How many strong flags are looked at before anything else."""
        return sum(bool(s.of_kind("strong")) for s in self.around(r))

    def prepared(self, s, t):
        return self.pieces.entry[s].transitions[[x for x in s.of_kind("strong") if x.immediate].index(t)]

    def tested(self, r, where, s, t):
        """The transition of the core chart by which this one is tested, but for one at a join."""
        if where == "entering":
            return self.prepared(s, t)
        state, own = (self.pieces.main[s], s.transitions) if where == "trying" else (self.pieces.watching[s], s.of_kind("strong"))
        return state.transitions[self.checks(r) + own.index(t)]

    def answered(self, r, s, t):
        """The transitions of the core chart that have its effects."""
        if not s.regions:
            return [self.tested(r, "trying", s, t)]
        if s not in self.pieces.behind:
            return [self.pieces.main[s].transitions[0]]
        order = s.of_kind("strong") + s.of_kind("weak") + s.of_kind("join")
        answer = self.pieces.behind[s].transitions[self.checks(r) + order.index(t)]
        return [answer, self.prepared(s, t)] if t.kind == "strong" and t.immediate else [answer]

    def effect_nodes(self, r, s, left, target):
        effects = self.image.nodes.effects
        for t in s.transitions:
            at = len(t.effects) - len(left)
            if at >= 0 and t.target == target and t.effects[at:] == left:
                for made in self.answered(r, s, t):
                    yield from (effects[made, when][at] for when in ("entry", "later", None) if (made, when) in effects)

    def nodes(self, r):
        """The nodes that do what this region does next."""
        where, s, left = self.standing[r][:3]
        if where == "acting":
            return list(self.effect_nodes(r, s, left, self.standing[r][3]))
        if where == "within":
            return [self.image.nodes.joins[self.pieces.main[s]]]
        tests, made = self.image.nodes.tests, self.tested(r, where, s, left[0])
        # the tests that are left are the last of those on entry, or of all, or of both
        lists = {"entry": [t for t in s.transitions if t.immediate], "later": s.transitions}
        fitting = [when for when in lists if where != "trying" or lists[when][-len(left):] == left]
        return [tests[made, when] for when in fitting if (made, when) in tests]

    def rank(self, r):
        return min(self.image.tables.priorities[n] for n in self.nodes(r))
