"""A plain interpreter of graphs: each tick a run that takes a ready thread of the greatest priority at random."""
import json


def wrap(n):
    return (n + 2147483648) % 4294967296 - 2147483648


def quotient(a, d):
    """The quotient rounded towards 0."""
    return abs(a) // abs(d) * (1 if (a < 0) == (d < 0) else -1)


BINARY = {"add": lambda a, b: wrap(a + b), "subtract": lambda a, b: wrap(a - b), "multiply": lambda a, b: wrap(a * b),
          "min": min, "max": max, "and": lambda a, b: a and b, "or": lambda a, b: a or b, "equal": lambda a, b: a == b,
          "not equal": lambda a, b: a != b, "less": lambda a, b: a < b, "less or equal": lambda a, b: a <= b,
          "greater": lambda a, b: a > b, "greater or equal": lambda a, b: a >= b}


def value(e, values):
    name = e[0]
    if name == "value":
        return e[1]
    if name == "load":
        return values[e[1]]
    if name == "negate":
        return wrap(-value(e[1], values))
    if name == "not":
        return not value(e[1], values)
    if name == "divide":
        return wrap(quotient(value(e[1], values), e[2]))
    if name == "remainder":
        a = value(e[1], values)
        return wrap(a - quotient(a, e[2]) * e[2])
    return BINARY[name](value(e[1], values), value(e[2], values))


class Machine:
    """A status is None (absent), ("at", node), ("waits", join), ("paused", depth) or ("ended",)."""

    def __init__(self, variables, graph, tables, random):
        self.variables, self.graph, self.tables, self.random = variables, graph, tables, random
        self.values = [False if v.kind == "bool" else 0 for v in variables]
        self.statuses = [None] * len(graph.threads)
        self.children = {node.join: node.children for node in graph.nodes if node.kind == "fork"}

    def ready(self):
        """The threads that can step, each with the node that says what they do."""
        found = []
        for thread, status in enumerate(self.statuses):
            if status and status[0] == "at":
                found.append((thread, status[1]))
            elif status and status[0] == "waits":
                if all(self.statuses[c] == ("ended",) for c in self.children[status[1]]):
                    found.append((thread, status[1]))
        return found

    def step(self, thread, at):
        node = self.graph.nodes[at]
        following = None
        if node.kind == "assign":
            self.values[node.variable] = value(node.code, self.values)
        elif node.kind == "update":
            combination, present = BINARY[node.combination], self.values[node.variable]
            self.values[node.variable] = combination(present, value(node.code, self.values))
        elif node.kind == "cond":
            following = ("at", node.then if value(node.code, self.values) else node.other)
        elif node.kind == "fork":
            for c in node.children:
                self.statuses[c] = ("at", self.graph.threads[c][1])
            following = ("waits", node.join)
        elif node.kind == "join":
            for c in self.children[at]:
                self.statuses[c] = None
        elif node.kind == "surf":
            following = ("paused", node.depth)
        elif node.kind == "exit":
            following = ("ended",)
        self.statuses[thread] = following or ("at", node.next)

    def tick(self, inputs):
        """Plays one tick; how many steps it took."""
        for x, v in enumerate(self.variables):
            if v.role == "input":
                self.values[x] = inputs.get(v.name, False if v.kind == "bool" else 0)
        if self.statuses[0] is None:
            self.statuses[0] = ("at", self.graph.threads[0][1])
        self.statuses = [("at", s[1]) if s and s[0] == "paused" else s for s in self.statuses]
        steps = 0
        while ready := self.ready():
            most = max(self.tables.priorities[at] for _, at in ready)
            self.step(*self.random.choice([(t, at) for t, at in ready if self.tables.priorities[at] == most]))
            steps += 1
        return steps

    def line(self, tick, steps):
        outputs = {v.name: self.values[x] for x, v in enumerate(self.variables) if v.role == "output"}
        return json.dumps({"out": dict(sorted(outputs.items())), "steps": steps, "tick": tick}, separators=(",", ":"))
