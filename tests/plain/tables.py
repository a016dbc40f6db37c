"""The least tables of a graph by plain fixpoints, and the rules that tables must keep, by their words."""


class Concurrency:
    def __init__(self, graph):
        self.graph, self.known = graph, {}
        self.fork = {c: n for n, node in enumerate(graph.nodes) if node.kind == "fork" for c in node.children}
        self.above = []
        for parent, _ in graph.threads:
            self.above.append([] if parent is None else self.above[parent] + [parent])

    def threads(self, a, b):
        """Whether two threads are, or descend from, two different children of one fork."""
        if (a, b) not in self.known:
            self.known[a, b] = self.tried(a, b)
        return self.known[a, b]

    def tried(self, a, b):
        left, right = self.above[a] + [a], self.above[b] + [b]
        for one, other in zip(left, right):
            if one != other:
                return self.fork[one] == self.fork[other]
        return False

    def nodes(self, m, n):
        return self.threads(self.graph.nodes[m].owner, self.graph.nodes[n].owner)


def successors(node):
    if node.kind in ("assign", "update", "join", "depth"):
        return [node.next]
    if node.kind == "cond":
        return [node.then, node.other]
    return []


def accesses(node, loads):
    """What a node reads, and what it writes: none, ("init", x, literal) or ("update", x, combination)."""
    if node.kind == "assign":
        literal = node.code[1] if node.code[0] == "value" else None
        return loads(node.code), ("init", node.variable, literal)
    if node.kind == "update":
        return loads(node.code), ("update", node.variable, node.combination)
    if node.kind == "cond":
        return loads(node.code), None
    return [], None


def edges_of(graph, loads):
    """The instantaneous edges, the protocol edges and the write conflicts, as pairs of nodes."""
    together = Concurrency(graph)
    flow, protocol, conflicts = [], [], []
    exits = [[] for _ in graph.threads]
    for n, node in enumerate(graph.nodes):
        if node.kind == "exit":
            exits[node.owner].append(n)
    for n, node in enumerate(graph.nodes):
        flow += [(n, s) for s in successors(node)]
        if node.kind == "fork":
            for c in node.children:
                flow += [(n, graph.threads[c][1])] + [(e, node.join) for e in exits[c]]
    known = [accesses(node, loads) for node in graph.nodes]
    users = {}
    for n, (reads, write) in enumerate(known):
        for x in {*reads, *([write[1]] if write else [])}:
            users.setdefault(x, []).append(n)
    for m, (_, write) in enumerate(known):
        for n in users[write[1]] if write else []:
            if not together.nodes(m, n):
                continue
            reads, other = known[n]
            if write[0] == "init" and ((other and other[0] == "update" and other[1] == write[1]) or write[1] in reads):
                protocol.append((m, n))
            elif write[0] == "update" and write[1] in reads:
                protocol.append((m, n))
            if m < n and other and other[0] == write[0] and other[1] == write[1]:
                alike = write[2] is not None and type(write[2]) is type(other[2]) and write[2] == other[2]
                if not alike:
                    conflicts.append((m, n))
    return flow, protocol, conflicts


class Tables:
    def __init__(self, graph):
        self.priorities = [0] * len(graph.nodes)
        self.weights = [0] * len(graph.nodes)
        self.ends = [False] * len(graph.nodes)
        self.bounds = [0] * len(graph.threads)
        self.budget = 0


def may_end(graph, q, node):
    if node.kind == "exit":
        return True
    if node.kind == "surf":
        return False
    if node.kind == "fork":
        return entries_end(graph, q, node) and q.ends[node.join]
    return any(q.ends[s] for s in successors(node))


def entries_end(graph, q, node):
    return all(q.ends[graph.threads[c][1]] for c in node.children)


def needed_weight(graph, q, node):
    if node.kind in ("exit", "surf"):
        return 1
    if node.kind == "fork":
        inside = sum(q.weights[graph.threads[c][1]] for c in node.children)
        return 1 + inside + (q.weights[node.join] if entries_end(graph, q, node) else 0)
    return 1 + max(q.weights[s] for s in successors(node))


def needed_bound(graph, q, thread):
    needed = [0]
    for n, node in enumerate(graph.nodes):
        if node.owner == thread and node.kind == "depth":
            needed.append(q.weights[n])
        if node.owner == thread and node.kind == "fork":
            needed.append(q.weights[node.join] + sum(q.bounds[c] for c in node.children))
    return max(needed)


def needed_budget(graph, q):
    return max(q.bounds[0], q.weights[graph.threads[0][1]])


def raised(count, step):
    """Repeats `step`, which says whether something changed, at most so often; whether it came to rest."""
    for _ in range(count):
        if not step():
            return True
    return False


def ends_alone(graph):
    """Tables with the least end bits alone."""
    q = Tables(graph)

    def ends():
        changed = False
        for n, node in enumerate(graph.nodes):
            if not q.ends[n] and may_end(graph, q, node):
                q.ends[n] = changed = True
        return changed

    raised(len(graph.nodes) + 1, ends)
    return q


def least_tables(graph, flow, protocol):
    """The least tables, or the fault that there are none: "E13" or "E12"."""
    q = ends_alone(graph)

    def weights():
        changed = False
        for n in reversed(range(len(graph.nodes))):
            needed = needed_weight(graph, q, graph.nodes[n])
            if needed > q.weights[n]:
                q.weights[n], changed = needed, True
        return changed

    def priorities():
        changed = False
        for edges, more in ((flow, 0), (protocol, 1)):
            for m, n in edges:
                if q.priorities[n] + more > q.priorities[m]:
                    q.priorities[m], changed = q.priorities[n] + more, True
        return changed

    if not raised(len(graph.nodes) + 2, weights):
        return "E13"
    if not raised(len(graph.nodes) + 2, priorities):
        return "E12"
    for thread in reversed(range(len(graph.threads))):
        q.bounds[thread] = needed_bound(graph, q, thread)
    q.budget = needed_budget(graph, q)
    return q


def broken(graph, q, flow, protocol, conflicts):
    """The places at which the lowest broken rule of tables is broken, as they are printed, or none."""
    nodes = list(enumerate(graph.nodes))
    rules = [
        ("E35", lambda: [f"{n}" for n, node in nodes if may_end(graph, q, node) and not q.ends[n]]),
        ("E36", lambda: [f"{m} {n}" for m, n in conflicts]),
        ("E37", lambda: [f"{m} {n}" for m, n in flow if q.priorities[n] > q.priorities[m]]),
        ("E38", lambda: [f"{m} {n}" for m, n in protocol if q.priorities[n] >= q.priorities[m]]),
        ("E39", lambda: [f"{n}" for n, node in nodes if needed_weight(graph, q, node) > q.weights[n]]),
        ("E40", lambda: [f"thread {t}" for t in range(len(graph.threads)) if needed_bound(graph, q, t) > q.bounds[t]]
         + (["image"] if needed_budget(graph, q) > q.budget else [])),
    ]
    for number, places in rules:
        found = places()
        if found:
            return {f"{number} {place}" for place in found}
    return set()
