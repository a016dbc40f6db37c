"""From the text of a chart or of SCL to its program, its graph and its least tables, or to the faults with which it may be
refused."""
from chart_reader import begins_a_chart, read_chart
from expansion import TooLarge, expand
from images import encode
from lowering import lower
from programs import Graph, Loop, loads
from reader import Fault, Program, read
from tables import edges_of, ends_alone, entries_end, least_tables, successors

NODES, THREADS, STEPS = 16384, 1024, 16777216


class Refused(Exception):
    """A text has no program, or a program no image: the fault as it is printed."""


def program_of(text):
    """The program that a text of SCL spells, or to which a chart is lowered."""
    try:
        if not begins_a_chart(text):
            return read(text)
        chart = read_chart(text)
        core = expand(chart)
    except Fault as fault:
        raise Refused(str(fault)) from None
    except TooLarge:
        raise Refused("E07 limit") from None
    return Program(chart.name, core.variables, lower(core))


# ---- closed walks, each from its least node

def walk_along(edges, wanted):
    """A closed walk along edges that takes one of the wanted edges, or None."""
    following = {}
    for m, n in edges:
        following.setdefault(m, []).append(n)
    for m, n in wanted:
        found, todo = {n: None}, [n]
        while todo and m not in found:
            here = todo.pop(0)
            for next_one in following.get(here, []):
                if next_one not in found:
                    found[next_one] = here
                    todo.append(next_one)
        if m in found:
            walk = [m]
            while found[walk[-1]] is not None:
                walk.append(found[walk[-1]])
            walk.reverse()
            least = walk.index(min(walk))
            return walk[least:] + walk[:least]
    return None


def loop_edges(graph, tables):
    """What E13 walks along: the edges of each thread, and those over forks whose branches may end in the same tick."""
    edges = [(n, s) for n, node in enumerate(graph.nodes) for s in successors(node)]
    return edges + [(n, node.join) for n, node in enumerate(graph.nodes)
                    if node.kind == "fork" and entries_end(graph, tables, node)]


def empty_loop(body):
    """The label of the first goto that leads through labels and gotos alone back to itself."""
    places, gotos = {}, []

    def find(statements, after):
        for i, s in enumerate(statements):
            if s[0] == "label":
                places[s[1]] = (statements, i, after)
            elif s[0] == "goto":
                gotos.append((s[1], (statements, i)))
            elif s[0] == "if":
                find(s[2], (statements, i + 1, after))
                find(s[3], (statements, i + 1, after))
            elif s[0] == "fork":
                for branch in s[1]:
                    find(branch, None)

    find(body, None)
    for label, (mine, at) in gotos:
        statements, i, after = places[label]
        seen = set()
        while (id(statements), i) not in seen:
            seen.add((id(statements), i))
            if statements is mine and i == at:
                return label
            if i == len(statements):
                if after is None:
                    break
                statements, i, after = after
            elif statements[i][0] == "label":
                i += 1
            elif statements[i][0] == "goto":
                statements, i, after = places[statements[i][1]]
            else:
                break
    return None


# ---- compiling

class Compiled:
    """A program's graph, its edges and its least tables (or the number of the fault that there are none), and, where it is
    refused, a fault with which it may be: which of several conflicts or walks is told is left open."""

    def __init__(self, program):
        self.program = program
        try:
            self.graph = Graph(program.body)
        except Loop:
            raise Refused(f"E14 {empty_loop(program.body)}") from None
        if len(self.graph.nodes) > NODES or len(self.graph.threads) > THREADS:
            raise Refused("E07 limit")
        self.edges = edges_of(self.graph, loads)
        self.tables = least_tables(self.graph, self.edges[0], self.edges[1])

    def summary(self):
        return f"ok nodes={len(self.graph.nodes)} threads={len(self.graph.threads)} budget={self.tables.budget}\n"

    def fault(self):
        """None where it has an image."""
        flow, protocol, conflicts = self.edges
        if conflicts:
            return "E11 %d %d" % min(tuple(sorted(pair)) for pair in conflicts)
        if self.tables == "E13":
            edges = loop_edges(self.graph, ends_alone(self.graph))
            return "E13 " + " ".join(map(str, walk_along(edges, edges)))
        if self.tables == "E12":
            return "E12 " + " ".join(map(str, walk_along(flow + protocol, protocol)))
        return "E31 image" if self.tables.budget > STEPS else None


def compiled(text):
    return Compiled(program_of(text))


def image_of(text):
    """The image of a text that has one."""
    made = compiled(text)
    return encode(made.program.variables, made.graph, made.tables)
