"""Programs for the benchmark, as images with their least tables, and lines of inputs for them. The graph, the tables and
the bytes are made by the plain compiler of tests/plain."""
import os
import random
import sys

sys.dont_write_bytecode = True
sys.path.insert(0, os.path.join(os.path.dirname(os.path.dirname(os.path.realpath(__file__))), "tests", "plain"))
from images import encode  # noqa: E402
from programs import Graph, Variable, loads  # noqa: E402
from tables import edges_of, least_tables  # noqa: E402


def load(x):
    return ("load", x)


def waits(name, condition):
    """Pauses until the condition holds, at the next tick at the earliest."""
    return [("label", name), ["pause"], ("if", condition, [], [("goto", name)])]


def abro():
    """O once A and B have come, and anew after R."""
    variables = [Variable(name, "input", "bool") for name in "ABR"] + [Variable("O", "output", "bool")]
    a, b, r, o = range(4)
    return variables, [
        ("label", "Start"), ("set", o, ("value", False)),
        ("fork", [waits("WaitA", ("or", load(r), load(a))), waits("WaitB", ("or", load(r), load(b)))]),
        ("if", load(r), [("goto", "Start")], []),
        ("set", o, ("value", True)), *waits("WaitR", load(r)), ("goto", "Start")]


def counters(count):
    """Threads that each add an input to an output of their own, where another input is there."""
    variables = [Variable("E", "input", "bool"), Variable("d", "input", "int")]
    variables += [Variable(f"n{i}", "output", "int") for i in range(count)]
    return variables, [("fork", [
        [("label", f"L{i}"), ["pause"],
         ("if", load(0), [("set", 2 + i, ("add", load(2 + i), load(1)))], []), ("goto", f"L{i}")]
        for i in range(count)])]


def nested(towers, levels):
    """Towers of regions, in each of which one thread waits beside the next level."""
    def level(tower, left):
        waiting = waits(f"W{tower}_{left}", load(0))
        return [("fork", [waiting, level(tower, left - 1)])] if left else waiting
    variables = [Variable("X", "input", "bool"), Variable("y", "output", "int")]
    return variables, [("label", "Again"), ("fork", [level(t, levels) for t in range(towers)]),
                       ("set", 1, ("add", load(1), ("value", 1))), ("goto", "Again")]


def rows(threads, steps):
    """Threads that each make a row of steps a tick, on a variable of their own."""
    variables = [Variable(f"v{i}", "local", "int") for i in range(threads)]
    return variables, [("fork", [
        [("label", f"L{i}"), ["pause"], *[("set", i, ("add", load(i), ("value", 1))) for _ in range(steps)],
         ("goto", f"L{i}")] for i in range(threads)])]


def within(regions, beside):
    """Three threads that each add an input to an output of their own, each within so many regions, in each of which so many
    threads stand beside that have ended after the first ticks."""
    variables = [Variable("E", "input", "bool"), Variable("d", "input", "int")]
    variables += [Variable(f"n{i}", "output", "int") for i in range(3)]

    def level(i, left):
        if left:
            return [("fork", [level(i, left - 1), *[[["pause"]] for _ in range(beside)]])]
        return [("label", f"L{i}"), ["pause"],
                ("if", load(0), [("set", 2 + i, ("add", load(2 + i), load(1)))], []), ("goto", f"L{i}")]
    return variables, [("fork", [level(i, regions) for i in range(3)])]


def named(count):
    """Inputs of long names, and one step a tick that looks at none of them."""
    variables = [Variable("i" * 60 + f"{i:04}", "input", "bool") for i in range(count)]
    return variables, [("label", "L"), ["pause"], ("goto", "L")]


def image(variables, body):
    graph = Graph(body)
    flow, protocol, conflicts = edges_of(graph, loads)
    assert not conflicts
    tables = least_tables(graph, flow, protocol)
    return encode(variables, graph, tables)


PROGRAMS = {
    "ABRO": (abro(), 200000),
    "16 counters": (counters(16), 50000),
    "nested regions, 8 threads": (nested(1, 4), 50000),
    "nested regions, 64 threads": (nested(4, 8), 5000),
    "nested regions, 512 threads": (nested(16, 16), 500),
    "rows of 60 steps, 1 thread": (rows(1, 60), 20000),
    "rows of 60 steps, 16 threads": (rows(16, 60), 2000),
    "16 inputs of 64 letters": (named(16), 20000),
    "128 inputs of 64 letters": (named(128), 1000),
    "one step a line": (named(0), 200000),
    "3 counters, each within 5 regions": (within(5, 0), 50000),
    "the same beside 930 threads that ended": (within(5, 62), 50000),
}


def lines(variables, count):
    """Random lines of inputs, the same in each run."""
    source = random.Random(7)
    inputs = [v for v in variables if v.role == "input"]
    whole = len(inputs) > 8
    made = []
    for _ in range(count):
        members = []
        for v in inputs:
            if v.kind == "int":
                members.append(f'"{v.name}":{source.randrange(-20, 40)}')
            elif whole or source.random() < 0.3:
                members.append(f'"{v.name}":{"false" if v.name in "RX" and source.random() < 0.7 else "true"}')
        made.append("{" + ",".join(members) + "}\n")
    return "".join(made)


def make(folder):
    """Writes an image and its lines for each program. Gives the name, the two files and the number of lines of each."""
    made = []
    for at, (name, ((variables, body), count)) in enumerate(PROGRAMS.items()):
        paths = [os.path.join(folder, f"{at}.{kind}") for kind in ("image", "ticks")]
        with open(paths[0], "wb") as file:
            file.write(image(variables, body))
        with open(paths[1], "w") as file:
            file.write(lines(variables, count))
        made.append((name, *paths, count))
    return made
