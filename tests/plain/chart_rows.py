"""Charts that were worked out by hand: the line that compiling prints, and in each tick the inputs that are true, the outputs
and the steps. And charts at the limits that come behind the reader."""
import os

EXAMPLES = os.path.join(os.path.dirname(os.path.dirname(os.path.dirname(os.path.realpath(__file__)))), "examples")

WEAK = """chart W { input bool A; input bool K; output int n; region M { initial state S { region P { initial state a { go if A do
n = n + 1 -> b; } final state b; } weak if K do n = n + 10 -> T; join do n = n + 100 -> T; } state T; } }"""
NESTED = """chart N { input bool K; input bool R; output int n; region M { initial state S { region B { initial state U { region D {
initial state C { go do n = n + 1 -> C; } } strong if R do n = 10 -> U; } } strong if K -> T; } state T; } }"""
JOINED = """chart J { input bool A; output int x; region M { initial state S { region P { initial state a { go immediate do
x = x + 1 -> b; } final state b; } region Q { initial state c { go if A do x = x + 2 -> d; } final state d; } join -> T; }
state T; } }"""


def counted(name, *ticks):
    return [(inputs, {name: n}, steps) for inputs, n, steps in ticks]


def abro():
    with open(os.path.join(EXAMPLES, "abro.chart")) as file:
        return file.read()


ROWS = [
    (abro(), "ok nodes=36 threads=6 budget=27",
     counted("O", ("", False, 7), ("A", False, 11), ("B", True, 11), ("R", False, 16), ("A", False, 11),
             ("A B R", False, 19), ("A B", True, 15))),
    (WEAK, "ok nodes=28 threads=4 budget=15", counted("n", ("", 0, 8), ("", 0, 8), ("A K", 11, 13), ("", 11, 2))),
    (WEAK, "ok nodes=28 threads=4 budget=15", counted("n", ("", 0, 8), ("", 0, 8), ("A", 101, 13), ("", 101, 2))),
    (WEAK.replace("weak", "strong"), "ok nodes=27 threads=4 budget=16", counted("n", ("", 0, 7), ("", 0, 8), ("A K", 10, 11), ("", 10, 2))),
    (NESTED, "ok nodes=42 threads=6 budget=27",
     counted("n", ("", 0, 8), ("", 1, 12), ("R", 10, 20), ("", 11, 12), ("K R", 11, 16), ("", 11, 2))),
    (JOINED, "ok nodes=15 threads=4 budget=8", counted("x", ("", 1, 5), ("", 1, 3), ("A", 3, 6), ("", 3, 2))),
]


# texts of which the first word tells whether they are charts, and bytes that are no text
BEGINNINGS = [
    b"", b"chart", b"charts { }", b"Chart P { }", b"// x\n\t chart", b"//chart\nscl P { }", b"chart//", b"chart/", b"_chart P { }",
    b"scl chart { }", b"$ chart", b"/ chart", b"chart P { } // \xff", b"\xffchart", b"chart\0", b"chart$", b"\xc3\xa9 chart",
    b"chart1 P", b"scl P { chart }", b"chart P { scl }", b"chart{", b"state P { }",
    b" \r\n//\n//\nchart P { region R { initial state s; } }",
]


def core_limit_rows():
    """Texts whose core charts have as many variables as they may, and more: with their faults."""
    for declared, aborts, fault in [
            (255, "strong if true -> s;", None), (256, "strong if true -> s;", "E07 limit"), (256, "join -> s;", None),
            (254, "strong if true -> s; weak if true -> s;", None), (255, "strong if true -> s; weak if true -> s;", "E07 limit"),
            (253, "strong if true -> s; weak if true -> s; join -> s;", None),
            (254, "strong if true -> s; weak if true -> s; join -> s;", "E07 limit"), (256, "", None)]:
        variables = "".join(f"local int v{k}; " for k in range(declared))
        yield f"chart P {{ {variables}region R {{ initial state s {{ region Q {{ initial final state t; }} {aborts} }} }} }}", fault
    # a monitor beside 63 regions
    regions = "".join(f"region R{k} {{ initial state t; }} " for k in range(63))
    yield f"chart P {{ region R {{ initial state s {{ {regions} weak if true -> s; }} }} }}", None


def graph_limit_rows():
    """Texts of as many nodes and threads as an image has, and of more, with what compiling prints."""
    def states(count, first):
        return first + "".join(f"state s{k}; " for k in range(count - 1))

    def of_nodes(first):
        # a state without transitions has two nodes, a region's end one, and the root three
        counts = [256] * 31 + [119] * 2
        regions = "".join(f"region R{k} {{ {states(n, first if k == 0 else 'initial state s; ')}}} " for k, n in enumerate(counts))
        return f"chart P {{ output int x; {regions}}}"

    def of_threads(last):
        inner = "".join(f"region Q{k} {{ initial state t; }} " for k in range(63))
        rest = "".join(f"region Q{k} {{ initial state t; }} " for k in range(last))
        regions = "".join(f"region R{k} {{ initial state s {{ {inner}}} }} " for k in range(15))
        return f"chart P {{ {regions}region R {{ initial state s {{ {rest}}} }} }}"

    # a tick goes on behind each region's pause, and comes to the next one
    yield of_nodes("initial state s; "), "ok nodes=16384 threads=34 budget=68\n"
    yield of_nodes("initial state s { go do x = 1 -> s; } "), "sct: E07 limit\n"
    yield of_threads(62), "ok nodes=3104 threads=1024 budget=2048\n"
    yield of_threads(63), "sct: E07 limit\n"
