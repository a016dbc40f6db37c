"""Charts with aborts that were worked out by hand: the ranks of their steps; which runs of a chart its core chart follows, step
for step; and one without an image. And wrong ranks, each of which some chart tells."""
from ranks import RankedMachine

# an update inside, the weak abort that reads it, its effect, and a region beside that reads that
WEAK = """chart R { output int n; output int m; output int o; region M { initial state S { region P { initial state a { go do
n = n + 1 -> a; } } weak if n >= 2 do m = 1 -> T; } state T; } region Q { initial state c { go if m > 0 do o = 1 -> d; }
state d; } }"""
# a strong and a weak abort, an update inside that a region beside reads, and a test inside that nobody waits for
BOTH = """chart B { input bool K; input bool L; output int n; output int m; region M { initial state S { region P { initial state a {
go if L do n = n + 1 -> a; } } region U { initial state e { go if L -> e; } } strong if K do m = 1 -> T; weak if L do m = 2 -> T; }
state T; } region Q { initial state c { go if n > 9 -> d; } state d; } }"""
# a test on entry and in later ticks, and behind it an update in later ticks alone
LATER = """chart L { input bool A; output int n; region M { initial state s { go immediate if A -> t; go do n = n + 1 -> t; } state t; }
region Q { initial state c { go if n > 0 -> d; } state d; } }"""
# the steps of each tick by greatest rank, each as its region and its rank; of one rank by the names of their regions
RANKS = [
    (WEAK, ["", "", ""], ["", "P3 P3 M1 Q0", "P3 P3 M1 M1 Q0 Q0"]),
    (BOTH, ["", "L"], ["", "M2 P1 P1 M0 M0 Q0 U0"]),
    (BOTH, ["", "K"], ["", "M2 M0 Q0"]),
    (LATER, ["", ""], ["M0", "M1 M1 M1 Q0"]),
]

# two superstates, one inside the other, each with an abort
NESTED = """chart N { input bool A; input bool B; output int n; region M { initial state O { region R { initial state I { region P {
initial state a; } %s if A do n = n + 1 -> t; } state t; } %s if B -> T; } state T; } }"""
# of kinds inside and outside, whether the core follows each run as layered charts are followed, and as nested ones may be
FOLLOWED = [("strong", "strong", False, True), ("strong", "weak", True, True), ("weak", "strong", True, True),
            ("weak", "weak", False, False)]

# an outer weak abort that reads what a region beside the inner one writes
AHEAD = """chart A { input bool A; output int x; region M { initial state O { region R { initial state I { region P { initial state a; }
weak if A -> t; } state t; } region Q { initial state c { go if A do x = 1 -> d; } state d; } weak if x > 0 -> T; } state T; } }"""

# a strong abort that reads what its inside writes
READS_INSIDE = """chart C { input bool A; output int n; region M { initial state S { region P { initial state a { go if A do
n = 7 -> b; } state b; } strong if n == 7 -> T; } state T; } }"""


class WeakByMonitor(RankedMachine):
    """A weak abort has the rank of its monitor's test."""

    def nodes(self, r):
        where, s, left = self.standing[r][:3]
        if where != "within" or left[0].kind != "weak":
            return super().nodes(r)
        place = self.checks(r) + (s.of_kind("strong") + s.of_kind("weak")).index(left[0])
        return [self.image.nodes.tests[self.pieces.watching[s].transitions[place], "later"]]


class StrongByJoin(RankedMachine):
    """A strong abort has the rank of its fork's join."""

    def nodes(self, r):
        where, s = self.standing[r][:2]
        return [self.image.nodes.joins[self.pieces.main[s]]] if where == "guarding" else super().nodes(r)


class BothNodes(RankedMachine):
    """A test has the rank of both of its nodes, whatever tests are left."""

    def nodes(self, r):
        where, s, left = self.standing[r][:3]
        if where != "trying":
            return super().nodes(r)
        tests, made = self.image.nodes.tests, self.tested(r, where, s, left[0])
        return [tests[made, when] for when in ("entry", "later") if (made, when) in tests]


class AllAlike(RankedMachine):
    """All steps have one rank."""

    def rank(self, r):
        return 0


WRONG = [WeakByMonitor, StrongByJoin, BothNodes, AllAlike]
