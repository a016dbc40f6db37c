"""Texts of extended charts: rows with their faults, limits, random ones, and random ones with something changed."""
import copy

from chart_texts import CHART_WORDS
from charts import Chart, states_of
from extended import Declared, During, emission, text_of_extended
from flaws import with_flaws
from programs import VARIABLES
from random_charts import ChartGenerator
from texts import changed, laid_out, wanted_of

# ---- rows: what a text is refused with, at the place that ^ marks; or None

HEAD = "extended chart P { input bool i; input int n; output int x; output bool b; local int a; signal q; const int N = 3; "
REGION = "region R { initial state s; } "

TEXTS = {
    "E01": [
        "extended chart P { output int ^a__b; region R { initial state s; } }",
        "extended chart P { const int ^N__ = 1; region R { initial state s; } }",
        "extended chart P { input bool i; pre bool ^p__1 = i; region R { initial state s; } }",
        HEAD + "region ^R__1 { initial state s; } }", HEAD + "region R { initial state ^s__; } }",
        HEAD + "region R { initial state s { region Q { initial state ^a___b; } go -> t; } state t; } }",
        HEAD + "region R { initial state s { go -> t__; } state ^t__; } }",
        "extended chart ^_p { }", "extended chart P { const int ^_N = 1; }", "^$", "extended ^! chart", "extended chart P ^01",
        "konst chart P { region ^_r { } }",
        # a comment that is not closed
        "^/*", "/* */^/*/", "extended chart ^/* P { " + REGION + "}", HEAD + REGION + "} ^/* } // * /", HEAD + REGION + "} /* */ ^/*** $",
        HEAD + "region R { initial state s { go do x = x ^/* 2 -> s; } } }", "extended /* $ */ chart P { ^$ /* } ", "/* \u00e9 */ extended chart P { /* \n */ output int ^a__b; " + REGION + "}",
    ],
    "E02": [
        "/* */ ^konst chart P { " + REGION + "}", "/* extended */ ^chart P { " + REGION + "}", "extended /**/ chart P { /* \n\u00e9 */ ^/ " + REGION + "}",
        "extended chart P { " + REGION + "} /* /* */ ^*/", "ext/**/^ended chart P { " + REGION + "}", HEAD + REGION + "} // */\n ^*/", HEAD + REGION + "/* } */^",
        HEAD + "region R { initial state s { go do x +/* */^= 1 -> s; } } }", HEAD + "region R { initial state s -/**/^> s; } }".replace("s -/**/^>", "s ^-/**/>"),
        "^konst chart P { region R { initial state s; } }", "^chart P { region R { initial state s; } }", "^", "extended^",
        "extended ^extended chart P { }", "extended chart P { ^}", "extended ^scl P { }", "^scl P { }", "extended chart ^chart { }",
        "^extended1 chart P { region R { initial state s; } }",
        "extended chart P { ^konst int N = 3; region R { initial state s; } }",
        "extended chart P { const N ^= 3; region R { initial state s; } }",
        "extended chart P { const int N = ^; region R { initial state s; } }",
        "extended chart P { const int N 3^; }".replace("N 3^", "N ^3"), "extended chart P { ^signal int N = 3; " + REGION + "}", "extended chart P { ^signal bool q; " + REGION + "}",
        "extended chart P { ^signals q; " + REGION + "}", "extended chart P { output ^signals q; " + REGION + "}",
        "extended chart P { input ^signal q; " + REGION + "}", "extended chart P { signal q ^= true; " + REGION + "}",
        "extended chart P { local signal ^; " + REGION + "}", "extended chart P { signal ^; " + REGION + "}", "extended chart P { output x^; }".replace("x^;", "x ^;"),
        "extended chart P { ^const signal; " + REGION + "}", "extended chart P { signal signal ^signal; " + REGION + "}",
        "extended chart P { local ^pre p; " + REGION + "}", "extended chart P { local signal int ^; }".replace("int ^", "^int"),
        "extended chart P { const int N = 3 ^region R { } }", "extended chart P { output int x == 3; }".replace("==", "^=="),
        "extended chart P { " + REGION + "^const int N = 3; }", "extended chart P { ^Const int N = 3; " + REGION + "}",
        HEAD + "region R { initial state s { ^enter do x = 1; } } }", HEAD + "region R { initial state s { entry do ^emits q; } } }", HEAD + "region R { initial state s { entry do emit q ^= true; } } }",
        HEAD + "region R { initial state s { exit do emit ^; } } }", HEAD + "region R { initial state s { exit do ^x y; } } }",
        HEAD + "region R { initial state s { entry do emit q^ q; } } }".replace("q^ q", "q ^q"),
        HEAD + "region R { initial state s { entry ^x = 1; } } }",
        HEAD + "region R { initial state s { entry do x = 1 ^} } }", HEAD + "region R { initial state s { entry do ^; } } }",
        HEAD + "region R { initial state s { entry do x = 1, ^; } } }", HEAD + "region R { initial state s { ^durings do x = 1; } } }",
        HEAD + "region R { initial state s { go -> s; ^entry do x = 1; } } }",
        HEAD + "region R { initial state s { region Q { initial state t; } ^entry do x = 1; } } }",
        HEAD + "region R { initial state s { ^entry if i do x = 1; } } }", HEAD + "region R { initial state s { immediate ^entry do x = 1; } } }",
        HEAD + "region R { initial state s { immediate ^exit if i do x = 1; } } }", HEAD + "region R { initial state s { immediate ^immediate during do x = 1; } } }",
        HEAD + "region R { initial state s { during ^immediate do x = 1; } } }", HEAD + "region R { initial state s { immediate ^if i do x = 1; } } }",
        HEAD + "region R { initial state s { during if ^do x = 1; } } }", HEAD + "region R { initial state s { during ^x = 1; } } }",
        HEAD + "region R { initial state s { during after ^3 do x = 1; } } }".replace("after ^3", "^after 3"),
        HEAD + "region R { initial state s { go -> s; ^immediate during do x = 1; } } }", HEAD + "region R { initial state s { ^immediate; } } }".replace("^immediate;", "immediate ^;"),
        HEAD + "region R { initial state s { region Q { initial state t; } ^during do x = 1; } } }",
    ],
    "E03": [
        "extended chart P { pre int p = ^y; " + REGION + "}", "extended chart P { const int N = 3; pre int p = ^N; " + REGION + "}",
        "extended chart P { input int n; pre int p = n; pre int q = ^p; " + REGION + "}",
        HEAD + "region R { initial state s { entry do ^y = 1; } } }", HEAD + "region R { initial state s { exit do x = ^y; } } }",
        HEAD + "region R { initial state s { entry do ^y = true; } } }",
        HEAD + "region R { initial state s { exit do x = a + ^M; } } }", HEAD + "region R { initial state s { during if ^y do x = 1; } } }",
        HEAD + "region R { initial state s { immediate during do ^y = 1; } } }", HEAD + "region R { initial state s { entry if ^y do x = 1; } } }".replace("entry if ^y", "during if b or ^y"),
    ],
    "E04": [
        HEAD + "const int ^N = 4; " + REGION + "}", HEAD + "const int ^x = 4; " + REGION + "}", HEAD + "pre int ^N = x; " + REGION + "}",
        HEAD + "local int ^N; " + REGION + "}", HEAD + "signal ^x; " + REGION + "}", HEAD + "output int ^q; " + REGION + "}",
    ],
    "E05": [
        "extended chart P { const int N = ^true; " + REGION + "}", "extended chart P { const bool N = ^1; " + REGION + "}",
        "extended chart P { const int N = ^1 + 1; " + REGION + "}", "extended chart P { const int N = ^--1; " + REGION + "}",
        HEAD + "const int M = ^N; " + REGION + "}", "extended chart P { const bool B = ^not true; " + REGION + "}",
        "extended chart P { output int x = ^false; " + REGION + "}", "extended chart P { local bool c = ^0; " + REGION + "}",
        HEAD + "output int z = ^N; " + REGION + "}", HEAD + "output int z = ^y; " + REGION + "}", HEAD + "const bool M = ^-1; " + REGION + "}",
        HEAD + "pre bool p = ^x; " + REGION + "}", HEAD + "pre int p = ^b; " + REGION + "}", HEAD + "pre int p = ^x + 1; " + REGION + "}",
        HEAD + "pre int p = ^3; " + REGION + "}", HEAD + "pre int p = ^-x; " + REGION + "}", HEAD + "pre int p = ^y + 1; " + REGION + "}",
        HEAD + "const int M = ^1" + " + 1" * 40 + "; " + REGION + "}",
        HEAD + "region R { initial state s { entry do x = ^i; } } }", HEAD + "region R { initial state s { exit do b = ^x; } } }",
        HEAD + "region R { initial state s { exit do emit ^x; } } }", HEAD + "region R { initial state s { go do x = 1, emit ^N -> s; } } }",
        HEAD + "pre int p = ^q; " + REGION + "}", HEAD + "region R { initial state s { during if ^x do x = 1; } } }",
        HEAD + "region R { initial state s { immediate during if b do x = ^b; } } }", HEAD + "region R { initial state s { during if ^(N) do x = 1; } } }",
    ],
    "E06": [
        HEAD + "region R { initial state s { entry do ^q = true; } } }", HEAD + "region R { initial state s { entry do ^q = q or true; } } }",
        HEAD + "region R { initial state s { exit do emit ^b; } } }", HEAD + "region R { initial state s { go do emit ^i -> s; } } }",
        HEAD + "const bool T = true; region R { initial state s { go do emit ^T -> s; } } }",
        HEAD + "pre bool p = q; region R { initial state s { go do emit q, emit ^p -> s; } } }",
        "extended chart P { input int ^n = 3; " + REGION + "}", "extended chart P { input int ^n = true; " + REGION + "}",
        "extended chart P { const int ^N; " + REGION + "}", HEAD + "pre int ^p; " + REGION + "}",
        HEAD + "region R { initial state s { entry do ^n = 1; } } }", HEAD + "region R { initial state s { entry do ^N = 1; } } }",
        HEAD + "pre int p = x; region R { initial state s { exit do ^p = 1; } } }",
        HEAD + "region R { initial state s { go do ^N = 1 -> s; } } }",
        HEAD + "region R { initial final state ^s { exit do x = 1; go -> s; } } }",
        HEAD + "region R { initial final state s { ^during do x = 1; } } }", HEAD + "region R { initial final state s { immediate ^during if b do x = 1; } } }",
        HEAD + "region R { initial state s { entry do x = 1; during do ^n = 1; region Q { initial state t; } weak if b -> s; join if b -> s; } } }",
        HEAD + "region R { initial state s { region Q { initial final state t { ^during do x = 1; } } join -> s; } } }",
        HEAD + "region R { initial state s { during do ^n = 1; } } }", HEAD + "region R { initial state s { during do ^q = true; } } }",
        HEAD + "region R { initial state s { during do x = 1; ^weak -> s; } } }",
    ],
    "E07": [
        "extended chart P { const int N = ^2147483648; " + REGION + "}", "extended chart ^" + "n" * 65 + " { }",
        HEAD + "region R { initial state s { entry do x = 1" + ", x = 1" * 15 + ", ^x = 1; } } }",
        HEAD + "region R { initial state s { exit do x = ^1" + " + 1" * 32 + "; } } }",
        HEAD + "region R { initial state s { during do x = 1" + ", x = 1" * 15 + ", ^x = 1; } } }",
        HEAD + "region R { initial state s { during if ^b" + " and b" * 16 + " do x = 1; } } }",
    ],
    None: [
        "extended chart P { signal signal; output signal emit; local signal emit1; pre bool was = emit; region R { initial state s { entry do "
        "emit emit, emit signal; exit do emit signal; go if emit and was do emit emit1 -> s; } } }",
        "extended chart emit { local bool emit; local int signal; region signal { initial state emit { go do emit = emit or true, "
        "signal = 1 -> emit; } } }",
        HEAD + REGION + "}", "/* a chart\n// \u00e9 */extended/**/chart/***/P/*/ /*/{ /* \" */ " + REGION + "}/**/// /*", "// /*\nextended chart P { " + REGION + "} /* */ // */",
        HEAD + "region R { initial state s { go do x = 6 /**// 2 /* // */, x/**/-=/**/1 -> s; } } }", "extended chart extended { output int const; local bool entry; region after { initial state exit; } }",
        "extended chart P { const int const = 3; output int pre = -3; pre int after = pre; region R { initial state s { "
        "go after const + after if pre < const -> s; } } }",
        "extended chart of { output bool of; const int after = 2; region of { initial state of { go after after of of -> of; } } }",
        HEAD + "pre int p = (x); const int M = (-(3)); output int z = -(3); const bool T = (true); " + REGION + "}",
        HEAD + "region R { initial state s { entry do x = N; exit do x = 1; entry do a = x, x = a; go -> s; } final state t { "
        "entry do x = 1; exit do x = 2; } } }",
        HEAD + "region R { initial state s { entry do x = 1; region Q { initial state t; } strong after n + 1 if i do x = 1 -> s; "
        "weak after -1 -> s; join do x = 2 -> s; } } }",
        HEAD + "region R { initial state s { during do x += 1; entry do x = 1; immediate during if b and n < N do emit q, a = x; during if i do x = 1; "
        "go immediate -> s; go after 2 -> s; } final state t { entry do x = 1; } } }",
        HEAD + "region R { initial state s { immediate during do x = 1; region Q { initial state t { during do a = 1; } } strong if b -> s; weak -> s; } } }",
        HEAD + "region R { initial state s { during do x = 1; region Q { initial state t; } join -> s; } } }",
        HEAD + "region R { initial state s { immediate during if b do x = 1; region Q { initial state t; } weak if b -> s; join if i -> s; } } }",
        "extended chart during { local bool during; region during { initial state during { during if during do during = not during; go -> during; } } }",
        "extended chart shallow { output bool history; region shallow { initial state shallow { region history { initial state history; } "
        "weak if history -> history; } state history { go after 2 -> shallow history shallow; go -> shallow; } } }",
        "extended chart P { output int a_b_c_; " + REGION + "}", "extended chart P__1 { " + REGION + "}",
        "extended chart P { pre bool was = i; input bool i; " + REGION + "}",
        HEAD + "region R { initial state s { entry do x = 1" + ", x = 1" * 7 + "; entry do x = 1" + ", x = 1" * 7 + "; } } }",
    ],
}

# transitions of a simple state s, beside a state t
SIMPLE = {
    "E02": [
        "go immediate ^after 3 -> t;", "go after 3 ^immediate -> t;", "go ^before 3 -> t;", "go after ^-> t;", "go after ^if i -> t;",
        "go ^After 3 -> t;", "go after 3 ^after 3 -> t;", "go if i ^after 3 -> t;", "go after 3 ^do -> t;".replace("^do ->", "do ^->"),
        "join ^after 3 -> t;", "go ^after -> t;".replace("^after ->", "after ^->"), "go after 3 x ^= 1 -> t;", "go ^x 3 -> t;",
        "go after 3 ^off i -> t;", "go after 3 ^Of i -> t;", "go after 3 of ^-> t;", "go after 3 of ^if i -> t;", "go after 3 of i ^of b -> t;", "go ^of i -> t;",
        "go after 3 if b ^of i -> t;", "go immediate ^of i -> t;", "go after of i ^-> t;", "go after 3 of i ^after 3 -> t;", "go after 3 ^off ^y -> t;".replace("^y", "y"),
        "join if ^-> t;", "join ^immediate -> t;", "join if i ^after 3 -> t;", "join do x = 1 ^if i -> t;", "join ^when i -> t;",
        "go do ^emits q -> t;", "go do x = 1, ^emits q -> t;", "go do emit ^-> t;", "go do emit q ^= true -> t;", "go do ^emitted y -> t;",
        "go do x + ^= 1 -> t;", "go do x +\n^= 1 -> t;", "go do x + ^1 -> t;", "go do x +^== 1 -> t;", "go do x ^/= 2 -> t;", "go do x ^%= 2 -> t;",
        "go do x += ^-> t;", "go do x ^-> t;", "go do emit q ^+= 1 -> t;", "go do x ^<= 1 -> t;", "go do x ^or= b -> t;", "go do x = ^+= 1 -> t;",
        "go do x -^- = 1 -> t;", "go do x = 1, x * ^= x -> t;",
        "go -> ^deep history t;", "go -> shallow ^histories t;", "go -> ^history shallow t;", "go -> ^Shallow history u;", "go -> shallow t ^;",
        "go -> shallow history t ^t;", "go -> shallow history ^;", "go -> shallow ^if i;", "go ^shallow history -> t;".replace("^shallow history", "^shallow i"),
        "go -> shallow history ^immediate;", "go -> ^t t t;",
    ],
    "E03": ["go do ^y += 1 -> t;", "go do x -= ^y -> t;", "go do ^y + = 1 -> t;", "go after ^M -> t;", "go after N + ^M if i -> t;", "go after N if ^y -> t;", "go after ^s -> t;", "go after N -> ^u;",
            "go after 3 of ^y -> t;", "go after N of i and ^M > 1 -> t;", "go after ^M of y -> t;", "go after 3 of ^t -> t;",
            "go do emit ^y -> t;", "go do emit ^s -> t;", "go do emit ^emit -> t;",
            "go -> shallow history ^u;", "go -> ^shallow;", "go -> shallow history ^history;"],
    "E05": ["go do x +^= b -> t;", "go do b *^= 2 -> t;", "go do b -^= b -> t;", "go do x +^=(1 < 2) -> t;", "go after ^true -> t;", "go after ^i -> t;", "go after ^n == 3 if i -> t;", "go after N if ^n -> t;", "go after ^(i) -> t;",
            "go after 3 of ^x -> t;", "go after N of ^n + 1 if i -> t;", "go after ^i of i -> t;", "go after ^b of n -> t;", "go after 3 of ^3 -> t;", "go after 1 of b if ^n -> t;"],
    "E06": ["go do ^n += 1 -> t;", "go do ^N *= 2 -> t;", "go do ^q += 1 -> t;", "go do ^n + = 1 -> t;", "^strong after 3 -> t;", "^weak after N -> t;", "go after N do ^n = 1 -> t;", "^join if i -> t;",
            "go do ^q = false -> t;", "go do emit q, ^q = q -> t;", "go do emit ^i -> t;", "go do emit ^b -> t;",
            "go -> shallow history ^t;", "go immediate if i do x = 1 -> shallow history ^s;"],
    "E07": ["go do x +^= 1" + " + 1" * 31 + " -> t;", "go do x +^= a" + " + a" * 15 + " -> t;", "go after ^a" + " + a" * 16 + " -> t;", "go after ^1" + " + 1" * 32 + " -> t;",
            "go after 3 of ^b" + " or b" * 16 + " -> t;", "go after 3 of ^1 == 1" + " + 1" * 31 + " -> t;"],
    None: ["go do x += 1, x-=n * 2, x *= -3, a +=x -> t;", "go do x += 1" + " + 1" * 30 + " -> t;", "go do x -= -1, x -= (2 - n) -> t;",
           "go after 3 of i -> t;", "go after n + N of i and x < 3 if b do x = 1 -> t; go after 2 of q -> s;", "go after -1 of (b or not i) do emit q -> t;",
           "go after 1 of b if i -> s; go after 2 of b if i -> t; go after 2 if i -> t;"],
}


# transitions of a superstate s, beside a state t
SUPER = {
    "E02": ["join ^of b -> t;", "join if b ^of b -> t;", "weak after 3 ^if1 b -> t;", "join if b ^-> -> t;".replace("^-> ->", "-> ^->"), "join if ^do x = 1 -> t;", "join ^if1 b -> t;"],
    "E03": ["join if ^y -> t;", "join if b and ^M == 3 -> t;", "join if b do emit ^y -> t;", "join if b -> ^u;", "join if ^s do x = 1 -> t;"],
    "E05": ["join if ^x -> t;", "join if ^N + 1 -> t;", "join if b do x = ^b -> t;", "join if ^(1) -> t;"],
    "E06": ["join if b -> t; ^join if q -> t;", "join -> t; ^join if q -> t;", "join if q do ^q = true -> t;",
            "strong -> shallow history ^t;", "join if q -> shallow history ^t;"],
    "E07": ["join if ^b" + " and b" * 16 + " -> t;"],
    None: ["join if q and N == 3 do emit q, x = 1 -> s;", "weak if b -> t; join if not b -> t; strong after 3 -> t;", "join if b -> t;",
           "strong after 3 of b -> t; weak after N of not i if q -> s; join if b -> t;",
           "strong if b -> shallow history s; weak immediate if i do x = 1 -> t; join if q do emit q -> shallow history s;",
           "join -> shallow history s;", "strong after 2 -> shallow  history\ns;"],
}


def of_super(text):
    return f"{HEAD}region R {{ initial state s {{ region Q {{ initial final state u; }} {text} }} state t; }} }}"


def of_simple(text):
    return f"{HEAD}region R {{ initial state s {{ {text} }} state t; }} }}"


def declared(count):
    return "extended chart P { " + "".join(f"const int v{k} = {k}; " for k in range(count))


def limits():
    yield None, declared(256) + REGION + "}"
    yield "E07", declared(256) + "local int ^w; " + REGION + "}"
    yield "E07", declared(256).replace("{ const", "{ local") + "const int ^w = 1; " + REGION + "}"
    opened = "region R { initial state s { entry do x = 1; "
    yield None, HEAD + opened * 32 + "} } " * 32 + "}"
    yield "E07", HEAD + opened * 32 + "^region R { } " + "} } " * 32 + "}"
    # the first flaw is that of least place, and of two at one place the one of least number
    yield "E01", HEAD + "local int ^N__; local int N__; const int c = true; " + REGION + "}"
    yield "E02", "^konst chart P { output int a__b; const int c = true; " + REGION + "}"
    yield "E03", of_simple("go before ^M -> t;").replace("before ^M", "after ^M")
    yield "E02", of_simple("go ^before M -> t;")
    yield "E01", HEAD + "local int ^x__; input int x__ = 3; " + REGION + "}"
    yield "E01", HEAD + "input int ^y__ = 3; " + REGION + "}"


def all_rows():
    """Each row as its bytes and its fault with the place, or None."""
    for rows, whole in (TEXTS, lambda text: text), (SIMPLE, of_simple), (SUPER, of_super):
        for fault, texts in rows.items():
            yield from (wanted_of(fault, whole(text)) for text in texts)
    yield from (wanted_of(fault, text) for fault, text in limits())
    for data in (b"extended chart P { } // \xff", b"extended chart P { /* \xff */ region R { initial state s; } }", b"\xffextended chart P { }", b"extended chart P { region R { initial state s; } } // \xc3"):
        yield data, "E01 at 0"


# ---- random charts

CONSTANTS = [Declared("N", "const", "int", 2), Declared("M", "const", "int", -3), Declared("T", "const", "bool", True)]
SIGNALS = [Declared("sig", "local", "bool", is_signal=True), Declared("seen", "output", "bool", is_signal=True)]
PLAIN, TOLD_BY = len(VARIABLES), 3


class ExtendedGenerator(ChartGenerator):
    """Makes one random extended chart."""

    def __init__(self, seed, size):
        super().__init__(seed, size, False)
        r = self.random
        was = [Declared(f"was_{VARIABLES[x].name}", "pre", VARIABLES[x].kind, of=x) for x in r.sample(range(PLAIN), r.choice([0, 1, 2, 3]))]
        self.items = [Declared(v.name, v.role, v.kind, self.initial(v)) for v in VARIABLES] + CONSTANTS + SIGNALS + was
        self.signals = [PLAIN + len(CONSTANTS) + x for x in range(len(SIGNALS))]
        # how often each of what is new stands where it may, and whether each region stands alone: in such a chart nothing clashes
        self.share = {word: r.choice([0, 0.2, 0.7]) for word in ("new", "after", "of", "entry", "exit", "during", "emit", "hold", "history")}
        self.share["signal"] = r.choice([0, 0, 0.1, 0.3])
        self.is_alone = r.random() < 0.5
        self.super_chances = (0.7, 0.5) if self.is_alone else self.super_chances

    def initial(self, v):
        r = self.random
        if v.role == "input" or r.random() < 0.6:
            return None
        return r.random() < 0.7 if v.kind == "bool" else r.choice([1, 3, -7, 2147483647])

    def loaded(self, kind):
        if kind == "bool" and self.random.random() < self.share["signal"]:
            return self.random.choice(self.signals)
        # nobody writes what else is new, so it is in nobody's way
        new = [x for x, v in enumerate(self.items) if x >= PLAIN and v.kind == kind and not v.is_signal]
        return self.random.choice(new) if new and self.random.random() < self.share["new"] else super().loaded(kind)

    def effect(self):
        r = self.random
        if r.random() < self.share["emit"]:
            return emission(r.choice(self.signals))
        if self.is_alone and r.random() < 0.7:
            # by such effects a variable tells all of them, in their order
            return TOLD_BY, ("add", ("multiply", ("load", TOLD_BY), ("value", 3)), ("value", r.randrange(100)))
        return super().effect()

    def actions(self, word):
        if not self.writable or self.random.random() >= self.share[word]:
            return []
        return [self.effect() for _ in range(self.random.choice([1, 1, 2]))]

    def transition(self, kind, at, states):
        r = self.random
        made = super().transition(kind, at, states)
        made.delay = made.count = None
        if kind == "join" and r.random() < self.share["hold"]:
            made.trigger = self.trigger()
        if kind != "join" and not made.immediate and r.random() < self.share["after"]:
            made.delay = r.choice([("value", 1), ("value", 2), ("value", 3), ("load", PLAIN), ("add", ("load", PLAIN), ("value", 1)), ("load", 2)])
            made.count = self.trigger() if r.random() < self.share["of"] else None
            made.trigger = made.trigger if r.random() < 0.3 else None
        return made

    def regions(self, depth, inside_aborts, count):
        return super().regions(depth, inside_aborts, 1 if self.is_alone else count)

    def region(self, depth, inside_aborts):
        made = super().region(depth, inside_aborts)
        for s in made.states:
            s.entry, s.exit = self.actions("entry"), self.actions("exit")
            s.during = self.durings(s)
            for t in s.transitions:
                if made.states[t.target].regions and self.random.random() < self.share["history"]:
                    t.target += len(made.states)
        return made

    def durings(self, s):
        """Beside the regions of a superstate they clash more often."""
        r = self.random
        if s.is_final or (s.regions and r.random() < (0.3 if s.of_kind("join") else 0.6)):
            return []
        actions = [self.actions("during") for _ in range(r.choice([1, 1, 2, 3]))]
        return [During(r.random() < 0.4, self.trigger() if r.random() < 0.5 else None, effects) for effects in actions if effects]


def random_extended(seed, size, depth=3):
    generator = ExtendedGenerator(seed, size)
    regions = generator.regions(depth, False, generator.random.choice([1, 2, 2, 3]))
    return Chart("C", generator.items, regions)


def by_inputs(chart):
    """The chart in which inputs tell what variables were, and whether the ticks are over that a transition waits."""
    made = copy.deepcopy(chart)
    for v in made.variables:
        v.role = "input" if v.role == "pre" else v.role
    for t in (t for s in states_of(made.regions) for t in s.transitions if t.delay is not None):
        is_over = ("greater or equal", ("load", 2), t.delay)
        is_over = ("and", t.count, is_over) if t.count else is_over
        t.trigger, t.delay, t.count = ("and", is_over, t.trigger) if t.trigger else is_over, None, None
    return made


WORDS = CHART_WORDS + ("extended chart const pre entry exit during immediate if after signal emit do = + - * ; N M T sig seen was_x const int pre bool signal s; entry do "
                       "emit sig a__b x__ after 3 of A after of -> shallow history /* */ /**/ /*x*/").split()
BLOCKS = ["/**/", "/* \u00e9 $ */", "/*\n// \n*/", "/*/ ** /*/"]


def damaged_texts(seed, r):
    """A random chart in another layout, and texts with something changed in it: words, or names, roles and kinds."""
    text = text_of_extended(random_extended(seed, r.choice([2, 4, 8])))
    yield laid_out(text, r, BLOCKS).encode()
    for _ in range(4):
        yield changed(text, r, WORDS).encode()
        yield with_flaws(text.encode(), r)
