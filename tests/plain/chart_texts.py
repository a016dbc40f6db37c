"""Chart texts: rows with their faults, random charts in a random layout, texts with something changed, and hostile ones; and
a self-check of chart_reader.py over them, against the reader by the grammar alone that texts.py has."""
import random

from chart_reader import read_chart
from charts import text_of_chart
from random_charts import random_chart
from reader import END, NAME, Fault
from texts import RULES, VOCABULARY, changed, deep, laid_out, wanted_of, wrong_stop

# ---- rows: what a text is refused with, at the place that ^ marks

HEAD = "chart P { input bool i; input int n; output int x; output bool b; local int a; "

TEXTS = {
    "E01": [
        "chart P { ^$ }", "chart ^\u00e9 {", "chart ^_p { }", "chart P { output int ^_x; }", "chart ^_" + "n" * 70 + " { }",
        "chart P { region ^_r { } }", "chart } ^_x", "chart P ^01", "chart P { region R { state a { go -> ^_b; } } }",
        "// \u00e9 \0\nchart ^! {", HEAD + "region R { initial state s { go do ^_x = 1 -> t; } state t; } region R { state s; } }",
    ],
    "E02": [
        "chart^", "chart P^", "chart P {^", "chart P { ^}", "chart ^region { }", "chart P { region R { ^} }",
        "chart P { input int x; ^}",
        "chart P { region R { initial state s; } ^input int x; }", "chart P { region R { initial state s; } } ^}",
        "chart P { region R { initial state s; }^", "chart P { ^initial region R { } }", "chart ^-> { }", "chart P { ^state s; }",
        "chart P { region R { final ^initial state s; } }", "chart P { region R { initial ^initial state s; } }",
        "chart P { ^x = 1; }", "chart P { output ^x; }", "chart P { region R { initial state s ^} }", "chart ^scl { }",
        "chart P { output bool ^bool; }",
    ],
    "E03": [], "E04": [
        "chart P { input int x; local bool ^x; region R { initial state s; } }",
        HEAD + "region R { initial state s; } region ^R { initial state s; } }",
        HEAD + "region R { initial state s; state ^s; } }", HEAD + "region R { initial state s; final state ^s; state s; } }",
        HEAD + "region R { initial state s { region Q { initial state t; } region ^Q { initial state t; } } } }",
    ],
    "E06": [
        "chart C { region ^M { state a; } }", HEAD + "region ^R { initial state s; initial state t; } }",
        HEAD + "region R { initial state s; } region ^Q { state s; } }",
        HEAD + "region R { initial state s { region ^Q { state t; } } } }",
        HEAD + "region R { initial final state ^s { go -> s; } } }",
        HEAD + "region R { initial final state ^s { region Q { initial state t; } } } }",
    ],
    "E07": [
        "chart P ^2147483648", "chart ^" + "n" * 65 + " {", "chart P { output int ^" + "n" * 65 + "; }", "chart ) ( ^2147483648",
    ],
}

# transitions of a simple state s, beside a state t
SIMPLE = {
    "E02": [
        "go ^;", "go ->^;", "go -> t ^}", "go if ^-> t;", "go ^i -> t;", "go if i ^x = 1 -> t;", "go do ^-> t;", "go do x ^-> t;",
        "go do x = ^-> t;", "go do x = 1 ^x = 2 -> t;", "go do x = 1, ^-> t;", "go do x = 1^;", "go if i do x = 1 ^if i -> t;",
        "go do x = 1 ^immediate -> t;", "go if i ^immediate -> t;", "go immediate ^immediate -> t;", "go -> ^1;", "go -> t^, t;",
        "join ^if i -> t;", "join ^immediate -> t;", "go if (i ^-> t;", "go if i ^) -> t;", "region Q { ^}",
        "go -> t; ^region Q { }",
        "^x = 1;", "go if a / ^0 == 1 -> t;", "go if a < n ^< x -> t;", "go if a - ^> t;", "^else -> t;",
        "go -> t; ^state u;", "^pause;",
    ],
    "E03": [
        "go -> ^u;", "go if ^z -> t;", "go do ^z = 1 -> t;", "go do x = ^z -> t;", "go if ^z do y = 1 -> u;",
        "go -> ^R;", "go -> ^x;", "go if ^t -> t;", "go if ^z + 1 -> t;", "go do x = 1, ^z = i -> t;",
    ],
    "E05": [
        "go if ^a -> t;", "go if ^n + 1 -> t;", "go do x = ^i -> t;", "go do b = ^a -> t;", "go if ^i and a -> t;",
        "go do x = ^-i -> t;",
        "go do x = 1, b = ^1 -> t;", "go if ^(a) -> t;", "go do x = ^min(i, 1) -> t;", "go if ^a == i -> t;",
        "go do a = ^a == n -> t;",
    ],
    "E06": [
        "^strong if i -> t;", "^weak -> t;", "^join -> t;", "^strong immediate if i -> u;", "go do ^n = 1 -> t;",
        "go do ^i = 1 -> t;",
        "go -> t; ^join -> t;", "go do x = 1, ^n = n + 1 -> t;",
    ],
}

# those of a superstate s
SUPER = {
    "E02": ["go ->^;", "strong ^;", "weak if ^-> t;", "join ^if i -> t;", "join ^immediate -> t;", "join do ^-> t;",
            "strong -> t; ^initial state u;",
            "weak -> t; ^region S { initial state v; }"],
    "E03": ["strong -> ^v;", "join -> ^v;", "weak if ^z -> t;"],
    "E05": ["strong if ^a -> t;", "join do x = ^b -> t;"],
    "E06": ["^go -> t;", "^go immediate if i -> u;", "join -> t; ^join -> t;", "join -> t; ^join -> u; join -> t;",
            "join do ^n = 1 -> t;"],
}


def of_simple(text):
    return f"{HEAD}region R {{ initial state s {{ {text} }} state t; }} }}"


def of_super(text):
    return f"{HEAD}region R {{ initial state s {{ region Q {{ initial state v; }} {text} }} state t; }} }}"


def marked_rows():
    for rows, whole in (TEXTS, lambda text: text), (SIMPLE, of_simple), (SUPER, of_super):
        for fault, texts in rows.items():
            # what the grammar refuses ends there: the mark may be the text's end
            yield from ((fault, whole(text)) for text in texts)


# ---- two faults: each before and behind each other one, in states of one region

FLAWS = [("E03", "state %s { go -> ^u; }"), ("E03", "state %s { go if ^z -> %s; }"), ("E04", "state ^s;"), ("E05",
"state %s { go if ^a -> %s; }"),
         ("E06", "final state ^%s { go -> %s; }"), ("E06", "state %s { ^join -> %s; }"), ("E06",
         "state %s { go do ^n = 1 -> %s; }"),
         ("E06", "state %s { region ^Q { state v; } }"), ("E07", "state %s { go if ^(a" + " + a" * 16 + ") == 1 -> %s; }"),
         ("E07", "state %s { go do x = 1" + ", x = 1" * 15 + ", ^x = 2 -> %s; }")]
# what an earlier pass finds goes before all of these, wherever it stands
EARLIER = [("E01", "state w { go -> ^$; }"), ("E01", "state ^_w;"), ("E07",
"state w { go if a > ^2147483648 -> w; }"), ("E02", "state w { ^; }")]


def filled(text, name):
    return text.replace("%s", name)


def two_faults():
    def whole(*states):
        return f"{HEAD}region R {{ initial state s; {' '.join(states)} }} }}"

    for fault, text in FLAWS:
        mine = filled(text, "f")
        for _, other in FLAWS:
            # the second of two repeated names is repeated as well
            yield fault, whole(mine, filled(other, "g").replace("^", ""))
        for earlier, later in EARLIER:
            yield earlier, whole(mine.replace("^", ""), later)
            yield earlier, whole(later, mine.replace("^", ""))
    for fault, text in EARLIER[:3]:
        yield fault, whole(EARLIER[3][1].replace("^", ""), text)
    yield "E05", of_simple("go do x = ^i" + " + a" * 16 + " -> t;")
    yield "E03", of_simple("go do a = ^z + i -> t;")
    yield "E03", of_simple("go do ^y = i" + " + a" * 16 + " -> t;")


# ---- limits: a text at each, and one past it with its fault

def declared(count, role="local"):
    return "chart P { " + "".join(f"{role} int v{k}; " for k in range(count))


REGION = "region R { initial state s; } "


def many(count, form, at=0):
    return " ".join(form.format(k + at) for k in range(count)) + " "


def nested(levels, inner):
    return deep(levels, "region R { initial state s { ", inner, "} } ")


def with_limits():
    yield None, declared(256) + REGION + "}"
    yield "E07", declared(256) + "local int ^w; " + REGION + "}"
    yield "E04", declared(256) + "local int ^v7; " + REGION + "}"
    yield None, declared(64, "output") + REGION + "}"
    yield "E07", declared(64, "output") + "local int w; output int ^z; " + REGION + "}"
    regions = many(63, "region R{} {{ initial state s; }}")
    yield None, "chart P { " + regions + "}"
    yield "E07", "chart P { " + regions + "region ^S { initial state s; } }"
    yield "E04", "chart P { " + regions + "region ^R3 { initial state s; } }"
    yield None, HEAD + "region R { initial state s { " + regions + "} } }"
    yield "E07", HEAD + "region R { initial state s { " + regions + "region ^S { initial state s; } } } }"
    states = many(255, "state s{};")
    yield None, HEAD + "region R { initial state s; " + states + "} }"
    yield "E07", HEAD + "region R { initial state s; " + states + "state ^t; state u; } }"
    yield "E06", HEAD + "region R { initial state s; " + states + "final state ^t { go -> t; } } }"
    yield None, of_simple("go if a == 1 -> t; " * 64)
    yield "E07", of_simple("go if a == 1 -> t; " * 64 + "^go -> t; go -> t;")
    yield "E06", of_simple("go if a == 1 -> t; " * 63 + "^join -> t; go -> t;")
    yield "E06", of_simple("go if a == 1 -> t; " * 64 + "^join -> t;")
    yield None, of_super("strong if i -> t; " * 63 + "join -> t;")
    yield "E07", of_super("strong if i -> t; " * 64 + "^join -> t;")
    yield None, of_simple("go do x = 1" + ", x = 1" * 15 + " -> t;")
    yield "E07", of_simple("go do x = 1" + ", x = 1" * 15 + ", ^x = 1, x = 2 -> t;")
    yield "E03", of_simple("go do x = 1" + ", x = 1" * 15 + ", ^z = 1 -> t;")
    yield None, HEAD + nested(32, "") + "}"
    yield "E07", HEAD + nested(32, "^region R { }") + "}"
    yield "E02", HEAD + nested(32, "go -> s; ^region R { }") + "}"
    yield None, HEAD + deep(31, "region R { initial state s { ",
    "region R { initial state s { } final state f; } region Q { initial state s; } ",
                            "} } ") + "}"
    yield None, HEAD + deep(31, "region R { initial state s { ", "region R { initial final state s; } ",
    "strong if i -> s; weak if i -> s; join -> s; } } ") + "}"
    for form in ("go if %s -> t;", "go do b = %s -> t;"):
        yield None, of_simple(form % deep(64, "(", "i", ")"))
        yield "E07", of_simple(form % deep(64, "(", "^(i)", ")"))
        yield None, of_simple(form % deep(32, "not (", "i", ")"))
        yield "E07", of_simple(form % deep(32, "not (", "^not i", ")"))
        yield None, of_simple(form % ("a" + " + a" * 14 + " == 1 + a"))
        yield "E07", of_simple(form % ("^a" + " + a" * 16 + " == 1"))
        yield None, of_simple(form % ("1" + " + 1" * 30 + " == -1"))
        yield "E07", of_simple(form % ("^1" + " + 1" * 31 + " == 1"))
        yield None, of_simple(form % ("0 == " + "1 + (" * 14 + "1" + ")" * 14))
        yield "E07", of_simple(form % ("^0 == " + "1 + (" * 15 + "1" + ")" * 15))
        yield "E07", of_simple(form % (deep(63, "(", "min(1, ^max(1, 2)) == 1", ")")))
    yield None, "chart " + "n" * 64 + " { local int " + "v" * 64 + "; region " + "R" * 64 + " { initial state " + "s" * 64 + "; } }"
    yield None, "chart P { // \u00e9 \0\r\nregion R{initial state s;}}\r\t// the end"


def hostile(size):
    """Texts of some `size` bytes and more: (fault or None, text)."""
    yield "E07", HEAD + "region R { initial state s { " * 32 + "^" + "region R { initial state s { " * size
    yield "E07", of_simple("go if " + "(" * 64 + "^" + "(" * size)
    yield "E07", of_simple("go if " + "not " * 64 + "^" + "not " * size)
    yield "E07", of_simple("go if ^a" + " + a" * size + " == 1 -> t;")
    yield "E02", of_simple("go if a" + " + a" * size + " ^} ")
    yield "E07", of_simple("go -> t; " * 64 + "^" + "go -> t; " * size)
    yield "E07", of_simple("go do x = 1" + ", x = 1" * 15 + ", ^x = 1" + ", x = 1" * size + " -> t;")
    yield "E04", HEAD + "region R { initial state s; state ^s; " + "state s; " * size + "} }"
    form = "region R{} {{ initial state s; }}"
    yield "E07", HEAD + many(63, form) + "region ^Q { initial state s; } " + many(size // 20, form, 63) + "}"
    yield "E01", "chart ^\0" + "\0" * size
    yield "E07", "chart ^" + "a" * size
    yield "E02", "chart //" + "/" * size + "^"
    yield None, "chart P { " + "\r\n" * size + REGION + "}"


# ---- random texts

CHART_WORDS = VOCABULARY + ("region state initial final go strong weak join immediate if do -> -> ; ; { } , = S1 S2 F3 R4 A B I x y b "
                            "u _u").split(" ")


def random_texts(seed):
    """A random chart's text, the same laid out otherwise, and some texts with something changed."""
    r = random.Random(seed)
    text = text_of_chart(random_chart(seed, r.choice([2, 4, 8]), r.random() < 0.5))
    texts = [text, laid_out(text, r)]
    return texts + [changed(text, r, CHART_WORDS) for text in texts for _ in range(3)]


# ---- the self-check

CHART_RULES = {
    "a chart": [["chart", NAME, "{", "declarations", "a region", "regions", "}", END]],
    "regions": [[], ["regions", "a region"]],
    "a region": [["region", NAME, "{", "a state", "states", "}"]],
    "states": [[], ["states", "a state"]],
    "a state": [["is initial", "is final", "state", NAME, "body"]],
    "is initial": [[], ["initial"]],
    "is final": [[], ["final"]],
    "body": [[";"], ["{", "regions", "transitions", "}"]],
    "transitions": [[], ["transitions", "transition"]],
    "transition": [["tested", "is immediate", "trigger", "effects", "->", NAME, ";"], ["join", "effects", "->", NAME, ";"]],
    "tested": [["go"], ["strong"], ["weak"]],
    "is immediate": [[], ["immediate"]],
    "trigger": [[], ["if", "expr"]],
    "effects": [[], ["do", "effect list"]],
    "effect list": [["effect"], ["effect list", ",", "effect"]],
    "effect": [[NAME, "=", "expr"]],
    **{name: forms for name, forms in RULES.items() if name not in ("program", "statements", "statement", "block", "branches")},
}


def told_chart(text):
    """What chart_reader.py says of a text: its fault, or the chart in one layout."""
    try:
        return text_of_chart(read_chart(text))
    except Fault as fault:
        return str(fault)


def all_rows():
    """Each row as its bytes and its fault with the place, or None."""
    for fault, marked in [*marked_rows(), *two_faults(), *with_limits(), *hostile(20000)]:
        yield wanted_of(fault, marked)


def check_chart_rows():
    """Returns how many rows there are, and what is wrong of them."""
    wrong, count = [], 0
    for text, wanted in all_rows():
        got = told_chart(text)
        count += 1
        if got != wanted and not (wanted is None and got.startswith("chart ")):
            wrong.append(f"{text[:200]!r}: {got[:60]!r} and not {wanted}")
    return count, wrong


def check_random_chart(seed):
    """Returns what is wrong of the texts of this number."""
    texts, wrong = random_texts(seed), []
    # the text of a chart reads back, in another layout too, but for an expression that is too large
    for text in texts[:2]:
        got = told_chart(text.encode())
        if got != texts[0] and not got.startswith("E07"):
            wrong.append(f"{text!r}: {got!r}")
    for text in texts:
        wrong += wrong_stop(text, told_chart(text.encode()), CHART_RULES, is_chart=True)
    return wrong
