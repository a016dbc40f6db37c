"""Texts of extended charts with modules: rows with their faults, and random modules and uses in a random chart."""
import re

from texts import wanted_of

HEAD = "extended chart P { input bool i; input int n; output int x; output bool b; signal q; const int N = 3; "
MODULE = ("module M(input bool on, output int out, const int K) { local int own; region R { initial state s "
          "{ entry do own = K; go if on do out = out + own -> s; } } } ")
REGION = "region R { initial state s; } "
USE = "use M(i, x, N) as D; "

ROWS = {
    None: [
        HEAD + MODULE + USE + "}", HEAD + MODULE + "use M(b, x, 4) as D; use M(i, x, N) as E; }",
        HEAD + MODULE + "region R { initial state s { use M(i, x, 1) as D; strong if b -> s; } } }",
        HEAD + MODULE + "region R { initial state s { entry do x = 1; " + USE + "strong if b -> s; } } use M(b, x, 3) as E; }",
        HEAD + MODULE + "module L(input bool p, output int y) { local int z; use M(p, y, 2) as In; use M(p, z, 3) as Out; } use L(q, x) as E; }",
        HEAD + "module M() { region R { initial state s; } } use M() as D; use M() as E; }",
        HEAD + "module M() { signal mine; region R { initial state s { go do emit mine, x = N -> s; } } } use M() as D; }",
        HEAD + "module M(output bool on) { region R { initial state s { go do emit on -> s; } } } use M(q) as D; }",
        HEAD + "module M(const int K, const bool B) { region R { initial state s { go if B do x = n / K -> s; } } } use M(2, true) as D; }",
        HEAD + MODULE + "region R { initial state use { go if i -> module; } state module; } }",
        HEAD + "local int module; local int use; local int as; region R { initial state s { go do use = module -> s; } } }",
        HEAD + "module M(input bool on) { region R { initial state s { go if on -> t; } state t; } } region R { initial state s; } }",
    ],
    "E02": [
        HEAD + "module M(^local int a) { } }", HEAD + "module M(input ^x y) { } }", HEAD + "module M(input int y^, ) { } }".replace("y^, )", "y, ^)"),
        HEAD + "module M(input int y ^; { } }", HEAD + "module M() ^; }", HEAD + "module M(^konst int K) { } }", HEAD + "module M() { region R { }^",
        HEAD + MODULE + "use M(i, x, N) ^is D; }", HEAD + MODULE + "use M(i, x, N) as ^; }", HEAD + MODULE + "use M(i, x, N) as D ^}",
        HEAD + MODULE + "use M(i, x, ^-3) as D; }", HEAD + MODULE + "use M(i, x ^+ 1, 3) as D; }", HEAD + MODULE + "use M(^) as D; }".replace("(^)", "(i, x, ^)"),
        HEAD + "module M() { region R { initial state s { go ^; } } } use M() as D; }", HEAD + MODULE.replace("region", "^region") + "region Q { initial state s { go -> s; use M(i, x, 1) as D; } } }",
        HEAD + "^module M; region R { initial state s; } }", HEAD + REGION + MODULE.replace("module", "^module") + "}",
    ],
    "E03": [
        HEAD + MODULE + "module L(output int y) { use M(^i, y, 1) as D; } use L(x) as E; }",
        HEAD + MODULE + "use ^L() as D; }", HEAD + "module L() { use ^M(i, x, 1) as D; } " + MODULE + "use L() as D; }",
        HEAD + MODULE + "use M(^z, x, 1) as D; }", HEAD + MODULE + "use M(i, ^z, 1) as D; }", HEAD + MODULE + "use M(i, x, ^K) as D; }",
        HEAD + "module M() { region R { initial state s { go if ^z -> s; } } } use M() as D; }",
    ],
    "E04": [
        HEAD + MODULE + "module ^M() { } " + USE + "}", HEAD + "module M(input bool y, output int ^y) { } }",
        HEAD + "local int D_own; " + MODULE.replace("int own", "int ^own") + USE + "}",
        HEAD + "module M() { region ^R { initial state s; } } use M() as D; use M() as D; }",
        HEAD + "module M(output int y) { local int ^y; region R { initial state s; } } use M(x) as D; }",
    ],
    "E05": [
        HEAD + MODULE + "use M(^n, x, 1) as D; }", HEAD + MODULE + "use M(i, ^b, 1) as D; }", HEAD + MODULE + "use M(^true, x, 1) as D; }",
        HEAD + MODULE + "use M(i, ^3, 1) as D; }", HEAD + MODULE + "use M(i, x, ^true) as D; }", HEAD + MODULE + "use M(i, x, ^n) as D; }",
        HEAD + "module M(input bool on) { region R { initial state s { go do x = ^on -> s; } } } use M(i) as D; }",
    ],
    "E06": [
        HEAD + MODULE + "use ^M(i, x) as D; }", HEAD + MODULE + "use ^M(i, x, 1, 2) as D; }", HEAD + MODULE + "use M(i, ^n, 1) as D; }",
        HEAD + MODULE + "use M(i, ^N, 1) as D; }", HEAD + "module M() { use ^M() as D; } use M() as D; }",
        HEAD + "module M(input int y) { region R { initial state s { go do ^y = 1 -> s; } } } use M(n) as D; }",
        HEAD + "module L(output int y) { region R { initial state s; } } module M(input int y) { use L(^y) as D; } use M(n) as D; }",
    ],
    "E07": [
        HEAD + MODULE + "use M(i, x, 1) as ^" + "d" * 61 + "; }",
        HEAD + "".join(f"module M{k}() {{ region R {{ initial state s; }} }} " for k in range(64)) + "module ^M() { } }",
        HEAD + "module M0() { region R { initial state s; } } "
        + "".join(f"module M{k}() {{ use M{k - 1}() as A; use {'^' if k == 14 else ''}M{k - 1}() as B; }} " for k in range(1, 16)) + "use M1() as D; }",
    ],
}


def module_rows():
    """Each row as its bytes and its fault with the place, or None."""
    for fault, texts in ROWS.items():
        yield from (wanted_of(fault, text) for text in texts)


PART = re.compile(r"^  region (\w+) \{\n.*?^  \}\n", re.M | re.S)
ITEM = re.compile(r"^  (input|output|local|const) (bool|int) (\w+)", re.M)


def with_modules(text, r):
    """The text of an extended chart with some of its regions in modules, and uses in their place. Some of the variables are
    parameters of these. It is the same chart, where the names of these regions end as they did."""
    modules, parts = [], []
    items = ITEM.findall(text)
    for at, part in enumerate(PART.finditer(text)):
        if r.random() < 0.3:
            parts.append(part.group())
            continue
        chosen = [i for i in items if r.random() < 0.4]
        body = part.group()
        for _, _, name in chosen:
            body = re.sub(rf"\b{name}\b", f"p_{name}", body)
        roles = [role if role in ("const", "input") else "output" for role, _, _ in chosen]
        parameters = ", ".join(f"{role} {kind} p_{name}" for role, (_, kind, name) in zip(roles, chosen))
        modules.append(f"  module M{at}({parameters}) {{\n{body}  }}\n")
        parts.append(f"  use M{at}({', '.join(name for _, _, name in chosen)}) as U{at};\n")
    first = PART.search(text).start()
    return text[:first] + "".join(modules) + "".join(parts) + "}\n"
