"""SCL texts: rows with their faults, random programs in a random layout, texts with something changed, and hostile
ones; and a self-check of reader.py over them, against a reader by the grammar alone that knows no order of reading."""
import random

from programs import Variable, text_of
from reader import END, NAME, NUMBER, Fault, read, tokens

# ---- rows: what a text is refused with, at the place that ^ marks

HEAD = "scl P { input bool i; input int n; output int x; output bool b; local int a; "

# texts with their faults
TEXTS = {
    "E01": [
        "scl P { x = 1 ^$ 2; }", "^\0", "scl P { ^! }", "scl ^\u00e9 {", "x = ^007;", "x = a ^& // c\n", "a ^\v",
        "^$ " + "n" * 65, ") ( ^$",
    ],
    "E07": [
        "x = ^2147483648;", "x = ^" + "9" * 1000, "scl ^" + "n" * 65, "^" + "n" * 65 + " $", ") ( ^2147483648",
    ],
    "E02": [
        "^", " // nothing ^", "scl^", "scl P { ^", "^region P { }", "scl ^goto { }", "scl P { } ^}", "scl P { } ^scl",
        HEAD + "goto L ^} ", HEAD + "pause ^} ", HEAD + "fork { } ^} ", HEAD + "fork { } join ^} ",
        "scl P { input ^x; }", "scl P { input int ^; }", "scl P { input int x ^} ", "^-> scl",
        "scl P { z = 1; goto L; ^1 }", HEAD + "n = 1; n = 1; ^)",
    ],
    "E04": [
        "scl P { input int x; local bool ^x; }",
    ],
}

# statements behind HEAD, with the faults of the whole
STATEMENTS = {
    "E02": [
        "x ^;", "x = ^;", "x = 1 ^2;", "x = a ^= 1;", "b = a < x ^< n;", "b = a == x ^!= n;", "x = - ^not i;",
        "x = a + ^not i;", "x = a / ^0;", "x = a % - ^0;", "x = a / ^x;", "x = a / - ^-2;", "x = a / ^(2);",
        "x = min ^a;", "x = min(a ^);", "x = max(a, x ^, n);", "x = (a ^;", "x = ( ^) ;", "goto ^1;", "L ^L:",
        "if ^i { }", "if (i) ^x = 1;", "if (i) { } else ^if (i) { }", "^else { }", "fork ^join;",
        "fork { } par ^join;", "^par { }", "pause; ^local int z;", "x = 3 ^a;",
    ],
    "E03": [
        "^z = 1;", "x = ^z;", "x = a + ^z + y;", "if (^z) { }", "goto ^L;", "L: fork { goto ^L; } join;",
        "fork { L: } join; goto ^L;", "fork { L: } par { goto ^L; } join;", "goto ^x;", "L: x = ^L;", "^P = 1;",
        "x = ^z; n = 1;", "goto ^M; n = 1;",
    ],
    "E04": [
        "L: ^L:", "L: fork { ^L: } join;", "fork { L: } par { if (i) { ^L: } } join;",
    ],
    "E05": [
        "x = ^i;", "b = ^a + 1;", "x = ^(i);", "x = ^a + i;", "b = ^not a;", "b = ^i < b;", "b = ^i == a;",
        "x = ^-i;", "x = ^i / 2;", "x = ^min(i, b);", "if (^a) { }", "b = ^i and 1;", "x = ^i; n = 1;",
    ],
    "E06": [
        "^n = 1;", "^n = i;", "^n = z;", "^n = 1; goto M;",
    ],
}


def marked_rows():
    for fault, texts in TEXTS.items():
        yield from ((fault, text) for text in texts)
    for fault, statements in STATEMENTS.items():
        yield from ((fault, HEAD + text + " }") for text in statements)


def deep(count, opening, inner, closing):
    return opening * count + inner + closing * count


def declared(count, role="local"):
    return "scl P { " + "".join(f"{role} int v{k}; " for k in range(count))


def with_limits():
    """Each limit: a text at it, and one past it with its fault."""
    yield None, HEAD + "x = " + deep(64, "(", "1", ")") + "; }"
    yield "E07", HEAD + "x = " + deep(64, "(", "^(1)", ")") + "; }"
    yield None, HEAD + "x = " + "-" * 63 + "1; }"
    yield "E07", HEAD + "x = ^" + "-" * 64 + "1; }"
    yield "E07", HEAD + "x = " + "-" * 64 + "^-1; }"
    yield None, HEAD + "b = " + deep(32, "not (", "i", ")") + "; }"
    yield "E07", HEAD + "b = " + deep(32, "not (", "^not i", ")") + "; }"
    yield None, HEAD + "x = " + deep(15, "min(", "2", ", 1)") + " + " + deep(15, "max(", "1", ", 3)") + "; }"
    yield "E07", HEAD + "x = " + deep(64, "(", "^min(1, 2)", ")") + "; }"
    yield "E07", HEAD + "x = " + deep(64, "(", "^max(1, 2)", ")") + "; }"
    yield "E02", HEAD + "x = " + deep(64, "(", "1 + ^not i", ")") + "; }"
    yield None, HEAD + "x = " + deep(63, "(", "min(1, 2)", ")") + "; }"
    yield None, HEAD + "x = " + deep(64, "(", "a / -2", ")") + "; }"
    yield None, HEAD + "if (" + deep(64, "(", "i", ")") + ") { } }"
    yield None, HEAD + deep(32, "if (i) { ", "pause;", "}") + " }"
    yield "E07", HEAD + deep(32, "if (i) { ", "^if (i) { }", "}") + " }"
    yield "E07", HEAD + deep(32, "if (i) { } else { ", "^if (i) { }", "}") + " }"
    yield None, HEAD + deep(32, "fork { ", "pause;", " } join;") + " }"
    yield "E07", HEAD + deep(32, "fork { ", "^fork { } join;", " } join;") + " }"
    yield None, HEAD + deep(32, "fork { } par { ", deep(32, "if (i) {", "x = 1;", "}"), " } join;") + " }"
    yield "E07", HEAD + "fork { } par { " + deep(32, "if (i) {", "^if (i) { }", "}") + " } join; }"
    yield None, declared(256) + "}"
    yield "E07", declared(256) + "local int ^w; }"
    yield "E04", declared(256) + "local int ^v7; }"
    yield None, declared(64, "output") + "}"
    yield "E07", declared(64, "output") + "local int w; output int ^z; }"
    yield None, HEAD + "fork { } " + "par { } " * 63 + "join; }"
    yield "E07", HEAD + "fork { } " + "par { } " * 63 + "^par { } par { } join; }"
    yield None, HEAD + "x = 1" + " + 1" * 30 + " + -1; }"
    yield "E07", HEAD + "x = ^1" + " + 1" * 32 + "; }"
    yield None, HEAD + "x = a" + " + a" * 15 + "; }"
    yield "E07", HEAD + "x = ^a" + " + a" * 16 + "; }"
    yield None, HEAD + "x = " + "1 + (" * 15 + "1" + ")" * 15 + "; }"
    yield "E07", HEAD + "x = ^" + "1 + (" * 16 + "1" + ")" * 16 + "; }"
    yield "E05", HEAD + "x = ^i" + " + a" * 16 + "; }"
    yield "E07", HEAD + "x = ^a" + " + a" * 16 + " + z; }"
    yield "E03", HEAD + "x = ^z" + " + a" * 16 + "; }"
    yield None, "scl " + "n" * 64 + " { local int " + "v" * 64 + "; " + "L" * 64 + ": }"
    yield None, HEAD + "x = 2147483647; x = a / -2147483647; }"
    yield None, "scl P { // \u00e9 \0\r\n}\r\t// the end"


def hostile(size):
    """Texts of some `size` bytes and more: (fault or None, text)."""
    yield "E07", HEAD + "x = " + "(" * 64 + "^" + "(" * size
    yield "E07", HEAD + "x = " + "-" * 64 + "^" + "-" * size
    yield "E07", HEAD + "x = ^a" + " + a" * size + "; }"
    yield "E02", HEAD + "x = a" + " + a" * size + " ^} "
    yield "E07", HEAD + "if (i) {" * 32 + "^" + "if (i) {" * size
    yield "E01", "^\0" + "\0" * size
    yield "E07", "scl ^" + "a" * size
    yield "E02", "//" + "/" * size + "^"
    yield None, "scl P { " + "\r\n" * size + "}"
    yield None, HEAD + "pause; " * size + "}"


PRINTED = [
    ("scl P{local int a;output int x;a=-(a+1)*x;if(x<a and not true){x=min(a,x);}pause;}",
     "scl P {\n  local int a;\n  output int x;\n  a = (-(a + 1)) * x;\n  if ((x < a) and (not true)) {\n"
     "    x = min(a, x);\n  }\n  pause;\n}\n"),
    ("scl P { output int x; x = min(x + 1, max(x, -x)); if (true) { } else { L: }\n"
     "if (x == 0) { x = x - 1 - 2 / 2 % -2; } else { } fork { } par { goto M; M: pause; } join; }",
     "scl P {\n  output int x;\n  x = min((x + 1), max(x, (-x)));\n  if (true) {\n  } else {\n    L:\n  }\n"
     "  if (x == 0) {\n    x = (x - 1) - ((2 / 2) % -2);\n  }\n"
     "  fork {\n  } par {\n    goto M;\n    M:\n    pause;\n  } join;\n}\n"),
    ("scl _p { }", "scl _p {\n}\n"),
]


# a chain of 40 minus signs: parentheses around each would open more than 64, so it is printed with none
MINUS_SIGNS = HEAD + "x = " + "-" * 40 + "1; }"
MINUS_SIGNS_LINE = "  x = " + "-" * 40 + "1;\n"


# ---- random texts

class Writer:
    """A random program, its text in a random layout, and what it is printed as."""

    def __init__(self, seed):
        self.random = random.Random(seed)
        r = self.random
        kinds = [(r.choice(["input", "output", "local"]), r.choice(["bool", "int"])) for _ in range(r.randrange(5))]
        self.variables = [Variable(f"{r.choice('xyz_A')}{k}", role, kind)
                          for k, (role, kind) in enumerate(kinds + [("output", "int"), ("local", "bool")])]
        self.labels, self.left = 0, r.choice([3, 10, 30])
        self.body = self.thread(r.randrange(4))

    def expression(self, kind, size):
        r = self.random
        of = [x for x, v in enumerate(self.variables) if v.kind == kind]
        if size <= 1 or r.random() < 0.1:
            literal = r.random() < 0.5 if kind == "bool" else r.choice([0, 1, 9, 10, 2147483647])
            return ("load", r.choice(of)) if r.random() < 0.5 else ("value", literal)
        half = r.randrange(size)
        if kind == "int":
            which = r.randrange(9)
            if which < 2:
                return ("negate", self.expression("int", size - 1))
            if which < 4:
                divisor = r.choice([1, 2, -1, 2147483647, -2147483647])
                return (r.choice(["divide", "remainder"]), self.expression("int", size - 1), divisor)
            name = ["add", "subtract", "multiply", "min", "max"][which - 4]
            return (name, self.expression("int", half), self.expression("int", size - half))
        which = r.randrange(10)
        if which < 2:
            return ("not", self.expression("bool", size - 1))
        name = ["and", "or", "equal", "not equal", "less", "less or equal", "greater", "greater or equal"][which - 2]
        kind = "bool" if name in ("and", "or") or (name in ("equal", "not equal") and r.random() < 0.5) else "int"
        return (name, self.expression(kind, half), self.expression(kind, size - half))

    def thread(self, depth):
        names = [f"L{self.labels + k}" for k in range(self.random.randrange(3))]
        self.labels += len(names)
        body = self.statements(depth, names)
        return body + [("label", name) for name in names]

    def statements(self, depth, names):
        r, made = self.random, []
        for _ in range(r.randrange(5)):
            if self.left <= 0:
                break
            self.left -= 1
            which = r.randrange(8)
            if which < 3:
                x = r.choice([x for x, v in enumerate(self.variables) if v.role != "input"])
                made.append(("set", x, self.expression(self.variables[x].kind, r.choice([1, 2, 3, 8]))))
            elif which == 3:
                made.append(["pause"])
            elif which == 4 and names:
                made.append(("goto", r.choice(names)))
            elif which == 5 and depth:
                made.append(("fork", [self.thread(depth - 1) for _ in range(r.randrange(1, 4))]))
            elif depth:
                made.append(("if", self.expression("bool", r.choice([1, 3, 6])), self.statements(depth - 1, names),
                             self.statements(depth - 1, names) if r.random() < 0.5 else []))
        return made

    def printed(self):
        return text_of(self.body, "P", self.variables)

    def laid_out(self):
        return laid_out(self.printed(), self.random)


def laid_out(text, r, more=()):
    """A text with other white space and comments, and with more that stands for white space."""
    made, behind = [], ""
    for _, value, _ in tokens(text.encode())[:-1]:
        word = str(value)
        joins = behind and (behind[-1].isalnum() or behind[-1] == "_") and (word[0].isalnum() or word[0] == "_")
        joins = joins or (behind + word)[:2] in ("==", "!=", "<=", ">=", "->", "//")
        blanks = [" ", "  ", "\n", "\t", "\r\n", " // \u00e9 $\n", *more] + (["// c\n"] if behind != "/" else [])
        made.append(r.choice(blanks) if joins or r.random() < 0.3 else "")
        made.append(word)
        behind = word
    return "".join(made)


VOCABULARY = ("scl chart input output local bool int if else goto fork par join pause true false not and or min max { "
              "} ( ) ; : , = == != < <= > >= + - * / % -> x0 y1 L0 z 0 1 2147483647 2147483648 007 $ ! "
              "\0 // \u00e9").split(" ")


def changed(text, r, vocabulary=VOCABULARY):
    """The text with a few of its tokens or bytes dropped, doubled, put in or replaced."""
    try:
        words = [str(value) for _, value, _ in tokens(text.encode())[:-1]]
    except Fault:
        words = text.split()
    for _ in range(r.choice([1, 1, 1, 2, 5])):
        at = r.randrange(len(words) + 1)
        which = r.randrange(4)
        if which == 0:
            words.insert(at, r.choice(vocabulary))
        elif words:
            at = min(at, len(words) - 1)
            if which == 1:
                del words[at]
            elif which == 2:
                words[at] = r.choice(vocabulary)
            else:
                words.insert(at, words[r.randrange(len(words))])
    return r.choice([" ", " ", "\n"]).join(words)


def random_texts(seed):
    """A printed text, the same laid out otherwise, and some texts with something changed."""
    writer = Writer(seed)
    texts = [writer.printed(), writer.laid_out()]
    return texts + [changed(text, writer.random) for text in texts for _ in range(3)]


# ---- a reader by the grammar alone (Earley's): after which tokens some text goes on. It knows no limit

RULES = {
    "program": [["scl", NAME, "{", "declarations", "statements", "}", END]],
    "declarations": [[], ["declarations", "role", "kind", NAME, ";"]],
    "role": [["input"], ["output"], ["local"]],
    "kind": [["bool"], ["int"]],
    "statements": [[], ["statements", "statement"]],
    "statement": [[NAME, "=", "expr", ";"], [NAME, ":"], ["goto", NAME, ";"], ["pause", ";"],
                  ["if", "(", "expr", ")", "block"], ["if", "(", "expr", ")", "block", "else", "block"],
                  ["fork", "block", "branches", "join", ";"]],
    "block": [["{", "statements", "}"]],
    "branches": [[], ["branches", "par", "block"]],
    "expr": [["conjunction"], ["expr", "or", "conjunction"]],
    "conjunction": [["negation"], ["conjunction", "and", "negation"]],
    "negation": [["not", "negation"], ["comparison"]],
    "comparison": [["sum"], ["sum", "test", "sum"]],
    "test": [["=="], ["!="], ["<"], ["<="], [">"], [">="]],
    "sum": [["product"], ["sum", "+", "product"], ["sum", "-", "product"]],
    "product": [["unary"], ["product", "*", "unary"], ["product", "/", "divisor"], ["product", "%", "divisor"]],
    "divisor": [["above zero"], ["-", "above zero"]],
    "unary": [["-", "unary"], ["atom"]],
    "atom": [["zero"], ["above zero"], ["true"], ["false"], [NAME], ["(", "expr", ")"],
             ["function", "(", "expr", ",", "expr", ")"]],
    "function": [["min"], ["max"]],
}


def first_stop(text, rules=RULES, is_chart=False):
    """The place of the first token with which no text goes on, or None. The first rule has one form."""
    first = next(iter(rules))
    states = [{(first, tuple(rules[first][0]), 0, 0)}]
    for at, (kind, value, place) in enumerate(tokens(text, is_chart)):
        word = ("zero" if value == 0 else "above zero") if kind == NUMBER else kind
        here, todo = states[at], list(states[at])
        while todo:
            name, right, dot, start = todo.pop()
            if dot == len(right):
                new = [(n, r, d + 1, s) for n, r, d, s in states[start] if d < len(r) and r[d] == name]
            elif right[dot] in rules:
                new = [(right[dot], tuple(r), 0, at) for r in rules[right[dot]]]
                # what may be empty, and was told to be so before
                new += [(name, right, dot + 1, start)] if [] in rules[right[dot]] else []
            else:
                new = []
            todo += [s for s in new if s not in here]
            here.update(new)
        states.append({(n, r, d + 1, s) for n, r, d, s in here if d < len(r) and r[d] == word})
        if not states[-1]:
            return place
    return None


# ---- the self-check

def told(text):
    """What reader.py says of a text: its fault, or its printed form."""
    try:
        program = read(text)
    except Fault as fault:
        return str(fault)
    return text_of(program.body, program.name, program.variables)


def wanted_of(fault, marked):
    """A marked text's bytes, and its fault with the place of the mark."""
    if fault is None:
        return marked.encode(), None
    front, _, behind = marked.partition("^")
    return (front + behind).encode(), f"{fault} at {len(front.encode())}"


def check_rows():
    """Returns how many rows there are, and what is wrong of them."""
    wrong, count = [], 0
    for fault, marked in [*marked_rows(), *with_limits(), *hostile(20000)]:
        text, wanted = wanted_of(fault, marked)
        got = told(text)
        count += 1
        if got != wanted and not (wanted is None and got.startswith("scl ")):
            wrong.append(f"{text[:200]!r}: {got[:60]!r} and not {wanted}")
    printed = told(MINUS_SIGNS.encode())
    count += 1
    if MINUS_SIGNS_LINE not in printed or told(printed.encode()) != printed:
        wrong.append(f"40 minus signs: {printed!r}, {told(printed.encode())!r}")
    for text, wanted in PRINTED:
        count += 1
        if told(text.encode()) != wanted:
            wrong.append(f"{text!r}: {told(text.encode())!r}")
    return count, wrong


def check_random(seed):
    """Returns what is wrong of the texts of this number."""
    writer, wrong = Writer(seed), []
    printed = writer.printed()
    # what is printed reads back, and prints itself
    for text in (printed, writer.laid_out()):
        got = told(text.encode())
        # only an expression can be too large
        if got != printed and not got.startswith("E07"):
            wrong.append(f"{text!r}: {got!r}")
    for text in random_texts(seed):
        wrong += wrong_stop(text, told(text.encode()))
    return wrong


def wrong_stop(text, got, rules=RULES, is_chart=False):
    """What is said of a text that is told to stop where the grammar does not stop it, in a list; an empty one of any other."""
    try:
        stop = first_stop(text.encode(), rules, is_chart)
    except Fault:
        stop = None
    # the first pass has its own faults, and nesting stops a text before its end
    differs = got != f"E02 at {stop}" if got.startswith("E02") else stop is not None
    return [f"{text!r}: {got!r}, and by the grammar {stop}"] if differs and not got.startswith(("E01", "E07")) else []
