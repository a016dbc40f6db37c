"""Random SCL programs, their text, and their graphs by the numbering of the language: threads in textual order of
their branches, a branch before what is nested in it; nodes thread by thread, in textual order of the statements.

Expressions are tuples: ("value", v), ("load", x), (operator, e) and (operator, a, b), and ("divide", e, d) and
("remainder", e, d) with a divisor d. Statements: ("set", x, e), ("label", l), ("goto", l), ["pause"],
("if", e, body, body) and ("fork", [body, ..]). Variables are their places. A statement is known by its identity, so a
pause is a list: equal tuples may be one object."""
import random

COMBINATIONS = ["add", "multiply", "min", "max", "and", "or"]
COMPARISONS = ["less", "less or equal", "greater", "greater or equal"]
SIGNS = {"add": "+", "subtract": "-", "multiply": "*", "and": "and", "or": "or", "equal": "==", "not equal": "!=",
         "less": "<", "less or equal": "<=", "greater": ">", "greater or equal": ">=", "divide": "/", "remainder": "%"}


class Variable:
    def __init__(self, name, role, kind):
        self.name, self.role, self.kind = name, role, kind


VARIABLES = [Variable("A", "input", "bool"), Variable("B", "input", "bool"), Variable("I", "input", "int"),
             Variable("x", "output", "int"), Variable("y", "output", "int"), Variable("b", "output", "bool"),
             Variable("u", "local", "int"), Variable("v", "local", "int"), Variable("c", "local", "bool")]


class Generator:
    """Makes one random program."""

    def __init__(self, seed, size):
        self.random = random.Random(seed)
        self.left = size
        self.labels = 0
        # in an orderly program values flow from variables of smaller to those of greater places alone
        self.is_orderly = self.random.random() < 0.75
        self.below = len(VARIABLES)

    def written(self, kind):
        return self.random.choice([x for x, v in enumerate(VARIABLES) if v.kind == kind and v.role != "input"])

    def loaded(self, kind):
        fitting = [x for x, v in enumerate(VARIABLES) if v.kind == kind]
        return self.random.choice([x for x in fitting if x < self.below] or fitting[:1])

    def expression(self, kind, depth):
        r = self.random
        if depth == 0 or r.random() < 0.3:
            if r.random() < 0.5:
                return ("load", self.loaded(kind))
            if kind == "bool":
                return ("value", r.random() < 0.5)
            return ("value", r.choice([0, 1, 2, 3, 7, 100, 2147483647]))
        if kind == "bool":
            which = r.randrange(4)
            if which == 0:
                return ("not", self.expression("bool", depth - 1))
            if which == 1:
                return (r.choice(["and", "or"]), self.expression("bool", depth - 1), self.expression("bool", depth - 1))
            if which == 2:
                kind = r.choice(["bool", "int"])
                name = r.choice(["equal", "not equal"])
                return (name, self.expression(kind, depth - 1), self.expression(kind, depth - 1))
            return (r.choice(COMPARISONS), self.expression("int", depth - 1), self.expression("int", depth - 1))
        which = r.randrange(8)
        if which == 0:
            return ("negate", self.expression("int", depth - 1))
        if which == 1:
            name = r.choice(["divide", "remainder"])
            return (name, self.expression("int", depth - 1), r.choice([1, 2, 3, 10, -1, -2, -7]))
        return (r.choice(["add", "add", "subtract", "multiply", "min", "max"]), self.expression("int", depth - 1),
                self.expression("int", depth - 1))

    def assignment(self):
        r = self.random
        kind = r.choice(["int", "int", "bool"])
        x = self.written(kind)
        self.below = x if self.is_orderly else len(VARIABLES)
        if r.random() < 0.5:
            of_ints = ["add", "add", "min", "max", "multiply", "subtract"]
            combination = r.choice(of_ints if kind == "int" else ["and", "or"])
            return ("set", x, (combination, ("load", x), self.expression(kind, 1)))
        return ("set", x, self.expression(kind, r.randrange(3)))

    def condition(self, depth):
        self.below = 5 if self.is_orderly else len(VARIABLES)
        return self.expression("bool", depth)

    def body(self, depth):
        r = self.random
        statements = []
        for _ in range(r.randrange(1, 5)):
            if self.left <= 0:
                break
            self.left -= 1
            roll = r.random()
            if roll < 0.45 or depth == 0:
                statements.append(self.assignment())
            elif roll < 0.6:
                statements.append(["pause"])
            elif roll < 0.7:
                statements.append(("if", self.condition(2), self.body(depth - 1),
                                   self.body(depth - 1) if r.random() < 0.6 else []))
            elif roll < 0.93:
                statements.append(("fork", [self.body(depth - 1) for _ in range(r.choice([1, 2, 2, 2, 3]))]))
            else:
                label = f"L{self.labels}"
                self.labels += 1
                inner = self.body(depth - 1)
                statements += [("label", label), *inner]
                if r.random() < 0.85:
                    statements.append(["pause"])
                statements.append(("if", self.condition(1), [("goto", label)], []) if r.random() < 0.5
                                  else ("goto", label))
        return statements


def random_program(seed, size):
    generator = Generator(seed, size)
    return [("fork", [generator.body(3) for _ in range(generator.random.choice([2, 3, 4]))]), *generator.body(4)]


def is_enclosed(a, parent, each):
    """Whether an operand stands in parentheses: each operation does, or (not `each`) those that do not read without."""
    if a[0] in ("value", "load", "min", "max"):
        return False
    return each or not (a[0] == "negate" or (a[0] == "not" and parent in ("not", "and", "or")))


def most_open(e, each):
    """The most parentheses and prefix operators that are open at once in an expression as it is printed."""
    operands = [a for a in e[1:] if isinstance(a, tuple)]
    inside = max((most_open(a, each) + is_enclosed(a, e[0], each) for a in operands), default=0)
    return inside + (e[0] in ("negate", "not", "min", "max"))


def text_of_expression(e, variables=VARIABLES, each=None):
    """The text of an expression: each operand that is an operation in parentheses, unless a reader takes not so many."""
    if each is None:
        each = most_open(e, True) <= 64
    def operand(a):
        text = text_of_expression(a, variables, each)
        return f"({text})" if is_enclosed(a, e[0], each) else text
    name = e[0]
    if name == "value":
        return str(e[1]).lower() if isinstance(e[1], bool) else str(e[1])
    if name == "load":
        return variables[e[1]].name
    if name == "negate":
        return "-" + operand(e[1])
    if name == "not":
        return "not " + operand(e[1])
    if name in ("min", "max"):
        return f"{name}({operand(e[1])}, {operand(e[2])})"
    if name in ("divide", "remainder"):
        return f"{operand(e[1])} {SIGNS[name]} {e[2]}"
    return f"{operand(e[1])} {SIGNS[name]} {operand(e[2])}"


def text_of(body, name="P", variables=VARIABLES):
    """The text as `sct scl` prints it: one declaration or statement a line, two spaces for each level."""
    lines = [f"scl {name} {{"] + [f"  {v.role} {v.kind} {v.name};" for v in variables]

    def write(statements, level):
        space = "  " * level
        for s in statements:
            if s[0] == "set":
                lines.append(f"{space}{variables[s[1]].name} = {text_of_expression(s[2], variables)};")
            elif s[0] == "label":
                lines.append(f"{space}{s[1]}:")
            elif s[0] == "goto":
                lines.append(f"{space}goto {s[1]};")
            elif s[0] == "pause":
                lines.append(f"{space}pause;")
            elif s[0] == "if":
                lines.append(f"{space}if ({text_of_expression(s[1], variables)}) {{")
                write(s[2], level + 1)
                if s[3]:
                    lines.append(f"{space}}} else {{")
                    write(s[3], level + 1)
                lines.append(f"{space}}}")
            else:
                lines.append(f"{space}fork {{")
                for i, branch in enumerate(s[1]):
                    if i:
                        lines.append(f"{space}}} par {{")
                    write(branch, level + 1)
                lines.append(f"{space}}} join;")

    write(body, 1)
    return "\n".join(lines + ["}"]) + "\n"


def loads(e):
    """The variables that an expression loads, in the order of its postfix code."""
    if e[0] == "value":
        return []
    if e[0] == "load":
        return [e[1]]
    return [x for part in e[1:] if isinstance(part, tuple) for x in loads(part)]


class Node:
    def __init__(self, owner, kind, **parts):
        self.owner, self.kind = owner, kind
        self.__dict__.update(parts)


class Loop(Exception):
    """A goto leads through labels and gotos alone back to itself."""


class Graph:
    """The graph of a program: `threads` as pairs of parent and entry, and `nodes`."""

    def __init__(self, body):
        self.bodies, self.parents, self.children = [], [], {}
        self.nodes, self.ids, self.labels = [], {}, {}
        self.number_thread(body, None)
        for thread, statements in enumerate(self.bodies):
            self.number_nodes(statements, thread)
            self.ids["exit", thread] = self.add(Node(thread, "exit"))
        for thread, statements in enumerate(self.bodies):
            self.find_labels(statements, ("exit", thread))
        self.entries = [self.target(statements, 0, ("exit", thread)) for thread, statements in enumerate(self.bodies)]
        for thread, statements in enumerate(self.bodies):
            self.link(statements, ("exit", thread))
        self.threads = list(zip(self.parents, self.entries))

    def add(self, node):
        self.nodes.append(node)
        return len(self.nodes) - 1

    def number_thread(self, body, parent):
        number = len(self.bodies)
        self.bodies.append(body)
        self.parents.append(parent)
        self.number_branches(body, number)
        return number

    def number_branches(self, statements, thread):
        for s in statements:
            if s[0] == "if":
                self.number_branches(s[2], thread)
                self.number_branches(s[3], thread)
            elif s[0] == "fork":
                self.children[id(s)] = [self.number_thread(branch, thread) for branch in s[1]]

    def number_nodes(self, statements, thread):
        for s in statements:
            if s[0] == "set":
                self.ids[id(s)] = self.add(self.assignment(s[1], s[2], thread))
            elif s[0] == "pause":
                self.ids[id(s)] = self.add(Node(thread, "surf"))
                self.add(Node(thread, "depth"))
            elif s[0] == "if":
                self.ids[id(s)] = self.add(Node(thread, "cond", code=s[1]))
                self.number_nodes(s[2], thread)
                self.number_nodes(s[3], thread)
            elif s[0] == "fork":
                self.ids[id(s)] = self.add(Node(thread, "fork", children=self.children[id(s)]))
                self.add(Node(thread, "join"))

    @staticmethod
    def assignment(x, e, thread):
        if len(e) == 3 and e[0] in COMBINATIONS + ["subtract"] and e[1] == ("load", x) and x not in loads(e[2]):
            if e[0] == "subtract":
                return Node(thread, "update", variable=x, combination="add", code=("negate", e[2]))
            return Node(thread, "update", variable=x, combination=e[0], code=e[2])
        return Node(thread, "assign", variable=x, code=e)

    def find_labels(self, statements, after):
        for i, s in enumerate(statements):
            if s[0] == "label":
                self.labels[s[1]] = (statements, i, after)
            elif s[0] == "if":
                self.find_labels(s[2], (statements, i + 1, after))
                self.find_labels(s[3], (statements, i + 1, after))

    def target(self, statements, at, after):
        """The node at which a thread stands that comes to a place in a body."""
        hops = 0
        while True:
            hops += 1
            if hops > 10000:
                raise Loop()
            if at == len(statements):
                if after[0] == "exit":
                    return self.ids[after]
                statements, at, after = after
            elif statements[at][0] == "label":
                at += 1
            elif statements[at][0] == "goto":
                statements, at, after = self.labels[statements[at][1]]
            else:
                return self.ids[id(statements[at])]

    def link(self, statements, after):
        for i, s in enumerate(statements):
            if s[0] in ("label", "goto"):
                if s[0] == "goto":
                    self.target(statements, i, after)
                continue
            at = self.ids[id(s)]
            node = self.nodes[at]
            rest = (statements, i + 1, after)
            if s[0] == "set":
                node.next = self.target(*rest)
            elif s[0] == "pause":
                node.depth = at + 1
                self.nodes[at + 1].next = self.target(*rest)
            elif s[0] == "if":
                node.then, node.other = self.target(s[2], 0, rest), self.target(s[3], 0, rest)
                self.link(s[2], rest)
                self.link(s[3], rest)
            else:
                node.join = at + 1
                self.nodes[at + 1].next = self.target(*rest)
