"""A reader of SCL text, written from the grammar as plainly as possible, in three passes: tokens, grammar, rules. A
pass runs only where the one before found nothing, and each gives its fault of least position, then of least number.

A text is bytes. An expression is read into its postfix code, a list of ("value", v), ("load", name, place),
("unary", operator), ("divide", operator, divisor) and ("binary", operator), so that nothing here goes deeper than the
limits allow. What was read is a Program: statements and trees as programs.py has them, variables by their places."""
import functools
import re
import sys

from programs import Variable

# 32 forks with 32 ifs in each thread, a few calls for each
sys.setrecursionlimit(20000)

RESERVED = set("chart scl input output local bool int region initial final state go strong weak join immediate if else "
               "do goto fork par pause true false not and or min max".split())
PIECES = re.compile(rb"[ \t\r\n]+|//[^\n]*|[A-Za-z_][A-Za-z0-9_]*|[0-9]+|==|!=|<=|>=|->|[{}();:,=<>+\-*/%]")
# in extended charts a piece may be a comment that lies between two marks
BLOCK_PIECES = re.compile(rb"/\*(?s:.*?)\*/|(?!/\*)(?:" + PIECES.pattern + rb")")
NAME, NUMBER, END = "name", "number", "end"

VARIABLES, OUTPUTS, BRANCHES, NESTED, OPEN = 256, 64, 64, 32, 64
OPERATIONS, OPERANDS, LOADS = 64, 16, 16

BINARY = {"or": "or", "and": "and", "==": "equal", "!=": "not equal", "<": "less", "<=": "less or equal",
          ">": "greater", ">=": "greater or equal", "+": "add", "-": "subtract", "*": "multiply", "min": "min",
          "max": "max"}
DIVISIONS = {"/": "divide", "%": "remainder"}


class Fault(Exception):
    """E and its number, at a place."""

    def __init__(self, number, place):
        super().__init__(f"E{number:02} at {place}")
        self.number, self.place = number, place


class Program:
    def __init__(self, name, variables, body):
        self.name, self.variables, self.body = name, variables, body


# ---- the first pass

@functools.lru_cache(maxsize=4096)
def token(word, is_chart):
    """What a piece is: the number of a fault, None for what stands between tokens, or a token's kind and value."""
    if word.isspace() or word.startswith((b"//", b"/*")):
        return None
    if word.isdigit():
        if word[:1] == b"0" and len(word) > 1:
            return 1
        return 7 if len(word) > 10 or int(word) > 2147483647 else (NUMBER, int(word))
    name = word.decode()
    if is_chart and name.startswith("_"):
        return 1
    if not (name[0].isalpha() or name[0] == "_") or name in RESERVED:
        return name, name
    return 7 if len(name) > 64 else (NAME, name)


def tokens(text, is_chart=False, is_extended=False):
    """The tokens as (kind, value, place): kind is NAME, NUMBER, or the word or sign itself. The last one is END. In a
    chart no name begins with `_`."""
    found, at = [], 0
    while at < len(text):
        piece = (BLOCK_PIECES if is_extended else PIECES).match(text, at)
        if not piece:
            raise Fault(1, at)
        known = token(piece.group(), is_chart)
        if isinstance(known, int):
            raise Fault(known, at)
        if known:
            found.append((*known, at))
        at = piece.end()
    found.append((END, None, len(text)))
    return found


# ---- the second pass

class Grammar:
    """Reads the tokens of a text into a name, declarations and statements, in which names are not yet resolved."""

    def __init__(self, text):
        self.tokens, self.at = tokens(text), 0

    def ahead(self):
        return self.tokens[self.at][0]

    def place(self):
        return self.tokens[self.at][2]

    def take(self, *kinds):
        if self.ahead() not in kinds:
            raise Fault(2, self.place())
        self.at += 1
        return self.tokens[self.at - 1]

    def takes(self, *kinds):
        return self.take(*kinds) if self.ahead() in kinds else None

    def program(self):
        self.take("scl")
        name = self.take(NAME)[1]
        self.take("{")
        declarations = self.declarations()
        body = self.statements(NESTED, NESTED)
        self.take("}")
        self.take(END)
        return name, declarations, body

    def declarations(self):
        found = []
        while self.ahead() in ("input", "output", "local"):
            role = self.take("input", "output", "local")[0]
            kind = self.take("bool", "int")[0]
            found.append((role, kind, self.take(NAME)))
            self.take(";")
        return found

    def block(self, forks, ifs):
        self.take("{")
        body = self.statements(forks, ifs)
        self.take("}")
        return body

    def statements(self, forks, ifs):
        found = []
        while self.ahead() in (NAME, "goto", "pause", "if", "fork"):
            found.append(self.statement(forks, ifs))
        return found

    def statement(self, forks, ifs):
        kind, value, place = self.take(NAME, "goto", "pause", "if", "fork")
        if kind == NAME:
            if self.takes(":"):
                return ("label", value, place)
            if not self.takes("="):
                raise Fault(2, self.place())
            start = self.place()
            code = self.expression()
            self.take(";")
            return ("set", value, place, start, code)
        if kind == "goto":
            label = self.take(NAME)
            self.take(";")
            return ("goto", label[1], label[2])
        if kind == "pause":
            self.take(";")
            return ("pause",)
        if kind == "if":
            return self.choice(forks, ifs, place)
        return self.fork(forks, place)

    def choice(self, forks, ifs, place):
        if not ifs:
            raise Fault(7, place)
        self.take("(")
        start = self.place()
        code = self.expression()
        self.take(")")
        first = self.block(forks, ifs - 1)
        second = self.block(forks, ifs - 1) if self.takes("else") else []
        return ("if", start, code, first, second)

    def fork(self, forks, place):
        if not forks:
            raise Fault(7, place)
        branches = [(place, self.block(forks - 1, NESTED))]
        while self.ahead() == "par":
            word = self.take("par")
            branches.append((word[2], self.block(forks - 1, NESTED)))
        self.take("join")
        self.take(";")
        return ("fork", branches)

    # Of an expression each method puts its postfix code behind `code`, where so many more may be open.

    def expression(self):
        code = []
        self.disjunction(code, OPEN)
        return code

    def opened(self, left):
        """How many more may be open within the next token, which opens one."""
        if not left:
            raise Fault(7, self.place())
        return left - 1

    def chain(self, code, operand, left, *operators):
        operand(code, left)
        while self.ahead() in operators:
            operator = self.take(*operators)[0]
            operand(code, left)
            code.append(("binary", BINARY[operator]))

    def disjunction(self, code, left):
        self.chain(code, self.conjunction, left, "or")

    def conjunction(self, code, left):
        self.chain(code, self.negation, left, "and")

    def negation(self, code, left):
        if self.ahead() != "not":
            return self.comparison(code, left)
        inner = self.opened(left)
        self.take("not")
        self.negation(code, inner)
        code.append(("unary", "not"))

    def comparison(self, code, left):
        self.sum(code, left)
        operator = self.takes("==", "!=", "<", "<=", ">", ">=")
        if operator:
            self.sum(code, left)
            code.append(("binary", BINARY[operator[0]]))

    def sum(self, code, left):
        self.chain(code, self.product, left, "+", "-")

    def product(self, code, left):
        self.unary(code, left)
        while self.ahead() in ("*", "/", "%"):
            operator = self.take("*", "/", "%")[0]
            if operator == "*":
                self.unary(code, left)
                code.append(("binary", "multiply"))
            else:
                code.append(("divide", DIVISIONS[operator], self.divisor()))

    def divisor(self):
        sign = -1 if self.takes("-") else 1
        if self.tokens[self.at][1] == 0:
            raise Fault(2, self.place())
        return sign * self.take(NUMBER)[1]

    def unary(self, code, left):
        if self.ahead() != "-":
            return self.atom(code, left)
        inner = self.opened(left)
        self.take("-")
        self.unary(code, inner)
        code.append(("unary", "negate"))

    def atom(self, code, left):
        kind, value, place = self.tokens[self.at]
        if kind in ("(", "min", "max"):
            inner = self.opened(left)
            self.take(kind)
            if kind == "(":
                self.disjunction(code, inner)
            else:
                self.take("(")
                self.disjunction(code, inner)
                self.take(",")
                self.disjunction(code, inner)
                code.append(("binary", kind))
            self.take(")")
            return
        self.take(NAME, NUMBER, "true", "false")
        code.append(("load", value, place) if kind == NAME else ("value", value if kind == NUMBER else kind == "true"))


# ---- the third pass

def kind_of(code, kinds):
    """The kind of an expression, over the variables' kinds by name. None: it has none."""
    stack = []
    for operation in code:
        if operation[0] == "value":
            stack.append("bool" if isinstance(operation[1], bool) else "int")
        elif operation[0] == "load":
            stack.append(kinds[operation[1]])
        elif operation[0] == "binary":
            right, left = stack.pop(), stack.pop()
            stack.append(binary_kind(operation[1], left, right))
        else:
            wanted = "bool" if operation[1] == "not" else "int"
            stack.append(wanted if stack.pop() == wanted else None)
    return stack[0]


def binary_kind(operator, left, right):
    if left != right or left is None:
        return None
    if operator in ("equal", "not equal"):
        return "bool"
    if operator in ("and", "or"):
        return "bool" if left == "bool" else None
    if left == "bool":
        return None
    return "bool" if operator in ("less", "less or equal", "greater", "greater or equal") else "int"


def is_too_large(code):
    standing = most = 0
    for operation in code:
        standing += {"value": 1, "load": 1, "binary": -1}.get(operation[0], 0)
        most = max(most, standing)
    return len(code) > OPERATIONS or most > OPERANDS or sum(o[0] == "load" for o in code) > LOADS


class Rules:
    """All flaws of what a text spells, each as (place, number)."""

    def __init__(self, declarations):
        self.flaws, self.roles, self.kinds, self.labels = [], {}, {}, set()
        self.declare(declarations)

    def flaw(self, number, place):
        self.flaws.append((place, number))

    def declare(self, declarations):
        outputs = 0
        for count, (role, kind, (_, name, place)) in enumerate(declarations, 1):
            outputs += role == "output"
            if name in self.roles:
                self.flaw(4, place)
            if count > VARIABLES or (role == "output" and outputs > OUTPUTS):
                self.flaw(7, place)
            self.roles.setdefault(name, role)
            self.kinds.setdefault(name, kind)

    def thread(self, body):
        labels, gotos = set(), []
        self.statements(body, labels, gotos)
        for name, place in gotos:
            if name not in labels:
                self.flaw(3, place)

    def statements(self, body, labels, gotos):
        for s in body:
            if s[0] == "set":
                self.assignment(*s[1:])
            elif s[0] == "label":
                if s[1] in self.labels:
                    self.flaw(4, s[2])
                self.labels.add(s[1])
                labels.add(s[1])
            elif s[0] == "goto":
                gotos.append(s[1:])
            elif s[0] == "if":
                self.expression(s[2], s[1], "bool")
                self.statements(s[3], labels, gotos)
                self.statements(s[4], labels, gotos)
            elif s[0] == "fork":
                for count, (place, branch) in enumerate(s[1], 1):
                    if count > BRANCHES:
                        self.flaw(7, place)
                    self.thread(branch)

    def assignment(self, name, place, start, code):
        if name not in self.roles:
            self.flaw(3, place)
        elif self.roles[name] == "input":
            self.flaw(6, place)
        self.expression(code, start, self.kinds.get(name))

    def expression(self, code, start, wanted):
        """Of the kind that is wanted. None: what is assigned is unknown, and of the value no kind is told."""
        unknown = [o[2] for o in code if o[0] == "load" and o[1] not in self.kinds]
        for place in unknown:
            self.flaw(3, place)
        if is_too_large(code):
            self.flaw(7, start)
        if wanted and not unknown and kind_of(code, self.kinds) != wanted:
            self.flaw(5, start)


# ---- what a text spells that keeps the rules

def tree_of(code, places):
    stack = []
    for operation in code:
        if operation[0] == "value":
            stack.append(operation)
        elif operation[0] == "load":
            stack.append(("load", places[operation[1]]))
        elif operation[0] == "unary":
            stack.append((operation[1], stack.pop()))
        elif operation[0] == "divide":
            stack.append((operation[1], stack.pop(), operation[2]))
        else:
            right, left = stack.pop(), stack.pop()
            stack.append((operation[1], left, right))
    return stack[0]


def resolved(body, places):
    made = []
    for s in body:
        if s[0] == "set":
            made.append(("set", places[s[1]], tree_of(s[4], places)))
        elif s[0] in ("label", "goto"):
            made.append((s[0], s[1]))
        elif s[0] == "pause":
            made.append(["pause"])
        elif s[0] == "if":
            made.append(("if", tree_of(s[2], places), resolved(s[3], places), resolved(s[4], places)))
        else:
            made.append(("fork", [resolved(branch, places) for _, branch in s[1]]))
    return made


def tell_first(flaws):
    """Tells the flaw of least place, and there the one of least number."""
    if flaws:
        place, number = min(flaws)
        raise Fault(number, place)


def is_utf8(text):
    try:
        text.decode()
    except UnicodeDecodeError:
        return False
    return True


def draft_of(text):
    """What a text spells by the grammar, its name, its declarations and its statements, and the rules that were held against
    it, with all its flaws; or a Fault."""
    if not is_utf8(text):
        raise Fault(1, 0)
    name, declarations, body = Grammar(text).program()
    rules = Rules(declarations)
    rules.thread(body)
    return name, declarations, body, rules


def read(text):
    """The program that a text spells, or a Fault."""
    name, declarations, body, rules = draft_of(text)
    tell_first(rules.flaws)
    variables = [Variable(name, role, kind) for role, kind, (_, name, _) in declarations]
    return Program(name, variables, resolved(body, {v.name: x for x, v in enumerate(variables)}))
