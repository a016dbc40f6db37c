"""A plain reader of images, from docs/image.md: the fields from the left, and the first fault."""
import struct

from images import COMBINATIONS, KINDS, OPERATIONS, ROLES, TAGS
from programs import Node, Variable
from tables import Tables


def named(numbers):
    return {number: name for name, number in numbers.items()}


OPERATION_NAMES = named(OPERATIONS)
DIVIDE = OPERATIONS["divide"]
NAMED_ROLES, NAMED_KINDS, NAMED_TAGS, NAMED_COMBINATIONS = map(named, (ROLES, KINDS, TAGS, COMBINATIONS))
SIZES = {form: struct.calcsize(form) for form in "BHIi"}
FORMS = {form: struct.Struct("<" + form) for form in SIZES}


class Fault(Exception):
    """What is printed of bytes that are no image."""


class Fields:
    """The fields of some bytes. `tables` has where each entry of the tables stands, and in how many bytes. `known` has
    nodes of other bytes, by where they stand, with their bytes and the entries: where the same bytes stand there, the
    node is the same."""

    def __init__(self, data, known):
        self.data, self.at, self.tables, self.known = data, 0, [], known

    def take(self, count):
        if len(self.data) - self.at < count:
            raise Fault("E21")
        self.at += count
        return self.data[self.at - count:self.at]

    def number(self, form, is_good=lambda n: True):
        size = SIZES[form]
        number = FORMS[form].unpack(self.take(size))[0]
        if not is_good(number):
            raise Fault(f"E25 at {self.at - size}")
        return number

    def of(self, names):
        return names[self.number("B", names.__contains__)]

    def entry(self, kind, form, is_good=lambda n: True):
        """An entry of the tables."""
        self.tables.append((kind, self.at, SIZES[form]))
        return self.number(form, is_good)

    def name(self):
        size = self.number("B", lambda n: 1 <= n <= 64)
        name = self.take(size)
        first = name[:1].isalpha() or name[:1] == b"_"
        if not (first and name.isascii() and name.replace(b"_", b"a").isalnum()):
            raise Fault(f"E25 at {self.at - size}")
        return name.decode()

    def operation(self, version):
        most = DIVIDE - 1 if version == 1 else max(OPERATION_NAMES)
        sign = self.number("B", lambda n: n <= most)
        if sign == 0:
            return ("value", self.number("B", lambda n: n <= 1) == 1)
        if sign == 1:
            return ("value", self.number("i"))
        if sign == 2:
            return ("load", self.number("H"))
        if sign >= DIVIDE:
            return (OPERATION_NAMES[sign], self.number("i", lambda n: n != 0))
        return (OPERATION_NAMES[sign],)

    def code(self, version):
        return [self.operation(version) for _ in range(self.number("B", lambda n: n <= 64))]

    def node(self, version):
        """A node, with its priority, its weight and its end bit."""
        at, count = self.at, len(self.tables)
        if (version, at) in self.known:
            data, made, tables = self.known[version, at]
            if self.data.startswith(data, at):
                self.at += len(data)
                self.tables += tables
                return made
        made = self.new_node(version)
        self.known.setdefault((version, at), (self.data[at:self.at], made, self.tables[count:]))
        return made

    def new_node(self, version):
        owner, priority, weight = self.number("H"), self.entry("priority", "H"), self.entry("weight", "H")
        end = self.entry("end", "B", lambda n: n <= 1) == 1
        return self.step(version, owner), priority, weight, end

    def step(self, version, owner):
        kind = self.of(NAMED_TAGS)
        if kind == "assign":
            return Node(owner, kind, variable=self.number("H"), next=self.number("H"), ops=self.code(version))
        if kind == "update":
            return Node(owner, kind, variable=self.number("H"), combination=self.of(NAMED_COMBINATIONS),
                        next=self.number("H"), ops=self.code(version))
        if kind == "cond":
            return Node(owner, kind, then=self.number("H"), other=self.number("H"), ops=self.code(version))
        if kind == "fork":
            join, count = self.number("H"), self.number("B")
            return Node(owner, kind, join=join, children=[self.number("H") for _ in range(count)])
        if kind == "surf":
            return Node(owner, kind, depth=self.number("H"))
        return Node(owner, kind) if kind == "exit" else Node(owner, kind, next=self.number("H"))


class Image:
    """Variables, and as a graph has them `threads` (a parent or None, and an entry) and `nodes`; its tables."""

    def __init__(self, variables, threads, nodes, tables):
        self.variables, self.threads, self.nodes, self.tables = variables, threads, nodes, tables


class Empty:
    nodes, threads = [], []


def decode(data, known=None):
    """The image that the bytes spell, and where the entries of its tables stand; or a Fault is raised. Nodes that are
    `known` from other bytes are taken from there, and those that are not are noted."""
    fields = Fields(data, {} if known is None else known)
    if fields.take(4) != b"SCCB":
        raise Fault("E22")
    version = fields.take(1)[0]
    if version not in (1, 2):
        raise Fault("E23")
    variables = []
    for _ in range(fields.number("H")):
        role, kind = fields.of(NAMED_ROLES), fields.of(NAMED_KINDS)
        variables.append(Variable(fields.name(), role, kind))
    tables, threads, nodes = Tables(Empty), [], []
    for _ in range(fields.number("H")):
        parent, entry = fields.number("H"), fields.number("H")
        threads.append((None if parent == 65535 else parent, entry))
        tables.bounds.append(fields.entry("bound", "I"))
    for _ in range(fields.number("H")):
        node, priority, weight, end = fields.node(version)
        nodes.append(node)
        tables.priorities.append(priority)
        tables.weights.append(weight)
        tables.ends.append(end)
    tables.budget = fields.entry("budget", "I")
    if fields.at < len(data):
        raise Fault("E24")
    return Image(variables, threads, nodes, tables), fields.tables
