"""Images that are written row by row, and bytes that are changed, for the cases of tests/cases."""
import re
import struct

from images import COMBINATIONS, KINDS, OPERATIONS, ROLES, TAGS

WORDS = {"neg": "negate", "not": "not", "+": "add", "-": "subtract", "*": "multiply", "min": "min", "max": "max", "and": "and",
         "or": "or", "==": "equal", "!=": "not equal", "<": "less", "<=": "less or equal", ">": "greater", ">=": "greater or equal"}


class BadRow(Exception):
    """A row that means nothing."""


def operation(word):
    if word in ("true", "false"):
        return struct.pack("<BB", 0, word == "true")
    if re.fullmatch(r"-?\d+", word):
        return struct.pack("<Bi", 1, int(word))
    if re.fullmatch(r"v\d+", word):
        return struct.pack("<BH", 2, int(word[1:]))
    if re.fullmatch(r"[/%]-?\d+", word):
        return struct.pack("<Bi", OPERATIONS["divide" if word[0] == "/" else "remainder"], int(word[1:]))
    if word not in WORDS:
        raise BadRow(f"{word} is no operation")
    return struct.pack("<B", OPERATIONS[WORDS[word]])


def code(text):
    """The bytes of a code."""
    words = []
    for word in text.split():
        times = re.fullmatch(r"(\d+)x(.+)", word)
        words += [times.group(2)] * int(times.group(1)) if times else [] if word == "nothing" else [word]
    return struct.pack("<B", len(words)) + b"".join(operation(word) for word in words)


def threads(words):
    for word in words.split():
        first, _, last = word.partition("..")
        yield from range(int(first), int(last or first) + 1)


def step(text):
    """The tag and the bytes of a step."""
    forms = [
        (r"exit", "exit", lambda: b""),
        (r"set (\d+) to (.+) -> (\d+)", "assign", lambda x, c, n: struct.pack("<HH", int(x), int(n)) + code(c)),
        (r"update (\d+) (\w+) (.+) -> (\d+)", "update",
         lambda x, f, c, n: struct.pack("<HBH", int(x), COMBINATIONS[f], int(n)) + code(c)),
        (r"if (.+) -> (\d+) else (\d+)", "cond", lambda c, n, m: struct.pack("<HH", int(n), int(m)) + code(c)),
        (r"fork ?(.*) join (\d+)", "fork",
         lambda t, n: struct.pack("<HB", int(n), len(list(threads(t)))) + b"".join(struct.pack("<H", c) for c in threads(t))),
        (r"join -> (\d+)", "join", lambda n: struct.pack("<H", int(n))),
        (r"pause -> (\d+)", "surf", lambda n: struct.pack("<H", int(n))),
        (r"resume -> (\d+)", "depth", lambda n: struct.pack("<H", int(n))),
    ]
    for form, tag, body in forms:
        match = re.fullmatch(form, text.strip())
        if match:
            return struct.pack("<B", TAGS[tag]) + body(*match.groups())
    raise BadRow(f"{text!r} is no step")


class Image:
    """The rows of an image, by their numbers."""

    def __init__(self, other=None):
        self.variables, self.threads, self.nodes, self.budget = {}, {}, {}, 0
        if other:
            self.budget = other.budget
            for own, its in (self.variables, other.variables), (self.threads, other.threads), (self.nodes, other.nodes):
                own.update({number: dict(row) for number, row in its.items()})

    def add(self, line):
        """Takes a whole row."""
        variable = re.fullmatch(r"variable (\d+) (\w+) (\w+) (\w+)", line)
        thread = re.fullmatch(r"thread (\d+) parent (-|\d+) entry (\d+) bound (\d+)", line)
        node = re.fullmatch(r"node (\d+) thread (\d+) priority (\d+) weight (\d+) (ends|stays): (.*)", line)
        budget = re.fullmatch(r"budget (\d+)", line)
        if variable:
            n, role, kind, name = variable.groups()
            self.variables[int(n)] = {"role": role, "kind": kind, "name": name}
        elif thread:
            n, parent, entry, bound = thread.groups()
            self.threads[int(n)] = {"parent": parent, "entry": int(entry), "bound": int(bound)}
        elif node:
            n, owner, priority, weight, ends, its = node.groups()
            self.nodes[int(n)] = {"owner": int(owner), "priority": int(priority), "weight": int(weight), "end": ends == "ends",
                                  "step": its}
        elif budget:
            self.budget = int(budget.group(1))
        else:
            raise BadRow(f"{line!r} is no row of an image")

    def change(self, line):
        """Takes a whole row, or another entry of one."""
        word, _, rest = line.strip().partition(" ")
        number, _, entry = rest.partition(" ")
        if word in ("step", "owner", "priority", "weight", "end"):
            row = self.nodes[int(number)]
            row[word] = entry if word == "step" else entry == "yes" if word == "end" else int(entry)
        elif word in ("parent", "entry", "bound"):
            self.threads[int(number)][word] = entry if word == "parent" else int(entry)
        elif word:
            self.add(line.strip())

    def bytes(self):
        parts = [b"SCCB\x02", struct.pack("<H", len(self.variables))]
        for _, row in sorted(self.variables.items()):
            name = row["name"].encode()
            parts.append(struct.pack("<BBB", ROLES[row["role"]], KINDS[row["kind"]], len(name)) + name)
        parts.append(struct.pack("<H", len(self.threads)))
        for _, row in sorted(self.threads.items()):
            parent = 65535 if row["parent"] == "-" else int(row["parent"])
            parts.append(struct.pack("<HHI", parent, row["entry"], row["bound"]))
        parts.append(struct.pack("<H", len(self.nodes)))
        for _, row in sorted(self.nodes.items()):
            parts.append(struct.pack("<HHHB", row["owner"], row["priority"], row["weight"], row["end"]) + step(row["step"]))
        return b"".join(parts) + struct.pack("<I", self.budget)


def changed_bytes(data, line):
    """Bytes with one change."""
    word, *rest = line.split()
    if word == "cut":
        return data[:int(rest[0])]
    if word == "behind":
        return data + bytes.fromhex("".join(rest))
    at = int(rest[0])
    if word == "put":
        new = bytes.fromhex("".join(rest[1:]))
        return data[:at] + new + data[at + len(new):]
    if word == "without":
        return data[:at] + data[at + 1:]
    if word == "before":
        return data[:at] + bytes.fromhex("".join(rest[1:])) + data[at:]
    raise BadRow(f"{line!r} changes nothing")
