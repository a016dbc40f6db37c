"""A plain machine of images that steps any enabled thread, all runs of a tick, and an account of the acts of workers in one. The
machine looks for all that it needs anew at each step."""
import re
import subprocess

from decoder import decode
from machine import BINARY, quotient, wrap

WORDS = {None: "absent", "ended": "ended", "at": "at:", "waits": "waits:", "paused": "paused:"}


def value(operations, values):
    """The value of a code."""
    stack = []
    for name, *operand in operations:
        if name == "value":
            stack.append(operand[0])
        elif name == "load":
            stack.append(values[operand[0]])
        elif name == "negate":
            stack.append(wrap(-stack.pop()))
        elif name == "not":
            stack.append(not stack.pop())
        elif name == "divide":
            stack.append(wrap(quotient(stack.pop(), operand[0])))
        elif name == "remainder":
            top = stack.pop()
            stack.append(wrap(top - quotient(top, operand[0]) * operand[0]))
        else:
            right, left = stack.pop(), stack.pop()
            stack.append(BINARY[name](left, right))
    return stack[0]


class Machine:
    """Of an image, given as bytes, in a configuration: values, and of each thread None or a word with a node."""

    def __init__(self, data):
        self.image = decode(data)
        if isinstance(self.image, tuple):
            self.image = self.image[0]
        self.values = [False if v.kind == "bool" else 0 for v in self.image.variables]
        self.statuses = [None] * len(self.image.threads)
        self.priorities = self.image.tables.priorities

    def copied(self):
        other = object.__new__(Machine)
        other.image, other.priorities = self.image, self.priorities
        other.values, other.statuses = list(self.values), list(self.statuses)
        return other

    def begin(self, inputs):
        """The start of a tick."""
        for x, variable in enumerate(self.image.variables):
            if variable.role == "input":
                self.values[x] = inputs.get(variable.name, False if variable.kind == "bool" else 0)
        if self.statuses[0] is None:
            self.statuses[0] = ("at", self.image.threads[0][1])
        self.statuses = [("at", s[1]) if s and s[0] == "paused" else s for s in self.statuses]

    def children(self, join):
        return next(node.children for node in self.image.nodes if node.kind == "fork" and node.join == join)

    def turns(self):
        """Of each enabled thread the node at which it steps."""
        turns = {}
        for thread, status in enumerate(self.statuses):
            if status and (status[0] == "at" or status[0] == "waits"
                           and all(self.statuses[child] == ("ended",) for child in self.children(status[1]))):
                turns[thread] = status[1]
        return turns

    def leading(self):
        """The enabled threads of the greatest priority."""
        turns = self.turns()
        most = max((self.priorities[node] for node in turns.values()), default=0)
        return [thread for thread, node in turns.items() if self.priorities[node] == most]

    def step(self, thread):
        at = self.turns()[thread]
        node = self.image.nodes[at]
        following = None
        if node.kind == "assign":
            self.values[node.variable] = value(node.ops, self.values)
        elif node.kind == "update":
            self.values[node.variable] = BINARY[node.combination](self.values[node.variable], value(node.ops, self.values))
        elif node.kind == "cond":
            following = ("at", node.then if value(node.ops, self.values) else node.other)
        elif node.kind == "fork":
            for child in node.children:
                self.statuses[child] = ("at", self.image.threads[child][1])
            following = ("waits", node.join)
        elif node.kind == "join":
            for child in self.children(at):
                self.statuses[child] = None
        elif node.kind == "surf":
            following = ("paused", node.depth)
        elif node.kind == "exit":
            following = ("ended",)
        self.statuses[thread] = following or ("at", node.next)

    def after(self, run):
        other = self.copied()
        for thread in run:
            other.step(thread)
        return other

    def alone(self):
        """Where the tick ends."""
        other = self.copied()
        while leading := other.leading():
            other.step(leading[0])
        return other


def begun(data, number):
    """The start of the tick of this number, without inputs."""
    machine = Machine(data)
    machine.begin({})
    for _ in range(number):
        machine = machine.alone()
        machine.begin({})
    return machine


def every_run(machine, run=()):
    """All complete runs, admissible or not."""
    turns = machine.turns()
    if not turns:
        yield run
    for thread in turns:
        yield from every_run(machine.after([thread]), (*run, thread))


def word(it):
    return ("true" if it else "false") if isinstance(it, bool) else str(it)


def standing(status):
    return WORDS[status and status[0]] + (str(status[1]) if status and len(status) > 1 else "")


def shown(machine):
    """A configuration as it is told."""
    values = "".join(" " + word(v) for v in machine.values)
    return f"values{values}; stand{''.join(' ' + standing(s) for s in machine.statuses)}"


def answers_of(program, data, rows):
    """What the program answers to rows about an image."""
    text = "\n".join([f"image {data.hex(' ')}", *rows, ""])
    done = subprocess.run([program], input=text.encode(), capture_output=True, timeout=240)
    return [line.strip() for line in done.stdout.decode().split("\n") if line]


# what is looked at behind each act
LOOK = "look; open; ready 0; ready 1; ready 2"


class Account:
    """Of the ticks of an image: the open claims by thread, each as its worker and the commits before it, what was committed, and
    the plain machine beside it."""

    def __init__(self, data, random):
        self.machine, self.random = Machine(data), random

    def act(self, number):
        kind = self.random.randrange(8)
        if kind < 4 or number == 0:
            return f"claim {self.random.randrange(9)}"
        # a tick of these images gives some ten claims
        of = self.random.randrange(min(number, 10) + 1)
        return f"commit {of}" if kind < 7 else f"back {of}"

    def rows(self, inputs, events):
        """Four ticks, each second one with these inputs."""
        rows = []
        for number in range(4):
            acts = [self.act(at // 2) for at in range(events + 10 * number)]
            rows.append(f"tick {inputs if number % 2 else ''}: " + "".join(f"{act}; {LOOK}; " for act in acts))
        return rows

    def repaired(self, row, answer):
        """A tick in which acts on claims that were not given are acts on claims that were, as far as the answers tell."""
        given, _, acts = row.partition(":")
        acts = [act.strip() for act in acts.split(";") if act.strip()]
        count = 0
        for number, told in enumerate(part.strip() for part in re.sub("; stand", ", stand", answer).split(";")[:len(acts)]):
            if told == "no such claim":
                word = acts[number].split()[0]
                acts[number] = f"{word} {self.random.randrange(count)}" if count else f"claim {self.random.randrange(9)}"
            count += told.startswith("given ") and told != "given back"
        return f"{given}: " + "".join(f"{act}; " for act in acts)

    def wrong(self, row, answer):
        """What is wrong of a tick, or None. The machine stands at its end then."""
        given, _, acts = row[len("tick "):].partition(":")
        inputs = {name: text == "true" if text in ("true", "false") else int(text)
                  for name, _, text in (part.partition("=") for part in given.split())}
        self.machine.begin(inputs)
        end = self.machine.alone()
        self.open, self.given, self.committed = {}, [], []
        answers = [part.strip() for part in re.sub("; stand", ", stand", answer).split(";")]
        acts = [act.strip() for act in acts.split(";") if act.strip()]
        for number, (act, told) in enumerate(zip(acts, answers)):
            if not self.agrees(act, told):
                return f"act {number}, {act}: {told}"
        return self.wrong_end(answers[len(acts):], end)

    def wrong_end(self, answers, end):
        told, by, order = (answers + ["", "", ""])[:3]
        entries = [tuple(map(int, entry.split("/"))) for entry in order.split()[1:]]
        if entries[:len(self.committed)] != self.committed or any(w for _, w in entries[len(self.committed):]):
            return f"the history is {order}, and {self.committed} was committed"
        for thread, _ in entries[len(self.committed):]:
            if thread not in self.machine.leading():
                return f"thread {thread} does not lead in {order}"
            self.machine.step(thread)
        wanted = f"{len(entries)} steps {shown(end)}".replace("; stand", ", stand")
        if shown(self.machine) != shown(end) or told != wanted:
            return f"{told} and not {wanted}"
        counts = [sum(w == worker for _, w in entries) for worker in range(9)]
        return None if by == "by " + " ".join(map(str, counts)) else f"{by} and not {counts}"

    def agrees(self, act, told):
        kind, _, rest = act.partition(" ")
        if kind == "claim":
            return self.claimed(int(rest), told)
        if kind in ("commit", "back"):
            return self.brought(kind, int(rest), told)
        if kind == "ready":
            ready = [t for t, node in self.machine.turns().items() if self.machine.priorities[node] == int(rest) and t not in self.open]
            return sorted(map(int, told.split()[1:])) == ready
        if kind == "open":
            return told == "open" + "".join(f" {t}/{w}/{c}" for t, (w, c) in sorted(self.open.items()))
        over = "" if self.machine.turns() else " over"
        return told == f"{len(self.committed)} steps{over} {shown(self.machine)}".replace("; stand", ", stand")

    def claimed(self, worker, told):
        free = [thread for thread in self.machine.leading() if thread not in self.open]
        if not free:
            return told == ("none now" if self.open else "over")
        if told not in [f"given {thread}" for thread in free]:
            return False
        thread = int(told.split()[1])
        self.open[thread] = worker, len(self.committed)
        self.given.append((thread, worker, len(self.committed)))
        return True

    def brought(self, kind, number, told):
        if number >= len(self.given):
            return told == "no such claim"
        thread, worker, commits = self.given[number]
        if self.open.get(thread) != (worker, commits):
            return told == "stale"
        del self.open[thread]
        if kind == "back":
            return told == "given back"
        self.machine.step(thread)
        self.committed.append((thread, worker))
        return told == f"at {len(self.committed) - 1}"
