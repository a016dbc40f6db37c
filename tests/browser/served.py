"""What tests/page starts and asks: tools/play as a child, the program itself, and raw requests."""
import http.client
import json
import os
import random
import signal
import socket
import subprocess
import sys

TOP = os.path.dirname(os.path.dirname(os.path.dirname(os.path.realpath(__file__))))
PLAY = os.path.join(TOP, "tools", "play")
sys.path.insert(0, os.path.join(TOP, "tests", "plain"))
from chart_machine import ChartMachine  # noqa: E402
from chart_reader import read_chart  # noqa: E402
from extended import ExtendedMachine, read_extended  # noqa: E402
from flaws import begins_extended  # noqa: E402
from modules import without_modules  # noqa: E402
from reader import END, tokens  # noqa: E402


def text_of(*parts):
    with open(os.path.join(TOP, *parts), encoding="utf-8") as file:
        return file.read()


def lines_of(text):
    return text.splitlines()


class Served:
    """tools/play over a program, with a folder of its own for what is written on the way."""

    def __init__(self, program, room, *words):
        environment = {**os.environ, "TMPDIR": room}
        self.process = subprocess.Popen([PLAY, "--stay", "--port", "0", "--program", program, *words], env=environment,
                                        stdout=subprocess.PIPE, stderr=subprocess.DEVNULL, text=True)
        self.address = self.process.stdout.readline().removeprefix("play: ").strip()
        self.host, _, self.token = self.address.removeprefix("http://").rstrip("/").partition("/")
        self.port = int(self.host.split(":")[1])

    def __enter__(self):
        return self

    def __exit__(self, *_):
        self.stop()

    def stop(self):
        if self.process.poll() is None:
            self.process.send_signal(signal.SIGINT)
            self.process.wait(120)

    def ask(self, method, path, body=None, **headers):
        """The status and the body of the answer; headers of the name None are left out."""
        wanted = {"Host": self.host}
        if method == "POST":
            wanted.update({"Origin": f"http://{self.host}", "Content-Type": "application/json", "Content-Length": str(len(body or b""))})
        wanted.update({name.replace("_", "-"): value for name, value in headers.items()})
        connection = http.client.HTTPConnection("127.0.0.1", self.port, timeout=240)
        try:
            connection.putrequest(method, path, skip_host=True, skip_accept_encoding=True)
            for name, value in wanted.items():
                if value is not None:
                    connection.putheader(name, value)
            connection.endheaders(body)
            answer = connection.getresponse()
            return answer.status, answer.read()
        finally:
            connection.close()

    def question(self, name, asked, **headers):
        status, body = self.ask("POST", f"/{self.token}/{name}", json.dumps(asked).encode(), **headers)
        return status, json.loads(body)

    def raw(self, data):
        """What comes back for these bytes, until the server closes."""
        with socket.create_connection(("127.0.0.1", self.port), timeout=240) as one:
            one.sendall(data)
            one.shutdown(socket.SHUT_WR)
            pieces = []
            while piece := one.recv(65536):
                pieces.append(piece)
            return b"".join(pieces)


class Program:
    """The program called as its users call it."""

    def __init__(self, path, room):
        self.path, self.room = path, room

    def call(self, *words, lines=""):
        done = subprocess.run([self.path, *words], input=lines, capture_output=True, text=True, cwd=self.room, timeout=120, check=False)
        return done.returncode, done.stdout, done.stderr

    def write(self, name, text):
        with open(os.path.join(self.room, name), "w", encoding="utf-8") as file:
            file.write(text)
        return name

    def image(self, text):
        self.write("text", text)
        self.call("compile", "text", "image")
        with open(os.path.join(self.room, "image"), "rb") as file:
            return file.read()

    def trace(self, text, ticks):
        """The lines that `run` prints over these ticks."""
        self.image(text)
        return lines_of(self.call("run", "image", lines="".join(line + "\n" for line in ticks))[1])


def machine_of(text):
    """The machine of tests/plain for a chart or an extended chart."""
    data, seed = text.encode(), random.Random(7)
    return ExtendedMachine(read_extended(data), seed) if begins_extended(data) else ChartMachine(read_chart(data), seed)


def active_after(text, ticks, roles=("local",)):
    """The names of the active states after each tick, in the order of the text, with the variables of these roles, by that machine."""
    machine = machine_of(text)
    told = []
    for line in ticks:
        machine.tick(json.loads(line))
        active = machine.active()
        shown = {v.name: machine.values[x] for x, v in enumerate(machine.chart.variables) if v.role in roles}
        told.append(([path for state, path in paths(machine.chart.regions) if state in active], shown))
    return told


def words_of(text):
    """The words and signs of an extended chart, where each use of a module stands for its regions."""
    return [value for kind, value, _ in without_modules(tokens(text.encode(), is_chart=True, is_extended=True)) if kind != END]


def paths(regions, above=""):
    for region in regions:
        for state in region.states:
            path = f"{above}{region.name}.{state.name}"
            yield state, path
            yield from paths(state.regions, path + "/")


def large_chart(regions=10, states=20):
    """A chart of so many states, with a superstate in each region."""
    lines = ["chart Large {", "  input bool go_on;", "  input int level;"]
    lines += [f"  output int n{r};" for r in range(regions)]
    for r in range(regions):
        lines.append(f"  region R{r} {{")
        for s in range(states - 2):
            head = "initial state" if s == 0 else "state"
            target = (s + 1) % (states - 2)
            body = f"go if go_on and level > {s} do n{r} = n{r} + {s} -> S{target}; go if level < 0 - {s} -> S{s // 2};"
            if s == 7:
                body = f"region In {{ initial state A {{ go if go_on -> B; }} final state B; }} strong if level == {s} -> S0; join -> S{target};"
            lines.append(f"    {head} S{s} {{ {body} }}")
        lines.append("  }")
    return "\n".join(lines + ["}"]) + "\n"
