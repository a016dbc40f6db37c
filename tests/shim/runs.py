"""Runs of the program under the shim (shim.c), and what they left.

A `Served` is the program with its words in a folder of its own, standing before its main: each run of it is a fork, so
that it is loaded once. A run has 60 seconds; one that takes longer ends by the signal 14.
"""
import os
import shutil
import signal
import struct
import subprocess
import sys
import tempfile
import time
from typing import NamedTuple

KINDS = ["memory", "thread", "input", "output", "errors", "open", "load", "store", "seek", "close", "rename", "unlink",
         "sync", "rights"]
FIELDS = struct.Struct(f"<{6 + 2 * len(KINDS)}q")
PLAN_BYTES = 512
HERE = os.path.dirname(os.path.realpath(__file__))
TOP = os.path.dirname(os.path.dirname(HERE))
FAST = "/dev/shm" if os.access("/dev/shm", os.W_OK) else None
# so many processes share a sweep
JOBS = int(os.environ.get("JOBS") or os.cpu_count())


def program_of(words):
    """The program that the first word names, or ./sct, built."""
    program = os.path.realpath(words[0]) if words else os.path.join(TOP, "crates", "sct", "out", "sct")
    if not words and subprocess.run([os.path.join(TOP, "sct"), "--help"], stdout=subprocess.DEVNULL, check=False).returncode:
        sys.exit("0 passed, 1 failed")
    return program


def new_room():
    return tempfile.mkdtemp(prefix="sct-", dir=FAST)


def built_shim(room):
    """Compiles the shim, and gives its file."""
    shim = os.path.join(room, "shim.so")
    compiler = os.environ.get("CC") or next((name for name in ("cc", "gcc", "clang") if shutil.which(name)), None)
    if compiler is None:
        sys.exit("there is no C compiler: set CC\n0 passed, 1 failed")
    subprocess.run([compiler, "-O2", "-shared", "-fPIC", "-o", shim, os.path.join(HERE, "shim.c"), "-ldl"], check=True)
    return shim


def takes_workers(program):
    """Whether `run` has the option --workers."""
    told = subprocess.run([program, "run", "--help"], capture_output=True, check=False).stdout
    return b"--workers" in told


class Left(NamedTuple):
    """What a run left: its status (negative: the signal that ended it), both streams, the files of its folder, and what
    the shim counted."""
    status: int
    output: bytes
    errors: bytes
    files: dict
    peak: int
    live: int
    started: int
    ended: int
    met: dict
    failed: dict

    def answer(self):
        return self.status, self.output, self.errors, self.files

    def is_clean(self, right):
        """Whether it left no thread, and no more memory than a run without a failure. For each stack of a thread the C
        library keeps a block, and whether a thread takes the stack of one that has ended hangs on their speed."""
        return self.started == self.ended and self.live <= right.live + self.started


class Room:
    """A folder, whose name is `room`, with files by their names in it."""

    def path(self, name):
        return os.path.join(self.room, name)

    def put(self, name, data):
        with open(self.path(name), "wb") as file:
            file.write(data)


class Served(Room):
    """The program with its words, in a folder of its own. Files of the folder are named in `files`, with their bytes;
    those named `input`, `output` and `errors` are the streams."""

    OWN = ("input", "output", "errors")

    def __init__(self, program, shim, words, files=None, lines=b""):
        self.room = new_room()
        self.words = words
        self.files = dict(files or {})
        self.put("input", lines)
        for name, data in self.files.items():
            self.put(name, data)
        told, answers = os.pipe(), os.pipe()
        environment = {**os.environ, "LD_PRELOAD": shim, "SHIM_SERVE": f"{told[0]} {answers[1]}"}
        self.process = subprocess.Popen([program, *words], cwd=self.room, env=environment,
                                        pass_fds=(told[0], answers[1]), stdin=subprocess.DEVNULL)
        os.close(told[0])
        os.close(answers[1])
        self.told, self.answers = told[1], answers[0]

    def __enter__(self):
        return self

    def __exit__(self, *_):
        os.close(self.told)
        self.process.wait()
        os.close(self.answers)
        shutil.rmtree(self.room)

    def get(self, name):
        with open(self.path(name), "rb") as file:
            return file.read()

    def found(self):
        """The files of the folder, with their bytes."""
        return {name: self.get(name) for name in os.listdir(self.room) if name not in self.OWN}

    def restore(self):
        """Makes the folder what it was."""
        found = self.found()
        for name in found.keys() - self.files.keys():
            os.remove(self.path(name))
        for name, data in self.files.items():
            if found.get(name) != data:
                self.put(name, data)

    def run(self, plan="", with_files=False):
        """One run by this plan. Its files are looked at, and put back, where asked for."""
        os.write(self.told, plan.encode().ljust(PLAN_BYTES, b"\0"))
        data = os.read(self.answers, FIELDS.size)
        if len(data) != FIELDS.size:
            raise SystemExit(f"the run of {self.words} by {plan!r} cannot be had: {self.process.wait()}\n0 passed, 1 failed")
        status, peak, live, started, joined, ended, *counts = FIELDS.unpack(data)
        found = self.found() if with_files else {}
        left = Left(os.waitstatus_to_exitcode(status), self.get("output"), self.get("errors"), found, peak, live, started,
                    max(joined, ended), dict(zip(KINDS, counts)), dict(zip(KINDS, counts[len(KINDS):])))
        if with_files:
            self.restore()
        return left


def shown(answer):
    """What a run answered, in one line."""
    status, output, errors, *_ = answer
    ended = f"signal {signal.Signals(-status).name}" if status < 0 else f"status {status}"
    return f"{ended}, output {output[-200:]!r}, errors {errors[:200]!r}"


class Tally:
    """What passed and what did not; each finding is told once, with how to see it again."""

    def __init__(self):
        self.passed, self.findings = 0, []

    def count(self, is_well, *finding):
        if is_well:
            self.passed += 1
        else:
            self.findings.append(": ".join(finding))

    def add(self, other):
        self.passed += other.passed
        self.findings += other.findings

    def told(self, most=40):
        for finding in self.findings[:most]:
            print("FAILED: " + finding)
        if len(self.findings) > most:
            print(f"FAILED: and {len(self.findings) - most} more")
        print(f"{self.passed} passed, {len(self.findings)} failed", flush=True)
        return 1 if self.findings else 0


class Progress:
    """Tells now and then how much of a part is done."""

    SECONDS = 20

    def __init__(self, part, whole, what):
        self.part, self.whole, self.what = part, whole, what
        self.done, self.findings, self.begun = 0, 0, time.time()
        self.told = self.begun

    def add(self, count, findings):
        self.done += count
        self.findings += findings
        now = time.time()
        if now - self.told >= self.SECONDS:
            self.told = now
            print(f"{self.part}: {self.done} of {self.whole} {self.what}, {self.findings} findings, "
                  f"{now - self.begun:.0f} s", flush=True)


def again(words, plan, program="crates/sct/out/sct"):
    """How to see a run again."""
    words = " ".join(word if word.isprintable() and " " not in word else repr(word) for word in words)
    return f"SHIM='{plan}' LD_PRELOAD=./shim.so {program} {words}" if plan else f"{program} {words}"
