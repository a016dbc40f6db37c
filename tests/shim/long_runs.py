"""Long runs: inputs that come round again after some ticks, and a run over them with its peak of memory."""
import contextlib
import os
import re
import subprocess
import threading

# the seconds that a run may take
LIMIT = 600
# how many KiB a run of all ticks may take beyond one of a few
GROWTH = 512
TICK = re.compile(rb'"tick":\d+')
# by program: a round of lines after which it is where it was after the line before the round
ROUNDS = {
    "abro": [b'{"A":true}', b'{"B":true}', b'{"R":true}', b'{"A":true}', b'{"A":true,"B":true,"R":true}', b'{"A":true,"B":true}',
             b'{"R":true}'],
    "debouncer": [b'{"contact":true}'] * 5 + [b"{}"] * 5 + [b'{"contact":true}', b"{}"],
    "packing": [b'{"left":true,"right":true}'] * 6 + [b'{"left":true}', b'{"right":true}', b"{}"] * 6,
}


def lines_of(name, ticks):
    """So many lines for this program: one without inputs, and rounds behind it."""
    turns = ROUNDS[name]
    lines = [b"{}", *turns * (ticks // len(turns) + 1)]
    return b"".join(line + b"\n" for line in lines[:ticks])


def comes_round(trace, size, ticks):
    """Whether there is a line for each tick, with its number, and each round is as the second one."""
    lines = trace.splitlines()
    if len(lines) != ticks or any(not line.endswith(b'"tick":%d}' % n) for n, line in enumerate(lines, 1)):
        return False
    bare = [TICK.sub(b"", line) for line in lines[1:]]
    wanted = bare[size:2 * size]
    return all(bare[at:at + size] == wanted[:len(bare) - at] for at in range(size, len(bare), size))


def peak_of(process):
    """The peak of memory of a process that runs, in KiB."""
    with open(f"/proc/{process}/status", encoding="ascii") as file:
        found = re.search(r"VmHWM:\s*(\d+) kB", file.read())
    return int(found[1]) if found else 0


class Ended:
    """A run over lines: its status, its trace, its errors, its peak of memory in KiB and its seconds of processor time.
    The peak is read while the program waits for more lines: what the system tells of a process that has ended is never
    less than what the one had that started it. A run that takes longer than the limit is killed."""

    def __init__(self, program, words, room, lines):
        process = subprocess.Popen([program, *words], cwd=room, stdin=subprocess.PIPE, stdout=subprocess.PIPE,
                                   stderr=subprocess.PIPE)
        guard = threading.Timer(LIMIT, process.kill)
        guard.start()
        feeder = threading.Thread(target=self.feed, args=(process.stdin, lines))
        feeder.start()
        parts, left = [], lines.count(b"\n")
        while left > 0 and (part := process.stdout.read1(1 << 20)):
            parts.append(part)
            left -= part.count(b"\n")
        self.peak = peak_of(process.pid)
        feeder.join()
        with contextlib.suppress(BrokenPipeError):
            process.stdin.close()
        self.trace = b"".join(parts) + process.stdout.read()
        self.errors = process.stderr.read()
        process.stdout.close()
        process.stderr.close()
        _, status, used = os.wait4(process.pid, 0)
        guard.cancel()
        process.returncode = self.status = os.waitstatus_to_exitcode(status)
        self.seconds = used.ru_utime + used.ru_stime

    @staticmethod
    def feed(stream, lines):
        with contextlib.suppress(BrokenPipeError):
            stream.write(lines)
            stream.flush()

    def is_good(self):
        return self.status == 0 and self.errors == b""
