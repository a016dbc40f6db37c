"""Streams and files that the system itself makes fail, and hostile uses of names and inputs. Each row is a run of the
program with what it has to leave."""
import os
import random
import resource
import shutil
import signal
import stat
import subprocess
import threading
import time

from cases import OLD, bytes_of, compiled
from runs import Room, new_room, shown

TRACE = b'{"out":{"x":1,"y":1},"steps":7,"tick":1}\n{"out":{"x":1,"y":1},"steps":0,"tick":2}\n'
FIRST = TRACE[:TRACE.index(b"\n") + 1]
SUMMARY = b"ok nodes=7 threads=3 budget=7\n"
TWO = b"scl P { output int x; output int y; fork { x = 1; } par { y = x; } join; }"
NOBODY = 65534


class Outside(Room):
    """A folder with an image and a text, and runs in it."""

    def __init__(self, program, tally):
        self.program, self.tally, self.told = program, tally, []
        self.room = new_room()
        self.image = bytes_of("examples", "two_threads.image")
        self.put("image", self.image)
        self.put("source", TWO)

    def get(self, name):
        """The bytes of a file; None where there is none."""
        if not os.path.exists(self.path(name)):
            return None
        with open(self.path(name), "rb") as file:
            return file.read()

    def call(self, words, **how):
        """A run with the streams as they are given; without one a pipe, or nothing to read."""
        how = {"stdin": subprocess.DEVNULL, "stdout": subprocess.PIPE, "stderr": subprocess.PIPE, **how}
        if "input" in how:
            del how["stdin"]
        try:
            done = subprocess.run([self.program, *words], cwd=self.room, timeout=60, check=False, **how)
        except subprocess.TimeoutExpired:
            return -signal.SIGALRM, b"", b""
        return done.returncode, done.stdout or b"", done.stderr or b""

    def expect(self, name, answer, *wanted):
        """Wanted are answers, of which one has to be given; and no file may be left beside one that was written."""
        names = os.listdir(self.room)
        beside = [n for n in names if ".new" in n]
        self.tally.count(answer in wanted and not beside, name, shown(answer), f"and not {shown(wanted[0])}",
                         f"files beside: {beside}")

    def refuses(self, name, words, line, output=b"", **how):
        self.expect(name, self.call(words, **how), (1, output, f"sct: {line}\n".encode()))


def closing(*numbers):
    """What a process does before it begins: these of its streams are closed."""
    def close():
        for number in numbers:
            os.close(number)
    return close


def bounding(kind, most):
    def bound():
        resource.setrlimit(kind, (most, resource.getrlimit(kind)[1]))
    return bound


def as_nobody():
    os.setgroups([])
    os.setgid(NOBODY)
    os.setuid(NOBODY)


def closed_streams(at):
    """Standard streams that are closed. Nothing that is written may go to a file that has taken their place."""
    run = ["run", "image"]
    at.expect("a closed input", at.call(run, preexec_fn=closing(0)), (1, b"", b"sct: E61\n"), (0, b"", b""))
    at.expect("a closed output", at.call(run, preexec_fn=closing(1), input=b"{}\n{}\n"), (1, b"", b"sct: E63\n"))
    at.expect("a closed stream of errors", at.call(["check", "nowhere"], preexec_fn=closing(2)), (1, b"", b""))
    at.expect("all streams closed", at.call(["check", "image"], preexec_fn=closing(0, 1, 2)), (1, b"", b""))
    for words in ["compile", "source", "new"], ["migrate", "image", "new"]:
        for numbers in (1,), (0, 1), (1, 2), (0, 1, 2):
            errors = b"" if 2 in numbers else b"sct: E63\n"
            answer = at.call(words, preexec_fn=closing(*numbers))
            at.expect(f"{words[0]} with {numbers} closed", answer, (1, b"", errors))
            at.tally.count(at.get("new") == at.image, f"the file of {words[0]} with {numbers} closed", repr(at.get("new")))
            os.remove(at.path("new"))


def streams_of_the_system(at):
    run, two = ["run", "image"], b"{}\n{}\n"
    with open("/dev/full", "wb") as full:
        for words in run, ["check", "image"], ["scl", "source"], ["compile", "source", "new"], ["--help"]:
            at.expect(f"{words[0]} into a full device", at.call(words, stdout=full, input=two), (1, b"", b"sct: E63\n"))
        at.expect("errors into a full device", at.call(["check", "nowhere"], stderr=full), (1, b"", b""))
    at.tally.count(at.get("new") == at.image, "a file whose summary could not be written", repr(at.get("new")))
    os.remove(at.path("new"))
    folder = os.open(at.room, os.O_RDONLY)
    at.refuses("a folder as the input", run, "E61", stdin=folder)
    os.close(folder)
    with open("/dev/zero", "rb") as zeros:
        at.refuses("an input without end and without lines", run, "E62 line 1", stdin=zeros)
    ends = os.pipe()
    os.set_blocking(ends[0], False)
    at.refuses("an input that would block", run, "E61", stdin=ends[0])
    os.close(ends[0])
    os.close(ends[1])
    ends = os.pipe()
    os.close(ends[0])
    at.refuses("an output that nobody reads", run, "E63", stdout=ends[1], input=two)
    os.close(ends[1])
    left = leaves_early(at)
    at.expect("a reader that leaves early", left, (1, FIRST, b"sct: E63\n"))
    at.expect("an input that comes by single bytes", by_bytes(at, b"{ }\r\n{} "), (0, TRACE, b""))
    at.expect("an input that comes while the program is stopped and let go on", by_bytes(at, two, True), (0, TRACE, b""))


def leaves_early(at):
    process = subprocess.Popen([at.program, "run", "image"], cwd=at.room, stdin=subprocess.PIPE, stdout=subprocess.PIPE,
                               stderr=subprocess.PIPE)

    def feed():
        try:
            for _ in range(20000):
                process.stdin.write(b"{}\n" * 10)
            process.stdin.close()
        except BrokenPipeError:
            pass
    feeder = threading.Thread(target=feed)
    feeder.start()
    line = process.stdout.readline()
    process.stdout.close()
    errors = process.stderr.read()
    status = process.wait(60)
    feeder.join()
    try:
        process.stdin.close()
    except BrokenPipeError:
        pass
    process.stderr.close()
    return status, line, errors


def by_bytes(at, data, is_stopped=False):
    process = subprocess.Popen([at.program, "run", "image"], cwd=at.room, stdin=subprocess.PIPE, stdout=subprocess.PIPE,
                               stderr=subprocess.PIPE)
    for byte in data:
        if is_stopped:
            process.send_signal(signal.SIGSTOP)
        process.stdin.write(bytes([byte]))
        process.stdin.flush()
        if is_stopped:
            process.send_signal(signal.SIGCONT)
        time.sleep(0.005)
    output, errors = process.communicate(timeout=60)
    return process.returncode, output, errors


def names(at):
    long = "n" * 5000
    deep = "/".join(["d" * 100] * 50)
    for name, word in ("a name of 5,000 bytes", long), ("a path of 5,000 bytes", deep), ("an empty name", ""):
        at.refuses(f"{name} to read", ["check", word], f"E64 {word}")
        at.refuses(f"{name} to write", ["compile", "source", word], f"E64 {word}")
    long_names(at)
    at.refuses("a name with a line feed", ["check", "two\nlines"], "E64 two?lines")
    at.refuses("a name with control characters", ["check", "a\x1b[2J\x7f\rb"], "E64 a?[2J??b")
    at.refuses("a name beyond ASCII", ["check", "n\u00e4her \u2028"], "E64 n\u00e4her \u2028")
    at.refuses("a folder to read", ["check", "."], "E64 .")
    os.mkdir(at.path("folder"))
    at.refuses("a folder to write", ["compile", "source", "folder"], "E64 folder")
    at.refuses("a file as a folder", ["compile", "source", "image/new"], "E64 image/new")
    at.refuses("a folder that is not there", ["migrate", "image", "nowhere/new"], "E64 nowhere/new")
    os.symlink("loop", at.path("loop"))
    at.refuses("a link to itself", ["check", "loop"], "E64 loop")
    at.tally.count(os.listdir(at.path("folder")) == [], "a folder that could not be written", str(os.listdir(at.path("folder"))))
    for name in one_file(at):
        at.refuses(f"an image onto itself as {name}", ["migrate", "image", name], f"E64 {name}")
        at.tally.count(at.get("image") == at.image, f"an image onto itself as {name}", "it was changed")
    answer = at.call(["check", *["image"] * 20000])
    at.tally.count(answer[0] == 2 and answer[1] == b"", "20,000 words", shown(answer))
    answer = at.call(["check", "x" * 100000, "y" * 100000])
    at.tally.count(answer[0] == 2 and answer[1] == b"", "words of 100,000 bytes", shown(answer))
    at.expect("no environment", at.call(["check", "image"], env={}), (0, SUMMARY, b""))


def one_file(at):
    """Names of the file `image`."""
    os.link(at.path("image"), at.path("hard"))
    os.symlink("image", at.path("soft"))
    os.symlink("soft", at.path("softer"))
    return ["image", "./image", at.path("image"), "hard", "soft", "softer"]


def long_names(at):
    """A file is written by way of one beside it, whose name is none too long where that of the file is not: 255 bytes."""
    for length in 249, 250, 255:
        answer = at.call(["migrate", "image", "n" * length])
        at.tally.count(answer == (0, SUMMARY, b"") and at.get("n" * length) == at.image, f"a name of {length} bytes",
                       shown(answer))
        if at.get("n" * length) is not None:
            os.remove(at.path("n" * length))
    at.refuses("a name of 256 bytes", ["migrate", "image", "n" * 256], "E64 " + "n" * 256)
    at.tally.count(not os.path.exists(at.path("n" * 256)), "a name of 256 bytes", "a file was made")


def targets(at):
    """What stands at the name that is written: links are followed, pipes written into, and rights are kept."""
    os.symlink("behind", at.path("before"))
    for words, state in ("a link to no file", None), ("a link to a file", OLD):
        if state is not None:
            at.put("behind", state)
        answer = at.call(["migrate", "image", "before"])
        at.tally.count(answer == (0, SUMMARY, b"") and at.get("behind") == at.image and os.path.islink(at.path("before")),
                       words, shown(answer))
    os.symlink("round", at.path("round"))
    at.refuses("a link to itself to write", ["migrate", "image", "round"], "E64 round")
    os.mkfifo(at.path("pipe"))
    reader = subprocess.Popen(["cat", "pipe"], cwd=at.room, stdout=subprocess.PIPE)
    answer = at.call(["migrate", "image", "pipe"])
    try:
        passed = reader.communicate(timeout=20)[0]
    except subprocess.TimeoutExpired:
        reader.kill()
        passed = reader.communicate()[0]
    at.tally.count(answer == (0, SUMMARY, b"") and passed == at.image and stat.S_ISFIFO(os.stat(at.path("pipe")).st_mode),
                   "a named pipe to write", shown(answer))
    for mode in 0o600, 0o640, 0o755, 0o444:
        at.put("rights", OLD)
        os.chmod(at.path("rights"), mode)
        answer = at.call(["migrate", "image", "rights"])
        kept = stat.S_IMODE(os.stat(at.path("rights")).st_mode)
        at.tally.count(answer == (0, SUMMARY, b"") and at.get("rights") == at.image and kept == mode,
                       f"a file of mode {mode:o}", f"{shown(answer)} {kept:o}")
        os.remove(at.path("rights"))
    with open(at.path("plain"), "wb") as plain:
        at.expect("the file that is standard output", at.call(["migrate", "image", "plain"], stdout=plain),
                  (1, b"", b"sct: E64 plain\n"))
    at.tally.count(at.get("plain") == b"", "the file that is standard output", "it was changed")
    left = [name for name in os.listdir(at.room) if ".new" in name]
    at.tally.count(left == [], "nothing is left beside", str(left))
    if os.getuid() == 0:
        owners(at)


def owners(at):
    """The owner of an old file, for root, and for a user who may not give a file away."""
    at.put("owned", OLD)
    os.chown(at.path("owned"), NOBODY, NOBODY)
    answer = at.call(["migrate", "image", "owned"])
    kept = os.stat(at.path("owned"))
    at.tally.count(answer == (0, SUMMARY, b"") and (kept.st_uid, kept.st_gid) == (NOBODY, NOBODY), "the owner of a file",
                   f"{shown(answer)} {kept.st_uid}:{kept.st_gid}")
    os.remove(at.path("owned"))
    os.mkdir(at.path("open"))
    os.chmod(at.room, 0o755)
    os.chmod(at.path("open"), 0o777)
    if at.call(["check", "image"], preexec_fn=as_nobody) != (0, SUMMARY, b""):
        return
    at.put("open/owned", OLD)
    os.chmod(at.path("open/owned"), 0o4755)
    answer = at.call(["migrate", "image", "open/owned"], preexec_fn=as_nobody)
    kept = os.stat(at.path("open/owned"))
    at.tally.count(answer == (0, SUMMARY, b"") and at.get("open/owned") == at.image
                   and (kept.st_uid, stat.S_IMODE(kept.st_mode)) == (NOBODY, 0o755), "a file of another owner",
                   f"{shown(answer)} {kept.st_uid} {kept.st_mode:o}")


def taken_names(at):
    """All names beside the file are taken: it is not written, and they stay."""
    others = [f"new.new{number}" for number in range(100)]
    for name in others:
        at.put(name, b"mine")
    answer = at.call(["compile", "source", "new"])
    kept = all(at.get(name) == b"mine" for name in others) and not os.path.exists(at.path("new"))
    for name in others:
        os.remove(at.path(name))
    at.expect("all names beside the file are taken", answer, (1, b"", b"sct: E64 new\n"))
    at.tally.count(kept, "files with the names beside the file", "one was changed")


def permissions(at):
    if os.getuid() != 0:
        at.told.append("permissions were not tried: only root can play a user who has none")
        return
    os.chmod(at.room, 0o755)
    at.put("secret", at.image)
    os.chmod(at.path("secret"), 0)
    if at.call(["check", "image"], preexec_fn=as_nobody) != (0, SUMMARY, b""):
        at.told.append("permissions were not tried: the program cannot be reached by another user")
        return
    at.refuses("a file without permission to read", ["check", "secret"], "E64 secret", preexec_fn=as_nobody)
    at.refuses("a folder without permission to write", ["compile", "source", "new"], "E64 new", preexec_fn=as_nobody)
    at.tally.count(not os.path.exists(at.path("new")), "a folder without permission", "a file was made")


def growing(at):
    """Files that grow while they are read, or have no end."""
    done = threading.Event()

    def grow():
        with open(at.path("growing"), "ab") as file:
            while not done.is_set() and file.tell() < 1 << 20:
                file.write(at.image)
                file.flush()
    at.put("growing", at.image)
    grower = threading.Thread(target=grow)
    grower.start()
    for turn in range(10):
        at.expect(f"an image that grows, turn {turn}", at.call(["check", "growing"]), (1, b"", b"sct: E24\n"),
                  (0, SUMMARY, b""))
    done.set()
    grower.join()
    os.remove(at.path("growing"))
    for words in ["check", "/dev/zero"], ["compile", "/dev/zero", "new"]:
        answer = at.call(words, preexec_fn=bounding(resource.RLIMIT_AS, 1 << 26))
        at.expect(f"{words[0]} of a file without end, in 64 MiB", answer, (1, b"", b"sct: E52\n"))
    os.mkfifo(at.path("queue"))
    feeder = threading.Thread(target=lambda: at.put("queue", at.image))
    feeder.start()
    at.expect("an image from a pipe", at.call(["check", "queue"]), (0, SUMMARY, b""))
    feeder.join()


def lines(at):
    run = ["run", "image"]
    for name, data, answer in (
            ("a line of 65,536 bytes", b"{}" + b" " * 65534 + b"\n{}", (0, TRACE, b"")),
            ("a line of 65,537 bytes", b"{}" + b" " * 65535 + b"\n{}", (1, b"", b"sct: E62 line 1\n")),
            ("a line of a million bytes", b"{}\n" + b"x" * 1000000, (1, FIRST, b"sct: E62 line 2\n")),
            ("65,000 brackets", b'{"A":' + b"[" * 65000, (1, b"", b"sct: E62 line 1\n")),
            ("200 brackets in an object", b'{"A":' + b"[" * 200 + b"]" * 200 + b"}", (1, b"", b"sct: E62 line 1\n")),
            ("an array", b"[]", (1, b"", b"sct: E62 line 1\n")), ("a byte 0xFF", b"\xff", (1, b"", b"sct: E62 line 1\n")),
            ("an empty line", b"\n", (1, b"", b"sct: E62 line 1\n")), ("a byte 0", b"{}\0\n", (1, b"", b"sct: E62 line 1\n")),
            ("a member that is no input", b'{}\n{"x":1}\n{}\n', (1, FIRST, b"sct: E51 line 2\n"))):
        at.expect(name, at.call(run, input=data), answer)


def killed(at):
    """A run that is killed in its midst leaves a beginning of its trace."""
    whole = TRACE + b"".join(TRACE[len(FIRST):].replace(b"2}", b"%d}" % n) for n in range(3, 200001))
    at.put("ticks", b"{}\n" * 200000)
    source = random.Random(1)
    for turn in range(10):
        with open(at.path("ticks"), "rb") as ticks, open(at.path("trace"), "wb") as trace:
            process = subprocess.Popen([at.program, "run", "image"], cwd=at.room, stdin=ticks, stdout=trace)
            time.sleep(source.random() * 0.2)
            process.kill()
            process.wait()
        at.tally.count(whole.startswith(at.get("trace")), f"a run that is killed, turn {turn}", at.get("trace")[-100:].decode())


def at_once(at):
    """Many compile to one file at once: it always has the whole bytes of one of them."""
    other = TWO.replace(b"x = 1;", b"x = 1; x = x + 2;")
    at.put("other", other)
    wanted = {at.image, compiled(at.program, other)}
    for turn in range(20):
        processes = [subprocess.Popen([at.program, "compile", name, "both"], cwd=at.room, stdout=subprocess.DEVNULL)
                     for name in ("source", "other") * 4]
        statuses = [process.wait(60) for process in processes]
        is_well = statuses == [0] * 8 and at.get("both") in wanted
        at.tally.count(is_well and not [n for n in os.listdir(at.room) if ".new" in n], f"eight at once, turn {turn}",
                       str(statuses))


def stack(at):
    """The deepest text and the widest image, in a small stack."""
    body = "x = " + "(" * 60 + "x" + ")" * 60 + " + 1;"
    for _ in range(16):
        body = "if (x > 0) { " * 32 + body + " }" * 32
        body = "fork { " + body + " } join;"
    at.put("deep", f"scl P {{ output int x; {body} }}".encode())
    right = at.call(["compile", "deep", "deepest"])
    least = None
    for most in 8192, 4096, 2048, 1024, 512, 256, 128, 64:
        if at.call(["compile", "deep", "deepest"], preexec_fn=bounding(resource.RLIMIT_STACK, most << 10)) != right:
            break
        least = most
    at.tally.count(right[0] == 0 and least is not None, "a deep text", shown(right))
    at.told.append(f"16 forks with 32 ifs each and 60 parentheses compile in a stack of {least} KiB")


def rows(program, tally):
    """Runs all rows, and gives what else is to be told."""
    at = Outside(program, tally)
    for part in closed_streams, streams_of_the_system, names, targets, taken_names, permissions, growing, lines, killed, at_once, stack:
        part(at)
    shutil.rmtree(at.room)
    return at.told
