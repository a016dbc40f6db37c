"""The cases of tests/cases: how their files are read, and what is wrong of their runs. tests/cases/README.md tells how they are
written."""
import os
import re
import shlex
import subprocess

from assembler import BadRow, Image, changed_bytes

# how long a run may take
SECONDS = 240
SECTION = re.compile(r"^--- (.*)\n", re.M)
REPEAT = re.compile(r"«(\d+)×([^«»]*)»")
SUM = re.compile(r"\{([0-9@+*/% ()-]*@[0-9@+*/% ()-]*)\}")
HEX = re.compile(r"«hex (\w+)»")
ESCAPE = re.compile(rb"\\(n|r|t|0|\\|x[0-9a-f]{2})")
BYTES = {b"n": b"\n", b"r": b"\r", b"t": b"\t", b"0": b"\0", b"\\": b"\\"}


class BadCase(Exception):
    """A file that is no case."""


def letters(number):
    """A name of three letters."""
    return "n" + chr(97 + number // 26) + chr(97 + number % 26)


def numbered(piece, number):
    """A repeated piece, the one of this number."""
    summed = SUM.sub(lambda m: str(eval(m.group(1).replace("@", str(number)), {})), piece)
    return summed.replace("@", str(number)).replace("#", letters(number))


def unfolded(text):
    """A text with its repeated pieces written out, the inner ones first."""
    while True:
        new = REPEAT.sub(lambda m: "".join(numbered(m.group(2), n) for n in range(int(m.group(1)))), text)
        if new == text:
            return text
        text = new


def escaped(text):
    """The bytes of a line of text with its escapes taken."""
    return ESCAPE.sub(lambda m: BYTES.get(m.group(1)) or bytes.fromhex(m.group(1)[1:].decode()), unfolded(text).encode())


def rows_of(body):
    """The lines that are no comments, each as what stands before the last arrow and behind it."""
    for line in body.split("\n"):
        if line and not line.startswith("# "):
            given, arrow, answer = line.rpartition(" => ")
            if not arrow:
                given, arrow, answer = (line[:-3], "=>", "") if line.endswith(" =>") else (line, "", None)
            yield given, answer


def case_of(text, examples):
    """The sections of a case, each as its words and its text, and where the examples lie."""
    parts = SECTION.split(text)
    if any(line and not line.startswith("#") for line in parts[0].split("\n")):
        raise BadCase(f"{parts[0]!r} stands before the first section")
    words, bodies = parts[1::2], parts[2::2]
    for at, word in enumerate(words[1:]):
        # a blank line before a note belongs to neither
        if word.startswith("note ") and bodies[at].endswith("\n\n"):
            bodies[at] = bodies[at][:-1]
    return list(zip(words, bodies)), examples


class Run:
    """A run that is wanted: its words, what it is given, and what it must answer."""

    def __init__(self, name, words, stdin=b"", stdout=b"", stderr=b"", status=0):
        self.name, self.words, self.stdin, self.stdout, self.stderr, self.status = name, words, stdin, stdout, stderr, status
        self.begins, self.reads, self.written = False, False, []

    def answers(self, answer):
        """Takes an answer of a row."""
        if answer == "read":
            self.reads = True
        elif re.match(r"E\d\d\b", answer):
            self.status, self.stderr = 1, b"sct: " + escaped(answer) + b"\n"
        else:
            self.stdout = escaped(answer) + (b"" if answer.endswith("\\n") or not answer else b"\n")
        return self

    def wrong(self, program, room, files):
        try:
            done = subprocess.run([program, *self.words], input=self.stdin, capture_output=True, timeout=SECONDS, cwd=room)
        except subprocess.TimeoutExpired:
            return [("the status", f"none within {SECONDS} s", str(self.status))]
        wrong = []
        if done.returncode != self.status:
            wrong.append(("the status", str(done.returncode), str(self.status)))
        good = bool(done.stdout) if self.reads else done.stdout == self.stdout
        if not good:
            wrong.append(("standard output", text_of(done.stdout), text_of(self.stdout)))
        if not (done.stderr.startswith(self.stderr) and self.stderr if self.begins else done.stderr == self.stderr):
            wrong.append(("standard error", text_of(done.stderr), text_of(self.stderr)))
        for name, other in self.written:
            given = read(os.path.join(room, name))
            wanted = None if other == "nothing" else files.get(other) or read(os.path.join(room, other))
            if given != wanted:
                wrong.append((f"the file {name}", described(given), described(wanted)))
        return wrong


def read(name):
    if not os.path.exists(name):
        return None
    with open(name, "rb") as file:
        return file.read()


def described(data):
    return "none" if data is None else data.hex(" ", 1)


def text_of(data):
    return data.decode("utf-8", "backslashreplace")


class Room:
    """The folder of a case, with its files and images."""

    def __init__(self, folder, examples):
        self.folder, self.examples, self.files, self.images = folder, examples, {}, {}

    def store(self, name, data):
        self.files[name] = data
        path = os.path.join(self.folder, name)
        os.makedirs(os.path.dirname(path), exist_ok=True)
        with open(path, "wb") as file:
            file.write(data)

    def example(self, example, name=None):
        self.store(name or os.path.basename(example), read(os.path.join(self.examples, example)))

    def image(self, name, body, other=None):
        image = Image(other)
        for line in unfolded(body).split("\n"):
            if line and not line.startswith("#"):
                image.change(line) if other else image.add(line)
        self.images[name] = image
        self.store(name, image.bytes())

    def with_hex(self, text):
        return HEX.sub(lambda m: self.files[m.group(1)].hex(" "), text)


def runs_of(case, room):
    """The runs of a case, one after another; the files that stand before each are written then."""
    run = note = None
    for words, body in case:
        kind, _, rest = words.partition(" ")
        if rest.endswith(" bare") or rest == "bare":
            rest, body = rest[:-len(" bare")], body[:-1]
        if run and kind not in ("stdin", "stdout", "stderr", "status", "written"):
            yield run
            run = None
        if kind == "run":
            run, note = Run(f"{words} ({note})" if note else words, words_of(rest)), None
        elif kind == "note":
            note = rest
        elif run:
            behind_run(run, kind, rest, body, room)
        elif kind in READERS:
            yield from READERS[kind](room, rest, body) or ()
        else:
            raise BadCase(f"{words!r} begins no section")
    if run:
        yield run


def words_of(text):
    """The words of a run, as a shell has them."""
    return [escaped(word) for word in shlex.split(text)]


def behind_run(run, kind, rest, body, room):
    if kind == "status":
        run.status = int(rest)
    elif kind == "written":
        name, is_word, other = rest.split(" ")
        run.written.append((name, other))
    else:
        setattr(run, kind, room.with_hex(unfolded(body)).encode())
        run.begins = run.begins or rest == "begins"
        if rest == "begins":
            run.stderr = run.stderr.rstrip(b"\n")


def texts(room, rest, body):
    words = shlex.split(rest)
    for text, answer in rows_of(body):
        room.store("text", escaped(text))
        yield Run(f"{words[0]} {text[:120]}", [words[0], "text", *words[1:]]).answers(answer)


def images(room, rest, body):
    words, _, name = rest.rpartition(" from ")
    for changes, answer in rows_of(body):
        image = Image(room.images[name])
        for change in changes.split(";"):
            image.change(change)
        room.store("changed", image.bytes())
        yield Run(f"{words} {changes[:120]}", [*shlex.split(words), "changed"]).answers(answer)


def changed_files(room, rest, body):
    words, _, name = rest.rpartition(" from ")
    for changes, answer in rows_of(body):
        data = room.files[name]
        for change in filter(str.strip, unfolded(changes).split(";")):
            data = changed_bytes(data, change)
        room.store("changed", data)
        yield Run(f"{words} {changes[:120]}", [*shlex.split(words), "changed"]).answers(answer)


def lines(room, rest, body):
    for given, answer in rows_of(body):
        run = Run(f"run {rest} {given[:120]}", ["run", *shlex.split(rest)], escaped(given))
        output, fault = re.fullmatch(r"(.*?) ?(E\d\d(?: line \d+)?)?", answer).groups()
        run.stdout = escaped(output) + b"\n" * bool(output)
        if fault:
            run.status, run.stderr = 1, f"sct: {fault}\n".encode()
        yield run


def library_rows(room, rest, body):
    """One run over all rows, each of whose answers is compared by itself."""
    rows = list(rows_of(body))
    given = "".join(room.with_hex(unfolded(row)) + "\n" for row, _ in rows)
    wanted = "".join(unfolded(answer) + "\n" for _, answer in rows if answer is not None)
    yield Rows([row for row, answer in rows if answer is not None], Run("rows", [], given.encode(), wanted.encode()))


def programs(room, rest, body):
    """One run that asks a row of an image with the changes of each line."""
    row, _, name = rest.rpartition(" from ")
    names, given, wanted = [], "", ""
    for changes, answer in rows_of(body):
        image = Image(room.images[name])
        for change in unfolded(changes).split(";"):
            image.change(change)
        names.append(f"{row} {changes}")
        given += f"image of any {image.bytes().hex(' ')}\n{row}\n"
        wanted += answer + "\n"
    yield Rows(names, Run(row, [], given.encode(), wanted.encode()))


class Rows:
    """Rows whose answers are lines, each of which is a result."""

    def __init__(self, names, run):
        self.names, self.run = names, run

    def results(self, program, room):
        done = subprocess.run([program], input=self.run.stdin, capture_output=True, timeout=SECONDS, cwd=room)
        given, wanted = done.stdout.decode().split("\n"), self.run.stdout.decode().split("\n")
        given += [f"nothing, status {done.returncode}"] * (len(wanted) - len(given))
        for name, one, other in zip(self.names, given, wanted):
            yield name[:120], [] if is_answer(one.strip(), other) else [("the answer", one, other)]


def is_answer(given, wanted):
    """Whether an answer is as wanted, where words between `<` and `>` stand in any order, those between `[` and `]` may be left
    away, and `..` at the end is any rest."""
    if given == wanted:
        return True
    rest = given.split(" ")
    for part in re.findall(r"<.*?>|\[.*?\]|[^<\[]+", wanted):
        words = part.strip(" <>[]").split(" ") if part[0] in "<[" else part.strip(" ").split(" ")
        if words[-1] == "..":
            return rest[:len(words) - 1] == words[:-1]
        taken = rest[:len(words)]
        if part[0] == "[" and taken != words:
            continue
        if part[0] == "<":
            taken, words = (sorted(word.rstrip(";") for word in some) for some in (taken, words))
        if taken != words:
            return False
        rest = rest[len(taken):]
    return rest in ([], [""])


READERS = {
    "file": lambda room, name, body: room.store(name, unfolded(body).encode()),
    "hex": lambda room, name, body: room.store(name, bytes.fromhex("".join(re.sub(r"#.*", "", line) for line in body.split("\n")))),
    "image": lambda room, name, body: room.image(name, body),
    "changed": lambda room, rest, body: room.image(rest.split(" ")[0], body, room.images[rest.split(" ")[2]]),
    "example": lambda room, rest, body: room.example(*rest.split(" as ")),
    "texts": texts, "images": images, "bytes": changed_files, "lines": lines, "rows": library_rows, "programs": programs,
}


def results_of(case, program, folder):
    """Of each run its name, and what is wrong."""
    sections, examples = case
    room = Room(folder, examples)
    try:
        for run in runs_of(sections, room):
            if isinstance(run, Rows):
                yield from run.results(program, folder)
            else:
                yield run.name, run.wrong(program, folder, room.files)
    except (BadRow, KeyError, ValueError, IndexError, AttributeError) as bad:
        raise BadCase(repr(bad)) from None
