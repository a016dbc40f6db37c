"""The commands that the sweeps go over: each command of the program, over each example and over what is refused."""
import os
import random
import subprocess
import sys
from typing import NamedTuple, Optional

from runs import TOP, new_room, takes_workers

sys.path.insert(0, os.path.join(TOP, "tests", "plain"))
from programs import Loop, Graph, random_program, text_of  # noqa: E402

OLD = b"what stood here before\n"


class Case(NamedTuple):
    """A command, the files that it finds and the lines of its input, and the name of the file that it writes."""
    name: str
    words: list
    files: dict
    lines: bytes = b""
    stores: Optional[str] = None


def bytes_of(*parts):
    with open(os.path.join(TOP, *parts), "rb") as file:
        return file.read()


TEXTS = (".chart", ".scl")


def texts(folder):
    """The charts and SCL texts of a folder, each with its name and its bytes."""
    for name in sorted(os.listdir(os.path.join(TOP, folder))):
        if name.endswith(TEXTS):
            yield name, bytes_of(folder, name)


def stems(folder, ending):
    return sorted(name[:-len(ending)] for name in os.listdir(os.path.join(TOP, folder)) if name.endswith(ending))


def compiled(program, text):
    """The image of a text, or None where it is refused."""
    room = new_room()
    source, image = os.path.join(room, "source"), os.path.join(room, "image")
    with open(source, "wb") as file:
        file.write(text)
    done = subprocess.run([program, "compile", source, image], capture_output=True, check=False)
    made = None
    if done.returncode == 0:
        with open(image, "rb") as file:
            made = file.read()
        os.remove(image)
    os.remove(source)
    os.rmdir(room)
    return made


def random_text(seed):
    """The text of a random program without empty loops, and lines for it."""
    source = random.Random(seed)
    while True:
        body = random_program(source.randrange(1 << 30), source.choice([4, 8, 15, 30]))
        try:
            Graph(body)
        except Loop:
            continue
        lines = b"".join(source.choice([b"{}\n", b'{"A":true}\n', b'{"B":true,"I":-3}\n', b'{"I":7}\n']) for _ in range(4))
        return text_of(body).encode(), lines


def wide_text(branches, statements):
    """A program of branches that step at the same time, each by so many assignments of 63 operations a tick. So there
    is work for several workers."""
    def assignment(x, number):
        terms = "".join(f" {'+-*'[n % 3]} {'i' if n % 8 == 0 else n * number + 2}" for n in range(1, 32))
        return f"{x} = {x}{terms};"

    declared = "input int i; " + " ".join(f"output int x{b};" for b in range(branches))
    bodies = []
    for b in range(branches):
        row = " ".join(assignment(f"x{b}", n) for n in range(1, statements + 1))
        bodies.append(f"again{b}: {row} pause; goto again{b};")
    return f"scl Wide {{ {declared} fork {{ {' } par { '.join(bodies)} }} join; }}".encode()


class Example(NamedTuple):
    """An image with its lines, and its text where it has one."""
    name: str
    image: bytes
    lines: bytes
    text: Optional[bytes] = None


def examples(program, count=0):
    """The examples of the repository, and so many random programs that have an image."""
    found = [Example(stem, bytes_of("examples", stem + ".image"), bytes_of("examples", stem + ".ticks"))
             for stem in stems("examples", ".image")]
    for name, text in texts("examples"):
        found.append(Example(name, compiled(program, text), bytes_of("examples", os.path.splitext(name)[0] + ".ticks"), text))
    seed = 0
    while count:
        seed += 1
        text, lines = random_text(seed)
        image = compiled(program, text)
        if image:
            found.append(Example(f"random {seed}", image, lines, text))
            count -= 1
    return found


def writes(name, words, files, stores):
    """A command that writes a file, where there is none and where there is an old one."""
    return [Case(name, words, files, stores=stores),
            Case(f"{name}, over an old file", words, {**files, stores: OLD}, stores=stores)]


def over_examples(program, count):
    found = []
    for name, image, lines, text in examples(program, count):
        files = {"image": image}
        found += [Case(f"check {name}", ["check", "image"], files),
                  Case(f"run {name}", ["run", "image"], files, lines)]
        found += writes(f"migrate {name}", ["migrate", "image", "new"], files, "new")
        if text:
            files = {"source": text}
            found += writes(f"compile {name}", ["compile", "source", "new"], files, "new")
            found.append(Case(f"scl {name}", ["scl", "source"], files))
    for stem in stems("examples/v1", ".image"):
        files = {"image": bytes_of("examples", "v1", stem + ".image")}
        found.append(Case(f"check {stem} in version 1", ["check", "image"], files))
        found += writes(f"migrate {stem} in version 1", ["migrate", "image", "new"], files, "new")[:1]
    return found


def refused(program):
    """Commands that are refused, or ask for nothing."""
    image = bytes_of("examples", "two_threads.image")
    found = [Case("help", ["--help"], {}), Case("version", ["--version"], {}), Case("help of run", ["run", "--help"], {}), Case("no words", [], {}),
             Case("an unknown command", ["frob"], {}), Case("no operand", ["run"], {}),
             Case("two operands", ["check", "a", "b"], {}), Case("an unknown option", ["run", "image", "--frob"], {}),
             Case("no image", ["check", "image"], {}), Case("no image to run", ["run", "image"], {}),
             Case("no text", ["compile", "source", "new"], {}), Case("no text to print", ["scl", "source"], {}),
             Case("no folder", ["migrate", "image", "nowhere/new"], {"image": image}),
             Case("a cut image", ["check", "image"], {"image": image[:100]}),
             Case("a bad field", ["check", "image"], {"image": image[:7] + b"\x09" + image[8:]}),
             Case("an image that is not valid", ["check", "image"], {"image": image[:-4] + b"\x06\0\0\0"}),
             Case("bytes that are no text", ["scl", "source"], {"source": b"scl P { } // \xff"})]
    test = {f"a.{ending}": bytes_of("examples", f"abro.{ending}") for ending in ("chart", "ticks", "trace")}
    found += [Case("a test", ["test", "a.chart"], test), Case("tests in a folder", ["test", "."], test),
              Case("a test that differs", ["test", "a.chart"], {**test, "a.trace": b"{}\n"})]
    for name, last in (("no object", b"[]"), ("no input", b'{"x":1}'), ("no JSON", b'{"A":' + b"[" * 200), ("no end", b"{")):
        found.append(Case(f"a line that is {name}", ["run", "image"], {"image": image}, b"{}\n" + last + b"\n{}\n"))
    for name, text in texts("examples/refused"):
        found += writes(f"compile {name}", ["compile", "source", "new"], {"source": text}, "new")
    return found


def with_workers(program, count):
    """Runs by workers, where the program knows them."""
    if not takes_workers(program):
        return []
    return [Case(f"run {name} with {workers} workers", ["run", "image", "--workers", str(workers)], {"image": image}, lines)
            for name, image, lines, _ in examples(program, count) for workers in (1, 2, 8)]


WIDE_LINES = b'{"i":3}\n{}\n{"i":-7}\n'


def wide(program, branches, statements):
    """Runs by workers that share their rounds, each with one worker beside it."""
    files = {"image": compiled(program, wide_text(branches, statements))}
    return [Case(f"run of {branches} branches of {statements} long assignments with {workers} workers",
                 ["run", "image", "--workers", str(workers)], files, WIDE_LINES) for workers in (1, 2, 8)]
