"""The program `sct`, called as a child process in a folder of its own that is gone when the answer is there."""
import collections
import hashlib
import json
import os
import re
import subprocess
import tempfile
import threading

TOP = os.path.dirname(os.path.dirname(os.path.realpath(__file__)))
SECONDS = 120
IMAGES = 8
PIECE = re.compile(r"//[^\n]*|[A-Za-z_][A-Za-z0-9_]*|.", re.S)
# in an extended chart a comment goes over lines between /* and */
EXTENDED_PIECE = re.compile(r"/\*.*?(?:\*/|\Z)|" + PIECE.pattern, re.S)
EXTENDED_BLANK = re.compile(r"(?:\s+|//[^\n]*|/\*.*?\*/)*", re.S)
WORD = re.compile(r"[A-Za-z_]")
EXTENDED_WORD = re.compile(r"extended(?![A-Za-z0-9_])")


class Ended(Exception):
    """The program ended as it never should, or took too long."""


def is_extended(text):
    """Whether the text is one of an extended chart, by its first token."""
    return EXTENDED_WORD.match(text, EXTENDED_BLANK.match(text).end()) is not None


def pieces_of(text):
    """The pieces of a text: words, comments, and other letters one by one."""
    return (EXTENDED_PIECE if is_extended(text) else PIECE).findall(text)


def words_among(pieces):
    """At which places of a list of pieces no space and no comment stands."""
    return [at for at, piece in enumerate(pieces) if not piece.isspace() and not piece.startswith(("//", "/*"))]


def with_locals_shown(text):
    """The text with its local variables declared as outputs, those of modules too. `local` is a reserved word, so it stands in
    declarations alone. A signal of an extended chart is local where it has no role: between `{` or `;` and a name `signal` is no
    name itself."""
    pieces, extended = pieces_of(text), is_extended(text)
    words = words_among(pieces)
    for before, at, behind in zip(words, words[1:], words[2:]):
        if pieces[at] == "local":
            pieces[at] = "output"
        elif extended and pieces[at] == "signal" and pieces[before] in ("{", ";") and WORD.match(pieces[behind]):
            pieces[at] = "output signal"
    return "".join(pieces)


def is_chart(text):
    """Whether the text is one of a chart or of an extended chart, by its first token."""
    pieces = pieces_of(text)
    return next((pieces[at] for at in words_among(pieces)), "") in ("chart", "extended")


def without_states(line):
    """A line of output as it is without the states, and the states; None of a line that tells none."""
    front, mark, states = line.rpartition(',"states":')
    return (front + "}", json.loads(states[:-1])) if mark else (line, None)


class Program:
    """Answers questions about texts. Of the last texts it keeps the images, in memory, and no text."""

    def __init__(self, path):
        self.path, self.images, self.lock = path, collections.OrderedDict(), threading.Lock()

    def call(self, room, *words, lines=b""):
        """The status and what was written to the two streams."""
        try:
            done = subprocess.run([self.path, *words], input=lines, capture_output=True, timeout=SECONDS, cwd=room, check=False)
        except subprocess.TimeoutExpired as late:
            raise Ended(f"sct {words[0]} did not answer within {SECONDS} seconds.") from late
        except OSError as error:
            raise Ended(f"The program {self.path} could not be started: {error.strerror}.") from error
        if done.returncode not in (0, 1):
            raise Ended(f"sct {words[0]} ended unexpectedly, with status {done.returncode}.")
        return done.returncode, done.stdout.decode("utf-8", "replace"), done.stderr.decode("utf-8", "replace")

    def room(self, text):
        """A folder with the text in it."""
        room = tempfile.TemporaryDirectory(prefix="play-")
        with open(os.path.join(room.name, "text"), "wb") as file:
            file.write(text.encode("utf-8", "surrogatepass"))
        return room

    def check(self, text):
        """What `explain` says: whether the text is accepted, its words, and the fault line of one that is not; and the chart to which
        an extended chart is reduced, of which some of these words speak."""
        with self.room(text) as room:
            status, words, fault = self.call(room, "explain", "text")
        return {"accepted": status == 0, "words": words, "fault": fault.removeprefix("sct: ").strip(), "reduced": self.reduced(text)}

    def image(self, text):
        """The bytes of the image and nothing else, or None and the fault."""
        key = hashlib.sha256(text.encode("utf-8", "surrogatepass")).digest()
        with self.lock:
            if key in self.images:
                self.images.move_to_end(key)
                return self.images[key], ""
        with self.room(text) as room:
            status, _, fault = self.call(room, "compile", "text", "image")
            if status:
                return None, fault.removeprefix("sct: ").strip()
            with open(os.path.join(room, "image"), "rb") as file:
                image = file.read()
        with self.lock:
            self.images[key] = image
            while len(self.images) > IMAGES:
                self.images.popitem(last=False)
        return image, ""

    def played(self, image, lines, text=""):
        """Over these ticks the lines that `run` prints, the active states after each where the text is that of the image's
        chart, and its fault where it ends with one."""
        with self.room(text) as room:
            with open(os.path.join(room, "image"), "wb") as file:
                file.write(image)
            given = "".join(line + "\n" for line in lines).encode("utf-8", "surrogatepass")
            beside = ["--chart", "text"] if is_chart(text) else []
            status, output, fault = self.call(room, "run", "image", *beside, lines=given)
        told = [without_states(line) for line in output.splitlines()]
        return [line for line, _ in told], [states for _, states in told], fault.removeprefix("sct: ").strip() if status else ""

    def locals_in(self, text, lines, printed):
        """The local variables after each of the ticks for which `run` has printed these lines, or None where the text with all of
        them shown is refused. They are the outputs that the text itself has not: those of a module have a name for each use."""
        shown = with_locals_shown(text)
        if shown == text:
            return [{} for _ in printed]
        image, _ = self.image(shown)
        if image is None:
            return None
        outputs = [json.loads(line)["out"] for line in self.played(image, lines)[0]]
        own = [json.loads(line)["out"] for line in printed]
        return [{name: value for name, value in out.items() if name not in has} for out, has in zip(outputs, own)]

    def reduced(self, text):
        """The chart to which an extended chart is reduced; of another text, and of one that is refused, nothing."""
        if not is_extended(text):
            return ""
        with self.room(text) as room:
            status, words, _ = self.call(room, "reduce", "text")
        return "" if status else words

    def views(self, text):
        """The reduced chart, the chart without aborts, the lowered program, the listings over all these texts, and the Graphviz text."""
        with self.room(text) as room:
            status, lowered, fault = self.call(room, "scl", "text")
            if status:
                return {"fault": fault.removeprefix("sct: ").strip()}
            status, core, _ = self.call(room, "core", "text")
            views = {"lowered": lowered, "expanded": "" if status else core, "graph": self.call(room, "dot", "text")[1], "fault": "",
                     "reduced": self.reduced(text)}
            status, _, fault = self.call(room, "compile", "text", "image")
            if status:
                return {**views, "fault": fault.removeprefix("sct: ").strip()}
            views["listing"] = self.call(room, "list", "image", "--source", "text")[1]
            # the image of an extended chart is that of its reduced chart, and the nodes of a chart are those of the program to
            # which it is lowered
            for name in ("reduced", "lowered"):
                views[name + "_listing"] = self.listed(room, views[name]) if views[name] else ""
        return views

    def listed(self, room, text):
        """The listing of a text's image over that text."""
        with open(os.path.join(room, "made"), "w", encoding="utf-8") as file:
            file.write(text)
        self.call(room, "compile", "made", "image")
        return self.call(room, "list", "image", "--source", "made")[1]
