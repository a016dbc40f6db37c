"""Tries wrong bodies of many crates in one check.

Before its first function a check reads the program logic and the libraries, some nine seconds of processor time however little
it is asked. So crates of which none stands on another are given to one check as sources, each with its wrong bodies in it, over
the built libraries below them; the crate that is checked itself is empty. Where two of a crate's edits lie in one function, or
one lies in a definition, they cannot stand in one text: each further text of a crate is then a crate of its own, under another
name, and beside these stands one more as the crate is, in which all that is asked of them has to be proved."""
import os
import re
import subprocess
import tempfile
from types import SimpleNamespace

from taken_as_proved import folders_of, modules_of_types, with_others_taken

# How many edits one check may have.
MOST = 20
ROOT = "wrong_bodies"
# A crate with more files of proofs than this costs more at each copy than at a check of its own.
PROOFS = 200


class Copy:
    """A crate with some of its edits in it, under a name of its own, of which the functions at some places are asked, or all."""

    def __init__(self, tool, crate, texts, edits, name, places):
        self.crate, self.name, self.edits, self.places = crate, name, edits, places
        self.is_whole = None in places
        texts = {path: text for path, text in texts.items() if text is not None}
        if not self.is_whole:
            other = with_others_taken(crate, texts, self.places, lambda it: tool.name_of(it, ""))
            texts = {path: text for path, text in (texts | other).items() if text is not None}
        types = modules_of_types(texts)
        self.asked = [name] if self.is_whole else [self.path_of(tool, it, types) for it in sorted(self.places)]
        self.texts = renamed(texts, crate, name)

    def path_of(self, tool, place, types):
        """Returns the whole name by which a check calls a function at a place."""
        folders = folders_of(place, types, lambda it: tool.name_of(it, ""))
        return "::".join([self.name, *folders]) if folders else tool.name_of(place, self.name)

    def stands(self, ran):
        """Returns what of this crate a check says is not proved."""
        return [it for it in ran.stands if it.startswith(f"{self.name}::")]

    def settled(self, tool, ran):
        """Returns which of its edits a check refuses, with where it does; none where a text of it cannot be read."""
        if ran.unreadable(f"{self.name}/"):
            return []
        found, stands = [], self.stands(ran)
        for edit in self.edits:
            if None in edit.places:
                at = stands[0] if stands else None
            else:
                tests = [tool.names_of(it, self.name) for it in edit.places]
                at = next((it for it in stands if any(test(it) for test in tests)), None)
            if at:
                found.append((edit, at))
        return found


def renamed(texts, crate, name):
    """Returns the texts of a crate under another name of it."""
    own = re.compile(rf"\bRattle\.{crate}\b")
    return texts if name == crate else {path: own.sub(f"Rattle.{name}", text) for path, text in texts.items()}


def texts_of(top, parts, crate):
    """Returns the texts of a crate by their paths in it."""
    found = {}
    for part in parts:
        for at, _, files in os.walk(f"{top}/crates/{crate}/{part}"):
            for name in files:
                path = f"{at}/{name}"
                with open(path, encoding="utf-8") as file:
                    found[os.path.relpath(path, f"{top}/crates/{crate}")] = file.read()
    return found


def copies_of(tool, crate, edits):
    """Returns the copies of a crate in which its edits stand: the first under its own name, and behind the others one without."""
    texts = texts_of(tool.TOP, tool.PARTS, crate)
    good = [it for it in edits if not it.apply(texts)[1] and not it.is_alone]
    apart = [it for it in good if not it.is_in_functions()]

    # what asks for the whole crate comes first, so that the copy without an edit is asked for it only where two do
    rows = [[[it], it.apply(texts)[0]] for it in apart]
    rows += tool.batches_of(SimpleNamespace(texts=texts), [it for it in good if it not in apart])
    if sum(path.startswith("proofs/") for path in texts) > PROOFS:
        rows = rows[:1]
    copies = []
    for at, (row, made) in enumerate(rows):
        places = {place for it in row for place in it.places}
        copies.append(Copy(tool, crate, made, row, f"{crate}_{at}" if at else crate, places))
    others = set().union(*(it.places for it in copies[1:]))
    return copies + [Copy(tool, crate, texts, [], f"{crate}_as_it_is", others)] * (len(copies) > 1)


def levels(listed, below):
    """Returns of each crate how many stand below it in its longest row: of one level none stands on another."""
    found = {}
    for name in listed:
        found[name] = 1 + max((found[it] for it in below(name, listed)), default=0)
    return found


def sittings(tool, tasks, listed):
    """Returns what is tried in one check each, the highest crates first: copies of crates of one level."""
    level, found = levels(listed, tool.crates_below), []
    for at in sorted({level[crate] for crate, _ in tasks}, reverse=True):
        rows = [(crate, copies_of(tool, crate, edits)) for crate, edits in tasks if level[crate] == at]
        rows.sort(key=lambda it: -sum(len(copy.edits) for copy in it[1]))
        count = sum(len(copy.edits) for _, copies in rows for copy in copies)
        here = [[] for _ in range(max(1, -(-count // MOST)))]
        for _, copies in rows:
            min(here, key=lambda it: sum(len(copy.edits) for copy in it)).extend(copies)
        found += [it for it in here if it]
    return found


def words_of(tool, sources, listed, below):
    """Returns the words of a check of an empty crate with these sources, each with the libraries that it uses by its name, over
    what is built of the crates below them."""
    kit = tool.kit()
    used = sorted({it for libraries in sources.values() for it in libraries})
    words = ["--crate-name", ROOT, "src/lib.rt"]
    for name in dict.fromkeys(["std", "core", *(it for it in used if it not in listed)]):
        words += ["--extern", f"{name}={kit.KIT}/rlibs/{name}.rlib"]
    for name in (it for it in used if it in listed):
        words += ["--extern", f"{name}={tool.TOP}/crates/{name}/out/rlib/{name}.rlib"]
    for folder in [f"{kit.KIT}/rlibs", *(f"{tool.TOP}/crates/{it}/out/rlib" for it in below)]:
        words += ["-L", f"dependency={folder}"]
    for name, libraries in sources.items():
        words += ["--lib", f"{name}:{','.join(dict.fromkeys(['core', 'std', *libraries]))}={name}/src/lib.rt"]
    words += ["--antt-project", f"{kit.KIT}/rattle/logic/antt-project.json", "--logic-built", f"{kit.KIT}/logic_built"]
    return [*words, "--links", f"{ROOT}=", "--jobs", "1"]


def check_sources(tool, texts, sources, listed, below, flags):
    """Checks an empty crate with these sources, of which the texts of each stand by its name."""
    with tempfile.TemporaryDirectory(prefix="try-edits-") as room:
        root = {"src/lib.rt": "//! Nothing: what is tried stands in the libraries.\n#![tactic(auto)]\n"}
        for folder, files in [(room, root), *((f"{room}/{name}", files) for name, files in texts.items())]:
            for path, text in files.items():
                os.makedirs(os.path.dirname(f"{folder}/{path}"), exist_ok=True)
                with open(f"{folder}/{path}", "w", encoding="utf-8") as file:
                    file.write(text)
        kit = tool.kit()
        command = [*kit.guarded(), kit.RATTLE, "check", *words_of(tool, sources, listed, below), *flags]
        how = {"cwd": room, "stdin": subprocess.DEVNULL, "stdout": subprocess.PIPE, "stderr": subprocess.STDOUT}
        ran = subprocess.run(command, errors="replace", **how)
    return tool.Check(ran.returncode, ran.stdout)


def sit(tool, copies, listed):
    """Tries these in one check, and returns those of their edits that it refuses."""
    below = sorted(set().union(*(tool.crates_below(it.crate, listed) for it in copies)))
    asked = [f"--only={asked}" for copy in copies for asked in copy.asked]
    sources = {it.name: listed[it.crate] for it in copies}
    ran = check_sources(tool, {it.name: it.texts for it in copies}, sources, listed, below, ["--allow-holes", *asked])
    if not ran.is_refused:
        print(f"one check of {', '.join(sources)} told nothing: {ran.said.strip().split(chr(10))[-1][:200]}", flush=True)
        return set()
    # what came to nothing under another name, with no edit, tells nothing of those with one
    broken = {it.crate for it in copies if not it.edits and it.stands(ran)}
    refused = set()
    for copy in copies:
        if copy.name == copy.crate or copy.crate not in broken:
            for edit, at in copy.settled(tool, ran):
                tool.tell(edit, True, f"at {at}")
                refused.add(edit)
    return refused
