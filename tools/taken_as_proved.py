"""Makes of a proved crate's texts those over which some of its functions can be checked again and no other is.

Each other function gets a body that does nothing, and in the place of its proof a hole, which antt takes by what it states:
that it meets its contract, as the crate's proof has shown. So a check with --allow-holes says of the functions that are left
what a whole check would say, and spends nothing on those that they call."""
import re

HEAD = re.compile(r"( *)((?:pub(?:\([^)]*\))? |const |unsafe )*)fn (\w+)")
TYPE = re.compile(r"^(?:pub(?:\([^)]*\))? )?(?:struct|enum) (\w+)", re.M)
PROOFS = ("Answers.antt", "Invariants.antt", "Proof.antt")


def module_of(path):
    """Returns the folders of a source file's module, below the crate's."""
    module = path.removeprefix("src/").removesuffix(".rt")
    return [] if module in ("lib", "main") else module.split("/")


def modules_of_types(texts):
    """Returns the module of each type that a crate declares once, by its name."""
    found = {}
    for path, text in texts.items():
        if path.endswith(".rt"):
            for name in TYPE.findall(text):
                found[name] = None if name in found else module_of(path)
    return found


def functions_in(path, text):
    """Returns of each function with a body the file, the impl and the name, what stands before the name, and the lines of its
    body: where it begins and where its end is, which comes before where the body is empty."""
    lines = text.split("\n")
    inside, head, found = "", None, []
    for at, line in enumerate(lines):
        impl = re.match(r"(?:unsafe )?impl\b(.*)", line)
        if impl:
            inside = impl[1]
        elif line == "}":
            inside = ""
        here = HEAD.match(line)
        if here:
            head = at, here
        if head and line == f"{head[1][1]}{{}}":
            found.append(((path, inside, head[1][3]), "", at + 1, at))
            head = None
        if head and (line == f"{head[1][1]}{{" or line.endswith("{") and (here or line.startswith(f"{head[1][1]})"))):
            (start, said), head = head, None
            end = next((it for it in range(at + 1, len(lines)) if lines[it] == f"{said[1]}}}"), None)
            if end and bool(said[1]) == bool(inside):
                before = start
                while before and lines[before - 1].startswith((f"{said[1]}#[", f"{said[1]}///", f"{said[1]} ", f"{said[1]})")):
                    before -= 1
                words = "\n".join([*lines[before:start], said[2]])
                found.append(((path, inside, said[3]), words, at + 1, end))
    return found


def with_others_taken(crate, texts, places, end_of):
    """Returns the files of a crate, by path, that differ where all functions but those at some places are taken as proved;
    None where there is to be no such file."""
    types, other, cited = modules_of_types(texts), {}, cited_elsewhere(crate, texts)
    for path, text in texts.items():
        if not path.endswith(".rt"):
            continue
        lines, shift = text.split("\n"), 0
        for place, words, start, end in functions_in(path, text):
            folders = folders_of(place, types, end_of)
            body = "\n".join(lines[start - shift : end - shift])
            # those of a cycle of calls have one proof, and a constant may call a `const fn`
            is_own = place in places or "cycle(" in words or "const " in words or re.search(rf"\b{place[2]}\(", body)
            if is_own or not folders or end < start:
                continue
            here, name = f"proofs/{'/'.join(folders)}", f"Rattle.{crate}.proofs.{'.'.join(folders)}"
            if tuple(folders) in cited:
                continue
            lines[start - shift : end - shift] = ["    " * (1 + bool(place[1])) + "loop {}"]
            shift += end - start - 1
            other |= {f"{here}/{it}": None for it in PROOFS if f"{here}/{it}" in texts}
            other[f"{here}/Proof.antt"] = hole(name, place[2])
        if shift or lines != text.split("\n"):
            other[path] = "\n".join(lines)
    return other


def cited_elsewhere(crate, texts):
    """Returns the folders of proofs/ below which a file of another folder names something."""
    found = set()
    for path, text in texts.items():
        if path.endswith(".antt"):
            for name in set(re.findall(rf"\bRattle\.{crate}\.proofs\.([\w.]+)", text)):
                parts = tuple(name.split("."))
                tops = [parts[:it] for it in range(1, len(parts))]
                found |= {it for it in tops if not path.startswith(f"proofs/{'/'.join(it)}/")}
    return found


def folders_of(place, types, end_of):
    """Returns the folders below proofs/ of a function at a place, or None where they are not known."""
    if not place[1]:
        return [*module_of(place[0]), place[2]]
    trait, _, kind = re.sub(r"\A(<[^{]*?>)? ", "", re.sub(r"'\w+", "", place[1])).rpartition(" for ")
    name, module = (re.findall(r"(\w+)\s*(?:<|\{|where|$)", kind) or [""])[0], module_of(place[0])
    # what a type has by a trait stands where its impl does, and else where the type does
    is_known = name in types if trait else types.get(name) == module
    return [*module, *end_of(place).split("::")] if is_known else None


def hole(name, function):
    """Returns a proof that is a hole."""
    return f"use {name}.Statement.{{statement}}\n\npub {function}_spec : {{M : Type 1}} → statement M\n{function}_spec = ?\n"
