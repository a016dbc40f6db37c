"""Programs that stand over the libraries of the repository: each is proved and built over a copy of the crates with what
their proofs left. What was not proved of them is proved first."""
import os
import shutil
import subprocess

from runs import TOP


def lines_below(libraries):
    """The lines of crates.txt for these libraries and those below."""
    lines, found, todo = {}, {}, libraries.split()
    with open(f"{TOP}/crates.txt", encoding="utf-8") as file:
        for line in file:
            name, colon, _ = line.partition(":")
            if colon and not line.startswith("#"):
                lines[name.split()[0]] = line
    while todo:
        name = todo.pop()
        if name in lines and name not in found:
            found[name] = lines[name]
            todo += lines[name].partition(":")[2].split()
    return found


def placed(room, name, libraries):
    """Makes a copy of the crates with the program among them, whose source stands in tests/NAME, and gives its folder."""
    below = lines_below(libraries)
    for library in below:
        for part in ("src", "specs", "proofs", "out/rlib"):
            if os.path.isdir(f"{TOP}/crates/{library}/{part}"):
                shutil.copytree(f"{TOP}/crates/{library}/{part}", f"{room}/crates/{library}/{part}")
    shutil.copy(f"{TOP}/HANDLES", room)
    with open(f"{room}/crates.txt", "w", encoding="utf-8") as file:
        file.write("".join(below.values()) + f"{name}: {libraries}\n")
    folder, source = f"{room}/crates/{name}", f"{TOP}/tests/{name}"
    os.makedirs(f"{folder}/src")
    os.makedirs(f"{folder}/proofs/main")
    shutil.copy(f"{source}/program.txt", f"{folder}/src/main.rt")
    shutil.copy(f"{source}/invariants.txt", f"{folder}/proofs/main/Invariants.antt")
    return folder


def built(room, name, libraries, words):
    """Builds the program, and gives its file."""
    folder = placed(room, name, libraries)
    # it is built by the command that also runs it
    subprocess.run(["rt", "run", "--", *words], cwd=folder, stdin=subprocess.DEVNULL, stdout=subprocess.DEVNULL,
                   check=False)
    if not os.path.exists(f"{folder}/out/{name}"):
        raise SystemExit(f"the program {name} is not built\n0 passed, 1 failed")
    return f"{folder}/out/{name}"
