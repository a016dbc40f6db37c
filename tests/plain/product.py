"""The program `sct` as tests call it, and what may be said of its answers."""
import os
import subprocess

from compiling import Compiled, Refused, program_of
from images import encode


class Product:
    """The program, in a folder of its own."""

    def __init__(self, program, room):
        self.program, self.room = program, room
        self.source, self.image = os.path.join(room, "text"), os.path.join(room, "image")

    def call(self, words, lines=""):
        done = subprocess.run([self.program, *words], input=lines.encode(), capture_output=True, timeout=60)
        return done.returncode, done.stdout.decode(), done.stderr.decode()

    def write(self, data):
        with open(self.source, "wb") as file:
            file.write(data)
        if os.path.exists(self.image):
            os.remove(self.image)

    def printed(self, data):
        self.write(data)
        return self.call(["scl", self.source])

    def compiled(self, data):
        """What `compile` does: its status, its texts, and the bytes of the image, or None."""
        self.write(data)
        status, output, errors = self.call(["compile", self.source, self.image])
        if not os.path.exists(self.image):
            return status, output, errors, None
        with open(self.image, "rb") as file:
            return status, output, errors, file.read()


def is_walk(walk, edges):
    pairs = list(zip(walk, walk[1:] + walk[:1]))
    return walk and walk[0] == min(walk) and len(set(walk)) == len(walk) and all(pair in edges for pair in pairs)


def is_reason(fault, graph, edges, tables):
    """Whether the program is refused for this: `tables` are its own, or the number of the fault that there are none."""
    flow, protocol, conflicts = edges
    number, *nodes = fault.split(" ")
    nodes = [int(n) for n in nodes]
    if conflicts:
        return number == "E11" and tuple(nodes) in {tuple(sorted(pair)) for pair in conflicts}
    if number != tables:
        return False
    if number == "E12":
        both = set(flow) | set(protocol)
        pairs = set(zip(nodes, nodes[1:] + nodes[:1]))
        return is_walk(nodes, both) and bool(pairs & set(protocol))
    over = {(n, node.join) for n, node in enumerate(graph.nodes) if node.kind == "fork"}
    return is_walk(nodes, set(flow) | over)


def wrong_image(product, data):
    """What is wrong of `compile` over a text, by the plain reader and compiler: its line and its image, or why there is none.
    Of several conflicts or walks any may be told; that memory was refused may not."""
    status, output, errors, image = product.compiled(data)
    try:
        made = Compiled(program_of(data))
    except Refused as refused:
        good = (status, output, errors, image) == (1, "", f"sct: {refused}\n", None)
        return [] if good else [f"compile of {data[:200]!r}: {status} {output!r} {errors!r} and not {refused}"]
    if made.fault():
        good = status == 1 and output == "" and image is None and is_reason(errors[5:-1], made.graph, made.edges, made.tables)
        return [] if good else [f"compile of {data[:200]!r}: {status} {errors!r} and not as {made.fault()}"]
    good = (status, output, errors) == (0, made.summary(), "") and image == encode(made.program.variables, made.graph, made.tables)
    return [] if good else [f"compile of {data[:200]!r}: {status} {output!r} {errors!r} and not {made.summary()!r}, or another image"]
