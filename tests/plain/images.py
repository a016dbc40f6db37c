"""The bytes of an image, version 2."""
import struct

ROLES = {"input": 0, "output": 1, "local": 2}
KINDS = {"bool": 0, "int": 1}
TAGS = {"exit": 0, "assign": 1, "update": 2, "cond": 3, "fork": 4, "join": 5, "surf": 6, "depth": 7}
COMBINATIONS = {"add": 0, "multiply": 1, "min": 2, "max": 3, "and": 4, "or": 5}
OPERATIONS = {"negate": 3, "not": 4, "add": 5, "subtract": 6, "multiply": 7, "min": 8, "max": 9, "and": 10, "or": 11,
              "equal": 12, "not equal": 13, "less": 14, "less or equal": 15, "greater": 16, "greater or equal": 17,
              "divide": 18, "remainder": 19}


def postfix(e):
    """The operations of an expression's code, each as its bytes."""
    if e[0] == "value":
        return [struct.pack("<BB", 0, e[1])] if isinstance(e[1], bool) else [struct.pack("<Bi", 1, e[1])]
    if e[0] == "load":
        return [struct.pack("<BH", 2, e[1])]
    if e[0] in ("divide", "remainder"):
        return postfix(e[1]) + [struct.pack("<Bi", OPERATIONS[e[0]], e[2])]
    return [operation for part in e[1:] for operation in postfix(part)] + [struct.pack("<B", OPERATIONS[e[0]])]


def code(e):
    operations = postfix(e)
    return struct.pack("<B", len(operations)) + b"".join(operations)


def body(node):
    if node.kind == "assign":
        return struct.pack("<HH", node.variable, node.next) + code(node.code)
    if node.kind == "update":
        return struct.pack("<HBH", node.variable, COMBINATIONS[node.combination], node.next) + code(node.code)
    if node.kind == "cond":
        return struct.pack("<HH", node.then, node.other) + code(node.code)
    if node.kind == "fork":
        return struct.pack(f"<HB{len(node.children)}H", node.join, len(node.children), *node.children)
    if node.kind == "surf":
        return struct.pack("<H", node.depth)
    return b"" if node.kind == "exit" else struct.pack("<H", node.next)


def encode(variables, graph, tables):
    parts = [b"SCCB\x02", struct.pack("<H", len(variables))]
    for v in variables:
        parts.append(struct.pack("<BBB", ROLES[v.role], KINDS[v.kind], len(v.name)) + v.name.encode())
    parts.append(struct.pack("<H", len(graph.threads)))
    for (parent, entry), bound in zip(graph.threads, tables.bounds):
        parts.append(struct.pack("<HHI", 65535 if parent is None else parent, entry, bound))
    parts.append(struct.pack("<H", len(graph.nodes)))
    for n, node in enumerate(graph.nodes):
        parts.append(struct.pack("<HHHBB", node.owner, tables.priorities[n], tables.weights[n], tables.ends[n],
                                 TAGS[node.kind]) + body(node))
    return b"".join(parts) + struct.pack("<I", tables.budget)
