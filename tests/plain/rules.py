"""The rules of a valid image, by their words in docs/definitions.md. Those of size, structure, codes and assignments are
here, those of tables in tables.py."""
from collections import Counter

from programs import loads
from tables import broken, edges_of

VARIABLES, OUTPUTS, THREADS, NODES, CHILDREN, ANCESTORS, BUDGET = 256, 64, 1024, 16384, 64, 32, 16777216
OPERATIONS, OPERANDS, LOADS = 64, 16, 16
ARITHMETIC = ("add", "subtract", "multiply", "min", "max")
TARGETS = {"assign": ["next"], "update": ["next"], "cond": ["then", "other"], "join": ["next"], "depth": ["next"]}


# ---- size and range

def has_size(image):
    return (len(image.variables) <= VARIABLES and 1 <= len(image.threads) <= THREADS and 1 <= len(image.nodes) <= NODES
            and image.tables.budget <= BUDGET)


def is_new_variable(image, x):
    variable, before = image.variables[x], image.variables[:x]
    outputs = sum(v.role == "output" for v in image.variables[:x + 1])
    return variable.name not in [v.name for v in before] and (variable.role != "output" or outputs <= OUTPUTS)


def ancestors(image, thread):
    """How many threads stand above a thread, counted to one more than there may be."""
    count = 0
    while count <= ANCESTORS and thread < len(image.threads) and image.threads[thread][0] is not None:
        thread, count = image.threads[thread][0], count + 1
    return count


def is_thread(image, t):
    parent, entry = image.threads[t]
    if (parent is not None) if t == 0 else (parent is None or parent >= t):
        return False
    return ancestors(image, t) <= ANCESTORS and entry < len(image.nodes) and image.nodes[entry].owner == t


def is_node(image, node):
    if node.owner >= len(image.threads):
        return False
    for part in TARGETS.get(node.kind, []) + {"fork": ["join"], "surf": ["depth"]}.get(node.kind, []):
        if getattr(node, part) >= len(image.nodes):
            return False
    if node.kind in ("assign", "update") and node.variable >= len(image.variables):
        return False
    if node.kind == "fork":
        kids = node.children
        return 1 <= len(kids) <= CHILDREN and len(set(kids)) == len(kids) and all(k < len(image.threads) for k in kids)
    return all(op[1] < len(image.variables) for op in getattr(node, "ops", []) if op[0] == "load")


def size_places(image):
    return ((["image"] if not has_size(image) else [])
            + [f"variable {x}" for x in range(len(image.variables)) if not is_new_variable(image, x)]
            + [f"thread {t}" for t in range(len(image.threads)) if not is_thread(image, t)]
            + [f"{n}" for n, node in enumerate(image.nodes) if not is_node(image, node)])


# ---- structure

def is_target(image, thread, n):
    return image.nodes[n].owner == thread and image.nodes[n].kind not in ("join", "depth")


def stays(image, node):
    if node.kind == "fork":
        join = image.nodes[node.join]
        return (join.kind == "join" and join.owner == node.owner
                and all(image.threads[k][0] == node.owner for k in node.children))
    if node.kind == "surf":
        depth = image.nodes[node.depth]
        return depth.kind == "depth" and depth.owner == node.owner
    return all(is_target(image, node.owner, getattr(node, part)) for part in TARGETS.get(node.kind, []))


def structure_places(image):
    forks, surfs = ([node for node in image.nodes if node.kind == kind] for kind in ("fork", "surf"))
    forked = Counter(child for node in forks for child in node.children)
    joined, resumed = Counter(node.join for node in forks), Counter(node.depth for node in surfs)

    def belongs(n, node):
        return {"join": joined[n] == 1, "depth": resumed[n] == 1}.get(node.kind, True)

    found = [f"thread {t}" for t, (_, entry) in enumerate(image.threads)
             if not is_target(image, t, entry) or (t > 0 and forked[t] != 1)]
    return found + [f"{n}" for n, node in enumerate(image.nodes) if not (stays(image, node) and belongs(n, node))]


# ---- codes and assignments

def combined(name, a, b):
    """The kind of a binary operation, or None."""
    if a != b:
        return None
    if name in ("and", "or"):
        return "bool" if a == "bool" else None
    if name in ("equal", "not equal"):
        return "bool"
    if a != "int":
        return None
    return "int" if name in ARITHMETIC else "bool"


def spelt(ops, kinds):
    """The tree that a code spells and its kind, or None where it is not well formed."""
    stack = []
    if sum(op[0] == "load" for op in ops) > LOADS or len(ops) > OPERATIONS:
        return None
    for op in ops:
        if op[0] == "value":
            stack.append((op, "bool" if isinstance(op[1], bool) else "int"))
        elif op[0] == "load":
            stack.append((op, kinds[op[1]]))
        elif op[0] in ("negate", "not", "divide", "remainder"):
            if not stack or stack[-1][1] != ("bool" if op[0] == "not" else "int"):
                return None
            tree, kind = stack.pop()
            stack.append(((op[0], tree, *op[1:]), kind))
        else:
            if len(stack) < 2:
                return None
            (right, second), (left, first) = stack.pop(), stack.pop()
            kind = combined(op[0], first, second)
            if kind is None:
                return None
            stack.append(((op[0], left, right), kind))
        if len(stack) > OPERANDS:
            return None
    return stack[0] if len(stack) == 1 else None


def code_places(image):
    """Where a code is not well formed. Each code that is gets its tree, as `code`, and its kind, as `gives`."""
    kinds, found = [v.kind for v in image.variables], []
    for n, node in enumerate(image.nodes):
        if not hasattr(node, "ops"):
            continue
        tree = spelt(node.ops, kinds)
        if tree is None or (node.kind == "cond" and tree[1] != "bool"):
            found.append(f"{n}")
        else:
            node.code, node.gives = tree
    return found


def is_assigned(image, node):
    variable = image.variables[node.variable]
    if node.gives != variable.kind or variable.role == "input":
        return False
    if node.kind == "assign":
        return True
    fits = combined(node.combination, variable.kind, variable.kind) == variable.kind
    return fits and node.variable not in loads(node.code)


def assignment_places(image):
    return [f"{n}" for n, node in enumerate(image.nodes)
            if node.kind in ("assign", "update") and not is_assigned(image, node)]


# ---- all

def broken_program(image):
    """The places at which the lowest broken rule of those that do not ask for tables is broken, each as it is printed, or
    none."""
    for number, places in (31, size_places), (32, structure_places), (33, code_places), (34, assignment_places):
        found = places(image)
        if found:
            return {f"E{number} {place}" for place in found}
    return set()


def broken_rule(image):
    """The places at which the lowest broken rule is broken, each as it is printed, or none."""
    return broken_program(image) or broken(image, image.tables, *edges_of(image, loads))
