"""The listing of an image as `sct list` prints it, from a program's graph, edges and tables."""
from programs import loads, text_of_expression
from tables import accesses


def step_of(node, variables):
    """What a node does, and at which node its thread goes on."""
    if node.kind in ("assign", "update"):
        name, value = variables[node.variable].name, node.code
        if node.kind == "update":
            value = (node.combination, ("load", node.variable), value)
        return f"{name} = {text_of_expression(value, variables)} -> {node.next}"
    if node.kind == "cond":
        return f"if ({text_of_expression(node.code, variables)}) -> {node.then} else {node.other}"
    if node.kind == "fork":
        return f"fork {' '.join(map(str, node.children))} join {node.join}"
    return {"join": lambda: f"join -> {node.next}", "surf": lambda: f"pause -> {node.depth}",
            "depth": lambda: f"resume -> {node.next}", "exit": lambda: "exit"}[node.kind]()


def threads_of(graph, tables, thread=0, level=0):
    yield f"  {tables.bounds[thread]:10}  {graph.threads[thread][1]:5}  {'  ' * level}{thread}"
    for child, (parent, _) in enumerate(graph.threads):
        if parent == thread:
            yield from threads_of(graph, tables, child, level + 1)


def edges_from(graph, protocol, m, x):
    """The nodes that come behind a write of x: those that update it, then those that read it."""
    after = [n for first, n in protocol if first == m]
    updates = [n for n in after if (accesses(graph.nodes[n], loads)[1] or (None, None))[:2] == ("update", x)]
    return updates + [n for n in after if n not in updates]


def runs_of(numbers):
    """Numbers, one behind the other, as runs: the first and the last of each."""
    runs = []
    for n in numbers:
        if runs and runs[-1][1] + 1 == n:
            runs[-1] = (runs[-1][0], n)
        else:
            runs.append((n, n))
    return runs


def run_text(first, last):
    return str(first) if first == last else f"{first}-{last}"


def behind_text(after):
    """The first 64 runs of these nodes, and how many nodes are left out."""
    runs = runs_of(after)
    left_out = sum(last - first + 1 for first, last in runs[64:])
    return " ".join(run_text(*run) for run in runs[:64]) + (f" and {left_out} more" if left_out else "")


def rows_of(graph, protocol, writers, x):
    """The rows of nodes of one thread that write x in one way, one behind the other, and those behind each of them."""
    rows = []
    for m in writers:
        how = (graph.nodes[m].owner, graph.nodes[m].kind)
        if rows and rows[-1][1] + 1 == m and rows[-1][2] == how:
            rows[-1][1] = m
        else:
            rows.append([m, m, how, edges_from(graph, protocol, m, x)])
    return [(run_text(first, last), behind_text(after)) for first, last, _, after in rows if after]


def listing(compiled):
    variables, graph, tables = compiled.program.variables, compiled.graph, compiled.tables
    lines = [f"nodes={len(graph.nodes)} threads={len(graph.threads)} budget={tables.budget}", "", "variables"]
    lines += [f"  {i:5}  {v.role:6}  {v.kind:4}  {v.name}" for i, v in enumerate(variables)]
    lines += ["", "threads", "       bound  entry  thread", *threads_of(graph, tables)]
    lines += ["", "nodes", "node   thread  priority  weight  end  step"]
    for n, node in enumerate(graph.nodes):
        ends = "yes" if tables.ends[n] else "no "
        lines.append(f"{n:<5}  {node.owner:6}  {tables.priorities[n]:8}  {tables.weights[n]:6}  {ends}  {step_of(node, variables)}")
    lines += ["", "protocol edges"]
    for x, variable in enumerate(variables):
        writers = [n for n, node in enumerate(graph.nodes) if node.kind in ("assign", "update") and node.variable == x]
        rows = [f"    {nodes:>5} -> {after}" for nodes, after in rows_of(graph, compiled.edges[1], writers, x)]
        if rows:
            lines += [f"  {variable.name}", *rows]
    return "\n".join(lines) + "\n"
