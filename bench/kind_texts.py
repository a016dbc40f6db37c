"""Ordinary SCL texts: each function makes one of about as many nodes as it is given. bench/compile times them, and tests/growth
counts what they cost."""
from slow_texts import branches

HEAD = "scl P { input bool A; output int x; output int y; "
OWN = "".join(f"local int v{i}; " for i in range(63))


def row(n):
    return HEAD + "x = x + y; " * (n - 1) + "}"


def wide(n):
    return HEAD + OWN + branches(f"v{i} = v{i} + 1; " * ((n - 66) // 63) for i in range(63)) + "}"


def nested(n):
    """Forks within forks, at most 1,024 threads, with rows of statements where there is room for no more."""
    one = branches([branches(["x = x + 1; pause; ", "x = x + 2; "]), "y = x; pause; "])
    count = min(n // 15, 255)
    return HEAD + one * count + "x = x + 1; " * (n - 15 * count) + "}"


def loops(n):
    return HEAD + "".join(f"L{i}: pause; if (A) {{ goto M{i}; }} goto L{i}; M{i}: " for i in range(n // 3)) + "}"


def gotos(n):
    chain = "".join(f"L{i}: goto L{i + 1}; " for i in range(n))
    return HEAD + "goto L0; " + chain + f"L{n}: " + "x = 1; pause; " * (n // 3) + "}"


def shared(n):
    """Half of the nodes write a variable, the others read it beside them."""
    return HEAD + OWN + branches(["x = x + 1; " * (n // 2), *(f"v{i} = x; " * (n // 126) for i in range(63))]) + "}"


SHAPES = [("one row of assignments", row), ("63 branches, each with a variable of its own", wide), ("forks in forks", nested),
          ("loops in a row", loops), ("as many gotos to gotos", gotos),
          ("half write a variable that the others read", shared)]
