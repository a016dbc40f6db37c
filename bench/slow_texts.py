"""SCL texts that are small and ordinary to look at, and on which a compiler may spend more than its share: each function
makes one of about as many nodes as it is given. bench/compile times them beside ordinary ones."""
import itertools

HEAD = "scl P { input bool A; output int x; output int y; output int z; local int w; "
OWN = "".join(f"local int v{i}; " for i in range(59))
MANY = "".join(f"local int v{i}; " for i in range(240))
CIRCLE = ["y = z + 1; ", "z = y + 1; "]


def branches(bodies):
    return "fork { " + " } par { ".join(bodies) + " } join; "


def loop_before_row(n):
    """A loop of one node in an if, before a row."""
    return HEAD + "if (A) { L: x = 1; goto L; } " + "x = 1; " * (n - 3) + "}"


def circle_beside_row(n):
    """A row beside two branches that each read what the other writes."""
    return HEAD + branches(["x = x + 1; " * (n - 10)] + CIRCLE) + "}"


def circle_beside_pairs(n):
    """Half write a variable that the others read, beside two branches that each read what the other writes."""
    readers = [f"v{i} = x; " * (n // 118) for i in range(59)]
    return HEAD + OWN + branches(["x = x + 1; " * (n // 2)] + readers + CIRCLE) + "}"


def jumps(n, row):
    k = (n - 12) // 2
    tests = "".join(f"if (A) {{ goto A{i}; }} " for i in range(1, k + 1))
    body = tests + "".join(f"A{i}: " + (row if i > 1 else "x = 1; ") for i in range(k, 0, -1))
    return HEAD + branches(["L: " + branches([body, "pause; "]) + "goto L; ", "y = x; "]) + "}"


def jumps_into_row(n):
    """Gotos into a row, from its first place to its last, in a loop that pauses beside."""
    return jumps(n, "w = 1; ")


def jumps_into_reads(n):
    """The same, where each statement of the row reads what it writes."""
    return jumps(n, "w = 1 + w; ")


def forks_of_one(n):
    """Chains of forks of one branch, 32 deep, all of which use one variable: as many chains as there is room for."""
    chains = max(1, min(31, n // 128))
    row = "x = 1 + x; " * max(1, n // (32 * chains + 1) - 3)
    chain = row
    for _ in range(31):
        chain = row + "fork { " + chain + "} join; "
    return HEAD + ("fork { " + chain + "} join; ") * chains + "}"


def labels(n, depth=1056):
    """So many ifs in one another, with the forks that they need, at most as deep as may be, and so many labels in the innermost."""
    text = "".join(f"L{i}: " for i in range(n))
    for k in range(depth):
        text = "if (A) { " + text + "} "
        if k % 32 == 31 and k < depth - 1:
            text = "fork { " + text + "} join; "
    return HEAD + text + "}"


def labels_deep(n):
    """The same, the deeper the more labels there are."""
    return labels(n, min(1056, n * 1056 // 2400))


def label_row(n):
    """So many labels in a row, and no goto."""
    return HEAD + "x = 1; " + "".join(f"L{i}: " for i in range(n)) + "}"


def goto_row(n):
    """So many labels in a row, each behind a goto to the next one."""
    return HEAD + "x = 1; " + "".join(f"goto L{i + 1}; L{i}: " for i in range(n)) + f"L{n}: }}"


def crowded_names(count, bits):
    """So many names, of six letters each, whose hashes by the toolchain have these last bits in common, both halves joined,
    so that they fall into one place of a table of 2 ** bits groups, each for nine names."""
    most, factor = 2 ** 64 - 1, 0x9e3779b97f4a7c15

    def folded(first, second):
        product = first * second
        return product & most ^ product >> 64

    names, begin = [], folded(0x243f6a8885a308d3 ^ 6, factor ^ 16)
    for front in itertools.product("abcdefghijklmnopqrstuvwxyz", repeat=5):
        state = begin
        for letter in front:
            state = folded(state ^ ord(letter) * 0x010101, factor ^ 2)
        for letter in "abcdefghijklmnopqrstuvwxyz":
            last = folded(state ^ ord(letter) * 0x010101, factor ^ 2)
            if (last ^ last >> 32) % 2 ** bits == 0:
                names.append("".join(front) + letter)
        if len(names) >= count:
            return names[:count]


def crowded_labels(n):
    """A goto, and so many labels whose names are chosen to fall into one place of a table that finds them by their hash."""
    names = crowded_names(n, max(0, -(-n // 9) - 1).bit_length())
    return HEAD + f"if (A) {{ goto {names[0]}; }} x = 1; " + "".join(f"{name}: " for name in names) + "}"


def sums_of_each_other(n):
    """A chart of 60 regions in rings, where two variables are each summed up from the other."""
    k = max(2, n // 295)

    def ring(p, e):
        states = (f"{'' if i else 'initial '}state {p}{i} {{ go if A do {e} -> {p}{(i + 1) % k}; go if B -> {p}0; }} "
                  for i in range(k))
        return "".join(states)

    first = "".join(f"region R{r} {{ {ring(f'S{r}_', 'x = x + 1')}}} " for r in range(30))
    second = "".join(f"region Q{r} {{ {ring(f'Q{r}_', 'y = y + x')}}} " for r in range(29))
    last = "region Z { initial state Z { go do x = x + y -> Z; } } "
    return "chart C { input bool A; input bool B; output int x; output int y; " + first + second + last + "}"


def deep_forks(n):
    """Forks in one another, 16 deep, of eight branches each, beside which each branch reads what the others write."""
    def level(left):
        rows = ["x = x + y; " * (n // 600)] * 3 + ["w = x; " * (n // 600)] * 4
        return branches(rows + [level(left - 1)]) if left else "x = x + 1; "
    return HEAD + level(16) * 5 + "}"


def few_users_each(n):
    """240 variables, each written by one branch and read by the one behind."""
    each = max(1, n // 240)
    rows = ["".join(f"v{4 * b + k} = {f'v{4 * b + k - 4}' if b else '1'} + v{4 * b + k}; " * each for k in range(4))
            for b in range(60)]
    return HEAD + MANY + branches(rows) + "}"


def last_circle_alone(n):
    """Many forks of two branches that share a variable one way, and behind them one that does so both ways."""
    count = min(n // 9, 500)
    small = branches(["w = x + 1; ", "z = w; "])
    return HEAD + small * count + "x = x + 1; " * (n - 7 * count) + branches(CIRCLE) + "}"


def gotos_into_loops(n):
    """A chain of gotos, each of which may lead into the next of many loops that pause."""
    loops = "".join(f"L{i}: if (A) {{ goto M{i + 1}; }} M{i}: pause; goto L{i}; " for i in range(n // 4))
    return HEAD + "if (A) { goto M0; } " + loops + f"M{n // 4}: x = 1; }}"


def forks_in_turn(n):
    """Many forks of two branches one behind the other, which write 14 variables each, by sums and by products in turn."""
    rows = ["".join(f"v{k} = v{k} {operator} 1; " for k in range(14)) for operator in "+*"]
    return HEAD + OWN + "".join(branches([rows[i % 2]] * 2) for i in range(n // 32)) + "}"


def many_threads(n):
    """Threads of 14 steps, at most 60 in a fork, of which half write the variables that the others read."""
    pair = ["".join(f"v{k} = v{k} + 1; " for k in range(14)), "".join(f"if (v{k} == 0) {{ }} " for k in range(14))]
    pairs = n // 34
    return HEAD + OWN + branches([branches(pair * min(30, pairs - i)) for i in range(0, pairs, 30)]) + "}"


SLOW = [("a loop of one node before a row", loop_before_row), ("a row beside a circle of two", circle_beside_row),
        ("half write what the others read, beside a circle of two", circle_beside_pairs),
        ("gotos into a row, in a loop", jumps_into_row), ("the same, where the row reads itself", jumps_into_reads),
        ("chains of forks of one branch", forks_of_one), ("a chart of sums of each other", sums_of_each_other),
        ("deep forks of eight branches", deep_forks), ("240 variables of few users each", few_users_each),
        ("many forks, the last of which alone is a circle", last_circle_alone), ("gotos into loops", gotos_into_loops),
        ("labels within ifs and forks", labels_deep)]
# What these cost grows with pairs of threads that use one variable, of which there are at most 1,024 threads.
PAIRS = [("forks by sums and by products in turn", forks_in_turn), ("half of many threads write what the others read", many_threads)]
# Labels and gotos are no nodes. The names of the last are found by trying, the longer the more there are.
LABELS = [("labels in a row", label_row), ("a goto to each label", goto_row),
          ("a goto, and labels that fall into one place of a table", crowded_labels)]
