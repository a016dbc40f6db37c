"""Modules of extended charts, written from docs/extended.md as plainly as possible: what the tokens of a text are where each use
of a module stands for its regions. Tokens are those of reader.py: kind, value, place, and the last one is END."""
from reader import END, NAME, NUMBER, Fault

MODULES, MADE, NAME_BYTES = 64, 65536, 64
ENDS, KINDS = (";", "{", "}"), ("bool", "int")


class Module:
    def __init__(self, name, parameters, items, regions):
        self.name, self.parameters, self.items, self.regions = name, parameters, items, regions


class Phrase:
    """Takes tokens off a text, from a place on."""

    def __init__(self, tokens, at):
        self.tokens, self.at = tokens, at

    def ahead(self):
        return self.tokens[self.at][0]

    def take(self, *kinds):
        if self.ahead() not in kinds:
            raise Fault(2, self.tokens[self.at][2])
        self.at += 1
        return self.tokens[self.at - 1]

    def in_parentheses(self, firsts, one):
        self.take("(")
        found = [one()] if self.ahead() in firsts else []
        while found and self.ahead() == ",":
            self.take(",")
            found.append(one())
        self.take(")")
        return found

    def parameter(self):
        first, kind, name = self.take("input", "output", NAME), self.take(*KINDS)[0], self.take(NAME)
        return first, kind, name


def begins(tokens, at, word):
    """A module or a use begins there: behind `;` or a brace its word, a name and a parenthesis."""
    return (at > 0 and tokens[at - 1][0] in ENDS and tokens[at][:2] == (NAME, word)
            and tokens[at + 1][0] == NAME and tokens[at + 2][0] == "(")


def declared(tokens):
    """What items declare, by name: the first token, the kind."""
    known = {}
    for at, (kind, name, _) in enumerate(tokens):
        by = tokens[at - 1][:2] if at else (None, None)
        if kind == NAME and (by[0] in KINDS or by == (NAME, "signal")):
            head = "signal" if by == (NAME, "signal") else tokens[at - 2][1] if at > 1 else None
            known.setdefault(name, (head, "int" if by[0] == "int" else "bool"))
    return known


def check_argument(known, parameter, argument):
    (first, role, _), kind, _ = parameter
    role = role if first == NAME else first
    what, name, place = argument
    if what == NAME and name not in known:
        raise Fault(3, place)
    is_kind = known[name][1] == kind if what == NAME else what == NUMBER and kind == "int" or what in ("true", "false") and kind == "bool"
    if not is_kind or role == "const" and what == NAME and known[name][0] != "const" or role != "const" and what != NAME:
        raise Fault(5, place)
    if role == "output" and known[name][0] not in ("output", "local", "signal"):
        raise Fault(6, place)


def renamed(tokens, names, titles):
    """The tokens with names replaced: those of the outermost regions by `titles`, all others by `names`."""
    depth, before = 0, None
    for kind, value, place in tokens:
        table = titles if before == "region" and depth == 0 else names
        yield (*table[value], place) if kind == NAME and value in table else (kind, value, place)
        depth, before = max(depth + (kind == "{") - (kind == "}"), 0), kind


def fresh(names, use):
    _, use_name, place = use
    if any(len(use_name) + 1 + len(name) > NAME_BYTES for name in names):
        raise Fault(7, place)
    return {name: (NAME, f"{use_name}_{name}") for name in names}


def titles_of(regions):
    depth = 0
    for at, (kind, value, _) in enumerate(regions):
        if kind == NAME and depth == 0 and at and regions[at - 1][0] == "region":
            yield value
        depth = max(depth + (kind == "{") - (kind == "}"), 0)


def stands_for(module, arguments, use):
    own = [name for at, (kind, name, _) in enumerate(module.items)
           if kind == NAME and at and (module.items[at - 1][0] in KINDS or module.items[at - 1][:2] == (NAME, "signal"))]
    names = fresh(own, use)
    names.update({p[2][1]: a[:2] for p, a in reversed(list(zip(module.parameters, arguments)))})
    titles = fresh(list(titles_of(module.regions)), use)
    return list(renamed(module.items, names, {})), list(renamed(module.regions, names, titles))


def used(tokens, may_begin, modules, known, own):
    """The items that uses in a text make, and the text with regions in their place. The last token of the text is END."""
    items, text, made, at = [], [], 0, 0
    while tokens[at][0] != END:
        if not ((at or may_begin) and begins([(";", ";", 0), *tokens] if not at else tokens, at + (not at), "use")):
            text.append(tokens[at])
            at += 1
            continue
        phrase = Phrase(tokens, at + 1)
        name = phrase.take(NAME)
        literals = (NAME, NUMBER, "true", "false")
        arguments = phrase.in_parentheses(literals, lambda: phrase.take(*literals))
        word, use = phrase.take(NAME), phrase.take(NAME)
        phrase.take(";")
        if word[1] != "as":
            raise Fault(2, word[2])
        if name[1] == own:
            raise Fault(6, name[2])
        module = next((m for m in modules if m.name == name[1]), None)
        if not module:
            raise Fault(3, name[2])
        if len(arguments) != len(module.parameters):
            raise Fault(6, name[2])
        for p, a in zip(module.parameters, arguments):
            check_argument(known, p, a)
        more, regions = stands_for(module, arguments, use)
        made += len(more) + len(regions)
        if made > MADE:
            raise Fault(7, name[2])
        items, text, at = items + more, text + regions, phrase.at
    return items, text


def closing(tokens, at):
    depth = 0
    while tokens[at][0] != END:
        if tokens[at][0] == "}" and not depth:
            return at
        depth += (tokens[at][0] == "{") - (tokens[at][0] == "}")
        at += 1
    raise Fault(2, tokens[-1][2])


def read_module(tokens, at, modules):
    """The module that begins at a place, and the place behind it."""
    phrase = Phrase(tokens, at + 1)
    name = phrase.take(NAME)
    parameters = phrase.in_parentheses(("input", "output", NAME), phrase.parameter)
    phrase.take("{")
    if any(m.name == name[1] for m in modules):
        raise Fault(4, name[2])
    if len(modules) >= MODULES:
        raise Fault(7, name[2])
    for count, (first, _, p) in enumerate(parameters):
        if first[0] == NAME and first[1] != "const":
            raise Fault(2, first[2])
        if any(p[1] == before[2][1] for before in parameters[:count]):
            raise Fault(4, p[2])
    end = closing(tokens, phrase.at)
    body = tokens[phrase.at:end]
    known = declared(body)
    known.update({p[1]: (first[1] if first[0] == NAME else first[0], kind) for first, kind, p in reversed(parameters)})
    # an input of the module may not be written
    items, text = used([*body, tokens[-1]], True, modules, known, name[1])
    count = next((n for n, t in enumerate(text) if t[0] == "region"), len(text))
    return Module(name[1], parameters, text[:count] + items, text[count:]), end + 1


def without_modules(tokens):
    """The tokens of a text without its modules."""
    regions = next((at for at, t in enumerate(tokens) if t[0] == "region"), len(tokens) - 2)
    first = next((at for at in range(min(regions, len(tokens) - 2)) if begins(tokens, at, "module")), None)
    if first is None:
        return tokens
    modules, at = [], first
    while tokens[at][:2] == (NAME, "module") and tokens[at + 1][0] == NAME and tokens[at + 2][0] == "(":
        module, at = read_module(tokens, at, modules)
        modules.append(module)
    items, text = used(tokens[at:], True, modules, declared(tokens[:first]), None)
    return [*tokens[:first], *items, *text, tokens[-1]]
