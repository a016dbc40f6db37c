"""All flaws of a text that is refused, and how `explain` tells them; and texts with many flaws."""
import re

from chart_reader import begins_a_chart, chart_draft_of
from extended import extended_flaws
from reader import NAME, Fault, draft_of, tokens

TOLD = 20
ROLES, KINDS = ["input", "output", "local"], ["bool", "int"]


def begins_extended(text):
    """Whether the first token is the word `extended`."""
    return re.match(rb"(\s|//[^\n]*(\n|$)|/\*(?s:(?!\*/).)*\*/)*extended(?![A-Za-z0-9_])", text) is not None


def all_flaws(text):
    """The flaws of the draft that a text spells, or a Fault."""
    if begins_extended(text):
        return extended_flaws(text)[-1]
    draft = chart_draft_of(text) if begins_a_chart(text) else draft_of(text)
    return draft[-1].flaws


def told_flaws(text):
    """The flaws of a text that are told, each as (place, number): the fault of one that the grammar does not have, or the first
    twenty of the others, in the order of the text, each once."""
    try:
        return sorted(set(all_flaws(text)))[:TOLD]
    except Fault as fault:
        return [(fault.place, fault.number)]


def spot(text, place):
    """The line and the column of a byte. Columns count characters."""
    before = text[:place]
    line = before[before.rfind(b"\n") + 1:]
    return before.count(b"\n") + 1, len(line.decode()) + 1


def check_told(product, text):
    """What is wrong of `explain` over a text with flaws: where it tells flaws, and which."""
    flaws = told_flaws(text)
    product.write(text)
    status, output, errors = product.call(["explain", product.source])
    if not flaws:
        return [] if not re.match(r"sct: E0\d at", errors) else [f"{text[:300]!r}: {errors!r}, and it has no flaw"]
    wanted = ["%d:%d: E%02d: " % (*spot(text, place), number) for place, number in flaws]
    front = re.escape(product.source) + r":(\d+:\d+: E\d\d: )"
    told = [match.group(1) for match in re.finditer("^" + front, output, re.MULTILINE)]
    line = "sct: E%02d at %d\n" % (flaws[0][1], flaws[0][0])
    if (status, errors, told) != (1, line, wanted):
        return [f"{text[:300]!r}: {status} {errors!r} {told}, and not {line!r} {wanted}"]
    return []


def with_flaws(text, source):
    """The text with some of its names changed to others, known and unknown, and with the roles and the kinds of some variables
    changed. The grammar has it as before."""
    is_chart, is_extended = begins_a_chart(text), begins_extended(text)
    words = [(kind, str(value)) for kind, value, _ in tokens(text, is_chart, is_extended)[:-1]]
    names = sorted({word for kind, word in words if kind == NAME}) + ["unknown", "lost"]
    share, made = source.choice([0.02, 0.1, 0.4]), []
    for kind, word in words:
        others = names if kind == NAME else ROLES if word in ROLES else KINDS if word in KINDS else [word]
        made.append(source.choice(others) if source.random() < share else word)
        made.append(source.choice([" ", " ", " ", "\n", " // \u00e9\n", *([" /* \u00e9\n*/", "/**/"] if is_extended else [])]))
    return "".join(made).encode()
