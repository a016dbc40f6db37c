"""Which lines of an input give inputs, as plainly as docs/trace.md says it, and what is answered to the others."""
import json

DEEPEST = 127


class NoObject(Exception):
    """The text is none."""


def number(text):
    value = float(text)
    if value in (float("inf"), float("-inf")):
        raise NoObject
    return value


def constant(name):
    raise NoObject


def depth(data):
    if isinstance(data, dict):
        return 1 + max(map(depth, data.values()), default=0)
    if isinstance(data, list):
        return 1 + max(map(depth, data), default=0)
    return 0


def is_value(kind, data):
    if kind == "bool":
        return isinstance(data, bool)
    return isinstance(data, int) and not isinstance(data, bool) and -2 ** 31 <= data < 2 ** 31


def fault_of(line, inputs, strict):
    """E62 where the line is no JSON object, E51 where it gives no inputs, else None."""
    try:
        members = json.loads(line, parse_float=number, parse_constant=constant)
    except (ValueError, NoObject):
        return "E62"
    if not isinstance(members, dict) or depth(members) > DEEPEST:
        return "E62"
    kinds = {v.name: v.kind for v in inputs}
    if any(name not in kinds or not is_value(kinds[name], value) for name, value in members.items()):
        return "E51"
    return "E51" if strict and set(kinds) - set(members) else None


def faults_of(lines, inputs, strict):
    return [fault_of(line, inputs, strict) for line in lines]


def merged(shown, faults, before):
    """The lines of ticks, with an answer for each line that has a fault."""
    shown = iter(shown)
    return [f'{{"error":"{fault}","line":{before + n}}}' if fault else next(shown) for n, fault in enumerate(faults, 1)]
