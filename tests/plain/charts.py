"""Charts as trees, and their text. Variables are their places; a target is the place of a state in its region. An effect
is a pair of a variable and a tree, as programs.py has them."""
from programs import text_of_expression


class Chart:
    def __init__(self, name, variables, regions):
        self.name, self.variables, self.regions = name, variables, regions


class Region:
    def __init__(self, name, states):
        self.name, self.states = name, states

    def initial(self):
        return next(s for s in self.states if s.is_initial)


class State:
    """A state with regions is a superstate."""

    def __init__(self, name, is_initial=False, is_final=False, regions=(), transitions=()):
        self.name, self.is_initial, self.is_final = name, is_initial, is_final
        self.regions, self.transitions = list(regions), list(transitions)

    def of_kind(self, kind):
        return [t for t in self.transitions if t.kind == kind]


class Transition:
    """The kind is "go", "strong", "weak" or "join". A missing trigger is None."""

    def __init__(self, kind, immediate, trigger, effects, target):
        self.kind, self.immediate, self.trigger = kind, immediate, trigger
        self.effects, self.target = list(effects), target


def states_of(regions):
    """All states in the order of the text."""
    for region in regions:
        for state in region.states:
            yield state
            yield from states_of(state.regions)


def paths_of(regions, above=""):
    """The path of each state, in the order of the text: Region.State, and behind a / what is inside."""
    for region in regions:
        for state in region.states:
            path = f"{above}{region.name}.{state.name}"
            yield path
            yield from paths_of(state.regions, path + "/")


def is_flat(regions, inside_aborts=False):
    """Whether no superstate with aborts lies inside another one with aborts."""
    for state in (s for region in regions for s in region.states):
        aborts = any(t.kind in ("strong", "weak") for t in state.transitions)
        if (aborts and inside_aborts) or not is_flat(state.regions, inside_aborts or aborts):
            return False
    return True


def is_layered(regions, around=frozenset()):
    """Whether no superstate with strong aborts lies inside another one with strong aborts, and none with weak aborts inside another
    one with weak aborts, inside superstates with aborts of these kinds."""
    for state in (s for region in regions for s in region.states):
        kinds = {kind for kind in ("strong", "weak") if state.of_kind(kind)}
        if around & kinds or not is_layered(state.regions, around | kinds):
            return False
    return True


def text_of_transition(t, states, variables):
    words = [t.kind] + ["immediate"] * t.immediate
    if t.trigger is not None:
        words += ["if", text_of_expression(t.trigger, variables)]
    if t.effects:
        made = [f"{variables[x].name} = {text_of_expression(e, variables)}" for x, e in t.effects]
        words += ["do", ", ".join(made)]
    return " ".join(words + ["->", states[t.target].name]) + ";"


def text_of_chart(chart):
    """One declaration or transition a line, two spaces for each level."""
    lines = [f"chart {chart.name} {{"] + [f"  {v.role} {v.kind} {v.name};" for v in chart.variables]

    def write(regions, level):
        space = "  " * level
        for region in regions:
            lines.append(f"{space}region {region.name} {{")
            for s in region.states:
                words = "initial " * s.is_initial + "final " * s.is_final + f"state {s.name}"
                if s.regions or s.transitions:
                    lines.append(f"{space}  {words} {{")
                    write(s.regions, level + 2)
                    for t in s.transitions:
                        lines.append(f"{space}    {text_of_transition(t, region.states, chart.variables)}")
                    lines.append(f"{space}  }}")
                else:
                    lines.append(f"{space}  {words};")
            lines.append(f"{space}}}")

    write(chart.regions, 1)
    return "\n".join(lines + ["}"]) + "\n"
