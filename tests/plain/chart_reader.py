"""A reader of chart text, written from the grammar as plainly as possible, in three passes as reader.py: tokens, grammar,
rules. Expressions and declarations are those of SCL. What was read is a Chart, as charts.py has it."""
from charts import Chart, Region, State, Transition
from programs import Variable
from reader import END, NAME, NESTED, PIECES, Fault, Grammar, Rules, is_utf8, tell_first, tokens, tree_of

REGIONS, STATES, TRANSITIONS, EFFECTS = 63, 256, 64, 16


# ---- the second pass

class Draft:
    """A part of the text, with its name and its place."""

    def __init__(self, place, name=None, **parts):
        self.place, self.name = place, name
        self.__dict__.update(parts)


class ChartGrammar(Grammar):
    """Reads the tokens into a name, declarations and regions, in which names are not yet resolved."""

    def __init__(self, text):
        self.tokens, self.at = tokens(text, is_chart=True), 0

    def chart(self):
        self.take("chart")
        name = self.take(NAME)[1]
        self.take("{")
        declarations = self.declarations()
        regions = [self.region(NESTED)]
        while self.ahead() == "region":
            regions.append(self.region(NESTED))
        self.take("}")
        self.take(END)
        return name, declarations, regions

    def region(self, left):
        """A region, where so many may stand in one another from it on."""
        if self.ahead() == "region" and not left:
            raise Fault(7, self.place())
        self.take("region")
        _, name, place = self.take(NAME)
        self.take("{")
        states = [self.state(left)]
        while self.ahead() in ("initial", "final", "state"):
            states.append(self.state(left))
        self.take("}")
        return Draft(place, name, states=states)

    def state(self, left):
        is_initial, is_final = bool(self.takes("initial")), bool(self.takes("final"))
        self.take("state")
        _, name, place = self.take(NAME)
        regions, transitions = [], []
        if not self.takes(";"):
            self.take("{")
            while self.ahead() == "region":
                regions.append(self.region(left - 1))
            while self.ahead() in ("go", "strong", "weak", "join"):
                transitions.append(self.transition())
            self.take("}")
        return Draft(place, name, is_initial=is_initial, is_final=is_final, regions=regions, transitions=transitions)

    def transition(self):
        kind, _, place = self.take("go", "strong", "weak", "join")
        immediate, trigger = False, None
        if kind != "join":
            immediate = bool(self.takes("immediate"))
            if self.takes("if"):
                trigger = self.place(), self.expression()
        effects = []
        if self.takes("do"):
            effects.append(self.effect())
            while self.takes(","):
                effects.append(self.effect())
        self.take("->")
        target = self.take(NAME)
        self.take(";")
        return Draft(place, kind=kind, immediate=immediate, trigger=trigger, effects=effects, target=target)

    def effect(self):
        _, name, place = self.take(NAME)
        self.take("=")
        return Draft(place, name, start=self.place(), code=self.expression())


# ---- the third pass

class ChartRules(Rules):
    """All flaws of what a text spells, each as (place, number)."""

    def named(self, drafts, limit):
        """Each draft, when its name is tested: no two have one name, and there are at most so many."""
        names = set()
        for count, draft in enumerate(drafts, 1):
            if draft.name in names:
                self.flaw(4, draft.place)
            if count > limit:
                self.flaw(7, draft.place)
            names.add(draft.name)
            yield draft

    def regions(self, regions):
        for region in self.named(regions, REGIONS):
            if sum(s.is_initial for s in region.states) != 1:
                self.flaw(6, region.place)
            names = {s.name for s in region.states}
            for state in self.named(region.states, STATES):
                if state.is_final and (state.regions or state.transitions):
                    self.flaw(6, state.place)
                self.transitions(state, names)
                self.regions(state.regions)

    def transitions(self, state, names):
        joins = 0
        for count, t in enumerate(state.transitions, 1):
            joins += t.kind == "join"
            if count > TRANSITIONS:
                self.flaw(7, t.place)
            if (t.kind == "go") == bool(state.regions) or (t.kind == "join" and joins > 1):
                self.flaw(6, t.place)
            if t.trigger:
                self.expression(t.trigger[1], t.trigger[0], "bool")
            for number, e in enumerate(t.effects, 1):
                if number > EFFECTS:
                    self.flaw(7, e.place)
                self.assignment(e.name, e.place, e.start, e.code)
            if t.target[1] not in names:
                self.flaw(3, t.target[2])


# ---- what a text spells that keeps the rules

def resolved(region, places):
    at = {s.name: i for i, s in enumerate(region.states)}
    return Region(region.name, [
        State(s.name, s.is_initial, s.is_final, [resolved(r, places) for r in s.regions], [
            Transition(t.kind, t.immediate, tree_of(t.trigger[1], places) if t.trigger else None,
                       [(places[e.name], tree_of(e.code, places)) for e in t.effects], at[t.target[1]])
            for t in s.transitions])
        for s in region.states])


def chart_draft_of(text):
    """What a text spells by the grammar, its name, its declarations and its regions, and the rules that were held against it,
    with all its flaws; or a Fault."""
    if not is_utf8(text):
        raise Fault(1, 0)
    name, declarations, regions = ChartGrammar(text).chart()
    rules = ChartRules(declarations)
    rules.regions(regions)
    return name, declarations, regions, rules


def read_chart(text):
    """The chart that a text spells, or a Fault."""
    name, declarations, regions, rules = chart_draft_of(text)
    tell_first(rules.flaws)
    variables = [Variable(name, role, kind) for role, kind, (_, name, _) in declarations]
    places = {v.name: x for x, v in enumerate(variables)}
    return Chart(name, variables, [resolved(r, places) for r in regions])


def begins_a_chart(text):
    """Whether the first token is `chart`. Any other text is read as SCL."""
    at = 0
    while piece := PIECES.match(text, at):
        word = piece.group()
        if not word.isspace() and not word.startswith(b"//"):
            return word == b"chart"
        at = piece.end()
    return False
