"""Extended charts: a reader of their text, and a machine, written from docs/extended.md and docs/reference.md as plainly as
possible. The reader is that of charts (chart_reader.py) with what is new, in the same three passes. The machine is that of
charts (chart_machine.py), and knows no reduction: it walks the active states, keeps for each of them the tick in which it was
entered, for each region in which state it was last, for each transition in how many ticks behind that what it counts was true, and
of each variable what it was when the tick before ended.

Constants and what variables were are variables here, of the roles "const" and "pre". A signal is one that is told to be one, and
an emission an effect on it by `or true`. What leads to the p-th of n states by its history leads to n + p."""
from chart_machine import ChartMachine, access_of
from chart_reader import ChartGrammar, ChartRules, Draft
from charts import Chart, Region, State, Transition, states_of
from machine import value
from modules import without_modules
from programs import Variable, loads, text_of_expression
from reader import END, NAME, NESTED, Fault, is_utf8, tell_first, tokens, tree_of

ROLES = ("input", "output", "local")
# what a word among the variables has to be, and one among the actions
ITEM_WORDS, ACTION_WORDS = ("const", "pre"), ("entry", "exit")
HISTORY_WORDS = "shallow", "history"
LASTING = "during"
# what `x += e` does, and its like
COMBINED = {"+": "add", "-": "subtract", "*": "multiply"}


class Declared(Variable):
    """A variable, and what it holds first, or whether it is a signal; or a constant, and its value; or what a variable was, and
    the number of that."""

    def __init__(self, name, role, kind, initial=None, of=None, is_signal=False):
        super().__init__(name, role, kind)
        self.initial = initial if initial is not None else kind == "int" and 0
        self.of, self.is_signal = of, is_signal


class During:
    """What is done while a state goes on. A missing trigger is None."""

    def __init__(self, immediate, trigger, effects):
        self.immediate, self.trigger, self.effects = immediate, trigger, effects


def emission(x):
    return x, ("or", ("load", x), ("value", True))


# ---- the second pass

class ExtendedGrammar(ChartGrammar):
    """Reads the tokens into the word before `chart`, a name, items and regions, in which names are not yet resolved."""

    def __init__(self, text):
        self.tokens, self.at = without_modules(tokens(text, is_chart=True, is_extended=True)), 0

    def extended(self):
        _, word, place = self.take(NAME)
        self.take("chart")
        name = self.take(NAME)[1]
        self.take("{")
        items = []
        while self.ahead() in (*ROLES, NAME):
            items.append(self.item())
        regions = [self.region(NESTED)]
        while self.ahead() == "region":
            regions.append(self.region(NESTED))
        self.take("}")
        self.take(END)
        return (word, place), name, items, regions

    def item(self):
        head, word, word_place = self.take(*ROLES, NAME)
        if self.ahead() == NAME:
            return self.signal(head, Draft(word_place, word))
        kind = self.take("bool", "int")[0]
        _, name, place = self.take(NAME)
        start = code = None
        if self.takes("="):
            start, code = self.place(), self.expression()
        self.take(";")
        return Draft(place, name, head=head, word=word, word_place=word_place, kind=kind, start=start, code=code, signal=None)

    def signal(self, head, word):
        """A signal behind `output` or `local`, or behind its word alone."""
        if head in ROLES:
            _, name, place = self.take(NAME)
            word = Draft(place, name)
        _, name, place = self.take(NAME)
        self.take(";")
        return Draft(place, name, head=head if head in ROLES else "local", kind="bool", code=None, signal=word)

    def state(self, left):
        is_initial, is_final = bool(self.takes("initial")), bool(self.takes("final"))
        self.take("state")
        _, name, place = self.take(NAME)
        actions, regions, transitions = [], [], []
        if not self.takes(";"):
            self.take("{")
            while self.ahead() in (NAME, "immediate"):
                actions.append(self.action())
            while self.ahead() == "region":
                regions.append(self.region(left - 1))
            while self.ahead() in ("go", "strong", "weak", "join"):
                transitions.append(self.transition())
            self.take("}")
        return Draft(place, name, is_initial=is_initial, is_final=is_final, actions=actions, regions=regions,
                     transitions=transitions)

    def action(self):
        immediate = bool(self.takes("immediate"))
        _, word, place = self.take(NAME)
        trigger = (self.place(), self.expression()) if self.takes("if") else None
        self.take("do")
        effects = self.effects()
        self.take(";")
        return Draft(place, word, immediate=immediate, trigger=trigger, effects=effects)

    def effects(self):
        effects = [self.effect()]
        while self.takes(","):
            effects.append(self.effect())
        return effects

    def effect(self):
        _, name, place = self.take(NAME)
        if self.takes("="):
            return Draft(place, name, start=self.place(), code=self.expression(), word=None, is_parted=False)
        sign = self.takes(*COMBINED)
        if sign:
            equals = self.take("=")[2]
            code = [("load", name, sign[2]), *self.expression(), ("binary", COMBINED[sign[0]])]
            return Draft(place, name, start=equals, code=code, word=None, is_parted=equals != sign[2] + 1)
        word = Draft(place, name)
        _, name, place = self.take(NAME)
        code = [("load", name, place), ("value", True), ("binary", "or")]
        # behind another word the emission starts at that
        return Draft(place, name, start=place if word.name == "emit" else word.place, word=word, code=code, is_parted=False)

    def transition(self):
        kind, _, place = self.take("go", "strong", "weak", "join")
        immediate, delay, trigger = False, None, None
        if kind != "join":
            immediate = bool(self.takes("immediate"))
            if not immediate and self.ahead() == NAME:
                _, word, word_place = self.take(NAME)
                delay = Draft(word_place, word, start=self.place(), code=self.expression(), count=self.count())
        if self.takes("if"):
            trigger = self.place(), self.expression()
        effects = self.effects() if self.takes("do") else []
        self.take("->")
        target, words = self.take(NAME), []
        if self.ahead() == NAME:
            words = [Draft(place, word) for _, word, place in (target, self.take(NAME))]
            target = self.take(NAME)
        self.take(";")
        return Draft(place, kind=kind, immediate=immediate, delay=delay, trigger=trigger, effects=effects, target=target, words=words)

    def count(self):
        """The condition whose ticks are counted, behind its word, where ticks are waited for."""
        if self.ahead() != NAME:
            return None
        _, word, place = self.take(NAME)
        return Draft(place, word, start=self.place(), code=self.expression())


# ---- the third pass

def literal_of(code):
    """The value of a literal, also under a minus, or None."""
    if len(code) == 1 and code[0][0] == "value":
        return code[0][1]
    if len(code) == 2 and code[1] == ("unary", "negate") and code[0][0] == "value" and not isinstance(code[0][1], bool):
        return -code[0][1]
    return None


def is_literal_of(kind, code):
    literal = literal_of(code)
    return literal is not None and isinstance(literal, bool) == (kind == "bool")


class ExtendedRules(ChartRules):
    """All flaws of what a text spells, each as (place, number). To the rules of charts what is new in items are inputs."""

    def __init__(self, items):
        super().__init__([(i.head if i.head in ROLES else "input", i.kind, (NAME, i.name, i.place)) for i in items])
        self.variables = {}
        self.signals = {i.name for i in items if i.signal}
        for i in items:
            if i.head in ROLES:
                self.variables.setdefault(i.name, i.kind)
        for i in items:
            self.item(i)
            self.made_name(i)

    def word(self, draft, words):
        if draft.name not in words:
            self.flaw(2, draft.place)

    def item(self, i):
        if i.signal:
            self.word(i.signal, ("signal",) if i.head != "input" else ())
        elif i.head in ROLES:
            if i.code and i.head == "input":
                self.flaw(6, i.place)
            elif i.code and not is_literal_of(i.kind, i.code):
                self.flaw(5, i.start)
        elif i.word not in ITEM_WORDS:
            self.flaw(2, i.word_place)
        elif not i.code:
            self.flaw(6, i.place)
        elif i.word == "const":
            if not is_literal_of(i.kind, i.code):
                self.flaw(5, i.start)
        elif len(i.code) != 1 or i.code[0][0] != "load":
            self.flaw(5, i.start)
        elif i.code[0][1] not in self.variables:
            self.flaw(3, i.code[0][2])
        elif self.variables[i.code[0][1]] != i.kind:
            self.flaw(5, i.start)

    def made_name(self, draft):
        """Names with two underscores side by side are those that reductions make."""
        if "__" in draft.name:
            self.flaw(1, draft.place)

    def regions(self, regions):
        super().regions(regions)
        for region in regions:
            self.made_name(region)
            simple = {s.name for s in region.states if not s.regions}
            for state in region.states:
                self.made_name(state)
                self.new_in(state)
                for t in state.transitions:
                    if t.words and t.target[1] in simple:
                        self.flaw(6, t.target[2])

    def new_in(self, state):
        for action in state.actions:
            self.word(action, (LASTING,) if action.immediate or action.trigger else (*ACTION_WORDS, LASTING))
            if action.name == LASTING and state.is_final:
                self.flaw(6, action.place)
            if action.trigger:
                self.expression(action.trigger[1], action.trigger[0], "bool")
            for number, e in enumerate(action.effects, 1):
                if number > 16:
                    self.flaw(7, e.place)
                self.assignment(e.name, e.place, e.start, e.code)
                self.emission(e)
        for t in state.transitions:
            for e in t.effects:
                self.emission(e)
            for draft, word in zip(t.words, HISTORY_WORDS):
                self.word(draft, (word,))
            if t.delay:
                self.word(t.delay, ("after",))
                self.expression(t.delay.code, t.delay.start, "int")
            if t.delay and t.delay.count:
                self.word(t.delay.count, ("of",))
                self.expression(t.delay.count.code, t.delay.count.start, "bool")

    def emission(self, e):
        """A signal is emitted and not assigned to, and nothing else is emitted. An operator and its `=` stand side by side."""
        if e.word:
            self.word(e.word, ("emit",))
        if e.is_parted:
            self.flaw(2, e.start)
        # of what another word emits no more is told
        if e.word and e.word.name != "emit":
            return
        if bool(e.word) != (e.name in self.signals):
            self.flaw(6, e.place)


# ---- what a text spells that keeps the rules

def resolved(region, places):
    at = {s.name: i for i, s in enumerate(region.states)}

    def effects(drafts):
        return [(places[e.name], tree_of(e.code, places)) for e in drafts]

    def transition(t):
        made = Transition(t.kind, t.immediate, tree_of(t.trigger[1], places) if t.trigger else None, effects(t.effects),
                          at[t.target[1]] + (len(at) if t.words else 0))
        made.delay = tree_of(t.delay.code, places) if t.delay else None
        made.count = tree_of(t.delay.count.code, places) if t.delay and t.delay.count else None
        return made

    def state(s):
        made = State(s.name, s.is_initial, s.is_final, [resolved(r, places) for r in s.regions],
                     [transition(t) for t in s.transitions])
        made.entry, made.exit = ([e for a in s.actions if a.name == word for e in effects(a.effects)] for word in ACTION_WORDS)
        made.during = [During(a.immediate, tree_of(a.trigger[1], places) if a.trigger else None, effects(a.effects))
                       for a in s.actions if a.name == LASTING]
        return made

    return Region(region.name, [state(s) for s in region.states])


def declared(items):
    places = {i.name: x for x, i in enumerate(items)}
    for i in items:
        if i.head in ROLES:
            yield Declared(i.name, i.head, i.kind, literal_of(i.code) if i.code else None, is_signal=bool(i.signal))
        elif i.word == "const":
            yield Declared(i.name, "const", i.kind, literal_of(i.code))
        else:
            yield Declared(i.name, "pre", i.kind, of=places[i.code[0][1]])


def extended_flaws(text):
    """What a text spells by the grammar, and all its flaws, each as (place, number); or a Fault."""
    if not is_utf8(text):
        raise Fault(1, 0)
    (word, place), name, items, regions = ExtendedGrammar(text).extended()
    rules = ExtendedRules(items)
    rules.word(Draft(place, word), ("extended",))
    rules.regions(regions)
    return name, items, regions, rules.flaws


def read_extended(text):
    """The extended chart that a text spells, or a Fault. Its variables are its items."""
    name, items, regions, flaws = extended_flaws(text)
    tell_first(flaws)
    places = {i.name: x for x, i in enumerate(items)}
    return Chart(name, list(declared(items)), [resolved(r, places) for r in regions])


# ---- the text of one

def text_of_item(v, variables):
    if v.is_signal:
        return f"{'output ' if v.role == 'output' else ''}signal {v.name};"
    literal = str(v.initial).lower() if isinstance(v.initial, bool) else str(v.initial)
    if v.role == "pre":
        return f"pre {v.kind} {v.name} = {variables[v.of].name};"
    has_value = v.role == "const" or v.initial not in (False, 0)
    return f"{v.role} {v.kind} {v.name}{' = ' + literal if has_value else ''};"


def text_of_effects(effects, variables):
    return ", ".join(
        f"emit {variables[x].name}" if variables[x].is_signal else f"{variables[x].name} = {text_of_expression(e, variables)}"
        for x, e in effects)


def text_of_during(d, variables):
    words = ["immediate"] * d.immediate + [LASTING]
    if d.trigger is not None:
        words += ["if", text_of_expression(d.trigger, variables)]
    return " ".join(words + ["do", text_of_effects(d.effects, variables)]) + ";"


def text_of_transition(t, states, variables):
    words = [t.kind] + ["immediate"] * t.immediate
    if t.delay is not None:
        words += ["after", text_of_expression(t.delay, variables)]
    if t.count is not None:
        words += ["of", text_of_expression(t.count, variables)]
    if t.trigger is not None:
        words += ["if", text_of_expression(t.trigger, variables)]
    if t.effects:
        words += ["do", text_of_effects(t.effects, variables)]
    words += ["->", *(HISTORY_WORDS if t.target >= len(states) else ()), states[t.target % len(states)].name]
    return " ".join(words) + ";"


def text_of_extended(chart):
    """One item, action or transition a line, two spaces for each level."""
    variables = chart.variables
    lines = [f"extended chart {chart.name} {{"] + ["  " + text_of_item(v, variables) for v in variables]

    def write(regions, level):
        space = "  " * level
        for region in regions:
            lines.append(f"{space}region {region.name} {{")
            for s in region.states:
                words = "initial " * s.is_initial + "final " * s.is_final + f"state {s.name}"
                if not (s.entry or s.exit or s.during or s.regions or s.transitions):
                    lines.append(f"{space}  {words};")
                    continue
                lines.append(f"{space}  {words} {{")
                for word, effects in zip(ACTION_WORDS, (s.entry, s.exit)):
                    if effects:
                        lines.append(f"{space}    {word} do {text_of_effects(effects, variables)};")
                lines.extend(f"{space}    {text_of_during(d, variables)}" for d in s.during)
                write(s.regions, level + 2)
                for t in s.transitions:
                    lines.append(f"{space}    {text_of_transition(t, region.states, variables)}")
                lines.append(f"{space}  }}")
            lines.append(f"{space}}}")

    write(chart.regions, 1)
    return "\n".join(lines + ["}"]) + "\n"


# ---- the machine

class ExtendedMachine(ChartMachine):
    """Where a region stands is as in the machine of charts. The tick in which each state was entered, in which state each region
    is, has ended or was last, and which states were entered by their history, are kept beside.

    A state with during actions has somebody inside who makes them, beside its regions, and stands as ("lasting", the state, what
    is left of them in this tick). A simple one then has an inside as superstates have: it stands as ("within", s, tests), and its
    transitions are tested when the inside is done."""

    def __init__(self, chart, random):
        super().__init__(chart, random)
        self.lasting = {}
        for s in states_of(chart.regions):
            if s.during:
                doer = self.lasting[s] = Region(LASTING, [])
                self.superstate[doer], self.path[doer], self.standing[doer] = s, self.path[self.holder[s]] + [doer], None
        self.regions = list(self.path)
        self.values = [v.initial for v in chart.variables]
        self.now, self.entered, self.within, self.counted, self.by_history = 0, {}, {}, {}, set()

    def saved(self):
        return *super().saved(), dict(self.entered), dict(self.within), set(self.by_history)

    def restore(self, saved):
        *before, self.entered, self.within, self.by_history = saved
        super().restore(before)

    def begin(self, inputs):
        self.now += 1
        were = list(self.values)
        for x, v in enumerate(self.chart.variables):
            if v.role == "pre":
                self.values[x] = were[v.of]
            elif v.is_signal:
                self.values[x] = False
        super().begin(inputs)

    def tick(self, inputs):
        steps = super().tick(inputs)
        for s, t in ((s, t) for s in self.entered for t in s.transitions if t.count is not None):
            self.counted[t] = self.counted[t] + value(t.count, self.values) if self.entered[s] < self.now else 0
        return steps

    def begin_in(self, r):
        """Region r is entered: in the state in which it was last, where its superstate is entered by its history."""
        begins = self.within.get(r, r.initial()) if self.superstate[r] in self.by_history else r.initial()
        self.act(r, begins, begins.entry, r.states.index(begins))

    def act(self, r, s, effects, target):
        to = r.states[target % len(r.states)]
        if not effects:
            (self.by_history.discard if target < len(r.states) else self.by_history.add)(to)
            target = r.states.index(to)
        super().act(r, s, effects, target)

    def come_to(self, r, s):
        self.entered[s], self.within[r] = self.now, s
        if s.during and not s.regions:
            self.open(r, s)
        else:
            super().come_to(r, s)

    def open(self, r, s):
        super().open(r, s)
        if not s.regions:
            self.standing[r] = ("within", s, [t for t in s.transitions if t.immediate])
        if s.during:
            self.standing[self.lasting[s]] = ("lasting", s, [d for d in s.during if d.immediate])

    def wake(self, r):
        standing = self.standing[r]
        if standing and standing[0] == "lasting":
            self.standing[r] = ("lasting", standing[1], list(standing[1].during))
        else:
            super().wake(r)

    @staticmethod
    def let_in(s):
        return ChartMachine.let_in(s) if s.regions else ("within", s, s.transitions)

    def step(self, r):
        where, s, left = self.standing[r][:3]
        if where != "lasting":
            super().step(r)
            return
        first, *others = left
        if first.trigger is None:
            (x, e), *more = first.effects
            self.values[x] = value(e, self.values)
            others = [During(True, None, more), *others] if more else others
        elif value(first.trigger, self.values):
            others = [During(True, None, first.effects), *others]
        self.standing[r] = (where, s, others)

    def access(self, r):
        where, _, left = self.standing[r][:3]
        if where != "lasting":
            return super().access(r)
        return (set(loads(left[0].trigger)), None) if left[0].trigger is not None else access_of(*left[0].effects[0])

    def holds(self, s, t):
        return (t.delay is None or self.gone_by(s, t) >= value(t.delay, self.values)) and super().holds(s, t)

    def gone_by(self, s, t):
        """The ticks since s was entered, or in how many of them that was true which t counts, this one among them."""
        return self.now - self.entered[s] if t.count is None else self.counted[t] + value(t.count, self.values)

    @staticmethod
    def asked_by(t):
        return ChartMachine.asked_by(t) + [x for e in (t.delay, t.count) if e for x in loads(e)]

    def effects_of(self, s, t):
        """The exit actions of all that is active inside, those of the state, the effects of the transition, and the entry
        actions of the target."""
        states = self.holder[s].states
        return [*self.exits_inside(s), *s.exit, *t.effects, *states[t.target % len(states)].entry]

    def exits_inside(self, s):
        """Region by region in the order of the text, in each what is inside first."""
        for r in s.regions:
            if self.standing[r] is not None:
                yield from self.exits_inside(self.within[r])
                yield from self.within[r].exit
