"""The plain machine of charts where the regions come to step in a given order, and what the rows of tests/cases/charts ask of
it. Regions have their numbers, from 1: what lies inside an initial state comes before what lies inside the others. Of a core chart
the values and the active states are told that are the chart's."""
from chart_machine import ChartMachine
from charts import states_of
from expansion import expand

BUDGET = 20000


def regions_in_order(regions):
    """Each region before what lies inside it, and what lies inside its initial state first."""
    for region in regions:
        yield region
        for state in sorted(region.states, key=lambda s: not s.is_initial):
            yield from regions_in_order(state.regions)


def shown(value):
    return str(value).lower() if isinstance(value, bool) else str(value)


class OrderedMachine(ChartMachine):
    """The machine of a chart; or that of its core chart, where a chart is given of which it is that."""

    def __init__(self, chart, of=None):
        super().__init__(chart, None)
        self.ordered = list(regions_in_order(chart.regions))
        self.states = list(states_of(chart.regions))
        self.first = []
        self.of = of

    def row(self, row):
        """What a row is answered."""
        word, _, rest = row.partition(" ")
        return {"order": self.order, "again": self.again, "core": self.core, "tick": self.row_of_tick, "run": self.row_of_run, "play": self.play_row,
                "judge": self.row_of_judge,
                "standings": self.row_of_standings, "table": self.row_of_table}[word](rest)

    def order(self, rest):
        self.first = [int(word) for word in rest.split()]
        return ""

    def again(self, _):
        self.__init__(self.chart, self.of)
        return ""

    def core(self, _):
        self.__init__(expand(self.chart), self.chart)
        return "core"

    def inputs(self, text):
        """What is given by `NAME=VALUE`, or by `NAME` where it is true."""
        pairs = (word.partition("=") for word in text.split())
        return {name: value != "false" if value in ("", "false") else int(value) for name, _, value in pairs}

    def told(self):
        chart, active = self.of or self.chart, self.active()
        numbers = {s: n for n, s in enumerate(states_of(chart.regions))}
        stood_for = [s.stands_for if self.of else s for s in self.states if s in active]
        values = map(shown, self.values[:len(chart.variables)])
        return " ".join(["values", *values]) + "; " + " ".join(["active", *(str(numbers[s]) for s in stood_for if s)])

    def next_region(self):
        """The number of the first region whose turn it is, or None."""
        order = self.first + list(range(1, len(self.ordered) + 1))
        return next((n for n in order if self.is_enabled(self.ordered[n - 1])), None)

    def row_of_tick(self, rest):
        self.begin(self.inputs(rest))
        steps = []
        while (number := self.next_region()) is not None and len(steps) < BUDGET:
            steps.append(number)
            self.step(self.ordered[number - 1])
        return " ".join(["steps", *map(str, steps)]) + "; " + self.told()

    def play_row(self, rest):
        """A tick in which these regions step, if they can one after the other."""
        given, _, regions = rest.partition(":")
        before = self.saved()
        self.begin(self.inputs(given))
        for number in map(int, regions.split()):
            if not 0 < number <= len(self.ordered) or not self.is_enabled(self.ordered[number - 1]):
                self.values, self.standing = before
                return "no run"
            self.step(self.ordered[number - 1])
        return ("run; " if self.next_region() else "whole run; ") + self.told()

    def row_of_run(self, rest):
        """The same, but the tick is not played."""
        before = self.saved()
        answer = self.play_row(rest)
        self.values, self.standing = before
        return answer

    def row_of_judge(self, rest):
        """Whether these regions take admissible steps, if they can step one after the other."""
        given, _, regions = rest.partition(":")
        before, run, admissible = self.saved(), [], True
        self.begin(self.inputs(given))
        for number in map(int, regions.split()):
            if not 0 < number <= len(self.ordered) or not self.is_enabled(self.ordered[number - 1]):
                self.values, self.standing = before
                return "no run"
            r = self.ordered[number - 1]
            access = self.access(r)
            admissible = admissible and self.clash(run, r, access) is None
            run.append((r, access))
            self.step(r)
        self.values, self.standing = before
        return "admissible" if admissible else "not admissible"

    def row_of_standings(self, _):
        def word(standing):
            return "outside" if standing is None else "ended" if standing[0] == "ended" else str(self.states.index(standing[1]))
        return " ".join(["stand", *(word(self.standing[r]) for r in self.ordered)])

    def row_of_table(self, _):
        number = {r: n for n, r in enumerate(self.ordered, 1)}
        parts = [" ".join(["state", str(n), "in", str(number[self.holder[s]]), "has", *(str(number[r]) for r in s.regions)])
                 for n, s in enumerate(self.states)]
        parts += [" ".join(["region", str(number[r]), "has", *(str(self.states.index(s)) for s in r.states), "in",
                            *(str(self.states.index(s)) for s in reversed(self.around(r)))]) for r in self.ordered]
        return "; ".join(parts) + ";"
