"""The warnings of an extended chart, as plainly as possible: those of the chart to which it is reduced that speak of what is the
author's, in the numbers of his text, and where what they speak of stands there. What reductions make has two underscores side by
side in its name; all else is the author's, in the order of his text."""
from chart_reader import read_chart
from chart_warnings import warnings_of
from charts import states_of
from extended import ROLES, ExtendedGrammar


def is_made(named):
    return "__" in named.name


class Author:
    def __init__(self, text, reduced):
        """`reduced` is the text of the chart to which the extended chart of `text` is reduced."""
        _, _, items, regions = ExtendedGrammar(text).extended()
        self.variables = [i for i in items if i.head in ROLES]
        self.states = list(states_of(regions))
        self.chart = read_chart(reduced)
        self.made = list(states_of(self.chart.regions))

    def number(self, state):
        """Of the author's state from which one of the reduced chart comes, by the number of that."""
        return sum(not is_made(s) for s in self.made[:state])

    def told(self, warning):
        """A warning of the reduced chart in the author's numbers, or None."""
        code, first, *rest = warning
        if code in ("W04", "W05", "W06"):
            return warning if first < len(self.variables) else None
        if code == "W07":
            region = self.made[first].regions[rest[1]]
            state = self.number(first) - is_made(self.made[first])
            return None if is_made(region) else (code, state, rest[0], [r.name for r in self.states[state].regions].index(region.name))
        state = self.number(first)
        # a state that is made before one of his makes its entry actions, and is entered in its place
        if is_made(self.made[first]) and code != "W03":
            return None
        # what leaves a simple state is no abort in his text
        return None if code == "W01" and not self.states[state].regions else (code, state, *rest)

    def warnings(self):
        return [t for t in map(self.told, warnings_of(self.chart)) if t]
