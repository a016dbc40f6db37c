"""All admissible runs of one tick of the plain machine of charts, one after another: nothing is left to chance, so only small
charts have few enough of them."""


class TooMany(Exception):
    """The runs take more steps than may be made."""


def ends_of(machine, limit=4000):
    """The ends of all complete admissible runs of a tick that has begun, each end once, and how many such runs there are. The
    machine stays where it is."""
    ends, runs, steps, run = [], 0, 0, []

    def go_on():
        nonlocal runs, steps
        enabled = [r for r in machine.regions if machine.is_enabled(r)]
        if not enabled:
            runs += 1
            end = machine.saved()
            if end not in ends:
                ends.append(end)
        for r in enabled:
            access = machine.access(r)
            if machine.clash(run, r, access) is not None:
                continue
            steps += 1
            if steps > limit:
                raise TooMany()
            before = machine.saved()
            run.append((r, access))
            machine.step(r)
            go_on()
            run.pop()
            machine.values, machine.standing = before

    go_on()
    return ends, runs


class AllRuns:
    """Plays ticks of a chart by all of their runs. `several` counts the ticks that have more than one."""

    def __init__(self):
        self.several = 0

    def outputs(self, machine, ticks):
        """What each tick gives, up to one with too many runs, and what is wrong of their ends."""
        given = []
        for number, tick in enumerate(ticks, 1):
            machine.begin(tick)
            try:
                ends, runs = ends_of(machine)
            except (TooMany, RecursionError):
                return given, []
            if len(ends) != 1:
                return given, [f"tick {number}: {runs} complete admissible runs of the chart have {len(ends)} ends"]
            self.several += runs > 1
            machine.values, machine.standing = ends[0]
            given.append(machine.outputs())
        return given, []
