"""Wrong machines of charts, each of them wrong in one clause: the rows of tests/cases/charts have to tell each from the right
one."""
from ordered_charts import OrderedMachine


class IgnoresStrongAbortsAtEntry(OrderedMachine):
    def come_to(self, r, s):
        super().come_to(r, s)
        standing = self.standing[r]
        if standing[0] == "entering" and standing[2]:
            self.open(r, s)


class TestsAllWeakAbortsAtEntry(OrderedMachine):
    def open(self, r, s):
        super().open(r, s)
        self.standing[r] = ("within", s, s.of_kind("weak") + s.of_kind("join"))


class TestsNoWeakAbortAtEntry(OrderedMachine):
    def open(self, r, s):
        super().open(r, s)
        self.standing[r] = ("within", s, s.of_kind("join"))


class TestsNoTerminationAtEntry(OrderedMachine):
    def open(self, r, s):
        super().open(r, s)
        self.standing[r] = ("within", s, [t for t in s.of_kind("weak") if t.immediate])


class TestsImmediateStrongAbortsAtEntryAlone(OrderedMachine):
    def wake(self, r):
        super().wake(r)
        standing = self.standing[r]
        if standing and standing[0] == "guarding":
            tests = [t for t in standing[2] if not t.immediate]
            self.standing[r] = ("guarding", standing[1], tests) if tests else self.let_in(standing[1])


class LetsAnInitialFinalStateWait(OrderedMachine):
    def come_to(self, r, s):
        super().come_to(r, s)
        if s.is_final and s.is_initial:
            self.standing[r] = ("trying", s, [])


class TestsTheFirstStrongAbortAlone(OrderedMachine):
    def wake(self, r):
        super().wake(r)
        standing = self.standing[r]
        if standing and standing[0] == "guarding":
            self.standing[r] = ("guarding", standing[1], standing[2][:1])


class TestsInReverse(OrderedMachine):
    def wake(self, r):
        super().wake(r)
        standing = self.standing[r]
        if standing and standing[0] == "trying":
            self.standing[r] = ("trying", standing[1], standing[2][::-1])


class DropKeepsEndedRegions(OrderedMachine):
    def inside(self, s):
        return [r for r in super().inside(s) if self.standing[r] != ("ended",)]


class DoesTheFirstEffectAlone(OrderedMachine):
    def act(self, r, s, effects, target):
        super().act(r, s, effects[:1], target)


class InnermostSuperstateGuardsAlone(OrderedMachine):
    def is_guarded(self, r):
        return any(self.standing[self.holder[s]][0] in ("entering", "guarding") for s in self.around(r)[-1:])


class WeakAbortsWaitForDirectRegionsAlone(OrderedMachine):
    def is_enabled(self, r):
        standing = self.standing[r]
        if not self.has_work(r) or self.is_guarded(r):
            return False
        return standing[0] != "within" or not any(self.has_work(inner) for inner in standing[1].regions)


class NobodyGuards(OrderedMachine):
    def is_guarded(self, r):
        return False


class TerminationWaitsForOneRegion(OrderedMachine):
    def has_work(self, r):
        standing = self.standing[r]
        if standing and standing[0] == "within" and standing[2] and standing[2][0].kind == "join":
            return any(self.standing[inner] == ("ended",) for inner in standing[1].regions)
        return super().has_work(r)


WRONG = [IgnoresStrongAbortsAtEntry, TestsAllWeakAbortsAtEntry, TestsNoWeakAbortAtEntry, TestsNoTerminationAtEntry,
         TestsImmediateStrongAbortsAtEntryAlone, LetsAnInitialFinalStateWait, TestsTheFirstStrongAbortAlone, TestsInReverse,
         DropKeepsEndedRegions, DoesTheFirstEffectAlone, InnermostSuperstateGuardsAlone, WeakAbortsWaitForDirectRegionsAlone,
         NobodyGuards, TerminationWaitsForOneRegion]
