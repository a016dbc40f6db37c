"""The lowering of core charts to SCL. Labels are made as they are needed, and numbered at the end in the order in which they
stand in the text."""


class Lowering:
    def __init__(self, chart):
        self.count = 0
        body = [("fork", [self.region(r) for r in chart.regions])]
        self.names = {}
        self.find(body)
        self.body = self.named(body)

    def label(self):
        self.count += 1
        return self.count

    # ---- statements, whose labels are not named yet

    def region(self, region):
        labels = {s: self.label() for s in region.states}
        end = self.label()
        initial = region.initial()
        body = []
        for s in [initial] + [s for s in region.states if s is not initial]:
            body += [("label", labels[s]), *self.state(s, [labels[s] for s in region.states], end)]
        return body + [("label", end)]

    def state(self, s, labels, end):
        if s.is_final:
            return [("goto", end)]
        if not s.regions:
            surface, is_left = self.transitions([t for t in s.transitions if t.immediate], labels)
            return surface + ([] if is_left else self.depth(s.transitions, labels))
        fork = ("fork", [self.region(r) for r in s.regions])
        join = s.of_kind("join")
        return [fork] + (self.taken(join[0], labels) if join else self.depth([], labels))

    def depth(self, transitions, labels):
        again = self.label()
        tests, is_left = self.transitions(transitions, labels)
        return [("label", again), ["pause"]] + tests + ([] if is_left else [("goto", again)])

    @staticmethod
    def taken(t, labels):
        return [("set", x, e) for x, e in t.effects] + [("goto", labels[t.target])]

    def transitions(self, transitions, labels):
        """The tests of transitions, and whether one of them is surely taken: then nothing follows it."""
        made = []
        for t in transitions:
            if t.trigger is None:
                return made + self.taken(t, labels), True
            made.append(("if", t.trigger, self.taken(t, labels), []))
        return made, False

    # ---- names

    def find(self, body):
        for s in body:
            if s[0] == "label":
                self.names[s[1]] = f"_L{len(self.names) + 1}"
            elif s[0] == "if":
                self.find(s[2])
            elif s[0] == "fork":
                for branch in s[1]:
                    self.find(branch)

    def named(self, body):
        made = []
        for s in body:
            if s[0] in ("label", "goto"):
                made.append((s[0], self.names[s[1]]))
            elif s[0] == "if":
                made.append(("if", s[1], self.named(s[2]), []))
            elif s[0] == "fork":
                made.append(("fork", [self.named(branch) for branch in s[1]]))
            else:
                made.append(s)
        return made


def lower(core):
    """The body of the SCL program of a core chart."""
    return Lowering(core).body
