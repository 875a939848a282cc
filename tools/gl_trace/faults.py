"""How a conversion ends where it can't go on, and what it tells of where it went on otherwise."""
import collections


class Refused(Exception):
    """The trace, or what it means, doesn't fit a scene: one line that says why."""


class Notes:
    """What has no counterpart in a scene, by name and how often."""

    def __init__(self):
        self.counts, self.said = collections.Counter(), []
        self.weights = {}

    def say(self, line):
        """Keeps a line that is told as it is, once."""
        if line not in self.said:
            self.said.append(line)

    def weigh(self, kind, what, vertices=0, pixels=0.0):
        """Adds to how much of what is drawn a note is about."""
        weight = self.weights.setdefault((kind, what), [0, 0, 0.0])
        weight[0] += vertices > 0
        weight[1] += vertices
        weight[2] += pixels

    def left_out(self, what, weighed=False):
        """Counts a call; where it is one of a state, how much is drawn under it is told too."""
        self.counts["left out", what] += 1
        if weighed:
            self.weigh("left out", what)

    def approximated(self, what, weighed=False):
        self.counts["approximated", what] += 1
        if weighed:
            self.weigh("approximated", what)

    def lines(self):
        return self.said + [self.line(*key) for key in sorted({**self.counts, **self.weights})]

    def line(self, kind, what):
        """A note: how often something was called, else for how many primitives it was so; and of
        how many vertices and pixels."""
        draws, vertices, pixels = self.weights.get((kind, what), (0, 0, 0.0))
        weight = f": {vertices} vertices, {round(pixels)} pixels" if (kind, what) in self.weights \
            else ""
        return f"{kind} {what} {self.counts.get((kind, what), draws)}{weight}"
