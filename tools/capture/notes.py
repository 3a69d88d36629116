"""What is said at the end: what was passed over, and what was made up or looks wrong."""
import collections


class Fault(Exception):
    """Nothing can be made of what was given, and why."""


class Notes:
    """What was passed over is counted by kind; what is worth a line of its own is kept once, in order."""

    def __init__(self):
        self.counts, self.texts = collections.Counter(), {}

    def passed(self, what, count=1):
        if count:
            self.counts[what] += count

    def say(self, text):
        self.texts[text] = True

    def lines(self):
        yield from self.texts
        for what, count in sorted(self.counts.items()):
            yield f"passed over: {what}: {count}"
