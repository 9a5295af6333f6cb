#!/usr/bin/env python3
"""Runs the test of examples/cocotb without cocotb and without a simulator: both are stood in for here, and so is the toy
home of examples/scoreboard, line by line. So it shows that the test holds of a right home, and not of one with the bug;
it says nothing of cocotb itself.

Usage: tests/python/toy_home.py [--bug]
"""

import sys
import types
from pathlib import Path

TOP = Path(__file__).resolve().parents[2]
sys.dont_write_bytecode = True
sys.path[:0] = [str(TOP / "library"), str(TOP / "examples/cocotb")]


class Signal:
    """A signal; `rises` is called where it goes from 0 to 1."""

    def __init__(self, rises=None):
        self.now, self.rises = 0, rises

    @property
    def value(self):
        return self.now

    @value.setter
    def value(self, new):
        rises, self.now = self.rises and new > self.now, int(new)
        if rises:
            self.rises()


class Home:
    """examples/scoreboard/home.sv."""

    def __init__(self, bug):
        self.bug = bug
        for name in ("start", "answered", "acknowledged", "line", "agent", "for_unique", "has_copy", "snooped",
                     "completes", "unique_data"):
            setattr(self, name, Signal())
        for name in ("named", "alone", "busy", "served", "awaited", "wants_unique"):
            setattr(self, name, [Signal() for _ in range(4)])
        self.clk = Signal(self.edge)

    def edge(self):
        line, start, answered = self.line.value, self.start.value, self.answered.value
        self_bit, named = 1 << self.agent.value, self.named[line].value
        others = named & ~self_bit
        alone = others if self.alone[line].value else 0
        targets = (others & -others if self.bug else others) if self.for_unique.value else alone
        left = self.awaited[line].value & ~self_bit
        reader = self.agent.value if start else self.served[line].value
        is_unique = self.for_unique.value if start else self.wants_unique[line].value
        holders = others if answered and not self.has_copy.value else named
        is_alone = self.alone[line].value and not (answered and self.has_copy.value) and holders != 0
        done = (start and targets == 0) or (answered and left == 0)
        only = is_unique or not holders & ~(1 << reader)
        self.snooped.value, self.completes.value = targets if start else 0, done
        self.unique_data.value = only
        if start:
            self.busy[line].value, self.served[line].value = 1, self.agent.value
            self.wants_unique[line].value, self.awaited[line].value = self.for_unique.value, targets
        if answered:
            self.awaited[line].value, self.named[line].value, self.alone[line].value = left, holders, is_alone
        if done:
            self.named[line].value = 1 << reader if only else holders | 1 << reader
            self.alone[line].value = only
        if self.acknowledged.value:
            self.busy[line].value = 0


class Timer:
    """A wait that ends at once."""

    def __init__(self, *_):
        pass

    def __await__(self):
        return iter(())


def main(words):
    sys.modules["cocotb"] = types.SimpleNamespace(test=lambda: lambda test: test)
    sys.modules["cocotb.triggers"] = types.SimpleNamespace(Timer=Timer)
    import test_home
    run = test_home.random_reads(Home("--bug" in words))
    try:
        run.send(None)
    except StopIteration:
        return 0
    except AssertionError:
        return 1
    return 2


if __name__ == "__main__":
    sys.exit(main(sys.argv[1:]))
