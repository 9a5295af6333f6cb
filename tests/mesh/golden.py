"""What memory is to hold: the simulator's own check that its protocol is coherent.

Each store counts at once, in the order of the home's serialization: while a copy is unique no other one is left. So a
copy reads what the line holds now, and a read without a copy what the line held at some time since it was sent.
"""

import sys

from trace import FULL, LINE, merged, mask_bytes

KEPT = 4000


class Wrong(Exception):
    """The simulated system isn't coherent."""


class Golden:
    """The value of each line, with those that it had lately."""

    def __init__(self, seed):
        self.seed, self.values, self.past = seed, {}, {}
        self.world, self.is_strict, self.has_failed = None, True, False
        self.copies = {}

    def first(self, line):
        """What memory holds of a line at the start: 0 in each third line, else words by its number."""
        if line % 3 == 0:
            return bytes(LINE)
        words = [(line * 0x9E3779B97F4A7C15 + index * 0xD6E8FEB86659FD93 + self.seed) >> 7 & 0xFFFF for index in range(8)]
        return b"".join(word.to_bytes(8, "little") for word in words)

    def value(self, line):
        if line not in self.values:
            self.values[line] = self.first(line)
            self.past[line] = [(0, self.values[line])]
        return self.values[line]

    def set(self, line, data):
        """The line's value from now on."""
        self.value(line)
        self.values[line] = bytes(data)
        past = self.past[line]
        past.append((self.world.time, self.values[line]))
        while len(past) > 2 and past[1][0] < self.world.time - KEPT:
            past.pop(0)

    def store(self, node, line, data, mask):
        """A store: no other requester has a copy, and the bytes are the line's from now on."""
        self.alone(node, line)
        self.set(line, merged(self.value(line), data, mask))

    def fail(self, message):
        """The system isn't coherent: that is told, and is the end where no bug is planted."""
        if self.is_strict:
            raise Wrong(f"log line {self.world.log.lines}: {message}")
        if not self.has_failed:
            print(f"assert: behind log line {self.world.log.lines}: {message}", file=sys.stderr)
            self.world.bugs.note(self.world.log.lines)
        self.has_failed = True

    def alone(self, node, line):
        """No other requester has a copy."""
        others = [f"{other:x} {copies[line].state}" for other, copies in self.copies.items()
                  if other != node and line in copies]
        if others:
            self.fail(f"node {node:x} is to be alone at {line * LINE:x}, beside {', '.join(others)}")

    def copy(self, node, line, copy):
        """A copy has what the line holds, and is beside others only where it may be."""
        if copy.state in ("UC", "UD", "UCE", "UDP"):
            self.alone(node, line)
        self.same(node, line, copy.data, copy.mask)

    def same(self, node, line, data, mask=FULL):
        """The bytes that `mask` names are those that the line holds."""
        value = self.value(line)
        for index in mask_bytes(mask):
            if data[index] != value[index]:
                self.fail(f"node {node:x} has byte {index} of {line * LINE:x} as {data[index]:x}, not {value[index]:x}")
                return

    def seen(self, node, line, data, since, mask=FULL):
        """The bytes that `mask` names are those that the line held at some time since then."""
        self.value(line)
        past = self.past[line]
        for at, (start, value) in enumerate(past):
            is_over = at + 1 < len(past) and past[at + 1][0] < since
            if not is_over and all(data[index] == value[index] for index in mask_bytes(mask)):
                return
        self.fail(f"node {node:x} reads a value of {line * LINE:x} that it never had since time {since:x}")
