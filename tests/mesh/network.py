"""Time, channels and processes.

A flit is logged when it is put, and comes to its target after a random latency. A channel from one node to another is a
FIFO; different channels, and different pairs of nodes, race. Processes are generators: what one yields is a number of
ticks to sleep, or a condition to wait for, which is asked again at each `poke`.
"""

import heapq
import random

from trace import LINE


# Ticks without a flit after which all is stuck.
STUCK = 5000


class Process:
    """A generator that runs until it waits: `run` begins it."""

    def __init__(self, world, steps):
        self.world, self.steps, self.waiting, self.is_done = world, steps, None, False

    def run(self):
        self.waiting = None
        for wait in self.steps:
            if isinstance(wait, int):
                self.world.after(wait, self.run)
                return
            if not wait():
                self.waiting = wait
                return
        self.is_done = True

    def poke(self):
        """Goes on where what is waited for holds."""
        if self.waiting and self.waiting():
            self.run()


class World:
    """The clock, the nodes by their ids, the channels between them, and what all nodes share."""

    def __init__(self, seed, log, options, bugs, golden):
        self.random = random.Random(seed)
        self.log, self.options, self.bugs, self.golden = log, options, bugs, golden
        self.time, self.put_at, self.count, self.events = 0, 0, 0, []
        self.nodes, self.last, self.widths = {}, {}, {}

    def has(self, feature):
        """Whether a feature is switched on."""
        return feature not in self.options.without

    def chance(self, share):
        return self.random.random() < share

    def after(self, ticks, action, *words):
        """Does an action in so many ticks."""
        self.count += 1
        heapq.heappush(self.events, (self.time + ticks, self.count, action, words))

    def run(self):
        """Does what is due, until the log has its flits, or no flit was put for so long that all is stuck."""
        while self.events and not self.log.is_full:
            self.time, _, action, words = heapq.heappop(self.events)
            action(*words)
            if self.time > self.put_at + STUCK:
                self.golden.fail("no flit was put for long: all is stuck")
                return

    def width(self, node):
        """How many bytes of data a beat of a node has."""
        if node not in self.widths:
            self.widths[node] = self.random.choice((16, 32, 64)) if self.has("beats") else LINE
        return self.widths[node]

    def send(self, flit):
        """Puts a flit now, and of data the further beats later. Tells in how many ticks the last one is put."""
        if not flit.is_data:
            self.put(flit, None, [1])
            return 0
        width = self.width(flit.source)
        start, count = flit.span
        beats = [(first, width) for first in range(start // width * width, start + count, width)]
        if self.has("order"):
            self.random.shuffle(beats)
        left, ticks = [len(beats)], 0
        for index, beat in enumerate(beats):
            if index:
                ticks += self.random.choice((1, 1, 2, 3, 7))
                self.after(ticks, self.put, flit, beat, left)
            else:
                self.put(flit, beat, left)
        return ticks

    def put(self, flit, beat, left):
        """Logs a flit or a beat, and has it come later. `left` counts the beats that haven't come yet."""
        line = self.log.put(flit, self.time, beat)
        self.put_at = self.time
        if flit.wrong:
            self.bugs.note(line)
        lane = (flit.channel, flit.source, flit.target)
        latency = self.random.choice((1, 2, 3, 4, 5, 8, 13, 30))
        arrival = max(self.time + latency, self.last.get(lane, 0))
        self.last[lane] = arrival
        self.after(arrival - self.time, self.arrive, flit, beat, left)

    def arrive(self, flit, beat, left):
        """A flit or a beat has come. Its node takes all of it at its last beat, or at an earlier one to pass beats on."""
        left[0] -= 1
        node = self.nodes[flit.target]
        if beat is not None:
            flit.beats.append(beat)
            if flit.relay:
                self.after(self.random.randrange(4), self.put, flit.relay, beat, flit.relay.left)
        if left[0] == 0:
            node.receive(flit)
        elif flit.opcode == "SnpRespData":
            node.begins(flit)

    def relay(self, flit, source):
        """Puts each beat of a flit once that beat of another one has come, whose data it passes on."""
        width = self.width(flit.source)
        flit.left = [LINE // width]
        source.relay = flit
        for beat in source.beats:
            self.after(self.random.randrange(4), self.put, flit, beat, flit.left)


class Numbers:
    """Numbers of 8 bits, each in use at most once."""

    def __init__(self, world):
        self.world, self.used, self.next = world, set(), 0
        self.policy = world.random.choice(("lowest", "random", "next"))

    def take(self):
        """A free number."""
        number = self.next
        if self.policy == "random":
            number = self.world.random.randrange(256)
        if self.policy == "lowest":
            number = 0
        while number in self.used:
            number = (number + 1) % 256
        self.used.add(number)
        self.next = (number + 1) % 256
        return number

    def free(self, number):
        self.used.discard(number)

    @property
    def count(self):
        return len(self.used)
