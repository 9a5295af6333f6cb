#!/usr/bin/env python3
"""The bench of bench.c, over chihome.py.

Usage: examples/observer/bench.py [forgets|early]

The module `chihome` is found by PYTHONPATH.
"""

import sys

import chihome
from chihome import Opcode, Resp, Seen, State

CACHES, LINES, TURNS, HOME, FIRST_CACHE = 3, 2, 1000, 0x40, 8
DIRTY = (State.UD, State.SD)


class Copy:
    """A cache's copy of a line."""

    def __init__(self):
        self.state, self.words = State.I, [0] * 8

    def snooped(self, may_stay):
        """The answer's RESP, with the data of a dirty copy; a copy that may stay is shared."""
        was, stays = self.state, may_stay and self.state != State.I
        self.state = State.SC if stays else State.I
        if was in DIRTY:
            return Resp.SC_PD if stays else Resp.I_PD, self.words
        return Resp.SC if stays else Resp.I, None


class Bench:
    """The caches and the home, and the observer that is given each flit. The home keeps no filter but snoops every other
    cache for each read, and passes dirty data on to the reader. By its mistake it leaves the last cache out (`forgets`), or
    sends its data before the last answer (`early`)."""

    def __init__(self, mistake, observer):
        self.mistake, self.observer = mistake, observer
        self.copies = {(cache, line): Copy() for cache in range(CACHES) for line in range(LINES)}
        self.memory = [[0] * 8 for _ in range(LINES)]

    def up(self, opcode, cache, line, **fields):
        """A flit of a cache. The line's number is the TxnID and the DBID of each."""
        self.observer.take(Seen(opcode, FIRST_CACHE + cache, HOME, line, 0x1000 + 64 * line, **fields))

    def down(self, opcode, cache, line, **fields):
        """A flit of the home."""
        self.observer.take(Seen(opcode, HOME, FIRST_CACHE + cache, line, 0x1000 + 64 * line, **fields))

    def answer(self, cache, line, may_stay):
        """Whether a shared copy stays, and dirty data where they come."""
        resp, words = self.copies[cache, line].snooped(may_stay)
        if words:
            self.up(Opcode.SnpRespData, cache, line, resp=resp, words=words)
        else:
            self.up(Opcode.SnpResp, cache, line, resp=resp)
        return resp in (Resp.SC, Resp.SC_PD), words

    def complete(self, cache, line, is_alone, dirty):
        """The home gives a copy: a shared one beside others, and with the duty to write what is dirty."""
        resp = (Resp.UD_PD if is_alone else Resp.SD_PD) if dirty else (Resp.UC if is_alone else Resp.SC)
        words = dirty or self.memory[line]
        self.down(Opcode.CompData, cache, line, resp=resp, dbid=line, words=words)
        copy = self.copies[cache, line]
        copy.state, copy.words = State[resp.name[:2]], list(words)

    def read(self, cache, line, is_unique):
        self.up(Opcode.ReadUnique if is_unique else Opcode.ReadShared, cache, line)
        others = [it for it in range(CACHES) if it != cache]
        if self.mistake == "forgets":
            others.pop()
        for other in others:
            self.down(Opcode.SnpUnique if is_unique else Opcode.SnpShared, other, line)
        stays, dirty = False, None
        for other in others:
            if self.mistake == "early" and other == others[-1]:
                self.complete(cache, line, is_unique or not stays, dirty)
            kept, words = self.answer(other, line, not is_unique)
            stays, dirty = stays or kept, dirty or words
        if self.mistake != "early":
            self.complete(cache, line, is_unique or not stays, dirty)
        self.up(Opcode.CompAck, cache, line)

    def write_back(self, cache, line):
        copy = self.copies[cache, line]
        self.up(Opcode.WriteBackFull, cache, line)
        self.down(Opcode.CompDBIDResp, cache, line, dbid=line)
        self.up(Opcode.CopyBackWrData, cache, line, resp=Resp[copy.state.name + "_PD"], words=copy.words)
        self.memory[line], copy.state = list(copy.words), State.I

    def turn(self, drawn):
        """A cache does what is drawn at a line, if its copy lets it."""
        cache, line, act = drawn % CACHES, drawn // 3 % LINES, drawn // 6 % 5
        copy = self.copies[cache, line]
        if act == 0 and copy.state in (State.UC, State.UD):
            copy.words[drawn // 30 % 8], copy.state = drawn // 240 % 1000, State.UD
        elif act == 1 and copy.state in (State.SC, State.UC):
            copy.state = State.I
        elif act == 2 and copy.state == State.I:
            self.read(cache, line, False)
        elif act == 3 and copy.state in (State.I, State.SC):
            self.read(cache, line, True)
        elif act == 4 and copy.state in DIRTY:
            self.write_back(cache, line)


def main(words):
    state = 7
    with chihome.Observer(lines=LINES, requesters=CACHES) as observer:
        bench = Bench(words[0] if words else "", observer)
        try:
            for _ in range(TURNS):
                state = (state * 6364136223846793005 + 1442695040888963407) % (1 << 64)
                bench.turn(state >> 33)
        except chihome.Fault as fault:
            print(f"{fault.name}: {observer.fault().text}")
            return 1
        counts = observer.counts()
        opened = counts.requests + counts.completions + counts.snoops
        print(f"{counts.flits} flits on {counts.lines} lines are taken, and {opened} ids are open")
    return 0


if __name__ == "__main__":
    sys.exit(main(sys.argv[1:]))
