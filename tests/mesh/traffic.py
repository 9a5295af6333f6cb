"""Random traffic: what each requester does next, by its copy of a line of the hot set or of the cold one."""

from atomics import atomic_fields
from trace import FULL, LINE, Flit, span_mask

HOT, COLD = 10, 160
DEVICE = 0x4000
# Requests that always end with a CompAck.
ACKNOWLEDGED = ("ReadNotSharedDirty", "ReadShared", "ReadClean", "ReadUnique", "CleanUnique", "MakeUnique")
READS_ONCE = ("ReadOnce", "ReadOnce", "ReadOnceCleanInvalid", "ReadOnceMakeInvalid")
WRITES = ("WriteUniqueFull", "WriteUniquePtl", "WriteUniqueFullStash", "WriteUniquePtlStash")
ATOMICS = ("AtomicStore", "AtomicLoad", "AtomicSwap", "AtomicCompare")
STASHES = ("StashOnceShared", "StashOnceUnique")


class Traffic:
    """Drives the requesters of a world."""

    def __init__(self, world):
        self.world, self.random = world, world.random
        self.hot = self.random.sample(range(0x40, 0x400), HOT)
        self.cold = self.random.sample(range(0x400, 0x2000), COLD)
        self.limit = self.random.choice((1, 3, 6))

    def start(self):
        """Begins the traffic of each requester, and the links' own."""
        for node in self.world.full + (self.world.io if self.world.has("rni") else []):
            self.world.after(self.random.randrange(40), self.step, node)
        if self.world.has("link-credits"):
            self.world.after(100, self.links)

    def step(self, node):
        """One thing that a requester does."""
        requester = self.world.nodes[node]
        if len(requester.busy) < self.limit:
            if self.world.chance(0.04):
                self.other(requester)
            elif node in self.world.io:
                self.without_copy(requester, self.line())
            else:
                self.with_cache(requester, self.line())
        self.world.after(self.random.choice((1, 4, 9, 20, 60)), self.step, node)

    def line(self):
        return self.random.choice(self.hot) if self.world.chance(0.7) else self.random.choice(self.cold)

    def ask(self, requester, choices, line, **fields):
        """Begins a request of one of these kinds that are switched on, if any."""
        kinds = [kind for kind in choices if self.world.has(kind)]
        overlaps = fields.pop("overlaps", False)
        if kinds and (overlaps or line not in requester.busy):
            kind = self.random.choice(kinds)
            if kind in ACKNOWLEDGED:
                fields["exp"] = 1
            requester.request(kind, line, **fields)

    def with_cache(self, requester, line):
        """A load, a store, an eviction or something else of a full cache."""
        if line in requester.busy:
            copy = requester.lines.get(line)
            if copy and self.world.chance(0.3):
                requester.load(line, copy)
            return
        act = self.random.choices((self.load, self.store, self.evict, self.maintain, self.elsewhere), (30, 34, 20, 5, 8))[0]
        held = [line for line in requester.lines if line not in requester.busy]
        if held and (act == self.evict or act == self.maintain and self.world.chance(0.5)):
            line = self.random.choice(held)
        act(requester, line, requester.lines.get(line))

    def load(self, requester, line, copy):
        """A load: a hit, or a read."""
        if copy is None or copy.state == "UCE":
            self.ask(requester, ("ReadNotSharedDirty", "ReadShared", "ReadShared", "ReadClean"), line, offset=self.word())
        else:
            requester.load(line, copy)

    def word(self):
        return self.random.choice((0, 0, 8, 0x10, 0x38))

    def store(self, requester, line, copy):
        """A store: a hit where the copy is unique, else what makes it so."""
        state = copy.state if copy else "I"
        if state == "UCE" and not self.world.has("partial"):
            requester.store(line, copy, self.random.randbytes(LINE), FULL)
        elif state in ("UC", "UD", "UCE", "UDP"):
            data, mask = requester.some_bytes()
            requester.store(line, copy, data, FULL if self.world.chance(0.1) else mask)
        elif requester.bugs.hits("store-in-shared", state == "SC"):
            self.store_in_shared(requester, line, copy)
        elif state == "I":
            kinds = ("ReadUnique", "ReadUnique", "MakeUnique") + (("CleanUnique",) if self.world.has("partial") else ())
            self.ask(requester, kinds, line)
        elif state == "SC":
            self.ask(requester, ("CleanUnique", "CleanUnique", "MakeUnique", "ReadUnique"), line)
        else:
            self.ask(requester, ("CleanUnique", "MakeUnique"), line)

    def store_in_shared(self, requester, line, copy):
        """The planted bug: a store to a copy that isn't unique."""
        data, mask = requester.some_bytes()
        requester.bugs.arm()
        requester.store(line, copy, data, mask)
        copy.state = "UD"

    def evict(self, requester, line, copy):
        """A copy goes, or is made clean, or shared."""
        if copy is None:
            return
        state, bugs = copy.state, requester.bugs
        if bugs.hits("evict-of-dirty", state == "UD"):
            bugs.arm()
            del requester.lines[line]
            self.ask(requester, ("Evict",), line)
        elif bugs.hits("write-back-of-clean", state in ("SC", "UC")):
            bugs.arm()
            copy.state = "UD"
            self.ask(requester, ("WriteBackFull",), line)
        elif state in ("SC", "UC", "UCE"):
            self.evict_clean(requester, line, copy)
        elif state == "UDP":
            self.ask(requester, ("WriteBackPtl",), line)
        elif state == "UD" and self.world.has("local-sharing") and self.world.chance(0.1):
            copy.state = "SD"
        else:
            self.ask(requester, ("WriteBackFull", "WriteBackFull", "WriteCleanFull"), line)

    def evict_clean(self, requester, line, copy):
        """A clean copy goes silently, by an Evict, or with its data."""
        if copy.state == "UC" and self.world.has("local-sharing") and self.world.chance(0.1):
            copy.state = "SC"
        elif copy.state == "UC" and self.world.has("WriteEvictFull") and self.world.chance(0.4):
            self.ask(requester, ("WriteEvictFull",), line)
        elif self.world.has("Evict") and self.world.chance(0.6):
            del requester.lines[line]
            self.ask(requester, ("Evict",), line)
        elif self.world.has("silent-drop"):
            del requester.lines[line]

    def maintain(self, requester, line, copy):
        """A request that cleans or takes copies elsewhere."""
        state = copy.state if copy else "I"
        if state in ("I", "SC", "UC"):
            kinds = ("CleanShared", "CleanShared", "CleanSharedPersist")
            self.ask(requester, kinds + (("CleanInvalid", "CleanInvalid", "MakeInvalid") if state == "I" else ()), line)

    def elsewhere(self, requester, line, copy):
        """A full cache's requests that leave it no copy, from I."""
        if copy is None:
            self.without_copy(requester, line)

    def without_copy(self, requester, line):
        """A read, a write, an atomic or a stash of a requester that has no copy."""
        is_io = requester.ident in self.world.io
        overlaps = {"overlaps": True} if is_io and self.world.has("overlap") and requester.busy.get(line, 0) < 2 else {}
        act = self.random.choices((self.read_once, self.write, self.atomic, self.stash, self.keep_house), (40, 25, 15, 10, 5))[0]
        act(requester, line, overlaps)

    def read_once(self, requester, line, more):
        exp = self.random.choice((0, 1)) if self.world.has("once-ack") else 0
        is_ordered = requester.ident in self.world.io and self.world.has("receipts") and self.world.chance(0.3)
        self.ask(requester, READS_ONCE, line, exp=exp, offset=self.word(), hidden={"order": is_ordered}, **more)

    def write(self, requester, line, more):
        """A write of a line, or of some of its bytes."""
        kinds = [kind for kind in WRITES if self.world.has(kind)]
        if not kinds:
            return
        kind = self.random.choice(kinds)
        exp = 1 if self.world.has("write-ack") and self.world.chance(0.2) else 0
        fields = {"exp": exp, "payload": (self.random.randbytes(LINE), FULL, (0, LINE)), "size": 6}
        if "Ptl" in kind:
            fields.update(self.part())
        if kind.endswith("Stash") and self.world.chance(0.8):
            fields["stash"] = self.other_cache(requester)
        self.ask(requester, (kind,), line, **fields, **more)

    def part(self):
        """Some bytes of a line: of a window of a size of a power of two."""
        size = self.random.choice((0, 2, 3, 3, 4, 5, 6, 6))
        first = self.random.randrange(0, LINE, 1 << size)
        window = span_mask(first, 1 << size)
        mask = window if self.world.chance(0.5) else window & self.random.getrandbits(LINE)
        return {"offset": first, "payload": (self.random.randbytes(LINE), mask, (first, 1 << size)), "size": size}

    def other_cache(self, requester):
        """The target of a stash."""
        return self.random.choice([node for node in self.world.full if node != requester.ident])

    def atomic(self, requester, line, more):
        kinds = [kind for kind in ATOMICS if self.world.has(kind)]
        if kinds:
            kind = self.random.choice(kinds)
            self.ask(requester, (kind,), line, exp=0, **atomic_fields(self.random, kind), **more)

    def stash(self, requester, line, more):
        target = self.other_cache(requester) if self.world.chance(0.8) else None
        self.ask(requester, STASHES, line, stash=target, **more)

    def keep_house(self, requester, line, more):
        self.ask(requester, ("CleanShared", "CleanSharedPersist", "CleanInvalid", "MakeInvalid"), line, **more)

    def other(self, requester):
        """Requests that are of no coherent line, and hints."""
        act = self.random.choice((self.device, self.device, self.dvm, self.prefetch))
        act(requester)

    def device(self, requester):
        """A read or a write of the device."""
        kinds = [kind for kind in ("ReadNoSnp", "WriteNoSnpFull", "WriteNoSnpPtl") if self.world.has(kind)]
        line = DEVICE + self.random.randrange(8)
        if not kinds or line in requester.busy:
            return
        kind = self.random.choice(kinds)
        fields = {"target": self.world.device, "exp": 0, **self.part()}
        if kind == "ReadNoSnp":
            fields["hidden"] = {"span": fields["payload"][2], "order": self.world.has("receipts") and self.world.chance(0.5)}
        if kind == "WriteNoSnpFull":
            fields.update(offset=0, size=6, payload=(self.random.randbytes(LINE), FULL, (0, LINE)))
        requester.request(kind, line, **fields)

    def dvm(self, requester):
        """A DVM operation: its line is a number that no address has."""
        line = 0x8000 + self.random.randrange(64)
        if self.world.has("DVMOp") and requester.ident in self.world.full and line not in requester.busy:
            payload = (self.random.randbytes(8) + bytes(LINE - 8), 0xFF, (0, 8))
            requester.request("DVMOp", line, target=self.world.spreader, payload=payload, size=3)

    def prefetch(self, requester):
        """A hint to the memory, without an answer."""
        if self.world.has("PrefetchTgt"):
            line = self.line()
            memory = self.world.memories[line // self.world.options.homes % len(self.world.memories)]
            self.world.send(Flit("REQ", requester.ident, memory, "PrefetchTgt", 0, line * LINE, allow_retry=0, credit=0))

    def links(self):
        """Now and then a link returns its credits."""
        node, home = self.random.choice(self.world.full), self.random.choice(self.world.homes)
        channel, opcode = self.random.choice((("REQ", "ReqLCrdReturn"), ("RSP", "RespLCrdReturn"), ("DAT", "DataLCrdReturn"),
                                              ("SNP", "SnpLCrdReturn")))
        source, target = (home, node) if channel == "SNP" else (node, home)
        flit = Flit(channel, source, target, opcode, 0)
        if channel in ("REQ", "SNP"):
            flit.address = 0
        if channel == "REQ":
            flit.allow_retry, flit.credit = 0, 0
        self.world.log.put(flit, self.world.time)
        self.world.after(self.random.randrange(100, 900), self.links)
