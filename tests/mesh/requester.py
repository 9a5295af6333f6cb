"""Requesters: what a node does with its requests, and what a full cache does with snoops."""

from cache import DIRTY, Answer, Copy, fitting
from issuer import Issuer, Pending
from network import Process
from trace import FULL, LINE, masked, merged, span_mask

READS = ("ReadNotSharedDirty", "ReadShared", "ReadClean", "ReadUnique")
READS_ONCE = ("ReadOnce", "ReadOnceCleanInvalid", "ReadOnceMakeInvalid", "ReadNoSnp")
COPY_BACKS = ("WriteBackFull", "WriteBackPtl", "WriteCleanFull", "WriteEvictFull")
ATOMICS = ("AtomicStore", "AtomicLoad", "AtomicSwap", "AtomicCompare")
# Requests that a requester may not want any more once they were retried.
UNWANTED = (*READS, *READS_ONCE[:3], "CleanUnique", "MakeUnique", "StashOnceShared", "StashOnceUnique")
STATE_OF = {"UC": "UC", "SC": "SC", "UD_PD": "UD", "SD_PD": "SD", "I": None}
WRITTEN_AS = {"UD": "UD_PD", "UDP": "UD_PD", "SD": "SD_PD", "UC": "UC", "SC": "SC", "UCE": "I"}


def steps_of(node, pending):
    """The steps of a request of its kind."""
    opcode = pending.opcode
    if opcode in READS:
        return node.read(pending)
    if opcode in READS_ONCE:
        return node.read_once(pending)
    if opcode in COPY_BACKS:
        return node.copy_back(pending)
    if opcode in ATOMICS or opcode.startswith("Write") or opcode == "DVMOp":
        return node.write(pending)
    return node.dataless(pending)


class Requester(Issuer):
    """A requester: RN-I as it is, and what RN-F has besides."""

    def __init__(self, world, ident, homes):
        super().__init__(world, ident)
        self.homes, self.busy, self.lines = homes, {}, {}
        self.halves = set()
        world.golden.copies[ident] = self.lines

    def home_of(self, line):
        return self.homes[line % len(self.homes)]

    def receive(self, flit):
        """Takes what comes: a reply, or a snoop, which is answered some time later."""
        if flit.channel != "SNP":
            self.reply(flit)
        elif flit.opcode == "SnpDVMOp":
            self.later(8, self.answer_dvm, flit)
        else:
            self.later(9, self.answer, flit)

    def request(self, opcode, line, target=None, offset=0, **more):
        """Begins a request."""
        more.setdefault("exp", 0)
        extras = {name: more[name] for name in ("exp", "stash", "size", "op") if more.get(name) is not None}
        flit = self.flit("REQ", target if target is not None else self.home_of(line), opcode, address=line * LINE + offset,
                         extras=extras, hidden=more.get("hidden", {}))
        pending = Pending(flit, self.world.time)
        pending.payload = more.get("payload")
        self.hold(line)
        if opcode in COPY_BACKS and self.world.has("cancel"):
            pending.is_lost = lambda: not self.may_write(opcode, line)
        elif opcode in UNWANTED and self.world.has("cancel-others") and self.world.chance(0.2):
            pending.is_lost = lambda: True
        self.spawn(pending, self.whole(pending))

    def may_write(self, opcode, line):
        """Whether the copy still is one that the copy-back is for."""
        copy = self.lines.get(line)
        needed = {"WriteBackFull": ("UD", "SD"), "WriteCleanFull": ("UD", "SD"), "WriteEvictFull": ("UC",),
                  "WriteBackPtl": ("UDP",)}[opcode]
        return copy is not None and copy.state in needed

    def whole(self, pending):
        """A request from its first attempt to its last flit."""
        line = pending.line
        is_served = yield from self.ask(pending)
        if is_served:
            yield from steps_of(self, pending)
        self.let_go(line)

    def hold(self, line):
        """Something of the line is under way here."""
        self.busy[line] = self.busy.get(line, 0) + 1

    def let_go(self, line):
        self.busy[line] -= 1
        if self.busy[line] == 0:
            del self.busy[line]

    def acknowledge(self, home, number):
        """Sends a CompAck."""
        if self.bugs.hits("lost-ack"):
            self.bugs.arm()
            return
        flit = self.flit("RSP", home, "CompAck", txn=number)
        self.bugs.acknowledgement(flit)
        self.send(flit)
        if self.bugs.hits("ack-twice"):
            self.send(self.flit("RSP", home, "CompAck", txn=number, wrong=True))

    def read(self, pending):
        """Data for a copy, a CompAck, and often a store at once."""
        yield lambda: pending.data
        self.release(pending)
        flit = pending.data
        self.install(pending.line, STATE_OF[flit.resp], flit.data)
        copy = self.lines[pending.line]
        if pending.opcode == "ReadUnique" and self.world.chance(0.6):
            self.store(pending.line, copy, *self.some_bytes())
        yield self.random.choice((0, 0, 1, 4, 15))
        self.acknowledge(flit.extras["home"], flit.dbid)

    def read_once(self, pending):
        """Data that aren't kept."""
        yield lambda: pending.data
        if pending.flit.hidden.get("order"):
            yield lambda: pending.receipt
        self.release(pending)
        flit = pending.data
        if pending.opcode != "ReadNoSnp":
            self.world.golden.seen(self.ident, pending.line, flit.data, pending.since)
        if pending.flit.extras.get("exp"):
            yield self.random.choice((0, 1, 6))
            self.acknowledge(flit.extras["home"], flit.dbid)

    def dataless(self, pending):
        """A completion without data, and what the copy is then."""
        yield lambda: pending.comp
        self.release(pending)
        line, opcode = pending.line, pending.opcode
        copy = self.lines.get(line)
        if opcode == "CleanUnique":
            if copy is None:
                self.lines[line] = Copy("UCE", bytes(LINE), 0)
            elif copy.state == "SC":
                copy.state = "UC"
            elif copy.state == "SD":
                copy.state = "UD"
            self.world.golden.copy(self.ident, line, self.lines[line])
            if self.world.has("partial") and self.world.chance(0.7):
                self.store(line, self.lines[line], *self.some_bytes())
        if opcode == "MakeUnique":
            data, mask = self.random.randbytes(LINE), FULL
            self.lines[line] = Copy("UD", data)
            self.record_store(line, data, mask)
        if pending.flit.extras.get("exp"):
            yield self.random.choice((0, 0, 2, 12))
            self.acknowledge(pending.flit.target, pending.comp.dbid)

    def write_data(self, pending, opcode, data, mask, resp, span=(0, LINE)):
        """Sends write data to who gave a DBID. Tells in how many ticks the last beat is put."""
        return self.send(self.flit("DAT", pending.dbid.source, opcode, txn=pending.dbid.dbid, resp=resp, data=masked(data, mask),
                                   enables=mask, span=span))

    def write(self, pending):
        """A write without a copy, an atomic or a DVMOp: data once there is a DBID."""
        yield lambda: pending.dbid
        yield self.random.choice((0, 0, 2, 9))
        data, mask, span = pending.payload
        is_partial = pending.opcode.endswith(("Ptl", "PtlStash"))
        if is_partial and self.world.has("write-cancel") and self.world.chance(0.12):
            flit = self.flit("DAT", pending.dbid.source, "WriteDataCancel", txn=pending.dbid.dbid, resp="I", data=bytes(LINE),
                             enables=0, span=span)
            if self.bugs.hits("cancel-written"):
                flit.hidden["written"] = True
                self.bugs.arm()
            ticks = self.send(flit)
        else:
            ticks = self.write_data(pending, "NonCopyBackWrData", data, mask, "I", span)
        if pending.opcode in ATOMICS[1:]:
            yield lambda: pending.data
            self.world.golden.seen(self.ident, pending.line, pending.data.data, pending.since, pending.flit.hidden["old"])
        else:
            yield lambda: pending.comp
        self.release(pending)
        yield ticks
        if pending.flit.extras.get("exp"):
            self.acknowledge(pending.flit.target, pending.dbid.dbid)

    def copy_back(self, pending):
        """The copy's data, in the form that snoops have left of it."""
        yield lambda: pending.dbid
        self.release(pending)
        yield self.random.choice((0, 0, 1, 5))
        line, copy = pending.line, self.lines.get(pending.line)
        if copy is None:
            ticks = self.write_lost(pending)
        else:
            ticks = self.write_data(pending, "CopyBackWrData", copy.data, copy.mask, WRITTEN_AS[copy.state])
            if pending.opcode == "WriteCleanFull":
                copy.state = {"UD": "UC", "SD": "SC"}.get(copy.state, copy.state)
            else:
                del self.lines[line]
        yield ticks

    def write_lost(self, pending):
        """Write data of a copy that a snoop has taken: none."""
        if self.bugs.hits("lost-copy-written"):
            flit = self.flit("DAT", pending.dbid.source, "CopyBackWrData", txn=pending.dbid.dbid, resp="UD_PD",
                             data=self.world.golden.first(pending.line), enables=FULL, wrong=True)
            return self.send(flit)
        return self.write_data(pending, "CopyBackWrData", bytes(LINE), 0, "I")

    def some_bytes(self):
        """Data of a store and its byte enables: some words, or with stores that aren't logged some bytes."""
        data, mask = self.random.randbytes(LINE), 0
        for _ in range(self.random.choice((1, 1, 2, 4))):
            size = 8 if self.world.options.cpu else self.random.choice((1, 2, 4, 8, 8, 16))
            mask |= span_mask(self.random.randrange(0, LINE, size), size)
        return data, mask

    def store(self, line, copy, data, mask):
        """A store to a unique copy."""
        copy.data = merged(copy.data, data, mask)
        copy.mask |= mask
        if copy.state == "UC":
            copy.state = "UD"
        elif copy.state in ("UCE", "UDP"):
            copy.state = "UD" if copy.mask == FULL else "UDP"
        self.record_store(line, data, mask)

    def record_store(self, line, data, mask):
        self.world.golden.store(self.ident, line, data, mask)
        if self.world.options.cpu:
            for at in range(0, LINE, 8):
                if mask >> at & 0xFF == 0xFF:
                    self.world.log.access(self.ident, "Store", line * LINE + at, int.from_bytes(data[at:at + 8], "little"))

    def load(self, line, copy):
        """A load of a copy reads what the line holds."""
        self.world.golden.same(self.ident, line, copy.data, copy.mask)
        at = self.random.randrange(0, LINE, 8)
        if self.world.options.cpu and copy.mask >> at & 0xFF == 0xFF:
            self.world.log.access(self.ident, "Load", line * LINE + at, int.from_bytes(copy.data[at:at + 8], "little"))

    def install(self, line, state, data):
        """A copy of data that have come, which is checked."""
        self.lines[line] = Copy(state, data)
        self.world.golden.copy(self.ident, line, self.lines[line])

    def answer_dvm(self, flit):
        """A DVM snoop comes in two flits of one TxnID, and is answered once."""
        key = (flit.source, flit.txn)
        if key in self.halves:
            self.halves.discard(key)
            self.send(self.flit("RSP", flit.source, "SnpResp", txn=flit.txn, resp="I"))
        else:
            self.halves.add(key)

    def answer(self, flit):
        """Answers a snoop from the copy as it is."""
        line = flit.line
        copy = self.lines.get(line)
        state = copy.state if copy else "I"
        options, returns = None, flit.hidden.get("returns", False)
        if flit.opcode.endswith("Fwd") and self.world.chance(0.8):
            options = fitting(flit.opcode, state, True, returns)
        is_forwarding = bool(options)
        options = options or fitting(flit.opcode, state, False, returns)
        if not self.world.has("clean-data"):
            options = [answer for answer in options if not answer.data or state in DIRTY] or options
        answer = options[0] if self.world.chance(0.4) else self.random.choice(options)
        if flit.opcode.startswith("SnpStash") and state in DIRTY and not self.world.has("stash-states"):
            answer = Answer(state, "I", None, "")
        answer, copy_after = self.bugs.answer(self, flit, state, answer)
        self.put_answer(flit, copy, answer, is_forwarding)
        self.take_answer(line, copy, copy_after or answer.next)

    def take_answer(self, line, copy, state):
        """The copy as the answer leaves it."""
        if copy is None:
            return
        if state == "I":
            del self.lines[line]
        else:
            copy.state = state

    def put_answer(self, snoop, copy, answer, is_forwarding):
        """Sends an answer, and before or behind it the data that it forwards."""
        data, mask = (copy.data, copy.mask) if copy else (bytes(LINE), 0)
        extras = {"fs": answer.forwards} if is_forwarding else {}
        suffix = {"": "", "+": "Data", "*": "DataPtl"}[answer.data]
        opcode = f"SnpResp{suffix}Fwded" if is_forwarding else f"SnpResp{suffix}"
        if "Stash" in snoop.opcode:
            self.pull(snoop, extras)
        reply = self.flit("DAT" if answer.data else "RSP", snoop.source, opcode, txn=snoop.txn, resp=answer.resp, extras=extras)
        if answer.data:
            reply.data = masked(data, mask)
            reply.enables = mask if answer.data == "*" else None
        flits = [reply]
        if is_forwarding:
            node, number = snoop.extras["fwd"]
            forwarded = self.flit("DAT", node, "CompData", txn=number, resp=answer.forwards, dbid=snoop.txn, data=data,
                                  extras={"home": snoop.source})
            flits.insert(self.random.randrange(2), forwarded)
        self.bugs.answered(self, snoop, copy, answer, flits)
        Process(self.world, self.put_in_turn(flits, snoop.line)).run()

    def put_in_turn(self, flits, line):
        """Sends the flits of an answer. Until the last one is put no request of the line is sent."""
        holds = "late-answer" not in self.world.options.also
        if holds:
            self.hold(line)
        elif self.world.chance(0.3):
            yield self.random.randrange(4)
        for index, flit in enumerate(flits):
            if index:
                yield self.random.randrange(5)
            self.send(flit)
        if holds:
            self.let_go(line)

    def pull(self, snoop, extras):
        """Takes the offer of a stash snoop, as a read of the line: the answer names the read's TxnID."""
        line = snoop.line
        copy = self.lines.get(line)
        is_shared = copy is not None and copy.state == "SC" and snoop.opcode == "SnpStashUnique"
        leaves = snoop.opcode in ("SnpUniqueStash", "SnpMakeInvalidStash")
        may = line not in self.busy and (copy is None or is_shared or leaves)
        if not may or not self.world.has("data-pull") or not self.world.chance(0.7):
            return
        kind = "ReadNotSharedDirty" if snoop.opcode == "SnpStashShared" else "ReadUnique"
        pending = Pending(self.flit("REQ", snoop.source, kind, address=line * LINE), self.world.time)
        pending.txn = self.ids.take()
        self.open[pending.txn] = pending
        extras["pull"] = pending.txn
        self.hold(line)
        self.spawn(pending, self.pulled(pending))

    def pulled(self, pending):
        """The read that a DataPull stands for."""
        yield from self.read(pending)
        self.let_go(pending.line)
