"""How a home serves reads: whom it snoops, where the data come from, and which state it gives."""

from cache import SNOOPS_OF
from issuer import Pending
from trace import merged

# States that a read may be given: where others are left with copies, and where none is.
BESIDE = {"ReadShared": ("SC", "SD_PD"), "ReadNotSharedDirty": ("SC",), "ReadClean": ("SC",), "ReadUnique": ()}
ALONE = {"ReadShared": ("UC", "SC", "UD_PD", "SD_PD"), "ReadNotSharedDirty": ("UC", "SC", "UD_PD"), "ReadClean": ("UC", "SC"),
         "ReadUnique": ("UC", "UD_PD")}


class Reads:
    """The part of a home that serves reads."""

    def read_snoops(self, t, node, opcode):
        """The snoops of a read that gives a copy."""
        entry = self.entry(t.line)
        others = entry.holders - {node}
        kinds = SNOOPS_OF[opcode]
        kind = self.random.choice(kinds) if self.world.has("other-snoops") and self.world.chance(0.3) else kinds[0]
        if opcode == "ReadUnique":
            return {other: self.forwarding(kind, len(others) == 1) for other in others}
        if entry.owner in others:
            if self.world.has("stronger-snoops") and self.world.chance(0.1):
                return {other: "SnpUnique" for other in others}
            return {entry.owner: self.forwarding(kind, True)}
        if others and self.world.has("shared-snoops") and self.world.chance(0.4):
            return {self.random.choice(sorted(others)): self.forwarding(kind, True)}
        return {}

    def forwarding(self, kind, may):
        """A snoop, or its forwarding kind where one node alone is snooped."""
        is_one = may and self.world.has("dct") and self.world.has(kind + "Fwd") and self.world.chance(0.6)
        return kind + "Fwd" if is_one else kind

    def give_copy(self, t, node, txn, opcode):
        """A read that gives a copy: of the request's source, or of a stash target that has pulled it."""
        kinds = self.read_snoops(t, node, opcode)
        if kinds:
            returns = self.world.has("clean-data") and not self.is_unique_or_once(kinds) and self.world.chance(0.4)
            yield from self.snoop(t, kinds, (node, txn), returns)
        if t.forwarded:
            yield from self.after_forward(t, node)
        else:
            yield from self.give_data(t, node, txn, opcode)

    @staticmethod
    def is_unique_or_once(kinds):
        """Whether a snoop is one that never asks for a clean copy's data."""
        return any(kind in ("SnpUniqueFwd", "SnpOnceFwd") for kind in kinds.values())

    def after_forward(self, t, node):
        """The peer has sent the data: the home keeps what came to it, and waits for the CompAck."""
        self.given(t, node, t.forwarded)
        if t.forwarded.endswith("_PD"):
            self.cache.pop(t.line, None)
        if t.dirty is not None:
            yield from self.keep(t, t.dirty)
        elif t.clean is not None:
            self.remember(t.line, t.clean, 0.3)
        if self.bugs.hits("forward-and-home"):
            data = t.clean or t.dirty or self.here(t.line)
            self.send(self.flit("DAT", node, "CompData", txn=t.txn, resp=t.forwarded, dbid=t.number, data=data,
                                extras={"home": self.ident}, wrong=True))
        yield from self.acknowledged(t, node)

    def acknowledged(self, t, node):
        """Waits for a CompAck."""
        if not self.bugs.hits("next-before-ack", bool(self.queues.get(t.line))):
            yield lambda: node in t.acks
            t.acks.discard(node)
        else:
            self.bugs.arm()

    def states(self, t, node, opcode, is_dirty):
        """The states that may be given."""
        entry = self.entry(t.line)
        is_owner = entry.owner == node and entry.is_unique
        remaining = set() if is_owner else entry.holders - {node}
        if remaining:
            states = BESIDE[opcode]
        elif is_owner or not self.world.has("sole-shared"):
            states = tuple(state for state in ALONE[opcode] if state.startswith("U"))
        else:
            states = ALONE[opcode]
        passes = is_dirty and self.world.has("dirty-pass")
        return [state for state in states if passes or not state.endswith("_PD")]

    def give_data(self, t, node, txn, opcode):
        """The home completes a read itself, or has the memory complete it."""
        has_brought = t.dirty is not None or t.partial is not None
        if not has_brought and t.clean is None and self.may_go_direct(t, "UC" in self.states(t, node, opcode, False)):
            yield from self.direct(t, node, txn, True)
            self.given(t, node, "UC")
            yield from self.acknowledged(t, node)
            return
        if t.dirty is not None or t.clean is not None:
            data = t.dirty if t.dirty is not None else t.clean
        else:
            data = yield from self.fetch(t)
        if t.partial is not None:
            data = merged(data, *t.partial)
        is_cached = t.line in self.cache and self.cache[t.line][1] and not has_brought and t.clean is None
        states = self.bugs.states(self, t, node, self.states(t, node, opcode, has_brought or is_cached), opcode)
        resp = self.random.choice(states)
        is_first = self.world.chance(0.5)
        keeps = has_brought and not resp.endswith("_PD")
        if resp.endswith("_PD"):
            self.cache.pop(t.line, None)
        elif not has_brought:
            self.remember(t.line, data, 0.3)
        if keeps and not is_first and not t.begun:
            yield from self.keep(t, data)
        ticks = self.complete(t, node, txn, resp, data)
        if t.begun:
            yield lambda: t.begun.hidden.get("is_whole")
        if keeps and (is_first or t.begun):
            yield from self.keep(t, data)
        yield ticks
        yield from self.acknowledged(t, node)

    def complete(self, t, node, txn, resp, data):
        """Sends CompData. Tells in how many ticks the last beat is put."""
        self.given(t, node, resp)
        flit = self.flit("DAT", node, "CompData", txn=txn, resp=resp, dbid=t.number, data=data, extras={"home": self.ident},
                         wrong=t.spoils)
        flit = self.bugs.completion(self, t, flit)
        if not flit.wrong:
            self.world.golden.same(self.ident, t.line, flit.data)
        if t.begun:
            self.world.relay(flit, t.begun)
            return 0
        return self.send(flit)

    def may_go_direct(self, t, is_fitting):
        """Whether the memory may send the data to the requester."""
        if not self.world.has("dmt") or not is_fitting:
            return False
        if t.line in self.cache:
            data, is_dirty = self.cache[t.line]
            if not self.bugs.hits("dmt-overtakes", is_dirty and data != self.in_memory(t.line)):
                return False
            t.spoils = True
            return True
        return self.world.chance(0.6)

    def direct(self, t, node, txn, exp):
        """Has the memory send the data to the requester."""
        request = self.reader(t)
        request.extras["ret"] = (node, txn)
        request.hidden.update(order=not exp, spoils=t.spoils)
        pending = Pending(request, self.world.time)
        pending.is_borrowed = True
        pending.poke = t.process.poke
        t.direct = pending
        yield from self.ask(pending, t.number)
        yield lambda: t.acks or pending.receipt
        self.release(pending)
        if self.bugs.hits("dmt-and-home"):
            self.send(self.flit("DAT", node, "CompData", txn=txn, resp="UC", dbid=t.number, data=self.here(t.line),
                                extras={"home": self.ident}, wrong=True))

    def once_snoops(self, t, takes):
        """The snoops of a read that leaves the requester no copy."""
        entry = self.entry(t.line)
        others = entry.holders - {t.source}
        if takes:
            return {other: "SnpUnique" for other in others}
        if entry.owner in others:
            return {entry.owner: self.forwarding("SnpOnce", True)}
        if others and self.world.has("shared-snoops") and self.world.chance(0.3):
            return {self.random.choice(sorted(others)): self.forwarding("SnpOnce", True)}
        return {}

    def read_once(self, t):
        """Data for a requester that keeps none. The invalidating kinds may take all copies away."""
        self.entry(t.line).leaves(t.source)
        is_ordered = t.flit.hidden.get("order")
        if is_ordered:
            self.send(self.flit("RSP", t.source, "ReadReceipt", txn=t.txn))
        takes = t.opcode != "ReadOnce" and self.world.chance(0.7)
        kinds = self.once_snoops(t, takes)
        if kinds:
            returns = self.world.has("clean-data") and not self.is_unique_or_once(kinds) and self.world.chance(0.3)
            yield from self.snoop(t, kinds, (t.source, t.txn), returns)
        if t.forwarded:
            if t.dirty is not None:
                yield from self.keep(t, t.dirty)
        else:
            yield from self.once_data(t, takes, t.exp or self.world.has("receipts") and not is_ordered)
        if t.exp:
            yield from self.acknowledged(t, t.source)

    def once_data(self, t, takes, is_tracked):
        """The home, or the memory, sends the data of a read that leaves no copy."""
        has_brought = t.dirty is not None or t.partial is not None
        is_plain = not has_brought and t.clean is None and t.partial_kept is None
        if is_plain and is_tracked and self.may_go_direct(t, True):
            yield from self.direct(t, t.source, t.txn, t.exp)
            return
        data = t.dirty if t.dirty is not None else t.clean
        if data is None:
            data = yield from self.fetch(t)
        part = t.partial or t.partial_kept
        if part is not None:
            data = merged(data, *part)
        flit = self.flit("DAT", t.source, "CompData", txn=t.txn, resp="I", dbid=t.number, data=data,
                         extras={"home": self.ident}, wrong=t.spoils)
        flit = self.bugs.completion(self, t, flit)
        yield self.send(flit)
        loses = takes and t.opcode == "ReadOnceMakeInvalid" and self.world.has("discard") and self.world.chance(0.4)
        if loses:
            self.lose(t)
        elif has_brought:
            yield from self.keep(t, data)
        elif t.partial_kept is None and self.entry(t.line).owner is None:
            self.remember(t.line, data, 0.2)

    def lose(self, t):
        """Dirty data are lost, as the software wants: the line is what the memory has from now on."""
        self.cache.pop(t.line, None)
        self.world.golden.alone(-1, t.line)
        self.world.golden.set(t.line, self.in_memory(t.line))
