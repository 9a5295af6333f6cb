"""How a home serves what isn't a read: requests without data, copy-backs, writes, atomics and stashes."""

from atomics import computed
from trace import FULL, merged

STASH_KINDS = {"StashOnceShared": ("SnpStashShared", "ReadNotSharedDirty"), "StashOnceUnique": ("SnpStashUnique", "ReadUnique")}
# How a write's Comp and DBIDResp come, as steps: D for DBIDResp, C for Comp, B for both in one, S for the snoops.
ORDERS = {"comp-apart": ("DSC", "SB", "SCD", "SDC"), "joined": ("SB",)}


class Writes:
    """The part of a home that serves requests without data, and writes."""

    def others(self, t):
        return self.entry(t.line).holders - {t.source}

    def taking(self, *kinds):
        """One of these snoops that take copies away and are switched on, or SnpUnique."""
        return self.random.choice([kind for kind in kinds if self.world.has(kind)] or ["SnpUnique"])

    def comp(self, t, resp, dbid=None):
        """Sends a Comp."""
        flit = self.flit("RSP", t.source, "Comp", txn=t.txn, resp=resp, dbid=dbid, wrong=t.spoils)
        self.send(flit)
        if self.bugs.hits("comp-twice"):
            self.send(self.flit("RSP", t.source, "Comp", txn=t.txn, resp=resp, dbid=dbid, wrong=True))

    def clean_unique(self, t):
        """The requester becomes unique; another one's dirty data come to the home."""
        kind = self.taking("SnpCleanInvalid", "SnpCleanInvalid", "SnpUnique")
        if self.others(t):
            yield from self.snoop(t, {node: kind for node in self.others(t)})
            yield from self.settle(t)
        self.given(t, t.source, "UC")
        self.comp(t, "UC", t.number)
        yield from self.acknowledged(t, t.source)

    def make_unique(self, t):
        """The requester becomes unique, and writes the whole line: nobody's data are needed."""
        kind = self.taking("SnpMakeInvalid", "SnpMakeInvalid", "SnpCleanInvalid", "SnpUnique")
        if self.others(t):
            yield from self.snoop(t, {node: kind for node in self.others(t)})
        self.cache.pop(t.line, None)
        self.given(t, t.source, "UC")
        self.comp(t, "UC", t.number)
        yield from self.acknowledged(t, t.source)

    def clean_shared(self, t):
        """Dirty data go to the memory; copies stay."""
        entry = self.entry(t.line)
        nodes = self.others(t) if self.world.chance(0.5) else self.others(t) & {entry.owner}
        if nodes:
            yield from self.snoop(t, {node: "SnpCleanShared" for node in nodes})
        yield from self.clean(t)
        if entry.owner == t.source and entry.is_unique:
            resp = "UC"
        else:
            resp = "SC" if t.source in entry.holders else "I"
        self.comp(t, resp)

    def clean(self, t):
        """Dirty data of answers, or of the system cache, go to the memory."""
        if t.dirty is not None:
            yield from self.keep(t, t.dirty, True)
        elif t.partial is not None:
            base = yield from self.fetch(t)
            yield from self.keep(t, merged(base, *t.partial), True)
        else:
            yield from self.flush(t)

    def clean_invalid(self, t):
        """Dirty data go to the memory; no copy stays."""
        self.entry(t.line).leaves(t.source)
        if self.others(t):
            kind = self.taking("SnpCleanInvalid", "SnpCleanInvalid", "SnpUnique")
            yield from self.snoop(t, {node: kind for node in self.others(t)})
        yield from self.clean(t)
        self.cache.pop(t.line, None)
        self.comp(t, "I")

    def make_invalid(self, t):
        """No copy stays, and dirty data are lost."""
        if not self.world.has("discard"):
            yield from self.clean_invalid(t)
            return
        self.entry(t.line).leaves(t.source)
        if self.others(t):
            yield from self.snoop(t, {node: self.taking("SnpMakeInvalid") for node in self.others(t)})
        self.lose(t)
        self.comp(t, "I")

    def evict(self, t):
        """A copy was dropped. A filter that is imprecise may not follow."""
        entry = self.entry(t.line)
        yield self.random.choice((0, 1, 4))
        gone = self.bugs.evicted(self, t, entry)
        if not self.is_imprecise or entry.owner == gone or self.world.chance(0.5):
            entry.leaves(gone)
        self.comp(t, "I")

    def copy_back(self, t):
        """Write data of a copy, in the form that its copy has by then."""
        self.send(self.flit("RSP", t.source, "CompDBIDResp", txn=t.txn, resp="I", dbid=t.number))
        yield lambda: t.write
        flit, entry = t.write, self.entry(t.line)
        if self.bugs.hits("lost-copy-taken", flit.resp == "I"):
            yield from self.keep(t, flit.data)
            self.bugs.arm()
            return
        if t.opcode != "WriteCleanFull":
            entry.leaves(t.source)
        elif flit.resp in ("SD_PD", "SC") and entry.owner == t.source:
            entry.owner, entry.is_unique = None, False
        if flit.resp.endswith("_PD"):
            yield from self.take(t, flit.data, flit.enables)
        elif flit.resp in ("UC", "SC"):
            self.remember(t.line, flit.data, 0.7)

    def take(self, t, data, mask):
        """Writes dirty bytes, by a merge at the home or at the memory."""
        if mask != FULL and t.line not in self.cache and self.world.chance(0.5):
            yield from self.write_memory(t, data, mask)
            return
        base = None
        if mask != FULL:
            base = yield from self.fetch(t)
        merge = self.bugs.merge(mask)
        yield from self.keep(t, merged(base, data, merge) if base is not None else data)

    def write_unique(self, t):
        """A write without a copy: no copy stays, and its bytes are merged with what was dirty."""
        self.entry(t.line).leaves(t.source)
        is_full = t.opcode.startswith("WriteUniqueFull")
        kind = self.taking(*(("SnpMakeInvalid",) if is_full else ()), "SnpCleanInvalid", "SnpUnique")
        snoops = {node: kind for node in self.others(t)}
        target = t.flit.extras.get("stash") if t.opcode.endswith("Stash") else None
        stash = "SnpMakeInvalidStash" if is_full else "SnpUniqueStash"
        if target is not None and self.world.has(stash):
            snoops[target] = stash
        yield from self.write_replies(t, snoops)
        yield lambda: t.write
        flit = t.write
        pulls, right = dict(t.pulls), flit.enables if flit.opcode != "WriteDataCancel" else 0
        self.world.golden.store(-1, t.line, flit.data, right)
        yield from self.merge_write(t, flit.data, FULL if flit.hidden.get("written") else right)
        if t.exp:
            yield from self.acknowledged(t, t.source)
        for node, txn in pulls.items():
            t.forget_answers()
            yield from self.give_data(t, node, self.bugs.pull_id(txn), "ReadUnique")

    def write_replies(self, t, snoops):
        """The snoops of a write, and its Comp and DBIDResp."""
        order = self.random.choice(ORDERS["comp-apart" if self.world.has("comp-apart") else "joined"])
        for step in order:
            if step == "S" and snoops:
                yield from self.snoop(t, snoops)
            if step == "B":
                flit = self.flit("RSP", t.source, "CompDBIDResp", txn=t.txn, resp="I", dbid=t.number, wrong=t.spoils)
                self.send(flit)
            if step == "D":
                self.send(self.flit("RSP", t.source, "DBIDResp", txn=t.txn, dbid=t.number))
            if step == "C":
                self.comp(t, "I", t.number)
            yield self.random.choice((0, 0, 2, 12))

    def merge_write(self, t, data, mask):
        """The line as a write leaves it."""
        line = t.line
        if t.dirty is None and t.partial is None and mask != FULL and line not in self.cache and self.world.chance(0.4):
            if mask:
                yield from self.write_memory(t, data, self.bugs.merge(mask))
            return
        base = t.dirty
        if base is None and mask != FULL:
            base = yield from self.fetch(t)
        if t.partial is not None and mask != FULL:
            base = merged(base, *t.partial)
        if mask or t.dirty is not None or t.partial is not None:
            merge = self.bugs.merge(mask)
            yield from self.keep(t, merged(base, data, merge) if base is not None else data)

    def atomic(self, t):
        """An atomic operation at the home: no copy stays."""
        entry, answers = self.entry(t.line), t.opcode != "AtomicStore"
        entry.leaves(t.source)
        kind = self.taking("SnpUnique", "SnpCleanInvalid")
        snoops = {node: kind for node in self.others(t)}
        if self.bugs.hits("atomic-without-snoop", bool(snoops)):
            snoops, t.spoils = {}, True
        if answers:
            yield from self.atomic_replies(t, snoops)
        else:
            yield from self.write_replies(t, snoops)
        base = t.dirty
        if base is None:
            base = yield from self.fetch(t)
        if t.partial is not None:
            base = merged(base, *t.partial)
        early = answers and self.world.chance(0.3)
        if early:
            yield self.old_data(t, base)
        yield lambda: t.write
        result, mask = computed(t.flit, base, t.write.data)
        self.world.golden.store(-1, t.line, result, mask)
        if self.bugs.hits("atomic-twice"):
            result, _ = computed(t.flit, result, t.write.data)
            self.bugs.arm()
        yield from self.keep(t, result)
        if answers and not early:
            yield self.old_data(t, base)

    def atomic_replies(self, t, snoops):
        """The snoops of an atomic that reads, and its DBIDResp before or behind them."""
        is_early = self.world.has("comp-apart") and self.world.chance(0.5)
        if is_early:
            self.send(self.flit("RSP", t.source, "DBIDResp", txn=t.txn, dbid=t.number))
        if snoops:
            yield from self.snoop(t, snoops)
        if not is_early:
            self.send(self.flit("RSP", t.source, "DBIDResp", txn=t.txn, dbid=t.number))

    def old_data(self, t, base):
        """Sends what an atomic has read. Tells in how many ticks the last beat is put."""
        return self.send(self.flit("DAT", t.source, "CompData", txn=t.txn, resp="I", dbid=t.number, data=base,
                                   span=t.flit.hidden["span"], extras={"home": self.ident}, wrong=t.spoils))

    def stash(self, t):
        """A hint that another node will use the line: it is offered, and read for it where it takes it."""
        target, (kind, read) = t.flit.extras.get("stash"), STASH_KINDS[t.opcode]
        is_early = self.world.chance(0.5)
        if is_early:
            self.comp(t, "I")
        if target is not None and self.world.has(kind):
            yield from self.snoop(t, {target: kind})
        pulls = dict(t.pulls)
        if not is_early:
            self.comp(t, "I")
        for node, txn in pulls.items():
            t.forget_answers()
            yield from self.give_copy(t, node, self.bugs.pull_id(txn), read)
