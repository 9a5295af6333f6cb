"""HN-F: the queue of each line, the snoop filter, the system cache, snoops, and what the home asks the memory for."""

from dataclasses import dataclass, field

from cache import SNOOPS_OF
from home_reads import Reads
from home_writes import Writes
from issuer import Issuer, Pending, Refuser
from network import Process
from trace import FULL, LINE, merged

ANSWERED = ("SnpResp", "SnpRespFwded", "SnpRespData", "SnpRespDataPtl", "SnpRespDataFwded")
WRITE_DATA = ("CopyBackWrData", "NonCopyBackWrData", "WriteDataCancel")


@dataclass(slots=True)
class Entry:
    """What a snoop filter knows of a line.

    Each real holder is in `holders`. Who may be dirty or unique is `owner`. With `is_unique` nobody else really holds it.
    """

    holders: set = field(default_factory=set)
    owner: int | None = None
    is_unique: bool = False

    def leaves(self, node):
        """Takes a node that has no copy any more out."""
        self.holders.discard(node)
        if self.owner == node:
            self.owner, self.is_unique = None, False


class Transaction:
    """One request that the home serves, or one of its own."""

    def __init__(self, flit, line, number):
        self.flit, self.line, self.number = flit, line, number
        self.opcode = flit.opcode if flit else "own"
        self.source, self.txn = (flit.source, flit.txn) if flit else (None, None)
        self.exp = flit.extras.get("exp") == 1 if flit else False
        self.asked, self.answers, self.acks = {}, {}, set()
        self.write, self.direct, self.process, self.spoils = None, None, None, False
        self.forget_answers()

    def forget_answers(self):
        """As before the first snoop."""
        self.dirty = self.clean = self.forwarded = None
        self.partial = self.partial_kept = None
        self.pulls, self.begun = {}, None

    def digest(self):
        """What the answers of a group of snoops have brought."""
        for node, flit in self.answers.items():
            if flit.hidden.get("is_begun"):
                self.begun = flit
            if "pull" in flit.extras:
                self.pulls[node] = flit.extras["pull"]
            if "fs" in flit.extras:
                self.forwarded = flit.extras["fs"]
            if flit.opcode == "SnpRespDataPtl":
                part = (flit.data, flit.enables)
                self.partial, self.partial_kept = (part, None) if flit.resp.endswith("_PD") else (None, part)
            elif flit.data is not None and flit.resp.endswith("_PD"):
                self.dirty = flit.data
            elif flit.data is not None:
                self.clean = flit.data


class Home(Reads, Writes, Issuer, Refuser):
    """A home node."""

    def __init__(self, world, ident, memories):
        Issuer.__init__(self, world, ident)
        self.memories = memories
        self.queues, self.active, self.transactions = {}, {}, {}
        self.filter, self.cache, self.view = {}, {}, {}
        self.credit_types = self.random.choice(((0,), (0, 1), (1, 2, 5), (0, 3, 9, 15)))
        self.is_imprecise = world.has("imprecise") and world.chance(0.5)
        self.world.after(60, self.tend)

    def receive(self, flit):
        """Takes a request, an answer, write data, or a reply to a request of its own."""
        if flit.channel == "REQ":
            if flit.opcode not in ("PCrdReturn", "ReqLCrdReturn") and not self.is_refused(flit):
                self.queues.setdefault(flit.line, []).append(flit)
                self.next(flit.line)
        elif flit.hidden.get("is_begun"):
            flit.hidden["is_whole"] = True
            self.poke(flit.txn)
        elif flit.opcode in ANSWERED:
            self.answered(flit)
        elif flit.opcode in WRITE_DATA:
            self.found(flit, "write data").write = flit
            self.poke(flit.txn)
        elif flit.opcode == "CompAck":
            self.found(flit, "CompAck").acks.add(flit.source)
            self.poke(flit.txn)
        else:
            self.reply(flit)

    def begins(self, flit):
        """Takes an answer at one of its first beats, where a home passes beats on as they come.

        No home does so where a bug is planted, as bugs change data that are whole.
        """
        t = self.transactions.get(flit.txn)
        is_alone = t is not None and t.opcode in SNOOPS_OF and t.opcode != "ReadOnce" and len(t.asked) == 1
        is_as_wide = self.world.width(self.ident) == self.world.width(flit.source)
        begins = is_alone and is_as_wide and self.world.has("cut-through") and self.world.chance(0.5)
        if begins and not self.bugs.name and not flit.hidden.get("is_begun"):
            flit.hidden["is_begun"] = True
            self.answered(flit)

    def found(self, flit, what):
        """The transaction that a flit is of."""
        transaction = self.transactions.get(flit.txn)
        if transaction is None:
            self.world.golden.fail(f"{what} of no transaction at home {self.ident:x}")
            return Transaction(None, 0, 0)
        return transaction

    def poke(self, number):
        transaction = self.transactions.get(number)
        if transaction is None:
            return
        if transaction.direct and transaction.acks:
            transaction.direct.is_answered = True
        if transaction.process:
            transaction.process.poke()

    def entry(self, line):
        return self.filter.setdefault(line, Entry())

    def next(self, line):
        """Begins the next request of a line where none is under way."""
        queue = self.queues.get(line)
        if line in self.active or not queue:
            return
        at = self.random.randrange(len(queue)) if self.world.chance(0.2) else 0
        self.begin(queue.pop(at), line)

    def begin(self, flit, line):
        """Serves a request, or one of the home's own."""
        transaction = Transaction(flit, line, self.bugs.data_id(self, flit))
        transaction.spoils = transaction.number in self.transactions
        self.active[line] = transaction
        self.transactions[transaction.number] = transaction
        transaction.process = Process(self.world, self.whole(transaction))
        transaction.process.run()

    def whole(self, transaction):
        """A transaction from its admission to the next one's."""
        yield self.random.choice((0, 0, 1, 3))
        yield from self.steps(transaction)
        if self.transactions.get(transaction.number) is transaction:
            del self.transactions[transaction.number]
            self.ids.free(transaction.number)
        if self.active.get(transaction.line) is transaction:
            del self.active[transaction.line]
        self.next(transaction.line)

    def steps(self, t):
        """The steps of a transaction by its opcode."""
        opcode = t.opcode
        if opcode in ("ReadShared", "ReadNotSharedDirty", "ReadClean", "ReadUnique"):
            return self.give_copy(t, t.source, t.txn, opcode)
        if opcode.startswith("ReadOnce"):
            return self.read_once(t)
        if opcode.startswith("WriteUnique"):
            return self.write_unique(t)
        if opcode.startswith("Write"):
            return self.copy_back(t)
        if opcode.startswith("Atomic"):
            return self.atomic(t)
        return {"CleanUnique": self.clean_unique, "MakeUnique": self.make_unique, "Evict": self.evict,
                "CleanShared": self.clean_shared, "CleanSharedPersist": self.clean_shared, "CleanInvalid": self.clean_invalid,
                "MakeInvalid": self.make_invalid, "StashOnceShared": self.stash, "StashOnceUnique": self.stash,
                "own": self.own}[opcode](t)

    def snoop(self, t, kinds, forward=None, returns=False):
        """Sends a group of snoops, one to each node with its opcode, and waits for all answers."""
        t.forget_answers()
        kinds = self.bugs.snoops(self, t, kinds)
        t.asked, t.answers = dict(kinds), {}
        nodes, numbers = list(kinds), self.snoop_ids(t, kinds)
        self.random.shuffle(nodes)
        for node in nodes:
            # (a home asks one node of a group at most for a clean copy's data)
            flit = self.flit("SNP", node, kinds[node], txn=numbers[node], address=t.line * LINE,
                             hidden={"returns": returns and node == nodes[0]})
            if kinds[node].endswith("Fwd"):
                flit.extras["fwd"] = forward
            self.send(flit)
            yield self.random.choice((0, 0, 0, 1, 4))
        if not self.bugs.hits("early-completion", len(t.answers) < len(t.asked)):
            yield lambda: len(t.answers) == len(t.asked)
        else:
            t.spoils = True
        for number in set(numbers.values()) - {t.number}:
            del self.transactions[number]
            self.ids.free(number)
        t.digest()
        self.bugs.digested(self, t)

    def snoop_ids(self, t, kinds):
        """The TxnIDs of a group of snoops: the transaction's number, or, where nothing is forwarded, one for each."""
        numbers = {node: t.number for node in kinds}
        is_plain = not any(kind.endswith("Fwd") for kind in kinds.values())
        if is_plain and self.world.has("snoop-ids") and self.world.chance(0.25):
            for node in kinds:
                numbers[node] = self.ids.take()
                self.transactions[numbers[node]] = t
        return numbers

    def answered(self, flit):
        """Takes an answer to a snoop: the filter follows it."""
        transaction = self.found(flit, flit.opcode)
        snoop = transaction.asked.get(flit.source)
        if snoop is None or flit.source in transaction.answers:
            self.world.golden.fail(f"answer of {flit.source:x} to no snoop of home {self.ident:x}")
            return
        transaction.answers[flit.source] = flit
        if not snoop.startswith("SnpStash"):
            entry = self.entry(transaction.line)
            if flit.resp.startswith("I"):
                entry.leaves(flit.source)
            elif flit.resp.startswith("SC") and entry.owner == flit.source:
                entry.owner, entry.is_unique = None, False
        transaction.process.poke()

    def given(self, t, node, resp):
        """The filter as a completion leaves it."""
        entry = self.entry(t.line)
        if resp in ("UC", "UD_PD"):
            if not self.is_imprecise:
                entry.holders.clear()
            entry.owner, entry.is_unique = node, True
        elif resp in ("SC", "SD_PD"):
            if entry.owner == node or resp == "SD_PD":
                entry.owner = node if resp == "SD_PD" else None
            entry.is_unique = False
        entry.holders.add(node)
        if self.is_imprecise and self.world.chance(0.2):
            entry.holders.add(self.random.choice(self.world.full))

    def reader(self, t):
        """A ReadNoSnp of the line to its memory, as the home's own or for another node."""
        memory = self.memories[t.line // self.world.options.homes % len(self.memories)]
        return self.flit("REQ", memory, "ReadNoSnp", address=t.line * LINE, extras={"ret": (self.ident, t.number), "exp": 0})

    def in_memory(self, line):
        """What the home knows the memory to hold."""
        return self.view.get(line) or self.world.golden.first(line)

    def here(self, line):
        """What the line is where no dirty copy is: the system cache's data, or the memory's."""
        return self.cache[line][0] if line in self.cache else self.in_memory(line)

    def fetch(self, t):
        """The line's data, of the system cache or of the memory."""
        if t.line in self.cache:
            data, is_dirty = self.cache[t.line]
            if not self.bugs.hits("cache-skipped", is_dirty and data != self.in_memory(t.line)):
                return data
            t.spoils = True
        if not self.world.has("memory"):
            return self.in_memory(t.line)
        pending = Pending(self.reader(t), self.world.time)
        pending.is_borrowed = True
        pending.poke = t.process.poke
        yield from self.ask(pending, t.number)
        yield lambda: pending.data
        self.release(pending)
        if pending.data.data != self.in_memory(t.line):
            self.world.golden.fail(f"memory has other data of {t.line * LINE:x} than home {self.ident:x} wrote")
        return pending.data.data

    def release(self, pending):
        """Frees the TxnID of a request to the memory, but not one that is the transaction's own."""
        if getattr(pending, "is_borrowed", False):
            if self.open.get(pending.txn) is pending:
                del self.open[pending.txn]
        else:
            super().release(pending)

    def write_memory(self, t, data, mask=FULL):
        """Writes to the memory, and waits until that is done."""
        line = t.line
        self.view[line] = merged(self.in_memory(line), data, mask)
        if not self.world.has("memory"):
            return
        request = self.reader(t)
        request.opcode = "WriteNoSnpFull" if mask == FULL else "WriteNoSnpPtl"
        request.extras = {}
        pending = Pending(request, self.world.time)
        pending.poke = t.process.poke
        yield from self.ask(pending)
        yield lambda: pending.dbid
        yield self.random.choice((0, 1, 3))
        yield self.send(self.flit("DAT", pending.dbid.source, "NonCopyBackWrData", txn=pending.dbid.dbid, resp="I",
                                  data=merged(bytes(LINE), data, mask), enables=mask))
        yield lambda: pending.comp
        self.release(pending)

    def keep(self, t, data, is_written=False):
        """Takes the duty for dirty data: into the system cache, or to the memory."""
        if self.world.has("system-cache") and not is_written and self.world.chance(0.5):
            self.cache[t.line] = (data, True)
            return
        self.cache.pop(t.line, None)
        yield from self.write_memory(t, data)
        self.remember(t.line, data, 0.3)

    def remember(self, line, data, share=0.5):
        """Keeps clean data in the system cache, or doesn't."""
        if self.world.has("system-cache") and line not in self.cache and self.world.chance(share):
            self.cache[line] = (data, False)

    def flush(self, t):
        """Writes the system cache's dirty data to the memory."""
        if t.line in self.cache and self.cache[t.line][1]:
            data = self.cache.pop(t.line)[0]
            yield from self.write_memory(t, data)
            self.remember(t.line, data, 0.5)

    def settle(self, t):
        """Takes the dirty data that snoops have brought, whole or some bytes."""
        if t.dirty is not None:
            yield from self.keep(t, t.dirty)
        elif t.partial is not None:
            base = yield from self.fetch(t)
            yield from self.keep(t, merged(base, *t.partial))

    def tend(self):
        """Now and then the home makes room in its filter or in its system cache."""
        lines = [line for line in self.filter if line not in self.active and not self.queues.get(line)]
        if lines and not self.world.log.is_full:
            self.begin(None, self.random.choice(lines))
        self.world.after(self.random.randrange(60, 300), self.tend)

    def own(self, t):
        """Takes all copies of a line away, or puts its data out of the system cache."""
        entry = self.entry(t.line)
        if self.world.has("back-invalidate") and entry.holders and self.world.chance(0.5):
            kind = self.taking("SnpUnique", "SnpCleanInvalid")
            yield from self.snoop(t, {node: kind for node in entry.holders})
            yield from self.settle(t)
        elif t.line in self.cache:
            data, is_dirty = self.cache.pop(t.line)
            if is_dirty:
                yield from self.write_memory(t, data)
