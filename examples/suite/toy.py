"""A small cache model and home of somebody else's, which the suite is held against in this example.

It is written as such models are: caches with valid, unique and dirty bits, a home with a directory and a pool of entries,
and flits between them. Of check files it knows nothing; `replay` says what each command means here. With `bug` a cache
takes a Comp for a unique copy also where a snoop has taken the copy meanwhile."""

READS = ["ReadNotSharedDirty", "ReadShared", "ReadUnique"]
WRITES = ["WriteBackFull", "WriteCleanFull", "WriteEvictFull"]
SNOOPS = {"ReadNotSharedDirty": "SnpNotSharedDirty", "ReadShared": "SnpShared", "ReadUnique": "SnpUnique", "CleanUnique": "SnpCleanInvalid"}


class Refused(Exception):
    """What can't be done now; the text says why."""


class Flit:
    def __init__(self, opcode, resp="", words=None):
        self.opcode, self.resp, self.words = opcode, resp, words


class Request:
    """A request of a cache: in its miss table, and in the home's queue."""

    def __init__(self, kind, slot, line, pool):
        self.kind, self.slot, self.line, self.pool = kind, slot, line, pool
        self.is_retried = self.has_credit = self.is_answered = self.is_done = self.is_cancelled = False
        self.entry = None


class Copy:
    def __init__(self):
        self.valid = self.unique = self.dirty = False
        self.words = [0] * 8

    def allows(self, kind):
        """Whether a request of the kind may be sent from this copy."""
        if kind in READS:
            return not self.valid
        if kind == "CleanUnique":
            return self.valid and not self.unique
        if kind in ("WriteBackFull", "WriteCleanFull"):
            return self.dirty
        return self.valid and not self.dirty and (self.unique or kind == "Evict")

    def clear(self):
        self.valid = self.unique = self.dirty = False

    def name(self):
        return {(1, 0, 0): "SC", (1, 1, 0): "UC", (1, 1, 1): "UD", (1, 0, 1): "SD"}.get((self.valid, self.unique, self.dirty), "I")


class Cache:
    def __init__(self, number, lines, home, bug):
        self.number, self.home, self.bug = number, home, bug
        self.copies = [Copy() for _ in range(lines)]
        self.misses = {}  # by line
        self.slots = {}
        self.credits = []  # the entries of the grants that were taken

    def check_load(self, line):
        if not self.copies[line].valid:
            raise Refused("WrongState")

    def check_store(self, line):
        if line in self.misses:
            raise Refused("Pending")
        if not self.copies[line].unique:
            raise Refused("WrongState")

    def store(self, line, word, value):
        self.copies[line].words[word], self.copies[line].dirty = value, True

    def drop(self, line):
        if line in self.misses:
            raise Refused("Pending")
        if not self.copies[line].valid or self.copies[line].dirty:
            raise Refused("WrongState")
        self.copies[line].clear()

    def send(self, line, kind, slot):
        if line in self.misses or slot in self.slots:
            raise Refused("Pending")
        if not self.copies[line].allows(kind):
            raise Refused("WrongState")
        if kind == "Evict":
            self.copies[line].clear()
        self.misses[line] = self.slots[slot] = request = Request(kind, slot, line, self.home.pool_of(kind))
        self.home.put(line, self.number, Flit(request))

    def retried(self, line):
        request = self.misses.get(line)
        if not request or not request.is_retried:
            raise Refused("NothingPending")
        return request

    def spare(self, pool):
        """The credits of a pool beyond those of requests that were sent again."""
        held = sum(self.home.pool_at(entry) == pool for entry in self.credits)
        return held - sum(it.has_credit and it.pool == pool for it in self.slots.values())

    def send_again(self, line):
        request = self.retried(line)
        if request.kind in WRITES and not self.copies[line].allows(request.kind):
            raise Refused("WrongState")
        if not self.spare(request.pool):
            raise Refused("NoCredit")
        request.is_retried, request.has_credit = False, True
        self.home.put(line, self.number, Flit(request))

    def cancel(self, line):
        request = self.retried(line)
        if request.kind not in WRITES or self.copies[line].allows(request.kind):
            raise Refused("WrongState")
        request.is_retried, request.is_cancelled = False, True
        del self.misses[line]

    def take_grants(self):
        self.credits += self.home.grants.pop(self.number, [])

    def pay(self, pool):
        """A credit of the pool leaves the cache, the lowest entry first."""
        entry = min(it for it in self.credits if self.home.pool_at(it) == pool)
        self.credits.remove(entry)
        return entry

    def return_credit(self, pool):
        cancelled = [slot for slot, it in sorted(self.slots.items()) if it.is_cancelled and it.pool == pool]
        if not cancelled or not self.spare(pool):
            raise Refused("NoCredit")
        del self.slots[cancelled[0]]
        return self.home.release(self.pay(pool))

    def take_retry(self, line):
        self.misses[line].is_retried = True

    def take_snoop(self, line, flit):
        copy, invalidates = self.copies[line], flit.opcode in ("SnpUnique", "SnpCleanInvalid")
        words = copy.words[:] if copy.dirty else None
        passes = copy.dirty and flit.opcode != "SnpShared"
        copy.unique = False
        copy.dirty = copy.dirty and not passes
        copy.valid = copy.valid and not invalidates
        answer = "SnpRespData" if words else "SnpResp"
        self.home.put(line, self.number, Flit(answer, copy.name() + "_PD" * passes, words))

    def answered(self, line):
        """The request of a line is over here; the slot is free once it is over at the home as well."""
        request = self.misses.pop(line)
        request.is_answered = True
        if request.is_done:
            del self.slots[request.slot]
        return request

    def take_data(self, line, flit):
        copy = self.copies[line]
        copy.valid, copy.unique, copy.dirty, copy.words = True, flit.resp == "UC", False, flit.words
        self.answered(line)
        self.home.put(line, self.number, Flit("CompAck"))

    def take_comp(self, line, flit):
        self.answered(line)
        if flit.resp == "I":
            return
        copy = self.copies[line]
        copy.valid = copy.valid or self.bug
        copy.unique = copy.valid
        self.home.put(line, self.number, Flit("CompAck"))

    def take_dbid(self, line):
        copy, request = self.copies[line], self.answered(line)
        words = copy.words[:] if copy.valid else [0] * 8
        self.home.put(line, self.number, Flit("CopyBackWrData", copy.name() + "_PD" * copy.dirty, words))
        copy.dirty = False
        if request.kind != "WriteCleanFull":
            copy.clear()


class Directory:
    """What the home knows of a line."""

    def __init__(self):
        self.sharers, self.exclusive, self.owner = set(), False, None
        self.memory = [0] * 8
        self.queue, self.busy, self.served, self.awaited, self.late = {}, None, None, set(), None

    def forget(self, cache):
        self.sharers.discard(cache)
        self.exclusive = self.exclusive and bool(self.sharers)
        self.disown(cache)

    def disown(self, cache):
        self.owner = None if self.owner == cache else self.owner


class Home:
    def __init__(self, lines, pools, bug):
        self.directory = [Directory() for _ in range(lines)]
        self.pools = [number for number, count in enumerate(pools) for _ in range(count)]
        self.free, self.queued, self.grants = set(range(len(self.pools))), {}, {}
        self.flits = {}  # by line and cache
        self.caches, self.four, self.bug = [], len(pools) == 4, bug

    def add_cache(self):
        self.caches.append(Cache(len(self.caches), len(self.directory), self, self.bug))

    def put(self, line, cache, flit):
        self.flits.setdefault((line, cache), []).append(flit)

    def pool_of(self, kind):
        if kind in WRITES:
            return 1
        return 0 if not self.four or kind in READS[:2] else 3 if kind == "Evict" else 2

    def pool_at(self, entry):
        return self.pools[entry]

    def release(self, entry):
        """An entry is granted to the first cache that is owed one of its pool, or free."""
        owed = sorted(cache for cache, pool in self.queued if pool == self.pools[entry] and self.queued[cache, pool])
        if not owed:
            self.free.add(entry)
            return None
        self.queued[owed[0], self.pools[entry]] -= 1
        self.grants.setdefault(owed[0], []).append(entry)
        return owed[0]

    def take_request(self, line, cache, request):
        free = sorted(it for it in self.free if self.pools[it] == request.pool)
        if request.has_credit:
            request.entry, request.has_credit = self.caches[cache].pay(request.pool), False
        elif free:
            request.entry = free[0]
            self.free.remove(free[0])
        else:
            self.queued[cache, request.pool] = self.queued.get((cache, request.pool), 0) + 1
            self.put(line, cache, Flit("RetryAck"))
            return
        self.directory[line].queue[cache] = request

    def serve(self, line, cache):
        """The home begins with a queued request; an Evict is done at once, and its entry released."""
        known = self.directory[line]
        if cache not in known.queue:
            raise Refused("NotWaiting")
        if known.busy:
            raise Refused("LineBusy")
        known.served = request = known.queue.pop(cache)
        others = known.sharers - {cache}
        if request.kind == "Evict":
            known.forget(cache)
            self.put(line, cache, Flit("Comp", "I"))
            return self.done(line, cache)
        if request.kind in WRITES:
            known.busy = ("wrdata", cache)
            self.put(line, cache, Flit("CompDBIDResp"))
            return None
        if request.kind in READS[:2] and not known.exclusive:
            others &= {known.owner}
        known.busy, known.awaited, known.late = ("snooping", cache), others, None
        for other in others:
            self.put(line, other, Flit(SNOOPS[request.kind]))
        if not others:
            self.complete(line, cache)
        return None

    def take_answer(self, line, cache, flit):
        known = self.directory[line]
        known.awaited = known.awaited - {cache}
        known.disown(cache)
        if flit.resp.startswith("I"):
            known.forget(cache)
        else:
            known.exclusive = False
        if flit.resp == "SD":
            known.owner, known.late = cache, flit.words
        elif flit.words:
            known.memory = flit.words
        if not known.awaited:
            self.complete(line, known.busy[1])

    def complete(self, line, cache):
        known = self.directory[line]
        if known.served.kind in ("ReadUnique", "CleanUnique"):
            known.sharers = set()
        known.exclusive = not known.sharers - {cache}
        known.sharers = known.sharers | {cache}
        known.owner = None if known.exclusive else known.owner
        known.busy = ("compack", cache)
        if known.served.kind == "CleanUnique":
            self.put(line, cache, Flit("Comp", "UC"))
        else:
            self.put(line, cache, Flit("CompData", "UC" if known.exclusive else "SC", (known.late or known.memory)[:]))

    def take_write(self, line, cache, flit):
        known = self.directory[line]
        if flit.resp.endswith("PD"):
            known.memory = flit.words
        if known.served.kind != "WriteCleanFull" or flit.resp == "I":
            known.forget(cache)
        known.disown(cache)
        return self.done(line, cache)

    def done(self, line, cache):
        """The served request is over at the home: its slot, and to whom its entry is granted."""
        known = self.directory[line]
        known.busy, request = None, known.served
        request.is_done = True
        if request.is_answered:
            del self.caches[cache].slots[request.slot]
        return request.slot, self.release(request.entry)
