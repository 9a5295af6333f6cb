"""What flits tell of one cache line, of any home and any caches of Issue B: of each agent the SET of what its copy may be.

A flit of a cache maps the rows of one copy over the set: it is accepted where something is left. A flit of the home is
accepted where it is safe for all that the sets allow. What caches do unseen makes more members of a set; what the home
does unseen makes alternatives, each a Line (class Observer).

A world is a product: one member of each set, and the words. A member is (copy, cancelled): its state with its mark, and
which of its requests that were retried it has cancelled. Words are known in three records: `both`, of home and value where no
member is marked; `home` and `news`, of the home and of the value where one is. A byte is a number, or below 0 a name of what
no flit has shown, the same wherever it was kept, or None: any.
"""
from rows import (ALONE, ANSWERS, ATOMIC, CLEANED, DATA, DIRTY, FORWARDS, KINDS, LEFT, LOOSE, LOST, NONE, ONCE, OVERWRITES,
                  PAIRED, PARTIAL, PULLS, SNOOPS, STASH, STASHED, STORED, THROWN, TIMED, UNIQUE, UPGRADED, WHOLE, WRITES, WRITTEN,
                  Fault, base, closure, compatible, drop, fits, is_new, join, learn, names, need, row, serves, unseen)


class Request:
    def __init__(self, kind, phase, left=frozenset(), exp=False):
        self.kind, self.phase, self.left, self.exp = kind, phase, left, exp     # phase: sent, sure (AllowRetry 0), retried, part
        self.moments = ()           # ReadOnce: home's words that were surely the value since; CleanShared: (True,) if clean since
        self.buffer = None          # write data that aren't written yet

    def but(self, **o):
        r = Request(self.kind, self.phase, self.left, self.exp)
        r.moments, r.buffer = self.moments, self.buffer
        r.__dict__.update(o)
        return r

    def key(self):
        return (self.kind, self.phase, self.left, self.exp, self.moments, self.buffer)


# ---------------------------------------------------------------- the line

class Line:
    def __init__(self, agents=2, words=1, hidden=True, partial=False):
        self.A, self.hidden, self.partial = agents, hidden, partial
        self.all = frozenset(range(words))
        self.valid = (frozenset(), self.all)                            # bytes of a partial copy: at least, at most
        self.copies = (frozenset({("I", frozenset())}),) * agents      # right behind the last flit of or to the agent
        self.open = ({},) * agents                                      # slot -> Request
        self.snoop = (None,) * agents
        self.duty, self.fwd = False, None
        self.both = self.home = tuple(-1 - i for i in range(words))
        self.news, self.split = (None,) * words, []
        self.may_lose = False           # the home may throw its own dirty data away, behind a ReadOnceMakeInvalid

    def clone(self):
        c = Line.__new__(Line)
        c.__dict__.update(self.__dict__)
        return c

    def key(self):
        a, b, of = self.may_be_same(), self.may_be_new(), {}
        def named(t):
            return tuple(x if x is None or x >= 0 else of.setdefault(x, -1 - len(of)) for x in t) if type(t) is tuple else t
        return (self.copies, self.snoop, self.duty, a and named(self.both), b and named(self.home), b and named(self.news),
                tuple(tuple((s, *r.key()[:4], tuple(map(named, r.moments)), r.buffer) for s, r in sorted(o.items())) for o in self.open),
                self.fwd and self.fwd[:6] + (tuple(map(named, self.fwd[6])) if type(self.fwd[6]) is tuple else self.fwd[6],),
                any(c in PARTIAL for s in self.copies for c, _ in s) and self.valid)

    def bind(self, of):
        """What names stand for is shown."""
        def by(t):
            return tuple(of.get(x, x) for x in t) if type(t) is tuple else t
        if of:
            self.both, self.home, self.news = by(self.both), by(self.home), by(self.news)
            self.open = tuple({s: r.but(moments=tuple(map(by, r.moments))) for s, r in o.items()} for o in self.open)
            if self.fwd and type(self.fwd[6]) is tuple:
                self.fwd = self.fwd[:6] + (tuple(map(by, self.fwd[6])),)

    def unknown(self):
        """New names."""
        low = min([0] + [x for t in (self.both, self.home, self.news, *(m for o in self.open for r in o.values() for m in r.moments))
                         if type(t) is tuple for x in t if x is not None])
        return tuple(low - 1 - i for i in range(len(self.both)))

    # sets

    def put(self, name, n, x):
        t = getattr(self, name)
        setattr(self, name, t[:n] + (x,) + t[n + 1:])

    def states(self, n):
        """What others see: while whole-line data of a write that is visible are due, its agent counts as a writer."""
        if any(r.phase == "part" and r.kind in WRITES and "data" in r.left and "comp" not in r.left
               for r in self.open[n].values()):
            return {"W"}
        return {c for c, _ in self.copies[n]}

    def may_be_new(self):
        return any(is_new(c) for s in self.copies for c, _ in s)

    def may_be_same(self):
        return all(any(not is_new(c) for c, _ in s) for s in self.copies)

    def may_be_lost(self):
        return any(c in LOST for s in self.copies for c, _ in s)

    def classes(self, a, b):
        return ([a] if self.may_be_same() else []) + ([b] if self.may_be_new() else [])

    def drift(self, but=None):
        """Hidden steps of all caches."""
        stored, full = False, []
        for n in range(self.A):
            if n == but or self.fwd and self.fwd[0] == n and self.fwd[4]:   # it owes its answer
                full.append(self.copies[n])
                continue
            f, st = closure(self.copies[n], tuple(sorted((s, r.phase) for s, r in self.open[n].items() if r.kind not in LOOSE)), self.hidden, self.partial, self.valid[0] == self.all)
            full.append(f)
            stored |= st
            if st and any(c in UNIQUE for c, _ in self.copies[n]):
                self.valid = (frozenset() if any(c.startswith("UCE") for c, _ in self.copies[n]) else self.valid[0], self.all)
            if st and self.fwd and self.fwd[0] == n:
                self.outrun()
        if stored:
            self.home = join(*self.classes(self.both, self.home))
        self.copies = tuple(full)

    def value(self):
        """What is known of it in all worlds."""
        stored = any(c[-1] == '"' for s in self.copies for c, _ in s)
        return join(*self.classes(self.both, self.news), *[(None,) * len(self.news)] * stored)

    def drop_told(self):
        """Members with the words that were told are no more."""
        self.copies = tuple(frozenset(h for h in s if h[0][-1] != "'" or h[0] in LOST) for s in self.copies)

    def restrict(self, new):
        """Members that are new, or that aren't, are no more."""
        if not new:
            self.copies = tuple(frozenset(h for h in s if not is_new(h[0])) for s in self.copies)
        else:
            who = [n for n in range(self.A) if any(is_new(c) for c, _ in self.copies[n])]
            if len(who) == 1:
                self.put("copies", who[0], frozenset(h for h in self.copies[who[0]] if is_new(h[0])))
        return all(self.copies)

    def tell(self, words, a, b):
        """Words of the value (both, news) or of the home (both, home): which worlds are left."""
        same, new = self.may_be_same(), self.may_be_new()
        stored = b == "news" and any(c[-1] == '"' for t in self.copies for c, _ in t)
        ok_a, ok_b = same and fits(getattr(self, a), words), new and fits(getattr(self, b), words)
        if stored and not ok_b:
            self.drop_told()
            self.news = (None,) * len(words)
            ok_b = True
        need(ok_a or ok_b, "other words")
        if same and not ok_a:
            self.restrict(True)
        if new and not ok_b:
            self.restrict(False)
        if self.may_be_same() != self.may_be_new():
            self.bind(names(getattr(self, a if self.may_be_same() else b), words))
        if stored and None not in words:                    # the whole value is told
            self.copies = tuple(frozenset((row(c), can) for c, can in t) for t in self.copies)
        setattr(self, a, learn(getattr(self, a), words))
        setattr(self, b, learn(getattr(self, b), words))

    def past(self):
        """The home's words are replaced: moments before are of those that they were."""
        old = join(*self.classes(self.both, self.home))
        for n in range(self.A):
            for s, r in self.open[n].items():
                if "now" in r.moments:
                    self.put("open", n, {**self.open[n], s: r.but(moments=tuple(x for x in r.moments if x not in ("now", old)) + (old,))})

    def shown(self, words, same=False):
        """The home has the value then. Moments before are of other words, unless those are the same."""
        if not same and (self.may_be_new() or self.both != words):
            self.past()
        self.copies = tuple(frozenset((base(c), can) for c, can in s) for s in self.copies)
        self.both = words

    def merge(self, words):
        """The home has these words of the value then. Where all others were its own it has the value."""
        if None not in words:
            return self.shown(words)
        self.past()
        same = join(*self.classes(learn(self.both, words), learn(self.home, words)))
        self.both, self.home, self.news = same, learn(self.home, words), learn(self.news, words)
        self.copies = tuple(frozenset((c if c in LOST else base(c), can) for c, can in s) for s in self.copies)

    def enabled(self, words):
        """The bytes of a partial copy are those."""
        there = frozenset(i for i, w in enumerate(words) if w is not None)
        need(self.valid[0] <= there <= self.valid[1] and there, "other bytes are there")
        self.valid = (there, there)

    def image(self, n, to, keep=lambda can: True):
        """The one-copy relation over the set: to: copy -> copy, list of copies, or None."""
        out = set()
        for c, can in self.copies[n]:
            r = to(row(c)) if keep(can) else None
            for x in r if isinstance(r, list) else [r] if r else []:
                out.add((unseen(x) if c[-1] == '"' and x not in LOST - PARTIAL else x, can))
        return frozenset(out)

    def become(self, n, copies, why):
        need(copies, why)
        self.put("copies", n, copies)

    def settle(self):
        """Requests that are surely cancelled are gone; behind each flit: moments of reads and cleans that wait."""
        for n in range(self.A):
            gone = {s for s, r in self.open[n].items() if r.phase == "retried" and all(s in can for _, can in self.copies[n])}
            if gone:
                self.put("open", n, {s: r for s, r in self.open[n].items() if s not in gone})
                self.put("copies", n, frozenset((c, can - gone) for c, can in self.copies[n]))

    def moment(self, n):
        """n: whose copy the flit told of, which hasn't stored since."""
        c = self.clone()
        c.drift(n)
        new = c.may_be_new()
        if new and not c.may_be_lost() and None not in c.value() and c.value() == c.home:
            new = False
        for m in range(self.A):
            for s, r in self.open[m].items():
                if r.kind in TIMED and r.phase in ("sent", "sure", "retried"):
                    if r.kind in ONCE and not new:
                        if "now" not in r.moments:
                            self.put("open", m, {**self.open[m], s: r.but(moments=r.moments + ("now",))})
                    if r.kind in CLEANED and not r.moments and not new and not any(
                            c.states(k) & DIRTY for k in range(self.A) if k != m):
                        self.put("open", m, {**self.open[m], s: r.but(moments=(True,))})

    # flits of a cache

    def issue(self, n, slot, kind, exp=False):
        open_ = self.open[n]
        r = open_.get(slot)
        need(r is None or r.phase == "retried", "a request of it is open")
        need(r is None or r.kind not in LOOSE, "a request of it is open")
        others = [s for s, q in open_.items() if s == slot or not (kind in PAIRED and q.kind in PAIRED or kind in LOOSE or q.kind in LOOSE)]
        frm = KINDS[kind][0].split()
        new = [(drop(c) if kind == "Evict" else c, can - {slot}) for c, can in self.copies[n]
               if row(c) in frm and all(s in can for s in others)]
        if any(c[-1] == '"' for c, _ in new) and kind not in LOOSE:
            self.news = (None,) * len(self.news)
        self.become(n, frozenset((row(c) if kind not in LOOSE else c, can) for c, can in new), "its copy doesn't issue that")
        self.put("open", n, {**open_, slot: Request(kind, "sent", exp=exp)})

    def resend(self, n, slot):
        r = self.open[n].get(slot)
        need(r and r.phase == "retried", "not retried")
        self.become(n, frozenset(h for h in self.copies[n] if slot not in h[1]), "it is cancelled")
        self.put("open", n, {**self.open[n], slot: r.but(phase="sure", moments=r.moments)})

    def pull(self, n, form, words, slot):
        """An answer that asks for the line besides."""
        snoop = self.snoop[n]
        need(snoop in PULLS, "no snoop that may be answered so")
        self.answer(n, form, words)
        self.issue(n, slot, PULLS[snoop])
        self.put("open", n, {**self.open[n], slot: self.open[n][slot].but(phase="sure")})

    def answer(self, n, form, words=None):
        snoop = STASH.get(self.snoop[n], self.snoop[n])
        need(snoop, "no snoop")
        plain = FORWARDS[snoop][0] if snoop in FORWARDS else snoop
        forms = {"D_U": ("D_UC", "D_UD"), "R_U": ("R_UC",)}.get(form, (form,))
        out = set()
        for f in forms:
            if plain in ("SnpStashUnique", "SnpStashShared"):
                out |= set(STASHED.get(f, {}).items())
            elif f in LEFT and LEFT[f] in SNOOPS[plain].split() and (plain != "SnpMakeInvalid" or f == "R_I"):
                out |= {(c, t) for c, t in (THROWN if plain == "SnpMakeInvalid" else ANSWERS[f]).items()}
        self.answered(n, out, words)
        self.snoop = self.snoop[:n] + (None,) + self.snoop[n + 1:]
        self.duty |= form.endswith("_PD")
        if self.fwd and self.fwd[0] == n:
            self.fwd = None

    def answered(self, n, pairs, words):
        if words is not None:
            if any(c in PARTIAL for c, _ in pairs):
                self.enabled(words)
            self.put("copies", n, frozenset(h for h in self.copies[n] if any(row(h[0]) == c for c, _ in pairs)))
            need(self.copies[n], "its copy doesn't answer so")
            self.tell(words, "both", "news")
            self.merge(words)
        self.become(n, self.image(n, lambda c: [t for d, t in pairs if d == c]), "its copy doesn't answer so")

    def part(self, n, slot, what):
        r = self.open[n].get(slot)
        need(r and r.phase == "part" and what in r.left, "that isn't due")
        return r

    def over(self, n, slot, r, *done):
        left = r.left - set(done)
        o = {s: q for s, q in self.open[n].items() if s != slot}
        if left or r.buffer:
            o[slot] = r.but(left=left)
        self.put("open", n, o)

    def compack(self, n, slot):
        r = self.part(n, slot, "ack")
        need(not r.left & {"comp", "F"}, "its completion is due")
        self.over(n, slot, r, "ack")

    def wrdata(self, n, slot, form, words=None):
        r = self.part(n, slot, "data")
        if r.kind in WRITES:
            need(form == "N" and "dbid" not in r.left and (r.kind not in WHOLE or None not in words), "no such data are due")
            if "comp" in r.left:                            # DBIDResp came early: the home keeps them till it is visible
                r = r.but(buffer=words)
                self.put("open", n, {**self.open[n], slot: r.but(left=r.left - {"data"})})
            else:
                self.over(n, slot, r, "data")
                if r.kind in ATOMIC:
                    self.past()
                    self.both = self.unknown()
                else:
                    self.merge(words)
            self.duty = True
            return
        need(form in WRITTEN and (form == "PTL") == (r.kind == "WriteBackPtl" and form != "I"), "no such data are due")
        to = WRITTEN[form]
        if form == "PTL":
            self.enabled(words)
        if form != "I":
            self.put("copies", n, frozenset(h for h in self.copies[n] if row(h[0]) in to))
            need(self.copies[n], "its copy has another form")
            self.tell(words, "both", "news")
            self.merge(words)
            self.duty |= form != "SC" and form != "UC"
        self.become(n, self.image(n, lambda c: (to[c] if r.kind == "WriteCleanFull" or form == "PTL" else drop(c)) if c in to else None),
                    "its copy has another form")
        self.over(n, slot, r, "data")

    def wrcancel(self, n, slot):
        r = self.part(n, slot, "data")
        need(r.kind in WRITES - ATOMIC and "dbid" not in r.left, "no such data are due")
        self.over(n, slot, r, "data")

    def usable(self, n, can):
        return all(s in can or r.kind in LOOSE or r.phase == "part" and r.left == {"ack"} for s, r in self.open[n].items())

    def load(self, n, words):
        acking = any(r.phase == "part" and r.left == {"ack"} for r in self.open[n].values())
        stored = frozenset((x, can) for c, can in self.copies[n] if self.hidden and acking and c in UNIQUE and self.usable(n, can)
                           for x in STORED[row(c)].split() if self.partial or x == "UD'")
        c = self.clone()
        at = frozenset(i for i, w in enumerate(words) if w is not None)
        try:
            c.put("copies", n, frozenset(h for h in c.copies[n] if h[0] in DATA or h[0] in PARTIAL and at <= self.valid[1]))
            need(c.copies[n], "its copy has no data")
            c.valid = (self.valid[0] | at & self.valid[1], self.valid[1])
            c.tell(words, "both", "news")
            need(c.copies[n], "other words")
        except Fault:
            need(stored, "no such copy")
            c = None
        if not stored:
            self.__dict__.update(c.__dict__)
            return
        # behind the CompAck, and a store before it
        low, empty = self.valid[0], any(c.startswith("UCE") for c, _ in self.copies[n])
        home = join(*([self.classes(self.both, self.home)][0]))
        if c:
            home = join(home, *c.classes(c.both, c.home))
            self.__dict__.update(c.__dict__)
            self.put("copies", n, self.copies[n] | stored)
        else:
            self.put("copies", n, stored)
        self.home, self.news = home, words
        self.valid = ((frozenset() if empty else low) | at, self.all)

    def store(self, n, words):
        at = frozenset(i for i, w in enumerate(words) if w is not None)
        copies = {c for c, can in self.copies[n] if c in UNIQUE and self.usable(n, can)}
        need(copies, "it has no unique copy to store to")
        empty = any(c.startswith("UCE") for c in copies)
        if self.fwd and self.fwd[0] == n:
            self.outrun()
        news = (None,) * len(words) if empty and not self.partial else self.value()
        home = join(*self.classes(self.both, self.home))
        self.put("copies", n, frozenset((STORED[row(c)].split()[0] if self.partial else "UD'", can) for c, can in self.copies[n]
                                        if c in copies and self.usable(n, can)))
        self.home, self.news = home, learn(news, words)
        low, high = (frozenset(), frozenset()) if empty else self.valid
        self.valid = (low | at, high | at)

    # flits of the home

    def retry(self, n, slot):
        r = self.open[n].get(slot)
        need(r and r.phase == "sent" and not (self.fwd and self.fwd[1:3] == (n, slot)), "no request to retry")
        self.put("open", n, {**self.open[n], slot: r.but(phase="retried")})
        self.put("copies", n, frozenset((c, can - {slot}) for c, can in self.copies[n]))

    def holds(self):
        return any(r.phase == "part" and ("ack" in r.left and "comp" not in r.left and r.kind not in ONCE or "data" in r.left and "comp" not in r.left)
                   for o in self.open for r in o.values())

    def snp(self, n, snoop, to=None):
        need(not self.snoop[n] and not self.holds() and not self.fwd, "a snoop, CompAck or data are due")
        if STASH.get(snoop, snoop) == "SnpMakeInvalid":
            need(any(r.kind in OVERWRITES and r.phase in ("sent", "sure") or r.kind in WHOLE and "comp" in r.left
                     for m in range(self.A) if m != n for r in self.open[m].values()), "nobody overwrites")
        if snoop in FORWARDS:
            self.forward_to(n, snoop, to)
        self.put("snoop", n, snoop)

    def beside(self, n, states, alone):
        need(all(compatible(a, b) and (not alone or b in NONE) for m in range(self.A) if m != n
                 for b in self.states(m) for a in states), "another copy")

    def give(self, n, words):
        """Words of the home that are to be the value: in each world that is left."""
        self.tell(words, "both", "home")
        if any(is_new(c) for m in range(self.A) for c, _ in self.copies[m] if m != n or c not in DIRTY):     # a dirty one of n's stays as it is
            need(not self.may_be_lost() and self.value() == words, "the home hasn't the value")

    def complete(self, n, slot, form, words=None):
        r = self.open[n].get(slot)
        need(r, "no request")
        kind = r.kind
        first = r.phase in ("sent", "sure")
        need(first or r.phase == "part" and kind in WRITES and (form == "DBIDResp" and "dbid" in r.left or
             form in ("Comp_I", "CompData_I") and "comp" in r.left), "no completion is due")
        need(form in KINDS[kind][1].split(), "it isn't completed so")
        need(not self.snoop[n] or kind == "Evict", "its snoop")
        need(not self.fwd or kind == "Evict", "a forward is out")
        if kind in WRITES:
            return self.grant_write(n, slot, r, form, words)
        if kind in CLEANED:
            need(r.moments, "no moment")
        if kind in ONCE:
            self.was_value(r, words)
            self.may_lose = kind == "ReadOnceMakeInvalid" and all(self.states(m) <= NONE for m in range(self.A) if m != n)
        need(not form.endswith("_PD") or self.duty, "no duty")
        copies = self.copies[n]
        if form.startswith("CompData") and kind not in ONCE:
            to = form.split("_")[1]
            if any(c not in DIRTY for c, _ in copies):
                self.give(n, words)
            new = self.image(n, lambda c: {"SD": "UD", "SD'": "UD'"}.get(c, to if c not in DIRTY else c))
            self.put("copies", n, new)
            self.duty &= not form.endswith("_PD")
        elif kind == "CleanUnique":
            self.put("copies", n, self.image(n, lambda c: UPGRADED.get(c, c)))
        elif kind == "MakeUnique":
            self.home = join(*self.classes(self.both, self.home))
            self.put("copies", n, self.image(n, lambda c: "UD'"))
            self.news = (None,) * len(self.news)
        self.beside(n, {c for c, _ in self.copies[n]}, kind in ALONE)
        if kind == "MakeUnique":
            self.copies = tuple(frozenset((base(c) if c in LOST else c, can) for c, can in s) for s in self.copies)
        if kind == "MakeInvalid":
            self.shown(self.unknown())
            self.duty = True
        left = set(KINDS[kind][2].split()) | ({"ack"} if r.exp else set())
        self.over(n, slot, r.but(phase="part", left=frozenset(left)))

    def was_value(self, r, words):
        """Words of the home at some moment of r's."""
        old = [x for x in r.moments if x != "now" and fits(x, words)]
        now = [w for w in self.classes(self.both, self.home) if "now" in r.moments and fits(w, words)]
        need(old or now, "not the value since")
        if old:                                             # which it was is the home's own choice
            of = [names(w, words) for w in old + now]
            self.split = [] if {} in of else [x for i, x in enumerate(of) if x not in of[:i]]
        else:
            self.tell(words, "both", "home")

    def grant_write(self, n, slot, r, form, words=None):
        first, kind = r.phase != "part", r.kind
        left = {"comp", "dbid", "data"} | ({"ack"} if r.exp else set()) if first else set(r.left)
        need(form != "CompDBIDResp" or first, "it was answered in part")
        if "Comp" in form:
            left -= {"comp"}
            if "data" in left:
                self.beside(n, {"W"}, True)                 # visible, before its data
                if kind in ATOMIC:
                    need(not self.may_be_lost(), "no value")
                if words is not None:
                    self.give(n, words)
            elif r.buffer:
                if words is not None:
                    self.give(n, words)
                self.commit(n, slot)
                r = self.open[n][slot].but(moments=())
            elif words is not None:
                self.was_value(r, words)
                r = r.but(moments=())
        if "DBID" in form:
            left -= {"dbid"}
        self.over(n, slot, r.but(phase="part", left=frozenset(left)))

    def commit(self, n, slot):
        """Unseen: the home writes what it has kept."""
        r = self.open[n][slot]
        self.beside(n, {"W"}, True)
        if r.kind in ATOMIC:
            need(not self.may_be_lost(), "no value")
            r = r.but(moments=("now",) if r.kind == "AtomicLoad" else ())
            self.put("open", n, {**self.open[n], slot: r})
            self.past()
            self.both = self.unknown()
            r = self.open[n][slot]
        else:
            self.merge(r.buffer)
            r = self.open[n][slot]
        self.put("open", n, {**self.open[n], slot: r.but(buffer=None)})

    # forwarding: one moment of the snooped copy, told by two flits: F, CompData of it, and R, SnpRespFwded of it
    # fwd: (holder, requester, slot, snoop, F's (form, words) or None, R's form or None, words that F has to be)

    def forward_to(self, m, snoop, to):
        n, slot = to
        plain, _, table = FORWARDS[snoop]
        r = self.open[n].get(slot)
        need(m != n and r and serves(snoop, r.kind) and r.phase in ("sent", "sure") and not self.snoop[n], "no such request waits")
        for c in {c for c, _ in self.copies[m]}:            # whatever it does goes with all others
            for form, lefts in table.get(base(c), {}).items():
                for left in lefts.split():
                    for k in range(self.A):
                        if k not in (m, n):
                            for b in self.states(k):
                                need(all(compatible(x, b) for x in (left.split("_")[0], *({form.split("_")[0]} - {"I"}))),
                                     "a third copy may be there")
        need(not self.may_be_lost(), "no value")
        self.fwd = (m, n, slot, snoop, None, None, None)

    def granted(self, n, slot, form, marks, due):
        """The requester: the duty, and what the home hasn't, pass to it with _PD. due: F, which gives it the words."""
        r, f = self.open[n][slot], form.split("_")[0]
        if form != "I":
            to = [f + mark for mark in marks] if form.endswith("PD") else [f]
            self.put("copies", n, self.image(n, lambda c: {"SD": "UD", "SD'": "UD'"}[c] if c in DIRTY else to))
        left = set(KINDS[r.kind][2].split()) | ({"ack"} if r.exp else set()) | ({"F"} if due else set())
        self.over(n, slot, r.but(phase="part", left=frozenset(left)))

    def forward(self, m, form, words, to=None):
        r = self.open[to[0]].get(to[1]) if to else None
        if r and r.kind in ONCE and r.phase == "part" and "F" in r.left:
            need(any(fits(x, words) for x in r.moments), "other words")
            return self.over(to[0], to[1], r.but(moments=()), "F")
        need(self.fwd and self.fwd[0] == m and self.fwd[4] is None, "no forwarding snoop to it is out")
        _, n, slot, snoop, _, told, owed = self.fwd
        if told:
            need(told == form, "its answer told another form")
            if owed == "value":
                self.tell(words, "both", "news")
            elif owed == ("home",):
                self.tell(words, "both", "home")
            else:
                need(any(fits(x, words) for w in owed for x in (self.classes(self.both, self.home) if w == "home" else [w])), "other words")
            self.fwd = None
            r = self.open[n][slot]
            return self.over(n, slot, r, "F")
        table = FORWARDS[snoop][2]
        self.put("copies", m, frozenset(h for h in self.copies[m] if form in table.get(base(h[0]), {})))
        need(self.copies[m], "its copy doesn't forward so")
        self.tell(words, "both", "news")
        self.granted(n, slot, form, {c[len(base(c)):] for c, _ in self.copies[m]}, False)
        self.put("copies", m, self.image(m, lambda c: [x + c[len(base(c)):] * (not form.endswith("PD"))
                                                       for x in table[base(c)][form].split()]))
        self.fwd = (m, n, slot, snoop, form, None, None)

    def forwarded(self, m, left, form, words=None):
        need(self.fwd and self.fwd[0] == m and self.fwd[5] is None, "no forwarding snoop to it is out")
        need(words is not None or not left.endswith("PD"), "its duty comes with data")
        _, n, slot, snoop, sent, _, _ = self.fwd
        need(sent in (None, form), "it forwarded another form")
        need(words is None or snoop != "SnpUniqueFwd", "the home gets no data then")
        table = FORWARDS[snoop][2]
        self.put("copies", m, frozenset(h for h in self.copies[m] if (
            base(h[0]) == left if sent else left in table.get(base(h[0]), {}).get(form, "").split())))
        need(self.copies[m], "its copy doesn't answer so")
        if words is not None:
            self.tell(words, "both", "news")
            self.shown(words)
        if not sent:
            self.granted(n, slot, form, {c[len(base(c)):] for c, _ in self.copies[m]}, True)
        self.put("copies", m, self.image(m, lambda c: left.split("_")[0] + c[len(base(c)):] * (not form.endswith("PD"))))
        self.fwd = None if sent else (m, n, slot, snoop, None, form, "value")
        r = self.open[n].get(slot)
        if not sent and r.kind in ONCE:     # no CompAck follows: the home may go on, and the words are those of now
            self.put("open", n, {**self.open[n], slot: r.but(moments=(self.value(),))})
            self.fwd = None
        self.duty |= left.endswith("PD")
        self.put("snoop", m, None)

    def outrun(self):
        """A store of the holder, behind its SnpRespFwded: the words that it owes aren't the value any more."""
        if self.fwd[6] == "value":
            self.fwd = self.fwd[:6] + ((("home",) if self.may_be_same() else ()) + ((self.value(),) if self.may_be_new() else ()),)


# ---------------------------------------------------------------- the observer: the home's unseen choices are alternatives

FLITS = {"pull": "pull", "forward": "forward", "forwarded": "forwarded", "issue": "issue", "resend": "resend", "answer": "answer", "compack": "compack", "wrdata": "wrdata", "wrcancel": "wrcancel",
         "load": "load", "store": "store", "retry": "retry", "snoop": "snp", "complete": "complete"}


class Observer:
    def __init__(self, *a, **o):
        self.lines, self.drifted = [Line(*a, **o)], None

    def take(self, n, what, *a):
        out, why = {}, None
        if not self.drifted:
            self.drifted = [l.clone() for l in self.lines]
            for l in self.drifted:
                l.drift()
        for line in self.drifted:
            c = line.clone()
            try:
                need(what not in ("issue", "resend", "answer", "pull", "load", "store") or not (c.fwd and c.fwd[0] == n and (
                    c.fwd[4] or what == "answer" and c.fwd[5])), "its SnpRespFwded is due")
                getattr(c, FLITS[what])(n, *a)
                need(all(c.copies), "no copy is left")
                todo = []
                for of in c.split or [{}]:
                    d = c.clone()
                    d.split = []
                    d.bind(of)
                    d.settle()
                    d.may_lose = False
                    if c.may_lose:
                        e = d.clone()
                        e.past()
                        e.shown(e.unknown())
                        e.moment(n)
                        todo.append(e)
                    d.moment(n)
                    todo.append(d)
                while todo:
                    c = todo.pop()
                    out[c.key()] = c
                    for m in range(c.A):
                        for s, r in c.open[m].items():
                            if r.buffer:
                                d = c.clone()
                                d.drift()
                                try:
                                    d.commit(m, s)
                                    d.moment(n)
                                    todo.append(d)
                                except Fault:
                                    pass
            except Fault as f:
                why = f
        if not out:
            raise why
        o = Observer.__new__(Observer)
        o.lines, o.drifted = list(out.values()), None
        return o

    def key(self):
        return frozenset(l.key() for l in self.lines)
