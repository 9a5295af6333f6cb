"""What the copies of a line's agents may be, where its flits are seen at the home: a set of members of each agent.

A member is one agent's side of the truth: its copy, whether that was stored to since the home has had its words, its
request, and what it has sent that the home hasn't received. An unseen step stores, drops, cancels or *sends*. A flit of a
cache is one that some member has on its way. A flit of the home is judged by the rules of a log as sent, over all members.

Data on their way have a mark: h, the home's own words; n, the value last stored, which the home hasn't; o, a value that
the home hasn't, and another was stored since; f, words that are forgotten, since newer ones have come.

A CompAck is sent with its completion: till then its agent does nothing, and no snoop to it is open.
"""

from functools import lru_cache
from typing import NamedTuple

READS = "ReadNotSharedDirty", "ReadShared", "ReadClean"
UPGRADES = "ReadUnique", "CleanUnique", "MakeUnique"
ISSUED = {**dict.fromkeys(READS, ("I", "UCE")), **dict.fromkeys(UPGRADES, ("I", "UCE", "SC", "SD")),
          "CleanShared": ("I", "SC", "UC"), "ReadOnce": ("I",), "CleanInvalid": ("I",), "MakeInvalid": ("I",),
          "WriteUniqueFull": ("I",), "Evict": ("SC", "UC", "UCE"), "WriteBackFull": ("UD", "SD"),
          "WriteCleanFull": ("UD", "SD"), "WriteEvictFull": ("UC",)}
WRITES = "WriteBackFull", "WriteCleanFull", "WriteEvictFull", "WriteUniqueFull"
COMPLETED = {"ReadNotSharedDirty": "CompData_SC CompData_UC CompData_UD_PD", "ReadClean": "CompData_SC CompData_UC",
             "ReadShared": "CompData_SC CompData_UC CompData_UD_PD CompData_SD_PD", "ReadOnce": "CompData_I",
             "ReadUnique": "CompData_UC CompData_UD_PD", "CleanShared": "Comp_I Comp_SC Comp_UC",
             **dict.fromkeys(("CleanUnique", "MakeUnique"), "Comp_UC"), **dict.fromkeys(WRITES, "DBID"),
             **dict.fromkeys(("CleanInvalid", "MakeInvalid", "Evict"), "Comp_I")}
SHOWN, COMING = "shown", "coming"
OVERWRITING = "MakeUnique", "MakeInvalid", "WriteUniqueFull"
TIMED = "ReadOnce", "CleanShared"
CLEAN, DIRTY, UNIQUE, DATA = {"SC", "UC", "UCE"}, {"UD", "SD"}, {"UC", "UCE", "UD"}, {"SC", "UC", "UD", "SD"}
# the copies that an answer is given from
ANSWERED = {"R_I": ("I", "SC", "UC", "UCE"), "R_SC": ("SC", "UC"), "R_UC": ("UC", "UCE"), "D_I": ("SC", "UC"),
            "D_SC": ("SC", "UC"), "D_UC": ("UC",), "D_UD": ("UD",), "D_SD": ("UD", "SD"), "D_I_PD": ("UD", "SD"),
            "D_SC_PD": ("UD", "SD"), "D_UC_PD": ("UD",)}
# what a snoop lets a copy be left as
SHARED, GONE = ("I", "SC", "SD"), ("I",)
LEFT = {"SnpOnce": ("I", "SC", "UC", "UD", "SD"), "SnpClean": SHARED, "SnpShared": SHARED, "SnpNotSharedDirty": SHARED,
        "SnpCleanShared": ("I", "SC", "UC"), "SnpUnique": GONE, "SnpCleanInvalid": GONE, "SnpMakeInvalid": GONE}
# words on their way behind newer ones that the home has received
OLDER = {"o": "f", "h": "f"}
WRITTEN = {"UD": ("UD_PD",), "SD": ("SD_PD",), "UC": ("UC", "I"), "SC": ("SC", "I")}


class Member(NamedTuple):
    copy: str
    # since the home has had its words
    stored: bool
    # free, there (at the home), waiting (retried), again (sent again), due (write data are), or a kind that is on its way
    request: str
    # an answer or write data on their way, with the mark of their words
    reply: tuple


class Agent(NamedTuple):
    """What the home knows of an agent besides its members."""
    # its request that the home has: the kind, and open, sure (it was sent again) or retried
    due: tuple
    # the reply that the home awaits: the snoop, or the kind whose write data are due; and whose moments came before
    asked: tuple
    # CompAcks, and write data that a later completion has overtaken, on their way
    acks: int
    old: int
    # the moment of its CleanShared or ReadOnce: SHOWN, COMING with words that are on their way, or None
    moment: str


def put(items, at, item):
    return items[:at] + (item,) + items[at + 1:]


def is_answer(snoop, form, copy):
    """Whether such a copy answers the snoop so; SnpMakeInvalid lets dirty data be thrown away."""
    if snoop == "SnpMakeInvalid":
        return form == "R_I"
    return form.split("_")[1] in LEFT[snoop] and copy in ANSWERED[form]


def remarked(member, marks):
    """The member, its words with another mark."""
    return member._replace(reply=(member.reply[0], marks.get(member.reply[1], member.reply[1]))) if member.reply else member


def has_mark(member, mark):
    return bool(member.reply) and member.reply[1] == mark


def slips(member, asked, kinds):
    """`asked`: the snoop, or the kind whose write data are due."""
    if member.request == "free":
        yield from free_steps(member, kinds)
    elif member.request == "waiting":
        yield member._replace(request="free")
        yield member._replace(request="again")
    elif member.request == "due":
        yield from written(member, asked)
    if asked in LEFT and not member.reply and member.copy != "W":
        for form in ANSWERED:
            if is_answer(asked, form, member.copy):
                left = member.copy if form == "R_UC" else form.split("_")[1]
                mark = "" if form[0] == "R" else "n" if member.stored else "h"
                yield member._replace(copy=left, reply=(form, mark))


def free_steps(member, kinds):
    if member.copy in UNIQUE:
        yield remarked(member, {"n": "o"})._replace(copy="UD", stored=True)
    if member.copy in CLEAN:
        yield member._replace(copy="I")
    for kind in kinds:
        if member.copy in ISSUED[kind]:
            yield member._replace(copy="I" if kind == "Evict" else member.copy, request=kind)


def written(member, kind):
    if kind == "WriteUniqueFull":
        yield Member("I", True, "free", ("whole", "n"))
        return
    for form in WRITTEN.get(member.copy, ("I",)):
        left = "I" if form == "I" or kind != "WriteCleanFull" else {"UD": "UC", "SD": "SC"}.get(member.copy, member.copy)
        mark = "" if form == "I" else "n" if member.stored else "h"
        yield member._replace(copy=left, request="free", reply=(form, mark))


@lru_cache(maxsize=200_000)
def closed(members, asked, kinds):
    found, left = set(members), list(members)
    while left:
        new = set(slips(left.pop(), asked, kinds)) - found
        found |= new
        left += new
    return frozenset(found)


def is_lost(member):
    return member.stored and member.copy not in DATA and not has_mark(member, "n")


def goes_with(one, other):
    """Whether two agents may be so together."""
    if any(it.copy in DATA for it in (one, other) if not it.stored) and (one.stored or other.stored):
        return False
    return "I" in (one.copy, other.copy) or sorted((one.copy, other.copy)) in (["SC", "SC"], ["SC", "SD"])


def granted(copy, kind, form):
    """The copy of a requester behind a completion."""
    if form.startswith("CompData"):
        left = form.split("_")[1]
        return copy if left == "I" else "UD" if copy in DIRTY else left
    if kind == "CleanUnique":
        return {"I": "UCE", "SC": "UC", "SD": "UD"}.get(copy, copy)
    return {"MakeUnique": "UD", "WriteUniqueFull": "W", "MakeInvalid": "I"}.get(kind, copy)


def need(true):
    if not true:
        raise ValueError


class Line:
    """`may`: the members of each agent, closed under unseen steps; `home`: the home's words, once they are known."""

    def __init__(self, agents, kinds=tuple(ISSUED)):
        self.kinds, self.home, self.duty = tuple(kinds), None, False
        self.agents = (Agent(None, None, 0, 0, None),) * agents
        self.may = (self.loose(self.agents[0], {Member("I", False, "free", None)}),) * agents

    def loose(self, agent, members):
        return closed(frozenset(members), agent.asked and agent.asked[0], self.kinds)

    def behind(self, flit):
        """The line behind the flit, or None where it isn't taken."""
        _, n, what, *words = flit
        line = object.__new__(Line)
        line.__dict__.update(self.__dict__)
        try:
            getattr(line, what)(n, *words)
        except ValueError:
            return None
        return line

    def leave(self, n, members, before=None, **known):
        """`before`: who waited for a moment before the agent's reply was asked for, and whether that left a dirty copy."""
        need(members)
        self.agents = put(self.agents, n, self.agents[n]._replace(**known))
        self.may = put(self.may, n, self.loose(self.agents[n], members))
        self.note(n, before)

    def each_other(self, n, of):
        """Each member of another agent becomes those that `of` says."""
        for m, held in enumerate(self.may):
            if m != n:
                self.may = put(self.may, m, self.loose(self.agents[m], {k for it in held for k in of(it)}))

    # -- flits of a cache

    def issue(self, n, kind):
        due = self.agents[n].due
        need(not due or due[1] == "retried")
        self.agents = tuple(it._replace(asked=it.asked and (it.asked[0], it.asked[1] - {n})) for it in self.agents)
        came = {it._replace(request="there") for it in self.may[n] if it.request == kind}
        self.leave(n, came, due=(kind, "open"), moment=None)

    def resend(self, n, kind):
        need(self.agents[n].due == (kind, "retried"))
        self.leave(n, {it._replace(request="there") for it in self.may[n] if it.request == "again"}, due=(kind, "sure"))

    def acknowledge(self, n):
        need(self.agents[n].acks)
        self.leave(n, self.may[n], acks=self.agents[n].acks - 1)

    def reply(self, n, form, value, is_old=False):
        """An answer or write data; `is_old`: those of a completion that a later one of their agent has overtaken."""
        agent = self.agents[n]
        need(agent.old if is_old else agent.asked)
        self.duty |= form.endswith("PD") or form == "whole"
        if value is not None:
            came = any(it.old for it in self.agents)
            self.agents = tuple(it._replace(moment=SHOWN if came or it.moment else None) for it in self.agents)
        if not is_old:
            self.receive(n, form, value, agent.asked[1])
            return
        # (the home may have any words then, and the value, if none was stored since)
        self.home = None
        self.each_other(n, lambda it: [remarked(it._replace(stored=it.stored and not is_lost(it)), OLDER)])
        own = {it: it.stored and (it.copy == "UD" or has_mark(it, "n")) for it in self.may[n]}
        self.leave(n, {remarked(it._replace(stored=stored), OLDER) for it, stored in own.items()}, old=agent.old - 1)

    def receive(self, n, form, value, before):
        # (of two agents one at most has the value last stored on its way)
        wrong = {"h": self.home not in (None, value),
                 "n": any(all(has_mark(it, "n") for it in held) for m, held in enumerate(self.may) if m != n)}
        came = [it for it in self.may[n] if it.reply and it.reply[0] == form and not wrong.get(it.reply[1])]
        marks = {it.reply[1] for it in came}
        self.each_other(n, lambda it: {behind for mark in marks for behind in self.passed(it, mark)})
        if marks & {"n", "o"} and value != self.home:
            self.home = value if marks <= {"n", "o"} else None
        left = {it._replace(stored=it.stored and not has_mark(it, "n"), reply=None) for it in came}
        self.leave(n, left, (before, form in ("D_UD", "D_SD")), asked=None)

    @staticmethod
    def passed(member, mark):
        """Another's member behind data with the mark: its words on their way are older, and behind n no value is lost."""
        behind = remarked(member, OLDER if mark in ("n", "o") else {})
        if mark != "n":
            return [behind]
        return [] if has_mark(member, "n") else [behind._replace(stored=member.stored and not is_lost(member))]

    # -- flits of the home

    def retry(self, n):
        due = self.agents[n].due
        need(due and due[1] == "open")
        self.leave(n, {it._replace(request="waiting") for it in self.may[n]}, due=(due[0], "retried"))

    def snoop(self, n, snoop):
        need(not self.agents[n].asked)
        need(not any(it.acks or it.old or it.asked and it.asked[0] not in LEFT for it in self.agents))
        need(snoop != "SnpMakeInvalid" or any(it.due and it.due[1] != "retried" and it.due[0] in OVERWRITING
                                              for m, it in enumerate(self.agents) if m != n))
        self.leave(n, self.may[n], asked=(snoop, self.waiting()))

    def waiting(self):
        return frozenset(n for n, it in enumerate(self.agents) if it.due and it.due[0] in TIMED)

    def complete(self, n, form, value):
        agent = self.agents[n]
        need(agent.due and agent.due[1] != "retried")
        kind, asked, old = agent.due[0], agent.asked, agent.old
        need(form in COMPLETED[kind].split() and (not asked or asked[0] not in LEFT or kind == "Evict"))
        need((self.duty or not form.endswith("PD")) and (agent.moment == SHOWN or kind not in TIMED))
        members = self.give(n, kind, form, value)
        if asked and asked[0] not in LEFT:
            members, asked, old = {it._replace(reply=None) for it in members}, None, old + 1
        if form == "DBID":
            asked = kind, self.waiting()
        acks = agent.acks + (kind in READS + UPGRADES)
        self.duty = self.duty and not form.endswith("PD")
        self.leave(n, members, due=None, moment=None, asked=asked, old=old, acks=acks)

    def give(self, n, kind, form, value):
        """What a completion makes of all members, where it is safe: those of its agent."""
        fills = [it for it in self.may[n] if form.startswith("CompData") and kind != "ReadOnce" and it.copy not in DIRTY]
        need(not any(it.stored for it in fills))
        if fills or kind == "ReadOnce":
            need(self.home in (None, value))
            self.home = value
        got = {self.got(it, kind, form) for it in self.may[n]}
        self.each_other(n, lambda it: self.given(it, kind))
        others = [it for m, held in enumerate(self.may) for it in held if m != n]
        need(all(goes_with(it, other) for it in got for other in others))
        need(kind not in ("CleanInvalid", "MakeInvalid") or all(it.copy == "I" for it in others))
        need(kind != "CleanInvalid" or not any(has_mark(it, "n") for it in [*got, *others]))
        return got

    @staticmethod
    def got(member, kind, form):
        """The requester's member behind its completion."""
        makes = kind == "MakeUnique"
        stored = makes or member.stored and not (kind == "MakeInvalid" and is_lost(member))
        behind = remarked(member, {"n": "o"} if makes else {})
        request = "due" if form == "DBID" else "free"
        return behind._replace(copy=granted(member.copy, kind, form), stored=stored, request=request)

    @staticmethod
    def given(member, kind):
        """Another's member behind a completion: a value is made, is the home's, or may be made without the words before."""
        made = remarked(member, {"n": "o"})._replace(stored=False)
        if kind == "MakeUnique":
            return [made]
        if kind == "MakeInvalid" and is_lost(member):
            return [member._replace(stored=False)]
        return [member, made] if kind in ("CleanUnique", "WriteUniqueFull") and has_mark(member, "n") else [member]

    def note(self, n, before):
        """Whose moment this is: behind what the home has received, or behind a reply as it was sent."""
        lost = put(self.may, n, {it for it in self.may[n] if is_lost(it)})
        for m in self.waiting():
            kind, moment = self.agents[m].due[0], self.agents[m].moment
            is_sent = before and m in before[0] and not (before[1] and kind == "CleanShared")
            moment = moment if moment == SHOWN else self.moment_of(m, kind, lost if is_sent else self.may) or moment
            self.agents = put(self.agents, m, self.agents[m]._replace(moment=moment))

    @staticmethod
    def moment_of(m, kind, may):
        """No other copy is dirty (but for a ReadOnce), and the home has the value, or will have."""
        if kind == "CleanShared" and any(it.copy in DIRTY for at, held in enumerate(may) if at != m for it in held):
            return None
        newer = [it for held in may for it in held if it.stored and (kind == "ReadOnce" or it.copy not in DIRTY)]
        return SHOWN if not newer else COMING if all(has_mark(it, "n") for it in newer) else None
