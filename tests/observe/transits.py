"""The truth of a line that is seen at its home: all worlds that its flits allow, with what is on its way (docs/OBSERVER.md).

A world is one of worlds.py, and the flits of caches that are sent and not yet here. That a cache sends one is a hidden
step. A flit of a cache is legal where some world has it on its way; the worlds without it are left. One of the home is
legal where it is safe in every world whose home has the words that it sends. A CompAck is sent with its completion, since
its cache does nothing before it. Data that come behind newer ones leave the home's copy as it is.
"""

from typing import NamedTuple, Optional

from worlds import ANSWERS, COPY_BACKS, FORMS, NEEDED, READ_FORMS, THROWING, WRITING, Request, behind_home, put

# worlds whose hidden steps are remembered
MOST_REMEMBERED = 100_000


class Data(NamedTuple):
    agent: int
    what: str
    form: str
    # of write data: which of two completions it follows
    tag: int
    value: int
    # newer ones have come
    late: bool


class World(NamedTuple):
    copies: tuple
    last: int
    home: int
    # the phases: going (sent), sent (received), retried, again (sent again) or data (write data are due)
    requests: tuple
    void: bool
    # as in worlds.py; of a CleanShared 2 where the value was on its way to the home
    since: tuple
    acks: tuple
    # answers and write data without words, sorted, and those with words, oldest first
    plain: tuple
    data: tuple


TIMED = "ReadOnce", "CleanShared"
ON_ITS_WAY = "going", "sent", "retried", "again"


def noticed(world):
    """The world, with what is so now added to what was so since."""
    since = list(world.since)
    for agent, request in enumerate(world.requests):
        if not request or request.kind not in TIMED or request.phase not in ON_ITS_WAY:
            since[agent] = 0
        elif request.kind == "ReadOnce":
            since[agent] |= 0 if world.void else 1 << world.last
        else:
            others = [copy for at, copy in enumerate(world.copies) if at != agent]
            since[agent] |= 0 if world.void or set(others) & {"UD", "SD"} else 1 if world.home == world.last else 2
    return world._replace(since=tuple(since))


def is_dirty(data):
    return not data.late and (data.form.endswith("PD") or data.form == "whole")


def is_coherent(world):
    """Nobody beside a unique copy, one dirty owner, and the last value is the home's, an owner's, or on its way."""
    there = [copy for copy in world.copies if copy != "I"]
    dirty = sum(copy in ("UD", "SD") for copy in there)
    alone = len(there) == 1 or not set(there) & {"UC", "UD", "UCE", WRITING}
    comes = any(is_dirty(it) and it.value == world.last for it in world.data)
    return alone and dirty <= 1 and (dirty == 1 or world.void or world.home == world.last or comes)


def sent_plain(world, *item):
    return world._replace(plain=tuple(sorted((*world.plain, item))))


class Transits:
    """The worlds of a line, with what the home knows besides: requests, snoops, its duty, and what it awaits."""

    remembered = {}

    def __init__(self, agents, values, kinds):
        self.agents, self.values, self.kinds = agents, values, tuple(kinds)
        none = (None,) * agents
        self.snoops, self.asked, self.duty = none, none, False
        self.acks, self.awaited = (0,) * agents, ((),) * agents
        zeros = (0,) * agents
        opening = (World(("I",) * agents, value, value, none, False, zeros, zeros, (), ()) for value in range(values))
        self.worlds = self.closed(map(noticed, opening))

    # -- hidden steps

    def closed(self, worlds):
        """These worlds, and those that hidden steps make of them."""
        found, left = set(), list(worlds)
        while left:
            world = left.pop()
            if world not in found:
                found.add(world)
                left += [it for it in self.steps_from(world) if it not in found]
        return frozenset(found)

    def steps_from(self, world):
        key = world, self.snoops, self.kinds
        if key not in self.remembered:
            if len(self.remembered) > MOST_REMEMBERED:
                self.remembered.clear()
            self.remembered[key] = {noticed(it) for agent in range(self.agents) for it in self.steps(world, agent)}
        return self.remembered[key]

    def steps(self, world, agent):
        copy, request = world.copies[agent], world.requests[agent]
        if request is None:
            yield from self.free_steps(world, agent, copy)
        elif request.phase == "retried":
            yield world._replace(requests=put(world.requests, agent, None), since=put(world.since, agent, 0))
            yield world._replace(requests=put(world.requests, agent, Request(request.kind, "again", False)))
        elif request.phase == "data":
            yield from self.written(world, agent, copy, request)
        is_on_its_way = any(it[:2] == (agent, "answer") for it in (*world.plain, *world.data))
        if self.snoops[agent] and copy != WRITING and not is_on_its_way:
            yield from self.answers(world, agent, copy)

    def free_steps(self, world, agent, copy):
        """Stores, drops, and requests of an agent that has none open."""
        if copy in ("UC", "UD", "UCE"):
            for value in range(self.values):
                yield world._replace(copies=put(world.copies, agent, "UD"), last=value)
        if copy in ("SC", "UC", "UCE"):
            yield world._replace(copies=put(world.copies, agent, "I"))
        for kind in self.kinds:
            if copy in NEEDED[kind].split():
                copies = put(world.copies, agent, "I") if kind == "Evict" else world.copies
                yield world._replace(copies=copies, requests=put(world.requests, agent, Request(kind, "going", True)))

    def written(self, world, agent, copy, request):
        """Write data are sent; `first` is the completion that they follow."""
        done = world._replace(requests=put(world.requests, agent, None))
        tag = int(request.first)
        if request.kind == "WriteUniqueFull":
            for value in range(self.values):
                data = *world.data, Data(agent, "write", "whole", tag, value, False)
                yield done._replace(copies=put(world.copies, agent, "I"), last=value, void=False, data=data)
            return
        for form in {"UD": ["UD_PD"], "SD": ["SD_PD"], "UC": ["UC", "I"], "SC": ["SC", "I"]}.get(copy, ["I"]):
            if form == "I":
                yield sent_plain(done._replace(copies=put(world.copies, agent, "I")), agent, "write", "I", tag)
                continue
            left = {"UD": "UC", "SD": "SC"}.get(copy, copy) if request.kind == "WriteCleanFull" else "I"
            data = *world.data, Data(agent, "write", form, tag, world.last, False)
            yield done._replace(copies=put(world.copies, agent, left), data=data)

    def answers(self, world, agent, copy):
        snoop = self.snoops[agent]
        comes = any(is_dirty(it) and it.value == world.last for it in world.data)
        for form in ANSWERS[snoop][copy].split():
            left = form.split("_")[1]
            left = "UCE" if (copy, left) == ("UCE", "UC") else left
            lost = snoop == "SnpMakeInvalid" and copy in ("UD", "SD") and world.home != world.last and not comes
            behind = world._replace(copies=put(world.copies, agent, left), void=world.void or lost)
            if form[0] == "R":
                yield sent_plain(behind, agent, "answer", form, 0)
            else:
                yield behind._replace(data=(*world.data, Data(agent, "answer", form, 0, world.last, False)))

    # -- flits of a cache that come: the world without them, or None where they aren't on their way

    def issue(self, world, agent, kind):
        return self.come(world, agent, Request(kind, "going", True))

    def resend(self, world, agent, kind):
        return self.come(world, agent, Request(kind, "again", False))

    @staticmethod
    def come(world, agent, request):
        if world.requests[agent] != request:
            return None
        return world._replace(requests=put(world.requests, agent, request._replace(phase="sent")))

    @staticmethod
    def acknowledge(world, agent):
        acks = world.acks[agent]
        return world._replace(acks=put(world.acks, agent, acks - 1)) if acks else None

    def answer(self, world, agent, form, value):
        return self.arrive(world, agent, "answer", form, 0, value)

    def write(self, world, agent, form, value, tag):
        return self.arrive(world, agent, "write", form, tag, None if form == "I" else value)

    def arrive(self, world, agent, what, form, tag, value):
        if value is None:
            item = agent, what, form, tag
            if item not in world.plain:
                return None
            at = world.plain.index(item)
            return world._replace(plain=world.plain[:at] + world.plain[at + 1:])
        for at, data in enumerate(world.data):
            if data[:5] == (agent, what, form, tag, value):
                return self.arrived(world, at, data)
        return None

    @staticmethod
    def arrived(world, at, data):
        if data.late:
            return world._replace(data=world.data[:at] + world.data[at + 1:])
        since = tuple(it | it >> 1 & 1 if request and request.kind == "CleanShared" else it
                      for it, request in zip(world.since, world.requests))
        older = tuple(it._replace(late=True) for it in world.data[:at])
        return world._replace(home=data.value, since=since, data=older + world.data[at + 1:])

    # -- flits of the home: the worlds behind them, or None where they aren't safe

    def is_known(self, agent, what, words):
        """Whether what the home knows without any world lets it send the flit."""
        kind = self.asked[agent]
        if what == "snoop":
            throws = any(it and at != agent and it[0] in THROWING for at, it in enumerate(self.asked))
            quiet = not any(self.acks) and not any(self.awaited)
            return not self.snoops[agent] and quiet and (words[0] != "SnpMakeInvalid" or throws)
        if what == "retry":
            return bool(kind) and kind[1]
        if not kind or (self.snoops[agent] and kind[0] != "Evict"):
            return False
        if words[0] == "DBID":
            return kind[0] in (*COPY_BACKS, "WriteUniqueFull")
        message, resp = words[0].split("_", 1)
        return resp in (READ_FORMS if message == "CompData" else FORMS).get(kind[0], "").split()

    def retry(self, world, agent):
        request = world.requests[agent]
        return [world._replace(requests=put(world.requests, agent, Request(request.kind, "retried", True)))]

    @staticmethod
    def snoop(world, _agent, _snoop):
        return [world]

    @staticmethod
    def is_alone(world, agent):
        return all(copy == "I" for at, copy in enumerate(world.copies) if at != agent)

    def complete(self, world, agent, form, value):
        kind = world.requests[agent].kind
        if form == "DBID":
            return self.buffer(world, agent, kind)
        message, resp = form.split("_", 1)
        return self.give(world, agent, kind, resp, value) if message == "CompData" else self.finish(world, agent, kind)

    def buffer(self, world, agent, kind):
        tag = self.tag_of(agent)
        due = world._replace(requests=put(world.requests, agent, Request(kind, "data", bool(tag))))
        if kind != "WriteUniqueFull":
            return [due]
        return [due._replace(copies=put(world.copies, agent, WRITING))] if self.is_alone(world, agent) else None

    def tag_of(self, agent):
        """Which of two completions the next write data of the agent follow."""
        return 0 if 0 not in self.awaited[agent] else 1

    @staticmethod
    def acknowledged(world, agent, copy):
        acks = put(world.acks, agent, world.acks[agent] + 1)
        return world._replace(copies=put(world.copies, agent, copy), requests=put(world.requests, agent, None), acks=acks)

    def give(self, world, agent, kind, resp, value):
        copy = world.copies[agent]
        if kind == "ReadOnce":
            done = world._replace(requests=put(world.requests, agent, None))
            return [done] if world.since[agent] >> value & 1 else None
        others = {it for at, it in enumerate(world.copies) if at != agent}
        if world.void or (value != world.last and copy not in ("SD", "UD")):
            return None
        if resp.endswith("PD") and (not self.duty or others & {"UD", "SD"}):
            return None
        return [self.acknowledged(world, agent, "UD" if copy == "SD" else resp[:2])]

    def finish(self, world, agent, kind):
        done = world._replace(requests=put(world.requests, agent, None))
        if kind == "CleanUnique":
            return [self.acknowledged(world, agent, {"SC": "UC", "SD": "UD"}.get(world.copies[agent], "UCE"))]
        if kind == "MakeUnique":
            made = self.acknowledged(world, agent, "UD")._replace(void=False)
            return [made._replace(last=value) for value in range(self.values)]
        if kind == "CleanShared":
            return [done] if world.since[agent] & 1 else None
        if kind in ("CleanInvalid", "MakeInvalid") and not self.is_alone(world, agent):
            return None
        if kind == "CleanInvalid" and not world.void and world.home != world.last:
            return None
        if kind == "MakeInvalid" and world.void:
            return [done._replace(last=world.home, void=False)]
        return [done]

    # -- a flit

    def worlds_behind(self, flit):
        """The worlds behind it, before hidden steps; none where it isn't legal."""
        side, agent, what, *words = flit
        act = getattr(self, what)
        if side == "cache":
            return {one for world in self.worlds if (one := act(world, agent, *words))}
        if not self.is_known(agent, what, words):
            return set()
        return behind_home(self.worlds, is_coherent, act, agent, what, words)

    def behind(self, flit) -> Optional["Transits"]:
        """The line behind the flit, or None where the flit isn't legal."""
        found = self.worlds_behind(flit)
        if not found:
            return None
        _, agent, what, *words = flit
        line = object.__new__(Transits)
        line.__dict__.update(self.__dict__)
        line.note(agent, what, words)
        line.worlds = line.closed(map(noticed, found))
        return line

    def note(self, agent, what, words):
        """Keeps what the home knows besides."""
        if what in ("issue", "resend"):
            self.asked = put(self.asked, agent, (words[0], what == "issue"))
        elif what == "acknowledge":
            self.acks = put(self.acks, agent, self.acks[agent] - 1)
        elif what == "snoop":
            self.snoops = put(self.snoops, agent, words[0])
        elif what == "answer":
            self.snoops = put(self.snoops, agent, None)
            self.duty |= words[0].endswith("PD")
        elif what == "write":
            self.awaited = put(self.awaited, agent, tuple(it for it in self.awaited[agent] if it != words[2]))
            self.duty |= words[0].endswith("PD") or words[0] == "whole"
        elif what == "retry":
            self.asked = put(self.asked, agent, None)
        else:
            self.note_completion(agent, words[0])

    def note_completion(self, agent, form):
        kind, _ = self.asked[agent]
        self.asked = put(self.asked, agent, None)
        if form.endswith("PD"):
            self.duty = False
        if form == "DBID":
            self.awaited = put(self.awaited, agent, (*self.awaited[agent], self.tag_of(agent)))
        elif kind in ("CleanUnique", "MakeUnique") or (form.startswith("CompData") and kind != "ReadOnce"):
            self.acks = put(self.acks, agent, self.acks[agent] + 1)
