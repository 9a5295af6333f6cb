"""All worlds of one line of memory, for few caches and few values: what tests/observe/random holds the program against.

A world is what is really so: each copy and the state of its request, the value last stored, the home's own copy, and
what was so at some moment since an open ReadOnce or CleanShared was sent (docs/OBSERVER.md, "Worlds"). A flit of a
cache is legal where some world lets its cache send it. A flit of the home is legal where, for some value of the home's
own copy, it is safe in every world with that value. Nothing of what the observer keeps stands here.

A flit is a tuple: ("cache" or "home", the agent, what it does, and with which words). A load and a store are flits of a
cache with a place in the line and a word. A load leaves the worlds whose copy has its word. Where stores may be hidden it is
of one place, which has another word in each value; of a unique copy whose CompAck is due it leaves besides those that a
store behind that makes. What a store writes isn't learnt then. Where all stores are listed no hidden step is a store, and a
value is made of its words, two for each place: a store makes its word, and keeps those of the other places where the copy
has data. Besides these a value has a part of two that no load and no store names, of which flits show the first alone:
behind a store it is any, so only data show that the home has the value.
"""

from collections import defaultdict
from typing import NamedTuple, Optional

# what a snooped copy answers: R without data, D with data
SHARING = {"I": "R_I", "SC": "R_SC D_SC R_I D_I", "UC": "R_SC D_SC R_I D_I", "UD": "D_SD D_SC_PD D_I_PD",
           "SD": "D_SD D_SC_PD D_I_PD", "UCE": "R_I"}
TAKING = {"I": "R_I", "SC": "R_I D_I", "UC": "R_I D_I", "UD": "D_I_PD", "SD": "D_I_PD", "UCE": "R_I"}
ANSWERS = {
    "SnpOnce": {"I": "R_I", "SC": "R_SC D_SC R_I D_I", "UC": "R_UC D_UC R_SC D_SC R_I D_I",
                "UD": "D_UD D_SD D_UC_PD D_SC_PD D_I_PD", "SD": "D_SD D_SC_PD D_I_PD", "UCE": "R_UC R_I"},
    "SnpClean": SHARING, "SnpShared": SHARING, "SnpNotSharedDirty": SHARING,
    "SnpCleanShared": {"I": "R_I", "SC": "R_SC D_SC R_I D_I", "UC": "R_UC D_UC R_SC D_SC R_I D_I",
                       "UD": "D_UC_PD D_SC_PD D_I_PD", "SD": "D_SC_PD D_I_PD", "UCE": "R_UC R_I"},
    "SnpUnique": TAKING, "SnpCleanInvalid": TAKING, "SnpMakeInvalid": dict.fromkeys(TAKING, "R_I"),
}
# the states in which a request is sent for the first time
NEEDED = {"ReadNotSharedDirty": "I UCE", "ReadShared": "I UCE", "ReadClean": "I UCE", "ReadOnce": "I",
          "ReadUnique": "I SC SD UCE", "CleanUnique": "I SC SD UCE", "MakeUnique": "I SC SD UCE",
          "CleanShared": "I SC UC", "CleanInvalid": "I", "MakeInvalid": "I", "Evict": "SC UC UCE",
          "WriteBackFull": "UD SD", "WriteCleanFull": "UD SD", "WriteEvictFull": "UC", "WriteUniqueFull": "I"}
# the completions of reads, and of what has no data
READ_FORMS = {"ReadNotSharedDirty": "SC UC UD_PD", "ReadShared": "SC UC UD_PD SD_PD", "ReadClean": "SC UC",
              "ReadOnce": "I", "ReadUnique": "UC UD_PD"}
FORMS = {"CleanUnique": "UC", "MakeUnique": "UC", "CleanShared": "I SC UC", "CleanInvalid": "I", "MakeInvalid": "I",
         "Evict": "I"}
COPY_BACKS = ("WriteBackFull", "WriteCleanFull", "WriteEvictFull")
THROWING = ("MakeUnique", "MakeInvalid", "WriteUniqueFull")
# (of a WriteUniqueFull whose data are due)
WRITING = "W"


class Request(NamedTuple):
    kind: str
    # sent, retried, ack (its CompAck is due) or data (its write data are)
    phase: str
    first: bool


class World(NamedTuple):
    copies: tuple
    last: int
    home: int
    requests: tuple
    # the last value was thrown away
    void: bool
    # of each agent, since its ReadOnce was sent: the values that were last, as bits; since its CleanShared: no other was dirty
    since: tuple


def put(items, at, item):
    return items[:at] + (item,) + items[at + 1:]


def noticed(world):
    """The world, with what is so now added to what was so since."""
    since = []
    for agent, request in enumerate(world.requests):
        was = 0
        if request and request.kind == "ReadOnce":
            was = world.since[agent] | (0 if world.void else 1 << world.last)
        elif request and request.kind == "CleanShared":
            others = [copy for at, copy in enumerate(world.copies) if at != agent]
            was = world.since[agent] | int(not world.void and not set(others) & {"UD", "SD"})
        since.append(was)
    return world._replace(since=tuple(since))


def is_coherent(world):
    """Nobody beside a unique copy, one dirty owner, and the home has the last value where nobody is dirty."""
    there = [copy for copy in world.copies if copy != "I"]
    dirty = sum(copy in ("UD", "SD") for copy in there)
    alone = len(there) == 1 or not set(there) & {"UC", "UD", "UCE", WRITING}
    return alone and dirty <= 1 and (dirty == 1 or world.void or world.home == world.last)


def goes_on(world, agent, stored):
    """The worlds that a hidden step of the agent makes; `stored` are the values that a hidden store may leave."""
    copy, request = world.copies[agent], world.requests[agent]
    if request and request.phase == "retried":
        yield world._replace(requests=put(world.requests, agent, None), since=put(world.since, agent, 0))
    if request is None and copy in ("UC", "UD", "UCE"):
        for value in stored:
            yield world._replace(copies=put(world.copies, agent, "UD"), last=value)
    if request is None and copy in ("SC", "UC", "UCE"):
        yield world._replace(copies=put(world.copies, agent, "I"))


def behind_home(worlds, coherent, act, agent, what, words):
    """What a flit of the home makes of the worlds, for each value of its own copy with which it is safe in all."""
    groups = defaultdict(list)
    for world in worlds:
        groups[world.home].append(world)
    return {it for home, group in groups.items() for it in safe_in(home, group, coherent, act, agent, what, words)}


def safe_in(home, group, coherent, act, agent, what, words):
    """What it makes of the worlds with this value of the home's own copy; none where some is unsafe."""
    if what == "complete" and words[0].startswith("CompData") and words[1] != home:
        # (what a dirty requester is given doesn't matter)
        if not all(world.copies[agent] in ("SD", "UD") for world in group):
            return []
    behind = []
    for world in group:
        made = act(world, agent, *words)
        if made is None or not all(map(coherent, made)):
            return []
        behind += made
    return behind


class Line:
    """The worlds of a line, with what everybody has seen: its unanswered snoops, and the home's duty."""

    def __init__(self, agents, values, listed):
        """`values`: those that flits show; where all stores are listed `listed` places have two words each."""
        self.agents, self.listed = agents, listed
        self.places = listed or 1
        self.values = 2 ** listed if listed else values
        self.all_values = range(2 * self.values)
        self.snoops, self.duty = (None,) * agents, False
        opening = (World(("I",) * agents, value, value, (None,) * agents, False, (0,) * agents) for value in range(self.values))
        self.worlds = self.closed(map(noticed, opening))

    def closed(self, worlds):
        """These worlds, and those that hidden steps make of them."""
        found = set(worlds)
        stored = () if self.listed else self.all_values
        left = list(found)
        while left:
            world = left.pop()
            new = {noticed(it) for agent in range(self.agents) for it in goes_on(world, agent, stored)} - found
            found |= new
            left += new
        return frozenset(found)

    # -- flits of a cache: the world behind it, or None where the cache doesn't send it

    def issue(self, world, agent, kind):
        if world.requests[agent] or world.copies[agent] not in NEEDED[kind].split():
            return None
        copies = put(world.copies, agent, "I") if kind == "Evict" else world.copies
        return world._replace(copies=copies, requests=put(world.requests, agent, Request(kind, "sent", True)))

    def resend(self, world, agent, kind):
        request = world.requests[agent]
        if not request or request.phase != "retried" or request.kind != kind:
            return None
        return world._replace(requests=put(world.requests, agent, Request(kind, "sent", False)))

    def acknowledge(self, world, agent):
        request = world.requests[agent]
        if not request or request.phase != "ack":
            return None
        return world._replace(requests=put(world.requests, agent, None))

    def answer(self, world, agent, form, value):
        copy, left, snoop = world.copies[agent], form.split("_")[1], self.snoops[agent]
        if not snoop or copy == WRITING or form not in ANSWERS[snoop][copy].split():
            return None
        if value not in (None, world.last):
            return None
        if copy == "UCE" and left == "UC":
            left = "UCE"
        lost = snoop == "SnpMakeInvalid" and copy in ("UD", "SD") and world.home != world.last
        return world._replace(copies=put(world.copies, agent, left), home=world.home if value is None else value,
                              void=world.void or lost)

    def write(self, world, agent, form, value):
        request, copy = world.requests[agent], world.copies[agent]
        if not request or request.phase != "data":
            return None
        done = world._replace(requests=put(world.requests, agent, None))
        if request.kind == "WriteUniqueFull":
            whole = done._replace(copies=put(world.copies, agent, "I"), last=value, home=value, void=False)
            return whole if form == "whole" else None
        forms = {"UD": ["UD_PD"], "SD": ["SD_PD"], "UC": ["UC", "I"], "SC": ["SC", "I"]}.get(copy, ["I"])
        if form not in forms:
            return None
        if form == "I":
            return done._replace(copies=put(world.copies, agent, "I"))
        left = {"UD": "UC", "SD": "SC"}.get(copy, copy) if request.kind == "WriteCleanFull" else "I"
        return done._replace(copies=put(world.copies, agent, left), home=value) if value == world.last else None

    # -- loads and stores: of a store a world for each value that it may make

    def word_at(self, value, place):
        return value >> place & 1 if self.listed else value % self.values

    def loaded(self, agent, place, word):
        """The worlds behind a load, before hidden steps; none where it isn't legal."""
        holding = {it for it in self.worlds if it.copies[agent] in ("SC", "SD", "UC", "UD")}
        reading = {it for it in holding if self.word_at(it.last, place) == word}
        if self.listed:
            return reading
        later = [it for it in holding - reading if it.copies[agent] in ("UC", "UD")
                 and it.requests[agent] and it.requests[agent].phase == "ack"]
        return reading | {made for it in later for made in self.store(it, agent, place, word)}

    def store(self, world, agent, place, word):
        request, copy = world.requests[agent], world.copies[agent]
        if copy not in ("UC", "UD", "UCE") or (request and request.phase != "ack"):
            return None
        return [world._replace(copies=put(world.copies, agent, "UD"), last=value) for value in self.all_values
                if not self.listed or self.is_stored(world.last, copy, value, place, word)]

    def is_stored(self, before, copy, value, place, word):
        """Whether the value has the word, and the others as before, but those of a copy that had no data."""
        others = [it for it in range(self.places) if it != place]
        kept = copy == "UCE" or all(self.word_at(value, it) == self.word_at(before, it) for it in others)
        return kept and self.word_at(value, place) == word

    # -- flits of the home: the worlds behind it, or None where it isn't safe

    def retry(self, world, agent):
        request = world.requests[agent]
        if not request or request.phase != "sent" or not request.first:
            return None
        return [world._replace(requests=put(world.requests, agent, Request(request.kind, "retried", True)))]

    def snoop(self, world, agent, snoop):
        throws = any(it and at != agent and it.phase == "sent" and it.kind in THROWING
                     for at, it in enumerate(world.requests))
        busy = any(it and it.phase in ("ack", "data") for it in world.requests)
        return None if self.snoops[agent] or busy or (snoop == "SnpMakeInvalid" and not throws) else [world]

    def complete(self, world, agent, form, value):
        request = world.requests[agent]
        if not request or request.phase != "sent" or (self.snoops[agent] and request.kind != "Evict"):
            return None
        if form == "DBID":
            return self.buffer(world, agent, request)
        message, resp = form.split("_", 1)
        given = self.give if message == "CompData" else self.finish
        return given(world, agent, request, resp, value)

    def buffer(self, world, agent, request):
        if request.kind not in (*COPY_BACKS, "WriteUniqueFull"):
            return None
        due = world._replace(requests=put(world.requests, agent, request._replace(phase="data")))
        if request.kind != "WriteUniqueFull":
            return [due]
        return [due._replace(copies=put(world.copies, agent, WRITING))] if self.is_alone(world, agent) else None

    @staticmethod
    def is_alone(world, agent):
        return all(copy == "I" for at, copy in enumerate(world.copies) if at != agent)

    def give(self, world, agent, request, resp, value):
        copy = world.copies[agent]
        if resp not in READ_FORMS.get(request.kind, "").split():
            return None
        if request.kind == "ReadOnce":
            done = world._replace(requests=put(world.requests, agent, None))
            return [done] if world.since[agent] >> value & 1 else None
        others = {it for at, it in enumerate(world.copies) if at != agent}
        if world.void or (value != world.last and copy not in ("SD", "UD")):
            return None
        if resp.endswith("PD") and (not self.duty or others & {"UD", "SD"}):
            return None
        left = "UD" if copy == "SD" else resp[:2]
        return [world._replace(copies=put(world.copies, agent, left),
                               requests=put(world.requests, agent, request._replace(phase="ack")))]

    def finish(self, world, agent, request, resp, _value):
        if resp not in FORMS.get(request.kind, "").split():
            return None
        done = world._replace(requests=put(world.requests, agent, None))
        acked = world._replace(requests=put(world.requests, agent, request._replace(phase="ack")))
        if request.kind == "CleanUnique":
            left = {"SC": "UC", "SD": "UD"}.get(world.copies[agent], "UCE")
            return [acked._replace(copies=put(world.copies, agent, left))]
        if request.kind == "MakeUnique":
            return [acked._replace(copies=put(world.copies, agent, "UD"), last=value, void=False)
                    for value in self.all_values]
        if request.kind == "CleanShared":
            return [done] if world.since[agent] else None
        if request.kind in ("CleanInvalid", "MakeInvalid") and not self.is_alone(world, agent):
            return None
        if request.kind == "MakeInvalid" and world.void:
            return [done._replace(last=world.home, void=False)]
        return [done]

    # -- a flit

    def worlds_behind(self, flit):
        """The worlds behind it, before hidden steps; none where it isn't legal."""
        side, agent, what, *words = flit
        if side == "cache":
            if what == "load":
                return self.loaded(agent, *words)
            made = [one for world in self.worlds if (one := getattr(self, what)(world, agent, *words))]
            return {it for one in made for it in (one if isinstance(one, list) else [one])}
        return behind_home(self.worlds, is_coherent, getattr(self, what), agent, what, words)

    def behind(self, flit) -> Optional["Line"]:
        """The line behind the flit, or None where the flit isn't legal."""
        found = self.worlds_behind(flit)
        if not found:
            return None
        _, agent, what, *words = flit
        line = object.__new__(Line)
        line.__dict__.update(self.__dict__)
        if what == "snoop":
            line.snoops = put(self.snoops, agent, words[0])
        elif what == "answer":
            line.snoops = put(self.snoops, agent, None)
            line.duty |= words[0].endswith("PD")
        elif what == "write":
            line.duty |= words[0] != "I" and (words[0].endswith("PD") or words[0] == "whole")
        elif what == "complete" and words[0].endswith("PD"):
            line.duty = False
        line.worlds = line.closed(map(noticed, found))
        return line
