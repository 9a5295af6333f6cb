"""Random runs of the protocol of docs/PROTOCOL.md, written out as the traces of docs/TRACES.md.

The lines are those of tests/protocol.py, so what the program explains comes from elsewhere. `trace` gives the lines of a
run; what no monitor sees (drops, cancels, what the home takes) leaves no line in it, nor do loads and stores that aren't
listed."""

import random
import sys
from pathlib import Path

sys.path.insert(0, str(Path(__file__).resolve().parent.parent))

from protocol import NEEDS, Line, credit_type

HOME = 0x40
FIRST_LINE = 0x1000


class Ids:
    """The ids of each node that are in use."""

    def __init__(self, rng):
        self.rng, self.used = rng, {}

    def take(self, node):
        """A free id of the node."""
        number = self.rng.choice([it for it in range(64) if it not in self.used.setdefault(node, set())])
        self.used[node].add(number)
        return number

    def free(self, node, number):
        self.used[node].remove(number)


class Monitor:
    """What is seen: the lines of the trace, the ids, and the credits that requesters have."""

    def __init__(self, rng, agents, four, beats, listed):
        self.rng, self.four, self.beats, self.listed = rng, four, beats, listed
        self.nodes = [4 * number + 8 for number in range(agents)]
        self.lines = []
        self.requests, self.buffers, self.snoops = Ids(rng), Ids(rng), Ids(rng)
        self.owed, self.credits, self.cancelled = [], {}, {}
        # (the beat that is left of data, by the data's line, agent and channel)
        self.left = {}

    def say(self, channel, source, target, txn, opcode, address="-", resp="-", dbid="-", allow="-", pcrd="-", data="-"):
        numbers = ["-" if it is None else f"{it:02x}" for it in (source, target, txn)]
        self.lines.append(" ".join(str(it) for it in (channel, *numbers, opcode, address, resp, dbid, allow, pcrd, data)))

    def say_data(self, key, free, words, *head, **columns):
        """A data flit, in one beat or in two; other flits may stand between these. Behind the last its id is free."""
        texts = [f"{word:x}" for word in words]
        if self.beats and self.rng.random() < 0.6:
            halves = [texts[:4] + ["x"] * 4, ["x"] * 4 + texts[4:]]
            self.rng.shuffle(halves)
            texts, self.left[key] = halves[0], (halves[1], free, head, columns)
        self.say("DAT", *head, data=",".join(texts), **columns)
        if key not in self.left:
            free()

    def finish(self, key):
        """The beat that is left of the data, if one is."""
        if key in self.left:
            texts, free, head, columns = self.left.pop(key)
            self.say("DAT", *head, data=",".join(texts), **columns)
            free()

    def say_access(self, agent, opcode, address, value):
        """A load or a store, where it is listed."""
        if self.listed == "all" or (self.listed and self.rng.random() < 0.5):
            self.say("CPU", self.nodes[agent], None, None, opcode, f"{address:x}", data=f"{value:x}")

    def grant(self):
        """A credit that is owed is granted."""
        agent, pcrd = self.owed.pop(self.rng.randrange(len(self.owed)))
        self.credits[agent, pcrd] = self.credits.get((agent, pcrd), 0) + 1
        self.say("RSP", HOME, self.nodes[agent], None, "PCrdGrant", pcrd=pcrd)

    def give_back(self):
        """Each credit of a cancelled request is returned, or not yet."""
        for key, count in list(self.cancelled.items()):
            if count and self.credits.get(key) and self.rng.random() < 0.3:
                self.cancelled[key] -= 1
                self.credits[key] -= 1
                self.say("REQ", self.nodes[key[0]], HOME, None, "PCrdReturn", pcrd=key[1])

    def has_spare(self, agent, pcrd):
        """Whether a credit is there beyond those of cancelled requests."""
        return self.credits.get((agent, pcrd), 0) > self.cancelled.get((agent, pcrd), 0)


class SeenLine(Line):
    """A line of which each message is seen when it is sent."""

    def __init__(self, monitor, number):
        agents = len(monitor.nodes)
        super().__init__(agents, monitor.four)
        self.monitor, self.rng = monitor, monitor.rng
        self.address = FIRST_LINE + 64 * number
        self.memory = [self.rng.randrange(256) for _ in range(8)]
        self.txn, self.dbid, self.snoop_txn = [None] * agents, [None] * agents, [None] * agents

    def maybe_address(self):
        return f"{self.address:x}" if self.rng.random() < 0.2 else "-"

    def steps(self):
        """What may come next here, but for what processors do."""
        takes = {"arrive": self.arrive, "snp": self.take_snoop, "snpresp": self.take_answer, "retryack": self.take_retry,
                 "data": self.take_data, "comp": self.take_comp, "dbid": self.take_dbid, "ack": self.take_ack,
                 "wrdata": self.take_written}
        steps = [(take, agent) for agent in range(len(self.copies)) for verb, take in takes.items() if self.cell(agent, verb)]
        if not self.serving:
            steps += [(self.start, agent) for agent in self.waiting]
        for agent in [it for it, retried in enumerate(self.is_retried) if retried]:
            if not self.is_sendable(agent):
                steps.append((self.cancel, agent))
            elif self.monitor.has_spare(agent, self.credit_type(agent)):
                steps.append((self.resend, agent))
        return steps

    def credit_type(self, agent):
        return credit_type(self.pending[agent].kind, self.four)

    def load(self, agent):
        """A load, where there is a copy."""
        state, words = self.copies[agent]
        if self.monitor.listed and state != "I":
            word = self.rng.randrange(8)
            self.monitor.say_access(agent, "Load", self.address + 8 * word, words[word])

    def store(self, agent, word, value):
        super().store(agent, word, value)
        self.monitor.say_access(agent, "Store", self.address + 8 * word, value)

    def use(self, agent):
        """Loads and stores of a copy that has just come, before its CompAck is on the port."""
        while self.monitor.listed and self.rng.random() < 0.3:
            if self.copies[agent][0] in ("UC", "UD") and self.rng.random() < 0.5:
                self.store(agent, self.rng.randrange(8), self.rng.randrange(1 << 16))
            else:
                self.load(agent)

    def processor(self):
        """A load, a store, a drop or a request of some agent, where its copy allows it."""
        agent, chance = self.rng.randrange(len(self.copies)), self.rng.random()
        state = self.copies[agent][0]
        if self.monitor.listed and self.rng.random() < 0.5:
            self.load(agent)
        if self.pending[agent]:
            return
        if state in ("UC", "UD") and chance < 0.4:
            self.store(agent, self.rng.randrange(8), self.rng.randrange(1 << 16))
        elif state in ("SC", "UC") and chance < 0.5:
            self.drop(agent)
        else:
            self.issue(agent, self.rng.choice([kind for kind in NEEDS if state in NEEDS[kind]]), 0)

    def arrive(self, agent):
        """The home lets a request in, or retries a first attempt and owes a credit."""
        if self.flits[agent]["Req"][0].endswith("/credit") or self.rng.random() > 0.15:
            self.admit(agent)
        else:
            self.monitor.owed.append((agent, self.credit_type(agent)))
            self.retry(agent)

    def resend(self, agent):
        self.monitor.credits[agent, self.credit_type(agent)] -= 1
        super().resend(agent)

    def cancel(self, agent):
        key = (agent, self.credit_type(agent))
        self.monitor.cancelled[key] = self.monitor.cancelled.get(key, 0) + 1
        super().cancel(agent)

    def take_answer(self, agent):
        self.monitor.finish((self.address, agent, "DatUp"))
        super().take_answer(agent)

    def take_written(self, agent):
        self.monitor.finish((self.address, agent, "DatUp"))
        super().take_written(agent)

    def take_data(self, agent):
        self.monitor.finish((self.address, agent, "DatDown"))
        super().take_data(agent)

    def put(self, agent, channel, text, words=None):
        if text == "CompAck":
            self.use(agent)
        super().put(agent, channel, text, words)
        opcode, _, resp = text.partition("_")
        getattr(self, f"say_{channel}")(agent, opcode, resp or "-", words)

    def say_Req(self, agent, opcode, resp, words):
        kind, _, how = opcode.split("/")
        self.txn[agent] = self.monitor.requests.take(agent)
        pcrd = "-" if how == "allow" else self.credit_type(agent)
        word = self.address + 8 * self.rng.randrange(8)
        self.monitor.say("REQ", self.monitor.nodes[agent], HOME, self.txn[agent], kind, f"{word:x}", allow=int(how == "allow"), pcrd=pcrd)

    def say_Snp(self, agent, opcode, resp, words):
        self.snoop_txn[agent] = self.monitor.snoops.take(agent)
        self.monitor.say("SNP", HOME, self.monitor.nodes[agent], self.snoop_txn[agent], opcode, f"{self.address:x}")

    def to_requester(self, agent, has_buffer):
        """Both ends and the id of a response to the agent's request, what frees the id, and the home's buffer, if it takes one."""
        txn = self.txn[agent]
        self.dbid[agent] = self.monitor.buffers.take(agent) if has_buffer else None
        dbid = f"{self.dbid[agent]:x}" if has_buffer else "-"
        return (HOME, self.monitor.nodes[agent], txn), lambda: self.monitor.requests.free(agent, txn), dbid

    def say_RspDown(self, agent, opcode, resp, words):
        opcode, _, pcrd = opcode.partition("/")
        head, free, dbid = self.to_requester(agent, opcode == "CompDBIDResp" or resp == "UC")
        self.monitor.say("RSP", *head, opcode, self.maybe_address(), resp=resp, dbid=dbid, pcrd=pcrd or "-")
        free()

    def say_DatDown(self, agent, opcode, resp, words):
        head, free, dbid = self.to_requester(agent, True)
        key = self.address, agent, "DatDown"
        self.monitor.say_data(key, free, words, *head, opcode, self.maybe_address(), resp=resp, dbid=dbid)

    def to_home(self, agent, opcode):
        """Both ends and the id of what an agent answers, and what frees the id."""
        ids, used = (self.monitor.snoops, self.snoop_txn) if opcode.startswith("SnpResp") else (self.monitor.buffers, self.dbid)
        txn = used[agent]
        return (self.monitor.nodes[agent], HOME, txn), lambda: ids.free(agent, txn)

    def say_RspUp(self, agent, opcode, resp, words):
        head, free = self.to_home(agent, opcode)
        self.monitor.say("RSP", *head, opcode, self.maybe_address(), resp=resp)
        free()

    def say_DatUp(self, agent, opcode, resp, words):
        head, free = self.to_home(agent, opcode)
        key = self.address, agent, "DatUp"
        self.monitor.say_data(key, free, words, *head, opcode, self.maybe_address(), resp=resp)


class HomeLine(SeenLine):
    """A line of which each message to the home is seen when the home takes it."""

    def __init__(self, monitor, number):
        super().__init__(monitor, number)
        # the lines of what is on its way, and what frees its id
        self.coming, self.free = {}, None

    def to_home(self, agent, opcode):
        head, self.free = super().to_home(agent, opcode)
        return head, lambda: None

    def put(self, agent, channel, text, words=None):
        before, self.free = len(self.monitor.lines), lambda: None
        super().put(agent, channel, text, words)
        if channel in ("Req", "RspUp", "DatUp"):
            self.coming[agent, channel] = self.monitor.lines[before:], self.free
            del self.monitor.lines[before:]

    def take(self, agent, command):
        key = agent, self.cell(agent, command)
        if key in self.coming:
            lines, free = self.coming.pop(key)
            self.monitor.lines += lines
            free()
        return super().take(agent, command)


def trace(seed, flits, agents, lines, four, beats, listed=None, seen=SeenLine):
    """The lines of the trace of a run with so many flits or a few more. Of loads and stores it lists none, some or all; `seen`
    says where messages are seen."""
    rng = random.Random(seed)
    monitor = Monitor(rng, agents, four, beats, listed)
    run = [seen(monitor, number) for number in range(lines)]
    while len(monitor.lines) < flits:
        if monitor.owed and rng.random() < 0.3:
            monitor.grant()
        monitor.give_back()
        if monitor.left and rng.random() < 0.1:
            monitor.finish(rng.choice(list(monitor.left)))
        line = rng.choice(run)
        if rng.random() < 0.25:
            line.processor()
        if steps := line.steps():
            step, agent = rng.choice(steps)
            step(agent)
    for key in list(monitor.left):
        monitor.finish(key)
    return monitor.lines
