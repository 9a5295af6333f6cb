"""The protocol of docs/PROTOCOL.md once more, as a plain model of one line.

Nothing of it comes from the crates: what tests compare with it comes from elsewhere. Messages are their texts in
docs/PROTOCOL.md, "Messages". tests/suite/model.py has a node of such lines, tests/traces/runs.py traces of their runs."""

from collections import namedtuple

STATES = ["I", "SC", "UC", "UD", "SD"]
DIRTY = ["UD", "SD"]
NEEDS = {
    "ReadNotSharedDirty": ["I"], "ReadShared": ["I"], "ReadUnique": ["I"], "CleanUnique": ["SC", "SD"], "Evict": ["SC", "UC"],
    "WriteBackFull": ["UD", "SD"], "WriteCleanFull": ["UD", "SD"], "WriteEvictFull": ["UC"],
}
SNOOPS = {"ReadNotSharedDirty": "SnpNotSharedDirty", "ReadShared": "SnpShared", "ReadUnique": "SnpUnique", "CleanUnique": "SnpCleanInvalid"}
INVALIDATING = ["SnpUnique", "SnpCleanInvalid"]
COPY_BACKS = ["WriteBackFull", "WriteCleanFull", "WriteEvictFull"]
CHANNELS = ["Req", "Snp", "RspDown", "DatDown", "RspUp", "DatUp"]
# The command that takes a message, and how the message's text begins.
TAKEN = {
    "snp": tuple(SNOOPS.values()), "snpresp": ("SnpResp_", "SnpRespData_"), "retryack": ("RetryAck",), "data": ("CompData_",),
    "comp": ("Comp_",), "dbid": ("CompDBIDResp",), "ack": ("CompAck",), "wrdata": ("CopyBackWrData_",),
}

Request = namedtuple("Request", "kind slot")
# What the home does at a line: for whose request, and where it snoops, whose answers are awaited.
Service = namedtuple("Service", "what agent request awaited")


def credit_type(kind, four):
    """The credit type of a kind, in the profile of four types or of two."""
    if kind in COPY_BACKS:
        return 1
    if not four or kind in ("ReadNotSharedDirty", "ReadShared"):
        return 0
    return 3 if kind == "Evict" else 2


def answer(state, snoop):
    """The answer of a copy to a snoop."""
    if state not in DIRTY:
        return "SnpResp_I" if snoop in INVALIDATING or state == "I" else "SnpResp_SC"
    return "SnpRespData_" + ("I_PD" if snoop in INVALIDATING else "SD" if snoop == "SnpShared" else "SC_PD")


def write_data(state):
    """The form of write data from a copy."""
    return f"CopyBackWrData_{state}" + "_PD" * (state in DIRTY)


def state_after_write(kind, state):
    """A copy's state once its write data is sent."""
    return {"UD": "UC", "SD": "SC"}.get(state, state) if kind == "WriteCleanFull" else "I"


class Line:
    """One line: the copies, the pending requests, what the home keeps of it, and what is in flight."""

    def __init__(self, agents, four):
        self.four = four
        self.copies = [["I", [0] * 8] for _ in range(agents)]
        self.pending = [None] * agents
        self.is_retried = [False] * agents
        self.memory = [0] * 8
        self.named, self.unique, self.owner = set(), False, None
        self.waiting, self.serving, self.shared_data = {}, None, None
        self.flits = [{} for _ in range(agents)]

    def put(self, agent, channel, text, words=None):
        """Sends a message; `words` is its data."""
        assert channel not in self.flits[agent], (agent, channel, text)
        self.flits[agent][channel] = (text, words)

    def cell(self, agent, command):
        """The channel of the message that the command takes, if it is in flight."""
        for channel, (text, _) in self.flits[agent].items():
            if channel == "Req" if command == "arrive" else text.startswith(TAKEN[command]):
                return channel
        return None

    def take(self, agent, command):
        return self.flits[agent].pop(self.cell(agent, command))

    def is_sendable(self, agent):
        """Whether a retried request may be sent again: not a copy-back whose copy has left the state that it needs."""
        kind = self.pending[agent].kind
        return kind not in COPY_BACKS or self.copies[agent][0] in NEEDS[kind]

    def store(self, agent, word, value):
        self.copies[agent][1][word] = value
        self.copies[agent][0] = "UD"

    def drop(self, agent):
        self.copies[agent][0] = "I"

    def issue(self, agent, kind, slot):
        self.pending[agent] = Request(kind, slot)
        self.copies[agent][0] = "I" if kind == "Evict" else self.copies[agent][0]
        self.put(agent, "Req", f"{kind}/{slot}/allow")

    def resend(self, agent):
        self.is_retried[agent] = False
        self.put(agent, "Req", "{}/{}/credit".format(*self.pending[agent]))

    def cancel(self, agent):
        self.pending[agent], self.is_retried[agent] = None, False

    def admit(self, agent):
        kind, slot, _ = self.take(agent, "arrive")[0].split("/")
        self.waiting[agent] = Request(kind, int(slot))

    def retry(self, agent):
        kind = self.take(agent, "arrive")[0].split("/")[0]
        self.put(agent, "RspDown", f"RetryAck/{credit_type(kind, self.four)}")

    def take_retry(self, agent):
        self.take(agent, "retryack")
        self.is_retried[agent] = True

    def start(self, agent):
        """Serves a request that waits. An Evict is completed by it: its slot is given."""
        request = self.waiting.pop(agent)
        self.shared_data = None
        if request.kind == "Evict":
            self.leave(agent)
            self.put(agent, "RspDown", "Comp_I")
            return request.slot
        if request.kind in COPY_BACKS:
            self.serving = Service("wrdata", agent, request, set())
            self.put(agent, "RspDown", "CompDBIDResp")
        elif asked := self.asked(agent, request.kind):
            self.serving = Service("snooping", agent, request, asked)
            for other in sorted(asked):
                self.put(other, "Snp", SNOOPS[request.kind])
        else:
            self.complete(agent, request)
        return None

    def asked(self, agent, kind):
        """Whom the start of a read or a CleanUnique asks."""
        others = self.named - {agent}
        if kind in ("ReadUnique", "CleanUnique") or (self.unique and others):
            return others
        return {self.owner} - {None, agent}

    def take_snoop(self, agent):
        snoop, _ = self.take(agent, "snp")
        state, words = self.copies[agent]
        text = answer(state, snoop)
        self.copies[agent][0] = text.split("_")[1]
        self.put(agent, "DatUp" if state in DIRTY else "RspUp", text, words[:] if state in DIRTY else None)

    def take_answer(self, agent):
        """The home takes an answer to a snoop; the last one completes the request."""
        text, words = self.take(agent, "snpresp")
        if text.endswith("_PD"):
            self.memory = words
        if text.split("_")[1] == "I":
            self.leave(agent)
        else:
            self.unique = False
        self.owner = agent if text == "SnpRespData_SD" else None if self.owner == agent else self.owner
        if text == "SnpRespData_SD":
            self.shared_data = words
        self.serving.awaited.remove(agent)
        if not self.serving.awaited:
            self.complete(self.serving.agent, self.serving.request)

    def complete(self, agent, request):
        alone = request.kind in ("ReadUnique", "CleanUnique") or not self.named - {agent}
        if request.kind == "CleanUnique":
            self.put(agent, "RspDown", "Comp_UC")
        else:
            is_dirty = request.kind == "ReadShared" and not alone and self.shared_data
            words = self.shared_data if is_dirty else self.memory
            self.put(agent, "DatDown", "CompData_UC" if alone else "CompData_SC", words[:])
        self.unique = alone
        self.named = {agent} if alone else self.named | {agent}
        self.owner = None if alone else self.owner
        self.serving = Service("compack", agent, request, set())

    def leave(self, agent):
        """The filter names the agent no more."""
        self.named.discard(agent)
        self.owner = None if self.owner == agent else self.owner
        self.unique = self.unique and bool(self.named)

    def take_data(self, agent):
        text, words = self.take(agent, "data")
        self.copies[agent] = [text.split("_")[1], words]
        self.pending[agent] = None
        self.put(agent, "RspUp", "CompAck")

    def take_comp(self, agent):
        text, _ = self.take(agent, "comp")
        self.pending[agent] = None
        if text == "Comp_UC":
            self.copies[agent][0] = {"SC": "UC", "SD": "UD"}.get(self.copies[agent][0], "I")
            self.put(agent, "RspUp", "CompAck")

    def take_dbid(self, agent):
        """The write data is sent, in the form of the copy."""
        self.take(agent, "dbid")
        kind, (state, words) = self.pending[agent].kind, self.copies[agent]
        self.pending[agent] = None
        self.copies[agent][0] = state_after_write(kind, state)
        self.put(agent, "DatUp", write_data(state), [0] * 8 if state == "I" else words[:])

    def take_ack(self, agent):
        """The CompAck ends a request: its slot is given."""
        self.take(agent, "ack")
        return self.end()

    def take_written(self, agent):
        """The write data ends a request: its slot is given."""
        text, words = self.take(agent, "wrdata")
        if text.endswith("_PD"):
            self.memory = words
        if self.serving.request.kind != "WriteCleanFull" or text == "CopyBackWrData_I":
            self.leave(agent)
        self.owner = None if self.owner == agent else self.owner
        return self.end()

    def end(self):
        slot = self.serving.request.slot
        self.serving = None
        return slot
