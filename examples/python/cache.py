"""A small model of a requester's cache, of one line: the design that the bench holds against the proved model.

With `bug` it takes a Comp_UC as leave to hold the line in UC even where a snoop has taken its copy meanwhile.
"""

AFTER_SNOOP = {"SnpShared": {"SC": "SC", "UC": "SC", "UD": "SD", "SD": "SD"},
               "SnpNotSharedDirty": {"SC": "SC", "UC": "SC", "UD": "SC", "SD": "SC"}}


class Cache:
    """The copy of one line, and what it answers to messages: each answer is a message's name with its words, or None."""

    def __init__(self, bug):
        self.bug = bug
        self.state = "I"
        self.words = [0] * 8

    def store(self, word, value):
        self.words[word] = value
        self.state = "UD"

    def drop(self):
        self.state = "I"

    def issue(self, kind):
        if kind == "Evict":
            self.state = "I"

    def snooped(self, snoop):
        """The answer to a snoop, by the state before and after it."""
        before, after = self.state, AFTER_SNOOP.get(snoop, {}).get(self.state, "I")
        self.state = after
        if before not in ("UD", "SD"):
            return f"SnpResp_{after}", None
        return f"SnpRespData_{after}" + ("" if after == "SD" else "_PD"), tuple(self.words)

    def data(self, message, words):
        self.state, self.words = message[-2:], list(words)
        return "CompAck", None

    def completed(self, message):
        if message == "Comp_I":
            return None
        lost = "UC" if self.bug else "I"
        self.state = {"SC": "UC", "SD": "UD", "I": lost}[self.state]
        return "CompAck", None

    def write_back(self, kind):
        """The write data for a CompDBIDResp, and the state after it."""
        dirty = self.state in ("UD", "SD")
        answer = f"CopyBackWrData_{self.state}" + ("_PD" if dirty else "")
        words = (0,) * 8 if self.state == "I" else tuple(self.words)
        left = {"UD": "UC", "SD": "SC", "SC": "SC"}.get(self.state, "I")
        self.state = left if kind == "WriteCleanFull" else "I"
        return answer, words
