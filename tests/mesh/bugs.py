"""Planted bugs, as real designs have them: each shows at random moments.

`hits` tells whether the planted bug shows now. A bug's first effect is the first flit that a right design wouldn't have
put there, where the bug has a flit of its own; else the first flit behind the moment in which it showed.
"""

import sys

from cache import DIRTY, Answer
from trace import FULL, LINE

# Each bug's share of the moments at which it may show, and what it is.
TABLE = {
    # homes: whom they snoop
    "forgotten-sharer": (0.05, "a request for a unique copy doesn't snoop one of the sharers"),
    "forgotten-owner": (0.2, "a shared read doesn't snoop the owner, and gets the home's data"),
    "evict-of-another": (0.5, "an Evict takes another sharer out of the snoop filter"),
    "weak-snoop": (0.05, "SnpShared in the place of SnpUnique: the home takes the copy for gone"),
    "early-completion": (0.05, "the home completes before the last answer to its snoops"),
    "next-before-ack": (0.05, "the home serves the line's next request before the CompAck"),
    "atomic-without-snoop": (0.5, "an atomic misses its snoops"),
    # homes: what they give
    "unique-beside-sharers": (0.2, "UC for a shared read though other sharers are left"),
    "shared-for-unique": (0.05, "ReadUnique gets SC"),
    "dirty-for-clean": (0.2, "ReadClean gets UD_PD"),
    "stale-read": (0.2, "the home answers with its own data though a snoop has brought dirty data"),
    "dirty-dropped": (0.2, "dirty data of an answer are neither passed on nor kept"),
    "duty-from-nobody": (0.05, "UD_PD though nobody's data are dirty"),
    "cache-skipped": (0.3, "the home reads the memory though its system cache is dirty"),
    "swapped-beats": (0.05, "two beats of a completion have each other's data"),
    "comp-twice": (0.05, "a Comp is sent twice"),
    "wrong-id": (0.05, "a completion has the TxnID of no request"),
    "dbid-reused": (0.1, "the home gives a requester the DBID of a transaction of it that is open"),
    "wrong-home-id": (0.05, "CompData names another home in HomeNID"),
    "atomic-twice": (0.5, "an atomic is done twice"),
    "merge-off-by-one": (0.5, "byte enables are wrong by one byte in a merge"),
    "lost-copy-taken": (1, "the home takes write data of a lost copy (CopyBackWrData_I) as valid"),
    "pull-wrong-id": (0.3, "the data that a stash target pulls have another TxnID"),
    # direct transfers
    "dmt-overtakes": (0.5, "the memory sends data directly though the system cache is dirty"),
    "dmt-and-home": (0.05, "the memory and the home both send the data"),
    "dmt-wrong-id": (0.2, "the memory's direct data have the TxnID of the home's own request"),
    "forward-wrong-state": (0.05, "SnpRespFwded tells another FwdState than CompData has"),
    "forward-keeps-dirty": (0.3, "the peer keeps UD after it has given a copy away"),
    "forward-and-home": (0.05, "the peer and the home both send the data"),
    "forward-stale": (0.3, "the peer forwards data without its latest stores"),
    "forward-drops-dirty": (0.3, "the peer forwards SC of dirty data, and nobody has the duty to write them"),
    "forward-wrong-id": (0.2, "the peer's data have the snoop's TxnID in the place of the request's"),
    "forward-missing": (0.05, "the peer says that it has forwarded, and doesn't"),
    # retries
    "credit-twice": (0.05, "a credit is granted twice"),
    "grant-other-type": (0.05, "a credit is of another type than its RetryAck"),
    "retry-type-lost": (0.2, "a request is sent again with another credit type"),
    "retry-of-resend": (0.2, "a request with a credit gets a RetryAck"),
    # caches
    "answer-keeps-copy": (0.05, "a cache answers I and keeps its copy"),
    "answer-shared-to-unique": (0.2, "a cache answers SnpUnique with SC"),
    "answer-drops-dirty": (0.05, "a dirty copy answers as a clean one, without data"),
    "answer-duty-lost": (0.2, "dirty data go without the duty to write them, and the copy is clean then"),
    "answer-clean-as-dirty": (0.2, "a clean copy answers as a dirty one"),
    "answer-stale": (0.05, "a dirty copy answers without its latest stores"),
    "answer-twice": (0.05, "a snoop is answered twice"),
    "lost-ack": (0.05, "a CompAck is lost"),
    "ack-twice": (0.05, "a CompAck is sent twice"),
    "ack-wrong-id": (0.05, "a CompAck has another number than its DBID"),
    "store-in-shared": (0.5, "a shared copy is written without a request"),
    "write-back-of-clean": (0.2, "WriteBackFull of a clean copy, with its data as dirty"),
    "evict-of-dirty": (0.2, "a dirty copy is dropped with an Evict"),
    "lost-copy-written": (1, "a copy that a snoop has taken is written back as dirty"),
    "txn-reused": (0.05, "a request has the TxnID of one that is open"),
    "cancel-written": (1, "WriteDataCancel is taken as data of all bytes"),
    # memories, DVM
    "lost-write": (0.1, "a memory loses a write"),
    "read-overtakes-write": (1, "a memory serves a read before the write data that it awaits"),
    "partial-as-full": (0.5, "a memory takes a write of some bytes as one of all"),
    "dvm-early": (0.3, "a DVMOp completes before its snoops are answered"),
}


class Bugs:
    """The planted bug, if any, and its first effect."""

    def __init__(self, name, rate, random):
        self.name, self.rate, self.random = name, rate, random
        self.world, self.times, self.line, self.is_armed = None, 0, None, False

    def hits(self, name, may=True):
        """Whether that bug is planted and shows now, where it may."""
        if name != self.name or not may or self.random.random() >= self.rate:
            return False
        self.times += 1
        return True

    def arm(self):
        """The bug has shown without a flit of its own."""
        self.note(self.world.log.lines + 1)

    def note(self, line):
        """The first effect is at that line of the log."""
        if self.line is None:
            self.line = line

    def report(self):
        """What is told of the planted bug at the end."""
        where = f"first effect at log line {self.line}" if self.line else "no effect"
        print(f"bug {self.name}: {self.times} times; {where}", file=sys.stderr)

    # requesters

    def request_id(self, node, txn):
        """The TxnID of a request."""
        if txn is not None:
            return txn
        if self.hits("txn-reused", bool(node.open)):
            self.arm()
            return self.random.choice(sorted(node.open))
        return node.ids.take()

    def resend_type(self, kind):
        """The credit type of a request that is sent again."""
        if self.hits("retry-type-lost"):
            self.arm()
            return kind ^ 7
        return kind

    def granted_type(self, node, kind):
        """The credit type of a grant."""
        return kind ^ 4 if self.hits("grant-other-type") else kind

    def acknowledgement(self, flit):
        """Changes a CompAck's number."""
        if self.hits("ack-wrong-id"):
            flit.txn, flit.wrong = flit.txn ^ 0x55, True

    def answer(self, node, snoop, state, answer):
        """The answer to a snoop, and the state of the copy behind it where that isn't the answer's."""
        takes = snoop.opcode in ("SnpUnique", "SnpCleanInvalid", "SnpMakeInvalid")
        shared = answer.resp == "I" and answer.forwards is None and state in ("SC", "UC")
        if self.hits("answer-keeps-copy", shared):
            self.arm()
            return answer, state
        if self.hits("answer-shared-to-unique", takes and state in ("SC", "UC")):
            self.arm()
            return Answer("SC", "SC", None, answer.data), None
        is_dirty = state in ("UD", "SD") and answer.data == "+" and answer.forwards is None
        if self.hits("answer-drops-dirty", is_dirty):
            self.arm()
            return Answer("I", "I", None, ""), None
        if self.hits("answer-duty-lost", is_dirty and answer.resp in ("SC_PD", "I_PD")):
            self.arm()
            return Answer(answer.next, answer.resp[:-3], None, "+"), None
        if self.hits("answer-clean-as-dirty", state in ("UC", "SC") and answer.data == "+" and answer.forwards is None
                     and answer.resp in ("SC", "I")):
            self.arm()
            return Answer(answer.next, answer.resp + "_PD", None, "+"), None
        if self.hits("forward-drops-dirty", state in DIRTY and answer.forwards == "SC"):
            self.arm()
            return Answer("SC", "SC", "SC", ""), None
        if self.hits("forward-keeps-dirty", state == "UD" and answer.forwards in ("UD_PD", "SD_PD", "UC", "SC")):
            self.arm()
            return answer, "UD"
        return answer, None

    def answered(self, node, snoop, copy, answer, flits):
        """Changes the flits of an answer."""
        reply = next(flit for flit in flits if flit.opcode.startswith("SnpResp"))
        forwarded = next((flit for flit in flits if flit.opcode == "CompData"), None)
        if self.hits("answer-stale", reply.data is not None and copy.state == "UD" and not forwarded):
            reply.data, reply.wrong = self.older(snoop.line, reply.data), True
        if self.hits("answer-twice", reply.data is None and not forwarded):
            flits.append(node.flit("RSP", reply.target, reply.opcode, txn=reply.txn, resp=reply.resp, wrong=True))
        if forwarded is None:
            return
        if self.hits("forward-wrong-state"):
            told = {"I": "SC", "SC": "UC", "UC": "SC", "UD_PD": "UC", "SD_PD": "SC"}[answer.forwards]
            reply.extras = {**reply.extras, "fs": told}
            reply.wrong = True
        if self.hits("forward-stale", copy.state == "UD"):
            forwarded.data, forwarded.wrong = self.older(snoop.line, forwarded.data), True
        if self.hits("forward-wrong-id", forwarded.txn != snoop.txn):
            forwarded.txn, forwarded.wrong = snoop.txn, True
        if self.hits("wrong-home-id"):
            forwarded.extras, forwarded.wrong = {"home": node.ident}, True
        if self.hits("forward-missing"):
            flits.remove(forwarded)
            reply.wrong = True

    def older(self, line, data):
        """An older value of a line, or another one where it never had any."""
        past = [value for _, value in self.world.golden.past.get(line, []) if value != data]
        return past[-1] if past else bytes(LINE)

    # homes

    def spoil(self, t):
        """The transaction's completion is wrong; where it has none, the bug has shown by now."""
        t.spoils = True
        if t.opcode == "own":
            self.arm()

    def snoops(self, home, t, kinds):
        """Whom a home snoops, and how."""
        takes = any(kind in ("SnpUnique", "SnpCleanInvalid", "SnpMakeInvalid") for kind in kinds.values())
        real = [node for node in kinds if t.line in self.world.golden.copies[node]]
        if self.hits("forgotten-sharer", takes and bool(real)):
            gone = self.random.choice(real)
            self.spoil(t)
            home.entry(t.line).leaves(gone)
            return {node: kind for node, kind in kinds.items() if node != gone}
        owner = home.entry(t.line).owner
        is_shared = all(kind.startswith(("SnpShared", "SnpNotShared", "SnpClean", "SnpOnce")) for kind in kinds.values())
        if self.hits("forgotten-owner", is_shared and owner in real and not takes):
            self.spoil(t)
            home.entry(t.line).leaves(owner)
            return {node: kind for node, kind in kinds.items() if node != owner}
        if self.hits("weak-snoop", takes and bool(real)):
            self.arm()
            for node in real:
                home.entry(t.line).leaves(node)
            return {node: "SnpShared" if node in real else kind for node, kind in kinds.items()}
        return kinds

    def digested(self, home, t):
        """Changes what a home makes of answers."""
        is_newer = t.dirty is not None and t.forwarded is None and t.dirty != home.here(t.line)
        if self.hits("stale-read", is_newer):
            t.dirty = home.here(t.line)
            t.spoils = True
        if self.hits("dirty-dropped", is_newer):
            t.dirty = None
            t.spoils = True

    def states(self, home, t, node, states, opcode):
        """The states that a read may be given."""
        remaining = home.entry(t.line).holders - {node}
        has_copies = any(t.line in self.world.golden.copies[other] for other in remaining)
        was_stored = len(self.world.golden.past.get(t.line, [])) > 1
        if self.hits("unique-beside-sharers", has_copies and opcode != "ReadUnique"):
            t.spoils = True
            return ["UC"]
        if self.hits("shared-for-unique", opcode == "ReadUnique"):
            t.spoils = True
            return ["SC"]
        if self.hits("dirty-for-clean", opcode == "ReadClean" and not remaining):
            t.spoils = True
            return ["UD_PD"]
        if self.hits("duty-from-nobody", not was_stored and "UC" in states and opcode != "ReadClean"):
            t.spoils = True
            return ["UD_PD"]
        return states or ["UC"]

    def completion(self, home, t, flit):
        """Changes a home's CompData."""
        if self.hits("wrong-id"):
            flit.txn, flit.wrong = flit.txn ^ 0x2A, True
        if self.hits("wrong-home-id"):
            others = [node for node in home.world.homes if node != home.ident] or [home.ident ^ 1]
            flit.extras, flit.wrong = {"home": self.random.choice(others)}, True
        if self.hits("swapped-beats", flit.data[:32] != flit.data[32:]):
            flit.data, flit.wrong = flit.data[32:] + flit.data[:32], True
        return flit

    def data_id(self, home, request):
        """The number of a home's transaction: its DBID."""
        of_source = [number for number, t in home.transactions.items() if request and t.source == request.source and t.exp]
        if self.hits("dbid-reused", bool(of_source)):
            return self.random.choice(sorted(of_source))
        return home.ids.take()

    def evicted(self, home, t, entry):
        """Whom an Evict takes out of the snoop filter."""
        others = sorted(entry.holders - {t.source})
        if self.hits("evict-of-another", bool(others)):
            self.arm()
            return self.random.choice(others)
        return t.source

    def merge(self, mask):
        """The byte enables of a merge."""
        if self.hits("merge-off-by-one", mask not in (0, FULL)):
            self.arm()
            return (mask << 1) & FULL
        return mask

    def pull_id(self, txn):
        if self.hits("pull-wrong-id"):
            self.arm()
            return txn ^ 0x11
        return txn

    # memories

    def from_memory(self, memory, request, reply):
        """Changes a memory's data."""
        if self.hits("dmt-wrong-id", reply.target != request.source and reply.txn != request.txn):
            reply.txn, reply.wrong = request.txn, True
        return reply
