"""Judges a trace of all of Issue B: ids between three nodes as rows, cache lines that wait for words, copies as sets (line.py).

An id stands for what is left of it: of a request its completion, DBID, read data; of a DBID its write data, CompAck; of a snoop its
answer. A flit names an id of which what the flit brings is left, and takes that off; an id of which nothing is left is free.
Data that come in beats stand where their first beat stands: behind it the flits of its line wait until the data are whole.
"""
import sys
from dataclasses import dataclass, field

from flits import Flit, flit_in, words_within
from line import Observer
from rows import KINDS, LOOSE, ONCE, PAIRED, PULLS, Fault

ATOMICS = {"AtomicSwap": "AtomicLoad", "AtomicCompare": "AtomicLoad"}       # judged as one kind
BRINGS = {"Comp": {"completion"}, "CompDBIDResp": {"completion", "DBID"}, "DBIDResp": {"DBID"}, "CompData": {"read data"},
          "CompAck": {"CompAck"}, "CopyBackWrData": {"write data"}, "NonCopyBackWrData": {"write data"}, "WriteDataCancel": {"write data"}}
NO_TRANSACTION = {"PrefetchTgt", "ReqLCrdReturn", "RespLCrdReturn", "DataLCrdReturn", "SnpLCrdReturn", "PCrdReturn", "PCrdGrant"}
DATA = object()             # stands for the bytes of a flit in what its line is told
ACKNOWLEDGED = {kind for kind, (_, _, then) in KINDS.items() if then == "ack"}


def expected(kind):
    """What a request expects of its home."""
    forms = KINDS[kind][1] if kind in KINDS else {"ReadNoSnp": "CompData", "DVMOp": "DBIDResp Comp"}.get(kind, "CompDBIDResp")
    return (({"read data"} if "CompData" in forms else {"completion"} if "Comp" in forms else set())
            | ({"DBID"} if "DBID" in forms else set()))


@dataclass
class Open:
    """An id that is open, and what is left of it."""
    key: tuple
    kind: str
    left: set
    opcode: str = ""
    line: object = None         # where it is judged
    agent: int = 0
    slot: int = 0               # its number among its agent's requests at the line
    given: int = 0              # the words of its data that have come
    whole: int = 255            # those of write data that make them whole
    back: int = 255             # those of read data
    acknowledged: bool = False  # by ExpCompAck, where its kind leaves that open
    address: int = 0
    home: int = 0
    returns: tuple | None = None    # to whom a memory gives the data
    serves: tuple | None = None     # the request that a forwarding snoop is for


@dataclass
class Held:
    """A flit of a line, or data of which words are missing."""
    of: Open | None
    flit: Flit
    call: list
    bytes: tuple | None
    is_whole: bool
    last: int
    flits: int = 1


@dataclass
class JudgedLine:
    home: int
    observer: Observer
    held: list = field(default_factory=list)
    is_faulty: bool = False
    slots: int = 0


class Judge:
    def __init__(self, agents, homes, hidden):
        self.agents, self.homes, self.hidden = {node: at for at, node in enumerate(agents)}, homes, hidden
        self.requests, self.buffers, self.snoops, self.retried, self.lines = {}, {}, {}, {}, {}
        self.judged = self.by_ids = self.unjudged = 0
        self.faults = []        # the trace line at which each is certain, its opcode and its reason

    def see(self, flit):
        try:
            self.take(flit)
        except Fault as why:
            self.unjudged += 1
            self.faults.append((flit.number, flit.opcode, str(why)))

    def take(self, flit):
        if flit.opcode in NO_TRANSACTION:
            self.by_ids += 1
        elif flit.channel == "CPU":
            self.access(flit)
        elif flit.channel == "REQ":
            self.request(flit)
        elif flit.channel == "SNP":
            self.snoop(flit)
        elif flit.opcode == "RetryAck":
            self.retry(flit)
        elif flit.opcode.startswith("SnpResp"):
            self.answer(flit)
        elif flit.opcode in ("CompAck", "CopyBackWrData", "NonCopyBackWrData", "WriteDataCancel"):
            self.follow(flit)
        elif flit.opcode == "ReadReceipt":
            self.receipt(flit)
        else:
            self.complete(flit)

    # ids

    def named(self, table, key, what):
        if key not in table:
            raise Fault(f"names no {what} that is open")
        return table[key]

    def opened(self, table, key, what, **parts):
        if key in table:
            raise Fault(f"the {what} is in use")
        table[key] = Open(key, **parts)
        return table[key]

    def brought(self, of, flit, whole):
        """Whether it is the first of its data, and whether they are whole with it."""
        if of.given & flit.given:
            raise Fault("a word comes twice")
        first = of.given == 0
        of.given |= flit.given
        is_whole = not flit.given or of.given & whole == whole
        if is_whole:
            of.given = 0
        return first, is_whole

    def taken_off(self, table, of, what):
        if not what <= of.left:
            raise Fault("nothing of the kind is due")
        of.left = of.left - what
        if not of.left:
            del table[of.key]

    # lines

    def line_at(self, address, home):
        line = self.lines.setdefault(address // 64, JudgedLine(home, Observer(len(self.agents), 64, hidden=self.hidden, partial=True)))
        if line.home != home:
            raise Fault("another home's line")
        return line

    def arrive(self, line, flit, of, call, is_whole=True, first=True):
        """A flit of a line, or a beat of data. In a call DATA stands for the bytes of the data."""
        if first:
            line.held.append(Held(of, flit, call, flit.bytes, is_whole, flit.number))
        elif line.is_faulty:
            self.unjudged += 1
        else:
            held = next(h for h in line.held if h.of is of and h.flit.opcode == flit.opcode and not h.is_whole)
            held.bytes = tuple(b if a is None else a for a, b in zip(held.bytes, flit.bytes))
            held.is_whole, held.last, held.flits = is_whole, flit.number, held.flits + 1
        while line.held and (line.held[0].is_whole or line.is_faulty):
            self.tell(line, line.held.pop(0))

    def tell(self, line, held):
        if line.is_faulty:
            self.unjudged += held.flits
            return
        try:
            line.observer = line.observer.take(*(held.bytes if part is DATA else part for part in held.call))
        except Fault as why:
            line.is_faulty = True
            self.faults.append((held.last, held.flit.opcode, str(why)))
        self.judged += held.flits

    # flits

    def access(self, flit):
        if flit.line not in self.lines:
            raise Fault("no copy of the line")
        self.arrive(self.lines[flit.line], flit, None, [self.agents[flit.source], flit.opcode.lower(), DATA])

    def request(self, flit):
        kind, size = ATOMICS.get(flit.opcode, flit.opcode), int(flit.fields.get("size", "6"), 16)
        waits = self.retried.get((flit.source, flit.line, flit.opcode), [])
        is_judged = kind in KINDS and flit.source not in self.homes
        if is_judged and not flit.allows_retry and not waits:
            raise Fault("not retried")
        of = self.opened(self.requests, (flit.source, flit.txn), "TxnID", kind=kind, opcode=flit.opcode, left=expected(kind), address=flit.address or 0,
                         home=flit.target, whole=words_within(flit.address or 0, size), acknowledged=flit.fields.get("exp") == "1",
                         back=words_within(flit.address or 0, size - (flit.opcode == "AtomicCompare" and size > 0)),
                         returns=flit.pair_in("ret") if "ret" in flit.fields else None)
        if not is_judged:
            self.by_ids += 1
            return
        of.line, of.agent = self.line_at(flit.address, flit.target), self.agents[flit.source]
        if flit.allows_retry:
            self.attempt(flit, of)
        else:
            of.slot = waits.pop(0).slot
            self.arrive(of.line, flit, of, [of.agent, "resend", of.slot])

    def attempt(self, flit, of):
        if of.kind not in PAIRED | LOOSE:       # what was retried there is cancelled
            self.retried = {key: waits for key, waits in self.retried.items()
                            if key[:2] != (flit.source, flit.line) or key[2] in LOOSE}
        of.line.slots += 1
        of.slot = of.line.slots
        self.arrive(of.line, flit, of, [of.agent, "issue", of.slot, of.kind, of.acknowledged and of.kind not in ACKNOWLEDGED])

    def retry(self, flit):
        of = self.named(self.requests, (flit.target, flit.txn), "request")
        del self.requests[of.key]
        self.retried.setdefault((flit.target, of.address // 64, of.opcode), []).append(of)
        if of.line is None:
            self.by_ids += 1
        else:
            self.arrive(of.line, flit, of, [of.agent, "retry", of.slot])

    def snoop(self, flit):
        key = flit.source, flit.target, flit.txn
        if flit.opcode == "SnpDVMOp":           # in two flits
            self.snoops[key] = Open(key, flit.opcode, {"answer"})
            self.by_ids += 1
            return
        of = self.opened(self.snoops, key, "TxnID", kind=flit.opcode, left={"answer"}, line=self.line_at(flit.address, flit.source),
                         agent=self.agents[flit.target], home=flit.source)
        call = [of.agent, "snoop", flit.opcode]
        if "fwd" in flit.fields:
            served = self.named(self.requests, flit.pair_in("fwd"), "request to forward to")
            of.serves = served.key
            call.append((served.agent, served.slot))
        self.arrive(of.line, flit, of, call)

    def receipt(self, flit):
        """A ReadReceipt of a memory that gives its data to another node ends the home's request."""
        of = self.named(self.requests, (flit.target, flit.txn), "request")
        self.by_ids += 1
        if flit.target in self.homes and of.returns not in (None, of.key):
            del self.requests[of.key]

    def complete(self, flit):
        of = self.named(self.requests, (flit.target, flit.txn), "request")
        home = flit.number_in("home") if "home" in flit.fields else flit.source
        if of.line is not None and home != of.home:
            raise Fault("another home answers")
        first, is_whole = self.brought(of, flit, of.back)
        if first:
            self.open_buffer(flit, of, home)
        if is_whole:
            self.taken_off(self.requests, of, BRINGS[flit.opcode])
            for other in [r for r in self.requests.values() if r.returns == of.key and r is not of]:
                del self.requests[other.key]
        if of.line is None:
            self.by_ids += 1
        else:
            self.arrive(of.line, flit, of, self.completion(flit, of), is_whole, first)

    def open_buffer(self, flit, of, home):
        """The DBID that a CompAck or write data will name."""
        acknowledged = of.kind in ACKNOWLEDGED or of.acknowledged and of.kind in ONCE
        left = set()
        if flit.opcode in ("CompData", "Comp") and acknowledged and of.line is not None:
            left = {"CompAck"}
        if "DBID" in BRINGS[flit.opcode]:
            left = {"write data"} | ({"CompAck"} if of.acknowledged and of.line is not None and of.kind not in ACKNOWLEDGED else set())
        if left:
            buffer = self.opened(self.buffers, (home, flit.target, flit.dbid), "DBID", kind=of.kind, left=left, line=of.line,
                                 agent=of.agent, slot=of.slot)
            is_partial = of.kind.startswith(("Atomic", "DVM")) or "Ptl" in of.kind and of.kind != "WriteBackPtl"
            buffer.whole = of.whole if is_partial else 255

    def completion(self, flit, of):
        if flit.opcode == "CompData" and flit.source in self.agents:
            return [self.agents[flit.source], "forward", flit.resp, DATA, (of.agent, of.slot)]
        if flit.opcode == "CompData":
            is_kept = of.kind not in ONCE and of.kind != "AtomicLoad"
            return [of.agent, "complete", of.slot, "CompData_" + (flit.resp if is_kept else "I"), DATA]
        return [of.agent, "complete", of.slot, "Comp_" + flit.resp if flit.opcode == "Comp" else flit.opcode]

    def answer(self, flit):
        of = self.named(self.snoops, (flit.target, flit.source, flit.txn), "snoop")
        first, is_whole = self.brought(of, flit, 255)
        if is_whole:
            del self.snoops[of.key]
        if of.line is None:
            self.by_ids += 1
            return
        data = [DATA] if flit.given else []
        if flit.opcode in ("SnpRespFwded", "SnpRespDataFwded"):
            call = [of.agent, "forwarded", flit.resp, flit.fields["fs"]] + data
        else:
            form = ("P_" if flit.opcode == "SnpRespDataPtl" else "D_" if flit.given else "R_") + flit.resp
            call = [of.agent, "answer", form] + data
            if "pull" in flit.fields:
                call = [of.agent, "pull", form, DATA if flit.given else None, self.pulled(flit, of, first)]
        self.arrive(of.line, flit, of, call, is_whole, first)

    def pulled(self, flit, of, first):
        """The request that an answer with DataPull makes."""
        key = flit.source, flit.number_in("pull")
        if not first:
            return self.requests[key].slot
        of.line.slots += 1
        kind = PULLS[of.kind]
        return self.opened(self.requests, key, "TxnID", kind=kind, left=expected(kind), line=of.line, agent=of.agent, slot=of.line.slots,
                           home=flit.target).slot

    def follow(self, flit):
        """A CompAck or write data."""
        of = self.named(self.buffers, (flit.target, flit.source, flit.txn), "DBID")
        first, is_whole = self.brought(of, flit, of.whole)
        if is_whole:
            self.taken_off(self.buffers, of, BRINGS[flit.opcode])
        if of.line is None:
            self.by_ids += 1
            return
        self.arrive(of.line, flit, of, self.following(flit, of), is_whole, first)

    def following(self, flit, of):
        if flit.opcode == "CompAck":
            return [of.agent, "compack", of.slot]
        if flit.opcode == "WriteDataCancel":
            return [of.agent, "wrcancel", of.slot]
        if flit.opcode == "CopyBackWrData":
            is_partial = of.kind == "WriteBackPtl" and flit.resp != "I"
            return [of.agent, "wrdata", of.slot, "PTL" if is_partial else flit.resp, DATA]
        return [of.agent, "wrdata", of.slot, "N", DATA]


def requesters(flits, homes):
    """The nodes that may have copies, or send requests to the homes."""
    asks = {f.source for f in flits if f.channel in ("REQ", "CPU") and f.source not in homes}
    return sorted(asks | {f.target for f in flits if f.channel == "SNP"})


def judged(flits, homes):
    hidden = not any(flit.channel == "CPU" and flit.opcode == "Store" for flit in flits)
    judge = Judge(requesters(flits, homes), homes, hidden)
    for flit in flits:
        judge.see(flit)
    return judge


def main():
    with open(sys.argv[1], encoding="ascii") as log:
        flits = [flit for number, text in enumerate(log, 1) if (flit := flit_in(text, number))]
    judge = judged(flits, {int(node, 16) for node in sys.argv[2].split(",")})
    print(f"{judge.judged} flits judged, {judge.by_ids} by their ids alone, {judge.unjudged} not judged")
    for number, opcode, why in sorted(judge.faults)[:10]:
        print(f"line {number}: {opcode}: {why}")
    print(f"{len(judge.faults)} faults")


if __name__ == "__main__":
    main()
