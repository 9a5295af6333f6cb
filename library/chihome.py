"""chihome: a proved reference model of an AMBA CHI coherent system in miniature, from Python.

Four things can be opened: a `Slice`, whose lines are stepped action by action; a whole `Node` on one thread, with its
tracker and its requesters; a `Monitor`, which is given flits and finds the first that no run of the model sends; and an
`Observer`, which is given those of any home and any caches, and finds the first that isn't safe or that nothing explains.
Each closes itself at the end of its `with`:

    import chihome
    from chihome import Kind, Step

    with chihome.Slice(agents=2, lines=1) as model:
        model.act(Step.Issue, 0, 0, kind=Kind.ReadShared)
        model.act(Step.Admit, 0, 0)
        model.act(Step.Start, 0, 0)
        print(*model.flits(0, 0).values())

What each call does is in docs/PROTOCOL.md; its contract is proved of the library's own code (docs/LIBRARY.md), and what
stands here is tested, not proved. A call that the model refuses raises the exception of that refusal's name, a `Refused`,
and then nothing has changed. A number that no call has a place for is answered as one outside its range: `OutOfRange`.

The module needs Python 3.8 and libchihome.so, which it loads at the first opening: the file that the environment
variable CHIHOME_LIBRARY names, or the one beside it, in the repository's `out`, there in `tried-library`, where
library/try leaves one without a proof, or in the `lib` that it was installed with, or else the one that the system finds. The interpreter's lock is held during each call, so calls never overlap;
where Python has no such lock, the caller sees to that.
"""

from __future__ import annotations

import ctypes
import enum
import itertools
import os
from ctypes import POINTER, byref, c_char_p, c_size_t, c_uint8, c_uint16, c_uint32, c_uint64, c_void_p
from pathlib import Path
from typing import Callable, Dict, FrozenSet, Iterator, List, NamedTuple, Optional, Sequence, Tuple, Union


# The numbers of chihome.h, without its CHI_.


class Answer(enum.IntEnum):
    """What a call answers: done, or the number of a refusal (docs/PROTOCOL.md, "Refusals")."""

    OK = 0
    JournalFull = 1
    WrongState = 2
    Pending = 3
    NothingPending = 4
    LineBusy = 5
    NotWaiting = 6
    NoFlit = 7
    NoMemory = 8
    MustAccept = 9
    OutOfRange = 10
    NotOpen = 11
    NoCredit = 12
    NothingJudged = 245
    PartlyJudged = 246
    Full = 247
    SetAside = 248
    OtherVersion = 249
    OtherSize = 250
    Damaged = 251
    NotKept = 252
    Fault = 253
    AlreadyOpen = 254
    Closed = 255


class Step(enum.IntEnum):
    """The actions (docs/PROTOCOL.md, "The actions")."""

    Load = 0
    Store = 1
    Drop = 2
    Issue = 3
    Admit = 4
    Retry = 5
    RecvRetry = 6
    Resend = 7
    Cancel = 8
    Start = 9
    RecvSnp = 10
    RecvSnpResp = 11
    RecvData = 12
    RecvComp = 13
    RecvAck = 14
    RecvDbid = 15
    RecvWrData = 16


class Kind(enum.IntEnum):
    """The kinds of request (docs/PROTOCOL.md, "Kinds of request")."""

    ReadNotSharedDirty = 0
    ReadShared = 1
    ReadUnique = 2
    CleanUnique = 3
    Evict = 4
    WriteBackFull = 5
    WriteCleanFull = 6
    WriteEvictFull = 7


class State(enum.IntEnum):
    """The cache states."""

    I = 0
    SC = 1
    UC = 2
    UD = 3
    SD = 4


class Profile(enum.IntEnum):
    """How many credit types a node has (docs/PROTOCOL.md, "Limits")."""

    Two = 0
    Four = 1


class Channel(enum.IntEnum):
    """The channels (docs/PROTOCOL.md, "Messages")."""

    Req = 0
    Snp = 1
    RspDown = 2
    DatDown = 3
    RspUp = 4
    DatUp = 5


class Message(enum.IntEnum):
    """The messages (docs/PROTOCOL.md, "Messages")."""

    NoMessage = 0
    Request = 1
    SnpShared = 2
    SnpNotSharedDirty = 3
    SnpUnique = 4
    SnpCleanInvalid = 5
    RetryAck = 6
    Comp_UC = 7
    Comp_I = 8
    CompDBIDResp = 9
    CompData_SC = 10
    CompData_UC = 11
    SnpResp_I = 12
    SnpResp_SC = 13
    CompAck = 14
    SnpRespData_I_PD = 15
    SnpRespData_SC_PD = 16
    SnpRespData_SD = 17
    CopyBackWrData_I = 18
    CopyBackWrData_SC = 19
    CopyBackWrData_UC = 20
    CopyBackWrData_UD_PD = 21
    CopyBackWrData_SD_PD = 22


class Reason(enum.IntEnum):
    """Why no run of the model sends a flit (docs/LIBRARY.md, "A monitor")."""

    NoReason = 0
    MemoryRanOut = 1
    NoAgent = 2
    EarlierRequest = 3
    CopyNotNeeded = 4
    NotRetried = 5
    NothingToRetry = 6
    ServedRetry = 7
    NobodyAsks = 8
    HomeAwaits = 9
    SnoopedTwice = 10
    NothingToAnswer = 11
    AnswerOfCopy = 12
    OtherWords = 13
    NothingToComplete = 14
    SnoopsBefore = 15
    FormOfFilter = 16
    NotAwaited = 17
    FormOfCopy = 18
    OtherReason = 19
    OtherCredit = 20


class Opcode(enum.IntEnum):
    """The opcodes of flits as an observer is given them (docs/TRACES.md, "Traces" and "Other opcodes"). Those behind
    OtherReply aren't judged. OtherRequest to OtherReply stand for opcodes of a design's own, which aren't either: OtherAnswer
    for those of RSP and DAT whose names begin with `Snp`, OtherReply for the others of these channels."""

    None_ = 0
    ReadNotSharedDirty = 1
    ReadShared = 2
    ReadClean = 3
    ReadOnce = 4
    ReadUnique = 5
    CleanUnique = 6
    MakeUnique = 7
    CleanShared = 8
    CleanInvalid = 9
    MakeInvalid = 10
    Evict = 11
    WriteBackFull = 12
    WriteCleanFull = 13
    WriteEvictFull = 14
    WriteUniqueFull = 15
    PCrdReturn = 16
    SnpOnce = 17
    SnpClean = 18
    SnpShared = 19
    SnpNotSharedDirty = 20
    SnpCleanShared = 21
    SnpUnique = 22
    SnpCleanInvalid = 23
    SnpMakeInvalid = 24
    RetryAck = 25
    Comp = 26
    CompDBIDResp = 27
    PCrdGrant = 28
    SnpResp = 29
    CompAck = 30
    CompData = 31
    SnpRespData = 32
    CopyBackWrData = 33
    NonCopyBackWrData = 34
    Load = 35
    Store = 36
    OtherRequest = 37
    OtherSnoop = 38
    OtherAnswer = 39
    OtherReply = 40
    ReqLCrdReturn = 41
    ReadNoSnp = 42
    DVMOp = 43
    WriteUniquePtl = 44
    WriteBackPtl = 45
    WriteNoSnpPtl = 46
    WriteNoSnpFull = 47
    WriteUniqueFullStash = 48
    WriteUniquePtlStash = 49
    StashOnceShared = 50
    StashOnceUnique = 51
    ReadOnceCleanInvalid = 52
    ReadOnceMakeInvalid = 53
    CleanSharedPersist = 54
    AtomicStore = 55
    AtomicLoad = 56
    AtomicSwap = 57
    AtomicCompare = 58
    PrefetchTgt = 59
    SnpLCrdReturn = 60
    SnpUniqueStash = 61
    SnpMakeInvalidStash = 62
    SnpStashUnique = 63
    SnpStashShared = 64
    SnpDVMOp = 65
    SnpSharedFwd = 66
    SnpCleanFwd = 67
    SnpOnceFwd = 68
    SnpNotSharedDirtyFwd = 69
    SnpUniqueFwd = 70
    RespLCrdReturn = 71
    DBIDResp = 72
    ReadReceipt = 73
    SnpRespFwded = 74
    DataLCrdReturn = 75
    SnpRespDataPtl = 76
    SnpRespDataFwded = 77
    WriteDataCancel = 78


class Resp(enum.IntEnum):
    """What the Resp field of a flit holds."""

    I = 0
    SC = 1
    UC = 2
    UD = 3
    SD = 4
    I_PD = 5
    SC_PD = 6
    UC_PD = 7
    UD_PD = 8
    SD_PD = 9


class ObserverReason(enum.IntEnum):
    """Why an observer doesn't take a flit (docs/OBSERVER.md, "Faults" and "Ids and credits")."""

    None_ = 0
    InUse = 1
    NotOpen = 2
    Unfinished = 3
    WordAgain = 4
    WrongAddress = 5
    NotRetryable = 6
    OtherType = 7
    NothingRetried = 8
    NoCredit = 9
    NoDbid = 10
    Form = 11
    OtherHome = 12
    NotJudged = 13
    NoAgent = 14
    NotSent = 15
    NotDue = 16
    Busy = 17
    NoMoment = 18
    NoOverwriter = 19
    NoDuty = 20
    OtherWords = 21
    OtherCopy = 22
    Lost = 23
    Other = 24
    OtherBeat = 25


class Stores(enum.IntEnum):
    """Whether stores may be done that an observer isn't given (docs/OBSERVER.md, "Stores that are listed")."""

    Hidden = 0
    Listed = 1


class EffectForm(enum.IntEnum):
    """What an action gives."""

    Nothing = 0
    Value = 1
    Completed = 2


class Phase(enum.IntEnum):
    """How far a request has come."""

    NoRequest = 0
    Sent = 1
    Retried = 2
    Waiting = 3


class ServingForm(enum.IntEnum):
    """What a line serves."""

    Idle = 0
    Snooping = 1
    AwaitingCompAck = 2
    AwaitingWriteData = 3


class ArrivalForm(enum.IntEnum):
    """What an arrival came to."""

    NotArrived = 0
    Admitted = 1
    RetriedWith = 2


class ReleaseForm(enum.IntEnum):
    """Where a released entry went."""

    NotReleased = 0
    Freed = 1
    Granted = 2


Nobody = 255
MostSent = 8
MostEnabled = 24


# The refusals.


class Refused(Exception):
    """A call that was refused, with the `number` and the `name` of its refusal: nothing has changed, but by the close of an
    observer."""

    number: int = -1
    name: str = "?"

    def __str__(self) -> str:
        return f"refused {int(self.number)} {self.name}" + (f": {self.__doc__}" if self.__doc__ else "")


class JournalFull(Refused):
    """the journal has as many records as it may have"""

    number, name = Answer.JournalFull, "JournalFull"


class WrongState(Refused):
    """the copy is in a state that doesn't allow it"""

    number, name = Answer.WrongState, "WrongState"


class Pending(Refused):
    """the agent has a request to the line that is pending, or the slot is in use"""

    number, name = Answer.Pending, "Pending"


class NothingPending(Refused):
    """the agent has no request to the line in phase Retried"""

    number, name = Answer.NothingPending, "NothingPending"


class LineBusy(Refused):
    """the line serves a request"""

    number, name = Answer.LineBusy, "LineBusy"


class NotWaiting(Refused):
    """the agent has no request that waits at this line"""

    number, name = Answer.NotWaiting, "NotWaiting"


class NoFlit(Refused):
    """no message of that kind is in flight for the agent and the line"""

    number, name = Answer.NoFlit, "NoFlit"


class NoMemory(Refused, MemoryError):
    """memory for an opening was asked for and not given"""

    number, name = Answer.NoMemory, "NoMemory"


class MustAccept(Refused):
    """a Retry of a request that has no AllowRetry"""

    number, name = Answer.MustAccept, "MustAccept"


class OutOfRange(Refused):
    """a number outside its range, or a line of another slice"""

    number, name = Answer.OutOfRange, "OutOfRange"


class NotOpen(Refused):
    """the requester's account doesn't agree with the slice, which no node brings about"""

    number, name = Answer.NotOpen, "NotOpen"


class NoCredit(Refused):
    """every seen credit of the type is reserved or there is none, or no request of the type was cancelled"""

    number, name = Answer.NoCredit, "NoCredit"


class NothingJudged(Refused):
    """the observer is closed, and nothing that it took was judged"""

    number, name = Answer.NothingJudged, "NothingJudged"


class PartlyJudged(Refused):
    """the observer is closed, and some that it took wasn't judged"""

    number, name = Answer.PartlyJudged, "PartlyJudged"


class Full(Refused):
    """there is no room in the observer for what the flit would add"""

    number, name = Answer.Full, "Full"


class OtherVersion(Refused):
    """a snapshot of another version"""

    number, name = Answer.OtherVersion, "OtherVersion"


class OtherSize(Refused):
    """a snapshot of another node, or of another slice of the node"""

    number, name = Answer.OtherSize, "OtherSize"


class Damaged(Refused):
    """no snapshot, or not as it was saved"""

    number, name = Answer.Damaged, "Damaged"


class NotKept(Refused):
    """the monitor keeps no flits"""

    number, name = Answer.NotKept, "NotKept"


class Fault(Refused):
    """no run of the model sends the flit, or the observer doesn't take it; or so of one before it"""

    number, name = Answer.Fault, "Fault"


class AlreadyOpen(Refused):
    """the handle is open"""

    number, name = Answer.AlreadyOpen, "AlreadyOpen"


class Closed(Refused):
    """the handle is closed"""

    number, name = Answer.Closed, "Closed"


_REFUSALS = {int(it.number): it for it in Refused.__subclasses__()}


def _check(answer: int) -> None:
    """Raises the refusal of an answer that isn't CHI_OK."""
    if answer:
        refused = _REFUSALS.get(answer, Refused)()
        refused.number = answer if refused.number < 0 else refused.number
        raise refused


# The layouts of chihome.h, each under its name with a dash before.


class _ChiConfig(ctypes.Structure):
    _fields_ = [("agents", c_uint8), ("lines", c_uint8), ("slices", c_uint8), ("profile", c_uint8),
                ("entries", c_uint16 * 4), ("journal", c_uint32)]


class _ChiAction(ctypes.Structure):
    _fields_ = [("agent", c_uint8), ("line", c_uint8), ("step", c_uint8), ("kind", c_uint8), ("slot", c_uint8),
                ("word", c_uint8), ("value", c_uint64)]


class _ChiEffect(ctypes.Structure):
    _fields_ = [("effect", c_uint8), ("slot", c_uint8), ("value", c_uint64)]


class _ChiFlit(ctypes.Structure):
    _fields_ = [("message", c_uint8), ("kind", c_uint8), ("slot", c_uint8), ("allow_retry", c_uint8),
                ("credit", c_uint8), ("words", c_uint64 * 8)]


class _ChiFlits(ctypes.Structure):
    _fields_ = [("channels", _ChiFlit * 6)]


class _ChiSent(ctypes.Structure):
    _fields_ = [("agent", c_uint8), ("channel", c_uint8), ("flit", _ChiFlit)]


class _ChiCopy(ctypes.Structure):
    _fields_ = [("state", c_uint8), ("words", c_uint64 * 8)]


class _ChiRequest(ctypes.Structure):
    _fields_ = [("phase", c_uint8), ("kind", c_uint8), ("slot", c_uint8)]


class _ChiServing(ctypes.Structure):
    _fields_ = [("form", c_uint8), ("agent", c_uint8), ("kind", c_uint8), ("slot", c_uint8)]


class _ChiLine(ctypes.Structure):
    _fields_ = [("copies", _ChiCopy * 8), ("memory", c_uint64 * 8), ("last", c_uint64 * 8), ("pending", _ChiRequest * 8),
                ("waiting", _ChiRequest * 8), ("named", c_uint8 * 8), ("awaited", c_uint8 * 8),
                ("serving", _ChiServing), ("unique", c_uint8), ("owner", c_uint8)]


class _ChiRecord(ctypes.Structure):
    _fields_ = [("store", c_uint8), ("agent", c_uint8), ("line", c_uint8), ("word", c_uint8), ("value", c_uint64)]


class _ChiArrival(ctypes.Structure):
    _fields_ = [("arrival", c_uint8), ("entry", c_uint8), ("credit", c_uint8)]


class _ChiRelease(ctypes.Structure):
    _fields_ = [("release", c_uint8), ("agent", c_uint8)]


class _ChiCredits(ctypes.Structure):
    _fields_ = [("seen", c_uint32 * 4)]


class _ChiTotals(ctypes.Structure):
    _fields_ = [("free", c_uint32 * 4), ("hand", c_uint32 * 4), ("promised", c_uint32 * 4), ("owed", c_uint32 * 4)]


class _ChiAudit(ctypes.Structure):
    _fields_ = [("loads", c_uint64), ("stores", c_uint64), ("coherent", c_uint8)]


class _ChiSlice(ctypes.Structure):
    _fields_ = [("at", c_void_p)]


class _ChiNode(ctypes.Structure):
    _fields_ = [("at", c_void_p)]


class _ChiFault(ctypes.Structure):
    _fields_ = [("number", c_uint64)] + [(it, c_uint8) for it in ("reason", "agent", "line")] + [("reserved", c_uint8 * 5)]


class _ChiOpen(ctypes.Structure):
    _fields_ = [(it, c_uint8) for it in ("request", "retried", "snoop", "completion", "write_data")]


class _ChiMonitor(ctypes.Structure):
    _fields_ = [("at", c_void_p)]


class _ChiObserverConfig(ctypes.Structure):
    _fields_ = [(it, c_uint32) for it in ("lines", "ids", "accounts")] + [
        (it, c_uint8) for it in ("requesters", "homes", "types", "early_grants", "stores")] + [("reserved", c_uint8 * 3)]


class _ChiSeen(ctypes.Structure):
    _fields_ = [("number", c_uint64), ("address", c_uint64), ("words", c_uint64 * 8)] + [
        (it, c_uint16) for it in ("source", "target", "txn", "dbid")] + [
        (it, c_uint8) for it in ("opcode", "resp", "credit", "allow_retry", "has_address", "has_dbid", "mask", "reserved")]


class _ChiObserverFault(ctypes.Structure):
    _fields_ = [("number", c_uint64), ("line", c_uint64), ("node", c_uint16), ("reason", c_uint8), ("has_line", c_uint8),
                ("reserved", c_uint8 * 4)]


class _ChiObserverCounts(ctypes.Structure):
    _fields_ = [(it, c_uint64) for it in ("flits", "accesses", "lines", "aside")] + [
        (it, c_uint32) for it in ("ids", "accounts", "requests", "completions", "snoops", "retried", "unsettled")] + [
        ("requesters", c_uint8), ("homes", c_uint8), ("reserved", c_uint8 * 2)]


class _ChiUnjudged(ctypes.Structure):
    _fields_ = [(it, c_uint64) for it in ("flits", "of_flits", "lines", "of_lines", "accesses", "of_accesses")]


class _ChiObserver(ctypes.Structure):
    _fields_ = [("at", c_void_p)]


# The calls of chihome.h: what each returns and takes.

_slice, _node, _action, _count = POINTER(_ChiSlice), POINTER(_ChiNode), POINTER(_ChiAction), POINTER(c_uint8)
_bytes = POINTER(c_uint8)
_effect, _sent, _release = POINTER(_ChiEffect), POINTER(_ChiSent), POINTER(_ChiRelease)
_arrival, _line, _flits = POINTER(_ChiArrival), POINTER(_ChiLine), POINTER(_ChiFlits)
_monitor, _observer = POINTER(_ChiMonitor), POINTER(_ChiObserver)

_CALLS = {
    "chi_slice_open": (c_uint8, [_slice, POINTER(_ChiConfig), c_uint8]),
    "chi_slice_act": (c_uint8, [_slice, _action, _effect]),
    "chi_slice_step": (c_uint8, [_slice, _action, _effect, _sent, _count, _sent]),
    "chi_slice_enabled": (c_uint8, [_slice, c_uint8, c_uint8, _action, _count]),
    "chi_slice_refusal": (c_uint8, [_slice, _action]),
    "chi_slice_show": (c_uint8, [_slice, c_uint8, _line]),
    "chi_slice_flits": (c_uint8, [_slice, c_uint8, c_uint8, _flits]),
    "chi_slice_journal": (c_uint8, [_slice, c_uint32, POINTER(_ChiRecord)]),
    "chi_slice_audit": (c_uint8, [_slice, POINTER(_ChiAudit)]),
    "chi_slice_copy": (c_uint8, [_slice, _slice]),
    "chi_slice_equal": (c_uint8, [_slice, _slice, _count]),
    "chi_slice_save": (c_uint8, [_slice, _bytes, c_size_t, POINTER(c_size_t)]),
    "chi_slice_load": (c_uint8, [_slice, POINTER(_ChiConfig), c_uint8, _bytes, c_size_t]),
    "chi_slice_close": (c_uint8, [_slice]),
    "chi_node_open": (c_uint8, [_node, POINTER(_ChiConfig)]),
    "chi_node_arrive": (c_uint8, [_node, c_uint8, c_uint8, _arrival]),
    "chi_node_step": (c_uint8, [_node, _action, _effect, _release]),
    "chi_node_arrive_flits": (c_uint8, [_node, c_uint8, c_uint8, _arrival, _sent, _count, _sent]),
    "chi_node_step_flits": (c_uint8, [_node, _action, _effect, _release, _sent, _count, _sent]),
    "chi_node_see": (c_uint8, [_node, c_uint8, POINTER(_ChiCredits)]),
    "chi_node_give_back": (c_uint8, [_node, c_uint8, c_uint8, _release]),
    "chi_node_tend": (c_uint8, [_node, c_uint8, c_uint8, _release]),
    "chi_node_show": (c_uint8, [_node, c_uint8, _line]),
    "chi_node_flits": (c_uint8, [_node, c_uint8, c_uint8, _flits]),
    "chi_node_totals": (c_uint8, [_node, POINTER(_ChiTotals)]),
    "chi_node_agrees": (c_uint8, [_node]),
    "chi_node_audit": (c_uint8, [_node, POINTER(_ChiAudit)]),
    "chi_node_slice": (c_uint8, [_slice, _node, c_uint8]),
    "chi_node_slice_equal": (c_uint8, [_node, c_uint8, _slice, _count]),
    "chi_node_close": (c_uint8, [_node]),
    "chi_monitor_open": (c_uint8, [_monitor, c_uint8, c_uint8, c_uint8, c_uint32]),
    "chi_monitor_flit": (c_uint8, [_monitor, c_uint8, _sent]),
    "chi_monitor_fault": (c_uint8, [_monitor, POINTER(_ChiFault)]),
    "chi_monitor_text": (c_uint8, [_monitor, _bytes, c_size_t, POINTER(c_size_t)]),
    "chi_monitor_end": (c_uint8, [_monitor, c_uint8, POINTER(_ChiOpen)]),
    "chi_monitor_explain": (c_uint8, [_monitor, c_uint8]),
    "chi_monitor_close": (c_uint8, [_monitor]),
    "chi_observer_open": (c_uint8, [_observer, POINTER(_ChiObserverConfig)]),
    "chi_observer_take": (c_uint8, [_observer, POINTER(_ChiSeen)]),
    "chi_observer_fault": (c_uint8, [_observer, POINTER(_ChiObserverFault)]),
    "chi_observer_text": (c_uint8, [_observer, _bytes, c_size_t, POINTER(c_size_t)]),
    "chi_observer_counts": (c_uint8, [_observer, POINTER(_ChiObserverCounts)]),
    "chi_observer_unjudged": (c_uint8, [_observer, POINTER(_ChiUnjudged)]),
    "chi_observer_unjudged_text": (c_uint8, [_observer, _bytes, c_size_t, POINTER(c_size_t)]),
    "chi_observer_copy": (c_uint8, [_observer, _observer]),
    "chi_observer_close": (c_uint8, [_observer]),
    "chi_version": (c_char_p, []),
    "chi_step_name": (c_char_p, [c_uint8]),
    "chi_kind_name": (c_char_p, [c_uint8]),
    "chi_message_name": (c_char_p, [c_uint8]),
    "chi_state_name": (c_char_p, [c_uint8]),
    "chi_refusal_name": (c_char_p, [c_uint8]),
    "chi_reason_name": (c_char_p, [c_uint8]),
    "chi_opcode_name": (c_char_p, [c_uint8]),
    "chi_resp_name": (c_char_p, [c_uint8]),
    "chi_observer_reason_name": (c_char_p, [c_uint8]),
}


class _Library:
    """The calls of a libchihome.so, by their names."""

    def __init__(self, path: str):
        self.path = path
        # (PyDLL holds the interpreter's lock, so that two threads are never in one handle)
        loaded = ctypes.PyDLL(path)
        for name, (result, words) in _CALLS.items():
            call = getattr(loaded, name, None)
            if call is not None:
                call.restype, call.argtypes = result, words
                setattr(self, name, call)

    def __getattr__(self, name: str):
        raise NotImplementedError(f"{self.path} has no {name}")


_loaded: Optional[_Library] = None


def _places() -> List[Path]:
    """Where the library may be, the likeliest first."""
    here = Path(__file__).resolve().parent
    installed = here.parents[2] / "lib" if len(here.parents) > 2 else here
    out = here.parent / "out"
    return [it / "libchihome.so" for it in (here, out, out / "tried-library", installed)]


def load_library(path: Optional[os.PathLike] = None) -> str:
    """Loads the library, or the file that is given, for all openings that follow, and tells which file that is.

    OSError where there is none."""
    global _loaded
    named = path or os.environ.get("CHIHOME_LIBRARY")
    found = named or next((it for it in _places() if it.exists()), "libchihome.so")
    _loaded = _Library(os.fspath(found))
    return _loaded.path


def _library() -> _Library:
    if _loaded is None:
        load_library()
    return _loaded


def version() -> str:
    """The version of the library that is loaded."""
    return _library().chi_version().decode()


# What calls are told and tell.


class Config(NamedTuple):
    """The sizes of a node (docs/PROTOCOL.md, "Limits"): of profile Two with two numbers of entries, of Four with four."""

    agents: int = 1
    lines: int = 1
    slices: int = 1
    entries: Sequence[int] = (1, 1)
    journal: int = 65536

    @property
    def profile(self) -> Profile:
        return Profile.Four if len(self.entries) == 4 else Profile.Two


class Action(NamedTuple):
    """An action, as `act(*action)` takes it."""

    step: Step
    agent: int
    line: int
    kind: Kind = Kind.ReadNotSharedDirty
    slot: int = 0
    word: int = 0
    value: int = 0


class Effect(NamedTuple):
    """What an action gives: the value that a load read, or the slot of a request that the home is done with."""

    value: Optional[int] = None
    completed: Optional[int] = None


class Flit(NamedTuple):
    """A message in flight. Its text is the one that `chihome` prints."""

    message: Message
    kind: Optional[Kind] = None
    slot: Optional[int] = None
    allow_retry: Optional[bool] = None
    credit: Optional[int] = None
    words: Optional[Tuple[int, ...]] = None

    def __str__(self) -> str:
        if self.message == Message.Request:
            return f"{self.kind.name}/{self.slot}/{'allow' if self.allow_retry else 'credit'}"
        return f"RetryAck/{self.credit}" if self.message == Message.RetryAck else self.message.name


class Sent(NamedTuple):
    """A flit that an action sent or took, between the agent and the home."""

    agent: int
    channel: Channel
    flit: Flit


class Stepped(NamedTuple):
    """What an action gives, the flits that it sent, and the one that it took."""

    effect: Effect
    sent: Tuple[Sent, ...]
    taken: Optional[Sent]


class FirstFault(NamedTuple):
    """The first flit that no run of the model sends: of which agent and line, how many were taken before it, and why, also as
    text."""

    reason: Reason
    agent: int
    line: int
    number: int
    text: str


class Open(NamedTuple):
    """What is open of an agent at a line: a request that was neither completed nor retried, a retried one that wasn't sent
    again, a snoop without its answer, a completion without its CompAck, a CompDBIDResp without its write data."""

    request: bool
    retried: bool
    snoop: bool
    completion: bool
    write_data: bool


class ObserverConfig(NamedTuple):
    """What an observer is opened for, as `Observer` takes it."""

    lines: int = 1024
    ids: int = 1024
    accounts: int = 256
    requesters: int = 32
    homes: int = 1
    types: int = 0
    early_grants: bool = False
    stores: Stores = Stores.Hidden


class Seen(NamedTuple):
    """A flit, whole, as a monitor sees it, or a load or a store of a processor. What its opcode hasn't is not read; ChiSeen of
    chihome.h says which has what.

    The address is None where it isn't known of a response or data, and the DBID where none is named. Of data `words` are
    eight, with None for each that is in another beat; of a load or a store the first is its value. A flit without a number
    of its own has the one behind that of the flit before."""

    opcode: Opcode
    source: int
    target: int = 0
    txn: int = 0
    address: Optional[int] = None
    resp: Resp = Resp.I
    dbid: Optional[int] = None
    allow_retry: bool = True
    credit: int = 0
    words: Sequence[Optional[int]] = ()
    number: Optional[int] = None


class ObserverFault(NamedTuple):
    """The first flit that an observer doesn't take: its number, its requester, its line of memory where one is known, and why,
    also as text."""

    reason: ObserverReason
    number: int
    node: int
    line: Optional[int]
    text: str


class ObserverCounts(NamedTuple):
    """How much an observer has seen: flits, of which data in beats are one, loads and stores, lines of memory, and those that
    were set aside; and what it holds: ids, open or not, accounts of credits, what is open, and how many accounts have
    credits that are owed or unused."""

    flits: int
    accesses: int
    lines: int
    aside: int
    ids: int
    accounts: int
    requests: int
    completions: int
    snoops: int
    retried: int
    unsettled: int
    requesters: int
    homes: int

    @property
    def is_complete(self) -> bool:
        """Whether nothing is open, as it should be at the end of a run."""
        return not any((self.requests, self.completions, self.snoops, self.retried, self.unsettled))


class Unjudged(NamedTuple):
    """How much of what it was given an observer hasn't judged: flits, lines of memory, and loads and stores, each of so many;
    and why, as text, which is empty where all is judged."""

    flits: int
    of_flits: int
    lines: int
    of_lines: int
    accesses: int
    of_accesses: int
    text: str


class Copy(NamedTuple):
    """An agent's copy of a line."""

    state: State
    words: Tuple[int, ...]


class Request(NamedTuple):
    """A request that is pending, or that waits at the home."""

    phase: Phase
    kind: Kind
    slot: int


class Serving(NamedTuple):
    """What the home does at a line. The kind is None while a CompAck is awaited."""

    form: ServingForm
    agent: int
    kind: Optional[Kind]
    slot: int


class Line(NamedTuple):
    """All parts of a line but its flits: what is by agent has a place for each, and None where there is nothing."""

    copies: Tuple[Copy, ...]
    memory: Tuple[int, ...]
    last: Tuple[int, ...]
    pending: Tuple[Optional[Request], ...]
    waiting: Tuple[Optional[Request], ...]
    named: FrozenSet[int]
    awaited: FrozenSet[int]
    serving: Optional[Serving]
    unique: bool
    owner: Optional[int]


class Record(NamedTuple):
    """A load or a store that was answered."""

    store: bool
    agent: int
    line: int
    word: int
    value: int


class Arrival(NamedTuple):
    """What an arrival came to: admitted with an entry of the tracker, or retried with a credit type."""

    entry: Optional[int] = None
    credit: Optional[int] = None


class Release(NamedTuple):
    """Where a released entry went, and the agent that it was promised to, if to any."""

    form: ReleaseForm
    agent: Optional[int] = None


class Served(NamedTuple):
    """What an action of a node gives, and where the entry of a completed request went."""

    effect: Effect
    release: Release


class ArrivalFlits(NamedTuple):
    """What an arrival came to, the flits that it sent, and the one that it took."""

    arrival: Arrival
    sent: Tuple[Sent, ...]
    taken: Optional[Sent]


class ServedFlits(NamedTuple):
    """What an action of a node gives, where the entry of a completed request went, the flits that it sent, and the one
    that it took."""

    effect: Effect
    release: Release
    sent: Tuple[Sent, ...]
    taken: Optional[Sent]


class Totals(NamedTuple):
    """Entries that are free, in hand and promised, and credits that are owed, each by type."""

    free: Tuple[int, ...]
    hand: Tuple[int, ...]
    promised: Tuple[int, ...]
    owed: Tuple[int, ...]


class Audit(NamedTuple):
    """How many loads and stores there were, and whether all is coherent, as always."""

    loads: int
    stores: int
    coherent: bool


def _within(number: int, most: int) -> int:
    """The number, or the greatest that its field holds, which is outside every range, where it has no place there."""
    return number if 0 <= number <= most else most


def _byte(number: int) -> int:
    return number if 0 <= number <= 255 else 255


def _config_of(config: Config) -> _ChiConfig:
    agents, lines, slices, entries, journal = config
    if len(entries) not in (2, 4):
        raise ValueError("entries are two numbers, or four")
    each = [_within(it, 0xFFFF) for it in [*entries, 0, 0][:4]]
    records = _within(journal, 0xFFFFFFFF)
    return _ChiConfig(_byte(agents), _byte(lines), _byte(slices), config.profile, tuple(each), records)


def _action_of(step: int, agent: int, line: int, kind: int, slot: int, word: int, value: int) -> _ChiAction:
    if not 0 <= value < 1 << 64:
        raise ValueError("a value has 64 bits")
    return _ChiAction(_byte(agent), _byte(line), _byte(step), _byte(kind), _byte(slot), _byte(word), value)


def _effect_in(told: _ChiEffect) -> Effect:
    if told.effect == EffectForm.Value:
        return Effect(value=told.value)
    return Effect(completed=told.slot) if told.effect == EffectForm.Completed else Effect()


def _flit_in(told: _ChiFlit) -> Optional[Flit]:
    message = Message(told.message)
    if message == Message.NoMessage:
        return None
    if message == Message.Request:
        return Flit(message, Kind(told.kind), told.slot, bool(told.allow_retry))
    if message == Message.RetryAck:
        return Flit(message, credit=told.credit)
    return Flit(message, words=tuple(told.words) if "Data" in message.name else None)


def _sent_in(told: _ChiSent) -> Optional[Sent]:
    flit = _flit_in(told.flit)
    return flit and Sent(told.agent, Channel(told.channel), flit)


def _flit_of(flit: Flit) -> _ChiFlit:
    words = (0,) * 8 if flit.words is None else tuple(flit.words)
    if len(words) != 8 or not all(0 <= it < 1 << 64 for it in words):
        raise ValueError("data are eight words of 64 bits")
    kind, slot, credit = (_byte(it or 0) for it in (flit.kind, flit.slot, flit.credit))
    return _ChiFlit(message=_byte(flit.message), kind=kind, slot=slot, allow_retry=bool(flit.allow_retry), credit=credit,
                    words=words)


def _seen_of(seen: Seen, number: int) -> _ChiSeen:
    words = [*seen.words, *[None] * (8 - len(seen.words))]
    if len(words) != 8 or not all(it is None or 0 <= it < 1 << 64 for it in words):
        raise ValueError("data are eight words of 64 bits")
    fields = (seen.source, seen.target, seen.txn, seen.dbid or 0)
    if not all(0 <= it < 1 << 16 for it in fields) or not 0 <= (seen.address or 0) < 1 << 64 or not 0 <= number < 1 << 64:
        raise ValueError("nodes and ids have 16 bits, an address and a number 64")
    mask = sum(1 << place for place, it in enumerate(words) if it is not None)
    return _ChiSeen(number, seen.address or 0, tuple(it or 0 for it in words), *fields, _byte(seen.opcode), _byte(seen.resp),
                    _byte(seen.credit), bool(seen.allow_retry), seen.address is not None, seen.dbid is not None, mask)


def _request_in(told: _ChiRequest) -> Optional[Request]:
    phase = Phase(told.phase)
    return Request(phase, Kind(told.kind), told.slot) if phase else None


def _serving_in(told: _ChiServing) -> Optional[Serving]:
    form = ServingForm(told.form)
    kind = None if form == ServingForm.AwaitingCompAck else Kind(told.kind)
    return Serving(form, told.agent, kind, told.slot) if form else None


def _line_in(told: _ChiLine, agents: int) -> Line:
    each = range(agents)
    return Line(
        tuple(Copy(State(told.copies[it].state), tuple(told.copies[it].words)) for it in each),
        tuple(told.memory),
        tuple(told.last),
        tuple(_request_in(told.pending[it]) for it in each),
        tuple(_request_in(told.waiting[it]) for it in each),
        frozenset(it for it in each if told.named[it]),
        frozenset(it for it in each if told.awaited[it]),
        _serving_in(told.serving),
        bool(told.unique),
        None if told.owner == Nobody else told.owner,
    )


def _flits_in(told: _ChiFlits) -> Dict[Channel, Flit]:
    flits = ((channel, _flit_in(told.channels[channel])) for channel in Channel)
    return {channel: flit for channel, flit in flits if flit}


def _release_in(told: _ChiRelease) -> Release:
    form = ReleaseForm(told.release)
    return Release(form, told.agent if form == ReleaseForm.Granted else None)


def _arrival_in(told: _ChiArrival) -> Arrival:
    if told.arrival == ArrivalForm.Admitted:
        return Arrival(entry=told.entry)
    return Arrival(credit=told.credit) if told.arrival == ArrivalForm.RetriedWith else Arrival()


# The handles.


class _Handle:
    """What slices, nodes, monitors and observers have in common: a handle of the library, which is closed once."""

    def __init__(self, handle: ctypes.Structure, config: Union[Config, ObserverConfig]):
        self._calls = _library()
        self._handle = handle
        self.config = config

    def _close(self) -> int:
        raise NotImplementedError

    @property
    def closed(self) -> bool:
        """Whether nothing is open."""
        return not self._handle.at

    def close(self) -> None:
        """Frees what is open. A second close does nothing; every other call on what is closed raises `Closed`."""
        if self._handle.at:
            _check(self._close())

    def __enter__(self):
        return self

    def __exit__(self, *_) -> None:
        self.close()

    def __del__(self) -> None:
        handle = getattr(self, "_handle", None)
        if handle is not None and handle.at:
            self._close()

    def __reduce_ex__(self, protocol):
        raise TypeError(f"a {type(self).__name__} is neither pickled nor copied so")


class Slice(_Handle):
    """A slice by itself, whose lines are stepped action by action. It knows no tracker: Admit, Retry and Resend are done
    as the caller says, which is what a scoreboard wants.

    It opens in its opening state: slice `index` of a node of these sizes. OutOfRange where a size is outside "Limits" of
    docs/PROTOCOL.md, or there is no such slice; NoMemory."""

    def __init__(self, agents: int = 1, lines: int = 1, slices: int = 1, entries: Sequence[int] = (1, 1),
                 journal: int = 65536, index: int = 0):
        super().__init__(_ChiSlice(), Config(agents, lines, slices, tuple(entries), journal))
        self.index = index
        _check(self._calls.chi_slice_open(byref(self._handle), byref(_config_of(self.config)), _byte(index)))

    def _close(self) -> int:
        return self._calls.chi_slice_close(byref(self._handle))

    def act(self, step: Step, agent: int, line: int, kind: Kind = Kind.ReadNotSharedDirty, slot: int = 0, word: int = 0,
            value: int = 0) -> Effect:
        """Does an action, and tells what it gives. Refused as "The actions" of docs/PROTOCOL.md says."""
        effect = _ChiEffect()
        action = _action_of(step, agent, line, kind, slot, word, value)
        _check(self._calls.chi_slice_act(byref(self._handle), byref(action), byref(effect)))
        return _effect_in(effect)

    def step(self, step: Step, agent: int, line: int, kind: Kind = Kind.ReadNotSharedDirty, slot: int = 0, word: int = 0,
             value: int = 0) -> Stepped:
        """Does an action as `act` does it, and tells also the flits that it sent, and the one that it took."""
        effect, sent, count, taken = _ChiEffect(), (_ChiSent * MostSent)(), c_uint8(), _ChiSent()
        action = _action_of(step, agent, line, kind, slot, word, value)
        _check(self._calls.chi_slice_step(byref(self._handle), byref(action), byref(effect), sent, byref(count),
                                          byref(taken)))
        return Stepped(_effect_in(effect), tuple(map(_sent_in, sent[:count.value])), _sent_in(taken))

    def refusal(self, step: Step, agent: int, line: int, kind: Kind = Kind.ReadNotSharedDirty, slot: int = 0,
                word: int = 0, value: int = 0) -> Answer:
        """What `act` would answer: Answer.OK, or the refusal. Nothing is done."""
        action = _action_of(step, agent, line, kind, slot, word, value)
        answer = self._calls.chi_slice_refusal(byref(self._handle), byref(action))
        if answer == Answer.Closed:
            raise Closed()
        return Answer(answer)

    def enabled(self, agent: int, line: int) -> List[Action]:
        """The agent's actions at the line that `act` would do: each step once, Load and Store of word 0 with value 0,
        Issue for each kind with the agent's lowest slot that is idle in this slice. Nothing is done. OutOfRange."""
        actions, count = (_ChiAction * MostEnabled)(), c_uint8()
        _check(self._calls.chi_slice_enabled(byref(self._handle), _byte(agent), _byte(line), actions, byref(count)))
        return [Action(Step(it.step), it.agent, it.line, Kind(it.kind), it.slot, it.word, it.value)
                for it in actions[:count.value]]

    def show(self, line: int) -> Line:
        """The line. OutOfRange where it is outside the node or in another slice."""
        shown = _ChiLine()
        _check(self._calls.chi_slice_show(byref(self._handle), _byte(line), byref(shown)))
        return _line_in(shown, self.config.agents)

    def flits(self, agent: int, line: int) -> Dict[Channel, Flit]:
        """What is in flight between the agent and the home for the line, by channel. OutOfRange as of `show`, and of the
        agent."""
        flits = _ChiFlits()
        _check(self._calls.chi_slice_flits(byref(self._handle), _byte(agent), _byte(line), byref(flits)))
        return _flits_in(flits)

    def journal(self, place: int) -> Record:
        """The load or store of a place in the journal, from 0. OutOfRange behind its end."""
        entry = _ChiRecord()
        _check(self._calls.chi_slice_journal(byref(self._handle), _within(place, 0xFFFFFFFF), byref(entry)))
        return Record(bool(entry.store), entry.agent, entry.line, entry.word, entry.value)

    def records(self) -> Iterator[Record]:
        """The loads and stores of the journal, in their order."""
        for place in itertools.count():
            try:
                yield self.journal(place)
            except OutOfRange:
                return

    def audit(self) -> Audit:
        """How many loads and stores there were, and whether each line is coherent and the journal legal, as always."""
        audit = _ChiAudit()
        _check(self._calls.chi_slice_audit(byref(self._handle), byref(audit)))
        return Audit(audit.loads, audit.stores, bool(audit.coherent))

    def copy(self) -> Slice:
        """A slice that is the same, in memory of its own: each goes on by itself. NoMemory."""
        copied = Slice.__new__(Slice)
        _Handle.__init__(copied, _ChiSlice(), self.config)
        copied.index = self.index
        _check(self._calls.chi_slice_copy(byref(copied._handle), byref(self._handle)))
        return copied

    def save(self) -> bytes:
        """The bytes of the slice (docs/SNAPSHOTS.md): no other slice has the same. NoMemory."""
        length = c_size_t()
        answer = self._calls.chi_slice_save(byref(self._handle), (c_uint8 * 1)(), 0, byref(length))
        if answer != Answer.JournalFull:
            _check(answer)
        room = (c_uint8 * length.value)()
        _check(self._calls.chi_slice_save(byref(self._handle), room, length, byref(length)))
        return bytes(room)

    @classmethod
    def load(cls, saved: bytes, agents: int = 1, lines: int = 1, slices: int = 1, entries: Sequence[int] = (1, 1),
             journal: int = 65536, index: int = 0) -> Slice:
        """The slice of these sizes and this index as it was saved. OtherVersion, OtherSize and Damaged where the bytes are
        of no such slice; OutOfRange as of an opening; NoMemory."""
        loaded = cls.__new__(cls)
        _Handle.__init__(loaded, _ChiSlice(), Config(agents, lines, slices, tuple(entries), journal))
        loaded.index = index
        room = (c_uint8 * max(len(saved), 1)).from_buffer_copy(saved or b"\0")
        _check(loaded._calls.chi_slice_load(byref(loaded._handle), byref(_config_of(loaded.config)), _byte(index), room,
                                            len(saved)))
        return loaded

    def __eq__(self, other: object) -> bool:
        """Whether the slices are the same: their sizes and index, each line with its flits, and the journal.
        `Closed` where one of them is closed, but of a slice and itself."""
        if not isinstance(other, Slice):
            return NotImplemented
        if self is other:
            return True
        equal = c_uint8()
        _check(self._calls.chi_slice_equal(byref(self._handle), byref(other._handle), byref(equal)))
        return bool(equal.value)


class Node(_Handle):
    """A whole node on one thread: its slices, its tracker and its requesters, by the calls of "A requester and its calls"
    in docs/PROTOCOL.md.

    It opens in its opening state. OutOfRange where a size is outside "Limits" of docs/PROTOCOL.md; NoMemory."""

    def __init__(self, agents: int = 1, lines: int = 1, slices: int = 1, entries: Sequence[int] = (1, 1),
                 journal: int = 65536):
        super().__init__(_ChiNode(), Config(agents, lines, slices, tuple(entries), journal))
        _check(self._calls.chi_node_open(byref(self._handle), byref(_config_of(self.config))))

    def _close(self) -> int:
        return self._calls.chi_node_close(byref(self._handle))

    def arrive(self, agent: int, line: int) -> Arrival:
        """The agent's request in flight at the line arrives: it is admitted with an entry, or retried where each of its
        type is claimed. OutOfRange; NoFlit where none is in flight."""
        arrival = _ChiArrival()
        _check(self._calls.chi_node_arrive(byref(self._handle), _byte(agent), _byte(line), byref(arrival)))
        return _arrival_in(arrival)

    def step(self, step: Step, agent: int, line: int, kind: Kind = Kind.ReadNotSharedDirty, slot: int = 0, word: int = 0,
             value: int = 0) -> Served:
        """Does an action, and tells what it gives and where the entry of a completed request went. Refused as "A
        requester and its calls" of docs/PROTOCOL.md says; OutOfRange also of Admit and Retry, which are `arrive`'s."""
        effect, release = _ChiEffect(), _ChiRelease()
        action = _action_of(step, agent, line, kind, slot, word, value)
        _check(self._calls.chi_node_step(byref(self._handle), byref(action), byref(effect), byref(release)))
        return Served(_effect_in(effect), _release_in(release))

    def arrive_flits(self, agent: int, line: int) -> ArrivalFlits:
        """The agent's request in flight at the line arrives as by `arrive`, and what the arrival sent and took is told:
        the request, and the RetryAck where it was retried."""
        arrival, sent, count, taken = _ChiArrival(), (_ChiSent * MostSent)(), c_uint8(), _ChiSent()
        _check(self._calls.chi_node_arrive_flits(byref(self._handle), _byte(agent), _byte(line), byref(arrival), sent,
                                                 byref(count), byref(taken)))
        return ArrivalFlits(_arrival_in(arrival), tuple(map(_sent_in, sent[:count.value])), _sent_in(taken))

    def step_flits(self, step: Step, agent: int, line: int, kind: Kind = Kind.ReadNotSharedDirty, slot: int = 0,
                   word: int = 0, value: int = 0) -> ServedFlits:
        """Does an action as `step` does it, and tells also the flits that it sent, and the one that it took."""
        effect, release, sent, count, taken = _ChiEffect(), _ChiRelease(), (_ChiSent * MostSent)(), c_uint8(), _ChiSent()
        action = _action_of(step, agent, line, kind, slot, word, value)
        _check(self._calls.chi_node_step_flits(byref(self._handle), byref(action), byref(effect), byref(release), sent,
                                               byref(count), byref(taken)))
        return ServedFlits(_effect_in(effect), _release_in(release), tuple(map(_sent_in, sent[:count.value])),
                           _sent_in(taken))

    def see(self, agent: int) -> Tuple[int, ...]:
        """The agent looks at what is promised to it: the seen credits by type. OutOfRange."""
        credits = _ChiCredits()
        _check(self._calls.chi_node_see(byref(self._handle), _byte(agent), byref(credits)))
        return tuple(credits.seen[:len(self.config.entries)])

    def give_back(self, agent: int, credit: int) -> Release:
        """The agent gives a seen credit of the type back, for a request that it cancelled. OutOfRange; NoCredit."""
        release = _ChiRelease()
        _check(self._calls.chi_node_give_back(byref(self._handle), _byte(agent), _byte(credit), byref(release)))
        return _release_in(release)

    def tend(self, agent: int, credit: int) -> Release:
        """The agent claims a free entry of the type for whoever is owed one, and releases it: NotReleased where nobody
        was seen owed one or none was free. OutOfRange."""
        release = _ChiRelease()
        _check(self._calls.chi_node_tend(byref(self._handle), _byte(agent), _byte(credit), byref(release)))
        return _release_in(release)

    def show(self, line: int) -> Line:
        """The line. OutOfRange."""
        shown = _ChiLine()
        _check(self._calls.chi_node_show(byref(self._handle), _byte(line), byref(shown)))
        return _line_in(shown, self.config.agents)

    def flits(self, agent: int, line: int) -> Dict[Channel, Flit]:
        """What is in flight between the agent and the home for the line, by channel. OutOfRange."""
        flits = _ChiFlits()
        _check(self._calls.chi_node_flits(byref(self._handle), _byte(agent), _byte(line), byref(flits)))
        return _flits_in(flits)

    def totals(self) -> Totals:
        """How many entries of each type are free, in hand and promised, and how many credits are owed."""
        totals = _ChiTotals()
        _check(self._calls.chi_node_totals(byref(self._handle), byref(totals)))
        types = len(self.config.entries)
        return Totals(*(tuple(it[:types]) for it in (totals.free, totals.hand, totals.promised, totals.owed)))

    def agrees(self) -> bool:
        """Whether each requester agrees with each slice, as always."""
        answer = self._calls.chi_node_agrees(byref(self._handle))
        if answer == Answer.NotOpen:
            return False
        _check(answer)
        return True

    def audit(self) -> Audit:
        """How many loads and stores there were, and whether each line is coherent and each journal legal, as always."""
        audit = _ChiAudit()
        _check(self._calls.chi_node_audit(byref(self._handle), byref(audit)))
        return Audit(audit.loads, audit.stores, bool(audit.coherent))

    def slice(self, line: int) -> Slice:
        """The slice of a line, without tracker and requesters, in memory of its own: each goes on by itself. NoMemory."""
        copied = Slice.__new__(Slice)
        _Handle.__init__(copied, _ChiSlice(), self.config)
        copied.index = line % self.config.slices
        _check(self._calls.chi_node_slice(byref(copied._handle), byref(self._handle), _byte(line)))
        return copied

    def has_slice(self, line: int, slice: Slice) -> bool:
        """Whether the slice of a line is the same as this one."""
        equal = c_uint8()
        _check(self._calls.chi_node_slice_equal(
            byref(self._handle), _byte(line), byref(slice._handle), byref(equal)))
        return bool(equal.value)


class Monitor(_Handle):
    """A monitor of the lines of a node, which is given the flits that were observed, in the order in which their senders put
    them on their ports, and finds the first that no run of the model sends.

    `kept` flits of each line are kept, to be explained; with 0 none are, and it takes flits without an end. `profile` is 0,
    with two credit types, or 1, with four. OutOfRange where there aren't 1 to 8 agents and 1 to 64 lines, or more than
    65,536 are to be kept, or no such profile; NoMemory."""

    def __init__(self, agents: int = 1, lines: int = 1, kept: int = 0, profile: int = 0):
        super().__init__(_ChiMonitor(), Config(agents, lines, 1, (1, 1), 65536))
        most, profile = _within(kept, 0xFFFFFFFF), _byte(profile)
        _check(self._calls.chi_monitor_open(byref(self._handle), profile, _byte(agents), _byte(lines), most))

    def _close(self) -> int:
        return self._calls.chi_monitor_close(byref(self._handle))

    def flit(self, line: int, agent: int, flit: Flit) -> None:
        """Takes the next flit of the line, between the agent and the home. Fault where no run of the model sends it behind
        those before, and of each behind that; OutOfRange of the line, the agent and a number of no enum; JournalFull where
        as many flits of the line are kept as may be; NoMemory, behind which nothing is taken."""
        sent = _ChiSent(agent=_byte(agent), flit=_flit_of(flit))
        _check(self._calls.chi_monitor_flit(byref(self._handle), _byte(line), byref(sent)))

    def fault(self) -> Optional[FirstFault]:
        """The first fault, if there is one."""
        told = _ChiFault()
        _check(self._calls.chi_monitor_fault(byref(self._handle), byref(told)))
        if not told.reason:
            return None
        return FirstFault(Reason(told.reason), told.agent, told.line, told.number, self._text())

    def _text(self) -> str:
        """Why no run of the model sends the flit of the first fault, in words."""
        room, length = (c_uint8 * 1024)(), c_size_t()
        _check(self._calls.chi_monitor_text(byref(self._handle), room, 1024, byref(length)))
        return bytes(room[:length.value]).decode()

    def end(self, line: int) -> Tuple[Open, ...]:
        """What is open of each agent at the line, behind the flits that were taken. OutOfRange of the line."""
        agents = (_ChiOpen * 8)()
        _check(self._calls.chi_monitor_end(byref(self._handle), _byte(line), agents))
        return tuple(Open(*(bool(getattr(it, name)) for name in Open._fields)) for it in agents[:self.config.agents])

    def explain(self, line: int) -> None:
        """Explains the flits that were kept of the line: actions of the model are found, and done, and send just these. Fault
        where none are found; NotKept where no flits are kept; OutOfRange; NoMemory."""
        _check(self._calls.chi_monitor_explain(byref(self._handle), _byte(line)))


class Observer(_Handle):
    """An observer of any home and any caches, which is given the flits that were seen, in the order in which their senders
    put them on their ports, and finds the first that isn't safe or that nothing explains (docs/OBSERVER.md).

    It is for so many lines of memory that flits touch, ids that are open at once, accounts of credits, requesters and homes.
    Of credits there are 2 or 4 `types`, each with its kinds of request, or, as 0, any with any kind; with `early_grants`
    monitors stand at the requesters, which may see a grant before its RetryAck; where `stores` are listed, each is given.
    OutOfRange where a size is outside its limits; NoMemory."""

    def __init__(self, lines: int = 1024, ids: int = 1024, accounts: int = 256, requesters: int = 32, homes: int = 1,
                 types: int = 0, early_grants: bool = False, stores: Stores = Stores.Hidden):
        config = ObserverConfig(lines, ids, accounts, requesters, homes, types, early_grants, stores)
        super().__init__(_ChiObserver(), config)
        self._last = 0
        sizes = [_within(it, 0xFFFFFFFF) for it in config[:3]] + [_byte(it) for it in config[3:]]
        # (255 homes may be)
        sizes[4] = homes if 0 <= homes <= 255 else 0
        _check(self._calls.chi_observer_open(byref(self._handle), byref(_ChiObserverConfig(*sizes))))

    def _close(self) -> int:
        return self._calls.chi_observer_close(byref(self._handle))

    def copy(self) -> Observer:
        """An observer that is the same, in memory of its own: each goes on by itself. NoMemory."""
        copied = Observer.__new__(Observer)
        _Handle.__init__(copied, _ChiObserver(), self.config)
        copied._last = self._last
        _check(self._calls.chi_observer_copy(byref(copied._handle), byref(self._handle)))
        return copied

    def take(self, seen: Seen) -> bool:
        """Takes the next flit; False where its line is set aside, by it or before it, and so isn't judged.

        Fault where the ids, the credits or its line don't allow it, and of each behind that; Full where there is no room for
        what it would add; OutOfRange of a number that is none of an enum's, number 0, and where something lacks: the DBID of
        a CompDBIDResp, or each word of data."""
        number = self._last + 1 if seen.number is None else seen.number
        answer = self._calls.chi_observer_take(byref(self._handle), byref(_seen_of(seen, number)))
        if answer not in (Answer.OK, Answer.SetAside):
            _check(answer)
        self._last = number
        return answer == Answer.OK

    def fault(self) -> Optional[ObserverFault]:
        """The first fault, if there is one."""
        told = _ChiObserverFault()
        _check(self._calls.chi_observer_fault(byref(self._handle), byref(told)))
        if not told.reason:
            return None
        line = told.line if told.has_line else None
        return ObserverFault(ObserverReason(told.reason), told.number, told.node, line, self._text())

    def _text(self) -> str:
        """The first fault in words, as `chihome observe` prints it of a trace whose lines have the flits' numbers."""
        return self._said(self._calls.chi_observer_text)

    def _said(self, call: Callable[..., int]) -> str:
        length = c_size_t()
        answer = call(byref(self._handle), (c_uint8 * 1)(), 0, byref(length))
        if answer != Answer.JournalFull:
            _check(answer)
        room = (c_uint8 * max(length.value, 1))()
        _check(call(byref(self._handle), room, length, byref(length)))
        return bytes(room[:length.value]).decode()

    def unjudged(self) -> Unjudged:
        """How much of what it was given isn't judged, and why, as `chihome observe` prints it."""
        told = _ChiUnjudged()
        _check(self._calls.chi_observer_unjudged(byref(self._handle), byref(told)))
        text = self._said(self._calls.chi_observer_unjudged_text)
        return Unjudged(told.flits, told.of_flits, told.lines, told.of_lines, told.accesses, told.of_accesses, text)

    def close(self, allowed: bool = False) -> None:
        """Frees it; a second close does nothing. `NothingJudged` where nothing that it took was judged, be it that it took
        nothing, and `PartlyJudged` where some wasn't: the observer is closed then too. Neither is raised where that is
        `allowed`, and none at the end of a `with` that an exception ends."""
        answer = Answer(self._close()) if self._handle.at else Answer.OK
        if not allowed:
            _check(answer)

    def __exit__(self, kind, *_) -> None:
        self.close(allowed=kind is not None)

    def counts(self) -> ObserverCounts:
        """How much it has seen, and what it holds."""
        told = _ChiObserverCounts()
        _check(self._calls.chi_observer_counts(byref(self._handle), byref(told)))
        return ObserverCounts(*(getattr(told, it) for it in ObserverCounts._fields))
