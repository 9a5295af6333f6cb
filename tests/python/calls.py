#!/usr/bin/env python3
"""Tests the classes of library/chihome.py against the library: tables of calls, each with what it gives or the exception that
it raises; then closing, copies, threads, and numbers that no field has a place for.

Usage: tests/python/calls.py

The status is 0 where nothing failed.
"""

import copy
import gc
import pickle
import sys
import threading
import unittest
from pathlib import Path

TOP = Path(__file__).resolve().parents[2]
sys.dont_write_bytecode = True
sys.path[:0] = [str(TOP / "library"), str(TOP / "tests/python")]
import chihome  # noqa: E402
from chihome import (Answer, Arrival, Channel, Closed, Copy, Damaged, Effect, Fault, Flit, Full, JournalFull,  # noqa: E402
                     Kind, LineBusy, Message, MustAccept, NoCredit, NoFlit, NothingJudged, NothingPending, NotKept,
                     NotWaiting, ObserverReason, Opcode, OtherSize, OtherVersion, OutOfRange, PartlyJudged, Pending, Phase,
                     Reason, Record, Release, ReleaseForm, Request, Resp, Sent, Serving, ServingForm, State, Step, Stores,
                     Unjudged, WrongState)
from observed import flit_in  # noqa: E402

NOTHING, NO_WORDS, MOST = Effect(), (0,) * 8, (1 << 64) - 1
NOT_RELEASED = Release(ReleaseForm.NotReleased)


def call(name, *words, **fields):
    """A call of what is tested."""
    return lambda it: getattr(it, name)(*words, **fields)


def act(*action):
    return call("act", *action)


def shown(*fields, line=0):
    """Some of what is shown of a line."""
    return lambda it: tuple(getattr(it.show(line), field) for field in fields)


def read(agent, kind=Kind.ReadShared, slot=0):
    """The rows of an agent's request for line 0, up to its start."""
    return [(act(Step.Issue, agent, 0, kind, slot), NOTHING), (act(Step.Admit, agent, 0), NOTHING),
            (act(Step.Start, agent, 0), NOTHING)]


def request(agent, kind=Kind.ReadShared, slot=0):
    return Sent(agent, Channel.Req, Flit(Message.Request, kind, slot, True))


DATA = Sent(0, Channel.DatDown, Flit(Message.CompData_UC, words=NO_WORDS))
ACK = Sent(0, Channel.RspUp, Flit(Message.CompAck))
OWN = [*read(0), (act(Step.RecvData, 0, 0), NOTHING), (act(Step.RecvAck, 0, 0), Effect(completed=0))]

# Slices of these sizes: calls, and what each gives or raises.
SLICES = [
    ({"agents": 2, "lines": 1}, [
        (act(Step.Issue, 0, 0, Kind.ReadShared, 3), NOTHING),
        (lambda it: {channel: str(flit) for channel, flit in it.flits(0, 0).items()}, {Channel.Req: "ReadShared/3/allow"}),
        (shown("pending"), ((Request(Phase.Sent, Kind.ReadShared, 3), None),)),
        (act(Step.Admit, 0, 0), NOTHING),
        (shown("waiting"), ((Request(Phase.Waiting, Kind.ReadShared, 3), None),)),
        (act(Step.Start, 0, 0), NOTHING),
        (shown("serving"), (Serving(ServingForm.AwaitingCompAck, 0, None, 3),)),
        (shown("named", "awaited", "unique", "owner"), ({0}, set(), True, None)),
        (call("flits", 0, 0), {Channel.DatDown: DATA.flit}),
        (act(Step.RecvData, 0, 0), NOTHING),
        (act(Step.RecvAck, 0, 0), Effect(completed=3)),
        (act(Step.Store, 0, 0, 0, 0, 7, MOST), NOTHING),
        (act(Step.Load, 0, 0, 0, 0, 7), Effect(value=MOST)),
        (lambda it: it.show(0).copies[0], Copy(State.UD, (0,) * 7 + (MOST,))),
        (shown("last", "memory"), ((0,) * 7 + (MOST,), NO_WORDS)),
        (lambda it: list(it.records()), [Record(True, 0, 0, 7, MOST), Record(False, 0, 0, 7, MOST)]),
    ]),
    ({"agents": 3, "lines": 1}, [
        *OWN, (act(Step.Store, 0, 0, 0, 0, 0, 5), NOTHING), *read(2),
        (shown("serving", "named", "awaited", "owner"), (Serving(ServingForm.Snooping, 2, Kind.ReadShared, 0), {0}, {0}, None)),
        (act(Step.RecvSnp, 0, 0), NOTHING),
        (call("flits", 0, 0), {Channel.DatUp: Flit(Message.SnpRespData_SD, words=(5,) + (0,) * 7)}),
        (act(Step.RecvSnpResp, 0, 0), NOTHING),
        (lambda it: (it.show(0).owner, it.show(0).copies[0].state), (0, State.SD)),
    ]),
    ({"agents": 1, "lines": 1, "entries": (1, 1, 1, 1)}, [
        (act(Step.Issue, 0, 0, Kind.ReadUnique), NOTHING), (act(Step.Retry, 0, 0), NOTHING),
        (call("flits", 0, 0), {Channel.RspDown: Flit(Message.RetryAck, credit=2)}),
        (lambda it: str(it.flits(0, 0)[Channel.RspDown]), "RetryAck/2"),
        (act(Step.RecvRetry, 0, 0), NOTHING), (lambda it: it.show(0).pending[0].phase, Phase.Retried),
        (act(Step.Resend, 0, 0), NOTHING), (lambda it: str(it.flits(0, 0)[Channel.Req]), "ReadUnique/0/credit"),
        (act(Step.Retry, 0, 0), MustAccept),
    ]),
    ({"agents": 2, "lines": 2, "slices": 2, "index": 1, "journal": 1}, [
        (call("refusal", Step.Issue, 0, 1), Answer.OK), (act(Step.Issue, 0, 1), NOTHING), (act(Step.Issue, 0, 1), Pending),
        (call("refusal", Step.Admit, 0, 1), Answer.OK), (call("show", 0), OutOfRange), (call("flits", 2, 1), OutOfRange),
        *((call("journal", place), OutOfRange) for place in (0, 1 << 32, -1)),
        (act(Step.Store, 0, 1, 0, 0, 0, 1 << 64), ValueError),
    ]),
    ({"agents": 2, "lines": 1, "journal": 1}, [
        *read(0), (act(Step.RecvData, 0, 0), NOTHING), (act(Step.Load, 0, 0), Effect(value=0)),
        (act(Step.Load, 0, 0), JournalFull), *read(1)[:2], (act(Step.Start, 1, 0), LineBusy),
    ]),
    ({"agents": 3, "lines": 1}, [
        (call("step", Step.Issue, 0, 0, Kind.ReadUnique), (NOTHING, (request(0, Kind.ReadUnique),), None)),
        (call("step", Step.Admit, 0, 0), (NOTHING, (), request(0, Kind.ReadUnique))),
        (call("step", Step.RecvData, 0, 0), NoFlit),
        (lambda it: it.step(Step.Start, 0, 0).sent, (DATA,)),
        (call("step", Step.RecvData, 0, 0), (NOTHING, (ACK,), DATA)),
        (call("step", Step.RecvAck, 0, 0), (Effect(completed=0), (), ACK)),
    ]),
    ({"agents": 2, "lines": 1}, [
        (lambda it: {it.refusal(*action) for action in it.enabled(0, 0)}, {Answer.OK}),
        (lambda it: chihome.Action(Step.Issue, 0, 0, Kind.ReadUnique) in it.enabled(0, 0), True),
        (act(Step.Issue, 0, 0, Kind.ReadUnique), NOTHING),
        (lambda it: [action.step for action in it.enabled(0, 0)], [Step.Admit, Step.Retry]), (call("enabled", 2, 0), OutOfRange),
    ]),
    ({"agents": 1, "lines": 1, "journal": 0}, [
        *OWN, *[(act(Step.Store, 0, 0, 0, 0, 0, value), NOTHING) for value in range(70_000)],
        (act(Step.Load, 0, 0), Effect(value=69_999)), (call("audit"), chihome.Audit(1, 70_000, True)),
        (lambda it: list(it.records()), []),
    ]),
]

# Actions of a slice of line 1 of two that are refused, each without a change.
REFUSED = [
    (WrongState, (Step.Load, 0, 1)), (NoFlit, (Step.RecvAck, 0, 1)), (NotWaiting, (Step.Start, 0, 1)),
    (NothingPending, (Step.Resend, 0, 1)), (OutOfRange, (Step.Load, 0, 0)), (OutOfRange, (Step.Load, 2, 1)),
    (OutOfRange, (17, 0, 1)), (OutOfRange, (Step.Issue, 0, 1, 8)), (OutOfRange, (Step.Issue, 256, 1)),
    (OutOfRange, (Step.Load, -1, 1)), (OutOfRange, (Step.Load, 0, 257)), (OutOfRange, (256 + Step.Issue, 0, 1)),
    (OutOfRange, (Step.Issue, 0, 1, Kind.Evict, 256))]

WRONG_SIZES = [
    {"agents": 0}, {"agents": 9}, {"agents": 257}, {"lines": 65}, {"lines": 2, "slices": 3}, {"entries": (0, 1)},
    {"entries": (1 << 16, 1)}, {"entries": (64, 1)}, {"entries": (1, 1, 1, 0)}, {"journal": 65537}, {"journal": 1 << 32 | 1},
    {"index": 1}, {"index": 256}]

RETRY = Sent(1, Channel.RspDown, Flit(Message.RetryAck, credit=0))
GRANTED = (Effect(completed=0), Release(ReleaseForm.Granted, 1))
# Nodes of two agents and one entry of each type.
NODES = [
    ({"entries": (1, 1)}, [
        (call("step", Step.Issue, 0, 0, Kind.ReadShared), (NOTHING, NOT_RELEASED)), (call("arrive", 0, 0), Arrival(entry=0)),
        (call("step", Step.Issue, 1, 0, Kind.ReadShared), (NOTHING, NOT_RELEASED)), (call("arrive", 1, 0), Arrival(credit=0)),
        (call("totals"), chihome.Totals((0, 1), (1, 0), (0, 0), (1, 0))),
        (lambda it: str(it.flits(1, 0)[Channel.RspDown]), "RetryAck/0"),
        (call("step", Step.Start, 0, 0), (NOTHING, NOT_RELEASED)), (call("step", Step.RecvData, 0, 0), (NOTHING, NOT_RELEASED)),
        (call("step", Step.RecvAck, 0, 0), GRANTED), (call("step", Step.RecvRetry, 1, 0), (NOTHING, NOT_RELEASED)),
        (call("step", Step.Resend, 1, 0), NoCredit), (call("see", 1), (1, 0)),
        (call("step", Step.Resend, 1, 0), (NOTHING, NOT_RELEASED)), (call("arrive", 1, 0), Arrival(entry=0)),
        (call("tend", 0, 0), NOT_RELEASED), (call("give_back", 1, 0), NoCredit),
        (call("step", Step.Load, 0, 0), (Effect(value=0), NOT_RELEASED)), (call("agrees"), True),
        (call("audit"), chihome.Audit(1, 0, True)), (shown("named"), ({0},)),
    ]),
    ({"entries": (1, 1)}, [
        *((call("step_flits", Step.Issue, agent, 0, Kind.ReadShared), (NOTHING, NOT_RELEASED, (request(agent),), None))
          for agent in (0, 1)),
        (call("arrive_flits", 0, 0), (Arrival(entry=0), (), request(0))),
        (call("arrive_flits", 1, 0), (Arrival(credit=0), (RETRY,), request(1))),
        (lambda it: it.step_flits(Step.Start, 0, 0).sent, (DATA,)), (lambda it: it.step_flits(Step.RecvData, 0, 0).taken, DATA),
        (call("step_flits", Step.RecvAck, 0, 0), (*GRANTED, (), ACK)), (call("arrive_flits", 0, 0), NoFlit),
        (call("step_flits", Step.Retry, 1, 0), OutOfRange),
    ]),
    ({"entries": (1, 1, 1, 1)}, [
        (call("see", 0), (0, 0, 0, 0)), (call("arrive", 0, 0), NoFlit), (call("arrive", 2, 0), OutOfRange),
        (call("arrive", 0, 256), OutOfRange), (call("step", Step.Admit, 0, 0), OutOfRange), (call("see", 2), OutOfRange),
        (call("give_back", 0, 4), OutOfRange), (call("tend", 256, 0), OutOfRange), (call("show", 1), OutOfRange),
        (call("flits", 0, 1), OutOfRange),
    ]),
]


def sends(*steps):
    """Rows of a monitor that is given the flits which these steps of agent 0 send."""
    with chihome.Slice(agents=2, lines=1) as model:
        flits = [sent for step in steps for sent in model.step(step, 0, 0, Kind.ReadUnique).sent]
    return [(call("flit", 0, sent.agent, sent.flit), None) for sent in flits]


def first(*fields):
    """Some of the first fault."""
    return lambda it: tuple(getattr(it.fault(), field) for field in fields)


UNIQUE, SNOOP = Flit(Message.Request, Kind.ReadUnique, 0, True), Flit(Message.SnpUnique)
WHOLE = (Step.Issue, Step.Admit, Step.Start, Step.RecvData, Step.RecvAck)
# Monitors of two agents and one line.
MONITORS = [
    ({"kept": 16}, [
        *sends(*WHOLE[:3]), (lambda it: (it.end(0)[0].completion, it.end(0)[0].request, any(it.end(0)[1])), (True, False, False)),
        *sends(*WHOLE)[2:], (call("fault"), None), (lambda it: any(it.end(0)[0]), False), (call("explain", 0), None),
        *[(call("flit", 0, 1, Flit(Message.SnpRespData_SD, words=(1,) * 8)), Fault)] * 2,
        (first("reason", "agent", "line", "number"), (Reason.NothingToAnswer, 1, 0, 3)),
        (first("text"), ("CHI: no snoop to it is unanswered",)), (call("explain", 0), None),
    ]),
    ({}, [
        *sends(*WHOLE[:3]), (call("flit", 0, 1, UNIQUE), None), (call("flit", 0, 0, SNOOP), Fault),
        (first("reason", "number", "text"), (Reason.HomeAwaits, 3, "CHI: the home awaits the CompAck of agent 0 to the completion "
                                             "of flit 1 before it snoops for another request")),
    ]),
    ({}, [
        *sends(*WHOLE), (call("flit", 0, 1, UNIQUE), None), (call("flit", 0, 0, SNOOP), None),
        (call("flit", 0, 0, Flit(Message.SnpResp_I)), None),
        (call("flit", 0, 1, Flit(Message.CompData_UC, words=(0, 0, 7) + (0,) * 5)), Fault),
        (first("reason", "text"), (Reason.OtherWords, "CHI: word 2 is 7, and its sender has 0 since flit 1")),
    ]),
    ({"profile": 1}, [(call("flit", 0, 0, UNIQUE), None), (call("flit", 0, 0, Flit(Message.RetryAck, credit=2)), None)]),
    ({}, [(call("flit", 0, 0, UNIQUE), None), (call("flit", 0, 0, Flit(Message.RetryAck, credit=2)), Fault),
          (first("reason"), (Reason.OtherCredit,))]),
    ({}, [
        (call("flit", 1, 0, UNIQUE), OutOfRange), (call("flit", 0, -1, UNIQUE), OutOfRange), (call("end", 1), OutOfRange),
        (call("flit", 0, 0, Flit(Message.NoMessage)), OutOfRange), (call("explain", 0), NotKept),
        (call("flit", 0, 0, Flit(Message.CompData_UC, words=(1 << 64,) * 8)), ValueError),
        (call("flit", 0, 0, Flit(Message.Request, Kind.Evict, 0, True)), Fault),
    ]),
]


def seen(line, **fields):
    """The flit of a line of a trace, without a number of its own."""
    return flit_in(line, None, True)._replace(**fields)


def take(line, wanted=True, **fields):
    """A row of an observer that is given the flit of a line."""
    return call("take", seen(line, **fields)), wanted


def reads(node, kind="ReadShared", resp="SC", dbid=11):
    return [take(f"REQ {node} 40 1 {kind} 1040 - - 1 - -"), take(f"DAT 40 {node} 1 CompData - {resp} {dbid} - - 0,0,0,0,0,0,0,0"),
            take(f"RSP {node} 40 {dbid} CompAck - - - - - -")]


def counts(**wanted):
    """A row of an observer's counts."""
    return lambda it: {name: getattr(it.counts(), name) for name in wanted}, wanted


GOOD = "REQ 8 40 1 ReadShared 1040 - - 1 - -"
OWNED = [*reads(8, "ReadUnique", "UC"), take("REQ 9 40 1 ReadUnique 1040 - - 1 - -"), take("SNP 40 8 5 SnpUnique 1040 - - - - -")]
DIRTY = "DAT 8 40 5 SnpRespData - I_PD - - - 0,7,0,0,0,0,0,0"
# Observers: calls, and the exception at their end.
OBSERVERS = [
    ({"lines": 8, "ids": 8, "accounts": 4, "requesters": 4}, [
        (lambda it: it.config, chihome.ObserverConfig(8, 8, 4, 4)),
        *(take(GOOD, OutOfRange, **wrong) for wrong in (
            {"opcode": 0}, {"opcode": 79}, {"opcode": 300}, {"number": 0}, {"allow_retry": False, "credit": 16},
            {"opcode": Opcode.RetryAck, "credit": 16}, {"opcode": Opcode.Comp, "resp": 10}, {"opcode": Opcode.CompDBIDResp},
            {"opcode": Opcode.CompData, "resp": Resp.UC})),
        *(take(GOOD, ValueError, **wrong) for wrong in (
            {"source": 1 << 16}, {"txn": -1}, {"address": 1 << 64}, {"opcode": Opcode.CompData, "words": (1 << 64,)},
            {"opcode": Opcode.CompData, "words": (1,) * 9})),
        (call("fault"), None), counts(flits=0, ids=0),
    ], NothingJudged),
    ({"lines": 1, "accounts": 1, "requesters": 1}, [
        *reads(8, "ReadShared", "UC"), take("REQ 8 40 1 ReadShared 2000 - - 1 - -", Full),
        take("REQ 9 40 1 ReadShared 1040 - - 1 - -", Full), take("REQ 8 41 1 ReadUnique 1040 - - 1 - -", Full),
        take("REQ 8 40 1 WriteEvictFull 1040 - - 1 - -"),
    ], None),
    ({"ids": 1}, [take(GOOD), take("REQ 9 40 1 ReadShared 1040 - - 1 - -", Full)], None),
    ({}, [
        *reads(8), *reads(9, dbid=12), take("REQ 8 40 3 CleanUnique 1048 - - 1 - -"),
        *(take("RSP 40 8 3 Comp - UC 3 - - -", Fault, number=number) for number in (20, 21)),
        (first("reason", "number", "node", "line"), (ObserverReason.OtherCopy, 20, 8, 0x1040)),
        (first("text"), ("line 20: Comp_UC to node 8 at 1040: the copy of node 9 was last told to be SC, by line 5; allowed: "
                         "RetryAck, SnpOnce, SnpClean, SnpShared, SnpNotSharedDirty, SnpCleanShared, SnpUnique, "
                         "SnpCleanInvalid",)),
        counts(flits=7, requests=1),
    ], None),
    ({}, [
        *OWNED, take("DAT 8 40 5 SnpRespData - I_PD - - - 6,0,0,0,0,0,0,9"),
        take("DAT 40 9 1 CompData - UD_PD 1 - - 5,0,0,0,0,0,0,9", Fault),
        (first("reason", "node"), (ObserverReason.OtherWords, 9)),
    ], None),
    ({"types": 4}, [take("REQ 8 40 1 ReadUnique 1040 - - 1 - -"), take("RSP 40 8 1 RetryAck - - - - 1 -", Fault),
                    (first("reason", "node"), (ObserverReason.OtherType, 8))], None),
    ({}, [take("RSP 8 40 7 CompAck - - - - - -", Fault),
          (first("reason", "node", "line"), (ObserverReason.NotOpen, 8, None)),
          (first("text"), ("line 1: CompAck of node 8: no completion with DBID 7 of it is open",))], NothingJudged),
    ({"stores": Stores.Hidden}, [*OWNED, take(DIRTY)], None),
    ({"stores": Stores.Listed}, [*OWNED, take(DIRTY, Fault)], None),
    ({}, [
        *reads(8, "ReadShared", "UC"), (call("unjudged"), Unjudged(0, 3, 0, 1, 0, 0, "")),
        take("REQ 9 40 1 AtomicLoad 1040 - - 1 - -", False), take("REQ 9 40 2 ReadShared 1040 - - 1 - -", False),
        take("REQ 9 40 3 ReadShared 2040 - - 1 - -"), take("CPU 9 - - Load 1048 - - - - 5", False),
        counts(aside=1, flits=6, lines=2, accesses=1, is_complete=False),
        (call("unjudged"), Unjudged(
            2, 6, 1, 2, 1, 1, "not judged: 2 of 6 flits, on 1 of 2 cache lines\n"
            "AtomicLoad: 1 cache lines, the first 1040 by trace line 4\nnot judged: 1 of 1 loads and stores\n")),
    ], PartlyJudged),
    ({}, [
        take("REQ 8 40 1 ReadUnique 1040 - - 1 - -"), take("DAT 40 8 1 CompData - UC 2 - - 1,x,3,x,x,x,x,x"),
        take("REQ 9 40 4 ReadShared 2000 - - 1 - -"), take("RSP 40 9 4 RetryAck - - - - 3 -"),
        take("RSP 40 9 - PCrdGrant - - - - 3 -"), take("SNP 40 9 6 SnpShared 3000 - - - - -"),
        counts(requests=1, completions=1, snoops=1, retried=1, unsettled=1, requesters=2, homes=1, ids=4, accounts=1),
    ], None),
]


class Calls(unittest.TestCase):
    def walk(self, model, rows):
        for row, (made, wanted) in enumerate(rows):
            with self.subTest(row=row):
                if isinstance(wanted, type):
                    self.assertRaises(wanted, made, model)
                else:
                    self.assertEqual(made(model), wanted)

    def test_slices(self):
        for sizes, rows in SLICES:
            with self.subTest(**sizes), chihome.Slice(**sizes) as model:
                self.walk(model, rows)

    def test_refused(self):
        with chihome.Slice(agents=2, lines=2, slices=2, index=1) as model:
            before = model.show(1)
            for refused, action in REFUSED:
                with self.subTest(action=action), self.assertRaises(refused) as caught:
                    model.act(*action)
                self.assertEqual(model.refusal(*action), refused.number)
                self.assertEqual((caught.exception.number, caught.exception.name), (refused.number, refused.__name__))
            self.assertEqual(model.show(1), before)
        self.assertTrue(str(caught.exception).startswith("refused 10 OutOfRange"))
        self.assertTrue(issubclass(WrongState, chihome.Refused) and issubclass(chihome.NoMemory, MemoryError))

    def test_sizes(self):
        for sizes in WRONG_SIZES:
            with self.subTest(**sizes), self.assertRaises(OutOfRange):
                chihome.Slice(**sizes)
        for entries in ((1,), (1, 1, 1), ()):
            self.assertRaises(ValueError, chihome.Slice, entries=entries)
        self.assertRaises(OutOfRange, chihome.Node, agents=0)
        for sizes in ({"agents": 9}, {"kept": 1 << 40}, {"profile": 2}):
            self.assertRaises(OutOfRange, chihome.Monitor, **sizes)
        for sizes in ({"lines": 0}, {"ids": 0}, {"accounts": 0}, {"requesters": 0}, {"homes": 0}, {"requesters": 33},
                      {"lines": 16_777_217}, {"ids": 1 << 40}, {"accounts": -1}, {"homes": 256}, {"types": 1}, {"types": 8},
                      {"early_grants": 2}, {"stores": 2}, {"stores": -1}):
            self.assertRaises(OutOfRange, chihome.Observer, **sizes)

    def test_nodes(self):
        for sizes, rows in NODES:
            with self.subTest(**sizes), chihome.Node(agents=2, lines=1, **sizes) as model:
                self.walk(model, rows)

    def test_monitors(self):
        for sizes, rows in MONITORS:
            with self.subTest(**sizes), chihome.Monitor(agents=2, lines=1, **sizes) as model:
                self.walk(model, rows)

    def test_observers(self):
        for sizes, rows, refused in OBSERVERS:
            with self.subTest(**sizes):
                model = chihome.Observer(**sizes)
                self.walk(model, rows)
                self.walk(model, [(call("close"), refused), (call("close"), None), (lambda it: it.closed, True)])

    def test_closed(self):
        closed = [chihome.Slice(), chihome.Node(), chihome.Monitor(), chihome.Observer()]
        for model in closed[:3]:
            model.close()
            model.close()
        closed[3].close(allowed=True)
        model, node, monitor, observer = closed
        calls = [act(Step.Load, 0, 0), call("refusal", Step.Load, 0, 0), call("show", 0), call("flits", 0, 0), call("journal", 0),
                 call("copy"), call("save"), lambda it: it == chihome.Slice()]
        self.walk(model, [(it, Closed) for it in calls])
        calls = [call("totals"), call("agrees"), call("audit"), call("see", 0), call("arrive", 0, 0), call("slice", 0),
                 call("arrive_flits", 0, 0), call("step_flits", Step.Load, 0, 0)]
        self.walk(node, [(it, Closed) for it in calls])
        self.walk(monitor, [(call("fault"), Closed), (call("explain", 0), Closed)])
        calls = [call("take", seen(GOOD)), call("fault"), call("counts"), call("unjudged"), call("copy")]
        self.walk(observer, [(it, Closed) for it in calls])
        self.assertTrue(all(it.closed for it in closed))


class Handles(unittest.TestCase):
    def test_end_without_close(self):
        for _ in range(3):
            chihome.Slice()
            chihome.Node()
        gc.collect()
        with self.assertRaises(RuntimeError), chihome.Slice() as model:
            raise RuntimeError
        with self.assertRaises(ZeroDivisionError), chihome.Observer() as observer:
            _ = 1 / 0
        self.assertTrue(model.closed and observer.closed)
        with self.assertRaises(NothingJudged), chihome.Observer():
            pass

    def test_no_copies(self):
        with chihome.Slice() as model, chihome.Node() as node:
            for made in (lambda: pickle.dumps(model), lambda: copy.copy(model), lambda: copy.deepcopy(node), lambda: hash(model)):
                self.assertRaises(TypeError, made)

    def test_threads(self):
        with chihome.Slice(agents=8, lines=64) as model:
            each = [threading.Thread(target=lambda: [model.refusal(Step.Load, 0, 0) for _ in range(2000)]) for _ in range(4)]
            for it in each:
                it.start()
            for it in each:
                it.join()
            self.assertEqual(list(model.records()), [])

    def test_copies(self):
        with chihome.Slice(agents=2, lines=2, slices=2, index=1) as model, chihome.Slice(agents=2, lines=2) as other:
            model.act(Step.Issue, 0, 1)
            with model.copy() as it:
                self.assertEqual((it.index, it.config), (1, model.config))
                self.assertTrue(it == model and model == model and not it != model)
                model.act(Step.Admit, 0, 1)
                self.assertTrue(it != model and Channel.Req in it.flits(0, 1) and not model.flits(0, 1))
                it.act(Step.Admit, 0, 1)
                self.assertTrue(it == model and it != other and it != 1)
        with chihome.Observer(lines=2, ids=4, accounts=1, requesters=2) as observer:
            observer.take(seen("REQ 8 40 1 ReadUnique 1040 - - 1 - -"))
            with observer.copy() as it:
                self.assertEqual((it.config, it.counts()), (observer.config, observer.counts()))
                it.take(seen("REQ 9 40 1 ReadShared 1040 - - 1 - -"))
                self.assertEqual((observer.counts().flits, it.counts().flits), (1, 2))
                self.assertRaises(Fault, observer.take, seen("REQ 8 40 1 ReadUnique 1080 - - 1 - -"))
                self.assertIsNone(it.fault())
                with observer.copy() as failed:
                    self.assertEqual(failed.fault(), observer.fault())

    def test_slices_of_nodes(self):
        with chihome.Node(agents=2, lines=2, slices=2, journal=0) as node:
            node.step(Step.Issue, 0, 1)
            with node.slice(1) as it, node.slice(0) as other:
                self.assertEqual((it.index, other.index, it.config), (1, 0, node.config))
                self.assertTrue(node.has_slice(1, it) and not node.has_slice(1, other) and node.has_slice(2, other))
                node.arrive(0, 1)
                self.assertFalse(node.has_slice(1, it))
                it.act(Step.Admit, 0, 1)
                self.assertTrue(node.has_slice(1, it))

    def test_saved(self):
        sizes = {"agents": 2, "lines": 2, "slices": 2}
        with chihome.Slice(**sizes, index=1) as model:
            model.act(Step.Issue, 0, 1)
            saved = model.save()
            with chihome.Slice.load(saved, **sizes, index=1) as it:
                self.assertEqual((it.index, it.config, it.save()), (1, model.config, saved))
                self.assertTrue(it == model and Channel.Req in it.flits(0, 1))
        self.assertRaises(OtherSize, chihome.Slice.load, saved, **sizes)
        self.assertRaises(OutOfRange, chihome.Slice.load, saved, **sizes, index=2)
        for wrong in (b"", saved[:-1], saved[:-1] + bytes([saved[-1] ^ 1])):
            self.assertRaises(Damaged, chihome.Slice.load, wrong, **sizes, index=1)
        self.assertRaises(OtherVersion, chihome.Slice.load, saved[:4] + b"\2" + saved[5:], **sizes, index=1)

    def test_names(self):
        calls = chihome._library()
        for name, kind in (("step", Step), ("kind", Kind), ("message", Message), ("state", State), ("refusal", Answer),
                           ("reason", Reason), ("opcode", Opcode), ("resp", Resp), ("observer_reason", ObserverReason)):
            for it in kind:
                self.assertEqual(getattr(calls, f"chi_{name}_name")(it).decode(), it.name.rstrip("_"))
        self.assertEqual(chihome.version(), (TOP / "VERSION").read_text().strip())

    def test_no_library(self):
        with self.assertRaises(OSError):
            chihome.load_library("/there/is/no/libchihome.so")
        chihome.load_library()


if __name__ == "__main__":
    unittest.main(argv=[sys.argv[0], "-v"])
