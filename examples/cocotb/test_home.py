"""A scoreboard in cocotb: random requesters drive the toy home of examples/scoreboard, and the proved model beside it is
the reference. Each action is done on a slice of the model; where the model does it and it is the home's, the toy home
does it too, and both are compared. The first difference ends the test.
"""

import random

import chihome
import cocotb
from chihome import Channel, Kind, Message, Step
from cocotb.triggers import Timer

AGENTS, LINES, ACTIONS = 4, 4, 20_000
STEPS = [Step.Load, Step.Store, Step.Drop, Step.Issue, Step.Admit, Step.Start, Step.RecvSnp, Step.RecvSnpResp,
         Step.RecvData, Step.RecvAck]
KEEPS = {Message.SnpResp_SC, Message.SnpRespData_SC_PD}


def bits(signal):
    """The agents whose bits are set."""
    return {agent for agent in range(AGENTS) if int(signal.value) >> agent & 1}


def compare(dut, model, line, step):
    """What the design sends and keeps after a step, beside the model."""
    shown, flits = model.show(line), [model.flits(agent, line) for agent in range(AGENTS)]
    data = [it[Channel.DatDown].message for it in flits if Channel.DatDown in it]
    snooped = {agent for agent, it in enumerate(flits) if Channel.Snp in it}
    assert step != Step.Start or bits(dut.snooped) == snooped
    assert bool(dut.completes.value) == bool(data)
    assert not data or bool(dut.unique_data.value) == (data == [Message.CompData_UC])
    assert bits(dut.named[line]) == shown.named
    assert bool(dut.alone[line].value) == shown.unique
    assert bool(dut.busy[line].value) == (shown.serving is not None)


async def cycle(dut, **inputs):
    """One cycle of the clock with these inputs, after which the others are 0."""
    for name in ("start", "answered", "acknowledged", "line", "agent", "for_unique", "has_copy"):
        getattr(dut, name).value = int(inputs.get(name, 0))
    await Timer(1, "ns")
    dut.clk.value = 1
    await Timer(1, "ns")
    dut.clk.value = 0


def home_does(step, message, was_unique):
    """The toy home's inputs for a step of the home, with the message that it takes; None where the step isn't its own."""
    if step == Step.Start:
        return {"start": 1, "for_unique": was_unique}
    if step == Step.RecvSnpResp:
        return {"answered": 1, "has_copy": message in KEEPS}
    return {"acknowledged": 1} if step == Step.RecvAck else None


@cocotb.test()
async def random_reads(dut):
    """Random reads for shared and for unique copies, with stores, drops and snoops in between."""
    numbers, unique = random.Random(7), {}
    await cycle(dut)
    with chihome.Slice(AGENTS, LINES) as model:
        for _ in range(ACTIONS):
            agent, line, step = numbers.randrange(AGENTS), numbers.randrange(LINES), numbers.choice(STEPS)
            kind = numbers.choice([Kind.ReadNotSharedDirty, Kind.ReadUnique])
            before = model.flits(agent, line)
            try:
                model.act(step, agent, line, kind, slot=line, value=numbers.randrange(1000))
            except chihome.Refused:
                continue
            if step == Step.Issue:
                unique[agent, line] = kind == Kind.ReadUnique
            answer = before.get(Channel.RspUp) or before.get(Channel.DatUp)
            inputs = home_does(step, answer and answer.message, unique.get((agent, line)))
            if inputs:
                await cycle(dut, agent=agent, line=line, **inputs)
                compare(dut, model, line, step)
