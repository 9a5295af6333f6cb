#!/usr/bin/env python3
"""Runs a replay or check file through a node of library/chihome.py, and prints what `chihome` prints of it; the status is
5, as the program's, where answers differ. It takes good files alone.

Usage: tests/python/replay.py FILE
"""

import sys
from pathlib import Path

sys.dont_write_bytecode = True
sys.path.insert(0, str(Path(__file__).resolve().parents[2] / "library"))
import chihome  # noqa: E402
from chihome import Kind, ReleaseForm, ServingForm, Step  # noqa: E402

STEPS = {"load": Step.Load, "store": Step.Store, "drop": Step.Drop, "issue": Step.Issue, "retryack": Step.RecvRetry,
         "resend": Step.Resend, "cancel": Step.Cancel, "start": Step.Start, "snp": Step.RecvSnp,
         "snpresp": Step.RecvSnpResp, "data": Step.RecvData, "comp": Step.RecvComp, "ack": Step.RecvAck,
         "dbid": Step.RecvDbid, "wrdata": Step.RecvWrData}
SERVING = {ServingForm.Snooping: "snooping", ServingForm.AwaitingCompAck: "compack",
           ServingForm.AwaitingWriteData: "wrdata"}


def release_text(release):
    if release.form == ReleaseForm.Granted:
        return f" granted {release.agent}"
    return " freed" if release.form == ReleaseForm.Freed else ""


def step_text(node, verb, agent, line, *words):
    step, fields = STEPS[verb], {}
    if step == Step.Issue:
        fields = {"kind": Kind[words[0]], "slot": int(words[1])}
    elif words:
        fields = dict(zip(("word", "value"), map(int, words)))
    effect, release = node.step(step, int(agent), int(line), **fields)
    value = "" if effect.value is None else f" value {effect.value}"
    completed = "" if effect.completed is None else f" completed {effect.completed}"
    return value + completed + release_text(release)


def arrival_text(node, agent, line):
    arrival = node.arrive(int(agent), int(line))
    return f" retry {arrival.credit}" if arrival.entry is None else f" admitted {arrival.entry}"


def members(agents):
    return ",".join(map(str, sorted(agents))) or "-"


def line_text(node, line):
    shown = node.show(int(line))
    copies = ",".join(it.state.name for it in shown.copies)
    serving = f"{SERVING[shown.serving.form]} {shown.serving.agent}" if shown.serving else "none"
    waiting = members(agent for agent, it in enumerate(shown.waiting) if it)
    return (f" copies {copies} named {members(shown.named)} unique {'yes' if shown.unique else 'no'} serving {serving}"
            f" waiting {waiting} memory {' '.join(map(str, shown.memory))}")


def totals_text(node):
    totals = node.totals()
    return "".join(f" {name} {' '.join(map(str, it))}" for name, it in zip(totals._fields, totals))


def audit_text(node):
    audit = node.audit()
    return f" loads {audit.loads} stores {audit.stores} {'coherent' if audit.coherent else 'broken'}"


TEXTS = {
    "arrive": arrival_text,
    "see": lambda node, agent: f" credits {' '.join(map(str, node.see(int(agent))))}",
    "giveback": lambda node, agent, credit: release_text(node.give_back(int(agent), int(credit))),
    "tend": lambda node, agent, credit: release_text(node.tend(int(agent), int(credit))) or " idle",
    "flits": lambda node, agent, line: " " + (" ".join(map(str, node.flits(int(agent), int(line)).values())) or "none"),
    "show": line_text,
    "totals": totals_text,
    "audit": audit_text,
}


def answer(node, command):
    """The line that a command prints."""
    verb, *words = command.split()
    try:
        text = TEXTS[verb](node, *words) if verb in TEXTS else step_text(node, verb, *words)
    except chihome.Refused as refused:
        return f"refused {int(refused.number)} {refused.name}"
    return f"ok{text}" if node.agrees() else "the requesters disagree with the slices"


def replay(lines, checks):
    """Prints what differs of a check file, or each answer of a replay file; how many are wanted, and how many differ."""
    wanted, different, node = 0, 0, None
    for number, text in enumerate(lines, 1):
        command, arrow, want = text.partition(" -> ")
        if checks and (not text or text.startswith("#")):
            continue
        if node is None:
            agents, lines, slices, *entries, journal = map(int, command.split()[1:])
            node = chihome.Node(agents, lines, slices, entries, journal)
            continue
        given = answer(node, command)
        wanted += checks and bool(arrow)
        if not checks:
            print(given)
        elif arrow and given != want:
            different += 1
            print(f"line {number}: wanted {want}, is {given}")
    node.close()
    return wanted, different


def main(name):
    checks = name.endswith(".check")
    # (as latin-1, since a comment and a wanted answer may have any bytes)
    sys.stdout.reconfigure(encoding="latin-1")
    wanted, different = replay(Path(name).read_text(encoding="latin-1").split("\n")[:-1], checks)
    if checks:
        print(f"{different} of {wanted} answers differ" if different else f"checked {wanted} answers")
    return 5 if different else 0


if __name__ == "__main__":
    sys.exit(main(sys.argv[1]))
