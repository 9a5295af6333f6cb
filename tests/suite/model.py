"""A node of docs/PROTOCOL.md as a plain model: lines (tests/protocol.py), accounts and the tracker, on one thread.

`Node.play` answers a command of a check file, and `Node.refusals` tells each reason why it would be refused."""

import sys
from collections import namedtuple
from pathlib import Path

sys.path.insert(0, str(Path(__file__).resolve().parent.parent))

from protocol import CHANNELS, COPY_BACKS, DIRTY, NEEDS, TAKEN, Line, credit_type

NAMES = {
    1: "JournalFull", 2: "WrongState", 3: "Pending", 4: "NothingPending", 5: "LineBusy", 6: "NotWaiting", 7: "NoFlit",
    10: "OutOfRange", 12: "NoCredit",
}
SLOTS = 8
# The operands of each command behind its verb.
OPERANDS = {
    "load": "agent line word", "store": "agent line word value", "drop": "agent line", "issue": "agent line kind slot",
    "arrive": "agent line", "start": "agent line", **{verb: "agent line" for verb in TAKEN}, "resend": "agent line",
    "cancel": "agent line", "see": "agent", "giveback": "agent type", "tend": "agent type", "flits": "agent line",
    "show": "line", "totals": "", "audit": "",
}


class Slot:
    """A slot of a requester: its state, and what belongs to it."""

    def __init__(self):
        self.state, self.line, self.type, self.entry, self.is_answered = "Idle", None, None, None, False


Entry = namedtuple("Entry", "type place agent")


class Node:
    """A node as its header says it: `numbers` are those behind the word node."""

    def __init__(self, numbers):
        agents, lines, self.slices, *entries, self.journal = numbers
        self.types = len(entries)
        self.lines = [Line(agents, self.types == 4) for _ in range(lines)]
        self.slots = [[Slot() for _ in range(SLOTS)] for _ in range(agents)]
        self.entries = [Entry(number, "free", None) for number, count in enumerate(entries) for _ in range(count)]
        self.owed = [[0] * self.types for _ in range(agents)]
        self.seen = [set() for _ in range(agents)]
        self.records = [[] for _ in range(self.slices)]
        self.last = [[0] * 8 for _ in range(lines)]
        self.broken = False

    # What a command would be refused for.

    def operands(self, words):
        """The operands of a command, by name."""
        named = dict(zip(OPERANDS[words[0]].split(), words[1:]))
        return {name: word if name == "kind" else int(word) for name, word in named.items()}

    def refusals(self, words):
        """The reasons why a command would be refused, in their order; each begins with its number."""
        verb, of = words[0], self.operands(words)
        ends = {"agent": len(self.slots), "line": len(self.lines), "word": 8, "slot": SLOTS, "type": self.types}
        if outside := [f"10 by its {name}" for name, number in of.items() if name in ends and number >= ends[name]]:
            return outside[:1]
        reasons = getattr(self, f"refusals_of_{verb}", None)
        if verb == "arrive" or verb in TAKEN:
            return [] if self.lines[of["line"]].cell(of["agent"], verb) else ["7"]
        return reasons(**of) if reasons else []

    def is_full(self, line):
        return ["1"] if len(self.records[line % self.slices]) == self.journal else []

    def is_pending(self, agent, line):
        return ["3 a request is pending"] if self.lines[line].pending[agent] else []

    def is_in(self, agent, line, states):
        state = self.lines[line].copies[agent][0]
        return [] if state in states else [f"2 in {state}"]

    def refusals_of_load(self, agent, line, word):
        return self.is_in(agent, line, ["SC", "UC", "UD", "SD"]) + self.is_full(line)

    def refusals_of_store(self, agent, line, word, value):
        return self.is_pending(agent, line) + self.is_in(agent, line, ["UC", "UD"]) + self.is_full(line)

    def refusals_of_drop(self, agent, line):
        return self.is_pending(agent, line) + self.is_in(agent, line, ["SC", "UC"])

    def refusals_of_issue(self, agent, line, kind, slot):
        known = self.slots[agent][slot]
        reasons = self.is_pending(agent, line)
        if known.state == "Admitted" and known.is_answered:
            reasons.append("3 the home's part of the slot isn't over")
        elif known.state in ("Closing", "Cancelled"):
            reasons.append(f"3 the slot is {known.state}")
        elif known.state != "Idle" and known.line != line:
            reasons.append("3 the slot is in use at another line")
        return reasons + self.is_in(agent, line, NEEDS[kind])

    def refusals_of_start(self, agent, line):
        here = self.lines[line]
        return ["6"] * (agent not in here.waiting) + ([f"5 {here.serving.what}"] if here.serving else [])

    def why_not_retried(self, agent, line):
        if not self.lines[line].pending[agent]:
            return ["4 nothing is pending"]
        return ["4 it was sent again" if self.pending_slot(agent, line).state == "Riding" else "4 it wasn't retried"]

    def refusals_of_resend(self, agent, line):
        here = self.lines[line]
        if not here.is_retried[agent]:
            return self.why_not_retried(agent, line)
        reasons = [] if here.is_sendable(agent) else ["2"]
        return reasons + ["12"] * (not self.spare(agent, credit_type(here.pending[agent].kind, self.types == 4)))

    def refusals_of_cancel(self, agent, line):
        here = self.lines[line]
        if not here.is_retried[agent]:
            return self.why_not_retried(agent, line)
        if here.pending[agent].kind not in COPY_BACKS:
            return ["2 it is no copy-back"]
        return ["2 its copy is as it needs it"] if here.is_sendable(agent) else []

    def refusals_of_giveback(self, agent, type):
        cancelled = any(slot.state == "Cancelled" and slot.type == type for slot in self.slots[agent])
        spare = self.spare(agent, type)
        if not cancelled:
            return ["12 a credit is seen, and no slot is cancelled" if spare else "12 no slot is cancelled"]
        return [] if spare else ["12 no credit is seen"]

    # The tracker.

    def credits(self, agent):
        """The seen credits of an agent, by type."""
        return [sum(self.entries[entry].type == number for entry in self.seen[agent]) for number in range(self.types)]

    def spare(self, agent, number):
        """How many seen credits of a type are beyond those for slots that were sent again."""
        return self.credits(agent)[number] - sum(it.state == "Riding" and it.type == number for it in self.slots[agent])

    def claim(self, agent, number):
        """The lowest free entry of a type, if there is one; it is claimed."""
        for entry, (its_type, place, _) in enumerate(self.entries):
            if its_type == number and place == "free":
                self.entries[entry] = Entry(number, "hand", agent)
                return entry
        return None

    def spend(self, agent, number):
        """The lowest seen entry of a type, which comes to hand."""
        entry = min(it for it in self.seen[agent] if self.entries[it].type == number)
        self.seen[agent].remove(entry)
        self.entries[entry] = Entry(number, "hand", agent)
        return entry

    def release(self, entry):
        """An entry goes to the first requester that is owed one of its type, or is freed."""
        number = self.entries[entry].type
        for agent, owed in enumerate(self.owed):
            if owed[number]:
                owed[number] -= 1
                self.entries[entry] = Entry(number, "promised", agent)
                return f"granted {agent}"
        self.entries[entry] = Entry(number, "free", None)
        return "freed"

    # What a command does that isn't refused, and what it answers.

    def play(self, words):
        """The answer to a command, which is done if nothing refuses it."""
        if reasons := self.refusals(words):
            number = int(reasons[0].split()[0])
            return f"refused {number} {NAMES[number]}"
        said = getattr(self, f"do_{words[0]}")(**self.operands(words))
        return f"ok {said}" if said else "ok"

    def pending_slot(self, agent, line):
        return self.slots[agent][self.lines[line].pending[agent].slot]

    def do_load(self, agent, line, word):
        value = self.lines[line].copies[agent][1][word]
        self.broken |= value != self.last[line][word]
        self.records[line % self.slices].append("load")
        return f"value {value}"

    def do_store(self, agent, line, word, value):
        self.lines[line].store(agent, word, value)
        self.last[line][word] = value
        self.records[line % self.slices].append("store")

    def do_drop(self, agent, line):
        self.lines[line].drop(agent)

    def do_issue(self, agent, line, kind, slot):
        self.lines[line].issue(agent, kind, slot)
        opened = self.slots[agent][slot]
        opened.state, opened.line, opened.is_answered = "Sent", line, False
        opened.type = credit_type(kind, self.types == 4)

    def do_arrive(self, agent, line):
        here, slot = self.lines[line], self.pending_slot(agent, line)
        slot.entry = self.spend(agent, slot.type) if slot.state == "Riding" else self.claim(agent, slot.type)
        if slot.entry is None:
            self.owed[agent][slot.type] += 1
            slot.state = "Refused"
            here.retry(agent)
            return f"retry {slot.type}"
        slot.state = "Admitted"
        here.admit(agent)
        return f"admitted {slot.entry}"

    def do_retryack(self, agent, line):
        self.pending_slot(agent, line).state = "Retried"
        self.lines[line].take_retry(agent)

    def do_resend(self, agent, line):
        self.pending_slot(agent, line).state = "Riding"
        self.lines[line].resend(agent)

    def do_cancel(self, agent, line):
        self.pending_slot(agent, line).state = "Cancelled"
        self.lines[line].cancel(agent)

    def do_start(self, agent, line):
        slot = self.lines[line].start(agent)
        return None if slot is None else self.finish(agent, slot)

    def do_snp(self, agent, line):
        self.lines[line].take_snoop(agent)

    def do_snpresp(self, agent, line):
        self.lines[line].take_answer(agent)

    def answered(self, agent, line, take):
        """The agent takes what answers its request."""
        slot = self.pending_slot(agent, line)
        slot.state, slot.is_answered = "Idle" if slot.state == "Closing" else slot.state, True
        take(agent)

    def do_data(self, agent, line):
        self.answered(agent, line, self.lines[line].take_data)

    def do_comp(self, agent, line):
        self.answered(agent, line, self.lines[line].take_comp)

    def do_dbid(self, agent, line):
        self.answered(agent, line, self.lines[line].take_dbid)

    def do_ack(self, agent, line):
        return self.finish(agent, self.lines[line].take_ack(agent))

    def do_wrdata(self, agent, line):
        return self.finish(agent, self.lines[line].take_written(agent))

    def finish(self, agent, number):
        """A request is completed at the home, and its entry released."""
        slot = self.slots[agent][number]
        slot.state = "Idle" if slot.is_answered else "Closing"
        return f"completed {number} {self.release(slot.entry)}"

    def do_see(self, agent):
        self.seen[agent] = {entry for entry, it in enumerate(self.entries) if it.place == "promised" and it.agent == agent}
        return "credits " + " ".join(map(str, self.credits(agent)))

    def do_giveback(self, agent, type):
        next(it for it in self.slots[agent] if it.state == "Cancelled" and it.type == type).state = "Idle"
        return self.release(self.spend(agent, type))

    def do_tend(self, agent, type):
        if not any(owed[type] for owed in self.owed):
            return "idle"
        entry = self.claim(agent, type)
        return "idle" if entry is None else self.release(entry)

    def do_flits(self, agent, line):
        cells = self.lines[line].flits[agent]
        return " ".join(cells[channel][0] for channel in CHANNELS if channel in cells) or "none"

    def do_show(self, line):
        here = self.lines[line]

        def listed(items):
            return ",".join(map(str, items)) or "-"

        serving = f"{here.serving.what} {here.serving.agent}" if here.serving else "none"
        return (f"copies {listed(state for state, _ in here.copies)} named {listed(sorted(here.named))} "
                f"unique {'yes' if here.unique else 'no'} serving {serving} waiting {listed(sorted(here.waiting))} "
                f"memory {' '.join(map(str, here.memory))}")

    def do_totals(self):
        def count(what):
            return " ".join(str(sum(it.type == number and it.place == what for it in self.entries)) for number in range(self.types))

        owed = " ".join(str(sum(it[number] for it in self.owed)) for number in range(self.types))
        return f"free {count('free')} hand {count('hand')} promised {count('promised')} owed {owed}"

    def do_audit(self):
        records = sum(self.records, [])
        verdict = "broken" if self.broken or not all(map(self.is_coherent, range(len(self.lines)))) else "coherent"
        return f"loads {records.count('load')} stores {records.count('store')} {verdict}"

    def is_coherent(self, line):
        """The five points of docs/PROTOCOL.md, "Coherence"."""
        here, states = self.lines[line], [state for state, _ in self.lines[line].copies]
        valid = [agent for agent, state in enumerate(states) if state != "I"]
        is_passed = any(text.endswith("_PD") for cells in here.flits for text, _ in cells.values())
        is_clean = not is_passed and not any(state in DIRTY for state in states)
        return (("UC" not in states and "UD" not in states or len(valid) == 1) and set(valid) <= here.named
                and all(here.copies[agent][1] == self.last[line] for agent in valid)
                and (not is_clean or here.memory == self.last[line]) and states.count("SD") <= 1)


def commands_of(text):
    """The numbers of a check file's header, and its commands: the number of the line, the words, and the wanted answer or nothing.

    A faulty line is a ValueError that names it."""
    lines = [(number, line) for number, line in enumerate(text.splitlines(), 1) if line and not line.startswith("#")]
    first, *numbers = lines[0][1].split() if lines else [""]
    if first != "node" or len(numbers) not in (6, 8) or not all(map(str.isdigit, numbers)):
        raise ValueError(f"line {lines[0][0] if lines else 1}: bad header")
    commands = []
    for number, line in lines[1:]:
        command, arrow, wanted = line.partition(" -> ")
        if not is_command(command.split()):
            raise ValueError(f"line {number}: bad command")
        commands.append((number, command.split(), wanted if arrow else None))
    return [int(it) for it in numbers], commands


def is_command(words):
    """Whether a line's words are a command of docs/FORMATS.md, "Commands"."""
    names = OPERANDS.get(words[0], "none").split() if words else ["none"]
    return len(names) == len(words) - 1 and all(word in NEEDS if name == "kind" else word.isdigit() for name, word in zip(names, words[1:]))
