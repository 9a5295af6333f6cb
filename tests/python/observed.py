#!/usr/bin/env python3
"""Holds the class Observer of library/chihome.py against `chihome observe`: each trace is read here, given to an observer flit
by flit, and what it tells has to be what the program prints, but for what is open, with its status.

Usage: tests/python/observed.py [PROGRAM]

What is printed of the traces of tests/observe is stored there. Of those of tests/traces and suite/traces PROGRAM is asked;
they are left out where there is none. Of random traces of tests/observe/random it is known whether they are legal up to
their last flit. It prints each trace of which the two say otherwise, and how many say the same; the status is 1 where some
don't.
"""

import importlib.machinery
import importlib.util
import re
import subprocess
import sys
from pathlib import Path
from typing import NamedTuple

TOP = Path(__file__).resolve().parents[2]
sys.dont_write_bytecode = True
sys.path.insert(0, str(TOP / "library"))
import chihome  # noqa: E402
from chihome import Opcode, Resp, Seen, Stores  # noqa: E402

# The numbers of the opcodes of a channel that are judged, and of those of Issue B that aren't; and what stands for others.
CHANNELS = {"REQ": [*range(1, 17), *range(41, 60)], "SNP": [*range(17, 25), *range(60, 71)], "RSP": [*range(25, 31), *range(71, 75)],
            "DAT": [*range(31, 35), *range(75, 79)], "CPU": [35, 36]}
OTHERS = {"REQ": Opcode.OtherRequest, "SNP": Opcode.OtherSnoop}
SECONDS = 60
RUNS = 400


class NoTrace(Exception):
    """A line is none of a trace."""


def number(word, digits=16):
    if not re.fullmatch(r"(0x)?[0-9A-Fa-f]+", word) or int(word, 16) >= 16 ** digits:
        raise NoTrace(word)
    return int(word, 16)


def number_or_none(word, digits=16):
    return None if word == "-" else number(word, digits)


def opcode(channel, name, own):
    """The opcode of a name on a channel, or what stands for one of a design's own, where there may be such."""
    if channel not in CHANNELS:
        raise NoTrace(channel)
    known = {Opcode(it).name: Opcode(it) for it in CHANNELS[channel]}
    if name in known:
        return known[name]
    if not own or channel == "CPU" or not re.fullmatch(r"[A-Z][A-Za-z0-9]*", name):
        raise NoTrace(name)
    return OTHERS.get(channel) or (Opcode.OtherAnswer if name.startswith("Snp") else Opcode.OtherReply)


def resp(word):
    if word not in Resp.__members__:
        raise NoTrace(word)
    return Resp[word]


def words(word, may_lack):
    """The words of data, with None for those of another beat."""
    if word == "-" and may_lack:
        return [0] * 8
    if "," not in word:
        whole = number(word, 128)
        return [whole >> 64 * place & (1 << 64) - 1 for place in range(8)]
    each = [None if it == "x" else number(it) for it in word.split(",")]
    if len(each) != 8 or each == [None] * 8:
        raise NoTrace(word)
    return each


class Columns(NamedTuple):
    """The columns of a line."""

    channel: str
    source: str
    target: str
    txn: str
    opcode: str
    address: str
    resp: str
    dbid: str
    allow_retry: str
    credit: str
    data: str


def flit_in(line, place, own):
    """The flit of a line, or None where it has none; with opcodes of a design's `own`, or without."""
    if not line.split() or line.split()[0].startswith("#"):
        return None
    if len(line.split()) < 11:
        raise NoTrace(line)
    its = Columns(*line.split()[:11])
    code = opcode(its.channel, its.opcode, own)
    if its.channel == "CPU":
        return Seen(code, number(its.source, 4), address=number(its.address), words=[number(its.data)], number=place)
    named = {"source": number(its.source, 4), "target": number(its.target, 4), "number": place}
    if code in (Opcode.PCrdReturn, Opcode.PCrdGrant):
        return Seen(code, **named, credit=number(its.credit, 1))
    named["txn"] = number(its.txn, 4)
    if its.channel == "REQ":
        if its.allow_retry not in ("0", "1"):
            raise NoTrace(its.allow_retry)
        allow = its.allow_retry == "1"
        return Seen(code, **named, address=number(its.address), allow_retry=allow, credit=0 if allow else number(its.credit, 1))
    if its.channel == "SNP":
        return Seen(code, **named, address=number(its.address))
    return Seen(code, **named, address=number_or_none(its.address), **told(code, its))


def told(code, its):
    """What a response or data tells beside its nodes, its TXN and its address."""
    if code == Opcode.RetryAck:
        return {"credit": number(its.credit, 1)}
    if code == Opcode.CompDBIDResp:
        return {"dbid": number(its.dbid, 4)}
    if code == Opcode.CompAck:
        return {}
    if code >= Opcode.OtherAnswer:
        return {} if its.opcode.startswith("Snp") else {"dbid": number_or_none(its.dbid, 4)}
    fields = {"resp": resp(its.resp)}
    if code == Opcode.CompData or (code == Opcode.Comp and fields["resp"] == Resp.UC):
        fields["dbid"] = number_or_none(its.dbid, 4)
    if its.channel == "DAT":
        fields["words"] = words(its.data, code == Opcode.CopyBackWrData and fields["resp"] == Resp.I)
    return fields


def ended(observer, complete, allowed):
    """The status and the lines on a trace whose flits are all taken."""
    counts, unjudged = observer.counts(), observer.unjudged()
    if not counts.flits and not counts.accesses:
        return 8, ["no flit, load or store is in the trace"]
    flits, accesses = counts.flits - unjudged.flits, counts.accesses - unjudged.accesses
    lines = unjudged.text.splitlines() + [f"accepted {flits} flits on {counts.lines - unjudged.lines} cache lines"]
    if accesses:
        lines.append(f"accepted {accesses} loads and stores")
    if unjudged.text and not allowed:
        return 9 if flits or accesses else 8, lines
    return 7 if complete and not counts.is_complete else 0, lines


def observed(text, arguments):
    """The status and the lines on a trace; 1 and none where it is no trace."""
    types = int("--types" in arguments and {"two": 2, "four": 4}.get(arguments[arguments.index("--types") + 1], 0))
    told = {"types": types, "early_grants": "--early-grants" in arguments, "stores": Stores("listed" in arguments)}
    own = "--opcodes" in arguments and arguments[arguments.index("--opcodes") + 1] == "any"
    observer = chihome.Observer(lines=4096, ids=4096, accounts=1024, homes=255, **told)
    try:
        for place, line in enumerate(text.split("\n"), 1):
            seen = flit_in(line, place, own)
            if seen:
                observer.take(seen)
        end = ended(observer, "--complete" in arguments, "allowed" in arguments)
    except NoTrace:
        end = 1, []
    except chihome.Fault:
        fault = observer.fault()
        end = 6 if fault.number == place else 2, [fault.text]
    return end if is_closed_so(observer, *end, "allowed" in arguments) else (2, ["the close answers otherwise"])


def is_closed_so(observer, status, lines, allowed):
    """Whether the close of the observer, whose trace has this status and these lines, says what isn't judged."""
    refused = {8: chihome.NothingJudged, 9: chihome.PartlyJudged}.get(status)
    if status in (1, 6) or allowed:
        observer.close(allowed=True)
        return True
    try:
        observer.close()
    except chihome.Refused as refusal:
        return type(refusal) is refused
    return refused is None


def stored(trace):
    """The status and the lines that are stored with a trace."""
    texts = {it: trace.with_suffix(it) for it in (".status", ".out")}
    status, out = (it.read_text() if it.exists() else "" for it in texts.values())
    return int(status or 0), out.splitlines()


def asked(program, trace):
    """The status and the lines that the program prints, but for what is open."""
    done = subprocess.run([program, "observe", trace], stdout=subprocess.PIPE, stderr=subprocess.PIPE, text=True, timeout=SECONDS)
    return done.returncode, [it for it in done.stdout.splitlines() if not it.startswith("open: ")]


def random_traces():
    """Random traces: the seed of each, its arguments, its text, how many lines it has, and whether the last is legal too."""
    sys.path.insert(0, str(TOP / "tests/observe"))
    loader = importlib.machinery.SourceFileLoader("random_runs", str(TOP / "tests/observe/random"))
    runs = importlib.util.module_from_spec(importlib.util.spec_from_loader("random_runs", loader))
    loader.exec_module(runs)
    for seed in range(RUNS):
        lines, legal, listed = runs.trace_of(seed)
        yield seed, ["--stores", "listed" if listed else "hidden"], "".join(f"{it}\n" for it in lines), len(lines), legal


def is_right(text, arguments, length, legal):
    """Whether an observer takes all of a legal trace, and of another all but the last line."""
    status, lines = observed(text, arguments)
    if legal:
        return status == 0
    return status == 6 and lines[0].startswith(f"line {length}: ")


def is_text(trace):
    """Whether a file is lines of a trace, each with its end."""
    data = trace.read_bytes()
    return data.isascii() and data.endswith(b"\n") and max(map(len, data.split(b"\n"))) <= 4096


def main(names):
    same, wrong = 0, []
    for trace in sorted(TOP.glob("tests/observe/*.trace")):
        arguments = trace.with_suffix(".args")
        arguments = arguments.read_text().split() if arguments.exists() else []
        # (an observer begins with the trace, sees flits where they are sent, and is given data and whole lines)
        if {"--seen", "--start", "--data"} & set(arguments) or not is_text(trace):
            continue
        status, lines = stored(trace)
        # (the library keeps no flits for a context)
        wanted = status, [it for it in lines if not it.startswith(("before: ", "open: "))]
        given = observed(trace.read_text(), arguments)
        same += given == wanted
        wrong += [(trace, given, wanted)] * (given != wanted)
    for trace in sorted([*TOP.glob("tests/traces/*.trace"), *TOP.glob("suite/traces/*.trace")] if names else []):
        if not is_text(trace):
            continue
        given, wanted = observed(trace.read_text(), []), asked(names[0], trace)
        same += given == wanted
        wrong += [(trace, given, wanted)] * (given != wanted)
    for trace, given, wanted in wrong:
        print(f"{trace.relative_to(TOP)}: {given}, wanted {wanted}")
    for seed, arguments, text, length, legal in random_traces():
        right = is_right(text, arguments, length, legal)
        same += right
        wrong += [seed] * (not right)
        if not right:
            print(f"random trace {seed}: {observed(text, arguments)}")
    print(f"{same} traces are judged the same, and {len(wrong)} otherwise")
    return 1 if wrong or not same else 0


if __name__ == "__main__":
    sys.exit(main(sys.argv[1:]))
