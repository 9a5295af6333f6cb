"""Reads a log that is taken at the home (docs/TRACES.md) and judges each cache line of it by an arriving.Line.

Ids say of which line and agent a flit is, and which completion write data follow; they aren't judged, nor are credits. Data
in beats stand where their first beat does. Loads, stores and what has no rule are left out.
"""

from collections import Counter, defaultdict
from itertools import count
from types import SimpleNamespace

from arriving import ISSUED, LEFT, Line

KNOWN = {*ISSUED, *LEFT, "RetryAck", "Comp", "CompData", "CompDBIDResp", "CompAck", "SnpResp", "SnpRespData",
         "CopyBackWrData", "NonCopyBackWrData"}
DIRTY_FORMS = {"UD": "UD_PD", "SD": "SD_PD"}


def row_of(number, cells):
    source, target, txn, address, dbid = (None if cells[at] == "-" else int(cells[at], 16) for at in (1, 2, 3, 5, 7))
    words = tuple(cells[10].split(",")) if cells[0] == "DAT" and cells[10] != "-" else None
    return SimpleNamespace(number=number, channel=cells[0], source=source, target=target, txn=txn, opcode=cells[4],
                           line=address and address >> 6, resp=cells[6], dbid=dbid, first=cells[8] == "1", words=words)


def rows_of(text):
    """The flits of a log, the beats of data as one."""
    rows, parts = [], {}
    for number, line in enumerate(text, 1):
        cells = line.split()
        if len(cells) < 11 or cells[4] not in KNOWN:
            continue
        row = row_of(number, cells)
        whole = parts.pop((row.source, row.target, row.txn, row.opcode), row) if row.words else row
        if whole is row:
            rows.append(row)
        else:
            whole.words = tuple(new if old == "x" else old for old, new in zip(whole.words, row.words))
        if row.words and "x" in whole.words:
            parts[row.source, row.target, row.txn, row.opcode] = whole
    return rows


class Log:
    """The lines of a log as they are judged, and the ids that are open; and how many members the sets of agents had."""

    def __init__(self, agents):
        self.agents, self.lines, self.nodes, self.ids = agents, {}, defaultdict(count().__next__), {}
        # the buffer of the newest completion of a line's agent that write data follow
        self.newest, self.sizes = {}, Counter()

    def fault(self, text):
        """The number of the first flit that isn't taken, or None."""
        for row in rows_of(text):
            at, flit = self.flit_of(row)
            behind = at is not None and self.lines.get(at, Line(self.agents)).behind(flit)
            if not behind:
                return row.number
            self.lines[at] = behind
            self.sizes.update(map(len, behind.may))
        return None

    def flit_of(self, row):
        """The line, and the flit there."""
        if row.opcode in ISSUED:
            n = self.nodes[row.source]
            self.ids["request", n, row.txn] = row.line
            return row.line, ("cache", n, "issue" if row.first else "resend", row.opcode)
        if row.opcode in LEFT:
            n = self.nodes[row.target]
            self.ids["snoop", n, row.txn] = row.line
            return row.line, ("home", n, "snoop", row.opcode)
        return self.completion(row) if row.opcode in ("RetryAck", "Comp", "CompData", "CompDBIDResp") else self.reply(row)

    def completion(self, row):
        n = self.nodes[row.target]
        at = self.ids.pop(("request", n, row.txn), None)
        if row.opcode == "RetryAck":
            return at, ("home", n, "retry")
        if row.dbid is not None:
            self.ids["buffer", n, row.dbid] = at
        self.newest[at, n] = row.dbid if row.opcode == "CompDBIDResp" else None
        resp = DIRTY_FORMS.get(row.resp, row.resp) if row.opcode == "CompData" else row.resp
        return at, ("home", n, "complete", "DBID" if row.opcode == "CompDBIDResp" else f"{row.opcode}_{resp}", row.words)

    def reply(self, row):
        n, is_answer = self.nodes[row.source], row.opcode.startswith("SnpResp")
        at = self.ids.pop(("snoop" if is_answer else "buffer", n, row.txn), None)
        if row.opcode == "CompAck":
            return at, ("cache", n, "acknowledge")
        if is_answer:
            return at, ("cache", n, "reply", ("D_" if row.words else "R_") + row.resp, row.words)
        form = "whole" if row.opcode == "NonCopyBackWrData" else DIRTY_FORMS.get(row.resp, row.resp)
        return at, ("cache", n, "reply", form, row.words, self.newest.get((at, n)) != row.txn)
