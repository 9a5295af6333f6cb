"""Copies of a full cache, and what it may answer to a snoop from each state.

An answer is written NEXT:RESP: the state that the copy has next and the answer's RESP. Behind it stands `+` for an answer
with data, `*` for data with byte enables; in a forwarding snoop /STATE before that is what the peer gives the requester.
"""

from dataclasses import dataclass
from functools import lru_cache

from trace import FULL

UNIQUE = ("UC", "UCE", "UD", "UDP")
DIRTY = ("UD", "UDP", "SD")


@dataclass(slots=True)
class Copy:
    """A copy: its state, its data, and which of its bytes are valid."""

    state: str
    data: bytes
    mask: int = FULL


@dataclass(frozen=True, slots=True)
class Answer:
    """One answer to a snoop."""

    next: str
    resp: str
    forwards: str | None
    data: str


SHARED = {
    "I": "I:I",
    "UC": "SC:SC SC:SC+ I:I I:I+",
    "UCE": "I:I",
    "UD": "SD:SD+ SC:SC_PD+ I:I_PD+",
    "UDP": "I:I_PD*",
    "SC": "SC:SC SC:SC+ I:I I:I+",
    "SD": "SD:SD+ SC:SC_PD+ I:I_PD+",
}
INVALID = {
    "I": "I:I",
    "UC": "I:I I:I+",
    "UCE": "I:I",
    "UD": "I:I_PD+",
    "UDP": "I:I_PD*",
    "SC": "I:I I:I+",
    "SD": "I:I_PD+",
}
CLEAN = {
    "I": "I:I",
    "UC": "I:I",
    "UCE": "I:I",
    "UD": "I:I_PD+",
    "UDP": "I:I_PD*",
    "SC": "I:I",
    "SD": "I:I_PD+",
}
GONE = {state: "I:I" for state in ("I", *UNIQUE, "SC", "SD")}
STASH = {"I": "I:I", "UC": "UC:UC", "UCE": "UCE:UC", "UD": "UD:UD", "UDP": "UDP:UD", "SC": "SC:SC", "SD": "SD:SD"}

ANSWERS = {
    "SnpOnce": {
        "I": "I:I",
        "UC": "UC:UC UC:UC+ SC:SC SC:SC+ I:I I:I+",
        "UCE": "UCE:UC I:I",
        "UD": "UD:UD+ SD:SD+ SC:SC_PD+ I:I_PD+",
        "UDP": "UDP:UD* I:I_PD*",
        "SC": "SC:SC SC:SC+ I:I I:I+",
        "SD": "SD:SD+ SC:SC_PD+ I:I_PD+",
    },
    "SnpClean": SHARED,
    "SnpShared": SHARED,
    "SnpNotSharedDirty": SHARED,
    "SnpUnique": INVALID,
    "SnpCleanShared": {
        "I": "I:I",
        "UC": "UC:UC SC:SC I:I",
        "UCE": "UCE:UC I:I",
        "UD": "UC:UC_PD+ SC:SC_PD+ I:I_PD+",
        "UDP": "I:I_PD*",
        "SC": "SC:SC I:I",
        "SD": "SC:SC_PD+ I:I_PD+",
    },
    "SnpCleanInvalid": CLEAN,
    "SnpMakeInvalid": GONE,
    "SnpUniqueStash": CLEAN,
    "SnpMakeInvalidStash": GONE,
    "SnpStashShared": STASH,
    "SnpStashUnique": STASH,
}

FORWARD_SHARED = {
    "UC": "SC:SC/SC SC:SC/SC+ I:I/SC I:I/SC+",
    "UD": "SD:SD/SC SD:SD/SC+ SC:SC_PD/SC+ I:I_PD/SC+",
    "SC": "SC:SC/SC SC:SC/SC+ I:I/SC I:I/SC+",
    "SD": "SD:SD/SC SD:SD/SC+ SC:SC_PD/SC+ I:I_PD/SC+",
}
DIRTY_TOO = " SC:SC/SD_PD SC:SC/SD_PD+ I:I/SD_PD I:I/SD_PD+"
FORWARDS = {
    "SnpOnceFwd": {
        "UC": "UC:UC/I SC:SC/I I:I/I",
        "UD": "UD:UD/I SD:SD/I SC:SC_PD/I+ I:I_PD/I+",
        "SC": "SC:SC/I I:I/I",
        "SD": "SD:SD/I SC:SC_PD/I+ I:I_PD/I+",
    },
    "SnpCleanFwd": FORWARD_SHARED,
    "SnpNotSharedDirtyFwd": FORWARD_SHARED,
    "SnpSharedFwd": {state: texts + (DIRTY_TOO if state in DIRTY else "") for state, texts in FORWARD_SHARED.items()},
    "SnpUniqueFwd": {"UC": "I:I/UC", "UD": "I:I/UD_PD", "SC": "I:I/UC", "SD": "I:I/UD_PD"},
}
# Which snoops a read may have the home send: the first one is its own, the others take or leave as much.
SNOOPS_OF = {
    "ReadShared": ("SnpShared", "SnpNotSharedDirty", "SnpClean"),
    "ReadNotSharedDirty": ("SnpNotSharedDirty", "SnpClean"),
    "ReadClean": ("SnpClean", "SnpNotSharedDirty"),
    "ReadUnique": ("SnpUnique",),
    "ReadOnce": ("SnpOnce",),
}


def parsed(text):
    """One answer of its text."""
    data = text[-1] if text[-1] in "+*" else ""
    forms = text.rstrip("+*")
    forwards = None
    if "/" in forms:
        forms, forwards = forms.split("/")
    following, resp = forms.split(":")
    return Answer(following, resp, forwards, data)


@lru_cache(maxsize=None)
def answers(snoop, state, is_forwarding):
    """The answers that the tables have for a snoop to a copy in a state."""
    if is_forwarding:
        texts = FORWARDS[snoop].get(state, "")
        return tuple(parsed(text) for text in texts.split())
    plain = snoop.removesuffix("Fwd")
    return tuple(parsed(text) for text in ANSWERS[plain][state].split())


def fitting(snoop, state, is_forwarding, returns):
    """Those answers that fit whether the home wants a clean copy's data (RetToSrc).

    A clean shared copy has data only where they are wanted; a clean unique one may have them; a dirty one has to.
    """
    found = answers(snoop, state, is_forwarding)
    with_data = [answer for answer in found if answer.data]
    if returns and with_data:
        return with_data
    if is_forwarding:
        return [answer for answer in found if not answer.data or "_PD" in answer.resp]
    if state == "SC":
        return [answer for answer in found if not answer.data]
    return list(found)
