"""Flits, and the log of them: a line a flit, in the order in which their senders put them on their ports.

A flit of data is put in beats: each beat is a line, whose DATA has `x` for the words of other beats.
"""

from dataclasses import dataclass, field

LINE = 64
WORD = 8
# Extra fields, in the order in which they stand behind the eleventh column.
EXTRAS = ("home", "fwd", "ret", "fs", "be", "exp", "pull", "stash", "size", "op")
FULL = (1 << LINE) - 1


@dataclass(slots=True)
class Flit:
    """A flit with the fields that the log shows, and a few more that only nodes read (`hidden`).

    Of data `beats` are those that have come, `relay` is the flit that passes them on, and `left` counts those of a relay
    that haven't come.
    """

    channel: str
    source: int
    target: int
    opcode: str
    txn: int = 0
    address: int | None = None
    resp: str | None = None
    dbid: int | None = None
    allow_retry: int | None = None
    credit: int | None = None
    data: bytes | None = None
    enables: int | None = None
    span: tuple = (0, LINE)
    extras: dict = field(default_factory=dict)
    hidden: dict = field(default_factory=dict)
    wrong: bool = False
    beats: list = field(default_factory=list)
    relay: object = None
    left: list | None = None

    @property
    def line(self):
        """The number of the flit's cache line."""
        return self.address // LINE

    @property
    def is_data(self):
        return self.channel == "DAT" and self.data is not None


def mask_bytes(mask):
    """The indices of the bytes that a mask of 64 byte enables has."""
    return [index for index in range(LINE) if mask >> index & 1]


def span_mask(first, count):
    """Byte enables of `count` bytes from byte `first` on."""
    return ((1 << count) - 1) << first


def merged(base, data, mask):
    """`base` with the bytes of `data` that `mask` names."""
    if mask == FULL:
        return bytes(data)
    result = bytearray(base)
    for index in mask_bytes(mask):
        result[index] = data[index]
    return bytes(result)


def masked(data, mask):
    """`data` with 0 in each byte that `mask` doesn't name."""
    return merged(bytes(LINE), data, mask)


def words_of(data, first=0, count=LINE):
    """The DATA column: words outside the bytes from `first` on are in another beat."""
    texts = []
    for at in range(0, LINE, WORD):
        is_here = first <= at < first + count
        texts.append(f"{int.from_bytes(data[at:at + WORD], 'little'):x}" if is_here else "x")
    return ",".join(texts)


def number(value):
    return "-" if value is None else f"{value:x}"


def extra_text(flit, name, first, count):
    """The text of one extra field, or nothing where the flit hasn't got it."""
    if name == "be":
        if flit.enables is None:
            return ""
        return f" be={flit.enables & span_mask(first, count):016x}"
    value = flit.extras.get(name)
    if value is None:
        return ""
    if isinstance(value, tuple):
        return f" {name}={value[0]:x}/{value[1]:x}"
    return f" {name}={value}" if isinstance(value, str) else f" {name}={value:x}"


def text(flit, time, beat=None):
    """The line of a flit, or of one beat of it: the beat's first byte and its number of bytes."""
    first, count = beat or (0, LINE)
    data = words_of(flit.data, first, count) if flit.is_data else "-"
    extras = "".join(extra_text(flit, name, first, count) for name in EXTRAS)
    address = number(flit.address) if flit.channel in ("REQ", "SNP") else "-"
    return (f"{flit.channel} {flit.source:x} {flit.target:x} {number(flit.txn)} {flit.opcode} {address} {flit.resp or '-'} "
            f"{number(flit.dbid)} {number(flit.allow_retry)} {number(flit.credit)} {data}{extras} t={time:x}")


class Log:
    """The lines that were put so far."""

    def __init__(self, out, limit):
        self.out, self.limit, self.lines, self.flits = out, limit, 0, 0

    @property
    def is_full(self):
        return self.flits >= self.limit

    def put(self, flit, time, beat=None):
        """Writes a flit, and tells its line's number."""
        self.lines += 1
        self.flits += 1
        self.out.write(text(flit, time, beat) + "\n")
        return self.lines

    def access(self, node, kind, address, value):
        """Writes a load or a store of a processor."""
        self.lines += 1
        self.out.write(f"CPU {node:x} - - {kind} {address:x} - - - - {value:x}\n")
