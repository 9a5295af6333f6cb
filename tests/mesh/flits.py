"""A line of a trace as a flit (docs/TRACES.md), with the words NAME=VALUE behind its eleventh column."""
from dataclasses import dataclass, field

LINE = 64


@dataclass
class Flit:
    number: int                 # of its line in the trace
    channel: str
    source: int
    target: int | None
    txn: int | None
    opcode: str
    address: int | None
    resp: str
    dbid: int | None
    allows_retry: bool
    fields: dict = field(default_factory=dict)
    given: int = 0              # which of the eight words it has, a bit each
    bytes: tuple | None = None  # the bytes of its cache line, None of one that it doesn't have

    @property
    def line(self):
        return self.address // LINE

    def number_in(self, name):
        """The number of a field, None where there is none."""
        return int(self.fields[name], 16) if name in self.fields else None

    def pair_in(self, name):
        """The node and the TxnID of a field."""
        node, txn = self.fields[name].split("/")
        return int(node, 16), int(txn, 16)


def column(word):
    return None if word == "-" else int(word, 16)


def bytes_of(words, enabled):
    """The 64 bytes of eight words, each None where its word is in another flit or it isn't enabled."""
    return tuple(None if word is None or not enabled >> (8 * place + at) & 1 else word >> (8 * at) & 255
                 for place, word in enumerate(words) for at in range(8))


def access_bytes(address, value):
    """The bytes that a load or a store of the word at an address tells of."""
    first = address % LINE // 8 * 8
    return tuple(value >> (8 * (at - first)) & 255 if first <= at < first + 8 else None for at in range(LINE))


def flit_in(text, number):
    """The flit of a line of a trace; None of a comment and of a line without words."""
    words = text.split()
    if not words or words[0].startswith("#"):
        return None
    fields = dict(word.split("=", 1) for word in words[11:] if "=" in word)
    flit = Flit(number, words[0], int(words[1], 16), column(words[2]), column(words[3]), words[4], column(words[5]), words[6],
                column(words[7]), words[8] == "1", fields)
    if flit.channel == "DAT" and words[10] != "-":
        data = [None if word == "x" else int(word, 16) for word in words[10].split(",")]
        flit.given = sum(1 << place for place, word in enumerate(data) if word is not None)
        flit.bytes = bytes_of(data, int(fields.get("be", "f" * 16), 16))
    if flit.channel == "CPU":
        flit.bytes = access_bytes(flit.address, int(words[10], 16))
    return flit


def words_within(address, size):
    """Which words of its cache line an access of 2^size bytes at an address touches, a bit each."""
    if size >= 6:
        return 255
    first = address % LINE >> size << size
    return sum(1 << place for place in range(8) if first // 8 <= place <= (first + (1 << size) - 1) // 8)
