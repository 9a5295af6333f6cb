"""Atomic operations: which they are, and what they do."""

from trace import span_mask

OPERATIONS = ("ADD", "CLR", "EOR", "SET", "SMAX", "SMIN", "UMAX", "UMIN")


def signed(value, size):
    """A number of `size` bytes as a signed one."""
    limit = 1 << (8 * size - 1)
    return value - 2 * limit if value >= limit else value


def result_of(operation, old, operand, size):
    """The new value of an AtomicStore or an AtomicLoad."""
    keys = {"SMAX": max, "SMIN": min}
    if operation in keys:
        return keys[operation](old, operand, key=lambda value: signed(value, size))
    return {"ADD": (old + operand) % (1 << 8 * size), "CLR": old & ~operand, "EOR": old ^ operand, "SET": old | operand,
            "UMAX": max(old, operand), "UMIN": min(old, operand)}[operation]


def computed(flit, base, data):
    """The line behind an atomic, and the mask of the bytes that it may change."""
    at, size = flit.hidden["at"], flit.hidden["bytes"]
    old = int.from_bytes(base[at:at + size], "little")
    operand = int.from_bytes(data[at:at + size], "little")
    new = operand
    if flit.opcode in ("AtomicStore", "AtomicLoad"):
        new = result_of(flit.extras["op"], old, operand, size)
    if flit.opcode == "AtomicCompare":
        other = at ^ size
        swap = int.from_bytes(data[other:other + size], "little")
        new = swap if old == operand else old
    result = base[:at] + new.to_bytes(size, "little") + base[at + size:]
    return result, span_mask(at, size)


def atomic_fields(random, opcode):
    """Offset, payload and hidden fields of an atomic: where its data stand in the line and which of them."""
    size = random.choice((1, 2, 4, 8, 16)) if opcode == "AtomicCompare" else random.choice((1, 2, 4, 8))
    at = random.randrange(0, 64, size)
    first, count = (at // (2 * size) * 2 * size, 2 * size) if opcode == "AtomicCompare" else (at, size)
    data = bytearray(random.randbytes(64))
    operation = random.choice(OPERATIONS) if opcode in ("AtomicStore", "AtomicLoad") else None
    mask = span_mask(first, count)
    hidden = {"at": at, "bytes": size, "old": span_mask(at, size), "span": (at, size)}
    return {"offset": at, "payload": (bytes(data), mask, (first, count)), "hidden": hidden, "op": operation,
            "size": count.bit_length() - 1}
