"""Flits of CHI Issue B (Arm IHI 0050 B) for the scripts beside it: the fields on the wires, the numbers of opcodes and of Resp,
and the line of a trace for a flit. All three are this project's reading of the standard, each in one table.
"""

from typing import Dict, Iterator, List, NamedTuple, Optional, Tuple

# The fields of each channel, the first one in the lowest bits, and how many bits each has: a number, or a width of the design.
# Of fields that share their bits the one of reads and writes is named.
FIELDS = {
    "REQ": "QoS=4 TgtID=node SrcID=node TxnID=8 ReturnNID=node StashNIDValid=1 ReturnTxnID=8 Opcode=6 Size=3 Addr=address NS=1 "
           "LikelyShared=1 AllowRetry=1 Order=2 PCrdType=4 MemAttr=4 SnpAttr=1 LPID=5 Excl=1 ExpCompAck=1 TraceTag=1 RSVDC=req_rsvdc",
    "RSP": "QoS=4 TgtID=node SrcID=node TxnID=8 Opcode=4 RespErr=2 Resp=3 FwdState=3 DBID=8 PCrdType=4 TraceTag=1",
    "SNP": "QoS=4 SrcID=node TxnID=8 FwdNID=node FwdTxnID=8 Opcode=5 Addr=snoop NS=1 DoNotGoToSD=1 RetToSrc=1 TraceTag=1",
    "DAT": "QoS=4 TgtID=node SrcID=node TxnID=8 HomeNID=node Opcode=3 RespErr=2 Resp=3 FwdState=3 DBID=8 CCID=2 DataID=2 TraceTag=1 "
           "RSVDC=dat_rsvdc BE=bytes Data=data",
}

# The opcodes of each channel, by number from 0 on; `-` has none. Behind them those of which several numbers are one.
OPCODES = {
    "REQ": "ReqLCrdReturn ReadShared ReadClean ReadOnce ReadNoSnp PCrdReturn - ReadUnique CleanShared CleanInvalid MakeInvalid "
           "CleanUnique MakeUnique Evict - - - - - - DVMOp WriteEvictFull - WriteCleanFull WriteUniquePtl WriteUniqueFull WriteBackPtl "
           "WriteBackFull WriteNoSnpPtl WriteNoSnpFull - - WriteUniqueFullStash WriteUniquePtlStash StashOnceShared StashOnceUnique "
           "ReadOnceCleanInvalid ReadOnceMakeInvalid ReadNotSharedDirty CleanSharedPersist " + "AtomicStore " * 8 + "AtomicLoad " * 8
           + "AtomicSwap AtomicCompare PrefetchTgt",
    "RSP": "RespLCrdReturn SnpResp CompAck RetryAck Comp CompDBIDResp DBIDResp PCrdGrant ReadReceipt SnpRespFwded",
    "SNP": "SnpLCrdReturn SnpShared SnpClean SnpOnce SnpNotSharedDirty SnpUniqueStash SnpMakeInvalidStash SnpUnique SnpCleanShared "
           "SnpCleanInvalid SnpMakeInvalid SnpStashUnique SnpStashShared SnpDVMOp - - - SnpSharedFwd SnpCleanFwd SnpOnceFwd "
           "SnpNotSharedDirtyFwd - - SnpUniqueFwd",
    "DAT": "DataLCrdReturn SnpRespData CopyBackWrData NonCopyBackWrData CompData SnpRespDataPtl SnpRespDataFwded WriteDataCancel",
}
NAMES: Dict[str, List[str]] = {channel: names.split() for channel, names in OPCODES.items()}

# Resp by number: of completions and write data, and of answers to snoops. In data that answer a snoop 2 is UC or UD.
RESPS = "I SC UC UD I_PD SC_PD UD_PD SD_PD".split()
ANSWERS = "I SC UC SD I_PD SC_PD UC_PD UD_PD".split()
UNIQUE_ANSWERS = ["UC", "UD"]

# What has a RESP in a trace, and what has none of an id and an address.
WITH_RESP = {"Comp", "SnpResp", "CompData", "SnpRespData", "CopyBackWrData", "NonCopyBackWrData"}
WITHOUT_TXN = {"PCrdReturn", "PCrdGrant"}
# Whose completion no CompAck follows in what is judged: where ExpCompAck asks for one, the line isn't judged.
WITHOUT_COMP_ACK = {"ReadOnce", "CleanShared", "CleanInvalid", "MakeInvalid", "Evict", "WriteBackFull", "WriteCleanFull", "WriteEvictFull",
                    "WriteUniqueFull"}
NON_SECURE = 1 << 63


class Refused(Exception):
    """Something is none of a flit: which, and why."""


class Widths(NamedTuple):
    """The widths that the standard leaves to the design, in bits."""

    node_id_width: int = 7
    address_width: int = 44
    data_width: int = 128
    req_rsvdc_width: int = 0
    dat_rsvdc_width: int = 0

    def bits(self, width: str) -> int:
        """How many bits a width of FIELDS is."""
        named = {"node": self.node_id_width, "address": self.address_width, "snoop": self.address_width - 3, "data": self.data_width,
                 "bytes": self.data_width // 8, "req_rsvdc": self.req_rsvdc_width, "dat_rsvdc": self.dat_rsvdc_width}
        return named[width] if width in named else int(width)


class Flit(NamedTuple):
    """A flit with the fields that a trace has; those that it hasn't aren't looked at. `words` has None for those of other beats."""

    channel: str
    opcode: str
    source: int
    target: int
    txn: int = 0
    address: int = 0
    resp: str = "I"
    dbid: Optional[int] = None
    allow_retry: int = 1
    credit: int = 0
    words: Optional[List[Optional[int]]] = None


def checked(widths: Widths) -> Widths:
    """The widths, where the standard has such."""
    if not (7 <= widths.node_id_width <= 11 and 44 <= widths.address_width <= 52 and widths.data_width in (128, 256, 512)):
        raise Refused("node_id_width is 7 to 11, address_width 44 to 52, and data_width 128, 256 or 512")
    return widths


def places(channel: str, widths: Widths) -> Iterator[Tuple[str, int, int]]:
    """Each field of a channel, its lowest bit, and how many bits it has."""
    low = 0
    for field in FIELDS[channel].split():
        name, _, width = field.partition("=")
        yield name, low, widths.bits(width)
        low += widths.bits(width)


def opcode_of(channel: str, number: int) -> str:
    """The opcode of a number on a channel."""
    names = NAMES[channel]
    if number >= len(names) or names[number] == "-":
        raise Refused(f"opcode {number:x}: none of {channel}")
    return names[number]


def resp_of(opcode: str, number: int, unique_answer: str) -> str:
    """The RESP of a number; `unique_answer` is what 2 is of SnpRespData, UC or UD, or nothing."""
    if number > 7:
        raise Refused(f"Resp {number:x}: it has three bits")
    if opcode == "SnpRespData" and number == 2:
        if not unique_answer:
            raise Refused("Resp 2 of SnpRespData is UC or UD: unique_answer says which your caches give")
        return unique_answer
    return (ANSWERS if opcode.startswith("Snp") else RESPS)[number]


def beat(data: int, data_id: int, bits: int) -> List[Optional[int]]:
    """The eight words of a line with those of a beat of so many bits in their places, and None for others."""
    if data_id * 128 % bits != 0 or data_id > 3:
        raise Refused(f"DataID {data_id}: none of data of {bits} bits")
    words: List[Optional[int]] = [None] * 8
    for at in range(bits // 64):
        words[2 * data_id + at] = data >> 64 * at & (1 << 64) - 1
    return words


def as_judged(opcode: str, resp_err: int = 0, excl: int = 0, exp_comp_ack: int = 0) -> str:
    """The opcode, or where a flag of its flit is beyond what `observe` judges, one of the design's own that says so."""
    if resp_err:
        return f"{opcode}Err"
    if excl:
        return f"{opcode}Excl"
    return f"{opcode}ExpCompAck" if exp_comp_ack and opcode in WITHOUT_COMP_ACK else opcode


def is_request(channel: str, opcode: str) -> bool:
    """Whether a flit has AllowRetry and what else a request has."""
    return channel == "REQ" and opcode not in WITHOUT_TXN


def has_address(channel: str, opcode: str) -> bool:
    return channel in ("SNP", "CPU") or is_request(channel, opcode)


def has_dbid(opcode: str, resp: str) -> bool:
    return opcode in ("CompDBIDResp", "CompData", "DBIDResp", "ReadReceipt") or (opcode == "Comp" and resp == "UC")


def has_credit(opcode: str, allow_retry: int) -> bool:
    """Whether a flit has a credit type: a request where AllowRetry is 0."""
    return opcode in ("RetryAck", "PCrdGrant", "PCrdReturn") or not allow_retry


def is_of_links(opcode: str) -> bool:
    """Whether a flit returns a credit of the link layer, and is none of the protocol's."""
    return opcode.endswith("LCrdReturn")


def spelled(words: Optional[List[Optional[int]]]) -> str:
    return "-" if words is None else ",".join("x" if it is None else f"{it:x}" for it in words)


def line_of(flit: Flit, time: str = "") -> str:
    """The line of a trace for a flit. Behind its columns stands the time, which isn't read."""
    is_of_cpu = flit.channel == "CPU"
    columns = [
        flit.channel, f"{flit.source:x}", "-" if is_of_cpu else f"{flit.target:x}",
        "-" if is_of_cpu or flit.opcode in WITHOUT_TXN else f"{flit.txn:x}", flit.opcode,
        f"{flit.address:x}" if has_address(flit.channel, flit.opcode) else "-", flit.resp if flit.opcode in WITH_RESP else "-",
        f"{flit.dbid:x}" if flit.dbid is not None and has_dbid(flit.opcode, flit.resp) else "-",
        str(flit.allow_retry) if is_request(flit.channel, flit.opcode) else "-",
        f"{flit.credit:x}" if has_credit(flit.opcode, flit.allow_retry) else "-", spelled(flit.words),
    ]
    return " ".join([*columns, time]).rstrip()
