"""Makes waveforms (VCD) of flits for the tests of examples/import/vcd. The bits of a flit are put where this table says, which is
written down by hand for node ids of 7 bits, addresses of 44, data of 128 and no RSVDC: it knows nothing of the script's own.
"""

# Of each channel the number of its bits, and the lowest bit of the fields that a trace has.
BITS = {
    "req": (117, {"TgtID": 4, "SrcID": 11, "TxnID": 18, "Opcode": 42, "Addr": 51, "NS": 95, "AllowRetry": 97, "PCrdType": 100, "Excl": 114,
                  "ExpCompAck": 115}),
    "rsp": (51, {"TgtID": 4, "SrcID": 11, "TxnID": 18, "Opcode": 26, "RespErr": 30, "Resp": 32, "DBID": 38, "PCrdType": 46}),
    "snp": (84, {"SrcID": 4, "TxnID": 11, "Opcode": 34, "Addr": 39, "NS": 80}),
    "dat": (201, {"TgtID": 4, "SrcID": 11, "TxnID": 18, "Opcode": 33, "RespErr": 36, "Resp": 38, "DBID": 44, "DataID": 54, "Data": 73}),
}
CHANNELS = ("txreq", "txrsp", "txdat", "txsnp", "rxreq", "rxrsp", "rxdat", "rxsnp")


def packed(channel, **fields):
    """The bits of a flit."""
    count, lowest = BITS[channel]
    return format(sum(value << lowest[name] for name, value in fields.items()), f"0{count}b")


def code(port, channel, part):
    """The code of a signal of the waveform: printable, and of several letters."""
    return f"{chr(65 + port)}{chr(97 + CHANNELS.index(channel))}{part}"


def head(ports):
    """The head of a waveform of ports, each a scope with its channels."""
    lines = ["$timescale 1ns $end", "$scope module top $end", "$var wire 1 ! clk $end", "$var wire 64 ~ other [63:0] $end"]
    for port, (name, channels) in enumerate(ports.items()):
        lines.append(f"$scope module {name} $end")
        for channel in channels:
            lines.append(f"$var wire 1 {code(port, channel, 'v')} {channel}flitv $end")
            lines.append(f"$var wire {BITS[channel[2:]][0]} {code(port, channel, 'f')} {channel}flit [{BITS[channel[2:]][0] - 1}:0] $end")
            if channel == "txsnp":
                lines.append(f"$var wire 7 {code(port, channel, 't')} txsnptgtid [6:0] $end")
        lines.append("$upscope $end")
    return [*lines, "$upscope $end", "$enddefinitions $end", "#0", "$dumpvars", "0!", "$end"]


def waveform(ports, cycles):
    """The waveform of cycles, each a list of flits: the port, the channel, for whom a snoop is, and the fields."""
    lines, names = head(ports), list(ports)
    every = [code(port, channel, "v") for port, channels in enumerate(ports.values()) for channel in channels]
    for cycle, flits in enumerate([*cycles, []]):
        lines += [f"#{10 * cycle + 5}", "1!"]
        lines += [f"0{it}" for it in every]
        for name, channel, target, fields in flits:
            port = names.index(name)
            lines += [f"1{code(port, channel, 'v')}", f"b{packed(channel[2:], **fields).lstrip('0') or 0} {code(port, channel, 'f')}"]
            if channel == "txsnp":
                lines.append(f"b{target:b} {code(port, channel, 't')}")
        lines += [f"#{10 * cycle + 10}", "0!"]
    return "\n".join(lines + [f"#{10 * len(cycles) + 15}", "1!", f"#{10 * len(cycles) + 20}", ""])
