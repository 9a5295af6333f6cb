"""SN-F, a memory; HN-I, a device; and the node that spreads DVM operations."""

from issuer import Issuer, Refuser
from network import Process
from trace import FULL, LINE, merged


class Memory(Issuer, Refuser):
    """A memory serves the requests of a line one after the other. As a device it has requests of requesters."""

    def __init__(self, world, ident, is_device=False):
        Issuer.__init__(self, world, ident)
        self.is_device, self.words, self.queues, self.writes, self.process = is_device, {}, {}, {}, {}
        self.credit_types = self.random.choice(((0,), (0, 1), (2, 3)))

    def receive(self, flit):
        """Takes a request or write data."""
        if flit.channel == "DAT":
            self.writes[flit.txn] = flit
            for process in list(self.process.values()):
                process.poke()
        elif flit.opcode not in ("PCrdReturn", "PrefetchTgt", "ReqLCrdReturn") and not self.is_refused(flit):
            if self.bugs.hits("read-overtakes-write", flit.opcode == "ReadNoSnp" and flit.line in self.process):
                flit.hidden["spoils"] = True
                Process(self.world, self.read(flit)).run()
                return
            self.queues.setdefault(flit.line, []).append(flit)
            self.next(flit.line)

    def next(self, line):
        queue = self.queues.get(line)
        if queue and line not in self.process:
            flit = queue.pop(0)
            self.process[line] = Process(self.world, self.whole(flit))
            self.process[line].run()

    def whole(self, flit):
        """A request from its admission to its last flit."""
        yield self.random.choice((1, 2, 5, 20))
        if flit.opcode == "ReadNoSnp":
            yield from self.read(flit)
        else:
            yield from self.write(flit)
        self.process.pop(flit.line, None)
        self.next(flit.line)

    def value(self, line):
        return self.words.get(line) or self.world.golden.first(line)

    def read(self, flit):
        """Sends data to the source, or to the node that the request names."""
        node, number = flit.extras.get("ret", (flit.source, flit.txn))
        if flit.hidden.get("order"):
            self.send(self.flit("RSP", flit.source, "ReadReceipt", txn=flit.txn))
            yield self.random.choice((0, 2))
        home = self.ident if self.is_device else flit.source
        reply = self.flit("DAT", node, "CompData", txn=number, resp="UC", dbid=flit.txn, data=self.value(flit.line),
                          span=flit.hidden.get("span", (0, LINE)), extras={"home": home}, wrong=flit.hidden.get("spoils", False))
        reply = self.bugs.from_memory(self, flit, reply)
        yield self.send(reply)

    def write(self, flit):
        """Asks for write data, and takes them."""
        number = self.ids.take()
        if self.world.has("comp-apart") and self.world.chance(0.4):
            for opcode in self.random.choice((("DBIDResp", "Comp"), ("Comp", "DBIDResp"))):
                resp = "I" if opcode == "Comp" else None
                self.send(self.flit("RSP", flit.source, opcode, txn=flit.txn, resp=resp, dbid=number))
                yield self.random.choice((0, 1, 8))
        else:
            self.send(self.flit("RSP", flit.source, "CompDBIDResp", txn=flit.txn, resp="I", dbid=number))
        yield lambda: number in self.writes
        data = self.writes.pop(number)
        self.ids.free(number)
        mask = data.enables if data.opcode != "WriteDataCancel" else 0
        if self.bugs.hits("partial-as-full", mask not in (0, FULL)):
            mask = FULL
            self.bugs.arm()
        if self.bugs.hits("lost-write"):
            self.bugs.arm()
            return
        self.words[flit.line] = merged(self.value(flit.line), data.data, mask)


class Spreader(Issuer):
    """The node that sends a DVM operation to all full caches but its requester's."""

    def __init__(self, world, ident):
        super().__init__(world, ident)
        self.process, self.operations = {}, {}

    def receive(self, flit):
        """Takes a DVMOp, its data, or an answer to a snoop."""
        if flit.channel == "REQ":
            number = self.ids.take()
            self.operations[number] = [flit, None, set(self.world.full) - {flit.source}]
            self.process[number] = Process(self.world, self.whole(number))
            self.process[number].run()
            return
        operation = self.operations.get(flit.txn)
        if operation is None:
            self.world.golden.fail("a DVM answer to nothing")
            return
        if flit.channel == "DAT":
            operation[1] = flit
        else:
            operation[2].discard(flit.source)
        self.process[flit.txn].poke()

    def whole(self, number):
        """A DVM operation: its data, two snoops to each other cache, their answers, and Comp."""
        operation = self.operations[number]
        flit = operation[0]
        self.send(self.flit("RSP", flit.source, "DBIDResp", txn=flit.txn, dbid=number))
        yield lambda: operation[1]
        for node in sorted(operation[2]):
            for part in (0, 1):
                self.send(self.flit("SNP", node, "SnpDVMOp", txn=number, address=flit.address & ~0xF | part << 3))
                yield self.random.choice((0, 0, 1))
        if self.bugs.hits("dvm-early", bool(operation[2])):
            self.send(self.flit("RSP", flit.source, "Comp", txn=flit.txn, resp="I", dbid=number, wrong=True))
            yield lambda: not operation[2]
        else:
            yield lambda: not operation[2]
            self.send(self.flit("RSP", flit.source, "Comp", txn=flit.txn, resp="I", dbid=number))
        del self.operations[number]
        self.ids.free(number)
