"""What sends requests: TxnIDs, retries and credits, for requesters and for homes that ask a memory."""

from network import Numbers, Process
from trace import Flit

# Replies that carry a DBID for write data, and those that say that the request is done.
GIVES_DBID = ("DBIDResp", "CompDBIDResp")
COMPLETES = ("Comp", "CompDBIDResp")


class Pending:
    """A request under way, with the replies so far."""

    def __init__(self, flit, since):
        self.flit, self.since = flit, since
        self.opcode, self.line = flit.opcode, flit.address // 64
        self.txn, self.retry, self.is_granted = None, None, False
        self.comp = self.dbid = self.data = self.receipt = None
        self.is_answered, self.is_lost, self.poke = False, lambda: False, lambda: None


class Issuer:
    """A node with requests under way."""

    def __init__(self, world, ident):
        self.world, self.ident = world, ident
        self.ids, self.open = Numbers(world), {}
        self.waiting, self.spare = {}, {}

    @property
    def random(self):
        return self.world.random

    @property
    def bugs(self):
        return self.world.bugs

    def send(self, flit):
        return self.world.send(flit)

    def flit(self, channel, target, opcode, **fields):
        return Flit(channel, self.ident, target, opcode, **fields)

    def later(self, most, action, *words):
        """Does an action within so many ticks."""
        self.world.after(self.random.randrange(most + 1), action, *words)

    def spawn(self, pending, steps):
        """Runs a request's steps, which its replies poke."""
        process = Process(self.world, steps)
        pending.poke = process.poke
        process.run()

    def ask(self, pending, txn=None):
        """Steps that send a request, again where it was retried. They tell whether it was sent to be served."""
        self.launch(pending, txn, 1, None)
        yield lambda: pending.is_answered
        if pending.retry is None:
            return True
        yield lambda: pending.is_granted
        if pending.is_lost():
            self.send(self.flit("REQ", pending.flit.target, "PCrdReturn", allow_retry=0, credit=pending.retry, address=0))
            return False
        pending.is_answered = False
        yield self.random.randrange(4)
        self.launch(pending, txn, 0, self.bugs.resend_type(pending.retry))
        return True

    def launch(self, pending, txn, allow_retry, credit):
        """Puts a request, as a first attempt or with a credit."""
        pending.txn = self.bugs.request_id(self, txn)
        self.open[pending.txn] = pending
        kept = pending.flit
        sent = Flit(kept.channel, kept.source, kept.target, kept.opcode, pending.txn, kept.address, allow_retry=allow_retry,
                    credit=credit, extras=kept.extras, hidden=kept.hidden)
        pending.flit = sent
        self.send(sent)

    def release(self, pending):
        """Frees the TxnID of a request, as its last reply has come."""
        if self.open.get(pending.txn) is pending:
            del self.open[pending.txn]
            self.ids.free(pending.txn)

    def reply(self, flit):
        """Takes a reply: to a request under way, or a credit."""
        if flit.opcode == "PCrdGrant":
            self.granted(flit)
            return
        pending = self.open.get(flit.txn)
        if pending is None:
            self.world.golden.fail(f"{flit.opcode} to no request of node {self.ident:x}")
            return
        if flit.opcode == "RetryAck":
            self.release(pending)
            pending.retry = flit.credit
            self.waiting.setdefault((flit.source, flit.credit), []).append(pending)
            self.use_spare(flit.source, flit.credit)
        if flit.opcode in GIVES_DBID:
            pending.dbid = flit
        if flit.opcode in COMPLETES:
            pending.comp = flit
        if flit.opcode == "CompData":
            pending.data = flit
        if flit.opcode == "ReadReceipt":
            pending.receipt = flit
        pending.is_answered = True
        pending.poke()

    def granted(self, flit):
        """A credit goes to one of the requests that wait for its type."""
        key = (flit.source, flit.credit)
        self.spare[key] = self.spare.get(key, 0) + 1
        self.use_spare(*key)

    def use_spare(self, home, kind):
        queue = self.waiting.get((home, kind))
        if queue and self.spare.get((home, kind)):
            self.spare[home, kind] -= 1
            pending = queue.pop(self.random.randrange(len(queue)))
            pending.is_granted = True
            pending.poke()


class Refuser:
    """What a node that serves requests needs for its retries: a credit is owed for each RetryAck."""

    def is_refused(self, flit):
        """Sends a RetryAck to some first attempts, and a credit for it later."""
        if flit.allow_retry == 1:
            share = self.world.options.retries * (2 if flit.opcode.startswith("Write") else 1)
            refuses = self.world.has("retry") and self.world.chance(share)
        else:
            refuses = self.bugs.hits("retry-of-resend")
        if not refuses:
            return False
        kind = self.kind_of(flit.opcode)
        acknowledgement = self.flit("RSP", flit.source, "RetryAck", txn=flit.txn, credit=kind)
        acknowledgement.wrong = flit.allow_retry == 0
        self.send(acknowledgement)
        self.world.after(self.random.choice((1, 3, 10, 40, 90, 200)), self.grant, flit.source, kind)
        return True

    def kind_of(self, opcode):
        """The credit type of a kind of request: one of each design's own choice."""
        types = self.credit_types
        return types[sum(map(ord, opcode)) % len(types)]

    def grant(self, node, kind):
        """Gives a credit."""
        named = self.bugs.granted_type(self, kind)
        flit = self.flit("RSP", node, "PCrdGrant", txn=0, credit=named, wrong=named != kind)
        self.send(flit)
        if self.bugs.hits("credit-twice"):
            self.send(self.flit("RSP", node, "PCrdGrant", txn=0, credit=kind, wrong=True))
