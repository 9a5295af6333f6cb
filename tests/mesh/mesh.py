#!/usr/bin/env python3
"""A simulated system of today's kind that speaks AMBA CHI Issue B: prints the log of its flits.

Usage: mesh.py --flits N --seed S [--without FEATURE ..] [--also FEATURE ..] [--bug NAME] [--rate SHARE]
               [--agents F,I,H,S] [--retries SHARE] [--cpu]
       mesh.py --features | --bugs

The nodes (numbers are hexadecimal):
  8 ..    requesters with a full cache (RN-F), eight where --agents doesn't say otherwise: states I, SC, UC, UCE, UD, UDP, SD
  28 ..   requesters without a cache (RN-I), two
  40 ..   homes (HN-F), four: a cache line is of home 40 plus its number modulo the number of homes. Each has a snoop
          filter, which names each holder, and some that have dropped their copy; in half of the homes others too that never
          had one (feature `imprecise`). Each has a system cache, which keeps data or doesn't, as it falls
  60 ..   memories (SN-F), two, behind the homes
  70      a device, to which requesters send ReadNoSnp and WriteNoSnp
  74      the node that spreads DVM operations
Homes are independent of each other. A home serves a line's requests one after the other, and different lines at once.

What is sent. Requesters do random loads, stores and evictions on ten hot lines and on cold ones; what they do drives
requests, as a cache would: reads, CleanUnique, MakeUnique, copy-backs, Evict, and silent drops and stores. Besides they send
cache maintenance, ReadOnce kinds, WriteUnique kinds, atomics, stashes, DVMOp, PrefetchTgt and requests to the device. Homes
snoop plainly or with direct cache transfer, read the memory for themselves or with direct memory transfer, offer stashes,
take copies away where their filter is full, and write dirty data to the memory at once or later. Any node that serves
requests refuses some (RetryAck) and grants credits later, of types of its own choice. Where Issue B leaves an answer open, each
one that it allows is given at times (cache.py has the table of answers to snoops). `--features` lists what can be switched off.

Time and order. Flits come after random latencies: those of one channel from one node to another in order, all others race.
A log line is written when a flit is put on its sender's port. Data take one flit, two or four, as the sender's port is 64,
32 or 16 bytes wide, in any order, with other flits between them. A seed tells all of a run.

The log has the eleven columns of docs/TRACES.md, and behind them:
  home=NODE      HomeNID of CompData            fwd=NODE/TXN   FwdNID and FwdTxnID of a forwarding snoop
  ret=NODE/TXN   ReturnNID and ReturnTxnID of a home's ReadNoSnp, its own where the data don't go directly
  fs=STATE       FwdState of SnpRespFwded and SnpRespDataFwded
  be=BYTES       byte enables of the line's 64 bytes, byte 0 in the lowest bit; of a beat those of its bytes
  exp=0|1        ExpCompAck                     size=N         the field Size of a write or an atomic: 2 to the N bytes
  pull=TXN       DataPull, with the TxnID of the read that it stands for
  stash=NODE     StashNID, where it is valid    op=NAME        what an AtomicStore or an AtomicLoad does
  t=TIME         when the flit was put
DATA is 0 in bytes that write data don't enable. RESP of an answer to a snoop is UD where the copy was dirty, and UC where
it was clean, though both are one number on the wires. With --cpu loads and stores are lines too.

What is checked. The simulator keeps what each line holds (golden.py): each copy, each load and each read has to have that,
and a unique copy has to be alone. So an exception tells a fault of the simulated protocol, not of the log's judge.

With --bug one bug is planted, which shows at random moments; standard error tells the log's line of its first effect, or at
the latest the line behind which the simulator's own checks saw one. `--bugs` lists them.
"""

import argparse
import random
import sys

sys.dont_write_bytecode = True

from bugs import TABLE, Bugs
from features import DOUBTFUL, expanded, listing
from golden import Golden, Wrong
from home import Home
from memory import Memory, Spreader
from network import World
from requester import Requester
from trace import Log
from traffic import Traffic

PATIENCE = 6000
HOME, MEMORY, DEVICE, SPREADER = 0x40, 0x60, 0x70, 0x74


def options_of(words):
    """The options of a command line."""
    parser = argparse.ArgumentParser(description=__doc__, formatter_class=argparse.RawDescriptionHelpFormatter)
    parser.add_argument("--flits", type=int, default=2000)
    parser.add_argument("--seed", type=int, default=1)
    parser.add_argument("--without", nargs="*", default=[], action="extend")
    parser.add_argument("--also", nargs="*", default=[], action="extend", choices=sorted(DOUBTFUL))
    parser.add_argument("--bug", choices=sorted(TABLE))
    parser.add_argument("--rate", type=float, help="the share of moments at which a planted bug shows")
    parser.add_argument("--agents", default="8,2,4,2", help="how many RN-F, RN-I, HN-F and SN-F")
    parser.add_argument("--retries", type=float, default=0.1)
    parser.add_argument("--cpu", action="store_true")
    parser.add_argument("--features", action="store_true")
    parser.add_argument("--bugs", action="store_true")
    options = parser.parse_args(words)
    try:
        options.without = expanded([name for word in options.without for name in word.split(",")])
        options.full, options.io, options.homes, options.memories = map(int, options.agents.split(","))
    except ValueError as fault:
        parser.error(f"{fault}: no such feature, or not four numbers of agents")
    return options


def rate_of(options):
    """The share of moments at which the planted bug shows."""
    return TABLE[options.bug][0] if options.bug and options.rate is None else options.rate


def built(options, out):
    """A world with its nodes."""
    log = Log(out, options.flits)
    golden = Golden(options.seed)
    bugs = Bugs(options.bug, rate_of(options), random.Random(options.seed + 1))
    world = World(options.seed, log, options, bugs, golden)
    golden.world = bugs.world = world
    golden.is_strict = options.bug is None
    world.full = [0x8 + index for index in range(options.full)]
    world.io = [0x28 + index for index in range(options.io)]
    world.homes = [HOME + index for index in range(options.homes)]
    world.memories = [MEMORY + index for index in range(options.memories)]
    world.device, world.spreader = DEVICE, SPREADER
    for ident in world.full + world.io:
        world.nodes[ident] = Requester(world, ident, world.homes)
    for ident in world.homes:
        world.nodes[ident] = Home(world, ident, world.memories)
    for ident in world.memories:
        world.nodes[ident] = Memory(world, ident)
    world.nodes[DEVICE] = Memory(world, DEVICE, True)
    world.nodes[SPREADER] = Spreader(world, SPREADER)
    return world


def check_progress(world):
    """No request is under way for so long that it is stuck."""
    for ident, node in world.nodes.items():
        for pending in getattr(node, "open", {}).values():
            if pending.since < world.time - PATIENCE:
                world.golden.fail(f"{pending.opcode} of node {ident:x} is stuck since time {pending.since:x}")


def simulate(options, out):
    """Writes a log; a system with a planted bug may end before its flits are all there."""
    world = built(options, out)
    Traffic(world).start()
    try:
        world.run()
        check_progress(world)
    except Wrong:
        raise
    except Exception as fault:
        if options.bug is None:
            raise
        print(f"the system ends behind log line {world.log.lines}: {type(fault).__name__} {fault}", file=sys.stderr)
    if options.bug:
        world.bugs.report()


def main(words):
    options = options_of(words)
    if options.features:
        print(listing())
    elif options.bugs:
        print("\n".join(f"{name:24} {text}" for name, (_, text) in TABLE.items()))
    else:
        simulate(options, sys.stdout)
    return 0


if __name__ == "__main__":
    sys.exit(main(sys.argv[1:]))
