#!/usr/bin/env python3
"""Random actions drive the caches of cache.py, and the proved model beside them is the reference. Each action is done on a
slice of the model; where it is a cache's own and the model does it, the cache does it too, and both are compared: the
message that is sent with its words, and the copy. The first difference ends the run.

Usage: examples/python/bench.py [--bug] [ACTIONS]

The module `chihome` is found by PYTHONPATH.
"""

import random
import sys

import chihome
from cache import Cache
from chihome import Channel, Kind, Step

AGENTS, LINES = 3, 2
UP = (Channel.RspUp, Channel.DatUp)
TAKEN_FROM = {Step.RecvSnp: Channel.Snp, Step.RecvData: Channel.DatDown, Step.RecvComp: Channel.RspDown,
              Step.RecvDbid: Channel.RspDown}


class Difference(Exception):
    """The cache and the model don't say the same."""


def same(what, cache, model):
    if cache != model:
        raise Difference(f"{what} is {cache} by the cache, and {model} by the model")


def random_action(numbers):
    agent, line = numbers.randrange(AGENTS), numbers.randrange(LINES)
    # (a slot of its own for each line)
    return chihome.Action(numbers.choice(list(Step)), agent, line, numbers.choice(list(Kind)), line,
                          numbers.randrange(8), numbers.randrange(1000))


def react(cache, action, message, pending):
    """What the cache sends where it does the action, with the message that it takes and its request that is pending."""
    if action.step == Step.RecvSnp:
        return cache.snooped(message.message.name)
    if action.step == Step.RecvData:
        return cache.data(message.message.name, message.words)
    if action.step == Step.RecvComp:
        return cache.completed(message.message.name)
    if action.step == Step.RecvDbid:
        return cache.write_back(pending.kind.name)
    {Step.Store: lambda: cache.store(action.word, action.value), Step.Drop: cache.drop,
     Step.Issue: lambda: cache.issue(action.kind.name)}.get(action.step, lambda: None)()
    return None


def sent(before, after):
    """The message to the home that came into flight, with its words."""
    new = [after[it] for it in UP if it in after and it not in before]
    return (new[0].message.name, new[0].words) if new else None


def try_one(model, caches, action):
    """Does an action on both, and compares; whether the model did it."""
    place = action.agent, action.line
    before, pending = model.flits(*place), model.show(action.line).pending[action.agent]
    try:
        model.act(*action)
    except chihome.Refused:
        return False
    cache = caches[place]
    answer = react(cache, action, before.get(TAKEN_FROM.get(action.step)), pending)
    if action.step not in (Step.RecvSnpResp, Step.RecvAck, Step.RecvWrData):
        same("what is sent", answer, sent(before, model.flits(*place)))
    copy = model.show(action.line).copies[action.agent]
    same("the state", cache.state, copy.state.name)
    if cache.state != "I":
        same("the data", tuple(cache.words), copy.words)
    return True


def run(bug, actions):
    """Random actions, up to the first difference; how many were done."""
    numbers, done = random.Random(7), 0
    caches = {(agent, line): Cache(bug) for agent in range(AGENTS) for line in range(LINES)}
    with chihome.Slice(AGENTS, LINES) as model:
        for _ in range(actions):
            action = random_action(numbers)
            try:
                done += try_one(model, caches, action)
            except Difference as difference:
                raise Difference(f"line {action.line}, {action.step.name} of agent {action.agent}, after {done} actions: "
                                 f"{difference}") from None
    return done


def main(words):
    bug = "--bug" in words
    numbers = [int(it) for it in words if it != "--bug"]
    try:
        done = run(bug, numbers[0] if numbers else 60_000)
    except Difference as difference:
        print(difference)
        return 1
    print(f"{done} actions were done, and after each both said the same")
    return 0


if __name__ == "__main__":
    sys.exit(main(sys.argv[1:]))
