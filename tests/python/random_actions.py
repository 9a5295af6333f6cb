#!/usr/bin/env python3
"""Does the million random actions of crates/chi_library_tests through library/chihome.py, and prints the same line."""

import sys
from pathlib import Path

sys.dont_write_bytecode = True
sys.path.insert(0, str(Path(__file__).resolve().parents[2] / "library"))
import chihome  # noqa: E402

BITS = (1 << 64) - 1


def drawn(state):
    word = (state ^ (state >> 30)) * 0xBF58476D1CE4E5B9 & BITS
    word = (word ^ (word >> 27)) * 0x94D049BB133111EB & BITS
    return word ^ (word >> 31)


def told(effect):
    if effect.value is not None:
        return effect.value + 256
    return 0 if effect.completed is None else effect.completed + 512


def main():
    done = refused = state = total = 0
    with chihome.Slice(agents=4, lines=4, entries=(1, 1), journal=65536) as model:
        for _ in range(1_000_000):
            state = (state + 0x9E3779B97F4A7C15) & BITS
            word = drawn(state)
            try:
                given = told(model.act((word >> 16) % 17, word % 5, (word >> 8) % 5,
                                       (word >> 24) % 8, (word >> 32) % 9, (word >> 40) % 9, word >> 48))
                done += 1
            except chihome.Refused as refusal:
                given = int(refusal.number)
                refused += 1
            total = (total * 31 + given) & BITS
    print(f"{done} done, {refused} refused, sum {total}")


if __name__ == "__main__":
    main()
