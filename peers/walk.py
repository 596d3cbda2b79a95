#!/usr/bin/env python3
"""Tells how many victims leave on the walk of a scenario's `candidates`, by a model that shares nothing with the pool.

    peers/walk.py FRAMES CORRELATED SEED REFERENCES

So many references go to 64 pages at random. A page that is away enters, and if all frames are taken, the victim leaves
first: of the pages whose newest reference is older than the period, the first by stamp, newest reference and number. If
there is none, the reference is passed over.
"""
import sys


def walk(frames, correlated, seed, references):
    here, state, now, left = {}, seed, 1, 0
    for _ in range(references):
        state = (state * 6364136223846793005 + 1442695040888963407) % 2**64
        now += (state >> 50) % 3
        page = (state >> 33) % 64
        stamp = 0 if (state >> 32) % 2 == 0 else (state >> 16) % now
        if page not in here and len(here) == frames:
            old = [(*times, p) for p, times in here.items() if now - times[1] > correlated]
            if not old:
                continue
            del here[min(old)[2]]
            left += 1
        here[page] = (stamp, now)
    return left


if __name__ == "__main__":
    if len(sys.argv) != 5 or not all(it.isdecimal() for it in sys.argv[1:]):
        sys.exit(__doc__)
    print(walk(*map(int, sys.argv[1:])))
