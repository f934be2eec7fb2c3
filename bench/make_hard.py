#!/usr/bin/env python3
"""Writes a hard input: make_hard.py together | falling | changes | moves | names

together: 2,048 runs over the same 256 blocks, all at one moment.
falling: 4,096 blocks, 8,192 signals and 4,096 routes, names in falling order.
changes: 500,000 changes of one signal that 4,096 routes list; its block stays.
moves: 400,000 changes of it, each to the other of two blocks.
names: 300,000 blocks, each put and dropped again; the last row is refused."""
import sys


def together():
    for k in range(256):
        yield "block,B%03d,1000" % k
    for k in range(256):
        yield "signal,S%03d,B%03d,1000,10,5,0,5" % (k, k)
    yield "route,R," + ",".join("S%03d" % k for k in range(256))
    legs = ",".join(["60,0"] * 255 + ["60"])
    for k in range(2048):
        yield "run,T%04d,R,200,10,3600,%s" % (k, legs)


def falling():
    for k in reversed(range(4096)):
        yield "block,B%04d,1000" % k
    for k in reversed(range(8192)):
        yield "signal,S%04d,B%04d,1000,10,5,0,5" % (k, k // 2)
    for k in reversed(range(4096)):
        yield "route,R%04d,S%04d" % (k, 2 * k)


def shared_signal():
    for k in range(4):
        yield "block,B%d,1000" % k
    for k in range(3):
        yield "signal,S%d,B%d,1000,10,5,0,5" % (k, k)
    for k in range(4096):
        yield "route,R%04d,S0,S1" % k


def changes():
    yield from shared_signal()
    for k in range(500_000):
        yield "change-signal,S0,B0,%d,10,5,0,5" % (k % 1000)


def moves():
    yield from shared_signal()
    for k in range(400_000):
        yield "change-signal,S0,B%d,1000,10,5,0,5" % (3 * (k % 2))


def names():
    for k in range(300_000):
        yield "block,block-%07d,1000" % (k * 7919 % 10_000_000)
        yield "drop-block,block-%07d" % (k * 7919 % 10_000_000)
    yield "block,last,0"


KINDS = {"together": together, "falling": falling, "changes": changes, "moves": moves, "names": names}

sys.stdout.writelines(row + "\n" for row in KINDS[sys.argv[1]]())
