#!/usr/bin/env python3
"""Writes a large line as rows: bench/make_line.py RUNS BLOCKS DWELLS

RUNS trains run over one route of BLOCKS blocks; each stops at least DWELLS times on its way. Names are in no
order of their own, times and lengths vary from train to train, and the rows are the same at each call.
Two sections lie on the line, one of eight blocks and one of all.
"""
import sys

FIRST, FACTOR, STEP, MODULUS = 20_251_127, 1_103_515_245, 12_345, 2_147_483_648


def draws():
    state = FIRST
    while True:
        state = (state * FACTOR + STEP) % MODULUS
        yield state // 65_536


def main():
    if len(sys.argv) != 4:
        sys.exit(__doc__)
    runs, blocks, dwells = (int(word) for word in sys.argv[1:])
    draw = draws()
    out = sys.stdout
    # Numbers times an odd factor go once round: names come in no order, and each once.
    names = [(i * 2_654_435_761) % 65_536 for i in range(max(runs, blocks))]
    for name in names[:blocks]:
        out.write("block,b%05d,%d\n" % (name, 400 + next(draw) % 1600))
    for name in names[:blocks]:
        approach, overlap = 500 + next(draw) % 1500, next(draw) % 200
        out.write("signal,s%05d,b%05d,%d,10,5,%d,5\n" % (name, name, approach, overlap))
    out.write("route,line,%s\n" % ",".join("s%05d" % name for name in names[:blocks]))
    for i, name in enumerate(names[:runs]):
        fields = ["run", "t%05d" % name, "line", str(100 + next(draw) % 600), "10", str(60 * i % 604_800)]
        stops = set(range(1, blocks, max(1, blocks // (dwells + 1)))) if dwells else set()
        for k in range(1, blocks + 1):
            fields.append(str(20 + next(draw) % 60))
            if k < blocks:
                fields.append(str(30 + next(draw) % 60) if k in stops else "0")
        out.write(",".join(fields) + "\n")
    for section, count in [("few", 8), ("whole", 256)]:
        fields = ["b%05d" % name for name in names[: min(blocks, count)]]
        out.write("section,%s,0,604800,33,%s\n" % (section, ",".join(fields)))


if __name__ == "__main__":
    main()
