#!/usr/bin/env python3
"""Writes a line with sections, and planners' scripts below it: bench/make_session.py KIND [base]

mid: 2,048 trains, one after the other, over 128 blocks, and 32 sections of 500 of them; planners move trains.
connections: the same with a connection from each train to the next; planners change connections, too.
disorder: the same where trains overtake, and one comes from the other side, so that few sections have an order.
wide: 700 trains over 256 blocks, and 64 sections of four blocks with all trains; planners make edits of every kind.
crowded: 2,048 trains over 256 blocks, and 64 sections of four blocks with all trains, more than are answered.
trains: the crowded line, where planners drop trains and put others.

Each of 16 planners has 16 tasks, four of them questions. With the word base the scripts are left out. The rows are
the same at each call."""
import sys

FIRST, FACTOR, STEP, MODULUS = 20_251_127, 1_103_515_245, 12_345, 2_147_483_648
GAP = 295  # seconds from a train's start to the next one's; a week has room for 2,048
WEEK = 604_800


def draws():
    state = FIRST
    while True:
        state = (state * FACTOR + STEP) % MODULUS
        yield state // 65_536


class Line:
    def __init__(self, runs, blocks, spread):
        self.numbers, self.blocks, self.sections = draws(), blocks, 0
        self.rows = ["block,b%03d,%d" % (number, 600 + self.draw(1400)) for number in range(blocks)]
        self.rows += ["signal,s%03d,b%03d,1000,10,5,50,5" % (number, number) for number in range(blocks)]
        self.rows += ["signal,w%03d,b%03d,1000,10,5,50,5" % (number, number) for number in range(blocks)]
        self.rows.append("route,there," + ",".join("s%03d" % number for number in range(blocks)))
        self.rows.append("route,back," + ",".join("w%03d" % number for number in reversed(range(blocks))))
        # Of each run its row without the word, before and after the start, and the start.
        self.runs = [("r%04d,there,%d,10" % (number, 100 + self.draw(300)), 200 + GAP * number, self.legs(spread)) for number in range(runs)]
        self.rows += ["run,%s,%d,%s" % run for run in self.runs]

    def draw(self, below):
        return next(self.numbers) % below

    def legs(self, spread):
        return ",0,".join(str(40 + self.draw(spread)) for _ in range(self.blocks))

    def section(self, start, end, first, last):
        blocks = ",".join("b%03d" % number for number in range(first, last))
        self.rows.append("section,q%02d,%d,%d,33,%s" % (self.sections, start, end, blocks))
        self.sections += 1

    def connections(self):
        for number in range(min(1024, len(self.runs) - 1)):
            self.rows.append("connect,c%04d,r%04d,r%04d,%d" % (number, number, number + 1, self.draw(600)))

    def scripts(self, task):
        for planner in range(1, 17):
            self.rows.append("planner,%d" % planner)
            self.rows += [task(self) if number % 4 < 3 else "ask,q%02d" % self.draw(self.sections) for number in range(16)]


def move(line):
    run, start, legs = line.runs[line.draw(len(line.runs))]
    return "change-run,%s,%d,%s" % (run, start + line.draw(60), legs)


def come_or_go(line):
    """A train is dropped, or one of a new name is put that starts within a minute after it."""
    run, start, legs = line.runs[line.draw(len(line.runs))]
    if line.draw(2):
        return "drop-run," + run.split(",")[0]
    return "run,z%s,%d,%s" % (run, start + line.draw(60), legs)


def connect(line):
    number = line.draw(1023)
    return "change-connect,c%04d,r%04d,r%04d,%d" % (number, number, number + 1, line.draw(600))


def change(line):
    """An edit of some kind on the wide line."""
    block, section = line.draw(256), line.draw(64)
    blocks = ",".join("b%03d" % (4 * section + place) for place in range(4))
    return [
        lambda: move(line),
        lambda: connect(line),
        lambda: "change-signal,s%03d,b%03d,%d,10,5,50,5" % (block, block, line.draw(1500)),
        lambda: "change-block,b%03d,%d" % (block, 600 + line.draw(1400)),
        lambda: "change-section,q%02d,0,%d,%d,%s" % (section, WEEK, line.draw(60), blocks),
    ][line.draw(5)]()


def windows(line):
    """32 sections of all blocks, with 500 trains each."""
    for number in range(32):
        line.section(GAP * 48 * number, GAP * (48 * number + 500), 0, line.blocks)


def parts(line):
    """64 sections of four blocks and all trains."""
    for number in range(64):
        line.section(0, WEEK, 4 * number, 4 * number + 4)


def mid(spread=5, runs=2048):
    line = Line(runs, 128, spread)
    windows(line)
    return line


def connections():
    line = mid()
    line.connections()
    return line


def disorder():
    line = mid(20, 2047)
    line.rows.append("run,back,back,200,10,%d,%s" % (GAP * 1000, line.legs(5)))
    return line


def wide():
    line = Line(700, 256, 5)
    line.connections()
    parts(line)
    return line


def crowded():
    line = Line(2048, 256, 5)
    parts(line)
    return line


KINDS = {
    "mid": (mid, [move]),
    "connections": (connections, [move, move, connect]),
    "disorder": (disorder, [move]),
    "wide": (wide, [change]),
    "crowded": (crowded, [move]),
    "trains": (crowded, [come_or_go]),
}


def main():
    make, tasks = KINDS[sys.argv[1]]
    line = make()
    if sys.argv[2:] != ["base"]:
        line.scripts(lambda line: tasks[line.draw(len(tasks))](line))
    sys.stdout.writelines(row + "\n" for row in line.rows)


if __name__ == "__main__":
    main()
