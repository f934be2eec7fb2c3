#!/usr/bin/env python3
"""Draws the figures of the documents from the rows that the program writes.

    docs/figures/draw.py PROGRAM

PROGRAM is the built program. It is run on inputs of examples/, and the pictures are written beside this script:
blocking-time.svg, two-blocks.svg, an-hour.svg, ring.svg, and crates.svg from crates.txt. Nothing but Python's own
library is used. A picture shows only what rows say: a row that is missing or has other columns ends the script.
"""
import csv
import os
import subprocess
import sys

HERE = os.path.dirname(os.path.abspath(__file__))
ROOT = os.path.dirname(os.path.dirname(HERE))
DARK, GREY, PALE, RED = "#222222", "#777777", "#dddddd", "#b3001b"
FILLS = ["#a9cbe8", "#f6c89f", "#b9dcae", "#d9c2e6", "#f2e3a0", "#f3b8b8", "#bfe0dd"]
EDGES = ["#2b6396", "#a4590f", "#3f7d2c", "#71478e", "#8a7410", "#a33a3a", "#2c7d76"]


class Picture:
    def __init__(self, width, height, title):
        self.width, self.height = width, height
        self.parts = ["<title>%s</title>" % escaped(title)]
        self.rect(0, 0, width, height, "#ffffff")

    def rect(self, x, y, width, height, fill, stroke="none", thick=1, more=""):
        self.parts.append('<rect x="%.1f" y="%.1f" width="%.1f" height="%.1f" fill="%s" stroke="%s" stroke-width="%s"%s/>'
                          % (x, y, width, height, fill, stroke, thick, more))

    def line(self, x1, y1, x2, y2, stroke=DARK, thick=1.0, dash="", arrow=False):
        more = ' stroke-dasharray="%s"' % dash if dash else ""
        more += ' marker-end="url(#tip%s)"' % stroke[1:] if arrow else ""
        self.parts.append('<line x1="%.1f" y1="%.1f" x2="%.1f" y2="%.1f" stroke="%s" stroke-width="%s"%s/>'
                          % (x1, y1, x2, y2, stroke, thick, more))

    def path(self, d, stroke=DARK, thick=1.0, arrow=False, dash=""):
        more = ' stroke-dasharray="%s"' % dash if dash else ""
        more += ' marker-end="url(#tip%s)"' % stroke[1:] if arrow else ""
        self.parts.append('<path d="%s" fill="none" stroke="%s" stroke-width="%s"%s/>' % (d, stroke, thick, more))

    def text(self, x, y, words, size=13, anchor="start", fill=DARK, bold=False, back=False):
        if back:
            wide = len(words) * size * 0.58 + 6
            left = {"start": x - 3, "middle": x - wide / 2, "end": x - wide + 3}[anchor]
            self.rect(left, y - size + 1, wide, size + 4, "#ffffff", more=' fill-opacity="0.85"')
        self.parts.append('<text x="%.1f" y="%.1f" font-size="%s" text-anchor="%s" fill="%s"%s>%s</text>'
                          % (x, y, size, anchor, fill, ' font-weight="bold"' if bold else "", escaped(words)))

    def brace(self, x, top, bottom, words, side=1, stroke=DARK):
        """A measure from top to bottom, with words beside it."""
        self.line(x - 4, top, x + 4, top, stroke)
        self.line(x - 4, bottom, x + 4, bottom, stroke)
        self.line(x, top, x, bottom, stroke)
        y = (top + bottom) / 2 - 8 * (len(words) - 1) + 4
        for k, part in enumerate(words):
            self.text(x + 9 * side, y + 16 * k, part, anchor="start" if side > 0 else "end", fill=stroke)

    def write(self, name):
        tips = "".join('<marker id="tip%s" viewBox="0 0 10 10" refX="9" refY="5" markerWidth="7" markerHeight="7" '
                       'orient="auto-start-reverse"><path d="M0,0 L10,5 L0,10 z" fill="%s"/></marker>' % (c[1:], c)
                       for c in (DARK, GREY, RED))
        with open(os.path.join(HERE, name), "w", encoding="utf-8") as file:
            file.write('<svg xmlns="http://www.w3.org/2000/svg" viewBox="0 0 %d %d" width="%d" height="%d" '
                       'font-family="DejaVu Sans, Helvetica, Arial, sans-serif">\n<defs>%s</defs>\n%s\n</svg>\n'
                       % (self.width, self.height, self.width, self.height, tips, "\n".join(self.parts)))


def escaped(words):
    return words.replace("&", "&amp;").replace("<", "&lt;").replace(">", "&gt;")


# ---- what the program says

def rows_of(program, words, example):
    with open(os.path.join(ROOT, "examples", example), "rb") as file:
        done = subprocess.run([program] + words, stdin=file, capture_output=True)
    if done.returncode != 0:
        sys.exit("%s on %s ended with status %d" % (" ".join(words), example, done.returncode))
    return list(csv.reader(done.stdout.decode("utf-8").splitlines()))


def uses_of(program, example):
    """run -> [(block, start, end, six parts)], in the order of the path."""
    found = {}
    for row in rows_of(program, ["stairs"], example):
        numbers = [int(field) for field in row[3:]]
        found.setdefault(row[1], []).append((row[2], numbers[0], numbers[1], numbers[2:]))
    return found


def input_of(example):
    with open(os.path.join(ROOT, "examples", example), encoding="utf-8", newline="") as file:
        return list(csv.reader(file))


def lengths_of(example):
    return {row[1]: int(row[2]) for row in input_of(example) if row[0] == "block"}


def section_of(example):
    """The blocks of the one section, in its order."""
    return [row for row in input_of(example) if row[0] == "section"][0][5:]


def dwells_of(example):
    """run -> the dwell at the end of each block of its path."""
    rows = input_of(example)
    found = {}
    for row in rows:
        if row[0] == "run":
            times = [seconds_in(field) for field in row[5:]]
            if rows[0][:2] == ["version", "2"]:
                found[row[1]] = [later - earlier for earlier, later in zip(times[1::2], times[2::2])] + [0]
            else:
                found[row[1]] = times[2::2] + [0]
    return found


def seconds_in(field):
    total = 0
    for part in field.split(":"):
        total = total * 60 + int(part)
    return total


def clock(seconds):
    return "%d:%02d:%02d" % (seconds // 3600, seconds // 60 % 60, seconds % 60)


# ---- the six parts of a blocking time

def head_of(uses):
    """When the head comes to the start of each block and to the end of the last: from the parts."""
    form, watch, approach = uses[0][3][:3]
    moments = [uses[0][1] + form + watch + approach]
    for use in uses:
        moments.append(moments[-1] + use[3][3])
    return moments


def draw_blocking_time(program):
    uses = uses_of(program, "two-blocks.csv")["T1"]
    block, start, end, parts = uses[1]
    lengths = lengths_of("two-blocks.csv")
    first, second = lengths[uses[0][0]], lengths[block]
    picture = Picture(760, 630, "The six parts of a blocking time")
    left, top, scale = 40, 90, 3.3

    def x_at(place):
        return left + 60 + place * 0.19

    def y_at(moment):
        return top + (moment - start) * scale

    picture.text(20, 28, "Train T1 keeps block %s from second %d until second %d" % (block, start, end), 16, bold=True)
    for k, (name, place, wide) in enumerate([(uses[0][0], 0, first), (block, first, second)]):
        picture.rect(x_at(place), 50, wide * 0.19, 20, "#eeeeee", GREY)
        picture.text(x_at(place + wide / 2), 65, "block %s" % name, anchor="middle")
    names = ["time for clearing the signal", "signal watching time", "approach time", "time between block signals",
             "clearing time", "release time"]
    picture.text(left + 52, top - 8, "second", 12, "end", GREY)
    moment = start
    for k, (name, length) in enumerate(zip(names, parts)):
        y = y_at(moment)
        picture.rect(x_at(first), y, second * 0.19, length * scale, FILLS[k], EDGES[k])
        picture.text(x_at(first + second) + 12, y + length * scale / 2 + 5, "%s, %d s" % (name, length), fill=EDGES[k])
        moment += length
    shown = start
    for length in [0] + parts:
        shown += length
        picture.line(x_at(0) - 18, y_at(shown), x_at(first), y_at(shown), PALE)
        picture.text(left + 36, y_at(shown) + 5, str(shown), 12, "end", GREY)
    moments = head_of(uses)
    points = [(0, moments[0]), (first, moments[1]), (first + second, moments[2])]
    for (x1, t1), (x2, t2) in zip(points, points[1:]):
        picture.line(x_at(x1), y_at(t1), x_at(x2), y_at(t2), DARK, 2.5)
    train = int([row for row in input_of("two-blocks.csv") if row[:2] == ["run", "T1"]][0][3])
    rear = [(x - train, t) for x, t in points]
    for (x1, t1), (x2, t2) in zip(rear, rear[1:]):
        picture.line(x_at(x1), y_at(t1), x_at(x2), y_at(t2), GREY, 1.5, "5,4")
    picture.line(x_at(rear[-1][0]), y_at(rear[-1][1]), x_at(first + second), y_at(moments[2] + parts[4]), GREY, 1.5, "5,4")
    picture.text(x_at(first * 0.5) + 14, y_at((moments[0] + moments[1]) / 2) - 6, "head", 13, back=True)
    picture.text(x_at(first * 0.5) - 62, y_at((moments[0] + moments[1]) / 2) + 30, "rear", 13, fill=GREY, back=True)
    picture.line(x_at(first), 70, x_at(first), y_at(end) + 14, DARK, 1.2, "2,3")
    picture.text(x_at(first), y_at(end) + 28, "signal of %s" % block, 12, "middle")
    picture.line(x_at(0), 70, x_at(0), y_at(end) + 14, DARK, 1.2, "2,3")
    picture.text(x_at(0), y_at(end) + 28, "approach point", 12, "middle")
    picture.write("blocking-time.svg")


# ---- stairways

def shifts_of(rows):
    return {row[1]: int(row[4]) for row in rows if row[0] == "train"}


def draw_two_blocks(program):
    example = "two-blocks.csv"
    uses, lengths, blocks = uses_of(program, example), lengths_of(example), section_of(example)
    answer = rows_of(program, ["compress", "S"], example)
    headway = [row for row in rows_of(program, ["headways", "S"], example) if row[1:3] == ["T1", "T2"]][0][3]
    shifts = shifts_of(answer)
    ordered = [row for row in answer if row[0] == "ordered"][0]
    occupancy, busiest = int(ordered[3]), ordered[4]
    picture = Picture(860, 640, "Two stairways, planned and compressed")
    top, scale, wide = 84, 0.95, 0.12
    for panel, (title, left) in enumerate([("planned", 70), ("compressed", 480)]):
        picture.text(left + 120, 26, title, 16, "middle", bold=True)
        x = left
        for name in blocks:
            picture.rect(x, 40, lengths[name] * wide, 20, "#eeeeee", GREY)
            picture.text(x + lengths[name] * wide / 2, 55, "block %s" % name, anchor="middle")
            x += lengths[name] * wide
        for moment in range(0, 601, 100):
            y = top + moment * scale
            picture.line(left - 6, y, left + 240, y, PALE)
            picture.text(left - 10, y + 4, str(moment), 12, "end", GREY)
        for k, run in enumerate(sorted(uses)):
            shift = shifts[run] if panel else 0
            x = left
            moments = head_of(uses[run])
            for j, (block, start, end, _) in enumerate(uses[run]):
                y, tall = top + (start + shift) * scale, (end - start) * scale
                picture.rect(x, y, lengths[block] * wide, tall, FILLS[k], EDGES[k], 1.2)
                picture.text(x + lengths[block] * wide - 6, y + 15, "%d" % (start + shift), 12, "end", EDGES[k])
                picture.text(x + 6, y + tall - 6, "%d" % (end + shift), 12, fill=EDGES[k])
                picture.line(x, top + (moments[j] + shift) * scale, x + lengths[block] * wide,
                             top + (moments[j + 1] + shift) * scale, EDGES[k], 2)
                x += lengths[block] * wide
            entry = min(use[1] for use in uses[run]) + shift
            picture.text(left + 62, top + (entry + 24) * scale, run, 14, "middle", EDGES[k], True)
        if panel:
            entries = [min(use[1] for use in uses[run]) + shifts[run] for run in sorted(uses)]
            picture.brace(left - 48, top + entries[0] * scale, top + entries[1] * scale,
                          ["headway", "%s s" % headway], -1, RED)
            kept = [use for run in uses for use in uses[run] if use[0] == busiest]
            first = min(use[1] + shifts[run] for run in uses for use in uses[run] if use[0] == busiest)
            picture.brace(left + 254, top + first * scale, top + (first + occupancy) * scale,
                          ["occupancy", "time %d s," % occupancy, "on %s" % busiest], 1, RED)
            assert kept
        else:
            entries = [min(use[1] for use in uses[run]) for run in sorted(uses)]
            picture.brace(left + 254, top + entries[0] * scale, top + entries[1] * scale,
                          ["planned", "%d s" % (entries[1] - entries[0])], 1, GREY)
    picture.text(60, 66, "second", 12, "end", GREY)
    picture.write("two-blocks.svg")


def draw_an_hour(program):
    example = "an-hour.csv"
    uses, lengths, blocks = uses_of(program, example), lengths_of(example), section_of(example)
    answer = rows_of(program, ["compress", "Line"], example)
    shifts, dwells = shifts_of(answer), dwells_of(example)
    entries = {row[1]: int(row[3]) for row in answer if row[0] == "train"}
    links = [row[1:] for row in answer if row[0] == "link"]
    ordered = [row for row in answer if row[0] == "ordered"][0]
    occupancy, busiest = int(ordered[3]), ordered[4]
    picture = Picture(990, 1100, "An hour, compressed, with its critical chain")
    left, top, wide, scale = 150, 96, 0.052, 0.375
    starts, x = {}, left
    for name in blocks:
        starts[name] = x
        picture.rect(x, 60, lengths[name] * wide, 20, "#eeeeee", GREY)
        picture.text(x + lengths[name] * wide / 2, 75, name, 12, anchor="middle")
        x += lengths[name] * wide
    right = x
    picture.text(20, 28, "An hour on ten blocks, compressed: why %s leaves %s no earlier" % (links[-1][2], busiest), 16, bold=True)
    origin = min(entries.values())

    def y_at(moment):
        return top + (moment - origin) * scale

    last = max(use[2] + shifts[run] for run in uses for use in uses[run])
    for moment in range(origin, last + 300, 300):
        picture.line(left - 66, y_at(moment), right, y_at(moment), PALE)
        picture.text(left - 72, y_at(moment) + 4, clock(moment), 12, "end", GREY)
    order = sorted(entries, key=lambda run: (entries[run], run))
    spans = {}
    for k, run in enumerate(order):
        for block, start, end, _ in uses[run]:
            start, end = start + shifts[run], end + shifts[run]
            spans[run, block] = (start, end)
            picture.rect(starts[block], y_at(start), lengths[block] * wide, (end - start) * scale, FILLS[k], EDGES[k], 0.8)
        moments = [moment + shifts[run] for moment in head_of(uses[run])]
        for j, (block, _, _, _) in enumerate(uses[run]):
            x, end = starts[block], starts[block] + lengths[block] * wide
            arrival = moments[j + 1] - dwells[run][j]
            picture.line(x, y_at(moments[j]), end, y_at(arrival), EDGES[k], 1.2)
            picture.line(end, y_at(arrival), end, y_at(moments[j + 1]), EDGES[k], 2.4)
    for k, run in enumerate(order):
        block = uses[run][0][0]
        start, end = spans[run, block]
        picture.text(starts[block] - 8, y_at((start + end) / 2) + 4, run, 13, "end", EDGES[k], True, True)
    for number, (one, place, other) in enumerate(links, 1):
        if place in starts:
            y = y_at(spans[one, place][1])
            assert spans[one, place][1] == spans[other, place][0]
            x1, x2 = starts[place], starts[place] + lengths[place] * wide
            picture.line(x1, y, x2, y, RED, 4)
            if x1 > (left + right) / 2:
                picture.text(right + 12, y + 5, "%d" % number, 14, fill=RED, bold=True)
            else:
                picture.text(x1 - 4, y + 5, "%d" % number, 14, "end", RED, True)
        else:
            # a connection: from the end of the first train's path to the start of the second
            block = uses[one][-1][0]
            x = starts[block] + lengths[block] * wide
            arrival = head_of(uses[one])[-1] + shifts[one]
            start = head_of(uses[other])[0] + shifts[other]
            picture.line(x, y_at(arrival), x, y_at(start), RED, 3.5, "7,4")
            picture.text(x + 8, y_at((arrival + start) / 2) + 12, "%d" % number, 14, fill=RED, bold=True)
    y = y_at(last) + 40
    picture.text(left, y, "The chain. Each link is a train that leaves a place as the next train comes there:", 13, bold=True, fill=RED)
    for number, (one, place, other) in enumerate(links, 1):
        kind = "at" if place in starts else "by connection"
        words = "%d  %s, then %s, %s %s" % (number, one, other, kind, place)
        picture.text(left + (number - 1) // 3 * 360, y + 20 + (number - 1) % 3 * 18, words, 13)
    begin = min(span[0] for (run, block), span in spans.items() if block == busiest)
    picture.brace(right + 42, y_at(begin), y_at(begin + occupancy), ["%s kept" % busiest, "%d s" % occupancy], 1, DARK)
    picture.write("an-hour.svg")


# ---- a ring

def draw_ring(program):
    example = "ring.csv"
    uses, blocks = uses_of(program, example), section_of(example)
    answer = rows_of(program, ["compress", "S"], example)
    links = [row[1:] for row in answer if row[0] == "link"]
    picture = Picture(940, 330, "Three trains that wait for one another")
    runs = sorted(uses)
    left, top, scale = 60, 74, 1.9
    picture.text(20, 28, "Planned uses of the three blocks", 15, bold=True)
    first = min(use[1] for run in uses for use in uses[run])
    last = max(use[2] for run in uses for use in uses[run])
    for moment in range((first // 50) * 50, last + 50, 50):
        x = left + (moment - 50) * scale
        picture.line(x, top - 8, x, top + 200, PALE)
        picture.text(x, top - 14, str(moment), 12, "middle", GREY)
    for row, block in enumerate(blocks):
        y = top + row * 70
        picture.text(left - 12, y + 30, block, 14, "end", bold=True)
        here = sorted((use[1], use[2], run) for run in runs for use in uses[run] if use[0] == block)
        for place, (start, end, run) in enumerate(here):
            k = runs.index(run)
            picture.rect(left + (start - 50) * scale, y + place * 27, (end - start) * scale, 23, FILLS[k], EDGES[k])
            picture.text(left + (start - 50) * scale + 6, y + place * 27 + 16, "%s %d to %d" % (run, start, end), 12, fill=EDGES[k])
    picture.text(500, 28, "Who goes first: a ring", 15, bold=True, fill=RED)
    middle, spots = (660, 190), {}
    corners = [(660, 80), (770, 260), (550, 260)]
    order = [link[0] for link in links]
    for run, spot in zip(order, corners):
        spots[run] = spot
    for one, place, other in links:
        (x1, y1), (x2, y2) = spots[one], spots[other]
        far = ((x2 - x1) ** 2 + (y2 - y1) ** 2) ** 0.5
        dx, dy = (x2 - x1) / far, (y2 - y1) / far
        picture.line(x1 + dx * 28, y1 + dy * 28, x2 - dx * 30, y2 - dy * 30, RED, 2.2, arrow=True)
        mx, my = (x1 + x2) / 2, (y1 + y2) / 2
        ox, oy = mx - middle[0], my - middle[1]
        size = (ox ** 2 + oy ** 2) ** 0.5
        picture.text(mx + ox / size * 24, my + oy / size * 18 + 5, place, 14, "middle", RED, True)
    for run in order:
        k = runs.index(run)
        x, y = spots[run]
        picture.parts.append('<circle cx="%d" cy="%d" r="25" fill="%s" stroke="%s" stroke-width="1.5"/>' % (x, y, FILLS[k], EDGES[k]))
        picture.text(x, y + 5, run, 15, "middle", EDGES[k], True)
    picture.text(500, 310, "An arrow leads from a train to one that it precedes on that block.", 12, fill=GREY)
    picture.write("ring.svg")


# ---- the map of the crates

def crates_of():
    found = {}
    with open(os.path.join(ROOT, "crates.txt"), encoding="utf-8") as file:
        for line in file:
            if line.strip() and not line.startswith("#"):
                name, needs = line.split(":")
                found[name.strip()] = needs.split()
    return found


def draw_crates():
    needs = crates_of()
    tests = [name for name in needs if name.startswith("acceptance_") or name in ("small_lines", "whole_texts")]
    crates = [name for name in needs if name not in tests]
    own = {name: [other for other in needs[name] if other in crates] for name in crates}
    outside = sorted({other for name in needs for other in needs[name] if other not in needs})
    below = {}
    for name in crates:
        below[name] = set(own[name])
        for other in own[name]:
            below[name] |= below[other]
    direct = {name: [other for other in own[name] if not any(other in below[third] for third in own[name])]
              for name in crates}
    level = {}
    for name in crates:
        level[name] = 1 + max([level[other] for other in direct[name]], default=-1)
    levels = max(level.values()) + 1
    # a line over several levels gets a joint on each level between, so that it goes round the boxes there
    rows = [[name for name in crates if level[name] == k] for k in range(levels)]
    pairs, chains = [], []
    for name in crates:
        for other in direct[name]:
            chain = [name] + [(name, other, k) for k in range(level[name] - 1, level[other], -1)] + [other]
            for joint in chain[1:-1]:
                rows[joint[2]].append(joint)
            chains.append(chain)
            pairs += list(zip(chain, chain[1:]))
    up, down = {}, {}
    for high, low in pairs:
        down.setdefault(high, []).append(low)
        up.setdefault(low, []).append(high)
    x_of = placed_in(rows, up, down)
    left = min(x - wide_of(item) / 2 for item, x in x_of.items())
    right = max(x + wide_of(item) / 2 for item, x in x_of.items())
    step, tall = 78, 30
    picture = Picture(int(right - left) + 40, 112 + levels * step + 60, "The crates and what they stand on")
    picture.text(20, 28, "The crates: a line leads from a crate down to one that it stands on", 16, bold=True)
    picture.text(20, 48, "Lines that follow from others are left out.", 12, fill=GREY)

    def spot(item):
        k = level[item] if isinstance(item, str) else item[2]
        return x_of[item] - left + 20, 76 + (levels - 1 - k) * step

    for chain in chains:
        x, y = spot(chain[0])
        d = "M%.1f,%.1f" % (x, y + tall)
        at = (x, y + tall)
        for item in chain[1:]:
            x, y = spot(item)
            half = (y - at[1]) / 2
            d += " C%.1f,%.1f %.1f,%.1f %.1f,%.1f" % (at[0], at[1] + half, x, y - half, x, y)
            at = (x, y)
            if not isinstance(item, str):
                d += " L%.1f,%.1f" % (x, y + tall)
                at = (x, y + tall)
        picture.path(d, "#8a8a8a", 1)
    for name in crates:
        x, y = spot(name)
        k = 1 if name == "capacity" else 0
        picture.rect(x - wide_of(name) / 2, y, wide_of(name), tall, "#fdf1e3" if k else "#e6f0f8", EDGES[1 if k else 0], 1, ' rx="4"')
        picture.text(x, y + 20, name, 13, "middle")
    y = 76 + levels * step + 6
    for line in folded("Crates of tests stand above these: " + ", ".join(tests) + ".", int((right - left) / 7)):
        picture.text(20, y, line, 12, fill=GREY)
        y += 17
    picture.text(20, y + 6, "From the kit: " + ", ".join(outside) + ".", 12, fill=GREY)
    picture.write("crates.svg")


def wide_of(item):
    return len(item) * 7.8 + 20 if isinstance(item, str) else 8


def placed_in(rows, up, down):
    """The middle of each item: rows are put in an order with few crossings, then items are drawn to their neighbours."""
    place = {}

    def spread(row):
        for k, item in enumerate(row):
            place[item] = (k + 0.5) / len(row)

    def crossings():
        count = 0
        for k in range(1, len(rows)):
            lines = [(place[high], place[low]) for high in rows[k] for low in down.get(high, [])]
            count += sum(1 for i, a in enumerate(lines) for b in lines[:i] if (a[0] - b[0]) * (a[1] - b[1]) < 0)
        return count

    for row in rows:
        spread(row)
    best, kept = None, None
    for turn in range(60):
        near = down if turn % 2 == 0 else up
        for row in (rows if turn % 2 == 0 else rows[::-1]):
            row.sort(key=lambda it: sum(place[o] for o in near[it]) / len(near[it]) if near.get(it) else place[it])
            spread(row)
        now = crossings()
        if best is None or now < best:
            best, kept = now, [list(row) for row in rows]
    gap, middle = 12, {}
    for row in kept:
        whole = sum(wide_of(item) + gap for item in row)
        x = -whole / 2
        for item in row:
            middle[item] = x + (wide_of(item) + gap) / 2
            x += wide_of(item) + gap
    for turn in range(80):
        for row in kept:
            for item in row:
                near = up.get(item, []) + down.get(item, [])
                if near:
                    middle[item] += 0.5 * (sum(middle[o] for o in near) / len(near) - middle[item])
            # keep items apart: pushed to the right, then to the left, and half of each
            rightmost, leftmost = {}, {}
            edge = None
            for item in row:
                half = wide_of(item) / 2
                rightmost[item] = middle[item] if edge is None else max(middle[item], edge + gap + half)
                edge = rightmost[item] + half
            edge = None
            for item in row[::-1]:
                half = wide_of(item) / 2
                leftmost[item] = middle[item] if edge is None else min(middle[item], edge - gap - half)
                edge = leftmost[item] - half
            for item in row:
                middle[item] = (rightmost[item] + leftmost[item]) / 2
    return middle


def folded(words, most):
    lines, line = [], ""
    for word in words.split(" "):
        if line and len(line) + 1 + len(word) > most:
            lines.append(line)
            line = word
        else:
            line = (line + " " + word).strip()
    return lines + [line]


def main():
    if len(sys.argv) != 2:
        sys.exit("usage: docs/figures/draw.py PROGRAM")
    program = os.path.abspath(sys.argv[1])
    draw_blocking_time(program)
    draw_two_blocks(program)
    draw_an_hour(program)
    draw_ring(program)
    draw_crates()


main()
