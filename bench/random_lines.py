#!/usr/bin/env python3
"""Makes random inputs and words for bench/differential.py: bench/random_lines.py SEED writes one of them.

An input is a small line, mostly accepted: tracks of one way or both, networks, stations, circles, trains that come back over
several patterns, many trains at one moment. Numbers are round ones, so that trains touch at equal seconds, or any, or those at
the limits. An edit is a tuple of its verb, its kind, its name and its other fields; `Line` knows the rules of docs/FORMATS.md,
so that edits can be made that each rule refuses, or none.
"""
import itertools
import random
import re
import sys

KINDS = ["block", "signal", "route", "run", "section", "connect"]
LIMITS = {"block": 4096, "signal": 8192, "route": 4096, "run": 2048, "section": 64, "connect": 1024}
DAY, WEEK, FAR = 86_400, 604_800, 1_000_000
RULES = ["range", "twice", "unknown", "count", "in-use"]
CLASSES = {18: ["suburban-peak"], 43: ["suburban-day"], 33: ["highspeed-peak", "mixed-peak"], 67: ["highspeed-day", "mixed-day"]}

# Numbers of each sort: round ones, any, and those at the limits.
NUMBERS = {
    "length": ([100, 200, 500, 1000], range(1, 2000), [1, 2, 999_999, FAR]),
    "approach": ([0, 0, 100, 500, 1000], range(3000), [0, 1, FAR]),
    "watch": ([0, 5, 10], range(30), [0, 1, DAY]),
    "form": ([0, 5, 10], range(30), [0, 1, DAY]),
    "overlap": ([0, 0, 50, 100], range(300), [0, 1, FAR]),
    "release": ([0, 5, 10], range(30), [0, 1, DAY]),
    "train": ([50, 100, 200], range(1, 800), [1, 999_999, FAR]),
    "tail": ([0, 10], range(40), [0, DAY]),
    "running": ([10, 20, 30, 60], range(1, 200), [1, DAY]),
    "dwell": ([0, 0, 0, 10, 30], [0, 0, 0, *range(90)], [0, 0, 0, 1, DAY]),
    "minimum": ([0, 0, 10, 60, 120], range(900), [0, 1, DAY]),
}
# Beginnings of names: what CSV quotes, words of rows, blanks, control characters that are none of ASCII's, signs of all lengths.
ODD = ["", "a,b", 'say "so"', '"', ",", " ", "é", "Ü", "ß", "日本", "𝔘", "\u0080", "\u00a0", "\u2028", "\ufeff", "\uffff", "=", "-", "'", "0", "~"]
ODD += ["start", "after", "ask", "drop-", "e\u0301", "a" * 61, "é" * 30]


# ---- the rules


def number_fields(kind, fields):
    """The places of an item's numbers, with their limits."""
    if kind == "block":
        yield 0, 1, FAR
    elif kind == "signal":
        yield from [(1, 0, FAR), (2, 0, DAY), (3, 0, DAY), (4, 0, FAR), (5, 0, DAY)]
    elif kind == "run":
        yield from [(1, 1, FAR), (2, 0, DAY), (3, 0, WEEK)]
        yield from ((place, (place + 1) % 2, DAY) for place in range(4, len(fields)))
    elif kind == "section":
        yield from [(0, 0, WEEK), (1, 1, 2 * WEEK), (2, 0, 1000)]
    elif kind == "connect":
        yield 2, 0, DAY


def named(kind, fields):
    """The kind and the names of the items that an item names."""
    if kind == "signal":
        return "block", fields[:1]
    if kind == "route":
        return "signal", fields
    if kind == "run":
        return "route", fields[:1]
    if kind == "section":
        return "block", fields[3:]
    return "run", fields[:2] if kind == "connect" else []


class Line:
    """The items that edits put, and the edits of the base."""

    def __init__(self, items=None):
        self.items = {kind: dict(items[kind]) if items else {} for kind in KINDS}
        self.edits = []

    def rule(self, edit):
        """The first rule that refuses an edit."""
        verb, kind, name, fields = edit
        own = self.items[kind]
        others = self.items[{"block": "connect", "connect": "block"}[kind]] if kind in ("block", "connect") else {}
        if verb != "drop-" and not self.is_in_range(kind, fields):
            return "range"
        if verb == "":
            if name in own or name in others:
                return "twice"
            if len(own) == LIMITS[kind]:
                return "limit"
        elif name not in own:
            return "unknown"
        if verb == "drop-":
            return "in-use" if self.is_used(kind, name) else None
        return self.rule_of_names(kind, name, fields)

    def is_in_range(self, kind, fields):
        if kind == "section" and fields[0] >= fields[1]:
            return False
        return all(low <= fields[place] <= high for place, low, high in number_fields(kind, fields))

    def is_used(self, kind, name):
        for other in KINDS:
            for fields in self.items[other].values():
                to, names = named(other, fields)
                if to == kind and name in names:
                    return True
        return False

    def rule_of_names(self, kind, name, fields):
        to, names = named(kind, fields)
        if any(other not in self.items[to] for other in names):
            return "unknown"
        if kind == "signal":
            routes = [route for route in self.items["route"].values() if name in route]
            blocks = [[fields[0] if other == name else self.items["signal"][other][0] for other in route] for route in routes]
        else:
            blocks = [[self.items["signal"][other][0] for other in names] if kind == "route" else names]
        if any(len(set(some)) < len(some) for some in blocks):
            return "twice"
        if kind == "run":
            return None if len(self.items["route"][fields[0]]) == (len(fields) - 3) // 2 else "count"
        runs = self.items["run"].values() if kind == "route" else []
        return "count" if any(run[0] == name and len(fields) != (len(run) - 3) // 2 for run in runs) else None

    def take(self, edit):
        """Makes an edit, if no rule refuses it."""
        verb, kind, name, fields = edit
        if self.rule(edit):
            return False
        if verb == "drop-":
            del self.items[kind][name]
        else:
            self.items[kind][name] = fields
        self.edits.append(edit)
        return True


# ---- the spelling of rows

QUOTED = re.compile('[,"\n\r]')


def canonical(edit):
    """An edit's fields, as the journal writes them."""
    verb, kind, name, fields = edit
    return [verb + kind, name, *map(str, fields)]


class Spelling:
    """How the rows of one input are written."""

    def __init__(self, dice):
        self.dice = dice
        self.version = dice.choice([0, 0, 1, 2, 2])
        self.clock = dice.choice([0, 0.5, 1])
        self.odd = dice.choice([0, 0, 0.1])
        self.end = dice.choice(["\n"] * 5 + ["\r\n", "\r", None])
        self.blank = dice.choice([0, 0, 0, 0.1])

    def number(self, number):
        return "%09d" % number if self.dice.random() < self.odd else str(number)

    def time(self, time):
        if self.dice.random() >= self.clock or time >= 360_000_000:
            return self.number(time)
        hours = "%0*d" % (self.dice.choice([1, 1, 2, 5]), time // 3600)
        return "%s:%02d:%02d" % (hours, time // 60 % 60, time % 60)

    def rate(self, rate):
        return self.dice.choice(CLASSES[rate]) if rate in CLASSES and self.dice.random() < 0.3 else self.number(rate)

    def fields(self, edit):
        verb, kind, name, fields = edit
        spelled = [field if isinstance(field, str) else self.number(field) for field in fields]
        if kind == "section" and fields:
            spelled[2] = self.rate(fields[2])
        if self.version == 2 and kind == "section" and fields:
            spelled[:2] = [self.time(time) for time in fields[:2]]
        if self.version == 2 and kind == "run" and fields:
            spelled[3:] = [self.time(moment) for moment in itertools.accumulate(fields[3:])]
        return [verb + kind, name, *spelled]

    def rows(self, edits):
        version = [["version", "%d" % self.version]] if self.version else []
        return version + [edit if isinstance(edit, list) else self.fields(edit) for edit in edits]

    def field(self, field):
        if QUOTED.search(field) or self.dice.random() < self.odd / 5:
            return '"%s"' % field.replace('"', '""')
        return field

    def text(self, rows):
        dice, out = self.dice, []
        for row in rows:
            out.append(",".join(map(self.field, row)))
            out.append(self.end or dice.choice(["\n", "\r\n", "\r"]))
            if dice.random() < self.blank:
                out.append(dice.choice(["\n", "\r\n", "\r", "\n\n\n"]))
        if out and dice.random() < 0.1:
            out.pop()
        mark = "\ufeff" if dice.random() < 0.05 else ""
        return (mark + "".join(out)).encode("utf-8", "surrogateescape")


# ---- lines


class Maker:
    """Draws the items of a line."""

    def __init__(self, dice):
        self.dice, self.line = dice, Line()
        self.scale = dice.choice([0] * 5 + [1] * 4 + [2])
        self.style = dice.choice(["plain"] * 3 + ["numbered"] * 2 + ["same", "odd"])
        self.begins = [dice.choice(ODD) for _ in range(3)]
        self.pace = {}

    def draw(self, sort):
        scale = self.scale
        if scale == 2 and self.dice.random() < 0.7:
            scale = 1
        return self.dice.choice(NUMBERS[sort][scale])

    def name(self, kind, number):
        letter = {"block": "B", "signal": "S", "route": "R", "run": "T", "section": "Q", "connect": "C"}[kind]
        if self.style == "numbered":
            return "%s%d" % (letter.lower(), number * 7919 % 10_007)
        if self.style == "same":
            return "%s%d" % ("y" if kind == "connect" else "x", number)
        begin = self.begins[number % 3] if self.style == "odd" else ""
        return begin + letter + str(number)

    def known(self, kind, items=None):
        """The name of an item that is there, or now and then of none."""
        names = (items or self.line.items)[kind]
        if not names or self.dice.random() < 0.02:
            return self.name(kind, self.dice.randrange(40))
        return self.dice.choice(list(names))

    def put(self, kind, number, fields):
        name = self.name(kind, number)
        return name if self.line.take(("", kind, name, fields)) else None

    def signal_fields(self, block, is_near=False):
        fields = [block, *(self.draw(sort) for sort in ["approach", "watch", "form", "overlap", "release"])]
        return [block, 0, *fields[2:]] if is_near else fields

    def track(self, count, both_ways=False, is_near=False):
        """Blocks, each with a signal or with one for each way, which may be seen from nowhere else; the signals of both ways."""
        blocks = [self.put("block", number, [self.draw("length")]) for number in range(count)]
        there = [self.put("signal", number, self.signal_fields(block, is_near)) for number, block in enumerate(blocks)]
        if not both_ways:
            return there, there
        return there, [self.put("signal", count + number, self.signal_fields(block)) for number, block in enumerate(blocks)]

    def route(self, signals):
        """The name of the route over these signals."""
        routes = self.line.items["route"]
        for name, other in routes.items():
            if other == signals:
                return name
        return self.put("route", len(routes), list(signals))

    def legs(self, signals, is_even):
        legs = []
        for signal in signals:
            if is_even and signal not in self.pace:
                self.pace[signal] = self.draw("running")
            legs += [self.pace[signal] if is_even else self.draw("running"), 0 if is_even else self.draw("dwell")]
        return legs[:-1]

    def run(self, signals, start, is_even=False):
        fields = [self.route(signals), self.draw("train"), self.draw("tail"), start, *self.legs(signals, is_even)]
        return self.put("run", len(self.line.items["run"]), fields)

    def starts(self, count):
        """Starts one after the other, some close, some far, some together."""
        dice = self.dice
        pace = dice.choice([0, 10, 60, 120, 300, 300, 900, 900])
        start, starts = dice.choice([0, 50, 100, 100, 1000]), []
        for _ in range(count):
            starts.append(min(start, WEEK))
            start += dice.choice([0, pace, pace, pace + 10]) if self.scale == 0 else dice.randrange(pace + 20)
        if dice.random() < 0.3:
            dice.shuffle(starts)
        return starts

    def window(self):
        dice = self.dice
        runs = list(self.line.items["run"].values())
        near = dice.choice(runs)[3] if runs else 0
        start = dice.choice([0] * 6 + [near] + [max(0, near - dice.choice([5, 10, 15, 20]))] * 2)
        return [start, min(start + dice.choice([1, 100] + [600, 1800, 3600, 3600, 7200, DAY, WEEK] * 2), 2 * WEEK)]

    def rate(self):
        return self.dice.choice([0, 18, 33, 33, 43, 67, 100, 1000, self.dice.randrange(1001)])

    def some_blocks(self):
        dice, blocks = self.dice, list(self.line.items["block"])
        first = dice.randrange(len(blocks))
        part = blocks[first : dice.randrange(first, len(blocks)) + 1]
        return dice.choice([blocks, blocks, part, part, blocks[first:] + blocks[:first], dice.sample(blocks, len(part))])[:256]

    def sections(self, most=3):
        for number in range(self.dice.randrange(most + 1) if self.dice.random() < 0.1 else self.dice.randrange(1, most + 1)):
            if self.line.items["block"]:
                self.put("section", number, [*self.window(), self.rate(), *self.some_blocks()])

    def connections(self, most=4):
        dice, runs = self.dice, list(self.line.items["run"])
        for number in range(dice.randrange(most + 1) if len(runs) > 1 and dice.random() < 0.5 else 0):
            first, second = dice.sample(runs, 2)
            if dice.random() < 0.8 and self.line.items["run"][second][3] < self.line.items["run"][first][3]:
                first, second = second, first
            self.put("connect", number, [first, second, self.draw("minimum")])


def part_of(dice, signals):
    """All signals of a way, or those of a part of it."""
    if dice.random() < 0.5:
        return signals
    first = dice.randrange(len(signals))
    return signals[first : dice.randrange(first, len(signals)) + 1]


def make_way(maker, runs, blocks, both_ways=0.0, is_even=None):
    """A track; trains over all or parts of it, of equal running times or not."""
    dice = maker.dice
    there, back = maker.track(blocks, both_ways > 0)
    is_even = dice.random() < 0.6 if is_even is None else is_even
    for start in maker.starts(runs):
        if dice.random() < both_ways:
            maker.run(part_of(dice, back[::-1]), start, is_even)
        else:
            maker.run(part_of(dice, there), start, is_even and dice.random() < 0.9)


def make_network(maker):
    dice = maker.dice
    there, _ = maker.track(dice.randrange(1, 7), False)
    for start in maker.starts(dice.randrange(1, 9)):
        maker.run(dice.sample(there, dice.randrange(1, len(there) + 1)), start)


def make_station(maker):
    """Tracks on both sides of a station where trains overtake or cross."""
    dice = maker.dice
    left, tracks, right = dice.randrange(1, 4), dice.randrange(2, 4), dice.randrange(1, 4)
    both_ways = dice.random() < 0.5
    there, back = maker.track(left + tracks + right, both_ways)
    for start in maker.starts(dice.randrange(2, 9)):
        way = back if both_ways and dice.random() < 0.5 else there
        path = way[:left] + [dice.choice(way[left : left + tracks])] + way[left + tracks :]
        maker.run(path[::-1] if way is back and both_ways else path, start, dice.random() < 0.3)
    blocks = list(maker.line.items["block"])
    for number, part in enumerate([blocks[:left], blocks[left + tracks :]]):
        maker.put("section", 10 + number, [*maker.window(), maker.rate(), *part])


def make_circle(maker):
    """Trains of which each holds what the one behind it wants."""
    dice = maker.dice
    blocks, start = dice.randrange(3, 7), dice.choice([50, 100, 1000])
    there, _ = maker.track(blocks, False, dice.random() < 0.8)
    for number in range(dice.randrange(2, 12)):
        first = number % blocks if dice.random() < 0.9 else dice.randrange(blocks)
        path = [there[(first + step) % blocks] for step in range(dice.choice([1, 2, 2, 2, 2, 2, 3]))]
        maker.run(path, start + dice.choice([0, 0, 0, 10]), dice.random() < 0.8)
    maker.put("section", 10, [0, dice.choice([3600, WEEK]), maker.rate(), *maker.line.items["block"]])


def make_crossed(maker):
    """Trains of which each comes to one block early and to another late, so that rings go over several patterns."""
    dice = maker.dice
    laps = dice.randrange(2, 4)
    there, _ = maker.track(2 * laps + dice.randrange(3), False, dice.random() < 0.7)
    early, late, more = there[:laps], there[laps : 2 * laps], there[2 * laps :]
    paths = [[early[lap], *dice.sample(more, dice.randrange(len(more) + 1)), late[lap]] for lap in range(laps)]
    paths += [[late[lap], *dice.sample(more, dice.randrange(len(more) + 1)), early[(lap + 1) % laps]] for lap in range(laps)]
    start = 100
    for path in paths:
        maker.run(path, start)
        start += dice.choice([300, 2000, 2500])
    maker.put("section", 10, [0, WEEK, 33, *maker.line.items["block"]])


def make_crowd(maker):
    """Some 768 trains on one or two blocks, close to each other or all at one moment."""
    dice = maker.dice
    there, _ = maker.track(dice.randrange(1, 3), False)
    pace, count = dice.choice([0, 1, 20, 300]), dice.choice([767, 768, 769, 770, 900])
    for number in range(count):
        maker.run(there if number % 7 else there[:1], 100 + pace * number, True)
    for number in range(dice.randrange(1, 3)):
        end = dice.choice([WEEK, 100 + pace * (count - dice.choice([0, 1, 2, 300])) + 1])
        maker.put("section", number, [0, max(1, min(end, WEEK)), maker.rate(), *maker.line.items["block"]])


def make_many(maker):
    """More trains or blocks than one thread takes, or items up to a limit."""
    dice = maker.dice
    kind = dice.randrange(5)
    if kind < 2:
        make_way(maker, dice.randrange(64, 200), dice.randrange(8, 30), dice.choice([0, 0, 0.1]), True)
    elif kind == 2:
        make_way(maker, dice.randrange(8, 40), dice.randrange(64, 257), 0, dice.random() < 0.7)
    else:
        make_way(maker, dice.randrange(2, 6), dice.randrange(2, 5))
        blocks, runs = list(maker.line.items["block"]), list(maker.line.items["run"])
        for number in range(dice.choice([63, 64]) if kind == 3 else 0):
            maker.put("section", number, [*maker.window(), maker.rate(), dice.choice(blocks)])
        for number in range(dice.choice([1023, 1024]) if kind == 4 else 0):
            maker.put("connect", number, [*dice.sample(runs, 2), maker.draw("minimum")])


def make_gathered(maker):
    """Trains that all come at one moment, so that conflicts are more than are listed."""
    make_way(maker, maker.dice.randrange(100, 160), maker.dice.randrange(1, 4), 0, True)
    for name, fields in list(maker.line.items["run"].items()):
        maker.line.take(("change-", "run", name, fields[:3] + [500] + fields[4:]))


def make_limit(maker):
    """As many items of a kind as may be, or one less."""
    kind = maker.dice.choice(KINDS[:4])
    make_way(maker, 1, 1, 0, True)
    fields = {kind: next(iter(items.values())) for kind, items in maker.line.items.items() if items}[kind]
    for number in range(1, LIMITS[kind] - maker.dice.randrange(2)):
        maker.put(kind, number, fields)


FAMILIES = [
    (24, lambda maker: make_way(maker, maker.dice.randrange(1, 9), maker.dice.randrange(1, 8))),
    (12, lambda maker: make_way(maker, maker.dice.randrange(4, 20), maker.dice.randrange(2, 7), 0, True)),
    (14, lambda maker: make_way(maker, maker.dice.randrange(2, 8), maker.dice.randrange(1, 6), 0.4)),
    (14, make_network),
    (14, make_station),
    (8, make_circle),
    (8, make_crossed),
    (4, lambda maker: make_way(maker, maker.dice.randrange(20, 60), maker.dice.randrange(2, 9), maker.dice.choice([0, 0, 0, 0.05]), True)),
    (1, lambda maker: maker.dice.random() < 0.5 and maker.track(maker.dice.randrange(1, 3))),
    (0.5, make_many),
    (0.3, make_gathered),
    (0.2, make_crowd),
    (0.1, make_limit),
]


def make_line(dice):
    maker = Maker(dice)
    dice.choices([make for _, make in FAMILIES], [weight for weight, _ in FAMILIES])[0](maker)
    if not maker.line.items["section"] or dice.random() < 0.3:
        maker.sections()
    maker.connections()
    if dice.random() < 0.4:
        for _ in range(dice.choice([1, 2, 3, 10])):
            maker.line.take(wanted_edit(maker, maker.line, None))
    return maker


# ---- edits


def new_fields(maker, kind, items):
    """The fields of an item, most of them such that no rule refuses it."""
    dice = maker.dice
    if kind == "block":
        return [maker.draw("length")]
    if kind == "signal":
        return maker.signal_fields(maker.known("block", items))
    if kind == "route":
        return [maker.known("signal", items) for _ in range(dice.randrange(1, 4))]
    if kind == "run":
        route = maker.known("route", items)
        signals = items["route"].get(route, ["?"] * 2)
        legs = maker.legs(signals, dice.random() < 0.5)
        return [route, maker.draw("train"), maker.draw("tail"), dice.choice([*range(0, 1000, 50), 3000]), *legs]
    if kind == "section":
        blocks = list(items["block"]) or ["?"]
        first = dice.randrange(len(blocks))
        return [*maker.window(), maker.rate(), *blocks[first : first + dice.randrange(1, 5)]]
    return [maker.known("run", items), maker.known("run", items), maker.draw("minimum")]


def changed_fields(maker, kind, fields, items):
    """An item's fields with one or two others, or new ones."""
    dice = maker.dice
    other = new_fields(maker, kind, items)
    if dice.random() < 0.3:
        return other
    fields = list(fields)
    if kind == "run":
        fields[3] = dice.choice([fields[3] + dice.choice([-60, -10, 10, 60]), other[3], fields[3]])
        fields[3] = max(0, fields[3])
        if dice.random() < 0.3:
            fields[4] = other[4]
    elif kind == "route":
        place = dice.randrange(len(fields))
        fields[place] = other[0]
    elif len(other) > 1:
        place = dice.randrange(min(len(fields), len(other)))
        fields[place] = other[place]
    else:
        return other
    return fields


def spoil(dice, kind, fields):
    """Makes an item's fields wrong, so that some rule refuses it."""
    fields, places = list(fields), list(number_fields(kind, fields))
    way = dice.randrange(4)
    if way == 0 and places:
        place, low, high = dice.choice(places)
        fields[place] = dice.choice([high + 1] + [low - 1] * (low > 0))
    elif way == 1 and kind in ("route", "section"):
        fields.append(fields[-1])
    elif way == 1 and kind == "connect":
        fields[1] = fields[0]
    elif way == 2 and kind == "run":
        fields = fields + [0, 60] if len(fields) < 7 or dice.random() < 0.5 else fields[:-2]
    elif way == 2 and kind == "route":
        fields = fields[:-1] or fields * 2
    elif way == 3:
        place = dice.randrange(len(fields))
        fields[place] = "none" if isinstance(fields[place], str) else fields[place]
    return fields


def any_edit(maker, line):
    dice, items = maker.dice, line.items
    kind = dice.choices(KINDS, [2, 3, 2, 7, 3, 3])[0]
    verb = dice.choice(["", "change-", "change-", "drop-"])
    name = maker.known(kind, items) if verb or dice.random() < 0.2 else maker.name(kind, dice.randrange(100))
    if verb == "" and kind in ("block", "connect") and dice.random() < 0.2:
        name = maker.known({"block": "connect", "connect": "block"}[kind], items)
    if verb == "drop-":
        return verb, kind, name, []
    old = items[kind].get(name)
    fields = changed_fields(maker, kind, old, items) if verb and old else new_fields(maker, kind, items)
    return verb, kind, name, spoil(dice, kind, fields) if dice.random() < 0.25 else fields


def wanted_edit(maker, line, rule):
    """An edit that this rule refuses, or none, if one is found soon."""
    for _ in range(40):
        edit = any_edit(maker, line)
        if line.rule(edit) == rule:
            break
    return edit


def edit_of_scripts(maker, line):
    rule = maker.dice.choice([None] * 12 + RULES)
    return wanted_edit(maker, line, rule)


# ---- scripts


def make_scripts(maker, most):
    """Tasks of planners: edits, or ["ask", SECTION]; most of them accepted in the planners' order."""
    dice, line = maker.dice, Line(maker.line.items)
    planners = dice.choice([0, 1, 1, 2, 2, 2, 3, 3, 4, 16])
    scripts = []
    for _ in range(planners):
        script = []
        for _ in range(dice.randrange(most + 1)):
            if dice.random() < 0.35:
                script.append(["ask", maker.known("section", line.items)])
            elif script and dice.random() < 0.1 and isinstance(script[-1], tuple):
                script.append(undone(script[-1], maker, line))
                line.take(script[-1])
            else:
                script.append(edit_of_scripts(maker, line))
                line.take(script[-1])
        scripts.append(script)
    return scripts


def undone(edit, maker, line):
    """A drop of what an edit put, or a put of what the line still has of its name's kind."""
    verb, kind, name, fields = edit
    if verb != "drop-":
        return "drop-", kind, name, []
    return "", kind, name, maker.line.items[kind].get(name) or new_fields(maker, kind, line.items)


def script_rows(scripts):
    for number, script in enumerate(scripts):
        yield ["planner", str(number + 1)]
        yield from script


# ---- rows of no form

BAD_KINDS = ["train", "Block", "", " block", "block ", "#", "blocks", "drop-", "change-version", "drop-ask", "version", "run;T1", "\udcff", "ask", "planner"]
BAD_VERSIONS = ["0", "1", "2", "02", "3", "12", "", " 2", "x", "1.0", "000000001", "0000000002"]
BAD_NUMBERS = ["-5", "+5", "5.0", "", "1e3", "0x1", " 5", "5 ", "1234567890", "٣", "33%", "highspeed-night", "mixed-day", "999999999", "000000000"]
BAD_NUMBERS += ["0:00:10", "1:60:00", "1:00:60", "1:0:0", "123456:00:00", "99999:59:59", "24:00:00", ":00:00", "1:00", "1:00:00:00", "-1:00:00"]
BAD_NAMES = ["", "x" * 64, "x" * 65, "é" * 32, "é" * 33, "a\tb", "\x7f", "a\nb", "\x00", "\udcff", "a\udcc3", "\udced\udca0\udc80", "\udcc0\udc80", "\udcf4\udc90\udc80\udc80"]


def is_number(field):
    return field.replace(":", "").isdigit()


def spoil_row(dice, rows):
    """Makes one row wrong, most often; of no rows none."""
    if not rows:
        return
    place = dice.randrange(len(rows))
    row = rows[place] = list(rows[place])
    numbers = [column for column in range(2, len(row)) if is_number(row[column])]
    names = [column for column in range(1, len(row)) if not is_number(row[column])]
    way = dice.randrange(10)
    if row[0] == "version" and len(row) == 2 and way < 6:
        row[1] = dice.choice(BAD_VERSIONS)
    elif way == 0:
        row[0] = dice.choice(BAD_KINDS)
    elif way == 1:
        rows[place] = dice.choice([row + [""], row + ["5"], row[:-1], row[:1], row + ["x"] * 256, row[:2] + row[3:]])
    elif way in (2, 3) and numbers:
        row[dice.choice(numbers)] = dice.choice(BAD_NUMBERS)
    elif way in (4, 5) and names:
        row[dice.choice(names)] = dice.choice(BAD_NAMES)
    elif way == 6:
        rows.insert(place, list(dice.choice(rows)))
    elif way == 7:
        del rows[place]
    elif way == 8:
        other = dice.randrange(len(rows))
        rows[place], rows[other] = rows[other], rows[place]
    elif len(row) > 3:
        first, second = dice.sample(range(1, len(row)), 2)
        row[first], row[second] = row[second], row[first]
    return bool(rows)


def spoil_text(dice, text):
    """Puts a few bytes into a text, or takes its end away."""
    place = dice.randrange(len(text) + 1)
    way = dice.randrange(4)
    if way == 0:
        return text[:place]
    some = [b'"', b'""', b",", b"\n", b"\r", b"\xff", b"\x00", b"\xef\xbb\xbf", b" ", b"\xc3", b'\n"', b'",']
    return text[:place] + dice.choice(some) + text[place + dice.choice([0, 0, 1]) :]


def make_hostile(dice, maker, scripts):
    spelling = Spelling(dice)
    rows = spelling.rows([*maker.line.edits, *script_rows(scripts)])
    for _ in range(dice.choice([0, 1, 1, 2])):
        if rows:
            spoil_row(dice, rows)
    text = spelling.text(rows)
    return spoil_text(dice, text) if dice.random() < 0.3 else text


def make_great(dice, maker):
    """The input with changes of all items to what they are already, again and again, so that the text is long."""
    spelling = Spelling(dice)
    again = [("change-", kind, name, fields) for kind, items in maker.line.items.items() for name, fields in items.items()]
    rows, more = spelling.rows(maker.line.edits), spelling.rows(again)[spelling.version > 0 :]
    size = len(spelling.text(more))
    rows += more * (dice.randrange(500_000, 2_000_000) // size if size else 0)
    if dice.random() < 0.3:
        spoil_row(dice, rows)
    return spelling.text(rows)


def too_many_tasks(dice, maker):
    """Scripts of 256 tasks or 257, of 16 planners or 17."""
    tasks = dice.choice([256, 257])
    scripts = [[["ask", maker.known("section")] for _ in range(tasks // 16)] for _ in range(16)]
    scripts[-1] += [["ask", "x"]] * (tasks % 16)
    return scripts + [[]] * dice.choice([0, 0, 1])


# ---- words

BAD_WORDS = [[], [""], ["Stairs"], ["stairs", "x"], ["report", ""], ["compress"], ["compress", "S", "S"], ["headways"], ["cut"], ["cycle"], ["check", "check"]]
BAD_WORDS += [["fill", "S"], ["fill", "S", "T", "T"], ["delays", "S"], ["delays", "S", "T"], ["delays", "S", "T", "86401"], ["delays", "S", "T", "000001"]]
BAD_WORDS += [["delays", "S", "T", "1", "T", "1"], ["delays", "S", "T", "1", "U"], ["delays", "S", "T", "-1"], ["delays", "S", "T", ""], ["delays", "", "", "1", "", "1"]]
BAD_WORDS += [["session"], ["session", "17"], ["session", "000"], ["session", "016"], ["session", "-1"], ["session", ""], ["session", "0", "0"], ["made"], ["made", ""], ["made", "1234567890"], ["made", "1x"]]
BAD_WORDS += [["compress", "\udcff"], ["stairs", "\udcff"], ["\udcff"], ["delays", "S"] + [word for number in range(65) for word in ("T%d" % number, "1")]]
BAD_NAME_WORDS = ["", "x" * 65, "a\nb", "none", "\x7f", "é" * 33]


def section_word(dice, maker):
    return dice.choice(BAD_NAME_WORDS) if dice.random() < 0.03 else maker.known("section")


def trains_of(items, section):
    """The runs that surely are trains of a section."""
    fields = items["section"].get(section)
    return [name for name, run in items["run"].items() if fields and enters(items, fields, run)]


def enters(items, section, run):
    """Whether a run's head comes to a block of the section within the window, and what is before that, too."""
    signals = [items["signal"][name] for name in items["route"][run[0]]]
    for place, (block, _, watch, form, _, _) in enumerate(signals):
        if block in section[3:]:
            return section[0] <= run[3] - watch - form and sum(run[3 : 4 + 2 * place]) <= section[1]
    return False


def words_of(dice, maker, command):
    if command in ("stairs", "check", "report"):
        return [command]
    if command == "session":
        return [command, dice.choice(["0", "0", "00"])]
    if command == "made":
        return [command, dice.choice(["%d", "%d", "%09d"]) % dice.randrange(10 ** dice.randrange(1, 10))]
    section = section_word(dice, maker)
    if command not in ("delays", "fill"):
        return [command, section]
    for _ in range(4):
        names = trains_of(maker.line.items, section)
        if names:
            break
        section = section_word(dice, maker)
    if not names or dice.random() < 0.04:
        names = list(maker.line.items["run"]) + [dice.choice(BAD_NAME_WORDS)]
    if command == "fill":
        return [command, section, dice.choice(names)]
    some = dice.sample(names, min(len(names), dice.choice([1, 1, 2, 3, 64])))
    delays = [dice.choice(["0", "10", "60", "00060", "300", "3000", "86400", str(dice.randrange(1000))]) for _ in some]
    return [command, section] + [word for pair in zip(some, delays) for word in pair]


def main():
    dice = random.Random(int(sys.argv[1]))
    maker = make_line(dice)
    sys.stdout.buffer.write(Spelling(dice).text(Spelling(dice).rows([*maker.line.edits, *script_rows(make_scripts(maker, 6))])))


if __name__ == "__main__":
    main()
