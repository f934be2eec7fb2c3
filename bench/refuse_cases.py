"""The calls that bench/refuse.py makes, and what their texts are held against."""
import csv
import hashlib
import io
import pathlib
import threading
import typing

import sessions

TOP = pathlib.Path(__file__).resolve().parent.parent

# ---- inputs

LINE = (TOP / "examples" / "two-blocks.csv").read_text()
ONE = [["change-run,T2,R,100,10,100,60,0,60", "ask,S"]]
# Whose edits touch one section or both; planner 2's section is new, and its name may be asked before.
TWO = [["change-run,T2,R,100,10,100,60,0,60", "ask,S", "ask,Z"], ["section,Z,0,3600,50,B", "change-run,T1,R,100,10,50,60,0,60"]]
# Some edits are refused in some orders: T2 is changed or gone, T3 comes or is there.
THREE = [*TWO, ["run,T3,R,100,10,900,60,0,60", "drop-run,T2", "ask,S"]]

# A line on which several threads make the texts: runs, members and sections enough for two parts each.
RUNS = "".join("run,N%03d,R,100,10,%d,60,0,60\n" % (number, 600 + 300 * number) for number in range(126))
LONG = LINE + RUNS + "section,Z,0,86400,0,A,B\n"

# A line whose conflicts several threads find.
MANY = "".join("block,B%02d,500\nsignal,S%02d,B%02d,500,10,5,0,5\n" % (number, number, number) for number in range(20))
MANY += "route,R" + "".join(",S%02d" % number for number in range(20)) + "\n"
MANY += "".join("run,N%02d,R,100,10,%d,30%s\n" % (number, 20 * number, ",0,30" * 19) for number in range(68))

# A long input without runs, so that nearly all allocations are those of reading.
WIDE = "".join("block,a-block-%03d,100\n" % number for number in range(256))
WIDE += "".join("signal,a-signal-at-%03d,a-block-%03d,100,10,5,0,5\n" % (number, number) for number in range(256))
SIGNALS = "".join(",a-signal-at-%03d" % number for number in range(256))
WIDE += "".join("route,a-route-%03d%s\n" % (number, SIGNALS) for number in range(140))


# ---- the texts of a session on ONE with two workers or more, worked out by hand

ORDERED = "ordered,S,2,300,B\nrate,S,1/12,8.34,133/1200,11.09,within\n"
TRAINS = "train,T1,85,0,-85,start\ntrain,T2,%d,150,%d,after,T1,B\n"
EARLIER = "published,S,8\n" + ORDERED + TRAINS % (385, -235)
EDITED = "edited,1,9,change-run,T2,R,100,10,100,60,0,60\n"
LATER = "published,S,9\n" + ORDERED + TRAINS % (85, 65)
TOTAL = ORDERED + "total,1,1,1,0,0,0\n"


def races(workers):
    opened = "opened,8,1,1\n" + "".join("entered,%d\n" % (number + 1) for number in range(workers + 1))
    middles = [
        EARLIER + EDITED + LATER + "asked,1,S,ready,9\n",
        EDITED + LATER + "asked,1,S,ready,9\n",
        EARLIER + EDITED + "asked,1,S,stale,8,9\n" + LATER,
        EDITED + "asked,1,S,not-yet\n" + LATER,
    ]
    return [opened + middle + TOTAL for middle in middles]


# ---- what a text is held against


class Listed:
    """The texts that a call may write, in a list."""

    def __init__(self, texts):
        self.texts = texts

    def fault(self, text, is_begun=False):
        """In words, what is wrong with a text, or with the beginning of one."""
        if text in self.texts or is_begun and any(whole.startswith(text) for whole in self.texts):
            return None
        return "another text than one of the %d that it may have" % len(self.texts)

    def count(self):
        return len(self.texts)


class Journals:
    """The texts of a session with workers, each read once by the reader of bench/sessions.py."""

    def __init__(self, opened, scripts, workers):
        self.opened, self.scripts, self.workers = opened, scripts, workers
        self.known, self.lock = {}, threading.Lock()

    def fault(self, text, is_begun=False):
        """As that of Listed. Of the beginning of a text, a last line that isn't whole isn't read."""
        text = text[: text.rfind(b"\n") + 1] if is_begun else text
        key = is_begun, hashlib.blake2b(text, digest_size=16).digest()
        if key not in self.known:
            with self.lock:
                self.known[key] = self.read(text, is_begun)
        return self.known[key]

    def read(self, text, is_begun):
        counts = dict.fromkeys(["edited", "rejected", "asked", "published", "published of an earlier edit"], 0)
        counts.update(dict.fromkeys(["unknown", "not-yet", "stale", "ready"], 0))
        try:
            rows = list(csv.reader(io.StringIO(text.decode())))
            if written(rows) != text:
                return "rows that are spelled otherwise"
            sessions.Reader(self.opened, self.scripts, self.workers, rows, counts).read()
        except sessions.Early as early:
            return None if is_begun else str(early)
        except (sessions.Wrong, LookupError, ValueError, csv.Error) as wrong:
            return "no text of a legal journal: %r" % wrong
        return None

    def count(self):
        return sum(not is_begun and fault is None for (is_begun, _), fault in self.known.items())


def written(rows):
    out = io.StringIO()
    csv.writer(out, lineterminator="\n").writerows(rows)
    return out.getvalue().encode()


# ---- calls


class Case(typing.NamedTuple):
    words: str
    line: str
    scripts: list = []
    texts: list = []  # that it may have, where they are listed

    def name(self):
        return self.words + (", %d planners" % len(self.scripts) if len(self.scripts) > 1 else "")

    def given(self):
        rows = [row for number, script in enumerate(self.scripts) for row in ["planner,%d" % (number + 1), *script]]
        return (self.line + "".join(row + "\n" for row in rows)).encode()

    def workers(self):
        command, *words = self.words.split()
        return int(words[0]) if command == "session" else 0

    def is_raced(self):
        return self.workers() > 0 and self.scripts != []

    def judge(self, program, whole):
        """What its texts are held against; the text with ample memory is given."""
        if self.is_raced() and not self.texts:
            return Journals(sessions.Timetable(program, self.line.splitlines()), self.scripts, self.workers())
        return Listed([text.encode() for text in self.texts] or [whole])


CASES = [
    *[Case(words, LINE) for words in ["stairs", "check", "compress S", "headways S", "report", "cut S", "cycle S", "delays S T1 200", "fill S T2"]],
    Case("session 0", LINE, ONE),
    Case("session 0", LINE, THREE),
    Case("session 1", LINE),
    *[Case("session %d" % workers, LINE, ONE, races(workers)) for workers in [2, 4, 16]],
    *[Case("session %d" % workers, LINE, scripts) for scripts in [TWO, THREE] for workers in [2, 4, 16]],
    Case("stairs", LONG),
    Case("check", MANY),
    Case("headways Z", LONG),
    Case("report", LONG),
    Case("check", WIDE),
    Case("check", WIDE + "drop-block,a-block-000\n"),
    Case("stairs", LINE + "drop-block,A\n"),
    Case("compress X", LINE),
    Case("fill S T9", LINE),
]
