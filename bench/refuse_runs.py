"""Runs of calls with something refused, several at a time, and how each may end: for bench/refuse.py."""
import collections
import concurrent.futures
import ctypes
import os
import select
import signal
import sys
import threading
import time
import typing

PIECE = 10  # the least bytes of a read or a write, where they are refused
PIECES = 100  # the input and the text have at most about so many pieces, where these are longer
TOLD = 3  # the number of the file into which refuse.c writes

WAYS = {5: "without memory", 3: "with status 3", 4: "with status 4"}  # any other: whole
WHOLE, HANG, WRONG = "whole", "hung", "wrong"
NAMES = {"memory": "allocation", "thread": "thread", "read": "read", "write": "write"}


class Told(typing.NamedTuple):
    """What refuse.c told of a run."""

    memory: int
    thread: int
    read: int
    write: int
    blocks: int


class Ended(typing.NamedTuple):
    status: int | None  # none where it wasn't over, and was killed
    text: bytes
    told: Told | None
    threads: int = 0  # that were there when it was killed


def told_in(line):
    numbers = line.split()
    return Told(*map(int, numbers)) if len(numbers) == len(Told._fields) else None


def spelled(refused):
    """Such as: allocation 7,9 and thread 1."""
    return " and ".join("%s %s" % (NAMES[what], ",".join(map(str, numbers))) for what, numbers in refused.items()) or "nothing"


# ---- how a run may end


class Call:
    """A call, and what is known of it from its runs with ample memory."""

    def __init__(self, case, path, slot):
        self.case, self.path, self.words = case, path, case.words.split()
        path.write_bytes(case.given())
        whole = slot.run(self, {})
        self.status, self.judge = whole.status, case.judge(slot.program, whole.text)
        self.piece = max(PIECE, len(case.given()) // PIECES, len(whole.text) // PIECES)
        pieces = slot.run(self, {"read": [0]})
        if not whole.told or not pieces.told:
            sys.exit("%s: not over, or nothing told, with ample memory" % case.name())
        self.most = dict(whole.told._asdict(), read=pieces.told.read, write=pieces.told.write)
        self.blocks = self.most.pop("blocks")

    def is_raced(self):
        return self.case.is_raced()

    def env(self, shim, refused):
        env = {"LD_PRELOAD": str(shim), "REFUSED_TOLD": str(TOLD)}
        env.update(("REFUSED_" + what.upper(), ",".join(map(str, numbers))) for what, numbers in refused.items())
        return {**env, "REFUSED_PIECE": str(self.piece)} if "read" in refused or "write" in refused else env


def is_met(refused, told, what):
    """Whether something that was to be refused came."""
    return any(0 < number <= getattr(told, what) for number in refused.get(what, []))


def way_of(call, refused, ended):
    """How a run ended: its way, and in words what is wrong with it, if anything."""
    if ended.status is None:
        return HANG, "not over, threads that are left: %d" % ended.threads
    status, text, told = ended[:3]
    if told is None:
        return WRONG, "status %s, and nothing told" % status
    allowed = {3} if is_met(refused, told, "read") else {4} if is_met(refused, told, "write") else {call.status}
    if is_met(refused, told, "memory") and 4 not in allowed:
        allowed.add(5)
    if status not in allowed:
        fault = "where it may be " + " or ".join(map(str, sorted(allowed)))
    elif not 0 <= told.blocks <= call.blocks:
        fault = "%d blocks not given back" % told.blocks
    elif status in (3, 5):
        fault = "where nothing may be written" if text else None
    elif status == 4 and len(text) > call.piece * (min(refused["write"]) - 1):
        fault = "more than was written before"
    else:
        fault = call.judge.fault(text, status == 4)
    return (WRONG, "status %d, %d bytes: %s" % (status, len(text), fault)) if fault else (WAYS.get(status, WHOLE), None)


# ---- runs


LIBC = ctypes.CDLL(None)


def spawn(words, env, files):
    """Starts a program with these files, each a path or the number of an open one. (os.posix_spawn would keep all other threads
    waiting until the program has begun.)"""
    actions, child = ctypes.create_string_buffer(1024), ctypes.c_int()
    LIBC.posix_spawn_file_actions_init(actions)
    for number, file in files.items():
        if isinstance(file, int):
            LIBC.posix_spawn_file_actions_adddup2(actions, file, number)
        else:
            LIBC.posix_spawn_file_actions_addopen(actions, number, os.fsencode(file), os.O_RDWR if number else os.O_RDONLY, 0)
    argv, envp = strings(words), strings("%s=%s" % pair for pair in env.items())
    error = LIBC.posix_spawn(ctypes.byref(child), argv[0], actions, None, argv, envp)
    LIBC.posix_spawn_file_actions_destroy(actions)
    if error:
        raise OSError(error, os.strerror(error), words[0])
    return child.value


def strings(words):
    encoded = [os.fsencode(word) for word in words]
    return (ctypes.c_char_p * (len(encoded) + 1))(*encoded, None)


class Slot:
    """Files of one run at a time."""

    def __init__(self, program, shim, limit):
        self.program, self.shim, self.limit = str(program), shim, limit
        self.text, self.told, self.poll = os.memfd_create("text"), os.memfd_create("told"), select.poll()

    def run(self, call, refused):
        for file in (self.text, self.told):
            os.lseek(file, 0, os.SEEK_SET)
            os.ftruncate(file, 0)
        child = spawn([self.program, *call.words], call.env(self.shim, refused), {0: call.path, 1: self.text, 2: os.devnull, TOLD: self.told})
        threads = 0 if self.is_over(child) else len(os.listdir("/proc/%d/task" % child))
        if threads:
            os.kill(child, signal.SIGKILL)
        status = os.waitstatus_to_exitcode(os.waitpid(child, 0)[1])
        text = os.pread(self.text, os.fstat(self.text).st_size, 0)
        return Ended(None if threads else status, text, told_in(os.pread(self.told, 200, 0)), threads)

    def is_over(self, child):
        file = os.pidfd_open(child)
        self.poll.register(file, select.POLLIN)
        try:
            return self.poll.poll(1000 * self.limit) != []
        finally:
            self.poll.unregister(file)
            os.close(file)


class Crowd:
    """Makes runs, so many at a time, and counts how they ended."""

    def __init__(self, program, shim, options):
        self.slots = [Slot(program, shim, options.limit) for _ in range(options.busy)]
        self.counts, self.lock, self.begun, self.is_stopped = collections.Counter(), threading.Lock(), time.monotonic(), False

    def go(self, runs, heard=lambda refused, way, ended: None):
        """Makes the runs that are given, each a call and what is refused in it; tells what went wrong."""
        with concurrent.futures.ThreadPoolExecutor(len(self.slots)) as pool:
            workers = [pool.submit(self.work, slot, runs, heard) for slot in self.slots]
            try:
                for worker in workers:
                    worker.result()
            except BaseException:
                self.is_stopped = True
                raise

    def work(self, slot, runs, heard):
        try:
            while not self.is_stopped and self.make_one(slot, runs, heard):
                pass
        except BaseException:
            self.is_stopped = True
            raise

    def make_one(self, slot, runs, heard):
        """Makes the next run, if there is one."""
        with self.lock:
            call, refused = next(runs, (None, None))
        if call is None:
            return False
        ended = slot.run(call, refused)
        way, fault = way_of(call, refused, ended)
        with self.lock:
            self.counts[way] += 1
            if ended.told:
                call.most["memory"] = max(call.most["memory"], ended.told.memory)
            if fault:
                self.tell(call, refused, way, fault, ended.text)
            heard(refused, way, ended)
        return True

    def tell(self, call, refused, way, fault, text):
        number = sum(self.counts.values())
        told = "HANG" if way == HANG else "WRONG", number, call.case.name(), spelled(refused), fault
        print("    %s: run %d, %s, %s refused: %s" % told, flush=True)
        if way == WRONG and call.is_raced():
            print(text.decode(errors="replace"), flush=True)

    def line(self):
        total, seconds = sum(self.counts.values()), time.monotonic() - self.begun
        ways = ["{:,} {}".format(self.counts[way], way) for way in [WAYS[5], WHOLE, WAYS[3], WAYS[4], HANG, WRONG]]
        return "{:,} runs in {:,.0f} s, {:.0f} a second: {}".format(total, seconds, total / max(seconds, 1e-9), ", ".join(ways))
