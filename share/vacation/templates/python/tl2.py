#!/usr/bin/env python3
"""A small TL2 in Python over the pull form of the tasks (include/vacation_body.h):

    benchmark/build built --interface
    ./vacation tasks --tasks 1000 --items 8 > work
    python3 share/vacation/templates/python/tl2.py built/libvacation_body.so < work > log &&
        ./judge history --tasks work < log

(`&&`, because a run that hung or crashed can end as `legal`.) The clients run in a child process, and each
line of the log is written as its call ends, so that a run which crashes or stands still leaves a log, too.
Calls that were cut short stand at its end as pending calls: others may have seen their effects. With
--attempts it logs attempts in the order of their versions, for `judge attempts`. With --mistake a commit
does not validate what was read: the judge shall find that.
"""

import argparse
import ctypes
import os
import random
import sys
import threading
import time

BLOCKS = 1024
DONE, READ, WRITE, LOST = range(4)


class Conflict(Exception):
    """An attempt met another one, and is tried again."""


class Memory:
    """Words with a version each, and a version clock. The lock of a word is held while it is written."""

    def __init__(self, words):
        self.words = words
        self.versions = [0] * len(words)
        self.locks = [threading.Lock() for _ in words]
        self.clock, self.clock_lock = 0, threading.Lock()

    def tick(self):
        with self.clock_lock:
            self.clock += 1
            return self.clock


class Attempt:
    """One attempt: the words that it has read, and those that it will write."""

    def __init__(self, memory, pause, validates):
        self.memory, self.pause, self.validates = memory, pause, validates
        self.version, self.is_writer = memory.clock, False
        self.reads, self.writes, self.accesses = [], {}, []

    def read(self, addr):
        if addr in self.writes:
            value = self.writes[addr]
        else:
            before = self.memory.versions[addr]
            self.pause()
            value = self.memory.words[addr]
            if self.memory.locks[addr].locked() or not self.memory.versions[addr] == before <= self.version:
                raise Conflict
            self.reads.append(addr)
        self.accesses.append(f"r {addr} {value}")
        return value

    def write(self, addr, value):
        self.writes[addr] = value
        self.accesses.append(f"w {addr} {value}")

    def commit(self):
        if not self.writes:
            return
        held = []
        try:
            for addr in self.writes:
                if not self.memory.locks[addr].acquire(blocking=False):
                    raise Conflict
                held.append(addr)
            version = self.memory.tick()
            self.pause()
            if self.validates:
                self.validate()
            for addr, value in self.writes.items():
                self.memory.words[addr] = value
                self.memory.versions[addr] = version
            self.version, self.is_writer = version, True
        finally:
            for addr in held:
                self.memory.locks[addr].release()

    def validate(self):
        for addr in self.reads:
            is_held = self.memory.locks[addr].locked() and addr not in self.writes
            if is_held or self.memory.versions[addr] > self.version:
                raise Conflict

    def place(self):
        """The place in the order of the attempts: the writer of a version, and then its readers."""
        return 2 * self.version + (0 if self.is_writer else 1)


class Bodies:
    """The library of vacation_body.h."""

    def __init__(self, path):
        self.library = ctypes.PyDLL(os.path.abspath(path))
        for name, kind, arguments in (
                ("vacation_body_new", ctypes.c_void_p, [ctypes.c_uint]),
                ("vacation_start", ctypes.c_int, [ctypes.c_void_p, ctypes.c_char_p]),
                ("vacation_next", ctypes.c_int, [ctypes.c_void_p, ctypes.c_uint64]),
                ("vacation_addr", ctypes.c_uint32, [ctypes.c_void_p]),
                ("vacation_value", ctypes.c_uint64, [ctypes.c_void_p]),
                ("vacation_reply", ctypes.c_char_p, [ctypes.c_void_p]),
                ("vacation_words", ctypes.c_uint64, [ctypes.c_uint64, ctypes.c_void_p])):
            function = getattr(self.library, name)
            function.restype, function.argtypes = kind, arguments

    def words(self):
        count = self.library.vacation_words(BLOCKS, None)
        words = (ctypes.c_uint64 * count)()
        self.library.vacation_words(BLOCKS, words)
        return list(words)

    def run(self, body, line, attempt):
        """The body of the task of this line, over the words of this attempt."""
        if self.library.vacation_start(body, line.encode()) != 0:
            raise ValueError(f"'{line}' is no task")
        answer = 0
        while (what := self.library.vacation_next(body, answer)) != DONE:
            if what == LOST:
                raise Conflict
            addr = self.library.vacation_addr(body)
            if what == READ:
                answer = attempt.read(addr)
            else:
                attempt.write(addr, self.library.vacation_value(body))
        return self.library.vacation_reply(body).decode()


class Run:
    """What all clients share: the memory, the log, and when each call ended last."""

    def __init__(self, options):
        self.options = options
        self.bodies = Bodies(options.library)
        self.memory = Memory(self.bodies.words())
        self.ended = time.monotonic()
        self.attempts, self.log_lock = [], threading.Lock()

    def log(self, line):
        with self.log_lock:
            os.write(sys.stdout.fileno(), f"{line}\n".encode())
            self.ended = time.monotonic()

    def attempt(self, client, body, line, pause):
        """One attempt at a task: its reply, or None after a conflict."""
        begin = time.monotonic_ns()
        attempt = Attempt(self.memory, pause, not self.options.mistake)
        try:
            reply = self.bodies.run(body, line, attempt)
            pause()
            attempt.commit()
        except Conflict:
            reply = None
        if self.options.attempts:
            what = "abort" if reply is None else "commit"
            text = f"{client} {begin} {time.monotonic_ns()} {' '.join([what, *attempt.accesses])}"
            self.attempts.append((attempt.place(), begin, text))
        return reply

    def client(self, client, lines):
        """All tasks of a client. A call is logged as it begins, as a pending one, and as it ends."""
        body = self.bodies.library.vacation_body_new(client)
        draws = random.Random(client)

        def pause():
            if draws.random() < 0.05:
                time.sleep(0)

        for number, line in enumerate(lines):
            self.fail_where_asked(client, number)
            begin = time.monotonic_ns()
            if not self.options.attempts:
                self.log(f"{client} {begin} - {line} -> ?")
            while (reply := self.attempt(client, body, line, pause)) is None:
                time.sleep(0)
            if not self.options.attempts:
                self.log(f"{client} {begin} {time.monotonic_ns()} {line} -> {reply}")

    def fail_where_asked(self, client, number):
        """For the test of this template: a crash, or a standstill, in the middle of the run."""
        if client != 0 and number == self.options.crash_at:
            os.abort()
        if client != 0 and number == self.options.hang_at:
            time.sleep(3600)

    def watch(self):
        """Ends the process if no call has ended for too long."""
        while True:
            time.sleep(0.1)
            if time.monotonic() - self.ended > self.options.patience:
                print("tl2.py: no call has ended for too long", file=sys.stderr, flush=True)
                os._exit(3)

    def write_attempts(self):
        """The attempts by their places, behind the words that are there from the start."""
        words = [f" w {addr} {value}" for addr, value in enumerate(self.bodies.words()) if value != 0]
        self.log("0 0 0 commit" + "".join(words))
        for _, _, text in sorted(self.attempts, key=lambda attempt: attempt[:2]):
            self.log(text)


def read_work():
    """The lines of each client."""
    work = {0: []}
    for line in sys.stdin:
        client, _, task = line.rstrip("\n").partition(" ")
        work.setdefault(int(client), []).append(task)
    return work


def look_after(child, log):
    """Writes what the child logs, but pending calls only when it has ended and they have not. Returns its
    status as a shell tells it."""
    pending = {}
    with os.fdopen(log, encoding="utf-8") as lines:
        for line in lines:
            if line.endswith(" -> ?\n"):
                pending[line.split(" ", 1)[0]] = line
            else:
                pending.pop(line.split(" ", 1)[0], None)
                print(line, end="", flush=True)
    print(end="".join(pending.values()), flush=True)
    status = os.waitstatus_to_exitcode(os.waitpid(child, 0)[1])
    return status if status >= 0 else 128 - status


def run_child():
    """Begins a child process whose standard output can be read from a file. Returns both, or None in the
    child."""
    log, output = os.pipe()
    child = os.fork()
    if child == 0:
        os.dup2(output, sys.stdout.fileno())
    os.close(output)
    return (child, log) if child != 0 else None


def main():
    parser = argparse.ArgumentParser(description=__doc__, formatter_class=argparse.RawDescriptionHelpFormatter)
    parser.add_argument("library", help="libvacation_body.so")
    parser.add_argument("--attempts", action="store_true", help="log attempts in place of calls")
    parser.add_argument("--mistake", action="store_true", help="do not validate")
    parser.add_argument("--patience", type=float, default=60, help="seconds without the end of a call")
    parser.add_argument("--crash-at", type=int, help="crash before this call of a client")
    parser.add_argument("--hang-at", type=int, help="stand still before this call of each client")
    options = parser.parse_args()
    if (begun := run_child()) is not None:
        sys.exit(look_after(*begun))
    run, work = Run(options), read_work()
    sys.setswitchinterval(0.0005)
    threading.Thread(target=run.watch, daemon=True).start()
    run.client(0, work.pop(0))
    threads = [threading.Thread(target=run.client, args=item) for item in work.items()]
    for thread in threads:
        thread.start()
    for thread in threads:
        thread.join()
    if run.options.attempts:
        run.write_attempts()


if __name__ == "__main__":
    main()
