#!/usr/bin/env python3
"""A very long log through the proved printer: each line has to be right, and the memory that it takes must not grow
with the log.

big-log.py [MEGABYTES]    200 if none is named

Not part of the gate, since it takes long. The log is made while it is sent: a long log of the second program, its
reports over and over, and a record that is cut off at the end. What is to come is known from the second program on
three rounds. The memory is the most that the printer's process ever held (VmHWM): after the first 5 MB, and at the end.
"""
import os
import subprocess
import sys
import threading
import time

import second

SEED, EARLY, GROWTH = 1, 5 * 2 ** 20, 2 ** 20


class Sender(threading.Thread):
    """Sends the log, and looks at the printer's memory on the way."""

    def __init__(self, child, start, once, rounds, end):
        super().__init__(daemon=True)
        self.child, self.start_with, self.once, self.rounds, self.end = child, start, once, rounds, end
        self.early, self.most = None, 0

    def run(self):
        try:
            self.send(self.start_with)
            for count in range(1, self.rounds + 1):
                self.send(self.once)
                self.most = max(self.most, memory(self.child.pid))
                if self.early is None and count * len(self.once) >= EARLY:
                    self.early = self.most
            self.send(self.end)
            self.child.stdin.close()
        except (BrokenPipeError, OSError):
            pass  # the reader says what is wrong

    def send(self, data):
        self.child.stdin.write(data)
        self.child.stdin.flush()


def memory(pid):
    """The most bytes that a process ever held."""
    with open("/proc/%d/status" % pid, encoding="ascii") as file:
        for line in file:
            if line.startswith("VmHWM:"):
                return int(line.split()[1]) * 1024
    return 0


def plan(size):
    """The settings, a round of reports, how often, and what is printed: for the first round, and for each later one."""
    first, *records = second.records(second.run("make", "long", str(SEED)))
    once = b"".join(records)
    outputs = [second.run("print", given=first + once * rounds) for rounds in (1, 2, 3)]
    later = outputs[1][len(outputs[0]):]
    if outputs[2] != outputs[1] + later:
        sys.exit("big-log: a third round prints something else than the second; take another seed")
    return first, once, max(2, -(-size // len(once))), outputs[0], later


def read(child, expected):
    """Holds what the printer writes against what is to come, piece by piece. The number of lines."""
    held, lines = b"", 0
    for piece in expected:
        while len(held) < len(piece):
            more = child.stdout.read1(1 << 16)
            if not more:
                break
            held += more
        if held[:len(piece)] != piece:
            pairs = zip(held.split(b"\n"), piece.split(b"\n"))
            differ = ((n, pair) for n, pair in enumerate(pairs, 1) if pair[0] != pair[1])
            at, (is_now, should_be) = next(differ, (0, ("the end", "more")))
            child.kill()
            sys.exit("big-log: line %d is %r and should be %r" % (lines + at, is_now, should_be))
        held, lines = held[len(piece):], lines + piece.count(b"\n")
    if held or child.stdout.read(1):
        child.kill()
        sys.exit("big-log: something comes after the last line")
    return lines


def main():
    if len(sys.argv) > 2 or not all(word.isdigit() for word in sys.argv[1:]):
        sys.exit(__doc__)
    size = int((sys.argv[1:] or ["200"])[0]) * 2 ** 20
    second.build()
    start, once, rounds, first, later = plan(size)
    begun = time.monotonic()
    program = [os.path.join(second.TOP, "tests", "run-program"), "printer"]
    child = subprocess.Popen(program, stdin=subprocess.PIPE, stdout=subprocess.PIPE)
    sender = Sender(child, start, once, rounds, second.record(1, [5, 1])[:-1])
    sender.start()
    lines = read(child, [first] + [later] * (rounds - 1) + [b"cut\n"])
    sender.join()
    status = child.wait()
    if status:
        sys.exit("big-log: the printer ended with status %d" % status)
    early, most = sender.early or sender.most, sender.most
    print("big-log: %d MB, %d lines, all right, the last one 'cut'; "
          "%.1f MB of memory after the first %d MB and %.1f MB at the end; %d s"
          % (rounds * len(once) >> 20, lines, early / 2 ** 20, EARLY >> 20, most / 2 ** 20, time.monotonic() - begun))
    if most > early + GROWTH:
        sys.exit("big-log: the memory grew by more than %d MB" % (GROWTH >> 20))


if __name__ == "__main__":
    main()
