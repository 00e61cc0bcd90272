#!/usr/bin/env python3
"""The proved program against the second one, on call records that nobody has seen: what they print has to be the same,
byte for byte.

against-second.py                  from fresh seeds, some 90,000 calls of every kind, some 200,000 settings and reports,
                                   mutated runs of slots, and some 60,000 transport messages, read, built and booked
against-second.py --seeds A,B,..   the calls, the reports and the transport messages of these seeds again

Where they differ it names the sort and the seed, the record's number in what `second make SORT SEED` writes, and both
lines.
"""
import itertools
import os
import sys

import second

# What `second make` makes, and how many records of it are tried.
MADE = {"calls": 90000, "reports": 200000, "transport": 60000}
# So many inputs the records of each sort are joined into. Each ends in a record that prints `cut`, if a seed had one,
# and one after it that is not read.
INPUTS = 12
# The receiver and the bookings are what a program starts with: so a seed's answers do not hang on what stands before
# it.
START = [second.record(0, bytes(12)), second.record(11, b"")]


def fresh_seeds():
    while True:
        yield int.from_bytes(os.urandom(8), "little")


def made(sort, seed):
    """The records of a seed, (sort, seed, number, record) each: those that can stand anywhere, and those from one that
    prints `cut` on."""
    calls = second.records(second.run("make", sort, str(seed)))
    numbered = [(sort, seed, number, call) for number, call in enumerate(START + calls, 1 - len(START))]
    answers = second.lines(second.run("probe", given=joined(numbered)))
    whole = len(answers) - answers[-1:].count("cut")
    return numbered[:whole], numbered[whole:whole + 2]


def joined(calls):
    return b"".join(call for _, _, _, call in calls)


def inputs(sort, seeds, most):
    """The seeds' records, joined into few inputs."""
    found, count = [([], []) for _ in range(INPUTS)], 0
    for turn, seed in enumerate(seeds):
        whole, cut = made(sort, seed)
        lot = found[turn % INPUTS]
        lot[0].extend(whole)
        lot[1].extend(cut if not lot[1] else [])
        count += len(whole)
        if most and count >= most:
            break
    return [whole + cut for whole, cut in found if whole or cut]


def compare(calls):
    """How many lines the two programs print alike of these records; stops where they do not."""
    given = joined(calls)
    ours, theirs = second.run_probe(given), second.run("probe", given=given)
    if ours == theirs:
        return len(second.lines(ours))
    for call, a, b in itertools.zip_longest(calls, second.lines(ours), second.lines(theirs)):
        if a != b or call is None:
            sort, seed, number, record = call or ("-", "-", 0, b"")
            where = "%s of seed %s, record %d (%s)" % (sort, seed, number, record[:80].hex())
            sys.exit("against-second: %s\n  probe:  %s\n  second: %s" % (where, a, b))
    sys.exit("against-second: the lines are the same and their ends are not")


def main():
    words = sys.argv[1:]
    if words and (len(words) != 2 or words[0] != "--seeds"):
        sys.exit(__doc__)
    second.build()
    seeds = [int(word) for word in words[1].split(",")] if words else None
    agreed = [compare(calls) for sort, most in MADE.items()
              for calls in inputs(sort, seeds or fresh_seeds(), 0 if words else most)]
    print("against-second: %d calls, in %d inputs, and the two programs print the same" % (sum(agreed), len(agreed)))


if __name__ == "__main__":
    main()
