#!/usr/bin/env python3
"""The proved printer against the second program, on slot logs that nobody has seen: what they print has to be the same,
byte for byte.

logs-against-second.py                  2,000 fresh logs and 10 long ones, every prefix of a good log, some small ones
logs-against-second.py --logs N         the same with N logs, and a long one for each 200
logs-against-second.py --seeds A,B,..   the log and the long log of each of these seeds again

A log (`second make log SEED`) has 50 to 400 reports of mutated runs, records that are skipped, and often one that stops
the printer or an end in the middle; each is a run of the printer by itself, since a log ends at its first `unit` or
`cut`. A long one (`second make long SEED`) has some 20,000 reports and nothing that stops. Over the fresh logs every
outcome, every fault that a log can give and each of the three words has to have come. As many runs go at a time as
there are processors.

The lines of each log are also held to a law by themselves: where a unit begins to receive (outcome 3), that has ended
(outcome 2, or dropped 1) at the latest 38 reports later. Over the fresh logs exactly 38 has to have come.

The good log is cut after each of its bytes. A cut within the first record prints `unit`; at a record's end, the lines
up to there; within a record, the same and `cut`. What the small ones print was worked out by hand: each way to get
`unit`, `kind` and `cut`, and each limit beside it.

Where the two differ it names the seed, the line, the record that it answers and both lines.
"""
import collections
import concurrent.futures
import itertools
import os
import sys

import second

LOGS, TO_A_LONG_ONE = 2000, 200
LONGEST = 38  # so many reports after the one that began it, receiving has ended
SAMPLES = os.path.join(second.TOP, "samples")
# Each of these has to come. Faults 1 and 17 are of lengths, which the log's framing has tested; 13 and 14 are of builds
# and settings.
WANTED = ([("outcome", n) for n in range(6)] + [("dropped", n) for n in (0, 1)]
          + [("word", word) for word in ("unit", "kind", "cut")]
          + [("fault", n) for n in (0, 2, 3, 4, 5, 6, 7, 8, 9, 10, 11, 12, 15, 16, 18)]
          + [("receiving for", LONGEST)])


class Differs(Exception):
    pass


def alike(what, given, printed, should_be):
    """Stops, with words, at the first line that differs. A line answers the record after the settings that has its
    number."""
    if printed == should_be:
        return
    records = second.records(given)[1:]
    both = itertools.zip_longest(second.lines(printed), second.lines(should_be))
    for number, (is_now, wanted) in enumerate(both):
        if is_now != wanted:
            answered = records[number] if number < len(records) else b""
            record = (given if "unit" in (is_now, wanted) else answered)[:80].hex() or "-"
            where = "%s, line %d (record %s)" % (what, number + 1, record)
            raise Differs("%s\n  printer: %s\n  should be: %s" % (where, is_now, wanted))
    raise Differs("%s: the lines are the same and their ends are not" % what)


def printer(what, given):
    try:
        return second.run_printer(given)
    except SystemExit as error:
        raise Differs("%s: %s" % (what, error))


def shown(output):
    """What the lines of a log show, counted."""
    found = collections.Counter()
    for line in second.lines(output):
        words = line.split()
        if len(words) == 6:
            found.update([("outcome", int(words[2])), ("dropped", int(words[3])), ("fault", int(words[4])), "line"])
        else:
            found[("word", line)] += 1
    return found


def received(what, output):
    """For how many reports units were receiving, counted; stops, with words, where one was for too long. It begins with
    outcome 3, and ends with outcome 2 or dropped 1; a 3 without a drop is the same header again, and ends nothing.
    Refused reports and words don't count."""
    found, began, reports = collections.Counter(), None, 0
    for number, line in enumerate(second.lines(output), 1):
        words = line.split()
        if len(words) != 6 or words[4] in ("15", "16"):
            continue
        reports += 1
        outcome, dropped = words[2:4]
        if began and (outcome == "2" or dropped == "1"):
            found[("receiving for", reports - began[1])] += 1
            began = None
        if began and reports - began[1] >= LONGEST:
            raise Differs("%s: receiving since line %d, and still so at line %d, %d reports later: %s"
                          % (what, began[0], number, LONGEST, line))
        if outcome == "3" and not began:
            began = number, reports
    return found


def compare(job):
    sort, seed = job
    given = second.run("make", sort, str(seed))
    output = second.run("print", given=given)
    what = "second make %s %d" % (sort, seed)
    alike(what, given, printer(what, given), output)
    return shown(output) + received(what, output)


def good_log():
    """The first answer of samples/june.log and samples/damaged.log up to its last good record: each kind of report, and
    records that print `kind`."""
    with open(os.path.join(SAMPLES, "june.log"), "rb") as file:
        june = second.records(file.read())[:13]
    with open(os.path.join(SAMPLES, "damaged.log"), "rb") as file:
        damaged = second.records(file.read())[1:14]
    return june + damaged


def prefix_jobs():
    """(a prefix of the good log, what it prints) for each byte."""
    records = good_log()
    whole = second.lines(second.run("print", given=b"".join(records)))
    if len(whole) != len(records) - 1 or {"unit", "cut"} & set(whole):
        raise Differs("the good log is not good: %s" % whole)
    before = b""
    for number, record in enumerate(records):
        for length in range(len(record)):
            lines = whole[:max(number - 1, 0)] + (["unit"] if number == 0 else ["cut"] if length else [])
            yield before + record[:length], "".join(line + "\n" for line in lines).encode("ascii")
        before += record
    yield before, "".join(line + "\n" for line in whole).encode("ascii")


def small_logs():
    """(what, log, what it prints): the first record, then the others."""
    def settings(*numbers):
        return b"".join(number.to_bytes(4, "little") for number in numbers)

    least, most, large = settings(0, 0, 0), settings(*[2 ** 24 - 1] * 3), 2 ** 24
    unit, report, then = second.record(0, settings(1, 2, 3)), second.record(1, [5, 1]), "5 1 0 0 0 0\n"
    example = bytes.fromhex("0E00000001000000020000000300000004000100050104000100050304000100 1301")
    yield "the worked example", example, "5 1 0 0 0 0\n5 3 0 0 0 0\n19 1 0 0 15 0\n"
    yield "settings alone", unit, ""
    for name, body in ("least", least), ("largest", most):
        yield "%s settings" % name, second.record(0, body) + report, then
    for wrong in (large, 2 ** 31, 2 ** 32 - 1):
        for place in range(3):
            body = settings(*[wrong if at == place else 7 for at in range(3)])
            yield "setting %d is %d" % (place + 1, wrong), second.record(0, body) + report, "unit\n"
    first = {"nothing at all": b"",
             "a report": report + unit,
             "no kind": bytes(2),
             "half a kind": bytes([1, 0, 0]),
             "kind 1": second.record(1, least),
             "kind 256": second.record(256, least),
             "eleven bytes": second.record(0, least[:11]),
             "thirteen bytes": second.record(0, least + b"\0"),
             "a length beyond the end": bytes([255, 255, 0, 0]) + least}
    for name, data in first.items():
        yield "the first record: %s" % name, data + (report if data else b""), "unit\n"
    skipped = {"settings again": unit,
               "settings too long": second.record(0, bytes(13)),
               "kind 4": second.record(4, b""),
               "kind 256": second.record(256, [5, 1]),
               "kind 513": second.record(513, bytes(26)),
               "the longest": second.record(9, bytes(65533)),
               "kind 1, a byte more": second.record(1, [5, 1, 0]),
               "kind 2, a byte more": second.record(2, bytes(27)),
               "kind 3, a byte more": second.record(3, bytes(37)),
               "the longest of kind 1": second.record(1, bytes(65533))}
    for name, data in skipped.items():
        yield name, unit + data + report, "kind\n" + then
    stops = {"length 0": bytes(2),
             "length 1": bytes([1, 0, 1]),
             "settings, a byte less": second.record(0, bytes(11)),
             "kind 0 alone": second.record(0, b""),
             "kind 1, a byte less": second.record(1, [5]),
             "kind 2, a byte less": second.record(2, bytes(25)),
             "kind 3, a byte less": second.record(3, bytes(35)),
             "kind 9 beyond the end": bytes([255, 255, 9, 0]),
             "kind 1 beyond the end, too long": bytes([255, 255, 1, 0])}
    for name, data in stops.items():
        yield name, unit + report + data + report, then + "cut\n"
    yield "one byte left", unit + report + report[:1], then + "cut\n"
    yield "a kind that is cut off", unit + report + bytes([4, 0, 9]), then + "cut\n"


def fixed_jobs():
    """(what, log, what it prints) for the prefixes and the small logs."""
    for given, should_be in prefix_jobs():
        yield "the good log's first %d bytes" % len(given), given, should_be
    for what, given, should_be in small_logs():
        yield what, given, should_be.encode("ascii")


def try_fixed(job):
    what, given, should_be = job
    alike(what, given, printer(what, given), should_be)


def jobs(words):
    """The seeds to try, (sort, seed) each, and whether they are fresh."""
    if words[:1] == ["--seeds"] and len(words) == 2:
        return [(sort, int(seed)) for seed in words[1].split(",") for sort in ("log", "long")], False
    if words and (words[0] != "--logs" or len(words) != 2):
        sys.exit(__doc__)
    logs = int(words[1]) if words else LOGS
    sorts = ["log"] * logs + ["long"] * (logs // TO_A_LONG_ONE)
    return [(sort, int.from_bytes(os.urandom(8), "little")) for sort in sorts], True


def main():
    tried, fresh = jobs(sys.argv[1:])
    second.build()
    found, fixed = collections.Counter(), list(fixed_jobs()) if fresh else []
    with concurrent.futures.ThreadPoolExecutor(os.cpu_count() or 1) as pool:
        try:
            for one in pool.map(compare, tried):
                found.update(one)
            for _ in pool.map(try_fixed, fixed):
                pass
        except Differs as error:
            pool.shutdown(cancel_futures=True)
            sys.exit("logs-against-second: %s" % error)
    missing = ["%s %s" % name for name in WANTED if not found[name]]
    if fresh and len(tried) >= LOGS and missing:
        sys.exit("logs-against-second: never came: %s" % ", ".join(missing))
    print("logs-against-second: %d logs with %d reports, and the two programs print the same; receiving for %d reports "
          "came %d times, for more never; %d prefixes and small logs print what they should"
          % (len(tried), found["line"], LONGEST, found[("receiving for", LONGEST)], len(fixed)))


if __name__ == "__main__":
    main()
