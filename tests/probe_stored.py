#!/usr/bin/env python3
"""The stored run of crates/probe: call records in its file stdin, the second program's answers in its file stdout.

probe_stored.py            write both files
probe_stored.py --check    exit 1, and say what differs, where a stored file is not what this script makes

The records are the second program's sheet of reads and layouts, all of it; of its sheet of builds those that show
something which none before them showed; the histories of slot reports of histories.py, whose lines the second program
has to agree with; its sheet of transport messages and bookings, all of it; and some that try the framing.
"""
import itertools
import os
import sys

import histories
import second

HERE = os.path.join(second.TOP, "crates", "probe")
NARROW = {"usage": 3, "slot": 3, "countdown": 3, "to_type": 3, "from_type": 3, "message": 31}


def shows(given, line):
    """What a build shows: a set of facts of its numbers and its answer."""
    b, message = second.build_numbers(given)
    fault, k = (int(word) for word in line.split()[1:3])
    absent = (b["to_type"] == 2) + (b["from_type"] == 2)
    left = 124 - (95 + b["width"] - 24 * absent)
    over = b["n"] - (left - 4)  # message bits beyond what a fragmented header takes
    case, types = (b["message"], b["width"]), (b["to_type"], b["from_type"])
    facts = {("case", case, fault) if fault in (0, 9) else ("type", b["message"], fault)}
    facts |= {("width", b["width"], fault), ("types", types, fault, k)}
    facts |= {(name, b[name], fault) for name in ("system", "usage", "slot", "frame", "countdown")}
    facts |= {(name, b[name]) for name in ("to", "source", "mni") if b[name] < 2 or b[name] >= 2 ** 24 - 1}
    if -5 <= b["n"] - left <= 6:
        facts |= {("cut", case, b["n"] - left), ("cut", types, b["n"] - left)}
    if over > 100 and over % 264 in (0, 1, 263):
        facts |= {("edge", types, over, fault), ("blocks", b["message"], k)}
    if fault in (0, 1):
        needed = 24 + 34 * ((over + 263) // 264 if b["n"] > left else 0)
        facts.add(("output", needed, max(-2, min(1, b["lent"] - needed))))
    wrong = [name for name, most in NARROW.items() if b[name] > most]
    wrong += [name for name in ("to", "source", "mni") if b[name] >= 2 ** 24]
    wrong += [("absent", name) for name, of in (("to", "to_type"), ("source", "from_type")) if b[of] == 2 and b[name]]
    beyond = b["n"] > 8 * len(message)
    if b["system"] not in range(10, 16) or b["frame"] not in range(1, 19) or beyond or fault in (8, 9, 14):
        wrong += [b["system"] // 10, b["frame"] // 19, beyond, types]
    return facts | {("refused", fault, tuple(wrong))}


def some_builds():
    sheet = second.run("builds")
    seen = set()
    for given, line in zip(second.records(sheet), second.lines(second.run("probe", given=sheet))):
        facts = shows(given, line)
        if not facts <= seen:
            seen |= facts
            yield given


def some_histories():
    calls = histories.calls()
    answers = second.lines(second.run("probe", given=b"".join(given for given, _ in calls)))
    for number, ((given, line), answer) in enumerate(itertools.zip_longest(calls, answers, fillvalue=(b"", "")), 1):
        if answer != line:
            where = "call %d of the histories (%s)" % (number, given[:40].hex())
            sys.exit("probe_stored: %s\n  by hand: %s\n  second:  %s" % (where, line, answer))
        yield given


def framing():
    """Unknown kinds, bytes beyond what a kind takes, the largest body, outputs that are too long; then a record that is
    cut, and one more."""
    fields = dict(system=12, usage=1, slot=0, frame=7, countdown=2, to_type=0, to=1, from_type=0, source=2, mni=3,
                  message=11, width=0, elements=0)
    for kind in (0x0100, 0x0104, 0x0105, 0x0109, 0x010B, 0x0400, 0x0800, 0x0B00, 0xFFFF, 1, 2, 3, 13):
        yield second.record(kind, [17, 0, 0])
    yield second.record(13, b"")
    yield second.record(8, [17, 0, 0, 255])
    yield second.record(6, [0, 0, 255])
    yield second.record(7, b"")
    yield second.record(7, bytes(4096))
    yield second.record(4, [1, 1, 3, 0, 4] + [0] * 4091)
    yield second.build_record(bytes(4096 - 35), n=8 * (4096 - 35), lent=1024, **fields)
    for lent in (0, 23, 24, 1023, 1024, 1025, 65535):
        yield second.build_record(b"\xA5\xC3", n=16, lent=lent, **fields)
    yield second.build_record(b"", n=0, lent=24, **fields)
    yield second.build_record(b"", n=1, lent=24, **fields)
    yield second.record(5, bytes(34))
    yield second.record(8, [17, 0, 0])


def made():
    sheets = [second.run("blocks")], some_builds(), some_histories(), [second.run("transports")], framing()
    given = b"".join(itertools.chain(*sheets))
    return given, second.run("probe", given=given)


def stored(name):
    with open(os.path.join(HERE, name), "rb") as file:
        return file.read()


def differs(given, output):
    """What is said of the first record, or line, that is not as stored; None where there is none."""
    for name, what, cut, new in (("stdin", "record", second.records, given), ("stdout", "line", second.lines, output)):
        old = stored(name)
        for number, (is_now, should_be) in enumerate(itertools.zip_longest(cut(old), cut(new)), 1):
            if is_now != should_be:
                return "%s: %s %d is %r and should be %r" % (name, what, number, is_now, should_be)
        if old != new:
            return "%s: the end of its last %s differs" % (name, what)
    return None


def main():
    second.build()
    given, output = made()
    if sys.argv[1:] == ["--check"]:
        wrong = differs(given, output)
        if wrong:
            sys.exit("probe_stored: " + wrong)
        print("probe_stored: the %d stored lines are those of the second program" % output.count(b"\n"))
    elif not sys.argv[1:]:
        for name, data in (("stdin", given), ("stdout", output)):
            with open(os.path.join(HERE, name), "wb") as file:
                file.write(data)
        print("probe_stored: wrote %d records and %d lines" % (len(second.records(given)), output.count(b"\n")))
    else:
        sys.exit(__doc__)


if __name__ == "__main__":
    main()
