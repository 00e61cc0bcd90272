#!/usr/bin/env python3
"""A message of three continuation blocks on the air: its header with 0 to 3 repeats, its blocks in their slots. See
repeats.md.

repeats.py            print the tables
repeats.py --check    exit 1, and say where, if they are not those of repeats.txt

All of it is asked of `probe`, record by record: a build for each header that goes out, the layout for each block, and
the readers for what comes back. `rt run` in crates/probe makes that program.
"""
import os
import sys

HERE = os.path.dirname(os.path.abspath(__file__))
sys.path.insert(0, os.path.join(HERE, "..", "tests"))
import second  # for the shape of records, and to run `probe`; the second program itself is not used here

TEXT = b"Hire 4711: hammer kit 12 and drill kit 3, out 06:40, quarry 5, cage 2 ok"
# To SSI 5001 from SSI 7, MNI 901, as DM-SDS DATA (23) with its 8 bits of elements: time remaining 1001, transaction
# type 0, priority 01, FCS flag 0.
FIELDS = dict(system=13, usage=0, to_type=0, to=5001, from_type=0, source=7, mni=901,
              message=23, width=8, elements=0b1001_0_01_0)
FIRST = 16  # the frame that the header goes out in first


def probe(calls):
    """The answers to records, as lists of words."""
    return [line.split() for line in second.lines(second.run_probe(b"".join(calls)))]


def headers(f):
    """Where a header and its repeats go: (frame, slot, countdown), frame 18 followed by 1."""
    return [((FIRST + gone - 1) % 18 + 1, slot, f - gone) for gone in range(f + 1) for slot in (1, 3)]


def built(places):
    """A build for each place: its header and its continuation blocks."""
    sent = [dict(slot=slot - 1, frame=frame, countdown=countdown) for frame, slot, countdown in places]
    calls = [second.build_record(TEXT, n=8 * len(TEXT), lent=1024, **place, **FIELDS) for place in sent]
    for word, fault, k, run, rest in probe(calls):
        assert (word, fault, rest) == ("build", "0", "1")
        data = bytes.fromhex(run)
        yield data[:24], [data[24 + 34 * i:58 + 34 * i] for i in range(int(k))]


def told(block):
    """What a continuation block reads as: its name and its message bits."""
    (word, fault, last, first, bits), = probe([second.record(7, block)])
    assert (word, fault) == ("block", "0")
    return ("DMAC-FRAG", "DMAC-END")[int(last)], bit_run(block, int(first), int(bits))


def bit_run(data, first, count):
    return "".join(format(byte, "08b") for byte in data)[first:first + count]


def due(place, i):
    """The frame of block i, counted from one of the headers."""
    frame, _, countdown = place
    (word, fault, answer), = probe([second.record(8, [frame, countdown, i])])
    assert (word, fault) == ("frame", "0")
    return int(answer)


def row(frame, slot, what, start):
    return "%5s %4s  %-34s %s" % (frame, slot, what, start)


def table(f):
    places = headers(f)
    sent = list(built(places))
    blocks = sent[0][1]
    assert all(others == blocks for _, others in sent)  # only the header says which repeat it is
    yield "F = %d: the header goes out %d times" % (f, len(places))
    yield row("frame", "slot", "what goes out", "first bytes")
    for (frame, slot, countdown), (header, _) in zip(places, sent):
        answer, = probe([second.record(6, [8, 16] + list(header))])
        word, fault, _, _, code, in_frame, _, count, falls, *_, first, bits = answer
        assert (word, fault, int(code) + 1, int(in_frame)) == ("header", "0", slot, frame)
        assert (int(falls), int(count)) == (countdown, len(blocks))
        message = bit_run(header[8:], int(first), int(bits))
        begins = "SCH/S %s  SCH/H %s" % (header[:3].hex(" "), header[8:14].hex(" "))
        yield row(frame, slot, "header, countdown %d, %s bits" % (countdown, bits), begins)
    for i, block in enumerate(blocks):
        frame, = {due(place, i) for place in places}  # the same from whichever header it is counted
        name, bits = told(block)
        message += bits
        what = "%s %d of %d, %d bits" % (name, i + 1, len(blocks), len(bits))
        yield row(frame, 1, what, "SCH/F %s" % block[:8].hex(" "))
    text = bytes(int(message[at:at + 8], 2) for at in range(0, len(message), 8))
    yield "read back, %d bits: %s" % (len(message), text.decode("ascii"))


def main():
    lines = ["%d bits of text" % (8 * len(TEXT))]
    for f in range(4):
        lines += [""] + list(table(f))
    text = "\n".join(lines) + "\n"
    if not sys.argv[1:]:
        sys.stdout.write(text)
    elif sys.argv[1:] == ["--check"]:
        with open(os.path.join(HERE, "repeats.txt"), encoding="ascii") as file:
            stored = file.read()
        for number, (a, b) in enumerate(zip(stored.split("\n") + [""], text.split("\n") + [""]), 1):
            if a != b:
                sys.exit("repeats: line %d of repeats.txt is\n  %s\nand should be\n  %s" % (number, a, b))
        if stored != text:
            sys.exit("repeats: repeats.txt is longer or shorter than it should be")
        print("repeats: the %d lines of repeats.txt are those of today" % text.count("\n"))
    else:
        sys.exit(__doc__)


if __name__ == "__main__":
    main()
