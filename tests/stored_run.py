#!/usr/bin/env python3
"""The run of slot reports that crates/demands/proofs/RunHolds.antt proves by computation: every rule of the receiver,
report by report.

stored_run.py            write the table, RunTable.antt, anew
stored_run.py --check    exit 1 if the table is not the one that this makes

The blocks are built by the second program, and what each report is to answer is what the second program answers.
"""
import os
import sys

import second

FILE = os.path.join(second.TOP, "crates", "demands", "specs", "RunTable.antt")
UNIT, GROUP, MNI = 5001, 900, 901
FIELDS = dict(system=13, usage=0, to_type=0, to=UNIT, from_type=0, source=7, mni=MNI,
              message=23, width=8, elements=0b1001_0_01_0)
ACK = dict(message=24, width=1, elements=1, from_type=2, source=0)
UDATA = dict(message=22)
HEAD = """-- Slot reports with what they are to answer, made by tests/stored_run.py.
use Rattle.std.specs.Prelude.{List, [], ◌∷◌}
use Rattle.demands.specs.RunRows.{Row, row}

abbrev pub table : List Row
table =
"""


def after(place, count=1):
    """The place so many slots later."""
    frame, slot = place
    for _ in range(count):
        frame, slot = (frame, 3) if slot == 1 else (frame % 18 + 1, 1)
    return frame, slot


def build(n, place, countdown=0, **other):
    """The header and the continuation blocks of a message of n bits."""
    frame, slot = place
    text = bytes((37 * i + 11) % 256 for i in range((n + 7) // 8))
    sent = dict(slot=slot - 1, frame=frame, countdown=countdown, n=n, lent=1024)
    given = second.build_record(text, **{**sent, **FIELDS, **other})
    word, fault, k, run, _ = second.lines(second.run("probe", given=given))[0].split()
    assert (word, fault) == ("build", "0"), (word, fault)
    data = bytes.fromhex(run)
    return data[:24], [data[24 + 34 * i:58 + 34 * i] for i in range(int(k))]


class Run:
    """Reports in turn, from one place on."""

    def __init__(self, place):
        self.place, self.reports = place, []

    def at(self, place):
        self.place = place

    def say(self, kind, data, words):
        self.reports.append((*self.place, kind, data, words))
        self.place = after(self.place)

    def nothing(self, words, count=1):
        for _ in range(count):
            self.say(1, b"", words)

    def header(self, words, n, countdown=0, place=None, spoil=None, **other):
        """A header that names its own place or another; `spoil` flips bits of one byte."""
        data, blocks = build(n, place or self.place, countdown, **other)
        if spoil:
            at, bits = spoil
            data = data[:at] + bytes([data[at] ^ bits]) + data[at + 1:]
        self.say(2, data, words)
        return blocks

    def block(self, words, data):
        self.say(3, data, words)


def reports():
    r = Run((3, 1))
    r.nothing("nothing heard")
    r.header("for this unit, no copy", 16, countdown=1)
    r.header("its repeat, one frame later, is a copy", 16)
    r.header("the same with the same countdown, no frame gone by: a copy", 16)
    r.header("with another message it is none", 20, countdown=1)
    r.header("the first message, its countdown not fallen with the frames: no copy", 16, countdown=2)
    r.header("the other message's repeat, the first between: a copy", 20)
    r.header("the first message's repeat, the other between: a copy", 16, countdown=1)
    r.header("a run of two blocks opens", 400, countdown=1)
    r.header("the first message's repeat, a fragmented header between: a copy", 16)
    r.at((7, 3))
    r.header("the same report twice is a break: no copy, and the run is dropped", 16)
    r.header("for the group", 16, to=GROUP)
    r.header("for another unit", 16, to=UNIT + 1)
    r.header("another network", 16, mni=MNI + 1)
    r.header("not a true address", 16, to_type=1)
    r.header("the block names another frame: fault 18", 16, place=(2, 3))
    r.header("a pad bit is set: fault 2", 16, spoil=(23, 0x01))
    r.at((16, 1))
    blocks = r.header("a run of two blocks opens", 400, countdown=1)
    r.header("its repeat opens it again, nothing is dropped", 400, countdown=1)
    r.nothing("frame 17: a repeat is missed")
    r.header("the last repeat", 400)
    r.nothing("frame 18 is not due", 2)
    r.block("frame 1: the first block is kept", blocks[0])
    r.nothing("slot 3")
    r.block("frame 2: the last block, handed over", blocks[1])
    r.block("the same again is nothing", blocks[1])
    blocks = r.header("a run opens", 700)
    r.nothing("slot 3")
    r.block("kept", blocks[0])
    r.nothing("slot 3")
    r.nothing("the second block is missed: dropped")
    r.nothing("slot 3")
    r.block("the last block comes too late", blocks[2])
    r.at((8, 3))
    blocks = r.header("a run opens after a break", 400)
    r.header("another unit's fragmented header: dropped", 400, to=UNIT + 1)
    r.nothing("slot 3")
    r.block("its block is not ours", blocks[0])
    r.at((12, 1))
    blocks = r.header("a run opens", 400)
    r.nothing("slot 3")
    r.block("the last kind in the first due slot: dropped", blocks[1])
    r.nothing("slot 3")
    r.header("a run of one block opens", 250)
    r.nothing("slot 3")
    r.block("the first kind in the last due slot: dropped", build(700, (1, 1))[1][0])
    r.nothing("slot 3")
    blocks = r.header("a run of one block opens", 250)
    r.nothing("slot 3")
    r.block("handed over", blocks[0])
    r.nothing("slot 3")
    r.header("a run of one block opens", 250)
    r.nothing("frame 18, slot 3")
    r.header("an unfragmented header in the due slot: handed over, and the run is dropped", 16)
    r.nothing("slot 3")
    r.header("a run of two blocks opens", 400)
    r.at((2, 1))
    r.nothing("a report comes twice: dropped")
    r.at((5, 1))
    blocks = r.header("a run of two blocks opens", 400)
    r.nothing("slot 3")
    r.block("kept", blocks[0])
    r.at((5, 3))
    r.nothing("a report goes back: dropped")
    r.at((9, 1))
    r.header("a run of one block opens", 250)
    blocks = r.header("another header for this unit: the first run is dropped, another opens", 260, elements=0)
    r.block("handed over: the later header's", blocks[0])
    r.nothing("slot 3")
    blocks = r.header("a run of one block opens", 250)
    r.nothing("slot 3")
    r.block("a block with a fault in the due slot: fault 12, dropped", bytes([blocks[0][0] ^ 0x80]) + blocks[0][1:])
    r.at((11, 1))
    r.header("a run of a DM-SDS ACK opens, with no source address", 400, **ACK)
    r.at((11, 1))
    r.nothing("the same slot again is a break: it is lost")
    r.at((12, 1))
    blocks = r.header("a run of a DM-SDS UDATA opens", 700, **UDATA)
    r.nothing("slot 3")
    r.block("kept", blocks[0])
    r.nothing("slot 3")
    r.nothing("dropped, but of such a message no loss is told")
    r.at((14, 1))
    for n in range(1, 8):
        r.header("one of seven messages, each in a slot of its own", n, countdown=3)
    r.header("the first of the seven again, three frames later: a copy", 1)
    return r.reports


def answers(given):
    numbers = [second.record(0, b"".join(x.to_bytes(4, "little") for x in (UNIT, GROUP, MNI)))]
    room = (512).to_bytes(2, "little")
    numbers += [second.record(4, bytes([*place, kind]) + room + data) for *place, kind, data, _ in given]
    for line in second.lines(second.run("probe", given=b"".join(numbers)))[1:]:
        word, outcome, dropped, fault, bits, *_, source, message, joined = line.split()
        yield tuple(map(int, (outcome, dropped, fault, bits, source, message, joined)))


def row(report, told):
    """The lines of a report: its words, then its row, in two lines where it is above 120 columns."""
    frame, slot, kind, data, words = report
    begins = "    row %d %d %d %s" % (frame, slot, kind, "0x" + data.hex() if data else "0")
    ends = "(%s ∷ []) ∷" % " ∷ ".join(map(str, told))
    fits = len(begins) + 1 + len(ends) <= 120
    return ["    -- " + words, begins + " " + ends] if fits else ["    -- " + words, begins, "    " + ends]


def main():
    second.build()
    given = reports()
    lines = [line for report, told in zip(given, answers(given)) for line in row(report, told)]
    text = HEAD + "\n".join(lines) + "\n    []\n"
    if not sys.argv[1:]:
        with open(FILE, "w", encoding="utf-8") as file:
            file.write(text)
        print("stored_run: %d reports" % len(given))
    elif sys.argv[1:] == ["--check"]:
        with open(FILE, encoding="utf-8") as file:
            if file.read() != text:
                sys.exit("stored_run: RunTable.antt is not the table that this makes")
        said = "stored_run: the %d reports of RunTable.antt, and what they are to answer, are those of today"
        print(said % len(given))
    else:
        sys.exit(__doc__)


if __name__ == "__main__":
    main()
