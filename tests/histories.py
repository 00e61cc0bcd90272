"""Histories of slot reports, some for each rule of the receiver, with the line that each report has to be answered by.

The blocks are built by the second program. The lines are not asked of it: a history says what each of its reports
brings about.
What a line tells of an assembly that was dropped is worked out here, from the header that the history said to open it
and the blocks that it said to be kept since; many histories also say it themselves, and the two have to be the same.
"""
import second

SETTINGS = 0
REPORT = 4
NOTHING, HEADER, BLOCK = 1, 2, 3
UNIT, GROUP, MNI = 1, 2, 3
LARGEST = 2 ** 24 - 1
DATA, ACK = 23, 24  # the messages that are told of when they are lost
# The width of the elements of each message type (9.4, 9.5), none of their flags set.
WIDTHS = {0: 18, 1: 7, 2: 12, 3: 2, 8: 21, 9: 21, 10: 8, 11: 0, 12: 21, 13: 21, 14: 0, 15: 13, 16: 3, 17: 1, 18: 10,
          19: 6, 20: 0, 21: 0, 22: 8, DATA: 8, ACK: 1}


def settings(individual=UNIT, group=GROUP, mni=MNI, more=b""):
    return second.record(SETTINGS, b"".join(number.to_bytes(4, "little") for number in (individual, group, mni)) + more)


def put(data, at, width, value):
    """The bytes with a field written to them, the first bit highest."""
    digits = format(int.from_bytes(data, "big"), "0%db" % (8 * len(data)))
    digits = digits[:at] + format(value, "0%db" % width) + digits[at + width:]
    return int(digits, 2).to_bytes(len(data), "big")


def after(frame, slot):
    return (frame, 3) if slot == 1 else (frame % 18 + 1, 1)


def due_frame(x, f, i):
    y = (x + f) % 18 + 1
    return ((1 if y == 18 else y) - 1 + i) % 17 + 1


class Message:
    """A message of n bits: a DM-SDS DATA (h = 103, so 21 bits unfragmented and 17 before blocks) to the unit, unless
    told otherwise."""

    def __init__(self, n, seed=0, **other):
        self.fields = dict(system=12, usage=0, to_type=0, to=UNIT, from_type=0, source=9, mni=MNI,
                           message=23, width=8, elements=0xA5)
        self.fields.update(other)
        self.n, self.bytes = n, bytes((73 * i + 41 + seed) % 256 for i in range((n + 7) // 8))

    def built(self, frame, slot, countdown):
        """SCH/S with SCH/H, and the blocks."""
        sent = dict(slot=slot - 1, frame=frame, countdown=countdown, n=self.n, lent=1024)
        call = second.build_record(self.bytes, **sent, **self.fields)
        _, fault, k, written, _ = second.lines(second.run("probe", given=call))[0].split()
        assert fault == "0", (self.fields, self.n, fault)
        data = bytes.fromhex(written)
        return [data[:24]] + [data[at:at + 34] for at in range(24, len(data), 34)]

    def blocks(self):
        return self.built(1, 1, 0)[1:]

    def head(self):
        """How many of its bits a fragmented header takes: what is left of 124 beside h and the slot count."""
        absent = (self.fields["to_type"] == 2) + (self.fields["from_type"] == 2)
        h = 95 + self.fields["width"] - 24 * absent
        return 124 - h - 4

    def part(self, i):
        """How many block i takes."""
        return min(264, self.n - self.head() - 264 * i)

    def lost(self, bits):
        """What is told of it if its assembly is dropped with so many bits joined."""
        source, kind = self.fields["source"], self.fields["message"]
        return (source, kind, bits) if kind in (DATA, ACK) else (0, 0, 0)

    def numbers(self):
        names = ("to_type", "to", "from_type", "source", "mni", "message", "width", "elements")
        return [self.n] + [self.fields[name] for name in names]

    def hex(self):
        spare = -self.n % 8
        return put(self.bytes, self.n, spare, 0).hex() if self.n and spare else self.bytes.hex() or "-"


class History:
    """Reports, one slot after the other from a place on, with their lines; first the settings. `open` has the message
    whose assembly is open and the bits joined so far, as the history has said."""

    def __init__(self, frame, slot=1, first=settings(), line="unit 0"):
        self.place, self.calls = (frame, slot), []
        self.fresh(first, line)

    def fresh(self, first=settings(), line="unit 0"):
        """A fresh receiver from here on."""
        self.calls.append((first, line))
        self.open = None

    def tell(self, kind, blocks, outcome=0, dropped=0, fault=0, message=None, buffer=512, at=None, opens=None,
             part=None, lost=None):
        """A report, at the next place or at another; a message that it hands over. `opens`: the message that outcome 3
        opens, and the bits that its header has; `part`: the bits of the block that outcome 4 keeps; `lost`: an assembly
        is dropped, and this is told of it."""
        frame, slot = at or self.place
        dropped = int(dropped or lost is not None)
        told = self.ended(outcome, dropped, lost)
        self.begun(outcome, opens, part)
        numbers = [outcome, dropped, fault] + (message.numbers() if message else [0] * 9)
        line = "report %s %s 1 %d %d %d" % (" ".join(map(str, numbers)), message.hex() if message else "-", *told)
        body = bytes([frame, slot, kind]) + buffer.to_bytes(2, "little") + blocks
        self.calls.append((second.record(REPORT, body), line))
        if fault not in (15, 16, 1, 17):
            self.place = after(frame, slot)

    def ended(self, outcome, dropped, lost):
        """What is told of the assembly that ends without being handed over. One that is handed over ends here too."""
        told = (0, 0, 0)
        if dropped:
            assert self.open, "call %d: nothing is open" % len(self.calls)
            message, bits = self.open
            told = message.lost(bits)
        assert lost in (None, told), "call %d: %s is told, not %s" % (len(self.calls), told, lost)
        assert outcome not in (2, 4) or self.open, "call %d: a block, and nothing is open" % len(self.calls)
        if dropped or outcome == 2:
            self.open = None
        return told

    def begun(self, outcome, opens, part):
        """What is open from here on. A header that opens while an assembly is open repeats that one's."""
        assert (outcome == 3, outcome == 4) == (opens is not None, part is not None), "call %d" % len(self.calls)
        if outcome == 3:
            assert self.open in (None, opens), "call %d: another is open" % len(self.calls)
            self.open = opens
        if outcome == 4:
            self.open = self.open[0], self.open[1] + part

    def nothing(self, times=1, dropped=0, at=None, lost=None):
        for _ in range(times):
            self.tell(NOTHING, b"", dropped=dropped, at=at, lost=lost)

    def header(self, message, f, outcome, dropped=0, at=None, buffer=512, lost=None):
        """The message's header with countdown f."""
        frame, slot = at or self.place
        self.tell(HEADER, message.built(frame, slot, f)[0], outcome, dropped, message=message if outcome == 1 else None,
                  at=at, buffer=buffer, opens=(message, message.head()) if outcome == 3 else None, lost=lost)

    def block(self, message, i, outcome, dropped=0, at=None, buffer=512, lost=None):
        self.tell(BLOCK, message.blocks()[i], outcome, dropped, message=message if outcome == 2 else None, at=at,
                  buffer=buffer, part=message.part(i) if outcome == 4 else None, lost=lost)

    def upto(self, frame, slot=1):
        while self.place != (frame, slot):
            self.nothing()

    def run(self, message, f, upto=None):
        """The header in all its slots, then the first blocks, or all, in theirs."""
        x, blocks = self.place[0], message.blocks()
        for countdown in range(f, -1, -1):
            self.header(message, countdown, 3)
            self.header(message, countdown, 3)
        for i in range(len(blocks) if upto is None else upto):
            self.upto(due_frame(x, f, i))
            self.block(message, i, 2 if i + 1 == len(blocks) else 4)


TWO = Message(17 + 264 + 3)  # two blocks
SHORT = Message(15)  # unfragmented
OTHER = dict(to=7)  # for another unit


def whole_runs():
    """1 to 15 blocks, past frame 18 in many places, the last block full, with one bit, or in between."""
    for k in range(1, 16):
        h = History((5 * k + 12) % 18 + 1)
        last = (264, 1 if k > 1 else 5, 263)[k % 3]
        message = Message(17 + 264 * (k - 1) + last, seed=k, to=UNIT if k % 2 else GROUP)
        h.run(message, k % 4)
        h.nothing(3)
        yield h
    for x, f in ((17, 0), (16, 1), (18, 3), (18, 0), (15, 2), (14, 3), (16, 0)):
        h = History(x)
        h.run(TWO, f)
        yield h
    # the longest: no source, no elements, 49 bits and fifteen full blocks; of its eight headers the last was heard, or
    # the first
    longest = Message(49 + 15 * 264, from_type=2, source=0, message=11, width=0, elements=0)
    for x, slot, f in ((17, 3, 0), (5, 1, 3)):
        h = History(x, slot)
        h.header(longest, f, 3)
        for i in range(15):
            h.upto(due_frame(x, f, i))
            h.block(longest, i, 2 if i == 14 else 4, buffer=1024)
        yield h
    # one message straight after another
    h = History(3)
    for seed in range(3):
        h.run(Message(17 + 264 + 9, seed=seed), 0)
        h.nothing()
    yield h


def missed():
    """Nothing in a due slot, for each block; a block in frame 18 and in a slot 3 is none."""
    three = Message(17 + 2 * 264 + 30)
    for gone in range(3):
        h = History(16)
        h.run(three, 0, upto=gone)
        h.upto(due_frame(16, 0, gone))
        h.nothing(dropped=1)
        for i in range(gone, 3):
            h.block(three, i, 0)
        yield h
    h = History(17)
    h.run(TWO, 0, upto=0)
    h.block(TWO, 0, 0)
    h.block(TWO, 0, 0)
    h.block(TWO, 0, 4)
    h.block(TWO, 1, 0)
    h.block(TWO, 1, 2)
    h.block(TWO, 1, 0)
    yield h


def kinds_of_block():
    """END before the last due slot, FRAG in it; fill in a FRAG, no bits at all."""
    three = Message(17 + 2 * 264 + 30)
    for i in range(2):
        h = History(9)
        h.run(three, 1, upto=i)
        h.upto(due_frame(9, 1, i))
        h.block(three, 2, 0, dropped=1)
        h.nothing()
        h.block(three, i, 0)
        yield h
    h = History(9)
    h.run(three, 1, upto=2)
    h.nothing()
    h.block(three, 1, 0, dropped=1)
    h.nothing()
    h.block(three, 2, 0)
    yield h
    # a FRAG and an END that are all fill: what the header brought is the message
    h = History(9)
    h.run(TWO, 0, upto=0)
    h.tell(BLOCK, bytes([0x58]) + bytes(33), 4, part=0)
    h.nothing()
    h.tell(BLOCK, bytes([0x78]) + bytes(33), 2, message=Message(17))
    yield h


def other_headers():
    """Headers between and in due slots: fragmented or not, for this unit or another."""
    between = [(Message(300, **OTHER), 0, 1), (Message(300, seed=9), 3, 1), (Message(15, **OTHER), 0, 0),
               (SHORT, 1, 0), (Message(0), 1, 0)]
    for message, outcome, dropped in between:
        h = History(6)
        h.run(TWO, 0, upto=1)
        h.header(message, 0, outcome, dropped)
        if outcome == 3:
            h.block(message, 0, 4)
            h.nothing()
            h.block(message, 1, 2)
        else:
            h.block(TWO, 1, 0 if dropped else 2)
        yield h
    for message, outcome, _ in between:
        h = History(6)
        h.run(TWO, 0, upto=1)
        h.nothing()
        h.header(message, 0, outcome, 1)
        h.block(TWO, 1, 0)
        yield h
    # whom a header is for
    for other in (OTHER, dict(mni=4), dict(to_type=1), dict(to_type=2, to=0),
                  dict(to=UNIT + 2 ** 23), dict(mni=MNI + 2 ** 23), dict(to=0)):
        h = History(8)
        h.header(Message(15, **other), 2, 0)
        h.header(Message(300, **other), 2, 0)
        h.header(Message(15), 1, 1)
        h.header(Message(15, to=GROUP), 1, 1)
        yield h


def repeats():
    """A header that repeats the open assembly's, and some that do not."""
    h = History(17)
    h.header(TWO, 2, 3)
    h.header(SHORT, 0, 1)
    h.header(TWO, 1, 3)
    h.header(TWO, 2, 3, 1)  # the countdown does not fit
    h.header(TWO, 1, 3)
    h.header(Message(284, **OTHER), 1, 0, 1)
    h.header(TWO, 0, 3)  # none was open
    h.header(Message(284, seed=1), 0, 3, 1)
    yield h
    # after the first block nothing repeats; a header in its own first due slot does not either
    h = History(5)
    h.run(TWO, 0, upto=1)
    h.header(TWO, 0, 3, 1)
    h.header(TWO, 0, 3, 1)
    yield h
    h = History(5)
    h.run(TWO, 0, upto=0)
    h.header(TWO, 0, 3, 1)
    yield h
    # a break at the repeat
    h = History(5)
    h.header(TWO, 1, 3)
    h.header(TWO, 0, 3, 1, at=(6, 1))
    h.header(TWO, 0, 3)
    h.block(TWO, 0, 4)
    yield h
    # only the second of eight headers was heard, and the last
    h = History(18)
    h.nothing()
    h.header(TWO, 3, 3)
    h.nothing(5)
    h.header(TWO, 0, 3)
    h.block(TWO, 0, 4)
    h.nothing()
    h.block(TWO, 1, 2)
    yield h


def copies():
    """Unfragmented headers again: in every slot, after another one, with other bits, after a break, eighteen frames
    later."""
    h = History(17)
    h.header(SHORT, 3, 1)
    for countdown in (3, 2, 2, 1, 1, 0, 0):
        h.header(SHORT, countdown, 5)
    h.header(SHORT, 0, 1)
    yield h
    h = History(17)
    h.header(SHORT, 3, 1)
    h.nothing(6)
    h.header(SHORT, 0, 5)
    yield h
    # a header between, for this unit or another, fragmented or not
    for n, other, outcome in ((15, OTHER, 0), (300, OTHER, 0), (14, {}, 1), (300, {}, 3)):
        h = History(12)
        h.header(SHORT, 1, 1)
        h.header(Message(n, **other), 1, outcome)
        h.header(SHORT, 0, 5)
        h.header(SHORT, 1, 1)  # the countdown does not fit
        yield h
    # every bit of SCH/H counts but for the countdown's; those of SCH/S do not
    for other, outcome in ((dict(source=8), 1), (dict(seed=1), 1), (dict(elements=0xA4), 1), (dict(to=GROUP), 1),
                           (dict(system=15, usage=3), 5)):
        h = History(12)
        h.header(SHORT, 1, 1)
        h.header(Message(15, **other), 1, outcome)
        h.header(SHORT, 0, 5)
        h.header(Message(15, **other), 0, 5)
        yield h
    for bit in (0, 9):
        h = History(12)
        h.header(SHORT, 1, 1)
        h.tell(HEADER, put(SHORT.built(12, 3, 1)[0], 64 + bit, 1, 1), 1, message=SHORT)
        h.header(SHORT, 0, 5)
        h.tell(HEADER, put(SHORT.built(13, 3, 0)[0], 64 + bit, 1, 1), 5)
        yield h
    # breaks: the same slot twice, back, on, and far off; and the same slot eighteen frames later
    for back in ((3, 1), (2, 3), (4, 1), (18, 1)):
        h = History(3)
        h.header(SHORT, 1, 1)
        h.header(SHORT, 1, 1, at=back)
        yield h
    h = History(3)
    h.header(SHORT, 1, 1)
    h.nothing(35)
    h.header(SHORT, 1, 1)
    yield h
    # one in a due slot drops, and is a copy
    h = History(3)
    h.header(TWO, 0, 3)
    h.header(SHORT, 1, 1)
    h.header(SHORT, 0, 5, 1)
    h.block(TWO, 0, 0)
    yield h


# Who sends in turn: unfragmented messages for this unit, a to h, and two fragmented ones, F and G; for another unit o,
# the same as a but for its destination, and O, which is fragmented.
SENDERS = dict(a=SHORT, b=Message(14, source=8), c=Message(15, seed=1), d=Message(15, to=GROUP), e=Message(0),
               f=Message(21, source=7), g=Message(15, elements=0), h=Message(15, message=22), F=TWO,
               G=Message(300, seed=9), o=Message(15, **OTHER), O=Message(300, **OTHER))


def turns(h, headers):
    """Headers one slot after the other: who sends, the countdown, a colon, the outcome; `!`: an assembly is dropped."""
    for word in headers.split():
        h.header(SENDERS[word[0]], int(word[1]), int(word[3]), int(word.endswith("!")))


def in_turn():
    """Copies with other headers between: of two senders, three and seven; of one with two countdowns; breaks."""
    two = ["a1:1 b1:1 a0:5", "a3:1 b3:1 a2:5 b2:5 a1:5 b1:5 a0:5 b0:5 a0:1 b0:1",
           "a3:1 a3:5 b2:1 a2:5 b1:5 b1:5 a0:5 b0:5", "a1:1 b3:1 a0:5 b2:5 a0:1 b1:5 a0:1 b0:5",
           "a3:1 b3:1 b2:5 b2:5 b1:5 b1:5 b0:5 a0:5", "a0:1 b0:1 a0:1 b0:1"]
    three = ["a3:1 b3:1 c3:1 a2:5 b1:5 c2:5 a0:5 b0:5 c0:5", "a3:1 b3:1 c3:1 a3:1 b2:1 c1:1 a1:5 b0:5",
             "a2:1 c2:1 d1:1 a1:5 c0:5 d0:5 a0:1", "e3:1 b3:1 a2:1 e2:5 a1:5 b1:5 e0:5 a0:5"]
    # the same header with a countdown that did not fall with the frames: handed over, and then copies of both come
    both = ["a3:1 a3:5 a3:1 a2:5 a1:5 a2:5 a0:5 a1:5 a0:5", "a3:1 a3:5 a3:1 a2:5 a0:1 a3:1 a2:5 a0:5",
            "a3:1 b3:1 a3:1 b3:1 a1:5 b1:5 a1:5 b1:5", "a1:1 a2:1 a0:5 a1:5 a0:5"]
    seven = "a3:1 b3:1 c3:1 d3:1 e3:1 f3:1 g3:1 "
    again = [seven + one for one in ("a0:5", "b0:5", "c1:5", "d1:5", "e2:5", "f2:5", "g3:5")]
    misfit = [seven + one for one in ("a1:1", "b1:1", "c0:1", "d2:1", "e1:1", "f3:1", "g2:1")]
    all_seven = seven + "a0:5 c0:5 d0:5 e0:5 f0:5 g0:5 g0:5 a0:1"
    eight = seven + "h3:1 a0:1 c0:5 e0:5 f0:5 g0:5 h0:5"
    # for another unit between, or first
    others = ["a2:1 o2:0 a1:5 o1:0 a0:5 o0:0", "o3:0 o3:0 a2:1 o2:0 a1:5", "a3:1 O3:0 a2:5 O2:0 b1:1 a1:5 a0:5 b0:5"]
    # fragmented between; the mark is about the open assembly's own header alone
    mixed = ["F3:3 a3:1 O3:0! a2:5 F1:3 a1:5 F0:3 a0:5", "F2:3 G2:3! F1:3! F1:3 G0:3!",
             "a3:1 F3:3 b2:1 G2:3! a1:5 F1:3! b0:5 a0:5"]
    for headers in two + three + both + again + misfit + [all_seven, eight] + others + mixed:
        h = History(17)
        turns(h, headers)
        yield h
    h = History(4, 3)
    turns(h, "a2:1 b2:1 a1:5 b1:5 a0:5 b0:5")
    yield h
    # the third of each is in a due slot
    for headers in ("F0:3 a1:1 b1:1! a0:5 b0:5", "F0:3 a1:1 a0:5! b1:1 b0:5 a0:1"):
        h = History(4)
        turns(h, headers)
        yield h
    # a longer message's blocks come all the same
    h = History(17)
    turns(h, "a3:1 F3:3 a2:5 F2:3 a1:5 F1:3 a0:5 F0:3")
    h.block(TWO, 0, 4)
    turns(h, "b1:1")
    h.block(TWO, 1, 2)
    turns(h, "b0:5")
    yield h
    # slots in which nothing was heard
    h = History(17)
    turns(h, "a3:1")
    h.nothing()
    turns(h, "b2:1 c1:1")
    h.nothing(2)
    turns(h, "a0:5 b0:5 c0:1")
    yield h
    # breaks: a slot left out, a report twice, and one of nothing; each forgets all headers before it
    h = History(17)
    turns(h, "a3:1 b3:1 a2:5")
    h.place = (1, 1)
    turns(h, "b1:1 a1:1 b0:5 a0:5")
    h.place = (2, 3)
    turns(h, "a0:1 b0:1")
    yield h
    h = History(17)
    turns(h, "a3:1 b3:1")
    h.nothing(at=(17, 3))
    turns(h, "a2:1 b2:1 a1:5 b1:5")
    yield h
    h = History(17)
    turns(h, seven)
    h.place = (3, 1)
    turns(h, "g2:1 f1:1 g2:1 g1:5")
    yield h
    # one that reads with a fault, or whose report is refused, is no earlier header, and those before it stay
    h = History(17)
    turns(h, "a3:1 b3:1")
    h.tell(HEADER, put(SENDERS["c"].built(18, 1, 3)[0], 188, 1, 1), fault=2)
    turns(h, "a2:5 c2:1")
    h.tell(HEADER, SENDERS["d"].built(1, 1, 2)[0], fault=16, at=(1, 2))
    turns(h, "d2:1 b0:5 a0:5 d0:5")
    yield h


def breaks():
    """A report twice, one that goes back, one that leaves slots out, between the blocks of a run and before them."""
    for come in range(2):
        for at in ((6, 1), (6, 3), (5, 1), (7, 3), (8, 1), (18, 3)):
            h = History(5)
            h.run(TWO, 0, upto=come)
            if at != h.place:
                h.nothing(dropped=1, at=at)
                h.block(TWO, come, 0)
                yield h
    # what a break brings is dealt with as usual
    for message, outcome in ((SHORT, 1), (TWO, 3), (Message(15, **OTHER), 0), (Message(300, **OTHER), 0)):
        h = History(5)
        h.run(TWO, 0, upto=1)
        h.header(message, 0, outcome, 1, at=(9, 3))
        if outcome == 3:
            h.block(TWO, 0, 4)
            h.nothing()
            h.block(TWO, 1, 2)
        yield h
    # the due block in its own slot, and the slot before it left out
    h = History(5)
    h.run(TWO, 0, upto=1)
    h.block(TWO, 1, 0, 1, at=(7, 1))
    yield h


# A fault of a header, and its field: the first bit, counted over SCH/S and SCH/H, the width and the value.
HEADER_FAULTS = [(2, 60, 1, 1), (2, 63, 1, 1), (2, 188, 1, 1), (3, 0, 4, 9), (4, 4, 2, 1), (5, 6, 2, 1), (6, 19, 2, 1),
                 (7, 14, 5, 0), (7, 14, 5, 19), (18, 14, 5, 11), (18, 12, 2, 1), (8, 78, 2, 3), (8, 104, 2, 3),
                 (9, 154, 5, 31)]
BLOCK_FAULTS = [(2, 268, 1, 1), (2, 271, 1, 1), (12, 0, 2, 0), (12, 0, 2, 2), (12, 0, 2, 3)]


def damaged():
    """Headers and blocks with a fault, in a due slot and outside: they count as nothing heard."""
    for fault, at, width, value in HEADER_FAULTS:
        h = History(5)
        h.tell(HEADER, put(SHORT.built(5, 1, 0)[0], at, width, value), fault=fault)
        h.header(SHORT, 0, 1)
        h.run(TWO, 0, upto=1)
        h.tell(HEADER, put(SHORT.built(7, 3, 0)[0], at, width, value), fault=fault)
        h.tell(HEADER, put(SHORT.built(8, 1, 0)[0], at, width, value), fault=fault, dropped=1)
        h.block(TWO, 1, 0)
        yield h
    zeros = Message(21)
    zeros.bytes = bytes(3)
    for fault, data in ((11, put(zeros.built(5, 1, 0)[0], 74, 1, 1)), (10, put(TWO.built(5, 1, 0)[0], 76, 4, 0))):
        h = History(5)
        h.tell(HEADER, data, fault=fault)
        yield h
    for i in range(2):
        good = TWO.blocks()[i]
        bad = [(fault, put(good, at, width, value)) for fault, at, width, value in BLOCK_FAULTS]
        bad += [(11, bytes([0x50 + 0x20 * i]) + bytes(33))]
        for fault, data in bad:
            x = 17 - i
            h = History(x)
            h.run(TWO, 0, upto=i)
            h.tell(BLOCK, data, fault=fault)
            h.upto(due_frame(x, 0, i))
            h.tell(BLOCK, data, fault=fault, dropped=1)
            h.block(TWO, i, 0)
            yield h


def refused():
    """15, 16, 1 and 17, in this order: such a report has not happened."""
    header, block = SHORT.built(6, 3, 0)[0], TWO.blocks()[1]
    wrong = [(15, (0, 2), 9, b"", 0), (15, (19, 1), NOTHING, b"", 512), (15, (255, 255), BLOCK, block, 512),
             (16, (18, 2), 9, b"", 0), (16, (1, 0), HEADER, header, 512), (16, (6, 4), BLOCK, block, 512),
             (1, (6, 3), 0, b"", 511), (1, (6, 3), 4, b"", 512), (1, (6, 3), 255, header, 512),
             (1, (6, 3), NOTHING, b"\0", 512), (1, (6, 3), HEADER, header[:23], 512),
             (1, (6, 3), HEADER, header + b"\0", 512), (1, (6, 3), HEADER, b"", 0), (1, (6, 3), HEADER, block, 512),
             (1, (6, 3), BLOCK, b"", 512), (1, (6, 3), BLOCK, block[:33], 512), (1, (6, 3), BLOCK, block + b"\0", 512),
             (1, (6, 3), BLOCK, header, 512), (17, (6, 3), NOTHING, b"", 0), (17, (6, 3), NOTHING, b"", 511),
             (17, (6, 3), HEADER, header, 511), (17, (7, 1), BLOCK, block, 511), (17, (9, 1), NOTHING, b"", 511)]
    h = History(5)
    h.run(TWO, 0, upto=1)
    for fault, at, kind, blocks, buffer in wrong:
        h.tell(kind, blocks, fault=fault, at=at, buffer=buffer)
    h.header(SHORT, 1, 1, buffer=513)
    for fault, at, kind, blocks, buffer in wrong:
        h.tell(kind, blocks, fault=fault, at=at, buffer=buffer)
    h.block(TWO, 1, 2, buffer=1024)
    h.header(SHORT, 0, 5)  # none of these was a break
    yield h
    # a buffer above 1,024: no call is made
    h = History(5)
    h.run(TWO, 0, upto=1)
    for lent in (1025, 65535):
        h.calls.append((second.record(REPORT, bytes([9, 1, 1]) + lent.to_bytes(2, "little")), "kind"))
    h.nothing()
    h.block(TWO, 1, 2)
    yield h


def units():
    """Settings at the ends of their range and beyond, equal ones, and new ones within a run."""
    for one, two, mni in ((0, 0, 0), (LARGEST, LARGEST, LARGEST), (5, 5, 5), (LARGEST, 0, 1)):
        h = History(2, first=settings(one, two, mni, b"\xff"))
        for to in (one, two):
            h.header(Message(21, to=to, mni=mni), 0, 1)
            h.header(Message(20, to=to, mni=mni), 0, 1)
            h.header(Message(20, to=to ^ 1, mni=mni ^ 1), 0, 0)
        h.header(Message(20, to=one ^ 2, mni=mni), 0, 0)
        yield h
    large = 2 ** 24
    for numbers in ((large, GROUP, MNI), (UNIT, large, MNI), (UNIT, GROUP, large), (2 ** 32 - 1,) * 3,
                    (large + UNIT, GROUP, MNI)):
        h = History(2, first=settings(*numbers), line="unit 13")
        h.header(SHORT, 0, 0)
        h.header(Message(15, to=0, mni=0), 0, 1)
        yield h
    # a fresh receiver has no assembly, no copy to come, and no place
    h = History(5)
    h.run(TWO, 0, upto=1)
    h.header(SHORT, 1, 1)
    h.fresh()
    h.block(TWO, 1, 0)
    h.header(SHORT, 1, 1)
    h.fresh(settings(UNIT, GROUP, 2 ** 24), "unit 13")
    h.nothing(at=(2, 1))
    h.fresh()
    h.nothing()
    yield h


def of_type(kind, n=None, **other):
    """A message of a type and of three blocks, or of n bits."""
    message = Message(0, message=kind, width=WIDTHS[kind], elements=0, **other)
    return Message(message.head() + 2 * 264 + 30 if n is None else n, **message.fields)


def open_with(message, kept):
    """An assembly is open, from a header in frame 4, with so many blocks kept; the next slot is the one before the due
    one."""
    h = History(4)
    h.header(message, 0, 3)
    for i in range(kept):
        h.nothing()
        h.block(message, i, 4)
    return h


def due_with(message, kept):
    """The same, and the next slot is the due one."""
    h = open_with(message, kept)
    h.nothing()
    return h


def each_way(message, kept, lost):
    """A message of three blocks, so many of them kept, dropped in each way that there is; what is told of it."""
    # nothing heard; a block and a header with a fault
    h = due_with(message, kept)
    h.nothing(lost=lost)
    h.nothing(2)
    yield h
    good = message.blocks()[kept]
    no_one = bytes([0x50 + 0x20 * (kept == 2)]) + bytes(33)
    for fault, data in ((2, put(good, 268, 1, 1)), (12, put(good, 0, 2, 3)), (11, no_one)):
        h = due_with(message, kept)
        h.tell(BLOCK, data, fault=fault, lost=lost)
        yield h
    h = due_with(message, kept)
    h.tell(HEADER, put(message.built(*h.place, 0)[0], 0, 4, 9), fault=3, lost=lost)
    h.block(message, kept, 0)
    yield h
    # END before the last due slot, FRAG in it
    h = due_with(message, kept)
    h.block(message, 2 if kept < 2 else 1, 0, lost=lost)
    yield h
    # a fragmented header, for another unit or for this one, in the due slot and before it; the new one is lost as well
    new = Message(300, source=LARGEST, message=ACK, width=1, elements=1)
    for begun in (open_with, due_with):
        h = begun(message, kept)
        h.header(Message(300, **OTHER), 0, 0, lost=lost)
        h.nothing(3)
        yield h
        h = begun(message, kept)
        h.header(new, 0, 3, lost=lost)
        h.upto(h.place[0] + (h.place[1] == 3))
        h.block(new, 1, 0, lost=(LARGEST, 24, 24))
        yield h
    # the message's own header once more, too late for a repeat
    h = due_with(message, kept)
    h.header(message, 0, 3, lost=lost)
    h.nothing()
    h.block(message, 0, 4)
    yield h
    # an unfragmented header in the due slot: for this unit, for another one, a copy
    for short, outcome in ((SHORT, 1), (Message(15, **OTHER), 0)):
        h = due_with(message, kept)
        h.header(short, 0, outcome, lost=lost)
        yield h
    h = open_with(message, kept)
    h.header(SHORT, 1, 1)
    h.header(SHORT, 0, 5, lost=lost)
    yield h
    # breaks: a report twice, back, on and far off; with the due block, with headers
    frame = 4 + kept
    for at in ((frame, 1), (3, 3), (frame + 1, 1), (18, 3)):
        h = open_with(message, kept)
        h.nothing(at=at, lost=lost)
        h.nothing(2)
        yield h
    h = open_with(message, kept)
    h.block(message, kept, 0, at=(frame + 1, 1), lost=lost)
    yield h
    for other, outcome in ((message, 3), (new, 3), (SHORT, 1), (Message(300, **OTHER), 0), (Message(15, **OTHER), 0)):
        h = open_with(message, kept)
        h.header(other, 2, outcome, at=(9, 1), lost=lost)
        if outcome == 3:
            h.header(other, 2, 3)
            h.header(other, 2, 3, lost=other.lost(other.head()))  # the countdown does not fit
        yield h


def lost_ones():
    """Each way of being dropped, for a DM-SDS DATA, a DM-SDS ACK and a DM-SDS UDATA; every type; sources; lengths."""
    for kind, head in ((DATA, 17), (ACK, 24)):
        for kept in range(3):
            yield from each_way(of_type(kind), kept, (9, kind, head + 264 * kept))
    for kept in (0, 2):
        yield from each_way(of_type(22), kept, (0, 0, 0))
    # every message type
    for kind in WIDTHS:
        h = due_with(of_type(kind), 1)
        h.nothing(lost={DATA: (9, 23, 281), ACK: (9, 24, 288)}.get(kind, (0, 0, 0)))
        yield h
    # the source: absent, which leaves 24 bits more to the message; at the ends of its range; not a true address
    sources = [(dict(from_type=2, source=0), 0, 24), (dict(source=LARGEST), LARGEST, 0), (dict(source=0), 0, 0),
               (dict(source=1), 1, 0), (dict(from_type=1, source=2 ** 23), 2 ** 23, 0)]
    for kind, head in ((DATA, 17), (ACK, 24)):
        for other, source, more in sources:
            for kept in (0, 2):
                h = due_with(of_type(kind, **other), kept)
                h.nothing(lost=(source, kind, head + more + 264 * kept))
                yield h
    # of one block, before and after frame 18
    for kind, head in ((DATA, 17), (ACK, 24)):
        for x in (16, 17):
            h = History(x)
            one = of_type(kind, head + 9)
            h.run(one, 0, upto=0)
            h.upto(due_frame(x, 0, 0))
            h.block(of_type(kind), 0, 0, lost=(9, kind, head))
            h.block(one, 0, 0)
            yield h
    # the longest: no source, fourteen blocks kept, and then a FRAG, or nothing
    longest = of_type(ACK, 48 + 15 * 264, from_type=2, source=0)
    for data in (longest.blocks()[0], b""):
        h = History(17, 3)
        h.header(longest, 0, 3)
        for i in range(14):
            h.upto(due_frame(17, 0, i))
            h.block(longest, i, 4)
        h.nothing()
        h.tell(BLOCK if data else NOTHING, data, lost=(0, 24, 48 + 14 * 264))
        yield h


# Messages with the room in their fragmented headers: its first bit, counted over SCH/S and SCH/H, and its width.
FILLED = [(of_type(DATA), 171, 17), (of_type(ACK), 164, 24), (of_type(DATA, from_type=2, source=0), 147, 41)]


def lost_bits():
    """Fill leaves fewer bits, or none, in the header and in the blocks kept. The block that drops is not joined."""
    for message, first, width in FILLED:
        source, kind = message.fields["source"], message.fields["message"]
        for head, room in ((0, 1 << width - 1), (5, 0b101101 << width - 6), (width - 1, 1)):
            data = put(put(message.built(4, 1, 0)[0], 74, 1, 1), first, width, room)
            for parts in ((), (0,), (264, 0), (5,), (263, 7)):
                h = History(4)
                h.tell(HEADER, data, 3, opens=(message, head))
                h.nothing()
                for part in parts:
                    frag = put(bytes([0x50]) + bytes(33), 4 + part, 1, 1) if part < 264 else bytes([0x40]) + bytes(33)
                    h.tell(BLOCK, frag, 4, part=part)
                    h.nothing()
                # a FRAG in the last due slot, or an END before it
                h.block(message, 0 if len(parts) == 2 else 2, 0, lost=(source, kind, head + sum(parts)))
                yield h


def lost_and_not():
    """Repeats lose nothing, nor does what is handed over or refused; one run after another; one joined later."""
    for kind, told in ((DATA, (9, 23, 17)), (ACK, (9, 24, 24)), (22, (0, 0, 0))):
        # repeats, one of them after another header; a break at the last; then its own due slot
        message = of_type(kind)
        h = History(17)
        for countdown in (3, 3, 2):
            h.header(message, countdown, 3)
        h.header(SHORT, 0, 1)
        for countdown in (1, 1, 0):
            h.header(message, countdown, 3)
        h.header(message, 0, 3, at=(2, 1), lost=told)
        h.header(message, 0, 3)
        h.header(message, 0, 3, lost=told)
        yield h
        # handed over: nothing was lost, and a break then loses nothing
        h = History(17)
        h.run(message, 1)
        h.nothing(at=(9, 3))
        h.run(message, 0, upto=2)
        h.nothing(at=(1, 1), lost=message.lost(message.head() + 528))
        h.nothing(at=(1, 1))
        yield h
        # lost, and joined from a repeat of its header
        h = History(5)
        h.header(message, 1, 3)
        h.header(Message(300, **OTHER), 0, 0, lost=told)
        h.header(message, 0, 3)
        h.nothing()
        for i, outcome in enumerate((4, 4, 2)):
            h.block(message, i, outcome)
            h.nothing()
        yield h
        # refused reports between, and then the due block is not heard
        h = due_with(message, 1)
        h.tell(NOTHING, b"", fault=15, at=(19, 1))
        h.tell(BLOCK, message.blocks()[1], fault=16, at=(6, 2))
        h.tell(BLOCK, b"", fault=1)
        h.tell(NOTHING, b"", fault=17, buffer=511)
        h.nothing(lost=message.lost(message.head() + 264))
        yield h
        # outside due slots nothing is lost; new settings leave no assembly to lose
        h = open_with(message, 1)
        h.block(message, 2, 0)
        h.block(message, 1, 4)
        h.tell(BLOCK, bytes(34), fault=12)
        h.fresh()
        h.nothing(at=(2, 3))
        yield h
    # each header drops the one before it, and that one is told of
    runs = [of_type(ACK, source=8), of_type(22, source=7), of_type(DATA, source=6), of_type(ACK, source=5)]
    h = History(5)
    h.header(runs[0], 3, 3)
    h.header(runs[1], 3, 3, lost=(8, 24, 24))
    h.header(runs[2], 0, 3, lost=(0, 0, 0))
    h.nothing()
    h.block(runs[2], 0, 4)
    h.header(runs[3], 0, 3, at=(3, 3), lost=(6, 23, 281))  # a break
    h.block(runs[3], 0, 4)
    h.header(Message(300, **OTHER), 0, 0, lost=(5, 24, 288))
    h.header(runs[0], 0, 3)
    yield h


def before_settings():
    """The first record: the receiver is fresh with three zeros."""
    h = History(2)
    h.calls.clear()
    h.header(SHORT, 0, 0)
    h.header(Message(15, to=0, mni=0), 0, 1)
    return h.calls


def calls():
    """Each call with the line that answers it."""
    found = before_settings()
    for made in (whole_runs, missed, kinds_of_block, other_headers, repeats, copies, in_turn, breaks, damaged, refused,
                 units, lost_ones, lost_bits, lost_and_not):
        for history in made():
            found += history.calls
    return found
