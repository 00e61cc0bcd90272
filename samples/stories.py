"""What the units heard, story by story: the reports of each sample log, and beside each what it is answered, worked out
by hand.

An answer is outcome, dropped, fault and bits, as printed after frame and slot. One story goes on in calls of `probe`.
"""
import os
import sys

sys.path.insert(0, os.path.join(os.path.dirname(os.path.abspath(__file__)), "..", "tests"))
import second

DESK, SITES, NETWORK = 5001, 900, 901  # the unit at the hire desk, the group of all sites, the MNI
OTHER_DESK, CAGE_2, CAGE_3, CAGE_4 = 5002, 7, 8, 9
SETTINGS = second.record(0, b"".join(n.to_bytes(4, "little") for n in (DESK, SITES, NETWORK)))
# DM-SDS DATA (23) and DM-SDS ACK (24), with the width and the number of their elements.
DATA, ACK = dict(message=23, width=8, elements=0b1001_0_01_0), dict(message=24, width=1, elements=0)

# DM-SDS DATA with a check sequence at its end: the last bit of the elements tells of it.
CHECKED = dict(DATA, elements=DATA["elements"] + 1)

OPENS, KEPT, NOTHING, LOST = "3 0 0 0", "4 0 0 0", "0 0 0 0", "0 1 0 0"


def joined(text):
    return "2 0 0 %d" % (8 * len(text))


class Message:
    """A text from a cage, to the hire desk if nothing else is said: built for each slot that its header goes out in."""

    def __init__(self, text, to=DESK, source=CAGE_2, sort=DATA):
        self.text = text
        self.fields = dict(system=13, usage=0, to_type=0, to=to, from_type=0, source=source, mni=NETWORK, **sort)

    def built(self, place, countdown):
        frame, slot = place
        text = self.text.encode("ascii")
        sent = dict(slot=slot - 1, frame=frame, countdown=countdown, n=8 * len(text), lent=1024)
        call = second.build_record(text, **sent, **self.fields)
        word, fault, k, run, _ = second.lines(second.run("probe", given=call))[0].split()
        assert (word, fault) == ("build", "0")
        data = bytes.fromhex(run)
        return [data[:24]] + [data[24 + 34 * i:58 + 34 * i] for i in range(int(k))]


class Log:
    """Reports one after another, from a place on. A row is a record, what is printed for it (None if it is not read),
    and words; ** ** stands around what to look at."""

    def __init__(self, frame, slot, settings=True):
        self.place, self.rows = (frame, slot), []
        self.start = SETTINGS if settings else b""

    def at(self, frame, slot):
        self.place = (frame, slot)

    def say(self, kind, data, answer, words):
        frame, slot = self.place
        self.rows.append((second.record(kind, bytes([frame, slot]) + data), "%d %d %s" % (frame, slot, answer), words))
        self.place = (frame, 3) if slot == 1 else (frame % 18 + 1, 1)

    def nothing(self, words="nothing was heard", count=1, answer=NOTHING):
        for _ in range(count):
            self.say(1, b"", answer, words)

    def header(self, message, answer, words, countdown=0, spoil=None, place=None):
        """`spoil` turns bits of one byte; `place` is the one that the header names, where it is not the report's."""
        data = message.built(place or self.place, countdown)[0]
        if spoil:
            at, bits = spoil
            data = data[:at] + bytes([data[at] ^ bits]) + data[at + 1:]
        self.say(2, data, answer, words)

    def block(self, message, i, answer, words, spoil=0):
        data = message.built((1, 1), 0)[i]
        self.say(3, bytes([data[0] ^ spoil]) + data[1:], answer, words)

    def record(self, data, printed, words):
        """A record that is no report of the next slot."""
        self.rows.append((data, printed, words))

    def data(self):
        return self.start + b"".join(data for data, _, _ in self.rows)

    def text(self):
        return "".join(printed + "\n" for _, printed, _ in self.rows if printed is not None)


# The fixed part of the body of a transport message's build, number by number.
TRANSPORT = [("message", 1), ("fcs", 1), ("addressed", 1), ("caller_mni", 4), ("caller", 4), ("kind", 1),
             ("protocol", 1), ("request", 1), ("short", 1), ("required", 1), ("storage", 1), ("status", 1),
             ("reference", 1), ("validity", 1), ("forward_type", 1), ("forward", 8), ("n", 4), ("lent", 2)]


def little(n, size):
    return n.to_bytes(size, "little")


def came(message):
    """A message with what it came with: message type and elements, its number of bits, its bytes."""
    data, n = message
    return little(CHECKED["message"], 1) + little(CHECKED["elements"], 8) + little(n, 4) + data


class Calls:
    """Calls of `probe`, one after another. A row is a record, what is printed for it (`..` for bytes), and words."""

    def __init__(self):
        self.rows = []

    def call(self, kind, body, printed, words):
        self.rows.append((second.record(kind, body), printed, words))

    def answer(self):
        """The words that are printed for the last call, where that does not hang on those before it."""
        return second.lines(second.run("probe", given=self.rows[-1][0]))[0].split()

    def unit(self, individual, words):
        self.call(0, b"".join(little(n, 4) for n in (individual, SITES, NETWORK)), "unit 0", words)

    def transfer(self, text, reference, bits, words):
        """An SDS-TRANSFER with this text and a check sequence: its bytes, and its number of bits."""
        text = text.encode("ascii")
        numbers = dict(message=CHECKED["message"], fcs=1, kind=1, protocol=200, reference=reference)
        numbers.update(n=8 * len(text), lent=1024)
        body = b"".join(little(numbers.get(name, 0), size) for name, size in TRANSPORT)
        self.call(10, body + text, "sdu 0 %d .. 1" % bits, words)
        return bytes.fromhex(self.answer()[3]), bits

    def laid_out(self, message, to, source, place, words):
        """The header of a message for this slot, and its blocks, two of them."""
        data, n = message
        fields = dict(system=13, usage=0, to_type=0, to=to, from_type=0, source=source, mni=NETWORK, **CHECKED)
        build = second.build_record(data, slot=place[1] - 1, frame=place[0], countdown=0, n=n, lent=1024, **fields)
        self.call(5, build[4:], "build 0 2 .. 1", words)
        run = bytes.fromhex(self.answer()[3])
        return [run[:24], run[24:58], run[58:]]

    def report(self, place, heard, numbers, words):
        """A report of a header, of a block or of nothing, with a buffer of 512 bytes."""
        kind = {0: 1, 24: 2, 34: 3}[len(heard)]
        self.call(4, bytes([*place, kind]) + little(512, 2) + heard, "report " + numbers, words)

    def read(self, message, numbers, words):
        self.call(9, came(message), "transport " + numbers, words)

    def bookings(self, words):
        self.call(11, b"", "bookings", words)

    def book(self, source, message, numbers, words):
        self.call(12, little(source, 4) + came(message), "book " + numbers, words)


def june():
    """June: an answer over frame 18

    The unit at the hire desk had asked cage 2 for hire 4711, and cage 2 answered. The answer takes a header and three
    blocks. Its header goes out in frames 16 and 17, so its first block would be due in frame 18; but blocks never go
    out in frame 18, and it comes in frame 1. The log is what a unit at the desk hears, and what a right one prints.

    ---

    ## What the unit of June made of it

    It counted frame 18 as due. Slot 1 of frame 18 brought no block, so it dropped the answer there. From line 6 on it
    printed

        18 1 0 1 0 0
        18 3 0 0 0 0
        1 1 0 0 0 0

    and never a 2. The desk had no answer, so it sent the hire again; cage 2 had booked it already, booked it again and
    answered again (line 30). That answer begins in frame 12 and ends before frame 18, so the desk got it. One hire, two
    bills: 118, which nobody at the desk had seen, and 119.

    A 1 under *dropped* in frame 18 is the sign to look for. No block is due there, so a right unit prints it only where
    another message's header was heard in that slot, or over a break.
    """
    log = Log(15, 3)
    first = Message("Hire 4711 booked: hammer kit 12, drill kit 3, tunnel 5, cage 2, bill 118")
    again = Message("Hire 4711 booked: hammer kit 12, drill kit 3, tunnel 5, cage 2, bill 119")
    log.nothing()
    log.header(first, OPENS, "cage 2's answer begins: its header says that three blocks follow, and that the header "
               "itself comes again in the next frame", 1)
    log.header(first, OPENS, "the header again, in slot 3; a repeat opens the same assembly anew and drops nothing", 1)
    log.header(first, OPENS, "once more, a frame on", 0)
    log.header(first, OPENS, "the last repeat", 0)
    log.nothing("**frame 18: no block is due in it.** A right unit waits")
    log.nothing("slot 3 of frame 18")
    log.block(first, 1, KEPT, "frame 1: the first block, kept")
    log.nothing("slot 3 is never due")
    log.block(first, 2, KEPT, "the second block, kept")
    log.nothing()
    log.block(first, 3, joined(first.text), "the last block: the whole answer is handed over, 576 bits, 72 characters")
    log.nothing("the unit of June sends the hire again in this time; a unit hears nothing while it sends", 17)
    log.header(again, OPENS, "cage 2 has booked the hire a second time, and answers that")
    log.header(again, OPENS, "the same in slot 3")
    log.block(again, 1, KEPT, "first block")
    log.nothing()
    log.block(again, 2, KEPT, "second block")
    log.nothing()
    log.block(again, 3, joined(again.text), "the second answer is handed over: bill 119 for the hire of bill 118")
    return log


def june_goes_on():
    """June goes on: the hire is booked once

    Cage 2 took the hire that was sent again for a new one. It need not: a hire is a transfer, a message of the
    transport layer, and has a reference, a number that its sender gives it and that stays the same when the hire is
    sent again. A cage that keeps the last 32 pairs of sender and reference that it booked can tell.

    `./probe` shows such a cage: it makes the calls of `june.calls` and prints `june.calls.txt`, a line for each. Its
    lines 1 to 37 are the desk's settings and the reports above, each with the message that is handed over. From line
    38 on the desk makes its hire, and cage 2 hears it twice. `..` stands for the bytes of a line. The slots between
    the two hires, in which cage 2 heard nothing, are left out.

    ---

    The numbers after `book` are fault, mark, kind and reference. Mark 1 is booked, 2 is again, 0 is nothing to book.
    What the numbers of the other lines are stands at the top of `crates/probe/src/main.rt`.

    One hire, one bill: where the mark is 2, the cage answers with bill 118 once more and writes no bill 119. In which
    frames the hire came does not matter, only who sent it and its reference. When 32 other pairs have been booked
    since, the first is out of the list, oldest first; the same hire would then be booked again.
    """
    calls = Calls()
    hire = calls.transfer(
        "Hire 4711: hammer kit 12, drill kit 3, tunnel 5", 93, 448,
        "the desk makes hire 4711 a transfer with reference 93: no fault, 448 bits. 40 of them say what it is, 376 are "
        "its 47 characters, and the last 32 are a check sequence over all the others")
    # The last three numbers are those of a message that is lost: here none is.
    nothing = " 0 0 0 0 0 0 0 0 0 0 0 - 1 0 0 0"
    whole = "2 0 0 448 0 7 0 5001 901 23 8 147 %s 1 0 0 0" % hire[0].hex()

    def sent(frame, words, repeated):
        """What goes out: the headers in slots 1 and 3 of a frame, a block in slot 1 of each of the next two."""
        header, first, last = calls.laid_out(hire, CAGE_2, DESK, (frame, 1), words)
        repeat = calls.laid_out(hire, CAGE_2, DESK, (frame, 3), repeated)[0]
        after = [(frame + 1, 1, first), (frame + 1, 3, b""), (frame + 2, 1, last)]
        return [(frame, 1, header), (frame, 3, repeat)] + after

    def heard(slots, *words):
        answers = ["3" + nothing, "3" + nothing, "4" + nothing, "0" + nothing, whole]
        for (frame, slot, block), numbers, said in zip(slots, answers, words):
            calls.report((frame, slot), block, numbers, said)

    slots = sent(9, "it is laid out for slot 1 of frame 9: a header, and the two blocks that follow it",
                 "and for slot 3: a header names the slot that it goes out in, so each is built by itself")
    calls.unit(CAGE_2, "from here on it is cage 2's unit that hears")
    calls.bookings("its list of what it has booked is empty")
    heard(slots, "frame 9, slot 1: the header of the hire; an assembly is open",
          "slot 3: the header again",
          "frame 10, slot 1: the first block, kept",
          "slot 3: nothing was heard",
          "frame 11, slot 1: the last block. The hire is handed over, 448 bits, just those that the desk made. It is "
          "for 7, cage 2, and comes from 5001, the desk")
    calls.read(hire, "0 1 0 0 0 200 0 0 0 0 0 93 0 0 0 40 376",
               "what cage 2 reads in it. No fault: the check sequence is right. 1 is a transfer, 93 its reference; its "
               "text begins at bit 40 and has 376 bits")
    calls.book(DESK, hire, "0 1 1 93",
               "**booked:** sender 5001 with reference 93 is new. Cage 2 writes bill 118, and answers in frame 16 "
               "(line 2 above)")
    slots = sent(6, "the unit of June lost the answer, so the desk sends the hire again (lines 13 to 29 above): the "
                 "same transfer, laid out for slot 1 of frame 6", "and for slot 3")
    heard(slots, "frame 6, slot 1: its header",
          "slot 3: the header again",
          "frame 7, slot 1: the first block",
          "slot 3: nothing was heard",
          "frame 8, slot 1: the hire has come a second time, as whole as the first")
    calls.book(DESK, hire, "0 2 1 93",
               "**again:** sender 5001 with reference 93 is among the last 32 booked. It is not booked, and there is "
               "no second bill")
    data, n = hire
    calls.book(DESK, (data[:20] + bytes([data[20] ^ 1]) + data[21:], n), "21 0 0 0",
               "the hire with one bit turned on the way: fault 21, the check sequence is wrong. Nothing is booked, and "
               "nothing that was booked is forgotten")
    other = calls.transfer("Hire 4712: hammer kit 9, tunnel 5", 94, 336,
                           "the desk's next hire, 4712: a transfer with reference 94")
    calls.book(DESK, other, "0 1 1 94", "booked: the sender is the same, the reference is not")
    calls.book(OTHER_DESK, hire, "0 1 1 93",
               "booked: the other desk, 5002, has a hire with reference 93 too. The reference is the same, the sender "
               "is not")
    calls.book(DESK, hire, "0 2 1 93", "hire 4711 from the desk once more: again, as before")
    return calls


def second_cage():
    """A second cage starts between two of ours

    Cage 2 sends the desk a message of three blocks, three times over. Each time cage 3 starts between two of its
    blocks: with a message for another desk, with one for this desk, and with a short one that fits into its header.

    ---

    A fragmented header says whose the next blocks are, whoever it is for. A unit that went on with cage 2's message
    would take cage 3's blocks for cage 2's.
    """
    log = Log(5, 1)
    ours = Message("Hire 4802 back: drill kit 7 from quarry 2, one bit worn, cage 2, paid 40")
    theirs = Message("Hire 4803: hammer kit 4 for tunnel 1, cage 3", to=OTHER_DESK, source=CAGE_3)
    later = Message("Hire 4804: hammer kit 9 for quarry 6, cage 3", source=CAGE_3)
    short = Message("K12", source=CAGE_3, sort=ACK)

    def begin(what):
        log.header(ours, OPENS, what)
        log.header(ours, OPENS, "its header again")
        log.block(ours, 1, KEPT, "its first block, kept")

    begin("cage 2 begins a message of three blocks for the desk")
    log.header(theirs, LOST, "**cage 3 begins a message of two blocks for another desk.** The air is cage 3's now: "
               "ours is dropped")
    log.block(theirs, 1, NOTHING, "cage 3's first block: not for this unit")
    log.nothing()
    log.block(theirs, 2, NOTHING, "cage 3's last block: not for this unit either")
    log.nothing()
    begin("cage 2 tries again")
    log.header(later, "3 1 0 0", "**cage 3 begins a message for this desk.** Ours is dropped, and cage 3's opens, in "
               "one report")
    log.block(later, 1, KEPT, "cage 3's first block")
    log.nothing()
    log.block(later, 2, joined(later.text), "cage 3's message is whole and handed over")
    log.nothing()
    begin("cage 2 tries a third time")
    log.header(short, "1 0 0 24", "**cage 3 says in one header that kit 12 is back.** It is handed over at once, and "
               "outside due slots such a header does not touch an open assembly")
    log.block(ours, 2, KEPT, "cage 2's second block")
    log.nothing()
    log.block(ours, 3, joined(ours.text), "cage 2's message is whole and handed over")
    return log


def missed_block():
    """A block that was missed

    One hire, sent four times. Three blocks follow its header, each due in slot 1 of the next frame. Three times the
    second block goes wrong.

    ---

    Each lost try shows one 1 under *dropped*, at the due slot where it went wrong; after that, the blocks that still
    come are nothing to the unit. Only a whole message is handed over.

    The line does not say whose message is lost. The answer that the unit itself has does, and it is the same at lines
    5, 13 and 21: source 7, message type 23, and 281 bits joined so far, 17 of the header and 264 of the first block.
    """
    log = Log(4, 1)
    hire = Message("Hire 4810: drill kit 2 and hammer kit 6 for quarry 3, two days, cage 2..")

    def begin(words):
        log.header(hire, OPENS, words)
        log.nothing()
        log.block(hire, 1, KEPT, "the first block, kept")
        log.nothing()

    begin("a message of three blocks begins")
    log.nothing("**the second block is due here and was not heard:** the assembly is dropped", answer=LOST)
    log.nothing()
    log.block(hire, 3, NOTHING, "the last block comes, but nothing is open any more")
    log.nothing()
    begin("the cage sends it again")
    log.block(hire, 3, LOST, "**the last block where the second is due:** a unit that only waits for a last block "
              "would hand over a hire with a hole in it")
    log.nothing()
    log.nothing("nothing is due any more")
    log.nothing()
    begin("and again")
    log.block(hire, 2, "0 1 12 0", "**the second block, damaged on the way:** fault 12; it counts as nothing heard, so "
              "the assembly is dropped", spoil=0x80)
    log.nothing()
    log.block(hire, 3, NOTHING, "too late")
    log.nothing()
    begin("and once more")
    log.nothing("frame 18 comes between two due slots: nothing is missed in it", 2)
    log.block(hire, 2, KEPT, "the second block")
    log.nothing()
    log.block(hire, 3, joined(hire.text), "the last block: handed over")
    return log


def longest():
    """The longest that a unit is receiving

    While a message comes in, a unit shows "receiving": from its first line with a 3 to the one with the 2. Cage 2 sends
    the desk its list of kits. It takes fifteen blocks, the most that there are; its header goes out in frames 18, 1, 2
    and 3, the most that there are too, and only the first is heard. Then the cage sends the list again, and the last
    block is lost. In the end it begins once more and falls silent.

    ---

    Twice the last block is due 38 lines after the line of the header, and there receiving ends: with a 2, or with a 1
    under *dropped*. It never takes longer. Four frames for the header, fourteen blocks before the last one and one
    frame 18 are nineteen frames, 38 lines, just over a second. A block that isn't heard ends it where it is due: at
    line 83, two lines after the header.

    So, unless the log ends first, a 2 or a 1 under *dropped* comes at the latest 38 lines after the first 3; lines with
    fault 15 or 16 and lines with a word are not counted. A unit that shows "receiving" for longer is to be tested.
    """
    log = Log(18, 1)
    kits = Message(
        "Cage 2, Friday's list. In: hammer kits 1 2 3 5 8 9 11 12 14 17 20 21, drill kits 1 3 4 6 7. Out: hammer kit 4 "
        "tunnel 5 till Monday, 6 tunnel 5 till Monday, 7 quarry 2 till Tuesday, 10 quarry 3 no day, 13 tunnel 1 till "
        "Monday, 15 tunnel 4 late since Wednesday, 16 quarry 6 till Thursday, drill kit 2 quarry 3 late since Tuesday, "
        "5 tunnel 4 till Monday, 8 quarry 2 till Friday. In repair: hammer kits 18 and 19, drill kit 9. Short of bits: "
        "ten of 18 mm, six of 22 mm, by Monday noon.")

    def begin(words):
        log.header(kits, OPENS, words, 3)
        log.nothing("its seven repeats were not heard", 7)

    def blocks(numbers, words):
        for i in numbers:
            log.block(kits, i, KEPT, words)
            log.nothing(words)

    def frame_18():
        log.nothing("frame 18: no block is due", 2)

    begin("the list begins: its header says that fifteen blocks follow, and that the header itself comes in three more "
          "frames. The unit is receiving")
    blocks(range(1, 15), "frames 4 to 17: a block in slot 1, kept, and nothing in slot 3")
    frame_18()
    log.block(kits, 15, joined(kits.text), "**the last block, 38 lines after the header:** the list is handed over")
    log.nothing()
    begin("the cage sends the list again")
    blocks(range(1, 13), "frames 6 to 17: blocks, kept")
    frame_18()
    blocks((13, 14), "frames 1 and 2: blocks, kept")
    log.nothing("**the last block is due and was not heard:** dropped, again 38 lines after the header", answer=LOST)
    log.nothing()
    log.header(kits, OPENS, "the list a third time; the countdown is 0, so the first block is due in the next frame")
    log.nothing()
    log.nothing("the cage has fallen silent: dropped where the first block is due", answer=LOST)
    return log


def copies():
    """Copies of a header

    A header goes out in slots 1 and 3 of a frame, and again in up to three frames more, its countdown falling by one
    with each. So a unit hears the same short message up to eight times and has to hand it over once.

    ---

    A copy has outcome 5. A header is held against every earlier one for this unit since the last break, whoever was
    heard in between. A header that opens an assembly has outcome 3 with each repeat; the message is handed over once,
    with its last block.
    """
    log = Log(3, 1)
    back = Message("K12", sort=ACK)
    other = Message("D03", to=SITES, source=CAGE_3, sort=ACK)
    hire = Message("Hire 4820: hammer kit 1, tunnel 4")
    log.header(back, "1 0 0 24", "cage 2: kit 12 is back. One header, handed over; its countdown says that it comes in "
               "two more frames", 2)
    log.header(back, "5 0 0 0", "the same in slot 3: a copy, not handed over", 2)
    log.header(back, "5 0 0 0", "a frame on, the countdown one less: a copy", 1)
    log.nothing("one repeat was not heard; the next is held against those that were")
    log.header(back, "5 0 0 0", "a copy", 0)
    log.header(back, "5 0 0 0", "a copy", 0)
    log.header(back, "1 0 0 24", "**the same header with the countdown at 2 again:** it did not fall with the frames, "
               "so this is a new message", 2)
    log.header(back, "5 0 0 0", "its copy", 2)
    log.header(other, "1 0 0 24", "**cage 3 in between,** to all sites: drill kit 3 is back. The group is one of this "
               "unit's addresses, so this is handed over", 0)
    log.header(back, "5 0 0 0", "**cage 2's header again.** Cage 3's came in between, and that changes nothing: a copy "
               "of line 7's, a frame on, the countdown one less", 1)
    log.nothing()
    log.nothing()
    log.header(hire, OPENS, "a longer message begins; its header opens an assembly", 1)
    log.header(hire, OPENS, "its repeats open it anew: outcome 3 each time, and dropped stays 0", 1)
    log.header(hire, OPENS, "a frame on", 0)
    log.header(hire, OPENS, "the last repeat", 0)
    log.block(hire, 1, joined(hire.text), "its one block: handed over, once")
    return log


def two_cages():
    """Two cages answer in turn

    The desk asked cages 2 and 3 for their kits, and both answered in the same frames. An answer is one header, and it
    comes again in the next frames; the unit hears now the one cage, now the other. Each answer has to come out once.

    ---

    A header is held against every earlier one for this unit since the last break, not only against the nearest. It is a
    copy if one of them has the same bits and a countdown that has fallen, since then, by just the frames gone by.

    ## What the unit did before

    It held a header against the nearest earlier one alone. At line 3 that was cage 3's, so it took cage 2's repeat for
    a new message and printed

        10 1 1 0 0 24

    Copy, other, copy: cage 2's message came out twice, and kit 12 was back two times. From line 7 to line 15 it printed
    outcome 1 in each line, nine messages where three were sent; only at line 16 was the nearest header cage 4's own.
    """
    log = Log(9, 1)
    back = Message("K12", sort=ACK)
    other = Message("D03", source=CAGE_3, sort=ACK)
    log.header(back, "1 0 0 24", "cage 2: kit 12 is back. Handed over; the header comes again in the next frame", 1)
    log.header(other, "1 0 0 24", "cage 3, in slot 3: drill kit 3 is back. Handed over", 0)
    log.header(back, "5 0 0 0", "**cage 2's header again, cage 3's in between.** The bits are those of line 1, and in "
               "one frame the countdown fell by one: a copy", 0)
    log.header(back, "5 0 0 0", "the same in slot 3", 0)
    log.nothing(count=2)
    back = Message("K07", sort=ACK)
    other = Message("D09", source=CAGE_3, sort=ACK)
    third = Message("K21", to=SITES, source=CAGE_4, sort=ACK)
    log.header(back, "1 0 0 24", "cage 2 in slot 1: kit 7 is back. Its header comes in three more frames", 3)
    log.header(other, "1 0 0 24", "cage 3 in slot 3: drill kit 9 is back. Its header comes in three more frames too", 3)
    log.header(back, "5 0 0 0", "a frame on: cage 2's is a copy of line 7's", 2)
    log.header(other, "5 0 0 0", "and cage 3's of line 8's", 2)
    log.header(back, "5 0 0 0", "cage 2's again", 1)
    log.header(third, "1 0 0 24", "**a third cage joins in:** cage 4, to all sites, has kit 21 back. Handed over", 2)
    log.header(back, "5 0 0 0", "cage 2's for the last time, now with cage 4's in between: still a copy", 0)
    log.header(other, "5 0 0 0", "cage 3's for the last time; since line 10 both others came in between: a copy", 0)
    log.header(third, "5 0 0 0", "cage 4's, two frames on: a copy of line 12's", 0)
    log.header(third, "5 0 0 0", "the same in slot 3")
    return log


def goes_back():
    """A report that goes back, and one that comes twice

    After slot 1 comes slot 3 of the same frame, then slot 1 of the next. A report that doesn't follow the last one is a
    break: the unit can't know what it missed, so an open assembly is dropped.

    ---

    A break itself prints nothing. It shows in the first two columns alone, and where something was open, in a 1 under
    *dropped*.
    """
    log = Log(10, 1)
    hire = Message("Hire 4830: drill kit 5, quarry 2, out 06:40, back by Friday")
    back = Message("K07", sort=ACK)
    log.header(hire, OPENS, "a message of two blocks begins")
    log.nothing()
    log.block(hire, 1, KEPT, "its first block")
    log.at(11, 1)
    log.block(hire, 1, LOST, "**the same report a second time.** Slot 3 of frame 11 should follow: a break, and the "
              "assembly is dropped")
    log.nothing()
    log.block(hire, 2, NOTHING, "the last block finds nothing open")
    log.nothing()
    log.header(hire, OPENS, "the message again")
    log.nothing()
    log.block(hire, 1, KEPT, "its first block")
    log.at(13, 3)
    log.nothing("**a report of a slot that has been already:** a break; dropped", answer=LOST)
    log.nothing("what follows it counts from there", 4)
    log.header(hire, OPENS, "the message a third time")
    log.nothing()
    log.block(hire, 1, KEPT, "its first block")
    log.at(1, 1)
    log.block(hire, 2, LOST, "**slots were left out:** after slot 1 of frame 17 comes its slot 3. The last block is in "
              "its due slot, but over a break nothing is joined: dropped")
    log.header(back, "1 0 0 24", "a short message: kit 7 is back")
    log.at(1, 3)
    log.header(back, "1 0 0 24", "**the same report a second time:** over a break nothing is a copy, so it is handed "
               "over again")
    return log


def copy_18_later():
    """The same header eighteen frames later

    Frame numbers come round every eighteen frames, about once a second. Kit 12 is back twice within that time.

    ---

    Frames gone by are counted one by one: eighteen have gone by, and the countdown has not fallen by eighteen. A unit
    that compared frame numbers would see none gone by, take the second for a copy and lose it.
    """
    log = Log(5, 1)
    back = Message("K12", sort=ACK)
    log.header(back, "1 0 0 24", "kit 12 is back: handed over")
    log.nothing(count=35)
    log.header(back, "1 0 0 24", "**the same bits in the same slot of the same frame number, eighteen frames later.** "
               "No copy: handed over again")
    log.header(back, "5 0 0 0", "straight after it, in slot 3: a copy")
    return log


def damaged():
    """Damaged blocks and damaged records

    A fault number is about what the radio heard, or about a report that can't be; the words `kind` and `cut` are about
    the file.

    ---

    A line with fault 15 or 16 is a report that has not happened: the next report is held against the one before it.
    """
    log = Log(6, 1)
    hire = Message("Hire 4840: hammer kit 3, tunnel 2")
    back = Message("K12", sort=ACK)
    log.header(back, "0 0 2 0", "fault 2: a pad bit is set, so the block is not as a radio gives it", spoil=(23, 1))
    log.header(back, "0 0 3 0", "fault 3: no system code of direct mode", spoil=(0, 0x80))
    log.header(back, "0 0 6 0", "fault 6: the header says that it is encrypted", spoil=(2, 0x08))
    log.header(back, "0 0 18 0", "fault 18: the header names frame 6, the report frame 7", place=(6, 3))
    log.header(hire, OPENS, "a message of one block begins")
    log.record(second.record(9, b"cage 2"), "kind", "a record of kind 9, which there is not: skipped")
    log.record(log.start, "kind", "the settings again: they go first and once, so this is skipped and the unit stays "
               "as it is")
    log.record(second.record(1, [8, 3, 0]), "kind", "a report of kind 1 that is a byte too long: skipped")
    log.record(second.record(1, [19, 1]), "19 1 0 0 15 0", "fault 15: there is no frame 19. The report has not "
               "happened")
    log.record(second.record(1, [8, 2]), "8 2 0 0 16 0", "fault 16: reports are of slots 1 and 3. This one has not "
               "happened either")
    log.nothing("slot 3 of frame 8: it follows the header, since nothing between them was a report that counts")
    log.block(hire, 1, joined(hire.text), "the block, in its due slot: handed over. All of those left the open "
              "assembly alone")
    log.block(hire, 1, "0 0 12 0", "fault 12: an SCH/F that is no continuation block", spoil=0x80)
    log.record(second.record(2, [10, 1, 0xD0]), "cut", "a record of kind 2 with three bytes: shorter than its kind. "
               "The printer stops")
    log.record(second.record(1, [10, 3]), None, "a good report: it is not read")
    return log


def no_unit():
    """A log without its unit

    The first record has to be the unit's settings: its individual address, its group and its network. Here it was lost.

    ---

    `unit` is all that such a log prints. Have the log taken from the unit again, from its start.
    """
    log = Log(5, 1, settings=False)
    log.record(second.record(1, [5, 1]), "unit", "the log starts with a report: nobody knows whose it is. The printer "
               "stops")
    log.record(SETTINGS, None, "the settings, too late: not read")
    log.record(second.record(1, [5, 3]), None, "not read")
    return log


# The stories that go on in calls.
CALLS = {"june": june_goes_on}
LOGS = {"june": june, "second-cage": second_cage, "missed-block": missed_block, "longest": longest, "copies": copies,
        "two-cages": two_cages, "goes-back": goes_back, "copy-18-later": copy_18_later, "damaged": damaged,
        "no-unit": no_unit}

# What is lost in a story, by its line: source, message type and bits. At its other lines nothing is.
LOSSES = {"missed-block": {line: (7, 23, 281) for line in (5, 13, 21)},
          "longest": {79: (7, 23, 17 + 14 * 264), 83: (7, 23, 17)}}
