#!/usr/bin/env python3
"""The vectors of crates/bits_vectors: call records in its file stdin, the answers in its file stdout.

bits_vectors.py            write both files
bits_vectors.py --check    exit 1, and say what differs, where a stored file is not what this script makes

The answers come from a model on strings of '0' and '1': it has no shift, no mask and no byte edge. Those of HAND were
worked out on paper; the model is held to them too. What a record looks like is said at the top of
crates/bits_vectors/src/main.rt.
"""
import hashlib
import os
import sys

HERE = os.path.join(os.path.dirname(os.path.abspath(__file__)), "..", "crates", "bits_vectors")
CALLS = ["get", "get8", "get32", "put", "put_all", "copy", "clear", "fill", "last_one", "end"]


# ---- the model

def bits(data):
    return "".join(format(byte, "08b") for byte in data)


def hexed(string):
    return "".join(format(int(string[i:i + 8], 2), "02x") for i in range(0, len(string), 8))


def spelled(width, value):
    """The bits of a value that fits its width, and None of one that does not."""
    digits = format(value, "b") if value else ""
    return None if len(digits) > width else digits.rjust(width, "0")


def laid(old, at, new):
    return old[:at] + new + old[at + len(new):]


def filling(count):
    return "1".ljust(count, "0") if count else ""


def answer(call, x=0, y=0, z=0, v=0, s=b"", t=b""):
    """The line that a record is answered by; s and t are the two lent runs."""
    b, most = bits(s), {"get": 56, "get8": 8, "get32": 32}
    if call in most:
        if y > most[call] or x + y > len(b):
            return "range"
        return str(int("0" + b[x:x + y], 2))
    if call == "put":
        new = spelled(y, v) if y <= 56 else None
        return "range" if new is None or x + y > len(b) else hexed(laid(b, x, new))
    if call == "put_all":
        n = len(t) // 9
        values = [int.from_bytes(t[n + 8 * i:n + 8 * i + 8], "little") for i in range(n)]
        parts = [spelled(width, value) if width <= 56 else None for width, value in zip(t, values)]
        if None in parts or x + len("".join(parts)) > len(b):
            return "range"
        return hexed(laid(b, x, "".join(parts)))
    if call == "copy":
        run = bits(t)[x:x + z]
        return "range" if x + z > 8 * len(t) or y + z > len(b) else hexed(laid(b, y, run))
    if call == "end":
        run = bits(t)[x:x + y]
        if y > 263 or x + y > 8 * len(t):
            return "range"
        return hexed(("0111" + run + filling(264 - y)).ljust(272, "0"))
    if x > y or y > len(b):
        return "range"
    if call == "last_one":
        place = b[x:y].rfind("1")
        return "none" if place < 0 else str(x + place)
    return hexed(laid(b, x, "0" * (y - x) if call == "clear" else filling(y - x)))


# ---- records

def record(call, x=0, y=0, z=0, v=0, s=b"", t=b""):
    numbers = b"".join(n.to_bytes(2, "little") for n in (x, y, z)) + v.to_bytes(8, "little")
    number = CALLS.index(call) + 1 if call in CALLS else int(call)
    body = numbers + bytes([len(s)]) + s + t
    return (2 + len(body)).to_bytes(2, "little") + number.to_bytes(2, "little") + body


def parts(widths, values):
    return bytes(widths) + b"".join(v.to_bytes(8, "little") for v in values)


def h(text):
    return bytes.fromhex(text)


# Worked out by hand: what it shows, the call, the answer.
HAND = [
    ("room 1011000 leaves 101: its last 1 is bit 3, after three bits", dict(call="last_one", x=0, y=7, s=h("B0")), "3"),
    ("room 1011000 leaves 101: the three bits", dict(call="get8", x=0, y=3, s=h("B0")), "5"),
    ("the same room between 1s, from bit 5 on", dict(call="last_one", x=5, y=12, s=h("FD 8F")), "8"),
    ("room 0000 has no 1", dict(call="last_one", x=0, y=4, s=h("00")), "none"),
    ("room 0000 after a header of 1s: no look back", dict(call="last_one", x=4, y=8, s=h("F0")), "none"),
    ("room 0000 before a 1: no look ahead", dict(call="last_one", x=0, y=4, s=h("08")), "none"),
    ("an empty room has no 1", dict(call="last_one", x=3, y=3, s=h("FF")), "none"),
    ("room 1: nothing is left", dict(call="last_one", x=0, y=1, s=h("80")), "0"),
    ("room 1000: nothing is left", dict(call="last_one", x=2, y=6, s=h("20")), "2"),
    ("room 0001: three 0s are left", dict(call="last_one", x=0, y=4, s=h("10")), "3"),
    ("END carrying 10110 is 7B 40 and 32 zero bytes", dict(call="end", x=0, y=5, t=h("B0")),
     "7b400000000000000000000000000000000000000000000000000000000000000000"),
    ("the same bits lent from bit 6 on", dict(call="end", x=6, y=5, t=h("FE DF")),
     "7b400000000000000000000000000000000000000000000000000000000000000000"),
    ("END carrying nothing: fill from bit 4 on", dict(call="end", x=0, y=0, t=h("")),
     "78000000000000000000000000000000000000000000000000000000000000000000"),
    ("END carrying 263 1s: one bit of fill, and four pad bits 0", dict(call="end", x=0, y=263, t=h("FF" * 33)),
     "7ffffffffffffffffffffffffffffffffffffffffffffffffffffffffffffffffff0"),
    ("END carrying 263 0s: the fill is bit 267", dict(call="end", x=0, y=263, t=h("00" * 33)),
     "70000000000000000000000000000000000000000000000000000000000000000010"),
    ("264 bits leave no room for fill", dict(call="end", x=0, y=264, t=h("FF" * 33)), "range"),
    ("a whole byte", dict(call="get", x=0, y=8, s=h("5A")), "90"),
    ("the first bit is the highest", dict(call="get", x=0, y=1, s=h("80")), "1"),
    ("the last bit is the lowest", dict(call="get", x=7, y=1, s=h("01")), "1"),
    ("0101 over a byte edge", dict(call="get", x=6, y=4, s=h("01 40")), "5"),
    ("no bits are 0, at the very end too", dict(call="get", x=16, y=0, s=h("FF FF")), "0"),
    ("33 bits: the first alone counts 2 to the 32", dict(call="get", x=7, y=33, s=h("01 00 00 00 00")), "4294967296"),
    ("56 1s", dict(call="get", x=4, y=56, s=h("0F FF FF FF FF FF FF F0")), "72057594037927935"),
    ("57 bits are too many", dict(call="get", x=0, y=57, s=h("FF FF FF FF FF FF FF FF")), "range"),
    ("a field that ends past the slice", dict(call="get", x=1, y=8, s=h("FF")), "range"),
    ("a place past the slice", dict(call="get", x=9, y=0, s=h("FF")), "range"),
    ("eight bits over a byte edge", dict(call="get8", x=5, y=8, s=h("05 A8")), "181"),
    ("nine bits are too many", dict(call="get8", x=0, y=9, s=h("FF FF")), "range"),
    ("32 bits over five bytes", dict(call="get32", x=4, y=32, s=h("0D EA DB EE F0")), "3735928559"),
    ("33 bits are too many", dict(call="get32", x=0, y=33, s=h("FF FF FF FF FF")), "range"),
    ("101 into 0s", dict(call="put", x=6, y=3, v=5, s=h("00 00")), "0280"),
    ("010 into 1s: no neighbour is cleared", dict(call="put", x=6, y=3, v=2, s=h("FF FF")), "fd7f"),
    ("no bits change nothing", dict(call="put", x=5, y=0, v=0, s=h("A5")), "a5"),
    ("1 does not fit 0 bits", dict(call="put", x=5, y=0, v=1, s=h("A5")), "range"),
    ("8 does not fit three bits", dict(call="put", x=0, y=3, v=8, s=h("A5")), "range"),
    ("33 1s between 0s", dict(call="put", x=7, y=33, v=8589934591, s=h("00 00 00 00 00")), "01ffffffff"),
    ("01, 1 and 1: the head of a DMAC-END", dict(call="put_all", x=0, s=h("00"), t=parts([2, 1, 1], [1, 1, 1])), "70"),
    ("the same from bit 6 of 1s on", dict(call="put_all", x=6, s=h("FF FF"), t=parts([2, 1, 1], [1, 1, 1])), "fdff"),
    ("no parts change nothing", dict(call="put_all", x=8, s=h("A5"), t=h("")), "a5"),
    ("a part of no bits between two others", dict(call="put_all", x=0, s=h("00"), t=parts([3, 0, 2], [5, 0, 3])), "b8"),
    ("a value that does not fit its part", dict(call="put_all", x=0, s=h("00"), t=parts([2, 1], [1, 2])), "range"),
    ("a part of 57 bits", dict(call="put_all", x=0, s=h("00" * 8), t=parts([57], [0])), "range"),
    ("parts that end past the slice", dict(call="put_all", x=5, s=h("00"), t=parts([2, 1, 1], [1, 1, 1])), "range"),
    ("five 1s from bit 3 to bit 6", dict(call="copy", x=3, y=6, z=5, s=h("00 00"), t=h("1F")), "03e0"),
    ("33 bits: the last one too", dict(call="copy", x=0, y=0, z=33, s=bytes(5), t=h("00 00 00 00 FF")), "0000000080"),
    ("no bits change nothing", dict(call="copy", x=8, y=8, z=0, s=h("A5"), t=h("5A")), "a5"),
    ("a source that is too short", dict(call="copy", x=1, y=0, z=8, s=h("00 00"), t=h("FF")), "range"),
    ("a destination that is too short", dict(call="copy", x=0, y=1, z=8, s=h("00"), t=h("FF FF")), "range"),
    ("ten bits of 1s", dict(call="clear", x=3, y=13, s=h("FF FF")), "e007"),
    ("from after to", dict(call="clear", x=3, y=2, s=h("FF")), "range"),
    ("a 1 and two 0s", dict(call="fill", x=5, y=8, s=h("F8")), "fc"),
    ("a 1 and two 0s over 1s", dict(call="fill", x=5, y=8, s=h("FF")), "fc"),
    ("one bit left: the 1", dict(call="fill", x=7, y=8, s=h("00")), "01"),
    ("none left: nothing", dict(call="fill", x=8, y=8, s=h("A5")), "a5"),
    ("up to past the slice", dict(call="fill", x=0, y=9, s=h("00")), "range"),
    ("a call that there is not", dict(call="0"), "call"),
    ("another", dict(call="11", s=h("FF")), "call"),
]


class Chance:
    """Numbers from a fixed seed, the same under every Python."""

    def __init__(self, seed):
        self.seed, self.turn = seed, 0

    def below(self, n):
        self.turn += 1
        return int(hashlib.sha256(b"%s %d" % (self.seed, self.turn)).hexdigest(), 16) % n

    def run(self, n):
        return bytes(self.below(256) for _ in range(n))


def edges():
    ones, zeros, mixed = b"\xff" * 9, b"\x00" * 9, h("96 3C A5 0F C3 5A 69 F0 87")
    places = list(range(16))
    for w in (0, 1, 8, 33, 56):
        high = 2 ** w - 1
        for at in places + [72 - w, 73 - w]:
            yield dict(call="get", x=at, y=w, s=mixed)
            yield dict(call="put", x=at, y=w, v=high, s=zeros)
            yield dict(call="put", x=at, y=w, v=0, s=ones)
    for call, widths in (("get8", (0, 1, 7, 8, 9)), ("get32", (0, 1, 31, 32, 33))):
        for w in widths:
            for at in (0, 1, 4, 7, 8, 72 - w, 73 - w):
                yield dict(call=call, x=at, y=w, s=mixed)
    for n in (0, 1, 7, 8, 9, 31, 32, 33, 64, 65):
        for x in (0, 1, 7, 8, 72 - n, 73 - n):
            if x >= 0:
                yield dict(call="clear", x=x, y=x + n, s=ones)
                yield dict(call="fill", x=x, y=x + n, s=ones)
                yield dict(call="fill", x=x, y=x + n, s=zeros)
                yield dict(call="last_one", x=x, y=x + n, s=zeros)
                yield dict(call="last_one", x=x, y=x + n, s=ones)
        for x, y in ((0, 0), (1, 0), (0, 7), (3, 5), (7, 1), (72 - n, 0), (0, 73 - n)):
            yield dict(call="copy", x=x, y=y, z=n, s=ones, t=mixed)
            yield dict(call="copy", x=x, y=y, z=n, s=zeros, t=ones)
    for place in range(0, 24):
        yield dict(call="last_one", x=8, y=24, s=int(("0" * place + "1").ljust(24, "0"), 2).to_bytes(3, "big"))
    for n in (1, 2, 7, 8, 31, 32, 33, 262, 263):
        yield dict(call="end", x=0, y=n, t=mixed * 5)
        yield dict(call="end", x=5, y=n, t=mixed * 5)


def at_random(chance):
    """Thirty of each call; one in fifteen or so is out of range."""
    for _ in range(30):
        s, t = chance.run(8 + chance.below(40)), chance.run(8 + chance.below(40))
        x = chance.below(8 * len(s))
        for call, most in (("get", 56), ("get8", 8), ("get32", 32), ("put", 56)):
            w = min(chance.below(most + 1), 8 * len(s) - x + 1)
            yield dict(call=call, x=x, y=w, v=chance.below(2 ** w), s=s)
        y = x + chance.below(8 * len(s) + 2 - x)
        for call in ("clear", "fill", "last_one"):
            yield dict(call=call, x=x, y=y, s=s)
        n = chance.below(8 * len(s) - x + 1)
        yield dict(call="copy", x=chance.below(max(1, 8 * len(t) - n)), y=x, z=n, s=s, t=t)
        widths = [chance.below(34) for _ in range(chance.below(8))]
        yield dict(call="put_all", x=chance.below(64), s=s, t=parts(widths, [chance.below(2 ** w) for w in widths]))
        yield dict(call="end", x=chance.below(9), y=chance.below(8 * len(t) - 7), t=t)


def lengths(chance):
    """Every call on lent runs about eight bytes long, at the first bit, at the end and between."""
    for size in (1, 2, 6, 7, 8, 9):
        s, t, most = chance.run(size), chance.run(size), 8 * size
        for w in sorted({1, min(7, most), min(32, most), min(55, most), min(56, most)}):
            for x in sorted({0, (most - w) // 2, most - w, most - w + 1}):
                for call in ("get", "get8", "get32", "put"):
                    yield dict(call=call, x=x, y=w, v=chance.below(2 ** w), s=s)
                for call in ("clear", "fill", "last_one"):
                    yield dict(call=call, x=x, y=x + w, s=s)
                yield dict(call="copy", x=x, y=most - w - min(x, most - w), z=w, s=s, t=t)
                halves = [w // 2, w - w // 2]
                yield dict(call="put_all", x=x, s=s, t=parts(halves, [chance.below(2 ** half) for half in halves]))


def rooms():
    """The last 1 in every room of two bytes: a room of 1s, one of 0s, and one 1 at every place of it, between 1s."""
    for x in range(17):
        for y in range(x, 17):
            zeros = "0" * (y - x)
            for within in ["1" * (y - x), zeros] + [laid(zeros, place, "1") for place in range(y - x)]:
                yield dict(call="last_one", x=x, y=y, s=h(hexed(laid("1" * 16, x, within))))


def vectors():
    """Each record with what it shows and the line that answers it."""
    for shows, fields, line in HAND:
        if fields["call"] in CALLS and answer(**fields) != line:
            sys.exit("%s: by hand %s, by the model %s" % (shows, line, answer(**fields)))
        yield shows, record(**fields), line
    chance = Chance(b"pierstrand bits")
    makers = [("an edge", edges()), ("at random", at_random(chance)), ("about eight bytes", lengths(chance))]
    for shows, made in makers + [("a room of two bytes", rooms())]:
        for fields in made:
            yield "%s: %s" % (shows, fields), record(**fields), answer(**fields)
    # the last: its second run has a byte less than its head says
    yield "a record that is cut off", record("copy", x=0, y=0, z=8, s=h("00"), t=h("FF FF"))[:-1], "cut"


def stored(name):
    try:
        with open(os.path.join(HERE, name), "rb") as file:
            return file.read()
    except FileNotFoundError:
        return b""


def differs(made):
    """What is said of the first record, or line, that is not as stored; None where there is none."""
    got, at = stored("stdin"), 0
    for number, (shows, given, _) in enumerate(made, 1):
        if got[at:at + len(given)] != given:
            return "stdin: record %d differs (%s)" % (number, shows)
        at += len(given)
    if len(got) > at:
        return "stdin: something stands after record %d" % len(made)
    lines = stored("stdout").decode("ascii", "replace").split("\n")
    for number, (shows, _, line) in enumerate(made, 1):
        if number > len(lines) or lines[number - 1] != line:
            there = lines[number - 1] if number <= len(lines) else ""
            return "stdout: line %d is %r and should be %r (%s)" % (number, there, line, shows)
    if lines[len(made):] != [""]:
        return "stdout: something else than a line end stands after line %d" % len(made)
    return None


def main():
    made = list(vectors())
    if sys.argv[1:] == ["--check"]:
        wrong = differs(made)
        if wrong:
            sys.exit("bits_vectors: " + wrong)
        print("bits_vectors: the %d stored vectors are those of the model" % len(made))
    elif not sys.argv[1:]:
        with open(os.path.join(HERE, "stdin"), "wb") as file:
            file.write(b"".join(given for _, given, _ in made))
        with open(os.path.join(HERE, "stdout"), "w", encoding="ascii", newline="\n") as file:
            file.write("".join(line + "\n" for _, _, line in made))
        print("bits_vectors: wrote %d vectors" % len(made))
    else:
        sys.exit(__doc__)


if __name__ == "__main__":
    main()
