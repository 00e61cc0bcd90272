#!/usr/bin/env python3
"""Holds the programs over the library and over both peers against the second program, byte for byte, on its made
inputs. The steps over bits, which the second program does not have, are not among them.

usage: check.py [--second PROGRAM] [--peers FOLDER] [--run COMMAND] [--seeds FROM TO] [PEER ..]

COMMAND runs a program that this machine cannot run itself: an emulator, a loader and its libraries. run.py calls this.
The reports of a log are tried as calls too: what is lost stands in a call's line, and in no line of a log.
Prints the first line that differs, and the input's place, and ends with 1; or one line of counts.
"""
import argparse
import os
import struct
import subprocess
import sys

HERE = os.path.dirname(os.path.abspath(__file__))
KINDS = [("log", "print"), ("calls", "probe"), ("reports", "probe"), ("transport", "probe")]
PEERS = ["peer-library", "peer-plain", "peer-osmo", "peer-plain-Os", "peer-osmo-Os"]
SHEETS = [("slots", "print"), ("blocks", "probe"), ("builds", "probe"), ("transports", "probe")]
LONGEST_REPORT = 36


def run(words, given=b""):
    return subprocess.run(words, input=given, stdout=subprocess.PIPE, check=True).stdout


def first_difference(want, got):
    """The number and the two texts of the first line that differs."""
    want, got = want.split(b"\n"), got.split(b"\n")
    for at in range(max(len(want), len(got))):
        one = want[at] if at < len(want) else b"(none)"
        other = got[at] if at < len(got) else b"(none)"
        if one != other:
            return at + 1, one.decode(), other.decode()
    return None


def as_calls(log):
    """A slot log as call records, each report with a buffer of 512 bytes. What is too long for one stays as it is."""
    calls, at = b"", 0
    while at + 4 <= len(log):
        length, kind = struct.unpack_from("<HH", log, at)
        body = log[at + 4:at + 2 + length]
        if kind in (1, 2, 3) and len(body) <= LONGEST_REPORT:
            kind, body = 4, body[:2] + struct.pack("<BH", kind, 512) + body[2:]
        calls += struct.pack("<HH", len(body) + 2, kind) + body
        at += 2 + max(length, 2)
    return calls


def inputs(second, seeds):
    """The name, the mode and the bytes of each input."""
    made = [(f"make {kind} {seed}", mode) for seed in seeds for kind, mode in KINDS]
    for name, mode in SHEETS + made:
        given = run([second, *name.split()])
        yield name, mode, given
        if mode == "print":
            yield name + ", as calls", "probe", as_calls(given)


def cut_short(given):
    """A few beginnings of an input, so that records are cut off."""
    return [given[: len(given) * part // 17] for part in (0, 3, 11)] + [given[:-1]]


def main():
    parser = argparse.ArgumentParser()
    parser.add_argument("--second", default=os.path.join(HERE, "../target/second/release/second"))
    parser.add_argument("--peers", default=os.path.join(HERE, "target"))
    parser.add_argument("--run", default="")
    parser.add_argument("--seeds", nargs=2, type=int, default=[1, 300])
    parser.add_argument("peer", nargs="*", default=PEERS)
    words = parser.parse_args()
    files = lines = 0
    seeds = range(words.seeds[0], words.seeds[1] + 1)
    for count, (name, mode, given) in enumerate(inputs(words.second, seeds)):
        parts = [given] + (cut_short(given) if count % 11 == 0 else [])
        for part in parts:
            want = run([words.second, mode], part)
            files += 1
            lines += want.count(b"\n")
            for peer in words.peer:
                call = words.run.split() + [os.path.join(words.peers, peer), mode]
                found = first_difference(want, run(call, part))
                if found:
                    print(f"{peer}, second {name}, {len(part)} bytes, {mode}, line {found[0]}:")
                    print(f"  second: {found[1]}\n  peer:   {found[2]}")
                    return 1
    print(f"{files} files, {lines} lines: the same from {', '.join(words.peer)}")
    return 0


if __name__ == "__main__":
    sys.exit(main())
