#!/usr/bin/env python3
"""The sample logs: for each story of stories.py its slot log (.log), what the printer prints for it (.txt), and the
story line by line (.md).

logs.py            write the files
logs.py --check    exit 1, and say where, if a stored file is not the one that this makes, or if a program prints
                   something else

What is printed was worked out by hand. The second program has to print the same, and with --check the proved printer
too. june.calls has the reports of june.log as call records, for `probe`, which also shows the message, and the calls in
which the story goes on; june.calls.txt is what `probe` prints for them.
"""
import inspect
import itertools
import os
import sys
import textwrap

import stories
from stories import second

HERE = os.path.dirname(os.path.abspath(__file__))
BYTES = {"sdu": -2, "build": -2, "report": -5}  # where the bytes of a line stand
COLUMNS = 120  # no line of a story is longer


def cells(rows, line):
    """The rows of a story, from this line on, as (numbers, lines printed, words); three or more in turn with the same
    words are one, from the first to the last."""
    rows = [(printed, words) for _, printed, words in rows]
    while rows:
        (printed, words), alike = rows[0], 1
        while printed and alike < len(rows) and rows[alike][1] == words:
            alike += 1
        if printed is None:
            yield ["-"], [""], words
            alike = 1
        elif alike < 3:
            yield [str(line)], [printed], words
            alike = 1
        else:
            yield [str(line), "to %d" % (line + alike - 1)], [printed, rows[alike - 1][0]], words
        line += alike
        rows = rows[alike:]


def table(rows, line=1, heading="what was heard"):
    """The rows of a story side by side, with `>` before those to look at."""
    found = [(["line"], ["printed"], heading)] + list(cells(rows, line))
    wide = max(len(one) for _, printed, _ in found for one in printed)
    start = "    %-1s %5s  %-" + str(wide) + "s  %s"
    for numbers, printed, words in found:
        mark = [">"] if "**" in words else [""]
        said = textwrap.wrap(words.replace("**", ""), COLUMNS - len(start % ("", "", "", "")))
        for row in itertools.zip_longest(mark, numbers, printed, said, fillvalue=""):
            yield (start % row).rstrip()


def told(tell):
    """The title of a story, and what is said before its rows and after them."""
    title, _, rest = inspect.getdoc(tell).partition("\n")
    before, _, after = rest.strip().partition("\n\n---\n\n")
    return title, before, after


def story(name, log):
    title, before, after = told(stories.LOGS[name])
    rows = list(table(log.rows))
    shown = "`%s.log` prints `%s.txt`: `./print-log samples/%s.log`. " % (name, name, name)
    shown += "A line is frame, slot, outcome, dropped, fault, bits (docs/READING-THE-LOG.md)."
    if any(row.startswith("    >") for row in rows):
        shown += " A `>` stands before what to look at."
    return "\n".join(["# " + title, "", before, "", *textwrap.wrap(shown, COLUMNS), ""] + rows + ["", after, ""])


def goes_on(tell, line):
    title, before, after = told(tell)
    rows = [(data, without_bytes(printed), words) for data, printed, words in tell().rows]
    return "\n".join(["", "## " + title, "", before, ""] + list(table(rows, line, "what it says")) + ["", after, ""])


def calls(log):
    """The reports of a log as call records, each with a buffer of 512 bytes."""
    room = (512).to_bytes(2, "little")
    bodies = [data[4:6] + data[2:3] + room + data[6:] for data, _, _ in log.rows]
    return log.start + b"".join(second.record(4, body) for body in bodies)


def without_bytes(line):
    """A line with `..` for its bytes."""
    words = line.split()
    at = BYTES.get(words[0]) if words else None
    if at and words[at] != "-":
        words[at] = ".."
    return " ".join(words)


def calls_and_lines(name, log):
    """The calls of a story, what is printed for them, and the line with which it goes on; from there on as by hand."""
    first, rows = calls(log), stories.CALLS[name]().rows
    given = first + b"".join(data for data, _, _ in rows)
    printed = second.run("probe", given=given)
    at = len(second.records(first))
    both = itertools.zip_longest(second.lines(printed)[at:], [by_hand for _, by_hand, _ in rows], fillvalue="")
    for number, (line, by_hand) in enumerate(both, at + 1):
        if by_hand not in (line, without_bytes(line)):
            sys.exit("logs: line %d of %s.calls\n  by hand: %s\n  second:  %s" % (number, name, by_hand, line))
    return given, printed, at + 1


def made():
    files = {}
    for name, tell in stories.LOGS.items():
        log = tell()
        files[name + ".log"], files[name + ".txt"] = log.data(), log.text().encode("ascii")
        files[name + ".md"] = story(name, log).encode("utf-8")
    for name, tell in stories.CALLS.items():
        files[name + ".calls"], files[name + ".calls.txt"], line = calls_and_lines(name, stories.LOGS[name]())
        files[name + ".md"] += goes_on(tell, line).encode("utf-8")
    return files


def held_lost():
    """What the reports of a story tell of lost messages is what the story says, by each program."""
    for name, lost in stories.LOSSES.items():
        given = calls(stories.LOGS[name]())
        programs = {"the second program": second.run("probe", given=given)}
        if sys.argv[1:]:
            programs["probe"] = second.run_probe(given)
        for program, printed in programs.items():
            for number, line in enumerate(second.lines(printed)[1:], 1):
                told, should_be = tuple(map(int, line.split()[-3:])), lost.get(number, (0, 0, 0))
                if told != should_be:
                    where = "%s, line %d of %s" % (program, number, name)
                    sys.exit("logs: %s tells of %s lost, and not of %s" % (where, told, should_be))


def runs(files):
    """(program, file, printed, should be) for each sample and each program that prints it."""
    for name in stories.LOGS:
        given, text = files[name + ".log"], files[name + ".txt"]
        yield "the second program", name + ".log", second.run("print", given=given), text
        if sys.argv[1:]:
            yield "the printer", name + ".log", second.run_printer(given), text
    if sys.argv[1:]:
        for name in stories.CALLS:
            yield "probe", name + ".calls", second.run_probe(files[name + ".calls"]), files[name + ".calls.txt"]


def first_difference(one, other):
    """The number of the first line that differs, and both."""
    ones, others = one.split(b"\n"), other.split(b"\n")
    number = next((n for n, (a, b) in enumerate(zip(ones, others)) if a != b), min(len(ones), len(others)) - 1)
    shown = [lines[number][:200] for lines in (ones, others)]
    return "line %d is\n  %r\nand should be\n  %r" % (number + 1, *shown)


def compare(files):
    for name, data in files.items():
        path = os.path.join(HERE, name)
        if not os.path.exists(path):
            sys.exit("logs: there is no samples/%s" % name)
        with open(path, "rb") as file:
            stored = file.read()
        if stored != data:
            sys.exit("logs: samples/%s: %s" % (name, first_difference(stored, data)))


def main():
    if sys.argv[1:] not in ([], ["--check"]):
        sys.exit(__doc__)
    second.build()
    files = made()
    held_lost()
    for program, name, printed, should_be in runs(files):
        if printed != should_be:
            sys.exit("logs: %s, samples/%s: %s" % (program, name, first_difference(printed, should_be)))
    if sys.argv[1:]:
        compare(files)
        print("logs: the %d files of the samples are those of today, and the programs print them" % len(files))
        return
    for name, data in files.items():
        with open(os.path.join(HERE, name), "wb") as file:
            file.write(data)
    print("logs: wrote %d files" % len(files))


if __name__ == "__main__":
    main()
