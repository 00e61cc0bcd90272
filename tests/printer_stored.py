#!/usr/bin/env python3
"""The stored run of crates/printer: a slot log in its file stdin, the second program's lines in its file stdout.

printer_stored.py            write both files
printer_stored.py --check    exit 1, and say what differs, where a stored file is not what this script makes

The log is the second program's sheet of reports (`second slots`): runs from every frame with every countdown, one
message cut at fourteen places, every change at every due slot and beside it, every way of being dropped, every two
countdowns of a repeat, every two faults of a header, frames and slots that there are not, some 2,000 reports of mutated
runs, records that print `kind` up to the longest that there is; then one that prints `cut`, and a report that is not
read. It is held here to have every outcome, every fault that a log can give, and both words. `unit` needs a log of its
own: logs-against-second.py has those.
"""
import sys

import second
import stored

# Faults 1 and 17 are of lengths, which the log's framing has tested; 13 and 14 are of builds and settings.
FAULTS = {0, 2, 3, 4, 5, 6, 7, 8, 9, 10, 11, 12, 15, 16, 18}


def made():
    given = second.run("slots")
    output = second.run("print", given=given)
    words = [line.split() for line in second.lines(output)]
    reports = [[int(word) for word in line] for line in words if len(line) == 6]
    shown = {"outcomes": {line[2] for line in reports},
             "drops": {line[3] for line in reports},
             "faults": {line[4] for line in reports},
             "words": {line[0] for line in words if len(line) == 1}}
    wanted = {"outcomes": set(range(6)), "drops": {0, 1}, "faults": FAULTS, "words": {"kind", "cut"}}
    if shown != wanted:
        sys.exit("printer_stored: the sheet shows %s and should show %s" % (shown, wanted))
    return given, output


if __name__ == "__main__":
    stored.main("printer", made, __doc__)
