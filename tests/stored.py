"""A program's stored run: records in its crate's file stdin, the lines that it is to print in its file stdout."""
import itertools
import os
import sys

import second


def differs(here, given, output):
    """What is said of the first record, or line, that is not as stored; None where there is none."""
    for name, what, cut, new in (("stdin", "record", second.records, given), ("stdout", "line", second.lines, output)):
        try:
            with open(os.path.join(here, name), "rb") as file:
                old = file.read()
        except OSError as error:
            return "%s: %s" % (name, error.strerror)
        for number, (is_now, should_be) in enumerate(itertools.zip_longest(cut(old), cut(new)), 1):
            if is_now != should_be:
                return "%s: %s %d is %.200r and should be %.200r" % (name, what, number, is_now, should_be)
        if old != new:
            return "%s: the end of its last %s differs" % (name, what)
    return None


def main(crate, made, usage):
    """Writes both files of a crate, or with --check says what differs from them."""
    name, here = crate + "_stored", os.path.join(second.TOP, "crates", crate)
    if sys.argv[1:] not in ([], ["--check"]):
        sys.exit(usage)
    second.build()
    given, output = made()
    if sys.argv[1:]:
        wrong = differs(here, given, output)
        if wrong:
            sys.exit("%s: %s" % (name, wrong))
        print("%s: the %d stored lines are those of the second program" % (name, output.count(b"\n")))
        return
    os.makedirs(here, exist_ok=True)
    for file, data in (("stdin", given), ("stdout", output)):
        with open(os.path.join(here, file), "wb") as stored:
            stored.write(data)
    print("%s: wrote %d records and %d lines" % (name, len(second.records(given)), output.count(b"\n")))
