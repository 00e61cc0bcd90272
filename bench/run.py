#!/usr/bin/env python3
"""Measures the proved library beside the two peers, and writes bench/RESULTS.md. bench/README.md says what is needed.

run.py                 everything: the library is proved and built (`rt lib` in crates/board), the programs are
                       compared and measured
run.py --quick         only what changes with the library: prints instructions, size and stack, and writes nothing into
                       the repository
run.py --check         only compares the library's and the peers' programs with the second program, on more made inputs
    --library FILE     another libboard.a; it is not built then
    --include FOLDER   where its pierstrand.h is
    --cases A,B        with --quick: the cases whose names begin so
"""
import argparse
import collections
import datetime
import os
import platform
import re
import subprocess
import sys
import tempfile
import textwrap

import tools

sys.path.insert(0, os.path.join(tools.TOP, "tests"))
import image  # noqa: E402, of tests/

# The name of a case in measure.c; what a call of it is; the passes of the short and of the long run; whether the peer
# over libosmocore touches a bit.
Case = collections.namedtuple("Case", "name title few many bits")
CASES = [
    Case("hear-mixed", "report, mixed log", 1, 3, True),
    Case("hear-nothing", "report, nothing heard", 1, 6, False),
    Case("hear-run", "report, a run of 15 blocks", 1, 5, True),
    Case("hear-lost", "report, runs that are lost", 1, 5, True),
    Case("hear-short", "report, short message handed over", 1, 5, True),
    Case("hear-copies", "report, copies", 1, 5, True),
    Case("hear-between", "report, copies with another message between", 1, 5, True),
    Case("hear-others", "report, header for another unit", 1, 5, True),
    Case("hear-faults", "report, block with a fault", 1, 5, True),
    Case("hear-refused", "report, refused", 1, 21, False),
    Case("build-0", "build, no block", 10, 30, True),
    Case("build-5", "build, 5 blocks", 10, 20, True),
    Case("build-15", "build, 15 blocks", 10, 20, True),
    Case("header-fill", "read header, with fill", 10, 60, True),
    Case("header-fragmented", "read header, fragmented", 10, 60, True),
    Case("header-refused", "read header, refused", 10, 60, True),
    Case("block-full", "read block, full", 10, 60, True),
    Case("block-fill", "read block, 254 bits of fill", 10, 60, True),
    Case("due-frame", "frame of a block", 1, 3, False),
    Case("fresh", "fresh receiver", 10, 60, False),
    Case("tl-transfer", "read transfer", 10, 60, True),
    Case("tl-stored", "read transfer, calling party and storage", 10, 60, True),
    Case("tl-fcs", "read transfer, the same with FCS", 10, 30, True),
    Case("tl-short", "read short report", 10, 60, True),
    Case("tl-few", "read short report, 3 bytes lent", 10, 60, True),
    Case("tl-refused", "read transfer, forward type refused", 10, 60, True),
    Case("tl-wrong", "read transfer, FCS wrong", 10, 30, True),
    Case("sdu-short", "build short report", 10, 60, True),
    Case("sdu-transfer", "build transfer", 10, 60, True),
    Case("sdu-stored", "build transfer, calling party and storage", 10, 60, True),
    Case("sdu-2000", "build transfer, 2,000 bits and FCS", 5, 10, True),
    Case("book-booked", "book, 4 in the index", 10, 60, True),
    Case("book-again", "book, again", 10, 60, True),
    Case("book-full", "book, a full index", 10, 60, True),
    Case("book-report", "book, no transfer", 10, 60, True),
    Case("fresh-bookings", "fresh bookings", 10, 60, False),
    Case("take-8", "take 8 bits", 2, 6, True),
    Case("take-56", "take 56 bits", 2, 4, True),
    Case("take-few", "take 5 bits, 3 bytes lent", 10, 40, True),
    Case("take-refused", "take, refused", 10, 60, False),
    Case("skip", "skip 8 bits", 2, 6, False),
    Case("left", "count the bits left", 2, 6, False),
]
IMPLEMENTATIONS = ["library", "plain", "osmo"]
# Parts of the library: each call, and its name in (a).
BLOCK_CALLS = {"make_receiver": "fresh", "hear": "hear", "build_blocks": "build", "read_header": "read_header",
               "read_continuation": "read_continuation", "find_due_frame": "layout"}
TRANSPORT_CALLS = {"read_transport": "read_transport", "build_transport": "build_transport",
                   "make_bookings": "fresh_bookings", "book": "book"}
STEP_CALLS = {"take_bits": "take", "skip_bits": "skip", "count_left": "left"}
CALLS = {**BLOCK_CALLS, **TRANSPORT_CALLS, **STEP_CALLS}

# The goals: the most that the library may take of plain C; less than this of libosmocore; bytes of stack.
OF_PLAIN = 1.5
OF_OSMO = 0.5
STACK = 2048

# The seeds of the made inputs on which the programs are held against the second one.
SEEDS = {"run": ["1", "60"], "check": ["1", "300"]}

HEAD = [
    "# Measurements",
    "",
    "The proved library (`include/pierstrand.h`) beside the same calls in C, twice. `python3 bench/run.py` writes this",
    "file.",
    "",
    "- **(a)** plain C, shifts over bytes (`plain/`), `gcc -O2`;",
    "- **(b)** the same over libosmocore's `bitvec`, as open TETRA software has it (`osmo/`), `gcc -O2`.",
    "",
]

# How each number was got; written in lines of 120 columns.
COUNTED = "Callgrind counts the instructions." if tools.NATIVE else \
    "The emulator writes a line for each instruction executed, and the lines are counted; there are no times," \
    " since times under an emulator say nothing."
HOW = {
    "instructions":
        "x86-64 instructions of one call, with its loop and its arguments: the driver (`measure.c`) makes the calls of"
        " a case in a short and in a long run, and the difference is divided by the calls that the long one has more. "
        + COUNTED + " A string instruction that repeats counts once for each repeat; `memcpy` and `memset` of the one C"
        " library that all three use count too.",
    "same":
        "Where there is no goal for (b), it touches no bit. The driver holds every answer and every message against the"
        " expected one, and a sum over all answers and all written bytes is the same for all three. Programs over the"
        " three, and over both peers at `-Os`, were held against the second program (`second/`), byte for byte, but for"
        " the steps over bits, which it does not have: %s.",
    "logs":
        "What the reports bring. A log is whole multiframes, slot 1 and slot 3 of each frame in turn, heard again and"
        " again by one receiver; of the refused reports none is accepted. The run is a header in both slots of two"
        " frames and then 15 blocks. Of the runs that are lost, each ends at the header of the next, after one block;"
        " the last ends at a block that is not heard. The copies are of one message at a time, its header in both"
        " slots of four frames; with another message between, the headers of two senders come in turn, the one's in"
        " slot 1 and the other's in slot 3 of four frames. The mixed log has short messages, runs and copies, two"
        " senders in turn, messages of others, a block that is not heard, two damaged headers and a damaged block.",
    "sdus":
        "What the reads and builds of SDS-TL bring. A transfer has 128 bits of user data, in a DM-SDS DATA; with"
        " storage it has a forward address of SSI and extension. It is lent in 512 bytes, as pierstrand_hear hands it"
        " over, the one short report of 3 bytes apart. A booking has a copy of its index; `again` is the 16th newest of"
        " 32.",
    "steps":
        "What the steps over bits bring. One step begins where the last one ended, from bit 5 of 32 bytes on, those of"
        " 56 bits of 512 bytes; of 3 bytes from their first bit on. The step that is refused has one bit less than it"
        " asks for.",
    "size":
        "Bytes of what the %d calls reach, by the sections of an object in which the linker left only that; without the"
        " C library. (a) has the same. Beside them what some of the calls reach alone, code and data together; they"
        " share functions, so these do not add up. Of each function that stands in the library, those that call it:"
        " what is not in the list was copied into its callers." % len(CALLS),
    "stack":
        "Bytes below the caller that a call touches, with its return address and what is pushed for it: the driver"
        " paints 16384 bytes, makes the call, and looks how deep the paint is gone. The deepest call of each case.",
    "lines":
        "Lines that are not empty, comments among them. `specs/` has the definitions that contracts speak of: these are"
        " to be read. `src/` has the code, and a contract at each function. `proofs/` shows that the code keeps the"
        " contracts: the prover reads it, and nobody else has to.",
    "gate":
        "The edits of each crate, which have to be refused: the headline edits, which `rt ci` tries, and those that"
        " `tests/edits` tries. What an earlier run on the same machine proved or tried, and what has not changed since,"
        " is not done again.",
}


def prose(text):
    """Lines of 120 columns, and an empty one."""
    return textwrap.wrap(text, 120, break_long_words=False, break_on_hyphens=False) + [""]


def table(head, rows, column="---:|"):
    """A table in Markdown; every column but the first is numbers."""
    lines = ["| %s |" % " | ".join(head), "|---|" + column * (len(head) - 1)]
    return lines + ["| %s |" % " | ".join(str(cell) for cell in row) for row in rows] + [""]


def goal_lines(goals):
    return table(["goal", "", ""], goals, "---|")


def met(yes):
    return "met" if yes else "**not met**"


# ---- instructions and stack

def checked(programs):
    """What `measure check` says of each case: calls, kinds of reports, and the stack by implementation. Stops where the
    answers differ."""
    found, sums = {}, {}
    for name, program in programs.items():
        for line in tools.run(program, "check").splitlines():
            case, calls, deep, total, *kinds = line.split()
            of = found.setdefault(case, {"calls": int(calls), "kinds": [int(kind) for kind in kinds], "stack": {}})
            of["stack"][name] = int(deep)
            sums.setdefault(case, {})[name] = total
    for case, of in sums.items():
        if len(of) != len(programs) or len(set(of.values())) != 1:
            sys.exit("the answers of the case '%s' differ: %s" % (case, of))
    return found


def instructions(programs, cases, found):
    """Instructions of a call, by case and implementation."""
    counts = {}
    for case in cases:
        counts[case.name] = {}
        for name, program in programs.items():
            few, many = (tools.count(program, "count", case.name, "%06d" % of) for of in (case.few, case.many))
            counts[case.name][name] = (many - few) / ((case.many - case.few) * found[case.name]["calls"])
        of = ", ".join("%s %.1f" % pair for pair in counts[case.name].items())
        print("%s: %s" % (case.name, of), file=sys.stderr)
    return counts


def instruction_lines(cases, counts):
    rows, plain, osmo = [], [], []
    for case in cases:
        of = [counts[case.name][name] for name in IMPLEMENTATIONS]
        to_plain, to_osmo = of[0] / of[1], of[0] / of[2]
        plain.append((to_plain, case.title))
        if case.bits:
            osmo.append((to_osmo, case.title))
        rows.append([case.title, *("%.1f" % number for number in of), "%.2f" % to_plain, met(to_plain <= OF_PLAIN),
                     "%.2f" % to_osmo, met(to_osmo < OF_OSMO) if case.bits else "-"])
    goals = ["to (a)", "at most %s" % OF_PLAIN, "to (b)", "below %s" % OF_OSMO]
    lines = table(["a call", "library", "(a)", "(b)", *goals], rows)
    goals = [["instructions, at most %s of (a)" % OF_PLAIN, *how_many(plain, lambda ratio: ratio <= OF_PLAIN)]]
    if osmo:
        goals.append(["instructions, below %s of (b)" % OF_OSMO, *how_many(osmo, lambda ratio: ratio < OF_OSMO)])
    return lines, goals


def how_many(ratios, good):
    """Whether all of these are good, and how many; the largest."""
    kept = sum(good(ratio) for ratio, _ in ratios)
    return met(kept == len(ratios)), "%d of %d kinds of call; the most is %.2f, %s" % (kept, len(ratios), *max(ratios))


def stack_lines(cases, found):
    rows = [[case.title, *(found[case.name]["stack"][name] for name in IMPLEMENTATIONS)] for case in cases]
    deepest = max([found[case.name]["stack"]["library"] for case in cases if case.name.startswith("hear")], default=0)
    goal = ["stack of hear, at most %d bytes" % STACK, met(deepest <= STACK), "%d bytes" % deepest]
    return table(["a call", "library", "(a)", "(b)"], rows), [goal] if deepest else []


# ---- size

def kept(folder, name, entries, file):
    """An object with what the entries reach, and nothing else."""
    made = os.path.join(folder, name + "-reached.o")
    words = [word for entry in entries for word in ("-u", entry)]
    subprocess.run([tools.PREFIX + "ld", "-r", "--gc-sections", *words, "-o", made, file], check=True)
    return made


def sections(file):
    """Bytes of code, of read-only data and of data in an object. What only describes code (.eh_frame) is none of
    them."""
    code = constant = data = 0
    for line in tools.said([tools.PREFIX + "readelf", "-SW", file]).splitlines():
        found = re.match(r"\s*\[ *\d+\] (\S+)\s+(PROGBITS|NOBITS)\s+[0-9a-f]+ [0-9a-f]+ ([0-9a-f]+) [0-9a-f]+"
                         r" *([A-Z]*) ", line)
        if not found or "A" not in found[4] or found[1].startswith((".eh_frame", ".note")):
            continue
        size = int(found[3], 16)
        if "X" in found[4]:
            code += size
        elif "W" in found[4]:
            data += size
        else:
            constant += size
    return code, constant, data


def functions(file):
    """The functions of an object and their bytes, the largest first."""
    found = []
    for line in tools.said([tools.PREFIX + "nm", "-S", file]).splitlines():
        words = line.split(None, 3)
        if len(words) == 4 and words[2] in "tT":
            found.append((words[3], int(words[1], 16)))
    return sorted(found, key=lambda pair: -pair[1])


def times(names):
    """Names in order, each with how often it is there."""
    counted = sorted(collections.Counter(names).items())
    return ", ".join("%s%s" % (name, " (%d)" % count if count > 1 else "") for name, count in counted)


def size_lines(folder, library):
    def reached(calls, of):
        """What these calls reach: sections of the library's, and of (a)'s at -O2 and at -Os."""
        found = [sections(kept(folder, "library", ["pierstrand_" + name for name in calls], library))]
        for level in ("O2", "Os"):
            name = "%s-%s" % (of, level)
            entries = ["dm_" + call for call in calls.values()]
            found.append(sections(kept(folder, name, entries, os.path.join(folder, name + ".o"))))
        return found

    parts = [("the six of blocks and receiver", BLOCK_CALLS), ("the four of SDS-TL", TRANSPORT_CALLS),
             ("the three of steps over bits", STEP_CALLS)]
    parts += [("`%s`" % name, {name: CALLS[name]}) for name in {**TRANSPORT_CALLS, **STEP_CALLS}]
    of_parts = [[name, *(sum(of) for of in reached(calls, "parts"))] for name, calls in parts]
    sizes = list(zip(["library", "(a) at -O2", "(a) at -Os"], reached(CALLS, "plain")))
    ours, plain = sum(sizes[0][1]), sum(sizes[1][1])
    rows = [[name, *of, sum(of), "" if name == "library" else "%.2f" % (ours / sum(of))] for name, of in sizes]
    lines = table(["", "code", "read-only data", "data", "together", "library to it"], rows)
    lines += table(["reached alone by", "library", "(a) at -O2", "(a) at -Os", "library to -O2"],
                   [[*row, "%.2f" % (row[1] / row[2])] for row in of_parts])
    library = os.path.join(folder, "library-reached.o")
    callers = image.calls(library)
    rows = [[name, size, times(callers.get(name, []))] for name, size in functions(library)]
    lines += table(["function of the library", "bytes", "called from"], rows)
    said = "%.2f: %d bytes to %d" % (ours / plain, ours, plain)
    return lines, [["size, at most %s of (a) at -O2" % OF_PLAIN, met(ours / plain <= OF_PLAIN), said]]


# ---- lines

def filled(*paths):
    """The lines of these files, and of all files below these folders, that are not empty."""
    files = [path for path in paths if os.path.isfile(path)]
    files += [os.path.join(at, name) for path in paths for at, _, names in os.walk(path) for name in names]
    count = 0
    for file in files:
        with open(file, encoding="utf-8") as text:
            count += sum(1 for line in text if line.strip())
    return count


def crates():
    """The crates of crates.txt, and those that the board's library is made of."""
    deps = {}
    with open(os.path.join(tools.TOP, "crates.txt"), encoding="utf-8") as text:
        for line in text:
            name, found, rest = line.split("#")[0].partition(":")
            if found:
                deps[name.split()[0]] = rest.split()
    return list(deps), deps["board"] + ["board"]


def line_lines():
    names, library = crates()
    rows, sums = [], {}
    groups = [("the library", [name for name in names if name in library]),
              ("the rest", [name for name in names if name not in library])]
    for group, members in groups:
        for name in members:
            of = [filled(os.path.join(tools.TOP, "crates", name, part)) for part in ("specs", "src", "proofs")]
            rows.append(["`%s`" % name, *of])
            sums[group] = [one + other for one, other in zip(sums.get(group, [0] * 3), of)]
        rows.append(["**%s**" % group, *sums[group]])
    lines = table(["crate", "definitions (`specs/`)", "code and contracts (`src/`)", "proofs (`proofs/`)"], rows)
    peers = [("(a): `%s`", ["plain/pierstrand_plain.c", "plain/transport.h"]),
             ("(b): `%s`", ["osmo/pierstrand_osmo.c", "osmo/transport.h"]),
             ("both: `%s`", ["plain/pierstrand_plain.h", "shared/rules.h", "shared/receiver.h", "shared/transport.h",
                             "shared/steps.h"])]
    rows = [[name % "`, `".join(files), filled(*(os.path.join(tools.HERE, file) for file in files))]
            for name, files in peers]
    return lines + table(["C", "lines"], rows)


# ---- the gate

def gate_lines():
    path = os.path.join(tools.TOP, "target", "gate.txt")
    if not os.path.exists(path):
        return ["`target/gate.txt` is not there: `.ci/run` leaves what `rt` and `tests/edits` say in it.", ""]
    headline, others, ends = collections.Counter(), collections.Counter(), []
    with open(path, encoding="utf-8", errors="replace") as text:
        for line in text:
            edit = re.match(r"(rt: must-fail|edits: \d+ of \d+, [\w ]+:) (\w+)/\S+ refused", line)
            if edit:
                (headline if edit[1].startswith("rt:") else others)[edit[2]] += 1
            elif re.match(r"(gate: proofs|rt: ok;|rt: FAILED:|\d+ passed, \d+ failed)", line):
                ends.append("`%s`" % line.strip())
    rows = [["`%s`" % name, headline[name], others[name]] for name in crates()[0] if name in {**headline, **others}]
    rows.append(["**all**", sum(headline.values()), sum(others.values())])
    when = datetime.datetime.fromtimestamp(os.path.getmtime(path)).strftime("%Y-%m-%d %H:%M")
    lines = prose("From `target/gate.txt` of %s: %s." % (when, "; ".join(ends) or "no last line"))
    return lines + table(["crate", "headline edits refused", "other edits refused"], rows)


# ---- the head

def first_line(*words):
    return tools.said(list(words), stderr=subprocess.STDOUT).splitlines()[0].strip()


def commit():
    if not os.path.exists(os.path.join(tools.TOP, ".git")):
        return "not known: no `.git`"
    git = ["git", "-C", tools.TOP]
    of = ["crates", "crates.txt", "include", "bench", ":!bench/RESULTS.md"]
    changed = ", with changes that are not committed" if tools.said(git + ["status", "--porcelain", "--", *of]) else ""
    return "`%s`%s" % (tools.said(git + ["rev-parse", "--short=12", "HEAD"]).strip(), changed)


def osmo_version():
    if tools.NATIVE:
        return "libosmocore %s" % tools.said(["pkg-config", "--modversion", "libosmocore"]).strip()
    packages = os.path.join(tools.OSMO, "packages")
    if not os.path.exists(packages):
        return "libosmocore, unpacked at %s" % tools.OSMO
    with open(packages, encoding="utf-8") as text:
        return "Debian's " + ", ".join(line.strip() for line in text)


def head_lines(library):
    kit = "kit `%s`" % first_line("rt", "version") if tools.NATIVE else "built on an x86-64 machine"
    built = "`%s`, `rt lib` in `crates/board`; %s" % (os.path.relpath(library, tools.TOP), kit)
    callgrind = tools.NATIVE and first_line("valgrind", "--version") + ", callgrind"
    rows = [
        ["date", datetime.date.today().isoformat()],
        ["commit", commit()],
        ["machine", "%s, %d processors" % (platform.machine(), os.cpu_count())],
        ["the library", built],
        ["compiler of the peers", first_line(tools.PREFIX + "gcc", "--version")],
        ["C library", first_line(*(tools.runner()[:2] if not tools.NATIVE else ["ldd"]), "--version")],
        ["(b) stands on", osmo_version()],
        ["counted by", callgrind or first_line(tools.emulator(), "--version")],
    ]
    return table(["", ""], rows, "---|")


# ---- everything

def compare(folder, seeds):
    """Holds the library's and the peers' programs against the second program; the line of counts."""
    second = ["--manifest-path", os.path.join(tools.TOP, "second", "Cargo.toml"),
              "--target-dir", os.path.join(tools.TOP, "target", "second")]
    if subprocess.run(["cargo", "build", "--release", "--offline", "--quiet", *second]).returncode:
        sys.exit("cargo did not build second/")
    words = [sys.executable, os.path.join(tools.HERE, "check.py"), "--peers", folder,
             "--run", " ".join(tools.runner()), "--seeds", *seeds]
    ended = subprocess.run(words, stdout=subprocess.PIPE, text=True, env=tools.environment())
    if ended.returncode:
        sys.exit("a program differs from the second one:\n" + ended.stdout)
    return ended.stdout.strip()


def programs_in(folder):
    return {name: os.path.join(folder, "measure-" + name) for name in IMPLEMENTATIONS}


def quick(words):
    cases = [case for case in CASES if case.name.startswith(tuple(words.cases.split(",")))]
    with tempfile.TemporaryDirectory() as folder:
        tools.make("measure", folder, words.library, words.include)
        tools.make("sizes", folder, words.library, words.include)
        found = checked(programs_in(folder))
        counted, goals = instruction_lines(cases, instructions(programs_in(folder), cases, found))
        stack, more = stack_lines(cases, found)
        size, most = size_lines(folder, words.library)
    print("\n".join(goal_lines(goals + most + more) + counted + stack + size))


def everything(words):
    folder = os.path.join(tools.HERE, "target")
    tools.make("all", folder, words.library, words.include)
    compared = compare(folder, SEEDS["run"])
    print(compared, file=sys.stderr)
    found = checked(programs_in(folder))
    counted, goals = instruction_lines(CASES, instructions(programs_in(folder), CASES, found))
    size, size_goals = size_lines(folder, words.library)
    stack, stack_goals = stack_lines(CASES, found)
    goals = goal_lines(goals + size_goals + stack_goals)
    kinds = [[case.title, found[case.name]["calls"], *found[case.name]["kinds"]]
             for case in CASES if case.name.startswith("hear")]
    logs = prose(HOW["logs"]) + table(["log", "reports", "silent", "headers", "blocks"], kinds)
    said = prose(HOW["same"] % compared) + logs + prose(HOW["sdus"]) + prose(HOW["steps"])
    parts = [
        ("Goals", "", goals),
        ("Instructions", HOW["instructions"], counted + said),
        ("Size", HOW["size"], size),
        ("Stack", HOW["stack"], stack),
        ("Lines", HOW["lines"], line_lines()),
        ("Time of the gate", HOW["gate"], gate_lines()),
    ]
    lines = HEAD + head_lines(words.library)
    for title, how, what in parts:
        lines += ["## " + title, ""] + (prose(how) if how else []) + what
    with open(os.path.join(tools.HERE, "RESULTS.md"), "w", encoding="utf-8") as text:
        text.write("\n".join(lines).rstrip() + "\n")
    print("\n".join(goals) + "\nbench/RESULTS.md is written")


def main():
    parser = argparse.ArgumentParser(description=__doc__, formatter_class=argparse.RawDescriptionHelpFormatter)
    parser.add_argument("--quick", action="store_true")
    parser.add_argument("--check", action="store_true")
    parser.add_argument("--library")
    parser.add_argument("--include", default=os.path.join(tools.TOP, "include"))
    parser.add_argument("--cases", default="")
    words = parser.parse_args()
    lacking = tools.missing(second=not words.quick)
    if lacking:
        said = ["Nothing was measured, nothing was changed. Missing:"] + ["  " + line for line in lacking]
        sys.exit("\n".join(said + ["bench/README.md says more."]))
    if not words.library:
        crate = os.path.join(tools.TOP, "crates", "board")
        words.library = os.path.join(crate, "out", "libboard.a")
        if not tools.NATIVE:
            sys.exit("on this machine name the library, as an x86-64 machine built it: --library FILE")
        if subprocess.run(["rt", "lib"], cwd=crate, stdout=subprocess.DEVNULL).returncode:
            sys.exit("rt did not prove and build the library: run `rt lib` in crates/board")
    words.library, words.include = os.path.abspath(words.library), os.path.abspath(words.include)
    if words.quick:
        quick(words)
    elif words.check:
        folder = os.path.join(tools.HERE, "target")
        tools.make("peers", folder, words.library, words.include)
        print(compare(folder, SEEDS["check"]))
    else:
        everything(words)


if __name__ == "__main__":
    main()
