#!/usr/bin/env python3
"""The library for C: include/pierstrand.h and crates/board/out/libboard.a, held to each other, and the example over
them.

board.py              write examples/board.txt and tests/layout.txt, what the two C programs print
board.py --check      exit 1, and say what differs, where they print something else or the header is not the library's
board.py --example    build and run examples/board.c: behind examples/run

The library is proved and built by `rt lib` in crates/board. The compiler is the kit's clang, with the headers of
tests/c99/. What is held:
- the functions of the header take and answer what those of crates/board do, and the library needs no more of a C
  library than the header says; no two names of the header are the same;
- the sizes, alignments and fields that a C compiler gives the structs of the header (tests/layout.c prints them) are
  those that C's rule gives the #[repr(C)] structs of the crates;
- the library reads and writes each field where the header has it, and each number of the header is the library's:
  tests/layout.c;
- steps over bits, made afresh each time, answer what a string of 0 and 1 says: tests/steps.c;
- altered headers are not taken: with a field of another type, a field more, a field less or two fields in each other's
  place, for all fields of all structs; with another number, for all numbers; with a parameter of another type, for all
  parameters;
- the search for the last 1 is a function of the library that is called, from two places at least.
Another C compiler for x86-64, where there is one, compiles both programs with its own headers, and they print the same.
The header is read as C++ by the kit's clang, and by another compiler where there is one.
"""
import os
import random
import re
import resource
import shutil
import struct
import subprocess
import sys

import image

TOP = os.path.normpath(os.path.join(os.path.dirname(os.path.abspath(__file__)), ".."))
HEADER = os.path.join(TOP, "include", "pierstrand.h")
CRATE = os.path.join(TOP, "crates", "board")
LIBRARY = os.path.join(CRATE, "out", "libboard.a")
OBJECTS = os.path.join(TOP, "target", "board")
PROGRAMS = os.path.join(TOP, "target", "bin")  # where run-program looks; ours are called c-..
EXAMPLE, LAYOUT = os.path.join("examples", "board"), os.path.join("tests", "layout")  # each has a .c and a .txt
STEPS = os.path.join("tests", "steps")
WARNINGS = ["-Wall", "-Wextra", "-pedantic", "-Werror"]
OF_C = {"memcpy", "memmove", "memset", "memcmp"}  # what the header says that the library needs
CALLED = "bits::last_one"  # what is not to be copied into its callers


def fail(what):
    sys.exit("board: " + what)


def read(*path):
    with open(os.path.join(TOP, *path), encoding="utf-8") as file:
        return file.read()


def ran(words, **more):
    return subprocess.run(words, stdout=subprocess.PIPE, stderr=subprocess.STDOUT, encoding="utf-8", errors="replace",
                          **more)


# ---- What the library has, by its source.

SIZES = {"u8": 1, "u32": 4, "u64": 8, "usize": 8}
IN_C = {"u8": "uint8_t", "u32": "uint32_t", "usize": "size_t", "&[u8]": "const uint8_t *, size_t",
        "&mut [u8]": "uint8_t *, size_t"}
STRUCTS = ("Sync", "Address", "Fields", "Header", "Continuation", "Built", "Due", "Lost", "Answer", "Receiver", "Fresh",
           "Message", "Transport", "Sdu", "Bookings", "Booked", "Step")  # in layout.c's order
# A struct, and a field of a struct, that the header has under another name, and that name.
THINGS = {"Built": "block_count", "Due": "due_frame", "Lost": "loss", "Fresh": "fresh_receiver", "Booked": "booking"}
OTHER_NAMES = {("Message", "short"): "short_form", ("Lost", "message"): "message_type",
               ("Fields", "message"): "message_type"}


def sources():
    yield os.path.join(TOP, "crates.txt")
    for folder, folders, names in os.walk(os.path.join(TOP, "crates")):
        folders[:] = sorted(name for name in folders if name != "out")
        for name in names:
            yield os.path.join(folder, name)


def structs():
    """The #[repr(C)] structs of the crates: the fields of each, (name, type), in order."""
    found = {}
    for path in sources():
        if path.endswith(".rt"):
            form = r"#\[repr\(C\)\]\n(?:#\[[^\n]*\]\n)*pub struct (\w+) \{\n(.*?)\n\}"
            for name, body in re.findall(form, read(path), re.S):
                if name in found:
                    fail("two structs for C are called " + name)
                found[name] = re.findall(r"^    pub (\w+): (.+),$", body, re.M)
    return found


def measured(found, of, name="", at=0):
    """Size and alignment of a type by C's rule, and the fields in it that are no structs: (place, size, name)."""
    array = re.fullmatch(r"\[(\w+); (\d+)\]", of)
    one = array[1] if array else of
    if one in SIZES:
        size = SIZES[one] * (int(array[2]) if array else 1)
        return size, SIZES[one], [(at, size, name)]
    if of not in found:
        fail("%s is a %s, which is no struct for C" % (name, of))
    end, most, fields = 0, 1, []
    for field, inner in found[of]:
        size, align, _ = measured(found, inner, field)
        end = -(-end // align) * align
        in_c_called = OTHER_NAMES.get((of, field), field)
        fields += measured(found, inner, name + "." + in_c_called if name else in_c_called, at + end)[2]
        end, most = end + size, max(most, align)
    return -(-end // most) * most, most, fields


def table():
    """What layout.c is to print of the structs."""
    found, text = structs(), ""
    for name in STRUCTS:
        size, align, fields = measured(found, name)
        text += "%s: %d bytes, aligned to %d\n" % (in_c(name), size, align)
        text += "".join("%5d %3d  %s\n" % field for field in fields)
    return text


def in_c(of):
    if of in IN_C:
        return IN_C[of]
    if of.startswith("&mut "):
        return in_c(of[5:]) + " *"
    return "struct pierstrand_" + THINGS.get(of, of.lower())


def exported():
    """The functions of crates/board as C would declare them, without the parameters' names."""
    source = read("crates", "board", "src", "lib.rt")
    functions = re.findall(r'^pub extern "C" fn (\w+)\((.*?)\) -> (\w+)$', source, re.M | re.S)
    return {"%s %s(%s)" % (in_c(answer), name, ", ".join(in_c(of) for of in re.findall(r"\w+: ([^,]+)", given)))
            for name, given, answer in functions}


def declared(header):
    """The functions that a header declares, the same way."""
    functions = re.findall(r"^((?:struct )?\w+) (pierstrand_\w+)\((.*?)\);", header, re.M | re.S)
    return {"%s %s(%s)" % (answer, name, ", ".join(re.sub(r"\w+$", "", of).strip() for of in re.split(r",\s*", given)))
            for answer, name, given in functions}


def names(header):
    """All names that a header gives: those of structs and enums, of functions and of numbers."""
    given = r"^(?:struct|enum) (\w+) \{$", r"^(?:struct )?\w+ (pierstrand_\w+)\(", r"^(?:#define |\t)(PIERSTRAND_\w+) "
    return [name for way in given for name in re.findall(way, header, re.M)]


# ---- Building and running.

def kit(*path):
    rt = shutil.which("rt")
    if not rt:
        fail("no 'rt' on the PATH: it is the prover and compiler of the Rattle kit (its folder bin/)")
    return os.path.join(os.path.dirname(os.path.dirname(os.path.realpath(rt))), *path)


def build_library():
    kit()
    ended = ran(["rt", "lib"], cwd=CRATE)
    if ended.returncode or not os.path.isfile(LIBRARY):
        fail("'rt lib' in crates/board did not prove and build the library (status %d)\n%s" % (
            ended.returncode, ended.stdout))


def clang(*words):
    own = ["--target=x86_64-linux-gnu", "-nostdinc", "-isystem", os.path.join(TOP, "tests", "c99")]
    return ran([kit("toolchain", "bin", "clang"), *own, *WARNINGS, *words])


def compiled(source, program, compiler=clang, include=os.path.dirname(HEADER), effort="-O2"):
    """Compiles a C file and links it with the library. What the compiler says, where it does not take the file."""
    for folder in (OBJECTS, PROGRAMS):
        os.makedirs(folder, exist_ok=True)
    made = os.path.join(OBJECTS, program + ".o")
    ended = compiler("-std=c99", effort, "-fPIE", "-I", include, "-c", os.path.join(TOP, source + ".c"), "-o", made)
    if ended.returncode:
        return ended.stdout or "status %d" % ended.returncode
    ended = ran([kit("bin", "rattle-link"), "--target", "x86_64-unknown-linux-gnu", "--toolchain", kit("toolchain"),
                 "-o", os.path.join(PROGRAMS, program), made, LIBRARY])
    if ended.returncode:
        fail("%s.c was not linked\n%s" % (source, ended.stdout))
    return None


def run(program, given=b""):
    """A program's exit status, and what it prints. It has a minute."""
    try:
        ended = subprocess.run([os.path.join(TOP, "tests", "run-program"), program], timeout=60, input=given,
                               stdout=subprocess.PIPE, stderr=subprocess.DEVNULL)
    except subprocess.TimeoutExpired:
        return "none: it did not end", ""
    return ended.returncode, ended.stdout.decode("utf-8", "replace")


def printed(source, by, compiler=clang, given=b""):
    """What a C program prints that ends with 0."""
    program = "c-%s-%s" % (os.path.basename(source), by)
    said = compiled(source, program, compiler)
    if said:
        fail("%s does not compile %s.c\n%s" % (by, source, said))
    status, text = run(program, given)
    if status != 0:
        said = [line for line in text.split("\n") if line.startswith("wrong")] or text.split("\n")[-5:]
        fail("%s.c, compiled by %s, ended with status %s\n%s" % (source, by, status, "\n".join(said[:5])))
    return text


# ---- Altered headers.

OTHER = {"uint8_t": "uint16_t", "uint32_t": "uint16_t", "uint64_t": "uint32_t", "size_t": "uint32_t"}


def altered(header):
    """Headers with one thing changed: what it is, and the text."""
    def put(at, end, text):
        return header[:at] + text + header[end:]

    for whole in re.finditer(r"^struct \w+ \{$.*?^\};$", header, re.M | re.S):
        name = whole[0].split()[1] + ", "
        fields = list(re.compile(r"^\t+((?:struct )?(\w+) \w+(?:\[\w+\])?);", re.M).finditer(header, *whole.span()))
        for field, after in zip(fields, fields[1:] + [None]):
            if field[2] in OTHER:
                yield name + field[1] + ": another type", put(*field.span(2), OTHER[field[2]])
            yield name + field[1] + ": a field before it", put(field.start(), field.start(), "\tuint8_t spare;\n")
            yield name + field[1] + ": not there", put(*field.span(), "")
            if after and not re.search(r"[{}]", header[field.end():after.start()]):
                turned = after[1] + header[field.end(1):after.start(1)] + field[1]
                yield name + field[1] + ": the next one first", put(field.start(1), after.end(1), turned)
        for end in re.compile(r"^\t*\}.*;$", re.M).finditer(header, *whole.span()):
            yield name + end[0].strip() + " a field more", put(end.start(), end.start(), "\tuint8_t spare;\n")
    for number in re.finditer(r"^(?:#define |\t)(PIERSTRAND_\w+) (?:= )?(\d+)", header, re.M):
        yield number[1] + ": another number", put(*number.span(2), str(int(number[2]) + 1))
    for function in re.finditer(r"^(?:struct )?\w+ (pierstrand_\w+)\(.*?\);", header, re.M | re.S):
        for parameter in re.compile(r"\b(uint8_t|uint32_t|size_t) (\w+)").finditer(header, *function.span()):
            yield "%s, %s: another type" % (function[1], parameter[2]), put(*parameter.span(1), "uint16_t")


def refuse_altered():
    """How many altered headers there are; each is seen."""
    include, functions, sizes, count = os.path.join(OBJECTS, "altered"), exported(), table(), 0
    os.makedirs(include, exist_ok=True)
    for count, (what, header) in enumerate(altered(read(HEADER)), 1):
        with open(os.path.join(include, os.path.basename(HEADER)), "w", encoding="utf-8") as file:
            file.write(header)
        if declared(header) != functions or compiled(LAYOUT, "c-layout-altered", include=include, effort="-O0"):
            continue
        status, text = run("c-layout-altered")
        if status == 0 and text.startswith(sizes):
            fail("an altered header is not seen: " + what)
    return count


# ---- Steps over bits.

TAKE, SKIP, COUNT = range(3)
STEPS_MADE = 60000


def made_step(dice):
    """A step: what it is, the position, the number of bits, and the lent bytes. Most are in them or near their end."""
    lent = dice.randbytes(dice.choice((0, 1, 2, 7, 8, 9, dice.randrange(100), 512)))
    at = dice.choice((dice.randrange(8 * len(lent) + 3),) * 6 + (dice.randrange(2 ** 64), 2 ** 32, 2 ** 64 - 1))
    left = max(8 * len(lent) - at, 0)
    n = dice.choice((dice.randrange(58), dice.randrange(58), min(left, 56), left, left + 1, dice.randrange(2 ** 64)))
    return dice.choice((TAKE, TAKE, SKIP, COUNT)), at, n, lent


def stepped(kind, at, n, lent):
    """What a step is to print."""
    bits = "".join("{:08b}".format(byte) for byte in lent)
    if kind == COUNT:
        return "%d" % len(bits[at:])
    if kind == TAKE and n > 56:
        return "13 0 %d" % at
    if n > len(bits[at:]):
        return "1 0 %d" % at
    return "0 %d %d" % (int("0" + bits[at:at + n], 2) if kind == TAKE else 0, at + n)


def hold_steps():
    """How many steps were made; each answers what it is to."""
    dice = random.Random()
    steps = [made_step(dice) for _ in range(STEPS_MADE)]
    given = b"".join(struct.pack("<BQQQ", kind, at, n, len(lent)) + lent for kind, at, n, lent in steps)
    answers = printed(STEPS, "clang", given=given).splitlines()
    if len(answers) != len(steps):
        fail("%d steps over bits were made, and %d are answered" % (len(steps), len(answers)))
    for (kind, at, n, lent), answer in zip(steps, answers):
        if answer != stepped(kind, at, n, lent):
            fail("%s %d bits from bit %d of %s on:\n  %s, and should be\n  %s" % (
                ("take", "skip", "count")[kind], n, at, lent.hex() or "nothing", answer, stepped(kind, at, n, lent)))
    return len(steps)


# ---- The checks.

def differs(what, one, other):
    """Ends with the first line in which two texts differ."""
    for number, (a, b) in enumerate(zip(one.split("\n") + ["(the end)"], other.split("\n") + ["(the end)"]), 1):
        if a != b:
            fail("%s, line %d:\n  %s\n  %s" % (what, number, a, b))


def programs():
    """What the two programs print, once the header is held to the crates."""
    has, should_have = declared(read(HEADER)), exported()
    if has != should_have or len(has) < 13:
        fail("the header declares\n  %s\nand the library has\n  %s" % (
            "\n  ".join(sorted(has)), "\n  ".join(sorted(should_have))))
    given = names(read(HEADER))
    twice = sorted(name for name in set(given) if given.count(name) > 1)
    if twice or len(given) < 70:
        fail("the header gives %d names, and more than once: %s" % (len(given), " ".join(twice) or "none"))
    texts = {source: printed(source, "clang") for source in (EXAMPLE, LAYOUT)}
    *lines, _ = texts[LAYOUT].splitlines(keepends=True)
    differs("structs of the header, and of the crates", "".join(lines), table())
    alone = ran([kit("toolchain", "bin", "ld.lld"), "-shared", "--no-undefined", "--whole-archive", LIBRARY,
                 "-o", os.path.join(OBJECTS, "alone")])
    needed = set(re.findall(r"undefined symbol: (\S+)", alone.stdout))
    if not needed <= OF_C or not needed and alone.returncode:
        fail("the library needs of a C library: %s" % (" ".join(sorted(needed)) or alone.stdout))
    if len(image.calls(LIBRARY).get(CALLED, [])) < 2:
        fail("%s is copied into its callers: it does not stand in the library as a function that they call" % CALLED)
    return texts


def another(names, language, machine=""):
    """The first of these compilers that is here, is for this machine and has headers."""
    for name in names:
        if shutil.which(name) and ran([name, "-dumpmachine"]).stdout.startswith(machine):
            includes = "#include <stdint.h>\n#include <stdio.h>\n#include <string.h>\n"
            if ran([name, "-x", language, "-fsyntax-only", "-"], input=includes).returncode == 0:
                return name
    return None


def check(texts):
    for source, text in texts.items():
        differs("%s.txt, and what is printed" % source, read(source + ".txt"), text)
    count, steps = refuse_altered(), hold_steps()
    c = another(("x86_64-linux-gnu-gcc", "gcc", "cc", "clang"), "c", "x86_64")
    for source, text in texts.items() if c else ():
        differs("%s.c, compiled by clang and by %s" % (source, c), text,
                printed(source, c, lambda *words: ran([c, *WARNINGS, *words])))
    cpp = another(("x86_64-linux-gnu-g++", "g++", "c++", "clang++"), "c++")
    for name, compiler in (("clang", clang), (cpp, lambda *words: ran([cpp, *WARNINGS, *words])))[:2 if cpp else 1]:
        ended = compiler("-x", "c++", "-fsyntax-only", HEADER)
        if ended.returncode:
            fail("%s does not read the header as C++\n%s" % (name, ended.stdout))
    print("board: %d stored lines are those of today, compiled by the kit's clang and %s; %d fresh steps over bits are"
          " right; %d altered headers are refused; read as C++ by the kit's clang and %s" % (
              sum(text.count("\n") for text in texts.values()), c or "no other", steps, count, cpp or "no other"))


def newest(path):
    """Whether a file is there and nothing in crates/ is newer."""
    return os.path.isfile(path) and all(os.path.getmtime(source) <= os.path.getmtime(path) for source in sources())


def main():
    resource.setrlimit(resource.RLIMIT_CORE, (0, 0))  # with an altered header the test may well crash
    if sys.argv[1:] == ["--example"]:
        if not newest(LIBRARY):
            print("run: proving and building the library first (rt lib in crates/board): some minutes the first time,"
                  " seconds after that", file=sys.stderr)
            build_library()
        sys.stdout.write(printed(EXAMPLE, "clang"))
    elif sys.argv[1:] == ["--check"]:
        build_library()
        check(programs())
    elif not sys.argv[1:]:
        build_library()
        for source, text in programs().items():
            with open(os.path.join(TOP, source + ".txt"), "w", encoding="utf-8") as file:
                file.write(text)
            print("board: wrote the %d lines of %s.txt" % (text.count("\n"), source))
    else:
        sys.exit(__doc__)


if __name__ == "__main__":
    main()
