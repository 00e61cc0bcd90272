"""The tools that build, run and count programs for x86-64: where they are, and which are missing."""
import os
import platform
import shutil
import subprocess
import sys

HERE = os.path.dirname(os.path.abspath(__file__))
TOP = os.path.dirname(HERE)
# An x86-64 machine has its own compiler, libraries and counter; any other has Debian's for x86-64, Debian's emulator, and
# the library as an x86-64 machine built it.
NATIVE = platform.machine() == "x86_64"
PREFIX = "" if NATIVE else "x86_64-linux-gnu-"
LIBC = "/usr/x86_64-linux-gnu"
LOADER = os.path.join(LIBC, "lib", "ld-linux-x86-64.so.2")
OSMO = os.environ.get("PIERSTRAND_OSMO") or os.path.expanduser("~/.cache/pierstrand-bench")
OSMO_INCLUDE = os.path.join(OSMO, "usr", "include")
OSMO_LIBS = os.path.join(OSMO, "usr", "lib", "x86_64-linux-gnu")


def said(words, **more):
    return subprocess.run(words, stdout=subprocess.PIPE, check=True, text=True, **more).stdout


def emulator():
    return shutil.which("qemu-x86_64") or "qemu-x86_64"


def missing(second):
    """A line for each thing that is not there: what, and where it comes from. The second program is built only where it
    is asked for."""
    programs, files = [("make", "make")], []
    if NATIVE:
        programs += [("gcc", "gcc libc6-dev"), ("pkg-config", "pkg-config"), ("valgrind", "valgrind")]
    else:
        programs += [("x86_64-linux-gnu-gcc", "gcc-x86-64-linux-gnu"), ("qemu-x86_64", "qemu-user")]
        for name in ("lib/ld-linux-x86-64.so.2", "include/stdio.h"):
            files.append((os.path.join(LIBC, name), "libc6-dev-amd64-cross"))
    if second:
        programs += [("cargo", "cargo")]
    found = ["%s: apt-get install %s" % what for what in programs if not shutil.which(what[0])]
    found += ["%s: apt-get install %s" % what for what in files if not os.path.exists(what[0])]
    if NATIVE and not shutil.which("rt"):
        found.append("rt: the Rattle kit's prover and compiler, in its folder bin/")
    return found + missing_osmo()


def missing_osmo():
    if NATIVE:
        there = shutil.which("pkg-config") and subprocess.run(["pkg-config", "--exists", "libosmocore"]).returncode == 0
        return [] if there else ["libosmocore: apt-get install libosmocore-dev"]
    needed = [os.path.join(OSMO_INCLUDE, name) for name in ("osmocom/core/bitvec.h", "talloc.h")]
    for name in ("libosmocore.so", "libtalloc.so.2", "libsctp.so.1", "libmnl.so.0"):
        needed.append(os.path.join(OSMO_LIBS, name))
    lacking = [file for file in needed if not os.path.exists(file)][:1]
    return ["%s: run bench/get-osmo, which fetches Debian's libosmocore for x86-64 and unpacks it there" % file
            for file in lacking]


def make(goal, folder, library, include):
    """Has bench/Makefile build a goal into a folder."""
    words = ["make", "--silent", "-C", HERE, goal, "OUT=" + folder, "CC=%sgcc" % PREFIX, "LIBRARY=" + library,
             "INCLUDE=" + include, "RUN=" + " ".join(runner())]
    if not NATIVE:
        words += ["OSMO_CFLAGS=-isystem " + OSMO_INCLUDE,
                  "OSMO_LIBS=-L%s -Wl,-rpath-link,%s -losmocore" % (OSMO_LIBS, OSMO_LIBS)]
    if subprocess.run(words, env=environment()).returncode:
        sys.exit("make did not build bench/")


def runner():
    """The words before an x86-64 program."""
    if NATIVE:
        return []
    return [emulator(), LOADER, "--library-path", "%s:%s" % (os.path.join(LIBC, "lib"), OSMO_LIBS)]


def environment():
    """Without the emulator's settings, and with all calls of a library bound at the start, so that the first is like
    the others."""
    kept = {name: value for name, value in os.environ.items() if not name.startswith("QEMU_")}
    return dict(kept, LD_BIND_NOW="1")


def run(*words):
    """What a program writes."""
    ended = subprocess.run(runner() + list(words), env=environment(), stdout=subprocess.PIPE, text=True)
    if ended.returncode:
        sys.exit("'%s' did not run to its end (status %d)" % (" ".join(words), ended.returncode))
    return ended.stdout


def count(*words):
    """The instructions that a program executes."""
    return counted_by_callgrind(list(words)) if NATIVE else counted_by_emulator(list(words))


def counted_by_callgrind(words):
    call = ["valgrind", "--tool=callgrind", "--callgrind-out-file=/dev/null"]
    ended = subprocess.run(call + words, env=environment(), stdout=subprocess.PIPE, stderr=subprocess.PIPE, check=True,
                           text=True)
    return int(ended.stderr.split("Collected :")[1].split()[0])


def counted_by_emulator(words):
    """It writes a line for each instruction: as many as there are lines."""
    call = runner()
    call[1:1] = ["-one-insn-per-tb", "-d", "exec,nochain", "-D", "/dev/stderr"]
    program = subprocess.Popen(call + words, env=environment(), stdout=subprocess.DEVNULL, stderr=subprocess.PIPE)
    found, rest = 0, b""
    while True:
        part = program.stderr.read(1 << 20)
        if not part:
            break
        part = rest + part
        found += part.count(b"Trace ")
        rest = part[-5:]
    if program.wait():
        sys.exit("'%s' did not run to its end (status %d)" % (" ".join(words), program.returncode))
    return found
