"""The second program: built by cargo from second/, with no network, to target/second/; and the records that it makes
and answers."""
import os
import shutil
import subprocess
import sys

TOP = os.path.join(os.path.dirname(os.path.abspath(__file__)), "..")
TARGET = os.path.join(TOP, "target", "second")
WORDS = ["--offline", "--quiet", "--manifest-path", os.path.join(TOP, "second", "Cargo.toml"), "--target-dir", TARGET]
PROGRAM = os.path.join(TARGET, "release", "second")


def build():
    if not shutil.which("cargo"):
        sys.exit("no 'cargo' on the PATH: it builds second/, the program in Rust that the proved ones are held against")
    if subprocess.run(["cargo", "build", "--release"] + WORDS).returncode:
        sys.exit("cargo did not build second/")


def run(*words, given=b""):
    """What the second program writes."""
    return subprocess.run([PROGRAM, *words], input=given, stdout=subprocess.PIPE, check=True).stdout


def run_proved(name, given):
    """What a proved program writes. It has ten minutes."""
    words = [os.path.join(TOP, "tests", "run-program"), name]
    try:
        ended = subprocess.run(words, input=given, stdout=subprocess.PIPE, timeout=600)
    except subprocess.TimeoutExpired:
        sys.exit("the program '%s' did not end within ten minutes" % name)
    if ended.returncode:
        sys.exit("the program '%s' did not run to its end (status %d)" % (name, ended.returncode))
    return ended.stdout


def run_probe(given):
    return run_proved("probe", given)


def run_printer(given):
    return run_proved("printer", given)


def lines(output):
    return output.decode("ascii", "replace").splitlines()


def records(data):
    """The records of a file of calls or of a slot log, one after the other; where one is cut off, all that is left is
    the last."""
    at, found = 0, []
    while at < len(data):
        length = int.from_bytes(data[at:at + 2], "little")
        end = at + 2 + length if length >= 2 else len(data)
        found.append(data[at:end])
        at = end
    return found


def record(kind, body):
    return (len(body) + 2).to_bytes(2, "little") + kind.to_bytes(2, "little") + bytes(body)


# The fixed part of a build's body, number by number.
BUILD = [("system", 1), ("usage", 1), ("slot", 1), ("frame", 1), ("countdown", 1), ("to_type", 1), ("to", 4),
         ("from_type", 1), ("source", 4), ("mni", 4), ("message", 1), ("width", 1), ("elements", 8), ("n", 4),
         ("lent", 2)]


def build_record(lent_message, **numbers):
    return record(5, b"".join(numbers[name].to_bytes(size, "little") for name, size in BUILD) + lent_message)


def build_numbers(given):
    """The numbers of a build's record, by name, and the message."""
    at, numbers = 4, {}
    for name, size in BUILD:
        numbers[name] = int.from_bytes(given[at:at + size], "little")
        at += size
    return numbers, given[at:]
