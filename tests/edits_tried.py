#!/usr/bin/env python3
"""tests/edits, held to edits of which the verdict is known: each that has to fail fails, among others, and some alone.

It makes a repository with small crates in a folder of its own. `seven` is proved, `broken` is not, and `above` stands
on `broken`. The edits of `ending` are tried with a script in the place of `rt`, which says of them what rt says where a
check ends otherwise, or where a refusal shows little.
"""
import os
import re
import subprocess
import sys
import tempfile

EDITS = os.path.join(os.path.dirname(os.path.abspath(__file__)), "edits")

CRATE = """#![tactic(auto)]

ghost use Rattle.std.specs.Prelude.{◌≡◌};

pub fn seven() -> usize
    ensures { result ≡ 7 }
{
    %d
}

pub fn any() -> usize {
    3
}
"""
OF_RT = """#!/bin/sh
case "$1" in
check) echo logic=proved functions=2 ;;
must-fail) cat <<'SAID'
rt: must-fail ending/killed.edit: NOT TRIED: its check was killed, most likely for memory, so nothing is known of it
error: the machine is full
rt: must-fail ending/by_name.edit: refused, as it must be (only because a proof file names what the edit took away, so
rt: must-fail ending/by_limit.edit: refused, as it must be (only by a limit of the prover, which gave no verdict, so
rt: must-fail ending/refused.edit: refused, as it must be: src/lib.rt:8:5: error: this does not hold
rt: note
SAID
esac
exit 0
"""
FILES = {
    "crates.txt": "seven:\nbroken:\nabove: broken\nending:\n",
    "crates/seven/src/lib.rt": CRATE % 7,
    "crates/seven/proofs/Lib.antt": "-- Nothing has to be proved by hand.\n",
    "crates/broken/src/lib.rt": CRATE % 6,
    "crates/above/src/lib.rt": CRATE % 7,
    "crates/ending/src/lib.rt": CRATE % 7,
    "bin/rt": OF_RT,
}
# Each edit: its file, the old text, the new one, and how its verdict begins.
KNOWN = {
    "seven/refused": ("src/lib.rt", "    7", "    8", "refused, as it must be: note: src/lib.rt:"),
    "seven/survives": ("src/lib.rt", "    3", "    4", "NOT REFUSED: "),
    "seven/not_compiled": ("src/lib.rt", "    7", "    eight", "BAD EDIT: it did not reach the prover"),
    "seven/not_read": ("src/lib.rt", "result ≡ 7", "result ≡ eight", "BAD EDIT: the prover cannot read"),
    "seven/text_lost": ("src/lib.rt", "    9", "    8", "BAD EDIT: an 'old:' text is in src/lib.rt 0 times"),
    "seven/text_twice": ("src/lib.rt", "usize", "u8", "BAD EDIT: an 'old:' text is in src/lib.rt 2 times"),
    "seven/proofs_alone": ("proofs/Lib.antt", "-- Nothing", "Nothing", "BAD EDIT: it changes neither src/ nor specs/"),
    "broken/before": ("src/lib.rt", "    6", "    8", "BAD EDIT: its crate is not proved without it"),
    "above/waits": ("src/lib.rt", "    7", "    8", "BAD EDIT: its crate is not proved without it"),
}
ALONE = ("seven/refused", "seven/survives", "broken/before")
ENDING = {
    "ending/killed": ("src/lib.rt", "    7", "    8", "NOT TRIED: its check was killed"),
    "ending/by_name": ("src/lib.rt", "    7", "    8", "refused, as it must be (only because a proof file names"),
    "ending/by_limit": ("src/lib.rt", "    7", "    8", "refused, as it must be (only by a limit"),
    "ending/refused": ("src/lib.rt", "    7", "    8", "refused, as it must be: src/lib.rt:8:5"),
    "ending/not_told": ("src/lib.rt", "    7", "    8", "NO VERDICT"),
}


def write(top, path, text):
    path = os.path.join(top, path)
    os.makedirs(os.path.dirname(path), exist_ok=True)
    with open(path, "w", encoding="utf-8") as file:
        file.write(text)
    os.chmod(path, 0o755)


def make(top):
    for path, text in FILES.items():
        write(top, path, text)
    for label, (file, old, new, _) in {**KNOWN, **ENDING}.items():
        crate, name = label.split("/")
        write(top, "crates/%s/edits/%s.edit" % (crate, name), "file: %s\nold: %s\nnew: %s\n" % (file, old, new))


def run(top, words, status, **more):
    """What tests/edits says, given these words; stops where it ends with another status."""
    ended = subprocess.run([EDITS, *words], cwd=top, stdout=subprocess.PIPE, stderr=subprocess.STDOUT, encoding="utf-8",
                           env={**os.environ, **more})
    if ended.returncode != status:
        fail(words, "ended with status %d, and should with %d" % (ended.returncode, status), ended.stdout)
    return ended.stdout


def fail(words, what, said):
    sys.exit("edits_tried: edits %s: %s. It said:\n%s" % (" ".join(words), what, said))


def hold(top, words, wanted, **more):
    """Holds a run to the verdict of each edit, to the counts, and to the failures that are told once more."""
    failures = {label for label, verdict in wanted.items() if not verdict.startswith("refused, as it must be: ")}
    said = run(top, words, 1 if failures else 0, **more)
    lines = re.findall(r"^edits: (\d+) of (\d+), (?:\d+ min )?\d+ s: (\S+) (.*)$", said, re.M)
    numbers = [(str(number + 1), str(len(wanted))) for number in range(len(wanted))]
    if [line[:2] for line in lines] != numbers or {line[2] for line in lines} != set(wanted):
        fail(words, "there is not one line for each edit", said)
    for _, _, label, verdict in lines:
        if not verdict.startswith(wanted[label]):
            fail(words, "the verdict on %s is not the one that is known" % label, said)
    if set(re.findall(r"^edits: failed: (\S+) ", said, re.M)) != failures:
        fail(words, "the failures are not told once more", said)
    if said.splitlines()[-1] != "%d passed, %d failed" % (len(wanted) - len(failures), len(failures)):
        fail(words, "the last line does not have the counts", said)


def main():
    known = {label: verdict for label, (_, _, _, verdict) in KNOWN.items()}
    ending = {label: verdict for label, (_, _, _, verdict) in ENDING.items()}
    with tempfile.TemporaryDirectory() as top:
        make(top)
        for label in ALONE:
            hold(top, [label], {label: known[label]})
        hold(top, ["seven", "broken", "above"], known)
        hold(top, ["ending"], ending, PATH=os.path.join(top, "bin") + os.pathsep + os.environ["PATH"])
        if "no edit in crates/NAME/edits/ for none seven/none" not in run(top, ["seven", "none", "seven/none"], 2):
            fail(["seven", "none", "seven/none"], "unknown names are not told", "")
        if "fn broken::seven: " not in run(top, ["above"], 1):
            fail(["above"], "what rt says of the crate below is not shown", "")
    print("edits_tried: %d edits have the verdicts that are known" % len({**known, **ending}))


if __name__ == "__main__":
    main()
