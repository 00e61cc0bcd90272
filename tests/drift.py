#!/usr/bin/env python3
"""The demands stand on the calls: where a call's contract drifts, and its function with it, `demands` is refused.

drift.py        from the top of a repository in which all is proved

Each drift swaps two parameters of a call, and the arguments where its crate makes it. Contract and function name them
as before, so the call still does what it promises, and every crate that `demands` stands on is proved. All are tried at
once on a copy, outside the repository. There
- what `demands` stands on must be proved;
- `demands` must be refused, at those functions of its src/ that make these calls, and at no other;
- without the functions of its src/ `demands` must be proved: nothing else in it sees the drift.
"""
import os
import re
import shutil
import subprocess
import sys
import tempfile

import gate

# The crate, the file, the signature as it is and as it drifts, with a call of it in its crate if there is one, and the
# functions of `demands` that make the call.
DRIFTS = (
    ("blocks", "src/header.rt", (("fn read_header(s: &[u8], h: &[u8])", "fn read_header(h: &[u8], s: &[u8])"),),
     {"reads", "header_of", "reads_back", "builds_again"}),
    ("blocks", "src/slots.rt", (("fn due_frame(x: u8, f: u8, i: u8)", "fn due_frame(f: u8, x: u8, i: u8)"),),
     {"lays_out"}),
    ("receiver", "src/lib.rt",
     (("fn fresh(individual: u32, group: u32,", "fn fresh(group: u32, individual: u32,"),),
     {"begins"}),
    ("receiver", "src/lib.rt",
     (("fn hear(mut self, frame: u8, slot: u8,", "fn hear(mut self, slot: u8, frame: u8,"),),
     {"hears"}),
    ("receiver", "src/lib.rt",
     (("fn hear_in_place(\n        &mut self,\n        frame: u8,\n        slot: u8,",
       "fn hear_in_place(\n        &mut self,\n        slot: u8,\n        frame: u8,"),
      ("self.hear_in_place(frame, slot, kind,", "self.hear_in_place(slot, frame, kind,")),
     {"hears_in_place"}),
)
TOP = os.getcwd()


def stop(text):
    sys.exit("drift: " + text)


def path(copy, crate, *names):
    return os.path.join(copy, "crates", crate, *names)


def check(copy, name):
    """Proves a crate of the copy, and those below it: whether it is proved, and what was said."""
    done = subprocess.run(["rt", "check"], cwd=path(copy, name), stdin=subprocess.DEVNULL, stdout=subprocess.PIPE,
                          stderr=subprocess.STDOUT, encoding="utf-8", errors="replace")
    if done.returncode not in (0, 1):
        stop("rt check of %s ended with %d:\n%s" % (name, done.returncode, done.stdout[-2000:]))
    return done.returncode == 0 and bool(re.search(r"^logic=proved", done.stdout, re.M)), done.stdout


def replace(file, old, new):
    with open(file, encoding="utf-8") as text:
        whole = text.read()
    if whole.count(old) != 1:
        stop("%s is %d times in %s" % (old, whole.count(old), file))
    with open(file, "w", encoding="utf-8") as text:
        text.write(whole.replace(old, new))


def try_on(copy):
    listed = gate.crates(TOP)
    gate.copy(TOP, copy, gate.reached(listed, ["demands"]))
    for crate, file, changes, _ in DRIFTS:
        for old, new in changes:
            replace(path(copy, crate, file), old, new)
    for name in listed["demands"]:
        proved, said = check(copy, name)
        if not proved:
            stop("%s, which the demands stand on, is not proved with the drifts:\n%s" % (name, said[-3000:]))
    proved, said = check(copy, "demands")
    if proved:
        stop("the demands do not see the drifts")
    seen = set(re.findall(r"^fn demands::(?:\w+::)*(\w+): (?!proved)", said, re.M))
    asked = set().union(*(drift[-1] for drift in DRIFTS))
    if seen != asked:
        stop("refused are %s, and not %s:\n%s" % (", ".join(sorted(seen)), ", ".join(sorted(asked)), said[-3000:]))
    for name in re.findall(r"^fn demands::(\w+)", said, re.M):  # a function, or the module of its type
        shutil.rmtree(path(copy, "demands", "proofs", name), ignore_errors=True)
    with open(path(copy, "demands", "src", "lib.rt"), "w", encoding="utf-8") as text:
        text.write("// No function: the types alone.\n#![tactic(auto)]\n\nmod asked;\n")
    proved, said = check(copy, "demands")
    if not proved:
        stop("the demands are not proved without their functions:\n" + said[-3000:])
    return len(asked)


def main():
    with tempfile.TemporaryDirectory(prefix="drift-") as copy:
        gate.at_signal(lambda: shutil.rmtree(copy, ignore_errors=True))
        count = try_on(copy)
    print("drift: %d contracts that drifted with their functions, seen by %d functions of `demands` and by nothing else"
          % (len(DRIFTS), count))


if __name__ == "__main__":
    main()
