#!/usr/bin/env python3
"""Brings this repository's own names in specs/, proofs/ and clauses to today's spelling: words in snake case, a prime
as an apostrophe.

usage: python3 tools/respell.py          at the top of the repository, once, right after /opt/rattle/port/port.py
       python3 tools/respell.py --list   what would be renamed, and what would fall together

A name is one that a file of specs/ or one right in proofs/ declares or binds; names of the library, types, modules,
functions and fields of src/, strings, and what the prover itself makes (below proofs/F/) keep theirs. Where two names
of one file fall together, it says so.
"""
import glob
import os
import re
import sys

# Names that would fall together with another one: in specs/ by hand, in proofs/ with `_lem` after the lemma's.
APART = {
    "bitsIn": "bits_of_message",
    "countdownIn": "countdown_in_record",
    "end-at": "end_at_lem",
    "handedBy": "handed_by_reply",
    "handedOn": "handed_on_to",
    "header-back": "header_reads_back",
    "headerIn": "header_in_lent",
    "length-H": "length_header_lem",
    "messageOf": "message_of_header",
    "noAssembly": "empty_assembly",
}
# The same for names that are in snake case already, in these files alone.
APART_IN = {
    "crates/build/proofs/RangeLaws.antt": {"run_holds": "run_holds_lem"},
    "crates/build/proofs/RebuildLaws.antt": {"run_fits": "run_fits_lem"},
    "crates/demands/proofs/Demand2Holds.antt": {"laid_out": "laid_out_lem"},
    "crates/slotlog/proofs/PrinterLaws.antt": {"end_line": "end_line_lem"},
    "crates/slotlog/proofs/RoomLaws.antt": {"moved_up": "moved_up_lem"},
    "crates/slotlog/proofs/log/Begun/part/Proof.antt": {"moved_up": "moved_up_lem"},
    "crates/slotlog/proofs/run/Run/part/Proof.antt": {"moved_up": "moved_up_lem"},
    "crates/fcs/proofs/Words.antt": {"bit-xor": "bit_xor_lem"},
}

NAME = re.compile(r"[^\s(){}\[\];,.:λ∀\"@`?|]+")
DECLARED = re.compile(
    r"^\s*(?:abbrev |unfoldable |pub |data |record |ruleset |private |instance )*"
    r"([^\s(){}:;,.=]+)(?: [^:=\n]*)? ?:(?!=)",
    re.M)
USED = re.compile(r"^(?:ghost )?(?:pub )?use\s+([^\s{;]+?)\.\{([^}]*)\}", re.M)
STRING = re.compile(r'b?"(?:[^"\\]|\\.)*"')


def read(p):
    with open(p, encoding="utf-8") as f:
        return f.read()


def respelled(name):
    """`framesTo` and `frames-to` as `frames_to`."""
    s = name.replace("′", "'")
    s = re.sub(r"(?<=[a-zA-Z0-9])-(?=[a-zA-Z0-9])", "_", s)
    s = re.sub(r"(?<=[a-z0-9])(?=[A-Z])|(?<=[A-Z])(?=[A-Z][a-z])", "_", s)
    return s.lower()


def is_old(name):
    if not re.match(r"[a-z]", name):
        return False
    return respelled(name) != name and re.fullmatch(r"[a-zA-Z0-9_'′₀-₉-]+", name) is not None


def main():
    crates = sorted(os.listdir("crates"))
    specs = sorted(glob.glob("crates/*/specs/*.antt"))
    lemmas = sorted(glob.glob("crates/*/proofs/*.antt"))
    proofs = sorted(set(glob.glob("crates/*/proofs/**/*.antt", recursive=True)) - set(lemmas))
    sources = sorted(glob.glob("crates/*/src/**/*.rt", recursive=True))

    library = set()
    for p in specs + lemmas + proofs + sources:
        for module, names in USED.findall(read(p)):
            if module.startswith("Rattle.") and module.split(".")[1] in crates:
                continue
            library.update(n.split(" as ")[0].strip() for n in names.split(","))

    # Declared, or bound, in the two kinds of files that are the repository's own from end to end.
    own = set()
    for p in specs + lemmas:
        text = re.sub(r"--.*", "", read(p))
        own.update(n for n in DECLARED.findall(text) if is_old(n))
        own.update(n for n in NAME.findall(text) if is_old(n))
    own -= library
    new = {n: APART.get(n) or respelled(n) for n in own}
    twice = [n for n in own if "-" in n and n not in APART and any(m != n and new[m] == new[n] for m in own)]
    new.update((n, new[n] + "_lem") for n in twice)

    def turned(p, text):
        """The text of file p with the names turned."""
        if p.endswith(".rt"):
            parts, at = [], 0
            for m in STRING.finditer(text):
                parts += [(text[at:m.start()], True), (m.group(), False)]
                at = m.end()
            parts.append((text[at:], True))
        else:
            parts = [(text, True)]
        here = APART_IN.get(p, {})
        name = lambda m: here.get(m.group()) or new.get(m.group(), m.group())
        return "".join(NAME.sub(name, part) if free else part for part, free in parts)

    together = []
    for p in specs + lemmas + proofs + sources:
        text = re.sub(r"--.*" if p.endswith(".antt") else r"//.*", "", read(p))
        here, met = APART_IN.get(p, {}), {}
        for n in set(NAME.findall(text)):
            met.setdefault(here.get(n) or new.get(n, n), set()).add(n)
        together += [(p, k, sorted(v)) for k, v in met.items() if len(v) > 1]

    if "--list" in sys.argv:
        for n in sorted(own):
            print(n, new[n])
    for p, k, v in together:
        if not p.endswith(".rt") or all(n in own for n in v):
            print(f"together: {p}: {k}: {' '.join(v)}", file=sys.stderr)
    if "--list" in sys.argv:
        return 0
    for p in specs + lemmas + proofs + sources:
        text = read(p)
        text_new = turned(p, text)
        if text_new != text:
            with open(p, "w", encoding="utf-8") as f:
                f.write(text_new)
    print(f"respell: {len(own)} names")
    return 0


if __name__ == "__main__":
    raise SystemExit(main())
