#!/usr/bin/env python3
"""Counts the places in src/ and proofs/ that docs/DESIGN-PASS.md speaks of, point by point.

places.py [-v] [FOLDER]     FOLDER is a checkout of this repository; without it, the one that this stands in.
                            -v shows each place.

What it finds, it finds by the shape of the text, so that two checkouts can be laid side by side. Whether a place is
better in another form, the page says.
"""
import collections
import os
import re
import sys

NUMBER = r"(?:u8|u16|u32|u64|usize)"
FN = re.compile(r"^[ ]*(?:pub(?:\(crate\))? )?(?:extern \"C\" )?fn (\w+)(<[^(]*>)?\(", re.M)


def files(top):
    for folder, _, names in sorted(os.walk(os.path.join(top, "crates"))):
        if "/src" in folder and "/out" not in folder:
            for name in sorted(names):
                if name.endswith(".rt"):
                    yield os.path.join(folder, name)


def balanced(text, at):
    """The text of the brackets that open at `at`, without them, and the place after."""
    depth, i, ends = 0, at, {"(": ")", "{": "}"}[text[at]]
    while True:
        if text[i] == text[at]:
            depth += 1
        elif text[i] == ends:
            depth -= 1
            if depth == 0:
                return text[at + 1 : i], i + 1
        i += 1


def functions(text):
    """Each function: name, parameters as (name, type), result, clauses, body, line."""
    for m in FN.finditer(text):
        inside, at = balanced(text, m.end() - 1)
        head_end = at
        # clauses stand between the signature and the body: each in braces of its own
        rest = text[at:]
        got = re.match(r"\s*(?:->\s*([^\n{]+?))?\s*(?=\n|\{|requires|ensures|where)", rest)
        result = (got.group(1) or "").strip() if got else ""
        head_end += got.end() if got else 0
        clauses = []
        while True:
            c = re.compile(r"\s*(requires|ensures)(?: \w+)? \{").match(text, head_end)
            if not c:
                break
            said, head_end = balanced(text, c.end() - 1)
            clauses.append((c.group(1), " ".join(said.split())))
        b = re.compile(r"\s*\{").match(text, head_end)
        body = balanced(text, b.end() - 1)[0] if b else ""
        parameters = []
        for part in re.split(r",(?![^<\[]*[>\]])", inside):
            if ":" in part:
                name, kind = part.split(":", 1)
                parameters.append((name.strip().replace("mut ", ""), " ".join(kind.split())))
        yield m.group(1), parameters, result, clauses, body, text.count("\n", 0, m.start()) + 1


def conjuncts(clause):
    """The facts of a clause that are joined by ×, outside of brackets."""
    facts, depth, start = [], 0, 0
    for i, c in enumerate(clause):
        depth += (c in "([{") - (c in ")]}")
        if c == "×" and depth == 0:
            facts.append(clause[start:i])
            start = i + 1
    facts.append(clause[start:])
    return [re.sub(r"^\((.*)\)$", r"\1", f.strip()) for f in facts]


def main():
    words = sys.argv[1:]
    show = "-v" in words
    words = [w for w in words if w != "-v"]
    top = words[0] if words else os.path.join(os.path.dirname(os.path.abspath(__file__)), "..")
    found = collections.OrderedDict()

    def put(label, what, place):
        found.setdefault((label, what), []).append(place)

    labels = [
        ("1a", "enums with one case that carries a value, and others that carry none"),
        ("1b", "fields that tell a fault, a flag, a mark or a state beside other values"),
        ("1c", "groups of constants that number kinds, states, outcomes or refusals"),
        ("1d", "functions that answer a fault as a number"),
        ("2a", "functions of one body but for a type or a constant"),
        ("3a", "loops by 'while'"),
        ("4a", "functions that only turn a number or a flag into another type"),
        ("4b", "equality by hand"),
        ("4c", "values of zeros by hand"),
        ("5a", "facts in the clauses of three functions or more of a crate, functions by fact"),
        ("5b", "pairs of parameters that three functions or more of a crate take side by side"),
        ("6a", "functions that take lent numbers and a number of them beside"),
        ("7a", "functions that choose among calls by a number"),
        ("8a", "answers in proofs/"),
    ]
    for label in labels:
        found[label] = []
    facts, pairs, bodies = (collections.defaultdict(list) for _ in range(3))
    for path in files(top):
        short = os.path.relpath(path, top)
        crate = short.split("/")[1]
        text = open(path, encoding="utf-8").read()
        code = re.sub(r"//[^\n]*", "", text)

        def line(at):
            return f"{short}:{code.count(chr(10), 0, at) + 1}"

        for m in re.finditer(r"\benum (\w+)[^{]*\{", code):
            cases = [c.strip() for c in balanced(code, m.end() - 1)[0].split(",\n") if c.strip()]
            carry = [c for c in cases if "(" in c or "{" in c]
            if len(carry) == 1 and len(cases) <= 3:
                put(*labels[0], f"{line(m.start())} {m.group(1)}")
        for m in re.finditer(r"\bstruct (\w+)[^{;(]*\{", code):
            said = balanced(code, m.end() - 1)[0]
            told = re.findall(
                r"\b(fault|held|going|more|mark|state|dropped|near|last|fragmented|addressed|count|have): "
                r"(u8|bool|usize)",
                said,
            )
            if told and said.count(":") > 1:
                put(*labels[1], f"{line(m.start())} {m.group(1)}: {', '.join(t[0] for t in told)}")
        for m in re.finditer(r"\bimpl (\w+) \{", code):
            said = balanced(code, m.end() - 1)[0]
            numbers = re.findall(r"const (\w+): u(?:8|16|32) = \d+;", said)
            if numbers:
                put(*labels[2], f"{line(m.start())} {m.group(1)}: {len(numbers)}")
        for m in re.finditer(r"^(?:pub )?const (\w+): u8 = \d+;", code, re.M):
            put(*labels[2], f"{line(m.start())} {m.group(1)}")
        for m in re.finditer(r"\bwhile\b", code):
            put(*labels[5], line(m.start()))
        for name, parameters, result, clauses, body, at in functions(code):
            where = f"{short}:{at} {name}"
            if result == "u8" and re.search(r"Fault::", body):
                put(*labels[3], where)
            flat = " ".join(body.split())
            if re.fullmatch(r"\w+(?:\([^()]*\))? as \w+|if \w+(?: < \w+| == \w+)? \{ \w+ \} else \{ \w+ \}", flat):
                if result in ("u8", "u16", "u32", "u64", "usize"):
                    put(*labels[6], where)
            if result == "bool" and re.search(r"\b(\w)\.\w+ (!=|==) (\w)\.\w+|number\(\w+\) == number", flat):
                put(*labels[7], where)
            if re.fullmatch(r"(let \w+ = )?[A-Z]\w+ \{.*\}(;.*)?", flat) and len(re.findall(r": 0\b|\[0; ", flat)) >= 2:
                put(*labels[8], where)
            shape = re.sub(r"\b\d+\b|u8|u16|u32|u64|usize|get8|get32|part8|part32", "#", flat)
            bodies[(crate, shape, len(parameters))].append(where)
            for kind, clause in clauses:
                if kind == "requires":
                    for fact in set(conjuncts(clause)):
                        facts[(crate, fact)].append(where)
            for a, b in zip(parameters, parameters[1:]):
                pairs[(crate, a, b)].append(where)
            for a, b in zip(parameters, parameters[1:]):
                if re.match(r"&(mut )?\[", a[1]) and b[1] == "usize" and b[0] in ("n", "count", "have", "lent"):
                    put(*labels[11], f"{where} ({a[0]}, {b[0]})")
                    break
            if re.search(r"match (kind|call) \{|\b(kind|call) == \d", flat) and any(
                p[1] in ("u16",) for p in parameters
            ):
                put(*labels[12], where)
    for (crate, shape, _), places in sorted(bodies.items()):
        if len(places) > 1 and len(shape) > 12 and "#" in shape:
            put(*labels[4], f"{crate}: " + ", ".join(p.split()[1] for p in places))
    for (crate, fact), places in sorted(facts.items()):
        if len(places) > 2:
            put(*labels[9], f"{crate}: {fact}: {len(places)}")
    for (crate, a, b), places in sorted(pairs.items()):
        if len(places) > 2:
            put(*labels[10], f"{crate}: {a[0]}: {a[1]}, {b[0]}: {b[1]}: {len(places)}")
    for folder, _, names in sorted(os.walk(os.path.join(top, "crates"))):
        if "/proofs/" in folder + "/" and "/out" not in folder and "Answers.antt" in names:
            text = open(os.path.join(folder, "Answers.antt"), encoding="utf-8").read()
            short = os.path.relpath(folder, top)
            for m in re.finditer(r"^pub ([\w-]+) : goal\.", text, re.M):
                put(*labels[13], f"{short} {m.group(1)}")
    for (label, what), places in found.items():
        print(f"{label:3} {len(places):5}  {what}")
        if show:
            for place in places:
                print("           " + place)


main()
