#!/usr/bin/env python3
"""Lists the places in src/ that the design pass asks about, point by point, with their counts.

usage: python3 tools/places.py [ROOT] [POINT]

ROOT is the top of a repository (default: here), POINT a number from 1 to 8 (default: all). What is listed is found
by text: each place is read, and changed or kept with its reason. docs/DESIGN-PASS.md has the outcome.
"""

import difflib
import re
import sys
from collections import defaultdict
from pathlib import Path

ROOT = Path(sys.argv[1] if len(sys.argv) > 1 else ".")
POINT = sys.argv[2] if len(sys.argv) > 2 else ""


def sources():
    for path in sorted(ROOT.glob("crates/*/src/**/*.rt")):
        yield path.relative_to(ROOT), path.read_text()


def line_of(text, at):
    return text.count("\n", 0, at) + 1


def block(text, at):
    """The text from the first brace at or behind `at` to the brace that closes it, and its place."""
    start = text.index("{", at)
    depth = 0
    for i in range(start, len(text)):
        if text[i] == "{":
            depth += 1
        elif text[i] == "}":
            depth -= 1
            if depth == 0:
                return text[start : i + 1], start
    return text[start:], start


def plain(text):
    return re.sub(r"//[^\n]*", "", text)


FN = re.compile(r"^[ \t]*(?:pub(?:\([a-z]+\))? )?fn (\w+)", re.M)


def functions():
    """Each function: file, line, name, signature with clauses, body."""
    for path, text in sources():
        for m in FN.finditer(text):
            rest = text[m.start() :]
            # the body is the first brace that opens a line; a method of a trait without a body ends in ';'
            body = re.search(r"^[ \t]*\{[ \t]*$|\{$|\{\}$", rest, re.M)
            end = re.search(r";[ \t]*$", rest, re.M)
            if not body or (end and end.start() < body.start()):
                head = rest[: end.end()] if end else rest
                yield path, line_of(text, m.start()), m.group(1), head, ""
                continue
            inner, _ = block(text, m.start() + body.start())
            yield path, line_of(text, m.start()), m.group(1), rest[: body.start()], inner


def show(title, places):
    print(f"  {title}: {len(places)}")
    for place in places:
        print(f"    {place}")


def point_1():
    shaped = []
    for path, text in sources():
        for m in re.finditer(r"^(?:pub )?enum (\w+)", text, re.M):
            inner, _ = block(text, m.start())
            variants = [v.strip() for v in re.split(r",\s*\n", plain(inner)[1:-1]) if v.strip()]
            units = [v for v in variants if re.fullmatch(r"\w+", v)]
            if len(variants) == 2 and len(units) == 1:
                shaped.append(f"{path}:{line_of(text, m.start())} enum {m.group(1)}")
    show("enums of the shape of Option", shaped)
    flags, numbers = [], []
    for path, text in sources():
        for m in re.finditer(r"^[^\n]*\b(\w+): bool\b[^\n]*$", text, re.M):
            flags.append(f"{path}:{line_of(text, m.start())} {m.group(0).strip()}")
        for m in re.finditer(r"^[^\n]*(?:\bnumber: u8|Refusal::plain\(|number: \d|number: fault)[^\n]*$", text, re.M):
            numbers.append(f"{path}:{line_of(text, m.start())} {m.group(0).strip()}")
    show("flags", flags)
    show("numbers of refusals that are passed on", numbers)


def tokens(body):
    body = plain(body)
    body = re.sub(r"b?'(?:\\.|[^'\\])'|b?\"(?:\\.|[^\"\\])*\"", "LIT", body)
    out = []
    for t in re.findall(r"\w+|[^\s\w]", body):
        if re.fullmatch(r"\d\w*", t):
            out.append("N")
        elif re.fullmatch(r"[A-Za-z_]\w*", t) and t not in KEEP:
            out.append("x")
        else:
            out.append(t)
    return out


KEEP = {"for", "in", "if", "else", "match", "while", "let", "return", "loop", "mut", "Some", "None", "Ok", "Err"}


def point_2():
    fns = [f for f in functions() if "_tests" not in str(f[0]) and f[4]]
    shapes = [(f, tokens(f[4])) for f in fns]
    shapes = [s for s in shapes if len(s[1]) >= 18]
    pairs = []
    for i, (f, a) in enumerate(shapes):
        for g, b in shapes[i + 1 :]:
            ratio = difflib.SequenceMatcher(None, a, b, autojunk=False).ratio()
            if ratio >= 0.9:
                pairs.append(f"{f[0]}:{f[1]} {f[2]} ~ {g[0]}:{g[1]} {g[2]} ({ratio:.2f})")
    show("pairs of functions with one shape of body (names and numbers masked, nine tenths alike)", pairs)


def point_3():
    ranges, others = [], []
    for path, text in sources():
        for m in re.finditer(r"^[ \t]*(?:'\w+: )?(for [^\n]*\.\.[^\n]*|while [^\n]*|loop \{)$", text, re.M):
            (ranges if m.group(1).startswith("for") else others).append(f"{path}:{line_of(text, m.start())} {m.group(1)}")
    show("loops over a range of numbers", ranges)
    show("other loops that step by hand", others)


def point_4():
    impls, words, casts = [], [], []
    for path, text in sources():
        for m in re.finditer(r"^impl[^\n]*\b(PartialEq|Eq|PartialOrd|Ord|Clone|Copy|Default|Display|Debug|State)\b[^\n]* for [^\n]*", text, re.M):
            impls.append(f"{path}:{line_of(text, m.start())} {m.group(0).strip(' {')}")
        for m in re.finditer(r"^[ \t]*(?:pub )?fn ((?:put|add|print)_\w+|byte|kind_of|from_bits|bits|refusal|same|blank|at)\b", text, re.M):
            # adding a state is no printing, and the blank of a table or of a row is made, not compared
            other = m.group(1) == "add_state" or (m.group(1) == "blank" and "state" not in path.name)
            if "_tests" not in str(path) and not other:
                words.append(f"{path}:{line_of(text, m.start())} {m.group(1)}")
        for m in re.finditer(r"^[^\n]*(?: as (?:u8|u16|u32|u64|usize)\b)[^\n]*$", text, re.M):
            casts.append(f"{path}:{line_of(text, m.start())} {m.group(0).strip()}")
    show("equality, copying, defaults and printing by an impl of its own", impls)
    show("functions that compare, convert or print", words)
    show("casts", casts)


def clauses(head):
    return [m.group(1).strip() for m in re.finditer(r"^[ \t]*(?:requires|ensures)(?: \w+)? \{(.*)\}[ \t]*$", head, re.M)]


def point_5():
    facts = defaultdict(set)
    groups = defaultdict(set)
    for path, line, name, head, _ in functions():
        for c in clauses(head):
            shape = re.sub(r"\b(?!result\b|self\b)[a-z]\w*(?=\.(?:now|old|new|entry)\b)", "x", c)
            facts[shape].add(f"{path}:{line} {name}")
        signature = head.split("ensures")[0].split("requires")[0]
        params = re.findall(r"(\w+): ([^,()]*(?:<[^>]*>)?[^,()]*)", signature[signature.find("(") :])
        kinds = [f"{n}: {t.strip()}" for n, t in params]
        for i in range(len(kinds)):
            for j in range(i + 2, len(kinds) + 1):
                groups[", ".join(kinds[i:j])].add(f"{path}:{line} {name}")
    repeated = [f"{len(v)}x {k}" for k, v in sorted(facts.items(), key=lambda kv: -len(kv[1])) if len(v) >= 3]
    show("clauses that stand in three functions or more (the names of parameters masked)", repeated)
    together = [(k, v) for k, v in groups.items() if len(v) >= 3]
    widest = [(k, v) for k, v in together if not any(k != l and k in l and len(w) >= len(v) for l, w in together)]
    show("parameters that go together in three functions or more", [f"{len(v)}x {k}" for k, v in sorted(widest, key=lambda kv: -len(kv[1]))])


def point_6():
    structs, buffers = [], []
    for path, text in sources():
        for m in re.finditer(r"^(?:pub )?struct (\w+)[^\n;]*\{", text, re.M):
            inner, _ = block(text, m.start())
            fields = [l for l in plain(inner).split("\n") if ":" in l and "ghost" not in l]
            arrays = [f for f in fields if re.search(r"\[.*\]", f)]
            lengths = [f for f in fields if re.search(r"\b(?:len|count|size|start|end)\w*: usize", f)]
            if arrays and lengths:
                structs.append(f"{path}:{line_of(text, m.start())} {m.group(1)}: {len(arrays)} array(s) with a length")
            if len(arrays) > 1:
                structs.append(f"{path}:{line_of(text, m.start())} {m.group(1)}: {len(arrays)} parallel arrays")
        for m in re.finditer(r"^[^\n]*let mut \w+ = \[[^\n;]*; ?\w+\];[^\n]*$", text, re.M):
            if "_tests" not in str(path):
                buffers.append(f"{path}:{line_of(text, m.start())} {m.group(0).strip()}")
    show("structs with an array and its length, or with parallel arrays", structs)
    show("local buffers", buffers)


def point_7():
    switches = []
    for path, line, name, _, body in functions():
        for m in re.finditer(r"\bmatch ([^{\n]*)\{", body):
            inner, _ = block(body, m.start())
            arms = re.findall(r"^\s*\w+::(?:\w+)[^\n]*=>", inner, re.M)
            calls = re.findall(r"=>\s*(?:\{[^}]*\}|[^,\n]*\w\([^\n]*)", inner)
            if len(arms) >= 3 and len(calls) >= 3:
                switches.append(f"{path}:{line} {name}: match {m.group(1).strip()}")
    show("matches with three arms or more that each call something", switches)
    tables = [f"{p}:{line_of(t, m.start())}" for p, t in sources() for m in re.finditer(r"\bfn\(|\bdyn\b", t)]
    show("function pointers and dyn", tables)


def point_8():
    rows = []
    total = [0, 0, 0, 0]
    for crate in sorted((ROOT / "crates").iterdir()):
        answers = [p for p in crate.glob("proofs/**/Answers.antt")]
        invariants = [p for p in crate.glob("proofs/**/Invariants.antt")]
        lemmas = [p for p in crate.glob("proofs/*.antt") if p.name != "Lib.antt"]
        lines = sum(p.read_text().count("\n") for p in answers + invariants + lemmas)
        if lines:
            rows.append(f"{crate.name}: {len(answers)} answers, {len(invariants)} invariants, {len(lemmas)} files of lemmas, {lines} lines")
        for i, n in enumerate((len(answers), len(invariants), len(lemmas), lines)):
            total[i] += n
    rows.append("all: {} answers, {} invariants, {} files of lemmas, {} lines".format(*total))
    show("files of proofs", rows)


for number in range(1, 9):
    if POINT in ("", str(number)):
        print(f"point {number}")
        globals()[f"point_{number}"]()
