#!/usr/bin/env python3
"""Brings the repository's own definitions and lemmas to one spelling: words in snake case, types in camel case.

usage: python3 tools/respell.py            at the top of the repository, right after the toolchain's port.py

What is renamed: definitions, lemmas and record fields of .antt files, wherever they are cited (.antt, clauses and
`ghost use` lines of .rt, edits). Names of functions of src/, goals of proofs, strings, inputs and outputs stay.
Within a name a dash stays only where it joins two names (`length-tabulate`); elsewhere it becomes `_`.
Names that would fall together are listed and nothing is written.
"""

import os
import re
import sys

WORD = r"[^\s(){}\[\];,.:·\"`«»]+"
TOKEN = re.compile(WORD)
LIBRARY = {"getD": "get_or", "reverseAux": "reverse_aux"}
# where the plain spelling is another definition's, a function's or a module's
CHOSEN = {
    "head-fields": "head_fields_lem",
    "kind-byte": "kind_byte_lem",
    "kind-letter": "kind_letter_lem",
    "number-in": "number_in_lem",
    "refused-by": "refused_by_lem",
    "three-fields": "three_fields_lem",
    "call-fields": "call_fields_lem",
    "in-front": "in_front_lem",
    "join-laws": "join_laws_lem",
    "build-laws": "build_laws_lem",
    "call-laws": "call_laws_lem",
    "press-laws": "press_laws_lem",
    "table-laws": "table_laws_lem",
    "text-laws": "text_laws_lem",
    "oneNumber": "same_number",
    "is_state": "is_state_lem",
    "from_entries": "from_entries_lem",
    "allAdmitted": "admits_all",
    "codeAt": "code_of_state",
    "codeIn": "code_of_entry",
    "firstPlace": "first_place_of",
    "leadsTo": "leads_into",
    "letterOf": "letter_of_draft",
    "clean-admitted": "clean_admitted",
    "clean-idem": "clean_idem",
    "gapped-max": "gapped_max",
    "join-admitted": "join_admitted",
    "joinAll-admitted": "join_all_admitted",
    "max-below": "max_below",
    "none-admitted": "none_admitted",
    "unit-right": "unit_right",
    "readCall": "call_of_line",
    "readHead": "head_of_line",
    "readLine": "draft_after_line",
    "readLines": "draft_after_lines",
    "signList": "sign_bytes",
    "tableText": "text_of_table",
    "valueAt": "value_of_state",
    "verdictByte": "byte_of_verdict",
    "forwardDraft": "forward_draft_model",
    "backwardDraft": "backward_draft_model",
    "backwardTable": "backward_table_model",
    "tableMachine": "table_machine_model",
}
# a function has this name in the last landed text; no file cites both
BESIDE = {"letterByte"}
# Rattle's own names in proof files begin so
MADE = re.compile(r"^(returns|loop-|invariant|decreases|overflow|bounds|slice[-_]bounds|offset|index-|in_|in-|then-|else-|if-|nonzero|prove-|type_inv)|-requires|-preserved|-init|-smaller")


def files(kinds):
    for folder, dirs, names in os.walk("crates"):
        dirs[:] = sorted(d for d in dirs if d not in ("out", "data"))
        for n in sorted(names):
            if n.endswith(kinds):
                yield os.path.join(folder, n)


def declared():
    """Names that .antt files declare, and names that they import from the library."""
    own, library = set(), set()
    for p in files((".antt",)):
        inside = False
        for line in open(p, encoding="utf-8"):
            line = line.rstrip("\n")
            m = re.match(r"^use (Rattle\.std\.|borrow\.|denote\.)\S*\{(.*)\}", line)
            if m:
                library |= {x.split(" as ")[0].strip() for x in m.group(2).split(",")}
            if re.match(r"^((abbrev|unfoldable)\s+)?(pub\s+)?(record|data)\s", line):
                inside = True
                continue
            if line and not line.startswith((" ", "--")):
                inside = False
            m = re.match(r"^(?:(?:abbrev|unfoldable)\s+)?(?:pub\s+)?(" + WORD + r")\s+:\s+(\S+)", line)
            if m and not m.group(2).startswith("goal.") and not MADE.search(m.group(1)):
                own.add(m.group(1))
            m = re.match(r"^\s+pub\s+(" + WORD + r")\s+:\s", line) or (inside and re.match(r"^\s+(" + WORD + r")\s+:\s", line))
            if m:
                own.add(m.group(1))
            # bound names: the library has no word of this spelling
            own |= {x for x in TOKEN.findall(line.split("--")[0]) if re.fullmatch(r"[a-z]\w*[A-Z][\w-]*'?", x)}
    return own - {"bitOr", "bit-or"}, library


def snake(part):
    part = LIBRARY.get(part, part)
    if not part or not part[0].islower():
        return part
    return re.sub(r"([a-z0-9])([A-Z])", lambda m: m.group(1) + "_" + m.group(2).lower(), part)


def spelled(name, words):
    if name in CHOSEN:
        return CHOSEN[name]
    parts = [snake(x) for x in name.replace("′", "'").split("-")]
    out, left = parts[0], parts[0]
    for i, part in enumerate(parts[1:], 1):
        joins = left in words and "_".join(parts[i:]) in words
        out += ("-" if joins else "_") + part
        left = part if joins else left + "_" + part
    return out


def main():
    own, library = declared()
    words = {snake(n) for n in own | library if "-" not in n}
    turned = {n: spelled(n, words) for n in own | set(CHOSEN) if n[0].islower()}
    turned = {n: t for n, t in turned.items() if n != t}
    # words of the library that the toolchain's script left
    turned |= {"bitOr": "bit_or", "bit-or": "bit_or"}
    taken = {}
    for n in sorted(own):
        taken.setdefault(turned.get(n, n), []).append(n)
    bad = [(t, ns) for t, ns in taken.items() if len(ns) > 1]
    bad += [(t, [n]) for n, t in turned.items() if t in library and n in own]
    texts = {}
    for p in files((".antt", ".rt", ".edit")):
        t = open(p, encoding="utf-8").read()
        used = set(TOKEN.findall(t))
        for n in used & set(turned):
            if n in own - BESIDE and turned[n] in used - {n} and turned[n] not in own and turned[n] not in CHOSEN:
                bad.append((turned[n], [n, "stands in " + p]))
        texts[p] = t
    if bad:
        for t, ns in bad:
            print("falls together:", t, ns)
        return 1
    for p, t in texts.items():
        new = turn(p, t, turned)
        if new != t:
            open(p, "w", encoding="utf-8").write(new)
    for n in sorted(turned):
        print(n, "->", turned[n])
    return 0


def turn(path, text, turned):
    def one(m):
        return turned.get(m.group(0), m.group(0))

    if path.endswith(".antt"):
        return TOKEN.sub(one, text)
    # in Rust text a word of these spellings stands only in clauses: strings are left out
    parts = re.split(r'(b?"(?:[^"\\]|\\.)*")', text)
    return "".join(x if i % 2 else TOKEN.sub(one, x) for i, x in enumerate(parts))


if __name__ == "__main__":
    sys.exit(main())
