#!/usr/bin/env python3
"""Brings the repository's own definitions and lemmas to snake case: a lower-case name with humps, as `blockAt`, becomes `block_at`.

usage: tools/port_names.py          rewrites crates/*/{src,specs,proofs,must-fail} in place
       tools/port_names.py --list   prints each old name and its new one, and the new names that stood already in a file of the old one
"""

import os
import re
import sys

ENDINGS = (".rt", ".antt", ".edit")
# a name of antt: letters, digits, underscores, apostrophes, joined by dashes
NAME = re.compile(r"[A-Za-z_ℕ][A-Za-z0-9_'₀-₉ℕ]*(?:-[A-Za-z0-9_'₀-₉ℕ]+)*")
HUMPED = re.compile(r"^[a-z_][a-z0-9_]*[A-Z]")
HUMP = re.compile(r"(?<=[a-z0-9])([A-Z])")
# names of the kit's own, which it spells so
# lemmas and cases that would fall together with a definition's new name: a lemma gets _lem, a case another word
APART = {n: n + "_lem" for n in """is_digit guard_number all_in row_word model_of row_words digits_of row_back moved_by number_by left_below too_short all_known taken_in look_at""".split()}
APART |= {"step_line": "one_step_line", "out_of_order": "is_out_of_order", "out_of_range": "is_out_of_range", "too_many": "is_too_many", "ran_out": "has_run_out"}
KEEP = {"getD", "is_Within", "mut_Tells", "read_Some", "shr_slice_Lawful", "shr_slice_Tells", "sint_Lawful", "walk_Meets", "inX"}
APARTS = re.compile(r"(?<![\w'.-])(?:" + "|".join(sorted(APART)) + r")(?![\w'-])")


def part(p):
    if p in KEEP or not HUMPED.match(p) or not HUMP.search(p):
        return p
    return HUMP.sub(lambda m: "_" + m.group(1).lower(), p)


def name(n):
    return "-".join(part(p) for p in n.split("-"))


def files():
    for folder, dirs, names in os.walk("crates"):
        dirs[:] = sorted(d for d in dirs if d != "out")
        for f in sorted(names):
            if f.endswith(ENDINGS):
                yield os.path.join(folder, f)


def turned(text, rust):
    # what a string holds stays
    pieces = re.split(r'("(?:[^"\\\n]|\\.)*")', text)
    for i in range(0, len(pieces), 2):
        if not rust:
            pieces[i] = APARTS.sub(lambda m: APART[m.group(0)], pieces[i])
        pieces[i] = NAME.sub(lambda m: name(m.group(0)), pieces[i]).replace("′", "'")
    return "".join(pieces)


def main():
    if sys.argv[1:] == ["--list"]:
        seen, clash = {}, {}
        for f in files():
            with open(f, encoding="utf-8") as it:
                names = set(NAME.findall(it.read()))
            for n in names:
                m = name(n)
                if m != n:
                    seen[n] = m
                    if m in names:
                        clash.setdefault((n, m), []).append(f)
        for n in sorted(seen):
            print(n, seen[n])
        for (n, m), fs in sorted(clash.items()):
            print("stands already:", n, m, *fs[:4])
        return
    for f in files():
        with open(f, encoding="utf-8") as it:
            old = it.read()
        new = turned(old, f.endswith(".rt") or f.endswith(".edit"))
        if new != old:
            with open(f, "w", encoding="utf-8") as it:
                it.write(new)


main()
