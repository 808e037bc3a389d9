#!/usr/bin/env python3
"""Brings the repository's own definitions and lemmas to snake case: a dash in a name of specs/ or proofs/ becomes an underscore.

usage: python3 tools/respell.py [--look]     at the top of the repository, once, after the kit's own script; --look only lists

Names that an import gives (`as`) and those that a proof binds are turned alike.
Names that the checker makes (goals, invariants and measures in Answers.antt and Invariants.antt) keep their dashes,
and so does the text of code, of strings and of comments in src/. Two names that would fall together stop it.
"""

import pathlib
import re
import sys

TOP = pathlib.Path(__file__).resolve().parent.parent
# The library has bit_and and bit_or: these lemmas on bits of them keep the dash, which joins two names.
KEPT = {"bit-and", "bit-or"}
# A fact is spelled as a type.
FACTS = {"all_small": "AllSmall"}
# Names that stand in proofs for a fact or a case, and are declared nowhere.
BOUND = {"beyond-it", "few-arrows", "few-rules", "no-first", "yes-first"}
MADE = {"Answers.antt", "Invariants.antt", "Proof.antt"}
DECLARED = re.compile(r"^\s*(?:(?:abbrev|unfoldable|pub|record|data|ruleset)\s+)*([^\s(){}:;,]+)\s+(?::|=)(?=\s)", re.M)
GIVEN = re.compile(r"\bas ([a-z][\w']*(?:-[\w']+)+)")
NAME = re.compile(r"[^\s(){}\[\]:;,.λ⌜⌝|]+")
RT_SKIPPED = re.compile(r'//[^\n]*|"(?:\\.|[^"\\])*"|b?\'(?:\\.|[^\'\\])\'')


def files(*endings):
    return [p for p in sorted((TOP / "crates").rglob("*")) if p.suffix in endings and "out" not in p.relative_to(TOP).parts]


def declared():
    own, all_names = set(), set()
    for p in files(".antt"):
        text = p.read_text()
        names = set(DECLARED.findall(text)) - {"let"}
        all_names |= names
        own |= set(GIVEN.findall(text)) | BOUND & set(NAME.findall(text))
        if p.name not in MADE:
            own |= {n for n in names if re.fullmatch(r"[a-z][\w']*(?:-[\w']+)+", n)}
    return own, all_names


def turned(text, names):
    return NAME.sub(lambda m: names.get(m[0], m[0]), text)


def turned_source(text, names):
    out, at = [], 0
    for m in RT_SKIPPED.finditer(text):
        out += [turned(text[at : m.start()], names), m[0]]
        at = m.end()
    return "".join(out) + turned(text[at:], names)


def main():
    own, all_names = declared()
    names = {n: n.replace("-", "_") for n in own - KEPT} | {n: to for n, to in FACTS.items() if n in all_names}
    together = {n for n, to in names.items() if to in all_names or sum(t == to for t in names.values()) > 1}
    sources = set(re.findall(r"\w+", "\n".join(RT_SKIPPED.sub("", p.read_text()) for p in files(".rt"))))
    for n in sorted(names):
        if names[n] in sources:
            print(f"look: {n} would be {names[n]}, which stands in src/ too")
    if together:
        sys.exit(f"two names would be one: {sorted(together)}")
    print(f"{len(names)} names")
    if "--look" in sys.argv:
        return
    for p in files(".antt", ".rt"):
        text = p.read_text()
        new = turned(text, names) if p.suffix == ".antt" else turned_source(text, names)
        if new != text:
            p.write_text(new)


main()
