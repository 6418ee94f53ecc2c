#!/usr/bin/env python3
"""Spells this repository's own definitions and lemmas as today's Rattle does.

usage: python3 tools/respell.py        at the top, once, on what the kit's port.py wrote

A definition, a field or a variable is in snake case: addFlatRow becomes add_flat_row. A lemma's name is in snake case
too, and a dash stands only between two functions, as in length-replaced; where that is the name of a function, the lemma
gets _lem. Answers, invariants and measures keep the names that Rattle makes for them, and the functions of src/ theirs.
The library's word AllByRecursion stands under its own name: All is another word there.
Two names that would fall together stop the script before anything is written.
"""

import os
import re
import sys

# A name in antt: letters, digits, _, - and '.
NAME = re.compile(r"[A-Za-z_][\w'-]*")
CAMEL = re.compile(r"[a-z][A-Za-z0-9]*[a-z0-9][A-Z][A-Za-z0-9]*(-[A-Za-z]+)?|[a-z]+-[a-z]+[A-Z][A-Za-z]*")
# Functions of std and of this repository between which a dash stays.
FUNCTIONS = {
    "length", "map", "replaced", "changed", "numbered", "added", "climb", "chain", "among",
    "member", "highest", "first_row", "first_of",
}
# Lemmas that would have the name of a function or of a field.
LEMMAS = {
    "at-least": "at_least_lem",
    "by-script": "by_script_lem",
    "by-setup": "by_setup_lem",
    "by-tables": "by_tables_lem",
    "highest-member": "member-highest",
    "last-of": "last_of_lem",
}
# The same of two lemmas that port.py had respelled already, by the files that speak of the lemma.
LEMMAS_IN = {
    "crates/objects/proofs/Decided.antt": {"by_row": "by_row_lem"},
    "crates/scenario/proofs/Numerals.antt": {"digit_value": "digit_value_lem"},
    "crates/scenario/proofs/digits/digit_run/Answers.antt": {"digit_value": "digit_value_lem"},
    "crates/scenario/proofs/digits/sum_of/Answers.antt": {"digit_value": "digit_value_lem"},
}
# Names of answers and invariants, which Rattle makes.
MADE = re.compile(r"(returns|loop|invariant|decreases|overflow|overflow_add|overflow_sub|overflow_mul|unwrap|take|cross|bounds|prove)-")


def files():
    for top, dirs, names in os.walk("crates"):
        dirs[:] = sorted(d for d in dirs if d != "out")
        for name in sorted(names):
            if name.endswith((".rt", ".antt")):
                yield os.path.join(top, name)


def snake(word):
    return re.sub(r"(?<=[a-z0-9])([A-Z])", lambda m: "_" + m.group(1).lower(), word)


def lemma(word):
    parts = word.split("-")
    out = snake(parts[0])
    for before, part in zip(parts, parts[1:]):
        dash = before in FUNCTIONS and part in FUNCTIONS
        out += ("-" if dash else "_") + snake(part)
    return out


def defined(path, text):
    """The names that a file of specs/ or proofs/ defines at the left of a colon."""
    found = set()
    for line in text.splitlines():
        m = re.match(r"\s*(?:(?:abbrev|unfoldable|pub) )*([a-z][\w'-]*)(?: [({].*?[)}])* : ", line)
        if m:
            found.add(m.group(1))
    return found


def main():
    texts = {}
    for path in files():
        with open(path, encoding="utf-8") as f:
            texts[path] = f.read()
    before = dict(texts)
    # A tree that the script has turned has no such name, and stays as it is.
    fresh = any("digitValue" in text for text in texts.values())
    for path, names in LEMMAS_IN.items():
        if fresh and path in texts:
            texts[path] = NAME.sub(lambda m: names.get(m.group(0), m.group(0)), texts[path])
            # The import of std's function of that name.
            texts[path] = texts[path].replace("{digit_value_lem as digitValue}", "{digit_value}")
    for path, text in texts.items():
        if "AllByRecursion as All" in text:
            text = text.replace("AllByRecursion as All", "AllByRecursion")
            texts[path] = NAME.sub(lambda m: "AllByRecursion" if m.group(0) == "All" else m.group(0), text)
    own = set()
    words = set()
    for path, text in texts.items():
        words |= set(NAME.findall(text))
        if path.endswith(".antt"):
            own |= defined(path, text)
    change = {}
    for word in sorted(words):
        if word in LEMMAS:
            change[word] = LEMMAS[word]
        elif CAMEL.fullmatch(word):
            change[word] = snake(word) if "-" not in word else lemma(word)
        elif "-" in word and word in own and not MADE.match(word):
            change[word] = lemma(word)
    change = {a: b for a, b in change.items() if a != b}
    made = {}
    for a, b in sorted(change.items()):
        made.setdefault(b, []).append(a)
    clash = [(b, xs) for b, xs in made.items() if len(xs) > 1 or (b in own and b not in change)]
    if "--list" in sys.argv:
        for a, b in sorted(change.items()):
            print(a, b)
    if clash:
        for b, xs in clash:
            where = sorted({p for p, t in texts.items() for w in [b] if w in NAME.findall(t)})
            print("falls together:", " ".join(xs), "->", b, "| stands in", *where[:6])
        return 1
    if "--list" in sys.argv:
        return 0
    for path, text in texts.items():
        new = NAME.sub(lambda m: change.get(m.group(0), m.group(0)), text)
        if new != before[path]:
            with open(path, "w", encoding="utf-8") as f:
                f.write(new)
    print(f"{len(change)} names")
    return 0


if __name__ == "__main__":
    raise SystemExit(main())
