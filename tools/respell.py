#!/usr/bin/env python3
"""Brings the repository's own definitions and lemmas to today's spelling: words in snake case, `roleOf` as `role_of`. Run once, after the kit's port.py.

usage: tools/respell.py        at the top of the repository

The table is made of the words themselves: each word of an .antt file's code that is in camel case and begins with a small letter. It turns in .antt files
(comments too), in clauses and comments of .rt files, and in must-fail edits; strings stay. Names of Rust functions are in snake case already and stay.
Where a lemma or a field already has a definition's new spelling (the kit's script turned `rows-fit` into `rows_fit`, and `rowsFit` becomes that now),
the lemma gets its dash back, so that no two names fall together: RETURNED.
"""

import os
import re

WORD = re.compile(r"[^\s(){}.;,@\"«»]+")
CAMEL = re.compile(r"[a-z][a-z0-9_]*[A-Z]\w*'*")
STRING = re.compile(r'"(?:[^"\\\n]|\\.)*"')
NAME = re.compile(r"(?<![\w'-])[a-z]\w*'*(?![\w'-])")
RETURNED = """rows_fit items_shown in_pairs twice_in on_row row_named rows_in in_one one_more none_before ended_at in_order with_value start_test
same_number ends_by closed_at all_apart char_of room_in fit_written first_three step_by root_told rows_told""".split()
# what stands behind a word of RETURNED where it is a function of src/: a step of a proof, or a folder of proofs/
MADE = re.compile(r"(?:(?<=\.)(?:X)(?=\.(?:ensures|result|new|Statement|Tie|Reads|Goals|Given|args)))".replace("X", "|".join(RETURNED)))


def files(*ends):
    for folder, dirs, names in os.walk("crates"):
        dirs[:] = sorted(d for d in dirs if d != "out")
        for n in sorted(names):
            if n.endswith(ends):
                yield os.path.join(folder, n)


def read(path):
    with open(path, encoding="utf-8") as f:
        return f.read()


def snake(word):
    return re.sub(r"(?<=[a-z0-9])([A-Z])", lambda m: "_" + m[1].lower(), word)


def outside(text, turn):
    """The text with what is outside of strings turned."""
    out, at = [], 0
    for m in STRING.finditer(text):
        out += [turn(text[at : m.start()]), m[0]]
        at = m.end()
    return "".join(out) + turn(text[at:])


def returned(text):
    def one(m):
        made = MADE.match(text, m.start())
        return m[0] if made else m[0].replace("_", "-")

    return re.sub(r"(?<![\w'-])(?:" + "|".join(RETURNED) + r")(?![\w'-])", one, text)


def main():
    table = {}
    for p in files(".antt"):
        code = STRING.sub("", re.sub(r"--[^\n]*", "", read(p)))
        for w in WORD.findall(code):
            if CAMEL.fullmatch(w):
                table[w] = snake(w)
    assert len(set(table.values())) == len(table)
    turn = lambda t: NAME.sub(lambda m: table.get(m[0], m[0]), t)
    for p in files(".antt", ".rt", ".edit"):
        old = read(p)
        new = outside(old, lambda t: turn(returned(t) if p.endswith(".antt") else t))
        if new != old:
            with open(p, "w", encoding="utf-8") as f:
                f.write(new)
    print(len(table), "words")


main()
