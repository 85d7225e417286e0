#!/usr/bin/env python3
"""Counts the places in crates/*/src that docs/DESIGN-PASS.md speaks of, by its points. It changes nothing.

  tools/places.py          the counts, a line for each kind of place
  tools/places.py -l       the places too
  tools/places.py -l 3     those of one point
"""
import collections
import glob
import os
import re
import sys

TOP = os.path.dirname(os.path.dirname(os.path.abspath(__file__)))
REFUSALS = ("NO_REFUSAL TOO_LONG UNREADABLE_ITEM NOT_DUE TABLE_FULL WRONG_ATTRIBUTE AGAINST_FORM OUTSIDE_LIST AGAINST_VALUE USED_AGAIN "
            "BUFFER_SHORT NOT_ONE_NOTE CONTENT_UNFIT NO_ROOM_TO_WRITE").split()


def read(path):
    with open(path, encoding="utf-8") as file:
        return re.sub(r"//[^\n]*", "", file.read())


def block(text, at):
    """The text from the brace at or after `at` to the one that closes it."""
    start = text.index("{", at)
    depth = 0
    for i in range(start, len(text)):
        depth += {"{": 1, "}": -1}.get(text[i], 0)
        if depth == 0:
            return text[start:i + 1]
    return text[start:]


SOURCES = {os.path.relpath(p, TOP): read(p) for p in sorted(glob.glob(TOP + "/crates/*/src/**/*.rt", recursive=True))}
FN = re.compile(r"^[ ]*(?:pub(?:\([a-z]+\))? )?(?:unsafe )?(?:extern \"C\" )?fn (\w+)(<[^(]*>)?\(", re.M)


class Function:
    def __init__(self, path, text, match, end):
        self.path, self.name = path, match.group(1)
        self.line = text.count("\n", 0, match.start()) + 1
        depth, i = 1, match.end()
        while depth:
            depth += {"(": 1, ")": -1}.get(text[i], 0)
            i += 1
        self.parameters = [p.strip() for p in re.split(r",(?![^<(]*[>)])", " ".join(text[match.end():i - 1].split())) if p.strip()]
        rest = text[i:end]
        body = re.search(r"^[ ]*\{$|(?<=[>\w\])]) \{$", rest, re.M)
        cut = body.start() if body else 0
        self.head, self.body = rest[:cut], block(rest, cut) if body else ""

    def __str__(self):
        return f"{self.path}:{self.line} {self.name}"


FUNCTIONS = []
for path, text in SOURCES.items():
    found = list(FN.finditer(text))
    for n, m in enumerate(found):
        FUNCTIONS.append(Function(path, text, m, found[n + 1].start() if n + 1 < len(found) else len(text)))


def crate(path):
    return path.split("/")[1]


def enums():
    for path, text in SOURCES.items():
        for m in re.finditer(r"^(?:pub(?:\([a-z]+\))? )?enum (\w+)", text, re.M):
            body = block(text, m.end())[1:-1]
            arms = re.findall(r"^    (\w+)\s*(\(|\{|,)", body, re.M)
            yield path, m.group(1), arms


def option_like():
    for path, name, arms in enums():
        held = [a for a, mark in arms if mark != ","]
        if len(held) == 1 and len(arms) == 2 or len(held) == 2 == len(arms) or len(held) == 1 and len(arms) == 3:
            yield f"{path} {name}: {', '.join(a for a, _ in arms)}"


def refusal_numbers():
    for path, text in SOURCES.items():
        for m in re.finditer(r"\b(" + "|".join(REFUSALS) + r")\b", text):
            line = text.count("\n", 0, m.start()) + 1
            yield f"{path}:{line} {m.group(1)}"


def code_constants():
    for path, text in SOURCES.items():
        if crate(path) in ("columns", "elements", "guideline", "structure", "rules"):
            for m in re.finditer(r"^pub const (\w+): (?:u32|usize|u8)\b", text, re.M):
                yield f"{path} {m.group(1)}"


def kind_parameters():
    for f in FUNCTIONS:
        if any(re.match(r"kind: (u32|usize)$", p) for p in f.parameters):
            yield str(f)


def flags_beside():
    for path, text in SOURCES.items():
        for m in re.finditer(r"-> \((?:bool, [^)]*|[^)]*, bool)\)", text):
            yield f"{path}:{text.count(chr(10), 0, m.start()) + 1} {m.group(0)}"


def shape(body):
    names = {}
    out = []
    for token in re.findall(r"\w+|[^\w\s]", body):
        if re.match(r"[A-Za-z_]\w*$", token) and token not in ("if", "else", "while", "for", "in", "match", "return", "let", "mut", "true", "false", "self", "as"):
            token = names.setdefault(token, f"n{len(names)}")
        elif re.match(r"\d", token):
            token = "0"
        out.append(token)
    return " ".join(out)


def twins():
    groups = collections.defaultdict(list)
    for f in FUNCTIONS:
        if f.body.count("\n") >= 5:
            groups[shape(f.body)].append(f)
    for same in groups.values():
        if len(same) > 1:
            yield ", ".join(str(f) for f in same)


def loops():
    for path, text in SOURCES.items():
        for m in re.finditer(r"^[ ]*(?:'\w+: )?(while|loop)\b", text, re.M):
            yield path, text.count("\n", 0, m.start()) + 1, text[m.start():text.index("\n", m.start())].strip(), block(text, m.end())


def counted():
    for path, line, head, body in loops():
        for name in set(re.findall(r"\b[a-z]\w*\b", head)) - {"while", "loop", "len"}:
            if re.search(r"\b" + name + r" [-+]= 1;", body):
                yield f"{path}:{line} {head}"
                break


def other_loops():
    seen = set(counted())
    for path, line, head, _ in loops():
        if f"{path}:{line} {head}" not in seen:
            yield f"{path}:{line} {head}"


def compared():
    for f in FUNCTIONS:
        if re.search(r"(^|_)(same|equal|eq|cmp|compare|less)(_|$)", f.name):
            yield str(f)


def converted():
    for f in FUNCTIONS:
        arms = re.findall(r"=> (.*?),?$", f.body, re.M)
        plain = [a for a in arms if re.match(r"(\w+::\w+|[A-Z_0-9]+|\d+|0x\w+|true|false)$", a)]
        if re.match(r"\{\s*match ", f.body) and len(arms) > 1 and len(plain) == len(arms):
            yield str(f)


def printed():
    for f in FUNCTIONS:
        if re.search(r"% 10\b|/ 10\b|% 16\b", f.body) and "u8" in f.body:
            yield str(f)


def clauses():
    for f in FUNCTIONS:
        for m in re.finditer(r"\b(?:ensures|requires)\b[^{]*", f.head):
            yield f, " ".join(block(f.head, m.end() - 1)[1:-1].split())


def repeated_facts():
    groups = collections.defaultdict(list)
    for f, clause in clauses():
        for fact in re.split(r" × ", clause):
            if re.search(r"≤|<", fact):
                groups[crate(f.path), fact.strip(" ()")].append(f)
    for (where, fact), same in groups.items():
        if len(same) >= 3:
            yield f"{where}: {fact}: {', '.join(f.name for f in same)}"


def travelling():
    groups = collections.defaultdict(set)
    for f in FUNCTIONS:
        for i in range(len(f.parameters) - 1):
            if "self" not in f.parameters[i]:
                groups[crate(f.path), f.parameters[i], f.parameters[i + 1]].add(f.name)
    for (where, a, b), names in groups.items():
        if len(names) >= 3:
            yield f"{where}: {a}, {b}: {', '.join(sorted(names))}"


def buffers():
    for path, text in SOURCES.items():
        for m in re.finditer(r"= (?:&mut )?\[0\w*; [^\]]+\]", text):
            yield f"{path}:{text.count(chr(10), 0, m.start()) + 1} {m.group(0)[2:]}"


def switches():
    for f in FUNCTIONS:
        for m in re.finditer(r"\bmatch [^{]*\{", f.body):
            arms = re.findall(r"=> \{?\s*(?:return )?([\w.:]+)\(", block(f.body, m.end() - 1))
            if len([a for a in arms if re.match(r"[a-z]", a.split("::")[-1])]) >= 3:
                yield str(f)
                break


def answers():
    for path in sorted(glob.glob(TOP + "/crates/*/proofs/**/Answers.antt", recursive=True)):
        with open(path, encoding="utf-8") as file:
            for m in re.finditer(r"^pub ([\w-]+) : goal\.", file.read(), re.M):
                yield f"{os.path.relpath(path, TOP)} {m.group(1)}"


POINTS = [
    ("1", "own enums of the shape of Option or Result", option_like),
    ("1", "a flag beside a value, returned", flags_beside),
    ("1", "names of refusals' numbers, each use", refusal_numbers),
    ("1", "constants that are codes: elements, forms, lists, roles, demands", code_constants),
    ("1", "functions with a kind as a number", kind_parameters),
    ("2", "groups of functions with bodies of one shape", twins),
    ("3", "loops that count an index by one", counted),
    ("3", "other loops", other_loops),
    ("4", "functions that compare two values", compared),
    ("4", "matches that turn an enum or number into another", converted),
    ("4", "functions that print digits by hand", printed),
    ("5", "facts in three or more contracts of a crate", repeated_facts),
    ("5", "pairs of parameters in three or more functions of a crate", travelling),
    ("6", "arrays that are filled later", buffers),
    ("7", "matches whose arms call three or more functions", switches),
    ("8", "answers", answers),
]

listed = "-l" in sys.argv
only = [a for a in sys.argv[1:] if a != "-l"]
for point, what, places in POINTS:
    if not only or point in only:
        rows = list(places())
        print(f"{point}  {len(rows):5}  {what}")
        if listed:
            for row in rows:
                print(f"       {row}")
