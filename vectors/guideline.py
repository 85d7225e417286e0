#!/usr/bin/env python3
"""What guideline_run is to print, made from docs/GUIDELINE.md alone: the tables of sections 2 to 4 and the list names of section 5.

    guideline.py GUIDELINE.md names  > crates/guideline_run/stdin
    guideline.py GUIDELINE.md rows   > crates/guideline_run/stdout
"""
import sys

FORMS = ["", "identification", "series identification", "market partner ID", "version", "date-time", "period covered", "time interval",
         "resolution", "Pos", "amount", "ResourceObject", "party", "grid element"]
ROLES = {"Period": 3, "Interval": 4, "BusinessType": 7, "TimeSeriesIdentification": 8, "Pos": 9, "Qty": 10, "Direction": 11}
KINDS = {1: "2", 2: "3", 3: "4"}  # the section of each kind


def tables(path):
    """heading -> list of rows of cells, for each table below it"""
    found, heading = {}, ""
    for line in open(path, encoding="utf-8"):
        line = line.rstrip("\n")
        if line.startswith("#"):
            heading = line.lstrip("#").split()[0]
        elif line.startswith("|") and not line.startswith("|---"):
            found.setdefault(heading, []).append([c.strip() for c in line.strip("|").split("|")])
    return found


def attributes(table):
    at = {h: k for k, h in enumerate(table[0])}
    return {(r[at["Element"]], r[at["Attribute"]]): (r[at["White space"]], r[at["Form"]]) for r in table[1:]}


def form(element, attrs, lists):
    if (element, "v") not in attrs:
        return 0
    said = attrs[element, "v"][1]
    if said.startswith("list "):
        return 32 + lists.index(said[5:])
    if said == "interval":
        said = {"TimePeriodCovered": "period covered", "TimeInterval": "time interval"}[element]
    if element == "TimeSeriesIdentification":
        said = "series identification"
    return FORMS.index(said)


def role(row, element, special):
    if row == 1:
        return 1
    if special.startswith("the series;"):
        return 2
    if special.startswith("one of the five Originals"):
        return 5
    if special.startswith("the object of kind"):
        return 6
    if special.startswith("the area of kind"):
        return 12
    return ROLES.get(element, 0)


def rows(table, attrs, lists, numbers):
    at = {h: k for k, h in enumerate(table[0])}
    for r in table[1:]:
        row, element = int(r[at["Row"]]), r[at["Element"]]
        if row == 0:
            yield (0, 255, 255, 1, 0, 0, 0, 0, 0)
            continue
        parent = int(r[at["Parent"]].rsplit("(", 1)[1].rstrip(")"))
        least, most = r[at["How often"]].split("..")
        listed = attrs.get((element, "codingScheme"))
        scheme = 1 + lists.index(listed[1][5:]) if listed else 0
        has = [a.strip() for a in r[at["Attributes"]].split(",")]
        assert ("v" in has) == ((element, "v") in attrs) and ("codingScheme" in has) == (listed is not None)
        collapsed = int(attrs.get((element, "v"), ("",))[0] == "collapse")
        yield (row, numbers[element], parent, int(least != "0"), int(most != "1"), form(element, attrs, lists), collapsed, scheme,
               role(row, element, r[at["Special"]]))


def main():
    found = tables(sys.argv[1])
    lists = [r[0] for r in found["5."][1:] if r[0]]
    names = []
    for section in KINDS.values():
        names += [r[1] for r in found[section + ".1"][1:] if r[0] != "0" and r[1] not in names]
    numbers = {n: k + 1 for k, n in enumerate(names)}
    near = [""] + [n[:-1] for n in names] + [n + "s" for n in names] + [n.lower() for n in names] + [n[1:] + n[0] for n in names]
    asked = names + [n for n in near if n not in numbers]
    if sys.argv[2] == "names":
        print("\n".join(asked))
        return
    for section in KINDS.values():
        for r in rows(found[section + ".1"], attributes(found[section + ".2"]), lists, numbers):
            print("row", *r)
    for kind, section in KINDS.items():
        least, most = [r[3] for r in found[section + ".1"] if r[1] == "Interval"][0].split("..")
        for n in (0, 1, 91, 92, 99, 100):
            print("intervals", kind, n, int(int(least) <= n), int(most == "n" or n < int(most)))
    roots = {numbers[found[section + ".1"][2][1]]: kind for kind, section in KINDS.items()}
    for k in range(256):
        print("root", k, roots.get(k, 0))
    for n in asked:
        print(n, numbers.get(n, 0))


main()
