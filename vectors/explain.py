#!/usr/bin/env python3
"""Makes the input and the expected output of the program explain, from its own reading of the paper's paragraph on the note.

    explain.py CRATE      writes CRATE/stdin and CRATE/stdout

A line is a note where it is the printed form of five numbers below 2^21, or of seven in the new shape. The words for each number are written here a second time.
"""
import re
import sys

REFUSALS = [
    "the document has no fault",
    "the document is longer than 1048576 bytes",
    "an item is unreadable",
    "an element, an end tag or text is not due here, or the document ends too early",
    "a table for series or intervals is full",
    "an attribute is missing or unknown",
    "a value is against its form or its fixed value",
    "a value is outside its code list",
    "a value or a count is against another value",
    "a TimeSeriesIdentification was used before",
    "the note buffer has fewer than 16 bytes",
    "the bytes are not one note",
    "no legal Beschaffungsanforderung or Kostenblatt has this content",
    "the document to be written is longer than its output or 1048576 bytes",
]
DEPTHS = ["", "one element", "two elements", "three elements", "four elements", "five elements", "six elements", "seven elements",
          "eight elements", "nine elements", "ten elements", "eleven elements", "twelve elements"]
KINDS = ["no root yet", "Beschaffungsanforderung", "Kostenblatt", "NetworkConstraintDocument"]


def printed(*numbers):
    """seven bits a group, lowest first, the top bit set on all but the last, in the fewest groups; in hex with single spaces"""
    out = []
    for n in numbers:
        while n >= 128:
            out.append(128 + n % 128)
            n //= 128
        out.append(n)
    return " ".join("%02X" % b for b in out)


def numbers_on(line):
    """the five numbers and the depth of which the line is the printed note, or none"""
    if not re.fullmatch("[0-9A-F]{2}( [0-9A-F]{2})*", line):
        return None
    found, value, unit = [], 0, 1
    for pair in line.split(" "):
        b = int(pair, 16)
        value += b % 128 * unit
        unit *= 128
        if b < 128:
            found.append(value)
            value, unit = 0, 1
    if printed(*found) != line or any(n >= 2 ** 21 for n in found):
        return None
    if len(found) == 5 and found[0] != 100:
        return found + [0]
    if len(found) == 7 and found[0] == 100 and found[1] != 100:
        return found[1:]
    return None


def explained(line):
    found = numbers_on(line)
    if found is None:
        return "This is not a note.\n"
    refusal, place, kind, series, intervals, depth = found
    words = REFUSALS[refusal] if refusal < len(REFUSALS) else "an unknown refusal"
    name = KINDS[kind] if kind < len(KINDS) else "an unknown kind"
    many = "interval" if intervals == 1 else "intervals"
    deep = DEPTHS[depth] if depth < len(DEPTHS) else f"{depth} elements"
    if refusal == 0:
        head, where, before = "Accepted", f"Length: the document has {place} bytes.", "the document has"
    else:
        head, where, before = "Refused", f"Place: byte {place} of the document, its first byte being byte 0.", "before that place"
    return (f"{head}: {refusal}, {words}.\n{where}\nKind: {kind}, {name}.\n"
            f"Counts: {before} {series} series and {intervals} {many}.\n" + (f"Depth: {deep} deep.\n" if depth else ""))


LINES = [
    # acceptance of all kinds, and each refusal
    printed(0, 15871, 2, 2, 192), printed(0, 20480, 1, 1, 1), printed(0, 2048, 3, 2, 3), printed(3, 57, 3, 0, 0),
    printed(1, 0, 0, 0, 0), printed(2, 1234, 1, 0, 0), printed(3, 0, 0, 0, 0), printed(3, 45, 2, 0, 0),
    printed(4, 65535, 1, 64, 0), printed(5, 0, 0, 0, 0), printed(6, 1234, 2, 2, 17), printed(7, 300, 1, 0, 0),
    printed(8, 9999, 2, 1, 1), printed(9, 128, 2, 1, 96), printed(10, 0, 0, 0, 0),
    # notes that no document reader gives
    printed(11, 0, 0, 0, 0), printed(12, 0, 0, 0, 0), printed(13, 0, 2, 0, 0), printed(14, 0, 0, 0, 0), printed(0, 0, 0, 0, 0), printed(300, 2097151, 4, 10, 2),
    printed(2097151, 2097151, 2097151, 2097151, 2097151),
    # the new shape, at every depth that has a word and at some that have none
    printed(100, 0, 15871, 2, 2, 192, 0), printed(100, 3, 45, 2, 0, 0, 1), *[printed(100, 6, 1234, 2, 2, 17, d) for d in range(18)],
    printed(100, *[2097151] * 6), printed(100, 2097151, 0, 0, 0, 0, 128),
    # not notes: five that begin with 100, seven whose second is 100, seven with another first number, six, eight
    printed(100, 0, 0, 0, 0), printed(100, 100, 0, 0, 0, 0, 0), printed(99, 3, 45, 2, 0, 0, 1), printed(100, 3, 45, 2, 0, 0),
    printed(100, 3, 45, 2, 0, 0, 1, 0), printed(100, 3, 45, 2, 0, 0, 2097152), "E4 00 03 2D 02 00 00 01",
    # not notes: half a byte missing or too much, four and six numbers, zeros after it, not shortest, 2^21
    "03 2D 02 00 0", "03 2D 02 00 00 0", "03 2D 02 00", "03 2D 02 00 00 00", "03 2D 02 00 00 00 00", "03 AD 00 02 00 00",
    "03 00 00 00 80 80 80 01", " ".join(["00"] * 16),
    # not as the program prints it, and no hex
    "03 2d 02 00 00", "032D020000", "03  2D 02 00 00", "03 2D 02 00 00 ", "note 03 2D 02 00 00", "too long", "",
]

if __name__ == "__main__":
    crate = sys.argv[1]
    with open(crate + "/stdin", "w") as f:
        f.write("".join(line + "\n" for line in LINES))
    with open(crate + "/stdout", "w") as f:
        f.write("".join(explained(line) + "\n" for line in LINES))
