#!/usr/bin/env python3
"""Makes the input and the expected output of the program notes_run, from its own reading of the paper's paragraph on the note.

    notes.py CRATE        writes CRATE/stdin and CRATE/stdout

It shares no line with the project's code: the writer cuts a number by its binary digits, and the reader looks for the numbers
whose note, in either shape, the bytes are.
"""
import random
import sys

LIMIT = 2 ** 21


def groups(number):
    """seven bits a group, lowest first, the top bit set on all but the last, in the fewest groups"""
    bits = bin(number)[2:]
    bits = bits.zfill((len(bits) + 6) // 7 * 7)
    parts = [bits[k:k + 7] for k in range(0, len(bits), 7)][::-1]
    return bytes(int(("0" if part is parts[-1] else "1") + part, 2) for part in parts)


def note(numbers):
    return b"".join(groups(n) for n in numbers)


def shaped(new, six):
    """the old five, or 100, the five and the depth"""
    return note([100] + six if new else six[:5])


def read(data):
    """the five numbers and the depth of the note that the bytes are, or none"""
    numbers = listed(data)
    if numbers is not None and len(numbers) == 5 and numbers[0] != 100:
        return numbers + [0]
    if numbers is not None and len(numbers) == 7 and numbers[0] == 100 and numbers[1] != 100:
        return numbers[1:]
    return None


def listed(data):
    """the numbers that the bytes are, one after the other and nothing else, or none"""
    ends = [k + 1 for k, b in enumerate(data) if b < 128]
    if not ends or ends[-1] != len(data):
        return None
    numbers = []
    for start, end in zip([0] + ends, ends):
        text = "".join(format(b % 128, "07b") for b in reversed(data[start:end]))
        numbers.append(int(text, 2))
    if any(n >= LIMIT for n in numbers) or note(numbers) != bytes(data):
        return None
    return numbers


def spaced(data):
    return " ".join("%02X" % b for b in data)


def reader_case(data):
    numbers = read(data)
    said = "11 0 0 0 0 0 0" if numbers is None else "0 " + " ".join(map(str, numbers))
    return "r " + spaced(data), said


def filled(room, refusal, w):
    return "%d %d: " % (refusal, len(w)) + spaced(w + bytes(room - len(w)))


def writer_case(room, new, six):
    w = shaped(new, six)
    said = "0 %d: " % len(w) + spaced((w + bytes(room))[:room])
    return ("x" if new else "w") + " %02X " % room + " ".join("%08X" % n for n in six), said


def converter_case(room, new, data):
    six = read(data)
    said = filled(room, 10, b"") if room < 24 else filled(room, 11, b"") if six is None else filled(room, 0, shaped(new, six))
    return ("n" if new else "o") + " %02X " % room + spaced(data), said


EDGES = [0, 1, 127, 128, 129, 300, 16383, 16384, 16385, 1048576, LIMIT - 1, LIMIT, LIMIT + 1, 2 ** 28 - 1, 2 ** 28, 2 ** 32 - 1]


def reader_inputs(rng):
    yield b""
    yield bytes([3, 0, 0, 0, 0])
    yield bytes([3, 0x2D, 2, 0, 0])
    yield bytes([0, 0xAC, 2, 0, 0, 0])
    for edge in EDGES:
        for place in range(5):
            numbers = [0] * 5
            numbers[place] = edge
            yield note(numbers)
    for count in range(9):
        yield bytes(count)
        yield note([LIMIT - 1] * count)
        yield note([300] * count)
    good = note([10, 1048576, 2, 64, 2048])
    for cut in range(len(good) + 1):
        yield good[:cut]
        yield good[:cut] + b"\x00"
        yield good[:cut] + b"\x80"
        yield good[:cut] + b"\x80\x00" + good[cut:]
        yield good[:cut] + b"\xFF" + good[cut:]
    yield good + bytes(16 - len(good))
    for long in (b"\x80\x00", b"\xFF\x00", b"\x80\x80\x00", b"\x81\x80\x00", b"\x80\x80\x01", b"\x80\x80\x80\x00", b"\x80\x80\x80\x01", b"\xFF\xFF\x7F",
                 b"\xFF\xFF\xFF\x00", b"\xFF\xFF\xFF\x7F", b"\x80\x80\x80\x80\x01", b"\x80", b"\xFF\xFF", b"\xFF\xFF\xFF"):
        for place in range(5):
            numbers = [b"\x01"] * 5
            numbers[place] = long
            yield b"".join(numbers)
    for first in (0, 1, 2, 63, 64, 126, 127, 128, 129, 130, 191, 192, 254, 255):
        yield bytes([first, 0, 0, 0, 0])
        yield bytes([0, 0, 0, 0, first])
        yield bytes([0x80, first, 0, 0, 0, 0])
        yield bytes([0x80, 0x80, first, 0, 0, 0, 0])
    for _ in range(150):
        yield note([rng.randrange(2 ** rng.randrange(1, 23)) for _ in range(5)])
        yield bytes(rng.choice([0, 1, 2, 127, 128, 129, 255]) for _ in range(rng.randrange(14)))
    # the new shape, and what is nearly one
    yield bytes([100, 3, 45, 2, 0, 0, 1])
    for edge in EDGES + [99, 100, 101]:
        for place in range(7):
            numbers = [100, 3, 0, 0, 0, 0, 0]
            numbers[place] = edge
            yield note(numbers)
        for place in range(5):
            numbers = [3, 0, 0, 0, 0]
            numbers[place] = edge
            yield note(numbers)
    for count in range(12):
        yield note([100] * count)
        yield note([100] + [1] * count)
        yield note([1] * count + [100])
        yield note([100] + [LIMIT - 1] * count)
        yield note([101] + [1] * count)
    good = note([100, 9, 1048576, 2, 64, 2048, 4])
    for cut in range(len(good) + 1):
        yield good[:cut]
        yield good[:cut] + b"\x00"
        yield good[:cut] + b"\x64"
        yield good[:cut] + b"\x80\x00" + good[cut:]
    yield good + bytes(24 - len(good))
    yield bytes([0xE4, 0, 3, 0, 0, 0, 0, 0])
    for _ in range(150):
        yield note([100] + [rng.randrange(2 ** rng.randrange(1, 23)) for _ in range(6)])
        yield bytes(rng.choice([0, 1, 99, 100, 101, 128, 228]) for _ in range(rng.randrange(10)))


def writer_inputs(rng):
    for edge in EDGES:
        for room in (0, 4, 5, 6, 7, 8, 9, 10, 11, 16, 32):
            for new in (False, True):
                yield room, new, [edge, 0, 0, 0, 0, 0]
                yield room, new, [0, 0, 0, 0, edge, 0]
                yield room, new, [0, 0, 0, 0, 0, edge]
    for room in range(49):
        for new in (False, True):
            yield room, new, [3, 45, 2, 0, 0, 1]
            yield room, new, [300] * 6
            yield room, new, [LIMIT - 1] * 6
            yield room, new, [LIMIT] * 6
            yield room, new, [2 ** 32 - 1] * 6
    for _ in range(150):
        yield rng.randrange(49), rng.random() < 0.5, [rng.randrange(2 ** rng.randrange(1, 33)) for _ in range(6)]


def converter_inputs(rng):
    old, new = note([3, 45, 2, 0, 0]), note([100, 3, 45, 2, 0, 0, 1])
    longest = [LIMIT - 1] * 6
    for room in range(49):
        for data in (b"", old, new, shaped(False, longest), shaped(True, longest), new + b"\x00", bytes([100, 0, 0, 0, 0])):
            yield room, False, data
            yield room, True, data
    for data in list(reader_inputs(rng))[::3]:
        yield rng.choice([16, 23, 24, 24, 25, 40]), rng.random() < 0.5, data
    for count in range(12):
        for first in (100, 1):
            for second in (100, 1):
                yield 24, False, note([first, second] + [7] * count)
                yield 24, True, note([first, second] + [7] * count)


def main():
    rng = random.Random(1)
    assert groups(300) == b"\xAC\x02" and note([3, 45, 2, 0, 0]) == b"\x03\x2D\x02\x00\x00"
    assert shaped(True, [3, 45, 2, 0, 0, 1]) == b"\x64\x03\x2D\x02\x00\x00\x01"
    cases = [reader_case(d) for d in reader_inputs(rng)] + [writer_case(*c) for c in writer_inputs(rng)]
    cases += [converter_case(*c) for c in converter_inputs(rng)]
    for name, column in (("stdin", 0), ("stdout", 1)):
        with open("%s/%s" % (sys.argv[1], name), "w", encoding="ascii") as out:
            out.writelines(case[column] + "\n" for case in cases)


if __name__ == "__main__":
    main()
