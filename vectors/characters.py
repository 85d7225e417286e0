"""Makes the vectors of characters: stdin, the hexadecimal bytes of a part to a line, and what the program has to print for it (stdout).

    python3 characters.py FOLDER      writes FOLDER/stdin and FOLDER/stdout

The answers come from Python's own strict decoder of UTF-8 and from the production Char of XML 1.0, not from the definitions.
The rules say nothing of how many characters a part has that is not all characters; there each byte that begins none counts as one.
"""
import sys

# XML 1.0, production 2
CHAR = [(0x09, 0x0A), (0x0D, 0x0D), (0x20, 0xD7FF), (0xE000, 0xFFFD), (0x10000, 0x10FFFF)]


def decoded(part):
    """the text of the bytes if they are UTF-8 and all XML characters, else None"""
    try:
        text = part.decode("utf-8", "strict")
    except UnicodeDecodeError:
        return None
    return text if all(any(low <= ord(c) <= high for low, high in CHAR) for c in text) else None


def front(part):
    """number and length of the character at the front, or None"""
    for n in range(1, 1 + min(4, len(part))):
        text = decoded(part[:n])
        if text is not None:
            return ord(text), n
    return None


def count(part):
    text = decoded(part)
    if text is not None:
        return len(text)
    found = front(part)
    return 1 + count(part[found[1] if found else 1:])


def answer(part):
    found = front(part)
    first = "none" if found is None else "%d %d" % found
    return "char %s all %d count %d" % (first, decoded(part) is not None, count(part))


def numbered(c):
    """the bytes that UTF-8's bit pattern would have for any number below 2^21, surrogates and those past 10FFFF too"""
    if c < 0x80:
        return bytes([c])
    if c < 0x800:
        return bytes([0xC0 | c >> 6, 0x80 | c & 63])
    if c < 0x10000:
        return bytes([0xE0 | c >> 12, 0x80 | c >> 6 & 63, 0x80 | c & 63])
    return bytes([0xF0 | c >> 18, 0x80 | c >> 12 & 63, 0x80 | c >> 6 & 63, 0x80 | c & 63])


def parts():
    yield b""
    # every byte alone: the controls, 7F, tail bytes, lead bytes cut off
    for a in range(256):
        yield bytes([a])
    # both ends of every range of XML's Char and of every length, with their neighbours
    ends = [0x08, 0x09, 0x0A, 0x0B, 0x0C, 0x0D, 0x0E, 0x1F, 0x20, 0x7E, 0x7F, 0x80, 0x85, 0x9F, 0xA0, 0xE4, 0xFF, 0x100, 0x7FE, 0x7FF, 0x800,
            0x801, 0xFFF, 0x1000, 0xCFFF, 0xD000, 0xD7FE, 0xD7FF, 0xD800, 0xDBFF, 0xDC00, 0xDFFF, 0xE000, 0xE001, 0xFDD0, 0xFEFF,
            0xFFFC, 0xFFFD, 0xFFFE, 0xFFFF, 0x10000, 0x10001, 0x1FFFD, 0x1FFFE, 0x1FFFF, 0x20000, 0x3FFFF, 0x40000, 0xFFFFF,
            0x100000, 0x10FFFD, 0x10FFFE, 0x10FFFF, 0x110000, 0x13FFFF, 0x140000, 0x1FFFFF]
    for c in ends:
        yield numbered(c)
        yield numbered(c) + b"a"
        yield b"a" + numbered(c)
    # two bytes: lead bytes on both sides of C2 and DF, and second bytes on both sides of 80 and BF
    for a in (0xC0, 0xC1, 0xC2, 0xC3, 0xDE, 0xDF):
        for b in (0x00, 0x3F, 0x7F, 0x80, 0x81, 0xBE, 0xBF, 0xC0, 0xFF):
            yield bytes([a, b])
    # three bytes: each lead byte that narrows or stands beside one that does
    for a in (0xE0, 0xE1, 0xEC, 0xED, 0xEE, 0xEF):
        for b in (0x7F, 0x80, 0x9F, 0xA0, 0xBE, 0xBF, 0xC0):
            for c in (0x7F, 0x80, 0xBF, 0xC0):
                yield bytes([a, b, c])
    for c in range(0xB8, 0xC2):
        yield bytes([0xEF, 0xBF, c])
        yield bytes([0xEF, 0xBE, c])
        yield bytes([0xEE, 0xBF, c])
    # four bytes
    for a in (0xF0, 0xF1, 0xF3, 0xF4, 0xF5, 0xF7):
        for b in (0x7F, 0x80, 0x8F, 0x90, 0xBF, 0xC0):
            for c, d in ((0x80, 0x80), (0xBF, 0xBF), (0x7F, 0x80), (0xC0, 0x80), (0x80, 0x7F), (0x80, 0xC0)):
                yield bytes([a, b, c, d])
    for a in range(0xF5, 0x100):
        yield bytes([a, 0x80, 0x80, 0x80, 0x80, 0x80])
    # overlong forms of `/`, of 7F, 7FF and FFFF
    for form in ("C0AF", "E080AF", "F08080AF", "C1BF", "E081BF", "E09FBF", "F0809FBF", "F08FBFBF"):
        yield bytes.fromhex(form)
    # a surrogate pair, as such and after a character
    yield bytes.fromhex("EDA080EDB080")
    yield b"a" + bytes.fromhex("EDA080EDB080") + b"a"
    # cut off before each byte, at the end and before another character
    for whole in ("C3A4", "E282AC", "EFBFBD", "F09F9880", "F48FBFBF"):
        bytes_of = bytes.fromhex(whole)
        for n in range(1, len(bytes_of)):
            for after in (b"", b"a", b"\x00", bytes_of):
                yield bytes_of[:n] + after
            yield b"a" + bytes_of[n:]
    # counts
    each = ["a", "\u00e4", "\u20ac", "\U0001F600"]
    for n in (0, 1, 2, 19, 20, 34, 35, 36, 37):
        for c in each:
            yield (c * n).encode()
        yield "".join(each[k % 4] for k in range(n)).encode()
        yield ("\t\n\r " * n)[:n].encode()
    yield ("\u00e4" * 20).encode() + b"\xC3"
    yield b"\xA4" + ("\u00e4" * 20).encode()
    yield ("\u00e4" * 17 + "\x00" + "\u00e4" * 17).encode()
    yield ("a\u0308" * 18).encode()
    yield b"\xEF\xBB\xBF" + b"a"


def main():
    cases = list(parts())
    with open(sys.argv[1] + "/stdin", "w", encoding="ascii") as f:
        f.writelines(p.hex(" ").upper() + "\n" for p in cases)
    with open(sys.argv[1] + "/stdout", "w", encoding="ascii") as f:
        f.writelines(answer(p) + "\n" for p in cases)


main()
