"""Makes the vectors of references: stdin, the hexadecimal bytes of an attribute value to a line, and what the program has to print for it (stdout).

    python3 references.py FOLDER      writes FOLDER/stdin and FOLDER/stdout

The answers are those of expat, which is given a document whose one attribute has the value: `says` and the number of each character that expat tells, or
`none` where it finds no well-formed document. No value has a tab, CR or LF of its own, which expat would turn into spaces.
"""
import sys
from xml.parsers import expat

# Both sides of each bound of XML 1.0's production 2, Char, and of the lengths of UTF-8
BOUNDS = [0, 1, 8, 9, 0xA, 0xB, 0xC, 0xD, 0xE, 0x1F, 0x20, 0x21, 0x7E, 0x7F, 0x80, 0x85, 0x9F, 0xA0, 0xFF, 0x100, 0x7FF, 0x800, 0xD7FE, 0xD7FF, 0xD800, 0xDBFF,
          0xDC00, 0xDFFF, 0xE000, 0xE001, 0xFEFF, 0xFFFC, 0xFFFD, 0xFFFE, 0xFFFF, 0x10000, 0x10001, 0x1FFFD, 0x1FFFE, 0x1FFFF, 0xFFFFF, 0x100000, 0x10FFFE,
          0x10FFFF, 0x110000, 0x110001, 0x1FFFFF, 0x200000, 0xFFFFFF, 0x7FFFFFFF, 0x80000000, 0xFFFFFFFF]
# A number that wraps at so many bits would be 65.
WIDTHS = (8, 16, 20, 21, 22, 24, 31, 32, 33, 63, 64, 65, 128, 256)
NAMES = ("amp", "lt", "gt", "quot", "apos")


def said(value):
    """what expat tells of the value, or None"""
    found = []
    quote = b"'" if b'"' in value else b'"'
    parser = expat.ParserCreate("UTF-8")
    parser.StartElementHandler = lambda name, attributes: found.append(attributes["v"])
    try:
        parser.Parse(b"<a v=" + quote + value + quote + b"/>", True)
    except expat.ExpatError:
        return None
    return found[0]


def answer(value):
    text = said(value)
    return "none" if text is None else "says" + "".join(" %d" % ord(c) for c in text)


def of_numbers():
    """production 66, CharRef: both forms, the digits of each, zeros before them"""
    for n in BOUNDS:
        yield from ("&#%d;" % n, "&#x%x;" % n, "&#x%X;" % n, "&#0%d;" % n, "&#x00%x;" % n)
    for bits in WIDTHS:
        for n in (2 ** bits + 65, 2 ** bits + 0x10FFFF, 2 ** bits * 65):
            yield from ("&#%d;" % n, "&#x%x;" % n)
    for zeros in (3, 8, 9, 10, 16, 17, 20, 32, 64, 100, 800):
        yield from ("&#%s65;" % ("0" * zeros), "&#x%s41;" % ("0" * zeros), "&#%s1114112;" % ("0" * zeros), "&#x%sD800;" % ("0" * zeros), "&#%s;" % ("0" * zeros))
    for digit in "0123456789":
        yield from ("&#6%s;" % digit, "&#%s65;" % digit)
    for digit in "0123456789abcdefABCDEF":
        yield from ("&#x4%s;" % digit, "&#x%s4;" % digit)
    for n in range(0x20, 0x180, 7):
        yield from ("&#%d;" % n, "&#x%X;" % n)


def of_names():
    """production 68, EntityRef: of the names that nothing declares expat takes the five alone"""
    for name in NAMES:
        yield from ("&%s;" % name, "&%s" % name, "&%s ;" % name, "& %s;" % name, "&%s;" % name.upper(), "&%s;" % name.title(), "&%sx;" % name, "&x%s;" % name,
                    "&%s;" % name[:-1], "&%s;" % name[1:], "&%s%s;" % (name, name), "&%s;;" % name, "%s;" % name, "&&%s;" % name, "&#%s;" % name, "&%s;" % name[::-1])
    yield from ("&nbsp;", "&bad;", "&auml;", "&_;", "&a;", "&a.b;", "&xml;", "&\u00e4;", "&amp\u0301;", "&ampersand;")


def in_pieces():
    """each piece of a reference left out, twice, or another"""
    yield from ("", "&", "&;", "&#", "&#;", "&#x", "&#x;", "&#X41;", "&#X;", "#65;", "#x41;", "&65;", "&x41;", "&#65", "&#x41", "&##65;", "&#xx41;", "&#x#41;", "&#6x5;", "&#0x41;",
                "&#65;;", "&#65&#65;", "&#&#65;;", "&&#65;", "&#6&amp;5;", "&#-65;", "&#+65;", "&#6.5;", "&#6,5;", "&#6_5;", "&#1e2;", "&#x4h;", "&#41h;", "&#\u0666\u0665;", "&#\uff16\uff15;",
                "&# 65;", "&#65 ;", "& #65;", "&#6 5;", "&#x 41;", "&#x4 1;", ";", ";;", "#", "x", "&amp;;")
    # every byte in the place of the name's first letter, of a digit and of the `;`; not what expat makes a space of
    for b in (bytes([n]) for n in range(256) if n not in b"\t\r\n\"'"):
        yield from (b"&" + b + b"mp;", b"&#" + b + b"5;", b"&#x" + b + b"1;", b"&#65" + b, b"&amp" + b)


def together():
    """more than one, and characters beside them: each is replaced once"""
    yield from ("&amp;lt;", "&amp;amp;", "&amp;#38;", "&#38;lt;", "&#38;#60;", "&#x26;#x3C;", "&#38;#38;#38;", "&lt;&gt;", "&amp;&amp;", "&lt;a&gt;", "&#65;&#66;&#x43;", "a&amp;b", "&amp; &lt; &gt;",
                "M&amp;B", "A0&#49;", " &#32;A01&#x20; ", "&#9;&#10;&#13;", "&#13;&#10;", "&#x20;", "\u00e4&#228;&#xE4;", "&#x10FFFF;\U0010ffff", "\U0001f4a1&amp;\u20ac", "1&#50;3", "&#45;0&#46;001",
                "&quot;&apos;", "'&quot;", "\"&apos;", "it&apos;s", "&amp", "ok &amp; &bad;", "&bad; &amp;", "&amp;&lt", "&#65;&#0;", "&#0;&#65;", "&#xD83D;&#xDCA1;", "&#55357;&#56481;", "a;b", "a#b", "]]>", "&gt;]]&gt;")
    for n in (1, 2, 34, 35, 36, 37, 100):
        yield from ("&amp;" * n, "&#x10FFFF;" * min(n, 80), "a&#98;" * n)
    # characters and bytes that are none, as such
    for part in (b"<", b"a<b", b"&lt<", b"&<;", b"\x00", b"\x01", b"\x1F", b"\x7F", b"\x80", b"\xC3", b"\xC3\xA4", b"\xED\xA0\x80", b"\xEF\xBF\xBD", b"\xEF\xBF\xBE", b"\xF4\x8F\xBF\xBF", b"\xF4\x90\x80\x80", b"\xFF"):
        yield from (part, b"&amp;" + part, part + b"&amp;")


def main():
    every = [*of_numbers(), *of_names(), *in_pieces(), *together()]
    values = list(dict.fromkeys(value if isinstance(value, bytes) else value.encode() for value in every))
    assert not any(b in value for value in values for b in (b"\t", b"\r", b"\n")) and max(len(value) for value in values) < 1000
    with open(sys.argv[1] + "/stdin", "w", encoding="ascii") as f:
        f.writelines(value.hex(" ").upper() + "\n" for value in values)
    with open(sys.argv[1] + "/stdout", "w", encoding="ascii") as f:
        f.writelines(answer(value) + "\n" for value in values)


main()
