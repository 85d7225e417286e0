#!/usr/bin/env python3
"""Makes the input and the expected output of the program views_run, from its own reading of what views are.

    views.py CRATE        writes CRATE/stdin and CRATE/stdout

It shares no line with the project's code, and it reads no document: it writes one piece by piece, and keeps in mind where each value came to stand. What refuses a
document is said by hand, and its place is that of the piece.
"""
import datetime
import re
import sys

HEADER, SERIES = 32, 44  # cells

# A space as such or by reference
SPACES = "(?: |&#0*32;|&#x0*20;)*"

# The names of the pairs, in their order; `+` stands for the codingScheme of the element before it.
HEAD = ("DtdVersion DtdRelease DtdBDEWNachrichtenVersion DocumentIdentification DocumentVersion DocumentType ProcessType SenderIdentification + SenderRole "
        "ReceiverIdentification + ReceiverRole DocumentDateTime TimePeriodCovered DocStatus").split()
ORIGINALS = ("OriginalSenderIdentification + OriginalDocumentIdentification OriginalDocumentVersion OriginalDocumentDateTime "
             "OriginalTimeSeriesIdentification TimeInterval Resolution")
PAIRS = {
    1: ("TimeSeriesIdentification BusinessType Product InArea + OutArea + InParty + OutParty + MeasurementUnit " + ORIGINALS).split(),
    2: ("TimeSeriesIdentification BusinessType Direction Product ConnectingArea + ResourceObject + ResourceProvider + CurveType MeasurementUnit Status "
        + ORIGINALS).split(),
    3: ("TimeSeriesIdentification BusinessType Direction ConnectingArea + ResourceObject + ResourceProvider + RequestingGridOperator + GridElement + "
        "MeasurementUnit " + ORIGINALS).split(),
}
# Rows that say preserve or say nothing keep their spaces; all others drop them.
KEPT = {"DtdVersion", "DtdRelease", "DtdBDEWNachrichtenVersion", "DocumentIdentification", "SenderIdentification", "ReceiverIdentification", "TimePeriodCovered",
        "TimeSeriesIdentification", "InArea", "OutArea", "InParty", "OutParty", "ConnectingArea", "ResourceObject", "ResourceProvider", "RequestingGridOperator",
        "GridElement", "OriginalSenderIdentification", "OriginalDocumentIdentification", "OriginalDocumentVersion", "OriginalTimeSeriesIdentification",
        "TimeInterval"}
ROOTS = {1: "Beschaffungsanforderung", 2: "Kostenblatt", 3: "NetworkConstraintDocument"}
ROWS = {1: "ScheduleTimeSeries", 2: "CostTimeSeries", 3: "NetworkConstraintTimeSeries"}
TYPES = {1: "Z07", 2: "Z05", 3: "B15"}


class Writer:
    """a document and where its values stand: pairs maps the number of a pair, counted over all series, to start and length"""

    def __init__(self, kind, covered):
        self.kind, self.covered, self.series = kind, covered, 0
        self.spelled = covered  # in a TimeInterval
        self.bytes, self.pairs, self.seen = b"", {}, []
        self.bare = False  # both tags for an element of a single value, single quotes, the attributes the other way round

    def raw(self, text):
        self.bytes += text.encode()

    def keep(self, name, scheme, start, value):
        names, first = (PAIRS[self.kind], 16 + 22 * (self.series - 1)) if self.series else (HEAD, 0)
        at = names.index(name) + scheme
        drops = scheme or name not in KEPT
        said = re.fullmatch("(%s)(.*?)%s" % (SPACES, SPACES), value) if drops else re.fullmatch("()(.*)", value)
        self.pairs[first + at] = (start + len(said[1]), len(said[2].encode()))

    def attribute(self, name, of, scheme, value):
        self.raw(" %s=%s" % (name, "'" if self.bare else '"'))
        if of:
            self.keep(of, scheme, len(self.bytes), value)
        self.raw(value + ("'" if self.bare else '"'))

    def tag(self, name, v, scheme=None):
        self.raw("<" + name)
        both = [("v", False, v)] + ([("codingScheme", True, scheme)] if scheme is not None else [])
        for attribute, of_scheme, value in reversed(both) if self.bare else both:
            self.attribute(attribute, name if name not in ("Pos", "Qty") else None, of_scheme, value)
        self.raw("></%s>" % name if self.bare else "/>")

    def root(self, **given):
        self.raw("<" + ROOTS[self.kind])
        for name, value in given.items():
            self.attribute(name, name if name.startswith("Dtd") else None, False, value)
        self.raw(">")

    def head(self, **other):
        rows = [("DocumentIdentification", "D", None), ("DocumentVersion", "1", None), ("DocumentType", TYPES[self.kind], None), ("ProcessType", "A14", None),
                ("SenderIdentification", "9900000000017", "NDE"), ("SenderRole", "A18", None), ("ReceiverIdentification", "9900000000024", "A10"),
                ("ReceiverRole", "A39", None), ("DocumentDateTime", "2031-02-02T10:15:00Z", None), ("TimePeriodCovered", self.covered, None)]
        for name, v, scheme in rows:
            self.tag(name, other.get(name, v), other.get(name + "Scheme", scheme))

    def period(self, positions):
        self.raw("<Period>")
        self.tag("TimeInterval", self.spelled)
        self.tag("Resolution", "PT15M" if not self.bare else "  PT15M ")
        for pos in positions:
            self.raw("<Interval>")
            self.tag("Pos", str(pos))
            self.tag("Qty", "0")
            self.raw("</Interval>")
        self.raw("</Period>")

    def one(self, rows, positions=(1,)):
        """a series: names with v, or with v and codingScheme; text goes in as it is"""
        self.seen.append(len(self.bytes))
        self.raw("<%s>" % ROWS[self.kind])
        self.series += 1
        for row in rows:
            self.raw(row) if isinstance(row, str) else self.tag(*row)
        self.period(positions)
        self.raw("</%s>" % ROWS[self.kind])

    def end(self):
        self.raw("</%s>" % ROOTS[self.kind])
        return self


ORIGINAL = [("OriginalSenderIdentification", "9900000000031", " A10 "), ("OriginalDocumentIdentification", " o "), ("OriginalDocumentVersion", "7"),
            ("OriginalDocumentDateTime", " 2031-01-01T00:00:00Z "), ("OriginalTimeSeriesIdentification", "")]
QUARTER = "2031-02-02T23:00Z/2031-02-02T23:15Z"
DAY = "2031-03-29T23:00Z/2031-03-30T22:00Z"  # 92 quarter hours


def request(name, **other):
    area, party = other.get("area", "10YDE-VE-------2"), other.get("party", "11XINVENTED----1")
    return [("TimeSeriesIdentification", name), ("BusinessType", " A02"), ("Product", "8716867000016 "), ("InArea", area, " A01"),
            ("OutArea", "10YFLENSBURG---3", "A01 "), ("InParty", party, "A01"), ("OutParty", "11XINVENTED----2", "A01"), ("MeasurementUnit", "  MAW  ")]


def cost(name, direction=None, area=None, unit="Z02", status=None):
    rows = [("TimeSeriesIdentification", name), ("BusinessType", "A01")]
    rows += [("Direction", direction)] if direction is not None else []
    rows += [("Product", "8716867000016")]
    rows += [("ConnectingArea", area, "A01")] if area else []
    rows += [("ResourceObject", "C0000000017", "NDE"), ("ResourceProvider", "9900000000017", "A10"), ("CurveType", "A03"), ("MeasurementUnit", unit)]
    return rows + ([("Status", status)] if status else [])


def limit(name, business, direction, more=()):
    rows = [("TimeSeriesIdentification", name), ("BusinessType", business), ("Direction", direction), ("ConnectingArea", "10YDE-EON------1", "A01"),
            ("ResourceObject", "", " Z01")]
    return rows + list(more) + [("MeasurementUnit", "C62")]


MORE = [("ResourceProvider", "9900000000017", "NDE"), ("RequestingGridOperator", "9900000000048", " NDE"), ("GridElement", " ä ", "A02 ")]


def sheets():
    """accepted documents: each optional value there and absent, in the first series and in a later one"""
    w = Writer(2, QUARTER)
    w.root(DtdBDEWNachrichtenVersion="1.0")
    w.head()
    w.one(cost("S-1"))
    yield w.end()
    w = Writer(2, QUARTER)
    w.raw("\ufeff<?xml version='1.0'?><!-- <DocumentVersion v=\"9\"/> -->\t")
    w.root(xmlns="x", DtdBDEWNachrichtenVersion="1.0")
    w.head(DocumentIdentification=" ", DocumentVersion="  12 ", SenderIdentificationScheme=" NDE  ", DocumentDateTime=" 2031-02-02T10:15:00Z")
    w.one(cost("", " A01 ", "10YFLENSBURG---3", " Z01", " Z05 ") + ORIGINAL)
    w.raw(" ")
    w.one(["<!-- <Direction v=\"A02\"/> -->"] + cost(" b ä"))
    w.bare = True
    w.one(cost("c", "A02   ", unit="Z03 "))
    yield w.end()
    # what a comment holds is no value
    w = Writer(2, QUARTER)
    w.root(DtdBDEWNachrichtenVersion="1.0")
    w.head()
    rows = cost("S-1", " A01 ")
    w.one(rows[:2] + ["<!-- <Direction v=\"A02\"/> -->"] + rows[2:])
    yield w.end()
    # one of kind 1 alone, since it is long
    w = Writer(1, DAY)
    w.root(DtdBDEWNachrichtenVersion="1.0")
    w.head()
    w.one(request("r") + ORIGINAL, range(1, 93))
    yield w.end()
    two = [limit("a", "A77", "A01"), limit("b", " B59", " A01", MORE) + ORIGINAL]
    for status, series in ((None, []), (" A13 ", []), ("A13", [limit("n", "B59", "A01 ", MORE)]), (None, two)):
        w = Writer(3, QUARTER)
        if series[1:]:
            w.root(DtdRelease="1", DtdBDEWNachrichtenVersion="1.1a", DtdVersion="4")
        else:
            w.root(DtdVersion="4", DtdRelease="1")
        w.head()
        if status:
            w.tag("DocStatus", status)
        for rows in series:
            w.one(rows)
        yield w.end()


def by_reference():
    """the same with references: views show what stands between the quotes, less spaces and references to them"""
    w = Writer(2, QUARTER)
    w.root(DtdBDEWNachrichtenVersion="1&#46;&#x30;", xmlns="&lt;&amp;")
    w.head(DocumentIdentification="&#32;M&amp;B&#32;", DocumentVersion=" &#32;1&#x32;&#0032;", DocumentType="&#90;05 ", SenderIdentification="99000&#48;0000017",
           SenderIdentificationScheme="&#x20; N&#68;E&#x00020;", SenderRole="A1&#56;", DocumentDateTime="&#32;2031-02-02T10&#58;15:00Z",
           TimePeriodCovered=QUARTER.replace("T", "&#84;"))
    w.one([("TimeSeriesIdentification", 35 * "&amp;"), ("BusinessType", " &#32;A0&#49;&#x20; "), ("Direction", "&#x20;&#65;02"), ("Product", "871686700001&#54;&#32;"),
           ("ConnectingArea", "10YDE&#45;VE-------2", "A01&#32;"), ("ResourceObject", "&#67;0000000017", "&#32;NDE"), ("ResourceProvider", "&#57;900000000017", "A10"),
           ("CurveType", "A03"), ("MeasurementUnit", "&#x5A;02"), ("Status", "&#32;&#32;Z05&#32; &#32;")] + ORIGINAL)
    w.bare, w.spelled = True, QUARTER.replace("/", "&#x2f;")
    w.one(cost("&quot;&#39;", "A0&#50; &#32;", unit="Z03&#x020;"))
    yield w.end()
    w = Writer(3, QUARTER)
    w.root(DtdVersion="&#52;", DtdRelease="&#x31;", DtdBDEWNachrichtenVersion="1.1&#97;")
    w.head()
    w.tag("DocStatus", "&#32;A1&#51; ")
    w.one(limit("&#9;", "B5&#57;&#32;", "&#65;01", [("GridElement", "&#32;&lt;&#32;", "&#32;A02")]))
    yield w.end()


def minutes(text):
    since = datetime.datetime.strptime(text, "%Y-%m-%dT%H:%MZ") - datetime.datetime(2000, 1, 1)
    return since.days * 1440 + since.seconds // 60


def line(refusal, six, table, nanswer):
    said = (list(six) + [0] * nanswer)[:nanswer]
    return "%d:%s:%s\n" % (refusal, "".join(" %d" % n for n in said), "".join(" %d" % n for n in table))


def refused(number, place, kind, series, ntable, nanswer):
    return line(number, (number, place, kind, series), [0] * ntable, nanswer)


def viewed(w, ntable, nanswer):
    """a whole document: 4 for a table with no room, else its values"""
    if ntable < HEADER:
        return refused(4, 0, 0, 0, ntable, nanswer)
    room = (ntable - HEADER) // SERIES
    if room < w.series:
        return refused(4, w.seen[room], w.kind, room, ntable, nanswer)
    table = [0] * ntable
    for pair, told in w.pairs.items():
        table[2 * pair:2 * pair + 2] = told
    ends = [minutes(text) for text in w.covered.split("/")]
    return line(0, [0, len(w.bytes), w.kind, w.series] + ends, table, nanswer)


def faults():
    """documents with a fault in a second series or elsewhere: the bytes, the number, and the place, kind and series"""
    yield b"", 3, 0, 0, 0
    yield b"<Kostenblatt>", 5, 0, 0, 0
    yield b'<Kostenblatt DtdBDEWNachrichtenVersion="1.0">', 3, 45, 2, 0
    yield b'<Kostenblatt DtdBDEWNachrichtenVersion="1.1">', 6, 0, 0, 0
    yield b"<a", 2, 0, 0, 0

    def two(second):
        w = Writer(2, QUARTER)
        w.root(DtdBDEWNachrichtenVersion="1.0")
        w.head()
        w.one(cost("a", "A01"))
        w.one(second)
        return w.end()

    for rows, tag, number in ((cost("a"), "<TimeSeriesIdentification", 9), (cost("b", "A03"), "<Direction", 7), (cost("b") + ORIGINAL[:2], "<Period", 8),
                              (cost("b") + ["<Status/>"], "<Status", 5), (cost("b") + ["<Status v='&'/>"], "<Status", 2),
                              (cost("b") + ["<Status v='&bad;'/>"], "<Status", 2), (cost("&#97;"), "<TimeSeriesIdentification", 9),
                              (cost("b", "A01&#9;"), "<Direction", 7), (cost(36 * "&lt;"), "<TimeSeriesIdentification", 6)):
        w = two(rows)
        yield w.bytes, number, w.bytes.rindex(tag.encode()), 2, 2
    whole = two(cost("b")).bytes
    yield whole + b"x", 3, len(whole), 2, 2


def cases():
    for w in [*sheets(), *by_reference()]:
        need = HEADER + SERIES * w.series
        yield w.bytes, need, 6, viewed(w, need, 6)
        if w.series != 1:
            yield w.bytes, need - 1, 6, viewed(w, need - 1, 6)
    first = next(sheets())
    for ntable in (0, HEADER - 1, HEADER, HEADER + SERIES - 1, HEADER + SERIES + 1):
        yield first.bytes, ntable, 6, viewed(first, ntable, 6)
    for nanswer in (0, 1, 5, 16):
        yield first.bytes, 0, nanswer, viewed(first, 0, nanswer)
    yield first.bytes, HEADER + SERIES, 7, viewed(first, HEADER + SERIES, 7)
    for doc, *six in faults():
        yield doc, HEADER + 2 * SERIES, 7, refused(*six, HEADER + 2 * SERIES, 7)
    # the table goes first
    yield b"<a", HEADER - 1, 6, refused(4, 0, 0, 0, HEADER - 1, 6)


def main():
    all_cases = list(cases())
    assert all(b"\n" not in doc for doc, *_ in all_cases)
    with open(sys.argv[1] + "/stdin", "wb") as f:
        f.write(b"".join(b"%02X %02X %02X\n%s\n" % (ntable // 256, ntable % 256, nanswer, doc) for doc, ntable, nanswer, _ in all_cases))
    with open(sys.argv[1] + "/stdout", "w") as f:
        f.write("".join(said for *_, said in all_cases))


main()
