"""A reader of document 01 as 02 changes it, written from the papers alone, and samples with their expected answers.

    samples.py          prints a line for each sample, sorted by name, and stops where a file of crates/samples_run/data is not the sample
    samples.py NAME     prints the sample

The line is

    NAME refusal place kind series intervals N notelen NOTEHEX S P A

S, P and A are check numbers of the series, position and amount tables that the program of 01 lends. Each sample states its
expected answer by hand; the script stops where the reader answers otherwise. It writes no file. All parties, objects and
amounts are invented.
"""

import calendar
import re
import sys
from collections import namedtuple
from datetime import date, datetime, timedelta
from pathlib import Path

# ---------------------------------------------------------------- Items

WHITE = rb"[ \t\r\n]"
NAME = rb"[A-Za-z_][A-Za-z0-9_.:-]*"
EQUALS = WHITE + rb"*=" + WHITE + rb"*"
# The five named references and numeric ones, decimal or hexadecimal.
REFERENCE = rb"&(?:amp|lt|gt|quot|apos|#[0-9]+|#x[0-9A-Fa-f]+);"
VALUE = rb"(?:\"(?:[^\"<&\t\r\n]|" + REFERENCE + rb")*\"|'(?:[^'<&\t\r\n]|" + REFERENCE + rb")*')"
# Spaces at an end, referenced ones too.
SPACES = rb"(?: |&#0*32;|&#x0*20;)*"
NAMED = {b"amp": "&", b"lt": "<", b"gt": ">", b"quot": '"', b"apos": "'"}

DECLARATION = re.compile(
    rb"<\?xml" + WHITE + rb"+version" + EQUALS + rb"(?:\"1\.0\"|'1\.0')"
    rb"(?:" + WHITE + rb"+encoding" + EQUALS + rb"(?:\"[Uu][Tt][Ff]-8\"|'[Uu][Tt][Ff]-8'))?" + WHITE + rb"*\?>")
ATTRIBUTE = re.compile(WHITE + rb"+(" + NAME + rb")" + EQUALS + rb"(" + VALUE + rb")")
TAG = re.compile(rb"<(" + NAME + rb")((?:" + WHITE + rb"+" + NAME + EQUALS + VALUE + rb")*)" + WHITE + rb"*(/?)>")
END_TAG = re.compile(rb"</(" + NAME + rb")" + WHITE + rb"*>")

# sort: start, empty, end, white, other, comment or unreadable. attributes: name to (start, length) of its value.
Item = namedtuple("Item", "sort after name attributes", defaults=(b"", {}))
UNREADABLE = Item("unreadable", 0)


def xml_characters(part):
    """Bytes are UTF-8 (RFC 3629) and XML 1.0 characters."""
    try:
        said = part.decode("utf-8")
    except UnicodeDecodeError:
        return False
    return all(c in "\t\n\r" or " " <= c <= "\ud7ff" or "\ue000" <= c <= "\ufffd" or "\U00010000" <= c for c in said)


def referenced(reference):
    """The character that a reference stands for; for a number that is none's, 0, which is no XML character."""
    inside = reference[1:-1]
    if inside in NAMED:
        return NAMED[inside]
    digits, base = (inside[2:], 16) if inside.startswith(b"#x") else (inside[1:], 10)
    shortest = digits.lstrip(b"0") or b"0"
    number = int(shortest, base) if len(shortest) < 9 else 0
    return chr(number) if number <= 0x10FFFF else "\0"


def meaning(value):
    """What the bytes of a value say; each reference is replaced once. Whether it names an XML character is not asked here."""
    parts = re.split(b"(" + REFERENCE + b")", value)
    return "".join(referenced(part) if part.startswith(b"&") else part.decode() for part in parts)


def comment_at(doc, at):
    """So does `--` inside a comment: the first one has to be that of `-->`."""
    dashes = doc.find(b"--", at + 4)
    if dashes < 0 or doc[dashes + 2:dashes + 3] != b">" or not xml_characters(doc[at:dashes]):
        return UNREADABLE
    return Item("comment", dashes + 3)


def text_at(doc, at):
    """Text is a longest run of bytes without `<`."""
    after = doc.find(b"<", at)
    after = len(doc) if after < 0 else after
    run = doc[at:after]
    if b"&" in run or b"]]>" in run or not xml_characters(run):
        return UNREADABLE
    return Item("other" if run.strip(b" \t\r\n") else "white", after)


def tag_at(doc, at):
    end = END_TAG.match(doc, at)
    if end:
        return Item("end", end.end(), end[1])
    tag = TAG.match(doc, at)
    if not tag or not xml_characters(tag[0]):
        return UNREADABLE
    found = list(ATTRIBUTE.finditer(doc, *tag.span(2)))
    attributes = {a[1]: (a.start(2) + 1, len(a[2]) - 2) for a in found}
    named = all(xml_characters(meaning(a[2]).encode("utf-8", "surrogatepass")) for a in found)
    if len(attributes) < len(found) or not named:
        return UNREADABLE
    return Item("empty" if tag[3] else "start", tag.end(), tag[1], attributes)


def item_at(doc, at):
    if doc[at:at + 1] != b"<":
        return text_at(doc, at)
    if doc[at:at + 4] == b"<!--":
        return comment_at(doc, at)
    return tag_at(doc, at)


# ---------------------------------------------------------------- Forms of values: each rule gives 0 or a refusal number

def form(fits):
    return lambda value: 0 if fits(value) else 6


def codes(*listed):
    return lambda value: 0 if value in listed else 7


def collapse(rule):
    """Leading and trailing spaces are dropped."""
    return lambda value: rule(value.strip(" "))


def pattern(text):
    return form(re.compile(text).fullmatch)


def moment(value, with_seconds):
    """Years 2000 to 2099, real calendar dates, seconds only in date-times, in UTC with `Z`; None for anything else."""
    seconds = ":[0-9]{2}" if with_seconds else ""
    if not re.fullmatch("20[0-9]{2}-[0-9]{2}-[0-9]{2}T[0-9]{2}:[0-9]{2}" + seconds + "Z", value):
        return None
    try:
        return datetime(*(int(number) for number in re.findall("[0-9]+", value)))
    except ValueError:
        return None


def interval(value):
    """Two minute-times joined by `/`; None for anything else."""
    ends = [moment(part, False) for part in value.split("/")]
    return ends if len(ends) == 2 and None not in ends else None


def thousandths(value):
    """An optional minus, 1 to 12 digits, optionally a point with 1 to 3 digits; None for anything else."""
    parts = re.fullmatch(r"(-?)([0-9]{1,12})(?:\.([0-9]{1,3}))?", value)
    if not parts:
        return None
    size = int(parts[2]) * 1000 + int((parts[3] or "").ljust(3, "0"))
    return -size if parts[1] else size


IDENTIFICATION = form(lambda value: len(value) <= 35)
PARTNER = pattern("[0-9]{13}")
OBJECT = pattern("[ABC][A-Z0-9]{9}[0-9]")
GRID_ELEMENT = form(lambda value: len(value) <= 36)
PARTY = pattern("[A-Z0-9-]{16}")
VERSION = pattern("[1-9][0-9]{0,2}")
POS = pattern("[1-9][0-9]{0,4}")
DATE_TIME = form(lambda value: moment(value, True))
INTERVAL = form(interval)
AMOUNT = form(lambda value: thousandths(value) is not None)
AREA = codes("10YDE-ENBW-----N", "10YDE-EON------1", "10YDE-RWENET---I", "10YDE-VE-------2", "10YFLENSBURG---3")


# ---------------------------------------------------------------- Structure tables

# optional: the attributes that may be absent
Row = namedtuple("Row", "name least most attributes children optional", defaults=((),))


def leaf(name, v, codingScheme=None, least=1):
    attributes = {"v": v} if codingScheme is None else {"v": v, "codingScheme": collapse(codes(*codingScheme))}
    return Row(name, least, 1, attributes, ())


VERSION_1_0 = {"DtdBDEWNachrichtenVersion": pattern(r"1\.0")}
VERSION_1_1A = {"DtdVersion": pattern("4"), "DtdRelease": pattern("1"), "DtdBDEWNachrichtenVersion": pattern(r"1\.1a")}


def root(name, document_type, sender_roles, *last, attributes=VERSION_1_0, optional=()):
    return Row(name, 1, 1, attributes, (
        leaf("DocumentIdentification", IDENTIFICATION),
        leaf("DocumentVersion", collapse(VERSION)),
        leaf("DocumentType", collapse(codes(document_type))),
        leaf("ProcessType", collapse(codes("A14"))),
        leaf("SenderIdentification", PARTNER, ("A10", "NDE")),
        leaf("SenderRole", collapse(codes(*sender_roles))),
        leaf("ReceiverIdentification", PARTNER, ("A10", "NDE")),
        leaf("ReceiverRole", collapse(codes("A18", "A39"))),
        leaf("DocumentDateTime", collapse(DATE_TIME)),
        leaf("TimePeriodCovered", INTERVAL),
        *last), optional)


def series(name, rows, fewest, most, least=1):
    return Row(name, least, sys.maxsize, {}, rows + (
        leaf("OriginalSenderIdentification", PARTNER, ("A10", "NDE"), least=0),
        leaf("OriginalDocumentIdentification", IDENTIFICATION, least=0),
        leaf("OriginalDocumentVersion", VERSION, least=0),
        leaf("OriginalDocumentDateTime", collapse(DATE_TIME), least=0),
        leaf("OriginalTimeSeriesIdentification", IDENTIFICATION, least=0),
        Row("Period", 1, 1, {}, (
            leaf("TimeInterval", INTERVAL),
            leaf("Resolution", collapse(lambda value: 0 if value == "PT15M" else 8)),
            Row("Interval", fewest, most, {}, (
                leaf("Pos", collapse(POS)),
                leaf("Qty", collapse(AMOUNT))))))))


KIND_1 = root("Beschaffungsanforderung", "Z07", ("A18", "A39"), series("ScheduleTimeSeries", (
    leaf("TimeSeriesIdentification", IDENTIFICATION),
    leaf("BusinessType", collapse(codes("A02"))),
    leaf("Product", collapse(codes("8716867000016"))),
    leaf("InArea", AREA, ("A01",)),
    leaf("OutArea", AREA, ("A01",)),
    leaf("InParty", PARTY, ("A01",)),
    leaf("OutParty", PARTY, ("A01",)),
    leaf("MeasurementUnit", collapse(codes("MAW")))), 92, 100))

KIND_2 = root("Kostenblatt", "Z05", ("A18", "A27", "A39"), series("CostTimeSeries", (
    leaf("TimeSeriesIdentification", IDENTIFICATION),
    leaf("BusinessType", collapse(codes("A01", "A04", "Z01", "Z02", "Z03"))),
    leaf("Direction", collapse(codes("A01", "A02")), least=0),
    leaf("Product", collapse(codes("8716867000016"))),
    leaf("ConnectingArea", AREA, ("A01",), least=0),
    leaf("ResourceObject", OBJECT, ("NDE",)),
    leaf("ResourceProvider", PARTNER, ("A10", "NDE")),
    leaf("CurveType", collapse(codes("A03"))),
    leaf("MeasurementUnit", collapse(codes("Z01", "Z02", "Z03"))),
    leaf("Status", collapse(codes("Z01", "Z02", "Z03", "Z04", "Z05")), least=0)), 1, sys.maxsize))

KIND_3 = root("NetworkConstraintDocument", "B15", ("A18", "A39"),
              leaf("DocStatus", collapse(codes("A13")), least=0),
              series("NetworkConstraintTimeSeries", (
                  leaf("TimeSeriesIdentification", IDENTIFICATION),
                  leaf("BusinessType", collapse(codes("A77", "B59"))),
                  leaf("Direction", collapse(codes("A01", "A02"))),
                  leaf("ConnectingArea", AREA, ("A01",)),
                  leaf("ResourceObject", GRID_ELEMENT, ("A01", "A02", "NDE", "Z01")),
                  leaf("ResourceProvider", PARTNER, ("A10", "NDE"), least=0),
                  leaf("RequestingGridOperator", PARTNER, ("A10", "NDE"), least=0),
                  leaf("GridElement", GRID_ELEMENT, ("A01", "A02", "Z01"), least=0),
                  leaf("MeasurementUnit", collapse(codes("C62", "MAW")))), 1, 100, least=0),
              attributes=VERSION_1_1A, optional=("DtdBDEWNachrichtenVersion",))

KINDS = {"Beschaffungsanforderung": 1, "Kostenblatt": 2, "NetworkConstraintDocument": 3}
ROOTS = {0: None, 1: KIND_1, 2: KIND_2, 3: KIND_3}
SERIES = ("ScheduleTimeSeries", "CostTimeSeries", "NetworkConstraintTimeSeries")
QUARTER = timedelta(minutes=15)

# The numbers that a series takes, and those after its five views.
WIDTH = 12
FIRST, COUNT = 10, 11


def midnight(day):
    """The start of a delivery day, in UTC: the clock goes forward on the last Sunday of March and back on the last one of October, at 01:00."""
    def last_sunday(month):
        return date(day.year, month, max(week[calendar.SUNDAY] for week in calendar.monthcalendar(day.year, month)))
    summer = last_sunday(3) < day <= last_sunday(10)
    return datetime(day.year, day.month, day.day) - timedelta(hours=2 if summer else 1)


def view(start, raw):
    """Start and length of what isn't dropped."""
    first, last = re.match(SPACES, raw).end(), re.search(SPACES + b"$", raw).start()
    return start + first, last - first


# ---------------------------------------------------------------- Reading

class Reading:
    """The state between two items. `open` has the open elements: row, index of its last child, how often that came."""

    def __init__(self, doc, series_room, interval_room):
        self.doc, self.series_room, self.interval_room = doc, series_room, interval_room
        self.open, self.kind, self.period, self.n = [], 0, None, 0
        self.series, self.used, self.originals = [], set(), 0
        self.intervals, self.positions, self.amounts = 0, [], []
        self.withdrawn, self.businesses, self.directions = False, [], []

    def due(self, name):
        """The row of an element that is due with this name, or None."""
        if not self.open:
            return None if self.kind else ROOTS[KINDS.get(name, 0)]
        row, last, times = self.open[-1]
        for at in range(last, len(row.children)):
            came = times if at == last else 0
            if row.children[at].name == name and came < row.children[at].most:
                return row.children[at]
            if came < row.children[at].least:
                return None
        return None

    def complete(self):
        row, last, times = self.open[-1]
        return all((times if at == last else 0) >= row.children[at].least for at in range(last, len(row.children)))

    def inside(self):
        """Intervals of the series that is being read."""
        return self.intervals - self.series[-1][FIRST]

    def values(self, item):
        """On the root, attributes named `xmlns` or beginning `xmlns:` or `xsi:` are passed over."""
        said = {name.decode(): meaning(self.doc[start:start + length]) for name, (start, length) in item.attributes.items()}
        if self.open:
            return said
        return {name: v for name, v in said.items() if not re.match("xmlns$|xmlns:|xsi:", name)}

    def faults(self, item):
        """All numbers that an item could be refused with."""
        if item.sort in ("white", "comment"):
            return []
        if item.sort == "unreadable":
            return [2]
        if item.sort == "other":
            return [3]
        if item.sort == "end":
            return self.faults_of_end(item)
        return self.faults_of_start(item)

    def faults_of_end(self, item):
        if not self.open or self.open[-1][0].name != item.name.decode() or not self.complete():
            return [3]
        if item.name == b"Period" and self.kind == 1 and self.inside() != self.n:
            return [8]
        return [8] if item.name == b"NetworkConstraintDocument" and self.lacks_a_business() else []

    def lacks_a_business(self):
        """Without DocStatus, a document with series has [..] A77 [..], and at least one B59."""
        return self.series and not self.withdrawn and not {"A77", "B59"} <= set(self.businesses)

    def faults_of_start(self, item):
        row = self.due(item.name.decode())
        if row is None:
            return [3]
        given, numbers = self.values(item), []
        if item.sort == "empty" and row.children:
            numbers.append(3)
        if row.name in SERIES and len(self.series) >= self.series_room:
            numbers.append(4)
        if row.name in SERIES and self.series and self.withdrawn:
            numbers.append(8)
        if row.name == "Interval" and self.intervals >= self.interval_room:
            numbers.append(4)
        if not row.attributes.keys() - row.optional <= given.keys() <= row.attributes.keys():
            numbers.append(5)
        own = {name: row.attributes[name](value) for name, value in given.items() if name in row.attributes}
        numbers += own.values()
        if row.name == "Period" or own.get("v") == 0:
            numbers.append(self.against_others(row.name, given.get("v", "")))
        return [number for number in numbers if number]

    def against_others(self, name, value):
        """A value of good form against the values before it."""
        wrong = {
            "Period": lambda: 8 if 0 < self.originals < 5 else 0,
            "TimePeriodCovered": lambda: 0 if self.period_fits(*interval(value)) else 8,
            "TimeInterval": lambda: 0 if value == self.period else 8,
            "TimeSeriesIdentification": lambda: 9 if value in self.used else 0,
            "Pos": lambda: 0 if self.pos_fits(int(value.strip(" "))) else 8,
            "BusinessType": lambda: 8 if self.a_third_a77(value.strip(" ")) else 0,
            "Direction": lambda: 8 if self.an_equal_direction(value.strip(" ")) else 0}
        return wrong[name]() if name in wrong else 0

    def a_third_a77(self, business):
        return self.kind == 3 and not self.withdrawn and business == "A77" and self.businesses.count("A77") == 2

    def an_equal_direction(self, direction):
        """Two only with different Direction: of the series that is being read, its BusinessType is the last one."""
        before = [said for business, said in zip(self.businesses, self.directions) if business == "A77"]
        return self.kind == 3 and not self.withdrawn and self.businesses[-1] == "A77" and direction in before

    def period_fits(self, start, end):
        if self.kind == 1:
            day = start.date() + timedelta(days=1)
            return start == midnight(day) and end == midnight(day + timedelta(days=1))
        return timedelta(0) < end - start <= timedelta(days=366) and not (end - start) % QUARTER

    def pos_fits(self, pos):
        if pos > self.n:
            return False
        if self.kind != 2 or self.inside() == 1:
            return pos == self.inside()
        return pos > self.positions[-1]

    def move(self, item):
        """An item without a fault moves the state."""
        if item.sort == "end":
            self.open.pop()
        elif item.sort in ("start", "empty"):
            row = self.due(item.name.decode())
            self.count_child(row)
            self.keep(row, item)
            if item.sort == "start":
                self.open.append([row, 0, 0])

    def count_child(self, row):
        if self.open:
            parent = self.open[-1]
            at = parent[0].children.index(row)
            parent[2] = parent[2] + 1 if at == parent[1] else 1
            parent[1] = at

    def keep(self, row, item):
        start, length = item.attributes.get(b"v", (0, 0))
        raw = self.doc[start:start + length]
        said = meaning(raw)
        if row.name in KINDS:
            self.kind = KINDS[row.name]
        elif row.name == "TimePeriodCovered":
            self.period = said
            first, last = interval(self.period)
            self.n = (last - first) // QUARTER
        elif row.name == "DocStatus":
            self.withdrawn = True
        elif row.name in SERIES:
            self.series.append([0] * FIRST + [self.intervals, 0])
            self.originals = 0
        elif row.name == "TimeSeriesIdentification":
            self.used.add(said)
            self.series[-1][0:2] = start, length
        elif row.name == "InParty" or row.name == "ResourceObject":
            self.series[-1][2:4] = start, length
        elif row.name == "BusinessType":
            self.businesses.append(said.strip(" "))
            self.series[-1][4:6] = view(start, raw)
        elif row.name == "Direction":
            self.directions.append(said.strip(" "))
            self.series[-1][6:8] = view(start, raw)
        elif row.name == "InArea" or row.name == "ConnectingArea":
            self.series[-1][8:10] = start, length
        elif row.name.startswith("Original"):
            self.originals += 1
        elif row.name == "Interval":
            self.intervals += 1
            self.series[-1][COUNT] += 1
        elif row.name == "Pos":
            self.positions.append(int(said.strip(" ")))
        elif row.name == "Qty":
            self.amounts.append(thousandths(said.strip(" ")))

    def run(self):
        """The first item with a fault decides: its smallest number and its place."""
        at = 3 if self.doc.startswith(b"\xef\xbb\xbf") else 0
        declaration = DECLARATION.match(self.doc, at)
        at = declaration.end() if declaration else at
        while at < len(self.doc):
            item = item_at(self.doc, at)
            numbers = self.faults(item)
            if numbers:
                return min(numbers), at
            self.move(item)
            at = item.after
        return (0 if self.kind and not self.open else 3), at


# ---------------------------------------------------------------- Tables and note

Answer = namedtuple("Answer", "refusal place kind series intervals n note series_table position_table amount_table")


def groups(number):
    """Groups of seven bits, lowest first, the top bit set on all but the last, in the fewest groups."""
    return bytes([number]) if number < 128 else bytes([number % 128 + 128]) + groups(number // 128)


def filled(cells, size):
    return list(cells) + [0] * (size - len(cells))


def read(doc, series_cells=64 * WIDTH, position_cells=2048, amount_cells=2048, note_bytes=16):
    """The note is given without the zeros after it."""
    def refused(refusal, place, kind, series, intervals, note):
        return Answer(refusal, place, kind, series, intervals, 0, note, *([0] * c for c in (series_cells, position_cells, amount_cells)))

    def note_of(*numbers):
        return b"".join(groups(number) for number in numbers)

    if note_bytes < 16:
        return refused(10, 0, 0, 0, 0, b"")
    if len(doc) > 1_048_576:
        return refused(1, 0, 0, 0, 0, note_of(1, 0, 0, 0, 0))
    reading = Reading(doc, series_cells // WIDTH, min(position_cells, amount_cells))
    numbers = (*reading.run(), reading.kind, len(reading.series), reading.intervals)
    if numbers[0]:
        return refused(*numbers, note_of(*numbers))
    return Answer(*numbers, reading.n, note_of(*numbers), filled(sum(reading.series, []), series_cells),
                  filled(reading.positions, position_cells), filled(reading.amounts, amount_cells))


def check_number(cells):
    h = 0
    for cell in cells:
        h = (h * 31 + cell % 2**32) % 2**32
    return h


# ---------------------------------------------------------------- Templates

# In a refused sample the mark stands where the faulty item begins, or at the end of the document; it is no part of the sample.
# A byte that isn't UTF-8 is written as its escape, U+DC80 to U+DCFF.
MARK = "@@"
Sample = namedtuple("Sample", "doc refusal place kind series intervals n rows")
SAMPLES = {}


def raw(text):
    return text.encode("utf-8", "surrogateescape")


def put(name, sample):
    assert name not in SAMPLES and re.fullmatch("[a-z0-9-]+", name), name
    assert len(sample.doc) < 65_536, name
    SAMPLES[name] = sample


def refused(name, refusal, kind, series, intervals, text):
    """Kind, series and intervals are those of the items before the mark."""
    assert text.count(MARK) == 1, name
    doc = raw(text.replace(MARK, ""))
    put(name, Sample(doc, refusal, len(raw(text.split(MARK)[0])), kind, series, intervals, 0, None))


def taken(name, kind, n, rows, text):
    """For each series: identification, object, BusinessType, its intervals, each with position and thousandths, and, where they are there,
    Direction and area, None for a Direction that is not there before an area that is."""
    assert MARK not in text, name
    doc = raw(text)
    put(name, Sample(doc, 0, len(doc), kind, len(rows), sum(len(row[3]) for row in rows), n, rows))


def edited(text, *edits):
    """Each edit replaces a part that comes exactly once."""
    for old, new in edits:
        assert text.count(old) == 1, (text.count(old), old)
        text = text.replace(old, new)
    return text


DECLARED = '<?xml version="1.0" encoding="UTF-8"?>\n'
START_1 = '<Beschaffungsanforderung DtdBDEWNachrichtenVersion="1.0">'
START_2 = '<Kostenblatt DtdBDEWNachrichtenVersion="1.0">'
START_3 = '<NetworkConstraintDocument DtdVersion="4" DtdRelease="1" DtdBDEWNachrichtenVersion="1.1a">'
END_1 = "</Beschaffungsanforderung>"
END_2 = "</Kostenblatt>"
END_3 = "</NetworkConstraintDocument>"
DAY = "2024-05-06T22:00Z/2024-05-07T22:00Z"
ORIGINALS = """<OriginalSenderIdentification v="4012345000047" codingScheme="NDE"/>
<OriginalDocumentIdentification v="OD-7"/>
<OriginalDocumentVersion v="7"/>
<OriginalDocumentDateTime v="2024-05-05T10:11:12Z"/>
<OriginalTimeSeriesIdentification v="OS-7"/>
"""
AREAS = ("10YDE-ENBW-----N", "10YDE-EON------1", "10YDE-RWENET---I", "10YDE-VE-------2", "10YFLENSBURG---3")
DIRECTION = '<Direction v="A02"/>\n'
CONNECTING = '<ConnectingArea v="10YDE-EON------1" codingScheme="A01"/>\n'
STATUS = '<Status v="Z02"/>\n'
SOME = [(1, "10.5"), (5, "-3.25")]
SOME_ROWS = [(1, 10500), (5, -3250)]


def head(document_type, role, period):
    return f"""
<DocumentIdentification v="D-1"/>
<DocumentVersion v="3"/>
<DocumentType v="{document_type}"/>
<ProcessType v="A14"/>
<SenderIdentification v="4012345000016" codingScheme="A10"/>
<SenderRole v="{role}"/>
<ReceiverIdentification v="4012345000023" codingScheme="NDE"/>
<ReceiverRole v="A39"/>
<DocumentDateTime v="2024-05-06T07:08:09Z"/>
<TimePeriodCovered v="{period}"/>
"""


def intervals_of(pairs):
    return "".join(f'<Interval><Pos v="{pos}"/><Qty v="{qty}"/></Interval>\n' for pos, qty in pairs)


def cost(identification="S-1", pairs=SOME, period=DAY, business="A01", direction="", area="", resource="C0ABCDEFGH1",
         unit="Z02", status="", originals=""):
    return f"""<CostTimeSeries>
<TimeSeriesIdentification v="{identification}"/>
<BusinessType v="{business}"/>
{direction}<Product v="8716867000016"/>
{area}<ResourceObject v="{resource}" codingScheme="NDE"/>
<ResourceProvider v="4012345000030" codingScheme="A10"/>
<CurveType v="A03"/>
<MeasurementUnit v="{unit}"/>
{status}{originals}<Period>
<TimeInterval v="{period}"/>
<Resolution v="PT15M"/>
{intervals_of(pairs)}</Period>
</CostTimeSeries>
"""


def two(*costs, period=DAY):
    return DECLARED + START_2 + head("Z05", "A27", period) + "".join(costs) + END_2 + "\n"


def schedule(pairs, identification="T-1", period=DAY, originals=""):
    return f"""<ScheduleTimeSeries>
<TimeSeriesIdentification v="{identification}"/>
<BusinessType v="A02"/>
<Product v="8716867000016"/>
<InArea v="10YDE-VE-------2" codingScheme="A01"/>
<OutArea v="10YDE-RWENET---I" codingScheme="A01"/>
<InParty v="11XINVENTED-IN-A" codingScheme="A01"/>
<OutParty v="11XINVENTED-OUT9" codingScheme="A01"/>
<MeasurementUnit v="MAW"/>
{originals}<Period>
<TimeInterval v="{period}"/>
<Resolution v="PT15M"/>
{intervals_of(pairs)}</Period>
</ScheduleTimeSeries>
"""


def one(*schedules, period=DAY):
    return DECLARED + START_1 + head("Z07", "A18", period) + "".join(schedules) + END_1 + "\n"


def first(count):
    """Intervals 1, 2, 3 and so on, with the amounts 0.5, 1.5, 2.5 and so on."""
    return [(pos, f"{pos - 1}.5") for pos in range(1, count + 1)]


def first_rows(count):
    return [(pos, pos * 1000 - 500) for pos in range(1, count + 1)]


DOC_STATUS = '<DocStatus v="A13"/>\n'
PROVIDER = '<ResourceProvider v="4012345000030" codingScheme="NDE"/>\n'
OPERATOR = '<RequestingGridOperator v="4012345000054" codingScheme="A10"/>\n'
ELEMENT = '<GridElement v="NBM 220 kV" codingScheme="Z01"/>\n'
COUNTED = [(1, "10.5"), (2, "-3.25")]
COUNTED_ROWS = [(1, 10500), (2, -3250)]


def constraint(identification="N-1", business="A77", direction="A01", pairs=COUNTED, period=DAY, area=AREAS[3], thing="NBM-17",
               scheme="A01", optional="", unit="MAW", originals=""):
    return f"""<NetworkConstraintTimeSeries>
<TimeSeriesIdentification v="{identification}"/>
<BusinessType v="{business}"/>
<Direction v="{direction}"/>
<ConnectingArea v="{area}" codingScheme="A01"/>
<ResourceObject v="{thing}" codingScheme="{scheme}"/>
{optional}<MeasurementUnit v="{unit}"/>
{originals}<Period>
<TimeInterval v="{period}"/>
<Resolution v="PT15M"/>
{intervals_of(pairs)}</Period>
</NetworkConstraintTimeSeries>
"""


def sensitivity(identification="N-2", direction="A01", pairs=((1, "0.5"),), **others):
    return constraint(identification, "B59", direction, pairs, **{"thing": "A1234567890", "scheme": "NDE", "unit": "C62", **others})


def three(*constraints, status="", period=DAY):
    return DECLARED + START_3 + head("B15", "A18", period) + status + "".join(constraints) + END_3 + "\n"


def three_row(identification="N-1", business="A77", direction="A01", pairs=COUNTED_ROWS, area=AREAS[3], thing="NBM-17"):
    return identification, thing, business, pairs, direction, area


def sensitivity_row(identification="N-2", direction="A01", pairs=((1, 500),), area=AREAS[3], thing="A1234567890"):
    return three_row(identification, "B59", direction, pairs, area, thing)


TWO = two(cost())
ALL_TWO = two(cost(direction=DIRECTION, area=CONNECTING, status=STATUS, originals=ORIGINALS))
TWO_ROW = ("S-1", "C0ABCDEFGH1", "A01", SOME_ROWS)
ALL_ROW = (*TWO_ROW, "A02", "10YDE-EON------1")
# Kind 1 with all optional parts, given up after its second interval: for faults that come earlier.
BEGUN_ONE = one(schedule(first(2), originals=ORIGINALS)).partition("</Period>")[0]
THREE = three(constraint(), sensitivity())
THREE_ROWS = [three_row(), sensitivity_row()]
# Kind 3 with all optional parts; with DocStatus it has one series.
ALL_THREE = three(constraint(optional=PROVIDER + OPERATOR + ELEMENT, originals=ORIGINALS), status=DOC_STATUS)
SPRING = "2024-03-30T23:00Z/2024-03-31T22:00Z"
AUTUMN = "2024-10-26T22:00Z/2024-10-27T23:00Z"


def in_two(name, refusal, series, intervals, *edits):
    """A fault in the kind 2 document that has all optional parts, one series and two intervals."""
    refused(name, refusal, 2, series, intervals, edited(ALL_TWO, *edits))


def in_one(name, refusal, series, intervals, *edits):
    refused(name, refusal, 1, series, intervals, edited(BEGUN_ONE, *edits))


def in_three(name, refusal, series, intervals, *edits):
    """A fault in the kind 3 document that has all optional parts, one series and two intervals."""
    refused("three-" + name, refusal, 3, series, intervals, edited(ALL_THREE, *edits))


def after_root(name, refusal, text):
    """A fault in an item that comes some way after the root start of kind 2."""
    refused(name, refusal, 2, 0, 0, START_2 + text)


# 150 attributes that a root may have, some the beginning of others.
MANY = "".join(f" xmlns:a{i}='{i}'" for i in range(150))


# ---------------------------------------------------------------- Accepted, kind 2

def accepted_two():
    taken("two-plain", 2, 96, [TWO_ROW], TWO)
    taken("two-all-optional", 2, 96, [ALL_ROW], ALL_TWO)
    taken("two-direction-only", 2, 96, [(*TWO_ROW, "A02")], two(cost(direction=DIRECTION)))
    taken("two-connecting-area-only", 2, 96, [(*TWO_ROW, None, "10YDE-EON------1")], two(cost(area=CONNECTING)))
    taken("two-status-only", 2, 96, [TWO_ROW], two(cost(status=STATUS)))
    taken("two-originals-only", 2, 96, [TWO_ROW], two(cost(originals=ORIGINALS)))
    taken("two-compact", 2, 96, [ALL_ROW], re.sub("\n", "", ALL_TWO))
    taken("two-one-interval", 2, 96, [("S-1", "C0ABCDEFGH1", "A01", [(1, 7000)])], two(cost(pairs=[(1, 7)])))
    taken("two-pos-gaps", 2, 96, [("S-1", "C0ABCDEFGH1", "A01", [(1, 1), (2, 20), (9, 300), (95, 4000), (96, 0)])],
          two(cost(pairs=[(1, "0.001"), (2, "0.02"), (9, "0.3"), (95, "4"), (96, "0")])))
    taken("two-same-amount-again", 2, 96, [("S-1", "C0ABCDEFGH1", "A01", [(1, 2000), (2, 2000)])],
          two(cost(pairs=[(1, 2), (2, 2)])))
    short = "2024-05-06T00:07Z/2024-05-06T00:22Z"
    taken("two-n-1", 2, 1, [("S-1", "C0ABCDEFGH1", "A01", [(1, 7000)])], two(cost(pairs=[(1, 7)], period=short), period=short))
    year = "2024-01-01T00:00Z/2025-01-01T00:00Z"
    taken("two-n-35136", 2, 35136, [("S-1", "C0ABCDEFGH1", "A01", [(1, 1000), (9999, 2000), (10000, 3000), (35136, -4000)])],
          two(cost(pairs=[(1, 1), (9999, 2), (10000, 3), (35136, -4)], period=year), period=year))
    more = "2023-01-01T00:00Z/2024-01-02T00:00Z"
    taken("two-366-days-from-2023", 2, 35136, [("S-1", "C0ABCDEFGH1", "A01", [(1, 7000)])],
          two(cost(pairs=[(1, 7)], period=more), period=more))
    late = "2099-12-31T23:30Z/2099-12-31T23:45Z"
    taken("two-last-year", 2, 1, [("S-1", "C0ABCDEFGH1", "A01", [(1, 7000)])], two(cost(pairs=[(1, 7)], period=late), period=late))
    leap = "2000-02-28T23:45Z/2000-03-01T00:00Z"
    taken("two-29-february-2000", 2, 97, [("S-1", "C0ABCDEFGH1", "A01", [(1, 0), (97, 1000)])],
          edited(two(cost(pairs=[(1, "-0"), (97, 1)], period=leap), period=leap),
                 ("2024-05-06T07:08:09Z", "2024-02-29T23:59:59Z")))
    taken("two-64-series", 2, 96, [(f"S-{i}", f"A0000000{i:02}9", "A01", [(1, i * 1000)]) for i in range(64)],
          two(*(cost(identification=f"S-{i}", resource=f"A0000000{i:02}9", pairs=[(1, i)]) for i in range(64))))
    taken("two-three-series", 2, 96,
          [("S-1", "C0ABCDEFGH1", "A01", SOME_ROWS), ("S-2", "A1234567890", "Z03", [(1, -1)]),
           ("S-3", "B0000000000", "A04", SOME_ROWS + [(96, 99000)])],
          two(cost(originals=ORIGINALS), cost("S-2", resource="A1234567890", business="Z03", pairs=[(1, "-0.001")]),
              cost("S-3", resource="B0000000000", business="A04", pairs=SOME + [(96, 99)], status=STATUS)))


def directions_and_areas():
    """Of each series its own, and 0 and 0 where it has none, whatever the series before has."""
    last = cost("S-2", pairs=[(1, 1)])
    last_row = ("S-2", "C0ABCDEFGH1", "A01", [(1, 1000)])
    taken("two-direction-then-none", 2, 96, [(*TWO_ROW, "A02"), last_row], two(cost(direction=DIRECTION), last))
    taken("two-area-then-none", 2, 96, [(*TWO_ROW, None, "10YDE-EON------1"), last_row], two(cost(area=CONNECTING), last))
    taken("two-none-then-both", 2, 96, [TWO_ROW, (*last_row, "A02", "10YDE-EON------1")],
          two(cost(), cost("S-2", pairs=[(1, 1)], direction=DIRECTION, area=CONNECTING)))
    shapes = (("A02", " A02", AREAS[1]), ("A01", "A01   ", AREAS[4]), (None, "", None), ("A02", "   A02 ", None), ("A02", "A02", AREAS[1]),
              (None, "", AREAS[0]), ("A01", "A01", AREAS[1]))
    taken("two-directions-and-areas", 2, 96,
          [(f"S-{i}", "C0ABCDEFGH1", "A01", [(1, i * 1000)], direction, area) for i, (direction, _, area) in enumerate(shapes, 1)],
          two(*(cost(f"S-{i}", pairs=[(1, i)], direction=f'<Direction v="{said}"/>\n' if direction else "",
                     area=f'<ConnectingArea v="{area}" codingScheme="A01"/>\n' if area else "")
                for i, (direction, said, area) in enumerate(shapes, 1))))
    taken("two-direction-spaces", 2, 96, [(*TWO_ROW, "A01")], two(cost(direction='<Direction v="    A01  "/>\n')))
    taken("two-direction-spaces-single-quotes", 2, 96, [(*TWO_ROW, "A02")], two(cost(direction="<Direction\n v = '  A02' ></Direction>\n")))
    taken("two-area-after-its-scheme", 2, 96, [(*TWO_ROW, None, AREAS[4])],
          two(cost(area=f"<ConnectingArea codingScheme=' A01 ' v='{AREAS[4]}'/>\n")))
    into, out = '<InArea v="10YDE-VE-------2"', '<OutArea v="10YDE-RWENET---I"'
    row = ("T-1", "11XINVENTED-IN-A", "A02", first_rows(96), None)
    taken("one-areas-alike", 1, 96, [(*row, "10YDE-VE-------2")],
          edited(one(schedule(first(96))), (out, '<OutArea v="10YDE-VE-------2"')))
    taken("one-areas-exchanged", 1, 96, [(*row, "10YDE-RWENET---I")],
          edited(one(schedule(first(96))), (out, '<OutArea v="10YDE-VE-------2"'), (into, '<InArea v="10YDE-RWENET---I"')))
    taken("one-areas-of-two-series", 1, 96, [(*row, "10YDE-VE-------2"), ("T-2", *row[1:], "10YFLENSBURG---3")],
          one(schedule(first(96)), edited(schedule(first(96), "T-2"), (into, '<InArea v="10YFLENSBURG---3"'))))


def accepted_values():
    rows = [(f"S-{i}", "C0ABCDEFGH1", code, [(1, 1000)], f"A0{i % 2 + 1}", AREAS[i])
            for i, code in enumerate(("A01", "A04", "Z01", "Z02", "Z03"))]
    taken("two-every-code", 2, 96, rows, edited(two(*(
        cost(f"S-{i}", business=rows[i][2], pairs=[(1, 1)], direction=f'<Direction v="{rows[i][4]}"/>', unit=f"Z0{i % 3 + 1}",
             area=f'<ConnectingArea v="{rows[i][5]}" codingScheme="A01"/>', status=f'<Status v="Z0{i + 1}"/>') for i in range(5))),
        ('<SenderRole v="A27"/>', '<SenderRole v="A39"/>'), ('<ReceiverRole v="A39"/>', '<ReceiverRole v="A18"/>'),
        ('000016" codingScheme="A10"', '000016" codingScheme="NDE"'), ('000023" codingScheme="NDE"', '000023" codingScheme="A10"'),
        ('<DocumentVersion v="3"/>', '<DocumentVersion v="999"/>')).replace('000030" codingScheme="A10"', '000030" codingScheme="NDE"'))
    amounts = [("-0", 0), ("-0.001", -1), ("999999999999.999", 999999999999999), ("-999999999999.999", -999999999999999),
               ("000000000000", 0), ("007", 7000), ("-0.000", 0), ("  12.34 ", 12340), ("0.1", 100), ("-1.20", -1200),
               ("4294967.296", 4294967296), ("000000000001.050", 1050)]
    taken("two-amounts", 2, 96, [("S-1", "C0ABCDEFGH1", "A01", [(i + 1, amount) for i, (_, amount) in enumerate(amounts)])],
          two(cost(pairs=[(i + 1, text) for i, (text, _) in enumerate(amounts)])))
    taken("two-business-spaces", 2, 96, [("S-1", "C0ABCDEFGH1", "A04", SOME_ROWS)], two(cost(business="   A04  ")))
    taken("two-spaces-dropped", 2, 96, [ALL_ROW], edited(ALL_TWO, *(
        (f'v="{value}"', f'v="  {value} "') for value in (
            "3", "Z05", "A14", "A27", "A39", "2024-05-06T07:08:09Z", "8716867000016", "A03", "2024-05-05T10:11:12Z", "PT15M",
            "1", "5", "10.5", "-3.25")),
        ('<BusinessType v="A01"/>', '<BusinessType v=" A01"/>'), ('<Direction v="A02"/>', '<Direction v="A02 "/>'),
        ('<MeasurementUnit v="Z02"/>', '<MeasurementUnit v=" Z02 "/>'), ('<Status v="Z02"/>', '<Status v=" Z02"/>'),
        ('codingScheme="A01"', 'codingScheme=" A01 "'), ('000047" codingScheme="NDE"', '000047" codingScheme=" NDE"'),
        ('FGH1" codingScheme="NDE"', 'FGH1" codingScheme="NDE  "')))
    taken("two-id-empty", 2, 96, [("", "C0ABCDEFGH1", "A01", SOME_ROWS)],
          edited(two(cost("")), ('<DocumentIdentification v="D-1"/>', '<DocumentIdentification v=""/>')))
    taken("two-id-35", 2, 96, [(35 * "x", "C0ABCDEFGH1", "A01", SOME_ROWS)], two(cost(35 * "x")))
    taken("two-id-umlauts-20", 2, 96, [(20 * "ä", "C0ABCDEFGH1", "A01", SOME_ROWS)], two(cost(20 * "ä")))
    taken("two-id-four-bytes-35", 2, 96, [(35 * "\U0001f4a1", "C0ABCDEFGH1", "A01", SOME_ROWS)], two(cost(35 * "\U0001f4a1")))
    odd = "\x7f\x80\x85\u07ff\u0800\ud7ff\ue000\ufffd\U00010000\U0001fffe\U0010ffff"
    taken("two-id-edge-characters", 2, 96, [(odd, "C0ABCDEFGH1", "A01", SOME_ROWS)], two(cost(odd)))
    taken("two-ids-by-bytes", 2, 96, [(i, "C0ABCDEFGH1", "A01", [(1, 1000)]) for i in ("s-1", "S-1", " S-1", "S-1 ", "ä", "a\u0308")],
          edited(two(*(cost(i, pairs=[(1, 1)]) for i in ("s-1", "S-1", " S-1", "S-1 ", "ä", "a\u0308"))), ('v="D-1"', 'v="S-1"')))
    taken("two-original-ids-as-they-are", 2, 96, [ALL_ROW], edited(
        ALL_TWO, ('"OD-7"', '" %s "' % (33 * "ß")), ('"OS-7"', '""'), ('"D-1"', '"  D"'),
        ('000047" codingScheme="NDE"', '000047" codingScheme="A10"'),
        ('<OriginalDocumentVersion v="7"/>', '<OriginalDocumentVersion v="999"/>')))


def accepted_items():
    taken("two-no-declaration", 2, 96, [TWO_ROW], TWO.replace(DECLARED, ""))
    for name, declaration in (
            ("bom", "\ufeff"), ("bom-declaration", "\ufeff" + DECLARED), ("declaration-version-only", '<?xml version="1.0"?>'),
            ("declaration-mixed-quotes", "<?xml version='1.0' encoding=\"uTf-8\"?>"),
            ("declaration-white", "<?xml\r\n\tversion =\n'1.0'\tencoding= 'utf-8'  ?>\r\n"),
            ("comment-first", "<!-- ä & ]]> < -->\n<!----><!--->-->")):
        taken("two-" + name, 2, 96, [TWO_ROW], TWO.replace(DECLARED, declaration))
    taken("two-single-quotes", 2, 96, [ALL_ROW], ALL_TWO.replace('"', "'"))
    taken("two-attributes-turned", 2, 96, [ALL_ROW], re.sub(r'( v="[^"]*")( codingScheme=)"([^"]*)"', r"\2'\3'\1", ALL_TWO))
    taken("two-quotes-in-values", 2, 96, [("it's > ]]> -->", "C0ABCDEFGH1", "A01", SOME_ROWS)],
          edited(two(cost("it's > ]]> -->")), ('v="D-1"', "v='\"D\"/>'")))
    taken("two-start-with-end", 2, 96, [ALL_ROW], re.sub(r"<(\w+)( [^>]*)/>", r"<\1\2></\1>", ALL_TWO))
    taken("two-text-in-leaves", 2, 96, [ALL_ROW], re.sub(r"<(\w+)( [^>]*)/>", "<\\1\\2>\r\n<!-- \\1 -->\t</\\1 \n>", ALL_TWO))
    taken("two-white-in-tags", 2, 96, [ALL_ROW],
          re.sub(r"<(/?\w+)>", "<\\1\r\n>", re.sub(r' (\w+)=("[^"]*")', "\r\n\t\\1 \t=\n \\2 ", ALL_TWO[len(DECLARED):])))
    taken("two-comments-everywhere", 2, 96, [ALL_ROW],
          re.sub("\n", '<!-- Qty v="1" & <Pos> ]]> Größe - -->\t\r\n', ALL_TWO[len(DECLARED):]))
    taken("two-after-root", 2, 96, [TWO_ROW], TWO + "<!-- after -->\r\n\t <!---->")
    taken("two-65535-bytes", 2, 96, [TWO_ROW], TWO + "<!--" + (65_535 - 7 - len(TWO)) * "&" + "-->")
    taken("two-root-namespaces", 2, 96, [TWO_ROW], edited(TWO, (START_2, (
        '<Kostenblatt xmlns="urn:x" xmlns:xsi=\'urn:"y\' DtdBDEWNachrichtenVersion="1.0" xsi:schemaLocation="ä b" xsi:="" xmlns:="">'))))
    taken("two-root-many-namespaces", 2, 96, [TWO_ROW], edited(TWO, (START_2, START_2.replace(">", MANY + ">"))))


# ---------------------------------------------------------------- Accepted, kind 1

def accepted_one():
    area = (None, "10YDE-VE-------2")

    def row(count):
        return [("T-1", "11XINVENTED-IN-A", "A02", first_rows(count), *area)]
    taken("one-plain", 1, 96, row(96), one(schedule(first(96))))
    taken("one-all-optional", 1, 96, row(96), one(schedule(first(96), originals=ORIGINALS)))
    taken("one-92", 1, 92, row(92), one(schedule(first(92), period=SPRING), period=SPRING))
    taken("one-100", 1, 100, row(100), one(schedule(first(100), period=AUTUMN), period=AUTUMN))
    for name, day in (("one-23-to-23", "2023-12-31T23:00Z/2024-01-01T23:00Z"), ("one-to-29-february", "2024-02-28T23:00Z/2024-02-29T23:00Z"),
                      ("one-first-day", "2000-01-01T23:00Z/2000-01-02T23:00Z"), ("one-last-day", "2099-12-30T23:00Z/2099-12-31T23:00Z"),
                      ("one-before-march-sunday", "2024-03-29T23:00Z/2024-03-30T23:00Z"), ("one-after-march-sunday", "2024-03-31T22:00Z/2024-04-01T22:00Z"),
                      ("one-before-october-sunday", "2024-10-25T22:00Z/2024-10-26T22:00Z"), ("one-after-october-sunday", "2024-10-27T23:00Z/2024-10-28T23:00Z")):
        taken(name, 1, 96, row(96), one(schedule(first(96), period=day), period=day))
    taken("one-two-series", 1, 96, row(96) + [("T-2", "11XINVENTED-IN-A", "A02", first_rows(96), *area)],
          one(schedule(first(96)), schedule(first(96), "T-2", originals=ORIGINALS)))
    taken("one-negative", 1, 96, [("T-1", "11XINVENTED-IN-A", "A02", [(1, -500)] + first_rows(96)[1:], *area)],
          edited(one(schedule(first(96))), ('<Qty v="0.5"/>', '<Qty v="-0.5"/>')))
    taken("one-spaces-dropped", 1, 96, row(96), edited(one(schedule(first(96), originals=ORIGINALS)), *(
        (f'v="{value}"', f'v="  {value} "') for value in (
            "Z07", "A14", "A18", "A39", "2024-05-06T07:08:09Z", "A02", "8716867000016", "MAW", "2024-05-05T10:11:12Z", "PT15M",
            "1", "96", "0.5", "95.5")), ('<DocumentVersion v="3"/>', '<DocumentVersion v=" 3"/>'),
        ('000016" codingScheme="A10"', '000016" codingScheme=" A10 "'),
        ('OUT9" codingScheme="A01"', 'OUT9" codingScheme="A01 "'), ('IN-A" codingScheme="A01"', 'IN-A" codingScheme=" A01"')))
    taken("one-every-code", 1, 96, [(f"T-{i}", "11XINVENTED-IN-A", "A02", first_rows(96), None, AREAS[i]) for i in range(5)], edited(one(*(
        schedule(first(96), f"T-{i}").replace("10YDE-VE-------2", AREAS[i]).replace("10YDE-RWENET---I", AREAS[4 - i]) for i in range(5))),
        ('<SenderRole v="A18"/>', '<SenderRole v="A39"/>'), ('<ReceiverRole v="A39"/>', '<ReceiverRole v="A18"/>'),
        ('000016" codingScheme="A10"', '000016" codingScheme="NDE"'), ('000023" codingScheme="NDE"', '000023" codingScheme="A10"')))
    taken("one-compact-single-quotes", 1, 96, row(96), one(schedule(first(96))).replace("\n", "").replace('"', "'"))


# ---------------------------------------------------------------- Accepted, kind 3

def accepted_three():
    def good(name, rows, text, n=96):
        taken("three-" + name, 3, n, rows, text)
    good("plain", THREE_ROWS, THREE)
    good("all-optional", [three_row()], ALL_THREE)
    good("no-series", [], three())
    good("no-series-doc-status", [], three(status=DOC_STATUS))
    good("doc-status-one-a77", [three_row()], three(constraint(), status=DOC_STATUS))
    good("doc-status-one-b59", [sensitivity_row()], three(sensitivity(), status=DOC_STATUS))
    other = three_row("N-3", direction="A02")
    good("two-a77", [three_row(), other, sensitivity_row()], three(constraint(), constraint("N-3", direction="A02"), sensitivity()))
    good("two-a77-turned", [other, three_row(), sensitivity_row()], three(constraint("N-3", direction="A02"), constraint(), sensitivity()))
    good("b59-between", [three_row(), sensitivity_row(), other], three(constraint(), sensitivity(), constraint("N-3", direction="A02")))
    good("b59-first", [sensitivity_row(), three_row()], three(sensitivity(), constraint()))
    good("b59-of-other-direction-between", [three_row(), sensitivity_row(direction="A02"), other],
         three(constraint(), sensitivity(direction="A02"), constraint("N-3", direction="A02")))
    good("many-b59", [three_row(), *(sensitivity_row(f"B-{i}") for i in range(9)), other, sensitivity_row()],
         three(constraint(), *(sensitivity(f"B-{i}") for i in range(9)), constraint("N-3", direction="A02"), sensitivity()))
    good("64-series", [sensitivity_row(f"B-{i}") for i in range(63)] + [three_row()], three(*(sensitivity(f"B-{i}") for i in range(63)), constraint()))
    for name, part in (("provider", PROVIDER), ("operator", OPERATOR), ("element", ELEMENT), ("provider-and-element", PROVIDER + ELEMENT),
                       ("operator-and-element", OPERATOR + ELEMENT)):
        good(name + "-only", THREE_ROWS, three(constraint(optional=part), sensitivity()))
    good("originals-only", THREE_ROWS, three(constraint(), sensitivity(originals=ORIGINALS)))
    good("compact", [three_row()], re.sub("\n", "", ALL_THREE))
    good("single-quotes", [three_row()], ALL_THREE.replace('"', "'"))
    good("start-with-end", [three_row()], re.sub(r"<(\w+)( [^>]*)/>", r"<\1\2><!-- \1 --></\1>", ALL_THREE))
    good("after-root", THREE_ROWS, THREE + "<!-- after -->\r\n\t <!---->")


def roots_of_three():
    for name, start in (
            ("no-message-version", '<NetworkConstraintDocument DtdVersion="4" DtdRelease="1">'),
            ("root-turned", '<NetworkConstraintDocument DtdBDEWNachrichtenVersion="1.1a" DtdRelease="1" DtdVersion="4">'),
            ("root-single-quotes", "<NetworkConstraintDocument\r\n DtdVersion = '4'\tDtdRelease='1' >"),
            ("root-namespaces", '<NetworkConstraintDocument xmlns="urn:x" DtdVersion="4" xsi:schemaLocation="ä b" DtdRelease="1" xmlns:xsi="y" xsi:="">'),
            ("root-many-namespaces", START_3.replace(">", MANY + ">"))):
        taken("three-" + name, 3, 96, THREE_ROWS, edited(THREE, (START_3, start)))


def counts_of_three():
    def good(name, count, n, period):
        taken("three-" + name, 3, n, [three_row(pairs=first_rows(count)), sensitivity_row(pairs=first_rows(1))],
              three(constraint(pairs=first(count), period=period), sensitivity(pairs=first(1), period=period), period=period))
    short, hour = "2024-05-06T00:07Z/2024-05-06T00:22Z", "2024-05-06T10:00Z/2024-05-06T11:00Z"
    year, two_days = "2024-01-01T00:00Z/2025-01-01T00:00Z", "2024-05-06T00:00Z/2024-05-08T00:00Z"
    good("one-interval", 1, 96, DAY)
    good("n-1", 1, 1, short)
    good("n-of-4", 4, 4, hour)
    good("3-of-4", 3, 4, hour)
    good("96-of-96", 96, 96, DAY)
    good("100-of-100", 100, 100, AUTUMN)
    good("100-of-192", 100, 192, two_days)
    good("n-35136", 100, 35136, year)
    good("99-of-35136", 99, 35136, "2023-01-01T00:00Z/2024-01-02T00:00Z")
    good("92-in-may", 92, 92, "2024-05-10T23:00Z/2024-05-11T22:00Z")
    good("last-year", 1, 1, "2099-12-31T23:30Z/2099-12-31T23:45Z")

    def full(name, refusal, count, due, period, mark):
        """Intervals that are counted up to count, of which the mark's one is refused."""
        text = three(constraint(pairs=first(count), period=period), sensitivity(period=period), period=period)
        refused("three-" + name, refusal, 3, 1, due, edited(text, (mark, MARK + mark)))
    full("5-of-4", 8, 5, 5, hour, '<Pos v="5"/>')
    full("2-of-1", 8, 2, 2, short, '<Pos v="2"/>')
    full("97-of-96", 8, 97, 97, DAY, '<Pos v="97"/>')
    full("100-of-96", 8, 100, 97, DAY, '<Pos v="97"/>')
    full("100-of-99", 8, 100, 100, "2024-05-06T00:00Z/2024-05-07T00:45Z", '<Pos v="100"/>')
    for name, period in (("100", AUTUMN), ("192", two_days), ("35136", year)):
        full("101-of-" + name, 3, 101, 100, period, '<Interval><Pos v="101"/>')
    refused("three-101-empty-tag", 3, 3, 1, 100, edited(
        three(constraint(pairs=first(100), period=AUTUMN), period=AUTUMN), ("</Period>", "@@<Interval/></Period>")))
    refused("three-intervals-none", 3, 3, 1, 0, edited(three(constraint(pairs=[]), sensitivity()), ("PT15M\"/>\n</Period>", "PT15M\"/>\n@@</Period>")))


def values_of_three():
    schemes, grid_schemes = ("A01", "A02", "NDE", "Z01"), ("A01", "A02", "Z01")
    rows = [three_row("N-0", area=AREAS[0]), three_row("N-1", direction="A02", area=AREAS[1]), sensitivity_row("N-2", area=AREAS[2]),
            sensitivity_row("N-3", "A02", area=AREAS[3]), sensitivity_row("N-4", area=AREAS[4])]
    texts = [constraint("N-0", area=AREAS[0], scheme=schemes[0], unit="C62"), constraint("N-1", direction="A02", area=AREAS[1], scheme=schemes[1]),
             *(sensitivity(f"N-{i}", f"A0{i % 2 + 1}", area=AREAS[i], scheme=(schemes * 2)[i], unit=("C62", "MAW", "C62")[i - 2],
                           optional=f'<GridElement v="NBM" codingScheme="{grid_schemes[i - 2]}"/>\n') for i in (2, 3, 4))]
    taken("three-every-code", 3, 96, rows, edited(three(*texts), ('<SenderRole v="A18"/>', '<SenderRole v="A39"/>'),
                                                 ('<ReceiverRole v="A39"/>', '<ReceiverRole v="A18"/>')))
    other = edited(OPERATOR, ('"A10"', '"NDE"')) + ELEMENT
    taken("three-party-schemes", 3, 96, [three_row(), sensitivity_row()], edited(
        three(constraint(optional=edited(PROVIDER, ('"NDE"', '"A10"')) + other), sensitivity()),
        ('000016" codingScheme="A10"', '000016" codingScheme="NDE"'), ('000023" codingScheme="NDE"', '000023" codingScheme="A10"')))
    for name, thing in (("empty", ""), ("36", 36 * "x"), ("umlauts-36", 36 * "ä"), ("four-bytes-36", 36 * "\U0001f4a1"),
                        ("spaces", "  NBM 17 "), ("small-letters", "d0abc/./x")):
        taken("three-object-" + name, 3, 96, [three_row(thing=thing), sensitivity_row()], three(constraint(thing=thing), sensitivity()))
        element = f'<GridElement codingScheme="A02" v="{thing}"/>\n'
        taken("three-element-" + name, 3, 96, THREE_ROWS, three(constraint(), sensitivity(optional=element)))
    amounts = [("-0", 0), ("-1", -1000), ("999999999999.999", 999999999999999), ("1.001", 1001), ("  12.34 ", 12340), ("000000000000", 0), ("-0.001", -1)]
    pairs, read_as = [(i, text) for i, (text, _) in enumerate(amounts, 1)], [(i, amount) for i, (_, amount) in enumerate(amounts, 1)]
    taken("three-amounts", 3, 96, [three_row(pairs=read_as), sensitivity_row(pairs=read_as)], three(constraint(pairs=pairs), sensitivity(pairs=pairs)))
    taken("three-spaces-dropped", 3, 96, [three_row()], edited(ALL_THREE, *(
        (f'v="{value}"', f'v="  {value} "') for value in (
            "3", "B15", "A14", "A18", "A39", "2024-05-06T07:08:09Z", "A13", "A77", "A01", "MAW", "2024-05-05T10:11:12Z", "PT15M", "1", "2", "10.5", "-3.25")),
        ('codingScheme="A01"/>\n<ResourceObject', 'codingScheme=" A01 "/>\n<ResourceObject'), ('NBM-17" codingScheme="A01"', 'NBM-17" codingScheme=" A01"'),
        ('codingScheme="Z01"', 'codingScheme="Z01  "'), ('000030" codingScheme="NDE"', '000030" codingScheme=" NDE "'),
        ('000054" codingScheme="A10"', '000054" codingScheme=" A10 "'), ('000016" codingScheme="A10"', '000016" codingScheme=" A10"')))
    taken("three-directions-spaced", 3, 96, [three_row(), three_row("N-3", direction="A02"), sensitivity_row()],
          three(constraint(direction="A01 "), constraint("N-3", business=" A77", direction="  A02"), sensitivity()))
    taken("three-ids", 3, 96, [three_row(""), sensitivity_row(35 * "ß")], edited(three(constraint(""), sensitivity(35 * "ß")), ('"D-1"', '""')))


# ---------------------------------------------------------------- Refused: short documents and the examples of 01

def short_documents():
    def short(name, refusal, text, kind=0):
        refused(name, refusal, kind, 0, 0, text)
    short("p1-empty", 3, "@@")
    short("p2-root-no-attribute", 5, "@@<Kostenblatt>")
    short("p3-root-empty-tag", 3, "@@<Kostenblatt/>")
    short("p4-root-alone", 3, '<Kostenblatt DtdBDEWNachrichtenVersion="1.0">@@', 2)
    short("p5-root-1-1", 6, '@@<Kostenblatt DtdBDEWNachrichtenVersion="1.1">')
    short("bom-alone", 3, "\ufeff@@")
    short("bom-half", 2, "@@\udcef\udcbb")
    short("bom-twice", 3, "\ufeff@@\ufeff" + START_2)
    short("bom-then-fault", 5, "\ufeff@@<Kostenblatt>")
    short("bom-after-declaration", 3, DECLARED.strip() + "@@\ufeff" + START_2)
    short("white-alone", 3, " \t\r\n@@")
    short("comment-alone", 3, "<!-- -->@@")
    short("root-end-first", 3, "@@" + END_2)
    short("root-other-name", 3, '\n@@<Kaskade DtdBDEWNachrichtenVersion="1.0">')
    short("root-small-letter", 3, '@@<kostenblatt DtdBDEWNachrichtenVersion="1.0">')
    short("root-prefixed", 3, '@@<bdew:Kostenblatt DtdBDEWNachrichtenVersion="1.0">')
    short("root-name-with-colons", 3, "@@<a:b:c/>")
    short("root-text-first", 3, "@@ x " + START_2)
    short("one-root-no-attribute", 5, "<!-- -->@@<Beschaffungsanforderung xmlns='1.0'>")
    short("one-root-space-1-0", 6, "@@<Beschaffungsanforderung DtdBDEWNachrichtenVersion='1.0 '>")
    short("one-root-alone", 3, START_1 + "@@", 1)
    short("root-space-1-0", 6, '@@<Kostenblatt DtdBDEWNachrichtenVersion=" 1.0">')
    short("root-empty-tag-complete", 3, "@@" + START_2.replace(">", "/>"))
    for name, attribute in (("xsi", "xsi"), ("xmlnsx", "xmlnsx"), ("xml-lang", "xml:lang"), ("v", "v"), ("upper-xmlns", "XMLNS:a")):
        short("root-unknown-" + name, 5, "@@" + START_2.replace(">", f' {attribute}="1.0">'))
    short("root-xmlns-twice", 2, "@@" + START_2.replace(">", ' xmlns="a" xmlns="a">'))
    short("root-many-namespaces-one-twice", 2, "@@" + START_2.replace(">", MANY + " xmlns:a7=''>"))
    short("root-many-unknown", 5, "@@" + START_2.replace(">", MANY.replace("xmlns:a149", "xmlna:a149") + ">"))
    short("root-xsi-ampersand", 2, "@@" + START_2.replace(">", ' xsi:a="&amp">'))
    short("root-unknown-and-1-1", 5, "@@" + START_2.replace("1.0", "1.1").replace(">", ' w="">'))


def declarations():
    def wrong(name, declaration, text=START_2):
        refused("declaration-" + name, 2, 0, 0, 0, declaration + text)
    refused("declaration-alone", 3, 0, 0, 0, '<?xml version="1.0"?>@@')
    wrong("after-space", " @@" + DECLARED)
    wrong("after-comment", "<!-- -->@@" + DECLARED)
    wrong("twice", DECLARED.strip() + "@@" + DECLARED)
    wrong("after-bom-standalone", '\ufeff@@<?xml version="1.0" encoding="UTF-8" standalone="yes"?>')
    wrong("no-version", '@@<?xml encoding="UTF-8"?>')
    wrong("order", '@@<?xml encoding="UTF-8" version="1.0"?>')
    wrong("version-1-1", '@@<?xml version="1.1"?>')
    wrong("latin-1", '@@<?xml version="1.0" encoding="ISO-8859-1"?>')
    wrong("upper-names", '@@<?xml VERSION="1.0"?>')
    wrong("upper-xml", '@@<?XML version="1.0"?>')
    wrong("no-space", '@@<?xml version="1.0"encoding="UTF-8"?>')
    wrong("quotes-differ", "@@<?xml version=\"1.0'?>")
    wrong("cut", '@@<?xml version="1.0" encoding="UTF-8"?', "")


def unreadable_items():
    value = '@@<DocumentIdentification v="%s"/>'
    for name, text in (
            ("stylesheet", '@@<?xml-stylesheet href="a"?>'), ("doctype", "\n@@<!DOCTYPE Kostenblatt>"),
            ("cdata", "@@<![CDATA[ ]]>"), ("text-reference", "@@ &amp;\n"), ("text-other-and-ampersand", "@@abc &"),
            ("text-brackets", "@@ ]]> "), ("text-control", "@@ \x01"), ("text-latin-1", "@@ \udce4 "),
            ("text-cut-character", "@@\n\udce2\udc82"), ("value-ampersand", value % "a&b"), ("value-less-than", value % "a<b"),
            ("value-tab", value % "a\tb"), ("value-lf", value % "a\nb"), ("value-cr", value % "\r"), ("value-control", value % "\x1f"),
            ("value-fffe", value % "\ufffe"), ("value-surrogate", value % "\udced\udca0\udc80"),
            ("value-long-c1", value % "\udcc1\udcbf"),
            ("value-long-e0", value % "\udce0\udc9f\udcbf"), ("value-long-f0", value % "\udcf0\udc8f\udcbf\udcbf"),
            ("value-past-f4", value % "\udcf4\udc90\udc80\udc80"), ("value-f5", value % "\udcf5\udc80\udc80\udc80"),
            ("value-lone-80", value % "a\udc80"), ("value-lead-then-quote", value % "a\udcc3"),
            ("attribute-twice", '@@<DocumentIdentification v="a" v="b"/>'),
            ("attribute-twice-not-due", '@@<Qty a="1" v="1" a=\'2\'/>'),
            ("attribute-no-space", '@@<SenderIdentification v="a"codingScheme="A10"/>'),
            ("attribute-no-quotes", "@@<DocumentIdentification v=1/>"), ("attribute-no-value", "@@<DocumentIdentification v/>"),
            ("attribute-quotes-differ", "@@<DocumentIdentification v=\"1'/>"),
            ("name-colon-first", "@@<:a/>"), ("name-digit-first", "@@<1a/>"),
            ("name-umlaut", "@@<ä/>"), ("attribute-name-umlaut", '@@<DocumentIdentification v="1" ö="1"/>'),
            ("tag-space-first", "@@< DocumentIdentification v='1'/>"), ("tag-slash-space", "@@<DocumentIdentification v='1'/ >"),
            ("tag-cut", "\n@@<DocumentIdentification v='1'"),
            ("tag-only-less-than", "@@<"), ("end-tag-space-first", "@@</ Kostenblatt>"),
            ("end-tag-attribute", '@@</Kostenblatt v="1">'), ("end-tag-cut", "@@</Kostenblatt "),
            ("comment-dashes", "@@<!-- a -- b -->"), ("comment-three-dashes", "@@<!-- --->"), ("comment-cut", "@@<!-- a --"),
            ("comment-opened-and-closed", "@@<!-->"), ("comment-ffff", "@@<!-- \uffff -->"), ("comment-bad-utf-8", "@@<!-- \udcff -->")):
        after_root("item-" + name, 2, text)


def other_text():
    after_root("text-other", 3, "\n <!-- -->@@ x\n")
    after_root("text-no-break-space", 3, "@@\u00a0")
    after_root("text-white-then-other", 3, "@@ \t\r\nä")
    after_root("text-greater-than", 3, "@@]]\n>")
    after_root("text-in-leaf", 3, '<DocumentIdentification v="1">@@1</DocumentIdentification>')


# ---------------------------------------------------------------- Refused: the rows of kind 2

def rows_of_head():
    def fault(name, refusal, old, new):
        in_two("two-" + name, refusal, 0, 0, (old, new))
    fault("document-id-36", 6, '<DocumentIdentification v="D-1"/>', f'@@<DocumentIdentification v="{36 * "x"}"/>')
    fault("document-version-0", 6, '<DocumentVersion v="3"/>', '@@<DocumentVersion v="0"/>')
    fault("document-version-1000", 6, '<DocumentVersion v="3"/>', '@@<DocumentVersion v="1000"/>')
    fault("document-version-03", 6, '<DocumentVersion v="3"/>', '@@<DocumentVersion v="03"/>')
    fault("document-version-twice", 3, '<DocumentVersion v="3"/>', '<DocumentVersion v="3"/>@@<DocumentVersion v="3"/>')
    fault("document-type-of-one", 7, '<DocumentType v="Z05"/>', '@@<DocumentType v="Z07"/>')
    fault("document-type-late", 3, '<DocumentType v="Z05"/>\n<ProcessType v="A14"/>', '@@<ProcessType v="A14"/><DocumentType v="Z05"/>')
    fault("process-type-code", 7, '<ProcessType v="A14"/>', '@@<ProcessType v="a14"/>')
    fault("process-type-no-v", 5, '<ProcessType v="A14"/>', "@@<ProcessType/>")
    sender = '<SenderIdentification v="4012345000016" codingScheme="A10"/>'
    fault("sender-12-digits", 6, sender, '@@<SenderIdentification v="401234500001" codingScheme="A10"/>')
    fault("sender-other-digits", 6, sender, f'@@<SenderIdentification v="{13 * chr(0x663)}" codingScheme="A10"/>')
    fault("sender-scheme", 7, sender, '@@<SenderIdentification v="4012345000016" codingScheme="A01"/>')
    fault("sender-no-scheme", 5, sender, '@@<SenderIdentification v="4012345000016"/>')
    fault("sender-both-wrong", 6, sender, '@@<SenderIdentification codingScheme="A01" v="401234500001"/>')
    fault("sender-no-v-wrong-scheme", 5, sender, '@@<SenderIdentification codingScheme="A01"/>')
    fault("sender-role-code", 7, '<SenderRole v="A27"/>', '@@<SenderRole v="A21"/>')
    fault("sender-role-unknown-attribute", 5, '<SenderRole v="A27"/>', '@@<SenderRole v="A27" codingScheme="A10"/>')
    receiver = '<ReceiverIdentification v="4012345000023" codingScheme="NDE"/>'
    fault("receiver-14-digits", 6, receiver, '@@<ReceiverIdentification v="40123450000230" codingScheme="NDE"/>')
    fault("receiver-space", 6, receiver, '@@<ReceiverIdentification v="4012345000023 " codingScheme="NDE"/>')
    fault("receiver-scheme-empty", 7, receiver, '@@<ReceiverIdentification v="4012345000023" codingScheme=""/>')
    fault("receiver-role-of-sender", 7, '<ReceiverRole v="A39"/>', '@@<ReceiverRole v="A27"/>')
    fault("receiver-role-twice", 3, '<ReceiverRole v="A39"/>', '<ReceiverRole v="A39"/>@@<ReceiverRole v="A39"/>')
    for name, value in (("no-seconds", "2024-05-06T07:08Z"), ("second-60", "2024-05-06T07:08:60Z"), ("hour-24", "2024-05-06T24:00:00Z"),
                        ("29-february-2023", "2023-02-29T07:08:09Z"), ("month-13", "2024-13-06T07:08:09Z"),
                        ("day-0", "2024-05-00T07:08:09Z"),
                        ("minute-60", "2024-05-06T07:60:09Z"), ("no-z", "2024-05-06T07:08:09"), ("year-1999", "1999-05-06T07:08:09Z")):
        fault("date-time-" + name, 6, '<DocumentDateTime v="2024-05-06T07:08:09Z"/>', f'@@<DocumentDateTime v="{value}"/>')
    for name, refusal, value in (
            ("seconds", 6, "2024-05-06T22:00:00Z/2024-05-07T22:00:00Z"), ("space", 6, DAY + " "), ("one-time", 6, "2024-05-06T22:00Z"),
            ("end-2100", 6, "2099-12-31T00:00Z/2100-01-01T00:00Z"), ("31-june", 6, "2024-06-30T00:00Z/2024-06-31T00:00Z"),
            ("end-before-start", 8, "2024-05-07T22:00Z/2024-05-06T22:00Z"), ("no-length", 8, "2024-05-06T22:00Z/2024-05-06T22:00Z"),
            ("20-minutes", 8, "2024-05-06T22:00Z/2024-05-06T22:20Z"), ("over-366-days", 8, "2024-01-01T00:00Z/2025-01-01T00:15Z")):
        fault("period-covered-" + name, refusal, f'<TimePeriodCovered v="{DAY}"/>', f'@@<TimePeriodCovered v="{value}"/>')
    covered = f'<TimePeriodCovered v="{DAY}"/>'
    fault("period-covered-twice", 3, covered, covered + "@@" + covered)
    fault("series-attribute", 5, "<CostTimeSeries>", '@@<CostTimeSeries v="">')
    fault("series-empty-tag", 3, "<CostTimeSeries>", "@@<CostTimeSeries/>")
    fault("series-of-one", 3, "<CostTimeSeries>", "@@<ScheduleTimeSeries>")
    refused("two-series-missing", 3, 2, 0, 0, two().replace(END_2, "@@" + END_2))


def rows_of_series():
    def fault(name, refusal, old, new):
        in_two("two-" + name, refusal, 1, 0, (old, new))
    fault("series-id-36", 6, '<TimeSeriesIdentification v="S-1"/>', f'@@<TimeSeriesIdentification v="{36 * "ä"}"/>')
    fault("series-id-xmlns", 5, '<TimeSeriesIdentification v="S-1"/>', '@@<TimeSeriesIdentification v="S-1" xmlns="urn:x"/>')
    fault("business-type-of-one", 7, '<BusinessType v="A01"/>', '@@<BusinessType v="A02"/>')
    fault("business-type-space-inside", 7, '<BusinessType v="A01"/>', '@@<BusinessType v="A 01"/>')
    fault("business-type-no-v", 5, '<BusinessType v="A01"/>', '@@<BusinessType V="A01"/>')
    fault("direction-code", 7, DIRECTION, '@@<Direction v="A03"/>\n')
    fault("direction-twice", 3, DIRECTION, DIRECTION + "@@" + DIRECTION)
    fault("direction-late", 3, DIRECTION + '<Product v="8716867000016"/>', '<Product v="8716867000016"/>@@' + DIRECTION)
    fault("product-code", 7, '<Product v="8716867000016"/>', '@@<Product v="8716867000017"/>')
    fault("area-lost-dash", 7, CONNECTING, '@@<ConnectingArea v="10YDE-EON-----1" codingScheme="A01"/>')
    fault("area-space", 7, CONNECTING, '@@<ConnectingArea v=" 10YDE-EON------1" codingScheme="A01"/>')
    fault("area-scheme", 7, CONNECTING, '@@<ConnectingArea v="10YDE-EON------1" codingScheme="NDE"/>')
    fault("area-no-scheme", 5, CONNECTING, '@@<ConnectingArea v="10YDE-EON------1"/>')
    thing = '<ResourceObject v="C0ABCDEFGH1" codingScheme="NDE"/>\n'
    fault("object-d", 6, thing, '@@<ResourceObject v="D0ABCDEFGH1" codingScheme="NDE"/>')
    fault("object-letter-last", 6, thing, '@@<ResourceObject v="C0ABCDEFGHI" codingScheme="NDE"/>')
    fault("object-small-letter", 6, thing, '@@<ResourceObject v="C0ABcDEFGH1" codingScheme="NDE"/>')
    fault("object-scheme", 7, thing, '@@<ResourceObject v="C0ABCDEFGH1" codingScheme="A10"/>')
    fault("object-before-area", 3, CONNECTING + thing, thing + "@@" + CONNECTING)
    provider = '<ResourceProvider v="4012345000030" codingScheme="A10"/>\n'
    fault("provider-form", 6, provider, '@@<ResourceProvider v="401234500003X" codingScheme="A10"/>')
    fault("provider-scheme", 7, provider, '@@<ResourceProvider v="4012345000030" codingScheme="A01"/>')
    fault("curve-type-code", 7, '<CurveType v="A03"/>', '@@<CurveType v="A01"/>')
    fault("curve-type-unknown-attribute", 5, '<CurveType v="A03"/>', '@@<CurveType v="A03" w="A03"/>')
    fault("unit-of-one", 7, '<MeasurementUnit v="Z02"/>', '@@<MeasurementUnit v="MAW"/>')
    fault("unit-twice", 3, '<MeasurementUnit v="Z02"/>', '<MeasurementUnit v="Z02"/>@@<MeasurementUnit v="Z02"/>')
    fault("status-code", 7, STATUS, '@@<Status v="Z06"/>')
    fault("status-late", 3, STATUS + ORIGINALS, ORIGINALS + "@@" + STATUS)


def rows_of_originals():
    def fault(name, refusal, old, new):
        in_two("two-original-" + name, refusal, 1, 0, (old, new))
    sender = '<OriginalSenderIdentification v="4012345000047" codingScheme="NDE"/>'
    fault("sender-space", 6, sender, '@@<OriginalSenderIdentification v=" 4012345000047" codingScheme="NDE"/>')
    fault("sender-scheme", 7, sender, '@@<OriginalSenderIdentification v="4012345000047" codingScheme="A01"/>')
    fault("sender-no-scheme", 5, sender, '@@<OriginalSenderIdentification v="4012345000047"/>')
    fault("sender-misspelt", 3, sender, '@@<OriginalSenderIdIdentification v="4012345000047" codingScheme="NDE"/>')
    fault("document-id-36", 6, '<OriginalDocumentIdentification v="OD-7"/>', f'@@<OriginalDocumentIdentification v="{36 * "x"}"/>')
    fault("version-space", 6, '<OriginalDocumentVersion v="7"/>', '@@<OriginalDocumentVersion v=" 7"/>')
    fault("version-twice", 3, '<OriginalDocumentVersion v="7"/>', '<OriginalDocumentVersion v="7"/>@@<OriginalDocumentVersion v="7"/>')
    fault("date-time-no-seconds", 6, '<OriginalDocumentDateTime v="2024-05-05T10:11:12Z"/>',
          '@@<OriginalDocumentDateTime v="2024-05-05T10:11Z"/>')
    fault("series-id-36", 6, '<OriginalTimeSeriesIdentification v="OS-7"/>', f'@@<OriginalTimeSeriesIdentification v="{36 * "y"}"/>')
    fault("series-id-first", 3, sender, '<OriginalTimeSeriesIdentification v="OS-8"/>@@' + sender)
    fault("only-one", 8, ORIGINALS + "<Period>", sender + "\n@@<Period>")
    in_two("two-original-one-missing", 8, 1, 0, ('<OriginalDocumentVersion v="7"/>\n', ""), ("<Period>", "@@<Period>"))
    in_two("two-original-one-missing-attribute", 5, 1, 0, ('<OriginalDocumentVersion v="7"/>\n', ""), ("<Period>", '@@<Period v="1">'))
    in_two("two-original-one-missing-empty-tag", 3, 1, 0, ('<OriginalDocumentVersion v="7"/>\n', ""), ("<Period>", "@@<Period/>"))


def rows_of_period():
    def fault(name, refusal, intervals, old, new):
        in_two("two-" + name, refusal, 1, intervals, (old, new))
    fault("period-attribute", 5, 0, "<Period>", '@@<Period x="">')
    fault("period-empty-tag", 3, 0, "<Period>", "@@<Period/>")
    refused("two-period-missing", 3, 2, 1, 0, re.sub("(?s)<Period>.*</Period>\n", "@@", ALL_TWO))
    fault("period-twice", 3, 2, "</Period>\n", "</Period>\n@@<Period>\n")
    fault("time-interval-form", 6, 0, f'<TimeInterval v="{DAY}"/>', f'@@<TimeInterval v="{DAY[:-1]}"/>')
    fault("time-interval-differs", 8, 0, f'<TimeInterval v="{DAY}"/>', '@@<TimeInterval v="2024-05-06T22:00Z/2024-05-07T21:45Z"/>')
    fault("resolution-pt1h", 8, 0, '<Resolution v="PT15M"/>', '@@<Resolution v="PT1H"/>')
    fault("resolution-pt900s", 8, 0, '<Resolution v="PT15M"/>', '@@<Resolution v="PT900S"/>')
    fault("resolution-empty", 8, 0, '<Resolution v="PT15M"/>', '@@<Resolution v=""/>')
    fault("resolution-no-v", 5, 0, '<Resolution v="PT15M"/>', "@@<Resolution/>")
    fault("resolution-twice", 3, 0, '<Resolution v="PT15M"/>', '<Resolution v="PT15M"/>@@<Resolution v="PT15M"/>')
    refused("two-intervals-none", 3, 2, 1, 0, re.sub("(?s)<Interval>.*</Interval>\n", "@@", ALL_TWO))
    one_of_two = '<Interval><Pos v="5"/>'
    fault("interval-attribute", 5, 1, one_of_two, '@@<Interval v="5"><Pos v="5"/>')
    fault("interval-empty-tag", 3, 1, one_of_two, '@@<Interval/>' + one_of_two)
    fault("interval-nothing-in-it", 3, 2, one_of_two, '<Interval>@@</Interval>')
    for name, value in (("0", "0"), ("100000", "100000"), ("05", "05"), ("minus", "-5"), ("empty", ""), ("space-inside", "1 0")):
        fault("pos-" + name, 6, 2, '<Pos v="5"/>', f'@@<Pos v="{value}"/>')
    fault("pos-first-2", 8, 1, '<Pos v="1"/>', '@@<Pos v="2"/>')
    fault("pos-again", 8, 2, '<Pos v="5"/>', '@@<Pos v="1"/>')
    fault("pos-over-n", 8, 2, '<Pos v="5"/>', '@@<Pos v="97"/>')
    fault("pos-99999", 8, 2, '<Pos v="5"/>', '@@<Pos v="99999"/>')
    fault("pos-wrong-unknown-attribute", 5, 2, '<Pos v="5"/>', '@@<Pos v="1" w="1"/>')
    fault("pos-missing", 3, 2, '<Pos v="5"/>', "@@")
    fault("pos-twice", 3, 2, '<Pos v="5"/>', '<Pos v="5"/>@@<Pos v="6"/>')
    fault("pos-late", 3, 2, '<Pos v="5"/><Qty v="-3.25"/>', '@@<Qty v="-3.25"/><Pos v="5"/>')
    in_two("two-pos-falls", 8, 1, 3, ("</Period>", '<Interval>@@<Pos v="4"/><Qty v="1"/></Interval>\n</Period>'))
    for name, value in (("point-last", "5."), ("point-first", ".5"), ("plus", "+5"), ("four-places", "1.0000"),
                        ("13-digits", "1234567890123"), ("13-zeros", "0000000000000"), ("empty", ""), ("comma", "1,5"), ("minus-only", "-"),
                        ("exponent", "1e3"), ("two-minus", "--1"), ("space-inside", "- 1"), ("other-digits", "\u0661")):
        fault("qty-" + name, 6, 2, '<Qty v="-3.25"/>', f'@@<Qty v="{value}"/>')
    fault("qty-missing", 3, 2, '<Qty v="-3.25"/>', "@@")
    fault("qty-twice", 3, 2, '<Qty v="-3.25"/>', '<Qty v="-3.25"/>@@<Qty v="-3.25"/>')
    fault("qty-no-v", 5, 2, '<Qty v="-3.25"/>', "@@<Qty/>")


# ---------------------------------------------------------------- Refused: the rows of kind 1

def rows_of_one():
    def fault(name, refusal, series, intervals, old, new):
        in_one("one-" + name, refusal, series, intervals, (old, new))
    fault("document-id-twice", 3, 0, 0, '<DocumentIdentification v="D-1"/>',
          '<DocumentIdentification v="D-1"/>@@<DocumentIdentification v="D-1"/>')
    fault("document-version-form", 6, 0, 0, '<DocumentVersion v="3"/>', '@@<DocumentVersion v="3.0"/>')
    fault("document-type-of-two", 7, 0, 0, '<DocumentType v="Z07"/>', '@@<DocumentType v="Z05"/>')
    fault("sender-16-characters", 6, 0, 0, '<SenderIdentification v="4012345000016"', '@@<SenderIdentification v="4012345000016000"')
    fault("sender-role-of-two", 7, 0, 0, '<SenderRole v="A18"/>', '@@<SenderRole v="A27"/>')
    receiver = '<ReceiverIdentification v="4012345000023" codingScheme="NDE"/>'
    fault("receiver-no-v", 5, 0, 0, receiver, '@@<ReceiverIdentification codingScheme="NDE"/>')
    fault("receiver-role-early", 3, 0, 0, receiver + '\n<ReceiverRole v="A39"/>', '@@<ReceiverRole v="A39"/>\n' + receiver)
    fault("date-time-day-31", 6, 0, 0, '<DocumentDateTime v="2024-05-06', '@@<DocumentDateTime v="2024-04-31')
    for name, refusal, value in (
            ("21-00", 8, "2024-05-06T21:00Z/2024-05-07T22:00Z"), ("22-15", 8, "2024-05-06T22:15Z/2024-05-07T22:15Z"),
            ("two-days", 8, "2024-05-06T22:00Z/2024-05-08T22:00Z"), ("same-date", 8, "2024-05-06T22:00Z/2024-05-06T23:00Z"),
            ("92-in-may", 8, "2024-05-10T23:00Z/2024-05-11T22:00Z"), ("100-in-may", 8, "2024-05-10T22:00Z/2024-05-11T23:00Z"),
            ("23-in-summer", 8, "2024-07-01T23:00Z/2024-07-02T23:00Z"), ("22-in-winter", 8, "2024-02-28T22:00Z/2024-02-29T22:00Z"),
            ("92-a-week-early", 8, "2024-03-23T23:00Z/2024-03-24T22:00Z"), ("92-a-week-late", 8, "2024-04-06T23:00Z/2024-04-07T22:00Z"),
            ("100-a-week-early", 8, "2024-10-19T22:00Z/2024-10-20T23:00Z"), ("96-on-march-sunday", 8, "2024-03-30T23:00Z/2024-03-31T23:00Z"),
            ("96-on-october-sunday", 8, "2024-10-26T22:00Z/2024-10-27T22:00Z"), ("saturday-of-march", 8, "2024-03-29T23:00Z/2024-03-30T22:00Z"),
            ("29-february-2023", 6, "2023-02-28T23:00Z/2023-02-29T23:00Z"), ("end-2100", 6, "2099-12-31T23:00Z/2100-01-01T23:00Z")):
        fault("period-covered-" + name, refusal, 0, 0, f'<TimePeriodCovered v="{DAY}"/>', f'@@<TimePeriodCovered v="{value}"/>')
    fault("series-of-two", 3, 0, 0, "<ScheduleTimeSeries>", "@@<CostTimeSeries>")
    fault("series-attribute", 5, 0, 0, "<ScheduleTimeSeries>", '@@<ScheduleTimeSeries codingScheme="A01">')
    fault("series-id-no-v", 5, 1, 0, '<TimeSeriesIdentification v="T-1"/>', "@@<TimeSeriesIdentification/>")
    fault("business-type-of-two", 7, 1, 0, '<BusinessType v="A02"/>', '@@<BusinessType v="A01"/>')
    fault("direction", 3, 1, 0, '<Product v="8716867000016"/>', '@@<Direction v="A01"/>')
    fault("product-twice", 3, 1, 0, '<Product v="8716867000016"/>', '<Product v="8716867000016"/>@@<Product v="8716867000016"/>')
    into, out = '<InArea v="10YDE-VE-------2" codingScheme="A01"/>\n', '<OutArea v="10YDE-RWENET---I" codingScheme="A01"/>\n'
    fault("in-area-lost-dashes", 7, 1, 0, into, '@@<InArea v="10YDE-VE-----2" codingScheme="A01"/>')
    fault("out-area-scheme", 7, 1, 0, out, '@@<OutArea v="10YDE-RWENET---I" codingScheme="A10"/>')
    fault("out-area-first", 3, 1, 0, into + out, "@@" + out + into)
    taking, giving = '<InParty v="11XINVENTED-IN-A" codingScheme="A01"/>', '<OutParty v="11XINVENTED-OUT9" codingScheme="A01"/>'
    fault("in-party-17", 6, 1, 0, taking, '@@<InParty v="11XINVENTED-IN-A " codingScheme="A01"/>')
    fault("in-party-both-wrong", 6, 1, 0, taking, '@@<InParty v="11XINVENTED-IN-a" codingScheme="NDE"/>')
    fault("in-party-no-scheme", 5, 1, 0, taking, '@@<InParty v="11XINVENTED-IN-A"/>')
    fault("out-party-15", 6, 1, 0, giving, '@@<OutParty v="11XINVENTED-OUT" codingScheme="A01"/>')
    fault("out-party-scheme", 7, 1, 0, giving, '@@<OutParty v="11XINVENTED-OUT9" codingScheme="A01A"/>')
    fault("out-party-unknown-attribute", 5, 1, 0, giving, '@@<OutParty v="11XINVENTED-OUT9" codingScheme="A01" role="A01"/>')
    fault("unit-of-two", 7, 1, 0, '<MeasurementUnit v="MAW"/>', '@@<MeasurementUnit v="Z02"/>')
    fault("original-sender-form", 6, 1, 0, '<OriginalSenderIdentification v="4012345000047"', '@@<OriginalSenderIdentification v=""')
    fault("original-version-1000", 6, 1, 0, '<OriginalDocumentVersion v="7"/>', '@@<OriginalDocumentVersion v="1000"/>')
    fault("original-date-time-no-v", 5, 1, 0, '<OriginalDocumentDateTime v="2024-05-05T10:11:12Z"/>', "@@<OriginalDocumentDateTime/>")
    in_one("one-original-document-id-missing", 8, 1, 0, ('<OriginalDocumentIdentification v="OD-7"/>\n', ""), ("<Period>", "@@<Period>"))
    in_one("one-original-sender-missing", 8, 1, 0, (re.match("(?s).*?\n", ORIGINALS)[0], ""), ("<Period>", "@@<Period>"))
    fault("time-interval-later", 8, 1, 0, f'<TimeInterval v="{DAY}"/>', '@@<TimeInterval v="2024-05-06T22:15Z/2024-05-07T22:00Z"/>')
    fault("resolution-pt60m", 8, 1, 0, '<Resolution v="PT15M"/>', '@@<Resolution v="PT60M"/>')
    fault("pos-skips", 8, 1, 2, '<Pos v="2"/>', '@@<Pos v="3"/>')
    fault("pos-101", 8, 1, 2, '<Pos v="2"/>', '@@<Pos v="101"/>')
    fault("pos-100000", 6, 1, 2, '<Pos v="2"/>', '@@<Pos v="100000"/>')
    fault("qty-five-point", 6, 1, 2, '<Qty v="1.5"/>', '@@<Qty v="5."/>')
    scheme = 'codingScheme="X99"'
    for name, refusal, series, old, new in (
            ("document-id-36", 6, 0, '<DocumentIdentification v="D-1"', f'<DocumentIdentification v="{36 * "x"}"'),
            ("process-type-code", 7, 0, '<ProcessType v="A14"', '<ProcessType v="A15"'),
            ("sender-scheme", 7, 0, '<SenderIdentification v="4012345000016" codingScheme="A10"',
             '<SenderIdentification v="4012345000016" ' + scheme),
            ("receiver-form", 6, 0, '<ReceiverIdentification v="4012345000023"', '<ReceiverIdentification v="401234500002Z"'),
            ("receiver-scheme", 7, 0, receiver[:-2], '<ReceiverIdentification v="4012345000023" ' + scheme),
            ("receiver-role-code", 7, 0, '<ReceiverRole v="A39"', '<ReceiverRole v="A27"'),
            ("series-id-36", 6, 1, '<TimeSeriesIdentification v="T-1"', f'<TimeSeriesIdentification v="{36 * "x"}"'),
            ("product-code", 7, 1, '<Product v="8716867000016"', '<Product v="8716867000023"'),
            ("in-area-scheme", 7, 1, into[:-3], '<InArea v="10YDE-VE-------2" ' + scheme),
            ("out-area-space", 7, 1, '<OutArea v="10YDE-RWENET---I"', '<OutArea v="10YDE-RWENET---I "'),
            ("in-party-scheme", 7, 1, taking[:-2], '<InParty v="11XINVENTED-IN-A" ' + scheme),
            ("original-sender-scheme", 7, 1, '<OriginalSenderIdentification v="4012345000047" codingScheme="NDE"',
             '<OriginalSenderIdentification v="4012345000047" ' + scheme),
            ("original-document-id-36", 6, 1, '<OriginalDocumentIdentification v="OD-7"',
             f'<OriginalDocumentIdentification v="{36 * "ü"}"'),
            ("original-date-time-no-seconds", 6, 1, '<OriginalDocumentDateTime v="2024-05-05T10:11:12Z"',
             '<OriginalDocumentDateTime v="2024-05-05T10:11Z"'),
            ("original-series-id-36", 6, 1, '<OriginalTimeSeriesIdentification v="OS-7"',
             f'<OriginalTimeSeriesIdentification v="{36 * "x"}"'),
            ("time-interval-form", 6, 1, f'<TimeInterval v="{DAY}"', f'<TimeInterval v=" {DAY}"')):
        fault(name, refusal, series, 0, old, MARK + new)
    fault("period-ends-at-2", 3, 1, 2, '<Qty v="1.5"/></Interval>\n', '<Qty v="1.5"/></Interval>\n@@</Period>')


def counts_of_one():
    def counted(name, refusal, count, period):
        """Some intervals, and the mark at the end tag of Period."""
        text = one(schedule(first(count), period=period), period=period)
        refused("one-" + name, refusal, 1, 1, count, edited(text, ("</Period>", "@@</Period>")))
    counted("91-of-92", 3, 91, SPRING)
    counted("91-of-96", 3, 91, DAY)
    counted("95-of-96", 8, 95, DAY)
    counted("92-of-100", 8, 92, AUTUMN)
    counted("99-of-100", 8, 99, AUTUMN)
    refused("one-93-of-92", 8, 1, 1, 93, one(schedule(first(93), period=SPRING), period=SPRING).replace('<Pos v="93"/>', '@@<Pos v="93"/>'))
    refused("one-97-of-96", 8, 1, 1, 97, one(schedule(first(97))).replace('<Pos v="97"/>', '@@<Pos v="97"/>'))
    refused("one-101-of-100", 3, 1, 1, 100, one(schedule(first(101), period=AUTUMN), period=AUTUMN).replace(
        '<Interval><Pos v="101"/>', '@@<Interval><Pos v="101"/>'))


# ---------------------------------------------------------------- Refused: the rows of kind 3

def starts_of_three():
    def short(name, refusal, text, kind=0):
        refused("three-root-" + name, refusal, kind, 0, 0, text)

    def attributes(name, refusal, text):
        short(name, refusal, f"@@<NetworkConstraintDocument{text}>")
    short("alone", 3, '<NetworkConstraintDocument DtdVersion="4" DtdRelease="1">@@', 3)
    short("alone-message", 3, START_3 + "@@", 3)
    short("end-at-once", 3, START_3 + "@@" + END_3, 3)
    short("small-letter", 3, "@@" + START_3.replace("<N", "<n"))
    short("empty-tag", 3, "@@" + START_3.replace(">", "/>"))
    short("empty-tag-bare", 3, "@@<NetworkConstraintDocument/>")
    attributes("no-attribute", 5, "")
    attributes("no-version", 5, ' DtdRelease="1" DtdBDEWNachrichtenVersion="1.1a"')
    attributes("no-release", 5, ' DtdVersion="4" DtdBDEWNachrichtenVersion="1.1a"')
    attributes("no-release-other-version", 5, ' DtdVersion="5"')
    attributes("message-alone", 5, ' DtdBDEWNachrichtenVersion="1.1a"')
    attributes("of-two", 5, ' DtdBDEWNachrichtenVersion="1.0"')
    attributes("unknown", 5, ' DtdVersion="4" DtdRelease="1" v="4"')
    attributes("unknown-and-other-release", 5, ' DtdVersion="4" DtdRelease="2" dtdRelease="1"')
    attributes("xsi", 5, ' DtdVersion="4" DtdRelease="1" xsi="4"')
    attributes("version-twice", 2, ' DtdVersion="4" DtdRelease="1" DtdVersion="4"')
    for name, old, new in (("version-5", '"4"', '"5"'), ("version-space", '"4"', '" 4"'), ("version-empty", '"4"', '""'), ("version-4-0", '"4"', '"4.0"'),
                           ("release-2", '"1"', '"2"'), ("release-space", '"1"', '"1 "'), ("release-empty", '"1"', '""'), ("release-01", '"1"', '"01"'),
                           ("message-empty", '"1.1a"', '""'), ("message-1-0", '"1.1a"', '"1.0"'), ("message-1-1", '"1.1a"', '"1.1"'),
                           ("message-space", '"1.1a"', '"1.1a "'), ("message-upper", '"1.1a"', '"1.1A"')):
        short(name, 6, "@@" + edited(START_3, (old, new)))
    for name, refusal, old, new in (("no-version", 5, ' DtdVersion="4"', ""), ("no-release", 5, ' DtdRelease="1"', ""), ("other-version", 6, '"4"', '"3"'),
                                    ("other-release", 6, '"1"', '"0"'), ("other-message", 6, "1.1a", "1.1")):
        refused("three-whole-" + name, refusal, 0, 0, 0, edited(THREE, (START_3, MARK + edited(START_3, (old, new)))))
    for kind, start in (("one", START_1), ("two", START_2)):
        for name, attribute in (("version", 'DtdVersion="4"'), ("release", 'DtdRelease="1"')):
            refused(f"{kind}-root-dtd-{name}", 5, 0, 0, 0, "@@" + start.replace(">", f" {attribute}>"))


def head_of_three():
    def fault(name, refusal, old, new):
        in_three(name, refusal, 0, 0, (old, new))
    fault("document-id-36", 6, '<DocumentIdentification v="D-1"/>', f'@@<DocumentIdentification v="{36 * "x"}"/>')
    fault("document-version-0", 6, '<DocumentVersion v="3"/>', '@@<DocumentVersion v="0"/>')
    fault("document-version-dtd-version", 5, '<DocumentVersion v="3"/>', '@@<DocumentVersion v="3" DtdVersion="4"/>')
    for name, code in (("one", "Z07"), ("two", "Z05")):
        fault("document-type-of-" + name, 7, '<DocumentType v="B15"/>', f'@@<DocumentType v="{code}"/>')
    fault("process-type-code", 7, '<ProcessType v="A14"/>', '@@<ProcessType v="A13"/>')
    sender, receiver = '<SenderIdentification v="4012345000016" codingScheme="A10"/>', '<ReceiverIdentification v="4012345000023" codingScheme="NDE"/>'
    fault("sender-12-digits", 6, sender, '@@<SenderIdentification v="401234500001" codingScheme="A10"/>')
    fault("sender-scheme", 7, sender, '@@<SenderIdentification v="4012345000016" codingScheme="Z01"/>')
    fault("sender-role-of-two", 7, '<SenderRole v="A18"/>', '@@<SenderRole v="A27"/>')
    fault("receiver-space", 6, receiver, '@@<ReceiverIdentification v=" 4012345000023" codingScheme="NDE"/>')
    fault("receiver-scheme", 7, receiver, '@@<ReceiverIdentification v="4012345000023" codingScheme="A01"/>')
    fault("receiver-role-of-sender-of-two", 7, '<ReceiverRole v="A39"/>', '@@<ReceiverRole v="A27"/>')
    fault("date-time-no-seconds", 6, '<DocumentDateTime v="2024-05-06T07:08:09Z"/>', '@@<DocumentDateTime v="2024-05-06T07:08Z"/>')
    covered = f'<TimePeriodCovered v="{DAY}"/>\n'
    for name, refusal, value in (
            ("seconds", 6, "2024-05-06T22:00:00Z/2024-05-07T22:00:00Z"), ("space", 6, " " + DAY), ("end-2100", 6, "2099-12-31T00:00Z/2100-01-01T00:00Z"),
            ("end-before-start", 8, "2024-05-07T22:00Z/2024-05-06T22:00Z"), ("no-length", 8, "2024-05-06T22:00Z/2024-05-06T22:00Z"),
            ("20-minutes", 8, "2024-05-06T22:00Z/2024-05-06T22:20Z"), ("over-366-days", 8, "2024-01-01T00:00Z/2025-01-01T00:15Z")):
        fault("period-covered-" + name, refusal, covered, f'@@<TimePeriodCovered v="{value}"/>')
    for name, value in (("a14", "A14"), ("a01", "A01"), ("empty", ""), ("small-letter", "a13"), ("space-inside", "A 13")):
        fault("doc-status-" + name, 7, DOC_STATUS, f'@@<DocStatus v="{value}"/>')
    fault("doc-status-no-v", 5, DOC_STATUS, "@@<DocStatus/>")
    fault("doc-status-scheme", 5, DOC_STATUS, '@@<DocStatus v="A13" codingScheme="A01"/>')
    fault("doc-status-small-name", 3, DOC_STATUS, '@@<docStatus v="A13"/>')
    fault("doc-status-twice", 3, DOC_STATUS, DOC_STATUS + "@@" + DOC_STATUS)
    fault("doc-status-early", 3, covered + DOC_STATUS, "@@" + DOC_STATUS + covered)
    fault("doc-status-not-ended", 3, DOC_STATUS, '<DocStatus v="A13">@@')
    refused("three-doc-status-after-series", 3, 3, 1, 2, edited(three(constraint()), (END_3, "@@" + DOC_STATUS + END_3)))
    refused("three-status-of-two", 3, 3, 0, 0, edited(ALL_THREE, (DOC_STATUS, '@@<Status v="Z01"/>')))
    series_start = "<NetworkConstraintTimeSeries>"
    fault("series-attribute", 5, series_start, '@@<NetworkConstraintTimeSeries v="">')
    fault("series-empty-tag", 3, series_start, "@@<NetworkConstraintTimeSeries/>")
    fault("series-of-one", 3, series_start, "@@<ScheduleTimeSeries>")
    fault("series-of-two", 3, series_start, "@@<CostTimeSeries>")


def series_of_three():
    def fault(name, refusal, old, new):
        in_three(name, refusal, 1, 0, (old, new))
    fault("series-id-36", 6, '<TimeSeriesIdentification v="N-1"/>', f'@@<TimeSeriesIdentification v="{36 * "ä"}"/>')
    fault("business-type-of-one", 7, '<BusinessType v="A77"/>', '@@<BusinessType v="A02"/>')
    fault("business-type-of-two", 7, '<BusinessType v="A77"/>', '@@<BusinessType v="A01"/>')
    fault("business-type-b58", 7, '<BusinessType v="A77"/>', '@@<BusinessType v="B58"/>')
    direction, area = '<Direction v="A01"/>\n', f'<ConnectingArea v="{AREAS[3]}" codingScheme="A01"/>\n'
    fault("direction-code", 7, direction, '@@<Direction v="A03"/>\n')
    fault("direction-no-v", 5, direction, "@@<Direction/>")
    fault("direction-twice", 3, direction, direction + "@@" + direction)
    fault("product", 3, area, '@@<Product v="8716867000016"/>' + area)
    for name, value in (("lost-dash", "10YDE-EON-----1"), ("space", "10YDE-EON------1 "), ("commas", "10Y,,,,,,,,,,,,,"), ("18", "10YDE-VE---------2"),
                        ("other", "10YDE-OTHER----7"), ("empty", "")):
        fault("area-" + name, 7, area, f'@@<ConnectingArea v="{value}" codingScheme="A01"/>')
    fault("area-scheme", 7, area, f'@@<ConnectingArea v="{AREAS[3]}" codingScheme="NDE"/>')
    fault("area-no-scheme", 5, area, f'@@<ConnectingArea v="{AREAS[3]}"/>')
    thing = '<ResourceObject v="NBM-17" codingScheme="A01"/>\n'
    for name, value in (("37", 37 * "x"), ("umlauts-37", 37 * "ä"), ("four-bytes-37", 37 * "\U0001f4a1")):
        fault("object-" + name, 6, thing, f'@@<ResourceObject v="{value}" codingScheme="A01"/>')
        fault("element-" + name, 6, ELEMENT, f'@@<GridElement v="{value}" codingScheme="A01"/>')
    fault("object-scheme", 7, thing, '@@<ResourceObject v="NBM-17" codingScheme="A10"/>')
    fault("object-no-scheme", 5, thing, '@@<ResourceObject v="NBM-17"/>')
    fault("object-no-v", 5, thing, '@@<ResourceObject codingScheme="A01"/>')
    fault("object-both-wrong", 6, thing, f'@@<ResourceObject v="{37 * "x"}" codingScheme="A10"/>')
    fault("object-before-area", 3, area + thing, "@@" + thing + area)
    fault("provider-form", 6, PROVIDER, '@@<ResourceProvider v="401234500003X" codingScheme="A10"/>')
    fault("provider-space", 6, PROVIDER, '@@<ResourceProvider v="4012345000030 " codingScheme="A10"/>')
    fault("provider-scheme", 7, PROVIDER, '@@<ResourceProvider v="4012345000030" codingScheme="A01"/>')
    fault("provider-twice", 3, PROVIDER, PROVIDER + "@@" + PROVIDER)
    fault("provider-late", 3, PROVIDER + OPERATOR, OPERATOR + "@@" + PROVIDER)
    fault("operator-form", 6, OPERATOR, '@@<RequestingGridOperator v="40123450000540" codingScheme="A10"/>')
    fault("operator-space", 6, OPERATOR, '@@<RequestingGridOperator v=" 4012345000054" codingScheme="A10"/>')
    fault("operator-scheme", 7, OPERATOR, '@@<RequestingGridOperator v="4012345000054" codingScheme="Z01"/>')
    fault("operator-no-scheme", 5, OPERATOR, '@@<RequestingGridOperator v="4012345000054"/>')
    fault("operator-late", 3, OPERATOR + ELEMENT, ELEMENT + "@@" + OPERATOR)
    fault("operator-before-object", 3, thing, "@@" + OPERATOR + thing)
    fault("element-scheme", 7, ELEMENT, '@@<GridElement v="NBM" codingScheme="NDE"/>')
    fault("element-no-scheme", 5, ELEMENT, '@@<GridElement v="NBM"/>')
    fault("element-twice", 3, ELEMENT, ELEMENT + "@@" + ELEMENT)
    unit = '<MeasurementUnit v="MAW"/>\n'
    fault("element-late", 3, ELEMENT + unit, unit + "@@" + ELEMENT)
    fault("unit-of-two", 7, unit, '@@<MeasurementUnit v="Z01"/>')
    fault("unit-small-letters", 7, unit, '@@<MeasurementUnit v="maw"/>')
    fault("curve-type", 3, unit, '@@<CurveType v="A03"/>' + unit)
    fault("status", 3, unit, unit + '@@<Status v="Z01"/>')
    sender = '<OriginalSenderIdentification v="4012345000047" codingScheme="NDE"/>'
    fault("original-sender-space", 6, sender, '@@<OriginalSenderIdentification v=" 4012345000047" codingScheme="NDE"/>')
    fault("original-sender-no-scheme", 5, sender, '@@<OriginalSenderIdentification v="4012345000047"/>')
    fault("original-document-id-36", 6, '<OriginalDocumentIdentification v="OD-7"/>', f'@@<OriginalDocumentIdentification v="{36 * "x"}"/>')
    fault("original-version-space", 6, '<OriginalDocumentVersion v="7"/>', '@@<OriginalDocumentVersion v=" 7"/>')
    fault("original-date-time-no-seconds", 6, '<OriginalDocumentDateTime v="2024-05-05T10:11:12Z"/>',
          '@@<OriginalDocumentDateTime v="2024-05-05T10:11Z"/>')
    fault("original-series-id-36", 6, '<OriginalTimeSeriesIdentification v="OS-7"/>', f'@@<OriginalTimeSeriesIdentification v="{36 * "y"}"/>')
    fault("original-only-one", 8, ORIGINALS + "<Period>", sender + "\n@@<Period>")
    in_three("original-one-missing", 8, 1, 0, ('<OriginalDocumentVersion v="7"/>\n', ""), ("<Period>", "@@<Period>"))
    in_three("original-one-missing-attribute", 5, 1, 0, ('<OriginalDocumentVersion v="7"/>\n', ""), ("<Period>", '@@<Period v="1">'))


def period_of_three():
    def fault(name, refusal, intervals, old, new):
        in_three(name, refusal, 1, intervals, (old, new))
    fault("period-attribute", 5, 0, "<Period>", '@@<Period x="">')
    fault("period-empty-tag", 3, 0, "<Period>", "@@<Period/>")
    fault("period-twice", 3, 2, "</Period>\n", "</Period>\n@@<Period>\n")
    interval_tag = f'<TimeInterval v="{DAY}"/>'
    fault("time-interval-form", 6, 0, interval_tag, f'@@<TimeInterval v="{DAY} "/>')
    fault("time-interval-differs", 8, 0, interval_tag, '@@<TimeInterval v="2024-05-06T22:00Z/2024-05-07T21:45Z"/>')
    fault("resolution-pt1h", 8, 0, '<Resolution v="PT15M"/>', '@@<Resolution v="PT1H"/>')
    fault("resolution-empty", 8, 0, '<Resolution v="PT15M"/>', '@@<Resolution v=""/>')
    fault("resolution-no-v", 5, 0, '<Resolution v="PT15M"/>', "@@<Resolution/>")
    second = '<Interval><Pos v="2"/>'
    fault("interval-attribute", 5, 1, second, '@@<Interval v="2"><Pos v="2"/>')
    fault("interval-empty-tag", 3, 1, second, "@@<Interval/>" + second)
    for name, value in (("0", "0"), ("100000", "100000"), ("02", "02"), ("empty", "")):
        fault("pos-" + name, 6, 2, '<Pos v="2"/>', f'@@<Pos v="{value}"/>')
    for name, value in (("2", "2"), ("101", "101"), ("97", "97"), ("99999", "99999")):
        fault("pos-first-" + name, 8, 1, '<Pos v="1"/>', f'@@<Pos v="{value}"/>')
    fault("pos-first-100000", 6, 1, '<Pos v="1"/>', '@@<Pos v="100000"/>')
    fault("pos-again", 8, 2, '<Pos v="2"/>', '@@<Pos v="1"/>')
    fault("pos-skips", 8, 2, '<Pos v="2"/>', '@@<Pos v="3"/>')
    fault("pos-skips-unknown-attribute", 5, 2, '<Pos v="2"/>', '@@<Pos v="3" w=""/>')
    fault("pos-missing", 3, 2, '<Pos v="2"/>', "@@")
    refused("three-pos-not-from-1-again", 8, 3, 2, 3, three(constraint(), sensitivity(pairs=[(3, 1)])).replace('<Pos v="3"/>', '@@<Pos v="3"/>'))
    for name, value in (("point-last", "5."), ("point-first", ".5"), ("plus", "+5"), ("empty", ""), ("comma", "0,5")):
        fault("qty-" + name, 6, 2, '<Qty v="-3.25"/>', f'@@<Qty v="{value}"/>')
    fault("qty-missing", 3, 2, '<Qty v="-3.25"/>', "@@")
    fault("qty-no-v", 5, 2, '<Qty v="-3.25"/>', "@@<Qty/>")


def series_against_each_other():
    """02: "Refusals: 8 at a third A77's BusinessType, at a second A77's equal Direction, at the second series after a DocStatus, and at the root's end for a
    missing A77 or B59." The smaller numbers come before it."""
    def at(name, refusal, series, intervals, tag, *texts, status=""):
        """The tag is that of the last series."""
        whole = three(*texts, status=status)
        before, found, after = whole.rpartition(tag)
        assert found, name
        refused("three-" + name, refusal, 3, series, intervals, before + MARK + tag + after)
    up, down, element = constraint(), constraint("N-3", direction="A02"), sensitivity()
    for name, refusal, series, intervals, texts in (
            ("third-a77", 8, 3, 4, (up, down)), ("third-a77-b59-first", 8, 4, 5, (element, up, down)), ("third-a77-b59-between", 8, 4, 5, (up, element, down))):
        for direction in ("A01", "A02"):
            at(f"{name}-{direction.lower()}", refusal, series, intervals, '<BusinessType v="A77"/>', *texts, constraint("N-9", direction=direction))
    at("third-a77-spaces", 8, 3, 4, '<BusinessType v="  A77 "/>', up, down, constraint("N-9", business="  A77 "))
    third = '<BusinessType v="A77"/>'
    for name, refusal, tag in (("unknown-attribute", 5, '<BusinessType v="A77" w=""/>'), ("no-v", 5, "<BusinessType/>"), ("code", 7, '<BusinessType v="A78"/>'),
                               ("twice-in-tag", 2, '<BusinessType v="A77" v="A77"/>'), ("not-due", 3, '<Direction v="A77"/>')):
        at("third-a77-" + name, refusal, 3, 4, tag, up, down, constraint("N-9").replace(third, tag))
    at("third-a77-id-used", 9, 3, 4, '<TimeSeriesIdentification v="N-1"/>', up, down, constraint("N-1"))
    same = '<Direction v="A01"/>'
    at("second-a77-equal-direction", 8, 2, 2, same, up, constraint("N-3"))
    at("second-a77-equal-direction-b59-between", 8, 3, 3, same, up, element, constraint("N-3"))
    at("second-a77-equal-direction-b59-of-other-between", 8, 3, 3, same, up, sensitivity(direction="A02"), constraint("N-3"))
    at("second-a77-equal-direction-down", 8, 2, 2, '<Direction v="A02"/>', down, constraint("N-4", direction="A02"))
    at("second-a77-equal-direction-spaces", 8, 2, 2, '<Direction v=" A01  "/>', up, constraint("N-3", direction=" A01  "))
    at("second-a77-equal-direction-first-spaces", 8, 2, 2, same, constraint(business="A77 ", direction="A01 "), constraint("N-3", business=" A77"))
    for name, refusal, tag in (("unknown-attribute", 5, '<Direction v="A01" w=""/>'), ("code", 7, '<Direction v="A03"/>'), ("empty", 7, '<Direction v=""/>'),
                               ("not-due", 3, '<Product v="A01"/>'), ("twice-in-tag", 2, '<Direction v="A01" v="A02"/>')):
        at("second-a77-equal-direction-" + name, refusal, 2, 2, tag, up, constraint("N-3").replace(same, tag))
    start = "<NetworkConstraintTimeSeries>"
    at("doc-status-second-series", 8, 1, 2, start, up, element, status=DOC_STATUS)
    at("doc-status-second-series-b59", 8, 1, 1, start, element, up, status=DOC_STATUS)
    at("doc-status-second-series-equal-direction", 8, 1, 2, start, up, constraint("N-3"), status=DOC_STATUS)
    at("doc-status-second-series-id-used", 8, 1, 2, start, up, constraint(), status=DOC_STATUS)
    for name, refusal, tag in (("empty-tag", 3, "<NetworkConstraintTimeSeries/>"), ("attribute", 5, '<NetworkConstraintTimeSeries v="">'),
                               ("empty-tag-attribute", 3, '<NetworkConstraintTimeSeries v=""/>'), ("other-name", 3, "<CostTimeSeries>"),
                               ("attribute-twice", 2, '<NetworkConstraintTimeSeries v="" v="">')):
        at("doc-status-second-series-" + name, refusal, 1, 2, tag, up, sensitivity().replace(start, tag), status=DOC_STATUS)
    at("no-a77", 8, 1, 1, END_3, element)
    at("no-b59", 8, 1, 2, END_3, up)
    at("no-b59-two-a77", 8, 2, 4, END_3, up, down)
    at("no-a77-two-b59", 8, 2, 2, END_3, element, sensitivity("N-3", "A02"))
    refused("three-no-b59-other-end", 3, 3, 1, 2, edited(three(up), (END_3, "@@" + END_2)))
    refused("three-no-b59-end-attribute", 2, 3, 1, 2, edited(three(up), (END_3, '@@</NetworkConstraintDocument v="">')))
    refused("three-no-b59-no-end", 3, 3, 1, 2, three(up).partition(END_3)[0] + "@@")
    refused("three-no-b59-text", 3, 3, 1, 2, edited(three(up), ("</NetworkConstraintTimeSeries>\n" + END_3, "</NetworkConstraintTimeSeries>@@\nB59" + END_3)))
    refused("three-id-used", 9, 3, 2, 2, edited(
        three(up, sensitivity("N-1x")), ('<TimeSeriesIdentification v="N-1x"/>', '@@<TimeSeriesIdentification v="N-1"/>')))
    refused("three-65-series", 4, 3, 64, 65, edited(three(*(sensitivity(f"B-{i}") for i in range(63)), up, sensitivity("B-64")),
                                                   ('<NetworkConstraintTimeSeries>\n<TimeSeriesIdentification v="B-64"/>',
                                                    '@@<NetworkConstraintTimeSeries>\n<TimeSeriesIdentification v="B-64"/>')))
    for name, refusal, text in (("text", 3, "@@\n."), ("second-root", 3, "@@" + START_3), ("end-tag-again", 3, "@@" + END_3)):
        refused("three-late-" + name, refusal, 3, 2, 3, THREE.rstrip("\n") + text)


# ---------------------------------------------------------------- Refused: tables full, identifications used, several faults, late faults

def missing_rows():
    """Missing elements show at the next tag that can't follow: each element is followed by the one that the mark stands at."""
    def missing(document, text, kind, series, order):
        for name, following in zip(order, order[1:]):
            own = re.search(f"<{name}[ >].*\n", text)[0]
            assert text.count(own + "<" + following) == 1, name
            words = re.sub("([A-Z])", r"-\1", name).lower()
            refused(document + "-missing" + words, 3, kind, series, 0, text.replace(own, MARK))
    top = ("DocumentIdentification DocumentVersion DocumentType ProcessType SenderIdentification SenderRole "
           "ReceiverIdentification ReceiverRole DocumentDateTime TimePeriodCovered ").split()
    missing("two", ALL_TWO, 2, 0, top + ["CostTimeSeries"])
    missing("one", BEGUN_ONE, 1, 0, top + ["ScheduleTimeSeries"])
    missing("two", ALL_TWO.replace(DIRECTION, "").replace(CONNECTING, ""), 2, 1,
            "TimeSeriesIdentification BusinessType Product ResourceObject ResourceProvider CurveType MeasurementUnit Status".split())
    missing("one", BEGUN_ONE, 1, 1, ("TimeSeriesIdentification BusinessType Product InArea OutArea InParty OutParty MeasurementUnit "
                                     "OriginalSenderIdentification").split())
    missing("three", ALL_THREE, 3, 0, top + ["DocStatus"])
    missing("three", ALL_THREE.replace(PROVIDER + OPERATOR + ELEMENT, ""), 3, 1,
            "TimeSeriesIdentification BusinessType Direction ConnectingArea ResourceObject MeasurementUnit OriginalSenderIdentification".split())
    for document, text, kind in (("two", ALL_TWO, 2), ("one", BEGUN_ONE, 1), ("three", ALL_THREE, 3)):
        missing(document, text, kind, 1, ["TimeInterval", "Resolution", "Interval"])


def near_names():
    in_two("near-element-document-version", 3, 0, 0, ('<DocumentVersion v="3"/>', '@@<DocumentVersiom v="3"/>'))
    in_two("near-element-original", 3, 1, 0, ('<OriginalDocumentVersion v="7"/>', '@@<OriginalDocumentVersions v="7"/>'))
    in_two("near-element-interval", 3, 1, 1, ('<Interval><Pos v="5"/>', '@@<InterVal><Pos v="5"/>'))
    in_two("near-element-pos", 3, 1, 2, ('<Pos v="5"/>', '@@<Po v="5"/>'))
    in_two("near-element-qty", 3, 1, 2, ('<Qty v="-3.25"/>', '@@<Qtz v="-3.25"/>'))
    in_two("near-end-tag", 3, 1, 2, ("</CostTimeSeries>", "@@</CostTimeSerie>"))
    in_one("near-element-in-party", 3, 1, 0, ("<InParty", "@@<InPartY"))
    in_one("near-element-in-area", 3, 1, 0, ("<InArea", "@@<inArea"))
    in_one("near-attribute-scheme", 5, 1, 0, ('<OutArea v="10YDE-RWENET---I" codingScheme', '@@<OutArea v="10YDE-RWENET---I" codingscheme'))
    refused("near-attribute-of-root", 5, 0, 0, 0, "@@" + START_2.replace("Version", "version"))


def places_in_notes():
    """Places with one, two and three groups of seven bits."""
    for place in (127, 128, 16383, 16384):
        refused(f"place-{place}", 3, 0, 0, 0, place * " " + "@@<a/>")


def full_tables():
    full = two(*(cost(f"S-{i}", pairs=[(1, 1)]) for i in range(64)))
    for name, refusal, start in (("65-series", 4, "<CostTimeSeries>"), ("65-series-attribute", 4, '<CostTimeSeries v="1">'),
                                 ("65-series-empty-tag", 3, "<CostTimeSeries/>"), ("64-series-other-name", 3, "<ScheduleTimeSeries>"),
                                 ("64-series-attribute-twice", 2, '<CostTimeSeries v="1" v="1">')):
        refused("two-" + name, refusal, 2, 64, 64, edited(full, (END_2, f"@@{start}" + cost("S-64").partition("\n")[2] + END_2)))


def used_identifications():
    used = '<TimeSeriesIdentification v="%s"/>'
    refused("two-id-used-next", 9, 2, 2, 2, two(cost(), cost("S-2").replace(used % "S-2", "@@" + used % "S-1")))
    refused("two-id-used-not-neighbours", 9, 2, 4, 5, two(
        cost("ä"), cost("b", pairs=[(1, 1)]), cost("c"), cost("S").replace(used % "S", "@@" + used % "ä")))
    refused("two-id-used-by-the-first-of-64", 9, 2, 64, 63, two(
        *(cost(f"S-{i}", pairs=[(1, i)]) for i in range(63)), cost("S").replace(used % "S", "@@" + used % "S-0")))
    refused("two-id-used-empty", 9, 2, 3, 4, two(cost(""), cost("b"), cost("S").replace(used % "S", "@@" + used % "")))
    refused("two-id-used-unknown-attribute", 5, 2, 2, 2, two(
        cost(), cost("S").replace(used % "S", '@@<TimeSeriesIdentification w="" v="S-1"/>')))
    refused("two-id-used-not-due", 3, 2, 1, 0, two(cost().replace("<Product", "@@" + used % "S-1" + "<Product")))
    refused("two-id-used-other-quotes", 9, 2, 2, 2, two(
        cost(), cost("S").replace(used % "S", "@@<TimeSeriesIdentification v = 'S-1' ></TimeSeriesIdentification>")))
    refused("one-id-used", 9, 1, 2, 96, one(schedule(first(96)), schedule([], "T").replace(used % "T", "@@" + used % "T-1")))


def several_faults():
    in_two("several-6-then-2", 6, 0, 0, ('<DocumentVersion v="3"/>', '@@<DocumentVersion v=""/>'), ("<Direction", "<&"))
    in_two("several-7-then-3", 7, 0, 0, ('<ProcessType v="A14"/>', '@@<ProcessType v=""/>'), (STATUS, STATUS + STATUS))
    in_two("several-8-then-5", 8, 1, 1, ('<Pos v="1"/>', '@@<Pos v="3"/>'), ('<Qty v="10.5"/>', "<Qty/>"))
    in_two("several-3-then-2", 3, 0, 0, ('\n<DocumentVersion v="3"/>', '@@\nx'), ("<Direction", "<&"))
    in_two("several-not-due-and-wrong-value", 3, 0, 0, ('<DocumentVersion v="3"/>', '@@<Qty w="x"/>'))
    in_two("several-differs-and-unknown", 5, 1, 0, (f'<TimeInterval v="{DAY}"/>', f'@@<TimeInterval v="{SPRING}" w=""/>'))
    in_two("several-resolution-and-unknown", 5, 1, 0, ('<Resolution v="PT15M"/>', '@@<Resolution v="" w=""/>'))
    in_two("several-area-and-scheme", 7, 1, 0, (CONNECTING, '@@<ConnectingArea v="" codingScheme=""/>'))


def late_faults():
    whole = ALL_TWO.rstrip("\n")
    for name, refusal, text in (("text", 3, "@@\n."), ("second-root", 3, "@@" + START_2), ("second-root-empty-tag", 3, "@@<a/>"),
                                ("end-tag-again", 3, "@@" + END_2), ("reference", 2, "@@&#10;"), ("comment-cut", 2, "\n@@<!-- "),
                                ("bad-utf-8", 2, "@@\n\udcc3"), ("declaration", 2, "\n@@" + DECLARED)):
        refused("late-" + name, refusal, 2, 1, 2, whole + text)
    in_two("late-no-root-end", 3, 1, 2, (END_2 + "\n", "\n@@"))
    in_two("late-wrong-root-end", 3, 1, 2, (END_2, "@@" + END_1))
    in_two("late-wrong-leaf-end", 3, 1, 2, ('<Qty v="-3.25"/>', '<Qty v="-3.25">@@</Pos>'))
    in_two("late-start-in-leaf", 3, 1, 2, ('<Qty v="-3.25"/>', '<Qty v="-3.25">@@<Qty v="1"/></Qty>'))
    in_two("late-leaf-not-ended", 3, 1, 2, ('<Qty v="-3.25"/>', '<Qty v="-3.25">@@'))
    in_two("late-series-not-ended", 3, 1, 2, ("</CostTimeSeries>\n", "@@"))
    refused("late-third-series", 6, 2, 3, 5, two(cost(), cost("S-2"), cost("S-3").replace('<Qty v="10.5"/>', '@@<Qty v="10.5.0"/>')))
    full = one(schedule(first(96)))
    refused("one-late-qty", 6, 1, 1, 96, edited(full, ('<Qty v="95.5"/>', '@@<Qty v="95,5"/>')))
    refused("one-late-text", 3, 1, 1, 96, edited(full, ("</Period>\n</ScheduleTimeSeries>", "</Period>@@\n-</ScheduleTimeSeries>")))
    refused("one-late-second-root", 3, 1, 1, 96, full.rstrip("\n") + "@@" + START_2)
    refused("one-late-cut", 2, 1, 1, 96, full.rpartition(END_1)[0] + "@@</Beschaffung")
    refused("one-late-no-root-end", 3, 1, 1, 96, full.rpartition(END_1)[0] + "@@")


# ---------------------------------------------------------------- Examples of 01 that a sample cannot show

def other_examples():
    assert groups(300) == b"\xac\x02"
    assert [thousandths(text) for text in ("-0", "-0.001", "999999999999.999")] == [0, -1, 999999999999999]
    assert all(thousandths(text) is None for text in ("5.", ".5", "+5", "1.0000", "1234567890123"))
    assert read(b"", note_bytes=15)[:7] == (10, 0, 0, 0, 0, 0, b"")
    assert read(bytes(1_048_577))[:7] == (1, 0, 0, 0, 0, 0, bytes((1, 0, 0, 0, 0)))
    assert read(b" " * 1_048_576)[:2] == (3, 1_048_576)
    # 2,049 intervals are longer than 65,536 bytes, so that smaller tables show the full ones.
    doc = raw(ALL_TWO)
    second, start = doc.rindex(b"<Interval>"), doc.index(b"<CostTimeSeries>")
    assert read(doc, 12, 2, 2).refusal == 0
    assert read(doc, 23, 2, 9).amount_table == [10500, -3250, 0, 0, 0, 0, 0, 0, 0]
    assert read(doc, 11, 0, 0)[:6] == (4, start, 2, 0, 0, 0)
    assert read(doc, 12, 1, 2)[:6] == read(doc, 12, 2, 1)[:6] == (4, second, 2, 1, 1, 0)
    assert read(doc.replace(b"<Interval><Pos v=\"5\"/>", b"<Interval v=''>"), 12, 1, 1)[:2] == (4, second)
    assert read(doc.replace(b"<Interval><Pos v=\"5\"/>", b"<Interval/>"), 12, 1, 1)[:2] == (3, second)
    hundred = raw(one(schedule(first(101), period=AUTUMN), period=AUTUMN))
    assert read(hundred, 12, 100, 100)[:2] == (3, hundred.rindex(b"<Interval>"))
    # Kind 3: the note of a root alone, the second series after a DocStatus with and without room, and the 101st Interval with full tables.
    assert read(b'<NetworkConstraintDocument DtdVersion="4" DtdRelease="1">')[:7] == (3, 57, 3, 0, 0, 0, bytes.fromhex("0339030000"))
    withdrawn = raw(three(constraint(), sensitivity(), status=DOC_STATUS))
    again = withdrawn.rindex(b"<NetworkConstraintTimeSeries>")
    assert [read(withdrawn, cells)[:6] for cells in (12, 23, 24)] == 2 * [(4, again, 3, 1, 2, 0)] + [(8, again, 3, 1, 2, 0)]
    for room, refusal, place in ((100, 3, b"<Interval>"), (101, 3, b"<Interval>"), (99, 4, b'<Interval><Pos v="100"/>')):
        hundred = raw(three(constraint(pairs=first(101), period=AUTUMN), period=AUTUMN))
        assert read(hundred, 12, room, room)[:2] == (refusal, hundred.rindex(place)), room
    fifth = raw(three(constraint(pairs=first(5), period="2024-05-06T10:00Z/2024-05-06T11:00Z"), period="2024-05-06T10:00Z/2024-05-06T11:00Z"))
    assert [read(fifth, 12, room, room)[:2] for room in (4, 5)] == [(4, fifth.rindex(b"<Interval>")), (8, fifth.rindex(b"<Pos"))]
    pair = raw(two(cost(), cost("S-2")))
    assert [read(pair, cells)[:2] for cells in (0, 11, 12, 23, 24, 35)] == 2 * [(4, pair.index(b"<CostTimeSeries>"))] + \
        2 * [(4, pair.rindex(b"<CostTimeSeries>"))] + 2 * [(0, len(pair))]


# ---------------------------------------------------------------- References

def by_reference(text, spelled="&#{};"):
    """The document with each character of its values as a reference."""
    return re.sub('="([^"]*)"', lambda value: '="%s"' % "".join(spelled.format(ord(c)) for c in value[1]), text)


def spelled_row(row, spelled="&#{};"):
    """A row of a sample whose views are spelled so."""
    identification, thing, business, pairs, *rest = row
    return tuple("".join(spelled.format(ord(c)) for c in said) for said in (identification, thing, business)) + (pairs,) + tuple(
        said and "".join(spelled.format(ord(c)) for c in said) for said in rest)


def accepted_references():
    """Values are judged by what they say and shown as they stand."""
    def identified(name, *identifications):
        taken("two-reference-" + name, 2, 96, [(i, *TWO_ROW[1:]) for i in identifications], two(*(cost(i) for i in identifications)))
    identified("amp", "M&amp;B-1")
    identified("named", "&amp;&lt;&gt;&quot;&apos;")
    identified("35", 35 * "&amp;")
    identified("white", "&#9;&#10;&#13; &#x20;")
    identified("edges", "&#9;&#127;&#x85;&#xD7FF;&#xE000;&#xfffd;&#x10000;&#x1FFFE;&#x10fFFf;&#1114111;")
    identified("zeros", "&#00000000000000000000065;&#x00000000000000000041;&#0038;")
    identified("ids-differ", "&amp;lt;", "&lt;", "&amp;amp;", "&amp;", "&#38;#38;", "&#32;", "", "&#9;", "&#10;", "a&#776;", "&#228;")
    identified("then-letters", "&amp;amp;", "&#49;2", "x&#x2d;;")
    for name, spelled in (("decimal", "&#{};"), ("hexadecimal", "&#x{:x};"), ("upper-hexadecimal", "&#x00{:X};")):
        taken("two-reference-all-" + name, 2, 96, [spelled_row(ALL_ROW, spelled)],
              DECLARED + by_reference(ALL_TWO[len(DECLARED):], spelled))
    taken("three-reference-all", 3, 96, [spelled_row(row) for row in THREE_ROWS], DECLARED + by_reference(THREE[len(DECLARED):]))
    start, interval, rest = one(schedule(first(92), period=SPRING), period=SPRING).partition("<Interval>")
    row = ("T-1", "11XINVENTED-IN-A", "A02", first_rows(92), None, "10YDE-VE-------2")
    taken("one-reference-all-but-intervals", 1, 92, [spelled_row(row)], DECLARED + by_reference(start[len(DECLARED):]) + interval + rest)
    taken("two-reference-passed-over", 2, 96, [TWO_ROW], edited(TWO, (START_2, START_2.replace(">", " xmlns='&amp;' xsi:a=\"&#60;&#x3E;\">"))))
    taken("two-reference-quotes", 2, 96, [("'&quot;&#39;", *TWO_ROW[1:])], edited(two(cost("'&quot;&#39;")), ('v="D-1"', "v='\"&apos;'")))
    amounts = [("1&#50;3", 123000), ("&#45;1", -1000), ("&#x2D;0.&#48;01", -1), ("5&#46;5", 5500), ("&#57;99999999999.99&#57;", 999999999999999),
               ("&#32;7&#32; ", 7000), ("&#0000048;", 0)]
    taken("two-reference-amounts", 2, 96, [("S-1", "C0ABCDEFGH1", "A01", [(i + 1, amount) for i, (_, amount) in enumerate(amounts)])],
          two(cost(pairs=[(f"&#{ord(str(i + 1))};", text) for i, (text, _) in enumerate(amounts)])))
    taken("two-reference-period", 2, 96, [TWO_ROW],
          two(cost(period=DAY.replace("-", "&#45;")), period=DAY.replace("/", "&#x2F;").replace("Z", "&#90;")))
    taken("three-reference-36", 3, 96, [three_row(thing=36 * "&lt;"), sensitivity_row()], three(constraint(thing=36 * "&lt;"), sensitivity()))
    taken("three-reference-businesses", 3, 96,
          [three_row(business="A7&#55;", direction="A0&#49;"), sensitivity_row(), three_row("N-3", "&#65;77", "&#x41;02")],
          three(constraint(business="A7&#55;", direction="A0&#49;"), sensitivity(), constraint("N-3", "&#65;77", "&#x41;02")))


def spaces_by_reference():
    """A referenced space is dropped at a collapsed end like any other; nothing else is."""
    taken("two-reference-business-spaces", 2, 96, [("S-1", "C0ABCDEFGH1", "A0&#49;", SOME_ROWS)], two(cost(business=" &#32;A0&#49;&#x20; ")))
    taken("two-reference-direction-spaces", 2, 96, [(*TWO_ROW, "&#65;02")], two(cost(direction='<Direction v="&#x0020;&#65;02 &#032;"/>\n')))
    taken("two-reference-spaces-dropped", 2, 96, [ALL_ROW], edited(ALL_TWO, *(
        (f'v="{value}"', f'v="&#32; {value}&#x20;"') for value in (
            "3", "Z05", "A14", "A27", "A39", "2024-05-06T07:08:09Z", "8716867000016", "A03", "2024-05-05T10:11:12Z", "PT15M",
            "1", "5", "10.5", "-3.25")), ('codingScheme="A01"', 'codingScheme="&#32;A01"')))
    for name, refusal, old, new in (
            ("version-tab", 6, '<DocumentVersion v="3"/>', '<DocumentVersion v="&#9;3"/>'),
            ("version-lf", 6, '<DocumentVersion v="3"/>', '<DocumentVersion v="3&#10;"/>'),
            ("type-cr", 7, '<DocumentType v="Z05"/>', '<DocumentType v="Z05&#13;"/>'),
            ("process-no-break-space", 7, '<ProcessType v="A14"/>', '<ProcessType v="&#160;A14"/>'),
            ("sender-space", 6, '<SenderIdentification v="4012345000016"', '<SenderIdentification v="4012345000016&#32;"'),
            ("period-space", 6, f'<TimePeriodCovered v="{DAY}"', f'<TimePeriodCovered v="&#32;{DAY}"')):
        in_two("two-reference-" + name, refusal, 0, 0, (old, "@@" + new))
    in_two("two-reference-original-version-space", 6, 1, 0, ('<OriginalDocumentVersion v="7"/>', '@@<OriginalDocumentVersion v="&#32;7"/>'))
    in_two("two-reference-resolution-tab", 8, 1, 0, ('<Resolution v="PT15M"/>', '@@<Resolution v="PT15M&#9;"/>'))
    refused("root-reference-space", 6, 0, 0, 0, "@@" + START_2.replace("1.0", "1.0&#x20;"))


def other_references():
    """Any other reference is 2."""
    for name, text in (
            ("bad", "&bad;"), ("upper-name", "&AMP;"), ("no-semicolon", "&amp"), ("space-first", "& amp;"), ("space-last", "&amp ;"), ("alone", "&;"),
            ("at-the-end", "a&"), ("name-longer", "&ampx;"), ("name-shorter", "&am;"), ("no-digits", "&#;"), ("no-hexadecimal-digits", "&#x;"),
            ("upper-x", "&#X41;"), ("no-x", "&#4a;"), ("letter-g", "&#x4g;"), ("plus", "&#+65;"), ("space-in-number", "&#6 5;"), ("cut-number", "&#65"),
            ("0", "&#0;"), ("8", "&#x8;"), ("b", "&#11;"), ("e", "&#14;"), ("1f", "&#x1F;"), ("d800", "&#xD800;"), ("dfff", "&#57343;"),
            ("fffe", "&#xFFFE;"), ("ffff", "&#65535;"), ("110000", "&#x110000;"), ("32-bits-and-65", "&#4294967361;"),
            ("64-bits-and-65", "&#18446744073709551681;"), ("hexadecimal-32-bits-and-65", "&#x100000041;"), ("in-a-reference", "&am&amp;p;"),
            ("ampersand-before-one", "&&amp;"), ("less-than-in-one", "&l<t;"), ("after-a-right-one", "&amp;&lt"), ("arabic-digit", "&#\u0663;")):
        after_root("item-reference-" + name, 2, f'@@<DocumentIdentification v="{text}"/>')
    after_root("item-reference-quote-in-one", 2, "@@<DocumentIdentification v='&am'p;/>")
    after_root("item-reference-cut", 2, '@@<DocumentIdentification v="&#6')
    after_root("item-reference-not-due", 2, '@@<Qty v="&bad;"/>')
    refused("root-reference-xmlns", 2, 0, 0, 0, "@@" + START_2.replace(">", " xmlns='&bad;'>"))


def references_elsewhere():
    """In values alone."""
    for name, text in (("name", "@@<a&amp;/>"), ("attribute-name", "@@<a b&#61;'1'/>"), ("end-tag", "@@</Kostenblatt&#32;>"), ("text-space", "@@&#32;"),
                       ("quotes", "@@<DocumentIdentification v=&quot;1&quot;/>")):
        after_root("item-reference-as-" + name, 2, text)
    refused("declaration-reference-version", 2, 0, 0, 0, '@@<?xml version="1&#46;0"?>' + START_2)
    refused("declaration-reference-encoding", 2, 0, 0, 0, "@@<?xml version='1.0' encoding='UTF&#45;8'?>" + START_2)
    after_root("two-reference-not-due", 3, '@@<Qty v="&amp;"/>')
    after_root("two-reference-unknown-attribute", 5, '@@<DocumentIdentification v="" w="&amp;"/>')
    refused("root-reference-alone", 3, 2, 0, 0, START_2.replace("1.0", "&#49;.&#x30;") + "@@")
    refused("root-reference-1-1", 6, 0, 0, 0, "@@" + START_2.replace("1.0", "1.&#49;"))


def values_by_reference():
    """Each form against what a reference stands for."""
    def fault(name, refusal, series, intervals, old, new):
        in_two("two-reference-" + name, refusal, series, intervals, (old, "@@" + new))
    fault("id-36", 6, 0, 0, '<DocumentIdentification v="D-1"/>', '<DocumentIdentification v="%s"/>' % (36 * "&amp;"))
    fault("version-0", 6, 0, 0, '<DocumentVersion v="3"/>', '<DocumentVersion v="&#48;3"/>')
    fault("said-twice", 6, 0, 0, '<DocumentVersion v="3"/>', '<DocumentVersion v="&amp;#51;"/>')
    fault("sender-14", 6, 0, 0, '<SenderIdentification v="4012345000016"', '<SenderIdentification v="4012345000016&#48;"')
    fault("role", 7, 0, 0, '<SenderRole v="A27"/>', '<SenderRole v="A2&#56;"/>')
    fault("second-60", 6, 0, 0, '<DocumentDateTime v="2024-05-06T07:08:09Z"/>', '<DocumentDateTime v="2024-05-06T07:08:&#54;0Z"/>')
    fault("scheme", 7, 1, 0, CONNECTING, CONNECTING.replace('"A01"', '"A0&#50;"'))
    fault("object", 6, 1, 0, '<ResourceObject v="C', '<ResourceObject v="&#68;')
    fault("interval-differs", 8, 1, 0, f'<TimeInterval v="{DAY}"', '<TimeInterval v="%s"' % DAY.replace("07T", "0&#56;T"))
    fault("pos-0", 6, 1, 1, '<Pos v="1"/>', '<Pos v="&#48;"/>')
    fault("pos-2", 8, 1, 1, '<Pos v="1"/>', '<Pos v="&#50;"/>')
    fault("qty-plus", 6, 1, 1, '<Qty v="10.5"/>', '<Qty v="&#43;5"/>')
    fault("qty-tab", 6, 1, 1, '<Qty v="10.5"/>', '<Qty v="10&#9;"/>')
    fault("qty-13", 6, 1, 1, '<Qty v="10.5"/>', '<Qty v="123456789012&#51;"/>')
    fault("qty-arabic-digit", 6, 1, 1, '<Qty v="10.5"/>', '<Qty v="&#1635;"/>')
    in_three("reference-thing-37", 6, 1, 0, ('<ResourceObject v="NBM-17"', '@@<ResourceObject v="%s"' % (37 * "&#228;")))


def equal_meanings():
    """Two identifications are equal when their meanings are; so are two Directions."""
    used = '<TimeSeriesIdentification v="%s"/>'
    for name, earlier, later in (
            ("amp", "&amp;", "&#38;"), ("letters", "S-1", "S&#45;1"), ("hexadecimal", "&#228;", "&#xE4;"), ("character", "&#xe4;", "\u00e4"),
            ("space", "&#32;", " "), ("once", "&amp;lt;", "&#38;lt;"), ("zeros", "&#65;", "&#x00041;"), ("four-bytes", "\U0010ffff", "&#1114111;")):
        refused("two-reference-used-" + name, 9, 2, 2, 2, two(cost(earlier), cost("S").replace(used % "S", "@@" + used % later)))
    refused("two-reference-used-not-neighbours", 9, 2, 3, 3, two(
        cost("&lt;"), cost("&amp;lt;", pairs=[(1, 1)]), cost("S").replace(used % "S", "@@" + used % "&#60;")))
    direction = '<Direction v="%s"/>'
    refused("three-reference-equal-direction", 8, 3, 2, 2, three(
        constraint(direction="A0&#49;"), constraint("N-3", direction="A02").replace(direction % "A02", "@@" + direction % "&#32;A01")))
    business = '<BusinessType v="%s"/>'
    refused("three-reference-third-a77", 8, 3, 3, 4, three(
        constraint(business="&#65;77"), constraint("N-3", direction="A02"),
        constraint("N-4").replace(business % "A77", "@@" + business % "A7&#55;")))
    refused("three-reference-withdrawn", 8, 3, 1, 2, three(
        constraint(), "@@" + sensitivity(), status=DOC_STATUS.replace("A13", "A1&#51;")))


# ---------------------------------------------------------------- The script

# The elements that the views of a row show, in kind 1 and in kind 2.
VIEWS = ((b"TimeSeriesIdentification",), (b"InParty", b"ResourceObject"), (b"BusinessType",), (b"Direction",), (b"InArea", b"ConnectingArea"))


def check_views(doc, row, expected, where):
    """A view lies in a tag of its element, and shows what is expected of it; where that is None, its cells are 0."""
    for k, (names, said) in enumerate(zip(VIEWS, expected)):
        start, length = row[2 * k:2 * k + 2]
        if said is None:
            assert start == length == 0, (*where, names)
            continue
        tag = doc[doc.rindex(b"<", 0, start):start]
        assert tag.startswith(tuple(b"<" + name for name in names)), (*where, names)
        assert re.search(rb"\bv\s*=\s*[\"']" + SPACES + b"$", tag) and doc[start:start + length] == raw(said), (*where, names)


def check(name, sample, answer):
    """The reader's answer is the one that the sample states."""
    assert answer[:6] == sample[1:7], (name, answer[:6], sample[1:7])
    if sample.rows is None:
        assert not any(answer.series_table + answer.position_table + answer.amount_table), name
        return
    at = 0
    for i, expected in enumerate(sample.rows):
        identification, thing, business, pairs, direction, area = (*expected, None, None)[:6]
        row = answer.series_table[WIDTH * i:WIDTH * i + WIDTH]
        check_views(sample.doc, row, (identification, thing, business, direction, area), (name, i))
        assert row[FIRST:] == [at, len(pairs)], (name, i)
        assert answer.position_table[at:at + len(pairs)] == [pos for pos, _ in pairs], (name, i)
        assert answer.amount_table[at:at + len(pairs)] == [amount for _, amount in pairs], (name, i)
        at += len(pairs)
    assert not any(answer.series_table[WIDTH * len(sample.rows):] + answer.position_table[at:] + answer.amount_table[at:]), name


def line(name, answer):
    checks = [check_number(table) for table in answer[7:]]
    return " ".join(str(word) for word in (name, *answer[:6], len(answer.note), answer.note.hex().upper(), *checks))


def main():
    for group in (accepted_two, directions_and_areas, accepted_values, accepted_items, accepted_one, accepted_three, roots_of_three, counts_of_three,
                  values_of_three, starts_of_three, head_of_three, series_of_three, period_of_three, series_against_each_other, short_documents,
                  declarations, unreadable_items, other_text, rows_of_head, rows_of_series, rows_of_originals, rows_of_period, rows_of_one, counts_of_one,
                  missing_rows, near_names, places_in_notes, full_tables, used_identifications, several_faults, late_faults,
                  other_examples, accepted_references, spaces_by_reference, other_references, references_elsewhere, values_by_reference,
                  equal_meanings):
        group()
    if len(sys.argv) > 1:
        sys.stdout.buffer.write(SAMPLES[sys.argv[1]].doc)
        return
    folder = Path(__file__).resolve().parent.parent / "crates" / "samples_run"
    names = sorted(SAMPLES)
    for name in names:
        answer = read(SAMPLES[name].doc)
        check(name, SAMPLES[name], answer)
        assert (folder / "data" / (name + ".xml")).read_bytes() == SAMPLES[name].doc, name
        print(line(name, answer))
    assert (folder / "args").read_text().split() == [name + ".xml" for name in names]
    assert len(list((folder / "data").iterdir())) == len(names), "data has other files"


if __name__ == "__main__":
    main()
