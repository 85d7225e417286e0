"""Makes the vectors of times: stdin, a value to a line, and what the program has to print for it (stdout).

    python3 times.py FOLDER      writes FOLDER/stdin and FOLDER/stdout

The answers come from the standard library's datetime and from the words of the rules, not from the definitions:
a date-time or an interval is what datetime can read and print back the same.
"""
import datetime
import re
import sys
import zoneinfo

ZERO = datetime.datetime(2000, 1, 1)
SECONDS = r"\d{4}-\d\d-\d\dT\d\d:\d\d:\d\dZ"
MINUTES = r"\d{4}-\d\d-\d\dT\d\d:\d\dZ"


def read(text, form, pattern):
    """the moment that the text shows, or None: years 2000 to 2099, real dates"""
    if not re.fullmatch(form, text, re.ASCII):
        return None
    try:
        t = datetime.datetime.strptime(text, pattern)
    except ValueError:
        return None
    if t.strftime(pattern) != text or not 2000 <= t.year <= 2099:
        return None
    return t


def is_date_time(text):
    return read(text, SECONDS, "%Y-%m-%dT%H:%M:%SZ") is not None


def interval(text):
    parts = text.split("/")
    if len(parts) != 2:
        return None
    a, b = (read(p, MINUTES, "%Y-%m-%dT%H:%MZ") for p in parts)
    return None if a is None or b is None else (a, b)


def midnight(day):
    """local midnight in Germany, in UTC, by the time zones of this machine"""
    start = datetime.datetime(day.year, day.month, day.day, tzinfo=zoneinfo.ZoneInfo("Europe/Berlin"))
    return start.astimezone(datetime.timezone.utc).replace(tzinfo=None)


def is_day_period(a, b):
    day = a.date() + datetime.timedelta(days=1)
    return a == midnight(day) and b == midnight(day + datetime.timedelta(days=1))


def is_cost_period(a, b):
    length = b - a
    return (datetime.timedelta(0) < length <= datetime.timedelta(days=366)
            and length % datetime.timedelta(minutes=15) == datetime.timedelta(0))


def answer(text):
    start = "date-time %d" % is_date_time(text)
    found = interval(text)
    if found is None:
        return start + " no interval"
    a, b = found
    minutes = [(t - ZERO) // datetime.timedelta(minutes=1) for t in (a, b)]
    quarters = max(0, minutes[1] - minutes[0]) // 15
    return start + " interval %d %d %d %d %d" % (*minutes, quarters, is_day_period(a, b), is_cost_period(a, b))


def both_forms(date, hour="23", minute="00"):
    """a date as it stands, real or not, in a date-time and at each end of an interval"""
    yield "%sT%s:%s:00Z" % (date, hour, minute)
    yield "%sT%s:%sZ/%sT22:00Z" % (date, hour, minute, date)


def dates():
    for year in range(2000, 2100):
        for month in range(1, 13):
            first = datetime.date(year + month // 12, month % 12 + 1, 1)
            last = first - datetime.timedelta(days=1)
            yield last.isoformat()
            yield "%04d-%02d-%02d" % (year, month, last.day + 1)
        for day in (28, 29):
            yield "%04d-02-%02d" % (year, day)


def clocks():
    for hour in range(0, 26):
        yield from both_forms("2024-05-17", "%02d" % hour)
    for minute in (0, 1, 14, 15, 58, 59, 60, 61, 99):
        yield from both_forms("2024-05-17", "22", "%02d" % minute)
    for second in (0, 1, 58, 59, 60, 61, 99):
        yield "2024-05-17T22:00:%02dZ" % second
    yield "2016-12-31T23:59:60Z"


def other_dates():
    for year in ("0000", "1999", "1900", "2100", "2101", "9999", "24", "02024", "+024", "-024"):
        yield from both_forms(year + "-02-28")
        yield from both_forms(year + "-12-31")
    for date in ("2024-00-10", "2024-13-10", "2024-99-10", "2024-10-00", "2024-10-32", "2024-10-99", "2024-1-10", "2024-10-1",
                 "20241010", "2024/10/10", "2024-10", "2024", "", "10.10.2024"):
        yield from both_forms(date)


def periods():
    start = datetime.datetime(2024, 3, 30, 23)
    end = datetime.datetime(2024, 12, 31, 22, 45)
    minutes = (0, 1, 14, 15, 16, 60, 1379, 1380, 1381, 1440, 1500, 1501, 2820, 2880, 366 * 1440 - 15, 366 * 1440, 366 * 1440 + 15,
               366 * 1440 + 1, 367 * 1440)
    for t in (start, end, datetime.datetime(2024, 10, 26, 22), datetime.datetime(2024, 10, 26, 0, 7)):
        for n in minutes:
            for u in (t + datetime.timedelta(minutes=n), t - datetime.timedelta(minutes=n)):
                yield t.strftime("%Y-%m-%dT%H:%MZ/") + u.strftime("%Y-%m-%dT%H:%MZ")
    for text in ("2024-05-10T23:00Z/2024-05-11T22:00Z", "2000-01-01T23:00Z/2000-01-02T23:00Z", "2000-01-01T22:00Z/2000-01-02T22:00Z",
                 "2099-12-30T23:00Z/2099-12-31T23:00Z", "2099-12-31T23:00Z/2100-01-01T23:00Z"):
        yield text
    day = datetime.datetime(2024, 2, 28)
    for hour in (21, 22, 23, 24):
        for later in (44, 45, 46, 47, 48, 70, 71):
            a, b = day + datetime.timedelta(hours=hour), day + datetime.timedelta(hours=later)
            yield a.strftime("%Y-%m-%dT%H:%MZ/") + b.strftime("%Y-%m-%dT%H:%MZ")


def torn():
    """both forms with a part missing, added or written otherwise"""
    for text in ("2024-02-29T12:34:56Z", "2024-03-30T23:00Z/2024-03-31T22:00Z"):
        yield text
        for k in range(len(text)):
            yield text[:k]
            yield text[k:]
            yield text[:k] + text[k + 1:]
            yield text[:k] + " " + text[k:]
            for c in "x0:/é":
                yield text[:k] + c + text[k + 1:]
            if text[k].isdigit():
                d = int(text[k])
                for zero in (0x660, 0x966, 0xFF10, 0x1D7D8):
                    yield text[:k] + chr(zero + d) + text[k + 1:]
        for tail in (" ", "  ", "\t", "\r", "0", "Z", "/", "+00:00", text, "/" + text):
            yield text + tail
            yield tail + text
        yield text.lower()
        yield text.replace("T", "t")
        yield text.replace("Z", "z")
        yield text.replace("Z", "+00:00")
        yield text.replace("Z", "")
        yield text.replace("T", " ")
        yield text.replace("Z", ".000Z")
    yield "2024-03-30T23:00:00Z/2024-03-31T22:00:00Z"
    yield "2024-03-30T23:00Z"
    yield "2024-02-29T12:34Z"
    yield "2024-03-30T23:00Z/PT23H"


def values():
    yield "2024-02-29T00:00:00Z"
    yield "2023-02-29T00:00:00Z"
    yield "2024-03-30T23:00Z/2024-03-31T22:00Z"
    yield "2024-10-26T22:00Z/2024-10-27T23:00Z"
    yield "2000-01-01T00:00Z/2099-12-31T23:59Z"
    yield "2099-12-31T22:00Z/2100-01-01T22:00Z"
    yield "1999-12-31T22:00Z/2000-01-01T22:00Z"
    for date in dates():
        yield from both_forms(date)
    yield from clocks()
    yield from other_dates()
    yield from periods()
    yield from torn()


def broken():
    """bytes that are no characters, in the place of a character or beside it"""
    for text in (b"2024-02-29T12:34:56Z", b"2024-03-30T23:00Z/2024-03-31T22:00Z"):
        for k in (0, 4, 9, len(text) - 1):
            for bad in (b"\xff", b"\x80", b"\xc0\xb2", b"\xe2\x82", b"\xed\xa0\x80", b"\x00", b"\xf0\x9f"):
                yield text[:k] + bad + text[k + 1:]
                yield text[:k] + bad + text[k:]


def main():
    lines = [(v.encode(), answer(v)) for v in values()]
    lines += [(v, "date-time 0 no interval") for v in broken()]
    with open(sys.argv[1] + "/stdin", "wb") as f:
        f.write(b"".join(v + b"\n" for v, _ in lines))
    with open(sys.argv[1] + "/stdout", "w") as f:
        f.write("".join(a + "\n" for _, a in lines))


main()
