"""Makes what periods_run has to print: from a period's text to N, by another count of days than the project's.

    python3 periods.py FOLDER      writes FOLDER/stdin and FOLDER/stdout

The number of a date, its leap days and where its month starts come from the standard library's datetime and calendar.
"""
import calendar
import datetime
import sys

PERIODS = ("2024-02-27T23:00Z/2024-03-01T23:00Z", "2024-03-30T23:00Z/2024-03-31T22:00Z")


def sum_of(moment):
    day = moment.date()
    years = day.year - 2000
    leaps = calendar.leapdays(2000, day.year)
    month = (day.replace(day=1) - datetime.date(day.year, 1, 1)).days
    number = (day - datetime.date(2000, 1, 1)).days
    assert number == 365 * years + leaps + month + day.day - 1
    return "  years %d + leap days %d + month %d + day %d = %d" % (365 * years, leaps, month, day.day - 1, number)


def quarters(moment):
    return (moment.hour * 60 + moment.minute) // 15


def lines_of(text):
    start, end = (datetime.datetime.strptime(part, "%Y-%m-%dT%H:%MZ") for part in text.split("/"))
    yield text
    yield sum_of(start)
    yield sum_of(end)
    yield "  days %d, quarter hours of the last day %d, of the first %d" % ((end.date() - start.date()).days, quarters(end), quarters(start))
    yield "  N %d" % ((end - start) // datetime.timedelta(minutes=15))


def main():
    with open(sys.argv[1] + "/stdin", "w") as f:
        f.write("".join(text + "\n" for text in PERIODS))
    with open(sys.argv[1] + "/stdout", "w") as f:
        f.write("".join(line + "\n" for text in PERIODS for line in lines_of(text)))


main()
