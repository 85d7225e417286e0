"""Makes what days_run has to print: for each day from 2000-01-01 to 2099-12-31, which pairs of hours a period of kind 1 may start and end at.

    python3 days.py FOLDER      writes FOLDER/stdout

1 for 22:00Z to 22:00Z of the next date, 2 for 22:00Z to 23:00Z, 4 for 23:00Z to 22:00Z, 8 for 23:00Z to 23:00Z, added up; four years to a line. Local midnight
comes from the time zones of this machine, so from none of the project's tables.
"""
import datetime
import sys
import zoneinfo

BERLIN = zoneinfo.ZoneInfo("Europe/Berlin")
LINE = 1461


def hour_of_start(day):
    """the hour, in UTC, at which a day starts in Germany"""
    start = datetime.datetime(day.year, day.month, day.day, tzinfo=BERLIN).astimezone(datetime.timezone.utc)
    assert start.date() == day - datetime.timedelta(days=1) and start.minute == 0
    return start.hour


def mark(date):
    """of the day that begins on the evening of this date"""
    day = date + datetime.timedelta(days=1)
    pair = (hour_of_start(day), hour_of_start(day + datetime.timedelta(days=1)))
    return {(22, 22): "1", (22, 23): "2", (23, 22): "4", (23, 23): "8"}[pair]


def main():
    first = datetime.date(2000, 1, 1)
    count = (datetime.date(2100, 1, 1) - first).days
    marks = "".join(mark(first + datetime.timedelta(days=n)) for n in range(count))
    with open(sys.argv[1] + "/stdout", "w") as f:
        f.write("".join(marks[k:k + LINE] + "\n" for k in range(0, count, LINE)))


main()
