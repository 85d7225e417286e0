#!/usr/bin/env python3
"""Views a sheet on standard input through the shared object: sender and period, and of each series what its prices may be held against.

usage: views.py [LIBRARY]     liblumintayag.so where the loader finds it, if not said
"""
import ctypes
import re
import sys
from datetime import datetime, timedelta

VERSION, HEADER_PAIRS, SERIES_PAIRS, VIEWS_NUMBERS = 800, 16, 22, 6  # lumintayag.h
REFUSAL, PLACE, KIND, SERIES, FROM, TO = range(6)
DOCUMENT, SENDER = 3, 7
TIME_SERIES_IDENTIFICATION, BUSINESS_TYPE = 16, 17
# Direction and MeasurementUnit by kind; there is no Direction in kind 1.
DIRECTION, MEASUREMENT_UNIT = {2: 18, 3: 18}, {1: 27, 2: 27, 3: 29}

library = ctypes.CDLL(sys.argv[1] if len(sys.argv) > 1 else "liblumintayag.so")
if library.lumintayag_version() != VERSION:
    sys.exit(f"the library is of version {library.lumintayag_version()}, and this program is for {VERSION}")
u32_slice = [ctypes.POINTER(ctypes.c_uint32), ctypes.c_size_t]
views = library.lumintayag_views
views.restype, views.argtypes = ctypes.c_uint32, [ctypes.c_char_p, ctypes.c_size_t] + u32_slice + u32_slice

doc = sys.stdin.buffer.read()
table, answer = (ctypes.c_uint32 * (2 * (HEADER_PAIRS + 64 * SERIES_PAIRS)))(), (ctypes.c_uint32 * VIEWS_NUMBERS)()


def shown(pair, series=0):
    """What the value that a pair shows says, and `-` where the document has none."""
    if pair is None:
        return "-"
    cell = 2 * (pair + SERIES_PAIRS * series)
    start, length = table[cell], table[cell + 1]
    return re.sub("&([^;]*);", said, doc[start : start + length].decode()) if start else "-"


def said(reference):
    """The character of a reference, of which an accepted document has no others."""
    name = reference[1]
    if name.startswith("#"):
        return chr(int(name[2:], 16) if name[1] == "x" else int(name[1:].lstrip("0")))
    return {"amp": "&", "lt": "<", "gt": ">", "quot": '"', "apos": "'"}[name]


def time(minutes):
    return (datetime(2000, 1, 1) + timedelta(minutes=minutes)).strftime("%Y-%m-%dT%H:%MZ")


if views(doc, len(doc), table, len(table), answer, len(answer)):
    sys.exit(f"refusal {answer[REFUSAL]} at {answer[PLACE]}")
kind = answer[KIND]
print(f"{shown(DOCUMENT)} of {shown(SENDER)}, kind {kind}, from {time(answer[FROM])} to {time(answer[TO])}")
for i in range(answer[SERIES]):
    like = [shown(pair, i) for pair in (BUSINESS_TYPE, DIRECTION.get(kind), MEASUREMENT_UNIT[kind])]
    print(shown(TIME_SERIES_IDENTIFICATION, i), *like)
