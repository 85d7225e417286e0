#!/usr/bin/env python3
"""Reads a sheet on standard input through the shared object, and prints what README's programs print.

usage: read.py [LIBRARY]     liblumintayag.so where the loader finds it, if not said
"""
import ctypes
import sys

VERSION, ROW, NOTE_OLD, NOTE_ROOM, ANSWER_NUMBERS = 800, 12, 0, 16, 7  # lumintayag.h
REFUSAL, PLACE, SERIES = 0, 1, 3

library = ctypes.CDLL(sys.argv[1] if len(sys.argv) > 1 else "liblumintayag.so")
if library.lumintayag_version() != VERSION:
    sys.exit(f"the library is of version {library.lumintayag_version()}, and this program is for {VERSION}")
doc_slice, u32_slice = [ctypes.c_char_p, ctypes.c_size_t], [ctypes.POINTER(ctypes.c_uint32), ctypes.c_size_t]
i64_slice, u8_slice = [ctypes.POINTER(ctypes.c_int64), ctypes.c_size_t], [ctypes.POINTER(ctypes.c_uint8), ctypes.c_size_t]
read = library.lumintayag_read_v3
read.restype, read.argtypes = ctypes.c_uint32, doc_slice + u32_slice + u32_slice + i64_slice + [ctypes.c_uint32] + u8_slice + u32_slice

doc = sys.stdin.buffer.read()
series, positions, amounts = (ctypes.c_uint32 * (64 * ROW))(), (ctypes.c_uint32 * 2048)(), (ctypes.c_int64 * 2048)()
note, answer = (ctypes.c_uint8 * NOTE_ROOM)(), (ctypes.c_uint32 * ANSWER_NUMBERS)()


def lent(*tables):
    return [part for table in tables for part in (table, len(table))]


read(doc, len(doc), *lent(series, positions, amounts), NOTE_OLD, *lent(note, answer))
print(f"refusal {answer[REFUSAL]} at {answer[PLACE]}, series {answer[SERIES]}")
