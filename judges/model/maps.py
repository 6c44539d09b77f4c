"""The heap map (W-201) by the rules: the map of a heap, and which bytes are a map.

`map_of` goes by the headers of the model's heap, or of one made of the words that the Rust has left. `first_bad` goes by one regular expression and
by sums of lengths, and shares nothing with `map_of`. tests/map, tests/c, tests/trace and meter hold the proved programs and the library to both.
"""

import re
from itertools import accumulate

import model

PLACES = 4  # cache places of the programs that write and read maps
NO_MAP = b"050000000000000000\n"
LINE = re.compile(rb"(1[012])([0-9A-F]{8})([0-9A-F]{8})\n")


def rows_of(heap):
    """The lines of a heap's map, without their line feeds: one for each chunk that its headers give, up to the guard's word."""
    rows = []
    for chunk in heap.chunks():
        cached = chunk.link in heap.record.cached
        rows.append("%02X%08X%08X" % (0x12 if cached else 0x11 if chunk.used else 0x10, 4 * chunk.w, chunk.length))
    return rows


def map_of(heap):
    """The map of a heap, or the line that says that none is made."""
    if heap.record.words == 0:
        return NO_MAP
    return "".join(row + "\n" for row in rows_of(heap)).encode()


def lines_of(data):
    """The lines of some bytes, each with its line feed; the last may have none."""
    return re.findall(rb"[^\n]*\n|[^\n]+\Z", data)


def first_bad(data):
    """The number of the first line that is malformed or cannot follow, or 0. A line's number counts the line feeds before it."""
    lines = lines_of(data)
    read = [LINE.fullmatch(line) for line in lines]
    good = next((k for k, row in enumerate(read) if row is None), len(read))
    kinds = [row[1] for row in read[:good]]
    at, lengths = ([int(row[field], 16) for row in read[:good]] for field in (2, 3))
    ends = list(accumulate(lengths, initial=0))
    bad = [good + 1] if good < len(read) or not lines else []
    bad += [k + 1 for k in range(good) if at[k] != ends[k]]
    bad += [k + 1 for k in range(good) if lengths[k] < 16 or lengths[k] % 8 or not model.accepted(ends[k + 1] // 4 + 1)]
    bad += [k + 1 for k in range(1, good) if kinds[k - 1] == kinds[k] == b"10"]
    bad += [k + 1 for k in range(good) if kinds[k] == b"12"][PLACES:]
    return min(bad, default=0)
