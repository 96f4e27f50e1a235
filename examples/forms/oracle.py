"""webcache lines to oracleGeneral records of 24 bytes, or with the argument `lines` the records to lines.

A record is packed and little endian: a u32 of the time, a u64 of the id, a u32 of the size in bytes, and an i64 of
the number, from 0, of the next request of that id, or -1. Blank lines are left out. A part of a record, or a line that
doesn't begin with three numbers in these ranges, is refused with status 1, and of lines nothing is written then. Lines
have at most 65,535 bytes, and there are at most 2^25 of them, as it keeps them all.
"""
import array
import os
import signal
import struct
import sys

RECORD = struct.Struct("<IQIq")
BITS = 32, 64, 32
LONGEST = 65535
MOST = 2**25


def end(kept, of, what, refused=None):
    """Says how many are kept, and why one is refused. The status is 1 if one is or if none is kept."""
    sys.stdout.flush()
    if refused:
        sys.stderr.write(f"oracle.py: {refused}\n")
    sys.stderr.write(f"kept {kept} of {of} {what}\n")
    sys.exit(1 if refused or not kept else 0)


def to_lines(source):
    kept = 0
    while record := source.read(RECORD.size):
        if len(record) < RECORD.size:
            end(kept, kept + 1, "records", f"record {kept + 1} must have {RECORD.size} bytes, and has {len(record)}")
        time, id_, size, _ = RECORD.unpack(record)
        print(time, id_, size)
        kept += 1
    end(kept, kept, "records")


def numbers_of(words):
    """The numbers of a line, if it begins with three in their ranges."""
    if len(words) < 3 or not all(it.isdigit() for it in words[:3]):
        return None
    plain = [it.lstrip(b"0") or b"0" for it in words[:3]]
    if any(len(it) > 20 or int(it) >= 2**bits for it, bits in zip(plain, BITS)):
        return None
    return [int(it) for it in plain]


def requests_of(source):
    """The times, ids and sizes of the lines, and how many lines there are."""
    times, ids, sizes, lines = array.array("I"), array.array("Q"), array.array("I"), 0
    while line := source.readline(LONGEST + 2):
        lines += 1
        line = line.removesuffix(b"\n")
        if len(line) > LONGEST:
            end(0, lines, "lines", f"line {lines} has more than {LONGEST} bytes")
        words = line.removesuffix(b"\r").replace(b"\t", b" ").split(b" ")
        words = [it for it in words if it]
        if not words:
            continue
        numbers = numbers_of(words)
        if not numbers:
            end(0, lines, "lines", f"line {lines} must be a time below 2^32, an id below 2^64 and a size below 2^32")
        if len(ids) == MOST:
            end(0, lines, "lines", f"line {lines} goes beyond 2^25 requests, the most that it keeps: cut the trace, or give its lines to sweep")
        for column, number in zip((times, ids, sizes), numbers):
            column.append(number)
    return times, ids, sizes, lines


def to_records(source):
    times, ids, sizes, lines = requests_of(source)
    following, later = array.array("q", [-1]) * len(ids), {}
    for number in reversed(range(len(ids))):
        following[number] = later.get(ids[number], -1)
        later[ids[number]] = number
    for request in zip(times, ids, sizes, following):
        sys.stdout.buffer.write(RECORD.pack(*request))
    end(len(ids), lines, "lines")


def main():
    # An interrupt, or a reader that leaves, ends it without a word, as it ends other filters.
    signal.signal(signal.SIGINT, signal.SIG_DFL)
    signal.signal(signal.SIGPIPE, signal.SIG_DFL)
    try:
        if sys.argv[1:] not in ([], ["lines"]):
            end(0, 0, "lines", "usage: oracle.py <LINES >RECORDS, or oracle.py lines <RECORDS >LINES")
        with open(0, "rb") as source:
            (to_lines if sys.argv[1:] else to_records)(source)
    except (OSError, MemoryError) as error:
        sys.stderr.write(f"oracle.py: {error or 'out of memory'}\n")
        sys.stderr.flush()
        os._exit(1)


main()
