#!/usr/bin/env python3
"""Replays GDSF on a webcache trace: examples/gdsf.py CAPACITY [gdsf98] [flags] <TRACE

The object of the least rank goes, the floor rises to its rank, and the rank of an object is the floor at its last request
plus its requests over its size: GreedyDual-Size (Cao and Irani 1997) with a count of requests. With the word `gdsf98` the
rule is that of Cherkasova 1998: an object comes in only if none that goes for it has a greater rank, and then its rank is
over the floor before. It writes the hits and their bytes, or with the word `flags` a line for each request, 1 for a hit and
0 for a miss, as `bound_cli judge` takes them.
"""
import heapq
import re
import sys

WORTH = 2**48  # of a request of one byte; so that ranks are whole numbers


class Cache:
    def __init__(self, capacity, admits):
        self.capacity, self.admits, self.used, self.floor = capacity, admits, 0, 0
        self.held, self.heap = {}, []  # of each object its requests and its rank; and (rank, time, object), some out of date

    def request(self, now, item, size):
        """Whether the object is a hit, after which it is held if it fits and, by gdsf98, if no greater rank goes for it."""
        is_hit = item in self.held
        if size > self.capacity:
            return is_hit
        count = self.held[item][0] + 1 if is_hit else 1
        rank = self.floor + count * (WORTH // size)
        if not is_hit:
            gone = self.least(size)
            if self.admits and gone and gone[-1][0] > rank:
                for entry in gone:
                    heapq.heappush(self.heap, entry)
                return False
            for self.floor, _, first in gone:
                self.used -= first[1]
                del self.held[first]
            rank = rank if self.admits else self.floor + WORTH // size
            self.used += size
        self.held[item] = count, rank, now
        heapq.heappush(self.heap, (rank, now, item))
        return is_hit

    def least(self, size):
        """The entries of the least ranks, until this many bytes fit. They leave the heap, and are held."""
        gone, left = [], self.used
        while left + size > self.capacity:
            rank, time, first = entry = heapq.heappop(self.heap)
            if self.held.get(first, (0, 0, 0))[1:] == (rank, time):
                gone.append(entry)
                left -= first[1]
        return gone


def fail(why):
    sys.exit(f"gdsf.py: {why}")


def objects_in(lines):
    """The id and the size of each line that asks for something, read as the program reads it."""
    for number, line in enumerate(lines, 1):
        words = re.split(rb"[ \t]+", line.removesuffix(b"\n").removesuffix(b"\r").strip(b" \t"))
        if words == [b""]:
            continue
        if len(words) < 3 or not all(re.fullmatch(rb"0*[0-9]{1,20}", word) for word in words[1:3]):
            fail(f"line {number} must be: time id size")
        name, size = int(words[1]), int(words[2])
        if name >= 2**64 or size > 2**48:
            fail(f"line {number} has a number that is too large")
        if size:
            yield name, size


def main():
    capacity, *words = sys.argv[1:] or [""]
    if not re.fullmatch("0*[1-9][0-9]{0,19}", capacity) or not set(words) <= {"gdsf98", "flags"}:
        fail("usage: examples/gdsf.py CAPACITY [gdsf98] [flags] <TRACE")
    cache, hits, size_of_hits = Cache(int(capacity), "gdsf98" in words), 0, 0
    for now, (name, size) in enumerate(objects_in(sys.stdin.buffer)):
        is_hit = cache.request(now, (name, size), size)
        hits, size_of_hits = hits + is_hit, size_of_hits + is_hit * size
        if "flags" in words:
            print(int(is_hit))
    if "flags" not in words:
        print(f"hits {hits} bytes {size_of_hits}")


main()
