#!/usr/bin/env python3
"""The upper bound of a line of `sweep` from the trace and its edge: area.py TRACE CAPACITY OBJECTIVE EDGE [WARMUP [DELAY]].

TRACE is of webcache lines (time, id, size). Edge 1 stands for no price: each request that can be a hit is counted.
"""
import sys

path, capacity, objective, edge = sys.argv[1], int(sys.argv[2]), sys.argv[3], int(sys.argv[4])
warmup, delay = [int(word) for word in sys.argv[5:]] + [0, 0][len(sys.argv) - 5:]
last, requests, total = {}, 0, 0
for line in open(path, "rb"):
    words = line.split()
    if words and (size := int(words[2])):
        one = (int(words[1]), size)
        if one in last and size <= capacity and requests >= warmup:
            gain, length = (1 if objective == "object" else size), max(0, requests - last[one] - delay)
            total += gain if edge == 1 else max(0, edge * gain - size * length)
        last[one], requests = requests, requests + 1
total += 0 if edge == 1 else capacity * max(0, requests - 1)
print(f"upper {total}/{edge} floor {total // edge}")
