#!/usr/bin/env python3
"""Checks a certificate against a webcache trace, by the rules of docs/DEFINITIONS.md alone: check.py TRACE CERT [reads] [idle=T] [replace=yes]

It has nothing of the program, and no proof: a second opinion that can be read whole. With `reads` a line with w only fills."""
import re, sys

NUMBER = rb"(0|[1-9][0-9]*)"
HEAD = rb"cache-bound-certificate ([12])\nobjective (object|bytes)\ncapacity N\nrequests N\nunit N\ndenominator N\nform (exact|plain)\n"
HEAD = (HEAD + rb"upper N\nflow N\nlower N\n(?:warmup ([1-9][0-9]*)\n)?records\n").replace(b"N", NUMBER)

def must(holds, why):
    if not holds:
        sys.exit(f"not valid: {why}")

def records_in(lines, is_short):
    """The price, the keep and the flow of each record. In version 2 a price that is as the one before is left out."""
    last, form = 0, re.compile((b"(?:%s )?" if is_short else b"%s ") % NUMBER + rb"([01]) " + NUMBER)
    for number, line in enumerate(lines):
        found = form.fullmatch(line)
        must(found and not (is_short and found[1] and int(found[1]) == last), f"record {number} is none")
        last = int(found[1] or last)
        yield last, found[2] == b"1", int(found[3])

def check(trace, text, reads, idle=None, replace="no"):
    head = re.match(HEAD, text)
    must(head and text.endswith(b"\nend\n"), "it is no certificate")
    by_bytes, is_exact = head[2] == b"bytes", head[7] == b"exact"
    capacity, count, unit, denominator, upper, flow, lower, warmup = (int(head[at] or 0) for at in (3, 4, 5, 6, 8, 9, 10, 11))
    must(1 <= unit <= capacity <= 2**56 and 1 <= denominator <= 2**48 and max(count, warmup) <= 2**25, "a number of its head is out of range")
    records = records_in(text[head.end() : -4].split(b"\n")[:-1], head[1] == b"2")
    units, latest, sizes, held = capacity // unit, {}, {}, 0  # latest: of each object the prices so far, keep, flow and clock
    bound = value = score = price = total = load = prices = clock = 0
    for words in (words for words in map(bytes.split, trace) if words and int(words[2])):
        name, size = (int(words[1]), int(words[2])), int(words[2])
        price, keep, amount = next(records, None) or must(False, f"there are more requests than its {total} records")
        before, kept, flowed, since = latest.get(name, (None, False, 0, 0))
        clock = clock if idle is None else max(clock, int(words[0]))
        is_stale = clock > since + int(idle or 0) or replace == "yes" and sizes.get(name[0]) != size
        if before is not None and not is_stale and size <= capacity and total >= warmup and (not reads or words[3] == b"r"):
            gain, weight = size if by_bytes else 1, size // unit
            must(size % unit == 0, f"its unit doesn't divide {size}")
            must(not is_exact or gain * denominator % weight == 0, f"its denominator rounds a cost of {size}")
            bound += max(0, gain * denominator - weight * (prices - before))
            value += gain * denominator // weight * flowed
            score += gain * kept
        else:
            must(flowed == 0, f"a flow ends at request {total}, which is no hit")
        held, load, total = held + size * (keep - kept), load + amount - flowed, total + 1
        must(held <= capacity and load <= units, f"step {total - 1} is overfull")
        must(amount <= (size // unit if size <= capacity else 0), f"a flow is above its weight at step {total - 1}")
        latest[name], sizes[name[0]], prices = (prices, keep, amount, clock), size, prices + price
        must(units * prices <= 2**126, "its prices are too large")
    must(total == count and next(records, None) is None and price == 0, "other requests, or a last price above 0")
    must(all(flowed == 0 for _, _, flowed, _ in latest.values()), "a flow goes past the last request of its object")
    must((upper, flow, lower) == (bound + units * prices, value, score) and (not is_exact or upper == flow), "other bounds")
    print(f"upper {upper}/{denominator} floor {upper // denominator}\nlower {lower}\nvalid")

if len(sys.argv) < 3 or "--help" in sys.argv:
    sys.exit(print(__doc__) if "--help" in sys.argv else __doc__)
check(open(sys.argv[1], "rb"), open(sys.argv[2], "rb").read(), "reads" in sys.argv, **dict(word.split("=") for word in sys.argv[3:] if re.match("idle=|replace=", word)))
