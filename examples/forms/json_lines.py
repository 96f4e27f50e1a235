"""JSON lines, an object a line, to webcache: json_lines.py [--time NAME] [--key NAME] [--size NAME] [--unit ms] <LOG >TRACE.

A NAME is that of a member, or names with dots between them, as response.bytes, of a member of a member. Without one the
first line must have one member of a usual name: those in NAMES. `--time line` takes the number of the line as the time. A
time is a number or a word without blanks, a key a number or any text, and a size digits, with or without quotes. A line
that lacks one of them is left out, and the first one is refused. Lines have at most a million bytes.

The time is kept as it stands, in the unit of the log; idle=T needs whole numbers. With `--unit ms` it is a number of seconds,
with a fraction or without, or a date and time as 2026-11-27T10:00:00.5Z, which has a zone; it is cut to whole milliseconds, of
a date those since 1970, and a line with another time is left out.
"""
import argparse
import datetime
import json
import os
import re
import signal
import sys

NAMES = {
    "time": "time timestamp ts @timestamp date datetime epoch".split(),
    "key": "key id url uri path object request_uri name".split(),
    "size": "size bytes length bytes_sent body_bytes_sent content_length response_size".split(),
}
LONGEST = 1_000_000
SECONDS = re.compile(r"([0-9]+)(?:\.([0-9]*))?")
DATE = re.compile(r"(\d{4}-\d\d-\d\d)[Tt](\d\d):(\d\d):(\d\d)(?:[.,](\d+))?(?:[Zz]|([-+])(\d\d):?(\d\d))", re.ASCII)


def refuse(kept, lines, why):
    sys.stdout.flush()
    sys.stderr.write(f"json_lines.py: line {lines} {why}\n")
    end(kept, lines, True)


def end(kept, lines, is_refused=False):
    sys.stdout.flush()
    sys.stderr.write(f"kept {kept} of {lines} lines\n")
    sys.exit(1 if is_refused or not kept else 0)


def object_of(line):
    """The object of a line, with numbers as they stand there, or None."""
    try:
        found = json.loads(line, parse_int=str, parse_float=str, parse_constant=str)
    except (ValueError, RecursionError):
        return None
    return found if isinstance(found, dict) else None


def member(found, name):
    """A text or a number, as a text, at a name with dots, or None. The whole name may be that of one member too."""
    if name not in found:
        first, dot, rest = name.partition(".")
        inner = found.get(first)
        return member(inner, rest) if dot and isinstance(inner, dict) else None
    return found[name] if isinstance(found[name], str) else None


def name_of(role, given, found, lines):
    """The name of a role: the one given, or the only usual one that the first object has."""
    if given:
        return given
    usual = [it for it in found if it.lower() in NAMES[role]]
    if len(usual) > 1:
        refuse(0, lines, f"has {len(usual)} members that may be the {role}; name one, as --{role} {usual[0]}")
    if not usual:
        refuse(0, lines, f"has no member that is called {', '.join(NAMES[role])}; name it: --{role} NAME")
    return usual[0]


def in_ms(time):
    """The whole milliseconds of a time in seconds, or from 1970 to a date, as a text; or None. It is cut as a text."""
    if found := SECONDS.fullmatch(time):
        return found[1] + f"{found[2] or ''}000"[:3]
    found = DATE.fullmatch(time)
    try:
        days = datetime.date.fromisoformat(found[1]).toordinal() - datetime.date(1970, 1, 1).toordinal() if found else -1
    except ValueError:
        return None
    if days < 0:
        return None
    hours, minutes, seconds, zone_hours, zone_minutes = (int(found[at] or 0) for at in (2, 3, 4, 7, 8))
    zone = 60 * (60 * zone_hours + zone_minutes) * (-1 if found[6] == "-" else 1)
    whole = 86400 * days + 60 * (60 * hours + minutes) + seconds - zone
    return str(whole) + f"{found[5] or ''}000"[:3] if whole >= 0 else None


def request_of(found, names, unit, number):
    """Time, key and size of a line, or None."""
    time = str(number) if names["time"] == "line" else member(found, names["time"])
    key, size = member(found, names["key"]), member(found, names["size"])
    if None in (time, key, size) or not re.fullmatch(r"[!-~]+", time) or not re.fullmatch(r"[0-9]+", size):
        return None
    time = in_ms(time) if unit else time
    return time and (time, key, size)


def names_of(found, given, lines):
    """The name of each role, from the first line that isn't blank. It is refused if it isn't a request by them."""
    if found is None:
        refuse(0, lines, "must be one object of JSON; a list of them is brought to lines by: jq -c '.[]'")
    names = {role: name_of(role, given[role], found, lines) for role in NAMES}
    if not request_of(found, names, given["unit"], lines):
        time = "a time in seconds or a date with its zone" if given["unit"] else "a time without blanks"
        refuse(0, lines, f"must have {', '.join(names.values())}: {time}, a key, and a size in digits")
    return names


def convert(source, given):
    names, ids, lines, kept = None, {}, 0, 0
    while line := source.readline(LONGEST + 2):
        lines += 1
        if len(line.rstrip(b"\r\n")) > LONGEST:
            refuse(kept, lines, f"has more than {LONGEST} bytes")
        if not line.strip():
            continue
        found = object_of(line)
        if not names:
            names = names_of(found, given, lines)
        request = found and request_of(found, names, given["unit"], lines)
        if request:
            time, key, size = request
            print(time, ids.setdefault(key, len(ids) + 1), size)
            kept += 1
    end(kept, lines)


def main():
    # An interrupt, or a reader that leaves, ends it without a word, as it ends other filters.
    signal.signal(signal.SIGINT, signal.SIG_DFL)
    signal.signal(signal.SIGPIPE, signal.SIG_DFL)
    parser = argparse.ArgumentParser(
        "json_lines.py", "python3 json_lines.py [--time NAME] [--key NAME] [--size NAME] [--unit ms] <LOG >TRACE", allow_abbrev=False
    )
    for role in NAMES:
        parser.add_argument(f"--{role}", metavar="NAME")
    parser.add_argument("--unit", metavar="ms")
    given = vars(parser.parse_args())
    if given["unit"] not in (None, "ms"):
        parser.error("--unit must be ms")
    if given["unit"] and given["time"] == "line":
        parser.error("--unit ms needs a time, and --time line takes the number of the line")
    try:
        with open(0, "rb") as source:
            convert(source, given)
    except (OSError, MemoryError) as error:
        sys.stderr.write(f"json_lines.py: {error or 'out of memory'}\n")
        sys.stderr.flush()
        os._exit(1)


main()
