"""What running programs have read of a file and what memory they hold, as the system's table of processes says it.

examples/compare and examples/long show it on a terminal.
"""
import os

PAGE = os.sysconf("SC_PAGE_SIZE")


def processes_of(group):
    """The folders of the processes of a group in the system's table, with the bytes of memory that each holds."""
    for entry in os.scandir("/proc"):
        try:
            with open(f"{entry.path}/stat") as stat:
                fields = stat.read().rpartition(")")[2].split()
        except (OSError, UnicodeDecodeError):
            continue
        if len(fields) > 21 and fields[2] == str(group):
            yield entry.path, int(fields[21]) * PAGE


def parts_read(process, path):
    """How much a process has read of a file, from 0 to 1, for each time that it has it open."""
    for fd in os.listdir(f"{process}/fd"):
        try:
            if os.path.samefile(f"{process}/fd/{fd}", path):
                with open(f"{process}/fdinfo/{fd}") as info:
                    yield int(info.readline().split()[1]) / max(os.path.getsize(path), 1)
        except OSError:
            continue


def progress(group, path, seconds):
    """A text: how long the runs of a group have taken, the least part of the trace that one has read, and their memory."""
    read, memory = [], 0
    for process, held in processes_of(group):
        memory += held
        try:
            read += parts_read(process, path)
        except OSError:
            continue
    of_file = f", {100 * min(read):.0f}% of the trace read" if read else ""
    return f"{seconds:.0f} s{of_file}, {memory / 1e6:.0f} MB of memory"
