"""Prints how many checks may run side by side here: one a processor, and one for each 3 GB of free memory."""

import os
import pathlib
import re

EACH = 3_000_000_000


def free_memory():
    """The free memory in bytes, or as much as any number of checks needs where the system does not say."""
    try:
        found = re.search(r"MemAvailable:\s+(\d+) kB", pathlib.Path("/proc/meminfo").read_text())
    except OSError:
        found = None
    return int(found[1]) * 1024 if found else EACH * os.cpu_count()


print(max(1, min(len(os.sched_getaffinity(0)), free_memory() // EACH)))
