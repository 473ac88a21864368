"""What of the machine is free, and what a check takes of it."""

import re
from typing import Optional

# Bytes: more than one process of a check of any crate takes.
MOST_TAKEN = 3 * 10**9


def number_in(path: str, pattern: str) -> Optional[int]:
    try:
        with open(path, encoding="ascii") as file:
            found = re.search(pattern, file.read())
    except OSError:
        return None
    return int(found[1]) if found else None


def free() -> int:
    """The free memory in bytes, under the limit of the control group too."""
    found = [1024 * (number_in("/proc/meminfo", r"MemAvailable:\s+(\d+)") or 0)]
    limit = number_in("/sys/fs/cgroup/memory.max", r"(\d+)")
    held = number_in("/sys/fs/cgroup/memory.current", r"(\d+)")
    if limit is not None and held is not None:
        # of what it holds, files that weren't read of late are let go where room is wanted
        found.append(limit - held + (number_in("/sys/fs/cgroup/memory.stat", r"inactive_file (\d+)") or 0))
    return min(found)
