"""The processors and the memory that this process may use: those of the machine, or its control group's part of them."""
import os
import re
from pathlib import Path

GROUPS = Path("/sys/fs/cgroup")
# A group's limit of memory, and what it holds and can't give back, in bytes, by the version of control groups.
MEMORY = [
    (("memory.max", r"(\d+)"), ("memory.stat", r"(?m)^anon (\d+)")),
    (("memory/memory.limit_in_bytes", r"(\d+)"), ("memory/memory.stat", r"(?m)^total_rss (\d+)")),
]
# The processor time that a group may use in a period, and the period.
TIME = [
    (("cpu.max", r"^(\d+)"), ("cpu.max", r" (\d+)")),
    (("cpu/cpu.cfs_quota_us", r"^(\d+)"), ("cpu/cpu.cfs_period_us", r"(\d+)")),
]


def number_in(file, pattern):
    """Returns the number in a file of the system, or None if there is no such file or it sets no limit."""
    try:
        found = re.search(pattern, file.read_text(encoding="utf-8"))
    except OSError:
        return None
    return int(found[1]) if found else None


def pairs_of(files):
    """Yields each pair of numbers of these files that the system gives."""
    for pair in files:
        first, second = (number_in(GROUPS / name, pattern) for name, pattern in pair)
        if first is not None and second is not None:
            yield first, second


def processors():
    """Returns how many processors this process may use at one time."""
    return min([len(os.sched_getaffinity(0)), *(max(1, quota // period) for quota, period in pairs_of(TIME))])


def free_memory():
    """Returns how many bytes of memory this process may still take."""
    available = 1024 * number_in(Path("/proc/meminfo"), r"MemAvailable:\s+(\d+)")
    return min([available, *(max(0, limit - held) for limit, held in pairs_of(MEMORY))])
