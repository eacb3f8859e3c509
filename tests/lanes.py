#!/usr/bin/env python3
"""lanes.py: prints how many checks are to run side by side (RT_JOBS of rt), or nothing where rt is to choose.

That is one a processor if each has 4 GB of free memory: the dearest crate takes 7 GB and most take 1 to 2, where rt plans
on three times as much and leaves processors idle. With less memory, rt's own plan is the safer one. With more than 12 GB
a processor, its plan holds none back, and it gives a crate that is alone several jobs, which a fixed number forbids.
"""
import os
import re

LEAST, MOST = 4 << 30, 12 << 30
# What a control group allows: first by version 2, then by version 1.
QUOTAS = (
    ("/sys/fs/cgroup/cpu.max", r"^(\d+)", "/sys/fs/cgroup/cpu.max", r" (\d+)"),
    ("/sys/fs/cgroup/cpu/cpu.cfs_quota_us", r"^(\d+)", "/sys/fs/cgroup/cpu/cpu.cfs_period_us", r"(\d+)"),
)
MEMORY = (
    ("/sys/fs/cgroup/memory.max", r"(\d+)", "/sys/fs/cgroup/memory.stat", r"anon (\d+)"),
    ("/sys/fs/cgroup/memory/memory.limit_in_bytes", r"(\d+)", "/sys/fs/cgroup/memory/memory.stat", r"total_rss (\d+)"),
)


def number_in(file, pattern):
    """The number that the pattern finds in a file, or None."""
    try:
        with open(file, encoding="utf-8") as text:
            found = re.search(pattern, text.read())
    except OSError:
        return None
    return int(found[1]) if found else None


def pairs_of(table):
    """The two numbers of each row that has both."""
    for file, pattern, other, its_pattern in table:
        pair = number_in(file, pattern), number_in(other, its_pattern)
        if None not in pair:
            yield pair


def processors():
    return min([len(os.sched_getaffinity(0)), *(max(quota // period, 1) for quota, period in pairs_of(QUOTAS))])


def free_memory():
    """The bytes that processes can still take."""
    free = 1024 * (number_in("/proc/meminfo", r"MemAvailable:\s+(\d+)") or 0)
    return min([free, *(limit - held for limit, held in pairs_of(MEMORY))])


def lanes():
    """How many checks there is a processor and memory for, at least one."""
    return max(1, min(processors(), free_memory() // LEAST))


if __name__ == "__main__":
    print(processors() if LEAST <= free_memory() / processors() <= MOST else "")
