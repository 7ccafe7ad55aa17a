# SPDX-License-Identifier: MIT OR Apache-2.0
"""What this machine has for programs that run side by side."""
import contextlib
import os
import re

# What limits the memory of a control group, and how much it uses.
GROUPS = (("memory.max", "memory.current"), ("memory/memory.limit_in_bytes", "memory/memory.usage_in_bytes"))


def processors():
    """How many processors this process may use."""
    return len(os.sched_getaffinity(0))


def number_in(file):
    """The number that a file has."""
    with open(file, encoding="utf-8") as text:
        return int(text.read())


def free_memory():
    """The bytes that are free, under the limits of a control group too; 0 where the system doesn't say."""
    free = 0
    with contextlib.suppress(OSError):
        with open("/proc/meminfo", encoding="utf-8") as text:
            free = 1024 * int(re.search(r"MemAvailable:\s+(\d+)", text.read())[1])
    for limit, used in GROUPS:
        with contextlib.suppress(OSError, ValueError):
            free = min(free, number_in(f"/sys/fs/cgroup/{limit}") - number_in(f"/sys/fs/cgroup/{used}"))
    return free
