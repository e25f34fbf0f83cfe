"""What a build asks of the machine, and what it tells where it gets too little."""
import contextlib
import errno
import os
import re
import resource
import shutil

from .crates import NotBuilt, text_of

FULL = "free some of it, and start again; nothing half-built is kept"
# The limits of control groups, of both versions: the file of the limit, that of what is taken, and how it is told there.
GROUPS = [
    ("/sys/fs/cgroup/memory.max", "/sys/fs/cgroup/memory.stat", r"anon (\d+)"),
    ("/sys/fs/cgroup/memory/memory.limit_in_bytes", "/sys/fs/cgroup/memory/memory.stat", r"total_rss (\d+)"),
]


def free_memory():
    """Returns how many bytes of memory can be had."""
    limits = [resource.getrlimit(resource.RLIMIT_AS)[0]]
    found = re.search(r"MemAvailable: +(\d+) kB", text_of("/proc/meminfo") or "")
    limits += [int(found[1]) << 10] if found else []
    for limit, taken, told in GROUPS:
        with contextlib.suppress(ValueError, TypeError):
            limits.append(int(text_of(limit)) - int(re.search(told, text_of(taken))[1]))
    return min((it for it in limits if it != resource.RLIM_INFINITY), default=1 << 60)


def need_memory(least, what):
    """Fails where less memory can be had."""
    has = free_memory()
    if has < least:
        raise NotBuilt(f"{what} needs {least / 2**30:.0f} GB of memory, and {max(has, 0) / 2**30:.1f} GB can be had: end other programs, and start again")


def is_full(folder):
    """Returns whether the disk of a folder has no room left."""
    return shutil.disk_usage(folder).free < 1 << 20


def refused(error):
    """Returns what is told where the system refuses a file."""
    if error.errno in (errno.ENOSPC, errno.EDQUOT, errno.EFBIG):
        return NotBuilt(f"the disk is full ({error.filename or os.strerror(error.errno)}): {FULL}")
    return NotBuilt(f"{error.filename or 'a file'}: {error.strerror}")
