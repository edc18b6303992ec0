"""What tools share: which crate uses which, the free memory, how a process gives way, the tree of a
commit, and how a run of `rt try` is made quicker."""

import contextlib
import os
import signal
import subprocess
import sys
import tempfile
import threading
import time

TOP = os.path.dirname(os.path.dirname(os.path.realpath(__file__)))
# Where a control group says how much memory it may have.
LIMITS = ("/sys/fs/cgroup/memory.max", "/sys/fs/cgroup/memory/memory.limit_in_bytes")

# What ends a run.
SIGNALS = (signal.SIGINT, signal.SIGTERM, signal.SIGHUP)

# `rt try` runs a check beside each build, for a hint about names alone, which takes the processor as
# long as the build itself. Whoever builds many at once ends it: `rt check` names such names too.
# What only the hint's check has among its words: it begins at a function that isn't there.
WORDS = b"\0--start\0no function"
# How often a run of `rt try` is looked at until its hint's check has begun, in seconds.
PAUSE = 0.1


def read_words(text):
    """The words of the command line; if one asks for help, this prints a text and exits."""
    if {"-h", "--help"} & {*sys.argv[1:]}:
        sys.exit(print(text.strip()))
    return sys.argv[1:]


def read_crates():
    """What each crate of crates.txt stands on: others of these, and libraries of the toolchain."""
    with open(f"{TOP}/crates.txt", encoding="utf-8") as file:
        lines = [line.partition("#")[0].partition(":") for line in file]
    return {crate.strip(): uses.split() for crate, _, uses in lines if crate.strip()}


def find_below(crates, crate):
    """The crates of the repository that a crate stands on, the lower ones first."""
    found = []
    for it in crates[crate]:
        if it in crates:
            found += [lower for lower in [*find_below(crates, it), it] if lower not in found]
    return found


def free_memory():
    """The free memory in KiB, under the control group's limit too."""
    with open("/proc/meminfo", encoding="utf-8") as lines:
        free = next(int(line.split()[1]) for line in lines if line.startswith("MemAvailable"))
    for path in LIMITS:
        if os.path.exists(path):
            with open(path, encoding="utf-8") as limit:
                word = limit.read().strip()
            free = min(free, int(word) // 1024) if word.isdecimal() else free
    return free


def give_way(group, nice):
    """Has a group of processes, a session's first, take what others leave of the processors."""
    # To lower it needs a privilege, but not to lower that of a session, if Linux shares the
    # processors by sessions first.
    with contextlib.suppress(OSError):
        os.setpriority(os.PRIO_PGRP, group, nice)
    with contextlib.suppress(OSError):
        with open(f"/proc/{group or 'self'}/autogroup", "w", encoding="utf-8") as file:
            file.write(str(nice))


@contextlib.contextmanager
def tree_of(commit):
    """A folder with the repository's files as of a commit."""
    with tempfile.TemporaryDirectory() as folder:
        words = ["git", "-C", TOP, "archive", commit]
        files = subprocess.run(words, check=True, stdout=subprocess.PIPE).stdout
        subprocess.run(["tar", "-x", "-C", folder], check=True, input=files)
        yield folder


def children_of(process):
    """The numbers of the processes that a process began."""
    with open(f"/proc/{process}/task/{process}/children", encoding="utf-8") as it:
        return [int(child) for child in it.read().split()]


def is_hint(process):
    """Whether a process is a hint's check."""
    with open(f"/proc/{process}/cmdline", "rb") as it:
        return WORDS in it.read()


def end_now(rt):
    """Ends the check that this run of rt began, if it has, and says whether it had."""
    # A process that ended meanwhile has no such file any more.
    with contextlib.suppress(OSError):
        for child in filter(is_hint, children_of(rt.pid)):
            os.kill(child, signal.SIGKILL)
            return True
    return False


def look(rt):
    while rt.poll() is None and not end_now(rt):
        time.sleep(PAUSE)


def end_hint(rt):
    """Ends the check that a run of `rt try` begins, beside all else that this process does."""
    threading.Thread(target=look, args=[rt], daemon=True).start()
