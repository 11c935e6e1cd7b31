"""What the measurements share: processor time, cores, other programs, and verify/shared.py."""

from __future__ import annotations

import os
import pathlib
import resource
import shutil
import subprocess
import sys

sys.path.insert(0, str(pathlib.Path(__file__).resolve().parent.parent / "verify"))
from shared import LARGEST, MOST_BYTES, MOST_FILES, TOP, c_files, copy  # noqa: E402, F401
from shared import options, spread, words_given  # noqa: E402, F401

PATIENCE = 120  # seconds until a run is given up


def keep_to_one_core():
    """On one core where the system lets a process choose one; prints how busy the machine is."""
    if hasattr(os, "sched_setaffinity"):
        os.sched_setaffinity(0, {max(os.sched_getaffinity(0))})
    print("load average %.1f, %d cores" % (os.getloadavg()[0], os.cpu_count()))


def use_another_core():
    """On another core than the programs that were started so far, where there is one."""
    if hasattr(os, "sched_setaffinity"):
        taken = os.sched_getaffinity(0)
        for core in set(range(os.cpu_count())) - taken:
            try:
                os.sched_setaffinity(0, {core})
                return
            except OSError:
                pass  # not one that this process may use


def processor_time(words, folder, stdin=b"", patience=PATIENCE):
    """The seconds that a program takes."""
    fed = folder / "stdin"
    fed.write_bytes(stdin)
    with open(fed, "rb") as feed:
        before = resource.getrusage(resource.RUSAGE_CHILDREN)
        subprocess.run(
            words,
            cwd=folder,
            stdin=feed,
            stdout=subprocess.DEVNULL,
            stderr=subprocess.DEVNULL,
            timeout=patience,
            check=True,
        )
        after = resource.getrusage(resource.RUSAGE_CHILDREN)
    return after.ru_utime - before.ru_utime + after.ru_stime - before.ru_stime


def installed(name, flag, says, package=None):
    """Whether a program is there and says this of itself; a line tells its version."""
    if shutil.which(name):
        asked = subprocess.run(
            [name, flag],
            stdin=subprocess.DEVNULL,
            stdout=subprocess.PIPE,
            stderr=subprocess.STDOUT,
            text=True,
        ).stdout
        if says in asked:
            print(asked.splitlines()[0])
            return True
    print(f"{name}: not installed" + (f" ({package} is asked for)" if package else ""))
    return False
