"""Runs a program under growths.c, which counts its growths of memory and refuses one of them."""

import mmap
import os
import pathlib
import resource
import struct
import subprocess
import sys

SOURCE = pathlib.Path(__file__).resolve().parent / "growths.c"
FIELDS = struct.Struct("=3Q")  # struct growths of growths.c
PATIENCE = 60  # seconds until a run is given up


class Wrong(Exception):
    """What should not be."""


class Growths:
    """The library and what it shares, in a folder that is there."""

    def __init__(self, folder):
        self.library, self.path = f"{folder}/growths.so", f"{folder}/growths"
        words = [
            os.environ.get("CC", "cc"),
            "-shared",
            "-fPIC",
            "-O2",
            "-o",
            self.library,
            str(SOURCE),
        ]
        try:
            subprocess.run(words, check=True)
        except (OSError, subprocess.CalledProcessError) as error:
            sys.exit(f"{SOURCE.name} was not built ({error}): a C compiler is needed, cc or $CC")
        with open(self.path, "w+b") as file:
            file.write(bytes(FIELDS.size))
            file.flush()
            self.shared = mmap.mmap(file.fileno(), FIELDS.size)

    def start(self, words, refuse=0, variables=None, **how):
        """Starts a program in which the growth of this number is refused, if it is not 0."""
        self.shared[:] = FIELDS.pack(refuse, 0, 0)
        env = {**os.environ, "LD_PRELOAD": self.library, "GROWTHS": self.path, **(variables or {})}
        return subprocess.Popen(words, env=env, preexec_fn=no_core_files, **how)

    @property
    def met(self):
        """Growths that were counted so far."""
        return FIELDS.unpack(self.shared[:])[1]

    @property
    def refused(self):
        """Growths that were refused so far."""
        return FIELDS.unpack(self.shared[:])[2]


def no_core_files():
    resource.setrlimit(resource.RLIMIT_CORE, (0, 0))
