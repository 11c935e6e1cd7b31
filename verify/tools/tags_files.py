"""What a program writes to a tags file in the extended format, and how much two find alike."""

from __future__ import annotations

import collections
import pathlib
import subprocess
import tempfile
from typing import NamedTuple

# How cbrowse and ctags are asked for all kinds of the wide profile.
OWN_WIDE = ["tags", "--wide", "--prototypes", "--format", "2"]
WIDE = ["--options=NONE", "--language-force=C", "--kinds-C=+px", "--if0=yes", "--fields=+kn"]


class Found(NamedTuple):
    kind: str
    name: str
    file: str
    line: int


def definitions(words: list, names: list[str], folder: pathlib.Path) -> list[tuple[Found, dict]]:
    """The definitions that a program writes for these files, each with its fields by their names.

    The names that ctags makes up (`__anon..`) are left out.
    """
    with tempfile.TemporaryDirectory() as place:
        file = pathlib.Path(place) / "made.tags"
        subprocess.run(
            words + ["-f", file] + names, cwd=folder, check=True, stderr=subprocess.DEVNULL
        )
        found = []
        for line in file.read_text("latin-1").split("\n")[:-1]:
            if line.startswith("!_TAG_"):
                continue
            before, _, after = line.rpartition(';"\t')
            name, source = before.split("\t")[:2]
            kind, *fields = after.split("\t")
            named = {key: value for key, _, value in (it.partition(":") for it in fields)}
            if not name.startswith("__anon"):
                found.append((Found(kind, name, source, int(named["line"])), named))
        return found


def counted(found: list[tuple[Found, dict]]) -> collections.Counter:
    """Each definition as often as it is written."""
    return collections.Counter(item for item, _ in found)


def put_table(
    kinds: dict[str, str], own: collections.Counter, other: collections.Counter, mine: str
) -> None:
    """A row for each kind: how many each of two finds, how many both, and what part these are."""
    of_own = f"of {mine}"
    print(f"{'kind':<16}{mine:>9}{'ctags':>9}{'both':>9}{'of ctags':>10}{of_own:>12}")
    for kind, word in kinds.items():
        here, there = (
            collections.Counter({item: n for item, n in found.items() if item.kind == kind})
            for found in (own, other)
        )
        both = sum((here & there).values())
        parts = [f"{100 * both / max(1, sum(found.values())):.2f} %" for found in (there, here)]
        counts = f"{sum(here.values()):>9}{sum(there.values()):>9}{both:>9}"
        print(f"{word:<16}{counts}{parts[0]:>10}{parts[1]:>12}")
