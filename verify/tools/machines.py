#!/usr/bin/env python3
"""Runs editors/cbrowse-tree on two machines, by GNU parallel: two logins over ssh to this one.

    make && verify/tools/machines.py
    verify/tools/machines.py --cbrowse PATH      or: CBROWSE=PATH verify/tools/machines.py

Two ssh servers of its own, with keys of their own, listen on this machine alone, and end with the
script. What is made must be byte for byte what one `cbrowse` makes, or nothing:

Logins     -S 2/:, a file of two logins, with a shared tree and with --transfer, which sends it;
           tags files, questions, and many questions; a tags file by --standard.
Away       a server that ends, with its sessions, while it works: the other one does its parts.
Gone       no server is left: the old tags file stays, and the status is 1.
Traces     nothing is left in the temporary folders, here and there.
"""

from __future__ import annotations

import os
import pathlib
import shutil
import signal
import socket
import subprocess
import sys
import tempfile
import threading
import time
from typing import Sequence

sys.path.insert(0, str(pathlib.Path(__file__).resolve().parents[1]))
from shared import Place, Report, left_over, words_given, options  # noqa: E402

OLD = "old\told.c\t/^old$/\n"
CALLS = (
    "#include <stdio.h>\nint f{number}(void) {{\n\treturn f{other}(1) + f7();\n}}\n"
    "static int v{number};\n"
)
FILES = 300
report = Report()
check = report.check


class Server:
    """An ssh server on this machine, which takes one key."""

    def __init__(self, room: pathlib.Path, number: int):
        self.room = room
        with socket.socket() as free:
            free.bind(("127.0.0.1", 0))
            self.port = free.getsockname()[1]
        self.pid_file = room / f"pid.{number}"
        settings = room / f"sshd.{number}"
        settings.write_text(
            f"Port {self.port}\nListenAddress 127.0.0.1\nHostKey {room}/host\n"
            f"AuthorizedKeysFile {room}/key.pub\nPidFile {self.pid_file}\nStrictModes no\n"
            "UsePAM no\nPermitRootLogin yes\nPasswordAuthentication no\nMaxStartups 100\n"
        )
        subprocess.run(["/usr/sbin/sshd", "-f", settings, "-E", room / f"log.{number}"], check=True)
        for _ in range(100):
            if self.pid_file.exists():
                break
            time.sleep(0.1)
        self.pid = int(self.pid_file.read_text())

    def login(self) -> str:
        """The login as a line for GNU parallel."""
        return (
            f"ssh -p {self.port} -i {self.room}/key -o StrictHostKeyChecking=no"
            " -o UserKnownHostsFile=/dev/null -o LogLevel=ERROR 127.0.0.1"
        )

    def end(self) -> None:
        """The server ends, and so do its sessions and what runs in them."""
        ended = [self.pid]
        for pid in ended:
            listed = subprocess.run(["ps", "-o", "pid=", "--ppid", str(pid)], capture_output=True)
            ended += map(int, listed.stdout.split())
        for pid in ended:
            try:
                os.kill(pid, signal.SIGKILL)
            except ProcessLookupError:
                pass


def folders() -> list[str]:
    """The temporary folders that GNU parallel has on this machine, as on another one."""
    there = pathlib.Path.home() / ".parallel" / "tmp"
    return (
        sorted(it.name for it in there.iterdir() if it.name != "sshlogin") if there.is_dir() else []
    )


def one(place: Place, what: str, *words: str, profile: Sequence[str] = ("--wide",)) -> bytes:
    """What one run of cbrowse writes."""
    command = [place.cbrowse, what, *profile, *words]
    return subprocess.run(command, cwd=place.folder, capture_output=True, check=True).stdout


def logins(place: Place, names: list[str], hosts: list[str]) -> None:
    place.put("questions", "1f7\n3f7\n4return\n")
    tags = one(place, "tags", "-f", "-", "--format", "2", *names)
    rows = {asked: one(place, "find", asked[0], asked[1:], *names) for asked in ("1f7", "3f7")}
    many = place.run("find", "--questions", "questions", "tree")[1]
    for how in ["-S", "2/:"], hosts, [*hosts, "--transfer"], ["--transfer", "-S", "1/:"]:
        what = " ".join(word for word in how if not word.startswith("/"))
        status, out, said = place.run("-f", "-", "-j", 2, *how, "tree")
        check(f"tags {what}", (status, out) == (0, tags), said)
        status, out, said = place.run("find", "-j", 2, *how, "3", "f7", "tree")
        check(f"find {what}", (status, out) == (0, rows["3f7"]), said)
        status, out, said = place.run("find", "-j", 2, *how, "--questions", "questions", "tree")
        check(f"many questions {what}", many != b"" and (status, out) == (0, many), said)
    expected = one(place, "tags", "-f", "-", "--format", "2", *names, profile=())
    status, out, said = place.run("-f", "-", "--standard", *hosts, "tree")
    is_other = expected != tags
    check("tags by --standard", is_other and (status, out) == (0, expected), said)
    status, _, said = place.run("--transfer", "-S", ":", place.folder / "tree")
    check("a tree that cannot be sent", status == 2 and "not below" in said, said)
    (place.folder / "path").mkdir()
    for tool in ("sh", "getconf", "cat", "sed", "grep", "tr"):
        (place.folder / "path" / tool).symlink_to(shutil.which(tool))
    status, _, said = place.run("-S", ":", "tree", PATH=place.folder / "path")
    check("no GNU parallel", status == 1 and "GNU parallel is needed" in said, said)


def away(place: Place, names: list[str], servers: list[Server], hosts: list[str]) -> None:
    """One server ends while both work."""
    place.put(
        "slow", f'#!/bin/sh\necho run >>"{place.folder}/runs"\nsleep 1\nexec {place.cbrowse} "$@"\n'
    )
    (place.folder / "slow").chmod(0o755)
    expected = one(place, "tags", "-f", "-", "--format", "2", *names)
    runs = place.folder / "runs"

    def end() -> None:
        while not runs.exists() or len(runs.read_text().split()) < 4:
            time.sleep(0.05)
        servers[1].end()

    ending = threading.Thread(target=end)
    ending.start()
    status, out, said = place.run("-f", "-", "-j", 2, *hosts, "tree", CBROWSE=place.folder / "slow")
    ending.join()
    check("one server goes away", (status, out) == (0, expected), said)
    # 8 parts, the head lines, and at least one part that was begun twice
    again = len(runs.read_text().split())
    check("a part was tried again", again > 9, again)
    servers[0].end()
    place.put("old", OLD)
    before = sorted(os.listdir(place.folder))
    status, _, said = place.run("-f", "old", "-j", 2, *hosts, "tree")
    kept = (place.folder / "old").read_text() == OLD
    check("no server is left", status == 1 and kept and said != "", (status, said))
    check("nothing is left beside it", before == sorted(os.listdir(place.folder)))


def main() -> int:
    cbrowse = words_given(options(__doc__)).cbrowse
    with tempfile.TemporaryDirectory() as folder, tempfile.TemporaryDirectory() as room:
        keys = pathlib.Path(room)
        for name in "key", "host":
            words = ["ssh-keygen", "-q", "-t", "ed25519", "-N", "", "-f", str(keys / name)]
            subprocess.run(words, check=True)
        os.makedirs("/run/sshd", exist_ok=True)
        home = keys / "home"
        home.mkdir()
        os.environ.update(TMPDIR=str(home), PARALLEL_HOME=str(home / "parallel"))
        place = Place(folder, cbrowse, "cbrowse-tree")
        before = folders()
        for number in range(FILES):
            text = CALLS.format(number=number, other=number * 7 % FILES)
            place.put(f"tree/d{number % 5}/f{number}.c", text)
        names = sorted(f"tree/d{number % 5}/f{number}.c" for number in range(FILES))
        servers = [Server(keys, number) for number in range(2)]
        try:
            (keys / "hosts").write_text("".join(server.login() + "\n" for server in servers))
            hosts = ["--sshloginfile", str(keys / "hosts")]
            logins(place, names, hosts)
            left = left_over(home)
            check("no temporary folder is left", left == [], left)
            check("nor on the other machines", folders() == before, folders())
            away(place, names, servers, hosts)
        finally:
            for server in servers:
                server.end()
    return report.status()


if __name__ == "__main__":
    sys.exit(main())
