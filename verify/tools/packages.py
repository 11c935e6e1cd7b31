#!/usr/bin/env python3
"""Installs the program in each way, uses it there, and takes it away again without a trace.

    make && verify/tools/packages.py

Installed  `make install` and `make uninstall` below a folder that has some of the folders, and one
           that has none: what was there is there again, and nothing else.
Tar        the tar of `make dist` has the files of `make install`, and the tar of the sources those
           of the last commit.
Package    `make deb`: lintian finds no error, the only dependency is the C library, and two builds
           are the same bytes.
Fresh      a fresh Debian (debootstrap), in which the package is installed, the program, its
           companions, the manual pages, the plugin and the completions are used, and the package is
           removed: all files are those from before. Only as root, with a network.
"""

from __future__ import annotations

import os
import pathlib
import shutil
import subprocess
import sys
import tarfile
import tempfile

sys.path.insert(0, str(pathlib.Path(__file__).resolve().parents[1]))
from shared import TOP, Report, words_given, options  # noqa: E402

PROGRAMS = ("cbrowse", "cbrowse-cscope", "cbrowse-graph", "cbrowse-lsp", "cbrowse-tree")
USED = """\
set -e
place=$(mktemp -d) && cd "$place"
printf 'int add(int a) {\\n\\treturn a;\\n}\\nint main(void) {\\n\\treturn add(1);\\n}\\n' >a.c
cbrowse find 3 add a.c
cbrowse-tree find 1 main .
cbrowse-tree -f - . | grep -c '^main'
cbrowse-graph main . | grep -c ' -> '
cbrowse-cscope -L -3 add a.c
cbrowse-lsp --version | cut -d " " -f 1-3 # there is no /dev/fd, so it cannot serve
man -w cbrowse cbrowse-tree cbrowse-cscope cbrowse-graph cbrowse-lsp | wc -l
bash -c '. /usr/share/bash-completion/completions/cbrowse && complete -p cbrowse-tree'
: >vimrc
vim -u vimrc -i NONE -n -es -c CbrowseStart -c 'CbrowseDefine add' \\
    -c 'call writefile([line(".")], "line")' \\
    -c 'help cbrowse-files' -c 'call writefile([expand("%:t")], "help")' -c 'qall!' || true
cat line help
cd / && rm -r "$place"
"""
SAID = """\
a.c main 5 return add(1);
./a.c main 4 int main(void) {
1
1
a.c main 5 return add(1);
cbrowse-lsp of cbrowse
5
complete -F _cbrowse cbrowse-tree
1
cbrowse.txt
"""
report = Report()
check = report.check


def run(*words: object) -> subprocess.CompletedProcess:
    """Runs a command at the top; the program that `verify/run` names is not the one installed."""
    env = {name: value for name, value in os.environ.items() if name != "CBROWSE"}
    return subprocess.run([*map(str, words)], cwd=TOP, env=env, capture_output=True, text=True)


def paths(root: pathlib.Path, without: tuple[str, ...] = ()) -> dict[str, str]:
    """What is below a folder: each path with the text of a link, or what kind it is."""
    found = {}
    for place, folders, files in os.walk(root):
        for name in folders + files:
            path = pathlib.Path(place, name)
            below = "/" + str(path.relative_to(root))
            if not below.startswith(without):
                is_link = path.is_symlink()
                found[below] = os.readlink(path) if is_link else ("/" if path.is_dir() else "")
    return found


def installed(room: pathlib.Path) -> set[str]:
    """The names of all files that are installed."""
    some = room / "some"
    for name in "usr/local/bin", "usr/local/share/man/man1", "usr/local/share/zsh":
        (some / name).mkdir(parents=True)
    (some / "usr/local/bin/other").write_text("")
    put = set()
    for root, prefix in (some, "/usr/local"), (room / "none", "/opt/cbrowse"):
        root.mkdir(exist_ok=True)
        before = paths(root)
        for _ in range(2):  # the second one over the first
            done = run("make", "install", f"DESTDIR={root}", f"PREFIX={prefix}")
        put = {path for path, kind in paths(root).items() if kind != "/" and path not in before}
        programs = sorted(path for path in put if "/bin/" in path)
        check(f"install {prefix}", programs == [f"{prefix}/bin/{it}" for it in PROGRAMS], done)
        said = run("man", "-w", "-M", f"{root}{prefix}/share/man", *PROGRAMS)
        check(f"manual pages {prefix}", len(said.stdout.split()) == len(PROGRAMS), said)
        done = run("make", "uninstall", f"DESTDIR={root}", f"PREFIX={prefix}")
        after = paths(root)
        check(f"uninstall {prefix}", after == before, sorted(set(after) ^ set(before)))
    return {path.removeprefix("/opt/cbrowse/") for path in put}


def tars(put: set[str]) -> None:
    done = run("make", "dist")
    names = [TOP / name for name in done.stdout.split() if name.startswith("dist/")]
    check("make dist", len(names) == 2, done)
    with tarfile.open(names[0]) as packed:
        files = {it.name.split("/", 1)[1] for it in packed if not it.isdir()}
    check("the tar", files == put - {"share/doc/cbrowse/folders-made"}, files ^ put)
    with tarfile.open(names[1]) as packed:
        files = {it.name.split("/", 1)[1] for it in packed if not it.isdir()}
    listed = set(run("git", "ls-tree", "-r", "--name-only", "HEAD").stdout.splitlines())
    check("the sources", files - {""} == listed, sorted(files ^ listed)[:9])


def package() -> pathlib.Path:
    texts = []
    for _ in range(2):
        done = run("make", "deb")
        name = TOP / done.stdout.split()[-1]
        texts.append(name.read_bytes())
    check("two builds are the same bytes", texts[0] == texts[1])
    needs = run("dpkg-deb", "-f", name, "Depends").stdout
    check("it needs the C library alone", needs.startswith("libc6 ") and "," not in needs, needs)
    if shutil.which("lintian"):
        done = run("lintian", "--fail-on", "error", name)
        check("lintian", done.returncode == 0, done.stdout)
    else:
        print("       lintian is not here")
    return name


def fresh(room: pathlib.Path, name: pathlib.Path) -> None:
    if os.geteuid() != 0 or not shutil.which("debootstrap"):
        print("       a fresh Debian is not tried: that takes root and debootstrap")
        return
    root = room / "debian"
    words = ["--variant=minbase", "--include=vim-nox,man-db,bash-completion", "bookworm", root]
    done = run("debootstrap", *words)
    if done.returncode:
        print("       a fresh Debian is not tried:", done.stdout[-200:])
        return
    own = ("/var/lib/dpkg", "/var/log", "/var/cache", "/proc", "/dev", "/root/.")
    before = paths(root, own)
    shutil.copy(name, root / "cbrowse.deb")
    done = run("chroot", root, "dpkg", "-i", "/cbrowse.deb")
    (root / "cbrowse.deb").unlink()
    check("installed", done.returncode == 0, done.stderr)
    done = run("chroot", root, "sh", "-c", USED)
    check("used", done.stdout == SAID, (done.stdout, done.stderr))
    done = run("chroot", root, "dpkg", "-P", "cbrowse")
    check("removed", done.returncode == 0 and "not empty" not in done.stderr, done.stderr)
    after = paths(root, own)
    check("without a trace", after == before, sorted(set(after) ^ set(before)))


def main() -> int:
    words_given(options(__doc__))
    with tempfile.TemporaryDirectory() as room:
        put = installed(pathlib.Path(room))
        tars(put)
        name = package()
        fresh(pathlib.Path(room), name)
    return report.status()


if __name__ == "__main__":
    sys.exit(main())
