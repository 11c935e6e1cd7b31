#!/usr/bin/env python3
"""Hands tags files of real C sources to programs that read them, and checks what these find.

    make && verify/tools/tags-of-real-code.py FOLDER
    verify/tools/tags-of-real-code.py --cbrowse PATH --files 1000 FOLDER

Some files of the folder are copied to a temporary folder, by their names in it, and `cbrowse tags`
runs there for a plain file, an extended file and the listing. Left out are files whose name or size
cbrowse does not take, and those with a byte 0 or 2: these programs read a line up to a 0, and vim
separates the fields of a tag by a 2.

    alone      the three agree, are sorted, and each address has the text of the line that the
               extended file names
    readtags   is asked for each name of both files, and gives each of its lines with file, address,
               kind and line
    vim        for each tag name of both files, `taglist()` gives its lines, and `:tag`, `:2tag` and
               so on land on a line that is the text of the address: the first such line of the
               file, or the one whose number the extended file names. In the plain file main has the
               tag name `M` and its file. One vim does all of a tags file
    less       `less -t` of 200 names of both files shows the file of the first tag, from the first
               line on that is the text of its address. Names with a tag line over 1,000 bytes are
               not asked for: less cuts those

vim takes equal tag lines for one, and `taglist()` shows 4,095 bytes of an address. Where a file has
CR LF and LF mixed, or a CR within a line, vim's lines differ from those of cbrowse: no jump to it
is judged, and a line says how many files these are. A program that is not installed is passed over,
and a line says so. Each failure is printed, and the exit status is 1 if there is one.
"""

from __future__ import annotations

import collections
import fcntl
import os
import pathlib
import pty
import re
import shutil
import struct
import subprocess
import sys
import tempfile
import termios
from typing import NamedTuple

sys.path.insert(0, str(pathlib.Path(__file__).resolve().parents[1]))
from shared import Report, c_files, copy, words_given, options, spread  # noqa: E402

HEADS = [
    b'!_TAG_FILE_FORMAT\t2\t/extended format; --format=1 will not append ;" to lines/',
    b"!_TAG_FILE_SORTED\t1\t/0=unsorted, 1=sorted, 2=foldcase/",
]
PLAIN = rb"([^\t\n]+)\t([^\t\n]+)\t(/\^(?:\\[\\/]|[^\\/\n])*\$/)"
EXTENDED = PLAIN + rb';"\t([fdtsug])\tline:([1-9][0-9]*)(\tfile:)?'
READTAGS = PLAIN + rb'(?:;"\tkind:(.))?((?:\t.*)?)'
NAMES_AT_ONCE = 200
NAMES_OF_LESS = 200

# For each line that taglist() gives of a name in `.names`, nine lines go to `.found`: the name
# and five fields of the line, then file, number and text of the line where :tag lands.
VIM_SCRIPT = r"""
set encoding=latin1 fileencodings= fileformats=unix,dos nomodeline hidden tagcase=match
let found = []
edit .names
let start = bufnr('%')
for name in readfile('.names')
  let number = 0
  execute 'buffer' start
  for tag in taglist('^' . name . '$')
    let number += 1
    let found += [name, tag.filename, tag.cmd, tag.kind, get(tag, 'line', '')]
    let found += [tag.static ? 'file:' : '']
    execute 'buffer' start
    try
      execute number . 'tag' name
      let found += [expand('%'), line('.'), getline('.')]
    catch
      let found += ['', 0, v:exception]
    endtry
  endfor
endfor
call writefile(found, '.found')
qall!
"""
VIM_FIELD = 4095  # the most bytes of a field that taglist() gives


class Tag(NamedTuple):
    """A line of a tags file, in bytes. In a plain one kind and line are empty."""

    name: bytes
    file: bytes
    address: bytes
    kind: bytes
    line: bytes
    local: bytes


class Sources:
    """Copies of C files in a folder: their names, shown lines, and those whose lines end alike."""

    def __init__(self, folder: pathlib.Path, names: list[str], home: pathlib.Path):
        self.names, self.size = names, 0
        self.lines: dict[bytes, list[bytes]] = {}
        self.alike: set[bytes] = set()
        copy(folder, names, home)
        for name in names:
            text = (home / name).read_bytes()
            self.size += len(text)
            *ended, last = text.split(b"\n")
            shown = [line[:-1] if line.endswith(b"\r") else line for line in ended]
            self.lines[name.encode()] = shown + ([last] if last else [])
            if b"\r" not in text or text.count(b"\r") == text.count(b"\r\n") == text.count(b"\n"):
                self.alike.add(name.encode())


def output(words, home, report):
    """What a program writes to standard output; status 1 or anything on standard error fails."""
    done = subprocess.run(words, cwd=home, stdin=subprocess.DEVNULL, capture_output=True)
    if done.returncode or done.stderr:
        said = done.stderr.decode("latin-1").strip()
        report.fail(f"{' '.join(map(str, words))[:80]}: status {done.returncode} {said}")
    return done.stdout


def lines_of(path):
    return path.read_bytes().split(b"\n")[:-1] if path.exists() else []


def tags_of(lines, form, what, report):
    """The tags that the lines have; each must be of the form."""
    tags = []
    for line in lines:
        found = re.fullmatch(form, line, re.DOTALL)
        if found:
            fields = found.groups(b"") + (b"", b"")
            tags.append(Tag(*fields[:5], local=b"file:" if b"\tfile:" in fields[5:] else b""))
        else:
            report.fail(f"{what}: no tag line: {line.decode('latin-1')}")
    return tags


def text_of(address):
    return re.sub(rb"\\(.)", rb"\1", address[2:-2])


def address_of(text):
    return b"/^" + re.sub(rb"([\\/])", rb"\\\1", text) + b"$/"


def plain_of(tag):
    """The plain tag of an extended one: main goes by its file."""
    file = tag.file.rsplit(b"/", 1)[-1].removesuffix(b".c")
    return Tag(
        b"M" + file if tag.name == b"main" else tag.name, tag.file, tag.address, b"", b"", b""
    )


def check_alone(sources, plain, extended, listing, report):
    report.same_rows("plain beside extended", map(plain_of, extended), plain)
    report.same_rows(
        "listing beside extended",
        [
            (b"%s %s %s %s" % (tag.name, tag.line, tag.file, text_of(tag.address)),)
            for tag in extended
        ],
        [(line,) for line in listing],
    )
    for what, tags in ("plain", plain), ("extended", extended):
        keys = [(tag.name, tag.file, int(tag.line or 0)) for tag in tags]
        if keys != sorted(keys):
            report.fail(f"{what}: not sorted")
    for tag in extended:
        lines = sources.lines.get(tag.file, [])
        if lines[int(tag.line) - 1 : int(tag.line)] != [text_of(tag.address)]:
            report.fail(f"extended: another text than that of the line: {tag}")


def check_readtags(home, file, tags, report):
    words = ["readtags", "-t", file, "-e", "-n"]
    names = sorted({tag.name for tag in tags})
    answers = b"".join(
        output(words + names[start : start + NAMES_AT_ONCE], home, report)
        for start in range(0, len(names), NAMES_AT_ONCE)
    )
    found = []
    for line in answers.split(b"\n")[:-1]:
        parts = re.fullmatch(READTAGS, line, re.DOTALL)
        if not parts:
            report.fail(f"readtags: no answer: {line.decode('latin-1')}")
            continue
        name, source, address, kind, rest = parts.groups(b"")
        fields = dict(field.partition(b":")[::2] for field in rest.split(b"\t")[1:])
        found.append(
            Tag(
                name,
                source,
                address,
                kind,
                fields.get(b"line", b""),
                b"file:" if b"file" in fields else b"",
            )
        )
    report.same_rows(f"readtags, {file}", tags, found)
    print(f"readtags, {file}: asked for {len(names)} names, {len(tags)} lines to be found")


def check_vim(home, file, tags, sources, report):
    tags = set(tags)
    names = sorted({tag.name for tag in tags})
    (home / ".names").write_bytes(b"".join(name + b"\n" for name in names))
    (home / ".script").write_text(VIM_SCRIPT)
    (home / ".found").unlink(missing_ok=True)
    output(
        [
            "vim",
            "-N",
            "-u",
            "NONE",
            "-i",
            "NONE",
            "-n",
            "-es",
            "-c",
            f"set tags={file}",
            "-S",
            ".script",
        ],
        home,
        report,
    )
    lines = lines_of(home / ".found")
    rows = [lines[start : start + 9] for start in range(0, len(lines), 9)]
    found = [Tag(*row[:6]) for row in rows]
    report.same_rows(
        f"vim, taglist() of {file}",
        [tag._replace(address=tag.address[:VIM_FIELD]) for tag in tags],
        found,
    )
    judged = 0
    for tag, landed in zip(found, (row[6:] for row in rows)):
        if tag.file in sources.alike:
            judged += 1
            if not lands(tag, landed, sources):
                report.fail(f"vim, :tag with {file}: {tag} lands on {landed}")
    print(
        f"vim, {file}: asked for {len(names)} names with {len(tags)} lines, {judged} jumps judged"
    )


def lands(tag, landed, sources):
    """Whether a jump lands on the first line with the text of the address, or on the tag's line."""
    file, number, text = landed
    lines = sources.lines.get(tag.file, [])
    known = text in lines and number in (b"%d" % (lines.index(text) + 1), tag.line)
    return file == tag.file and known and (tag.address == address_of(text)[:VIM_FIELD])


def check_less(home, file, tags, sources, report):
    first = {}
    for tag in tags:
        first.setdefault(tag.name, tag)
    short = [tag for tag in first.values() if len(b"".join(tag)) < 1000]
    asked = short[:: -(-len(short) // NAMES_OF_LESS) or 1]
    for tag in asked:
        shown = screen(["less", "-f", "-L", "-X", "-N", "-T", file, "-t", tag.name], home)
        number = re.search(rb"\r *([0-9]+) ", shown)
        text = text_of(tag.address)
        lines = sources.lines.get(tag.file, [])
        line = number and int(number[1])
        if tag.file not in shown or text not in lines or line != lines.index(text) + 1:
            report.fail(f"less -t with {file}: {tag} shows {shown[:200]}")
    print(f"less, {file}: asked for {len(asked)} names")


def screen(words, home):
    """What a program writes to a terminal of three long lines on which q is typed."""
    own, its = pty.openpty()
    fcntl.ioctl(its, termios.TIOCSWINSZ, struct.pack("4H", 3, 2000, 0, 0))
    os.write(own, b"q\rq\r")
    settings = {name: value for name, value in os.environ.items() if not name.startswith("LESS")}
    settings |= {"TERM": "xterm", "LESSHISTFILE": "-"}
    shown = b""
    with subprocess.Popen(
        words, cwd=home, stdin=its, stdout=its, stderr=its, env=settings, start_new_session=True
    ):
        os.close(its)
        try:
            while part := os.read(own, 65536):
                shown += part
        except OSError:
            pass  # no program has the terminal any more
    os.close(own)
    return shown


def check(cbrowse, folder, number, home, report):
    suitable = [
        it for it in c_files(folder) if not re.search(rb"[\0\2]", (folder / it).read_bytes())
    ]
    if not suitable:
        raise SystemExit(f"{folder}: no C files to choose from")
    names = spread(suitable, number)
    sources = Sources(folder, names, home)
    print(f"{folder}: {len(names)} files with {sources.size} bytes")
    output([cbrowse, "tags", "--"] + names, home, report)
    output([cbrowse, "tags", "--format", "2", "-f", "extended.tags", "--"] + names, home, report)
    listing = output([cbrowse, "tags", "-x", "--"] + names, home, report).split(b"\n")[:-1]
    plain = tags_of(lines_of(home / "tags"), PLAIN, "plain", report)
    lines = lines_of(home / "extended.tags")
    if lines[:2] != HEADS:
        report.fail("extended: begins with other lines than the two head lines")
    extended = tags_of(lines[2:], EXTENDED, "extended", report)
    if not extended:
        report.fail("extended: no definition at all")
    check_alone(sources, plain, extended, listing, report)
    kinds = collections.Counter(tag.kind for tag in extended)
    mains = sum(tag.name == b"main" for tag in extended)
    print(
        f"cbrowse tags: {len(extended)} definitions,"
        f" {kinds[b'f']} functions ({mains} of them main), {kinds[b'd']} macros,"
        f" {kinds[b't']} typedefs, {kinds[b's']} structures,"
        f" {kinds[b'u']} unions, {kinds[b'g']} enumerations"
    )
    mixed = len(names) - len(sources.alike)
    print(f"{mixed} files have mixed line ends or a CR within a line: jumps to them are not judged")
    for file, tags in ("tags", plain), ("extended.tags", extended):
        if shutil.which("readtags"):
            check_readtags(home, file, tags, report)
        if shutil.which("vim"):
            check_vim(home, file, tags, sources, report)
        if shutil.which("less"):
            check_less(home, file, tags, sources, report)
    for program in "readtags", "vim", "less":
        if not shutil.which(program):
            print(f"{program}: not installed, passed over")


def main() -> int:
    parser = options(__doc__)
    parser.add_argument("folder", type=pathlib.Path, help="a folder with C files")
    parser.add_argument(
        "--files", type=int, default=300, help="how many files at most, 300 by default"
    )
    words = words_given(parser)
    report = Report()
    with tempfile.TemporaryDirectory() as home:
        check(words.cbrowse, words.folder.resolve(), words.files, pathlib.Path(home), report)
    return report.status()


if __name__ == "__main__":
    sys.exit(main())
