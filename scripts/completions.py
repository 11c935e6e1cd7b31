#!/usr/bin/env python3
"""Writes the completions for bash, zsh and fish from what the programs say of their words.

    scripts/completions.py [PROGRAM]            bin/cbrowse, if none is named
    scripts/completions.py --check [PROGRAM]    says whether they are up to date, and writes nothing

The words are those of `--help`: subcommands, options, their values and what each is for. The exit
status of --check is 1 where a file in `editors/completions` is another one.
"""

from __future__ import annotations

import argparse
import pathlib
import re
import subprocess
import sys
from typing import NamedTuple

TOP = pathlib.Path(__file__).resolve().parent.parent
PLACE = TOP / "editors" / "completions"
COMPANIONS = ("cbrowse-tree", "cbrowse-cscope", "cbrowse-graph", "cbrowse-lsp")
FOLDERS = ("cbrowse-tree", "cbrowse-tree find", "cbrowse-graph")  # take folders as well as files
ALONE = ("cbrowse-lsp",)  # take options alone
IS_FOLDER = ("FOLDER", "DIR")  # what stands for a folder in the help
MADE_BY = "Made by scripts/completions.py from what the programs say of their words."


class Option(NamedTuple):
    names: list[str]
    value: str  # what stands for its value in the help; empty where it takes none
    choices: list[str]
    help: str


class Words(NamedTuple):
    """What may come after a program, or after one of its subcommands."""

    name: str
    subcommands: dict[str, str]
    options: list[Option]
    first: dict[str, str]  # the choices for its first word, and what each is


def said(*words: str) -> str:
    """What a program says of its words."""
    done = subprocess.run(words, capture_output=True, text=True, check=True)
    return done.stdout + done.stderr


def option_of(text: str) -> Option | None:
    """The option of a line such as `  -f <TAGSFILE>   Tags file to write`."""
    found = re.match(r"\s*(-.+?)(?:\s{2,}(\S.*))?$", text)
    if not found:
        return None
    words, help = found[1], found[2] or ""
    names = re.findall(r"(?<![\w-])--?[A-Za-z][\w-]*", words)
    value = re.search(r" <?([A-Z][A-Z]+|N|[0-9](?:\|[0-9])+)>?$", words)
    choices = re.search(r"\[possible values: (.*?)\]", help)
    listed = choices[1].split(", ") if choices else []
    if value and "|" in value[1]:
        listed = value[1].split("|")
    help = re.sub(r" \[(possible values|default): .*?\]", "", help)
    return Option(names, value[1] if value else "", listed, help)


def words_of(name: str, text: str) -> Words:
    """The words that a help text tells."""
    part, subcommands, options, first = "", {}, [], {}
    for line in text.splitlines():
        if re.match(r"[A-Z][a-z]+:", line):
            part = line.split(":")[0]
        elif part == "Commands" and line.strip():
            word, what = line.split(maxsplit=1)
            subcommands[word] = what
        elif part in ("Options", "") and line.lstrip().startswith("-"):
            options += [option for option in [option_of(line)] if option]
        elif line.startswith(f"{name} -"):
            mode = re.match(r".*? (-\w).*?\s{2,}(.*)", line)
            options += [Option([mode[1]], "", [], mode[2])]
        elif part == "Arguments" and "<NUM>" in line:
            fields = line.split("search: ", 1)[1].split(", ")
            first = dict(field.split(" ", 1) for field in fields)
    return Words(name, subcommands, options, first)


def all_words(program: str) -> list[Words]:
    whole = words_of("cbrowse", said(program, "--help"))
    listed = [whole]
    for word in whole.subcommands:
        if word == "help":
            others = {it: what for it, what in whole.subcommands.items() if it != "help"}
            listed.append(Words("cbrowse help", others, [], {}))
        else:
            listed.append(words_of(f"cbrowse {word}", said(program, word, "--help")))
    search = next(it for it in listed if it.name == "cbrowse find")
    for companion in COMPANIONS:
        words = words_of(companion, said("sh", str(TOP / "editors" / companion), "--help"))
        if companion == "cbrowse-tree":
            listed.append(words._replace(subcommands={"find": "answers one question"}))
            listed.append(Words("cbrowse-tree find", {}, words.options, search.first))
        else:
            listed.append(words)
    return listed


# ---- bash


def bash(listed: list[Words]) -> str:
    subcommands = {it.name.split()[0]: [] for it in listed}
    for it in listed:
        program, *word = it.name.split()
        subcommands[program] += word
    inner = "|".join(
        f'"{program} {word}"' for program, words in subcommands.items() for word in words
    )
    values, options, firsts = [], [], []
    for it in listed:
        for option in it.options:
            cases = " | ".join(f'"{it.name} {name}"' for name in option.names)
            if option.choices:
                values.append(f"    {cases}) words='{' '.join(option.choices)}' ;;")
            elif option.value and option.value not in ("FILE", "TAGSFILE", "LIST", "NAMES"):
                if option.value in IS_FOLDER:
                    values.append(f"    {cases}) kind=folders ;;")
                else:
                    values.append(f"    {cases}) kind=none ;;")
            elif option.value:
                values.append(f"    {cases}) kind=files ;;")
        names = " ".join(name for option in it.options for name in option.names)
        options.append(f"        '{it.name}') words='{names}' ;;")
        if it.subcommands or it.first:
            words = " ".join([*it.subcommands, *it.first])
            firsts.append(f"        '{it.name}') words='{words}' ;;")
    return "\n".join(
        [
            "# Completions of cbrowse and its companions for bash.",
            f"# {MADE_BY}",
            "_cbrowse() {",
            "    local name=${1##*/} word=$2 before=$3 words= kind=sources at=1",
            '    case "$name ${COMP_WORDS[1]}" in',
            f"    {inner})",
            '        if [ "$COMP_CWORD" -gt 1 ]; then name="$name ${COMP_WORDS[1]}" at=2; fi ;;',
            "    esac",
            '    case "$name $before" in',
            *values,
            "    *)",
            f"        case $name in {'|'.join(ALONE)}) kind=none ;; *) kind=sources ;; esac",
            "        case $word in",
            "        -*) case $name in",
            *options,
            "        esac ;;",
            '        *) if [ "$COMP_CWORD" -eq "$at" ]; then case $name in',
            *firsts,
            "        esac; fi ;;",
            "        esac ;;",
            "    esac",
            "    COMPREPLY=()",
            '    if [ -n "$words" ]; then',
            '        mapfile -t COMPREPLY < <(compgen -W "$words" -- "$word")',
            "        case $name in cbrowse-*) ;; *) return ;; esac",
            "        case $word in -*) return ;; esac",
            "    fi",
            "    compopt -o filenames 2>/dev/null",
            "    case $kind in",
            '    files) mapfile -t -O "${#COMPREPLY[@]}" COMPREPLY < <(compgen -f -- "$word") ;;',
            '    folders) mapfile -t -O "${#COMPREPLY[@]}" COMPREPLY < <(compgen -d -- "$word") ;;',
            '    sources) mapfile -t -O "${#COMPREPLY[@]}" COMPREPLY < <(',
            '        compgen -d -- "$word"',
            "        compgen -f -X '!*.[ch]' -- \"$word\"",
            "    ) ;;",
            "    esac",
            "}",
            f"complete -F _cbrowse {' '.join(subcommands)}",
            "",
        ]
    )


# ---- zsh


def in_zsh(text: str) -> str:
    """A text in single quotes in which `_arguments` takes no sign for its own."""
    return re.sub(r"([\[\]:\\])", r"\\\1", text).replace("'", "'\\''")


def zsh_options(it: Words) -> list[str]:
    specs = []
    for option in it.options:
        value = ""
        if option.choices:
            value = f":{option.value.lower() or 'value'}:({' '.join(option.choices)})"
        elif option.value in IS_FOLDER:
            value = ":folder:_files -/"
        elif option.value in ("FILE", "TAGSFILE", "LIST", "NAMES"):
            value = f":{option.value.lower()}:_files"
        elif option.value:
            value = f":{option.value.lower()}: "
        for name in option.names:
            specs.append(f"        '*{name}[{in_zsh(option.help)}]{value}'")
    return specs


def zsh(listed: list[Words]) -> str:
    programs = list(dict.fromkeys(it.name.split()[0] for it in listed))
    lines = [
        f"#compdef {' '.join(programs)}",
        f"# {MADE_BY}",
        "local context=$service",
        "local -a state words_here",
    ]
    inner = [it.name.split() for it in listed if " " in it.name]
    lines.append('case "$service $words[2]" in')
    for program, word in inner:
        lines.append(f"'{program} {word}')")
        lines.append("    if (( CURRENT > 2 )); then")
        lines.append('        context="$service $words[2]"; shift words; (( CURRENT-- ))')
        lines.append("    fi ;;")
    lines += ["esac", "case $context in"]
    for it in listed:
        lines.append(f"'{it.name}')")
        choices = {**it.subcommands, **it.first}
        folders = it.name in FOLDERS
        files = '_files -g "*.[ch](-.)"'
        if choices:
            lines.append("    words_here=(")
            lines += [f"        '{word}:{in_zsh(what)}'" for word, what in choices.items()]
            lines.append("    )")
            words = "_describe -t words word words_here"
            also = f"; {files}" if folders and not it.first else ""
            first = f"        '1:word:{{ {words}{also} }}'"
            rest = [] if it.name in ("cbrowse", "cbrowse help") else [f"        '*:source:{files}'"]
            if it.first:
                rest = ["        '2:pattern: '", *rest]
            specs = [*zsh_options(it), first, *rest]
        else:
            rest = [] if it.name in ALONE else [f"        '*:source:{files}'"]
            specs = [*zsh_options(it), *rest]
        lines.append("    _arguments \\")
        lines.append(" \\\n".join(specs) + " ;;")
    lines += ["esac", ""]
    return "\n".join(lines)


# ---- fish


def in_fish(text: str) -> str:
    return text.replace("\\", "\\\\").replace("'", "\\'")


def fish(program: str, listed: list[Words]) -> str:
    lines = [f"# Completions of {program} for fish.", f"# {MADE_BY}"]
    inner = [it for it in listed if it.name.startswith(program + " ")]
    names = " ".join(it.name.split()[1] for it in inner)
    for it in listed:
        if it.name.split()[0] != program:
            continue
        if it.name == program:
            when = f" -n 'not __fish_seen_subcommand_from {names}'" if names else ""
        else:
            when = f" -n '__fish_seen_subcommand_from {it.name.split()[1]}'"
        if it.name in ALONE:
            lines.append(f"complete -c {program} -f")
        for word, what in {**it.subcommands, **it.first}.items():
            lines.append(f"complete -c {program}{when} -a {word} -d '{in_fish(what)}'")
        for option in it.options:
            flags = ""
            for name in option.names:
                if name.startswith("--"):
                    flags += f" -l {name[2:]}"
                else:
                    flags += f" -s {name[1:]}" if len(name) == 2 else f" -o {name[1:]}"
            if option.choices:
                flags += f" -x -a '{' '.join(option.choices)}'"
            elif option.value in IS_FOLDER:
                flags += " -x -a '(__fish_complete_directories)'"
            elif option.value in ("FILE", "TAGSFILE", "LIST", "NAMES"):
                flags += " -r"
            elif option.value:
                flags += " -x"
            lines.append(f"complete -c {program}{when}{flags} -d '{in_fish(option.help)}'")
    return "\n".join([*lines, ""])


def main() -> int:
    parser = argparse.ArgumentParser(
        description=__doc__, formatter_class=argparse.RawDescriptionHelpFormatter
    )
    parser.add_argument("--check", action="store_true")
    parser.add_argument("program", nargs="?", default=str(TOP / "bin" / "cbrowse"))
    words = parser.parse_args()
    listed = all_words(str(pathlib.Path(words.program).resolve()))
    files = {"cbrowse.bash": bash(listed), "_cbrowse": zsh(listed)}
    for program in ("cbrowse", *COMPANIONS):
        files[f"{program}.fish"] = fish(program, listed)
    PLACE.mkdir(exist_ok=True)
    others = 0
    for name, text in files.items():
        path = PLACE / name
        if words.check and (not path.exists() or path.read_text() != text):
            print(f"{path.relative_to(TOP)} is not up to date: scripts/completions.py writes it")
            others += 1
        elif not words.check:
            path.write_text(text)
    if words.check:
        print(f"completions: {len(files) - others} passed, {others} failed")
    return 1 if others else 0


if __name__ == "__main__":
    sys.exit(main())
