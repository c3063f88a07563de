#!/usr/bin/env python3
"""Writes the completions of `kcr` for bash, zsh and fish, made from what `kcr --help` and each subcommand's help say.

    tools/completion.py PROGRAM FOLDER

FOLDER gets the files `kcr` (bash), `_kcr` (zsh) and `kcr.fish`.
"""

import pathlib
import re
import subprocess
import sys

INDENTED = re.compile(r"^  (?P<name>[a-z]+)(?:  +(?P<about>.+))?$")
OPTION = re.compile(r"^ +(?:-[a-zA-Z], )?--(?P<name>[a-z-]+)(?: <(?P<value>[A-Z]+)>)?(?:  +(?P<about>.+))?$")


def help_of(program, *words):
    """The help of the program or of a subcommand; it goes to standard error."""
    told = subprocess.run([program, *words, "--help"], capture_output=True, text=True, timeout=60)
    return (told.stdout + told.stderr).splitlines()


def subcommands(program):
    """Each subcommand with what it does; `help` itself is none."""
    lines = help_of(program)
    found = [INDENTED.match(line) for line in lines[lines.index("Commands:") + 1 :]]
    pairs = [(m["name"], m["about"] or "") for m in found if m]
    return [(name, about) for name, about in pairs if name != "help"]


def options(program, subcommand):
    """The options of a subcommand: name, name of the value or None, what it is for."""
    lines = help_of(program, subcommand)
    found = [OPTION.match(line) for line in lines]
    return [(m["name"], m["value"], m["about"] or "") for m in found if m]


def bash(commands):
    """The completion for bash: subcommands first, then the options of the one that was given, and names of files."""
    cases = "\n".join(
        f"        {name}) words='{' '.join('--' + option for option, _, _ in given)}' ;;" for name, _, given in commands
    )
    names = " ".join(name for name, _, _ in commands)
    files = "|".join(sorted({"--" + option for _, _, given in commands for option, value, _ in given if value == "FILE"}))
    return f"""# Completion of kcr for bash.
_kcr()
{{
    local word=${{COMP_WORDS[COMP_CWORD]}} before=${{COMP_WORDS[COMP_CWORD-1]}} words=
    case $before in
        {files}) mapfile -t COMPREPLY < <(compgen -f -- "$word"); return ;;
    esac
    case ${{COMP_WORDS[1]}} in
{cases}
    esac
    if (( COMP_CWORD == 1 )); then
        words='{names} --help --version'
    fi
    mapfile -t COMPREPLY < <(compgen -W "$words" -- "$word")
}}
complete -F _kcr kcr
"""


def quoted(text):
    """A word of zsh."""
    return "'" + text.replace("'", "'\\''") + "'"


def escaped(text):
    """A text within zsh's forms of options and values, where colons and brackets mean something."""
    return re.sub(r"([\[\]:\\])", r"\\\1", text)


def quoted_in_fish(text):
    """A word of fish."""
    return "'" + text.replace("\\", "\\\\").replace("'", "\\'") + "'"


def zsh(commands):
    """The completion for zsh."""
    names = "\n".join(f"        {quoted(name + ':' + escaped(about))}" for name, about, _ in commands)
    cases = []
    for name, _, given in commands:
        words = []
        for option, value, about in given:
            tail = {None: "", "FILE": ":file:_files"}.get(value, f":{(value or '').lower()}: ")
            words.append(quoted(f"--{option}[{escaped(about)}]{tail}"))
        cases.append(f"        {name}) _arguments {' '.join(words)} ;;")
    body = "\n".join(cases)
    return f"""#compdef kcr
# Completion of kcr for zsh.
_kcr() {{
    local -a subcommands=(
{names}
    )
    if (( CURRENT == 2 )); then
        _describe 'subcommand' subcommands
        return
    fi
    local subcommand=$words[2]
    shift words
    (( CURRENT-- ))
    case $subcommand in
{body}
    esac
}}
_kcr "$@"
"""


def fish(commands):
    """The completion for fish."""
    lines = ["# Completion of kcr for fish.", "complete -c kcr -f"]
    for name, about, _ in commands:
        lines.append(f"complete -c kcr -n __fish_use_subcommand -a {name} -d {quoted_in_fish(about)}")
    for name, _, given in commands:
        for option, value, about in given:
            takes = {None: "", "FILE": " -r -F"}.get(value, " -x")
            seen = f"'__fish_seen_subcommand_from {name}'"
            lines.append(f"complete -c kcr -n {seen} -l {option}{takes} -d {quoted_in_fish(about)}")
    return "\n".join(lines) + "\n"


def write_all(program, folder):
    """Writes the three files."""
    commands = [(name, about, options(program, name)) for name, about in subcommands(program)]
    folder = pathlib.Path(folder)
    folder.mkdir(parents=True, exist_ok=True)
    for name, made in (("kcr", bash), ("_kcr", zsh), ("kcr.fish", fish)):
        (folder / name).write_text(made(commands))


if __name__ == "__main__":
    if len(sys.argv) != 3:
        sys.exit(__doc__.strip())
    write_all(sys.argv[1], sys.argv[2])
