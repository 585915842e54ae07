"""Makes the man page of the program, and its completions for bash and zsh, from its help texts."""
from __future__ import annotations

import re
import subprocess
from typing import NamedTuple

COMMAND = re.compile(r"^  ([a-z]+) +(\S.*)$", re.MULTILINE)
ARGUMENT = re.compile(r"^  <([A-Z]+)> +(.*)$", re.MULTILINE)
VALUES = re.compile(r"\[possible values: (.*)\]")
# The section of the overview after the last list of subcommands.
OPTIONS = "\nOptions:\n"
OPTION_NAMES = "--help --version"
# The characters that roff would replace by typographic ones.
ROFF = str.maketrans({"\\": r"\e", "-": r"\-", "'": r"\(aq", "`": r"\(ga", "^": r"\(ha", "~": r"\(ti"})
TIME_LIMIT = 60


class Subcommand(NamedTuple):
    """A subcommand: its name, its summary, the values of each argument that has a list of values, and its whole help."""

    name: str
    summary: str
    values: list[list[str]]
    help: str


class Help(NamedTuple):
    """The help of the program."""

    overview: str
    subcommands: list[Subcommand]
    version: str
    faults: str


def run(program: str, *arguments: str) -> str:
    """Returns what the program prints for these arguments."""
    return subprocess.run([program, *arguments], check=True, stdin=subprocess.DEVNULL, stdout=subprocess.PIPE, text=True,
                          timeout=TIME_LIMIT).stdout


def parse_values(text: str) -> list[list[str]]:
    """Returns the possible values of each argument in the help of a subcommand. The list of an argument without a list is empty."""
    found = [VALUES.search(description) for _, description in ARGUMENT.findall(text)]
    return [values[1].split(", ") if values else [] for values in found]


def read_help(program: str) -> Help:
    """Returns the help that a program prints."""
    overview = run(program, "--help")
    subcommands = []
    for name, summary in COMMAND.findall(overview.partition(OPTIONS)[0]):
        text = "" if name == "help" else run(program, "help", name)
        subcommands.append(Subcommand(name, summary, parse_values(text), text))
    return Help(overview, subcommands, run(program, "--version").split()[-1], run(program, "faults"))


def roff(text: str) -> str:
    """Returns the lines of a text, without change of layout, for a man page."""
    lines = [re.sub(r"^(?=\.)", r"\\&", line.translate(ROFF)) for line in text.strip("\n").splitlines()]
    return "\n".join([".nf", *lines, ".fi"]) + "\n"


def man_page(page: Help) -> str:
    """Returns the man page of the program, in the language of roff."""
    title, _, usage_and_rest = page.overview.partition("\n\n")
    _, _, rest = usage_and_rest.partition("\n\n")
    parts = [f'.TH MOC 1 "" "moc {page.version}" "User Commands"\n', f".SH NAME\nmoc \\- {title.translate(ROFF)}\n",
             ".SH SYNOPSIS\n.B moc\n.I subcommand\n.RI [ argument ...]\n", f".SH DESCRIPTION\n{roff(rest)}", ".SH SUBCOMMANDS\n"]
    for subcommand in page.subcommands:
        if subcommand.help:
            parts.append(f".SS {subcommand.name}\n{roff(subcommand.help)}")
    return "".join([*parts, f".SH EXIT STATUS\n{roff(page.faults)}"])


def argument_values(page: Help) -> list[tuple[int, str, list[str]]]:
    """Returns the position of each argument with a list of values, the name of its subcommand, and the values. A subcommand is at
    position 1."""
    names = [subcommand.name for subcommand in page.subcommands]
    positions = [(2, "help", names)]
    for subcommand in page.subcommands:
        positions += [(position, subcommand.name, values) for position, values in enumerate(subcommand.values, 2) if values]
    return positions


def bash_completion(page: Help) -> str:
    """Returns the completion of the program for bash."""
    names = " ".join(subcommand.name for subcommand in page.subcommands)
    cases = "".join(f"        {position},{name}) values='{' '.join(values)}' ;;\n" for position, name, values in argument_values(page))
    return f"""# Completion of `moc` for bash.
_moc() {{
    local values=
    case "${{COMP_WORDS[COMP_CWORD - 1]}}" in
        *[\\<\\>])
            compopt -o default
            return
            ;;
    esac
    case "$COMP_CWORD,${{COMP_WORDS[1]}}" in
        1,*) values='{names} {OPTION_NAMES}' ;;
{cases}    esac
    mapfile -t COMPREPLY < <(compgen -W "$values" -- "${{COMP_WORDS[COMP_CWORD]}}")
}}
complete -F _moc moc
"""


def zsh_completion(page: Help) -> str:
    """Returns the completion of the program for zsh."""
    described = "".join("        '" + f"{name}:{summary}".replace("'", "'\\''") + "'\n" for name, summary, *_ in page.subcommands)
    cases = "".join(f"        {position + 1},{name}) compadd {' '.join(values)} ;;\n" for position, name, values in argument_values(page))
    return f"""#compdef moc
# Completion of `moc` for zsh.
_moc() {{
    local -a subcommands=(
{described}    )
    case "$CURRENT,$words[2]" in
        2,*) _describe subcommand subcommands; compadd -- {OPTION_NAMES} ;;
{cases}    esac
}}
_moc "$@"
"""
