#!/usr/bin/env python3
"""Writes the man page and the completions of tmhost, made from the helps that the program itself prints.

    install/pages.py PROGRAM FOLDER

makes tmhost.1, and tmhost.bash, _tmhost (for zsh) and tmhost.fish, in FOLDER.
"""
import dataclasses
import os
import re
import subprocess
import sys


@dataclasses.dataclass
class Help:
    """What a command's help says, in its parts."""

    about: str
    usage: str
    rows: dict  # by a list's heading, such as Commands, its pairs of a word and what it means
    notes: str

    def words(self, heading):
        return [word for word, _ in self.rows.get(heading, [])]


HEADING = re.compile(r"(Commands|Arguments|Options):")


def help_of(program, *words):
    """The help of the program or of a command of it."""
    text = subprocess.run([program, *words, "--help"], capture_output=True, text=True, check=True).stdout
    about, usage, *parts = text.rstrip("\n").split("\n\n")
    rows, notes = {}, []
    for part in parts:
        heading = HEADING.match(part)
        if heading and not notes:
            rows[heading[1]] = [re.split(r"\s{2,}", line.strip(), maxsplit=1) for line in part.split("\n")[1:]]
        else:
            notes.append(part)
    name = os.path.basename(program)
    return Help(about, usage.removeprefix("Usage: ").replace(name, "tmhost", 1), rows, "\n\n".join(notes))


def formats(export):
    """The words that may stand for FORMAT, as the notes of `export` list them."""
    listed = export.notes.split("\n\n")[0].split("\n")[1:]
    return [line.split()[0] for line in listed if line and not line.startswith(" ")]


def roff(text):
    """A text as it stands in a page: no line of it is a request, and no backslash an escape."""
    text = text.replace("\\", "\\e").replace("-", "\\-")
    return re.sub(r"(?m)^(?=[.'])", r"\\&", text)


def paragraph(text):
    """Lines as they stand where some are set in columns, else a paragraph that is filled."""
    if re.search(r"(?m)^\s|\S {2,}\S", text):
        return f".PP\n.nf\n{roff(text)}\n.fi\n"
    return f".PP\n{roff(text)}\n"


def row(pair):
    word, meaning = (pair + [""])[:2]
    return f".TP\n.B {roff(word)}\n{roff(meaning)}\n"


def section(name, page):
    """A command's part of the man page."""
    rows = "".join(row(pair) for heading in ("Arguments", "Options") for pair in page.rows.get(heading, []))
    notes = "".join(paragraph(part) for part in page.notes.split("\n\n"))
    return f".SS {name}\n{roff(page.about)}.\n.PP\n.B {roff(page.usage)}\n{rows}{notes}"


def manual(top, pages):
    notes = "".join(paragraph(part) for part in top.notes.split("\n\n"))
    commands = "".join(section(name, page) for name, page in pages.items())
    return (
        f".TH TMHOST 1\n.SH NAME\ntmhost \\- {roff(top.about[0].lower() + top.about[1:])}\n.SH SYNOPSIS\n.B {roff(top.usage)}\n"
        f".SH DESCRIPTION\n{notes}.SH COMMANDS\n{commands}"
    )


def bash(top, pages):
    options = "".join(f"        {name}) words='{' '.join(long_options(page))}' ;;\n" for name, page in pages.items())
    return f"""# Completions of tmhost for bash.
_tmhost() {{
    local word=${{COMP_WORDS[COMP_CWORD]}} words=''
    if [ "$COMP_CWORD" = 1 ]; then
        COMPREPLY=($(compgen -W '{' '.join(top.words("Commands"))} --help' -- "$word"))
        return
    fi
    case ${{COMP_WORDS[1]}} in
{options}        help) words='{' '.join(pages)}' ;;
    esac
    if [ "${{COMP_WORDS[1]}}" = export ] && [ "$COMP_CWORD" = 2 ]; then
        COMPREPLY=($(compgen -W '{' '.join(formats(pages["export"]))}' -- "$word"))
    elif [[ $word == -* ]] || [ "${{COMP_WORDS[1]}}" = help ]; then
        COMPREPLY=($(compgen -W "$words" -- "$word"))
    else
        COMPREPLY=($(compgen -f -- "$word"))
    fi
}}
complete -o filenames -F _tmhost tmhost
"""


def long_options(page):
    """The options that begin with two hyphens."""
    return [word for option in page.words("Options") for word in re.findall(r"--[a-z-]+", option)]


def zsh(top, pages):
    described = "\n".join(f"    '{name}:{meaning}'" for name, meaning in top.rows["Commands"])
    options = "\n".join(f"        {name}) _values option {' '.join(long_options(page))} ;;" for name, page in pages.items())
    return f"""#compdef tmhost
# Completions of tmhost for zsh.
local -a commands
commands=(
{described}
)
if (( CURRENT == 2 )); then
    _describe command commands
elif [[ $words[2] == help ]]; then
    _describe command commands
elif [[ $words[2] == export ]] && (( CURRENT == 3 )); then
    _values format {' '.join(formats(pages["export"]))}
elif [[ $words[CURRENT] == -* ]]; then
    case $words[2] in
{options}
    esac
else
    _files
fi
"""


def fish(top, pages):
    lines = ["# Completions of tmhost for fish.", "complete -c tmhost -n __fish_use_subcommand -f"]
    for name, meaning in top.rows["Commands"]:
        lines.append(f"complete -c tmhost -n __fish_use_subcommand -a {name} -d '{meaning}'")
    for name, page in pages.items():
        for option in long_options(page):
            lines.append(f"complete -c tmhost -n '__fish_seen_subcommand_from {name}' -l {option[2:]}")
    words = " ".join(formats(pages["export"]))
    lines.append(f"complete -c tmhost -n '__fish_seen_subcommand_from export; and not __fish_seen_subcommand_from {words}' -f -a '{words}'")
    lines.append(f"complete -c tmhost -n '__fish_seen_subcommand_from help' -f -a '{' '.join(pages)}'")
    return "\n".join(lines) + "\n"


def main(program, folder):
    top = help_of(program)
    pages = {name: help_of(program, name) for name in top.words("Commands") if name != "help"}
    os.makedirs(folder, exist_ok=True)
    for name, write in {"tmhost.1": manual, "tmhost.bash": bash, "_tmhost": zsh, "tmhost.fish": fish}.items():
        with open(os.path.join(folder, name), "w", encoding="utf-8") as file:
            file.write(write(top, pages))


if __name__ == "__main__":
    if len(sys.argv) != 3:
        sys.exit(__doc__)
    main(os.path.abspath(sys.argv[1]), sys.argv[2])
