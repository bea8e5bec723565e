"""The manual page of the lab, and what shells complete, made of the same texts as its help. Nothing of it is installed."""
from __future__ import annotations

import argparse
from pathlib import Path
from typing import Dict, List, Tuple

from .main import ABOUT, WORD_NAMES, ending, parser_of
from .program import TOP
from .verdicts import MEANINGS

MANUAL = TOP / "docs" / "replset-lab.1"
BASH = TOP / "tools" / "completion" / "replset-lab.bash"
ZSH = TOP / "tools" / "completion" / "_replset-lab"


def _words() -> Dict[str, argparse.ArgumentParser]:
    """The parsers of the words, by name."""
    whole = parser_of(())
    (words,) = (action for action in whole._actions if isinstance(action, argparse._SubParsersAction))
    return {name: words.choices[name] for name in WORD_NAMES}


def _options(word: argparse.ArgumentParser) -> List[Tuple[str, str]]:
    """The options of a word, each with its help."""
    found = []
    for action in word._actions:
        found += [(option, (action.help or "").replace("%(", "")) for option in action.option_strings]
    return found


def _roff(text: str) -> List[str]:
    escaped = text.replace("\\", "\\e").replace("-", "\\-").replace("'", "\\(aq")
    return ["\\&" + line if line.startswith(".") else line for line in escaped.split("\n")]


def _arguments(word: argparse.ArgumentParser) -> List[str]:
    """What a word takes: each argument with its help."""
    lines: List[str] = []
    for action in word._actions:
        values = action.metavar if isinstance(action.metavar, str) else " ".join(action.metavar or ())
        named = values or ("{" + ",".join(map(str, action.choices)) + "}" if action.choices else "")
        lines += [".TP", *_roff(" ".join([", ".join(action.option_strings), named]).strip()), *_roff(action.help or "")]
    return lines


def manual() -> str:
    """The manual page: what `lab --help` tells, and that of each word."""
    lines = [
        '.TH REPLSET\\-LAB 1 "" "Nitsorano" "User commands"', ".SH NAME",
        "replset\\-lab \\- asks what happens to data in a replica set", ".SH SYNOPSIS", ".B lab", "WORD ..", ".SH DESCRIPTION",
        *_roff(" ".join(ABOUT.split())), ".PP", ".nf", *_roff(ending(True).strip()), ".fi",
    ]
    for name, word in _words().items():
        lines += [f'.SH "{name.upper()}"', ".nf", *_roff((word.description or "").strip()), ".fi", *_arguments(word)]
    return "\n".join(lines) + "\n"


def bash() -> str:
    """What bash completes."""
    options = {name: " ".join(option for option, _ in _options(word)) for name, word in _words().items()}
    cases = "\n".join(f'    {name}) options="{told}" ;;' for name, told in options.items())
    return f"""# Completes the words of the lab in bash. `tools/lab/refresh` makes this of its help.

_replset_lab() {{
    local word=${{COMP_WORDS[COMP_CWORD]}} options=
    if ((COMP_CWORD == 1)); then
        mapfile -t COMPREPLY < <(compgen -W "{' '.join(WORD_NAMES)} --help" -- "$word")
        return
    fi
    case ${{COMP_WORDS[1]}} in
{cases}
    esac
    if [[ ${{COMP_WORDS[COMP_CWORD - 1]}} == --verdict ]]; then
        mapfile -t COMPREPLY < <(compgen -W "{' '.join(MEANINGS)}" -- "$word")
    elif [[ $word == -* ]]; then
        mapfile -t COMPREPLY < <(compgen -W "$options" -- "$word")
    else
        mapfile -t COMPREPLY < <(compgen -f -- "$word")
    fi
}}

complete -o filenames -F _replset_lab replset-lab
complete -o filenames -F _replset_lab ./lab
"""


def _quoted(text: str) -> str:
    return "'" + text.replace("'", "'\\''").replace("\n", " ") + "'"


def zsh() -> str:
    """What zsh completes."""
    words = _words()
    names = "\n".join("        " + _quoted(f"{name}:{(word.description or name).splitlines()[0]}") for name, word in words.items())
    options = {name: " ".join(_quoted(f"{option}:{told}") for option, told in _options(word)) for name, word in words.items()}
    cases = "\n".join(f"        {name}) options=({told}) ;;" for name, told in options.items())
    return f"""#compdef replset-lab lab
# Completes the words of the lab in zsh. `tools/lab/refresh` makes this of its help.

_replset_lab() {{
    local -a words_of_lab=(
{names}
    )
    local -a options
    if (( CURRENT == 2 )); then
        _describe -t words 'word' words_of_lab
        return
    fi
    case $words[2] in
{cases}
    esac
    if [[ $words[CURRENT-1] == --verdict ]]; then
        compadd -- {' '.join(MEANINGS)}
    elif [[ $PREFIX == -* ]]; then
        _describe -t options 'option' options
    else
        _files
    fi
}}

_replset_lab "$@"
"""


def made() -> List[Tuple[Path, str]]:
    """The files that are made so, each with what it must be."""
    return [(MANUAL, manual()), (BASH, bash()), (ZSH, zsh())]
