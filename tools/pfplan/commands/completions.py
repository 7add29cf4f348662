"""What completes the words of pfplan in bash and in zsh: the commands, and the options of each."""

from __future__ import annotations

import argparse
from collections.abc import Iterator

from pfplan.commands.parser import COMMANDS, make_parser
from pfplan.commands.words import file, folder, output

BASH = """# completes the words of pfplan in bash
_pfplan()
{{
    local words="" word="${{COMP_WORDS[COMP_CWORD]}}"
    if (( COMP_CWORD == 1 )); then
        words="{top}"
    else
        case "${{COMP_WORDS[1]}}" in
{cases}
        esac
        [[ "$word" == -* ]] || words=""
    fi
    COMPREPLY=($(compgen -W "$words" -- "$word"))
}}
complete -o bashdefault -o default -F _pfplan pfplan
"""
ZSH = """#compdef pfplan
# completes the words of pfplan in zsh
local -a commands
commands=(
{commands}
)
if (( CURRENT == 2 )); then
    _describe command commands
    compadd -- {top}
    return
fi
shift words
(( CURRENT-- ))
case "$words[1]" in
{cases}
esac
"""
FILES = (file, folder, output)


def script_of(shell: str) -> str:
    """The script of `bash` or `zsh`."""
    parser = make_parser([name for name, _ in COMMANDS])
    (commands,) = (it for it in parser._actions if isinstance(it, argparse._SubParsersAction))
    own = {
        name: [it for it in commands.choices[name]._actions if it.option_strings and it.help != argparse.SUPPRESS]
        for name, _ in COMMANDS
    }
    general = [name for it in parser._actions for name in it.option_strings]
    if shell == "bash":
        top = " ".join([*own, *general])
        cases = (f'            {name}) words="{" ".join(_names(it))}";;' for name, it in own.items())
        return BASH.format(top=top, cases="\n".join(cases))
    told = (f"    {_quoted(f'{name}:{does}')}" for name, does in COMMANDS)
    cases = (_zsh_case(name, it) for name, it in own.items())
    return ZSH.format(commands="\n".join(told), top=" ".join(general), cases="\n".join(cases))


def _names(options: list[argparse.Action]) -> Iterator[str]:
    """The names of options, short ones first."""
    for it in options:
        yield from it.option_strings


def _zsh_case(command: str, options: list[argparse.Action]) -> str:
    """The options of a command, and files for what is no option."""
    specs = [_quoted(_zsh_spec(it, name)) for it in options for name in it.option_strings]
    return f"    {command})\n        _arguments " + " ".join([*specs, _quoted("*:file:_files")]) + ";;"


def _zsh_spec(option: argparse.Action, name: str) -> str:
    """An option for `_arguments`: its name, what it is for, and what comes behind it."""
    does = (option.help or "").replace("%%", "%")
    for letter in "\\[]:":
        does = does.replace(letter, f"\\{letter}")
    value = ""
    if option.nargs != 0:
        value = f":{str(option.metavar or option.dest)}:{'_files' if option.type in FILES else ' '}"
    return f"*{name}[{does}]{value}"


def _quoted(text: str) -> str:
    """A word of a shell."""
    return "'" + text.replace("'", "'\\''") + "'"
