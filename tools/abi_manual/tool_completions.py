"""Completion of the tools in Python for bash."""

from __future__ import annotations

from typing import Iterator, Sequence

from abi_manual.tool_arguments import ToolOption, options_of

_SCRIPT = """\
# Completion of {name} for bash. Made by tools/make-manual from the arguments that the tool takes.
_{function}() {{
    local current=${{COMP_WORDS[COMP_CWORD]}} previous=${{COMP_WORDS[COMP_CWORD - 1]}}
    COMPREPLY=()
    # bash parts --rules=FILE at the sign
    if [[ $current == = ]]; then current=; fi
    if [[ $previous == = ]]; then previous=${{COMP_WORDS[COMP_CWORD - 2]}}; fi
    case $previous in
{cases}
    esac
    if [[ $current == -* ]]; then
        mapfile -t COMPREPLY < <(compgen -W "{options}" -- "$current")
    fi
}}
# Where nothing is found here, bash completes the names of files.
complete -o default -F _{function} {name}
"""
_FILES = ("FILE",)
_FOLDERS = ("FOLDER",)
_REPLY = 'mapfile -t COMPREPLY < <(compgen {what} -- "$current")'


def tool_completion(name: str, module: str) -> str:
    """The script that completes the arguments of a tool."""
    options = options_of(module)
    return _SCRIPT.format(name=name, function=name.replace("-", "_"), cases="\n".join(_cases(options)),
                          options=" ".join(one for option in options for one in option.names if one.startswith("--")))


def _cases(options: Sequence[ToolOption]) -> Iterator[str]:
    """What is offered after each option with a value."""
    valued = [option for option in options if option.takes_value]
    for option in valued:
        if option.choices:
            yield _case([option], _REPLY.format(what=f'-W "{" ".join(option.choices)}"'))
    folders = [option for option in valued if not option.choices and option.value in _FOLDERS]
    if folders:
        yield _case(folders, _REPLY.format(what="-d"), "compopt -o filenames 2>/dev/null")
    files = [option for option in valued if not option.choices and option.value in _FILES]
    if files:
        yield _case(files)
    others = [option for option in valued if not option.choices and option.value not in (*_FILES, *_FOLDERS)]
    if others:
        yield _case(others, "compopt +o default 2>/dev/null")


def _case(options: Sequence[ToolOption], *commands: str) -> str:
    names = " | ".join(name for option in options for name in option.names)
    return "\n".join([f"    {names})", *(f"        {command}" for command in (*commands, "return")), "        ;;"])
