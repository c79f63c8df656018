"""Completion for bash."""

from __future__ import annotations

from typing import Iterable

from abi_manual.sources import Command, Manual

_SCRIPT = """\
# Completion of {program} for bash. Made by tools/make-manual from tools/abi_manual/commands.toml.
_{function}() {{
    local current=${{COMP_WORDS[COMP_CWORD]}} previous=${{COMP_WORDS[COMP_CWORD - 1]}} options
    COMPREPLY=()
    # bash parts --report=text at the sign
    if [[ $current == = ]]; then current=; fi
    if [[ $previous == = ]]; then previous=${{COMP_WORDS[COMP_CWORD - 2]}}; fi
    if ((COMP_CWORD == 1)); then
        mapfile -t COMPREPLY < <(compgen -W "{commands} --help --version" -- "$current")
        return
    fi
    case ${{COMP_WORDS[1]}} in
{cases}
    *) options= ;;
    esac
    if [[ $options == *"$previous"* ]]; then
        case $previous in
{values}
        esac
    fi
    if [[ $current == -* ]]; then
        mapfile -t COMPREPLY < <(compgen -W "$options" -- "$current")
    fi
}}
# Where nothing is found here, bash completes the names of files.
complete -o default -F _{function} {program}
"""


def completion(manual: Manual, program: str, left_out: Iterable[str] = ()) -> str:
    """The script that completes the arguments of a program. The program does not take the options `left_out`."""
    unwanted = set(left_out)
    cases = [f"    {command.name}) options=\"{_options(command, unwanted)}\" ;;" for command in manual.commands
             if _options(command, unwanted)]
    values = [f"        --{option.name})" + _replies(option.choices) for option in manual.options.values()
              if option.name not in unwanted]
    return _SCRIPT.format(program=program, function=program.replace("-", "_"), cases="\n".join(cases), values="\n".join(values),
                          commands=" ".join(command.name for command in manual.commands))


def _options(command: Command, unwanted: set[str]) -> str:
    return " ".join(f"--{option.name}" for option in command.options if option.name not in unwanted)


def _replies(choices: list[str]) -> str:
    """Completes the value of an option; bash itself completes the names of files."""
    if not choices:
        return " return ;;"
    return f"\n            mapfile -t COMPREPLY < <(compgen -W \"{' '.join(choices)}\" -- \"$current\")\n            return\n            ;;"
