"""Completion of the companion's commands for bash, zsh and fish."""

from command_files.commands import Command, Word

HEAD = "Completion of the companion's commands; tools/command-files.py writes this file."


def bash(commands: list[Command]) -> str:
    """Returns one file for bash, which serves every command."""
    lines = [
        f"# {HEAD}",
        "_pert_companion() {",
        "    local options='' choices='' value=''",
        "    case ${1##*/} in",
    ]
    for command in commands:
        lines += _bash_case(command)
    names = " ".join(command.name for command in commands)
    lines += [
        "    esac",
        "    COMPREPLY=()",
        '    if [ -n "$choices" ]; then',
        '        mapfile -t COMPREPLY < <(compgen -W "$choices" -- "$2")',
        '    elif [ "$value" = none ]; then',
        "        compopt +o default +o bashdefault",
        '    elif [ "$value" != file ] && [[ $2 == -* ]]; then',
        '        mapfile -t COMPREPLY < <(compgen -W "$options" -- "$2")',
        "    fi",
        "}",
        f"complete -o bashdefault -o default -F _pert_companion {names}",
    ]
    return "\n".join(lines) + "\n"


def _bash_case(command: Command) -> list[str]:
    words = " ".join(name for option in command.options() for name in option.names)
    lines = [f"    {command.name})", f"        options='{words}'", "        case $3 in"]
    free = []
    for option in command.options():
        names = " | ".join(option.names)
        if option.choices:
            lines.append(f"        {names}) choices='{' '.join(option.choices)}' ;;")
        elif option.is_file:
            lines.append(f"        {names}) value='file' ;;")
        elif option.value:
            free.append(names)
    if free:
        lines.append(f"        {' | '.join(free)}) value='none' ;;")
    return lines + ["        esac", "        ;;"]


def zsh(commands: list[Command]) -> str:
    """Returns one file for zsh, which serves every command."""
    names = " ".join(command.name for command in commands)
    lines = [f"#compdef {names}", f"# {HEAD}", "case $service in"]
    for command in commands:
        lines.append(f"    {command.name})")
        lines.append("        _arguments \\")
        for option in command.options():
            lines += [f"            {quoted(spec)} \\" for spec in _zsh_specs(option)]
        lines += ["            '*:file:_files'", "        ;;"]
    return "\n".join(lines + ["esac"]) + "\n"


def _zsh_specs(option: Word) -> list[str]:
    text = option.help.replace("\\", "\\\\").replace("[", "\\[").replace("]", "\\]")
    text = text.replace(":", "\\:")
    action = ""
    if option.value:
        value = option.value.replace(":", "\\:").replace("{", "").replace("}", "")
        action = f":{value}:" + (f"({' '.join(option.choices)})" if option.choices else "")
        action += "_files" if option.is_file else ""
    return [f"*{name}[{text}]{action}" for name in option.names]


def fish(command: Command) -> str:
    """Returns the file of one command for fish."""
    lines = [f"# {HEAD}"]
    for option in command.options():
        words = [f"complete -c {command.name}"]
        for name in option.names:
            words.append(f"-l {name[2:]}" if name.startswith("--") else f"-s {name[1:]}")
        if option.choices:
            words.append(f"-x -a {quoted(' '.join(option.choices))}")
        elif option.value:
            words.append("-r -F" if option.is_file else "-x")
        words.append(f"-d {_fish_quoted(option.help)}")
        lines.append(" ".join(words))
    return "\n".join(lines) + "\n"


def quoted(text: str) -> str:
    """Returns a text as one word of a shell."""
    return "'" + text.replace("'", "'\\''") + "'"


def _fish_quoted(text: str) -> str:
    return "'" + text.replace("\\", "\\\\").replace("'", "\\'") + "'"
