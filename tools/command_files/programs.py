"""Completion of the programs for bash, zsh and fish."""

from command_files.completion import quoted
from command_files.forms import Form

HEAD = "Completion of the programs; tools/command-files.py writes this file."
PROGRAMS = ("pert", "pert_check", "pert_whatif", "pert-recheck")


def bash(forms: list[Form]) -> str:
    """Returns one file for bash: the forms of pert, and files for the other programs."""
    words = " ".join(form.word for form in forms)
    lines = [
        f"# {HEAD}",
        "_pert() {",
        '    if [ "$COMP_CWORD" -eq 1 ]; then',
        f"        mapfile -t COMPREPLY < <(compgen -W '{words}' -- \"$2\")",
        "    fi",
        "}",
        "complete -o bashdefault -o default -F _pert pert",
        *(f"complete -f {name}" for name in PROGRAMS[1:]),
    ]
    return "\n".join(lines) + "\n"


def zsh(forms: list[Form]) -> str:
    """Returns one file for zsh, which serves all programs."""
    lines = [
        f"#compdef {' '.join(PROGRAMS)}",
        f"# {HEAD}",
        "local -a forms",
        "forms=(",
        *(f"    {quoted(f'{form.word}:{form.brief}')}" for form in forms),
        ")",
        "if [[ $service == pert ]] && (( CURRENT == 2 )); then",
        "    _describe form forms",
        "else",
        "    _files",
        "fi",
    ]
    return "\n".join(lines) + "\n"


def fish(name: str, forms: list[Form]) -> str:
    """Returns the file of one program for fish; that of pert has its forms."""
    lines = [f"# {HEAD}"]
    if name == "pert":
        for form in forms:
            words = f"-n __fish_use_subcommand -f -a {form.word} -d {quoted(form.brief)}"
            lines.append(f"complete -c pert {words}")
    else:
        lines.append(f"complete -c {name} -F")
    return "\n".join(lines) + "\n"
