"""Makes completions for bash and zsh from the pages that ./raire help prints."""
import re

OWN = ("help", "version")  # words of the script that have no page

BASH = """\
# Completion of raire in bash: its commands, then the options of a command, and files.
_raire() {{
    local word=${{COMP_WORDS[COMP_CWORD]}} options=
    if [ "$COMP_CWORD" = 1 ]; then
        mapfile -t COMPREPLY < <(compgen -W "{commands}" -- "$word")
        return
    fi
    case ${{COMP_WORDS[1]}} in
    help) options="{pages}" ;;
{cases}
    esac
    if [ "${{COMP_WORDS[1]}}" = help ] || [[ $word == -* ]]; then
        mapfile -t COMPREPLY < <(compgen -W "$options" -- "$word")
    else
        compopt -o filenames
        mapfile -t COMPREPLY < <(compgen -f -- "$word")
    fi
}}
complete -F _raire raire ./raire
"""

ZSH = """\
#compdef raire
# Completion of raire in zsh: its commands, then the options of a command, and files.
local -a commands options
commands=({commands})
if (( CURRENT == 2 )); then
    compadd -- $commands
    return
fi
case $words[2] in
    help) compadd -- {pages}; return ;;
{cases}
esac
if [[ $PREFIX == -* ]]; then
    compadd -- $options
else
    _files
fi
"""


def options_of(text):
    """The options in the first lines of a page."""
    return sorted(set(re.findall(r"--[a-z][a-z-]*", text.partition("\n\n")[0])))


def filled(form, pages, case):
    names = sorted(name for name in pages if name != "raire")
    cases = "\n".join(case.format(name=name, options=" ".join(options_of(pages[name]))) for name in names)
    return form.format(commands=" ".join([*names, *OWN]), pages=" ".join(names), cases=cases)


def for_bash(pages):
    return filled(BASH, pages, '    {name}) options="{options}" ;;')


def for_zsh(pages):
    return filled(ZSH, pages, "    {name}) options=({options}) ;;")
