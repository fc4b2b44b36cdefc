"""Completions for bash, zsh and fish, made from the programs' help."""
from typing import Dict, Iterator, List

from helps import Help, Row

HEAD = "# Completions of {}, made from its help by tools/install.\n"
# What stands behind an option or an argument, where that is a file.
FILES = ("FILE", "DEVICES")
# The programs before whose -- a file stands, and what zsh is told of it.
FILED = {"tirnouch-run": "'1:file of devices:_files'"}

BASH_RUN = """@function@()
{
    local word=${COMP_WORDS[COMP_CWORD]} at has_file=@no_file@
    COMPREPLY=()
    for ((at = 1; at < COMP_CWORD; at++)); do
        case ${COMP_WORDS[at]} in
        --)
            @function@_program $((at + 1))
            return
            ;;
        @valued@) ((at++)) ;;
        -*) ;;
        *) has_file=yes ;;
        esac
    done
    case ${COMP_WORDS[COMP_CWORD-1]} in
    @filed@) ;;
    @others@) return ;;
    *)
        if [[ $word == -* || $has_file ]]; then
            mapfile -t COMPREPLY < <(compgen -W '@options@ --' -- "$word")
            return
        fi
        ;;
    esac
    compopt -o filenames 2>/dev/null
    mapfile -t COMPREPLY < <(compgen -f -- "$word")
}

# The program, which is the word of this number, and its own words.
@function@_program()
{
    local word=${COMP_WORDS[COMP_CWORD]}
    if declare -F _command_offset >/dev/null; then
        _command_offset "$1"
        return
    fi
    compopt -o filenames 2>/dev/null
    if ((COMP_CWORD == $1)) && [[ $word != */* ]]; then
        mapfile -t COMPREPLY < <(compgen -A command -A file -- "$word")
    else
        mapfile -t COMPREPLY < <(compgen -f -- "$word")
    fi
}
complete -F @function@ @name@
"""
BASH_TRACE = """_usbtrace()
{
    local word=${COMP_WORDS[COMP_CWORD]} options=
    COMPREPLY=()
    if ((COMP_CWORD == 1)); then
        mapfile -t COMPREPLY < <(compgen -W '@words@' -- "$word")
        return
    fi
    case ${COMP_WORDS[COMP_CWORD-1]} in
    @valued@) return ;;
    esac
    case ${COMP_WORDS[1]} in
@cases@
    esac
    if [[ $word == -* ]]; then
        mapfile -t COMPREPLY < <(compgen -W "$options" -- "$word")
        return
    fi
    compopt -o filenames 2>/dev/null
    mapfile -t COMPREPLY < <(compgen -f -- "$word")
}
complete -F _usbtrace usbtrace
"""
ZSH_RUN = """local at=${words[(i)--]}
if (( at < CURRENT )); then
    # The words of the program alone
    words=("${(@)words[at + 1,-1]}")
    (( CURRENT -= at ))
    _normal
    return
fi
_arguments \\
@options@
    @file@
"""
ZSH_TRACE = """local context state state_descr line
typeset -A opt_args
_arguments -C '1:word:->word' '*:: :->rest' && return
case $state in
word)
    local -a known=(
@words@
    )
    _describe word known
    ;;
rest)
    case $words[1] in
@cases@
    esac
    ;;
esac
"""
FISH_RUN = """# The words behind --
function _@function@_program
    set -l words (commandline -opc)
    set -l at (contains -i -- -- $words)
    and test $at -lt (count $words)
    and string join -- ' ' (string escape -- $words[(math $at + 1)..-1])
end

function _@function@_has_program
    contains -- -- (commandline -opc)
end

function _@function@_complete
    complete -C "$(string join -- ' ' (_@function@_program) (commandline -ct))"
end

complete -c @name@ -n _@function@_has_program -x -a '(_@function@_complete)'
"""


def filled(text: str, **parts: str) -> str:
    for name, part in parts.items():
        text = text.replace(f"@{name}@", part)
    return text


def options_of(rows: List[Row]) -> List[str]:
    return [name for row in rows for name in row.options()]


def valued(rows: List[Row]) -> List[str]:
    """The options behind which a word stands."""
    return [name for row in rows if row.value() for name in row.options()]


def filed(rows: List[Row]) -> List[str]:
    """Those behind which a file stands."""
    return [name for row in rows if row.value() in FILES for name in row.options()]


def function_of(name: str) -> str:
    """The name of a program's function in a shell."""
    return f"_{name.replace('-', '_')}"


def bash_run(name: str, help_of: Help) -> str:
    rows = help_of.options()
    others = [it for it in valued(rows) if it not in filed(rows)]
    return filled(BASH_RUN, valued=" | ".join(valued(rows)), filed=" | ".join(filed(rows)), others=" | ".join(others),
                  options=" ".join(options_of(rows)), function=function_of(name), name=name, no_file="" if name in FILED else "yes")


def bash_trace(_name: str, help_of: Help) -> str:
    cases = "\n".join(f"    {name}) options='{' '.join(options_of(it.options()))}' ;;" for name, it in help_of.words.items())
    takes = sorted({name for it in help_of.words.values() for name in valued(it.options())})
    words = [*help_of.words, *options_of(help_of.options()), "--version"]
    return filled(BASH_TRACE, cases=cases, valued=" | ".join(takes), words=" ".join(words))


def zsh_text(text: str) -> str:
    """A text within an option's brackets, within single quotes."""
    for old, new in (("\\", "\\\\"), ("[", "\\["), ("]", "\\]"), (":", "\\:"), ("'", "'\\''")):
        text = text.replace(old, new)
    return text


def zsh_option(row: Row) -> Iterator[str]:
    for name in row.options():
        value = f":{zsh_text(row.value())}:{'_files' if row.value() in FILES else ''}" if row.value() else ""
        yield f"'{name}[{zsh_text(row.text)}]{value}'"


def zsh_run(name: str, help_of: Help) -> str:
    options = "\n".join(f"    {it} \\" for row in help_of.options() for it in zsh_option(row))
    return filled(ZSH_RUN, options=options, file=FILED.get(name, "'1: :'"))


def zsh_trace(_name: str, help_of: Help) -> str:
    words = "\n".join(f"        '{name}:{zsh_text(it.about)}'" for name, it in help_of.words.items())
    cases = []
    for name, it in help_of.words.items():
        words_of = [*(text for row in it.options() for text in zsh_option(row))]
        words_of += [f"'{at}:{zsh_text(row.text)}:'" for at, row in enumerate(it.rows.get("Arguments:", []), 1)]
        cases.append(f"    {name}) _arguments {' '.join(words_of)} '*:file:_files' ;;")
    return filled(ZSH_TRACE, words=words, cases="\n".join(cases))


def fish_text(text: str) -> str:
    for old, new in (("\\", "\\\\"), ("'", "\\'")):
        text = text.replace(old, new)
    return f"'{text}'"


def fish_option(row: Row) -> str:
    names = " ".join(f"-l {it[2:]}" if it.startswith("--") else f"-s {it[1:]}" for it in row.options())
    takes = ("" if not row.value() else " -r -F" if row.value() in FILES else " -x")
    return f"{names}{takes} -d {fish_text(row.text)}"


def fish_run(name: str, help_of: Help) -> str:
    function = function_of(name)
    lines = [f"complete -c {name} -n 'not _{function}_has_program' {fish_option(row)}" for row in help_of.options()]
    return filled(FISH_RUN, function=function, name=name) + "\n".join(lines) + "\n"


def fish_trace(_name: str, help_of: Help) -> str:
    lines = ["complete -c usbtrace -n __fish_use_subcommand -f -l version -d 'Print the version'"]
    for name, it in help_of.words.items():
        lines.append(f"complete -c usbtrace -n __fish_use_subcommand -f -a {name} -d {fish_text(it.about)}")
        lines += [f"complete -c usbtrace -n '__fish_seen_subcommand_from {name}' {fish_option(row)}" for row in it.options()]
    return "\n".join(lines) + "\n"


def completions(helps: Dict[str, Help]) -> Dict[str, str]:
    found = {}
    runs = (bash_run, zsh_run, fish_run)
    makers = {"tirnouch-run": runs, "tirnouch-record": runs, "usbtrace": (bash_trace, zsh_trace, fish_trace)}
    for name, (bash, zsh, fish) in makers.items():
        head, it = HEAD.format(name), helps[name]
        found[f"share/bash-completion/completions/{name}"] = head + bash(name, it)
        found[f"share/zsh/site-functions/_{name}"] = f"#compdef {name}\n{head}{zsh(name, it)}"
        found[f"share/fish/vendor_completions.d/{name}.fish"] = head + fish(name, it)
    return found
