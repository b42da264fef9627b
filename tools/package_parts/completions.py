"""Completions of bash and zsh for the commands of thinpool."""

# What is completed for a value of this name; nothing for others.
FILES = ("IMAGE", "SCRIPT")
PLACES = ("WHERE", "PLACE")

BASH = """\
# Completion of bash for thinpool. Made from the program's help by tools/package.

_thinpool_paths() {
    compopt -o filenames 2>/dev/null
    mapfile -t COMPREPLY < <(compgen -f -- "$1")
}

_thinpool_words() {
    mapfile -t COMPREPLY < <(compgen -W "$1" -- "$2")
}

# Completes a word of this kind: file, place or other.
_thinpool_kind() {
    case $1 in
    file) _thinpool_paths "$2" ;;
    place)
        if [[ $2 == unix:* ]]; then
            _thinpool_paths "${2#unix:}"
        else
            compopt -o nospace 2>/dev/null
            _thinpool_words unix: "$2"
        fi
        ;;
    esac
}

# Sets `words` to the words before and at the cursor: bash splits them at each colon.
_thinpool_join() {
    local it
    words=()
    for ((it = 0; it <= COMP_CWORD; it++)); do
        if ((it > 1)) && [[ ${COMP_WORDS[it]} == : || ${COMP_WORDS[it - 1]} == : ]]; then
            words[-1]+=${COMP_WORDS[it]}
        else
            words+=("${COMP_WORDS[it]}")
        fi
    done
}

_thinpool() {
    local -a words kinds
    local at=1 options values count=0 it last
    COMPREPLY=()
    _thinpool_join
    last=$((${#words[@]} - 1))
    [[ ${words[1]} == --explain ]] && ((last > 1)) && at=2
    if ((last == at)); then
        _thinpool_words '@commands@ --explain --help --version' "${words[last]}"
        return
    fi
    case ${words[at]} in
@cases@
    *) return ;;
    esac
    for ((it = at + 1; it < last; it++)); do
        if [[ " $values " == *" ${words[it]}="* ]]; then
            if ((it + 1 == last)); then
                values=${values##*"${words[it]}="}
                _thinpool_kind "${values%% *}" "${words[last]}"
                return
            fi
            ((it++))
        elif [[ ${words[it]} != -* ]]; then
            ((count++))
        fi
    done
    if [[ ${words[last]} == -* ]]; then
        _thinpool_words "$options" "${words[last]}"
    else
        _thinpool_kind "${kinds[count]-}" "${words[last]}"
    fi
}

complete -F _thinpool thinpool
"""

ZSH = """\
#compdef thinpool
# Completion of zsh for thinpool. Made from the program's help by tools/package.

_thinpool_place() {
    if compset -P 'unix:'; then
        _files
    else
        compadd -S '' -- unix:
    fi
}

_thinpool() {
    local context state state_descr line
    typeset -A opt_args
    local -a commands
    commands=(
@commands@
    )
    _arguments -C \\
        '--explain[after an error, print what failed and why]' \\
        '(- *)'{-h,--help}'[print help]' \\
        '(- *)'{-V,--version}'[print the version]' \\
        '1: :->command' \\
        '*:: :->rest' && return
    case $state in
    command) _describe -t commands 'command' commands ;;
    rest)
        case $words[1] in
@cases@
        esac
        ;;
    esac
}

_thinpool "$@"
"""


def kind(name):
    if name.rstrip("0123456789") in FILES:
        return "file"
    return "place" if name in PLACES else "other"


def bash(commands):
    cases = []
    for it in commands:
        options = " ".join(f"--{option.name}" for option in it.options)
        values = " ".join(f"--{option.name}={kind(option.value)}"
                          for option in it.options if option.value)
        arguments = " ".join(kind(name) for name, _ in it.arguments)
        if it.name == "help":
            arguments = ""
        cases.append(f"    {it.name}) options='{options}' values='{values}' "
                     f"kinds=({arguments}) ;;")
    names = " ".join(it.name for it in commands)
    return BASH.replace("@commands@", names).replace("@cases@", "\n".join(cases))


def quoted(text):
    """A text within single quotes, in which _arguments finds no brackets and colons."""
    for old, new in (("\\", "\\\\"), ("[", "\\["), ("]", "\\]"), (":", "\\:"), ("'", "'\\''")):
        text = text.replace(old, new)
    return text


def action(name):
    return {"file": "_files", "place": "_thinpool_place", "other": " "}[kind(name)]


def zsh_case(command):
    words = []
    for it in command.options:
        short = "(- *)" if it.name == "help" else "*" if it.value else ""
        value = f":{it.value}:{action(it.value)}" if it.value else ""
        words.append(f"'{short}--{it.name}[{quoted(it.text)}]{value}'")
    for number, (name, text) in enumerate(command.arguments, 1):
        words.append(f"'{number}:{quoted(name)}:{action(name)}'")
    if not words:
        return f"        {command.name}) _describe -t commands 'command' commands ;;"
    joined = " \\\n            ".join(words)
    return f"        {command.name})\n            _arguments {joined}\n            ;;"


def zsh(commands):
    names = "\n".join(f"        '{it.name}:{quoted(it.text)}'" for it in commands)
    return ZSH.replace("@commands@", names).replace(
        "@cases@", "\n".join(map(zsh_case, commands)))
