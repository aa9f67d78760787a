"""The completions of a program for bash, zsh and fish, made of its help."""
import re
import shlex

from help_text import Option, help_of

BASH = """# Completes the words of {name} in bash.
_{name}() {{
    local word=${{COMP_WORDS[COMP_CWORD]}}
    COMPREPLY=()
    case ${{COMP_WORDS[COMP_CWORD-1]}} in
    {numbers}) compopt +o default 2>/dev/null ;;
    {files}) ;;
    *)
        case $word in
        -*) mapfile -t COMPREPLY < <(compgen -W {words} -- "$word") ;;
        esac
        [[ ${{COMPREPLY[0]-}} == *= ]] && compopt -o nospace 2>/dev/null
        ;;
    esac
    return 0
}}
complete -o default -F _{name} {name}
"""


def bash(name: str) -> str:
    options = help_of(name).options
    words = [form + "=" * it.is_joined() for it in options for form in it.forms()]
    forms = {
        is_file: [form for it in options if it.value and it.is_file() == is_file for form in it.forms()]
        for is_file in (True, False)
    }
    # Where there is no such option, a pattern that no word before another is.
    numbers, files = ("|".join(forms[is_file]) or "--" for is_file in (False, True))
    return BASH.format(name=name, numbers=numbers, files=files, words=shlex.quote(" ".join(words)))


def zsh_option(it: Option) -> str:
    """The specification of an option for `_arguments`."""
    brief = re.sub(r"([\[\]:\\])", r"\\\1", it.brief())
    value = f":{it.value}:{'_files' if it.is_file() else ' '}" if it.value else ""
    what, long = shlex.quote(f"[{brief}]{value}"), it.long + ("=-" if it.is_joined() else "=" if it.value else "")
    if not it.short:
        return long + what
    short = it.short + ("+" if it.value else "")
    return f"'({it.short} {it.long})'{{{short},{long}}}{what}"


def zsh(name: str) -> str:
    it = help_of(name)
    lines = ["_arguments -s -S", *map(zsh_option, it.options), *["'1:pattern file:_files'"][: len(it.arguments)]]
    return f"#compdef {name}\n" + " \\\n    ".join(lines) + "\n"


def fish_option(name: str, it: Option) -> str:
    words = ["complete", "-c", name, *(["-s", it.short[1:]] if it.short else []), "-l", it.long[2:]]
    words += [] if not it.value else ["-r", "-F"] if it.is_file() else ["-x"]
    brief = it.brief().replace("\\", "\\\\").replace("'", "\\'")
    return f"{' '.join(words)} -d '{brief}'"


def fish(name: str) -> str:
    return (
        "\n".join(
            [f"# Completes the words of {name} in fish.", *(fish_option(name, it) for it in help_of(name).options)]
        )
        + "\n"
    )
