"""What man pages and completions say, and what the programs and docs/formats.md say of the same."""
import pathlib
import re
import subprocess

from common.program import ROOT

OPTION = re.compile(r"^ {2,6}(?:(-\w), )?(--[\w-]+)", re.MULTILINE)


def printed(*words: str | pathlib.Path) -> str:
    """What a command prints, on both streams."""
    ran = subprocess.run(words, stdin=subprocess.DEVNULL, stdout=subprocess.PIPE, stderr=subprocess.STDOUT, text=True)
    return ran.stdout


def options_of(program: pathlib.Path) -> set[str]:
    """The options that a program's help lists."""
    return {form for forms in OPTION.findall(printed(program, "--help")) for form in forms if form}


def statuses() -> list[str]:
    """The exit statuses of the page, with that of success."""
    text = (ROOT / "docs" / "formats.md").read_text(encoding="utf-8")
    return ["0", *re.findall(r"^- (\d), ", text, re.MULTILINE)]


def refusals() -> list[str]:
    text = (ROOT / "docs" / "formats.md").read_text(encoding="utf-8")
    return [" ".join(it) for it in re.findall(r"^(\d+)\. `(\w+)`", text, re.MULTILINE)]


def section(page: str, name: str) -> str:
    """A section of a man page, without marks of letters."""
    part = page.partition(f".SH {name}\n")[2].partition("\n.SH ")[0]
    return re.sub(r"\\f[BIR]|\\&", "", part).replace("\\-", "-")


def faults_of_page(page: str, program: pathlib.Path, version: str) -> list[str]:
    """How a man page differs from the program's help, the exit statuses and the refusals."""
    listed = re.findall(r"^\.TP\n(-.*)$", section(page, "OPTIONS"), re.MULTILINE)
    forms = {form for line in listed for form in re.findall(r"(?:^|, )(--?\w[\w-]*)", line)}
    said = {
        "options": forms == options_of(program),
        "statuses": re.findall(r"^\.B (\d)$", section(page, "EXIT STATUS"), re.MULTILINE) == statuses(),
        "refusals": re.findall(r"^\.B (.*)$", section(page, "REFUSALS"), re.MULTILINE) == refusals(),
        "version": version in page.splitlines()[0] and section(page, "VERSION").startswith(version),
    }
    return [name for name, holds in said.items() if not holds]


def offered_by_bash(file: pathlib.Path, name: str, words: str) -> list[str]:
    """What bash offers for the last of these words."""
    script = f'. "$0"; COMP_WORDS=({words}); COMP_CWORD=$((${{#COMP_WORDS[@]}} - 1)); _{name} 2>/dev/null; '
    script += 'printf "%s\\n" "${COMPREPLY[@]}"'
    return printed("bash", "--norc", "-c", script, file).split()


def offered_by_fish(file: pathlib.Path, words: str) -> list[str]:
    lines = printed("fish", "--no-config", "-c", f"source '{file}'; complete -C '{words}'").splitlines()
    return [it.partition("\t")[0] for it in lines]


def offered_by_zsh(file: pathlib.Path) -> set[str]:
    """The options in the specifications that zsh gets."""
    lines = printed("zsh", "-f", "-c", '_arguments() { print -rl -- "$@" }; . "$0"', file).splitlines()
    return {it for line in lines if "[" in line for it in re.findall(r"^(?:\([^)]*\))?(--?\w[\w-]*)", line)}
