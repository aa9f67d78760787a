"""The man page of a program: of its help, and of what docs/formats.md says of exit statuses and refusals."""
import re

from crates import PROGRAMS, ROOT
from help_text import Option, help_of
from version import releases, whole_version

STATUS = re.compile(r"^- ([123]), (.*?)[:;]", re.MULTILINE)
REFUSAL = re.compile(r"^(\d+)\. `(\w+)`: (.*?)(?=^\d+\. |\Z)", re.MULTILINE | re.DOTALL)
REFUSED = "Standard error has one line with its number and name, and in a file the byte offset of the fault."


def formats() -> str:
    return (ROOT / "docs" / "formats.md").read_text(encoding="utf-8")


def statuses() -> list[tuple[str, str]]:
    """Each exit status, with what it says."""
    return [("0", "success"), *STATUS.findall(formats().partition("## Refusals")[0])]


def refusals() -> list[tuple[str, str, str]]:
    """Each refusal: its number, its name, and what it says with its cure."""
    found = REFUSAL.findall(formats().partition("## Refusals")[2])
    return [(number, name, plain(text)) for number, name, text in found]


def plain(text: str) -> str:
    """A text of a page without its marks, in one line."""
    return " ".join(re.sub(r"[`*]", "", text).split())


def roff(text: str) -> str:
    """A text as a line of a man page."""
    text = text.replace("\\", "\\e").replace("-", "\\-")
    return "\\&" + text if text[:1] in ".'" else text


def tagged(head: str, text: str) -> list[str]:
    return [".TP", f".B {roff(head)}", roff(text)]


def option_lines(it: Option) -> list[str]:
    forms = ", ".join(f"\\fB{roff(form)}\\fR" for form in it.forms())
    value = f"{'=' if it.is_joined() else ' '}\\fI{roff(it.value)}\\fR" if it.value else ""
    return [".TP", forms + value, roff(it.text)]


def example_lines(command: str, text: str) -> list[str]:
    return [".PP", roff(f"{capital(text)}:"), ".PP", ".RS 4", ".nf", roff(command), ".fi", ".RE"]


def capital(text: str) -> str:
    return text[:1].upper() + text[1:]


def man_page(name: str) -> str:
    """The page, in the macros `man`."""
    it, release = help_of(name), releases()[0]
    summary = it.summary.rstrip(".")
    lines = [f'.TH {name.upper()} 1 "{release.date}" "{name} {release.number}" "User Commands"']
    lines += [".SH NAME", roff(f"{name} - {summary[:1].lower()}{summary[1:]}").replace(" \\- ", " \\- ", 1)]
    lines += [".SH SYNOPSIS", f"\\fB{name}\\fR {roff(it.usage.partition(' ')[2])}", ".SH DESCRIPTION"]
    lines += [line for text in it.paragraphs for line in (".PP", roff(text))]
    lines += [line for head, text in it.arguments for line in tagged(head, text)]
    lines += [".SH OPTIONS", *(line for option in it.options for line in option_lines(option))]
    lines += [".SH EXIT STATUS", *(line for status, text in statuses() for line in tagged(status, f"{capital(text)}."))]
    lines += [".SH REFUSALS", roff(REFUSED)]
    lines += [line for number, refusal, text in refusals() for line in tagged(f"{number} {refusal}", capital(text))]
    lines += [".SH EXAMPLES", *(line for example in it.examples for line in example_lines(*example))]
    lines += [".SH VERSION", roff(whole_version())]
    lines += [".SH SEE ALSO", ", ".join(f"\\fB{other}\\fR(1)" for other in PROGRAMS if other != name)]
    return "\n".join(lines) + "\n"
