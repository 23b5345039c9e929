"""Whether `syc explain` knows each number and name of the tables of docs/FORMATS.md, and says of each what it means and what to do."""

import re
import subprocess

# Rows of tables: a number and a name in one cell or in two, a kind, a warning.
FAULT = re.compile(r"^\| (\d+)(?: \| | )([A-Z][A-Za-z]+) \|", re.M)
WARNING = re.compile(r"^\| `([A-Z][A-Za-z]+)` \|", re.M)
KINDS, WARNINGS = "| | Kind | It is there where |", "| Name | It is there where |"
SHOWN = re.compile(r"(?:kind |warning )?(?:\d+ )?\w+\nmeans: .+\nchange: .+\n")


def table_at(text, head):
    """The table with this head."""
    return text.partition(head)[2].partition("\n\n")[0]


def wanted_of(text):
    """The words of each code of the page, and how it is listed."""
    kinds = table_at(text, KINDS)
    for number, name in FAULT.findall(text.replace(kinds, "")):
        yield [number], f"{number} {name}"
    for number, name in FAULT.findall(kinds):
        yield ["kind", number], f"kind {number} {name}"
    for name in WARNING.findall(table_at(text, WARNINGS)):
        yield [name.lower()], f"warning {name}"


def judge(program, top):
    """What is wrong, of how many."""
    with open(f"{top}/docs/FORMATS.md", encoding="utf-8") as it:
        wanted = [*wanted_of(it.read())]
    ask = lambda *words: subprocess.run([program, "explain", *words], stdin=subprocess.DEVNULL, capture_output=True, text=True)
    listed, wrong = {it.partition(":")[0] for it in ask().stdout.splitlines()}, []
    for words, head in wanted:
        said = ask(*words)
        parts = said.stdout.split("\n\n")
        is_shown = all(SHOWN.fullmatch(it.rstrip("\n") + "\n") for it in parts) and f"{head}\n" in said.stdout
        if said.returncode or said.stderr or not is_shown or head not in listed:
            wrong.append(f"codes: syc explain {' '.join(words)}: wanted {head}, came {said.stdout!r} {said.stderr!r}")
    none = ask("999")
    if (none.returncode, none.stdout, none.stderr) != (2, "", "syc: there is no such code: syc explain lists all\n"):
        wrong.append(f"codes: syc explain 999: {none}")
    return wrong, len(wanted) + 1
