"""The tables of docs/formats.md, which are the one place of what the program's and the tools' words are."""
import re
from pathlib import Path
from typing import Iterable, NamedTuple

from shared import ends

PAGE = Path(__file__).resolve().parent.parent.parent / "docs" / "formats.md"


class Row(NamedTuple):
    """A row: its first cell, with the words in backticks that stand in it, and its other cells."""

    first: str
    names: list[str]
    cells: list[str]


class Page(NamedTuple):
    """The tables that answers, help, completion and the manual page are made from."""

    files: list[Row]
    commands: list[Row]
    options: list[Row]
    refusals: list[Row]
    statuses: list[Row]
    lines: list[Row]
    parts: list[Row]
    faults: list[Row]
    report: list[Row]
    tools: list[Row]


def read_page() -> Page:
    try:
        text = PAGE.read_text(encoding="utf-8")
    except OSError as error:
        ends.give_up(f"{PAGE} can't be read: {error.strerror}")
    return Page(
        table(text, "Files", "Role | What it is | How it is used"),
        table(text, "The command line", "Command | What it does"),
        table(text, "The command line", "Option | Value | Default | For example"),
        table(text, "The command line", "Refused | Exactly where"),
        table(text, "Statuses", "Status | Ends with | Line on Console"),
        table(text, "Schedule", "Line | Event"),
        table(text, "Schedule", "In a line | What stands there | For example"),
        table(text, "Schedule", "Fault | Exactly where"),
        table(text, "Report", "Text | Meaning"),
        table(text, "Tools", "Command | What it does | Ends with"),
    )


def table(text: str, heading: str, columns: str) -> list[Row]:
    """The rows of the table that stands below this heading and has these columns."""
    section = re.search(rf"^## {re.escape(heading)}\n(.*?)(?=^## |\Z)", text, re.M | re.S)
    found = section and re.search(rf"^\| {re.escape(columns)} \|\n\|[-|]+\|\n((?:\|.*\n)+)", section[1], re.M)
    rows = [[cell.strip() for cell in line.strip("|").split("|")] for line in found[1].splitlines()] if found else []
    if not rows or any(len(row) != len(columns.split("|")) for row in rows):
        ends.give_up(f"{PAGE} has no table '{columns}' below '{heading}', or one with other columns in a row")
    return [Row(row[0], re.findall("`([^`]+)`", row[0]), row[1:]) for row in rows]


def cell_of(rows: Iterable[Row], first: str) -> str:
    """What the second column says in the row of this name."""
    found = (row.cells[0] for row in rows if row.first == first or first in row.names)
    return next(found, "docs/formats.md doesn't say")


class Option(NamedTuple):
    """An option of the program's command line, by what the page says of it."""

    name: str
    value: str
    default: str
    example: str

    @property
    def is_file(self) -> bool:
        return self.value == "a file name"

    @property
    def is_wanted(self) -> bool:
        return self.default == "must be given"


def options_of(page: Page) -> dict[str, Option]:
    options = {}
    for row in page.options:
        value, default, example = row.cells
        options |= {name: Option(name, value, default, example.strip("`")) for name in row.names}
    return options
