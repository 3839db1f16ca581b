"""A schedule's lines as events, and a report's by the numbers that they begin with."""
import re
from pathlib import Path
from typing import NamedTuple

from shared import ends
from shared.names import REGISTERS


class Event(NamedTuple):
    """What a line of a schedule says: its kind, which is the word that tells it (`r8`, `ok`, `cut` ..), a register, a
    number (a byte, an address, a place), bytes, and a count. A line that isn't read has the kind `?`."""

    kind: str
    register: str = ""
    number: int = 0
    data: bytes = b""
    count: int = 0


# The shape of a schedule's line, and the event that it says.
R, BYTES, ADDRESS, NUMBER = f"({'|'.join(REGISTERS)})", "((?:[0-9a-f]{2})+)", "([0-9a-f]{8})", "([0-9]{1,9})"
SHAPES = {
    f"g r8 {R}": lambda r: Event("r8", r),
    f"g w8 {R} ([0-9a-f]{{2}})": lambda r, byte: Event("w8", r, int(byte, 16)),
    f"g rd {NUMBER}": lambda n: Event("rd", count=int(n)),
    f"g wd {BYTES}": lambda data: Event("wd", data=bytes.fromhex(data)),
    "g r32": lambda: Event("r32"),
    f"g w32 {ADDRESS}": lambda address: Event("w32", number=int(address, 16)),
    f"g mr {ADDRESS} {NUMBER}": lambda address, n: Event("mr", number=int(address, 16), count=int(n)),
    f"g mw {ADDRESS} {BYTES}": lambda address, data: Event("mw", number=int(address, 16), data=bytes.fromhex(data)),
    "g line": lambda: Event("line"),
    f"n s {NUMBER}( keep)?": lambda k, keep: Event("serve", number=int(k), count=int(keep is not None)),
    f"n c {NUMBER}( keep)?": lambda k, keep: Event("hear", number=int(k), count=int(keep is not None)),
    f"n ls {NUMBER}": lambda k: Event("lose_request", number=int(k)),
    f"n lc {NUMBER}": lambda k: Event("lose_reply", number=int(k)),
    f"n y {BYTES}": lambda data: Event("stray_request", data=bytes.fromhex(data)),
    f"n x {BYTES}": lambda data: Event("stray_reply", data=bytes.fromhex(data)),
    "t": lambda: Event("turn"),
    "k": lambda: Event("tick"),
    "d ok": lambda: Event("ok"),
    "d bad": lambda: Event("bad"),
    f"d put {NUMBER}": lambda k: Event("put", number=int(k)),
    "cut": lambda: Event("cut"),
    "end": lambda: Event("end"),
    "#.*|": lambda: Event("remark"),
}
SHAPES = {re.compile(shape): event for shape, event in SHAPES.items()}

# The events that have an answer in the report.
ANSWERED = ("r8", "rd", "r32", "mr", "line")


def event_of(line: str) -> Event:
    for shape, event in SHAPES.items():
        found = shape.fullmatch(line)
        if found:
            return event(*found.groups())
    return Event("?")


class Items(NamedTuple):
    """What a report tells of one event: the answer's bytes, the taken command with its range, the steps that went well,
    whether a step failed, the tags that were asked, and the monitor's marks."""

    answer: bytes | None = None
    taken: tuple[int, int, int] | None = None
    steps: int = 0
    failed: bool = False
    asked: tuple[int, ...] = ()
    marks: tuple[str, ...] = ()


def items_of(lines: list[str]) -> Items:
    answer, taken, steps, failed, asked, marks = None, None, 0, False, [], []
    for line in lines:
        if found := re.fullmatch(f"o {BYTES}", line):
            answer = bytes.fromhex(found[1])
        elif found := re.fullmatch(f"c ([0-9a-f]{{2}}) {NUMBER} {NUMBER}", line):
            taken = (int(found[1], 16), int(found[2]), int(found[3]))
        elif found := re.fullmatch(f"p go {NUMBER}", line):
            steps += int(found[1])
        elif line == "p bad":
            failed = True
        elif found := re.fullmatch(f"a {NUMBER}", line):
            asked.append(int(found[1]))
        elif line.startswith("m "):
            marks.append(line)
    return Items(answer, taken, steps, failed, tuple(asked), tuple(marks))


class Report(NamedTuple):
    """The report's lines by the numbers that they begin with, and the highest of these; the lines without a number; and
    the number of its line `end`."""

    items: dict[int, list[str]]
    last: int
    strange: list[str]
    end: int | None

    def tells_of(self, number: int) -> bool:
        """Whether the report reaches this line of the schedule, so that a missing item means something."""
        return self.end is not None or number <= self.last


def read_report(text: str) -> Report:
    items, strange_lines, end = {}, [], None
    for line in lines_of(text):
        numbered, last = re.fullmatch("([0-9]{1,10}) (.*)", line), re.fullmatch("end ([0-9]{1,10})", line)
        if numbered:
            items.setdefault(int(numbered[1]), []).append(numbered[2])
        elif last and end is None:
            end = int(last[1])
        else:
            strange_lines.append(line)
    return Report(items, max(items, default=0), strange_lines, end)


def lines_of(text: str) -> list[str]:
    return text.removesuffix("\n").split("\n") if text else []


def read(name: str) -> str:
    """A file's text, in which each byte is one character."""
    try:
        return Path(name).read_bytes().decode("latin-1")
    except OSError as error:
        ends.give_up(f"{name} can't be read: {error.strerror}")


def memory_in(words: list[str], standard: int = 1_048_576) -> tuple[int, list[str]]:
    """The size of the guest's memory where the words give it, and the other words."""
    if "--memory" not in words:
        return standard, words
    place = words.index("--memory")
    value = "".join(words[place + 1 : place + 2])
    if not re.fullmatch("[1-9][0-9]{0,8}", value):
        ends.refuse(f"'{value}' behind --memory is no size of the guest's memory")
    return int(value), words[:place] + words[place + 2 :]
