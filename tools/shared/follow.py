"""Follows a drive, with a monitor or without, through a schedule and its report. Where the report isn't what the drive
expects this says so, and follows it no further until the next power cut."""
from typing import Iterator, NamedTuple

from shared.deployed import Deployed
from shared.drive import Drive, Lost, State
from shared.lines import Event, Items, Report, event_of, items_of


class Told(NamedTuple):
    """What an event did, in words, and what stands behind it where that is known; or why it is followed no further; and
    the guest's command that a monitor took in it, where one did."""

    note: str
    state: State | None
    lost: str = ""
    held: str = ""


def has_monitor(schedule: list[str], report: Report) -> bool:
    """Whether a report is that of a run with a monitor: it has a line of one, or a command or a step under a turn."""
    turns = {number for number, line in enumerate(schedule, 1) if event_of(line).kind == "turn"}
    return any(item.startswith(("a ", "m ")) or item.startswith(("c ", "p ")) and number in turns
               for number, items in report.items.items() for item in items)


def follow(schedule: list[str], report: Report, memory: int) -> Iterator[Told]:
    """What each line of the schedule did. Where the report ends early nothing is told of the lines behind it."""
    make = Deployed if has_monitor(schedule, report) else Drive
    drive, is_lost = make(memory), False
    for number, line in enumerate(schedule, 1):
        event = event_of(line)
        if event.kind == "cut" and is_lost:
            drive, is_lost = make(memory), False
            yield Told("", drive.state())
        elif is_lost or not report.tells_of(number):
            yield Told("", None)
        else:
            told = met(drive, event, items_of(report.items.get(number, [])))
            is_lost = bool(told.lost)
            yield told


# The events under which the report may tell of steps, and those under which of a taken command.
STEPS, TAKEN = ("ok", "bad", "turn"), ("w8", "turn")


def met(drive: Drive, event: Event, items: Items) -> Told:
    try:
        if items.taken and event.kind not in TAKEN or event.kind not in STEPS and (items.steps or items.failed):
            raise Lost("the report tells more than this event gives")
        note, state = drive.meet(event, items), drive.state()
        return Told(note, state, held=drive.command.shown if drive.is_held else "")
    except Lost as lost:
        return Told("", None, str(lost))
