"""Follows a run with an image: the drive that the guest sees, by the plan lines, and beside it the monitor's own
commands and who has the drive.

What the guest sees goes by the rules of a drive alone; only its commands come into the report later, in a turn, where
the monitor gives them to the drive. Any other command that a turn tells of is the monitor's own: by docs/monitor.md it
reads and writes header and bitmap until opening has ended, and then reads pieces, and the dummy sector behind them all.
"""
from shared.drive import Command, Drive, Lost
from shared.lines import Event, Items
from shared.names import DEV, WITHOUT_RANGE, command_name

READ, WRITE, FLUSH = 0x20, 0x30, 0xE7
MOST_COUNT = {True: 256, False: 65_536}


class OwnCommand:
    """A command of the monitor's own: what it is for, how far the drive is with it, and how far its polls are."""

    def __init__(self, byte: int, first: int, count: int, purpose: str):
        self.byte, self.first, self.count, self.purpose = byte, first, count, purpose
        self.done, self.stands = 0, "busy"

    @property
    def name(self) -> str:
        return f"the monitor's own {command_name(self.byte)}"

    def step(self, fails: bool) -> str:
        """What a step of the drive does to it."""
        if self.stands != "busy":
            return f"a step, without effect: {self.name} waits for a poll"
        if fails:
            self.stands = "failed"
            return f"a step of {self.name} that fails, unseen by the guest"
        is_last = self.byte == FLUSH or self.byte == WRITE and self.done == self.count
        self.stands = "ended" if is_last else "ready"
        return f"a step of {self.name}, unseen by the guest"

    def poll(self) -> tuple[str, bool]:
        """What a poll finds, and whether the command is over."""
        if self.stands == "busy":
            return f": a poll finds {self.name} at work", False
        if self.stands == "failed":
            return f": a poll finds that {self.name} failed", True
        if self.stands == "ended":
            return f": a poll finds that {self.name} has ended", True
        sector = self.first + self.done
        self.done += 1
        is_over = self.byte == READ and self.done == self.count
        self.stands = "busy"
        told = f": a poll {'takes' if self.byte == READ else 'gives'} the words of sector {sector}"
        return told + (f", and {self.name} has ended" if is_over else ""), is_over


class Deployed(Drive):
    """The drive that the guest sees, with the monitor below it: who has the drive, the own command or dummy read that
    stands, whether the drive is in its own reset, whether opening has ended, and where the header is."""

    def power_on(self) -> None:
        super().power_on()
        self.registers = {name: (0, 0) for name in ("sc", "ll", "lm", "lh")}
        self.has_drive, self.own, self.dummy = "monitor", None, False
        self.resets, self.opened, self.header, self.is_reserved = True, False, None, False

    # The registers, from which the guest's command has its range.

    def meet_w8(self, event: Event, items: Items) -> str:
        if self.phase in ("Idle", "Ready") and event.register in self.registers:
            self.registers[event.register] = (event.number, self.registers[event.register][0])
        return super().meet_w8(event, items)

    def show_address(self, at: int) -> None:
        """A failed command shows its sector in the LBA registers."""
        low, high = at & 0xFF_FFFF, at >> 24
        for place, name in enumerate(("ll", "lm", "lh")):
            before = self.registers[name][1] if self.command.is_narrow else high >> 8 * place & 0xFF
            self.registers[name] = (low >> 8 * place & 0xFF, before)
        if self.command.is_narrow:
            self.device = self.device & 0xF0 | high & 0x0F

    def range_of(self, byte: int) -> tuple[int, int]:
        """The first sector and the count that the registers give a command of this byte."""
        if byte in WITHOUT_RANGE:
            return 0, 0
        is_narrow = Command(byte, 0, 1, 0, self.device).is_narrow
        now, before = ({name: pair[i] for name, pair in self.registers.items()} for i in (0, 1))
        first = now["ll"] | now["lm"] << 8 | now["lh"] << 16
        high = before["ll"] | before["lm"] << 8 | before["lh"] << 16
        first |= (self.device & 0x0F if is_narrow else high) << 24
        count = now["sc"] if is_narrow else now["sc"] | before["sc"] << 8
        return first, count or MOST_COUNT[is_narrow]

    def take(self, byte: int, items: Items) -> str:
        """The guest writes a command, which the view takes or ignores; the drive gets it in a later turn."""
        if items.taken:
            raise Lost("the drive takes a command in a turn alone")
        if self.phase != "Idle" or self.device & DEV:
            return ": there is no second device" if self.device & DEV else f": the drive is in {self.phase}"
        self.command = Command(byte, *self.range_of(byte), self.features, self.device)
        self.is_reserved = "m reserved" in items.marks
        self.command.is_refused |= self.is_reserved
        self.phase, self.failed, self.pending = "Busy", False, False
        self.has_drive, self.is_held = "monitor", True
        return ""

    # Turns.

    def meet_turn(self, event: Event, items: Items) -> str:
        if items.taken:
            return self.begin(*items.taken)
        if "m ready" in items.marks:
            self.opened = True
        if self.own:
            told, is_over = self.own.poll()
            self.own = None if is_over else self.own
            return told
        if items.steps:
            return ": " + self.steps(items.steps)
        if self.dummy:
            return ": the dummy read has no interrupt yet"
        return self.rest_of_turn(bool(items.asked))

    def steps(self, count: int) -> str:
        """Steps of the drive that the guest sees, made by the monitor."""
        told = []
        for _ in range(count):
            why = self.why_no_step()
            if why:
                raise Lost("a step would have no effect here")
            told.append(self.step())
        if self.phase == "Idle" and told[0].startswith("the step that ends the reset"):
            self.reset_registers()
        return told[0] if count == 1 else f"{told[0]}; and so on, to {told[-1]}"

    def reset_registers(self) -> None:
        self.registers = {"sc": (1, 0), "ll": (1, 0), "lm": (0, 0), "lh": (0, 0)}

    def rest_of_turn(self, has_asked: bool) -> str:
        """A turn that tells of no command and no step."""
        if self.has_drive == "guest":
            if self.phase != "Idle" or self.pending or self.device & DEV:
                return ": the guest has the drive"
            self.has_drive = "monitor"
            return ": the monitor takes the drive"
        if has_asked or self.phase != "Busy":
            return ""
        waits = self.command.moves_by_bus and self.walk is None and self.command.done < self.command.count
        return f": {self.command.name} waits" + (" for a walk" if waits else "")

    def begin(self, byte: int, first: int, count: int) -> str:
        """A command that the drive takes in a turn: the guest's, or one of the monitor's own."""
        if self.is_given(byte, first, count):
            self.command.is_refused |= count == 0 and byte not in WITHOUT_RANGE
            self.has_drive = "guest"
            return ": the drive is the guest's, with its command"
        if self.header is None:
            self.header = first
        if self.opened and byte == READ and first > self.header:
            self.dummy = True
            return ": a dummy read, for its interrupt alone"
        self.own = OwnCommand(byte, first, count, self.purpose_of(byte, first))
        return f": a command of the monitor's own, {self.own.purpose}"

    def is_given(self, byte: int, first: int, count: int) -> bool:
        command = self.command
        if self.phase != "Busy" or command.done or command.byte != byte or self.is_reserved:
            return False
        return (first, count) in ((command.first, command.count), (0, 0))

    def purpose_of(self, byte: int, first: int) -> str:
        if self.opened:
            return "for a piece of the guest's read"
        if byte == FLUSH:
            return "so that what was written is durable"
        return "for the header" if first == self.header else "for the bitmap"

    # Steps.

    def meet_ok(self, event: Event, items: Items) -> str:
        return super().meet_ok(event, items) if self.has_drive == "guest" else self.unseen(items, False)

    def meet_bad(self, event: Event, items: Items) -> str:
        return super().meet_bad(event, items) if self.has_drive == "guest" else self.unseen(items, True)

    def unseen(self, items: Items, fails: bool) -> str:
        """A step of the drive while the monitor has it."""
        if self.dummy:
            self.dummy = False
            if not items.steps and not items.failed:
                raise Lost("the dummy read's interrupt would come here")
            return "the dummy read's interrupt: " + (self.fail() if items.failed else self.steps(1))
        if items.steps or items.failed:
            raise Lost("the guest would see no step here")
        if self.own:
            return self.step_own(fails)
        if self.resets and not fails:
            self.resets = False
            return "the step that ends the drive's own reset, unseen by the guest"
        return "a step, without effect: the monitor has the drive"

    def step_own(self, fails: bool) -> str:
        """A step of an own command, which may write or flush."""
        own = self.own
        if own.stands == "busy" and not fails:
            if own.byte == WRITE and own.done:
                self.write(own.first + own.done - 1, None)
            if own.byte == FLUSH:
                self.flush_cache()
        return own.step(fails)
