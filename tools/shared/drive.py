"""A drive as it is followed through a schedule and its report, so that a step can be named by its command.

This is no judge and no second program: it holds of docs/drive.md what names need, takes from the report which steps had
an effect and which commands were taken, and where the report isn't what it expects it is lost.
"""
import struct
from typing import NamedTuple

from shared.lines import Event, Items
from shared.names import (ACTIVE, COMMANDS, DEV, ERROR, FEATURES, INTERRUPT, LBA, NIEN, SRST, START, WITHOUT_RANGE,
                          begin_shown, command_name, many)
from shared.network import Network, frame_shown

SECTOR, ENTRIES = 512, 64
LAST_DESCRIPTOR = 0x8000


class Lost(Exception):
    """The report isn't what was expected, or bytes that matter aren't known."""


class State(NamedTuple):
    """What stands behind an event: the phase, the command in hand with its number, and the three signals."""

    phase: str
    command: str
    busy: bool
    wants_data: bool
    line: bool


class Command:
    """A command in hand: how many sectors are done, and how many steps it had."""

    def __init__(self, byte: int, first: int, count: int, features: int, device: int):
        self.byte, self.first, self.count = byte, first, count
        self.done, self.steps = 0, 0
        kind = COMMANDS.get(byte)
        self.does = kind.does if kind else ""
        is_set = self.does == "set" and features not in FEATURES
        self.is_narrow = bool(kind and kind.is_narrow)
        is_without_lba = self.is_narrow and not device & LBA
        self.is_refused = not kind or is_set or is_without_lba or byte not in WITHOUT_RANGE and count == 0
        self.error = "ABRT" if not kind or is_set or is_without_lba else "IDNF"

    @property
    def name(self) -> str:
        return command_name(self.byte)

    @property
    def range_shown(self) -> str:
        if self.count == 0 or self.does == "identify":
            return ""
        last = self.first + self.count - 1
        return f"sector {self.first}" if self.count == 1 else f"sectors {self.first} to {last}"

    @property
    def shown(self) -> str:
        return f"{self.name}, {self.range_shown}" if self.range_shown else self.name

    @property
    def moves_by_bus(self) -> bool:
        return "DMA" in self.does and not self.is_refused


class Drive:
    """The drive as far as it can be followed."""

    def __init__(self, memory: int):
        self.size = memory
        self.durable: dict[int, bytes] = {}
        self.network = Network()
        self.power_on()

    def power_on(self) -> None:
        self.phase, self.failed, self.pending = "Reset", False, False
        self.control = self.features = self.device = 0
        self.command: Command | None = None
        self.left, self.block = 0, b""
        self.bus_command = self.bus_status = self.pointer = 0
        self.walk: int | None = None
        self.memory, self.known = bytearray(self.size), bytearray(b"\1") * self.size
        self.cache: list[tuple[int, bytes | None]] = []
        self.reset_of = "power-on"
        self.is_held = False

    # What shows.

    @property
    def line(self) -> bool:
        return self.pending and not self.control & NIEN

    @property
    def status(self) -> int:
        if self.device & DEV:
            return 0x00
        return {"Reset": 0x80, "Busy": 0x80, "Ready": 0x58}.get(self.phase, 0x51 if self.failed else 0x50)

    def state(self) -> State:
        at_work = self.command and self.phase in ("Busy", "Ready")
        command = f"{self.command.name} {self.command.range_shown}".strip() if at_work else ""
        return State(self.phase, command, self.phase in ("Reset", "Busy"), self.phase == "Ready", self.line)

    # Events.

    def meet(self, event: Event, items: Items) -> str:
        """Does an event, and answers what there is to be told of it."""
        was_high, self.is_held = self.line, False
        note = getattr(self, f"meet_{event.kind}", lambda *_: "")(event, items)
        if self.line and not was_high:
            self.bus_status |= INTERRUPT
        for tag in items.asked:
            self.network.ask(tag)
        return note

    def meet_r8(self, event: Event, items: Items) -> str:
        shown = {"st": self.status, "al": self.status, "bc": self.bus_command, "bs": self.bus_status}
        if event.register in shown:
            self.compare(items, bytes([shown[event.register]]))
        if event.register == "st":
            self.pending = False
        return ""

    def meet_line(self, event: Event, items: Items) -> str:
        self.compare(items, bytes([self.line]))
        return ""

    @staticmethod
    def compare(items: Items, wanted: bytes) -> None:
        if items.answer is not None and items.answer != wanted:
            raise Lost(f"the steps so far give {wanted.hex()}h here")

    def meet_w8(self, event: Event, items: Items) -> str:
        register, value = event.register, event.number
        if register == "st":
            return self.take(value, items)
        if items.taken:
            raise Lost("no command is written here")
        if register == "al":
            self.write_control(value)
        elif register == "bc":
            self.write_bus_command(value)
        elif register == "bs":
            self.bus_status &= ~(value & (ERROR | INTERRUPT))
        elif self.phase in ("Idle", "Ready"):
            if register == "er":
                self.features = value
            elif register == "dv":
                self.device = value
        return ""

    def take(self, byte: int, items: Items) -> str:
        takes = self.phase == "Idle" and not self.device & DEV
        if takes != bool(items.taken):
            raise Lost("a command would be taken here" if takes else "no command would be taken here")
        if items.taken:
            self.command = Command(*items.taken, self.features, self.device)
            self.phase, self.failed, self.pending = "Busy", False, False
            return ""
        return ": there is no second device" if self.device & DEV else f": the drive is in {self.phase}"

    def write_control(self, value: int) -> None:
        self.control = value & (SRST | NIEN)
        if value & SRST and self.phase != "Reset":
            if self.command and self.phase != "Idle" and self.command.moves_by_bus:
                self.walk = None
            self.phase, self.pending, self.command = "Reset", False, None
            self.reset_of = "SRST"

    def write_bus_command(self, value: int) -> None:
        if value & START and not self.bus_command & START:
            self.bus_status |= ACTIVE
            self.walk = 0
        elif not value & START:
            self.bus_status &= ~ACTIVE
            self.walk = None
        self.bus_command = value & 0x09

    def meet_w32(self, event: Event, items: Items) -> str:
        if not self.bus_command & START:
            self.pointer = event.number & ~3
        return ""

    def meet_mw(self, event: Event, items: Items) -> str:
        for place, byte in enumerate(event.data, event.number):
            self.put_byte(place, byte)
        return ""

    def put_byte(self, place: int, byte: int | None) -> None:
        if place < self.size:
            self.memory[place], self.known[place] = byte or 0, byte is not None

    def meet_rd(self, event: Event, items: Items) -> str:
        if self.phase != "Ready" or self.command.does not in ("read", "identify"):
            return ", outside a transfer"
        self.left = max(0, self.left - event.count)
        if self.left:
            return ""
        self.command.done += 1
        self.phase = "Busy" if self.command.done < self.command.count else "Idle"
        return ", the last of the block"

    def meet_wd(self, event: Event, items: Items) -> str:
        if self.phase != "Ready" or self.command.does != "write":
            return ", outside a transfer"
        self.block = (self.block + event.data)[:SECTOR]
        self.left = max(0, self.left - len(event.data) // 2)
        if self.left:
            return ""
        self.command.done += 1
        self.phase = "Busy"
        return ", the last of the block"

    def meet_put(self, event: Event, items: Items) -> str:
        if event.number >= len(self.cache):
            held = "1 entry" if len(self.cache) == 1 else f"{len(self.cache)} entries"
            return f", without effect: the cache has {held}"
        sector, data = self.cache[event.number]
        older = [entry for entry in self.cache[: event.number] if entry[0] == sector]
        self.keep(sector, data)
        self.cache = [entry for i, entry in enumerate(self.cache) if i > event.number or entry[0] != sector]
        return f": {entry_shown(sector, data)}" + (f", in place of {many(len(older), 'older value')}" if older else "")

    def keep(self, sector: int, data: bytes | None) -> None:
        """Makes a value durable."""
        if data is None:
            self.durable.pop(sector, None)
        else:
            self.durable[sector] = data

    def meet_cut(self, event: Event, items: Items) -> str:
        held = entries_shown(self.cache)
        self.power_on()
        return f"; lost with the cache: {held}" if held else "; the cache was empty"

    def meet_end(self, event: Event, items: Items) -> str:
        held = entries_shown(self.cache)
        return f"; in the cache, and so not in Out: {held}" if held else ""

    # Frames, which a power cut leaves under way.

    def meet_serve(self, event: Event, items: Items) -> str:
        return self.network.to_server(event.number, bool(event.count))

    def meet_hear(self, event: Event, items: Items) -> str:
        return self.network.to_client(event.number, bool(event.count))

    def meet_lose_request(self, event: Event, items: Items) -> str:
        return self.network.lose_request(event.number)

    def meet_lose_reply(self, event: Event, items: Items) -> str:
        return self.network.lose_reply(event.number)

    def meet_stray_request(self, event: Event, items: Items) -> str:
        return self.network.served(event.data)

    def meet_stray_reply(self, event: Event, items: Items) -> str:
        return f"the client gets {frame_shown(event.data)}"

    # Steps.

    def meet_ok(self, event: Event, items: Items) -> str:
        why = self.why_no_step()
        if bool(why) != (items.steps == 0):
            raise Lost("a step would have no effect here" if why else "a step would have an effect here")
        return f"a step, without effect: {why}" if why else self.step()

    def meet_bad(self, event: Event, items: Items) -> str:
        has_effect = self.phase == "Busy"
        if has_effect != items.failed:
            raise Lost("a failing step would " + ("have an effect here" if has_effect else "have no effect here"))
        if not has_effect:
            return f"a failing step, without effect: {self.why_no_step() or 'no command is in hand'}"
        return self.fail()

    def why_no_step(self) -> str:
        """Why a step that goes well has no effect, or nothing where it has one."""
        if self.phase == "Reset":
            return "SRST is held at 1" if self.control & SRST else ""
        if self.phase == "Idle":
            return "no command is in hand"
        if self.phase == "Ready":
            return "the guest is at work, at Data"
        waits = self.command.moves_by_bus and self.walk is None and self.command.done < self.command.count
        return "the drive waits for a walk, which begins with start" if waits else ""

    def step(self) -> str:
        """A step with an effect, named by its command."""
        if self.phase == "Reset":
            self.phase, self.failed, self.device, self.features = "Idle", False, 0, 0
            return f"the step that ends the reset of {self.reset_of}"
        command = self.command
        command.steps += 1
        own = {"read": self.load, "identify": self.identify, "write": self.write_block, "flush": self.flush}
        if command.is_refused:
            self.end(failed=True)
            what = f"it is refused, with {command.error}"
        elif command.moves_by_bus:
            what = self.move() if command.done < command.count else self.end_walk()
        else:
            what = own.get(command.does, self.end)()
        return f"step {command.steps} of {command.name}: {what}"

    def end(self, failed: bool = False) -> str:
        self.phase, self.failed, self.pending = "Idle", failed, True
        return "it ends, with an interrupt"

    def fail(self) -> str:
        command = self.command
        command.steps += 1
        last = command.first + max(0, command.count - 1)
        at = {
            "read": command.first + command.done,
            "write": command.first + max(0, command.done - 1),
            "verify": command.first,
        }.get(command.does, min(command.first + command.done, last) if command.moves_by_bus else None)
        error = "UNC" if command.does in ("read", "read by DMA", "verify") else "ABRT"
        if command.is_refused:
            what = f"it is refused, with {command.error}"
        else:
            what = f"it fails with {error}" + (f" at sector {at}" if at is not None else "")
            if at is not None:
                self.show_address(at)
        if command.moves_by_bus:
            self.walk = None
        self.end(failed=True)
        return f"step {command.steps} of {command.name}: {what}"

    def show_address(self, at: int) -> None:
        """The LBA registers, which only a run with a monitor needs."""

    def load(self) -> str:
        self.phase, self.left, self.pending = "Ready", 256, True
        return f"sector {self.command.first + self.command.done} waits in Data, with an interrupt"

    def identify(self) -> str:
        self.load()
        return "its 256 words wait in Data, with an interrupt"

    def write_block(self) -> str:
        command, told = self.command, ""
        if command.done > 0:
            sector = command.first + command.done - 1
            told = f"{self.write(sector, self.block)}, with an interrupt; "
            self.pending = True
        if command.done == command.count:
            self.phase = "Idle"
            return f"{told}it ends"
        self.phase, self.left, self.block = "Ready", 256, b""
        return f"{told}the words of sector {command.first + command.done} are wanted in Data"

    def write(self, sector: int, data: bytes | None) -> str:
        self.cache.append((sector, data))
        if len(self.cache) > ENTRIES:
            self.keep(*self.cache.pop(0))
        return f"sector {sector} is written" + (f": {begin_shown(data)}" if data is not None else "")

    def flush(self) -> str:
        sectors = self.flush_cache()
        self.end()
        if not sectors:
            return "the cache was empty; it ends, with an interrupt"
        named = f"sectors {', '.join(map(str, sectors))} are" if len(sectors) > 1 else f"sector {sectors[0]} is"
        return f"{named} durable; it ends, with an interrupt"

    def flush_cache(self) -> list[int]:
        """Makes every entry durable, and answers of which sectors they were."""
        sectors = sorted({sector for sector, _ in self.cache})
        for entry in self.cache:
            self.keep(*entry)
        self.cache = []
        return sectors

    def move(self) -> str:
        """A sector goes by the next places of the table."""
        command = self.command
        sector, is_read = command.first + command.done, command.does == "read by DMA"
        places, is_last, is_bad = self.next_places()
        if is_bad:
            self.stop_walk()
            self.bus_status |= ERROR
            return f"a bad descriptor: sector {sector} doesn't move, and the walk ends with the bit error"
        if len(places) < SECTOR:
            self.stop_walk()
            if is_read:
                self.move_in(places, self.current(sector))
                return f"{many(len(places), 'byte')} of sector {sector} go to memory; there the table ends, and the walk"
            room = many(len(places), "byte")
            return f"the table has {room} for sector {sector}: nothing is written, and the walk ends"
        if is_read:
            self.move_in(places, self.current(sector))
            told = f"sector {sector} goes to memory"
        else:
            data = bytes(self.memory[place] for place in places)
            told = self.write(sector, data if all(self.known[place] for place in places) else None)
        command.done += 1
        self.walk += 1
        if is_last:
            self.stop_walk()
            told += "; that was the table's end"
        return told

    def stop_walk(self) -> None:
        self.walk = None
        self.bus_status &= ~ACTIVE

    def end_walk(self) -> str:
        """All sectors are moved: the command ends, and active stays."""
        self.walk = None
        return self.end()

    def current(self, sector: int) -> bytes | None:
        """The sector's newest value, where it is known."""
        written = [data for number, data in self.cache if number == sector]
        return written[-1] if written else self.durable.get(sector)

    def move_in(self, places: list[int], data: bytes | None) -> None:
        for i, place in enumerate(places):
            self.put_byte(place, None if data is None else data[i])

    def next_places(self) -> tuple[list[int], bool, bool]:
        """The next 512 places of the descriptor table, or those up to its end; whether the last of them is the table's;
        and whether a bad descriptor was met before them all."""
        first, passed, at, places = self.walk * SECTOR, 0, self.pointer, []
        while True:
            if at + 8 > self.size:
                return places, False, True
            if not all(self.known[at : at + 8]):
                raise Lost("the drive itself moved bytes into the table")
            base, count, mark = struct.unpack_from("<IHH", self.memory, at)
            is_odd, count = (base | count) & 1, count or 65_536
            if is_odd or base + count > self.size:
                return places, False, True
            low = base + max(0, first + len(places) - passed)
            high = min(base + count, low + SECTOR - len(places))
            places += range(low, high)
            passed += count
            is_end = bool(mark & LAST_DESCRIPTOR)
            if len(places) == SECTOR or is_end:
                return places, is_end and first + SECTOR == passed, False
            at += 8


def entry_shown(sector: int, data: bytes | None) -> str:
    return f"sector {sector}" + (f", {begin_shown(data)}" if data is not None else "")


def entries_shown(cache: list[tuple[int, bytes | None]]) -> str:
    """What the cache holds, the oldest entry first."""
    shown = "; ".join(entry_shown(*entry) for entry in cache[:4])
    return shown + (f"; and {len(cache) - 4} more" if len(cache) > 4 else "")
