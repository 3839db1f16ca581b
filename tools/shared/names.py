"""Registers, bits and commands by the names of the standards, as docs/drive.md has them, and how values are shown."""
import re
from typing import NamedTuple

# A register by its name in schedules: what it is when it is read, and when it is written.
REGISTERS = {
    "er": ("Error", "Features"),
    "sc": ("Sector Count", "Sector Count"),
    "ll": ("LBA Low", "LBA Low"),
    "lm": ("LBA Mid", "LBA Mid"),
    "lh": ("LBA High", "LBA High"),
    "dv": ("Device", "Device"),
    "st": ("Status", "Command"),
    "al": ("Alternate Status", "Device Control"),
    "bc": ("bus master command", "bus master command"),
    "bs": ("bus master status", "bus master status (a 1 clears)"),
}

# The bits that docs/drive.md names. It names none for bit 4 of Status, which stands beside DRDY in 50h, 51h and 58h.
STATUS = {0x80: "BSY", 0x40: "DRDY", 0x08: "DRQ", 0x01: "ERR"}
BITS = {
    "Status": STATUS,
    "Alternate Status": STATUS,
    "Error": {0x40: "UNC", 0x10: "IDNF", 0x04: "ABRT"},
    "Device Control": {0x80: "HOB", 0x04: "SRST", 0x02: "nIEN"},
    "Device": {0x40: "LBA", 0x10: "DEV"},
    "bus master command": {0x08: "direction", 0x01: "start"},
    "bus master status": {0x04: "interrupt", 0x02: "error", 0x01: "active"},
    "bus master status (a 1 clears)": {0x04: "interrupt", 0x02: "error"},
}

# The single bits by which a run is followed.
SRST, NIEN, LBA, DEV = 0x04, 0x02, 0x40, 0x10
START, ACTIVE, ERROR, INTERRUPT = 0x01, 0x01, 0x02, 0x04


class Kind(NamedTuple):
    """A command of the table: its name, what it does, and whether its sectors are named in 28 bits."""

    name: str
    does: str
    is_narrow: bool = False


COMMANDS = {
    0x20: Kind("READ SECTOR(S)", "read", True),
    0x24: Kind("READ SECTOR(S) EXT", "read"),
    0xC8: Kind("READ DMA", "read by DMA", True),
    0x25: Kind("READ DMA EXT", "read by DMA"),
    0x30: Kind("WRITE SECTOR(S)", "write", True),
    0x34: Kind("WRITE SECTOR(S) EXT", "write"),
    0xCA: Kind("WRITE DMA", "write by DMA", True),
    0x35: Kind("WRITE DMA EXT", "write by DMA"),
    0x40: Kind("READ VERIFY SECTOR(S)", "verify", True),
    0x42: Kind("READ VERIFY SECTOR(S) EXT", "verify"),
    0xE7: Kind("FLUSH CACHE", "flush"),
    0xEA: Kind("FLUSH CACHE EXT", "flush"),
    0xEC: Kind("IDENTIFY DEVICE", "identify"),
    0xEF: Kind("SET FEATURES", "set"),
}
WITHOUT_RANGE = {byte for byte, kind in COMMANDS.items() if kind.does in ("flush", "identify", "set")}

# The subcommands of SET FEATURES that the drive accepts.
FEATURES = (0x02, 0x03)

# How much of a text or of bytes is shown.
TEXT_WIDTH, BYTES_SHOWN = 32, 16


def cut(text: str, width: int | None = None) -> str:
    """The text without what a terminal would take for a command, and no wider than this."""
    plain = "".join(c if c.isascii() and c.isprintable() else f"\\x{ord(c):02x}" for c in text)
    return plain if width is None or len(plain) <= width else plain[: width - 2] + ".."


def command_name(byte: int) -> str:
    return COMMANDS[byte].name if byte in COMMANDS else f"{byte:02x}h"


def byte_shown(register: str, value: int) -> str:
    """A register's byte, with the names of its bits."""
    names = [name for bit, name in BITS.get(register, {}).items() if value & bit]
    return f"{value:02x}h: {' '.join(names)}" if names else f"{value:02x}h"


def many(count: int | str, what: str) -> str:
    return f"{count} {what}{'' if str(count) == '1' else 's'}"


def begin_shown(data: bytes) -> str:
    """The first of some bytes, as text where they are one."""
    text = re.match(rb"[\x20-\x7e]{4,}\n?", data)
    if text:
        # The text has printable characters and a line feed alone, so repr does no more than write that as \n.
        rest = ".." if text.end() < len(data) or text.end() > TEXT_WIDTH else ""
        return f"{text[0][:TEXT_WIDTH].decode()!r}{rest}"
    if len(data) > 1 and len(set(data)) == 1:
        return f"each {data[0]:02x}h"
    return f"{data[:BYTES_SHOWN].hex(' ')}{'' if len(data) <= BYTES_SHOWN else ' ..'}"


def data_shown(data: bytes) -> str:
    """How many bytes there are, and the first of them."""
    return f"{many(len(data), 'byte')}, {begin_shown(data)}"
