"""The frames of a run: what each says, by AoE r11 and docs/network.md, and the two lists of those that are under way."""

ROOM = 64
ETHER_TYPE, REPLY, ALL_MAJORS, ALL_MINORS = b"\x88\xa2", 0x8, 0xFFFF, 0xFF
EXTENDED, WRITE = 0x40, 0x01
READ_SECTORS_EXT, IDENTIFY_DEVICE = 0x24, 0xEC


def request_of(tag: int) -> bytes:
    """The frame by which the monitor asks for a tag's two sectors."""
    header = bytes.fromhex("02000000000202000000000188a210000001010000000000")[:20] + tag.to_bytes(4, "big")
    return header + bytes([EXTENDED, 0, 2, READ_SECTORS_EXT]) + (2 * tag).to_bytes(6, "little") + bytes(2)


def under_way(frames: list[bytes], one: str, several: str) -> str:
    return f"{len(frames)} {one if len(frames) == 1 else several} under way"


def sectors_shown(first: int, count: int) -> str:
    return f"sector {first}" if count == 1 else f"sectors {first} to {first + count - 1}"


def argument_shown(frame: bytes) -> str:
    """What a frame with a whole header says behind it."""
    command, argument = frame[19], frame[24:]
    if command == 0 and len(argument) >= 12:
        flags, feature, count, byte = argument[:4]
        first = int.from_bytes(argument[4:10], "little")
        if byte == IDENTIFY_DEVICE and not flags & EXTENDED:
            return "IDENTIFY DEVICE"
        if byte == READ_SECTORS_EXT and flags & EXTENDED and not flags & WRITE and count in (1, 2):
            return f"READ SECTOR(S) EXT, {sectors_shown(first, count)}"
        return f"the ATA command {byte:02x}h"
    if command == 1 and len(argument) >= 8:
        return "Query Config" if argument[5] & 0xF == 0 else f"configuration {argument[5] & 0xF}"
    return "an argument that ends early" if command < 2 else f"the command {command}"


def fault_of(frame: bytes) -> str:
    """Why a frame isn't read as one of AoE, or nothing where it is."""
    if len(frame) >= 14 and frame[12:14] != ETHER_TYPE:
        return "no frame of AoE"
    return "a frame that ends early" if len(frame) < 24 else ""


def frame_shown(frame: bytes) -> str:
    """What a frame says."""
    fault = fault_of(frame)
    if fault:
        return fault
    if frame[14] >> 4 != 1:
        return f"a frame of version {frame[14] >> 4}"
    if not frame[14] & REPLY:
        return f"a request, {argument_shown(frame)}"
    status = f", status {frame[27]:02x}h" if frame[19] == 0 and len(frame) >= 36 else ""
    return f"a reply with the tag {int.from_bytes(frame[20:24], 'big')}{status}"


def reply_shown(request: bytes) -> str:
    """The server's reply, by the request that it answers."""
    version = request[14] >> 4
    return f"the refusal of version {version}" if version != 1 else f"the reply to {argument_shown(request)}"


def is_answered(frame: bytes) -> bool:
    """Whether the server replies to a frame: it is silent to what it can't read, to replies and to other addresses."""
    if fault_of(frame) or frame[14] & REPLY:
        return False
    if int.from_bytes(frame[16:18], "big") not in (1, ALL_MAJORS) or frame[18] not in (1, ALL_MINORS):
        return False
    needed = {0: 36, 1: 32}.get(frame[19], 24)
    return frame[14] >> 4 != 1 or len(frame) >= needed


class Network:
    """The frames under way, each list the oldest first: requests, and to what the server replied."""

    def __init__(self) -> None:
        self.requests: list[bytes] = []
        self.replies: list[bytes] = []

    @property
    def requests_shown(self) -> str:
        return under_way(self.requests, "request", "requests")

    @property
    def replies_shown(self) -> str:
        return under_way(self.replies, "reply", "replies")

    def ask(self, tag: int) -> None:
        self.join(self.requests, request_of(tag))

    @staticmethod
    def join(frames: list[bytes], frame: bytes) -> str:
        """A full list loses its oldest frame."""
        frames.append(frame)
        return "; the oldest of the full list is lost" if len(frames) > ROOM and frames.pop(0) else ""

    def taken(self, frames: list[bytes], k: int, stays: bool) -> bytes | None:
        if k >= len(frames):
            return None
        return frames[k] if stays else frames.pop(k)

    def to_server(self, k: int, stays: bool) -> str:
        """Request k comes to the server."""
        frame = self.taken(self.requests, k, stays)
        if frame is None:
            return f"without effect: {self.requests_shown}"
        return self.served(frame) + (", and stays under way" if stays else "")

    def served(self, frame: bytes) -> str:
        """What the server does with a frame."""
        said = f"the server gets {frame_shown(frame)}"
        if not is_answered(frame):
            return f"{said}, and is silent"
        lost = self.join(self.replies, frame)
        return f"{said}, and replies: {self.replies_shown}{lost}"

    def to_client(self, k: int, stays: bool) -> str:
        """Reply k comes to the client."""
        frame = self.taken(self.replies, k, stays)
        if frame is None:
            return f"without effect: {self.replies_shown}"
        return f"the client gets {reply_shown(frame)}" + (", which stays under way" if stays else "")

    def lose_request(self, k: int) -> str:
        frame = self.taken(self.requests, k, False)
        return f"without effect: {self.requests_shown}" if frame is None else f"lost: the request, {argument_shown(frame)}"

    def lose_reply(self, k: int) -> str:
        frame = self.taken(self.replies, k, False)
        return f"without effect: {self.replies_shown}" if frame is None else f"lost: {reply_shown(frame)}"
