"""Packets that a plan hasn't: versions, memories, parameters, logs, arming, and the commands of a flight.

WRITTEN FROM MEMORY of Bitcraze's firmware and library as of 2022 to 2025, and never compared with them, a radio or a
drone. Behind each group stands how sure that memory is. Check each group with the firmware that you fly.
"""
import struct
from typing import Iterable, Optional, Tuple

CONSOLE, PARAMETERS, MEMORY, LOGS, PLACES, COMMANDER, PLATFORM, LINK = 0, 2, 4, 5, 6, 8, 13, 15


def packet(port: int, channel: int, data: bytes) -> bytes:
    """A packet's bytes, with link bits 3."""
    return bytes([port << 4 | 0x0C | channel]) + bytes(data)


def parts(raw: bytes) -> Tuple[int, int, bytes]:
    """A packet's port, channel and data."""
    return raw[0] >> 4, raw[0] & 3, raw[1:]


# ---- versions, port 13 channel 1 (90 %)

ASK_PROTOCOL, ASK_FIRMWARE = bytes([0]), bytes([1])


def text_of(data: bytes) -> str:
    """The text after an answer's first byte."""
    return bytes(data[1:]).split(b"\0")[0].decode("ascii", "replace")


# ---- memories, port 4 channel 0 (95 %)

COUNT_MEMORIES = bytes([1])
TRAJECTORY_MEMORY = 0x12


def ask_memory(number: int) -> bytes:
    return bytes([2, number])


def memory_of(data: bytes) -> Tuple[int, int]:
    """A memory's type and size."""
    return data[2], struct.unpack_from("<I", bytes(data), 3)[0]


def read(number: int, address: int, length: int) -> bytes:
    """The question for bytes of a memory, on channel 1; the answer begins with its first five bytes."""
    return struct.pack("<BIB", number, address, length)


# ---- tables of parameters and logs, ports 2 and 5 channel 0, since protocol 4 (90 %)

ASK_TABLE = bytes([3])
PARAMETER_TYPES = {0x08: "B", 0x09: "H", 0x0A: "I", 0x00: "b", 0x01: "h", 0x02: "i", 0x06: "f"}
FLOAT, HALF = 7, 8  # of log items: in the drone, and as it may send them
LOG_TYPES = {1: "B", 2: "H", 3: "I", 4: "b", 5: "h", 6: "i", 7: "f", 8: "e"}


def ask_item(number: int) -> bytes:
    return struct.pack("<BH", 2, number)


def table_of(data: bytes) -> Tuple[int, int]:
    """How many items a table has, and its checksum."""
    count, checksum = struct.unpack_from("<HI", bytes(data), 1)
    return count, checksum


def item_of(data: bytes) -> Tuple[str, int]:
    """An item's name, `group.name`, and its type."""
    group, name = bytes(data[4:]).split(b"\0")[:2]
    return "%s.%s" % (group.decode("ascii", "replace"), name.decode("ascii", "replace")), data[3] & 0x0F


# ---- parameters, port 2: read on channel 1, write on channel 2 (90 %)

def write_parameter(number: int, kind: int, value: float) -> bytes:
    """The data that sets a parameter; the answer begins with its first two bytes."""
    return struct.pack("<H" + PARAMETER_TYPES[kind], number, value)


# ---- logs, port 5: settings on channel 1, data on channel 2 (90 %)

RESET_LOGS = bytes([5])


def create_block(block: int, items: Iterable[Tuple[int, int, int]]) -> bytes:
    """The data that makes a block of items: their numbers, their types, and as what types they are sent (75 % where
    these differ)."""
    return bytes([6, block]) + b"".join(struct.pack("<BH", kind << 4 | sent, number) for number, kind, sent in items)


def start_block(block: int, milliseconds: int) -> bytes:
    """The data that has a block sent every so many milliseconds, a multiple of ten."""
    return bytes([3, block, max(1, min(255, milliseconds // 10))])


def logged(data: bytes, kinds: Iterable[int]) -> Optional[Tuple[int, int, Tuple[float, ...]]]:
    """A block's number, the drone's milliseconds, which wrap at 2^24, and its values; None where it is too short."""
    form = "<" + "".join(LOG_TYPES[kind] for kind in kinds)
    if len(data) < 4 + struct.calcsize(form):
        return None
    return data[0], int.from_bytes(data[1:4], "little"), struct.unpack_from(form, bytes(data), 4)


# ---- arming, port 13 channel 0 (the request 85 %, its answer 60 %: `supervisor.info` is what is believed)

def arm(on: bool) -> bytes:
    return bytes([1, 1 if on else 0])


# The bits of the log variable supervisor.info (85 %; the last one is of newer firmware, 65 %).
CAN_ARM, IS_ARMED, AUTO_ARM, CAN_FLY, IS_FLYING, IS_TUMBLED, IS_LOCKED, IS_CRASHED = (1 << k for k in range(8))
WRECKED = IS_TUMBLED | IS_LOCKED | IS_CRASHED


# ---- the high-level commander, port 8 channel 0 (90 %); metres, seconds, radians

def group(mask: int = 0) -> bytes:
    """The data that puts a drone into the groups of a mask, and out of all others; 0 is how it begins. Packets with
    group 0 reach all, others those that have a bit of it (85 %)."""
    return bytes([0, mask])


def take_off(height: float, seconds: float) -> bytes:
    """The data of a take-off to an absolute height, with the yaw as it is."""
    return struct.pack("<BBff?f", 7, 0, height, 0.0, True, seconds)


def land(height: float, seconds: float) -> bytes:
    """The data of a landing at an absolute height, with the yaw as it is."""
    return LAND + struct.pack("<Bff?f", 0, height, 0.0, True, seconds)


def go_to(x: float, y: float, z: float, yaw: float, seconds: float) -> bytes:
    return GO_TO + struct.pack("<BBfffff", 0, 0, x, y, z, yaw, seconds)


def left_of(data: bytes, passed: float, most: float) -> bytes:
    """The data of a go-to that is said once more: it takes what is left of its time, shorter by so many seconds at
    most. A drone that heard the first one is where it would have been, and no later than it began."""
    if data[:1] != GO_TO:
        return data
    seconds, = struct.unpack_from("<f", data, len(data) - 4)
    return data[:-4] + struct.pack("<f", max(seconds / 2, seconds - min(passed, most)))


def start(trajectory: int, mask: int = 0) -> bytes:
    """The data that starts a trajectory, as a plan has it but for the group."""
    return struct.pack("<BBBBBf", 5, mask, 0, 0, trajectory, 1.0)


GO_TO, LAND = bytes([4]), bytes([8])  # the first bytes of a go-to and of a landing
STOP = bytes([3, 0])  # the motors stop, and the drone falls

# ---- the emergency stop, port 6 channel 1 (85 %): motors off until the drone is started anew
EMERGENCY_STOP = bytes([3])
