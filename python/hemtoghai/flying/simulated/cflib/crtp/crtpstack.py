"""A packet, as the library has it."""
from typing import Optional


class CRTPPacket:
    MAX_DATA_SIZE = 30

    def __init__(self, header: int = 0, data: Optional[bytes] = None) -> None:
        self.header = header | 0x3 << 2
        self.data = bytearray(data or b"")
