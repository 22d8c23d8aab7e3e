"""The radio driver and its thread, with safelink and the library's queues."""
import re
from typing import Any, Callable, List, Optional, Sequence, Tuple

from hemtoghai.flying import clock

from .. import air
from .crtpstack import CRTPPacket

RETRIES = 100
RELAXED = 0.01  # seconds between transfers where nothing comes
RATES = ("250K", "1M", "2M")
OPEN: List["RadioDriver"] = []  # the drivers that are open, for tests


class WrongUriType(Exception):
    pass


class RadioDriver:
    def __init__(self) -> None:
        self.uri = ""
        self.link_error_callback: Optional[Callable[[str], None]] = None
        self.in_queue: "clock.Queue[CRTPPacket]" = clock.Queue()
        self.out_queue: "clock.Queue[CRTPPacket]" = clock.Queue(1)
        self._thread = _RadioDriverThread(self)

    def connect(self, uri: str, radio_link_statistics_callback: Any,
                link_error_callback: Optional[Callable[[str], None]]) -> None:
        if not re.search("^radio://", uri):
            raise WrongUriType("Not a radio URI")
        if uri in air.WORLD.unplugged:
            raise Exception("Cannot find a Crazyradio Dongle")
        self.uri, self.link_error_callback = uri, link_error_callback
        OPEN.append(self)
        self._thread.begin()

    def receive_packet(self, wait: float = 0) -> Optional[CRTPPacket]:
        try:
            return self.in_queue.get(None if wait < 0 else wait)
        except clock.Empty:
            return None

    def send_packet(self, pk: CRTPPacket) -> None:
        if not self.out_queue.put(pk, 2) and self.link_error_callback:
            self.link_error_callback("RadioDriver: Could not send packet to copter")

    def close(self) -> None:
        self._thread.open = False
        self._thread.join()
        OPEN.remove(self)
        self.link_error_callback = None


class _RadioDriverThread:
    task: clock.Task

    def __init__(self, link: RadioDriver) -> None:
        self.link, self.open, self.left = link, True, RETRIES
        self.up = self.down = 0
        self.safelink = False

    def begin(self) -> None:
        self.task = clock.Task(self.run)

    def join(self) -> None:
        self.task.join()

    def exchange(self, data: bytes) -> Tuple[bool, bytes]:
        """A transfer, with safelink's numbers; none ends where the dongle is gone and the library waits for it."""
        while air.WORLD.ails(self.link.uri.split("/")[2], "blocks"):
            clock.wait(0.05)
        if not self.safelink:
            return air.WORLD.transfer(self.link.uri, data)
        head = bytes([data[0] & 0xF3 | self.up << 3 | self.down << 2])
        ack, came = air.WORLD.transfer(self.link.uri, head + data[1:])
        if ack and came and (came[0] >> 2 & 1) == self.down:
            self.down = 1 - self.down
        if ack:
            self.up = 1 - self.up
        return ack, came

    def run(self) -> None:
        for _ in range(10):
            ack, came = air.WORLD.transfer(self.link.uri, b"\xFF\x05\x01")
            if came == b"\xFF\x05\x01":
                self.safelink = True
                break
        out, empty = b"\xFF", 0
        while self.open:
            ack, came = self.exchange(out)
            if not ack:
                self.left -= 1
                if self.left == 0 and self.link.link_error_callback is not None:
                    self.link.link_error_callback("Too many packets lost")
                continue
            self.left = RETRIES
            if came:
                self.link.in_queue.put(CRTPPacket(came[0], came[1:]))
            # After ten transfers in which nothing came it waits a little for what is to be sent.
            empty = empty + 1 if not came or came[0] & 0xF3 == 0xF3 else 0
            try:
                packet = self.link.out_queue.get(RELAXED if empty > 10 else 0)
                out = bytes([packet.header]) + bytes(packet.data)
            except clock.Empty:
                out = b"\xFF"


class RadioManager:
    """A dongle that is shared: its `open` gives an instance with a channel and an address of its own."""

    @staticmethod
    def open(devid: int) -> "_SharedRadioInstance":
        return _SharedRadioInstance(devid)


class _radio_ack:
    """What came back of a packet: whether it was acknowledged, and the acknowledgement's payload."""

    def __init__(self, ack: bool, data: bytes) -> None:
        self.ack, self.data = ack, data


class _SharedRadioInstance:
    def __init__(self, devid: int) -> None:
        self.devid = devid
        self.channel: Optional[int] = None
        self.address: Tuple[int, ...] = ()
        self.rate: Optional[int] = None

    def set_channel(self, channel: int) -> None:
        self.channel = channel

    def set_address(self, address: Sequence[int]) -> None:
        self.address = tuple(address)

    def set_data_rate(self, dr: int) -> None:
        self.rate = dr

    def send_packet(self, data: Sequence[int]) -> _radio_ack:
        while air.WORLD.ails(self.devid, "blocks"):
            clock.wait(0.05)
        if self.address == (0xFF, 0xE7, 0xE7, 0xE7, 0xE7):
            air.WORLD.broadcast(self.devid, self.channel, bytes(data))
            return _radio_ack(False, b"")
        rate = RATES[self.rate or 0]
        uri = "radio://%d/%s/%s/%s" % (self.devid, self.channel, rate, bytes(self.address).hex().upper())
        return _radio_ack(*air.WORLD.transfer(uri, bytes(data)))

    def close(self) -> None:
        pass
