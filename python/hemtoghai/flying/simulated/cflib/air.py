"""The simulated air, and drones that fly: their firmware's side of the packets, from memory, and the places where
they are.

A drone stands on its pad, takes off, goes to places, flies the trajectory that its own memory decodes to, lands,
and keeps a small way off all the while. Time is that of flying/clock.py. Of a drone's dynamics one thing is simulated:
a landing begins at the setpoint with speed 0, and what flew at speed is carried on and comes back. Else a drone is
where its commander has it, but for the stray that it is given. The commander takes off from idle alone, and refuses a
landing while it is idle or lands; at the end of a landing it is idle, and motors stop, at whatever height.
"""
import math
import random
import struct
import threading
from typing import Any, Callable, Collection, Dict, Iterator, List, Mapping, Optional, Sequence, Tuple

from hemtoghai.companion import value
from hemtoghai.flying import clock, firmware
from hemtoghai.geometry.curves import ease as smooth

EBUSY, EIO, ENOEXEC, EACCES = 16, 5, 8, 13
MEMORIES = [(0x00, 8192), (0x10, 36), (0x12, 4096), (0x15, 4096)]
PARAMETERS = [("commander.enHighLevel", 0x08, 0), ("kalman.resetEstimation", 0x08, 0),
              ("stabilizer.estimator", 0x08, 2)]
LOGGED = [("stateEstimate.x", 7), ("stateEstimate.y", 7), ("stateEstimate.z", 7), ("stateEstimate.yaw", 7),
          ("pm.vbat", 7), ("supervisor.info", 2),
          ("kalman.varPX", 7), ("kalman.varPY", 7), ("kalman.varPZ", 7)]
PADDING = 20  # further items of the tables, so that reading them is no single packet
NOTHING = b"\xF3\x01\x3C"  # what an acknowledgement carries where a drone has nothing to say
FULL, SINKS = 4.1, 0.0008  # volts, and volts a second in flight
FORGETS, TIMEOUT, OFF = 2.0, 30.0, 1.0  # seconds: without a poll until logs go, from arming to flight, of a reboot

Segment = Tuple[int, List[List[int]]]  # milliseconds, and control values by axis

# What --fault and tests can ask for; the number behind some is seconds after the start of the show, or a take-off.
FAULTS = {
    "dead": "answers nothing",
    "outdated": "has a protocol that is too old",
    "silent": "its link is gone so many seconds after its start",
    "empty": "its battery is low",
    "unsettled": "its estimator isn't settled",
    "astray": "stands half a metre off",
    "memory": "has another list of memories",
    "wanders": "leaves its curve by half a metre a second, so many seconds after its start",
    "leaves": "leaves its way by half a metre a second, so many seconds after it took off",
    "flees": "flies away at three metres a second, so many seconds after its start",
    "doubts": "its positioning is gone so many seconds after it took off: it drifts, and its variance grows",
    "leaps": "its estimate leaps by half a metre (--sim leap), and it follows, so many seconds after it took off",
    "misled": "its estimate leaps by twenty-five metres, and it flies off, so many seconds after its start",
    "deaf": "hears no broadcast",
    "deafens": "hears no broadcast once it has taken off",
    "locked": "can't be armed",
    "unarmed": "says that it can be armed, and isn't",
    "lost": "its link is gone once it was written to",
    "forgets": "keeps nothing that is written",
    "stays": "refuses to take off",
    "stuck": "takes off, it says, and stays where it is",
    "drains": "its battery is empty so many seconds after its start",
    "hovers": "doesn't land",
    "refuses": "refuses its start",
    "falls": "its motors stop so many seconds after its start",
    "old": "has answers of an earlier upload under way",
    "gap": "its link is gone for three seconds, so many seconds after its start, and its logs with it",
    "sag": "says for a moment that its battery is empty, so many seconds after its start",
    "high": "believes to be higher than it is, by so many metres",
    "lower": "believes to be a metre lower than it is, so many seconds after its start",
    "riser": "stands on a riser of half a metre",
    "turned": "looks another way",
    "flying": "says on the floor that it flies",
    "auto": "arms by itself, and can't be disarmed",
    "timeout": "disarms half a minute after it was armed, unless it flies",
    "reboots": "starts anew once its memory was read back",
    "senseless": "says that its place is no number",
    "loses": "says that its place is no number, so many seconds after its start",
    "volts": "says that its voltage is no number",
    "short": "gives answers that are cut off to questions on its memories and tables",
    "mute": "its link is gone so many seconds after it took off",
    "blinks": "its link is gone for half a second, so many seconds after its start",
    "frozen": "says one and the same place, so many seconds after it took off",
    "slow": "its answers come 1.3 seconds late, once it has taken off",
    "restarts": "starts anew in the air, so many seconds after its start, and falls",
    "dark": "its plug is out so many seconds after its start: it falls, and says nothing",
    "sinks": "has an old cell: so many seconds after it took off it sinks, and three seconds later its motors stop",
    "swapped": "is taken for the next drone by the positioning, and that one for it, so many seconds after its start",
    "pushed": "stands 120 millimetres aside of its pad",
    "trades": "stands on the pad of the next drone, and that one on its own",
    "twin": "another drone of its address is on, half a metre aside",
    "small": "takes no more than twenty bytes into its trajectory memory",
    "fast": "has a clock that runs 300 millionths too fast",
    "numb": "its radio chip alone answers, so many seconds after its start",
    "lags": "its samples come a second late, so many seconds after its start",
    "double": "is the next drone, under two names",
    "left": "isn't in the show, and is on: it stands on its pad, which PADS has, and holds a trajectory still",
}
# Those whose seconds count from the take-off; all others do so where that is asked for.
AFTER_RISE = frozenset(("leaves", "doubts", "leaps", "mute", "frozen", "sinks"))
# What can come over dongle 0 so many seconds after the first start, and for how many seconds: its calls don't return
# any more; they do, and nothing is sent; it is gone and comes back; two thirds of all packets are lost.
TROUBLES = {"blocks": math.inf, "dies": math.inf, "usb": 1.2, "noise": 3.0}
NOISE = 0.67
STOPPING = "falls", "restarts", "dark"  # faults by which motors stop
LATE, DYING, PUSHED, ROOM = 1.3, 3.0, 0.12, 20  # of slow, sinks, pushed and small: seconds, seconds, metres, bytes
LAG, FAR = 1.0, 25.0  # of lags and misled: seconds, metres
JITTER = 4e-6  # metres of an estimate's last digit, which is another one with each sample


def carried_on(speed: float, seconds: float) -> float:
    """How far a drone is from its setpoint, along the way that it flew, so long after this has stopped: 0.07 s of speed
    and 0.06 s^2/m of its square at most, from memory of what others saw (0.4 m at 2 m/s)."""
    last = 0.2 + 0.163 * speed
    return speed * seconds * math.exp(-seconds / last)


def followed(leap: float, seconds: float) -> float:
    """How far a drone has gone, so long after its estimate leapt by so much: it takes that for its own error, and goes
    back by 2 m/s a metre of it, and by 1 m/s at most, from memory of its controller."""
    slow = min(leap, 0.5)
    left = seconds - (leap - slow)
    return seconds if left < 0 else leap - slow * math.exp(-2 * left)


def segments_at(memory: bytes, offset: int, pieces: int) -> List[Segment]:
    """The segments of a trajectory in a memory, as (milliseconds, control values by axis); none where there is none."""
    last, at, out = list(struct.unpack_from("<hhhh", memory, offset)), offset + 8, []
    for _ in range(pieces):
        header, milliseconds = struct.unpack_from("<BH", memory, at)
        at, elements = at + 3, []
        for axis in range(4):
            count = (0, 1, 3, 7)[header >> 2 * axis & 3]
            elements.append([last[axis], *struct.unpack_from("<%dh" % count, memory, at)])
            at, last[axis] = at + 2 * count, elements[-1][-1]
        if milliseconds == 0:
            return []
        out.append((milliseconds, elements))
    return out


class Drone:
    """A drone: radio with safelink, memories, tables, commander, and where it is, in metres."""
    memory_bytes = bytearray

    def __init__(self, world: "World", uri: str, home: Sequence[float], faults: Dict[str, float],
                 rising: Collection[str] = ()) -> None:
        self.world, self.uri, self.faults, self.lock = world, uri, faults, threading.RLock()
        self.after_rise = AFTER_RISE | set(rising)
        self.called = ""  # by what name, where it isn't in the show
        x, y, z = home
        aside = 0.5 if "astray" in faults else PUSHED if "pushed" in faults else 0.0
        self.place = [x + aside, y, 0.5 if "riser" in faults else z]
        self.plan: Optional[Tuple[Any, ...]] = None
        self.flies, self.armed, self.lands = False, False, False
        self.group = 0
        self.floor, self.hits, self.yaw = self.place[2], 0.0, 0.0
        self.cut: Optional[float] = None  # when its motors stopped
        self.curve_began: Optional[float] = None
        self.rose_at: Optional[float] = None  # when it took off first
        self.starts: List[float] = []
        self.memories = [(kind, self.memory_bytes(b"\xFF" * size)) for kind, size in MEMORIES]
        self.thrown: Optional[Tuple[float, List[float]]] = None
        self.armed_at: Optional[float] = None
        self.off_until: Optional[float] = None
        self.polled, self.is_read = clock.now(), False
        self.refused: List[int] = []
        self.heard_at: Optional[float] = None  # where a packet was heard at another instant than this one
        self.next: Optional["Drone"] = None  # that it is taken for
        self.twin: Optional["Drone"] = None  # of its address
        self.stuck_at: Optional[List[float]] = None  # the place that it says again and again
        self.later: List[Tuple[float, bytes]] = []  # answers that come late, and when
        self.rebooted, self.jitter = False, 0.0
        if "memory" in faults:
            self.memories.insert(2, (0x11, self.memory_bytes(b"\xFF" * 8192)))
        self.phase, self.booted = world.chance.random() * 7, clock.now() - 10 - 50 * world.chance.random()
        self.begin_link()

    def begin_link(self) -> None:
        """What it has of its link: its tables, and packets under way."""
        self.table: List[Optional[Tuple[int, int, int, int]]] = [None] * 10
        self.parameters: List[Any] = [row[2] for row in PARAMETERS]
        self.blocks: Dict[int, List[Any]] = {}
        self.up_queue: List[bytes] = []
        if "old" in self.faults:
            self.up_queue = [bytes([0x4E, 2]) + struct.pack("<IB", 24 * k, 0) for k in range(8)]
            self.up_queue.append(bytes([0x8C, 6, 0, 1, 0]))
        self.safelink, self.last_up, self.down, self.late_share = False, 1, 0, 0.0
        self.held: Optional[bytes] = None
        self.is_written = False

    # ---- the way

    def flown(self, now: Optional[float] = None) -> Optional[float]:
        """Seconds since the start of its trajectory, or None."""
        return None if self.curve_began is None else (now or clock.now()) - self.curve_began

    def since(self, fault: str, now: Optional[float] = None) -> Optional[float]:
        """The seconds since a fault came, or None where it hasn't."""
        if (after := self.faults.get(fault)) is None:
            return None
        begin = self.rose_at if fault in self.after_rise else self.curve_began
        seconds = -1.0 if begin is None else (now or clock.now()) - begin - after
        return None if seconds < 0 else seconds

    def is_due(self, fault: str) -> bool:
        """Whether a fault has come."""
        return self.since(fault) is not None

    def past(self, fault: str, now: float) -> float:
        """The seconds since a fault came, or 0."""
        return self.since(fault, now) or 0.0

    def drifted(self, now: float) -> float:
        """How far it is from where it believes to be, on y, while that doesn't leap."""
        return 0.2 * self.past("doubts", now)

    def leapt(self, now: float) -> Tuple[float, float]:
        """By how much its estimate has leapt, on y, and how far it went back by that."""
        if self.past("leaps", now):
            return self.world.leap, followed(self.world.leap, self.past("leaps", now))
        return (FAR, followed(FAR, self.past("misled", now))) if self.past("misled", now) else (0.0, 0.0)

    def is_in(self, fault: str, seconds: float) -> bool:
        """Whether a fault has come, and no more than so many seconds ago."""
        since = self.since(fault)
        return since is not None and since < seconds

    def is_gone(self) -> bool:
        if "reboots" in self.faults and self.is_read and self.table[0] is not None:
            self.reboot("reboots")
        if self.is_due("restarts"):
            self.drop()
            self.reboot("restarts")
        now = clock.now()
        gap = self.is_in("gap", 3) or self.is_in("blinks", 0.5) or self.past("mute", now) > 0
        off = self.off_until is not None and now < self.off_until or self.is_due("dark")
        return gap or off or "dead" in self.faults or self.is_due("silent") or "lost" in self.faults and self.is_written

    def reboot(self, fault: str) -> None:
        """Starts anew, once by a fault: its memory is zero, and all that it was told is gone."""
        del self.faults[fault]
        self.rebooted = True
        self.memories = [(kind, self.memory_bytes(size)) for kind, size in MEMORIES]
        self.table, self.blocks, self.up_queue, self.parameters = [None] * 10, {}, [], [row[2] for row in PARAMETERS]
        self.group = 0
        self.safelink, self.armed, self.booted, self.off_until = False, False, clock.now(), clock.now() + OFF

    def planned(self, now: Optional[float] = None) -> List[float]:
        """Where its commander has it."""
        now = now or clock.now()
        if self.plan is None:
            return list(self.place)
        kind, begin, *rest = self.plan
        if kind == "way":
            first, last, seconds = rest
            u = smooth((now - begin) / seconds) if seconds > 0 else 1.0
            return [a + (b - a) * u for a, b in zip(first, last)]
        segments, at = rest[0], max(0.0, (now - begin) * 1000)
        for milliseconds, elements in segments:
            if at <= milliseconds:
                return [value(row, at / milliseconds) / 1000 for row in elements[:3]]
            at -= milliseconds
        return [row[-1] / 1000 for row in segments[-1][1][:3]]

    def is_at(self, now: Optional[float] = None) -> List[float]:
        """Where it is: as planned, but for its stray."""
        self.is_idle()
        now = now or clock.now()
        at = self.planned(now)
        if self.cut or any(map(self.is_due, STOPPING)) or self.past("sinks", now) > DYING:
            self.drop()
            fallen = now - (self.cut or now)
            return [self.place[0], self.place[1], max(self.floor, self.place[2] - 4.9 * fallen * fallen)]
        if self.thrown is not None and now >= self.thrown[0]:
            seconds, speed = now - self.thrown[0], math.hypot(*self.thrown[1])
            far = carried_on(speed, seconds) / speed
            at = [v + far * w for v, w in zip(at, self.thrown[1])]
        if self.flies and self.world.stray:
            a, b = self.phase + 0.9 * now, self.phase + 0.37 * now
            way = [math.cos(a) * math.cos(b), math.sin(a) * math.cos(b), math.sin(b)]
            at = [v + self.world.stray / 1000 * w for v, w in zip(at, way)]
        at[0] += 0.5 * self.past("wanders", now)
        if self.flies:
            at[0] += 0.5 * self.past("leaves", now) + 3 * self.past("flees", now)
            at[1] += self.drifted(now) - self.leapt(now)[1]
            at[2] -= 0.4 * self.past("sinks", now)
        if self.next and self.flies and self.is_due("swapped"):
            # Its controller takes the other one's error for its own, and flies away from it, faster and faster.
            way = [v - w for v, w in zip(at, self.next.planned(now))]
            far = 0.75 * self.past("swapped", now) ** 2 / max(0.01, math.hypot(*way))
            at = [v + far * w for v, w in zip(at, way)]
        return [at[0], at[1], max(self.floor, at[2])]

    def drop(self) -> None:
        """The motors stop, once."""
        if self.cut:
            return
        self.place, self.lands = self.planned(), False
        self.cut, self.armed, self.plan = clock.now(), False, None

    def go(self, to: Sequence[float], seconds: float) -> None:
        """Flies from where its setpoint is to a place. A way begins with speed 0, and the drone is carried on."""
        now = clock.now()
        here, before = self.planned(now), self.planned(now - 0.01)
        speed = [100 * (a - b) for a, b in zip(here, before)]
        self.thrown = (now, speed) if self.flies and 0.02 < math.hypot(*speed) < 20 else None
        self.plan = "way", now, here, to, max(0.01, seconds)

    def is_idle(self) -> bool:
        """Whether its commander has nothing to fly: on the floor, and after a landing has ended."""
        plan = self.plan
        if self.lands and plan is not None and clock.now() >= plan[1] + plan[4]:
            self.end_landing(plan)
        return self.plan is None

    def end_landing(self, plan: Sequence[Any]) -> None:
        """The landing ends, and its motors stop, at whatever height it is."""
        _, _, first, last, seconds = plan
        if last[2] < self.floor - 0.05 and first[2] > self.floor:
            # It met what it stands on before the end: at the speed that its way had there.
            u = next(k / 100 for k in range(101) if first[2] + (last[2] - first[2]) * smooth(k / 100) <= self.floor)
            rate = 140 * u ** 3 * (1 - u) ** 3 * (first[2] - last[2]) / seconds
            self.hits = max(self.hits, rate)
        back = self.leapt(clock.now())[1]
        self.place, self.plan, self.lands, self.flies = [last[0], last[1] - back, self.floor], None, False, False

    # ---- the radio

    def poll(self, raw: bytes) -> bytes:
        """A packet of the radio that arrived; the acknowledgement's payload."""
        with self.lock:
            self.log_what_is_due()
            self.up_queue += [answer for at, answer in self.later if at <= self.polled]
            self.later = [row for row in self.later if row[0] > self.polled]
            if raw == b"\xFF\x05\x01":
                self.safelink, self.last_up, self.down, self.held = True, 1, 0, None
                return raw
            if not self.safelink:
                self.take(raw)
                return self.up_queue.pop(0) if self.up_queue else NOTHING
            if self.held is not None and (raw[0] >> 2 & 1) != self.down:
                self.held, self.down = None, 1 - self.down
            if self.held is None:
                self.held = self.up_queue.pop(0) if self.up_queue else NOTHING
            answer = bytes([self.held[0] & 0xF3 | self.down << 2]) + self.held[1:] if self.held else b""
            self.held = self.held or None
            fresh, self.last_up = (raw[0] >> 3 & 1) != self.last_up, raw[0] >> 3 & 1
            if fresh:
                self.take(raw)
            return answer

    def take(self, raw: bytes) -> None:
        """Carries a packet out; its answer waits for the next poll."""
        port, channel, data = firmware.parts(bytes(raw))
        ports: Dict[int, Callable[[int, bytes], Optional[bytes]]] = {
            firmware.PARAMETERS: self.parameter, firmware.MEMORY: self.memory, firmware.LOGS: self.log,
            firmware.COMMANDER: self.command, firmware.PLATFORM: self.platform, firmware.PLACES: self.emergency}
        answer = ports[port](channel, data) if port in ports else None
        if answer is not None and "short" in self.faults and channel == 0 and port != firmware.COMMANDER:
            answer = answer[:3]
        if answer is not None and "slow" in self.faults and self.rose_at is not None:
            self.later.append((clock.now() + LATE, firmware.packet(port, channel, answer)))
        elif answer is not None:
            self.up_queue.append(firmware.packet(port, channel, answer))

    def emergency(self, channel: int, data: bytes) -> Optional[bytes]:
        """Port 6: the emergency stop."""
        if (channel, data[:1]) == (1, firmware.EMERGENCY_STOP):
            self.drop()
        return None

    def platform(self, channel: int, data: bytes) -> Optional[bytes]:
        """Port 13: arming and versions."""
        if channel == 1:
            return bytes([0, 3 if "outdated" in self.faults else 6]) if data[0] == 0 else b"\x01simulated\0"
        if channel == 0 and data[0] == 1:
            if not data[1] and self.flies and not self.cut and self.is_at()[2] > self.floor + 0.05:
                self.drop()  # disarmed in the air
            can = not {"locked", "unarmed"} & set(self.faults) and not self.cut
            self.armed_at = clock.now() if data[1] and not self.armed else self.armed_at
            self.armed = can and (bool(data[1]) or "auto" in self.faults)
            return bytes([1, int(can), self.armed])
        return None

    def memory(self, channel: int, data: bytes) -> bytes:
        """Port 4: the list of memories, reads and writes."""
        if channel == 0:
            if data[0] == 1:
                return bytes([1, len(self.memories)])
            kind, whole = self.memories[data[1]]
            return struct.pack("<BBBI8s", 2, data[1], kind, len(whole), bytes(8))
        number, address = struct.unpack_from("<BI", data)
        kind, whole = self.memories[number] if number < len(self.memories) else (0, b"")
        room = ROOM if kind == 0x12 and "small" in self.faults else len(whole)
        if channel == 1:
            good, self.is_read = address + data[5] <= room, self.is_read or 1 < data[5] < 20  # the last read
            return data[:5] + (b"\0" + bytes(whole[address:address + data[5]]) if good else bytes([EIO]))
        good = address + len(data) - 5 <= room
        if good and "forgets" not in self.faults:
            whole[address:address + len(data) - 5] = data[5:]
        self.is_written = True
        return data[:5] + bytes([0 if good else EIO])

    def table_answer(self, data: bytes, items: Sequence[Sequence[Any]], checksum: int) -> bytes:
        if data[0] == 3:
            return struct.pack("<BHI", 3, len(items) + PADDING, checksum)
        number = int.from_bytes(data[1:3], "little")
        kind: int = items[max(0, number - PADDING)][1]
        name: str = items[number - PADDING][0] if number >= PADDING else "filling.item%d" % number
        return data[:3] + bytes([kind]) + name.replace(".", "\0").encode() + b"\0"

    def parameter(self, channel: int, data: bytes) -> bytes:
        """Port 2: parameters."""
        if channel == 0:
            return self.table_answer(data, PARAMETERS, 0xA1)
        number = int.from_bytes(data[:2], "little") - PADDING
        form: str = "<" + firmware.PARAMETER_TYPES[PARAMETERS[number][1]]
        if channel == 1:
            return data[:2] + b"\0" + struct.pack(form, self.parameters[number])
        self.parameters[number] = struct.unpack_from(form, data, 2)[0]
        return data

    def log(self, channel: int, data: bytes) -> Optional[bytes]:
        """Port 5: logs."""
        if channel == 0:
            return self.table_answer(data, LOGGED, 0xB2)
        if channel != 1:
            return None
        if data[0] == 5:
            self.blocks = {}
            return bytes([5, 0, 0])
        if data[0] == 6:
            items = [struct.unpack_from("<BH", data, k) for k in range(2, len(data) - 2, 3)]
            self.blocks[data[1]] = [[(kind & 15, number) for kind, number in items], None, 0]
            return data[:2] + b"\0"
        if data[0] == 4 and data[1] in self.blocks:
            self.blocks[data[1]][1] = None
        if data[0] == 3 and data[1] in self.blocks:
            self.blocks[data[1]][1:] = data[2] / 100, clock.now()
        return data[:2] + b"\0"

    def log_what_is_due(self) -> None:
        """Puts log blocks that are due into what goes up. Where nobody polled for two seconds, they are gone."""
        if self.is_due("gap") and clock.now() - self.polled > FORGETS:
            self.blocks, self.up_queue = {}, []
        self.polled = clock.now()
        for block, row in self.blocks.items():
            items, period, at = row
            if period is not None and clock.now() >= at and len(self.up_queue) < 50:
                now = clock.now()
                row[2] = max(at + period, now - period)
                values = [self.variable(LOGGED[number - PADDING][0], now) for _, number in items]
                form = "<" + "".join(firmware.LOG_TYPES[kind] for kind, _ in items)
                stamp = int((now - self.booted) * (1000.3 if "fast" in self.faults else 1000)) % 2 ** 24
                raw = firmware.packet(firmware.LOGS, 2, bytes([block]) + stamp.to_bytes(3, "little")
                                      + struct.pack(form, *values))
                if self.is_due("lags"):
                    self.later.append((now + LAG, raw))
                else:
                    self.up_queue.append(raw)

    def variable(self, name: str, now: float) -> float:
        """The value of a log variable at an instant."""
        group, _, item = name.partition(".")
        if item == "yaw":
            return self.yaw + (90.0 if "turned" in self.faults else 0.0)
        if group == "stateEstimate":
            self.jitter = 0.0 if self.jitter or self.past("frozen", now) else JITTER
            return self.estimate(now)["xyz".index(item)] + self.jitter
        if group == "kalman":
            return 0.05 if "unsettled" in self.faults else 0.00002 + 0.02 * self.past("doubts", now)
        return self.volts(now) if name == "pm.vbat" else self.supervisor(now)

    def estimate(self, now: float) -> List[float]:
        """Where it believes to be."""
        if "senseless" in self.faults or self.is_due("loses"):
            return [math.nan] * 3
        if self.past("frozen", now):
            self.stuck_at = self.stuck_at or self.is_at(now)
            return self.stuck_at
        if self.next and self.is_due("swapped"):
            return self.next.is_at(now)
        x, y, z = self.is_at(now)
        y += self.leapt(now)[0] - (self.drifted(now) if self.flies else 0.0)
        return [x, y, z + self.faults.get("high", 0.0) - self.is_due("lower")]

    def volts(self, now: float) -> float:
        if "volts" in self.faults:
            return math.nan
        low = 3.3 if "empty" in self.faults else 3.0 if self.is_due("drains") else FULL
        low = 3.1 if self.is_in("sag", 0.5) else 2.9 if self.past("sinks", now) else low
        return low - SINKS * (self.flown() or 0)

    def supervisor(self, now: float) -> int:
        """Its supervisor's bits."""
        if "auto" in self.faults and not self.cut:
            self.armed = True
        if "timeout" in self.faults and self.armed and not self.flies and now > (self.armed_at or now) + TIMEOUT:
            self.armed = False
        flying = self.flies and not self.cut and self.is_at()[2] > self.floor + 0.05 or "flying" in self.faults
        info = firmware.CAN_ARM * ("locked" not in self.faults) | firmware.AUTO_ARM * ("auto" in self.faults)
        info |= firmware.IS_ARMED * self.armed | firmware.CAN_FLY * self.armed | firmware.IS_FLYING * flying
        return info | firmware.IS_TUMBLED * bool(self.cut and not self.rebooted)

    def command(self, channel: int, data: bytes) -> bytes:
        """Port 8: the commander."""
        return (data + bytes(3))[:3] + bytes([self.commanded(data, self.heard_at)])

    def commanded(self, data: bytes, at: Optional[float] = None) -> int:
        """Carries a command out, which was heard at an instant; its status."""
        kind = data[0]
        if kind == 0:
            self.group = data[1]
            return 0
        if kind != 6 and data[1] and not data[1] & self.group:
            return 0  # taken, and nothing is done
        if kind == 3:
            return self.stop()
        if kind == 6:
            number, where, form, offset, pieces = struct.unpack_from("<BBBIB", data, 1)
            if number > 9:
                return ENOEXEC
            self.table[number] = where, form, offset, pieces
            return 0
        if not self.parameters[0]:
            return 0  # the commander is off: taken, and nothing is done
        if not self.armed or kind == 7 and "stays" in self.faults:
            return EBUSY
        if kind == 7 and "stuck" in self.faults or kind == 8 and "hovers" in self.faults:
            return 0
        if kind in (7, 8):
            return self.rise_or_land(data)
        if kind == 4:
            x, y, z, yaw, seconds = struct.unpack_from("<fffff", data, 3)
            self.go([x, y, z], seconds)
            self.flies, self.lands, self.yaw = True, False, math.degrees(yaw)
            return 0
        return self.begin(data, at) if kind == 5 else ENOEXEC

    def stop(self) -> int:
        """Its motors stop."""
        if self.is_at()[2] > self.floor + 0.05:
            self.drop()
        elif not self.cut:
            self.place, self.plan, self.lands, self.flies = self.planned()[:2] + [self.floor], None, False, False
        return 0

    def rise_or_land(self, data: bytes) -> int:
        """A take-off from idle, or a landing of one that flies; its status."""
        lands = data[0] == 8
        if self.is_idle() == lands or self.lands:
            self.refused.append(data[0])
            return 1
        height, seconds = struct.unpack_from("<f", data, 2)[0], struct.unpack_from("<f", data, 11)[0]
        here = self.planned()
        self.go([here[0], here[1], height], seconds)
        self.flies, self.lands = True, lands
        self.rose_at = clock.now() if self.rose_at is None else self.rose_at
        return 0

    def begin(self, data: bytes, at: Optional[float] = None) -> int:
        """Starts a trajectory that was heard of at an instant, anew each time, after its own lateness."""
        number = data[4]
        if "refuses" in self.faults:
            return EBUSY
        entry = self.table[number] if number <= 9 else None
        if entry is None:
            return 0  # also where nothing was started
        _, _, offset, pieces = entry
        segments = segments_at([whole for kind, whole in self.memories if kind == 0x12][0], offset, pieces)
        if not segments:
            return ENOEXEC
        self.curve_began = (clock.now() if at is None else at) + self.world.late / 1000 * self.late_share
        self.plan, self.flies, self.lands, self.thrown = ("curve", self.curve_began, segments), True, False, None
        self.starts.append(self.curve_began)
        return 0


class World:
    """The air that drones share, and the drones."""

    def __init__(self) -> None:
        self.reset({}, {})

    def reset(self, homes: Dict[str, Sequence[float]], faults: Dict[str, Dict[str, float]], stray: float = 0.0,
              late: float = 0.0, loss: float = 0.0, rate: float = 900.0, seed: int = 1, unplugged: Sequence[str] = (),
              leap: float = 0.5, rising: Mapping[str, Collection[str]] = {}, **after: Optional[float]) -> None:
        """Sets drones at places (metres) by their URIs, each with its faults and their numbers; those of `rising` count
        from its take-off. `after` are by a name of TROUBLES the seconds after the first start when it comes."""
        self.after, self.watching, self.leap = after, False, leap
        self.nearest: Optional[Tuple[float, int, int]] = None
        self.stray, self.late, self.loss, self.rate, self.unplugged = stray, late, loss, rate, unplugged
        self.chance, self.lock = random.Random(seed), threading.Lock()
        self.free: Dict[str, float] = {}
        following = dict(zip(homes, [*list(homes)[1:], *list(homes)[:1]]))
        places = dict(homes)
        for uri in homes:
            if "trades" in faults.get(uri, {}):
                places[uri], places[following[uri]] = places[following[uri]], places[uri]
            if "double" in faults.get(uri, {}):
                places[uri] = places[following[uri]]
        self.drones = {uri: Drone(self, uri, place, dict(faults.get(uri, {})), rising.get(uri, ()))
                       for uri, place in places.items()}
        for uri, drone in self.drones.items():
            if "swapped" in faults.get(uri, {}):
                drone.next, self.drones[following[uri]].next = self.drones[following[uri]], drone
                drone.next.faults["swapped"], drone.next.after_rise = drone.faults["swapped"], drone.after_rise
            if "twin" in drone.faults:
                x, y, z = drone.place
                drone.twin = Drone(self, uri, [x, y + 0.5, z], {})
        # The first and the last start are `late` apart, the others lie evenly between them.
        shares = [k / max(1, len(homes) - 1) for k in range(len(homes))]
        self.chance.shuffle(shares)
        for drone, share in zip(self.drones.values(), shares):
            drone.late_share = share

    def add_stranger(self, uri: str, home: Sequence[float], trajectory: int, data: bytes, pieces: int,
                     name: str = "") -> None:
        """A drone on the channel that isn't in the flight, and was in one before: armed, in all groups, and with a
        trajectory in its memory, or with none where that has no pieces. It has a name where it was left out."""
        drone = Drone(self, uri, home, {})
        before = sum(it.called.startswith("stranger ") for it in self.drones.values())
        drone.called = name or "stranger %d" % (before + 1)
        drone.armed, drone.parameters[0], drone.group = True, 1, 0xFF
        drone.memories[2][1][:len(data)] = data
        drone.table[trajectory] = (1, 1, 0, pieces) if pieces else None
        self.drones[uri] = drone

    def ails(self, dongle: object, *troubles: str) -> bool:
        """Whether one of these troubles has come over a dongle, and isn't over."""
        return str(dongle) == "0" and any(self.since(it) is not None for it in troubles)

    def since(self, trouble: str) -> Optional[float]:
        """For how many seconds a trouble goes on; None where it doesn't."""
        if (after := self.after.get(trouble)) is None:
            return None
        if not (starts := [it.starts[0] for it in self.drones.values() if it.starts]):
            return None
        seconds = clock.now() - min(starts) - after
        return seconds if 0 <= seconds < TROUBLES[trouble] else None

    def watch(self) -> None:
        """Notes how near two drones of which one flies come to each other, looking all the while."""
        self.watching = True
        clock.Task(self.look)

    def look(self) -> None:
        """Looks, every twenty-five milliseconds."""
        while self.watching:
            clock.wait(0.025)
            rows = [(drone.is_at(), drone) for drone in list(self.drones.values())]
            for k, (at, drone) in enumerate(rows):
                for n, (other, second) in enumerate(rows[:k]):
                    if max(at[2] - drone.floor, other[2] - second.floor) > 0.15:
                        far = math.dist(at, other)
                        if self.nearest is None or far < self.nearest[0]:
                            self.nearest = far, n, k

    def lines(self, names: Sequence[str]) -> Iterator[str]:
        """Where the drones are, whether they are armed, how often they began a trajectory, and how long after the
        first one: lines for people."""
        first = min([drone.starts[0] for drone in self.drones.values() if drone.starts] or [0.0])
        names = [*names, *(drone.called for drone in self.drones.values() if drone.called)]
        for name, drone in zip(names, self.drones.values()):
            after = " after %.0f ms" % (1000 * (drone.starts[0] - first)) if drone.starts else ""
            x, y, z = drone.is_at()
            yield "simulated: %s at (%.2f, %.2f, %.2f) m, %s, %d start%s%s" % (
                name, x, y, z, "cut" if drone.cut else "armed" if drone.armed else "disarmed",
                len(drone.starts), "" if len(drone.starts) == 1 else "s", after)
            if drone.hits:
                yield "simulated: %s hit what it stands on at %.1f m/s" % (name, drone.hits)
        self.watching = False
        if self.nearest:
            yield "simulated: nearest two of which one flew: %s and %s, %.2f m" % (
                names[self.nearest[1]], names[self.nearest[2]], self.nearest[0])

    def take_turn(self, dongle: str, is_there: bool = True) -> Tuple[bool, bool]:
        """Waits for a dongle's next transfer; whether it is lost, and its answer. Where nobody is there, both are."""
        with self.lock:
            at = max(clock.now(), self.free.get(dongle, 0.0))
            self.free[dongle] = at + 1 / self.rate
            loss = self.loss if self.since("noise") is None else NOISE
            lost, lost_back = (self.chance.random() < loss, self.chance.random() < loss) if is_there else (True, True)
        clock.wait(at + 1 / self.rate - clock.now())
        return lost, lost_back

    def transfer(self, uri: str, raw: bytes) -> Tuple[bool, bytes]:
        """A packet to a drone: whether it was acknowledged, and what came back."""
        drone = self.drones.get(uri)
        lost, lost_back = self.take_turn(uri.split("/")[2], drone is not None)
        if lost or drone is None or drone.is_gone() or self.ails(uri.split("/")[2], "dies", "usb"):
            return False, b""
        if drone.is_due("numb"):
            return (False, b"") if lost_back else (True, NOTHING)
        came = [it.poll(raw) for it in (drone, drone.twin) if it]
        return (False, b"") if lost_back else (True, self.chance.choice(came) if drone.twin else came[0])

    def broadcast(self, dongle: object, channel: object, raw: bytes) -> None:
        """A packet to all drones of a channel, each of which may miss it. Nobody acknowledges it, so the dongle
        repeats it three times at once: that is from memory, too. All hear it at one instant."""
        self.take_turn(str(dongle))
        now = clock.now()
        for uri, drone in self.drones.items():
            if uri.split("/")[2:4] == [str(dongle), str(channel)] and "deaf" not in drone.faults:
                is_deaf = drone.is_gone() or "deafens" in drone.faults and drone.flies
                is_deaf = is_deaf or self.ails(dongle, "dies", "usb") or drone.is_due("numb")
                if not is_deaf and self.chance.random() >= self.loss ** 4:
                    with drone.lock:
                        drone.heard_at = now
                        drone.take(raw)
                        drone.heard_at = None


WORLD = World()
