"""Who else is on: drones that aren't in the show, and hear the flight's broadcasts. For ./show fly.

An address is asked by a packet that does nothing, which a drone that is on acknowledges. Asked are the drones that the
text of addresses has and the show hasn't, and, on each channel and rate of the flight, all addresses that differ from
a drone's of the flight in the last byte alone. What isn't found: a drone with another address, one on another channel
or rate, which hears no broadcast of this flight either, and one that is switched on later. UNTESTED with the library
or a radio: how a dongle is shared, and what it gives back, is from memory (70 %).
"""
from functools import partial
from typing import Dict, Iterable, List, Mapping, Sequence, Tuple

from hemtoghai.flying import clock
from hemtoghai.flying.crazyradio import RATES

NOTHING = 0xFF,  # a packet that does nothing
ROUNDS = 3  # how often one is asked that doesn't acknowledge: packets are lost
LONGEST = 20.0  # seconds in which a dongle has asked all
BYTES = 256  # the last bytes of an address


def parts_of(uri: str) -> List[str]:
    """The dongle, channel, rate and address of radio://DONGLE/CHANNEL/RATE/ADDRESS."""
    return uri.split("/")[2:]


def to_ask(uris: Iterable[str], hall: Mapping[str, str]) -> Dict[str, str]:
    """Whom to ask, by URI, and in which words to name it: the drones of the hall by their names, and those beside the
    flight's addresses by theirs."""
    flight = list(uris)
    own = {tuple(parts_of(uri)[1:]) for uri in flight}
    out = {uri: name for name, uri in hall.items() if tuple(parts_of(uri)[1:]) not in own}
    known = own | {tuple(parts_of(uri)[1:]) for uri in out}
    for front in sorted({uri[:-2] for uri in flight}):  # by each dongle those beside its own drones
        for last in range(BYTES):
            uri = f"{front}{last:02X}"
            _, channel, rate, address = parts_of(uri)
            if (channel, rate, address) not in known:
                out[uri] = f"a drone of address {address} on channel {channel}, which has no name here,"
    return out


def ask_by(number: str, uris: Sequence[str], heard: List[str]) -> None:
    """Asks by a dongle, and adds those who acknowledge to a list."""
    from cflib.crtp.radiodriver import RadioManager
    shared = RadioManager.open(int(number))
    try:
        waiting = list(uris)
        for _ in range(ROUNDS):
            for uri in waiting:
                _, channel, rate, address = parts_of(uri)
                shared.set_channel(int(channel))
                shared.set_data_rate(RATES[rate])
                shared.set_address(tuple(bytes.fromhex(address)))
                if shared.send_packet(NOTHING).ack:
                    heard.append(uri)
            waiting = [uri for uri in waiting if uri not in heard]
    finally:
        shared.close()


def heard(uris: Iterable[str]) -> Tuple[List[str], List[str]]:
    """Which of these acknowledge, and by which dongles nobody can be asked, with the reason."""
    by_dongle: Dict[str, List[str]] = {}
    for uri in uris:
        by_dongle.setdefault(parts_of(uri)[0], []).append(uri)
    found: List[str] = []
    failed: Dict[str, str] = {}

    def run(number: str) -> None:
        try:
            ask_by(number, by_dongle[number], found)
        except Exception as error:  # of the library
            failed[number] = repr(error)
    tasks = {number: clock.Task(partial(run, number)) for number in by_dongle}
    until = clock.now() + LONGEST
    for number, task in tasks.items():
        task.join(max(0.0, until - clock.now()))
        if task.is_alive():
            failed[number] = f"not done in {LONGEST:g} s"
    return sorted(set(found)), [f"dongle {number}: {why}" for number, why in sorted(failed.items())]


def others(uris: Iterable[str], hall: Mapping[str, str]) -> Tuple[List[str], List[str]]:
    """Who is on besides the drones of the flight, in words, and why that isn't known to the end."""
    asked = to_ask(uris, hall)
    found, why = heard(asked)
    return [f"{name} is on, and isn't in the show: switch it off, it hears what all are told"
            for name in dict.fromkeys(asked[uri] for uri in found)], why
