"""The look at all drones before a flight: firmware, memory, battery, estimator, supervisor and place. For `fly`."""
import argparse
import math
from typing import Iterator, List, Mapping, Sequence, Tuple

from hemtoghai.flying import clock, firmware, others
from hemtoghai.flying.crazyradio import trajectory_memories, Trouble
from hemtoghai.flying.crew import say
from hemtoghai.flying.fleet import Fleet, HISTORY, State, VARIANCES
from hemtoghai.flying.stages import Place, place_of
from hemtoghai.language import choreo

SETTLES = 10  # seconds in which an estimator that began anew has to be settled
SENDS = 3  # seconds in which each drone has to send a sample
PAD_HEIGHT = 0.1  # metres that a pad may be higher or lower than it is said to be
OLDEST = 4  # the protocol from which on this tool knows it
ONE_PLACE = 0.05  # metres from each other at which no two drones can stand

Looks = Tuple[str, str, List[str]]  # a drone's firmware, its trajectory memories, and what is wrong with it


def looked_over(fleet: Fleet, drone: int, options: argparse.Namespace, memory: int) -> Looks:
    """Looks a drone over that was heard, and sets it up."""
    protocol, = fleet.radio.ask(drone, firmware.PLATFORM, 1, firmware.ASK_PROTOCOL, least=2)[1:2]
    version = firmware.text_of(fleet.radio.ask(drone, firmware.PLATFORM, 1, firmware.ASK_FIRMWARE, 1))
    if protocol < OLDEST:
        return version, "", ["protocol %d is older than this tool knows" % protocol]
    memories = trajectory_memories(fleet.radio.memories(drone))
    words = " ".join(map(str, memories))
    fleet.set(drone, "commander.enHighLevel", 1)
    fleet.begin_logs(drone, options.every, VARIANCES)
    return version, words, [] if memory in memories else [
        "its trajectory memory is %s, and the show's line `memory` names %d" % (words or "missing", memory)]


def wander_of(state: State) -> float:
    """How far a drone's last places are apart, in metres."""
    return max(math.dist(place, state.where()) for place in state.places)


def is_settled(state: State, options: argparse.Namespace) -> bool:
    return bool(state.senseless is None and state.place and state.variances and len(state.places) >= HISTORY
                and max(state.variances) <= options.variance and wander_of(state) <= options.wander / 1000)


def settle(fleet: Fleet, options: argparse.Namespace) -> None:
    """Has the estimators begin anew of drones that say that they don't fly, and waits until all are settled. Nothing is
    done to one that says nothing: it may be in the air."""
    clock.wait_for(lambda: all(state.place for state in fleet.states), SENDS)
    still = [k for k, state in enumerate(fleet.states) if state.place and not state.says(firmware.IS_FLYING)]
    for why in fleet.radio.failures(still, fleet.reset_estimator).values():
        raise why
    for state in fleet.states:
        state.places, state.variances = [], []
    clock.wait_for(lambda: all(is_settled(state, options) for state in fleet.states),
                   SETTLES + HISTORY * options.every / 1000)


def faults_of(state: State, pad: Place, yaw: float, options: argparse.Namespace) -> Iterator[str]:
    """What is wrong with a drone's battery, estimator, supervisor and place, beside its pad in mm."""
    if state.senseless is not None:
        yield "sends a place, a yaw or a voltage that is no number: start it anew"
        return
    if state.place is None or not state.places or not state.variances:
        yield "sends no samples"
        return
    if state.says(firmware.IS_FLYING):
        yield "says that it flies: nothing is uploaded to a drone in the air"
    if state.is_new:
        yield "its clock went back: two drones of its address are on, or it was started anew"
    volts = state.volts or 0.0
    if volts < options.battery:
        yield "%.2f V, and %.2f are wanted" % (volts, options.battery)
    if not is_settled(state, options):
        yield "its estimator isn't settled: variance %.4f, %.0f mm of wander" % (
            max(state.variances), 1000 * wander_of(state))
    if state.denies(firmware.CAN_ARM | firmware.IS_ARMED):
        yield "can't be armed, it says"
    if state.says(firmware.WRECKED):
        yield "has tumbled, or is locked: start it anew"
    aside, high = aside_of(state, pad), state.place[2] - pad[2] / 1000
    if aside > options.near:
        yield "stands %.0f mm aside of its pad, and %.0f are allowed" % (aside, options.near)
    if abs(high) > PAD_HEIGHT:
        yield "is %.0f mm %s than its pad, it estimates: --pads says how high pads are" % (
            1000 * abs(high), "higher" if high > 0 else "lower")
    off = 0.0 if state.yaw is None else (state.yaw - yaw + 180) % 360 - 180
    if abs(off) > options.turned:
        yield "looks %.0f degrees off: turn its nose to yaw %.0f" % (off, yaw)


def aside_of(state: State, pad: Place) -> float:
    """How far a drone stands from its pad, in mm, as seen from above."""
    return math.dist([1000 * v for v in state.where()[:2]], pad[:2])


def misplaced(names: Sequence[str], states: Sequence[State], pads: Sequence[Place]) -> Iterator[str]:
    """Who stands nearer to the pad of another than to its own, and which two say one place."""
    placed = [k for k, state in enumerate(states) if state.place is not None]
    nearest = {k: min(range(len(pads)), key=lambda j: aside_of(states[k], pads[j])) for k in placed}
    for k, j in nearest.items():
        if aside_of(states[k], pads[j]) >= aside_of(states[k], pads[k]):
            continue
        if nearest.get(j) != k:
            yield f"{names[k]} stands on the pad of {names[j]}"
        elif k < j:
            yield (f"{names[k]} and {names[j]} stand on each other's pads: carry them back, or exchange their "
                   "addresses")
    for n, k in enumerate(placed):
        for j in placed[:n]:
            if math.dist(states[j].where(), states[k].where()) < ONE_PLACE:
                yield (f"{names[j]} and {names[k]} say one place: they are one drone under two names or addresses, or "
                       "the positioning takes one for the other")


def say_others(fleet: Fleet, hall: Mapping[str, str], options: argparse.Namespace) -> List[str]:
    """Looks who else is on; what is wrong by that, unless it is let through."""
    found, unknown = others.others(fleet.radio.uris, hall)
    for why in unknown:
        say(f"WHO ELSE IS ON ISN'T KNOWN: {why}")
    if not options.strangers:
        return found
    for words in found:
        say(f"let through: {words}")
    return []


def look_for_others(fleet: Fleet, hall: Mapping[str, str], options: argparse.Namespace) -> None:
    """Raises who else is on, by now."""
    found = say_others(fleet, hall, options)
    if found:
        raise Trouble("not flown:\n  " + "\n  ".join(found))


def preflight(fleet: Fleet, flown: choreo.Flown, pads: Sequence[Place], hall: Mapping[str, str],
              options: argparse.Namespace) -> List[Place]:
    """Looks all drones over and prints what was found; where they stand, in whole mm, or raises what is wrong. `hall`
    has the addresses of drones that the show may lack, by their names."""
    memory = flown.show.settings["memory"][0]
    for number, count in fleet.radio.crowded():
        say("dongle %s has %d drones: 10 to 15 are usual" % (number, count))
    for state in fleet.states:
        state.least_volts, state.most_variance = options.empty, options.unsure
    # One after the other: the first reads the tables, which the others share.
    looks = [looked_over(fleet, drone, options, memory) for drone in range(len(fleet.names))]
    settle(fleet, options)
    for drone in [] if options.unicast else fleet.deaf():
        looks[drone][2].append("doesn't answer a broadcast: another channel, or group? --unicast does without")
    faults = [*say_others(fleet, hall, options), *misplaced(fleet.names, fleet.states, pads)]
    say("%-16s %-16s %6s %7s %9s %9s  %s" % (
        "drone", "firmware", "memory", "volts", "variance", "aside mm", "stands at, m"))
    for name, state, look, pad, start in zip(fleet.names, fleet.states, looks, pads, flown.starts):
        version, memories, wrong = look
        faults += ["%s: %s" % (name, fault) for fault in [*wrong, *faults_of(state, pad, start[3] / 10, options)]]
        if state.place:
            say("%-16s %-16s %6s %7.2f %9.5f %9.0f  (%.2f, %.2f, %.2f)" % (
                name, version[:16], memories, state.volts or 0.0, max(state.variances or [0]), aside_of(state, pad),
                state.place[0], state.place[1], state.place[2]))
    if faults:
        raise Trouble("not flown:\n  " + "\n  ".join(faults))
    return [place_of(1000 * sum(row) / len(row) for row in zip(*state.places)) for state in fleet.states]
