"""Flies a show: looks the drones over, plans the ways up and down, uploads, and carries what the proved flight director
orders, from the floor to the floor. From the first fault on it brings all home by itself.

    ./show fly --radio DRONES [OPTIONS] SHOW      real drones: DRONES has a line `NAME URI` for each
    ./show fly --simulate [OPTIONS] SHOW          the same steps with simulated drones that fly what they were sent

NEVER TRIED WITH REAL DRONES, A RADIO OR BITCRAZE'S LIBRARY: packets, tables and answers are from memory of its
firmware, and were tried with simulated drones that are from the same memory. TRY FIRST one drone without propellers,
stage by stage with --only; then one drone with them; then two that are far apart. Nothing here is proved. What is
uploaded is, by the program's own `upload --readback`; and so is who decides a flight that goes right, the program's own
`direct`: when all arm, rise, start, come down and are disarmed. It believes what this tool tells it of drones.

Three times it asks, and anything but `yes` ends the flight: before the upload, before take-off and before the start.

Ctrl-C in flight lands all drones at once, straight down, through whatever is below; on the ways up and down only where
that is judged. A second one stops all motors, and the drones fall. At a fault all land at the next instant at which
`check` has shown that they keep apart, and fly their curves on until then. A drone that is silent flies its curve on,
and so does everybody, to the end of the show, unless --on-silence land is given. Have somebody at hand who can cut the
power, too: where this program or its radio dies in flight, drones fly their trajectories to the end and stay there.

Status 0: flown, and all are down and obeyed to disarm, they say. 1: not flown, or landed early. 2: wrong words. 3 to 5:
the show is refused. 60: motors were stopped. 70: no answer.
"""
import argparse
import signal
from typing import Dict, List, Sequence, Tuple

from hemtoghai import outputs, program
from hemtoghai.companion import ask_check, flown_of, missing, parser, stop
from hemtoghai.flying import clock, crazyradio, finite, firmware, legs
from hemtoghai.flying.crazyradio import Trouble
from hemtoghai.flying.bridge import Bridge
from hemtoghai.flying.crew import Cut, Interrupted, say, TELLER, Watch
from hemtoghai.flying.descent import Descent, EARLY, LANDING
from hemtoghai.flying.fleet import Fleet, Log
from hemtoghai.flying.own_clock import OwnClock
from hemtoghai.flying.preflight import look_for_others, preflight
from hemtoghai.flying.script import Script
from hemtoghai.flying.simulation import set_simulation, settings_of, simulated
from hemtoghai.flying.stages import Place
from hemtoghai.flying.uploads import ENDS, Traffic, uploaded, wanted_packets
from hemtoghai.flying.ways import Ways
from hemtoghai.language.choreo import Flown
from hemtoghai.writing import flyable

NO_STRAY, NO_LATE = 250, 100  # of a show without these lines
EVERY = 100  # milliseconds between samples, for --only land
# Options with numbers: their defaults, least and greatest values, whether they are whole, units, and what they are.
NUMBERS = [
    ("every", 100, 20, 1000, True, "MS", "milliseconds between samples"),
    ("battery", 3.8, 0.1, 30, False, "V", "volts to take off with"),
    ("empty", 3.2, 0.1, 30, False, "V", "volts below which, for --sag seconds, all land"),
    ("sag", 1.5, 0.1, 60, False, "S", "seconds for which a battery has to be empty"),
    ("near", 150, 1, 1000, False, "MM", "how far aside of its pad a drone may stand"),
    ("turned", 15.0, 0.1, 180, False, "DEG", "how far off the yaw of its first place a drone may look"),
    ("variance", 0.001, 1e-9, 1, False, "M2", "greatest variance of a settled estimator"),
    ("unsure", finite.UNSURE, 1e-9, 100, False, "M2", "variance in flight above which a drone isn't sure of its place"),
    ("wander", 30, 1, 500, False, "MM", "how far the last places of a settled estimator may be apart"),
    ("at-start", 80, 1, 1000, False, "MM", "how far off a drone may be at the start"),
    ("stray", None, 1, 10000, False, "MM", "farther from its curve all land; the show's, or %d" % NO_STRAY),
    ("late", None, 1, 10000, False, "MS", "farther apart may starts not go out; the show's, or %d" % NO_LATE),
    ("silence", 1.5, 0.2, 60, False, "S", "seconds without a sample, then a drone is silent"),
    ("jump", flyable.MOST["jump"] / 1000, 0.001, 1000, False, "M/S",
     "greatest jump of speed in the show on an axis: no drone flies one"),
    ("accel", flyable.MOST["accel"] / 1000, 0.001, 100000, False, "M/S2", "greatest acceleration in the show on an axis"),
    ("patience", 30, 0, 3600, False, "S", "seconds that a take-off waits for landings that one drone may not hear of"),
    ("sink", 5, 2, 60, False, "S", "seconds of a landing with --only land, which knows no heights"),
    ("copies", 1, 1, 10, True, "N", "of the broadcast that starts; a drone begins anew at each that it hears"),
]


# ---- words

def add_simulation(reader: argparse.ArgumentParser) -> None:
    """The options that say which drones fly, and what befalls simulated ones."""
    reader.add_argument("--radio", metavar="DRONES", help="a text with a line `NAME URI` for each drone")
    reader.add_argument("--simulate", action="store_true", help="fly simulated drones")
    reader.add_argument("--sim", action="append", default=[], metavar="KEY=N",
                        help="of simulated drones: stray (mm), late (ms), loss (percent), rate (packets/s), seed, speed "
                        "(times real time, at most), dongles, strangers, blanks (drones on the channel that "
                        "aren't in the show, with a trajectory and without), leap (m); blocks, dies, usb and noise "
                        "(s): what comes over dongle 0 so long after the start")
    reader.add_argument("--fault", action="append", default=[], metavar="NAME:KIND[:S[:up]]",
                        help="a fault of a simulated drone, so many seconds after its start, or after its take-off")
    reader.add_argument("--script", metavar="FILE", help="what the crew of a simulated flight does, and when: a text "
                        "with lines `SECONDS WHAT WORDS`, as in `2 press:INT started`")


def options_of(words: list[str]) -> argparse.Namespace:
    reader = parser(__doc__)
    add_simulation(reader)
    reader.add_argument("--pads", metavar="PADS", help="a text with a line `NAME X Y Z` in micrometres: where drones "
                        "stand; without it below their first places, at height 0")
    reader.add_argument("--ceiling", type=finite.option(1, 100000, True), metavar="MM",
                        help="nobody is lifted higher than this on the ways")
    reader.add_argument("--only", choices=("look", "upload", "land", "stop"),
                        help="end after the preflight, or after the upload; or land all that are heard, or stop their "
                        "motors: for these two the show isn't read, but for simulated drones")
    reader.add_argument("--on-silence", choices=("continue", "land"), default="continue",
                        help="where a drone is silent in the show: fly on to its end, or land the others")
    reader.add_argument("--no-home", dest="home", action="store_false", help="upload the show alone: without the way "
                        "down behind it drones hover at its end where the radio or this machine dies")
    reader.add_argument("--low", action="store_true", help="let a show below z 0 through")
    reader.add_argument("--strangers", action="store_true", help="fly although drones are on that aren't in the show: "
                        "they hear landings and stops")
    reader.add_argument("--yes", action="store_true", help="don't ask before upload, take-off and start")
    reader.add_argument("--log", metavar="FILE", help="write places to this CSV file, for ./show flown")
    outputs.add_force(reader)
    for name, default, least, most, is_whole, metavar, text in NUMBERS:
        reader.add_argument("--" + name, type=finite.option(least, most, is_whole), default=default, metavar=metavar,
                            help=text if default is None else "%s; %s" % (text, default))
    reader.add_argument("--unicast", action="store_true", help="start drones one after the other, without a broadcast")
    reader.add_argument("show", metavar="SHOW", help="a file with a show")
    options = reader.parse_args(words)
    if bool(options.radio) == options.simulate:
        reader.error("one of --radio and --simulate is wanted")
    if not options.simulate and (options.sim or options.fault or options.script):
        reader.error("--sim, --fault and --script are of simulated drones")
    return options


# ---- before the link is opened

def judged_show(options: argparse.Namespace) -> Tuple[bytes, Flown]:
    """The show's text and what it flies, where the program accepts it and drones can fly it."""
    text, flown = flown_of(options.show)
    answer = ask_check(text)
    if answer is None:
        stop(missing())
    if answer[0]:
        print(answer[1])
        raise SystemExit(answer[0])
    say("check: %s" % answer[1])
    refuse_what_none_flies(text, flown, options)
    say_promises(flown, options)
    return text, flown


def refuse_what_none_flies(text: bytes, flown: Flown, options: argparse.Namespace) -> None:
    """Raises what `./show check` warns of, where no option lets it through."""
    most = {"accel": round(1000 * options.accel), "jump": round(1000 * options.jump)}
    try:
        motion = flyable.motion(program.PROGRAM, flown, text, most)
    except flyable.NoAnswer as why:
        raise Trouble("not flown: nobody knows whether a drone can fly it: %s" % why) from None
    if motion:
        raise Trouble("not flown: %s, and no drone does: %s summary %s says where; --%s lets it through" % (
            motion, program.COMMAND, options.show, "jump" if "jumps" in motion else "accel"))
    low = None if options.low else flyable.below(flown)
    if low:
        raise Trouble("not flown: %s; --low lets it through" % low)
    small = flyable.small(flown)
    if small:
        raise Trouble("not flown: %s" % small)


def say_promises(flown: Flown, options: argparse.Namespace) -> None:
    """Sets `stray` and `late` to the show's where they aren't given, and says where nothing is promised."""
    (stray,), (late,) = flown.show.settings["stray"], flown.show.settings["late"]
    options.stray, options.late = options.stray or stray or NO_STRAY, options.late or late or NO_LATE
    if not stray:
        say("NOTHING IS PROMISED of drones that stray: the show has no line `stray`; farther off than %g mm all land"
            % options.stray)
    elif options.stray > stray:
        say("the promise is for %d mm of stray: from there to %g mm it is void, and all fly on" % (
            stray, options.stray))
    if not late:
        say("NOTHING IS PROMISED of drones that are late: the show has no line `late`; starts may go out within %g ms"
            % options.late)


# ---- with drones that answer

def upload(radio: crazyradio.Radio, flown: Flown, text: bytes) -> None:
    """Uploads by the proved program, with read-back and without starts."""
    begin, memory = clock.now(), flown.show.settings["memory"][0]
    traffic = Traffic(flown.names, wanted_packets(flown, False, True))
    done, ended = uploaded([program.PROGRAM, "upload", "--readback"], text, lambda heard: crazyradio.Link(
        flown.names, heard, radio, memory, stays_open=True), traffic, None, say)
    if (done.status, ended) != (0, 0):
        words = [ENDS.get(done.status or 0, "") if done.status else done.rest.decode(errors="replace")[:60], done.fault,
                 *traffic.end_lines(done.status)]
        raise Trouble("not flown: upload: status %s, %s" % (done.status, ": ".join(word for word in words if word)))
    say("uploaded and read back: each drone has its trajectory (%.1f s)" % (clock.now() - begin))


def fly(radio: crazyradio.Radio, flown: Flown, text: bytes, pads: Sequence[Place], hall: Dict[str, str],
        options: argparse.Namespace, log: Log, watch: Watch) -> int:
    """All steps with drones that answer; the status."""
    fleet, ways, bridge, status = Fleet(radio, log), None, None, EARLY
    try:
        ways = Ways(flown, text, preflight(fleet, flown, pads, hall, options), options)
        ways.add_home()
        ways.tell()
        if options.only is None:
            ways.prepare()
        if options.only != "look":
            watch.confirm("Upload?")
            upload(radio, ways.uploaded, ways.text)
        if options.only:
            status = 0
            return status
        bridge = Bridge(fleet, ways, watch)
        ways.wait(watch.look)
        look_for_others(fleet, hall, options)  # who was switched on meanwhile
        watch.confirm("Take off?")
        status = bridge.run()
        return status
    finally:
        watch.over = True  # what is left is to close all
        if bridge:
            bridge.director.kill()
        if ways:
            ways.over = True
        fleet.tell(range(len(fleet.names)), firmware.LOGS, 1, firmware.RESET_LOGS)
        log.close(status == 0)
        if options.log and log.fault is None:
            say("places are in %s: %s flown %s %s judges them" % (
                options.log, program.COMMAND, options.show, options.log))


def only(radio: crazyradio.Radio, floors: Dict[str, Place], options: argparse.Namespace, watch: Watch) -> int:
    """Lands all drones and stays until they are down, or stops their motors; the status. Some may not be heard."""
    fleet = Fleet(radio, Log(None, say))
    heights = [floors[name][2] / 1000 if name in floors else 0.0 for name in radio.names]
    descent = Descent(fleet, heights, options.silence, watch)
    heard, mute = ([k for k in descent.all if (radio.last[k] is None) == is_mute] for is_mute in (False, True))
    say("heard: %s%s" % (descent.words_of(heard) or "NONE", "; not heard: " + descent.words_of(mute) if mute else ""))
    try:
        if options.only == "stop":
            watch.confirm("Stop all motors? Drones in the air fall.", lambda: None)
            return descent.cut()
        watch.flies = watch.lands = True
        _, quiet, refused = fleet.land(descent.floors, descent.all, options.sink, watch.look)
        say("told to land, in %g s%s%s" % (options.sink, "; NO ANSWER: " + descent.words_of(quiet) if quiet else "",
                                           "; REFUSED: " + ", ".join(refused.values()) if refused else ""))
        for why in radio.failures(heard, lambda k: fleet.begin_logs(k, EVERY)).values():
            say(str(why))
        descent.wait_down(heard, options.sink)
        return 0 if descent.land(LANDING) else EARLY
    except Cut:
        return descent.cut()


# ---- all of it

def opened(names: Sequence[str], uris: Sequence[str], all_wanted: bool) -> crazyradio.Radio:
    """The radio; ends the tool where it can't be opened."""
    try:
        return crazyradio.Radio(names, uris, all_wanted)
    except (ImportError, ValueError, OSError) as error:
        return stop("no radio: %s" % error)


def emergency(options: argparse.Namespace, watch: Watch, radios: List[crazyradio.Radio]) -> int:
    """Lands drones or stops their motors: those of a text of addresses, whatever the show is; the status. The radio
    that was opened is added to a list, to be closed."""
    floors = legs.pads_by_name(options.pads) if options.pads else {}
    if options.simulate:
        flown = flown_of(options.show)[1]
        pads = legs.pads_of(options.pads, flown)
        hall, floors = set_simulation(flown, pads, options), dict(zip(flown.names, pads))
        uris = {name: hall[name] for name in flown.names}
    else:
        uris = crazyradio.everybody(options.radio)
    radios.append(opened(list(uris), list(uris.values()), False))
    return only(radios[0], floors, options, watch)


def show(options: argparse.Namespace, watch: Watch, radios: List[crazyradio.Radio]) -> int:
    """Flies the show. The status; the radio that was opened is added to a list, to be closed."""
    text, flown = judged_show(options)
    pads = legs.pads_of(options.pads, flown)
    Ways(flown, text, pads, options)  # refused before the link is opened, as a log is that can't be written
    log = Log(options.log, say)
    hall = set_simulation(flown, pads, options) if options.simulate else crazyradio.everybody(options.radio)
    uris = finite.in_order(hall, flown.names, options.radio, "address")
    radios.append(opened(flown.names, uris, True))
    return fly(radios[0], flown, text, pads, hall, options, log, watch)


def main(words: list[str]) -> int:
    options = options_of(words)
    outputs.refuse(filter(None, [options.log]), options.force,
                   filter(None, [options.show, options.pads, options.radio, options.script]))
    if options.simulate:
        clock.use(OwnClock(settings_of(options.sim)["speed"] or 0.0))
    watch, script = Watch(options.yes), None
    radios: List[crazyradio.Radio] = []
    signal.signal(signal.SIGPIPE, signal.SIG_IGN)
    try:
        own = clock.used()
        script = Script(options.script, watch, own) if options.script and isinstance(own, OwnClock) else None
        return (emergency if options.only in ("land", "stop") else show)(options, watch, radios)
    except Trouble as trouble:
        say(str(trouble))
        return EARLY
    except Interrupted:
        say("Ctrl-C: not flown")
        return EARLY
    except (OSError, ValueError) as error:  # a file of words that isn't there, or isn't one
        return stop(str(error))
    finally:
        watch.over = True
        for radio in radios:
            radio.close()
            for line in simulated(radio.names) if options.simulate else ():
                say(line)
        for line in script.lines() if script else ():
            say(line)
        TELLER.finish()
