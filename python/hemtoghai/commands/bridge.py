"""Uploads a show: carries packets between the program's `upload` and a link.

    ./show bridge [OPTIONS] SHOW

The link is a simulated one, with simulated drones that keep 4,096 bytes each; --loss and the other rates spoil it. At
the end `bridge` reports how the upload ended and the content of each drone's memory. --radio DRONES is for real drones,
over Bitcraze's library, by flying/crazyradio.py. THAT WAS NEVER TRIED with the library, a radio or a drone: try one
drone first, without propellers. --link FILE takes the class `Link` of a Python file. Nothing in `bridge` is proved. The
packets of the program and their order are proved, and so are the memories that they leave in drones as docs/RADIO.md
models them.

Once a second a line on standard error says how many packets each drone has acknowledged. If the upload isn't done, a
line names the drone, the packet and the address. The status is that of the upload, as docs/RADIO.md says: 0 done; 3 to
5 the show is refused; 6 a read failed; 8 stopped before its end, by Ctrl-C or since a drone went silent; 9 given up; 10
refused by a drone; 11 a faulty frame; 13 too many frames; 14 a memory holds something else. 70: no answer.
"""
import contextlib
import importlib.util
import os
import sys
from argparse import ArgumentTypeError, Namespace
from collections.abc import Callable, Iterator, Sequence

from hemtoghai import outputs, program
from hemtoghai.companion import add_depth, decoded, flown_of, many, no_program, parser, stop
from hemtoghai.flying import clock, finite, links
from hemtoghai.flying.own_clock import OwnClock
from hemtoghai.flying.uploads import Carrying, ENDS, Traffic, uploaded, wanted_packets
from hemtoghai.language.choreo import Flown
from hemtoghai.streams import shown


# ---- what drones hold

def memory_lines(drone: links.Drone, name: str, flown: Flown, data: bytes) -> Iterator[str]:
    """What a drone's memory holds: lines for people."""
    offset, (number,) = flown.show.settings["memory"][1], flown.show.settings["trajectory"]
    same = bytes(drone.memory[offset:offset + len(data)]) == data
    yield "%s: %d bytes from %d on %s; %s" % (
        name, len(data), offset, "as the show has them" if same else "are NOT the show's",
        "not started" if drone.started is None else "trajectory %d started" % drone.started)
    for k, entry in enumerate(drone.table):
        if entry is not None:
            yield "  trajectory %d at %d with %s: %s" % (k, entry[0], many(entry[1], "piece"), flight(drone, entry))
    if drone.table[number] is None:
        yield "  trajectory %d is not defined" % number


def flight(drone: links.Drone, entry: tuple[int, int]) -> str:
    """The time and the ends of what a memory decodes to under an entry, or that it decodes to nothing."""
    offset, pieces = entry
    found = decoded(bytes(drone.memory[offset:end_of(drone.memory, offset, pieces)]), pieces)
    if not found:
        return "the bytes there are no trajectory"
    ends = [found[0]] + [[row[-1] for row in segment[1]] for segment in found[1][-1:]]
    first, last = ("(%d, %d, %d)" % (x, y, z) for x, y, z, _ in (ends[0], ends[-1]))
    return "%.3f s, from %s to %s mm" % (sum(segment[0] for segment in found[1]) / 1000, first, last)


def end_of(memory: bytearray, offset: int, pieces: int) -> int:
    """Where the bytes of a trajectory end: its start, so many segments by their headers, three bytes more."""
    at = offset + 8
    for _ in range(pieces):
        if at >= len(memory):
            break
        at += 3 + 2 * sum((0, 1, 3, 7)[memory[at] >> 2 * axis & 3] for axis in range(4))
    return min(len(memory), at + 3)


def write_memories(folder: str, names: Sequence[str], drones: Sequence[links.Drone], force: bool) -> None:
    """Writes each drone's memory to FOLDER/NAME.memory, over files that came meanwhile only by force."""
    outputs.write_below(folder, {name + ".memory": bytes(drone.memory) for name, drone in zip(names, drones)}, force)


# ---- words

def number(is_good: Callable[[float], bool], words: str) -> Callable[[str], float]:
    """A reader of numbers that are good; any other word is refused with these words."""
    def read(word: str) -> float:
        with contextlib.suppress(ValueError):
            if is_good(float(word)):
                return float(word)
        raise ArgumentTypeError(words % word)
    return read


share = number(lambda v: 0 <= v <= 100, "a share is 0 to 100 percent, not %s")
positive = number(lambda v: 0 < v <= 1000000, "a number above 0 and up to 1000000 is wanted, not %s")


def options_of(words: list[str]) -> Namespace:
    reader = parser(__doc__)
    add_depth(reader)
    reader.add_argument("--start", action="store_true", help="start the drones once all have all their bytes")
    reader.add_argument("--readback", action="store_true",
                        help="read memories back before any start; the default with --radio and --link")
    reader.add_argument("--no-readback", action="store_true", help="with --radio or --link: read no memory back")
    reader.add_argument("--loss", type=share, default=0.0, metavar="P", help="percent of packets lost, each way")
    reader.add_argument("--again", type=share, default=0.0, metavar="P", help="percent of packets repeated by the link")
    reader.add_argument("--late", type=share, default=0.0, metavar="P",
                        help="percent of packets that take up to twenty times --delay longer and are overtaken")
    reader.add_argument("--delay", type=positive, default=2.0, metavar="MS",
                        help="milliseconds that a packet is under way at least; at most twice as many; without it 2")
    reader.add_argument("--rate", type=positive, default=1000.0, metavar="N", help="packets a second; without it 1000")
    reader.add_argument("--seed", type=int, default=1, metavar="N", help="chooses the packets that are spoilt")
    reader.add_argument("--tick", type=positive, metavar="MS",
                        help="milliseconds in which an answer comes; without it the link's own")
    reader.add_argument("--id", type=finite.option(0, 255, True), metavar="ID",
                        help="the id of the drones' memory; without it the show's")
    reader.add_argument("--memory", metavar="FOLDER", help="write each drone's memory to FOLDER/NAME.memory")
    outputs.add_force(reader)
    reader.add_argument("--link", metavar="FILE", help="a Python file whose class Link replaces the simulated link")
    reader.add_argument("--radio", metavar="DRONES", help="real drones: a text with a line `NAME URI` for each")
    reader.add_argument("--repeat-starts", action="store_true",
                        help="with --radio: send starts again until they are answered; a drone begins anew at each")
    reader.add_argument("--program", default=program.PROGRAM, metavar="FILE",
                        help="the program to run; without it that of ./show")
    reader.add_argument("show", metavar="SHOW", help="a file with a show, or - for standard input")
    options = reader.parse_args(words)
    if options.again == 100:
        reader.error("--again has to be below 100: each packet would be repeated for ever")
    if options.link and options.radio:
        reader.error("one of --link and --radio is enough")
    if options.readback and options.no_readback:
        reader.error("--readback and --no-readback: which of them?")
    options.readback = options.readback or bool((options.radio or options.link) and not options.no_readback)
    if (options.link or options.radio) and (options.memory or options.id is not None):
        reader.error("--memory and --id are of the simulated drones, which --link and --radio leave out")
    return options


def link_of(path: str, names: Sequence[str], heard: links.Heard) -> links.Link:
    try:
        spec = importlib.util.spec_from_file_location("link_of_the_bridge", path)
        sys.modules.setdefault("links", links)  # for a release, as a link's file may still have it
        if not spec or not spec.loader:
            raise ImportError("it is no Python file")
        module = importlib.util.module_from_spec(spec)
        spec.loader.exec_module(module)
        link: links.Link = module.Link(names, heard)
        return link
    except Exception as error:
        return stop("%s: no link: %s" % (path, str(error) or type(error).__name__))


def radio_of(options: Namespace, flown: Flown, heard: links.Heard) -> links.Link:
    """The link to real drones; nothing stays open where one of them can't be used."""
    from hemtoghai.flying import crazyradio
    radio = None
    try:
        where = crazyradio.addresses(options.radio, flown.names)
    except ValueError as error:  # which names the file
        return stop(str(error))
    try:
        radio = crazyradio.Radio(flown.names, where)
        return crazyradio.Link(flown.names, heard, radio, flown.show.settings["memory"][0], options.repeat_starts)
    except BaseException as error:
        if radio:
            radio.close()
        if not isinstance(error, Exception):
            raise
        return stop("%s: no link: %s" % (options.radio, str(error) or type(error).__name__))


def print_end(options: Namespace, done: Carrying, ended: int) -> int:
    """Says how the upload ended; the tool's status."""
    status = done.status
    if status is None:
        line = done.rest.decode(errors="replace").strip()
        if ended == 2 or line.startswith("error 2"):
            stop("the program doesn't know `upload%s`: build today's sources" % (
                " --readback" if options.readback else ""))
        stop("the program ended with status %d and without an end frame%s" % (ended, line and ": " + line[:60]))
    print("upload: status %d, %s%s" % (
        status, ENDS.get(status, "see docs/RADIO.md"), ": " + done.fault if done.fault else ""))
    for line in done.traffic.end_lines(status):
        print(line)
    if status in (4, 5):
        print(f"{program.COMMAND} why {shown(options.show)} explains the refusal and lists changes that help")
    if ended != status:
        stop("the program ended with status %d, but its end frame says %d" % (ended, status))
    return status


@contextlib.contextmanager
def no_yes_of_a_link(path: str) -> Iterator[None]:
    """The file of --link may leave the process with 0: no upload was done then, and 0 would say so."""
    try:
        yield
    except SystemExit as left:
        if not left.code:
            stop(f"{path} ended the upload")
        raise


def main(words: list[str]) -> int:
    options = options_of(words)
    text, flown = flown_of(options.show)
    if options.memory:
        outputs.refuse((os.path.join(options.memory, name + ".memory") for name in flown.names), options.force,
                       [options.show, options.link or "", options.radio or ""])
    if not os.path.isfile(options.program):
        stop("%s is not there: ./show check FILE builds the program" % os.path.relpath(options.program))
    fault = no_program() if options.program == program.PROGRAM else None
    if fault:
        stop(fault)
    memory_id = flown.show.settings["memory"][0] if options.id is None else options.id
    drones = [links.Drone(memory_id) for _ in flown.names]
    if not options.radio and not options.link:
        clock.use(OwnClock())
    command = [os.path.abspath(options.program), "upload", "--depth", str(options.depth),
               *["--start"] * options.start, *["--readback"] * options.readback]

    def link(heard: links.Heard) -> links.Link:
        if options.radio:
            return radio_of(options, flown, heard)
        return link_of(options.link, flown.names, heard) if options.link else links.SimulatedLink(
            flown.names, heard, drones, options)
    traffic = Traffic(flown.names, wanted_packets(flown, options.start, options.readback))
    with no_yes_of_a_link(options.link or ""):
        done, ended = uploaded(command, text, link, traffic, options.tick, lambda line: print(line, file=sys.stderr))
    status = print_end(options, done, ended)
    if status in (3, 4, 5):
        return status  # no packet was sent
    for line in done.link.report():
        print(line)
    print("%s, %.2f s from the first packet to the end" % (many(done.pace.ticks, "tick"), done.traffic.seconds()))
    if not (options.link or options.radio):
        for drone, name, data in zip(drones, flown.names, flown.data()):
            for line in memory_lines(drone, name, flown, data):
                print(line)
        if options.memory:
            write_memories(options.memory, flown.names, drones, options.force)
    return status
