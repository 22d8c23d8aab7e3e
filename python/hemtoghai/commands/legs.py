"""Plans the way up from the pads to a show's first places and the way down, has both judged, and says when all may
land.

    ./show legs [OPTIONS] SHOW [PADS]

PADS is a text with a line `NAME X Y Z` for each drone, the place of its pad in micrometres. Without it each drone
stands straight below its first place, at height 0. The way up and the way down are written as shows, up.choreo and
down.choreo, made of commands that the firmware flies from rest to rest, as the act `move`. `check` judges them, with
the show's ellipsoid, with 30 mm more of `stray` and a `late` of at least 300 ms: commands go out drone by drone. A way
that `check` refuses as a whole is judged stage by stage: then each stage begins when the one before has ended, and
`fly` flies it so. Two drones that both stand on their pads aren't judged with each other there: their pads have to be
150 mm apart.

The last lines list the instants of the show at which all may land straight down, by `check` as well. It is asked about
the places to which a drone drifts if it brakes at 5 m/s^2, 0.1 s after it should, from half of `late` earlier to half
of it later.

Status 0: both legs are accepted. 2: wrong words. 3 to 5: the show is refused. 16: there is no way up or down. 70: no
answer. NO DRONE EVER FLEW A LEG: take-off, go-to and landing are from memory of the firmware.
"""
import os

from hemtoghai import outputs
from hemtoghai.companion import ask_check, flown_of, many, missing, parser, stop
from hemtoghai.flying import legs
from hemtoghai.flying.landings import Landings
from hemtoghai.flying.stages import Leg
from hemtoghai.program import COMMAND
from hemtoghai.streams import shown

NO_WAY = 16


def summed_up(leg: Leg, path: str, name: str, show: str, top: int) -> bytes:
    """A leg as a show, whose summary is printed; the show's own curves stay below `top`."""
    words = "judged as a whole" if leg.whole else "judged stage by stage: the next begins when the one before has ended"
    print(f"way {name}: {many(len(leg.stages), 'stage')}, {leg.milliseconds() / 1000:.1f} s; {words}; {shown(path)}")
    if leg.why_below:
        print("  below the last places, since there is no way to the pads: %s" % leg.why_below)
    for line in leg.lines(top):
        print(line)
    return leg.text([f"# The way {name} of {os.path.basename(show)}, by {COMMAND} legs; {words}."])


def main(words: list[str]) -> int:
    reader = parser(__doc__)
    reader.add_argument("--out", metavar="FOLDER", default=".", help="the folder of the two shows; without it this one")
    reader.add_argument("--below", action="store_true", help="land below the last places, and not on the pads")
    reader.add_argument("--ceiling", type=int, metavar="MM",
                        help="the greatest height to which a drone is lifted on the ways")
    reader.add_argument("--dry", action="store_true", help="write no files")
    outputs.add_force(reader)
    reader.add_argument("show", metavar="SHOW", help="a file with a show, or - for standard input")
    reader.add_argument("pads", metavar="PADS", nargs="?", help="a text with a line `NAME X Y Z` for each drone")
    options = reader.parse_args(words)
    paths = {name: os.devnull if options.dry else os.path.join(options.out, name + ".choreo")
             for name in ("up", "down")}
    outputs.refuse(paths.values(), options.force, filter(None, [options.show, options.pads]))
    text, flown = flown_of(options.show)
    answer = ask_check(text)
    if answer is None:
        stop(missing())
    print("check: %s" % answer[1])
    if answer[0]:
        return answer[0]
    try:
        pads = legs.pads_of(options.pads, flown)
    except (OSError, ValueError) as error:
        stop(str(error))
    rules = legs.Rules(flown.show.settings, ceiling=options.ceiling)
    print("judged with: %s" % rules.words())
    status, files = 0, {}
    for name, path in paths.items():
        try:
            leg = legs.way_of(name, flown, pads, rules, options.below)
            files[path] = summed_up(leg, path, name, options.show, legs.top_of(flown))
        except legs.NoWay as why:
            print("no way %s: %s" % (name, why))
            status = NO_WAY
    outputs.write_all(files, options.force)
    print("landing of all from the show:")
    for line in Landings(flown, [pad[2] for pad in pads], rules).lines():
        print("  " + line)
    return status
