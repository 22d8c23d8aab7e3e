"""./show fly where people err before a flight: a drone that nobody switched on, one that is on and isn't in the show, two
on each other's pads, one drone under two names, and two of one address. Each is named before anybody is armed."""
import re
import tempfile
import unittest

import common
import flights
from hemtoghai.flying import others
from test_fly import WORDS, b, fly
from test_fly_hard import strays, with_pads

TWO = strays()  # a and b, 1.5 m apart
PADS = "a 0 0 0\nb 1500000 0 0\nd 3000000 0 0\n"  # those of a hall of three
LEFT = ["--fault", "d:left"]
SWITCHED_ON_LATE = """
from hemtoghai.flying import others
found, calls = others.others, []
def late(*given):
    calls.append(given)
    return ([], []) if len(calls) == 1 else found(*given)
others.others = late
"""
CANT_ASK = """
from hemtoghai.flying import others
def ask_by(number, uris, heard):
    raise OSError("no such device")
others.ask_by = ask_by
"""
NO_NEIGHBOURS = "from hemtoghai.flying import others; others.BYTES = 0"


def after(more, *words):
    """A flight with TWO after a text in Python; its status and its output."""
    with tempfile.TemporaryDirectory() as place:
        room = common.Folder()
        room.place = place
        room.write("show.choreo", TWO)
        done = flights.flown(*WORDS, "--yes", *words, room.path("show.choreo"), more=more)
        return done.returncode, done.stdout, ""


ON = r" is on, and isn't in the show: switch it off, it hears what all are told\n"
# By a name a flight that is refused, and what it says.
REFUSED = {
    "off": ((fly, b("dead"), TWO), "no answer from b: on, charged, in reach, on its channel\\?\n"),
    "left": ((with_pads, LEFT, PADS, TWO), "not flown:\n  d" + ON),
    "stranger": ((fly, ["--sim", "strangers=1"], TWO),
                 "not flown:\n  a drone of address E7E7E7E780 on channel 80, which has no name here," + ON),
    "blanks": ((fly, ["--sim", "blanks=2"], TWO), "not flown:\n  a drone of address E7E7E7E780 .*" + ON + "  a drone of address E7E7E7E781"),
    "on another dongle": ((fly, ["--sim", "strangers=2", "--sim", "dongles=2", "--late", "300"], TWO),
                          "not flown:\n  a drone of address E7E7E7E780 .*" + ON + "  a drone of address E7E7E7E781"),
    "switched on late": ((after, SWITCHED_ON_LATE, "--sim", "strangers=1"),
                         "uploaded and read back(.*\n)*not flown:\n  a drone of address E7E7E7E780 .*" + ON),
    "trades": ((fly, b("trades"), TWO), "not flown:\n  a and b stand on each other's pads: carry them back, or exchange their addresses\n"
               "  a: stands 1500 mm aside .*\n  b: stands 1500 mm aside"),
    "double": ((fly, ["--fault", "a:double"], TWO), "not flown:\n  a stands on the pad of b\n  a and b say one place: they are one "
               "drone under two names or addresses, or the positioning takes one for the other\n"),
    "twin": ((fly, b("twin"), TWO), "b: its clock went back: two drones of its address are on, or it was started anew\n"),
}
# By a name a flight that is flown, and what it says.
FLOWN = {
    "left, let through": ((with_pads, LEFT + ["--strangers"], PADS, TWO),
                          "let through: d" + ON + r"(.*\n)*simulated: d at \(3.00, 0.00, 0.00\) m, armed, 0 starts\n"),
    "off, and not in the show": ((with_pads, [], PADS, TWO), "landed\n"),
    "let through": ((fly, ["--sim", "strangers=1", "--strangers"], TWO),
                    "let through: a drone of address E7E7E7E780 .*" + ON + r"(.*\n)*simulated: stranger 1 at .*, 0 starts\n"),
    # of an address that nobody asks: it isn't seen, and isn't in the flight's group
    "not seen": ((after, NO_NEIGHBOURS, "--sim", "strangers=1"), r"simulated: stranger 1 at .*, 0 starts\n"),
    "not asked": ((after, CANT_ASK), r"WHO ELSE IS ON ISN'T KNOWN: dongle 0: OSError\('no such device'\)\n"),
}
RUNS = flights.Flights(3, {name: row[0] for name, row in (*REFUSED.items(), *FLOWN.items())})
begun, forget, setUpModule = RUNS.begun, RUNS.forget, RUNS.set_up


@common.wants_program
class People(unittest.TestCase):
    def test_refused(self):
        for name, (_, line) in REFUSED.items():
            status, out, _ = begun(name).result()
            self.assertEqual(status, 1, name + ":\n" + out)
            self.assertRegex(out, line, name)
            self.assertNotIn("taking off", out, name)
            self.assertEqual("uploaded" in out, name == "switched on late", name)
            # of a radio that hasn't opened nothing is said in the end
            self.assertEqual(len(re.findall(r"simulated: [ab] at .* m, disarmed, 0 starts\n", out)), 0 if name == "off" else 2,
                             name + ":\n" + out)

    def test_flown(self):
        for name, (_, line) in FLOWN.items():
            status, out, _ = begun(name).result()
            self.assertEqual(status, 0, name + ":\n" + out)
            self.assertRegex(out, line, name)
            self.assertEqual(len(re.findall(r"simulated: [ab] at .* m, disarmed, 1 start\b", out)), 2, name + ":\n" + out)
            self.assertEqual(" is on, " in out, "let through" in name, name)


class Asked(unittest.TestCase):
    def test_whom_to_ask(self):
        own = ["radio://0/80/2M/E7E7E7E701", "radio://0/80/2M/E7E7E7E702", "radio://1/90/2M/AABBCCDD05"]
        hall = {"a": own[0], "b": own[1], "c": own[2], "d": "radio://0/80/2M/E7E7E7E7E7", "e": "radio://1/10/1M/0102030405",
                # however it is reached, this is a
                "f": "radio://1/80/2M/E7E7E7E701"}
        asked = others.to_ask(own, hall)
        # two in each row of 256 are of the flight, or one; d is in the first row
        self.assertEqual(len(asked), 254 + 255 + 1)
        self.assertEqual((asked[hall["d"]], asked[hall["e"]]), ("d", "e"))
        self.assertEqual(asked["radio://1/90/2M/AABBCCDD06"],
                         "a drone of address AABBCCDD06 on channel 90, which has no name here,")
        self.assertEqual([uri for uri in (*own, hall["f"], "radio://0/90/2M/AABBCCDD06", "radio://0/80/1M/E7E7E7E703") if uri in asked], [])


if __name__ == "__main__":
    unittest.main()
