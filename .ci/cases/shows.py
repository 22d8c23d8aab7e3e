"""Shows that are checked, compiled, played and reported, and shows that are refused."""
from typing import Dict

from cases.texts import APART, Around, CROSSING, CUE, MARKER, PLAN, Rows, SHOW, START, WITHOUT_ROOM

# The same plan in the last bytes of the memory.
PLAN_AT_THE_END = (
    b"plan 1\ndrone solo bytes 28 pieces 1\n"
    b"data 00 00 00 00 E8 03 00 00 03 D0 07 00 00 00 00 00 00 E8 03 E8 03 E8 03 E8 03 00 00 00\n"
    b"write 4E 02 E4 0F 00 00 00 00 00 00 E8 03 00 00 03 D0 07 00 00 00 00 00 00 E8 03 E8 03 E8 03 E8\n"
    b"write 4E 02 FC 0F 00 00 03 00 00 00\ndefine 8C 06 00 01 01 E4 0F 00 00 01\n"
    b"start 8C 05 00 00 00 00 00 00 80 3F\nend\n"
)

# Two drones 240.8 mm apart along x, whose trajectories are 240 mm apart; 241 suffice.
NEARER_WHEN_ROUNDED = (
    b"choreo 1\nellipsoid 120 300\ndrone a -400 0 1000000 0\ndrone b 240400 0 1000000 0\ncue 1000\nend\n"
)

# Two drones 240.001 mm apart along x, whose trajectories are 241 mm apart.
FARTHER_WHEN_ROUNDED = (
    b"choreo 1\nellipsoid 120 300\ndrone a 499 0 1000000 0\ndrone b 240500 0 1000000 0\ncue 1000\nend\n"
)

# Two drones that only a direction with an entry 2 separates: (2, 1, 0).
STEEP = b"choreo 1\nellipsoid 120 300\ndrone a 0 0 1000000 0\ndrone b 223000 112000 1000000 0\ncue 1000\nend\n"

FIGURE = b"choreo 1\ndrone solo 0 0 1000000 0\nfigure go p\ncue 1000\np line 1000000 0 1000000 0\nend\nend\n"

HELP = (
    b"help\ncheck [--depth D]\ncompile [--depth D]\ncertify [--depth D]\n"
    b"play [--depth D] [--step MS]\nreport [--depth D]\nverify\nrehearse [--depth D] [--start] [--readback]\n"
    b"upload [--depth D] [--start] [--readback]\n"
    b"direct [--depth D] [--near MM] [--at MM] [--silence MS] [--floor MM] [--descent MS] [--then land|fly]\n"
    b"drill N [--depth D]\n"
    b"boxes [--depth D]\nspeed [--depth D] [--limit V]\nexplain [--depth D] [--fine E] [--all]\n"
    b"dynamics [--depth D] [--accel A] [--jump J]\nversion\n"
)

VERSION = b"hemtoghai 0.2.0\n"

# A drone that moves a metre along x in two seconds: its first, middle and last instants.
ROWS = b"0 solo 0 0 1000000 0\n1000 solo 500000 0 1000000 0\n2000 solo 1000000 0 1000000 0\n"

# A millimetre backwards and a turn by a tenth of a degree in three milliseconds, each rounded down.
BACK = b"choreo 1\ndrone solo 0 0 1000000 0\ncue 3\nsolo line -1000 0 1000000 1\nend\n"

BACK_ROWS = (
    b"0 solo 0 0 1000000 0\n1 solo -334 0 1000000 3\n2 solo -667 0 1000000 6\n"
    b"3 solo -1000 0 1000000 10\n"
)

COMMANDS: Rows = [
    ("help", b"", 0, HELP),
    ("version", b"", 0, VERSION),
    ("play --step 1000", SHOW, 0, ROWS),
    ("play --step 60000", SHOW, 0, b"0 solo 0 0 1000000 0\n2000 solo 1000000 0 1000000 0\n"),
    ("play --step 1", BACK, 0, BACK_ROWS),
    ("play", CROSSING, 5, b"error 5 pair a b cue 1 part 28 of 64\n"),
    ("report", SHOW, 0,
     b"{\"bytes\":[28],\"cues\":1,\"drones\":[\"solo\"],\"duration_ms\":2000,\"nodes\":0,\"packets\":[3]}\n"),
    ("drill 1 --depth 0", b"", 0, b"drones 1 cues 40 pairs 0 bytes 411 packets 19 nodes 0\n"),
    ("drill 2", b"", 0, b"drones 2 cues 40 pairs 1 bytes 1102 packets 49 nodes 40\n"),
    ("drill 004 --depth 6", b"", 0, b"drones 4 cues 40 pairs 6 bytes 2204 packets 98 nodes 240\n"),
    ("compile", SHOW, 0, PLAN),
    ("compile --depth 000000008", SHOW, 0, PLAN),
    ("check", APART, 0, b"ok drones 2 cues 3 duration_ms 9000\n"),
    ("certify", APART, 0, b"version 2\ncertificate 6\n58\n46\n00\n"),
    ("certify --depth 0", APART, 0, b"version 2\ncertificate 0\n58\n46\n00\n"),
    ("check", CROSSING, 5, b"error 5 pair a b cue 1 part 28 of 64\n"),
    ("compile", CROSSING, 5, b"error 5 pair a b cue 1 part 28 of 64\n"),
    ("compile --depth 0", CROSSING, 5, b"error 5 pair a b cue 1 part 0 of 1\n"),
    ("certify --depth 0", CROSSING, 5, b"error 5 pair a b cue 1 part 0 of 1\n"),
    ("check", NEARER_WHEN_ROUNDED, 5, b"error 5 pair a b cue 1 part 0 of 64\n"),
    ("certify", FARTHER_WHEN_ROUNDED, 0, b"version 2\ncertificate 6\n69\n"),
    ("certify", STEEP, 0, b"version 2\ncertificate 6\n93\n"),
    ("check", STEEP, 0, b"ok drones 2 cues 1 duration_ms 1000\n"),
]

NO_COMMANDS: Rows = [
    ("", APART, 2, b"error 2 usage\n"),
    ("Compile", APART, 2, b"error 2 usage\n"),
    ("--version", APART, 2, b"error 2 usage\n"),
    ("version version", APART, 2, b"error 2 usage\n"),
    ("play --step 5 --step 5", APART, 2, b"error 2 usage\n"),
    ("compile --depth", APART, 2, b"error 2 usage\n"),
    ("compile --depth 9", APART, 2, b"error 2 usage\n"),
    ("compile --depth 0000000008", APART, 2, b"error 2 usage\n"),
    ("compile --Depth 6", APART, 2, b"error 2 usage\n"),
    ("verify --depth 6", APART, 2, b"error 2 usage\n"),
]

# Plans that begin at the greatest and at the least value, of an arc, and of a mirrored figure.
GREATEST_START = (
    b"plan 1\ndrone solo bytes 28 pieces 1\n"
    b"data FF 7F 00 00 E8 03 00 00 03 D0 07 FF 7F FF 7F FF 7F E8 03 E8 03 E8 03 E8 03 00 00 00\n"
    b"write 4E 02 00 00 00 00 FF 7F 00 00 E8 03 00 00 03 D0 07 FF 7F FF 7F FF 7F E8 03 E8 03 E8 03 E8\n"
    b"write 4E 02 18 00 00 00 03 00 00 00\ndefine 8C 06 00 01 01 00 00 00 00 01\n"
    b"start 8C 05 00 00 00 00 00 00 80 3F\nend\n"
)

LEAST_START = (
    b"plan 1\ndrone solo bytes 28 pieces 1\n"
    b"data 00 80 00 00 E8 03 00 00 03 D0 07 00 80 00 80 00 80 E8 03 E8 03 E8 03 E8 03 00 00 00\n"
    b"write 4E 02 00 00 00 00 00 80 00 00 E8 03 00 00 03 D0 07 00 80 00 80 00 80 E8 03 E8 03 E8 03 E8\n"
    b"write 4E 02 18 00 00 00 03 00 00 00\ndefine 8C 06 00 01 01 00 00 00 00 01\n"
    b"start 8C 05 00 00 00 00 00 00 80 3F\nend\n"
)

ARC_PLAN = (
    b"plan 1\ndrone solo bytes 26 pieces 1\n"
    b"data E8 03 00 00 E8 03 00 00 0A E8 03 E8 03 28 02 00 00 28 02 E8 03 E8 03 00 00 00\n"
    b"write 4E 02 00 00 00 00 E8 03 00 00 E8 03 00 00 0A E8 03 E8 03 28 02 00 00 28 02 E8 03 E8 03 00\n"
    b"write 4E 02 18 00 00 00 00 00\ndefine 8C 06 00 01 01 00 00 00 00 01\n"
    b"start 8C 05 00 00 00 00 00 00 80 3F\nend\n"
)

MIRRORED_PLAN = (
    b"plan 1\ndrone solo bytes 20 pieces 1\n"
    b"data 00 00 00 00 E8 03 00 00 54 E8 03 E8 03 DC 05 84 03 00 00 00\n"
    b"write 4E 02 00 00 00 00 00 00 00 00 E8 03 00 00 54 E8 03 E8 03 DC 05 84 03 00 00 00\n"
    b"define 8C 06 00 01 01 00 00 00 00 01\nstart 8C 05 00 00 00 00 00 00 80 3F\nend\n"
)

LONG = START + b"repeat 255\ncue 1000\nend\nend\n"

PLANS: Rows = [
    ("compile", b"choreo 1\ndrone solo 32767499 0 1000000 0\n" + CUE, 0, GREATEST_START),
    ("compile", b"choreo 1\ndrone solo -32768500 0 1000000 0\n" + CUE, 0, LEAST_START),
    ("compile", b"choreo 1\nmemory 2 4068\ndrone solo 0 0 1000000 0\n" + CUE, 0, PLAN_AT_THE_END),
    ("compile", b"choreo 1\ndrone solo 1000000 0 1000000 0\ncue 1000\nsolo arc ccw 0 0 0\nend\n", 0, ARC_PLAN),
    ("compile", FIGURE + b"perform go y 1 0 0 500000 solo\n", 0, MIRRORED_PLAN),
    ("check", LONG, 0, b"ok drones 1 cues 255 duration_ms 255000\n"),
    ("compile", LONG, 0, Around(b"plan 1\ndrone solo bytes 23 pieces 4\n")),
]

# Cues of one drone that begins at rest, and the beginning of its plan.
JOINED: Rows = [
    ("compile", START + b"cue 32767\nend\ncue 32768\nend\n", 0,
     Around(b"plan 1\ndrone solo bytes 14 pieces 1\ndata 00 00 00 00 E8 03 00 00 00 FF FF 00 00 00\n"
            b"write 4E 02 00 00 00 00 00 00 00 00 E8 03 00 00 00 FF FF 00 00 00\n"
            b"define 8C 06 00 01 01 00 00 00 00 01\n"
            b"start 8C 05 00 00 00 00 00 00 80 3F\nend\n")),
    ("compile", START + b"cue 32767\nend\ncue 32768\nend\ncue 1\nend\n", 0,
     Around(b"plan 1\ndrone solo bytes 17 pieces 2\ndata 00 00 00 00 E8 03 00 00 00 FF FF 00 01 00 00 00 00\n"
            b"write 4E 02 00 00 00 00 00 00 00 00 E8 03 00 00 00 FF FF 00 01 00 00 00 00\n"
            b"define 8C 06 00 01 01 00 00 00 00 02\nstart 8C 05 00 00 00 00 00 00 80 3F\nend\n")),
    ("compile", START + b"cue 40000\nend\ncue 30000\nend\ncue 30000\nend\n", 0,
     Around(b"plan 1\ndrone solo bytes 17 pieces 2\ndata 00 00 00 00 E8 03 00 00 00 40 9C 00 60 EA 00 00 00\n"
            b"write 4E 02 00 00 00 00 00 00 00 00 E8 03 00 00 00 40 9C 00 60 EA 00 00 00\n"
            b"define 8C 06 00 01 01 00 00 00 00 02\nstart 8C 05 00 00 00 00 00 00 80 3F\nend\n")),
    ("compile", START + b"cue 1000\nend\ncue 1000\nsolo turn 900\nend\ncue 1000\nend\n", 0,
     Around(b"plan 1\ndrone solo bytes 34 pieces 3\n")),
    ("compile", START + b"cue 1000\nend\ncue 1000\nsolo move 400 0 1000000 0\nend\ncue 1000\nend\n", 0,
     Around(b"plan 1\ndrone solo bytes 14 pieces 1\ndata 00 00 00 00 E8 03 00 00 00 B8 0B 00 00 00\n"
            b"write 4E 02 00 00 00 00 00 00 00 00 E8 03 00 00 00 B8 0B 00 00 00\n"
            b"define 8C 06 00 01 01 00 00 00 00 01\n"
            b"start 8C 05 00 00 00 00 00 00 80 3F\nend\n")),
    ("compile", START + b"repeat 1000\ncue 1000\nend\nend\n", 0, Around(b"plan 1\ndrone solo bytes 59 pieces 16\n")),
    ("compile",
     START
     + b"repeat 127\ncue 100\nsolo line 1000000 0 1000000 0\nend\ncue 100\nsolo line 0 0 1000000 0\nend\nend\n",
     0, Around(b"plan 1\ndrone solo bytes 1281 pieces 254\n")),
]

FAULTY_SHOWS: Rows = [
    ("compile", b"", 3, b"error 3 line 1 header\n"),
    ("compile", START, 3, b"error 3 line 1 no-cue\n"),
    ("compile", START + MARKER, 3, b"error 3 line 1 no-cue\n"),
    ("compile", b"choreo 1\n", 3, b"error 3 line 1 no-drone\n"),
    ("compile", b"choreo 3\ndrone solo 0 0 1000000 0\n" + CUE, 3, b"error 3 line 1 header\n"),
    ("compile", b"choreo 1\ndrone solo 32767500 0 1000000 0\n" + CUE, 3, b"error 3 line 2 out-of-range x 32767500\n"),
    ("compile", b"choreo 1\ndrone solo -32768501 0 1000000 0\n" + CUE, 3, b"error 3 line 2 out-of-range x -32768501\n"),
    ("compile", b"choreo 1\ndrone Solo 0 0 1000000 0\n" + CUE, 3, b"error 3 line 2 bad-name\n"),
    ("compile", b"choreo 1\ndrone solo 0 0 1000000\n" + CUE, 3, b"error 3 line 2 bad-count\n"),
    ("compile", b"choreo 1\ndrone solo 0 0 1e6 0\n" + CUE, 3, b"error 3 line 2 bad-number\n"),
    ("compile", b"choreo 1\ndrone solo 0 0 100000001 0\n" + CUE, 3, b"error 3 line 2 range\n"),
    ("compile", b"choreo 1\nmemory 2 0\nmemory 2 0\ndrone solo 0 0 1000000 0\n" + CUE, 3,
     b"error 3 line 3 double-setting\n"),
    ("compile",
     b"choreo 3\ndrone solo 0 0 1000000 0\n"
     b"cue 2000\nsolo move 1000000 0 1000000 0\nend\x01\n",
     3, b"error 3 line 5 bad-byte\n"),
    ("compile", SHOW + b"end\n", 3, b"error 3 line 6 bad-word\n"),
    ("compile", SHOW + b"repeat 2\nend\n", 3, b"error 3 line 7 empty-block\n"),
]

# A marker line, want of room, drones that come too near, in this order.
REFUSED_SHOWS: Rows = [
    ("compile", SHOW + MARKER, 11, b"error 11 line 6\n"),
    ("compile",
     START
     + b"repeat 128\ncue 1000\nsolo line 100000 0 1000000 0\nend\ncue 1000\nsolo line 0 0 1000000 0\nend\nend\n",
     4, b"error 4 drone solo segments 256\n"),
    ("compile", WITHOUT_ROOM, 4, b"error 4 drone solo bytes 28 room 27\n"),
    ("compile", WITHOUT_ROOM + MARKER, 11, b"error 11 line 7\n"),
    ("compile", CROSSING + MARKER, 11, b"error 11 line 9\n"),
    ("compile", b"choreo 1\nellipsoid 120 300\ndrone a 0 0 1000000 0\ndrone b 236000 56000 1000000 0\ncue 1000\nend\n",
     5, b"error 5 pair a b cue 1 part 0 of 64\n"),
    ("compile",
     b"choreo 1\nellipsoid 120 300\ndrone a 0 0 1000000 0\ndrone b 1000000 0 1000000 0\nrepeat 999\ncue 10\n"
     b"end\nend\n"
     b"cue 3000\na move 1000000 0 1000000 0\nb move 0 0 1000000 0\nend\n",
     5, b"error 5 pair a b cue 1000 part 28 of 64\n"),
]

# 10^72 cues.
EIGHT_REPEATS = (
    b"repeat 1000000000\nrepeat 1000000000\nrepeat 1000000000\nrepeat 1000000000\n"
    b"repeat 1000000000\nrepeat 1000000000\nrepeat 1000000000\nrepeat 1000000000\n"
    b"cue 1000\nend\nend\nend\nend\nend\nend\nend\nend\nend\n"
)

NINE_REPEATS = (
    b"repeat 1000000000\nrepeat 1000000000\nrepeat 1000000000\nrepeat 1000000000\n"
    b"repeat 1000000000\nrepeat 1000000000\nrepeat 1000000000\nrepeat 1000000000\nrepeat 1000000000\n"
    b"cue 1000\nend\nend\nend\nend\nend\nend\nend\nend\nend\nend\n"
)

FAULTY_CUES: Rows = [
    ("compile", START + b"repeat 1001\ncue 1000\nend\nend\n", 3, b"error 3 line 3 too-many-cues\n"),
    ("compile", START + EIGHT_REPEATS, 3, b"error 3 line 3 too-many-cues\n"),
    ("compile", START + NINE_REPEATS, 3, b"error 3 line 11 nesting\n"),
    ("compile", START + b"cue 2000\nsolo move 1000000 0 1000000 0\n", 3, b"error 3 line 3 no-end\n"),
    ("compile", START + b"cue 2000\nsolo\nend\n", 3, b"error 3 line 4 bad-count\n"),
    ("compile", START + b"cue 2000\nsolo jump 0\nend\n", 3, b"error 3 line 4 bad-word\n"),
    ("compile",
     START
     + b"cue 2000\nsolo move 1000000 0 1000000 0\nsolo move 1000000 0 1000000 0\nend\n",
     3, b"error 3 line 5 double-act\n"),
    ("compile", b"choreo 1\ndrone solo 0 0 1000000 0\ndrone solo 0 0 1000000 0\n" + CUE, 3,
     b"error 3 line 3 double-name\n"),
    ("compile", FIGURE + b"perform go y 1 0 0 500000 other\n", 3, b"error 3 line 8 unknown-name\n"),
    ("compile", FIGURE + b"perform go y 1 0 0 500000 solo solo\n", 3, b"error 3 line 8 role-count\n"),
]

# Texts of a mebibyte, and of one byte more.
GREAT_TEXTS: Rows = [
    ("compile", SHOW + b"#" * (1_048_576 - 77), 0, PLAN),
    ("compile", SHOW + b"#" * (1_048_576 - 76), 3, b"error 3 too-large\n"),
]


def row_of(drones: int) -> bytes:
    """Drones in a row, a metre apart."""
    return b"choreo 1\n" + b"".join(b"drone d%d %d000000 0 1000000 0\n" % (d, d) for d in range(drones))


# 32 drones that hold through 1,000 cues of a second; and one cue or one drone more.
FULL_SIZE: Rows = [
    ("check", row_of(32) + b"repeat 1000\ncue 1000\nend\nend\n", 0, b"ok drones 32 cues 1000 duration_ms 1000000\n"),
    ("check", row_of(32) + b"repeat 1001\ncue 1000\nend\nend\n", 3, b"error 3 line 34 too-many-cues\n"),
    ("check", row_of(33) + b"repeat 1000\ncue 1000\nend\nend\n", 3, b"error 3 line 34 too-many-drones\n"),
]

GROUPS: Dict[str, Rows] = {
    "commands": COMMANDS, "words that are no command": NO_COMMANDS, "plans": PLANS, "joined holds": JOINED,
    "faulty shows": FAULTY_SHOWS, "refused shows": REFUSED_SHOWS, "faulty cues": FAULTY_CUES,
    "great texts": GREAT_TEXTS, "shows of full size": FULL_SIZE,
}
