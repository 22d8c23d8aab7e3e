"""Rehearsals and uploads. The frames were written out by hand from docs/RADIO.md, "Link frames" and "Read-back"."""
from typing import Dict

from cases.texts import Around, CROSSING, Rows, SHOW, WITHOUT_ROOM

# The writes the other way round, and one of them twice; then the define.
TURNED = (
    b"%%\ntake solo 2\ntake solo 1\ntake solo 1\nhear solo 1\nhear solo 1\nhear solo 2\n"
    b"take solo 3\nhear solo 4\n"
)

# The first lines of what the path leaves, up to the second row of the memory; and the last ones without starts.
HEAD = (
    b"rehearsal done\nmemory solo\n"
    b"0000 00 00 00 00 E8 03 00 00 03 D0 07 00 00 00 00 00 00 E8 03 E8 03 E8 03 E8 03 00 00 00 FF FF FF FF\n"
    b"0020 FF FF FF FF FF FF FF FF FF FF FF FF FF FF FF FF FF FF FF FF FF FF FF FF FF FF FF FF FF FF FF FF\n"
)

TAIL = (
    b"0FE0 FF FF FF FF FF FF FF FF FF FF FF FF FF FF FF FF FF FF FF FF FF FF FF FF FF FF FF FF FF FF FF FF\n"
    b"trajectory 0 offset 0 pieces 1\nstarted none\nends 1000 0 1000 0\n"
)

TURNED_SCHEDULE: Rows = [("rehearse", SHOW + TURNED, 0, Around(HEAD, TAIL, 13_018))]

# Schedules after the path, with starts or without, that come to a line.
SCHEDULES: Rows = [
    ("rehearse", SHOW, 8, b"error 8 ended\n"),
    ("rehearse --start", SHOW + TURNED, 8, b"error 8 ended\n"),
    ("rehearse", SHOW + b"%%\ntake solo 0\n", 11, b"error 11 line 1\n"),
    ("rehearse", SHOW + b"%%\ntake nobody 1\n", 11, b"error 11 line 1\n"),
    ("rehearse", SHOW + b"%%\ntake solo 1000000000\n", 11, b"error 11 line 1\n"),
    ("rehearse",
     SHOW
     + (b"%%\ntick\ntick\ntick\ntick\ntick\ntick\ntick\ntick\ntick\ntick\n"
        b"tick\ntick\ntick\ntick\ntick\ntick\ntick\ntick\ntick\n"),
     8, b"error 8 ended\n"),
    ("rehearse",
     SHOW
     + (b"%%\ntick\ntick\ntick\ntick\ntick\ntick\ntick\ntick\ntick\ntick\n"
        b"tick\ntick\ntick\ntick\ntick\ntick\ntick\ntick\ntick\ntick\n"),
     9, b"error 9 drone solo packet 1\n"),
    ("rehearse",
     SHOW
     + (b"%%\ntake solo 1\ntake solo 2\nhear solo 1\nhear solo 2\n"
        b"tick\ntick\ntick\ntick\ntick\ntick\ntick\ntick\ntick\ntick\n"
        b"tick\ntick\ntick\ntick\ntick\ntick\ntick\ntick\ntick\ntick\n"),
     9, b"error 9 drone solo packet 3\n"),
    ("rehearse",
     SHOW
     + (b"%%\ntick\ntick\ntick\ntick\ntick\ntick\ntick\ntick\ntick\ntick\n"
        b"tick\ntick\ntick\ntick\ntick\ntick\ntick\ntick\ntick\ntick\ntock\n"),
     11, b"error 11 line 21\n"),
    ("rehearse", SHOW + b"%%\n%%\n", 11, b"error 11 line 1\n"),
    ("rehearse",
     SHOW
     + (b"%%\ntick\ntick\ntick\ntick\ntick\ntick\ntick\ntick\ntick\ntick\n"
        b"tick\ntick\ntick\ntick\ntick\ntick\ntick\ntick\ntick\ntick\n%%\n"),
     11, b"error 11 line 21\n"),
]

# A fault of the show comes before that of the schedule.
ORDER: Rows = [
    ("rehearse", b"choreo 3\n%%\ntock\n", 3, b"error 3 line 1 header\n"),
    ("rehearse", WITHOUT_ROOM + b"%%\ntock\n", 4, b"error 4 drone solo bytes 28 room 27\n"),
    ("rehearse", CROSSING + b"%%\ntock\n", 5, b"error 5 pair a b cue 1 part 28 of 64\n"),
]

# The writes and the define are taken and heard.
LOADED = b"%%\ntake solo 1\ntake solo 2\nhear solo 1\nhear solo 2\ntake solo 3\nhear solo 3\n"

# Rehearsals with read-back, and how their output ends.
READ_BACK: Rows = [
    ("rehearse --readback", SHOW + LOADED + b"take solo 4\ntake solo 5\nhear solo 4\nhear solo 5\n", 0,
     Around(end=b"started none\nends 1000 0 1000 0\n")),
    ("rehearse --readback", SHOW + LOADED + b"alter solo 3 7\ntake solo 4\ntake solo 5\nhear solo 4\nhear solo 5\n", 14,
     Around(end=b"error 14 drone solo address 3 wanted 00 got 07\n")),
    ("rehearse --readback", SHOW + LOADED + b"take solo 4\nalter solo 3 7\ntake solo 5\nhear solo 4\nhear solo 5\n", 0,
     Around(end=b"started none\nends 1000 1792 1000 0\n")),
    # The segment lasts no millisecond then.
    ("rehearse --readback",
     SHOW
     + LOADED
     + b"take solo 4\ntake solo 5\nhear solo 4\nhear solo 5\nalter solo 9 0\nalter solo 10 0\n",
     0, Around(end=b"started none\nends none\n")),
    # A start is sent after the reads, and heard.
    ("rehearse --start --readback",
     SHOW
     + LOADED
     + b"take solo 4\ntake solo 5\nhear solo 4\nhear solo 5\ntake solo 6\nhear solo 6\n",
     0, Around(end=b"started 0\nends 1000 0 1000 0\n")),
    ("rehearse --readback --start", SHOW + LOADED + b"take solo 4\ntake solo 5\nhear solo 4\nhear solo 5\n", 8,
     Around(end=b"error 8 ended\n")),
    ("rehearse --readback",
     SHOW
     + LOADED
     + (b"tick\ntick\ntick\ntick\ntick\ntick\ntick\ntick\ntick\ntick\n"
        b"tick\ntick\ntick\ntick\ntick\ntick\ntick\ntick\ntick\ntick\n"),
     9, Around(end=b"error 9 drone solo packet 4\n")),
    ("rehearse --readback", SHOW + LOADED + b"alter solo 4096 0\n", 11, Around(end=b"error 11 line 7\n")),
    # Without read-back no line alters a byte.
    ("rehearse", SHOW + LOADED + b"alter solo 3 7\n", 11, Around(end=b"error 11 line 7\n")),
]

# The frames of the two writes of `SHOW`.
FIRST = (
    b"\x50\x01\x1E\x4E\x02\x00\x00\x00\x00\x00\x00\x00\x00\xE8\x03\x00\x00\x03\xD0\x07\x00\x00\x00\x00\x00"
    b"\x00\xE8\x03\xE8\x03\xE8\x03\xE8\x50\x01\x0A\x4E\x02\x18\x00\x00\x00\x03\x00\x00\x00"
)

# The frame of the define and the end frame of an upload that is done.
DEFINE_AND_END = b"\x50\x01\x0A\x8C\x06\x00\x01\x01\x00\x00\x00\x00\x01\x45\x00"

# A marker line, and after it the answers to the writes and the define.
ANSWERS = (
    b"%%\n"
    b"\x50\x01\x07\x4E\x02\x00\x00\x00\x00\x00\x50\x01\x07\x4E\x02\x18\x00\x00\x00\x00\x50\x01\x05\x8C\x06"
    b"\x00\x01\x00"
)

UPLOADS: Rows = [
    # Nothing comes after a show without a marker line, nor after a last line that is one.
    ("upload", SHOW, 8, FIRST + b"\x45\x08"),
    ("upload", SHOW + b"%%", 8, FIRST + b"\x45\x08"),
    ("upload", SHOW + ANSWERS, 0, FIRST + DEFINE_AND_END),
    ("upload", SHOW + b"%%\n\x50\x01\x07\x4E\x02\x00\x00\x00\x00\x05", 10, FIRST + b"\x45\x0A"),
    # The answer to a start that wasn't sent refuses it, where there is one.
    ("upload --start", SHOW + b"%%\n\x50\x01\x05\x8C\x05\x00\x00\x05", 10, FIRST + b"\x45\x0A"),
    ("upload", SHOW + b"%%\n\x50\x01\x05\x8C\x05\x00\x00\x05", 8, FIRST + b"\x45\x08"),
    # A second marker line is no frame.
    ("upload", SHOW + b"%%\n%%\n", 11, FIRST + b"\x45\x0B"),
    ("upload", b"choreo 3\n" + ANSWERS, 3, b"\x45\x03"),
    ("upload", WITHOUT_ROOM + ANSWERS, 4, b"\x45\x04"),
    ("upload --depth 0", CROSSING + ANSWERS, 5, b"\x45\x05"),
    ("upload --start --start", SHOW + ANSWERS, 2, b"error 2 usage\n"),
]

# Frames that are no answer to a packet of `SHOW`, or refuse one.
STRANGE_FRAMES: Rows = [
    # Another memory's id, and an address at which no write begins.
    ("upload", SHOW + b"%%\n\x50\x01\x07\x4E\x03\x00\x00\x00\x00\x00", 8, FIRST + b"\x45\x08"),
    ("upload", SHOW + b"%%\n\x50\x01\x07\x4E\x02\x01\x00\x00\x00\x00", 8, FIRST + b"\x45\x08"),
    # Too short for an answer to a write.
    ("upload", SHOW + b"%%\n\x50\x01\x06\x4E\x02\x00\x00\x00\x00", 8, FIRST + b"\x45\x08"),
    # A refusal after the same write was acknowledged.
    ("upload",
     SHOW
     + b"%%\n\x50\x01\x07\x4E\x02\x00\x00\x00\x00\x00\x50\x01\x07\x4E\x02\x00\x00\x00\x00\x05",
     8, FIRST + b"\x45\x08"),
    # The define refused before it was sent.
    ("upload", SHOW + b"%%\n\x50\x01\x05\x8C\x06\x00\x01\x02", 10, FIRST + b"\x45\x0A"),
    # No drone has the number 0 or 33, and no packet 0 or 32 bytes.
    ("upload", SHOW + b"%%\n\x50\x00", 11, FIRST + b"\x45\x0B"),
    ("upload", SHOW + b"%%\n\x50\x21", 11, FIRST + b"\x45\x0B"),
    ("upload", SHOW + b"%%\n\x50\x01\x00", 11, FIRST + b"\x45\x0B"),
    ("upload", SHOW + b"%%\n\x50\x01\x20", 11, FIRST + b"\x45\x0B"),
]

# The frames of the define and of the two reads.
DEFINE_AND_READS = (
    b"\x50\x01\x0A\x8C\x06\x00\x01\x01\x00\x00\x00\x00\x01\x50\x01\x07\x4D\x02\x00\x00\x00\x00\x14\x50\x01"
    b"\x07\x4D\x02\x14\x00\x00\x00\x08"
)

# The answer to the first read, and those to the second one, as it should be and with another byte.
READ_FIRST = (
    b"\x50\x01\x1B\x4D\x02\x00\x00\x00\x00\x00\x00\x00\x00\x00\xE8\x03\x00\x00\x03\xD0\x07\x00\x00\x00\x00"
    b"\x00\x00\xE8\x03\xE8"
)

READ_SECOND = b"\x50\x01\x0F\x4D\x02\x14\x00\x00\x00\x00\x03\xE8\x03\xE8\x03\x00\x00\x00"

READ_OTHER = b"\x50\x01\x0F\x4D\x02\x14\x00\x00\x00\x00\x03\xE8\x04\xE8\x03\x00\x00\x00"

UPLOADS_READ_BACK: Rows = [
    ("upload --readback", SHOW + ANSWERS + READ_SECOND + READ_FIRST, 0, FIRST + DEFINE_AND_READS + b"\x45\x00"),
    ("upload --readback", SHOW + ANSWERS + READ_OTHER + READ_FIRST, 14, FIRST + DEFINE_AND_READS + b"\x45\x0E"),
    ("upload --readback", SHOW + ANSWERS + READ_SECOND, 8, FIRST + DEFINE_AND_READS + b"\x45\x08"),
    ("upload --start --readback", SHOW + ANSWERS + READ_SECOND + READ_FIRST, 8,
     FIRST
     + DEFINE_AND_READS
     + b"\x50\x01\x0A\x8C\x05\x00\x00\x00\x00\x00\x00\x80\x3F\x45\x08"),
]

GROUPS: Dict[str, Rows] = {
    "a turned schedule": TURNED_SCHEDULE, "schedules": SCHEDULES, "order of refusals": ORDER,
    "rehearsals with read-back": READ_BACK, "ends of uploads": UPLOADS, "strange frames": STRANGE_FRAMES,
    "uploads with read-back": UPLOADS_READ_BACK,
}
