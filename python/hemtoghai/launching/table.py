"""The commands of the program and their options: for ./show, its help, the manual page and completions. The tables of
docs/COMMANDS.md have the same rows, and the program's own `help` the same forms."""
from __future__ import annotations

# The form of a command, its input, and what it writes at status 0.
ROWS = (
    ("help", "nothing", "the forms of all commands"),
    ("check [--depth D]", "a show", "one line: its drones, cues and milliseconds"),
    ("compile [--depth D]", "a show", "the plan: each drone's trajectory as bytes and as packets"),
    ("certify [--depth D]", "a show", "a certificate that no two drones come too close"),
    ("play [--depth D] [--step MS]", "a show", "the place of each drone, every MS milliseconds"),
    ("report [--depth D]", "a show", "its numbers as JSON: bytes, packets, cues, nodes"),
    ("verify", "a show, a marker line, a certificate", "one line: the certificate is valid"),
    ("rehearse [--depth D] [--start] [--readback]", "a show, a marker line, a schedule",
     "the memories of the drones after an upload"),
    ("upload [--depth D] [--start] [--readback]", "a show, a marker line, link frames",
     "link frames; ./show bridge carries them"),
    ("direct [--depth D] [--near MM] [--at MM] [--silence MS] [--floor MM] [--descent MS] [--then land|fly]",
     "a way up, a show and a way down, a marker line after each, then flight frames", "flight frames"),
    ("drill N [--depth D]", "nothing", "the numbers of a generated show of N drones"),
    ("boxes [--depth D]", "a show, a marker line, regions", "one line: all drones keep to the regions"),
    ("speed [--depth D] [--limit V]", "a show", "the greatest speed of each drone"),
    ("explain [--depth D] [--fine E] [--all]", "a show",
     "the cause of status 5, and the place where two drones come closest"),
    ("dynamics [--depth D] [--accel A] [--jump J]", "a show",
     "the greatest acceleration of each drone, and its greatest jump of speed"),
    ("version", "nothing", "the program's version"))
# The least and the greatest value of each number of a command or an option, by its name.
NUMBERS = {"D": (0, 8), "MS": (1, 60000), "MM": (0, 32767), "V": (1, 999999999), "E": (0, 5), "A": (0, 999999999),
           "J": (0, 999999999), "N": (1, 32)}
# An option with the name of its number, what that is, and what it is without the option.
OPTIONS = (
    ("--depth D", "0 to 8: a cue is cut into up to 2^D parts, see Depth", "6"),
    ("--step MS", "1 to 60,000 milliseconds", "100"),
    ("--start", "none: the drones are started too, one by one, and some of them more than once", "no drone is started"),
    ("--readback", "none: each memory is read back before any start, see RADIO.md", "no memory is read back"),
    ("--near MM", "0 to 32,767 millimetres: how far a drone may be from its pad, in a straight line", "80"),
    ("--at MM", "0 to 32,767 millimetres: the same from its position in the air", "80"),
    ("--silence MS", "1 to 60,000 milliseconds: a drone whose last sample is older is silent", "1,000"),
    ("--floor MM", "0 to 32,767 millimetres: the height at which all land at once", "0"),
    ("--descent MS", "1 to 60,000 milliseconds: the time in which they do", "4,000"),
    ("--then land|fly",
     "land or fly: whether all land where a drone is lost or astray in the show, or the show goes on", "all land"),
    ("--limit V", "1 to 999,999,999 micrometres per second", "no speed is refused"),
    ("--fine E", "0 to 5: each cue is examined at 2^E + 1 instants", "5"),
    ("--all", "none: each pair and cue that is blocked has a line, up to 200", "the first blocked part alone"),
    ("--accel A", "0 to 999,999,999 millimetres per second squared", "no acceleration is refused"),
    ("--jump J", "0 to 999,999,999 millimetres per second", "no jump of speed is refused"),
    ("N of drill", "1 to 32 drones", "N is required"))
COMMANDS = [(form, written) for form, _, written in ROWS]
FORMS = {form.split()[0]: form for form, _, _ in ROWS}
PURPOSES = {form.split()[0]: written for form, _, written in ROWS}
# What stands behind the show and a marker line, in the commands that read two parts.
SECOND = {form.split()[0]: given.split()[-1] for form, given, _ in ROWS if ", a marker line, " in given}
NO_INPUT = [form.split()[0] for form, given, _ in ROWS if given == "nothing"]
