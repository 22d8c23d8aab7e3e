"""Each place of the package that prints or returns a yes, and what it rests on. Whoever adds one adds an entry, or the
test fails: a yes is that of the proved program, or its words say whose it is.

Looked for are the words of a yes in texts (`ok`, `valid`, `KEPT` ..), a status of 0 and a status that is handed on in
what is a command or a flight, and what is true or false for who imports the package. That none of the commands says yes
where the program doesn't is tried below."""
import ast
import hashlib
import json
import os
import re
import subprocess
import sys
import tempfile
import unittest
from unittest import mock

from common import PYTHON, TOP
from hemtoghai import judging, program
from hemtoghai.flying import stages

PACKAGE = os.path.join(PYTHON, "hemtoghai")
WORDS = re.compile(r"\b(valid|KEPT|APART|PROVED|proved|accepted|accepts|apart|separated|ok|kept|landed|disarmed|stored|"
                   r"land now|judged as|judged stage|as a whole|stage by stage|as the show has them|has its trajectory|"
                   r"has what it is to fly|come home by themselves|[Nn]othing is blocked|nothing is refused)\b")
STATUSES = re.compile("commands/|dev/|exchange/export|launching/|__main__|streams|companion|"
                      "flying/(bridge|descent)|seeing/studio_work")  # modules that end with one
TRUTHS = re.compile("judging|program")  # modules whose yes may be a value that is true

# What a yes may rest on.
PROGRAM = "an answer of the program, whose status, output and file program.ask or answering.py looked at"
RUN = "the program's own status and output, over a file whose SHA-256 is that of its record: launching/launcher.py"
PASSED = "hands on what others end with, each of which has its entry"
RECORD = "the record or the manifest that has the SHA-256 of what runs, and the last line of its proof"
WRITTEN = "says that something was written, and nothing of the show; what is wrong with that comes from elsewhere"
NUMBER = "a number that is no status"
NO = "says no, or names what isn't: a no needs no proof"
WHAT = "a word of another meaning: of files, words, libraries or places"
OWN = "its own arithmetic, as its words and docs/TOOLS.md say: a second opinion that no proof stands behind"
UPLOAD = "the end frame of the program's `upload`, and the status with which the program ended, which have to agree"
DIRECTOR = "the end frame of the proved director, and `check` of the show and of each way before the take-off"
LANDING = "`check` of the landing at each instant, or of each stage, by the file that was hashed: stages.refusal_of"
DRONES = "what drones say of themselves, as its words say; no proof stands behind that"
WAY = "`check` of the way as one show, or of each of its stages, by the file that was hashed: stages.refusal_of"
TOLD = "says what was computed, and nothing of whether a show is accepted"
# By module and function the words that are found there, and what they rest on.
YESES = {
    "__main__.py main": ("handed handed handed handed handed handed handed proved", PASSED + "; `--proved` is an option; two are of no answer"),
    "__main__.py run": ("proved", WHAT),
    "answering.py library": ("proved", RECORD),
    "judging.py Verdict.as_data": ("ok proved", PROGRAM + "; `proved` is true of a record with its proof alone"),
    "program.py -": ("kept ok valid", "what the program writes where it accepts: no other answer is taken for one"),
    "program.py copy_of": ("proved", RECORD),
    "program.py is_answer": ("true", "the words that each command writes where it accepts, by docs/COMMANDS.md"),
    "program.py runs": ("proved proved proved", NO),
    "program.py words_of": ("proved", WHAT),
    "companion.py decoded.number": ("handed", NUMBER),
    "companion.py whole.read": ("handed", NUMBER),
    "commands/as_json.py -": ("separated", "what `explain` writes where it finds no blocked part"),
    "commands/as_json.py Tee.write": ("handed", NUMBER),
    "commands/as_json.py by_program": ("handed", PROGRAM),
    "commands/as_json.py by_summary": ("handed handed", PROGRAM + "; 70 without it"),
    "commands/as_json.py by_why": ("handed handed", PROGRAM + "; 70 without it"),
    "commands/as_json.py explained": ("ok separated", PROGRAM + ": true of the line `separated` alone"),
    "commands/as_json.py main": ("handed handed handed handed", PASSED),
    "commands/as_json.py put": ("handed", "the status of the verdict that is written: " + PROGRAM + "; 70 without it"),
    "commands/bridge.py end_of": ("handed", NUMBER),
    "commands/bridge.py main": ("handed handed", UPLOAD),
    "commands/bridge.py memory_lines": ("as the show has them", OWN + ": of the memories of simulated drones"),
    "commands/bridge.py print_end": ("handed", UPLOAD),
    "commands/as_json.py put_failure": ("handed ok proved", NO),
    "commands/convert.py main": ("0", WRITTEN),
    "commands/deal.py main": ("handed handed", PROGRAM + "; 70 without it"),
    "commands/export.py main": ("2 handed", PASSED + "; 2 is of wrong words"),
    "commands/flown.py judge_all.outside": ("handed", NUMBER),
    "commands/flown.py main": ("0 apart", OWN + ": of samples"),
    "commands/flown.py print_verdict": ("KEPT KEPT KEPT KEPT", OWN + ": of samples of the show, and of who is home at the "
                                        "end; a line says that nothing else of the ways was looked at"),
    "commands/fly.py -": ("apart apart", WHAT),
    "commands/fly.py emergency": ("handed", DRONES),
    "commands/fly.py fly": ("handed handed", DIRECTOR + "; --only look: the preflight alone; --only upload: " + UPLOAD),
    "commands/fly.py main": ("handed handed handed handed", PASSED),
    "flying/finite.py -": ("kept kept", DIRECTOR + ": a log's last line, which is the first of the two where `fly` ends with 0"),
    "commands/fly.py only": ("0 handed handed", DRONES),
    "commands/fly.py show": ("handed", PASSED),
    "commands/fly.py upload": ("has its trajectory", UPLOAD),
    "commands/figures.py begin": ("handed handed", PROGRAM + "; 70 without it"),
    "commands/figures.py begun": ("handed", PROGRAM + "; 70 without it"),
    "commands/figures.py extended": ("handed", PROGRAM + "; 70 without it"),
    "commands/figures.py go_on": ("handed handed", PROGRAM + "; 70 without it"),
    "commands/figures.py main": ("2 handed", PROGRAM + "; 70 without it"),
    "companion.py put_show": ("handed handed", PROGRAM + "; 70 without it"),
    "commands/figures.py quantity.read": ("handed", NUMBER),
    "commands/figures.py time_of": ("handed", NUMBER),
    "commands/importing.py head_of": ("kept", WHAT),
    "commands/importing.py judge": ("0 APART handed handed", PROGRAM + " of each stretch, and the exact bound on how "
                                    "far these are from the file, by which their ellipsoids are larger"),
    "commands/importing.py main": ("0 handed handed", WRITTEN + "; with --judge " + PASSED),
    "commands/importing.py print_why": ("apart", NO),
    "commands/judge.py Trees.__len__": ("handed", NUMBER),
    "commands/judge.py judge": ("0 0 valid valid", OWN),
    "commands/judge.py main": ("0 handed", OWN),
    "commands/judge.py trajectory.number": ("handed", NUMBER),
    "commands/legs.py main": ("handed handed", PROGRAM + " of the show; " + WAY),
    "commands/legs.py summed_up": ("judged as judged stage", WAY),
    "dev/library.py main": ("0 kept proved", WRITTEN + "; the words are an option's and a refusal's"),
    "dev/library.py over_built": ("proved", WHAT),
    "dev/library.py over_kept": ("proved proved proved", NO),
    "dev/library.py prove": ("proved", RECORD),
    "commands/picture.py main": ("0 0", WRITTEN),
    "dev/release.py contents_of": ("proved", RECORD),
    "dev/release.py judged_record": ("proved", RECORD),
    "dev/release.py main": ("0", WRITTEN),
    "commands/studio.py main": ("0", "says that the studio was ended, and nothing of the show"),
    "commands/studio.py serve": ("PROVED proved", NO),
    "commands/summary.py main": ("0", TOLD),
    "commands/summary.py print_margin": ("accepted accepted", PROGRAM),
    "commands/summary.py print_ways": ("as a whole stage by stage", WAY),
    "commands/why.py explain_separation": ("0 handed", "how many are blocked: none is no yes by itself, see main"),
    "commands/why.py main": ("4 Nothing is blocked apart handed", PROGRAM + "; 70 without it, and where the two differ"),
    "commands/why.py print_counts": ("apart apart", "of places at which `check` or the tool refuses the show"),
    "commands/without.py main": ("handed", PROGRAM + "; 70 without it"),
    "exchange/export_csv.py main": ("0", WRITTEN),
    "exchange/export_skyc.py main": ("0", WRITTEN),
    "exchange/foreign.py checked": ("apart", WHAT),
    "flying/bridge.py Bridge.down": ("kept", DIRECTOR + "; the line says that drones' own estimates are the premise"),
    "flying/bridge.py Bridge.not_flown": ("handed", NO),
    "flying/bridge.py Bridge.run": ("handed handed", PASSED),
    "flying/bridge.py Bridge.say_spread": ("apart", NO),
    "flying/bridge.py Bridge.tell_crew": ("apart apart land now", LANDING),
    "flying/bridge.py Bridge.whole": ("handed handed handed", DIRECTOR + "; all are down by " + DRONES),
    "flying/descent.py Descent.cut": ("handed", NO),
    "flying/descent.py Descent.finish": ("disarmed landed landed", DRONES),
    "flying/descent.py Descent.words_armed": ("disarmed", DRONES),
    "flying/home.py Home.break_off": ("apart", NO),
    "flying/home.py Home.fly_on": ("apart", NO),
    "flying/home.py Home.go_home": ("apart apart", NO),
    "flying/home.py Home.home": ("apart", NO),
    "flying/home.py Home.land_able": ("apart", NO),
    "flying/home.py Home.note_quiet": ("APART", NO),
    "flying/home.py Home.say_homeward": ("come home by themselves", NO),
    "flying/home.py Home.stay": ("come home by themselves", NO),
    "flying/home.py Home.warn": ("APART", NO),
    "flying/home.py Home.way_beside": ("apart", NO),
    "flying/landings.py Landings.lines": ("land now", LANDING),
    "flying/landings.py Landings.words": ("apart land now", LANDING),
    "flying/routes.py Planner.words": ("apart apart apart", NO),
    "flying/stages.py judge_stages": ("apart", NO),
    "flying/uploads.py -": ("has what it is to fly", "the words of status 0: " + UPLOAD),
    "flying/ways.py Ways.tell": ("as a whole come home by themselves stage by stage", WAY + "; of show, pause and way home as "
                                 "one text, too, and of each drone's way home alone"),
    "judging.py Verdict.__bool__": ("true", PROGRAM + ": it is `ok`"),
    "judging.py Verdict.more_blocked": ("true", NO),
    "judging.py Verdict.ok": ("true", PROGRAM + ": its status alone, which is 0 with the command's own words only"),
    "judging.py Verdict.proved": ("true", RECORD),
    "judging.py is_path": ("true", NO),
    "language/cures.py -": ("apart apart", WHAT),
    "dev/building.py -": ("proved", NO),
    "dev/building.py Watch.lanes": ("handed handed", NUMBER),
    "dev/building.py build_all": ("proved", NO),
    "dev/building.py prove": ("proved", NO),
    "dev/building.py side_by_side": ("handed handed", NUMBER),
    "dev/building.py try_on": ("handed", "the sources without a proof, for --unproved, which says so"),
    "dev/building.py try_sources": ("handed handed", "the sources without a proof, for --unproved, which says so"),
    "dev/completion.py -": ("proved proved proved", WHAT),
    "launching/help.py -": ("apart proved proved proved", WHAT),
    "launching/help.py refuse": ("2 handed", RUN),
    "launching/launcher.py answer": ("handed handed", RUN),
    "launching/launcher.py fault_of_demand": ("proved proved", NO),
    "launching/launcher.py file_for": ("proved", NO),
    "launching/launcher.py input_number": ("0 handed handed", NUMBER),
    "launching/launcher.py main": ("0 0 handed handed handed", PASSED + "; 0 itself is of a help text"),
    "dev/manual.py main": ("0", WRITTEN),
    "dev/manual.py page": ("proved", WHAT),
    "launching/records.py print_version": ("0 handed handed kept", RECORD + "; its lines name what differs from that"),
    "launching/records.py write_record": ("proved", RECORD),
    "dev/unproved.py fault": ("proved", NO),
    "dev/unproved.py take": ("proved", NO),
    "launching/running.py ended": ("handed", RUN),
    "launching/running.py fed": ("handed", RUN),
    "launching/running.py started": ("handed", NUMBER),
    "launching/table.py -": ("valid", "what each command writes at status 0, as docs/COMMANDS.md has it"),
    "launching/words.py fault_of_option": ("proved", NO),
    "seeing/sampling.py mark_of": ("apart apart", NO),
    "seeing/studio_program.py Program.now": ("proved proved", RECORD),
    "seeing/studio_server.py Handler.of_worker": ("proved", NO),
    "seeing/studio_work.py main": ("0 0 handed", "the page is told that what this process finds is not proved: of_worker"),
    "seeing/studio_work.py refused": ("handed", NO),
    "seeing/studio_work.py tool": ("handed", "a tool's own status, of the program that the studio was given: the page "
                                   "says NOT PROVED of one without a record"),
    "streams.py Heard.write": ("handed handed", NUMBER),
    "streams.py status_of": ("handed handed handed handed handed", PASSED + "; 70 in place of 0 where words were lost"),
    "writing/meetings.py -": ("separated", "what `explain` writes where it finds no blocked part"),
    "writing/flyable.py stacked": ("apart", NO),
    "writing/places.py print_place": ("APART APART", "of two at one instant, of a place at which the show is refused"),
}
# Scripts of the studio's page that may say so, and why. Their words are tried in tests/test_studio_safety.py.
SCRIPTS = {"seeing/studio_found.js": PROGRAM + " of the text as it stands, and its record; else it says NOT PROVED"}

def is_status(node):
    """What a value that is returned says as a status: `0`, another number, `handed` on, or nothing."""
    if isinstance(node, ast.Constant):
        return [str(node.value)] if type(node.value) is int else []
    if isinstance(node, ast.IfExp):
        found = is_status(node.body) + is_status(node.orelse)
        return ["0"] if "0" in found else found
    if isinstance(node, ast.Tuple):
        return [it for part in node.elts for it in is_status(part) if it == "0"]
    return ["handed"] if isinstance(node, (ast.Name, ast.Attribute, ast.Call, ast.Subscript, ast.BoolOp)) else []


def is_truth(node):
    """Whether a function's answer is true or false."""
    return node.returns is not None and ast.unparse(node.returns) == "bool"


def is_told(node):
    """Whether a function's answer may be a status, or one and its words."""
    return node.returns is not None and ast.unparse(node.returns) in ("int", "tuple[int, str]", "tuple[str, int]")


def sites_of(text, ends, truths=False):
    """By function the words of a yes in a module's text, the statuses that are returned, where `ends` says that it has
    some, and `true` of what is true or false, where it has `truths`. What stands in docstrings and in the help of
    options isn't looked at."""
    found = {}

    def visit(node, name, status):
        for child in ast.iter_child_nodes(node):
            own, told = name, status
            if isinstance(child, (ast.FunctionDef, ast.ClassDef)):
                own = "%s.%s" % (name, child.name) if name else child.name
                told = isinstance(child, ast.FunctionDef) and ends and is_told(child)
                if isinstance(child, ast.FunctionDef) and truths and is_truth(child):
                    found.setdefault(own, []).append("true")
            if isinstance(child, ast.keyword) and child.arg in ("help", "metavar") or (
                    isinstance(child, ast.Expr) and isinstance(child.value, ast.Constant)):
                continue
            if isinstance(child, ast.Constant) and isinstance(child.value, (str, bytes)):
                words = child.value if isinstance(child.value, str) else child.value.decode("latin-1")
                found.setdefault(own or "-", []).extend(WORDS.findall(words))
            if isinstance(child, ast.Return) and told:
                found.setdefault(own or "-", []).extend(is_status(child.value))
            visit(child, own, told)
    visit(ast.parse(text), "", False)
    return {name: words for name, words in found.items() if words}


def modules():
    """The modules of the package, by their paths in it; but for the simulated library."""
    for folder, _, names in os.walk(PACKAGE):
        for name in names:
            path = os.path.relpath(os.path.join(folder, name), PACKAGE)
            if name.endswith(".py") and not path.startswith("flying/simulated"):
                with open(os.path.join(PACKAGE, path), encoding="utf-8") as file:
                    yield path, file.read()


class Places(unittest.TestCase):
    def test_each_has_an_entry(self):
        found = {"%s %s" % (path, name): " ".join(sorted(words)) for path, text in modules()
                 for name, words in sites_of(text, *(it.match(path) is not None for it in (STATUSES, TRUTHS))).items()}
        wanted = {name: words for name, (words, _) in YESES.items()}
        self.assertEqual({name: (found.get(name), wanted.get(name)) for name in {*found, *wanted}
                          if found.get(name) != wanted.get(name)}, {}, "found, and as the entry has it")

    def test_scripts(self):
        found = set()
        for folder, _, names in os.walk(PACKAGE):
            for name in names:
                if name.endswith((".js", ".html", ".css")):
                    with open(os.path.join(folder, name), encoding="utf-8") as file:
                        if re.search(r"\b(PROVED|APART|KEPT)\b", re.sub("//.*", "", file.read())):
                            found.add(os.path.relpath(os.path.join(folder, name), PACKAGE))
        self.assertEqual(found, {*SCRIPTS})

    def test_what_is_found(self):
        text = '"""ok"""\nA = "ok"\ndef f() -> int:\n    "kept"\n    return 0 if A else 5\n' \
               'class B:\n    def g(self) -> tuple[str, int]:\n        return "valid %d" % 3, 0\n' \
               '    def h(self) -> int:\n        return f() or print(b"PROVED") or add(help="apart")\n' \
               'def k(self) -> str:\n    return 0, f"{A} landed"\n'
        self.assertEqual(sites_of(text, True), {"-": ["ok"], "f": ["0"], "B.g": ["0", "valid"], "B.h": ["handed", "PROVED"],
                                                "k": ["landed"]})
        self.assertEqual(sites_of(text, False), {"-": ["ok"], "B.g": ["valid"], "B.h": ["PROVED"], "k": ["landed"]})
        text = "class C:\n    def __bool__(self) -> bool:\n        return 7\n    def m(self) -> int:\n        return 1"
        self.assertEqual((sites_of(text, False, True), sites_of(text, False)), ({"C.__bool__": ["true"]}, {}))


# Programs that lie: they accept nothing that `check` would, and each says so in another way.
REFUSES = "#!/bin/sh\necho error 5 pair a b cue 1 part 0 of 64\nexit %d\n"
LIARS = {"refuses": REFUSES % 5, "loses its status": REFUSES % 0, "says nothing": "#!/bin/sh\nexit 0\n",
         "says another thing": "#!/bin/sh\necho ok\n", "is ended": "#!/bin/sh\nkill -9 $$\n", "fails": "#!/bin/sh\nexit 9\n",
         "says more": "#!/bin/sh\necho ok drones 1 cues 1 duration_ms 1; echo error 5 pair a b\n",
         "isn't there": None}
GOOD, BAD, FILE = (os.path.join(TOP, "examples", name) for name in ("crossing_cured.choreo", "crossing.choreo", "rising.skyc"))
# Commands whose yes is about a show, on one that is accepted; each may end with 0 by the program's word alone.
ASKING = [["why", GOOD], ["why", "--json", GOOD], ["check", "--json", GOOD], ["summary", "--json", GOOD],
          ["compile", "--json", GOOD], ["certify", "--json", GOOD], ["explain", "--json", GOOD],
          ["dynamics", "--json", GOOD], ["speed", "--json", GOOD], ["boxes", "--json", GOOD, os.devnull],
          ["deal", os.path.join(TOP, "examples", "grid_to_ring.choreo")], ["without", GOOD, "a"], ["import", "--judge", FILE],
          ["export", "skyc", GOOD, os.devnull], ["legs", "--dry", GOOD], ["bridge", GOOD],
          ["fly", "--simulate", "--yes", "--only", "look", GOOD]]
RUN_WITH = """import sys
sys.path[:0] = [%r]
from unittest import mock
from hemtoghai import __main__, program, streams
from hemtoghai.launching import launcher
program.PROGRAM = sys.argv[1]
with mock.patch.object(launcher, "file_for"):
    streams.run(lambda: __main__.main(sys.argv[2:]), sys.argv[2])
""" % PYTHON


class Liars(unittest.TestCase):
    def ended(self, path, words):
        """The status of a command with a program, and what it wrote and said; the library, where it is built, isn't asked."""
        done = subprocess.run([sys.executable, "-IS", "-c", RUN_WITH, path, *words], stdin=subprocess.DEVNULL,
                              stdout=subprocess.PIPE, stderr=subprocess.PIPE, timeout=120,
                              env={**os.environ, "HEMTOGHAI_BY": "process"})
        self.assertNotIn(b"Traceback", done.stderr)
        return done.returncode, done.stdout.decode(), done.stderr.decode()

    def test_no_yes(self):
        with tempfile.TemporaryDirectory() as room:
            for number, (how, text) in enumerate(LIARS.items()):
                path = os.path.join(room, "program%d" % number)
                if text is not None:
                    with open(path, "w") as file:
                        file.write(text)
                    os.chmod(path, 0o755)
                for words in ASKING:
                    status, said, told = self.ended(path, words)
                    self.assertNotEqual(status, 0, (how, words, said, told))
                    self.assertTrue(status != 70 or told.strip(), (how, words, said))
                    self.assertNotRegex(said + told, r"(?m)^(check: )?ok |APART: |all drones are apart|\"ok\": true", (how, words))

    def test_ways(self):
        # A way is accepted with the words of `check`, by the file that was hashed, and by nothing else.
        text = b"choreo 1\ndrone a 0 0 0 0\ncue 1\nend\n"
        with tempfile.TemporaryDirectory() as room:
            for number, (how, lies) in enumerate(LIARS.items()):
                path = os.path.join(room, "program%d" % number)
                if lies is not None:
                    with open(path, "w") as file:
                        file.write(lies)
                    os.chmod(path, 0o755)
                with mock.patch.object(program, "PROGRAM", path), mock.patch.dict(stages.ANSWERS, clear=True):
                    self.assertTrue(stages.refusal_of(text), how)

            def exchanged(*given):
                found = run(*given)
                asked.append(found)
                if len(asked) == 2:  # right before it runs
                    os.replace(other, path)
                return found
            asked = []
            path, other, run = os.path.join(room, "good"), os.path.join(room, "other"), program.runs
            for name, says in ((path, "error 5 pair a b cue 1 part 0 of 64"), (other, "ok drones 1 cues 1 duration_ms 1")):
                with open(name, "w") as file:
                    file.write("#!/bin/sh\necho %s\nexit %d\n" % (says, 5 * (name == path)))
                os.chmod(name, 0o755)
            with open(path, "rb") as file, open(path + ".built", "w") as record:
                json.dump({"sha256": hashlib.sha256(file.read()).hexdigest(), "rests_on": "logic=proved "}, record)
            with mock.patch.object(program, "PROGRAM", path), mock.patch.dict(stages.ANSWERS, clear=True):
                self.assertEqual(stages.refusal_of(text), "error 5 pair a b cue 1 part 0 of 64")
                stages.ANSWERS.clear()
                with mock.patch.object(program, "runs", exchanged):
                    if run().startswith("/proc/"):
                        self.assertEqual(stages.refusal_of(text), "error 5 pair a b cue 1 part 0 of 64")
                        self.assertEqual(len(asked), 2)

    def test_no_margin(self):
        # Without the program nothing is accepted with a greater stray.
        status, said, _ = self.ended("/none", ["summary", "--margin", GOOD])
        self.assertEqual((status, "accepted" in said, "no margin: `check` was not asked" in said), (0, False, True))

    def test_own_words_alone(self):
        # The status of a command is 0 with its own words, by the examples of docs/COMMANDS.md, and with no others.
        answers = {"check": b"ok drones 2 cues 3 duration_ms 7000\n", "verify": b"valid depth 6 trees 3\n",
                   "boxes": b"kept regions 2\n", "certify": b"version 2\ncertificate 6\n58\n47\n00\n",
                   "play": b"0 a 0 0 1000000 0\n0 b 1000000 0 1000000 0\n", "speed": b"speed solo 4375000 0 0\n",
                   "report": b'{"bytes":[34,62],"cues":3,"drones":["a","b"],"duration_ms":7000,"nodes":3,"packets":[3,4]}\n',
                   "compile": b"plan 1\ndrone solo bytes 28 pieces 1\ndata 00\nend\n",
                   "dynamics": b"dynamics solo acceleration 3757789 0 0 jump 0 cue 1 0 cue 1 0 cue 1 begins rest ends rest\n"}
        for command, answer in answers.items():
            for other in answers:
                self.assertEqual(program.is_answer([other], 0, answer), other == command, (other, command))
            for spoilt in (b"", answer[:-1], answer[1:], b"error 5 pair a b cue 1 part 0 of 64\n", answer + b"\0"):
                self.assertEqual(program.is_answer([command], 0, spoilt), command == "certify" and spoilt[:1] == b"v", spoilt)
        self.assertTrue(program.is_answer(["check"], 5, b""))  # a refusal needs no words
        self.assertFalse(program.is_answer(["version"], 0, b""))

    def test_truth(self):
        for status in (0, 1, 5, 70):
            verdict = judging.Verdict(status, b"", None, b"")
            self.assertEqual((bool(verdict), verdict.ok), (status == 0, status == 0))


if __name__ == "__main__":
    unittest.main()
