"""`import hemtoghai`: verdicts, plans and numbers as values, worked by hand. The library answers where it is built, else
the program, and where that isn't built .ci/stand_in in its place, as far as it knows the words."""
import dataclasses
import hashlib
import json
import os
import re
import signal
import subprocess
import sys
import tempfile
import unittest
from unittest import mock

import common
import forked
import hemtoghai
from hemtoghai import answering, judging, program
from plans import plan_of

IS_BUILT = os.access(program.PROGRAM, os.X_OK)
PROVED = "logic=proved functions=3 axioms=1"
CROSSING, CURED = (common.example(name)[0].decode() for name in ("crossing", "crossing_cured"))
HALL, SHELF = "volume -1000 -1000 300 2500 2500 2500\n", "keepout 800 600 0 1200 1400 1500\n"


class Case(unittest.TestCase):
    def setUp(self):
        folder = tempfile.TemporaryDirectory()
        self.addCleanup(folder.cleanup)
        self.path = os.path.join(folder.name, "program")
        if not IS_BUILT:
            self.write("#!/bin/sh\nexec %s \"$@\"\n" % os.path.join(common.TOP, ".ci", "stand_in"))
            self.take(self.path)

    def write(self, text):
        """Writes a program."""
        with open(self.path, "w") as file:
            file.write(text)
        os.chmod(self.path, 0o755)

    def take(self, path):
        """Has another program be asked until the test ends, and no library."""
        for where, name, value in ((program, "PROGRAM", path), (answering, "_chosen", answering.Process())):
            patch = mock.patch.object(where, name, value)
            patch.start()
            self.addCleanup(patch.stop)


class Verdicts(Case):
    def test_accepted(self):
        verdict = hemtoghai.check(CURED)
        self.assertEqual((verdict.ok, verdict.status, verdict.line, verdict.blocked, verdict.cautions, verdict.fault),
                         (True, 0, "ok drones 2 cues 3 duration_ms 7000", (), (), None))
        self.assertEqual(hemtoghai.check(CURED.encode()), verdict)

    def test_blocked(self):
        # They change places within three seconds: in the middle both are where the other one is.
        place, = hemtoghai.check(CROSSING).blocked
        middle = 500000, 0, 1000000
        self.assertEqual(place, hemtoghai.Blocked("a", "b", 1, 3000 * 28 / 64, 3000 * 29 / 64, 1500.0, (middle, middle), 0.0,
                                                  True, None, (10, 11, 12), True))

    def test_worst_first(self):
        # Of three in a row that all stand, 100 and 200 mm from one another, of 240 that they need.
        text = "choreo 1\ndrone a 0 0 1000000 0\ndrone b 200000 0 1000000 0\ndrone c 300000 0 1000000 0\ncue 1000\nend\n"
        verdict = hemtoghai.check(text)
        # The program says the squares of these shares in thousandths, rounded down: 173.6 and 694.4.
        self.assertEqual([(place.first, place.second, place.share, place.named) for place in verdict.blocked],
                         [("b", "c", 0.173 ** 0.5, False), ("a", "b", 0.694 ** 0.5, True)])
        self.assertEqual((verdict.status, verdict.line), (5, "error 5 pair a b cue 1 part 0 of 64"))

    def test_apart_but_for_the_stray(self):
        # 300 mm to the side, of 240 that they need and 2 * 40 more: they touch nowhere.
        text = "choreo 1\nstray 40\ndrone a 0 0 1000000 0\ndrone b 300000 0 1000000 0\ncue 1000\nend\n"
        place, = hemtoghai.check(text).blocked
        self.assertEqual((place.touch, place.share, place.cause), (False, 1.562 ** 0.5, "`stray 40`"))
        # 200 mm above the other, of 600 that they need: without the stray they are as near.
        place, = hemtoghai.check(text.replace("b 300000 0 1000000", "b 0 0 1200000")).blocked
        self.assertEqual((place.touch, place.share, place.cause), (True, 0.111 ** 0.5, None))

    def test_asked_at_most_twice(self):
        # One question for the places, and one more for the cause where the show has `stray` or `late`.
        for text, wanted in ((CROSSING, 1), (CROSSING.replace("choreo 1", "choreo 1\nstray 10", 1), 1),
                             ("choreo 1\nlate 40\ndrone a 0 0 1000000 0\ndrone b 241000 0 1000000 0\ncue 1000\n"
                              "a line 1000000 0 1000000 0\nb line 1241000 0 1000000 0\nend\n", 2)):
            verdict = hemtoghai.check(text)
            with mock.patch.object(judging, "told", side_effect=judging.told) as asked:
                self.assertEqual(len(verdict.blocked), 1)
                self.assertEqual(verdict.as_data()["more_blocked"], False)
            self.assertEqual(asked.call_count, wanted, text)

    @common.wants_program
    def test_most_blocked(self):
        # 32 drones in one place, for 1,000 cues: 496 pairs in each are blocked.
        drones = "".join("drone d%d 0 0 1000000 0\n" % k for k in range(32))
        verdict = hemtoghai.check("choreo 1\n" + drones + "repeat 1000\ncue 1000\nend\nend\n")
        self.assertEqual((len(verdict.blocked), verdict.more_blocked, verdict.as_data()["more_blocked"]), (200, True, True))
        self.assertEqual([(it.first, it.second, it.cue) for it in verdict.blocked if it.named], [("d0", "d1", 1)])
        # By pair and then by cue.
        self.assertEqual({(it.first, it.second) for it in verdict.blocked}, {("d0", "d1")})
        self.assertEqual({it.cue for it in verdict.blocked}, set(range(1, 201)))
        self.assertEqual((hemtoghai.check(CROSSING).more_blocked, hemtoghai.check(CURED).more_blocked), (False, False))

    def test_named_first(self):
        # c and d meet in cue 1, a and b in cue 2: the pair a b comes first for `check`.
        text = ("choreo 1\n" + "".join("drone %s %d 0 1000000 0\n" % (name, 1000000 * k) for k, name in enumerate("abcd")) +
                "cue 1000\nc line 3000000 0 1000000 0\nend\ncue 1000\nc line 2000000 0 1000000 0\na line 1000000 0 1000000 0\nend\n")
        verdict = hemtoghai.check(text)
        self.assertEqual(verdict.line.split(" cue ")[0], "error 5 pair a b")
        self.assertEqual({(it.first, it.second, it.cue, it.named) for it in verdict.blocked},
                         {("a", "b", 2, True), ("c", "d", 1, False), ("c", "d", 2, False)})

    def test_faulty(self):
        verdict = hemtoghai.check("choreo 1\ncue 1.5\n")
        self.assertEqual((verdict.ok, verdict.line, verdict.fault, verdict.blocked), (False, "error 3 line 2 bad-number", 2, ()))
        self.assertIn("write whole numbers", verdict.cure)

    def test_truth(self):
        # `if check(text)` asks whether the show is accepted, and what is printed says why it isn't.
        refused = hemtoghai.check(CROSSING)
        self.assertEqual([bool(hemtoghai.check(CURED)), bool(refused), bool(hemtoghai.check("choreo 1\n"))],
                         [True, False, False])
        self.assertIn("status=5, line='error 5 pair a b cue 1 part", repr(refused))

    def test_name_of_a_file(self):
        with tempfile.NamedTemporaryFile(suffix=".choreo") as file:
            self.assertIn("the name of a file", hemtoghai.check(file.name).cure)
        self.assertNotIn("file", hemtoghai.check(file.name).cure)
        self.assertNotIn("file", hemtoghai.check("choreo 3").cure)

    def test_cautions(self):
        text = "choreo 1\ndrone a 0 0 100000 0\ncue 1000\na line 1000000 0 -100000 0\nend\n"
        cautions = hemtoghai.check(text).cautions
        self.assertEqual([(it.kind, it.drone, it.cue, it.line) for it in cautions], [("motion", "a", 1, 3), ("low", "a", 1, 3)])
        self.assertTrue(all(it.words.startswith("line 3, cue 1: a ") for it in cautions))
        # one that begins 199 mm above z 0, where its pad may be
        cautions = hemtoghai.check("choreo 1\ndrone a 0 0 199000 0\ncue 1000\nend\n").cautions
        self.assertEqual([(it.kind, it.drone, it.cue, it.line) for it in cautions], [("floor", "a", 1, 2)])

    def test_values_stay(self):
        verdict = hemtoghai.check(CROSSING)
        for value, name in ((verdict, "status"), (verdict.blocked[0], "first")):
            with self.assertRaises(dataclasses.FrozenInstanceError):
                setattr(value, name, "another")
        self.assertNotIn("choreo", repr(verdict))
        found = json.loads(json.dumps(verdict.as_data()))
        self.assertEqual((found["status"], found["blocked"][0]["lines"]), (5, [10, 11, 12]))

    def test_wrong_calls(self):
        # One kind of error for one kind of mistake: a number that is out of its limits, and what is no text or number.
        for call, words in ((lambda: hemtoghai.check(CURED, -1), "the depth is 0 to 8, and not -1"),
                            (lambda: hemtoghai.certify(CURED, 9), "the depth is 0 to 8, and not 9"),
                            (lambda: hemtoghai.play(CURED, 0), "step_ms is 1 to 60000, and not 0"),
                            (lambda: hemtoghai.play(CURED, 60001), "step_ms"),
                            (lambda: hemtoghai.speed(CURED, 0), "limit is 1 to 999999999, and not 0"),
                            (lambda: hemtoghai.dynamics(CURED, accel=-1), "accel is 0 to"),
                            (lambda: hemtoghai.dynamics(CURED, jump=10 ** 9), "jump is 0 to")):
            with self.assertRaises(ValueError) as refused:
                call()
            self.assertIn(words, str(refused.exception))
        for wrong in (None, 5, ["choreo 1"]):
            for call in (hemtoghai.check, hemtoghai.compile, hemtoghai.play, lambda it: hemtoghai.boxes(CURED, it),
                         lambda it: hemtoghai.verify(CURED, it), lambda it: hemtoghai.run("check", it)):
                with self.assertRaises(TypeError) as refused:
                    call(wrong)
                self.assertEqual(str(refused.exception), "a text is a str or bytes, and not " + type(wrong).__name__)
        for call, words in ((lambda: hemtoghai.check(CURED, 6.0), "the depth is a whole number, and not float"),
                            (lambda: hemtoghai.speed(CURED, 1e6), "limit is a whole number, and not float"),
                            (lambda: hemtoghai.run(["check"], CURED), "the words are one str, as 'check --depth 4', and not list")):
            with self.assertRaises(TypeError) as refused:
                call()
            self.assertEqual(str(refused.exception), words)

    def test_limits(self):
        # They are those of the options of the program.
        from hemtoghai.launching import table, words
        options = {option: number for form in table.FORMS for option, number in words.options_of(form).items() if number}
        for name, limits in judging.LIMITS.items():
            self.assertEqual(table.NUMBERS[options["--" + name]], limits, name)

    def test_any_command(self):
        verdict = hemtoghai.run("check --depth 4", CROSSING)
        self.assertEqual((verdict, verdict.depth), (hemtoghai.check(CROSSING, 4), 4))
        self.assertEqual(verdict.line, "error 5 pair a b cue 1 part 7 of 16")

    @common.wants_program
    def test_no_command(self):
        verdict = hemtoghai.run("chek", CURED)
        self.assertEqual((verdict.status, verdict.output), (2, b"error 2 usage\n"))


class Plans(Case):
    def test_plan(self):
        plan, flown = hemtoghai.compile(CURED), common.example("crossing_cured")[1]
        self.assertEqual((list(plan), len(plan), "a" in plan, "c" in plan), (["a", "b"], 2, True, False))
        self.assertEqual([drone.data for drone in plan.values()], flown.data())
        self.assertEqual(plan["b"].pack(), plan["b"].data)
        self.assertEqual([drone.pieces for drone in plan.values()], [len(segments) for segments in flown.sent])
        self.assertEqual(plan.text.decode(), plan_of(flown))
        # 34 bytes go in two writes.
        self.assertEqual([kind for kind, _ in plan["a"].packets], ["write", "write", "define", "start"])
        with self.assertRaises(KeyError):
            plan["c"]

    def test_refused(self):
        for call in (hemtoghai.compile, hemtoghai.play):
            with self.assertRaises(hemtoghai.Refused) as refused:
                call(CROSSING)
            self.assertEqual(str(refused.exception), "error 5 pair a b cue 1 part 28 of 64")
            self.assertEqual(refused.exception.verdict.blocked[0].nearest_ms, 1500.0)


class Numbers(Case):
    def test_play(self):
        self.assertEqual(hemtoghai.play(CURED, 3500)[2:4], [(3500, "a", 500000, 0, 1000000, 0), (3500, "b", 500000, 0, 1800000, 0)])

    def test_dynamics(self):
        text = "choreo 1\ndrone a 0 0 1000000 0\ncue 2000\na line 1000000 0 1000000 0\nend\n"
        self.assertEqual(hemtoghai.dynamics(text), {"a": {
            "acceleration": (0, 0, 0), "jump": (500000, 0, 0), "jump_cues": (1, 1, 1), "begins_at_rest": False,
            "ends_at_rest": False}})
        with self.assertRaises(hemtoghai.Refused) as refused:
            hemtoghai.dynamics(text, jump=300)
        self.assertEqual(refused.exception.verdict.status, 18)

    @common.wants_program
    def test_others(self):
        text = common.example("too_fast")[0]
        self.assertEqual(hemtoghai.speed(text), {"solo": (4375000, 0, 0)})
        with self.assertRaises(hemtoghai.Refused):
            hemtoghai.speed(text, limit=2500000)
        self.assertEqual(hemtoghai.report(CURED), {"bytes": [34, 62], "cues": 3, "drones": ["a", "b"], "duration_ms": 7000,
                                                   "nodes": 3, "packets": [3, 4]})
        self.assertEqual([hemtoghai.boxes(common.example(name)[0], HALL + SHELF).status
                          for name in ("shelf", "shelf_straight")], [0, 15])

    @common.wants_program
    def test_certificates(self):
        certificate = hemtoghai.certify(CURED)
        self.assertEqual(certificate, b"version 2\ncertificate 6\n58\n47\n00\n")
        self.assertEqual(hemtoghai.verify(CURED.rstrip("\n"), certificate).line, "valid depth 6 trees 3")
        self.assertEqual(hemtoghai.verify(CROSSING, certificate).status, 12)
        with self.assertRaises(hemtoghai.Refused):
            hemtoghai.certify(CROSSING)


class Proof(Case):
    ANSWERS = "#!/bin/sh\necho ok drones 1 cues 1 duration_ms 1\n"

    def record(self, **more):
        """Writes the record of the program."""
        with open(self.path, "rb") as file, open(self.path + ".built", "w") as record:
            json.dump({"sha256": hashlib.sha256(file.read()).hexdigest(), **more}, record)

    def test_proved(self):
        self.write(self.ANSWERS)
        self.take(self.path)
        self.assertEqual((hemtoghai.check("").ok, hemtoghai.check("").proved), (True, False))
        for rests_on, wanted in ((PROVED, True), ("", False), ("logic=open", False), (7, False), (PROVED, True)):
            self.record(rests_on=rests_on)
            verdict = hemtoghai.check("")
            self.assertEqual((verdict.ok, verdict.proved), (True, wanted))
        self.assertEqual(verdict.proof, PROVED)

    def test_another_program(self):
        self.write(self.ANSWERS)
        self.take(self.path)
        self.record(rests_on=PROVED)
        self.write(self.ANSWERS + "# another\n")
        with self.assertRaises(program.Unusable):
            hemtoghai.check("")
        os.remove(self.path)
        with self.assertRaises(program.Unusable):
            hemtoghai.check("")

    def answers(self, text):
        """Has a program with a record be asked, of this script."""
        self.write(text)
        self.record(rests_on=PROVED)
        self.take(self.path)

    def test_a_file_that_took_its_number(self):
        # A daemon closes all its files, and what it opens next gets their numbers.
        self.answers("#!/bin/sh\necho error 5 pair a b cue 1 part 0 of 64\nexit 5\n")
        for other in ("/bin/true", "/dev/null"):
            self.assertEqual(hemtoghai.check("").status, 5)
            file = program.runs()
            if not file.startswith("/proc/"):
                self.skipTest("there are no files in memory")
            with open(other, "rb") as opened:
                os.dup2(opened.fileno(), int(os.path.basename(file)))
            verdict = hemtoghai.check("")
            self.assertEqual((verdict.ok, verdict.status, verdict.proved), (False, 5, True), other)

    def test_one_file_a_program(self):
        # Exchanged many times, a program takes no more files in memory than there are programs.
        texts = [self.ANSWERS + "# %d\n" % k for k in range(2)]
        for text in texts:
            self.answers(text)
            self.assertTrue(hemtoghai.check("").ok)
        before = len(os.listdir("/proc/self/fd"))
        for text in 4 * texts:
            self.answers(text)
            self.assertTrue(hemtoghai.check("").ok)
        self.assertEqual(len(os.listdir("/proc/self/fd")), before)

    def test_no_answer(self):
        for said in ("exit 0", "echo", "echo ok", "echo ok drones 1 cues 1", "echo ok drones one cues 1 duration_ms 1",
                     "echo error 5 pair a b cue 1 part 0 of 64", "printf 'ok drones 1 cues 1 duration_ms 1'",
                     "echo ok drones 1 cues 1 duration_ms 1; echo more"):
            self.answers("#!/bin/sh\n%s\n" % said)
            with self.assertRaises(program.Unusable, msg=said) as refused:
                hemtoghai.check("")
            self.assertIn("no answer of `check`", str(refused.exception))
        self.answers("#!/bin/sh\nexit 0\n")
        with self.assertRaises(program.Unusable):
            hemtoghai.compile("")

    def test_a_lost_status(self):
        # A process that ignores SIGCHLD, as many daemons do, is told no status of those that it started.
        self.answers("#!/bin/sh\necho error 5 pair a b cue 1 part 0 of 64\nexit 5\n")
        before = signal.signal(signal.SIGCHLD, signal.SIG_IGN)
        try:
            with self.assertRaises(program.Unusable) as refused:
                hemtoghai.check("")
        finally:
            signal.signal(signal.SIGCHLD, before)
        self.assertIn("status is lost", str(refused.exception))

    def test_a_handler_that_raises(self):
        class Stop(Exception):
            pass

        def stop(*_):
            raise Stop

        def pipes():  # a temporary file of Python's own may be lost in the instant in which it is made
            found = (os.path.join("/proc/self/fd", name) for name in os.listdir("/proc/self/fd"))
            return sum(os.path.lexists(path) and os.readlink(path).startswith("pipe:") for path in found)
        forked.end_all()
        self.answers("#!/bin/sh\nexec sleep 20\n")
        open_before, before = pipes(), signal.signal(signal.SIGALRM, stop)
        try:
            for k in range(60):
                with self.assertRaises(Stop):
                    signal.setitimer(signal.ITIMER_REAL, 0.0002 * (k + 1))
                    hemtoghai.check("")
        finally:
            signal.setitimer(signal.ITIMER_REAL, 0)
            signal.signal(signal.SIGALRM, before)
        with self.assertRaises(ChildProcessError):  # there is no child, neither running nor ended
            os.waitpid(-1, os.WNOHANG)
        self.assertEqual(pipes(), open_before)

    def test_closed_streams(self):
        # The numbers of standard streams go to other files, those of the question among them.
        code = ("import os, sys\nsys.path.insert(0, %r)\nimport hemtoghai\nfrom hemtoghai import answering, program\n"
                "program.PROGRAM, answering._chosen, left = %r, answering.Process(), os.dup(1)\nos.closerange(0, 3)\n"
                "verdict = hemtoghai.check('x' * 100000)\nos.write(left, b'%%d %%s' %% (verdict.status, verdict.output))\n")
        self.answers("#!/bin/sh\nwc -c\nexit 5\n")
        done = subprocess.run([sys.executable, "-c", code % (common.PYTHON, self.path)], stdout=subprocess.PIPE, timeout=60)
        self.assertEqual(done.stdout.split(), [b"5", b"100000"])

    def test_out_of_memory(self):
        self.write("#!/bin/sh\nexit 1\n")
        self.take(self.path)
        with self.assertRaises(MemoryError):
            hemtoghai.check("")


class Page(unittest.TestCase):
    """docs/PYTHON.md: each program, and what stands after it."""

    @common.wants_program
    def test_programs(self):
        with open(os.path.join(common.TOP, "docs", "PYTHON.md"), encoding="utf-8") as file:
            programs = re.findall(r"^```python\n(.*?)^```\n\n```text\n(.*?)^```", file.read(), re.M | re.S)
        self.assertEqual(len(programs), 4)
        for code, wanted in programs:
            done = subprocess.run([sys.executable, "-B", "-c", code], cwd=common.TOP, stdout=subprocess.PIPE,
                                  stderr=subprocess.PIPE, universal_newlines=True, timeout=120,
                                  env={**os.environ, "PYTHONPATH": common.PYTHON})
            self.assertEqual((done.returncode, done.stdout, done.stderr), (0, wanted, ""), code)


    def test_names(self):
        """All public names and members are in the page, each with its cost."""
        with open(os.path.join(common.TOP, "docs", "PYTHON.md"), encoding="utf-8") as file:
            page = file.read()
        part = page[page.index("## The calls"):]
        for name in hemtoghai.__all__:
            kind = getattr(hemtoghai, name)
            row = re.search(r"^\| `%s\b.*$" % name, part, re.M)
            self.assertTrue(row, name)
            is_value = isinstance(kind, type) and not issubclass(kind, Exception)
            found = {*getattr(kind, "__annotations__", {}), *vars(kind)} if is_value else set()
            for member in sorted(it for it in found if not it.startswith("_")):
                self.assertRegex(row[0], r"`%s\b" % member, name)
        self.assertIn("`hemtoghai.__version__`", part)
        rows = re.findall(r"^\| `([a-z]+)\(.*?\)` \| .* \| (.+) \|$", part, re.M)
        self.assertEqual([name for name, _ in rows], [
            "check", "compile", "certify", "verify", "play", "report", "dynamics", "speed", "boxes", "run"])


class Package(unittest.TestCase):
    def said(self, *words):
        """What Python says where the package is on its path."""
        done = subprocess.run([sys.executable, *words], cwd=common.TOP, env={**os.environ, "PYTHONPATH": "python"},
                              stdout=subprocess.PIPE, stderr=subprocess.PIPE, universal_newlines=True, timeout=60)
        self.assertEqual(done.stderr, "")
        return done.returncode, done.stdout

    def test_nothing_is_imported_before_it_is_asked_for(self):
        code = "import sys, hemtoghai; print(sorted(name for name in sys.modules if name.startswith('hemtoghai')))"
        self.assertEqual(self.said("-c", code), (0, "['hemtoghai']\n"))

    def test_names(self):
        self.assertEqual(sorted(hemtoghai.__all__), dir(hemtoghai))
        for name in hemtoghai.__all__:
            self.assertIs(getattr(hemtoghai, name), getattr(judging, name))
            self.assertTrue(getattr(hemtoghai, name).__doc__)
        with self.assertRaises(AttributeError):
            getattr(hemtoghai, "nothing")

    def test_version(self):
        with open(os.path.join(common.TOP, "VERSION"), encoding="utf-8") as file:
            self.assertEqual(hemtoghai.__version__, file.read().strip())
        self.assertTrue(os.path.exists(os.path.join(common.TOP, "python", "hemtoghai", "py.typed")))

    def test_by_its_name(self):
        # Both ways to a command say the same.
        words = "why", "examples/crossing.choreo"
        status, out, _ = common.run(*words)
        self.assertEqual(self.said("-m", "hemtoghai", *words), (status, out))
        self.assertEqual(status, 5)


if __name__ == "__main__":
    unittest.main()
