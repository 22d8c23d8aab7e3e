"""./show judge: what it takes for a plan of the show, and what it never calls valid. Certificates are by
hand: `r`, `n` and `a` are words of directions that docs/SEPARATION.md numbers, and docs/COMMANDS.md has these trees."""
import os
import resource
import subprocess
import tempfile
import unittest

from common import choreo, example, run, TOP
from plans import plan_of

GOOD = "certificate 6\nr\nn\na\n"


class Judge(unittest.TestCase):
    def setUp(self):
        folder = tempfile.TemporaryDirectory()
        self.addCleanup(folder.cleanup)
        self.room = folder.name
        text, flown = example("crossing_cured")
        self.show, self.plan = text.decode(), plan_of(flown)

    def file(self, name, text):
        """A file with this text; its path."""
        path = os.path.join(self.room, name)
        with open(path, "w") as file:
            file.write(text)
        return path

    def judged(self, show=None, plan=None, certificate=GOOD):
        """The status of the tool, and what it says."""
        status, said, told = run("judge", self.file("show", self.show if show is None else show),
                                 self.file("plan", self.plan if plan is None else plan),
                                 self.file("certificate", certificate))
        self.assertNotIn("Traceback", told)
        self.assertEqual(said == "", status == 70, (said, told))
        return status, said + told

    def test_good(self):
        self.assertEqual(self.judged(), (0, "judge: valid depth 6 trees 3\n"))
        self.assertEqual(self.judged(show=self.show.replace("\n", "\r\n"))[0], 0)

    def test_ends_of_lines(self):
        # A carriage return before a line feed is none of the tree; one at the end of the text is.
        self.assertEqual(self.judged(certificate=GOOD.replace("\n", "\r\n"))[0], 0)
        self.assertEqual(self.judged(certificate=GOOD[:-1])[0], 0)
        for text, line in ((GOOD[:-1] + "\r", 4), (GOOD + "\n", 5), ("certificate 6\nr\n\na\n", 3), ("", 1), ("\n", 1),
                           ("certificate 6", None), ("version 2\n", 2), ("certificate 6\n.r\n", 2), ("certificate 6\nrr\n", 2),
                           ("version 2\ncertificate 6\n5\n", 3), ("version 2\ncertificate 6\n585\n", 3)):
            wanted = (12, "missing") if line is None else (11, "error 11 line %d\n" % line)
            status, said = self.judged(certificate=text)
            self.assertEqual((status, wanted[1] in said), (wanted[0], True), (text, said))

    def test_memory(self):
        # Each tree of a great certificate takes a few bytes, and a deep one no more than its line.
        def most():
            resource.setrlimit(resource.RLIMIT_AS, (1 << 29, 1 << 29))
        for trees in (b"58\n" * 3000000, b"." * 6000000 + b"58" * 6000001 + b"\n"):
            path = os.path.join(self.room, "great")
            with open(path, "wb") as file:
                file.write(b"version 2\ncertificate 6\n" + trees)
            done = subprocess.run([os.path.join(TOP, "show"), "judge", self.file("show", self.show), self.file("plan", self.plan), path],
                                  stdout=subprocess.PIPE, stderr=subprocess.PIPE, preexec_fn=most, timeout=300)
            self.assertEqual((done.returncode, done.stderr), (12, b""), done.stdout)

    def test_half_a_plan(self):
        # The second drone is gone, with and without the plan's end; and the end is gone.
        at = self.plan.index("drone b")
        for plan in (self.plan[:at], self.plan[:at] + "end\n", self.plan[:-4], self.plan[:-1], self.plan + "end\n",
                     self.plan + "\n", self.plan[:at] + self.plan[:at][7:] + "end\n"):
            for certificate in (GOOD, "certificate 6\n"):
                self.assertEqual(self.judged(plan=plan, certificate=certificate)[0], 70, plan[-60:])

    def test_another_show(self):
        # Other drones, others' order, another place, none at all; and a plan of another show.
        self.assertEqual(self.judged(show="")[0], 70)
        self.assertEqual(self.judged(show="choreo 1\n")[0], 70)
        lines = self.show.split("\n")
        drones = [k for k, line in enumerate(lines) if line.startswith("drone ")]
        swapped = list(lines)
        swapped[drones[0]], swapped[drones[1]] = lines[drones[1]], lines[drones[0]]
        for show in ("\n".join(swapped), self.show.replace("drone b", "drone c"), self.show + "drone c 0 9000000 0 0\n",
                     self.show.replace("drone a       0 0", "drone a       0 1000"),
                     "\n".join(lines[:drones[1]] + lines[drones[1] + 1:])):
            self.assertEqual(self.judged(show=show)[0], 70, show)
        self.assertEqual(self.judged(plan=plan_of(example("crossing")[1]), certificate="certificate 6\nr\n")[0], 12)

    def test_damaged_plans(self):
        data = next(line for line in self.plan.split("\n") if line.startswith("data "))
        for old, new in ((data, data[:-3]), (data, data + " 00"), (data, data.replace(" ", " 0", 1)),
                         ("plan 1", "plan 2"), ("write 4E 02", "write 4E 03"), ("\nstart 8C", "\n# start 8C"),
                         ("write 4E 02 00", "write 4E 02 01"), (self.plan[self.plan.index("\ndefine"):][:20], "\n"),
                         ("pieces 3", "pieces 4"), ("pieces 3", "pieces 0"), (data + "\n", ""), ("drone a", "drone b"),
                         ("bytes", "byte"), (data, data + "\n" + data), ("write", "writes"),
                         ("drone b", "\udc80drone b")):
            plan = self.plan.replace(old, new, 1)
            self.assertNotEqual(plan, self.plan)
            self.assertEqual(self.judged(plan=plan.encode("utf-8", "replace").decode())[0], 70, (old, new))

    def test_settings(self):
        # What the program refuses as a show isn't taken for a show without the line.
        for line in ("stray 1001", "stray x", "stray", "late 1 2", "ellipsoid 120", "stray 1\nstray 1"):
            self.assertEqual(self.judged(show=self.show + line + "\n")[0], 70, line)
        # 800 mm above one another need more than 600 and twice the stray of each: 100 is too much.
        for line, status in (("stray 1", 0), ("stray 100", 12), ("stray 0001 # so much", 0)):
            self.assertEqual(self.judged(show=self.show + line + "\n")[0], status, line)
        # A drone may have the name of a setting: its acts are none.
        show = self.show.replace(" b ", " stray ").replace("\nb ", "\nstray ").replace("  b ", "  stray ")
        plan = plan_of(choreo.flown_of(show.encode()))
        self.assertEqual(self.judged(show=show, plan=plan)[0], 0)

    def test_units(self):
        # The same show in `choreo 2`, and what isn't a quantity of such a place.
        show = "choreo 2\nellipsoid 12cm 0.3m\n"
        drones = "drone a 0 0 1m 0\ndrone b 100cm 0um 1000.000mm -0deg\ncue 2s\nend\ncue 3000ms\nend\ncue 2s\nend\n"
        self.assertEqual(self.judged(show=show + drones)[0], 0)
        for line, status in (("stray 1mm", 0), ("stray 10cm", 12), ("stray 0", 0), ("late 0s", 0), ("late 0.5s", 12),
                             ("stray 1", 70), ("stray 1.5mm", 70), ("stray 1s", 70), ("stray 1001mm", 70),
                             ("stray .5m", 70), ("stray 0.0", 70), ("late 1.5ms", 70), ("late 1cm", 70)):
            self.assertEqual(self.judged(show=show + drones + line + "\n")[0], status, line)
        for place, wrong in (("1m", "1000000"), ("1m", "1.0000001m"), ("1m", "1deg"), ("100cm", "100"), ("-0deg", "0m")):
            self.assertEqual(self.judged(show=show + drones.replace(" " + place, " " + wrong, 1))[0], 70, wrong)
        self.assertEqual(self.judged(show=show.replace("choreo 2", "choreo 02") + drones)[0], 70)
        self.assertEqual(self.judged(show=self.show.replace("1000000 0\n", "1m 0\n", 1))[0], 70)

    def test_control_characters(self):
        # No name of a file moves a cursor or sets a colour.
        for name, shown in (("\x1b[31mred", "\\x1b[31mred"), (b"\xff\x07".decode(errors="surrogateescape"), "\\udcff\\x07")):
            status, said, told = run("judge", os.path.join(self.room, name), "plan", "certificate")
            self.assertEqual((status, said, told), (70, "", "judge: %s: No such file or directory\n" % os.path.join(self.room, shown)))

    def test_files_without_end(self):
        # No more is read than a text may have.
        self.file("certificate", GOOD)
        self.file("show", self.show)
        for words in (("/dev/zero", "plan", "certificate"), ("show", "/dev/zero", "certificate"),
                      ("none", "plan", "x")):
            status, said, told = run("judge", *(
                word if word.startswith("/") else os.path.join(self.room, word) for word in words))
            self.assertEqual((status, said, told.count("\n")), (70, "", 1), told)


if __name__ == "__main__":
    unittest.main()
