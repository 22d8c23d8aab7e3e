"""./show with a stand-in for rt and one for the program: what is built and when, what signals leave, words and files.
The real rt is not run here."""
import contextlib
import hashlib
import json
import os
import pty
import re
import resource
import shutil
import signal
import subprocess
import sys
import tempfile
import time
import unittest

import forked
from common import TOP
from hemtoghai.__main__ import COMMANDS
from hemtoghai.dev import progress
from hemtoghai.dev.manual import rows_of
from hemtoghai.launching import records, table, words as commands
from hemtoghai.launching.help import PURPOSES

# As rt does, it keeps others out of the crate's folder and of those below it, refuses a crate whose lower ones aren't
# proved, builds PROGRAM, and runs a try in a folder of its own below TMPDIR. It notes each call in `calls`. Where SLOW
# names the crate, or `try`, it starts a prover, notes its process, and waits for it; with STUBBORN it takes its time to
# end when told to. The crate that LATE names takes some seconds.
FAKE_RT = """#!/usr/bin/env -S python3 -IS
import fcntl, os, signal, sys, time
crate, home = os.path.basename(os.getcwd()), os.environ["HOME_OF_TEST"]
if sys.argv[1] == "version":
    print("a toolchain")
    sys.exit(0)
with open(home + "/calls", "a") as calls:
    calls.write(sys.argv[1] + " " + crate + "\\n")
def wait_for_prover():
    import subprocess
    if os.environ.get("STUBBORN"):
        signal.signal(signal.SIGTERM, lambda *_: time.sleep(1.5) or sys.exit(1))
    prover = subprocess.Popen(["sleep", "300"])
    with open(home + "/started.new", "w") as file:
        file.write("%d %d" % (os.getpid(), prover.pid))
    os.rename(home + "/started.new", home + "/started")
    prover.wait()
slow = os.environ.get("SLOW")
if sys.argv[1] == "try":
    import shutil, subprocess, tempfile
    if os.environ.get("UNTRIED"):
        sys.exit("no try here")
    with tempfile.TemporaryDirectory(dir=home if os.environ.get("HIDES") else None) as room:
        shutil.copy(home + "/program", room + "/tried")
        if slow == "try":
            wait_for_prover()
        time.sleep(0.5)
        done = subprocess.run([room + "/tried", *sys.argv[3:]])
        print("run=ended status=%d runners=1 proved=no" % done.returncode, file=sys.stderr)
    sys.exit(done.returncode)
below = {"middle": ["low"], "beside": ["low"], "show_cli": ["low", "middle", "beside"]}.get(crate, [])
held = [os.open(os.path.join("..", it), os.O_RDONLY) for it in [crate, *below]]
try:
    for it in held:
        fcntl.flock(it, fcntl.LOCK_EX | fcntl.LOCK_NB)
except BlockingIOError:
    print("another rt works here")
    sys.exit(1)
if crate == os.environ.get("FAILS") or not all(os.path.exists("../%s/out/rlib" % it) for it in below):
    print("some goal is open")
    sys.exit(1)
if crate == slow:
    wait_for_prover()
if crate == os.environ.get("CHANGES"):
    with open(home + "/crates/low/src/lib.rt", "a") as file:
        file.write("// a change meanwhile\\n")
time.sleep(6 if crate == os.environ.get("LATE") else 0.5 if crate in ("middle", "beside") else 0)
os.makedirs("out/rlib", exist_ok=True)
if sys.argv[1] == "run":
    import shutil, subprocess
    shutil.copy("../../program", "out/show_cli")
    print("logic=proved functions=3 axioms=1", file=sys.stderr)
    sys.exit(subprocess.run(["out/show_cli", *sys.argv[5:]]).returncode)
"""
# It refuses `1.5`, and words as the program does, and tells what it was given, `play` and `upload` byte for byte.
PROGRAM = """#!/usr/bin/env -S python3 -IS
import sys
words = sys.argv[1:]
if words[0] not in %r or not all(it.isdigit() or it.startswith("--") and "=" not in it for it in words[1:]):
    print("error 2 usage")
    sys.exit(2)
if words[0] == "drill" and (len(words) < 2 or int(words[1]) > 32):
    print("error 2 usage")
    sys.exit(2)
data = sys.stdin.buffer.read()
if words[0] in ("play", "upload"):
    sys.stdout.buffer.write(data[::-1])
    sys.exit(3 if b"1.5" in data else 0)
text = data.decode()
if "1.5" in text:
    print("error 3 line 2 bad-number")
    sys.exit(3)
print(words, repr(text))
""" % sorted(table.FORMS)
GOOD = "['check'] 'a\\n'\n"


def plain(cell):
    """A cell of a table of a document without links and backquotes."""
    return re.sub(r"\[(`[^`]*`|[^]]*)\]\([^)]*\)", r"\1", cell).replace("`", "")


class Place(unittest.TestCase):
    def setUp(self):
        folder = tempfile.TemporaryDirectory()
        self.addCleanup(folder.cleanup)
        self.place = os.path.join(folder.name, "place")
        os.mkdir(self.place)
        for name in ("python", "docs"):
            os.symlink(os.path.join(TOP, name), os.path.join(self.place, name))
        shutil.copy(os.path.join(TOP, "show"), self.place)
        self.file("VERSION", "1.2.3\n")
        self.file("crates.txt", "# all\nlow: arrayvec\nmiddle: low\nbeside: low\nother:\nshow_cli: low middle beside\n")
        for crate in ("low", "middle", "beside", "other", "show_cli"):
            for inside, name in (("src", "lib.rt"), ("specs", "Lib.antt"), ("must-fail", "wrong.edit")):
                os.makedirs(os.path.join(self.place, "crates", crate, inside))
                self.file("crates/%s/%s/%s" % (crate, inside, name), "")
        os.mkdir(os.path.join(self.place, "bin"))
        self.file("bin/rt", FAKE_RT, 0o755)
        self.file("program", PROGRAM, 0o755)
        self.file("good", "a\n")
        self.file("bad", "choreo 1\ncue 1.5\n")

    def path(self, name):
        """The path of a file of the place."""
        return os.path.join(self.place, name)

    def file(self, name, text, mode=0o644):
        """A file of the place."""
        with open(self.path(name), "w") as file:
            file.write(text)
        os.chmod(self.path(name), mode)

    def settings(self, place, **more):
        """The environment of the launcher: rt is the stand-in of the place."""
        path = os.path.join(place, "bin") + os.pathsep + os.environ["PATH"]
        return {**os.environ, "PATH": path, "HOME_OF_TEST": place, **more}

    def show(self, *words, text="", place=None, **more):
        """The status, standard output and standard error of the launcher in its place."""
        place = place or self.place
        done = forked.ANEW.run(["./show", *words], cwd=place, input=text, stdout=subprocess.PIPE, stderr=subprocess.PIPE,
                               universal_newlines=True, timeout=60, env=self.settings(place, **more))
        return done.returncode, done.stdout, done.stderr

    def program(self, text):
        """Puts another program in the place of the one that was built, with a record that it is the built one."""
        self.file("crates/show_cli/out/show_cli", text, 0o755)
        self.remember()

    def remember(self):
        """Has the record be that of the program as it is now."""
        path = self.path("crates/show_cli/out/show_cli")
        with open(path + ".built") as file:
            note = json.load(file)
        with open(path, "rb") as file:
            note["sha256"] = hashlib.sha256(file.read()).hexdigest()
        with open(path + ".built", "w") as file:
            json.dump(note, file)

    def calls(self):
        """What rt was called for since the last time."""
        try:
            with open(self.path("calls")) as file:
                return file.read().split("\n")[:-1]
        except FileNotFoundError:
            return []
        finally:
            open(self.path("calls"), "w").close()

    def leftovers(self):
        """The folders of builds that are left."""
        return [it for it in os.listdir(self.place) if it.startswith(".proving-")]


class Built(Place):
    """A place where the program is built already: that is done once, and copied."""

    def setUp(self):
        super().setUp()
        if not BUILT:
            self.show("check", "good")
            BUILT.append(os.path.join(tempfile.mkdtemp(), "built"))
            unittest.addModuleCleanup(shutil.rmtree, os.path.dirname(BUILT[0]))
            unittest.addModuleCleanup(BUILT.clear)
            shutil.copytree(self.place, BUILT[0], symlinks=True)
            return
        shutil.rmtree(self.place)
        shutil.copytree(BUILT[0], self.place, symlinks=True)


BUILT = []


class Builds(Place):
    def test_order(self):
        status, _, told = self.show("check", "good", FAILS="middle")
        self.assertEqual(status, 70)
        self.assertIn("some goal is open\nshow: middle was not proved", told)
        for crate in ("low", "middle", "beside"):
            shutil.rmtree(self.path("crates/%s/out" % crate), ignore_errors=True)
        status, said, told = self.show("check", "--depth", "7", "good")
        self.assertEqual((status, said), (0, "['check', '--depth', '7'] 'a\\n'\n"), told)
        lines = re.findall(r"^show: proving (\w+); proof (\d+) %, about (?:a minute|\d+ minutes) left$", told, re.M)
        self.assertEqual([crate for crate, _ in lines], ["low", "beside", "middle", "show_cli"], told)
        shares = [int(share) for _, share in lines]
        self.assertEqual((shares[0], shares), (0, sorted(shares)))
        self.assertEqual(self.leftovers(), [])
        self.assertEqual(self.show("check", text="b"), (0, "['check'] 'b'\n", ""))

    def is_built(self, change, wanted):
        """Says that the launcher builds, or doesn't, after a change."""
        self.calls()
        change()
        status, said, told = self.show("check", "good")
        self.assertEqual((status, said), (0, GOOD), told)
        self.assertEqual(bool(self.calls()), wanted, told)

    def times(self, name, when):
        """Sets a file's time."""
        os.utime(self.path(name), (when, when))

    def test_stamp(self):
        program, now = "crates/show_cli/out/show_cli", time.time()
        self.is_built(lambda: None, True)
        self.is_built(lambda: None, False)
        # Files' times say nothing: newer sources that are the same, and older ones that are others.
        self.is_built(lambda: self.times("crates/low/src/lib.rt", now + 99), False)

        def older():
            self.file("crates/low/src/lib.rt", "fn f() {}\n")
            self.times("crates/low/src/lib.rt", now - 9999)
        self.is_built(older, True)
        self.is_built(lambda: self.file("crates/low/src/lib.rt", ""), True)
        self.is_built(lambda: self.file("crates/middle/specs/Lib.antt", "a word"), True)
        self.is_built(lambda: os.rename(self.path("crates/low/src/lib.rt"), self.path("crates/low/src/lab.rt")), True)
        crates = "low:\nmiddle: low\nbeside: low\nshow_cli: low middle beside\n"
        self.is_built(lambda: self.file("crates.txt", crates), True)
        for name in ("crates/low/must-fail/wrong.edit", "crates/other/src/lib.rt", "crates/low/out/more.rt", "NEW"):
            self.is_built(lambda: self.file(name, "b"), False)
        # Another program, however new, and one whose record is gone.
        self.is_built(lambda: self.file(program, "#!/bin/sh\necho mine\n", 0o755), True)
        self.is_built(lambda: os.remove(self.path(program + ".built")), True)
        for record in ("no record", "[]", "{}"):
            self.is_built(lambda: self.file(program + ".built", record), True)
        self.is_built(lambda: os.chmod(self.path(program), 0o644), True)

    def test_clone(self):
        self.show("check", "good")
        for k, copy in enumerate((shutil.copy2, shutil.copyfile)):
            clone = os.path.join(os.path.dirname(self.place), "clone%d" % k)
            shutil.copytree(self.place, clone, symlinks=True, copy_function=copy)
            for name in ("show", "crates/show_cli/out/show_cli"):
                os.chmod(os.path.join(clone, name), 0o755)
            os.remove(os.path.join(clone, "bin", "rt"))
            self.assertEqual(self.show("check", "good", place=clone), (0, GOOD, ""))

    def test_changed_meanwhile(self):
        status, said, told = self.show("check", "good", CHANGES="middle")
        self.assertEqual((status, said), (70, ""))
        self.assertIn("the sources were changed while they were proved", told)
        self.is_built(lambda: None, True)

    def test_no_rt(self):
        os.remove(self.path("bin/rt"))
        for words in (("check", "good"), ("--unproved", "check", "good")):
            status, said, told = self.show(*words, PATH=self.path("bin") + ":/usr/bin:/bin")
            self.assertEqual((status, said, "no rt on the PATH" in told), (70, "", True), told)

    def test_version(self):
        status, said, told = self.show("--version")
        self.assertEqual((status, said, "isn't built" in told), (70, "hemtoghai 1.2.3\n", True))
        self.show("check", "good")
        status, said, _ = self.show("--version")
        self.assertEqual(status, 0)
        self.assertIn("hemtoghai 1.2.3\nprogram sha256 ", said)
        self.assertIn("\ntoolchain a toolchain\nproof: logic=proved functions=3 axioms=1\n", said)
        self.assertNotIn("the sources are others", said)
        # The program's own command is run as any other.
        self.assertEqual(self.show("version")[:2], (0, "['version'] ''\n"))
        self.file("crates/low/src/lib.rt", "fn f() {}\n")
        self.assertIn("the sources are others now", self.show("--version")[1])
        self.file("crates/show_cli/out/show_cli", "#!/bin/sh\n", 0o755)
        status, said, _ = self.show("--version")
        self.assertEqual((status, "nothing is known of its proof" in said, "logic=" in said), (70, True, False))


class Processes(Place):
    def begin(self, *words, slow="", **more):
        """Starts the launcher; it is gone after the test in any case."""
        silent = {"stdin": subprocess.DEVNULL, "stdout": subprocess.DEVNULL, "stderr": subprocess.DEVNULL}
        begun = subprocess.Popen(words, cwd=self.place, **silent, env=self.settings(self.place, SLOW=slow, **more))
        self.addCleanup(begun.wait)
        self.addCleanup(begun.kill)
        return begun

    def started(self):
        """The processes of rt and of its prover, once they are there."""
        for _ in range(300):
            if os.path.exists(self.path("started")):
                with open(self.path("started")) as file:
                    found = [int(word) for word in file.read().split()]
                for process in found:
                    self.addCleanup(self.kill, process)
                return found
            time.sleep(0.05)
        self.fail("rt was not started")

    def kill(self, process):
        """Ends a process that the test started, if it is still there."""
        if not self.gone(process, 1):
            os.kill(process, signal.SIGKILL)

    def gone(self, process, times=100):
        """Whether a process has ended, within a few seconds."""
        for _ in range(times):
            try:
                with open("/proc/%d/stat" % process) as file:
                    if file.read().rpartition(")")[2].split()[0] == "Z":
                        return True
            except (FileNotFoundError, ProcessLookupError):
                return True
            time.sleep(0.05)
        return False


class Signals(Processes):
    def setUp(self):
        super().setUp()
        # What is ignored here, as under nohup, would be ignored by the launcher too.
        for number in (signal.SIGHUP, signal.SIGINT, signal.SIGQUIT, signal.SIGTERM):
            if signal.getsignal(number) == signal.SIG_IGN:
                signal.signal(number, signal.SIG_DFL)
                self.addCleanup(signal.signal, number, signal.SIG_IGN)

    def ended(self, words, slow, number, again=None, **more):
        """Starts the launcher, has it end by a signal while rt works, and says what it left."""
        started = self.begin("./show", *words, slow=slow, **more)
        processes = self.started()
        started.send_signal(number)
        if again:
            time.sleep(0.5)
            started.send_signal(again)
        self.assertEqual(started.wait(30), 128 + number)
        self.assertEqual([self.gone(it) for it in processes], [True, True], (words, slow, number))
        self.assertEqual(self.leftovers(), [])
        os.remove(self.path("started"))

    def test_ended(self):
        for number in (signal.SIGTERM, signal.SIGHUP, signal.SIGINT, signal.SIGQUIT):
            for words, slow in ((["check", "good"], "middle"), (["check", "good"], "show_cli"),
                                (["--unproved", "check", "good"], "try")):
                with contextlib.suppress(FileNotFoundError):  # what was tried beside a proof
                    os.remove(self.path("crates/show_cli/out/show_cli.unproved"))
                self.ended(words, slow, number)
        # What was proved before is kept.
        self.assertTrue(os.path.isdir(self.path("crates/low/out/rlib")))
        self.assertEqual(self.show("check", "good")[:2], (0, GOOD))

    def test_ended_while_it_is_tried(self):
        self.ended(["check", "good"], "try", signal.SIGTERM, LATE="middle")

    def test_told_twice(self):
        self.ended(["check", "good"], "middle", signal.SIGTERM, signal.SIGHUP, STUBBORN="1")

    def test_ignored(self):
        # As under nohup: what was ignored before stays so.
        started = self.begin("sh", "-c", "trap '' HUP; exec ./show check good", slow="low")
        processes = self.started()
        started.send_signal(signal.SIGHUP)
        time.sleep(0.6)
        self.assertIsNone(started.poll())
        started.send_signal(signal.SIGTERM)
        self.assertEqual(started.wait(30), 128 + signal.SIGTERM)
        self.assertEqual([self.gone(it) for it in processes], [True, True])

    def test_closed_terminal(self):
        child, terminal = pty.fork()
        if child == 0:
            os.chdir(self.place)
            os.execvpe("./show", ["./show", "check", "good"], self.settings(self.place, SLOW="middle"))
        self.addCleanup(self.kill, child)
        processes = self.started()
        os.close(terminal)
        for _ in range(200):
            done, _ = os.waitpid(child, os.WNOHANG)
            if done:
                break
            time.sleep(0.1)
        self.assertEqual((done, [self.gone(it) for it in processes], self.leftovers()), (child, [True, True], []))


class Words(Built, Processes):
    def setUp(self):
        super().setUp()
        os.mkdir(self.path("folder"))
        self.file("room", "a\n%%\nb\n")

    def test_json_of_the_sources(self):
        status, said, told = self.show("--unproved", "check", "--json", "good")
        self.assertIn("show: --unproved and --json don't go together, since JSON has the proved program's answer: "
                      "leave one of them out\n", told)
        self.assertNotIn("ok", said)

    def test_help(self):
        with open(os.path.join(TOP, "docs", "COMMANDS.md"), encoding="utf-8") as file:
            page = file.read()
        with open(os.path.join(TOP, "crates", "command_words", "specs", "Commands.antt"), encoding="utf-8") as file:
            text = file.read()
        text = text[text.index("pub help_text : "):]  # what the program's own `help` is defined to write
        forms = "".join(re.findall('codes "([^"]*)"', text.partition("\n\n")[0])).split("\\n")[:-1]
        self.assertEqual([form for form, _ in table.COMMANDS], forms)
        os.remove(self.path("crates/show_cli/out/show_cli"))
        self.calls()
        for words in ([], ["-h"], ["--help"]):
            status, said, told = self.show(*words)
            self.assertEqual((status, told), (0, ""))
            self.assertEqual(re.findall("^([a-z]+) [^:\n]*  ", said, re.M), [*table.FORMS, *PURPOSES])
        self.assertEqual(set(PURPOSES), {word for word in COMMANDS if "_" not in word})
        for command, form in table.FORMS.items():
            for words in ((command, "--help"), (command, "good", "-h")):
                status, said, told = self.show(*words)
                self.assertEqual((status, told), (0, ""))
                self.assertTrue(said.startswith("usage: ./show " + form), said)
            self.assertIn("\n## %s\n" % command, page)
        self.assertIn("\nD is 0 to 8\nMS is 1 to 60000\n", self.show("play", "--help")[1])
        self.assertIn("[SHOW [REGIONS]]", self.show("boxes", "--help")[1])
        self.assertIn("\n--json ", self.show("check", "--help")[1])
        self.assertNotIn("--json", self.show("drill", "--help")[1])
        self.assertEqual(self.calls(), [])

    def test_table(self):
        for name, limits in (("D", (0, 8)), ("MS", (1, 60000)), ("N", (1, 32)), ("V", (1, 999999999)), ("E", (0, 5))):
            self.assertEqual(table.NUMBERS[name], limits)
        for command, second in (("verify", "certificate"), ("rehearse", "schedule"), ("upload", "frames"),
                                ("boxes", "regions")):
            self.assertEqual(table.SECOND[command], second)
        self.assertEqual([command for command in table.FORMS if command in ("check", "play", "help", "drill")
                          and command not in table.SECOND and command not in table.NO_INPUT], ["check", "play"])
        self.assertEqual(commands.options_of("rehearse"), {"--depth": "D", "--start": None, "--readback": None})

    def test_table_of_the_page(self):
        # The tables of COMMANDS.md have the same rows, and limits where a number has these.
        with open(os.path.join(TOP, "docs", "COMMANDS.md"), encoding="utf-8") as file:
            page = file.read()
        for head, rows in (("| Words | Input | Output at status 0 |", table.ROWS),
                           ("| Option | Number | Without it |", table.OPTIONS)):
            found = [tuple(plain(cell) for cell in row) for row in rows_of(page, head)]
            self.assertEqual(found, list(rows))
            self.assertGreater(len(found), 15)
        limits = {}
        for option, words, _ in table.OPTIONS:
            if found := re.match(r"([0-9,]+) to ([0-9,]+)\b", words):
                name = option.split()[1] if option.startswith("--") else option.split()[0]
                low, high = (int(digits.replace(",", "")) for digits in found.groups())
                self.assertEqual(limits.setdefault(name, (low, high)), (low, high), option)
        self.assertEqual(limits, table.NUMBERS)

    def test_no_documents(self):
        # Nothing is read of the documents.
        wanted = self.show("check", "good"), self.show("check", "--help"), self.show("--help")
        os.remove(self.path("docs"))
        self.assertEqual((self.show("check", "good"), self.show("check", "--help"), self.show("--help")), wanted)
        self.assertEqual([status for status, _, _ in wanted], [0, 0, 0])

    def test_options(self):
        # Options before, behind and between, as two words or one.
        for words, wanted in ((("good", "--depth", "6"), ["check", "--depth", "6"]),
                              (("--depth=6", "good"), ["check", "--depth", "6"]),
                              (("good", "--depth=007"), ["check", "--depth", "007"]), (("--", "good"), ["check"])):
            self.assertEqual(self.show("check", *words), (0, "%r 'a\\n'\n" % wanted, ""))
        self.assertEqual(self.show("rehearse", "--start", "good", "--readback", "good", "--depth", "0")[1],
                         "['rehearse', '--start', '--readback', '--depth', '0'] 'a\\n%%\\na\\n'\n")
        self.assertEqual(self.show("drill", "5", "--depth", "8")[1], "['drill', '5', '--depth', '8'] ''\n")
        os.rename(self.path("good"), self.path("-good"))
        self.assertEqual(self.show("check", "--", "-good")[:2], (0, GOOD))

    def test_wrong_words(self):
        for words, line in (
                (("chek", "good"), "there is no command chek; did you mean check?"),
                (("xyz",), "there is no command xyz; ./show --help lists them"),
                (("check", "--dept", "6", "good"), "check has no option --dept; did you mean --depth?"),
                (("check", "--step", "6", "good"), "check has no option --step"),
                (("upload", "--start=1", "good"), "upload has no option --start=1; did you mean --start?"),
                (("check", "-d", "good"), "check has no option -d"),
                (("check", "good", "--depth"), "--depth D: D is 0 to 8"),
                (("check", "--depth", "9", "good"), "--depth D: D is 0 to 8, not 9"),
                (("check", "--depth=-1", "good"), "D is 0 to 8, not -1"),
                (("check", "--depth", "0000000006", "good"), "D is 0 to 8, not 0000000006"),
                (("play", "--step", "0", "good"), "MS is 1 to 60000, not 0"),
                (("check", "--depth", "1", "good", "--depth", "1"), "--depth stands twice"),
                (("drill",), "drill N: N is 1 to 32"), (("drill", "33"), "N is 1 to 32, not 33"),
                (("drill", "3", "good"), "drill reads no file"), (("help", "good"), "help reads no file"),
                (("version", "good"), "version reads no file"),
                (("--version", "good"), "there is no command --version; did you mean version?"),
                (("check", "folder"), "folder is a directory"), (("verify", "good", "folder"), "folder is a directory"),
                (("check", "goud"), "there is no file goud; did you mean good?"),
                (("check", "none/good"), "there is no file none/good"),
                (("check", "good", "bad"), "check reads one file"),
                (("boxes", "good", "good", "bad"), "boxes reads two files: a show and its regions"),
                (("verify", "-", "-"), "standard input is one of the two files, not both"),
                (("upload", "good", "-"), "{ cat SHOW; echo %%; cat; } | ./show upload"),
                (("boxes", "good"), "boxes reads regions too: ./show boxes SHOW REGIONS")):
            status, said, told = self.show(*words, text="a\n")
            self.assertEqual((status, said), (2, "error 2 usage\n"), words)
            self.assertIn("show: " if line[0].islower() else "", told)
            self.assertIn(line + "\n", told, words)
        # Where nothing is built, nothing is built for a mistake.
        self.file("crates/low/src/lib.rt", "fn f() {}\n")
        self.calls()
        self.assertEqual(self.show("chek", "good")[:2], (2, ""))
        self.assertEqual(self.calls(), [])

    def test_upload_at_a_terminal(self):
        # It would write frames there: nothing of the show is read, and the tool that carries them is named.
        child, terminal = pty.fork()
        if child == 0:
            os.chdir(self.place)
            os.execvpe("./show", ["./show", "upload", "good"], self.settings(self.place))
        out = b""
        with contextlib.suppress(OSError):  # at the end of a terminal
            while True:
                came = os.read(terminal, 4096)
                if not came:
                    break
                out += came
        os.close(terminal)
        _, status = os.waitpid(child, 0)
        self.assertEqual((os.waitstatus_to_exitcode(status), out.decode().replace("\r", "")), (
            2, "show: upload writes frames for a bridge, and nothing for people: ./show bridge good\nerror 2 usage\n"))

    def test_files(self):
        self.assertEqual(self.show("verify", "good", "bad")[1:2], ("error 3 line 2 bad-number\n",))
        self.assertEqual(self.show("verify", "good", "good")[:2], (0, "['verify'] 'a\\n%%\\na\\n'\n"))
        for command in ("boxes", "verify"):
            self.assertEqual(self.show(command, "room")[:2], (0, "['%s'] 'a\\n%%%%\\nb\\n'\n" % command))
        self.file("ends", "a\n%%")
        self.assertEqual(self.show("boxes", "ends")[:2], (0, "['boxes'] 'a\\n%%'\n"))
        for words, wanted in ((("check", "-"), "['check'] 'x\\n'\n"),
                              (("boxes", "good", "-"), "['boxes'] 'a\\n%%\\nx\\n'\n"),
                              (("verify", "-", "good"), "['verify'] 'x\\n%%\\na\\n'\n"),
                              (("boxes", "-"), "['boxes'] 'x\\n'\n")):
            self.assertEqual(self.show(*words, text="x\n")[:2], (0, wanted))
        self.assertEqual(self.show("help", text="never read")[1], "['help'] ''\n")

    def test_cures(self):
        for words, text in ((("check", "bad"), ""), (("upload", "bad"), "")):
            status, _, told = self.show(*words, text=text)
            self.assertEqual(status, 3)
            self.assertIn("     2 | cue 1.5\n", told)
            self.assertIn("show: cure: write whole numbers", told)
        self.assertEqual(self.show("check", "bad")[1], "error 3 line 2 bad-number\n")

    def test_bytes_pass_through(self):
        every = bytes(range(256)) * 999
        with open(self.path("every"), "wb") as file:
            file.write(every)
        for words, data, wanted in ((["upload", "--start", "good", "every"], b"", b"a\n%%\n" + every),
                                    (["upload", "every"], b"", every), (["play", "--step", "9"], every, every)):
            done = subprocess.run(["./show", *words], cwd=self.place, input=data, stdout=subprocess.PIPE,
                                  env=self.settings(self.place))
            self.assertEqual((done.returncode, done.stdout), (0, wanted[::-1]), words)

    def test_told_while_it_runs(self):
        # Told to end while the program waits for its input: neither stays.
        self.file("crates/show_cli/out/show_cli", "#!/bin/sh\necho $$ > started\nexec sleep 300\n", 0o755)
        self.remember()
        started = self.begin("./show", "check", "good")
        process = self.started()
        started.send_signal(signal.SIGTERM)
        self.assertEqual(started.wait(30), 128 + signal.SIGTERM)
        self.assertTrue(self.gone(process[0]))


class Edges(Built):
    """What a hostile shell, disk or neighbour does to the launcher."""

    def shell(self, line, most=None, **more):
        """The status, standard output and standard error of a line of a shell in the place; with so many bytes of
        memory at most."""
        def limit():
            resource.setrlimit(resource.RLIMIT_AS, (most, most))
        done = subprocess.run(["sh", "-c", line], cwd=self.place, stdin=subprocess.DEVNULL, stdout=subprocess.PIPE,
                              stderr=subprocess.PIPE, universal_newlines=True, timeout=120,
                              env=self.settings(self.place), preexec_fn=limit if most else None, **more)
        return done.returncode, done.stdout, done.stderr

    def test_closed_streams(self):
        # What is said goes nowhere, and never into the output.
        self.assertEqual(self.shell("./show chek good 2>&-"), (2, "error 2 usage\n", ""))
        self.assertEqual(self.shell("./show check bad 2>&-"), (3, "error 3 line 2 bad-number\n", ""))
        self.program("#!/bin/sh\necho mine >&2\necho ours\n")
        self.assertEqual(self.shell("./show check good 2>&-"), (0, "ours\n", ""))
        for words in ("--help", "--version", "check --help"):
            status, said, told = self.shell("./show %s >&-" % words)
            self.assertEqual((status, said, told.count("\n")), (70, "", 1), told)
            self.assertIn("show: Bad file descriptor", told)
        # A program whose input or output is closed sees that, as it would without the launcher.
        self.program("#!/bin/sh\nread -r line || echo no line\n")
        self.assertEqual(self.shell("./show check <&-")[:2], (0, "no line\n"))
        self.program("#!/bin/sh\necho line || exit 7\n")
        self.assertEqual(self.shell("./show check good >&-")[:2], (7, ""))

    def test_full_disk(self):
        if not os.path.exists("/dev/full"):
            self.skipTest("there is no /dev/full")
        status, said, told = self.shell("./show --help >/dev/full")
        self.assertEqual((status, told), (70, "show: No space left on device\n"))

    def test_files_without_end(self):
        # 300 MB of memory are enough: nothing is read beyond what the program reads and a text may have.
        self.program("#!/bin/sh\necho error 3 too-large\nexit 3\n")
        for words in ("check /dev/zero", "check < /dev/zero", "verify /dev/zero good", "verify good /dev/zero"):
            status, said, told = self.shell("./show " + words, 300 << 20)
            self.assertEqual((status, said), (3, "error 3 too-large\n"), told)
            self.assertNotIn("Traceback", told)
        self.program("#!/bin/sh\nhead -c 2000003 | tail -c 6\nexit 11\n")
        self.assertEqual(self.shell("./show verify good /dev/zero | tr '\\0' 0", 300 << 20)[1], "000000")

    def test_files_that_may_not_grow(self):
        # The signal for it is ignored, so a write fails, and the program says so by its status.
        self.program("#!%s\nimport os, sys\ntry:\n    [os.write(1, b'x' * 4096) for _ in range(99)]\n"
                     "except OSError:\n    sys.exit(7)\n" % sys.executable)
        self.assertEqual(self.shell("ulimit -f 8; ./show check good > out")[:2], (7, ""))

    def test_damaged_places(self):
        for words, name in (("--version", "VERSION"), ("check good", "crates.txt"), ("check good", "crates/low")):
            os.rename(self.path(name), self.path("away"))
            status, said, told = self.shell("./show " + words)
            self.assertEqual((status, said, told.count("\n")), (70, "", 1), told)
            self.assertIn(os.path.basename(name), told)
            os.rename(self.path("away"), self.path(name))
        self.file("crates.txt", "low:\n")
        self.assertIn("crates.txt: it has no line for the crate show_cli", self.shell("./show check good")[2])

    def test_damaged_records(self):
        # A record whose other words are no texts is read as far as it goes.
        path = self.path("crates/show_cli/out/show_cli.built")
        with open(path) as file:
            note = json.load(file)
        with open(path, "w") as file:
            json.dump({"sha256": note["sha256"], "stamp": note["stamp"], "commit": 7, "rests_on": None}, file)
        status, said, told = self.shell("./show --version")
        self.assertEqual((status, told), (0, ""))
        self.assertIn("\ncommit ?\n", said)
        self.assertIn("its last line was not kept", said)
        with open(path, "wb") as file:
            file.write(b"\xff" * 99)
        status, said, told = self.shell("./show --version")
        self.assertEqual((status, "nothing is known" in said, told), (70, True, ""))
        self.file("crates/show_cli/out/show_cli.seen", "\0\0\0 no note")
        self.assertEqual(self.shell("./show check good")[0], 0)

    def test_marks_of_editors(self):
        # A link that leads nowhere, as an editor marks a file that it has open, is no source.
        os.symlink("somebody@somewhere.1234", self.path("crates/low/src/.#lib.rt"))
        self.calls()
        self.assertEqual(self.show("check", "good"), (0, GOOD, ""))
        self.file("crates/low/src/lib.rt", "fn f() {}\n")
        self.assertEqual(self.show("check", "good")[:2], (0, GOOD))
        self.assertEqual(len(self.calls()), 4)

    def test_linked_folders(self):
        os.mkdir(self.path("apart"))
        self.file("apart/more.rt", "fn f() {}\n")
        os.symlink(self.path("apart"), self.path("crates/low/src/linked"))
        for text, calls in (("fn f() {}\n", 4), ("fn f() {}\n", 0), ("fn g() {}\n", 4)):
            self.file("apart/more.rt", text)
            self.calls()
            status, said, told = self.show("check", "good")
            self.assertEqual((status, said, len(self.calls())), (0, GOOD, calls), told)

    def test_may_not_be_written(self):
        # As somebody to whom nothing here belongs: what is built runs, and what isn't can't be built.
        if os.getuid():
            self.skipTest("only root can be somebody else")
        for folder, _, _ in os.walk(os.path.dirname(self.place)):
            os.chmod(folder, 0o755)
        path = "PATH=%s:/usr/bin:/bin " % self.path("bin")
        try:
            seen = self.shell(path + "python3 -c 'import sys; open(%s); sys.exit(sys.version_info < (3, 9))'" % repr(
                os.path.join(TOP, "python", "hemtoghai", "streams.py")).replace("'", '"'), user=65534, extra_groups=[])
        except OSError:
            self.skipTest("root can't be somebody else here")
        if seen[0]:
            self.skipTest("the repository or Python can be read by its owner alone")
        self.assertEqual(self.shell(path + "./show check good", user=65534, extra_groups=[]), (0, GOOD, ""))
        self.file("crates/low/src/lib.rt", "fn f() {}\n")
        status, said, told = self.shell(path + "./show check good", user=65534, extra_groups=[])
        self.assertEqual((status, said), (70, ""), told)
        self.assertNotIn("Traceback", told)
        self.assertIn("Permission denied", told)

    def test_exchanged(self):
        # What was hashed runs, also where another program takes its name, or its file, before it starts.
        path = self.path("crates/show_cli/out/show_cli")
        code = ("import sys; sys.path[:0] = ['python']\nimport subprocess\nfrom hemtoghai import program\nfile = program.runs()\n"
                "with open(%r, 'w') as other:\n    other.write('#!/bin/sh\\necho theirs\\n')\n"
                "print(subprocess.run([file], stdout=subprocess.PIPE).stdout.decode(), program.fault())" % path)
        self.program("#!/bin/sh\necho ours\n")
        done = subprocess.run([sys.executable, "-c", code], cwd=self.place, stdout=subprocess.PIPE,
                              universal_newlines=True)
        wanted = "ours\n the program isn't the one of show_cli.built: ./show check FILE builds it\n"
        self.assertEqual(done.stdout, wanted)


class Speed(Built):
    def test_nothing_is_read_twice(self):
        # Once files are some seconds old, what stat says of them is enough: no source is opened, nothing is hashed, and
        # no module is imported that takes long.
        self.program("#!/bin/sh\ncat\n")
        seen = self.path("crates/show_cli/out/show_cli.seen")
        for _ in range(60):
            self.show("check", "good")
            if os.path.exists(seen):
                break
            time.sleep(1)
        with open(seen, encoding="utf-8") as file:
            self.assertIn(self.path("crates/low/src/lib.rt"), file.read())
        done = subprocess.run([sys.executable, "-IS", "-X", "importtime", "show", "play", "good"], cwd=self.place,
                              stdout=subprocess.PIPE, stderr=subprocess.PIPE, universal_newlines=True, timeout=60,
                              env=self.settings(self.place))
        self.assertEqual((done.returncode, done.stdout), (0, "a\n"), done.stderr)
        imported = {line.split("|")[2].strip() for line in done.stderr.splitlines() if line.count("|") == 2}
        self.assertLessEqual({"hemtoghai.launching." + name for name in ("words", "running", "seen")}, imported)
        slow = {"hashlib", "json", "re", "subprocess", "tempfile", "typing", "records", "collections"}
        self.assertEqual(imported & slow, set())

    def test_each_change_is_seen(self):
        code = "import sys; sys.path[:0] = ['python']\nfrom hemtoghai import program\nfrom hemtoghai.launching import seen\nprint(seen.is_as_seen(program.PROGRAM))"
        note = ("import sys; sys.path[:0] = ['python']\nfrom hemtoghai import program\nfrom hemtoghai.launching import seen\nseen.SETTLED = -99\n"
                "print(seen.is_known_current(program.PROGRAM))")

        def said(text):
            return subprocess.run([sys.executable, "-c", text], cwd=self.place, stdout=subprocess.PIPE,
                                  universal_newlines=True, check=True).stdout.strip()
        self.assertEqual((said(code), said(note), said(code)), ("False", "True", "True"))
        source, program = "crates/low/src/lib.rt", "crates/show_cli/out/show_cli"
        times = os.stat(self.path(source)).st_mtime_ns, os.stat(self.path(program)).st_mtime_ns
        for change in (lambda: self.file("crates/low/src/new.rt", ""),
                       lambda: os.remove(self.path("crates/low/src/new.rt")),
                       lambda: self.file(source, "a"), lambda: self.file(source, ""),
                       lambda: os.utime(self.path(source), ns=(times[0], times[0])),
                       lambda: os.rename(self.path("crates/low/specs"), self.path("crates/low/spec")),
                       lambda: os.rename(self.path("crates/low/spec"), self.path("crates/low/specs"))):
            change()
            self.assertEqual(said(code), "False")
            said(note)
        self.assertEqual(said(code), "True")
        self.file(program, "#!/bin/sh\n", 0o755)
        os.utime(self.path(program), ns=(times[1], times[1]))
        self.assertEqual((said(code), said(note)), ("False", "False"))


class Unproved(Place):
    def test_kept(self):
        self.assertEqual(self.show("--unproved", "check", "good"), (0, GOOD, "show: nothing is proved in this run\n"))
        self.assertEqual(self.calls(), ["try show_cli"])
        self.assertEqual(self.show("--unproved", "check", "good"), (0, GOOD, "show: nothing is proved in this run\n"))
        self.assertEqual((self.calls(), self.leftovers()), ([], []))
        # It is never taken for the proved one, nor where sources changed.
        self.assertEqual(self.show("check", "good")[:2], (0, GOOD))
        self.assertEqual(len(self.calls()), 4)
        self.file("crates/low/src/lib.rt", "fn f() {}\n")
        self.assertEqual(self.show("--unproved", "check", "good")[:2], (0, GOOD))
        self.assertEqual(self.calls(), ["try show_cli"])
        self.file("crates/show_cli/out/show_cli.unproved", "#!/bin/sh\necho mine\n", 0o755)
        self.assertEqual(self.show("--unproved", "check", "good")[:2], (0, GOOD))

    def test_other_words(self):
        # A companion asks the program without a proof, which is made for it once. This one is no program, so it gives no yes.
        self.file("one", "choreo 1\ndrone a 0 0 1000000 0\ncue 1000\nend\n")
        for calls in (["try show_cli"], []):
            status, said, told = self.show("--unproved", "why", "one")
            self.assertEqual((status, self.calls(), self.leftovers()), (70, calls, []), told)
            self.assertTrue(told.startswith("show: nothing is proved in this run\n"), told)
            self.assertIn("it gave no answer", told + said)
        status, _, told = self.show("--unproved", "why", "one", HIDES="1")
        self.assertEqual((status, self.calls()), (70, []), told)
        self.file("crates/low/src/lib.rt", "fn f() {}\n")
        status, _, told = self.show("--unproved", "why", "one", HIDES="1")
        self.assertEqual((status, self.calls(), "goes with the program's own commands alone here" in told),
                         (70, ["try show_cli"], True), told)
        for words, line in ((("release",), "release is about what is proved: leave --unproved out"),
                            (("fly", "--radio", "drones", "one"), "no real drone is flown by a program without a proof"),
                            (("bridge", "--li=x", "one"), "no real drone is flown by a program without a proof")):
            status, said, told = self.show("--unproved", *words)
            self.assertEqual((status, said, self.calls()), (70, "", []), words)
            self.assertIn(line, told)
        self.assertEqual(self.show("--unproved", "why", "--help")[0], 0)

    def test_not_found(self):
        # Where rt builds elsewhere, each call is as the first.
        for _ in range(2):
            self.assertEqual(self.show("--unproved", "check", "good", HIDES="1")[:2], (0, GOOD))
            self.assertEqual(self.calls(), ["try show_cli"])

    def test_refusals(self):
        for _ in range(2):
            status, said, told = self.show("--unproved", "check", "bad")
            self.assertEqual((status, said), (3, "error 3 line 2 bad-number\n"))
            self.assertIn("nothing is proved in this run", told)
            self.assertIn("show: cure: write whole numbers", told)


class Meanwhile(Place):
    """What the sources answer unproved while they are proved the first time."""

    def test_answer(self):
        status, said, told = self.show("check", "good", LATE="middle")
        self.assertEqual((status, said), (0, GOOD), told)
        so_far = r"^show: so far, unproved: \['check'\] 'a\\n'; proof (\d+) %, about (?:a minute|\d+ minutes) left$"
        found = re.findall(so_far, told, re.M)
        self.assertEqual(len(found), 1, told)
        self.assertLess(int(found[0]), 100)
        self.assertLess(told.index("so far"), told.index("proving show_cli"))
        calls = self.calls()
        self.assertEqual((calls.count("try show_cli"), calls.count("run show_cli"), len(calls)), (1, 1, 5), calls)
        # It is kept as the program without a proof, and no more: the next build of other sources tries nothing.
        self.assertEqual(self.show("--unproved", "check", "good")[:2], (0, GOOD))
        self.assertEqual((self.calls(), self.leftovers()), ([], []))
        self.file("crates/low/src/lib.rt", "fn f() {}\n")
        status, said, told = self.show("check", "good")
        self.assertEqual((status, said, "so far" in told, len(self.calls())), (0, GOOD, False, 4), told)

    def test_refusal(self):
        status, said, told = self.show("check", "bad", LATE="middle")
        self.assertEqual((status, said), (3, "error 3 line 2 bad-number\n"), told)
        self.assertIn("show: so far, unproved: error 3 line 2 bad-number; proof ", told)

    def test_kept(self):
        # What was tried before is asked again, and not built.
        self.show("--unproved", "check", "good")
        self.calls()
        status, said, told = self.show("check", "good", LATE="middle")
        self.assertEqual((status, said, "show: so far, unproved: ['check'] 'a\\n'; " in told), (0, GOOD, True), told)
        self.assertNotIn("try show_cli", self.calls())

    def test_nothing_is_tried(self):
        # Other commands, standard input and sources that can't be tried: nothing is said, and the proof goes on.
        for number, (words, text) in enumerate(((("check",), "a\n"), (("compile", "good"), ""))):
            if number:
                shutil.rmtree(self.path("crates/show_cli/out"))
            status, _, told = self.show(*words, text=text)
            self.assertEqual((status, "so far" in told, "try show_cli" in self.calls()), (0, False, False), told)
        shutil.rmtree(self.path("crates/show_cli/out"))
        status, said, told = self.show("check", "good", LATE="middle", UNTRIED="1")
        self.assertEqual((status, said, "so far" in told), (0, GOOD, False), told)

    def test_failed_proof(self):
        # An answer without a proof is no answer.
        status, said, told = self.show("check", "good", LATE="low", FAILS="middle")
        self.assertEqual((status, said, "so far, unproved: " in told), (70, "", True), told)


class Progresses(unittest.TestCase):
    """Times of four crates: 3, 17, 10 and 29 seconds by the table, the last above the middle two, those above the first."""
    BELOW = {"listed": [], "drill_show": ["listed"], "whole_numbers": ["listed"],
             "mm_rounding": ["drill_show", "whole_numbers"]}

    def test_span(self):
        left = {"listed": 3.0, "drill_show": 17.0, "whole_numbers": 10.0, "mm_rounding": 29.0}
        for most, wanted in ((1, 59), (2, 49), (8, 49)):
            self.assertEqual(progress.span(self.BELOW, left, set(), most), wanted)
        # What was begun goes on first, also where its chain is the shorter one: 10, then 17, then 29.
        left["listed"] = 0.0
        self.assertEqual(progress.span(self.BELOW, left, {"whole_numbers"}, 1), 56)
        self.assertEqual(progress.span(self.BELOW, {**left, "drill_show": 0.0}, {"whole_numbers"}, 1), 39)
        self.assertEqual(progress.span(self.BELOW, dict.fromkeys(left, 0.0), set(), 4), 0)

    def test_words(self):
        build = progress.Progress(self.BELOW, 2)
        self.assertEqual(build.cost, {"listed": 3, "drill_show": 17, "whole_numbers": 10, "mm_rounding": 29})
        self.assertEqual(build.words(), "proof 0 %, about a minute left")
        # 3 of 59; 300 seconds for 3 and 60 for 60 are 5.71 for one, so 263 for the 17 and 29 of the longest chain
        build.took["listed"] = 300.0
        self.assertEqual(build.words(), "proof 5 %, about 4 minutes left")
        # A crate that was kept says nothing of the machine.
        build.took["listed"] = 0.1
        self.assertEqual(build.words(), "proof 5 %, about a minute left")
        # One that took 340 seconds for 17, and still goes on, does: 400 for 77, by 10 and 29. Of it a twentieth is left.
        build.begun["drill_show"] = time.monotonic() - 340
        self.assertEqual(build.words(), "proof 32 %, about 3 minutes left")

    def test_table(self):
        # Each crate of the program has its time, and no other crate has one.
        self.assertEqual(set(progress.SECONDS), set(records.crates_below(records.LAST)))


class Proved(Built):
    PROGRAM = "crates/show_cli/out/show_cli"

    def setUp(self):
        super().setUp()
        self.calls()

    def note(self, **more):
        """Has the record of the program say more, or something else."""
        with open(self.path(self.PROGRAM + ".built")) as file:
            note = json.load(file)
        self.file(self.PROGRAM + ".built", json.dumps({**note, **more}))

    def refused(self, why, *words):
        """Says that these words are refused with --proved, with 70 and this line; nothing is built and nothing runs."""
        status, said, told = self.show("--proved", *(words or ("check", "good")))
        self.assertEqual((status, said, told), (70, "", "show: %s\n" % why), words)
        self.assertEqual(self.calls(), [])

    def test_proved(self):
        self.assertEqual(self.show("--proved", "check", "good"), (0, GOOD, ""))
        self.assertEqual(self.show("--proved", "check", text="a\n"), (0, GOOD, ""))
        self.assertEqual(self.show("--proved", "check", "bad")[:2], (3, "error 3 line 2 bad-number\n"))
        self.assertEqual(self.show("--proved", "chek")[:2], (2, "error 2 usage\n"))
        self.assertEqual(self.calls(), [])
        done = subprocess.run([sys.executable, "-m", "hemtoghai", "--proved", "check", "good"], cwd=self.place,
                              stdout=subprocess.PIPE, stderr=subprocess.PIPE, universal_newlines=True,
                              env=self.settings(self.place, PYTHONPATH="python"))
        self.assertEqual((done.returncode, done.stdout, done.stderr), (0, GOOD, ""))

    def test_another_program(self):
        self.file(self.PROGRAM, "#!/bin/sh\necho theirs\n", 0o755)
        other = "the program isn't the one of show_cli.built: ./show check FILE builds it"
        for words in (("check", "good"), ("check", "--json", "good"), ("why", "good"), ("judge", "a", "b", "c"),
                      ("xyz",), ("help",)):
            self.refused(other, *words)
        done = subprocess.run([sys.executable, "-m", "hemtoghai", "--proved", "check", "good"], cwd=self.place,
                              stdout=subprocess.PIPE, stderr=subprocess.PIPE, universal_newlines=True,
                              env=self.settings(self.place, PYTHONPATH="python"))
        self.assertEqual((done.returncode, done.stdout, done.stderr), (70, "", "show: %s\n" % other))
        os.remove(self.path(self.PROGRAM))
        self.refused("the program isn't built; ./show check FILE builds it")

    def test_no_proof(self):
        for line in ("", "logic=tried functions=3", 7, None):
            self.note(rests_on=line)
            self.refused("show_cli.built doesn't say that the program was proved")
            self.assertEqual(self.show("check", "good"), (0, GOOD, ""))
        os.remove(self.path(self.PROGRAM + ".built"))
        self.refused("no record of how this program was built: nothing is known of its proof")
        self.file(self.PROGRAM + ".built", "no record")
        self.refused("the program isn't the one of show_cli.built: ./show check FILE builds it")

    def test_other_sources(self):
        self.file("crates/low/src/lib.rt", "fn f() {}\n")
        self.refused("the program isn't the one of these sources: ./show check FILE builds it")

    def test_other_options(self):
        both = "--proved runs the proved program alone: it goes with neither --unproved nor --program"
        self.refused(both, "--unproved", "check", "good")
        for words in (("--program", "program"), ("--program=program",), ("--prog", "program"), ("--p=program",)):
            self.refused(both, "picture", "good", *words)
        self.assertEqual(self.show("--proved", "picture", "--pe", "7", "good")[0], 2)  # an option that isn't there

    def test_help(self):
        os.remove(self.path(self.PROGRAM))
        for words in ((), ("--help",), ("check", "--help"), ("why", "-h")):
            status, said, told = self.show("--proved", *words)
            self.assertEqual((status, said, told), self.show(*words))
            self.assertEqual((status, told), (0, ""))
        self.assertIn("--proved", self.show("--help")[1])
        # A file that is called like an option for help leads past no demand.
        shutil.copy(self.path("good"), self.path("--help"))
        self.assertEqual(self.show("--proved", "why", "--", "--help")[0], 3)

    def test_later(self):
        # What is exchanged after the first look isn't run, nor by a process that is started for it.
        code = ("import sys; sys.path[:0] = ['python']\nfrom hemtoghai import program\n"
                "from hemtoghai.launching import launcher\nprint(launcher.fault_of_demand(['check']), program.words_of('why')[3:])\n"
                "print(program.fault('program'))\nwith open(program.PROGRAM + program.RECORD, 'w') as file:\n"
                "    file.write('{}')\nprint(program.fault())")
        done = subprocess.run([sys.executable, "-c", code], cwd=self.place, stdout=subprocess.PIPE,
                              universal_newlines=True)
        first, second, third = done.stdout.splitlines()
        self.assertEqual(first, "None ['--proved', 'why']")
        self.assertIn("isn't the proved program, and --proved runs no other", second)
        self.assertEqual(third, "the program isn't the one of show_cli.built: ./show check FILE builds it")


if __name__ == "__main__":
    unittest.main()
