"""How the studio saves its file: whole at each moment, by any name, and never over one that is read-only or no file."""
import json
import os
import signal
import sys
import tempfile
import unittest

sys.dont_write_bytecode = True
sys.path.insert(0, os.path.dirname(os.path.abspath(__file__)))
import common
from test_studio import GOOD, NEAR, Running
from hemtoghai import outputs
from hemtoghai.seeing import showfile

OLD, NEW, OLDER = b"old " * 3000, b"new " * 4000, b"older " * 2000


class Folder(common.Folder, unittest.TestCase):
    def setUp(self):
        # In memory where that is there: some thousand files are waited for until they are on their disk.
        folder = tempfile.TemporaryDirectory(dir="/dev/shm" if os.path.isdir("/dev/shm") else None)
        self.addCleanup(folder.cleanup)
        self.place = folder.name

    def read(self, name):
        with open(self.path(name), "rb") as file:
            return file.read()


class Saved(Folder):
    def save(self, name, data, stamp=None):
        return showfile.ShowFile(self.path(name)).save(data, stamp)

    def test_read_only(self):
        # Neither by Save nor by the answer that what another program wrote may go, whoever runs the studio.
        for mode in (0o444, 0o400, 0):
            self.write("show", OLD, mode)
            for stamp in (None, showfile.stamp_of(OLD)) if mode or os.getuid() == 0 else (None,):
                with self.assertRaises(PermissionError) as refused:
                    self.save("show", NEW, stamp)
            self.assertEqual(os.listdir(self.place), ["show"])
            self.assertEqual(os.stat(self.path("show")).st_mode & 0o777, mode)
            os.chmod(self.path("show"), 0o600)
            self.assertEqual(self.read("show"), OLD)
        self.assertIn("read-only", refused.exception.strerror)
        self.assertIsNone(self.save("show", NEW))
        self.assertEqual((self.read("show"), self.read("show~")), (NEW, OLD))

    def test_long_names(self):
        # A name has 255 bytes at most; SHOW~ of a longer one than 254 lacks letters at its end, never half of one.
        for name, kept in (("a" * 247, "a" * 247 + "~"), ("a" * 248, "a" * 248 + "~"), ("a" * 254, "a" * 254 + "~"),
                           ("a" * 255, "a" * 254 + "~"), ("\U0001f681" * 61 + "abc", "\U0001f681" * 61 + "abc~"),
                           ("\U0001f681" * 63 + "abc", "\U0001f681" * 63 + "ab~"),
                           ("ab" + "\U0001f681" * 63 + "c", "ab" + "\U0001f681" * 63 + "~"),
                           ("abc" + "\U0001f681" * 63, "abc" + "\U0001f681" * 62 + "~")):
            for data in (OLD, NEW):
                self.assertIsNone(self.save(name, data), name)
            self.assertEqual((sorted(os.listdir(self.place)), self.read(name), self.read(kept)),
                             (sorted([name, kept]), NEW, OLD))
            for other in (name, kept):
                os.remove(self.path(other))

    def test_what_is_kept(self):
        # What was there has its own mode and time as SHOW~, whatever SHOW~ was before.
        self.write("show", OLD, 0o600)
        os.utime(self.path("show"), ns=(10 ** 18, 10 ** 18))
        self.write("other", OLDER)
        os.symlink("other", self.path("show~"))
        self.save("show", NEW)
        found = [os.lstat(self.path(name)) for name in ("show", "show~", "other")]
        self.assertEqual([it.st_mode & 0o7777 for it in found], [0o600, 0o600, 0o644])
        self.assertEqual((found[1].st_mtime_ns, self.read("show~"), self.read("other")), (10 ** 18, OLD, OLDER))

    def test_too_long(self):
        # What is longer than a show isn't lost, and isn't read to its end.
        self.write("show", b"x" * (showfile.MOST_TEXT + 1))
        with self.assertRaises(OSError) as refused:
            self.save("show", NEW)
        self.assertIn("longer than a show", refused.exception.strerror)
        self.assertEqual(os.listdir(self.place), ["show"])
        self.assertEqual(os.path.getsize(self.path("show")), showfile.MOST_TEXT + 1)
        self.write("show", b"x" * showfile.MOST_TEXT)
        self.assertIsNone(self.save("show", NEW))
        self.assertEqual((self.read("show"), len(self.read("show~"))), (NEW, showfile.MOST_TEXT))

    def test_no_plain_file(self):
        # A FIFO that nobody writes to isn't waited for, and a device without end isn't read.
        os.mkfifo(self.path("fifo"))
        os.symlink("/dev/zero", self.path("zero"))
        os.mkdir(self.path("folder"))
        before = signal.signal(signal.SIGALRM, lambda *_: self.fail("it waits"))
        self.addCleanup(signal.signal, signal.SIGALRM, before)
        self.addCleanup(signal.alarm, 0)
        signal.alarm(20)
        for name in ("fifo", "zero", "folder"):
            for call in (showfile.ShowFile(self.path(name)).read, lambda name=name: self.save(name, NEW),
                         lambda name=name: showfile.read_at_most(self.path(name), 100)):
                self.assertRaises(OSError, call)
        self.assertEqual(sorted(os.listdir(self.place)), ["fifo", "folder", "zero"])


class Killed(Folder):
    """A process that is killed at each of its steps through the two modules that save."""

    def ended_at(self, moment):
        """How a process ended that saves and kills itself at a step."""
        process = os.fork()
        if process == 0:
            steps = [0]

            def step(frame, event, _):
                if frame.f_code.co_filename in (outputs.__file__, showfile.__file__):
                    steps[0] += 1
                    if steps[0] == moment:
                        os.kill(os.getpid(), signal.SIGKILL)
                    return step
            file = showfile.ShowFile(self.path("show"))
            sys.settrace(step)
            file.save(NEW, None)
            os._exit(0)
        return os.waitstatus_to_exitcode(os.waitpid(process, 0)[1])

    def test_each(self):
        has_unnamed, moment, status, seen = outputs.unnamed(self.place), 0, 1, set()
        while status != 0:
            moment += 1
            for name in os.listdir(self.place):
                os.remove(self.path(name))
            self.write("show", OLD)
            self.write("show~", OLDER)
            status = self.ended_at(moment)
            self.assertIn(status, (0, -signal.SIGKILL), moment)
            names = set(os.listdir(self.place))
            found = self.read("show"), self.read("show~")
            # The old one is in the one or the other file, whole.
            self.assertIn(found, ((OLD, OLDER), (OLD, OLD), (NEW, OLD)), moment)
            seen.add(found)
            for name in names - {"show", "show~"}:  # only where nothing can be done before the end
                self.assertTrue(name.startswith(outputs.HIDDEN), (moment, name))
                if has_unnamed is not None:
                    self.assertIn(self.read(name), (NEW, OLD), moment)
            if has_unnamed is not None:
                self.assertLessEqual(len(names), 3, moment)
        self.assertEqual((len(seen), names), (3, {"show", "show~"}))
        self.assertGreater(moment, 60)


class Served(unittest.TestCase):
    def test_fifo_and_mode(self):
        """A show that becomes a FIFO or read-only while its page is open: each request is answered, in words."""
        studio = Running(GOOD)
        self.addCleanup(studio.end)
        os.chmod(studio.path, 0o444)
        status, said = studio.post("save", text=NEAR, force=True)
        self.assertEqual((status, "show.choreo: it is read-only" in said["words"]), (500, True))
        self.assertEqual(studio.read(), GOOD.encode())
        os.remove(studio.path)
        os.mkfifo(studio.path)
        for status, said in (studio.ask("GET", "text")[::2], studio.post("save", text=NEAR, force=True)):
            words = said if isinstance(said, dict) else json.loads(said)
            self.assertEqual((status, words["words"]), (500, "show.choreo: this is no plain file"))
        os.remove(studio.path)
        self.assertEqual(studio.post("save", text=NEAR, force=True)[0], 200)
        self.assertEqual(os.listdir(studio.folder.name), ["show.choreo"])


if __name__ == "__main__":
    unittest.main()
