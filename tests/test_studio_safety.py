"""./show studio where something goes wrong around it: many requests at once, a file that another program writes, a disk
that is full, a program that is exchanged, and pages that listen and are gone."""
import hashlib
import json
import os
import resource
import shutil
import socket
import subprocess
import sys
import tempfile
import threading
import time
import unittest

sys.dont_write_bytecode = True
sys.path.insert(0, os.path.dirname(os.path.abspath(__file__)))
from test_studio import GOOD, NEAR, STAND_IN, WAIT, Running, children, soon
from hemtoghai.seeing import showfile
from hemtoghai.seeing import studio_program

QUICK = "#!/bin/sh\ncat > /dev/null\necho ok drones 2 cues 1 duration_ms %d\n"


def program_in(folder, body, rests_on="logic=proved of a test"):
    """A program with a record of its own SHA-256."""
    path = os.path.join(folder, "program")
    with open(path, "w") as file:
        file.write(body)
    os.chmod(path, 0o755)
    with open(path, "rb") as file:
        digest = hashlib.sha256(file.read()).hexdigest()
    with open(path + ".built", "w") as file:
        json.dump({"sha256": digest, "rests_on": rests_on}, file)
    return path


class Many(unittest.TestCase):
    def test_400_at_once(self):
        """400 requests from as many connections: each is answered, few processes run, and none is left."""
        folder = tempfile.TemporaryDirectory()
        self.addCleanup(folder.cleanup)
        program = program_in(folder.name, "#!/bin/sh\ncat > /dev/null\necho error 3 line 1 header\nexit 3\n")
        studio = Running(GOOD, ("--program", program), begins=True)
        self.addCleanup(studio.end)
        heads = "Host: 127.0.0.1:%s\r\nOrigin: http://127.0.0.1:%s\r\n" % (studio.port, studio.port)
        answers, most = [], 0

        def ask(number):
            body = json.dumps({"page": "p%d" % (number % 4), "number": number + 1, "text": "choreo 1\nx %d\n" % number})
            kind = "POST /%s/judge HTTP/1.0\r\n%sContent-Length: %d\r\n\r\n%s" % (studio.token, heads, len(body), body)
            if number % 4 == 3:
                kind = "GET /%s/text HTTP/1.0\r\n%s\r\n" % (studio.token, heads)
            with socket.create_connection(("127.0.0.1", int(studio.port)), timeout=300) as link:
                link.sendall(kind.encode())
                said = b""
                while True:
                    more = link.recv(65536)
                    if not more:
                        break
                    said += more
            answers.append(said.split(b" ", 2)[1])
        threads = [threading.Thread(target=ask, args=(number,)) for number in range(400)]
        for thread in threads:
            thread.start()
        while any(thread.is_alive() for thread in threads):
            most = max(most, len(children(studio.process.pid)))
            time.sleep(0.05)
        self.assertEqual(len(answers), 400)
        self.assertLessEqual(set(answers), {b"200", b"409"})  # 409: a newer text of the same page was there before
        self.assertLessEqual(most, 12)  # eight at a time, the worker that is kept ready, and those that begin and end
        self.assertEqual(studio.stages("choreo 3\n", "q", 1)["verdict"]["line"], "error 3 line 1 header")
        self.assertTrue(soon(lambda: len(children(studio.process.pid)) <= 1), "processes are left")

    def test_listeners(self):
        """Pages that are told of the file: 32 at a time, and one that is gone makes room for another."""
        studio = Running(GOOD)
        self.addCleanup(studio.end)
        links = []
        for _ in range(33):
            link = socket.create_connection(("127.0.0.1", int(studio.port)), timeout=WAIT)
            link.sendall(("GET /%s/events HTTP/1.0\r\nHost: 127.0.0.1:%s\r\n\r\n" % (studio.token, studio.port)).encode())
            links.append((link, link.recv(12)))
        self.assertEqual([said[-3:] for _, said in links].count(b"200"), 32)
        self.assertEqual([said[-3:] for _, said in links].count(b"503"), 1)
        for link, _ in links:
            link.close()
        studio.write(NEAR)  # it is told to those that listen, and so it is seen that they are gone
        until = time.monotonic() + WAIT
        while time.monotonic() < until:
            link = socket.create_connection(("127.0.0.1", int(studio.port)), timeout=WAIT)
            link.sendall(("GET /%s/events HTTP/1.0\r\nHost: 127.0.0.1:%s\r\n\r\n" % (studio.token, studio.port)).encode())
            said = link.recv(12)
            link.close()
            if said[-3:] == b"200":
                break
            time.sleep(0.2)
            studio.write(NEAR + "#" * int(5 * (until - time.monotonic())))
        self.assertEqual(said[-3:], b"200")


class File(unittest.TestCase):
    def test_changed_below(self):
        """While another program writes the file, it is always one of both texts as a whole; a text that was there when
        the page wanted to save is refused to be written over."""
        studio = Running(GOOD)
        self.addCleanup(studio.end)
        stamp = json.loads(studio.ask("GET", "text")[2])["stamp"]
        for number in range(40):
            mine, theirs = b"mine %d\n" % number, b"theirs %d\n" % number
            thread = threading.Thread(target=studio.write, args=(theirs,))
            thread.start()
            status, said = studio.post("save", text=mine.decode(), stamp=stamp)
            thread.join()
            now = studio.read()
            self.assertIn((status, now), ((200, mine), (200, theirs), (409, theirs)))
            stamp = hashlib.sha256(now).hexdigest()
            if number % 4 == 3:  # this one was there before
                self.assertEqual(studio.post("save", text="x", stamp=hashlib.sha256(b"other").hexdigest())[0], 409)
                self.assertEqual(studio.read(), now)

    def test_removed_below(self):
        studio = Running(GOOD)
        self.addCleanup(studio.end)
        stamp = json.loads(studio.ask("GET", "text")[2])["stamp"]
        os.remove(studio.path)
        self.assertEqual(studio.post("save", text=NEAR, stamp=stamp)[0], 409)
        self.assertFalse(os.path.exists(studio.path))
        self.assertEqual(studio.post("save", text=NEAR, stamp=stamp, force=True)[0], 200)
        self.assertEqual(studio.read(), NEAR.encode())

    def test_unreadable(self):
        """A folder in the place of the file is named, and the studio goes on."""
        studio = Running(GOOD)
        self.addCleanup(studio.end)
        os.remove(studio.path)
        os.mkdir(studio.path)
        status, _, said = studio.ask("GET", "text")
        self.assertEqual((status, "show.choreo" in json.loads(said)["words"]), (500, True))
        self.assertEqual(studio.post("save", text=NEAR, force=True)[0], 500)
        os.rmdir(studio.path)
        self.assertEqual(studio.post("save", text=NEAR, force=True)[0], 200)


class Disk(unittest.TestCase):
    def limited(self, most):
        """A studio that can write no file beyond so many bytes."""
        studio = Running(GOOD, limits=[(resource.RLIMIT_FSIZE, most)])
        self.addCleanup(studio.end)
        return studio

    def test_limit_of_size(self):
        """Where the disk takes no more, the old file stays whole, nothing else stays, and the page is told."""
        studio = self.limited(4096)
        status, said = studio.post("save", text=GOOD + "#" * 10000, force=True)
        self.assertEqual((status, studio.read()), (500, GOOD.encode()))
        self.assertIn("show.choreo: ", said["words"])
        self.assertEqual(os.listdir(studio.folder.name), ["show.choreo"])
        self.assertEqual(studio.post("save", text=NEAR, force=True)[0], 200)  # a small one has room
        self.assertEqual((studio.read(), studio.read("~")), (NEAR.encode(), GOOD.encode()))

    def test_full(self):
        """A disk of 64 KiB, full: the same."""
        folder = tempfile.mkdtemp()
        self.addCleanup(os.rmdir, folder)
        words = ["mount", "-t", "tmpfs", "-o", "size=64k", "tmpfs", folder]
        if not shutil.which("mount") or subprocess.run(words, stderr=subprocess.DEVNULL).returncode:
            self.skipTest("no small disk can be made here")
        self.addCleanup(subprocess.run, ["umount", folder])
        path = os.path.join(folder, "show.choreo")
        with open(path, "w") as file:
            file.write(GOOD)
        studio = Running(None, ("--program", STAND_IN), path)
        self.addCleanup(studio.end)
        status, said = studio.post("save", text=GOOD + "#" * 100000, force=True)
        self.assertEqual((status, studio.read()), (500, GOOD.encode()))
        self.assertIn("No space left", said["words"])
        self.assertEqual(os.listdir(folder), ["show.choreo"])


class Exchanged(unittest.TestCase):
    """Proved is said of the bytes that run: a program that is exchanged isn't the one of its record, and isn't run. There
    is no verdict then."""

    def setUp(self):
        self.folder = tempfile.TemporaryDirectory()
        self.addCleanup(self.folder.cleanup)
        self.path = program_in(self.folder.name, QUICK % 5000)
        self.studio = Running(GOOD, ("--program", self.path))
        self.addCleanup(self.studio.end)

    def verdict(self):
        """The length that is said of a text, or that there is no verdict; and whether it counts as proved."""
        found = self.studio.stages(GOOD)["verdict"]
        return found["line"][-4:] if found["status"] == 0 else found["line"][:10], found["proved"]

    def test_as_recorded(self):
        self.assertEqual(self.verdict(), ("5000", True))

    def test_written_over(self):
        self.verdict()
        with open(self.path, "w") as file:
            file.write(QUICK % 9000)
        self.assertEqual(self.verdict(), ("no verdict", False))

    def test_same_size_and_time(self):
        """Another file under the same name, with the size and the time of the first."""
        self.verdict()
        times = os.stat(self.path)
        with open(self.path + ".new", "w") as file:
            file.write(QUICK % 9000)
        os.chmod(self.path + ".new", 0o755)
        os.utime(self.path + ".new", ns=(times.st_atime_ns, times.st_mtime_ns))
        os.replace(self.path + ".new", self.path)
        self.assertEqual(self.verdict(), ("no verdict", False))
        program_in(self.folder.name, QUICK % 7000)  # and one with a record of its own
        self.assertEqual(self.verdict(), ("7000", True))

    def test_record_gone(self):
        self.verdict()
        os.remove(self.path + ".built")
        self.assertEqual(self.verdict(), ("5000", False))

    @unittest.skipUnless(hasattr(os, "memfd_create"), "no files in memory")
    def test_the_bytes_that_were_hashed(self):
        """What runs is what was hashed, also where the file is written between the two."""
        program = studio_program.Program(self.path)
        state, path = program.now()
        with open(self.path, "w") as file:
            file.write(QUICK % 9000)
        said = subprocess.run([path], input=b"", stdout=subprocess.PIPE).stdout
        self.assertEqual((state["proved"], said[-5:]), (True, b"5000\n"))
        with self.assertRaises(OSError), open(path, "r+b", buffering=0) as file:
            file.write(b"x")  # nobody writes into it
        self.assertFalse(program.state()["proved"])


class Names(unittest.TestCase):
    def test_stamps(self):
        """The stamp of a file that isn't there differs from that of an empty one."""
        self.assertNotEqual(showfile.stamp_of(None), showfile.stamp_of(b""))


if __name__ == "__main__":
    unittest.main()
