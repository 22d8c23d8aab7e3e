"""How ./show studio opens the browser: what any user of the machine sees of it leads nobody else to the page."""
import http.client
import os
import stat
import subprocess
import sys
import tempfile
import unittest
from unittest import mock

sys.dont_write_bytecode = True
sys.path.insert(0, os.path.dirname(os.path.abspath(__file__)))
from common import SHOW
from test_studio import GOOD, WAIT, soon
from test_studio_page import Led
from hemtoghai.seeing import studio_opening

AS_NOBODY = "import encodings.idna, os, sys, urllib.request as web\n" \
            "os.setgid(65534); os.setuid(65534); web.urlopen(sys.argv[1])"


class Opened(Led):
    """A studio that opens a browser, in whose place a script notes what it was given."""

    def setUp(self):
        folder = tempfile.TemporaryDirectory()
        self.addCleanup(folder.cleanup)
        self.given, script, show = (os.path.join(folder.name, name) for name in ("given", "browser", "show.choreo"))
        with open(script, "w") as file:
            file.write("#!/bin/sh\necho \"$@\" > %s.new; mv %s.new %s\n" % (self.given, self.given, self.given))
        os.chmod(script, 0o755)
        with open(show, "w") as file:
            file.write(GOOD)
        self.studio = subprocess.Popen([SHOW, "studio", "--program", self.program, show], stdout=subprocess.PIPE,
                                       stderr=subprocess.DEVNULL, universal_newlines=True,
                                       env={**os.environ, "BROWSER": script})
        self.addCleanup(self.studio.communicate)
        self.addCleanup(self.studio.terminate)
        self.address = self.studio.stdout.readline().split()[-1]
        self.assertTrue(soon(lambda: os.path.exists(self.given)))
        with open(self.given) as file:
            self.link = file.read().strip()

    def status(self, link, **heads):
        """The status of an answer, and where it leads."""
        _, _, host, path = link.split("/", 3)
        asked = http.client.HTTPConnection(host, timeout=WAIT)
        asked.request("GET", "/" + path, headers=heads)
        answer = asked.getresponse()
        answer.read()
        return answer.status, answer.headers["Location"]

    @unittest.skipUnless(os.access(studio_opening.CONNECTIONS[0], os.R_OK), "the system doesn't say who connects")
    def test_link(self):
        """The browser isn't given the address. Its link leads to the page once: the address has the word, and no more."""
        self.assertNotIn(self.address.split("/")[3], self.link)
        self.assertEqual(self.status(self.link, Host="elsewhere.example")[0], 421)
        self.assertEqual(self.status(self.link, Origin="http://elsewhere.example")[0], 403)
        if os.getuid() == 0:  # another user comes first, and gets nothing
            done = subprocess.run([sys.executable, "-c", AS_NOBODY, self.link], stderr=subprocess.PIPE)
            self.assertIn(b"403", done.stderr)
        self.browser.ask("POST", "/url", {"url": self.link})
        self.assertEqual(self.browser.ask("GET", "/url"), self.address)
        self.says("accepted")
        self.assertEqual(self.text(), GOOD)
        self.assertEqual(self.status(self.link), (403, None))


class File(unittest.TestCase):
    """Where the system doesn't say who connects."""

    def test_file(self):
        with mock.patch.object(studio_opening, "CONNECTIONS", ["/nowhere/tcp"]):
            opening = studio_opening.Opening("http://127.0.0.1:20000/word/", 20000)
            given = opening.given()
            self.assertTrue(given.startswith("file:///"))
            path = given[len("file://"):]
            modes = [stat.S_IMODE(os.stat(it).st_mode) for it in (path, os.path.dirname(path))]
            self.assertEqual(modes, [0o600, 0o700])
            with open(path) as file:
                self.assertIn("0; url=http://127.0.0.1:20000/word/", file.read())
            self.assertFalse(opening.leads("", 1))
            opening.close()
            self.assertFalse(os.path.exists(path))


if __name__ == "__main__":
    unittest.main()
