"""Silent connections to ./show studio: anybody on this machine can open some, and the page is served anyway."""
import contextlib
import json
import os
import resource
import socket
import sys
import time
import unittest

sys.dont_write_bytecode = True
sys.path.insert(0, os.path.dirname(os.path.abspath(__file__)))
from test_studio import GOOD, NEAR, Running, soon

FILES = 128  # that the studio may have open
SOON = 30  # seconds, on a machine that has much else to do; a silent connection may last 60


class Silent(unittest.TestCase):
    def setUp(self):
        self.studio = Running(GOOD, limits=[(resource.RLIMIT_NOFILE, FILES)])
        self.addCleanup(self.studio.end)

    def connected(self, count, said):
        """So many connections that say this and no more."""
        links = []
        for _ in range(count):
            links.append(socket.create_connection(("127.0.0.1", int(self.studio.port)), timeout=SOON))
            self.addCleanup(links[-1].close)
            with contextlib.suppress(ConnectionError):  # it is closed already
                links[-1].sendall(said)
        return links

    def is_closed(self, link):
        """Whether the other side closed a connection, on which nothing was answered."""
        link.settimeout(0.2)
        try:
            return link.recv(1) == b""
        except socket.timeout:
            return False
        except ConnectionError:
            return True

    def is_served(self):
        begin = time.monotonic()
        status, _, said = self.studio.ask("GET", "text")
        self.assertEqual((status, json.loads(said)["text"]), (200, GOOD))
        self.assertEqual(self.studio.stages(NEAR)["verdict"]["status"], 5)
        self.assertLess(time.monotonic() - begin, SOON)

    def test_silent(self):
        for said in (b"", b"GET /", b"GET / HTTP/1.0\r\nHost: 127.0.0.1\r\n"):
            links = self.connected(3 * FILES, said)
            self.is_served()
            self.assertLess(len(os.listdir("/proc/%d/fd" % self.studio.process.pid)), FILES)
            # The oldest are closed, and those that came last are waited for.
            self.assertTrue(soon(lambda: all(map(self.is_closed, links[:2 * FILES])), SOON))
            self.assertFalse(self.is_closed(links[-1]))
            for link in links:
                link.close()

    def test_one_that_asks(self):
        # One whose request came isn't closed, however many are silent after it.
        heads = "GET /%s/events HTTP/1.0\r\nHost: 127.0.0.1:%s\r\n\r\n" % (self.studio.token, self.studio.port)
        link = socket.create_connection(("127.0.0.1", int(self.studio.port)), timeout=SOON)
        self.addCleanup(link.close)
        link.sendall(heads.encode())
        found = b""
        while b"data: " not in found:
            found += link.recv(4096)
        self.connected(3 * FILES, b"")
        self.studio.write(NEAR)  # which it is told
        found = b""
        while b"data: " not in found:
            found += link.recv(4096)
        self.is_served_anew()

    def is_served_anew(self):
        status, _, said = self.studio.ask("GET", "text")
        self.assertEqual((status, json.loads(said)["text"]), (200, NEAR))


if __name__ == "__main__":
    unittest.main()
