"""Packets that the radio's library shouldn't hand on: none of them ends the thread that hears a drone."""
import contextlib
import io
import unittest
import unittest.mock

import common
from hemtoghai.flying import clock
from test_crazyradio import Closed, opened
from cflib.crtp import radiodriver


class Packet:
    """A packet as a faulty driver may make it: CRTP's own has a header of one byte, and at most 30 bytes of data."""

    def __init__(self, header, data):
        self.header, self.data = header, data


ODD = [Packet(None, b""), Packet(256, b""), Packet(-1, b""), Packet(10 ** 30, b"x"), Packet("a", b""),
       Packet(0x5C, None), Packet(0x5C, [300]), Packet(0x5C, "letters"), object(), Packet(0x5C, b""), Packet(0xFF, b"\xff" * 4000)]


class Odd(Closed):
    def test_each(self):
        real, left = radiodriver.RadioDriver.receive_packet, {}

        def receive(driver, wait=0):
            waiting = left.setdefault(driver.uri, list(ODD))
            return waiting.pop() if waiting else real(driver, wait)
        out = io.StringIO()
        patched = unittest.mock.patch.object(radiodriver.RadioDriver, "receive_packet", receive)
        with patched, contextlib.redirect_stderr(out):
            radio, link = opened(self.flown, common.world(self.flown))
            self.assertEqual(([*left.values()], sorted(radio.faults)), ([[], []], [0, 1]))
            self.assertIn("a packet of it can't be read", radio.faults[0])
            self.assertTrue(all(task.is_alive() for task in radio.tasks))
            self.assertEqual([kind for kind, _ in radio.memories(1)].count(0x12), 1)  # it is still heard
            for number, odd in enumerate(ODD):  # and in the midst of a link
                left.update({uri: [odd] for uri in radio.uris})
                clock.wait(0.2)
                self.assertEqual(([*left.values()], link.ailing()), ([[], []], None), number)
            self.assertTrue(all(task.is_alive() for task in radio.tasks))
            self.assertEqual([kind for kind, _ in radio.memories(0)].count(0x12), 1)
            radio.close()
        self.assertNotIn("Traceback", out.getvalue())


if __name__ == "__main__":
    unittest.main()
