"""The link over the simulated library: what it refuses, drops and closes, and what uploads over it leave in drones."""
import contextlib
import io
import os
import struct
import tempfile
import unittest
import unittest.mock

import common
from hemtoghai import __main__, streams
from hemtoghai.language import choreo
from hemtoghai.flying import clock
from hemtoghai.flying import crazyradio
from hemtoghai.flying import firmware
from hemtoghai.flying import uploads
from cflib import air
from cflib.crtp import radiodriver
from plans import digits, plan_of

START = bytes.fromhex("8C05000000000000803F")
MANY = 32


def show_of(count, memory=2):
    """A show of so many drones, each of which turns and goes a metre: 45 bytes, so two writes."""
    rows = ["choreo 1", "memory %d 0" % memory]
    rows += ["drone d%d %d %d 1000000 0" % (k, k % 8 * 1000000, k // 8 * 1000000) for k in range(count)]
    rows += ["cue 2000"] + ["d%d move %d %d 1000000 900" % (k, k % 8 * 1000000 + 400000, k // 8 * 1000000) for k in range(count)]
    text = ("\n".join([*rows, "end"]) + "\n").encode()
    return text, choreo.flown_of(text)


def opened(flown, where, heard=lambda *it: None, **words):
    """A radio and a link over it."""
    radio = crazyradio.Radio(flown.names, where)
    try:
        return radio, crazyradio.Link(flown.names, heard, radio, flown.show.settings["memory"][0], **words)
    except BaseException:
        radio.close()
        raise


def upload(flown, text, where, *words, watch=lambda traffic: None):
    """What came of an upload through the program over simulated drones, and the link."""
    events = clock.Queue()
    radio, link = opened(flown, where, lambda *it: events.put(("heard", *it)))
    host = uploads.Host([common.PROGRAM, "upload", *words], text, events)
    traffic = uploads.Traffic(flown.names, uploads.wanted_packets(flown, "--start" in words, "--readback" in words))
    try:
        carrying = uploads.Carrying(host, link, events, None, traffic)
        while not carrying.done:
            carrying.step()
            watch(carrying)
    finally:
        host.kill()
        radio.close()
    return carrying, link


class Closed(unittest.TestCase):
    """Tests at whose end no driver may be open."""

    def setUp(self):
        self.text, self.flown = common.example("crossing_cured")

    def tearDown(self):
        left = list(radiodriver.OPEN)
        for driver in left:
            driver.close()
        self.assertEqual(left, [])


@common.wants_program
class Uploads(Closed):
    def assert_held(self, flown=None):
        flown = flown or self.flown
        for name, data in zip(flown.names, flown.data()):
            self.assertTrue(common.holds(common.drone(flown, name), data), name)

    def test_upload(self):
        where = common.world(self.flown)
        done, link = upload(self.flown, self.text, where, "--readback")
        self.assertEqual((done.status, link.strangers, done.fault), (0, 0, None))
        self.assert_held()

    def test_another_memory_under_the_shows_id(self):
        # b's memory 2 is another deck's, and its trajectory memory has the id 3.
        where = common.world(self.flown, [("b", "memory", 0)])
        with self.assertRaisesRegex(ValueError, "^b: memory 2 is of type 11; its trajectory memory is 3; the show's line"):
            upload(self.flown, self.text, where, "--readback")
        self.assertTrue(all(map(common.untouched, common.drones(self.flown))))

    def test_wrong_id(self):
        # No drone has a memory 7, and 1 is of another type: nobody is written to.
        for memory, said in ((7, "d0: memory 7 is not there; .*; d1: memory 7 is not there"),
                             (1, "d0: memory 1 is of type 10; its trajectory memory is 2; d1: memory 1 is of type 10")):
            text, flown = show_of(2, memory)
            where = common.world(flown)
            with self.assertRaisesRegex(ValueError, said):
                upload(flown, text, where)
            self.assertTrue(all(map(common.untouched, common.drones(flown))))

    def test_after_one_that_was_broken_off(self):
        # The first upload ends while answers are under way; the drones then answer the second one's questions
        # after them.
        text, flown = show_of(4)
        where = common.world(flown)

        def watch(carrying):
            if sum(map(len, carrying.traffic.good)) >= 5:
                raise KeyboardInterrupt
        with self.assertRaises(KeyboardInterrupt):
            upload(flown, text, where, watch=watch)
        for one in common.drones(flown):
            with one.lock:
                # A write's answer that never was: the second upload must not take it for its own.
                one.up_queue += [bytes([0x4E, 2, 24, 0, 0, 0, 0]), bytes([0x8C, 6, 0, 1, 0])]
                one.memories[2][1][:] = b"\xFF" * 4096
                one.table[0] = None
        done, _ = upload(flown, text, where)
        self.assertEqual(done.status, 0)
        self.assert_held(flown)

    def test_old_answers(self):
        # Answers to writes, to the define, and to the very questions by which a link waits them out.
        where = common.world(self.flown, [("a", "old", 0), ("b", "old", 0)])
        for one in common.drones(self.flown):
            one.up_queue = [bytes([0x4C, 1, 4]), bytes([0x8C, 0, 0, 0, 0])] + 20 * one.up_queue
        done, link = upload(self.flown, self.text, where)
        self.assertEqual((done.status, link.strangers), (0, 0))
        self.assert_held()

    def test_many_and_lossy(self):
        text, flown = show_of(MANY)
        where = common.world(flown, loss=0.4)
        done, link = upload(flown, text, where, "--readback")
        self.assertEqual((done.status, done.fault), (0, None))
        self.assert_held(flown)

    def test_start_once(self):
        where = common.world(self.flown, loss=0.3)
        common.make_ready(self.flown)
        done, link = upload(self.flown, self.text, where, "--start")
        drones = common.drones(self.flown)
        self.assertEqual((done.status, sorted(link.starts), [len(one.starts) for one in drones]), (0, [0, 1], [1, 1]))
        for k, one in enumerate(drones):
            self.assertTrue(link.starts[k][0] <= one.starts[0] <= link.starts[k][1])
        lines = link.report()
        found = [crazy for crazy in lines if "can have taken its start from" in crazy]
        self.assertEqual([line.split()[0] for line in found], ["a", "b"])
        self.assertRegex(lines[-1], "each drone was sent one start; taken within [0-9]+ ms of one another at most")

    def test_goes_silent(self):
        text, flown = show_of(4)
        where = common.world(flown)

        def watch(carrying):
            if len(carrying.traffic.good[1]) == 1:
                common.drone(flown, "d1").faults["dead"] = 0
        done, _ = upload(flown, text, where, watch=watch)
        self.assertEqual((done.status, done.fault[:20]), (8, "d1 is silent for 2 s"))
        # The others have all that they are to have; of d1 it is said what is open.
        for name in ("d0", "d2", "d3"):
            self.assertTrue(common.holds(common.drone(flown, name), flown.data()[flown.names.index(name)]))
        self.assertTrue([line for line in done.traffic.end_lines(8) if line.startswith("d1, packet ")])


class Links(Closed):
    def test_later_starts_are_dropped(self):
        for repeat, count in ((False, 1), (True, 5)):
            where = common.world(self.flown)
            radio, link = opened(self.flown, where, repeat_starts=repeat)
            common.make_ready(self.flown, loaded=True)
            for _ in range(5):
                link.send(0, START)
            radio.fence(0, 2)
            self.assertEqual((len(common.drone(self.flown, "a").starts), link.copies, link.left), (count, 5 - count, 5))
            radio.close()

    def test_answers_under_way(self):
        # A drone holds the answers of a link that was broken off, and then those of its upload: to all
        # questions of a link, as
        # if they were put now, and to writes. What comes before the answers to this link's own marks is dropped.
        where = common.world(self.flown)
        radio = crazyradio.Radio(self.flown.names, where)
        came, one = [], common.drone(self.flown, "b")
        old = [bytes([0x4C, 1, 4]), *(bytes([0x4C, 2, k, kind]) + struct.pack("<I", size) + bytes(8)
                                      for k, (kind, size) in enumerate(air.MEMORIES))]
        old += [bytes([0x4C, 1, 4]), bytes([0x8C, 0, 0, 0, 0])]
        old += [bytes([0x4D, 2]) + struct.pack("<I", 20 * k) + bytes(21) for k in range(8)]
        old += [bytes([0x4E, 2, 24 * k % 96, 0, 0, 0, 0]) for k in range(100)] + [bytes([0x8C, 6, 0, 1, 0])]
        take = one.take

        def take_first(raw):
            # All of it is under way once the link asks its first question.
            one.take = take
            one.up_queue += old
            take(raw)
        one.take = take_first
        link = crazyradio.Link(self.flown.names, lambda *it: came.append(it), radio, 2)
        self.assertEqual([packet for packet in one.up_queue if packet in old], [])
        clock.wait(1)
        self.assertEqual((came, link.strangers), ([], 0))
        radio.close()

    def test_a_fence_has_marks(self):
        # Answers to an earlier link's marks, or to reads of more bytes, aren't taken for this one's.
        where = common.world(self.flown)
        radio = crazyradio.Radio(self.flown.names, where)
        asked = []
        with unittest.mock.patch.object(radio, "ask", lambda *it, **more: asked.append((it, more))):
            for _ in range(50):
                radio.fence(0, 2)
        reads = [it[3] for it, more in asked if it[1:3] == (4, 1) and it[4] == 5 and more == {"length": 7}]
        groups = [it[3] for it, _ in asked if it[1:3] == (8, 0) and it[4] == 3]
        self.assertEqual((len(reads), len(groups)), (50, 50))
        self.assertTrue(all(data[0] == 2 and data[5] == 1 and int.from_bytes(data[1:5], "little") < 4096 for data in reads))
        self.assertTrue(all(data[:2] == bytes(2) for data in groups))
        self.assertTrue(len(set(reads)) > 20 and len(set(groups)) > 20)
        radio.close()

    def test_only_what_was_asked_for(self):
        where = common.world(self.flown)
        came = []
        radio, link = opened(self.flown, where, lambda *it: came.append(it))
        link.came(0, bytes([0x4E, 2, 0, 0, 0, 0, 0]))  # an answer to nothing
        link.came(0, bytes([0x00, 1, 2, 3, 4, 5, 6]))  # a console's line
        link.came(0, bytes([0x4C, 1, 4, 0, 0, 0, 0]))  # port 4, but no reading or writing
        self.assertEqual((came, link.strangers), ([], 1))
        link.send(0, bytes([0x4E, 2, 0, 0, 0, 0, 77]))
        link.came(0, bytes([0x42, 2, 0, 0, 0, 0, 0]))  # its answer, with other link bits
        link.came(1, bytes([0x4E, 2, 0, 0, 0, 0, 0]))  # another drone's
        self.assertEqual((came[:1], link.strangers), ([(0, bytes([0x42, 2, 0, 0, 0, 0, 0]))], 2))
        radio.close()

    def test_only_packets_of_an_upload_leave(self):
        for packet in (bytes([0x4E, 3, 0, 0, 0, 0, 1]), bytes([0x8C, 3, 0]), bytes([0x8C, 7, 0, 0, 0, 0, 0, 0, 0, 0, 0]),
                       bytes([0x2C, 1, 2, 3, 4, 5, 6, 7])):
            where = common.world(self.flown)
            radio, link = opened(self.flown, where)
            link.send(1, packet)
            radio.fence(1, 2)
            self.assertIn("b: %s is no packet of this upload" % packet.hex(" ").upper(), link.ailing())
            self.assertTrue(common.untouched(common.drone(self.flown, "b")))
            radio.close()

    def test_dead(self):
        # All that is opened is closed again (see tearDown), and the one that is dead is named.
        where = common.world(self.flown, [("b", "dead", 0)])
        begin = clock.now()
        with self.assertRaisesRegex(crazyradio.Dead, "no answer from b:"):
            crazyradio.Radio(self.flown.names, where)
        self.assertGreater(clock.now() - begin, 2)

    def test_silence(self):
        # Two seconds of this clock by steps; a step in which the machine stood still counts for 0.2 s at most.
        now = [100.0]
        with unittest.mock.patch.object(clock, "now", lambda: now[0]):
            silence = crazyradio.Silence(2)
            rows = []
            for step, heard in ((0.1, (5, 7)), (0.1, (5, 8)), (30.0, (5, 8)), (0.1, (6, 8))):
                now[0] += step
                rows.append([round(v, 6) for v in silence.look(heard)])
        self.assertEqual(rows, [[0, 0], [0.1, 0], [0.3, 0.2], [0, 0.3]])

    def test_no_dongle(self):
        where = common.world(self.flown, unplugged=["radio://0/80/2M/E7E7E7E702"])
        with self.assertRaisesRegex(Exception, "Cannot find"):
            crazyradio.Radio(self.flown.names, where)
        common.world(self.flown)
        with self.assertRaisesRegex(ValueError, "no driver opens usb://0"):
            crazyradio.Radio(self.flown.names, [where[0], "usb://0"])

    def test_close_closes_all(self):
        # A driver that fails at closing doesn't keep the others open.
        where = common.world(self.flown)
        radio = crazyradio.Radio(self.flown.names, where)
        first, out = radio.drivers[0], io.StringIO()
        close = first.close
        with unittest.mock.patch.object(first, "close", side_effect=OSError("gone")), contextlib.redirect_stdout(out):
            radio.close()
        self.assertEqual((radiodriver.OPEN, "closing failed: gone" in out.getvalue()), ([first], True))
        close()

    def test_a_drone_that_says_nothing(self):
        # Where a drone's empty acknowledgements carry nothing it is heard by its answer to a question.
        with unittest.mock.patch.object(air, "NOTHING", b""):
            where = common.world(self.flown)
            radio = crazyradio.Radio(self.flown.names, where)
        radio.close()

    def test_broadcast(self):
        where = common.world(self.flown)
        radio, _ = opened(self.flown, where)
        common.make_ready(self.flown, loaded=True)
        begin, end = radio.broadcast(START)
        self.assertTrue(all(begin <= one.starts[-1] <= end for one in common.drones(self.flown)))
        radio.close()

    def test_broadcast_over_a_dongle_that_is_gone(self):
        # Its calls never return: the other dongle's drones get the packet all the same, in time, and it is named.
        where = [uri.replace("//0", "//%d" % k) for k, uri in enumerate(common.world(self.flown))]
        air.WORLD.reset({uri: [start[0] / 1e6, start[1] / 1e6, 0.0] for uri, start in zip(where, self.flown.starts)}, {}, blocks=0.0)
        radio = crazyradio.Radio(self.flown.names, where)
        for one, data, segments in zip(air.WORLD.drones.values(), self.flown.data(), self.flown.sent):
            one.armed, one.parameters[0], one.table[0] = True, 1, (1, 1, 0, len(segments))
            one.memories[2][1][:len(data)] = data
        first, second = air.WORLD.drones.values()
        first.begin(bytes(START[1:]))  # from now on dongle 0 is gone
        begin = clock.now()
        with self.assertRaisesRegex(crazyradio.Dead, "dongle 0 doesn't send"):
            radio.broadcast(START)
        self.assertLess(clock.now() - begin, 5)
        self.assertEqual((len(first.starts), len(second.starts)), (1, 1))
        begin = clock.now()
        with contextlib.redirect_stdout(io.StringIO()) as out:
            radio.close()
        self.assertLess(clock.now() - begin, 8)
        self.assertIn("closing failed: a dongle doesn't answer", out.getvalue())
        air.WORLD.after.clear()  # the driver's thread goes on, and ends
        until = clock.now() + 5
        while radiodriver.OPEN and clock.now() < until:
            clock.wait(0.05)

    def test_questions_that_are_dropped(self):
        # What is asked again and again isn't asked any more once it isn't wanted.
        where = common.world(self.flown)
        radio, _ = opened(self.flown, where)
        common.drone(self.flown, "b").faults["dead"] = 0
        begin, failed = clock.now(), []

        def ask():
            try:
                radio.ask(1, firmware.COMMANDER, 0, firmware.group(), 1, seconds=60)
            except crazyradio.Dead as error:
                failed.append(error)
        task = clock.Task(ask)
        clock.wait(1)
        radio.drop()
        task.join(5)
        self.assertEqual(len(failed), 1)
        self.assertLess(clock.now() - begin, 20)
        with self.assertRaises(KeyboardInterrupt):  # what the look raises ends the wait
            radio.each(lambda drone: clock.wait(20), unittest.mock.Mock(side_effect=KeyboardInterrupt))
        radio.close()

    def test_failures(self):
        # Each of these drones is asked, and no other; what one doesn't do keeps no other from it.
        radio, _ = opened(self.flown, common.world(self.flown))
        common.drone(self.flown, "b").faults["dead"], asked = 0, []

        def ask(drone):
            asked.append(drone)
            radio.pass_by(drone, 0.5)
        failed = radio.failures([0, 1], ask)
        self.assertEqual((sorted(asked), list(failed), type(failed[1])), ([0, 1], [1], crazyradio.Dead))
        self.assertEqual((radio.failures([0], ask), asked[2:]), ({}, [0]))
        with self.assertRaises(ZeroDivisionError):  # what is no trouble of a drone is raised
            radio.failures([0], lambda drone: 1 / 0)
        radio.close()

    def test_crowded(self):
        where = common.world(self.flown)
        radio, _ = opened(self.flown, where)
        self.assertEqual(radio.crowded(), [])
        with unittest.mock.patch.object(crazyradio, "MANY", 1):
            self.assertEqual(radio.crowded(), [("0", 2)])
        radio.close()


class Starts(unittest.TestCase):
    def test_lines(self):
        for starts, lines in (
                ({}, []),
                ({0: [10.0, 10.02], 1: [10.005, 10.03]},
                 ["a can have taken its start from 0 to 20 ms", "b can have taken its start from 5 to 30 ms",
                  "each drone was sent one start; taken within 30 ms of one another at most, 0 at least"]),
                ({0: [10.0, 10.02], 1: [10.05, 10.06]},
                 ["a can have taken its start from 0 to 20 ms", "b can have taken its start from 50 to 60 ms",
                  "each drone was sent one start; taken within 60 ms of one another at most, 30 at least"]),
                ({0: [10.0, 10.02], 1: [10.05, None]},
                 ["a can have taken its start from 0 to 20 ms",
                  "started, or not: b: the start went out once and wasn't answered"])):
            self.assertEqual(crazyradio.start_lines(["a", "b"], starts), lines)
        self.assertIn("REPEATED", crazyradio.start_lines(["a"], {0: [1.0, 2.0]}, True)[-1])


def write(address, data=b"\1", memory=2):
    """A write."""
    return bytes([0x4E, memory]) + struct.pack("<I", address) + data


def read(address, length):
    """A read."""
    return bytes([0x4D, 2]) + struct.pack("<IB", address, length)


DEFINE = bytes([0x8C, 6, 0, 1, 1, 0, 0, 0, 0, 1])


class Traffic(unittest.TestCase):
    """Which drone, packet and address an end is about, by packets that are written out here."""

    def traffic(self, *rows):
        """What went by: ("to" or "from", drone, bytes)."""
        out = uploads.Traffic(["a", "b"], [3, 3])
        for way, drone, raw in rows:
            (out.sent if way == "to" else out.heard)(drone, raw)
        return out

    def test_ends(self):
        both = [("to", 0, write(64, b"\1\2\3")), ("to", 1, write(64)), ("to", 1, write(88))]
        good = [("from", 0, write(64, b"\0")), ("from", 1, write(64, b"\0")), ("from", 1, write(88, b"\0"))]
        reads = [("to", 0, read(64, 3)), ("to", 1, read(64, 1))]
        for rows, status, lines in (
                # stopped: of each drone the first open packet
                (both + good[:2], 8, ["b, packet 1: write of 1 bytes to address 88 of memory 2 is open, sent once"]),
                (both + both[1:2], 8, ["a, packet 0: write of 3 bytes to address 64 of memory 2 is open, sent once",
                                       "b, packet 0: write of 1 bytes to address 64 of memory 2 is open, sent 2 times"]),
                # given up: the first one that was sent twenty times, else the one that was sent most
                (both + 19 * both[1:3], 9, ["b, packet 0: write of 1 bytes to address 64 of memory 2 had no good answer, "
                                            "sent 20 times"]),
                (both + 3 * both[2:], 9, ["b, packet 1: write of 1 bytes to address 88 of memory 2 had no good answer, "
                                          "sent 4 times"]),
                # refused: the first answer of another status to a packet that is open
                (both + good[:1] + [("from", 0, write(64, b"\2")), ("from", 1, write(88, b"\5")), ("from", 1, write(64, b"\2"))],
                 10, ["b, packet 1: write of 1 bytes to address 88 of memory 2 was answered with status 5"]),
                ([("to", 0, DEFINE), ("from", 0, bytes([0x8C, 6, 0, 1, 8]))], 10,
                 ["a, packet 0: define of trajectory 0 was answered with status 8"]),
                ([("to", 1, START), ("from", 1, bytes([0x8C, 5, 0, 0, 2]))], 10,
                 ["b, packet 0: start of trajectory 0 was answered with status 2"]),
                # read back: the first byte that differs; an answer with too few bytes is none
                (both + good + reads + [("from", 0, read(64, 0) + b"\1\2"), ("from", 0, read(64, 0) + b"\1\7\7")], 14,
                 ["a, packet 1: read of 3 bytes at address 64 of memory 2: address 65 holds 07, and 02 is wanted"]),
                (both, 0, []), (both, 13, []), ([], 9, [])):
            self.assertEqual(self.traffic(*rows).end_lines(status), lines)

    def test_progress(self):
        out = self.traffic(("to", 0, write(0)), ("to", 1, write(0)), ("from", 1, write(0, b"\0")), ("from", 1, write(0, b"\0")),
                           ("from", 0, write(24, b"\0")))
        self.assertEqual(out.line(), "0 s: a 0/3, b 1/3")

    def test_wanted(self):
        # 62 bytes are three writes and four reads; 34 bytes two of each.
        flown = common.example("crossing_cured")[1]
        self.assertEqual([uploads.wanted_packets(flown, *it) for it in ((False, False), (True, False), (True, True))],
                         [[3, 4], [4, 5], [6, 9]])


class Paces(unittest.TestCase):
    """When a tick is due, at times that are written out here. An answer takes 0.1 s."""

    def setUp(self):
        self.now = 50.0
        patch = unittest.mock.patch.object(clock, "now", lambda: self.now)
        patch.start()
        self.addCleanup(patch.stop)
        self.traffic = uploads.Traffic(["a", "b"], [9, 9])
        self.pace = uploads.Pace(0.1, self.traffic)

    def give(self, drone, address):
        self.traffic.sent(drone, write(address))
        self.pace.gives(drone)

    def hear(self, drone, address):
        self.traffic.heard(drone, write(address, b"\0"))
        self.pace.hears(drone)

    def due(self, seconds, left):
        self.now += seconds
        return self.pace.is_due(left)

    def test_not_while_packets_wait_in_the_link(self):
        for k in range(4):
            self.give(0, 24 * k)
        self.assertFalse(self.due(0.5, 2))
        self.assertFalse(self.due(0.01, 4))
        self.assertFalse(self.due(0.05, 4))
        self.assertTrue(self.due(0.06, 4))
        # not at once again, but after an answer's time
        self.assertFalse(self.due(0.05, 4))
        self.assertTrue(self.due(0.06, 4))

    def test_not_while_answers_come(self):
        for k in range(100):
            self.give(0, 24 * k)
            self.give(1, 24 * k)
            self.assertFalse(self.due(0.09, 2 * k + 2))
            self.hear(0, 24 * k)
            self.hear(1, 24 * k)
            self.assertFalse(self.due(0.01, 2 * k + 2))
        self.assertEqual(self.pace.ticks, 0)

    def test_one_stands_still_and_the_other_goes_on(self):
        # b's packet is lost. Two packets are open, so b's is sent again once sixteen went since.
        self.give(1, 0)
        due = 0
        for k in range(40):
            self.give(0, 24 * k)
            if self.due(0.05, k + 2):
                due += 1
                self.assertIn(k, (14, 30))
            self.hear(0, 24 * k)
        self.assertEqual(due, 2)

    def test_a_link_that_is_stuck(self):
        self.give(0, 0)
        self.assertFalse(self.due(0.9, 0))
        self.due(0.2, 0)
        self.assertTrue(self.due(0.11, 0))

    def test_nothing_is_open(self):
        self.assertFalse(self.due(0.9, 0))
        self.assertTrue(self.due(0.2, 0))


@common.wants_program
class Bridge(unittest.TestCase):
    """./show bridge --radio, run in this process so that the simulated library is in its place."""

    def run_bridge(self, faults=(), words=(), drones="a radio://0/80/2M/E7E7E7E701\nb radio://0/80/2M/E7E7E7E702\n", **settings):
        flown = common.example("crossing_cured")[1]
        common.world(flown, faults, **settings)
        common.make_ready(flown)
        out, error = io.StringIO(), io.StringIO()
        with tempfile.NamedTemporaryFile("w") as file:
            file.write(drones)
            file.flush()
            show = os.path.join(common.TOP, "examples", "crossing_cured.choreo")
            with contextlib.redirect_stdout(out), contextlib.redirect_stderr(error):
                status = streams.status_of(lambda: __main__.main(["bridge", "--radio", file.name, *words, show]), "bridge")
        self.assertEqual(radiodriver.OPEN, [])
        return status, out.getvalue() + error.getvalue(), flown

    def test_start(self):
        status, out, flown = self.run_bridge(words=["--start"], loss=0.2)
        self.assertEqual(status, 0, out)
        self.assertIn("trajectory memories: a 2, b 2", out)
        self.assertRegex(out, "a can have taken its start from [0-9]+ to [0-9]+ ms\nb can have taken its start from [0-9]+ to")
        self.assertRegex(out, "each drone was sent one start; taken within [0-9]+ ms of one another at most, [0-9]+ at least")
        self.assertRegex(out, "[0-9]+ ticks?, [0-9.]+ s from the first packet to the end")
        self.assertEqual([len(common.drone(flown, name).starts) for name in flown.names], [1, 1])

    def test_read_back(self):
        # A drone whose memory keeps nothing is found by reading back alone.
        class Forgets(bytearray):
            def __setitem__(self, key, value):
                pass
        for words, wanted in (([], 14), (["--no-readback"], 0)):
            with unittest.mock.patch.object(air.Drone, "memory_bytes", Forgets):
                status, out, _ = self.run_bridge(words=words)
                self.assertEqual(status, wanted, out)
                # a begins at x 0 and has two writes and a define before its reads; b begins at 1,000 and has three
                lines = ["%s of 20 bytes at address 0 of memory 2: address 0 holds FF, and %s is wanted" % it
                         for it in (("a, packet 3: read", "00"), ("b, packet 4: read", "E8"))]
                self.assertEqual(any(line in out for line in lines), wanted == 14, out)

    def test_refused(self):
        # A drone that answers no write with 0, and one that has no room in its table.
        with unittest.mock.patch.object(air.Drone, "memory", lambda self, channel, data: (
                data[:5] + bytes([5]) if channel == 2 else air_memory(self, channel, data))):
            status, out, _ = self.run_bridge()
        self.assertEqual(status, 10, out)
        self.assertRegex(out, "[ab], packet 0: write of 24 bytes to address 0 of memory 2 was answered with status 5")

    def test_faults(self):
        for fault, said in (("dead", "no link: no answer from b"), ("memory", "no link: b: memory 2 is of type 11")):
            status, out, flown = self.run_bridge([("b", fault, 0)])
            self.assertEqual((status, said in out), (70, True), out)
            self.assertTrue(all(map(common.untouched, common.drones(flown))))
        status, out, _ = self.run_bridge(drones="a radio://0/80/2M/E7E7E7E701\n")
        self.assertEqual((status, "has no address for b" in out, out.count("/tmp/")), (70, True, 1), out)

    def test_without_the_library(self):
        with tempfile.NamedTemporaryFile("w") as file:
            file.write("a radio://0/80/2M/E7E7E7E701\nb radio://0/80/2M/E7E7E7E702\n")
            file.flush()
            status, _, error = common.run("bridge", "--radio", file.name, "examples/crossing_cured.choreo")
        self.assertEqual((status, "no link: No module named 'cflib'" in error), (70, True), error)

    def test_given_up(self):
        status, out, _ = common.run("bridge", "--loss", "100", "--tick", "2", "examples/crossing_cured.choreo")
        self.assertEqual(status, 9, out)
        self.assertIn("a, packet 0: write of 24 bytes to address 0 of memory 2 had no good answer, sent 20 times\n", out)

    def test_no_packet_is_sent_twice_without_loss(self):
        # Each of 8 drones holds once and flies 31 moves in x and y: 3 + 31 * 31 + 11 = 975 bytes, so 41
        # writes and a define,
        # and 336 packets. A busy machine may answer late now and then; half as many again is too much.
        rows = ["choreo 1"] + ["drone d%d %d 0 1000000 0" % (k, k * 1000000) for k in range(8)]
        for cue in range(32):
            rows += ["cue 1000", *("d%d move %d %d 1000000 0" % (k, k * 1000000 + cue % 2 * 100000, cue % 2 * 100000)
                                   for k in range(8)), "end"]
        status, out, told = common.run("bridge", "--delay", "5", "-", text="\n".join(rows) + "\n")
        self.assertEqual(status, 0, told)
        sent = int(out.split(" packets to drones")[0].split()[-1])
        self.assertTrue(336 <= sent <= 504, out)

    def test_progress(self):
        status, out, told = common.run("bridge", "--rate", "10", "--delay", "100", "examples/crossing_cured.choreo")
        self.assertEqual(status, 0, out)
        self.assertRegex(told, "1 s: a [0-3]/3, b [0-4]/4\n")


air_memory = air.Drone.memory


class Packets(unittest.TestCase):
    def test_as_a_plan_has_them(self):
        plan = plan_of(common.example("solo")[1])
        self.assertIn("start " + digits(firmware.packet(firmware.COMMANDER, 0, firmware.start(0))), plan)

    def test_by_hand(self):
        # 1.0 is 00 00 80 3F, 2.0 is 00 00 00 40; heights are absolute, yaws stay as they are.
        for data, wanted in ((firmware.take_off(1, 2), "07 00 0000803F 00000000 01 00000040"),
                             (firmware.land(1, 2), "08 00 0000803F 00000000 01 00000040"),
                             (firmware.go_to(1, 2, 1, 0, 2), "04 00 00 0000803F 00000040 0000803F 00000000 00000040"),
                             (firmware.start(3), "05 00 00 00 03 0000803F"),
                             (firmware.start(3, 0x20), "05 20 00 00 03 0000803F"), (firmware.group(0x20), "00 20"), (firmware.STOP, "03 00"),
                             (firmware.EMERGENCY_STOP, "03"), (firmware.arm(True), "01 01"), (firmware.arm(False), "01 00"),
                             (firmware.read(2, 258, 1), "02 02010000 01"), (firmware.ask_memory(4), "02 04"),
                             (firmware.create_block(1, [(258, 7, 7), (3, 7, 8)]), "06 01 77 0201 78 0300"), (firmware.start_block(1, 100), "03 01 0A"),
                             (firmware.packet(8, 0, [5]), "8C 05"), (firmware.packet(4, 2, []), "4E")):
            self.assertEqual(data, bytes.fromhex(wanted))

    def test_logs(self):
        data = bytes([1, 0x10, 0x20, 0x30]) + struct.pack("<fH", 1.5, 7)
        self.assertEqual(firmware.logged(data, [7, 2]), (1, 0x302010, (1.5, 7)))
        self.assertIsNone(firmware.logged(data[:-1], [7, 2]))


class Addresses(unittest.TestCase):
    def of(self, text, names=("a",)):
        with tempfile.NamedTemporaryFile("w", suffix=".txt", encoding="utf-8", errors="surrogateescape") as file:
            file.write(text)
            file.flush()
            return crazyradio.addresses(file.name, names)

    def test_addresses(self):
        x, y = "radio://0/80/2M/E7E7E7E701", "radio://0/80/2M/E7E7E7E702"
        self.assertEqual(self.of("# drones\na %s\nb %s # the new one\n" % (x, y)), [x])
        self.assertEqual(self.of("a radio://0/80/2M/e7E7e7e701\n"), [x])
        self.assertEqual(self.of("a radio://0/80/2M/E7E7E7E701\nb radio://0/80/1M/E7E7E7E701\n"), [x])
        for text, words in (("a\n", "line 1"), ("a %s\na %s\n" % (x, y), "line 2"), ("a %s\nb %s\n" % (x, x), "line 2"),
                            ("b %s\n" % x, "for a"), ("a usb://0\n", "line 1: usb://0 isn't radio://"),
                            ("a radio://0/80/2M/E7E7\n", "isn't radio://"),
                            # The same drone by another dongle, with other zeros, or with small letters.
                            ("a %s\nb radio://1/080/2M/e7e7e7e701\n" % x, "line 2: b has the channel, rate and address of a"),
                            ("a radio://0/126/2M/E7E7E7E701\n", "a channel to 125"), ("a radio://100/80/2M/E7E7E7E701\n", "to 99"),
                            ("a radio://%s/80/2M/E7E7E7E701\n" % ("9" * 5000), "isn't radio://"),
                            ("#" * (1 << 20) + "\n", "more than 1048576 bytes"), ("a \udcff\n", "UTF-8")):
            with self.assertRaisesRegex(ValueError, words):
                self.of(text)


if __name__ == "__main__":
    unittest.main()
