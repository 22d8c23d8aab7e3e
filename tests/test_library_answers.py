"""`import hemtoghai` by the library and by the program: equal answers, value by value, and by many threads at once. The
statuses are those of docs/COMMANDS.md. What needs a library or a program that isn't there is skipped, and named.

    python3 tests/test_library_answers.py --time

prints the microseconds of a call by each: of the best of 5 runs of 1,000, and of the fastest call."""
import concurrent.futures
import os
import sys
import threading
import time
import unittest
from unittest import mock

import common
import hemtoghai
from hemtoghai import answering, program

LONGEST = 1048576  # bytes of a show: docs/COMMANDS.md
ALONE1 = b"choreo 1\ndrone a 0 0 1000000 0\ncue 2000\na move 1000000 0 1000000 0\nend\n"
ALONE2 = b"choreo 2\ndrone a 0 0 1m 0\ncue 2s\na move 1m 0 1m 0\nend\n"
# Two that stand 20 cm apart, of 24 that they need; and 30 cm, with 4 cm of stray for each of them.
NEAR1 = b"choreo 1\ndrone a 0 0 1000000 0\ndrone b 200000 0 1000000 0\ncue 1000\nend\n"
NEAR2 = b"choreo 2\ndrone a 0 0 1m 0\ndrone b 20cm 0 1m 0\ncue 1s\nend\n"
STRAY1 = b"choreo 1\nstray 40\ndrone a 0 0 1000000 0\ndrone b 300000 0 1000000 0\ncue 1000\nend\n"
STRAY2 = b"choreo 2\nstray 4cm\ndrone a 0 0 1m 0\ndrone b 30cm 0 1m 0\ncue 1s\nend\n"
# From rest at once to 0.5 m/s.
LINE1 = b"choreo 1\ndrone a 0 0 1000000 0\ncue 2000\na line 1000000 0 1000000 0\nend\n"
LINE2 = b"choreo 2\ndrone a 0 0 1m 0\ncue 2s\na line 1m 0 1m 0\nend\n"
# A move along x has 3 + 14 bytes, so with start and ending 28, and 27 are left of 4,096.
FULL1 = b"choreo 1\ndrone solo 0 0 0 0\ncue 1\nsolo move 1000 0 0 0\nend\nmemory 2 4069\n"
FULL2 = b"choreo 2\ndrone solo 0 0 0 0\ncue 1ms\nsolo move 1mm 0 0 0\nend\nmemory 2 4069\n"
MANY1 = b"choreo 1\ndrone a 0 0 0 0\n" + b"".join(b"cue 9\na turn %d\nend\n" % (k % 2) for k in range(256))
COLLIDING, CURED, SOLO, UNITS, EVERY, SHELF, STRAIGHT, RING = (common.example(name)[0] for name in (
    "crossing", "crossing_cured", "solo", "units", "every_act", "shelf", "shelf_straight", "grid_to_ring_dealt"))
CURED2 = CURED.replace(b"choreo 1", b"choreo 2")  # whose bare numbers are faulty there
HALL = b"volume -1000 -1000 300 2500 2500 2500\n"
KEEPOUT = b"keepout 800 600 0 1200 1400 1500\n"
# Of CURED: directions 58, 47 and 00, in the letters of version 1 r, n and a.
VERSION1, VERSION2 = b"certificate 6\nr\nn\na\n", b"version 2\ncertificate 6\n58\n47\n00\n"
TAKEN = b"".join(b"%s solo %d\n" % it for it in [
    (b"take", 2), (b"take", 1), (b"take", 1), (b"hear", 1), (b"hear", 1), (b"hear", 2), (b"take", 3), (b"hear", 4)])
ALTERED = b"take solo 1\ntake solo 2\nhear solo 1\nhear solo 2\ntake solo 3\nhear solo 3\nalter solo 3 7\n" \
    b"take solo 4\ntake solo 5\nhear solo 4\nhear solo 5\n"
FRAMES = b"P\1\7N\2\0\0\0\0\0P\1\7N\2\30\0\0\0\0P\1\5\214\6\0\1\0"
END = b"%%\n"

ROWS = [  # words, input, status
    ("check", ALONE1, 0), ("check", ALONE2, 0), ("check --depth 0", ALONE1, 0), ("check --depth 8", ALONE2, 0),
    ("check --depth 9", ALONE1, 2), ("check --depth", ALONE1, 2), ("check --depth=3", ALONE2, 2),
    ("check --depth 3 --depth 3", ALONE1, 2), ("check", NEAR1, 5), ("check", NEAR2, 5), ("check --depth 3", STRAY1, 5),
    ("check --depth 3", STRAY2, 5), ("check", COLLIDING, 5), ("check --depth 2", COLLIDING, 5), ("check", CURED, 0),
    ("check", UNITS, 0), ("check", EVERY, 0), ("check", RING, 0), ("check", b"", 3), ("check", b"\n#\n", 3),
    ("check", b"choreo 3\n", 3), ("check", b"choreo 02\n", 3), ("check", b"choreo 1\ncue 1.5\n", 3),
    ("check", b"choreo 2\ncue 2\n", 3), ("check", b"choreo 2\ncue 2m\n", 3), ("check", CURED2, 3),
    ("check", b"choreo 1\ndrone a 0 0 0\n", 3), ("check", ALONE1 + b"cue 1\nc hold\nend\n", 3),
    ("check", ALONE1.replace(b"\n", b"\r\n"), 0), ("check", ALONE2[:-1], 0), ("check", ALONE1 + b"\0", 3),
    ("check", ALONE2 + b"\xff\n", 3), ("check", ALONE2 + b"# \xff\0\n", 0), ("check", ALONE1 + END, 11),
    ("check", ALONE2 + b"%%\r\n", 11), ("check", ALONE1.ljust(LONGEST, b"\n"), 0),
    ("check", ALONE1.ljust(LONGEST + 1, b"\n"), 3), ("check", ALONE1.replace(b"move 1", b"move 33"), 3),
    ("check", ALONE2.replace(b"move 1m", b"move 33m"), 3), ("check", FULL1, 4), ("check", FULL2, 4),
    ("check", MANY1, 4),
    ("compile", ALONE1, 0), ("compile --depth 2", ALONE2, 0), ("compile", UNITS, 0), ("compile", RING, 0),
    ("compile", NEAR2, 5), ("compile", FULL1, 4), ("compile", b"choreo 2\n", 3), ("certify", CURED, 0),
    ("certify --depth 0", ALONE2, 0), ("certify", RING, 0), ("certify", COLLIDING, 5), ("play", ALONE1, 0),
    ("play --step 1", UNITS, 0), ("play --step 60000 --depth 1", ALONE2, 0), ("play --step 0", ALONE1, 2),
    ("play --step 60001", ALONE1, 2), ("play", NEAR1, 5), ("report", CURED, 0), ("report", UNITS, 0),
    ("report", NEAR2, 5), ("verify", CURED + END + VERSION1, 0), ("verify", CURED + END + VERSION2, 0),
    ("verify", CURED + END + VERSION1[:-2], 12), ("verify", CURED + END + VERSION2 + b"00\n", 12),
    ("verify", COLLIDING + END + VERSION1, 12), ("verify", CURED + END + b"certificate 9\n", 11), ("verify", CURED, 11),
    ("verify", CURED + END + VERSION1 + END, 11), ("verify", CURED2 + END + VERSION1, 3),
    ("rehearse", SOLO + END + TAKEN, 0), ("rehearse", SOLO + END, 8), ("rehearse", SOLO + END + b"tick\n" * 20, 9),
    ("rehearse --start", SOLO + END + TAKEN, 8), ("rehearse --readback", SOLO + END + ALTERED, 14),
    ("rehearse", SOLO + END + ALTERED, 11), ("upload", SOLO + END + FRAMES, 0), ("upload", SOLO + END + FRAMES[:-8], 8),
    ("upload", SOLO + END + b"?", 11), ("upload", COLLIDING + END + FRAMES, 5), ("upload", SOLO, 8),
    ("drill 4", b"", 0),
    ("drill 32 --depth 0", ALONE1, 0), ("drill 0", b"", 2), ("drill 33", b"", 2), ("drill", b"", 2),
    ("boxes", SHELF + END + HALL + KEEPOUT, 0), ("boxes --depth 2", STRAIGHT + END + HALL + KEEPOUT, 15),
    ("boxes", COLLIDING + END, 0), ("boxes", SHELF + END + b"volume 1 2 3\n", 11), ("speed", SOLO, 0),
    ("speed", COLLIDING, 0), ("speed --limit 1000000", SOLO, 16), ("speed --limit 0", SOLO, 2),
    ("explain", COLLIDING, 0), ("explain --depth 1 --fine 0", NEAR2, 0), ("explain", CURED, 0),
    ("explain --fine 6", CURED, 2), ("dynamics", LINE1, 0), ("dynamics --jump 499", LINE1, 18),
    ("dynamics --jump 499", LINE2, 18), ("dynamics --jump 500", LINE2, 0), ("dynamics --accel 0", ALONE2, 18),
    ("help", b"", 0), ("version", ALONE1, 0), ("help help", b"", 2), ("", ALONE1, 2), ("chek", ALONE1, 2),
    ("check \u00e9", ALONE1, 2), ("check \udcff", ALONE1, 17)]
CALLS = [  # a call with what it is given
    ("check", ALONE1.decode()), ("check", ALONE2), ("check", COLLIDING.decode(), 4), ("check", NEAR2),
    ("check", CURED2), ("check", STRAY2), ("check", FULL2), ("check", LINE2), ("compile", UNITS), ("compile", CURED, 3),
    ("compile", NEAR1), ("compile", b""), ("certify", CURED), ("certify", RING, 4), ("certify", COLLIDING),
    ("verify", CURED, VERSION1),
    ("verify", CURED.rstrip(b"\n"), VERSION2), ("verify", CURED, VERSION2[:-3]), ("verify", COLLIDING, VERSION1),
    ("verify", CURED, b""), ("play", UNITS, 50), ("play", ALONE2, 60001), ("play", NEAR1), ("report", EVERY),
    ("report", CURED2), ("dynamics", UNITS), ("dynamics", LINE1, None, 499), ("dynamics", LINE2, 0), ("speed", SOLO),
    ("speed", SOLO, 1000000), ("speed", COLLIDING), ("boxes", SHELF, HALL + KEEPOUT),
    ("boxes", STRAIGHT, HALL + KEEPOUT),
    ("boxes", SHELF, "volume 1 2 3\n"), ("boxes", NEAR2, b"")]


def library():
    """The library, or why there is none."""
    try:
        return answering.library()
    except program.Unusable as why:
        return str(why)


LIBRARY = library()
HAS_LIBRARY = isinstance(LIBRARY, answering.Library)
WHY = "" if HAS_LIBRARY else LIBRARY


def by(runner, call, *given):
    """What a call gives by the library or by the program, as values that can be compared: all but which of them it was,
    and its proof."""
    with mock.patch.object(answering, "_chosen", runner):
        try:
            found = call(*given)
        except hemtoghai.Refused as refused:
            return "Refused", str(refused), values_of(refused.verdict)
        except (ValueError, TypeError, MemoryError) as fault:
            return type(fault).__name__, str(fault)
        if isinstance(found, hemtoghai.Plan):
            return found.text, found.drones, values_of(found.verdict)
        return values_of(found) if isinstance(found, hemtoghai.Verdict) else found


def values_of(verdict):
    """All that a verdict says, but for its proof."""
    known = {name: value for name, value in verdict.as_data().items() if name != "proved"}
    return verdict.output, verdict.text, known, verdict.cautions


@unittest.skipUnless(HAS_LIBRARY, WHY)
class Same(unittest.TestCase):
    @common.wants_program
    def test_commands(self):
        self.assertGreater(len(ROWS), 100)
        for words, text, status in ROWS:
            first, second = (runner.run(words.split(), text) for runner in (LIBRARY, answering.Process()))
            with self.subTest(words=words, text=text[:300]):
                self.assertEqual((first.status, second.status), (status, status))
                self.assertEqual(first.output, second.output)

    @common.wants_program
    def test_calls(self):
        for name, *given in CALLS:
            with self.subTest(name=name, given=[repr(it)[:200] for it in given]):
                first, second = (by(runner, getattr(hemtoghai, name), *given)
                                 for runner in (LIBRARY, answering.Process()))
                self.assertEqual(first, second)

    @common.wants_program
    def test_words_that_are_none(self):
        for words in (["check", "--depth", "3 "], ["check", ""], [" check"], ["check\n"], []):
            first, second = (runner.run(words, ALONE1) for runner in (LIBRARY, answering.Process()))
            self.assertEqual((first.status, first.output), (2, b"error 2 usage\n"), words)
            self.assertEqual((second.status, second.output), (2, b"error 2 usage\n"), words)

    def test_proof(self):
        verdict = hemtoghai.check(ALONE1)
        if LIBRARY.proof:
            self.assertEqual((verdict.by, verdict.proved, verdict.proof), ("library", True, LIBRARY.proof))
            self.assertRegex(verdict.proof, "^logic=proved .* axioms=3 ")


@unittest.skipUnless(HAS_LIBRARY, WHY)
class Threads(unittest.TestCase):
    def test_at_once(self):
        # 8 threads with 200 calls each, of answers of all sizes: each is the one that a thread alone gets.
        questions = [("check", ALONE1), ("check", NEAR2), ("compile", UNITS), ("certify", CURED), ("report", CURED2),
                     ("play --step 10", UNITS), ("verify", CURED + END + VERSION2), ("explain", COLLIDING)]
        alone = [LIBRARY.run(words.split(), text) for words, text in questions]
        self.assertGreater(max(len(answer.output) for answer in alone), answering.ROOM)
        together = threading.Barrier(8)

        def calls(first):
            together.wait()
            wrong = 0
            for number in range(first, first + 200):
                words, text = questions[number % len(questions)]
                wrong += LIBRARY.run(words.split(), text) != alone[number % len(questions)]
            return wrong
        with concurrent.futures.ThreadPoolExecutor(8) as threads:
            self.assertEqual(list(threads.map(calls, range(8))), [0] * 8)

    def test_first_questions_at_once(self):
        with mock.patch.object(answering, "_chosen", None), \
                mock.patch.object(answering, "choose", return_value=LIBRARY) as chosen:
            with concurrent.futures.ThreadPoolExecutor(8) as threads:
                found = set(threads.map(lambda _: hemtoghai.check(ALONE1).line, range(200)))
        self.assertEqual((found, chosen.call_count), ({"ok drones 1 cues 1 duration_ms 2000"}, 1))

    def test_others_run_meanwhile(self):
        # This thread goes on while another one is in a call: it sees instants in the middle of that. The call takes
        # some 100 ms: 496 pairs in 1,000 cues, at 33 instants of each.
        spans, drones = [], "".join("drone d%d %dm %dm 1m 0\n" % (k, k % 8, k // 8) for k in range(32))
        text = ("choreo 2\n%srepeat 1000\ncue 1ms\nend\nend\n" % drones).encode()

        def call():
            begun = time.monotonic()
            LIBRARY.run(["explain"], text)
            spans.append((begun, time.monotonic()))
        instants, other = [], threading.Thread(target=call)
        other.start()
        while other.is_alive():
            instants.append(time.monotonic())
            time.sleep(0.001)
        (begun, ended), = spans
        margin = (ended - begun) / 4
        self.assertTrue(any(begun + margin < at < ended - margin for at in instants), (begun, ended, len(instants)))


def microseconds(runner, text):
    """The microseconds of a call of `hemtoghai.check`: of the best of 5 runs of 1,000, and the fastest call of all."""
    best = fastest = float("inf")
    with mock.patch.object(answering, "_chosen", runner):
        for _ in range(5):
            instants = [time.perf_counter()]
            for _ in range(1000):
                verdict = hemtoghai.check(text)
                instants.append(time.perf_counter())
            best = min(best, (instants[-1] - instants[0]) / 1000)
            fastest = min(fastest, *(after - before for before, after in zip(instants, instants[1:])))
            if not verdict.ok:
                raise ValueError("the show is refused: " + verdict.line)
    return 1e6 * best, 1e6 * fastest


def main():
    """Prints what a call takes for a show of 16 drones."""
    count = len(common.example("grid_to_ring_dealt")[1].names)
    for name, runner in (("library", LIBRARY), ("process", answering.Process())):
        if isinstance(runner, str):
            print("%s: skipped, %s" % (name, runner))
        else:
            times = microseconds(runner, RING)
            print("%s: check of %d drones takes %.0f us, and %.0f us at best" % (name, count, *times))
    return 0


if __name__ == "__main__":
    if sys.argv[1:] == ["--time"]:
        raise SystemExit(main())
    unittest.main()
