"""Whether `import hemtoghai` takes the library or the program: by manifests and digests. The library is one of a few
lines of C that gives its question back, and the program is a script: what the proved ones answer is compared in
test_library_answers.py. Without a C compiler all but the words is skipped."""
import hashlib
import json
import os
import shutil
import subprocess
import sys
import tempfile
import unittest
from unittest import mock

import common
import hemtoghai
from hemtoghai import answering, program

COMPILER = shutil.which(os.environ.get("CC", "cc")) or shutil.which("gcc")
PROVED = "logic=proved functions=3 axioms=3"
# Its answer is its words and its input with a bar between them. The status is the input's first digit; 1 gives nothing.
SOURCE = """
#include <stddef.h>
#include <stdint.h>
uint8_t hemtoghai_run(const char *words, size_t words_length, const char *input, size_t input_length, char *output,
                      size_t room, size_t *size) {
    *size = 0;
    if (input_length && input[0] == '1') return 1;
    for (size_t k = 0; k < words_length + 1 + input_length; k++, ++*size)
        if (k < room) output[k] = k < words_length ? words[k] : k == words_length ? '|' : input[k - words_length - 1];
    return *size > room ? 7 : input_length && input[0] > '0' && input[0] <= '9' ? input[0] - '0' : 0;
}
"""
SCRIPT = "#!/bin/sh\necho ok drones 1 cues 1 duration_ms 1\n"


class Case(common.Folder, unittest.TestCase):
    """A folder with a library in its place, its manifest, and a program without a record."""
    compiled = b""

    @classmethod
    def setUpClass(cls):
        if COMPILER is None:
            raise unittest.SkipTest("there is no C compiler")
        with tempfile.TemporaryDirectory() as room:
            source, made = os.path.join(room, "a.c"), os.path.join(room, "a.so")
            with open(source, "w") as file:
                file.write(SOURCE)
            subprocess.run([COMPILER, "-shared", "-fPIC", "-O2", source, "-o", made], check=True)
            with open(made, "rb") as file:
                Case.compiled = file.read()

    def setUp(self):
        folder = tempfile.TemporaryDirectory()
        self.addCleanup(folder.cleanup)
        self.place = folder.name
        self.write("crates/show_cli/out/show_cli", SCRIPT, 0o755)
        self.library = "library/out/lib/libhemtoghai.so.7.8.9"
        for where, name, value in ((program, "TOP", self.place), (program, "MANIFEST", self.path("MANIFEST.json")),
                                   (program, "PROGRAM", self.path("crates/show_cli/out/show_cli")),
                                   (answering, "_chosen", None)):
            self.change(mock.patch.object(where, name, value))
        self.change(mock.patch.dict(os.environ))
        os.environ.pop("HEMTOGHAI_BY", None)

    def change(self, patch):
        """Has something be another until the test ends."""
        patch.start()
        self.addCleanup(patch.stop)

    def make(self, data=None, **more):
        """Has a library be in its place, and its manifest, whose text is returned."""
        data = Case.compiled if data is None else data
        self.write(self.library, data)
        files = {"lib/libhemtoghai.so.7.8.9": hashlib.sha256(data).hexdigest()}
        text = json.dumps({"version": "7.8.9", "rests_on": PROVED, "files": files, **more}).encode()
        self.write("library/out/MANIFEST.json", text)
        return text

    def by(self, choice=None):
        """By what and with which proof a process answers that has this choice; or why there is no answer."""
        answering._chosen = None
        os.environ.pop("HEMTOGHAI_BY", None)
        if choice is not None:
            os.environ["HEMTOGHAI_BY"] = choice
        try:
            verdict = hemtoghai.run("explain --depth 6")
        except hemtoghai.Unusable as why:
            return str(why)
        self.assertEqual((verdict.line, verdict.proved), {
            "library": ("explain --depth 6|", verdict.proof == PROVED),
            "process": ("ok drones 1 cues 1 duration_ms 1", False)}[verdict.by])
        return verdict.by, verdict.proof


class Choice(Case):
    def test_none(self):
        self.assertEqual(self.by(), ("process", None))
        self.assertEqual(self.by("library"), "the library isn't built; ./show library builds it")

    def test_library(self):
        self.make()
        self.assertEqual([self.by(), self.by("library"), self.by("process"), self.by("")],
                         [("library", PROVED), ("library", PROVED), ("process", None), ("library", PROVED)])
        for name in ("Library", "program", "LIBRARY"):
            self.assertEqual(self.by(name), "HEMTOGHAI_BY is library or process, and not %r" % name)
        os.remove(self.path("crates/show_cli/out/show_cli"))  # the library needs no program
        self.assertEqual(self.by(), ("library", PROVED))

    def test_no_proof(self):
        # A proved program isn't given up for a library of which nothing is proved.
        for rests_on in ("", "logic=open", 7, None, "logic=proved"):
            self.make(rests_on=rests_on)
            self.assertEqual([self.by(), self.by("library")], [("process", None), ("library", None)], rests_on)

    def test_other_files(self):
        self.make()
        for data in (Case.compiled + b"\n", Case.compiled[:-1], b""):
            self.write(self.library, data)
            self.assertEqual([self.by(), self.by("library")],
                             [("process", None), "the library isn't the one of its manifest"])
        os.remove(self.path(self.library))
        self.assertEqual([self.by(), "No such file" in self.by("library")], [("process", None), True])
        os.mkdir(self.path(self.library))
        self.assertEqual([self.by(), "Is a directory" in self.by("library")], [("process", None), True])

    def test_no_library(self):
        for data in (b"no library", Case.compiled[:64], SCRIPT.encode()):
            self.make(data)
            self.assertEqual(self.by(), ("process", None))
            self.assertRegex(self.by("library"), "^the library can't be loaded: ")

    def test_damaged_manifest(self):
        good = json.loads(self.make())
        for text in (b"", b"{", b"[]", b"{}", b"7", b'{"files": 7}', b"[" * 100000, b"\xff"):
            self.write("library/out/MANIFEST.json", text)
            self.assertEqual([self.by(), self.by("library")],
                             [("process", None), "the library's manifest can't be read"], text[:20])
        for version in ("7.8.8", "", 7, None, "../7.8.9"):
            self.write("library/out/MANIFEST.json", json.dumps({**good, "version": version}).encode())
            self.assertEqual(self.by(), ("process", None), version)
            self.assertIsInstance(self.by("library"), str)

    def test_other_sources(self):
        # The record of the program and the manifest of the library name the program's sources.
        for stamp, known, wanted in (("a", "a", ("library", PROVED)), ("a", "b", ("process", None)),
                                     ("a", None, ("process", None)), (None, "a", ("library", PROVED))):
            record = {"sha256": hashlib.sha256(SCRIPT.encode()).hexdigest(), **({"stamp": stamp} if stamp else {})}
            self.write("crates/show_cli/out/show_cli.built", json.dumps(record).encode())
            self.make(**({"program_stamp": known} if known else {}))
            self.assertEqual(self.by(), wanted, (stamp, known))
            if wanted[0] == "process":
                self.assertRegex(self.by("library"), "isn't of the program's sources")

    def test_release(self):
        text = self.make()
        digest = hashlib.sha256(text).hexdigest()
        known = {"library/out/MANIFEST.json": digest}
        for files, wanted in ((known, ("library", PROVED)), ({}, None), (dict.fromkeys(known, "0"), None), (7, None)):
            record = {"sha256": hashlib.sha256(SCRIPT.encode()).hexdigest(), "files": files}
            self.write("MANIFEST.json", json.dumps(record).encode())
            self.assertEqual(self.by(), wanted or ("process", None))
            self.assertEqual(self.by("library"), wanted or (
                "the library's manifest isn't as released: unpack the release anew"))
        # Whoever exchanges the library and its manifest still isn't taken for the release.
        self.write("MANIFEST.json", json.dumps({**record, "files": known}).encode())
        self.make(Case.compiled + b"\n")
        self.assertEqual(self.by(), ("process", None))

    def test_another_machine(self):
        self.make()
        with mock.patch("hemtoghai.program.fault_of_machine", return_value="this release needs another machine"):
            self.assertEqual([self.by(), self.by("library")], ["this release needs another machine"] * 2)

    def test_what_was_hashed_is_loaded(self):
        self.make()
        in_memory = program.in_memory

        def exchanged(data):
            self.write(self.library, b"exchanged once it was hashed")
            return in_memory(data)
        with mock.patch.object(program, "in_memory", exchanged):
            self.assertEqual(self.by(), ("library", PROVED))
        os.remove(self.path(self.library))  # it is there no more, and answers
        self.assertEqual(hemtoghai.run("explain --depth 6").line, "explain --depth 6|")

    def test_no_files_in_memory(self):
        self.make()
        with mock.patch.object(program, "in_memory", return_value=None):
            self.assertEqual(self.by(), ("library", PROVED))

    def test_chosen_once(self):
        self.assertEqual(self.by(), ("process", None))
        self.make()
        os.environ["HEMTOGHAI_BY"] = "library"
        self.assertEqual(hemtoghai.check("").by, "process")

    def test_faults_are_told_again(self):
        self.assertIsInstance(self.by("library"), str)
        self.make()
        self.assertEqual(hemtoghai.run("explain").by, "library")


class Questions(Case):
    def setUp(self):
        super().setUp()
        self.make()

    def test_words(self):
        self.assertEqual(hemtoghai.run("  explain\t--depth 4\n", "a").output, b"explain --depth 4|a")
        self.assertEqual(hemtoghai.run("", "a").output, b"|a")
        self.assertEqual(hemtoghai.run("explain --depth 04", "a").depth, 4)
        for words, line in ((["check"], b"check"), (["check", "--depth", "3 "], b"check --depth ?"),
                            (["check", ""], b"check ?"), (["a\tb", "\udcff", "\u00e9"], b"? \xff \xc3\xa9"), ([], b"")):
            self.assertEqual(answering.line_of(words), line)

    def test_texts(self):
        for text in ("a", b"a", bytearray(b"a"), memoryview(b"a")):
            self.assertEqual(hemtoghai.run("explain", text).output, b"explain|a")
        self.assertEqual(hemtoghai.run("explain", b"a\0b\xff\r\n").output, b"explain|a\0b\xff\r\n")
        self.assertEqual(hemtoghai.run("explain", "\u00e9\udcff").output, b"explain|\xc3\xa9\xff")
        for wrong in (5, None, ["a"], 2.5):
            with self.assertRaises(TypeError):
                hemtoghai.check(wrong)

    def test_numbers(self):
        for wrong in (2.0, 2.5, float("nan"), float("inf"), "6"):
            for call in (lambda: hemtoghai.check("", wrong), lambda: hemtoghai.play("", step_ms=wrong),
                         lambda: hemtoghai.dynamics("", jump=wrong), lambda: hemtoghai.speed("", limit=wrong)):
                with self.assertRaises(TypeError):
                    call()

    def test_long_answers(self):
        # More than the room that is given at first, by one byte and by many.
        for count in (answering.ROOM - 8, answering.ROOM - 7, answering.ROOM - 6, 3000000):
            verdict = hemtoghai.run("explain", b"x" * count)
            self.assertEqual((verdict.status, verdict.output), (0, b"explain|" + b"x" * count))

    def test_a_question_within_a_question(self):
        # As of a handler of signals, which runs between the call and the copy of its answer.
        library, within = answering.library(), []
        library.run(["explain"], b"first")
        call = library.call

        def interrupted(*words):
            status = call(*words)
            if not within:
                within.append(None)
                within[0] = library.run(["help"], b"within it").output
            return status
        library.call = interrupted
        self.assertEqual((library.run(["explain"], b"outer").output, within), (b"explain|outer", [b"help|within it"]))

    def test_statuses(self):
        with self.assertRaises(MemoryError):
            hemtoghai.check("1")
        self.assertEqual([hemtoghai.check(str(status)).status for status in (2, 3, 4, 5, 6, 8, 9)], [2, 3, 4, 5, 6, 8, 9])
        self.assertEqual(hemtoghai.run("explain", "0").status, 0)
        with self.assertRaises(hemtoghai.Refused) as refused:
            hemtoghai.certify("4")
        self.assertEqual((refused.exception.verdict.status, refused.exception.verdict.by), (4, "library"))


    def test_no_answer(self):
        # A library that accepts without the words of the command gave no answer, as a program didn't that does.
        for ask in (hemtoghai.check, hemtoghai.compile, hemtoghai.certify, hemtoghai.report, hemtoghai.speed, hemtoghai.play,
                    lambda text: hemtoghai.verify(text, ""), lambda text: hemtoghai.boxes(text, "")):
            with self.assertRaises(hemtoghai.Unusable) as refused:
                ask("0")
            self.assertIn("gave no answer of", str(refused.exception))


class Lazy(unittest.TestCase):
    def test_nothing_is_loaded_before_the_first_question(self):
        code = ("import sys, hemtoghai\nhemtoghai.check\nfrom hemtoghai import answering\n"
                "print(answering._chosen, 'ctypes' in sys.modules)")
        done = subprocess.run([sys.executable, "-B", "-c", code], cwd=common.TOP, stdout=subprocess.PIPE,
                              env={**os.environ, "PYTHONPATH": common.PYTHON, "HEMTOGHAI_BY": "nothing"})
        self.assertEqual((done.returncode, done.stdout), (0, b"None False\n"))


if __name__ == "__main__":
    unittest.main()
