"""The library for C, as ./show library made it in library/out: from C, C++ and Rust, by many threads at once, and with
each malloc failing in turn; and the programs of docs/CALLING.md. What is expected is the program's own answer, or that
of the documents. What needs a compiler or a build that isn't there, or isn't of these sources, is skipped. From Python
it is called in test_library_answers.py."""
import ctypes
import hashlib
import json
import os
import re
import shutil
import subprocess
import sys
import tempfile
import unittest

sys.dont_write_bytecode = True
sys.path.insert(0, os.path.dirname(os.path.abspath(__file__)))
import common
from common import PROGRAM, TOP, wants_program
from hemtoghai import answering
from hemtoghai.launching import records

OUT = os.path.join(TOP, "library", "out")
CALLING = os.path.join(TOP, "docs", "CALLING.md")
STRICT = ["-O2", "-Wall", "-Wextra", "-pedantic", "-Werror"]
SHOWS = ["solo", "crossing", "crossing_cured", "grid_to_ring_dealt", "every_act"]
WORDS = ["check", "compile", "certify", "play --step 500", "report", "speed", "explain", "dynamics", "boxes", "verify",
         "rehearse", "upload --start", "check --depth 9", "help", "version", "drill 4", "", "\tcheck\n--depth  2 "]
ACCEPTED = 0, b"ok drones 1 cues 1 duration_ms 2000\n"
# Each command with an input, and the status that docs/COMMANDS.md has for it.
CERTIFICATE = b"%%\ncertificate 6\nr\nn\na\n"
TAKEN = b"%%\n" + b"".join(b"%s solo %d\n" % it for it in [
    (b"take", 2), (b"take", 1), (b"take", 1), (b"hear", 1), (b"hear", 1), (b"hear", 2), (b"take", 3), (b"hear", 4)])
ALTERED = b"%%\n" + b"".join(it + b"\n" for it in [
    b"take solo 1", b"take solo 2", b"hear solo 1", b"hear solo 2", b"take solo 3", b"hear solo 3", b"alter solo 3 7",
    b"take solo 4", b"take solo 5", b"hear solo 4", b"hear solo 5"])
FRAMES = b"%%\nP\1\7N\2\0\0\0\0\0P\1\7N\2\30\0\0\0\0P\1\5\214\6\0\1\0"
EVERY = [("help", None, b"", 0), ("version", None, b"", 0), ("drill 4", None, b"", 0), ("chek", None, b"", 2),
         ("check", "crossing_cured", b"", 0), ("compile --depth 3", "crossing_cured", b"", 0),
         ("certify", "crossing_cured", b"", 0), ("play --step 500", "crossing_cured", b"", 0),
         ("report", "crossing_cured", b"", 0), ("verify", "crossing_cured", CERTIFICATE, 0),
         ("rehearse", "solo", TAKEN, 0), ("rehearse --readback", "solo", ALTERED, 14), ("upload", "solo", FRAMES, 0),
         ("boxes", "shelf", b"%%\n", 0), ("speed", "solo", b"", 0), ("speed --limit 1000000", "solo", b"", 16),
         ("explain", "crossing", b"", 0), ("dynamics", "crossing_cured", b"", 0), ("check", "crossing", b"", 5),
         ("upload", "crossing", FRAMES, 5), ("check", "solo", b"%%\n", 11), ("verify", "solo", b"", 11)]


def path_of(show):
    """The file of an example."""
    return os.path.join(TOP, "examples", show + ".choreo")


def text_of(show):
    """The bytes of an example."""
    with open(path_of(show), "rb") as file:
        return file.read()


def version():
    """The version of these files."""
    with open(os.path.join(TOP, "VERSION")) as file:
        return file.read().strip()


def said(*words, text=b"", place=None, **more):
    """The status and the output of a command. Its input is a file, since some commands read nothing."""
    with tempfile.TemporaryFile() as source:
        source.write(text)
        source.seek(0)
        done = subprocess.run(words, stdin=source, stdout=subprocess.PIPE, stderr=subprocess.STDOUT, timeout=600,
                              cwd=place, env={**os.environ, **more})
    return done.returncode, done.stdout


def blocks_of(language):
    """The programs in a language in docs/CALLING.md, each with the output that stands after it."""
    with open(CALLING) as file:
        page = file.read()
    return re.findall(r"^```%s\n(.*?)^```\n.*?^```text\n(.*?)^```\n" % language, page, re.M | re.S)


def is_made():
    """Whether library/out is what ./show library makes of these sources."""
    try:
        with open(os.path.join(OUT, "MANIFEST.json")) as file:
            record = json.load(file)
    except (OSError, ValueError):
        return False
    return record.get("stamp") == records.stamp(records.crates_below("hemtoghai"))


class Room(unittest.TestCase):
    """The library that was made, and a folder for what is built with it."""
    room, lib, include = None, os.path.join(OUT, "lib"), os.path.join(OUT, "include")

    @classmethod
    def setUpClass(cls):
        if Room.room is None:
            if not is_made():
                raise unittest.SkipTest("the library isn't the one of these sources: ./show library makes it")
            if not shutil.which("cc"):
                raise unittest.SkipTest("there is no C compiler")
            Room.room = tempfile.mkdtemp()
            unittest.addModuleCleanup(shutil.rmtree, Room.room)

    def built(self, source, *flags, compiler="cc"):
        """A program of a C file with the static library."""
        program = os.path.join(self.room, os.path.basename(source).split(".")[0])
        status, text = said(compiler, *STRICT, "-I" + self.include, os.path.join(TOP, source),
                            os.path.join(self.lib, "libhemtoghai.a"), *flags, "-o", program)
        self.assertEqual((status, text), (0, b""))
        return program


FAKE = """int hemtoghai_run(void) { return 7; }
const char *hemtoghai_version(void) { return "none"; }
"""


class Writes(common.Folder, unittest.TestCase):
    """What ./show library writes of an archive that it was told is the proved one."""

    def setUp(self):
        if not all(map(shutil.which, ("cc", "ld", "ar", "nm", "objcopy", "size"))):
            self.skipTest("there is no C compiler, or no binutils")
        # In memory where that is there: each file is waited for until it is on its disk.
        folder = tempfile.TemporaryDirectory(dir="/dev/shm" if os.path.isdir("/dev/shm") else None)
        self.addCleanup(folder.cleanup)
        self.place = folder.name
        self.write("fake.c", FAKE)
        self.write("c/heap.c", "int of_the_heap;\n")
        for name, archive in (("fake", "fake.a"), ("c/heap", "c/liblibc_c.a")):
            self.assertEqual(said("cc", "-c", "-fPIC", name + ".c", "-o", name + ".o", place=self.place), (0, b""))
            self.assertEqual(said("ar", "rcs", archive, name + ".o", place=self.place), (0, b""))

    def made(self, *words, most=None):
        """The status and the words of the command, which may write so many bytes to a file."""
        code = ("import os, resource, sys\nsys.path[:0] = [%r]\nfrom unittest import mock\n"
                "from hemtoghai import __main__, streams\nfrom hemtoghai.dev import library\nreal = library.said\n"
                "library.toolchain = lambda: %r\nlibrary.prove = lambda *_: (%r, 'logic=proved nothing')\n"
                "library.stamps = lambda: {'stamp': 'a', 'program_stamp': 'b'}\n"
                "library.said = lambda *given, **more: 'rt 0' if given[0] == 'rt' else real(*given, **more)\n"
                "if %r:\n    write = library.outputs.write_below\n"
                "    def limited(*given):\n        resource.setrlimit(resource.RLIMIT_FSIZE, (%r, %r))\n        write(*given)\n"
                "    library.outputs.write_below = limited\n"
                "streams.run(lambda: __main__.main(['library', *sys.argv[1:]]), 'library')\n" % (
                    os.path.join(TOP, "python"), self.place, self.path("fake.a"), most, most, most))
        return said(sys.executable, "-IS", "-c", code, *words, place=self.place)

    def found(self):
        """All files below the folder of the library, with their bytes, and the links with what they lead to."""
        out = {}
        for folder, _, names in os.walk(self.path("out")):
            for name in names:
                path = os.path.join(folder, name)
                with open(path, "rb") as file:
                    out[os.path.relpath(path, self.path("out"))] = os.readlink(path) if os.path.islink(path) else file.read()
        return out

    def test_whole_files_or_none(self):
        status, told = self.made("--out", "out", most=600)
        self.assertEqual((status, os.path.exists(self.path("out"))), (70, False), told)
        self.assertIn(b"File too large\n", told)
        status, told = self.made("--out", "out")
        self.assertEqual(status, 0, told)
        shared = "libhemtoghai.so." + version()
        first = self.found()
        self.assertEqual(sorted(first), ["MANIFEST.json", "include/hemtoghai.h", "lib/libhemtoghai.a", "lib/libhemtoghai.so",
                                         "lib/libhemtoghai.so.0", "lib/" + shared, "lib/pkgconfig/hemtoghai.pc"])
        self.assertEqual((first["lib/libhemtoghai.so"], first["lib/libhemtoghai.so.0"]), (shared, shared))
        record = json.loads(first["MANIFEST.json"])
        self.assertEqual(record["files"], {path: hashlib.sha256(data).hexdigest() for path, data in first.items()
                                           if isinstance(data, bytes) and path != "MANIFEST.json"})
        self.assertEqual(ctypes.CDLL(self.path("out/lib/libhemtoghai.so")).hemtoghai_run(), 7)
        # Files that are there are nobody's but by --force; where they can't be written anew all of them stay.
        status, told = self.made("--out", "out")
        self.assertEqual((status, self.found()), (70, first))
        self.assertIn(b"is there already: --force overwrites it", told)
        self.write("fake.c", FAKE.replace("7", "8"))
        self.assertEqual(said("cc", "-c", "-fPIC", "fake.c", "-o", "fake.o", place=self.place), (0, b""))
        self.assertEqual(said("ar", "rcs", "fake.a", "fake.o", place=self.place), (0, b""))
        self.assertEqual((self.made("--force", "--out", "out", most=600)[0], self.found()), (70, first))
        self.assertEqual(self.made("--force", "--out", "out")[0], 0)
        self.assertEqual(ctypes.CDLL(self.path("out/lib/" + shared)).hemtoghai_run(), 8)
        self.assertEqual(sorted(self.found()), sorted(first))


class InC(Room):
    def stress(self):
        """The program that stresses the library."""
        program = os.path.join(self.room, "library_stress")
        return program if os.path.exists(program) else self.built(
            "tests/library_stress.c", "-std=gnu11", "-pthread", "-Wl,--wrap=malloc,--wrap=realloc,--wrap=free")

    def test_c(self):
        status, text = said(self.built("library/check.c", "-std=c99"), path_of("crossing_cured"), path_of("crossing"))
        self.assertEqual((status, text.decode().replace(TOP + "/examples/", "")),
                         (5, "crossing_cured.choreo: 0: ok drones 2 cues 3 duration_ms 7000\n"
                             "crossing.choreo: 5: error 5 pair a b cue 1 part 28 of 64\n"))

    @unittest.skipUnless(shutil.which("c++"), "there is no C++ compiler")
    def test_cpp(self):
        program = self.built("library/plan.cpp", "-std=c++17", compiler="c++")
        with open(os.path.join(TOP, "crates", "show_cli", "stdin"), "rb") as show, open(
                os.path.join(TOP, "crates", "show_cli", "stdout"), "rb") as plan:
            self.assertEqual(said(program, text=show.read()), (0, plan.read()))

    @unittest.skipUnless(shutil.which("cargo"), "there is no cargo")
    def test_rust(self):
        place = os.path.join(self.room, "rust")
        shutil.copytree(os.path.join(TOP, "library", "rust"), place, ignore=shutil.ignore_patterns("target"))
        status, text = said("cargo", "test", "--offline", "--quiet", place=place, HEMTOGHAI_LIB=self.lib)
        self.assertEqual((status, text.count(b"test result: ok. 3 passed")), (0, 1), text.decode())

    def test_shared(self):
        flags = ["-I" + self.include, "-L" + self.lib, "-lhemtoghai"]
        program = os.path.join(self.room, "by_shared")
        self.assertEqual(said("cc", *STRICT, os.path.join(TOP, "library", "check.c"), *flags, "-o", program), (0, b""))
        self.assertEqual(said(program, path_of("solo"), LD_LIBRARY_PATH=self.lib),
                         (0, path_of("solo").encode() + b": 0: " + ACCEPTED[1]))

    def test_threads(self):
        self.assertEqual(said(self.stress(), "threads", "8", "1000", *map(path_of, SHOWS)), (0, b"wrong 0 out 0\n"))

    def inputs(self):
        """Each command with the file of its input, and the status of its answer."""
        for number, (words, show, second, status) in enumerate(EVERY):
            text = text_of(show) if show else b""
            if words == "boxes":
                with open(os.path.join(TOP, "examples", "shelf.regions"), "rb") as file:
                    second += file.read()
            path = os.path.join(self.room, "input%d" % number)
            with open(path, "wb") as file:
                file.write(text + second)
            yield words, path, status

    def test_every_command(self):
        shows = [word for words, path, _ in self.inputs() for word in (words, path)]
        status, text = said(self.stress(), "calls", "3", *shows)
        self.assertEqual(status, 0, text)
        self.assertRegex(text, rb"^calls %d asks \d+ wrong 0 out 0\n$" % (3 * len(EVERY)))
        for words, path, wanted in self.inputs():
            with open(path, "rb") as file:
                self.assertEqual(answering.library().run(words.split(), file.read()).status, wanted, words)

    def test_memory(self):
        for words, path, wanted in self.inputs():
            status, text = said(self.stress(), "failing", words, path)
            self.assertEqual(status, 0, (words, text))
            self.assertTrue(text.startswith(b"status %d after " % wanted), (words, text))

    @unittest.skipUnless(shutil.which("valgrind"), "there is no valgrind")
    def test_valgrind(self):
        shows = [word for words, path, _ in self.inputs() for word in (words, path)]
        for tool, words in (("memcheck", ["calls", "1", *shows]),
                            ("helgrind", ["threads", "4", "6", path_of("solo"), path_of("crossing")])):
            checked = ["valgrind", "--tool=" + tool, "--error-exitcode=9"]
            if tool == "memcheck":
                checked += ["--leak-check=full", "--errors-for-leak-kinds=definite"]
            status, text = said(*checked, self.stress(), *words)
            self.assertEqual(status, 0, text.decode())

    def test_room(self):
        library = ctypes.CDLL(os.path.join(self.lib, "libhemtoghai.so.0"))
        output, size, text = ctypes.create_string_buffer(b"?" * 40), ctypes.c_size_t(), text_of("solo")
        for room, status, stands in ((40, 0, ACCEPTED[1] + b"????"), (36, 0, ACCEPTED[1] + b"????"),
                                     (35, 7, ACCEPTED[1][:35] + b"?????"), (5, 7, b"ok dr" + b"?" * 35),
                                     (0, 7, b"?" * 40)):
            output.value = b"?" * 40
            found = library.hemtoghai_run(b"check", ctypes.c_size_t(5), text, ctypes.c_size_t(len(text)),
                                          output if room else None, ctypes.c_size_t(room), ctypes.byref(size))
            self.assertEqual((found & 255, size.value, output.raw[:40]), (status, 36, stands))
        for words, status in ((b"check \xff", 17), (b"check \xc3\xa9", 2)):  # no UTF-8, and a word of it
            output.value = b"?" * 40
            found = library.hemtoghai_run(words, ctypes.c_size_t(len(words)), None, ctypes.c_size_t(0), output,
                                          ctypes.c_size_t(40), ctypes.byref(size))
            line = b"error 2 usage\n" if status == 2 else b""
            self.assertEqual((found & 255, size.value, output.raw[:40]), (status, len(line), line.ljust(40, b"?")))

    def test_header_has_the_version(self):
        with open(os.path.join(TOP, "library", "hemtoghai.h")) as header:
            text = header.read()
        for name, number in zip(("MAJOR", "MINOR", "PATCH"), version().split(".")):
            self.assertIn("#define HEMTOGHAI_VERSION_%s %s\n" % (name, number), text)
        with open(os.path.join(TOP, "library", "rust", "Cargo.toml")) as file:
            self.assertIn('\nversion = "%s"\n' % version(), file.read())

    def test_manifest(self):
        with open(os.path.join(OUT, "MANIFEST.json")) as file:
            manifest = json.load(file)
        self.assertEqual(sorted(manifest["files"]), [
            "include/hemtoghai.h", "lib/libhemtoghai.a", "lib/libhemtoghai.so." + version(),
            "lib/pkgconfig/hemtoghai.pc"])
        self.assertRegex(manifest["rests_on"], "^logic=proved .* axioms=3 ")
        self.assertEqual(answering.library().proof, manifest["rests_on"])


class Same(Room):
    @wants_program
    def test_same_answers(self):
        library = answering.library()
        for show in SHOWS:
            text = text_of(show)
            for words in WORDS:
                answer = library.run(words.split(), text)
                self.assertEqual((answer.status, answer.output), said(PROGRAM, *words.split(), text=text), (words, show))


class Page(Room):
    """The programs of docs/CALLING.md, run as they stand."""

    def written(self, name, text):
        """The path of a file of a program."""
        path = os.path.join(self.room, name)
        os.makedirs(os.path.dirname(path), exist_ok=True)
        with open(path, "w") as file:
            file.write(text)
        return path

    def test_c(self):
        (source, output), = blocks_of("c")
        program = self.built(self.written("page/above.c", source), "-std=c99", compiler="cc")
        self.assertEqual(said(program, place=TOP), (0, output.encode()))

    @unittest.skipUnless(shutil.which("cargo"), "there is no cargo")
    def test_rust(self):
        (source, output), = blocks_of("rust")
        self.written("page/rust/src/main.rs", source)
        self.written("page/rust/Cargo.toml", '[package]\nname = "page"\nversion = "0.1.0"\nedition = "2021"\n'
                     '[dependencies]\nhemtoghai = { path = "%s" }\n' % os.path.join(TOP, "library", "rust"))
        place = os.path.join(self.room, "page", "rust")
        status, text = said("cargo", "build", "--offline", "--quiet", place=place, HEMTOGHAI_LIB=self.lib)
        self.assertEqual((status, text), (0, b""))
        self.assertEqual(said(os.path.join(place, "target", "debug", "page"), place=TOP), (0, output.encode()))


if __name__ == "__main__":
    unittest.main()
