"""The completions and the manual page have all words and options of ./show: those of the program's own `help`, and those
that each tool's --help has."""
import contextlib
import io
import os
import re
import shutil
import subprocess
import unittest

import common
from hemtoghai import __main__, program
from hemtoghai.dev import completion, manual
from hemtoghai.launching.help import help_text, usage_of


def help_of(*words):
    """What --help of a tool prints."""
    said = io.StringIO()
    with contextlib.redirect_stdout(said), contextlib.suppress(SystemExit):
        __main__.main([*words, "--help"])
    return said.getvalue()


def forms():
    """By command of the program the options of its form, as its own `help` writes them, or the table of COMMANDS.md."""
    with open(os.path.join(common.TOP, "docs", "COMMANDS.md"), encoding="utf-8") as file:
        page = "\n".join(re.findall(r"^\| \[`([^`]+)`\]\(#", file.read(), re.M))
    text = program.ask(["help"], b"")[1].decode() if program.fault() is None else page
    return {line.split()[0]: re.findall(r"--[a-z]+", line) for line in text.splitlines()}


# The words that a companion has after its own, or None of what no user types.
TOOLS = {word: tuple((word, kind) for kind in completion.FORMATS[word]) if word in completion.FORMATS else ((word,),)
         for word in __main__.COMMANDS if word != "studio_work"}


def options():
    """By word all its options, from its own help."""
    json = set(__main__.WITH_JSON)
    own = {word: {*found, "--help", *["--json"] * (word in json)} for word, found in forms().items()}
    for word, calls in TOOLS.items():
        # The usage above the description may name options of other words, as texts do; a row begins with its option.
        own[word] = {"--help", *["--json"] * (word in json)} | {
            name for call in calls for name in re.findall(r"^  (?:-\w, )?(--[a-z-]+)", help_of(*call), re.M)}
    return own


class All(unittest.TestCase):
    @classmethod
    def setUpClass(cls):
        cls.own = options()

    def test_table(self):
        found = {it.name: {option.name for option in it.options} for it in completion.all_words()}
        self.assertEqual(found, self.own)
        self.assertGreater(len(found), 30)
        self.assertIn("--cured", found["why"])
        self.assertIn("--tolerance", found["export"])

    def test_help(self):
        # The list of all words, and --json wherever it is taken.
        listed = set(re.findall(r"^([a-z]+) ", help_text(), re.M))
        self.assertLessEqual(set(self.own), listed)
        for word in forms():
            self.assertEqual("\n--json " in usage_of(word), "--json" in self.own[word], word)

    def test_manual(self):
        text = manual.page("7.8.9").replace("\\-", "-")
        for word, found in self.own.items():
            part = re.search(r"^\.TP\n\.B %s( .*|)\n(.*\n)*?(?=\.TP|\.SH)" % word, text, re.M)[0]
            self.assertLessEqual(found - {"--help"}, set(re.findall(r"--[a-z-]+", part)), word)

    def test_nothing_is_carried_out(self):
        # What looks for a tool's options doesn't start the tool, and leaves its reader as it was.
        completion.all_words()
        with self.assertRaises(SystemExit), contextlib.redirect_stdout(io.StringIO()):
            __main__.main(["why", "--help"])


class Shells(unittest.TestCase):
    """What each shell offers for the last of some words."""

    ROWS = ((("ch",), {"check"}), (("stu",), {"studio"}), (("--un",), {"--unproved"}), (("--proved", "dr"), {"drill"}),
            (("check", "--d"), {"--depth"}), (("check", "--depth", "7"), {"7"}), (("why", "--cu"), {"--cured"}),
            (("fly", "--only", "l"), {"look", "land"}), (("export", "c"), {"csv"}), (("manual", "p"), {"page"}),
            (("--unproved", "explain", "--f"), {"--fine"}), (("import", "--ell"), {"--ellipsoid"}),
            (("why", "examples/so"), {"examples/solo.choreo"}), (("deal", "--depth", "3"), {"3"}))

    def run_in(self, shell, *words, env=None):
        """What a shell writes that reads these words."""
        done = subprocess.run([shell, *words], cwd=common.TOP, stdout=subprocess.PIPE, stderr=subprocess.PIPE,
                              universal_newlines=True, timeout=60, env={**os.environ, **(env or {})})
        self.assertEqual((done.returncode, done.stderr), (0, ""), words)
        return done.stdout

    def compare(self, offered):
        """Compares what is offered for each of the rows, and for each word its options."""
        for words, wanted in self.ROWS:
            self.assertEqual(offered(*words), wanted, words)
        for word, found in options().items():
            self.assertEqual(offered(word, "--"), found, word)

    def test_bash(self):
        script = completion.completion("bash") + 'COMP_WORDS=("$@") COMP_CWORD=$(($# - 1))\n_show\n' \
            'printf "%s\\n" "${COMPREPLY[@]}"\n'
        self.compare(lambda *words: set(self.run_in("bash", "-c", script, "bash", "./show", *words).split()))

    @unittest.skipUnless(shutil.which("zsh"), "there is no zsh")
    def test_zsh(self):
        # Its own `compadd` works in a terminal alone: here one that prints what begins as the word does.
        front = """compdef() {}
compadd() {
  local it
  if [[ $1 == -a ]]; then set -- "${(@P)2}"; fi
  for it; do [[ $it != ${PREFIX}* ]] || print -r -- $it; done
}
_files() { print -rl -- ${PREFIX}*(N) }
"""
        script = front + completion.completion("zsh") + 'words=("$@") CURRENT=$# PREFIX=${@[-1]}\n_show\n'
        self.compare(lambda *words: set(self.run_in("zsh", "-fc", script, "zsh", "./show", *words).split()))

    @unittest.skipUnless(shutil.which("fish"), "there is no fish")
    def test_fish(self):
        script = completion.completion("fish") + "complete -C $line\n"
        # It leaves out what begins with - where a word was begun without one, and adds each one's purpose after a tab.
        self.compare(lambda *words: {line.split("\t")[0] for line in self.run_in(
            "fish", "--no-config", "-c", script, env={"line": "./show " + " ".join(words)}).splitlines()})


if __name__ == "__main__":
    unittest.main()
