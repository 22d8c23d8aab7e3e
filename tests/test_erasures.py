"""What bench/erasures reads of the toolchain's words: that a row isn't proved, and that nothing was tried. The toolchain
itself says these words here, of a crate of a single row, where `rt` is on the PATH."""
import importlib.machinery
import importlib.util
import os
import shutil
import tempfile
import unittest

TOP = os.path.dirname(os.path.dirname(os.path.abspath(__file__)))
ROW = """//! A row.
#![tactic(auto)]

ghost use Rattle.std.specs.Prelude.{◌≡◌};

/// A row.
pub fn row(number: u8) -> u8
    ensures { %s }
{
    number
}
"""


def erasures():
    """The module of bench/erasures, whose file has no ending."""
    loader = importlib.machinery.SourceFileLoader("erasures", os.path.join(TOP, "bench", "erasures"))
    spec = importlib.util.spec_from_loader("erasures", loader)
    module = importlib.util.module_from_spec(spec)
    loader.exec_module(module)
    return module


@unittest.skipUnless(shutil.which("rt"), "rt isn't on the PATH")
class Words(unittest.TestCase):
    def said_of(self, clause):
        """What bench/erasures finds in the toolchain's words about a row with this clause."""
        with tempfile.TemporaryDirectory() as room:
            folder = os.path.join(room, "crates", "definition_tests", "src")
            os.makedirs(folder)
            with open(os.path.join(room, "crates.txt"), "w", encoding="utf-8") as file:
                file.write("definition_tests:\n")
            with open(os.path.join(folder, "lib.rt"), "w", encoding="utf-8") as file:
                file.write(ROW % clause)
            return self.module.checked(room, 1)

    def setUp(self):
        self.module = erasures()

    def test_proved(self):
        self.assertIsNone(self.said_of("result ≡ number"))

    def test_refused(self):
        self.assertEqual(self.said_of("result ≡ 1"), ("definition_tests", ["row"]))

    def test_not_tried(self):
        with self.assertRaises(self.module.NotTried):
            self.said_of("result ≡ nothing_of_this_name")


if __name__ == "__main__":
    unittest.main()
