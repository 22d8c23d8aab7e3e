"""What .ci/held refuses: a definition without a row, a row that isn't there, one that isn't about its definition, a
test that is to hold a proposition, and a name that no clause reaches. Each is tried on a copy of what bench/held.d says."""
import copy
import importlib.machinery
import importlib.util
import os
import unittest
from typing import Any, Dict, List, Tuple

TOP = os.path.dirname(os.path.dirname(os.path.abspath(__file__)))
Held = Dict[str, Dict[str, Tuple[str, str]]]


def module_of(folder: str, name: str) -> Any:
    """The module of a script, whose file has no ending."""
    loader = importlib.machinery.SourceFileLoader(name, os.path.join(TOP, folder, name))
    spec = importlib.util.spec_from_loader(name, loader)
    assert spec
    module = importlib.util.module_from_spec(spec)
    loader.exec_module(module)
    return module


class Faults(unittest.TestCase):
    held: Any
    reached: List[Tuple[str, str, str]]
    rows: Any
    named: Held

    @classmethod
    def setUpClass(cls) -> None:
        cls.held = module_of(".ci", "held")
        definitions = cls.held.reading_list()
        cls.reached = definitions.reached()
        cls.rows = cls.held.Rows(definitions.cited)
        cls.named = {crate: cls.held.read_held(crate) for crate in os.listdir(cls.held.HELD)}

    def faults_with(self, crate: str, name: str, row: Tuple[str, str]) -> List[str]:
        """What is wrong if this definition names this row."""
        named: Held = copy.deepcopy(self.named)
        named.setdefault(crate, {})[name] = row
        return list(self.held.faults_of(self.reached, self.rows, named))

    def test_in_order(self) -> None:
        self.assertEqual(list(self.held.faults_of(self.reached, self.rows, self.named)), [])

    def test_known_definitions_are_reached(self) -> None:
        names = {(place[0], self.held.name_of(place)) for place in self.reached}
        for place in (("sep_parts", "Apart.ShareNoPoint"), ("whole_numbers", "Near.IsNearOver"),
                      ("upload_model", "Drones.handled")):
            self.assertTrue(place in names, place)

    def test_no_row(self) -> None:
        named: Held = copy.deepcopy(self.named)
        del named["sep_parts"]["Apart.ShareNoPoint"]
        self.assertEqual(list(self.held.faults_of(self.reached, self.rows, named)),
                         ["Apart.ShareNoPoint of sep_parts has no row"])

    def test_a_row_that_is_gone(self) -> None:
        found = self.faults_with("sep_parts", "Apart.ShareNoPoint", ("definition_tests", "LateRows.of_nobody"))
        self.assertEqual(len(found), 1)
        self.assertIn("names the row definition_tests LateRows.of_nobody, which is not there", found[0])

    def test_a_row_about_something_else(self) -> None:
        found = self.faults_with("sep_parts", "Apart.ShareNoPoint", ("command_words", "word_rows"))
        self.assertEqual(len(found), 1)
        self.assertIn("which is not about it", found[0])

    def test_a_test_holds_no_proposition(self) -> None:
        named = next(row for row, kind in self.rows.kinds.items()
                     if kind == "test" and ("show_judge", "specs/Runs.antt", "Runs") in self.rows.steps_of(row))
        self.assertIn("which is not about it", self.faults_with("show_judge", "Runs.Runs", named)[0])

    def test_a_name_that_no_clause_reaches(self) -> None:
        row = self.named["sep_parts"]["Apart.ShareNoPoint"]
        self.assertEqual(self.faults_with("sep_parts", "Apart.Nothing", row),
                         ["Apart.Nothing of sep_parts isn't reached by a clause of run"])


if __name__ == "__main__":
    unittest.main()
