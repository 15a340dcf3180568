"""The files of the examples, and what is printed for them."""

import tempfile
import unittest
from pathlib import Path

from depot_map import map_to_bytes
from sample_maps import ridge_map
from show import shown
from test_points import HYDRANT
from test_scope_paper import RIDGE, THREE_POINTS_HALF_WAY, TWO_POINTS, WORK, all_tested
from writer import write

ROOT = Path(__file__).parent.parent
FOLDER = ROOT / "examples" / "ridge"
BAN_FOLDER = ROOT / "examples" / "ridge_ban"
ISLANDS_FOLDER = ROOT / "examples" / "islands"
PROGRAM = ROOT / "crates" / "openlr_show"


class RidgeExample(unittest.TestCase):
    def test_files_are_those_of_the_scope_paper(self):
        # The gate runs the program on files of its own crate.
        for folder in (FOLDER, PROGRAM / "data"):
            self.assertEqual((folder / "map.bin").read_bytes(), RIDGE)
            self.assertEqual((folder / "ref.bin").read_bytes(), THREE_POINTS_HALF_WAY)

    def test_printed(self):
        self.assertEqual(shown(FOLDER), "lines 2 pos 4981 5019 neg 0 0\n0\n1")
        self.assertEqual((PROGRAM / "stdout").read_text(), shown(FOLDER) + "\n")

    def test_points_are_not_printed(self):
        with tempfile.TemporaryDirectory() as folder:
            for name, contents in (("map.bin", RIDGE), ("ref.bin", HYDRANT)):
                (Path(folder) / name).write_bytes(contents)
            self.assertEqual(shown(Path(folder)), "refused 13")

    def test_missing_files_count_as_empty(self):
        self.assertEqual(shown(FOLDER / "nothing here"), "refused 2")


class RidgeExampleWithABan(unittest.TestCase):
    def test_files_are_the_ridge_with_a_turn_banned_and_its_two_point_bytes(self):
        self.assertEqual((BAN_FOLDER / "map.bin").read_bytes(), map_to_bytes(ridge_map((0, 2))))
        self.assertEqual((BAN_FOLDER / "ref.bin").read_bytes(), TWO_POINTS)

    def test_printed(self):
        self.assertEqual(shown(BAN_FOLDER), "lines 2 pos 0 0 neg 0 0\n0\n1")


class IslandsExample(unittest.TestCase):
    def test_reference_is_the_writers(self):
        reference = (ISLANDS_FOLDER / "ref.bin").read_bytes()
        self.assertEqual(write((ISLANDS_FOLDER / "map.bin").read_bytes(), (0, 1, 2), 0, 0, WORK, 16), all_tested(reference, 3))

    def test_printed(self):
        self.assertEqual(shown(ISLANDS_FOLDER), "lines 3 pos 0 0 neg 0 0\n0\n1\n2")

    def test_printed_by_the_host(self):
        reference = (ISLANDS_FOLDER / "ref.bin").read_bytes().hex(" ").upper()
        self.assertEqual((ROOT / "tests" / "host_islands.txt").read_text(), f"reference {reference}\n{shown(ISLANDS_FOLDER)}\n")


if __name__ == "__main__":
    unittest.main()
