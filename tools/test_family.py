"""Tests of tools/family.py, and that the examples are what it makes of their lists. Run: python3 tools/test_family.py"""

import pathlib
import subprocess
import sys
import tempfile
import unittest

import family

ROOT = pathlib.Path(__file__).resolve().parent.parent
EIGHT = """# the eight-peptide family
leaves 2 3   # two lines
leaves 1 2
region 1 2 3
region 1 1 2
region 2 2 1
region 3 4 3
region 4 4 0
path 7 3 1 4 6 2 5 8
"""


class Lists(unittest.TestCase):
    def test_eight_peptides(self):
        lengths, regions, path = family.read_list(EIGHT)
        # byte by byte from the layout: m = 8, N = 4, K = 5, offsets 16 and 24, total 54
        self.assertEqual(
            family.family_bytes(lengths, regions).hex(" "),
            "50 48 46 42 08 00 04 00 05 00 10 00 18 00 36 00 "
            "02 00 03 00 01 00 02 00 "
            "01 00 02 00 03 00 01 00 01 00 02 00 02 00 02 00 01 00 03 00 04 00 03 00 04 00 04 00 00 00",
        )
        self.assertEqual(family.path_bytes(path).hex(" "), "07 00 03 00 01 00 04 00 06 00 02 00 05 00 08 00")

    def test_proteins_with_nothing_measured(self):
        text = "leaves 0 1 0 0 1\nregion 1 3 1\nregion 3 3 0\npath 2 1\n"
        lengths, regions, path = family.read_list(text)
        # m = 2, N = 5, K = 2, offsets 16 and 26, total 38
        data = bytes.fromhex(
            "50 48 46 42 02 00 05 00 02 00 10 00 1a 00 26 00 "
            "00 00 01 00 00 00 00 00 01 00 "
            "01 00 03 00 01 00 03 00 03 00 00 00"
        )
        self.assertEqual(family.family_bytes(lengths, regions), data)
        self.assertEqual(family.split_family(data), ([0, 1, 0, 0, 1], [(1, 3, 1), (3, 3, 0)]))
        self.assertEqual(family.write_list(lengths, regions, path), text)

    def test_the_longest_family(self):
        lengths, regions = [0] * 4095 + [1], [(4096, 4096, 0)] * 8191
        data = family.family_bytes(lengths, regions)
        # N = 0x1000, K = 0x1fff, offset 16 + 2 * 4096 = 0x2010, total 0x2010 + 6 * 8191 = 0xe00a
        self.assertEqual(data[:16].hex(" "), "50 48 46 42 01 00 00 10 ff 1f 10 00 10 20 0a e0")
        self.assertEqual(len(data), 57354)
        self.assertEqual(family.split_family(data), (lengths, regions))

    def test_low_byte_first(self):
        self.assertEqual(family.path_bytes([258, 65535]).hex(" "), "02 01 ff ff")

    def test_there_and_back(self):
        lengths = [i % 7 for i in range(60)]
        regions = [(i, 60, i * 1000) for i in range(1, 60)]
        path = list(range(174, 0, -1))
        text = family.write_list(lengths, regions, path)
        self.assertEqual(family.read_list(text), (lengths, regions, path))
        data = family.family_bytes(lengths, regions)
        self.assertEqual(family.split_family(data), (lengths, regions))
        self.assertEqual(family.split_path(family.path_bytes(path)), path)

    def test_empty_path(self):
        self.assertEqual(family.read_list("leaves 3\n"), ([3], [], []))
        self.assertEqual(family.path_bytes([]), b"")

    def test_bad_lists(self):
        for text in ["leaf 3", "leaves x", "leaves -1", "leaves 65536", "region 1 2", "region 1 2 3 4"]:
            with self.assertRaises(family.BadList, msg=text):
                family.read_list(text)

    def test_too_large(self):
        with self.assertRaises(family.BadList):
            family.family_bytes([65535, 1], [])

    def test_bad_files(self):
        good = family.family_bytes([2, 3], [(1, 1, 1)])
        emptied = good[:16] + b"\0" + good[17:]
        for data in [b"", good[:-1], good + b"\0", b"PHFC" + good[4:], good[:4] + b"\6" + good[5:], emptied]:
            with self.assertRaises(family.BadList):
                family.split_family(data)
        with self.assertRaises(family.BadList):
            family.split_path(b"\0")


LEAVES = "leaves 2 3 1 2\nregion 1 2\nregion 1 1\nregion 2 2\nregion 3 4\nregion 4 4\n"
P_VALUES = "p 1000 500000 20 300\np 900000 40000 10 5\n"


class FromPValues(unittest.TestCase):
    def zs(self, text):
        return [z for _, _, z in family.read_list(text)[1]]

    def test_the_worked_example(self):
        for last, expected in [
            ("constant 0", [0, 0, 0, 0, 0]),
            ("constant 100000", [2, 0, 1, 0, 0]),
            # the square of 500,000 is 250,000 times 1,000,000
            ("constant 249999", [2, 0, 1, 0, 0]),
            ("constant 250000", [2, 1, 1, 0, 0]),
            ("constant 1497866", [4, 2, 3, 1, 1]),
            ("level 0.05", [4, 2, 3, 1, 1]),
        ]:
            with self.subTest(last):
                self.assertEqual(self.zs(LEAVES + P_VALUES + last), expected)
                # the order of the lines is free
                self.assertEqual(self.zs(last + "\n" + P_VALUES + LEAVES), expected)

    def test_the_rest_of_the_list(self):
        lengths, regions, path = family.read_list(LEAVES + P_VALUES + "level 0.05\npath 8 7\n")
        self.assertEqual((lengths, path), ([2, 3, 1, 2], [8, 7]))
        self.assertEqual([(first, last) for first, last, _ in regions], [(1, 2), (1, 1), (2, 2), (3, 4), (4, 4)])

    def test_levels(self):
        # ln 20 / 2 = 1.49786613.., ln 2 / 2 = 0.34657359.., ln 10 / 2 = 1.15129254..
        for level, constant in [("0.05", 1497867), ("0.5", 346574), ("0.1", 1151293), ("0.10", 1151293)]:
            self.assertEqual(family.constant_of(level, ""), constant)
        self.assertEqual(family.constant_of("0." + "9" * 40, ""), 1)
        # the least is e to the power of -200, which is 0.00..013838.. with 86 zeros behind the point; ln(1.3838965../1.384) / 2 =
        # -0.0000373..
        self.assertEqual(family.constant_of("0." + "0" * 86 + "1384", ""), 99999963)
        with self.assertRaises(family.BadList):
            family.constant_of("0." + "0" * 86 + "1383", "")

    def test_one_peptide(self):
        # 1 passes exactly if the square of the gap is at most the constant times 1,000,000
        for p, least in [(0, 1000000), (500000, 250000), (999999, 1)]:
            self.assertEqual(family.z_of([p], least - 1), 0)
            self.assertEqual(family.z_of([p], least), 1)
        self.assertEqual(family.z_of([1000000], 0), 1)

    def test_equal_p_values(self):
        # with v times the square of the gap at most the constant times 1,000,000
        self.assertEqual(family.z_of([0] * 300, 100000000), 100)
        self.assertEqual(family.z_of([0] * 300, 99999999), 99)
        self.assertEqual(family.z_of([999999] * 300, 0), 0)
        self.assertEqual(family.z_of([999999] * 300, 1), 300)
        self.assertEqual(family.z_of([1000000] * 300, 0), 300)

    def test_proteins_with_nothing_measured(self):
        text = "leaves 0 2 0 1\nregion 1 4\nregion 1 1\nregion 2 3\nregion 3 3\np 1000000 0 0\nconstant 0\n"
        self.assertEqual(self.zs(text), [1, 0, 1, 0])

    def test_no_region(self):
        self.assertEqual(family.read_list("leaves 2\np 5 1000000\nconstant 100000000\n"), ([2], [], []))

    def test_bad_lists(self):
        level = "level 0.05\n"
        for text in [
            # one p-value too few, one too many, none
            LEAVES + level + "p 1 2 3 4 5 6 7",
            LEAVES + level + "p 1 2 3 4 5 6 7 8 9",
            LEAVES + level,
            LEAVES,
            LEAVES + level + "p 1 2 3 4 5 6 7 1000001",
            LEAVES + level + "p 1 2 3 4 5 6 7 x",
            LEAVES + level + "p 1 2 3 4 5 6 7 0.05",
            LEAVES + level + "p 1 2 3 4 5 6 7 -1",
            # neither, both, one twice
            LEAVES + P_VALUES,
            LEAVES + P_VALUES + level + "constant 5",
            LEAVES + P_VALUES + level + level,
            LEAVES + P_VALUES + "constant 5\nconstant 5",
            LEAVES + P_VALUES + "constant 100000001",
            LEAVES + P_VALUES + "constant x",
            LEAVES + P_VALUES + "constant 0.5",
            LEAVES + P_VALUES + "constant",
            LEAVES + P_VALUES + "constant 1 2",
            *(LEAVES + P_VALUES + f"level {word}" for word in ["", "0", "0.0", "1", "2", "-0.1", "x", "nan", "5%", "1/20"]),
            # z, and what it is computed from
            LEAVES + "region 4 4 1\n" + P_VALUES + level,
            EIGHT + P_VALUES + level,
            EIGHT + P_VALUES,
            EIGHT + level,
            "leaves 1\nregion 1\np 5\n" + level,
            # no leaves to take p-values from
            "leaves 1\nregion 0 1\np 5\n" + level,
            "leaves 1 1\nregion 2 1\np 5 5\n" + level,
            "leaves 1\nregion 1 2\np 5\n" + level,
        ]:
            with self.subTest(text), self.assertRaises(family.BadList):
                family.read_list(text)


class Commands(unittest.TestCase):
    def run_script(self, *words):
        return subprocess.run(
            [sys.executable, ROOT / "tools/family.py", *words], capture_output=True, text=True, check=False
        )

    def test_files_and_list(self):
        with tempfile.TemporaryDirectory() as folder:
            source = pathlib.Path(folder) / "family.txt"
            source.write_text(EIGHT, encoding="utf-8")
            self.assertEqual(self.run_script("files", source, folder).returncode, 0)
            listed = self.run_script("list", folder)
            self.assertEqual(listed.returncode, 0)
            self.assertEqual(family.read_list(listed.stdout), family.read_list(EIGHT))

    def test_problems_are_told(self):
        wrong = self.run_script("list", "no-such-folder")
        self.assertEqual((wrong.returncode, wrong.stdout), (1, ""))
        self.assertIn("no-such-folder", wrong.stderr)
        self.assertEqual(self.run_script().returncode, 2)
        with tempfile.TemporaryDirectory() as folder:
            source = pathlib.Path(folder) / "family.txt"
            source.write_text("leaves 1\np 1000001\nlevel 0.05\n", encoding="utf-8")
            wrong = self.run_script("files", source, folder)
            self.assertEqual((wrong.returncode, wrong.stdout), (1, ""))
            self.assertIn("line 2", wrong.stderr)
            self.assertFalse((pathlib.Path(folder) / "family.phf").exists())


class Examples(unittest.TestCase):
    def test_files_are_made_of_the_lists(self):
        folders = [folder for folder in sorted((ROOT / "examples").iterdir()) if folder.is_dir()]
        self.assertGreaterEqual(len(folders), 7)
        for folder in folders:
            with self.subTest(folder=folder.name):
                lengths, regions, path = family.read_list((folder / "family.txt").read_text(encoding="utf-8"))
                self.assertEqual((folder / "family.phf").read_bytes(), family.family_bytes(lengths, regions))
                self.assertEqual((folder / "path.u16").read_bytes(), family.path_bytes(path))


if __name__ == "__main__":
    unittest.main()
