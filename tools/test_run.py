"""Tests of ./run: the table, what it says of a refusal, and that it never shows a stale program's text.
Run: python3 tools/test_run.py, once `rt run` in crates/curve has built the program."""

import os
import pathlib
import shutil
import struct
import subprocess
import tempfile
import time
import unittest

import family

ROOT = pathlib.Path(__file__).resolve().parent.parent
GOOD = family.family_bytes([2, 3, 1, 2], [(1, 2, 3), (1, 1, 2), (2, 2, 1), (3, 4, 3), (4, 4, 0)])


def run(root, *words, **more):
    """What ./run of a repository writes, as bytes, and its status."""
    return subprocess.run([root / "run", *words], capture_output=True, check=False, **more)


def with_number(data, at, number):
    """A file with another number at an offset."""
    return data[:at] + struct.pack("<H", number) + data[at + 2 :]


def causes():
    """The words for each number, from the table of docs/SCOPE.md."""
    found = {}
    for line in (ROOT / "docs/SCOPE.md").read_text(encoding="utf-8").splitlines():
        cells = [cell.strip() for cell in line.split("|")[1:-1]]
        if cells and cells[0].isdecimal():
            if cells[0] in found:
                raise ValueError(f"two rows with the number {cells[0]}")
            found[cells[0]] = cells[1]
    return found


class Table(unittest.TestCase):
    def test_a_row_for_each_number(self):
        found = causes()
        self.assertEqual(list(found), [str(number) for number in range(1, 28)])
        self.assertEqual(len(set(found.values())), 27)


class Shown(unittest.TestCase):
    """The program itself, in this repository."""

    @classmethod
    def setUpClass(cls):
        if not (ROOT / "crates/curve/out/curve").exists():
            raise AssertionError("crates/curve/out/curve is missing: run `rt run` in crates/curve first")
        run(ROOT)

    def in_folder(self, name, family_file, path_file):
        """What ./run shows of a folder with these two files; None for a file that is not there."""
        with tempfile.TemporaryDirectory() as room:
            folder = pathlib.Path(room) / name
            folder.mkdir()
            if family_file is not None:
                (folder / "family.phf").write_bytes(family_file)
            if path_file is not None:
                (folder / "path.u16").write_bytes(path_file)
            return run(ROOT, folder)

    def shows(self, done, text):
        self.assertEqual((done.stdout, done.stderr, done.returncode), (text, b"", 0))

    def refuses(self, done, number):
        words = f"run: {number}: {causes()[str(number)]}\n".encode()
        self.assertEqual((done.stdout, done.stderr, done.returncode), (b"refused %d\n" % number, words, 0))

    def test_the_example(self):
        self.shows(run(ROOT), (ROOT / "crates/curve/stdout").read_bytes())

    def test_a_second_run_is_quick_and_says_nothing_more(self):
        began = time.monotonic()
        self.shows(run(ROOT), (ROOT / "crates/curve/stdout").read_bytes())
        self.assertLess(time.monotonic() - began, 10)

    def test_folders(self):
        e1 = (ROOT / "crates/curve/stdout").read_bytes()
        self.shows(run(ROOT, "eight-peptides", cwd=ROOT / "examples"), e1)
        self.shows(self.in_folder("a folder", GOOD, family.path_bytes([7, 3, 1, 4, 6, 2, 5, 8])), e1)
        self.shows(self.in_folder("no path", GOOD, None), b"t peptide bound mark\n0 0 0 0\n")

    def test_the_longest_text_is_whole(self):
        done = self.in_folder("long", family.family_bytes([4096], []), family.path_bytes(list(range(4096, 0, -1))))
        lines = ["t peptide bound mark", "0 0 0 0", *(f"{t} {4097 - t} {t} 1" for t in range(1, 4097))]
        self.shows(done, "".join(line + "\n" for line in lines).encode())

    def test_no_such_folder(self):
        done = run(ROOT, "no-such-folder")
        self.assertEqual((done.stdout, done.returncode), (b"", 2))
        self.assertEqual(done.stderr, b"run: there is no folder no-such-folder\n")

    def test_refused_families(self):
        nested = [(1, 65 - k, 1) for k in range(65)]
        files = [
            (1, None),
            (1, b""),
            (1, b"PHFC" + GOOD[4:]),
            (1, b"PHFL" + GOOD[4:]),
            (2, family.family_bytes([], [])),
            (2, family.family_bytes([4097], [])),
            (3, with_number(GOOD, 6, 0)),
            (3, family.family_bytes([1] + [0] * 4096, [])),
            (4, family.family_bytes([1], [(1, 1, 1), (1, 1, 0)])),
            (5, GOOD[:-1]),
            (5, GOOD + b"\0"),
            (6, with_number(family.family_bytes([2, 0, 1], []), 4, 2)),
            (6, with_number(family.family_bytes([2, 0, 1], []), 4, 4)),
            (7, family.family_bytes([1, 1], [(2, 1, 0)])),
            (7, family.family_bytes([1, 1], [(1, 3, 0)])),
            (8, family.family_bytes([1, 1], [(2, 2, 0), (1, 1, 0)])),
            (8, family.family_bytes([1, 1], [(1, 2, 0), (1, 2, 1)])),
            (9, family.family_bytes([2, 2, 2], [(1, 2, 1), (2, 3, 1)])),
            (9, family.family_bytes([2, 0, 2], [(1, 2, 1), (2, 3, 1)])),
            (10, family.family_bytes([1] * 65, nested)),
            (10, family.family_bytes([1] + [0] * 64, nested)),
        ]
        for number, data in files:
            with self.subTest(number=number):
                self.refuses(self.in_folder("refused", data, family.path_bytes([1])), number)

    def test_refused_paths(self):
        files = [
            (11, family.path_bytes(list(range(1, 10)))),
            (11, b"\1\0\2"),
            (12, family.path_bytes([3, 0])),
            (12, family.path_bytes([9])),
            (13, family.path_bytes([3, 4, 3])),
        ]
        for number, data in files:
            with self.subTest(number=number):
                self.refuses(self.in_folder("refused", GOOD, data), number)

    def test_the_example_with_nothing_measured(self):
        # its family.txt derives the bounds
        lines = ["t peptide bound mark", "0 0 0 0"]
        lines += ["1 3 1 1", "2 4 2 1", "3 1 2 0", "4 9 3 1", "5 8 3 0", "6 5 4 1", "7 6 4 0", "8 2 4 0", "9 7 4 0"]
        self.shows(run(ROOT, ROOT / "examples/unmeasured-protein"), "".join(line + "\n" for line in lines).encode())

    def test_the_example_with_z_from_p_values(self):
        # its family.txt has the bounds
        lines = ["t peptide bound mark", "0 0 0 0"]
        lines += ["1 8 1 1", "2 7 1 0", "3 3 2 1", "4 4 3 1", "5 1 4 1", "6 6 4 0", "7 2 5 1", "8 5 5 0"]
        self.shows(run(ROOT, ROOT / "examples/from-p-values"), "".join(line + "\n" for line in lines).encode())

    def test_more_leaves_than_peptides(self):
        # the one peptide is in leaf 2, whose region allows it; regions without a peptide forbid nothing
        most = family.family_bytes([0, 1] + [0] * 4094, [(1, 1, 0), (2, 2, 1), (3, 4096, 0)])
        self.shows(self.in_folder("leaves", most, family.path_bytes([1])), b"t peptide bound mark\n0 0 0 0\n1 1 1 1\n")

    def test_the_refused_example(self):
        self.refuses(run(ROOT, ROOT / "examples/refused"), 9)


# Stands in for rt: "builds" the program, which is its source as a script, exactly if the source or the program is not the one of
# the stamp, and runs it.
STUB = """#!/bin/sh
root=$(dirname "$0")/..
echo "$*, in ${PWD##*/}" >> "$root/asked"
[ ! -f "$root/broken" ] || { echo "rt: curve NOT PROVED"; exit 1; }
mkdir -p out
if [ ! -f out/curve ] || ! cmp -s out/curve.stamp src/main.rt; then
    cp src/main.rt out/curve.stamp
    cp src/main.rt out/curve
    chmod +x out/curve
    echo built >> "$root/asked"
fi
exec out/curve
"""


class Rebuilt(unittest.TestCase):
    """A small repository with ./run and a stand-in for rt: nothing is proved here."""

    def setUp(self):
        room = tempfile.TemporaryDirectory()
        self.addCleanup(room.cleanup)
        self.root = pathlib.Path(room.name) / "repository"
        for folder in ["bin", "docs", "crates/curve/src", "examples/eight-peptides"]:
            (self.root / folder).mkdir(parents=True)
        shutil.copy2(ROOT / "run", self.root / "run")
        shutil.copy2(ROOT / "docs/SCOPE.md", self.root / "docs/SCOPE.md")
        shutil.copy2(ROOT / "crates.txt", self.root / "crates.txt")
        stub = self.root / "bin/rt"
        stub.write_text(STUB, encoding="utf-8")
        stub.chmod(0o755)
        self.source("echo one")

    def source(self, line):
        (self.root / "crates/curve/src/main.rt").write_text(f"#!/bin/sh\n{line}\n", encoding="utf-8")

    def later(self):
        """Past the grain of the file system's clock, so that what is written now is newer."""
        time.sleep(0.02)

    def shown(self):
        done = run(self.root, env={**os.environ, "PATH": f"{self.root / 'bin'}:{os.environ['PATH']}"})
        return done.stdout.decode(), done.stderr.decode(), done.returncode

    def asked(self):
        """What rt was asked and did since the last look."""
        log = self.root / "asked"
        lines = log.read_text(encoding="utf-8").splitlines() if log.exists() else []
        log.unlink(missing_ok=True)
        return lines

    def test_built_once(self):
        text, said, status = self.shown()
        self.assertEqual((text, status), ("one\n", 0))
        self.assertIn("takes some minutes", said)
        self.assertEqual(self.asked(), ["run, in curve", "built"])
        for _ in range(2):
            self.assertEqual(self.shown(), ("one\n", "", 0))
            self.assertEqual(self.asked(), ["run, in curve"])

    def test_a_changed_source_is_noticed(self):
        self.shown()
        self.asked()
        self.later()
        self.source("echo two")
        text, said, status = self.shown()
        self.assertEqual((text, status), ("two\n", 0))
        self.assertIn("takes some minutes", said)
        self.assertEqual(self.asked(), ["run, in curve", "built"])
        self.assertEqual(self.shown(), ("two\n", "", 0))

    def test_a_source_with_the_time_of_the_old_one_is_noticed(self):
        self.shown()
        old = (self.root / "crates/curve/src/main.rt").stat()
        self.source("echo two")
        os.utime(self.root / "crates/curve/src/main.rt", ns=(old.st_atime_ns, old.st_mtime_ns))
        self.assertEqual(self.shown()[0], "two\n")

    def test_a_stale_program_is_not_run(self):
        self.shown()
        (self.root / "broken").touch()
        text, said, status = self.shown()
        self.assertEqual((text, status), ("", 1))
        self.assertIn("rt: curve NOT PROVED", said)

    def test_a_lost_program_is_built_again(self):
        self.shown()
        (self.root / "crates/curve/out/curve").unlink()
        text, said, status = self.shown()
        self.assertEqual((text, status), ("one\n", 0))
        self.assertIn("takes some minutes", said)

    def test_a_program_that_fails(self):
        self.source("echo half; exit 3")
        text, _, status = self.shown()
        self.assertEqual((text, status), ("", 3))

    def test_no_rt(self):
        tools = self.root / "tools"
        tools.mkdir()
        (tools / "dirname").symlink_to(shutil.which("dirname"))
        done = run(self.root, env={"PATH": str(tools)})
        self.assertEqual((done.stdout, done.returncode), (b"", 2))
        self.assertIn(b"rt is not found", done.stderr)


if __name__ == "__main__":
    unittest.main()
