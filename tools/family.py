#!/usr/bin/env python3
"""Makes the two files of the curve program from a readable list, and the list from the files.

    tools/family.py files LIST FOLDER     writes FOLDER/family.phf and FOLDER/path.u16
    tools/family.py list FOLDER           prints the list of the two files

A list has one entry on each line; what follows a # is a note:

    leaves 2 3 0 1 2        the number of peptides in each leaf, from leaf 1 on: 0 for a protein with nothing measured (the
                            line may be repeated for more leaves)
    region 1 2 3            first leaf, last leaf, z: at most 3 peptides of leaves 1 to 2 are false
    path 7 3 1              the ranked peptides, best first (may be repeated too; without it the path is empty)

Where z is to be computed from p-values, no region has one, and the list says what it is computed from:

    region 1 2              first leaf, last leaf
    p 1000 500000 20        the p-value of each peptide in millionths, from peptide 1 on (may be repeated too)
    level 0.05              the risk that the z of a region is too small, for each region by itself: for a risk of 0.05 over K
                            regions it is 0.05 / K
    constant 1497867        in place of the level: half the natural logarithm of one over it, in millionths, rounded up

Nothing is judged here but what z is computed from: a family that the program refuses can be written too.
"""

import bisect
import decimal
import math
import pathlib
import re
import struct
import sys

MARK = b"PHFB"
HEADER = struct.Struct("<4s6H")
MILLION = 1_000_000
MOST_CONSTANT = 100_000_000


class BadList(Exception):
    """What is wrong with a list, or with a file that is to become one."""


def numbers(words, where, most=65535):
    """The words as numbers."""
    found = []
    for word in words:
        if not word.isdecimal() or int(word) > most:
            raise BadList(f"{where}: {word} is not a number from 0 to {most}")
        found.append(int(word))
    return found


def constant_of(level, where):
    """Half the natural logarithm of one over the level, in millionths, rounded up."""
    if not re.fullmatch("[0-9]+([.][0-9]+)?", level) or not 0 < decimal.Decimal(level) < 1:
        raise BadList(f"{where}: {level} is not a level over 0 and under 1, as 0.05")
    # the logarithm is never a whole number of millionths, so that digits enough behind the point decide
    constant = math.ceil(-decimal.Decimal(level).ln() / 2 * MILLION)
    if constant > MOST_CONSTANT:
        raise BadList(f"{where}: the level {level} is too small")
    return constant


def read_list(text):
    """The leaf lengths, the regions and the path of a list."""
    lengths, regions, path, p_values, constants = [], [], [], [], []
    for at, line in enumerate(text.splitlines(), start=1):
        words = line.split("#")[0].split()
        if not words:
            continue
        where = f"line {at}"
        kind, values = words[0], words[1:]
        if kind == "leaves":
            lengths += numbers(values, where)
        elif kind == "path":
            path += numbers(values, where)
        elif kind == "region" and len(values) in (2, 3):
            regions.append(tuple(numbers(values, where)))
        elif kind == "region":
            raise BadList(f"{where}: a region has a first leaf, a last leaf and z, which p-values can give")
        elif kind == "p":
            p_values += numbers(values, where, MILLION)
        elif kind == "level" and len(values) == 1:
            constants.append(constant_of(values[0], where))
        elif kind == "constant" and len(values) == 1:
            constants += numbers(values, where, MOST_CONSTANT)
        elif kind in ("level", "constant"):
            raise BadList(f"{where}: a {kind} is one number")
        else:
            raise BadList(f"{where}: {kind} is none of leaves, region, path, p, level, constant")
    if p_values or constants or any(len(region) == 2 for region in regions):
        regions = with_z(lengths, regions, p_values, constants)
    return lengths, regions, path


def z_of(p_values, constant):
    """The largest v from 0 to the number of p-values that passes at 0 and at each p-value under 1,000,000."""
    rising = sorted(p_values)
    # the gap of each threshold, and how many p-values are over it
    thresholds = [(MILLION - t, len(rising) - bisect.bisect_right(rising, t)) for t in {0, *rising} if t < MILLION]

    def passes(v):
        excesses = (v * gap - MILLION * over for gap, over in thresholds)
        return all(excess <= 0 or excess**2 <= constant * v * MILLION for excess in excesses)

    return next(v for v in range(len(p_values), -1, -1) if passes(v))


def with_z(lengths, regions, p_values, constants):
    """The regions with z from the p-values."""
    if any(len(region) == 3 for region in regions):
        raise BadList("either every region has z, or there are p-values and none has")
    if len(p_values) != sum(lengths):
        raise BadList(f"regions without z need a p-value for each peptide: there are {len(p_values)} for {sum(lengths)}")
    if len(constants) != 1:
        raise BadList("p-values need one level or one constant")
    found = []
    for first, last in regions:
        if not 1 <= first <= last <= len(lengths):
            raise BadList(f"region {first} {last} has no p-values: there are leaves 1 to {len(lengths)}")
        within = p_values[sum(lengths[: first - 1]) : sum(lengths[:last])]
        found.append((first, last, z_of(within, constants[0])))
    return found


def family_bytes(lengths, regions):
    """The family file, in the layout of the scope document."""
    middle = 16 + 2 * len(lengths)
    total = middle + 6 * len(regions)
    fields = [sum(lengths), len(lengths), len(regions), 16, middle, total]
    fields += lengths
    for region in regions:
        fields += region
    if max(fields) > 65535:
        raise BadList("the family is too large for a file")
    return MARK + struct.pack(f"<{len(fields)}H", *fields)


def path_bytes(path):
    """The path file."""
    return struct.pack(f"<{len(path)}H", *path)


def split_family(data):
    """The leaf lengths and the regions of a family file."""
    if len(data) < HEADER.size:
        raise BadList("family.phf has under 16 bytes")
    mark, peptides, leaves, count, first, middle, total = HEADER.unpack_from(data)
    if mark != MARK:
        raise BadList("family.phf does not begin with PHFB")
    if (first, middle, total) != (16, 16 + 2 * leaves, 16 + 2 * leaves + 6 * count) or total != len(data):
        raise BadList("family.phf is not laid out as a family")
    lengths = list(struct.unpack_from(f"<{leaves}H", data, 16))
    if sum(lengths) != peptides:
        raise BadList("the leaf lengths of family.phf do not add to its number of peptides")
    regions = list(struct.iter_unpack("<3H", data[middle:]))
    return lengths, regions


def split_path(data):
    """The numbers of a path file."""
    if len(data) % 2:
        raise BadList("path.u16 has an odd number of bytes")
    return [number for (number,) in struct.iter_unpack("<H", data)]


def in_rows(kind, values, width=20):
    """Lines of one kind with so many numbers each."""
    for start in range(0, len(values), width):
        yield " ".join([kind, *map(str, values[start : start + width])])


def write_list(lengths, regions, path):
    """The text of a list."""
    lines = [*in_rows("leaves", lengths)]
    lines += ["region {} {} {}".format(*region) for region in regions]
    lines += in_rows("path", path)
    return "".join(line + "\n" for line in lines)


def make_files(source, folder):
    lengths, regions, path = read_list(pathlib.Path(source).read_text(encoding="utf-8"))
    family = family_bytes(lengths, regions)
    folder = pathlib.Path(folder)
    folder.mkdir(parents=True, exist_ok=True)
    (folder / "family.phf").write_bytes(family)
    (folder / "path.u16").write_bytes(path_bytes(path))


def print_list(folder):
    folder = pathlib.Path(folder)
    lengths, regions = split_family((folder / "family.phf").read_bytes())
    path = split_path((folder / "path.u16").read_bytes())
    sys.stdout.write(write_list(lengths, regions, path))


def main(words):
    try:
        if len(words) == 3 and words[0] == "files":
            make_files(words[1], words[2])
        elif len(words) == 2 and words[0] == "list":
            print_list(words[1])
        else:
            sys.stderr.write(__doc__)
            return 2
    except (BadList, OSError) as problem:
        sys.stderr.write(f"family.py: {problem}\n")
        return 1
    return 0


if __name__ == "__main__":
    sys.exit(main(sys.argv[1:]))
