"""phf_check from Python: prints its answer, field by field, for each of the files. Run: check.py LIBRARY FILE..."""

import ctypes
import pathlib
import sys


class Checked(ctypes.Structure):
    _fields_ = [(name, ctypes.c_uint16) for name in ["number", "peptides", "leaves", "regions"]]


library = ctypes.CDLL(sys.argv[1])
library.phf_check.argtypes = [ctypes.c_char_p, ctypes.c_size_t]
library.phf_check.restype = Checked
for name in sys.argv[2:]:
    file = pathlib.Path(name).read_bytes()
    answer = library.phf_check(file, len(file))
    print(answer.number, answer.peptides, answer.leaves, answer.regions)
