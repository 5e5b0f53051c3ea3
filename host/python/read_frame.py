#!/usr/bin/env python3
"""Prints the seed and the payload of a frame from a file of its points: read_frame.py FILE WIDTH MCS LENGTH

The file has the points as GNU Radio's file source takes them and numpy's fromfile(FILE, dtype="<c8"): little-endian complex64, which is
pairs of 32-bit floats (first level, second level), symbol after symbol, each stream by stream, subcarriers rising. The frame is of mixed
format. The shared library is that of target/dist, which scripts/dist writes, or of the folder that HT_CORE_LIB_DIR names."""
import array
import ctypes
import os
import pathlib
import sys

ABI = 1  # the set of calls that is meant here; its argument types are below

if len(sys.argv) != 5:
    sys.exit(__doc__)
width, mcs, length = map(int, sys.argv[2:])
folder = os.environ.get("HT_CORE_LIB_DIR", pathlib.Path(__file__).resolve().parents[2] / "target/dist/lib")
core = ctypes.CDLL(os.path.join(folder, f"libht_core.so.{ABI}"))
core.ht_abi.restype = core.ht_read_frame.restype = ctypes.c_int64
core.ht_read_frame.argtypes = [ctypes.c_uint32] * 8 + [ctypes.c_void_p, ctypes.c_size_t] * 2
if core.ht_abi() != ABI:
    sys.exit(f"the library has set {core.ht_abi()} of the calls, and this program is for set {ABI}")

try:
    import numpy

    points = numpy.fromfile(sys.argv[1], dtype="<c8").view("<f4")
except ImportError:
    points = array.array("f", pathlib.Path(sys.argv[1]).read_bytes())  # the library is for x86-64, which is little-endian
floats = (ctypes.c_float * len(points)).from_buffer(points)
payload = ctypes.create_string_buffer(length)
# Width, MCS, format, length, smoothing, not sounding, aggregation, short guard; then the two slices.
seed = core.ht_read_frame(width, mcs, 0, length, 1, 1, 0, 0, floats, len(floats), payload, length)
if seed < 0:
    sys.exit(f"ht_read_frame: refusal {-seed}")
print("seed", seed)
print("payload", payload.raw.decode(errors="backslashreplace"))
