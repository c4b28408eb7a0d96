#!/usr/bin/env python3
"""Two sections through the C library, by ctypes: section A of the scope document with links of 101 mm² every 200 mm, and a precast
column that N compresses over its full height.

    ./build-library
    python3 examples/check.py target/lib/libsalwoerk.so
"""

import ctypes
import sys
from ctypes import c_int64, c_size_t, c_uint32, c_uint64


class Layer(ctypes.Structure):
    _fields_ = [("depth", c_uint32), ("area", c_uint32)]


class Grade(ctypes.Structure):
    _fields_ = [("fck", c_int64), ("fyk", c_int64), ("situation", c_int64),  # situation: 1 persistent, 2 accidental
                ("alpha_cc", c_int64)]  # in hundredths, 80 to 100: 100 is the recommended value


class Links(ctypes.Structure):
    _fields_ = [("present", c_uint64), ("area", c_uint32), ("spacing", c_uint32)]


class Section(ctypes.Structure):
    _fields_ = [("layers", Layer * 16), ("width", c_int64), ("height", c_int64), ("grade", Grade), ("links", Links), ("count", c_size_t)]


class Load(ctypes.Structure):
    _fields_ = [("n", c_int64), ("m", c_int64), ("v", c_int64)]


class Report(ctypes.Structure):
    _fields_ = [("refusal", c_uint64), ("u", c_uint64), ("mrd", c_int64), ("other_u", c_uint64), ("other_mrd", c_int64),
                ("vrd", c_uint64), ("dm", c_uint64), ("area", c_uint64), ("cotangent", c_uint64), ("link_resistance", c_uint64),
                ("verdicts", c_uint64 * 6)]


def section_a():
    section = Section(width=300, height=500, grade=Grade(fck=30, fyk=500, situation=1, alpha_cc=100), count=1)
    section.layers[0] = Layer(depth=450, area=1500)
    section.links = Links(present=1, area=101, spacing=200)
    return section


def column():
    """Three bars of 25 mm at each of two faces, 50 mm from it."""
    section = Section(width=400, height=400, grade=Grade(fck=40, fyk=500, situation=1, alpha_cc=100), count=2)
    section.layers[0], section.layers[1] = Layer(depth=50, area=1472), Layer(depth=350, area=1472)
    return section


def is_beyond(section, depth):
    """The neutral axis lies outside the section, as salwoerk_is_beyond of the header says it."""
    return depth > 10 * section.height


def show(section, report):
    """The answer, and what is to be said of its depths."""
    print(report.refusal, report.u, report.mrd, report.other_u, report.other_mrd, report.vrd, report.dm, report.area,
          report.cotangent, report.link_resistance, *report.verdicts)
    for name, depth in (("u", report.u), ("other_u", report.other_u)):
        if is_beyond(section, depth):
            print(f"{name}: compressed over the full height")


def main():
    check = ctypes.CDLL(sys.argv[1]).salwoerk_check
    check.argtypes, check.restype = [Section, Load], Report
    for section, load in ((section_a(), Load(n=0, m=200_000_000, v=80_000)), (column(), Load(n=4_500_000, m=120_000_000, v=20_000))):
        show(section, check(section, load))


if __name__ == "__main__":
    if len(sys.argv) != 2:
        sys.exit(__doc__)
    main()
