"""Tests tools/class_sheets.py: check.py TOP WORK. WORK is an empty folder but for libnurimkkot.so."""

import os
import sys

TOP, WORK = sys.argv[1:]
sys.path.insert(1, os.path.join(TOP, "tools"))
sys.path.append(os.path.join(TOP, "tests", "write"))

import marks  # noqa: E402
import packs  # noqa: E402
import said  # noqa: E402
import trying  # noqa: E402


def main():
    place = trying.Place(TOP, WORK)
    marked, packed = marks.try_all(place), packs.try_all(place)
    numbers = said.words(place)
    said.lines(place)
    print("class: %d cases of marking and %d of packing go as they should, and %d numbers have words" % (marked, packed, numbers))


main()
