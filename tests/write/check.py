"""Tests tools/csv_sheets.py: check.py TOP WORK TABLES SEED. WORK is an empty folder but for libnurimkkot.so."""

import os
import sys

TOP, WORK, TABLES, SEED = sys.argv[1], sys.argv[2], int(sys.argv[3]), int(sys.argv[4])
sys.path.insert(0, os.path.join(TOP, "tools"))

import cases  # noqa: E402
import files  # noqa: E402
import pages  # noqa: E402
import round_trips  # noqa: E402
import setting  # noqa: E402


def main():
    place = setting.Setting(TOP, WORK)
    tried = cases.try_all(place) + files.try_all(place)
    pages.compare(place)
    samples = round_trips.over_samples(place)
    tables, sheets = round_trips.at_random(place, TABLES, SEED)
    print("write: %d cases, %d sample sheets there and back, %d random tables and %d random sheets go as they should"
          % (tried, samples, tables, sheets))


main()
