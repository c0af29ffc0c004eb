"""Tests tools/tablet_log.py: check.py TOP WORK. WORK is an empty folder but for libnurimkkot.so."""

import os
import sys

TOP, WORK = sys.argv[1:]
sys.path.insert(1, os.path.join(TOP, "tools"))
sys.path.append(os.path.join(TOP, "tests", "class"))

import calls  # noqa: E402
import counts  # noqa: E402
import tablet_log  # noqa: E402
import told  # noqa: E402
import trying  # noqa: E402


class Place(trying.Place):
    script = tablet_log


def main():
    place = Place(TOP, WORK)
    samples, logs = counts.over_samples(place), counts.try_all(place)
    tried = calls.try_all(place)
    numbers = told.words(place)
    told.lines(place)
    told.help_text(place)
    print("minutes: %d samples and %d other logs give the minutes of the plain computation, %d calls go as they should, and %d numbers have words"
          % (samples, logs, tried, numbers))


main()
