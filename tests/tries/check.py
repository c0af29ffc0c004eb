"""Tests tools/tries.py: check.py TOP WORK. WORK is an empty folder but for libnurimkkot.so."""

import os
import sys

TOP, WORK = sys.argv[1:]
sys.path.insert(1, os.path.join(TOP, "tools"))
sys.path += [os.path.join(TOP, "tests", name) for name in ("class", "sheets")]

import calls  # noqa: E402
import counts  # noqa: E402
import told  # noqa: E402
import tries  # noqa: E402
import trying  # noqa: E402


class Place(trying.Place):
    script = tries


def main():
    place = Place(TOP, WORK)
    samples, sheets = counts.over_samples(place), counts.try_all(place)
    tried = calls.try_all(place)
    told.lines(place)
    told.help_text(place)
    told.limits(place)
    told.figures(place)
    ran = told.commands(place, WORK)
    print("tries: %d samples and %d other sheets have the tries of the plain enumeration, %d calls go as they should, and the page shows what %d "
          "commands print" % (samples, sheets, tried, ran))


main()
