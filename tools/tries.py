#!/usr/bin/env python3
"""The tries of the search for routes: what './nurimkkot tries' runs.

    python3 tools/tries.py tries LIBRARY FOLDER [--csv]    a line for each occupied LAB

LIBRARY is the C library as a shared object. docs/TRIES.md tells what is read and written.

This script has no rule of the judge and searches nothing: the verdict, the tries and the routes come from the proved
library. With 65 the judge writes no route, so those of the lower LABs come from the check of one LAB. Where what the two
say does not fit together, nothing is told. The script adds the tries up. It writes no file. Exit status: 0 when the work
was done, whatever the verdict, otherwise 2.
"""

import ctypes
import itertools
import os
import sys
from typing import NamedTuple, Optional

sys.path.insert(0, os.path.dirname(os.path.realpath(__file__)))
import shared  # noqa: E402
from shared import ANSWER_LXA, EXERCISE_LXE, LARGEST_SHEET, MEANING, NONE, RECORD, SETTINGS_LXT, Verdict, read_file  # noqa: E402

LEGAL, NO_WAY = 0, 65                   # the verdicts with which there are tries
ROUTE_BYTES = ("clk_1", "clk_2", "ena_1", "ena_2", "aclr_1", "aclr_2", "sclr", "sload")     # what each route byte of a LAB is for
NO_ENTRY = 255                          # in a route byte
NO_ROUTE = bytes([NO_ENTRY] * len(ROUTE_BYTES))
MOST_TRIES = 19173960                   # of a LAB, with eight needs and eight entries
LENT_ROUTE, LENT_TRIES = bytes([0xa5] * shared.ROUTE), [0xa5a5a5a5] * shared.TRIES      # what is lent, before the call


def same(*pairs):
    """Refuses to tell anything where what the library says does not fit together."""
    shared.same(*pairs, otherwise="what the judge says and what the check of one LAB says do not fit together, and nothing is told")


# ---------------------------------------------------------------- the proved library

class Judged(NamedTuple):
    """The verdict on one answer, the route buffer and the list of tries."""

    verdict: Verdict
    route: bytes
    tries: list


class Library(shared.Reader):
    """The judge, the readers, and the check of one LAB."""

    def find_functions(self):
        super().find_functions()
        sheet, size, lent = ctypes.c_char_p, ctypes.c_size_t, ctypes.c_void_p
        self.c_check_lab = self.function("check_lab", ctypes.c_uint8, sheet, size, sheet, size, lent)

    def judged(self, settings, exercise, answer):
        """All that the judge says of one answer but the culprit."""
        route, counts = (ctypes.c_uint8 * shared.ROUTE)(*LENT_ROUTE), (ctypes.c_uint32 * shared.TRIES)(*LENT_TRIES)
        return Judged(self.judge_into(route, counts, settings, exercise, answer), bytes(route), list(counts))

    def check_lab(self, settings, records):
        """The number of the check of one LAB on these records, and its eight route bytes."""
        cells, route = b"".join([RECORD.pack(*record) for record in records]), (ctypes.c_uint8 * len(ROUTE_BYTES))()
        return self.c_check_lab(settings, len(settings), cells, len(records), route), bytes(route)


# ---------------------------------------------------------------- the LABs of an answer

class Lab(NamedTuple):
    """An occupied LAB: its tries, the number that it has by itself, 0 or 65, or None where it was not searched, and its route."""

    lab: int
    tries: int
    number: Optional[int]
    route: bytes


def records_of_labs(library, exercise, answer):
    """The records of the cells of each occupied LAB, the LABs rising."""
    records, places, labs = library.records(exercise), library.places(answer), {}
    same((records is None, False), (places is None, False))
    same((len(records), len(places)))
    for record, (x, y, _) in zip(records, places):
        labs.setdefault(32 * y + x, []).append(record)
    return sorted(labs.items())


def told_of_lab(library, settings, judged, lab, records):
    """An occupied LAB that was searched."""
    refused, count = lab == judged.verdict.lab, judged.tries[lab]
    number, route = library.check_lab(settings, records)
    same((number, NO_WAY if refused else LEGAL), (count <= MOST_TRIES, True))
    if refused:
        same((route, NO_ROUTE))
    else:
        # The first need alone, the first two, and so on, up to the route: each is a try.
        needs = len(route) - route.count(NO_ENTRY)
        same((count >= needs, True), (count == 0, needs == 0))
    return Lab(lab, count, number, route)


def labs_of(library, settings, exercise, answer, judged):
    """The occupied LABs of an answer with verdict 0 or 65, rising. Those above a refused one were not searched; NONE is above all LABs."""
    labs = [told_of_lab(library, settings, judged, lab, records) if lab <= judged.verdict.lab else Lab(lab, 0, None, NO_ROUTE)
            for lab, records in records_of_labs(library, exercise, answer)]
    check_lists(judged, {lab.lab: lab for lab in labs})
    return labs


def check_lists(judged, labs):
    """Refuses a verdict and lists that are not those of these LABs: routes are written with 0 alone, and an empty LAB has no needs and no tries."""
    count = len(judged.tries)
    if judged.verdict.number == LEGAL:
        same((judged.verdict.lab, NONE), (judged.route, b"".join([labs[lab].route if lab in labs else NO_ROUTE for lab in range(count)])))
    else:
        same((judged.verdict.lab in labs, True), (judged.route, LENT_ROUTE))
    same((judged.tries, [labs[lab].tries if lab in labs else 0 for lab in range(count)]))


# ---------------------------------------------------------------- lines

HEADINGS = ("lab", "tries", "route")
COLUMNS, SUM_COLUMNS = "%4s  %10s  %s", "%4s  %10s"     # as wide as the largest numbers
CSV_HEADINGS = ("lab", "tries", "number") + ROUTE_BYTES


def route_words(route):
    """A route in words, the entries of each role behind it."""
    roles = itertools.groupby(zip(ROUTE_BYTES, route), lambda pair: pair[0].split("_")[0])
    entries = [(role, [str(entry) for _, entry in pairs if entry != NO_ENTRY]) for role, pairs in roles]
    return ", ".join(" ".join([role, *found]) for role, found in entries if found) or "no needs"


def lab_words(lab):
    """What is said of a LAB beside its tries."""
    if lab.number is None:
        return "not searched"
    return "refused with %d" % lab.number if lab.number else route_words(lab.route)


def table(labs):
    """Lines that a person reads: the LABs and the sum of their tries."""
    rows = [(lab.lab, lab.tries, lab_words(lab)) for lab in labs]
    return shared.table(COLUMNS, HEADINGS, rows) + [SUM_COLUMNS % ("sum", sum(lab.tries for lab in labs))]


def csv_table(labs):
    """The lines of a CSV file: a row for each LAB."""
    empty = lambda value, none: "" if value == none else value
    return shared.csv_table(CSV_HEADINGS, [(lab.lab, lab.tries, empty(lab.number, None), *[empty(entry, NO_ENTRY) for entry in lab.route])
                                           for lab in labs])


def verdict_line(verdict, board, missing):
    """A verdict in words, with the board and what it names. A sheet at fault may be missing."""
    where = "" if verdict.cell == NONE else ", cell %d" % verdict.cell
    where += "" if verdict.lab == NONE else ", LAB %d" % verdict.lab
    name = {10: EXERCISE_LXE, 20: ANSWER_LXA}.get(verdict.number)
    why = "; %s is not there and counts as empty" % name if name in missing else ""
    return "verdict %d on the board of %s%s: %s%s" % (verdict.number, board, where, MEANING.get(verdict.number, "see docs/VERDICTS.md"), why)


def tries(library, folder, options):
    """The lines of the sheets in the folder."""
    sheets = {name: read_file(folder, name, LARGEST_SHEET) for name in (SETTINGS_LXT, EXERCISE_LXE, ANSWER_LXA)}
    missing = [name for name, sheet in sheets.items() if sheet is None]
    settings = library.house_settings() if SETTINGS_LXT in missing else sheets[SETTINGS_LXT]
    exercise, answer = sheets[EXERCISE_LXE] or b"", sheets[ANSWER_LXA] or b""
    judged = library.judged(settings, exercise, answer)
    line = verdict_line(judged.verdict, "document 01" if SETTINGS_LXT in missing else SETTINGS_LXT, missing)
    if judged.verdict.number in (LEGAL, NO_WAY):
        labs = labs_of(library, settings, exercise, answer, judged)
        return csv_table(labs) if "--csv" in options else [line] + table(labs)
    same((judged.route, LENT_ROUTE), (judged.tries, LENT_TRIES))
    if "--csv" in options:
        shared.say(["no tries are told: " + line])
        return csv_table([])
    return [line, "no tries are told: they are told with the verdicts 0 and 65 only"]


def main(words):
    verb, path, folder, *options = words if len(words) >= 3 else ("", "", "")
    if verb != "tries" or not set(options) <= {"--csv"}:
        return shared.refuse(["tries.py takes tries, the library and the folder, and --csv"])
    return shared.run("tries.py", lambda: tries(Library(path), folder, options))


if __name__ == "__main__":
    sys.exit(main(sys.argv[1:]))
