#!/usr/bin/env python3
"""The minutes of the apprentices: what './nurimkkot minutes' runs.

    python3 tools/tablet_log.py minutes LIBRARY FOLDER [--csv]    a line for each apprentice on tablet.lxl

LIBRARY is the C library as a shared object. docs/MINUTES.md tells what is read and written.

This script has no rule of the log: whether it is refused, the apprentices, their minutes and which entries cover nothing
come from the proved library. The script adds the minutes up and shows what stands on the entries that cover nothing. It
writes no file. Exit status: 0 when the work was done, otherwise 2.
"""

import ctypes
import os
import struct
import sys
from typing import NamedTuple

sys.path.insert(0, os.path.dirname(os.path.realpath(__file__)))
import shared  # noqa: E402
from shared import Refused, read_file  # noqa: E402

TABLET_LXL = "tablet.lxl"
MOST_APPRENTICES = 64                               # that a log has, and so the rows that are lent
MOST_ENTRIES = 1024                                 # that a log has, and so the entry numbers that are lent
HEAD = 7                                            # bytes before the first entry
ENTRY = struct.Struct("<IHHHI")                     # apprentice, verdict, opening and closing minute, login
LARGEST_LOG = HEAD + MOST_ENTRIES * ENTRY.size      # bytes: of a longer log one byte more is needed

# What each number says with which a log is refused, in the words of docs/VERDICTS.md.
MEANING = {
    80: "the log has under 7 bytes",
    81: "the log does not begin with LXL",
    82: "the version of the log is not 1",
    83: "the log has more than 1024 entries",
    84: "the length of the log is not that of so many entries",
    85: "an entry has a minute above 10080 or the apprentice 0",
    86: "the log has more than 64 apprentices",
}


# ---------------------------------------------------------------- the proved library

class Row(ctypes.Structure):
    """struct nurimkkot_credit."""

    _fields_ = [("apprentice", ctypes.c_uint32), ("minutes", ctypes.c_uint32)]


class Credit(NamedTuple):
    """An apprentice and the minutes that the apprentice's own entries cover."""

    apprentice: int
    minutes: int


class Library(shared.Library):
    """The minutes of a log."""

    def find_functions(self):
        log, size, lent = ctypes.c_char_p, ctypes.c_size_t, ctypes.c_void_p
        self.c_minutes = self.function("minutes", ctypes.c_uint8, log, size, lent, size, lent, size, lent, lent)

    def minutes(self, log):
        """The number of the call, the apprentices with their minutes, and the numbers of the entries that cover nothing."""
        rows, entries = (Row * MOST_APPRENTICES)(), (ctypes.c_uint16 * MOST_ENTRIES)()
        rows_filled, entries_filled = ctypes.c_size_t(), ctypes.c_size_t()
        number = self.c_minutes(log, len(log), rows, len(rows), entries, len(entries), ctypes.byref(rows_filled), ctypes.byref(entries_filled))
        return number, [Credit(row.apprentice, row.minutes) for row in rows[:rows_filled.value]], entries[:entries_filled.value]


# ---------------------------------------------------------------- a log to lines

HEADINGS = ("apprentice", "minutes", "hours")
COLUMNS = "%10s  %7s  %8s"                          # as wide as the largest numbers
NOTHING = "entries that cover nothing"
NOTHING_HEADINGS = ("entry", "apprentice", "opening", "closing", "login")
NOTHING_COLUMNS = "%5s  %10s  %7s  %7s  %10s"


class Entry(NamedTuple):
    """What stands on an entry."""

    apprentice: int
    verdict: int
    opening: int
    closing: int
    login: int


def entry_of(log, number):
    return Entry(*ENTRY.unpack_from(log, HEAD + number * ENTRY.size))


def hours(minutes):
    """Minutes as hours and minutes: 90 is 1:30."""
    return "%d:%02d" % divmod(minutes, 60)


def table(credits, nothing):
    """Lines that a person reads: the apprentices, the total, and the entries that cover nothing, which come as pairs of number and entry."""
    total = sum(credit.minutes for credit in credits)
    lines = shared.table(COLUMNS, HEADINGS, [(*credit, hours(credit.minutes)) for credit in credits] + [("total", total, hours(total))])
    lines += ["", "%s: %d" % (NOTHING, len(nothing))]
    rows = [(number, entry.apprentice, entry.opening, entry.closing, entry.login) for number, entry in nothing]
    return lines + (shared.table(NOTHING_COLUMNS, NOTHING_HEADINGS, rows) if rows else [])


def csv_table(credits, nothing):
    """The lines of a CSV file: a row for each apprentice, with the numbers of that apprentice's entries that cover nothing."""
    own = {credit.apprentice: [] for credit in credits}
    for number, entry in nothing:
        own[entry.apprentice].append("#%d" % number)
    return shared.csv_table((*HEADINGS, NOTHING), [(*credit, hours(credit.minutes), " ".join(own[credit.apprentice])) for credit in credits])


def why_refused(number, log):
    """Why a log, or None where there is none, is refused."""
    if number == 80 and log is None:
        return "%s is refused with 80: it is not there and counts as empty" % TABLET_LXL
    return "%s is refused with %d: %s" % (TABLET_LXL, number, MEANING.get(number, "see docs/VERDICTS.md"))


def minutes(library, folder, options):
    """The lines of the log in the folder."""
    log = read_file(folder, TABLET_LXL, LARGEST_LOG + 1)
    number, credits, entries = library.minutes(log or b"")
    if number:
        raise Refused(why_refused(number, log))
    nothing = [(entry, entry_of(log, entry)) for entry in entries]
    return csv_table(credits, nothing) if "--csv" in options else table(credits, nothing)


def main(words):
    verb, path, folder, *options = words if len(words) >= 3 else ("", "", "")
    if verb != "minutes" or not set(options) <= {"--csv"}:
        return shared.refuse(["tablet_log.py takes minutes, the library and the folder, and --csv"])
    return shared.run("tablet_log.py", lambda: minutes(Library(path), folder, options))


if __name__ == "__main__":
    sys.exit(main(sys.argv[1:]))
