#!/usr/bin/env python3
"""The answers of a class: what './nurimkkot class' runs.

    python3 tools/class_sheets.py mark LIBRARY FOLDER [--settings] [--csv]    a line for each answer on class.lxc
    python3 tools/class_sheets.py pack LIBRARY FOLDER                         class.lxc from the answer files

LIBRARY is the C library as a shared object. With --settings the board is that of the settings sheet on standard input,
otherwise that of document 01. docs/CLASS.md tells what is read and written.

This script has no rule of the judge: every verdict is the proved library's. class.lxc gets its name only after what was
written has been marked by that library, each answer as by itself. Exit status: 0 when the work was done, otherwise 2.
"""

import ctypes
import os
import struct
import sys

sys.path.insert(0, os.path.dirname(os.path.realpath(__file__)))
import shared  # noqa: E402
from shared import EXERCISE_LXE, LARGEST_SHEET, MEANING, NONE, Refused, Verdict, plain, put_in_place, read_file, same  # noqa: E402

CLASS_LXC = "class.lxc"
ANSWER_END = ".lxa"
MOST_ANSWERS = 32                                   # that a class sheet has, and so the rows that are lent
LARGEST_ANSWER = 2059                               # bytes of a legal answer sheet: of a longer one the judge needs one byte more
LARGEST_CLASS = 7 + MOST_ANSWERS * (2 + 0xffff)     # bytes


# ---------------------------------------------------------------- the proved library

class Row(ctypes.Structure):
    """struct nurimkkot_row."""

    _fields_ = [(name, ctypes.c_uint32) for name in Verdict._fields]


class Library(shared.Judge):
    """The judge of one answer, and of a class."""

    def find_functions(self):
        super().find_functions()
        sheet, size, lent = ctypes.c_char_p, ctypes.c_size_t, ctypes.c_void_p
        self.c_mark_class = self.function("mark_class", ctypes.c_uint8, sheet, size, sheet, size, sheet, size, lent, size, lent)

    def mark_class(self, settings, exercise, sheet):
        """The number of the call, and what is said of each answer on a class sheet."""
        rows, filled = (Row * MOST_ANSWERS)(), ctypes.c_size_t()
        number = self.c_mark_class(settings, len(settings), exercise, len(exercise), sheet, len(sheet), rows, len(rows), ctypes.byref(filled))
        return number, [Verdict(row.number, row.cell, row.lab, row.apprentice) for row in rows[:filled.value]]


def read_exercise(folder):
    """The exercise sheet in the folder. One that is missing counts as empty."""
    return read_file(folder, EXERCISE_LXE, LARGEST_SHEET) or b""


# ---------------------------------------------------------------- a class sheet to lines

HEADINGS = ("row", "apprentice", "verdict", "cell", "lab", "meaning")
COLUMNS = "%3s  %10s  %7s  %4s  %4s  %s"        # as wide as the largest numbers


def read_settings():
    """The settings sheet on standard input."""
    try:
        return shared.read_bytes(0, LARGEST_SHEET)
    except OSError as why:
        raise Refused("the settings sheet can't be read: %s" % shared.why_not(why)) from None


def fields(row, verdict, none):
    """What stands under the headings, with a text in the place of no cell and no LAB."""
    cell, lab = (none if value == NONE else value for value in (verdict.cell, verdict.lab))
    return row, verdict.apprentice, verdict.number, cell, lab, MEANING.get(verdict.number, "see docs/VERDICTS.md")


def table(verdicts):
    """Lines that a person reads."""
    return shared.table(COLUMNS, HEADINGS, [fields(row, verdict, "-") for row, verdict in enumerate(verdicts)])


def csv_table(verdicts):
    """The lines of a CSV file."""
    return shared.csv_table(HEADINGS, [fields(row, verdict, "") for row, verdict in enumerate(verdicts)])


def why_refused(number, sheet):
    """Why a class sheet, or None where there is none, is refused."""
    if number != 76:
        return "%s is refused with %d" % (CLASS_LXC, number)
    if sheet is None:
        return "%s is refused with 76: it is not there and counts as empty; './nurimkkot class --pack' makes it" % CLASS_LXC
    return ("%s is refused with 76: it has under 7 bytes, a wrong mark, version or count, or lengths that do not add up; "
            "'./nurimkkot class --pack' makes it anew" % CLASS_LXC)


def mark(library, folder, options):
    """The lines of the class sheet in the folder."""
    settings = read_settings() if "--settings" in options else library.house_settings()
    exercise, sheet = read_exercise(folder), read_file(folder, CLASS_LXC, LARGEST_CLASS + 1)
    number, verdicts = library.mark_class(settings, exercise, sheet or b"")
    if number:
        raise Refused(why_refused(number, sheet))
    return csv_table(verdicts) if "--csv" in options else table(verdicts)


# ---------------------------------------------------------------- answer files to a class sheet

PACKED = "%3s  %5s  %s"


def answer_names(folder):
    """The names of the answer files, in the order of their bytes. Hidden files are no answers."""
    try:
        names = os.listdir(folder)
    except OSError as why:
        raise Refused("the folder can't be read: %s" % shared.why_not(why)) from None
    names = sorted((name for name in names if name.endswith(ANSWER_END) and not name.startswith(".")), key=os.fsencode)
    if not names:
        raise Refused("there is no answer in the folder: no file has a name that ends in %s" % ANSWER_END)
    if len(names) > MOST_ANSWERS:
        raise Refused("there are %d answers in the folder, and a class sheet has at most %d; take another folder for the rest"
                      % (len(names), MOST_ANSWERS))
    return names


def read_answer(folder, name):
    """The bytes of an answer file that the judge needs."""
    answer = read_file(folder, name, LARGEST_ANSWER + 1)
    if answer is None:
        raise Refused("%s can't be read: there is no such file" % plain(name))
    return answer


def class_sheet(answers):
    """The class sheet with these answers, each after its length."""
    return struct.pack("<3sHH", b"LXC", 1, len(answers)) + b"".join(struct.pack("<H", len(answer)) + answer for answer in answers)


def check_class(library, exercise, answers, sheet):
    """Refuses a class sheet that is not that of these answers, or is not marked as they are, each by itself."""
    same((sheet, class_sheet(answers)))
    board = library.house_settings()
    number, verdicts = library.mark_class(board, exercise, sheet)
    same((number, 0), (verdicts, [library.verdict(board, exercise, answer) for answer in answers]))


def pack(library, folder):
    """Makes the class sheet of the answers in the folder. Gives lines that tell which file is which row."""
    names, exercise = answer_names(folder), read_exercise(folder)
    answers = [read_answer(folder, name) for name in names]
    check = lambda read: check_class(library, exercise, answers, read[CLASS_LXC])
    put_in_place(folder, {CLASS_LXC: class_sheet(answers)}, check, replace=True)
    shared.say("%s has over %d bytes, more than a legal answer; its first %d are packed, and its verdict is the same"
               % (plain(name), LARGEST_ANSWER, len(answer)) for name, answer in zip(names, answers) if len(answer) > LARGEST_ANSWER)
    return shared.table(PACKED, ("row", "bytes", "file"), [(row, len(answers[row]), plain(name)) for row, name in enumerate(names)])


def main(words):
    verb, path, folder, *options = words if len(words) >= 3 else ("", "", "")
    if verb == "pack" and not options:
        return shared.run("class_sheets.py", lambda: pack(Library(path), folder))
    if verb == "mark" and set(options) <= {"--settings", "--csv"}:
        return shared.run("class_sheets.py", lambda: mark(Library(path), folder, options))
    return shared.refuse(["class_sheets.py takes mark or pack, the library and the folder, and with mark --settings and --csv"])


if __name__ == "__main__":
    sys.exit(main(sys.argv[1:]))
