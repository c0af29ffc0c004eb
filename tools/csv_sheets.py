#!/usr/bin/env python3
"""Spreadsheets to sheets and back: what './nurimkkot write' and './nurimkkot csv' run.

    python3 tools/csv_sheets.py write LIBRARY FOLDER    exercise.csv, answer.csv, settings.csv to exercise.lxe, answer.lxa, settings.lxt
    python3 tools/csv_sheets.py csv LIBRARY FOLDER      the other way

LIBRARY is the C library as a shared object. docs/AUTHORS.md tells what the CSV files hold.

This script knows rows, columns and names, and has no rule of the sheets. The proved writers make their bytes, and are
asked which row is at fault where they refuse; the proved readers and the judge read them. A file gets its name only
after what was written has been read back and is what was meant. Exit status: 0 when the work was done, otherwise 2.
"""

import ctypes
import os
import re
import sys
from typing import NamedTuple

sys.path.insert(0, os.path.dirname(os.path.realpath(__file__)))
import shared  # noqa: E402
from shared import (ANSWER_LXA, EXERCISE_LXE, LARGEST_SHEET, MEANING, NONE, RECORD, SETTINGS_LXT, Refused, counted, put_in_place,  # noqa: E402
                    read_file, same, shown)

EXERCISE_CSV, ANSWER_CSV, SETTINGS_CSV = TABLES = "exercise.csv", "answer.csv", "settings.csv"
SHEETS = EXERCISE_LXE, ANSWER_LXA, SETTINGS_LXT
LARGEST_CSV = 32 << 20      # bytes


# ---------------------------------------------------------------- the proved library

MOST_ENTRIES = 8                        # that the reader of settings sheets gives
LARGEST_16, LARGEST_32 = 0xffff, 0xffffffff


class Library(shared.Reader):
    """The judge, the readers and the writers. A record is 13 numbers, a place three, an entry a byte of flags."""

    def find_functions(self):
        super().find_functions()
        number, count, size = ctypes.c_uint8, ctypes.c_uint16, ctypes.c_size_t
        sheet, lent = ctypes.c_char_p, ctypes.c_void_p
        self.c_write_exercise = self.function("write_exercise", number, count, sheet, size, lent, size, lent)
        self.c_write_answer = self.function("write_answer", number, ctypes.c_uint32, lent, size, lent, size, lent)
        self.c_read_settings = self.function("read_settings", number, sheet, size, lent, lent)
        self.c_write_settings = self.function("write_settings", number, count, count, sheet, size, lent, size, lent)

    def judge(self, exercise, answer):
        """The verdict on document 01's board: no number up to 26 depends on the board."""
        return self.verdict(self.house_settings(), exercise, answer)

    def settings(self, sheet):
        """The reader's number for a settings sheet, its version, its board and its entries."""
        numbers, entries = (ctypes.c_uint16 * 3)(), (ctypes.c_uint8 * MOST_ENTRIES)()
        number = self.c_read_settings(sheet, len(sheet), numbers, entries)
        version, board, count = numbers
        return number, version, board, bytes(entries[:count])

    def write_exercise(self, nets, records):
        """The writer's number, and the exercise sheet where that is 0. A net count that doesn't fit is too large anyway."""
        cells = b"".join([RECORD.pack(*record) for record in records])
        sheet, length = ctypes.create_string_buffer(9 + 24 * len(records)), ctypes.c_size_t()
        number = self.c_write_exercise(min(nets, LARGEST_16), cells, len(records), sheet, len(sheet), ctypes.byref(length))
        return number, sheet.raw[:length.value]

    def write_answer(self, apprentice, places):
        """The writer's number, and the answer sheet where that is 0. An x, y or LE that doesn't fit is too large anyway."""
        numbers = (ctypes.c_uint16 * (3 * len(places)))(*[min(n, LARGEST_16) for place in places for n in place])
        sheet, length = ctypes.create_string_buffer(11 + 4 * len(places)), ctypes.c_size_t()
        number = self.c_write_answer(apprentice, numbers, len(places), sheet, len(sheet), ctypes.byref(length))
        return number, sheet.raw[:length.value]

    def write_settings(self, version, board, entries):
        """The writer's number, and the settings sheet where that is 0. A version that doesn't fit is too large anyway."""
        sheet, length = ctypes.create_string_buffer(8 + len(entries)), ctypes.c_size_t()
        number = self.c_write_settings(min(version, LARGEST_16), board, entries, len(entries), sheet, len(sheet), ctypes.byref(length))
        return number, sheet.raw[:length.value]


# ---------------------------------------------------------------- the text of a CSV file

NEWLINE = re.compile("\r\n|\r|\n")
OPENING = re.compile(' *"')
QUOTED = re.compile('[^"]*(?:""[^"]*)*')
BLANKS = re.compile(" *")
NOT_UTF8 = re.compile("[\ud800-\udfff]")


class Field(NamedTuple):
    """A field of a row, without the blanks around it, and where it begins. Lines and columns count from 1."""

    text: str
    line: int
    column: int


class Broken(Exception):
    """The quotes of a field are wrong."""

    def __init__(self, line, column, words):
        super().__init__(words)
        self.field, self.words = Field("", line, column), words


class CsvText:
    """A CSV text that is taken apart from its start, with one separator."""

    def __init__(self, text, separator):
        self.text, self.separator, self.at, self.line = text, separator, 0, 1
        self.plain = re.compile("[^%s\r\n]*" % separator)
        self.blank = re.compile("[%s ]*(?:\r\n|\r|\n)" % separator)

    def rows(self):
        """The rows that have something in them, each a list of fields."""
        while self.at < len(self.text):
            blank = self.blank.match(self.text, self.at)
            if blank:
                self.at, self.line = blank.end(), self.line + 1
                continue
            row = self.row()
            if any(field.text for field in row):
                yield row

    def row(self):
        row = [self.field(1)]
        while self.text.startswith(self.separator, self.at):
            self.at += 1
            row.append(self.field(len(row) + 1))
        newline = NEWLINE.match(self.text, self.at)
        if newline:
            self.at, self.line = newline.end(), self.line + 1
        return row

    def field(self, column):
        line, opening = self.line, OPENING.match(self.text, self.at)
        if opening:
            text = self.quoted(opening.end(), column)
        else:
            end = self.plain.match(self.text, self.at).end()
            text, self.at = self.text[self.at:end], end
        return Field(text.strip(), line, column)

    def quoted(self, start, column):
        """The text of a field whose opening quote stands before start."""
        line, end = self.line, QUOTED.match(self.text, start).end()
        if end == len(self.text):
            raise Broken(line, column, "a quote opens here and is not closed")
        text = self.text[start:end]
        self.line += len(NEWLINE.findall(text))
        self.at = BLANKS.match(self.text, end + 1).end()
        if self.text[self.at:self.at + 1] not in ("", "\r", "\n", self.separator):
            raise Broken(line, column, "text follows the closing quote, which is at line %d" % self.line)
        return text.replace('""', '"')


def separator_of(text, words, count):
    """The separator that makes the most of these words in the first rows, and of two the one that makes the most fields. One that leaves no
    row is that of an empty table."""
    best, found = (0, 0), ","
    for separator in ",;\t":
        fields = []
        try:
            for _, row in zip(range(count), CsvText(text, separator).rows()):
                fields += [field.text.lower() for field in row]
        except Broken:
            continue
        if not fields:
            return separator
        score = sum(field in words for field in fields), len(fields)
        if score > best:
            best, found = score, separator
    return found


class CsvFile:
    """A CSV file that is being read: its name, the headings that it may have, and the mistakes found in it."""

    def __init__(self, name, known):
        self.name, self.known, self.mistakes = name, known, []
        self.headings, self.heading_line = {}, 0        # the text above each column, and where it stands
        self.columns = {}                               # the column of each heading

    def where(self, field):
        """A field's place in words: file, line, column and heading."""
        words = "%s, line %d, column %d" % (self.name, field.line, field.column)
        heading = self.headings.get(field.column, "") if field.line >= self.heading_line else ""
        if heading.lower() in self.known:
            return "%s (%s)" % (words, heading.lower())
        return "%s (%s)" % (words, shown(heading)) if heading else words

    def mistake(self, field, words):
        self.mistakes.append("%s: %s" % (self.where(field), words))

    def mistake_at(self, line, words):
        self.mistakes.append("%s, line %d: %s" % (self.name, line, words))

    def end(self):
        """Ends the work where there was a mistake."""
        if self.mistakes:
            raise Refused(*self.mistakes)

    def rows(self, data, count, words):
        """The rows of the file that have something in them. The headings are the last of the first rows, which have such words."""
        text, rows = data.decode("utf-8-sig", "surrogateescape"), []
        try:
            for row in CsvText(text, separator_of(text, words, count)).rows():
                rows.append(row)
                if len(rows) == count:
                    self.headings = {field.column: field.text for field in row}
                    self.heading_line = row[0].line
        except Broken as broken:
            self.mistake(broken.field, broken.words)
        if NOT_UTF8.search(text):
            for field in (field for row in rows for field in row if NOT_UTF8.search(field.text)):
                self.mistake(field, "this is not UTF-8 text; save the file as CSV UTF-8")
        self.end()
        return rows

    def need_row(self, rows, at, what):
        """One of the first rows. Ends the work where it is not there."""
        if at >= len(rows):
            self.mistake_at(rows[-1][0].line if rows else 1, "there is no row with the %s%s" % (what, " after this one" if rows else ""))
            self.end()
        return rows[at]

    def number(self, field):
        """The number in a field, or None with a mistake."""
        number = number_in(field.text)
        if number is None:
            self.mistake(field, "%s is no number" % shown(field.text) if field.text else "the number is missing")
        return number

    def named_number(self, row, which, name, most=None):
        """The number in a row that is a name and a number, at most so large, and its field; None with a mistake."""
        field = row[1] if len(row) > 1 else Field("", row[0].line, 2)
        if row[0].text.lower() != name:
            self.mistake(row[0], "the %s row is the word %s and the %s's number" % (which, name, name))
            return None, field
        number = self.number(field)
        if number is not None and most is not None and number > most:
            self.mistake(field, "the %s is at most %d" % (name, most))
        for other in row[2:]:
            if other.text:
                self.mistake(other, "%s stands after the %s's number" % (shown(other.text), name))
        return number, field

    def find_columns(self, row, needed):
        """Finds the column of each heading in the row that has them."""
        for field in row:
            name = field.text.lower()
            if name in self.columns:
                self.mistake(field, "a second column %s; the first is column %d" % (name, self.columns[name]))
            elif name in self.known:
                self.columns[name] = field.column
            elif name:
                self.mistake(field, "unknown column")
        for name in needed:
            if name not in self.columns:
                self.mistake_at(row[0].line, "there is no column %s" % name)
        self.end()

    def by_heading(self, row):
        """The fields of a row by their headings. One that the row is too short for is empty."""
        for field in row:
            if field.text and not self.headings.get(field.column):
                self.mistake(field, "there is no heading above %s" % shown(field.text))
        return {name: row[column - 1] if column <= len(row) else Field("", row[-1].line, column)
                for name, column in self.columns.items()}


def number_in(text):
    """The number that a text of digits is, or None. One of over twenty digits is cut: it is too large for all that is asked."""
    if not (text.isascii() and text.isdigit()):
        return None
    return int(text.lstrip("0")[:20] or "0")


# ---------------------------------------------------------------- exercise.csv

PORTS = {1: ("dataa", "datab", "datac", "datad", "cin", "combout", "cout"),
         2: ("datain", "clk", "ena", "aclr", "sclr", "sload", "sdata", "regout")}
ALL_PORTS = PORTS[1] + PORTS[2]
KINDS = {"combinational": 1, "register": 2, "1": 1, "2": 2}
KIND_WORDS = {1: "combinational", 2: "register"}
CELL_WORDS = {1: "a combinational cell", 2: "a register"}
FLAGS = {"": 0, "datac": 0, "cin": 1}
CONSTANTS = {"GND": 1, "VCC": 2}
INVERSE = {1: 2, 2: 1}
EXERCISE_HEADINGS = ("name", "kind", "sum_lutc_input") + ALL_PORTS


class Row(NamedTuple):
    """A row of exercise.csv: a cell with its record, or a net that is declared, which has none."""

    line: int
    fields: dict        # by heading
    record: tuple
    nets: int           # how many nets there are up to this row


class Exercise:
    """What exercise.csv says: its rows and its nets. A net is numbered where its name first appears."""

    def __init__(self, file):
        self.file, self.rows, self.nets = file, [], {}
        self.cell_lines, self.net_lines = {}, {}        # where each name was given

    def cells(self):
        return [row for row in self.rows if row.record]

    def records(self):
        return [row.record for row in self.cells()]

    def add(self, line, fields):
        kind = fields["kind"].text.lower()
        if kind == "net":
            record = self.declare(fields)
        elif kind in KINDS:
            record = self.record(KINDS[kind], fields)
        else:
            self.file.mistake(fields["kind"], "the kind is combinational, register or net, not %s" % shown(fields["kind"].text))
            return
        self.rows.append(Row(line, fields, record, len(self.nets)))

    def declare(self, fields):
        """A row of kind net."""
        name = fields.get("name", fields["kind"]._replace(text=""))
        for heading, field in fields.items():
            if field.text and heading not in ("name", "kind"):
                self.file.mistake(field, "a row of kind net has a name and nothing else")
        why = why_no_net(name.text)
        if why:
            self.file.mistake(name, "%s is no net: %s" % (shown(name.text), why))
        self.need_new(name, self.net_lines, "rows of kind net")
        self.nets.setdefault(name.text, len(self.nets))

    def record(self, kind, fields):
        """The record of a cell."""
        if "name" in fields:
            self.need_new(fields["name"], self.cell_lines, "cells")
        for port in ALL_PORTS:
            if port in fields and fields[port].text and port not in PORTS[kind]:
                self.file.mistake(fields[port], "%s has no %s" % (CELL_WORDS[kind], port))
        signals = [self.signal(fields[port]) if port in fields else 0 for port in PORTS[kind]]
        return (kind, self.flag(fields.get("sum_lutc_input")), *signals, *[0] * (11 - len(signals)))

    def need_new(self, name, lines, what):
        """A name is given once."""
        if name.text in lines:
            self.file.mistake(name, "two %s have the name %s; the first is at line %d" % (what, shown(name.text), lines[name.text]))
        elif name.text:
            lines[name.text] = name.line

    def flag(self, field):
        text = field.text.lower() if field else ""
        if text not in FLAGS:
            self.file.mistake(field, "this is datac, cin or empty, not %s" % shown(field.text))
        return FLAGS.get(text, 0)

    def signal(self, field):
        """The code of a signal. One that doesn't fit is there only where the nets are too many anyway."""
        if not field.text:
            return 0
        inverted = field.text.startswith("/")
        name = field.text[1:].strip() if inverted else field.text
        constant = CONSTANTS.get(name.upper())
        if constant:
            return INVERSE[constant] if inverted else constant
        why = why_no_net(name)
        if why:
            self.file.mistake(field, "%s is no signal: %s" % (shown(field.text), why))
            return 0
        return min(4 + 2 * self.nets.setdefault(name, len(self.nets)) + inverted, LARGEST_16)


def why_no_net(name):
    """What keeps a text from being the name of a net, or None."""
    if not name:
        return "the name is missing"
    if name.startswith("/"):
        return "the name of a net does not begin with /"
    return "this is a constant" if name.upper() in CONSTANTS else None


def read_exercise(data):
    """What the bytes of exercise.csv say."""
    file = CsvFile(EXERCISE_CSV, EXERCISE_HEADINGS)
    rows = file.rows(data, 1, EXERCISE_HEADINGS)
    file.find_columns(file.need_row(rows, 0, "headings"), ("kind",))
    exercise = Exercise(file)
    for row in rows[1:]:
        exercise.add(row[0].line, file.by_heading(row))
    file.end()
    return exercise


def exercise_sheet(library, exercise):
    """The sheet of what exercise.csv says."""
    number, sheet = library.write_exercise(len(exercise.nets), exercise.records())
    if number:
        raise Refused(why_exercise(library, exercise, number))
    return sheet


# Where a writer refuses, it is asked which row is at fault, and which column of that.

def why_exercise(library, exercise, number):
    """A refusal of the writer in words."""
    if number == 15:
        return why_15(library, exercise)
    if number not in (13, 16):
        return "%s: refused with %d" % (exercise.file.name, number)
    above, row = first_refused(library, exercise, number)
    if number == 16:
        return why_16(library, exercise, above, row)
    return ("%s, line %d: refused with 13: %d cells and %d nets up to here; a sheet has at most 512 cells and 1024 nets"
            % (exercise.file.name, row.line, len(above) + (row.record is not None), row.nets))


def first_refused(library, exercise, number):
    """The first row with which the writer refuses, and the records above it."""
    above = []
    for row in exercise.rows:
        records = above + [row.record] if row.record else above
        if library.write_exercise(row.nets, records)[0] == number:
            return above, row
        above = records
    raise Refused("%s: refused with %d" % (exercise.file.name, number))


def why_15(library, exercise):
    """The first record that is refused by itself, and the first column that is."""
    refused = lambda record: library.write_exercise(len(exercise.nets), [record])[0] == 15
    row = next(row for row in exercise.cells() if refused(row.record))
    kind = row.record[0]
    for at, heading in enumerate(("sum_lutc_input",) + PORTS[kind], 1):
        alone = [kind] + [0] * 12
        alone[at] = row.record[at]
        if refused(alone):
            return ("%s: refused with 15: %s can't stand here; an output takes a net that is not inverted, and a register no sum_lutc_input"
                    % (exercise.file.where(row.fields[heading]), shown(row.fields[heading].text)))
    return "%s, line %d: refused with 15" % (exercise.file.name, row.line)


def why_16(library, exercise, above, row):
    """The first output of the row with which it is refused, and the row that drives that net already."""
    refused = lambda records: library.write_exercise(row.nets, records)[0] == 16
    up_to = lambda port: row.record[:3 + port] + (0,) * (10 - port)
    port = next(port for port in range(11) if refused(above + [up_to(port)]))
    field = row.fields[PORTS[row.record[0]][port]]
    driver = next(other for other in exercise.cells() if other is row or refused([other.record, up_to(port)]))
    by = "this cell" if driver is row else "the cell at line %d" % driver.line
    return "%s: refused with 16: the net %s is driven already, by %s" % (exercise.file.where(field), shown(field.text), by)


# ---------------------------------------------------------------- answer.csv

ANSWER_HEADINGS = ("cell", "x", "y", "le")


class Cells:
    """The cells that answer.csv speaks of: the name of each, or '', and its line in exercise.csv, or 0."""

    def __init__(self, names, lines):
        self.names, self.lines = names, lines
        self.numbers = {name: number for number, name in enumerate(names) if name}

    def words(self, number):
        return "cell %d" % number + (" (%s)" % shown(self.names[number]) if self.names[number] else "")

    def found(self, text):
        """The cells of this name or number."""
        number = number_in(text)
        found = {number} if number is not None and number < len(self.names) else set()
        return sorted(found | {self.numbers[text]} if text in self.numbers else found)


def cells_of_csv(exercise):
    """The cells of exercise.csv."""
    rows = exercise.cells()
    return Cells([row.fields["name"].text if "name" in row.fields else "" for row in rows], [row.line for row in rows])


def cells_of_sheet(library, sheet):
    """The cells of an exercise sheet, with the names that csv gives them."""
    count = len(library.records(sheet))
    return Cells([cell_name(number) for number in range(count)], [0] * count)


class Answer:
    """What answer.csv says: the apprentice, and for each cell its fields by heading and its place."""

    def __init__(self, file, cells, apprentice, apprentice_field):
        self.file, self.cells = file, cells
        self.apprentice, self.apprentice_field = apprentice, apprentice_field
        self.fields, self.numbers = {}, {}

    def places(self):
        return [self.numbers[cell] for cell in range(len(self.cells.names))]

    def add(self, fields):
        numbers = tuple(self.file.number(fields[heading]) for heading in ("x", "y", "le"))
        cell = self.cell(fields["cell"])
        if cell in self.fields:
            self.file.mistake(fields["cell"], "%s has a place already, at line %d"
                              % (self.cells.words(cell), self.fields[cell]["cell"].line))
        elif cell is not None:
            self.fields[cell], self.numbers[cell] = fields, numbers

    def cell(self, field):
        """The number of the one cell of this name or number, or None with a mistake."""
        found = self.cells.found(field.text)
        if len(found) == 1:
            return found[0]
        if found:
            named = self.cells.numbers[field.text]
            other = found[0] + found[1] - named
            self.file.mistake(field, "%s is the name of cell %d and the number of %s" % (shown(field.text), named, self.cells.words(other)))
        elif field.text:
            self.file.mistake(field, "there is no cell %s" % shown(field.text))
        else:
            self.file.mistake(field, "the cell is missing")
        return None

    def need_all(self):
        """Every cell has a place."""
        for cell, line in enumerate(self.cells.lines):
            if cell not in self.fields:
                at = ", line %d of %s," % (line, EXERCISE_CSV) if line else ""
                self.file.mistakes.append("%s: %s%s has no place" % (self.file.name, self.cells.words(cell), at))


def read_answer(data, cells):
    """What the bytes of answer.csv say of these cells."""
    file = CsvFile(ANSWER_CSV, ANSWER_HEADINGS)
    rows = file.rows(data, 2, ANSWER_HEADINGS + ("apprentice",))
    answer = Answer(file, cells, *file.named_number(file.need_row(rows, 0, "apprentice"), "first", "apprentice", LARGEST_32))
    file.end()
    file.find_columns(file.need_row(rows, 1, "headings"), ANSWER_HEADINGS)
    for row in rows[2:]:
        answer.add(file.by_heading(row))
    answer.need_all()
    file.end()
    return answer


def answer_sheet(library, answer):
    """The sheet of what answer.csv says."""
    number, sheet = library.write_answer(answer.apprentice, answer.places())
    if number == 26:
        raise Refused(why_26(library, answer))
    if number == 23:
        raise Refused("%s: refused with 23: the apprentice can't be 0" % answer.file.where(answer.apprentice_field))
    if number:
        raise Refused("%s: refused with %d" % (answer.file.name, number))
    return sheet


def why_26(library, answer):
    """The first place that is refused by itself, and the first column that is."""
    refused = lambda place: library.write_answer(answer.apprentice, [place])[0] == 26
    cell = next(cell for cell, place in enumerate(answer.places()) if refused(place))
    x, y, le = answer.numbers[cell]
    parts = (("x", (x, 0, 0)), ("y", (0, y, 0)), ("le", (0, 0, le)))
    field = next(answer.fields[cell][heading] for heading, part in parts if refused(part))
    return ("%s: refused with 26: %s can't stand here; x and y are 0 to 31, le is 0 to 15"
            % (answer.file.where(field), shown(field.text)))


# ---------------------------------------------------------------- settings.csv

ROLES = {"clk": 1, "ena": 2, "aclr": 4, "sclr": 8, "sload": 16}
SETTINGS_HEADINGS = ("entry",) + tuple(ROLES)
SERVES = {"x": True, "1": True, "yes": True, "true": True, "": False, "0": False, "no": False, "false": False}


class Settings:
    """What settings.csv says: version and board, each with its field, and for each entry its number's field and its flags."""

    def __init__(self, file, version, board):
        self.file = file
        self.version, self.version_field = version
        self.board, self.board_field = board
        self.fields, self.flags = {}, {}

    def entries(self):
        return bytes(self.flags[entry] for entry in range(len(self.flags)))

    def add(self, fields):
        entry = self.file.number(fields["entry"])
        flags = sum(flag for role, flag in ROLES.items() if self.serves(fields[role]))
        if entry in self.fields:
            self.file.mistake(fields["entry"], "entry %d has a row already, at line %d" % (entry, self.fields[entry].line))
        elif entry is not None:
            self.fields[entry], self.flags[entry] = fields["entry"], flags

    def serves(self, field):
        text = field.text.lower()
        if text not in SERVES:
            self.file.mistake(field, "this is x or empty, not %s" % shown(field.text))
        return SERVES.get(text, False)

    def need_all(self):
        """The entries are 0, 1, 2 and so on."""
        for meant, entry in enumerate(sorted(self.fields)):
            if entry != meant:
                field = self.fields[entry]
                self.file.mistake(field, "entry %d has no row, so %s can't stand here" % (meant, shown(field.text)))
                return


def read_settings(data):
    """What the bytes of settings.csv say."""
    file = CsvFile(SETTINGS_CSV, SETTINGS_HEADINGS)
    rows = file.rows(data, 3, SETTINGS_HEADINGS + ("version", "board"))
    version = file.named_number(file.need_row(rows, 0, "version"), "first", "version")
    board = file.named_number(file.need_row(rows, 1, "board"), "second", "board", LARGEST_16)
    file.end()
    file.find_columns(file.need_row(rows, 2, "headings"), SETTINGS_HEADINGS)
    settings = Settings(file, version, board)
    for row in rows[3:]:
        settings.add(file.by_heading(row))
    settings.need_all()
    file.end()
    return settings


def settings_sheet(library, settings):
    """The sheet of what settings.csv says."""
    number, sheet = library.write_settings(settings.version, settings.board, settings.entries())
    if number == 72:
        raise Refused(why_72(library, settings))
    if number == 73:
        raise Refused(why_73(library, settings))
    if number:
        raise Refused("%s: refused with %d" % (settings.file.name, number))
    return sheet


def why_72(library, settings):
    """The version where it is refused with board 0 too, otherwise the board."""
    alone = library.write_settings(settings.version, 0, b"")[0]
    field = settings.version_field if alone == 72 else settings.board_field
    return ("%s: refused with 72: %s can't stand here; the version is 1 or 2, and in version 1 the board is 0"
            % (settings.file.where(field), shown(field.text)))


def why_73(library, settings):
    """The first entry with which it is refused."""
    entries = settings.entries()
    refused = lambda entry: library.write_settings(settings.version, settings.board, entries[:entry + 1])[0] == 73
    entry = next(entry for entry in range(len(entries)) if refused(entry))
    return "%s: refused with 73: entry %d is one too many; a sheet has at most 8" % (settings.file.where(settings.fields[entry]), entry)


# ---------------------------------------------------------------- sheets to CSV

def need_good(library, exercise, answer):
    """Refuses sheets that get one of 10 to 26. Where the answer is None, the exercise is asked by itself."""
    number, cell, _, _ = library.judge(exercise, answer or b"")
    if 10 <= number <= 26 and not (number == 20 and answer is None):
        where = "" if cell == NONE else " (cell %d)" % cell
        raise Refused("%s is refused with %d: %s%s" % (EXERCISE_LXE if number < 20 else ANSWER_LXA, number, MEANING[number], where))


def read_good_settings(library, sheet):
    """The version, board and entries of a settings sheet. Refuses one that gets one of 70 to 75."""
    number, *said = library.settings(sheet)
    if number:
        raise Refused("%s is refused with %d: %s" % (SETTINGS_LXT, number, MEANING[number]))
    return tuple(said)


def cell_name(number):
    return "c%d" % number


def net_name(number):
    return "n%d" % number


def net_count(exercise):
    """The net count in the head of an exercise sheet, which no reader gives."""
    return int.from_bytes(exercise[5:7], "little")


def signal_text(code):
    if code < 4:
        return ("", "GND", "VCC")[code]
    return "/" * (code % 2) + net_name((code - 4) // 2)


def nets_to_declare(nets, records):
    """How many nets have to be declared, the lowest first, so that the others are numbered as they first appear."""
    first = {}
    for signal_code in (code for record in records for code in record[2:] if code >= 4):
        first.setdefault((signal_code - 4) // 2, len(first))
    while nets and nets - 1 in first and first[nets - 1] < first.get(nets, len(first)):
        nets -= 1
    return nets


def csv_bytes(rows):
    """A CSV file. What csv writes needs no quotes."""
    return "".join(",".join(row) + "\n" for row in rows).encode()


def exercise_csv(nets, records):
    """The bytes of exercise.csv for so many nets and these records."""
    rows = [EXERCISE_HEADINGS]
    for number in range(nets_to_declare(nets, records)):
        rows.append([net_name(number), "net"] + [""] * (len(EXERCISE_HEADINGS) - 2))
    for number, (kind, flag, *signals) in enumerate(records):
        fields = dict(zip(PORTS[kind], map(signal_text, signals)))
        fields.update(name=cell_name(number), kind=KIND_WORDS[kind], sum_lutc_input="cin" if flag else "")
        rows.append([fields.get(heading, "") for heading in EXERCISE_HEADINGS])
    return csv_bytes(rows)


def answer_csv(apprentice, places):
    """The bytes of answer.csv for an apprentice and these places."""
    rows = [("apprentice", str(apprentice)), ANSWER_HEADINGS]
    return csv_bytes(rows + [(cell_name(number), *map(str, place)) for number, place in enumerate(places)])


def settings_csv(version, board, entries):
    """The bytes of settings.csv for a version, a board and these entries."""
    rows = [("version", str(version)), ("board", str(board)), SETTINGS_HEADINGS]
    return csv_bytes(rows + [(str(number), *["x" if flags & flag else "" for flag in ROLES.values()]) for number, flags in enumerate(entries)])


def settings_to_csv(library, sheet):
    """The CSV file of a settings sheet. Refused unless the very sheet comes back from it."""
    data = settings_csv(*read_good_settings(library, sheet))
    same((settings_sheet(library, read_settings(data)), sheet))
    return {SETTINGS_CSV: data}


def sheets_to_csv(library, exercise, answer):
    """The CSV files of two sheets, or of one where the answer is None. Refused unless the very sheets come back from them."""
    need_good(library, exercise, answer)
    files = {EXERCISE_CSV: exercise_csv(net_count(exercise), library.records(exercise))}
    again = read_exercise(files[EXERCISE_CSV])
    same((exercise_sheet(library, again), exercise))
    if answer is not None:
        files[ANSWER_CSV] = answer_csv(library.judge(exercise, answer).apprentice, library.places(answer))
        same((answer_sheet(library, read_answer(files[ANSWER_CSV], cells_of_csv(again))), answer))
    return files


# ---------------------------------------------------------------- the verbs

def read_csv(folder, name):
    data = read_file(folder, name, LARGEST_CSV + 1)
    if data is not None and len(data) > LARGEST_CSV:
        raise Refused("%s can't be read: it has over %d bytes" % (name, LARGEST_CSV))
    return data


def about_exercise(name, cells, nets):
    return "%s: %s, %s" % (name, counted(cells, "cell"), counted(nets, "net"))


def about_answer(name, places, apprentice):
    return "%s: %s, apprentice %d" % (name, counted(places, "place"), apprentice)


def about_settings(name, version, board, entries):
    return "%s: %s, version %d, board %d" % (name, counted(len(entries), "entry", "entries"), version, board)


def write(library, folder):
    """The CSV files to sheets. Gives lines that tell what was written."""
    exercise_data, answer_data, settings_data = (read_csv(folder, name) for name in TABLES)
    if exercise_data is None and answer_data is None and settings_data is None:
        raise Refused("there is neither %s in the folder" % " nor ".join(TABLES))
    exercise, answer, settings, sheet, files, lines = None, None, None, None, {}, []
    if exercise_data is not None:
        exercise = read_exercise(exercise_data)
        sheet = files[EXERCISE_LXE] = exercise_sheet(library, exercise)
        lines.append(about_exercise(EXERCISE_LXE, len(exercise.cells()), len(exercise.nets)))
    if answer_data is not None:
        if exercise is None:
            sheet = exercise_beside(library, folder)
        answer = read_answer(answer_data, cells_of_csv(exercise) if exercise else cells_of_sheet(library, sheet))
        files[ANSWER_LXA] = answer_sheet(library, answer)
        lines.append(about_answer(ANSWER_LXA, len(answer.places()), answer.apprentice))
    elif exercise and os.path.lexists(os.path.join(folder, ANSWER_LXA)):
        lines.append("%s: left as it is, there is no %s" % (ANSWER_LXA, ANSWER_CSV))
    if settings_data is not None:
        settings = read_settings(settings_data)
        files[SETTINGS_LXT] = settings_sheet(library, settings)
        lines.append(about_settings(SETTINGS_LXT, settings.version, settings.board, settings.entries()))
    put_in_place(folder, files, lambda read: check_sheets(library, exercise, answer, settings, {EXERCISE_LXE: sheet, **read}), replace=True)
    return lines


def exercise_beside(library, folder):
    """The exercise sheet in the folder, for an answer.csv without an exercise.csv."""
    sheet = read_file(folder, EXERCISE_LXE, LARGEST_SHEET)
    if sheet is None:
        raise Refused("there is neither %s nor %s in the folder, so %s has no cells to place" % (EXERCISE_CSV, EXERCISE_LXE, ANSWER_CSV))
    need_good(library, sheet, None)
    return sheet


def check_sheets(library, exercise, answer, settings, sheets):
    """Refuses sheets that do not read back, by the proved readers and the judge, as what the CSV files say."""
    sheet = sheets[EXERCISE_LXE]
    if exercise:
        need_good(library, sheet, None)
        same((library.records(sheet), exercise.records()), (net_count(sheet), len(exercise.nets)))
    if answer:
        need_good(library, sheet, sheets[ANSWER_LXA])
        same((library.places(sheets[ANSWER_LXA]), answer.places()), (library.judge(sheet, sheets[ANSWER_LXA]).apprentice, answer.apprentice))
    if settings:
        same((read_good_settings(library, sheets[SETTINGS_LXT]), (settings.version, settings.board, settings.entries())))


def csv(library, folder):
    """The sheets to CSV files. Gives lines that tell what was written."""
    exercise, answer, settings = (read_file(folder, name, LARGEST_SHEET) for name in SHEETS)
    if exercise is None and answer is None and settings is None:
        raise Refused("there is neither %s nor %s in the folder" % (EXERCISE_LXE, SETTINGS_LXT))
    if exercise is None and answer is not None:
        raise Refused("there is no %s in the folder" % EXERCISE_LXE)
    files, lines = {}, []
    if exercise is not None:
        files.update(sheets_to_csv(library, exercise, answer))
        cells = len(library.records(exercise))
        lines.append(about_exercise(EXERCISE_CSV, cells, net_count(exercise)))
    if answer is not None:
        lines.append(about_answer(ANSWER_CSV, cells, library.judge(exercise, answer).apprentice))
    if settings is not None:
        files.update(settings_to_csv(library, settings))
        lines.append(about_settings(SETTINGS_CSV, *read_good_settings(library, settings)))
    there = [name for name in files if os.path.lexists(os.path.join(folder, name))]
    for name in there:
        if read_file(folder, name, len(files[name]) + 1) != files[name]:
            raise Refused("%s is there already, with other contents, and is not replaced" % name)
    new = {name: data for name, data in files.items() if name not in there}
    put_in_place(folder, new, lambda read: same((read, new)), replace=False)
    return [line + "; it was there already" if name in there else line for name, line in zip(files, lines)]


VERBS = {"write": write, "csv": csv}


def main(words):
    if len(words) != 3 or words[0] not in VERBS:
        return shared.refuse(["csv_sheets.py takes write or csv, the library and the folder"])
    verb, path, folder = words
    return shared.run("csv_sheets.py", lambda: VERBS[verb](Library(path), folder))


if __name__ == "__main__":
    sys.exit(main(sys.argv[1:]))
