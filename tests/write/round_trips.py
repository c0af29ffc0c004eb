"""Both round trips: over the samples, and over random tables and sheets."""

import csv
import glob
import io
import os
import random

import csv_sheets
from setting import HEADINGS, OUTPUTS, PORTS, ROLES, answer, exercise, exercise_of, settings

NAMES = ("exercise.lxe", "answer.lxa", "settings.lxt")


# ---------------------------------------------------------------- the samples

def there_and_back(place, sheets):
    """csv, then write from nothing but the CSV files: the very sheets come back."""
    place.fill(sheets)
    said = place.refusal(csv_sheets.csv)
    assert said is None, said
    place.fill({name: data for name, data in place.found().items() if name.endswith(".csv")})
    said = place.refusal(csv_sheets.write)
    assert said is None, said
    assert {name: place.found().get(name) for name in sheets} == sheets


def over_samples(place):
    """Every sheet that passes 10 to 16, or 20 to 26 beside its exercise, or 70 to 75, goes there and back; the others are refused. How many went."""
    went, refused = 0, 0
    for path in sorted(glob.glob(os.path.join(place.top, "boards", "*.lxt")) + glob.glob(os.path.join(place.top, "samples", "*", "settings.lxt"))):
        with open(path, "rb") as file:
            sheet = file.read()
        went, refused = tell(place, {"settings.lxt": sheet}, place.library.settings(sheet)[0], went, refused)
    assert went >= 3, went
    for path in sorted(glob.glob(os.path.join(place.top, "samples", "*", "exercise.lxe"))):
        with open(path, "rb") as file:
            sheet = file.read()
        number = place.library.judge(sheet, b"")[0]
        went, refused = tell(place, {"exercise.lxe": sheet}, number if number != 20 else 0, went, refused)
        for other in sorted(glob.glob(os.path.join(os.path.dirname(path), "answer*.lxa"))):
            with open(other, "rb") as file:
                answers = file.read()
            went, refused = tell(place, {"exercise.lxe": sheet, "answer.lxa": answers}, place.library.judge(sheet, answers)[0], went, refused)
    assert went >= 150 and refused >= 30, (went, refused)
    return went + from_csv(place)


def tell(place, sheets, number, went, refused):
    """Some sheets with the judge's number."""
    if 10 <= number <= 26 or 70 <= number <= 75:
        place.fill(sheets)
        said = place.refusal(csv_sheets.csv)
        assert len(said) == 1 and " is refused with %d: " % number in said[0] and place.found() == sheets, (number, said)
        return went, refused + 1
    there_and_back(place, sheets)
    return went + 1, refused


def from_csv(place):
    """The samples that have CSV files: their sheets are made from them."""
    folders = sorted(glob.glob(os.path.join(place.top, "samples", "*", "exercise.csv")))
    for path in folders:
        files = {}
        for name in os.listdir(os.path.dirname(path)):
            with open(os.path.join(os.path.dirname(path), name), "rb") as file:
                files[name] = file.read()
        place.fill({name: data for name, data in files.items() if name.endswith(".csv")})
        assert place.refusal(csv_sheets.write) is None, path
        assert all(place.found().get(name) == files.get(name) for name in NAMES), path
    assert len(folders) >= 3, folders
    return len(folders)


# ---------------------------------------------------------------- random tables

LETTERS = "abcxyzABC0123456789_[]().-+=#*'\\:!? \t\n\r,;\"/éß中🙂"


def random_name(rng):
    """A name that may be a net's: it has no blanks around it, does not begin with / and is no constant."""
    while True:
        name = "".join(rng.choice(LETTERS) for _ in range(rng.choice((1, 2, 3, 8)))).strip()
        if name and not name.startswith("/") and name.upper() not in ("GND", "VCC"):
            return name


def random_names(rng, count):
    names = set()
    while len(names) < count:
        names.add(random_name(rng))
    return rng.sample(sorted(names), count)


def random_size(rng, most):
    return rng.choice((0, 1, 2, 3, 5, 8, 12)) if rng.random() < 0.99 else rng.randrange(most + 1)


def random_table(rng):
    """Rows that keep the layout, each net driven at most once."""
    nets = random_names(rng, rng.choice((1, 2, 5, 10, 20)))
    free, rows = rng.sample(nets, len(nets)), []
    for number in range(random_size(rng, 300)):
        kind, signals = rng.choice(("combinational", "register")), {}
        for port in PORTS[kind]:
            if port in OUTPUTS:
                if free and rng.random() < 0.6:
                    signals[port] = (free.pop(), False)
            elif rng.random() < 0.5:
                signals[port] = rng.choice(("GND", "VCC", (rng.choice(nets), False), (rng.choice(nets), True)))
        rows.append({"kind": kind, "cin": kind == "combinational" and rng.random() < 0.3, "signals": signals, "name": ""})
    for name in rng.sample(nets, rng.choice((0, 0, 0, 1, len(nets)))):
        rows.insert(rng.randrange(len(rows) + 1), {"kind": "net", "name": name})
    return rows


def name_cells(rng, rows):
    """Gives some cells a name, no two the same one. One of digits is the cell's own number, or no cell's."""
    cells = [row for row in rows if row["kind"] != "net"]
    for number, (row, name) in enumerate(zip(cells, random_names(rng, len(cells)))):
        if not name.isdigit() and rng.random() < 0.7:
            row["name"] = name
        elif rng.random() < 0.2:
            row["name"] = rng.choice((str(number), str(1000 + number)))
    return cells


def spoil(rng, rows):
    """Puts something at an output, or a flag at a register, that the writer may refuse."""
    cells = [row for row in rows if row["kind"] != "net"]
    if not cells or rng.random() < 0.8:
        return
    nets = [signal[0] for row in cells for signal in row["signals"].values() if isinstance(signal, tuple)] or ["a"]
    for row in rng.sample(cells, min(len(cells), rng.choice((1, 2)))):
        if row["kind"] == "register" and rng.random() < 0.2:
            row["cin"] = True
            continue
        port = rng.choice([port for port in PORTS[row["kind"]] if port in OUTPUTS])
        row["signals"][port] = rng.choice(("GND", "VCC", (rng.choice(nets), True), (rng.choice(nets), False), (rng.choice(nets), False)))


def fault(rows):
    """The number, row and heading of what is wrong by docs/SHEETS.md and docs/VERDICTS.md: 15 of all cells, then 16."""
    driven = set()
    for at, row in enumerate(rows):
        if row["kind"] == "register" and row["cin"]:
            return 15, at, "sum_lutc_input"
        for port in PORTS.get(row["kind"], ()):
            signal = row["signals"].get(port)
            if port in OUTPUTS and signal and (signal in ("GND", "VCC") or signal[1]):
                return 15, at, port
    for at, row in enumerate(rows):
        for port in PORTS.get(row["kind"], ()):
            if port in OUTPUTS and port in row["signals"]:
                if row["signals"][port] in driven:
                    return 16, at, port
                driven.add(row["signals"][port])
    return None


class Export:
    """Some spreadsheet: how it parts fields and rows, when it quotes, and what it leaves empty."""

    def __init__(self, rng):
        self.rng, self.separator, self.newline = rng, rng.choice(",;\t"), rng.choice(("\n", "\r\n", "\r"))
        self.quotes = rng.choice((0.0, 0.5, 1.0))
        self.mark = rng.choice((b"", b"\xef\xbb\xbf"))
        self.loose = rng.random() < 0.3     # blanks and empty rows here and there
        self.tail = rng.choice((0, 0, 2))   # empty columns and rows at the end

    def case(self, text):
        return "".join(self.rng.choice((c.upper(), c.lower())) for c in text) if self.rng.random() < 0.3 else text

    def field(self, text):
        """A field, and how many lines it begins and ends apart."""
        inside = text.replace("\r\n", "\n").replace("\r", "\n").count("\n")
        if self.loose:
            text = self.rng.choice(("", " ", "\u00a0")) + text + self.rng.choice(("", "  "))
        if self.rng.random() < self.quotes or any(c in text for c in self.separator + '\r\n"'):
            text = '"%s"' % text.replace('"', '""')
            if self.loose:
                text = self.rng.choice(("", " ")) + text + self.rng.choice(("", " "))
        return text, inside

    def file(self, rows):
        """The bytes of a file, and the line where each field begins, row by row."""
        lines, text, line = [], [], 1
        for row in rows:
            while self.loose and self.rng.random() < 0.1:
                text.append(self.separator * self.rng.randrange(4) + self.newline)
                line += 1
            fields, begins = [], []
            for shown, inside in map(self.field, row):
                fields.append(shown)
                begins.append(line)
                line += inside
            lines.append(begins)
            text.append(self.separator.join(fields + [""] * self.tail) + self.newline)
            line += 1
        text += [self.separator * 3 + self.newline] * self.tail
        if self.rng.random() < 0.2 and text:
            text[-1] = text[-1][:-len(self.newline)]
        return self.mark + "".join(text).encode(), lines


def signal_field(rng, export, signal):
    if signal is None:
        return ""
    if isinstance(signal, tuple):
        return ("/" + rng.choice(("", "", " ")) if signal[1] else "") + signal[0]
    return export.case(signal) if rng.random() < 0.9 else "/" + {"GND": "VCC", "VCC": "GND"}[signal]


def exercise_file(rng, export, rows):
    """exercise.csv of a table, its columns in any order, and where the field of a row and heading stands."""
    fields = []
    for row in rows:
        texts = {"name": row["name"], "kind": export.case(row["kind"])}
        if row["kind"] != "net":
            texts["kind"] = rng.choice((texts["kind"], str(1 + (row["kind"] == "register"))))
            texts["sum_lutc_input"] = export.case("cin") if row["cin"] else rng.choice(("", "", export.case("datac")))
            texts.update((port, signal_field(rng, export, row["signals"].get(port))) for port in PORTS[row["kind"]])
        fields.append(texts)
    headings = [heading for heading in HEADINGS if heading == "kind" or any(texts.get(heading) for texts in fields) or rng.random() < 0.3]
    rng.shuffle(headings)
    table = [[export.case(heading) for heading in headings]] + [[texts.get(heading, "") for heading in headings] for texts in fields]
    data, lines = export.file(table)
    return data, lambda at, heading: (lines[at + 1][headings.index(heading)], headings.index(heading) + 1)


def answer_file(rng, export, apprentice, cells, places):
    """answer.csv, its rows and columns in any order, cells by name or number."""
    headings = rng.sample(["cell", "x", "y", "le"], 4)
    rows = []
    for number, (row, place) in enumerate(zip(cells, places)):
        texts = dict(zip(("x", "y", "le"), (rng.choice(("%d", "%03d")) % n for n in place)))
        texts["cell"] = row["name"] if row["name"] and rng.random() < 0.7 else str(number)
        rows.append([texts[heading] for heading in headings])
    rng.shuffle(rows)
    return export.file([[export.case("apprentice"), str(apprentice)], [export.case(heading) for heading in headings]] + rows)[0]


def random_place(rng):
    return rng.randrange(32), rng.randrange(32), rng.randrange(16)


# ---------------------------------------------------------------- tables to sheets to tables

def same_table(rows, data):
    """exercise.csv, read by Python's own reader, is the table but for the names of nets and cells."""
    found = list(csv.DictReader(io.StringIO(data.decode(), newline="")))
    declared = [row["name"] for row in found if row["kind"] == "net"]
    assert declared == ["n%d" % n for n in range(len(declared))] and [row["kind"] for row in found[:len(declared)]] == ["net"] * len(declared)
    found, cells = found[len(declared):], [row for row in rows if row["kind"] != "net"]
    assert len(found) == len(cells)
    there, back = {}, {}
    for number, (mine, its) in enumerate(zip(cells, found)):
        assert (its["name"], its["kind"], its["sum_lutc_input"]) == ("c%d" % number, mine["kind"], "cin" if mine["cin"] else "")
        for port in HEADINGS[3:]:
            signal = mine["signals"].get(port)
            if not isinstance(signal, tuple):
                assert its[port] == (signal or ""), (port, signal, its)
                continue
            assert its[port].startswith("/") == signal[1]
            name = its[port].lstrip("/")
            assert there.setdefault(signal[0], name) == name and back.setdefault(name, signal[0]) == signal[0], (signal, name)
    named = {row["name"] for row in rows if row["kind"] == "net"} | set(there)
    assert len(named) == len(set(declared) | set(back))


def try_table(place, rng):
    """A table to sheets, which are those of docs/SHEETS.md, and back."""
    rows, export = random_table(rng), Export(rng)
    spoil(rng, rows)
    cells = name_cells(rng, rows)
    data, where = exercise_file(rng, export, rows)
    wrong = fault(rows)
    try:
        table = csv_sheets.read_exercise(data)
        sheet = csv_sheets.exercise_sheet(place.library, table)
    except csv_sheets.Refused as why:
        assert wrong, (data, why.lines)
        place_words = "exercise.csv, line %d, column %d (%s): refused with %d: " % (*where(wrong[1], wrong[2]), wrong[2], wrong[0])
        assert len(why.lines) == 1 and why.lines[0].startswith(place_words), (data, why.lines, place_words)
        return True
    assert not wrong and sheet == exercise_of(rows), (data, wrong)
    apprentice, places = rng.choice((1, 7, rng.randrange(1, 1 << 32), (1 << 32) - 1)), [random_place(rng) for _ in cells]
    data = answer_file(rng, Export(rng), apprentice, cells, places)
    answers = csv_sheets.answer_sheet(place.library, csv_sheets.read_answer(data, csv_sheets.cells_of_csv(table)))
    assert answers == answer(apprentice, *places), data
    files = csv_sheets.sheets_to_csv(place.library, sheet, answers)
    same_table(rows, files["exercise.csv"])
    expected = "apprentice,%d\ncell,x,y,le\n" % apprentice + "".join("c%d,%d,%d,%d\n" % (n, *at) for n, at in enumerate(places))
    assert files["answer.csv"] == expected.encode(), files["answer.csv"]
    return False


# ---------------------------------------------------------------- sheets to tables to sheets

def random_sheet(rng):
    """A sheet that keeps the layout; its nets in any order, some used by nothing."""
    nets = random_size(rng, 1024)
    free, cells = rng.sample(range(nets), nets), []
    used = sorted(rng.sample(range(nets), rng.randrange(nets + 1)))
    if rng.random() < 0.5:
        free.sort(reverse=True)
    for _ in range(random_size(rng, 512)):
        kind, codes = rng.choice(("combinational", "register")), []
        for port in PORTS[kind]:
            if port in OUTPUTS:
                codes.append(4 + 2 * free.pop() if free and rng.random() < 0.5 else 0)
            else:
                codes.append(rng.choice([0, 0, 1, 2] + [4 + 2 * rng.choice(used) + rng.randrange(2) for _ in range(4) if used]))
        cells.append((1 if kind == "combinational" else 2, rng.randrange(2) if kind == "combinational" else 0, codes + [0] * (11 - len(codes))))
    return nets, cells


def fewest_declared(nets, cells):
    """The fewest nets that have to be declared first, by trying."""
    def named(code):
        return {0: None, 1: "GND", 2: "VCC"}[code] if code < 4 else ("n%d" % ((code - 4) // 2), code % 2 == 1)
    rows = []
    for kind, flag, codes in cells:
        word = "combinational" if kind == 1 else "register"
        signals = {port: named(code) for port, code in zip(PORTS[word], codes) if code}
        rows.append({"kind": word, "cin": flag == 1, "signals": signals})
    sheet = exercise(nets, *cells)
    for count in range(nets + 1):
        if exercise_of([{"kind": "net", "name": "n%d" % n} for n in range(count)] + rows) == sheet:
            return count
    raise AssertionError((nets, cells))


def try_sheet(place, rng):
    """Sheets to CSV and back, byte for byte; with some bytes changed, refused by the judge's number or there and back."""
    nets, cells = random_sheet(rng)
    sheet = exercise(nets, *cells)
    answers = answer(rng.randrange(1, 1 << 32), *[random_place(rng) for _ in cells])
    changed = rng.random() < 0.3
    if changed:
        data = bytearray(sheet + answers)
        for _ in range(rng.choice((1, 1, 2, 5))):
            data[rng.randrange(len(data))] = rng.choice((0, 1, 2, 3, 4, 255, rng.randrange(256)))
        cut = rng.choice((0, 0, 0, 1, len(answers)))
        sheet, answers = bytes(data[:len(sheet)]), bytes(data[len(sheet):len(data) - cut])
    number = place.library.judge(sheet, answers)[0]
    try:
        files = csv_sheets.sheets_to_csv(place.library, sheet, answers)
    except csv_sheets.Refused as why:
        assert changed and 10 <= number <= 26 and " is refused with %d: " % number in why.lines[0], (number, why.lines)
        return True
    assert not 10 <= number <= 26, number
    table = csv_sheets.read_exercise(files["exercise.csv"])
    assert csv_sheets.exercise_sheet(place.library, table) == sheet
    assert csv_sheets.answer_sheet(place.library, csv_sheets.read_answer(files["answer.csv"], csv_sheets.cells_of_csv(table))) == answers
    if not changed and nets <= 12:
        assert files["exercise.csv"].count(b",net,") == fewest_declared(nets, cells), files["exercise.csv"]
    return False


# ---------------------------------------------------------------- boards

def random_board(rng):
    """A version, a board and entries: mostly of a settings sheet, and sometimes what the writer refuses."""
    version = rng.choice((1, 1, 2, 2, 2, 2, 2, 2, 0, 3)) if rng.random() < 0.3 else rng.choice((1, 2))
    board = rng.choice((0, 0, 1, 2, 255, 256, 65535, rng.randrange(65536))) if version != 1 or rng.random() < 0.1 else 0
    return version, board, [rng.randrange(32) for _ in range(rng.randrange(9) if rng.random() < 0.95 else rng.choice((9, 10, 40)))]


def board_fault(version, board, entries):
    """The number, row and heading of what is wrong by docs/VERDICTS.md: 72, then 73. The rows are version, board, headings, entries."""
    if version not in (1, 2):
        return 72, 0, None
    if version == 1 and board:
        return 72, 1, None
    return (73, 3 + 8, "entry") if len(entries) > 8 else None


def settings_file(rng, export, version, board, entries):
    """settings.csv, its rows and columns in any order, and the line and column of a row's number."""
    headings = rng.sample(["entry"] + list(ROLES), 6)
    yes, no = ("x", "x", "x", "1", "yes", "true"), ("", "", "", "0", "no", "false")
    numbers = rng.sample(range(len(entries)), len(entries))
    rows = [[export.case("version"), rng.choice(("%d", "%03d")) % version], [export.case("board"), str(board)],
            [export.case(name) for name in headings]]
    for number in numbers:
        texts = {role: export.case(rng.choice(yes if entries[number] & flag else no)) for role, flag in ROLES.items()}
        texts["entry"] = rng.choice(("%d", "%02d")) % number
        rows.append([texts[heading] for heading in headings])
    data, lines = export.file(rows)
    column = headings.index("entry")
    return data, lambda at: (lines[at][1], 2) if at < 2 else (lines[3 + numbers.index(at - 3)][column], column + 1)


def try_board(place, rng):
    """A board's table to its sheet, which is that of docs/SHEETS.md, and back."""
    version, board, entries = random_board(rng)
    data, where = settings_file(rng, Export(rng), version, board, entries)
    wrong = board_fault(version, board, entries)
    try:
        sheet = csv_sheets.settings_sheet(place.library, csv_sheets.read_settings(data))
    except csv_sheets.Refused as why:
        assert wrong, (data, why.lines)
        number, row, heading = wrong
        words = "settings.csv, line %d, column %d%s: refused with %d: " % (*where(row), " (%s)" % heading if heading else "", number)
        assert len(why.lines) == 1 and why.lines[0].startswith(words), (data, why.lines, words)
        return True
    assert not wrong and sheet == settings(version, board, *entries), (data, wrong, sheet)
    rows = ["version,%d" % version, "board,%d" % board, "entry," + ",".join(ROLES)]
    rows += [",".join([str(n)] + ["x" if flags & flag else "" for flag in ROLES.values()]) for n, flags in enumerate(entries)]
    files = csv_sheets.settings_to_csv(place.library, sheet)
    assert files == {"settings.csv": "".join(row + "\n" for row in rows).encode()}, files
    return False


def try_settings(place, rng):
    """A settings sheet to CSV and back, byte for byte; with some bytes changed, refused by the reader's number or there and back."""
    version = rng.choice((1, 2))
    sheet = bytearray(settings(version, rng.randrange(65536), *[rng.randrange(32) for _ in range(rng.randrange(9))]))
    changed = rng.random() < 0.3
    if changed:
        for _ in range(rng.choice((1, 1, 2))):
            sheet[rng.randrange(len(sheet))] = rng.choice((0, 1, 2, 3, 8, 9, 31, 32, 255, rng.randrange(256)))
        sheet = sheet[:len(sheet) - rng.choice((0, 0, 0, 1, 7))] + b"\0" * rng.choice((0, 0, 0, 1))
    number = place.library.settings(bytes(sheet))[0]
    try:
        files = csv_sheets.settings_to_csv(place.library, bytes(sheet))
    except csv_sheets.Refused as why:
        assert changed and 70 <= number <= 75 and why.lines[0].startswith("settings.lxt is refused with %d: " % number), (sheet, why.lines)
        return True
    assert number == 0, number
    assert csv_sheets.settings_sheet(place.library, csv_sheets.read_settings(files["settings.csv"])) == sheet
    return False


def at_random(place, count, seed):
    """So many tables of exercises and of boards, and as many of their sheets. A good part is taken, and some are refused. How many there were."""
    rng = random.Random(seed)
    refused = [sum(attempt(place, rng) for _ in range(count)) for attempt in (try_table, try_sheet, try_board, try_settings)]
    assert count < 500 or all(count // 50 < some < count // 2 for some in refused), refused
    return 2 * count, 2 * count
