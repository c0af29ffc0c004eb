"""Compares docs/AUTHORS.md with the samples and with what the script says."""

import csv
import io
import os
import re

import csv_sheets


def tables(text):
    """The tables of a page: the rows of each, without the line below the headings."""
    for block in re.findall(r"(?:^\|.*\|\n)+", text, re.M):
        rows = [[cell.strip() for cell in line.strip("|").split("|")] for line in block.splitlines()]
        yield [rows[0]] + rows[2:]


def stored(place, sample, name):
    with open(os.path.join(place.top, "samples", sample, name), "rb") as file:
        return file.read()


def rows(data):
    return list(csv.reader(io.StringIO(data.decode(), newline="")))


def shown(text):
    """The indented lines of a page, a block each."""
    return ["".join(line[4:] + "\n" for line in block.splitlines()) for block in re.findall(r"(?:^    .*\n)+", text, re.M)]


def trimmed(table):
    """The rows of a table without the empty fields at their ends."""
    return [",".join(row).rstrip(",").split(",") for row in table]


def example(place, text):
    """The two tables, what write and judge print, and the line that shows a mistake."""
    exercise, answer = list(tables(text))[:2]
    files = {name: stored(place, "write-listing", name) for name in ("exercise.csv", "answer.csv", "listing.txt")}
    assert exercise == rows(files["exercise.csv"]), exercise
    assert trimmed(answer) == rows(files["answer.csv"]), answer
    place.fill(files)
    lines = csv_sheets.write(place.library, place.folder)
    assert "".join(line + "\n" for line in lines) in shown(text), lines
    for name in ("exercise.lxe", "answer.lxa"):
        assert place.found()[name] == stored(place, "listing", name), name
    assert files["listing.txt"].decode() in shown(text)
    mistake = next(block for block in shown(text) if block.startswith("nurimkkot: exercise.csv, line"))
    place.fill({"exercise.csv": files["exercise.csv"].replace(b"logic,combinational,now,next,,,,", b"logic,combinational,now,next,,clock,,")})
    assert "".join("nurimkkot: %s\n" % line for line in place.refusal(csv_sheets.write)) == mistake, mistake


def example_board(place, text):
    """The table of a board, what write prints, and what judge prints with the board and without."""
    table = next(table for table in tables(text) if table[0][0] == "version")
    sample = {name: stored(place, "write-settings", name) for name in csv_sheets.TABLES + csv_sheets.SHEETS + ("listing.txt",)}
    assert trimmed(table) == trimmed(rows(sample["settings.csv"])), table
    place.fill({name: sample[name] for name in csv_sheets.TABLES})
    lines = csv_sheets.write(place.library, place.folder)
    assert "".join(line + "\n" for line in lines) in shown(text), lines
    assert all(place.found()[name] == sample[name] for name in csv_sheets.SHEETS), place.found()
    assert sample["listing.txt"].decode() in shown(text)
    number, _, _, apprentice = place.library.judge(sample["exercise.lxe"], sample["answer.lxa"])
    assert "verdict %d cell - lab 34 apprentice %d\n" % (number, apprentice) in shown(text), number


def words_of_settings(text):
    """The section on settings.csv has every heading, and every way to say that an entry serves a role or does not."""
    section = re.search(r"^## settings\.csv\n(.*?)^## ", text, re.M | re.S)[1]
    found = set(re.findall(r"`([a-z0-9]+)`", section))
    assert found >= set(csv_sheets.SETTINGS_HEADINGS) | set(csv_sheets.SERVES) - {""}, found


def headings(text):
    """The table of headings has all of them, and the ports in the order in which nets are numbered."""
    table = next(table for table in tables(text) if table[0][0] == "heading")
    found = [name for row in table[1:] for name in re.findall(r"`(\w+)`", row[0])]
    assert sorted(found) == sorted(csv_sheets.EXERCISE_HEADINGS) and found[-15:] == list(csv_sheets.ALL_PORTS), found


def lines_said(place, text):
    """Every line on the page was said in some test, and every line that was said is on the page."""
    page = [re.match(r"`(.*)`$", row[0])[1] for table in tables(text) if table[0][0] == "it says" for row in table[1:]]
    assert len(page) == len(set(page)) > 30, page
    forms = {line: re.compile(".*".join(map(re.escape, line.split("..")))) for line in page}
    said = {re.sub(r"^(exercise|answer|settings)\.csv(, line \d+(, column \d+( \(.*?\))?)?)?: ", "", line) for line in place.said}
    for line, form in forms.items():
        assert any(form.fullmatch(words) for words in said), "no test says: " + line
    for words in said:
        assert any(form.fullmatch(words) for form in forms.values()), "docs/AUTHORS.md does not say: " + words


def compare(place):
    with open(os.path.join(place.top, "docs", "AUTHORS.md")) as file:
        text = file.read()
    example(place, text)
    example_board(place, text)
    headings(text)
    words_of_settings(text)
    lines_said(place, text)
    for target in re.findall(r"\]\(([^)#]+)", text):
        assert os.path.exists(os.path.join(place.top, "docs", target)), target
