"""Marking: each row is what the judge says of that answer alone, and what can't be marked is refused."""

import glob
import os
import re

import class_sheets
import sheets
import shared
from trying import ANSWER, EXERCISE, by, row

LISTING = re.compile(r"verdict (\d+) cell (\d+|-) lab (\d+|-) apprentice (\d+)")
REFUSED = "class.lxc is refused with 76: "


def the_class(place):
    """The sample class gives the lines that are stored beside it, and they say what the single listings say."""
    sample = lambda name: place.stored("samples", "class", name)
    place.fill({name: sample(name) for name in ("exercise.lxe", "class.lxc")})
    assert place.run("mark") == (0, sample("class.txt"), [])
    assert place.run("mark", "--csv") == (0, sample("class.csv"), [])
    text, table = (sample(name).decode().splitlines() for name in ("class.txt", "class.csv"))
    listings = sorted(name for name in os.listdir(os.path.join(place.top, "samples", "class")) if name.endswith(".listing.txt"))
    assert len(listings) == len(text) - 1 == len(table) - 1 == 18 and text[0].split() == table[0].split(","), listings
    for at, name in enumerate(listings):
        number, cell, lab, apprentice = LISTING.fullmatch(sample(name).decode().splitlines()[0]).groups()
        words = shared.MEANING[int(number)]
        assert text[at + 1].split(None, 5) == [str(at), apprentice, number, cell, lab, words], (name, text[at + 1])
        assert table[at + 1] == ",".join([str(at), apprentice, number, cell.strip("-"), lab.strip("-"), words]), (name, table[at + 1])
    # The largest numbers move no column.
    heading, *lines = class_sheets.table([shared.Verdict(65, 511, 1023, 2 ** 32 - 1)] * 32)
    ends = lambda line: [match.end() for match in re.finditer(r"\S+", line)][:5]
    starts = {line.index("the control") for line in lines} | {heading.index("meaning")}
    assert {tuple(ends(line)) for line in lines} == {tuple(ends(heading))} and len(starts) == 1, lines
    return 3 + len(listings)


def alone(place, settings, exercise, answers):
    """Marks answers as a class, and holds every row against what the judge says of the answer alone."""
    number, verdicts = place.library.mark_class(settings, exercise, sheets.class_sheet(*answers))
    single = [place.library.verdict(settings, exercise, answer) for answer in answers]
    assert number == 0 and verdicts == single, (verdicts, single)
    return verdicts


def boards(place):
    """The class on its own board and on all other settings sheets that there are, good and bad."""
    exercise = place.stored("samples", "class", "exercise.lxe")
    answers = [sheet for _, sheet, _ in sheets.class_answers()]
    found = glob.glob(os.path.join(place.top, "boards", "*.lxt")) + glob.glob(os.path.join(place.top, "samples", "*", "settings.lxt"))
    numbers = {alone(place, place.stored(path), exercise, answers)[14].number for path in found}
    assert len(found) > 20 and numbers >= {0, 65, *range(70, 76)}, (len(found), numbers)
    # The script takes the sheet on its standard input, and document 01's where it is not told to.
    place.fill({"exercise.lxe": exercise, "class.lxc": sheets.class_sheet(*answers), "settings.lxt": sheets.SECOND})
    for name, settings in (("house", sheets.HOUSE), ("second", sheets.SECOND), ("none", b""), ("long", sheets.SECOND + bytes(99999))):
        want = [row(at, verdict) for at, verdict in enumerate(alone(place, settings, exercise, answers))]
        assert place.rows("--settings", input=settings) == want, name
        assert (place.rows(input=settings) == want) == (name == "house"), name
    said = place.refused("mark", "--settings", preexec_fn=lambda: os.close(0))
    assert said == "the settings sheet can't be read: Bad file descriptor", said
    return len(found) + 9


def every_number(place):
    """Each sample as a class: its row has the numbers of expected.txt and the words. All numbers come up."""
    seen, keep = set(), class_sheets.read_settings
    for name, _, exercise, answer, expected, settings in sheets.all_samples():
        files = {"exercise.lxe": exercise, "class.lxc": sheets.class_sheet(answer or b"", ANSWER, answer or b"")}
        place.fill({name: data for name, data in files.items() if data is not None})
        class_sheets.read_settings = lambda: settings
        lines = class_sheets.mark(place.library, place.folder, ["--csv"] + ["--settings"] * (settings is not None))
        class_sheets.read_settings = keep
        verdict = shared.Verdict(expected.number, expected.cell, expected.lab, expected.apprentice)
        for at in (0, 2):
            assert lines[at + 1] == ",".join(row(at, verdict)), (name, lines)
        seen.add(expected.number)
    assert seen == set(shared.MEANING), seen ^ set(shared.MEANING)
    # A number without words has its row all the same.
    line = class_sheets.csv_table([shared.Verdict(99, 5, 65535, 7)])[1]
    assert line == "0,7,99,5,,see docs/VERDICTS.md", line
    return len(sheets.all_samples()) + 1


def sheets_taken(place):
    """Class sheets at the limits: no answer, 32, empty ones, and ones as long as a length can say."""
    cases = [[], [b""], [ANSWER] * 32, [b""] * 32, [bytes(65535)], [b"LXA"] * 31 + [ANSWER], [ANSWER, b"", ANSWER + b"\0", EXERCISE, by(2 ** 32 - 1)],
             [ANSWER + bytes(65535 - len(ANSWER))] * 32]
    for answers in cases:
        verdicts = alone(place, sheets.HOUSE, EXERCISE, answers)
        place.fill({"exercise.lxe": EXERCISE, "class.lxc": sheets.class_sheet(*answers)})
        assert place.rows() == [row(at, verdict) for at, verdict in enumerate(verdicts)], answers
    assert os.path.getsize(place.path("class.lxc")) == class_sheets.LARGEST_CLASS
    place.fill({"exercise.lxe": EXERCISE, "class.lxc": sheets.class_sheet()})
    assert place.run("mark") == (0, b"row  apprentice  verdict  cell   lab  meaning\n", [])
    assert place.run("mark", "--csv") == (0, b"row,apprentice,verdict,cell,lab,meaning\n", [])
    return len(cases) + 2


def bad_sheets():
    """Class sheets that are refused, in each way."""
    good = sheets.class_sheet(ANSWER, b"", by(8))
    second = 9 + len(ANSWER)
    yield from (good[:length] for length in range(len(good)))
    yield from (good + more for more in (b"\0", b"\0\0", good, bytes(100000)))
    yield from (sheets.patch(good, at, good[at] ^ flip) for at in range(3) for flip in (1, 32, 128))
    yield from (sheets.patch(good, 3, *version.to_bytes(2, "little")) for version in (0, 2, 255, 256, 257, 65535))
    yield from (sheets.patch(good, 5, *count.to_bytes(2, "little")) for count in (0, 1, 2, 4, 32, 33, 256, 259, 65535))
    yield from (sheets.patch(good, 7, length, high) for length in (0, len(ANSWER) - 1, len(ANSWER) + 1, 255) for high in (0, 1, 255))
    yield from (sheets.patch(good, second, length, 0) for length in (1, 2, 21))
    yield sheets.patch(sheets.class_sheet(*[ANSWER] * 32), 5, 33) + b"\x13\0" + ANSWER
    yield EXERCISE
    yield ANSWER


def sheets_refused(place):
    """Nothing but one line with 76, whatever the exercise and the board are."""
    cases = list(bad_sheets())
    for sheet in cases:
        place.fill({"exercise.lxe": EXERCISE, "class.lxc": sheet})
        said = place.refusal(class_sheets.mark, ["--csv"])
        assert said and said.startswith(REFUSED) and place.found()["class.lxc"] == sheet, (sheet, said)
    assert all("it has under 7 bytes, a wrong mark" in said for said in place.said if said.startswith(REFUSED)), place.said
    place.fill({"exercise.lxe": b"", "class.lxc": cases[-1]})
    for options in ([], ["--csv"], ["--settings"], ["--settings", "--csv"]):
        assert place.refused("mark", *options, input=b"").startswith(REFUSED)
    # Files that are larger than any legal class sheet.
    for length in (class_sheets.LARGEST_CLASS + 1, 2 ** 40):
        place.fill({"exercise.lxe": EXERCISE, "class.lxc": sheets.class_sheet(*[bytes(65535)] * 32)})
        os.truncate(place.path("class.lxc"), length)
        assert place.refused("mark").startswith(REFUSED)
    # 77 can't come from 32 rows; a library that says so is not believed to have filled any.
    keep = place.library.mark_class
    place.library.mark_class = lambda *sheets: (77, [])
    assert place.refusal(class_sheets.mark, []) == "class.lxc is refused with 77"
    place.library.mark_class = keep
    return len(cases) + 7


def files_missing(place):
    """A missing file counts as empty, and so does a link to nothing."""
    answers = [ANSWER, b"", by(8)]
    nothing = lambda name: os.symlink("nowhere", place.path(name))
    in_a_file = lambda name: os.symlink("other/nowhere", place.path(name))
    for put in (lambda name: None, nothing, in_a_file):
        place.fill({"class.lxc": sheets.class_sheet(*answers), "other": b""})
        put("exercise.lxe")
        assert place.rows() == [[str(at), "0", "10", "", "", "the exercise has under 9 bytes"] for at in range(3)]
        place.fill({"exercise.lxe": EXERCISE, "other": b""})
        put("class.lxc")
        assert place.refused("mark") == REFUSED + "it is not there and counts as empty; './nurimkkot class --pack' makes it"
    place.fill({})
    assert place.refused("mark", "--csv").startswith(REFUSED + "it is not there")
    place.fill({"a": EXERCISE, "b": sheets.class_sheet(*answers)})
    os.symlink("a", place.path("exercise.lxe"))
    os.symlink("b", place.path("class.lxc"))
    assert [fields[2] for fields in place.rows()] == ["0", "20", "0"]
    return 8


def files_unreadable(place):
    """A file that is there and can't be read ends the work."""
    good = {"exercise.lxe": EXERCISE, "class.lxc": sheets.class_sheet(ANSWER)}
    cases = [(lambda path: os.mkdir(path), "not a plain file"), (lambda path: os.mkfifo(path), "not a plain file"),
             (lambda path: os.symlink("/dev/zero", path), "not a plain file"), (lambda path: os.symlink("/dev/null", path), "not a plain file"),
             (lambda path: os.symlink(os.path.basename(path), path), "Too many levels of symbolic links")]
    for name in good:
        for put, words in cases:
            place.fill({other: data for other, data in good.items() if other != name})
            put(place.path(name))
            assert place.refused("mark") == "%s can't be read: %s" % (name, words), name
    return 2 * len(cases)


def exercises_refused(place):
    """An exercise that is refused shows in every row, though the answers differ."""
    answers = [ANSWER, b"", by(8), EXERCISE, ANSWER[:-1]]
    cases = [(10, EXERCISE[:8]), (11, ANSWER), (12, sheets.patch(EXERCISE, 3, 2)), (13, sheets.patch(EXERCISE, 6, 5)), (14, EXERCISE + b"\0"),
             (14, EXERCISE + bytes(100000)), (15, sheets.patch(EXERCISE, 9, 3)), (16, sheets.patch(EXERCISE, 45, *EXERCISE[25:27]))]
    for number, exercise in cases:
        place.fill({"exercise.lxe": exercise, "class.lxc": sheets.class_sheet(*answers)})
        rows = place.rows()
        assert [fields[2] for fields in rows] == [str(number)] * 5, (number, rows)
        assert rows == [row(at, place.library.verdict(sheets.HOUSE, exercise, answer)) for at, answer in enumerate(answers)], (number, rows)
    return len(cases)


def output(place):
    """Standard output that can't be written whole, libraries that can't be used, and wrong calls."""
    place.fill({"exercise.lxe": EXERCISE, "class.lxc": sheets.class_sheet(ANSWER)})
    for options in ([], ["--csv"]):
        with open("/dev/full", "wb") as full:
            assert place.run("mark", *options, stdout=full) == (2, None, ["nurimkkot: standard output was not written whole: No space left on device"])
    closed = place.run("mark", preexec_fn=lambda: os.close(1))
    assert closed[0] == 2 and closed[2] == ["nurimkkot: standard output was not written whole: Bad file descriptor"], closed
    assert place.run("mark", preexec_fn=lambda: os.close(2))[0] == 0
    for words in (["judge"], ["mark", "--CSV"], ["mark", "--csv", "more"], ["pack", "--csv"], ["pack", "more"], [""]):
        assert place.refused(*words).startswith("class_sheets.py takes mark or pack"), words
    right = place.shared_object
    for wrong in ("/nowhere/libnurimkkot.so", place.path("exercise.lxe")):
        place.shared_object = wrong
        assert place.refused("mark").startswith("the library can't be used: "), wrong
    place.shared_object = right
    return 4 + 6 + 2


def try_all(place):
    return sum(work(place) for work in (the_class, boards, every_number, sheets_taken, sheets_refused, files_missing, files_unreadable,
                                        exercises_refused, output))
