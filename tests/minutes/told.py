"""The words for the numbers against docs/VERDICTS.md and c/nurimkkot.h, the lines that refuse against docs/MINUTES.md, and the help."""

import re

import tablet_log


def words(place):
    """Every number that a log can get has words, and no other has."""
    page = place.stored("docs", "VERDICTS.md").decode()
    numbers = {int(number) for number in re.findall(r"^\| (8\d) \|", page, re.M)}
    # 87 is of lists of other lengths, which the script does not lend.
    assert set(tablet_log.MEANING) == numbers - {87} == set(range(80, 87)), numbers
    for number, meaning in tablet_log.MEANING.items():
        assert re.fullmatch(r"[a-z][A-Za-z0-9 ]*[A-Za-z0-9]", meaning) and len(meaning) <= 80, (number, meaning)
    place.has_limits(CREDIT_ROWS=tablet_log.MOST_APPRENTICES, LOG_ENTRIES=tablet_log.MOST_ENTRIES)
    return len(tablet_log.MEANING)


def lines(place):
    """The lines that refuse are those of the page."""
    place.says("MINUTES.md", "tablet_log.py takes|the library can't be used|tablet.lxl is refused with (87|99)")


def help_text(place):
    """The command's help has every number, the limits, and what is read and written."""
    place.helps("minutes", ["FOLDER/tablet.lxl", "docs/MINUTES.md", "--csv", "missing counts as empty", "can't be read is an error", "whatever the login",
                            "distinct minutes", "the closing minute is not covered", "Nothing is written into the folder", "Exit status: 0 when", "2 when",
                            "%d apprentices" % tablet_log.MOST_APPRENTICES, "%d entries" % tablet_log.MOST_ENTRIES] + [" %d " % n for n in tablet_log.MEANING])
