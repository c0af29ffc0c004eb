"""The words for the numbers against docs/VERDICTS.md and c/nurimkkot.h, and the lines that refuse against docs/CLASS.md."""

import re

import class_sheets
import shared

# Numbers of docs/VERDICTS.md that no row can have: of a wrong route buffer or list of tries, a writer's buffer, the check of one LAB's list, the
# call of a class, and a log.
NOT_IN_A_ROW = {1, 2, 3, 18, 76, 77, *range(80, 88)}


def words(place):
    """Every number that can stand in a row has words, and no other has; they go into a CSV file as they are."""
    page = place.stored("docs", "VERDICTS.md").decode()
    numbers = {int(number) for number in re.findall(r"^\| (\d+) \|", page, re.M)}
    assert set(shared.MEANING) == numbers - NOT_IN_A_ROW, set(shared.MEANING) ^ (numbers - NOT_IN_A_ROW)
    for number, meaning in shared.MEANING.items():
        assert re.fullmatch(r"[A-Za-z0-9][A-Za-z0-9 ]*[A-Za-z0-9]", meaning) and len(meaning) <= 80, (number, meaning)
    assert len(set(shared.MEANING.values())) == len(shared.MEANING)
    place.has_limits(MOST_ANSWERS=class_sheets.MOST_ANSWERS, NONE=shared.NONE, ROUTE_SIZE=shared.ROUTE, HOUSE_SETTINGS=shared.HOUSE_SETTINGS)
    return len(shared.MEANING)


def lines(place):
    """The lines that refuse are those of the page."""
    place.says("CLASS.md", "class_sheets.py takes|the library can't be used|class.lxc is refused with 77")
