"""Logs: what the script prints of each is what the plain computation says, or the log is refused with the number that it says."""

import itertools
import os
import random
import re

import paper
import sheets
import tablet_log
from sheets import patch, raw_log

LOGS, SEED = (int(os.environ.get("MINUTES_" + name, most)) for name, most in (("LOGS", 2000), ("SEED", 1)))
HOUR = (7, 0, 540, 600, 7)
COLUMNS = re.compile(r"\S+")


def refused_line(number):
    return "tablet.lxl is refused with %d: %s" % (number, tablet_log.MEANING[number])


def joined(lines):
    return "".join(line + "\n" for line in lines)


def hold(place, log):
    """Holds the library's numbers and the lines of one log against the plain computation. Gives its number."""
    want = number, credits, nothing = paper.replay(log)
    found = place.library.minutes(log)
    assert (found[0], [tuple(credit) for credit in found[1]], found[2]) == want, (log, found, want)
    place.fill({"tablet.lxl": log})
    if number:
        for options in ([], ["--csv"]):
            said = place.refusal(tablet_log.minutes, options)
            assert said == refused_line(number), (log, said)
    else:
        assert joined(tablet_log.minutes(place.library, place.folder, [])) == paper.text(log), log
        assert joined(tablet_log.minutes(place.library, place.folder, ["--csv"])) == paper.table(log), log
    assert place.found() == {"tablet.lxl": log}, "something was written"
    return number


def over_samples(place):
    """Each sample as a program: its lines, its table and its numbers are stored beside it."""
    seen = set()
    for name, _, log, _ in sheets.log_samples():
        files = {file: place.stored("samples", name, file) for file in os.listdir(os.path.join(place.top, "samples", name))}
        assert files.get("tablet.lxl") == log, name
        number, credits, nothing = paper.replay(log or b"")
        expected = ["number %d" % number] + ["apprentice %d minutes %d" % credit for credit in credits] + ["entry %d covers none" % at for at in nothing]
        assert files["expected.txt"].decode().splitlines() == expected, name
        place.fill({} if log is None else {"tablet.lxl": log})
        before = place.found()
        if number:
            line = refused_line(number) if log is not None else "tablet.lxl is refused with 80: it is not there and counts as empty"
            assert place.refused("minutes") == place.refused("minutes", "--csv") == line, name
            assert set(files) <= {"tablet.lxl", "expected.txt", "words.txt"}, name
        else:
            assert files["minutes.txt"].decode() == paper.text(log) and files["minutes.csv"].decode() == paper.table(log), name
            assert place.run("minutes") == (0, files["minutes.txt"], []), name
            assert place.run("minutes", "--csv") == (0, files["minutes.csv"], []), name
        assert place.found() == before, (name, "something was written")
        seen.add(number)
    assert seen == {0, *tablet_log.MEANING}, seen
    return len(sheets.log_samples())


def stories(place):
    """What the samples are there to show."""
    credits = lambda name: dict(paper.replay(place.stored("samples", name, "tablet.lxl"))[1])
    entries = lambda name: paper.entries(place.stored("samples", name, "tablet.lxl"))
    assert set(credits("minutes-class")) == set(range(101, 119)) and len(credits("minutes-class")) == 18
    longest = sum(closing - opening for apprentice, opening, closing, _ in entries("minutes-400-hours") if apprentice == 109)
    assert longest == 400 * 60 and credits("minutes-400-hours")[109] == 168 * 60
    assert {login for _, _, _, login in entries("minutes-one-login")} == {101} and credits("minutes-one-login") == {101: 90, 102: 45, 103: 45}
    assert credits("minutes-no-minutes")[8] == 0
    assert len(credits("minutes-64-apprentices")) == 64 and len(entries("minutes-1024-entries")) == 1024
    return 0


def limits(place):
    """Both sides of every limit."""
    good = raw_log(HOUR, (8, 20, 600, 600, 7))
    people = lambda count, first=1: [(first + k, 0, k, k + 1, 0) for k in range(count)]
    cases = [(80, good[:length]) for length in range(7)] + [(84, good[:length]) for length in range(7, len(good))]
    cases += [(84, good + more) for more in (b"\0", good, bytes(14), bytes(100000))]
    cases += [(81, patch(good, at, good[at] ^ flip)) for at in range(3) for flip in (1, 32, 128)]
    cases += [(82, patch(good, 3, *version.to_bytes(2, "little"))) for version in (0, 2, 255, 256, 257, 65535)]
    cases += [(number, patch(good, 5, *count.to_bytes(2, "little")))
              for number, count in ((84, 0), (84, 1), (84, 3), (84, 1024), (83, 1025), (83, 1026), (83, 2048), (83, 65535))]
    cases += [(0, raw_log()), (0, raw_log(*[HOUR] * 1024)), (83, raw_log(*[HOUR] * 1025)), (83, raw_log(*[HOUR] * 1025) + b"\0")]
    cases += [(0, raw_log(*[(7, 0, 600, 600, 7)] * 1024))]
    for minute in (0, 1, 10079, 10080, 10081, 10336, 32768, 65535):
        number = 85 if minute > 10080 else 0
        cases += [(number, raw_log((7, 0, minute, other, 7))) for other in (0, 540, 10080)]
        cases += [(number, raw_log((7, 0, other, minute, 7))) for other in (0, 540, 10080)]
        cases += [(number, raw_log(*[HOUR] * 1023, (7, 0, minute, minute, 7)))]
    cases += [(85, raw_log((0, 0, 540, 600, 7))), (85, raw_log(*[HOUR] * 1023, (0, 0, 0, 0, 0)))]
    cases += [(0, raw_log((apprentice, verdict, 540, 600, login)))
              for apprentice in (1, 256, 65536, 2 ** 24, 2 ** 31, 2 ** 32 - 1) for verdict in (0, 65535) for login in (0, apprentice, 2 ** 32 - 1)]
    for first in (1, 2 ** 31 - 32, 2 ** 32 - 66):
        cases += [(0, raw_log(*people(64, first))), (86, raw_log(*people(65, first))), (0, raw_log(*people(64, first) * 16)),
                  (86, raw_log(*people(64, first) * 14, *people(65, first)[::-1])), (86, raw_log(*people(64, first), (first + 64, 0, 9, 9, 0))),
                  (86, raw_log(*[(first + k, 0, 9, 9, 0) for k in range(65)])), (85, raw_log(*people(65, first), (1, 0, 10081, 0, 0)))]
    # A byte in each place of an entry, for the order of the bytes and of the fields.
    cases += [(None, patch(good, 7 + at, value)) for at in range(14) for value in (1, 2, 3)]
    for want, log in cases:
        number = hold(place, log)
        assert number == want or want is None, (number, want, log[:64])
    # As much as the lists hold, in the widest columns.
    most = raw_log(*[(2 ** 32 - 1 - k, 0, 0, 10080, 0) for k in range(64)], *[(2 ** 32 - 1, 0, 10080, 10080, 2 ** 32 - 1)] * 960)
    hold(place, most)
    parts = joined(tablet_log.minutes(place.library, place.folder, [])).split("\n\n")
    for part, from_line, columns in ((parts[0].splitlines(), 0, 3), (parts[1].splitlines(), 1, 5)):
        ends = {tuple(found.end() for found in COLUMNS.finditer(line)) for line in part[from_line:]}
        assert len(ends) == 1 and len(ends.pop()) == columns, part
    return len(cases) + 1


def orders(place):
    """Every set of faults: the lowest number is given, but for 80, with which there is no other."""
    people = [(k, 0, 0, 60, 1) for k in range(1, 67)]
    sets = 0
    for faults in itertools.product((False, True), repeat=6):
        mark, version, count, length, entry, many = faults
        entries = (people if many else people[:64]) + [(0, 0, 0, 60, 1)] * entry
        log = raw_log(*entries, *[people[0]] * (1025 - len(entries) if count else 0))
        log = patch(log, 0, 0) if mark else log
        log = patch(log, 3, 2) if version else log
        log = log + b"\0" if length else log
        want = next((number for number, fault in zip(range(81, 87), faults) if fault), 0)
        assert hold(place, log) == want, (faults, want)
        sets += 1
    return sets


def random_log(rng):
    """A log of some apprentices and minutes that often meet."""
    people = rng.sample(range(1, 2 ** 32), rng.choice([1, 1, 2, 3, 5, 18, 63, 64, 64, 65])) if rng.random() < 0.5 else range(1, rng.choice([2, 4, 65, 66]))
    low, high = sorted(rng.sample(range(10081), 2)) if rng.random() < 0.5 else rng.choice([(0, 9), (0, 60), (10070, 10080), (0, 10080)])
    minute = lambda: rng.randint(low, high)
    count = rng.choice([0, 1, 2, 3, 8, 20, 70, 140] + [1024] * (rng.random() < 0.1))
    order = list(people) + [rng.choice(people) for _ in range(count)]
    rng.shuffle(order)
    entries = []
    for apprentice in order[:rng.choice([count, 1024])]:
        opening, closing = minute(), minute()
        if rng.random() < 0.7:
            opening, closing = min(opening, closing), max(opening, closing)
        if rng.random() < 0.1:
            closing = opening
        entries.append((apprentice, rng.randrange(65536), opening, closing, rng.choice([0, apprentice, rng.randrange(2 ** 32)])))
    return raw_log(*entries)


def damaged(rng, log):
    """One to three bytes changed, or an end that is cut off or added."""
    kind = rng.randrange(4)
    if kind == 0:
        return log[:rng.randint(0, len(log))]
    if kind == 1:
        return log + rng.randbytes(rng.choice([1, 13, 14, 28]))
    for _ in range(rng.randint(1, 3)):
        at = rng.randrange(min(len(log), rng.choice([7, 21, len(log)])))
        log = patch(log, at, rng.choice([0, 1, 2, 39, 40, 97, 255, rng.randrange(256)]))
    return log


def at_random(place):
    """Random logs, and what becomes of them. All numbers come up often, but for 80, which few bytes have."""
    rng, tally = random.Random(SEED), {}
    for k in range(LOGS):
        log = random_log(rng)
        number = hold(place, damaged(rng, log) if k % 2 else log)
        tally[number] = tally.get(number, 0) + 1
    assert LOGS < 1000 or (set(tally) == {0, *range(80, 87)} and min(tally.values()) >= LOGS // 400), tally
    return LOGS


def try_all(place):
    return sum(work(place) for work in (stories, limits, orders, at_random))
