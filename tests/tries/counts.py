"""Sheets: what the script prints of them is what the plain enumeration says, or no tries are told."""

import collections
import itertools
import os
import random
import re

import paper
import shared
import sheets
import tries
from sheets import GND, VCC, answer, comb, exercise, inv, net, reg, settings

SHEETS, SEED = (int(os.environ.get("TRIES_" + name, most)) for name, most in (("SHEETS", 1000), ("SEED", 1)))
HEADINGS = "lab,tries,number,clk_1,clk_2,ena_1,ena_2,aclr_1,aclr_2,sclr,sload\n"
NO_TRIES = "no tries are told: they are told with the verdicts 0 and 65 only\n"
NAMES = ("exercise.lxe", "answer.lxa", "settings.lxt")


def joined(lines):
    return "".join(line + "\n" for line in lines)


def told(place):
    """What the script prints of the folder, without --csv and with it, and what it says on standard error with it."""
    said, keep = [], shared.say
    text = joined(tries.tries(place.library, place.folder, []))
    shared.say = said.extend
    table = joined(tries.tries(place.library, place.folder, ["--csv"]))
    shared.say = keep
    place.said += said
    return text, table, said


def no_tries(line):
    """The same of a verdict with which no tries are told, and which has this line."""
    return line + "\n" + NO_TRIES, HEADINGS, ["no tries are told: " + line]


def same_figures(text, table):
    """The table has the figures of the lines, and the sum adds them up."""
    lines = [line.split(None, 2) for line in text.splitlines()[2:]]
    rows = [row.split(",") for row in table.splitlines()[1:]]
    assert [line[:2] for line in lines[:-1]] == [row[:2] for row in rows], (text, table)
    assert lines[-1] == ["sum", str(sum(int(row[1]) for row in rows))], (text, table)
    for line, row in zip(lines, rows):
        roles = [(column.split("_")[0], entry) for column, entry in zip(paper.COLUMNS, row[3:]) if entry]
        words = [(role, " ".join(entry for _, entry in found)) for role, found in itertools.groupby(roles, lambda pair: pair[0])]
        shown = {"": "not searched", "65": "refused with 65", "0": ", ".join("%s %s" % pair for pair in words) or "no needs"}[row[2]]
        assert line[2] == shown and (row[2] == "0" or not words), (line, row)


def hold(place, ex, an, st=None):
    """Holds what the script prints of sheets that keep all rules but 65 against the enumeration. Gives their number."""
    place.fill({name: sheet for name, sheet in zip(NAMES, (ex, an, st)) if sheet is not None})
    found = text, table, _ = told(place)
    assert found == (paper.text(ex, an, st), paper.table(ex, an, st), []), (found, ex, an, st)
    same_figures(text, table)
    assert set(place.found()) == {name for name, sheet in zip(NAMES, (ex, an, st)) if sheet is not None}, "something was written"
    return paper.verdict(ex, an, st)[0]


def sample_sheets(place):
    """Every sample with sheets: its name, the sheets, and number, cell and LAB as they are written down. Those of the class too."""
    root = os.path.join(place.top, "samples")
    stored = lambda name, file: place.stored("samples", name, file) if os.path.exists(os.path.join(root, name, file)) else None
    for name in sorted(os.listdir(root)):
        if stored(name, "listing.txt") is not None:
            expected = dict(line.split(" ", 1) for line in stored(name, "expected.txt").decode().splitlines() if not line.startswith("route"))
            yield (name, *[stored(name, file) for file in NAMES], *[int(expected[word]) for word in ("number", "cell", "lab")])
    for line in stored("class", "expected.txt").decode().splitlines():
        words = line.split()
        yield ("class/" + words[0], stored("class", "exercise.lxe"), stored("class", words[0] + ".lxa"), None, *map(int, words[2:7:2]))


def other_verdict(number, cell, lab, ex, an, st):
    """The line of a verdict with which no tries are told."""
    where = (", cell %d" % cell if cell != 65535 else "") + (", LAB %d" % lab if lab != 65535 else "")
    line = "verdict %d on the board of %s%s: %s" % (number, "document 01" if st is None else "settings.lxt", where, shared.MEANING[number])
    for missing, name, sheet in ((10, "exercise.lxe", ex), (20, "answer.lxa", an)):
        line += "; %s is not there and counts as empty" % name if number == missing and sheet is None else ""
    return line


def over_samples(place):
    """Each sample: tries with 0 and 65, otherwise the verdict alone. Those of the tool that have tries.txt and tries.csv are run as programs."""
    seen, stored = set(), set()
    for name, ex, an, st, number, cell, lab in sample_sheets(place):
        if number in (0, 65):
            assert hold(place, ex, an, st) == number and paper.verdict(ex, an, st)[1] in (lab, None), name
        else:
            place.fill({file: sheet for file, sheet in zip(NAMES, (ex, an, st)) if sheet is not None})
            line = other_verdict(number, cell, lab, ex, an, st)
            # As programs, one of each number.
            if number not in seen:
                assert place.run("tries") == (0, (line + "\n" + NO_TRIES).encode(), []), name
                assert place.run("tries", "--csv") == (0, HEADINGS.encode(), ["nurimkkot: no tries are told: " + line]), name
            assert told(place) == no_tries(line), name
        seen.add(number)
        folder = os.path.join(place.top, "samples", name)
        if os.path.exists(os.path.join(folder, "tries.txt")):
            assert place.run("tries") == (0, place.stored(folder, "tries.txt"), []), name
            assert place.run("tries", "--csv") == (0, place.stored(folder, "tries.csv"), []), name
            stored.add(name)
    assert seen == set(shared.MEANING), seen ^ set(shared.MEANING)
    assert stored == {name for name, _, _, _, expected, _ in sheets.all_samples() if expected.tries is not None} and len(stored) >= 5, stored
    stories(place)
    return sum(1 for _ in sample_sheets(place))


def stories(place):
    """What the samples are there to show."""
    there = lambda *path: os.path.exists(os.path.join(place.top, *path))
    read = lambda name: [place.stored("samples", name, file) if there("samples", name, file) else None for file in NAMES]
    made = lambda name: {lab: (count, number) for lab, count, number, _ in paper.labs(*read(name))}
    routes = lambda name: {lab: [entries.get(column, "-") for column in paper.COLUMNS] for lab, _, _, entries in paper.labs(*read(name))}
    nets = lambda name, lab: [paper.net_of(signal) for _, signal in paper.needs(*read(name)[:2])[lab]]
    assert made("board-69280-tries") == {104: (69280, 65)} and 69280 == 8 + 56 + 336 + 1680 + 6720 + 20160 + 40320
    assert made("board-10166-tries") == {104: (10166, 0)} and made("board-8-tries") == made("board-eight-needs") == {104: (8, 0)}
    assert read("board-69280-tries")[:2] == read("board-10166-tries")[:2] == read("board-8-tries")[:2] == read("board-eight-needs")[:2]
    assert made("legal-11-tries") == {76: (11, 0)} and len(paper.needs(*read("legal-11-tries")[:2])[76]) == 6
    assert made("v65-35-tries") == {3: (0, 0), 68: (6, 0), 70: (35, 65), 71: (0, None), 100: (0, None)}
    # LAB 3 of this sample has been searched when LAB 33 is refused with 60.
    assert paper.search([("clk", 4)], paper.HOUSE)[0] == 1 and paper.needs(*read("v60-three-clocks")[:2])[3] == [("clk", 4)]

    # Needs of one net. Which of them share an entry, and which could.
    assert made("legal-clock-and-inverse") == {49: (2, 0)} and routes("legal-clock-and-inverse")[49] == [0, 0, *"------"]
    assert made("legal-one-net-three-roles") == {43: (3, 0)} and routes("legal-one-net-three-roles")[43] == [0, *"---", 1, "-", 4, "-"]
    assert made("legal-clock-and-clear") == {224: (2, 0)} and routes("legal-clock-and-clear")[224] == [0, *"---", 1, *"---"]
    assert paper.is_partial_way((1, 1), paper.needs(*read("legal-clock-and-clear")[:2])[224], paper.HOUSE)
    # Without shared entries two of these are refused, and the third has another route.
    alone = lambda name, lab: paper.search([(role, 4 + 2 * at) for at, (role, _) in enumerate(paper.needs(*read(name)[:2])[lab])], paper.HOUSE)[1]
    assert made("legal-only-shared") == {225: (6, 0)} and routes("legal-only-shared")[225] == [0, 0, 2, 3, 1, 4, "-", "-"]
    assert made("legal-eight-needs") == {226: (8, 0)} and routes("legal-eight-needs")[226] == [0, 0, 2, 3, 1, 4, 5, 5]
    assert made("legal-shared-not-needed") == {229: (11, 0)} and routes("legal-shared-not-needed")[229] == [0, 2, 3, "-", 1, 4, "-", 3]
    assert [alone(*which) for which in (("legal-only-shared", 225), ("legal-eight-needs", 226), ("legal-shared-not-needed", 229))] == [
        None, None, (0, 2, 3, 1, 4, 5)]
    assert alone("p11", 69) is None and made("p11") == {69: (25, 65)}
    # The needs of these two differ in one net, and entry 5 serves sclr and sload.
    assert made("v65-two-nets") == {227: (2, 0), 228: (51, 65)} and nets("v65-two-nets", 228)[:7] == nets("legal-eight-needs", 226)[:7]
    assert nets("v65-two-nets", 228)[6:] == [5, 6] and nets("legal-eight-needs", 226)[6:] == [5, 5] and paper.HOUSE[5] == {"sclr", "sload"}
    assert made("legal-45-tries") == {230: (45, 0)} and routes("legal-45-tries")[230] == [2, 0, 2, 2, 1, 4, 5, 3]
    assert made("v65-105-tries") == {231: (105, 65)}
    assert made("board-three-roles-one-entry") == {232: (3, 0)} and routes("board-three-roles-one-entry")[232] == [1, *"---", 1, "-", 1, "-"]
    assert made("board-two-nets-one-entry") == {34: (1, 65)} and nets("board-two-nets-one-entry", 34) == [1, 2]
    assert made("board-2396744-tries") == {233: (2396744, 65)} and 2396744 == sum(8 ** count for count in range(1, 8))
    assert made("board-one-net-8-tries") == {233: (8, 0)} and routes("board-one-net-8-tries")[233] == [0] * 8
    assert read("board-2396744-tries")[:2] == read("board-one-net-8-tries")[:2] and set(nets("board-2396744-tries", 233)) == {0}
    assert read("board-2396744-tries")[2] == read("board-69280-tries")[2] and read("board-one-net-8-tries")[2] == read("board-10166-tries")[2]


def enumerated(place):
    """The enumeration goes from list to list. On small boards it is held against all lists that there are, each tested by itself."""
    rng = random.Random(SEED)
    for at in range(400):
        few = [polarity(n) for n in range(rng.choice([1, 1, 2, 3, 5])) for polarity in (net, inv)]
        every = [(role, signal) for role in paper.ROLES for signal in few]
        needs = [every[i] for i in sorted(rng.sample(range(len(every)), rng.choice([1, 2, 3, 4, 5])))]
        entries = [set(rng.sample(paper.ROLES, rng.choice([1, 2, 3, 4, 5]))) for _ in range(rng.choice([0, 1, 2, 3, 4, 4, 5]))]
        found = paper.all_partial_ways(needs, entries)
        ways = [chosen for chosen in found if len(chosen) == len(needs)]
        earliest = min(ways, default=None)
        searched = sum(earliest is None or chosen <= earliest for chosen in found), earliest
        assert list(paper.partial_ways(needs, entries)) == found and paper.search(needs, entries) == searched, (needs, entries)
        assert paper.search_of(tuple(needs), tuple(map(frozenset, entries))) == searched, (needs, entries)
        assert len({paper.net_of(signal) for _, signal in needs}) > 1 or paper.count_of_one_net(needs, entries) == len(found), (needs, entries)
    assert paper.search([], paper.HOUSE) == (0, ())
    return at + 1


def different(wanted, first, rng=None):
    """Signals for so many needs of clk, ena, aclr, sclr and sload, each of a net of its own."""
    nets = iter(range(first, first + sum(wanted)))
    signal = lambda: (rng.choice([net, inv]) if rng else net)(next(nets))
    return {role: [signal() for _ in range(count)] for role, count in zip(paper.ROLES, wanted)}


def from_few(wanted, first, count, rng):
    """The same from a few nets. Those of a role are different signals; a net may have both polarities and any roles."""
    both = [polarity(first + n) for n in range(count) for polarity in (net, inv)]
    return {role: rng.sample(both, most) for role, most in zip(paper.ROLES, wanted)}


def of_one_net(wanted, first):
    """The same from one net."""
    return {role: [net(first), inv(first)][:count] for role, count in zip(paper.ROLES, wanted)}


def cells_with(signals, data, rng=None):
    """Two registers with these signals, and data nets from the given one on. Gives the net behind those too."""
    at = lambda role, i, none: signals[role][i] if i < len(signals[role]) else none
    # With one ena of two clk the second register has it open; what is constant needs no entry.
    both = [dict(clk=at("clk", i, at("clk", 0, GND)), ena=at("ena", i, VCC), aclr=at("aclr", i, at("aclr", 0, GND))) for i in range(2)]
    both[0].update(sclr=at("sclr", 0, GND), sload=at("sload", 0, GND), sdata=net(data))
    if rng:
        both.sort(key=lambda _: rng.random())
    return [reg(d=net(data), q=net(data + 1 + i), **ports) for i, ports in enumerate(both)], data + 3


ALL_NEEDS = list(itertools.product(range(3), range(3), range(3), range(2), range(2)))


def roles_of(wanted):
    return [role for role, count in zip(paper.ROLES, wanted) for _ in range(count)]


def on_house_board(place):
    """All 108 sets of needs on document 01's board, each in a LAB of its own: of different nets, of one, and of a few."""
    rng, held = random.Random(SEED), 0
    for wanted in ALL_NEEDS:
        for signals in [different(wanted, 0), of_one_net(wanted, 0)] + [from_few(wanted, 0, count, rng) for count in (2, 3, 4)]:
            cells, nets = cells_with(signals, 8)
            assert [role for role, _ in paper.needs(exercise(nets, *cells), answer(7, (2, 1, 0), (2, 1, 1)))[34]] == roles_of(wanted), wanted
            assert hold(place, exercise(nets, *cells), answer(7, (2, 1, 0), (2, 1, 1))) in (0, 65)
            held += 1
    return held


def eight_on_eight(place):
    """Eight needs on eight entries, of different nets and of one: no LAB has more than 19,173,960 tries, and each role is missing in turn."""
    an, most, made = answer(7, (2, 1, 0), (2, 1, 1)), (2, 2, 2, 1, 1), []
    for signals in (different(most, 0), of_one_net(most, 0)):
        cells, nets = cells_with(signals, 8)
        ex = exercise(nets, *cells)
        for flags in (31, 30, 29, 27, 23, 15):
            hold(place, ex, an, settings(*[flags] * 8))
            made.append(paper.labs(ex, an, settings(*[flags] * 8))[0][1])
    # One to seven needs before sload, one to six before sclr, and so on.
    assert made[:6] == [8, 0, 8 + 56, 8 + 56 + 336 + 1680, 8 + 56 + 336 + 1680 + 6720 + 20160, 69280], made
    powers = lambda count: sum(8 ** length for length in range(1, count + 1))
    assert made[6:] == [8, 0, powers(2), powers(4), powers(6), powers(7)], made
    # Those of the last sheet where each entry serves every role: all lists of one to eight entries.
    assert paper.count_of_one_net(paper.needs(ex, an)[34], [set(paper.ROLES)] * 8) == powers(8) == tries.MOST_TRIES == 19173960
    return len(made)


def many_labs(place):
    """LABs at the ends, and as many as there can be: 512 cells in as many LABs, the last of which is refused."""
    alone = lambda role: reg(d=net(4), clk=net(0), q=net(6), **{role: net(1)}) if role != "clk" else reg(d=net(4), clk=net(0), q=net(6))
    assert hold(place, exercise(7, alone("aclr")), answer(7, (0, 0, 0))) == hold(place, exercise(7, alone("aclr")), answer(7, (31, 31, 15))) == 0
    cells = [reg(d=net(511), clk=net(i), aclr=net(i), q=net(512 + i)) for i in range(512)]
    places = [(i % 32, 2 * (i // 32), 0) for i in range(512)]
    assert hold(place, exercise(1024, *cells), answer(7, *places)) == 0
    st = settings(sheets.CLK, sheets.CLK, sheets.ACLR)
    assert hold(place, exercise(1024, *cells), answer(7, *places), st) == 0
    cells[511] = reg(d=net(511), clk=net(511), aclr=net(511), sclr=net(0), q=net(1023))
    assert hold(place, exercise(1024, *cells), answer(7, *places), st) == 65
    # The largest figures move no column.
    labs = [tries.Lab(1023, tries.MOST_TRIES, 0, bytes(range(8)))] * 256
    heading, *lines = tries.table(labs)
    ends = {tuple(found.end() for found in list(re.finditer(r"\S+", line))[:2]) for line in [heading, *lines]}
    assert len(ends) == 1 and lines[-1].split() == ["sum", str(256 * 19173960)], (heading, lines[-1])
    return 6


def random_board(rng):
    """A settings sheet with entries that serve some roles, or none for document 01's board."""
    if rng.random() < 0.3:
        return None
    flags = rng.choice([range(32), [1, 2, 4, 8, 16], [3, 7, 15, 31, 30, 28], [5, 9, 17, 6, 12, 24], [3, 6, 9, 12, 7, 11]])
    count = rng.choice([0, 1, 3, 5, 6, 7, 7, 8, 8, 8])
    return settings(*[rng.choice(flags) for _ in range(count)], board=rng.choice([None, rng.randrange(65536)]))


def random_signals(rng, first):
    """Signals for the needs of a LAB: of different nets, of one, or of a few."""
    wanted, count = max(rng.sample(ALL_NEEDS, 2), key=sum), rng.choice([None, None, None, 1, 2, 2, 3, 4, 5])
    return different(wanted, first, rng) if count is None else from_few(wanted, first, count, rng)


def random_sheets(rng):
    """An exercise and an answer that keep all rules but 65, in some LABs, their cells in any order. The LABs may have nets in common."""
    cells, nets = [], 8
    for lab in rng.sample(range(1024), rng.choice([1, 1, 2, 3, 6])):
        places = [(lab % 32, lab // 32, le) for le in rng.sample(range(16), 3)]
        if rng.random() < 0.2:
            cells.append((comb(a=net(nets), o=net(nets + 1)), places[2]))
            nets += 2
        if rng.random() < 0.9 or not cells:
            first = rng.choice([0, nets])
            own, nets = cells_with(random_signals(rng, first), nets + 8, rng)
            cells += zip(own, places)
    rng.shuffle(cells)
    return exercise(nets, *[cell for cell, _ in cells]), answer(rng.randrange(1, 2 ** 32), *[where for _, where in cells])


def seen_in(ex, an, st):
    """What sheets that keep all rules but 65 have in some LAB."""
    needs = paper.needs(ex, an)
    for lab, count, number, entries in paper.labs(ex, an, st):
        nets = [paper.net_of(signal) for _, signal in needs[lab]]
        shared_by = max(map(list(entries.values()).count, entries.values()), default=0)
        yield "tries that exceed the needs", number == 0 and count > len(entries)
        yield "an entry for two needs", shared_by == 2
        yield "an entry for three and more", shared_by > 2
        yield "a net in two needs, no entry shared", number == 0 and shared_by == 1 and len(set(nets)) < len(nets)
        yield "a net in two needs, refused", number == 65 and len(set(nets)) < len(nets)


def at_random(place):
    """Random sheets on random boards. Both verdicts come up often, and so do tries that exceed the needs, and needs of one net."""
    rng, tally = random.Random(SEED), collections.Counter()
    for _ in range(SHEETS):
        ex, an, st = *random_sheets(rng), random_board(rng)
        tally.update(["verdict %d" % hold(place, ex, an, st), *{what for what, is_there in seen_in(ex, an, st) if is_there}])
    assert SHEETS < 400 or (min(tally["verdict 0"], tally["verdict 65"]) > SHEETS // 10 and min(tally.values()) > SHEETS // 20), tally
    assert SHEETS < 400 or len(tally) == 7, tally
    return SHEETS


def try_all(place):
    return sum(work(place) for work in (enumerated, on_house_board, eight_on_eight, many_labs, at_random))
