"""Holds what `sheets.py words --labs --settings` prints against the judge: against_judge.py TOP
PAIRS SEED.

The printed text alone is read: from it the first LAB that breaks one of 60 to 65 is found, all
ways tried one by one on the printed entries, and the judge has to name that LAB with that number,
or say legal with the routes that follow from the printed needs. The tries have to follow from these
needs too, and the number of 70 to 75 from what is printed as wrong with the settings sheet.
"""

import ctypes
import functools
import itertools
import os
import random
import re
import sys

TOP, PAIRS, SEED = sys.argv[1], int(sys.argv[2]), int(sys.argv[3])
sys.path.insert(0, os.path.join(TOP, "tools"))
from sheets import (GND, HOUSE, OPEN, SECOND, VCC, answer, comb, exercise, inv, net, reg,  # noqa: E402
                    settings, words)

library = ctypes.CDLL(os.path.join(TOP, "target", "words", "libnurimkkot.so"))
library.nurimkkot_judge.restype = None
library.nurimkkot_judge.argtypes = ([ctypes.c_char_p, ctypes.c_size_t] * 3
                                    + [ctypes.c_void_p, ctypes.c_size_t] * 2 + [ctypes.c_void_p])
NONE = 65535
ONE_NET = ("legal, an entry for two needs", "legal, an entry for three and more",
           "legal, needs of one net, no entry shared", "refused, needs of one net")


def judge(board, ex, an):
    """Number, cell, LAB, apprentice, sheet, start and length, the route buffer and the list of
    tries."""
    numbers = (ctypes.c_uint64 * 7)()
    route = (ctypes.c_uint8 * 8192)()
    tries = (ctypes.c_uint32 * 1024)()
    library.nurimkkot_judge(board, len(board), ex, len(ex), an, len(an), route, 8192, tries, 1024, numbers)
    return list(numbers), bytes(route), list(tries)


# ---------------------------------------------------------------- what is printed

ROLES = ["clk", "ena", "aclr", "sclr", "sload"]
BYTES = {"clk": (0, 1), "ena": (2, 3), "aclr": (4, 5), "sclr": (6,), "sload": (7,)}
CELL = re.compile(r"cell (\d+): (combinational|register), flag [01](.*); "
                  r"place x (\d+) y (\d+) LE (\d+), LAB (\d+)")
LAB = re.compile(r"lab (\d+), x (\d+) y (\d+): (\d+) cells?: ([\d ]+)")
COUNT = re.compile(r"  (clk|\(clk, ena\)|aclr|\(sload, sclr\)|nets in|needs): (\d+)")
BROUGHT = re.compile(r"    (\(.+?\)|GND|VCC|/?net \d+): (cell .*)")
ENTRY = re.compile(r"  entry (\d+): (nothing|[a-z, ]+)")
FAULTS = [(70, r"^settings: [0-5] bytes?$"), (71, "must be LXT"), (72, "must be 1 or 2"),
          (73, "at most 8"), (74, "cut short|missing|left over"), (75, "over 31")]


def read_board(text):
    """The settings sheet as it is printed: the first of its faults, or 0, and its entries, each
    with its roles."""
    sheet = text.split("\nexercise: ")[0]
    for number, fault in FAULTS:
        if re.search(fault, sheet, re.MULTILINE):
            return number, ()
    found = [ENTRY.fullmatch(line).groups() for line in sheet.splitlines()
             if line.startswith("  entry ")]
    assert "bad" not in sheet and [int(i) for i, _ in found] == list(range(len(found))), sheet
    return 0, tuple(() if roles == "nothing" else tuple(roles.split(", ")) for _, roles in found)


def read_cells(text):
    """The cells as they are printed: number -> (kind, ports, LAB)."""
    cells = {}
    for line in text.splitlines():
        if line.startswith("cell "):
            i, kind, ports, x, y, _, lab = CELL.fullmatch(line).groups()
            assert int(lab) == 32 * int(y) + int(x), line
            ports = dict(port.split("=") for port in ports.split(", ")[1:])
            cells[int(i)] = (kind, ports, int(lab))
    return cells


def read_labs(text):
    """The LABs as they are printed: number -> what it has. Each count is that of its items."""
    labs, lab, items, count = {}, None, None, None
    for line in text[text.index("exercise: "):].splitlines()[1:] + ["end"]:
        if items is not None and not line.startswith("    "):
            assert len(items) == count, (line, items, count)
        if LAB.fullmatch(line):
            number, x, y, cells, names = LAB.fullmatch(line).groups()
            assert (int(x), int(y)) == (int(number) % 32, int(number) // 32), line
            lab = labs[int(number)] = {"cells": [int(n) for n in names.split()]}
            assert len(lab["cells"]) == int(cells), line
            items = None
        elif lab is not None and line.startswith("    "):
            if isinstance(items, list):
                items += line.strip().split(", ")
            else:
                signal, cells = BROUGHT.fullmatch(line).groups()
                assert signal not in items, line
                items[signal] = cells
        elif lab is not None and line.startswith("  "):
            name, count = COUNT.fullmatch(line).groups()
            count = int(count)
            items = lab[name] = [] if name in ("nets in", "needs") else {}
    assert list(labs) == sorted(labs)
    return labs


def brought(cells, lab):
    """What the registers of a LAB bring, from the lines of the cells alone."""
    out = {"clk": {}, "(clk, ena)": {}, "aclr": {}, "(sload, sclr)": {}}

    def bring(name, signal, i, *is_open):
        note = " (%s open)" % " and ".join(is_open) if is_open else ""
        out[name].setdefault(signal, []).append("cell %d%s" % (i, note))

    for i, (kind, ports, where) in cells.items():
        if where != lab or kind != "register":
            continue
        default = {"clk": "GND", "ena": "VCC", "aclr": "GND"} if "regout" in ports else {}
        note = lambda *names: [name for name in names if name not in ports]
        value = {name: ports.get(name, default.get(name)) for name in ROLES}
        if value["clk"]:
            bring("clk", value["clk"], i, *note("clk"))
            bring("(clk, ena)", "(%s, %s)" % (value["clk"], value["ena"]), i,
                  *note("clk", "ena"))
        if value["aclr"]:
            bring("aclr", value["aclr"], i, *note("aclr"))
        load, clear = (ports.get(name, "GND") for name in ("sload", "sclr"))
        if load != "GND" or clear != "GND":
            bring("(sload, sclr)", "(%s, %s)" % (load, clear), i, *note("sload", "sclr"))
    return {name: {signal: ", ".join(cells) for signal, cells in counted.items()}
            for name, counted in out.items()}


def nets_in(cells, lab):
    """The nets that a LAB's cells read at ports but cin and that none of them drives, from the
    lines of the cells alone."""
    ports = [(name, signal.lstrip("/")) for _, ports, where in cells.values() if where == lab
             for name, signal in ports.items() if "net" in signal and name != "cin"]
    driven = {signal for name, signal in ports if name.endswith("out")}
    return sorted({int(signal[4:]) for _, signal in ports if signal not in driven})


def needs_of(lab):
    """Role and net of each need. The nets are numbered as they come: which they are makes no
    difference."""
    needs = [need.split(" ", 1) for need in lab["needs"]]
    nets = [signal.lstrip("/") for _, signal in needs]
    return tuple((role, nets.index(own)) for (role, _), own in zip(needs, nets))


def one_net(needs, entries):
    """The earliest way or None, and the tries, of needs that take no entry from each other: there
    are as many lists as choices, and the earliest way has the lowest of each."""
    choices = [[entry for entry, roles in enumerate(entries) if role in roles] for role, _ in needs]
    if all(choices):
        return tuple(own[0] for own in choices), len(needs)
    return None, sum(itertools.accumulate(map(len, choices), int.__mul__))


@functools.lru_cache(maxsize=None)
def searched(needs, entries):
    """The same of any needs: lists of entries for the first one or more that serve them, in their
    order, up to the first that serves all. Each is one of those before it with one entry more,
    which no need of another net has."""
    if len({own for _, own in needs}) == 1:
        return one_net(needs, entries)
    tries, longer = 0, [()]
    while longer:
        some = longer.pop()
        tries += some != ()
        if len(some) == len(needs):
            return some, tries
        role, own = needs[len(some)]
        others = {entry for entry, (_, other) in zip(some, needs) if other != own}
        longer += [some + (entry,) for entry in reversed(range(len(entries)))
                   if role in entries[entry] and entry not in others]
    return None, tries


def broken(lab, entries):
    """The lowest of 60 to 65 that the printed counts break, or 0."""
    if len(lab["clk"]) > 2:
        return 60
    if len(lab["(clk, ena)"]) > 2:
        return 61
    if len(lab["aclr"]) > 2:
        return 62
    if len(lab["(sload, sclr)"]) > 1:
        return 63
    if len(lab["nets in"]) > 38:
        return 64
    if searched(needs_of(lab), entries)[0] is None:
        return 65
    return 0


def code(text):
    n = int(text.split()[-1])
    return 5 + 2 * n if text.startswith("/") else 4 + 2 * n


def route_of(lab, entries):
    """The eight bytes that follow from the printed needs."""
    needs = [need.split(" ", 1) for need in lab["needs"]]
    order = [(ROLES.index(role), code(signal)) for role, signal in needs]
    assert order == sorted(set(order)), needs
    route = bytearray([255] * 8)
    seen = {role: 0 for role in ROLES}
    for (role, _), entry in zip(needs, searched(needs_of(lab), entries)[0]):
        route[BYTES[role][seen[role]]] = entry
        seen[role] += 1
    return bytes(route)


def hold(what, board, ex, an, tally):
    """Compare the two; says nothing where a rule up to 51 is broken but that words works."""
    text = words(ex, an, labs=True, settings=board)
    fault, entries = read_board(text)
    numbers, route, tries = judge(board, ex or b"", an or b"")
    number, _, lab, _, _, start, _ = numbers
    assert fault == (number if 70 <= number <= 75 else 0), (what, board, fault, number)
    if fault:
        assert numbers[1:] == [NONE, NONE, 0, 1, len(an or b""), 0], (what, numbers)
        tally[number] = tally.get(number, 0) + 1
        return
    if 0 < number < 60:
        tally["up to 51"] = tally.get("up to 51", 0) + 1
        return
    cells, labs = read_cells(text), read_labs(text)
    for n, has in labs.items():
        assert has["cells"] == [i for i, cell in cells.items() if cell[2] == n], (what, n)
        for name, counted in brought(cells, n).items():
            assert has[name] == counted, (what, n, name, has[name], counted)
        assert has["nets in"] == [str(k) for k in nets_in(cells, n)], (what, n)
    assert sum(len(has["cells"]) for has in labs.values()) == len(cells), what
    first = next(((rule, n) for n, has in labs.items() for rule in [broken(has, entries)] if rule),
                 (0, NONE))
    assert first == (number, lab), "%s: counted %s, judged %s" % (what, first, (number, lab))
    if number:
        assert start == 11 + 4 * labs[lab]["cells"][0], (what, start)
    else:
        whole = bytearray([255] * 8192)
        for n, has in labs.items():
            whole[8 * n:8 * n + 8] = route_of(has, entries)
        assert route == bytes(whole), (what, "another route")
    counted = [0] * 1024
    for n, has in labs.items():
        if number == 0 or number == 65 and n <= lab:
            counted[n] = searched(needs_of(has), entries)[1]
    assert tries == counted, (what, "other tries")
    tally[number] = tally.get(number, 0) + 1
    for key in seen_in(number, lab, labs, entries):
        tally[key] = tally.get(key, 0) + 1


def seen_in(number, lab, labs, entries):
    """What there is in the LABs of a legal answer, and in one that is refused with 65."""
    for n, has in labs.items():
        is_twice = len(has["needs"]) > len({own for _, own in needs_of(has)})
        if number == 65 and n == lab and is_twice:
            yield "refused, needs of one net"
        if number:
            continue
        way = searched(needs_of(has), entries)[0]
        at_most = (len(has["clk"]) == 2, len(has["(clk, ena)"]) == 2, len(has["aclr"]) == 2,
                   len(has["(sload, sclr)"]) == 1, len(has["nets in"]) == 38,
                   len(set(way)) == len(entries) > 5)
        yield from ("legal, full for %d" % rule
                    for rule, is_full in zip(range(60, 66), at_most) if is_full)
        shared = max(map(way.count, way), default=0)
        if shared > 1:
            yield "legal, an entry for %s" % ("two needs" if shared == 2 else "three and more")
        elif is_twice:
            yield "legal, needs of one net, no entry shared"


# ---------------------------------------------------------------- random sheets

class Nets:
    """Nets handed out one by one."""

    def __init__(self):
        self.count = 0

    def fresh(self):
        self.count += 1
        return self.count - 1


def either(rng, n):
    """A net in one of its polarities."""
    return inv(n) if rng.random() < 0.3 else net(n)


def control(rng, most, pool):
    """Up to so many signals for a control port of one LAB."""
    signals = [either(rng, rng.choice(pool)) for _ in range(rng.randint(0, most))]
    if rng.random() < 0.25:
        signals.append(rng.choice([GND, VCC]))
    return signals + [OPEN] * rng.choice([0, 1, 4])


def random_register(rng, ports, data, output):
    pick = lambda name: rng.choice(ports[name]) if ports[name] else OPEN
    any_data = lambda: rng.choice([OPEN, VCC, net(rng.choice(data)), net(rng.choice(data))])
    if output is None:
        return reg(d=any_data(), aclr=pick("aclr"), sdata=any_data())
    clk = pick("clk")
    if clk == OPEN:
        return reg(d=any_data(), aclr=pick("aclr"), sdata=any_data(), q=net(output))
    ena = pick("ena")
    if "pairs" in ports:
        clk, ena = pick("pairs")
    sload, sclr = rng.choice(ports["synchronous"])
    sdata = any_data() if sload == OPEN else rng.choice([VCC, net(rng.choice(data))])
    return reg(d=any_data(), clk=clk, ena=ena, aclr=pick("aclr"), sclr=sclr,
               sload=sload, sdata=sdata, q=net(output))


def synchronous(rng, controls, tame):
    """(sload, sclr) pairs: one pair with open and GND in each other's place, open and GND at both,
    and, where 63 may break, a second pair that has something of the first."""
    signal = lambda: rng.choice([OPEN, GND, VCC, either(rng, rng.choice(controls))])
    either_open = lambda s: rng.choice([OPEN, GND]) if s in (OPEN, GND) else s
    load, clear = signal(), signal()
    pairs = [(either_open(load), either_open(clear)), (load, clear),
             (rng.choice([OPEN, GND]), rng.choice([OPEN, GND]))]
    if not tame:
        pairs.append(rng.choice([(load, signal()), (signal(), clear), (clear, load)]))
    return pairs


def fill_lab(rng, nets, pool, x, y, taken, cells):
    """Cells with their places in one LAB, and a carry chain that may go on in the next one."""
    inside = [nets.fresh() for _ in range(rng.randint(0, 4))]
    data = [nets.fresh() for _ in range(rng.choice([1, 5, 20, 33, 35, 36, 37, 38, 40]))]
    controls = rng.sample(pool, rng.choice([1, 2, 3, 6, 6, 6])) + inside[:1]
    tame = rng.random() < 0.6
    ports = {name: control(rng, most if tame else most + 1, controls)
             for name, most in (("clk", 2), ("ena", 1), ("aclr", 2))}
    ports["synchronous"] = synchronous(rng, controls, tame)
    if rng.random() < 0.3:
        # Many needs, of a few nets or one: two pairs of nets, two aclr, often sclr or sload or both.
        few = rng.sample(controls, rng.choice([1, len(controls), len(controls)]))
        two = lambda: rng.sample([signal for n in few for signal in (net(n), inv(n))], 2)
        some = lambda: rng.choice([OPEN, two()[0]])
        ports.update(pairs=list(zip(two(), two())), aclr=two(), synchronous=[(some(), some())])
    free = [le for le in range(16) if (2, x, y, le) not in taken]
    for le in rng.sample(free, rng.randint(0, min(len(free), rng.choice([2, 4, 16])))):
        output = None if rng.random() < 0.15 else inside.pop() if inside else nets.fresh()
        taken.add((2, x, y, le))
        cells.append((random_register(rng, ports, data, output), (x, y, le)))
    if rng.random() < 0.4:
        carry_chain(rng, nets, data, x, y, taken, cells)
    free = [le for le in range(16) if (1, x, y, le) not in taken]
    deal = list(data)
    rng.shuffle(deal)
    for le in rng.sample(free, rng.randint(0, len(free))):
        some = [deal.pop() if deal else rng.choice(data + inside + pool[:2]) for _ in range(4)]
        signals = [either(rng, n) if rng.random() < 0.9 else rng.choice([OPEN, GND, VCC])
                   for n in some]
        output = OPEN if rng.random() < 0.1 else net(inside.pop() if inside else nets.fresh())
        taken.add((1, x, y, le))
        cells.append((comb(*signals, o=output, flag=rng.randint(0, 1)), (x, y, le)))


def carry_chain(rng, nets, data, x, y, taken, cells):
    """A chain from some LE on, as far as it finds its LEs free."""
    le, places = rng.randint(0, 15), []
    for _ in range(rng.randint(2, 5)):
        if (1, x, y, le) in taken or y < 0:
            break
        places.append((x, y, le))
        le, y = (le + 1, y) if le < 15 else (0, y - 1)
    if len(places) < 2:
        return
    carry = OPEN
    for k, place in enumerate(places):
        out = net(nets.fresh()) if k + 1 < len(places) else OPEN
        cells.append((comb(a=either(rng, rng.choice(data)), b=net(rng.choice(data)), cin=carry,
                           o=net(nets.fresh()), cout=out, flag=1), place))
        taken.add((1,) + place)
        carry = out


def random_pair(rng):
    nets = Nets()
    pool = [nets.fresh() for _ in range(8)]
    taken, cells = set(), []
    for lab in rng.sample(range(1024), rng.randint(1, 3)):
        fill_lab(rng, nets, pool, lab % 32, lab // 32, taken, cells)
    rng.shuffle(cells)
    return (exercise(nets.count, *[cell for cell, _ in cells]),
            answer(rng.randint(1, 2 ** 32 - 1), *[place for _, place in cells]))


def random_board(rng):
    """One of the two boards, or entries that look random."""
    if rng.random() < 0.6:
        return rng.choice([HOUSE, SECOND])
    often = rng.choice([0.2, 0.4, 0.7])
    entries = [sum(1 << role for role in range(5) if rng.random() < often)
               for _ in range(rng.choice([0, 3, 5, 6, 7, 8, 8, 8]))]
    return settings(*entries, board=rng.choice([None, 0, 2, 65535]))


def damaged(rng, sheet):
    """One to three bytes changed, or the end cut off."""
    sheet = bytearray(sheet)
    if rng.random() < 0.1:
        return bytes(sheet[:rng.randint(0, len(sheet))])
    for _ in range(rng.randint(1, 3)):
        at = rng.randrange(len(sheet))
        sheet[at] = rng.choice([0, 1, 2, 4, 6, 9, 32, rng.randrange(256)])
    return bytes(sheet)


def sample_pairs():
    """All samples: (name, settings, exercise, answer), None for a missing sheet."""
    root = os.path.join(TOP, "samples")

    def sheet(*path):
        if not os.path.isfile(os.path.join(root, *path)):
            return None
        with open(os.path.join(root, *path), "rb") as file:
            return file.read()

    for name in sorted(os.listdir(root)):
        if not os.path.isdir(os.path.join(root, name)):
            continue
        answers = [file for file in os.listdir(os.path.join(root, name))
                   if file.endswith(".lxa")] or ["answer.lxa"]
        for file in sorted(answers):
            yield (name + "/" + file, sheet(name, "settings.lxt"), sheet(name, "exercise.lxe"),
                   sheet(name, file))


def main():
    rng = random.Random(SEED)
    on_samples, on_random = {}, {}
    for name, board, ex, an in sample_pairs():
        for by in (HOUSE if board is None else board, SECOND):
            hold(name, by, ex, an, on_samples)
    for k in range(PAIRS):
        (ex, an), board = random_pair(rng), random_board(rng)
        hold("pair %d" % k, board, ex, an, on_random)
        assert "up to 51" not in on_random, \
            "pair %d breaks a rule up to 51: %s" % (k, judge(board, ex, an)[0])
    damaged_pairs = {}
    for k in range(PAIRS // 3):
        (ex, an), board = random_pair(rng), random_board(rng)
        which = rng.randrange(3)
        sheets = [damaged(rng, sheet) if i == which else sheet for i, sheet in enumerate([board, ex, an])]
        hold("damaged sheet %d of %d" % (which, k), *sheets, damaged_pairs)
    for number in range(70, 76):
        assert on_samples.get(number), "no sample with %d" % number
        assert damaged_pairs.get(number), "no damaged settings sheet with %d: %s" % (number, damaged_pairs)
    for number in [0] + list(range(60, 66)):
        assert on_samples.get(number), "no sample with %d" % number
        assert on_random.get(number, 0) >= PAIRS // 100, "few random sheets with %d: %s" % (number, on_random)
        if number:
            assert on_random.get("legal, full for %d" % number), "no legal LAB at the limit of %d" % number
    for key in ONE_NET:
        assert on_samples.get(key) and on_random.get(key, 0) >= PAIRS // 100, (key, on_samples, on_random)
    count = lambda tally: sum(n for key, n in tally.items() if key == 0 or key in range(60, 66))
    print("words: --labs counts as the judge does, on %d pairs of samples, %d random pairs and %d damaged ones, each on a board"
          % (count(on_samples), count(on_random), count(damaged_pairs)))
    if os.environ.get("WORDS_TALLY"):
        print(on_samples, on_random, damaged_pairs, sep="\n")


main()
