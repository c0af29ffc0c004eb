#!/usr/bin/env python3
"""Sample sheets for the judge of placement exercises.

    python3 tools/sheets.py make    write all samples under samples/, and the settings sheets
                                    under boards/
    python3 tools/sheets.py words [--labs] [--settings SETTINGS] EXERCISE ANSWER
                                    print the sheets in words, with --labs also what each LAB has
    python3 tools/sheets.py words --settings SETTINGS
                                    print a settings sheet in words
    python3 tools/sheets.py words --log LOG
                                    print a log of the tablets in words
    python3 tools/sheets.py list    print one line a sample

This tool builds sheets and prints sheets. It does not judge them. What the judge has to
answer for a sample is written down next to the sample: the number, the cell, the LAB, the
apprentice, the culprit and, for a legal answer, the route bytes of each occupied LAB, for some
also the tries of each occupied LAB; for a log the number, the minutes of each apprentice and the
entries that cover nothing.

To build sheets of your own, import it: see docs/SAMPLES.md. A wrong number is refused with a
ValueError. Sheets that are wrong on purpose are built with raw_record, raw_exercise,
raw_answer, raw_settings, raw_log and patch, which only ask that each number fits its bytes.
"""

import os
import stat
import struct
import sys

# ---------------------------------------------------------------- signals and sheets

MAX_NETS = 1024
MAX_CELLS = 512
MAX_ENTRIES = 8
MAX_ANSWERS = 32
MAX_LOG = 1024                  # entries of a log
WEEK = 10080                    # minutes of a week


class Signal(int):
    """A signal's code. Only OPEN, GND, VCC and what net() and inv() give are signals, so that
    a net's number and a signal's code are not taken for each other."""


OPEN = Signal(0)    # unconnected
GND = Signal(1)
VCC = Signal(2)
F = 255             # a route byte without a need
NONE = 65535

# The roles of a control entry, as flags; an entry that serves more than one has their sum.
CLK, ENA, ACLR, SCLR, SLOAD = 1, 2, 4, 8, 16
ROLES = ("clk", "ena", "aclr", "sclr", "sload")


def checked(what, value, low, high):
    """The value, which has to be a plain whole number from low to high."""
    if isinstance(value, Signal):
        raise ValueError("%s is a number, not the signal %s" % (what, signal_text(value)))
    if type(value) is not int:
        raise ValueError("%s is a whole number, not %r" % (what, value))
    if not low <= value <= high:
        raise ValueError("%s is %d to %d, not %d" % (what, low, high, value))
    return value


def net(n):
    """Net n, by its number."""
    return Signal(4 + 2 * checked("a net", n, 0, MAX_NETS - 1))


def inv(n):
    """Net n inverted, by its number: inv(3), not inv(net(3))."""
    return Signal(5 + 2 * checked("a net", n, 0, MAX_NETS - 1))


COMB_PORTS = ("dataa", "datab", "datac", "datad", "cin", "combout", "cout",
              "zero 1", "zero 2", "zero 3", "zero 4")
REG_PORTS = ("datain", "clk", "ena", "aclr", "sclr", "sload", "sdata", "regout",
             "zero 1", "zero 2", "zero 3")
PORTS = {1: COMB_PORTS, 2: REG_PORTS}
OUTPUTS = ("combout", "cout", "regout")


def signal_text(code):
    """A signal in words."""
    if code < 4:
        return ("open", "GND", "VCC", "code 3")[code]
    return ("/net %d" if code % 2 else "net %d") % ((code - 4) // 2)


def raw_record(kind, flag, codes):
    """A cell record of any bytes: kind, flag, up to eleven signals or codes, then zeros."""
    codes = list(codes)
    if len(codes) > 11:
        raise ValueError("a record has 11 signals, not %d" % len(codes))
    codes = [checked("a code", int(c) if isinstance(c, Signal) else c, 0, 65535) for c in codes]
    return struct.pack("<BB11H", checked("a kind", kind, 0, 255), checked("a flag", flag, 0, 255),
                       *(codes + [0] * (11 - len(codes))))


def record(kind, flag, signals):
    """A cell record that keeps the layout: kind, flag, its signals in the order of the ports."""
    ports = PORTS[checked("a kind", kind, 1, 2)]
    checked("a register's flag" if kind == 2 else "a flag", flag, 0, 2 - kind)
    signals = list(signals)
    for name, signal in zip(ports, signals):
        if not isinstance(signal, Signal):
            raise ValueError("%s is a signal (OPEN, GND, VCC, net(n) or inv(n)), not %r"
                             % (name, signal))
        if name.startswith("zero") and signal != OPEN:
            raise ValueError("%s after the ports is 0, not %s" % (name, signal_text(signal)))
        if name in OUTPUTS and signal != OPEN and (signal < 4 or signal % 2):
            raise ValueError("%s is an output, so OPEN or net(n), not %s"
                             % (name, signal_text(signal)))
    return raw_record(kind, flag, signals)


def comb(a=OPEN, b=OPEN, c=OPEN, d=OPEN, cin=OPEN, o=OPEN, cout=OPEN, flag=0):
    """A combinational cell; o is combout."""
    return record(1, flag, [a, b, c, d, cin, o, cout])


def reg(d=OPEN, clk=OPEN, ena=OPEN, aclr=OPEN, sclr=OPEN, sload=OPEN, sdata=OPEN,
        q=OPEN, flag=0):
    """A register; d is datain, q is regout."""
    return record(2, flag, [d, clk, ena, aclr, sclr, sload, sdata, q])


def raw_exercise(nets, *cells):
    """An exercise sheet of any net count and any records."""
    for i, cell in enumerate(cells):
        if not isinstance(cell, bytes) or len(cell) != 24:
            raise ValueError("cell %d is no record of 24 bytes" % i)
    return (b"LXE" + struct.pack("<HHH", 1, checked("a net count", nets, 0, 65535),
                                 checked("a cell count", len(cells), 0, 65535))
            + b"".join(cells))


def exercise(nets, *cells):
    """An exercise sheet; a cell is what comb() or reg() gives."""
    checked("a net count", nets, 0, MAX_NETS)
    checked("a cell count", len(cells), 0, MAX_CELLS)
    sheet = raw_exercise(nets, *cells)
    for i, cell in enumerate(cells):
        bad = [w for w in cell_words(cell, nets).split(", ") if "(bad: " in w]
        if bad:
            raise ValueError("cell %d: %s" % (i, bad[0]))
    return sheet


def raw_answer(apprentice, *places):
    """An answer sheet of any apprentice and places; a place is (x, y, LE)."""
    head = b"LXA" + struct.pack("<HIH", 1, checked("an apprentice", apprentice, 0, 0xffffffff),
                                checked("a cell count", len(places), 0, 65535))
    for i, place in enumerate(places):
        if not isinstance(place, (tuple, list)) or len(place) != 3:
            raise ValueError("place %d is (x, y, LE), not %r" % (i, place))
        for name, value in zip(("x", "y", "LE"), place):
            checked("%s of place %d" % (name, i), value, 0, 255)
    return head + b"".join(bytes([x, y, le, 0]) for x, y, le in places)


def answer(apprentice, *places):
    """An answer sheet; a place is (x, y, LE)."""
    checked("an apprentice", apprentice, 1, 0xffffffff)
    checked("a cell count", len(places), 0, MAX_CELLS)
    sheet = raw_answer(apprentice, *places)
    for i, place in enumerate(places):
        for name, value, top in zip(("x", "y", "LE"), place, (31, 31, 15)):
            checked("%s of place %d" % (name, i), value, 0, top)
    return sheet


def raw_settings(version, board, *entries):
    """A settings sheet of any version and flags; board is None where there is no such number."""
    head = b"LXT" + struct.pack("<HB", checked("a version", version, 0, 65535),
                                checked("an entry count", len(entries), 0, 255))
    if board is not None:
        head += struct.pack("<H", checked("a board", board, 0, 65535))
    return head + bytes(checked("entry %d" % i, flags, 0, 255)
                        for i, flags in enumerate(entries))


def settings(*entries, board=None):
    """A settings sheet; an entry is the sum of its roles' flags. With a board's number it is of
    version 2, otherwise of version 1, which stands for board 0."""
    checked("an entry count", len(entries), 0, MAX_ENTRIES)
    for i, flags in enumerate(entries):
        checked("entry %d" % i, flags, 0, 31)
    return raw_settings(1 if board is None else 2, board, *entries)


def class_sheet(*answers):
    """A class sheet; an answer is any bytes that fit a length of 16 bits."""
    sheet = b"LXC" + struct.pack("<HH", 1, checked("an answer count", len(answers), 0,
                                                   MAX_ANSWERS))
    for i, an in enumerate(answers):
        if not isinstance(an, bytes):
            raise ValueError("answer %d is a sheet, not %r" % (i, an))
        sheet += struct.pack("<H", checked("the length of answer %d" % i, len(an), 0, 65535)) + an
    return sheet


ENTRY_FIELDS = (("apprentice", 0, 4), ("verdict", 4, 2), ("opening", 6, 2), ("closing", 8, 2),
                ("login", 10, 4))


def raw_log(*entries):
    """A log of any entries; an entry is (apprentice, verdict, opening, closing, login)."""
    log = b"LXL" + struct.pack("<HH", 1, checked("an entry count", len(entries), 0, 65535))
    for i, entry in enumerate(entries):
        if not isinstance(entry, (tuple, list)) or len(entry) != len(ENTRY_FIELDS):
            raise ValueError("entry %d is (apprentice, verdict, opening, closing, login), not %r"
                             % (i, entry))
        for (name, _, size), value in zip(ENTRY_FIELDS, entry):
            checked("%s of entry %d" % (name, i), value, 0, 256 ** size - 1)
            log += value.to_bytes(size, "little")
    return log


def log(*entries):
    """A log of the tablets. The minutes are 0 to 10080 of the week; the closing one is not
    covered."""
    checked("an entry count", len(entries), 0, MAX_LOG)
    sheet = raw_log(*entries)
    for i, (apprentice, _, opening, closing, _) in enumerate(entries):
        checked("apprentice of entry %d" % i, apprentice, 1, 2 ** 32 - 1)
        checked("opening of entry %d" % i, opening, 0, WEEK)
        checked("closing of entry %d" % i, closing, 0, WEEK)
    return sheet


# The board of document 01, and a second one that is wired differently.
HOUSE = settings(CLK, CLK + ACLR, CLK + ENA, ENA + SLOAD, ACLR + SCLR, SCLR + SLOAD)
SECOND = settings(CLK + SCLR, CLK + SLOAD, CLK + ENA, ENA + ACLR, ENA, ACLR, ACLR, 0, board=2)
BOARDS = {"house.lxt": HOUSE, "second.lxt": SECOND}


def patch(sheet, start, *values):
    """The sheet with the bytes from start on replaced."""
    checked("the first byte of a patch", start, 0, len(sheet) - len(values))
    return sheet[:start] + bytes(values) + sheet[start + len(values):]


# ---------------------------------------------------------------- sheets in words

RAW_PORTS = tuple("signal %d" % i for i in range(11))


def count_of(n, what):
    return "%d %s%s" % (n, what, "" if n == 1 else "s")


def hexes(data):
    """Bytes in hexadecimal, the first sixteen of them."""
    text = " ".join("%02x" % b for b in data[:16])
    return text + (" ..." if len(data) > 16 else "")


class FilePart(bytes):
    """The first bytes of a file, and how many it has."""

    file_size = 0


def size_of(data):
    """The size of a sheet, of which a FilePart holds only the first bytes."""
    return max(len(data), getattr(data, "file_size", 0))


def number_at(data, start, size):
    """The little-endian number at start, or None where its bytes are missing."""
    if len(data) < start + size:
        return None
    return int.from_bytes(data[start:start + size], "little")


def signal_words(name, code, nets):
    """A connected port as name=signal, with what is bad about it; None if unconnected."""
    if code == 0:
        return None
    bad = ""
    if code == 3:
        bad = " (bad: no such signal)"
    elif code >= 4 and (code - 4) // 2 >= nets:
        bad = " (bad: the sheet has %s)" % count_of(nets, "net")
    if not bad and name.startswith("zero"):
        bad = " (bad: must be 0)"
    if not bad and name in OUTPUTS and (code < 4 or code % 2):
        bad = " (bad: an output is an uninverted net)"
    return "%s=%s%s" % (name, signal_text(code), bad)


def cell_words(data, nets):
    """One whole exercise record in words."""
    kind, flag = data[0], data[1]
    codes = struct.unpack("<11H", data[2:24])
    if kind == 1:
        parts, ports = ["combinational"], COMB_PORTS
        flag_bad = "" if flag in (0, 1) else " (bad: must be 0 or 1)"
    elif kind == 2:
        parts, ports = ["register"], REG_PORTS
        flag_bad = "" if flag == 0 else " (bad: must be 0)"
    else:
        parts, ports = ["kind %d (bad: must be 1 or 2)" % kind], RAW_PORTS
        flag_bad = ""
    parts.append("flag %d%s" % (flag, flag_bad))
    for name, code in zip(ports, codes):
        words = signal_words(name, code, nets)
        if words:
            parts.append(words)
    return ", ".join(parts)


def lab_of(place):
    """The LAB of a whole answer record, 32y + x, or None where x or y is out of range."""
    return 32 * place[1] + place[0] if place[0] < 32 and place[1] < 32 else None


def place_words(data):
    """One whole answer record in words."""
    parts = []
    for name, value, top in (("x", data[0], 31), ("y", data[1], 31), ("LE", data[2], 15)):
        bad = " (bad: over %d)" % top if value > top else ""
        parts.append("%s %d%s" % (name, value, bad))
    if data[3]:
        parts.append("last byte %d (bad: must be 0)" % data[3])
    lab = lab_of(data)
    return "place " + " ".join(parts) + ("" if lab is None else ", LAB %d" % lab)


def part_words(what, data, start, size, whole):
    """The record at start in words, or how much of it is there."""
    part = data[start:start + size]
    if len(part) == size:
        return whole(part)
    if part:
        return "%s cut short, %d of %d bytes: %s" % (what, len(part), size, hexes(part))
    return "%s missing" % what


def head_words(what, data, mark, size, fields):
    """The header of a sheet in words. Fields are (name, start, size, complaint)."""
    if data is None:
        return ["%s: no file, counts as empty" % what]
    lines = ["%s: %s" % (what, count_of(size_of(data), "byte"))]
    if len(data) < size:
        lines.append("  header cut short, %d of %d bytes: %d missing"
                     % (len(data), size, size - len(data)))
    if data:
        seen = data[:3]
        if seen == mark:
            lines.append("  mark %s" % mark.decode())
        elif len(seen) < 3:
            lines.append("  mark cut short: %s" % hexes(seen))
        else:
            shown = "".join(chr(b) if 32 < b < 127 else "." for b in seen)
            lines.append("  mark %s, %s (bad: must be %s)"
                         % (shown, hexes(seen), mark.decode()))
    for name, start, width, complaint in fields:
        value = number_at(data, start, width)
        if value is not None:
            bad = complaint(value)
            lines.append("  %s %d%s" % (name, value, " (bad: %s)" % bad if bad else ""))
        elif len(data) > start:
            lines.append("  %s cut short: %s" % (name, hexes(data[start:start + width])))
    return lines


def records(data, head, size, cells):
    """How many records show at least one byte."""
    return min(cells, max(0, -(-(len(data) - head) // size)))


def tail_words(data, head, size, count, shown, one="record missing for cell",
               more="records missing for cells"):
    """What is missing or left over after the records that show."""
    lines = []
    if shown < count:
        if shown + 1 == count:
            lines.append("  %s %d" % (one, shown))
        else:
            lines.append("  %s %d to %d" % (more, shown, count - 1))
    end = head + size * count
    if size_of(data) > end:
        left = size_of(data) - end
        dots = " ..." if left > 16 else ""
        lines.append("  %s left over at the end: %s"
                     % (count_of(left, "byte"), hexes(data[end:end + 16]) + dots))
    return lines


def entry_words(flags):
    """The roles that an entry serves."""
    roles = [name for i, name in enumerate(ROLES) if flags >> i & 1]
    bad = " (bad: byte %d, over 31)" % flags if flags > 31 else ""
    return (", ".join(roles) or "nothing") + bad


def settings_words(data):
    """A settings sheet in words, line by line. A version that there is not is read like 1."""
    is_second = number_at(data, 3, 2) == 2
    head = 8 if is_second else 6
    fields = [("version", 3, 2, lambda v: "" if v in (1, 2) else "must be 1 or 2"),
              ("entries", 5, 1, lambda v: "at most 8" if v > MAX_ENTRIES else "")]
    if is_second:
        fields.append(("board", 6, 2, lambda v: ""))
    lines = head_words("settings", data, b"LXT", head, fields)
    if number_at(data, 3, 2) == 1:
        lines.append("  board 0, for which version 1 stands")
    count = number_at(data, 5, 1) or 0
    shown = records(data, head, 1, count)
    lines += ["  entry %d: %s" % (i, entry_words(data[head + i])) for i in range(shown)]
    return lines + tail_words(data, head, 1, count, shown, "byte missing for entry",
                              "bytes missing for entries")


def log_entry_words(data):
    """What stands on an entry of a log. Nothing is said of the minutes that it covers."""
    bad = {"apprentice": lambda v: "" if v else "must not be 0",
           "opening": lambda v: "over 10080" if v > WEEK else ""}
    bad["closing"] = bad["opening"]
    parts = []
    for name, start, size in ENTRY_FIELDS:
        value = number_at(data, start, size)
        why = bad.get(name, lambda v: "")(value)
        parts.append("%s %d%s" % (name, value, " (bad: %s)" % why if why else ""))
    return ", ".join(parts)


def log_words(data):
    """A log in words, line by line, None for a missing file."""
    lines = head_words("log", data, b"LXL", 7, [
        ("version", 3, 2, lambda v: "" if v == 1 else "must be 1"),
        ("entries", 5, 2, lambda v: "at most 1024" if v > MAX_LOG else ""),
    ])
    data = data or b""
    count = number_at(data, 5, 2) or 0
    shown = records(data, 7, 14, count)
    lines += ["entry %d: %s" % (i, part_words("entry", data, 7 + 14 * i, 14, log_entry_words))
              for i in range(shown)]
    return lines + tail_words(data, 7, 14, count, shown, "bytes missing for entry",
                              "bytes missing for entries")


def words(ex, an, labs=False, settings=None):
    """Two sheets in words, with labs also what each LAB has. Each sheet is a byte run, or None
    for a missing file. With a settings sheet, that one first."""
    version_bad = lambda v: "" if v == 1 else "must be 1"
    lines = [] if settings is None else settings_words(settings)
    lines += head_words("exercise", ex, b"LXE", 9, [
        ("version", 3, 2, version_bad),
        ("nets", 5, 2, lambda v: "at most 1024" if v > 1024 else ""),
        ("cells", 7, 2, lambda v: "at most 512" if v > 512 else ""),
    ])
    ex = ex or b""
    nets = number_at(ex, 5, 2) or 0
    ex_cells = number_at(ex, 7, 2) or 0
    ex_shown = records(ex, 9, 24, ex_cells)
    lines += tail_words(ex, 9, 24, ex_cells, ex_shown)

    lines += head_words("answer", an, b"LXA", 11, [
        ("version", 3, 2, version_bad),
        ("apprentice", 5, 4, lambda v: "" if v else "must not be 0"),
        ("cells", 9, 2, lambda v: "the exercise has %d" % ex_cells
         if len(ex) >= 9 and v != ex_cells else ""),
    ])
    an = an or b""
    an_cells = number_at(an, 9, 2) or 0
    an_shown = records(an, 11, 4, an_cells)
    lines += tail_words(an, 11, 4, an_cells, an_shown)

    for i in range(max(ex_shown, an_shown)):
        if i < ex_shown:
            left = part_words("record", ex, 9 + 24 * i, 24, lambda p: cell_words(p, nets))
        else:
            left = "no record on the exercise sheet"
        if i < an_shown:
            right = part_words("place", an, 11 + 4 * i, 4, place_words)
        else:
            right = "no place on the answer sheet"
        lines.append("cell %d: %s; %s" % (i, left, right))
    if labs:
        lines += labs_words(ex, an, min(ex_shown, an_shown))
    return "\n".join(lines) + "\n"


# ---------------------------------------------------------------- what each LAB has

class Lab:
    """What the cells of one LAB bring, as document 01 counts it for rules 60 to 65. Each of
    clk, pairs, aclr and synchronous has the distinct signals or pairs, each with the cells that
    bring it and the ports that do so by being open."""

    def __init__(self):
        self.cells = []
        self.clk, self.pairs, self.aclr, self.synchronous = {}, {}, {}, {}
        self.read, self.driven, self.needs = set(), set(), set()

    def add(self, i, data):
        """Cell i, by its record. One of another kind than 1 and 2 brings nothing."""
        self.cells.append(i)
        codes = struct.unpack("<11H", data[2:24])
        port = dict(zip(PORTS.get(data[0], ()), codes))
        for name, code in port.items():
            if code >= 4 and not name.startswith("zero") and name != "cin":
                (self.driven if name in OUTPUTS else self.read).add((code - 4) // 2)
        if data[0] == 2:
            self.add_register(i, port)

    def add_register(self, i, port):
        used = port["regout"] != OPEN
        clk = port["clk"] or (GND if used else OPEN)
        ena = port["ena"] or (VCC if used else OPEN)
        aclr = port["aclr"] or (GND if used else OPEN)

        def bring(counted, signal, *names):
            is_open = [name for name in names if port[name] == OPEN]
            counted.setdefault(signal, []).append((i, is_open))

        if clk != OPEN:
            bring(self.clk, clk, "clk")
            bring(self.pairs, (clk, ena), "clk", "ena")
        if aclr != OPEN:
            bring(self.aclr, aclr, "aclr")
        synchronous = (port["sload"] or GND, port["sclr"] or GND)
        if synchronous != (GND, GND):
            bring(self.synchronous, synchronous, "sload", "sclr")
        for role, name in enumerate(ROLES):
            if port[name] >= 4:
                self.needs.add((role, port[name]))

    def nets_in(self):
        """The nets that rule 64 counts: read at any port but cin and not driven in the LAB."""
        return sorted(self.read - self.driven)

    def lines(self, number):
        def brought(counted, text):
            return ["    %s: %s" % (text(signal), ", ".join(
                        "cell %d" % i + (" (%s open)" % " and ".join(is_open) if is_open else "")
                        for i, is_open in counted[signal]))
                    for signal in sorted(counted)]

        pair_text = lambda pair: "(%s, %s)" % (signal_text(pair[0]), signal_text(pair[1]))
        out = ["lab %d, x %d y %d: %s: %s" % (number, number % 32, number // 32,
                                              count_of(len(self.cells), "cell"),
                                              " ".join(str(i) for i in self.cells))]
        for name, counted, text in (("clk", self.clk, signal_text),
                                    ("(clk, ena)", self.pairs, pair_text),
                                    ("aclr", self.aclr, signal_text),
                                    ("(sload, sclr)", self.synchronous, pair_text)):
            out.append("  %s: %d" % (name, len(counted)))
            out += brought(counted, text)
        for name, items in (("nets in", [str(n) for n in self.nets_in()]),
                            ("needs", ["%s %s" % (ROLES[role], signal_text(code))
                                       for role, code in sorted(self.needs)])):
            out.append("  %s: %d" % (name, len(items)))
            if items:
                out.append("    " + ", ".join(items))
        return out


def labs_of(ex, an, cells):
    """The LABs of the cells that have a whole record and a place with a LAB."""
    labs = {}
    for i in range(cells):
        data, place = ex[9 + 24 * i:33 + 24 * i], an[11 + 4 * i:15 + 4 * i]
        if len(data) == 24 and len(place) == 4 and lab_of(place) is not None:
            labs.setdefault(lab_of(place), Lab()).add(i, data)
    return labs


def labs_words(ex, an, cells):
    """What each LAB has, in words, the LABs rising."""
    labs = labs_of(ex, an, cells)
    return [line for number in sorted(labs) for line in labs[number].lines(number)]


# ---------------------------------------------------------------- expected answers

class Expected:
    """What the judge has to answer, written down by hand."""

    def __init__(self, number, culprit, cell=NONE, lab=NONE, apprentice=0, routes=None,
                 tries=None):
        self.number = number
        self.cell = cell
        self.lab = lab
        self.apprentice = apprentice
        self.culprit = culprit          # (sheet, start, length)
        self.routes = routes or {}      # LAB number -> eight route bytes
        self.tries = tries              # where they are written down: the lines of Tries

    def route_lines(self):
        return "".join("route %d %s\n" % (lab, " ".join(str(b) for b in self.routes[lab]))
                       for lab in sorted(self.routes))

    def expected_lines(self):
        return ("number %d\ncell %d\nlab %d\napprentice %d\nculprit %s %d %d\n"
                % ((self.number, self.cell, self.lab, self.apprentice) + self.culprit)
                + self.route_lines())

    def listing(self):
        dash = lambda value, none: "-" if value == none else str(value)
        text = "verdict %d cell %s lab %s apprentice %d\n" % (
            self.number, dash(self.cell, NONE), dash(self.lab, NONE), self.apprentice)
        for lab in sorted(self.routes):
            text += ("lab %d clk %s %s ena %s %s aclr %s %s sclr %s sload %s\n"
                     % ((lab,) + tuple(dash(b, F) for b in self.routes[lab])))
        return text


def legal(apprentice, end, routes, tries=None):
    """A legal answer; end is the length of the answer sheet. With tries, a dictionary from LAB to
    their number."""
    if tries is not None:
        tries = [(lab, tries[lab], 0, routes[lab]) for lab in sorted(routes)]
    return Expected(0, ("answer", end, 0), apprentice=apprentice, routes=routes, tries=tries)


def no_board(number, end):
    """A settings sheet that is refused; end is the length of the answer sheet."""
    return Expected(number, ("answer", end, 0))


EMPTY = [F, F, F, F, F, F, F, F]    # an occupied LAB without needs


class Tries:
    """What './nurimkkot tries' prints of a verdict of 0 or 65 on a board. Each occupied LAB has a
    line (LAB, tries, number, route): 0 and the eight route bytes, 65 and EMPTY, or, above a
    refused LAB, None and EMPTY."""

    MEANING = {0: "the answer is legal",
               65: "the control entries of the board cannot serve the needs of the LAB"}

    def __init__(self, expected, board):
        self.expected = expected
        self.board = board

    def words(self, number, route):
        if number is None:
            return "not searched"
        if number:
            return "refused with %d" % number
        entries = [(name, [str(b) for b in route[first:end] if b != F])
                   for name, first, end in zip(ROLES, (0, 2, 4, 6, 7), (2, 4, 6, 7, 8))]
        told = [" ".join([name] + found) for name, found in entries if found]
        return ", ".join(told) or "no needs"

    def lines(self):
        where = "" if self.expected.lab == NONE else ", LAB %d" % self.expected.lab
        text = "verdict %d on the board of %s%s: %s\n" % (
            self.expected.number, self.board, where, self.MEANING[self.expected.number])
        text += " lab       tries  route\n"
        for lab, tries, number, route in self.expected.tries:
            text += "%4d  %10d  %s\n" % (lab, tries, self.words(number, route))
        return text + " sum  %10d\n" % sum(line[1] for line in self.expected.tries)

    def csv(self):
        """The same with --csv."""
        text = "lab,tries,number,clk_1,clk_2,ena_1,ena_2,aclr_1,aclr_2,sclr,sload\n"
        for lab, tries, number, route in self.expected.tries:
            fields = [lab, tries, "" if number is None else number]
            fields += ["" if b == F else b for b in route]
            text += ",".join(str(field) for field in fields) + "\n"
        return text


# ---------------------------------------------------------------- the samples

SAMPLES = []


def sample(name, why, ex, an, expected, settings=None):
    """A sample; without a settings sheet it is judged by the board of document 01."""
    SAMPLES.append((name, why, ex, an, expected, settings))


# The worked listing, used by the header samples too: 57 and 19 bytes.
LISTING_CELLS = (
    reg(d=net(0), clk=net(1), aclr=net(2), q=net(3)),
    comb(a=net(3), o=net(0)),
)
LISTING_EX = exercise(4, *LISTING_CELLS)
LISTING_AN = answer(7, (2, 1, 0), (2, 1, 0))


def settled_samples():
    sample("listing", "the worked listing: one register and one combinational cell share an LE",
           LISTING_EX, LISTING_AN,
           legal(7, 19, {34: [0, F, F, F, 1, F, F, F]}))

    sample("p09", "one clk, one ena, one aclr: entries 0, 2, 1",
           exercise(5, reg(d=net(4), clk=net(0), ena=net(1), aclr=net(2), q=net(3))),
           answer(9, (3, 2, 5)),
           legal(9, 15, {67: [0, F, 2, F, 1, F, F, F]}))

    sample("p10", "two clk, two aclr: entries 0, 2, 1, 4",
           exercise(7,
                    reg(d=net(4), clk=net(0), aclr=net(2), q=net(5)),
                    reg(d=net(5), clk=net(1), aclr=net(3), q=net(6))),
           answer(10, (4, 2, 0), (4, 2, 1)),
           legal(10, 19, {68: [0, 2, F, F, 1, 4, F, F]}))

    sample("p11", "two clk, two ena, two aclr: no way, though six needs meet six entries",
           exercise(9,
                    reg(d=net(6), clk=net(0), ena=net(2), aclr=net(4), q=net(7)),
                    reg(d=net(7), clk=net(1), ena=net(3), aclr=net(5), q=net(8))),
           answer(11, (5, 2, 0), (5, 2, 1)),
           Expected(65, ("answer", 11, 4), lab=69, apprentice=11))

    sample("p12", "two clk, two aclr, sclr, sload: entries 0, 2, 1, 4, 5, 3",
           exercise(10,
                    reg(d=net(6), clk=net(0), aclr=net(2), sclr=net(4), sload=net(5),
                        sdata=net(7), q=net(8)),
                    reg(d=net(8), clk=net(1), aclr=net(3), q=net(9))),
           answer(12, (6, 2, 0), (6, 2, 1)),
           legal(12, 19, {70: [0, 2, F, F, 1, 4, 5, 3]}))


def wide_cells(first=38):
    """Nine combinational cells that read nets 0 to 35 and drive nine nets, the first being 38."""
    return [comb(a=net(4 * i), b=net(4 * i + 1), c=net(4 * i + 2), d=net(4 * i + 3),
                 o=net(first + i)) for i in range(9)]


def long_shift(cells):
    """One shift register: clk net 0, serial input net 1, outputs from net 2 on."""
    return raw_exercise(2 + cells, *[reg(d=net(1 + i), clk=net(0), q=net(2 + i))
                                     for i in range(cells)])


def edge_samples():
    ten = [(5, 0, i) for i in range(10)]
    sample("edge-38-nets",
           "38 nets read by one LAB; an inverse and a net driven inside add nothing",
           exercise(48, *wide_cells(),
                    comb(a=net(36), b=net(37), c=inv(0), d=net(38), o=net(47))),
           answer(38, *ten),
           legal(38, 51, {5: EMPTY}))
    sample("edge-39-nets", "the same LAB with one net more",
           exercise(49, *wide_cells(),
                    comb(a=net(36), b=net(37), c=net(48), d=net(38), o=net(47))),
           answer(39, *ten),
           Expected(64, ("answer", 11, 4), lab=5, apprentice=39))
    sample("edge-38-nets-and-carry",
           "38 nets read by LAB 101, and a carry from LAB 133 that does not count",
           exercise(51,
                    comb(a=net(40), cout=net(39)),
                    comb(a=net(0), b=net(1), cin=net(39), o=net(41), flag=1),
                    *[comb(a=net(4 * i + 2), b=net(4 * i + 3), c=net(4 * i + 4),
                           d=net(4 * i + 5), o=net(42 + i)) for i in range(9)]),
           answer(40, (5, 4, 15), (5, 3, 0), *[(5, 3, 1 + i) for i in range(9)]),
           legal(40, 55, {101: EMPTY, 133: EMPTY}))

    sample("edge-38-nets-twice", "two LABs that read the same 38 nets",
           exercise(58, *wide_cells(), comb(a=net(36), b=net(37), o=net(47)),
                    *wide_cells(48), comb(a=net(36), b=net(37), o=net(57))),
           answer(41, *ten, *[(6, 0, i) for i in range(10)]),
           legal(41, 91, {5: EMPTY, 6: EMPTY}))
    sample("edge-38-nets-driven-later",
           "38 nets read by one LAB, and one more that its last cell drives",
           exercise(49, *wide_cells(), comb(a=net(36), b=net(37), c=net(47), o=net(48)),
                    comb(a=net(0), o=net(47))),
           answer(42, *ten, (5, 0, 10)),
           legal(42, 55, {5: EMPTY}))

    sample("edge-le-15", "LE 15 is the last",
           LISTING_EX, answer(15, (2, 1, 15), (2, 1, 15)),
           legal(15, 19, {34: [0, F, F, F, 1, F, F, F]}))
    sample("edge-le-16", "cell 1 stands in LE 16, which there is not",
           LISTING_EX, raw_answer(16, (2, 1, 15), (2, 1, 16)),
           Expected(26, ("answer", 15, 4), cell=1, apprentice=16))

    sample("edge-512-cells", "512 cells, the most: one shift register over 32 LABs",
           long_shift(512), answer(512, *[(i // 16, 31, i % 16) for i in range(512)]),
           legal(512, 2059, {992 + i: [0, F, F, F, F, F, F, F] for i in range(32)}))
    sample("edge-513-cells", "513 cells, one too many",
           long_shift(513),
           raw_answer(513, *[(i // 16, 31, i % 16) for i in range(512)], (0, 30, 0)),
           Expected(13, ("exercise", 0, 9)))

    sample("edge-1024-nets", "1,024 nets, the most, and the last LAB",
           exercise(1024,
                    reg(d=net(1022), clk=inv(1023), q=net(1021)),
                    comb(a=net(1021), b=net(1023), o=net(1022))),
           answer(1024, (31, 31, 0), (31, 31, 0)),
           legal(1024, 19, {1023: [0, F, F, F, F, F, F, F]}))

    sample("edge-three-clocks", "clocks A, the inverse of A and GND are three signals",
           exercise(5,
                    reg(d=net(1), clk=net(0), q=net(2)),
                    reg(d=net(2), clk=inv(0), q=net(3)),
                    reg(d=net(3), clk=GND, q=net(4))),
           answer(3, (7, 1, 0), (7, 1, 1), (7, 1, 2)),
           Expected(60, ("answer", 11, 4), lab=39, apprentice=3))

    sample("edge-no-cells", "no nets, no cells, and the largest apprentice number",
           exercise(0), answer(4294967295),
           legal(4294967295, 11, {}))

    sample("edge-both-empty", "both files are there and empty",
           b"", b"", Expected(10, ("exercise", 0, 0)))
    sample("missing-exercise", "no exercise.lxe: it counts as empty",
           None, LISTING_AN, Expected(10, ("exercise", 0, 0)))
    sample("missing-answer", "no answer.lxa: it counts as empty",
           LISTING_EX, None, Expected(20, ("answer", 0, 0)))
    sample("missing-both", "neither file is there",
           None, None, Expected(10, ("exercise", 0, 0)))


def slip_samples():
    sample("slip-open-clock",
           "clocks A, B and an open clk on a used register, which counts as GND: three",
           exercise(7,
                    comb(a=net(2), o=net(3)),
                    reg(d=net(3), clk=net(0), q=net(4)),
                    reg(d=net(4), clk=net(1), q=net(5)),
                    reg(d=net(5), q=net(6))),
           answer(201, (8, 1, 0), (9, 1, 0), (9, 1, 1), (9, 1, 2)),
           Expected(60, ("answer", 15, 4), lab=41, apprentice=201))

    sample("slip-clock-enable-pairs",
           "(A, B), (A, C), (D, B): two clocks and two enables, but three pairs",
           exercise(8,
                    reg(d=net(4), clk=net(0), ena=net(1), q=net(5)),
                    reg(d=net(5), clk=net(0), ena=net(2), q=net(6)),
                    reg(d=net(6), clk=net(3), ena=net(1), q=net(7))),
           answer(202, (10, 1, 0), (10, 1, 1), (10, 1, 2)),
           Expected(61, ("answer", 11, 4), lab=42, apprentice=202))

    sample("slip-lowest-free-entry",
           "two clk, one ena, two aclr: the lowest free entry each time finds no way, "
           "but 0, 2, 3, 1, 4 is one",
           exercise(8,
                    reg(d=net(5), clk=net(0), ena=net(2), aclr=net(3), q=net(6)),
                    reg(d=net(6), clk=net(1), aclr=net(4), q=net(7))),
           answer(203, (11, 1, 0), (11, 1, 1)),
           legal(203, 19, {43: [0, 2, 3, F, 1, 4, F, F]}))

    sample("slip-first-clash",
           "cells 2, 3 and 4 each share an LE with a lower register: cell 2 is named",
           exercise(7, *[reg(d=net(1 + i), clk=net(0), q=net(2 + i)) for i in range(5)]),
           answer(204, (1, 1, 0), (1, 1, 1), (1, 1, 1), (1, 1, 0), (1, 1, 0)),
           Expected(50, ("answer", 19, 4), cell=2, apprentice=204))


def adder():
    """A four-bit adder: a nets 0 to 3, b nets 4 to 7, sums 8 to 11, carries 12 to 14."""
    return exercise(15,
                    comb(a=net(0), b=net(4), o=net(8), cout=net(12), flag=1),
                    comb(a=net(1), b=net(5), cin=net(12), o=net(9), cout=net(13), flag=1),
                    comb(a=net(2), b=net(6), cin=net(13), o=net(10), cout=net(14), flag=1),
                    comb(a=net(3), b=net(7), cin=net(14), o=net(11), flag=1))


def carry_samples():
    sample("carry-two-labs",
           "a carry chain from LE 15 at y 3 to LE 0 at y 2; flag 1 without cin is allowed",
           adder(), answer(301, (4, 3, 14), (4, 3, 15), (4, 2, 0), (4, 2, 1)),
           legal(301, 27, {68: EMPTY, 100: EMPTY}))
    sample("carry-at-bottom", "after LE 15 at y 0 the chain has no place to go",
           adder(), answer(302, (4, 0, 14), (4, 0, 15), (4, 31, 0), (4, 31, 1)),
           Expected(51, ("answer", 19, 4), cell=2, apprentice=302))
    sample("carry-ring", "a ring of three carries: cell 2 would have to stand in LE 3",
           exercise(9,
                    comb(a=net(0), cin=net(8), o=net(3), cout=net(6), flag=1),
                    comb(a=net(1), cin=net(6), o=net(4), cout=net(7), flag=1),
                    comb(a=net(2), cin=net(7), o=net(5), cout=net(8), flag=1)),
           answer(303, (3, 3, 1), (3, 3, 2), (3, 3, 0)),
           Expected(51, ("answer", 19, 4), cell=2, apprentice=303))


def exercise_sheet_samples():
    """Numbers 10 to 16."""
    sample("v10-too-short", "an exercise of 8 bytes",
           LISTING_EX[:8], LISTING_AN, Expected(10, ("exercise", 0, 8)))
    sample("v11-sheets-swapped", "the two sheets under each other's name",
           LISTING_AN, LISTING_EX, Expected(11, ("exercise", 0, 9)))
    sample("v12-version", "version 2",
           patch(LISTING_EX, 3, 2, 0), LISTING_AN, Expected(12, ("exercise", 0, 9)))
    sample("v12-byte-order", "version and counts with the high byte first: version 256",
           patch(LISTING_EX, 3, 0, 1, 0, 4, 0, 2), LISTING_AN,
           Expected(12, ("exercise", 0, 9)))
    sample("v13-nets", "1,025 nets, one too many",
           raw_exercise(1025, *LISTING_CELLS), LISTING_AN, Expected(13, ("exercise", 0, 9)))
    sample("v14-byte-missing", "the last byte of the exercise is missing",
           LISTING_EX[:-1], LISTING_AN, Expected(14, ("exercise", 0, 9)))
    sample("v14-byte-left-over", "one byte too many on the exercise",
           LISTING_EX + b"\0", LISTING_AN, Expected(14, ("exercise", 0, 9)))

    three = answer(7, (2, 1, 0), (2, 1, 0), (2, 1, 1))

    def fault(name, why, cell, number=15):
        sample(name, why, raw_exercise(6, *LISTING_CELLS, cell), three,
               Expected(number, ("exercise", 57, 24), cell=2))

    fault("v15-kind", "cell 2 is of kind 3", raw_record(3, 0, []))
    fault("v15-flag", "cell 2, combinational, has flag 2",
          raw_record(1, 2, [net(0), 0, 0, 0, 0, net(4)]))
    fault("v15-register-flag", "cell 2, a register, has flag 1",
          raw_record(2, 1, [net(0), net(1), 0, 0, 0, 0, 0, net(4)]))
    fault("v15-code-3", "cell 2 reads signal code 3",
          raw_record(1, 0, [net(0), 3, 0, 0, 0, net(4)]))
    fault("v15-net-too-high", "cell 2 reads net 6 of 6", comb(a=net(6), o=net(4)))
    fault("v15-output-inverted", "cell 2 drives an inverted net",
          raw_record(1, 0, [net(0), 0, 0, 0, 0, inv(4)]))
    fault("v15-output-constant", "cell 2 drives VCC",
          raw_record(2, 0, [net(0), net(1), 0, 0, 0, 0, 0, VCC]))
    fault("v15-trailing-signal", "the last of the four zeros of cell 2 is GND",
          raw_record(1, 0, [net(0), 0, 0, 0, 0, net(4), 0, 0, 0, 0, GND]))
    sample("v15-before-16", "cell 1 breaks 16, cell 2 breaks 15: 15 is asked of all cells first",
           raw_exercise(6, LISTING_CELLS[0], comb(a=net(0), o=net(3)), raw_record(3, 0, [])),
           three,
           Expected(15, ("exercise", 57, 24), cell=2))

    fault("v16-two-drivers", "cell 2 drives net 3, as cell 0 does",
          comb(a=net(1), o=net(3)), number=16)
    sample("v16-combout-and-cout", "combout and cout of cell 1 drive one net",
           exercise(4, LISTING_CELLS[0], comb(a=net(3), o=net(0), cout=net(0))), LISTING_AN,
           Expected(16, ("exercise", 33, 24), cell=1))
    sample("v16-first-clash", "cells 2, 3 and 4 each drive a net that is driven already: "
           "cell 2 is named",
           exercise(2, comb(o=net(0)), comb(o=net(1)), comb(o=net(1)), comb(o=net(0)),
                    comb(o=net(0))),
           answer(7, (1, 1, 0), (1, 1, 1), (1, 1, 2), (1, 1, 3), (1, 1, 4)),
           Expected(16, ("exercise", 57, 24), cell=2))


def answer_sheet_samples():
    """Numbers 20 to 26."""
    sample("v20-too-short", "an answer of 10 bytes",
           LISTING_EX, LISTING_AN[:10], Expected(20, ("answer", 0, 10)))
    sample("v21-mark", "the mark in small letters",
           LISTING_EX, b"lxa" + LISTING_AN[3:], Expected(21, ("answer", 0, 11)))
    sample("v22-version", "version 0",
           LISTING_EX, patch(LISTING_AN, 3, 0, 0), Expected(22, ("answer", 0, 11)))
    sample("v23-no-apprentice", "apprentice 0",
           LISTING_EX, raw_answer(0, (2, 1, 0), (2, 1, 0)), Expected(23, ("answer", 0, 11)))
    sample("v24-cell-count", "three places for two cells",
           LISTING_EX, answer(24, (2, 1, 0), (2, 1, 0), (2, 1, 1)),
           Expected(24, ("answer", 0, 11), apprentice=24))
    sample("v24-before-25", "the answer says three cells and has two places: 24 is asked first",
           LISTING_EX, patch(LISTING_AN, 9, 3),
           Expected(24, ("answer", 0, 11), apprentice=7))
    sample("v25-byte-missing", "the last byte of the answer is missing",
           LISTING_EX, LISTING_AN[:-1], Expected(25, ("answer", 0, 11), apprentice=7))
    sample("v25-byte-left-over", "one byte too many on the answer",
           LISTING_EX, LISTING_AN + b"\0", Expected(25, ("answer", 0, 11), apprentice=7))
    sample("v26-x", "cell 1 stands at x 32",
           LISTING_EX, raw_answer(261, (2, 1, 0), (32, 1, 0)),
           Expected(26, ("answer", 15, 4), cell=1, apprentice=261))
    sample("v26-y", "cell 1 stands at y 32",
           LISTING_EX, raw_answer(262, (2, 1, 0), (2, 32, 0)),
           Expected(26, ("answer", 15, 4), cell=1, apprentice=262))
    sample("v26-last-byte", "the last byte of cell 1's place is 1",
           LISTING_EX, patch(LISTING_AN, 18, 1),
           Expected(26, ("answer", 15, 4), cell=1, apprentice=7))


def register_samples():
    """Numbers 30 to 35. Cell 0 is a good register, cell 1 the bad one."""
    good = reg(d=net(0), clk=net(1), q=net(2))

    def fault(name, why, number, apprentice, cell):
        sample(name, why, exercise(6, good, cell), answer(apprentice, (3, 1, 0), (3, 1, 1)),
               Expected(number, ("exercise", 33, 24), cell=1, apprentice=apprentice))

    fault("v30-clk-without-regout", "cell 1 has a clk and no regout", 30, 1300,
          reg(d=net(2), clk=net(1)))
    fault("v31-sclr-without-clk", "cell 1 has a sclr and no clk", 31, 1310,
          reg(d=net(2), sclr=net(3), q=net(4)))
    fault("v31-sclr-gnd", "cell 1 has sclr at GND and no clk: GND is connected", 31, 1311,
          reg(d=net(2), sclr=GND, q=net(4)))
    fault("v32-sload-without-clk", "cell 1 has a sload and no clk", 32, 1320,
          reg(d=net(2), sload=net(3), sdata=net(5), q=net(4)))
    fault("v33-sload-without-sdata", "cell 1 has a sload and no sdata", 33, 1330,
          reg(d=net(2), clk=net(1), sload=net(3), q=net(4)))
    fault("v33-sload-gnd", "cell 1 has sload at GND and no sdata: GND is connected", 33, 1331,
          reg(d=net(2), clk=net(1), sload=GND, q=net(4)))
    fault("v34-ena-without-clk", "cell 1 has an ena and no clk", 34, 1340,
          reg(d=net(2), ena=net(3), q=net(4)))
    fault("v35-datain-gnd", "datain of cell 1 is GND", 35, 1350,
          reg(d=GND, clk=net(1), q=net(4)))
    fault("v35-datain-inverted", "datain of cell 1 is inverted", 35, 1351,
          reg(d=inv(2), clk=net(1), q=net(4)))
    fault("v35-sdata-gnd", "sdata of cell 1 is GND", 35, 1352,
          reg(d=net(2), clk=net(1), sload=net(3), sdata=GND, q=net(4)))
    fault("v35-sdata-inverted", "sdata of cell 1 is inverted", 35, 1353,
          reg(d=net(2), clk=net(1), sload=net(3), sdata=inv(5), q=net(4)))
    fault("v35-unused-register", "datain of an unused register is inverted", 35, 1354,
          reg(d=inv(2)))


def combinational_samples():
    """Numbers 40 to 44."""
    plain = comb(a=net(0), o=net(1))
    two = ((3, 1, 0), (3, 1, 1))
    three = two + ((3, 1, 2),)
    four = three + ((3, 1, 3),)

    def fault(name, why, number, apprentice, cell, places, nets, *cells):
        start = {1: 33, 2: 57}[cell]
        sample(name, why, exercise(nets, *cells), answer(apprentice, *places),
               Expected(number, ("exercise", start, 24), cell=cell, apprentice=apprentice))

    fault("v40-constant", "cin of cell 1 is VCC", 40, 1400, 1, two, 3,
          plain, comb(a=net(1), cin=VCC, o=net(2), flag=1))
    fault("v40-inverted", "cin of cell 1 is the inverse of a carry; cell 0 keeps 42",
          40, 1401, 1, two, 5,
          comb(a=net(0), o=net(1), cout=net(2)),
          comb(a=net(3), cin=inv(2), o=net(4), flag=1))
    fault("v40-undriven", "cin of cell 1 is a net that no cell drives", 40, 1402, 1, two, 4,
          plain, comb(a=net(1), cin=net(3), o=net(2), flag=1))
    fault("v40-combout", "cin of cell 1 is a combout", 40, 1403, 1, two, 3,
          plain, comb(a=net(0), cin=net(1), o=net(2), flag=1))
    fault("v40-own-cout", "cin of cell 1 is its own cout", 40, 1404, 1, two, 4,
          plain, comb(a=net(1), cin=net(3), o=net(2), cout=net(3), flag=1))
    fault("v41-flag", "cell 1 has a cin and flag 0", 41, 1410, 1, two, 5,
          comb(a=net(0), o=net(1), cout=net(2)),
          comb(a=net(3), cin=net(2), o=net(4)))
    fault("v42-unread", "cout of cell 1 is read nowhere", 42, 1420, 1, two, 4,
          plain, comb(a=net(1), o=net(2), cout=net(3)))
    fault("v42-read-as-data", "cout of cell 1 is read at a dataa", 42, 1421, 1, three, 5,
          plain, comb(a=net(1), o=net(2), cout=net(3)), comb(a=net(3), o=net(4)))
    fault("v42-two-reads", "cout of cell 1 is read at a cin and, inverted, at a dataa",
          42, 1422, 1, four, 7,
          plain, comb(a=net(1), o=net(2), cout=net(3)),
          comb(a=net(4), cin=net(3), o=net(5), flag=1), comb(a=inv(3), o=net(6)))
    fault("v43-datad-and-cout", "cell 1 has a datad and a cout", 43, 1430, 1, three, 5,
          plain, comb(a=net(1), d=net(0), o=net(2), cout=net(3)),
          comb(a=net(0), cin=net(3), o=net(4), flag=1))
    fault("v43-datad-and-cin", "cell 2 has a datad and a cin", 43, 1431, 2, three, 5,
          plain, comb(a=net(1), o=net(2), cout=net(3)),
          comb(a=net(0), d=net(1), cin=net(3), o=net(4), flag=1))
    fault("v44-datac-and-cin",
          "cell 2 has a datac and a cin; datac beside the cout of cell 1 is allowed",
          44, 1440, 2, three, 5,
          plain, comb(a=net(1), c=net(0), o=net(2), cout=net(3)),
          comb(a=net(0), c=net(1), cin=net(3), o=net(4), flag=1))

    fault("order-cell-before-number", "cell 1 breaks 44, cell 2 breaks 30: the lower cell first",
          44, 1445, 1, three, 5,
          comb(a=net(0), o=net(2), cout=net(3)),
          comb(a=net(1), c=net(0), cin=net(3), o=net(4), flag=1),
          reg(d=net(4), clk=net(1)))
    fault("order-number-in-cell", "cell 1 breaks 41 and 44: the lower number first",
          41, 1446, 1, two, 5,
          comb(a=net(0), o=net(2), cout=net(3)),
          comb(a=net(1), c=net(0), cin=net(3), o=net(4)))


def place_samples():
    """Numbers 50 and 51."""
    sample("v50-two-registers",
           "a combinational cell and a register may share LE 4; the second register may not",
           exercise(5, comb(a=net(0), o=net(1)), reg(d=net(1), clk=net(2), q=net(3)),
                    reg(d=net(3), clk=net(2), q=net(4))),
           answer(1500, (6, 1, 4), (6, 1, 4), (6, 1, 4)),
           Expected(50, ("answer", 19, 4), cell=2, apprentice=1500))
    sample("v50-before-51", "cell 1 breaks 51, cell 3 breaks 50: 50 is asked of all cells first",
           exercise(7, comb(a=net(0), o=net(1), cout=net(2)),
                    comb(a=net(3), cin=net(2), o=net(4), flag=1),
                    comb(a=net(4), o=net(5)), comb(a=net(5), o=net(6))),
           answer(1501, (6, 1, 0), (6, 1, 2), (6, 1, 5), (6, 1, 5)),
           Expected(50, ("answer", 23, 4), cell=3, apprentice=1501))

    chain = exercise(5, comb(a=net(0), o=net(1)), comb(a=net(1), o=net(2), cout=net(3)),
                     comb(a=net(0), cin=net(3), o=net(4), flag=1))
    sample("v51-gap", "the chain leaves LE 2 out",
           chain, answer(1510, (6, 1, 0), (6, 1, 1), (6, 1, 3)),
           Expected(51, ("answer", 19, 4), cell=2, apprentice=1510))
    sample("v51-next-lab", "the chain goes on in the LAB at the side",
           chain, answer(1511, (6, 1, 0), (6, 1, 1), (7, 1, 2)),
           Expected(51, ("answer", 19, 4), cell=2, apprentice=1511))
    sample("v51-upward", "after LE 15 the chain goes on at y + 1 in place of y - 1",
           adder(), answer(1512, (4, 3, 14), (4, 3, 15), (4, 4, 0), (4, 4, 1)),
           Expected(51, ("answer", 19, 4), cell=2, apprentice=1512))


def lab_samples():
    """Numbers 60 to 65. Cell 0 stands in LAB 3, the others in the LAB at fault."""
    plain = comb(a=net(3), o=net(4))

    sample("v60-three-clocks", "three clock nets in LAB 33",
           exercise(8, reg(d=net(3), clk=net(0), q=net(4)), reg(d=net(4), clk=net(0), q=net(5)),
                    reg(d=net(5), clk=net(1), q=net(6)), reg(d=net(6), clk=net(2), q=net(7))),
           answer(1600, (3, 0, 0), (1, 1, 0), (1, 1, 1), (1, 1, 2)),
           Expected(60, ("answer", 15, 4), lab=33, apprentice=1600))
    sample("v61-one-clock",
           "one clock with an open ena, which counts as VCC, and two ena nets: three pairs",
           exercise(8, plain, reg(d=net(4), clk=net(0), q=net(5)),
                    reg(d=net(5), clk=net(0), ena=net(1), q=net(6)),
                    reg(d=net(6), clk=net(0), ena=net(2), q=net(7))),
           answer(1610, (3, 0, 0), (2, 1, 0), (2, 1, 1), (2, 1, 2)),
           Expected(61, ("answer", 15, 4), lab=34, apprentice=1610))
    sample("v62-open-clear",
           "two aclr nets and an open aclr on a used register, which counts as GND: three",
           exercise(8, plain, reg(d=net(4), clk=net(0), aclr=net(1), q=net(5)),
                    reg(d=net(5), clk=net(0), aclr=net(2), q=net(6)),
                    reg(d=net(6), clk=net(0), q=net(7))),
           answer(1620, (3, 0, 0), (3, 1, 0), (3, 1, 1), (3, 1, 2)),
           Expected(62, ("answer", 15, 4), lab=35, apprentice=1620))
    sample("v62-unused-register", "the third aclr net is at an unused register",
           exercise(8, plain, reg(d=net(4), clk=net(0), aclr=net(1), q=net(5)),
                    reg(d=net(5), clk=net(0), aclr=net(2), q=net(6)),
                    reg(d=net(6), aclr=net(7))),
           answer(1621, (3, 0, 0), (4, 1, 0), (4, 1, 1), (4, 1, 2)),
           Expected(62, ("answer", 15, 4), lab=36, apprentice=1621))
    sample("v63-two-sclr", "a sclr net and sclr at VCC",
           exercise(7, plain, reg(d=net(4), clk=net(0), sclr=net(1), q=net(5)),
                    reg(d=net(5), clk=net(0), sclr=VCC, q=net(6))),
           answer(1630, (3, 0, 0), (5, 1, 0), (5, 1, 1)),
           Expected(63, ("answer", 15, 4), lab=37, apprentice=1630))
    sample("v63-two-sload", "a sload net and its inverse",
           exercise(7, plain,
                    reg(d=net(4), clk=net(0), sload=net(1), sdata=net(2), q=net(5)),
                    reg(d=net(5), clk=net(0), sload=inv(1), sdata=net(2), q=net(6))),
           answer(1631, (3, 0, 0), (6, 1, 0), (6, 1, 1)),
           Expected(63, ("answer", 15, 4), lab=38, apprentice=1631))
    sample("v63-sload-vcc", "sload at VCC and an open sload beside one sclr net: VCC is in use",
           exercise(7, plain,
                    reg(d=net(4), clk=net(0), sclr=net(1), sload=VCC, sdata=net(2), q=net(5)),
                    reg(d=net(5), clk=net(0), sclr=net(1), q=net(6))),
           answer(1632, (3, 0, 0), (31, 1, 0), (31, 1, 1)),
           Expected(63, ("answer", 15, 4), lab=63, apprentice=1632))
    sample("v64-control-nets", "36 data nets, a datain, a clk and an aclr net: 39",
           exercise(50, comb(a=net(0), o=net(39)),
                    *[comb(a=net(4 * i), b=net(4 * i + 1), c=net(4 * i + 2),
                           d=net(4 * i + 3), o=net(41 + i)) for i in range(9)],
                    reg(d=net(36), clk=net(37), aclr=net(38), q=net(40))),
           answer(1640, (3, 0, 0), *[(7, 1, i) for i in range(10)]),
           Expected(64, ("answer", 15, 4), lab=39, apprentice=1640))
    sample("v64-nets-of-lower-lab",
           "LAB 5 reads 38 nets, and LAB 6 the same and one more: all 39 count there",
           exercise(59, *wide_cells(), comb(a=net(36), b=net(37), o=net(47)),
                    *wide_cells(48), comb(a=net(36), b=net(37), c=net(58), o=net(57))),
           answer(1641, *[(5, 0, i) for i in range(10)], *[(6, 0, i) for i in range(10)]),
           Expected(64, ("answer", 51, 4), lab=6, apprentice=1641))
    sample("v64-driven-elsewhere", "38 nets and one more that a cell of another LAB drives",
           exercise(49, *wide_cells(), comb(a=net(36), b=net(37), c=net(47), o=net(48)),
                    comb(a=net(0), o=net(47))),
           answer(1642, *[(5, 0, i) for i in range(10)], (6, 0, 0)),
           Expected(64, ("answer", 11, 4), lab=5, apprentice=1642))
    sample("v65-constant-clock",
           "two ena take 2 and 3, two aclr take 1 and 4: sclr and sload both need 5",
           exercise(11, comb(a=net(7), o=net(8)),
                    reg(d=net(8), clk=GND, ena=net(0), aclr=net(2), sclr=net(4), sload=net(5),
                        sdata=net(6), q=net(9)),
                    reg(d=net(9), clk=GND, ena=net(1), aclr=net(3), q=net(10))),
           answer(1650, (3, 0, 0), (8, 1, 0), (8, 1, 1)),
           Expected(65, ("answer", 15, 4), lab=40, apprentice=1650))

    sample("order-lowest-lab", "LAB 40 breaks 60, LAB 35 breaks 62: the lower LAB first",
           exercise(12,
                    reg(d=net(5), clk=net(0), q=net(6)), reg(d=net(6), clk=net(1), q=net(7)),
                    reg(d=net(7), clk=net(2), q=net(8)),
                    reg(d=net(8), clk=net(0), aclr=net(3), q=net(9)),
                    reg(d=net(9), clk=net(0), aclr=net(4), q=net(10)),
                    reg(d=net(10), clk=net(0), q=net(11))),
           answer(1660, (8, 1, 0), (8, 1, 1), (8, 1, 2), (3, 1, 0), (3, 1, 1), (3, 1, 2)),
           Expected(62, ("answer", 23, 4), lab=35, apprentice=1660))
    sample("order-rule-in-lab", "LAB 41 breaks 61 and 62: the lower number first",
           exercise(10, comb(a=net(5), o=net(6)),
                    reg(d=net(6), clk=net(0), ena=net(1), aclr=net(3), q=net(7)),
                    reg(d=net(7), clk=net(0), ena=net(2), aclr=net(4), q=net(8)),
                    reg(d=net(8), clk=net(0), q=net(9))),
           answer(1661, (3, 0, 0), (9, 1, 0), (9, 1, 1), (9, 1, 2)),
           Expected(61, ("answer", 15, 4), lab=41, apprentice=1661))


def table4_samples():
    """Source 000, table 4: its six lines, each "Unconnect or GND" in every combination. Cell 0
    stands in LAB 67; cells 1 and 2 are LE #1 and LE #2, in a LAB with y 0."""
    a, b, c = net(1), net(2), net(3)
    names = {a: "A", b: "B", c: "C", OPEN: "open", GND: "GND"}
    rows = [(1, 0, a, b), (2, 63, a, c), (3, 63, b, a),
            (4, 0, OPEN, OPEN), (4, 0, OPEN, GND), (4, 0, GND, OPEN), (4, 0, GND, GND),
            (5, 63, a, OPEN), (5, 63, a, GND),
            (6, 63, OPEN, b), (6, 63, GND, b)]

    def register(load, clear, d, q):
        return reg(d=d, clk=net(0), sclr=clear, sload=load,
                   sdata=OPEN if load == OPEN else net(4), q=q)

    for x, (line, number, load, clear) in enumerate(rows):
        constant = [names[s].lower() for s in (load, clear) if s in (OPEN, GND)]
        sample("-".join(["table4-%d" % line] + constant),
               "(sload, sclr) of two registers: (A, B), (%s, %s)" % (names[load], names[clear]),
               exercise(8, comb(a=net(4), o=net(5)), register(a, b, net(5), net(6)),
                        register(load, clear, net(6), net(7))),
               answer(400 + x, (3, 2, 0), (x, 0, 0), (x, 0, 1)),
               Expected(number, ("answer", 15, 4), lab=x, apprentice=400 + x) if number
               else legal(400 + x, 23, {x: [0, F, F, F, F, F, 4, 3], 67: EMPTY}))


def legal_samples():
    sample("legal-constants", "all control ports constant: no need, no entry",
           exercise(1, reg(d=VCC, clk=VCC, ena=VCC, aclr=GND, sclr=VCC, sload=VCC, sdata=VCC,
                           q=net(0))),
           answer(501, (10, 1, 0)),
           legal(501, 15, {42: EMPTY}))
    sample("legal-one-net-three-roles", "one net at clk, aclr and sclr: three needs, which take "
           "0, 1 and 4, the lowest entry each; none is shared",
           exercise(3, reg(d=net(1), clk=net(0), aclr=net(0), sclr=net(0), q=net(2))),
           answer(502, (11, 1, 0)),
           legal(502, 15, {43: [0, F, F, F, 1, F, 4, F]}, {43: 3}))
    sample("legal-open-enable", "an open ena and ena at VCC are one: two pairs with a third",
           exercise(6, reg(d=net(2), clk=net(0), q=net(3)),
                    reg(d=net(3), clk=net(0), ena=VCC, q=net(4)),
                    reg(d=net(4), clk=net(0), ena=net(1), q=net(5))),
           answer(503, (12, 1, 0), (12, 1, 1), (12, 1, 2)),
           legal(503, 23, {44: [0, F, 2, F, F, F, F, F]}))
    sample("legal-sclr-gnd", "a sclr net, sclr at GND and an open sclr: one in use",
           exercise(6, reg(d=net(2), clk=net(0), sclr=net(1), q=net(3)),
                    reg(d=net(3), clk=net(0), sclr=GND, q=net(4)),
                    reg(d=net(4), clk=net(0), q=net(5))),
           answer(504, (13, 1, 0), (13, 1, 1), (13, 1, 2)),
           legal(504, 23, {45: [0, F, F, F, F, F, 4, F]}))
    sample("legal-unused-register", "two aclr nets; the open aclr of an unused register "
           "does not count",
           exercise(6, reg(d=net(3), clk=net(0), aclr=net(1), q=net(4)),
                    reg(d=net(4), clk=net(0), aclr=net(2), q=net(5)),
                    reg(d=net(5))),
           answer(505, (14, 1, 0), (14, 1, 1), (14, 1, 2)),
           legal(505, 23, {46: [0, F, F, F, 1, 4, F, F]}))
    sample("legal-unused-clear", "the aclr net of an unused register is a need",
           exercise(2, reg(d=net(0), aclr=net(1))),
           answer(506, (15, 1, 0)),
           legal(506, 15, {47: [F, F, F, F, 1, F, F, F]}))
    sample("legal-net-from-inside", "an ena net driven in its own LAB is a need all the same",
           exercise(5, comb(a=net(0), o=net(2)), reg(d=net(3), clk=net(1), ena=net(2), q=net(4))),
           answer(507, (16, 1, 0), (16, 1, 0)),
           legal(507, 19, {48: [0, F, 2, F, F, F, F, F]}))
    sample("legal-clock-and-inverse", "a clock and its inverse are two needs; they share entry 0",
           exercise(4, reg(d=net(1), clk=inv(0), q=net(2)), reg(d=net(2), clk=net(0), q=net(3))),
           answer(508, (17, 1, 0), (17, 1, 1)),
           legal(508, 19, {49: [0, 0, F, F, F, F, F, F]}, {49: 2}))
    sample("legal-three-labs", "three LABs, each with its own route, listed in rising order",
           exercise(9,
                    reg(d=net(4), clk=net(0), ena=net(1), aclr=net(2), q=net(5)),
                    reg(d=net(5), clk=net(0), sload=net(3), sdata=net(4), q=net(6)),
                    comb(a=net(6), b=net(7), o=net(8))),
           answer(509, (4, 3, 0), (18, 1, 0), (5, 0, 0)),
           legal(509, 23, {5: EMPTY, 50: [0, F, F, F, F, F, F, 3],
                           100: [0, F, 2, F, 1, F, F, F]}))


def settings_samples():
    """Numbers 70 to 75, beside the worked listing where nothing else is said."""
    def fault(name, why, number, sheet, ex=LISTING_EX, an=LISTING_AN):
        sample(name, why, ex, an, no_board(number, len(an or b"")), sheet)

    fault("v70-empty", "the settings sheet is empty", 70, b"")
    fault("v70-too-short", "a settings sheet of 5 bytes", 70, HOUSE[:5])
    fault("v70-before-10", "an empty settings sheet and no other sheet: the settings come first",
          70, b"", None, None)
    fault("v71-mark", "the settings sheet's mark in small letters", 71, b"lxt" + HOUSE[3:])
    fault("v71-exercise-sheet", "the exercise sheet in place of the settings", 71, LISTING_EX)
    fault("v72-version", "a settings sheet of version 3", 72, patch(HOUSE, 3, 3, 0))
    fault("v72-byte-order", "a settings sheet's version with the high byte first: version 256",
          72, patch(HOUSE, 3, 0, 1))
    fault("v73-count", "nine entries", 73, raw_settings(1, None, *[31] * 9))
    fault("v73-six-bytes", "6 bytes of version 2 with nine entries: the count is asked first",
          73, patch(raw_settings(2, None), 5, 9))
    fault("v74-byte-missing", "the last entry is missing", 74, HOUSE[:-1])
    fault("v74-byte-left-over", "one byte too many behind eight entries", 74, SECOND + b"\0")
    fault("v74-long", "1,000 bytes too many behind the entries", 74, HOUSE + bytes(1000))
    fault("v74-six-bytes", "6 bytes of version 2: the board's number is missing",
          74, raw_settings(2, None))
    fault("v74-seven-bytes", "7 bytes of version 2: half of the board's number is missing",
          74, SECOND[:7])
    fault("v74-before-75", "the last entry is missing, the first has every flag: "
          "the length is asked first", 74, patch(HOUSE, 6, 255)[:-1])
    fault("v75-flag", "entry 3 has a flag above the five roles",
          75, patch(HOUSE, 9, 32 + ENA + SLOAD))
    fault("v75-last-entry", "the last of eight entries has every flag", 75, patch(SECOND, 15, 255))
    fault("v75-before-10", "a flag above the five roles beside an exercise of 8 bytes: "
          "the settings come first", 75, patch(HOUSE, 9, 32), LISTING_EX[:8])


def board_samples():
    """Boards other than document 01's. The sheets of board2-NAME are those of the sample NAME."""
    sheets_of = {name: (ex, an) for name, _, ex, an, _, _ in SAMPLES}

    def on_board(name, why, like, expected, sheet):
        sample(name, why, *sheets_of[like], expected, sheet)

    def on_second(name, why, expected):
        on_board("board2-" + name, why, name, expected, SECOND)

    on_second("p09", "the second board: entries 0, 2, 3, on document 01's 0, 2, 1",
              legal(9, 15, {67: [0, F, 2, F, 3, F, F, F]}))
    on_second("p10", "the second board: entries 0, 1, 3, 5, on document 01's 0, 2, 1, 4",
              legal(10, 19, {68: [0, 1, F, F, 3, 5, F, F]}))
    on_second("p11", "the second board: entries 0, 1, 2, 3, 5, 6, on document 01's no way",
              legal(11, 19, {69: [0, 1, 2, 3, 5, 6, F, F]}))
    on_second("p12", "the second board: sclr takes 0 and sload 1, so that two clk have only 2; "
              "on document 01's legal",
              Expected(65, ("answer", 11, 4), lab=70, apprentice=12))
    on_second("table4-1", "the second board: clk, sclr, sload take 2, 0, 1, and the lowest free "
              "entry each time finds no way", legal(400, 23, {0: [2, F, F, F, F, F, 0, 1],
                                                             67: EMPTY}))
    on_second("v60-three-clocks", "the second board: 60 does not depend on the board",
              Expected(60, ("answer", 15, 4), lab=33, apprentice=1600))
    _, sheet, _ = class_answers()[14]
    sample("board2-class-15", "the second board: LAB 202 of class/answer-15 needs all seven "
           "entries that serve something, on document 01's no way",
           class_exercise(), sheet,
           legal(115, 259, {170: EMPTY, 171: [0, F, F, F, 3, F, F, 1],
                            172: [0, F, F, F, 3, F, F, F], 202: [1, 2, 3, 4, 5, 6, 0, F],
                            203: [0, F, F, F, 3, F, F, 1]}), SECOND)

    on_board("board-version-2", "p12 by document 01's entries on a sheet of version 2: the "
             "board's number changes nothing", "p12",
             legal(12, 19, {70: [0, 2, F, F, 1, 4, 5, 3]}), settings(*HOUSE[6:], board=65535))
    on_board("board-no-entries", "no entries, and no needs", "legal-constants",
             legal(501, 15, {42: EMPTY}), settings())
    on_board("board-no-entries-65", "no entries, and two needs", "listing",
             Expected(65, ("answer", 11, 4), lab=34, apprentice=7), settings(board=0))
    on_board("board-entry-without-role", "entry 0 of document 01's board serves nothing: "
             "clk and aclr take 1 and 4", "listing",
             legal(7, 19, {34: [1, F, F, F, 4, F, F, F]}), patch(HOUSE, 6, 0))
    sample("board-eight-needs", "eight needs, and one entry for each, from the last role on",
           exercise(12,
                    reg(d=net(9), clk=net(0), ena=net(2), aclr=net(4), sclr=net(6),
                        sload=net(7), sdata=net(8), q=net(10)),
                    reg(d=net(10), clk=net(1), ena=net(3), aclr=net(5), q=net(11))),
           answer(1700, (8, 3, 0), (8, 3, 1)),
           legal(1700, 19, {104: [6, 7, 4, 5, 2, 3, 1, 0]}),
           settings(SLOAD, SCLR, ACLR, ACLR, ENA, ENA, CLK, CLK))


NO_SLOAD = [CLK + ENA + ACLR + SCLR] * 8        # eight entries that serve all roles but sload


def tries_samples():
    """The tries of the search for a route."""
    sample("legal-11-tries", "two clk, one ena, two aclr, sclr: 11 tries, the most of a legal LAB "
           "on document 01's board where all nets are different; the lowest free entry each time "
           "finds no way",
           exercise(9,
                    reg(d=net(6), clk=net(0), ena=net(2), aclr=net(3), sclr=net(5), q=net(7)),
                    reg(d=net(7), clk=net(1), aclr=net(4), q=net(8))),
           answer(1710, (12, 2, 0), (12, 2, 1)),
           legal(1710, 19, {76: [0, 2, 3, F, 1, 4, 5, F]}, {76: 11}))

    sample("v65-35-tries", "LAB 70 is refused after 35 tries, the most on document 01's board "
           "where all nets are different; the LABs below have theirs, those above, one with three "
           "clocks, are not searched",
           exercise(19, comb(a=net(9), o=net(10)),
                    reg(d=net(10), clk=net(0), aclr=net(3), q=net(11)),
                    reg(d=net(11), clk=net(1), aclr=net(4), q=net(12)),
                    reg(d=net(12), clk=net(0), ena=net(5), aclr=net(3), sclr=net(6), sload=net(7),
                        sdata=net(8), q=net(13)),
                    reg(d=net(13), clk=net(1), aclr=net(4), q=net(14)),
                    reg(d=net(14), clk=net(0), aclr=net(3), q=net(15)),
                    *[reg(d=net(15 + i), clk=net(i), q=net(16 + i)) for i in range(3)]),
           answer(1711, (3, 0, 0), (4, 2, 0), (4, 2, 1), (6, 2, 0), (6, 2, 1), (7, 2, 0),
                  (4, 3, 0), (4, 3, 1), (4, 3, 2)),
           Expected(65, ("answer", 23, 4), lab=70, apprentice=1711,
                    tries=[(3, 0, 0, EMPTY), (68, 6, 0, [0, 2, F, F, 1, 4, F, F]),
                           (70, 35, 65, EMPTY), (71, 0, None, EMPTY), (100, 0, None, EMPTY)]))

    # The eight needs of board-eight-needs. Each entry serves clk, ena, aclr and sclr.
    sheets = next((ex, an) for name, _, ex, an, _, _ in SAMPLES if name == "board-eight-needs")
    # 8 + 56 + 336 + 1680 + 6720 + 20160 + 40320, one to seven needs on eight entries.
    sample("board-69280-tries", "eight needs of different nets, and eight entries that serve clk, "
           "ena, aclr and sclr, none sload: 65 after 69,280 tries", *sheets,
           Expected(65, ("answer", 11, 4), lab=104, apprentice=1700,
                    tries=[(104, 69280, 65, EMPTY)]), settings(*NO_SLOAD))
    # With entry 0 at the first need 8660 tries, at the second 1237, then 206, 41, 10, 3 and 1, and
    # none of them leads to a way; and the eight that lead to the route.
    sample("board-10166-tries", "the same where entry 0 serves sload too: legal, and the search "
           "gives entry 0 to each need before sload first", *sheets,
           legal(1700, 19, {104: [1, 2, 3, 4, 5, 6, 7, 0]}, {104: 10166}),
           settings(NO_SLOAD[0] + SLOAD, *NO_SLOAD[1:]))
    sample("board-8-tries", "the same where entry 7 serves sload, not entry 0: one try a need",
           *sheets, legal(1700, 19, {104: [0, 1, 2, 3, 4, 5, 6, 7]}, {104: 8}),
           settings(*NO_SLOAD[:7], NO_SLOAD[7] + SLOAD))


def one_net_samples():
    """Needs of one net, which may share an entry that serves their roles."""
    sample("legal-clock-and-clear", "one net as clk and aclr: entries 0 and 1, though both could "
           "have 1",
           exercise(3, reg(d=net(1), clk=net(0), aclr=net(0), q=net(2))),
           answer(1720, (0, 7, 0)),
           legal(1720, 15, {224: [0, F, F, F, 1, F, F, F]}, {224: 2}))
    sample("legal-only-shared", "the needs of p11, but the two clk are a net and its inverse: "
           "they share entry 0, and no way does without that",
           exercise(8,
                    reg(d=net(5), clk=net(0), ena=net(1), aclr=net(3), q=net(6)),
                    reg(d=net(6), clk=inv(0), ena=net(2), aclr=net(4), q=net(7))),
           answer(1721, (1, 7, 0), (1, 7, 1)),
           legal(1721, 19, {225: [0, 0, 2, 3, 1, 4, F, F]}, {225: 6}))

    def eight(sload):
        """Two clk of one net, two ena, two aclr, sclr and sload; the sclr is net 5."""
        return (reg(d=net(7), clk=net(0), ena=net(1), aclr=net(3), sclr=net(5), sload=net(sload),
                    sdata=net(8), q=net(9)),
                reg(d=net(9), clk=inv(0), ena=net(2), aclr=net(4), q=net(10)))

    sample("legal-eight-needs", "the same, and one net as sclr and sload, which share entry 5: "
           "eight needs on six entries",
           exercise(11, *eight(5)),
           answer(1722, (2, 7, 0), (2, 7, 1)),
           legal(1722, 19, {226: [0, 0, 2, 3, 1, 4, 5, 5]}, {226: 8}))
    # 3 + 9 for the two clk. Where one of them has entry 2, 5 times, an ena has 3, and the other
    # none. Where not, 4 times, 2 + 2 for the two ena; and then, where a clk has entry 1, 3 x 2
    # times, an aclr has 4, and the other none. For 0 0, twice, 2 + 2 for the two aclr; and then, 4
    # times, sclr has 5, and sload none. 12 + 5 + 16 + 6 + 8 + 4.
    sample("v65-two-nets", "the same with different nets as sclr and sload: both need entry 5, "
           "which serves both roles, but needs of different nets may not share it",
           exercise(13, *eight(6),
                    reg(d=net(10), clk=net(0), q=net(11)), reg(d=net(11), clk=inv(0), q=net(12))),
           answer(1723, (4, 7, 0), (4, 7, 1), (3, 7, 0), (3, 7, 1)),
           Expected(65, ("answer", 11, 4), lab=228, apprentice=1723,
                    tries=[(227, 2, 0, [0, 0, F, F, F, F, F, F]), (228, 51, 65, EMPTY)]))
    sample("legal-shared-not-needed", "two clk, two aclr, and one net as ena and sload: the "
           "earliest way gives both entry 3, though sload could have 5",
           exercise(9,
                    reg(d=net(5), clk=net(0), ena=net(2), aclr=net(3), sload=net(2), sdata=net(6),
                        q=net(7)),
                    reg(d=net(7), clk=net(1), aclr=net(4), q=net(8))),
           answer(1724, (5, 7, 0), (5, 7, 1)),
           legal(1724, 19, {229: [0, 2, 3, F, 1, 4, F, 3]}, {229: 11}))

    # 21 tries with entry 0 at clk A, 16 with entry 1, and none of them leads to a way; and the
    # eight that lead to the route.
    sample("legal-45-tries", "clk A, clk B, ena A and its inverse, two aclr, sclr, sload: clk A "
           "and both ena share entry 2, after 45 tries, the most of a legal LAB on document 01's "
           "board",
           exercise(10,
                    reg(d=net(6), clk=net(0), ena=net(0), aclr=net(2), sclr=net(4), sload=net(5),
                        sdata=net(7), q=net(8)),
                    reg(d=net(8), clk=net(1), ena=inv(0), aclr=net(3), q=net(9))),
           answer(1725, (6, 7, 0), (6, 7, 1)),
           legal(1725, 19, {230: [2, 0, 2, 2, 1, 4, 5, 3]}, {230: 45}))
    # 3 + 9 for the two clk, 18 + 13 for the two ena, 26 + 18 for the two aclr, 18 for sclr.
    sample("v65-105-tries", "clk A and its inverse, ena A and B, aclr A and C, sclr, sload: 65 "
           "after 105 tries, the most on document 01's board",
           exercise(9,
                    reg(d=net(5), clk=net(0), ena=net(0), aclr=net(0), sclr=net(3), sload=net(4),
                        sdata=net(6), q=net(7)),
                    reg(d=net(7), clk=inv(0), ena=net(1), aclr=net(2), q=net(8))),
           answer(1726, (7, 7, 0), (7, 7, 1)),
           Expected(65, ("answer", 11, 4), lab=231, apprentice=1726, tries=[(231, 105, 65, EMPTY)]))

    sample("board-three-roles-one-entry", "a board whose entry 1 serves clk, aclr and sclr: three "
           "needs of one net share it",
           exercise(3, reg(d=net(1), clk=net(0), aclr=inv(0), sclr=net(0), q=net(2))),
           answer(1727, (8, 7, 0)),
           legal(1727, 15, {232: [1, F, F, F, 1, F, 1, F]}, {232: 3}),
           settings(ENA, CLK + ACLR + SCLR, ENA + SLOAD))
    sample("board-two-nets-one-entry", "one entry, which serves clk and aclr, and two nets: no way",
           LISTING_EX, LISTING_AN,
           Expected(65, ("answer", 11, 4), lab=34, apprentice=7, tries=[(34, 1, 65, EMPTY)]),
           settings(CLK + ACLR))

    # One net at all control ports.
    sheets = (exercise(5,
                       reg(d=net(1), clk=net(0), ena=net(0), aclr=net(0), sclr=net(0),
                           sload=net(0), sdata=net(2), q=net(3)),
                       reg(d=net(3), clk=inv(0), ena=inv(0), aclr=inv(0), q=net(4))),
              answer(1728, (9, 7, 0), (9, 7, 1)))
    # 8 + 64 + 512 + 4096 + 32768 + 262144 + 2097152, one to seven needs on eight entries.
    sample("board-2396744-tries", "eight needs of one net on the board of board-69280-tries: 65 "
           "after 2,396,744 tries, the most of all", *sheets,
           Expected(65, ("answer", 11, 4), lab=233, apprentice=1728,
                    tries=[(233, 2396744, 65, EMPTY)]), settings(*NO_SLOAD))
    sample("board-one-net-8-tries", "the same where entry 0 serves sload too: all eight needs "
           "share it, one try a need", *sheets,
           legal(1728, 19, {233: [0, 0, 0, 0, 0, 0, 0, 0]}, {233: 8}),
           settings(NO_SLOAD[0] + SLOAD, *NO_SLOAD[1:]))


# ---------------------------------------------------------------- the class

# Nets of the class exercise.
CLKA, CLKB, RSTA, RSTB, RUN, CLEAR, SERIAL, START = range(8)
P, K = 8, 14                    # timer presets 8-13, compare values 14-21
Q, S, C = 22, 30, 38            # counter: outputs 22-29, sums 30-37, carries 38-44
T, TS, TC = 45, 51, 57          # timer: outputs 45-50, sums 51-56, carries 57-61
R, O = 62, 70                   # shift registers: inward 62-69, outward 70-77
E = 78                          # comparison 78-81
FULL, TZLO, TZERO, MATCH, SHIFT, LOAD = range(82, 88)
ST, NS = 88, 91                 # state 88-90, next state 91-93
Y = 94                          # synchroniser 94, 95


def class_exercise():
    """62 cells, 96 nets.

    Cells 0-7 and 8-15: a counter of eight bits, carry chain and registers (clock A, ena run,
    aclr reset A, sclr clear). 16-21 and 22-27: a timer of six bits, carry chain and registers
    that load a preset (clock A, aclr reset A, sload). 28-35: a shift register inward (clock B,
    ena, aclr reset B). 36-43: a shift register outward that loads the counter (clock B
    inverted, aclr reset B, sload). 44-53: comparison and control signals. 54-56 and 57-59:
    next state and state. 60, 61: a synchroniser without aclr.
    """
    cells = []
    for i in range(8):
        cells.append(comb(a=net(Q + i), cin=net(C + i - 1) if i > 0 else OPEN, o=net(S + i),
                          cout=net(C + i) if i < 7 else OPEN, flag=1 if i > 0 else 0))
    for i in range(8):
        cells.append(reg(d=net(S + i), clk=net(CLKA), ena=net(RUN), aclr=net(RSTA),
                         sclr=net(CLEAR), q=net(Q + i)))
    for i in range(6):
        cells.append(comb(a=net(T + i), cin=net(TC + i - 1) if i > 0 else OPEN, o=net(TS + i),
                          cout=net(TC + i) if i < 5 else OPEN, flag=1 if i > 0 else 0))
    for i in range(6):
        cells.append(reg(d=net(TS + i), clk=net(CLKA), aclr=net(RSTA), sload=net(TZERO),
                         sdata=net(P + i), q=net(T + i)))
    for i in range(8):
        cells.append(reg(d=net(R + i - 1) if i > 0 else net(SERIAL), clk=net(CLKB),
                         ena=net(SHIFT), aclr=net(RSTB), q=net(R + i)))
    for i in range(8):
        cells.append(reg(d=net(O + i - 1) if i > 0 else VCC, clk=inv(CLKB), aclr=net(RSTB),
                         sload=net(LOAD), sdata=net(Q + i), q=net(O + i)))
    for i in range(4):
        cells.append(comb(a=net(Q + 2 * i), b=net(K + 2 * i), c=net(Q + 2 * i + 1),
                          d=net(K + 2 * i + 1), o=net(E + i)))
    cells += [
        comb(a=net(E), b=net(E + 1), c=net(E + 2), d=net(E + 3), o=net(FULL)),
        comb(a=net(T), b=net(T + 1), c=net(T + 2), d=net(T + 3), o=net(TZLO)),
        comb(a=net(TZLO), b=net(T + 4), c=net(T + 5), o=net(TZERO)),
        comb(a=net(R), b=inv(R + 7), c=net(FULL), o=net(MATCH)),
        comb(a=net(ST), b=net(ST + 1), o=net(SHIFT)),
        comb(a=net(ST + 2), b=net(FULL), o=net(LOAD)),
        comb(a=net(ST), b=net(Y + 1), c=net(TZERO), o=net(NS)),
        comb(a=net(ST), b=net(ST + 1), c=net(MATCH), o=net(NS + 1)),
        comb(a=net(ST + 1), b=net(ST + 2), c=net(FULL), d=net(TZERO), o=net(NS + 2)),
    ]
    for i in range(3):
        cells.append(reg(d=net(NS + i), clk=net(CLKA), aclr=net(RSTA), q=net(ST + i)))
    cells.append(reg(d=net(START), clk=net(CLKA), q=net(Y)))
    cells.append(reg(d=net(Y), clk=net(CLKA), q=net(Y + 1)))
    return exercise(96, *cells)


def tidy():
    """One LAB a block: the places that most answers start from, as cell -> (x, y, LE)."""
    places = {}
    put(places, 0, 8, 10, 5, 0)         # counter carry chain, LAB 170
    put(places, 8, 8, 10, 5, 0)         # counter registers
    put(places, 16, 6, 11, 5, 0)        # timer carry chain, LAB 171
    put(places, 22, 6, 11, 5, 0)        # timer registers
    put(places, 28, 8, 10, 6, 0)        # shift register inward, LAB 202
    put(places, 36, 8, 11, 6, 0)        # shift register outward, LAB 203
    put(places, 44, 10, 12, 5, 0)       # comparison and control signals, LAB 172
    put(places, 54, 3, 12, 5, 10)       # next state
    put(places, 57, 3, 12, 5, 10)       # state
    put(places, 60, 2, 12, 5, 13)       # synchroniser
    return places


def dense():
    """Three LABs: counter and timer, both shift registers, the rest."""
    places = {}
    put(places, 0, 8, 0, 0, 0)
    put(places, 8, 8, 0, 0, 0)
    put(places, 16, 6, 0, 0, 8)
    put(places, 22, 6, 0, 0, 8)
    put(places, 28, 8, 0, 1, 0)
    put(places, 36, 8, 0, 1, 8)
    put(places, 44, 10, 1, 0, 0)
    put(places, 54, 3, 1, 0, 10)
    put(places, 57, 3, 1, 0, 10)
    put(places, 60, 2, 1, 0, 13)
    return places


def put(places, first, count, x, y, le):
    """Cells first, first + 1, ... in one LAB, rising LE."""
    for i in range(count):
        places[first + i] = (x, y, le + i)


def class_answer(apprentice, places, cells=62):
    return raw_answer(apprentice, *[places[i] for i in range(cells)])


# Routes of the blocks when each has a LAB of its own.
COUNTER = [0, F, 2, F, 1, F, 4, F]      # clk A, ena run, aclr A, sclr clear
TIMER = [0, F, F, F, 1, F, F, 3]        # clk A, aclr A, sload
INWARD = [0, F, 2, F, 1, F, F, F]       # clk B, ena, aclr B
OUTWARD = [0, F, F, F, 1, F, F, 3]      # clk B inverted, aclr B, sload
STATE = [0, F, F, F, 1, F, F, F]        # clk A, aclr A
SYNC = [0, F, F, F, F, F, F, F]         # clk A


def class_answers():
    """The eighteen answers: (why, sheet, expected)."""
    out = []

    def hand_in(why, sheet, expected):
        out.append((why, sheet, expected))

    p = tidy()
    hand_in("one LAB a block", class_answer(101, p),
            legal(101, 259, {170: COUNTER, 171: TIMER, 172: STATE, 202: INWARD, 203: OUTWARD}))

    p = dense()
    hand_in("three full LABs: in LAB 0 the counter has a sclr and the timer a sload",
            class_answer(102, p), Expected(63, ("answer", 11, 4), lab=0, apprentice=102))

    p = dense()
    put(p, 22, 6, 0, 0, 7)
    hand_in("the timer registers begin in LE 7, where the last counter register stands",
            class_answer(103, p), Expected(50, ("answer", 99, 4), cell=22, apprentice=103))

    p = tidy()
    for first in (0, 8):
        put(p, first, 4, 10, 5, 12)
        put(p, first + 4, 4, 10, 6, 0)
    put(p, 28, 8, 10, 7, 0)
    hand_in("the counter chain goes on at y + 1 after LE 15", class_answer(104, p),
            Expected(51, ("answer", 27, 4), cell=4, apprentice=104))

    p = tidy()
    for first in (0, 8):
        put(p, first, 4, 10, 5, 12)
        put(p, first + 4, 4, 10, 4, 0)
    hand_in("the counter chain goes on at y - 1 after LE 15", class_answer(105, p),
            legal(105, 259, {138: COUNTER, 170: COUNTER, 171: TIMER, 172: STATE, 202: INWARD,
                             203: OUTWARD}))

    p = {cell: (x, y, le + 1) for cell, (x, y, le) in dense().items()}
    hand_in("logic elements counted from 1 to 16", class_answer(106, p),
            Expected(26, ("answer", 183, 4), cell=43, apprentice=106))

    p = tidy()
    hand_in("the last cell forgotten", class_answer(107, p, cells=61),
            Expected(24, ("answer", 0, 11), apprentice=107))

    hand_in("the last byte missing", class_answer(108, p)[:-1],
            Expected(25, ("answer", 0, 11), apprentice=108))

    p = tidy()
    put(p, 36, 6, 10, 6, 8)
    put(p, 60, 2, 10, 6, 14)
    hand_in("clocks A, B and the inverse of B in LAB 202", class_answer(109, p),
            Expected(60, ("answer", 123, 4), lab=202, apprentice=109))

    p = tidy()
    put(p, 8, 8, 11, 5, 6)
    put(p, 28, 2, 11, 5, 14)
    hand_in("timer, counter and two inward registers in LAB 171: two clocks, three pairs",
            class_answer(110, p), Expected(61, ("answer", 43, 4), lab=171, apprentice=110))

    p = tidy()
    put(p, 28, 8, 12, 5, 0)
    hand_in("reset A, reset B and no reset in LAB 172", class_answer(111, p),
            Expected(62, ("answer", 123, 4), lab=172, apprentice=111))

    p = tidy()
    put(p, 36, 8, 11, 5, 6)
    hand_in("two sload signals in LAB 171", class_answer(112, p),
            Expected(63, ("answer", 75, 4), lab=171, apprentice=112))

    p = tidy()
    put(p, 22, 6, 20, 8, 0)
    put(p, 44, 4, 20, 8, 0)
    put(p, 51, 4, 20, 8, 4)
    put(p, 60, 1, 20, 8, 6)
    hand_in("39 nets read by LAB 276", class_answer(113, p),
            Expected(64, ("answer", 99, 4), lab=276, apprentice=113))

    put(p, 60, 1, 12, 5, 13)
    hand_in("the same without the synchroniser in LAB 276: 38 nets", class_answer(114, p),
            legal(114, 259, {170: COUNTER, 171: EMPTY, 172: STATE, 202: INWARD, 203: OUTWARD,
                             276: TIMER}))

    p = tidy()
    put(p, 8, 8, 10, 6, 8)
    hand_in("counter and inward registers in LAB 202: two clk, two ena, two aclr, sclr",
            class_answer(115, p), Expected(65, ("answer", 43, 4), lab=202, apprentice=115))

    p = tidy()
    put(p, 28, 8, 11, 5, 6)
    hand_in("timer and inward registers in LAB 171: all six entries in use",
            class_answer(116, p),
            legal(116, 259, {170: COUNTER, 171: [0, 2, 3, F, 1, 4, F, 5], 172: STATE,
                             203: OUTWARD}))

    hand_in("the exercise sheet handed back", class_exercise(),
            Expected(21, ("answer", 0, 11)))

    p = {}
    put(p, 0, 4, 3, 31, 12)
    put(p, 4, 4, 3, 30, 0)
    put(p, 16, 3, 5, 31, 13)
    put(p, 19, 3, 5, 30, 0)
    for i in range(8):
        p[8 + i] = (i, 20, 0)
        p[28 + i] = (16 + i, 20, i)
        p[36 + i] = (24 + i, 20, 15 - i)
    for i in range(6):
        p[22 + i] = (8 + i, 20, 0)
    for i in range(13):
        p[44 + i] = (i, 0, i)
    for i in range(3):
        p[57 + i] = (13 + i, 0, 0)
    p[60], p[61] = (31, 31, 0), (31, 31, 15)
    routes = {963: EMPTY, 965: EMPTY, 995: EMPTY, 997: EMPTY, 1023: SYNC}
    routes.update({lab: EMPTY for lab in range(0, 13)})
    routes.update({lab: STATE for lab in range(13, 16)})
    routes.update({lab: COUNTER for lab in range(640, 648)})
    routes.update({lab: TIMER for lab in range(648, 654)})
    routes.update({lab: INWARD for lab in range(656, 664)})
    routes.update({lab: OUTWARD for lab in range(664, 672)})
    hand_in("spread over 51 LABs, LAB 1023 among them", class_answer(118, p),
            legal(118, 259, routes))
    return out


def all_samples():
    if not SAMPLES:
        settled_samples()
        edge_samples()
        slip_samples()
        carry_samples()
        exercise_sheet_samples()
        answer_sheet_samples()
        register_samples()
        combinational_samples()
        place_samples()
        lab_samples()
        table4_samples()
        legal_samples()
        settings_samples()
        board_samples()
        tries_samples()
        one_net_samples()
    return SAMPLES


# ---------------------------------------------------------------- logs of the tablets

LOG_SAMPLES = []


class Minutes:
    """What has to come of a log, written down by hand."""

    def __init__(self, number, credits=(), nothing=()):
        self.number = number
        self.credits = list(credits)    # (apprentice, minutes), rising
        self.nothing = list(nothing)    # the entries that cover nothing: (number, *entry)

    def expected_lines(self):
        return ("number %d\n" % self.number
                + "".join("apprentice %d minutes %d\n" % credit for credit in self.credits)
                + "".join("entry %d covers none\n" % entry[0] for entry in self.nothing))

    def lines(self):
        """What './nurimkkot minutes' prints, None where the log is refused."""
        if self.number:
            return None
        row = lambda *fields: "%10s  %7s  %5d:%02d\n" % (fields + divmod(fields[1], 60))
        text = "apprentice  minutes     hours\n"
        text += "".join(row(*credit) for credit in self.credits)
        text += row("total", sum(minutes for _, minutes in self.credits))
        text += "\nentries that cover nothing: %d\n" % len(self.nothing)
        if self.nothing:
            text += "entry  apprentice  opening  closing       login\n"
        for number, apprentice, _, opening, closing, login in self.nothing:
            text += "%5d  %10d  %7d  %7d  %10d\n" % (number, apprentice, opening, closing, login)
        return text

    def csv(self):
        """The same with --csv."""
        if self.number:
            return None
        text = "apprentice,minutes,hours,entries that cover nothing\n"
        for apprentice, minutes in self.credits:
            own = ["#%d" % entry[0] for entry in self.nothing if entry[1] == apprentice]
            text += "%d,%d,%d:%02d,%s\n" % (apprentice, minutes, minutes // 60, minutes % 60,
                                            " ".join(own))
        return text


def log_sample(name, why, sheet, number, credits=(), nothing=()):
    LOG_SAMPLES.append((name, why, sheet, Minutes(number, credits, nothing)))


def taken(name, why, entries, credits, nothing=()):
    """A log that is not refused; nothing has the numbers of the entries that cover nothing."""
    log_sample(name, why, log(*entries), 0, credits, [(i,) + entries[i] for i in nothing])


def class_log():
    """The class over a week. Apprentice 100 + k is to come at 9:00 on five days and comes k
    minutes late. The morning goes on to 12:00, and a second entry is from 11:30 to 12:30. On the
    days 0, 2 and 4 there are two more, 13:00 to 15:00 and within it 13:30 to 14:00. Two
    apprentices share a tablet and its login. The entries of each hour stand with the highest
    apprentice first.

    Apprentice 117 closes each morning's entry at once and has no other. The last two entries are
    one of 104, whose tablet's clock was set back, and the last two hours of the week of 118."""
    verdict = {100 + i + 1: expected.number
               for i, (_, _, expected) in enumerate(class_answers())}
    out = []

    def entry(k, day, opening, closing):
        out.append((100 + k, verdict[100 + k], 1440 * day + opening, 1440 * day + closing,
                    201 + (k - 1) // 2))

    others = [18] + list(range(16, 0, -1))
    for day in range(5):
        for k in range(18, 0, -1):
            entry(k, day, 540 + k, 540 + k if k == 17 else 720)
        for opening, closing in [(690, 750)] + [(780, 900), (810, 840)] * (day % 2 == 0):
            for k in others:
                entry(k, day, opening, closing)
    entry(4, 2, 900, 890)
    entry(18, 6, 1320, 1440)
    return out


def minutes_samples():
    """Logs that are not refused."""
    # On each of the five days 180 - k + 30 minutes, on three of them 120 more. A day has 18 + 17
    # entries, and 2 x 17 more where it is even: 117's are 1, 70, 105, 174 and 209.
    credits = [(100 + k, 5 * (210 - k) + 3 * 120) for k in range(1, 17)]
    taken("minutes-class", "the class of eighteen over a week: entries that overlap, a tablet for "
          "two, an apprentice who closes each entry at once, a clock that was set back",
          class_log(), credits + [(117, 0), (118, 5 * (210 - 18) + 3 * 120 + 120)],
          [1, 70, 105, 174, 209, 277])
    taken("minutes-400-hours", "three entries of apprentice 109 add up to 400 hours, 168, 168 and "
          "64, all within one week: they cover 168",
          [(109, 0, 0, 10080, 205), (109, 60, 0, 10080, 206), (110, 61, 540, 720, 205),
          (109, 0, 1440, 5280, 207), (110, 0, 600, 780, 205)],
          [(109, 10080), (110, 240)])
    taken("minutes-one-login", "one tablet passed from hand to hand under the login of apprentice "
          "101: each has the minutes of their own entries",
          [(101, 0, 540, 585, 101), (102, 63, 585, 630, 101), (103, 50, 630, 675, 101),
          (101, 0, 675, 720, 101)],
          [(101, 90), (102, 45), (103, 45)])
    taken("minutes-no-minutes", "an apprentice whose one entry closes in the minute of its "
          "opening", [(7, 0, 540, 600, 7), (8, 20, 600, 600, 7)], [(7, 60), (8, 0)], [1])
    taken("minutes-touching", "an entry opens in the minute in which another closes: no minute is "
          "missed and none counts twice",
          [(7, 0, 60, 120, 1), (7, 0, 120, 180, 1), (7, 0, 0, 60, 1)], [(7, 180)])
    taken("minutes-nested", "entries within an entry, the same one twice, and one that overlaps "
          "two: 100 to 500",
          [(7, 0, 100, 400, 1), (7, 0, 200, 300, 2), (7, 0, 100, 101, 1), (7, 0, 399, 400, 3),
          (7, 0, 200, 300, 2), (7, 0, 350, 500, 2), (7, 0, 450, 500, 1)], [(7, 400)])
    taken("minutes-10080", "the last minute of the week is 10079: an entry may close at 10080, "
          "and one that opens there covers nothing",
          [(7, 0, 10079, 10080, 1), (8, 0, 0, 10080, 1), (9, 0, 10080, 10080, 1),
          (7, 0, 10080, 0, 1)], [(7, 1), (8, 10080), (9, 0)], [2, 3])
    taken("minutes-two-apprentices", "two apprentices in the same minutes: each minute counts for "
          "each",
          [(9, 0, 0, 100, 1), (8, 0, 50, 150, 1), (9, 0, 90, 110, 8)], [(8, 100), (9, 110)])
    taken("minutes-no-entries", "a log without entries: 7 bytes", [], [])
    taken("minutes-64-apprentices", "64 apprentices, the most, the highest first: the order is by "
          "number, and 4294967295 is the highest",
          [(2 ** 32 - 1, 0, 0, 64, 1), (2 ** 31, 0, 0, 63, 1)]
          + [(k, 0, 0, k, 2 ** 32 - 1) for k in range(62, 0, -1)],
          [(k, k) for k in range(1, 63)] + [(2 ** 31, 63), (2 ** 32 - 1, 64)])
    taken("minutes-1024-entries", "1,024 entries, the most: entry i is minute i of apprentice i "
          "mod 64 + 1, and no entry of apprentice 64 covers a minute",
          [(i % 64 + 1, 65535, i, i if i % 64 == 63 else i + 1, i) for i in range(1024)],
          [(k, 16) for k in range(1, 64)] + [(64, 0)], range(63, 1024, 64))


def refused_logs():
    """Numbers 80 to 86. A log of two entries where nothing else is said."""
    good = log((7, 0, 540, 600, 7), (8, 20, 600, 600, 7))
    with_first = lambda *entry: raw_log(entry, (8, 20, 600, 600, 7))
    many = [(k, 0, 0, 60, 1) for k in range(1, 66)]
    log_sample("missing-log", "no tablet.lxl: it counts as empty", None, 80)
    log_sample("v80-empty", "the log is empty", b"", 80)
    log_sample("v80-too-short", "a log of 6 bytes", good[:6], 80)
    log_sample("v81-mark", "the log's mark in small letters", b"lxl" + good[3:], 81)
    log_sample("v81-class-sheet", "a class sheet in place of the log",
               class_sheet(LISTING_AN, b""), 81)
    log_sample("v82-version", "a log of version 2", patch(good, 3, 2), 82)
    log_sample("v82-byte-order", "a log's version with the high byte first: version 256",
               patch(good, 3, 0, 1), 82)
    log_sample("v83-count", "1,025 entries", raw_log(*[(7, 0, 540, 600, 7)] * 1025), 83)
    log_sample("v83-before-84", "7 bytes with 1,025 entries: the count is asked first",
               patch(good[:7], 5, 1, 4), 83)
    log_sample("v84-byte-missing", "the last byte of the log is missing", good[:-1], 84)
    log_sample("v84-byte-left-over", "one byte too many on the log", good + b"\0", 84)
    log_sample("v84-before-85", "the last entry is missing, the first has apprentice 0: the "
               "length is asked first", with_first(0, 0, 540, 600, 7)[:-14], 84)
    log_sample("v85-apprentice", "entry 0 has apprentice 0", with_first(0, 0, 540, 600, 7), 85)
    log_sample("v85-opening", "entry 0 opens at 10081; that it covers nothing makes no difference",
               with_first(7, 0, 10081, 600, 7), 85)
    log_sample("v85-closing", "entry 0 closes at 10081", with_first(7, 0, 540, 10081, 7), 85)
    log_sample("v85-last-entry", "the last of 1,024 entries closes at 65535",
               raw_log(*[(7, 0, 540, 600, 7)] * 1023, (7, 0, 540, 65535, 7)), 85)
    log_sample("v85-before-86", "65 apprentices, and behind them an entry with apprentice 0: 85 "
               "is asked of all entries first", raw_log(*many, (0, 0, 540, 600, 7)), 85)
    log_sample("v86-65-apprentices", "65 apprentices", raw_log(*many), 86)
    log_sample("v86-covers-nothing", "the 65th apprentice has one entry, which covers nothing",
               raw_log(*many[:64], (65, 0, 60, 60, 1)), 86)


def log_samples():
    if not LOG_SAMPLES:
        minutes_samples()
        refused_logs()
    return LOG_SAMPLES


# ---------------------------------------------------------------- commands

def write(folder, name, data):
    """Write a file; None removes it."""
    path = os.path.join(folder, name)
    if data is None:
        if os.path.exists(path):
            os.remove(path)
        return
    with open(path, "wb") as file:
        file.write(data if isinstance(data, bytes) else data.encode("ascii"))


def make(top):
    folder = os.path.join(top, "boards")
    os.makedirs(folder, exist_ok=True)
    for name, sheet in BOARDS.items():
        write(folder, name, sheet)

    for name, _, ex, an, expected, sheet in all_samples():
        folder = os.path.join(top, "samples", name)
        save(folder, ex, an, sheet)
        write(folder, "settings.lxt", sheet)
        write(folder, "expected.txt", expected.expected_lines())
        write(folder, "listing.txt", expected.listing())
        if expected.tries is not None:
            told = Tries(expected, "document 01" if sheet is None else "settings.lxt")
            write(folder, "tries.txt", told.lines())
            write(folder, "tries.csv", told.csv())

    make_small_class(os.path.join(top, "samples", "class-small"))
    make_class(os.path.join(top, "samples", "class"))
    for name, _, sheet, expected in log_samples():
        make_log(os.path.join(top, "samples", name), sheet, expected)


def make_log(folder, sheet, expected):
    os.makedirs(folder, exist_ok=True)
    write(folder, "tablet.lxl", sheet)
    write(folder, "words.txt", "\n".join(log_words(sheet)) + "\n")
    write(folder, "expected.txt", expected.expected_lines())
    write(folder, "minutes.txt", expected.lines())
    write(folder, "minutes.csv", expected.csv())


def make_small_class(folder):
    """The worked listing's answer, and an empty one."""
    os.makedirs(folder, exist_ok=True)
    write(folder, "exercise.lxe", LISTING_EX)
    write(folder, "answer-1.lxa", LISTING_AN)
    write(folder, "answer-2.lxa", b"")
    write(folder, "class.lxc", class_sheet(LISTING_AN, b""))


def make_class(folder):
    os.makedirs(folder, exist_ok=True)
    ex = class_exercise()
    write(folder, "exercise.lxe", ex)
    write(folder, "class.lxc", class_sheet(*[sheet for _, sheet, _ in class_answers()]))
    lines, culprits = "", ""
    for i, (_, sheet, expected) in enumerate(class_answers()):
        name = "answer-%02d" % (i + 1)
        write(folder, name + ".lxa", sheet)
        write(folder, name + ".words.txt", words(ex, sheet))
        write(folder, name + ".listing.txt", expected.listing())
        write(folder, name + ".route", expected.route_lines() if expected.number == 0 else None)
        lines += "%s number %d cell %d lab %d apprentice %d\n" % (
            name, expected.number, expected.cell, expected.lab, expected.apprentice)
        culprits += "%s culprit %s %d %d\n" % ((name,) + expected.culprit)
    write(folder, "expected.txt", lines)
    write(folder, "culprits.txt", culprits)


def list_samples():
    lines = ["- `%s` (%d): %s" % (name, expected.number, why)
             for name, why, _, _, expected, _ in all_samples()]
    lines += ["- `class/answer-%02d` (%d): %s" % (i + 1, expected.number, why)
              for i, (why, _, expected) in enumerate(class_answers())]
    lines += ["- `%s` (%d): %s" % (name, expected.number, why)
              for name, why, _, expected in log_samples()]
    return "\n".join(lines) + "\n"


def save(folder, ex, an, settings=None):
    """Write two sheets and their words into a folder, which is made where it is not there. With
    a settings sheet, that one too; without, one that is there stays."""
    os.makedirs(folder, exist_ok=True)
    write(folder, "exercise.lxe", ex)
    write(folder, "answer.lxa", an)
    if settings is not None:
        write(folder, "settings.lxt", settings)
    write(folder, "words.txt", words(ex, an, settings=settings))


def read_sheet(path, head, size):
    """The bytes of a regular file that can be shown: the head, as many records of that size as
    a count of 16 bits can say, and some of what is left over."""
    handle = os.open(path, os.O_RDONLY | os.O_NONBLOCK)
    with os.fdopen(handle, "rb") as file:
        status = os.fstat(handle)
        if not stat.S_ISREG(status.st_mode):
            raise OSError("is no regular file")
        part = FilePart(file.read(head + size * 65535 + 16))
        part.file_size = status.st_size
        return part


def read_file(path, head, size):
    """A sheet, or one line about why it can't be read."""
    try:
        return read_sheet(path, head, size)
    except (OSError, ValueError) as error:
        raise OSError("%s: %s" % (path, getattr(error, "strerror", None) or error))


def run_words(args):
    """What `words` prints, or None where the arguments are none of its own."""
    if args[:1] == ["--log"]:
        return "\n".join(log_words(read_file(args[1], 7, 14))) + "\n" if len(args) == 2 else None
    labs, path, args = False, None, list(args)
    while args and args[0] in ("--labs", "--settings"):
        if args.pop(0) == "--labs":
            labs = True
        elif args:
            path = args.pop(0)
        else:
            return None
    if len(args) != 2 and (args or labs or path is None):
        return None
    sheet = None if path is None else read_file(path, 8, 1)
    if not args:
        return "\n".join(settings_words(sheet)) + "\n"
    return words(read_file(args[0], 9, 24), read_file(args[1], 11, 4), labs, sheet)


def run(args):
    """The command's output, or None where there is no such command."""
    if args == ["make"]:
        make(os.path.dirname(os.path.dirname(os.path.abspath(__file__))))
        return ""
    if args == ["list"]:
        return list_samples()
    if args[:1] == ["words"]:
        return run_words(args[1:])
    return None


def main(args):
    try:
        text = run(args)
        if text is None:
            sys.stderr.write(__doc__)
            return 2
        sys.stdout.write(text)
        sys.stdout.flush()
    except OSError as error:
        sys.stderr.write("sheets.py: %s\n" % error)
        # What could not be written is given up, so that it is not tried again at the end.
        os.dup2(os.open(os.devnull, os.O_WRONLY), sys.stdout.fileno())
        return 2
    return 0


if __name__ == "__main__":
    sys.exit(main(sys.argv[1:]))
