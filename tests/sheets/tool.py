"""Tests tools/sheets.py: tool.py TOP. Wrong numbers and wrong files are refused, and nothing else is."""

import os
import random
import re
import resource
import subprocess
import sys
import tempfile

TOP = sys.argv[1]
TOOL = os.path.join(TOP, "tools", "sheets.py")
sys.path.insert(0, os.path.join(TOP, "tools"))
import sheets  # noqa: E402
from sheets import (ACLR, CLK, ENA, GND, OPEN, SCLR, SLOAD, VCC, Signal, answer, class_sheet, comb, exercise, inv, log, net, patch,  # noqa: E402
                    raw_answer, raw_exercise, raw_log, raw_record, raw_settings, record, reg, save, settings, words)

CELL = comb(a=net(0), o=net(1))
HOUR = (7, 0, 540, 600, 9)


def refused(part, call):
    """The call is refused with a ValueError of one line that has this part."""
    try:
        got = call()
    except ValueError as error:
        assert part in str(error) and "\n" not in str(error), (part, str(error))
        return
    raise AssertionError("not refused (%s): %r" % (part, got))


def numbers_refused():
    for make in (net, inv):
        for n in (-1, 1024, 65536, -2):
            refused("a net is 0 to 1023, not %d" % n, lambda: make(n))
        for n in (3.0, "3", None, True, b"3", [3]):
            refused("a net is a whole number", lambda: make(n))
        refused("a net is a number, not the signal net 3", lambda: make(net(3)))
        refused("a net is a number, not the signal /net 3", lambda: make(inv(3)))
        for constant, name in ((OPEN, "open"), (GND, "GND"), (VCC, "VCC")):
            refused("not the signal " + name, lambda: make(constant))

    # At every port a number is refused, also one that is a code.
    for port in ("a", "b", "c", "d", "cin", "o", "cout"):
        for n in (0, 1, 4, 5, net(3) + 0, "GND", None, 1.0):
            refused(" is a signal (OPEN, GND, VCC, net(n) or inv(n))", lambda: comb(**{port: n}))
    for port in ("d", "clk", "ena", "aclr", "sclr", "sload", "sdata", "q"):
        for n in (0, 1, 4, 5, net(3) + 2):
            refused(" is a signal (OPEN, GND, VCC, net(n) or inv(n))", lambda: reg(**{port: n}))
    for signal in (GND, VCC, inv(3)):
        refused("combout is an output", lambda: comb(o=signal))
        refused("cout is an output", lambda: comb(cout=signal))
        refused("regout is an output", lambda: reg(q=signal))
    refused("a flag is 0 to 1, not 2", lambda: comb(flag=2))
    refused("a flag is a whole number", lambda: comb(flag=True))
    refused("a register's flag is 0 to 0, not 1", lambda: reg(flag=1))
    refused("a kind is 1 to 2, not 3", lambda: record(3, 0, []))
    refused("zero 1 after the ports is 0, not GND", lambda: record(2, 0, [OPEN] * 8 + [GND]))
    refused("a record has 11 signals, not 12", lambda: record(1, 0, [OPEN] * 12))

    refused("a net count is 0 to 1024, not 1025", lambda: exercise(1025))
    refused("a net count is 0 to 1024, not -1", lambda: exercise(-1))
    refused("a net count is a number, not the signal net 2", lambda: exercise(net(2), CELL))
    refused("a cell count is 0 to 512, not 513", lambda: exercise(2, *[CELL] * 513))
    refused("cell 0 is no record of 24 bytes", lambda: exercise(2, [CELL]))
    refused("cell 1 is no record of 24 bytes", lambda: exercise(2, CELL, CELL[:-1]))
    refused("cell 1: dataa=net 2 (bad: the sheet has 2 nets)", lambda: exercise(2, CELL, comb(a=net(2))))
    refused("cell 0: datab=/net 5 (bad: the sheet has 2 nets)", lambda: exercise(2, comb(b=inv(5))))
    refused("cell 0: datab=code 3 (bad: no such signal)", lambda: exercise(2, raw_record(1, 0, [0, 3])))
    refused("cell 0: kind 3 (bad: must be 1 or 2)", lambda: exercise(2, raw_record(3, 0, [])))

    refused("an apprentice is 1 to 4294967295, not 0", lambda: answer(0))
    refused("an apprentice is 1 to 4294967295, not 4294967296", lambda: answer(2 ** 32))
    refused("a cell count is 0 to 512, not 513", lambda: answer(1, *[(0, 0, 0)] * 513))
    refused("x of place 1 is 0 to 31, not 32", lambda: answer(1, (0, 0, 0), (32, 0, 0)))
    refused("y of place 0 is 0 to 31, not 32", lambda: answer(1, (0, 32, 0)))
    refused("LE of place 0 is 0 to 15, not 16", lambda: answer(1, (0, 0, 16)))
    refused("LE of place 0 is 0 to 255, not -1", lambda: answer(1, (0, 0, -1)))
    refused("place 0 is (x, y, LE), not (1, 2)", lambda: answer(1, (1, 2)))
    refused("place 0 is (x, y, LE), not 5", lambda: answer(1, 5, 3, 0))
    refused("place 0 is (x, y, LE)", lambda: answer(1, [(1, 2, 3), (1, 2, 4)]))

    refused("an entry count is 0 to 8, not 9", lambda: settings(*[CLK] * 9))
    refused("entry 1 is 0 to 31, not 32", lambda: settings(CLK, 32))
    refused("entry 0 is 0 to 31, not -1", lambda: settings(-1, board=2))
    refused("entry 0 is a whole number, not 'clk'", lambda: settings("clk"))
    refused("entry 0 is a number, not the signal GND", lambda: settings(GND))
    refused("a board is 0 to 65535, not 65536", lambda: settings(CLK, board=65536))
    refused("a board is 0 to 65535, not -1", lambda: settings(CLK, board=-1))

    refused("an answer count is 0 to 32, not 33", lambda: class_sheet(*[b""] * 33))
    refused("answer 1 is a sheet, not (2, 1, 0)", lambda: class_sheet(answer(1), (2, 1, 0)))
    refused("the length of answer 0 is 0 to 65535, not 65536", lambda: class_sheet(bytes(65536)))

    refused("an entry count is 0 to 1024, not 1025", lambda: log(*[HOUR] * 1025))
    refused("apprentice of entry 1 is 1 to 4294967295, not 0", lambda: log(HOUR, (0, 0, 540, 600, 9)))
    refused("opening of entry 0 is 0 to 10080, not 10081", lambda: log((7, 0, 10081, 600, 9)))
    refused("closing of entry 0 is 0 to 10080, not 10081", lambda: log((7, 0, 540, 10081, 9)))
    refused("entry 1 is (apprentice, verdict, opening, closing, login), not (7, 540, 600)", lambda: log(HOUR, (7, 540, 600)))
    refused("entry 0 is (apprentice, verdict, opening, closing, login), not 7", lambda: log(*HOUR))
    refused("login of entry 0 is a whole number, not '9'", lambda: log((7, 0, 540, 600, "9")))

    # The raw forms ask only that a number fits.
    refused("a code is 0 to 65535, not 65536", lambda: raw_record(1, 0, [65536]))
    refused("a code is 0 to 65535, not 65536", lambda: comb(a=Signal(65536)))
    refused("a kind is 0 to 255, not 256", lambda: raw_record(256, 0, []))
    refused("a flag is 0 to 255, not -1", lambda: raw_record(1, -1, []))
    refused("a net count is 0 to 65535, not 65536", lambda: raw_exercise(65536))
    refused("an apprentice is 0 to 4294967295, not -1", lambda: raw_answer(-1))
    refused("x of place 0 is 0 to 255, not 256", lambda: raw_answer(1, (256, 0, 0)))
    refused("a version is 0 to 65535, not 65536", lambda: raw_settings(65536, None))
    refused("an entry count is 0 to 255, not 256", lambda: raw_settings(1, None, *[CLK] * 256))
    refused("entry 0 is 0 to 255, not 256", lambda: raw_settings(1, None, 256))
    refused("verdict of entry 0 is 0 to 65535, not 65536", lambda: raw_log((7, 65536, 540, 600, 9)))
    refused("login of entry 0 is 0 to 4294967295, not 4294967296", lambda: raw_log((7, 0, 540, 600, 2 ** 32)))
    refused("apprentice of entry 0 is 0 to 4294967295, not -1", lambda: raw_log((-1, 0, 540, 600, 9)))
    refused("an entry count is 0 to 65535, not 65536", lambda: raw_log(*[HOUR] * 65536))
    refused("the first byte of a patch is 0 to 8, not 9", lambda: patch(bytes(9), 9, 1))
    refused("the first byte of a patch is 0 to 8, not -1", lambda: patch(bytes(9), -1, 1))
    refused("range", lambda: patch(bytes(9), 0, 256))


def numbers_taken():
    assert (net(0), net(1023), inv(0), inv(1023)) == (4, 2050, 5, 2051)
    assert all(isinstance(s, Signal) for s in (OPEN, GND, VCC, net(3), inv(3)))
    assert exercise(1024, *[comb(a=inv(1023), flag=1)] * 512)[5:9] == b"\x00\x04\x00\x02"
    assert exercise(0) == b"LXE\1\0\0\0\0\0"
    assert answer(2 ** 32 - 1, (31, 31, 15), [0, 0, 0]) == b"LXA\1\0\xff\xff\xff\xff\2\0\37\37\17\0\0\0\0\0"
    assert len(exercise(2, *[CELL] * 512)) == 12297 and len(answer(1, *[(0, 0, 0)] * 512)) == 2059
    assert record(2, 0, [net(0)]) == reg(d=net(0)) and record(1, 1, []) == comb(flag=1)
    assert raw_record(255, 255, [3, net(2), 65535])[:8] == b"\xff\xff\3\0\x08\0\xff\xff"
    assert raw_exercise(65535)[5:7] == b"\xff\xff" and raw_answer(0, (255, 255, 255))[5:15] == b"\0\0\0\0\1\0\xff\xff\xff\0"
    assert (CLK, ENA, ACLR, SCLR, SLOAD) == (1, 2, 4, 8, 16)
    assert settings() == b"LXT\1\0\0" and settings(board=0) == b"LXT\2\0\0\0\0"
    assert settings(CLK + SLOAD, 0, 31, board=258) == b"LXT\2\0\3\2\1\x11\0\x1f" and len(settings(*[31] * 8, board=65535)) == 16
    assert raw_settings(3, 7, 255) == b"LXT\3\0\1\7\0\xff" and raw_settings(2, None, 1) == b"LXT\2\0\1\1"
    assert sheets.HOUSE == bytes.fromhex("4C5854010006010503120C18") and sheets.SECOND[:8] == b"LXT\2\0\x08\2\0"
    assert class_sheet() == b"LXC\1\0\0\0" and class_sheet(b"", b"ab") == b"LXC\1\0\2\0\0\0\2\0ab"
    assert class_sheet(*[bytes(65535)] * 32) == b"LXC\1\0\x20\0" + (b"\xff\xff" + bytes(65535)) * 32
    assert log() == b"LXL\1\0\0\0" and log((1, 2, 3, 4, 5)) == b"LXL\1\0\1\0\1\0\0\0\2\0\3\0\4\0\5\0\0\0"
    assert log((2 ** 32 - 1, 65535, 10080, 0, 2 ** 32 - 1))[7:] == b"\xff" * 6 + b"\x60\x27\0\0" + b"\xff" * 4
    assert raw_log((0, 0, 65535, 10081, 0))[7:] == bytes(6) + b"\xff\xff\x61\x27" + bytes(4) and len(log(*[HOUR] * 1024)) == 14343
    assert patch(bytes(3), 1, 7, 8) == b"\0\7\x08" and patch(bytes(3), 3) == bytes(3)


def any_bytes():
    """Any runs of bytes can be told in words."""
    rng = random.Random(5)
    heads = [b"", b"LXE\1\0\4\0\2\0", b"LXA\1\0\7\0\0\0\2\0", b"LXE\1\0\xff\xff\xff\xff", b"LXT\1\0\6", b"LXT\2\0\2\7\0"]
    for _ in range(2000):
        ex, an, st = (rng.choice(heads) + bytes(rng.choice([0, 1, 2, 3, 4, 6, 255, rng.randrange(256)])
                                                for _ in range(rng.randrange(80))) for _ in range(3))
        ex, an = (None if rng.random() < 0.05 else sheet for sheet in (ex, an))
        st = st[:rng.choice([0, 3, 5, 6, 7, 8, 12, len(st)])]
        assert words(ex, an, labs=True).startswith(words(ex, an)), (ex, an)
        assert words(ex, an, settings=st).endswith("\n" + words(ex, an)), (ex, an, st)


def settings_in_words():
    """What is wrong with a settings sheet, and where; nothing is wrong with a good one."""
    told = lambda sheet: words(None, None, settings=sheet).split("\nexercise: ")[0]
    wrong = re.compile("bad:|cut short|missing|left over")
    for sheet in (settings(), settings(board=65535), sheets.HOUSE, sheets.SECOND, settings(*[31] * 8)):
        assert not wrong.search(told(sheet)), told(sheet)
    assert told(sheets.SECOND).endswith("\n  version 2\n  entries 8\n  board 2\n  entry 0: clk, sclr\n  entry 1: clk, sload\n"
                                        "  entry 2: clk, ena\n  entry 3: ena, aclr\n  entry 4: ena\n  entry 5: aclr\n"
                                        "  entry 6: aclr\n  entry 7: nothing"), told(sheets.SECOND)
    for part, sheet in (("header cut short, 0 of 6 bytes: 6 missing", b""),
                        ("header cut short, 5 of 6 bytes: 1 missing", sheets.HOUSE[:5]),
                        ("header cut short, 7 of 8 bytes: 1 missing", sheets.SECOND[:7]),
                        ("mark LXE, 4c 58 45 (bad: must be LXT)", b"LXE" + sheets.HOUSE[3:]),
                        ("version 3 (bad: must be 1 or 2)", raw_settings(3, None)),
                        ("entries 9 (bad: at most 8)", raw_settings(1, None, *[1] * 9)),
                        ("board cut short: 02", sheets.SECOND[:7]),
                        ("board 0, for which version 1 stands", settings()),
                        ("byte missing for entry 5", sheets.HOUSE[:-1]),
                        ("bytes missing for entries 4 to 5", sheets.HOUSE[:-2]),
                        ("1 byte left over at the end: 00", sheets.SECOND + b"\0"),
                        ("entry 0: nothing (bad: byte 32, over 31)", raw_settings(1, None, 32)),
                        ("entry 1: clk, ena (bad: byte 67, over 31)", raw_settings(2, 9, 1, 67))):
        assert "\n  " + part in told(sheet), (part, told(sheet))


def log_in_words():
    """What is wrong with a log, and where; nothing is wrong with a good one."""
    told = lambda sheet: "\n".join(sheets.log_words(sheet))
    wrong = re.compile("bad:|cut short|missing|left over")
    good = log(HOUR, (8, 20, 600, 600, 7))
    for sheet in (log(), good, log(*[HOUR] * 1024), log((2 ** 32 - 1, 65535, 10080, 0, 0))):
        assert not wrong.search(told(sheet)), told(sheet)
    assert told(good) == ("log: 35 bytes\n  mark LXL\n  version 1\n  entries 2\nentry 0: apprentice 7, verdict 0, opening 540, closing 600, login 9\n"
                          "entry 1: apprentice 8, verdict 20, opening 600, closing 600, login 7"), told(good)
    assert told(None) == "log: no file, counts as empty"
    for part, sheet in (("  header cut short, 0 of 7 bytes: 7 missing", b""),
                        ("  header cut short, 6 of 7 bytes: 1 missing", good[:6]),
                        ("  entries cut short: 02", good[:6]),
                        ("  mark LXA, 4c 58 41 (bad: must be LXL)", b"LXA" + good[3:]),
                        ("  version 2 (bad: must be 1)", patch(good, 3, 2)),
                        ("  entries 1025 (bad: at most 1024)", raw_log(*[HOUR] * 1025)),
                        ("entry 0: apprentice 0 (bad: must not be 0), verdict 0, opening", raw_log((0, 0, 0, 0, 0))),
                        ("opening 10081 (bad: over 10080), closing 0, login", raw_log((7, 0, 10081, 0, 9))),
                        ("opening 540, closing 65535 (bad: over 10080), login", raw_log((7, 0, 540, 65535, 9))),
                        ("entry 1: entry cut short, 13 of 14 bytes: 08 00 00 00 14 00 58 02 58 02 07 00 00", good[:-1]),
                        ("  bytes missing for entry 1", good[:-14]),
                        ("  bytes missing for entries 0 to 1", good[:7]),
                        ("  1 byte left over at the end: 00", good + b"\0")):
        assert part in told(sheet), (part, told(sheet))
    rng = random.Random(6)
    for _ in range(500):
        assert told(rng.choice([b"", b"LXL\1\0\4\0", b"LXL\1\0\xff\xff"]) + rng.randbytes(rng.randrange(80)))


def limited():
    """The room of the tool when it is run: half a GiB, and ten seconds."""
    resource.setrlimit(resource.RLIMIT_AS, (2 ** 29, 2 ** 29))


def command(*args, **options):
    return subprocess.run([sys.executable, "-B", TOOL, *args], text=True, timeout=10,
                          preexec_fn=limited, stdin=subprocess.DEVNULL, stderr=subprocess.PIPE,
                          stdout=options.get("stdout", subprocess.PIPE))


def one_line(part, *args, **options):
    """The command is refused: one line that has this part, status 2, no output."""
    done = command(*args, **options)
    assert done.returncode == 2 and not done.stdout, (args, done)
    assert part in done.stderr and done.stderr.count("\n") == 1, (args, done.stderr)


def files(folder):
    at = lambda name: os.path.join(folder, name)
    ex = os.path.join(TOP, "samples", "listing", "exercise.lxe")
    an = os.path.join(TOP, "samples", "listing", "answer.lxa")
    os.mkfifo(at("fifo"))
    os.mkdir(at("folder"))
    for wrong, why in (("missing", "No such file"), ("folder", "Is a directory"),
                       ("fifo", "no regular file"), ("exercise/none", "No such file")):
        one_line(why, "words", at(wrong), an)
        one_line(at(wrong), "words", ex, at(wrong))
        one_line(why, "words", "--labs", ex, at(wrong))
        one_line(at(wrong), "words", "--settings", at(wrong), ex, an)
        one_line(why, "words", "--settings", at(wrong))
        one_line(at(wrong) + ": ", "words", "--log", at(wrong))
    one_line("/dev/zero: is no regular file", "words", "/dev/zero", an)
    if os.path.exists("/dev/full"):
        with open("/dev/full", "w") as full:
            one_line("No space left", "words", ex, an, stdout=full)

    # Of a file without end no more is read than can be shown; what is said of it is right.
    with open(at("huge"), "wb") as file:
        file.write(raw_exercise(4, *sheets.LISTING_CELLS))
        file.truncate(2 ** 40)
    done = command("words", at("huge"), an)
    assert done.returncode == 0, done.stderr
    assert done.stdout.startswith("exercise: 1099511627776 bytes\n"), done.stdout
    assert "\n  1099511627719 bytes left over at the end: 00 00 00 00 00 00 00 00 00 00 00 00 00 00 00 00 ...\n" in done.stdout
    with open(at("many"), "wb") as file:
        file.write(b"LXA\1\0\7\0\0\0\xff\xff")
        file.truncate(2 ** 40)
    done = command("words", "--labs", ex, at("many"))
    assert done.returncode == 0 and "\ncell 65534: no record on the exercise sheet; place x 0 y 0 LE 0, LAB 0\n" in done.stdout

    with open(at("board"), "wb") as file:
        file.write(sheets.HOUSE)
        file.truncate(2 ** 40)
    done = command("words", "--settings", at("board"))
    assert done.returncode == 0 and done.stdout.startswith("settings: 1099511627776 bytes\n"), done
    assert done.stdout.endswith("\n  1099511627764 bytes left over at the end: 00 00 00 00 00 00 00 00 00 00 00 00 00 00 00 00 ...\n"), done

    with open(at("log"), "wb") as file:
        file.write(raw_log(HOUR))
        file.truncate(2 ** 40)
    done = command("words", "--log", at("log"))
    assert done.returncode == 0 and done.stdout.startswith("log: 1099511627776 bytes\n"), done
    assert done.stdout.endswith("\n  1099511627755 bytes left over at the end: 00 00 00 00 00 00 00 00 00 00 00 00 00 00 00 00 ...\n"), done

    # A call that is none gets the help.
    board = os.path.join(TOP, "boards", "house.lxt")
    for args in ([], ["word"], ["words"], ["words", ex], ["words", ex, an, an], ["words", "--labs", ex], ["make", "x"], ["list", "x"],
                 ["words", "--settings"], ["words", "--settings", board, ex], ["words", "--labs", "--settings", board],
                 ["words", ex, an, "--settings", board], ["words", "--log"], ["words", "--log", ex, an]):
        done = command(*args)
        assert done.returncode == 2 and not done.stdout and "sheets.py words" in done.stderr, args

    save(at("own/deep"), exercise(2, CELL), answer(1, (0, 0, 0)))
    done = command("words", at("own/deep/exercise.lxe"), at("own/deep/answer.lxa"))
    with open(at("own/deep/words.txt")) as file:
        assert done.stdout == file.read() and done.returncode == 0
    save(at("own/deep"), exercise(2, CELL), answer(1, (0, 0, 0)), settings(CLK, board=7))
    done = command("words", "--labs", "--settings", at("own/deep/settings.lxt"), at("own/deep/exercise.lxe"), at("own/deep/answer.lxa"))
    again = command("words", "--settings", at("own/deep/settings.lxt"), "--labs", at("own/deep/exercise.lxe"), at("own/deep/answer.lxa"))
    with open(at("own/deep/words.txt")) as file:
        text = file.read()
    assert text.startswith("settings: 9 bytes\n") and done.stdout.startswith(text) and done.stdout == again.stdout, done
    save(at("own/deep"), exercise(2, CELL), answer(1, (0, 0, 0)))
    with open(at("own/deep/settings.lxt"), "rb") as file:
        assert file.read() == b"LXT\2\0\1\7\0\1"


def stored_words():
    """The command prints what is stored beside each sample."""
    root = os.path.join(TOP, "samples")
    told, boards = 0, 0
    for name, _, ex, an, _, st in sheets.all_samples():
        if ex is None or an is None:
            continue
        paths = [os.path.join(root, name, file) for file in ("exercise.lxe", "answer.lxa")]
        if st is not None:
            paths = ["--settings", os.path.join(root, name, "settings.lxt")] + paths
            boards += 1
        with open(os.path.join(root, name, "words.txt")) as file:
            assert sheets.run(["words"] + paths) == file.read(), name
        told += 1
    assert told > 90 and boards > 20, (told, boards)
    for name, _, sheet, _ in sheets.log_samples():
        with open(os.path.join(root, name, "words.txt")) as file:
            text = file.read()
        path = os.path.join(root, name, "tablet.lxl")
        assert text == ("log: no file, counts as empty\n" if sheet is None else sheets.run(["words", "--log", path])), name


def main():
    numbers_refused()
    numbers_taken()
    any_bytes()
    settings_in_words()
    log_in_words()
    stored_words()
    with tempfile.TemporaryDirectory() as folder:
        files(folder)
    print("sheets: the tool refuses wrong numbers and files")


main()
