"""Compares what docs/SHEETS.md, docs/SAMPLES.md, docs/VERDICTS.md, docs/CLASS.md, docs/MINUTES.md and docs/TRIES.md show with the files, the tool
and the judge: pages.py TOP. LIBDIR: folder of libc_api.a."""

import os
import re
import shutil
import subprocess
import sys
import tempfile

TOP = sys.argv[1]
sys.path.insert(0, os.path.join(TOP, "tools"))
import page_commands  # noqa: E402
import sheets  # noqa: E402

EXAMPLE = os.path.join(TOP, "target", "c", "example")
PROGRAM = os.path.join(TOP, "crates", "judge_main", "out", "judge_main")
LIBRARY = os.path.join(os.environ.get("LIBDIR") or os.path.join(TOP, "crates", "c_api", "out"), "libc_api.a")


def page(name):
    with open(os.path.join(TOP, "docs", name)) as file:
        return file.read()


def stored(path):
    with open(os.path.join(TOP, path), "rb") as file:
        return file.read()


def rows(text):
    """The rows of the first table, its cells without blanks."""
    lines = text[text.index("\n|"):].strip().split("\n\n")[0].splitlines()
    return [[cell.strip() for cell in line.strip("|").split("|")] for line in lines[2:]]


def part(text, begin, end):
    return text[text.index(begin):].split(end)[0]


def taken_apart(text, file, fields):
    """Each byte of a sheet stands on the page once, in order, with its meaning."""
    section = part(text, "### `%s`" % file, "\n##")
    data, at, names = stored(file), 0, []
    assert section.splitlines()[0].endswith("`, %d bytes" % len(data)), section.splitlines()[0]
    for offset, shown, meaning in rows(section):
        assert int(offset) == at, (file, offset, at)
        field = bytes.fromhex(shown.strip("`"))
        assert data[at:at + len(field)] == field, (file, offset)
        name, value = meaning.split(": ", 1)
        names.append((name, len(field)))
        assert value == fields(name, field), (file, meaning, fields(name, field))
        at += len(field)
    assert at == len(data), (file, at)
    return names


def exercise_field(name, field):
    value = int.from_bytes(field, "little")
    if name == "mark":
        return field.decode()
    if name.endswith(", kind"):
        return "%d, %s" % (value, {1: "combinational", 2: "register"}[value])
    if name in ("version", "nets", "cells") or name.endswith("flag") or ", zero" in name:
        return str(value)
    return "unconnected" if value == 0 else sheets.signal_text(value)


def answer_field(name, field):
    return field.decode() if name == "mark" else str(int.from_bytes(field, "little"))


def settings_field(name, field):
    roles = [role for role, flag in (("clk", 1), ("ena", 2), ("aclr", 4), ("sclr", 8), ("sload", 16)) if field[0] & flag]
    return ", ".join(roles) or "nothing" if name.startswith("entry ") else answer_field(name, field)


def class_on_page(text):
    """The class sheet: its head, the small class, and the largest sheets."""
    head, answer = [("mark", 3), ("version", 2)], [("mark", 3), ("version", 2), ("apprentice", 4), ("cells", 2)]
    answer += [("cell %d, %s" % (i, name), 1) for i in range(2) for name in ("x", "y", "LE", "zero")]
    names = taken_apart(text, "samples/class-small/class.lxc", lambda name, field: answer_field(name.split(", ")[-1], field))
    assert names == head + [("answers", 2), ("answer 0, length", 2)] + [("answer 0, " + name, size) for name, size in answer] + [
        ("answer 1, length", 2)], names
    section = part(text, "## The class sheet", "\n## ")
    assert [row[:2] + row[3:] for row in rows(section)] == [
        ["0", "3", "76"], ["3", "2", "76"], ["5", "2", "76"], ["7", "2", "76"], ["9", "as the length says", ""]]
    for length, words in ((65535, "The\nlargest class sheet has {:,} bytes"), (2059, "longer than a legal one, {:,}.")):
        assert words.format(len(sheets.class_sheet(*[bytes(length)] * sheets.MAX_ANSWERS))) in section, length


def log_on_page(text):
    """The log: its head, an entry, the small log, and the largest one."""
    fields = [(name, size) for name, _, size in sheets.ENTRY_FIELDS]
    names = taken_apart(text, "samples/minutes-no-minutes/tablet.lxl", answer_field)
    assert names == [("mark", 3), ("version", 2), ("entries", 2)] + [("entry %d, %s" % (i, name), size) for i in range(2) for name, size in fields], names
    section = part(text, "## The tablets' log", "\n## ")
    assert [row[:2] + row[3:] for row in rows(section)] == [["0", "3", "81"], ["3", "2", "82"], ["5", "2", "83"], ["7 + 14i", "14", "85"]]
    entry = rows(part(section, "An entry, with offsets", "\n\nAn entry covers"))
    assert [row[:2] for row in entry] == [[str(start), str(size)] for _, start, size in sheets.ENTRY_FIELDS], entry
    assert [name in row[2] for row, (name, _) in zip(entry, fields)] == [True] * 5 and [row[3] for row in entry] == ["85", "", "85", "85", ""], entry
    assert "The largest has {:,}.".format(len(sheets.log(*[(7, 0, 540, 600, 7)] * sheets.MAX_LOG))) in section


def boards_on_page(text):
    """The settings sheet: its two boards, its head and its flags, and what the judge makes of the listing on the second board."""
    entries = lambda count: [("entry %d" % i, 1) for i in range(count)]
    head = [("mark", 3), ("version", 2), ("entries", 1)]
    assert taken_apart(text, "boards/house.lxt", settings_field) == head + entries(6)
    assert taken_apart(text, "boards/second.lxt", settings_field) == head + [("board", 2)] + entries(8)
    section = part(text, "## The settings sheet", "\n## ")
    assert [row[:2] + row[3:] for row in rows(part(section, "## The settings sheet", "\n\nThe sheet has"))] == [
        ["0", "3", "71"], ["3", "2", "72"], ["5", "1", "73"], ["6", "2", ""], ["6 + i, in version 2 8 + i", "1", "75"]]
    assert rows(part(section, "The flags of an entry", "\n\nAn entry")) == [
        [str(flag), role] for flag, role in zip((sheets.CLK, sheets.ENA, sheets.ACLR, sheets.SCLR, sheets.SLOAD), sheets.ROLES)]
    with tempfile.TemporaryDirectory() as folder:
        sheets.save(folder, sheets.LISTING_EX, sheets.LISTING_AN)
        shown = indented(judged(folder, sheets.SECOND)[0])
    assert "\n`./nurimkkot judge --settings boards/second.lxt samples/listing` prints\n\n" + shown in text, shown


def indented(text):
    return "".join("    %s\n" % line for line in text.splitlines())


def sheets_page():
    text = page("SHEETS.md")
    boards_on_page(text)
    class_on_page(text)
    log_on_page(text)
    ports = lambda i, names: [("cell %d, %s" % (i, name), 2) for name in names]
    head = lambda i: [("cell %d, kind" % i, 1), ("cell %d, flag" % i, 1)]
    assert taken_apart(text, "samples/listing/exercise.lxe", exercise_field) == (
        [("mark", 3), ("version", 2), ("nets", 2), ("cells", 2)]
        + head(0) + ports(0, sheets.REG_PORTS) + head(1) + ports(1, sheets.COMB_PORTS))
    assert taken_apart(text, "samples/listing/answer.lxa", answer_field) == (
        [("mark", 3), ("version", 2), ("apprentice", 4), ("cells", 2)]
        + [("cell %d, %s" % (i, name), 1) for i in range(2) for name in ("x", "y", "LE", "zero")])

    # The order of the ports is the tool's, which is held against the judge.
    record = rows(part(text, "A record, with offsets", "\n\ncombout"))
    zero = lambda name: "0" if name.startswith("zero") else name
    assert record == ([["0", "1", "kind: 1", "kind: 2"], ["1", "1", "flag: 0 or 1", "flag: 0"]]
                      + [[str(2 + 2 * i), "2", zero(c), zero(r)]
                         for i, (c, r) in enumerate(zip(sheets.COMB_PORTS, sheets.REG_PORTS))]), record
    codes = rows(part(text, "## Signals", "\nNets are"))
    assert [row[0] for row in codes] == ["0", "1", "2", "3", "4 + 2n", "5 + 2n"]
    assert (sheets.OPEN, sheets.GND, sheets.VCC, sheets.net(9), sheets.inv(9)) == (0, 1, 2, 22, 23)
    heads = [rows(part(text, "## The %s sheet" % which, "\n\nThe sheet has")) for which in ("exercise", "answer")]
    assert [[row[:2] for row in table] for table in heads] == [
        [["0", "3"], ["3", "2"], ["5", "2"], ["7", "2"], ["9 + 24i", "24"]],
        [["0", "3"], ["3", "2"], ["5", "4"], ["9", "2"], ["11 + 4i", "4"]]]
    assert indented(stored("samples/listing/listing.txt").decode()) in text


def judged(folder, settings=None):
    """The listing of the sheets in a folder, and what the C example says; on the board of a settings sheet where there is one."""
    option = [] if settings is None else ["--settings", "board"]
    if option:
        sheets.write(folder, "board", settings)
    listing = subprocess.run([PROGRAM] + option[:1], cwd=folder, capture_output=True, check=True, input=settings or b"").stdout.decode()
    told = subprocess.run([EXAMPLE] + option + ["exercise.lxe", "answer.lxa"], cwd=folder, capture_output=True, text=True, check=True).stdout
    return listing, told


def boards_judged():
    """The limits of the settings sheet in the same way, beside a cell that needs no entry."""
    raw, house, second = sheets.raw_settings, sheets.HOUSE, sheets.SECOND
    cases = [
        (0, house), (0, second), (70, b""), (70, house[:5]), (70, second[:5]), (71, sheets.patch(house, 2, 0)), (72, raw(0, None)),
        (0, raw(1, None)), (0, raw(2, 0)), (0, raw(2, 65535)), (72, raw(3, 0)), (0, raw(1, None, *[31] * 8)), (73, raw(1, None, *[31] * 9)),
        (0, raw(2, 2, *[31] * 8)), (73, raw(2, 2, *[31] * 9)), (74, house[:-1]), (74, house + b"\0"), (74, second[:-1]), (74, second + b"\0"),
        (74, raw(2, None)), (74, second[:7]), (73, sheets.patch(raw(2, None), 5, 9)), (73, sheets.patch(second[:7], 5, 9)),
        (0, raw(1, None, 0)), (0, raw(1, None, 31)), (75, raw(1, None, 32)), (75, raw(2, 0, *[31] * 7, 32)),
    ]
    with tempfile.TemporaryDirectory() as folder:
        sheets.save(folder, sheets.raw_exercise(4, sheets.comb()), sheets.answer(7, (2, 1, 0)))
        for number, settings in cases:
            listing, told = judged(folder, settings)
            assert listing.split()[1] == str(number) and told.split()[1] == str(number), (number, settings, listing)


def limits_judged():
    """The limits of the other two sheets, by the judge: the last value that is taken, the first that isn't."""
    cell = sheets.comb()
    head = sheets.raw_exercise(4, cell)
    good = sheets.answer(7, (2, 1, 0))
    cases = [
        (0, head, good), (10, head[:8], good), (11, sheets.patch(head, 2, 0), good), (12, sheets.patch(head, 3, 2), good),
        (0, sheets.raw_exercise(1024, sheets.comb(a=sheets.inv(1023))), good), (13, sheets.raw_exercise(1025, cell), good),
        (0, sheets.raw_exercise(0, cell), good), (13, sheets.raw_exercise(4, *[cell] * 513), good), (14, head + b"\0", good),
        (15, sheets.raw_exercise(4, sheets.raw_record(3, 0, [])), good), (0, sheets.raw_exercise(4, sheets.comb(flag=1)), good),
        (15, sheets.raw_exercise(4, sheets.raw_record(1, 2, [])), good), (15, sheets.raw_exercise(4, sheets.raw_record(2, 1, [])), good),
        (0, sheets.raw_exercise(4, sheets.comb(a=sheets.inv(3))), good), (15, sheets.raw_exercise(4, sheets.comb(a=sheets.net(4))), good),
        (15, sheets.raw_exercise(4, sheets.raw_record(1, 0, [3])), good),
        (20, head, good[:10]), (21, head, sheets.patch(good, 2, 0)), (22, head, sheets.patch(good, 3, 2)),
        (23, head, sheets.raw_answer(0, (2, 1, 0))), (24, head, sheets.answer(7)), (25, head, good + b"\0"),
        (0, head, sheets.answer(2 ** 32 - 1, (31, 31, 15))), (26, head, sheets.raw_answer(7, (32, 1, 0))),
        (26, head, sheets.raw_answer(7, (2, 32, 0))), (26, head, sheets.raw_answer(7, (2, 1, 16))), (26, head, sheets.patch(good, 14, 1)),
    ]
    # Outputs: an inverted net and a constant, at each of the three; and each of the zeros.
    for kind, names in ((1, sheets.COMB_PORTS), (2, sheets.REG_PORTS)):
        for i, name in enumerate(names):
            for code in (1, 5):
                signals = [0] * 11
                signals[i] = code
                if name in sheets.OUTPUTS or name.startswith("zero"):
                    cases.append((15, sheets.raw_exercise(4, sheets.raw_record(kind, 0, signals)), good))
    with tempfile.TemporaryDirectory() as folder:
        for number, ex, an in cases:
            sheets.save(folder, ex, an)
            listing, told = judged(folder)
            assert listing.split()[1] == str(number) and told.split()[1] == str(number), (number, ex, an, listing)


def copy_for_command(folder):
    """A copy of what ./nurimkkot needs, with an rt that proves nothing: the program and the library are those that are there."""
    for name in ("nurimkkot", "crates.txt"):
        shutil.copy2(os.path.join(TOP, name), folder)
    for name in ("tools", "samples", "boards"):
        shutil.copytree(os.path.join(TOP, name), os.path.join(folder, name))
    for name in ("crates/judge_main/out", "crates/c_api/out", "made-up"):
        os.makedirs(os.path.join(folder, name))
    shutil.copy2(PROGRAM, os.path.join(folder, "crates", "judge_main", "out"))
    shutil.copy2(LIBRARY, os.path.join(folder, "crates", "c_api", "out"))
    sheets.write(os.path.join(folder, "made-up"), "rt", "#!/bin/sh\n")
    os.chmod(os.path.join(folder, "made-up", "rt"), 0o755)


def library_commands():
    """The commands of docs/CLASS.md, docs/MINUTES.md, docs/TRIES.md and docs/SHEETS.md, one after the other. The first call links the library."""
    with tempfile.TemporaryDirectory() as folder:
        copy_for_command(folder)
        path = os.path.join(folder, "made-up") + os.pathsep + os.environ["PATH"]
        subprocess.run(["./nurimkkot", "class", "samples/class"], cwd=folder, capture_output=True, env=dict(os.environ, PATH=path))
        ran = sum(commands(name, folder, path) for name in ("CLASS.md", "MINUTES.md", "TRIES.md", "SHEETS.md"))
        for name, sample in (("marks.csv", "samples/class/class.csv"), ("minutes.csv", "samples/minutes-class/minutes.csv"),
                             ("tries.csv", "samples/v65-35-tries/tries.csv")):
            with open(os.path.join(folder, name), "rb") as file:
                assert file.read() == stored(sample), name
    return ran


def minutes_page():
    """What docs/MINUTES.md says of the samples besides what the commands print."""
    text, entries = page("MINUTES.md"), lambda name: stored("samples/%s/words.txt" % name).decode().splitlines()
    assert "It has %s entries." % next(line for line in entries("minutes-class") if line.startswith("  entries")).split()[1] in text
    assert "`%s`" % stored("samples/minutes-class/minutes.csv").decode().splitlines()[0] in text
    spans = [list(map(int, re.search(r"apprentice 109, .*opening (\d+), closing (\d+)", line).groups()))
             for line in entries("minutes-400-hours") if "apprentice 109," in line]
    lengths = [closing - opening for opening, closing in spans]
    assert "%s = {:,} minutes, %d hours".format(sum(lengths)) % (" + ".join(map("{:,}".format, lengths)), sum(lengths) // 60) in text, lengths


def commands(name, top=TOP, path=os.environ["PATH"]):
    return page_commands.run(name, page(name), top, path)


def counter():
    """The counter of docs/SAMPLES.md is made and judged as the page says, and with a gap in its chain gets 51."""
    text = page("SAMPLES.md")
    program = part(text, "```python\n", "\n```")[len("```python\n"):]
    listing = text.split("\n```\n", 2)[2].split("\n```")[0].lstrip("`\n")
    assert listing.startswith("verdict 0 "), listing
    for source, expected in ((program, listing + "\n"), (program.replace("(5, 3, 1), (5, 3, 0)", "(5, 3, 2), (5, 3, 0)"), None)):
        with tempfile.TemporaryDirectory() as folder:
            shutil.copytree(os.path.join(TOP, "tools"), os.path.join(folder, "tools"))
            with open(os.path.join(folder, "counter.py"), "w") as file:
                file.write(source)
            subprocess.run([sys.executable, "-B", "counter.py"], cwd=folder, check=True)
            own = os.path.join(folder, "samples", "counter")
            assert sorted(os.listdir(own)) == ["answer.lxa", "exercise.lxe", "words.txt"]
            printed, told = judged(own)
            if expected is None:
                assert source != program and printed == "verdict 51 cell 1 lab - apprentice 1\n", printed
            else:
                assert printed == expected and told.startswith("number 0\n"), printed


def links():
    """Every page that is linked to is there."""
    for name in ("SHEETS.md", "SAMPLES.md", "VERDICTS.md", "TABLET.md", "CLASS.md", "MINUTES.md", "TRIES.md", "AUTHORS.md"):
        for target in re.findall(r"\]\(([^)#]+)", page(name)):
            assert os.path.exists(os.path.join(TOP, "docs", target)), (name, target)


def main():
    sheets_page()
    limits_judged()
    boards_judged()
    minutes_page()
    ran = commands("VERDICTS.md") + commands("SAMPLES.md") + library_commands()
    assert ran >= 30, ran
    assert page("SAMPLES.md").endswith("The number in brackets is the verdict.\n\n" + sheets.list_samples())
    counter()
    links()
    print("sheets: the pages show the bytes, the limits and what %d commands print" % ran)


main()
