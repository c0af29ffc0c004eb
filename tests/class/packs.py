"""Packing: which files become which rows, what is refused, and what becomes of class.lxc."""

import errno
import os
import resource
import stat
import tempfile

import class_sheets
import sheets
import shared
from files import FailingSystem, Interrupt
from trying import ANSWER, EXERCISE, by

OLD = {"class.lxc": b"an old class sheet"}
TWO = {"exercise.lxe": EXERCISE, "a.lxa": ANSWER, "b.lxa": by(8)}
TWO_PACKED = sheets.class_sheet(ANSWER, by(8))
TOO_LONG = "has over 2059 bytes, more than a legal answer; its first 2060 are packed, and its verdict is the same"


def list_of(*rows):
    """What pack writes: the bytes and the name of each row."""
    lines = ["row  bytes  file"] + ["%3d  %5d  %s" % (at, size, name) for at, (size, name) in enumerate(rows)]
    return "".join(line + "\n" for line in lines).encode()


def the_class(place):
    """The sample classes, packed by the command, are those that tools/sheets.py has packed."""
    for sample in ("class", "class-small"):
        folder = os.path.join(place.top, "samples", sample)
        answers = {name: place.stored(folder, name) for name in sorted(os.listdir(folder)) if name.endswith(".lxa")}
        place.fill({"exercise.lxe": place.stored(folder, "exercise.lxe"), **answers})
        assert place.run("pack") == (0, list_of(*[(len(data), name) for name, data in answers.items()]), [])
        found = place.found()
        assert found.pop("class.lxc") == place.stored(folder, "class.lxc") and len(found) == len(answers) + 1
        place.fill({**found, "class.lxc": b"old"})
        assert place.refusal(class_sheets.pack) is None and place.found()["class.lxc"] == place.stored(folder, "class.lxc")
    return 4


# Names in the order of their bytes, and how they are printed.
NAMES = [
    (b"\n.lxa", "\\n.lxa"), (b"\x1b[31m.lxa", "\\x1b[31m.lxa"), (b" .lxa", " .lxa"), (b'"q".lxa', '"q".lxa'), (b"$(HOME).lxa", "$(HOME).lxa"),
    (b"%s.lxa", "%s.lxa"), (b"'.lxa", "'.lxa"), (b"*.lxa", "*.lxa"), (b"--csv.lxa", "--csv.lxa"), (b"-P.lxa", "-P.lxa"), (b"1,2.lxa", "1,2.lxa"),
    (b"10.lxa", "10.lxa"), (b"2.lxa", "2.lxa"), (b"A.lxa", "A.lxa"), (b"\\n.lxa", "\\\\n.lxa"), (b"a b.lxa", "a b.lxa"), (b"a-1.lxa", "a-1.lxa"),
    (b"a.lxa", "a.lxa"), (b"a.lxa.lxa", "a.lxa.lxa"), (b"a1.lxa", "a1.lxa"), (b"b.lxa", "b.lxa"), (b"new\nline.lxa", "new\\nline.lxa"),
    (b"tab\t.lxa", "tab\\t.lxa"), (b"~.lxa", "~.lxa"), (b"\x7f.lxa", "\\x7f.lxa"), (b"\x80.lxa", "\\x80.lxa"), ("é.lxa".encode(), "é.lxa"),
    ("\u2028.lxa".encode(), "\\u2028.lxa"), ("\u202e.lxa".encode(), "\\u202e.lxa"), ("한글.lxa".encode(), "한글.lxa"), ("🙂.lxa".encode(), "🙂.lxa"),
    (b"\xff.lxa", "\\xff.lxa"),
]


def names(place):
    """Any name, in the order of the bytes, whatever the locale. Each row is the answer of its file."""
    assert len(NAMES) == 32
    answers = {name: by(100 + at) for at, (name, _) in enumerate(NAMES)}
    aside = {name: ANSWER for name in (b".lxa", b".hidden.lxa", b"c.LXA", b"c.lxa~", b"c.lxa.bak", b"clxa", b"settings.lxt")}
    for locale in ("C", "C.UTF-8", "en_US.UTF-8", "de_DE.ISO-8859-1", "ko_KR.EUC-KR"):
        place.fill({"exercise.lxe": EXERCISE, **dict(reversed(answers.items())), **aside})
        done = place.run("pack", env={"LC_ALL": locale, "LANG": locale})
        assert done == (0, list_of(*[(len(ANSWER), shown) for _, shown in NAMES]), []), (locale, done)
        assert [fields[1:3] for fields in place.rows()] == [[str(100 + at), "0"] for at in range(32)], locale
        assert place.found()["class.lxc"] == sheets.class_sheet(*answers.values())
    # A locale that is not UTF-8: a name is printed as what its bytes are in UTF-8.
    shared.os = FailingSystem((), 0, None)
    shared.os.fsencode = lambda name: name.encode("latin-1")
    shown = shared.plain("\xc3\xa9 \xe9.lxa")
    shared.os = os
    assert shown == "é \\xe9.lxa", shown
    return 6


def counts(place):
    """One answer and 32 are packed; none, and 33, are refused, and class.lxc stays."""
    for count in (1, 31, 32):
        place.fill({"%02d.lxa" % at: by(at + 1) for at in range(count)})
        assert place.refusal(class_sheets.pack) is None
        assert place.found()["class.lxc"] == sheets.class_sheet(*[by(at + 1) for at in range(count)])
    for count in (33, 34, 300):
        before = {**OLD, **{"%03d.lxa" % at: by(at + 1) for at in range(count)}}
        place.fill(before)
        said = place.refused("pack")
        assert said == "there are %d answers in the folder, and a class sheet has at most 32; take another folder for the rest" % count, said
        assert place.found() == before
    for files in ({}, {"exercise.lxe": EXERCISE}, {".a.lxa": ANSWER, "a.LXA": ANSWER}, OLD):
        place.fill(files)
        assert place.refused("pack") == "there is no answer in the folder: no file has a name that ends in .lxa"
        assert place.found() == files
    return 3 + 3 + 4


def lengths(place):
    """Answers of any length. Of one that is longer than any legal one the first 2,060 bytes are packed, which changes no verdict."""
    place.fill({"exercise.lxe": EXERCISE, "empty.lxa": b"", "short.lxa": ANSWER[:10], "whole.lxa": ANSWER})
    assert place.run("pack") == (0, list_of((0, "empty.lxa"), (10, "short.lxa"), (19, "whole.lxa")), [])
    assert [fields[2] for fields in place.rows()] == ["20", "20", "0"]
    largest = sheets.raw_exercise(0, *[sheets.comb()] * 512)
    answer = sheets.answer(9, *[(at // 16, at // 16, at % 16) for at in range(512)])
    heads = [answer, ANSWER, b"", EXERCISE, sheets.patch(answer, 3, 2), sheets.patch(answer, 5, 0), sheets.patch(answer, 9, 1, 2)]
    for exercise in (largest, EXERCISE, b""):
        whole = [head + bytes(length - len(head)) for head in heads for length in (2058, 2059, 2060, 2061, 70000) if length >= len(head)]
        for some in (whole[:18], whole[18:]):
            place.fill({"exercise.lxe": exercise, **{"%02d.lxa" % at: data for at, data in enumerate(some)}})
            status, out, lines = place.run("pack")
            assert (status, out) == (0, list_of(*[(min(len(data), 2060), "%02d.lxa" % at) for at, data in enumerate(some)])), out
            assert lines == ["nurimkkot: %02d.lxa %s" % (at, TOO_LONG) for at, data in enumerate(some) if len(data) > 2059], lines
            want = [place.library.verdict(sheets.HOUSE, exercise, data) for data in some]
            assert [fields[1:3] for fields in place.rows()] == [[str(verdict.apprentice), str(verdict.number)] for verdict in want], want
    # No more of a file is read than that.
    place.fill({"exercise.lxe": EXERCISE, "a.lxa": ANSWER})
    os.truncate(place.path("a.lxa"), 2 ** 40)
    status, out, lines = place.run("pack")
    assert status == 0 and len(lines) == 1 and os.path.getsize(place.path("class.lxc")) == 7 + 2 + 2060
    # A name is escaped in that line too, and a closed standard error changes nothing.
    place.fill({b"a\nb\xff.lxa": bytes(3000)})
    assert place.run("pack")[2][0].startswith("nurimkkot: a\\nb\\xff.lxa has over 2059 bytes")
    assert place.run("pack", preexec_fn=lambda: os.close(2)) == (0, list_of((2060, "a\\nb\\xff.lxa")), [])
    return 2 + 6 + 3


def unreadable(place):
    """An answer that can't be read or is no plain file, and an exercise that is there and can't be read: nothing is written."""
    itself = lambda path: os.symlink(os.path.basename(path), path)
    cases = [(os.mkdir, "not a plain file"), (os.mkfifo, "not a plain file"), (lambda path: os.symlink("/dev/zero", path), "not a plain file"),
             (itself, "Too many levels of symbolic links")]
    nothing = [(lambda path: os.symlink("nowhere", path), "there is no such file")]
    for name, shown, more in (("exercise.lxe", "exercise.lxe", []), ("c.lxa", "c.lxa", nothing), ("\n-\udcff.lxa", "\\n-\\xff.lxa", nothing)):
        for put, words in cases + more:
            before = {key: data for key, data in {**TWO, **OLD}.items() if key != name}
            place.fill(before)
            put(place.path(name))
            assert place.refused("pack") == "%s can't be read: %s" % (shown, words), (name, words)
            assert sorted(os.listdir(place.folder)) == sorted([*before, name]) and place.stored(place.path("class.lxc")) == OLD["class.lxc"]
    # A link to an answer is an answer, and an exercise may be missing.
    place.fill({"sheet": ANSWER, "b.lxa": by(8)})
    os.symlink("sheet", place.path("a.lxa"))
    assert place.refusal(class_sheets.pack) is None and place.found()["class.lxc"] == TWO_PACKED
    return 3 * len(cases) + 2 + 1


def replaced(place):
    """A plain class.lxc is replaced and keeps its mode. A link, a folder, a FIFO and a write-protected file stay."""
    said = "class.lxc is there and is no plain file that may be written, so it is not replaced"
    puts = (os.mkdir, os.mkfifo, lambda path: os.symlink("nowhere", path), lambda path: os.symlink("b.lxa", path))
    for put in puts:
        place.fill(TWO)
        put(place.path("class.lxc"))
        before = os.lstat(place.path("class.lxc"))
        assert place.refused("pack") == said
        assert os.lstat(place.path("class.lxc")) == before and sorted(os.listdir(place.folder)) == sorted([*TWO, "class.lxc"])
        assert place.stored(place.path("b.lxa")) == by(8)
    place.fill({**TWO, **OLD})
    shared.os = FailingSystem((), 0, None)
    shared.os.access = lambda path, mode: False
    assert place.refusal(class_sheets.pack) == said and place.found() == {**TWO, **OLD}
    shared.os = os
    mask = os.umask(0o027)
    for before, mode in ((None, 0o640), (0o664, 0o664), (0o600, 0o600)):
        place.fill(TWO if before is None else {**TWO, **OLD})
        if before is not None:
            os.chmod(place.path("class.lxc"), before)
        assert place.refusal(class_sheets.pack) is None and stat.S_IMODE(os.stat(place.path("class.lxc")).st_mode) == mode
    os.umask(mask)
    return len(puts) + 1 + 3


def ended(place, system):
    """How packing ends on such a system."""
    shared.os = class_sheets.os = system
    try:
        return "refused" if place.refusal(class_sheets.pack) else "done"
    except Interrupt:
        return "interrupted"
    finally:
        shared.os = class_sheets.os = os


def failures(place):
    """Each call of the system fails once. Then nothing has changed, and no other file is left."""
    tried = 0
    calls = ("listdir", "open", "fstat", "read", "lstat", "fchmod", "write", "fsync")
    full = OSError(errno.ENOSPC, os.strerror(errno.ENOSPC))
    for before in ({**TWO, **OLD}, TWO):
        for names, failure, how in ((calls + ("replace",), full, "refused"), (calls, Interrupt(), "interrupted")):
            count, end = 0, None
            while end != "done":
                count += 1
                place.fill(before)
                end = ended(place, FailingSystem(names, count, failure))
                assert end == "done" or (end == how and place.found() == before), (names, count, end, sorted(place.found()))
            assert count > 10 and place.found() == {**TWO, "class.lxc": TWO_PACKED}, count
            tried += count
    return tried


def wrong_bytes(place):
    """A disk that gives another byte back, and a library that says something else of the whole than of each, are found out."""
    said = "what was made does not read back as it was meant, and nothing is written"
    read, flips = shared.read_bytes, [(at, flip) for at in range(len(TWO_PACKED)) for flip in (1, 128)]
    for at, flip in flips:
        def other(file, most):
            data = read(file, most)
            return sheets.patch(data, at, data[at] ^ flip) if data[:3] == b"LXC" else data
        shared.read_bytes = other
        place.fill({**TWO, **OLD})
        assert place.refusal(class_sheets.pack) == said and place.found() == {**TWO, **OLD}, at
    shared.read_bytes = read
    good = place.library.mark_class
    number, verdicts = good(sheets.HOUSE, EXERCISE, TWO_PACKED)
    wrong = [(76, []), (0, []), (0, verdicts[:1]), (0, verdicts + verdicts[:1]), (0, verdicts[::-1]), (1, verdicts)]
    for answer in wrong + [(number, verdicts)]:
        place.library.mark_class = lambda *sheets: answer
        place.fill({**TWO, **OLD})
        assert place.refusal(class_sheets.pack) == (said if answer in wrong else None), answer
        assert place.found() == {**TWO, **(OLD if answer in wrong else {"class.lxc": TWO_PACKED})}, answer
    place.library.mark_class = good
    return len(flips) + len(wrong) + 1


def as_program(place):
    """No room, and standard output that can't be written whole: class.lxc is the old one, or the whole new one."""
    for most in (0, 20):
        place.fill({**TWO, **OLD})
        said = place.refused("pack", preexec_fn=lambda: resource.setrlimit(resource.RLIMIT_FSIZE, (most, most)))
        assert said == "class.lxc is not written: File too large" and place.found() == {**TWO, **OLD}, said
    place.fill({**TWO, **OLD})
    with open("/dev/full", "wb") as full:
        assert place.run("pack", stdout=full) == (2, None, ["nurimkkot: standard output was not written whole: No space left on device"])
    assert place.found() == {**TWO, "class.lxc": TWO_PACKED}
    # Any folder, and none.
    keep = place.folder
    with tempfile.TemporaryDirectory(prefix="-odd\n name ") as place.folder:
        place.fill(TWO)
        assert place.run("pack") == (0, list_of((19, "a.lxa"), (19, "b.lxa")), []) and len(place.rows()) == 2
        os.rename(place.folder, place.folder + "away")
        assert place.refused("pack") == "the folder can't be read: No such file or directory"
        os.rename(place.folder + "away", place.folder)
    place.folder = keep
    return 5


def try_all(place):
    return sum(work(place) for work in (the_class, names, counts, lengths, unreadable, replaced, failures, wrong_bytes, as_program))
