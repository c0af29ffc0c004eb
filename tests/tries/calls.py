"""Files that are missing, can't be read or are too long, the board in the folder, answers of the library that do not fit together, output that
can't be written, and wrong calls."""

import os

import counts
import paper
import sheets
import shared
import tries
from counts import NAMES
from trying import ANSWER, EXERCISE

UNFIT = "what the judge says and what the check of one LAB says do not fit together, and nothing is told"
HEADINGS = counts.HEADINGS.encode()
GOOD = {"exercise.lxe": EXERCISE, "answer.lxa": ANSWER, "settings.lxt": sheets.SECOND}


def missing(place):
    """A missing exercise or answer counts as empty, a missing settings sheet as none; so does a link to nothing. A link to a sheet is read."""
    said = {"exercise.lxe": "verdict 10 on the board of settings.lxt: the exercise has under 9 bytes; exercise.lxe is not there and counts as empty",
            "answer.lxa": "verdict 20 on the board of settings.lxt: the answer has under 11 bytes; answer.lxa is not there and counts as empty"}
    puts = (lambda path: None, lambda path: os.symlink("nowhere", path), lambda path: os.symlink("other/nowhere", path))
    for name, put in ((name, put) for name in NAMES for put in puts):
        place.fill({"other": EXERCISE, name.upper(): GOOD[name], **{other: sheet for other, sheet in GOOD.items() if other != name}})
        put(place.path(name))
        if name == "settings.lxt":
            assert place.run("tries") == (0, paper.text(EXERCISE, ANSWER, None).encode(), [])
            assert place.run("tries", "--csv") == (0, paper.table(EXERCISE, ANSWER, None).encode(), [])
        else:
            assert place.run("tries") == (0, (said[name] + "\n" + counts.NO_TRIES).encode(), [])
            assert place.run("tries", "--csv") == (0, HEADINGS, ["nurimkkot: no tries are told: " + said[name]])
    place.fill({"a": EXERCISE, "b": ANSWER, "c": sheets.SECOND})
    for target, name in zip("abc", NAMES):
        os.symlink(target, place.path(name))
    assert place.run("tries") == (0, paper.text(EXERCISE, ANSWER, sheets.SECOND).encode(), [])
    keep, place.folder = place.folder, place.path("nowhere")
    assert place.run("tries")[1].startswith(b"verdict 10 on the board of document 01: ")
    place.folder = keep
    return 3 * len(puts) + 2


def boards(place):
    """The settings sheet in the folder is the board, whatever it holds; one that is refused gives its number."""
    for st in (sheets.HOUSE, sheets.SECOND, sheets.settings(), sheets.settings(31, board=9)):
        counts.hold(place, EXERCISE, ANSWER, st)
    assert paper.labs(EXERCISE, ANSWER, sheets.SECOND) != paper.labs(EXERCISE, ANSWER, sheets.HOUSE) == paper.labs(EXERCISE, ANSWER, None)
    for number, st in ((70, b""), (71, EXERCISE), (72, sheets.patch(sheets.HOUSE, 3, 3)), (73, sheets.patch(sheets.HOUSE, 5, 9)),
                       (74, sheets.HOUSE + b"\0"), (75, sheets.patch(sheets.HOUSE, 6, 32))):
        place.fill(dict(GOOD, **{"settings.lxt": st}))
        assert place.run("tries")[1].startswith(b"verdict %d on the board of settings.lxt: " % number), number
        assert place.run("tries", "--csv")[:2] == (0, HEADINGS), number
    return 10


def damaged(place):
    """Every length of each sheet and a change of each byte: the lines of the enumeration, or those of the judge's verdict."""
    tried = 0
    for name, sheet in GOOD.items():
        changed = [sheet[:length] for length in range(len(sheet))] + [sheet + b"\0"]
        changed += [sheets.patch(sheet, at, sheet[at] ^ flip) for at in range(len(sheet)) for flip in (1, 4, 255)]
        for other in changed:
            files = dict(GOOD, **{name: other})
            number, cell, lab, _ = place.library.verdict(files["settings.lxt"], files["exercise.lxe"], files["answer.lxa"])
            if number in (0, 65):
                counts.hold(place, *[files[each] for each in NAMES])
            else:
                place.fill(files)
                line = counts.other_verdict(number, cell, lab, *[files[each] for each in NAMES])
                assert counts.told(place) == counts.no_tries(line), (name, other)
            tried += 1
    return tried


def unreadable(place):
    """A sheet that is there and can't be read ends the work."""
    cases = [(os.mkdir, "not a plain file"), (os.mkfifo, "not a plain file"), (lambda path: os.symlink("/dev/zero", path), "not a plain file"),
             (lambda path: os.symlink("/dev/null", path), "not a plain file"),
             (lambda path: os.symlink(os.path.basename(path), path), "Too many levels of symbolic links")]
    for name in NAMES:
        for put, words in cases:
            place.fill({other: sheet for other, sheet in GOOD.items() if other != name})
            put(place.path(name))
            assert place.refused("tries") == place.refused("tries", "--csv") == "%s can't be read: %s" % (name, words), name
            assert sorted(os.listdir(place.folder)) == sorted(NAMES)
    return len(NAMES) * len(cases)


def too_long(place):
    """A file that is larger than any legal sheet has the verdict of the whole file, and no more of it is read than that takes."""
    for name, number in zip(NAMES, (14, 25, 74)):
        for length in (shared.LARGEST_SHEET, shared.LARGEST_SHEET + 1, 2 ** 40):
            place.fill(GOOD)
            os.truncate(place.path(name), length)
            assert place.run("tries")[1].startswith(b"verdict %d on " % number), (name, length)
            assert os.path.getsize(place.path(name)) == length
    read, keep = [], tries.read_file
    tries.read_file = lambda folder, name, most: read.append((name, most)) or keep(folder, name, most)
    tries.tries(place.library, place.folder, [])
    tries.read_file = keep
    assert sorted(read) == sorted((name, 12298) for name in NAMES), read
    return 10


class Wrong:
    """The library with one thing that it says changed."""

    def __init__(self, library, **changes):
        self.library, self.changes = library, changes

    def __getattr__(self, name):
        said, change = getattr(self.library, name), self.changes.get(name)
        return (lambda *words: change(said(*words))) if change else said


def unfit(place):
    """What does not fit together is not told: tries, routes, verdicts and lent memory that are not what they have to be."""
    sample = lambda name: {file: place.stored("samples", name, file) for file in NAMES
                           if os.path.exists(os.path.join(place.top, "samples", name, file))}
    with_tries = lambda **counts: lambda judged: judged._replace(tries=[counts.get("lab%d" % lab, old) for lab, old in enumerate(judged.tries)])
    with_route = lambda at, byte: lambda judged: judged._replace(route=sheets.patch(judged.route, at, byte))
    with_verdict = lambda **parts: lambda judged: judged._replace(verdict=judged.verdict._replace(**parts))
    too_many = tries.MOST_TRIES + 1
    # LAB 68 of p10 has six tries for four needs; LAB 69 is empty.
    cases = [("p10", dict(judged=change)) for change in (
        with_tries(lab68=3), with_tries(lab68=0), with_tries(lab68=too_many), with_tries(lab69=1), with_tries(lab0=0xa5a5a5a5),
        with_route(8 * 68, 1), with_route(8 * 68 + 7, 3), with_route(8 * 69, 0), with_route(8191, 0xa5), with_verdict(lab=68), with_verdict(lab=69),
        with_verdict(number=65), with_verdict(number=65, lab=68), with_verdict(number=60, lab=68), with_verdict(number=99))]
    cases += [("p10", dict(check_lab=change)) for change in (
        lambda said: (65, said[1]), lambda said: (18, said[1]), lambda said: (0, said[1][::-1]), lambda said: (0, bytes([255] * 8)))]
    cases += [("p10", dict(records=change)) for change in (lambda said: None, lambda said: said[:-1], lambda said: said * 2)]
    cases += [("p10", dict(places=change)) for change in (lambda said: None, lambda said: said[:-1], lambda said: [(5, 2, 0)] * 2)]
    cases += [("p10", dict(records=lambda said: None, places=lambda said: None))]
    # LAB 68 is below, LAB 70 refused, LAB 71 above.
    cases += [("v65-35-tries", dict(judged=change)) for change in (
        with_tries(lab68=0), with_tries(lab68=3), with_tries(lab70=too_many), with_tries(lab71=2), with_tries(lab100=1), with_tries(lab3=1),
        with_tries(lab72=1), with_route(0, 0), with_verdict(lab=71), with_verdict(lab=68), with_verdict(lab=72), with_verdict(lab=65535),
        with_verdict(number=0), with_verdict(number=64))]
    cases += [("v65-35-tries", dict(check_lab=change)) for change in (
        lambda said: (0, said[1]), lambda said: (65, said[1]), lambda said: (said[0], bytes(8)))]
    cases += [("v60-three-clocks", dict(judged=change)) for change in (
        with_tries(lab3=1), with_tries(lab1023=0), with_route(0, 255), with_verdict(number=0), with_verdict(number=65))]
    cases += [("legal-constants", dict(judged=with_tries(lab42=1)))]
    # Two needs that share an entry are two needs, with two tries at least and two route bytes. LAB 227 is below a refused one.
    cases += [("legal-clock-and-inverse", dict(judged=change)) for change in (
        with_tries(lab49=1), with_route(8 * 49 + 1, 1), with_route(8 * 49 + 1, 255))]
    cases += [("legal-clock-and-inverse", dict(check_lab=lambda said: (0, sheets.patch(said[1], 1, 1))))]
    cases += [("v65-two-nets", dict(judged=with_tries(lab227=1))), ("v65-two-nets", dict(judged=with_tries(lab228=too_many)))]
    for name, changes in cases:
        place.fill(sample(name))
        right = place.library
        place.library = Wrong(right, **changes)
        for options in ([], ["--csv"]):
            assert place.refusal(tries.tries, options) == UNFIT, (name, changes)
        place.library = right
        assert place.refusal(tries.tries, []) is None, name
    return len(cases)


def lists_lent(place):
    """The judge refuses lists of another length with 1 and 3, so the script's are of the right one."""
    judge, sheets_of = place.library.judge_into, (sheets.HOUSE, EXERCISE, ANSWER)
    lent = lambda route, count: ((tries.ctypes.c_uint8 * route)(), (tries.ctypes.c_uint32 * count)())
    assert judge(*lent(shared.ROUTE, shared.TRIES), *sheets_of) == shared.Verdict(0, 65535, 65535, 7)
    for count in (0, 1, 1023, 1025, 4096):
        assert judge(*lent(shared.ROUTE, count), *sheets_of) == judge(*lent(shared.ROUTE, count), b"", b"", b"") == shared.Verdict(3, 65535, 65535, 0)
        assert judge(*lent(shared.ROUTE - 1, count), *sheets_of) == shared.Verdict(1, 65535, 65535, 0)
    return 6


def output(place):
    """Standard output that can't be written whole, and a verdict that has no words."""
    for name in ("settings.lxt", "answer.lxa"):
        place.fill({other: sheet for other, sheet in GOOD.items() if other != name})
        for options in ([], ["--csv"]):
            with open("/dev/full", "wb") as full:
                status, _, lines = place.run("tries", *options, stdout=full)
                assert (status, lines[-1]) == (2, "nurimkkot: standard output was not written whole: No space left on device"), lines
        closed = place.run("tries", preexec_fn=lambda: os.close(1))
        assert closed[0] == 2 and closed[2] == ["nurimkkot: standard output was not written whole: Bad file descriptor"], closed
        assert place.run("tries", "--csv", preexec_fn=lambda: os.close(2))[0] == 0
    # Nothing of standard input is read, and other files in the folder change nothing.
    place.fill({**GOOD, "class.lxc": b"", "tablet.lxl": b"", "tries.csv": b"", "settings.csv": b""})
    assert place.run("tries", input=b"something") == (0, paper.text(EXERCISE, ANSWER, sheets.SECOND).encode(), [])
    line = tries.verdict_line(shared.Verdict(99, 5, 65535, 7), "settings.lxt", [])
    assert line == "verdict 99 on the board of settings.lxt, cell 5: see docs/VERDICTS.md", line
    return 10


def wrong_calls(place):
    """Words that are none of the script's, and libraries that can't be used."""
    place.fill(GOOD)
    wrong = (["minutes"], [""], ["tries", "--CSV"], ["tries", "--csv", "more"], ["tries", "--settings"])
    return place.refuses_calls("tries", "exercise.lxe", wrong, "tries.py takes tries, the library and the folder, and --csv")


def try_all(place):
    return sum(work(place) for work in (missing, boards, damaged, unreadable, too_long, unfit, lists_lent, output, wrong_calls))
