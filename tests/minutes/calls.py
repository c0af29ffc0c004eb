"""Files that are missing, can't be read or are too long, output that can't be written, and wrong calls."""

import os

import paper
import sheets
import tablet_log

LOG = sheets.log((7, 0, 540, 600, 7), (8, 20, 600, 600, 7))
NOT_THERE = "tablet.lxl is refused with 80: it is not there and counts as empty"


def missing(place):
    """A missing log counts as empty, and so does a link to nothing. A link to a log is read."""
    for put in (lambda path: None, lambda path: os.symlink("nowhere", path), lambda path: os.symlink("other/nowhere", path)):
        place.fill({"other": LOG, "Tablet.lxl": LOG, "tablet.LXL": LOG})
        put(place.path("tablet.lxl"))
        assert place.refused("minutes") == place.refused("minutes", "--csv") == NOT_THERE
    place.fill({"other": LOG})
    os.symlink("other", place.path("tablet.lxl"))
    assert place.run("minutes") == (0, paper.text(LOG).encode(), [])
    keep, place.folder = place.folder, place.path("nowhere")
    assert place.refused("minutes") == NOT_THERE
    place.folder = keep
    return 5


def unreadable(place):
    """A log that is there and can't be read ends the work."""
    cases = [(os.mkdir, "not a plain file"), (os.mkfifo, "not a plain file"), (lambda path: os.symlink("/dev/zero", path), "not a plain file"),
             (lambda path: os.symlink("/dev/null", path), "not a plain file"),
             (lambda path: os.symlink("tablet.lxl", path), "Too many levels of symbolic links")]
    for put, words in cases:
        place.fill({"other": LOG})
        put(place.path("tablet.lxl"))
        assert place.refused("minutes") == place.refused("minutes", "--csv") == "tablet.lxl can't be read: " + words
        assert sorted(os.listdir(place.folder)) == ["other", "tablet.lxl"]
    return len(cases)


def too_long(place):
    """A file that is larger than any legal log has the number of the whole file, and no more of it is read than that takes."""
    most = sheets.raw_log(*[(7, 0, 540, 600, 7)] * 1024)
    assert len(most) == tablet_log.LARGEST_LOG
    counts = (0, 1, 1023, 1024, 1025, 65535)
    heads = [(number, sheets.patch(most, 5, *count.to_bytes(2, "little"))) for count in counts for number in ([83] if count > 1024 else [84])]
    heads += [(81, sheets.patch(most, 0, 0)), (82, sheets.patch(most, 3, 0))]
    for number, log in heads:
        for length in (len(most) + 1, len(most) + 14, 2 ** 40):
            place.fill({"tablet.lxl": log})
            os.truncate(place.path("tablet.lxl"), length)
            assert place.refused("minutes").startswith("tablet.lxl is refused with %d: " % number), (number, length)
            assert os.path.getsize(place.path("tablet.lxl")) == length
    read = []
    keep = tablet_log.read_file
    tablet_log.read_file = lambda folder, name, size: read.append((name, size)) or keep(folder, name, size)
    place.refusal(tablet_log.minutes, [])
    tablet_log.read_file = keep
    assert read == [("tablet.lxl", len(most) + 1)], read
    return 3 * len(heads) + 1


def output(place):
    """Standard output that can't be written whole."""
    place.fill({"tablet.lxl": LOG})
    for options in ([], ["--csv"]):
        with open("/dev/full", "wb") as full:
            assert place.run("minutes", *options, stdout=full) == (2, None, ["nurimkkot: standard output was not written whole: No space left on device"])
    closed = place.run("minutes", preexec_fn=lambda: os.close(1))
    assert closed[0] == 2 and closed[2] == ["nurimkkot: standard output was not written whole: Bad file descriptor"], closed
    assert place.run("minutes", preexec_fn=lambda: os.close(2)) == (0, paper.text(LOG).encode(), [])
    # Nothing of standard input is read, and a settings sheet or other files in the folder change nothing.
    place.fill({"tablet.lxl": LOG, "settings.lxt": b"", "exercise.lxe": b"", "class.lxc": b""})
    assert place.run("minutes", input=b"something") == (0, paper.text(LOG).encode(), [])
    return 5


def wrong_calls(place):
    """Words that are none of the script's, libraries that can't be used, and a number that has no words."""
    place.fill({"tablet.lxl": LOG})
    wrong = (["mark"], [""], ["minutes", "--CSV"], ["minutes", "--csv", "more"], ["minutes", "--settings"])
    tried = place.refuses_calls("minutes", "tablet.lxl", wrong, "tablet_log.py takes minutes, the library and the folder, and --csv")
    keep = place.library.minutes
    for number in (87, 99):
        place.library.minutes = lambda log: (number, [], [])
        assert place.refusal(tablet_log.minutes, []) == "tablet.lxl is refused with %d: see docs/VERDICTS.md" % number
    place.library.minutes = keep
    return tried + 2


def try_all(place):
    return sum(work(place) for work in (missing, unreadable, too_long, output, wrong_calls))
