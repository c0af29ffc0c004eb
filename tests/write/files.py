"""What becomes of the files: all are replaced or none, whatever fails, and the script run as a program says so."""

import errno
import os
import re
import resource
import shutil
import signal
import stat
import subprocess
import sys
import time

import csv_sheets
import shared
from cases import BOARD, BOARD_LXT, LISTING, LISTING_LXA, LISTING_LXE, PLACES

OLD = {"exercise.lxe": b"old exercise", "answer.lxa": b"old answer", "settings.lxt": b"old settings"}
CSV = {"exercise.csv": LISTING.encode(), "answer.csv": PLACES.encode(), "settings.csv": BOARD.encode()}
SHEETS = {"exercise.lxe": LISTING_LXE, "answer.lxa": LISTING_LXA, "settings.lxt": BOARD_LXT}


class FailingSystem:
    """The module os, but that one call fails: the last of so many calls of the functions named."""

    def __init__(self, names, calls, failure, module=os):
        self.names, self.calls, self.failure, self.module = names, calls, failure, module

    def __getattr__(self, name):
        return self.failing(getattr(self.module, name)) if name in self.names else getattr(self.module, name)

    def failing(self, function):
        def call(*words, **more):
            self.calls -= 1
            if self.calls == 0:
                raise self.failure
            return function(*words, **more)
        return call


class Interrupt(BaseException):
    pass


def ended(place, verb, system):
    """How a verb ends on such a system."""
    shared.os = system
    try:
        verb(place.library, place.folder)
    except csv_sheets.Refused as why:
        place.said += why.lines
        return "refused"
    except Interrupt:
        return "interrupted"
    finally:
        shared.os = os
    return "done"


def failures(place):
    """Each call of the system fails once, in each situation. Then nothing has changed, and no other file is left."""
    tried = 0
    calls = ("open", "fstat", "read", "lstat", "fchmod", "write", "fsync")
    full = OSError(errno.ENOSPC, os.strerror(errno.ENOSPC))
    for verb, before, after in ((csv_sheets.write, {**CSV, **OLD}, SHEETS), (csv_sheets.write, CSV, SHEETS),
                                (csv_sheets.write, {**CSV, "answer.lxa": b"old answer"}, SHEETS), (csv_sheets.csv, SHEETS, SHEETS)):
        last = ("replace",) if verb is csv_sheets.write else ("link",)
        for names, failure, how in ((calls + last, full, "refused"), (calls, Interrupt(), "interrupted")):
            count, end = 0, None
            while end != "done":
                count += 1
                place.fill(before)
                system = FailingSystem(names, count, failure)
                end = ended(place, verb, system)
                if end != "done":
                    assert end == how and place.found() == before, (verb, names, count, end, sorted(place.found()))
                tried += 1
            assert system.calls > 0 and count > 10, count
            found = place.found()
            assert sorted(found) == sorted({**CSV, **SHEETS}) and {name: found[name] for name in after} == after, found
            place.fill(before)
            assert ended(place, verb, FailingSystem(("fsync",), 3, failure)) == how, "a file that was not on the disk"
    # No second names on the file system: a new CSV file is renamed.
    for error in (errno.EPERM, errno.ENOTSUP):
        for count in (1, 2, 3):
            place.fill(SHEETS)
            system = FailingSystem(("link",), count, OSError(error, os.strerror(error)))
            assert ended(place, csv_sheets.csv, system) == "done" and len(place.found()) == 6
            tried += 1
    # No room for a copy of what is there.
    for count in (1, 2, 3):
        place.fill({**CSV, **OLD})
        shared.shutil = FailingSystem(("copy2",), count, full, shutil)
        assert ended(place, csv_sheets.write, os) == "refused" and place.found() == {**CSV, **OLD}
        shared.shutil = shutil
        tried += 1
    # A CSV file that comes there meanwhile stays.
    for name in CSV:
        place.fill(SHEETS)
        check = csv_sheets.same

        def same(*pairs):
            check(*pairs)
            if isinstance(pairs[0][0], dict):
                with open(os.path.join(place.folder, name), "wb") as file:
                    file.write(b"mine")
        csv_sheets.same = same
        assert ended(place, csv_sheets.csv, os) == "refused" and place.found() == {**SHEETS, name: b"mine"}, place.found()
        csv_sheets.same = check
    return tried + len(CSV)


def wrong_bytes(place):
    """A writer that writes another byte, or a disk that gives one back, is found out."""
    tried = 0
    library = place.library
    for function, sheet in (("write_exercise", LISTING_LXE), ("write_answer", LISTING_LXA), ("write_settings", BOARD_LXT)):
        good = getattr(library, function)
        for at in range(len(sheet)):
            def wrong(*words):
                number, sheet = good(*words)
                return number, sheet[:at] + bytes([sheet[at] ^ 1]) + sheet[at + 1:] if number == 0 else sheet
            setattr(library, function, wrong)
            for verb, before in ((csv_sheets.write, {**CSV, **OLD}), (csv_sheets.csv, SHEETS)):
                place.fill(before)
                said = place.refusal(verb)
                assert said and len(said) == 1 and place.found() == before, (function, at, said)
                tried += 1
            delattr(library, function)
    read = shared.read_bytes
    for sheet in SHEETS.values():
        for at in range(len(sheet)):
            def other(file, most):
                data = read(file, most)
                return data[:at] + bytes([data[at] ^ 128]) + data[at + 1:] if data[:3] == sheet[:3] else data
            shared.read_bytes = other
            place.fill({**CSV, **OLD})
            said = place.refusal(csv_sheets.write)
            assert said and place.found() == {**CSV, **OLD}, (at, said)
            tried += 1
    shared.read_bytes = read
    # A refusal to which no table leads is told by its number.
    library.write_settings, said = lambda *words: (75, b""), None
    try:
        csv_sheets.settings_sheet(library, csv_sheets.read_settings(CSV["settings.csv"]))
    except csv_sheets.Refused as why:
        said = why.lines
    assert said == ("settings.csv: refused with 75",), said
    del library.write_settings
    return tried + 1


def places_to_write(place):
    """What stands in the place of a file: a folder or a link is not replaced; a file keeps its mode."""
    path = lambda name: os.path.join(place.folder, name)
    tried = 0
    for name, other in (("exercise.lxe", "answer.lxa"), ("answer.lxa", "settings.lxt"), ("settings.lxt", "exercise.lxe")):
        for put in (os.mkdir, lambda at: os.symlink("elsewhere", at), lambda at: os.symlink(other, at), os.mkfifo):
            place.fill({**CSV, other: b"old"})
            put(path(name))
            said = place.refusal(csv_sheets.write)
            assert said == ["%s is there and is no plain file that may be written, so it is not replaced" % name], said
            with open(path(other), "rb") as file:
                assert file.read() == b"old" and len(os.listdir(place.folder)) == 5
            tried += 1
    for name in CSV:
        to_itself = lambda at: os.symlink(name, at)
        for put, words in ((os.mkdir, "not a plain file"), (os.mkfifo, "not a plain file"), (to_itself, os.strerror(errno.ELOOP))):
            place.fill({other: data for other, data in CSV.items() if other != name})
            put(path(name))
            assert place.refusal(csv_sheets.write) == ["%s can't be read: %s" % (name, words)], name
            place.fill(SHEETS)
            put(path(name))
            assert len(place.refusal(csv_sheets.csv)) == 1 and len(os.listdir(place.folder)) == 4
            tried += 2
    place.fill(SHEETS)
    os.symlink("nowhere", path("exercise.csv"))
    assert place.refusal(csv_sheets.csv) == ["exercise.csv is there already, with other contents, and is not replaced"]
    before = os.umask(0o027)
    try:
        place.fill({**CSV, "exercise.lxe": b"old"})
        os.chmod(path("exercise.lxe"), 0o664)
        csv_sheets.write(place.library, place.folder)
        modes = [stat.S_IMODE(os.stat(path(name)).st_mode) for name in SHEETS]
        assert modes == [0o664, 0o640, 0o640], modes
    finally:
        os.umask(before)
    return tried + 2


def run(place, verb="write", **how):
    """Runs the script as a program: status, standard output, lines on standard error."""
    call = [sys.executable, "-I", "-B", os.path.join(place.top, "tools", "csv_sheets.py"), verb, place.shared_object, place.folder]
    done = subprocess.run(call, stdout=how.pop("stdout", subprocess.PIPE), stderr=subprocess.PIPE, timeout=60, **how)
    return done.returncode, done.stdout, done.stderr.decode().splitlines()


def as_program(place):
    said = b"exercise.lxe: 2 cells, 4 nets\nanswer.lxa: 2 places, apprentice 7\nsettings.lxt: 2 entries, version 2, board 3\n"
    place.fill(CSV)
    assert run(place) == (0, said, [])
    assert place.found() == {**CSV, **SHEETS}
    place.fill(SHEETS)
    assert run(place, "csv") == (0, re.sub(rb"\.lx.", b".csv", said), [])
    # Mistakes: each has a line, at most twenty.
    for count, more in ((20, []), (21, ["nurimkkot: and 1 more mistake"]), (99, ["nurimkkot: and 79 more mistakes"])):
        place.fill({"exercise.csv": "kind\n" + "latch\n" * count})
        status, out, err = run(place)
        assert status == 2 and out == b"" and len(err) == 20 + len(more) and err[20:] == more, (count, err)
        assert err[19] == "nurimkkot: exercise.csv, line 21, column 1 (kind): the kind is combinational, register or net, not 'latch'"
    for name in ("é", "\udcff", "\n", "\x1b[31m", "\u2028"):
        place.fill({"exercise.csv": ('name,kind\nx,"%s"\n' % ("a" + name)).encode("utf-8", "surrogateescape")})
        status, out, err = run(place)
        assert status == 2 and len(err) == 1 and err[0].isprintable() and ("é" in err[0] or name != "é"), err
    # Wrong calls.
    for words in ([], ["write"], ["judge", place.shared_object, place.folder], ["write", place.shared_object, place.folder, "more"]):
        done = subprocess.run([sys.executable, "-I", "-B", os.path.join(place.top, "tools", "csv_sheets.py")] + words, capture_output=True)
        assert done.returncode == 2 and done.stderr.count(b"\n") == 1, done
    # Streams that are closed or full.
    place.fill({"exercise.csv": "kind\nlatch\n", **OLD})
    before = place.found()
    for closed in ((2,), (1, 2), (0, 1, 2)):
        assert run(place, preexec_fn=lambda: [os.close(stream) for stream in closed])[0] == 2 and place.found() == before
    place.fill(CSV)
    with open("/dev/full", "wb") as full:
        assert run(place, stdout=full) == (2, None, ["nurimkkot: standard output was not written whole: No space left on device"])
    assert place.found() == {**CSV, **SHEETS}
    # No room.
    for most in (0, 20):
        place.fill({**CSV, **OLD})
        status, out, err = run(place, preexec_fn=lambda: resource.setrlimit(resource.RLIMIT_FSIZE, (most, most)))
        assert (status, out) == (2, b"") and place.found() == {**CSV, **OLD}, err
        assert err == ["nurimkkot: exercise.lxe, answer.lxa and settings.lxt are not written: File too large"], err
    # Another library.
    place.fill({**CSV, **OLD})
    right = place.shared_object
    for wrong in ("/nowhere/libnurimkkot.so", os.path.join(place.folder, "exercise.csv")):
        place.shared_object = wrong
        status, out, err = run(place)
        assert status == 2 and len(err) == 1 and err[0].startswith("nurimkkot: the library can't be used: "), err
    place.shared_object = right
    assert place.found() == {**CSV, **OLD}
    return 2 + 3 + 5 + 4 + 4 + 2 + 2


def large(place):
    """A million empty rows, as some spreadsheets export them, and a file that is too large."""
    place.fill({"exercise.csv": LISTING + (";" * 7 + "\r\n").replace(";", ",") * 1000000 + "\n" * 1000000, "answer.csv": PLACES})
    assert place.refusal(csv_sheets.write) is None and place.found()["exercise.lxe"] == LISTING_LXE
    place.fill(CSV)
    os.truncate(os.path.join(place.folder, "answer.csv"), csv_sheets.LARGEST_CSV + 1)
    assert place.refusal(csv_sheets.write) == ["answer.csv can't be read: it has over 33554432 bytes"]
    return 2


def interrupted(place):
    """A signal ends the work in order."""
    for number in (signal.SIGTERM, signal.SIGINT, signal.SIGHUP):
        place.fill({**OLD, "exercise.csv": "kind\n" + '""\n' * 4000000})
        before = place.found()
        call = [sys.executable, "-I", "-B", os.path.join(place.top, "tools", "csv_sheets.py"), "write", place.shared_object, place.folder]
        # A test that runs in the background may be started with SIGINT ignored, and the script leaves an ignored signal ignored.
        process = subprocess.Popen(call, stdout=subprocess.PIPE, stderr=subprocess.PIPE,
                                   preexec_fn=lambda: [signal.signal(n, signal.SIG_DFL) for n in shared.STOPPING])
        # Until the script catches the last of its signals: signal n is bit n - 1.
        caught = 0
        while process.poll() is None and not caught >> (shared.STOPPING[-1] - 1) & 1:
            time.sleep(0.01)
            with open("/proc/%d/status" % process.pid) as file:
                caught = int(next(line for line in file if line.startswith("SigCgt:")).split()[1], 16)
        time.sleep(0.05)
        process.send_signal(number)
        out, err = process.communicate(timeout=60)
        assert (process.returncode, out, err) == (2, b"", b"nurimkkot: interrupted, and nothing is written\n"), (process.returncode, out, err)
        assert place.found() == before
    # One that comes while the files get their names is forgotten, and so is one that comes after.
    place.fill({**CSV, **OLD})
    here = os.getpid()
    shared.os = FailingSystem((), 0, None)
    shared.os.replace = lambda made, path: (os.kill(here, signal.SIGTERM), os.replace(made, path))
    assert ended_by_itself(place) and place.found() == {**CSV, **SHEETS}
    return 4


def ended_by_itself(place):
    before = signal.signal(signal.SIGTERM, shared.stop)
    shared.placed.clear()
    try:
        csv_sheets.write(place.library, place.folder)
        os.kill(os.getpid(), signal.SIGTERM)
    finally:
        shared.os = os
        signal.signal(signal.SIGTERM, before)
    return True


def try_all(place):
    return failures(place) + wrong_bytes(place) + places_to_write(place) + as_program(place) + large(place) + interrupted(place)
