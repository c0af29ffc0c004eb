"""What the scripts that ./nurimkkot runs share: the C library, words for the judge's numbers, the files of a folder, and how a script ends."""

import contextlib
import ctypes
import errno
import os
import shutil
import signal
import stat
import struct
from typing import NamedTuple

EXERCISE_LXE, ANSWER_LXA, SETTINGS_LXT = "exercise.lxe", "answer.lxa", "settings.lxt"
LARGEST_SHEET = 12298       # one byte more than the largest legal exercise, answer or settings sheet has: the judge needs no more
MOST_LINES = 20             # of mistakes that are shown


class Refused(Exception):
    """Nothing is written, and these lines say why."""

    def __init__(self, *lines):
        super().__init__(*lines)
        self.lines = lines


# ---------------------------------------------------------------- the proved library

HOUSE_SETTINGS = 12         # the length of the settings sheet of document 01's board
ROUTE = 8192                # the length of the route buffer
TRIES = 1024                # the length of the list of tries
NONE = 65535                # in the place of a cell or LAB
RECORD = struct.Struct("=BB11H")        # struct nurimkkot_cell: kind, flag, eleven signals
PLACE = struct.Struct("=3H")            # x, y, LE
GIVEN, END = 0, 2                       # what a reader says


class Verdict(NamedTuple):
    """What the judge says of an answer, without the culprit. A cell or LAB that it does not name is NONE."""

    number: int
    cell: int
    lab: int
    apprentice: int


class Library:
    """The functions of c/nurimkkot.h that a script calls. Each script finds its own."""

    def __init__(self, path):
        try:
            self.functions = ctypes.CDLL(path)
            self.find_functions()
        except (OSError, AttributeError) as why:
            raise Refused("the library can't be used: %s" % why) from None

    def function(self, name, result, *arguments):
        found = getattr(self.functions, "nurimkkot_" + name)
        found.restype, found.argtypes = result, arguments
        return found


class Judge(Library):
    """The judge of one answer."""

    def find_functions(self):
        sheet, size, lent = ctypes.c_char_p, ctypes.c_size_t, ctypes.c_void_p
        self.c_house_settings = self.function("house_settings", None, lent)
        self.c_judge = self.function("judge", None, sheet, size, sheet, size, sheet, size, lent, size, lent, size, lent)

    def house_settings(self):
        """The settings sheet of document 01's board."""
        board = ctypes.create_string_buffer(HOUSE_SETTINGS)
        self.c_house_settings(board)
        return board.raw

    def judge_into(self, route, tries, settings, exercise, answer):
        """What the judge says of one answer, with this route buffer and this list of tries lent."""
        numbers = (ctypes.c_uint64 * 7)()
        self.c_judge(settings, len(settings), exercise, len(exercise), answer, len(answer), route, len(route), tries, len(tries), numbers)
        return Verdict(*numbers[:4])

    def verdict(self, settings, exercise, answer):
        """What the judge says of one answer."""
        return self.judge_into((ctypes.c_uint8 * ROUTE)(), (ctypes.c_uint32 * TRIES)(), settings, exercise, answer)


class Reader(Judge):
    """The judge, and the readers of exercise and answer. A record is 13 numbers, a place three."""

    def find_functions(self):
        super().find_functions()
        number, sheet, size, lent = ctypes.c_uint8, ctypes.c_char_p, ctypes.c_size_t, ctypes.c_void_p
        self.c_open_exercise = self.function("open_exercise", number, sheet, size)
        self.c_open_answer = self.function("open_answer", number, sheet, size)
        self.c_next_record = self.function("next_record", number, sheet, size, lent, lent)
        self.c_next_place = self.function("next_place", number, sheet, size, lent, lent)

    def read(self, step, form, sheet):
        """All that a reader gives of a sheet, each in its form, or None where the reader stops before the end."""
        at, lent, found = ctypes.c_uint16(0), (ctypes.c_uint16 * (form.size // 2))(), []
        said = step(sheet, len(sheet), ctypes.byref(at), lent)
        while said == GIVEN:
            found.append(form.unpack(lent))
            said = step(sheet, len(sheet), ctypes.byref(at), lent)
        return found if said == END else None

    def records(self, exercise):
        """The records of an exercise sheet, or None where it does not open or one is broken."""
        opens = self.c_open_exercise(exercise, len(exercise)) == 0
        return self.read(self.c_next_record, RECORD, exercise) if opens else None

    def places(self, answer):
        """The places of an answer sheet, or None where it does not open or one is broken."""
        opens = self.c_open_answer(answer, len(answer)) == 0
        return self.read(self.c_next_place, PLACE, answer) if opens else None


# What each number says that the judge gives to sheets, in the words of docs/VERDICTS.md. No comma stands in them, so that they go into a CSV file
# as they are.
MEANING = {
    0: "the answer is legal",
    10: "the exercise has under 9 bytes",
    11: "the exercise does not begin with LXE",
    12: "the version of the exercise is not 1",
    13: "the exercise has more than 1024 nets or more than 512 cells",
    14: "the length of the exercise is not that of so many cells",
    15: "a record breaks the layout",
    16: "an output drives a net that is driven already",
    20: "the answer has under 11 bytes",
    21: "the answer does not begin with LXA",
    22: "the version of the answer is not 1",
    23: "the apprentice is 0",
    24: "the cell count of the answer differs from that of the exercise",
    25: "the length of the answer is not that of so many cells",
    26: "a place is out of range",
    30: "clk is connected and regout is not",
    31: "sclr is connected and clk is not",
    32: "sload is connected and clk is not",
    33: "sload is connected and sdata is not",
    34: "ena is connected and clk is not",
    35: "datain or sdata is GND or inverted",
    40: "cin is connected to something other than the cout of another cell",
    41: "cin is connected and the flag is 0",
    42: "cout is not read exactly once and at the cin of another cell",
    43: "datad is connected together with cin or cout",
    44: "datac is connected together with cin",
    50: "a lower cell of the same kind stands in the same logic element",
    51: "a cell fed by a cout does not stand where the carry chain goes on",
    60: "more than 2 distinct clk signals in the LAB",
    61: "more than 2 distinct pairs of clk and ena in the LAB",
    62: "more than 2 distinct aclr signals in the LAB",
    63: "more than 1 distinct pair of sload and sclr in the LAB",
    64: "more than 38 distinct nets read by the cells of the LAB",
    65: "the control entries of the board cannot serve the needs of the LAB",
    70: "the settings sheet has under 6 bytes",
    71: "the settings sheet does not begin with LXT",
    72: "the version of the settings sheet is neither 1 nor 2",
    73: "the settings sheet has more than 8 entries",
    74: "the length of the settings sheet is not that of so many entries",
    75: "an entry of the settings sheet has a flag above the five roles",
}


# ---------------------------------------------------------------- words

def shown(text):
    """A text in quotes, on one line, cut where it is long."""
    return repr(text if len(text) <= 40 else text[:38] + "..")


def plain(name):
    """A file's name on one line: a backslash, and what can't be printed, is escaped."""
    def escaped(character):
        if character.isprintable() and character != "\\":
            return character
        return "\\x%02x" % (ord(character) - 0xdc00) if "\udc80" <= character <= "\udcff" else ascii(character)[1:-1]
    return "".join(map(escaped, os.fsencode(name).decode("utf-8", "surrogateescape")))


def listed(names):
    """Names in words: 'a', 'a and b', 'a, b and c'."""
    *first, last = names
    return "%s and %s" % (", ".join(first), last) if first else last


def counted(count, what, many=None):
    return "%d %s" % (count, what if count == 1 else many or what + "s")


def table(columns, headings, rows):
    """Lines that a person reads: the headings and the rows, in columns of this form."""
    return [columns % fields for fields in (headings, *rows)]


def csv_table(headings, rows):
    """The lines of a CSV file. No field may need quotes."""
    return [",".join(map(str, fields)) for fields in (headings, *rows)]


def same(*pairs, otherwise="what was made does not read back as it was meant, and nothing is written"):
    """Refuses what is not what was meant, with this line."""
    if any(found != meant for found, meant in pairs):
        raise Refused(otherwise)


# ---------------------------------------------------------------- files

STOPPING = (signal.SIGINT, signal.SIGTERM, signal.SIGHUP)


def why_not(why):
    """An error of the system, in its words."""
    return why.strerror or str(why)


def read_file(folder, name, most):
    """The first bytes of a file, at most so many; None where there is no file."""
    try:
        file = os.open(os.path.join(folder, name), os.O_RDONLY | os.O_NONBLOCK | os.O_CLOEXEC)
    except (FileNotFoundError, NotADirectoryError):
        return None
    except OSError as why:
        raise Refused("%s can't be read: %s" % (plain(name), why_not(why))) from None
    try:
        if not stat.S_ISREG(os.fstat(file).st_mode):
            raise Refused("%s can't be read: not a plain file" % plain(name))
        return read_bytes(file, most)
    except OSError as why:
        raise Refused("%s can't be read: %s" % (plain(name), why_not(why))) from None
    finally:
        os.close(file)


def read_bytes(file, most):
    parts = []
    while most:
        part = os.read(file, most)
        if not part:
            break
        parts.append(part)
        most -= len(part)
    return b"".join(parts)


def mode_of(path):
    """The mode of a file that may be replaced, or None where there is none. A link is not followed, and not replaced."""
    try:
        mode = os.lstat(path).st_mode
    except FileNotFoundError:
        return None
    if not stat.S_ISREG(mode) or not os.access(path, os.W_OK):
        raise Refused("%s is there and is no plain file that may be written, so it is not replaced" % os.path.basename(path))
    return stat.S_IMODE(mode)


def make_file(path, data, mode):
    """Makes a file that was not there, and has it on the disk."""
    file = os.open(path, os.O_WRONLY | os.O_CREAT | os.O_EXCL | os.O_CLOEXEC, 0o666)
    try:
        if mode is not None:
            os.fchmod(file, mode)
        while data:
            data = data[os.write(file, data):]
        os.fsync(file)
    finally:
        os.close(file)


def remove(*paths):
    """Removes files that may be there."""
    for path in paths:
        with contextlib.suppress(OSError):
            os.unlink(path)


placed = []     # the files that have got their names


@contextlib.contextmanager
def undisturbed():
    """Here signals that would end the work are held back."""
    before = signal.pthread_sigmask(signal.SIG_BLOCK, STOPPING)
    try:
        yield
    finally:
        signal.pthread_sigmask(signal.SIG_SETMASK, before)


def replace_all(made, kept):
    """Gives each new file its name, or none: where one fails, the copies of what was there are put back."""
    done = []
    try:
        for path in made:
            if os.path.lexists(path):
                shutil.copy2(path, kept[path], follow_symlinks=False)
        for path in made:
            os.replace(made[path], path)
            done.append(path)
    except OSError:
        for path in done:
            if os.path.lexists(kept[path]):
                os.replace(kept[path], path)
            else:
                os.unlink(path)
        remove(*kept.values())
        raise
    remove(*kept.values())


def add_all(made):
    """Gives each new file its name, or none. A file that has come there meanwhile is not replaced."""
    done = []
    try:
        for path in made:
            add(made[path], path)
            done.append(path)
    except OSError:
        for path in done:
            os.unlink(path)
        raise


def add(made, path):
    try:
        os.link(made, path)
    except OSError as why:
        if why.errno not in (errno.EPERM, errno.ENOTSUP, errno.ENOSYS):
            raise
        # The file system has no second names.
        if os.path.lexists(path):
            raise FileExistsError(errno.EEXIST, os.strerror(errno.EEXIST)) from None
        os.rename(made, path)


def put_in_place(folder, files, check, replace):
    """Puts files into the folder, all or none. Each is made under another name, and what is then in it is checked."""
    hidden = lambda name, end: os.path.join(folder, ".%s.%d.%s" % (name, os.getpid(), end))
    paths = {name: os.path.join(folder, name) for name in files}
    made = {path: hidden(name, "new") for name, path in paths.items()}
    kept = {path: hidden(name, "old") for name, path in paths.items()}
    try:
        for name, path in paths.items():
            make_file(made[path], files[name], mode_of(path) if replace else None)
        check({name: read_file(folder, os.path.basename(made[path]), len(files[name]) + 1) for name, path in paths.items()})
        with undisturbed():
            if replace:
                replace_all(made, kept)
            else:
                add_all(made)
            placed.extend(files)
    except OSError as why:
        raise Refused("%s not written: %s" % (listed(files) + (" is" if len(files) == 1 else " are"), why_not(why))) from None
    finally:
        with undisturbed():
            remove(*made.values())


# ---------------------------------------------------------------- as a program

class Stopped(BaseException):
    """A signal has ended the work."""


def stop(number, frame):
    """Ends the work, but for work that is done already."""
    if not placed:
        raise Stopped


def catch_signals():
    """Has signals end the work in order, but those that are ignored."""
    for number in STOPPING:
        if signal.getsignal(number) != signal.SIG_IGN:
            signal.signal(number, stop)


def write_out(stream, lines):
    """Writes lines to a standard stream. No file is open by then, so none has its number where it is closed."""
    data = "".join(line + "\n" for line in lines).encode("utf-8", "backslashreplace")
    while data:
        data = data[os.write(stream, data):]


def say(lines):
    """Writes lines to standard error, whatever becomes of them."""
    with contextlib.suppress(OSError):
        write_out(2, ["nurimkkot: " + line for line in lines])


def refuse(lines):
    """Says why, and gives the exit status."""
    more = len(lines) - MOST_LINES
    say(list(lines[:MOST_LINES]) + (["and %s" % counted(more, "more mistake")] if more > 0 else []))
    return 2


def run(script, work):
    """Does the work of a script, and writes the lines that it gives. Gives the exit status."""
    try:
        catch_signals()
        lines = work()
    except Refused as why:
        return refuse(why.lines)
    except Stopped:
        return refuse(["interrupted, and nothing is written"])
    except Exception as why:
        return refuse(["%s failed, and nothing is written: %s %s" % (script, type(why).__name__, shown(str(why)))])
    try:
        write_out(1, lines)
    except OSError as why:
        return refuse(["standard output was not written whole: %s" % why_not(why)])
    return 0
