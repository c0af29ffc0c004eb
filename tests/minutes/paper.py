"""The minutes of a log and what is printed of them, as request M-105 has it, with nothing of the tools."""

import functools


def number(log, start, size):
    return int.from_bytes(log[start:start + size], "little")


def entries(log):
    """The entries of a log: apprentice, opening, closing and login."""
    starts = range(7, 7 + 14 * number(log, 5, 2), 14)
    return [(number(log, at, 4), number(log, at + 6, 2), number(log, at + 8, 2), number(log, at + 10, 4)) for at in starts]


def refusal(log):
    """The first number that refuses a log, or 0."""
    if len(log) < 7:
        return 80
    if log[:3] != b"LXL":
        return 81
    if number(log, 3, 2) != 1:
        return 82
    if number(log, 5, 2) > 1024:
        return 83
    if len(log) != 7 + 14 * number(log, 5, 2):
        return 84
    if any(apprentice == 0 or opening > 10080 or closing > 10080 for apprentice, opening, closing, _ in entries(log)):
        return 85
    if len({apprentice for apprentice, _, _, _ in entries(log)}) > 64:
        return 86
    return 0


@functools.lru_cache(maxsize=1)
def replay(log):
    """The number, the apprentices with their minutes, and the numbers of the entries that cover nothing."""
    if refusal(log):
        return refusal(log), [], []
    covered, nothing = {}, []
    for at, (apprentice, opening, closing, _) in enumerate(entries(log)):
        covered.setdefault(apprentice, set()).update(range(opening, closing))
        if closing <= opening:
            nothing.append(at)
    return 0, [(apprentice, len(covered[apprentice])) for apprentice in sorted(covered)], nothing


def text(log):
    """What is printed of a log that is not refused."""
    _, credits, nothing = replay(log)
    total = sum(minutes for _, minutes in credits)
    out = "apprentice  minutes     hours\n"
    for name, minutes in credits + [("total", total)]:
        clock = "%d:%s%d" % (minutes // 60, "0" if minutes % 60 < 10 else "", minutes % 60)
        out += str(name).rjust(10) + "  " + str(minutes).rjust(7) + "  " + clock.rjust(8) + "\n"
    out += "\nentries that cover nothing: " + str(len(nothing)) + "\n"
    if nothing:
        out += "entry  apprentice  opening  closing       login\n"
    every = entries(log)
    for at in nothing:
        apprentice, opening, closing, login = every[at]
        out += "  ".join([str(at).rjust(5), str(apprentice).rjust(10), str(opening).rjust(7), str(closing).rjust(7), str(login).rjust(10)]) + "\n"
    return out


def table(log):
    """What is printed of it with --csv."""
    _, credits, nothing = replay(log)
    every = entries(log)
    out = "apprentice,minutes,hours,entries that cover nothing\n"
    for apprentice, minutes in credits:
        own = " ".join("#" + str(at) for at in nothing if every[at][0] == apprentice)
        out += "%d,%d,%d:%02d,%s\n" % (apprentice, minutes, minutes // 60, minutes % 60, own)
    return out
