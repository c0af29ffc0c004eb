"""The tries of a LAB and what is printed of them, as requests M-106 and M-107 and document 01 have it, with nothing of the tools: lists of entries
are tested one by one; where all needs are of one net, which makes the most lists, they are counted."""

import functools
import itertools

HOUSE = ({"clk"}, {"clk", "aclr"}, {"clk", "ena"}, {"ena", "sload"}, {"aclr", "sclr"}, {"sclr", "sload"})
ROLES = ["clk", "ena", "aclr", "sclr", "sload"]
MOST = {"clk": 2, "ena": 2, "aclr": 2, "sclr": 1, "sload": 1}
COLUMNS = ["clk_1", "clk_2", "ena_1", "ena_2", "aclr_1", "aclr_2", "sclr", "sload"]
WORDS = {0: "the answer is legal", 65: "the control entries of the board cannot serve the needs of the LAB"}


def number(data, start, size=2):
    return int.from_bytes(data[start:start + size], "little")


def board(settings):
    """The roles of each entry on a settings sheet; without one, document 01's."""
    if settings is None:
        return HOUSE
    first = {1: 6, 2: 8}[number(settings, 3)]
    return tuple({role for bit, role in enumerate(ROLES) if flags >> bit & 1} for flags in settings[first:first + settings[5]])


def needs(exercise, answer):
    """The needs of each occupied LAB, in their order: pairs of role and signal."""
    found = {}
    for cell in range(number(exercise, 7)):
        record, place = exercise[9 + 24 * cell:33 + 24 * cell], answer[11 + 4 * cell:15 + 4 * cell]
        own = found.setdefault(32 * place[1] + place[0], set())
        if record[0] == 2:
            own |= {(at, number(record, 4 + 2 * at)) for at in range(5) if number(record, 4 + 2 * at) >= 4}
    return {lab: [(ROLES[at], signal) for at, signal in sorted(own)] for lab, own in sorted(found.items())}


def net_of(signal):
    """The net of a signal, whatever its polarity."""
    return (signal - 4) // 2


def suitable(wanted, entries):
    """The entries that serve each need."""
    return [[entry for entry, roles in enumerate(entries) if role in roles] for role, _ in wanted]


def is_partial_way(chosen, wanted, entries):
    """Whether each entry of a list serves its need, and an entry is given only to needs of the same net."""
    given = [(entry, role, net_of(signal)) for entry, (role, signal) in zip(chosen, wanted)]
    return all(role in entries[entry] for entry, role, _ in given) and all(
        one != other or net == another for (one, _, net), (other, _, another) in itertools.combinations(given, 2))


def all_partial_ways(wanted, entries):
    """Of all lists of entries for the first one or more needs, those that are partial ways. Tuples compare as document 01 has it: by the first entry
    where they differ, a shorter one before those that extend it."""
    lists = (chosen for length in range(1, len(wanted) + 1) for chosen in itertools.product(range(len(entries)), repeat=length))
    return sorted(chosen for chosen in lists if is_partial_way(chosen, wanted, entries))


def partial_ways(wanted, entries):
    """The same, one after the other. A partial way without its last entry is one too, so each is found from a shorter one."""
    nets, serving, waiting = [net_of(signal) for _, signal in wanted], suitable(wanted, entries), [()]
    while waiting:
        chosen = waiting.pop()
        if chosen:
            yield chosen
        at = len(chosen)
        if at < len(wanted):
            waiting += [chosen + (entry,) for entry in reversed(serving[at])
                        if all(net == nets[at] for net, other in zip(nets, chosen) if other == entry)]


def count_of_one_net(wanted, entries):
    """How many partial ways needs of one net have. A need may have each entry that serves it, whatever the others have: those of a length are as
    many as the numbers of these entries multiplied."""
    return sum(itertools.accumulate(map(len, suitable(wanted, entries)), int.__mul__))


def of_one_net(wanted, entries):
    """The tries of needs of one net, and their earliest way or None: it has the lowest entry of each."""
    serving = suitable(wanted, entries)
    return (len(wanted), tuple(own[0] for own in serving)) if all(serving) else (count_of_one_net(wanted, entries), None)


@functools.lru_cache(maxsize=None)
def search_of(wanted, entries):
    """The same of any needs, by going over the partial ways up to the first that is a way."""
    tries, chosen = 0, ()
    for tries, chosen in enumerate(partial_ways(wanted, entries), 1):
        if len(chosen) == len(wanted):
            break
    return tries, chosen if len(chosen) == len(wanted) else None


def search(wanted, entries):
    """The tries, and the earliest way or None."""
    if len({net_of(signal) for _, signal in wanted}) == 1:
        return of_one_net(wanted, entries)
    return search_of(tuple(wanted), tuple(frozenset(entry) for entry in entries))


def route(wanted, way):
    """The route by the columns: the entry of each need, one of its role after the other."""
    free = {role: [column for column in COLUMNS if column.split("_")[0] == role] for role in ROLES}
    return {free[role].pop(0): entry for (role, _), entry in zip(wanted, way)}


def labs(exercise, answer, settings):
    """Each occupied LAB, rising: LAB, tries, number and route. Above a refused one no number is given."""
    found, refused = [], False
    for lab, wanted in needs(exercise, answer).items():
        tries, way = (0, None) if refused else search(wanted, board(settings))
        found.append((lab, tries, None if refused else 65 if way is None else 0, {} if way is None else route(wanted, way)))
        refused = refused or way is None
    return found


def verdict(exercise, answer, settings):
    """The number and the LAB of sheets that keep all rules but 65."""
    return next(((65, lab) for lab, _, said, _ in labs(exercise, answer, settings) if said == 65), (0, None))


def text(exercise, answer, settings):
    """What is printed of sheets that keep all rules but 65."""
    said, named = verdict(exercise, answer, settings)
    out = "verdict " + str(said) + " on the board of " + ("document 01" if settings is None else "settings.lxt")
    out += ("" if named is None else ", LAB " + str(named)) + ": " + WORDS[said] + "\n lab       tries  route\n"
    total = 0
    for lab, tries, own, entries in labs(exercise, answer, settings):
        parts = []
        for role in ROLES:
            taken = [str(entries[column]) for column in COLUMNS if column in entries and column.split("_")[0] == role]
            parts += [role + " " + " ".join(taken)] if taken else []
        words = {None: "not searched", 65: "refused with 65", 0: ", ".join(parts) or "no needs"}[own]
        out += str(lab).rjust(4) + "  " + str(tries).rjust(10) + "  " + words + "\n"
        total += tries
    return out + " sum  " + str(total).rjust(10) + "\n"


def table(exercise, answer, settings):
    """What is printed of them with --csv."""
    out = "lab,tries,number," + ",".join(COLUMNS) + "\n"
    for lab, tries, own, entries in labs(exercise, answer, settings):
        out += "%d,%d,%s,%s\n" % (lab, tries, "" if own is None else own, ",".join(str(entries.get(column, "")) for column in COLUMNS))
    return out
