"""What docs/TRIES.md says: its lines, its figures and its commands; and the help."""

import itertools
import os

import page_commands
import paper
import shared
import tries


def page(place):
    return place.stored("docs", "TRIES.md").decode()


def lines(place):
    """The lines that refuse, and those of verdicts without tries, are those of the page."""
    place.says("TRIES.md", "tries.py takes|the library can't be used")


def help_text(place):
    """The command's help has what is read and written, and the limit."""
    place.helps("tries", ["FOLDER/exercise.lxe", "FOLDER/answer.lxa", "FOLDER/settings.lxt", "docs/TRIES.md", "--csv", "missing counts as empty",
                          "Without settings.lxt the board is that of document 01", "can't be read is an error", "at most %d" % tries.MOST_TRIES,
                          "no entry to needs of different nets", "Nothing is written into the folder",
                          "Exit status: 0 when a verdict was given, whatever the verdict", "2 when not"])


def limits(place):
    """The script's numbers are those of the header."""
    place.has_limits(ROUTE_SIZE=len(tries.LENT_ROUTE), TRIES=shared.TRIES, NO_ENTRY=tries.NO_ENTRY, NONE=tries.NONE)


def by_hand(place, table, name, lab, roles, most):
    """A worked example has the tries of a LAB of a sample one by one, in the order of the search. Its needs have these roles, and its route gives an
    entry to so many of them at most."""
    rows = [[cell.strip() for cell in line.strip("|").split("|")] for line in table.split("\n\n")[0].splitlines()[2:]]
    needs = paper.needs(*[place.stored("samples", name, file) for file in ("exercise.lxe", "answer.lxa")])[lab]
    count, way = paper.search(needs, paper.HOUSE)
    partial = [chosen for chosen in paper.all_partial_ways(needs, paper.HOUSE) if chosen <= way]
    assert [role for role, _ in needs] == roles and len(rows) == len(partial) == count, (rows, partial)
    assert max(map(way.count, way)) == most, way
    for at, (row, chosen) in enumerate(zip(rows, partial)):
        assert row[:len(needs) + 1] == [str(at + 1)] + [str(entry) for entry in chosen] + [""] * (len(needs) - len(chosen)), (row, chosen)


def net_patterns(roles):
    """All ways to say which of these needs are of the same net, as the nets' numbers. The needs of a role stand in the order of their nets."""
    found = [[]]
    for _ in roles:
        found = [nets + [own] for nets in found for own in range(max(nets, default=-1) + 2)]
    return [nets for nets in found if has_order(roles, nets)]


def has_order(roles, nets):
    """Whether the nets can be ordered so that those of each role rise. Two needs of a role and a net are its two polarities."""
    pairs = list(zip(zip(roles, nets), zip(roles[1:], nets[1:])))
    before = {(net, after) for (role, net), (other, after) in pairs if role == other and net != after}
    left = set(nets)
    while left:
        last = {net for net in left if not any((net, after) in before for after in left)}
        if not last:
            return False
        left -= last
    return True


def on_house_board(text):
    """The most tries on document 01's board, over all needs that a LAB can have, and over those of different nets."""
    every = [["clk"] * a + ["ena"] * b + ["aclr"] * c + ["sclr"] * d + ["sload"] * e
             for a in range(3) for b in range(3) for c in range(3) for d in range(2) for e in range(2)]
    search = lambda roles, nets: paper.search([(role, 4 + 2 * net) for role, net in zip(roles, nets)], paper.HOUSE)
    most = lambda found: tuple(max(count for count, way in found if (way is None) == refused) for refused in (False, True))
    found = [search(roles, range(len(roles))) for roles in every]
    both = most(found)
    every_net = most([search(roles, nets) for roles in every for nets in net_patterns(roles)])
    assert "a LAB with a route has at most %d tries there, and a refused one at most %d." % every_net in text, every_net
    assert "Where all needs are of different nets, it is %d and %d," % both in text, both
    eight = every[-1]
    slowest = [roles for roles, (count, _) in zip(every, found) if count == both[1]]
    assert slowest == [[role for at, role in enumerate(eight) if at != 2]] and search(eight, range(8)) == (25, None), slowest
    assert "all eight needs are refused after 25." in text


def figures(place):
    """The figures on the page are those of the enumeration."""
    text = page(place)
    _, first, second = text.split("| try |")
    by_hand(place, first, "p10", 68, ["clk", "clk", "aclr", "aclr"], 1)
    by_hand(place, second, "legal-only-shared", 225, ["clk", "clk", "ena", "ena", "aclr", "aclr"], 2)
    on_house_board(" ".join(text.split()))
    added = lambda sizes: "{} = {:,}".format(" + ".join(map("{:,}".format, sizes)), sum(sizes))
    falling = list(itertools.accumulate(range(8, 1, -1), int.__mul__))
    powers = [8 ** count for count in range(1, 9)]
    for sizes, total in ((falling, 69280), (powers[:7], 2396744), (powers, tries.MOST_TRIES)):
        assert sum(sizes) == total and added(sizes) in text, added(sizes)
    assert tries.MOST_TRIES == 19173960
    # All lists of the limit are there where every entry serves every role, and then the eighth is a way.
    eight, every = [role for role in paper.ROLES for _ in range(paper.MOST[role])], [set(paper.ROLES)] * 8
    different, one = ([(role, 4 + 2 * net) for role, net in zip(eight, nets)] for nets in (range(8), [0] * 8))
    assert paper.count_of_one_net(one, every) == tries.MOST_TRIES and len(eight) == 8
    assert paper.search(different, every)[0] == paper.search(one, every)[0] == 8
    for column in tries.CSV_HEADINGS:
        assert "`%s`" % column in text, column


def commands(place, work):
    """The commands of the page, run with the script in place of the command. Gives how many there are."""
    folder = os.path.join(work, "page")
    os.mkdir(folder)
    for name in ("samples", "boards", "tools"):
        os.symlink(os.path.join(place.top, name), os.path.join(folder, name))
    stand_in = os.path.join(folder, "nurimkkot")
    with open(stand_in, "w") as file:
        file.write('#!/bin/sh\n[ "$1" = tries ] || exit 2\n[ "$2" != --csv ] || csv=--csv\nfor folder; do :; done\n'
                   'exec python3 -I -B tools/tries.py tries "%s" "$folder" $csv\n' % place.shared_object)
    os.chmod(stand_in, 0o755)
    ran = page_commands.run("TRIES.md", page(place), folder)
    assert ran >= 8, ran
    with open(os.path.join(folder, "tries.csv"), "rb") as file:
        assert file.read() == place.stored("samples", "v65-35-tries", "tries.csv")
    return ran
