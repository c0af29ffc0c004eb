"""Holds the table "From a rule to its proof" of docs/PROVING.md, and the files and edits that docs/READING.md names, against the repository. Argument:
the repository."""
import re
import sys
from pathlib import Path

TOP = Path(sys.argv[1])
CRATES = TOP / "crates"
HEADS = ["No.", "Definition", "Function", "Law", "Samples", "Must-fail edits"]
WHERE = "docs/PROVING.md"
faults = []
named = {"definitions": set(), "functions": set(), "laws": set(), "samples": set(), "edits": set()}


def text(path):
    return path.read_text(encoding="utf-8")


def section(page, title):
    """The lines under a heading, up to the next heading."""
    lines = text(TOP / page).split("\n")
    marks = [k for k, line in enumerate(lines) if re.fullmatch(r"#+ " + re.escape(title), line)]
    if len(marks) != 1:
        sys.exit(f"rules: {page} has {len(marks)} sections '{title}'")
    rest = lines[marks[0] + 1:]
    end = next((k for k, line in enumerate(rest) if line.startswith("#")), len(rest))
    return rest[:end]


def cells(line):
    return [cell.strip() for cell in line.strip().strip("|").split("|")]


def items(number, column, cell):
    """The (name, place) pairs of a cell: names in backquotes, a place after the last of those that stand there."""
    pairs, waiting = [], []
    for part in cell.split(","):
        match = re.fullmatch(r"`([^` ]+)`(?: (\S+))?", part.strip())
        if not match:
            faults.append(f"{number}: '{part.strip()}' under '{column}' can't be read")
            continue
        waiting.append(match[1])
        if match[2]:
            pairs += [(name, match[2]) for name in waiting]
            waiting = []
    faults.extend(f"{number}: '{name}' under '{column}' stands nowhere" for name in waiting)
    return pairs


def names(number, column, cell):
    """The names of a cell that has no places; 'none' is none."""
    if cell == "none":
        return []
    found = re.findall(r"`([^` ]+)`", cell)
    if ", ".join(f"`{name}`" for name in found) != cell:
        faults.append(f"{number}: '{cell}' under '{column}' can't be read")
    return found


def stated(name, place):
    """The lines of an antt file, and where it states a name; None where the file is not there."""
    path = CRATES / place
    if path.suffix != ".antt" or not path.is_file():
        return None
    lines = text(path).split("\n")
    return lines, [k for k, line in enumerate(lines) if re.match(rf"\s*(?:(?:abbrev|unfoldable|pub) )*{re.escape(name)} :", line)]


def has_number(comment, number):
    """A comment line speaks of a number: '42', '60 to 65', '18, and 60 to 65 of a list'."""
    match = re.fullmatch(r"\s*-- (\d.*)", comment)
    return bool(match) and any(int(low) <= number <= int(high or low) for low, high in re.findall(r"\b(\d+)(?: to (\d+))?\b", match[1]))


def expects(folder, number):
    return re.search(rf"\bnumber {number}\b", text(folder / "expected.txt")) is not None


# ---- what there is
verdicts = [int(row[0]) for row in map(cells, text(TOP / "docs/VERDICTS.md").split("\n")) if re.fullmatch(r"\d+", row[0])]
edits = {f"{path.parent.parent.name}/{path.stem}" for path in CRATES.glob("*/must-fail/*.edit")}
folders = [path for path in sorted((TOP / "samples").iterdir()) if (path / "expected.txt").is_file()]

# ---- the table
table = [cells(line) for line in section(WHERE, "From a rule to its proof") if line.startswith("|")]
if not table or table[0] != HEADS:
    sys.exit(f"rules: the table of {WHERE} has other heads than {', '.join(HEADS)}")
numbers = []
for row in table[2:]:
    if len(row) != len(HEADS) or not re.fullmatch(r"\d+", row[0]):
        faults.append(f"row '{row[0]}' can't be read")
        continue
    number = int(row[0])
    numbers.append(number)
    for column, cell in zip(HEADS, row):
        if not cell:
            faults.append(f"{number}: nothing under '{column}'")

    for name, place in items(number, "Definition", row[1]):
        found = stated(name, place)
        if not found or not found[1]:
            faults.append(f"{number}: no definition {name} in crates/{place}")
        named["definitions"].add((name, place))

    for name, crate in items(number, "Function", row[2]):
        sources = sorted((CRATES / crate / "src").glob("*.rt"))
        if not any(re.search(rf"\bfn {re.escape(name)}\b", text(path)) for path in sources):
            faults.append(f"{number}: no function {name} in crates/{crate}")
        named["functions"].add((name, crate))

    laws = re.sub(r"^the contract(, |$)", "", row[3])
    for name, place in items(number, "Law", laws) if laws else []:
        found = stated(name, place)
        if not found or not found[1]:
            faults.append(f"{number}: no law {name} in crates/{place}")
        elif not any(has_number(found[0][k - 1], number) for k in found[1]):
            faults.append(f"{number}: no such number above {name} in crates/{place}")
        named["laws"].add((name, place))

    shown = set()
    for pattern in names(number, "Samples", row[4]):
        matched = [path for path in folders if path.match(pattern)]
        if not matched:
            faults.append(f"{number}: no sample {pattern}")
        for path in matched:
            if not expects(path, number):
                faults.append(f"{number}: sample {path.name} has another number")
        shown.update(path.name for path in matched)
    faults.extend(f"{number}: sample {path.name} is left out" for path in folders if expects(path, number) and path.name not in shown)
    named["samples"].update(shown)

    for name in names(number, "Must-fail edits", row[5]):
        if name not in edits:
            faults.append(f"{number}: no must-fail edit {name}")
        named["edits"].add(name)

# 0 is no rule.
faults.extend(f"no row for {number}" for number in verdicts if number not in numbers and number != 0)
faults.extend(f"a row for {number}, which docs/VERDICTS.md has not" for number in numbers if number not in verdicts)
faults.extend(f"two rows for {number}" for number in sorted(set(numbers)) if numbers.count(number) > 1)

# ---- the edits under the table
others = re.findall(r"`([^` ]+)`", "\n".join(section(WHERE, "Edits that belong to no single rule")))
faults.extend(f"no must-fail edit {name}, listed under the table" for name in others if name not in edits)
faults.extend(f"must-fail edit {name} stands in the table and under it" for name in others if name in named["edits"])
faults.extend(f"must-fail edit {name} is left out" for name in sorted(edits - named["edits"] - set(others)))

# ---- what a reader believes: all that stands directly in specs/ is listed. None of it names what serves the proofs alone, but for the two statements that
# tie a pass to a definition, which stand in a list of their own
READING = "docs/READING.md"


def spec_files(page):
    return {TOP / name for name in re.findall(r"`(crates/[^`]*\.antt)`", page) if "/specs/" in name}


believed = {path for path in CRATES.glob("*/specs/*.antt") if path.stem not in ("Lib", "passes")}
listed = spec_files(text(TOP / READING))
ties = {CRATES / "route/specs/Found.antt", CRATES / "judge/specs/Serves.antt"}
faults.extend(f"{READING} leaves out {path.relative_to(TOP)}" for path in sorted(believed - listed))
faults.extend(f"{READING} lists {path.relative_to(TOP)}, which is not to be believed" for path in sorted(listed - believed))
faults.extend(f"{path.relative_to(TOP)} names a definition of specs/passes/" for path in sorted(believed - ties) if ".passes." in text(path))
if spec_files("\n".join(section(READING, "Where a pass meets a definition"))) != ties:
    faults.append(f"{READING} lists other files where a pass meets a definition")

# the edits that are named exist
for name in re.findall(r"`(\w+/\w+)`", "\n".join(section(READING, "What shuts out a wrong program"))):
    if name not in edits:
        faults.append(f"{READING}: no must-fail edit {name}")

if faults:
    print("\n".join(f"rules: {fault}" for fault in faults))
    sys.exit(1)
counts = ", ".join(f"{len(found)} {kind}" for kind, found in named.items())
print(f"rules: {len(numbers)} numbers with {counts}; {len(others)} edits of no single rule; {len(believed)} files to believe")
