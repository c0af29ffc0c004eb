"""What all tests of tools/class_sheets.py use: the library, a folder to try things in, and ways to call the script. The tests of
tools/tablet_log.py and tools/tries.py try theirs in such a place too."""

import os
import re
import shutil
import subprocess
import sys

import class_sheets
import sheets
import shared

# The worked listing: two cells, and its answer by apprentice 7.
EXERCISE, ANSWER = sheets.LISTING_EX, sheets.LISTING_AN


def by(apprentice):
    """The same answer by another apprentice."""
    return sheets.patch(ANSWER, 5, *apprentice.to_bytes(4, "little"))


class Place:
    """The repository, the library, and a folder for files. said has all lines of standard error, without the command's name."""

    script = class_sheets

    def __init__(self, top, work):
        self.top, self.shared_object = top, os.path.join(work, "libnurimkkot.so")
        self.library = self.script.Library(self.shared_object)
        self.folder = os.path.join(work, "folder")
        self.said = []

    def path(self, name):
        return os.path.join(self.folder, os.fsdecode(name))

    def fill(self, files):
        """Makes the folder anew, with these files."""
        shutil.rmtree(self.folder, ignore_errors=True)
        os.mkdir(self.folder)
        for name, data in files.items():
            with open(self.path(name), "wb") as file:
                file.write(data)

    def found(self):
        """The files in the folder."""
        found = {}
        for name in os.listdir(self.folder):
            with open(self.path(name), "rb") as file:
                found[name] = file.read()
        return found

    def stored(self, *path):
        """A file of the repository."""
        with open(os.path.join(self.top, *path), "rb") as file:
            return file.read()

    def has_limits(self, **limits):
        """The header has these limits."""
        header = self.stored("c", "nurimkkot.h").decode()
        for name, value in limits.items():
            assert re.search(r"\bNURIMKKOT_%s (= )?%d\b" % (name, value), header), name

    def says(self, name, left_out):
        """Every line on a page of docs/ was said in some test, and every line that was said, but for those that no call of the command leads to, is
        on the page."""
        page = self.stored("docs", name).decode()
        shown = re.findall(r"^\| `(.*?)` \|", page, re.M)
        assert len(shown) == len(set(shown)) > 8, shown
        forms = {line: re.compile(".*".join(map(re.escape, line.split("..")))) for line in shown}
        said = {line for line in self.said if not re.match(left_out, line)}
        for line, form in forms.items():
            assert any(form.fullmatch(words) for words in said), "no test says: " + line
        for words in said:
            assert any(form.fullmatch(words) for form in forms.values()), "docs/%s does not say: %s" % (name, words)

    def helps(self, verb, parts):
        """The command's help of a verb has all these parts."""
        call = [os.path.join(self.top, "nurimkkot"), "help", verb]
        text = " ".join(subprocess.run(call, capture_output=True, text=True, check=True).stdout.split())
        for part in parts:
            assert part in text, part

    def refuses_calls(self, verb, name, wrong, line):
        """Words that are none of the script's get this line, and what is no library, like the file of this name in the folder, is refused. How many
        calls that were."""
        for words in wrong:
            assert self.refused(*words) == line, words
        right, others = self.shared_object, ("/nowhere/libnurimkkot.so", self.path(name))
        for self.shared_object in others:
            assert self.refused(verb).startswith("the library can't be used: "), self.shared_object
        self.shared_object = right
        return len(wrong) + len(others)

    def run(self, verb, *options, **how):
        """Runs the script as a program: status, standard output, lines on standard error."""
        call = [sys.executable, "-I", "-B", self.script.__file__, verb, self.shared_object, self.folder, *options]
        done = subprocess.run(call, stdout=how.pop("stdout", subprocess.PIPE), stderr=subprocess.PIPE, timeout=60, **how)
        lines = done.stderr.decode().splitlines()
        assert all(line.startswith("nurimkkot: ") and line.isprintable() for line in lines), lines
        self.said += [line[len("nurimkkot: "):] for line in lines]
        return done.returncode, done.stdout, lines

    def refused(self, *words, **how):
        """The one line with which the script refuses as a program, without the command's name. Nothing is on standard output."""
        status, out, lines = self.run(*words, **how)
        assert status == 2 and not out and len(lines) == 1, (words, status, out, lines)
        return lines[0][len("nurimkkot: "):]

    def refusal(self, work, *words):
        """The one line with which a function of the script refuses, or None where it does not."""
        try:
            work(self.library, self.folder, *words)
        except shared.Refused as why:
            assert len(why.lines) == 1, why.lines
            self.said += why.lines
            return why.lines[0]
        return None

    def rows(self, *options, **how):
        """The rows of the class sheet in the folder, as the script writes them with --csv: lists of fields."""
        status, out, lines = self.run("mark", "--csv", *options, **how)
        assert status == 0 and not lines and out.endswith(b"\n"), (status, out, lines)
        heading, *rows = out.decode().splitlines()
        assert heading == "row,apprentice,verdict,cell,lab,meaning", heading
        return [row.split(",") for row in rows]


def row(number, verdict):
    """The row that a verdict has with --csv."""
    none = lambda value: "" if value == 65535 else str(value)
    return [str(number), str(verdict.apprentice), str(verdict.number), none(verdict.cell), none(verdict.lab), shared.MEANING[verdict.number]]
