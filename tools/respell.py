#!/usr/bin/env python3
"""Brings the repository's own definitions and lemmas to the spelling of today's Rattle: words in snake case, types in
upper camel case, a dash only between two names. Run once, at the top, after the kit's port.py.

Functions of src/, exported C names, strings, inputs and outputs keep their names: only names that a file of specs/ or
proofs/ declares are turned, in those files, in clauses, in the must-fail edits and in the pages that cite them."""
import glob
import re
import subprocess
import sys

TOKEN = re.compile(r"[A-Za-z_ℕ][A-Za-z0-9_'ℕ≡≤≢<]*(?:-[A-Za-z0-9_'ℕ≡≤≢<]+)*")
DECLARED = re.compile(
    r"^(?P<indent>\s*)(?P<words>(?:(?:unfoldable|abbrev|pub|data|record|opaque|ruleset|ghost)\s+)*)"
    r"(?P<name>[A-Za-z_][^\s:(){}.,;=]*)\s*(?P<sign>:|=)(?=\s|$)", re.M)
# Names of the library that a lemma's name may join by a dash.
LIBRARY = set("length take drop set get_or getD map filter cond eqb leb ltb replicate append zip sum slice rev "
              "reverse div mod max min not suc div rem ap concat foldl foldr any all".split())
KEEP = re.compile(r"^(returns|overflow|bounds|loop|invariant|μ)([-_].*)?$")


def antt():
    return sorted(glob.glob("crates/*/specs/**/*.antt", recursive=True)
                  + glob.glob("crates/*/proofs/**/*.antt", recursive=True))


def snake(word):
    word = re.sub(r"([a-z0-9])([A-Z])", r"\1_\2", word)
    word = re.sub(r"([A-Z])([A-Z][a-z])", r"\1_\2", word)
    return word.lower()


def lower_camel(name):
    return re.match(r"^[a-z][A-Za-z0-9']*$", name) and re.search(r"[A-Z]", name)


def declared():
    names = {}
    for path in antt():
        text = open(path, encoding="utf-8").read()
        for m in DECLARED.finditer(text):
            # What a function owes has the name that Rattle gives it.
            if re.match(r"\s*tie\.", text[m.end():]):
                continue
            names.setdefault(m["name"], set()).add(path)
    return names


def turned(name, all_names):
    parts = name.split("-")
    out = []
    for part in parts:
        if part == "getD":
            out.append("get_or")
        elif part in all_names and re.match(r"^[A-Z]", part):
            out.append(part)
        elif re.search(r"[A-Z]", part) and re.match(r"^[a-z]", part):
            out.append(snake(part))
        else:
            out.append(part)
    text = out[0]
    for before, (old, new) in zip(parts, list(zip(parts, out))[1:]):
        both = all(p in LIBRARY or (p in all_names and (re.search(r"[A-Z]", p) or "_" in p)) for p in (before, old))
        text += ("-" if both else "_") + new
    return text


def table():
    names = declared()
    every = set(names)
    definitions = {n: turned(n, every) for n in sorted(every) if lower_camel(n) and not KEEP.match(n)}
    turns = dict(definitions)
    # A lemma that would have a definition's name gets _lem.
    taken = set(definitions.values())
    for name in sorted(every & taken):
        turns[name] = name + "_lem"
    taken |= every
    for name in sorted(every):
        if "-" in name and re.match(r"^[A-Za-z_]", name) and not KEEP.match(name):
            new = turned(name, every)
            if new in taken and new != name:
                new += "_lem"
            if new != name:
                turns[name] = new
                taken.add(new)
    return turns, names


def pages():
    listed = subprocess.run(["git", "ls-files", "README.md", "docs", "tests/rules", "crates", "c", "tests"],
                            capture_output=True, text=True, check=True).stdout.split("\n")
    return [p for p in listed if re.search(r"\.(rt|edit)$", p) or p == "README.md"
            or (p.startswith("docs/") and p.endswith(".md"))]


def respell(text, turns, path):
    def turn(m):
        return turns.get(m[0], m[0])
    if path.endswith(".antt") or path.endswith(".edit"):
        return TOKEN.sub(turn, text)
    if path.endswith(".rt"):
        return TOKEN.sub(lambda m: turn(m) if lower_camel(m[0]) else m[0], text)
    return re.sub(r"`[^`\n]*`", lambda m: TOKEN.sub(lambda t: turn(t) if lower_camel(t[0]) or "-" in t[0] else t[0], m[0]), text)


def main():
    turns, names = table()
    if "--list" in sys.argv:
        for old, new in turns.items():
            print(old, new)
        return
    if "--clashes" in sys.argv:
        words = {}
        for path in antt() + [p for p in pages() if p.endswith(".rt")]:
            for m in TOKEN.finditer(re.sub(r"--.*|//.*", "", open(path, encoding="utf-8").read())):
                words.setdefault(m[0], set()).add(path)
        back = {}
        for old, new in turns.items():
            back.setdefault(new, []).append(old)
        for new, olds in back.items():
            if len(olds) > 1:
                print("SAME", new, olds)
            for old in olds:
                both = words.get(new, set()) & words.get(old, set())
                if both:
                    print("BESIDE", old, new, "declared" if new in names else "", sorted(both)[:4], len(both))
        return
    for path in antt() + pages():
        text = open(path, encoding="utf-8").read()
        new = respell(text, turns, path)
        if new != text:
            open(path, "w", encoding="utf-8").write(new)
    print(len(turns), "names")


if __name__ == "__main__":
    main()
