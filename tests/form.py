#!/usr/bin/env python3
"""Counts what makes a contract hard to read, crate by crate: tests/form.py [--list]

It counts definitions of specs/ with more than eight arguments, lines of specs/ and of clauses with
more than 100 columns, public functions with more than seven parameters, and wrong bodies in
must-fail/. Each count has a limit below, which may fall and not rise: a crate that is not named has
none of it, and ten wrong bodies at most. --list prints each place. The last line is 'N passed, M
failed'.
"""
import glob
import os
import re
import sys

import edits

ROOT = os.path.dirname(os.path.dirname(os.path.abspath(__file__)))
COLUMNS, ARGUMENTS, PARAMETERS, EDITS = 100, 8, 7, 10

# the head of a definition, of which further lines are indented
HEAD = re.compile(
    r"^(?:pub )?(?:unfoldable |abbrev |record |data )+(?:pub )?(\S+)(.*(?:\n[ \t]+.*)*)", re.M
)
FUNCTION = re.compile(r"^ *pub fn (\w+)(?:<.*?>)?\((.*?)\)(?: ->|\n| \{|$)", re.M | re.S)

# How many there are in a crate at most, of what is to have none.
# jmount: lines of specs/MountsNodes.antt, Examples.antt and Laws.antt, and jsteps: one of specs/Steps.antt, to be broken when
# these crates change next.
LIMITS = {"jmount": {"columns": 3}, "jsteps": {"columns": 1}}


def text_of(path):
    with open(path, encoding="utf-8") as file:
        return file.read()


def blanked(text, opening, closing):
    """The text with all that stands between brackets taken out, the brackets too."""
    kept, depth = [], 0
    for letter in text:
        depth += letter in opening
        if depth == 0:
            kept.append(letter)
        depth -= letter in closing
    return "".join(kept)


def binders_of(head):
    """How many arguments the binders of a definition take: `(a b : T)` takes two."""
    return sum(len(names.split()) for names in re.findall(r"\(([^():]*) :", head))


def line_of(text, found):
    return text.count("\n", 0, found.start()) + 1


def arguments_of(text):
    """Each definition of a file of specs/: its name, its line, and how many arguments it takes."""
    for found in HEAD.finditer(text):
        head = found[2].split(" where")[0]
        before, _, kind = head.partition(" : ") if not head.startswith(" (") else (head, "", "")
        line = line_of(text, found)
        if re.match(r"(?:pub )?(?:record|data) ", found[0]) or head.startswith(" ("):
            yield found[1], line, binders_of(head)
        else:
            yield found[1], line, blanked(kind, "([{", ")]}").count("→") + binders_of(before)


def clause_lines(text):
    """The lines of contracts of a source file, with their numbers."""
    is_clause = False
    for number, line in enumerate(text.split("\n"), 1):
        word = line.lstrip()
        if re.match(r"[{}]|(?:pub )?fn ", word):
            is_clause = False
        elif word.startswith(("ensures ", "requires ", "ghost ")):
            is_clause = not word.startswith("ghost use")
        if is_clause:
            yield number, line


def parameters_of(text):
    """Each public function of a source file: its name, its line, and how many parameters it has."""
    for found in FUNCTION.finditer(text):
        parts = blanked(found[2], "([{<", ")]}>").split(",")
        yield found[1], line_of(text, found), sum(bool(it.strip()) for it in parts)


def wide_lines(path, lines):
    return [f"{path}:{number}" for number, line in lines if len(line) > COLUMNS]


def many(path, found, most, word):
    return [f"{path}:{line}: {name} {word} {count}" for name, line, count in found if count > most]


def places_of(folder):
    """The places of each kind in a crate."""
    places = {"arguments": [], "columns": [], "parameters": []}
    for path in sorted(glob.glob(f"{folder}/specs/**/*.antt", recursive=True)):
        text = text_of(path)
        lines = [it for it in enumerate(text.split("\n"), 1) if not it[1].startswith("use ")]
        places["arguments"] += many(path, arguments_of(text), ARGUMENTS, "takes")
        places["columns"] += wide_lines(path, lines)
    for path in sorted(glob.glob(f"{folder}/src/**/*.rt", recursive=True)):
        text = text_of(path)
        places["columns"] += wide_lines(path, clause_lines(text))
        places["parameters"] += many(path, parameters_of(text), PARAMETERS, "has")
    places["edits"] = sorted(glob.glob(f"{folder}/must-fail/*.edit"))[EDITS:]
    return places


def misfits_of(folder):
    """The wrong bodies of a crate that do not fit their file, each with the reason."""
    for path in sorted(glob.glob(f"{folder}/must-fail/*.edit")):
        try:
            edits.Edit(folder, path)
        except edits.BadEdit as why:
            yield f"{path}: {why}"


def main():
    os.chdir(ROOT)
    passed, failed, sums = 0, 0, {}
    for folder in sorted(glob.glob("crates/*")):
        crate = os.path.basename(folder)
        misfits = list(misfits_of(folder))
        print("".join(f"FAILED: {misfit}\n" for misfit in misfits), end="")
        passed, failed = passed + (not misfits), failed + len(misfits)
        for kind, places in places_of(folder).items():
            sums[kind] = sums.get(kind, 0) + len(places)
            if "--list" in sys.argv:
                print("".join(f"{place}\n" for place in places), end="")
            most = LIMITS.get(crate, {}).get(kind, 0)
            passed += len(places) <= most
            failed += len(places) > most
            if len(places) > most:
                print(f"FAILED: {crate}: {kind}: {len(places)}, and {most} are allowed")
    print("in all:", ", ".join(f"{kind} {count}" for kind, count in sums.items()))
    print(f"{passed} passed, {failed} failed")
    return 1 if failed or not passed else 0


sys.exit(main())
