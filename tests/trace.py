#!/usr/bin/env python3
"""Looks up the names that the documents use, whether docs/TRACE.md or WRONG-BODIES.md names each
edit, and whether two files of specs/ define one name: tests/trace.py. The last line is 'N passed, M
failed'.

Names between backquotes in docs/TRACE.md, PROOFS.md, TESTED.md, WRONG-BODIES.md and GLOSSARY.md
have three forms: `crate.File.name` is a definition in crates/crate/specs/File.antt,
`crate::module::name` an item of crates/crate/src/module.rt, and `crate/name` an edit,
crates/crate/must-fail/name.edit, or a module, crates/crate/src/name.rt.

In docs/PROOFS.md the names in brackets after a call, as `jlog::session::apply` (`halted`), are its
clauses, and a bare name after a call or a law, as `makes_once`, is an item of the same module.

The first words of the lines of a listing, each of which crates/jlisting/src/forms.rt reads by a
function, stand in the manual page of section 5, in the help and in docs/FORMAT.md.
"""
import collections
import glob
import os
import re
import sys

ROOT = os.path.dirname(os.path.dirname(os.path.abspath(__file__)))
CRATES = os.path.join(ROOT, "crates")
DOCUMENTS = ("TRACE.md", "PROOFS.md", "TESTED.md", "WRONG-BODIES.md", "GLOSSARY.md")
WORD = r"[A-Za-z_][A-Za-z0-9_]*"
DEFINITION = re.compile(rf"({WORD})\.({WORD})\.({WORD})")
ITEM = re.compile(rf"({WORD})::((?:{WORD}::)+)({WORD})")
EDIT = re.compile(rf"({WORD})/({WORD})")
QUOTED = re.compile(r"`([^`]+)`")
# A call or a law with its module, the bare names after it, and the clauses in brackets.
CITED = re.compile(
    rf"`({WORD})::({WORD})::({WORD})`((?:(?:,| and) `{WORD}`)*)"
    rf"(?: \(((?:`{WORD}`(?:, )?)+)\))?"
)


def text_of(*path):
    try:
        with open(os.path.join(ROOT, *path), encoding="utf-8") as file:
            return file.read()
    except OSError:
        return ""


def is_there(name):
    """Whether what a name stands for is there; None where it has none of the three forms."""
    if found := DEFINITION.fullmatch(name):
        crate, file, word = found.groups()
        if not os.path.isdir(os.path.join(CRATES, crate)):
            return None
        text = text_of("crates", crate, "specs", f"{file}.antt")
        kinds = "pub|unfoldable|abbrev|record|data|opaque"
        return bool(re.search(rf"^(?:(?:{kinds}) )*{word}\b", text, re.M))
    if found := ITEM.fullmatch(name):
        crate, modules, word = found.groups()
        if not os.path.isdir(os.path.join(CRATES, crate)):
            return None
        return word in items_of(text_of("crates", crate, "src", f"{modules.split('::')[0]}.rt"))
    if found := EDIT.fullmatch(name):
        crate, word = found.groups()
        places = (("must-fail", f"{word}.edit"), ("src", f"{word}.rt"))
        if not os.path.isdir(os.path.join(CRATES, crate)):
            return None
        return any(os.path.isfile(os.path.join(CRATES, crate, *place)) for place in places)
    return None


def items_of(text):
    """The names of the items of a source file."""
    items = rf"\b(?:fn|struct|enum|trait|type|const|impl(?:<[^>]*>)?) ({WORD})\b"
    return set(re.findall(items, text))


def clauses_of(text):
    """For each function or type of a source file the names of its clauses."""
    clauses = collections.defaultdict(set)
    head = r" *(?:pub(?:\([a-z]+\))? )?(?:fn|struct|enum|trait) "
    for part in re.split(rf"^(?={head})", text, flags=re.M):
        if found := re.match(rf"{head}({WORD})", part):
            clauses[found[1]] |= set(re.findall(r"\bensures\*? (\w+) \{", part))
    return clauses


def proofs_faults():
    """Checks the bare names and clauses in PROOFS.md. Returns how many are right, and faults."""
    right, faults = 0, []
    for found in CITED.finditer(" ".join(text_of("docs", "PROOFS.md").split())):
        crate, module, name, more, labels = found.groups()
        text = text_of("crates", crate, "src", f"{module}.rt")
        names = [name, *QUOTED.findall(more)]
        missing = [it for it in names if it not in items_of(text)]
        faults += [f"PROOFS.md: {crate}::{module} has no `{it}`" for it in missing]
        clauses = set().union(*(clauses_of(text).get(it, set()) for it in names))
        absent = [it for it in QUOTED.findall(labels or "") if it not in clauses]
        faults += [f"PROOFS.md: `{it}` is no clause of {crate}::{module}::{name}" for it in absent]
        right += len(names) - len(missing) + len(QUOTED.findall(labels or "")) - len(absent)
    return right, faults


def verb_faults():
    """Looks for each first word of a line of a listing where users read of it. Returns how many are
    there, and the faults."""
    forms = text_of("crates", "jlisting", "src", "forms.rt")
    verbs = [it.replace("_", "-") for it in re.findall(r"^pub fn read_(\w+)<", forms, re.M)]
    places = {
        "docs/jffs2_image.5": r"^\.It Li {} Ar",
        "docs/FORMAT.md": r"`{}[` ]",
        "crates/jcommand/src/epilogues.rt": r"^ *{} [A-Z]",
    }
    faults = [] if verbs else ["crates/jlisting/src/forms.rt reads no line"]
    right = 0
    for place, form in places.items():
        text = text_of(*place.split("/"))
        for verb in verbs:
            if re.search(form.format(verb), text, re.M):
                right += 1
            else:
                faults.append(f"{place} does not have the line {verb} of a listing")
    return right, faults


def edit_faults():
    """Looks for each edit in docs/TRACE.md and WRONG-BODIES.md. Returns how many are there, and the
    faults."""
    named = QUOTED.findall(text_of("docs", "TRACE.md") + text_of("docs", "WRONG-BODIES.md"))
    paths = glob.glob(os.path.join(CRATES, "*", "must-fail", "*.edit"))
    edits = [os.path.relpath(path, CRATES).removesuffix(".edit") for path in sorted(paths)]
    edits = [edit.replace(f"{os.sep}must-fail{os.sep}", "/") for edit in edits]
    missing = sorted(set(edits) - set(named))
    faults = [f"TRACE.md and WRONG-BODIES.md do not name the edit {edit}" for edit in missing]
    return len(edits) - len(missing), faults


def shared_names():
    """Returns each name that is defined in more than one file of specs/, with these files. An
    operator is none: a `do` block takes the one that its file brings in."""
    files = collections.defaultdict(set)
    for path in glob.glob(os.path.join(CRATES, "*", "specs", "**", "*.antt"), recursive=True):
        kinds = "pub|unfoldable|abbrev|record|data|opaque"
        for name in re.findall(rf"^(?:(?:{kinds}) )+(\S+)", text_of(path), re.M):
            files[name].add(os.path.relpath(path, CRATES))
    several = [name for name in sorted(files) if len(files[name]) > 1]
    return {name: sorted(files[name]) for name in several if name not in ("use", "mod", "◌>>=◌")}


def main():
    answers = {}
    for document in DOCUMENTS:
        for name in QUOTED.findall(text_of("docs", document)):
            answers[f"{document}: {name}"] = is_there(name)
    faults = [f"docs/{name}, which is not there" for name in answers if answers[name] is False]
    right = sum(answer is True for answer in answers.values())
    for more, others in (proofs_faults(), verb_faults(), edit_faults()):
        right += more
        faults += others
    shared = shared_names()
    faults += [f"{name} is defined in {' and '.join(places)}" for name, places in shared.items()]
    for fault in faults:
        print(f"FAILED: {fault}")
    print(f"{right + (not shared)} passed, {len(faults)} failed")
    return 1 if faults or not right else 0


sys.exit(main())
