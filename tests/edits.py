#!/usr/bin/env python3
"""Shows that the prover refuses wrong bodies: tests/edits.py [--jobs N] [--built DIR] [--with-ci] [--controls] [CRATE ..]

A file crates/NAME/must-fail/*.edit is one wrong body, in the form of `rt must-fail` and with a first line of its own:

    refused: MODULE::FUNCTION     the function whose contract it breaks, as a check prints it
    file: src/FILE.rt
    old: TEXT                     a part of one line, which stands once in the file
    new: TEXT                     what is put in its place; further pairs apply to what those before them made

A check proves each function from the contracts of what it calls. So many edits, each of another function, go into one copy
of the crate, and a check of those functions judges them all. What they call is not proved once more: of the other functions
the copy has the contracts alone, each with an empty loop for its body and a hole for its proof. An edit is refused where a
goal of its own function fails; where the check only says that of what it calls, it is tried again without the edits of others.
Nor is it refused where the function's proof names what the edit took away: that fails whatever the edit means.
No function without an edit may fail in a check, and with --controls, which leaves the right bodies, none at all. The libraries
below a crate are those that `rt ci` or `rt check` made, here or in DIR. With --with-ci `rt ci` runs there meanwhile, and the
edits of a crate are tried as soon as the libraries below it are proved: in the time that `rt ci` leaves idle, since a crate
waits for those below it. What it writes is passed on. The last line is 'N passed, M failed'.
"""
import argparse
import concurrent.futures
import difflib
import glob
import os
import re
import shutil
import subprocess
import sys
import tempfile
import threading

ROOT = os.path.dirname(os.path.dirname(os.path.abspath(__file__)))
sys.path.insert(0, os.path.dirname(os.path.realpath(shutil.which("rt") or "rt")))
import rtlib  # noqa: E402  (the toolchain's own: with which words it calls the prover for a crate)

# what a check that lets holes pass says of a function that is proved, but for holes in what it calls
STANDS = ("no holes", "depends on a hole in ")
# what a check says of a function where something that it calls is not proved
CALLEE_FAILED = ("no proof: it calls", "not proved; it calls", "not proved; it stands on")
# what it says of a function's proof that names what an edit took away, and so fails whatever the edit means
NAME_IS_GONE = re.compile(r"^\./proofs/(\S+)/\w+\.antt:.* error: .*(?:has no field|that can be named from here)", re.M)
# the proof of a function that a check is to take as proved
HOLE = """use Rattle.{crate}.proofs.{path}.Statement.{{statement}}

pub {name}_spec : {{M : Type 1}} → statement M
{name}_spec 𝓤 𝓛 𝓜 𝓡 wired = ?
"""


class BadEdit(Exception):
    """An edit that cannot be applied, or that the prover did not come to."""


class Edit:
    """A wrong body: the function that is to be refused, and the runs of lines that change in each file."""

    def __init__(self, folder, file):
        """Reads an edit of the crate in this folder. Its wrong body takes the place of the right one."""
        self.name, self.function, self.changes = os.path.basename(file).removesuffix(".edit"), None, {}
        with open(file, encoding="utf-8") as it:
            texts = self.applied(folder, it.read().split("\n"))
        for path, (before, after) in texts.items():
            self.changes[path] = changed_lines(before.split("\n"), after.split("\n"))
        if not self.function or not any(self.changes.values()):
            raise BadEdit("it names no function, or changes nothing")

    def applied(self, folder, lines):
        """Returns each file that the edit names, before and after it."""
        texts, path, old = {}, None, None
        for line in lines:
            word, _, rest = line.partition(":")
            rest = rest.removeprefix(" ")
            if word == "refused":
                self.function = rest
            elif word == "file":
                path = rest
                if not path.startswith("src/"):
                    raise BadEdit(f"{path} is not below src/")
                with open(f"{folder}/{path}", encoding="utf-8") as it:
                    text = it.read()
                texts.setdefault(path, (text, text))
            elif word == "old":
                old = rest
            elif word == "new":
                before, after = texts[path]
                if after.count(old) != 1:
                    raise BadEdit(f"{path} has its old text {after.count(old)} times: {old}")
                texts[path] = before, after.replace(old, rest)
        return texts


def changed_lines(before, after):
    """Returns the runs of lines that differ: where each begins and ends before, and what is there after."""
    steps = difflib.SequenceMatcher(None, before, after, autojunk=False).get_opcodes()
    return [(low, high, after[i:j]) for kind, low, high, i, j in steps if kind != "equal"]


class Batch:
    """Edits no two of which are of one function, or touch or adjoin, to be judged by one check."""

    def __init__(self):
        self.edits, self.changes = [], {}

    def takes(self, edit):
        """Adds the edit, if it is apart from those that are here."""
        is_apart = all(
            high < other_low or other_high < low
            for path, runs in edit.changes.items()
            for low, high, _ in runs
            for other_low, other_high, _ in self.changes.get(path, [])
        )
        if not is_apart or any(edit.function == it.function for it in self.edits):
            return False
        self.edits.append(edit)
        for path, runs in edit.changes.items():
            self.changes.setdefault(path, []).extend(runs)
        return True

    def is_in(self, folder):
        """Whether the wrong bodies stand in a copy of the crate."""
        for path, runs in self.changes.items():
            with open(f"{folder}/{path}", encoding="utf-8") as it:
                lines = set(it.read().split("\n"))
            if not all(lines.issuperset(after) for _, _, after in runs):
                return False
        return True

    def write(self, folder):
        """Writes the wrong bodies into a copy of the crate."""
        for path, runs in self.changes.items():
            with open(f"{folder}/{path}", encoding="utf-8") as it:
                lines = it.read().split("\n")
            for low, high, after in sorted(runs, key=lambda run: run[0], reverse=True):
                lines[low:high] = after
            with open(f"{folder}/{path}", "w", encoding="utf-8") as it:
                it.write("\n".join(lines))


def batches_of(edits):
    """Returns batches with these edits, each in the first that takes it."""
    made = []
    for edit in edits:
        if not any(batch.takes(edit) for batch in made):
            made.append(Batch())
            made[-1].takes(edit)
    return made


def modules_of(files):
    """Returns the module, as a check names it, of each file and of each type that these files declare."""
    of_file, of_type = {}, {}
    for file, lines in files.items():
        of_file[file] = "" if file in ("lib.rt", "main.rt") else file.removesuffix(".rt").replace("/", "::") + "::"
        of_type.update((it[1], of_file[file]) for it in map(re.compile(r"(?:pub(?:\(.*\))? )?(?:struct|enum) (\w+)").match, lines) if it)
    return of_file, of_type


def bodies_of(lines, module, of_type):
    """Yields each function and method of a file, but those of traits, and the lines in which its body begins and ends."""
    owner, indent = module, ""
    for at, line in enumerate(lines):
        if line == "}":
            owner, indent = module, ""
        elif (head := re.match(r"impl(?:<.*?>)? (\w+).*\{$", line)) and " for " not in line:
            owner, indent = f"{of_type[head[1]]}{head[1]}::", "    "
        elif start := re.match(rf"{indent}(?:pub(?:\([a-z ]+\))? )?fn (\w+)", line):
            opens = re.compile(rf"{indent}(\{{|(\)|[a-z].*\)).*\{{)$")
            begin = next(it for it in range(at, len(lines)) if opens.match(lines[it]) or lines[it] == f"{indent}{{}}")
            if opens.match(lines[begin]):
                yield owner + start[1], begin, lines.index(f"{indent}}}", begin)


def leave_contracts(room, crate, edited):
    """Leaves of the functions in this copy that no edit is in their contracts alone, which a check is to take as met."""
    files = {}
    for file in glob.glob("**/*.rt", root_dir=f"{room}/src", recursive=True):
        with open(f"{room}/src/{file}", encoding="utf-8") as it:
            files[file] = it.read().split("\n")
    of_file, of_type = modules_of(files)
    for file, lines in files.items():
        for function, begin, end in reversed(list(bodies_of(lines, of_file[file], of_type))):
            if function not in edited:
                lines[begin + 1 : end] = ["loop {}"]
                leave_hole(room, crate, function.split("::"))
        with open(f"{room}/src/{file}", "w", encoding="utf-8") as it:
            it.write("\n".join(lines))


def leave_hole(room, crate, path):
    """Puts a hole in the place of the proof of the function at this path."""
    proof = "/".join([room, "proofs", *path])
    for part in ("Answers", "Invariants"):
        if os.path.isfile(f"{proof}/{part}.antt"):
            os.remove(f"{proof}/{part}.antt")
    os.makedirs(proof, exist_ok=True)
    with open(f"{proof}/Proof.antt", "w", encoding="utf-8") as it:
        it.write(HOLE.format(crate=crate.name, path=".".join(path), name=path[-1]))


def fails(crate, function, status):
    """Whether the prover came to the function's own goals and one of them fails. What fails in what it calls shows nothing of it."""
    *above, name = function.split("::")
    # (a function that calls itself is proved as a cycle of one, whose name begins with a plus)
    proofs = [".".join(["`Rattle", crate.name, "proofs", *above, it, ""]) for it in (name, f"+{name}")]
    is_own = status.startswith("not proved") and any(it in status for it in proofs)
    return (is_own or status.startswith("no proof: expected answers")) and "borrow checker" not in status


def check(crate, batch, asked, threads):
    """Checks the batch's functions in a copy of the crate with its edits, and returns what the check says of each function."""
    edited = {edit.function for edit in batch.edits}
    with tempfile.TemporaryDirectory(prefix="edits-") as room:
        for part in rtlib.PARTS:
            if os.path.isdir(f"{crate.folder}/{part}"):
                shutil.copytree(f"{crate.folder}/{part}", f"{room}/{part}")
        if not asked.controls:
            batch.write(room)
        leave_contracts(room, crate, edited)
        if not asked.controls and not batch.is_in(room):
            raise BadEdit("the copy is left without it: a check knows its function by another name than its source shows")
        only = [word for function in sorted(edited) for word in ("--only", function)]
        words = [rtlib.RATTLE, "check", *crate.words(["--jobs", str(threads())], keeps=False), "--allow-holes", *only]
        how = {"stdin": subprocess.DEVNULL, "stdout": subprocess.PIPE, "stderr": subprocess.STDOUT, "errors": "replace"}
        said = subprocess.run([*rtlib.guarded(), *words], cwd=room, check=False, **how).stdout.rstrip()
    lines = said.split("\n")
    if not re.fullmatch(r"only=\d+ holes=\d+", lines[-1]) or rtlib.STALE.search(said):
        raise BadEdit("the check did not come to the proofs: " + next((it for it in lines if ": error" in it), lines[-1]))
    found = dict(re.findall(rf"^fn {crate.name}::(\S+): (.*)$", said, re.M))
    for path in NAME_IS_GONE.findall(said):
        # (a function that calls itself is proved as a cycle of one, whose name begins with a plus)
        found[path.replace("/", "::").replace("+", "")] = "its proof names what is gone, which shows nothing of the contract"
    is_left = lambda function, status: status.startswith((*STANDS, *CALLEE_FAILED)) and not fails(crate, function, status)
    spoilt = [it for it, status in found.items() if it not in edited and not is_left(it, status)]
    if spoilt or not edited <= found.keys():
        raise BadEdit(f"not proved, though no edit is in it: {spoilt}; not a function of the crate: {sorted(edited - found.keys())}")
    return found


def tried(crate, batch, asked, threads):
    """Returns for each edit of the batch whether it is refused, or its control proved, and what the check said."""
    try:
        found = check(crate, batch, asked, threads)
    except BadEdit as error:
        if len(batch.edits) == 1:
            return [(batch.edits[0], False, f"BAD EDIT: {error}")]
        half = len(batch.edits) // 2
        parts = [part for edits in (batch.edits[:half], batch.edits[half:]) for part in batches_of(edits)]
        return [it for part in parts for it in tried(crate, part, asked, threads)]
    judged = []
    for edit in batch.edits:
        status = found[edit.function]
        judged.append((edit, status.startswith(STANDS) if asked.controls else fails(crate, edit.function, status), status))
    again = [edit for edit, passed, status in judged if not passed and not status.startswith(STANDS)]
    if not again or len(batch.edits) == 1:
        return judged
    # beside the edits of what it calls an edit may not have been judged
    more = [it for edit in again for it in tried(crate, batches_of([edit])[0], asked, threads)]
    return [*(it for it in judged if it[0] not in again), *more]


def unmade(crate):
    """Returns the libraries below the crate that are not made, or not as they are now. (rt ci leaves no stamp on what it makes.)"""
    stamp = lambda it: os.path.join(os.path.dirname(it.rlib), "stamp")
    return [it.name for it in crate.below() if not os.path.isdir(it.rlib) or os.path.isfile(stamp(it)) and not it.is_built()]


def edits_of(crate):
    """Returns the files of the crate's edits. They are in this repository, wherever the crate was built."""
    folder = f"{ROOT}/crates/{crate.name}/must-fail"
    return sorted(f"{folder}/{it}" for it in os.listdir(folder)) if os.path.isdir(folder) else []


def try_all(crate, asked, threads):
    """Returns a line for each edit of the crate, and how many are as asked. `threads` tells how many a check is to have."""
    if unmade(crate):
        return [f"{crate.name}: run rt check first: {', '.join(unmade(crate))}"], 0
    lines, edits = [], []
    for file in edits_of(crate):
        try:
            edits.append(Edit(crate.folder, file))
        except (BadEdit, KeyError, OSError) as error:
            lines.append(f"{crate.name}/{os.path.basename(file)}: BAD EDIT: {error}")
    good, word = 0, "proved" if asked.controls else "refused"
    for batch in batches_of(edits):
        for edit, passed, said in tried(crate, batch, asked, threads):
            lines.append(f"{crate.name}/{edit.name}: {word if passed else 'NOT ' + word.upper()}: {edit.function}: {said[:160]}")
            good += passed
    return lines, good


class Libraries:
    """The crates of which it is known that their libraries are made."""

    def __init__(self, are_all):
        self.names, self.are_all, self.more = set(), are_all, threading.Condition()

    def read(self, lines):
        """Passes on what `rt ci` writes, and learns from it which crates it has proved. At its end no more come."""
        for line in lines:
            print(line, end="", flush=True)
            done = re.match(r"rt: (\w+) (proved$|is kept: )", line)
            if done:
                with self.more:
                    self.names.add(done[1])
                    self.more.notify_all()
        with self.more:
            self.are_all = True
            self.more.notify_all()

    def next_of(self, crates):
        """Takes the first of these crates below which all libraries are made out of the list, and waits for one. None at the end."""
        is_ready = lambda crate: self.are_all or all(it.name in self.names for it in crate.below())
        with self.more:
            self.more.wait_for(lambda: not crates or any(map(is_ready, crates)))
            taken = next(filter(is_ready, crates), None)
            if taken:
                crates.remove(taken)
            return taken


def try_each(crates, libraries, asked):
    """Tries the edits of these crates, some crates at a time. Returns how many passed and failed."""
    counts, printing = [0, 0], threading.Lock()
    # a second thread takes a seventh more of the processors, so a check gets one only where others leave them idle
    threads = lambda: 2 if libraries.are_all and not crates else 1

    def work():
        while crate := libraries.next_of(crates):
            lines, good = try_all(crate, asked, threads)
            with printing:
                print("\n".join(lines), flush=True)
                counts[0] += good
                counts[1] += len(lines) - good

    with concurrent.futures.ThreadPoolExecutor(asked.jobs) as pool:
        for done in [pool.submit(work) for _ in range(asked.jobs)]:
            done.result()
    return counts


def main():
    parser = argparse.ArgumentParser(description="Shows that the prover refuses the wrong bodies in crates/*/must-fail.")
    parser.add_argument("--jobs", type=int, default=len(os.sched_getaffinity(0)), help="how many crates at a time")
    parser.add_argument("--built", metavar="DIR", default=ROOT, help="a copy of the repository in which the crates were proved")
    parser.add_argument("--with-ci", action="store_true", help="run rt ci in that copy meanwhile, and fail where it fails")
    parser.add_argument("--controls", action="store_true", help="leave the right bodies, each of which must be proved so")
    parser.add_argument("crates", metavar="CRATE", nargs="*", help="these crates alone")
    asked = parser.parse_args()
    os.chdir(asked.built)
    rtlib.guarded()
    crates = [it for it in rtlib.crates_below(os.getcwd()) if edits_of(it)]
    crates = [it for it in crates if not asked.crates or it.name in asked.crates]
    # the longest first
    crates.sort(key=lambda it: -len(edits_of(it)))
    libraries, status = Libraries(not asked.with_ci), 0
    if asked.with_ci:
        with subprocess.Popen(["rt", "ci"], stdout=subprocess.PIPE, text=True, errors="replace") as proofs:
            # the proofs come first: others wait for them
            os.nice(10)
            reader = threading.Thread(target=libraries.read, args=(proofs.stdout,))
            reader.start()
            passed, failed = try_each(crates, libraries, asked)
            reader.join()
        status = proofs.returncode
    else:
        passed, failed = try_each(crates, libraries, asked)
    print(f"{passed} passed, {failed} failed")
    return 1 if failed or not passed or status else 0


if __name__ == "__main__":
    sys.exit(main())
