#!/usr/bin/env python3
"""Runs the commands of the documents as they stand: tests/commands.py [--try | --real] [PROGRAM]

In README.md, docs/GUIDE.md, docs/FAQ.md, docs/POWER-CUTS.md and CONTRIBUTING.md these are the
blocks that begin with ```sh, each begun at the top of the repository, one page after the other. The
section 'Get it' of README.md is run first, as the others need the program. A block ```text after
one is its output, in which a line `...` is any number of lines. The lines of its section 'As a
library' are those of the examples in bindings/, which tests/bindings.sh runs. Of the manual pages
they are the literal blocks of QUICK START and EXAMPLES and those after a line that begins with
'Example:', in order, each page in a folder with a folder `tree`; 'It prints' has the last line.
Each block must end with status 0.

The commands get a copy of the repository, the program, and a home of their own. Proving takes an
hour, and the gate does it by itself. So `rt` and the scripts of tests/ are stand-ins, which look
whether they can be called so: `rt try -- WORDS` and `rt run -- WORDS` run the program, and of
another crate they print its file `stdout` where its file `args` has these words. With --try, as in
the gate, each `rt try` is the toolchain's own. With --real nothing is a stand-in but tests/all.sh,
which is the gate; the documents build the program, so PROGRAM is not taken. The last line is 'N
passed, M failed'.
"""
import glob
import os
import re
import shutil
import subprocess
import sys
import tempfile

ROOT = os.path.dirname(os.path.dirname(os.path.abspath(__file__)))
PROGRAM = os.path.join(ROOT, "crates", "jffs2_image", "out", "jffs2_image")
# What the repository has; beside it there may be what somebody made by the commands of README.md.
PAGES = ("README.md", "docs/GUIDE.md", "docs/FAQ.md", "docs/POWER-CUTS.md", "CONTRIBUTING.md")
# the section that a reader of a page needs before all others
FIRST = "Get it"
# the example of each language that README.md shows lines of
EXAMPLES = {"Python": ("python", "examples", "print_file.py"),
            "Rust": ("rust", "examples", "print_file.rs"),
            "C": ("c", "examples", "print_file.c")}
PARTS = ("bench", "completions", "crates", "docs", "tests", "CHANGELOG.md",
         "CONTRIBUTING.md", "HANDLES", "README.md", "RELEASING.md", "ROADMAP.md", "SECURITY.md",
         "crates.txt")
BLOCK = re.compile(r"^```(\w*)\n(.*?)^```$", re.M | re.S)
LITERAL = re.compile(r"(?:^(?P<before>[^.\n][^\n]*)\n(?:\.Pp\n)?)?"
                     r"^\.Bd -literal[^\n]*\n(?P<block>.*?)^\.Ed$"
                     r"(?:\n\.Pp\nIt prints\n\.Ql (?P<told>[^\n]*) \.$)?", re.M | re.S)

# What stands for rt: it knows the words of its own help, and the crates.
RT = r"""#!/usr/bin/env python3
import os, re, subprocess, sys
words, crate = sys.argv[1:], os.path.basename(os.getcwd())
if words[:1] == ["try"] and "REAL_RT" in os.environ:
    sys.exit(subprocess.call([os.environ["REAL_RT"], *words]))
top = os.path.join(os.environ["TOP"], "crates")
is_program = words[:2] in (["try", "--"], ["run", "--"])
if is_program and crate == "jffs2_image":
    sys.exit(subprocess.call(["out/jffs2_image", *words[2:]]))
if is_program:
    asked = [word.removeprefix("data/") for word in words[2:]]
    wanted = open(os.path.join(top, crate, "args")).read().split("\n")[:-1]
    print(end=open(os.path.join(top, crate, "stdout")).read())
    sys.exit(asked != wanted)
known = re.findall(r"\b[a-z]+(?:-fail)?\b|--[a-z-]+[a-z]", os.environ["RT_HELP"])
known.append("--allow-holes")  # a flag of the prover, which rt's help leaves out
names = [word for word in words if re.fullmatch(r"[a-z]\w*", word)]
unknown = [word for word in words if word.startswith("--") and word not in known]
unknown += [names[0]] if not names or names[0] not in known else []
unknown += [name for name in names[1:] if not os.path.isdir(os.path.join(top, name))]
for path in (word for word in words if "::" in word):
    *modules, name = path.split("::")
    text = open(os.path.join(top, crate, "src", modules[0] + ".rt")).read()
    unknown += [] if re.search(rf"\bfn {name}\b", text) else [path]
print("unknown:", *unknown) if unknown else None
sys.exit(bool(unknown))
"""


class Place:
    """A folder with what the commands need, and their environment."""

    def __init__(self, folder, program, mode):
        self.folder, self.top, self.mode = folder, os.path.join(folder, "top"), mode
        os.mkdir(self.top)
        for part in PARTS:
            path, copy = os.path.join(ROOT, part), os.path.join(self.top, part)
            if os.path.isdir(path):
                shutil.copytree(path, copy, ignore=shutil.ignore_patterns("out"))
            else:
                shutil.copy2(path, copy)
        home = os.path.join(folder, "home")
        os.mkdir(home)
        path = [os.path.join(home, ".local", "bin"), os.environ["PATH"]]
        self.environment = {"HOME": home, "LC_ALL": "C", "TOP": self.top}
        self.script(os.path.join(self.top, "tests", "all.sh"), "#!/bin/sh\n")
        if mode != "--real":
            path.insert(1, os.path.join(folder, "bin"))
            self.stand_in(program)
        self.environment["PATH"] = ":".join(path)

    def stand_in(self, program):
        """Puts the program where it is built, and stand-ins for rt and the scripts of tests/."""
        os.mkdir(os.path.join(self.top, "crates", "jffs2_image", "out"))
        os.symlink(program, os.path.join(self.top, "crates", "jffs2_image", "out", "jffs2_image"))
        for name in os.listdir(os.path.join(self.top, "tests")):
            path = os.path.join(self.top, "tests", name)
            if os.path.isfile(path) and os.access(path, os.X_OK):
                self.script(path, "#!/bin/sh\n")
        os.mkdir(os.path.join(self.folder, "bin"))
        self.script(os.path.join(self.folder, "bin", "rt"), RT)
        help_of_rt = subprocess.run(["rt", "help"], capture_output=True, text=True, check=False)
        self.environment["RT_HELP"] = help_of_rt.stdout + help_of_rt.stderr
        if self.mode == "--try":
            self.environment["REAL_RT"] = shutil.which("rt")

    @staticmethod
    def script(path, text):
        with open(path, "w", encoding="utf-8") as file:
            file.write(text)
        os.chmod(path, 0o755)

    def run(self, where, commands):
        """The status and the standard output of a block, and what it says on standard error."""
        done = subprocess.run(["bash", "-e", "-c", commands], cwd=where, text=True,
                              env=self.environment, capture_output=True, stdin=subprocess.DEVNULL,
                              check=False)
        return done.returncode, done.stdout, done.stderr


def blocks_of_page(text):
    """Each block of commands of a page in Markdown, with what it prints, or None."""
    sections = re.split(r"^## ", text, flags=re.M)
    sections.sort(key=lambda section: not section.startswith(FIRST))
    blocks = BLOCK.findall("\n".join(sections))
    for (kind, commands), (next_kind, printed) in zip(blocks, blocks[1:] + [("", "")]):
        if kind == "sh":
            yield commands, printed if next_kind == "text" else None


def blocks_of_manual(text):
    """Each block of commands of a manual page, with the last line that it prints, or None."""
    for section in re.split(r"^\.Sh ", text, flags=re.M):
        is_example = section.partition("\n")[0] in ("EXAMPLES", "QUICK START")
        for found in LITERAL.finditer(section):
            if is_example or (found["before"] or "").startswith("Example:"):
                told = f"...\n{found['told']}\n" if found["told"] else None
                yield re.sub(r"\\e", r"\\", found["block"]), told


def is_as_told(printed, told):
    """Whether what was printed is what a document tells, `...` standing for any lines."""
    parts = re.split(r"^\.\.\.\n", told, flags=re.M)
    return re.fullmatch(r"(?:.*\n)*".join(map(re.escape, parts)), printed) is not None


def run_blocks(place, where, name, blocks):
    """Runs the blocks of a document. Returns how many did as told, and how many did not."""
    passed = failed = 0
    for commands, told in blocks:
        if place.mode == "--real":
            print(f"{name}:\n{commands}", end="", flush=True)
        status, printed, said = place.run(where, commands)
        if status == 0 and (told is None or is_as_told(printed, told)):
            passed += 1
            continue
        failed += 1
        print(f"FAILED: {name}: status {status}\n{commands}prints\n{printed[:400]}{said[:400]}")
        if told is not None:
            print(f"wanted\n{told}")
    return passed, failed


def text_of(*path):
    with open(os.path.join(ROOT, *path), encoding="utf-8") as file:
        return file.read()


def library_lines():
    """Whether the lines of code in README.md, of each language, are those of its example."""
    section = re.split(r"^## ", text_of("README.md").partition("## As a library")[2], flags=re.M)[0]
    language = None
    for line in BLOCK.search(section)[2].splitlines():
        language = line.split()[0] if line[0] != " " else language
        code = line.removeprefix(language).strip()
        is_there = code in text_of("bindings", *EXAMPLES[language])
        if not is_there:
            print(f"FAILED: README.md: no line of the example for {language}: {code}")
        yield is_there


def main():
    words = sys.argv[1:]
    mode = words.pop(0) if words[:1] in (["--try"], ["--real"]) else None
    program = os.path.realpath(words[0] if words else PROGRAM)
    if mode != "--real" and not os.access(program, os.X_OK):
        sys.exit(f"{program} is no program")
    os.umask(0o022)
    lines = list(library_lines())
    passed, failed = lines.count(True), lines.count(False)
    with tempfile.TemporaryDirectory() as folder:
        place = Place(folder, program, mode)
        runs = [(name, place.top, list(blocks_of_page(text_of(name))))
                for name in PAGES]
        for path in sorted(glob.glob(os.path.join(ROOT, "docs", "*.[157]"))):
            page = os.path.basename(path)
            where = os.path.join(folder, page)
            os.makedirs(os.path.join(where, "tree", "etc"))
            name = os.path.join(where, "tree", "etc", "hostname")
            with open(name, "w", encoding="ascii") as file:
                file.write("box\n")
            runs.append((page, where, list(blocks_of_manual(text_of("docs", page)))))
        for name, where, blocks in runs:
            good, bad = run_blocks(place, where, name, blocks)
            passed += good
            failed += bad
    print(f"{passed} passed, {failed} failed")
    return 1 if failed or not passed else 0


sys.exit(main())
