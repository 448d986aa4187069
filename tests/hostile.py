#!/usr/bin/env python3
"""Runs the finished program on images, files, streams and limits that are made to do harm.

Usage: tests/hostile.py [PROGRAM]. Whatever it meets, its answer is right, or its status is 1 and standard error has the one line
of the fault that the manual page names; it is never ended by a signal. The last line is 'N passed, M failed'.
"""
import contextlib
import os
import re
import resource
import shutil
import signal
import subprocess
import sys
import threading

import compressed_images as packed
import decompress_model as opened
import hostile_images as images
import hostile_model as model
import hostile_rows as rows
import info_model
from groups import PROGRAM, ROOT, Done, run_all, verdict, write
from sentences import lines_of, sentence_of

NO_MEMORY = re.compile(
    rb"((?:left out .*\n)*)jffs2_image: (?:L3|C5|M7|P6|S5) OutOfMemory(?: line \d+)?\n"
    + re.escape(sentence_of("P6 OutOfMemory").encode())
)
NOTE = (
    b"jffs2_image: note: %d %s, see check --scan; "
    b"a wrong --block or --endian shows as findings too, see info\n"
)
CLASH = (
    "jffs2_image: note: the nodes at {} and {} differ; "
    "decompress --clashes higher keeps that of the highest address\n"
)
UNPAIRED = b"jffs2_image: note: two nodes differ; decompress --clashes higher keeps that of the higher address\n"
BLOCK = b"jffs2_image: note: --block takes a multiple of 4 from 4096 to 4194304\n"
OUTPUT = lines_of("P5 Output").encode()
SIZES = 10
# A command is given up after so many seconds.
PATIENCE = 120


def limits(memory, closed, stack):
    """What is done in a new process before it becomes the program."""

    def prepare():
        for number in closed:
            os.close(number)
        if memory:
            resource.setrlimit(resource.RLIMIT_AS, (memory, memory))
        if stack:
            resource.setrlimit(resource.RLIMIT_STACK, (stack, stack))

    return prepare


def run(words, memory=None, closed=(), stack=None, **streams):
    """Runs the program in the present folder, with these of its standard streams closed, and what it does not say read."""
    streams = {"stdin": subprocess.DEVNULL, "stdout": subprocess.PIPE, "stderr": subprocess.PIPE, **streams}
    prepare = limits(memory, closed, stack)
    with subprocess.Popen([PROGRAM, *words], preexec_fn=prepare, **streams) as child:
        try:
            out, err = child.communicate(timeout=PATIENCE)
        except subprocess.TimeoutExpired:
            child.kill()
            out, err = child.communicate()
    return Done(child.returncode, out or b"", err or b"")


def read(name):
    if not os.path.isfile(name):
        return None
    with open(name, "rb") as file:
        return file.read()


def forget(name):
    with contextlib.suppress(FileNotFoundError):
        os.remove(name)


# ---- Little memory

LISTING = "".join(f"create 0644 /f{k}\npart /f{k} 0 data\n" for k in range(200))
MEMORY = (
    ["check", "--scan", "--block", "4194304", "many.img"],
    ["check", "many.img"],
    ["ls", "many.img"],
    ["damage", "broken.img"],
    ["cat", "large.img", "/large"],
    ["build", "--blocks", "200", "many.txt", "out.img"],
    ["build", "--blocks", "200", "creates.txt", "out.img"],
    ["append", "--blocks", "200", "many.img", "many.txt", "out.img"],
    ["extract", "some.img", "out.dir"],
    ["listing", "some.dir"],
    ["decompress", "packed.img", "out.img"],
    ["ls", "--decompress", "packed.img"],
    ["cat", "--decompress", "packed.img", "/p1"],
    ["extract", "--decompress", "packed.img", "out.dir"],
    ["append", "--decompress", "--blocks", "200", "packed.img", "many.txt", "out.img"],
)


def writes(words):
    return words[0] in ("build", "append", "decompress")


def below(top):
    """What stands in a folder: the bytes of each file, and of what is none no bytes."""
    if not os.path.isdir(top):
        return None
    paths = [os.path.join(folder, name) for folder, folders, names in os.walk(top) for name in [*folders, *names]]
    return {path: b"" if os.path.islink(path) else read(path) or b"" for path in paths}


def made_by(words):
    return read("out.img") if writes(words) else below("out.dir") if words[0] == "extract" else None


def tried(words, memory=None, **others):
    """What a command does, and what stands in the file or the folder that it makes."""
    forget("out.img")
    shutil.rmtree("out.dir", ignore_errors=True)
    done = run(words, memory, **others)
    return done, made_by(words)


def is_beginning(part, whole):
    if isinstance(part, dict):
        return whole is not None and all(path in whole and whole[path].startswith(data) for path, data in part.items())
    return part is None or whole is not None and whole.startswith(part)


def gives_up(done, made, right, wanted):
    """Whether a command says that memory ran out, behind a beginning of what it has to say and to write."""
    told = NO_MEMORY.fullmatch(done.err)
    is_said = done.status == 1 and told is not None and right.err.startswith(told[1])
    return is_said and right.out.startswith(done.out) and is_beginning(made, wanted)


def least(is_enough, low, high, step):
    """The least of the sizes from low to high, in steps, that is enough; high is."""
    while high - low > step:
        middle = (low + high) // 2 // step * step
        low, high = (low, middle) if is_enough(middle) else (middle, high)
    return high


def in_little_memory():
    """Each command at ten sizes of memory, from where the program begins at all to where the command ends well."""
    write("many.img", images.names(20000))
    write("large.img", images.large(256))
    write("broken.img", images.deep_damage(20, 2000)[0])
    write("many.txt", LISTING)
    write("data", bytes(20000))
    write("creates.txt", "".join(f"create 0644 /f{k:05}\n" for k in range(20000)))
    write("packed.img", packed.many(300))
    write("some.img", images.names(1000))
    os.mkdir("some.dir")
    for k in range(1000):
        write(f"some.dir/f{k}", b"")
    # (Below that it cannot be loaded.)
    begins = least(lambda size: run(["--version"], size).status in (0, 1), 1 << 20, 1 << 26, 4096)
    for words in MEMORY:
        right, wanted = tried(words)
        status = 3 if words[0] == "damage" else 0
        verdict(f"{words} with memory", right.status == status, right)
        enough = least(lambda size, words=words, status=status: tried(words, size)[0].status == status, begins, 1 << 30, 4096)
        refused = 0
        for k in range(SIZES):
            size = begins + (enough - begins) * k // (SIZES - 1)
            done, made = tried(words, size)
            refused += done.status != status
            is_right = (done, made) == (right, wanted) or gives_up(done, made, right, wanted)
            verdict(f"{words} in {size} bytes of memory", is_right, done)
        verdict(f"{words} needs memory", refused > 0)


# ---- Growths that are refused


def with_refused_growths():
    """Each command with each of its growths refused, one at a time."""
    if not shutil.which("cc"):
        print("left out: cc is missing, which builds tests/refuse.c")
        return
    shim = os.path.abspath("refuse.so")
    subprocess.run(["cc", "-O1", "-shared", "-fPIC", "-fno-builtin", "-o", shim, f"{ROOT}/tests/refuse.c", "-ldl"], check=True)
    write("small.img", images.sample())
    write("broken.img", images.deep_damage(5, 5)[0])
    write("packed.img", packed.sample())
    write("small.txt", "mkdir 0755 /d\ncreate 0644 /d/f\npart /d/f 0 data\nsymlink /s a\\x20b\nrename /d /e\n")
    write("data", b"data")
    small_folder("small.dir")
    for words in (
        ["check", "--scan", "small.img"],
        ["check", "small.img"],
        ["ls", "small.img"],
        ["damage", "broken.img"],
        ["cat", "small.img", "/a"],
        ["build", "--blocks", "2", "small.txt", "out.img"],
        ["append", "--blocks", "2", "small.img", "small.txt", "out.img"],
        ["extract", "small.img", "out.dir"],
        ["decompress", "packed.img", "out.img"],
        ["ls", "--decompress", "packed.img"],
        ["cat", "--decompress", "packed.img", "/zlib"],
        ["append", "--decompress", "--blocks", "2", "packed.img", "small.txt", "out.img"],
        ["extract", "--decompress", "packed.img", "out.dir"],
        ["listing", "small.dir"],
        ["--help"],
        ["paint"],
    ):
        refuse_each(shim, words)


def small_folder(top):
    """A folder with something of each kind, of which a name has a space, and one is left out."""
    os.makedirs(f"{top}/d")
    write(f"{top}/d/f", b"data")
    write(f"{top}/d/a b", b"more data")
    os.link(f"{top}/d/f", f"{top}/g")
    os.symlink("d/f", f"{top}/s")
    os.mkfifo(f"{top}/fifo")


def refuse_each(shim, words):
    settings = lambda number: {"env": {**os.environ, "LD_PRELOAD": shim, "REFUSE": str(number)}}
    right, wanted = tried(words)
    plain, _ = tried(words, **settings(0))
    refused, wrong = 0, 0
    for number in range(1, int(plain.err.split()[-1]) + 1):
        done, made = tried(words, **settings(number))
        if gives_up(done, made, right, wanted) and (words[0] != "damage" or not done.out):
            refused += 1
        elif (done, made) != (right, wanted):
            wrong += 1
            verdict(f"{words} with growth {number} refused", False, done)
    verdict(f"{words} with its growths refused: {refused} told", refused > 0 and not wrong)


# ---- Streams that are closed, full, or have no reader


def without_reader(words, **others):
    """Runs a command whose standard output is a pipe that nobody reads."""
    end, start = os.pipe()
    os.close(end)
    try:
        return run(words, stdout=start, **others)
    finally:
        os.close(start)


HELP = (["--help"], ["check", "--help"])
PRINTING = (
    ["check", "small.img"],
    ["check", "--scan", "small.img"],
    ["ls", "small.img"],
    ["cat", "small.img", "/a"],
    ["ls", "--decompress", "packed.img"],
    ["cat", "--decompress", "packed.img", "/lzo"],
)
WRITING = (
    ["build", "--blocks", "2", "small.txt", "out.img"],
    ["append", "--blocks", "2", "small.img", "small.txt", "out.img"],
    ["append", "--decompress", "--blocks", "2", "packed.img", "small.txt", "out.img"],
    ["decompress", "packed.img", "out.img"],
)


def on_bad_streams():
    """Standard output that takes nothing is a fault; what becomes of standard error changes no status and no byte."""
    for words in (*HELP, *PRINTING, *WRITING):
        right, wanted = tried(words)
        with open("/dev/full", "wb") as full:
            for about, others in (("closed", {"closed": [1]}), ("full", {"stdout": full})):
                done, made = tried(words, **others)
                verdict(f"{words} with standard output {about}", (done, made) == (Done(1, b"", OUTPUT), wanted), done)
            for about, others in (("closed", {"closed": [2]}), ("full", {"stderr": full})):
                done, made = tried(words, **others)
                verdict(f"{words} with standard error {about}", (done, made) == (right._replace(err=b""), wanted), done)
        for closed in ([0], [0, 2]):
            done, made = tried(words, closed=closed)
            verdict(f"{words} with {closed} closed", (done.status, done.out, made) == (0, right.out, wanted), done)
        for closed in ([0, 1], [1, 2], [0, 1, 2]):
            done, made = tried(words, closed=closed)
            verdict(f"{words} with {closed} closed", (done.status, done.out, made) == (1, b"", wanted), done)
        pipe_without_reader(words, wanted)


def pipe_without_reader(words, wanted):
    """A pipe without a reader is a fault as any other, whether the signal of it is ignored or not."""
    for is_ignored in (False, True):
        forget("out.img")
        done = without_reader(words, restore_signals=not is_ignored)
        verdict(f"{words} into a pipe without reader", done == Done(1, b"", OUTPUT), done)
        verdict(f"what {words} made", read("out.img") == wanted)


# ---- Files that are none


def fed(name, data):
    """Writes into a FIFO beside the program."""
    os.mkfifo(name)
    feeder = threading.Thread(target=write, args=(name, data), daemon=True)
    feeder.start()
    return feeder


def through_fifos():
    """FIFOs in place of each file: the same answers."""
    for words in (*PRINTING, *WRITING):
        right, wanted = tried(words)
        for place, name in enumerate(words):
            if name in ("small.img", "packed.img", "small.txt"):
                feeder = fed("fifo", read(name))
                done, made = tried([*words[:place], "fifo", *words[place + 1 :]])
                verdict(f"{words} with a FIFO as {name}", (done, made) == (right, wanted), done)
                feeder.join(PATIENCE)
                os.remove("fifo")
    write("part.txt", "create 0644 /a\npart /a 0 fifo\ncreate 0644 /b\npart /b 0 fifo\n")
    feeder = fed("fifo", b"once")
    done = run(["build", "--blocks", "1", "part.txt", "out.img"])
    both = [run(["cat", "out.img", path]).out for path in ("/a", "/b")]
    verdict("a FIFO that a listing names twice", done.status == 0 and both == [b"once", b"once"], done)
    feeder.join(PATIENCE)
    os.remove("fifo")
    into_fifo()


def into_fifo():
    """OUT is a FIFO: its reader gets the image; where the reader goes away, that is a fault."""
    write("large.txt", LISTING)
    write("many.packed", packed.many(30))
    for words in WRITING:
        write("data", b"data")
        _, wanted = tried(words)
        done, got = read_by(lambda file: file.read(), [*words[:-1], "fifo"])
        verdict(f"{words} into a FIFO", done.status == 0 and got == [wanted], done)
        write("data", bytes(20000))
        others = {"small.txt": "large.txt", "2": "100", "out.img": "fifo", "packed.img": "many.packed"}
        done, _ = read_by(lambda file: None, [others.get(word, word) for word in words])
        is_told = re.fullmatch(rb"jffs2_image: S4 Sink( line \d+)?\n", done.err)
        verdict(f"{words} into a FIFO without reader", done.status == 1 and is_told, done)


def read_by(reading, words):
    """Runs a command with a FIFO whose reader does this and closes it; what that gave comes behind what the command did."""
    got = []

    def read_fifo():
        with open("fifo", "rb") as file:
            got.append(reading(file))

    os.mkfifo("fifo")
    reader = threading.Thread(target=read_fifo, daemon=True)
    reader.start()
    done = run(words)
    reader.join(PATIENCE)
    os.remove("fifo")
    return done, got


def fault(text):
    """What a fault gives, with its note: M4 names the method, and M5 both nodes where they are told."""
    text, _, lower = text.partition(" with ")
    note = CLASH.format(lower, text[-8:]).encode() if lower else BLOCK if text.startswith(("C1 ", "M1 ")) else b""
    if text.startswith("M5 ") and not lower:
        note = UNPAIRED
    if text.startswith("M4 "):
        note = opened.method_note(int(text.split()[-1])).encode()
    return Done(1, b"", lines_of(text).encode() + note)


NOWHERE = b"d 0755 0 0 0 0 1 /\n"


def readings(name):
    """The commands that read a file of this name, as image or as listing."""
    yield from (["check", name], ["ls", name], ["cat", name, "/a"], ["build", "--blocks", "2", name, "out.img"])
    yield ["append", "--blocks", "2", name, "small.txt", "out.img"]
    yield ["append", "--blocks", "2", "small.img", name, "out.img"]
    yield from (["decompress", name, "out.img"], ["ls", "--decompress", name])


def on_devices():
    """Devices, and names that lead nowhere, in place of files."""
    # The first byte of the second one cannot be read.
    unread = "L1 Device\njffs2_image: note: /proc/self/mem: was not read to its end"
    for device, told in (("/dev/zero", "L2 TooLarge"), ("/proc/self/mem", unread)):
        for words in readings(device):
            done, made = tried(words)
            verdict(f"{words}", (done, made) == (fault(told), None), done)
    os.symlink("loop", "loop")
    os.symlink("nowhere/file", "nowhere.link")
    refused = {
        "loop": "too many symbolic links",
        "nowhere.link": "no such file",
        "small.img/file": "a part of the path is no directory",
        "x" * 5000: "no file can have this name",
        "y" * 256: "no file can have this name",
    }
    for name, why in refused.items():
        makings = ["build", "--blocks", "2", "small.txt", name], ["decompress", "small.img", name]
        for words in (*readings(name), *makings):
            done = run(words)
            verdict(f"{words[0]} of {name[:20]}", done == fault(f"P1 File {name}\njffs2_image: note: {name}: {why}"), done)
    null = "/dev/null"
    for words, out in (
        (["ls", null], NOWHERE),
        (["check", null], b"total blocks 0 entries 0 inodes 0 findings 0\nmount ok\n"),
        (["build", "--blocks", "2", null, null], b"accepted 0 nodes 0 bytes 0\n"),
        (["build", "--blocks", "2", "one.txt", null], b"accepted 1 nodes 2 bytes 124\n"),
        (["append", "--blocks", "2", null, "one.txt", null], b"accepted 1 nodes 2 bytes 124\n"),
        (["decompress", null, null], b"decompressed 0 nodes 0 bytes 0\n"),
        (["ls", "--decompress", null], NOWHERE),
    ):
        write("one.txt", "create 0644 /a\n")
        done = run(words)
        verdict(f"{words}", done == Done(0, out, b""), done)


TWICE = (
    (["append", "--blocks", "2", "copy", "small.txt", "other"], "small.img"),
    (["append", "--blocks", "2", "small.img", "copy", "other"], "small.txt"),
    (["build", "--blocks", "2", "copy", "other"], "small.txt"),
    (["decompress", "copy", "other"], "packed.img"),
)


def one_file_twice():
    """OUT is also the image, the listing, or a file that the listing names, by another name: all is read before it is made."""
    for link in (os.link, os.symlink):
        for words, name in TWICE:
            apart = {"copy": name, "other": "out.img"}
            _, wanted = tried([apart.get(word, word) for word in words])
            write("copy", read(name))
            link("copy", "other")
            done = run(words)
            verdict(f"{words} by {link.__name__}", done.status == 0 and read("copy") == wanted, done)
            forget("other")
            forget("copy")
    write("part.txt", "create 0644 /a\npart /a 0 copy\n")
    write("copy", b"bytes")
    done = run(["build", "--blocks", "1", "part.txt", "copy"])
    verdict("a part that is OUT", done.status == 0 and run(["cat", "copy", "/a"]).out == b"bytes", done)


# ---- Images

GREAT = (
    (images.names, 100000, 100001),
    (images.depths, 1000, 1001),
    (images.circles, 1000, 3001),
    (images.rising, 100000, 2),
    (images.falling, 100000, 2),
    (images.shuffled, 100000, 2),
    (images.nested, 100000, 2),
    (images.striped, 100000, 2),
)


def does(about, words, wanted):
    """A command that ends so."""
    done = run(words)
    verdict(f"{words[0]}: {about}", done == wanted, done)


def extends(about, words, lines, wanted):
    """Operations onto an image that end so, one fault or a line."""
    write("more.txt", "".join(f"{line}\n" for line in lines))
    does(f"{about}, {lines[0][:60]}", ["append", *words, "more.txt", "out.img"], wanted)


def accepted(count, nodes, size):
    return Done(0, f"accepted {count} nodes {nodes} bytes {size}\n".encode(), b"")


def refused(why):
    return fault(f"S1 Refused {why} line 1")


FOUND, NOT_FOUND = fault("P4 NotRegular"), fault("P3 Path NotFound")


def more_of_names(count):
    """Names in the order of their bytes; the first and the last are found, and their versions go on."""
    lines = "".join(f"- 0644 0 0 0 0 2 /{number:06}\n" for number in range(count))
    does(f"{count} names", ["ls", "great.img"], Done(0, (rows.ROOT + lines).encode(), b""))
    for number, wanted in ((0, Done(0, b"", b"")), (count - 1, Done(0, b"", b"")), (count, NOT_FOUND)):
        does(f"name {number} of {count}", ["cat", "great.img", f"/{number:06}"], wanted)
    extends(f"{count} names", ["--blocks", "80", "great.img"], ["create 0644 /new"], accepted(1, 2, 124))
    done = run(["check", "--scan", "out.img"])
    verdict("the next version of a name", b" pino 1 version %d ino 3 type 8 name new\n" % (count + 1) in done.out, done)


def more_of_depths(count):
    """Directories in one another: the last one is found, the first not put below it, and only the last is removed."""
    bottom = "/d" * count
    for path, wanted in ((bottom, FOUND), (bottom + "/x", NOT_FOUND)):
        does(f"{len(path)} bytes of a path", ["cat", "great.img", path], wanted)
    for line, wanted in (
        (f"rename /d {bottom}/x", refused("O8 IntoItself")),
        ("remove " + "/d" * (count // 2), refused("O7 NotEmpty")),
        (f"remove {bottom}", accepted(1, 1, 56)),
    ):
        extends(f"{count} directories", ["--blocks", "64", "great.img"], [line], wanted)


def more_of_versions(count):
    """Versions of one range: the last one's bytes, and versions go on."""
    does("the last version", ["cat", "great.img", "/a"], Done(0, b"%04x" % (count - 1 & 0xFFFF), b""))
    extends(f"{count} versions", ["--blocks", "200", "great.img"], ["write /a 0 00"], accepted(1, 1, 84))
    done = run(["check", "--scan", "out.img"])
    verdict("the next version", b" ino 2 version %d mode 100644 size 4 offset 0 data 1 none\n" % (count + 1) in done.out, done)


MORE = {
    images.names: more_of_names,
    images.depths: more_of_depths,
    images.rising: more_of_versions,
    images.falling: more_of_versions,
    images.shuffled: more_of_versions,
}


def on_images():
    """Great numbers, and what no producer writes."""
    for make, count, lines in GREAT:
        write("great.img", make(count))
        listed, checked = run(["ls", "great.img"], stack=1 << 19), run(["check", "great.img"], stack=1 << 19)
        is_listed = listed.status == 0 and listed.out.count(b"\n") == lines and not listed.err
        verdict(f"ls of {count} {make.__name__}", is_listed, listed)
        is_checked = checked.status == 0 and checked.out.endswith(b"findings 0\nmount ok\n")
        verdict(f"check of {count} {make.__name__}", is_checked, checked)
        MORE.get(make, lambda count: None)(count)
    for number, image in enumerate((*images.turned(images.sample()), *images.soups(200, 20), *images.soups(30, 120), images.circles(40))):
        on_any(number, image)


def on_any(number, image):
    """Whatever the image is, each command says what the rules say."""
    write("any.img", image)
    for size in (65536, 4096):
        lines, status = model.check(image, size)
        done = run(["check", "--block", str(size), "any.img"])
        verdict(f"check of image {number} in blocks of {size}", done == Done(status, text(lines), b""), done)
    lines, refused, findings = model.ls(image)
    note = notes_read(image, findings)
    done = run(["ls", "any.img"])
    wanted = refusal(refused) if refused else Done(0, text(lines), note)
    verdict(f"ls of image {number}", done == wanted, done)
    for name in (b"a", b"b"):
        content, why = model.cat(image, name)
        done = run(["cat", "any.img", f"/{name.decode()}"])
        lacks = model.missing_note(model.missing(image, name), findings)
        wanted = refusal(why) if why else Done(0, content, lacks + note)
        verdict(f"cat of image {number}", done == wanted, done)
        done = run(["cat", "--strict", "any.img", f"/{name.decode()}"])
        verdict(f"cat --strict of image {number}", done == wanted._replace(status=3 if lacks and not why else wanted.status), done)
    done = run(["check", "--scan", "any.img"])
    verdict(f"check --scan of image {number}", done.status in (0, 3) and not done.err, done)
    goes_on(number, lines, refused, notes_on(image, findings))


def goes_on(number, lines, refused, note):
    """A file is made in the image, unless that is refused: what was listed stays, the file is listed, and findings are noted."""
    write("one.txt", "create 0644 /new\n")
    done, made = tried(["append", "--blocks", "2", "any.img", "one.txt", "out.img"])
    if done.status == 0:
        after, _, _ = model.ls(made)
        is_right = [line for line in after if not line.endswith(" /new")] == lines and len(after) == len(lines) + 1
        verdict(f"append to image {number}", is_right and run(["ls", "out.img"]).out == text(after) and done.err == note, done)
    else:
        told = [refusal(why) for why in (refused, "S3 ReadOnly", "S1 Refused O12 Exhausted line 1")]
        verdict(f"append to image {number}", done in told, done)


def findings_note(count):
    return NOTE % (count, b"finding" if count == 1 else b"findings") if count else b""


def left_note(count):
    """The note on so many nodes of extended attributes that are left out."""
    return b"jffs2_image: note: nodes of extended attributes, which are left out: %d\n" % count if count else b""


def notes_on(image, count, size=65536, order="<"):
    """The notes of `append` on an image with so many findings."""
    bare = opened.has_no_node(image, size, order)
    return findings_note(count) + (opened.others_note(image, size, order).encode() if bare else b"")


def notes_read(image, count, size=65536, order="<"):
    """The notes of `ls` and `cat`, which name the options that the image shows."""
    notes = notes_on(image, count, size, order)
    return notes + info_model.hint(image, size, order).encode() if notes else b""


def refusal(why):
    """The fault of an image that does not mount."""
    return fault(why or "")


def text(lines):
    return "".join(f"{line}\n" for line in lines).encode()


# ---- Small images in both orders


def makers():
    """Each order, what makes its nodes, and what makes those of the other one."""
    little, big = (packed.Maker(sign) for sign in packed.ORDERS.values())
    yield from ((["--endian", "little"], little, big), (["--endian", "big"], big, little))


def in_circles():
    """Directories that hold themselves and the root: paths through them, refusals, and what is made by such ways."""
    for order, make, _ in makers():
        write("any.img", rows.circle(make))
        about, onto = f"a circle, {order[1]}", [*order, "--block", "8192", "--blocks", "2", "any.img"]
        does(about, ["ls", *order, "any.img"], Done(0, rows.CIRCLE_LINES.encode(), b""))
        for path in (*rows.CIRCLE_DIRECTORIES, "/d/y/y/x/y"):
            does(f"{about}, {path}", ["cat", *order, "any.img", path], FOUND if path in rows.CIRCLE_DIRECTORIES else NOT_FOUND)
        for line, why in rows.CIRCLE_REFUSALS:
            extends(about, onto, [line], refused(why))
        extends(about, onto, ["create 0600 /d/y/y/f", "rename /d/x/d/f /d/x/g"], accepted(2, 4, 212))
        made = rows.CIRCLE_LINES + "- 0600 0 0 0 0 3 /g\n"
        does(f"{about}, more", ["ls", *order, "--block", "8192", "out.img"], Done(0, made.encode(), b""))
        # A path of 100,000 names.
        extends(about, onto, ["create 0600 " + "/d/x" * 50000 + "/g"], accepted(1, 2, 124))
        does(f"{about}, by a long path", ["ls", *order, "--block", "8192", "out.img"], Done(0, made.encode(), b""))


def on_lengths():
    """A header of any length at each place: a node is there exactly where it holds the header and ends in its block."""
    all_of_them = list(rows.lengths())
    for order, make, _ in makers():
        words = ["check", "--block", str(rows.BLOCK), *order, "any.img"]
        image = b"".join(rows.lone_header(make, *row).ljust(rows.BLOCK, b"\xff") for row in all_of_them)
        lines, status = rows.lone_report(all_of_them)
        write("any.img", image)
        does(f"headers, {order[1]}", words, Done(status, lines.encode(), b""))
        # An image that ends behind the header: one length of each place in turn, and those that wrap around.
        for row in [*all_of_them[:6132][::7], *all_of_them[6132:]]:
            lines, status = rows.lone_report([row])
            write("any.img", rows.lone_header(make, *row))
            does(f"a header {row}, {order[1]}", words, Done(status, lines.encode(), b""))


def with_each_byte_changed():
    """Each byte of a small image changed to each other value: what stands without the node that holds it, and a file more."""
    for order, make, _ in makers():
        words = [*order, "--block", str(rows.CHANGED_BLOCK)]
        for at in range(rows.PARTS[-1][0]):
            about = f"byte {at} changed, {order[1]}"
            image, (report, _, found, noted) = rows.changed(make, at)
            lines, content = rows.changed_lines(at)
            note = notes_read(image, noted, rows.CHANGED_BLOCK, packed.ORDERS[order[1]])
            write("any.img", image)
            does(about, ["ls", *words, "any.img"], Done(0, lines.encode(), note))
            wanted = NOT_FOUND if content is None else Done(0, content, note)
            does(about, ["cat", *words, "any.img", f"/{at + 1:02x}"], wanted)
            done = run(["check", *words, "any.img"])
            is_right = done.status == (3 if found else 0) and done.out.endswith(f"{report[-1]}\nmount ok\n".encode())
            verdict(f"check: {about}", is_right and not done.err, done)
            extends(about, [*words, "--blocks", "256", "any.img"], ["create 0600 /zz"], accepted(1, 2, 124)._replace(err=note))
            made = lines + "- 0600 0 0 0 0 257 /zz\n"
            does(f"{about}, more", ["ls", *words, "out.img"], Done(0, made.encode(), note))


def in_every_order():
    """The nodes of a file in every order: the same tree and content."""
    for order, make, _ in makers():
        write("any.img", make.laid(rows.orders(make), marked=False))
        does("six nodes in every order", ["ls", *order, "any.img"], Done(0, rows.ORDERS_LINES.encode(), b""))
        done = run(["check", *order, "any.img"])
        verdict("check: six nodes in every order", done.status == 0 and done.out.endswith(b" findings 0\nmount ok\n"), done)
        for number in range(720):
            does(f"order {number}, {order[1]}", ["cat", *order, "any.img", f"/{number:03}"], Done(0, rows.ORDERS_LEFT, b""))


def on_rows():
    """Worked images: the report, the tree, why one does not mount, and what is noted."""
    for order, make, other in makers():
        words = [*order, "--block", "4096", "any.img"]
        for image, lines in rows.reports(make, other):
            write("any.img", image)
            status = 0 if " findings 0\n" in lines else 3
            does(f"a worked report, {order[1]}", ["check", "--scan", *words], Done(status, lines.encode(), b""))
        for nodes, lines in rows.trees(make):
            write("any.img", rows.joined(nodes))
            does(f"a worked tree, {order[1]}", ["ls", *order, "any.img"], Done(0, lines.encode(), b""))
        for image, why in rows.unmounted(make):
            write("any.img", image)
            for command in (["ls", *words], ["cat", *words, "/a"]):
                does(f"{why}, {order[1]}", command, fault(why))
            done = run(["check", *words])
            is_right = done.status == 3 and done.out.endswith(f" findings 0\nmount refused {why.partition(' with ')[0]}\n".encode())
            verdict(f"check: {why}, {order[1]}", is_right and not done.err, done)
        for front, count in rows.with_findings(make, other):
            image = front + rows.joined([rows.node(make, 2, packed.FILE), rows.entry(make, 1, 2, b"a")])
            write("any.img", image)
            lines, note = rows.ROOT + "- 0644 0 0 0 0 2 /a\n", notes_read(image, count, 4096, packed.ORDERS[order[1]])
            does(f"{count} findings, {order[1]}", ["ls", *words], Done(0, lines.encode(), note))
            does(f"{count} findings, {order[1]}", ["cat", *words, "/a"], Done(0, b"", note))


# ---- Compressed images


def on_compressed():
    """Compressed nodes in both orders: what they stand for, or the fault of least address."""
    for order, sign in packed.ORDERS.items():
        make = packed.Maker(sign)
        for about, image in packed.images_of(make):
            on_converted(about, image, 8192, order)
        for number, image in enumerate(packed.soups(60, 30, make, order)):
            on_converted(f"soup {number}", image, (8192, 65536)[number % 2], order)
        at_block_ends(make, order)
        for about, image in packed.large(make):
            on_converted(about, image, 262144, order)
    full = fault(f"S2 Full needed {4097 * 60068} free {4096 * 65524}")
    told = f"decompressed 4096 nodes 4096 bytes {4095 * 65536 + 60080}\n"
    for count, wanted in ((4096, Done(0, told.encode(), b"")), (4097, full)):
        write("any.img", packed.bomb(count))
        done = run(["decompress", "any.img", "/dev/null"])
        verdict(f"{count} nodes of a block each", done == wanted, done)


def at_block_ends(make, order):
    """The longest nodes that a block holds beside its marker, and those of a byte more."""
    for block, length in ((8192, 8192), (65536, 65536)):
        for about, image in packed.longest(make, length):
            on_converted(about, image, block, order)


def on_converted(about, image, size, order):
    """`decompress`, and each command with --decompress, by the rules."""
    write("any.img", image)
    about, sign = f"{about}, {order}, blocks of {size}", packed.ORDERS[order]
    words = ["--block", str(size), "--endian", order]
    result, _ = opened.decompress(image, size, sign)
    made_of, why = opened.command(image, size, sign)
    report, found, _, count = model.report(image, size, sign)
    left = left_note(sum(line.split(" ")[1] == "attribute" for line in report))
    note = notes_on(image, count, size, sign) + left
    done, made = tried(["decompress", *words, "any.img", "out.img"])
    if why == "I1 NoNodes":
        wanted = Done(1, b"", f"jffs2_image: {why}\n{opened.others_note(image, size, sign)}".encode())
        verdict(f"decompress of {about}", (done, made) == (wanted, None), done)
    elif why:
        verdict(f"decompress of {about}", (done, made) == (fault(why), None), done)
    else:
        wanted = Done(3 if count or left else 0, text([opened.line_of(made_of)]), note)
        verdict(f"decompress of {about}", (done, made) == (wanted, made_of.image), done)
    plain = model.refusal(found)
    done = run(["ls", *words, "any.img"])
    verdict(f"ls of {about}", done == refusal(plain) or not plain and done.status == 0, done)
    lines, why = opened.ls(image, size, sign)
    done = run(["ls", "--decompress", *words, "any.img"])
    shown = notes_read(image, count, size, sign)
    wanted = fault(why) if why else Done(0, text(lines), shown)
    verdict(f"ls --decompress of {about}", done == wanted, done)
    for name in [line.split(" ")[7][1:] for line in lines if line[0] == "-"][:3] or ["a"]:
        content, refused = opened.cat(image, name.encode(), size, sign)
        done = run(["cat", "--decompress", *words, "any.img", f"/{name}"])
        if "/" not in name:
            lacks = model.missing_note(opened.missing(image, name.encode(), size, sign), count)
            wanted = fault(refused) if refused else Done(0, content, lacks + shown)
            verdict(f"cat --decompress of /{name} in {about}", done == wanted, done)
    lines, why = opened.converted(image, size, sign)
    converted_goes_on(about, words, (lines, why, Done(3 if left else 0, b"accepted 1 nodes 2 bytes 124\n", note)), (result, size, sign))


def converted_goes_on(about, words, listed, converted):
    """A file is made behind what was decompressed: that stays, byte for byte, and in the tree."""
    lines, why, wanted = listed
    result, size, sign = converted
    write("one.txt", "create 0644 /new\n")
    named = ["any.img", "one.txt", "out.img"]
    done, made = tried(["append", "--decompress", *words, "--blocks", "64", *named])
    if why:
        verdict(f"append --decompress to {about}", (done, made) == (fault(why), None), done)
        return
    after, _, _ = model.ls(made or b"", size, sign)
    is_right = [line for line in after if not line.endswith(" /new")] == lines
    is_right = is_right and len(after) == len(lines) + 1 and made.startswith(result.image)
    verdict(f"append --decompress to {about}", is_right and done == wanted, done)


def of_what_lies_deep():
    """The lines of 400 damaged nodes of a file below 400 directories, 40 MB in all, from an image of 170 KB in 16 MiB."""
    image, lines = images.deep_damage(400, 400)
    write("deep.img", image)
    done = run(["damage", "deep.img"], 1 << 24)
    is_right = done == Done(3, b"".join(lines), notes_read(image, 400))
    verdict("damage of what lies deep in 16 MiB", is_right, done._replace(out=done.out[:200]))


def from_the_longest_file():
    """A file of 4 GiB comes out whole in little memory, and `cat` ends where its reader does; it is cut only to a size that is
    written."""
    write("longest.img", images.longest())
    extends("the longest file", ["--blocks", "2", "longest.img"], ["truncate /a 2147483648"], refused("O9 TooLarge"))
    extends("the longest file", ["--blocks", "2", "longest.img"], ["truncate /a 2147483647", "truncate /a 0"], accepted(2, 2, 148))
    words = [PROGRAM, "cat", "longest.img", "/a"]
    with subprocess.Popen(words, stdout=subprocess.PIPE, stderr=subprocess.PIPE, preexec_fn=limits(1 << 24, (), None)) as child:
        first, count, zeros = child.stdout.read(1), 1, bytes(1 << 20)
        while piece := child.stdout.read(1 << 20):
            count += len(piece) if piece == zeros[: len(piece)] else 1 << 40
        err = child.stderr.read()
    done = Done(child.returncode, b"%d" % count, err)
    verdict("the longest file in 16 MiB", first == b"x" and done == Done(0, b"%d" % images.LONGEST, b""), done)
    with subprocess.Popen(words, stdout=subprocess.PIPE, stderr=subprocess.PIPE, restore_signals=False) as child:
        child.stdout.read(1 << 20)
        child.stdout.close()
        err = child.stderr.read()
    verdict("the longest file to a reader who leaves", (child.returncode, err) == (1, OUTPUT), Done(child.returncode, b"", err))


GROUPS = (
    in_little_memory,
    with_refused_growths,
    on_bad_streams,
    through_fifos,
    on_devices,
    one_file_twice,
    on_images,
    in_circles,
    on_lengths,
    with_each_byte_changed,
    in_every_order,
    on_rows,
    on_compressed,
    of_what_lies_deep,
    from_the_longest_file,
)


def main():
    resource.setrlimit(resource.RLIMIT_CORE, (0, 0))
    signal.signal(signal.SIGPIPE, signal.SIG_IGN)
    return run_all(GROUPS)


if __name__ == "__main__":
    sys.exit(main())
