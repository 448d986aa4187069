#!/usr/bin/env python3
"""Boots Linux, lets its JFFS2 write and mount images, and compares what it shows with what the program shows: see linux.sh."""
import collections
import glob
import os
import random
import re
import stat
import subprocess
import sys

import folders
import tree
import writing
from judging import ended, produce, run, test
from listing import Parts

sys.path.append(os.path.dirname(os.path.dirname(os.path.abspath(__file__))))
import decompress_model as model  # noqa: E402

KERNEL = sys.argv[2]
MODULES = ("virtio_pci", "virtio_blk", "jffs2")
LATER = ("mtdram", "nandsim")
HERE = os.path.dirname(os.path.abspath(__file__))
FLASH = ["--block", "65536", "--blocks", "128"]
LARGER_FLASH = ["--block", "65536", "--blocks", "512"]
SECONDS = int(os.environ.get("BOOT_SECONDS", "1800"))
AGAIN = " (again)"
LIVE = ("planted", "churned", "nand", "packed_zlib", ".more")
PACKED = ("packed_planted", "packed_churned", "packed_zlib", "packed_nand")
STEPS = """time 1500000000
mkdir 0755 /d
mkdir 0700 /d/e
create 0644 /d/f
part /d/f 0 bytes
link /d/f /g
symlink /way d/f
time 1600000000
write /d/f 4000 6162636465
truncate /d/f 3000
truncate /g 9000
rename /d/f /d/e/h
attr 0640 5 6 1 2 /g
create 0600 /gone
write /gone 0 61
remove /gone
rename /d/e /e
rename /e /d/e
attr 0711 7 8 3 4 /d
rename /d /shifted
"""


def version():
    """The newest kernel of the folder."""
    return max(path.split("/")[-4] for path in glob.glob(os.path.join(KERNEL, "lib/modules/*/kernel/fs/jffs2")))


def modules():
    """Each module of the kernel by its name."""
    files = glob.glob(os.path.join(KERNEL, "lib/modules", version(), "kernel/**/*.ko"), recursive=True)
    return {os.path.basename(file)[:-3].replace("-", "_"): file for file in files}


def ordered(names, files, order):
    """The order with these modules added, each after those that it needs."""
    for name in names:
        with open(files[name], "rb") as file:
            needs = re.search(rb"\0depends=([^\0]*)\0", file.read())[1].decode()
        ordered(needs.split(",") if needs else [], files, order)
        if name not in order:
            order.append(name)
    return order


def first_files(place):
    """The archive with which Linux starts: the script, busybox and modules."""
    top, files = os.path.join(place, "first"), modules()
    os.makedirs(os.path.join(top, "modules"))
    order = [name for name in ordered(MODULES + LATER, files, []) if name not in LATER]
    with open(os.path.join(top, "modules/order"), "w") as file:
        file.write("\n".join(order) + "\n")
    for name in (*order, *LATER):
        subprocess.run(["cp", files[name], os.path.join(top, "modules", name + ".ko")], check=True)
    pack = 'mkdir bin && cp -L "$(command -v busybox)" bin/busybox && cp "$1" init && chmod +x init && find . | cpio -o -H newc --quiet > ../first.cpio'
    subprocess.run(["bash", "-c", pack, "bash", os.path.join(HERE, "linux.init")], check=True, cwd=top)
    return os.path.join(place, "first.cpio")


def boot(place, given, got):
    """Boots Linux with a folder that is given, and unpacks what it answers into another when it has powered off."""
    to_guest, from_guest, console = (os.path.join(place, name) for name in ("to-guest", "from-guest", "console"))
    subprocess.run(["tar", "-c", "-f", to_guest, "-C", given, "."], check=True)
    with open(from_guest, "wb") as file:
        file.truncate(1 << 30)
    drives = [word for disk in (to_guest, from_guest) for word in ("-drive", f"file={disk},format=raw,if=virtio")]
    with open(console, "wb") as out:
        subprocess.run(["qemu-system-x86_64", "-accel", "tcg", "-smp", "1", "-m", "1536", "-nographic", "-no-reboot", "-nic", "none", *drives,
                        "-kernel", os.path.join(KERNEL, "boot/vmlinuz-" + version()), "-initrd", first_files(place),
                        "-append", "console=ttyS0 panic=-1 quiet"],
                       stdin=subprocess.DEVNULL, stdout=out, stderr=out, timeout=SECONDS, check=True)
    os.mkdir(got)
    subprocess.run(["tar", "-x", "-f", from_guest, "-C", got], check=True)


def written(what, command, listing, *words, place):
    """Writes an image, and tests that all was accepted."""
    with open(os.path.join(place, "lines"), "w") as file:
        file.write(listing)
    status, _, errors = run(command, *words[:-1], "lines", words[-1], place=place)
    test(f"{what}: {command}", [] if status == 0 else [f"status {status}: {errors}"])
    os.remove(os.path.join(place, "lines"))


def text(count):
    """Bytes of which about a half can be compressed: words, runs, noise."""
    pick, found = random.Random(5), b""
    while len(found) < count:
        words = b" ".join(pick.choices((b"flash", b"node", b"erase", b"block", b"entry", b"log"), k=300))
        found += words + bytes((pick.randrange(256),)) * 300 + pick.randbytes(1500)
    return found[:count]


def cut(given):
    """Images of STEPS that end at each node and within each, as after a power failure."""
    image = os.path.join(given, "built-steps.img")
    written("steps", "build", STEPS, *FLASH, image, place=given)
    with open(image, "rb") as file:
        data = file.read()
    report = run("check", "--scan", image)[1].decode()
    nodes = [(int(line[:8], 16), int(line.split(" ")[2])) for line in report.splitlines() if re.match("[0-9a-f]{8} (entry|inode) ", line)]
    for end in sorted({place for start, length in nodes for place in (start, start + length // 2, start + length - 3)}):
        tree.write(os.path.join(given, f"cut-{end:06}.img"), data[:end])


def inputs(place, given):
    """What is given to Linux: random bytes, images, and that it is to write. The folders that the images were built of, by the names of these."""
    for name, count in (("random", 250000), ("bytes", 9000), ("write", 0)):
        tree.write(os.path.join(given, name), random.Random(3).randbytes(count))
    tree.write(os.path.join(given, "text"), text(250000))
    cut(given)
    folder = os.path.join(place, "folder").encode()
    os.mkdir(folder)
    tree.make(folder)
    os.remove(os.path.join(folder, b"kinds/s"))  # the guest's tar has no sockets
    os.mkdir(os.path.join(folder, b"dated"))
    tree.write(os.path.join(folder, b"dated/text"), text(20000))
    for name, time in ((b"dated/older", 1000), (b"dated/newer", 2000), (b"dated", 3000), (b"", 1234567890)):
        if name.startswith(b"dated/"):
            tree.write(os.path.join(folder, name), b"x")
        os.utime(os.path.join(folder, name), (time, time))
    changed = writing.copied(folder, b"changed")
    listing = run("listing", "--quiet", folder.decode())[1].decode()
    built = os.path.join(given, "built.img")
    written("built", "build", listing, *FLASH, built, place=place)
    written("built-16384", "build", listing, *FLASH, "--page", "16384", os.path.join(given, "built-16384.img"), place=place)
    squeezed = os.path.join(given, "squeezed.img")
    status, told, errors = run("compress", *FLASH[:2], built, squeezed)
    print(f"squeezed: {told.decode().strip()} {errors}")
    test("squeezed: compress", [] if status == 0 and re.match(rb"compressed [1-9]", told) else [f"status {status}: {told} {errors}"])
    lines = "".join(line + "\n" for line in writing.change(changed, Parts(place)))
    written("appended", "append", lines, *FLASH, built, os.path.join(given, "appended.img"), place=place)
    produce(os.path.join(given, "mkfs.img"), folder, "-l", "-e", "64KiB")
    return {"built": folder, "built-16384": folder, "squeezed": folder}


def unpacked(tar):
    """The tree that Linux showed, as a folder."""
    folder = tar + ".tree"
    os.mkdir(folder)
    subprocess.run(["tar", "-x", "-p", "--warning=no-timestamp", "--same-owner", "--numeric-owner", "-f", tar, "-C", folder], check=True)
    return folder


def split_times(lines):
    """Lines of `ls` without the times of directories, and those times by path."""
    plain, times = [], {}
    for (front, path), number in lines:
        if front.startswith("d "):
            front, times[path.removesuffix(AGAIN)] = front.rsplit(" ", 1)
        plain.append(((front, path), number))
    return plain, times


def without_times(found):
    """Facts without the times of directories."""
    return {path: (*fact[:3], 0 if fact[0] == stat.S_IFDIR else fact[3], *fact[4:]) for path, fact in found.items()}


def by_path(lines):
    return sorted(lines, key=lambda line: line[0][1].split(" -> ")[0].split("/"))


def twice(lines):
    """Lines of `ls` with what lies in a directory that is there again by another name: Linux shows it there too."""
    found = []
    for (front, path), number in lines:
        if not path.endswith(AGAIN):
            found.append(((front, path), number))
            continue
        path = path.removesuffix(AGAIN)
        first = next(shown for (_, shown), other in lines if other == number)
        for (below_front, below), other in lines:
            if below == first or below.startswith(first + "/"):
                copy = path + below[len(first):]
                found.append(((below_front, copy), copy if below_front.startswith("d ") else other))
    return found


def field(data, address, offset):
    return int.from_bytes(data[address + offset:address + offset + 4], "little")


def linux_times(words, image, numbers):
    """The time that Linux shows of each directory: that of its newest inode node, or of its newest entry that has a time other than 0,
    whichever has the higher version; that of a root without a node is 0."""
    with open(image, "rb") as file:
        data = file.read()
    nodes, entries = {}, {}
    for line in run("check", "--scan", *words, image)[1].decode().splitlines():
        found = re.match("([0-9a-f]{8}) (inode|entry) [0-9]+ p?ino ([0-9]+) version ([0-9]+) ", line)
        if not found:
            continue
        address, number, version = int(found[1], 16), int(found[3]), int(found[4])
        newest, time = (nodes, field(data, address, 36)) if found[2] == "inode" else (entries, field(data, address, 24))
        if (time or newest is nodes) and version >= newest.get(number, (0, 0))[0]:
            newest[number] = (version, time)
    nothing = (0, 0)
    times = {path: max(nodes[number], entries.get(number, nothing), key=lambda newest: newest[0])[1] if number in nodes else 0 for path, number in numbers.items()}
    return {path: str(time) for path, time in times.items()}


def compare_tree(what, words, image, folder):
    """Compares `ls` of an image with a tree of Linux, but for the times of directories: those of Linux are compared with its rule.
    The directories that `ls` lists again, and whether a directory has another time in `ls`."""
    status, out, errors = run("ls", *words, image)
    squash, told = tree.Squash(), tree.listed(out.decode())
    wanted = [(squash.line(folder.encode(), "/"), os.stat(folder).st_ino), *tree.expected(folder.encode(), squash)[1:]]
    got, times = split_times(told)
    lines, shown = split_times(wanted)
    again = {path.removesuffix(AGAIN) for (_, path), _ in told if path.endswith(AGAIN)}
    faults = tree.differences(by_path(twice(got)), by_path(lines)) if again else tree.differences(got, lines)
    test(f"{what}: ls", faults if status == 0 else [f"status {status}: {errors}"])
    if what.endswith(LIVE):  # the time of a root without a node is in memory alone
        shown.pop("/")
    rule = linux_times(words, image, {path.removesuffix(AGAIN): number for (front, path), number in told if front.startswith("d ")})
    test(f"{what}: times of directories", [f"{path}: rule {rule[path]}, Linux {shown[path]}" for path in rule if rule[path] != shown.get(path, rule[path])])
    return again, any(times[path] != shown.get(path, times[path]) for path in times)


def opened(what, words, image):
    """What `decompress` makes of an image that Linux compressed, or nothing. What it prints, and what it writes of whole images, is
    compared with the model."""
    out = image + ".open"
    if os.path.exists(out):
        return out
    status, told, errors = run("decompress", *words, image, out)
    line = re.fullmatch(rb"decompressed (\d+) nodes (\d+) bytes (\d+)\n", told)
    print(f"{what}: {told.decode().strip()} {errors}")
    is_noted = all(" note: " in row and "finding" in row for row in errors.splitlines())
    fine = status == (3 if errors else 0) and line and is_noted and int(line[3]) == os.path.getsize(out)
    test(f"{what}: decompress", [] if fine else [f"status {status}: {told} {errors}"])
    if what in PACKED and fine:
        with open(image, "rb") as file, open(out, "rb") as made:
            wanted, _ = model.decompress(file.read(), int(words[1]))
            test(f"{what}: bytes", [] if wanted and wanted.image == made.read() else ["other bytes than those of the model"])
            test(f"{what}: line", [] if wanted and model.line_of(wanted).encode() + b"\n" == told else [f"{told}"])
    status, told, errors = run("ls", *words, image)
    is_told = status == 1 and "M4 Compressed at " in errors and "--decompress" in errors
    test(f"{what}: ls without --decompress", [] if is_told else [f"status {status}: {errors}"])
    first, second = run("ls", "--decompress", *words, image), run("ls", *words, out)
    test(f"{what}: ls --decompress", [] if first[:2] == second[:2] else ["another list"])
    return out if fine else None


def clashes(what, words, image):
    """Whether an image is refused since Linux wrote a hole anew under its old version; it tells so."""
    status, out, _ = run("check", *words, image)
    last = out.decode().splitlines()[-1]
    if status == 3 and last.startswith("mount refused M5 Clash at "):
        print(f"{what}: {last}")
        return True
    return False


def parted(what, words, image):
    """What `decompress --clashes higher` makes of an image with nodes that clash, or nothing: it is compared with what Linux shows,
    which takes the node of the highest address."""
    out = image + ".parted"
    status, told, errors = run("decompress", "--clashes", "higher", *words, image, out)
    lines = [line for line in errors.splitlines() if line.startswith("left out ")]
    print(f"{what}: {told.decode().strip()}, {len(lines)} nodes left out")
    test(f"{what}: --clashes higher", [] if status == 3 and lines else [f"status {status}: {errors}"])
    return out if status == 3 else None


def extracted(what, words, image, folder, again):
    """Compares what `extract` makes of an image with a tree of Linux, in which some directories may be again."""
    wanted, lost = folders.facts(folder.encode())
    names = [b"/" + os.fsencode(path[1:]) for path in again]
    wanted = {path: fact for path, fact in wanted.items() if not any(path == name or path.startswith(name + b"/") for name in names)}
    made = folder + (".at_once" if "--decompress" in words else ".extracted")
    status, _, errors = run("extract", "--quiet", "--owners", *words, image, made)
    told = errors.splitlines()
    lines = [line for line in told if not line.startswith("jffs2_image: note: ") and not line.endswith(": no inode")]
    # What Linux does not show, findings and names without an inode, makes the status 3 too.
    is_found = any(" finding" in line or line.endswith(": no inode") for line in told)
    if is_found and status == 3 and not lost + len(again):
        status = 0
    test(f"{what}: extract: told", folders.told(status, "\n".join(lines), lost + len(again)))
    got = folders.facts(made.encode())[0] if os.path.isdir(made) else {}
    test(f"{what}: extract", folders.differences(without_times(got), without_times(wanted)))


def verdict(what, words, image):
    """The image mounts, and where it is no moment of writing no name is dangling. Tells how many lines of each kind the report has."""
    status, out, errors = run("check", *words, image)
    lines = out.decode().splitlines()
    kinds = collections.Counter(line.split(" ")[1] + (" " + line.split(" ")[-1] if " damaged " in line else "") for line in lines if re.match("[0-9a-f]{8} ", line))
    dangling = [line for line in lines if line.startswith("dangling ")]
    if not what.startswith("cut"):
        print(f"{what}: check: status {status}, {dict(kinds)}", *dangling)
    fine = "mount ok" in lines and status in (0, 3) and (not dangling or ".live" in what)
    test(f"{what}: check", [] if fine else [f"status {status}: {lines[-1:]} {errors}"])


def said(what, log, counts):
    """Counts what the kernel said of JFFS2, numbers left out. Of a whole image it says nothing but what it says of each."""
    with open(log, encoding="utf-8", errors="replace") as file:
        lines = [line.split("] ", 1)[-1].strip() for line in file if "jffs2" in line.lower()]
    lines = [line for line in lines if "complete building xattr subsystem" not in line]
    counts.update(re.sub(r"0x[0-9a-f]+|\b[0-9a-f]{8}\b|\d+", "N", line) for line in lines)
    if not what.startswith("cut") and ".live" not in what:
        test(f"{what}: kernel", lines)


def print_said(counts):
    for line, count in counts.most_common():
        print(f"kernel: {count} x {line}")


def all_said(got, pattern, named):
    """Prints what the kernel said in these logs, and how often; of each by the name that is made of the log's."""
    counts = collections.Counter()
    for log in sorted(glob.glob(os.path.join(got, pattern))):
        said(named(os.path.basename(log)[:-4]), log, counts)
    print_said(counts)


def judge(given, got, sources, turned=()):
    """Compares each tree that Linux showed with what the program shows of the image. Device numbers are not compared with a folder
    where an image was turned to another byte order: jffs2dump leaves data as they are."""
    counts, others, clashed = collections.Counter(), [], []
    for log in sorted(glob.glob(os.path.join(got, "*.log"))):
        what = os.path.basename(log)[:-4]
        said(what, log, counts)
        name = what.removesuffix(".again").removesuffix(".rw")
        image = next(file for file in (os.path.join(top, name + ".img") for top in (got, given)) if os.path.exists(file))
        words = ["--block", "16384" if name.startswith(("nand", "packed_nand")) else "65536"]
        packed = image if name.startswith(("packed", "squeezed")) else None
        if packed and not (image := opened(what, words, packed)):
            continue
        if clashes(what, words, image):
            clashed += [what]
            image, packed = parted(what, words, packed or image), None
            if not image:
                continue
        if what == name:
            verdict(what, words, image)
        if not os.path.exists(log[:-4] + ".tar"):
            test(what, ["Linux did not mount it"])
            continue
        folder = unpacked(log[:-4] + ".tar")
        again, has_other = compare_tree(what, words, image, folder)
        others += [what] if has_other else []
        extracted(what, words, image, folder, again)
        if packed:
            extracted(f"{what}, at once", [*words, "--decompress"], packed, folder, again)
        if name in sources:
            wanted, seen = (without_times(folders.facts(top, 65535)[0]) for top in (sources[name], folder.encode()))
            test(f"{what}: Linux shows the folder", folders.differences(seen, wanted))
        if name in sources and name not in turned:
            seen, wanted = (folders.devices(top) for top in (folder.encode(), sources[name]))
            test(f"{what}: Linux shows {len(wanted)} devices", folders.differences(seen, wanted))
    print(f"{len(clashed)} images clash: {' '.join(clashed)}")
    print(f"{len(others)} trees have a directory whose time is another in `ls` than in Linux: {' '.join(others)}")
    print_said(counts)


def extend(got, given):
    """What Linux wrote, on empty flash and on ours, goes on by STEPS: images for a second boot."""
    for name, count in (("random", 250000), ("bytes", 9000)):
        tree.write(os.path.join(given, name), random.Random(4).randbytes(count))
    extend_packed(got, given)
    for name in ("planted", "built.more", "appended.more"):
        image, out = os.path.join(got, name + ".img"), os.path.join(given, f"appended-{name}.img")
        with open(image, "rb") as file:
            last_block = file.read()[-65536:]
        if last_block[12:].strip(b"\xff"):
            print(f"{name}: Linux wrote to its last block, so `append` has no room")
            continue
        written(name, "append", STEPS, *FLASH, image, out, place=given)


def extend_packed(got, given):
    """What Linux wrote and compressed, decompressed, and goes on by STEPS."""
    for name in ("packed_planted", "packed_churned", "packed_zlib"):
        image = os.path.join(got, name + ".img")
        if not os.path.exists(image + ".open") or clashes(name, FLASH[:2], image + ".open"):
            continue
        subprocess.run(["cp", image + ".open", os.path.join(given, f"opened-{name}.img")], check=True)
        out, twice = (os.path.join(given, f"appended-{name}{end}") for end in (".img", ".twice"))
        written(name, "append", STEPS, *LARGER_FLASH, "--decompress", image, out, place=given)
        written(name, "append", STEPS, *LARGER_FLASH, image + ".open", twice, place=given)
        subprocess.run(["cmp", out, twice], check=True)
        os.remove(twice)


def main():
    rounds = [[os.path.join(sys.argv[3], name, part) for part in ("given", "got")] for name in ("1", "2")]
    for given, _ in rounds:
        os.makedirs(given)
    (given, got), (given_again, got_again) = rounds
    sources = inputs(sys.argv[3], given)
    boot(os.path.dirname(given), given, got)
    judge(given, got, sources)
    extend(got, given_again)
    boot(os.path.dirname(given_again), given_again, got_again)
    judge(given_again, got_again, {})
    return ended()


if __name__ == "__main__":
    sys.exit(main())
