#!/usr/bin/env python3
"""Boots Linux, lets it write images until blocks were collected, and boots it again to mount what random stops leave of what
`update` writes to them: see update.sh."""
import collections
import os
import random
import re
import sys

import compact
import linux
import tars
import tree
from judging import ended, run, test

sys.path.append(os.path.dirname(os.path.dirname(os.path.abspath(__file__))))
import cuts  # noqa: E402
import put_model  # noqa: E402
import update_model as model  # noqa: E402

STOPS = int(os.environ.get("STOPS", "300"))
FLASH = {"worn16": (1024, 16384), "worn64": (2048, 65536)}
WAYS = {"": [], "tail": ["--tail"], "plain": ["--plain"], "tail-plain": ["--tail", "--plain"]}
MORE = 20  # Linux goes on writing after each twentieth stop
LISTING = """time 1700000100
owner 1 2
file 0644 /etc/new part0
file 0600 /etc/.conf1 part1
replace /etc/.conf1 /etc/conf1
write /bin/tool 4000 {written}
truncate /etc/conf3 100
truncate /bin/first 9000
rename /etc/conf4 /etc/conf4.old
time 1700000200
remove /etc/conf5
attr 0600 5 6 7 8 /etc/conf6
mkdir 0750 /opt
create 0604 /opt/empty
symlink /opt/way ../etc/conf1
link /etc/conf2 /opt/conf2
file 4755 /opt/noise part2
replace /opt/noise /bin/old
rename /etc /opt/etc
remove /bin/second
"""
PUTS = """put 0644 /opt/etc/conf7 part0
remove-if /opt/etc/conf8
remove-if /opt/etc/missing
put 0600 /opt/etc/none part3
"""


# ---- what the host makes

def parts(place):
    """The files that a listing names, and its lines."""
    chance = random.Random(9)
    for number, data in enumerate((linux.text(5000), linux.text(13000)[1000:], chance.randbytes(6000), b"")):
        tree.write(os.path.join(place, f"part{number}"), data)
    return LISTING.format(written=linux.text(9000)[4000:].hex())


def loaded(tar):
    """The tree of Linux as the plain file system of cuts.py, by the numbers of its objects' first paths."""
    plain, numbers = cuts.Tree(), {"/": 1}
    for path, (kind, mode, uid, gid, time, body, names) in sorted(tars.shown(tar).items()):
        kind = next(bits for bits, letter in cuts.KINDS.items() if letter == kind) << 12
        body = body.encode() if isinstance(body, str) else body if isinstance(body, bytes) else b""
        if names[0] not in numbers:
            numbers[names[0]], plain.next = plain.next, plain.next + 1
        numbers[path] = numbers[names[0]]
        plain.objects[numbers[path]] = [kind | mode, uid, gid, time, body]
        if path != "/":
            above, name = path.rsplit("/", 1)
            plain.names[numbers[above or "/"], name] = numbers[path]
    return plain


def wanted_of(plain):
    """What Linux has to show of a file system, as tars.py has it; devices without their numbers. Between the two nodes of a rename a
    directory has two names. Linux shows what lies in it below both, and only an object with more names of its own as one."""
    found, names = dict(put_model.files_of(plain)), collections.defaultdict(list)
    linked = collections.Counter(plain.names.values())
    own = {path: fact[-1] if linked[fact[-1]] > 1 and fact[0] != "d" else path for path, fact in found.items()}
    for path, which in own.items():
        names[which].append(path)
    shown = {}
    for path, (kind, mode, uid, gid, time, body, _) in found.items():
        body = body.decode() if kind == "l" else None if kind in "cb" else body
        shown[path] = (kind, mode, uid, gid, 0 if kind == "d" else time, body, tuple(sorted(names[own[path]])))
    return shown


def without_devices(shown):
    return {path: (*fact[:5], None if fact[0] in "cb" else fact[5], fact[6]) for path, fact in shown.items()}


def chunks_of(row, nodes, size):
    """What goes out, upwards: of each node its address and bytes, with the marker of a block in front of its first one."""
    blank = {number for number, at in row if at == 0}
    for address, length, data in nodes:
        if address % size == model.MARKER_LENGTH and address // size in blank:
            yield address - model.MARKER_LENGTH, model.marker("<"), False
        yield address, data, True


def left_of(image, row, nodes, size, stop):
    """The flash after so many bytes went out, and how many nodes stand whole there."""
    out, whole, gone, last = bytearray(image), 0, 0, None
    for address, data, is_node in chunks_of(row, nodes, size):
        # bytes between two nodes of a block go out too: they are 0xFF
        between = address - last if last is not None and address // size == (last - 1) // size else 0
        if address % size == 0:
            out[address : address + model.MARKER_LENGTH] = b"\xff" * model.MARKER_LENGTH
        part = data[: max(0, stop - gone - between)]
        out[address : address + len(part)] = part
        gone, last = gone + between + len(data), address + len(data)
        # a node stands from its last byte on that is not 0xFF
        whole += is_node and bytes(out[address : address + len(data)]) == data
        if len(part) < len(data):
            break
    return bytes(out), whole


def length_of(row, nodes, size):
    """How many bytes go out."""
    gone, last = 0, None
    for address, data, _ in chunks_of(row, nodes, size):
        gone += address - last if last is not None and address // size == (last - 1) // size else 0
        gone, last = gone + len(data), address + len(data)
    return gone


def updated(name, base, way, place, listing):
    """Runs `update` on an image of Linux: the openings that it has, and the nodes that went there."""
    kib, size = FLASH[base]
    image, out = os.path.join(place, "1/got", base + ".img"), os.path.join(place, name + ".out")
    with open(os.path.join(place, "listing"), "w", encoding="ascii") as file:
        file.write(listing)
    words = ["--block", str(size), *WAYS[way], image, "listing", out]
    status, told, errors = run("update", *words, place=place)
    line = re.fullmatch(rb"accepted (\d+) nodes (\d+) bytes (\d+)\n", told)
    print(f"{name}: {told.decode().strip()} {errors}")
    test(f"{name}: update", [] if status == 0 and line else [f"status {status}: {told} {errors}"])
    with open(image, "rb") as file, open(out, "rb") as made:
        before, after = file.read(), made.read()
    row = list(model.openings(before, size, kib * 1024 // size, "<", "--tail" in words))
    nodes = list(model.nodes_in(after, row, size, "<"))
    test(f"{name}: nodes", [] if line and len(nodes) == int(line[2]) else [f"{len(nodes)} of {told}"])
    whole = model.with_nodes(model.erased_in(before, row, size), nodes, size, "<")
    test(f"{name}: bytes", [] if whole == after else ["other bytes than those of the model"])
    return before, row, nodes


# ---- stops

def stops_of(name, nodes, row, size, count):
    """So many places where writing stops: half of them anywhere, half of them near a node's beginning or end; and the whole."""
    chance, total = random.Random(f"stops of {name}"), length_of(row, nodes, size)
    borders, gone, last = [0], 0, None
    for address, data, _ in chunks_of(row, nodes, size):
        gone += address - last if last is not None and address // size == (last - 1) // size else 0
        gone, last = gone + len(data), address + len(data)
        borders.append(gone)
    near = [max(0, min(total, chance.choice(borders) + chance.randrange(-5, 6))) for _ in range(count // 2)]
    return [total, *near, *(chance.randrange(total + 1) for _ in range(count - len(near) - 1))]


def put_stop(folder, number, before, left, size):
    """The blocks that a stop changed, for the guest."""
    changed = [k for k in range(len(before) // size) if before[k * size : (k + 1) * size] != left[k * size : (k + 1) * size]]
    tree.write(os.path.join(folder, f"{number:04}.at"), " ".join(map(str, changed)).encode())
    tree.write(os.path.join(folder, f"{number:04}.blocks"), b"".join(left[k * size : (k + 1) * size] for k in changed))
    if number % MORE == 0:
        tree.write(os.path.join(folder, f"{number:04}.more"), b"")


def put_stops(place, given, base, way, listing, count):
    """The stops of one update: of each what Linux has to show, by the number of the nodes that stand whole."""
    name = base + ("-" + way if way else "")
    kib, size = FLASH[base]
    before, row, nodes = updated(name, base, way, place, listing)
    # an image that ends with its last node is filled up to the flash
    before = before.ljust(kib * 1024, b"\xff")
    folder = os.path.join(given, "stops", name)
    os.makedirs(folder)
    for file, text in (("flash", f"{kib} {size // 1024}"), ("size", str(size)), ("base", base)):
        tree.write(os.path.join(folder, file), text.encode())
    tree.write(os.path.join(given, base + ".img"), before)
    plain, states = loaded(os.path.join(place, "1/got", base + ".again.tar")), []
    os.chdir(place)
    states.append(wanted_of(plain))
    for step in put_model.steps_of(plain, listing.splitlines()):
        step()
        states.append(wanted_of(plain))
    test(f"{name}: a node for each step", [] if len(states) == len(nodes) + 1 else [f"{len(states)} states, {len(nodes)} nodes"])
    wholes = {}
    for number, stop in enumerate(stops_of(name, nodes, row, size, count)):
        # the flash as it was, or as OUT has what is not reached: without the markers of blocks that nothing was put to
        flash = before if number % 2 else model.erased_in(before, row, size)
        left, whole = left_of(flash, row, nodes, size, stop)
        put_stop(folder, number, before, left, size)
        wholes[f"{name}-{number:04}"] = (f"after {stop} bytes, {whole} of {len(nodes)} nodes", states[whole])
    return wholes


# ---- what Linux shows

def written_by_guest():
    """The files that the guest writes behind some stops: see `stops` in linux.init."""
    text = linux.text(250000)
    piece = lambda count, at: text[at % 90000 :][:count]
    files = {f"/new/f{k}": piece(5000, k * 777) for k in range(1, 9)}
    return {**files, **{f"/new/f{k}": piece(3000, k * 555) for k in (1, 3, 5)}}


def judge_more(what, got, state):
    """What Linux wrote behind a stop is there, and all else as it was; `ls` and `extract` agree with Linux."""
    if not os.path.exists(os.path.join(got, f"{what}.more.again.tar")):
        test(f"{what}.more", ["Linux did not mount it again"])
        return
    after = without_devices(tars.shown(os.path.join(got, f"{what}.more.again.tar")))
    new = {path: fact[5] for path, fact in after.items() if path.startswith("/new/")}
    test(f"{what}.more: what was written then is there", tars.differences(new, written_by_guest()))
    old = {path: fact for path, fact in after.items() if not path.startswith("/new")}
    test(f"{what}.more: what was there stays", tars.differences(old, state))
    image, words = os.path.join(got, f"{what}.more.img"), ["--block", str(FLASH[what.split("-")[0]][1])]
    if not linux.clashes(f"{what}.more", [*words, "--decompress"], image):
        compact.shown_by_program(f"{what}.more", words, image, os.path.join(got, f"{what}.more.again.tar"))


def judge(got, wholes):
    """Each path shows at each stop what it showed after the steps whose nodes stand, and so the file before or after, whole."""
    for what, (about, state) in sorted(wholes.items()):
        tar = os.path.join(got, what + ".tar")
        if not os.path.exists(tar):
            test(f"{what}: {about}", ["Linux did not mount it"])
            continue
        test(f"{what}: {about}", tars.differences(without_devices(tars.shown(tar)), state))
        if os.path.exists(os.path.join(got, f"{what}.more.tar")):
            judge_more(what, got, state)


def main():
    place = sys.argv[3]
    (given, got), (given_again, got_again) = [[os.path.join(place, name, part) for part in ("given", "got")] for name in ("1", "2")]
    compact.inputs(given, "worn")
    linux.boot(os.path.dirname(given), given, got)
    compact.inputs(given_again, None)
    listing, wholes = parts(place) + PUTS, {}
    kinds = [(base, way) for way in WAYS for base in FLASH]
    for number, (base, way) in enumerate(kinds):
        count = STOPS // len(kinds) + (number < STOPS % len(kinds))
        wholes.update(put_stops(place, given_again, base, way, listing, count))
    linux.boot(os.path.dirname(given_again), given_again, got_again)
    judge(got_again, wholes)
    print(f"{len(wholes)} stops")
    # a stop may leave what the kernel speaks of, so its lines are only counted
    linux.all_said(got_again, "*.log", lambda name: name + ".live")
    return ended()


if __name__ == "__main__":
    sys.exit(main())
