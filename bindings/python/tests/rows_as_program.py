"""rows_as_program.py IMAGE BLOCK: prints the nodes and the findings as `jffs2_image check --scan` does, but no erased
words and no totals. It ends with an error unless read_many answers of all regular files what read_at answers."""

import sys

import jffs2

NO_NODES = ("other-order", "dirt")
WORDS = {**jffs2.KINDS, 7: "skipped"}
CHECK_WORDS = {1: "node-crc", 2: "name-crc", 3: "data-crc", 4: "length", 5: "range"}
STORED = {0: "none", 1: "zero"}


def name_of(data, node):
    name = data[node.address + 40 :][: node.stored]
    return "".join(chr(byte) if 32 < byte < 127 and chr(byte) not in "\\/" else f"\\x{byte:02x}" for byte in name)


def fields(data, node):
    kind = jffs2.KINDS[node.kind]
    if kind == "entry":
        numbers = f"pino {node.directory} version {node.version} ino {node.number} type {node.entry_type}"
        return f" {numbers} name {name_of(data, node)}"
    if kind == "inode":
        numbers = f"ino {node.number} version {node.version} mode {node.mode:o} size {node.size} offset {node.offset}"
        return f" {numbers} data {node.range} {STORED[node.method]}"
    if kind == "compressed":
        return f" compr {node.method}"
    if kind == "damaged":
        return f" {CHECK_WORDS[node.detail]}"
    return f" type {node.detail:04x}" if kind in ("skippable", "read-only", "incompatible") else ""


def main(name, block):
    with open(name, "rb") as file:
        data = file.read()
    order = jffs2.info(data).order or "little"
    image = jffs2.Image(data, block, order, through=True)
    nodes, findings = image.nodes(), image.findings()
    lines = {it.address: f"{WORDS[it.kind]} {it.length}{fields(data, it)}" for it in nodes}
    for it in findings:
        kind = jffs2.FINDINGS[it.kind]
        if kind in NO_NODES:
            lines[it.address] = f"{kind} {it.length}"
        elif kind not in lines[it.address]:
            sys.exit(f"{it} is no finding")
    for address in sorted(lines):
        print(f"{address:08x} {lines[address]}")
    try:
        files = {it.number: it.stat for it in image.tree() if it.stat and it.stat.mode >> 12 == 8}
    except jffs2.Error:
        return
    wanted = [(number, 0, files[number].size) for number in sorted(files)]
    found = image.read_many(wanted)
    if found != [image.read_at(*it) for it in wanted]:
        sys.exit("read_many answers otherwise than read")


main(sys.argv[1], int(sys.argv[2]))
