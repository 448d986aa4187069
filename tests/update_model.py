"""Where `update` puts nodes, by docs/FORMAT.md: the blank blocks of an image and the rests of its begun ones, and the places of
nodes of given lengths in them.

Tiles are those of hostile_model.py. It shares no code with the program.
"""
import decompress_model
import hostile_model as model

MARKER_LENGTH = 12


def marker(order):
    return decompress_model.header(0x2003, MARKER_LENGTH, order)


def is_blank(block, order):
    """Whether a block is erased but for a beginning of the clean marker."""
    mark = marker(order)
    return any(block == mark[:n].ljust(len(block), b"\xff") for n in range(MARKER_LENGTH + 1))


def rest_of(block, order):
    """Where a begun block may be written on: all in front are whole nodes, and all behind is erased."""
    for at, tile, head in model.tiles(block, order):
        if head is None:
            return at if block[at:] == b"\xff" * (len(block) - at) else None
        if model.seen(tile, head, order)[0] == "damaged":
            return None
    return None


def block_of(image, number, size):
    return image[number * size : (number + 1) * size].ljust(size, b"\xff")


def openings(image, size, blocks, order, tail=False):
    """The blocks that may be written, each with the place in it from which on."""
    for number in range(blocks):
        block = block_of(image, number, size)
        if is_blank(block, order):
            yield number, 0
        elif tail and (at := rest_of(block, order)) is not None:
            yield number, at


def linux_reserve(size, blocks):
    """How many free blocks Linux wants before it writes: resv_blocks_write of jffs2_calc_trigger_levels, line by line."""
    level = size * blocks // 50
    level += blocks * 100
    level += size - 1
    return 2 + level // size


def note_of_left(image, size, blocks, order):
    """What stands on standard error if fewer blocks are blank than Linux keeps in reserve."""
    left, reserve = sum(is_blank(block_of(image, number, size), order) for number in range(blocks)), linux_reserve(size, blocks)
    are = "block is" if left == 1 else "blocks are"
    return f"jffs2_image: note: {left} blank {are} left, Linux keeps {reserve} in reserve\n" if left < reserve else ""


def places(row, lengths, size):
    """The address of each node in a row of openings, or None from the first on that has no room."""
    left = list(row)
    for length in lengths:
        while left:
            number, at = left[0]
            begin = at or MARKER_LENGTH
            if begin + length <= size:
                left[0] = (number, model.pad4(begin + length))
                yield number * size + begin
                break
            left.pop(0)
        else:
            yield None


def nodes_in(image, row, size, order):
    """The nodes that stand in openings: the address, the length and the bytes of each."""
    for number, at in row:
        block = block_of(image, number, size)
        for place, tile, head in model.tiles(block[at:], order):
            if head and model.seen(tile, head, order)[0] != "marker":
                yield number * size + at + place, head[1], tile[: head[1]]


def expansions(image, size, order):
    """The nodes of an image in the order of their addresses, each as it is when it is not compressed."""
    nodes, fault = decompress_model.expanded_nodes(list(decompress_model.nodes_of(image, size, order)), size)
    return None if fault else [decompress_model.written(*node, order) for node in nodes]


def erased_in(image, row, size):
    """An image without what stands in its openings: a beginning of a marker."""
    out = bytearray(image)
    for number, at in row:
        start, end = number * size + at, min((number + 1) * size, len(out))
        out[start:end] = b"\xff" * (end - start)
    return bytes(out)


def with_nodes(image, nodes, size, order, cut=None):
    """An image after so many nodes were put to it, each with the marker of its block in front; of the last one only so many
    bytes, if they are given."""
    out = bytearray(image)
    for count, (address, length, data) in enumerate(nodes, 1):
        start = address - address % size
        end = address + model.pad4(length)
        out += b"\xff" * (end - len(out))
        if address == start + MARKER_LENGTH:
            out[start:address] = marker(order)
        part = data if cut is None or count < len(nodes) else data[:cut]
        out[address : address + len(part)] = part
    return bytes(out)
