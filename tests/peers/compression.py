#!/usr/bin/env python3
"""Compares decompression with zlib, liblzo2 and a model of RTIME: tests/peers/compression.py [COUNT] [SEED] [PROGRAM]

Makes COUNT streams (1,000,000, where it is not given), most of them damaged or at random, asks the peer of each what it gives
(streams.py), and lets crates/bench_inflate compare: accept for accept and byte for byte, at the exact length, the Adler-32
looked at. It prints the counts, and each stream of another answer. liblzo2 takes an end whose instruction names another length
than 3, which the definition refuses: such a stream counts as refused, and is counted apart. Status 1 where any answer is another.
Needs liblzo2-2 (Debian). The program is the one that `rt run` built in crates/bench_inflate, where none is given.
"""
import collections
import multiprocessing
import os
import random
import subprocess
import sys
import tempfile
import zlib

import streams
from streams import Bits, wrapped
from vectors import NUMBERS, text

HERE = os.path.dirname(os.path.abspath(__file__))
COUNT = int(sys.argv[1]) if len(sys.argv) > 1 else 1_000_000
SEED = int(sys.argv[2]) if len(sys.argv) > 2 else 1
PROGRAM = sys.argv[3] if len(sys.argv) > 3 else os.path.join(HERE, "../../crates/bench_inflate/out/bench_inflate")
BATCH = 20_000
TEXT = text(70_000)


def some_content(pick):
    """Bytes at random: noise, text, a run, few values, or pieces that come again."""
    size = pick.choice((pick.randrange(20), pick.randrange(20, 120), pick.randrange(120, 400), pick.randrange(4097)))
    if pick.random() < 0.002:
        size = pick.randrange(4097, 68_000)
    kind = pick.randrange(5)
    if kind == 0:
        return pick.randbytes(size)
    if kind == 1:
        start = pick.randrange(len(TEXT) - size)
        return TEXT[start : start + size]
    if kind == 2:
        return pick.randbytes(1) * size
    if kind == 3:
        return bytes(pick.choices(range(8), [64, 32, 16, 8, 4, 2, 1, 1], k=min(size, 1000)))
    words = [pick.randbytes(pick.randrange(1, 9)) for _ in range(pick.randrange(1, 12))]
    gap = bytes(pick.choice((0, 0, 300, 2040, 2050, 16_380, 16_400, 33_000, 49_100))) if pick.random() < 0.03 else b""
    return (b"".join(pick.choices(words, k=40)) + gap + b"".join(pick.choices(words, k=20)))[: max(size, len(gap) + 200)]


def broken(pick, data):
    """Data with one to three bits flipped or bytes replaced, the front of them more often, or cut, or with bytes behind."""
    kind = pick.randrange(8)
    if kind == 0 or not data:
        return data[: pick.randrange(len(data) + 1)]
    if kind == 1:
        return data + pick.randbytes(pick.randrange(1, 5))
    data = bytearray(data)
    for _ in range(pick.randrange(1, 4)):
        place = pick.randrange(len(data) if pick.randrange(2) else min(len(data), 60))
        if kind < 5:
            data[place] ^= 1 << pick.randrange(8)
        else:
            data[place] = pick.randrange(256)
    return bytes(data)


def zlib_whole(pick):
    content = some_content(pick)
    level, strategy, flush = pick.randrange(10), pick.choice(streams.STRATEGIES), pick.choice(streams.FLUSHES)
    cut = pick.randrange(len(content) + 1)
    return content, streams.zlib_packed(content, level, strategy, flush, cut, pick.randrange(9, 16))


def repaired(pick, bits):
    """A DEFLATE stream with the length and the checksum of what zlib makes of it, where that is anything."""
    made = streams.raw_content(bits)
    if not made or len(made[0]) > 70_000:
        return pick.randrange(300), wrapped(bits, b"")
    return len(made[0]), wrapped(bits[: made[1]], made[0])


def some_lengths(pick, count, most):
    """Lengths of codes: mostly such as use up all bits, now and then with one changed."""
    lengths = [0] * count
    used = pick.randrange(1, min(count, 1 << most, 40) + 1)
    places = pick.sample(range(count), used)
    if count > 256:
        places = [256, *(place for place in places if place != 256)]
    leaves = [0]
    while len(leaves) < len(places):
        leaf = leaves.pop(pick.randrange(len(leaves)) if pick.randrange(2) else -1)
        if leaf == most:
            leaves.append(leaf)
            break
        leaves += [leaf + 1, leaf + 1]
    for place, length in zip(places, leaves):
        lengths[place] = max(length, 1)
    if pick.randrange(4) == 0:
        lengths[pick.choice(places)] = pick.randrange(most + 1)
    return lengths


def put_lengths(pick, write, lengths, codes):
    """Writes the lengths of codes, runs of zeros by one symbol now and then. Seldom a run is one that should not be there."""
    at = 0
    while at < len(lengths):
        zeros = next((k for k, length in enumerate(lengths[at:]) if length), len(lengths) - at)
        if zeros >= 11 and 18 in codes and pick.randrange(8):
            count = min(zeros, 138)
            write.code(codes[18]).number(count - 11, 7)
        elif zeros >= 3 and 17 in codes and pick.randrange(2):
            count = min(zeros, 10)
            write.code(codes[17]).number(count - 3, 3)
        elif 16 in codes and at and lengths[at : at + 3] == [lengths[at - 1]] * 3:
            count = 3
            write.code(codes[16]).number(0, 2)
        elif pick.randrange(900) == 0:
            count = 1
            write.code(codes.get(pick.choice((16, 17, 18)), (0, 1))).number(pick.randrange(128), 7)
        else:
            count = 1
            write.code(codes.get(lengths[at], (0, 1)))
        at += count


def put_body(pick, write, codes):
    """Writes literals and copies by codes, seldom a copy from too far back, and the end of the block, most of the time."""
    literals, distances = codes
    out = 0
    for _ in range(pick.randrange(40)):
        symbol = pick.choice(list(literals))
        if symbol > 256 and distances:
            fine = [k for k in distances if k > 29 or streams.DISTANCES[k][0] + (1 << streams.DISTANCES[k][1]) <= out + 1]
            far = pick.choice(fine if fine and pick.randrange(50) else list(distances))
            if not fine and pick.randrange(50):
                continue
            extra = streams.LENGTHS[symbol - 257][1] if symbol < 286 else 0
            more = pick.getrandbits(5) & ((1 << extra) - 1)
            write.code(literals[symbol]).number(more, extra).code(distances[far])
            write.number(pick.getrandbits(14), streams.DISTANCES[far][1] if far < 30 else 0)
            out += streams.LENGTHS[symbol - 257][0] + more if symbol < 286 else 0
        elif symbol < 256:
            write.code(literals[symbol])
            out += 1
    if pick.randrange(8):
        write.code(literals.get(256, (0, 1)))


def zlib_own_codes(pick):
    """Blocks of codes of their own, at random."""
    write, last = Bits(), 0
    while not last:
        last = pick.randrange(3) > 0
        of_lengths = pick.choice(([4] * 16 + [0] * 3, [4] * 13 + [5] * 6, [4] * 13 + [5] * 6, some_lengths(pick, 19, 7)))
        codes = streams.codes_of(of_lengths)
        numbers = (pick.randrange(30 if pick.randrange(20) else 32), pick.randrange(30 if pick.randrange(20) else 32))
        lengths = some_lengths(pick, 257 + numbers[0], 15), some_lengths(pick, 1 + numbers[1], 15)
        write.front(2, last).number(numbers[0], 5).number(numbers[1], 5).number(15, 4)
        for place in streams.ORDER:
            write.number(of_lengths[place], 3)
        put_lengths(pick, write, lengths[0] + lengths[1], codes)
        put_body(pick, write, [streams.codes_of(each) for each in lengths])
    bits = write.number(pick.getrandbits(60), 60 * pick.randrange(2)).bytes() + bytes(8)
    return repaired(pick, broken(pick, bits) if pick.randrange(6) == 0 else bits)


def some_zlib(pick):
    """A stream of zlib, and the length that is asked for."""
    kind = pick.randrange(10)
    if kind < 2:
        content, data = zlib_whole(pick)
        return len(content) + pick.choice((0, 0, 1, -1) if content else (0, 1)), data
    if kind < 4:
        content, data = zlib_whole(pick)
        return len(content), broken(pick, data)
    if kind < 6:
        _, data = zlib_whole(pick)
        return repaired(pick, broken(pick, data[2:-4]) + bytes(4))
    if kind < 8:
        return zlib_own_codes(pick)
    if kind == 8:
        return repaired(pick, bytes((pick.choice((1, 3, 2, 0, 5)) | pick.randrange(32) << 3,)) + pick.randbytes(pick.randrange(80)))
    content = some_content(pick)[:50]
    data = streams.zlib_packed(content)
    if pick.randrange(2):
        return pick.randrange(20), pick.randbytes(pick.randrange(30))
    first = pick.choice((0x78, pick.randrange(256)))
    flags = pick.randrange(256)
    flags = flags if pick.randrange(2) else flags - (first * 256 + flags) % 31 & 255
    return len(content), bytes((first, flags)) + data[2:]


def some_lzo(pick):
    """A stream of LZO1X, and the length that is asked for."""
    kind = pick.randrange(8)
    if kind < 6:
        content = some_content(pick)
        data = streams.lzo_packed(content, pick.choice(streams.LZO_PACKERS))
        if kind == 0:
            return len(content) + pick.choice((0, 0, 1, -1) if content else (0, 1)), data
        data = broken(pick, data)
        if kind == 1:
            return len(content), data
    else:
        data = bytes((pick.choice((17 + pick.randrange(8), pick.randrange(256))),))
        for _ in range(pick.randrange(1, 14)):
            first = pick.choice((0, pick.randrange(16), 16 + pick.randrange(16), pick.randrange(256)))
            data += bytes((first, pick.choice((0, pick.randrange(256)))))
        data += bytes((17 if pick.randrange(4) else 16 + pick.randrange(8), pick.choice((0, 0, 0, 1, 3)), 0))
    size = streams.lzo_size(data)
    return pick.randrange(300) if size is None else size, data


def some_rtime(pick):
    """A stream in RTIME, and the length that is asked for."""
    if pick.randrange(4) == 0:
        return pick.randrange(400), pick.randbytes(pick.randrange(60))
    content = some_content(pick)[:2000]
    data = streams.rtime_packed(content)
    size = len(content) + pick.choice((0, 0, 0, 1, -1) if content else (0, 1))
    return size, broken(pick, data) if pick.randrange(2) else data


def some_stream(pick, counts):
    """A stream as the program reads it."""
    method, make = pick.choices((("zlib", some_zlib), ("lzo", some_lzo), ("rtime", some_rtime)), (5, 3, 2))[0]
    size, data = make(pick)
    content = streams.CONTENTS[method](data, size)
    if method == "lzo" and content is not None and streams.end_length(data) != 3:
        counts["lzo end of another length"] += 1
        content = None
    numbers = size.to_bytes(4, "little") + len(data).to_bytes(4, "little")
    return bytes((NUMBERS[method], content is not None)) + numbers + data + (content or b"")


def shown(batch, place):
    """A stream of a batch, as a person reads it."""
    size, count = (int.from_bytes(batch[place + k : place + k + 4], "little") for k in (2, 6))
    data = batch[place + 10 : place + 10 + count]
    return f"method {batch[place]} size {size} data {data.hex()}: the peer {'accepts' if batch[place + 1] else 'refuses'}"


def compare(number):
    """Makes a batch and has it compared: its counts, and the streams of another answer."""
    counts, others = collections.Counter(), []
    pick = random.Random(f"{SEED} {number}")
    batch = b"".join(some_stream(pick, counts) for _ in range(min(BATCH, COUNT - number * BATCH)))
    with tempfile.NamedTemporaryFile(prefix="compression-") as file:
        file.write(batch)
        file.flush()
        told = subprocess.run([PROGRAM, file.name], capture_output=True, text=True, check=True).stdout
    for line in told.splitlines():
        words = line.split()
        if words[0] == "other":
            others.append(shown(batch, int(words[2])))
        else:
            counts.update({f"{words[0]} {words[k]}": int(words[k + 1]) for k in (1, 3, 5)})
    return counts, others


def main():
    counts = collections.Counter()
    with multiprocessing.Pool(max(1, (os.cpu_count() or 1) // 2)) as pool:
        for told, others in pool.imap(compare, range((COUNT + BATCH - 1) // BATCH)):
            counts.update(told)
            print("\n".join(others), end="\n" if others else "", flush=True)
    for name in sorted(counts):
        print(f"{name}: {counts[name]}")
    total = sum(count for name, count in counts.items() if name.split()[1] in ("accepted", "refused", "other"))
    other = sum(count for name, count in counts.items() if name.endswith(" other"))
    print(f"zlib {zlib.ZLIB_RUNTIME_VERSION}: {total} streams, {other} of another answer")
    return 1 if other or total != COUNT else 0


if __name__ == "__main__":
    sys.exit(main())
