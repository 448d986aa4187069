"""Images of JFFS2, the Journalling Flash File System 2: their files, their damage, the same nodes decompressed,
compressed or compacted, and images that operations make or go on with.

The shared library libjffs2.so, which is proved, does the work. docs/BINDINGS.md of the repository says what is proved
and what is only trusted. This module needs no other package.

    import jffs2
    with open("dump.img", "rb") as file:
        image = jffs2.Image(file.read(), block=65536, through=True)
    for entry in image.tree():
        print(entry.directory, entry.name)
    text = image.read("/etc/passwd")

Any bytes-like object can be an image, a memory map too; it is copied only if it cannot be passed as it is. It must not
change while a call runs. Calls may run in any threads at once; none holds the interpreter's lock.
"""

from __future__ import annotations

import ctypes
import os
import sys
import threading
from collections.abc import Iterable, Mapping
from typing import Any, NamedTuple

__all__ = ["Counts", "Entry", "Error", "Finding", "Image", "Info", "Mount", "Node", "Stat", "Written", "crc", "info"]

#: The numbers of errors and their names.
NAMES = {
    1: "BlockSize",
    2: "TooLarge",
    3: "Incompatible",
    4: "Compressed",
    5: "Clash",
    6: "RootKind",
    7: "OutOfMemory",
    9: "Small",
    10: "BadPath",
    11: "NotFound",
    12: "NotDirectory",
    20: "Data",
    21: "TooLong",
    22: "ReadOnly",
    23: "Geometry",
    24: "Full",
    25: "Page",
    30: "Listing",
    31: "Refused",
    32: "Files",
    33: "NoFile",
    34: "Closed",
}
_SMALL = 9


class Error(Exception):
    """Why a call gives no answer: its number `status`, its `name`, the `address` of the node, and a `detail`, which is
    the type of the node or the number of its compression. Errors of a listing (Listing, Refused, NoFile, Full) have
    the number of its line as `address`, and `detail` is a key of RULES at Listing, and 1 to 12 for O1 to O12 of the
    manual page at Refused."""

    def __init__(self, status: int, address: int = 0, detail: int = 0) -> None:
        self.status = status
        self.name = NAMES.get(status, str(status))
        self.address = address
        self.detail = detail
        super().__init__(f"{self.name} at {address:08x} ({detail})" if address or detail else self.name)


class Counts(NamedTuple):
    """How many blocks, sound nodes and findings an image has."""

    blocks: int
    entries: int
    inodes: int
    findings: int


class Stat(NamedTuple):
    """An object with its number: its whole mode, its owners, its size in bytes, its times in seconds."""

    number: int
    mode: int
    uid: int
    gid: int
    size: int
    atime: int
    mtime: int
    ctime: int


class Entry(NamedTuple):
    """A name of a directory, and its object, or None if that is missing."""

    directory: int
    name: bytes
    number: int
    stat: Stat | None


class Finding(NamedTuple):
    """A problem at an address. `kind` is a key of FINDINGS. `detail` is the check that a damaged node failed (a key of
    CHECKS), the type of a node, or the number of its compression."""

    address: int
    length: int
    kind: int
    detail: int


class Node(NamedTuple):
    """A node: its `kind` (a key of KINDS), and each of its fields; 0 if it has no such field. `stored` is the number of
    bytes of its data, from `address` + 68 on, or of an entry's name, from `address` + 40 on."""

    address: int
    length: int
    kind: int
    detail: int
    number: int
    version: int
    directory: int
    entry_time: int
    entry_type: int
    mode: int
    uid: int
    gid: int
    size: int
    atime: int
    mtime: int
    ctime: int
    offset: int
    range: int
    method: int
    stored: int


#: The kinds of problems, by `kind`.
FINDINGS = {
    1: "damaged",
    2: "attribute",
    3: "read-only",
    4: "other-order",
    5: "dirt",
    6: "incompatible",
    7: "compressed",
}
#: What a node is seen as, by its `kind`.
KINDS = {
    1: "entry",
    2: "inode",
    3: "marker",
    4: "padding",
    5: "obsolete",
    6: "attribute",
    7: "skippable",
    8: "read-only",
    9: "incompatible",
    10: "compressed",
    11: "damaged",
}
#: The check that fails first of a damaged node.
CHECKS = {1: "node-crc", 2: "name-crc", 3: "data-crc", 4: "length", 5: "range"}


#: What is wrong about a line, by the `detail` of the error Listing.
RULES = {
    1: "space-at-start",
    2: "two-spaces",
    3: "space-at-end",
    4: "carriage-return",
    5: "no-operation",
    6: "too-few-words",
    7: "too-many-words",
    8: "word",
}


class Written(NamedTuple):
    """What `append` wrote: the bytes of the new image, how many operations were accepted, and how many nodes these
    have. `stop` is 0 if all were accepted, else the number of the error Full or Refused of the next one, with its
    `line` and `detail`."""

    bytes: int
    accepted: int
    nodes: int
    stop: int
    line: int
    detail: int


class Info(NamedTuple):
    """The parameters of an image of unknown block size and byte order. `order` is "little", "big", or None if no node
    is good; `least_block` and `greatest_block` are 0 if no size is known."""

    bytes: int
    order: str | None
    least_block: int
    greatest_block: int
    highest_inode: int
    highest_version: int
    markers: int
    nodes: int
    other_order: int
    entries: int
    inodes: int
    obsolete: int
    damaged: int
    other: int
    data: dict[str, int]


def _structure(name: str, fields: list[tuple[str, Any]]) -> Any:
    return type(name, (ctypes.Structure,), {"_fields_": fields})


_U32, _U64, _AT, _LEN = ctypes.c_uint32, ctypes.c_uint64, ctypes.c_void_p, ctypes.c_size_t
_DATA = ("none", "zero", "rtime", "zlib", "lzo", "lzma", "other")
_How = _structure("_How", [("block", _U32), ("big", _U32), ("through", _U32)])
_Fault = _structure("_Fault", [("address", _U32), ("detail", _U32)])
_Counted = _structure("_Counted", [(it, _U64) for it in Counts._fields])
_Stat = _structure("_Stat", [(it, _U32) for it in Stat._fields])
_Entry = _structure(
    "_Entry",
    [("directory", _U32), ("is_there", _U32), ("object", _Stat), ("name_at", _U64), ("name_len", _U64)],
)
_Handle = _structure("_Handle", [("at", _AT), ("is_open", ctypes.c_bool)])
_Needed = _structure("_Needed", [("rows", _U64), ("bytes", _U64)])
_Request = _structure(
    "_Request",
    [("number", _U32), ("spare", _U32)] + [(it, _U64) for it in ("offset", "length", "at", "got")],
)
_Finding = _structure("_Finding", [(it, _U32) for it in Finding._fields])
_Node = _structure("_Node", [(it, _U32) for it in (*Node._fields[:-1], "spare")] + [("stored", _U64)])
_Target = _structure("_Target", [("blocks", _U32), ("page", _U32)])
_FileRow = _structure("_FileRow", [(it, _U64) for it in ("name_at", "name_len", "at", "length")])
_Written = _structure(
    "_Written",
    [(it, _U64) for it in Written._fields[:3]] + [(it, _U32) for it in (*Written._fields[3:], "spare")],
)
_InfoRow = _structure(
    "_InfoRow",
    [("bytes", _U64)]
    + [(it, _U32) for it in ("order", "least_block", "greatest_block", "highest_inode", "highest_version", "spare")]
    + [(it, _U64) for it in ("markers", "nodes", "other_order", "entries", "inodes", "obsolete", "damaged", "other")]
    + [("data_" + it, _U64) for it in _DATA],
)

_IMAGE = [_AT, _LEN, _AT]
_WORK = [_AT, _AT, _LEN, _AT, _LEN, _AT, _LEN]
_CALLS = {
    "jffs2_crc": [_AT, _LEN],
    "jffs2_info": [_AT, _LEN, _AT],
    "jffs2_check": [*_IMAGE, _AT, _AT],
    "jffs2_findings": [*_IMAGE, _AT, _LEN, _AT, _AT],
    "jffs2_nodes": [*_IMAGE, _AT, _LEN, _AT, _AT],
    "jffs2_stat": [*_IMAGE, _AT, _LEN, _AT, _AT],
    "jffs2_read": [*_IMAGE, _U32, _U64, _AT, _LEN, _AT, _AT],
    "jffs2_open": [*_IMAGE, _AT, _AT],
    "jffs2_close": [_AT],
    "jffs2_find": [_AT, _AT, _LEN, _AT, _AT],
    "jffs2_object": [_AT, _U32, _AT],
    "jffs2_read_kept": [_AT, _U32, _U64, _AT, _LEN, _AT],
    "jffs2_read_many": [*_IMAGE, _AT, _LEN, _AT, _LEN, _AT, _AT],
    "jffs2_tree": [*_IMAGE, _AT, _LEN, _AT, _LEN, _AT, _AT],
    "jffs2_tree_text": [*_IMAGE, _AT, _LEN, _AT, _LEN, _AT, _AT],
    "jffs2_check_text": [*_IMAGE, _U32, _AT, _LEN, _AT, _AT],
    "jffs2_decompress": [*_IMAGE, _AT, _LEN, _AT, _AT],
    "jffs2_compress": [*_IMAGE, _AT, _LEN, _AT, _AT],
    "jffs2_compact": [*_IMAGE, _U32, _AT, _LEN, _AT, _AT],
    "jffs2_cuts": [*_IMAGE, *_WORK, _AT, _LEN, _AT, _AT],
    "jffs2_append": [*_IMAGE, *_WORK, _AT, _LEN, _AT, _AT],
    "jffs2_update": [*_IMAGE, _AT, _U32, *_WORK[1:], _AT, _LEN, _AT, _AT],
}


def _load() -> Any:
    """The shared library: the one that JFFS2_LIB names, the one in this module's folder, or the system's."""
    beside = os.path.join(os.path.dirname(os.path.abspath(__file__)), "libjffs2.so")
    library = ctypes.CDLL(os.environ.get("JFFS2_LIB") or (beside if os.path.exists(beside) else "libjffs2.so"))
    for name, arguments in _CALLS.items():
        call = getattr(library, name)
        call.restype, call.argtypes = _U32, arguments
    return library


_library = _load()
_Lent = tuple[Any, int, Any]


def _lent(data: Any) -> _Lent:
    """An address and a length of bytes, and what keeps them there."""
    view = memoryview(data)
    if isinstance(data, bytes) or view.readonly or not view.c_contiguous:
        kept = data if isinstance(data, bytes) else view.tobytes()
        return ctypes.cast(ctypes.c_char_p(kept), _AT), len(kept), kept
    if view.nbytes == 0:
        return _lent(b"")
    kept = (ctypes.c_ubyte * view.nbytes).from_buffer(view.cast("B"))
    return ctypes.cast(kept, _AT), view.nbytes, kept


class _Work:
    """What is to be done: a listing, the files that it may name, and the flash. It keeps what is lent while it lives."""

    def __init__(self, listing: str | bytes, blocks: int, page: int, files: Mapping[str | bytes, Any] | None) -> None:
        text, rows = bytearray(), []
        for name, content in (files or {}).items():
            word, data = os.fsencode(name), bytes(memoryview(content))
            rows.append(_FileRow(len(text), len(word), len(text) + len(word), len(data)))
            text += word + data
        self._kept = _lent(os.fsencode(listing)), _lent(bytes(text))
        self._rows, self._target = (_FileRow * (len(rows) or 1))(*rows), _Target(blocks, page)
        self._count = len(rows)

    def words(self) -> list[Any]:
        """The parameters of a call."""
        lent = [word for at, length, _kept in self._kept for word in (at, length)]
        return [ctypes.byref(self._target), *lent, self._rows, self._count]


def _tuple(row: Any, kind: Any) -> Any:
    return kind(*(getattr(row, it) for it in kind._fields))


def _answer(status: int, fault: Any = None) -> None:
    if status:
        raise Error(status, *((fault.address, fault.detail) if fault is not None else ()))


def crc(data: Any) -> int:
    """The checksum of bytes, as in nodes: CRC-32 without the two complements."""
    at, length, _kept = _lent(data)
    return int(_library.jffs2_crc(at, length))


def info(data: Any) -> Info:
    """The parameters of an image of unknown block size and byte order. Raises Error: TooLarge."""
    at, length, _kept = _lent(data)
    row = _InfoRow()
    _answer(_library.jffs2_info(at, length, ctypes.byref(row)))
    fields = {it: getattr(row, it) for it in Info._fields if it not in ("order", "data")}
    order = {0: None, 1: "little", 2: "big"}[row.order]
    return Info(order=order, data={it: getattr(row, "data_" + it) for it in _DATA}, **fields)


class Mount:
    """The mount of an image, kept until `close` or the end of a `with`. `Image.mount` makes it. It is for the thread that
    made it: in another one its methods raise RuntimeError. All methods raise Error, Closed after `close`."""

    def __init__(self, image: Image) -> None:
        fault = _Fault()
        self._handle, self._image, self._thread = _Handle(), image, threading.get_ident()
        _answer(image._call("jffs2_open", ctypes.byref(self._handle), ctypes.byref(fault)), fault)

    def _call(self, name: str, *more: Any) -> int:
        if threading.get_ident() != self._thread:
            raise RuntimeError("a mount is for the thread that made it")
        return int(getattr(_library, name)(ctypes.byref(self._handle), *more))

    def find(self, path: str | bytes) -> int:
        """The number of the object that a path leads to. Symlinks are not followed. BadPath, NotFound, NotDirectory."""
        number, fault = _U32(), _Fault()
        at, length, _kept = _lent(os.fsencode(path))
        _answer(self._call("jffs2_find", at, length, ctypes.byref(number), ctypes.byref(fault)), fault)
        return number.value

    def object(self, number: int) -> Stat:
        """The object of a number. NotFound."""
        row = _Stat()
        _answer(self._call("jffs2_object", number, ctypes.byref(row)), _Fault())
        return _tuple(row, Stat)

    def read_at(self, number: int, offset: int, size: int) -> bytes:
        """Bytes of an object, as `Image.read_at` gives them."""
        out, got = ctypes.create_string_buffer(size or 1), _LEN()
        _answer(self._call("jffs2_read_kept", number, offset, out, size, ctypes.byref(got)), _Fault())
        return out.raw[: got.value]

    def close(self) -> None:
        """Frees the mount. A mount that is closed stays so."""
        self._call("jffs2_close")

    def __enter__(self) -> Mount:
        return self

    def __exit__(self, *_: object) -> None:
        self.close()

    def __del__(self) -> None:
        if threading.get_ident() == self._thread:
            self.close()


class Image:
    """An image in memory, with the size of its erase blocks and its byte order, which it does not record.

    `order` is "little" or "big". With `through`, `stat`, `read_at`, `read`, `read_many`, `tree` and `tree_text` read
    compressed data; without it they raise Compressed if there are any. All methods raise Error."""

    def __init__(self, data: Any, block: int = 65536, order: str = "little", through: bool = False) -> None:
        if order not in ("little", "big"):
            raise ValueError("order is 'little' or 'big'")
        self._at, self._length, self._kept = _lent(data)
        self._how = _How(block, order == "big", through)

    def _call(self, name: str, *more: Any) -> int:
        call = getattr(_library, name)
        return int(call(self._at, self._length, ctypes.byref(self._how), *more))

    def check(self) -> Counts:
        """Counts what it contains. It need not mount. BlockSize, TooLarge."""
        row, fault = _Counted(), _Fault()
        _answer(self._call("jffs2_check", ctypes.byref(row), ctypes.byref(fault)), fault)
        return _tuple(row, Counts)

    def _rows(self, name: str, structure: Any, kind: Any) -> Any:
        rows, count = (structure * 1)(), 0
        while True:
            needed, fault = _LEN(), _Fault()
            status = self._call(name, rows, count, ctypes.byref(needed), ctypes.byref(fault))
            if status != _SMALL:
                break
            count = needed.value
            rows = (structure * count)()
        _answer(status, fault)
        return [_tuple(row, kind) for row in rows[:count]]

    def findings(self) -> list[Finding]:
        """Its findings, in the order of their addresses: those that `check` counts. BlockSize, TooLarge."""
        return self._rows("jffs2_findings", _Finding, Finding)

    def nodes(self) -> list[Node]:
        """Its nodes of all kinds, in the order of their addresses. BlockSize, TooLarge."""
        return self._rows("jffs2_nodes", _Node, Node)

    def stat(self, path: str | bytes) -> Stat:
        """The object that a path leads to. Symlinks are not followed. BadPath, NotFound, NotDirectory, or an error
        because the image does not mount."""
        text, row, fault = os.fsencode(path), _Stat(), _Fault()
        at, length, _kept = _lent(text)
        _answer(self._call("jffs2_stat", at, length, ctypes.byref(row), ctypes.byref(fault)), fault)
        return _tuple(row, Stat)

    def read_at(self, number: int, offset: int, size: int) -> bytes:
        """The bytes of a regular file or a symlink from an offset on, at most `size`. Other objects have none."""
        out, got, fault = ctypes.create_string_buffer(size or 1), _LEN(), _Fault()
        _answer(self._call("jffs2_read", number, offset, out, size, ctypes.byref(got), ctypes.byref(fault)), fault)
        return out.raw[: got.value]

    def mount(self) -> Mount:
        """Mounts it and keeps the mount, so that further calls need not mount again. Compressed data are refused,
        whatever `through` is: decompress the image first. An error because the image does not mount."""
        return Mount(self)

    def read_many(self, wanted: Iterable[tuple[int, int, int]]) -> list[bytes]:
        """The bytes of many objects by one mount: for each (number, offset, size) the answer of `read_at`, in the same
        order. An object that is not there has none."""
        asked = [_Request(number, 0, offset, length) for number, offset, length in wanted]
        count, size = len(asked), 0
        requests, out = (_Request * (count or 1))(*asked), ctypes.create_string_buffer(1)
        while True:
            needed, fault = _LEN(), _Fault()
            status = self._call("jffs2_read_many", requests, count, out, size, ctypes.byref(needed), ctypes.byref(fault))
            if status != _SMALL:
                break
            size = needed.value
            out = ctypes.create_string_buffer(size)
        _answer(status, fault)
        text = out.raw
        return [text[it.at : it.at + it.got] for it in requests[:count]]

    def read(self, path: str | bytes) -> bytes:
        """All bytes of the regular file that a path leads to, or the target of the symlink."""
        found = self.stat(path)
        return self.read_at(found.number, 0, found.size)

    def tree(self) -> list[Entry]:
        """All names, by the number of their directory and then in byte order. The root, number 1, has none."""
        rows, names, row_count, name_bytes = (_Entry * 1)(), ctypes.create_string_buffer(1), 0, 0
        while True:
            needed, fault = _Needed(), _Fault()
            told = ctypes.byref(needed), ctypes.byref(fault)
            status = self._call("jffs2_tree", rows, row_count, names, name_bytes, *told)
            if status != _SMALL:
                break
            row_count, name_bytes = needed.rows, needed.bytes
            rows, names = (_Entry * row_count)(), ctypes.create_string_buffer(name_bytes or 1)
        _answer(status, fault)
        text = names.raw
        return [
            Entry(
                row.directory,
                text[row.name_at : row.name_at + row.name_len],
                row.object.number,
                _tuple(row.object, Stat) if row.is_there else None,
            )
            for row in rows[: needed.rows]
        ]

    def _bytes(self, name: str, size: int, *more: Any) -> bytes:
        while True:
            out, needed, fault = ctypes.create_string_buffer(size or 1), _LEN(), _Fault()
            status = self._call(name, *more, out, size, ctypes.byref(needed), ctypes.byref(fault))
            if status != _SMALL:
                break
            size = needed.value
        _answer(status, fault)
        return out.raw[: needed.value]

    def tree_text(self, path: str | bytes = "/") -> bytes:
        """The lines that `jffs2_image ls` prints of the object that a path names, and of what lies below it."""
        at, length, _kept = _lent(os.fsencode(path))
        return self._bytes("jffs2_tree_text", 0, at, length)

    def check_text(self, shape: bool = False) -> bytes:
        """What `jffs2_image check` prints; with the shape of its tree if `shape` is set. It need not mount."""
        return self._bytes("jffs2_check_text", 0, int(shape))

    def decompress(self) -> bytes:
        """The image of the same nodes with data not compressed."""
        return self._bytes("jffs2_decompress", self._length)

    def compress(self) -> bytes:
        """An image of the same nodes, with data of files compressed by ZLIB if that makes a node shorter."""
        return self._bytes("jffs2_compress", self._length)

    def compact(self, blocks: int) -> bytes:
        """The image of those nodes alone that matter, on an erased flash of so many blocks: it shows the same tree, and
        has no damage or dirt. Compressed data stay as they are."""
        return self._bytes("jffs2_compact", self._length, blocks)

    def cuts(
        self, listing: str | bytes, blocks: int, page: int = 4096, files: Mapping[str | bytes, Any] | None = None
    ) -> bytes:
        """What `jffs2_image cuts` prints of the operations of a listing on the image, on a flash of so many blocks:
        from which byte on each node that they write is whole. On an image of no bytes they make a new one. `files` has
        the bytes of the files that lines name. Listing, Refused, NoFile, Full, Page, ReadOnly, Geometry, or an error
        because the image does not mount."""
        work = _Work(listing, blocks, page, files)
        return self._bytes("jffs2_cuts", 0, *work.words())

    def append(
        self, listing: str | bytes, blocks: int, page: int = 4096, files: Mapping[str | bytes, Any] | None = None
    ) -> tuple[bytes, Written]:
        """The image with what the operations of a listing write behind its nodes, as `jffs2_image append`; on an image
        of no bytes a new one, as `jffs2_image build`. If an operation is refused or has no room, those before it are
        written, and the second part of the answer says why. Listing, NoFile, Page, ReadOnly, Geometry, or an error
        because the image does not mount."""
        work = _Work(listing, blocks, page, files)
        return self._written("jffs2_append", *work.words())

    def update(
        self,
        listing: str | bytes,
        blocks: int,
        page: int = 4096,
        files: Mapping[str | bytes, Any] | None = None,
        pack: bool = False,
    ) -> tuple[bytes, Written]:
        """The image of a device with what the operations of a listing write to its blank blocks and to the erased ends
        of the others; each other byte stays. The image is read through its compression. With `pack` new data of files
        are compressed by ZLIB if that makes a node shorter. Answer and errors as of `append`."""
        work = _Work(listing, blocks, page, files)
        target, *rest = work.words()
        return self._written("jffs2_update", target, int(pack), *rest)

    def _written(self, name: str, *words: Any) -> tuple[bytes, Written]:
        size = self._length
        while True:
            out, row, fault = ctypes.create_string_buffer(size or 1), _Written(), _Fault()
            status = self._call(name, *words, out, size, ctypes.byref(row), ctypes.byref(fault))
            if status != _SMALL:
                break
            size = row.bytes
        _answer(status, fault)
        return out.raw[: row.bytes], _tuple(row, Written)


if sys.byteorder != "little":
    raise ImportError("the library is for little-endian machines")
