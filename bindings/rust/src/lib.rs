//! Images of JFFS2, the Journalling Flash File System 2: their files, their damage, the same nodes
//! decompressed, compressed or compacted, and images that operations make or go on with.
//!
//! `libjffs2_c.a`, which is proved, does the work. `docs/BINDINGS.md` of the repository says what
//! is proved and what is only trusted. The duties of the library's caller follow from Rust's types,
//! so no call here is `unsafe`. The crate has no dependencies, and calls may run in any threads at
//! once.
//!
//! ```no_run
//! let bytes = std::fs::read("dump.img")?;
//! let image = jffs2::Image::new(&bytes, 65536, jffs2::Order::Little).through(true);
//! for entry in image.tree()?.entries() {
//!     println!("{} {}", entry.directory, String::from_utf8_lossy(entry.name));
//! }
//! let text = image.read(b"/etc/passwd")?;
//! # Ok::<(), Box<dyn std::error::Error>>(())
//! ```
#![deny(missing_docs)]

mod sys;

use std::fmt;

/// The byte order of an image. `Image::info` of an unknown one says which it is.
#[derive(Clone, Copy, Debug, PartialEq, Eq)]
pub enum Order {
    /// The least byte of a number first.
    Little,
    /// The greatest byte of a number first.
    Big,
}

/// Why a call gives no answer. Addresses are in bytes from the start of the image.
#[derive(Clone, Copy, Debug, PartialEq, Eq)]
#[non_exhaustive]
pub enum Error {
    /// Blocks of this size are not read: they have 4 KiB to 4 MiB, and a multiple of 4.
    BlockSize,
    /// The image is longer than 256 MiB.
    TooLarge,
    /// The node at this address may not be skipped, and its type is not known.
    Incompatible {
        /// The address of the node.
        address: u32,
        /// Its type.
        nodetype: u32,
    },
    /// The data of the node at this address are compressed by a method that is not read, or
    /// `through` is not set.
    Compressed {
        /// The address of the node.
        address: u32,
        /// The number of the method.
        method: u32,
    },
    /// The node at this address contradicts one at a lower address.
    Clash {
        /// The address of the node.
        address: u32,
    },
    /// The root is not a directory.
    RootKind,
    /// There is no memory.
    OutOfMemory,
    /// The text is not a path: it has to begin with a slash.
    BadPath,
    /// The path names nothing.
    NotFound,
    /// The path goes on after something that is not a directory.
    NotDirectory,
    /// The data of the node at this address do not decompress.
    Data {
        /// The address of the node.
        address: u32,
    },
    /// Decompressed, the node at this address is too long.
    TooLong {
        /// The address of the node.
        address: u32,
    },
    /// A node says that the image may not be written.
    ReadOnly,
    /// Blocks of this size are not written: they have at least 8 KiB.
    Geometry,
    /// The flash has no room for the operation at this line of the listing; or, if it is 0, for the
    /// nodes.
    Full {
        /// The line, from 1 on, or 0.
        line: u32,
    },
    /// Files are cut by pages of 4096, 8192 or 16384 bytes.
    Page,
    /// This line of the listing means nothing.
    Listing {
        /// The line, from 1 on.
        line: u32,
        /// 1 a space at its start, 2 two spaces, 3 a space at its end, 4 a carriage return, 5 an
        /// unknown name, 6 too few words, 7 too many, 8 a wrong word.
        rule: u32,
    },
    /// The operation at this line is refused.
    Refused {
        /// The line, from 1 on.
        line: u32,
        /// 1 to 12 for O1 to O12 of the manual page.
        reason: u32,
    },
    /// This line names a file that is not given.
    NoFile {
        /// The line, from 1 on.
        line: u32,
    },
    /// A number that this crate does not know.
    Other {
        /// The number.
        status: u32,
    },
}

impl fmt::Display for Error {
    fn fmt(&self, f: &mut fmt::Formatter<'_>) -> fmt::Result {
        match self {
            Error::BlockSize => write!(f, "the block size is not read"),
            Error::TooLarge => write!(f, "the image is longer than 256 MiB"),
            Error::Incompatible { address, nodetype } => {
                write!(
                    f,
                    "incompatible node of type {nodetype:04x} at {address:08x}"
                )
            }
            Error::Compressed { address, method } => {
                write!(f, "compressed data of method {method} at {address:08x}")
            }
            Error::Clash { address } => write!(f, "the node at {address:08x} clashes"),
            Error::RootKind => write!(f, "the root is no directory"),
            Error::OutOfMemory => write!(f, "out of memory"),
            Error::BadPath => write!(f, "no path"),
            Error::NotFound => write!(f, "not found"),
            Error::NotDirectory => write!(f, "not a directory"),
            Error::Data { address } => write!(f, "data at {address:08x} do not decompress"),
            Error::TooLong { address } => write!(f, "the node at {address:08x} gets too long"),
            Error::ReadOnly => write!(f, "the image may not be written"),
            Error::Geometry => write!(f, "blocks of this size are not written"),
            Error::Full { line: 0 } => write!(f, "the flash has no room for the nodes"),
            Error::Full { line } => write!(f, "the flash has no room for line {line}"),
            Error::Page => write!(f, "files are not cut by such pages"),
            Error::Listing { line, rule } => write!(f, "line {line} means nothing: rule {rule}"),
            Error::Refused { line, reason } => write!(f, "line {line} is refused: O{reason}"),
            Error::NoFile { line } => write!(f, "line {line} names a file that is not given"),
            Error::Other { status } => write!(f, "status {status}"),
        }
    }
}

impl std::error::Error for Error {}

fn error(status: u32, fault: sys::Fault) -> Error {
    let address = fault.address;
    match status {
        1 => Error::BlockSize,
        2 => Error::TooLarge,
        3 => Error::Incompatible {
            address,
            nodetype: fault.detail,
        },
        4 => Error::Compressed {
            address,
            method: fault.detail,
        },
        5 => Error::Clash { address },
        6 => Error::RootKind,
        7 => Error::OutOfMemory,
        10 => Error::BadPath,
        11 => Error::NotFound,
        12 => Error::NotDirectory,
        20 => Error::Data { address },
        21 => Error::TooLong { address },
        22 => Error::ReadOnly,
        23 => Error::Geometry,
        24 => Error::Full { line: address },
        25 => Error::Page,
        30 => Error::Listing {
            line: address,
            rule: fault.detail,
        },
        31 => Error::Refused {
            line: address,
            reason: fault.detail,
        },
        33 => Error::NoFile { line: address },
        status => Error::Other { status },
    }
}

fn answer<T>(status: u32, fault: sys::Fault, found: T) -> Result<T, Error> {
    match status {
        0 => Ok(found),
        _ => Err(error(status, fault)),
    }
}

/// The checksum of bytes, as in nodes: CRC-32 without the two complements.
pub fn crc(bytes: &[u8]) -> u32 {
    unsafe { sys::jffs2_crc(bytes.as_ptr(), bytes.len()) }
}

/// How many blocks, sound nodes and findings an image has.
#[repr(C)]
#[derive(Clone, Copy, Debug, Default, PartialEq, Eq)]
pub struct Counts {
    /// Erase blocks, the last one also if it is not complete.
    pub blocks: u64,
    /// Sound entry nodes: names.
    pub entries: u64,
    /// Sound inode nodes whose data are not compressed.
    pub inodes: u64,
    /// Nodes that are not read, and runs of bytes that are neither nodes nor erased.
    pub findings: u64,
}

/// An object with its number: its whole mode, its owners, its size in bytes, its times in seconds.
#[repr(C)]
#[derive(Clone, Copy, Debug, Default, PartialEq, Eq)]
pub struct Stat {
    /// Its inode number. The root's is 1.
    pub number: u32,
    /// Kind and permissions, as Linux has them.
    pub mode: u32,
    /// Its owner.
    pub uid: u32,
    /// Its group.
    pub gid: u32,
    /// In bytes.
    pub size: u32,
    /// When it was read, in seconds from 1970.
    pub atime: u32,
    /// When its bytes were changed.
    pub mtime: u32,
    /// When it was changed.
    pub ctime: u32,
}

impl Stat {
    /// Whether it is a directory.
    pub fn is_directory(&self) -> bool {
        self.mode & 0o170000 == 0o040000
    }

    /// Whether it is a regular file.
    pub fn is_file(&self) -> bool {
        self.mode & 0o170000 == 0o100000
    }

    /// Whether it is a symlink. Its bytes are its target.
    pub fn is_symlink(&self) -> bool {
        self.mode & 0o170000 == 0o120000
    }
}

/// The parameters of an image of unknown block size and byte order.
#[derive(Clone, Copy, Debug, PartialEq, Eq)]
pub struct Info {
    /// Its length in bytes.
    pub bytes: u64,
    /// Its byte order; none if no node is good.
    pub order: Option<Order>,
    /// The least and the greatest size that its blocks may have, if that is known.
    pub blocks: Option<(u32, u32)>,
    /// Its nodes in that order.
    pub nodes: u64,
    /// Good headers in the other order.
    pub other_order: u64,
    /// Damaged nodes.
    pub damaged: u64,
    /// The greatest inode number, and the greatest version.
    pub highest: (u32, u32),
    /// Inode nodes by how their data are stored: as they are, zeros, RTIME, ZLIB, LZO, LZMA,
    /// otherwise.
    pub data: [u64; 7],
}

/// The parameters of an image of unknown block size and byte order.
///
/// # Errors
/// `TooLarge`.
pub fn info(image: &[u8]) -> Result<Info, Error> {
    let mut row = sys::InfoRow::default();
    let status = unsafe { sys::jffs2_info(image.as_ptr(), image.len(), &mut row) };
    let found = Info {
        bytes: row.bytes,
        order: match row.order {
            1 => Some(Order::Little),
            2 => Some(Order::Big),
            _ => None,
        },
        blocks: (row.least_block != 0).then_some((row.least_block, row.greatest_block)),
        nodes: row.nodes,
        other_order: row.other_order,
        damaged: row.damaged,
        highest: (row.highest_inode, row.highest_version),
        data: row.data,
    };
    answer(status, sys::Fault::default(), found)
}

/// A problem at an address.
#[repr(C)]
#[derive(Clone, Copy, Debug, Default, PartialEq, Eq)]
pub struct Finding {
    /// Where it begins, in bytes from the start of the image.
    pub address: u32,
    /// In bytes.
    pub length: u32,
    /// 1 a damaged node, 2 one of extended attributes, 3 one after which nothing may be written, 4
    /// words of the other byte order, 5 other words, 6 a node that may not be skipped, 7 a sound
    /// inode node whose data are compressed.
    pub kind: u32,
    /// At 1 the check that failed (1 the node's checksum, 2 the name's, 3 the data's, 4 a length, 5
    /// a range), at 3 and 6 the type, at 7 the number of the compression; else 0.
    pub detail: u32,
}

/// A node: its kind, and each of its fields; 0 if it has no such field.
#[repr(C)]
#[derive(Clone, Copy, Debug, Default, PartialEq, Eq)]
pub struct Node {
    /// Where it begins, in bytes from the start of the image.
    pub address: u32,
    /// In bytes, with those up to the next word.
    pub length: u32,
    /// 1 an entry, 2 an inode, 3 a clean marker, 4 padding, 5 obsolete, 6 of extended attributes, 7
    /// of a type that may be skipped, 8 of a type that forbids writing, 9 of one
    /// that may not be skipped, 10 an inode whose data are compressed, 11 damaged.
    pub kind: u32,
    /// The type at 7 to 9, the check that failed at 11.
    pub detail: u32,
    /// The object.
    pub number: u32,
    /// Its version.
    pub version: u32,
    /// Of an entry: the directory.
    pub directory: u32,
    /// Of an entry: the time, in seconds from 1970.
    pub entry_time: u32,
    /// Of an entry: bits 12 to 15 of the object's mode.
    pub entry_type: u32,
    /// Of an inode: kind and permissions.
    pub mode: u32,
    /// Its owner.
    pub uid: u32,
    /// Its group.
    pub gid: u32,
    /// The size of the whole object in bytes.
    pub size: u32,
    /// When it was read.
    pub atime: u32,
    /// When its bytes were changed.
    pub mtime: u32,
    /// When it was changed.
    pub ctime: u32,
    /// The offset in the object from which on it gives bytes.
    pub offset: u32,
    /// The number of these bytes.
    pub range: u32,
    /// How these are stored: 0 as they are, 1 zeros, else the number of the compression.
    pub method: u32,
    /// 0.
    pub spare: u32,
    /// The bytes that the data take in the node, from 68 behind its address on. Of an entry: the
    /// bytes of the name, from 40 on.
    pub stored: u64,
}

/// A request for bytes of an object: its number, the first byte, and how many at most.
#[derive(Clone, Copy, Debug, PartialEq, Eq)]
pub struct Wanted {
    /// The number of the object.
    pub number: u32,
    /// The first byte.
    pub offset: u64,
    /// How many bytes at most.
    pub length: u64,
}

/// A name of a directory.
#[derive(Clone, Copy, Debug, PartialEq, Eq)]
pub struct Entry<'t> {
    /// The number of the directory.
    pub directory: u32,
    /// The name: any bytes but `/` and 0.
    pub name: &'t [u8],
    /// The number of its object.
    pub number: u32,
    /// That object, if it is there.
    pub object: Option<Stat>,
}

/// The names of an image.
#[derive(Clone, Default)]
pub struct Tree {
    rows: Vec<sys::Entry>,
    names: Vec<u8>,
}

impl Tree {
    /// All names, by the number of their directory and then in byte order. The root has none.
    pub fn entries(&self) -> impl Iterator<Item = Entry<'_>> + '_ {
        self.rows.iter().map(|row| Entry {
            directory: row.directory,
            name: &self.names[row.name_at as usize..][..row.name_len as usize],
            number: row.object.number,
            object: (row.is_there != 0).then_some(row.object),
        })
    }

    /// The names of one directory, in byte order.
    pub fn directory(&self, number: u32) -> impl Iterator<Item = Entry<'_>> + '_ {
        self.entries().filter(move |it| it.directory == number)
    }
}

/// The flash that is written.
#[repr(C)]
#[derive(Clone, Copy, Debug, PartialEq, Eq)]
pub struct Target {
    /// How many blocks it has.
    pub blocks: u32,
    /// The bytes of the page by which files are cut: 4096, 8192 or 16384.
    pub page: u32,
}

/// A file that a listing may name.
#[derive(Clone, Copy, Debug, PartialEq, Eq)]
pub struct File<'f> {
    /// The name that lines have. The first file of a name counts.
    pub name: &'f [u8],
    /// Its bytes.
    pub bytes: &'f [u8],
}

/// What `append` wrote.
#[repr(C)]
#[derive(Clone, Copy, Debug, Default, PartialEq, Eq)]
pub struct Written {
    /// The bytes of the new image.
    pub bytes: u64,
    /// How many operations were accepted, from the first on.
    pub accepted: u64,
    /// How many nodes these have.
    pub nodes: u64,
    /// 0 if all were accepted, else the number of what `stopped` tells.
    pub stop: u32,
    /// The line of the operation that was not, else 0.
    pub line: u32,
    /// The reason if it was refused, else 0.
    pub detail: u32,
    /// 0.
    pub spare: u32,
}

impl Written {
    /// Why the operation after the accepted ones was not: `Full` or `Refused`. None if all were
    /// accepted.
    pub fn stopped(&self) -> Option<Error> {
        let fault = sys::Fault {
            address: self.line,
            detail: self.detail,
        };
        (self.stop != 0).then(|| error(self.stop, fault))
    }
}

/// The bytes of files, one after the other, and where each has its own.
struct Lent {
    bytes: Vec<u8>,
    rows: Vec<sys::FileRow>,
}

impl Lent {
    fn of(files: &[File<'_>]) -> Self {
        let (mut bytes, mut rows) = (Vec::new(), Vec::new());
        for file in files {
            let name_at = bytes.len() as u64;
            bytes.extend_from_slice(file.name);
            let at = bytes.len() as u64;
            bytes.extend_from_slice(file.bytes);
            rows.push(sys::FileRow {
                name_at,
                name_len: file.name.len() as u64,
                at,
                length: file.bytes.len() as u64,
            });
        }
        Lent { bytes, rows }
    }
}

/// An image in memory, with its block size and byte order, which it does not record. It borrows the
/// bytes.
#[derive(Clone, Copy)]
pub struct Image<'a> {
    bytes: &'a [u8],
    how: sys::How,
}

/// The mount of an image, kept until it is dropped. It stays in its thread.
#[derive(Debug)]
pub struct Mount<'a> {
    handle: sys::Handle,
    image: std::marker::PhantomData<&'a [u8]>,
}

impl Mount<'_> {
    /// The number of the object that a path leads to. Symlinks are not followed.
    ///
    /// # Errors
    /// `BadPath`, `NotFound`, `NotDirectory`.
    pub fn find(&mut self, path: &[u8]) -> Result<u32, Error> {
        let (mut number, mut fault) = (0, sys::Fault::default());
        let status = unsafe {
            sys::jffs2_find(
                &mut self.handle,
                path.as_ptr(),
                path.len(),
                &mut number,
                &mut fault,
            )
        };
        answer(status, fault, number)
    }

    /// The object of a number.
    ///
    /// # Errors
    /// `NotFound`.
    pub fn object(&mut self, number: u32) -> Result<Stat, Error> {
        let mut stat = Stat::default();
        let status = unsafe { sys::jffs2_object(&mut self.handle, number, &mut stat) };
        answer(status, sys::Fault::default(), stat)
    }

    /// Reads bytes of an object, as `Image::read_at` does.
    ///
    /// # Errors
    /// None while the mount is there.
    pub fn read_at(&mut self, number: u32, offset: u64, out: &mut [u8]) -> Result<usize, Error> {
        let mut got = 0;
        let status = unsafe {
            sys::jffs2_read_kept(
                &mut self.handle,
                number,
                offset,
                out.as_mut_ptr(),
                out.len(),
                &mut got,
            )
        };
        answer(status, sys::Fault::default(), got)
    }
}

impl Drop for Mount<'_> {
    fn drop(&mut self) {
        unsafe { sys::jffs2_close(&mut self.handle) };
    }
}

impl<'a> Image<'a> {
    /// An image with erase blocks of `block` bytes, in a byte order. This call reads nothing of it.
    pub fn new(bytes: &'a [u8], block: u32, order: Order) -> Self {
        let how = sys::How {
            block,
            big: u32::from(order == Order::Big),
            through: 0,
        };
        Image { bytes, how }
    }

    /// The same, and whether `stat`, `read_at`, `read`, `read_many`, `tree` and `tree_text` read
    /// compressed data (`true`) or refuse them (`false`, the default).
    #[must_use]
    pub fn through(mut self, through: bool) -> Self {
        self.how.through = u32::from(through);
        self
    }

    /// Counts what it contains. It need not mount.
    ///
    /// # Errors
    /// `BlockSize`, `TooLarge`.
    pub fn check(&self) -> Result<Counts, Error> {
        let (mut counts, mut fault) = (Counts::default(), sys::Fault::default());
        let status = unsafe {
            sys::jffs2_check(
                self.bytes.as_ptr(),
                self.bytes.len(),
                &self.how,
                &mut counts,
                &mut fault,
            )
        };
        answer(status, fault, counts)
    }

    /// Its findings, in the order of their addresses: those that `check` counts.
    ///
    /// # Errors
    /// `BlockSize`, `TooLarge`.
    pub fn findings(&self) -> Result<Vec<Finding>, Error> {
        self.rows(sys::jffs2_findings)
    }

    /// Its nodes, in the order of their addresses, whatever each is seen as.
    ///
    /// # Errors
    /// `BlockSize`, `TooLarge`.
    pub fn nodes(&self) -> Result<Vec<Node>, Error> {
        self.rows(sys::jffs2_nodes)
    }

    fn rows<R: Copy + Default>(&self, give: Give<R>) -> Result<Vec<R>, Error> {
        let mut rows: Vec<R> = Vec::new();
        loop {
            let (mut needed, mut fault) = (0, sys::Fault::default());
            let status = unsafe {
                give(
                    self.bytes.as_ptr(),
                    self.bytes.len(),
                    &self.how,
                    rows.as_mut_ptr(),
                    rows.len(),
                    &mut needed,
                    &mut fault,
                )
            };
            if status != SMALL {
                return answer(status, fault, rows);
            }
            rows.resize(needed, R::default());
        }
    }

    /// What a path leads to. Symlinks are not followed.
    ///
    /// # Errors
    /// That it does not mount; `BadPath`, `NotFound`, `NotDirectory`.
    pub fn stat(&self, path: &[u8]) -> Result<Stat, Error> {
        let (mut stat, mut fault) = (Stat::default(), sys::Fault::default());
        let status = unsafe {
            sys::jffs2_stat(
                self.bytes.as_ptr(),
                self.bytes.len(),
                &self.how,
                path.as_ptr(),
                path.len(),
                &mut stat,
                &mut fault,
            )
        };
        answer(status, fault, stat)
    }

    /// Reads bytes of a regular file or a symlink from an offset on, as many as there is room for,
    /// and answers how many these are; 0 of what is neither.
    ///
    /// # Errors
    /// That it does not mount. `out` is then as it was.
    pub fn read_at(&self, number: u32, offset: u64, out: &mut [u8]) -> Result<usize, Error> {
        let (mut got, mut fault) = (0, sys::Fault::default());
        let status = unsafe {
            sys::jffs2_read(
                self.bytes.as_ptr(),
                self.bytes.len(),
                &self.how,
                number,
                offset,
                out.as_mut_ptr(),
                out.len(),
                &mut got,
                &mut fault,
            )
        };
        answer(status, fault, got)
    }

    /// Mounts it and keeps the mount, so that further calls need not mount again. Compressed data
    /// are refused, whatever `through` says: decompress the image first.
    ///
    /// # Errors
    /// That it does not mount.
    pub fn mount(&self) -> Result<Mount<'a>, Error> {
        let mut mount = Mount {
            handle: sys::Handle {
                at: std::ptr::null_mut(),
                is_open: false,
            },
            image: std::marker::PhantomData,
        };
        let mut fault = sys::Fault::default();
        let status = unsafe {
            sys::jffs2_open(
                self.bytes.as_ptr(),
                self.bytes.len(),
                &self.how,
                &mut mount.handle,
                &mut fault,
            )
        };
        answer(status, fault, mount)
    }

    /// The bytes of many objects by one mount, in the order in which they are asked for: of each as
    /// `read_at` answers it. An object that is not there has none.
    ///
    /// # Errors
    /// That it does not mount.
    pub fn read_many(&self, wanted: &[Wanted]) -> Result<Vec<Vec<u8>>, Error> {
        let mut requests: Vec<_> = wanted
            .iter()
            .map(|it| sys::Request {
                number: it.number,
                offset: it.offset,
                length: it.length,
                ..sys::Request::default()
            })
            .collect();
        let mut out = Vec::new();
        loop {
            let (mut needed, mut fault) = (0, sys::Fault::default());
            let status = unsafe {
                sys::jffs2_read_many(
                    self.bytes.as_ptr(),
                    self.bytes.len(),
                    &self.how,
                    requests.as_mut_ptr(),
                    requests.len(),
                    out.as_mut_ptr(),
                    out.len(),
                    &mut needed,
                    &mut fault,
                )
            };
            if status != SMALL {
                let bytes_of =
                    |it: &sys::Request| out[it.at as usize..][..it.got as usize].to_vec();
                answer(status, fault, ())?;
                return Ok(requests.iter().map(bytes_of).collect());
            }
            out.resize(needed, 0);
        }
    }

    /// All bytes of the object that a path leads to.
    ///
    /// # Errors
    /// As `stat`.
    pub fn read(&self, path: &[u8]) -> Result<Vec<u8>, Error> {
        let stat = self.stat(path)?;
        let mut out = vec![0; stat.size as usize];
        let got = self.read_at(stat.number, 0, &mut out)?;
        out.truncate(got);
        Ok(out)
    }

    /// All names, with their objects. It calls the library twice: for the sizes, and then for the
    /// names.
    ///
    /// # Errors
    /// That it does not mount.
    pub fn tree(&self) -> Result<Tree, Error> {
        let mut tree = Tree::default();
        loop {
            let (mut needed, mut fault) = (sys::Needed::default(), sys::Fault::default());
            let status = unsafe {
                sys::jffs2_tree(
                    self.bytes.as_ptr(),
                    self.bytes.len(),
                    &self.how,
                    tree.rows.as_mut_ptr(),
                    tree.rows.len(),
                    tree.names.as_mut_ptr(),
                    tree.names.len(),
                    &mut needed,
                    &mut fault,
                )
            };
            if status != SMALL {
                return answer(status, fault, tree);
            }
            tree.rows
                .resize(needed.rows as usize, sys::Entry::default());
            tree.names.resize(needed.bytes as usize, 0);
        }
    }

    /// The lines that `jffs2_image ls` prints of the object that a path names, and of what lies
    /// below it: of `/` those of the whole image.
    ///
    /// # Errors
    /// That it does not mount; `BadPath`, `NotFound`, `NotDirectory`.
    pub fn tree_text(&self, path: &[u8]) -> Result<Vec<u8>, Error> {
        bytes_of(0, |out, out_len, needed, fault| unsafe {
            sys::jffs2_tree_text(
                self.bytes.as_ptr(),
                self.bytes.len(),
                &self.how,
                path.as_ptr(),
                path.len(),
                out,
                out_len,
                needed,
                fault,
            )
        })
    }

    /// What `jffs2_image check` prints; with the shape of its tree if `shape` is set. It need not
    /// mount.
    ///
    /// # Errors
    /// `BlockSize`, `TooLarge`, `OutOfMemory`.
    pub fn check_text(&self, shape: bool) -> Result<Vec<u8>, Error> {
        bytes_of(0, |out, out_len, needed, fault| unsafe {
            sys::jffs2_check_text(
                self.bytes.as_ptr(),
                self.bytes.len(),
                &self.how,
                u32::from(shape),
                out,
                out_len,
                needed,
                fault,
            )
        })
    }

    /// The image of the same nodes with data not compressed.
    ///
    /// # Errors
    /// `BlockSize` to `Compressed`, `OutOfMemory`, `Data` to `Full`.
    pub fn decompress(&self) -> Result<Vec<u8>, Error> {
        self.made(sys::jffs2_decompress)
    }

    /// An image of the same nodes, with data of files compressed by ZLIB if that makes a node
    /// shorter.
    ///
    /// # Errors
    /// `BlockSize` to `Compressed`, `OutOfMemory`, `TooLong` to `Full`.
    pub fn compress(&self) -> Result<Vec<u8>, Error> {
        self.made(sys::jffs2_compress)
    }

    /// The image of those nodes alone that matter, on an erased flash of so many blocks: it shows the
    /// same tree, and has no damage or dirt. Compressed data stay as they are.
    ///
    /// # Errors
    /// That it does not mount through its compression; `TooLong` to `Full`.
    pub fn compact(&self, blocks: u32) -> Result<Vec<u8>, Error> {
        bytes_of(self.bytes.len(), |out, out_len, needed, fault| unsafe {
            sys::jffs2_compact(
                self.bytes.as_ptr(),
                self.bytes.len(),
                &self.how,
                blocks,
                out,
                out_len,
                needed,
                fault,
            )
        })
    }

    /// What `jffs2_image cuts` prints of the operations of a listing on the image: from which byte
    /// on each node that they write is whole. On an image of no bytes they make a new one.
    ///
    /// # Errors
    /// That it does not mount; `ReadOnly` to `NoFile`.
    pub fn cuts(
        &self,
        target: &Target,
        listing: &[u8],
        files: &[File<'_>],
    ) -> Result<Vec<u8>, Error> {
        let lent = Lent::of(files);
        bytes_of(0, |out, out_len, needed, fault| unsafe {
            sys::jffs2_cuts(
                self.bytes.as_ptr(),
                self.bytes.len(),
                &self.how,
                target,
                listing.as_ptr(),
                listing.len(),
                lent.bytes.as_ptr(),
                lent.bytes.len(),
                lent.rows.as_ptr(),
                lent.rows.len(),
                out,
                out_len,
                needed,
                fault,
            )
        })
    }

    /// The image with what the operations of a listing write behind its nodes, as `jffs2_image
    /// append`; on an image of no bytes a new one, as `jffs2_image build`. If an operation is refused
    /// or has no room, those before it are written, and [`Written::stopped`] says why.
    ///
    /// # Errors
    /// That it does not mount; `ReadOnly`, `Geometry`, `Page`, `Listing`, `NoFile`.
    pub fn append(
        &self,
        target: &Target,
        listing: &[u8],
        files: &[File<'_>],
    ) -> Result<(Vec<u8>, Written), Error> {
        let lent = Lent::of(files);
        self.written(|out, out_len, written, fault| unsafe {
            sys::jffs2_append(
                self.bytes.as_ptr(),
                self.bytes.len(),
                &self.how,
                target,
                listing.as_ptr(),
                listing.len(),
                lent.bytes.as_ptr(),
                lent.bytes.len(),
                lent.rows.as_ptr(),
                lent.rows.len(),
                out,
                out_len,
                written,
                fault,
            )
        })
    }

    /// The image of a device with what the operations of a listing write to its blank blocks and to
    /// the erased ends of the others; each other byte stays. The image is read through its
    /// compression. With `pack` new data of files are compressed by ZLIB if that makes a node
    /// shorter. It stops as `append` does.
    ///
    /// # Errors
    /// As `append`, and `Data`, `TooLong`.
    pub fn update(
        &self,
        target: &Target,
        pack: bool,
        listing: &[u8],
        files: &[File<'_>],
    ) -> Result<(Vec<u8>, Written), Error> {
        let lent = Lent::of(files);
        self.written(|out, out_len, written, fault| unsafe {
            sys::jffs2_update(
                self.bytes.as_ptr(),
                self.bytes.len(),
                &self.how,
                target,
                u32::from(pack),
                listing.as_ptr(),
                listing.len(),
                lent.bytes.as_ptr(),
                lent.bytes.len(),
                lent.rows.as_ptr(),
                lent.rows.len(),
                out,
                out_len,
                written,
                fault,
            )
        })
    }

    fn written(
        &self,
        give: impl Fn(*mut u8, usize, &mut Written, &mut sys::Fault) -> u32,
    ) -> Result<(Vec<u8>, Written), Error> {
        let mut out = vec![0; self.bytes.len()];
        loop {
            let (mut written, mut fault) = (Written::default(), sys::Fault::default());
            let status = give(out.as_mut_ptr(), out.len(), &mut written, &mut fault);
            if status != SMALL {
                out.truncate(written.bytes as usize);
                return answer(status, fault, (out, written));
            }
            out.resize(written.bytes as usize, 0);
        }
    }

    fn made(&self, make: Make) -> Result<Vec<u8>, Error> {
        bytes_of(self.bytes.len(), |out, out_len, needed, fault| unsafe {
            make(
                self.bytes.as_ptr(),
                self.bytes.len(),
                &self.how,
                out,
                out_len,
                needed,
                fault,
            )
        })
    }
}

/// What a call gives, which is asked with room for so many bytes, and again with as many as it
/// needs.
fn bytes_of(
    guess: usize,
    give: impl Fn(*mut u8, usize, &mut usize, &mut sys::Fault) -> u32,
) -> Result<Vec<u8>, Error> {
    let mut out = vec![0; guess];
    loop {
        let (mut needed, mut fault) = (0, sys::Fault::default());
        let status = give(out.as_mut_ptr(), out.len(), &mut needed, &mut fault);
        if status != SMALL {
            out.truncate(needed);
            return answer(status, fault, out);
        }
        out.resize(needed, 0);
    }
}

const SMALL: u32 = 9;

type Give<R> = unsafe extern "C" fn(
    *const u8,
    usize,
    *const sys::How,
    *mut R,
    usize,
    *mut usize,
    *mut sys::Fault,
) -> u32;

type Make = unsafe extern "C" fn(
    *const u8,
    usize,
    *const sys::How,
    *mut u8,
    usize,
    *mut usize,
    *mut sys::Fault,
) -> u32;
