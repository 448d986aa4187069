//! The library as C sees it (bindings/c/jffs2.h), and the memory that it asks for.

use std::alloc::{alloc, dealloc, realloc, Layout};

#[repr(C)]
#[derive(Clone, Copy, Default)]
pub struct How {
    pub block: u32,
    pub big: u32,
    pub through: u32,
}

#[repr(C)]
#[derive(Clone, Copy, Default)]
pub struct Fault {
    pub address: u32,
    pub detail: u32,
}

#[repr(C)]
#[derive(Clone, Copy, Default)]
pub struct Entry {
    pub directory: u32,
    pub is_there: u32,
    pub object: crate::Stat,
    pub name_at: u64,
    pub name_len: u64,
}

#[repr(C)]
#[derive(Debug)]
pub struct Handle {
    pub at: *mut u8,
    pub is_open: bool,
}

#[repr(C)]
#[derive(Clone, Copy, Default)]
pub struct Needed {
    pub rows: u64,
    pub bytes: u64,
}

#[repr(C)]
#[derive(Clone, Copy, Default)]
pub struct Request {
    pub number: u32,
    pub spare: u32,
    pub offset: u64,
    pub length: u64,
    pub at: u64,
    pub got: u64,
}

#[repr(C)]
#[derive(Clone, Copy, Default)]
pub struct InfoRow {
    pub bytes: u64,
    pub order: u32,
    pub least_block: u32,
    pub greatest_block: u32,
    pub highest_inode: u32,
    pub highest_version: u32,
    pub spare: u32,
    pub markers: u64,
    pub nodes: u64,
    pub other_order: u64,
    pub entries: u64,
    pub inodes: u64,
    pub obsolete: u64,
    pub damaged: u64,
    pub other: u64,
    pub data: [u64; 7],
}

#[repr(C)]
#[derive(Clone, Copy, Default)]
pub struct FileRow {
    pub name_at: u64,
    pub name_len: u64,
    pub at: u64,
    pub length: u64,
}

extern "C" {
    pub fn jffs2_crc(bytes: *const u8, len: usize) -> u32;
    pub fn jffs2_info(image: *const u8, len: usize, info: *mut InfoRow) -> u32;
    pub fn jffs2_check(
        image: *const u8,
        len: usize,
        how: *const How,
        counted: *mut crate::Counts,
        fault: *mut Fault,
    ) -> u32;
    pub fn jffs2_findings(
        image: *const u8,
        len: usize,
        how: *const How,
        rows: *mut crate::Finding,
        row_count: usize,
        needed: *mut usize,
        fault: *mut Fault,
    ) -> u32;
    pub fn jffs2_nodes(
        image: *const u8,
        len: usize,
        how: *const How,
        rows: *mut crate::Node,
        row_count: usize,
        needed: *mut usize,
        fault: *mut Fault,
    ) -> u32;
    pub fn jffs2_stat(
        image: *const u8,
        len: usize,
        how: *const How,
        path: *const u8,
        path_len: usize,
        stat: *mut crate::Stat,
        fault: *mut Fault,
    ) -> u32;
    pub fn jffs2_read(
        image: *const u8,
        len: usize,
        how: *const How,
        number: u32,
        offset: u64,
        out: *mut u8,
        out_len: usize,
        got: *mut usize,
        fault: *mut Fault,
    ) -> u32;
    pub fn jffs2_open(
        image: *const u8,
        len: usize,
        how: *const How,
        handle: *mut Handle,
        fault: *mut Fault,
    ) -> u32;
    pub fn jffs2_close(handle: *mut Handle) -> u32;
    pub fn jffs2_find(
        handle: *mut Handle,
        path: *const u8,
        path_len: usize,
        number: *mut u32,
        fault: *mut Fault,
    ) -> u32;
    pub fn jffs2_object(handle: *mut Handle, number: u32, stat: *mut crate::Stat) -> u32;
    pub fn jffs2_read_kept(
        handle: *mut Handle,
        number: u32,
        offset: u64,
        out: *mut u8,
        out_len: usize,
        got: *mut usize,
    ) -> u32;
    pub fn jffs2_read_many(
        image: *const u8,
        len: usize,
        how: *const How,
        requests: *mut Request,
        request_count: usize,
        out: *mut u8,
        out_len: usize,
        needed: *mut usize,
        fault: *mut Fault,
    ) -> u32;
    pub fn jffs2_tree(
        image: *const u8,
        len: usize,
        how: *const How,
        rows: *mut Entry,
        row_count: usize,
        names: *mut u8,
        names_len: usize,
        needed: *mut Needed,
        fault: *mut Fault,
    ) -> u32;
    pub fn jffs2_tree_text(
        image: *const u8,
        len: usize,
        how: *const How,
        path: *const u8,
        path_len: usize,
        out: *mut u8,
        out_len: usize,
        needed: *mut usize,
        fault: *mut Fault,
    ) -> u32;
    pub fn jffs2_check_text(
        image: *const u8,
        len: usize,
        how: *const How,
        shape: u32,
        out: *mut u8,
        out_len: usize,
        needed: *mut usize,
        fault: *mut Fault,
    ) -> u32;
    pub fn jffs2_decompress(
        image: *const u8,
        len: usize,
        how: *const How,
        out: *mut u8,
        out_len: usize,
        needed: *mut usize,
        fault: *mut Fault,
    ) -> u32;
    pub fn jffs2_compress(
        image: *const u8,
        len: usize,
        how: *const How,
        out: *mut u8,
        out_len: usize,
        needed: *mut usize,
        fault: *mut Fault,
    ) -> u32;
    pub fn jffs2_compact(
        image: *const u8,
        len: usize,
        how: *const How,
        blocks: u32,
        out: *mut u8,
        out_len: usize,
        needed: *mut usize,
        fault: *mut Fault,
    ) -> u32;
    pub fn jffs2_cuts(
        image: *const u8,
        len: usize,
        how: *const How,
        target: *const crate::Target,
        listing: *const u8,
        listing_len: usize,
        files: *const u8,
        files_len: usize,
        rows: *const FileRow,
        row_count: usize,
        out: *mut u8,
        out_len: usize,
        needed: *mut usize,
        fault: *mut Fault,
    ) -> u32;
    pub fn jffs2_append(
        image: *const u8,
        len: usize,
        how: *const How,
        target: *const crate::Target,
        listing: *const u8,
        listing_len: usize,
        files: *const u8,
        files_len: usize,
        rows: *const FileRow,
        row_count: usize,
        out: *mut u8,
        out_len: usize,
        written: *mut crate::Written,
        fault: *mut Fault,
    ) -> u32;
    pub fn jffs2_update(
        image: *const u8,
        len: usize,
        how: *const How,
        target: *const crate::Target,
        pack: u32,
        listing: *const u8,
        listing_len: usize,
        files: *const u8,
        files_len: usize,
        rows: *const FileRow,
        row_count: usize,
        out: *mut u8,
        out_len: usize,
        written: *mut crate::Written,
        fault: *mut Fault,
    ) -> u32;
}

// The library's memory is Rust's own, so no C is compiled. In front of each block stands its size,
// in 16 bytes, to which all blocks are aligned.

#[repr(C)]
pub struct Tried {
    ok: bool,
    at: *mut u8,
}

const HEAD: usize = 16;

/// What is pointed to where there is no memory. It is never read.
static NOTHING: u8 = 0;

fn none() -> Tried {
    Tried {
        ok: false,
        at: std::ptr::addr_of!(NOTHING).cast_mut(),
    }
}

fn layout(size: usize) -> Option<Layout> {
    Layout::from_size_align(size.checked_add(HEAD)?, HEAD).ok()
}

/// # Safety
/// `base` is null, or the start of a block of `HEAD + size` bytes.
unsafe fn headed(base: *mut u8, size: usize) -> Tried {
    if base.is_null() {
        return none();
    }
    base.cast::<usize>().write(size);
    Tried {
        ok: true,
        at: base.add(HEAD),
    }
}

#[no_mangle]
extern "C" fn rattle_alloc(size: usize, _align: usize) -> Tried {
    match layout(size) {
        Some(layout) => unsafe { headed(alloc(layout), size) },
        None => none(),
    }
}

#[no_mangle]
unsafe extern "C" fn rattle_realloc(
    old: *mut u8,
    _kept: usize,
    size: usize,
    _align: usize,
) -> Tried {
    let base = old.sub(HEAD);
    let had = *base.cast::<usize>();
    match (layout(had), layout(size)) {
        (Some(was), Some(new)) => headed(realloc(base, was, new.size()), size),
        _ => none(),
    }
}

#[no_mangle]
unsafe extern "C" fn rattle_dealloc(at: *mut u8) {
    let base = at.sub(HEAD);
    if let Some(layout) = layout(*base.cast::<usize>()) {
        dealloc(base, layout);
    }
}
