//! Each call once, on an image that `mkfs.jffs2` compressed. `JFFS2_TEST_DATA` names the folder of
//! tests/data of the repository, which is beside this crate unless it is told otherwise.
use jffs2::{crc, info, Error, File, Image, Order, Target, Wanted};

fn data() -> Vec<u8> {
    let folder = std::env::var("JFFS2_TEST_DATA")
        .unwrap_or_else(|_| concat!(env!("CARGO_MANIFEST_DIR"), "/../../tests/data").to_string());
    std::fs::read(folder + "/default.img").unwrap()
}

fn image(bytes: &[u8]) -> Image<'_> {
    Image::new(bytes, 8192, Order::Little).through(true)
}

#[test]
fn checksums() {
    // CRC-32 without the two complements, of the usual nine digits
    assert_eq!(crc(b""), 0);
    assert_eq!(crc(b"123456789"), 0x2dfd_2d88);
}

#[test]
fn tells_of_itself() {
    let bytes = data();
    let found = info(&bytes).unwrap();
    assert_eq!(found.order, Some(Order::Little));
    assert_eq!(found.blocks, Some((8192, 8192)));
    assert_eq!((found.bytes, found.nodes), (8292, 31));
    assert_eq!(found.data, [9, 0, 1, 6, 0, 0, 0]);
    assert_eq!(info(&[]).unwrap().order, None);
}

#[test]
fn reads() {
    let bytes = data();
    let image = image(&bytes);
    let text = b"root:x:0:0:root:/root:/bin/sh\n";
    assert_eq!(image.read(b"/etc/passwd").unwrap(), text);
    let number = image.stat(b"/etc/passwd").unwrap().number;
    let mut out = [7; 6];
    assert_eq!(image.read_at(number, 26, &mut out), Ok(4));
    assert_eq!(&out, b"/sh\n\x07\x07");
    assert_eq!(image.read_at(999, 0, &mut out), Ok(0));
}

#[test]
fn keeps_a_mount() {
    let bytes = data();
    let plain = image(&bytes).decompress().unwrap();
    let image = Image::new(&plain, 8192, Order::Little);
    let mut mount = image.mount().unwrap();
    let number = mount.find(b"/etc/passwd").unwrap();
    assert_eq!(mount.object(number), image.stat(b"/etc/passwd"));
    let mut out = [7; 6];
    assert_eq!(mount.read_at(number, 26, &mut out), Ok(4));
    assert_eq!(&out, b"/sh\n\x07\x07");
    assert_eq!(mount.find(b"/nothing"), Err(Error::NotFound));
    assert_eq!(mount.object(999), Err(Error::NotFound));
    let packed = Image::new(&bytes, 8192, Order::Little).through(true);
    assert!(matches!(packed.mount(), Err(Error::Compressed { .. })));
}

#[test]
fn reads_many() {
    let bytes = data();
    let image = image(&bytes);
    let of = |number, offset, length| Wanted {
        number,
        offset,
        length,
    };
    let tree = image.tree().unwrap();
    let all: Vec<_> = tree.entries().map(|it| of(it.number, 1, 5000)).collect();
    let found = image.read_many(&all).unwrap();
    for (it, bytes) in all.iter().zip(&found) {
        let mut out = vec![0; it.length as usize];
        let got = image.read_at(it.number, it.offset, &mut out).unwrap();
        assert_eq!(bytes, &out[..got]);
    }
    assert!(found.iter().any(|bytes| !bytes.is_empty()));
    let number = image.stat(b"/etc/passwd").unwrap().number;
    let few = [of(999, 0, 9), of(number, 26, 99), of(number, 0, 4)];
    let found = image.read_many(&few).unwrap();
    assert_eq!(found, [b"".to_vec(), b"/sh\n".to_vec(), b"root".to_vec()]);
    assert_eq!(image.read_many(&[]), Ok(Vec::new()));
    assert!(image.read_many(&[of(number, 0, u64::MAX); 3]).is_ok());
    let plain = Image::new(&bytes, 8192, Order::Little);
    assert!(matches!(
        plain.read_many(&few),
        Err(Error::Compressed { .. })
    ));
}

#[test]
fn has_rows() {
    let bytes = data();
    let image = image(&bytes);
    let found = image.findings().unwrap();
    assert_eq!(found.len() as u64, image.check().unwrap().findings);
    assert!(found.iter().all(|it| it.kind == 7));
    let nodes = image.nodes().unwrap();
    assert_eq!(nodes.len() as u64, info(&bytes).unwrap().nodes);
    let names = |it: &&jffs2::Node| it.kind == 1;
    assert_eq!(nodes.iter().filter(names).count(), 13);
    assert!(nodes.iter().filter(names).any(|it| {
        let at = it.address as usize + 40;
        &bytes[at..at + it.stored as usize] == b"passwd"
    }));
    let odd = Image::new(&bytes, 8193, Order::Little);
    assert_eq!(odd.findings(), Err(Error::BlockSize));
    assert_eq!(odd.nodes(), Err(Error::BlockSize));
}

#[test]
fn has_names() {
    let bytes = data();
    let tree = image(&bytes).tree().unwrap();
    assert_eq!(tree.entries().count(), 13);
    assert!(tree.directory(1).any(|it| it.name == b"etc"));
    assert!(tree
        .entries()
        .all(|it| it.object.is_some_and(|o| o.number == it.number)));
    assert_eq!(
        Image::new(&[], 65536, Order::Big)
            .tree()
            .unwrap()
            .entries()
            .count(),
        0
    );
}

#[test]
fn has_texts() {
    let bytes = data();
    let image = image(&bytes);
    let text = image.tree_text(b"/etc/passwd").unwrap();
    let stat = image.stat(b"/etc/passwd").unwrap();
    let line = format!(
        "- {:04o} {} {} {} {} {} /etc/passwd\n",
        stat.mode & 0o7777,
        stat.uid,
        stat.gid,
        stat.size,
        stat.mtime,
        stat.number
    );
    assert_eq!(String::from_utf8(text).unwrap(), line);
    let whole = String::from_utf8(image.tree_text(b"/").unwrap()).unwrap();
    assert_eq!(whole.lines().count(), 14);
    assert!(whole.contains(&line));
    assert_eq!(image.tree_text(b"/nothing"), Err(Error::NotFound));
    let plain = Image::new(&bytes, 8192, Order::Little);
    assert!(matches!(
        plain.tree_text(b"/"),
        Err(Error::Compressed { .. })
    ));
    let nothing = "total blocks 0 entries 0 inodes 0 findings 0\nmount ok\n";
    let empty = Image::new(&[], 8192, Order::Little);
    assert_eq!(empty.check_text(false).unwrap(), nothing.as_bytes());
    let shape = nothing.to_string() + "shape ok\n";
    assert_eq!(empty.check_text(true).unwrap(), shape.as_bytes());
    let odd = Image::new(&bytes, 8193, Order::Little);
    assert_eq!(odd.check_text(true), Err(Error::BlockSize));
}

#[test]
fn refuses() {
    let bytes = data();
    let plain = Image::new(&bytes, 8192, Order::Little);
    assert!(matches!(plain.stat(b"/etc"), Err(Error::Compressed { .. })));
    assert_eq!(image(&bytes).stat(b"/nothing"), Err(Error::NotFound));
    assert_eq!(image(&bytes).stat(b"etc"), Err(Error::BadPath));
    assert_eq!(
        image(&bytes).stat(b"/etc/passwd/x"),
        Err(Error::NotDirectory)
    );
    assert_eq!(
        Image::new(&bytes, 8193, Order::Little).check(),
        Err(Error::BlockSize)
    );
    assert_eq!(
        Image::new(&[], 4096, Order::Little).compress(),
        Err(Error::Geometry)
    );
}

#[test]
fn comes_back() {
    let bytes = data();
    let plain = image(&bytes).decompress().unwrap();
    let small = image(&plain).compress().unwrap();
    assert!(small.len() < plain.len());
    assert_eq!(image(&small).decompress().unwrap(), plain);
    let counts = image(&plain).check().unwrap();
    assert_eq!((counts.entries, counts.findings), (13, 0));
}

const TARGET: Target = Target {
    blocks: 4,
    page: 4096,
};

#[test]
fn appends() {
    let listing = b"time 7\nmkdir 0755 /d\nfile 0644 /d/f text\n";
    let files = [File {
        name: b"text",
        bytes: b"hello",
    }];
    let none = Image::new(&[], 8192, Order::Little);
    let (made, row) = none.append(&TARGET, listing, &files).unwrap();
    assert_eq!((row.bytes, row.accepted), (made.len() as u64, 2));
    assert_eq!(row.stopped(), None);
    assert_eq!(image(&made).read(b"/d/f").unwrap(), b"hello");
    // the last line of `cuts` tells of the same nodes
    let told = none.cuts(&TARGET, listing, &files).unwrap();
    let told = String::from_utf8(told).unwrap();
    let last = told.lines().last().unwrap();
    assert!(last.starts_with(&format!("total operations 2 steps {} ", row.nodes)));
    let more = b"time 8\nremove /d/f\nremove /e\n";
    let (less, row) = image(&made).append(&TARGET, more, &[]).unwrap();
    assert_eq!(&less[..made.len()], made);
    assert_eq!(row.accepted, 1);
    let refused = Error::Refused { line: 3, reason: 3 };
    assert_eq!(row.stopped(), Some(refused));
    assert_eq!(image(&less).stat(b"/d/f"), Err(Error::NotFound));
    assert_eq!(image(&made).cuts(&TARGET, more, &[]), Err(refused));
}

#[test]
fn refuses_to_append() {
    let none = Image::new(&[], 8192, Order::Little);
    let file = b"time 1\nfile 0644 /f x\n";
    let absent = Error::NoFile { line: 2 };
    assert_eq!(none.append(&TARGET, file, &[]), Err(absent));
    assert_eq!(none.cuts(&TARGET, file, &[]), Err(absent));
    let few = Error::Listing { line: 1, rule: 6 };
    assert_eq!(none.append(&TARGET, b"mkdir 0755", &[]), Err(few));
    let page = Target {
        page: 512,
        ..TARGET
    };
    assert_eq!(none.append(&page, b"", &[]), Err(Error::Page));
    let small = Image::new(&[], 4096, Order::Little);
    assert_eq!(small.append(&TARGET, b"", &[]), Err(Error::Geometry));
    let full = Target {
        blocks: 1,
        ..TARGET
    };
    let large = [File {
        name: b"x",
        bytes: &[b'x'; 9000],
    }];
    let (_, row) = none.append(&full, file, &large).unwrap();
    assert_eq!(row.stopped(), Some(Error::Full { line: 2 }));
}

#[test]
fn compacts() {
    let bytes = data();
    let whole = image(&bytes);
    let made = whole.compact(2).unwrap();
    assert_eq!(
        image(&made).tree_text(b"/").unwrap(),
        whole.tree_text(b"/").unwrap()
    );
    assert_eq!(whole.compact(0), Err(Error::Geometry));
}

#[test]
fn updates() {
    let bytes = data();
    let device = image(&bytes);
    let more = b"time 8\nmkdir 0755 /new\nfile 0644 /new/f text\nremove /new/e\n";
    let text = [b'x'; 3000];
    let files = [File {
        name: b"text",
        bytes: &text,
    }];
    for pack in [false, true] {
        let (made, row) = device.update(&TARGET, pack, more, &files).unwrap();
        assert_eq!(row.accepted, 2);
        let refused = Error::Refused { line: 4, reason: 3 };
        assert_eq!(row.stopped(), Some(refused));
        assert_eq!(image(&made).read(b"/new/f").unwrap(), text);
        let passwd = b"/etc/passwd";
        assert_eq!(image(&made).read(passwd), device.read(passwd));
        let packed = info(&made).unwrap().data[3] - info(&bytes).unwrap().data[3];
        assert_eq!(packed, u64::from(pack));
    }
}
