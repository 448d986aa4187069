//! look IMAGE BLOCK: what an image contains, its names, and the length and checksum of each file;
//! then the same image decompressed, compressed again, and cut in the middle, as a power failure
//! would.
use jffs2::{crc, Image, Order};

fn main() -> Result<(), Box<dyn std::error::Error>> {
    let words: Vec<String> = std::env::args().collect();
    let (bytes, block) = (std::fs::read(&words[1])?, words[2].parse()?);
    let image = Image::new(&bytes, block, Order::Little).through(true);
    let counts = image.check()?;
    println!(
        "blocks {} entries {} inodes {} findings {}",
        counts.blocks, counts.entries, counts.inodes, counts.findings
    );
    for entry in image.tree()?.entries() {
        let name = String::from_utf8_lossy(entry.name);
        print!("{} {name} {}", entry.directory, entry.number);
        if let Some(stat) = entry.object.filter(|it| it.is_file()) {
            let mut out = vec![0; stat.size as usize];
            let got = image.read_at(entry.number, 0, &mut out)?;
            print!(" {:o} {got} crc {:08x}", stat.mode, crc(&out));
        }
        println!();
    }
    let plain = image.decompress()?;
    let small = Image::new(&plain, block, Order::Little).compress()?;
    let again = Image::new(&small, block, Order::Little).decompress()?;
    let is_same = if again == plain { "True" } else { "False" };
    println!("decompressed {} again {is_same}", plain.len());
    let cut = Image::new(&bytes[..bytes.len() / 2], block, Order::Little).through(true);
    match cut.tree() {
        Ok(tree) => println!("cut {}", tree.entries().count()),
        Err(error) => println!("cut {error}"),
    }
    Ok(())
}
