//! print_file IMAGE BLOCK PATH: prints a file of an image, of a compressed one too.
use std::io::Write;

fn main() -> Result<(), Box<dyn std::error::Error>> {
    let words: Vec<String> = std::env::args().collect();
    let bytes = std::fs::read(&words[1])?;
    let image = jffs2::Image::new(&bytes, words[2].parse()?, jffs2::Order::Little).through(true);
    std::io::stdout().write_all(&image.read(words[3].as_bytes())?)?;
    Ok(())
}
