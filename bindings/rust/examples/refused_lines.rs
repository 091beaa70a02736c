//! Prints for each text in a file the line at which `Plan::read` refuses it, 0 for a plan's:
//! refused_lines FILE. A text stands after its length in bytes, 32 bits long and little-endian.

use morvezin::Plan;

fn main() -> std::io::Result<()> {
    let path = std::env::args().nth(1).expect("a file is named");
    let texts = std::fs::read(path)?;
    let mut rest = texts.as_slice();
    while let Some((len, after)) = rest.split_first_chunk::<4>() {
        let (text, others) = after.split_at(u32::from_le_bytes(*len) as usize);
        println!("{}", Plan::read(text).err().map_or(0, |error| error.0));
        rest = others;
    }
    Ok(())
}
