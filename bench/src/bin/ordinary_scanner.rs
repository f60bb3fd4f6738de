//! The scanner program as one writes it with no checks: each record is taken to be a good one that asks for what is allowed. It makes all sums
//! after each split and merge, or, where its argument is `along`, works out those along the path alone.

use std::io::{self, BufWriter, Read, Write};

use bench::ordinary;
use bench::panels::{size, DEEPEST_OPENED};

type Change = fn(&mut [u8], u32, u32);

fn main() -> io::Result<()> {
    let mut input = Vec::new();
    io::stdin().lock().take(8 * 4096).read_to_end(&mut input)?;
    let mut out = BufWriter::new(io::stdout().lock());
    let mut bytes = [0; size(DEEPEST_OPENED) + ordinary::SPARE];
    let mut deep = 0;
    let (split, merge): (Change, Change) = match std::env::args().nth(1).as_deref() {
        Some("along") => (ordinary::ordinary_split_along, ordinary::ordinary_merge_along),
        _ => (ordinary::ordinary_split, ordinary::ordinary_merge),
    };
    for (i, record) in input.chunks_exact(8).enumerate() {
        let number = u32::from_le_bytes([record[4], record[5], record[6], record[7]]);
        match record[0] {
            0 => {
                deep = number;
                ordinary::open(&mut bytes, deep);
            }
            1 => split(&mut bytes, deep, number),
            2 => merge(&mut bytes, deep, number),
            3 => ordinary::pin(&mut bytes, deep, number),
            _ => ordinary::unpin(&mut bytes, deep, number),
        }
        writeln!(out, "{} 0", i + 1)?;
    }
    for i in 0..ordinary::count(&bytes, deep) {
        writeln!(out, "{i} {}", ordinary::ordinary_leaf(&bytes, deep, i))?;
    }
    out.flush()
}
