//! `second < LOG` prints the lines of `cutlist < LOG`, so that `cmp` can hold the two programs to each other.

use second::{HOUSE, cut_log};
use std::io::{self, BufWriter, Read, Write};

fn main() -> io::Result<()> {
    let mut log = Vec::new();
    io::stdin().read_to_end(&mut log)?;
    let room = log.len() / HOUSE.minimum as usize + 1;
    let (number, count, list) = cut_log(&HOUSE, &log, &vec![0; room]);
    if number != 0 {
        return Err(io::Error::other(format!("refused with number {number}")));
    }
    print_cuts(&list[..count as usize], log.len(), &mut BufWriter::new(io::stdout().lock()))
}

/// A line a cut: offset and piece length. The last line: the count and the bytes.
fn print_cuts(cuts: &[u64], bytes: usize, out: &mut impl Write) -> io::Result<()> {
    let mut before = 0;
    for cut in cuts {
        writeln!(out, "{cut} {}", cut - before)?;
        before = *cut;
    }
    writeln!(out, "cuts {} bytes {bytes}", cuts.len())?;
    out.flush()
}
