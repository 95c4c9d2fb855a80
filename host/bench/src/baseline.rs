//! Straightforward Rust of the library's whole-log cutter: two tables of 256, the window started 48 bytes below the first
//! offset that may be cut, one byte a turn.

/// Pattern bits K, target, minimum and maximum, taken to be in range.
#[derive(Clone, Copy, Debug)]
pub struct Settings {
    pub bits: u32,
    pub target: u32,
    pub minimum: usize,
    pub maximum: usize,
}

const WINDOW: usize = 48;

/// b times x^384, reduced: what the byte that leaves the window stood for.
static LEAVING: [u32; 256] = times_power(8 * WINDOW as u32);

/// b times x^31, reduced: what the byte pushed out by the shift comes to.
static PUSHED_OUT: [u32; 256] = times_power(31);

/// Each byte times that power of x, reduced by x^31 + x^3 + 1.
const fn times_power(exponent: u32) -> [u32; 256] {
    let mut table = [0; 256];
    let mut byte = 0;
    while byte < 256 {
        let mut product = byte as u32;
        let mut turn = 0;
        while turn < exponent {
            product <<= 1;
            product = (product & 0x7FFF_FFFF) ^ ((product >> 31) * 9);
            turn += 1;
        }
        table[byte] = product;
        byte += 1;
    }
    table
}

/// The signature times x^8, reduced, with the new byte added.
fn shifted(signature: u32, new: u8) -> u32 {
    ((signature & 0x7F_FFFF) << 8) ^ PUSHED_OUT[(signature >> 23) as usize] ^ u32::from(new)
}

/// The cut after the cut c below the log's length.
fn next_cut(settings: &Settings, log: &[u8], c: usize) -> usize {
    let first = c + settings.minimum;
    let last = log.len().min(c + settings.maximum);
    if first > last {
        return last;
    }
    let mask = (1 << settings.bits) - 1;
    let mut signature = log[first - WINDOW..first].iter().fold(0, |signature, &new| shifted(signature, new));
    for (p, (&new, &old)) in (first..).zip(log[first..last].iter().zip(&log[first - WINDOW..])) {
        if signature & mask == settings.target {
            return p;
        }
        signature = shifted(signature, new) ^ LEAVING[old as usize];
    }
    last
}

/// Writes the log's cuts into the list, which has room for them, and says how many they are.
pub fn cut_log(settings: &Settings, log: &[u8], list: &mut [u64]) -> usize {
    let mut count = 0;
    let mut c = 0;
    while c < log.len() {
        c = next_cut(settings, log, c);
        list[count] = c as u64;
        count += 1;
    }
    count
}
