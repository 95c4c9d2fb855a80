//! `trespass read|write before|within|after` touches a byte of memory that is lent beside a fence, or the byte before it, or the
//! one after it, and says so where it lived to.

use trials::lent::{Lent, Place, lending};

fn main() {
    let words: Vec<String> = std::env::args().skip(1).collect();
    let [act, side] = &words[..] else { panic!("what to do, and where") };
    let place = if side == "after" { Place::BeforeFence } else { Place::AfterFence };
    let mut lent = lending(place, || Lent::holding(&[7_u8; 100]));
    let bytes = lent.write().as_mut_ptr_range();
    let byte = match side.as_str() {
        "before" => bytes.start.wrapping_sub(1),
        "within" => bytes.start,
        "after" => bytes.end,
        _ => panic!("before, within or after"),
    };
    // SAFETY: within, the byte is lent; beside it, the fence is what this program is for.
    unsafe {
        match act.as_str() {
            "read" => drop(byte.read_volatile()),
            "write" => byte.write_volatile(9),
            _ => panic!("read or write"),
        }
    }
    println!("touched");
}
