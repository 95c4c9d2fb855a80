//! Settings, lists, boards, carries and sheets damaged bit by bit, and sheets cut short at each length.

use noise::Noise;
use thrunglow::{Carry, Settings};
use trials::{compare, damage, inputs};

const TIGHT: Settings = Settings { bits: 31, target: 1, minimum: 48, maximum: 200 };

/// Log C of document 01.
fn log_c() -> Vec<u8> {
    let mut log = vec![0; 400];
    for at in [99, 199, 299] {
        log[at] = 1;
    }
    log
}

const LIST_C: [u64; 4] = [100, 200, 300, 400];

/// The settings with one bit of one field flipped, for each bit.
fn each_bit_of_settings(settings: Settings) -> impl Iterator<Item = Settings> {
    (0..192).map(move |bit| {
        let mut flipped = settings;
        match bit {
            0..32 => flipped.bits ^= 1 << bit,
            32..64 => flipped.target ^= 1 << (bit - 32),
            64..128 => flipped.minimum ^= 1 << (bit - 64),
            _ => flipped.maximum ^= 1 << (bit - 128),
        }
        flipped
    })
}

#[test]
fn each_bit_of_the_settings() {
    let (log, list) = (log_c(), [7; 20]);
    let board = inputs::board(&TIGHT, 400, &[100, 200, 300], 150, &[7; 8]);
    for settings in each_bit_of_settings(TIGHT).chain(each_bit_of_settings(Settings::HOUSE)) {
        compare::fresh(settings);
        compare::cut_log(settings, &log, &list);
        compare::segment(settings, &log, 150, 8, 1, &board);
        compare::record(settings, &log, 150, 1, &board[8..16]);
        compare::merge(settings, 400, 150, 8, &board, &list);
        compare::amend(settings, &LIST_C, [150, 0, 0], &log, &list);
        compare::write_sheet(settings, true, &LIST_C, &[7; 70]);
        let carry = Carry { settings, taken: 0, since: 0, window: [0; 48], signature: 0, closed: 0 };
        compare::block(carry, &log, &list);
        compare::close(carry, &list);
    }
}

#[test]
fn each_bit_of_a_carry() {
    let mut noise = Noise::new(1);
    let prefix = noise.bytes(310);
    let fresh = compare::fresh(TIGHT).carry;
    for taken in [0, 1, 47, 48, 49, 100, 200, 310] {
        let carry = compare::block(fresh, &prefix[..taken], &[0; 9]).0.carry;
        let mut altered = Vec::new();
        for bit in 0..64 {
            altered.push(Carry { taken: carry.taken ^ 1 << bit, ..carry });
            altered.push(Carry { since: carry.since ^ 1 << bit, ..carry });
        }
        for bit in 0..32 {
            altered.push(Carry { signature: carry.signature ^ 1 << bit, ..carry });
            altered.push(Carry { closed: carry.closed ^ 1 << bit, ..carry });
        }
        for bit in 0..384 {
            let mut window = carry.window;
            window[bit / 8] ^= 1 << (bit % 8);
            altered.push(Carry { window, ..carry });
            altered.push(Carry { window, signature: second::remainder(&window) as u32, ..carry });
        }
        altered.extend(each_bit_of_settings(TIGHT).map(|settings| Carry { settings, ..carry }));
        let closed: Vec<Carry> = altered.iter().map(|carry| Carry { closed: 1, ..*carry }).collect();
        for carry in altered.into_iter().chain(closed) {
            compare::block(carry, &prefix[..120], &[7; 3]);
            compare::close(carry, &[7]);
        }
    }
}

#[test]
fn each_bit_of_a_list() {
    let log = log_c();
    for entry in 0..LIST_C.len() {
        for bit in 0..64 {
            let mut list = LIST_C;
            list[entry] ^= 1 << bit;
            compare::amend(TIGHT, &list, [150, 0, 0], &log, &[7; 9]);
            compare::amend(TIGHT, &list, [list[3].min(400), 0, 400 - list[3].min(400)], &log, &[7; 9]);
            compare::write_sheet(TIGHT, false, &list, &[7; 64]);
        }
    }
}

#[test]
fn a_list_of_each_length() {
    let mut noise = Noise::new(2);
    let log = noise.bytes(600);
    let list = inputs::untrue_list(&mut noise, &TIGHT, 600);
    for length in 0..=list.len() {
        for cuts in [&list[..length], &list[length..]] {
            compare::amend(TIGHT, cuts, [50, 0, 0], &log, &[7; 20]);
            compare::amend(TIGHT, cuts, [0, 0, 600 - cuts.last().unwrap_or(&0)], &log, &[7; 20]);
            compare::write_sheet(TIGHT, false, cuts, &[7; 150]);
        }
    }
}

#[test]
fn each_bit_of_a_board() {
    let n = 700;
    let marks = [60, 110, 120, 200, 260, 300, 420, 421, 480, 600, 655, 700];
    let board = inputs::board(&TIGHT, n, &marks, 150, &[7; 8]);
    assert_eq!(board.len(), 5 * 8);
    for entry in 0..board.len() {
        for bit in 0..64 {
            let mut damaged = board.clone();
            damaged[entry] ^= 1 << bit;
            compare::merge(TIGHT, n, 150, 8, &damaged, &[7; 20]);
        }
        for value in (0..=n + 1).chain(inputs::EXTREMES) {
            let mut damaged = board.clone();
            damaged[entry] = value;
            compare::merge(TIGHT, n, 150, 8, &damaged, &[7; 20]);
        }
    }
}

/// Sheets of no cuts, of one and of several.
fn sheets() -> Vec<Vec<u8>> {
    let sheet =
        |settings, live, list: &[u64]| compare::write_sheet(settings, live, list, &vec![0; 8 * list.len() + 32]).1;
    vec![
        sheet(TIGHT, false, &[]),
        sheet(Settings::HOUSE, true, &[65_536]),
        sheet(TIGHT, true, &LIST_C),
        sheet(Settings { bits: 1, target: 1, minimum: 48, maximum: 1 << 24 }, false, &[48, 1 << 24, (1 << 24) + 1]),
    ]
}

#[test]
fn each_bit_of_a_sheet() {
    for sheet in sheets() {
        for bit in 0..8 * sheet.len() {
            let mut damaged = [vec![9; 11], sheet.clone()].concat();
            damaged[11 + bit / 8] ^= 1 << (bit % 8);
            for _ in 0..2 {
                compare::read_sheet(&damaged, true, &[7; 9]);
                compare::read_sheet(&damaged, false, &[7; 9]);
                damage::mend_check_word(&mut damaged);
            }
        }
    }
}

#[test]
fn each_value_of_a_trailers_field() {
    for sheet in sheets() {
        let trailer = sheet.len() - 32;
        for field in 0..8 {
            for value in inputs::EXTREMES.into_iter().chain(0..300) {
                let mut damaged = sheet.clone();
                damaged[trailer + 4 * field..][..4].copy_from_slice(&(value as u32).to_be_bytes());
                for _ in 0..2 {
                    compare::read_sheet(&damaged, true, &[7; 9]);
                    compare::read_sheet(&damaged, false, &[7; 9]);
                    damage::mend_check_word(&mut damaged);
                }
            }
        }
    }
}

#[test]
fn a_sheet_of_each_length() {
    for sheet in sheets() {
        for length in 0..sheet.len() {
            for room in [0, 1, 3, 4, 9] {
                for live in [false, true] {
                    compare::read_sheet(&sheet[..length], live, &vec![7; room]);
                    compare::read_sheet(&sheet[sheet.len() - length..], live, &vec![7; room]);
                    compare::read_sheet(&sheet, live, &vec![7; room]);
                }
            }
        }
    }
}
