//! Every figure of document 01, starred and unstarred.

use second::{
    Counts, Label, Record, Settings, amend, cut_log, cuts_after, marks, merge, read_sheet, record, remainder, segment,
    write_sheet,
};

/// Log A: 60 bytes, all 0 but byte 47, which is 1.
fn log_a() -> Vec<u8> {
    let mut log = vec![0; 60];
    log[47] = 1;
    log
}

/// Log C: 400 bytes, 1 at 99, 199, 299, else 0.
fn log_c() -> Vec<u8> {
    let mut log = vec![0; 400];
    for ones in [99, 199, 299] {
        log[ones] = 1;
    }
    log
}

fn settings_a(target: u64, minimum: u64, maximum: u64) -> Settings {
    Settings { bits: 8, target, minimum, maximum }
}

fn settings_c(minimum: u64, maximum: u64) -> Settings {
    Settings { bits: 31, target: 1, minimum, maximum }
}

/// The cuts of a log, from a list with exactly the room needed.
fn cuts(settings: Settings, log: &[u8]) -> Vec<u64> {
    let room = log.len() as u64 / settings.minimum + 1;
    let (number, count, list) = cut_log(&settings, log, &vec![7; room as usize]);
    assert_eq!(number, 0);
    assert!(list[count as usize..].iter().all(|&entry| entry == 7));
    list[..count as usize].to_vec()
}

#[test]
fn powers_reduced() {
    let power = |bytes: usize| remainder(&[&[1][..], &vec![0; bytes]].concat());
    assert_eq!(power(48), 17_961_248);
    assert_eq!(power(8), 260);
}

#[test]
fn log_a_is_cut() {
    let log = log_a();
    assert_eq!(cuts(settings_a(1, 48, 96), &log), [48, 60]);
    assert_eq!(cuts(settings_a(18, 48, 96), &log), [52, 60]);
    assert_eq!(cuts(settings_a(18, 53, 96), &log), [59, 60]);
    assert_eq!(cuts(settings_a(18, 48, 51), &log), [51, 60]);
}

#[test]
fn the_shortest_logs() {
    for settings in [settings_a(1, 48, 96), settings_c(48, 200), second::HOUSE] {
        assert_eq!(cuts(settings, &[]), [0; 0]);
        assert_eq!(cuts(settings, &[0]), [1]);
        assert_eq!(cuts(settings, &[255]), [1]);
    }
}

#[test]
fn log_c_is_cut() {
    let log = log_c();
    assert_eq!(marks(&settings_c(48, 200), &log), [100, 200, 300]);
    assert_eq!(cuts(settings_c(48, 200), &log), [100, 200, 300, 400]);
    assert_eq!(cuts(settings_c(101, 202), &log), [200, 400]);
    assert_eq!(cuts(settings_c(48, 99), &log), [99, 198, 297, 396, 400]);
}

#[test]
fn log_c_is_recorded() {
    let log = log_c();
    let bay = |settings: Settings, room: u64| {
        let board = vec![7; 3 * room as usize];
        let (number, written, after) = segment(&settings, &log, 150, room, 1, &board);
        let (mine, others) = (room as usize..2 * room as usize, [0..room as usize, 2 * room as usize..board.len()]);
        assert!(others.into_iter().all(|other| after[other].iter().all(|&entry| entry == 7)));
        (number, written, after[mine].to_vec())
    };
    assert_eq!(bay(settings_c(48, 200), 6), (0, 4, vec![3, 300, 200, 300, 7, 7]));
    assert_eq!(bay(settings_c(100, 200), 4), (0, 4, vec![3, 300, 200, 300]));
    assert_eq!(bay(settings_c(100, 199), 5), (0, 4, vec![3, 0, 200, 300, 7]));
    assert_eq!(bay(settings_c(48, 200), 3), (6, 0, vec![0, 0, 200]));
}

#[test]
fn log_c_is_merged_from_its_records() {
    let (settings, log) = (settings_c(48, 200), log_c());
    let found = |index| record(&settings, 400, &marks(&settings, &log), 150, index);
    assert_eq!(found(0), Record { marker: 0, offsets: vec![100] });
    assert_eq!(found(2), Record { marker: 0, offsets: vec![] });
    let board = [2, 0, 100, 7, 3, 300, 200, 300, 1, 0, 7, 7];
    let after = [100, 200, 300, 400, 9, 9, 9, 9, 9];
    assert_eq!(merge(&settings, 400, 150, 4, &board, &[9; 9]), (0, 4, after.to_vec()));
}

#[test]
fn log_c_is_amended() {
    let (settings, log) = (settings_c(48, 200), log_c());
    let old = [100, 200, 300, 400];

    let with_a_one = [&log[..150], &[1], &log[150..]].concat();
    let counts = Counts { front: 1, recut: 1, back: 3 };
    let after = [100, 151, 201, 301, 401, 9, 9, 9, 9];
    assert_eq!(amend(&settings, &old, 150, 0, 1, &with_a_one, &[9; 9]), (0, counts, after.to_vec()));
    assert_eq!(cuts(settings, &with_a_one), after[..5]);

    let longer = [&log[..], &[0; 10]].concat();
    let counts = Counts { front: 3, recut: 0, back: 1 };
    let after = [100, 200, 300, 410, 9, 9, 9, 9, 9];
    assert_eq!(amend(&settings, &old, 400, 0, 10, &longer, &[9; 9]), (0, counts, after.to_vec()));
    assert_eq!(cuts(settings, &longer), after[..4]);
}

#[test]
fn log_c_has_its_sheet() {
    let (settings, list) = (settings_c(48, 200), [100, 200, 300, 400]);
    let (number, written, bytes) = write_sheet(&settings, Label::Practice, &list, &[7; 70]);
    assert_eq!((number, written), (0, 64));
    assert_eq!(bytes[64..], [7; 6]);
    assert_eq!(bytes[60..64], 0x6C8B_A6A8_u32.to_be_bytes());
    let trailer = [67, 85, 84, 83, 80, 31, 0, 0, 0, 0, 0, 1, 0, 0, 0, 48, 0, 0, 0, 200, 0, 0, 0, 4, 0, 0, 0, 32];
    assert_eq!(bytes[32..60], trailer);
    assert_eq!(bytes[24..32], 400_u64.to_be_bytes());

    let (number, says, read) = read_sheet(&bytes[..64], Label::Practice, &[9; 6]);
    assert_eq!((number, says.label, says.settings, says.count), (0, 80, settings, 4));
    assert_eq!(read, [100, 200, 300, 400, 9, 9]);
}

#[test]
fn zeros_have_no_marks_of_the_house() {
    let zeros = [0; 70_000];
    assert_eq!(marks(&second::HOUSE, &zeros), [0; 0]);
    assert_eq!(cuts_after(&second::HOUSE, 70_000, &[], 0), [65_536, 70_000]);
}
