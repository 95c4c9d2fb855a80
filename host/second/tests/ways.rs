//! Every way to a list gives the one-pass rule's list, on random logs, and each part of it is what document 01 says.

use noise::Noise;
use second::{
    Carry, Counts, Label, Settings, amend, block, close, cut_log, cuts_after, fill_bay, fresh, marks, merge,
    read_sheet, record, segment, well_formed, write_sheet,
};

/// Settings that crowd the marks and the forced cuts of a short log.
fn tight_settings(noise: &mut Noise) -> Settings {
    let bits = noise.pick(&[1, 2, 3, 4, 5, 6, 7, 8, 31]);
    let target = if noise.once_in(2) { 1 } else { noise.between(1, (1 << bits) - 1) };
    let minimum = if noise.once_in(2) { 48 } else { noise.between(48, 120) };
    Settings { bits, target, minimum, maximum: minimum + noise.pick(&[0, 1, 10, 48, 100, 200, 400]) }
}

/// The cuts of a log, by the rule read offset by offset.
fn cuts(settings: &Settings, log: &[u8]) -> Vec<u64> {
    cuts_by_marks(settings, log.len() as u64, &marks(settings, log))
}

fn cuts_by_marks(settings: &Settings, n: u64, marks: &[u64]) -> Vec<u64> {
    let mut cuts = Vec::new();
    let mut c = 0;
    while c < n {
        let marked = (c + settings.minimum..=c + settings.maximum).find(|p| *p <= n && marks.contains(p));
        c = marked.unwrap_or(if c + settings.maximum <= n { c + settings.maximum } else { n });
        cuts.push(c);
    }
    cuts
}

/// A list with the room needed for that many bytes.
fn room(settings: &Settings, length: usize) -> Vec<u64> {
    vec![u64::MAX; length / settings.minimum as usize + 1]
}

/// A random log of a length that is often next to a number that matters.
fn any_log(noise: &mut Noise, settings: &Settings) -> Vec<u8> {
    let near = noise.pick(&[48, settings.minimum, settings.maximum, 2 * settings.maximum, 64, 640]);
    let length = if noise.once_in(3) { near + noise.below(5) - 2 } else { noise.below(1_500) };
    noise.log(length as usize)
}

#[test]
fn the_whole_log() {
    let mut noise = Noise::new(1);
    for _ in 0..2_000 {
        let settings = tight_settings(&mut noise);
        let log = any_log(&mut noise, &settings);
        let expected = cuts(&settings, &log);
        let (number, count, list) = cut_log(&settings, &log, &room(&settings, log.len()));
        assert_eq!((number, &list[..count as usize]), (0, &expected[..]));
        assert!(list[count as usize..].iter().all(|&entry| entry == u64::MAX));
        assert!(well_formed(&settings, &expected));
    }
}

/// Takes one block into the carry and the cuts.
fn take(carry: &mut Carry, found: &mut Vec<u64>, bytes: &[u8]) {
    let (number, count, after, list) = block(carry, bytes, &room(&carry.settings, bytes.len()));
    assert_eq!(number, 0);
    assert!(after.in_order());
    found.extend(&list[..count as usize]);
    *carry = after;
}

#[test]
fn blocks_of_any_lengths() {
    let mut noise = Noise::new(2);
    for _ in 0..1_000 {
        let settings = tight_settings(&mut noise);
        let log = any_log(&mut noise, &settings);
        let (mut carry, mut found) = (fresh(&settings).1, Vec::new());
        let longest = noise.pick(&[1, 10, 100, 1_000]);
        let mut rest = &log[..];
        while !rest.is_empty() {
            let (now, later) = rest.split_at(rest.len().min(noise.between(0, longest) as usize));
            take(&mut carry, &mut found, now);
            rest = later;
        }
        let (number, count, closed, list) = close(&carry, &[u64::MAX]);
        found.extend(&list[..count as usize]);
        assert_eq!((number, closed), (0, Carry { closed: 1, ..carry }));
        assert_eq!(found, cuts(&settings, &log));
    }
}

#[test]
fn segments_in_any_order() {
    let mut noise = Noise::new(3);
    for _ in 0..500 {
        let settings = tight_settings(&mut noise);
        let log = any_log(&mut noise, &settings);
        let n = log.len() as u64;
        let size = noise.pick(&[64, 65, 100, 150, 300, 1_000, 16_777_216]);
        let segments = n.div_ceil(size);
        let bay = 2 + size.min(n);
        let mut board = vec![0; (segments * bay) as usize];
        let mut order: Vec<u64> = (0..segments).collect();
        while !order.is_empty() {
            let index = order.swap_remove(noise.below(order.len() as u64) as usize);
            let (number, written, after) = segment(&settings, &log, size, bay, index, &board);
            assert_eq!((number, written), (0, 1 + after[(index * bay) as usize]));
            board = after;
        }
        let (number, count, list) = merge(&settings, n, size, bay, &board, &room(&settings, log.len()));
        assert_eq!((number, &list[..count as usize]), (0, &cuts(&settings, &log)[..]));
    }
}

/// A log's length, and marks in it as no log may have them: crowded, far apart, in turns.
fn any_marks(noise: &mut Noise) -> (u64, Vec<u64>) {
    let mut marks = Vec::new();
    let mut mark = 48 + noise.below(150);
    let n = noise.between(1, 1_500);
    while mark <= n {
        marks.push(mark);
        let gap = noise.pick(&[3, 60, 150, 400]);
        mark += noise.between(1, gap);
    }
    (n, marks)
}

#[test]
fn records_of_any_marks_are_merged() {
    let mut noise = Noise::new(8);
    for _ in 0..3_000 {
        let settings = tight_settings(&mut noise);
        let (n, marks) = any_marks(&mut noise);
        let size = noise.between(64, 700);
        let bay = vec![0; 2 + size as usize];
        let board: Vec<u64> = (0..n.div_ceil(size))
            .flat_map(|index| fill_bay(&record(&settings, n, &marks, size, index), &bay).2)
            .collect();
        let (number, count, list) = merge(&settings, n, size, 2 + size, &board, &room(&settings, n as usize));
        assert_eq!((number, &list[..count as usize]), (0, &cuts_by_marks(&settings, n, &marks)[..]));
    }
}

/// A record's parts, each in document 01's words.
#[test]
fn records_are_marks_then_cuts() {
    let mut noise = Noise::new(4);
    let mut markers = 0;
    for _ in 0..3_000 {
        let settings = tight_settings(&mut noise);
        let (n, marks) = any_marks(&mut noise);
        let size = noise.between(64, 700);
        for index in 1..n.div_ceil(size) {
            let record = record(&settings, n, &marks, size, index);
            let segment = index * size + 1..=n.min((index + 1) * size);
            let slow: Vec<u64> = marks.iter().copied().filter(|p| segment.contains(p)).collect();
            if record.marker == 0 {
                assert_eq!(record.offsets, slow);
                continue;
            }
            markers += 1;
            let listed = record.offsets.iter().position(|&p| p == record.marker).expect("the marker is listed");
            assert_eq!(record.offsets[..=listed], slow[..=listed]);
            let mut followed = cuts_after(&settings, n, &marks, record.marker);
            followed.retain(|cut| segment.contains(cut));
            let after = &record.offsets[listed + 1..];
            assert!(after == followed || [after, &[n]].concat() == followed);
            assert!(cuts_by_marks(&settings, n, &marks).contains(&record.marker));
        }
    }
    assert!(markers > 500, "{markers} markers");
}

/// A log, an edit of it (s, d, e), and the log that came of it.
fn edited(noise: &mut Noise, settings: &Settings) -> (Vec<u8>, [u64; 3], Vec<u8>) {
    let log = any_log(noise, settings);
    let n = log.len() as u64;
    let at = noise.pick(&[0, n, noise.clone().between(0, n)]);
    let taken_out = noise.pick(&[0, 0, 1, n - at, noise.clone().between(0, n - at)]).min(n - at);
    let put_in = noise.between(0, 60) * noise.below(4);
    let (s, d) = (at as usize, taken_out as usize);
    let inserted = noise.log(put_in as usize);
    let after = [&log[..s], &inserted, &log[s + d..]].concat();
    (log, [at, taken_out, put_in], after)
}

#[test]
fn amending_a_true_list() {
    let mut noise = Noise::new(5);
    for _ in 0..3_000 {
        let settings = tight_settings(&mut noise);
        let (log, [s, d, e], after) = edited(&mut noise, &settings);
        let old = cuts(&settings, &log);
        let expected = cuts(&settings, &after);
        let (number, counts, list) = amend(&settings, &old, s, d, e, &after, &room(&settings, after.len()));
        let total = (counts.front + counts.recut + counts.back) as usize;
        assert_eq!((number, &list[..total]), (0, &expected[..]));
        assert!(list[total..].iter().all(|&entry| entry == u64::MAX));
        assert_eq!(counts, counts_of(&settings, &old, [s, d, e], &after));
    }
}

/// Front, recut and back counted in document 01's words.
fn counts_of(settings: &Settings, old: &[u64], [s, d, e]: [u64; 3], log: &[u8]) -> Counts {
    let n = old.last().copied().unwrap_or(0);
    let front: Vec<u64> = old.iter().copied().filter(|&cut| cut <= s && cut != n).collect();
    let from = front.last().copied().unwrap_or(0);
    let new = cuts_after(settings, log.len() as u64, &marks(settings, log), from);
    let meets = |t: u64| t >= s + e && t > from && t + d - e > from && old.contains(&(t + d - e));
    let recut = new.iter().take_while(|&&t| !meets(t)).count();
    let back = new.iter().find(|&&t| meets(t)).map_or(0, |t| old.iter().filter(|&&cut| cut >= t + d - e).count());
    Counts { front: front.len() as u64, recut: recut as u64, back: back as u64 }
}

#[test]
fn amending_an_untrue_list() {
    let mut noise = Noise::new(6);
    for _ in 0..3_000 {
        let settings = tight_settings(&mut noise);
        let (log, [s, d, e], after) = edited(&mut noise, &settings);
        let mut old = Vec::new();
        let mut end = 0;
        while end < log.len() as u64 {
            end = (end + noise.between(settings.minimum, settings.maximum)).min(log.len() as u64);
            old.push(end);
        }
        let (number, counts, list) = amend(&settings, &old, s, d, e, &after, &room(&settings, after.len()));
        let amended = &list[..(counts.front + counts.recut + counts.back) as usize];
        assert_eq!((number, counts), (0, counts_of(&settings, &old, [s, d, e], &after)));
        assert!(well_formed(&settings, amended));
        assert_eq!(amended.last().copied().unwrap_or(0), after.len() as u64);
    }
}

#[test]
fn sheets_there_and_back() {
    let mut noise = Noise::new(7);
    for _ in 0..1_000 {
        let settings = tight_settings(&mut noise);
        let log = any_log(&mut noise, &settings);
        let list = cuts(&settings, &log);
        let label = noise.pick(&[Label::Practice, Label::Live]);
        let (number, written, sheet) = write_sheet(&settings, label, &list, &vec![0; 8 * list.len() + 32]);
        assert_eq!((number, written), (0, sheet.len() as u64));
        let before = noise.below(40) as usize;
        let bytes = [noise.bytes(before), sheet].concat();
        let (number, says, read) = read_sheet(&bytes, label, &vec![0; list.len()]);
        assert_eq!((number, says.label, says.settings), (0, label.byte(), settings));
        assert_eq!((says.count, read), (list.len() as u64, list));
    }
}
