//! Lot slips written: any settings, dates, lots and amounts with independent faults, into rooms of every size about the slip's own.
//! What is written is read back, and must say the same, also gathered from reads; an accepted slip is written again, and must come
//! out byte for byte. Every m of each algorithm and padding is written into rooms at the border, and so is every day, lot byte and
//! amount at the borders of theirs.

use crate::draw::{far, near, once_in, Settings};
use crate::gathered;
use crate::run::{word, words, Room, Run};
use reference::cases::Random;
use reference::mac::m_limit;
use reference::slip::{Says, Slip, Written};
use reference::Agreement;

fn date(r: &mut Random) -> [u64; 3] {
    match r.below(16) {
        0 => [r.below(10_000), r.below(100), r.below(100)],
        1 => [1998 + r.below(104), r.below(14), r.below(33)],
        2 => [2000 + r.below(100), 2, 28 + r.below(3)],
        3 => [2000 + r.below(100), 1 + r.below(12), 29 + r.below(4)],
        _ => [2000 + r.below(100), 1 + r.below(12), 1 + r.below(28)],
    }
}

fn lot_of(r: &mut Random, size: u64) -> Vec<u8> {
    (0..size).map(|_| 0x21 + r.below(94) as u8).collect()
}

fn lot(r: &mut Random) -> Vec<u8> {
    let size = match r.below(48) {
        0 => 0,
        1 => 31 + r.below(4),
        2 => 256 * (1 + r.below(3)) + r.below(34), // right in the lowest byte of its length alone
        3 if once_in(r, 16) => 65_536 + r.below(34),
        _ => 1 + r.below(32),
    };
    let mut lot = lot_of(r, size);
    if size > 0 && once_in(r, 16) {
        let byte = &mut lot[r.below(size) as usize];
        *byte = match r.below(4) {
            0 => 0x20,
            1 => 0x7F,
            2 => *byte | 0x80,
            _ => r.below(256) as u8,
        };
    }
    lot
}

fn amount(r: &mut Random) -> u64 {
    match r.below(24) {
        0 => r.below(3),
        1 => 1_000_002 - r.below(4),
        2 => far(r),
        _ => 1 + r.below(1_000_000),
    }
}

/// Mostly right; now and then a number that is so in its lowest bits alone.
fn says(r: &mut Random) -> Says {
    let ([mut year, mut month, mut day], lot, mut amount) = (date(r), lot(r), amount(r));
    if once_in(r, 20) {
        *[&mut year, &mut month, &mut day, &mut amount][r.below(4) as usize] |= 1 << (8 + r.below(56));
    }
    Says { year, month, day, lot, amount }
}

/// What can be written.
fn sound(r: &mut Random) -> Says {
    let size = 1 + r.below(32);
    Says {
        year: 2000 + r.below(100),
        month: 1 + r.below(12),
        day: 1 + r.below(28),
        lot: lot_of(r, size),
        amount: 1 + r.below(1_000_000),
    }
}

/// The bytes of the slip, by the rule.
fn length(s: &Settings, says: &Says) -> usize {
    27 + says.lot.len() + s.tag_size()
}

pub fn case(r: &mut Random, run: &mut Run) {
    let algorithm = 1 + r.below(8);
    let s = if once_in(r, 2) { Settings::draw(r) } else { Settings::sound(r, algorithm) };
    let says = says(r);
    let size = near(r, length(&s, &says));
    write(r, run, &s, &says, size);
}

/// The number that a write into a room of so many bytes gets. What is written is read back.
fn write(r: &mut Random, run: &mut Run, s: &Settings, says: &Says, size: usize) -> u64 {
    let room = Room::new(r, size);
    let (written, bytes) = run.write("write", s.agreement, &s.keys, says, room);
    if written.number == 0 {
        let slip = &bytes[..written.length as usize];
        let Says { year, month, day, ref lot, amount } = *says;
        let (calls, lot_len) = (written.calls, lot.len() as u64);
        let wanted = Slip { number: 0, year, month, day, amount, calls, lot_at: 14, lot_len };
        let read = run.read("back", s.agreement, &s.keys, slip);
        let ours = (length(s, says), read, &slip[14..14 + lot.len()]);
        run.same(&ours, &(slip.len(), wanted, &lot[..]), || format!("slip {} as written", word(slip)));
        gathered::slip(r, run, s, slip);
    }
    written.number
}

/// An accepted slip, written again from what was read of it, under the same agreement and keys.
pub fn again(r: &mut Random, run: &mut Run, s: &Settings, slip: &[u8], read: &Slip) {
    let Slip { year, month, day, amount, calls, lot_at, lot_len, .. } = *read;
    let (lot_at, lot_end) = (lot_at as usize, (lot_at + lot_len) as usize);
    let says = Says { year, month, day, lot: slip[lot_at..lot_end].to_vec(), amount };
    let size = slip.len() + r.below(3) as usize;
    let room = Room::new(r, size);
    let (written, bytes) = run.write("again", s.agreement, &s.keys, &says, room);
    let wanted = Written { number: 0, length: slip.len() as u64, calls };
    let what = || format!("slip {} {} {}, written again", words(s.agreement), word(&s.keys), word(slip));
    run.same(&(written, &bytes[..slip.len()]), &(wanted, slip), what);
}

/// Every m of one algorithm and padding, and the two beside them, into rooms of one byte too few, as many as it takes, and one more;
/// and the longest lot and tag into every room up to that.
pub fn rooms(r: &mut Random, run: &mut Run, [algorithm, padding]: [u64; 2]) {
    let (mut s, limit) = (Settings::sound(r, algorithm), m_limit(algorithm));
    for m in 0..=limit + 1 {
        s.agreement = Agreement { padding, m, ..s.agreement };
        let (one, outside) = (sound(r), !(1..=limit).contains(&m));
        let length = length(&s, &one);
        for (size, number) in [(length - 1, 10), (length, 0), (length + 1, 0)] {
            let wanted = if outside { 3 } else { number };
            let got = write(r, run, &s, &one, size);
            run.same(&got, &wanted, || format!("m = {m}, a room of {size} bytes for {length}"));
        }
    }
    s.agreement.m = limit;
    let longest = Says { lot: lot_of(r, 32), ..sound(r) };
    let length = length(&s, &longest);
    for size in 0..=length + 2 {
        let (got, wanted) = (write(r, run, &s, &longest, size), if size < length { 10 } else { 0 });
        run.same(&got, &wanted, || format!("a room of {size} bytes for {length}"));
    }
}

/// Every day from 1999 to 2100, real or not; every byte at the ends and in the middle of a lot; every length of a lot up to 40; the
/// amounts about each power of two and at their borders.
pub fn values(r: &mut Random, run: &mut Run) {
    let s = Settings::sound(r, 5);
    let good = Says { lot: b"A7-8".to_vec(), ..sound(r) };
    let mut one = |says: Says| {
        let size = length(&s, &says);
        write(r, run, &s, &says, size)
    };
    let mut days = 0;
    for year in 1999..=2100 {
        for (month, day) in (0..=13).flat_map(|month| (0..=32).map(move |day| (month, day))) {
            days += u64::from(one(Says { year, month, day, ..good.clone() }) == 0);
        }
    }
    let (mut bytes, mut lots, mut amounts) = (0, 0, 0);
    for (place, byte) in [0, 1, 3].into_iter().flat_map(|place| (0..=255).map(move |byte| (place, byte))) {
        let mut says = good.clone();
        says.lot[place] = byte;
        bytes += u64::from(one(says) == 0);
    }
    for size in 0..=40 {
        lots += u64::from(one(Says { lot: vec![0x21; size], ..good.clone() }) == 0);
    }
    let near = |amount: u64| (0..=2).map(move |more| amount.wrapping_add(more).wrapping_sub(1));
    for amount in (0..64).map(|bit| 1 << bit).chain([1_000_000]).flat_map(near) {
        amounts += u64::from(one(Says { amount, ..good.clone() }) == 0);
    }
    // 100 years of 365 days and 25 leap days; 94 bytes at each place; 32 lengths; of the amounts about 2^0 to 2^19, 999,999 and
    // 1,000,000, some twice, all but 0.
    let wanted = (36_525, 3 * 94, 32, 3 * 20 - 1 + 2);
    run.same(&(days, bytes, lots, amounts), &wanted, || "how many were written".to_string());
}
