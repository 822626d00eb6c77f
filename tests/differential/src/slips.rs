//! Lot slips: whole ones under every algorithm, cut, lengthened, changed in a byte or a bit, with fields left out, doubled or
//! exchanged, under other keys, under another agreement than they name, with the master told wrongly, and bytes that are no slip. One
//! slip of each kind is cut everywhere and changed everywhere. A slip that is accepted is written again, and every slip is read once
//! more under an agreement that it does not meet, and once more from a record that it was gathered into; half of them from a forged
//! record too.

use crate::draw::{another, as_derived, once_in, Settings};
use crate::gathered;
use crate::run::{word, words, Run};
use crate::writes::again;
use reference::cases::{draw_slip, Random};
use reference::mac::m_limit;
use reference::padding::bytes_for;
use reference::Agreement;

fn field(tag: u8, value: &[u8]) -> Vec<u8> {
    [&[tag, 0, value.len() as u8], value].concat()
}

fn digits(r: &mut Random) -> Vec<u8> {
    let (year, month, day) = match r.below(8) {
        0 => (r.below(10_000), r.below(100), r.below(100)),
        1 => (1999 + r.below(102), r.below(14), r.below(33)),
        2 => (2000 + r.below(100), 2, 28 + r.below(3)),
        _ => (2000 + r.below(100), 1 + r.below(12), 1 + r.below(28)),
    };
    format!("{year:04}{month:02}{day:02}").into_bytes()
}

/// The three fields that a seal covers; mostly right ones.
fn covered(r: &mut Random) -> Vec<Vec<u8>> {
    let expiry = digits(r);
    let size = if once_in(r, 24) { r.below(36) } else { 1 + r.below(32) };
    let lot: Vec<u8> = (0..size).map(|_| 0x21 + r.below(94) as u8).collect();
    let amount = match r.below(12) {
        0 => r.below(3) as u32,
        1 => 1_000_001 - r.below(3) as u32,
        2 => r.draw() as u32,
        _ => 1 + r.below(1_000_000) as u32,
    };
    vec![field(1, &expiry), field(2, &lot), field(3, &amount.to_be_bytes())]
}

/// Settings whose three numbers a seal can name.
fn nameable(s: Settings) -> Settings {
    let Agreement { algorithm, padding, m, master } = s.agreement;
    let [algorithm, padding, m] = [algorithm, padding, m].map(|number| number % 256);
    Settings { agreement: Agreement { algorithm, padding, m, master }, ..s }
}

/// The fields and a seal over them that names these settings and has this tag.
fn naming(Agreement { algorithm, padding, m, .. }: Agreement, covered: &[u8], tag: &[u8]) -> Vec<u8> {
    let value = [&[algorithm as u8, padding as u8, m as u8], tag].concat();
    [covered, &field(0x7F, &value)].concat()
}

/// The fields and their seal, with the tag that is right where the settings are.
fn sealed(s: &Settings, covered: &[u8]) -> Vec<u8> {
    let mut tag = [0xA5; 16];
    reference::make(s.agreement, &s.keys, covered, 8 * covered.len() as u64, &mut tag);
    naming(s.agreement, covered, &tag[..s.tag_size()])
}

/// What a slip names whose seal stands in its place, with a master or without.
fn named(slip: &[u8], master: bool) -> Agreement {
    let at = usize::from(slip[13]) + 24;
    let [algorithm, padding, m] = [0, 1, 2].map(|more| slip[at + more].into());
    Agreement { algorithm, padding, m, master }
}

/// A slip is read under what it was sealed under; now and then under another agreement.
pub fn case(r: &mut Random, run: &mut Run) {
    let (slip, mut s) = match r.below(8) {
        0 => {
            let (slip, s) = draw_slip(r);
            (slip, Settings { agreement: s.agreement, keys: s.keys().to_vec() })
        }
        1 => (noise(r), Settings::draw(r)),
        2..=4 => changed(r),
        _ => exchanged(r),
    };
    match r.below(16) {
        0 => s.agreement = another(r, s.agreement),
        1 => s.agreement = Settings::draw(r).agreement,
        2 => s.agreement.master = !s.agreement.master,
        _ => (),
    }
    read(r, run, &s, &slip);
}

/// The number that a slip gets; one that is accepted is written again.
fn read(r: &mut Random, run: &mut Run, s: &Settings, slip: &[u8]) -> u64 {
    let read = run.read("read", s.agreement, &s.keys, slip);
    if read.number == 0 {
        again(r, run, s, slip, &read);
    }
    other(r, run, s, slip, read.number);
    gathered::slip(r, run, s, slip);
    if once_in(r, 2) {
        gathered::forged(r, run, s, slip);
    }
    read.number
}

/// A slip that got this number, read once more: one number of the agreement is not what the slip names, the keys are its own or any.
/// It gets 25, or as before the fault of its layout.
fn other(r: &mut Random, run: &mut Run, s: &Settings, slip: &[u8], number: u64) {
    let at_fault = (20..=24).contains(&number);
    let agreement = another(r, if at_fault { s.agreement } else { named(slip, s.agreement.master) });
    let any = Settings::draw(r).keys;
    let keys = if once_in(r, 2) { &s.keys } else { &any };
    let got = run.read("other", agreement, keys, slip).number;
    let line = || format!("slip {} {} {}, which names others", words(agreement), word(keys), word(slip));
    run.same(&got, &if at_fault { number } else { 25 }, line);
}

/// Bytes that are no slip, or begin like one.
fn noise(r: &mut Random) -> Vec<u8> {
    let start = covered(r).concat();
    let mut out = start[..r.below(start.len() as u64 + 1) as usize].to_vec();
    let mut more = vec![0; r.below(60) as usize];
    r.fill(&mut more);
    out.extend(more);
    out
}

/// A slip, mostly sound, changed after it was sealed, and what it was sealed under.
fn changed(r: &mut Random) -> (Vec<u8>, Settings) {
    let sound = 1 + r.below(8);
    let mut s = if once_in(r, 2) { nameable(Settings::draw(r)) } else { Settings::sound(r, sound) };
    let part = covered(r).concat();
    let mut slip = sealed(&s, &part);
    let length = slip.len() as u64;
    match r.below(12) {
        0 => slip.truncate(r.below(length + 1) as usize),
        1 => (0..=r.below(70)).for_each(|_| slip.push(r.below(256) as u8)),
        2 => slip[r.below(length) as usize] = r.below(256) as u8,
        3 => slip[r.below(length) as usize] ^= 1 << r.below(8),
        4 => slip[(length - 1) as usize] ^= 1 << r.below(8),
        5 => {
            // The seal's length and its bytes fit each other, and not m.
            let tag = 1 + r.below(16) as usize;
            slip.truncate(part.len() + 6);
            slip[part.len() + 2] = 3 + tag as u8;
            (0..tag).for_each(|_| slip.push(r.below(256) as u8));
        }
        6 if !s.keys.is_empty() => s.keys[0] ^= 1 << r.below(8),
        7 => s.keys.truncate(r.below(17) as usize),
        8 if s.keys.len() == 32 && s.agreement.master => as_derived(r, &mut s.keys),
        8 if s.keys.len() == 32 => s.keys.copy_within(..16, 16),
        _ => (),
    }
    (slip, s)
}

/// A slip whose fields before the seal are left out, doubled or exchanged now and then, and then sealed.
fn exchanged(r: &mut Random) -> (Vec<u8>, Settings) {
    let sound = 1 + r.below(8);
    let s = Settings::sound(r, sound);
    let mut fields = covered(r);
    let place = r.below(3) as usize;
    match r.below(8) {
        0 => drop(fields.remove(place)),
        1 => fields.insert(place, fields[r.below(3) as usize].clone()),
        2 => fields.swap(place, r.below(3) as usize),
        3 => fields[place].insert(3, 0x30 + r.below(10) as u8),
        4 => fields[place] = field(1 + place as u8, &vec![0x31; r.below(40) as usize]),
        _ => (),
    }
    (sealed(&s, &fields.concat()), s)
}

/// A sound slip, cut to every length and changed in every byte to every value, under what it was sealed under.
pub fn every(r: &mut Random, run: &mut Run, [algorithm, padding]: [u64; 2]) {
    let mut s = Settings::sound(r, algorithm);
    s.agreement.padding = padding;
    let mut part = covered(r).concat();
    let mut slip = sealed(&s, &part);
    while read(r, run, &s, &slip) != 0 {
        part = covered(r).concat();
        slip = sealed(&s, &part);
    }
    for length in 0..slip.len() {
        read(r, run, &s, &slip[..length]);
    }
    for place in 0..slip.len() {
        let was = slip[place];
        for turned in 1..=255 {
            slip[place] = was ^ turned;
            read(r, run, &s, &slip);
        }
        slip[place] = was;
    }
    // Every m and every length of the tag, beside the right bytes: under what the slip names, and as before.
    let mut tag = [0; 16];
    reference::make(s.agreement, &s.keys, &part, 8 * part.len() as u64, &mut tag);
    for m in 0..=129 {
        let own = Settings { agreement: Agreement { m, ..s.agreement }, keys: s.keys.clone() };
        for size in [1, bytes_for(m), bytes_for(m) + 1].map(|size| size.clamp(1, 16) as usize) {
            let slip = naming(own.agreement, &part, &tag[..size]);
            read(r, run, &own, &slip);
            read(r, run, &s, &slip);
        }
    }
    // A tag of one bit: one of the two is right where m = 1 was agreed, and neither passes where more was.
    let one = Agreement { m: 1, ..s.agreement };
    let both = [0x00, 0x80].map(|tag| naming(one, &part, &[tag]));
    for (m, wanted) in [(1, [0, 30]), (m_limit(algorithm), [25, 25])] {
        s.agreement.m = m;
        let mut got = both.each_ref().map(|slip| read(r, run, &s, slip));
        got.sort();
        run.same(&got, &wanted, || format!("tags of one bit under m = {m}"));
    }
}
