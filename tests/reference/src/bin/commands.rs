//! commands call SEED COUNT: pseudo-random make and check lines for the bin `answer`, two for each of COUNT cases.
//! commands restore SEED COUNT: pseudo-random restore lines, one for each of COUNT cases.
//! commands master_call SEED COUNT, commands master_restore SEED COUNT: the same with settings that may have a master.
//! commands slip SEED COUNT: pseudo-random slip lines, one for each of COUNT cases, by `draw_slip`.
//! commands write SEED COUNT: pseudo-random write lines, one for each of COUNT cases, by `draw_write`.
//!
//! A call draws its settings by `Settings::draw`, or by `Settings::draw_master`, a message of up to three blocks near their
//! borders, and now and then a wrong slice length, a far bit count, a room or a tag of another size. The tag offered is the
//! right one, where there is one, in one case of three with one bit turned, which may be a spare one.
//!
//! A restore draws its settings so too, but mostly with m = 128, and a message of up to five blocks. The block's number is mostly
//! that of a whole block, which is then overwritten, or the next one, or far off; the tag is the right one of the message before
//! that, where there is one, in one case of three any sixteen bytes, and now and then of another size.

use reference::cases::{draw_slip, draw_write, Random, Settings, BITS, BLOCKS};
use reference::padding::bytes_for;
use reference::slip::Says;
use reference::{hex, make, Agreement};

fn word(bytes: &[u8]) -> String {
    if bytes.is_empty() {
        "-".to_string()
    } else {
        hex(bytes)
    }
}

fn near(r: &mut Random, count: u64) -> usize {
    (match r.below(12) {
        0 => count - 1,
        1 => count + 1,
        2 => r.below(25),
        _ => count,
    }) as usize
}

/// The three words of an agreement.
fn agreed(Agreement { algorithm, padding, m, master }: Agreement) -> String {
    format!("{algorithm} {padding} {m}{}", if master { "*" } else { "" })
}

fn call(r: &mut Random, settings: fn(&mut Random) -> Settings) {
    let s = settings(r);
    let mut bits = (128 * r.below(4) + r.below(17)).saturating_sub(8);
    let mut message = vec![0; bytes_for(bits) as usize];
    r.fill(&mut message);
    match r.below(24) {
        0 => message.push(0x80),
        1 => drop(message.pop()),
        2 => bits = BITS[r.below(8) as usize],
        _ => (),
    }
    let room = near(r, s.tag_size());
    let offered = near(r, s.tag_size());
    let mut tag = [0xA5; 24];
    make(s.agreement, s.keys(), &message, bits, &mut tag);
    if r.below(3) == 0 {
        let turn = r.below(8 * s.tag_size()) as usize;
        tag[turn / 8] ^= 0x80 >> (turn % 8);
    }
    let call = format!("{} {} {} {bits}", agreed(s.agreement), word(s.keys()), word(&message));
    println!("make {call} {room}");
    println!("check {call} {}", word(&tag[..offered]));
}

fn restore(r: &mut Random, settings: fn(&mut Random) -> Settings) {
    let mut s = settings(r);
    if r.below(8) > 0 {
        s.agreement.m = 128;
    }
    let bits = (128 * r.below(6) + r.below(17)).saturating_sub(8);
    let mut message = vec![0; bytes_for(bits) as usize];
    r.fill(&mut message);
    let mut tag = [0; 24];
    r.fill(&mut tag);
    if r.below(3) > 0 {
        make(s.agreement, s.keys(), &message, bits, &mut tag);
    }
    let whole = bits / 128;
    let block = match r.below(10) {
        0 => BLOCKS[r.below(8) as usize],
        1 => whole + r.below(2),
        _ => r.below(whole.max(1)),
    };
    if block < whole {
        r.fill(&mut message[16 * block as usize..][..16]);
    }
    if r.below(24) == 0 {
        message.push(0x80);
    }
    let offered = if r.below(2) == 0 { 16 } else { near(r, 16) };
    let call = format!("{} {} {} {bits}", agreed(s.agreement), word(s.keys()), word(&message));
    println!("restore {call} {block} {}", word(&tag[..offered]));
}

fn slip(r: &mut Random) {
    let (slip, s) = draw_slip(r);
    println!("slip {} {} {}", agreed(s.agreement), word(s.keys()), word(&slip));
}

fn write(r: &mut Random) {
    let (s, says, room) = draw_write(r);
    let Says { year, month, day, lot, amount } = says;
    let settings = format!("{} {}", agreed(s.agreement), word(s.keys()));
    println!("write {settings} {year} {month} {day} {} {amount} {room}", word(&lot));
}

fn main() {
    let words: Vec<String> = std::env::args().collect();
    let number = |i: usize| words.get(i).and_then(|word| word.parse::<u64>().ok());
    let kind: Option<fn(&mut Random)> = match words.get(1).map(|word| word.as_str()) {
        Some("call") => Some(|r| call(r, Settings::draw)),
        Some("restore") => Some(|r| restore(r, Settings::draw)),
        Some("master_call") => Some(|r| call(r, Settings::draw_master)),
        Some("master_restore") => Some(|r| restore(r, Settings::draw_master)),
        Some("slip") => Some(slip),
        Some("write") => Some(write),
        _ => None,
    };
    let (Some(kind), Some(seed), Some(count)) = (kind, number(2), number(3)) else {
        return eprintln!("commands call|restore|master_call|master_restore|slip|write SEED COUNT");
    };
    let mut random = Random::new(seed);
    for _ in 0..count {
        kind(&mut random);
    }
}
