//! One call: a tag is made, into rooms too small and too large, and a tag is checked that is right, wrong, too long, too short, or
//! right but for a spare bit; and a block of the message is lost and restored.

use crate::draw::{bits, far_bits, far_block, message, near, once_in, Settings};
use crate::run::{Room, Run};
use reference::call::LIMIT;
use reference::cases::Random;
use reference::padding::bytes_for;

pub fn case(r: &mut Random, run: &mut Run) {
    let s = Settings::draw(r);
    let mut count = bits(r, s.agreement.algorithm);
    let mut bytes = message(r, count);
    match r.below(48) {
        0 => bytes.push(r.below(256) as u8),
        1 => drop(bytes.pop()),
        2 => bytes.truncate(r.below(bytes.len() as u64 + 1) as usize),
        3 => count = far_bits(r),
        4 | 5 => {
            count = LIMIT + 1 + r.below(100); // no bit of it is read
            bytes = vec![0; bytes_for(count) as usize];
        }
        6 => {
            count = LIMIT + 1 + r.below(100);
            bytes = vec![0; (bytes_for(count) - 1 + 2 * r.below(2)) as usize];
        }
        _ => (),
    }
    let size = near(r, s.tag_size());
    let room = Room::new(r, size);
    run.make(s.agreement, &s.keys, &bytes, count, room);
    let tag = offered(r, &s, &bytes, count);
    run.check("check", s.agreement, &s.keys, &bytes, count, &tag);
    // Of the messages over the limit, which are copied and not read, one in eight.
    if bytes.len() as u64 <= LIMIT / 8 || once_in(r, 8) {
        lost(r, run, s, &bytes, count);
    }
}

/// A block of the message, mostly a whole one, is overwritten and restored out of a full tag, right or wrong. Then the check must
/// say yes, and out of the right tag the message must come back as it was.
fn lost(r: &mut Random, run: &mut Run, mut s: Settings, bytes: &[u8], count: u64) {
    if !once_in(r, 8) {
        s.agreement.m = 128;
    }
    let mut tag = vec![0; 16];
    r.fill(&mut tag);
    let right = !once_in(r, 3) && reference::make(s.agreement, &s.keys, bytes, count, &mut tag).number == 0;
    match r.below(16) {
        0 => tag.push(if once_in(r, 2) { 0 } else { r.below(256) as u8 }),
        1 => drop(tag.pop()),
        2 => tag.truncate(r.below(17) as usize),
        _ => (),
    }
    let whole = count / 128;
    let block = match r.below(12) {
        0 => far_block(r),
        1 => whole + r.below(3),
        2 => whole.saturating_sub(1),
        3 => 0,
        _ => r.below(whole.max(1)),
    };
    let mut wet = bytes.to_vec();
    if !once_in(r, 8) {
        wet.chunks_exact_mut(16).skip(block as usize).take(1).for_each(|part| r.fill(part));
    }
    let room = Room::around(r, &wet);
    let (number, left) = run.restore(s.agreement, &s.keys, room, count, block, &tag);
    if number == 0 {
        let answer = run.check("restored", s.agreement, &s.keys, &left, count, &tag);
        run.same(&answer.yes, &1, || "a restored message checked".to_string());
        if right {
            run.same(&&left[..], &bytes, || "a message restored out of its own tag".to_string());
        }
    }
}

/// A tag to be checked, made from the right one where there is one.
pub fn offered(r: &mut Random, s: &Settings, bytes: &[u8], count: u64) -> Vec<u8> {
    let mut tag = vec![0; 16];
    r.fill(&mut tag);
    reference::make(s.agreement, &s.keys, bytes, count, &mut tag);
    let size = s.tag_size();
    tag.truncate(size);
    match r.below(16) {
        0..=6 => (),
        7..=9 => turn(&mut tag, r.below(8 * size as u64)),
        10 => turn(&mut tag, 8 * size as u64 - 1), // a spare bit, where there is one
        11 => tag.push(if once_in(r, 2) { 0 } else { r.below(256) as u8 }),
        12 => drop(tag.pop()),
        13 => tag.truncate(r.below(size as u64 + 1) as usize),
        14 => tag.iter_mut().for_each(|byte| *byte = 0),
        _ => r.fill(&mut tag),
    }
    tag
}

pub fn turn(bytes: &mut [u8], bit: u64) {
    bytes[bit as usize / 8] ^= 0x80 >> (bit % 8);
}
