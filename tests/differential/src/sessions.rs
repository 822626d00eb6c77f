//! Sessions that make a tag and sessions that check one: a message cut anyhow, with empty pieces, refused calls and finishes of the
//! other purpose in between, declared lengths that fit or do not, and records that no session hands out, also with a master that no
//! record has. A session in which nothing was forged must end as one call does with its bits.

use crate::calls::{offered, turn};
use crate::draw::{as_derived, bits, far, far_bits, message, near, once_in, Settings};
use crate::run::{Room, Run};
use reference::call::LIMIT;
use reference::cases::{Random, WIDE};
use reference::padding::bytes_for;
use reference::session::{self, Record, CHECKING, MAKING};
use reference::Answer;

/// What a session is about, and how far it is.
struct Course {
    s: Settings,
    bytes: Vec<u8>,
    /// The tag that a check was started with.
    tag: Vec<u8>,
    /// The bits of the message accepted so far.
    at: u64,
    forged: bool,
}

impl Course {
    fn joined(&self) -> &[u8] {
        &self.bytes[..bytes_for(self.at) as usize]
    }
}

pub fn case(r: &mut Random, run: &mut Run) {
    let sound = 1 + r.below(8);
    let s = if once_in(r, 3) { Settings::draw(r) } else { Settings::sound(r, sound) };
    let count = bits(r, s.agreement.algorithm);
    let bytes = message(r, count);
    let declared = match r.below(16) {
        0 => count + 1,
        1 => count.saturating_sub(1 + r.below(9)),
        2 => far(r),
        3 => LIMIT + r.below(3),
        _ => count,
    };
    let checks = once_in(r, 2);
    let tag = if checks { offered(r, &s, &bytes, count) } else { Vec::new() };
    let (mut record, _) = match checks {
        true => run.start_check(s.agreement, &s.keys, declared, &tag),
        false => run.start(s.agreement, &s.keys, declared),
    };
    let mut course = Course { s, bytes, tag, at: 0, forged: false };
    for left in (0..=r.below(14)).rev() {
        let kind = if left == 0 { 40 } else { r.below(33) };
        if once_in(r, 16) {
            run.odd_master(&record, far(r).max(2));
        }
        record = match kind {
            0 | 1 => run.piece(&record, &[], 0).0,
            2 => run.piece(&record, &course.bytes[..course.bytes.len().min(2)], 24 * r.below(2)).0,
            3 => run.piece(&record, &[], far_bits(r)).0,
            4 => {
                let over = LIMIT + 1 - course.at + r.below(9); // no bit of it is read
                run.piece(&record, &vec![0; bytes_for(over) as usize], over).0
            }
            5 => end(r, run, &course, &record),
            6 => {
                let room = Room::new(r, course.s.tag_size() - 1);
                run.finish(&record, room).0
            }
            7 | 8 => {
                course.forged = true;
                forge(r, &record)
            }
            9 | 10 => other_end(r, run, &course, &record),
            _ => {
                let cut = match kind {
                    11 | 12 => r.below(count - course.at + 1),
                    40 => count - course.at,
                    _ => 8 * r.below((count - course.at) / 8 + 1),
                };
                let from = (course.at / 8) as usize;
                let part = &course.bytes[from..from + bytes_for(cut) as usize];
                let (next, answer) = run.piece(&record, part, cut);
                course.at += if answer.number == 0 { cut } else { 0 };
                next
            }
        };
    }
    if once_in(r, 8) {
        course.forged = true;
        record = run.piece(&expecting(r, &record), &[], 0).0;
    }
    if once_in(r, 4) {
        record = other_end(r, run, &course, &record);
    }
    record = end(r, run, &course, &record);
    record = other_end(r, run, &course, &record);
    end(r, run, &course, &record);
}

/// Whether the record is for a check; either for one that has no purpose.
fn is_check(r: &mut Random, record: &Record) -> bool {
    match record.purpose {
        MAKING => false,
        CHECKING => true,
        _ => once_in(r, 2),
    }
}

/// The finish that the record is for.
fn end(r: &mut Random, run: &mut Run, course: &Course, record: &Record) -> Record {
    match is_check(r, record) {
        true => finish_check(run, course, record),
        false => finish(r, run, course, record),
    }
}

/// The finish that it is not for.
fn other_end(r: &mut Random, run: &mut Run, course: &Course, record: &Record) -> Record {
    match is_check(r, record) {
        true => finish(r, run, course, record),
        false => finish_check(run, course, record),
    }
}

/// A finish, and the same bits in one call where nothing was forged.
fn finish(r: &mut Random, run: &mut Run, course: &Course, record: &Record) -> Record {
    let size = near(r, course.s.tag_size());
    let room = Room::new(r, size);
    let (next, answer, room) = run.finish(record, room);
    if answer.number == 0 && !course.forged {
        let Course { s, at, .. } = course;
        let mut tag = [0; 16];
        let whole = reference::make(s.agreement, &s.keys, course.joined(), *at, &mut tag);
        let size = s.tag_size();
        let (ours, theirs): ((Answer, &[u8]), _) = ((answer, &room[..size]), (whole, &tag[..size]));
        run.same(&ours, &theirs, || format!("a session of {at} bits, and the same bits in one call"));
        run.like_one_call("made");
    }
    next
}

/// The finish of a check, and the same check in one call where nothing was forged.
fn finish_check(run: &mut Run, course: &Course, record: &Record) -> Record {
    let (next, answer) = run.finish_check(record);
    if answer.number == 0 && !course.forged {
        let Course { s, at, tag, .. } = course;
        let whole = reference::check(s.agreement, &s.keys, course.joined(), *at, tag);
        run.same(&answer, &whole, || format!("a check of {at} bits in a session, and in one call"));
        run.like_one_call(if answer.yes == 1 { "yes" } else { "no" });
    }
    next
}

/// A record of any content, from the one at hand or from nothing.
fn forge(r: &mut Random, record: &Record) -> Record {
    match r.below(9) {
        0 | 1 => one_field(r, record),
        2 => (0..=r.below(4)).fold(*record, |record, _| one_field(r, &record)),
        3 => (0..=r.below(40)).fold(Record::default(), |record, _| one_field(r, &record)),
        4 | 5 => open(r),
        6 => {
            let record = open(r);
            expecting(r, &record)
        }
        _ => {
            let record = open(r);
            one_field(r, &record)
        }
    }
}

/// A purpose: to check, now and then to make a tag, or a number that is neither, often right in its lowest byte or bytes alone.
fn purpose(r: &mut Random) -> u64 {
    match r.below(8) {
        0 => MAKING,
        1 => 2 + r.below(3),
        2 => (1 << WIDE[r.below(8) as usize]) + r.below(2),
        3 => far(r),
        _ => CHECKING,
    }
}

/// The record for another purpose, and if its bits have a tag, with this one expected or one near it; what lies past it is any.
fn expecting(r: &mut Random, record: &Record) -> Record {
    let mut expected = [0; 16];
    r.fill(&mut expected);
    session::finish(Record { purpose: MAKING, ..*record }, &mut expected);
    let m = record.agreement.m.clamp(1, 128);
    let size = bytes_for(m) as usize;
    let spare = 8 * size as u64 - m;
    match r.below(10) {
        0 | 1 => expected[size..].fill(0),
        2 | 3 => turn(&mut expected, r.below(8 * size as u64)),
        4 => expected[size - 1] |= (1 << spare) - 1,
        5 if spare > 0 => turn(&mut expected, m + r.below(spare)),
        6 => expected = [0; 16],
        _ => (),
    }
    Record { purpose: purpose(r), expected, ..*record }
}

/// An open record: its purpose, its chain value, its second key, the bits that it holds and the tag that it expects are any, its
/// total is often near the limit.
fn open(r: &mut Random) -> Record {
    let algorithm = 1 + r.below(8);
    let agreement = Settings::sound(r, algorithm).agreement;
    let total = match r.below(4) {
        0 => r.below(LIMIT + 1),
        1 => LIMIT - r.below(80),
        2 => 128 * r.below(LIMIT / 128 + 1),
        _ => r.below(400),
    };
    let declared = match r.below(4) {
        0 => far(r),
        1 => total,
        2 => (total + r.below(64)).min(LIMIT),
        _ => total + r.below(LIMIT + 1 - total),
    };
    let declared = if agreement.padding == 3 { declared.clamp(total, LIMIT) } else { declared };
    let part = total % 8;
    let phase = 1 + u64::from(part != 0);
    let mut out =
        Record { phase, part, purpose: r.below(2), agreement, declared, total, ..Record::default() };
    r.fill(&mut out.keys);
    r.fill(&mut out.chain);
    r.fill(&mut out.held);
    r.fill(&mut out.expected);
    let past = 128 - (total - total.saturating_sub(1) / 128 * 128);
    let held = u128::from_be_bytes(out.held).checked_shr(past as u32).unwrap_or(0);
    out.held = held.checked_shl(past as u32).unwrap_or(0).to_be_bytes();
    out
}

fn one_field(r: &mut Random, record: &Record) -> Record {
    let mut out = *record;
    let any = if once_in(r, 3) { Some(far(r)) } else { None };
    match r.below(17) {
        0 => out.phase = any.unwrap_or(r.below(5)),
        1 => out.part = any.unwrap_or(r.below(10)),
        2 => (out.phase, out.part) = (1 + r.below(2), out.total % 8),
        3 => out.agreement.algorithm = any.unwrap_or(r.below(10)),
        4 => out.agreement.padding = any.unwrap_or(r.below(6)),
        5 => out.agreement.m = any.unwrap_or(r.below(131)),
        6 => out.declared = any.unwrap_or(r.below(2 * out.total.min(LIMIT) + 2)),
        7 => out.declared = LIMIT + r.below(3),
        8 => out.total = any.unwrap_or(8 * r.below(200)),
        9 => out.total = LIMIT - 16 + r.below(40),
        10 => {
            out.keys.copy_within(..16, 16);
            let turned = [0, 0, 0xF0, 1][r.below(4) as usize];
            out.keys[16..].iter_mut().for_each(|byte| *byte ^= turned);
        }
        11 => r.fill(&mut out.chain),
        12 => out.purpose = any.unwrap_or(purpose(r)),
        13 => r.fill(&mut out.expected),
        14 => out.agreement.master = !out.agreement.master,
        15 => as_derived(r, &mut out.keys),
        _ => out.held[r.below(16) as usize] ^= 1 << r.below(8),
    }
    out
}
