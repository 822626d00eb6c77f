//! The longest message, 8,388,608 bits, in one call and in sessions of pieces, made and checked, and one bit more; and blocks of it
//! lost and restored.
//! The first case has its answers from the requirements (appendix, R7); the others are compared with the reference.

use crate::draw::Settings;
use crate::library;
use crate::run::{Room, Run};
use reference::call::LIMIT;
use reference::cases::Random;
use reference::mac::m_limit;
use reference::padding::bytes_for;
use reference::session::Record;
use reference::{hex, unhex, Agreement, Answer};

const MOST: usize = (LIMIT / 8) as usize;
const PLAIN: Agreement = Agreement { algorithm: 1, padding: 1, m: 128, master: false };

/// Algorithm 1, padding 1, zeros.
pub fn known(r: &mut Random, run: &mut Run) {
    let keys = unhex("0123456789ABCDEFFEDCBA9876543210").expect("hex digits");
    let zeros = vec![0; MOST + 1];
    let mut tag = [0; 16];
    let made = library::make(PLAIN, &keys, &zeros[..MOST], LIMIT, &mut tag);
    run.same(&made, &Answer { number: 0, yes: 1, calls: 65_536 }, || "8,388,608 zeros".to_string());
    run.same(&hex(&tag), &"52E7B8DB5C984966E56E4943745D6392".to_string(), || "8,388,608 zeros".to_string());
    // One bit more: 8, and 7 before it where a byte is missing; both before 10, for a room or a tag of 15 bytes.
    for (size, number) in [(MOST + 1, 8), (MOST, 7)] {
        for count in [16, 15] {
            let mut room = [0; 16];
            let made = library::make(PLAIN, &keys, &zeros[..size], LIMIT + 1, &mut room[..count]);
            let checked = library::check(PLAIN, &keys, &zeros[..size], LIMIT + 1, &tag[..count]);
            let refused = Answer::refused(number);
            let what = || format!("one bit more in {size} bytes, {count} bytes of a tag");
            run.same(&(made, checked, room), &(refused, refused, [0; 16]), what);
        }
    }
    let begun = [run.start(PLAIN, &keys, 0).0, run.start_check(PLAIN, &keys, 0, &tag).0];
    let [maker, checker] = begun.map(|mut record| {
        for _ in 0..16 {
            record = run.piece(&record, &zeros[..MOST / 16], LIMIT / 16).0;
        }
        let (_, refused) = run.piece(&record, &zeros[..1], 1);
        run.same(&refused, &Answer::refused(8), || "one bit more in a session".to_string());
        record
    });
    let (_, made, room) = run.finish(&maker, Room::new(r, 16));
    run.same(&(made.calls, room), &(65_536, tag.to_vec()), || "8,388,608 zeros in pieces".to_string());
    let (_, checked) = run.finish_check(&checker);
    run.same(&checked, &made, || "8,388,608 zeros checked in pieces".to_string());
}

/// Any bits, under one algorithm and padding.
pub fn case(r: &mut Random, run: &mut Run, [algorithm, padding]: [u64; 2]) {
    let mut s = Settings::sound(r, algorithm);
    s.agreement = Agreement { padding, m: m_limit(algorithm), ..s.agreement };
    let mut bytes = vec![0; MOST + 1];
    r.fill(&mut bytes);
    let size = s.tag_size();

    let mut tag = vec![0; size];
    let made = library::make(s.agreement, &s.keys, &bytes[..MOST], LIMIT, &mut tag);
    let room = Room::new(r, size);
    run.make(s.agreement, &s.keys, &bytes[..MOST], LIMIT - 1 - r.below(7), room);
    let checked = run.check("check", s.agreement, &s.keys, &bytes[..MOST], LIMIT, &tag);
    run.same(&made, &checked, || "the longest message, made and checked".to_string());
    for size in [MOST - 1, MOST, MOST + 1] {
        let room = Room::new(r, 16);
        run.make(s.agreement, &s.keys, &bytes[..size], LIMIT + 1, room);
        run.check("check", s.agreement, &s.keys, &bytes[..size], LIMIT + 1, &tag);
    }

    // The first, the last and any block lost; the next after the last, and one bit more.
    let blocks = LIMIT / 128;
    for block in [0, blocks - 1, r.below(blocks), blocks] {
        let mut wet = bytes[..MOST].to_vec();
        wet.chunks_exact_mut(16).skip(block as usize).take(1).for_each(|part| r.fill(part));
        let room = Room::around(r, &wet);
        let (number, left) = run.restore(s.agreement, &s.keys, room, LIMIT, block, &tag);
        if number == 0 {
            run.same(&(left == bytes[..MOST]), &true, || format!("block {block} of the longest message"));
        }
    }
    let room = Room::around(r, &bytes);
    run.restore(s.agreement, &s.keys, room, LIMIT + 1, 0, &tag);

    let (mut record, _) = run.start_check(s.agreement, &s.keys, LIMIT, &tag);
    let mut at = 0;
    while at < MOST {
        let count = (1 + r.below(100_000) as usize).min(MOST - at);
        let last = at + count == MOST;
        record = run.piece(&record, &bytes[at..at + count], 8 * count as u64 - u64::from(last)).0;
        at += count;
    }
    // The last bit comes too late: the piece before ended inside a byte.
    run.piece(&record, &bytes[..1], 1);
    run.finish(&record, Room::new(r, size));
    run.finish_check(&record);
    let (begun, _) = run.start_check(s.agreement, &s.keys, LIMIT, &tag);
    record = full(run, &begun, &bytes[..MOST]);
    let (_, answer) = run.finish_check(&record);
    run.same(&answer, &made, || "the longest message checked in pieces".to_string());
    let (begun, _) = run.start(s.agreement, &s.keys, LIMIT);
    record = full(run, &begun, &bytes[..MOST]);
    let over = 1 + r.below(9);
    run.piece(&record, &bytes[..bytes_for(over) as usize], over);
    record = run.piece(&record, &[], 0).0;
    let (_, answer, room) = run.finish(&record, Room::new(r, size));
    run.same(&(answer, room), &(made, tag), || "the longest message in pieces".to_string());
}

/// A begun session, fed the whole message by two pieces.
fn full(run: &mut Run, begun: &Record, bytes: &[u8]) -> Record {
    let (one, two) = bytes.split_at(bytes.len() / 3);
    let (record, _) = run.piece(begun, one, 8 * one.len() as u64);
    run.piece(&record, two, 8 * two.len() as u64).0
}
