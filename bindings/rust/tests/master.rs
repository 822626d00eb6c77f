//! Masters: A.7 under its master, with the printed tags and 2 calls more, and R8 with algorithm 4, in one call and in sessions; the
//! numbers that stand for yes; the refusals of keys, and their order; records that no call handed out; slips, also read with the
//! master told wrongly; and lost blocks.

mod common;

use common::{agreed, annex_a, calls, hex, key, keys, slip, turned, Vector, GOOD, MESSAGE};
use slipseal::raw::{self, Record};
use slipseal::{
    check, make, read_slip, restore, write_slip, Agreement, Checked, Contents, Session, SlipReader,
};

/// Derived from the key of annex A: K and K' of A.7.
const DERIVED: [&str; 2] = ["4E595BF03F23BD10329BAF5698E898EC", "B3136C044E95482D4F652E694F2741CD"];

/// R8, algorithm 4, padding 1, data 1, with K' of annex A as the master. The first 8 bytes are the tag of R8.
const FOURTH: &str = "DD64873EEB7C9605B80D0AF097A3B554";

/// Numbers that stand for yes in an agreement; in a record 1 alone does.
const YES: [u64; 10] = [1, 2, 3, 255, 256, 257, 1 << 32, (1 << 32) + 1, 1 << 63, u64::MAX];

fn mastered(algorithm: u64, padding: u64, m: u64) -> Agreement {
    Agreement { master: true, ..agreed(algorithm, padding, m) }
}

/// K and K' of A.7.
fn derived() -> Vec<u8> {
    DERIVED.map(hex).concat()
}

/// What was agreed, the keys, the message, the tag and the calls.
type Case = (Agreement, Vec<u8>, &'static [u8], Vec<u8>, u64);

/// A.7, of algorithm 2 what the derived keys make that are handed in, and R8.
fn cases() -> Vec<Case> {
    let of_a_7: Vec<Vector> = annex_a().into_iter().filter(|v| v.algorithm == 6).collect();
    assert_eq!(of_a_7.len(), 6);
    let mut cases = Vec::new();
    for (Vector { padding, message, keys, tag, g, .. }, calls) in of_a_7.into_iter().zip([4, 5, 5, 4, 4, 5]) {
        assert_eq!(keys, derived());
        let mut room = [0; 16];
        let two = make(agreed(2, padding, 128), &keys, message, 8 * message.len(), &mut room).unwrap();
        assert_eq!(two.calls, calls - 1, "algorithm 2 under the derived keys");
        cases.push((mastered(2, padding, 128), key(), message, two.tag.to_vec(), two.calls + 2));
        cases.push((mastered(6, padding, 64), key(), message, tag, calls));
        cases.push((mastered(6, padding, 128), key(), message, g, calls));
    }
    cases.push((mastered(4, 1, 64), keys(), MESSAGE, hex(FOURTH)[..8].to_vec(), 6));
    cases.push((mastered(4, 1, 128), keys(), MESSAGE, hex(FOURTH), 6));
    cases
}

// ---- tags

#[test]
fn made_and_checked_in_one_call() {
    for (agreement, keys, message, tag, calls) in cases() {
        let bits = 8 * message.len();
        let mut room = [0xAA; 20];
        let made = make(agreement, &keys, message, bits, &mut room).unwrap();
        assert_eq!((made.tag, made.calls), (&tag[..], calls), "{agreement:?}");
        assert_eq!(room[tag.len()..], vec![0xAA; 20 - tag.len()], "bytes past the tag stay");
        assert_eq!(check(agreement, &keys, message, bits, &tag), Checked::Yes { calls });
        for other in turned(&tag) {
            assert_eq!(check(agreement, &keys, message, bits, &other), Checked::No { calls });
        }
    }
}

#[test]
fn sessions_cut_at_every_byte() {
    for (agreement, keys, message, tag, calls) in cases() {
        let bits = 8 * message.len();
        for cut in 0..=message.len() {
            let mut session = Session::start(agreement, &keys, bits).unwrap();
            let mut checking = Session::check(agreement, &keys, bits, &tag).unwrap();
            for piece in [&message[..cut], &message[cut..]] {
                session.piece(piece, 8 * piece.len()).unwrap();
                checking.piece(piece, 8 * piece.len()).unwrap();
            }
            let mut room = [0; 16];
            let made = session.finish(&mut room).unwrap();
            assert_eq!((made.tag, made.calls), (&tag[..], calls), "{agreement:?} cut at {cut}");
            let checked = checking.finish();
            assert!(matches!(checked, Checked::Yes { calls: n } if n == calls), "{agreement:?} cut at {cut}");
        }
        for other in turned(&tag) {
            let mut checking = Session::check(agreement, &keys, bits, &other).unwrap();
            checking.piece(message, bits).unwrap();
            assert!(matches!(checking.finish(), Checked::No { calls: n } if n == calls), "{agreement:?}");
        }
    }
}

/// The calls are 2 more than without a master; of algorithms 2 and 6, the derived keys handed in make the same tags.
#[test]
fn every_number_of_bits() {
    for algorithm in [2, 4, 6] {
        for padding in 1..=3 {
            let (agreement, plain) = (mastered(algorithm, padding, 127), agreed(algorithm, padding, 127));
            let keys = if algorithm == 4 { keys() } else { key() };
            for bits in 0..=256_usize {
                let message = &MESSAGE[..bits.div_ceil(8)];
                let mut room = [0; 16];
                let Ok(made) = make(agreement, &keys, message, bits, &mut room) else {
                    assert!(algorithm == 4 && padding < 3 && bits <= 128, "9");
                    continue;
                };
                assert_eq!(made.calls, calls(algorithm, padding, bits) + 2, "{agreement:?}, {bits} bits");
                if algorithm != 4 {
                    let mut other = [0; 16];
                    let given = make(plain, &derived(), message, bits, &mut other).unwrap();
                    assert_eq!((made.tag, made.calls), (given.tag, given.calls + 2), "{bits} bits");
                }
                assert!(check(agreement, &keys, message, bits, made.tag).is_yes());
            }
        }
    }
}

/// Every function takes every number for yes, and a session's record has 1 for it.
#[test]
fn any_number_but_0_is_yes() {
    let agreement = mastered(6, 1, 128);
    let mut tag = [0; 16];
    make(agreement, &key(), MESSAGE, 256, &mut tag).unwrap();
    let starts = |agreement| {
        [raw::start(agreement, &key(), 0), raw::start_check(agreement, &key(), 0, &tag)]
            .map(|step| (step.answer.number, step.session))
    };
    let begun = starts(agreement.into());
    assert_eq!(begun.map(|(number, record)| (number, record.agreement.master)), [(0, 1); 2]);
    for master in YES {
        let agreement = raw::Agreement { master, ..agreement.into() };
        let (mut room, mut slip, mut lost) = ([0; 16], [0; 75], *MESSAGE);
        lost[..16].fill(0);
        assert_eq!(raw::make(agreement, &key(), MESSAGE, 256, &mut room).calls, 4, "{master}");
        assert_eq!(room, tag, "{master}");
        assert_eq!(raw::check(agreement, &key(), MESSAGE, 256, &tag).yes, 1, "{master}");
        assert!(starts(agreement) == begun, "{master}");
        assert_eq!(raw::restore(agreement, &key(), &mut lost, 256, 0, &tag), 0, "{master}");
        assert_eq!(&lost, MESSAGE, "{master}");
        let written = raw::write(agreement, &key(), GOOD, &mut slip);
        assert_eq!((written.number, written.calls), (0, 4), "{master}");
        let slip = &slip[..written.length as usize];
        let record = raw::gather(raw::Gathered { count: 0, bytes: [0; 80] }, slip);
        let reads = [raw::read(agreement, &key(), slip), raw::read_gathered(agreement, &key(), record)];
        assert_eq!(reads.map(|read| (read.number, read.calls)), [(0, 4); 2], "{master}");
    }
    let plain = raw::start(agreed(5, 4, 64).into(), &key(), 0).session;
    assert_eq!(plain.agreement.master, 0);
}

// ---- refusals

/// The number that an agreement and keys get, 0 where they are taken; it must be the same of all functions.
fn judged(agreement: Agreement, keys: &[u8]) -> u64 {
    let number = |refused: Option<slipseal::Refusal>| refused.map_or(0, |refusal| refusal.number());
    let Agreement { algorithm, padding, m, .. } = agreement;
    let mut room = [0xAA; 16];
    let judged = number(make(agreement, keys, MESSAGE, 256, &mut room).err());
    assert!(judged == 0 || room == [0xAA; 16], "a refusal writes nothing");
    let tag = vec![0xAA; m.div_ceil(8) as usize];
    let checked = match check(agreement, keys, MESSAGE, 256, &tag) {
        Checked::Refused(refusal) => refusal.number(),
        _ => 0,
    };
    let seal = [&[0x7F, 0, 11, algorithm as u8, padding as u8, m as u8][..], &[0xAA; 8]].concat();
    let read = match number(read_slip(agreement, keys, &[slip(""), seal].concat()).err()) {
        30 => 0,
        number => number,
    };
    let mut lost = *MESSAGE;
    let full = Agreement { m: if judged == 3 { m } else { 128 }, ..agreement };
    let restored = number(restore(full, keys, &mut lost, 256, 0, &[0xAA; 16]).err());
    let restored = if algorithm == 7 && restored == 3 { judged } else { restored }; // no full tag: 3 before 4
    assert!(restored == 0 || lost == *MESSAGE, "a refusal writes nothing");
    let others = [
        checked,
        read,
        restored,
        number(Session::start(agreement, keys, 0).err()),
        number(Session::check(agreement, keys, 0, &tag).err()),
        number(write_slip(agreement, keys, GOOD, &mut [0; 75]).err()),
    ];
    assert_eq!(others, [judged; 6], "{agreement:?}, {} bytes", keys.len());
    judged
}

/// Under a master 2 and 6 take 16 bytes, 4 takes 32, and no other takes any.
#[test]
fn bytes_of_keys() {
    let bytes: Vec<u8> = (0..64).map(|i| 3 * i).collect();
    for algorithm in 1..=8 {
        let padding = if matches!(algorithm, 5 | 7 | 8) { 4 } else { 1 };
        let right = match algorithm {
            2 | 6 => Some(16),
            4 => Some(32),
            _ => None,
        };
        for length in 0..=64 {
            let number = judged(mastered(algorithm, padding, 63), &bytes[..length]);
            assert_eq!(number, if Some(length) == right { 0 } else { 4 }, "{algorithm}, {length} bytes");
        }
    }
}

/// 1 to 5, then 7, 9 and 10, each with every later one that can be had beside it.
#[test]
fn the_first_fault_is_told() {
    let same = [hex(DERIVED[0]), key()].concat();
    let longer = [&same[..], &[0]].concat();
    assert_eq!(judged(mastered(9, 4, 129), &longer), 1);
    assert_eq!(judged(mastered(3, 4, 129), &longer), 2);
    assert_eq!(judged(mastered(3, 1, 129), &longer), 3);
    assert_eq!(judged(mastered(4, 1, 129), &longer), 3);
    assert_eq!(judged(mastered(4, 1, 129), &same), 3);
    assert_eq!(judged(mastered(4, 1, 64), &longer), 4);
    assert_eq!(judged(mastered(3, 1, 64), &[key(), key()].concat()), 4);
    let made = |keys: &[u8], bytes: usize, bits, room: usize| {
        make(mastered(4, 1, 64), keys, &MESSAGE[..bytes], bits, &mut [0; 8][..room]).unwrap_err().number()
    };
    assert_eq!(made(&same, 16, 256, 7), 5);
    assert_eq!(made(&keys(), 16, 256, 7), 7);
    assert_eq!(made(&keys(), 16, 128, 7), 9);
    assert_eq!(made(&keys(), 32, 256, 7), 10);
}

/// 5 compares the keys in use: K may be the master, and must be none of the derived keys.
#[test]
fn keys_that_must_differ() {
    let third: Vec<u8> = key().iter().map(|byte| byte ^ 0xF0).collect();
    for (first, under_master, without) in [
        (hex(DERIVED[0]), 5, 0),
        (hex(DERIVED[1]), 5, 0),
        (key(), 0, 5),
        (third, 0, 5),
        (keys()[16..].to_vec(), 0, 0),
    ] {
        let keys = [first, key()].concat();
        assert_eq!(judged(mastered(4, 1, 64), &keys), under_master, "{keys:02X?}");
        assert_eq!(judged(agreed(4, 1, 64), &keys), without, "{keys:02X?}");
    }
    for place in 0..128 {
        let mut near = hex(DERIVED[place % 2]);
        near[place / 8] ^= 0x80 >> (place % 8);
        assert_eq!(judged(mastered(4, 1, 64), &[near, key()].concat()), 0, "bit {place}");
    }
    for master in [key(), derived()[..16].to_vec(), vec![0; 16], vec![0xFF; 16]] {
        for algorithm in [2, 6] {
            assert_eq!(judged(mastered(algorithm, 1, 64), &master), 0);
            assert_eq!(judged(agreed(algorithm, 1, 64), &master), 4);
        }
    }
}

// ---- records

/// The keys are kept as they were given; where they are 16 bytes, what stands after them is not read.
#[test]
fn what_a_record_keeps() {
    let record = raw::start(mastered(4, 2, 64).into(), &keys(), 0).session;
    assert_eq!((record.agreement, &record.keys[..]), (mastered(4, 2, 64).into(), &keys()[..]));
    for algorithm in [2, 6] {
        let agreement = mastered(algorithm, 2, 64);
        let mut record = raw::start(agreement.into(), &key(), 0).session;
        assert_eq!((record.agreement, &record.keys[..16]), (agreement.into(), &key()[..]));
        assert_eq!(record.keys[16..], [0; 16]);
        record.keys[16..].fill(0xC3);
        let fed = raw::piece(record, MESSAGE, 256).session;
        assert_eq!((fed.agreement, fed.keys), (record.agreement, record.keys));
        let (mut tag, mut room) = ([0; 8], [0; 8]);
        let made = make(agreement, &key(), MESSAGE, 256, &mut tag).unwrap().calls;
        assert_eq!(raw::finish(fed, &mut room).answer.calls, made);
        assert_eq!(room, tag);
    }
}

/// Whether all calls are refused with 11 and hand back the very record; else a piece is taken.
fn counts_closed(record: Record) -> bool {
    let mut room = [0xAA; 16];
    if raw::piece(record, b"", 0).answer.number == 0 {
        return false;
    }
    let finish = raw::finish(record, &mut room);
    for step in [raw::piece(record, b"", 0), raw::piece(record, b"ab", 8), finish, raw::finish_check(record)]
    {
        assert_eq!([step.answer.number, step.answer.yes, step.answer.calls], [11, 0, 0]);
        assert!(step.session == record, "a refusal hands back the very record");
    }
    assert_eq!(room, [0xAA; 16], "a refusal writes nothing");
    true
}

/// A record under algorithm 6 with one byte, for each purpose.
fn records() -> [Record; 2] {
    let starts = [
        raw::start(mastered(6, 1, 64).into(), &key(), 0),
        raw::start_check(mastered(6, 1, 64).into(), &key(), 0, &[0x77; 8]),
    ];
    starts.map(|step| raw::piece(step.session, b"a", 8).session)
}

#[test]
fn masters_that_are_neither_0_nor_1() {
    for record in records() {
        for master in YES.into_iter().chain([0]) {
            let mut odd = record;
            odd.agreement.master = master;
            assert_eq!(counts_closed(odd), master > 1, "{master}");
        }
    }
}

#[test]
fn records_that_a_start_would_refuse() {
    for mut record in records() {
        for (algorithm, padding) in [(1, 1), (2, 1), (3, 1), (4, 1), (5, 4), (6, 1), (7, 4), (8, 4)] {
            for master in [0, 1] {
                record.agreement = raw::Agreement { algorithm, padding, m: 63, master };
                let closed = master == 1 && ![2, 4, 6].contains(&algorithm);
                assert_eq!(counts_closed(record), closed, "algorithm {algorithm}, master {master}");
            }
        }
        for (first, under_master, without) in
            [(hex(DERIVED[0]), true, false), (hex(DERIVED[1]), true, false), (key(), false, true)]
        {
            record.keys = [first, key()].concat().try_into().unwrap();
            record.agreement = mastered(4, 1, 64).into();
            assert_eq!(counts_closed(record), under_master);
            record.agreement.master = 0;
            assert_eq!(counts_closed(record), without);
        }
    }
}

// ---- slips

/// Agreement, keys, seal and calls of the slip of R6's fields.
fn sealed() -> [(Agreement, Vec<u8>, &'static str, u64); 2] {
    [
        (mastered(6, 1, 64), key(), "7F000B060140 46CC7AF860723DB2", 4),
        (mastered(4, 1, 64), keys(), "7F000B040140 F1C38C2644B31AA7", 6),
    ]
}

#[test]
fn slips_written_and_read() {
    for (agreement, keys, seal, calls) in sealed() {
        let mut room = [0; 75];
        let written = write_slip(agreement, &keys, GOOD, &mut room).unwrap();
        assert_eq!((written.slip, written.calls), (&slip(seal)[..], calls));
        let read = read_slip(agreement, &keys, written.slip).unwrap();
        assert_eq!((read.contents, read.calls), (GOOD, calls));
        let mut reader = SlipReader::new();
        written.slip.chunks(20).for_each(|part| reader.push(part));
        assert_eq!(reader.read(agreement, &keys), Ok(read));
    }
}

/// A slip does not name the master: 25 does not look at it, and the seal is wrong under the other keys.
#[test]
fn slips_with_the_master_told_wrongly() {
    let refused = |agreement, keys: &[u8], slip: &[u8]| {
        read_slip(agreement, keys, slip).map_or_else(|refusal| refusal.number(), |_| 0)
    };
    let [six, four] = sealed().map(|(_, _, seal, _)| slip(seal));
    assert_eq!(refused(agreed(4, 1, 64), &keys(), &four), 30);
    assert_eq!(refused(agreed(6, 1, 64), &key(), &six), 4);
    assert_eq!(refused(agreed(6, 1, 64), &keys(), &six), 30);
    assert_eq!(read_slip(agreed(6, 1, 64), &derived(), &six).unwrap().calls, 2);
    let mut room = [0; 75];
    let plain = write_slip(agreed(4, 1, 64), &keys(), GOOD, &mut room).unwrap().slip;
    assert_eq!(refused(agreed(4, 1, 64), &keys(), plain), 0);
    assert_eq!(refused(mastered(4, 1, 64), &keys(), plain), 30);
    for (agreement, keys, seal, _) in sealed() {
        let slip = slip(seal);
        assert_eq!(refused(agreement, &vec![7; keys.len()], &slip), 30, "another master");
        for other in
            [Agreement { m: 63, ..agreement }, Agreement { padding: 2, ..agreement }, mastered(3, 1, 64)]
        {
            assert_eq!(refused(other, &keys, &slip), 25, "{other:?}");
        }
    }
}

#[test]
fn every_slip_both_ways() {
    for (algorithm, padding, m) in
        [2, 4, 6].into_iter().flat_map(|a| (1..=3).flat_map(move |p| (1..=128).map(move |m| (a, p, m))))
    {
        let agreement = mastered(algorithm, padding, m);
        let keys = if algorithm == 4 { keys() } else { key() };
        let lot: Vec<u8> = (0..m % 32 + 1).map(|i| 0x21 + ((m + 7 * i) % 94) as u8).collect();
        let contents = Contents { lot: &lot, amount: 7812 * m, ..GOOD };
        let (mut room, mut again) = ([0; 75], [0; 75]);
        let written = write_slip(agreement, &keys, contents, &mut room).unwrap();
        let read = read_slip(agreement, &keys, written.slip).unwrap();
        let expected = calls(algorithm, padding, 8 * (21 + lot.len())) + 2;
        assert_eq!((read.contents, read.calls, written.calls), (contents, expected, expected));
        assert_eq!(write_slip(agreement, &keys, read.contents, &mut again).unwrap(), written);
    }
}

// ---- lost blocks

#[test]
fn every_block_restored() {
    for (agreement, keys, message, tag, calls) in cases() {
        let bits = 8 * message.len();
        if agreement.m != 128 {
            let refusal = restore(agreement, &keys, &mut message.to_vec(), bits, 0, &tag).unwrap_err();
            assert_eq!(refusal.number(), 3);
            continue;
        }
        for block in 0..message.len() / 16 {
            let mut lost = message.to_vec();
            lost[16 * block..16 * block + 16].fill(b'?');
            restore(agreement, &keys, &mut lost, bits, block, &tag).unwrap();
            assert_eq!(lost, message, "{agreement:?}, block {block}");
            assert_eq!(check(agreement, &keys, &lost, bits, &tag), Checked::Yes { calls });
        }
        let whole = message.len() / 16;
        let refusal = restore(agreement, &keys, &mut message.to_vec(), bits, whole, &tag).unwrap_err();
        assert_eq!(refusal.number(), 41);
    }
}
