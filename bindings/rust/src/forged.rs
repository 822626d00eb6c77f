//! Records that no call handed out, through the struct itself. A record that counts as closed is refused with 11 and comes back
//! untouched, byte for byte; whatever else is changed in an open record, it is worked on. And the finish of the other purpose,
//! which the two types of session leave no way to ask for.

use crate::raw::{self, Record};
use crate::{make, Agreement, Checked, CheckingSession, Session};
use std::mem::offset_of;

const KEY: [u8; 16] = *b"\x01\x23\x45\x67\x89\xAB\xCD\xEF\xFE\xDC\xBA\x98\x76\x54\x32\x10";

const PLAIN: Agreement = Agreement { algorithm: 1, padding: 1, m: 128, master: false };

/// Closed, as it is handed out.
const ZEROS: Record = Record {
    phase: 0,
    part: 0,
    purpose: 0,
    agreement: raw::Agreement { algorithm: 0, padding: 0, m: 0, master: 0 },
    declared: 0,
    total: 0,
    keys: [0; 32],
    chain: [0; 16],
    held: [0; 16],
    expected: [0; 16],
};

fn numbers(step: raw::Step) -> [u64; 3] {
    [step.answer.number, step.answer.yes, step.answer.calls]
}

/// An open record of algorithm 1 and padding 1 that holds the byte 61.
fn opened() -> Record {
    let mut session = Session::start(PLAIN, &KEY, 0).unwrap();
    session.piece(b"a", 8).unwrap();
    session.record
}

fn forged(change: impl FnOnce(&mut Record)) -> Record {
    let mut record = opened();
    change(&mut record);
    record
}

/// For either purpose alike.
fn counts_closed(record: Record) -> bool {
    let closed = closed_to_making(record);
    assert_eq!(closed_to_checking(Record { purpose: 1, ..record }), closed, "whatever the purpose");
    closed
}

fn closed_to_checking(record: Record) -> bool {
    let mut session = CheckingSession { record };
    let piece = session.piece(b"", 0);
    assert!(session.record == record, "a piece of no bits changes no record");
    match session.finish() {
        Checked::Refused(refused) => {
            assert_eq!((piece.unwrap_err().number(), refused.refusal.number()), (11, 11));
            assert!(refused.session.record == record, "a refusal hands back the very record");
            true
        }
        Checked::Yes { .. } | Checked::No { .. } => {
            assert!(piece.is_ok());
            false
        }
    }
}

fn closed_to_making(record: Record) -> bool {
    let mut session = Session { record };
    let piece = session.piece(b"", 0);
    assert!(session.record == record, "a piece of no bits changes no record");
    let mut room = [0xAA; 17];
    match session.finish(&mut room) {
        Ok(_) => {
            assert!(piece.is_ok());
            assert_eq!(room[16], 0xAA);
            false
        }
        Err(refused) => {
            assert_eq!((piece.unwrap_err().number(), refused.refusal.number()), (11, 11));
            assert!(refused.session.record == record, "a refusal hands back the very record");
            assert_eq!(room, [0xAA; 17]);
            true
        }
    }
}

#[test]
fn layout_is_that_of_the_header() {
    assert_eq!(size_of::<raw::Agreement>(), 32);
    assert_eq!(offset_of!(raw::Agreement, padding), 8);
    assert_eq!(offset_of!(raw::Agreement, m), 16);
    assert_eq!(offset_of!(raw::Agreement, master), 24);
    assert_eq!(size_of::<Record>(), 152);
    assert_eq!(offset_of!(Record, purpose), 16);
    assert_eq!(offset_of!(Record, agreement), 24);
    assert_eq!(offset_of!(Record, declared), 56);
    assert_eq!(offset_of!(Record, held), 120);
    assert_eq!(offset_of!(Record, expected), 136);
    assert_eq!(size_of::<raw::Step>(), 176);
    assert_eq!(size_of::<raw::Slip>(), 64);
    assert_eq!(size_of::<raw::Gathered>(), 88);
    assert_eq!(offset_of!(raw::Gathered, count), 0);
    assert_eq!(offset_of!(raw::Gathered, bytes), 8);
    assert_eq!(size_of::<raw::Written>(), 24);
    assert_eq!(offset_of!(raw::Written, length), 8);
    assert_eq!(offset_of!(raw::Written, calls), 16);
}

#[test]
fn a_start_leaves_what_it_says() {
    let record = opened();
    let Record { phase, part, purpose, agreement, declared, total, .. } = record;
    assert_eq!([phase, part, purpose, declared, total], [1, 0, 0, 0, 8]);
    assert_eq!(agreement, PLAIN.into());
    assert_eq!(record.keys[..16], KEY);
    assert_eq!(record.keys[16..], [0; 16]);
    assert_eq!(record.chain, [0; 16]);
    assert_eq!(record.held, *b"a\0\0\0\0\0\0\0\0\0\0\0\0\0\0\0");
    assert_eq!(record.expected, [0; 16]);
}

/// The record of a check is that for making, with the purpose and the tag, spare bits too.
#[test]
fn a_start_of_a_check_leaves_what_it_says() {
    for m in 1..=128 {
        let agreement = Agreement { m, ..PLAIN };
        let tag = [0xB7; 16];
        let step = raw::start_check(agreement.into(), &KEY, 0, &tag[..agreement.tag_bytes()]);
        let mut expected = [0; 16];
        expected[..agreement.tag_bytes()].fill(0xB7);
        let making = raw::start(agreement.into(), &KEY, 0).session;
        assert_eq!(numbers(step), [0, 0, 0], "m {m}");
        assert!(step.session == Record { purpose: 1, expected, ..making }, "m {m}");
        let step = raw::piece(step.session, b"a", 8);
        let making = raw::piece(making, b"a", 8).session;
        assert!(step.session == Record { purpose: 1, expected, ..making }, "m {m}, after a piece");
    }
}

#[test]
fn a_refused_start_of_a_check_leaves_zeros() {
    for (algorithm, declared, tag, number) in
        [(9, 0, 8, 1), (1, 8_388_609, 8, 8), (1, 0, 7, 10), (1, 0, 9, 10)]
    {
        let agreement = raw::Agreement { algorithm, padding: 3, m: 64, master: 0 };
        let step = raw::start_check(agreement, &KEY, declared, &[0xB7; 9][..tag]);
        assert_eq!(numbers(step), [number, 0, 0]);
        assert!(step.session == ZEROS, "a start refused with {number}");
    }
}

#[test]
fn phase_and_part_that_do_not_fit() {
    let far = u64::MAX;
    for (phase, part, total) in [
        (0, 0, 8),
        (0, 5, 8),
        (3, 0, 8),
        (far, far, 8),
        (1 << 32 | 1, 0, 8),
        (1, 1, 8),
        (1, 8, 8),
        (1, 0, 7),
        (1, 7, 7),
        (2, 0, 8),
        (2, 8, 8),
        (2, 3, 8),
        (2, 6, 7),
        (2, 15, 7),
    ] {
        let record = forged(|r| (r.phase, r.part, r.total, r.held) = (phase, part, total, [0; 16]));
        assert!(counts_closed(record), "phase {phase}, part {part}, total {total}");
    }
    assert!(!counts_closed(forged(|r| (r.phase, r.part, r.total, r.held) = (2, 7, 7, [0; 16]))));
}

#[test]
fn agreements_that_a_start_would_refuse() {
    for (algorithm, padding, m) in
        [(0, 1, 64), (9, 1, 64), (257, 1, 64), (1 << 32 | 1, 1, 64), (1, 4, 64), (1, 0, 64)]
            .into_iter()
            .chain([(1, 1, 0), (1, 1, 129), (1, 1, 1 << 32 | 64), (7, 4, 64), (5, 3, 64)])
    {
        let record = forged(|r| r.agreement = raw::Agreement { algorithm, padding, m, master: 0 });
        assert!(counts_closed(record), "algorithm {algorithm}, padding {padding}, m {m}");
    }
    for algorithm in [2, 4, 6] {
        let same = forged(|r| {
            r.agreement.algorithm = algorithm;
            r.keys.copy_within(..16, 16);
        });
        assert!(counts_closed(same), "algorithm {algorithm}, K = K'");
    }
    assert!(!counts_closed(forged(|r| {
        r.agreement.algorithm = 3;
        r.keys.copy_within(..16, 16);
    })));
}

#[test]
fn totals_that_do_not_fit() {
    for total in [8_388_616, 1 << 63, u64::MAX - 7] {
        assert!(counts_closed(forged(|r| r.total = total)), "total {total}");
    }
    let declared = |declared| forged(|r| (r.agreement.padding, r.declared) = (3, declared));
    assert!(counts_closed(declared(7)));
    assert!(!counts_closed(declared(8)));
    assert!(counts_closed(declared(8_388_609)));
    let full = forged(|r| r.total = 8_388_608);
    assert!(!counts_closed(full));
}

#[test]
fn stray_bits_in_the_waiting_block() {
    assert!(counts_closed(forged(|r| r.held[1] = 0x80)));
    assert!(counts_closed(forged(|r| r.held[15] = 1)));
    let part = |held| forged(|r| (r.phase, r.part, r.total, r.held[0]) = (2, 3, 3, held));
    assert!(counts_closed(part(0xF0)));
    assert!(!counts_closed(part(0xE0)));
}

/// Neither 0 nor 1: no call takes it, and the record comes back as it came.
#[test]
fn odd_purposes() {
    for purpose in [2, 3, 255, 256, 257, 1 << 32, 1 << 32 | 1, 1 << 63, u64::MAX] {
        let record = forged(|r| (r.purpose, r.expected) = (purpose, [0x77; 16]));
        let mut room = [0xAA; 16];
        let finish = raw::finish(record, &mut room);
        for step in
            [raw::piece(record, b"", 0), raw::piece(record, b"ab", 8), finish, raw::finish_check(record)]
        {
            assert_eq!(numbers(step), [11, 0, 0], "purpose {purpose}");
            assert!(step.session == record, "purpose {purpose}");
        }
        assert_eq!(room, [0xAA; 16]);
    }
    assert!(!counts_closed(forged(|r| r.expected = [0x77; 16])));
}

/// 11 before 12, 9 and 10; the session stays as it was, open.
#[test]
fn the_finish_of_the_other_purpose() {
    for (algorithm, padding, declared) in [(1, 1, 0), (1, 3, 9), (4, 1, 0)] {
        let agreement = raw::Agreement { algorithm, padding, m: 64, master: 0 };
        let making = forged(|r| (r.agreement, r.declared) = (agreement, declared));
        let checking = Record { purpose: 1, ..making };
        for room in [&mut [0xAA; 16][..], &mut []] {
            let step = raw::finish(checking, room);
            assert_eq!(numbers(step), [11, 0, 0]);
            assert!(step.session == checking, "a check refused with 11");
            assert!(room.iter().all(|byte| *byte == 0xAA), "a refusal writes nothing");
        }
        let step = raw::finish_check(making);
        assert_eq!(numbers(step), [11, 0, 0]);
        assert!(step.session == making, "a session for making refused with 11");
    }
}

#[test]
fn yes_and_no_clear_the_record() {
    let mut tag = [0; 16];
    let making = raw::finish(forged(|r| r.expected = [0x77; 16]), &mut tag);
    assert!(making.session == ZEROS, "a tag made");
    for (expected, yes) in [(tag, 1), ([0x77; 16], 0)] {
        let step = raw::finish_check(forged(|r| (r.purpose, r.expected) = (1, expected)));
        assert_eq!(numbers(step), [0, yes, 1]);
        assert!(step.session == ZEROS, "yes {yes}");
    }
}

#[test]
fn what_is_free_in_an_open_record() {
    let plain = opened();
    let tag_of = |record| {
        let mut room = [0; 16];
        Session { record }.finish(&mut room).unwrap();
        room
    };
    assert_eq!(tag_of(forged(|r| r.declared = u64::MAX)), tag_of(plain));
    assert_eq!(tag_of(forged(|r| r.keys[16..].fill(0xFF))), tag_of(plain));
    assert_eq!(tag_of(forged(|r| r.expected = [0xFF; 16])), tag_of(plain));

    let block = std::array::from_fn::<u8, 16, _>(|i| plain.held[i] ^ 1);
    let mut room = [0; 16];
    make(PLAIN, &KEY, &block, 128, &mut room).unwrap();
    assert_eq!(tag_of(forged(|r| r.chain = [1; 16])), room, "the finish works from the chain value given");
}

/// Of the expected tag the first ⌈m/8⌉ bytes are compared, all their bits, and the others are not read.
#[test]
fn the_bytes_that_are_compared() {
    for m in 1..=128 {
        let agreement = Agreement { m, ..PLAIN };
        let mut right = [0; 16];
        make(agreement, &KEY, b"a", 8, &mut right).unwrap();
        for place in 0..128 {
            let mut expected = right;
            expected[place / 8] ^= 0x80 >> (place % 8);
            let record = forged(|r| (r.purpose, r.agreement, r.expected) = (1, agreement.into(), expected));
            let past = place / 8 >= agreement.tag_bytes();
            assert_eq!(numbers(raw::finish_check(record)), [0, past.into(), 1], "m {m}, bit {place}");
        }
    }
}

/// Every refusal but a start's, with whatever stands in what is not read.
#[test]
fn a_refusal_hands_back_the_very_record() {
    let any = u64::MAX;
    let odd = |algorithm, padding, declared, total| {
        forged(|r| {
            r.agreement = raw::Agreement { algorithm, padding, m: 64, master: 0 };
            (r.declared, r.total) = (declared, total);
            r.keys[16..].fill(0xC3);
            r.chain.fill(0x5A);
            r.expected.fill(0x77);
        })
    };
    for (record, bytes, bits, number) in [
        (odd(1, 1, any, 8), 2, 8, 7),
        (odd(1, 1, any, 8_388_600), 2, 9, 8),
        (odd(any, any, any, 8), 1, 8, 11),
        (odd(1, 3, 15, 8), 1, 8, 12),
    ] {
        for record in [record, Record { purpose: 1, ..record }] {
            let step = raw::piece(record, &[0; 2][..bytes], bits);
            assert_eq!(step.answer.number, number);
            assert!(step.session == record, "a piece refused with {number}");
        }
    }
    for (record, room, number) in [
        (odd(4, 1, any, 8), 8, 9),
        (odd(1, 1, any, 8), 7, 10),
        (odd(any, any, any, 8), 8, 11),
        (odd(1, 3, 9, 8), 8, 12),
    ] {
        let step = raw::finish(record, &mut [0; 8][..room]);
        assert_eq!(step.answer.number, number);
        assert!(step.session == record, "a finish refused with {number}");
    }
    for (record, number) in [(odd(4, 1, any, 8), 9), (odd(any, any, any, 8), 11), (odd(1, 3, 9, 8), 12)] {
        let record = Record { purpose: 1, ..record };
        let step = raw::finish_check(record);
        assert_eq!(step.answer.number, number);
        assert!(step.session == record, "a finish of a check refused with {number}");
    }
}
