//! Checks in a session: yes, no and the calls as in one call, every refusal of a start, a piece and a finish, and that a refusal
//! leaves the session as it was. Annex A is in annex_a.rs, the finish of the other purpose and records that no call handed out in
//! src/forged.rs.

mod common;

use common::{agreed, key, keys, turned, MESSAGE};
use slipseal::{check, make, Agreement, Checked, CheckingSession, Refusal, RefusedCheck, Session};

fn tag_of(agreement: Agreement, keys: &[u8], message: &[u8], bits: usize) -> Vec<u8> {
    make(agreement, keys, message, bits, &mut [0; 16]).unwrap().tag.to_vec()
}

/// As the answer of a check in one call, to be compared with it.
fn finished(session: CheckingSession) -> Checked {
    session.finish().into()
}

/// The refusal of a finish, and the session that comes back.
fn refused(session: CheckingSession) -> (Refusal, CheckingSession) {
    match session.finish() {
        Checked::Refused(RefusedCheck { refusal, session }) => (refusal, session),
        other => panic!("{other:?}"),
    }
}

#[test]
fn every_number_of_bits_in_two_pieces() {
    for (algorithm, padding) in [(1, 1), (1, 2), (1, 3), (3, 2), (5, 4), (7, 4), (8, 4)] {
        let agreement = agreed(algorithm, padding, 63);
        let keys = if algorithm == 3 { keys() } else { key() };
        for bits in 0..=256_usize {
            let (message, cut) = (&MESSAGE[..bits.div_ceil(8)], bits / 16);
            let right = tag_of(agreement, &keys, message, bits);
            let mut wrong = right.clone();
            wrong[bits % 8] ^= 0x80 >> (bits / 8 % 8);
            for (tag, yes) in [(right, true), (wrong, false)] {
                let mut session = Session::check(agreement, &keys, bits, &tag).unwrap();
                session.piece(&message[..cut], 8 * cut).unwrap();
                session.piece(&message[cut..], bits - 8 * cut).unwrap();
                session.piece(b"", 0).unwrap();
                let checked = finished(session);
                assert_eq!(checked.is_yes(), yes, "{agreement:?}, {bits} bits");
                assert_eq!(
                    checked,
                    check(agreement, &keys, message, bits, &tag),
                    "{agreement:?}, {bits} bits"
                );
            }
        }
    }
}

#[test]
fn refused_starts() {
    let number = |algorithm, padding, m, keys: &[u8], declared, tag: usize| {
        Session::check(agreed(algorithm, padding, m), keys, declared, &[0; 20][..tag])
            .map_or_else(Refusal::number, |_| 0)
    };
    assert_eq!(number(9, 9, 0, b"", usize::MAX, 20), 1);
    assert_eq!(number(1, 4, 0, b"", usize::MAX, 20), 2);
    assert_eq!(number(7, 4, 64, b"", usize::MAX, 20), 3);
    assert_eq!(number(1, 3, 64, &keys(), usize::MAX, 20), 4);
    assert_eq!(number(6, 3, 64, &[7; 32], 8_388_609, 7), 5);
    for declared in [8_388_609, usize::MAX] {
        assert_eq!(number(1, 3, 64, &key(), declared, 7), 8, "8 before 10");
        assert_eq!(number(1, 3, 64, &key(), declared, 8), 8);
    }
    for m in 1..=128 {
        for tag in 0..=20 {
            let expected = if tag as u64 == u64::div_ceil(m, 8) { 0 } else { 10 };
            assert_eq!(number(1, 3, m, &key(), 8_388_608, tag), expected, "m {m}, {tag} bytes");
            assert_eq!(number(1, 2, m, &key(), usize::MAX, tag), expected, "read under padding 3 only");
        }
    }
}

#[test]
fn refused_pieces_leave_the_session() {
    let plain = agreed(5, 4, 128);
    let tag = tag_of(plain, &key(), &MESSAGE[..6], 43);
    let mut session = Session::check(plain, &key(), 0, &tag).unwrap();
    session.piece(&MESSAGE[..4], 32).unwrap();
    for (bytes, bits) in [(0, 1), (1, 0), (2, 8), (0, usize::MAX)] {
        assert_eq!(session.piece(&MESSAGE[..bytes], bits).unwrap_err().number(), 7);
    }
    let too_long = vec![0; 1_048_573];
    assert_eq!(session.piece(&too_long, 8_388_577).unwrap_err().number(), 8);
    session.piece(&MESSAGE[4..6], 11).unwrap();
    assert_eq!(session.piece(b"a", 8).unwrap_err().number(), 11);
    assert_eq!(session.piece(b"a", 0).unwrap_err().number(), 7);
    assert!(session.finish().is_yes());
}

#[test]
fn refused_finishes_hand_the_session_back() {
    let declared = agreed(2, 3, 128);
    let tag = tag_of(declared, &keys(), &MESSAGE[..5], 40);
    let mut session = Session::check(declared, &keys(), 40, &tag).unwrap();
    session.piece(&MESSAGE[..4], 32).unwrap();
    assert_eq!(session.piece(&MESSAGE[4..6], 9).unwrap_err().number(), 12);
    let (refusal, mut session) = refused(session);
    assert_eq!(refusal.to_string(), "refused 12: the message is not as long as was declared");
    session.piece(&MESSAGE[4..5], 8).unwrap();
    assert_eq!(finished(session), Checked::Yes { calls: 3 });

    let four = agreed(4, 1, 64);
    let tag = tag_of(four, &keys(), &MESSAGE[..17], 129);
    let mut session = Session::check(four, &keys(), 0, &tag).unwrap();
    session.piece(&MESSAGE[..16], 128).unwrap();
    let (refusal, mut session) = refused(session);
    assert_eq!(refusal.number(), 9);
    session.piece(&MESSAGE[16..17], 1).unwrap();
    assert_eq!(finished(session), Checked::Yes { calls: 4 });
}

#[test]
fn a_spare_bit_makes_a_no() {
    for m in 1..=128 {
        let agreement = agreed(1, 1, m);
        let right = tag_of(agreement, &key(), MESSAGE, 256);
        for (place, tag) in turned(&right).enumerate() {
            let mut session = Session::check(agreement, &key(), 0, &tag).unwrap();
            session.piece(MESSAGE, 256).unwrap();
            assert_eq!(finished(session), Checked::No { calls: 2 }, "m {m}, bit {place}");
        }
        let mut session = Session::check(agreement, &key(), 0, &right).unwrap();
        session.piece(MESSAGE, 256).unwrap();
        assert_eq!(finished(session), Checked::Yes { calls: 2 }, "m {m}");
    }
}

#[test]
fn keys_and_tag_are_not_shown() {
    let session = Session::check(agreed(1, 1, 12), &[0xC5; 16], 0, &[0xA3; 2]).unwrap();
    assert_eq!(
        format!("{session:?}"),
        "CheckingSession { agreement: Agreement { algorithm: 1, padding: 1, m: 12, master: false }, total: 0, .. }"
    );
}
