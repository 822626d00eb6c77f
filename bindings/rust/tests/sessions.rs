//! Sessions: pieces that end within a byte, every refusal of a start, a piece and a finish, and that a refusal leaves the session
//! as it was. Annex A in pieces is in annex_a.rs, records that no call handed out in src/forged.rs.

mod common;

use common::{agreed, key, keys, made, MESSAGE};
use slipseal::Session;

fn finished(session: Session) -> (Vec<u8>, u64) {
    let mut room = [0; 16];
    let made = session.finish(&mut room).unwrap();
    (made.tag.to_vec(), made.calls)
}

#[test]
fn every_number_of_bits_in_two_pieces() {
    for (algorithm, padding) in [(1, 1), (1, 2), (1, 3), (3, 2), (5, 4), (7, 4), (8, 4)] {
        let agreement = agreed(algorithm, padding, 63);
        let keys = if algorithm == 3 { keys() } else { key() };
        for bits in 0..=256_usize {
            let message = &MESSAGE[..bits.div_ceil(8)];
            let cut = bits / 16;
            let mut session = Session::start(agreement, &keys, bits).unwrap();
            session.piece(&message[..cut], 8 * cut).unwrap();
            session.piece(&message[cut..], bits - 8 * cut).unwrap();
            session.piece(b"", 0).unwrap();
            let whole = made(agreement, &keys, message, bits);
            assert_eq!(finished(session), whole, "{agreement:?}, {bits} bits");
        }
    }
}

#[test]
fn refused_starts() {
    let number = |algorithm, padding, m, keys: &[u8], declared| {
        Session::start(agreed(algorithm, padding, m), keys, declared).unwrap_err().number()
    };
    assert_eq!(number(9, 9, 0, b"", 0), 1);
    assert_eq!(number(1, 4, 0, b"", 0), 2);
    assert_eq!(number(7, 4, 64, b"", 0), 3);
    assert_eq!(number(1, 1, 64, &keys(), 0), 4);
    assert_eq!(number(6, 3, 64, &[7; 32], 8_388_609), 5);
    assert_eq!(number(1, 3, 64, &key(), 8_388_609), 8);
    assert_eq!(number(1, 3, 64, &key(), usize::MAX), 8);
    assert!(Session::start(agreed(1, 3, 64), &key(), 8_388_608).is_ok());
    assert!(Session::start(agreed(1, 2, 64), &key(), usize::MAX).is_ok(), "read under padding 3 only");
}

#[test]
fn refused_pieces_leave_the_session() {
    let plain = agreed(5, 4, 128);
    let mut session = Session::start(plain, &key(), 0).unwrap();
    session.piece(&MESSAGE[..4], 32).unwrap();
    for (bytes, bits) in [(0, 1), (1, 0), (2, 8), (0, usize::MAX)] {
        assert_eq!(session.piece(&MESSAGE[..bytes], bits).unwrap_err().number(), 7);
    }
    let too_long = vec![0; 1_048_573];
    assert_eq!(session.piece(&too_long, 8_388_577).unwrap_err().number(), 8);
    session.piece(&MESSAGE[4..6], 11).unwrap();
    assert_eq!(session.piece(b"a", 8).unwrap_err().number(), 11);
    assert_eq!(session.piece(b"", 8).unwrap_err().number(), 11);
    assert_eq!(session.piece(b"a", 0).unwrap_err().number(), 7);
    session.piece(b"", 0).unwrap();
    assert_eq!(finished(session), made(plain, &key(), &MESSAGE[..6], 43));
}

#[test]
fn the_declared_length() {
    let declared = agreed(2, 3, 128);
    let mut session = Session::start(declared, &keys(), 40).unwrap();
    session.piece(&MESSAGE[..4], 32).unwrap();
    assert_eq!(session.piece(&MESSAGE[4..6], 9).unwrap_err().number(), 12);
    let refused = session.finish(&mut []).unwrap_err();
    assert_eq!(refused.to_string(), "refused 12: the message is not as long as was declared");
    let mut session = refused.session;
    session.piece(&MESSAGE[4..5], 8).unwrap();
    assert_eq!(finished(session), made(declared, &keys(), &MESSAGE[..5], 40));

    let mut empty = Session::start(declared, &keys(), 0).unwrap();
    assert_eq!(empty.piece(&[0], 1).unwrap_err().number(), 12);
    assert_eq!(finished(empty), made(declared, &keys(), b"", 0));
}

#[test]
fn a_refused_finish_hands_the_session_back() {
    let four = agreed(4, 1, 64);
    let mut session = Session::start(four, &keys(), 0).unwrap();
    session.piece(&MESSAGE[..16], 128).unwrap();
    let mut room = [0xAA; 8];
    let refused = session.finish(&mut room[..7]).unwrap_err();
    assert_eq!(refused.refusal.number(), 9);
    let mut session = refused.session;
    session.piece(&MESSAGE[16..17], 1).unwrap();
    let refused = session.finish(&mut room[..7]).unwrap_err();
    assert_eq!(refused.refusal.number(), 10);
    assert_eq!(room, [0xAA; 8]);
    assert_eq!(finished(refused.session), made(four, &keys(), &MESSAGE[..17], 129));
}

#[test]
fn a_finish_writes_the_tag_alone() {
    let mut room = [0xAA; 20];
    let session = Session::start(agreed(1, 1, 12), &key(), 0).unwrap();
    assert_eq!(session.finish(&mut room).unwrap().tag.len(), 2);
    assert_eq!(room[2..], [0xAA; 18]);
}

#[test]
fn the_longest_message_in_pieces() {
    let plain = agreed(1, 1, 128);
    let zeros = [0; 4096];
    let mut session = Session::start(plain, &key(), 0).unwrap();
    for _ in 0..256 {
        session.piece(&zeros, 8 * zeros.len()).unwrap();
    }
    assert_eq!(session.piece(&[0], 1).unwrap_err().number(), 8);
    assert_eq!(finished(session), made(plain, &key(), &vec![0; 1_048_576], 8_388_608));
}

#[test]
fn keys_are_not_shown() {
    let session = Session::start(agreed(1, 1, 12), &[0xC5; 16], 0).unwrap();
    assert_eq!(
        format!("{session:?}"),
        "Session { agreement: Agreement { algorithm: 1, padding: 1, m: 12, master: false }, total: 0, .. }"
    );
}
