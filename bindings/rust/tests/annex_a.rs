//! All of annex A: each printed tag made and checked, in one call and in sessions cut at every byte; each printed G as a tag of 128
//! bits. Algorithm 7 prints 64 bits, which are refused with 3, so 63 of them are compared.

mod common;

use common::{agreed, annex_a, calls, turned, Vector};
use slipseal::{check, make, Agreement, Checked, Session};

/// The agreements and tags to try for a vector.
fn tags(v: &Vector) -> Vec<(Agreement, Vec<u8>)> {
    if v.algorithm != 7 {
        return vec![
            (agreed(v.algorithm, v.padding, 64), v.tag.clone()),
            (agreed(v.algorithm, v.padding, 128), v.g.clone()),
        ];
    }
    let printed = u64::from_be_bytes(v.tag.clone().try_into().unwrap());
    let complete = v.message.len() == 32;
    let bits = if complete { printed & !1 } else { printed << 1 };
    vec![(agreed(7, v.padding, 63), bits.to_be_bytes().to_vec())]
}

#[test]
fn there_are_36_tags() {
    assert_eq!(annex_a().len(), 36);
}

#[test]
fn made_and_checked_in_one_call() {
    for v in annex_a() {
        let bits = 8 * v.message.len();
        let calls = calls(v.algorithm, v.padding, bits);
        for (agreement, tag) in tags(&v) {
            let mut room = [0xAA; 20];
            let made = make(agreement, &v.keys, v.message, bits, &mut room).unwrap();
            assert_eq!((made.tag, made.calls), (&tag[..], calls), "{agreement:?}");
            assert_eq!(room[tag.len()..], vec![0xAA; 20 - tag.len()], "bytes past the tag stay");
            assert_eq!(check(agreement, &v.keys, v.message, bits, &tag), Checked::Yes { calls });
            for other in turned(&tag) {
                assert_eq!(check(agreement, &v.keys, v.message, bits, &other), Checked::No { calls });
            }
        }
    }
}

#[test]
fn sessions_cut_at_every_byte() {
    for v in annex_a() {
        let bits = 8 * v.message.len();
        let calls = calls(v.algorithm, v.padding, bits);
        for (agreement, tag) in tags(&v) {
            for cut in 0..=v.message.len() {
                let (front, back) = v.message.split_at(cut);
                let mut session = Session::start(agreement, &v.keys, bits).unwrap();
                session.piece(front, 8 * front.len()).unwrap();
                session.piece(back, 8 * back.len()).unwrap();
                let mut room = [0; 16];
                let made = session.finish(&mut room).unwrap();
                assert_eq!((made.tag, made.calls), (&tag[..], calls), "{agreement:?} cut at {cut}");
            }
            let mut session = Session::start(agreement, &v.keys, bits).unwrap();
            for byte in v.message.chunks(1) {
                session.piece(byte, 8).unwrap();
            }
            let mut room = [0; 16];
            let made = session.finish(&mut room).unwrap();
            assert_eq!((made.tag, made.calls), (&tag[..], calls), "{agreement:?} byte by byte");
        }
    }
}

#[test]
fn checks_in_sessions_cut_at_every_byte() {
    for v in annex_a() {
        let bits = 8 * v.message.len();
        let calls = calls(v.algorithm, v.padding, bits);
        for (agreement, tag) in tags(&v) {
            let finished = |tag: &[u8], pieces: &mut dyn Iterator<Item = &[u8]>| -> Checked {
                let mut session = Session::check(agreement, &v.keys, bits, tag).unwrap();
                pieces.for_each(|piece| session.piece(piece, 8 * piece.len()).unwrap());
                session.finish().into()
            };
            for cut in 0..=v.message.len() {
                let (front, back) = v.message.split_at(cut);
                let checked = finished(&tag, &mut [front, back].into_iter());
                assert_eq!(checked, Checked::Yes { calls }, "{agreement:?} cut at {cut}");
            }
            let checked = finished(&tag, &mut v.message.chunks(1));
            assert_eq!(checked, Checked::Yes { calls }, "{agreement:?} byte by byte");
            for (place, other) in turned(&tag).enumerate() {
                let checked = finished(&other, &mut v.message.chunks(1));
                assert_eq!(checked, Checked::No { calls }, "{agreement:?} bit {place}");
            }
        }
    }
}

#[test]
fn sixty_four_bits_of_algorithm_7_are_refused() {
    for v in annex_a().iter().filter(|v| v.algorithm == 7) {
        let refusal =
            make(agreed(7, 4, 64), &v.keys, v.message, 8 * v.message.len(), &mut [0; 16]).unwrap_err();
        assert_eq!(refusal.number(), 3);
    }
}
