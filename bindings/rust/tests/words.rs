//! The words of each refusal are those of docs/ANSWERS.md. Every number of the card is had here once.

mod common;

use std::collections::BTreeMap;

use common::{agreed, key};
use slipseal::{make, read_slip, restore, Refusal, Session};

/// Number and words of each row of the card's tables.
fn card() -> BTreeMap<u64, String> {
    let row = |line: &str| {
        let mut cells = line.split('|').skip(1).map(str::trim);
        let number = cells.next()?.parse().ok()?;
        Some((number, cells.next()?.to_string()))
    };
    include_str!("../../../docs/ANSWERS.md").lines().filter_map(row).collect()
}

fn refusals() -> Vec<Refusal> {
    let zeros = vec![0; 1_048_577];
    let makes = [
        (9, 1, 64, 16, 0, 0),
        (1, 4, 64, 16, 0, 0),
        (1, 1, 0, 16, 0, 0),
        (1, 1, 64, 15, 0, 0),
        (2, 1, 64, 32, 0, 0),
        (1, 1, 64, 16, 1, 0),
        (1, 1, 64, 16, 1_048_577, 8_388_609),
        (1, 1, 128, 16, 0, 0),
    ]
    .map(|(algorithm, padding, m, keys, bytes, bits)| {
        make(agreed(algorithm, padding, m), &zeros[..keys], &zeros[..bytes], bits, &mut [0; 8]).unwrap_err()
    });
    let four = make(agreed(4, 1, 64), &common::keys(), b"", 0, &mut [0; 8]).unwrap_err();
    let lost = restore(agreed(1, 1, 128), &key(), &mut [], 0, 0, &[0; 16]).unwrap_err();
    let mut session = Session::start(agreed(1, 3, 64), &key(), 1).unwrap();
    let twelve = session.piece(&[0], 2).unwrap_err();
    session.piece(&[0], 1).unwrap();
    let eleven = session.piece(&[0], 1).unwrap_err();

    let good = b"\x01\x00\x0820261104\x02\x00\x02A7\x03\x00\x04\x00\x00\x01\xF4\x7F\x00\x04\x01\x01\x01\x00";
    let changed = |place: usize, byte: u8| {
        let mut slip = good.to_vec();
        slip[place] = byte;
        read_slip(agreed(1, 1, 1), &key(), &slip).unwrap_err()
    };
    let cut = read_slip(agreed(1, 1, 1), &key(), &good[..9]).unwrap_err();
    let longer = read_slip(agreed(1, 1, 1), &key(), &[&good[..], &[0]].concat()).unwrap_err();
    let slips =
        [cut, changed(0, 2), changed(3, b'x'), changed(3, b'1'), longer, changed(28, 2), changed(29, 0x7F)];
    makes.into_iter().chain([four, lost, eleven, twelve]).chain(slips).collect()
}

#[test]
fn the_words_are_the_cards() {
    let mut card = card();
    for refusal in refusals() {
        let words = card.remove(&refusal.number()).expect("a number of the card, once");
        assert_eq!(refusal.words(), words);
        assert_eq!(refusal.to_string(), format!("refused {}: {words}", refusal.number()));
    }
    assert!(card.is_empty(), "not had: {card:?}");
}
