//! One call: the runs R4, R5 and R7 of the requirements, every refusal that a tag can get, their order, and what a call leaves in
//! the room lent to it.

mod common;

use common::{agreed, hex, key, keys, keys_of, made, MESSAGE};
use slipseal::{check, make, Agreement, Checked};

/// The number of a refused `make`, which must leave the room; `check` must be refused alike.
fn refused(agreement: Agreement, keys: &[u8], message: &[u8], bits: usize, room: usize) -> u64 {
    let mut bytes = vec![0xAA; room];
    let refusal = make(agreement, keys, message, bits, &mut bytes).unwrap_err();
    assert_eq!(bytes, vec![0xAA; room], "a refusal writes nothing");
    assert_eq!(check(agreement, keys, message, bits, &bytes), Checked::Refused(refusal));
    refusal.number()
}

#[test]
fn r4_short_messages() {
    let ones = [0xFF; 16];
    for (algorithm, padding, m, message, bits, tag, calls) in [
        (1, 1, 128, &ones[..0], 0, "2677F46B09C122CC975533105BD4A22A", 1),
        (2, 1, 128, &ones[..0], 0, "FD3953C695FCC2D3ED8176F328B8F33E", 2),
        (3, 1, 128, &ones[..0], 0, "065F25BDB348C4E48A27C67D1D3A85A6", 3),
        (6, 1, 128, &ones[..0], 0, "7D7DD196206F4C9717D8DAF065E4784B", 1),
        (5, 4, 128, &ones[..0], 0, "29E154322E5C7BD8EE6A25BA549B24BC", 2),
        (8, 4, 128, &ones[..0], 0, "C3362C82CE0474032E8A086D256C6062", 2),
        (4, 3, 128, &ones[..0], 0, "E43F42910128F6D7EA83ACFE2F6B3362", 4),
        (4, 2, 128, &ones[..], 128, "6EFA155411596610AB488508185BB691", 4),
        (6, 1, 128, &ones[..1], 1, "32A9B595071FB6A555C318906399D419", 1),
        (7, 4, 63, &ones[..], 128, "6811AF7E097364E6", 1),
    ] {
        let got = made(agreed(algorithm, padding, m), &keys_of(algorithm), message, bits);
        assert_eq!(got, (hex(tag), calls), "algorithm {algorithm}, padding {padding}");
    }
}

#[test]
fn r5_algorithm_3_with_the_same_key_twice() {
    let tag = hex("9054FCCFF72871FDAD5202C821DBEA05");
    let twice = [key(), key()].concat();
    assert_eq!(made(agreed(3, 1, 128), &twice, b"abc", 24), (tag.clone(), 3));
    assert_eq!(made(agreed(1, 1, 128), &key(), b"abc", 24), (tag, 1));
}

#[test]
fn r7_the_longest_message() {
    let zeros = vec![0; 1_048_577];
    let (whole, long) = (&zeros[..1_048_576], 8_388_608);
    let tag = hex("52E7B8DB5C984966E56E4943745D6392");
    assert_eq!(made(agreed(1, 1, 128), &key(), whole, long), (tag, 65_536));
    assert_eq!(refused(agreed(1, 1, 128), &key(), &zeros, long + 1, 16), 8);
    assert_eq!(refused(agreed(1, 1, 128), &key(), whole, long + 1, 16), 7);
}

#[test]
fn spare_bits_have_no_influence() {
    for padding in 1..=3 {
        let agreement = agreed(1, padding, 128);
        assert_eq!(made(agreement, &key(), &[0xFF], 1), made(agreement, &key(), &[0x80], 1));
        assert_ne!(made(agreement, &key(), &[0xFF], 2), made(agreement, &key(), &[0x80], 2));
    }
}

#[test]
fn each_refusal() {
    let (one, two) = (key(), keys());
    for algorithm in [0, 9, 257, (1 << 32) + 1, u64::MAX] {
        assert_eq!(refused(agreed(algorithm, 1, 64), &one, b"", 0, 8), 1);
    }
    for (algorithm, padding) in [(1, 0), (1, 4), (6, 4), (5, 3), (7, 1), (8, 5), (1, 257)] {
        assert_eq!(refused(agreed(algorithm, padding, 64), &one, b"", 0, 8), 2);
    }
    for (algorithm, padding, m) in [(1, 1, 0), (1, 1, 129), (7, 4, 64), (1, 1, (1 << 32) + 64)] {
        assert_eq!(refused(agreed(algorithm, padding, m), &one, b"", 0, 16), 3);
    }
    for length in [0, 15, 17, 32] {
        assert_eq!(refused(agreed(1, 1, 64), &two[..length], b"", 0, 8), 4);
    }
    assert_eq!(refused(agreed(2, 1, 64), &one, b"", 0, 8), 4);
    let twice = [one.clone(), one.clone()].concat();
    for algorithm in [2, 4, 6] {
        assert_eq!(refused(agreed(algorithm, 1, 64), &twice, b"", 0, 8), 5);
    }
    let third: Vec<u8> = one.iter().copied().chain(one.iter().map(|byte| byte ^ 0xF0)).collect();
    assert_eq!(refused(agreed(4, 1, 64), &third, MESSAGE, 256, 8), 5);
    for (length, bits) in [(0, 1), (1, 0), (1, 9), (2, 8), (0, usize::MAX)] {
        assert_eq!(refused(agreed(1, 1, 64), &one, &MESSAGE[..length], bits, 8), 7);
    }
    assert_eq!(refused(agreed(4, 1, 64), &two, &MESSAGE[..16], 128, 8), 9);
    assert_eq!(refused(agreed(4, 2, 64), &two, &MESSAGE[..16], 127, 8), 9);
    assert_eq!(refused(agreed(1, 1, 64), &one, b"", 0, 7), 10);
    assert_eq!(refused(agreed(1, 1, 9), &one, b"", 0, 1), 10);
    assert_eq!(refused(agreed(1, 1, 64), &one, b"", 0, 0), 10);
}

#[test]
fn the_first_fault_is_told() {
    let mut call = (agreed(9, 9, 999), vec![0; 3], 256, 0);
    let mut told = |change: fn(&mut (Agreement, Vec<u8>, usize, usize))| {
        change(&mut call);
        refused(call.0, &call.1, &MESSAGE[..16], call.2, call.3)
    };
    assert_eq!(told(|_| ()), 1);
    assert_eq!(told(|call| call.0.algorithm = 4), 2);
    assert_eq!(told(|call| call.0.padding = 1), 3);
    assert_eq!(told(|call| call.0.m = 64), 4);
    assert_eq!(told(|call| call.1 = vec![7; 32]), 5);
    assert_eq!(told(|call| call.1[31] = 8), 7);
    assert_eq!(told(|call| call.2 = 128), 9);
    assert_eq!(told(|call| call.0 = agreed(3, 1, 64)), 10);
}

#[test]
fn the_borders_of_9() {
    assert_eq!(made(agreed(4, 1, 64), &keys(), &MESSAGE[..17], 129).1, 4);
    assert_eq!(made(agreed(4, 2, 64), &keys(), &MESSAGE[..16], 128).1, 4);
}

#[test]
fn a_check_wants_the_tag_alone() {
    let tag = made(agreed(1, 1, 12), &key(), MESSAGE, 256).0;
    let answer = |tag: &[u8]| check(agreed(1, 1, 12), &key(), MESSAGE, 256, tag);
    assert_eq!(answer(&tag), Checked::Yes { calls: 2 });
    assert!(answer(&tag).is_yes());
    assert_eq!(answer(&[tag[0], tag[1] | 1]), Checked::No { calls: 2 });
    assert!(!answer(&[tag[0], tag[1] | 1]).is_yes());
    for other in [&tag[..0], &tag[..1], &[tag[0], tag[1], 0][..]] {
        assert!(matches!(answer(other), Checked::Refused(refusal) if refusal.number() == 10));
        assert!(!answer(other).is_yes());
    }
}
