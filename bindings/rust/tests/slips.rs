//! Lot slips: the run R6 of the requirements, read and written; slips that name something else than was agreed; slips made here
//! with `make`, which must be read to their contents and written from them; every refusal of a read and of a write, their order,
//! and what a write leaves in the room lent to it.

mod common;

use common::{agreed, calls, first, hex, key, keys, keys_of, slip, AGREED, COVERED, GOOD, R6};
use slipseal::{make, raw, read_slip, write_slip, Agreement, Contents};

/// The number of a refused slip, which must have zeros beside it.
fn refused(agreement: Agreement, keys: &[u8], slip: &[u8]) -> u64 {
    let number = read_slip(agreement, keys, slip).unwrap_err().number();
    let s = raw::read(agreement.into(), keys, slip);
    assert_eq!([s.number, s.year, s.month, s.day], [number, 0, 0, 0]);
    assert_eq!([s.amount, s.calls, s.lot_at, s.lot_len], [0; 4]);
    number
}

/// The slip with these contents, and a seal made with `make`.
fn sealed(agreement: Agreement, keys: &[u8], contents: Contents) -> Vec<u8> {
    let Contents { year, month, day, lot, amount } = contents;
    let expiry = format!("\x01\x00\x08{year:04}{month:02}{day:02}").into_bytes();
    let amount = (amount as u32).to_be_bytes();
    let fields = [&expiry[..], &[2, 0, lot.len() as u8], lot, &[3, 0, 4], &amount].concat();
    let mut room = [0; 16];
    let tag = make(agreement, keys, &fields, 8 * fields.len(), &mut room).unwrap().tag;
    let Agreement { algorithm, padding, m, .. } = agreement;
    let head = [0x7F, 0, 3 + tag.len() as u8, algorithm as u8, padding as u8, m as u8];
    [&fields, &head[..], tag].concat()
}

fn with_lot(lot: &[u8]) -> Vec<u8> {
    let contents = Contents { year: 2099, month: 12, day: 31, lot, amount: 1_000_000 };
    sealed(agreed(8, 4, 128), &key(), contents)
}

#[test]
fn r6_accepted() {
    for (agreement, seal, length, calls) in R6 {
        let bytes = slip(seal);
        let read = read_slip(agreement, &keys()[..length], &bytes).unwrap();
        assert_eq!((read.contents, read.calls), (GOOD, calls));
        assert!(std::ptr::eq(read.contents.lot, &bytes[14..16]), "the lot is that very part of the slip");
    }
}

#[test]
fn r6_refused() {
    let good = first();
    assert_eq!(refused(AGREED, &key()[..15], &good), 4);
    assert_eq!(refused(AGREED, &key(), &slip("7F000B050440 A47A9299C7B8456D")), 30);
    assert_eq!(refused(AGREED, &key(), &[&good[..], &[0]].concat()), 24);
    assert_eq!(refused(AGREED, &key(), &good[..good.len() - 1]), 20);
    for (date, number) in [(b"20230229", 23), (b"04112026", 23), (b"20260411", 30), (b"2023 229", 22)] {
        let mut other = good.clone();
        other[3..11].copy_from_slice(date);
        assert_eq!(refused(AGREED, &key(), &other), number);
    }
    assert_eq!(refused(agreed(1, 1, 12), &key(), &slip("7F000501010C A331")), 30);
    for (digits, number) in
        [("", 20), ("55", 20), ("010009", 22), ("01000832", 20), (COVERED, 20), ("020008", 21)]
    {
        assert_eq!(refused(AGREED, &key(), &hex(digits)), number, "{digits}");
    }
}

#[test]
fn every_cut_and_every_changed_byte_is_refused() {
    let good = first();
    for cut in 0..good.len() {
        assert_eq!(refused(AGREED, &key(), &good[..cut]), 20, "cut at {cut}");
    }
    for place in 0..good.len() {
        for byte in (0..=255).filter(|&byte| byte != good[place]) {
            let mut other = good.clone();
            other[place] = byte;
            let number = refused(AGREED, &key(), &other);
            assert_eq!(number == 25, (26..29).contains(&place), "byte {place} with {byte}: {number}");
        }
    }
}

// ---- under what was agreed

/// The slip of the example with other values in its seal and this tag.
fn naming(named: [u8; 3], tag: &[u8]) -> Vec<u8> {
    [&hex(COVERED), &[0x7F, 0, 3 + tag.len() as u8][..], &named, tag].concat()
}

/// An agreement with another number in one of its three places.
fn with_number(agreement: Agreement, place: usize, number: u64) -> Agreement {
    let mut numbers = [agreement.algorithm, agreement.padding, agreement.m];
    numbers[place] = number;
    let [algorithm, padding, m] = numbers;
    agreed(algorithm, padding, m)
}

/// The three numbers are compared whole: the other one is off by one, the largest, or equal in its low 8, 16, 31, 32 or 63 bits.
#[test]
fn another_agreement() {
    let far = [8, 16, 31, 32, 63].map(|bits| 1 << bits);
    for (agreement, seal, length, _) in R6 {
        let (good, keys) = (slip(seal), &keys()[..length]);
        let mut wrong = good.clone();
        *wrong.last_mut().unwrap() ^= 1;
        assert_eq!(refused(agreement, keys, &wrong), 30);
        for (place, number) in [agreement.algorithm, agreement.padding, agreement.m].into_iter().enumerate() {
            let off = [number - 1, number + 1, u64::MAX].into_iter().chain(far.map(|far| number + far));
            for other in off.map(|number| with_number(agreement, place, number)) {
                assert_eq!(refused(other, keys, &good), 25, "{other:?}");
                assert_eq!(refused(other, keys, &wrong), 25, "{other:?}, a wrong tag");
                assert_eq!(refused(other, &keys[..15], &good), 25, "{other:?}, keys of 15 bytes");
            }
        }
        for (other, ..) in R6.iter().filter(|row| row.0 != agreement) {
            assert_eq!(refused(*other, keys, &good), 25, "{other:?}");
        }
    }
}

/// 25 exactly where a number of the agreement is not the byte of the seal, for each place, byte and number.
#[test]
fn every_number_beside_every_byte() {
    let key = key();
    for place in 0..3 {
        for byte in 0..=255 {
            let mut other = first();
            other[26 + place] = byte;
            for number in 0..=520 {
                let agreement = with_number(AGREED, place, number);
                let refusal = raw::read(agreement.into(), &key, &other).number;
                assert_eq!(refusal == 25, u64::from(byte) != number, "{agreement:?}, byte {byte}: {refusal}");
            }
        }
    }
}

/// A seal of one bit is right for one of two tags, and 25 for both where 64 bits were agreed.
#[test]
fn one_bit() {
    let (zero, one) = (naming([5, 4, 1], &[0x00]), naming([5, 4, 1], &[0x80]));
    assert_eq!(refused(AGREED, &key(), &zero), 25);
    assert_eq!(refused(AGREED, &key(), &one), 25);
    assert_eq!(refused(agreed(5, 4, 1), &key(), &zero), 30);
    assert_eq!(read_slip(agreed(5, 4, 1), &key(), &one).unwrap().contents, GOOD);
}

/// The example's tag ends in two zero bits, so it fits 62 and 63 bits too.
#[test]
fn a_tag_that_fits() {
    let good = first();
    for m in [62, 63] {
        let other = naming([5, 4, m], &good[29..]);
        assert_eq!(refused(AGREED, &key(), &other), 25);
        assert_eq!(refused(agreed(5, 4, m.into()), &key(), &good), 25);
        assert_eq!(read_slip(agreed(5, 4, m.into()), &key(), &other).unwrap().contents, GOOD);
    }
}

/// Of all tags of 2 bytes over the same fields, one is accepted.
#[test]
fn one_slip_under_an_agreement() {
    let (key, mut slip) = (key(), naming([1, 1, 12], &[0; 2]));
    let accepted = |tag: &u16| {
        slip[29..].copy_from_slice(&tag.to_be_bytes());
        read_slip(agreed(1, 1, 12), &key, &slip).is_ok()
    };
    assert_eq!((0..=u16::MAX).filter(accepted).collect::<Vec<_>>(), [0xA330]);
}

/// A fault of the agreement, the keys or the tag gets its number where the slip names what was agreed, else 25.
#[test]
fn unsound_agreements() {
    for (named, tag, keys, number) in [
        ([9, 4, 64], 8, &[7; 16][..], 1),
        ([0, 0, 0], 1, &[], 1),
        ([255, 255, 255], 16, &[], 1),
        ([5, 3, 64], 8, &[7; 16], 2),
        ([7, 4, 64], 8, &[7; 16], 3),
        ([5, 4, 0], 1, &[7; 16], 3),
        ([5, 4, 129], 16, &[7; 16], 3),
        ([2, 2, 64], 8, &[7; 16], 4),
        ([2, 2, 64], 8, &[7; 32], 5),
        ([4, 3, 64], 8, &[7; 32], 5),
        ([5, 4, 64], 9, &[7; 16], 10),
        ([5, 4, 64], 7, &[7; 16], 10),
        ([5, 4, 64], 8, &[7; 16], 30),
    ] {
        let slip = naming(named, &[0; 16][..tag]);
        let [algorithm, padding, m] = named.map(u64::from);
        assert_eq!(refused(agreed(algorithm, padding, m), keys, &slip), number, "{named:?}");
        for (algorithm, padding, m) in
            [(algorithm ^ 1, padding, m), (algorithm, padding ^ 1, m), (algorithm, padding, m ^ 1)]
        {
            assert_eq!(refused(agreed(algorithm, padding, m), keys, &slip), 25, "{named:?}");
        }
    }
}

/// Under an agreement that is not met and not allowed either, with keys of 3 bytes, a slip gets 20 to 24 first, then 25.
#[test]
fn the_form_is_judged_first() {
    let good = first();
    let number = |slip: &[u8]| refused(agreed(9, 9, 999), &[0; 3], slip);
    let changed = |place: usize, byte: u8| {
        let mut other = good.clone();
        other[place] = byte;
        number(&other)
    };
    for cut in 0..good.len() {
        assert_eq!(number(&good[..cut]), 20);
    }
    assert_eq!([changed(0, 2), changed(23, 3)], [21, 21]);
    assert_eq!([changed(3, b'x'), changed(14, b' '), changed(25, 3), changed(25, 20)], [22; 4]);
    assert_eq!([changed(3, b'1'), changed(7, b'2')], [23, 23]);
    assert_eq!(number(&[&good[..], &[0]].concat()), 24);
    assert_eq!(number(&good), 25);
    for seal in ["7F0003050440", "7F0014050440 0000000000000000000000000000000000"] {
        assert_eq!([number(&slip(seal)), refused(AGREED, &key(), &slip(seal))], [22, 22], "{seal}");
    }
}

#[test]
fn lots_of_1_to_32_bytes() {
    for length in 1..=32 {
        let lot: Vec<u8> = (0..length).map(|i| 0x7E - i).collect();
        let slip = with_lot(&lot);
        let read = read_slip(agreed(8, 4, 128), &key(), &slip).unwrap();
        let contents = Contents { year: 2099, month: 12, day: 31, lot: &lot, amount: 1_000_000 };
        assert_eq!(read.contents, contents);
    }
    for lot in [&b""[..], &[b'A'; 33], b"A 7", b"A\x7F"] {
        assert_eq!(refused(agreed(8, 4, 128), &key(), &with_lot(lot)), 22, "{lot:?}");
    }
}

// ---- written

/// A slip that was written, and the calls; the room behind it must be as it was.
fn written(agreement: Agreement, keys: &[u8], contents: Contents) -> (Vec<u8>, u64) {
    let before: [u8; 80] = std::array::from_fn(|i| 0xFF - i as u8);
    let mut room = before;
    let written = write_slip(agreement, keys, contents, &mut room).unwrap();
    let (slip, calls) = (written.slip.to_vec(), written.calls);
    assert_eq!(room[slip.len()..], before[slip.len()..], "bytes past the slip stay");
    (slip, calls)
}

/// The number of a refused write, which must leave the room.
fn unwritten(agreement: Agreement, keys: &[u8], contents: Contents, room: usize) -> u64 {
    let mut bytes = vec![0xAA; room];
    let refusal = write_slip(agreement, keys, contents, &mut bytes).unwrap_err();
    assert_eq!(bytes, vec![0xAA; room], "a refusal writes nothing");
    refusal.number()
}

/// The number of a write under a good agreement and with room for any slip, 0 where it is accepted.
fn judged(contents: Contents) -> u64 {
    let mut room = [0xAA; 75];
    let refusal = write_slip(AGREED, &key(), contents, &mut room).err();
    assert_eq!(room == [0xAA; 75], refusal.is_some(), "a refusal writes nothing");
    refusal.map_or(0, |refusal| refusal.number())
}

#[test]
fn r6_written() {
    for (agreement, seal, length, calls) in R6 {
        assert_eq!(written(agreement, &keys()[..length], GOOD), (slip(seal), calls));
    }
}

/// A slip made with `make` is read to its contents and written from them, under every agreement without a master.
#[test]
fn both_ways() {
    for algorithm in 1..=8 {
        let keys = keys_of(algorithm);
        let paddings = if matches!(algorithm, 5 | 7 | 8) { 4..=4 } else { 1..=3 };
        let most = if algorithm == 7 { 63 } else { 128 };
        for (padding, m) in paddings.flat_map(|padding| (1..=most).map(move |m| (padding, m))) {
            let agreement = agreed(algorithm, padding, m);
            let lot: Vec<u8> = (0..m % 32 + 1).map(|i| 0x21 + ((m + 7 * i) % 94) as u8).collect();
            let (year, month, day) = (2000 + m % 100, m % 12 + 1, m % 28 + 1);
            let contents = Contents { year, month, day, lot: &lot, amount: 7812 * m };
            let slip = sealed(agreement, &keys, contents);
            let read = read_slip(agreement, &keys, &slip).unwrap();
            let calls = calls(algorithm, padding, 8 * (21 + lot.len()));
            assert_eq!((read.contents, read.calls), (contents, calls), "{agreement:?}");
            assert_eq!(written(agreement, &keys, read.contents), (slip.clone(), calls), "{agreement:?}");
            assert_eq!(refused(agreed(algorithm, padding, m + 1), &keys, &slip), 25, "{agreement:?}");
        }
    }
}

#[test]
fn every_date() {
    let days = |year, month| match month {
        2 if year % 4 == 0 => 29,
        2 => 28,
        4 | 6 | 9 | 11 => 30,
        _ => 31,
    };
    for (year, month) in (1999..=2100).flat_map(|year| (0..=13).map(move |month| (year, month))) {
        for day in 0..=32 {
            let real = (2000..=2099).contains(&year)
                && (1..=12).contains(&month)
                && (1..=days(year, month)).contains(&day);
            let contents = Contents { year, month, day, ..GOOD };
            assert_eq!(judged(contents), if real { 0 } else { 23 }, "{year}, {month}, {day}");
        }
    }
}

#[test]
fn every_byte_and_length_of_a_lot() {
    for byte in 0..=255 {
        let allowed = (0x21..=0x7E).contains(&byte);
        for lot in [&[byte][..], &[b'A', byte], &[byte, b'7']] {
            assert_eq!(judged(Contents { lot, ..GOOD }), if allowed { 0 } else { 22 }, "byte {byte}");
        }
    }
    for length in 0..=300 {
        let lot = vec![b'A'; length];
        let number = judged(Contents { lot: &lot, ..GOOD });
        assert_eq!(number, if (1..=32).contains(&length) { 0 } else { 22 }, "{length} bytes");
    }
}

#[test]
fn amounts() {
    for amount in [1, 2, 255, 256, 65_535, 65_536, 999_999, 1_000_000] {
        let contents = Contents { amount, ..GOOD };
        let slip = written(AGREED, &key(), contents).0;
        assert_eq!(slip[19..23], (amount as u32).to_be_bytes());
        assert_eq!(read_slip(AGREED, &key(), &slip).unwrap().contents, contents);
    }
    for amount in [0, 1_000_001, u32::MAX.into(), (1 << 32) + 500, u64::MAX] {
        assert_eq!(judged(Contents { amount, ..GOOD }), 22, "{amount}");
    }
}

/// What a narrower type would cut to a good number is refused.
#[test]
fn far_numbers() {
    for far in [1 << 8, 1 << 16, 1 << 31, 1 << 32, 1 << 63] {
        assert_eq!(judged(Contents { year: far + 2026, ..GOOD }), 23);
        assert_eq!(judged(Contents { month: far + 11, ..GOOD }), 23);
        assert_eq!(judged(Contents { day: far + 4, ..GOOD }), 23);
        assert_eq!(unwritten(agreed(far + 5, 4, 64), &key(), GOOD, 75), 1);
        assert_eq!(unwritten(agreed(5, far + 4, 64), &key(), GOOD, 75), 2);
        assert_eq!(unwritten(agreed(5, 4, far + 64), &key(), GOOD, 75), 3);
    }
    for far in [1 << 32, 1 << 63] {
        assert_eq!(unwritten(AGREED, &key(), Contents { amount: far + 500, ..GOOD }, 75), 22);
    }
    let all = Contents { year: u64::MAX, month: u64::MAX, day: u64::MAX, ..GOOD };
    assert_eq!(unwritten(AGREED, &key(), all, 75), 23);
}

#[test]
fn each_room() {
    let long = [b'~'; 32];
    for (agreement, contents, length) in [
        (AGREED, GOOD, 37),
        (agreed(1, 1, 1), Contents { lot: b"!", ..GOOD }, 29),
        (agreed(1, 2, 8), Contents { lot: b"!", ..GOOD }, 29),
        (agreed(1, 3, 9), Contents { lot: b"!", ..GOOD }, 30),
        (agreed(8, 4, 128), Contents { lot: &long, ..GOOD }, 75),
    ] {
        for room in 0..length {
            assert_eq!(unwritten(agreement, &key(), contents, room), 10, "{room} bytes for {length}");
        }
        for room in length..length + 3 {
            let mut bytes = vec![0xAA; room];
            let written = write_slip(agreement, &key(), contents, &mut bytes).unwrap();
            assert_eq!(written.slip, sealed(agreement, &key(), contents), "{room} bytes for {length}");
            assert_eq!(bytes[length..], [0xAA; 2][..room - length]);
        }
    }
}

#[test]
fn the_first_fault_is_told() {
    let mut call = (agreed(9, 9, 999), vec![0; 3], Contents { day: 31, lot: b"A 7", amount: 0, ..GOOD });
    let mut told = |change: fn(&mut (Agreement, Vec<u8>, Contents))| {
        change(&mut call);
        let number = unwritten(call.0, &call.1, call.2, 0);
        assert_eq!(number, unwritten(call.0, &call.1, call.2, 36), "with more room");
        number
    };
    assert_eq!(told(|_| ()), 22);
    assert_eq!(told(|call| call.2.lot = b"A7"), 22);
    assert_eq!(told(|call| (call.2.lot, call.2.amount) = (b"", 500)), 22);
    assert_eq!(told(|call| call.2.lot = b"A7"), 23);
    assert_eq!(told(|call| call.2.day = 30), 1);
    assert_eq!(told(|call| call.0.algorithm = 4), 2);
    assert_eq!(told(|call| call.0.padding = 1), 3);
    assert_eq!(told(|call| call.0.m = 64), 4);
    assert_eq!(told(|call| call.1 = vec![7; 32]), 5);
    assert_eq!(told(|call| call.1[31] = 8), 10);
}
