//! Slips, read, gathered from reads, and written: P10 and P12 of document 01, appendix R6, the agreement, the order of refusals.

use super::*;
use crate::cases::{draw_slip, draw_write};
use crate::gathered::Gathered;
use crate::slip as slips;

/// P12's fields under a seal that names the lowest bytes of these three and has this tag.
fn naming(Agreement { algorithm, padding, m, .. }: Agreement, tag: &[u8]) -> Vec<u8> {
    let head = [0x7F, 0, 3 + tag.len() as u8, algorithm as u8, padding as u8, m as u8];
    [&h(COVERED), &head[..], tag].concat()
}

/// What a slip names whose seal stands in its place.
fn named(slip: &[u8]) -> Agreement {
    let at = usize::from(slip[13]) + 24;
    agreed(slip[at].into(), slip[at + 1].into(), slip[at + 2].into())
}

/// Slip bytes with a right seal of algorithm 5 over whatever stands before it.
fn sealed(covered: &[u8]) -> Vec<u8> {
    let tag = made(agreed(5, 4, 64), &h(K), covered, 8 * covered.len() as u64).1;
    [covered, &h("7F000B050440"), &tag].concat()
}

fn slip(date: &str, lot: &[u8], amount: u32) -> Vec<u8> {
    let lot_head = [2, 0, lot.len() as u8];
    sealed(&[&[1, 0, 8], date.as_bytes(), &lot_head, lot, &[3, 0, 4], &amount.to_be_bytes()].concat())
}

#[test]
fn appendix_r6_slips() {
    let accepted =
        Slip { number: 0, year: 2026, month: 11, day: 4, amount: 500, calls: 3, lot_at: 14, lot_len: 2 };
    for ((agreement, keys, seal), calls) in R6.into_iter().zip([3, 3, 2]) {
        assert_eq!(read(agreement, &h(keys), &p12(seal)), Slip { calls, ..accepted });
    }
    assert_eq!(read(R6[2].0, &h(K), &p12("7F000501010CA331")), refused(30));
    let first = p12(SEAL);
    let number = |slip: &[u8]| {
        let slip = read(NAMED, &h(K), slip);
        assert!(slip == accepted || slip == refused(slip.number));
        slip.number
    };
    assert_eq!(read(NAMED, &h(K)[..15], &first), refused(4));
    assert_eq!(number(&[&first[..36], &[0x6D]].concat()), 30);
    assert_eq!(number(&[&first[..], &[0]].concat()), 24);
    assert_eq!(number(&first[..36]), 20);
    for (date, wanted) in [("20230229", 23), ("04112026", 23), ("20260411", 30), ("20261104", 0)] {
        assert_eq!(number(&[&first[..3], date.as_bytes(), &first[11..]].concat()), wanted);
    }
    for (bytes, wanted) in [("", 20), ("55", 20), ("010009", 22), ("01000832", 20), (COVERED, 20)] {
        assert_eq!(number(&h(bytes)), wanted);
    }
}

#[test]
fn slip_refusals() {
    let first = p12(SEAL);
    for length in 0..first.len() {
        assert_eq!(read(NAMED, &h(K), &first[..length]), refused(20)); // cut anywhere
    }
    let with = |at: usize, byte: u8| [&first[..at], &[byte], &first[at + 1..]].concat();
    #[rustfmt::skip]
    let rows: [(usize, u8, u64); 16] = [
        (0, 0x02, 21), (1, 0x01, 22), (2, 0x07, 22), (3, 0x2F, 22), (3, 0x3A, 22), // expiry
        (11, 0x03, 21), (13, 0x00, 22), (13, 0x21, 22), (14, 0x20, 22), (15, 0x7F, 22), // lot
        (16, 0x7F, 21), (18, 0x05, 22), // amount
        (23, 0x03, 21), (25, 0x03, 22), (25, 0x14, 22), (25, 0x13, 20), // seal
    ];
    for (at, byte, number) in rows {
        assert_eq!(read(NAMED, &h(K), &with(at, byte)), refused(number), "byte {at} {byte}");
    }
    // what the seal names: 25, and under an agreement of the same the number of its own fault
    for (at, byte, number) in [(26, 0x09, 1), (27, 0x01, 2), (28, 0x81, 3), (28, 0x41, 10)] {
        let slip = with(at, byte);
        let both = (read(NAMED, &h(K), &slip), read(named(&slip), &h(K), &slip));
        assert_eq!(both, (refused(25), refused(number)), "byte {at} {byte}");
    }
    let two = p12("7F000B020240A47A9299C7B8456C");
    assert_eq!(read(named(&two), &[h(K), h(K)].concat(), &two), refused(5));
    assert_eq!(read(named(&two), &h(K), &two), refused(4));
    // order: 22 of a digit before 23, 24 before 1 to 5, 4 before 10, 10 before 30
    assert_eq!(read(NAMED, &h(K), &slip("2023 229", b"A", 1)), refused(22));
    let long = [&first[..], &[0]].concat();
    let two_faults = [&long[..26], &[0], &long[27..]].concat();
    assert_eq!(read(named(&two_faults), &h(K), &two_faults), refused(24));
    let nine = [&long[..25], &[0x0C], &long[26..]].concat();
    assert_eq!((read(NAMED, &h(K)[..15], &nine), read(NAMED, &h(K), &nine)), (refused(4), refused(10)));
}

#[test]
fn slip_values() {
    let number = |slip: &[u8]| read(NAMED, &h(K), slip).number;
    #[rustfmt::skip]
    let dates = [
        ("20000101", 0), ("20991231", 0), ("20240229", 0), ("20000229", 0), ("20260430", 0),
        ("19991231", 23), ("21000101", 23), ("20230229", 23), ("20240230", 23), ("20260431", 23),
        ("20260001", 23), ("20261301", 23), ("20260100", 23), ("20260132", 23),
    ];
    for (date, wanted) in dates {
        assert_eq!(number(&slip(date, b"A7", 500)), wanted, "{date}");
    }
    for (amount, wanted) in [(0, 22), (1, 0), (1_000_000, 0), (1_000_001, 22), (u32::MAX, 22)] {
        assert_eq!(number(&slip("20261104", b"A7", amount)), wanted);
    }
    for (lot, wanted) in [(0, 22), (1, 0), (32, 0), (33, 22)] {
        assert_eq!(number(&slip("20261104", &vec![b'~'; lot], 1)), wanted);
    }
}

/// One number off by one: 25, with a right tag or a wrong one, and whatever the keys.
#[test]
fn agreement_not_met() {
    let all = [h(KK), h(K)].concat();
    let mut keys: Vec<Vec<u8>> = [0, 15, 16, 17, 31, 32, 33, 48].map(|count| all[..count].to_vec()).into();
    keys.push([h(K), h(K)].concat());
    for (agreement, good_keys, seal) in R6 {
        let right = p12(seal);
        let mut wrong = right.clone();
        *wrong.last_mut().unwrap() ^= 0x10;
        assert_eq!(read(agreement, &h(good_keys), &right).number, 0);
        assert_eq!(read(agreement, &h(good_keys), &wrong), refused(30));
        for other in off_by(1, agreement) {
            for keys in &keys {
                assert_eq!(read(other, keys, &right), refused(25), "{other:?} {}", keys.len());
                assert_eq!(read(other, keys, &wrong), refused(25), "{other:?} {}", keys.len());
            }
        }
    }
}

/// The whole numbers are compared: that the lowest bits are the same is not enough.
#[test]
fn agreement_met_in_the_lowest_bits_alone() {
    let tag = &h(SEAL)[6..];
    let faulty = [agreed(9, 4, 64), agreed(5, 7, 64), agreed(5, 4, 0), agreed(255, 255, 255)];
    for agreement in R6.map(|(agreement, ..)| agreement).into_iter().chain(faulty) {
        let slip = naming(agreement, tag);
        assert_ne!(read(agreement, &h(K), &slip), refused(25));
        for other in (8..64).flat_map(|bit| off_by(1 << bit, agreement)) {
            assert_eq!(read(other, &h(K), &slip), refused(25), "{other:?}");
        }
    }
}

/// 20 to 24 come before 25, and 25 before 1 to 5, 10 and 30: a slip that names what was agreed gets the number of its fault, and so
/// does a sound one 0; where what it names or what was agreed is one off, it gets 25.
#[test]
fn order_of_the_agreement() {
    let first = p12(SEAL);
    let long = [&first[..], &[0]].concat();
    for other in off_by(1, NAMED) {
        let number = |slip: &[u8]| read(other, &h(K), slip).number;
        assert!((0..first.len()).all(|length| number(&first[..length]) == 20));
        assert_eq!((number(&first[11..]), number(&slip("20261104", b"A7", 0))), (21, 22));
        assert_eq!((number(&slip("20230229", b"A7", 500)), number(&long)), (23, 24));
    }
    let (k, same, tag) = (&h(K)[..], &[h(K), h(K)].concat()[..], &h(SEAL)[6..]);
    let rows = [
        (agreed(0, 4, 64), k, tag, 1),
        (agreed(9, 4, 64), k, tag, 1),
        (agreed(255, 4, 64), k, tag, 1),
        (agreed(5, 7, 64), k, tag, 2),
        (agreed(5, 4, 0), k, tag, 3),
        (agreed(5, 4, 129), k, tag, 3),
        (agreed(7, 4, 64), k, tag, 3),
        (NAMED, &k[..15], tag, 4),
        (agreed(2, 1, 64), k, tag, 4),
        (agreed(2, 1, 64), same, tag, 5),
        (NAMED, k, &tag[..7], 10),
        (agreed(5, 4, 65), k, tag, 10),
        (agreed(8, 4, 64), k, tag, 30),
        (NAMED, k, tag, 0),
    ];
    for (agreement, keys, tag, number) in rows {
        assert_eq!(read(agreement, keys, &naming(agreement, tag)).number, number, "{agreement:?}");
        for other in off_by(1, agreement) {
            assert_eq!(read(agreement, keys, &naming(other, tag)), refused(25), "{agreement:?} {other:?}");
            assert_eq!(read(other, keys, &naming(agreement, tag)), refused(25), "{agreement:?} {other:?}");
        }
    }
}

/// With m = 1 one of two tags is right; under an agreed m = 64 neither passes.
#[test]
fn a_tag_of_one_bit() {
    let slips = [0x00, 0x80].map(|tag| naming(agreed(5, 4, 1), &[tag]));
    let under = |agreement: Agreement| slips.each_ref().map(|slip| read(agreement, &h(K), slip).number);
    assert_eq!(under(agreed(5, 4, 1)), [30, 0]); // the tag of 64 bits begins with A4
    assert_eq!(under(NAMED), [25, 25]);
}

/// A slip that names something else than agreed gets 25 however well it is sealed: under what it names, where it is accepted,
/// or under what was agreed.
#[test]
fn slips_sealed_under_other_settings() {
    let (covered, pairs) = (h(COVERED), (1..=8).flat_map(|a| (1..=4).map(move |p| (a, p))));
    for (a, p) in pairs.filter(|(a, p)| mac::padding_fits(*a, *p)) {
        let keys = h(if mac::two_keys(a) { KK } else { K });
        for m in [1, 8, 60, 63, 64, 65, 128].into_iter().filter(|m| *m <= mac::m_limit(a)) {
            let own = agreed(a, p, m);
            let tag = made(own, &keys, &covered, 184).1;
            for other in off_by(1, own).into_iter().chain(R6.map(|(agreement, ..)| agreement)) {
                let wanted = if other == own { 0 } else { 25 };
                assert_eq!(read(own, &keys, &naming(own, &tag)).number, 0);
                assert_eq!(read(other, &keys, &naming(own, &tag)).number, wanted);
                assert_eq!(read(own, &keys, &naming(other, &tag)).number, wanted);
            }
        }
    }
}

/// No byte of a slip with a full tag can be changed under what was agreed, and none left out at the end. The seal does not cover m:
/// where the tag's last bit is 0, it fits m = 127 too, and only the agreement tells the two apart.
#[test]
fn slips_changed_and_cut() {
    let covered = h(COVERED);
    let mut ends = [0; 2];
    for lot in b'0'..=b'9' {
        let covered = [&covered[..15], &[lot], &covered[16..]].concat();
        let tag = made(agreed(5, 4, 128), &h(K), &covered, 184).1;
        let slip = [covered.clone(), h("7F0013050480"), tag.clone()].concat();
        assert_eq!(read(agreed(5, 4, 128), &h(K), &slip).number, 0);
        let changed = slips::changed(agreed(5, 4, 128), &h(K), &slip);
        assert_eq!(changed.values().sum::<u64>(), 255 * slip.len() as u64);
        assert_eq!((changed.get(&0), changed[&25]), (None, 3 * 255));
        assert!(changed.keys().all(|number| (20..=25).contains(number) || *number == 30));
        assert_eq!(slips::prefixes(agreed(5, 4, 128), &h(K), &slip), [(20, slip.len() as u64)].into());

        let last = usize::from(tag[15] % 2);
        ends[last] += 1;
        let slip = [covered, h("7F001305047F"), tag].concat();
        assert_eq!(read(agreed(5, 4, 127), &h(K), &slip).number, [0, 30][last]);
        assert_eq!(read(agreed(5, 4, 128), &h(K), &slip), refused(25));
    }
    assert!(ends[0] > 0 && ends[1] > 0);
}

/// The slips that are drawn get every answer. Where the layout is clean, 25 comes exactly where the slip names something else than
/// agreed; where it is not, the agreement moves nothing.
#[test]
fn drawn_slips_get_every_answer() {
    let (mut random, mut often) = (Random::new(6), slips::Tally::new());
    for _ in 0..20_000 {
        let (slip, s) = draw_slip(&mut random);
        let number = read(s.agreement, s.keys(), &slip).number;
        *often.entry(number).or_default() += 1;
        let other = draw_slip(&mut random).1;
        let under_other = read(other.agreement, other.keys(), &slip).number;
        if (20..=24).contains(&number) {
            assert_eq!(under_other, number);
            continue;
        }
        assert_eq!(number == 25, s.agreement != named(&slip));
        assert_eq!(under_other == 25, other.agreement != named(&slip));
        assert_ne!(read(named(&slip), s.keys(), &slip).number, 25);
    }
    for number in [0, 1, 2, 3, 4, 5, 10, 20, 21, 22, 23, 24, 25, 30] {
        assert!(often.get(&number) > Some(&20), "{number}: {often:?}");
    }
    assert_eq!(often.len(), 14, "{often:?}");
}

/// The longest slip: a lot of 32 bytes and a tag of 128 bits.
fn longest() -> (Agreement, Vec<u8>) {
    let agreement = agreed(4, 3, 128);
    let says = Says { year: 2026, month: 11, day: 4, lot: vec![b'~'; 32], amount: 500 };
    let mut slip = vec![0; 75];
    assert_eq!(write(agreement, &h(KK), &says, &mut slip), Written { number: 0, length: 75, calls: 7 });
    (agreement, slip)
}

/// The longest slip and the accepted ones of appendix R6: what was agreed, the keys, the slip and its calls.
fn accepted_slips() -> Vec<(Agreement, Vec<u8>, Vec<u8>, u64)> {
    let (agreement, slip) = longest();
    let mut rows = vec![(agreement, h(KK), slip, 7)];
    for ((agreement, keys, seal), calls) in R6.into_iter().zip([3, 3, 2]) {
        rows.push((agreement, h(keys), p12(seal), calls));
    }
    rows
}

/// The record after reads that came one after the other, each added to what the record before it stands for.
fn gathered<'a>(reads: impl IntoIterator<Item = &'a [u8]>) -> Gathered {
    let add = |record: Gathered, read: &[u8]| Gathered::of(&[record.held(), read].concat());
    reads.into_iter().fold(Gathered::of(&[]), add)
}

/// An accepted slip is accepted from any two and three reads, and byte by byte with reads of none between; the record is one and
/// the same. Each proper beginning gets 20, and each lengthening 24.
#[test]
fn slips_cut_everywhere() {
    for (agreement, keys, slip, calls) in accepted_slips() {
        let (length, whole) = (slip.len(), read(agreement, &keys, &slip));
        assert_eq!((whole.number, whole.day, whole.calls), (0, 4, calls));
        let record = gathered([&slip[..]]);
        assert_eq!((record.count, &record.bytes[..length]), (length as u64, &slip[..]));
        assert!(record.bytes[length..].iter().all(|byte| *byte == 0));
        for (one, two) in (0..=length).flat_map(|two| (0..=two).map(move |one| (one, two))) {
            assert_eq!(gathered([&slip[..one], &slip[one..two], &slip[two..]]), record);
        }
        assert_eq!(gathered(slip.chunks(1).flat_map(|byte| [&[], byte, &[]])), record);
        assert_eq!(read(agreement, &keys, record.held()), whole);

        let count = length as u64;
        assert_eq!(firsts(agreement, &keys, &slip), [[(0, 1), (20, count)].into(), [(0, count + 1)].into()]);
        for more in [1, 2, 38, 39, 40, 100, 1000, 70_000] {
            let long = [&slip[..], &vec![0x01; more]].concat();
            assert_eq!(read(agreement, &keys, &long), refused(24));
            assert_eq!(read(agreement, &keys, gathered(long.chunks(7)).held()), refused(24));
        }
    }
}

/// The user's morning: month and day exchanged under the seal of 4 November. Whatever the first read brought, the slip is not
/// accepted: 20 while bytes are missing, and 30 when all have come. With the day written first, the expiry itself is at fault.
#[test]
fn the_morning() {
    for (agreement, keys, seal) in R6 {
        let with = |date: &[u8]| [&h(COVERED)[..3], date, &p12(seal)[11..]].concat();
        let missing = p12(seal).len() as u64;
        let rewritten = [[(20, missing), (30, 1)].into(), [(30, missing + 1)].into()];
        assert_eq!(firsts(agreement, &h(keys), &with(b"20260411")), rewritten);
        let day_first = [[(20, 11), (23, missing - 10)].into(), [(23, missing + 1)].into()];
        assert_eq!(firsts(agreement, &h(keys), &with(b"04112026")), day_first);
    }
}

/// Nothing past the first 76 bytes matters: the record of any bytes is answered as all of them are.
#[test]
fn seventy_six_bytes_are_enough() {
    let (mut random, mut often) = (Random::new(7), slips::Tally::new());
    let (agreement, longest) = longest();
    for _ in 0..20_000 {
        let (slip, s) = draw_slip(&mut random);
        let (mut came, agreement, keys) = match random.below(8) {
            0 => (longest.clone(), agreement, h(KK)),
            _ => (slip, s.agreement, s.keys().to_vec()),
        };
        let mut more = vec![0; random.below(100) as usize];
        random.fill(&mut more);
        came.extend(more);
        let record = Gathered::of(&came);
        assert_eq!((record.count, &record.bytes[76..]), (came.len().min(76) as u64, &[0; 4][..]));
        let whole = read(agreement, &keys, &came);
        assert_eq!(read(agreement, &keys, record.held()), whole, "{}", hex(&came));
        if came.len() > 76 {
            *often.entry(whole.number).or_default() += 1;
        }
    }
    assert_eq!(often.keys().collect::<Vec<_>>(), [&21, &22, &23, &24]); // none is too short, and none a slip
}

/// Any count and any bytes: a count over 76 stands for 76 bytes, and what lies past the count is not looked at and does not stay.
#[test]
fn forged_gathered_records() {
    let first = p12(SEAL);
    let mut bytes = [0xA5; 80];
    bytes[..37].copy_from_slice(&first);
    let whole = read(NAMED, &h(K), &first);
    let far = [(1 << 8) + 37, (1 << 16) + 37, 1 << 32, (1 << 32) + 37, (1 << 63) + 37, u64::MAX];
    for count in (0..=81).chain(far) {
        let record = Gathered { count, bytes };
        assert_eq!(record.held(), &bytes[..count.min(76) as usize]);
        let wanted = match count {
            37 => whole,
            0..=36 => refused(20),
            _ => refused(24),
        };
        assert_eq!(read(NAMED, &h(K), record.held()), wanted, "{count}");

        let rest = first.get(count as usize..).unwrap_or(&[]);
        let after = Gathered::of(&[record.held(), rest].concat());
        assert_eq!(after.count, count.clamp(37, 76));
        let (kept, zeros) = after.bytes.split_at(after.count as usize);
        assert_eq!(kept, &bytes[..kept.len()]);
        assert!(zeros.iter().all(|byte| *byte == 0));
        assert_eq!(read(NAMED, &h(K), kept).number, if count <= 37 { 0 } else { 24 }, "{count}");
    }
}

#[test]
fn appendix_r6_written() {
    for ((agreement, keys, seal), calls) in R6.into_iter().zip([3, 3, 2]) {
        let slip = p12(seal);
        let length = slip.len();
        for room in 0..length + 20 {
            let (written, bytes) = Print { room, ..Print::p12(agreement, keys) }.run();
            if room < length {
                assert_eq!(written.number, 10, "room {room}");
                continue;
            }
            assert_eq!(written, Written { number: 0, length: length as u64, calls });
            assert_eq!(bytes[..length], slip);
        }
    }
}

/// 27 bytes, the lot and ⌈m/8⌉.
#[test]
fn lengths_of_written_slips() {
    for (lot, m) in [(1, 1), (1, 8), (1, 9), (2, 64), (32, 127), (32, 128)] {
        let mut one = Print { room: 75, ..Print::p12(agreed(5, 4, m), K) };
        one.says.lot = vec![b'~'; lot];
        let length = 27 + lot as u64 + m.div_ceil(8);
        assert_eq!(
            one.run().0,
            Written { number: 0, length, calls: if lot == 1 || lot == 2 { 3 } else { 5 } }
        );
    }
}

#[test]
fn write_refusals() {
    let good = Print { room: 96, ..Print::p12(agreed(5, 4, 64), K) };
    let lots: [(&[u8], u64); 12] = [
        (b"!", 0),
        (b"~", 0),
        (&[b'x'; 32], 0),
        (&[], 22),
        (&[b'x'; 33], 22),
        (&[b'x'; 256 + 2], 22),
        (&[b'x'; 65_536 + 2], 22),
        (b" ", 22),
        (&[0x7F], 22),
        (b"A7 ", 22),
        (&[b'A', 0], 22),
        (&[b'A', 0xC1, b'7'], 22),
    ];
    for (lot, number) in lots {
        assert_eq!(good.with(|one| one.says.lot = lot.to_vec()).number(), number, "lot {}", hex(lot));
    }
    let wide = 1 << 32;
    for amount in [1, 500, 1_000_000] {
        assert_eq!(good.with(|one| one.says.amount = amount).number(), 0, "amount {amount}");
    }
    for amount in [0, 1_000_001, wide, wide + 500, (1 << 63) + 500, u64::MAX] {
        assert_eq!(good.with(|one| one.says.amount = amount).number(), 22, "amount {amount}");
    }
    #[rustfmt::skip]
    let dates = [
        (2000, 1, 1, 0), (2099, 12, 31, 0), (2000, 2, 29, 0), (2024, 2, 29, 0), (2026, 4, 30, 0), (2026, 12, 31, 0),
        (1999, 12, 31, 23), (2100, 1, 1, 23), (0, 1, 1, 23), (26, 11, 4, 23), (2023, 2, 29, 23), (2024, 2, 30, 23),
        (2026, 4, 31, 23), (2026, 0, 1, 23), (2026, 13, 1, 23), (2026, 11, 0, 23), (2026, 1, 32, 23), (4, 11, 2026, 23),
        (4_294_969_322, 11, 4, 23), (2026 + 65_536, 11, 4, 23), (2026, 11 + 256, 4, 23), (2026, 11 + wide, 4, 23),
        (2026, 11, 4 + 256, 23), (2026, 11, 4 + wide, 23), (2026 + (1 << 63), 11, 4, 23), (2026, u64::MAX, 4, 23),
    ];
    for (year, month, day, number) in dates {
        let one = good.with(|one| (one.says.year, one.says.month, one.says.day) = (year, month, day));
        assert_eq!(one.number(), number, "{year} {month} {day}");
    }
    #[rustfmt::skip]
    let settings = [
        (0, 4, 64, 16, 1), (9, 4, 64, 16, 1), (5 + 256, 4, 64, 16, 1), (5 + wide, 4, 64, 16, 1),
        (5, 0, 64, 16, 2), (5, 3, 64, 16, 2), (1, 4, 64, 16, 2), (5, 4 + 256, 64, 16, 2), (5, 4 + wide, 64, 16, 2),
        (5, 4, 0, 16, 3), (5, 4, 129, 16, 3), (7, 4, 64, 16, 3), (5, 4, 64 + 256, 16, 3), (5, 4, 64 + wide, 16, 3),
        (5, 4, 64, 0, 4), (5, 4, 64, 15, 4), (5, 4, 64, 17, 4), (5, 4, 64, 32, 4), (2, 1, 64, 16, 4), (2, 1, 64, 31, 4),
        (7, 4, 63, 16, 0), (8, 4, 128, 16, 0), (2, 1, 64, 32, 0), (3, 1, 64, 32, 0),
    ];
    for (a, p, m, count, number) in settings {
        let keys = h(KK)[..count].to_vec();
        let one = Print { agreement: agreed(a, p, m), keys, ..good.clone() };
        assert_eq!(one.number(), number, "{a} {p} {m} {count}");
    }
    let twisted = [h(K), mac::alternate(&block(K)).to_vec()].concat();
    for (a, number, number_twisted) in [(2, 5, 0), (3, 0, 0), (4, 5, 5), (6, 5, 0)] {
        let one = Print { agreement: agreed(a, 1, 64), ..good.clone() };
        assert_eq!(Print { keys: [h(K), h(K)].concat(), ..one.clone() }.number(), number);
        assert_eq!(Print { keys: twisted.clone(), ..one }.number(), number_twisted);
    }
}

/// Every fault alone, and any two of them at once: the earlier one answers.
#[test]
fn order_of_refusals_when_writing() {
    let good = Print::p12(agreed(2, 1, 64), KK);
    assert_eq!(good.run().0, Written { number: 0, length: 37, calls: 3 });
    type Fault = (u64, fn(&mut Print));
    let faults: [Fault; 10] = [
        (22, |one| one.says.lot[1] = 0x20),
        (22, |one| one.says.amount = 0),
        (23, |one| one.says.day = 31),
        (1, |one| one.agreement.algorithm = 9),
        (2, |one| one.agreement.padding = 7),
        (3, |one| one.agreement.m = 129),
        (4, |one| one.keys.push(0)),
        (5, |one| one.keys.copy_within(..16, 16)),
        (10, |one| one.room = 36),
        (10, |one| one.room = 0),
    ];
    for (i, (number, fault)) in faults.iter().enumerate() {
        let one = good.with(fault);
        assert_eq!(one.number(), *number);
        for (later, then) in &faults[i + 1..] {
            assert_eq!(one.with(then).number(), *number, "{number} and {later}");
        }
    }
    let all = faults.iter().fold(good, |one, (_, fault)| one.with(fault));
    assert_eq!(all.number(), 22);
}

/// What is written is read back under the same agreement, with the same fields and calls.
#[test]
fn written_slips_are_read_back() {
    let (mut random, mut accepted) = (Random::new(4), 0);
    while accepted < 3000 {
        let (s, says, room) = draw_write(&mut random);
        let one = Print { agreement: s.agreement, keys: s.keys().to_vec(), says, room };
        let (written, bytes) = one.run();
        if written.number != 0 {
            continue;
        }
        let Says { year, month, day, lot, amount } = one.says;
        let (calls, lot_len) = (written.calls, lot.len() as u64);
        let wanted = Slip { number: 0, year, month, day, amount, calls, lot_at: 14, lot_len };
        let slip = &bytes[..written.length as usize];
        assert_eq!(read(s.agreement, s.keys(), slip), wanted);
        assert_eq!(slip[14..14 + lot.len()], lot);
        accepted += 1;
    }
}

/// An accepted slip, written again from its fields under the same agreement, comes out byte for byte.
#[test]
fn accepted_slips_are_written_again() {
    let (mut random, mut accepted) = (Random::new(5), 0);
    while accepted < 3000 {
        let (slip, s) = draw_slip(&mut random);
        let read = read(s.agreement, s.keys(), &slip);
        let Slip { number, year, month, day, amount, calls, lot_at, lot_len } = read;
        if number != 0 {
            continue;
        }
        let lot = slip[lot_at as usize..(lot_at + lot_len) as usize].to_vec();
        let says = Says { year, month, day, lot, amount };
        let one = Print { agreement: s.agreement, keys: s.keys().to_vec(), says, room: slip.len() };
        let length = slip.len() as u64;
        assert_eq!(one.run(), (Written { number: 0, length, calls }, slip));
        accepted += 1;
    }
}
