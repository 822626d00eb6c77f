//! Keys derived from a master (02 §6): annex A.7 and appendix R8 under it, what 4 and 5 ask, the calls, sessions, slips, lost blocks.

use super::checks::in_check;
use super::lost::{restored, with_block};
use super::*;
use crate::derive::derived;
use crate::session::start_check;

fn mastered(algorithm: u64, padding: u64, m: u64) -> Agreement {
    Agreement { master: true, ..agreed(algorithm, padding, m) }
}

/// What is run under a master: the agreement with m = 128, the keys, the message, the tag and the calls.
struct Case {
    agreement: Agreement,
    keys: Vec<u8>,
    data: &'static [u8],
    tag: Vec<u8>,
    calls: u64,
}

/// Annex A.7 with its K* as the master (G as printed, R8's calls), and algorithms 2 and 4 with the same data, whose tags are worked
/// out of single cipher calls: algorithm 4's master is K' of annex A.
fn cases() -> Vec<Case> {
    let [k1, k2] = derived(&block(&KK[32..])).map(|key| sm4::round_keys(&key));
    let [a7_k, a7_k1] = [block(&A7[..32]), block(&A7[32..])].map(|key| sm4::round_keys(&key));
    let k = sm4::round_keys(&block(K));
    let mut all = vec![];
    for (v, calls) in annex_a().into_iter().filter(|v| v.algorithm == 6).zip([4, 5, 5, 4, 4, 5]) {
        let (p, q) = (v.padding, padding::q(v.padding, v.bits));
        let d = |i| padding::block(p, v.data, v.bits, i);
        let mut two = sm4::encrypt(&a7_k, &d(1));
        let mut four = sm4::encrypt(&k2, &sm4::encrypt(&k, &d(1)));
        for i in 2..=q {
            two = sm4::encrypt(&a7_k, &mac::xor(&two, &d(i)));
            four = sm4::encrypt(&k, &mac::xor(&four, &d(i)));
        }
        let rows = [
            (2, K, sm4::encrypt(&a7_k1, &two).to_vec(), q + 3),
            (4, KK, sm4::encrypt(&k1, &four).to_vec(), q + 4),
            (6, K, v.g, calls),
        ];
        for (a, keys, tag, calls) in rows {
            all.push(Case { agreement: mastered(a, p, 128), keys: h(keys), data: v.data, tag, calls });
        }
    }
    all
}

/// 4E59.. and B313.., as A.7 prints them; the counters begin at 1 and stand in the last byte.
#[test]
fn annex_a7_derived_keys() {
    assert_eq!(derived(&block(K)).concat(), h(A7));
    let keys = sm4::round_keys(&block(K));
    let mut counter = [0; 16];
    for (number, key) in derived(&block(K)).into_iter().enumerate() {
        counter[15] = number as u8 + 1;
        assert_eq!(sm4::encrypt(&keys, &counter), key);
    }
}

/// The tags that A.7 prints, with 4, 5, 5 and 4, 4, 5 calls; and algorithm 4 with K' of annex A as the master.
#[test]
fn appendix_r8() {
    for v in annex_a().into_iter().filter(|v| v.algorithm == 6) {
        let calls = padding::q(v.padding, v.bits) + 2;
        for (m, tag) in wanted(&v) {
            assert_eq!(made(mastered(6, v.padding, m), &h(K), v.data, v.bits), (done(calls), tag));
        }
    }
    let (answer, tag) = made(mastered(4, 1, 64), &h(KK), DATA[0], 256);
    assert_eq!((answer, hex(&tag)), (done(6), "DD64873EEB7C9605".to_string()));
}

/// Made and checked in one call, every bit of the tag turned; in sessions, byte by byte and cut in two and in three at every place.
#[test]
fn tags_under_a_master() {
    for Case { agreement, keys, data, tag, calls } in cases() {
        let bits = 8 * data.len() as u64;
        assert_eq!(made(agreement, &keys, data, bits), (done(calls), tag.clone()));
        assert_eq!(check(agreement, &keys, data, bits, &tag), done(calls));
        for bit in 0..128 {
            assert_eq!(check(agreement, &keys, data, bits, &turned(&tag, bit)), no(calls));
        }
        let bytewise = vec![8; data.len()];
        assert_eq!(in_session(agreement, &keys, data, &bytewise), (done(calls), tag.clone()));
        assert_eq!(in_check(agreement, &keys, data, &bytewise, &tag), done(calls));
        for one in (0..=bits).step_by(8) {
            for two in (one..=bits).step_by(8) {
                let cuts = [one, two - one, bits - two];
                assert_eq!(in_session(agreement, &keys, data, &cuts), (done(calls), tag.clone()));
                assert_eq!(in_check(agreement, &keys, data, &cuts, &tag), done(calls));
                let wrong = turned(&tag, (one + two) as usize % 128);
                assert_eq!(in_check(agreement, &keys, data, &cuts, &wrong), no(calls));
            }
        }
    }
}

/// The derived keys given as K and K' make the tags of algorithms 2 and 6, with two calls less, and are refused as a master. Of
/// algorithm 4 no keys but the master's do: its K'' is no complement of K'.
#[test]
fn derived_keys_given() {
    for Case { agreement, keys, data, tag, calls } in cases() {
        let bits = 8 * data.len() as u64;
        let without = Agreement { master: false, ..agreement };
        if agreement.algorithm == 4 {
            let [k1, k2] = derived(&block(&KK[32..]));
            for second in [k1, k2, mac::alternate(&k2), block(&KK[32..])] {
                let (answer, other) = made(without, &[h(K), second.to_vec()].concat(), data, bits);
                assert_eq!(answer, done(calls - 2));
                assert_ne!(other, tag);
            }
            continue;
        }
        let both = derived(&block(K)).concat();
        assert_eq!(made(without, &both, data, bits), (done(calls - 2), tag));
        assert_eq!(made(agreement, &both, data, bits).0, number(4));
        assert_eq!(made(without, &keys, data, bits).0, number(4));
    }
}

/// A master with algorithm 1, 3, 5, 7 or 8 is 4 whatever the number of bytes; with 2 and 6 they are 16, with 4 they are 32.
#[test]
fn how_many_key_bytes() {
    let bytes = [h(KK), h(A7)].concat();
    let data = &[7; 17];
    for a in 1..=8 {
        let p = if mac::padding_fits(a, 4) { 4 } else { 2 };
        for count in 0..=bytes.len() {
            let keys = &bytes[..count];
            let fits = matches!((a, count), (2 | 6, 16) | (4, 32));
            let wanted = if fits { 0 } else { 4 };
            let agreement = mastered(a, p, 32);
            assert_eq!(made(agreement, keys, data, 136).0.number, wanted, "{a} {count}");
            assert_eq!(check(agreement, keys, data, 136, &[0; 4]).number, wanted);
            assert_eq!(start(agreement, keys, 0).1.number, wanted);
            assert_eq!(start_check(agreement, keys, 0, &[0; 4]).1.number, wanted);
            let says = Says { year: 2026, month: 11, day: 4, lot: b"A7".to_vec(), amount: 500 };
            assert_eq!(write(agreement, keys, &says, &mut [0; 75]).number, wanted);
            let full = mastered(a, p, 128);
            let restored = restored(full, keys, data, 136, 0, &[0; 16]).0;
            assert_eq!(restored, if a == 7 { 3 } else { wanted });
        }
    }
}

/// Each row shows the earlier of two faults, in one call and at a session's start.
#[test]
fn order_of_refusals_under_a_master() {
    let master = block(&KK[32..]);
    let [first, second] = derived(&master).map(|key| [key, master].concat());
    let (kk, k) = (h(KK), h(K));
    let long = |keys: &[u8]| [keys, &[0]].concat();
    let rows: [(u64, u64, u64, &[u8], u64); 20] = [
        (0, 2, 64, &k, 1),
        (9, 5, 64, &kk, 1),
        (3, 4, 64, &kk, 2),
        (5, 1, 64, &k, 2),
        (8, 3, 129, &[], 2),
        (1, 1, 129, &k, 3),
        (3, 1, 129, &kk, 3),
        (3, 1, 0, &[], 3),
        (7, 4, 64, &k, 3),
        (2, 1, 129, &kk, 3),
        (4, 1, 129, &long(&first), 3),
        (3, 1, 64, &k, 4),
        (3, 1, 64, &kk, 4),
        (3, 1, 64, &[], 4),
        (4, 1, 64, &long(&first), 4),
        (4, 1, 64, &long(&second), 4),
        (4, 1, 64, &first[..16], 4),
        (2, 1, 64, &[&k[..], &k].concat(), 4),
        (4, 1, 64, &first, 5),
        (4, 1, 64, &second, 5),
    ];
    for (i, (a, p, m, keys, wanted)) in rows.into_iter().enumerate() {
        let agreement = mastered(a, p, m);
        // and 7, 10 and, at the start, 8 as further faults
        assert_eq!(make(agreement, keys, &[0], 0, &mut []), number(wanted), "row {i}");
        assert_eq!(check(agreement, keys, &[0], 0, &[]), number(wanted), "row {i}");
        assert_eq!(start(agreement, keys, u64::MAX), (Record::default(), number(wanted)), "row {i}");
        assert_eq!(start_check(agreement, keys, u64::MAX, &[]).1, number(wanted), "row {i}");
    }
}

/// 5 compares the keys in use. In algorithm 4 K may be the master, or the complement of a derived key; under 2 and 6 any bytes are a
/// master.
#[test]
fn five_compares_the_keys_in_use() {
    let mut random = Random::new(13);
    for turn in 0..200 {
        let mut master = [turn as u8; 16];
        if turn > 3 {
            random.fill(&mut master);
        }
        let [first, second] = derived(&master);
        let four = |k: [u8; 16]| made(mastered(4, 2, 64), &[k, master].concat(), &[7; 17], 136).0;
        assert_eq!((four(first), four(second)), (number(5), number(5)));
        for key in [first, second] {
            for bit in 0..128 {
                assert_eq!(four(turned(&key, bit).try_into().unwrap()), done(6));
            }
            assert_eq!(four(mac::alternate(&key)), done(6));
        }
        assert_eq!((four(master), four(mac::alternate(&master))), (done(6), done(6)));
        // the given bytes without a master: K = K' and K = K''
        let two = |other: [u8; 16]| made(agreed(4, 2, 64), &[other, master].concat(), &[7; 17], 136).0;
        assert_eq!((two(master), two(mac::alternate(&master))), (number(5), number(5)));
        assert_eq!(made(mastered(2, 2, 64), &master, &[7; 17], 136).0, done(5));
        assert_eq!(made(mastered(6, 2, 64), &master, &[7; 17], 136).0, done(4));
    }
}

/// The record keeps the bytes as they were given and the mark; under 2 and 6 the last sixteen bytes are zero and are not read.
#[test]
fn records_under_a_master() {
    for Case { agreement, keys, data, tag, calls } in cases() {
        let bits = 8 * data.len() as u64;
        let fresh = start(agreement, &keys, bits).0;
        let mut kept = [0; 32];
        kept[..keys.len()].copy_from_slice(&keys);
        assert_eq!((fresh.agreement, fresh.keys), (agreement, kept));
        let finished = |record: Record| {
            let mut room = [0; 16];
            let (closed, answer) = finish(piece(record, data, bits).0, &mut room);
            assert_eq!(closed, Record::default());
            (answer, room.to_vec())
        };
        assert_eq!(finished(fresh), (done(calls), tag.clone()));
        if agreement.algorithm != 4 {
            for second in [[0xFF; 16], [1; 16], block(K), block(&A7[..32])] {
                let mut other = fresh;
                other.keys[16..].copy_from_slice(&second);
                assert_eq!(finished(other), (done(calls), tag.clone()));
            }
        }
        // without the mark it is open too, and ends with another tag and two calls less
        let unmarked = Record { agreement: Agreement { master: false, ..agreement }, ..fresh };
        assert!(unmarked.is_open());
        let mut room = [0; 16];
        let answer = finish(piece(unmarked, data, bits).0, &mut room).1;
        assert_eq!((answer, room[..] != tag[..]), (done(calls - 2), true));
    }
}

/// A record that a start would refuse counts as closed: a master with another algorithm, and K that is a derived key. A record that
/// is closed without the mark may be open with it.
#[test]
fn forged_records_under_a_master() {
    let open = piece(start(mastered(6, 2, 32), &h(K), 0).0, &[7; 17], 136).0;
    assert!(open.is_open());
    let with = |agreement: Agreement, k: [u8; 16], k1: [u8; 16]| {
        let mut record = Record { agreement, ..open };
        record.keys[..16].copy_from_slice(&k);
        record.keys[16..].copy_from_slice(&k1);
        record
    };
    let (k, k1) = (block(K), block(&KK[32..]));
    let [first, second] = derived(&k1);
    let mut bad = vec![];
    for a in [1, 3, 5, 7, 8] {
        let p = if mac::padding_fits(a, 4) { 4 } else { 2 };
        assert!(with(agreed(a, p, 32), k, k1).is_open());
        bad.extend([with(mastered(a, p, 32), k, k1), with(mastered(a, p, 32), k, [0; 16])]);
    }
    bad.extend([first, second].map(|key| with(mastered(4, 2, 32), key, k1)));
    bad.push(with(mastered(0, 2, 32), k, k1));
    bad.push(with(mastered(6, 4, 32), k, k1));
    bad.push(with(mastered(6, 2, 0), k, k1));
    for record in bad {
        for purpose in [MAKING, CHECKING] {
            let record = Record { purpose, ..record };
            assert!(!record.is_open());
            assert_eq!(piece(record, &[], 0), (record, number(11)));
            assert_eq!(finish(record, &mut [0; 16]), (record, number(11)));
            assert_eq!(finish_check(record), (record, number(11)));
        }
    }
    for a in [2, 4, 6] {
        assert!(!with(agreed(a, 2, 32), k, k).is_open());
        assert!(with(mastered(a, 2, 32), k, k).is_open());
    }
    assert!(!with(agreed(4, 2, 32), k, mac::alternate(&k)).is_open());
    assert!(with(mastered(4, 2, 32), k, mac::alternate(&k)).is_open());
}

/// A slip does not name the master: written under it, it is accepted under it, and without it where the keys are the derived ones;
/// else its seal is wrong. 25 does not look at the master, and comes before 4.
#[test]
fn slips_under_a_master() {
    let [first, second] = [K, &KK[32..]].map(|master| derived(&block(master)).concat());
    for (a, keys, derived) in [(2, K, first.clone()), (6, K, first), (4, KK, second)] {
        for p in 1..=3 {
            let own = mastered(a, p, 64);
            let without = agreed(a, p, 64);
            let (written, slip) = Print::p12(own, keys).run();
            let calls = written.calls;
            assert_eq!(written, Written { number: 0, length: 37, calls });
            let accepted = read(own, &h(keys), &slip);
            assert_eq!((accepted.number, accepted.amount, accepted.calls), (0, 500, calls));
            let shorter = read(without, &derived, &slip);
            if a == 4 {
                assert_eq!(shorter, refused(30));
                assert_eq!(read(without, &h(keys), &slip), refused(30));
            } else {
                assert_eq!(shorter, Slip { calls: calls - 2, ..accepted });
                assert_eq!(read(without, &h(KK), &slip), refused(30));
                assert_eq!(read(without, &h(keys), &slip), refused(4));
            }

            // the other way round: sealed without a master
            let (written, plain) = Print::p12(without, KK).run();
            assert_eq!((written.number, written.calls), (0, calls - 2));
            assert_eq!(read(without, &h(KK), &plain).number, 0);
            assert_eq!(read(own, &h(keys), &plain), refused(30));
            for other in off_by(1, own).map(|agreement| Agreement { master: true, ..agreement }) {
                assert_eq!(read(other, &h(keys), &slip), refused(25));
                assert_eq!(read(other, &[], &slip), refused(25));
            }
            let [alone, with_rest] = firsts(own, &h(keys), &slip);
            assert_eq!([alone, with_rest], [[(0, 1), (20, 37)].into(), [(0, 38)].into()]);
        }
    }
    for (agreement, seal) in R6.iter().map(|(agreement, _, seal)| (*agreement, seal)) {
        let under = Agreement { master: true, ..agreement };
        let wanted = if agreement.algorithm == 2 { 30 } else { 4 };
        assert_eq!(read(under, &h(K), &p12(seal)), refused(wanted));
    }
    assert_eq!(read(mastered(8, 4, 64), &h(K), &p12(SEAL)), refused(25));
}

/// Every whole block comes back out of the tag under a master; 41 comes last, and 3 before 4.
#[test]
fn blocks_restored_under_a_master() {
    for Case { agreement, keys, data, tag, .. } in cases() {
        let bits = 8 * data.len() as u64;
        for block in 0..bits / 128 {
            for bytes in [[0; 16], [0xFF; 16], [0x2E; 16]] {
                let wet = with_block(data, block, bytes);
                assert_eq!(restored(agreement, &keys, &wet, bits, block, &tag), (0, data.to_vec()));
            }
        }
        let next = bits / 128;
        assert_eq!(restored(agreement, &keys, data, bits, next, &tag), (41, data.to_vec()));
        let short = Agreement { m: 64, ..agreement };
        assert_eq!(restored(short, &[], data, bits, next, &tag), (3, data.to_vec()));
        assert_eq!(restored(agreement, &[], data, bits, next, &tag), (4, data.to_vec()));
    }
    let keys = [derived(&block(K))[1], block(K)].concat();
    assert_eq!(restored(mastered(4, 1, 128), &keys, DATA[0], 256, 2, &[0; 15]).0, 5);
}

/// Settings that may have a master, as `commands` draws them: each gets its answer, and a session agrees with one call.
#[test]
fn drawn_settings_with_a_master() {
    let mut random = Random::new(14);
    let mut answers = std::collections::BTreeMap::new();
    for _ in 0..20_000 {
        let s = Settings::draw_master(&mut random);
        let (bits, bytes) = message(&mut random);
        let message = &bytes[..padding::bytes_for(bits) as usize];
        let (answer, tag) = made(s.agreement, s.keys(), message, bits);
        *answers.entry((s.agreement.master, answer.number)).or_insert(0) += 1;
        if answer.number == 0 {
            let cut = 8 * random.below(bits / 8 + 1);
            assert_eq!(in_session(s.agreement, s.keys(), message, &[cut, bits - cut]), (answer, tag.clone()));
            assert_eq!(in_check(s.agreement, s.keys(), message, &[cut, bits - cut], &tag), answer);
            let q = padding::q(s.agreement.padding, bits);
            assert_eq!(answer.calls, for_keys(s.agreement) + q + extra(s.agreement.algorithm));
        }
    }
    for master in [false, true] {
        for number in [0, 1, 2, 3, 4, 5, 9] {
            assert!(answers.get(&(master, number)) > Some(&50), "{master} {number}: {answers:?}");
        }
    }
}
