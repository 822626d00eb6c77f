//! Sessions that check a tag: they answer as `check` in one call, and go no other way than a session that makes the tag.

use super::*;
use crate::session::start_check;

/// The bytes, and zeros after them.
fn filled(tag: &[u8]) -> [u8; 16] {
    std::array::from_fn(|i| tag.get(i).copied().unwrap_or(0))
}

/// The same record in a session that makes a tag.
fn making(record: Record) -> Record {
    Record { purpose: MAKING, expected: [0; 16], ..record }
}

/// A session that checks this tag, cut into pieces of these many bits. Each record must expect the tag as it was given and be in
/// all else that of a session that makes a tag; the count must be that of real calls, and the record at the end closed and zero.
pub(super) fn in_check(
    agreement: Agreement,
    keys: &[u8],
    message: &[u8],
    cuts: &[u64],
    tag: &[u8],
) -> Answer {
    let declared = cuts.iter().sum();
    let mut plain = start(agreement, keys, declared).0;
    let before = real_calls();
    let (mut record, answer) = start_check(agreement, keys, declared, tag);
    let mut real = real_calls() - before;
    assert_eq!(answer, number(0));
    let mut at = 0;
    for cut in cuts {
        assert_eq!((record.purpose, record.expected, making(record)), (CHECKING, filled(tag), plain));
        let bytes = &message[at / 8..at / 8 + padding::bytes_for(*cut) as usize];
        let before = real_calls();
        let (next, answer) = piece(record, bytes, *cut);
        real += real_calls() - before;
        assert_eq!(answer, number(0));
        (record, plain) = (next, piece(plain, bytes, *cut).0);
        at += *cut as usize;
    }
    assert_eq!((record.purpose, record.expected, making(record)), (CHECKING, filled(tag), plain));
    let before = real_calls();
    let (closed, answer) = finish_check(record);
    real += real_calls() - before;
    assert_eq!((closed, for_keys(agreement) + real), (Record::default(), answer.calls));
    answer
}

/// The tag's own answer, and each tag with one bit turned, spare bits too: yes and no with the calls of one call.
#[test]
fn annex_a_tags_checked_byte_by_byte() {
    for v in annex_a() {
        for (m, tag) in wanted(&v) {
            let agreement = agreed(v.algorithm, v.padding, m);
            let bytewise = vec![8; v.data.len()];
            let whole = check(agreement, &v.keys, v.data, v.bits, &tag);
            assert_eq!((whole.number, whole.yes), (0, 1));
            assert_eq!(in_check(agreement, &v.keys, v.data, &bytewise, &tag), whole);
            for bit in 0..8 * tag.len() {
                let answer = in_check(agreement, &v.keys, v.data, &bytewise, &turned(&tag, bit));
                assert_eq!(answer, no(whole.calls), "bit {bit}");
            }
            for cut in (0..=v.bits).step_by(8) {
                assert_eq!(in_check(agreement, &v.keys, v.data, &[cut, v.bits - cut], &tag), whole);
            }
            for bit in 0..v.bits as usize {
                let answer = in_check(agreement, &v.keys, &turned(v.data, bit), &[v.bits], &tag);
                assert_eq!(answer, no(whole.calls), "message bit {bit}");
            }
        }
    }
}

/// A finish of the other purpose gets 11 and leaves the record, before the first byte and after each; both sessions then still end
/// as they should.
#[test]
fn the_other_finish() {
    for v in annex_a() {
        let (m, tag) = wanted(&v).remove(0);
        let agreement = agreed(v.algorithm, v.padding, m);
        let calls = check(agreement, &v.keys, v.data, v.bits, &tag).calls;
        let mut maker = start(agreement, &v.keys, v.bits).0;
        let mut right = start_check(agreement, &v.keys, v.bits, &tag).0;
        let mut wrong = start_check(agreement, &v.keys, v.bits, &turned(&tag, 0)).0;
        for byte in std::iter::once(&[][..]).chain(v.data.chunks(1)) {
            let bits = 8 * byte.len() as u64;
            [maker, right, wrong] = [maker, right, wrong].map(|record| piece(record, byte, bits).0);
            assert_eq!(finish_check(maker), (maker, number(11)));
            for checker in [right, wrong] {
                for size in [0, tag.len() - 1, tag.len(), 16] {
                    let mut room = [0x5A; 16];
                    assert_eq!(finish(checker, &mut room[..size]), (checker, number(11)));
                    assert_eq!(room, [0x5A; 16]);
                }
            }
        }
        let mut room = [0x5A; 16];
        assert_eq!(finish(maker, &mut room), (Record::default(), done(calls)));
        assert_eq!(room[..tag.len()], tag);
        assert_eq!(finish_check(right), (Record::default(), done(calls)));
        assert_eq!(finish_check(wrong), (Record::default(), no(calls)));
    }
}

/// 1 to 5, then 8, then 10: the earlier of two faults answers, and a refused start hands back zeros.
#[test]
fn order_of_refusals_at_the_start() {
    let (kk, same) = (h(KK), [h(K), h(K)].concat());
    let twisted = [h(K), mac::alternate(&block(K)).to_vec()].concat();
    let rows: [(Agreement, &[u8], u64, usize, u64); 17] = [
        (agreed(9, 5, 64), &kk[..16], 0, 8, 1),
        (agreed(0, 3, 64), &kk[..16], u64::MAX, 7, 1),
        (agreed(1, 4, 0), &kk[..16], 0, 0, 2),
        (agreed(5, 3, 64), &kk[..16], LIMIT + 1, 9, 2),
        (agreed(1, 3, 129), &kk[..15], LIMIT + 1, 17, 3),
        (agreed(7, 4, 64), &kk[..16], 0, 7, 3),
        (agreed(2, 3, 64), &[&same[..], &[0]].concat(), LIMIT + 1, 7, 4),
        (agreed(1, 1, 64), &kk, 0, 9, 4),
        (agreed(2, 3, 64), &same, LIMIT + 1, 7, 5),
        (agreed(4, 3, 64), &twisted, 0, 9, 5),
        (agreed(6, 1, 64), &same, 0, 0, 5),
        (agreed(1, 3, 64), &kk[..16], LIMIT + 1, 7, 8),
        (agreed(4, 3, 1), &kk, u64::MAX, 0, 8),
        (agreed(1, 3, 64), &kk[..16], LIMIT, 7, 10),
        (agreed(1, 1, 64), &kk[..16], LIMIT + 1, 9, 10),
        (agreed(1, 3, 64), &kk[..16], LIMIT, 8, 0),
        (agreed(1, 1, 64), &kk[..16], u64::MAX, 8, 0),
    ];
    for (i, (agreement, keys, declared, size, wanted)) in rows.into_iter().enumerate() {
        let (record, answer) = start_check(agreement, keys, declared, &[0xFF; 17][..size]);
        assert_eq!(answer, number(wanted), "row {i}");
        assert_eq!(record == Record::default(), wanted != 0, "row {i}");
    }
    for m in 1..=128 {
        for size in 0..=40 {
            let (record, answer) = start_check(agreed(1, 1, m), &h(K), 0, &[0xFF; 40][..size]);
            let fits = size as u64 == m.div_ceil(8);
            assert_eq!((answer, record.is_open()), (number(if fits { 0 } else { 10 }), fits), "{m} {size}");
        }
    }
}

/// 11 before 12 and 9, and no 10 at all: the length was judged at the start.
#[test]
fn order_of_refusals_at_the_end() {
    let fresh = start_check(agreed(1, 3, 64), &h(K), 16, &[0; 8]).0;
    assert_eq!(finish_check(fresh), (fresh, number(12)));
    for record in [
        Record { phase: 0, ..fresh },
        Record { purpose: 2, ..fresh },
        Record { purpose: MAKING, ..fresh },
        Record { total: 24, ..fresh },
    ] {
        assert_eq!(finish_check(record), (record, number(11)));
    }
    assert_eq!(finish(fresh, &mut []), (fresh, number(11))); // before 12 and 10
    let four = start_check(agreed(4, 1, 64), &h(KK), 0, &[0; 8]).0;
    assert_eq!(finish_check(four), (four, number(9)));
    assert_eq!(finish_check(making(four)), (making(four), number(11)));
    assert_eq!(finish(four, &mut []), (four, number(11))); // before 9 and 10
}

/// 9, then one bit more, and the session goes on to yes.
#[test]
fn too_few_blocks_and_then_enough() {
    let tag = made(agreed(4, 1, 64), &h(KK), &[3; 17], 129).1;
    let open = piece(start_check(agreed(4, 1, 64), &h(KK), 0, &tag).0, &[3; 16], 128).0;
    assert_eq!(finish_check(open), (open, number(9)));
    let (open, answer) = piece(open, &[3], 1);
    assert_eq!((answer, open.phase, open.part), (number(0), 2, 1));
    assert_eq!(finish_check(open), (Record::default(), done(4)));
}

/// For every m: a set spare bit is kept and makes the tag wrong, and what lies past ⌈m/8⌉ in a record is not looked at.
#[test]
fn spare_bits_and_bytes_past_the_tag() {
    let data = DATA[1];
    for (algorithm, padding, m) in (1..=128).map(|m| (1, 2, m)).chain((1..=63).map(|m| (7, 4, m))) {
        let agreement = agreed(algorithm, padding, m);
        let (answer, tag) = made(agreement, &h(K), data, 200);
        assert_eq!(in_check(agreement, &h(K), data, &[200], &tag), answer);
        for bit in m as usize..8 * tag.len() {
            let spare = turned(&tag, bit);
            assert_eq!(in_check(agreement, &h(K), data, &[80, 120], &spare), no(answer.calls), "{m} {bit}");
        }
        let open = piece(start_check(agreement, &h(K), 0, &tag).0, data, 200).0;
        for byte in tag.len()..16 {
            for rubbish in [1, 0x80, 0xFF] {
                let mut record = open;
                record.expected[byte] = rubbish;
                assert_eq!(piece(record, &[], 0), (record, number(0)));
                assert_eq!(finish_check(record), (Record::default(), answer), "{m} {byte}");
                record.expected[tag.len() - 1] ^= 0x80;
                assert_eq!(finish_check(record), (Record::default(), no(answer.calls)), "{m} {byte}");
                // and where a tag is made, nothing of it is looked at
                let mut room = [0x5A; 16];
                let closed = finish(Record { purpose: MAKING, ..record }, &mut room);
                assert_eq!(closed, (Record::default(), answer));
                assert_eq!(room[..tag.len()], tag);
            }
        }
    }
}

/// After yes and after no alike the record is closed and zero, and every call on it gets 11.
#[test]
fn yes_and_no_close() {
    let tag = made(agreed(1, 1, 64), &h(K), b"abc", 24).1;
    for (tag, answer) in [(tag.clone(), done(1)), (turned(&tag, 63), no(1)), (vec![0; 8], no(1))] {
        let open = piece(start_check(agreed(1, 1, 64), &h(K), 0, &tag).0, b"abc", 24).0;
        let closed = finish_check(open);
        assert_eq!(closed, (Record::default(), answer));
        let zero = closed.0;
        assert_eq!((zero.phase, zero.purpose, zero.expected), (0, MAKING, [0; 16]));
        for refused in [piece(zero, &[], 0), finish(zero, &mut [0; 8]), finish_check(zero)] {
            assert_eq!(refused, (zero, number(11)));
        }
    }
}

/// A record turned to the other purpose ends as that purpose has it: nothing else tells the two apart.
#[test]
fn records_turned_to_the_other_purpose() {
    for v in annex_a() {
        let (m, tag) = wanted(&v).remove(0);
        let agreement = agreed(v.algorithm, v.padding, m);
        let (one, two) = v.data.split_at(13);
        let maker = piece(start(agreement, &v.keys, v.bits).0, one, 104).0;
        let checker = piece(start_check(agreement, &v.keys, v.bits, &turned(&tag, 1)).0, one, 104).0;
        assert_eq!(making(checker), maker);
        let expected = filled(&tag);
        let [to_check, to_make] =
            [Record { purpose: CHECKING, expected, ..maker }, Record { purpose: MAKING, ..checker }]
                .map(|record| piece(record, two, v.bits - 104).0);
        let mut room = [0; 16];
        let made = finish(to_make, &mut room);
        assert_eq!((made.1.yes, &room[..tag.len()]), (1, &tag[..]));
        assert_eq!(finish_check(to_check), made);
        assert_eq!(finish(to_check, &mut room), (to_check, number(11)));
        assert_eq!(finish_check(to_make), (to_make, number(11)));
    }
}

/// Calls that must be refused here, each with the very record: pieces of 7, 8, 11 and 12, the finish of the other purpose, and the
/// session's own finish where it comes too early.
fn refused_calls(record: Record) -> u64 {
    let left = LIMIT - record.total;
    let over = vec![0; padding::bytes_for(left + 1) as usize];
    let whole = if record.phase == 2 { 11 } else { 8 };
    assert_eq!(piece(record, &over, left + 1), (record, number(whole)));
    assert_eq!(piece(record, &[0], 0), (record, number(7)));
    assert_eq!(piece(record, &[], 9), (record, number(if record.phase == 2 { 11 } else { 7 })));
    assert_eq!(finish(record, &mut [0; 16]), (record, number(11)));
    let Agreement { algorithm, padding, .. } = record.agreement;
    if padding == 3 && record.phase == 1 {
        let more = record.declared - record.total + 1;
        let bytes = vec![0; padding::bytes_for(more) as usize];
        assert_eq!(piece(record, &bytes, more), (record, number(12)));
    }
    let early = match record.total {
        total if padding == 3 && total < record.declared => 12,
        total if algorithm == 4 && padding::q(padding, total) < 2 => 9,
        _ => return 0,
    };
    assert_eq!(finish_check(record), (record, number(early)));
    early
}

/// Any cut at byte edges, with refused calls in between: yes, no and the count are those of `check` over the joined bits.
#[test]
fn random_checks_agree_with_one_call() {
    let mut random = Random::new(8);
    let (mut answers, mut early) = ([0; 2], [0; 13]);
    while answers[0] < 1000 || answers[1] < 1000 {
        let s = Settings::draw(&mut random);
        let (bits, bytes) = message(&mut random);
        let message = &bytes[..padding::bytes_for(bits) as usize];
        let (answer, mut tag) = made(s.agreement, s.keys(), message, bits);
        if answer.number != 0 {
            continue;
        }
        if random.below(2) == 0 {
            tag = turned(&tag, random.below(8 * tag.len() as u64) as usize);
        }
        let before = sm4::tests::CALLS.get();
        let mut record = start_check(s.agreement, s.keys(), bits, &tag).0;
        let mut real = sm4::tests::CALLS.get() - before;
        let mut at = 0;
        while at < bits {
            early[refused_calls(record) as usize] += 1;
            let left = bits - at;
            let cut = if random.below(4) == 0 { left } else { 8 * random.below(left / 8 + 1) };
            let from = at as usize / 8;
            let part = &message[from..from + padding::bytes_for(cut) as usize];
            let before = sm4::tests::CALLS.get();
            record = piece(record, part, cut).0;
            real += sm4::tests::CALLS.get() - before;
            at += cut;
            assert_eq!(record.total, at);
        }
        early[refused_calls(record) as usize] += 1;
        let before = sm4::tests::CALLS.get();
        let (closed, answer) = finish_check(record);
        real += sm4::tests::CALLS.get() - before;
        assert_eq!((closed, real), (Record::default(), answer.calls));
        assert_eq!(answer, check(s.agreement, s.keys(), message, bits, &tag));
        answers[answer.yes as usize] += 1;
    }
    assert!(early[12] > 100 && early[9] > 100, "{early:?}");
}
