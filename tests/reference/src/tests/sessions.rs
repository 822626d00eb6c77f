//! Sessions that make a tag: any cut gives the tag of one call; the order of refusals; forged records of both purposes.

use super::*;

#[test]
fn annex_a_tags_in_sessions() {
    for v in annex_a() {
        for (m, tag) in wanted(&v) {
            let agreement = agreed(v.algorithm, v.padding, m);
            let one_call = made(agreement, &v.keys, v.data, v.bits);
            assert_eq!(one_call.1, tag);
            assert_eq!(in_session(agreement, &v.keys, v.data, &vec![8; v.data.len()]), one_call);
            for cut in 0..=v.bits {
                if cut % 8 == 0 {
                    assert_eq!(in_session(agreement, &v.keys, v.data, &[cut, v.bits - cut]), one_call);
                    continue;
                }
                // after a part byte no more bits are taken
                let open = start(agreement, &v.keys, v.bits).0;
                let open = piece(open, &v.data[..cut as usize / 8 + 1], cut).0;
                assert_eq!((open.phase, open.part), (2, cut % 8));
                assert_eq!(piece(open, &v.data[..1], 8), (open, number(11)));
            }
        }
    }
}

/// Excluded by the rules themselves: finish 12 with 9 (padding 3 has q >= 2).
#[test]
fn order_of_refusals_in_sessions() {
    let fresh = start(agreed(1, 3, 64), &h(K), 16).0;
    let part = piece(start(agreed(1, 1, 64), &h(K), 0).0, &[0xFF], 3).0;
    assert_eq!((part.phase, part.part, part.held[0]), (2, 3, 0xE0));
    assert_eq!(piece(part, &[], 1), (part, number(11))); // before 7
    assert_eq!(piece(part, &[], 0), (part, number(0)));
    assert_eq!(piece(part, &[0], 0), (part, number(7)));
    assert_eq!(piece(Record::default(), &[0], 0), (Record::default(), number(11)));
    assert_eq!(piece(fresh, &[], u64::MAX), (fresh, number(7))); // before 8
    let late = Record { declared: LIMIT, total: LIMIT - 8, ..fresh };
    assert_eq!(piece(late, &[0, 0], 9), (late, number(8))); // before 12
    assert_eq!(piece(fresh, &[0, 0, 0], 17), (fresh, number(12)));
    assert_eq!(finish(Record { total: 24, ..fresh }, &mut []).1, number(11)); // before 12
    assert_eq!(finish(fresh, &mut []), (fresh, number(12))); // before 10
    let four = start(agreed(4, 2, 64), &h(KK), 0).0;
    assert_eq!(finish(four, &mut []), (four, number(9))); // before 10
    let full = piece(fresh, &[1, 2], 16).0;
    assert_eq!(finish(full, &mut [0; 7]), (full, number(10)));
    let (closed, answer) = finish(full, &mut [0; 8]);
    assert_eq!((closed, answer), (Record::default(), done(2)));
    assert_eq!(finish(closed, &mut []), (closed, number(11)));
    let none = start(agreed(1, 3, 128), &h(K), 0).0; // declared 0
    assert_eq!(piece(none, &[0], 1), (none, number(12)));
    assert_eq!(finish(none, &mut [0; 16]).1, done(2));
}

#[test]
fn forged_records() {
    let open = piece(start(agreed(1, 1, 64), &h(K), 0).0, &[0xE0, 0], 16).0;
    let part = piece(start(agreed(1, 1, 64), &h(K), 0).0, &[0xE0], 3).0;
    let declared = piece(start(agreed(1, 3, 64), &h(K), 40).0, &[0], 8).0;
    let two = piece(start(agreed(2, 1, 64), &h(KK), 0).0, &[0; 17], 136).0;
    let four = Record { agreement: agreed(4, 1, 64), ..two };
    let mut same_keys = two;
    same_keys.keys.copy_within(..16, 16);
    let mut twisted = four;
    twisted.keys[16..].copy_from_slice(&mac::alternate(&block(K)));
    let free = Record { chain: [1; 16], declared: u64::MAX, ..open };
    let mut second = free;
    second.keys[16..].copy_from_slice(&[9; 16]);
    let held = |byte, record: Record| Record { held: [byte; 16], ..record };
    let good =
        [open, part, declared, two, four, free, second, Record { agreement: agreed(2, 1, 64), ..twisted }];
    let edges = [Record { total: 128, ..held(0xFF, open) }, Record { total: LIMIT, ..held(0xFF, open) }];
    let aims = [(MAKING, [0; 16]), (MAKING, [0xA5; 16]), (CHECKING, [0; 16]), (CHECKING, [0xFF; 16])];
    let aimed = |record: Record| aims.map(|(purpose, expected)| Record { purpose, expected, ..record });
    for record in good.into_iter().chain(edges).flat_map(aimed) {
        assert!(record.is_open());
        assert_eq!(piece(record, &[], 0), (record, number(0)));
    }
    let bad = [
        Record { phase: 0, ..open },
        Record { phase: 3, ..open },
        Record { phase: u64::MAX, ..open },
        Record { part: 1, ..open },
        Record { part: 8, ..open },
        Record { phase: 2, ..open },
        Record { phase: 2, part: 8, ..open },
        Record { phase: 1, ..part },
        Record { phase: 1, part: 0, ..part },
        Record { part: 0, ..part },
        Record { part: 4, ..part },
        Record { part: 11, ..part },
        Record { total: 11, part: 11, ..part },
        Record { agreement: agreed(0, 1, 64), ..open },
        Record { agreement: agreed(9, 1, 64), ..open },
        Record { agreement: agreed(1, 0, 64), ..open },
        Record { agreement: agreed(1, 4, 64), ..open },
        Record { agreement: agreed(1, 1, 0), ..open },
        Record { agreement: agreed(1, 1, 129), ..open },
        Record { agreement: agreed(7, 4, 64), ..open },
        same_keys,
        Record { agreement: agreed(4, 1, 64), ..same_keys },
        Record { agreement: agreed(6, 1, 64), ..same_keys },
        twisted,
        Record { total: LIMIT + 8, ..held(0, open) },
        Record { total: u64::MAX - 7, ..held(0, open) },
        Record { declared: LIMIT + 1, ..declared },
        Record { declared: 7, ..declared },
        Record { total: 48, ..declared },
        Record { total: 0, ..open },
        Record { held: [0, 0, 1, 0, 0, 0, 0, 0, 0, 0, 0, 0, 0, 0, 0, 0], ..open },
        Record { held: block("F0000000000000000000000000000000"), ..part },
        Record { total: 120, ..held(0xFF, open) },
        Record { total: 136, ..held(0xFF, open) },
    ];
    let far = [2, 3, 255, 256, 257, 1 << 32, (1 << 32) + 1, 1 << 63, u64::MAX];
    let odd = far.into_iter().flat_map(|purpose| good.map(|record| Record { purpose, ..record }));
    for (i, record) in bad.into_iter().flat_map(aimed).chain(odd).enumerate() {
        let mut tag = [0x5A; 16];
        assert!(!record.is_open(), "record {i}");
        assert_eq!(piece(record, &[], 0), (record, number(11)));
        assert_eq!(finish(record, &mut tag), (record, number(11)));
        assert_eq!(finish_check(record), (record, number(11)));
        assert_eq!(tag, [0x5A; 16]);
    }
    // each single bit of the waiting block, held or past the bits it holds
    for total in 0..=272 {
        let held_bits = if total == 0 { 0 } else { (total - 1) % 128 + 1 };
        let (phase, part) = (if total % 8 == 0 { 1 } else { 2 }, total % 8);
        for bit in 0..128 {
            let record = Record { phase, part, total, held: (1u128 << (127 - bit)).to_be_bytes(), ..open };
            assert_eq!(record.is_open(), bit < held_bits, "{total} {bit}");
        }
    }
    // the chain value is free, and the finish works from it; algorithm 4's first block is xored with it
    let chained = Record { total: 8, chain: [1; 16], held: [0; 16], ..open };
    let mut tag = [0; 16];
    assert_eq!(finish(Record { agreement: agreed(1, 1, 128), ..chained }, &mut tag).1, done(1));
    assert_eq!(tag, sm4::encrypt(&sm4::round_keys(&block(K)), &[1; 16]));
    let zero_chain =
        Record { agreement: agreed(4, 2, 128), total: 128, held: [6; 16], chain: [0; 16], ..four };
    let other = Record { held: [0; 16], chain: [6; 16], ..zero_chain };
    let mut second_tag = [0; 16];
    assert_eq!(finish(zero_chain, &mut tag).1, finish(other, &mut second_tag).1);
    assert_eq!(tag, second_tag);
}

/// Any cut at byte edges, with empty pieces between, gives the one call's tag and count.
#[test]
fn random_sessions_agree_with_one_call() {
    let mut random = Random::new(3);
    let mut agreed = 0;
    while agreed < 3000 {
        let s = Settings::draw(&mut random);
        let (bits, bytes) = message(&mut random);
        let message = &bytes[..padding::bytes_for(bits) as usize];
        let one_call = made(s.agreement, s.keys(), message, bits);
        if one_call.0.number != 0 {
            continue;
        }
        let (mut cuts, mut left) = (vec![], bits);
        while left >= 8 && random.below(6) > 0 {
            cuts.push(8 * random.below(left / 8 + 1));
            left -= cuts[cuts.len() - 1];
        }
        cuts.extend([left, 0]);
        if left % 8 != 0 {
            cuts.pop(); // `in_session` would look for the empty piece's bytes past a part byte
        }
        assert_eq!(in_session(s.agreement, s.keys(), message, &cuts), one_call);
        agreed += 1;
    }
}
