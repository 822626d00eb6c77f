//! A lost block worked out: the message comes back whatever stood in the block, and the tag fits no other filling.

use super::*;
use crate::cases::BLOCKS;
use crate::restore;

/// The algorithms that can have a full tag, each with each of its paddings, and keys.
fn pairs() -> Vec<(u64, u64, Vec<u8>)> {
    let all = (1..=8).filter(|a| mac::m_limit(*a) == 128).flat_map(|a| (1..=4).map(move |p| (a, p)));
    let fitting = all.filter(|(a, p)| mac::padding_fits(*a, *p));
    fitting.map(|(a, p)| (a, p, h(if mac::two_keys(a) { KK } else { K }))).collect()
}

/// The message with these bytes in one block.
pub(super) fn with_block(message: &[u8], block: u64, bytes: [u8; 16]) -> Vec<u8> {
    let mut other = message.to_vec();
    other[16 * block as usize..][..16].copy_from_slice(&bytes);
    other
}

fn drawn(random: &mut Random) -> [u8; 16] {
    let mut bytes = [0; 16];
    random.fill(&mut bytes);
    bytes
}

/// What restoring answers, and the message that it leaves.
pub(super) fn restored(
    agreement: Agreement,
    keys: &[u8],
    message: &[u8],
    bits: u64,
    block: u64,
    tag: &[u8],
) -> (u64, Vec<u8>) {
    let mut left = message.to_vec();
    let number = restore(agreement, keys, &mut left, bits, block, tag);
    (number, left)
}

/// Every whole block of annex A's data, out of the printed G; algorithm 7 has no full tag.
#[test]
fn annex_a_blocks_restored() {
    for v in annex_a() {
        let whole = v.bits / 128;
        for block in 0..whole {
            for bytes in [[0; 16], [0xFF; 16], block_of(v.data, block), block_of(v.data, 0), [0x5A; 16]] {
                let wet = with_block(v.data, block, bytes);
                if v.algorithm == 7 {
                    for m in [0, 1, 63, 64, 127, 128, 129] {
                        let agreement = agreed(7, 4, m);
                        let refused = restored(agreement, &v.keys, &wet, v.bits, block, &v.g);
                        assert_eq!(refused, (3, wet.clone()));
                    }
                    continue;
                }
                let agreement = agreed(v.algorithm, v.padding, 128);
                let found = restored(agreement, &v.keys, &wet, v.bits, block, &v.g);
                assert_eq!(found, (0, v.data.to_vec()));
                assert_eq!(check(agreement, &v.keys, &found.1, v.bits, &v.g).yes, 1);
            }
        }
        let number = if v.algorithm == 7 { 3 } else { 41 };
        let agreement = agreed(v.algorithm, v.padding, 128);
        for block in BLOCKS.into_iter().chain([whole, whole + 1]) {
            let refused = restored(agreement, &v.keys, v.data, v.bits, block, &v.g);
            assert_eq!(refused, (number, v.data.to_vec()));
        }
    }
}

fn block_of(message: &[u8], block: u64) -> [u8; 16] {
    std::array::from_fn(|i| message[16 * block as usize + i])
}

/// Data 1 of A.1 with padding 1, as the requirements have it: blocks 0 and 1 come back, 2 is none; of 200 bits 1 is none.
#[test]
fn the_wet_label() {
    let (data, g) = (DATA[0], h("16E02904EFB765B706459C9EDABDB519"));
    for block in 0..2 {
        let wet = with_block(data, block, [0x2E; 16]);
        assert_eq!(restored(agreed(1, 1, 128), &h(K), &wet, 256, block, &g), (0, data.to_vec()));
    }
    assert_eq!(restored(agreed(1, 1, 128), &h(K), data, 256, 2, &g), (41, data.to_vec()));
    assert_eq!(restored(agreed(1, 1, 128), &h(K), &data[..25], 200, 1, &g), (41, data[..25].to_vec()));
}

/// Every length to over four blocks, under every algorithm and padding, spare bits set or not: each whole block comes back, and no
/// other block is one, L not counted, nor the last where it is cut by a bit.
#[test]
fn made_and_restored() {
    let mut random = Random::new(9);
    for (a, p, keys) in pairs() {
        let agreement = agreed(a, p, 128);
        for bits in 0..=530 {
            let mut message = vec![0; padding::bytes_for(bits) as usize];
            random.fill(&mut message);
            let (answer, tag) = made(agreement, &keys, &message, bits);
            if answer.number != 0 {
                assert_eq!((answer.number, a, padding::q(p, bits)), (9, 4, 1));
                assert_eq!(restored(agreement, &keys, &message, bits, 0, &[0; 16]), (9, message));
                continue;
            }
            for block in 0..bits / 128 {
                let wet = with_block(&message, block, drawn(&mut random));
                assert_eq!(restored(agreement, &keys, &wet, bits, block, &tag), (0, message.clone()));
            }
            for block in [bits / 128, bits.div_ceil(128), bits / 128 + 1] {
                if 128 * block + 128 > bits {
                    let refused = restored(agreement, &keys, &message, bits, block, &tag);
                    assert_eq!(refused, (41, message.clone()), "{a} {p} {bits} {block}");
                }
            }
        }
    }
}

/// Under any tag there is a filling, and no other near it: with each bit of it turned the check says no, and of all values of one
/// byte it says yes to that byte's own.
#[test]
fn any_tag_fits_one_filling() {
    let mut random = Random::new(10);
    for (a, p, keys) in pairs() {
        let agreement = agreed(a, p, 128);
        for bits in [129, 200, 255, 256, 257, 384, 500] {
            let mut message = vec![0; padding::bytes_for(bits) as usize];
            random.fill(&mut message);
            let block = random.below(bits / 128);
            let tag = drawn(&mut random);
            let (number, found) = restored(agreement, &keys, &message, bits, block, &tag);
            let own = block_of(&found, block);
            assert_eq!((number, found.clone()), (0, with_block(&message, block, own)));
            let says = |bytes| check(agreement, &keys, &with_block(&message, block, bytes), bits, &tag);
            let calls = says(own).calls;
            assert_eq!(says(own), done(calls));
            for bit in 0..128 {
                let bytes = turned(&own, bit).try_into().unwrap();
                assert_eq!(says(bytes), no(calls), "{a} {p} {bits} {block} {bit}");
                // what stood there has no influence
                let wet = with_block(&message, block, bytes);
                assert_eq!(restored(agreement, &keys, &wet, bits, block, &tag), (0, found.clone()));
            }
            let at = random.below(16) as usize;
            let fits = (0..=255).filter(|value| {
                let mut bytes = own;
                bytes[at] = *value;
                says(bytes).yes == 1
            });
            assert_eq!(fits.collect::<Vec<u8>>(), [own[at]]);
        }
    }
}

/// Each row shows the earlier of two or more faults; 41 comes after all others. The last rows have none but that.
#[test]
fn order_of_refusals_when_restoring() {
    let (kk, same) = (h(KK), [h(K), h(K)].concat());
    let twisted = [h(K), mac::alternate(&block(K)).to_vec()].concat();
    let long = vec![0; LIMIT as usize / 8 + 2];
    type Row<'a> = (u64, u64, u64, &'a [u8], &'a [u8], u64, u64, usize, u64);
    let rows: [Row; 38] = [
        (0, 9, 128, &kk, &[], 0, 0, 16, 1),
        (9, 1, 128, &kk, &[0; 16], 128, 1, 16, 1),
        (257, 1, 64, &kk[..16], &[0; 16], 128, 0, 16, 1),
        (1, 4, 0, &kk[..16], &[], 0, 0, 16, 2),
        (8, 3, 128, &kk[..16], &[0; 16], 128, 1, 16, 2),
        (1, 4, 64, &kk[..16], &[0; 16], 128, 0, 8, 2),
        (7, 3, 128, &kk[..16], &[0; 16], 128, 0, 16, 2),
        (1, 1, 129, &kk[..15], &[], 0, 0, 16, 3),
        (1, 1, 64, &kk[..15], &[0; 16], 128, 0, 8, 3),
        (1, 1, 127, &kk[..15], &[0; 16], 128, 0, 16, 3),
        (2, 1, 127, &same, &[0; 16], 128, 0, 16, 3),
        (1, 1, 120, &kk[..16], &[], 8, 0, 15, 3),
        (4, 1, 1, &kk, &[0; 16], 128, 0, 1, 3),
        (1, 1, 64, &kk[..16], &[0; 16], 128, 0, 9, 3),
        (1, 1, 64, &kk[..16], &[0; 16], 128, 1, 8, 3),
        (1, 1, (1 << 32) + 128, &kk[..16], &[0; 16], 128, 0, 16, 3),
        (7, 4, 63, &kk, &[0; 16], 128, 0, 8, 3),
        (7, 4, 128, &kk[..16], &[0; 16], 128, 0, 16, 3),
        (1, 1, 128, &kk, &[0], 0, 0, 16, 4),
        (2, 1, 128, &kk[..16], &[0; 16], 128, 1, 16, 4),
        (2, 1, 128, &same, &[0], 0, 0, 16, 5),
        (4, 1, 128, &same, &[0; 17], 136, 1, 16, 5),
        (4, 1, 128, &twisted, &[0; 16], 128, 0, 16, 5),
        (6, 1, 128, &same, &[0; 16], 128, 0, 15, 5),
        (1, 1, 128, &kk[..16], &long, LIMIT + 1, 0, 16, 7),
        (1, 1, 128, &kk[..16], &[], u64::MAX, 0, 16, 7),
        (4, 1, 128, &kk, &[], 8, 0, 16, 7),
        (1, 1, 128, &kk[..16], &[0; 16], 120, 0, 16, 7),
        (1, 1, 128, &kk[..16], &[0; 16], 256, 1, 16, 7),
        (4, 1, 128, &kk, &long, LIMIT + 9, 0, 15, 8),
        (1, 1, 128, &kk[..16], &long, LIMIT + 9, LIMIT / 128, 16, 8),
        (4, 1, 128, &kk, &[0; 16], 128, 0, 15, 9),
        (4, 1, 128, &kk, &[], 0, 0, 16, 9),
        (4, 1, 128, &kk, &[0; 17], 136, 0, 15, 10),
        (4, 1, 128, &kk, &[0; 17], 136, 1, 17, 10),
        (1, 2, 128, &kk[..16], &[], 0, u64::MAX, 0, 10),
        (4, 1, 128, &kk, &[0; 17], 136, 1, 16, 41),
        (1, 2, 128, &kk[..16], &[], 0, 0, 16, 41),
    ];
    for (i, (a, p, m, keys, message, bits, block, size, wanted)) in rows.into_iter().enumerate() {
        let tag = [0x5A; 17];
        let refused = restored(agreed(a, p, m), keys, message, bits, block, &tag[..size]);
        assert_eq!(refused, (wanted, message.to_vec()), "row {i}");
        if m == 128 && wanted != 41 {
            let checked = check(agreed(a, p, m), keys, message, bits, &tag[..size]);
            assert_eq!(checked, number(wanted), "row {i}");
        }
    }
}

/// Only a full tag will do: every other m gets 3, with a tag of its own length and of sixteen bytes.
#[test]
fn full_tags_alone() {
    for (a, p, keys) in pairs() {
        for m in (0..=300).chain([(1 << 32) + 128, (1 << 63) + 128, u64::MAX]) {
            for size in [16, padding::bytes_for(m).min(16) as usize] {
                let answer = restored(agreed(a, p, m), &keys, &[7; 32], 256, 0, &[0x5A; 16][..size]).0;
                assert_eq!(answer, if m == 128 { 0 } else { 3 }, "{a} {p} {m} {size}");
            }
        }
        for size in 0..=40 {
            let answer = restored(agreed(a, p, 128), &keys, &[7; 32], 256, 1, &[0x5A; 40][..size]).0;
            assert_eq!(answer, if size == 16 { 0 } else { 10 }, "{a} {p} {size}");
        }
    }
}

/// The first, a middle and the last block of the longest message; the next number is none.
#[test]
fn the_longest_message() {
    let mut random = Random::new(11);
    let mut message = vec![0; LIMIT as usize / 8];
    random.fill(&mut message);
    for (a, p, keys) in pairs().into_iter().step_by(4) {
        let agreement = agreed(a, p, 128);
        for bits in [LIMIT, LIMIT - 1] {
            let tag = made(agreement, &keys, &message, bits).1;
            let whole = bits / 128;
            for block in [0, 1, 30_000, whole - 1] {
                let wet = with_block(&message, block, [0; 16]);
                let (number, left) = restored(agreement, &keys, &wet, bits, block, &tag);
                assert!(number == 0 && left == message, "{a} {p} {bits} {block}");
            }
            for block in BLOCKS.into_iter().chain([whole]) {
                let (number, left) = restored(agreement, &keys, &message, bits, block, &tag);
                assert!(number == 41 && left == message, "{a} {p} {bits} {block}");
            }
        }
    }
}

/// Any settings and lengths: under m = 128 the numbers 1 to 5 and 7 to 10 are those of a check; a refusal leaves every byte; a
/// filled message differs inside the block alone, and its check says yes.
#[test]
fn drawn_restores() {
    let mut random = Random::new(12);
    let mut answers = std::collections::BTreeMap::new();
    for _ in 0..20_000 {
        let s = Settings::draw(&mut random);
        let m = if random.below(8) == 0 { s.agreement.m } else { 128 };
        let agreement = Agreement { m, ..s.agreement };
        let (bits, bytes) = message(&mut random);
        let count = padding::bytes_for(bits) as usize + usize::from(random.below(16) == 0);
        let message = &bytes[..count];
        let block = match random.below(8) {
            0 => BLOCKS[random.below(8) as usize],
            _ => random.below(bits / 128 + 1),
        };
        let tag = [drawn(&mut random), [0; 16]].concat();
        let tag = &tag[..16 + usize::from(random.below(16) == 0)];
        let (number, left) = restored(agreement, s.keys(), message, bits, block, tag);
        let checked = check(agreement, s.keys(), &left, bits, tag);
        match number {
            0 => {
                let own = block_of(&left, block);
                assert_eq!((m, left, checked.yes), (128, with_block(message, block, own), 1));
            }
            41 => assert_eq!((m, &left[..], checked.number), (128, message, 0)),
            3 => assert_eq!((m == 128 && agreement.algorithm != 7, &left[..]), (false, message)),
            _ => assert_eq!((&left[..], checked.number), (message, number)),
        }
        *answers.entry(number).or_insert(0) += 1;
    }
    for number in [0, 1, 2, 3, 4, 5, 7, 9, 10, 41] {
        assert!(answers.get(&number) > Some(&100), "{number}: {answers:?}");
    }
}
