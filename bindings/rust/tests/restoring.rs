//! A lost block worked out of the full tag: the runs C5.9 of the requirements, every block of annex A's data and of messages of
//! every length from no bits to four blocks, the longest message, each refusal and their order, what a call leaves in the message
//! lent to it and around it, and what a restored block is worth.

mod common;

use common::{agreed, annex_a, hex, key, keys, keys_of, MESSAGE};
use slipseal::{check, make, restore, Agreement, Checked, Refusal};

/// G of A.2 under padding 1, of data 1 and of data 2.
const G: [&str; 2] = ["16E02904EFB765B706459C9EDABDB519", "BA89E45FE8ABF242E26CE032AD007C09"];

/// Each algorithm that has tags of 128 bits, with each of its paddings.
const FULL: [(u64, u64); 17] = [
    (1, 1),
    (1, 2),
    (1, 3),
    (2, 1),
    (2, 2),
    (2, 3),
    (3, 1),
    (3, 2),
    (3, 3),
    (4, 1),
    (4, 2),
    (4, 3),
    (5, 4),
    (6, 1),
    (6, 2),
    (6, 3),
    (8, 4),
];

/// The bytes with others in the place of one whole block.
fn without(message: &[u8], block: usize, byte: u8) -> Vec<u8> {
    let mut lost = message.to_vec();
    lost[16 * block..16 * block + 16].fill(byte);
    lost
}

/// What a call answers, and the message after it. The message lies between other bytes, which must stay.
fn called(
    agreement: Agreement,
    keys: &[u8],
    message: &[u8],
    bits: usize,
    block: usize,
    tag: &[u8],
) -> (Result<(), Refusal>, Vec<u8>) {
    let around = [0xC3; 16];
    let mut bytes = [&around[..], message, &around[..]].concat();
    let end = 16 + message.len();
    let answer = restore(agreement, keys, &mut bytes[16..end], bits, block, tag);
    assert_eq!((&bytes[..16], &bytes[end..]), (&around[..], &around[..]), "bytes around the message stay");
    (answer, bytes[16..end].to_vec())
}

/// The restored message, to which a check must say yes.
fn restored(
    agreement: Agreement,
    keys: &[u8],
    message: &[u8],
    bits: usize,
    block: usize,
    tag: &[u8],
) -> Vec<u8> {
    let (answer, after) = called(agreement, keys, message, bits, block, tag);
    assert_eq!(answer, Ok(()), "{agreement:?}, {bits} bits, block {block}");
    assert!(check(agreement, keys, &after, bits, tag).is_yes(), "{agreement:?}, {bits} bits, block {block}");
    after
}

/// The number of a refused call, which must leave the message.
fn refused(agreement: Agreement, keys: &[u8], message: &[u8], bits: usize, block: usize, tag: &[u8]) -> u64 {
    let (answer, after) = called(agreement, keys, message, bits, block, tag);
    assert!(after == message, "a refusal writes nothing");
    answer.unwrap_err().number()
}

#[test]
fn c5_9_data_1_and_2_of_a_1() {
    let (agreement, [one, two]) = (agreed(1, 1, 128), G.map(hex));
    for block in [0, 1] {
        let lost = without(MESSAGE, block, b'?');
        assert_eq!(restored(agreement, &key(), &lost, 256, block, &one), MESSAGE);
    }
    assert_eq!(refused(agreement, &key(), MESSAGE, 256, 2, &one), 41);
    let lost = without(&MESSAGE[..25], 0, b'?');
    assert_eq!(restored(agreement, &key(), &lost, 200, 0, &two), &MESSAGE[..25]);
    assert_eq!(refused(agreement, &key(), &MESSAGE[..25], 200, 1, &two), 41);
}

#[test]
fn every_block_of_annex_a() {
    let mut restorations = 0;
    for v in annex_a().iter().filter(|v| v.algorithm != 7) {
        let (agreement, bits) = (agreed(v.algorithm, v.padding, 128), 8 * v.message.len());
        for block in 0..v.message.len() / 16 {
            for byte in [0x00, 0x5A, 0xFF] {
                let lost = without(v.message, block, byte);
                assert_eq!(
                    restored(agreement, &v.keys, &lost, bits, block, &v.g),
                    v.message,
                    "{agreement:?}"
                );
            }
            assert_eq!(restored(agreement, &v.keys, v.message, bits, block, &v.g), v.message, "not lost");
            restorations += 1;
        }
        assert_eq!(refused(agreement, &v.keys, v.message, bits, v.message.len() / 16, &v.g), 41);
    }
    assert_eq!(restorations, 17 * 3);
}

/// Spare bits of a last part byte are set in some of these and not in others; they stay.
#[test]
fn every_number_of_bits() {
    let bytes: Vec<u8> = (0..64u32).map(|i| (i * i * 37 / 11 + 91) as u8).collect();
    for (algorithm, padding) in FULL {
        let (agreement, keys) = (agreed(algorithm, padding, 128), keys_of(algorithm));
        for bits in 0..=512usize {
            let message = &bytes[..bits.div_ceil(8)];
            let mut room = [0; 16];
            let Ok(made) = make(agreement, &keys, message, bits, &mut room) else {
                assert_eq!(refused(agreement, &keys, message, bits, 0, &[0; 16]), 9);
                continue;
            };
            for block in 0..bits / 128 {
                let lost = without(message, block, bits as u8);
                assert_eq!(restored(agreement, &keys, &lost, bits, block, made.tag), message);
            }
            for block in [bits / 128, bits / 128 + 1] {
                assert_eq!(refused(agreement, &keys, message, bits, block, made.tag), 41);
            }
        }
    }
}

/// What the library hands back does not depend on the spare bits, and these are not cleared.
#[test]
fn spare_bits_of_a_last_part_byte() {
    for (algorithm, padding) in FULL {
        let (agreement, keys) = (agreed(algorithm, padding, 128), keys_of(algorithm));
        let mut room = [0; 16];
        let made = make(agreement, &keys, &MESSAGE[..17], 131, &mut room).unwrap();
        for spare in 0..32 {
            let mut message = MESSAGE[..17].to_vec();
            message[16] = message[16] & 0xE0 | spare;
            let lost = without(&message, 0, 0);
            assert_eq!(restored(agreement, &keys, &lost, 131, 0, made.tag), message);
        }
    }
}

/// L is not one of the blocks.
#[test]
fn blocks_are_those_of_the_message() {
    for algorithm in [1, 2, 3, 4, 6] {
        let (agreement, keys) = (agreed(algorithm, 3, 128), keys_of(algorithm));
        let mut room = [0; 16];
        let made = make(agreement, &keys, &MESSAGE[..16], 128, &mut room).unwrap();
        let lost = without(&MESSAGE[..16], 0, 0);
        assert_eq!(restored(agreement, &keys, &lost, 128, 0, made.tag), &MESSAGE[..16]);
        assert_eq!(refused(agreement, &keys, &lost, 128, 1, made.tag), 41);
        assert_eq!(refused(agreement, &keys, &[], 0, 0, &[0; 16]), 41);
    }
}

#[test]
fn the_longest_message() {
    let message: Vec<u8> = (0..1_048_576u64).map(|i| (i * i / 251) as u8).collect();
    let bits = 8_388_608;
    for (algorithm, padding) in FULL {
        let (agreement, keys) = (agreed(algorithm, padding, 128), keys_of(algorithm));
        let mut room = [0; 16];
        let made = make(agreement, &keys, &message, bits, &mut room).unwrap();
        for block in [0, 32_768, 65_535] {
            let lost = without(&message, block, 0);
            assert!(restored(agreement, &keys, &lost, bits, block, made.tag) == message, "block {block}");
        }
        for block in [65_536, 65_537, usize::MAX] {
            assert_eq!(refused(agreement, &keys, &message, bits, block, made.tag), 41);
        }
    }
}

/// Among them those that a product with 128 or with 16 would turn into that of a block.
#[test]
fn far_numbers() {
    let bytes = [0x6B; 64];
    for far in [1 << 16, 1 << 32, 1 << 57, 1 << 60, 1 << 61, 1 << 63] {
        for near in 0..4 {
            for (algorithm, padding) in FULL {
                let (agreement, keys) = (agreed(algorithm, padding, 128), keys_of(algorithm));
                assert_eq!(refused(agreement, &keys, &bytes, 512, far + near, &[7; 16]), 41);
            }
        }
    }
    for block in [usize::MAX, usize::MAX - 1, usize::MAX / 16, usize::MAX / 128] {
        for (message, bits) in [(&bytes[..], 512), (&bytes[..25], 200), (&bytes[..0], 0)] {
            assert_eq!(refused(agreed(1, 1, 128), &key(), message, bits, block, &[7; 16]), 41);
        }
    }
}

#[test]
fn three_for_all_but_full_tags() {
    let full = hex(G[0]);
    for m in (0..=130).chain([(1 << 32) + 128, 1 << 63, u64::MAX]).filter(|m| *m != 128) {
        for (algorithm, padding) in FULL {
            let keys = keys_of(algorithm);
            assert_eq!(refused(agreed(algorithm, padding, m), &keys, MESSAGE, 256, 0, &full), 3);
        }
    }
    assert_eq!(refused(agreed(1, 1, 64), &key(), MESSAGE, 256, 0, &full[..8]), 3);
    for m in [1, 63, 64, 127, 128, 129] {
        assert_eq!(refused(agreed(7, 4, m), &key(), MESSAGE, 256, 0, &full), 3);
        assert_eq!(refused(agreed(7, 4, m), &key(), MESSAGE, 256, 0, &full[..8]), 3);
        assert_eq!(refused(agreed(7, 1, m), &key(), MESSAGE, 256, 0, &full), 2);
    }
}

/// A call that is refused: with which number, what is agreed, the bytes of the keys, of the message and its bits, the number of the
/// block, and the bytes of the tag.
type Call = (u64, Agreement, usize, usize, usize, usize, usize);

/// Each with every later fault that can be had beside it, and some alone. The keys are one key twice: good to byte 16.
#[test]
fn the_first_fault_is_told() {
    let (far, none) = (1 << 32, usize::MAX);
    let calls: [Call; 30] = [
        (1, agreed(9, 9, 999), 3, 16, 256, none, 17),
        (1, agreed(0, 1, 128), 16, 16, 128, 0, 16),
        (1, agreed(far + 1, 1, 128), 16, 16, 128, 0, 16),
        (2, agreed(4, 9, 999), 3, 16, 256, none, 17),
        (2, agreed(7, 1, 128), 3, 16, 256, none, 17),
        (2, agreed(1, far + 1, 128), 16, 16, 128, 0, 16),
        (3, agreed(4, 1, 999), 3, 16, 256, none, 17),
        (3, agreed(4, 1, 64), 3, 16, 256, none, 17),
        (3, agreed(7, 4, 63), 3, 16, 256, none, 17),
        (3, agreed(1, 1, 127), 16, 16, 128, 0, 16),
        (4, agreed(4, 1, 128), 3, 16, 256, none, 17),
        (4, agreed(1, 1, 128), 32, 16, 128, 0, 16),
        (5, agreed(4, 1, 128), 32, 16, 256, none, 17),
        (5, agreed(2, 1, 128), 32, 16, 128, 0, 16),
        (5, agreed(6, 1, 128), 32, 16, 128, 0, 16),
        (7, agreed(3, 1, 128), 32, 16, 256, none, 17),
        (7, agreed(1, 1, 128), 16, 16, 129, 0, 16),
        (7, agreed(1, 1, 128), 16, 16, 120, 0, 16),
        (7, agreed(1, 1, 128), 16, 1_048_576, 8_388_609, 0, 16),
        (7, agreed(1, 1, 128), 16, 0, usize::MAX, 0, 16),
        (8, agreed(3, 1, 128), 32, 1_048_577, 8_388_609, none, 17),
        (8, agreed(1, 1, 128), 16, 1_048_577, 8_388_616, 0, 16),
        (10, agreed(3, 1, 128), 32, 16, 128, none, 17),
        (10, agreed(1, 1, 128), 16, 0, 0, 0, 0),
        (10, agreed(1, 1, 128), 16, 16, 128, 0, 15),
        (10, agreed(1, 1, 128), 16, 16, 128, 0, 17),
        (41, agreed(3, 1, 128), 32, 16, 128, none, 16),
        (41, agreed(1, 1, 128), 16, 16, 128, 1, 16),
        (41, agreed(1, 1, 128), 16, 16, 127, 0, 16),
        (41, agreed(5, 4, 128), 16, 0, 0, 0, 16),
    ];
    let (twice, message, tag) = ([key(), key()].concat(), vec![0x5C; 1_048_577], [0xB7; 17]);
    for (number, agreement, keys, bytes, bits, block, tag_bytes) in calls {
        let (keys, message, tag) = (&twice[..keys], &message[..bytes], &tag[..tag_bytes]);
        assert_eq!(refused(agreement, keys, message, bits, block, tag), number, "{agreement:?}, {bits} bits");
        if agreement.m == 128 && number != 41 {
            let checked = check(agreement, keys, message, bits, tag);
            assert!(matches!(checked, Checked::Refused(refusal) if refusal.number() == number));
        }
    }
}

/// 9, before 10 and 41, also for a block that is whole; the shortest that are not refused.
#[test]
fn the_borders_of_9() {
    for (padding, bytes, bits) in [(1, 16, 128), (1, 0, 0), (2, 16, 127)] {
        for (block, tag) in [(0, 16), (0, 17), (1, 16), (usize::MAX, 15)] {
            let message = &MESSAGE[..bytes];
            assert_eq!(refused(agreed(4, padding, 128), &keys(), message, bits, block, &vec![0; tag]), 9);
        }
    }
    for (padding, bytes, bits) in [(1, 17, 129), (2, 16, 128), (3, 16, 128)] {
        let agreement = agreed(4, padding, 128);
        let mut room = [0; 16];
        let made = make(agreement, &keys(), &MESSAGE[..bytes], bits, &mut room).unwrap();
        let lost = without(&MESSAGE[..bytes], 0, 0);
        assert_eq!(restored(agreement, &keys(), &lost, bits, 0, made.tag), &MESSAGE[..bytes]);
    }
}

#[test]
fn the_only_filling() {
    for v in annex_a().iter().filter(|v| v.algorithm != 7) {
        let (agreement, bits) = (agreed(v.algorithm, v.padding, 128), 8 * v.message.len());
        let mut filled = restored(agreement, &v.keys, &without(v.message, 0, 0), bits, 0, &v.g);
        for place in 0..128 {
            filled[place / 8] ^= 0x80 >> (place % 8);
            assert!(matches!(check(agreement, &v.keys, &filled, bits, &v.g), Checked::No { .. }));
            filled[place / 8] ^= 0x80 >> (place % 8);
        }
    }
}

/// A false tag and an altered byte elsewhere restore to some block too, and checking says yes to it: `restored` has it checked.
#[test]
fn what_a_restored_block_is_worth() {
    for (algorithm, padding) in FULL {
        let (agreement, keys) = (agreed(algorithm, padding, 128), keys_of(algorithm));
        let mut room = [0; 16];
        let made = make(agreement, &keys, MESSAGE, 256, &mut room).unwrap();
        for block in [0, 1] {
            let (there, elsewhere) = (16 * block..16 * block + 16, 16 - 16 * block..32 - 16 * block);
            let lost = without(MESSAGE, block, 0);
            for place in 0..128 {
                let mut tag = made.tag.to_vec();
                tag[place / 8] ^= 0x80 >> (place % 8);
                let filled = restored(agreement, &keys, &lost, 256, block, &tag);
                assert_ne!(filled[there.clone()], MESSAGE[there.clone()]);
                assert_eq!(filled[elsewhere.clone()], MESSAGE[elsewhere.clone()]);

                let mut altered = lost.clone();
                altered[elsewhere.start + place / 8] ^= 0x80 >> (place % 8);
                let filled = restored(agreement, &keys, &altered, 256, block, made.tag);
                assert_ne!(filled[there.clone()], MESSAGE[there.clone()]);
                assert_eq!(filled[elsewhere.clone()], altered[elsewhere.clone()]);
            }
        }
    }
}
