//! Annex A of 000, the borders of document 01, the appendix runs R3 to R5 and R7 of the requirements, the order of refusals in one
//! call, and what several files of tests use. Sessions that make a tag: sessions.rs; that check one: checks.rs; a lost block:
//! lost.rs; keys derived from a master: master.rs; slips: slips.rs.

use crate::call::LIMIT;
use crate::cases::{Random, Settings};
use crate::gathered::firsts;
use crate::session::{finish, finish_check, piece, start, Record, CHECKING, MAKING};
use crate::slip::{read, write, Says, Slip, Written};
use crate::{check, derive, hex, mac, make, padding, sm4, unhex, Agreement, Answer};

mod checks;
mod lost;
mod master;
mod sessions;
mod slips;

const K: &str = "0123456789ABCDEFFEDCBA9876543210";
const KK: &str = "0123456789ABCDEFFEDCBA98765432104149D2ADED9456681EC8B511D9E7EE04";
const A7: &str = "4E595BF03F23BD10329BAF5698E898ECB3136C044E95482D4F652E694F2741CD";
const DATA: [&[u8]; 2] = [b"This is the test message for mac", b"This is the test message "];

fn h(text: &str) -> Vec<u8> {
    unhex(text).unwrap()
}

fn block(text: &str) -> [u8; 16] {
    h(text).try_into().unwrap()
}

fn agreed(algorithm: u64, padding: u64, m: u64) -> Agreement {
    Agreement { algorithm, padding, m, master: false }
}

fn number(number: u64) -> Answer {
    Answer { number, yes: 0, calls: 0 }
}

fn done(calls: u64) -> Answer {
    Answer { number: 0, yes: 1, calls }
}

fn no(calls: u64) -> Answer {
    Answer { number: 0, yes: 0, calls }
}

fn turned(bytes: &[u8], bit: usize) -> Vec<u8> {
    let mut other = bytes.to_vec();
    other[bit / 8] ^= 0x80 >> (bit % 8);
    other
}

/// The calls of an algorithm besides one for each block.
fn extra(algorithm: u64) -> u64 {
    [0, 1, 2, 2, 1, 0, 0, 1][algorithm as usize - 1]
}

/// The cipher calls of this thread so far, but for those that derive keys from a master.
fn real_calls() -> u64 {
    sm4::tests::CALLS.get() - 2 * derive::tests::DERIVED.get()
}

/// The calls that derive the keys of one tag: they count once, however often a reference that keeps no keys derives them.
fn for_keys(agreement: Agreement) -> u64 {
    2 * u64::from(agreement.master)
}

/// Makes into a buffer with a byte to spare, which must stay; the count must be that of real calls.
fn made(agreement: Agreement, keys: &[u8], message: &[u8], bits: u64) -> (Answer, Vec<u8>) {
    let before = real_calls();
    let mut tag = [0x5A; 17];
    let answer = make(agreement, keys, message, bits, &mut tag);
    let real = real_calls() - before;
    assert_eq!(if answer.number == 0 { for_keys(agreement) + real } else { real }, answer.calls);
    let size = if answer.number == 0 { padding::bytes_for(agreement.m) as usize } else { 0 };
    assert!(tag[size..].iter().all(|byte| *byte == 0x5A));
    (answer, tag[..size].to_vec())
}

/// The same through a session, cut into pieces of these many bits; all pieces must be accepted.
fn in_session(agreement: Agreement, keys: &[u8], message: &[u8], cuts: &[u64]) -> (Answer, Vec<u8>) {
    let before = real_calls();
    let (mut record, answer) = start(agreement, keys, cuts.iter().sum());
    assert_eq!(answer, number(0));
    let mut at = 0;
    for cut in cuts {
        let bytes = &message[at / 8..at / 8 + padding::bytes_for(*cut) as usize];
        let (next, answer) = piece(record, bytes, *cut);
        assert_eq!((answer, next.is_open()), (number(0), true));
        assert_eq!((next.purpose, next.expected), (MAKING, [0; 16]));
        record = next;
        at += *cut as usize;
    }
    let mut tag = [0x5A; 17];
    let (closed, answer) = finish(record, &mut tag);
    assert_eq!((closed, for_keys(agreement) + real_calls() - before), (Record::default(), answer.calls));
    let size = padding::bytes_for(agreement.m) as usize;
    assert!(tag[size..].iter().all(|byte| *byte == 0x5A));
    (answer, tag[..size].to_vec())
}

/// The bit count and 96 bytes, of which the first ⌈bits/8⌉ are the message.
fn message(r: &mut Random) -> (u64, [u8; 96]) {
    let bits = match r.below(4) {
        0 => r.below(641),
        _ => (128 * r.below(6) + r.below(17)).saturating_sub(8).min(640),
    };
    let mut bytes = [0; 96];
    r.fill(&mut bytes);
    (bits, bytes)
}

const COVERED: &str = "01000832303236313130340200024137030004000001F4";
const SEAL: &str = "7F000B050440A47A9299C7B8456C";

/// What that seal names.
const NAMED: Agreement = Agreement { algorithm: 5, padding: 4, m: 64, master: false };

/// The three accepted slips of appendix R6: what was agreed, the keys and the seal.
const R6: [(Agreement, &str, &str); 3] = [
    (NAMED, K, SEAL),
    (Agreement { algorithm: 2, padding: 2, m: 64, master: false }, KK, "7F000B02024025BE21F5FDEE57F4"),
    (Agreement { algorithm: 1, padding: 1, m: 12, master: false }, K, "7F000501010CA330"),
];

/// P12's fields under a seal.
fn p12(seal: &str) -> Vec<u8> {
    h(&[COVERED, seal].concat())
}

/// The agreements of which one number is another, so much more or less.
fn off_by(by: u64, Agreement { algorithm, padding, m, .. }: Agreement) -> [Agreement; 6] {
    [
        agreed(algorithm.wrapping_sub(by), padding, m),
        agreed(algorithm.wrapping_add(by), padding, m),
        agreed(algorithm, padding.wrapping_sub(by), m),
        agreed(algorithm, padding.wrapping_add(by), m),
        agreed(algorithm, padding, m.wrapping_sub(by)),
        agreed(algorithm, padding, m.wrapping_add(by)),
    ]
}

fn refused(number: u64) -> Slip {
    Slip { number, ..Slip::default() }
}

/// A call to `write`: into a room of so many bytes.
#[derive(Clone)]
struct Print {
    agreement: Agreement,
    keys: Vec<u8>,
    says: Says,
    room: usize,
}

impl Print {
    /// P12's fields, into a room that the slip just fills where m is 64.
    fn p12(agreement: Agreement, keys: &str) -> Print {
        let says = Says { year: 2026, month: 11, day: 4, lot: b"A7".to_vec(), amount: 500 };
        Print { agreement, keys: h(keys), says, room: 37 }
    }

    /// The same with something changed.
    fn with(&self, change: impl Fn(&mut Print)) -> Print {
        let mut other = self.clone();
        change(&mut other);
        other
    }

    /// The answer and the room, 5A before the call. A refusal must leave the room and report nothing; the count of a written slip
    /// must be that of real calls, and the bytes past it must stay.
    fn run(&self) -> (Written, Vec<u8>) {
        let before = real_calls();
        let mut room = vec![0x5A; self.room];
        let written = write(self.agreement, &self.keys, &self.says, &mut room);
        match written.number {
            0 => assert_eq!(for_keys(self.agreement) + real_calls() - before, written.calls),
            number => assert_eq!(written, Written { number, length: 0, calls: 0 }),
        }
        assert!(room[written.length as usize..].iter().all(|byte| *byte == 0x5A));
        (written, room)
    }

    fn number(&self) -> u64 {
        self.run().0.number
    }
}

#[test]
fn sm4_standard_example() {
    let keys = sm4::round_keys(&block(K));
    let once = sm4::encrypt(&keys, &block(K));
    assert_eq!(hex(&once), "681EDF34D206965E86B3E94F536E4246");
    assert_eq!(sm4::decrypt(&keys, &once), block(K));
    let many = (0..1_000_000).fold(block(K), |x, _| sm4::encrypt(&keys, &x));
    assert_eq!(hex(&many), "595298C7C6FD271F0402F804C33D3F66");
}

#[test]
fn decryption_undoes_encryption() {
    let mut random = Random::new(1);
    for _ in 0..1000 {
        let (mut key, mut x) = ([0; 16], [0; 16]);
        random.fill(&mut key);
        random.fill(&mut x);
        let keys = sm4::round_keys(&key);
        assert_eq!(sm4::decrypt(&keys, &sm4::encrypt(&keys, &x)), x);
        assert_eq!(sm4::encrypt(&keys, &sm4::decrypt(&keys, &x)), x);
    }
}

#[test]
fn annex_a_blocks() {
    let rows: Vec<_> = include_str!("annex_a.txt").lines().filter(|row| row.starts_with("blocks")).collect();
    assert_eq!(rows.len(), 8);
    for row in rows {
        let words: Vec<&str> = row.split(' ').collect();
        let (p, data) = (words[1].parse().unwrap(), DATA[words[2].parse::<usize>().unwrap() - 1]);
        let bits = 8 * data.len() as u64;
        let blocks: Vec<String> =
            (1..=padding::q(p, bits)).map(|i| hex(&padding::block(p, data, bits, i))).collect();
        assert_eq!(blocks, words[3..]);
    }
}

/// Padding once more, bit by bit as 000's clauses read.
#[test]
fn padding_bit_by_bit() {
    let mut random = Random::new(2);
    let mut bytes = [0; 50];
    random.fill(&mut bytes);
    for bits in 0..=400 {
        for p in 1..=4 {
            let mut d: Vec<bool> = (0..bits).map(|i| bytes[i / 8] >> (7 - i % 8) & 1 == 1).collect();
            let complete = bits > 0 && bits % 128 == 0;
            if p == 2 || p == 4 && !complete {
                d.push(true);
            }
            while d.is_empty() || d.len() % 128 != 0 {
                d.push(false);
            }
            if p == 3 {
                d.splice(0..0, (0..128).rev().map(|i| bits as u128 >> i & 1 == 1));
            }
            let padded: Vec<u8> =
                d.chunks(8).map(|c| c.iter().fold(0, |b, bit| 2 * b + u8::from(*bit))).collect();
            let message = &bytes[..bits.div_ceil(8)];
            let q = padding::q(p, bits as u64);
            let blocks: Vec<_> = (1..=q).map(|i| padding::block(p, message, bits as u64, i)).collect();
            assert_eq!((blocks.concat(), padding::complete(bits as u64)), (padded, complete));
        }
    }
}

/// P1 to P9 and P11 of document 01; P10 and P12: slips.rs.
#[test]
fn borders() {
    let zero = [0; 16];
    let one = block("80000000000000000000000000000000");
    let low = block("00000000000000000000000000000001");
    let padded = |p, bytes: &[u8], bits| -> Vec<[u8; 16]> {
        (1..=padding::q(p, bits)).map(|i| padding::block(p, bytes, bits, i)).collect()
    };
    assert_eq!(padded(1, &[], 0), [zero]);
    assert_eq!(padded(2, &[], 0), [one]);
    assert_eq!(padded(3, &[], 0), [zero, zero]);
    assert_eq!((padded(4, &[], 0), padding::complete(0)), (vec![one], false));
    assert_eq!((padding::q(2, 128), padding::q(4, 128), padding::complete(128)), (2, 1, true));
    assert_eq!(padded(2, &[0xA0], 3), [block("B0000000000000000000000000000000")]);
    assert_eq!((padding::q(3, 200), padding::length_block(200)[15]), (3, 0xC8));
    assert_eq!(mac::double(&one), block("00000000000000000000000000000087"));
    assert_eq!(mac::double(&block("40000000000000000000000000000000")), one);
    assert_eq!(mac::alternate(&block(&KK[32..])), block("B1B9225D1D64A698EE3845E129171EF4"));
    assert_eq!(mac::leftmost(12, &block("0ABC5678000000000000000000000000"))[..3], [0x0A, 0xB0, 0]);
    assert_eq!(mac::rightmost(12, &block("00000000000000000000000000560ABC"))[..3], [0xAB, 0xC0, 0]);
    assert_eq!((mac::turn(true, &low), mac::turn(false, &one)), (one, low));
    assert_eq!(made(agreed(3, 1, 64), &h(KK), &[7; 48], 384).0, done(5));
    // spare bits have no influence, under any padding
    for p in 1..=3 {
        assert_eq!(made(agreed(1, p, 128), &h(K), &[0xFF], 1), made(agreed(1, p, 128), &h(K), &[0x80], 1));
    }
}

struct Vector {
    algorithm: u64,
    padding: u64,
    keys: Vec<u8>,
    data: &'static [u8],
    bits: u64,
    tag: Vec<u8>,
    g: Vec<u8>,
}

fn annex_a() -> Vec<Vector> {
    let rows = include_str!("annex_a.txt").lines().filter(|row| row.starts_with("tag"));
    let vectors: Vec<Vector> = rows
        .map(|row| {
            let words: Vec<&str> = row.split(' ').collect();
            let algorithm = words[1].parse().unwrap();
            let data = DATA[words[3].parse::<usize>().unwrap() - 1];
            let keys = h(match algorithm {
                2..=4 => KK,
                6 => A7,
                _ => K,
            });
            let (padding, bits) = (words[2].parse().unwrap(), 8 * data.len() as u64);
            Vector { algorithm, padding, keys, data, bits, tag: h(words[4]), g: h(words[5]) }
        })
        .collect();
    assert_eq!(vectors.len(), 36);
    vectors
}

/// The sizes each vector is run at, with the tag that the printed MAC and G ask for.
fn wanted(v: &Vector) -> Vec<(u64, Vec<u8>)> {
    if v.algorithm != 7 {
        return vec![(64, v.tag.clone()), (128, v.g.clone())];
    }
    let printed = u64::from_be_bytes(v.tag.clone().try_into().unwrap());
    let bits63 = if padding::complete(v.bits) { printed & !1 } else { printed << 1 };
    vec![(63, bits63.to_be_bytes().to_vec())]
}

#[test]
fn annex_a_tags_in_one_call() {
    for v in annex_a() {
        let (a, p) = (v.algorithm, v.padding);
        let calls = padding::q(p, v.bits) + extra(a);
        let (g, counted) = mac::output(agreed(a, p, 128), &v.keys, v.data, v.bits);
        assert_eq!((g.to_vec(), counted), (v.g.clone(), calls));
        for (m, tag) in wanted(&v) {
            assert_eq!(made(agreed(a, p, m), &v.keys, v.data, v.bits), (done(calls), tag.clone()));
            assert_eq!(check(agreed(a, p, m), &v.keys, v.data, v.bits, &tag), done(calls));
            for bit in 0..8 * tag.len() {
                let answer = check(agreed(a, p, m), &v.keys, v.data, v.bits, &turned(&tag, bit));
                assert_eq!(answer, no(calls), "bit {bit}");
            }
        }
        if a == 7 {
            assert_eq!(made(agreed(a, p, 64), &v.keys, v.data, v.bits).0, number(3));
        }
    }
}

#[test]
fn appendix_r3_to_r5() {
    let (one, two, full) = (&h(K)[..], &h(KK)[..], &[0xFF; 16][..]);
    type Row<'a> = (u64, u64, u64, &'a [u8], &'a [u8], u64, &'a str, u64);
    let rows: [Row; 14] = [
        (7, 4, 63, one, DATA[0], 256, "16E02904EFB765B6", 2),
        (7, 4, 63, one, DATA[1], 200, "08DF454BB0688B52", 2),
        (1, 1, 128, one, &[], 0, "2677F46B09C122CC975533105BD4A22A", 1),
        (2, 1, 128, two, &[], 0, "FD3953C695FCC2D3ED8176F328B8F33E", 2),
        (3, 1, 128, two, &[], 0, "065F25BDB348C4E48A27C67D1D3A85A6", 3),
        (6, 1, 128, two, &[], 0, "7D7DD196206F4C9717D8DAF065E4784B", 1),
        (5, 4, 128, one, &[], 0, "29E154322E5C7BD8EE6A25BA549B24BC", 2),
        (8, 4, 128, one, &[], 0, "C3362C82CE0474032E8A086D256C6062", 2),
        (4, 3, 128, two, &[], 0, "E43F42910128F6D7EA83ACFE2F6B3362", 4),
        (4, 2, 128, two, full, 128, "6EFA155411596610AB488508185BB691", 4),
        (6, 1, 128, two, &[0xFF], 1, "32A9B595071FB6A555C318906399D419", 1),
        (7, 4, 63, one, full, 128, "6811AF7E097364E6", 1),
        (3, 1, 128, &[one, one].concat(), b"abc", 24, "9054FCCFF72871FDAD5202C821DBEA05", 3),
        (1, 1, 128, one, b"abc", 24, "9054FCCFF72871FDAD5202C821DBEA05", 1),
    ];
    for (a, p, m, keys, message, bits, tag, calls) in rows {
        assert_eq!(made(agreed(a, p, m), keys, message, bits), (done(calls), h(tag)));
        assert_eq!(in_session(agreed(a, p, m), keys, message, &[bits]), (done(calls), h(tag)));
    }
    for data in DATA {
        assert_eq!(made(agreed(7, 4, 64), one, data, 8 * data.len() as u64).0, number(3));
    }
}

#[test]
fn appendix_r7_the_limit() {
    let long = vec![0; 1_048_577];
    let full = &long[..1_048_576];
    let (answer, tag) = made(agreed(1, 1, 128), &h(K), full, LIMIT);
    assert_eq!((answer, hex(&tag)), (done(65_536), "52E7B8DB5C984966E56E4943745D6392".into()));
    assert_eq!(made(agreed(1, 1, 128), &h(K), &long, LIMIT + 1).0, number(8));
    assert_eq!(made(agreed(1, 1, 128), &h(K), full, LIMIT + 1).0, number(7));
    assert_eq!(
        in_session(agreed(1, 1, 128), &h(K), full, &[8 * 333_333, LIMIT - 8 * 333_333]),
        (answer, tag)
    );
    let open = piece(start(agreed(1, 1, 128), &h(K), 0).0, full, LIMIT).0;
    assert_eq!(piece(open, &[0], 1), (open, number(8)));
    assert_eq!(start(agreed(1, 3, 128), &h(K), LIMIT).1, number(0));
    assert_eq!(start(agreed(1, 3, 128), &h(K), LIMIT + 1), (Record::default(), number(8)));
    assert_eq!(start(agreed(1, 2, 128), &h(K), u64::MAX).0.declared, 0);
}

#[test]
fn algorithm_4_needs_two_blocks() {
    for (p, bits, wanted) in [(1, 128, 9), (1, 129, 0), (2, 127, 9), (2, 128, 0), (3, 0, 0)] {
        let message = vec![3; padding::bytes_for(bits) as usize];
        assert_eq!(made(agreed(4, p, 64), &h(KK), &message, bits).0.number, wanted);
    }
    let (open, _) = piece(start(agreed(4, 1, 64), &h(KK), 0).0, &[3; 16], 128);
    assert_eq!(finish(open, &mut [0; 16]), (open, number(9)));
    let (open, answer) = piece(open, &[0x80], 1);
    assert_eq!((answer, finish(open, &mut [0; 16]).1), (number(0), done(4)));
}

/// Each row shows the earlier of two neighbouring faults. Excluded by the rules themselves: 8 with 9 (too
/// long has q >= 2).
#[test]
fn order_of_refusals_in_one_call() {
    let (kk, same) = (h(KK), [h(K), h(K)].concat());
    let twisted = [h(K), mac::alternate(&block(K)).to_vec()].concat();
    let long = vec![0; LIMIT as usize / 8 + 2];
    type Row<'a> = (u64, u64, u64, &'a [u8], &'a [u8], u64, usize, u64);
    let rows: [Row; 21] = [
        (0, 9, 64, &kk, &[], 0, 8, 1),
        (9, 1, 64, &kk, &[], 0, 8, 1),
        (257, 1, 64, &kk[..16], &[], 0, 8, 1),
        (1, 4, 0, &kk[..16], &[], 0, 8, 2),
        (8, 3, 129, &kk[..16], &[], 0, 8, 2),
        (1, 1, 129, &kk[..15], &[], 0, 16, 3),
        (1, 1, (1 << 32) + 64, &kk[..16], &[], 0, 16, 3),
        (7, 4, 64, &kk, &[], 0, 8, 3),
        (1, 1, 64, &kk, &[0], 0, 8, 4),
        (2, 1, 64, &kk[..16], &[0], 0, 8, 4),
        (2, 1, 64, &[&same[..], &[0]].concat(), &[0], 0, 8, 4),
        (2, 1, 64, &same, &[0], 0, 8, 5),
        (4, 1, 64, &same, &[0], 0, 8, 5),
        (4, 1, 64, &twisted, &[0], 0, 8, 5),
        (6, 1, 64, &same, &[0], 0, 8, 5),
        (1, 1, 64, &kk[..16], &long, LIMIT + 1, 8, 7),
        (1, 1, 64, &kk[..16], &[], u64::MAX, 8, 7),
        (4, 1, 64, &kk, &[], 8, 8, 7),
        (4, 1, 64, &kk, &long, LIMIT + 9, 7, 8),
        (4, 1, 64, &kk, &[0; 16], 128, 7, 9),
        (4, 1, 65, &kk, &[0; 17], 136, 8, 10),
    ];
    for (i, (a, p, m, keys, message, bits, room, wanted)) in rows.into_iter().enumerate() {
        let mut tag = [0x5A; 16];
        assert_eq!(make(agreed(a, p, m), keys, message, bits, &mut tag[..room]), number(wanted), "row {i}");
        assert_eq!(check(agreed(a, p, m), keys, message, bits, &tag[..room]), number(wanted), "row {i}");
        assert_eq!(tag, [0x5A; 16]);
        if wanted <= 5 {
            // the same at a session's start, with 8 as a further fault
            let refused = start(agreed(a, p, m), keys, u64::MAX);
            assert_eq!(refused, (Record::default(), number(wanted)), "row {i}");
        }
    }
    assert_eq!(start(agreed(4, 3, 64), &same, LIMIT + 1).1, number(5));
    assert_eq!(make(agreed(2, 1, 64), &twisted, &[0], 8, &mut [0; 8]), done(2)); // K = K'' matters to 4 alone
    assert_eq!(make(agreed(3, 1, 64), &same, &[0], 8, &mut [0; 8]), done(3));
    assert_eq!(check(agreed(1, 1, 64), &kk[..16], &[0], 8, &[0; 9]), number(10));
}
