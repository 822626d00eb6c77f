//! openssl: the proved library against the installed OpenSSL. Its CMAC over SM4 is algorithm 5 with padding 4; the last block of its
//! SM4-CBC over a padded message is algorithm 1, and algorithm 7 for a message that needs no padding. Under a master its SM4 derives
//! the keys, and its SM4-CBC under these makes the tags of algorithms 2, 4 and 6. A message of which the library restored a block out
//! of any sixteen bytes must have these as its tag. What the installed version does not have is passed over, with a line that says so.

use differential::library;
use reference::cases::Random;
use reference::{hex, Agreement};
use std::io::Write;
use std::process::{Command, Stdio};

/// What `openssl WORDS` writes, or None where it fails.
fn openssl(words: &[&str], input: &[u8]) -> Option<Vec<u8>> {
    let mut command = Command::new("openssl");
    command.args(words).stdin(Stdio::piped()).stdout(Stdio::piped()).stderr(Stdio::null());
    let mut child = command.spawn().ok()?;
    let mut pipe = child.stdin.take()?;
    let input = input.to_vec();
    let writer = std::thread::spawn(move || pipe.write_all(&input).is_ok());
    let output = child.wait_with_output().ok()?;
    let written = writer.join().unwrap_or(false);
    Some(output.stdout).filter(|_| written && output.status.success())
}

/// OpenSSL's CMAC over SM4.
fn cmac(key: &[u8], message: &[u8]) -> Option<String> {
    let key = format!("hexkey:{}", hex(key));
    let out = openssl(&["mac", "-cipher", "SM4-CBC", "-macopt", &key, "CMAC"], message)?;
    Some(String::from_utf8(out).ok()?.trim().to_uppercase())
}

/// The last block of OpenSSL's SM4-CBC from this block, over a multiple of sixteen bytes.
fn chained(key: &[u8], from: &[u8], padded: &[u8]) -> Option<Vec<u8>> {
    let out = openssl(&["enc", "-sm4-cbc", "-nopad", "-K", &hex(key), "-iv", &hex(from)], padded)?;
    out.len().checked_sub(16).map(|from| out[from..].to_vec())
}

const ZERO: [u8; 16] = [0; 16];

/// The same from a zero block.
fn last_block(key: &[u8], padded: &[u8]) -> Option<String> {
    chained(key, &ZERO, padded).map(|block| hex(&block))
}

/// The keys derived from a master: the numbers 1 and 2, enciphered.
fn derived(master: &[u8]) -> Option<[Vec<u8>; 2]> {
    let key = |number: u128| chained(master, &ZERO, &number.to_be_bytes());
    Some([key(1)?, key(2)?])
}

/// The tag of algorithm 2, 4 or 6 over a padded message, under the derived keys and, in 4, this K.
fn under_derived(algorithm: u64, k: &[u8], [one, two]: &[Vec<u8>; 2], padded: &[u8]) -> Option<String> {
    let (front, last) = padded.split_at(padded.len() - 16);
    let tag = match algorithm {
        2 => chained(two, &ZERO, &chained(one, &ZERO, padded)?)?,
        4 => {
            let first = chained(two, &ZERO, &chained(k, &ZERO, &padded[..16])?)?;
            chained(one, &ZERO, &chained(k, &first, &padded[16..])?)?
        }
        _ if front.is_empty() => chained(two, &ZERO, last)?,
        _ => chained(two, &chained(one, &ZERO, front)?, last)?,
    };
    Some(hex(&tag))
}

/// Padding methods 1 to 3 for whole bytes.
fn padded(padding: u64, message: &[u8]) -> Vec<u8> {
    let mut out = message.to_vec();
    if padding == 2 {
        out.push(0x80);
    }
    out.resize(out.len().next_multiple_of(16).max(16), 0);
    if padding == 3 {
        let length = 8 * message.len() as u128;
        out.splice(0..0, length.to_be_bytes());
    }
    out
}

fn made(agreement: Agreement, key: &[u8], message: &[u8]) -> String {
    let mut tag = [0; 16];
    let answer = library::make(agreement, key, message, 8 * message.len() as u64, &mut tag);
    assert_eq!(answer.number, 0);
    hex(&tag)
}

/// The message with one of its blocks restored out of this tag.
fn restored(agreement: Agreement, key: &[u8], message: &[u8], block: u64, tag: &[u8]) -> Vec<u8> {
    let mut left = message.to_vec();
    let number = library::restore(agreement, key, &mut left, 8 * message.len() as u64, block, tag);
    assert_eq!(number, 0);
    left
}

fn same(what: &str, key: &[u8], message: &[u8], library: &str, openssl: Option<String>) {
    if openssl.as_deref() != Some(library) {
        let (key, message) = (hex(key), hex(message));
        println!("DIFFERENT, {what}, key {key}, message {message}: library {library}, openssl {openssl:?}");
        std::process::exit(1);
    }
}

fn main() {
    let Some(version) = openssl(&["version"], &[]) else {
        return println!("openssl: not installed, passed over");
    };
    println!("{}", String::from_utf8_lossy(&version).trim());
    let (has_mac, has_cipher) = (cmac(&[0; 16], &[]).is_some(), last_block(&[0; 16], &[0; 16]).is_some());
    let (r, lost, masters) = (&mut Random::new(1), &mut Random::new(2), &mut Random::new(3));
    let (mut macs, mut chains, mut mastered, mut blocks) = (0, 0, 0, 0);
    for size in (0..=66).chain([127, 128, 129, 1000, 4096, 65_537]) {
        let (mut key, mut message) = ([0; 16], vec![0; size]);
        r.fill(&mut key);
        r.fill(&mut message);
        let (whole, mut any) = (size as u64 / 16, [0; 16]);
        lost.fill(&mut any);
        if has_mac {
            let five = Agreement { algorithm: 5, padding: 4, m: 128, master: false };
            let tag = made(five, &key, &message);
            same("CMAC, algorithm 5", &key, &message, &tag, cmac(&key, &message));
            macs += 1;
            if whole > 0 {
                let left = restored(five, &key, &message, lost.below(whole), &any);
                same("CMAC of a restored message", &key, &left, &hex(&any), cmac(&key, &left));
                blocks += 1;
            }
        }
        if has_cipher {
            let padding = 1 + size as u64 % 3;
            let one = Agreement { algorithm: 1, padding, m: 128, master: false };
            let tag = made(one, &key, &message);
            let what = format!("CBC, algorithm 1, padding {padding}");
            same(&what, &key, &message, &tag, last_block(&key, &padded(padding, &message)));
            chains += 1;
            if whole > 0 {
                let left = restored(one, &key, &message, lost.below(whole), &any);
                let what = format!("CBC of a restored message, padding {padding}");
                same(&what, &key, &left, &hex(&any), last_block(&key, &padded(padding, &left)));
                blocks += 1;
            }
        }
        if has_cipher && size > 0 && size % 16 == 0 {
            let tag = made(Agreement { algorithm: 7, padding: 4, m: 56, master: false }, &key, &message);
            let whole = last_block(&key, &message).map(|block| block[..14].to_string());
            same("CBC, algorithm 7", &key, &message, &tag[..14], whole);
            chains += 1;
        }
        if has_cipher {
            let padding = 1 + size as u64 % 3;
            let mut master = [0; 16];
            masters.fill(&mut master);
            let keys = derived(&master).expect("keys, where it has the cipher");
            let by_openssl = |algorithm: u64, message: &[u8]| {
                under_derived(algorithm, &key, &keys, &padded(padding, message))
            };
            // Algorithm 4 takes two blocks or more.
            let long = padded(padding, &message).len() > 16;
            for algorithm in [2, 4, 6].into_iter().filter(|algorithm| *algorithm != 4 || long) {
                let agreement = Agreement { algorithm, padding, m: 128, master: true };
                let given = if algorithm == 4 { [key, master].concat() } else { master.to_vec() };
                let tag = made(agreement, &given, &message);
                let what = format!("a master, algorithm {algorithm}, padding {padding}");
                same(&what, &given, &message, &tag, by_openssl(algorithm, &message));
                mastered += 1;
                if whole > 0 {
                    let left = restored(agreement, &given, &message, masters.below(whole), &any);
                    let what = format!("a message restored under {what}");
                    same(&what, &given, &left, &hex(&any), by_openssl(algorithm, &left));
                    blocks += 1;
                }
            }
        }
    }
    for (has, what) in [(has_mac, "mac CMAC with SM4-CBC"), (has_cipher, "enc -sm4-cbc")] {
        if !has {
            println!("openssl: this version has no `{what}`, passed over");
        }
    }
    println!(
        "openssl: no difference in {macs} CMAC tags, {chains} CBC chains and {mastered} tags under a master; \
         {blocks} restored blocks fit their tags"
    );
}
