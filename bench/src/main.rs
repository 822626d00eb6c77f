//! bench [ROUNDS]: the library beside the plain reference of tests/reference and beside its peers, on the same work in one run. All
//! are asked first and must agree, or nothing is measured; README.md tells how to read the table.

mod measure;
mod openssl;
mod peer;
mod report;
mod shared;
mod work;

use peer::Peer;
use reference::{hex, unhex};
use slipseal::raw::Agreement;
use std::fmt::Debug;
use std::process::exit;
use work::Tagged;

const ROUNDS: usize = 9;
const KEY: &str = "0123456789ABCDEFFEDCBA9876543210";
/// The two keys that are derived from it.
const DERIVED: &str = "4E595BF03F23BD10329BAF5698E898ECB3136C044E95482D4F652E694F2741CD";
const SLIP: &str = "01000832303236313130340200024137030004000001F47F000B050440A47A9299C7B8456C";
/// Where the slip is cut into two reads.
const CUT: usize = 20;

/// Stops the run where two answers differ.
fn agree<T: PartialEq + Debug>(what: &str, answer: T, expected: T) {
    if answer != expected {
        eprintln!("{what}: the answer is {answer:02X?}, expected is {expected:02X?}. Nothing was measured.");
        exit(1);
    }
}

/// The tag on which library, baseline and peers agree. Peers go with algorithm 5 only.
fn agree_on_make(what: &str, agreement: Agreement, key: &[u8], message: &[u8], peers: &[&Peer]) -> Tagged {
    let tagged = work::baseline_make(agreement, key, message);
    agree(what, work::library_make(agreement, key, message), tagged);
    for peer in peers {
        agree(&format!("{what}, {}", peer.name), peer.cmac(key, message), Some(tagged.0));
    }
    tagged
}

/// A check, in one call and in a session, gives this yes and these calls.
fn agree_on_check(what: &str, key: &[u8], message: &[u8], tag: &[u8], yes: u64, calls: u64) {
    agree(what, work::library_check(key, message, tag), [0, yes, calls]);
    agree(&format!("{what}, in a session"), work::library_check_session(key, message, tag), [0, yes, calls]);
    agree(
        &format!("{what}, in the baseline's session"),
        work::baseline_check_session(key, message, tag),
        [0, yes, calls],
    );
}

/// Each lost block comes back, and no other byte changes.
fn agree_on_restore(key: &[u8], message: &[u8], tag: &[u8]) {
    for (name, block) in work::LOST {
        let mut lent = message.to_vec();
        agree(&format!("restore, {name}"), work::library_restore(key, &mut lent, block, tag), 0);
        agree(&format!("restore, {name}, the message"), lent == message, true);
    }
}

/// The derived keys, given, make the same tag with two calls less.
fn agree_on_master(what: &str, master: &[u8], derived: &[u8], message: &[u8]) {
    let (tag, [number, yes, calls]) = agree_on_make(what, work::mastered(6, 1), master, message, &[]);
    let given = work::library_make(work::agreed(6, 1), derived, message);
    agree(&format!("{what}, keys given"), given, (tag, [number, yes, calls - 2]));
}

fn agree_on_slip(what: &str, key: &[u8], slip: &[u8], number: u64) {
    let read = work::library_slip(key, slip);
    agree(what, read, work::baseline_slip(key, slip));
    agree(what, read[0], number);
}

fn main() {
    let rounds = std::env::args().nth(1).map_or(Some(ROUNDS), |word| word.parse().ok().filter(|n| *n > 0));
    let Some(rounds) = rounds else {
        eprintln!("bench [ROUNDS]");
        exit(2);
    };
    let message: Vec<u8> = (0..work::MESSAGE_BYTES).map(|i| (i * i / 251) as u8).collect();
    let (key, derived, slip) = (unhex(KEY).unwrap(), unhex(DERIVED).unwrap(), unhex(SLIP).unwrap());
    let (message, key, derived, slip) = (&message[..], &key[..], &derived[..], &slip[..]);
    let mut wrong = slip.to_vec();
    *wrong.last_mut().unwrap() ^= 1;
    let cut = &slip[..slip.len() - 1];
    let short = &message[message.len() - work::SHORT_BYTES..];
    let middle = &message[message.len() - work::MIDDLE_BYTES..];
    let (openssl, botan, libgcrypt) = (openssl::find(), peer::built("botan.so"), peer::built("gcrypt.so"));
    let peers: Vec<&Peer> = [&openssl, &botan, &libgcrypt].into_iter().flatten().collect();

    let (one, five) = (work::agreed(1, 1), work::agreed(5, 4));
    let tagged = agree_on_make("make, algorithm 1", one, key, message, &[]);
    agree("session", work::library_session(key, message), tagged);
    agree("the baseline's session", work::baseline_session(key, message), tagged);
    let (tag, [_, _, calls]) = &tagged;
    agree_on_check("check", key, message, tag, 1, *calls);
    agree_on_check("check of a wrong tag", key, message, &tag.map(|byte| byte ^ 1), 0, *calls);
    agree_on_restore(key, message, tag);
    let cmac = agree_on_make("make, algorithm 5", five, key, message, &peers);
    agree_on_make("make on 16 bytes, algorithm 1", one, key, short, &[]);
    agree_on_make("make on 16 bytes, algorithm 5", five, key, short, &peers);
    agree_on_master("make on 16 bytes under a master", key, derived, short);
    agree_on_master("make on 64 bytes under a master", key, derived, middle);
    agree_on_master("make on 1 MiB under a master", key, derived, message);
    agree_on_slip("slip", key, slip, 0);
    let gathered = work::library_gathered(key, [&slip[..CUT], &slip[CUT..]]);
    agree("slip gathered", gathered, work::baseline_slip(key, slip));
    agree_on_slip("slip with a wrong seal", key, &wrong, 30);
    agree_on_slip("slip cut short", key, cut, 20);
    let [written, expected] = work::written(key);
    agree("slip written", written, expected);
    agree("slip written as it is read", &written.0[..slip.len()], slip);
    println!("{}; {rounds} rounds of CPU time", report::machine());
    println!("All answers agree; the tags of 1 MiB are {} and {}.", hex(&tagged.0), hex(&cmac.0));

    let mut lines = [
        work::make_line("make on 1 MiB, algorithm 1, MiB a second", 1, one, key, message, &[]),
        work::session_line("session of 64 KiB pieces over 1 MiB, algorithm 1, MiB a second", key, message),
        work::check_line(
            "check in a session of 32 KiB pieces over 1 MiB, algorithm 1, MiB a second",
            key,
            message,
            tag,
        ),
        work::restore_line(
            "a block of 1 MiB restored, beside the check of it, algorithm 1, MiB a second",
            key,
            message,
            tag,
        ),
        work::slip_line("slips accepted a second", key, slip),
        work::gathered_line("slips gathered from two reads and accepted a second", key, slip, CUT),
        work::slip_line("slips refused a second, one bit of the seal wrong", key, &wrong),
        work::slip_line("slips refused a second, the last byte cut off", key, cut),
        work::write_line("slips written a second", key),
        work::make_line("tags of 16 bytes a second, algorithm 1", work::SHORT_CALLS, one, key, short, &[]),
        work::make_line(
            "tags of 16 bytes a second, algorithm 5 (CMAC), beside every peer",
            work::SHORT_CALLS,
            five,
            key,
            short,
            &peers,
        ),
        work::make_line(
            "tags of 1 MiB, algorithm 5 (CMAC), beside every peer, MiB a second",
            1,
            five,
            key,
            message,
            &peers,
        ),
        work::master_line(
            "tags of 16 bytes under a master a second, algorithm 6",
            work::SHORT_CALLS,
            key,
            derived,
            short,
        ),
        work::master_line(
            "tags of 64 bytes under a master a second, algorithm 6",
            work::SHORT_CALLS,
            key,
            derived,
            middle,
        ),
        work::master_line(
            "tags of 1 MiB under a master, algorithm 6, MiB a second",
            1,
            key,
            derived,
            message,
        ),
    ];
    measure::measure(&mut lines, rounds);
    report::table(&lines);
    for (peer, name, file) in [
        (&openssl, "OpenSSL", "libcrypto.so.3"),
        (&botan, "Botan", "target/peers/botan.so"),
        (&libgcrypt, "libgcrypt", "target/peers/gcrypt.so"),
    ] {
        if peer.is_none() {
            println!("{name} was not measured: there is no {file} that makes CMAC over SM4.");
        }
    }
    println!("At the end: {}", report::machine());
}
