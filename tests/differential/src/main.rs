//! differential [SEED [COUNT]]: compares the proved library with the reference on COUNT pseudo-random cases, half of them one call
//! (a tag made, a tag checked, a lost block restored), a quarter sessions that make or check a tag, a quarter slips, and on a
//! quarter as many again, slips that are written; then on one slip of each algorithm and padding cut and changed everywhere, on the
//! longest message, and on slips written with every m and at the borders of every field. Every slip is gathered from reads too. Of the
//! algorithms that take a master, every second agreement has one; of the others some, which are refused.
//! differential SEED KIND INDEX runs one case again (call, session, slip, write, every, border, rooms, values).
//! Ends with status 1 at the first difference, and where, in 10,000 cases or more, an answer that can arise came too seldom.

use differential::run::Run;
use differential::{border, calls, sessions, slips, writes};
use reference::cases::Random;
use reference::mac::padding_fits;
use std::time::Instant;

const SEED: u64 = 20_261_104;
const COUNT: u64 = 400_000;

/// The answers to a slip that is read under what was agreed.
const READ: &[&str] = &["0", "20", "21", "22", "23", "24", "25", "1", "2", "3", "4", "5", "10", "30"];

/// The answers that can arise, of each function. A message of which a block was restored is checked. A slip that was written is
/// read back, one that was accepted written again, and one that was read is read under another agreement than it names; both are
/// gathered from reads too. "11 other" is the answer to a finish of the other purpose, and "11 purpose" and "11 master" to a record
/// that counts as closed for its purpose or its master alone; "11 open" to one that would be open but for the number of its master.
const ANSWERS: [(&str, &[&str]); 18] = [
    ("make", &["0", "1", "2", "3", "4", "5", "7", "8", "9", "10"]),
    ("check", &["yes", "no", "1", "2", "3", "4", "5", "7", "8", "9", "10"]),
    ("restore", &["0", "1", "2", "3", "4", "5", "7", "8", "9", "10", "41"]),
    ("restored", &["yes"]),
    ("start", &["0", "1", "2", "3", "4", "5", "8"]),
    ("start_check", &["0", "1", "2", "3", "4", "5", "8", "10"]),
    ("piece", &["0", "11", "11 purpose", "11 master", "7", "8", "12"]),
    ("finish", &["0", "11", "11 other", "11 purpose", "11 master", "12", "9", "10"]),
    ("finish_check", &["yes", "no", "11", "11 other", "11 purpose", "11 master", "12", "9"]),
    ("odd master", &["11 open"]),
    ("read", READ),
    ("other", &["20", "21", "22", "23", "24", "25"]),
    ("write", &["0", "22", "23", "1", "2", "3", "4", "5", "10"]),
    ("back", &["0"]),
    ("again", &["0"]),
    ("gather", &["empty", "part", "full"]),
    ("gathered", READ),
    // Of the forged records few hold a whole slip, and so 1, 2, 3 and 5 are too few to be asked for.
    ("forged", &["0", "20", "21", "22", "23", "24", "25", "4", "10", "30"]),
];

/// Of these, the answers under a master, but for those that are too few to be asked for.
const MASTERS: [(&str, &[&str]); 16] = [
    ("make", &["0", "1", "2", "3", "4", "5", "7", "8", "9", "10"]),
    ("check", &["yes", "no", "1", "2", "3", "4", "5", "7", "8", "9", "10"]),
    ("restore", &["0", "1", "2", "3", "4", "5", "7", "9", "10", "41"]),
    ("restored", &["yes"]),
    ("start", &["0", "2", "3", "4", "5"]),
    ("start_check", &["0", "2", "3", "4", "5", "10"]),
    ("piece", &["0", "11", "11 purpose", "11 master", "7", "8"]),
    ("finish", &["0", "11", "11 other", "11 purpose", "11 master", "12", "9", "10"]),
    ("finish_check", &["yes", "no", "11", "11 other", "11 purpose", "11 master", "12", "9"]),
    ("odd master", &["11 open"]),
    ("read", &["0", "20", "21", "22", "23", "24", "25", "4", "30"]),
    ("write", &["0", "22", "23", "2", "3", "4", "5", "10"]),
    ("back", &["0"]),
    ("again", &["0"]),
    ("gathered", &["0", "20", "21", "22", "23", "24", "25", "4", "30"]),
    ("forged", &["0", "20", "21", "22", "23", "24", "25", "4"]),
];

/// How a session ends that is compared with one call.
const ENDS: [&str; 3] = ["made", "yes", "no"];

/// A kind's place goes into the draws of its cases.
const KINDS: [&str; 8] = ["call", "session", "slip", "every", "border", "write", "rooms", "values"];

/// The algorithms, each with each of its paddings.
fn pairs() -> Vec<[u64; 2]> {
    let all = (1..=8).flat_map(|a| (1..=4).map(move |p| [a, p]));
    all.filter(|[a, p]| padding_fits(*a, *p)).collect()
}

fn place(kind: &str) -> Option<usize> {
    KINDS.iter().position(|other| *other == kind)
}

fn case(run: &mut Run, seed: u64, kind: usize, index: u64) {
    run.case = format!("{seed} {} {index}", KINDS[kind]);
    let mixed = seed.wrapping_mul(0x9E37_79B9_7F4A_7C15) ^ index.wrapping_mul(0xD134_2543_DE82_EF95);
    let r = &mut Random::new(mixed.wrapping_add((kind as u64) << 60));
    match KINDS[kind] {
        "call" => calls::case(r, run),
        "session" => sessions::case(r, run),
        "slip" => slips::case(r, run),
        "every" => slips::every(r, run, pairs()[index as usize % pairs().len()]),
        "write" => writes::case(r, run),
        "rooms" => writes::rooms(r, run, pairs()[index as usize % pairs().len()]),
        "values" => writes::values(r, run),
        _ if index == 0 => border::known(r, run),
        _ => border::case(r, run, pairs()[(index as usize - 1) % pairs().len()]),
    }
}

/// The answers that make up a thousandth of their function's calls or less, or under a master a third of that. It is asked after the
/// pseudo-random cases, for those that go through every byte, every m or every day, or stand at the border, come out the same
/// whatever the seed.
fn too_seldom(run: &Run) -> Vec<String> {
    let mut seldom = Vec::new();
    for (function, answers) in ANSWERS {
        let all = run.calls_of(function);
        let few = answers.iter().filter(|answer| run.often(function, answer) <= all / 1000);
        seldom.extend(few.map(|answer| format!("{function} {answer}")));
    }
    for (function, answers) in MASTERS {
        let all = run.calls_of(function);
        let few = answers.iter().filter(|answer| run.often_under_master(function, answer) <= all / 3000);
        seldom.extend(few.map(|answer| format!("{function} {answer} under a master")));
    }
    let few = ENDS.iter().filter(|end| like_one_call(run, end) <= run.calls_of("start") / 100);
    seldom.extend(few.map(|end| format!("sessions like one call: {end}")));
    seldom
}

fn like_one_call(run: &Run, end: &str) -> u64 {
    run.joined.get(end).copied().unwrap_or(0)
}

fn whole(run: &mut Run, seed: u64, count: u64) -> bool {
    let begin = Instant::now();
    let pairs = pairs().len() as u64;
    let (mut cases, mut seldom) = (0, Vec::new());
    println!("seed {seed}");
    let drawn = [("call", count / 2), ("session", count / 4), ("slip", count / 4), ("write", count / 4)];
    let fixed = [("every", pairs), ("border", 1 + pairs), ("rooms", pairs), ("values", 1)];
    for (name, share) in drawn.into_iter().chain(fixed) {
        let (from, before) = (Instant::now(), run.calls());
        let kind = place(name).expect("a kind");
        (0..share).for_each(|index| case(run, seed, kind, index));
        cases += share;
        let (calls, seconds) = (run.calls() - before, from.elapsed().as_secs_f64());
        println!("{name:8} {share:7} cases, {calls:8} calls compared, {seconds:5.1} s");
        if name == "write" {
            seldom = too_seldom(run);
        }
    }
    for (function, answers) in ANSWERS {
        let counts = answers.iter().map(|answer| format!("  {answer}: {}", run.often(function, answer)));
        println!("{function:12}{}", counts.collect::<String>());
    }
    println!("of these under a master:");
    for (function, answers) in MASTERS {
        let counts =
            answers.iter().map(|answer| format!("  {answer}: {}", run.often_under_master(function, answer)));
        println!("{function:12}{}", counts.collect::<String>());
    }
    let ends = ENDS.map(|end| format!("{end} {}", like_one_call(run, end)));
    println!("sessions with nothing forged that ended like one call: {}", ends.join(", "));
    let [yes, no, other] = ["yes", "no", "11 other"].map(|answer| run.often("finish_check", answer));
    println!("checks in sessions: {yes} yes, {no} no, {other} refused with 11 for the other purpose");
    let other = run.often("finish", "11 other");
    println!("finishes that would make a tag: {other} refused with 11 for the other purpose");
    println!("messages with a lost block restored, then checked with yes: {}", run.often("restored", "yes"));
    println!("slips gathered and answered like their bytes joined: {}", run.calls_of("gathered"));
    println!("forged records answered like the bytes they stand for: {}", run.calls_of("forged"));
    let (calls, seconds) = (run.calls(), begin.elapsed().as_secs_f64());
    if count >= 10_000 && !seldom.is_empty() {
        println!("differential: too seldom: {}", seldom.join(", "));
        return false;
    }
    println!(
        "differential: no difference in {cases} cases, {calls} calls compared, seed {seed}, {seconds:.1} s"
    );
    true
}

fn main() {
    let words: Vec<String> = std::env::args().skip(1).collect();
    let number = |i: usize, default: u64| words.get(i).map_or(Some(default), |word| word.parse::<u64>().ok());
    let kind = words.get(1).and_then(|word| place(word));
    let mut run = Run::default();
    match (number(0, SEED), kind, number(1, COUNT), number(2, 0)) {
        (Some(seed), Some(kind), _, Some(index)) => {
            case(&mut run, seed, kind, index);
            println!("differential: no difference in {}", run.case);
        }
        (Some(seed), None, Some(count), _) if words.len() < 3 => {
            if !whole(&mut run, seed, count) {
                std::process::exit(1);
            }
        }
        _ => {
            eprintln!("differential [SEED [COUNT]]    differential SEED {} INDEX", KINDS.join("|"));
            std::process::exit(2);
        }
    }
}
