//! Slips that come in reads of any lengths: the record after each read must be that of all bytes that came, and the answer at the
//! end that of the bytes joined. And records that nobody gathered.

use crate::draw::{far, Settings};
use crate::run::Run;
use reference::cases::Random;
use reference::gathered::Gathered;

/// The reads that bring a slip: one, one for each byte, or any, some of no bytes.
fn reads<'a>(r: &mut Random, slip: &'a [u8]) -> Vec<&'a [u8]> {
    match r.below(8) {
        0 => return vec![slip],
        1 => return slip.chunks(1).collect(),
        _ => (),
    }
    let (mut reads, mut left) = (Vec::new(), slip);
    while !left.is_empty() {
        let count = match r.below(4) {
            0 => 0,
            1 => 1,
            _ => r.below(left.len() as u64 + 1) as usize,
        };
        let (read, rest) = left.split_at(count);
        reads.push(read);
        left = rest;
    }
    reads
}

/// A slip, gathered and read.
pub fn slip(r: &mut Random, run: &mut Run, s: &Settings, slip: &[u8]) {
    let (mut record, mut came) = (Gathered::of(&[]), Vec::new());
    for read in reads(r, slip) {
        record = run.gather(&record, &mut came, read);
    }
    run.read_gathered("gathered", s.agreement, &s.keys, &record, slip);
}

/// A record that begins with a slip, has other bytes after it and any count: as it is, and after one more read.
pub fn forged(r: &mut Random, run: &mut Run, s: &Settings, slip: &[u8]) {
    let mut bytes = [0; 80];
    r.fill(&mut bytes);
    let own = slip.len().min(80);
    bytes[..own].copy_from_slice(&slip[..own]);
    let count = match r.below(8) {
        0..=2 => own as u64,
        3 => own as u64 + (1 << (8 + r.below(56))), // the slip's own in its lowest bits alone
        4 => r.below(own as u64 + 1),
        5 => 74 + r.below(8),
        6 => r.below(81),
        _ => far(r),
    };
    let record = Gathered { count, bytes };
    let mut came = record.held().to_vec();
    run.read_gathered("forged", s.agreement, &s.keys, &record, &came);
    let read = match r.below(4) {
        0 => Vec::new(),
        1 => slip.get(came.len()..).unwrap_or(&[]).to_vec(), // what is missing of the slip
        _ => {
            let mut bytes = vec![0; r.below(100) as usize];
            r.fill(&mut bytes);
            bytes
        }
    };
    let record = run.gather(&record, &mut came, &read);
    run.read_gathered("forged", s.agreement, &s.keys, &record, &came);
}
