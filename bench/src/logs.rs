//! The run of a log, beside the same calls made singly.

use crate::c;
use crate::pictures::{picture, Picture};

pub const RECORDS: usize = 20_000;

/// What a log is run on.
pub struct Bench {
    lent: Picture,
    line: [u8; 256],
    log: Vec<u8>,
}

/// The logs, and what makes their calls singly.
pub const LOGS: [(&str, fn() -> Bench, fn(&mut Bench)); 2] = [
    ("data writes", data_writes, write_singly),
    ("control writes, in pairs", control_writes, control_singly),
];

fn data_writes() -> Bench {
    bench((0..RECORDS).flat_map(|place| [0, (place % 251) as u8]))
}

/// The pair that the table of ports has.
fn control_writes() -> Bench {
    bench((0..RECORDS).flat_map(|place| [1, [0x34, 0x52][place % 2]]))
}

fn bench(records: impl Iterator<Item = u8>) -> Bench {
    Bench {
        lent: picture(0, 0),
        line: [0; 256],
        log: log_of(records),
    }
}

/// Record bytes and their trailer.
pub fn log_of(records: impl Iterator<Item = u8>) -> Vec<u8> {
    let mut log: Vec<u8> = records.collect();
    let sum = log.iter().fold(0u16, |sum, byte| sum.wrapping_add(u16::from(*byte)));
    log.extend((log.len() as u16).to_le_bytes());
    log.extend(sum.to_le_bytes());
    log
}

// Safety, for every call below: each pointer comes with its slice's length, and the slices lie apart.

pub fn run(on: &mut Bench) {
    run_whole(&mut on.lent, &mut on.line, &on.log);
}

/// A log without reads, so that every record is done.
pub fn run_whole(lent: &mut Picture, line: &mut [u8], log: &[u8]) {
    let Picture { block, vram, map, .. } = lent;
    let mut outcome = [0; 4];
    let answer = unsafe {
        c::vdp_run_log(
            block.as_mut_ptr(),
            block.len(),
            vram.as_mut_ptr(),
            vram.len(),
            map.as_mut_ptr(),
            map.len(),
            line.as_mut_ptr(),
            line.len(),
            log.as_ptr(),
            log.len(),
            outcome.as_mut_ptr(),
            outcome.len(),
        )
    };
    assert_eq!(answer, 0);
    assert_eq!(outcome[..2], ((log.len() / 2 - 2) as u16).to_le_bytes());
}

fn write_singly(on: &mut Bench) {
    let Picture { block, vram, map, .. } = &mut on.lent;
    let mut refused = 0;
    for record in on.log[..2 * RECORDS].chunks_exact(2) {
        refused |= unsafe {
            c::vdp_data_write(
                block.as_mut_ptr(),
                block.len(),
                vram.as_mut_ptr(),
                vram.len(),
                map.as_mut_ptr(),
                map.len(),
                record[1],
            )
        };
    }
    assert_eq!(refused, 0);
}

fn control_singly(on: &mut Bench) {
    let Picture { block, vram, .. } = &mut on.lent;
    let mut refused = 0;
    for record in on.log[..2 * RECORDS].chunks_exact(2) {
        refused |=
            unsafe { c::vdp_control_write(block.as_mut_ptr(), block.len(), vram.as_ptr(), vram.len(), record[1]) };
    }
    assert_eq!(refused, 0);
}
