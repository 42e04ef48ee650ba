//! Each refusal of a drawn line, of a point and of its origin: alone, and each two at once. These cases come from tables
//! and not from random numbers: every run has all of them, whatever its seed.

use crate::calls::{Call, Case, Slice, Step, NAMES, SLICES};

/// Calls that are accepted as they are.
const CALLS: [Call; 3] = [Call::DrawLine(60), Call::Point(60, 57), Call::Origin(60, 57)];

const LINES: [u32; 4] = [192, 255, 256, u32::MAX];
const COLUMNS: [u32; 4] = [256, 257, 65_536, u32::MAX];

/// Bytes of the block that leave no state.
const CONTENTS: [(usize, u8); 4] = [(0, 4), (9, 0x40), (11, 2), (14, 2)];

/// A state that drawing changes: with the memory below, every sprite covers the line.
const BLOCK: [u8; 17] = [
    0, 0x41, 1, 2, 3, 4, 5, 6, 0x34, 0x12, 0x56, 1, 0x81, 0x07, 0, 0xFE, 0xFF,
];

/// One thing that is wrong with a call.
#[derive(Clone, Copy)]
enum Harm {
    Length(Slice, usize),
    Contents(usize, u8),
    Line(u32),
    Column(u32),
}

/// All that can be wrong with a call.
fn harms(call: Call) -> Vec<Harm> {
    let lengths = call.lent().iter().flat_map(|&slice| {
        let right = SLICES[slice as usize].2;
        [0, right - 1, right + 1].map(|length| Harm::Length(slice, length))
    });
    let mut harms: Vec<Harm> = lengths.collect();
    harms.extend(CONTENTS.map(|(at, byte)| Harm::Contents(at, byte)));
    harms.extend(LINES.map(Harm::Line));
    if !matches!(call, Call::DrawLine(_)) {
        harms.extend(COLUMNS.map(Harm::Column));
    }
    harms
}

/// The call with this wrong too; of two wrong values for one thing the second counts.
fn harmed(mut step: Step, harm: Harm) -> Step {
    match (harm, &mut step.call) {
        (Harm::Length(slice, length), _) => step.lengths.push((slice, length)),
        (Harm::Contents(at, byte), _) => step.spoil.push((at, byte)),
        (Harm::Line(wrong), Call::DrawLine(line) | Call::Point(line, _) | Call::Origin(line, _)) => *line = wrong,
        (Harm::Column(wrong), Call::Point(_, column) | Call::Origin(_, column)) => *column = wrong,
        _ => {}
    }
    step
}

/// How many cases there are: one to a call.
pub fn count() -> u64 {
    CALLS.len() as u64
}

/// The call that a case is about.
pub fn name(number: u64) -> &'static str {
    CALLS[number as usize].place().map_or("", |place| NAMES[place])
}

/// Refused calls, and an accepted one after them.
pub fn case(number: u64) -> Case {
    let call = CALLS[number as usize];
    let harms = harms(call);
    let mut steps = Vec::new();
    for (place, &first) in harms.iter().enumerate() {
        let alone = harmed(call.into(), first);
        steps.push(alone.clone());
        steps.extend(harms[place + 1..].iter().map(|&second| harmed(alone.clone(), second)));
    }
    steps.push(call.into());
    Case {
        block: BLOCK.to_vec(),
        vram: vec![0x35; 16384],
        map: vec![0; 2048],
        notes: vec![32; 192],
        logs: Vec::new(),
        steps,
    }
}
