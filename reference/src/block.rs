//! The same calls with the state as a lent block of 17 bytes: the 14 of the
//! snapshot, then the redraw mark, then the count of lost first bytes, low byte
//! first. Each gives 256 * refusal + value.

use crate::faults::{self, planted};
use crate::log::{self, Ran, OUTCOME_BYTES};
use crate::refusal::{self, refused, Answer};
use crate::snapshot::{
    self, snapshot_tests, state_from_bytes, state_to_bytes, SNAPSHOT_BYTES, STATE_BYTES,
};
use crate::state::{State, FRAME_BYTES, LINE_BYTES, MAP_BYTES, NOTE_BYTES, VRAM_BYTES};
use crate::{frame, point, ports};

pub const BLOCK_BYTES: usize = STATE_BYTES + 3;

/// The state a block stands for, or none when its contents are wrong.
pub fn read_block(block: &[u8]) -> Option<State> {
    let [bytes @ .., redraw, _, _] = block else {
        return None;
    };
    let state = match redraw {
        0 => state_from_bytes(bytes, false)?,
        1 => state_from_bytes(bytes, true)?,
        _ => return None,
    };
    Some(State {
        lost: lost_in(block),
        ..state
    })
}

/// Puts a state into a block of 17 bytes.
fn write_block(block: &mut [u8], state: &State) {
    if let [bytes @ .., redraw, low, high] = block {
        bytes.copy_from_slice(&state_to_bytes(state));
        *redraw = u8::from(state.redraw);
        [*low, *high] = count_bytes(state.lost.to_le_bytes());
    }
}

/// The count at a block's end, whatever stands before it.
fn lost_in(block: &[u8]) -> u16 {
    match block {
        [.., low, high] => u16::from_le_bytes(count_bytes([*low, *high])),
        _ => 0,
    }
}

/// The count's two bytes as they are, but for the planted mistake.
fn count_bytes([low, high]: [u8; 2]) -> [u8; 2] {
    if planted(faults::COUNT_HIGH_FIRST) {
        [high, low]
    } else {
        [low, high]
    }
}

fn block_length(block: &[u8]) -> (u8, bool) {
    (refusal::SLICE, block.len() != BLOCK_BYTES)
}

fn vram_length(vram: &[u8]) -> (u8, bool) {
    (refusal::VRAM, vram.len() != VRAM_BYTES)
}

fn slice_length(slice: &[u8], length: usize) -> (u8, bool) {
    (refusal::SLICE, slice.len() != length)
}

/// Tests the other slices' lengths together with the block, in the one order;
/// then runs the call on the block's state and puts the next state back.
fn over_block(
    block: &mut [u8],
    lengths: &[(u8, bool)],
    call: impl FnOnce(&mut State) -> Answer,
) -> u32 {
    match tested_state(block, lengths) {
        Err(no) => no.number(),
        Ok(mut state) => {
            let answer = call(&mut state);
            write_block(block, &state);
            answer.number()
        }
    }
}

/// The block's state, or the first refusal of its tests and the lengths.
fn tested_state(block: &[u8], lengths: &[(u8, bool)]) -> Result<State, Answer> {
    let mut tests = lengths.to_vec();
    tests.push(block_length(block));
    if let Some(no) = refused(&tests) {
        return Err(no);
    }
    read_block(block).ok_or(Answer::refused(refusal::STATE))
}

/// The block's old contents may be anything.
pub fn vdp_power_up(block: &mut [u8], vram: &mut [u8]) -> u32 {
    if let Some(no) = refused(&[vram_length(vram), block_length(block)]) {
        return no.number();
    }
    let mut state = State::default();
    let answer = ports::power_up(&mut state, vram);
    write_block(block, &state);
    answer.number()
}

pub fn vdp_control_write(block: &mut [u8], vram: &[u8], byte: u8) -> u32 {
    over_block(block, &[vram_length(vram)], |state| {
        ports::control_write(state, vram, byte)
    })
}

pub fn vdp_data_write(block: &mut [u8], vram: &mut [u8], map: &mut [u8], byte: u8) -> u32 {
    let lengths = [vram_length(vram), slice_length(map, MAP_BYTES)];
    over_block(block, &lengths, |state| {
        ports::data_write(state, vram, map, byte)
    })
}

pub fn vdp_data_read(block: &mut [u8], vram: &[u8]) -> u32 {
    over_block(block, &[vram_length(vram)], |state| {
        ports::data_read(state, vram)
    })
}

pub fn vdp_status_read(block: &mut [u8]) -> u32 {
    over_block(block, &[], ports::status_read)
}

pub fn vdp_end_of_display(block: &mut [u8]) -> u32 {
    over_block(block, &[], ports::end_of_display)
}

pub fn vdp_interrupt_line(block: &[u8]) -> u32 {
    match tested_state(block, &[]) {
        Err(no) => no.number(),
        Ok(state) => ports::interrupt_line(&state).number(),
    }
}

pub fn vdp_reset(block: &mut [u8]) -> u32 {
    over_block(block, &[], ports::reset)
}

pub fn vdp_draw_line(
    block: &mut [u8],
    vram: &[u8],
    line: &mut [u8],
    origins: &mut [u8],
    number: u32,
) -> u32 {
    let lengths = [
        vram_length(vram),
        slice_length(line, LINE_BYTES),
        slice_length(origins, LINE_BYTES),
    ];
    if planted(faults::ORIGINS_BEFORE_TESTED) {
        origins.fill(0);
    }
    over_block(block, &lengths, |state| {
        frame::draw_line(state, vram, line, origins, number)
    })
}

/// The block is only read. It is lent to be written for the planted mistake
/// alone, which draws the point's line.
pub fn vdp_point(block: &mut [u8], vram: &[u8], line: u32, column: u32) -> u32 {
    let answer = match tested_state(block, &[vram_length(vram)]) {
        Err(no) => no,
        Ok(state) => point::point(&state, vram, line, column),
    };
    if answer.refusal == 0 && planted(faults::POINT_DRAWS) {
        let (colours, origins) = (&mut [0; LINE_BYTES], &mut [0; LINE_BYTES]);
        vdp_draw_line(block, vram, colours, origins, line);
    }
    answer.number()
}

pub fn vdp_origin(block: &[u8], vram: &[u8], line: u32, column: u32) -> u32 {
    match tested_state(block, &[vram_length(vram)]) {
        Err(no) => no.number(),
        Ok(state) => point::origin(&state, vram, line, column).number(),
    }
}

/// The lengths that full draw and refresh test.
fn frame_lengths(vram: &[u8], map: &[u8], frame: &[u8], notes: &[u8]) -> [(u8, bool); 4] {
    [
        vram_length(vram),
        slice_length(map, MAP_BYTES),
        slice_length(frame, FRAME_BYTES),
        slice_length(notes, NOTE_BYTES),
    ]
}

pub fn vdp_full_draw(
    block: &mut [u8],
    vram: &[u8],
    map: &mut [u8],
    frame: &mut [u8],
    notes: &mut [u8],
) -> u32 {
    let lengths = frame_lengths(vram, map, frame, notes);
    over_block(block, &lengths, |state| {
        frame::full_draw(state, vram, map, frame, notes)
    })
}

pub fn vdp_refresh(
    block: &mut [u8],
    vram: &[u8],
    map: &mut [u8],
    frame: &mut [u8],
    notes: &mut [u8],
) -> u32 {
    let lengths = frame_lengths(vram, map, frame, notes);
    over_block(block, &lengths, |state| {
        frame::refresh(state, vram, map, frame, notes)
    })
}

/// The block's old contents may be anything; the snapshot's are tested.
pub fn vdp_read_snapshot(block: &mut [u8], vram: &mut [u8], snapshot: &[u8]) -> u32 {
    let mut tests = vec![vram_length(vram), block_length(block)];
    tests.extend(snapshot_tests(snapshot));
    if let Some(no) = refused(&tests) {
        return no.number();
    }
    // The old count goes along: it is the reading that clears it.
    let mut state = State {
        lost: lost_in(block),
        ..State::default()
    };
    let answer = snapshot::read_snapshot(&mut state, vram, snapshot);
    write_block(block, &state);
    answer.number()
}

pub fn vdp_write_snapshot(block: &[u8], vram: &[u8], snapshot: &mut [u8]) -> u32 {
    let lengths = [
        vram_length(vram),
        (refusal::SNAPSHOT, snapshot.len() != SNAPSHOT_BYTES),
    ];
    match tested_state(block, &lengths) {
        Err(no) => no.number(),
        Ok(state) => snapshot::write_snapshot(&state, vram, snapshot).number(),
    }
}

/// Also puts the records done and the place into the lent outcome, when
/// accepted.
pub fn vdp_run_log(
    block: &mut [u8],
    vram: &mut [u8],
    map: &mut [u8],
    line: &mut [u8],
    log: &[u8],
    outcome: &mut [u8],
) -> u32 {
    let lengths = [
        vram_length(vram),
        slice_length(map, MAP_BYTES),
        slice_length(line, LINE_BYTES),
        slice_length(outcome, OUTCOME_BYTES),
    ];
    over_block(block, &lengths, |state| {
        let ran: Ran = log::run_log(state, vram, map, line, log);
        if ran.answer.refusal == 0 {
            outcome.copy_from_slice(&ran.outcome());
        }
        ran.answer
    })
}

/// No block: a log alone.
pub fn vdp_read_log(log: &[u8], records: &mut [u8]) -> u32 {
    log::read_log(log, records).number()
}

/// No block: record bytes alone.
pub fn vdp_write_log(records: &[u8], log: &mut [u8]) -> u32 {
    log::write_log(records, log).number()
}
