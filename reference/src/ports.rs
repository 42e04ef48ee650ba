//! What the CPU does to the chip, and the end of active display.

use crate::faults::{self, planted};
use crate::refusal::{self, refused, Answer};
use crate::state::{byte_at, map_set, put_at, State, C, F, FIFTH, MAP_BYTES, MASKS, VRAM_BYTES};

/// Zero state with the redraw mark, and VRAM all zeros. The state lent may be
/// anything.
pub fn power_up(state: &mut State, vram: &mut [u8]) -> Answer {
    if let Some(no) = refused(&[(refusal::VRAM, vram.len() != VRAM_BYTES)]) {
        return no;
    }
    *state = State::at_power_up();
    vram.fill(0);
    Answer::accepted(0)
}

/// The first byte of a pair only waits; the second completes the pair.
pub fn control_write(state: &mut State, vram: &[u8], byte: u8) -> Answer {
    if let Some(no) = refused(&[
        (refusal::VRAM, vram.len() != VRAM_BYTES),
        (refusal::STATE, !state.is_well_formed()),
    ]) {
        return no;
    }
    match state.waiting {
        None => {
            state.waiting = Some(byte);
            count_by_mistake(state, faults::FIRST_BYTE_COUNTS);
        }
        Some(first) => {
            complete_pair(state, vram, first, byte);
            count_by_mistake(state, faults::PAIR_COUNTS);
        }
    }
    Answer::accepted(0)
}

/// Every pair moves the address. Top bit on: also a register write. Both top
/// bits off: also a first fetch for reading.
fn complete_pair(state: &mut State, vram: &[u8], first: u8, second: u8) {
    state.address = u16::from(second % 64) * 256 + u16::from(first);
    state.waiting = None;
    if second >= 128 {
        write_register(state, usize::from(second % 8), first);
    } else if second < 64 {
        state.buffer = byte_at(vram, state.address.into());
        state.step();
    }
}

/// Keeps the masked bits; a change of what is kept sets the redraw mark.
fn write_register(state: &mut State, number: usize, byte: u8) {
    let kept = byte & MASKS[number % 8];
    let register = &mut state.registers[number % 8];
    if *register != kept {
        state.redraw = true;
    }
    *register = kept;
}

/// Nothing waits any more, and a first byte that waited is counted as lost. The
/// planted mistake is the one of the call.
fn drop_first_byte(state: &mut State, forgets: u32) {
    let waited = state.waiting.is_some() || planted(faults::COUNTS_WITHOUT_WAITING);
    if waited && !planted(forgets) {
        count_lost(state);
    }
    state.waiting = None;
}

/// One more lost first byte; the count stops at 65,535.
fn count_lost(state: &mut State) {
    state.lost = match state.lost {
        65_535 if planted(faults::COUNT_WRAPS) => 0,
        65_534 if planted(faults::COUNT_STOPS_EARLY) => 65_534,
        65_535 => 65_535,
        lost => lost + 1,
    };
}

/// Counts only when that mistake is planted.
fn count_by_mistake(state: &mut State, fault: u32) {
    if planted(fault) {
        count_lost(state);
    }
}

/// The byte goes to VRAM and the buffer, and the map learns of it.
pub fn data_write(state: &mut State, vram: &mut [u8], map: &mut [u8], byte: u8) -> Answer {
    if let Some(no) = refused(&[
        (refusal::VRAM, vram.len() != VRAM_BYTES),
        (refusal::SLICE, map.len() != MAP_BYTES),
        (refusal::STATE, !state.is_well_formed()),
    ]) {
        return no;
    }
    let at = usize::from(state.address);
    let equal = byte_at(vram, at) == byte;
    put_at(vram, at, byte);
    state.buffer = byte;
    let forgets =
        planted(faults::WRITE_FORGETS_MAP) || equal && planted(faults::EQUAL_WRITE_FORGETS_MAP);
    if !forgets {
        map_set(map, at);
    }
    state.step();
    drop_first_byte(state, faults::DATA_WRITE_FORGETS_COUNT);
    Answer::accepted(0)
}

/// Gives the old buffer and fetches the next byte ahead.
pub fn data_read(state: &mut State, vram: &[u8]) -> Answer {
    if let Some(no) = refused(&[
        (refusal::VRAM, vram.len() != VRAM_BYTES),
        (refusal::STATE, !state.is_well_formed()),
    ]) {
        return no;
    }
    let read = state.buffer;
    state.buffer = byte_at(vram, state.address.into());
    if !(planted(faults::READ_DOES_NOT_WRAP) && state.address == 16_383) {
        state.step();
    }
    drop_first_byte(state, faults::DATA_READ_FORGETS_COUNT);
    Answer::accepted(read)
}

/// Gives status and then turns its three flags off; the number stays.
pub fn status_read(state: &mut State) -> Answer {
    if let Some(no) = refused(&[(refusal::STATE, !state.is_well_formed())]) {
        return no;
    }
    let read = state.status;
    state.status &= !(F | FIFTH | C);
    drop_first_byte(state, faults::STATUS_READ_FORGETS_COUNT);
    Answer::accepted(read)
}

/// Turns F on.
pub fn end_of_display(state: &mut State) -> Answer {
    if let Some(no) = refused(&[(refusal::STATE, !state.is_well_formed())]) {
        return no;
    }
    state.status |= F;
    Answer::accepted(0)
}

/// 1 when F is on and register 1 allows interrupts, else 0.
pub fn interrupt_line(state: &State) -> Answer {
    if let Some(no) = refused(&[(refusal::STATE, !state.is_well_formed())]) {
        return no;
    }
    let on = state.status & F != 0 && state.has(1, 0x20);
    Answer::accepted(u8::from(on))
}

/// Registers 0 and 1, status, the waiting byte and the count of lost ones go;
/// all is to be redrawn. The other registers, address and buffer stay.
pub fn reset(state: &mut State) -> Answer {
    if let Some(no) = refused(&[(refusal::STATE, !state.is_well_formed())]) {
        return no;
    }
    state.registers[0] = 0;
    state.registers[1] = 0;
    state.status = 0;
    state.lost = lost_after_reset(state);
    state.waiting = None;
    if !planted(faults::RESET_FORGETS_MARK) {
        state.redraw = true;
    }
    Answer::accepted(0)
}

/// 0, whether a byte waits or not, but for two of the planted mistakes.
fn lost_after_reset(state: &State) -> u16 {
    if planted(faults::RESET_KEEPS_COUNT) {
        state.lost
    } else if planted(faults::RESET_COUNTS) {
        u16::from(state.waiting.is_some())
    } else {
        0
    }
}
