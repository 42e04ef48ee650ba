//! Snapshots: VRAM, 14 state bytes and a trailer of 8 bytes.

use crate::faults::{self, planted};
use crate::refusal::{self, refused, Answer};
use crate::state::{State, VRAM_BYTES};

pub const STATE_BYTES: usize = 14;
pub const TRAILER_BYTES: usize = 8;
pub const SNAPSHOT_BYTES: usize = VRAM_BYTES + STATE_BYTES + TRAILER_BYTES;

/// The trailer up to its sum: signature, 14 back to the state, 16,398 back to VRAM.
const TRAILER_START: [u8; 6] = [0x56, 0x31, 0x0E, 0x00, 0x0E, 0x40];
/// Where the trailer begins.
const TRAILER_AT: usize = VRAM_BYTES + STATE_BYTES;
/// Where the sum is, after all the bytes it adds up.
const SUM_AT: usize = TRAILER_AT + TRAILER_START.len();

/// The state as 14 bytes, without the redraw mark and the count of lost bytes.
pub fn state_to_bytes(state: &State) -> [u8; STATE_BYTES] {
    let mut bytes = [0; STATE_BYTES];
    bytes[..8].copy_from_slice(&state.registers);
    bytes[8..10].copy_from_slice(&state.address.to_le_bytes());
    bytes[10] = state.buffer;
    bytes[11] = u8::from(state.waiting.is_some());
    bytes[12] = state.waiting.unwrap_or(0);
    bytes[13] = state.status;
    bytes
}

/// The state that 14 bytes stand for, with the given redraw mark and a count of
/// 0, or none when they stand for no well-formed state.
pub fn state_from_bytes(bytes: &[u8], redraw: bool) -> Option<State> {
    let bytes: [u8; STATE_BYTES] = bytes.try_into().ok()?;
    let mut state = State {
        address: u16::from_le_bytes([bytes[8], bytes[9]]),
        buffer: bytes[10],
        waiting: waiting_from(bytes[11], bytes[12])?,
        status: bytes[13],
        redraw,
        ..State::default()
    };
    state.registers.copy_from_slice(&bytes[..8]);
    state.is_well_formed().then_some(state)
}

/// Flag 1 with any byte, or flag 0 with byte 0; the outer none is a refusal.
fn waiting_from(flag: u8, first: u8) -> Option<Option<u8>> {
    match (flag, first) {
        (0, 0) => Some(None),
        (1, byte) => Some(Some(byte)),
        _ => None,
    }
}

/// All the bytes before the sum, added up modulo 65,536.
fn sum_before(snapshot: &[u8]) -> u16 {
    snapshot
        .iter()
        .take(SUM_AT)
        .fold(0u16, |sum, &byte| sum.wrapping_add(byte.into()))
}

fn trailer_is_right(snapshot: &[u8]) -> bool {
    snapshot.get(TRAILER_AT..SUM_AT) == Some(&TRAILER_START[..])
}

fn sum_is_right(snapshot: &[u8]) -> bool {
    snapshot.get(SUM_AT..) == Some(&sum_before(snapshot).to_le_bytes()[..])
}

/// The state inside a snapshot; reading sets the redraw mark.
fn state_in(snapshot: &[u8]) -> Option<State> {
    state_from_bytes(snapshot.get(VRAM_BYTES..TRAILER_AT)?, true)
}

/// What can be wrong with a snapshot that is to be read.
pub fn snapshot_tests(snapshot: &[u8]) -> [(u8, bool); 4] {
    [
        (refusal::SNAPSHOT, snapshot.len() != SNAPSHOT_BYTES),
        (refusal::TRAILER, !trailer_is_right(snapshot)),
        (refusal::SUM, !sum_is_right(snapshot)),
        (refusal::STATE, state_in(snapshot).is_none()),
    ]
}

/// Takes VRAM and state from the snapshot. The state lent may be anything.
pub fn read_snapshot(state: &mut State, vram: &mut [u8], snapshot: &[u8]) -> Answer {
    let mut tests = vec![(refusal::VRAM, vram.len() != VRAM_BYTES)];
    tests.extend(snapshot_tests(snapshot));
    if let Some(no) = refused(&tests) {
        return no;
    }
    match (state_in(snapshot), snapshot.get(..VRAM_BYTES)) {
        (Some(read), Some(bytes)) => {
            let lost = state.lost;
            *state = read;
            if planted(faults::SNAPSHOT_KEEPS_COUNT) {
                state.lost = lost;
            }
            vram.copy_from_slice(bytes);
            Answer::accepted(0)
        }
        _ => Answer::refused(refusal::STATE),
    }
}

/// Writes VRAM, state and trailer into the lent snapshot.
pub fn write_snapshot(state: &State, vram: &[u8], snapshot: &mut [u8]) -> Answer {
    if let Some(no) = refused(&[
        (refusal::VRAM, vram.len() != VRAM_BYTES),
        (refusal::SNAPSHOT, snapshot.len() != SNAPSHOT_BYTES),
        (refusal::STATE, !state.is_well_formed()),
    ]) {
        return no;
    }
    snapshot[..VRAM_BYTES].copy_from_slice(vram);
    snapshot[VRAM_BYTES..TRAILER_AT].copy_from_slice(&state_to_bytes(state));
    snapshot[TRAILER_AT..SUM_AT].copy_from_slice(&TRAILER_START);
    let sum = sum_before(snapshot);
    snapshot[SUM_AT..].copy_from_slice(&sum.to_le_bytes());
    Answer::accepted(0)
}
