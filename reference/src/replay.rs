//! What the replay program writes for its input: a snapshot, then a log.

use crate::log::run_log;
use crate::snapshot::{read_snapshot, write_snapshot, SNAPSHOT_BYTES};
use crate::state::{State, LINE_BYTES, MAP_BYTES, VRAM_BYTES};

/// The bytes on standard output and the text on standard error.
#[derive(Clone, Debug, PartialEq, Eq)]
pub struct Replayed {
    pub output: Vec<u8>,
    pub error: String,
}

/// The snapshot after the run and what the run reports, or the refusal. All
/// that comes after a snapshot's length is the log.
pub fn replay(input: &[u8]) -> Replayed {
    let (snapshot, log) = input.split_at(input.len().min(SNAPSHOT_BYTES));
    let mut state = State::default();
    let mut vram = vec![0; VRAM_BYTES];
    let read = read_snapshot(&mut state, &mut vram, snapshot);
    if read.refusal != 0 {
        return refused(read.refusal);
    }
    let (mut map, mut line) = (vec![0; MAP_BYTES], vec![0; LINE_BYTES]);
    let ran = run_log(&mut state, &mut vram, &mut map, &mut line, log);
    if ran.answer.refusal != 0 {
        return refused(ran.answer.refusal);
    }
    let mut output = vec![0; SNAPSHOT_BYTES];
    let written = write_snapshot(&state, &vram, &mut output);
    if written.refusal != 0 {
        return refused(written.refusal);
    }
    let (done, place, found) = (ran.done, ran.place, ran.answer.value);
    Replayed {
        output,
        error: format!("done {done} place {place} found {found}\n"),
    }
}

fn refused(number: u8) -> Replayed {
    Replayed {
        output: Vec::new(),
        error: format!("refused {number}\n"),
    }
}
