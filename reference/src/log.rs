//! Logs of port calls: records of two bytes (operation and value), then a
//! trailer of four. The reader, the writer and the run.

use crate::faults::{self, planted};
use crate::frame::draw_line;
use crate::ports::{control_write, data_read, data_write, end_of_display, reset, status_read};
use crate::refusal::{self, refused, Answer};
use crate::state::{State, LINE_BYTES, MAP_BYTES, VRAM_BYTES};

pub const RECORD_BYTES: usize = 2;
pub const LOG_TRAILER_BYTES: usize = 4;
pub const LOG_RECORDS_MAX: usize = 20_000;
pub const LOG_BYTES_MAX: usize = LOG_RECORDS_MAX * RECORD_BYTES + LOG_TRAILER_BYTES;
pub const OUTCOME_BYTES: usize = 4;

/// Operation whose value is the byte written.
pub const DATA_WRITE: u8 = 0;
/// Operation whose value is the byte written.
pub const CONTROL_WRITE: u8 = 1;
/// Operation whose value is the byte expected.
pub const DATA_READ: u8 = 2;
/// Operation whose value is the byte expected.
pub const STATUS_READ: u8 = 3;
/// Operation whose value is the line's number.
pub const DRAW_LINE: u8 = 4;
/// Operation whose value is 0.
pub const END_OF_DISPLAY: u8 = 5;
/// Operation whose value is 0.
pub const RESET: u8 = 6;

/// What a run answers: the refusal and the byte found, how many records were
/// done, and the place of the differing read. All 0 when refused.
#[derive(Clone, Copy, Debug, PartialEq, Eq)]
pub struct Ran {
    pub answer: Answer,
    pub done: u16,
    pub place: u16,
}

impl Ran {
    pub fn refused(answer: Answer) -> Ran {
        Ran {
            answer,
            done: 0,
            place: 0,
        }
    }

    /// The four bytes of the report for C.
    pub fn outcome(self) -> [u8; OUTCOME_BYTES] {
        let ([done, done_high], [place, place_high]) =
            (self.done.to_le_bytes(), self.place.to_le_bytes());
        [done, done_high, place, place_high]
    }
}

/// From no record to 20,000, and the trailer.
fn log_length_is_right(log: &[u8]) -> bool {
    log.len() >= LOG_TRAILER_BYTES && log.len() % RECORD_BYTES == 0 && log.len() <= LOG_BYTES_MAX
}

/// Record bytes fill a log up to its trailer.
fn lengths_are_right(log: &[u8], records: &[u8]) -> bool {
    log_length_is_right(log) && records.len() + LOG_TRAILER_BYTES == log.len()
}

/// A log cut into record bytes and trailer.
fn parts(log: &[u8]) -> (&[u8], &[u8]) {
    log.split_at(log.len().saturating_sub(LOG_TRAILER_BYTES))
}

/// How far back from the trailer the first record is.
fn distance_to_first(records: &[u8]) -> u16 {
    (records.len() % 65_536) as u16
}

/// The record bytes added up modulo 65,536, without the trailer.
fn sum_of(records: &[u8]) -> u16 {
    let sum = records
        .iter()
        .fold(0u16, |sum, &byte| sum.wrapping_add(byte.into()));
    if planted(faults::SUM_WITH_TRAILER) {
        let [low, high] = distance_to_first(records).to_le_bytes();
        sum.wrapping_add(low.into()).wrapping_add(high.into())
    } else {
        sum
    }
}

/// Two bytes as a number, the low one first.
fn number(low: u8, high: u8) -> u16 {
    if planted(faults::TRAILER_HIGH_FIRST) {
        u16::from_be_bytes([low, high])
    } else {
        u16::from_le_bytes([low, high])
    }
}

fn trailer_is_right(log: &[u8]) -> bool {
    match parts(log) {
        (records, &[distance, distance_high, sum, sum_high]) => {
            let distance_is_right = number(distance, distance_high) == distance_to_first(records);
            (distance_is_right || planted(faults::DISTANCE_NOT_TESTED))
                && number(sum, sum_high) == sum_of(records)
        }
        _ => false,
    }
}

/// An operation up to 6, with a value that it can have.
fn record_is_right(operation: u8, value: u8) -> bool {
    match operation {
        DATA_WRITE | CONTROL_WRITE | DATA_READ | STATUS_READ => true,
        DRAW_LINE => value <= 191 || value == 192 && planted(faults::LINE_192_IN_LOG),
        END_OF_DISPLAY => value == 0,
        RESET => value == 0 || planted(faults::RESET_WITH_VALUE),
        7 => planted(faults::OPERATION_7),
        _ => false,
    }
}

/// The records as pairs. A byte left over at the end is in none.
fn pairs(records: &[u8]) -> impl Iterator<Item = (u8, u8)> + '_ {
    records
        .chunks_exact(RECORD_BYTES)
        .map(|record| (record[0], record[1]))
}

fn records_are_right(records: &[u8]) -> bool {
    pairs(records).all(|(operation, value)| record_is_right(operation, value))
}

/// The two tests of a log, from whether its form is right and its records.
fn log_tests(form_is_right: bool, records: &[u8]) -> [(u8, bool); 2] {
    let wrong_record = !records_are_right(records);
    let form_comes_later = wrong_record && planted(faults::RECORD_TESTED_FIRST);
    [
        (refusal::LOG_FORM, !form_is_right && !form_comes_later),
        (refusal::LOG_RECORD, wrong_record),
    ]
}

/// The record bytes of a log.
pub fn read_log(log: &[u8], records: &mut [u8]) -> Answer {
    let form_is_right = lengths_are_right(log, records) && trailer_is_right(log);
    if let Some(no) = refused(&log_tests(form_is_right, parts(log).0)) {
        return no;
    }
    records.copy_from_slice(parts(log).0);
    Answer::accepted(0)
}

/// The log of record bytes.
pub fn write_log(records: &[u8], log: &mut [u8]) -> Answer {
    if let Some(no) = refused(&log_tests(lengths_are_right(log, records), records)) {
        return no;
    }
    let (front, trailer) = log.split_at_mut(records.len());
    front.copy_from_slice(records);
    let (distance, sum) = trailer.split_at_mut(2);
    distance.copy_from_slice(&distance_to_first(records).to_le_bytes());
    sum.copy_from_slice(&sum_of(records).to_le_bytes());
    Answer::accepted(0)
}

/// Makes the calls that the records name, up to the end or to the first read
/// that gives another byte than expected; that read is done too.
pub fn run_log(
    state: &mut State,
    vram: &mut [u8],
    map: &mut [u8],
    line: &mut [u8],
    log: &[u8],
) -> Ran {
    let (records, _) = parts(log);
    let mut tests = vec![
        (refusal::VRAM, vram.len() != VRAM_BYTES),
        (refusal::SLICE, map.len() != MAP_BYTES),
        (refusal::SLICE, line.len() != LINE_BYTES),
        (refusal::STATE, !state.is_well_formed()),
    ];
    let form_is_right = log_length_is_right(log) && trailer_is_right(log);
    tests.extend(log_tests(form_is_right, records));
    if let Some(no) = refused(&tests) {
        if no.refusal == refusal::LOG_RECORD && planted(faults::RUN_BEFORE_TESTED) {
            for (operation, value) in pairs(records).take_while(|&(o, v)| record_is_right(o, v)) {
                single_call(state, vram, map, line, operation, value);
            }
        }
        return Ran::refused(no);
    }
    run_records(state, vram, map, line, records)
}

/// The run of records that are all right.
fn run_records(
    state: &mut State,
    vram: &mut [u8],
    map: &mut [u8],
    line: &mut [u8],
    records: &[u8],
) -> Ran {
    let lost = state.lost;
    let mut differing: Option<(u16, u8)> = None;
    let mut count: u16 = 0;
    for (operation, value) in pairs(records) {
        let answer = single_call(state, vram, map, line, operation, value);
        let is_read = operation == DATA_READ || operation == STATUS_READ;
        if is_read && answer.value != value && differing.is_none() {
            differing = Some((count, byte_found(state, operation, answer.value)));
        }
        count += 1;
        if differing.is_some() && !planted(faults::GOES_ON_AFTER_DIFFERING) {
            break;
        }
    }
    if planted(faults::RUN_KEEPS_COUNT) {
        state.lost = lost;
    }
    match differing {
        None => Ran {
            answer: Answer::accepted(0),
            done: count,
            place: count,
        },
        Some((at, found)) => Ran {
            answer: Answer::accepted(found),
            done: at + u16::from(!planted(faults::DIFFERING_NOT_COUNTED)),
            place: at + u16::from(planted(faults::PLACE_ONE_TOO_HIGH)),
        },
    }
}

/// The byte that the read gave, but for the planted mistake.
fn byte_found(after: &State, operation: u8, given: u8) -> u8 {
    match operation {
        DATA_READ if planted(faults::FOUND_AFTER_READ) => after.buffer,
        STATUS_READ if planted(faults::FOUND_AFTER_READ) => after.status,
        _ => given,
    }
}

/// The one call that a record names.
fn single_call(
    state: &mut State,
    vram: &mut [u8],
    map: &mut [u8],
    line: &mut [u8],
    operation: u8,
    value: u8,
) -> Answer {
    match operation {
        DATA_WRITE if planted(faults::RUN_FORGETS_MAP) => {
            data_write(state, vram, &mut map.to_vec(), value)
        }
        DATA_WRITE => data_write(state, vram, map, value),
        CONTROL_WRITE => control_write(state, vram, value),
        DATA_READ => data_read(state, vram),
        STATUS_READ => status_read(state),
        // A run keeps to colours.
        DRAW_LINE => draw_line(state, vram, line, &mut [0; LINE_BYTES], value.into()),
        END_OF_DISPLAY => end_of_display(state),
        RESET => reset(state),
        // Only a planted mistake lets another operation come here.
        _ => Answer::accepted(0),
    }
}
