//! Refusal numbers and the order in which they are tested.

/// VRAM slice of wrong length.
pub const VRAM: u8 = 1;
/// Another slice of wrong length (line, origins, map, frame, notes, block).
pub const SLICE: u8 = 2;
/// Ill-formed state or block contents.
pub const STATE: u8 = 3;
/// Line number too high.
pub const LINE: u8 = 4;
/// Snapshot slice of wrong length.
pub const SNAPSHOT: u8 = 5;
/// Trailer signature or a distance wrong.
pub const TRAILER: u8 = 6;
/// Snapshot sum wrong.
pub const SUM: u8 = 7;
/// Log or record bytes of wrong length, or a wrong trailer of a log.
pub const LOG_FORM: u8 = 8;
/// A record with a wrong operation or value.
pub const LOG_RECORD: u8 = 9;
/// Column number too high.
pub const COLUMN: u8 = 13;

/// Which refusal goes before which.
pub const ORDER: [u8; 10] = [
    VRAM, SLICE, SNAPSHOT, TRAILER, SUM, STATE, LINE, COLUMN, LOG_FORM, LOG_RECORD,
];

/// What a call answers: its refusal number (0 when accepted) and a value.
/// The value is the byte read, the interrupt line, the count of redrawn lines,
/// the byte found by a run, a point's colour or its origin, and 0 where the call
/// has none of these or is refused.
#[derive(Clone, Copy, Debug, PartialEq, Eq)]
pub struct Answer {
    pub refusal: u8,
    pub value: u8,
}

impl Answer {
    pub fn accepted(value: u8) -> Answer {
        Answer { refusal: 0, value }
    }

    pub fn refused(refusal: u8) -> Answer {
        Answer { refusal, value: 0 }
    }

    /// The one number the C host gets.
    pub fn number(self) -> u32 {
        256 * u32::from(self.refusal) + u32::from(self.value)
    }
}

/// Takes pairs of refusal number and "this is wrong"; gives the refusal that
/// comes first in the order, or none when nothing is wrong.
pub fn refused(tests: &[(u8, bool)]) -> Option<Answer> {
    for number in ORDER {
        if tests.contains(&(number, true)) {
            return Some(Answer::refused(number));
        }
    }
    None
}
