//! Cases: a start and a list of calls, run on both sides and compared after every call.

use crate::library::{Calls, LIBRARY, REFERENCE};
use crate::logs::{Host, Log};
use crate::points::{self, Points};
use crate::refreshes::Refreshes;
use crate::{replay, show};
use reference::block::read_block;
use reference::line::sprites_meet;
use std::ops::RangeInclusive;

/// What can be lent. Logs and record bytes are each call's own and have no length of their own.
#[derive(Clone, Copy, Debug, PartialEq, Eq)]
pub enum Slice {
    Block,
    Vram,
    Map,
    Frame,
    Notes,
    Line,
    Origins,
    Snapshot,
    Outcome,
}

pub const SLICES: [(Slice, &str, usize); 9] = [
    (Slice::Block, "block", 17),
    (Slice::Vram, "VRAM", 16384),
    (Slice::Map, "map", 2048),
    (Slice::Frame, "frame", 49152),
    (Slice::Notes, "notes", 192),
    (Slice::Line, "line", 256),
    (Slice::Origins, "origins", 256),
    (Slice::Snapshot, "snapshot", 16406),
    (Slice::Outcome, "outcome", 4),
];

/// Where the block has the count of lost first bytes.
const LOST: usize = 15;

/// Bytes before and after each slice that no call may touch.
pub const GUARD: usize = 8;

/// A call, or something that the host itself does to its bytes.
#[derive(Clone, Copy, Debug, PartialEq, Eq)]
pub enum Call {
    PowerUp,
    ControlWrite(u8),
    DataWrite(u8),
    DataRead,
    StatusRead,
    EndOfDisplay,
    InterruptLine,
    Reset,
    DrawLine(u32),
    /// Line and column.
    Point(u32, u32),
    Origin(u32, u32),
    ReadSnapshot,
    WriteSnapshot,
    FullDraw,
    Refresh,
    /// The calls of a log, by its place among the case's logs.
    RunLog(usize),
    ReadLog(usize),
    WriteLog(usize),
    /// The replay program over the snapshot and a log.
    Replay(usize),
    /// The show program over the snapshot.
    Show,
    /// Every point of a line and its origin, on copies of block and VRAM.
    LinePoints(u32),
    /// The host sets the block's status.
    PutStatus(u8),
    /// The host sets the block's count of lost first bytes.
    PutLost(u16),
    /// The host fills the frame with a byte that is no colour, and the notes with another.
    PutPicture(u8, u8),
    /// The host changes a byte of the snapshot, and its sum with it or not.
    PutSnapshot(usize, u8, bool),
}

/// The calls by name, for counting.
pub const NAMES: [&str; 18] = [
    "power_up",
    "control_write",
    "data_write",
    "data_read",
    "status_read",
    "end_of_display",
    "interrupt_line",
    "reset",
    "draw_line",
    "read_snapshot",
    "write_snapshot",
    "full_draw",
    "refresh",
    "run_log",
    "read_log",
    "write_log",
    "point",
    "origin",
];

/// The refusal numbers that calls have.
pub const REFUSED: [usize; 10] = [1, 2, 3, 4, 5, 6, 7, 8, 9, 13];

impl Call {
    /// Its place in NAMES; the programs and the host's own doing have none.
    pub fn place(self) -> Option<usize> {
        match self {
            Call::PowerUp => Some(0),
            Call::ControlWrite(_) => Some(1),
            Call::DataWrite(_) => Some(2),
            Call::DataRead => Some(3),
            Call::StatusRead => Some(4),
            Call::EndOfDisplay => Some(5),
            Call::InterruptLine => Some(6),
            Call::Reset => Some(7),
            Call::DrawLine(_) => Some(8),
            Call::ReadSnapshot => Some(9),
            Call::WriteSnapshot => Some(10),
            Call::FullDraw => Some(11),
            Call::Refresh => Some(12),
            Call::RunLog(_) => Some(13),
            Call::ReadLog(_) => Some(14),
            Call::WriteLog(_) => Some(15),
            Call::Point(..) => Some(16),
            Call::Origin(..) => Some(17),
            Call::Replay(_) | Call::Show | Call::LinePoints(_) => None,
            Call::PutStatus(_) | Call::PutLost(_) | Call::PutPicture(..) | Call::PutSnapshot(..) => None,
        }
    }

    /// Its place in DROPPING.
    fn dropping(self) -> Option<usize> {
        match self {
            Call::DataWrite(_) => Some(0),
            Call::DataRead => Some(1),
            Call::StatusRead => Some(2),
            _ => None,
        }
    }

    /// The slices it is lent.
    pub fn lent(self) -> &'static [Slice] {
        match self {
            Call::PowerUp | Call::ControlWrite(_) | Call::DataRead => &[Slice::Block, Slice::Vram],
            Call::Point(..) | Call::Origin(..) => &[Slice::Block, Slice::Vram],
            Call::DataWrite(_) => &[Slice::Block, Slice::Vram, Slice::Map],
            Call::StatusRead | Call::EndOfDisplay | Call::InterruptLine | Call::Reset => &[Slice::Block],
            Call::DrawLine(_) => &[Slice::Block, Slice::Vram, Slice::Line, Slice::Origins],
            Call::ReadSnapshot | Call::WriteSnapshot => &[Slice::Block, Slice::Vram, Slice::Snapshot],
            Call::FullDraw | Call::Refresh => &[Slice::Block, Slice::Vram, Slice::Map, Slice::Frame, Slice::Notes],
            Call::RunLog(_) => &[Slice::Block, Slice::Vram, Slice::Map, Slice::Line, Slice::Outcome],
            Call::Replay(_) | Call::Show => &[Slice::Snapshot],
            Call::ReadLog(_) | Call::WriteLog(_) | Call::LinePoints(_) => &[],
            Call::PutStatus(_) | Call::PutLost(_) | Call::PutPicture(..) | Call::PutSnapshot(..) => &[],
        }
    }

    /// The place of its log.
    pub fn log(self) -> Option<usize> {
        match self {
            Call::RunLog(log) | Call::ReadLog(log) | Call::WriteLog(log) | Call::Replay(log) => Some(log),
            _ => None,
        }
    }
}

/// A call with what is wrong about it.
#[derive(Clone, Debug, PartialEq, Eq)]
pub struct Step {
    pub call: Call,
    /// Slices lent at another length.
    pub lengths: Vec<(Slice, usize)>,
    /// Bytes of the block set before the call, and set back when it is refused.
    pub spoil: Vec<(usize, u8)>,
}

impl Step {
    /// The length at which a slice is lent.
    fn length(&self, slice: Slice) -> usize {
        let other = self.lengths.iter().find(|(named, _)| *named == slice);
        other.map_or(SLICES[slice as usize].2, |&(_, length)| length)
    }
}

impl From<Call> for Step {
    fn from(call: Call) -> Step {
        Step {
            call,
            lengths: Vec::new(),
            spoil: Vec::new(),
        }
    }
}

impl std::fmt::Display for Step {
    fn fmt(&self, f: &mut std::fmt::Formatter<'_>) -> std::fmt::Result {
        match self.call {
            Call::PutStatus(byte) => write!(f, "(host) block[13] = {byte:02X}")?,
            Call::PutLost(count) => write!(f, "(host) count of lost first bytes = {count}")?,
            Call::PutPicture(frame, note) => write!(f, "(host) frame all {frame:02X}, notes all {note:02X}")?,
            Call::PutSnapshot(at, byte, sum) => {
                let sum = if sum { ", and the sum with it" } else { "" };
                write!(f, "(host) snapshot[{at}] = {byte:02X}{sum}")?
            }
            Call::Show => write!(f, "show")?,
            Call::Replay(log) => write!(f, "replay (log {log})")?,
            Call::LinePoints(line) => write!(f, "vdp_point and vdp_origin({line}, each column)")?,
            call => {
                let argument = match call {
                    Call::ControlWrite(byte) | Call::DataWrite(byte) => format!("{byte:02X}"),
                    Call::DrawLine(number) => number.to_string(),
                    Call::Point(line, column) | Call::Origin(line, column) => format!("{line}, {column}"),
                    Call::RunLog(log) | Call::ReadLog(log) | Call::WriteLog(log) => format!("log {log}"),
                    _ => String::new(),
                };
                write!(f, "vdp_{}({argument})", call.place().map_or("", |place| NAMES[place]))?
            }
        }
        for (slice, length) in &self.lengths {
            write!(f, ", {slice:?} of {length} bytes")?;
        }
        for (at, byte) in &self.spoil {
            write!(f, ", block[{at}] = {byte:02X} until refused")?;
        }
        Ok(())
    }
}

/// A start and a list of calls with their logs. Frame, line, origins and outcome start with foreign bytes.
#[derive(Clone, Debug)]
pub struct Case {
    pub block: Vec<u8>,
    pub vram: Vec<u8>,
    pub map: Vec<u8>,
    pub notes: Vec<u8>,
    pub logs: Vec<Log>,
    pub steps: Vec<Step>,
}

/// One side's bytes, each slice between its guards.
struct Side {
    bytes: Vec<Vec<u8>>,
    /// Of the call that is made; empty for one without a log.
    log: Vec<u8>,
    records: Vec<u8>,
}

const FOREIGN: u8 = 0xEE;
const GUARD_BYTE: u8 = 0xA5;

fn guarded(inner: &[u8]) -> Vec<u8> {
    let guard = [GUARD_BYTE; GUARD];
    [&guard[..], inner, &guard].concat()
}

fn within(guarded: &[u8]) -> &[u8] {
    &guarded[GUARD..guarded.len() - GUARD]
}

fn within_mut(guarded: &mut [u8]) -> &mut [u8] {
    let end = guarded.len() - GUARD;
    &mut guarded[GUARD..end]
}

impl Side {
    fn new(case: &Case) -> Side {
        let bytes = SLICES.iter().map(|&(slice, _, length)| {
            let mut bytes = vec![GUARD_BYTE; GUARD + length + GUARD];
            let inner = &mut bytes[GUARD..GUARD + length];
            match slice {
                Slice::Block => inner.copy_from_slice(&case.block),
                Slice::Vram => inner.copy_from_slice(&case.vram),
                Slice::Map => inner.copy_from_slice(&case.map),
                Slice::Notes => inner.copy_from_slice(&case.notes),
                Slice::Frame | Slice::Line | Slice::Origins | Slice::Outcome => inner.fill(FOREIGN),
                // A right one of the start.
                Slice::Snapshot => {
                    (REFERENCE.write_snapshot)(&case.block, &case.vram, inner);
                }
            }
            bytes
        });
        Side {
            bytes: bytes.collect(),
            log: guarded(&[]),
            records: guarded(&[]),
        }
    }

    /// The log and record bytes that the next call is lent.
    fn put_log(&mut self, log: &[u8], records: &[u8]) {
        if !log.is_empty() || !records.is_empty() || self.log.len() + self.records.len() > 4 * GUARD {
            (self.log, self.records) = (guarded(log), guarded(records));
        }
    }

    fn slice(&mut self, slice: Slice) -> &mut [u8] {
        let place = slice as usize;
        &mut self.bytes[place][GUARD..GUARD + SLICES[place].2]
    }

    /// The snapshot as the programs are lent it.
    fn lent_snapshot(&self, step: &Step) -> &[u8] {
        &self.bytes[Slice::Snapshot as usize][GUARD..GUARD + step.length(Slice::Snapshot)]
    }

    /// What single calls are lent in place of a run.
    fn host(&mut self, step: &Step) -> Host {
        Host {
            block: self.lent_block(step),
            vram: self.slice(Slice::Vram).to_vec(),
            map: self.slice(Slice::Map).to_vec(),
            line: self.slice(Slice::Line).to_vec(),
        }
    }

    /// The block as the call is lent it.
    fn lent_block(&mut self, step: &Step) -> Vec<u8> {
        let mut block = self.slice(Slice::Block).to_vec();
        for &(at, byte) in &step.spoil {
            block[at] = byte;
        }
        block
    }

    /// Makes the call and gives its answer; the host's own doing answers 0.
    fn make(&mut self, calls: &Calls, step: &Step) -> u32 {
        let (before, lent) = (self.slice(Slice::Block).to_vec(), self.lent_block(step));
        self.slice(Slice::Block).copy_from_slice(&lent);
        let answer = self.lend(calls, step);
        if answer >= 256 {
            for &(at, _) in &step.spoil {
                self.slice(Slice::Block)[at] = before[at];
            }
        }
        answer
    }

    fn lend(&mut self, calls: &Calls, step: &Step) -> u32 {
        let (log, records) = (within_mut(&mut self.log), within_mut(&mut self.records));
        let mut lent = self
            .bytes
            .iter_mut()
            .zip(SLICES)
            .map(|(bytes, (slice, _, _))| &mut bytes[GUARD..GUARD + step.length(slice)]);
        let mut next = || lent.next().unwrap_or_default();
        let (block, vram, map, frame) = (next(), next(), next(), next());
        let (notes, line, origins) = (next(), next(), next());
        let (snapshot, outcome) = (next(), next());
        match step.call {
            Call::PowerUp => (calls.power_up)(block, vram),
            Call::ControlWrite(byte) => (calls.control_write)(block, vram, byte),
            Call::DataWrite(byte) => (calls.data_write)(block, vram, map, byte),
            Call::DataRead => (calls.data_read)(block, vram),
            Call::StatusRead => (calls.status_read)(block),
            Call::EndOfDisplay => (calls.end_of_display)(block),
            Call::InterruptLine => (calls.interrupt_line)(block),
            Call::Reset => (calls.reset)(block),
            Call::DrawLine(number) => (calls.draw_line)(block, vram, line, origins, number),
            Call::Point(line, column) => (calls.point)(block, vram, line, column),
            Call::Origin(line, column) => (calls.origin)(block, vram, line, column),
            Call::ReadSnapshot => (calls.read_snapshot)(block, vram, snapshot),
            Call::WriteSnapshot => (calls.write_snapshot)(block, vram, snapshot),
            Call::FullDraw => (calls.full_draw)(block, vram, map, frame, notes),
            Call::Refresh => (calls.refresh)(block, vram, map, frame, notes),
            Call::RunLog(_) => (calls.run_log)(block, vram, map, line, log, outcome),
            Call::ReadLog(_) => (calls.read_log)(log, records),
            Call::WriteLog(_) => (calls.write_log)(records, log),
            Call::Replay(_) | Call::Show | Call::LinePoints(_) => 0,
            Call::PutStatus(byte) => {
                block[13] = byte;
                0
            }
            Call::PutLost(count) => {
                block[LOST..].copy_from_slice(&count.to_le_bytes());
                0
            }
            Call::PutPicture(byte, note) => {
                frame.fill(byte);
                notes.fill(note);
                0
            }
            Call::PutSnapshot(at, byte, sum) => {
                snapshot[at] = byte;
                if sum {
                    let sum = snapshot[..16404]
                        .iter()
                        .fold(0u16, |sum, &byte| sum.wrapping_add(byte.into()));
                    snapshot[16404..].copy_from_slice(&sum.to_le_bytes());
                }
                0
            }
        }
    }
}

/// What the cases have reached.
#[derive(Default)]
pub struct Reached {
    /// Answers of each call by refusal number.
    pub answers: [[u64; 14]; NAMES.len()],
    /// Draws that turned 5S or C on.
    pub fifth: u64,
    pub coincidence: u64,
    /// First bytes dropped by single calls and by calls of a run.
    pub lost: Lost,
    pub lost_in_runs: Lost,
    /// Blocks that were refused for their length, as in BLOCKS.
    pub blocks: [u64; BLOCKS.len()],
    /// Draws that turned C on where sprites meet on hidden columns alone, as in HIDDEN.
    pub hidden: [u64; HIDDEN.len()],
    /// Refreshes by what they redrew: nothing, some lines, all.
    pub refreshes: [u64; 3],
    /// Refreshes held against a full draw.
    pub full_draws: u64,
    /// Runs by their number of records, as in LENGTHS; accepted, but for the last.
    pub lengths: [u64; LENGTHS.len()],
    /// Runs that ended at a differing read.
    pub differing: u64,
    /// Records done by runs that were held against single calls, by operation.
    pub operations: [u64; 7],
    /// Logs read and written back, and record bytes written and read back.
    pub round_trips: [u64; 2],
    /// Replays that were accepted and refused.
    pub replayed: [u64; 2],
    pub shown: u64,
    pub points: Points,
    pub foreign: Refreshes,
}

/// The calls that drop a waiting first byte.
pub const DROPPING: [&str; 3] = ["data write", "data read", "status read"];

/// The counts of lost first bytes that such a call starts from.
pub const LOST_FROM: [&str; 3] = ["less than 65,534", "65,534", "65,535"];

/// First bytes dropped: by which call, and from which count.
pub type Lost = [[u64; LOST_FROM.len()]; DROPPING.len()];

/// Lengths of a block that is too short or too long: the one without the count, and those next to the right one.
pub const BLOCKS: [usize; 3] = [15, 16, 18];

/// Lines by the side of the screen on which sprites meet, and draws of whole pictures.
pub const HIDDEN: [&str; 4] = ["lines left of 0", "lines right of 255", "full draws", "refreshes"];

/// The numbers of records at the ends, and one too many.
pub const LENGTHS: [usize; 5] = [0, 1, 19_999, 20_000, 20_001];

/// Where the sides part: after which step, and how.
pub struct Difference {
    pub step: usize,
    pub what: String,
}

/// Runs a case on both sides.
pub fn run(case: &Case, reached: &mut Reached) -> Result<(), Difference> {
    let (mut library, mut second) = (Side::new(case), Side::new(case));
    // The start's frame is foreign. It follows VRAM from the first full draw on, or the first
    // refresh with the redraw mark set, until the host puts another.
    let mut follows = false;
    for (at, step) in case.steps.iter().enumerate() {
        let before = library.lent_block(step);
        let (log, records) = lent_logs(case, step, &mut second);
        library.put_log(&log, &records);
        second.put_log(&log, &records);
        // What the same calls made singly start from, and what a point leaves as it is.
        let host = matches!(step.call, Call::RunLog(_) | Call::Point(..)).then(|| library.host(step));
        // What a refresh over a foreign picture is counted by.
        let over = foreign_before(&case.steps, at).map(|foreign| (foreign, library.slice(Slice::Map).to_vec()));
        let (answer, expected) = (library.make(&LIBRARY, step), second.make(&REFERENCE, step));
        let mut found = compare(answer, expected, &library, &second);
        let refreshed = step.call == Call::Refresh && answer < 256;
        follows |= step.call == Call::FullDraw && answer < 256 || refreshed && before[14] == 1;
        follows &= !matches!(step.call, Call::PutPicture(..));
        count_hidden(step, expected, before[13], follows, &mut second, reached);
        if found.is_none() && follows && refreshed {
            found = full_draw_differs(before.clone(), &mut library, reached);
        }
        if found.is_none() {
            found = match step.call {
                Call::RunLog(_) => host.and_then(|host| singles_differ(host, answer, &mut library, reached)),
                Call::ReadLog(_) | Call::WriteLog(_) if answer == 0 => round_trip_differs(step.call, &library, reached),
                Call::Point(line, column) => {
                    let after = library.host(step);
                    host.and_then(|host| points::differs(&host, &after, (line, column), answer, &mut reached.points))
                }
                Call::LinePoints(line) => points::line_differs(&library.host(step), line, &mut reached.points),
                Call::Show => show::differs(library.lent_snapshot(step), &mut reached.shown),
                Call::Replay(_) => {
                    let input = [library.lent_snapshot(step), &log].concat();
                    replay::differs(&input, &mut reached.replayed)
                }
                _ => None,
            };
        }
        if let Some(what) = found {
            return Err(Difference { step: at, what });
        }
        count(step, answer, &before, library.slice(Slice::Block), reached);
        if let (true, Some((foreign, map))) = (refreshed, over) {
            let frame = library.slice(Slice::Frame);
            reached.foreign.count(&before, &map, frame, foreign);
        }
    }
    Ok(())
}

/// The byte that the host fills the frame with right before a refresh.
fn foreign_before(steps: &[Step], at: usize) -> Option<u8> {
    match (steps[..at].last()?.call, steps[at].call) {
        (Call::PutPicture(foreign, _), Call::Refresh) => Some(foreign),
        _ => None,
    }
}

/// The log and record bytes that a step lends; none where it has no log. What is to be written over is
/// foreign.
fn lent_logs(case: &Case, step: &Step, second: &mut Side) -> (Vec<u8>, Vec<u8>) {
    let Some(plan) = step.call.log().map(|at| &case.logs[at]) else {
        return (Vec::new(), Vec::new());
    };
    match step.call {
        Call::RunLog(_) => {
            let block = second.lent_block(step);
            let log = plan.log_bytes(&plan.run_bytes(&block, second.slice(Slice::Vram)));
            (log, Vec::new())
        }
        Call::Replay(_) => {
            let snapshot = second.slice(Slice::Snapshot);
            let block = [&snapshot[16384..16398], &[1, 0, 0]].concat();
            let log = plan.log_bytes(&plan.run_bytes(&block, &snapshot[..16384]));
            (log, Vec::new())
        }
        Call::ReadLog(_) => {
            let log = plan.log_bytes(&plan.plain_bytes());
            let mut records = vec![FOREIGN; log.len().saturating_sub(4)];
            plan.cut_records(&mut records);
            (log, records)
        }
        _ => {
            let mut records = plan.plain_bytes();
            let mut log = vec![FOREIGN; records.len() + 4];
            plan.cut(&mut log);
            records.resize(log.len().saturating_sub(4), 0);
            plan.cut_records(&mut records);
            (log, records)
        }
    }
}

fn compare(answer: u32, expected: u32, library: &Side, second: &Side) -> Option<String> {
    if answer != expected {
        return Some(format!("the library answers {answer}, the reference {expected}"));
    }
    for (place, (_, name, length)) in SLICES.into_iter().enumerate() {
        let differing = differing(name, length, &library.bytes[place], &second.bytes[place]);
        if differing.is_some() {
            return differing;
        }
    }
    for (name, ours, theirs) in [
        ("log", &library.log, &second.log),
        ("record bytes", &library.records, &second.records),
    ] {
        let differing = differing(name, within(ours).len(), ours, theirs);
        if differing.is_some() {
            return differing;
        }
    }
    None
}

/// Where both sides' bytes of a slice and its guards differ.
fn differing(name: &str, length: usize, ours: &[u8], theirs: &[u8]) -> Option<String> {
    if ours == theirs {
        return None;
    }
    let at = ours
        .iter()
        .zip(theirs)
        .position(|(ours, theirs)| ours != theirs)
        .unwrap_or(0);
    let (left, right) = (ours[at], theirs[at]);
    Some(if at < GUARD || at >= GUARD + length {
        format!("the library wrote beside the {name}")
    } else {
        format!("{name}[{}] is {left:02X} in the library, {right:02X} in the reference", at - GUARD)
    })
}

/// The calls of a run made singly by the library, as far as the run reports them done.
fn singles_differ(mut host: Host, answer: u32, after: &mut Side, reached: &mut Reached) -> Option<String> {
    let log = within(&after.log);
    let records = log[..log.len().saturating_sub(4)].to_vec();
    let length = LENGTHS
        .iter()
        .position(|&length| 2 * length == records.len() && log.len() >= 4);
    if answer >= 256 {
        if length == Some(4) {
            reached.lengths[4] += 1;
        }
        return None;
    }
    let outcome = after.slice(Slice::Outcome).to_vec();
    if let Some(what) = host.differs(&LIBRARY, &records, answer, &outcome, &mut reached.lost_in_runs) {
        return Some(what);
    }
    for (slice, single) in [
        (Slice::Block, &host.block),
        (Slice::Vram, &host.vram),
        (Slice::Map, &host.map),
        (Slice::Line, &host.line),
    ] {
        let run = after.slice(slice);
        if let Some(at) = (0..run.len()).find(|&at| run[at] != single[at]) {
            let name = SLICES[slice as usize].1;
            return Some(format!(
                "{name}[{at}] is {:02X} after the run, {:02X} after the same calls made singly",
                run[at], single[at]
            ));
        }
    }
    if let Some(place) = length.filter(|&place| place < 4) {
        reached.lengths[place] += 1;
    }
    let done = usize::from(outcome[0]) + 256 * usize::from(outcome[1]);
    reached.differing += u64::from(outcome[..2] != outcome[2..]);
    for record in records.chunks(2).take(done) {
        reached.operations[usize::from(record[0])] += 1;
    }
    None
}

/// What the library has read, written back; what it has written, read back.
fn round_trip_differs(call: Call, after: &Side, reached: &mut Reached) -> Option<String> {
    let (log, records) = (within(&after.log), within(&after.records));
    let (back, there) = if let Call::ReadLog(_) = call {
        reached.round_trips[0] += 1;
        let mut back = vec![FOREIGN; log.len()];
        ((LIBRARY.write_log)(records, &mut back), back == log)
    } else {
        reached.round_trips[1] += 1;
        let mut back = vec![FOREIGN; records.len()];
        ((LIBRARY.read_log)(log, &mut back), back == records)
    };
    match (back, there) {
        (0, true) => None,
        (0, false) => Some("the way back ends at other bytes".to_string()),
        (answer, _) => Some(format!("the way back answers {answer}")),
    }
}

/// A full draw into other buffers, from the block before the refresh.
fn full_draw_differs(mut block: Vec<u8>, after: &mut Side, reached: &mut Reached) -> Option<String> {
    let (mut map, mut frame, mut notes) = (vec![FOREIGN; 2048], vec![FOREIGN; 49152], vec![FOREIGN; 192]);
    let answer = (LIBRARY.full_draw)(&mut block, after.slice(Slice::Vram), &mut map, &mut frame, &mut notes);
    if answer != 0 {
        return Some(format!("a full draw beside the refresh answers {answer}"));
    }
    reached.full_draws += 1;
    for (whole, slice) in [
        (block, Slice::Block),
        (map, Slice::Map),
        (frame, Slice::Frame),
        (notes, Slice::Notes),
    ] {
        let refreshed = after.slice(slice);
        if let Some(at) = (0..whole.len()).find(|&at| whole[at] != refreshed[at]) {
            let name = SLICES[slice as usize].1;
            return Some(format!(
                "{name}[{at}] is {:02X} after the refresh, {:02X} after a full draw",
                refreshed[at], whole[at]
            ));
        }
    }
    None
}

fn count(step: &Step, answer: u32, before: &[u8], after: &[u8], reached: &mut Reached) {
    if let Some(place) = step.call.place() {
        reached.answers[place][(answer / 256).min(13) as usize] += 1;
    }
    for (place, length) in BLOCKS.into_iter().enumerate() {
        let lent = step.lengths.contains(&(Slice::Block, length));
        reached.blocks[place] += u64::from(lent && answer == 2 * 256);
    }
    if let (Some(place), 0..=255) = (step.call.dropping(), answer) {
        count_lost(place, before, after, &mut reached.lost);
    }
    if let Call::DrawLine(_) | Call::FullDraw | Call::Refresh = step.call {
        let turned_on = after[13] & !before[13];
        reached.fifth += u64::from(turned_on & 0x40 != 0);
        reached.coincidence += u64::from(turned_on & 0x20 != 0);
    }
    if step.call == Call::Refresh && answer < 256 {
        reached.refreshes[match answer {
            0 => 0,
            192 => 2,
            _ => 1,
        }] += 1;
    }
}

/// Counts an accepted call of DROPPING where a first byte waited and the count of lost ones went up by one or was at its
/// end.
pub fn count_lost(place: usize, before: &[u8], after: &[u8], lost: &mut Lost) {
    let count = |block: &[u8]| u16::from_le_bytes([block[LOST], block[LOST + 1]]);
    let from = match (count(before), count(after)) {
        (65_535, 65_535) => 2,
        (65_534, 65_535) => 1,
        (from, to) if from.checked_add(1) == Some(to) => 0,
        _ => return,
    };
    lost[place][from] += u64::from(before[11] == 1);
}

/// Counts a draw that turned C on, by the reference, where no sprites meet on a visible column. A refresh counts only
/// where all the notes are of VRAM as it is.
fn count_hidden(step: &Step, answer: u32, before: u8, follows: bool, second: &mut Side, reached: &mut Reached) {
    let lines = match step.call {
        Call::DrawLine(line) => vec![line as u8],
        Call::FullDraw => noted(second.slice(Slice::Notes)),
        Call::Refresh if follows => noted(second.slice(Slice::Notes)),
        _ => return,
    };
    let block = second.slice(Slice::Block).to_vec();
    let Some(state) = read_block(&block) else {
        return;
    };
    if answer >= 256 || state.status & !before & 0x20 == 0 {
        return;
    }
    let vram = second.slice(Slice::Vram);
    let meet = |columns: RangeInclusive<i32>| {
        let mut lines = lines.iter();
        lines.any(|&line| sprites_meet(&state, vram, line, columns.clone()))
    };
    if meet(0..=255) {
        return;
    }
    match step.call {
        Call::DrawLine(_) => {
            reached.hidden[0] += u64::from(meet(-32..=-1));
            reached.hidden[1] += u64::from(meet(256..=286));
        }
        Call::FullDraw => reached.hidden[2] += 1,
        _ => reached.hidden[3] += 1,
    }
}

/// The lines whose notes tell of coincidence.
fn noted(notes: &[u8]) -> Vec<u8> {
    let lines = (0..192).zip(notes);
    lines
        .filter(|(_, &note)| note & 64 != 0)
        .map(|(line, _)| line)
        .collect()
}
