//! Logs: how they are planned, their bytes, and the same calls made singly.

use crate::calls::{count_lost, Call, Lost, Step};
use crate::library::{Calls, REFERENCE};
use crate::lists::Maker;
use crate::scenes::MASKS;

/// An operation and a value. A read's value has the bits in which the byte expected differs from the
/// byte that comes: 0 is a right read, wherever the log is run.
pub type Record = (u8, u8);

/// What is wrong with a log besides its records.
#[derive(Clone, Copy, Debug, PartialEq, Eq)]
pub enum Harm {
    /// No more than so many bytes are left.
    Cut(usize),
    /// The last bytes are missing, or there are more, of zero.
    Length(isize),
    /// A byte of the trailer has these bits changed.
    Trailer(usize, u8),
    /// A byte of the records has these bits changed, and the sum stays as it was.
    Record(usize, u8),
    /// The trailer's numbers have the high byte first.
    HighFirst,
    /// The sum has the distance's bytes in it.
    LongSum,
    /// The record bytes beside the log are so many more or fewer than they ought to be.
    Records(isize),
}

/// A planned log.
#[derive(Clone, Debug, PartialEq, Eq, Default)]
pub struct Log {
    pub records: Vec<Record>,
    pub harms: Vec<Harm>,
}

impl std::fmt::Display for Log {
    fn fmt(&self, f: &mut std::fmt::Formatter<'_>) -> std::fmt::Result {
        write!(f, "{} records", self.records.len())?;
        for &(operation, value) in self.records.iter().take(100) {
            match (is_read(operation), value) {
                (false, _) => write!(f, " {operation:02X}-{value:02X}")?,
                (true, 0) => write!(f, " {operation:02X}-right")?,
                (true, bits) => write!(f, " {operation:02X}-wrong-by-{bits:02X}")?,
            }
        }
        if self.records.len() > 100 {
            write!(f, " ...")?;
        }
        self.harms.iter().try_for_each(|harm| write!(f, ", {harm:?}"))
    }
}

pub fn is_read(operation: u8) -> bool {
    operation == 2 || operation == 3
}

/// The operation's place in DROPPING.
fn dropping(operation: u8) -> Option<usize> {
    [0, 2, 3].into_iter().position(|drops| drops == operation)
}

/// A length that is so many more or fewer, and not below 0.
fn changed(length: usize, by: isize) -> usize {
    length.saturating_add_signed(by)
}

impl Log {
    /// The record bytes as planned, for the calls that run nothing.
    pub fn plain_bytes(&self) -> Vec<u8> {
        self.records.iter().flat_map(|&(o, v)| [o, v]).collect()
    }

    /// The record bytes for a run from this state: the reference makes the calls singly, and tells
    /// what each read gives.
    pub fn run_bytes(&self, block: &[u8], vram: &[u8]) -> Vec<u8> {
        let mut host = Host {
            block: block.to_vec(),
            vram: vram.to_vec(),
            map: vec![0; 2048],
            line: vec![0; 256],
        };
        let mut bytes = Vec::new();
        for &(operation, value) in &self.records {
            let given = host.single(&REFERENCE, operation, value) as u8;
            bytes.extend([operation, if is_read(operation) { given ^ value } else { value }]);
        }
        bytes
    }

    /// The log of these record bytes, harmed as planned.
    pub fn log_bytes(&self, records: &[u8]) -> Vec<u8> {
        let distance = (records.len() % 65536) as u16;
        let mut sum = records.iter().fold(0u16, |sum, &byte| sum.wrapping_add(byte.into()));
        if self.harms.contains(&Harm::LongSum) {
            sum = sum.wrapping_add(distance % 256).wrapping_add(distance / 256);
        }
        let mut trailer = [distance.to_le_bytes(), sum.to_le_bytes()];
        if self.harms.contains(&Harm::HighFirst) {
            trailer.iter_mut().for_each(|number| number.reverse());
        }
        let mut log = records.to_vec();
        log.extend(trailer.concat());
        for &harm in &self.harms {
            match harm {
                Harm::Trailer(at, bits) => log[records.len() + at] ^= bits,
                Harm::Record(at, bits) if !records.is_empty() => log[at % records.len()] ^= bits,
                _ => {}
            }
        }
        self.cut(&mut log);
        log
    }

    /// Gives a log the length that it was harmed to.
    pub fn cut(&self, log: &mut Vec<u8>) {
        for &harm in &self.harms {
            match harm {
                Harm::Cut(length) => log.truncate(length),
                Harm::Length(by) => log.resize(changed(log.len(), by), 0),
                _ => {}
            }
        }
    }

    /// Gives record bytes the length that they were harmed to.
    pub fn cut_records(&self, records: &mut Vec<u8>) {
        for &harm in &self.harms {
            if let Harm::Records(by) = harm {
                records.resize(changed(records.len(), by), 0);
            }
        }
    }
}

/// What a host lends to the single calls.
pub struct Host {
    pub block: Vec<u8>,
    pub vram: Vec<u8>,
    pub map: Vec<u8>,
    pub line: Vec<u8>,
}

impl Host {
    /// The one call that a record names. A wrong operation names none.
    pub fn single(&mut self, calls: &Calls, operation: u8, value: u8) -> u32 {
        let Host { block, vram, map, line } = self;
        match operation {
            0 => (calls.data_write)(block, vram, map, value),
            1 => (calls.control_write)(block, vram, value),
            2 => (calls.data_read)(block, vram),
            3 => (calls.status_read)(block),
            // A run has no slice for origins.
            4 => (calls.draw_line)(block, vram, line, &mut [0; 256], value.into()),
            5 => (calls.end_of_display)(block),
            6 => (calls.reset)(block),
            _ => 0,
        }
    }

    /// Makes the calls of a run that was accepted, as far as it says that they were done, and says what
    /// does not fit its answer and outcome. Counts the first bytes that were dropped.
    pub fn differs(
        &mut self,
        calls: &Calls,
        records: &[u8],
        found: u32,
        outcome: &[u8],
        lost: &mut Lost,
    ) -> Option<String> {
        let number = |at: usize| usize::from(outcome[at]) + 256 * usize::from(outcome[at + 1]);
        let (done, place, count) = (number(0), number(2), records.len() / 2);
        let ended_well = place == count;
        if done != if ended_well { count } else { place + 1 } || done > count || ended_well && found != 0 {
            return Some(format!("a run of {count} records says done {done}, place {place}, found {found}"));
        }
        for (at, record) in records.chunks(2).take(done).enumerate() {
            let (operation, value) = (record[0], record[1]);
            if operation > 6 {
                return Some(format!("record {at} of an accepted run has operation {operation}"));
            }
            let before = self.block.clone();
            let answer = self.single(calls, operation, value);
            if let Some(place) = dropping(operation) {
                count_lost(place, &before, &self.block, lost);
            }
            let right = match (is_read(operation), at == place) {
                (true, true) => answer == found && answer != value.into(),
                (true, false) => answer == value.into(),
                // Only a read can differ.
                (false, differing) => answer == 0 && !differing,
            };
            if !right {
                return Some(format!("record {at} ({operation:02X} {value:02X}) made singly answers {answer}"));
            }
        }
        None
    }
}

/// Which of the log's calls is made.
#[derive(Clone, Copy)]
enum Made {
    Run,
    Read,
    Write,
    Replay,
}

impl Maker {
    /// One call of some log, with fewer records than one of so many powers of two.
    pub fn any_log(&mut self, powers: usize) {
        let end = 1 << self.random.below(powers);
        let count = self.random.below(end);
        let log = self.some_log(count);
        let made = match self.random.below(6) {
            0..=3 => Made::Run,
            4 => Made::Read,
            _ => Made::Write,
        };
        self.make(made, log);
    }

    /// A log of so many records: right, with a wrong read, or harmed.
    fn some_log(&mut self, count: usize) -> Log {
        let log = self.right_log(count);
        match self.random.below(4) {
            0 => log,
            1 => self.wrong_read(log),
            _ => self.harmed(log),
        }
    }

    fn right_log(&mut self, count: usize) -> Log {
        Log {
            records: self.records(count),
            harms: Vec::new(),
        }
    }

    /// Every call of logs with so many records, right and wrong.
    pub fn logs_of(&mut self, count: usize) {
        let log = self.right_log(count);
        // The right ones as they are, without a wrong slice.
        self.make_right(Made::Run, log.clone());
        self.make_right(Made::Read, log.clone());
        self.make_right(Made::Write, log.clone());
        let wrong = self.wrong_read(log.clone());
        self.make_right(Made::Run, wrong);
        for made in [Made::Run, Made::Read, Made::Write] {
            let harmed = self.harmed(log.clone());
            self.make(made, harmed);
        }
        self.replay(log);
    }

    /// The replay program on a snapshot of the state and some log.
    pub fn any_replay(&mut self) {
        let count = self.random.below(40);
        let log = self.some_log(count);
        self.replay(log);
    }

    fn replay(&mut self, log: Log) {
        self.steps.push(Call::WriteSnapshot.into());
        if self.random.one_in(4) {
            self.harm_snapshot();
        }
        self.make(Made::Replay, log);
        self.steps.push(Call::WriteSnapshot.into());
    }

    /// The call by the log's place among the case's logs. Half of the runs come after another count of lost
    /// first bytes.
    fn call(&mut self, made: Made, log: Log) -> Call {
        if matches!(made, Made::Run) && self.random.one_in(2) {
            self.put_lost();
        }
        let at = self.logs.len();
        self.logs.push(log);
        match made {
            Made::Run => Call::RunLog(at),
            Made::Read => Call::ReadLog(at),
            Made::Write => Call::WriteLog(at),
            Made::Replay => Call::Replay(at),
        }
    }

    fn make(&mut self, made: Made, log: Log) {
        let call = self.call(made, log);
        self.push(call);
    }

    fn make_right(&mut self, made: Made, log: Log) {
        let call = self.call(made, log);
        self.steps.push(Step::from(call));
    }

    /// Clears the redraw mark before half of the runs, so that what sets it shows. Not for a list, whose
    /// frame then need not follow VRAM.
    pub fn clear_marks(&mut self) {
        for step in self.steps.iter_mut().filter(|step| step.spoil.is_empty()) {
            if matches!(step.call, Call::RunLog(_)) && self.random.one_in(2) {
                step.spoil = vec![(14, 0)];
            }
        }
    }

    /// So many right records, with right reads.
    fn records(&mut self, count: usize) -> Vec<Record> {
        let mut records = Vec::new();
        // A line takes as long as many other calls.
        let lines = 1 + count / 1000;
        while records.len() < count {
            match self.random.below(24) {
                0..=7 => {
                    let at = self.address();
                    self.record_pair(&mut records, (at % 256) as u8, 0x40 | (at / 256) as u8);
                    self.repeat(&mut records, 0);
                }
                8..=12 => {
                    let at = self.address();
                    self.record_pair(&mut records, (at % 256) as u8, (at / 256) as u8);
                    self.repeat(&mut records, 2);
                }
                13 => self.repeat(&mut records, 0),
                14 => self.repeat(&mut records, 2),
                15 => self.register_records(&mut records),
                16..=17 => records.push((1, self.random.byte())),
                18..=19 => records.push((3, 0)),
                20 => records.push((5, 0)),
                21 => {
                    records.push((6, 0));
                    // The display on again, or all the further lines are blank.
                    if self.random.one_in(2) {
                        let byte = 0x40 | self.random.byte() & 0xE3;
                        self.record_pair(&mut records, byte, 0x81);
                    }
                }
                _ if self.random.one_in(lines) => records.push((4, self.line_number())),
                _ => records.push((3, 0)),
            }
        }
        records.truncate(count);
        records
    }

    /// Two control bytes, now and then with a status read between them.
    fn record_pair(&mut self, records: &mut Vec<Record>, first: u8, second: u8) {
        records.push((1, first));
        if self.random.one_in(16) {
            records.push((3, 0));
        }
        records.push((1, second));
    }

    /// A few data writes or data reads.
    fn repeat(&mut self, records: &mut Vec<Record>, operation: u8) {
        for _ in 0..1 + self.random.below(4) {
            let value = if operation == 0 { self.random.byte() } else { 0 };
            records.push((operation, value));
        }
    }

    /// A register write that leaves the display on.
    fn register_records(&mut self, records: &mut Vec<Record>) {
        let number = self.random.below(8);
        let byte = match number {
            1 => self.random.byte() & !0x18 | 0x40,
            _ => self.random.byte(),
        };
        self.record_pair(records, byte, 0x80 | number as u8);
        self.registers[number] = byte & MASKS[number];
    }

    fn line_number(&mut self) -> u8 {
        match self.random.below(6) {
            0 => self.random.pick(&[0, 191]),
            _ => self.random.below(192) as u8,
        }
    }

    /// Puts a record in the place of another, or alone where there is none.
    fn put(&mut self, log: &mut Log, record: Record) {
        let end = log.records.len();
        let any = self.random.below(end.max(1));
        let at = self.random.pick(&[0, end.saturating_sub(1), any, any, any]);
        match log.records.get_mut(at) {
            Some(place) => *place = record,
            None => log.records.push(record),
        }
    }

    /// Some bits, at least one.
    fn bits(&mut self) -> u8 {
        let (one, any) = (1 << self.random.below(8), self.random.byte());
        self.random.pick(&[one, one | any])
    }

    /// The log with one wrong read anywhere.
    fn wrong_read(&mut self, mut log: Log) -> Log {
        let (operation, bits) = (self.random.pick(&[2, 3]), self.bits());
        self.put(&mut log, (operation, bits));
        log
    }

    /// The log with one or two things wrong, and perhaps a wrong read beside them.
    fn harmed(&mut self, mut log: Log) -> Log {
        if self.random.one_in(4) {
            log = self.wrong_read(log);
        }
        for _ in 0..1 + self.random.below(2) {
            self.harm(&mut log);
        }
        log
    }

    fn harm(&mut self, log: &mut Log) {
        let bits = self.bits();
        let harm = match self.random.below(18) {
            0 => Harm::Cut(self.random.below(4)),
            1 => Harm::Length(self.random.pick(&[-3, -1, 1, 3])),
            2 => Harm::Length(self.random.pick(&[-4, -2, 2, 4])),
            3 => Harm::Trailer(self.random.below(2), bits),
            4 => Harm::Trailer(2 + self.random.below(2), bits),
            5 => Harm::Record(self.random.below(40000), bits),
            6 => Harm::HighFirst,
            7 => Harm::LongSum,
            8 => Harm::Records(self.random.pick(&[-40000, -4, -2, -1, 1, 2, 4])),
            9..=11 => {
                let other = 7 + self.random.below(249) as u8;
                let operation = self.random.pick(&[7, 7, 8, 255, other]);
                let value = self.random.byte();
                return self.put(log, (operation, value));
            }
            12..=14 => {
                let other = 192 + self.random.below(64) as u8;
                let line = self.random.pick(&[192, 192, 193, 255, other]);
                return self.put(log, (4, line));
            }
            kind => return self.put(log, (if kind == 15 { 5 } else { 6 }, bits)),
        };
        log.harms.push(harm);
    }
}
