//! Random cases: states drawn line by line, calls of logs, and long lists of calls.

use crate::calls::{Call, Case, Slice, Step, GUARD, SLICES};
use crate::logs::Log;
use crate::random::Random;
use crate::scenes::{lost, scene, status, KINDS, MASKS, MODES};

/// One state: all its lines, its snapshot and show's text, and its frame, notes and status after a
/// full draw. Half of the states keep status from line to line; the others set it anew for each.
pub fn state_case(seed: u64, number: u64) -> Case {
    let mut random = Random::new(seed, 2 * number);
    let (mode, kind) = place(number);
    let (mut block, vram) = scene(&mut random, mode, kind);
    block[14] = u8::from(random.one_in(4));
    let map = some_map(&mut random);
    let notes = some_notes(&mut random);
    let before = block[13];
    let mut steps: Vec<Step> = Vec::new();
    let anew = random.one_in(2);
    for line in 0..192 {
        if anew {
            steps.push(Call::PutStatus(status(&mut random)).into());
        }
        steps.push(Call::DrawLine(line).into());
    }
    let calls = [
        Call::PutStatus(before),
        Call::WriteSnapshot,
        Call::Show,
        // With any map, over a foreign frame and foreign notes.
        Call::Refresh,
        Call::PutStatus(before),
        Call::FullDraw,
        // With nothing to do.
        Call::Refresh,
    ];
    steps.extend(calls.into_iter().map(Step::from));
    Case {
        block,
        vram,
        map,
        notes,
        logs: Vec::new(),
        steps,
    }
}

/// A map with few bits, or any.
fn some_map(random: &mut Random) -> Vec<u8> {
    let mut map = vec![0; 2048];
    if random.one_in(8) {
        random.fill(&mut map);
    }
    for _ in 0..random.pick(&[0, 1, 2, 4, 16]) {
        map[random.below(2048)] |= 1 << random.below(8);
    }
    map
}

/// Foreign notes: any, or mostly ones that say nothing.
fn some_notes(random: &mut Random) -> Vec<u8> {
    let mut notes = vec![random.pick(&[32, 63, 0xA0, 0xBF]); 192];
    if random.one_in(4) {
        random.fill(&mut notes);
    }
    for _ in 0..random.below(4) {
        notes[random.below(192)] = random.byte();
    }
    notes
}

/// Mode and kind of a state: all pairs in turn.
pub fn place(number: u64) -> (usize, usize) {
    let (modes, kinds) = (MODES.len() as u64, KINDS.len() as u64);
    ((number % modes) as usize, (number / modes % kinds) as usize)
}

/// A list of hundreds of calls, with a refresh at the end.
pub fn list_case(seed: u64, number: u64) -> Case {
    made(Random::new(seed, 2 * number + 1), |maker| {
        let length = 200 + maker.random.below(200);
        while maker.steps.len() < length {
            maker.some();
        }
        maker.steps.push(Call::Refresh.into());
    })
}

/// Calls of logs. Each of these numbers of records comes round: 0, 1, 19,999, 20,000, and 20,001, which
/// is refused, as are so many that two bytes do not hold the distance; most logs are far shorter.
pub fn log_case(seed: u64, number: u64) -> Case {
    // The numbers of no state and no list.
    made(Random::new(seed, !number), |maker| {
        match number % 64 {
            58 => {
                let count = 32_768 + maker.random.below(2);
                maker.logs_of(count);
            }
            59 => {
                let count = maker.random.below(20_001);
                maker.logs_of(count);
            }
            60 => {
                maker.logs_of(0);
                maker.logs_of(1);
            }
            61 => maker.logs_of(19_999),
            62 => maker.logs_of(20_000),
            63 => maker.logs_of(20_001),
            turn => {
                for _ in 0..8 {
                    maker.any_log(11);
                }
                if turn % 8 == 0 {
                    maker.any_replay();
                }
            }
        }
        maker.clear_marks();
    })
}

/// A case whose calls the maker makes, from some scene on.
fn made(mut random: Random, calls: impl FnOnce(&mut Maker)) -> Case {
    // Mostly modes with sprites, and sprite pictures.
    let mode = random.pick(&[0, 0, 0, 1, 1, 1, 2, 2, 3, 4, 5]);
    let kind = random.below(KINDS.len());
    made_in(random, (mode, kind), calls)
}

/// The same from a scene of this mode and kind on.
pub(crate) fn made_in(mut random: Random, (mode, kind): (usize, usize), calls: impl FnOnce(&mut Maker)) -> Case {
    let (mut block, vram) = scene(&mut random, mode, kind);
    block[14] = u8::from(!random.one_in(8));
    let map = some_map(&mut random);
    let notes = some_notes(&mut random);
    let mut maker = Maker {
        registers: block[..8].to_vec(),
        vram: vram.clone(),
        random,
        logs: Vec::new(),
        steps: Vec::new(),
    };
    calls(&mut maker);
    Case {
        block,
        vram,
        map,
        notes,
        logs: maker.logs,
        steps: maker.steps,
    }
}

/// Makes a list; knows about the registers, so as to write where it matters.
pub struct Maker {
    pub(crate) random: Random,
    pub(crate) registers: Vec<u8>,
    /// As it is at the start.
    pub(crate) vram: Vec<u8>,
    pub(crate) logs: Vec<Log>,
    pub(crate) steps: Vec<Step>,
}

impl Maker {
    /// A few calls that belong together.
    fn some(&mut self) {
        match self.random.below(225) {
            0..=79 => self.write(),
            80..=95 => self.read(),
            96..=99 => self.register(),
            100..=102 => {
                let byte = self.random.byte();
                self.push(Call::ControlWrite(byte));
            }
            103..=110 => {
                let byte = self.random.byte();
                self.push(Call::DataWrite(byte));
            }
            111..=116 => self.push(Call::DataRead),
            117..=124 => self.push(Call::StatusRead),
            125..=129 => self.push(Call::EndOfDisplay),
            130..=134 => self.push(Call::InterruptLine),
            135 => self.restart(),
            136..=147 => self.line(),
            148..=157 => self.snapshot(),
            158..=159 => self.push(Call::FullDraw),
            160..=199 => self.push(Call::Refresh),
            200..=204 => self.any_log(6),
            205..=212 => self.losses(),
            _ => self.point(),
        }
    }

    /// The host sets the count of lost first bytes.
    pub(crate) fn put_lost(&mut self) {
        let count = lost(&mut self.random);
        self.push(Call::PutLost(count));
    }

    /// First bytes, and calls that drop them where they wait.
    fn losses(&mut self) {
        self.put_lost();
        for _ in 0..1 + self.random.below(4) {
            let byte = self.random.byte();
            if !self.random.one_in(4) {
                self.first_byte();
            }
            let call = self
                .random
                .pick(&[Call::DataWrite(byte), Call::DataRead, Call::StatusRead]);
            self.push(call);
        }
    }

    /// A byte that waits, or completes a pair which sets the address.
    fn first_byte(&mut self) {
        let byte = self.random.byte() % 128;
        self.push(Call::ControlWrite(byte));
    }

    /// Adds a call, now and then one with something wrong.
    pub(crate) fn push(&mut self, call: Call) {
        let mut step = Step::from(call);
        // Power-ups are few.
        let times = if call == Call::PowerUp { 2 } else { 10 };
        if !call.lent().is_empty() && self.random.one_in(times) {
            for _ in 0..1 + self.random.below(3) {
                let slice = self.random.pick(call.lent());
                let length = self.wrong_length(slice);
                step.lengths.retain(|(named, _)| *named != slice);
                step.lengths.push((slice, length));
            }
        }
        if call.lent().contains(&Slice::Block) && self.random.one_in(16) {
            step.spoil = self.wrong_block();
        }
        self.steps.push(step);
    }

    fn wrong_length(&mut self, slice: Slice) -> usize {
        let right = SLICES[slice as usize].2;
        let less = self.random.below(right);
        let more = right + 1 + self.random.below(GUARD);
        self.random.pick(&[0, 1, right - 2, right - 1, right + 1, less, more])
    }

    /// Bytes that leave no state, or only might.
    fn wrong_block(&mut self) -> Vec<(usize, u8)> {
        let byte = self.random.byte();
        match self.random.below(8) {
            0 => vec![(9, 0x40 | byte)],
            1 => vec![(8, 0), (9, 0x40)],
            2 => vec![(11, byte.max(2))],
            3 => vec![(11, 0)],
            4 => vec![(14, byte.max(2))],
            _ => {
                let bits = [(0, 4), (0, 0x80), (1, 4), (2, 0x10), (4, 8), (5, 0x80), (6, 8)];
                let (register, bit) = self.random.pick(&bits);
                vec![(register, byte | bit)]
            }
        }
    }

    fn pair(&mut self, first: u8, second: u8) {
        // Some pairs come after a lone first byte.
        if !self.random.one_in(20) {
            self.push(Call::StatusRead);
        }
        self.push(Call::ControlWrite(first));
        self.push(Call::ControlWrite(second));
    }

    /// An address in one of the tables, or anywhere.
    pub(crate) fn address(&mut self) -> usize {
        let of = |register: usize| usize::from(self.registers[register]);
        let (names, attributes, sprites) = (of(2) * 1024, of(5) * 128, of(6) * 2048);
        let (colours, patterns) = if of(0) & 2 == 0 {
            ((of(3) * 64, 32), (of(4) * 2048, 2048))
        } else {
            // Graphics II.
            ((of(3) / 128 * 8192, 6144), (of(4) / 4 * 8192, 6144))
        };
        let sprite = self.random.below(32);
        let (start, length) = match self.random.below(16) {
            0..=3 => (attributes, 128),
            // X, name and colour byte: of few lines, where a Y is of nearly all.
            4..=6 => (attributes + 4 * sprite + 1, 3),
            7..=8 => (names, 960),
            9 => colours,
            10..=11 => patterns,
            12..=13 => (sprites, 2048),
            14 => (16380, 8),
            _ => (0, 16384),
        };
        (start + self.random.below(length)) % 16384
    }

    fn write(&mut self) {
        let at = self.address();
        self.pair((at % 256) as u8, 0x40 | (at / 256) as u8);
        for _ in 0..1 + self.random.below(4) {
            let byte = match self.random.below(6) {
                0 => 208,
                1 => 0,
                _ => self.random.byte(),
            };
            self.push(Call::DataWrite(byte));
        }
    }

    fn read(&mut self) {
        let at = self.address();
        self.pair((at % 256) as u8, (at / 256) as u8);
        for _ in 0..1 + self.random.below(4) {
            self.push(Call::DataRead);
        }
    }

    /// A register write that mostly leaves the display on in one mode.
    fn register(&mut self) {
        let number = self.random.below(8);
        let mut byte = self.random.byte();
        match number {
            0 if !self.random.one_in(4) => byte &= !2,
            1 if !self.random.one_in(6) => byte = byte & !0x18 | 0x40,
            _ if self.random.one_in(3) => byte = self.registers[number] | byte & !MASKS[number],
            _ => {}
        }
        let second = 0x80 | self.random.byte() & 0x78 | number as u8;
        self.pair(byte, second);
        self.registers[number] = byte & MASKS[number];
    }

    /// Power-up or reset, often while a first byte waits, with the display turned on after it.
    fn restart(&mut self) {
        if self.random.one_in(2) {
            self.first_byte();
        }
        if self.random.one_in(3) {
            self.push(Call::PowerUp);
            self.registers.fill(0);
        } else {
            self.push(Call::Reset);
            self.registers[0] = 0;
        }
        if self.random.one_in(4) {
            self.push(Call::Refresh);
        }
        let byte = 0x40 | self.random.byte() & 0xE3;
        self.pair(byte, 0x81);
        self.registers[1] = byte;
    }

    fn line(&mut self) {
        let number = self.random.below(192) as u32;
        let number = match self.random.below(12) {
            0 => self.random.pick(&[192, 193, 255, 256, 511, 65536, u32::MAX]),
            1 => self.random.pick(&[0, 191]),
            _ => number,
        };
        self.push(Call::DrawLine(number));
    }

    /// Writes one, or reads one that may have been harmed.
    fn snapshot(&mut self) {
        if self.random.one_in(2) {
            return self.push(Call::WriteSnapshot);
        }
        if self.random.one_in(8) {
            // An address of 16,384.
            self.push(Call::PutSnapshot(16392, 0, true));
            self.push(Call::PutSnapshot(16393, 0x40, true));
        } else if self.random.one_in(3) {
            self.harm_snapshot();
        }
        self.push(Call::ReadSnapshot);
        if self.random.one_in(8) {
            self.push(Call::Show);
        }
        // The next one is right again.
        if self.random.one_in(2) {
            self.steps.push(Call::WriteSnapshot.into());
        }
    }

    /// Changes a byte of the snapshot, mostly one that is tested.
    pub(crate) fn harm_snapshot(&mut self) {
        let (byte, any) = (self.random.byte(), self.random.below(16406));
        let at = self
            .random
            .pick(&[16384, 16385, 16386, 16388, 16389, 16390, 16393, 16395, 16396, any, any]);
        let trailer = 16398 + self.random.below(8);
        let at = if self.random.one_in(4) { trailer } else { at };
        let sum = !self.random.one_in(3);
        self.push(Call::PutSnapshot(at, byte, sum));
    }
}
