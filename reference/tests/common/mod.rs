//! Things lent, and short ways to call on them.
#![allow(dead_code)]

use reference::block::*;
use reference::State;

/// Everything that can be lent to a call.
#[derive(Clone, Debug, PartialEq, Eq)]
pub struct Lent {
    pub block: Vec<u8>,
    pub vram: Vec<u8>,
    pub map: Vec<u8>,
    pub frame: Vec<u8>,
    pub notes: Vec<u8>,
    pub line: Vec<u8>,
    pub origins: Vec<u8>,
    pub number: u32,
    pub column: u32,
    pub snapshot: Vec<u8>,
    pub log: Vec<u8>,
    pub records: Vec<u8>,
    pub outcome: Vec<u8>,
}

impl Lent {
    /// Power-up state, clean slices, and a right snapshot of it.
    pub fn new() -> Lent {
        let mut lent = Lent {
            block: vec![0; 17],
            vram: vec![0; 16384],
            map: vec![0; 2048],
            frame: vec![0; 49152],
            notes: vec![0; 192],
            line: vec![0; 256],
            origins: vec![0; 256],
            number: 0,
            column: 0,
            snapshot: vec![0; 16406],
            log: vec![0; 4],
            records: Vec::new(),
            outcome: vec![0xEE; 4],
        };
        assert_eq!(vdp_power_up(&mut lent.block, &mut lent.vram), 0);
        assert_eq!(lent.write_snapshot(), 0);
        lent
    }

    /// The given registers, and redraw mark and map clear.
    pub fn with_registers(registers: [u8; 8]) -> Lent {
        let mut lent = Lent::new();
        lent.block[..8].copy_from_slice(&registers);
        lent.block[14] = 0;
        lent
    }

    pub fn state(&self) -> State {
        read_block(&self.block).expect("a right block")
    }

    pub fn status(&self) -> u8 {
        self.block[13]
    }

    /// The count of lost first bytes, from its place in the block.
    pub fn lost(&self) -> u16 {
        u16::from(self.block[15]) + 256 * u16::from(self.block[16])
    }

    pub fn set_lost(&mut self, lost: u16) {
        self.block[15] = (lost % 256) as u8;
        self.block[16] = (lost / 256) as u8;
    }

    /// A byte waits, or none does.
    pub fn set_waiting(&mut self, waiting: Option<u8>) {
        self.block[11] = u8::from(waiting.is_some());
        self.block[12] = waiting.unwrap_or(0);
    }

    pub fn control(&mut self, byte: u8) -> u32 {
        vdp_control_write(&mut self.block, &self.vram, byte)
    }

    pub fn write(&mut self, byte: u8) -> u32 {
        vdp_data_write(&mut self.block, &mut self.vram, &mut self.map, byte)
    }

    pub fn write_at(&mut self, at: u16, byte: u8) {
        assert_eq!(self.control((at % 256) as u8), 0);
        assert_eq!(self.control((at / 256) as u8 + 64), 0);
        assert_eq!(self.write(byte), 0);
    }

    pub fn read(&mut self) -> u32 {
        vdp_data_read(&mut self.block, &self.vram)
    }

    pub fn read_status(&mut self) -> u32 {
        vdp_status_read(&mut self.block)
    }

    pub fn draw(&mut self, number: u32) -> u32 {
        vdp_draw_line(
            &mut self.block,
            &self.vram,
            &mut self.line,
            &mut self.origins,
            number,
        )
    }

    pub fn point(&mut self, line: u32, column: u32) -> u32 {
        vdp_point(&mut self.block, &self.vram, line, column)
    }

    pub fn origin(&self, line: u32, column: u32) -> u32 {
        vdp_origin(&self.block, &self.vram, line, column)
    }

    pub fn full_draw(&mut self) -> u32 {
        vdp_full_draw(
            &mut self.block,
            &self.vram,
            &mut self.map,
            &mut self.frame,
            &mut self.notes,
        )
    }

    pub fn refresh(&mut self) -> u32 {
        vdp_refresh(
            &mut self.block,
            &self.vram,
            &mut self.map,
            &mut self.frame,
            &mut self.notes,
        )
    }

    pub fn write_snapshot(&mut self) -> u32 {
        vdp_write_snapshot(&self.block, &self.vram, &mut self.snapshot)
    }

    pub fn read_snapshot(&mut self) -> u32 {
        vdp_read_snapshot(&mut self.block, &mut self.vram, &self.snapshot)
    }

    pub fn run_log(&mut self) -> u32 {
        vdp_run_log(
            &mut self.block,
            &mut self.vram,
            &mut self.map,
            &mut self.line,
            &self.log,
            &mut self.outcome,
        )
    }

    pub fn read_log(&mut self) -> u32 {
        vdp_read_log(&self.log, &mut self.records)
    }

    pub fn write_log(&mut self) -> u32 {
        vdp_write_log(&self.records, &mut self.log)
    }

    /// Runs these records: the answer, the records done and the place.
    pub fn run(&mut self, records: &[(u8, u8)]) -> (u32, u16, u16) {
        self.log = log_of(records);
        let answer = self.run_log();
        let number = |at: usize| u16::from_le_bytes([self.outcome[at], self.outcome[at + 1]]);
        (answer, number(0), number(2))
    }

    /// Puts a sprite's four attributes where register 5 says.
    pub fn sprite(&mut self, number: usize, attributes: [u8; 4]) {
        let at = usize::from(self.block[5]) * 128 + 4 * number;
        self.vram[at..at + 4].copy_from_slice(&attributes);
    }
}

/// Graphics I with all tables apart: names 0000, sprite patterns 0800,
/// attributes 1000, patterns 1800, colours 2000. No sprites.
pub fn sprite_board(register_1: u8) -> Lent {
    let mut lent = Lent::with_registers([0, 0x40 | register_1, 0, 0x80, 3, 0x20, 1, 0]);
    lent.sprite(0, [208, 0, 0, 0]);
    lent
}

/// Names of sprite shapes: all bits set, the leftmost column's alone, the
/// rightmost column's alone.
pub const FULL: u8 = 0;
pub const LEFTMOST: u8 = 4;
pub const RIGHTMOST: u8 = 8;

/// The bit that moves a sprite 32 columns to the left.
pub const EARLY: u8 = 0x80;

/// A board with the three shapes, and these sprites alone.
pub fn shapes_board(register_1: u8, sprites: &[[u8; 4]]) -> Lent {
    let mut lent = sprite_board(register_1);
    let (left, right) = if register_1 & 2 == 0 {
        (0x0820..0x0828, 0x0840..0x0848)
    } else {
        (0x0820..0x0830, 0x0850..0x0860)
    };
    lent.vram[0x0800..0x0820].fill(0xFF);
    lent.vram[left].fill(0x80);
    lent.vram[right].fill(0x01);
    for (number, &sprite) in sprites.iter().enumerate() {
        lent.sprite(number, sprite);
    }
    lent.sprite(sprites.len(), [208, 0, 0, 0]);
    lent
}

/// Record bytes with the trailer that they ought to have.
pub fn with_trailer(records: &[u8]) -> Vec<u8> {
    let distance = records.len();
    let sum: usize = records.iter().map(|&byte| usize::from(byte)).sum();
    let trailer = [distance, distance / 256, sum, sum / 256];
    let mut log = records.to_vec();
    log.extend(trailer.map(|number| (number % 256) as u8));
    log
}

/// A log of these records, right or not.
pub fn log_of(records: &[(u8, u8)]) -> Vec<u8> {
    let bytes: Vec<u8> = records.iter().flat_map(|&(o, v)| [o, v]).collect();
    with_trailer(&bytes)
}

/// Small repeatable random numbers.
pub struct Random(pub u64);

impl Random {
    pub fn next(&mut self) -> u32 {
        self.0 ^= self.0 << 13;
        self.0 ^= self.0 >> 7;
        self.0 ^= self.0 << 17;
        (self.0 >> 24) as u32
    }

    pub fn below(&mut self, end: u32) -> u32 {
        self.next() % end
    }

    pub fn byte(&mut self) -> u8 {
        self.next() as u8
    }

    pub fn chance(&mut self, one_in: u32) -> bool {
        self.below(one_in) == 0
    }

    /// A count of lost first bytes, mostly near the one at which it stops.
    pub fn lost(&mut self) -> u16 {
        match self.below(6) {
            0 => 0,
            1 => self.next() as u16,
            _ => 65_533 + self.below(3) as u16,
        }
    }
}
