//! The pictures that are drawn: full tables in each mode, and three kinds of sprites.

use difftest::library::LIBRARY;
use difftest::random::Random;

pub const MODES: [&str; 4] = ["Graphics I", "Graphics II", "Multicolor", "Text"];
pub const SPRITES: [&str; 3] = ["no sprites", "32 sprites of 16 by 16", "a heap of magnified sprites"];
/// What a driver has changed since the last refresh.
#[derive(Clone, Copy)]
pub enum Change {
    Nothing,
    /// A byte that no mode's picture here reads.
    Unread,
    /// So many names, one after another.
    Names(usize),
    Pattern,
    /// A sprite's X.
    Sprite,
    /// The map says that every byte was written.
    Everything,
}

pub const CHANGES: [(&str, Change); 9] = [
    ("nothing", Change::Nothing),
    ("a byte that is not read", Change::Unread),
    ("one name", Change::Names(1)),
    ("8 names", Change::Names(8)),
    ("64 names", Change::Names(64)),
    ("768 names", Change::Names(768)),
    ("one pattern byte", Change::Pattern),
    ("one sprite sideways", Change::Sprite),
    ("everything", Change::Everything),
];

/// Names, colours, patterns, attributes and sprite patterns all apart.
const REGISTERS: [[u8; 8]; 4] = [
    [0x00, 0xC0, 0x05, 0x80, 0x01, 0x20, 0x00, 0xF4],
    [0x02, 0xC0, 0x0E, 0xFF, 0x03, 0x76, 0x03, 0xF4],
    [0x00, 0xC8, 0x05, 0x80, 0x01, 0x20, 0x00, 0xF4],
    [0x00, 0xD0, 0x05, 0x80, 0x01, 0x20, 0x00, 0xF4],
];

pub struct Picture {
    pub block: Vec<u8>,
    pub vram: Vec<u8>,
    pub map: Vec<u8>,
    pub frame: Vec<u8>,
    pub notes: Vec<u8>,
    /// What the last refresh answered.
    pub lines: u32,
}

/// How many lines a full draw has.
pub const LINES: usize = 192;

/// Every line by its colours alone: no call from C draws one so.
pub fn draw_all(lent: &mut Picture) {
    let Picture {
        block,
        vram,
        map,
        frame,
        notes,
        ..
    } = lent;
    assert_eq!((LIBRARY.full_draw)(block, vram, map, frame, notes), 0);
}

/// A picture of random tables, with its sprites.
pub fn picture(mode: usize, sprites: usize) -> Picture {
    let mut block = vec![0; 17];
    block[..8].copy_from_slice(&REGISTERS[mode]);
    block[1] |= [0, 2, 3][sprites];
    let mut vram = vec![0; 16384];
    Random::new(1, 1).fill(&mut vram);
    let at = usize::from(block[5]) * 128;
    for number in 0..32usize {
        let attributes = match sprites {
            0 => [208, 0, 0, 0],
            // Eight bands of four.
            1 => [24 * (number / 4), 20 + 60 * (number % 4), 4 * number, 1 + number % 15],
            // More than five on every line, all over each other.
            _ => [5 * number, 100 + number, 4 * number, 1 + number % 15],
        };
        for (place, byte) in attributes.into_iter().enumerate() {
            vram[at + 4 * number + place] = byte as u8;
        }
    }
    Picture {
        block,
        vram,
        map: vec![0; 2048],
        frame: vec![0; 49152],
        notes: vec![0; 192],
        lines: 0,
    }
}

/// The display is off.
pub fn blank() -> Picture {
    let mut picture = picture(0, 0);
    picture.block[1] &= !0x40;
    picture
}

impl Picture {
    pub fn change(&mut self, mode: usize, change: usize) {
        let register = |number: usize| usize::from(self.block[number]);
        let names_at = register(2) * 1024;
        let name_at = names_at + 5 * 32 + 7;
        let patterns_at = if mode == 1 { 0 } else { register(4) * 2048 };
        let pattern_at = patterns_at + 8 * usize::from(self.vram[name_at]);
        let x_at = register(5) * 128 + 4 * 9 + 1;
        match CHANGES[change].1 {
            Change::Nothing => {}
            Change::Unread => self.write(0x3F00),
            Change::Names(768) => (0..768).for_each(|place| self.write(names_at + place)),
            Change::Names(count) => (0..count).for_each(|place| self.write(name_at + place)),
            Change::Pattern => self.write(pattern_at),
            Change::Sprite => self.write(x_at),
            Change::Everything => self.map.fill(0xFF),
        }
    }

    /// Another byte, and its map bit.
    fn write(&mut self, at: usize) {
        self.vram[at] ^= 1;
        self.map[at / 8] |= 1 << (at % 8);
    }
}
