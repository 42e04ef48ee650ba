//! Random states: a mode, a kind of sprite picture, tables of some density.

use crate::random::Random;

pub const MODES: [&str; 6] = [
    "Graphics I",
    "Graphics II",
    "Multicolor",
    "Text",
    "display off",
    "two mode bits",
];

pub const KINDS: [&str; 8] = [
    "random",
    "sprite-dense",
    "top edge",
    "left side",
    "right side",
    "heap",
    "sparse",
    "tables on each other",
];

pub const MASKS: [u8; 8] = [0x03, 0xFB, 0x0F, 0xFF, 0x07, 0x7F, 0x07, 0xFF];

/// A state block and VRAM. The redraw mark is clear, status anything.
pub fn scene(random: &mut Random, mode: usize, kind: usize) -> (Vec<u8>, Vec<u8>) {
    let block = block(random, mode, kind);
    let mut vram = vec![0; 16384];
    fill(random, &mut vram, kind);
    if kind != 0 && kind != 7 {
        sprites(random, &block, &mut vram, kind);
    }
    (block, vram)
}

pub(crate) fn block(random: &mut Random, mode: usize, kind: usize) -> Vec<u8> {
    let mut block = vec![0; 17];
    for (register, mask) in MASKS.into_iter().enumerate() {
        block[register] = random.byte() & mask;
    }
    if kind == 7 {
        let base = random.byte();
        for register in 2..7 {
            block[register] = if random.one_in(3) { 0 } else { base & MASKS[register] };
        }
    }
    let (m3, m12) = match mode {
        0 => (0, 0),
        1 => (2, 0),
        2 => (0, 0x08),
        3 => (0, 0x10),
        4 => random.pick(&[(0, 0), (2, 0), (0, 8), (0, 16)]),
        _ => random.pick(&[(2, 0x08), (2, 0x10), (0, 0x18), (2, 0x18)]),
    };
    let display = if mode == 4 { 0 } else { 0x40 };
    block[0] = block[0] & 0x01 | m3;
    block[1] = block[1] & 0xA3 | display | m12;
    if kind == 5 {
        block[1] |= 1;
    }
    if random.one_in(3) {
        block[7] &= 0xF0;
    }
    let address = random.below(16384);
    block[8] = (address % 256) as u8;
    block[9] = (address / 256) as u8;
    block[10] = random.byte();
    if random.one_in(4) {
        block[11] = 1;
        block[12] = random.byte();
    }
    block[13] = status(random);
    block[15..].copy_from_slice(&lost(random).to_le_bytes());
    block
}

/// A count of lost first bytes; mostly one at which it soon stops.
pub fn lost(random: &mut Random) -> u16 {
    match random.below(6) {
        0 => 0,
        1 => random.below(4) as u16,
        2 => random.next() as u16,
        _ => 65_533 + random.below(3) as u16,
    }
}

/// A status byte; mostly one that a fifth sprite can still change.
pub fn status(random: &mut Random) -> u8 {
    match random.below(6) {
        0 => random.byte(),
        1 => 0x80 | random.byte() & 0x3F,
        2 => 0,
        _ => random.byte() & 0x1F,
    }
}

/// VRAM from empty to full of ones.
pub(crate) fn fill(random: &mut Random, vram: &mut [u8], kind: usize) {
    random.fill(vram);
    let thinner = match kind {
        0 => 0,
        6 => 3,
        _ => random.below(4),
    };
    for _ in 0..thinner {
        for byte in vram.iter_mut() {
            *byte &= random.byte();
        }
    }
}

/// Writes the attribute table, and sometimes full sprite patterns.
pub(crate) fn sprites(random: &mut Random, block: &[u8], vram: &mut [u8], kind: usize) {
    if random.one_in(4) {
        let at = usize::from(block[6]) * 2048;
        vram[at..at + 2048].fill(0xFF);
    }
    let (top, left) = (random.byte(), random.byte());
    let end = if random.one_in(2) { random.below(33) } else { 32 };
    for number in 0..32 {
        let y = if number == end { 208 } else { row(random, kind, top) };
        let (x, early) = column(random, kind, left);
        let colour = if random.one_in(3) { 0 } else { random.byte() & 0x0F };
        let unused = random.byte() & 0x70;
        let at = usize::from(block[5]) * 128 + 4 * number;
        vram[at..at + 4].copy_from_slice(&[y, x, random.byte(), early | unused | colour]);
    }
}

fn row(random: &mut Random, kind: usize, top: u8) -> u8 {
    let y = match kind {
        2 => random.pick(&[222, 240, 248, 224]),
        5 => top,
        6 => random.byte(),
        _ => top.wrapping_add((random.below(5) * 12) as u8),
    };
    let spread = match kind {
        2 => 32,
        5 => 6,
        _ => 24,
    };
    let y = match random.below(12) {
        0 => random.byte(),
        1 => random.pick(&[0, 191, 192, 207, 209, 223, 224, 225, 254, 255]),
        _ => y.wrapping_add(random.below(spread) as u8),
    };
    // Only a chosen sprite ends the list.
    if y == 208 {
        209
    } else {
        y
    }
}

fn column(random: &mut Random, kind: usize, left: u8) -> (u8, u8) {
    match kind {
        3 => (random.below(40) as u8, if random.one_in(4) { 0 } else { 0x80 }),
        4 => (215 + random.below(41) as u8, if random.one_in(6) { 0x80 } else { 0 }),
        5 => (left.wrapping_add(random.below(20) as u8), 0),
        _ => (random.byte(), if random.one_in(4) { 0x80 } else { 0 }),
    }
}
