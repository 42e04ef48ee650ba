//! One line: its 256 colours and their origins, its note and the VRAM bytes it
//! fetches.

use std::collections::BTreeSet;
use std::ops::RangeInclusive;

use crate::faults::{self, miscounted, planted};
use crate::pixel::{settle, text_colours, without_cell, Pixel};
use crate::sprites::{self, Scan};
use crate::state::{byte_at, State, C, F, FIFTH, FIFTH_NUMBER, LINE_BYTES};

/// The four modes, and blank for display off or more than one mode bit.
#[derive(Clone, Copy, Debug, PartialEq, Eq)]
pub enum Mode {
    GraphicsOne,
    GraphicsTwo,
    Multicolor,
    Text,
    Blank,
}

/// Reads the display bit and the three mode bits.
pub fn mode(state: &State) -> Mode {
    let display = state.has(1, 0x40);
    match (
        display,
        state.has(1, 0x10),
        state.has(1, 0x08),
        state.has(0, 0x02),
    ) {
        (true, false, false, false) => Mode::GraphicsOne,
        (true, false, false, true) => Mode::GraphicsTwo,
        (true, false, true, false) => Mode::Multicolor,
        (true, true, false, false) => Mode::Text,
        _ => Mode::Blank,
    }
}

/// Where the table bytes of one cell on a line are.
#[derive(Clone, Copy, Debug)]
struct Cell {
    name_at: usize,
    pattern_at: usize,
    colour_at: Option<usize>,
}

/// How many cells a line has.
fn cells(mode: Mode) -> usize {
    match mode {
        Mode::Blank => 0,
        Mode::Text => 40,
        _ => 32,
    }
}

/// The addresses of a cell: its name, and what the name leads to.
fn cell(state: &State, vram: &[u8], mode: Mode, line: usize, number: usize) -> Cell {
    let name_at = state.register(2) * 1024 + (line / 8) * cells(mode) + number;
    let name = usize::from(byte_at(vram, name_at));
    let (pattern_at, colour_at) = match mode {
        Mode::GraphicsTwo => {
            let offset = graphics_two_offset(line, name);
            (
                state.register(4) / 4 * 8192 + offset,
                Some(state.register(3) / 128 * 8192 + offset),
            )
        }
        Mode::Multicolor => (state.register(4) * 2048 + 8 * name + (line / 4) % 8, None),
        Mode::GraphicsOne => (
            state.register(4) * 2048 + 8 * name + line % 8,
            Some(state.register(3) * 64 + name / 8),
        ),
        Mode::Text | Mode::Blank => (state.register(4) * 2048 + 8 * name + line % 8, None),
    };
    Cell {
        name_at,
        pattern_at,
        colour_at,
    }
}

/// Each third of the screen has its own 2048 bytes.
fn graphics_two_offset(line: usize, name: usize) -> usize {
    let third = if planted(faults::THIRDS_FORGOTTEN) {
        0
    } else {
        line / 64
    };
    third * 2048 + 8 * name + line % 8
}

/// The pattern plane's colour at a pixel; 0 where it shows nothing.
fn pattern_colour(state: &State, vram: &[u8], mode: Mode, line: usize, x: usize) -> u8 {
    match mode {
        Mode::Blank => without_cell(state),
        Mode::Text if !(8..=247).contains(&x) => without_cell(state),
        Mode::Text => {
            let (number, from_left) = text_cell(x);
            let cell = cell(state, vram, mode, line, number);
            let pattern = byte_at(vram, cell.pattern_at);
            choose(pattern, from_left, text_colours(state))
        }
        Mode::Multicolor => {
            let cell = cell(state, vram, mode, line, x / 8);
            let colours = byte_at(vram, cell.pattern_at);
            if x % 8 < 4 {
                colours / 16
            } else {
                colours % 16
            }
        }
        Mode::GraphicsOne | Mode::GraphicsTwo => {
            let cell = cell(state, vram, mode, line, x / 8);
            let pattern = byte_at(vram, cell.pattern_at);
            let colours = cell.colour_at.map_or(0, |at| byte_at(vram, at));
            choose(pattern, x % 8, colours)
        }
    }
}

/// The cell of a column from 8 to 247 in Text, and the bit within it.
fn text_cell(x: usize) -> (usize, usize) {
    let right = ((x - 8) / 6, (x - 8) % 6);
    miscounted(faults::LINE_MISCOUNTS, x - 8).unwrap_or(right)
}

/// Bit 1 gives the high colour, bit 0 the low one; the top bit is leftmost.
fn choose(pattern: u8, from_left: usize, colours: u8) -> u8 {
    if pattern & (0x80 >> (from_left % 8)) != 0 {
        colours / 16
    } else {
        colours % 16
    }
}

/// Blank lines and Text have no sprites, so nothing is looked at.
fn scan(state: &State, vram: &[u8], line: u8) -> Scan {
    match mode(state) {
        Mode::Blank | Mode::Text => Scan::default(),
        _ => sprites::scan(state, vram, line),
    }
}

fn pixel(state: &State, vram: &[u8], scan: &Scan, line: u8, x: usize) -> Pixel {
    settle(
        sprites::here(state, vram, &scan.drawn, x as i32),
        pattern_colour(state, vram, mode(state), line.into(), x),
        state.registers[7],
        state.has(0, 0x01),
    )
}

/// What a line comes to.
#[derive(Clone, Debug, PartialEq, Eq)]
pub struct Picture {
    pub colours: [u8; LINE_BYTES],
    /// Where each colour came from.
    pub origins: [u8; LINE_BYTES],
    pub note: u8,
}

/// Draws a line, into no slice yet.
pub fn picture(state: &State, vram: &[u8], line: u8) -> Picture {
    let scan = scan(state, vram, line);
    let coincidence = sprites::coincidence(state, vram, &scan.drawn);
    let mut picture = Picture {
        colours: [0; LINE_BYTES],
        origins: [0; LINE_BYTES],
        note: note(scan.fifth, coincidence),
    };
    let places = picture.colours.iter_mut().zip(&mut picture.origins);
    for (x, (colour, origin)) in places.enumerate() {
        let pixel = pixel(state, vram, &scan, line, x);
        (*colour, *origin) = (pixel.colour, pixel.origin);
    }
    picture
}

/// Whether two sprites drawn on the line both have a 1 at one of these columns,
/// below 0 and above 255 too.
pub fn sprites_meet(state: &State, vram: &[u8], line: u8, columns: RangeInclusive<i32>) -> bool {
    let scan = scan(state, vram, line);
    sprites::meet(state, vram, &scan.drawn, columns)
}

/// The fifth sprite's number or 32, and 64 more for coincidence.
fn note(fifth: Option<u8>, coincidence: bool) -> u8 {
    fifth.unwrap_or(32) + if coincidence { 64 } else { 0 }
}

/// The fifth sprite's number in any note byte.
pub fn note_fifth(note: u8) -> Option<u8> {
    let number = note % 64;
    (number < 32).then_some(number)
}

/// The coincidence in any note byte.
pub fn note_coincidence(note: u8) -> bool {
    note & 64 != 0
}

/// A fifth sprite is taken only while neither 5S nor F is on.
pub fn status_with_fifth(status: u8, fifth: Option<u8>) -> u8 {
    match fifth {
        Some(number) if status & (FIFTH | F) == 0 => {
            (status & !FIFTH_NUMBER) | FIFTH | (number & FIFTH_NUMBER)
        }
        _ => status,
    }
}

/// Status after a line with this note.
pub fn status_after(status: u8, note: u8) -> u8 {
    let status = status_with_fifth(status, note_fifth(note));
    if note_coincidence(note) {
        status | C
    } else {
        status
    }
}

/// Every VRAM address whose byte the line depends on.
pub fn fetches(state: &State, vram: &[u8], line: u8) -> BTreeSet<usize> {
    let mode = mode(state);
    let mut all = BTreeSet::new();
    for number in 0..cells(mode) {
        let cell = cell(state, vram, mode, line.into(), number);
        all.insert(cell.name_at);
        all.insert(cell.pattern_at);
        if !planted(faults::COLOUR_NOT_FETCHED) {
            all.extend(cell.colour_at);
        }
    }
    all.extend(sprites::fetched(state, &scan(state, vram, line)));
    all
}
