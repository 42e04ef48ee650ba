//! The colour and the origin of one point: the cell that holds its column and
//! the sprites of its line, byte by byte as they are fetched. No line is drawn
//! for it, so that a drawn line is a second opinion.

use crate::faults::{self, miscounted, planted};
use crate::line::{mode, Mode};
use crate::pixel::{settle, text_colours, without_cell, Pixel, SpriteHere};
use crate::refusal::{self, refused, Answer};
use crate::state::{byte_at, State, LINES, LINE_BYTES, VRAM_BYTES};

/// The colour at a line and column. Status stays as it was.
pub fn point(state: &State, vram: &[u8], line: u32, column: u32) -> Answer {
    let pixel = tested_pixel(state, vram, line, column);
    pixel.map_or_else(|no| no, |pixel| Answer::accepted(pixel.colour))
}

/// Where the colour at a line and column came from, with the same tests.
pub fn origin(state: &State, vram: &[u8], line: u32, column: u32) -> Answer {
    let pixel = tested_pixel(state, vram, line, column);
    pixel.map_or_else(|no| no, |pixel| Answer::accepted(pixel.origin))
}

/// The pixel at a line and column, or the first refusal.
fn tested_pixel(state: &State, vram: &[u8], line: u32, column: u32) -> Result<Pixel, Answer> {
    let line_is_wrong = line_is_wrong(line);
    let column_is_wrong = column_is_wrong(column);
    let line_comes_later = column_is_wrong && planted(faults::COLUMN_TESTED_FIRST);
    if let Some(no) = refused(&[
        (refusal::VRAM, vram.len() != VRAM_BYTES),
        (refusal::STATE, !state.is_well_formed()),
        (refusal::LINE, line_is_wrong && !line_comes_later),
        (refusal::COLUMN, column_is_wrong),
    ]) {
        return Err(no);
    }
    Ok(look(state, vram, (line % 256) as u8, (column % 256) as u8).pixel)
}

fn line_is_wrong(line: u32) -> bool {
    let line = if planted(faults::POINT_LINE_WRAPS) {
        line % 256
    } else {
        line
    };
    line >= LINES as u32
}

/// A column has more bits than a byte, and all of them count.
fn column_is_wrong(column: u32) -> bool {
    if planted(faults::POINT_COLUMN_WRAPS) || column == 256 && planted(faults::COLUMN_256) {
        return false;
    }
    column >= LINE_BYTES as u32
}

/// What is found at a point of the screen.
#[derive(Clone, Debug, PartialEq, Eq)]
pub struct Look {
    pub pixel: Pixel,
    /// The drawn sprites of its line, lowest number first.
    pub sprites: Vec<SpriteHere>,
    /// Every VRAM address whose byte the point depends on, in the order of
    /// fetching: the cell's bytes, each Y, the drawn sprites' other bytes.
    pub fetches: Vec<usize>,
}

/// The addresses alone.
pub fn fetches(state: &State, vram: &[u8], line: u8, column: u8) -> Vec<usize> {
    look(state, vram, line, column).fetches
}

/// VRAM, and where each byte that was fetched from it is.
struct Fetching<'a> {
    vram: &'a [u8],
    addresses: Vec<usize>,
}

impl Fetching<'_> {
    fn fetch(&mut self, at: usize) -> u8 {
        self.addresses.push(at);
        byte_at(self.vram, at)
    }
}

/// Looks at a point of the screen.
pub fn look(state: &State, vram: &[u8], line: u8, column: u8) -> Look {
    let (line, column) = (usize::from(line), usize::from(column));
    let mut from = Fetching {
        vram,
        addresses: Vec::new(),
    };
    let pattern = pattern_plane(state, &mut from, line, column);
    let sprites = sprites_here(state, &mut from, line, column);
    let is_external = state.has(0, 0x01) && !planted(faults::POINT_WITHOUT_EXTERNAL);
    Look {
        pixel: settle(
            sprites.iter().copied(),
            pattern,
            state.registers[7],
            is_external,
        ),
        sprites,
        fetches: from.addresses,
    }
}

/// The cell that holds a column, and how far into it the column is. Text has
/// none at its margins, a blank line has none at all.
fn cell(mode: Mode, column: usize) -> Option<(usize, usize)> {
    let width = match mode {
        Mode::Text if planted(faults::POINT_TEXT_8_WIDE) => 8,
        Mode::Text => 6,
        _ => 8,
    };
    let from_first = match mode {
        Mode::Blank if !planted(faults::BLANK_POINT_READS) => return None,
        Mode::Text if (8..=247).contains(&column) => column - 8,
        Mode::Text if planted(faults::POINT_IN_MARGIN) => column.saturating_sub(8),
        Mode::Text => return None,
        _ => column,
    };
    let next = usize::from(planted(faults::POINT_OF_NEIGHBOUR));
    let right = (from_first / width + next, from_first % width);
    match mode {
        Mode::Text => miscounted(faults::POINT_MISCOUNTS, from_first).or(Some(right)),
        _ => Some(right),
    }
}

/// The colour that the one cell has at the column.
fn pattern_plane(state: &State, from: &mut Fetching, line: usize, column: usize) -> u8 {
    let mode = mode(state);
    let Some((cell, from_left)) = cell(mode, column) else {
        return without_cell(state);
    };
    let cells_to_a_row = if mode == Mode::Text { 40 } else { 32 };
    let name_at = state.register(2) * 1024 + line / 8 * cells_to_a_row + cell;
    let name = usize::from(from.fetch(name_at));
    match mode {
        Mode::GraphicsOne | Mode::Blank => {
            let pattern = from.fetch(state.register(4) * 2048 + 8 * name + line % 8);
            let colours = from.fetch(state.register(3) * 64 + name / 8);
            by_bit(pattern, from_left, colours)
        }
        Mode::GraphicsTwo => {
            let offset = line / 64 * 2048 + 8 * name + line % 8;
            let pattern = from.fetch(state.register(4) / 4 * 8192 + offset);
            let colours = from.fetch(state.register(3) / 128 * 8192 + offset);
            by_bit(pattern, from_left, colours)
        }
        Mode::Multicolor => {
            let colours = from.fetch(state.register(4) * 2048 + 8 * name + line / 4 % 8);
            by_bit(0b1111_0000, from_left, colours)
        }
        Mode::Text => {
            let pattern = from.fetch(state.register(4) * 2048 + 8 * name + line % 8);
            by_bit(pattern, from_left, text_colours(state))
        }
    }
}

/// A 1 takes the high nibble, a 0 the low one; the top bit is leftmost.
fn by_bit(pattern: u8, from_left: usize, colours: u8) -> u8 {
    if pattern >> (7 - from_left) & 1 == 1 {
        colours >> 4
    } else {
        colours & 15
    }
}

/// The line's drawn sprites at the column. All their bytes are fetched, wherever
/// they are.
fn sprites_here(state: &State, from: &mut Fetching, line: usize, column: usize) -> Vec<SpriteHere> {
    let mut here = Vec::new();
    if matches!(mode(state), Mode::Text | Mode::Blank) {
        return here;
    }
    for (number, row) in drawn(state, from, line) {
        let colour = colour_of(state, from, number, row, column);
        here.push(SpriteHere { number, colour });
    }
    if planted(faults::POINT_WITHOUT_FRONT) && !here.is_empty() {
        here.remove(0);
    }
    if planted(faults::POINT_FROM_BEHIND) {
        here.reverse();
    }
    if planted(faults::UNCOLOURED_HIDES) {
        here.retain(|sprite| sprite.colour.is_some());
        here.truncate(1);
    }
    here
}

/// Columns, and lines, to a bit of a sprite's pattern.
fn scale(state: &State) -> usize {
    if state.has(1, 0x01) {
        2
    } else {
        1
    }
}

/// Where a sprite's attributes begin.
fn attributes_at(state: &State, number: u8) -> usize {
    state.register(5) * 128 + 4 * usize::from(number)
}

/// The sprites drawn on the line: their numbers, and the row of their pattern.
/// Of a fifth only Y is fetched, and of none after it.
fn drawn(state: &State, from: &mut Fetching, line: usize) -> Vec<(u8, usize)> {
    let rows = if state.has(1, 0x02) { 16 } else { 8 };
    let most = if planted(faults::POINT_OF_FIFTH) {
        5
    } else {
        4
    };
    let mut drawn = Vec::new();
    for number in 0..32 {
        let y = usize::from(from.fetch(attributes_at(state, number)));
        // The line less Y less 1, round at 256.
        let row = (line + 255 - y) % 256 / scale(state);
        if y == 208 {
            break;
        }
        if row >= rows {
            continue;
        }
        if drawn.len() == most {
            break;
        }
        drawn.push((number, row));
    }
    drawn
}

/// The colour of a drawn sprite where it has a 1 at the column, be it 0.
fn colour_of(
    state: &State,
    from: &mut Fetching,
    number: u8,
    row: usize,
    column: usize,
) -> Option<u8> {
    let before = from.addresses.len();
    let at = attributes_at(state, number);
    let x = usize::from(from.fetch(at + 1));
    let name = usize::from(from.fetch(at + 2));
    let colour_byte = from.fetch(at + 3);
    let pattern = sprite_row(state, from, name, row);
    // The early clock moves the sprite 32 columns to the left.
    let early = if colour_byte & 0x80 != 0 { 32 } else { 0 };
    let bit = (column + early)
        .checked_sub(x)
        .map(|from_left| from_left / scale(state))
        .filter(|&bit| bit < 16);
    if bit.is_none() && planted(faults::BESIDE_NOT_FETCHED) {
        from.addresses.truncate(before);
    }
    bit.filter(|bit| pattern >> (15 - bit) & 1 == 1)
        .map(|_| colour_byte % 16)
}

/// A row of a sprite's pattern as 16 bits; the right half of a small one is 0.
fn sprite_row(state: &State, from: &mut Fetching, name: usize, row: usize) -> u16 {
    let is_large = state.has(1, 0x02);
    let name = if is_large { name - name % 4 } else { name };
    let left_at = state.register(6) * 2048 + 8 * name + row;
    let left = from.fetch(left_at);
    let right = if is_large {
        from.fetch(left_at + 16)
    } else {
        0
    };
    u16::from_be_bytes([left, right])
}
