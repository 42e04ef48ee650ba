//! The sprites of one line: the scan, their bits and coincidence.

use std::ops::RangeInclusive;

use crate::faults::{self, planted};
use crate::pixel::SpriteHere;
use crate::state::{byte_at, State};

/// The Y that ends the list.
const TERMINATOR: u8 = 208;

/// The leftmost column that a sprite can reach: X 0 with the early clock.
const FIRST_COLUMN: i32 = -32;
/// The rightmost: X 255 and 32 columns wide.
const LAST_COLUMN: i32 = 286;

/// A sprite that is drawn on the line.
#[derive(Clone, Copy, Debug)]
pub struct Sprite {
    /// Its number in the attribute table.
    pub number: u8,
    /// Where its four attribute bytes begin.
    pub attributes_at: usize,
    /// Where its pattern byte for this line is.
    pub left_at: usize,
    /// Where the right half's byte is, for the large size.
    pub right_at: Option<usize>,
    /// Its leftmost column; below 0 when it hangs off to the left.
    pub first_column: i32,
    pub colour: u8,
}

/// What looking through the attributes for one line found.
#[derive(Clone, Debug, Default)]
pub struct Scan {
    /// Where each Y looked at is.
    pub looked_at: Vec<usize>,
    /// The first four covering sprites, lowest number first.
    pub drawn: Vec<Sprite>,
    /// The number of the fifth covering sprite.
    pub fifth: Option<u8>,
}

fn is_large(state: &State) -> bool {
    state.has(1, 0x02)
}

fn is_magnified(state: &State) -> bool {
    state.has(1, 0x01)
}

/// Rows on the screen, and columns too: 8 or 16, twice that when magnified.
pub fn extent(state: &State) -> i32 {
    let plain = if is_large(state) { 16 } else { 8 };
    if is_magnified(state) {
        2 * plain
    } else {
        plain
    }
}

/// How far the line lies below the sprite's top row, round at 256.
pub fn row_offset(line: u8, y: u8) -> i32 {
    (i32::from(line) - i32::from(y) - 1).rem_euclid(256)
}

/// Whether a sprite at this Y has a row on the line.
pub fn covers(state: &State, line: u8, y: u8) -> bool {
    if planted(faults::HIGH_Y_IS_BELOW) && (225..=254).contains(&y) {
        return false;
    }
    row_offset(line, y) < extent(state)
}

/// Where a sprite's attributes begin.
fn attributes_at(state: &State, number: u8) -> usize {
    state.register(5) * 128 + 4 * usize::from(number)
}

/// Goes through the sprites from 0 up, until the terminator, a fifth covering
/// sprite or the end of the list.
pub fn scan(state: &State, vram: &[u8], line: u8) -> Scan {
    let mut scan = Scan::default();
    let mut counted = 0;
    for number in 0..32 {
        let at = attributes_at(state, number);
        let y = byte_at(vram, at);
        scan.looked_at.push(at);
        let covering = covers(state, line, y);
        if ends_list(y, covering) {
            break;
        }
        if !covering {
            continue;
        }
        let sprite = sprite(state, vram, line, number);
        let counts = !planted(faults::ONLY_COLOURED_COUNT) || sprite.colour != 0;
        if counts && counted == 4 {
            scan.fifth = Some(number);
            break;
        }
        scan.drawn.push(sprite);
        if counts {
            counted += 1;
        }
    }
    scan
}

/// The terminator ends the list on every line, covering or not.
fn ends_list(y: u8, covering: bool) -> bool {
    if planted(faults::TERMINATOR_MUST_COVER) && !covering {
        return false;
    }
    y == TERMINATOR
}

/// Takes apart a covering sprite's attributes.
fn sprite(state: &State, vram: &[u8], line: u8, number: u8) -> Sprite {
    let at = attributes_at(state, number);
    let x = byte_at(vram, at + 1);
    let colour_byte = byte_at(vram, at + 3);
    let left_at = pattern_at(
        state,
        byte_at(vram, at + 2),
        row(state, line, byte_at(vram, at)),
    );
    Sprite {
        number,
        attributes_at: at,
        left_at,
        right_at: is_large(state).then_some(left_at + 16),
        first_column: first_column(x, colour_byte),
        colour: colour_byte % 16,
    }
}

/// The pattern row; a magnified row shows on two lines.
fn row(state: &State, line: u8, y: u8) -> usize {
    let offset = row_offset(line, y);
    let row = if is_magnified(state) {
        offset / 2
    } else {
        offset
    };
    row.unsigned_abs() as usize
}

/// The byte of the left half; large sprites take names in fours.
fn pattern_at(state: &State, name: u8, row: usize) -> usize {
    let name = if is_large(state) { name / 4 * 4 } else { name };
    state.register(6) * 2048 + 8 * usize::from(name) + row
}

/// The early clock moves the sprite 32 columns to the left.
pub fn first_column(x: u8, colour_byte: u8) -> i32 {
    if colour_byte & 0x80 != 0 {
        i32::from(x) - 32
    } else {
        i32::from(x)
    }
}

/// Whether the sprite's pattern has a 1 at this screen column.
pub fn has_bit(state: &State, vram: &[u8], sprite: &Sprite, x: i32) -> bool {
    let inside = x - sprite.first_column;
    if inside < 0 || inside >= extent(state) {
        return false;
    }
    let column = if is_magnified(state) {
        inside / 2
    } else {
        inside
    };
    let half_at = if column < 8 {
        Some(sprite.left_at)
    } else {
        sprite.right_at
    };
    half_at.map_or(false, |at| byte_at(vram, at) & (0x80 >> (column % 8)) != 0)
}

/// The drawn sprites at this screen column.
pub fn here<'a>(
    state: &'a State,
    vram: &'a [u8],
    drawn: &'a [Sprite],
    x: i32,
) -> impl Iterator<Item = SpriteHere> + Clone + 'a {
    drawn.iter().map(move |sprite| SpriteHere {
        number: sprite.number,
        colour: has_bit(state, vram, sprite, x).then_some(sprite.colour),
    })
}

/// Whether two drawn sprites both have a 1 at some column that a sprite can
/// reach. The edges of the screen do not matter.
pub fn coincidence(state: &State, vram: &[u8], drawn: &[Sprite]) -> bool {
    meet(state, vram, drawn, columns_of_coincidence())
}

/// All columns, but for the planted mistakes.
fn columns_of_coincidence() -> RangeInclusive<i32> {
    if planted(faults::ONLY_VISIBLE_COINCIDE) {
        0..=255
    } else if planted(faults::NO_COINCIDENCE_ON_THE_LEFT) {
        0..=LAST_COLUMN
    } else if planted(faults::NO_COINCIDENCE_ON_THE_RIGHT) {
        FIRST_COLUMN..=255
    } else if planted(faults::FIRST_COLUMN_FORGOTTEN) {
        FIRST_COLUMN + 1..=LAST_COLUMN
    } else if planted(faults::LAST_COLUMNS_FORGOTTEN) {
        FIRST_COLUMN..=LAST_COLUMN - 2
    } else {
        FIRST_COLUMN..=LAST_COLUMN
    }
}

/// Whether two drawn sprites both have a 1 at one of these columns.
pub fn meet(
    state: &State,
    vram: &[u8],
    drawn: &[Sprite],
    mut columns: RangeInclusive<i32>,
) -> bool {
    let taking_part: Vec<&Sprite> = drawn
        .iter()
        .enumerate()
        .filter(|(place, sprite)| takes_part(*place, sprite))
        .map(|(_, sprite)| sprite)
        .collect();
    columns.any(|x| {
        let here = taking_part
            .iter()
            .filter(|sprite| has_bit(state, vram, sprite, x))
            .count();
        here >= 2
    })
}

/// Every drawn sprite takes part, but for two of the planted mistakes.
fn takes_part(place: usize, sprite: &Sprite) -> bool {
    if planted(faults::ONLY_COLOURED_COINCIDE) {
        sprite.colour != 0
    } else if planted(faults::FOURTH_DOES_NOT_COINCIDE) {
        place != 3
    } else {
        true
    }
}

/// The bytes fetched for the sprites: each Y looked at, and the other
/// attributes and pattern bytes of each drawn one, visible or not.
pub fn fetched(state: &State, scan: &Scan) -> Vec<usize> {
    let mut all = scan.looked_at.clone();
    if planted(faults::FIFTH_NOT_FETCHED) && scan.fifth.is_some() {
        all.pop();
    }
    for sprite in &scan.drawn {
        if planted(faults::OFF_SIDE_NOT_FETCHED) && is_off_side(state, sprite) {
            continue;
        }
        all.extend((1..4).map(|more| sprite.attributes_at + more));
        all.push(sprite.left_at);
        if !planted(faults::RIGHT_HALF_NOT_FETCHED) {
            all.extend(sprite.right_at);
        }
    }
    all
}

/// No column of the sprite is among the 256.
fn is_off_side(state: &State, sprite: &Sprite) -> bool {
    sprite.first_column + extent(state) <= 0 || sprite.first_column > 255
}

#[cfg(test)]
mod tests {
    use super::*;

    fn with_register_1(byte: u8) -> State {
        let mut state = State::at_power_up();
        state.registers[1] = byte;
        state
    }

    #[test]
    fn p6_offsets_at_line_0() {
        assert_eq!(extent(&with_register_1(3)), 32);
        assert_eq!(row_offset(0, 224), 31);
        assert!(covers(&with_register_1(3), 0, 224));
        assert!(!covers(&with_register_1(3), 0, 223));
    }

    #[test]
    fn p7_offsets_at_line_0() {
        assert!(covers(&with_register_1(0), 0, 248));
        assert!(!covers(&with_register_1(0), 0, 247));
        assert_eq!(row_offset(0, 255), 0);
        assert!(!covers(&with_register_1(0), 0, 0));
    }

    #[test]
    fn the_terminator_never_covers() {
        for line in 0..192 {
            assert!(!covers(&with_register_1(3), line, TERMINATOR));
        }
    }

    #[test]
    fn p8_first_columns() {
        assert_eq!(first_column(1, 0x80), -31);
        assert_eq!(first_column(0, 0x80), -32);
        assert_eq!(first_column(255, 0x7F), 255);
    }

    #[test]
    fn no_sprite_reaches_further() {
        assert_eq!(first_column(0, 0x80), FIRST_COLUMN);
        let widest = extent(&with_register_1(3));
        assert_eq!(first_column(255, 0) + widest - 1, LAST_COLUMN);
    }
}
