//! The step that settles a pixel: its colour, and the origin of that colour.

use crate::faults::{self, planted};
use crate::state::State;

// A sprite's origin is its number in the attribute table, 0 to 31.

/// The pattern plane.
pub const PATTERN: u8 = 32;
/// The low nibble of register 7, where it is not 0.
pub const BACKDROP: u8 = 33;
/// No plane has a colour, and external video is off.
pub const BLACK: u8 = 34;
/// No plane has a colour, and external video is on.
pub const EXTERNAL: u8 = 35;

#[derive(Clone, Copy, Debug, PartialEq, Eq)]
pub struct Pixel {
    pub colour: u8,
    pub origin: u8,
}

/// A drawn sprite, at one pixel.
#[derive(Clone, Copy, Debug, PartialEq, Eq)]
pub struct SpriteHere {
    /// Its number in the attribute table.
    pub number: u8,
    /// Its colour where it has a 1 here, be it 0.
    pub colour: Option<u8>,
}

impl SpriteHere {
    /// What it shows here; 0 for nothing.
    pub fn shown(self) -> u8 {
        self.colour.unwrap_or(0)
    }
}

/// The first plane with a colour: the drawn sprites, lowest number first, the
/// pattern plane, the backdrop. Where none has one it is black or, with external
/// video on, 0.
#[inline]
pub fn settle(
    sprites: impl Iterator<Item = SpriteHere> + Clone,
    pattern: u8,
    register_7: u8,
    is_external: bool,
) -> Pixel {
    let backdrop = register_7 % 16;
    let (colour, origin) = match sprites.clone().find(|here| here.shown() != 0) {
        Some(sprite) => (sprite.shown(), sprite.number),
        None if pattern != 0 => (pattern, PATTERN),
        None if backdrop != 0 => (backdrop, BACKDROP),
        None if is_external => (0, EXTERNAL),
        None => (1, BLACK),
    };
    Pixel {
        colour,
        origin: misnamed(sprites, origin).unwrap_or(origin),
    }
}

/// The origin that the planted mistake gives for this one. None where none is
/// planted, or where it makes no difference.
#[inline]
fn misnamed(mut sprites: impl Iterator<Item = SpriteHere>, origin: u8) -> Option<u8> {
    match (faults::number(), origin) {
        (faults::PLACE_AS_NUMBER, _) => sprites
            .position(|here| here.number == origin)
            .map(|place| place as u8),
        (faults::UNCOLOURED_IS_ORIGIN, _) => sprites
            .find(|here| here.colour.is_some())
            .map(|here| here.number),
        (faults::HIDDEN_IS_ORIGIN, _) => sprites
            .filter(|here| here.shown() != 0)
            .last()
            .map(|here| here.number),
        (faults::BACKDROP_AND_BLACK, BACKDROP) => Some(BLACK),
        (faults::BACKDROP_AND_BLACK, BLACK) => Some(BACKDROP),
        (faults::BLACK_AND_EXTERNAL, BLACK) => Some(EXTERNAL),
        (faults::BLACK_AND_EXTERNAL, EXTERNAL) => Some(BLACK),
        _ => None,
    }
}

/// The colours of Text's bits. That of a 0 is the backdrop's too, so that only
/// the origin tells them apart.
pub fn text_colours(state: &State) -> u8 {
    let colours = state.registers[7];
    if planted(faults::TEXT_0_IS_BACKDROP) {
        colours & 0xF0
    } else {
        colours
    }
}

/// What the pattern plane shows where it has no cell, at Text's margins and on
/// blank lines: nothing.
pub fn without_cell(state: &State) -> u8 {
    if planted(faults::MARGIN_IS_PATTERN) {
        state.registers[7] % 16
    } else {
        0
    }
}
