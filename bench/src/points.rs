//! The colour of one point and its origin, beside a data read and a line of a full draw.

use crate::pictures::{draw_all, picture, Picture};
use difftest::library::LIBRARY;

/// How many calls one turn makes.
pub const POINTS: usize = 4096;
pub const READS: usize = 4096;

/// A picture, and where the pointer stands.
pub struct Bench {
    lent: Picture,
    place: u32,
}

pub fn bench(mode: usize, sprites: usize) -> Bench {
    Bench {
        lent: picture(mode, sprites),
        place: 0,
    }
}

const PLACES: u32 = 192 * 256;

/// Steps over lines and columns, and comes to every point once before it begins again.
const STEP: u32 = 30_011;

/// The same walk for all calls, which take from it what they need. The answers are summed, so that nothing is left
/// out.
fn walk(place: &mut u32, calls: usize, mut call: impl FnMut(u32, u32) -> u32) {
    let mut sum = 0u32;
    for _ in 0..calls {
        *place += STEP;
        if *place >= PLACES {
            *place -= PLACES;
        }
        let answer = call(*place / 256, *place % 256);
        assert!(answer < 256);
        sum = sum.wrapping_add(answer ^ *place);
    }
    std::hint::black_box(sum);
}

pub fn points(on: &mut Bench) {
    let Picture { block, vram, .. } = &mut on.lent;
    walk(&mut on.place, POINTS, |line, column| (LIBRARY.point)(block, vram, line, column));
}

pub fn origins(on: &mut Bench) {
    let Picture { block, vram, .. } = &mut on.lent;
    walk(&mut on.place, POINTS, |line, column| (LIBRARY.origin)(block, vram, line, column));
}

pub fn reads(on: &mut Bench) {
    let Picture { block, vram, .. } = &mut on.lent;
    walk(&mut on.place, READS, |_, _| (LIBRARY.data_read)(block, vram));
}

pub fn lines(on: &mut Bench) {
    draw_all(&mut on.lent);
}
