//! A line with its origins, beside its colours alone. No call from C draws these by themselves; what comes nearest is a log's run
//! that draws lines, and a full draw. Each way draws lines 0 to 191, in order.

use crate::c;
use crate::logs::{log_of, run_whole};
use crate::pictures::{draw_all, picture, Picture, LINES};

/// Operation 4 of a log draws a line.
const DRAW_LINE: u8 = 4;

pub struct Bench {
    lent: Picture,
    line: [u8; 256],
    origins: [u8; 256],
    log: Vec<u8>,
    empty: Vec<u8>,
}

pub fn bench(mode: usize, sprites: usize) -> Bench {
    Bench {
        lent: picture(mode, sprites),
        line: [0; 256],
        origins: [0; 256],
        log: log_of((0..LINES as u8).flat_map(|number| [DRAW_LINE, number])),
        empty: log_of(std::iter::empty()),
    }
}

pub fn with_origins(on: &mut Bench) {
    let Picture { block, vram, .. } = &mut on.lent;
    let mut refused = 0;
    for number in 0..LINES as u32 {
        // Safety: each pointer comes with its slice's length, and the slices lie apart.
        refused |= unsafe {
            c::vdp_draw_line(
                block.as_mut_ptr(),
                block.len(),
                vram.as_ptr(),
                vram.len(),
                on.line.as_mut_ptr(),
                on.line.len(),
                on.origins.as_mut_ptr(),
                on.origins.len(),
                number,
            )
        };
    }
    assert_eq!(refused, 0);
}

pub fn by_log(on: &mut Bench) {
    run_whole(&mut on.lent, &mut on.line, &on.log);
}

/// What a run costs apart from its records.
pub fn by_empty_log(on: &mut Bench) {
    run_whole(&mut on.lent, &mut on.line, &on.empty);
}

pub fn by_full_draw(on: &mut Bench) {
    draw_all(&mut on.lent);
}
