//! Where the tables lie that a mode reads. Drawing has no use for it: it is for
//! planted mistakes and for aiming writes.

use std::ops::Range;

use crate::line::{mode, Mode};
use crate::state::State;

/// The bytes of each table, none for a table that the mode does not have.
#[derive(Clone, Debug, Default, PartialEq, Eq)]
pub struct Tables {
    pub names: Range<usize>,
    pub patterns: Range<usize>,
    pub colours: Range<usize>,
    pub attributes: Range<usize>,
    pub sprite_patterns: Range<usize>,
}

pub fn tables(state: &State) -> Tables {
    let from = |start: usize, length: usize| start..start + length;
    let names = state.register(2) * 1024;
    let patterns = state.register(4) * 2048;
    let with_sprites = Tables {
        names: from(names, 768),
        patterns: from(patterns, 2048),
        attributes: from(state.register(5) * 128, 128),
        sprite_patterns: from(state.register(6) * 2048, 2048),
        ..Tables::default()
    };
    match mode(state) {
        Mode::GraphicsOne => Tables {
            colours: from(state.register(3) * 64, 32),
            ..with_sprites
        },
        Mode::GraphicsTwo => Tables {
            patterns: from(state.register(4) / 4 * 8192, 6144),
            colours: from(state.register(3) / 128 * 8192, 6144),
            ..with_sprites
        },
        Mode::Multicolor => with_sprites,
        Mode::Text => Tables {
            names: from(names, 960),
            patterns: from(patterns, 2048),
            ..Tables::default()
        },
        Mode::Blank => Tables::default(),
    }
}

#[cfg(test)]
mod tests {
    use super::*;
    use crate::line::fetches;

    /// Every byte that a line fetches is in a table, and each table's first and
    /// last byte is fetched in some picture.
    #[test]
    fn lines_fetch_from_tables() {
        for (register_0, register_1) in [(0, 0x40), (2, 0x40), (0, 0x48), (0, 0x50), (0, 0)] {
            let mut state = State::at_power_up();
            state.registers = [register_0, register_1, 14, 0xFF, 0, 0x76, 3, 0];
            let Tables {
                names,
                patterns,
                colours,
                attributes,
                sprite_patterns,
            } = tables(&state);
            let all = [names, patterns, colours, attributes, sprite_patterns];
            let mut ends: Vec<usize> = all
                .iter()
                .filter(|table| !table.is_empty())
                .flat_map(|table| [table.start, table.end - 1])
                .collect();
            // Names 0 alone, and 255 alone, of cells and sprites, which stand
            // below one another.
            for name in [0, 255] {
                let mut vram = vec![0; 16_384];
                vram[all[0].clone()].fill(name);
                for number in 0..32 {
                    let at = all[3].start + 4 * number;
                    if at < all[3].end {
                        vram[at] = (6 * number) as u8;
                        vram[at + 2] = name;
                    }
                }
                for line in 0..192 {
                    let fetched = fetches(&state, &vram, line);
                    assert!(fetched
                        .iter()
                        .all(|at| all.iter().any(|table| table.contains(at))));
                    ends.retain(|at| !fetched.contains(at));
                }
            }
            assert_eq!(ends, []);
        }
    }
}
