//! Where a pixel came from: each origin worked out by hand, in drawn lines and
//! at points.

mod common;

use common::{shapes_board, sprite_board, Lent, EARLY, FULL};
use reference::pixel::{settle, Pixel, SpriteHere, BACKDROP, BLACK, EXTERNAL, PATTERN};

/// The codes behind the sprites': pattern plane, backdrop, black by default,
/// external.
#[test]
fn the_codes() {
    assert_eq!([PATTERN, BACKDROP, BLACK, EXTERNAL], [32, 33, 34, 35]);
}

/// What two sprites of numbers 3 and 9 show, the pattern plane and the low nibble
/// of register 7: the first that is not 0 is the pixel's.
fn expected(planes: [u8; 4], is_external: bool) -> Pixel {
    let (colour, origin) = match (planes, is_external) {
        ([0, 0, 0, 0], false) => (1, 34),
        ([0, 0, 0, 0], true) => (0, 35),
        ([0, 0, 0, backdrop], _) => (backdrop, 33),
        ([0, 0, pattern, _], _) => (pattern, 32),
        ([0, second, _, _], _) => (second, 9),
        ([first, ..], _) => (first, 3),
    };
    Pixel { colour, origin }
}

/// Sprites in all colours and without a 1, the other planes in all colours.
#[test]
fn the_step_over_all_its_inputs() {
    let sprite = |number, colour| SpriteHere {
        number,
        colour: (colour < 16).then_some(colour),
    };
    for (first, second) in (0..17).flat_map(|first| (0..17).map(move |second| (first, second))) {
        let sprites = [sprite(3, first), sprite(9, second)];
        for both in 0..=255 {
            let (pattern, backdrop) = (both / 16, both % 16);
            let planes = [first % 16, second % 16, pattern, backdrop];
            for is_external in [false, true] {
                let pixel = settle(sprites.into_iter(), pattern, 0xF0 | backdrop, is_external);
                assert_eq!(pixel, expected(planes, is_external));
            }
        }
    }
}

/// Colours and origins at these columns of a drawn line. Every point of the line
/// has to answer the same.
fn at<const N: usize>(lent: &mut Lent, line: u32, columns: [usize; N]) -> [(u8, u8); N] {
    lent.line.fill(0xEE);
    lent.origins.fill(0xEE);
    assert_eq!(lent.draw(line), 0);
    for column in 0..256 {
        let drawn = (lent.line[column], lent.origins[column]);
        let asked = (
            lent.point(line, column as u32),
            lent.origin(line, column as u32),
        );
        assert_eq!(asked, (drawn.0.into(), drawn.1.into()), "{line}, {column}");
    }
    columns.map(|column| (lent.line[column], lent.origins[column]))
}

/// Every column of the line has this colour and origin.
fn is_all(lent: &mut Lent, line: u32, pixel: (u8, u8)) {
    assert_eq!(at(lent, line, [0]), [pixel]);
    assert_eq!(lent.line, vec![pixel.0; 256]);
    assert_eq!(lent.origins, vec![pixel.1; 256]);
}

/// Register 0's external video and register 7, with the colour and origin where
/// nothing but register 7 shows. The high nibble is not the backdrop's.
const BEHIND: [(u8, u8, (u8, u8)); 6] = [
    (0, 0xF4, (4, 33)),
    (1, 0xF4, (4, 33)),
    (0, 0xF1, (1, 33)),
    (0, 0xF0, (1, 34)),
    (1, 0xF0, (0, 35)),
    (1, 0xF1, (1, 33)),
];

#[test]
fn nothing_before_the_backdrop() {
    for register_1 in [0x00, 0x08] {
        for (external, register_7, pixel) in BEHIND {
            let mut lent = sprite_board(register_1);
            (lent.block[0], lent.block[7]) = (external, register_7);
            for line in [0, 100, 191] {
                is_all(&mut lent, line, pixel);
            }
            lent.block[0] |= 2;
            lent.block[1] &= !0x08;
            is_all(&mut lent, 64, pixel);
        }
    }
}

/// Display off, and two or three mode bits: neither pattern nor sprites.
#[test]
fn blank_lines() {
    for (m3, register_1) in [
        (0, 0x00),
        (2, 0x00),
        (0, 0x08),
        (0, 0x10),
        (2, 0x48),
        (2, 0x50),
        (0, 0x58),
        (2, 0x58),
    ] {
        for (external, register_7, pixel) in BEHIND {
            let registers = [m3 | external, register_1, 1, 2, 3, 4, 5, register_7];
            let mut lent = Lent::with_registers(registers);
            lent.vram.fill(0x35);
            for line in [0, 53, 54, 191] {
                is_all(&mut lent, line, pixel);
            }
        }
    }
}

/// A 1 bit and a 0 bit are the pattern plane's, of whatever colour but 0.
#[test]
fn cells_of_graphics_i() {
    let mut lent = sprite_board(0);
    lent.block[7] = 0x07;
    // Row 6, cell 12; name 65 is in group 8.
    lent.vram[0x00CC] = 65;
    lent.vram[0x1A0A] = 0x08;
    for (colours, pixels) in [
        (0xA5, [(7, 33), (5, 32), (10, 32), (5, 32), (7, 33)]),
        (0x77, [(7, 33), (7, 32), (7, 32), (7, 32), (7, 33)]),
        (0x05, [(7, 33), (5, 32), (7, 33), (5, 32), (7, 33)]),
        (0xA0, [(7, 33), (7, 33), (10, 32), (7, 33), (7, 33)]),
        (0x00, [(7, 33); 5]),
    ] {
        lent.vram[0x2008] = colours;
        assert_eq!(at(&mut lent, 50, [95, 96, 100, 103, 104]), pixels);
    }
}

#[test]
fn cells_of_graphics_ii() {
    let mut lent = Lent::with_registers([2, 0x40, 0x0E, 0xFF, 0x03, 0x76, 3, 0]);
    lent.vram[0x3B00] = 208;
    for cell in 0..768 {
        lent.vram[0x3800 + cell] = (cell % 256) as u8;
    }
    // The byte at column 96 of line 100, in the second third.
    lent.vram[0x0C64] = 0x08;
    lent.vram[0x2C64] = 0x41;
    assert_eq!(
        at(&mut lent, 100, [95, 96, 100, 101, 104]),
        [(1, 34), (1, 32), (4, 32), (1, 32), (1, 34)]
    );
    lent.vram[0x2C64] = 0x40;
    lent.block[0] |= 1;
    assert_eq!(
        at(&mut lent, 100, [96, 100, 104]),
        [(0, 35), (4, 32), (0, 35)]
    );
}

#[test]
fn cells_of_multicolor() {
    let mut lent = Lent::with_registers([0, 0x48, 2, 0, 0, 0x20, 3, 0x06]);
    lent.vram[0x1000] = 208;
    lent.vram[0x0AFF] = 0xFF;
    lent.vram[0x07FE] = 0x36;
    lent.vram[0x07FF] = 0x60;
    let columns = [247, 248, 251, 252, 255];
    assert_eq!(
        at(&mut lent, 187, columns),
        [(6, 33), (3, 32), (3, 32), (6, 32), (6, 32)]
    );
    assert_eq!(
        at(&mut lent, 188, columns),
        [(6, 33), (6, 32), (6, 32), (6, 33), (6, 33)]
    );
}

/// Text with names at 0800; name 0 has every second bit set, from the first on.
fn text(external: u8, register_7: u8) -> Lent {
    let mut lent = Lent::with_registers([external, 0x50, 2, 0, 0, 0x20, 3, register_7]);
    lent.vram[0x0000..0x0008].fill(0b1010_1010);
    lent
}

/// The last column of the left margin, a 1 bit, a 0 bit, the same of the last
/// cell, and the first column of the right margin.
const TEXT_COLUMNS: [usize; 6] = [7, 8, 9, 246, 247, 248];

/// A 0 bit has the backdrop's colour and is the pattern plane's. A bit of colour
/// 0 shows what is behind it.
#[test]
fn bits_and_margins_of_text() {
    for (external, register_7, margin, one, zero) in [
        (0, 0xF4, (4, 33), (15, 32), (4, 32)),
        (1, 0xF4, (4, 33), (15, 32), (4, 32)),
        (0, 0x44, (4, 33), (4, 32), (4, 32)),
        (0, 0x04, (4, 33), (4, 33), (4, 32)),
        (1, 0x04, (4, 33), (4, 33), (4, 32)),
        (0, 0xF0, (1, 34), (15, 32), (1, 34)),
        (1, 0xF0, (0, 35), (15, 32), (0, 35)),
        (0, 0x11, (1, 33), (1, 32), (1, 32)),
        (0, 0x10, (1, 34), (1, 32), (1, 34)),
        (0, 0x00, (1, 34), (1, 34), (1, 34)),
        (1, 0x00, (0, 35), (0, 35), (0, 35)),
    ] {
        let mut lent = text(external, register_7);
        for line in [0, 100, 191] {
            let pixels = [margin, one, zero, one, zero, margin];
            assert_eq!(at(&mut lent, line, TEXT_COLUMNS), pixels);
            for column in (0..8).chain(248..256) {
                assert_eq!((lent.line[column], lent.origins[column]), margin);
            }
        }
    }
}

/// The same sprites would be in front of everything in Graphics I.
#[test]
fn text_has_no_sprites() {
    let mut lent = sprite_board(0);
    lent.vram[0x0800..0x0808].fill(0xFF);
    lent.sprite(0, [49, 10, 0, 7]);
    lent.block[7] = 0xF4;
    assert_eq!(at(&mut lent, 50, [10]), [(7, 0)]);
    lent.block[1] |= 0x10;
    assert_eq!(at(&mut lent, 50, [7, 10]), [(4, 33), (4, 32)]);
}

/// Each number alone on its line: it is the first that is drawn there.
#[test]
fn every_number_of_a_sprite() {
    for number in 0..32 {
        let mut sprites = [[192, 10, FULL, 5]; 32];
        sprites[number] = [49, 10, FULL, 7];
        let mut lent = shapes_board(0, &sprites[..number + 1]);
        let origin = number as u8;
        assert_eq!(
            at(&mut lent, 50, [9, 10, 17, 18]),
            [(1, 34), (7, origin), (7, origin), (1, 34)]
        );
    }
}

/// Sprites 0, 3, 5, 9 and 12 cover the line; the fifth is not drawn.
#[test]
fn numbers_are_those_of_the_table() {
    let covering = [0, 3, 5, 9, 12];
    let mut sprites = [[100, 0, FULL, 5]; 13];
    for (place, number) in covering.into_iter().enumerate() {
        sprites[number] = [49, 20 * place as u8, FULL, 7 + place as u8];
    }
    for register_5 in [0x20, 0x7F] {
        let mut lent = shapes_board(0, &[]);
        lent.block[5] = register_5;
        for (number, &sprite) in sprites.iter().enumerate() {
            lent.sprite(number, sprite);
        }
        lent.sprite(sprites.len(), [208, 0, 0, 0]);
        assert_eq!(
            at(&mut lent, 50, [0, 20, 40, 60, 80]),
            [(7, 0), (8, 3), (9, 5), (10, 9), (1, 34)]
        );
    }
}

const OVERLAPPING: [[u8; 4]; 2] = [[49, 10, FULL, 5], [49, 12, FULL, 7]];
const COLUMNS: [usize; 6] = [9, 10, 12, 17, 18, 20];

/// The lowest number is in front, where both have the same colour too.
#[test]
fn two_sprites_overlap() {
    let mut lent = shapes_board(0, &OVERLAPPING);
    assert_eq!(
        at(&mut lent, 50, COLUMNS),
        [(1, 34), (5, 0), (5, 0), (5, 0), (7, 1), (1, 34)]
    );
    let [mut left, right] = OVERLAPPING;
    left[3] = 7;
    let mut lent = shapes_board(0, &[left, right]);
    assert_eq!(
        at(&mut lent, 50, COLUMNS),
        [(1, 34), (7, 0), (7, 0), (7, 0), (7, 1), (1, 34)]
    );
    let mut lent = shapes_board(0, &[right, left]);
    assert_eq!(
        at(&mut lent, 50, COLUMNS),
        [(1, 34), (7, 1), (7, 0), (7, 0), (7, 0), (1, 34)]
    );
}

/// A sprite of colour 0 is never an origin: what is behind it shows.
#[test]
fn a_sprite_of_colour_0() {
    let mut sprites = OVERLAPPING;
    sprites[0][3] = 0x70;
    for (external, register_7, behind) in BEHIND {
        let mut lent = shapes_board(0, &sprites);
        (lent.block[0], lent.block[7]) = (external, register_7);
        let other = (7, 1);
        assert_eq!(
            at(&mut lent, 50, COLUMNS),
            [behind, behind, other, other, other, behind]
        );
        // A pattern plane of colour 3 everywhere.
        lent.vram[0x2000] = 0x03;
        let behind = (3, 32);
        assert_eq!(
            at(&mut lent, 50, COLUMNS),
            [behind, behind, other, other, other, behind]
        );
    }
    let mut lent = shapes_board(0, &sprites.map(|[y, x, name, _]| [y, x, name, 0]));
    is_all(&mut lent, 50, (1, 34));
}

/// A sprite of the backdrop's colour, or of the pattern plane's, is the origin.
#[test]
fn a_sprite_of_the_same_colour() {
    let mut lent = shapes_board(0, &[[49, 10, FULL, 4]]);
    lent.block[7] = 4;
    assert_eq!(at(&mut lent, 50, [9, 10]), [(4, 33), (4, 0)]);
    lent.vram[0x2000] = 0x04;
    assert_eq!(at(&mut lent, 50, [9, 10]), [(4, 32), (4, 0)]);
}

/// In all modes that have sprites.
#[test]
fn sprites_before_the_pattern_plane() {
    for (m3, m2) in [(0, 0), (2, 0), (0, 8)] {
        let mut lent = Lent::with_registers([m3, 0x40 | m2, 0x0E, 0xFF, 0, 0x76, 3, 4]);
        lent.vram[0x1800..0x1820].fill(0xFF);
        // Pattern and colour bytes of name 0: a 3 wherever it looks.
        lent.vram[0x0000..0x0008].fill(0x33);
        lent.vram[0x2000..0x2008].fill(0x33);
        lent.vram[0x3FC0] = 0x33;
        lent.sprite(0, [255, 32, 0, EARLY | 9]);
        lent.sprite(1, [208, 0, 0, 0]);
        for line in [0, 7] {
            assert_eq!(at(&mut lent, line, [0, 7, 8]), [(9, 0), (9, 0), (3, 32)]);
        }
    }
}

/// Small ones reach over the top edge from Y 248 on, large and magnified ones
/// from Y 224 on. The number is the table's there too.
#[test]
fn sprites_over_the_top_edge() {
    for (register_1, y, lines) in [
        (0, 247, 0),
        (0, 248, 1),
        (0, 254, 7),
        (0, 255, 8),
        (1, 240, 1),
        (2, 247, 8),
        (3, 223, 0),
        (3, 224, 1),
        (3, 225, 2),
        (3, 254, 31),
        (3, 255, 32),
    ] {
        let mut lent = shapes_board(register_1, &[[192, 10, FULL, 5], [y, 10, FULL, 15]]);
        for line in 0..40 {
            let pixel = if line < lines { (15, 1) } else { (1, 34) };
            assert_eq!(at(&mut lent, line, [9, 10]), [(1, 34), pixel], "Y {y}");
        }
    }
}

/// Drawing would turn 5S and C on.
#[test]
fn asking_changes_nothing() {
    let lent = shapes_board(0, &[[49, 10, FULL, 7]; 5]);
    let before = lent.clone();
    for line in 0..192 {
        let shown = (50..58).contains(&line);
        assert_eq!(lent.origin(line, 10), if shown { 0 } else { 34 });
    }
    assert!(before == lent);
}

/// The answer of a refused call has no origin, and 0 is a sprite's: the refusal
/// number decides.
#[test]
fn a_refused_answer_has_0_below() {
    let lent = sprite_board(0);
    assert_eq!(lent.origin(191, 255), 34);
    assert_eq!(lent.origin(192, 0), 4 * 256);
    assert_eq!(lent.origin(192, 256), 4 * 256);
    assert_eq!(lent.origin(191, 256), 13 * 256);
    assert_eq!(lent.origin(u32::MAX, 0), 4 * 256);
    assert_eq!(lent.origin(0, 65_536), 13 * 256);
}

/// A full draw and a refresh have no slice for origins, and their frame has the
/// drawn lines' colours.
#[test]
fn whole_pictures_keep_to_colours() {
    let mut lent = shapes_board(0, &OVERLAPPING);
    lent.block[7] = 0xF4;
    lent.origins.fill(0xEE);
    lent.full_draw();
    lent.block[14] = 1;
    lent.refresh();
    assert_eq!(lent.origins, vec![0xEE; 256]);
    for line in [0, 50, 191] {
        assert_eq!(lent.draw(line), 0);
        let start = 256 * line as usize;
        assert_eq!(lent.line, lent.frame[start..start + 256]);
    }
}
