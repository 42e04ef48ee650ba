//! The colour of one point: refusals, points worked out by hand, the drawn line
//! as a second opinion, and the bytes that a point depends on. Its origin has the
//! same refusals, and depends on the same bytes.

mod common;

use common::{shapes_board, sprite_board, Lent, Random, EARLY, FULL, LEFTMOST, RIGHTMOST};
use reference::line;
use reference::point::{fetches, origin, point};
use reference::{Answer, State};
use std::collections::BTreeSet;

/// What refusals a point has, in the order of their tests.
const ORDER: [u32; 5] = [1, 2, 3, 4, 13];

/// A board on which these refusals apply, and line and column to ask for.
fn refusing(numbers: &[u32]) -> (Lent, u32, u32) {
    let mut lent = sprite_board(0);
    let has = |number| numbers.contains(&number);
    if has(3) {
        lent.block[9] = 0x40;
    }
    if has(2) {
        lent.block.push(0);
    }
    if has(1) {
        lent.vram.pop();
    }
    let line = if has(4) { 192 } else { 191 };
    let column = if has(13) { 256 } else { 255 };
    (lent, line, column)
}

#[test]
fn each_refusal_alone_and_each_two_in_order() {
    for (place, &first) in ORDER.iter().enumerate() {
        for &second in &ORDER[place..] {
            let (mut lent, line, column) = refusing(&[second, first]);
            let before = lent.clone();
            assert_eq!(lent.point(line, column), 256 * first);
            assert_eq!(lent.origin(line, column), 256 * first);
            assert!(before == lent);
        }
    }
    let (mut lent, line, column) = refusing(&[]);
    assert_eq!(lent.point(line, column), 1);
    assert_eq!(lent.origin(line, column), 34);
}

/// Colour or origin, without a block.
type Asked = fn(&State, &[u8], u32, u32) -> Answer;

#[test]
fn a_direct_refusal() {
    let lent = sprite_board(0);
    let right = lent.state();
    let wrong = State {
        address: 16384,
        ..right
    };
    for (call, accepted) in [(point as Asked, 1), (origin as Asked, 34)] {
        let number = |state, vram, line, column| call(state, vram, line, column).number();
        assert_eq!(number(&wrong, &[], 192, 256), 256);
        assert_eq!(number(&wrong, &lent.vram, 192, 256), 3 * 256);
        assert_eq!(number(&right, &lent.vram, 192, 256), 4 * 256);
        assert_eq!(number(&right, &lent.vram, 191, 256), 13 * 256);
        assert_eq!(number(&right, &lent.vram, 191, 255), accepted);
    }
}

#[test]
fn lines_and_columns_at_the_ends() {
    let mut lent = sprite_board(0);
    for line in [192, 193, 255, 256, 257, 447, 65536, u32::MAX] {
        assert_eq!(lent.point(line, 0), 4 * 256);
        assert_eq!(lent.point(line, 256), 4 * 256);
    }
    for column in [256, 257, 511, 65535, 65536, 65791, u32::MAX] {
        assert_eq!(lent.point(0, column), 13 * 256);
        assert_eq!(lent.point(191, column), 13 * 256);
    }
    for line in [0, 191] {
        for column in [0, 255] {
            assert_eq!(lent.point(line, column), 1);
        }
    }
}

/// The colours at these columns of a line.
fn colours<const N: usize>(lent: &mut Lent, line: u32, columns: [u32; N]) -> [u32; N] {
    columns.map(|column| lent.point(line, column))
}

#[test]
fn a_point_of_graphics_i() {
    let mut lent = sprite_board(0);
    lent.block[7] = 0x07;
    // Row 6, cell 12; name 65 is in group 8.
    lent.vram[0x00CC] = 65;
    lent.vram[0x1A0A] = 0x08;
    lent.vram[0x2008] = 0xA5;
    assert_eq!(colours(&mut lent, 50, [99, 100, 101]), [5, 10, 5]);
    assert_eq!(colours(&mut lent, 50, [95, 96, 103, 104]), [7, 5, 5, 7]);
    assert_eq!(
        fetches(&lent.state(), &lent.vram, 50, 100),
        [0x00CC, 0x1A0A, 0x2008, 0x1000]
    );
    // Colour 0 lets the backdrop through.
    lent.vram[0x2008] = 0x05;
    assert_eq!(colours(&mut lent, 50, [99, 100, 101]), [5, 7, 5]);
}

/// The guide's bitmap: the lower bits of registers 3 and 4 do not matter.
#[test]
fn a_point_of_graphics_ii() {
    for (colour_bits, pattern_bits) in [(0xFF, 0x03), (0x9F, 0x00)] {
        let registers = [2, 0x40, 0x0E, colour_bits, pattern_bits, 0x76, 3, 0];
        let mut lent = Lent::with_registers(registers);
        lent.vram[0x3B00] = 208;
        for cell in 0..768 {
            lent.vram[0x3800 + cell] = (cell % 256) as u8;
        }
        for (at, bits) in [(0x0C64, 0x08), (0x17FF, 0x01)] {
            lent.vram[at] = bits;
            lent.vram[0x2000 + at] = 0x4F;
        }
        assert_eq!(colours(&mut lent, 100, [99, 100, 101]), [15, 4, 15]);
        assert_eq!(colours(&mut lent, 191, [247, 254, 255]), [1, 15, 4]);
        let state = lent.state();
        assert_eq!(
            fetches(&state, &lent.vram, 100, 100),
            [0x398C, 0x0C64, 0x2C64, 0x3B00]
        );
        assert_eq!(
            fetches(&state, &lent.vram, 191, 255),
            [0x3AFF, 0x17FF, 0x37FF, 0x3B00]
        );
    }
}

#[test]
fn a_point_of_multicolor() {
    let mut lent = Lent::with_registers([0, 0x48, 2, 0, 0, 0x20, 3, 0]);
    lent.vram[0x1000] = 208;
    lent.vram[0x0AFF] = 0xFF;
    lent.vram[0x07FE] = 0x35;
    lent.vram[0x07FF] = 0x64;
    let columns = [248, 251, 252, 255];
    assert_eq!(colours(&mut lent, 184, columns), [3, 3, 5, 5]);
    assert_eq!(colours(&mut lent, 187, columns), [3, 3, 5, 5]);
    assert_eq!(colours(&mut lent, 188, columns), [6, 6, 4, 4]);
    assert_eq!(colours(&mut lent, 191, columns), [6, 6, 4, 4]);
    assert_eq!(
        fetches(&lent.state(), &lent.vram, 191, 252),
        [0x0AFF, 0x07FF, 0x1000]
    );
}

/// Text with names at 0800 and patterns at 0000.
fn text(register_0: u8, register_7: u8) -> Lent {
    Lent::with_registers([register_0, 0x50, 2, 0, 0, 0x20, 3, register_7])
}

/// Row 1 of the screen; the low two bits of a pattern do not show.
#[test]
fn a_point_of_text() {
    let mut lent = text(0, 0xF4);
    lent.vram[0x0828] = 1;
    lent.vram[0x0829] = 2;
    lent.vram[0x084F] = 3;
    lent.vram[0x000D] = 0b1000_0111;
    lent.vram[0x0015] = 0b0111_1100;
    lent.vram[0x001D] = 0b0000_0111;
    let columns = [7, 8, 9, 12, 13, 14, 15, 19, 20];
    assert_eq!(
        colours(&mut lent, 13, columns),
        [4, 15, 4, 4, 15, 4, 15, 15, 4]
    );
    assert_eq!(colours(&mut lent, 13, [241, 246, 247, 248]), [4, 4, 15, 4]);
    let state = lent.state();
    for (column, at) in [
        (8, [0x0828, 0x000D]),
        (13, [0x0828, 0x000D]),
        (14, [0x0829, 0x0015]),
        (247, [0x084F, 0x001D]),
    ] {
        assert_eq!(fetches(&state, &lent.vram, 13, column), at);
    }
}

/// No pattern shows at the margins and none is fetched, whatever VRAM holds.
#[test]
fn margins_of_text() {
    for (register_0, register_7, margin) in [(0, 0xF4, 4), (1, 0xF4, 4), (0, 0xF0, 1), (1, 0xF0, 0)]
    {
        let mut lent = text(register_0, register_7);
        lent.vram.fill(0xFF);
        for line in [0, 100, 191] {
            for column in (0..8).chain(248..256) {
                assert_eq!(lent.point(line, column), margin);
                let fetched = fetches(&lent.state(), &lent.vram, line as u8, column as u8);
                assert_eq!(fetched, []);
            }
            assert_eq!(colours(&mut lent, line, [8, 13, 14, 247]), [15; 4]);
        }
    }
}

/// Registers 0 and 1 without display, and with two or three mode bits.
const BLANK: [(u8, u8); 8] = [
    (0, 0x00),
    (2, 0x00),
    (0, 0x08),
    (0, 0x10),
    (2, 0x48),
    (2, 0x50),
    (0, 0x58),
    (2, 0x58),
];

#[test]
fn blank_lines() {
    for (register_0, register_1) in BLANK {
        for (external, backdrop, colour) in [(0, 0xF6, 6), (1, 0xF6, 6), (0, 0xF0, 1), (1, 0xF0, 0)]
        {
            let registers = [register_0 | external, register_1, 1, 2, 3, 4, 5, backdrop];
            let mut lent = Lent::with_registers(registers);
            lent.vram.fill(0x35);
            for (line, column) in [(0, 0), (53, 60), (54, 128), (191, 255)] {
                assert_eq!(lent.point(line, column), colour);
                let fetched = fetches(&lent.state(), &lent.vram, line as u8, column as u8);
                assert_eq!(fetched, []);
            }
        }
    }
}

/// Black, or external video's 0, where there is no colour in any plane.
#[test]
fn no_colour_at_all() {
    let mut lent = sprite_board(0);
    assert_eq!(lent.point(0, 0), 1);
    lent.block[0] = 1;
    assert_eq!(lent.point(0, 0), 0);
    lent.block[7] = 0xF9;
    assert_eq!(lent.point(0, 0), 9);
}

#[test]
fn sprites_at_the_left_edge() {
    // 32 wide, with the early clock.
    for (x, reached) in [(0, [1, 1, 1]), (1, [15, 1, 1]), (2, [15, 15, 1])] {
        let mut lent = shapes_board(3, &[[49, x, FULL, EARLY | 15]]);
        assert_eq!(colours(&mut lent, 50, [0, 1, 2]), reached);
    }
    let mut lent = shapes_board(0, &[[49, 32, LEFTMOST, EARLY | 15]]);
    assert_eq!(colours(&mut lent, 50, [0, 1, 32]), [15, 1, 1]);
    let mut lent = shapes_board(0, &[[49, 31, LEFTMOST, EARLY | 15]]);
    assert_eq!(colours(&mut lent, 50, [0, 1, 255]), [1, 1, 1]);
}

/// What is beyond column 255 does not come in at the left.
#[test]
fn sprites_at_the_right_edge() {
    let mut lent = shapes_board(3, &[[49, 255, FULL, 15]]);
    assert_eq!(colours(&mut lent, 50, [254, 255, 0, 30]), [1, 15, 1, 1]);
    for (x, last) in [(248, 15), (249, 1)] {
        let mut lent = shapes_board(0, &[[49, x, RIGHTMOST, 15]]);
        assert_eq!(lent.point(50, 255), last);
    }
}

#[test]
fn sprites_over_the_top_edge() {
    for (register_1, y, colour) in [
        (0, 247, 1),
        (0, 248, 15),
        (0, 255, 15),
        (0, 0, 1),
        (3, 223, 1),
        (3, 224, 15),
    ] {
        let mut lent = shapes_board(register_1, &[[y, 10, FULL, 15]]);
        assert_eq!(lent.point(0, 10), colour, "Y {y}");
    }
    // Row 7 of a small one, row 15 of a large and magnified one.
    for (register_1, y, row) in [(0, 248, 7), (3, 224, 15)] {
        let mut lent = sprite_board(register_1);
        lent.sprite(0, [y, 10, 0, 15]);
        lent.sprite(1, [208, 0, 0, 0]);
        lent.vram[0x0800 + row] = 0x80;
        assert_eq!(lent.point(0, 10), 15);
        assert_eq!(
            fetches(&lent.state(), &lent.vram, 0, 200)[..],
            [
                &[
                    0x0019,
                    0x1800,
                    0x2000,
                    0x1000,
                    0x1004,
                    0x1001,
                    0x1002,
                    0x1003,
                    0x0800 + row
                ][..],
                &[0x0810 + row][..usize::from(register_1 == 3)],
            ]
            .concat()
        );
    }
}

#[test]
fn two_sprites_at_one_place() {
    let mut lent = shapes_board(0, &[[49, 10, FULL, 5], [49, 12, FULL, 7]]);
    let columns = [9, 10, 12, 17, 18, 19, 20];
    assert_eq!(colours(&mut lent, 50, columns), [1, 5, 5, 5, 7, 7, 1]);
    // A sprite of colour 0 in front hides nothing, neither sprites nor pattern.
    let mut lent = shapes_board(0, &[[49, 10, FULL, 0], [49, 12, FULL, 7]]);
    assert_eq!(colours(&mut lent, 50, columns), [1, 1, 7, 7, 7, 7, 1]);
    lent.vram[0x2000] = 0x03;
    assert_eq!(colours(&mut lent, 50, columns), [3, 3, 7, 7, 7, 7, 3]);
}

/// Four are drawn, those of colour 0 and those off to the side among them.
#[test]
fn a_fifth_sprite() {
    let mut sprites = [0, 1, 2, 3, 4].map(|number| [49, 20 * number, FULL, 7 + number]);
    let mut lent = shapes_board(0, &sprites);
    let columns = [0, 20, 40, 60, 80];
    assert_eq!(colours(&mut lent, 50, columns), [7, 8, 9, 10, 1]);
    sprites[1] = [49, 0, FULL, EARLY | 8];
    sprites[2][3] = 0;
    let mut lent = shapes_board(0, &sprites);
    assert_eq!(colours(&mut lent, 50, columns), [7, 1, 1, 10, 1]);
    let mut fetched = vec![0x00C0, 0x1802, 0x2000];
    // Every Y up to the fifth's, and all the other bytes of the four.
    fetched.extend([0x1000, 0x1004, 0x1008, 0x100C, 0x1010]);
    for at in [0x1000, 0x1004, 0x1008, 0x100C] {
        fetched.extend([at + 1, at + 2, at + 3, 0x0800]);
    }
    assert_eq!(fetches(&lent.state(), &lent.vram, 50, 3), fetched);
}

/// Drawing would turn 5S and C on. The count, the mark and a waiting byte stay
/// too.
#[test]
fn nothing_changes() {
    let mut lent = shapes_board(0, &[[49, 10, FULL, 7]; 5]);
    lent.block[14] = 1;
    lent.set_lost(65_534);
    lent.set_waiting(Some(9));
    let before = lent.clone();
    for line in 0..192 {
        assert_eq!(lent.point(line, 10) == 7, (50..58).contains(&line));
    }
    assert!(before == lent);
    lent.draw(50);
    assert_eq!(lent.status(), 0x64);
    let state = before.state();
    assert_eq!(point(&state, &before.vram, 50, 10).number(), 7);
    assert_eq!(state, before.state());
}

/// Registers 0 and 1 of the modes and of blank lines.
const MODES: [(u8, u8); 6] = [
    (0, 0x40),
    (2, 0x40),
    (0, 0x48),
    (0, 0x50),
    (0, 0x00),
    (2, 0x50),
];

/// Random tables, and many sprites on few lines: some over the edges, some
/// without colour.
fn scene(random: &mut Random, mode: (u8, u8)) -> Lent {
    let mut registers = [0x0F, 0xFF, 7, 0x7F, 7, 0xFF].map(|mask| random.byte() & mask);
    if random.chance(2) {
        registers[5] &= 0xF0;
    }
    let [r2, r3, r4, r5, r6, r7] = registers;
    let r0 = mode.0 | random.byte() & 1;
    let r1 = mode.1 | random.byte() & 3;
    let mut lent = Lent::with_registers([r0, r1, r2, r3, r4, r5, r6, r7]);
    lent.block[13] = random.byte();
    let thin = random.chance(2);
    for byte in &mut lent.vram {
        *byte = random.byte() & if thin { random.byte() } else { 0xFF };
    }
    let top = random.byte();
    for number in 0..32 {
        let y = top.wrapping_add(random.below(40) as u8);
        let early = if random.chance(3) { EARLY } else { 0 };
        let colour = [0, random.byte() & 0x7F][usize::from(!random.chance(3))];
        lent.sprite(number, [y, random.byte(), random.byte(), early | colour]);
    }
    lent
}

/// Lines at the ends, and those around the sprites.
fn lines(lent: &Lent) -> Vec<u32> {
    let first_y = usize::from(lent.block[5]) * 128;
    let around = u32::from(lent.vram[first_y]);
    let near = [3, 9, 15, 21].map(|by| (around + by) % 256);
    let mut lines = vec![0, 191];
    lines.extend(near.into_iter().filter(|&line| line < 192));
    lines
}

#[test]
fn a_point_is_that_column_of_the_drawn_line() {
    let mut random = Random(0x0BEE_5EED);
    for turn in 0..72 {
        let mut lent = scene(&mut random, MODES[turn % 6]);
        for number in lines(&lent) {
            let status = lent.status();
            let (points, origins): (Vec<u8>, Vec<u8>) = (0..256)
                .map(|column| (lent.point(number, column), lent.origin(number, column)))
                .map(|(colour, origin)| (colour as u8, origin as u8))
                .unzip();
            assert_eq!(lent.status(), status);
            lent.draw(number);
            assert_eq!(points, lent.line, "turn {turn}, line {number}");
            assert_eq!(origins, lent.origins, "turn {turn}, line {number}");
        }
    }
}

/// Each origin says which byte the colour is in, or that there is none.
#[test]
fn origins_fit_their_colours() {
    let mut random = Random(0x0516_1145);
    let mut seen = BTreeSet::new();
    for turn in 0..300 {
        let mut lent = scene(&mut random, MODES[turn % 6]);
        if random.chance(2) {
            lent.block[7] &= 0xF0;
        }
        let (backdrop, external) = (lent.block[7] % 16, lent.block[0] % 2 == 1);
        for number in lines(&lent) {
            lent.draw(number);
            for (&colour, &origin) in lent.line.iter().zip(&lent.origins) {
                let colour_at = usize::from(lent.block[5]) * 128 + 4 * usize::from(origin) + 3;
                match origin {
                    0..=31 => assert_eq!(colour, lent.vram[colour_at] % 16),
                    32 => assert_ne!(colour, 0),
                    33 => assert_eq!(colour, backdrop),
                    34 => assert_eq!((colour, backdrop, external), (1, 0, false)),
                    35 => assert_eq!((colour, backdrop, external), (0, 0, true)),
                    _ => panic!("origin {origin}"),
                }
                assert_eq!(colour == 0, origin == 35);
            }
            seen.extend(lent.origins.iter().copied());
        }
    }
    assert!(seen.into_iter().eq(0..36));
}

/// All the points of a line fetch what the line fetches, and no more.
#[test]
fn fetches_of_points_and_of_the_line() {
    let mut random = Random(0x0F_E7C4);
    for turn in 0..72 {
        let lent = scene(&mut random, MODES[turn % 6]);
        let state = lent.state();
        for number in lines(&lent) {
            let mut all = BTreeSet::new();
            for column in 0..=255 {
                all.extend(fetches(&state, &lent.vram, number as u8, column));
            }
            assert_eq!(all, line::fetches(&state, &lent.vram, number as u8));
        }
    }
}

#[test]
fn a_point_depends_only_on_its_fetches() {
    let mut random = Random(0xA17E);
    for turn in 0..600 {
        let lent = scene(&mut random, MODES[turn % 6]);
        let state = lent.state();
        for number in lines(&lent) {
            let column = random.byte();
            let fetched = fetches(&state, &lent.vram, number as u8, column);
            let mut other = lent.vram.clone();
            for (at, byte) in other.iter_mut().enumerate() {
                if !fetched.contains(&at) {
                    *byte ^= 1 + random.below(255) as u8;
                }
            }
            for call in [point as Asked, origin] {
                assert_eq!(
                    call(&state, &lent.vram, number, column.into()),
                    call(&state, &other, number, column.into())
                );
            }
            assert_eq!(fetched, fetches(&state, &other, number as u8, column));
        }
    }
}
