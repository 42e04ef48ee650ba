//! The paper's cases at the edges, and other single cases.

mod common;

use common::{shapes_board, sprite_board, Lent, EARLY, FULL, LEFTMOST, RIGHTMOST};
use reference::block::*;
use reference::show;

#[test]
fn p1_control_pair_then_data_write() {
    let mut lent = Lent::new();
    lent.control(0x42);
    lent.control(0x40);
    assert_eq!(lent.write(0xAA), 0);
    assert_eq!(lent.vram[0x0042], 0xAA);
    assert_eq!(lent.state().buffer, 0xAA);
    assert_eq!(lent.state().address, 0x0043);
    assert_eq!(lent.map[0x42 / 8], 1 << (0x42 % 8));
    assert_eq!(
        lent.map.iter().map(|byte| byte.count_ones()).sum::<u32>(),
        1
    );
}

#[test]
fn p2_data_write_at_the_top() {
    let mut lent = Lent::new();
    lent.control(0xFF);
    lent.control(0x7F);
    lent.write(0x11);
    assert_eq!(lent.vram[0x3FFF], 0x11);
    assert_eq!(lent.state().address, 0);
    assert_eq!(lent.map[2047], 0x80);
}

#[test]
fn p3_read_setup_at_the_top() {
    let mut lent = Lent::new();
    lent.vram[0x3FFF] = 0x77;
    lent.control(0xFF);
    lent.control(0x3F);
    assert_eq!(lent.state().buffer, 0x77);
    assert_eq!(lent.state().address, 0);
}

#[test]
fn p4_register_write_is_masked_and_moves_the_address() {
    let mut lent = Lent::new();
    lent.block[14] = 0;
    lent.control(0xFF);
    lent.control(0x82);
    assert_eq!(lent.state().registers[2], 0x0F);
    assert_eq!(lent.state().address, 0x02FF);
    assert!(lent.state().redraw);
    assert_eq!(lent.state().waiting, None);
}

#[test]
fn p5_status_read_drops_the_waiting_byte() {
    let mut lent = Lent::new();
    lent.control(0xFF);
    assert_eq!(vdp_status_read(&mut lent.block), 0);
    lent.control(0x07);
    assert_eq!(lent.state().waiting, Some(0x07));
}

/// Line 0 of a board with one sprite whose pattern has only this row set.
fn line_0_with(register_1: u8, y: u8, row: usize) -> Vec<u8> {
    let mut lent = sprite_board(register_1);
    lent.vram[0x0800 + row] = 0xFF;
    lent.sprite(0, [y, 100, 0, 15]);
    lent.sprite(1, [208, 0, 0, 0]);
    assert_eq!(lent.draw(0), 0);
    lent.line
}

#[test]
fn p6_high_sprites_over_the_top_edge() {
    assert_eq!(line_0_with(0x03, 224, 15)[100], 15);
    for row in 0..15 {
        assert_eq!(line_0_with(0x03, 224, row)[100], 1);
    }
    for row in 0..16 {
        assert_eq!(line_0_with(0x03, 223, row)[100], 1);
    }
}

#[test]
fn p7_low_sprites_over_the_top_edge() {
    assert_eq!(line_0_with(0x00, 248, 7)[100], 15);
    assert_eq!(line_0_with(0x00, 255, 0)[100], 15);
    for row in 0..8 {
        assert_eq!(line_0_with(0x00, 247, row)[100], 1);
        assert_eq!(line_0_with(0x00, 0, row)[100], 1);
    }
}

#[test]
fn p8_early_clock() {
    for (x, reached) in [(1, 1), (0, 0), (2, 2), (40, 32)] {
        let mut lent = sprite_board(0x03);
        lent.vram[0x0800..0x0820].fill(0xFF);
        lent.sprite(0, [255, x, 0, 0x8F]);
        lent.sprite(1, [208, 0, 0, 0]);
        lent.draw(0);
        assert_eq!(
            lent.line.iter().filter(|&&colour| colour == 15).count(),
            reached
        );
        assert_eq!(lent.line[0] == 15, (1..=32).contains(&x));
    }
}

/// Sprites 0, 3, 5, 9 and 12 cover line 50, side by side; 20 does too.
fn five_sprites() -> Lent {
    let mut lent = sprite_board(0x00);
    lent.vram[0x0800..0x0808].fill(0xFF);
    for number in 0..32 {
        lent.sprite(number, [209, 0, 0, 15]);
    }
    for (place, number) in [0usize, 3, 5, 9, 12, 20].into_iter().enumerate() {
        lent.sprite(number, [49, 20 * place as u8, 0, 15]);
    }
    lent
}

#[test]
fn p9_fifth_sprite() {
    for (before, after) in [
        (0x00, 0x4C),
        (0x80, 0x80),
        (0x45, 0x45),
        (0x1F, 0x4C),
        (0xC5, 0xC5),
    ] {
        let mut lent = five_sprites();
        lent.block[13] = before;
        assert_eq!(lent.draw(50), 0);
        assert_eq!(lent.status(), after);
        assert_eq!(lent.line[60], 15);
        assert_eq!(lent.line[80], 1, "the fifth is not drawn");
        assert_eq!(lent.block[14], 0);
    }
}

#[test]
fn p9_notes_do_not_care_about_f() {
    let mut lent = five_sprites();
    lent.block[13] = 0x80;
    lent.full_draw();
    assert_eq!(lent.status(), 0x80);
    assert_eq!(lent.notes[50], 12);
    assert_eq!(lent.notes[48], 32);
}

#[test]
fn p10_status_read_keeps_the_number() {
    let mut lent = Lent::new();
    lent.block[13] = 0x4C;
    assert_eq!(vdp_status_read(&mut lent.block), 0x4C);
    assert_eq!(lent.status(), 0x0C);
    lent.block[13] = 0xFF;
    assert_eq!(vdp_status_read(&mut lent.block), 0xFF);
    assert_eq!(lent.status(), 0x1F);
}

#[test]
fn p11_no_colour_at_all() {
    for registers in [
        [0x00, 0x40],
        [0x00, 0x00],
        [0x00, 0x50],
        [0x00, 0x48],
        [0x02, 0x58],
    ] {
        for (external, colour) in [(0, 1), (1, 0)] {
            let [zero, one] = registers;
            let mut lent = Lent::with_registers([zero | external, one, 0, 0, 0, 0, 0, 0]);
            assert_eq!(lent.draw(7), 0);
            assert_eq!(lent.line, vec![colour; 256]);
        }
    }
}

#[test]
fn p12_multicolor_last_line() {
    let mut lent = Lent::with_registers([0, 0x48, 1, 0, 1, 0x20, 0, 0]);
    lent.vram[0x1000] = 208;
    lent.vram[0x0400 + 23 * 32] = 9;
    lent.vram[0x0800 + 8 * 9 + 7] = 0x5A;
    lent.draw(191);
    assert_eq!(&lent.line[..9], &[5, 5, 5, 5, 10, 10, 10, 10, 1]);
}

/// The paper's refresh case; the byte written is the same as before.
#[test]
fn refresh_counts() {
    for (at, count) in [
        (0x0400, 8),
        (0x0300, 192),
        (0x2000, 192),
        (0x0304, 0),
        (0x0700, 0),
    ] {
        let mut lent = Lent::with_registers([0x00, 0x40, 0x01, 0x80, 0x01, 0x06, 0x00, 0x00]);
        lent.vram[0x0300] = 0xD0;
        let same = lent.vram[usize::from(at)];
        lent.write_at(at, same);
        assert_eq!(lent.refresh(), count, "at {at:04X}");
        assert_eq!(lent.refresh(), 0);
        assert_eq!(lent.map, vec![0; 2048]);
    }
}

#[test]
fn refresh_leaves_other_lines_alone() {
    let mut lent = Lent::with_registers([0x00, 0x40, 0x01, 0x80, 0x01, 0x06, 0x00, 0x00]);
    lent.vram[0x0300] = 0xD0;
    lent.frame.fill(0xEE);
    lent.notes.fill(0xBF);
    lent.write_at(0x0400 + 32, 0);
    assert_eq!(lent.refresh(), 8);
    for number in 0..192 {
        let due = (8..16).contains(&number);
        assert_eq!(lent.notes[number], if due { 32 } else { 0xBF });
        let colour = if due { 1 } else { 0xEE };
        assert!(lent.frame[256 * number..256 * number + 256]
            .iter()
            .all(|&byte| byte == colour));
    }
    assert_eq!(lent.status(), 0, "BF has no fifth and no coincidence");
}

#[test]
fn refresh_takes_status_from_kept_notes_of_any_value() {
    for (note, status) in [
        (32, 0x00),
        (63, 0x00),
        (96, 0x20),
        (7, 0x47),
        (71, 0x67),
        (0x80 + 7, 0x47),
        (0xC0 + 31, 0x7F),
        (0xFF, 0x20),
        (0, 0x40),
    ] {
        let mut lent = Lent::with_registers([0; 8]);
        lent.notes.fill(32);
        lent.notes[100] = note;
        lent.notes[101] = 3;
        assert_eq!(lent.refresh(), 0);
        let expected = if status & 0x40 == 0 {
            status | 0x43
        } else {
            status
        };
        assert_eq!(lent.status(), expected, "note {note}");
        assert_eq!(lent.notes[100], note);
    }
}

#[test]
fn blank_lines_fetch_nothing_but_the_mark_makes_them_due() {
    let mut lent = Lent::with_registers([0; 8]);
    lent.map.fill(0xFF);
    assert_eq!(lent.refresh(), 0);
    assert_eq!(lent.map, vec![0; 2048]);
    lent.block[14] = 1;
    assert_eq!(lent.refresh(), 192);
    assert_eq!(lent.block[14], 0);
    assert_eq!(lent.frame, vec![1; 49152]);
}

#[test]
fn fetches_of_a_large_sprite() {
    let mut lent = sprite_board(0x02);
    lent.sprite(0, [49, 0, 7, 0x80]);
    lent.sprite(1, [208, 0, 0, 0]);
    let state = lent.state();
    let fetched = reference::line::fetches(&state, &lent.vram, 52);
    let mut expected: Vec<usize> = (0..32).map(|cell| 6 * 32 + cell).collect();
    expected.extend([0x0800 + 8 * 4 + 2, 0x0800 + 8 * 4 + 18]);
    expected.extend([0x1000, 0x1001, 0x1002, 0x1003, 0x1004, 0x1800 + 4, 0x2000]);
    assert_eq!(fetched.into_iter().collect::<Vec<_>>(), expected);
}

#[test]
fn the_fifth_is_looked_at_but_not_fetched_further() {
    let lent = five_sprites();
    let fetched = reference::line::fetches(&lent.state(), &lent.vram, 50);
    let attributes: Vec<usize> = fetched
        .into_iter()
        .filter(|at| (0x1000..0x1080).contains(at))
        .map(|at| at - 0x1000)
        .collect();
    let mut expected: Vec<usize> = (0..=12).map(|number| 4 * number).collect();
    for number in [0, 3, 5, 9] {
        expected.extend([4 * number + 1, 4 * number + 2, 4 * number + 3]);
    }
    expected.sort_unstable();
    assert_eq!(attributes, expected);
}

/// Whether sprites coincide on line 50: by status after the line, and by note
/// and status after a full draw and after a refresh, which have to agree.
fn coincide(register_1: u8, sprites: &[[u8; 4]]) -> bool {
    let mut lent = shapes_board(register_1, sprites);
    assert_eq!(lent.draw(50), 0);
    let found = lent.status() & 0x20 != 0;
    for redraw in [false, true] {
        lent.block[13] = 0;
        lent.block[14] = u8::from(redraw);
        lent.notes.fill(32);
        let answer = if redraw {
            lent.refresh()
        } else {
            lent.full_draw()
        };
        assert_eq!(answer, if redraw { 192 } else { 0 });
        assert_eq!(lent.notes[50] & 64 != 0, found);
        assert_eq!(lent.status() & 0x20 != 0, found);
    }
    assert_eq!(lent.line, lent.frame[256 * 50..256 * 51]);
    found
}

#[test]
fn coincidence_of_uncoloured_and_off_screen_sprites() {
    for (x, early) in [
        (100, 0),
        (0, EARLY),
        (24, EARLY),
        (25, EARLY),
        (31, EARLY),
        (248, 0),
        (249, 0),
        (255, 0),
    ] {
        let mut lent = shapes_board(0x00, &[[49, x, FULL, early]; 2]);
        lent.draw(50);
        assert_eq!(lent.status(), 0x20, "x {x}");
        assert_eq!(lent.line, vec![1; 256]);
        lent.full_draw();
        assert_eq!(lent.notes[50], 96);
        assert_eq!(lent.notes[49], 32);
    }
}

/// X, shape and early clock of a sprite.
type Place = (u8, u8, u8);

/// Two sprites, for each size and magnification, and the column that both have
/// a bit at; none where they only touch. Two magnified ones at the first or last
/// column that they can reach share its neighbour too.
const PAIRS: [(u8, Place, Place, Option<i32>); 42] = [
    (0, (0, LEFTMOST, EARLY), (0, LEFTMOST, EARLY), Some(-32)),
    (0, (0, LEFTMOST, EARLY), (1, LEFTMOST, EARLY), None),
    (0, (16, RIGHTMOST, EARLY), (23, LEFTMOST, EARLY), Some(-9)),
    (0, (24, RIGHTMOST, EARLY), (31, LEFTMOST, EARLY), Some(-1)),
    (0, (24, RIGHTMOST, EARLY), (0, LEFTMOST, 0), None),
    (0, (25, RIGHTMOST, EARLY), (0, LEFTMOST, 0), Some(0)),
    (0, (32, LEFTMOST, EARLY), (0, LEFTMOST, 0), Some(0)),
    (0, (248, RIGHTMOST, 0), (255, LEFTMOST, 0), Some(255)),
    (0, (248, RIGHTMOST, 0), (249, RIGHTMOST, 0), None),
    (0, (249, RIGHTMOST, 0), (249, RIGHTMOST, 0), Some(256)),
    (0, (254, RIGHTMOST, 0), (255, RIGHTMOST, 0), None),
    (0, (255, RIGHTMOST, 0), (255, RIGHTMOST, 0), Some(262)),
    (1, (0, LEFTMOST, EARLY), (0, LEFTMOST, EARLY), Some(-32)),
    (1, (0, LEFTMOST, EARLY), (1, LEFTMOST, EARLY), Some(-31)),
    (1, (0, LEFTMOST, EARLY), (2, LEFTMOST, EARLY), None),
    (1, (16, RIGHTMOST, EARLY), (31, LEFTMOST, EARLY), Some(-1)),
    (1, (16, RIGHTMOST, EARLY), (0, LEFTMOST, 0), None),
    (1, (31, LEFTMOST, EARLY), (0, LEFTMOST, 0), Some(0)),
    (1, (240, RIGHTMOST, 0), (255, LEFTMOST, 0), Some(255)),
    (1, (240, RIGHTMOST, 0), (242, RIGHTMOST, 0), None),
    (1, (241, RIGHTMOST, 0), (242, RIGHTMOST, 0), Some(256)),
    (1, (253, RIGHTMOST, 0), (255, RIGHTMOST, 0), None),
    (1, (255, RIGHTMOST, 0), (255, RIGHTMOST, 0), Some(270)),
    (2, (0, LEFTMOST, EARLY), (0, LEFTMOST, EARLY), Some(-32)),
    (2, (0, RIGHTMOST, EARLY), (15, LEFTMOST, EARLY), Some(-17)),
    (2, (16, RIGHTMOST, EARLY), (31, LEFTMOST, EARLY), Some(-1)),
    (2, (16, RIGHTMOST, EARLY), (0, LEFTMOST, 0), None),
    (2, (17, RIGHTMOST, EARLY), (0, LEFTMOST, 0), Some(0)),
    (2, (240, RIGHTMOST, 0), (255, LEFTMOST, 0), Some(255)),
    (2, (240, RIGHTMOST, 0), (241, RIGHTMOST, 0), None),
    (2, (241, RIGHTMOST, 0), (241, RIGHTMOST, 0), Some(256)),
    (2, (255, RIGHTMOST, 0), (255, RIGHTMOST, 0), Some(270)),
    (3, (0, LEFTMOST, EARLY), (0, LEFTMOST, EARLY), Some(-32)),
    (3, (0, RIGHTMOST, EARLY), (31, LEFTMOST, EARLY), Some(-1)),
    (3, (0, RIGHTMOST, EARLY), (0, LEFTMOST, 0), None),
    (3, (1, RIGHTMOST, EARLY), (0, LEFTMOST, 0), Some(0)),
    (3, (224, RIGHTMOST, 0), (255, LEFTMOST, 0), Some(255)),
    (3, (224, RIGHTMOST, 0), (226, RIGHTMOST, 0), None),
    (3, (225, RIGHTMOST, 0), (226, RIGHTMOST, 0), Some(256)),
    (3, (253, RIGHTMOST, 0), (255, RIGHTMOST, 0), None),
    (3, (254, RIGHTMOST, 0), (255, RIGHTMOST, 0), Some(285)),
    (3, (255, RIGHTMOST, 0), (255, RIGHTMOST, 0), Some(286)),
];

#[test]
fn coincidence_at_one_column() {
    for (register_1, first, second, column) in PAIRS {
        for colours in [[0, 0], [0, 7], [7, 0], [7, 9]] {
            let [one, two] = [(first, colours[0]), (second, colours[1])]
                .map(|((x, shape, early), colour)| [49, x, shape, early | colour]);
            for sprites in [[one, two], [two, one]] {
                let found = coincide(register_1, &sprites);
                assert_eq!(found, column.is_some(), "{register_1} {sprites:?}");
            }
        }
    }
}

/// The column in the table is the one at which both have a bit.
#[test]
fn the_columns_of_the_pairs() {
    for (register_1, first, second, column) in PAIRS {
        let sprites = [first, second].map(|(x, shape, early)| [49, x, shape, early]);
        let lent = shapes_board(register_1, &sprites);
        let at = |x| reference::line::sprites_meet(&lent.state(), &lent.vram, 50, x..=x);
        let shared: Vec<i32> = (-40..300).filter(|&x| at(x)).collect();
        let also = match column {
            Some(-32) if register_1 & 1 != 0 => Some(-31),
            Some(270) if register_1 == 1 => Some(269),
            Some(286) => Some(285),
            _ => None,
        };
        let mut expected: Vec<i32> = column.into_iter().chain(also).collect();
        expected.sort_unstable();
        assert_eq!(shared, expected, "{register_1} {sprites:?}");
    }
}

/// Full squares coincide exactly when one begins before the other has ended,
/// on the screen, across its edges and beyond them.
#[test]
fn the_edges_do_not_matter() {
    let sprite = |column: i32, colour: u8| {
        if column < 0 {
            [49, (column + 32) as u8, FULL, EARLY | colour]
        } else {
            [49, column as u8, FULL, colour]
        }
    };
    for (register_1, width) in [(0, 8), (1, 16), (2, 16), (3, 32)] {
        for one in [-32, -17, -1, 0, 100, 224, 248, 255] {
            for two in -32..=255 {
                let mut lent = shapes_board(register_1, &[sprite(one, 0), sprite(two, 5)]);
                lent.draw(50);
                let expected = if (one - two).abs() < width { 0x20 } else { 0 };
                assert_eq!(lent.status(), expected, "{register_1}: {one} and {two}");
            }
        }
    }
}

/// Five sprites on line 50: two of them stand at the place, the others apart.
fn five_with_two_at(place: Place, two: [usize; 2]) -> [[u8; 4]; 5] {
    let (x, shape, early) = place;
    std::array::from_fn(|number| {
        if two.contains(&number) {
            [49, x, shape, early | 7]
        } else {
            [49, 40 + 40 * number as u8, FULL, 7]
        }
    })
}

/// Each two of the first four coincide, and none with the fifth.
#[test]
fn coincidence_of_the_first_four_alone() {
    for (register_1, place) in [
        (0, (0, LEFTMOST, EARLY)),
        (0, (24, FULL, EARLY)),
        (0, (100, FULL, 0)),
        (0, (255, RIGHTMOST, 0)),
        (1, (255, RIGHTMOST, 0)),
        (2, (16, FULL, EARLY)),
        (3, (0, FULL, EARLY)),
        (3, (255, RIGHTMOST, 0)),
    ] {
        for second in 1..5 {
            for first in 0..second {
                let sprites = five_with_two_at(place, [first, second]);
                let found = coincide(register_1, &sprites);
                assert_eq!(found, second < 4, "{register_1} {sprites:?}");
                let mut lent = shapes_board(register_1, &sprites);
                lent.draw(50);
                assert_eq!(lent.status(), if second < 4 { 0x64 } else { 0x44 });
            }
        }
    }
}

/// Hidden columns count; lines below and above the picture do not.
#[test]
fn coincidence_on_the_active_lines_only() {
    for (y, noted) in [(190, Some(191)), (191, None), (247, None), (248, Some(0))] {
        let mut lent = shapes_board(0x00, &[[y, 0, FULL, EARLY]; 2]);
        lent.full_draw();
        assert_eq!(lent.status(), if noted.is_some() { 0x20 } else { 0 });
        for (number, &note) in lent.notes.iter().enumerate() {
            assert_eq!(note, if noted == Some(number) { 96 } else { 32 }, "{y}");
        }
    }
}

/// Text, two mode bits and a display that is off have no sprites.
#[test]
fn no_coincidence_without_sprites() {
    for (register_0, register_1) in [(0, 0x50), (2, 0x50), (0, 0x58), (2, 0x48), (0, 0x00)] {
        let mut lent = shapes_board(0x00, &[[49, 0, FULL, EARLY]; 2]);
        lent.block[0] = register_0;
        lent.block[1] = register_1;
        lent.draw(50);
        lent.full_draw();
        assert_eq!(lent.status(), 0);
        assert_eq!(lent.notes, vec![32; 192]);
    }
}

/// A sprite that was off the screen and stays there: its lines are due as
/// before, and their notes and status change.
#[test]
fn a_move_off_the_screen_changes_notes() {
    let mut lent = shapes_board(0x00, &[[49, 8, FULL, EARLY], [49, 16, FULL, EARLY]]);
    lent.full_draw();
    let frame = lent.frame.clone();
    assert_eq!((lent.status(), lent.notes[50]), (0x00, 32));
    for (x, note, status) in [(15, 96, 0x20), (16, 32, 0x00), (1, 96, 0x20), (0, 32, 0x00)] {
        lent.write_at(0x1005, x);
        lent.block[13] = 0;
        assert_eq!(lent.refresh(), 8);
        assert_eq!((lent.status(), lent.notes[50]), (status, note), "x {x}");
        assert_eq!(lent.frame, frame);
    }
}

#[test]
fn show_tells_of_hidden_coincidence() {
    let mut lent = shapes_board(0x03, &[[49, 255, RIGHTMOST, 7]; 2]);
    assert_eq!(lent.write_snapshot(), 0);
    assert_eq!(show(&lent.snapshot), "status 00 20\nlines 0-191 256*1\n");
}

#[test]
fn a_lower_sprite_of_colour_0_lets_a_higher_one_through() {
    let mut lent = sprite_board(0x00);
    lent.vram[0x0800..0x0808].fill(0xFF);
    lent.sprite(0, [49, 10, 0, 0]);
    lent.sprite(1, [49, 10, 0, 6]);
    lent.sprite(2, [49, 14, 0, 9]);
    lent.sprite(3, [208, 0, 0, 0]);
    lent.draw(50);
    assert_eq!(
        &lent.line[9..23],
        &[1, 6, 6, 6, 6, 6, 6, 6, 6, 9, 9, 9, 9, 1]
    );
}

#[test]
fn graphics_two_has_thirds_and_ignores_low_register_bits() {
    let mut lent = Lent::with_registers([2, 0x40, 0, 0xFF, 3, 0x7F, 0, 0]);
    lent.vram[0x3F80] = 208;
    lent.vram[8 * 32 + 3] = 5;
    let offset = 2048 + 8 * 5 + 1;
    lent.vram[offset] = 0xF0;
    lent.vram[0x2000 + offset] = 0x42;
    lent.draw(65);
    assert_eq!(&lent.line[24..32], &[4, 4, 4, 4, 2, 2, 2, 2]);
}

#[test]
fn text_has_sixteen_columns_without_pattern_and_no_sprites() {
    let mut lent = Lent::with_registers([0, 0x50, 1, 0, 1, 0x20, 0, 0xF4]);
    lent.vram[0x0800..0x0808].fill(0xA7);
    lent.draw(0);
    assert!(lent.line[..8]
        .iter()
        .chain(&lent.line[248..])
        .all(|&colour| colour == 4));
    assert_eq!(&lent.line[8..14], &[15, 4, 15, 4, 4, 15]);
    assert_eq!(&lent.line[242..248], &[15, 4, 15, 4, 4, 15]);
    let fetched = reference::line::fetches(&lent.state(), &lent.vram, 0);
    assert_eq!(fetched.len(), 41);
}

#[test]
fn register_writes_and_the_redraw_mark() {
    let mut lent = Lent::with_registers([0, 0, 3, 0, 0, 0, 0, 0]);
    lent.control(0xF3);
    lent.control(0x82);
    assert!(!lent.state().redraw, "the kept byte is the same");
    lent.control(0x04);
    lent.control(0xFA);
    assert_eq!(lent.state().registers[2], 4, "bits 3 to 6 do not matter");
    assert_eq!(lent.state().address, 0x3A04);
    assert!(lent.state().redraw);
}

#[test]
fn all_masks() {
    let masks = [0x03, 0xFB, 0x0F, 0xFF, 0x07, 0x7F, 0x07, 0xFF];
    let mut lent = Lent::new();
    for number in 0..8 {
        lent.control(0xFF);
        assert_eq!(lent.control(0x80 + number), 0);
    }
    assert_eq!(lent.state().registers, masks);
}

#[test]
fn data_read_fetches_ahead_and_wraps() {
    let mut lent = Lent::new();
    lent.vram[0x3FFE] = 0x21;
    lent.vram[0x3FFF] = 0x22;
    lent.vram[0x0000] = 0x23;
    lent.control(0xFE);
    lent.control(0x3F);
    lent.control(0x99);
    assert_eq!(lent.read(), 0x21);
    assert_eq!(lent.state().waiting, None);
    assert_eq!(lent.state().address, 0);
    assert_eq!(lent.read(), 0x22);
    assert_eq!(lent.read(), 0x23);
    assert_eq!(lent.state().address, 2);
}

#[test]
fn interrupt_line_needs_both() {
    for (register_1, ended, on) in [
        (0, false, 0),
        (0x20, false, 0),
        (0, true, 0),
        (0x20, true, 1),
    ] {
        let mut lent = Lent::with_registers([0, register_1, 0, 0, 0, 0, 0, 0]);
        if ended {
            assert_eq!(vdp_end_of_display(&mut lent.block), 0);
        }
        assert_eq!(vdp_interrupt_line(&lent.block), on);
    }
}

#[test]
fn reset_clears_some_and_keeps_the_rest() {
    let mut lent = Lent::with_registers([3, 0xFB, 1, 2, 3, 4, 5, 6]);
    lent.block[8..].copy_from_slice(&[0x34, 0x12, 0x56, 1, 0x78, 0xFF, 0, 0x9A, 0xBC]);
    assert_eq!(vdp_reset(&mut lent.block), 0);
    assert_eq!(
        lent.block,
        [0, 0, 1, 2, 3, 4, 5, 6, 0x34, 0x12, 0x56, 0, 0, 0, 1, 0, 0]
    );
}

#[test]
fn power_up_clears_vram_and_not_the_map() {
    let mut lent = Lent::new();
    lent.block.fill(0xFF);
    lent.vram.fill(0xFF);
    lent.map.fill(0xFF);
    assert_eq!(vdp_power_up(&mut lent.block, &mut lent.vram), 0);
    let mut expected = vec![0; 17];
    expected[14] = 1;
    assert_eq!(lent.block, expected);
    assert_eq!(lent.vram, vec![0; 16384]);
    assert_eq!(lent.map, vec![0xFF; 2048]);
}

#[test]
fn power_up_trailer() {
    let lent = Lent::new();
    assert_eq!(
        lent.snapshot[16398..],
        [0x56, 0x31, 0x0E, 0x00, 0x0E, 0x40, 0xE3, 0x00]
    );
    assert!(lent.snapshot[..16398].iter().all(|&byte| byte == 0));
}

#[test]
fn snapshot_goes_round() {
    let mut lent = Lent::with_registers([3, 0xFB, 1, 2, 3, 4, 5, 6]);
    lent.block[8..].copy_from_slice(&[0x34, 0x12, 0x56, 1, 0x78, 0xFF, 0, 0x9A, 0xBC]);
    for (at, byte) in lent.vram.iter_mut().enumerate() {
        *byte = (at * 7 + at / 256) as u8;
    }
    assert_eq!(lent.write_snapshot(), 0);
    let (block, vram) = (lent.block.clone(), lent.vram.clone());
    lent.block.fill(0xFF);
    lent.vram.fill(0xFF);
    assert_eq!(lent.read_snapshot(), 0);
    assert_eq!(lent.block[..14], block[..14]);
    assert_eq!(lent.block[14], 1, "reading sets the redraw mark");
    assert_eq!(lent.block[15..], [0, 0], "reading clears the count");
    assert_eq!(lent.vram, vram);
}

#[test]
fn show_power_up() {
    assert_eq!(
        show(&Lent::new().snapshot),
        "status 00 00\nlines 0-191 256*1\n"
    );
}

/// Sprites 3, 5, 9 and 12 stand at 20, 40, 60 and 80; 30 is then the fifth.
#[test]
fn show_ranges_and_runs() {
    let mut lent = five_sprites();
    lent.vram[0x0808] = 0x80;
    lent.block[13] = 0x1B;
    lent.sprite(0, [190, 255, 1, 13]);
    lent.sprite(20, [209, 0, 0, 0]);
    lent.sprite(30, [49, 200, 0, 7]);
    lent.sprite(31, [49, 100, 0, 3]);
    assert_eq!(lent.write_snapshot(), 0);
    assert_eq!(
        show(&lent.snapshot),
        "status 1B 5E\n\
         lines 0-49 256*1\n\
         lines 50-57 20*1 8*15 12*1 8*15 12*1 8*15 12*1 8*15 168*1\n\
         lines 58-190 256*1\n\
         lines 191-191 255*1 1*13\n"
    );
}

#[test]
fn show_refusals() {
    let good = Lent::new().snapshot;
    assert_eq!(show(&[]), "refused 5\n");
    assert_eq!(show(&good[1..]), "refused 5\n");
    let with = |changes: &[(usize, u8)]| {
        let mut snapshot = good.clone();
        for &(at, byte) in changes {
            snapshot[at] = byte;
        }
        show(&snapshot)
    };
    assert_eq!(with(&[(16398, 0)]), "refused 6\n");
    assert_eq!(with(&[(16403, 0)]), "refused 6\n");
    assert_eq!(with(&[(0, 1)]), "refused 7\n");
    assert_eq!(with(&[(16384, 4), (16404, 0xE7)]), "refused 3\n");
    assert_eq!(with(&[(16395, 2), (16404, 0xE5)]), "refused 3\n");
    assert_eq!(with(&[(16396, 1), (16404, 0xE4)]), "refused 3\n");
}
