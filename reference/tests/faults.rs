//! One small case for each planted fault: the right answer, and the wrong one
//! that the fault gives.

mod common;

use common::{log_of, shapes_board, sprite_board, Lent, EARLY, FULL, LEFTMOST, RIGHTMOST};
use reference::block::*;
use reference::faults;
use reference::point::fetches;
use std::fmt::Debug;

/// Runs the case without and with the fault.
fn shows<T: PartialEq + Debug>(fault: u32, case: impl Fn() -> T, right: T, wrong: T) {
    faults::plant(0);
    assert_eq!(case(), right);
    faults::plant(fault);
    assert_eq!(case(), wrong);
    faults::plant(0);
}

/// A board whose sprite name 0 is a full square, with these sprites; unused
/// ones lie below the screen without ending the list.
fn board(register_1: u8, sprites: &[[u8; 4]]) -> Lent {
    let mut lent = sprite_board(register_1);
    lent.vram[0x0800..0x0820].fill(0xFF);
    for number in 0..32 {
        lent.sprite(number, *sprites.get(number).unwrap_or(&[192, 0, 0, 0]));
    }
    lent
}

#[test]
fn fault_1_terminator() {
    let case = || {
        let mut lent = board(0, &[[208, 0, 0, 0], [49, 10, 0, 7]]);
        lent.draw(50);
        lent.line[10]
    };
    shows(faults::TERMINATOR_MUST_COVER, case, 1, 7);
}

#[test]
fn fault_2_high_y() {
    for y in [225, 240, 249, 254] {
        let case = || {
            let mut lent = board(3, &[[y, 10, 0, 7]]);
            lent.draw(0);
            lent.line[10]
        };
        shows(faults::HIGH_Y_IS_BELOW, case, 7, 1);
    }
    for y in [224, 255] {
        let case = || {
            let mut lent = board(3, &[[y, 10, 0, 7]]);
            lent.draw(0);
            lent.line[10]
        };
        shows(faults::HIGH_Y_IS_BELOW, case, 7, 7);
    }
}

#[test]
fn fault_3_uncoloured_among_the_four() {
    let case = || {
        let mut sprites = [[49, 10, 0, 7]; 6];
        for (number, sprite) in sprites.iter_mut().enumerate() {
            sprite[1] = 20 * number as u8;
        }
        sprites[1][3] = 0;
        let mut lent = board(0, &sprites);
        lent.draw(50);
        (lent.status(), lent.line[80], lent.line[100])
    };
    shows(
        faults::ONLY_COLOURED_COUNT,
        case,
        (0x44, 1, 1),
        (0x45, 7, 1),
    );
}

/// From X 60 to X 20 the sprite leaves the screen and has to be wiped out;
/// from X 10 to X 20 it is off before and after, and its lines are still due.
#[test]
fn fault_4_off_side() {
    let case = |from| {
        let mut lent = board(0, &[[49, from, 0, 0x87]]);
        lent.full_draw();
        lent.write_at(0x1001, 20);
        (lent.refresh(), lent.frame[50 * 256 + 28])
    };
    shows(faults::OFF_SIDE_NOT_FETCHED, || case(60), (8, 1), (0, 7));
    shows(faults::OFF_SIDE_NOT_FETCHED, || case(10), (8, 1), (0, 1));
}

#[test]
fn fault_5_fifth_from_redrawn() {
    let case = || {
        let mut lent = board(0, &[[49, 10, 0, 7]; 5]);
        lent.full_draw();
        vdp_status_read(&mut lent.block);
        lent.block[13] = 0;
        lent.write_at(0x0000, 0);
        (lent.refresh(), lent.status())
    };
    shows(faults::FIFTH_FROM_REDRAWN, case, (8, 0x64), (8, 0x20));
}

#[test]
fn fault_6_reset_and_the_mark() {
    let case = || {
        let mut lent = board(0, &[]);
        lent.full_draw();
        vdp_reset(&mut lent.block);
        lent.refresh()
    };
    shows(faults::RESET_FORGETS_MARK, case, 192, 0);
}

#[test]
fn fault_7_write_and_the_map() {
    let case = || {
        let mut lent = board(0, &[]);
        lent.write_at(0x0000, 1);
        lent.refresh()
    };
    shows(faults::WRITE_FORGETS_MAP, case, 8, 0);
}

#[test]
fn fault_8_read_at_the_top() {
    let case = || {
        let mut lent = Lent::new();
        lent.block[8..10].copy_from_slice(&[0xFF, 0x3F]);
        lent.read();
        lent.state().address
    };
    shows(faults::READ_DOES_NOT_WRAP, case, 0, 16383);
}

#[test]
fn fault_9_thirds() {
    let case = || {
        let mut lent = Lent::with_registers([2, 0x40, 15, 0xFF, 3, 0x7F, 0, 0]);
        lent.vram[0x3F80] = 208;
        lent.vram[0x2000] = 0x03;
        lent.vram[0x2800] = 0x04;
        lent.vram[0x3000] = 0x05;
        [0, 64, 128].map(|number| {
            lent.draw(number);
            lent.line[0]
        })
    };
    shows(faults::THIRDS_FORGOTTEN, case, [3, 4, 5], [3, 3, 3]);
}

#[test]
fn fault_10_coincidence_of_uncoloured() {
    let case = || {
        let mut lent = board(0, &[[49, 10, 0, 0], [49, 10, 0, 7]]);
        lent.draw(50);
        lent.status()
    };
    shows(faults::ONLY_COLOURED_COINCIDE, case, 0x20, 0x00);
}

#[test]
fn fault_11_colour_of_a_cell() {
    let case = || {
        let mut lent = board(0, &[]);
        lent.full_draw();
        lent.write_at(0x2000, 0x05);
        (lent.refresh(), lent.frame[0])
    };
    shows(faults::COLOUR_NOT_FETCHED, case, (192, 5), (0, 1));
}

#[test]
fn fault_12_right_half() {
    let case = || {
        let mut lent = board(2, &[[49, 10, 0, 7]]);
        lent.full_draw();
        lent.write_at(0x0810, 0);
        (lent.refresh(), lent.frame[50 * 256 + 18])
    };
    shows(faults::RIGHT_HALF_NOT_FETCHED, case, (1, 1), (0, 7));
}

/// A sprite becomes the fifth on eight lines.
#[test]
fn fault_13_fifth() {
    let case = || {
        let mut sprites = [[49, 10, 0, 7]; 5];
        sprites[4][0] = 100;
        let mut lent = board(0, &sprites);
        lent.full_draw();
        lent.write_at(0x1010, 49);
        (lent.refresh(), lent.notes[50])
    };
    shows(faults::FIFTH_NOT_FETCHED, case, (192, 68), (184, 96));
}

#[test]
fn fault_14_equal_byte() {
    let case = || {
        let mut lent = board(0, &[]);
        lent.write_at(0x0000, 0);
        lent.refresh()
    };
    shows(faults::EQUAL_WRITE_FORGETS_MAP, case, 8, 0);
}

#[test]
fn fault_15_mark_left() {
    let case = || {
        let mut lent = board(0, &[]);
        lent.block[14] = 1;
        [lent.refresh(), lent.refresh()]
    };
    shows(faults::REFRESH_KEEPS_MARK, case, [192, 0], [192, 192]);
}

#[test]
fn fault_16_map_left() {
    let case = || {
        let mut lent = board(0, &[]);
        lent.write_at(0x0000, 1);
        [lent.refresh(), lent.refresh()]
    };
    shows(faults::REFRESH_KEEPS_MAP, case, [8, 0], [8, 8]);
}

/// A name that shows the same leaves its eight lines as they look.
#[test]
fn fault_17_count_of_changed() {
    let case = || {
        let mut lent = board(0, &[]);
        lent.full_draw();
        lent.write_at(0x0000, 1);
        lent.refresh()
    };
    shows(faults::COUNT_OF_CHANGED, case, 8, 0);
}

#[test]
fn fault_18_all_redrawn() {
    let case = || {
        let mut lent = board(0, &[]);
        lent.full_draw();
        lent.frame.fill(0xEE);
        lent.write_at(0x0000, 1);
        (lent.refresh(), lent.frame[7 * 256], lent.frame[8 * 256])
    };
    shows(faults::ALL_REDRAWN, case, (8, 1, 0xEE), (8, 1, 1));
}

#[test]
fn fault_19_only_counts() {
    let case = || {
        let mut lent = board(0, &[[49, 10, 0, 7]]);
        lent.full_draw();
        lent.write_at(0x1001, 20);
        (lent.refresh(), lent.frame[50 * 256 + 10])
    };
    shows(faults::REFRESH_ONLY_COUNTS, case, (8, 1), (8, 7));
}

#[test]
fn fault_20_notes_left() {
    let case = || {
        let mut lent = board(0, &[[49, 10, 0, 7], [49, 30, 0, 7]]);
        lent.full_draw();
        lent.write_at(0x1005, 10);
        (lent.refresh(), lent.notes[50])
    };
    shows(faults::NOTE_NOT_WRITTEN, case, (8, 32 + 64), (8, 32));
}

#[test]
fn fault_21_map_left_by_a_full_draw() {
    let case = || {
        let mut lent = board(0, &[]);
        lent.write_at(0x0000, 1);
        lent.full_draw();
        lent.refresh()
    };
    shows(faults::FULL_DRAW_KEEPS_MAP, case, 0, 8);
}

/// Runs records on a board with F on: the answer, records done and place, and
/// the status left.
fn ran(records: &[(u8, u8)]) -> (u32, u16, u16, u8) {
    let mut lent = board(0, &[]);
    lent.block[13] = 0x85;
    lent.outcome.fill(0);
    let (answer, done, place) = lent.run(records);
    (answer, done, place, lent.status())
}

#[test]
fn fault_22_goes_on() {
    let case = || ran(&[(0, 7), (2, 6), (6, 0)]);
    let fault = faults::GOES_ON_AFTER_DIFFERING;
    shows(fault, case, (7, 2, 1, 0x85), (7, 2, 1, 0x00));
}

#[test]
fn fault_23_not_counted() {
    let case = || ran(&[(0, 7), (2, 6), (6, 0)]);
    let fault = faults::DIFFERING_NOT_COUNTED;
    shows(fault, case, (7, 2, 1, 0x85), (7, 1, 1, 0x85));
}

#[test]
fn fault_24_place() {
    let case = || ran(&[(0, 7), (2, 6), (6, 0)]);
    let fault = faults::PLACE_ONE_TOO_HIGH;
    shows(fault, case, (7, 2, 1, 0x85), (7, 2, 2, 0x85));
}

#[test]
fn fault_25_found_after_the_read() {
    let case = || ran(&[(3, 0x05)]);
    let fault = faults::FOUND_AFTER_READ;
    shows(fault, case, (0x85, 1, 0, 5), (5, 1, 0, 5));
    let case = || ran(&[(1, 0x00), (1, 0x48), (0, 7), (2, 6)]);
    shows(fault, case, (7, 4, 3, 0x85), (0xFF, 4, 3, 0x85));
}

#[test]
fn fault_26_map_in_a_run() {
    let case = || {
        let mut lent = board(0, &[]);
        lent.run(&[(1, 0x00), (1, 0x40), (0, 1)]);
        (lent.vram[0], lent.map[0], lent.refresh())
    };
    shows(faults::RUN_FORGETS_MAP, case, (1, 1, 8), (1, 0, 0));
}

/// The answers of reader and run for a log, and whether the writer makes it.
fn answers(log: &[u8]) -> (u32, u32, bool) {
    let mut lent = board(0, &[]);
    lent.log = log.to_vec();
    lent.records = vec![0xEE; log.len().saturating_sub(4)];
    let (read, run) = (lent.read_log() / 256, lent.run_log() / 256);
    lent.records = log[..log.len().saturating_sub(4)].to_vec();
    lent.log.fill(0xEE);
    let written = lent.write_log() == 0 && lent.log == log;
    (read, run, written)
}

#[test]
fn fault_27_sum_with_trailer() {
    let fault = faults::SUM_WITH_TRAILER;
    let case = || answers(&[0, 9, 2, 0, 9, 0]);
    shows(fault, case, (0, 0, true), (8, 8, false));
    let case = || answers(&[0, 9, 2, 0, 11, 0]);
    shows(fault, case, (8, 8, false), (0, 0, true));
}

#[test]
fn fault_28_distance() {
    let case = || answers(&[0, 9, 4, 0, 9, 0]);
    let fault = faults::DISTANCE_NOT_TESTED;
    shows(fault, case, (8, 8, false), (0, 0, false));
}

#[test]
fn fault_29_operation_7() {
    let fault = faults::OPERATION_7;
    let case = || answers(&log_of(&[(7, 0)]));
    shows(fault, case, (9, 9, false), (0, 0, true));
    let case = || answers(&log_of(&[(8, 0)]));
    shows(fault, case, (9, 9, false), (9, 9, false));
}

#[test]
fn fault_30_line_192() {
    let fault = faults::LINE_192_IN_LOG;
    let case = || answers(&log_of(&[(4, 192)]));
    shows(fault, case, (9, 9, false), (0, 0, true));
    let case = || answers(&log_of(&[(4, 193)]));
    shows(fault, case, (9, 9, false), (9, 9, false));
}

#[test]
fn fault_31_reset_with_a_value() {
    let fault = faults::RESET_WITH_VALUE;
    let case = || answers(&log_of(&[(6, 1)]));
    shows(fault, case, (9, 9, false), (0, 0, true));
    let case = || answers(&log_of(&[(5, 1)]));
    shows(fault, case, (9, 9, false), (9, 9, false));
}

#[test]
fn fault_32_record_before_form() {
    let case = || answers(&[7, 0, 2, 0, 8, 0]);
    let fault = faults::RECORD_TESTED_FIRST;
    shows(fault, case, (8, 8, false), (9, 9, false));
}

#[test]
fn fault_33_run_before_tested() {
    let fault = faults::RUN_BEFORE_TESTED;
    let case = || ran(&[(6, 0), (7, 0)]);
    shows(fault, case, (9 * 256, 0, 0, 0x85), (9 * 256, 0, 0, 0x00));
}

#[test]
fn fault_34_trailer_high_first() {
    let case = || answers(&[0, 9, 2, 0, 9, 0]);
    let fault = faults::TRAILER_HIGH_FIRST;
    shows(fault, case, (0, 0, true), (8, 8, true));
    let case = || answers(&[0, 9, 0, 2, 0, 9]);
    shows(fault, case, (8, 8, false), (0, 0, false));
}

/// Status after a line with two sprites that have their only bit left of column
/// 0, at 0, at 255, right of it.
fn status_at_the_edges() -> [u8; 4] {
    let places = [
        [49, 31, LEFTMOST, EARLY],
        [49, 0, LEFTMOST, 0],
        [49, 248, RIGHTMOST, 0],
        [49, 249, RIGHTMOST, 0],
    ];
    places.map(|sprite| status_of_two(0, sprite))
}

/// Status after a line with two sprites like this one.
fn status_of_two(register_1: u8, sprite: [u8; 4]) -> u8 {
    let mut lent = shapes_board(register_1, &[sprite; 2]);
    lent.draw(50);
    lent.status()
}

#[test]
fn fault_35_visible_columns_only() {
    let (right, wrong) = ([0x20; 4], [0x00, 0x20, 0x20, 0x00]);
    let fault = faults::ONLY_VISIBLE_COINCIDE;
    shows(fault, status_at_the_edges, right, wrong);
}

#[test]
fn fault_36_nothing_on_the_left() {
    let (right, wrong) = ([0x20; 4], [0x00, 0x20, 0x20, 0x20]);
    let fault = faults::NO_COINCIDENCE_ON_THE_LEFT;
    shows(fault, status_at_the_edges, right, wrong);
}

#[test]
fn fault_37_nothing_on_the_right() {
    let (right, wrong) = ([0x20; 4], [0x20, 0x20, 0x20, 0x00]);
    let fault = faults::NO_COINCIDENCE_ON_THE_RIGHT;
    shows(fault, status_at_the_edges, right, wrong);
}

/// Four sprites, of which the last stands on one of the others.
#[test]
fn fault_38_the_fourth() {
    let fault = faults::FOURTH_DOES_NOT_COINCIDE;
    for number in 0..3 {
        let case = || {
            let mut sprites = [0, 8, 16, 24].map(|x| [49, x, FULL, EARLY]);
            sprites[3] = sprites[number];
            let mut lent = shapes_board(0, &sprites);
            lent.draw(50);
            lent.status()
        };
        shows(fault, case, 0x20, 0x00);
    }
    let case = || status_of_two(0, [49, 0, FULL, EARLY]);
    shows(fault, case, 0x20, 0x20);
}

/// Only a bit that is one column wide can be at -32 alone.
#[test]
fn fault_39_the_first_column() {
    let fault = faults::FIRST_COLUMN_FORGOTTEN;
    let case = || [0, 1, 2, 3].map(|form| status_of_two(form, [49, 0, LEFTMOST, EARLY]));
    shows(fault, case, [0x20; 4], [0x00, 0x20, 0x00, 0x20]);
}

#[test]
fn fault_40_the_last_columns() {
    let fault = faults::LAST_COLUMNS_FORGOTTEN;
    let case = || [0, 1, 2, 3].map(|form| status_of_two(form, [49, 255, RIGHTMOST, 0]));
    shows(fault, case, [0x20; 4], [0x20, 0x20, 0x20, 0x00]);
    let case = || status_of_two(3, [49, 254, RIGHTMOST, 0]);
    shows(fault, case, 0x20, 0x20);
}

/// The count after a call, from this one with a byte waiting or none.
fn lost_after(lost: u16, waiting: Option<u8>, call: fn(&mut Lent) -> u32) -> u16 {
    let mut lent = board(0, &[]);
    lent.set_lost(lost);
    lent.set_waiting(waiting);
    call(&mut lent);
    lent.lost()
}

/// The calls that drop a first byte.
const DROPPING: [fn(&mut Lent) -> u32; 3] = [|lent| lent.write(7), Lent::read, Lent::read_status];

/// The count after each of these calls alone.
fn lost_after_each(lost: u16, waiting: Option<u8>) -> [u16; 3] {
    DROPPING.map(|call| lost_after(lost, waiting, call))
}

#[test]
fn fault_41_the_count_wraps() {
    let fault = faults::COUNT_WRAPS;
    let case = || lost_after_each(65_535, Some(1));
    shows(fault, case, [65_535; 3], [0; 3]);
    let case = || lost_after_each(65_534, Some(1));
    shows(fault, case, [65_535; 3], [65_535; 3]);
}

#[test]
fn fault_42_the_count_stops_early() {
    let fault = faults::COUNT_STOPS_EARLY;
    let case = || lost_after_each(65_534, Some(1));
    shows(fault, case, [65_535; 3], [65_534; 3]);
    let case = || lost_after_each(65_533, Some(1));
    shows(fault, case, [65_534; 3], [65_534; 3]);
}

/// The count after a control write with a byte waiting and with none.
fn lost_by_control() -> [u16; 2] {
    [Some(1), None].map(|waiting| lost_after(5, waiting, |lent| lent.control(0x40)))
}

#[test]
fn fault_43_a_pair_counts() {
    shows(faults::PAIR_COUNTS, lost_by_control, [5, 5], [6, 5]);
}

#[test]
fn fault_44_a_first_byte_counts() {
    shows(faults::FIRST_BYTE_COUNTS, lost_by_control, [5, 5], [5, 6]);
}

#[test]
fn faults_45_to_47_a_call_forgets() {
    for (fault, wrong) in [
        (faults::DATA_WRITE_FORGETS_COUNT, [5, 6, 6]),
        (faults::DATA_READ_FORGETS_COUNT, [6, 5, 6]),
        (faults::STATUS_READ_FORGETS_COUNT, [6, 6, 5]),
    ] {
        shows(fault, || lost_after_each(5, Some(1)), [6; 3], wrong);
    }
}

#[test]
fn fault_48_nothing_waits() {
    let fault = faults::COUNTS_WITHOUT_WAITING;
    shows(fault, || lost_after_each(5, None), [5; 3], [6; 3]);
    shows(fault, || lost_after_each(5, Some(1)), [6; 3], [6; 3]);
}

/// The count after a reset with a byte waiting and with none.
fn lost_by_reset() -> [u16; 2] {
    [Some(1), None].map(|waiting| lost_after(5, waiting, |lent| vdp_reset(&mut lent.block)))
}

#[test]
fn fault_49_a_reset_keeps_the_count() {
    shows(faults::RESET_KEEPS_COUNT, lost_by_reset, [0, 0], [5, 5]);
}

#[test]
fn fault_50_a_reset_counts() {
    shows(faults::RESET_COUNTS, lost_by_reset, [0, 0], [1, 0]);
}

#[test]
fn fault_51_a_snapshot_keeps_the_count() {
    let case = || lost_after(5, Some(1), Lent::read_snapshot);
    shows(faults::SNAPSHOT_KEEPS_COUNT, case, 0, 5);
}

#[test]
fn fault_52_high_byte_first() {
    let case = || {
        let mut lent = board(0, &[]);
        lent.control(1);
        lent.read_status();
        [lent.block[15], lent.block[16]]
    };
    shows(faults::COUNT_HIGH_FIRST, case, [1, 0], [0, 1]);
}

#[test]
fn fault_53_a_run_keeps_the_count() {
    let fault = faults::RUN_KEEPS_COUNT;
    let case = || {
        let mut lent = board(0, &[]);
        lent.set_lost(5);
        lent.run(&[(1, 1), (3, 0), (1, 1), (3, 0)]);
        lent.lost()
    };
    shows(fault, case, 7, 5);
    shows(fault, || lost_after_each(5, Some(1)), [6; 3], [6; 3]);
}

/// The colours at these columns of line 50, with these sprites.
fn on_line_50<const N: usize>(sprites: &[[u8; 4]], columns: [u32; N]) -> [u32; N] {
    let mut lent = shapes_board(0, sprites);
    columns.map(|column| lent.point(50, column))
}

/// Names 1 and 0 side by side, of different colours.
#[test]
fn fault_54_the_neighbours_cell() {
    let case = || {
        let mut lent = board(0, &[]);
        lent.vram[0x0000] = 8;
        lent.vram[0x2000..0x2002].copy_from_slice(&[3, 4]);
        [0, 7, 8].map(|column| lent.point(0, column))
    };
    shows(faults::POINT_OF_NEIGHBOUR, case, [4, 4, 3], [3, 3, 3]);
}

/// Two sprites that overlap at column 12, and are alone at 10 and 18.
const OVERLAPPING: [[u8; 4]; 2] = [[49, 10, FULL, 5], [49, 12, FULL, 7]];

#[test]
fn faults_55_and_56_the_sprite_in_front() {
    let case = || on_line_50(&OVERLAPPING, [10, 12, 18]);
    shows(faults::POINT_WITHOUT_FRONT, case, [5, 5, 7], [1, 7, 7]);
    shows(faults::POINT_FROM_BEHIND, case, [5, 5, 7], [5, 7, 7]);
}

#[test]
fn fault_57_the_fifth_sprite() {
    let sprites = [0, 20, 40, 60, 80, 100].map(|x| [49, x, FULL, 7]);
    let case = || on_line_50(&sprites, [60, 80, 100]);
    shows(faults::POINT_OF_FIFTH, case, [7, 1, 1], [7, 7, 1]);
}

#[test]
fn fault_58_a_sprite_without_colour() {
    let mut sprites = OVERLAPPING;
    sprites[0][3] = 0;
    let case = || on_line_50(&sprites, [10, 12, 18]);
    shows(faults::UNCOLOURED_HIDES, case, [1, 7, 7], [1, 1, 7]);
}

#[test]
fn fault_59_a_point_draws() {
    let case = |column| {
        let mut lent = board(0, &[[49, 10, 0, 7]; 5]);
        (lent.point(50, column), lent.status())
    };
    let fault = faults::POINT_DRAWS;
    shows(fault, || case(10), (7, 0x00), (7, 0x64));
    shows(fault, || case(256), (13 * 256, 0), (13 * 256, 0));
}

/// The answers for columns of a line, on a board whose first column is of
/// another colour.
fn numbers<const N: usize>(asked: [(u32, u32); N]) -> [u32; N] {
    let mut lent = board(0, &[]);
    for row in 0..24 {
        lent.vram[32 * row] = 8;
    }
    lent.vram[0x2001] = 3;
    asked.map(|(line, column)| lent.point(line, column))
}

#[test]
fn fault_60_column_before_line() {
    let case = || numbers([(192, 256), (192, 0), (0, 256)]).map(|number| number / 256);
    shows(faults::COLUMN_TESTED_FIRST, case, [4, 4, 13], [13, 4, 13]);
}

#[test]
fn faults_61_and_62_columns_beyond_the_end() {
    let case = || numbers([(0, 0), (0, 256), (0, 512), (0, 65_791)]);
    let (refused, right) = (13 * 256, [3, 13 * 256, 13 * 256, 13 * 256]);
    let fault = faults::COLUMN_256;
    shows(fault, case, right, [3, 3, refused, refused]);
    shows(faults::POINT_COLUMN_WRAPS, case, right, [3, 3, 3, 1]);
}

#[test]
fn fault_63_lines_beyond_the_end() {
    let case = || numbers([(191, 0), (192, 0), (256, 0), (447, 255), (u32::MAX, 0)]);
    let refused = 4 * 256;
    let right = [3, refused, refused, refused, refused];
    let wrong = [3, refused, 3, 1, refused];
    shows(faults::POINT_LINE_WRAPS, case, right, wrong);
}

/// Text with every pattern full but the last cell's.
fn text_point<const N: usize>(columns: [u32; N]) -> [u32; N] {
    let mut lent = Lent::with_registers([0, 0x50, 2, 0, 0, 0, 0, 0xF4]);
    lent.vram[0x0000..0x0008].fill(0xFF);
    lent.vram[0x0827] = 1;
    columns.map(|column| lent.point(0, column))
}

#[test]
fn fault_64_margins() {
    let case = || text_point([7, 8, 241, 242, 247, 248]);
    let wrong = [15, 15, 15, 4, 4, 15];
    shows(faults::POINT_IN_MARGIN, case, [4, 15, 15, 4, 4, 4], wrong);
}

#[test]
fn fault_65_blank_lines() {
    let case = || {
        let mut lent = board(0, &[[49, 10, 0, 7]]);
        lent.vram[0x2000] = 3;
        [0x40, 0x00, 0x58].map(|register_1| {
            lent.block[1] = register_1;
            [lent.point(50, 9), lent.point(50, 10)]
        })
    };
    let right = [[3, 7], [1, 1], [1, 1]];
    let wrong = [[3, 7], [3, 3], [3, 3]];
    shows(faults::BLANK_POINT_READS, case, right, wrong);
}

#[test]
fn fault_66_width_of_text() {
    let case = || text_point([8, 13, 241, 242]);
    let wrong = [15, 15, 15, 15];
    shows(faults::POINT_TEXT_8_WIDE, case, [15, 15, 15, 4], wrong);
}

#[test]
fn fault_67_external_video() {
    let case = || {
        let mut lent = board(0, &[]);
        [0, 1].map(|register_0| {
            lent.block[0] = register_0;
            lent.point(0, 0)
        })
    };
    shows(faults::POINT_WITHOUT_EXTERNAL, case, [1, 0], [1, 1]);
}

/// The list of fetches at a column of the first sprite, which the second does
/// not reach.
#[test]
fn fault_68_a_sprite_beside_the_point() {
    let case = || {
        let lent = shapes_board(0, &[[49, 10, FULL, 5], [49, 100, FULL, 7]]);
        fetches(&lent.state(), &lent.vram, 50, 10)
    };
    let cell_and_ys = [0x00C1, 0x1802, 0x2000, 0x1000, 0x1004, 0x1008];
    let (first, second) = (
        [0x1001, 0x1002, 0x1003, 0x0800],
        [0x1005, 0x1006, 0x1007, 0x0800],
    );
    let right = [&cell_and_ys[..], &first, &second].concat();
    let wrong = [&cell_and_ys[..], &first].concat();
    shows(faults::BESIDE_NOT_FETCHED, case, right, wrong);
}

/// What points, and then the drawn line, have at columns of Text. Its cells
/// have their bits 0 and 6 set, of which 6 is not shown; cell 1 is empty.
fn text_twice() -> [[u32; 7]; 2] {
    let columns = [7, 8, 14, 20, 22, 247, 248];
    let mut lent = Lent::with_registers([0, 0x50, 2, 0, 0, 0, 0, 0xF4]);
    lent.vram[0x0000] = 0x82;
    lent.vram[0x0801] = 1;
    lent.draw(0);
    let drawn = columns.map(|column| u32::from(lent.line[column as usize]));
    [columns.map(|column| lent.point(0, column)), drawn]
}

/// Each mistake is made by points alone and by lines alone.
#[test]
fn faults_69_to_74_counting_in_text() {
    let right = [4, 15, 4, 15, 4, 4, 4];
    let wrongs = [
        [4, 15, 15, 4, 15, 4, 4],
        [4, 4, 4, 4, 4, 15, 4],
        [4, 15, 15, 4, 4, 4, 4],
    ];
    for (fault, wrong) in faults::POINT_MISCOUNTS.into_iter().zip(wrongs) {
        shows(fault, text_twice, [right; 2], [wrong, right]);
    }
    for (fault, wrong) in faults::LINE_MISCOUNTS.into_iter().zip(wrongs) {
        shows(fault, text_twice, [right; 2], [right, wrong]);
    }
}

/// Colours and origins at columns of line 50: the drawn line's, and those of
/// points, which make the same mistakes.
fn with_origins<const N: usize>(lent: &mut Lent, columns: [usize; N]) -> [(u8, u8); N] {
    lent.draw(50);
    columns.map(|column| {
        let drawn = (lent.line[column], lent.origins[column]);
        let at = column as u32;
        let asked = (lent.point(50, at), lent.origin(50, at));
        assert_eq!(asked, (drawn.0.into(), drawn.1.into()));
        drawn
    })
}

/// Sprites 1 and 3 are the only ones on the line.
#[test]
fn fault_75_the_place_among_the_drawn() {
    let elsewhere = [192, 0, FULL, 2];
    let sprites = [elsewhere, [49, 10, FULL, 5], elsewhere, [49, 30, FULL, 7]];
    let case = || with_origins(&mut board(0, &sprites), [10, 30]);
    let fault = faults::PLACE_AS_NUMBER;
    shows(fault, case, [(5, 1), (7, 3)], [(5, 0), (7, 1)]);
}

#[test]
fn fault_76_a_sprite_of_colour_0() {
    let mut sprites = OVERLAPPING;
    sprites[0][3] = 0;
    let case = || with_origins(&mut shapes_board(0, &sprites), [9, 10, 12, 18]);
    let right = [(1, 34), (1, 34), (7, 1), (7, 1)];
    let wrong = [(1, 34), (1, 0), (7, 0), (7, 1)];
    shows(faults::UNCOLOURED_IS_ORIGIN, case, right, wrong);
}

#[test]
fn faults_77_and_78_what_is_behind_all() {
    let case = || {
        let mut lent = board(0, &[]);
        [(0, 4), (1, 4), (0, 0), (1, 0)].map(|(external, register_7)| {
            (lent.block[0], lent.block[7]) = (external, register_7);
            with_origins(&mut lent, [0])[0]
        })
    };
    let right = [(4, 33), (4, 33), (1, 34), (0, 35)];
    let wrong = [(4, 34), (4, 34), (1, 33), (0, 35)];
    shows(faults::BACKDROP_AND_BLACK, case, right, wrong);
    let wrong = [(4, 33), (4, 33), (1, 35), (0, 34)];
    shows(faults::BLACK_AND_EXTERNAL, case, right, wrong);
}

/// Text whose cells begin with a 1 and a 0.
fn text_bits(register_7: u8) -> Lent {
    let mut lent = Lent::with_registers([0, 0x50, 2, 0, 0, 0, 0, register_7]);
    lent.vram[0x0000..0x0008].fill(0x80);
    lent
}

/// Without a backdrop the margin stays black.
#[test]
fn fault_79_margins_and_blank_lines() {
    let fault = faults::MARGIN_IS_PATTERN;
    let case = || with_origins(&mut text_bits(0xF4), [7, 8, 9]);
    let (right, wrong) = ([(4, 33), (15, 32), (4, 32)], [(4, 32), (15, 32), (4, 32)]);
    shows(fault, case, right, wrong);
    let case = || with_origins(&mut text_bits(0xF0), [7, 8, 9]);
    let right = [(1, 34), (15, 32), (1, 34)];
    shows(fault, case, right, right);
    let case = || {
        let mut lent = text_bits(0xF4);
        lent.block[1] = 0x10;
        with_origins(&mut lent, [7, 8])
    };
    shows(fault, case, [(4, 33); 2], [(4, 32); 2]);
}

/// Each refusal of a drawn line, and an accepted one.
#[test]
fn fault_80_a_refused_call_writes() {
    let case = || {
        let harms: [fn(&mut Lent); 7] = [
            |lent| lent.vram.truncate(16_383),
            |lent| lent.block.truncate(16),
            |lent| lent.line.truncate(255),
            |lent| lent.origins.truncate(255),
            |lent| lent.block[14] = 2,
            |lent| lent.number = 192,
            |_| (),
        ];
        harms.map(|harm| {
            let mut lent = board(0, &[]);
            lent.origins.fill(0xEE);
            harm(&mut lent);
            let answer = lent.draw(lent.number);
            (answer / 256, lent.origins[0])
        })
    };
    let numbers = [1, 2, 2, 2, 3, 4];
    let with = |origin| {
        let [a, b, c, d, e, f] = numbers.map(|number| (number, origin));
        [a, b, c, d, e, f, (0, 34)]
    };
    shows(faults::ORIGINS_BEFORE_TESTED, case, with(0xEE), with(0));
}

#[test]
fn fault_81_a_0_bit_in_text() {
    let case = || with_origins(&mut text_bits(0xF4), [7, 8, 9]);
    let (right, wrong) = ([(4, 33), (15, 32), (4, 32)], [(4, 33), (15, 32), (4, 33)]);
    shows(faults::TEXT_0_IS_BACKDROP, case, right, wrong);
}

#[test]
fn fault_82_the_sprite_behind() {
    let case = || with_origins(&mut shapes_board(0, &OVERLAPPING), [10, 12, 18]);
    let (right, wrong) = ([(5, 0), (5, 0), (7, 1)], [(5, 0), (5, 1), (7, 1)]);
    shows(faults::HIDDEN_IS_ORIGIN, case, right, wrong);
}

/// A board whose first cell alone has name 255, with a sprite of name 255 on
/// lines 50 to 57, the last one of the list.
fn board_of_ends(register_1: u8) -> Lent {
    let mut lent = board(register_1, &[]);
    lent.vram[0] = 255;
    lent.sprite(31, [49, 10, 255, 7]);
    lent
}

/// Writes at these addresses: the refresh's answer, and the lines that it
/// redrew.
fn redrawn(register_1: u8, addresses: &[u16]) -> (u32, Vec<usize>) {
    let mut lent = board_of_ends(register_1);
    lent.frame.fill(0xEE);
    for &at in addresses {
        let byte = lent.vram[usize::from(at)];
        lent.write_at(at, byte);
    }
    let answer = lent.refresh();
    let lines = lent.frame.chunks(256).enumerate();
    let redrawn = lines.filter(|(_, line)| line.iter().all(|&byte| byte != 0xEE));
    (answer, redrawn.map(|(number, _)| number).collect())
}

fn lines(range: std::ops::Range<usize>) -> (u32, Vec<usize>) {
    (range.len() as u32, range.collect())
}

#[test]
fn fault_83_colours_alone() {
    let case = || [redrawn(0, &[0x201F]), redrawn(0, &[0x201F, 0x1FFF])];
    let (right, wrong) = ([lines(0..8), lines(0..8)], [lines(0..0), lines(0..8)]);
    shows(faults::COLOURS_NOT_ALONE, case, right, wrong);
}

#[test]
fn fault_84_sprite_patterns_alone() {
    let case = || [redrawn(0, &[0x0FFE]), redrawn(0, &[0x0FFE, 0x107F])];
    let (right, wrong) = ([lines(56..57), lines(50..58)], [lines(0..0), lines(50..58)]);
    shows(faults::SPRITE_PATTERNS_NOT_ALONE, case, right, wrong);
}

#[test]
fn faults_85_to_88_forgotten_bytes() {
    let case = || [0x1FFF, 0x107F, 0x0FFF].map(|at| redrawn(0, &[at]));
    let right = [lines(7..8), lines(50..58), lines(57..58)];
    let without = |place: usize| {
        let mut wrong = right.clone();
        wrong[place] = lines(0..0);
        wrong
    };
    for (fault, place) in [
        (faults::LAST_PATTERN_BYTE, 0),
        (faults::LAST_ATTRIBUTE, 1),
        (faults::LAST_SPRITE_PATTERN_BYTE, 2),
        (faults::SPRITE_COLOUR_FORGOTTEN, 1),
    ] {
        shows(fault, case, right.clone(), without(place));
    }
}

/// The first row shows the first two bytes of its patterns.
#[test]
fn fault_89_all_eight_bytes() {
    let case = || [0x1FF9, 0x1FFA].map(|at| redrawn(8, &[at]));
    let (right, wrong) = ([lines(4..8), lines(0..0)], [lines(0..8), lines(0..8)]);
    shows(faults::ALL_EIGHT_BYTES, case, right, wrong);
}

#[test]
fn faults_90_and_91_lines_of_a_row() {
    let case = || [redrawn(0, &[0x1FFB]), redrawn(0, &[0x1FFB, 0x1FFC])];
    let right = [lines(3..4), lines(3..5)];
    let too_far = [(1, vec![4]), lines(3..5)];
    shows(faults::ONE_LINE_TOO_FAR, case, right.clone(), too_far);
    let whole = [lines(3..4), (2, (0..8).collect())];
    shows(faults::ROW_REDRAWN_WHOLE, case, right, whole);
}
