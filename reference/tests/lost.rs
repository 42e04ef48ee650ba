//! The count of lost first bytes: what counts, what does not, what clears it,
//! and its place in the block.

mod common;

use common::{log_of, sprite_board, Lent, Random};
use reference::block::*;
use reference::{data_read, data_write, power_up, read_snapshot, reset, status_read, State};

type Call = fn(&mut Lent) -> u32;

/// The calls that drop a first byte.
const DROPPING: [Call; 3] = [|lent| lent.write(0x99), Lent::read, Lent::read_status];

/// All the calls that are lent a block, accepted as they are here.
const OVER_A_BLOCK: [Call; 14] = [
    |lent| vdp_power_up(&mut lent.block, &mut lent.vram),
    |lent| lent.control(0x87),
    |lent| lent.write(0x99),
    Lent::read,
    Lent::read_status,
    |lent| vdp_end_of_display(&mut lent.block),
    |lent| vdp_interrupt_line(&lent.block),
    |lent| vdp_reset(&mut lent.block),
    |lent| lent.draw(50),
    Lent::full_draw,
    Lent::refresh,
    Lent::read_snapshot,
    Lent::write_snapshot,
    Lent::run_log,
];

/// Counts at both ends, at the ends of a byte, and between them.
const COUNTS: [u16; 10] = [0, 1, 2, 254, 255, 256, 32_767, 65_279, 65_533, 65_534];

const WAITING: [Option<u8>; 4] = [None, Some(0), Some(0x81), Some(0xFF)];

/// A picture with sprites and a redraw mark that is clear.
fn board(lost: u16, waiting: Option<u8>) -> Lent {
    let mut lent = sprite_board(0x20);
    lent.set_lost(lost);
    lent.set_waiting(waiting);
    lent
}

#[test]
fn a_dropped_byte_counts_once() {
    for call in DROPPING {
        for lost in COUNTS {
            for waiting in WAITING.into_iter().flatten() {
                let mut lent = board(lost, Some(waiting));
                assert!(call(&mut lent) < 256);
                assert_eq!(lent.lost(), lost + 1);
                assert_eq!(lent.state().waiting, None);
                // Nothing waits now.
                assert!(call(&mut lent) < 256);
                assert_eq!(lent.lost(), lost + 1);
            }
        }
    }
}

#[test]
fn where_nothing_waits_nothing_counts() {
    for call in DROPPING {
        for lost in COUNTS.into_iter().chain([65_535]) {
            let mut lent = board(lost, None);
            assert!(call(&mut lent) < 256);
            assert_eq!(lent.lost(), lost);
        }
    }
}

#[test]
fn the_count_stops() {
    for call in DROPPING {
        let mut lent = board(65_534, Some(1));
        for _ in 0..3 {
            assert!(call(&mut lent) < 256);
            assert_eq!(lent.lost(), 65_535);
            assert_eq!(lent.state().waiting, None);
            assert_eq!(lent.control(2), 0);
        }
        let mut lent = board(65_535, Some(1));
        assert!(call(&mut lent) < 256);
        assert_eq!(lent.lost(), 65_535);
    }
}

/// From 0 up to the top and not beyond, a byte at a time.
#[test]
fn the_whole_way_up() {
    let mut lent = board(0, None);
    for turn in 1..=65_540u32 {
        assert_eq!(lent.control(turn as u8), 0);
        let call = DROPPING[turn as usize % 3];
        assert!(call(&mut lent) < 256);
        assert_eq!(u32::from(lent.lost()), turn.min(65_535));
    }
}

/// The calls on a state, without a block.
#[test]
fn the_calls_on_a_state() {
    let mut lent = Lent::new();
    for (lost, waiting, after) in [
        (5, None, 5),
        (5, Some(7), 6),
        (65_534, Some(7), 65_535),
        (65_535, Some(7), 65_535),
    ] {
        let state = State {
            lost,
            waiting,
            ..State::at_power_up()
        };
        let mut states = [state; 6];
        let [write, read, status, reset_one, up, snapshot] = &mut states;
        data_write(write, &mut lent.vram, &mut lent.map, 1);
        data_read(read, &lent.vram);
        status_read(status);
        reset(reset_one);
        power_up(up, &mut lent.vram);
        read_snapshot(snapshot, &mut lent.vram, &lent.snapshot);
        let expected = [after, after, after, 0, 0, 0];
        assert_eq!(states.map(|state| state.lost), expected);
        assert_eq!(states.map(|state| state.waiting), [None; 6]);
    }
    assert_eq!(State::at_power_up().lost, 0);
}

/// Register writes, addresses to write and addresses to read.
#[test]
fn a_completed_pair_does_not_count() {
    for second in [0x00, 0x3F, 0x40, 0x7F, 0x80, 0x87, 0xFF] {
        for lost in COUNTS.into_iter().chain([65_535]) {
            let mut lent = board(lost, Some(0x12));
            assert_eq!(lent.control(second), 0);
            assert_eq!(lent.lost(), lost);
            assert_eq!(lent.state().waiting, None);
        }
    }
}

#[test]
fn a_first_byte_does_not_count() {
    for lost in COUNTS.into_iter().chain([65_535]) {
        let mut lent = board(lost, None);
        assert_eq!(lent.control(0x81), 0);
        assert_eq!(lent.lost(), lost);
        assert_eq!(lent.state().waiting, Some(0x81));
    }
}

/// Also with a byte waiting, which all of these leave where it is.
#[test]
fn other_calls_leave_the_count() {
    let others: [Call; 6] = [
        |lent| vdp_end_of_display(&mut lent.block),
        |lent| vdp_interrupt_line(&lent.block),
        |lent| lent.draw(50),
        Lent::full_draw,
        Lent::refresh,
        Lent::write_snapshot,
    ];
    for call in others {
        for lost in COUNTS.into_iter().chain([65_535]) {
            for (waiting, redraw) in [(None, 0), (Some(0), 1), (Some(0x81), 0)] {
                let mut lent = board(lost, waiting);
                lent.block[14] = redraw;
                assert!(call(&mut lent) < 256);
                assert_eq!(lent.lost(), lost);
                assert_eq!(lent.state().waiting, waiting);
            }
        }
    }
}

#[test]
fn three_calls_clear_the_count() {
    let clearing: [Call; 3] = [
        |lent| vdp_reset(&mut lent.block),
        |lent| vdp_power_up(&mut lent.block, &mut lent.vram),
        Lent::read_snapshot,
    ];
    for call in clearing {
        for lost in COUNTS.into_iter().chain([65_535]) {
            for waiting in WAITING {
                let mut lent = board(lost, waiting);
                assert_eq!(call(&mut lent), 0);
                assert_eq!(lent.lost(), 0);
                assert_eq!(lent.state().waiting, None);
            }
        }
    }
}

/// A snapshot of a state says nothing of its count, and the byte that waits
/// comes back with a count of 0.
#[test]
fn snapshots_do_not_carry_the_count() {
    for waiting in WAITING {
        let mut without = board(0, waiting);
        assert_eq!(without.write_snapshot(), 0);
        for lost in COUNTS.into_iter().chain([65_535]) {
            let mut lent = board(lost, waiting);
            let before = lent.state();
            assert_eq!(lent.write_snapshot(), 0);
            assert_eq!(lent.state(), before);
            assert_eq!(lent.snapshot, without.snapshot);
            assert_eq!(lent.read_snapshot(), 0);
            let expected = State {
                redraw: true,
                lost: 0,
                ..before
            };
            assert_eq!(lent.state(), expected);
        }
    }
}

/// A call, the harm that it is done and its refusal.
type Refused = (Call, fn(&mut Lent), u32);

fn short_vram(lent: &mut Lent) {
    lent.vram.pop();
}

fn short_map(lent: &mut Lent) {
    lent.map.pop();
}

fn short_block(lent: &mut Lent) {
    lent.block.pop();
}

fn long_block(lent: &mut Lent) {
    lent.block.push(0);
}

fn high_address(lent: &mut Lent) {
    lent.block[9] = 0x40;
}

fn no_flag(lent: &mut Lent) {
    lent.block[11] = 2;
}

fn no_mark(lent: &mut Lent) {
    lent.block[14] = 2;
}

fn wrong_sum(lent: &mut Lent) {
    lent.snapshot[16_404] ^= 1;
}

fn wrong_trailer(lent: &mut Lent) {
    lent.snapshot[16_398] ^= 1;
}

/// A power-up state with a bit outside a mask, and the sum that goes with it.
fn wrong_contents(lent: &mut Lent) {
    lent.snapshot[16_384] = 4;
    lent.snapshot[16_404] = 0xE7;
}

fn short_snapshot(lent: &mut Lent) {
    lent.snapshot.pop();
}

fn short_log(lent: &mut Lent) {
    lent.log.pop();
}

fn wrong_record(lent: &mut Lent) {
    lent.log = log_of(&[(1, 1), (3, 0), (7, 0)]);
}

/// A refused call leaves the count, whether it would have raised or cleared it.
#[test]
fn refused_calls_leave_the_count() {
    let [write, read, status] = DROPPING;
    let [up, reset, load, run] = [0, 7, 11, 13].map(|place| OVER_A_BLOCK[place]);
    let refused: [Refused; 39] = [
        (write, short_vram, 1),
        (write, short_map, 2),
        (write, short_block, 2),
        (write, long_block, 2),
        (write, high_address, 3),
        (write, no_flag, 3),
        (write, no_mark, 3),
        (read, short_vram, 1),
        (read, short_block, 2),
        (read, long_block, 2),
        (read, high_address, 3),
        (read, no_flag, 3),
        (read, no_mark, 3),
        (status, short_block, 2),
        (status, long_block, 2),
        (status, high_address, 3),
        (status, no_flag, 3),
        (status, no_mark, 3),
        (reset, short_block, 2),
        (reset, long_block, 2),
        (reset, high_address, 3),
        (reset, no_flag, 3),
        (reset, no_mark, 3),
        (up, short_vram, 1),
        (up, short_block, 2),
        (up, long_block, 2),
        (load, short_vram, 1),
        (load, short_block, 2),
        (load, long_block, 2),
        (load, wrong_contents, 3),
        (load, short_snapshot, 5),
        (load, wrong_trailer, 6),
        (load, wrong_sum, 7),
        (run, short_vram, 1),
        (run, short_map, 2),
        (run, short_block, 2),
        (run, high_address, 3),
        (run, short_log, 8),
        (run, wrong_record, 9),
    ];
    for (call, harm, refusal) in refused {
        for lost in [0, 5, 0x9ABC, 65_534, 65_535] {
            for waiting in [None, Some(0x81)] {
                let mut lent = board(lost, waiting);
                lent.log = log_of(&[(1, 1), (3, 0), (6, 0)]);
                harm(&mut lent);
                let before = lent.clone();
                assert_eq!(call(&mut lent), 256 * refusal);
                assert!(lent == before);
            }
        }
    }
}

#[test]
fn blocks_of_other_lengths() {
    for (place, call) in OVER_A_BLOCK.into_iter().enumerate() {
        let mut lent = board(5, None);
        assert!(call(&mut lent) < 256, "{place}");
        for length in (0..40).filter(|&length| length != 17) {
            let mut lent = board(5, None);
            lent.block.resize(length, 0);
            let before = lent.clone();
            assert_eq!(call(&mut lent), 2 * 256, "{place} {length}");
            assert!(lent == before, "{place} {length}");
        }
    }
}

#[test]
fn every_count_is_right() {
    let mut lent = board(0, None);
    for lost in 0..=65_535 {
        lent.set_lost(lost);
        assert_eq!(lent.state().lost, lost);
        assert!(lent.state().is_well_formed());
        assert_eq!(vdp_interrupt_line(&lent.block), 0);
        assert_eq!(lent.read_status(), 0);
        assert_eq!(lent.lost(), lost);
        assert_eq!(lent.control(1), 0);
        assert_eq!(lent.read_status(), 0);
        assert_eq!(lent.lost(), if lost == 65_535 { lost } else { lost + 1 });
    }
}

/// The redraw mark and then the low byte of the count.
#[test]
fn the_order_of_bytes() {
    for (before, after) in [
        ([0x00, 0x00], [0x01, 0x00]),
        ([0x34, 0x12], [0x35, 0x12]),
        ([0xFF, 0x00], [0x00, 0x01]),
        ([0xFF, 0xFE], [0x00, 0xFF]),
        ([0xFE, 0xFF], [0xFF, 0xFF]),
        ([0xFF, 0xFF], [0xFF, 0xFF]),
    ] {
        for mark in [0, 1] {
            let mut lent = board(0, Some(0));
            lent.block[14] = mark;
            lent.block[15..].copy_from_slice(&before);
            let mut expected = lent.block.clone();
            assert_eq!(lent.read_status(), 0);
            expected[11] = 0;
            expected[15..].copy_from_slice(&after);
            assert_eq!(lent.block, expected);
        }
    }
}

/// Makes the one call that a record names, over the block.
fn single(lent: &mut Lent, operation: u8, value: u8) -> u32 {
    match operation {
        0 => lent.write(value),
        1 => lent.control(value),
        2 => lent.read(),
        3 => lent.read_status(),
        4 => lent.draw(value.into()),
        5 => vdp_end_of_display(&mut lent.block),
        _ => vdp_reset(&mut lent.block),
    }
}

/// Status is read between the control bytes of some pairs, whose second bytes
/// then wait.
#[test]
fn a_run_counts() {
    let interrupted = [(1, 0x00), (3, 0), (1, 0x48), (0, 0x77), (2, 0x77)];
    for (records, lost) in [
        (vec![], 0),
        (vec![(1, 0x00), (1, 0x48), (0, 0x77), (2, 0x77)], 0),
        (vec![(1, 0x00), (3, 0), (1, 0x48)], 1),
        (interrupted.to_vec(), 2),
        (interrupted.repeat(3), 6),
        (vec![(1, 1), (2, 0), (1, 1), (0, 1), (1, 1), (3, 0)], 3),
        (vec![(1, 1), (5, 0), (4, 50), (3, 0x80), (3, 0)], 1),
    ] {
        for from in [0, 5, 65_530, 65_533, 65_534, 65_535] {
            let mut lent = board(from, None);
            let count = records.len() as u16;
            assert_eq!(lent.run(&records), (0, count, count));
            assert_eq!(lent.lost(), from.saturating_add(lost));
        }
    }
    // A byte that waits before the run is lost in it.
    let mut lent = board(5, Some(1));
    assert_eq!(lent.run(&[(3, 0)]), (0, 1, 1));
    assert_eq!(lent.lost(), 6);
}

#[test]
fn a_reset_in_a_run() {
    for (records, lost) in [
        (vec![(6, 0)], 0),
        (vec![(1, 1), (6, 0)], 0),
        (vec![(1, 1), (3, 0), (6, 0)], 0),
        (vec![(6, 0), (1, 1), (3, 0)], 1),
        (vec![(1, 1), (6, 0), (3, 0)], 0),
    ] {
        for from in [0, 5, 65_534, 65_535] {
            let mut lent = board(from, None);
            lent.run(&records);
            assert_eq!(lent.lost(), lost);
        }
    }
}

/// The read that differs is done and counts; the ones behind it are not.
#[test]
fn a_differing_read_counts() {
    for (operation, found) in [(2, 0), (3, 0)] {
        let mut lent = board(5, None);
        let records = [(1, 1), (operation, 0xEE), (1, 1), (3, 0)];
        assert_eq!(lent.run(&records), (found, 2, 1));
        assert_eq!(lent.lost(), 6);
    }
}

/// A run against the same calls made singly, many first bytes among them.
#[test]
fn a_run_and_its_single_calls() {
    let mut random = Random(77);
    let mut raised = 0;
    for _ in 0..500 {
        let mut lent = board(random.lost(), random.chance(2).then_some(1));
        let from = lent.lost();
        let mut alone = lent.clone();
        let mut records = Vec::new();
        for _ in 0..random.below(24) {
            let byte = random.byte();
            let operation = [0, 1, 1, 1, 1, 2, 3, 3, 5][random.below(9) as usize];
            let operation = if random.chance(40) { 6 } else { operation };
            let value = if operation < 5 { byte } else { 0 };
            let answer = single(&mut alone, operation, value);
            let is_read = operation == 2 || operation == 3;
            records.push((operation, if is_read { answer as u8 } else { value }));
        }
        let count = records.len() as u16;
        assert_eq!(lent.run(&records), (0, count, count));
        assert_eq!(lent.block, alone.block);
        raised += u32::from(lent.lost() > from);
    }
    assert!(raised > 50, "only {raised} runs counted");
}
