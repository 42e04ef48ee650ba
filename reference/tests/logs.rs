//! Logs: the format, the reader, the writer, the run, and what replay writes.

mod common;

use common::{log_of, sprite_board, with_trailer, Lent, Random};
use reference::block::*;
use reference::replay;

/// A state in which every operation changes something.
fn board() -> Lent {
    let mut lent = sprite_board(0x20);
    lent.block[8..].copy_from_slice(&[0x34, 0x12, 0x56, 1, 0x81, 0xE7, 0, 0x9A, 0xBC]);
    for (at, byte) in lent.vram.iter_mut().enumerate().skip(0x2040) {
        *byte = (at * 7 + at / 256) as u8;
    }
    lent.line.fill(0xEE);
    lent.origins.fill(0xEE);
    lent
}

/// A random right record; reads expect what they happen to expect.
fn some_record(random: &mut Random) -> (u8, u8) {
    match random.below(7) as u8 {
        4 => (4, random.below(192) as u8),
        operation @ (5 | 6) => (operation, 0),
        operation => (operation, random.byte()),
    }
}

fn bytes_of(records: &[(u8, u8)]) -> Vec<u8> {
    records.iter().flat_map(|&(o, v)| [o, v]).collect()
}

/// Makes the one call that a record names, over the block.
fn single(lent: &mut Lent, operation: u8, value: u8) -> u32 {
    match operation {
        0 => lent.write(value),
        1 => lent.control(value),
        2 => lent.read(),
        3 => vdp_status_read(&mut lent.block),
        4 => lent.draw(value.into()),
        5 => vdp_end_of_display(&mut lent.block),
        _ => vdp_reset(&mut lent.block),
    }
}

#[test]
fn the_bytes_of_a_log() {
    let mut lent = Lent::new();
    lent.records = vec![0x01, 0x42, 0x01, 0x40, 0x00, 0xAA];
    lent.log = vec![0xEE; 10];
    assert_eq!(lent.write_log(), 0);
    let expected = [1, 0x42, 1, 0x40, 0, 0xAA, 6, 0, 0x2E, 0x01];
    assert_eq!(lent.log, expected);
    assert_eq!(lent.run_log(), 0);
    assert_eq!(lent.outcome, [3, 0, 3, 0]);
    assert_eq!(lent.vram[0x0042], 0xAA);
    assert_eq!(lent.state().address, 0x0043);
    assert_eq!(lent.map[0x42 / 8], 1 << (0x42 % 8));
}

#[test]
fn the_longest_log_and_its_sum() {
    let mut lent = Lent::new();
    lent.records = [0, 255].repeat(20_000);
    lent.log = vec![0xEE; 40_004];
    assert_eq!(lent.write_log(), 0);
    assert_eq!(lent.log[40_000..], [0x40, 0x9C, 0xE0, 0xD1]);
    assert_eq!(lent.run_log(), 0);
    assert_eq!(lent.outcome, [0x20, 0x4E, 0x20, 0x4E]);
    assert_eq!(lent.vram, vec![255; 16_384]);
    assert_eq!(lent.state().address, 20_000 - 16_384);
    assert_eq!(lent.map, vec![255; 2_048]);
}

#[test]
fn no_records() {
    let mut lent = board();
    let mut before = lent.clone();
    assert_eq!(lent.run(&[]), (0, 0, 0));
    before.outcome = vec![0; 4];
    assert!(lent == before);
    assert_eq!(lent.read_log(), 0);
    lent.log = vec![0xEE; 4];
    assert_eq!(lent.write_log(), 0);
    assert_eq!(lent.log, [0, 0, 0, 0]);
}

#[test]
fn one_record_and_the_most() {
    for count in [1u16, 19_999, 20_000] {
        let mut lent = board();
        let records = vec![(0, 7); count.into()];
        assert_eq!(lent.run(&records), (0, count, count));
        lent.records = vec![0xEE; 2 * usize::from(count)];
        assert_eq!(lent.read_log(), 0);
        assert_eq!(lent.records, bytes_of(&records));
        let log = std::mem::replace(&mut lent.log, vec![0xEE; 2 * usize::from(count) + 4]);
        assert_eq!(lent.write_log(), 0);
        assert_eq!(lent.log, log);
    }
}

#[test]
fn one_record_too_many() {
    let mut lent = board();
    lent.log = log_of(&[(0, 7); 20_001]);
    lent.records = vec![0; 40_002];
    let before = lent.clone();
    assert_eq!(lent.run_log(), 8 * 256);
    assert_eq!(lent.read_log(), 8 * 256);
    assert_eq!(lent.write_log(), 8 * 256);
    assert!(lent == before);
}

#[test]
fn short_and_odd_lengths() {
    for length in 0..12 {
        let mut lent = board();
        lent.log = vec![0; length];
        // Their sum is 0, and this is their distance.
        if length >= 4 {
            lent.log[length - 4] = (length - 4) as u8;
        }
        lent.records = vec![0; length.saturating_sub(4)];
        let expected = if length < 4 || length % 2 == 1 { 8 } else { 0 };
        assert_eq!(lent.run_log(), 256 * expected, "{length}");
        assert_eq!(lent.read_log(), 256 * expected, "{length}");
        assert_eq!(lent.write_log(), 256 * expected, "{length}");
    }
}

#[test]
fn record_bytes_of_another_length() {
    for log in [4, 10, 40_004] {
        for records in [0, 2, log - 3, log - 2, log, log + 2] {
            if records + 4 == log {
                continue;
            }
            let mut lent = board();
            lent.log = with_trailer(&vec![0; log - 4]);
            lent.records = vec![0; records];
            let before = lent.clone();
            assert_eq!(lent.read_log(), 8 * 256, "{log} {records}");
            assert_eq!(lent.write_log(), 8 * 256, "{log} {records}");
            assert!(lent == before);
        }
    }
}

/// A change of one byte leaves a wrong distance or a wrong sum.
#[test]
fn any_one_byte_changed() {
    let right = log_of(&[(0, 1), (1, 2), (2, 3), (3, 4), (4, 5), (5, 0), (6, 0)]);
    for at in 0..right.len() {
        for bit in 0..8 {
            let mut lent = board();
            lent.log = right.clone();
            lent.log[at] ^= 1 << bit;
            lent.records = vec![0xEE; right.len() - 4];
            let before = lent.clone();
            assert_eq!(lent.run_log(), 8 * 256, "{at} {bit}");
            assert_eq!(lent.read_log(), 8 * 256, "{at} {bit}");
            assert!(lent == before);
        }
    }
}

/// The answers of reader, writer and run, without the byte found.
fn refusals_of(lent: &mut Lent, records: &[(u8, u8)]) -> [u32; 3] {
    lent.log = log_of(records);
    lent.records = vec![0xEE; 2 * records.len()];
    let read = lent.read_log();
    lent.records = bytes_of(records);
    [read, lent.write_log(), lent.run_log()].map(|answer| answer / 256)
}

#[test]
fn each_record_that_there_is() {
    let mut lent = board();
    for operation in 0..=255 {
        for value in 0..=255 {
            let right = match operation {
                0..=3 => true,
                4 => value <= 191,
                5 | 6 => value == 0,
                _ => false,
            };
            let expected = if right { [0; 3] } else { [9; 3] };
            assert_eq!(
                refusals_of(&mut lent, &[(operation, value)]),
                expected,
                "{operation} {value}"
            );
        }
    }
}

#[test]
fn both_ends_of_every_bound() {
    for (record, expected) in [
        ((4, 191), 0),
        ((4, 192), 9),
        ((5, 0), 0),
        ((5, 1), 9),
        ((6, 0), 0),
        ((6, 1), 9),
        ((7, 0), 9),
    ] {
        for place in [0, 5, 10] {
            let mut records = vec![(0, 3); 11];
            records[place] = record;
            let refusals = refusals_of(&mut board(), &records);
            assert_eq!(refusals, [expected; 3], "{record:?} at {place}");
        }
    }
}

#[test]
fn a_wrong_record_after_a_differing_read() {
    let mut lent = board();
    lent.log = log_of(&[(0, 1), (2, 2), (0, 3), (7, 0)]);
    let before = lent.clone();
    assert_eq!(lent.run_log(), 9 * 256);
    assert!(lent == before);
}

#[test]
fn a_differing_data_read() {
    let mut lent = board();
    let mut alone = lent.clone();
    // The write leaves 9 in the buffer and steps over it; the read takes the next byte in.
    let records = [(5, 0), (0, 9), (2, 8), (0, 7), (2, 0), (4, 3)];
    assert_eq!(lent.run(&records), (9, 3, 2));
    vdp_end_of_display(&mut alone.block);
    alone.write(9);
    assert_eq!(alone.read(), 9);
    assert_eq!(lent.block, alone.block);
    assert_eq!(lent.vram, alone.vram);
    assert_eq!(lent.map, alone.map);
    assert_eq!(lent.line, vec![0xEE; 256]);
    assert_ne!(lent.state().buffer, 9);
}

#[test]
fn a_differing_status_read() {
    let mut lent = board();
    assert_eq!(lent.run(&[(3, 0xE6), (6, 0)]), (0xE7, 1, 0));
    assert_eq!(lent.status(), 0x07);
    assert_eq!(lent.state().waiting, None);
}

/// A byte found of 0 goes with a place below the record count.
#[test]
fn a_differing_read_of_0_at_the_end() {
    let mut lent = board();
    lent.vram.fill(0);
    let records = [(0, 9), (2, 9), (2, 0), (2, 1)];
    assert_eq!(lent.run(&records), (0, 4, 3));
    assert_eq!(lent.run(&[(3, 0x27), (2, 0)]), (0xE7, 1, 0));
    assert_eq!(lent.run(&[(3, 0x07), (2, 0)]), (0, 2, 2));
}

#[test]
fn a_differing_read_at_the_last_place_of_all() {
    let mut lent = board();
    let mut records = vec![(0, 5); 20_000];
    records[19_999] = (2, 6);
    assert_eq!(lent.run(&records), (5, 20_000, 19_999));
}

/// The line slice holds the line drawn last, or what it was lent with.
#[test]
fn the_line_slice() {
    let mut lent = board();
    lent.block[7] = 4;
    let mut alone = lent.clone();
    let lines = [(4, 0), (1, 0x05), (1, 0x87), (4, 191), (1, 0x06), (1, 0x87)];
    // The waiting byte goes with a status read first.
    let mut records = vec![(3, 0xE7)];
    records.extend(lines);
    assert_eq!(lent.run(&records).1, 7);
    for (operation, value) in records {
        single(&mut alone, operation, value);
    }
    assert_eq!(lent.line, vec![5; 256]);
    assert_eq!(lent.line, alone.line);
    assert_eq!(lent.block, alone.block);
    lent.line.fill(0xEE);
    assert_eq!(lent.run(&[(0, 1), (1, 2), (5, 0), (6, 0)]), (0, 4, 4));
    assert_eq!(lent.line, vec![0xEE; 256]);
}

#[test]
fn the_map_has_the_bits_of_the_writes_done() {
    let mut lent = board();
    lent.map.fill(0);
    lent.map[5] = 0x10;
    let records = [
        (3, 0xE7),
        (1, 0xFE),
        (1, 0x7F),
        (0, 1),
        (0, 2),
        (0, 3),
        (2, 4),
        (0, 5),
    ];
    assert_eq!(lent.run(&records), (3, 7, 6));
    let mut expected = vec![0; 2048];
    expected[2047] = 0xC0;
    expected[0] = 0x01;
    expected[5] = 0x10;
    assert_eq!(lent.map, expected);
    assert_eq!(lent.vram[0x3FFE..], [1, 2]);
    assert_eq!(lent.vram[0], 3);
}

/// Status is read in the middle of a pair: its second byte waits as a
/// first one, and the address is not set.
#[test]
fn a_status_read_between_two_control_bytes() {
    let mut lent = Lent::new();
    assert_eq!(lent.run(&[(1, 0xFF), (3, 0x00), (1, 0x07)]), (0, 3, 3));
    assert_eq!(lent.state().waiting, Some(0x07));
    assert_eq!(lent.state().address, 0);

    // Writes two bytes at 0800 and reads them back.
    let driver = |interrupted: bool| {
        let mut records = vec![(5, 0), (1, 0x00), (1, 0x48), (0, 0x77), (0, 0x5A)];
        records.push((1, 0x00));
        if interrupted {
            records.push((3, 0x80));
        }
        records.extend([(1, 0x08), (2, 0x77), (2, 0x5A)]);
        records
    };
    assert_eq!(Lent::new().run(&driver(false)), (0, 9, 9));
    let mut lent = Lent::new();
    assert_eq!(lent.run(&driver(true)), (0x5A, 9, 8));
    assert_eq!(lent.state().address, 0x0803);
}

#[test]
fn round_trips() {
    let mut random = Random(11);
    for _ in 0..300 {
        let count = random.below(200) as usize;
        let records: Vec<(u8, u8)> = (0..count).map(|_| some_record(&mut random)).collect();
        let bytes = bytes_of(&records);
        let mut lent = Lent::new();
        lent.records = bytes.clone();
        lent.log = vec![0xEE; bytes.len() + 4];
        assert_eq!(lent.write_log(), 0);
        assert_eq!(lent.records, bytes);
        let log = lent.log.clone();
        assert_eq!(log, with_trailer(&bytes));
        lent.records.fill(0xEE);
        assert_eq!(lent.read_log(), 0);
        assert_eq!(lent.records, bytes);
        assert_eq!(lent.log, log);
        lent.log.fill(0xEE);
        assert_eq!(lent.write_log(), 0);
        assert_eq!(lent.log, log);
    }
}

/// A run against the same calls made singly over the block.
#[test]
fn the_same_calls_made_singly() {
    let mut random = Random(12);
    let mut ended = [0; 2];
    for _ in 0..200 {
        let mut lent = board();
        lent.block[13] = random.byte();
        lent.set_lost(random.lost());
        let mut alone = lent.clone();
        let count = random.below(60) as usize;
        let mut records: Vec<(u8, u8)> = (0..count).map(|_| some_record(&mut random)).collect();
        // Reads are right, but for one in so many.
        let mut found = None;
        for (place, (operation, value)) in records.iter_mut().enumerate() {
            if found.is_some() {
                break;
            }
            let answer = single(&mut alone, *operation, *value);
            assert!(answer < 256);
            if *operation == 2 || *operation == 3 {
                *value = answer as u8;
                if random.chance(20) {
                    *value ^= 1 << random.below(8);
                    found = Some((answer, place as u16 + 1, place as u16));
                }
            }
        }
        let (done, count) = (found, count as u16);
        ended[usize::from(done.is_some())] += 1;
        assert_eq!(lent.run(&records), done.unwrap_or((0, count, count)));
        alone.log = lent.log.clone();
        alone.outcome = lent.outcome.clone();
        // A run has no slice for origins.
        assert_eq!(lent.origins, vec![0xEE; 256]);
        alone.origins.fill(0xEE);
        assert!(lent == alone);
    }
    assert!(ended.iter().all(|&count| count > 20), "{ended:?}");
}

/// A run changes what a refresh redraws, as its calls would.
#[test]
fn a_refresh_after_a_run() {
    let mut lent = sprite_board(0);
    lent.full_draw();
    assert_eq!(lent.run(&[(1, 0x00), (1, 0x40), (0, 0)]), (0, 3, 3));
    assert_eq!(lent.refresh(), 8);
    assert_eq!(lent.run(&[(6, 0)]), (0, 1, 1));
    assert_eq!(lent.refresh(), 192);
}

/// A snapshot and a log, as replay reads them.
fn input(snapshot: &[u8], log: &[u8]) -> Vec<u8> {
    [snapshot, log].concat()
}

#[test]
fn replay_writes_the_snapshot_after_the_run() {
    let mut lent = board();
    lent.write_snapshot();
    let before = lent.snapshot.clone();
    for (records, line) in [
        (vec![], "done 0 place 0 found 0\n"),
        (vec![(3, 0xE7), (0, 0x5A)], "done 2 place 2 found 0\n"),
        (vec![(0, 0x5A), (3, 0xE6)], "done 2 place 1 found 231\n"),
        (vec![(0, 0x5A); 20_000], "done 20000 place 20000 found 0\n"),
    ] {
        let replayed = replay(&input(&before, &log_of(&records)));
        assert_eq!(replayed.error, line);
        let mut run = lent.clone();
        run.run(&records);
        run.write_snapshot();
        assert!(replayed.output == run.snapshot, "{line}");
    }
    assert_eq!(replay(&input(&before, &[0; 4])).output, before);
}

#[test]
fn replay_refusals() {
    let mut lent = board();
    lent.write_snapshot();
    let refused = |snapshot: &[u8], log: &[u8]| {
        let replayed = replay(&input(snapshot, log));
        assert!(replayed.output.is_empty());
        replayed.error
    };
    let (good, log) = (lent.snapshot.clone(), log_of(&[(0, 1)]));
    let bad_record = log_of(&[(7, 0)]);
    assert_eq!(refused(&[], &[]), "refused 5\n");
    assert_eq!(refused(&good[..16_405], &[]), "refused 5\n");
    assert_eq!(refused(&good[..16_400], &log[..5]), "refused 5\n");
    let with = |at: usize, byte: u8| {
        let mut snapshot = good.clone();
        snapshot[at] = byte;
        snapshot
    };
    assert_eq!(refused(&with(16_398, 0), &bad_record), "refused 6\n");
    assert_eq!(refused(&with(0, 1), &[]), "refused 7\n");
    let mut ill_formed = with(16_384, 4);
    let sum: u32 = ill_formed[..16_404]
        .iter()
        .map(|&byte| u32::from(byte))
        .sum();
    ill_formed[16_404..].copy_from_slice(&(sum as u16).to_le_bytes());
    assert_eq!(refused(&ill_formed, &[]), "refused 3\n");
    assert_eq!(refused(&good, &[]), "refused 8\n");
    assert_eq!(refused(&good, &log[..5]), "refused 8\n");
    assert_eq!(refused(&good, &bad_record[1..]), "refused 8\n");
    assert_eq!(refused(&good, &log_of(&[(0, 1); 20_001])), "refused 8\n");
    assert_eq!(refused(&good, &bad_record), "refused 9\n");
    assert_eq!(refused(&good, &log_of(&[(2, 0), (4, 192)])), "refused 9\n");
}
