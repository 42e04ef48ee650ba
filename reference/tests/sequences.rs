//! Long random lists of calls: refresh keeps the frame right, and nothing
//! panics on any input. Each planted fault is seen somewhere.

mod common;

use common::{log_of, shapes_board, Lent, Random, EARLY, LEFTMOST, RIGHTMOST};
use reference::block::*;
use reference::point::fetches;
use reference::tables::tables;
use reference::{faults, replay, show};
use std::collections::BTreeMap;

/// VRAM in which many sprites cover many lines.
fn busy(random: &mut Random) -> Lent {
    let mut lent = Lent::new();
    lent.set_lost(random.lost());
    for byte in &mut lent.vram {
        *byte = random.byte();
    }
    lent.block[0] = [0, 2, 1, 3][random.below(4) as usize];
    lent.block[1] = 0x40 | (random.byte() & 3) | [0, 0, 0, 8, 16][random.below(5) as usize];
    for (register, mask) in [(2, 0x0F), (3, 0xFF), (4, 7), (5, 0x7F), (6, 7), (7, 0xFF)] {
        lent.block[register] = random.byte() & mask;
    }
    crowd(&mut lent, random);
    assert_eq!(lent.full_draw(), 0);
    lent
}

/// Sprites near each other, some uncoloured, some over the top or left edge.
fn crowd(lent: &mut Lent, random: &mut Random) {
    let top = random.below(192) as u8;
    for number in 0..32 {
        let y = match random.below(12) {
            0 => random.byte(),
            1 if number > 6 => 208,
            2..=4 => 224 + random.below(32) as u8,
            _ => top.wrapping_add(random.below(40) as u8),
        };
        let early = if random.chance(3) { 0x80 } else { 0 };
        let colour = if random.chance(3) {
            0
        } else {
            random.byte() & 15
        };
        let x = if random.chance(2) {
            random.below(40) as u8
        } else {
            random.byte()
        };
        lent.sprite(number, [y, x, random.byte(), early | colour]);
    }
}

/// A byte of the pattern of one of the first sprites.
fn sprite_pattern(lent: &Lent, random: &mut Random) -> u16 {
    let name_at = usize::from(lent.block[5]) * 128 + 4 * random.below(6) as usize + 2;
    let name = u16::from(lent.vram[name_at] / 4 * 4);
    u16::from(lent.block[6]) * 2048 + 8 * name + random.below(32) as u16
}

/// One random port call; now and then a slice has the wrong length.
fn step(lent: &mut Lent, random: &mut Random) -> u32 {
    let byte = random.byte();
    match random.below(40) {
        0..=13 => {
            let at = match random.below(4) {
                0 | 1 => u16::from(lent.block[5]) * 128 + random.below(128) as u16,
                2 => sprite_pattern(lent, random),
                _ => random.below(16384) as u16,
            };
            lent.control((at % 256) as u8);
            lent.control((at / 256) as u8 + 64);
            lent.write(byte)
        }
        14..=18 => lent.write(byte),
        19..=23 => lent.read(),
        24..=28 => lent.control(byte % 128),
        29 => vdp_status_read(&mut lent.block),
        30 => vdp_end_of_display(&mut lent.block),
        31 => vdp_interrupt_line(&lent.block),
        32 if random.chance(2) => lent.point(u32::from(byte), random.below(257)),
        32 => lent.draw(u32::from(byte)),
        33 if random.chance(8) => lent.control(byte),
        34 if random.chance(20) => vdp_reset(&mut lent.block),
        35 => lent.write_snapshot(),
        36 if random.chance(30) => lent.read_snapshot(),
        37 => vdp_data_write(&mut lent.block, &mut lent.vram, &mut [], byte),
        38 => vdp_data_write(&mut lent.block, &mut [], &mut lent.map, byte),
        _ => vdp_refresh(
            &mut lent.block,
            &lent.vram,
            &mut lent.map,
            &mut [],
            &mut lent.notes,
        ),
    }
}

/// After any list of calls refresh ends where a full draw would.
fn refresh_equals_full_draw(seed: u64, rounds: u32) -> Result<u32, String> {
    let mut random = Random(seed);
    let mut partly = 0;
    for round in 0..rounds {
        let mut lent = busy(&mut random);
        for _ in 0..4 {
            for _ in 0..random.below(12) {
                step(&mut lent, &mut random);
            }
            let mut full = lent.clone();
            full.full_draw();
            let count = lent.refresh();
            full.snapshot = lent.snapshot.clone();
            if lent != full {
                return Err(format!("round {round}"));
            }
            partly += u32::from(count > 0 && count < 192);
        }
    }
    Ok(partly)
}

#[test]
fn refresh_ends_where_a_full_draw_would() {
    let partly = refresh_equals_full_draw(0x1234_5678_9ABC_DEF1, 60).expect("equal");
    assert!(partly > 20, "only {partly} refreshes were partial");
}

#[test]
fn full_draw_is_its_lines() {
    let mut random = Random(77);
    for _ in 0..6 {
        let mut lent = busy(&mut random);
        lent.block[13] = random.byte() & 0x3F;
        let mut by_line = lent.clone();
        lent.full_draw();
        for number in 0..192 {
            assert_eq!(by_line.draw(number), 0);
            let at = 256 * number as usize;
            assert_eq!(by_line.line, lent.frame[at..at + 256]);
        }
        assert_eq!(by_line.status(), lent.status());
    }
}

#[test]
fn a_line_depends_only_on_its_fetches() {
    let mut random = Random(4242);
    for _ in 0..200 {
        let lent = busy(&mut random);
        let number = random.below(192);
        let fetched = reference::line::fetches(&lent.state(), &lent.vram, number as u8);
        let mut other = lent.clone();
        for (at, byte) in other.vram.iter_mut().enumerate() {
            if !fetched.contains(&at) {
                *byte = random.byte();
            }
        }
        let mut lent = lent;
        lent.draw(number);
        other.draw(number);
        assert_eq!(lent.line, other.line);
        assert_eq!(lent.origins, other.origins);
        assert_eq!(lent.status(), other.status());
        assert_eq!(
            fetched,
            reference::line::fetches(&other.state(), &other.vram, number as u8)
        );
    }
}

#[test]
fn no_input_panics() {
    let mut random = Random(99);
    let mut slice = |right: usize| {
        let length = match random.below(6) {
            0 => random.below(300) as usize,
            1 => right + 1,
            _ => right,
        };
        let top = if random.chance(2) { 255 } else { 3 };
        (0..length)
            .map(|_| random.byte() & top)
            .collect::<Vec<u8>>()
    };
    for round in 0..300u32 {
        let mut block = slice(17);
        let (mut vram, mut map) = (slice(16384), slice(2048));
        let (mut frame, mut notes) = (slice(49152), slice(192));
        let (mut line, mut origins) = (slice(256), slice(256));
        let mut snapshot = slice(16406);
        let (mut log, mut records, mut outcome) = (slice(44), slice(40), slice(4));
        let number = round.wrapping_mul(0x0101_0101);
        show(&snapshot);
        replay(&snapshot);
        vdp_read_snapshot(&mut block, &mut vram, &snapshot);
        vdp_control_write(&mut block, &vram, 7);
        vdp_data_write(&mut block, &mut vram, &mut map, 7);
        vdp_data_read(&mut block, &vram);
        vdp_draw_line(&mut block, &vram, &mut line, &mut origins, number);
        vdp_point(&mut block, &vram, number, number / 7);
        vdp_origin(&block, &vram, number, number / 7);
        vdp_refresh(&mut block, &vram, &mut map, &mut frame, &mut notes);
        vdp_full_draw(&mut block, &vram, &mut map, &mut frame, &mut notes);
        vdp_write_snapshot(&block, &vram, &mut snapshot);
        vdp_write_log(&records, &mut log);
        vdp_read_log(&log, &mut records);
        vdp_run_log(
            &mut block,
            &mut vram,
            &mut map,
            &mut line,
            &log,
            &mut outcome,
        );
        snapshot.extend(log);
        replay(&snapshot);
        vdp_interrupt_line(&block);
        vdp_status_read(&mut block);
        vdp_end_of_display(&mut block);
        vdp_reset(&mut block);
        vdp_power_up(&mut block, &mut vram);
    }
}

/// A random log: now and then with a wrong record, a wrong trailer or both.
fn some_log(random: &mut Random) -> Vec<u8> {
    let mut records = Vec::new();
    for _ in 0..random.below(12) {
        records.push(match random.below(8) as u8 {
            4 => (4, random.below(192) as u8),
            operation @ (5 | 6) => (operation, 0),
            operation => (operation % 7, random.byte()),
        });
    }
    if random.chance(2) {
        let wrong = [(7, 0), (4, 192), (5, 1), (6, 1), (6, 255), (9, 9)];
        let at = random.below(records.len() as u32 + 1) as usize;
        records.insert(at, wrong[random.below(6) as usize]);
    }
    let mut log = log_of(&records);
    if random.chance(3) {
        let at = log.len() - 1 - random.below(4) as usize;
        log[at] ^= 1 << random.below(8);
    }
    log
}

/// Reads, writes and runs a log.
fn log_calls(lent: &mut Lent, random: &mut Random) -> Vec<u32> {
    lent.log = some_log(random);
    lent.records = vec![0xEE; lent.log.len() - 4];
    let mut answers = vec![lent.read_log(), lent.run_log()];
    if answers[0] == 0 {
        lent.log.fill(0xEE);
        answers.push(lent.write_log());
    }
    answers
}

/// Two sprites far to the left or right, close together or at one place.
fn two_at_a_side(random: &mut Random) -> Lent {
    let sprites = if random.chance(2) {
        [0; 2].map(|_| [49, random.below(2) as u8, LEFTMOST, EARLY])
    } else {
        [0; 2].map(|_| [49, 254 + random.below(2) as u8, RIGHTMOST, 0])
    };
    shapes_board(random.below(4) as u8, &sprites)
}

/// Calls on the ports from some count of lost first bytes, and a snapshot read.
fn port_calls(random: &mut Random) -> (Vec<u32>, Lent) {
    let mut lent = Lent::new();
    lent.set_lost(random.lost());
    let mut answers = Vec::new();
    for _ in 0..random.below(12) {
        let byte = random.byte();
        answers.push(match random.below(12) {
            0..=4 => lent.control(byte),
            5 | 6 => lent.write(byte),
            7 | 8 => lent.read(),
            9 | 10 => lent.read_status(),
            _ if random.chance(2) => lent.read_snapshot(),
            _ => vdp_reset(&mut lent.block),
        });
    }
    (answers, lent)
}

/// Points of a crowded screen, some beyond it, and what each fetches.
fn point_calls(random: &mut Random) -> (Vec<u32>, Lent) {
    let mut lent = busy(random);
    let modes = [0x40, 0x40, 0x48, 0x50, 0x00, 0x58];
    lent.block[1] = modes[random.below(6) as usize] | random.byte() & 3;
    lent.block[7] &= if random.chance(2) { 0xF0 } else { 0xFF };
    lent.block[13] = 0;
    let mut answers = Vec::new();
    for _ in 0..200 {
        let lines = if random.chance(10) { 600 } else { 192 };
        let line = random.below(lines);
        let column = match random.below(10) {
            0 => 256 * random.below(3),
            1 => random.below(600),
            2 => [0, 7, 8, 247, 248, 255][random.below(6) as usize],
            _ => random.below(256),
        };
        answers.push(lent.point(line, column));
        answers.push(lent.origin(line, column));
        if line < 192 && column < 256 {
            let fetched = fetches(&lent.state(), &lent.vram, line as u8, column as u8);
            answers.extend(fetched.into_iter().map(|at| at as u32));
        }
    }
    (answers, lent)
}

/// Lines of a crowded screen, some beyond it, with what each leaves.
fn line_calls(random: &mut Random) -> Vec<(Vec<u32>, Lent)> {
    let mut lent = busy(random);
    let calls = (0..6).map(|_| {
        lent.origins.fill(0xEE);
        (vec![lent.draw(random.below(240))], lent.clone())
    });
    calls.collect()
}

/// Refreshes after writes at the ends of tables and within them, with the last
/// sprite alone on the screen: the answers and the lines redrawn.
fn few_writes(random: &mut Random) -> (Vec<u32>, Lent) {
    let mut lent = busy(random);
    for number in 0..31 {
        lent.sprite(number, [192, 0, 0, 0]);
    }
    lent.sprite(31, [random.below(150) as u8, random.byte(), 255, 15]);
    let tables = tables(&lent.state());
    let mut answers = Vec::new();
    for table in [
        tables.names,
        tables.patterns,
        tables.colours,
        tables.attributes,
        tables.sprite_patterns,
    ] {
        for from_start in [0, random.below(table.len().max(1) as u32) as usize] {
            for at in [table.start + from_start, table.end.max(1) - 1] {
                lent.frame.fill(0xEE);
                lent.write_at(at as u16, random.byte());
                answers.push(lent.refresh());
                let lines = (0..192).filter(|&line| lent.frame[256 * line] != 0xEE);
                answers.extend(lines.map(|line| line as u32));
            }
        }
    }
    (answers, lent)
}

/// All that a list of calls with refreshes leaves and answers.
fn trace(seed: u64) -> Vec<(Vec<u32>, Lent)> {
    let mut random = Random(seed);
    let mut trace = Vec::new();
    for _ in 0..6 {
        let mut lent = busy(&mut random);
        let mut answers = Vec::new();
        for turn in 0..60 {
            answers.push(step(&mut lent, &mut random));
            if turn % 3 == 0 {
                answers.push(lent.refresh());
            }
        }
        lent.block[8..10].copy_from_slice(&[0xFF, 0x3F]);
        answers.push(lent.read());
        answers.push(lent.refresh());
        vdp_status_read(&mut lent.block);
        answers.push(vdp_data_write(
            &mut lent.block,
            &mut lent.vram,
            &mut lent.map,
            1,
        ));
        // Lines that are not due keep foreign bytes.
        lent.frame.fill(0xEE);
        answers.push(lent.refresh());
        trace.push((answers, lent.clone()));
        trace.push((vec![lent.write(2), lent.full_draw()], lent.clone()));
        for _ in 0..20 {
            trace.push((log_calls(&mut lent, &mut random), lent.clone()));
        }
        vdp_reset(&mut lent.block);
        trace.push((vec![lent.refresh()], lent));
    }
    for _ in 0..6 {
        let mut lent = two_at_a_side(&mut random);
        trace.push((vec![lent.full_draw()], lent));
        trace.push(port_calls(&mut random));
        trace.push(point_calls(&mut random));
        trace.extend(line_calls(&mut random));
    }
    for _ in 0..2 {
        trace.push(few_writes(&mut random));
    }
    trace
}

#[test]
fn each_planted_fault_shows() {
    let mut rights = BTreeMap::new();
    for number in 1..=faults::LAST {
        let seen = (31337..31357).any(|seed| {
            let right = rights.entry(seed).or_insert_with(|| trace(seed));
            faults::plant(number);
            let wrong = trace(seed);
            faults::plant(0);
            *right != wrong
        });
        assert!(seen, "fault {number} was not seen");
    }
    assert!(trace(31337) == trace(31337));
}

#[test]
fn faults_of_refresh_break_the_equality() {
    for number in [
        faults::OFF_SIDE_NOT_FETCHED,
        faults::FIFTH_FROM_REDRAWN,
        faults::WRITE_FORGETS_MAP,
        faults::COLOUR_NOT_FETCHED,
        faults::RIGHT_HALF_NOT_FETCHED,
        faults::FIFTH_NOT_FETCHED,
        faults::REFRESH_ONLY_COUNTS,
        faults::NOTE_NOT_WRITTEN,
    ] {
        faults::plant(number);
        let result = refresh_equals_full_draw(0x1234_5678_9ABC_DEF1, 400);
        faults::plant(0);
        assert!(result.is_err(), "fault {number} was not seen");
    }
}
