//! Every refusal of every call, and which goes first when more apply.

mod common;

use common::{log_of, with_trailer, Lent};
use reference::block::*;
use reference::*;

#[derive(Clone, Copy, Debug, PartialEq, Eq)]
enum Call {
    PowerUp,
    ControlWrite,
    DataWrite,
    DataRead,
    StatusRead,
    EndOfDisplay,
    InterruptLine,
    Reset,
    DrawLine,
    Point,
    Origin,
    FullDraw,
    Refresh,
    ReadSnapshot,
    WriteSnapshot,
    RunLog,
    ReadLog,
    WriteLog,
}

use Call::*;

const CALLS: [Call; 18] = [
    PowerUp,
    ControlWrite,
    DataWrite,
    DataRead,
    StatusRead,
    EndOfDisplay,
    InterruptLine,
    Reset,
    DrawLine,
    Point,
    Origin,
    FullDraw,
    Refresh,
    ReadSnapshot,
    WriteSnapshot,
    RunLog,
    ReadLog,
    WriteLog,
];

/// One thing wrong with what is lent.
#[derive(Clone, Copy, Debug, PartialEq, Eq)]
enum Harm {
    Vram,
    BlockLength,
    Line,
    Origins,
    Map,
    Frame,
    Notes,
    Contents,
    Number,
    Column,
    SnapshotLength,
    Trailer,
    Sum,
    SnapshotContents,
    Outcome,
    LogForm,
    LogLength,
    RecordsLength,
    LogRecord,
    Record,
}

use Harm::*;

fn refusal(harm: Harm) -> u32 {
    match harm {
        Vram => 1,
        BlockLength | Line | Origins | Map | Frame | Notes | Outcome => 2,
        Contents | SnapshotContents => 3,
        Number => 4,
        SnapshotLength => 5,
        Trailer => 6,
        Sum => 7,
        LogForm | LogLength | RecordsLength => 8,
        LogRecord | Record => 9,
        Column => 13,
    }
}

/// What each call tests.
fn tested(call: Call) -> Vec<Harm> {
    match call {
        PowerUp => vec![Vram, BlockLength],
        ControlWrite | DataRead => vec![Vram, BlockLength, Contents],
        DataWrite => vec![Vram, BlockLength, Map, Contents],
        StatusRead | EndOfDisplay | InterruptLine | Reset => vec![BlockLength, Contents],
        DrawLine => vec![Vram, BlockLength, Line, Origins, Contents, Number],
        Point | Origin => vec![Vram, BlockLength, Contents, Number, Column],
        FullDraw | Refresh => vec![Vram, BlockLength, Map, Frame, Notes, Contents],
        ReadSnapshot => vec![
            Vram,
            BlockLength,
            SnapshotLength,
            Trailer,
            Sum,
            SnapshotContents,
        ],
        WriteSnapshot => vec![Vram, BlockLength, SnapshotLength, Contents],
        RunLog => vec![
            Vram,
            BlockLength,
            Map,
            Line,
            Outcome,
            Contents,
            LogForm,
            LogRecord,
        ],
        ReadLog => vec![LogForm, RecordsLength, LogRecord],
        WriteLog => vec![LogLength, RecordsLength, Record],
    }
}

/// Different ways of doing the same harm.
const WAYS: usize = 12;

fn wrong_length(slice: &mut Vec<u8>, way: usize) {
    let length = slice.len();
    match way % 4 {
        0 => slice.truncate(length - 1),
        1 => slice.push(0),
        2 => slice.truncate(length - 2),
        _ => slice.clear(),
    }
}

/// The 14 state bytes made wrong in one of 12 ways.
fn wrong_state(bytes: &mut [u8], way: usize) {
    match way % 12 {
        0 => bytes[0] = 0x04,
        1 => bytes[1] = 0x04,
        2 => bytes[2] = 0x10,
        3 => bytes[4] = 0x08,
        4 => bytes[5] = 0x80,
        5 => bytes[6] = 0x08,
        6 => bytes[9] = 0x40,
        7 => bytes[11] = 2,
        8 => bytes[11] = 255,
        9 => (bytes[11], bytes[12]) = (0, 1),
        10 => bytes[9] = 0xFF,
        _ => bytes[..8].fill(0xFF),
    }
}

fn set_sum(snapshot: &mut [u8]) {
    let sum: u32 = snapshot[..16404].iter().map(|&byte| u32::from(byte)).sum();
    snapshot[16404..].copy_from_slice(&(sum as u16).to_le_bytes());
}

/// Makes one of the records wrong, the first or a later one.
fn wrong_record(records: &mut [u8], way: usize) {
    let wrong = [
        [7, 0],
        [4, 192],
        [5, 1],
        [6, 1],
        [255, 0],
        [4, 255],
        [5, 255],
        [6, 128],
        [128, 9],
        [8, 0],
        [4, 193],
        [7, 7],
    ];
    let at = [0, records.len() - 2, 4][way % 3];
    records[at..at + 2].copy_from_slice(&wrong[way]);
}

/// Makes a log's length or trailer wrong in one of 12 ways.
fn wrong_form(log: &mut Vec<u8>, way: usize) {
    let trailer = log.len() - 4;
    match way % 12 {
        0 => log.truncate(3),
        1 => log.clear(),
        2 => log.push(0),
        3 => *log = with_trailer(&[0; 40_002]),
        4..=7 => log[trailer + way - 4] ^= 1,
        8 => log[0] ^= 2,
        9 => log.truncate(trailer + 2),
        10 => log.extend([0, 0]),
        _ => log[trailer..].swap(0, 1),
    }
}

/// Wrong lengths of log and record bytes.
fn wrong_lengths(harms: &[Harm], lent: &mut Lent, way: usize) {
    if harms.contains(&LogLength) {
        match way % 4 {
            0 => lent.log.truncate(3),
            1 => lent.log.clear(),
            2 => lent.log.push(0),
            _ => lent.log.resize(40_006, 0),
        }
    }
    if harms.contains(&RecordsLength) {
        match way % 5 {
            0 => wrong_length(&mut lent.records, 0),
            1 => lent.records.push(0),
            2 => lent.records.extend([0, 0]),
            3 => lent.records.resize(40_004, 0),
            _ => lent.records.truncate(2),
        }
    }
}

/// Does the harms, those to contents before those to lengths.
fn harmed(harms: &[Harm], way: usize) -> Lent {
    let mut lent = good();
    let has = |harm| harms.contains(&harm);
    if has(Contents) {
        wrong_state(&mut lent.block[..14], way);
    }
    if has(SnapshotContents) {
        wrong_state(&mut lent.snapshot[16384..16398], way);
    }
    if has(Trailer) {
        lent.snapshot[16398 + way % 6] ^= 0x80;
    }
    set_sum(&mut lent.snapshot);
    if has(Sum) {
        lent.snapshot[16404 + way % 2] ^= 1;
    }
    if has(Number) {
        lent.number = [192, 255, 256, u32::MAX][way % 4];
    }
    if has(Column) {
        lent.column = [256, 257, 65536, u32::MAX][way % 4];
    }
    if has(Record) {
        wrong_record(&mut lent.records, way);
    }
    if has(LogRecord) {
        let mut records = lent.log[..lent.log.len() - 4].to_vec();
        wrong_record(&mut records, way);
        lent.log = with_trailer(&records);
    }
    if has(LogForm) {
        wrong_form(&mut lent.log, way);
    }
    wrong_lengths(harms, &mut lent, way);
    for (harm, slice) in [
        (Outcome, &mut lent.outcome),
        (Vram, &mut lent.vram),
        (BlockLength, &mut lent.block),
        (Line, &mut lent.line),
        (Origins, &mut lent.origins),
        (Map, &mut lent.map),
        (Frame, &mut lent.frame),
        (Notes, &mut lent.notes),
        (SnapshotLength, &mut lent.snapshot),
    ] {
        if has(harm) {
            wrong_length(slice, way);
        }
    }
    lent
}

/// A state in which every call but those that only ask would change something.
fn good() -> Lent {
    let mut lent = Lent::with_registers([0, 0x60, 1, 2, 3, 4, 5, 6]);
    lent.block[8..].copy_from_slice(&[0x34, 0x12, 0x56, 1, 0x81, 0xE7, 0, 0x9A, 0xBC]);
    lent.vram.fill(0x5A);
    lent.map.fill(0x01);
    lent.frame.fill(0xEE);
    lent.notes.fill(0xEE);
    lent.line.fill(0xEE);
    lent.origins.fill(0xEE);
    lent.number = 191;
    lent.column = 255;
    // Each operation, with every read as expected.
    lent.log = log_of(&[
        (0, 0x99),
        (2, 0x99),
        (3, 0xE7),
        (4, 191),
        (5, 0),
        (6, 0),
        (1, 0x87),
    ]);
    lent.records = vec![6, 0, 5, 0, 4, 0, 3, 7, 2, 7, 1, 7, 0, 7];
    lent
}

fn run(call: Call, lent: &mut Lent) -> u32 {
    match call {
        PowerUp => vdp_power_up(&mut lent.block, &mut lent.vram),
        ControlWrite => lent.control(0x87),
        DataWrite => lent.write(0x99),
        DataRead => lent.read(),
        StatusRead => vdp_status_read(&mut lent.block),
        EndOfDisplay => vdp_end_of_display(&mut lent.block),
        InterruptLine => vdp_interrupt_line(&lent.block),
        Reset => vdp_reset(&mut lent.block),
        DrawLine => lent.draw(lent.number),
        Point => lent.point(lent.number, lent.column),
        Origin => lent.origin(lent.number, lent.column),
        FullDraw => lent.full_draw(),
        Refresh => lent.refresh(),
        ReadSnapshot => lent.read_snapshot(),
        WriteSnapshot => lent.write_snapshot(),
        RunLog => lent.run_log(),
        ReadLog => lent.read_log(),
        WriteLog => lent.write_log(),
    }
}

/// The same call on a state struct.
fn run_direct(call: Call, state: &mut State, lent: &mut Lent) -> Answer {
    match call {
        PowerUp => power_up(state, &mut lent.vram),
        ControlWrite => control_write(state, &lent.vram, 0x87),
        DataWrite => data_write(state, &mut lent.vram, &mut lent.map, 0x99),
        DataRead => data_read(state, &lent.vram),
        StatusRead => status_read(state),
        EndOfDisplay => end_of_display(state),
        InterruptLine => interrupt_line(state),
        Reset => reset(state),
        DrawLine => {
            let Lent {
                vram,
                line,
                origins,
                number,
                ..
            } = lent;
            draw_line(state, vram, line, origins, *number)
        }
        Point => point(state, &lent.vram, lent.number, lent.column),
        Origin => origin(state, &lent.vram, lent.number, lent.column),
        FullDraw => {
            let Lent {
                vram,
                map,
                frame,
                notes,
                ..
            } = lent;
            full_draw(state, vram, map, frame, notes)
        }
        Refresh => {
            let Lent {
                vram,
                map,
                frame,
                notes,
                ..
            } = lent;
            refresh(state, vram, map, frame, notes)
        }
        ReadSnapshot => read_snapshot(state, &mut lent.vram, &lent.snapshot),
        WriteSnapshot => write_snapshot(state, &lent.vram, &mut lent.snapshot),
        RunLog => {
            let Lent {
                vram,
                map,
                line,
                log,
                ..
            } = lent;
            let ran = run_log(state, vram, map, line, log);
            if ran.answer.refusal == 0 {
                lent.outcome = ran.outcome().to_vec();
            } else {
                assert_eq!((ran.done, ran.place), (0, 0));
            }
            ran.answer
        }
        ReadLog => read_log(&lent.log, &mut lent.records),
        WriteLog => write_log(&lent.records, &mut lent.log),
    }
}

/// The number that goes first by the paper's order.
fn expected(harms: &[Harm]) -> u32 {
    [1, 2, 5, 6, 7, 3, 4, 13, 8, 9]
        .into_iter()
        .find(|&number| harms.iter().any(|&harm| refusal(harm) == number))
        .unwrap_or(0)
}

/// All choices of some of these harms.
fn choices(harms: &[Harm]) -> Vec<Vec<Harm>> {
    (0..1usize << harms.len())
        .map(|bits| {
            let chosen = |(at, harm): (usize, &Harm)| (bits & 1 << at != 0).then_some(*harm);
            harms.iter().enumerate().filter_map(chosen).collect()
        })
        .collect()
}

#[test]
fn every_choice_of_harms_over_blocks() {
    for call in CALLS {
        for harms in choices(&tested(call)) {
            for way in 0..WAYS {
                let before = harmed(&harms, way);
                let mut after = before.clone();
                let number = run(call, &mut after);
                if harms.is_empty() {
                    assert_eq!(number / 256, 0, "{call:?}");
                    break;
                }
                assert_eq!(number, 256 * expected(&harms), "{call:?} {harms:?} {way}");
                assert!(before == after, "{call:?} {harms:?} {way}");
            }
        }
    }
}

#[test]
fn every_choice_of_harms_directly() {
    for call in CALLS {
        let mut direct = tested(call);
        direct.retain(|&harm| harm != BlockLength && harm != Outcome);
        for harms in choices(&direct) {
            for way in 0..WAYS {
                let before = harmed(&harms, way);
                let mut after = before.clone();
                let given = if harms.contains(&Contents) {
                    ill_formed(way)
                } else {
                    good().state()
                };
                let mut state = given;
                let answer = run_direct(call, &mut state, &mut after);
                if harms.is_empty() {
                    assert_eq!(answer.refusal, 0, "{call:?}");
                    break;
                }
                assert_eq!(
                    answer.number(),
                    256 * expected(&harms),
                    "{call:?} {harms:?} {way}"
                );
                assert_eq!(state, given);
                assert!(before == after, "{call:?} {harms:?} {way}");
            }
        }
    }
}

/// A state that breaks one mask or has too high an address.
fn ill_formed(way: usize) -> State {
    let mut state = good().state();
    match way % 8 {
        0 => state.registers[0] |= 0x04,
        1 => state.registers[1] |= 0x04,
        2 => state.registers[2] |= 0x80,
        3 => state.registers[4] |= 0x08,
        4 => state.registers[5] |= 0x80,
        5 => state.registers[6] |= 0x10,
        6 => state.address = 16384,
        _ => state.address = 65535,
    }
    state
}

#[test]
fn direct_and_block_agree_when_accepted() {
    for call in CALLS {
        let mut by_block = good();
        let mut direct = good();
        let mut state = direct.state();
        let number = run(call, &mut by_block);
        assert_eq!(
            run_direct(call, &mut state, &mut direct).number(),
            number,
            "{call:?}"
        );
        assert_eq!(by_block.state(), state, "{call:?}");
        by_block.block = direct.block.clone();
        assert!(by_block == direct, "{call:?}");
    }
}

#[test]
fn a_redraw_mark_of_neither_0_nor_1() {
    for call in CALLS {
        for mark in [2, 128, 255] {
            let mut lent = good();
            lent.block[14] = mark;
            let before = lent.clone();
            let number = run(call, &mut lent);
            if [PowerUp, ReadSnapshot, ReadLog, WriteLog].contains(&call) {
                assert_eq!(number, 0);
            } else {
                assert_eq!(number, 3 * 256, "{call:?}");
                assert!(before == lent);
            }
        }
    }
}

#[test]
fn power_up_and_reading_take_any_old_state() {
    for way in 0..WAYS {
        let mut lent = harmed(&[Contents], way);
        assert_eq!(run(PowerUp, &mut lent), 0);
        let mut lent = harmed(&[Contents], way);
        assert_eq!(run(ReadSnapshot, &mut lent), 0);
        let mut state = ill_formed(way);
        assert_eq!(run_direct(PowerUp, &mut state, &mut lent).number(), 0);
        assert_eq!(state, State::at_power_up());
        let mut state = ill_formed(way);
        assert_eq!(run_direct(ReadSnapshot, &mut state, &mut lent).number(), 0);
    }
}

#[test]
fn a_block_with_a_waiting_zero_is_right() {
    let mut lent = good();
    lent.block[11] = 1;
    lent.block[12] = 0;
    assert_eq!(lent.state().waiting, Some(0));
    assert_eq!(run(StatusRead, &mut lent), 0xE7);
}
