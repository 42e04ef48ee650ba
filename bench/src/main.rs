//! How fast the library is, in multiples of filling a frame with memset. All in one run; best and
//! median of many.

mod c;
mod lines;
mod logs;
mod pictures;
mod points;
mod timing;

use difftest::library::{Calls, LIBRARY, REFERENCE};
use difftest::show;
use logs::{LOGS, RECORDS};
use pictures::{blank, picture, Change, Picture, CHANGES, LINES, MODES, SPRITES};
use points::{POINTS, READS};
use timing::{all_in_turn, in_turn, prepared_in_turn, time, Times};

const ROUNDS: usize = 2000;
const SLOW_ROUNDS: usize = 20;
const LINE_ROUNDS: usize = 1000;
const LOG_ROUNDS: usize = 500;
const POINT_ROUNDS: usize = 500;
const SHOWS: usize = 200;
const MEMSETS: usize = 16;

fn main() {
    let memset = draw_table();
    refresh_table(memset);
    port_table();
    line_table();
    point_table();
    log_table();
    show_table();
}

type Memset = unsafe extern "C" fn(*mut u8, i32, usize) -> *mut u8;

extern "C" {
    fn memset(to: *mut u8, byte: i32, length: usize) -> *mut u8;
}

/// C's memset over the frame, which a draw then fills again.
fn fill(picture: &mut Picture) {
    let known: Memset = memset;
    // Safety: a pointer with its length. Called by a value that the compiler cannot know, so that
    // it leaves no call out.
    unsafe { std::ptr::read_volatile(&known)(picture.frame.as_mut_ptr(), 0x55, picture.frame.len()) };
}

/// Draws the whole picture.
fn draw(calls: &Calls, picture: &mut Picture) {
    let Picture {
        block,
        vram,
        map,
        frame,
        notes,
        ..
    } = picture;
    assert_eq!((calls.full_draw)(block, vram, map, frame, notes), 0);
}

/// What a full draw is to take at most, in memsets of the frame: by mode, and by kind of sprites.
const DRAW_GOALS: [[f64; 3]; 4] = [[12.0, 21.0, 30.0], [15.0, 24.0, 33.0], [5.0, 14.0, 24.0], [9.0, 9.0, 9.0]];
const BLANK_GOAL: f64 = 3.0;

/// Answers memset's best time.
fn draw_table() -> f64 {
    println!("{:56}{:>8}{:>9}{:>15}{:>20}", "full draw, in memsets", "best", "median", "goal, at most", "reference/library");
    let mut best = f64::INFINITY;
    for (mode, mode_name) in MODES.into_iter().enumerate() {
        for (sprites, sprites_name) in SPRITES.into_iter().enumerate() {
            let title = format!("{mode_name}, {sprites_name}");
            best = best.min(draw_row(&title, picture(mode, sprites), DRAW_GOALS[mode][sprites]));
        }
    }
    best = best.min(draw_row("a blank screen", blank(), BLANK_GOAL));
    println!("memset of 49,152 bytes: best {best:.0} ns\n");
    best
}

fn draw_row(title: &str, mut drawn: Picture, goal: f64) -> f64 {
    let (times, memset) = in_turn(ROUNDS, &mut drawn, |drawn| draw(&LIBRARY, drawn), fill, MEMSETS);
    let slow = time(SLOW_ROUNDS, 1, || draw(&REFERENCE, &mut drawn));
    println!(
        "{title:56}{:>8.1}{:>9.1}{goal:>15.1}{:>20.1}",
        times.best / memset.best,
        times.median / memset.median,
        slow.best / times.best
    );
    memset.best
}

/// Refreshes, and counts the lines.
fn refresh(calls: &Calls, picture: &mut Picture) {
    let Picture {
        block,
        vram,
        map,
        frame,
        notes,
        lines,
    } = picture;
    *lines = (calls.refresh)(block, vram, map, frame, notes);
    assert!(*lines <= 192);
}

/// What a refresh is to take at most, in memsets or in full draws, where there is a goal.
fn refresh_goal(mode: usize, sprites: usize, change: usize) -> String {
    match (CHANGES[change].1, sprites) {
        (Change::Nothing, _) => "0.5 memsets".to_owned(),
        (Change::Unread, _) => "0.9 memsets".to_owned(),
        (Change::Names(1) | Change::Pattern, 0) => "2.5 memsets".to_owned(),
        (Change::Sprite, 1) if mode != 3 => "5 memsets".to_owned(),
        (Change::Everything, _) => "1.1 full draws".to_owned(),
        _ => "-".to_owned(),
    }
}

fn refresh_table(memset: f64) {
    println!(
        "{:64}{:>6}{:>9}{:>15}{:>18}{:>20}",
        "refresh, in memsets", "lines", "best", "in full draws", "goal, at most", "reference/library"
    );
    for (mode, mode_name) in MODES.into_iter().enumerate() {
        for (sprites, sprites_name) in SPRITES.into_iter().enumerate() {
            for (change, (name, _)) in CHANGES.into_iter().enumerate() {
                let title = format!("{mode_name}, {sprites_name}: {name}");
                let goal = refresh_goal(mode, sprites, change);
                refresh_row(&title, picture(mode, sprites), mode, change, memset, &goal);
            }
        }
    }
    println!("room that a full draw or a refresh has on the stack for its tables: {TABLES} bytes\n");
}

/// The masks, the words of single bytes, the colours, the sets of sprites (those of the refresh's test too), eight lines, and the
/// rows' bits.
const TABLES: usize = 8 * 256 + 8 * 256 + 8 * 16 + 2 * 4 * 192 + 8 * 256 + 2 * 24;

fn refresh_row(title: &str, mut drawn: Picture, mode: usize, change: usize, memset: f64, goal: &str) {
    draw(&LIBRARY, &mut drawn);
    let prepare = |drawn: &mut Picture| drawn.change(mode, change);
    let whole = |drawn: &mut Picture| draw(&LIBRARY, drawn);
    let slow = |drawn: &mut Picture| refresh(&REFERENCE, drawn);
    let (slow, _) = prepared_in_turn(SLOW_ROUNDS, &mut drawn, prepare, slow, whole);
    let ours = |drawn: &mut Picture| refresh(&LIBRARY, drawn);
    let (times, whole) = prepared_in_turn(ROUNDS, &mut drawn, prepare, ours, whole);
    println!(
        "{title:64}{:>6}{:>9.2}{:>15.4}{goal:>18}{:>20.1}",
        drawn.lines,
        times.best / memset,
        times.best / whole.best,
        slow.best / times.best
    );
}

fn port_table() {
    println!("{:56}{:>8}{:>9}{:>20}", "ports, in nanoseconds", "best", "median", "reference/library");
    for (name, port) in [
        ("data write", data_write as Port),
        ("pair of control writes", control_pair),
    ] {
        let mut lent = picture(0, 0);
        let times = time(ROUNDS, 1000, || port(&LIBRARY, &mut lent));
        let slow = time(ROUNDS, 100, || port(&REFERENCE, &mut lent));
        println!("{name:56}{:>8.1}{:>9.1}{:>20.1}", times.best, times.median, slow.best / times.best);
    }
    println!();
}

type Port = fn(&Calls, &mut Picture);

fn data_write(calls: &Calls, lent: &mut Picture) {
    (calls.data_write)(&mut lent.block, &mut lent.vram, &mut lent.map, 0x55);
}

fn control_pair(calls: &Calls, lent: &mut Picture) {
    (calls.control_write)(&mut lent.block, &lent.vram, 0x34);
    (calls.control_write)(&mut lent.block, &lent.vram, 0x52);
}

/// A line with its origins, and its colours alone in two ways, in turn.
fn line_table() {
    println!(
        "{:56}{:>8}{:>9}{:>11}{:>13}{:>14}",
        "lines with origins from C, in nanoseconds", "best", "median", "in a log", "in a frame", "to the log's"
    );
    for (mode, mode_name) in MODES.into_iter().enumerate() {
        for (sprites, sprites_name) in SPRITES.into_iter().enumerate().take(2) {
            let ways = [
                lines::with_origins,
                lines::by_log,
                lines::by_empty_log,
                lines::by_full_draw,
            ];
            let [line, log, empty, whole] = all_in_turn(LINE_ROUNDS, &mut lines::bench(mode, sprites), ways);
            let each = |nanoseconds: f64| nanoseconds / LINES as f64;
            println!(
                "{:56}{:>8.1}{:>9.1}{:>11.1}{:>13.1}{:>14.2}",
                format!("{mode_name}, {sprites_name}"),
                each(line.best),
                each(line.median),
                each(log.best - empty.best),
                each(whole.best),
                line.best / (log.best - empty.best)
            );
        }
    }
    println!("in a log, in a frame: the colours alone, which no call from C draws; best times, a 192nd each of the run of a");
    println!("log that draws every line, less the run of an empty log, and of a full draw\n");
}

/// What a point's colour is to take at most, without sprites and with 32.
const POINT_GOALS: [&str; 2] = ["3 data reads", "1 line"];

/// A point's colour, its origin, a data read and the lines of a full draw, in turn.
fn point_table() {
    println!(
        "{:48}{:>8}{:>9}{:>11}{:>9}{:>12}{:>10}{:>16}",
        "points from C, in nanoseconds", "best", "median", "data read", "line", "in reads", "in lines", "goal, at most"
    );
    for (mode, mode_name) in MODES.into_iter().enumerate() {
        for (sprites, goal) in POINT_GOALS.into_iter().enumerate() {
            let calls = [points::points, points::origins, points::reads, points::lines];
            let [colour, origin, read, line] = all_in_turn(POINT_ROUNDS, &mut points::bench(mode, sprites), calls);
            let title = format!("{mode_name}, {}", SPRITES[sprites]);
            point_row(&title, &colour, &read, &line, goal);
            point_row("  its origin", &origin, &read, &line, "-");
        }
    }
    println!();
}

/// Behind the times, the best one in those of a data read and of a line, and the goal.
fn point_row(title: &str, point: &Times, read: &Times, line: &Times, goal: &str) {
    let (best, read, line) = (point.best / POINTS as f64, read.best / READS as f64, line.best / LINES as f64);
    println!(
        "{title:48}{best:>8.2}{:>9.2}{read:>11.2}{line:>9.1}{:>12.2}{:>10.3}{goal:>16}",
        point.median / POINTS as f64,
        best / read,
        best / line
    );
}

/// A log's run and the same calls made singly, in turn. The last column is to be at most 1.
fn log_table() {
    println!(
        "{:56}{:>8}{:>9}{:>13}{:>9}{:>13}",
        "logs of 20,000, in nanoseconds a record", "best", "median", "singly best", "median", "run/singly"
    );
    for (name, log, singly) in LOGS {
        let (times, single) = in_turn(LOG_ROUNDS, &mut log(), logs::run, singly, 1);
        let each = |nanoseconds: f64| nanoseconds / RECORDS as f64;
        println!(
            "{name:56}{:>8.2}{:>9.2}{:>13.2}{:>9.2}{:>13.2}",
            each(times.best),
            each(times.median),
            each(single.best),
            each(single.median),
            times.best / single.best
        );
    }
    println!();
}

const SAMPLES: [&str; 4] = ["graphics1", "graphics2", "multicolor", "text"];

/// The whole program: its start, reading, drawing and printing. A refused input has the start alone.
fn show_table() {
    println!("{:56}{:>8}{:>9}", "show, in milliseconds", "best", "median");
    for name in SAMPLES {
        let path = format!("{}/../samples/{name}.snap", env!("CARGO_MANIFEST_DIR"));
        let snapshot = std::fs::read(&path).unwrap_or_else(|error| panic!("{path}: {error}"));
        assert_eq!(snapshot.len(), 16406, "{path}");
        show_row(&format!("samples/{name}.snap"), &snapshot);
    }
    show_row("nothing, refused", &[]);
}

fn show_row(name: &str, input: &[u8]) {
    let times = time(SHOWS, 1, || assert!(show::text(input).is_ok()));
    println!("{name:56}{:>8.2}{:>9.2}", times.best / 1e6, times.median / 1e6);
}
