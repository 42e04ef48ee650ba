//! The text that shows a snapshot.

use crate::frame::draw_line;
use crate::snapshot::read_snapshot;
use crate::state::{State, LINES, LINE_BYTES, VRAM_BYTES};

/// Neighbouring lines with the same colours.
struct Range {
    first: usize,
    last: usize,
    colours: [u8; LINE_BYTES],
}

/// The whole text for a snapshot, or the refusal.
pub fn show(snapshot: &[u8]) -> String {
    let mut state = State::default();
    let mut vram = vec![0; VRAM_BYTES];
    let answer = read_snapshot(&mut state, &mut vram, snapshot);
    if answer.refusal != 0 {
        return format!("refused {}\n", answer.refusal);
    }
    let before = state.status;
    let ranges = draw_ranges(&mut state, &vram);
    let mut text = format!("status {:02X} {:02X}\n", before, state.status);
    for range in &ranges {
        text += &range_text(range);
    }
    text
}

/// Draws the lines in order and joins each with the one before when equal.
fn draw_ranges(state: &mut State, vram: &[u8]) -> Vec<Range> {
    let mut ranges: Vec<Range> = Vec::new();
    for number in 0..LINES {
        let mut colours = [0; LINE_BYTES];
        draw_line(
            state,
            vram,
            &mut colours,
            &mut [0; LINE_BYTES],
            number as u32,
        );
        match ranges.last_mut() {
            Some(range) if range.colours == colours => range.last = number,
            _ => ranges.push(Range {
                first: number,
                last: number,
                colours,
            }),
        }
    }
    ranges
}

/// One text line: the range, then its runs.
fn range_text(range: &Range) -> String {
    let mut text = format!("lines {}-{}", range.first, range.last);
    for (count, colour) in runs(&range.colours) {
        text += &format!(" {count}*{colour}");
    }
    text + "\n"
}

/// The colours as counts, as long as each can be.
fn runs(colours: &[u8]) -> Vec<(usize, u8)> {
    let mut runs: Vec<(usize, u8)> = Vec::new();
    for &colour in colours {
        match runs.last_mut() {
            Some((count, same)) if *same == colour => *count += 1,
            _ => runs.push((1, colour)),
        }
    }
    runs
}
