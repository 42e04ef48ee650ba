//! Drawing into lent slices: one line, all lines, or the lines due.

use std::ops::Range;

use crate::faults::{self, planted};
use crate::line::{
    fetches, mode, note_coincidence, note_fifth, picture, status_after, status_with_fifth, Mode,
    Picture,
};
use crate::refusal::{self, refused, Answer};
use crate::state::{
    byte_at, map_has, put_at, State, C, FRAME_BYTES, LINES, LINE_BYTES, MAP_BYTES, NOTE_BYTES,
    VRAM_BYTES,
};
use crate::tables::tables;

/// Draws one line into the lent 256 bytes, its origins into 256 more, and
/// updates status from it.
pub fn draw_line(
    state: &mut State,
    vram: &[u8],
    line: &mut [u8],
    origins: &mut [u8],
    number: u32,
) -> Answer {
    if let Some(no) = refused(&[
        (refusal::VRAM, vram.len() != VRAM_BYTES),
        (refusal::SLICE, line.len() != LINE_BYTES),
        (refusal::SLICE, origins.len() != LINE_BYTES),
        (refusal::STATE, !state.is_well_formed()),
        (refusal::LINE, number > 191),
    ]) {
        return no;
    }
    let picture = picture(state, vram, (number % 256) as u8);
    line.copy_from_slice(&picture.colours);
    origins.copy_from_slice(&picture.origins);
    state.status = status_after(state.status, picture.note);
    Answer::accepted(0)
}

/// The tests that full draw and refresh share.
fn refused_frame(
    state: &State,
    vram: &[u8],
    map: &[u8],
    frame: &[u8],
    notes: &[u8],
) -> Option<Answer> {
    refused(&[
        (refusal::VRAM, vram.len() != VRAM_BYTES),
        (refusal::SLICE, map.len() != MAP_BYTES),
        (refusal::SLICE, frame.len() != FRAME_BYTES),
        (refusal::SLICE, notes.len() != NOTE_BYTES),
        (refusal::STATE, !state.is_well_formed()),
    ])
}

/// Draws all lines and notes in order, with status going along, and leaves
/// the map and the redraw mark clear.
pub fn full_draw(
    state: &mut State,
    vram: &[u8],
    map: &mut [u8],
    frame: &mut [u8],
    notes: &mut [u8],
) -> Answer {
    if let Some(no) = refused_frame(state, vram, map, frame, notes) {
        return no;
    }
    for number in 0..LINES {
        let note = write_line(state, vram, frame, notes, number);
        state.status = status_after(state.status, note);
    }
    if !planted(faults::FULL_DRAW_KEEPS_MAP) {
        map.fill(0);
    }
    state.redraw = false;
    Answer::accepted(0)
}

/// Puts one line's colours and note in their places; gives the note.
fn write_line(state: &State, vram: &[u8], frame: &mut [u8], notes: &mut [u8], number: usize) -> u8 {
    let Picture { colours, note, .. } = picture(state, vram, number as u8);
    for (x, colour) in colours.into_iter().enumerate() {
        put_at(frame, 256 * number + x, colour);
    }
    put_at(notes, number, note);
    note
}

/// A line is due with the redraw mark set or a fetched byte in the map.
pub fn is_due(state: &State, vram: &[u8], map: &[u8], number: usize) -> bool {
    let fetched = fetches(state, vram, number as u8);
    state.redraw || fetched.into_iter().any(|at| is_marked(state, map, at))
}

/// A fetched byte is marked when it is in the map, but for the planted mistakes.
fn is_marked(state: &State, map: &[u8], at: usize) -> bool {
    let marked = map_has(map, at);
    if !faults::OF_MARKS.contains(&faults::number()) {
        return marked;
    }
    let tables = tables(state);
    let is_any = |mut bytes: Range<usize>| bytes.any(|at| map_has(map, at));
    // A table is taken as not marked where its last byte alone is.
    let is_beside_last =
        |table: Range<usize>| !table.contains(&at) || is_any(table.start..table.end - 1);
    match faults::number() {
        faults::COLOURS_NOT_ALONE if tables.colours.contains(&at) => {
            marked && (is_any(tables.names) || is_any(tables.patterns))
        }
        faults::SPRITE_PATTERNS_NOT_ALONE if tables.sprite_patterns.contains(&at) => {
            marked && is_any(tables.attributes)
        }
        faults::LAST_PATTERN_BYTE => marked && is_beside_last(tables.patterns),
        faults::LAST_ATTRIBUTE => marked && is_beside_last(tables.attributes),
        faults::LAST_SPRITE_PATTERN_BYTE => marked && is_beside_last(tables.sprite_patterns),
        faults::SPRITE_COLOUR_FORGOTTEN if tables.attributes.contains(&at) => marked && at % 4 != 3,
        faults::ALL_EIGHT_BYTES
            if mode(state) == Mode::Multicolor && tables.patterns.contains(&at) =>
        {
            is_any(at / 8 * 8..at / 8 * 8 + 8)
        }
        _ => marked,
    }
}

/// Redraws the lines due and no other, then takes status from all the notes,
/// clears map and redraw mark and answers how many lines were due.
pub fn refresh(
    state: &mut State,
    vram: &[u8],
    map: &mut [u8],
    frame: &mut [u8],
    notes: &mut [u8],
) -> Answer {
    if let Some(no) = refused_frame(state, vram, map, frame, notes) {
        return no;
    }
    let mut due = [false; LINES];
    for (number, due) in due.iter_mut().enumerate() {
        *due = is_due(state, vram, map, number);
    }
    let before = (frame.to_vec(), notes.to_vec());
    let redrawn = redrawn(state, due);
    for number in (0..LINES).filter(|&number| redrawn[number]) {
        write_line(state, vram, frame, notes, number);
    }
    if planted(faults::NOTE_NOT_WRITTEN) {
        notes.copy_from_slice(&before.1);
    }
    state.status = status_from_notes(state.status, notes, &due);
    if !planted(faults::REFRESH_KEEPS_MAP) {
        map.fill(0);
    }
    state.redraw = state.redraw && planted(faults::REFRESH_KEEPS_MARK);
    let count = if planted(faults::COUNT_OF_CHANGED) {
        let (old, new) = (before.0.chunks(LINE_BYTES), frame.chunks(LINE_BYTES));
        old.zip(new).filter(|(old, new)| old != new).count()
    } else {
        due.into_iter().filter(|&due| due).count()
    };
    Answer::accepted(count as u8)
}

/// The lines due are redrawn, but for four of the planted mistakes.
fn redrawn(state: &State, mut due: [bool; LINES]) -> [bool; LINES] {
    for row in due.chunks_mut(8) {
        let count = row.iter().filter(|&&due| due).count();
        match (faults::number(), count) {
            (faults::ALL_REDRAWN, _) => row.fill(true),
            (faults::REFRESH_ONLY_COUNTS, _) => row.fill(state.redraw),
            (faults::ONE_LINE_TOO_FAR, 1) => row.rotate_right(1),
            (faults::ROW_REDRAWN_WHOLE, 2..=7) => row.fill(true),
            _ => {}
        }
    }
    due
}

/// Status goes through the notes of all lines in order, redrawn or kept.
fn status_from_notes(status: u8, notes: &[u8], due: &[bool; LINES]) -> u8 {
    let mut status = status;
    for (number, &due) in due.iter().enumerate() {
        let note = byte_at(notes, number);
        status = if planted(faults::FIFTH_FROM_REDRAWN) {
            status_fifth_from_due(status, note, due)
        } else {
            status_after(status, note)
        };
    }
    status
}

/// The planted mistake: 5S from this note only when its line was due.
fn status_fifth_from_due(status: u8, note: u8, due: bool) -> u8 {
    let fifth = if due { note_fifth(note) } else { None };
    let status = status_with_fifth(status, fifth);
    if note_coincidence(note) {
        status | C
    } else {
        status
    }
}
