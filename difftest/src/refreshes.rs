//! Random lists with few writes between refreshes, each aimed at a table of the mode, mostly over a picture that no draw
//! has left; and what those refreshes found marked and redrew.

use crate::calls::{Call, Case, Step};
use crate::random::Random;
use crate::scenes;
use reference::block::read_block;
use reference::line::{fetches, mode, Mode};
use reference::state::map_has;
use reference::tables::{tables, Tables};
use reference::State;
use std::ops::Range;

/// The modes in the order of their counts.
const MODES: [&str; 5] = ["Graphics I", "Graphics II", "Multicolor", "Text", "blank"];

/// What marked bytes can be of, where all are of one: a table or a fourth of the attributes, no table, or no byte at all.
const PARTS: [&str; 10] = [
    "names",
    "patterns",
    "colours",
    "Y",
    "X",
    "sprites' names",
    "sprites' colours",
    "sprite patterns",
    "no table",
    "nothing",
];
const Y: usize = 3;
const SPRITE_PATTERNS: usize = 7;
const NO_TABLE: usize = 8;
const NOTHING: usize = 9;

/// What a refresh can find: refreshes by their lines, and rows of eight lines by how many of them are due.
const FOUND: [&str; 5] = [
    "without a line",
    "with lines",
    "rows of one",
    "rows of several",
    "whole rows",
];

/// Stretches of tables with an end that matters. In Graphics II those of a whole table are of its top third.
const STRETCHES: [&str; 10] = [
    "first row of names",
    "last row of names",
    "patterns",
    "patterns of the middle",
    "patterns of the bottom",
    "colours",
    "colours of the middle",
    "colours of the bottom",
    "attributes",
    "sprite patterns",
];

/// The bytes at the ends of a stretch.
const ENDS: [&str; 4] = ["before", "first", "last", "behind"];

/// Refreshes over a foreign picture, by mode.
#[derive(Default)]
pub struct Refreshes {
    /// Those with marks in one part alone.
    alone: [[[u64; FOUND.len()]; PARTS.len()]; MODES.len()],
    /// Those with one byte marked, at an end; the first and the last byte count only with a line due.
    ends: [[[u64; ENDS.len()]; STRETCHES.len()]; MODES.len()],
}

impl Refreshes {
    /// Counts a refresh by the map before it, and by the lines after it that are no longer foreign.
    pub fn count(&mut self, block: &[u8], map: &[u8], frame: &[u8], foreign: u8) {
        let Some(state) = read_block(block).filter(|state| !state.redraw) else {
            return;
        };
        let place = place(&state);
        let due: Vec<bool> = frame.chunks(256).map(|line| line[0] != foreign).collect();
        let is_due = due.contains(&true);
        let marked: Vec<usize> = (0..16384).filter(|&at| map_has(map, at)).collect();
        if let Some(part) = only_part(&tables(&state), &marked) {
            let counts = &mut self.alone[place][part];
            counts[usize::from(is_due)] += 1;
            for row in due.chunks(8) {
                match row.iter().filter(|&&due| due).count() {
                    0 => {}
                    1 => counts[2] += 1,
                    8 => counts[4] += 1,
                    _ => counts[3] += 1,
                }
            }
        }
        let &[at] = &marked[..] else {
            return;
        };
        for (stretch, bytes) in stretches(&state).into_iter().enumerate() {
            for (end, _) in ends(&bytes).into_iter().enumerate().filter(|&(_, end)| end == at) {
                let is_inside = end == 1 || end == 2;
                self.ends[place][stretch][end] += u64::from(!bytes.is_empty() && (is_due || !is_inside));
            }
        }
    }

    /// For each mode what can be reached there, and how often it was.
    pub fn each(&self) -> Vec<(String, Vec<(String, u64)>)> {
        let mut each: Vec<(String, Vec<(String, u64)>)> = Vec::new();
        for (place, mode) in MODES.into_iter().enumerate() {
            let parts = PARTS.into_iter().zip(self.alone[place]).enumerate();
            let alone = parts.flat_map(|(part, (name, counts))| {
                let possible = can_find(place, part).iter();
                possible.map(move |&found| (format!("{name} {}", FOUND[found]), counts[found]))
            });
            each.push((format!("{mode}, marked alone"), alone.collect()));
            let stretches = STRETCHES.into_iter().zip(self.ends[place]).enumerate();
            let ends = stretches.filter(|&(stretch, _)| can_have(place, stretch));
            let ends = ends.flat_map(|(_, (name, counts))| {
                let ends = ENDS.into_iter().zip(counts);
                ends.map(move |(end, count)| (format!("{name} {end}"), count))
            });
            each.push((format!("{mode}, the only byte marked"), ends.collect()));
        }
        each.retain(|(_, counts)| !counts.is_empty());
        each
    }
}

/// Its place in MODES.
fn place(state: &State) -> usize {
    match mode(state) {
        Mode::GraphicsOne => 0,
        Mode::GraphicsTwo => 1,
        Mode::Multicolor => 2,
        Mode::Text => 3,
        Mode::Blank => 4,
    }
}

/// Which of FOUND there are with marks in one part alone. A name is read by the eight lines of a row, as is a colour byte
/// of Graphics I, and a pattern byte in Multicolor by four of them.
fn can_find(place: usize, part: usize) -> &'static [usize] {
    match (place, part) {
        (_, NO_TABLE | NOTHING) => &[0],
        (4, _) => &[],
        (_, 0) => &[1, 4],
        (2, 1) => &[0, 1, 3, 4],
        (0, 2) => &[0, 1, 4],
        (2 | 3, 2) | (3, Y..=SPRITE_PATTERNS) => &[],
        _ => &[0, 1, 2, 3, 4],
    }
}

/// Whether a mode has one of STRETCHES.
fn can_have(place: usize, stretch: usize) -> bool {
    match stretch {
        0..=2 => place < 4,
        3 | 4 | 6 | 7 => place == 1,
        5 => place < 2,
        _ => place < 3,
    }
}

/// The parts that a byte is of, as bits: more than one where tables lie on each other.
fn parts(tables: &Tables, at: usize) -> u32 {
    let bit = |table: &Range<usize>, part: usize| u32::from(table.contains(&at)) << part;
    let parts = bit(&tables.names, 0)
        | bit(&tables.patterns, 1)
        | bit(&tables.colours, 2)
        | bit(&tables.attributes, Y + at % 4)
        | bit(&tables.sprite_patterns, SPRITE_PATTERNS);
    if parts == 0 {
        1 << NO_TABLE
    } else {
        parts
    }
}

/// The part that all of these bytes are of, and of no other.
fn only_part(tables: &Tables, marked: &[usize]) -> Option<usize> {
    let all = marked.iter().fold(0, |all, &at| all | parts(tables, at));
    match all.count_ones() {
        0 => Some(NOTHING),
        1 => Some(all.trailing_zeros() as usize),
        _ => None,
    }
}

/// STRETCHES in this state, empty where the mode does not have them.
fn stretches(state: &State) -> [Range<usize>; STRETCHES.len()] {
    let tables = tables(state);
    let row = match mode(state) {
        Mode::Blank => 0,
        Mode::Text => 40,
        _ => 32,
    };
    let third = |table: &Range<usize>, number: usize| {
        let start = table.start + 2048 * number;
        start.min(table.end)..(start + 2048).min(table.end)
    };
    [
        tables.names.start..tables.names.start + row,
        tables.names.end - row..tables.names.end,
        third(&tables.patterns, 0),
        third(&tables.patterns, 1),
        third(&tables.patterns, 2),
        third(&tables.colours, 0),
        third(&tables.colours, 1),
        third(&tables.colours, 2),
        tables.attributes,
        tables.sprite_patterns,
    ]
}

/// The bytes at the ends, round at the ends of VRAM.
fn ends(bytes: &Range<usize>) -> [usize; ENDS.len()] {
    [bytes.start + 16383, bytes.start, bytes.end + 16383, bytes.end].map(|at| at % 16384)
}

/// The modes come round: most often Graphics II, which has the most ends.
const ORDER: [usize; 12] = [0, 1, 2, 3, 1, 4, 0, 1, 2, 1, 5, 3];

/// Refreshes of a list over its own frame, and over a foreign one.
const OWN: usize = 4;
const FOREIGN: usize = 32;

/// A list of refreshes with few writes between them, all of them accepted.
pub fn case(seed: u64, number: u64) -> Case {
    // The seed and the numbers of no other case.
    let mut random = Random::new(!seed, !number);
    let (block, vram) = picture(&mut random, ORDER[number as usize % ORDER.len()]);
    let state = read_block(&block).unwrap_or_default();
    let mut writer = Writer {
        tables: tables(&state),
        state,
        vram: vram.clone(),
        random,
        steps: vec![Call::Refresh.into()],
    };
    for turn in 0..OWN + FOREIGN {
        writer.bunch();
        writer.refresh(turn >= OWN);
    }
    Case {
        block,
        vram,
        map: vec![0; 2048],
        notes: vec![0xA0; 192],
        logs: Vec::new(),
        steps: writer.steps,
    }
}

/// What a list's pictures are like.
pub fn name(number: u64) -> &'static str {
    scenes::MODES[ORDER[number as usize % ORDER.len()]]
}

/// A block with the redraw mark set, and VRAM: tables apart or on each other, with names and sprites that lead to the
/// ends of tables.
fn picture(random: &mut Random, mode: usize) -> (Vec<u8>, Vec<u8>) {
    let kind = random.pick(&[1, 2, 3, 4, 5, 6, 6, 6]);
    let mut block = registers(random, mode, kind);
    block[11..=12].fill(0);
    block[14] = 1;
    let mut vram = vec![0; 16384];
    scenes::fill(random, &mut vram, kind);
    let state = read_block(&block).unwrap_or_default();
    let names = tables(&state).names;
    // Pictures of few patterns have each on many rows.
    let few = random.one_in(3);
    for at in names {
        vram[at] = match random.below(16) {
            0 => 0,
            1 => 255,
            _ if few => 8 * (vram[at] % 8),
            _ => vram[at],
        };
    }
    scenes::sprites(random, &block, &mut vram, kind);
    let attributes = usize::from(block[5]) * 128;
    let (way, end, from) = (random.below(8), random.below(6), random.byte() | 1);
    let end = random.pick(&[0, end, end, 32, 32, 32]);
    for (number, sprite) in vram[attributes..attributes + 128].chunks_mut(4).enumerate() {
        match way {
            // None on the screen.
            0 => sprite[0] = 192 + random.below(16) as u8,
            // One below the other: all are drawn, the last one too.
            1 | 2 => sprite[0] = from.wrapping_add(8 * number as u8),
            _ if number == end => sprite[0] = 208,
            _ => {}
        }
        if random.one_in(3) {
            sprite[2] = random.pick(&[0, 255]);
        }
    }
    (block, vram)
}

/// Registers of a mode; in three of four pictures no two of its tables share a byte.
fn registers(random: &mut Random, mode: usize, kind: usize) -> Vec<u8> {
    if random.one_in(4) {
        return scenes::block(random, mode, 7);
    }
    loop {
        let block = scenes::block(random, mode, kind);
        let tables = tables(&read_block(&block).unwrap_or_default());
        // No table begins or ends between these.
        let mut bytes = (0..16384).step_by(32);
        if bytes.all(|at| parts(&tables, at).count_ones() == 1) {
            return block;
        }
    }
}

/// Makes a list; knows VRAM as it is.
struct Writer {
    random: Random,
    state: State,
    tables: Tables,
    vram: Vec<u8>,
    steps: Vec<Step>,
}

impl Writer {
    /// Writes of one kind: none, one at an end of a table, one to three of a part, one to three of any, eight in a row, one
    /// behind the terminator, or those that move it.
    fn bunch(&mut self) {
        let (part, count) = (self.part(), 1 + self.random.below(3));
        match self.random.below(32) {
            0 => {}
            1..=12 => self.write_end(),
            13..=18 => self.write_part(part, 1),
            19..=22 => (0..count).for_each(|_| self.write_part(part, 1)),
            23..=24 => {
                for _ in 0..count {
                    let part = self.part();
                    self.write_part(part, 1);
                }
            }
            25..=27 => self.write_part(part, 8),
            28..=29 => self.write_behind_terminator(),
            _ => self.move_terminator(),
        }
    }

    /// A refresh, over a foreign picture or the one that is there.
    fn refresh(&mut self, is_foreign: bool) {
        if self.random.one_in(2) {
            let status = scenes::status(&mut self.random);
            self.steps.push(Call::PutStatus(status).into());
        }
        if is_foreign {
            let (frame, note) = (16 + self.random.below(240) as u8, self.random.byte());
            let note = self.random.pick(&[0x20, 0xA0, 0xBF, note]);
            self.steps.push(Call::PutPicture(frame, note).into());
        }
        self.steps.push(Call::Refresh.into());
    }

    /// A part that the mode has, or no table.
    fn part(&mut self) -> usize {
        let place = place(&self.state);
        let parts: Vec<usize> = (0..NOTHING).filter(|&part| !can_find(place, part).is_empty()).collect();
        self.random.pick(&parts)
    }

    /// Writes one byte at an end of a stretch that the mode has, or of no table.
    fn write_end(&mut self) {
        let place = place(&self.state);
        let have: Vec<usize> = (0..STRETCHES.len())
            .filter(|&stretch| can_have(place, stretch))
            .collect();
        if have.is_empty() {
            return self.write_part(NO_TABLE, 1);
        }
        let bytes = &stretches(&self.state)[self.random.pick(&have)];
        let at = self.random.pick(&ends(bytes));
        self.write(at, 1);
    }

    /// Writes bytes from one of the part on; several mostly from the start of a pattern.
    fn write_part(&mut self, part: usize, count: usize) {
        let at = self.address(part);
        let at = if count > 1 && !self.random.one_in(3) {
            at / 8 * 8
        } else {
            at
        };
        self.write(at, count);
    }

    /// A byte of the part, mostly one that some line reads.
    fn address(&mut self, part: usize) -> usize {
        let tries = self.random.pick(&[0, 8, 8, 8]);
        for _ in 0..tries {
            let line = self.random.below(192) as u8;
            let read = fetches(&self.state, &self.vram, line);
            let read: Vec<usize> = read.into_iter().filter(|&at| self.is_of(part, at)).collect();
            if !read.is_empty() {
                return self.random.pick(&read);
            }
        }
        let all: Vec<usize> = (0..16384).filter(|&at| self.is_of(part, at)).collect();
        // Of no table here, and of one in another mode.
        let others = self.tables_of_another_mode();
        let elsewhere = |at: &usize| part == NO_TABLE && parts(&others, *at) != 1 << NO_TABLE;
        let some: Vec<usize> = all.iter().copied().filter(elsewhere).collect();
        let from = if some.is_empty() || tries == 0 { all } else { some };
        self.random.pick(&from)
    }

    fn is_of(&self, part: usize, at: usize) -> bool {
        parts(&self.tables, at) >> part & 1 == 1
    }

    fn tables_of_another_mode(&mut self) -> Tables {
        let mut state = self.state;
        let (m3, m12) = self.random.pick(&[(0, 0), (2, 0), (0, 8), (0, 16)]);
        state.registers[0] = m3;
        state.registers[1] = 0x40 | m12;
        tables(&state)
    }

    /// Where the list of sprites ends, if not at its last one.
    fn terminator(&self) -> Option<usize> {
        let mut ys = self.tables.attributes.clone().step_by(4);
        ys.find(|&at| self.vram[at] == 208)
    }

    /// Ends the list of sprites elsewhere.
    fn move_terminator(&mut self) {
        if let Some(at) = self.terminator() {
            let y = self.random.byte();
            self.write_bytes(at, &[y]);
        }
        let Range { start, end } = self.tables.attributes;
        if start < end && !self.random.one_in(4) {
            let sprite = self.random.below(32);
            self.write_bytes(start + 4 * sprite, &[208]);
        }
    }

    /// Writes a Y, or another attribute, behind the terminator.
    fn write_behind_terminator(&mut self) {
        let behind = self.terminator().map_or(0..0, |at| at + 4..self.tables.attributes.end);
        let part = self.random.pick(&[0, 0, 0, 1, 2, 3]);
        if !behind.is_empty() {
            let sprite = self.random.below(behind.len() / 4);
            self.write(behind.start + 4 * sprite + part, 1);
        }
    }

    /// Writes bytes that are often those that are there.
    fn write(&mut self, at: usize, count: usize) {
        let bytes: Vec<u8> = (at..at + count).map(|at| self.byte(at % 16384)).collect();
        self.write_bytes(at, &bytes);
    }

    fn byte(&mut self, at: usize) -> u8 {
        let (here, byte) = (self.vram[at], self.random.byte());
        let is_y = self.is_of(Y, at);
        match self.random.below(8) {
            0..=1 => here,
            2 => self.random.pick(&[0, 255]),
            3 if is_y => 208,
            4..=5 if is_y => here.wrapping_add(self.random.pick(&[1, 255, 8, 248])),
            _ => byte,
        }
    }

    fn write_bytes(&mut self, at: usize, bytes: &[u8]) {
        let [low, high] = (at as u16).to_le_bytes();
        let calls = [Call::ControlWrite(low), Call::ControlWrite(0x40 | high)];
        let writes = bytes.iter().map(|&byte| Call::DataWrite(byte));
        self.steps.extend(calls.into_iter().chain(writes).map(Step::from));
        for (by, &byte) in bytes.iter().enumerate() {
            self.vram[(at + by) % 16384] = byte;
        }
    }
}
