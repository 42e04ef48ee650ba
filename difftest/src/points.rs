//! Points: the library's colour and origin beside the line that it draws itself, and in memories that agree only where
//! the point looks; and random cases of points.

use crate::calls::{Call, Case};
use crate::library::{Calls, LIBRARY, REFERENCE};
use crate::lists::{made_in, place, Maker};
use crate::logs::Host;
use crate::random::Random;
use crate::scenes::{KINDS, MODES};
use reference::block::read_block;
use reference::line::{mode, Mode};
use reference::point::{fetches, look, Look};
use reference::State;

/// Where a point can be: in a mode's cells, or where no cell holds it.
pub const PLACES: [&str; 7] = [
    "Graphics I",
    "Graphics II",
    "Multicolor",
    "Text",
    "Text's margins",
    "display off",
    "two mode bits",
];

/// What a point can show, in the order of origins.
pub const SHOWN: [&str; 5] = [
    "a sprite",
    "the pattern plane",
    "the backdrop",
    "black",
    "external video",
];

/// What sprites can do at a point.
pub const SPRITES: [&str; 5] = [
    "a coloured one before another",
    "one behind another of colour 0",
    "a plane behind one of colour 0",
    "one from above the screen",
    "one that is not numbered as drawn",
];

/// Accepted points, by where they are and what they show, and by their sprites.
#[derive(Clone, Copy, Default)]
pub struct Counts {
    pub places: [[u64; SHOWN.len()]; PLACES.len()],
    pub sprites: [u64; SPRITES.len()],
}

/// The points that were held against drawn lines.
#[derive(Default)]
pub struct Points {
    /// Asked for singly, and again in altered memories.
    pub single: Counts,
    /// Those of lines whose every point was asked for.
    pub of_lines: Counts,
}

impl Counts {
    fn count(&mut self, state: &State, vram: &[u8], line: u32, column: u32) {
        let look = look(state, vram, line as u8, column as u8);
        // All sprites are the first of SHOWN.
        let shown = usize::from(look.pixel.origin).saturating_sub(31);
        self.places[place_of(state, column)][shown] += 1;
        for (count, is_there) in self.sprites.iter_mut().zip(of_sprites(state, vram, &look)) {
            *count += u64::from(is_there);
        }
    }

    /// For each place what points can show there, and how often they did; then the sprites.
    pub fn each(&self) -> Vec<(&'static str, Vec<(&'static str, u64)>)> {
        let places = PLACES.into_iter().zip(self.places).enumerate();
        let mut each: Vec<_> = places
            .map(|(place, (name, counts))| {
                let shown = SHOWN.into_iter().zip(counts).enumerate();
                let possible = shown.filter(|&(shown, _)| can_show(place, shown));
                (name, possible.map(|(_, counted)| counted).collect())
            })
            .collect();
        each.push(("sprites", SPRITES.into_iter().zip(self.sprites).collect()));
        each
    }
}

/// Text and blank lines have no sprites; margins and blank lines have no pattern plane.
fn can_show(place: usize, shown: usize) -> bool {
    match shown {
        0 => place < 3,
        1 => place < 4,
        _ => true,
    }
}

/// Which of SPRITES a point has.
fn of_sprites(state: &State, vram: &[u8], look: &Look) -> [bool; SPRITES.len()] {
    let sprites = || look.sprites.iter().enumerate();
    let mut coloured = sprites().filter(|(_, here)| here.shown() != 0);
    let (front, another) = (coloured.next(), coloured.next());
    let mut uncoloured = sprites().filter(|(_, here)| here.colour == Some(0));
    let first_uncoloured = uncoloured.next().map(|(place, _)| place);
    let Some((place, front)) = front else {
        return [false, false, first_uncoloured.is_some(), false, false];
    };
    let y = vram[state.register(5) * 128 + 4 * usize::from(front.number)];
    [
        another.is_some(),
        first_uncoloured.map_or(false, |first| first < place),
        false,
        (224..255).contains(&y),
        usize::from(front.number) != place,
    ]
}

/// Its place in PLACES.
fn place_of(state: &State, column: u32) -> usize {
    match mode(state) {
        Mode::GraphicsOne => 0,
        Mode::GraphicsTwo => 1,
        Mode::Multicolor => 2,
        Mode::Text if (8..248).contains(&column) => 3,
        Mode::Text => 4,
        Mode::Blank if !state.has(1, 0x40) => 5,
        Mode::Blank => 6,
    }
}

/// What does not fit a point of the library: block and VRAM before and after it, its line drawn, and other memories.
pub fn differs(
    before: &Host,
    after: &Host,
    (line, column): (u32, u32),
    answer: u32,
    reached: &mut Points,
) -> Option<String> {
    if before.block != after.block || before.vram != after.vram {
        return Some("the point changes the block or VRAM".to_string());
    }
    if answer >= 256 {
        return None;
    }
    let Some(state) = read_block(&before.block) else {
        return Some("the point of an ill-formed block is accepted".to_string());
    };
    reached.single.count(&state, &before.vram, line, column);
    let [colour, origin] = match Drawn::by(&LIBRARY, before, line) {
        Ok(drawn) => drawn.at(column),
        Err(what) => return Some(what),
    };
    if answer != colour {
        return Some(format!("the point answers {answer}, and its drawn line has {colour} there"));
    }
    let [ours, theirs] = [&LIBRARY, &REFERENCE].map(|calls| (calls.origin)(&before.block, &before.vram, line, column));
    if ours != theirs || ours != origin {
        return Some(format!(
            "the point's origin is {ours}, {theirs} in the reference, and {origin} in its drawn line"
        ));
    }
    altered_differs(before, &state, (line, column), [answer, ours])
}

/// A line as one side draws it.
struct Drawn {
    colours: Vec<u8>,
    origins: Vec<u8>,
}

impl Drawn {
    /// Draws it on a copy of the block, whose status that may change.
    fn by(calls: &Calls, host: &Host, line: u32) -> Result<Drawn, String> {
        let (mut block, mut colours, mut origins) = (host.block.clone(), vec![0xEE; 256], vec![0xEE; 256]);
        match (calls.draw_line)(&mut block, &host.vram, &mut colours, &mut origins, line) {
            0 => Ok(Drawn { colours, origins }),
            answer => Err(format!("drawing the point's line {line} answers {answer}")),
        }
    }

    /// Colour and origin at a column.
    fn at(&self, column: u32) -> [u32; 2] {
        [&self.colours, &self.origins].map(|bytes| bytes[column as usize].into())
    }
}

/// Colour and origin of a point as one side answers them.
fn asked(calls: &Calls, block: &mut [u8], vram: &[u8], line: u32, column: u32) -> [u32; 2] {
    [
        (calls.point)(block, vram, line, column),
        (calls.origin)(block, vram, line, column),
    ]
}

/// The point in two memories that differ from VRAM at each byte but those fetched for it: once by all bits, once by any.
fn altered_differs(host: &Host, state: &State, (line, column): (u32, u32), answers: [u32; 2]) -> Option<String> {
    let fetched = fetches(state, &host.vram, line as u8, column as u8);
    let mut any = vec![0; host.vram.len()];
    Random::new(line.into(), column.into()).fill(&mut any);
    for bits in [vec![0xFF; any.len()], any] {
        let bytes = host.vram.iter().zip(bits);
        let mut other: Vec<u8> = bytes.map(|(byte, bits)| byte ^ bits.max(1)).collect();
        for &at in &fetched {
            other[at] = host.vram[at];
        }
        let there = asked(&LIBRARY, &mut host.block.clone(), &other, line, column);
        if there != answers {
            return Some(format!(
                "the point's colour and origin are {there:?} in a memory that agrees at all its fetches, {answers:?} here"
            ));
        }
        if fetches(state, &other, line as u8, column as u8) != fetched {
            return Some("a memory that agrees at all the point's fetches has others".to_string());
        }
    }
    None
}

/// What does not fit the points of a whole line: colours and origins by point and by line, of both sides.
pub fn line_differs(host: &Host, line: u32, reached: &mut Points) -> Option<String> {
    let (ours, theirs) = match (Drawn::by(&LIBRARY, host, line), Drawn::by(&REFERENCE, host, line)) {
        (Ok(ours), Ok(theirs)) => (ours, theirs),
        (Err(what), _) | (_, Err(what)) => return Some(what),
    };
    let state = read_block(&host.block)?;
    let (mut our_block, mut their_block) = (host.block.clone(), host.block.clone());
    let vram = host.vram.clone();
    for column in 0..256 {
        let answer = asked(&LIBRARY, &mut our_block, &vram, line, column);
        let expected = asked(&REFERENCE, &mut their_block, &vram, line, column);
        let (drawn, drawn_there) = (ours.at(column), theirs.at(column));
        if [expected, drawn, drawn_there] != [answer; 3] {
            return Some(format!(
                "colour and origin at column {column} are {answer:?} by point and {drawn:?} by line in the library, \
                 {expected:?} and {drawn_there:?} in the reference"
            ));
        }
        reached.of_lines.count(&state, &vram, line, column);
    }
    if our_block != host.block || their_block != host.block || vram != host.vram {
        return Some("points of the line change the block or VRAM".to_string());
    }
    None
}

/// Modes and kinds come round; so many rounds of them have one with every point.
const ROUNDS: u64 = 16;

/// Whether a case has every point of its state.
fn is_whole(number: u64) -> bool {
    let round = number / (MODES.len() * KINDS.len()) as u64;
    round % ROUNDS == ROUNDS - 1
}

/// Points of one state: some dozens, or all.
pub fn case(seed: u64, number: u64) -> Case {
    // The seed of no other case.
    let mut case = made_in(Random::new(!seed, number), place(number), |maker| {
        if is_whole(number) {
            maker.steps.extend((0..192).map(|line| Call::LinePoints(line).into()));
        } else {
            (0..60).for_each(|_| maker.point());
        }
    });
    if is_whole(number) {
        put_behind(&mut case.block, number);
    }
    case
}

/// What is behind the planes of a state with every point. Each mode comes with external video off and on, and for both
/// without a backdrop, with a backdrop that Text's bits show too, and with any.
fn put_behind(block: &mut [u8], number: u64) {
    let modes = MODES.len() as u64;
    // Kinds come round in the same order; each round begins with another turn.
    let turn = number / modes + number / (modes * KINDS.len() as u64 * ROUNDS);
    block[0] = block[0] & !1 | (turn % 2) as u8;
    block[7] = match turn / 2 % 4 {
        0 => block[7] & 0xF0,
        1 => block[7] & 0x0F | 1,
        _ => block[7],
    };
}

/// What a point's case has in it.
pub fn name(number: u64) -> String {
    let (mode, kind) = place(number);
    let whole = if is_whole(number) { ", all" } else { "" };
    format!("{}, {}{whole}", MODES[mode], KINDS[kind])
}

impl Maker {
    /// Colour and origin of a point at a sprite or anywhere, now and then beyond the screen.
    pub(crate) fn point(&mut self) {
        let anywhere = self.random.one_in(2);
        let (line, column) = if anywhere { self.anywhere() } else { self.at_sprite() };
        let line = match self.random.below(12) {
            0 => self.random.pick(&[192, 193, 255, 256, 257, 447, 511, 65_536, u32::MAX]),
            _ => line,
        };
        let column = match self.random.below(12) {
            0 => self
                .random
                .pick(&[256, 257, 511, 512, 65_535, 65_536, 65_791, u32::MAX]),
            _ => column,
        };
        self.push(Call::Point(line, column));
        self.push(Call::Origin(line, column));
    }

    /// A point of the screen; often at the ends of lines and cells.
    fn anywhere(&mut self) -> (u32, u32) {
        let (line, column) = (self.random.below(192), self.random.below(256));
        let end = self.random.pick(&[0, 7, 8, 13, 14, 15, 16, 241, 242, 247, 248, 255]);
        let column = if self.random.one_in(3) { end } else { column };
        (line as u32, column as u32)
    }

    /// A point in one of the first sprites as they are at the start, or just beside it.
    fn at_sprite(&mut self) -> (u32, u32) {
        let at = usize::from(self.registers[5]) * 128 + 4 * self.random.below(8);
        let [y, x, early] = [0, 1, 3].map(|more| usize::from(self.vram[at + more]));
        let (down, right) = (self.random.below(34), self.random.below(34));
        let line = (y + down) % 256;
        let column = (x + right).saturating_sub(if early & 0x80 != 0 { 33 } else { 1 });
        ((line % 192) as u32, column.min(255) as u32)
    }
}
