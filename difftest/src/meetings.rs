//! Sprites that meet at one column, on the screen or off it, and sprites that only touch. These cases come from tables
//! and not from random numbers: every run has all of them, whatever its seed.

use crate::calls::{Call, Case, Step};
use crate::logs::Log;

/// Mode bits of registers 0 and 1, for the modes with sprites.
const MODES: [(u8, u8); 3] = [(0, 0), (2, 0), (0, 8)];

/// Tables that lie apart in each of these modes.
const REGISTERS: [u8; 8] = [0x00, 0x40, 0x0E, 0xFF, 0x00, 0x76, 0x03, 0x04];
const SHAPES: usize = 0x1800;
const ATTRIBUTES: usize = 0x3B00;

/// A count of lost first bytes, which no call here changes.
const LOST: [u8; 2] = [0xFE, 0xFF];

/// Names of the shapes: all bits set, the leftmost column's alone, the rightmost column's alone.
const FULL: u8 = 0;
const LEFTMOST: u8 = 4;
const RIGHTMOST: u8 = 8;

const EARLY: u8 = 0x80;

/// The columns on the screen at which sprites meet here; the hidden ones depend on the sprites' width.
const VISIBLE: [i32; 5] = [0, 1, 127, 254, 255];

/// Colours of two that meet: 0 for none, one or both of them.
const COLOURS: [[u8; 2]; 4] = [[0, 0], [0, 7], [7, 0], [7, 9]];

/// The pairs among the first four covering sprites, and those of each with the fifth.
const DRAWN: [[usize; 2]; 6] = [[0, 1], [0, 2], [1, 2], [0, 3], [1, 3], [2, 3]];
const WITH_FIFTH: [[usize; 2]; 4] = [[0, 4], [1, 4], [2, 4], [3, 4]];

/// Register 1's bits for size (2) and magnify (1).
#[derive(Clone, Copy)]
struct Form(u8);

const FORMS: [Form; 4] = [Form(0), Form(1), Form(2), Form(3)];

impl Form {
    /// Columns to a bit.
    fn scale(self) -> i32 {
        if self.0 & 1 == 0 {
            1
        } else {
            2
        }
    }

    /// Columns, and lines, from a sprite's first to its last.
    fn last(self) -> i32 {
        let bits = if self.0 & 2 == 0 { 8 } else { 16 };
        bits * self.scale() - 1
    }

    /// The hidden columns at which sprites meet: at both ends of those that this form can reach, around the widths of
    /// sprites, and next to the screen.
    fn hidden(self) -> Vec<i32> {
        let end = 255 + self.last();
        vec![-32, -31, -17, -16, -9, -8, -2, -1, 256, 257, end - 1, end]
    }

    /// The first and last hidden column on each side.
    fn ends(self) -> [i32; 4] {
        [-32, -1, 256, 255 + self.last()]
    }
}

/// A sprite's first column and its shape.
type Stand = (i32, u8);

/// The first of two whose X is a byte.
fn first_that_can_be(stands: [Stand; 2]) -> Option<Stand> {
    stands.into_iter().find(|(column, _)| (-32..=255).contains(column))
}

/// A sprite whose only bit ends at the column.
fn ending(form: Form, column: i32) -> Option<Stand> {
    first_that_can_be([(column - form.last(), RIGHTMOST), (column - form.scale() + 1, LEFTMOST)])
}

/// A sprite whose only bit begins at the column.
fn beginning(form: Form, column: i32) -> Option<Stand> {
    first_that_can_be([(column, LEFTMOST), (column - form.last() + form.scale() - 1, RIGHTMOST)])
}

/// Two sprites that share the column and no other. Magnified ones at the first and the last column that can be reached
/// share two.
fn meeting(form: Form, column: i32) -> [Stand; 2] {
    let (left, right) = (ending(form, column), beginning(form, column));
    [left.or(right), right.or(left)].map(|stand| stand.expect("a column that can be reached"))
}

/// Two sprites that touch at the column, or as near to it as can be, and share none.
fn touching(form: Form, column: i32) -> [Stand; 2] {
    [0, -1, 1, -2, 2]
        .into_iter()
        .find_map(|by| Some([ending(form, column + by)?, beginning(form, column + by + 1)?]))
        .expect("columns that can be reached")
}

/// X, name and colour byte.
type Attributes = [u8; 3];

/// Where a sprite can stand with the early clock and without it, every second one has it.
fn attributes((column, shape): Stand, colour: u8, number: usize) -> Attributes {
    if column < 0 || number % 2 == 1 && column < 224 {
        [(column + 32) as u8, shape, EARLY | colour]
    } else {
        [column as u8, shape, colour]
    }
}

/// Sprites on the same lines: first none shares a column with another, then two do.
struct Group {
    apart: Vec<Attributes>,
    together: Vec<Attributes>,
}

/// Two sprites of these colours around a column.
fn pair(form: Form, column: i32, colours: [u8; 2]) -> Group {
    let both = |[first, second]: [Stand; 2]| vec![attributes(first, colours[0], 0), attributes(second, colours[1], 1)];
    Group {
        apart: both(touching(form, column)),
        together: both(meeting(form, column)),
    }
}

/// Five sprites, of which these two are around a column; the others stand in a row on the screen.
fn five(form: Form, column: i32, two: [usize; 2], colours: [u8; 2]) -> Group {
    let row = |number: usize| attributes((40 + 40 * number as i32, FULL), 5, number);
    let with = |stands: [Stand; 2]| {
        let mut five: Vec<Attributes> = (0..5).map(row).collect();
        for (place, number) in two.into_iter().enumerate() {
            five[number] = attributes(stands[place], colours[place], number);
        }
        five
    };
    Group {
        apart: with(touching(form, column)),
        together: with(meeting(form, column)),
    }
}

/// Groups from the top of the screen down.
struct Scene {
    what: String,
    form: Form,
    groups: Vec<Group>,
}

fn scenes() -> Vec<Scene> {
    let mut all = Vec::new();
    for form in FORMS {
        // Hidden columns have pictures of their own, so that nothing else turns C on there.
        for columns in [form.hidden(), VISIBLE.to_vec()] {
            for turn in 0..COLOURS.len() {
                pairs(form, &columns, turn, &mut all);
            }
        }
        for column in form.ends() {
            for (what, twos) in [("of the four", &DRAWN[..]), ("with the fifth", &WITH_FIFTH[..])] {
                let colours = COLOURS.into_iter().cycle();
                let groups = twos.iter().zip(colours);
                all.push(Scene {
                    what: format!("two {what} at {column}"),
                    form,
                    groups: groups.map(|(&two, colours)| five(form, column, two, colours)).collect(),
                });
            }
        }
    }
    all
}

/// A pair at each of the columns, in as many pictures as it takes. Each turn gives a column other colours.
fn pairs(form: Form, columns: &[i32], turn: usize, all: &mut Vec<Scene>) {
    let colours = COLOURS.into_iter().cycle().skip(turn);
    let around: Vec<(i32, [u8; 2])> = columns.iter().copied().zip(colours).collect();
    for some in around.chunks(rows(form)) {
        all.push(Scene {
            what: format!("pairs at {} to {}", some[0].0, some[some.len() - 1].0),
            form,
            groups: some
                .iter()
                .map(|&(column, colours)| pair(form, column, colours))
                .collect(),
        });
    }
}

/// How many groups the screen has lines for, below one another.
fn rows(form: Form) -> usize {
    192 / (form.last() as usize + 1)
}

/// How many cases there are.
pub fn count() -> u64 {
    scenes().len() as u64
}

/// What a case has in it.
pub fn name(number: u64) -> String {
    let Scene { what, form, .. } = &scenes()[number as usize];
    let size = ["small", "small and magnified", "large", "large and magnified"];
    format!("{what}, {}", size[usize::from(form.0)])
}

/// The groups are drawn apart, moved together through the ports, and drawn again: line by line, by refresh, by a run and
/// by full draw.
pub fn case(number: u64) -> Case {
    let scene = &scenes()[number as usize];
    let lines = lines(scene);
    let (m3, m2) = MODES[number as usize % MODES.len()];
    let mut block = [&REGISTERS[..], &[0; 7], &LOST].concat();
    block[0] |= m3;
    block[1] |= m2 | scene.form.0;
    block[14] = 1;
    let mut steps = draws(&lines);
    steps.extend([Call::PutStatus(0), Call::Refresh]);
    steps.extend(moves(scene));
    steps.extend([Call::StatusRead, Call::Refresh]);
    steps.extend(draws(&lines));
    steps.extend([Call::PutStatus(0), Call::RunLog(0)]);
    steps.extend([Call::PutStatus(0), Call::WriteSnapshot, Call::Show, Call::FullDraw]);
    Case {
        block,
        vram: vram(scene),
        map: vec![0; 2048],
        notes: vec![32; 192],
        logs: vec![log(&lines)],
        steps: steps.into_iter().map(Step::from).collect(),
    }
}

/// Each group's first, second and last line.
fn lines(scene: &Scene) -> Vec<u8> {
    let last = scene.form.last() as usize;
    let of = |group: usize| [0, 1, last].map(|line| (group * (last + 1) + line) as u8);
    (0..scene.groups.len()).flat_map(of).collect()
}

/// VRAM with the groups apart.
fn vram(scene: &Scene) -> Vec<u8> {
    let mut vram = vec![0; 16384];
    // The rightmost column of a large sprite is in its right half, behind the left one's 16 rows.
    let (rows, behind) = if scene.form.0 & 2 == 0 { (8, 0) } else { (16, 16) };
    let shape = |name: u8| SHAPES + 8 * usize::from(name);
    vram[shape(FULL)..][..32].fill(0xFF);
    vram[shape(LEFTMOST)..][..rows].fill(0x80);
    vram[shape(RIGHTMOST) + behind..][..rows].fill(0x01);
    let mut at = ATTRIBUTES;
    for (group, sprites) in scene.groups.iter().enumerate() {
        let y = (group as i32 * (scene.form.last() + 1) - 1).rem_euclid(256) as u8;
        for &[x, name, colour] in &sprites.apart {
            vram[at..at + 4].copy_from_slice(&[y, x, name, colour]);
            at += 4;
        }
    }
    vram[at] = 208;
    vram
}

/// Draws lines, each from a status without C, with and without F, 5S and a number.
fn draws(lines: &[u8]) -> Vec<Call> {
    let statuses = [0x00, 0x9F, 0x45, 0x00].into_iter().cycle();
    let steps = lines.iter().zip(statuses);
    steps
        .flat_map(|(&line, status)| [Call::PutStatus(status), Call::DrawLine(line.into())])
        .collect()
}

/// The writes that bring the sprites of each group together.
fn moves(scene: &Scene) -> Vec<Call> {
    let groups = scene.groups.iter();
    let sprites = groups.flat_map(|group| group.apart.iter().zip(&group.together));
    let mut calls = vec![Call::StatusRead];
    for (number, (apart, together)) in sprites.enumerate() {
        if apart != together {
            let [low, high] = ((ATTRIBUTES + 4 * number + 1) as u16).to_le_bytes();
            calls.extend([Call::ControlWrite(low), Call::ControlWrite(0x40 | high)]);
            calls.extend(together.map(Call::DataWrite));
        }
    }
    calls
}

/// Draws each line and reads status.
fn log(lines: &[u8]) -> Log {
    Log {
        records: lines.iter().flat_map(|&line| [(4, line), (3, 0)]).collect(),
        harms: Vec::new(),
    }
}
