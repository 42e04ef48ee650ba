//! difftest [--seed N] [--first N] [--cases N] [--faults | --gate]
//!
//! Compares N states, from the first on, a fourth as many cases of points, a tenth as many lists of calls and
//! cases of logs, and a twentieth as many lists of refreshes; without --cases a fixed number. Before them come
//! meetings of sprites and calls that are refused, the same in every run. --faults plants each of the reference's
//! faults in turn and wants it found; --gate does both.

use difftest::calls::{run, Case, Lost, Reached, BLOCKS, DROPPING, HIDDEN, LENGTHS, LOST_FROM, NAMES, REFUSED};
use difftest::lists::{list_case, log_case, place, state_case};
use difftest::points::{self, Counts};
use difftest::scenes::{KINDS, MODES};
use difftest::{meetings, refreshes, refusals, shrink};
use reference::faults;

const SEED: u64 = 9918;
const CASES: u64 = 12000;
/// So many failures are printed; the others are only counted.
const PRINTED: u64 = 3;

struct Options {
    seed: u64,
    first: u64,
    cases: u64,
    compare: bool,
    faults: bool,
}

fn main() {
    let options = match options() {
        Ok(options) => options,
        Err(what) => {
            eprintln!("difftest: {what}\nusage: difftest [--seed N] [--first N] [--cases N] [--faults | --gate]");
            std::process::exit(2);
        }
    };
    let (mut passed, mut failed) = (0, 0);
    if options.compare {
        compare(&options, &mut passed, &mut failed);
    }
    if options.faults {
        plant_all(&options, &mut passed, &mut failed);
    }
    println!("difftest: {passed} passed, {failed} failed");
    std::process::exit(i32::from(failed != 0));
}

fn options() -> Result<Options, String> {
    let mut options = Options {
        seed: SEED,
        first: 0,
        cases: CASES,
        compare: true,
        faults: false,
    };
    let mut words = std::env::args().skip(1);
    while let Some(word) = words.next() {
        let mut number = || {
            let number = words.next().and_then(|word| word.parse::<u64>().ok());
            number.ok_or(format!("{word} wants a number"))
        };
        match word.as_str() {
            "--seed" => options.seed = number()?,
            "--first" => options.first = number()?,
            "--cases" => options.cases = number()?,
            "--faults" => (options.compare, options.faults) = (false, true),
            "--gate" => (options.compare, options.faults) = (true, true),
            _ => return Err(format!("unknown word {word}")),
        }
    }
    Ok(options)
}

/// A state, a list of calls or of refreshes, a case of points, logs or refusals, or a meeting of sprites by its number.
#[derive(Clone, Copy)]
enum Numbered {
    Meeting(u64),
    Refusals(u64),
    State(u64),
    Points(u64),
    Logs(u64),
    List(u64),
    Refreshes(u64),
}

impl Numbered {
    fn case(self, seed: u64) -> Case {
        match self {
            Numbered::Meeting(number) => meetings::case(number),
            Numbered::Refusals(number) => refusals::case(number),
            Numbered::State(number) => state_case(seed, number),
            Numbered::Points(number) => points::case(seed, number),
            Numbered::Logs(number) => log_case(seed, number),
            Numbered::List(number) => list_case(seed, number),
            Numbered::Refreshes(number) => refreshes::case(seed, number),
        }
    }

    /// The words that run it again; points come after their four states, logs and a list after their ten, refreshes after
    /// their twenty, and all meetings and refusals come first.
    fn alone(self, seed: u64) -> String {
        let first = match self {
            Numbered::Meeting(_) | Numbered::Refusals(_) => return "--cases 0".to_string(),
            Numbered::State(number) => number,
            Numbered::Points(number) => 4 * number + 3,
            Numbered::Logs(number) | Numbered::List(number) => 10 * number + 9,
            Numbered::Refreshes(number) => 20 * number + 19,
        };
        format!("--seed {seed} --first {first} --cases 1")
    }
}

impl std::fmt::Display for Numbered {
    fn fmt(&self, f: &mut std::fmt::Formatter<'_>) -> std::fmt::Result {
        match *self {
            Numbered::Meeting(number) => write!(f, "meeting {number} ({})", meetings::name(number)),
            Numbered::Refusals(number) => write!(f, "refusals {number} ({})", refusals::name(number)),
            Numbered::State(number) => {
                let (mode, kind) = place(number);
                write!(f, "state {number} ({}, {})", MODES[mode], KINDS[kind])
            }
            Numbered::Points(number) => write!(f, "points {number} ({})", points::name(number)),
            Numbered::Logs(number) => write!(f, "logs {number}"),
            Numbered::List(number) => write!(f, "list {number}"),
            Numbered::Refreshes(number) => write!(f, "refreshes {number} ({})", refreshes::name(number)),
        }
    }
}

// The cases that every run has.

fn all_meetings() -> impl Iterator<Item = Numbered> {
    (0..meetings::count()).map(Numbered::Meeting)
}

fn all_refusals() -> impl Iterator<Item = Numbered> {
    (0..refusals::count()).map(Numbered::Refusals)
}

/// The random ones, in order: points after every four states, logs and a list after every ten, refreshes after every twenty.
fn random(options: &Options) -> impl Iterator<Item = Numbered> {
    (options.first..options.first + options.cases).flat_map(|number| {
        let after_four = (number % 4 == 3).then_some(Numbered::Points(number / 4));
        let after_ten = [Numbered::Logs(number / 10), Numbered::List(number / 10)];
        let after_ten = after_ten.into_iter().filter(move |_| number % 10 == 9);
        let after_twenty = (number % 20 == 19).then_some(Numbered::Refreshes(number / 20));
        let state = std::iter::once(Numbered::State(number));
        state.chain(after_four).chain(after_ten).chain(after_twenty)
    })
}

/// How many were compared.
#[derive(Default)]
struct Compared {
    meetings: u64,
    refusals: u64,
    /// What the meetings have reached of HIDDEN.
    hidden: [u64; HIDDEN.len()],
    states: [u64; MODES.len()],
    points: u64,
    logs: u64,
    lists: u64,
    refreshes: u64,
}

impl Compared {
    fn count(&mut self, numbered: Numbered) {
        match numbered {
            Numbered::Meeting(_) => self.meetings += 1,
            Numbered::Refusals(_) => self.refusals += 1,
            Numbered::State(number) => self.states[place(number).0] += 1,
            Numbered::Points(_) => self.points += 1,
            Numbered::Logs(_) => self.logs += 1,
            Numbered::List(_) => self.lists += 1,
            Numbered::Refreshes(_) => self.refreshes += 1,
        }
    }
}

fn compare(options: &Options, passed: &mut u64, failed: &mut u64) {
    let (mut compared, mut reached) = (Compared::default(), Reached::default());
    for numbered in all_meetings().chain(all_refusals()).chain(random(options)) {
        let case = numbered.case(options.seed);
        compared.count(numbered);
        match run(&case, &mut reached) {
            Ok(()) => *passed += 1,
            Err(difference) => {
                *failed += 1;
                if *failed <= PRINTED {
                    println!("FAILED: {numbered}: after call {}, {}", difference.step + 1, difference.what);
                    println!("  alone: {}; made small:", numbered.alone(options.seed));
                    print(&shrink::shrink(&case));
                }
            }
        }
        if let Numbered::Meeting(_) = numbered {
            compared.hidden = reached.hidden;
        }
    }
    summary(options, &compared, &reached);
    let mut never = missed_by_meetings(&compared);
    // A short run need not reach everything.
    if options.cases >= CASES {
        never.extend(missed(&compared, &reached));
    }
    for what in never {
        println!("FAILED: never reached: {what}");
        *failed += 1;
    }
}

/// A small case, and where the sides part in it.
fn print(case: &Case) {
    println!("  block {}", hex(&case.block));
    for (name, bytes) in [("VRAM", &case.vram), ("map", &case.map), ("notes", &case.notes)] {
        let some: Vec<String> = bytes
            .iter()
            .enumerate()
            .filter(|&(_, &byte)| byte != 0)
            .map(|(at, byte)| format!("{at:04X}:{byte:02X}"))
            .collect();
        match some.len() {
            0 => println!("  {name} zero"),
            count if count > 200 => {
                println!("  {name} zero but for {count} bytes, the first {}", some[..200].join(" "))
            }
            _ => println!("  {name} zero but {}", some.join(" ")),
        }
    }
    for log in case.steps.iter().filter_map(|step| step.call.log()) {
        println!("  log {log}: {}", case.logs[log]);
    }
    for (number, step) in case.steps.iter().enumerate() {
        println!("  {}. {step}", number + 1);
    }
    match run(case, &mut Reached::default()) {
        Err(difference) => println!("  after {}: {}", difference.step + 1, difference.what),
        Ok(()) => println!("  and this time nothing differs"),
    }
}

fn hex(bytes: &[u8]) -> String {
    bytes
        .iter()
        .map(|byte| format!("{byte:02X}"))
        .collect::<Vec<_>>()
        .join(" ")
}

fn summary(options: &Options, compared: &Compared, reached: &Reached) {
    let states: u64 = compared.states.iter().sum();
    println!(
        "seed {}, {} meetings of sprites, {states} states, {} lists, {} lists of refreshes, {} cases of logs, {} of points, \
         {} of refusals",
        options.seed,
        compared.meetings,
        compared.lists,
        compared.refreshes,
        compared.logs,
        compared.points,
        compared.refusals
    );
    let modes: Vec<String> = MODES
        .iter()
        .zip(compared.states)
        .map(|(name, count)| format!("{name} {count}"))
        .collect();
    println!("states: {}", modes.join(", "));
    println!("{:16}{:>10}   refused 1 to 9, and 13", "call", "accepted");
    for (name, answers) in NAMES.iter().zip(reached.answers) {
        if answers.iter().any(|&count| count > 0) {
            let refused: String = REFUSED.map(|number| format!("{:>7}", answers[number])).concat();
            println!("{name:16}{:>10}{refused}", answers[0]);
        }
    }
    print_lost(reached);
    println!("draws that turned 5S on: {}, C on: {}", reached.fifth, reached.coincidence);
    let random = at_random(compared, reached);
    for (name, counts) in [("meetings", compared.hidden), ("random cases", random)] {
        let counts: Vec<String> = HIDDEN
            .iter()
            .zip(counts)
            .map(|(what, count)| format!("{what} {count}"))
            .collect();
        println!("C on by hidden columns alone, in {name}: {}", counts.join(", "));
    }
    let [nothing, some, all] = reached.refreshes;
    println!(
        "refreshes of no line: {nothing}, of some: {some}, of all: {all}; against a full draw: {}",
        reached.full_draws
    );
    let lengths: Vec<String> = LENGTHS
        .iter()
        .zip(reached.lengths)
        .map(|(length, count)| format!("{length}: {count}"))
        .collect();
    println!("runs by their records: {}", lengths.join(", "));
    let operations: Vec<String> = reached.operations.iter().map(u64::to_string).collect();
    println!(
        "runs that ended at a differing read: {}; records against single calls, by operation: {}",
        reached.differing,
        operations.join(", ")
    );
    let ([read, written], [accepted, refused]) = (reached.round_trips, reached.replayed);
    println!("logs read and written back: {read}, written and read back: {written}");
    println!("replays: {accepted}, and {refused} refused; show's texts: {}", reached.shown);
    for (who, counts) in points_by_whom(reached) {
        for (place, counts) in counts.each() {
            let counts: Vec<String> = counts.iter().map(|(what, count)| format!("{what} {count}")).collect();
            println!("points {who}, {place}: {}", counts.join(", "));
        }
    }
    for (place, counts) in reached.foreign.each() {
        let counts: Vec<String> = counts.iter().map(|(what, count)| format!("{what} {count}")).collect();
        println!("refreshes in {place}: {}", counts.join(", "));
    }
}

/// Points asked for singly and in whole lines.
fn points_by_whom(reached: &Reached) -> [(&'static str, Counts); 2] {
    [
        ("alone", reached.points.single),
        ("of whole lines", reached.points.of_lines),
    ]
}

fn print_lost(reached: &Reached) {
    let blocks: Vec<String> = BLOCKS
        .iter()
        .zip(reached.blocks)
        .map(|(length, count)| format!("{length}: {count}"))
        .collect();
    println!("refused blocks by their bytes: {}", blocks.join(", "));
    for (who, lost) in by_whom(reached) {
        let counts: Vec<String> = each_lost(lost)
            .map(|(what, count)| format!("{what}: {count}"))
            .collect();
        println!("first bytes lost by {who}, by the count before: {}", counts.join("; "));
    }
}

/// What each call can be refused with; 0 stands for accepted.
const REFUSALS: [&[usize]; NAMES.len()] = [
    &[0, 1, 2],
    &[0, 1, 2, 3],
    &[0, 1, 2, 3],
    &[0, 1, 2, 3],
    &[0, 2, 3],
    &[0, 2, 3],
    &[0, 2, 3],
    &[0, 2, 3],
    &[0, 1, 2, 3, 4],
    &[0, 1, 2, 3, 5, 6, 7],
    &[0, 1, 2, 3, 5],
    &[0, 1, 2, 3],
    &[0, 1, 2, 3],
    &[0, 1, 2, 3, 8, 9],
    &[0, 8, 9],
    &[0, 8, 9],
    &[0, 1, 2, 3, 4, 13],
    &[0, 1, 2, 3, 4, 13],
];

/// First bytes lost by single calls and in runs.
fn by_whom(reached: &Reached) -> [(&'static str, Lost); 2] {
    [("single calls", reached.lost), ("calls of runs", reached.lost_in_runs)]
}

/// Each call that drops first bytes with each count to start from, and how often.
fn each_lost(lost: Lost) -> impl Iterator<Item = (String, u64)> {
    DROPPING.into_iter().zip(lost).flat_map(|(call, counts)| {
        let from = LOST_FROM.into_iter().zip(counts);
        from.map(move |(from, count)| (format!("{call} from {from}"), count))
    })
}

/// What the cases besides the meetings have reached of HIDDEN.
fn at_random(compared: &Compared, reached: &Reached) -> [u64; HIDDEN.len()] {
    std::array::from_fn(|place| reached.hidden[place] - compared.hidden[place])
}

/// The meetings are in every run and have to reach all of it.
fn missed_by_meetings(compared: &Compared) -> Vec<String> {
    let counts = HIDDEN.iter().zip(compared.hidden);
    counts
        .filter(|&(_, count)| count == 0)
        .map(|(what, _)| format!("C on by hidden columns alone in meetings: {what}"))
        .collect()
}

fn missed(compared: &Compared, reached: &Reached) -> Vec<String> {
    let mut missed = Vec::new();
    let [left, right, ..] = at_random(compared, reached);
    for (place, numbers) in REFUSALS.into_iter().enumerate() {
        for &number in numbers.iter().filter(|&&number| reached.answers[place][number] == 0) {
            missed.push(format!("vdp_{} answering {number}", NAMES[place]));
        }
    }
    let some = [
        (reached.fifth, "5S turned on"),
        (reached.coincidence, "C turned on"),
        (left, "C turned on left of column 0 alone, at random"),
        (right, "C turned on right of column 255 alone, at random"),
        (reached.refreshes[0], "a refresh of no line"),
        (reached.refreshes[1], "a refresh of some lines"),
        (reached.refreshes[2], "a refresh of all lines"),
        (reached.full_draws, "a full draw after a refresh"),
        (reached.differing, "a run that ends at a differing read"),
        (reached.round_trips[0], "a log read and written back"),
        (reached.round_trips[1], "a log written and read back"),
        (reached.replayed[0], "an accepted replay"),
        (reached.replayed[1], "a refused replay"),
        (reached.shown, "a text of show"),
    ];
    missed.extend(
        some.into_iter()
            .filter(|&(count, _)| count == 0)
            .map(|(_, what)| what.to_string()),
    );
    for (length, _) in LENGTHS.iter().zip(reached.lengths).filter(|&(_, count)| count == 0) {
        missed.push(format!("a run of {length} records"));
    }
    for (who, lost) in by_whom(reached) {
        for (what, _) in each_lost(lost).filter(|&(_, count)| count == 0) {
            missed.push(format!("a first byte lost by {who}: {what}"));
        }
    }
    for (length, _) in BLOCKS.iter().zip(reached.blocks).filter(|&(_, count)| count == 0) {
        missed.push(format!("a refused block of {length} bytes"));
    }
    for (who, counts) in points_by_whom(reached) {
        for (place, counts) in counts.each() {
            for (what, _) in counts.into_iter().filter(|&(_, count)| count == 0) {
                missed.push(format!("points {who}, {place}: {what}"));
            }
        }
    }
    for (place, counts) in reached.foreign.each() {
        for (what, _) in counts.into_iter().filter(|&(_, count)| count == 0) {
            missed.push(format!("a refresh in {place}: {what}"));
        }
    }
    for (operation, _) in reached.operations.iter().enumerate().filter(|&(_, &count)| count == 0) {
        missed.push(format!("operation {operation} in a run"));
    }
    missed
}

/// Every fault of the reference has to be found.
fn plant_all(options: &Options, passed: &mut u64, failed: &mut u64) {
    // Sprites that meet at the outermost columns alone hardly ever come up at random.
    let outermost = faults::FIRST_COLUMN_FORGOTTEN..=faults::LAST_COLUMNS_FORGOTTEN;
    let hidden = faults::ONLY_VISIBLE_COINCIDE..=faults::LAST_COLUMNS_FORGOTTEN;
    let of_points = faults::POINT_OF_NEIGHBOUR..=faults::POINT_TEXT_BIT_6;
    for number in 1..=faults::LAST {
        let of_rows = faults::OF_ROWS.contains(&number);
        if !of_points.contains(&number) && !outermost.contains(&number) && !of_rows {
            let among = format!("{} states, their points, logs and lists", options.cases);
            plant(number, random(options), &among, options, passed, failed);
        }
        // Lines and points share the mistakes about origins, and the states have drawn lines only.
        if of_points.contains(&number) || faults::OF_ORIGINS.contains(&number) {
            let points = random(options).filter(|numbered| matches!(numbered, Numbered::Points(_)));
            let among = format!("{} cases of points", options.cases / 4);
            plant(number, points, &among, options, passed, failed);
        }
        if of_rows {
            let refreshes = random(options).filter(|numbered| matches!(numbered, Numbered::Refreshes(_)));
            let among = format!("{} lists of refreshes", options.cases / 20);
            plant(number, refreshes, &among, options, passed, failed);
        }
        if hidden.contains(&number) {
            plant(number, all_meetings(), "the meetings", options, passed, failed);
        }
        if number == faults::ORIGINS_BEFORE_TESTED {
            plant(number, all_refusals(), "the refusals", options, passed, failed);
        }
    }
}

fn plant(
    number: u32,
    mut cases: impl Iterator<Item = Numbered>,
    among: &str,
    options: &Options,
    passed: &mut u64,
    failed: &mut u64,
) {
    let name = faults::NAMES[number as usize - 1];
    faults::plant(number);
    let found = cases.find(|numbered| run(&numbered.case(options.seed), &mut Reached::default()).is_err());
    match found {
        Some(numbered) => {
            *passed += 1;
            println!("fault {number}, {name}: found by {numbered}, {}", numbered.alone(options.seed));
            print(&shrink::shrink(&numbered.case(options.seed)));
        }
        None => {
            *failed += 1;
            println!("FAILED: fault {number}, {name}: NOT FOUND in {among}");
        }
    }
    faults::plant(0);
}
