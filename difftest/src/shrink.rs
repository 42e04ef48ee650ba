//! Makes a failing case small: fewer calls, fewer records, then fewer bytes that are not zero.

use crate::calls::{run, Call, Case, Reached};
use std::time::{Duration, Instant};

/// No more than so long for one case.
const PATIENCE: Duration = Duration::from_secs(20);

/// How often all is tried again: fewer bytes may let calls go, and the other way round.
const PASSES: usize = 3;

/// The smallest case found that still fails.
pub fn shrink(case: &Case) -> Case {
    let start = Instant::now();
    let fails = |case: &Case| run(case, &mut Reached::default()).is_err();
    let mut best = case.clone();
    if let Err(difference) = run(&best, &mut Reached::default()) {
        best.steps.truncate(difference.step + 1);
    }
    for _ in 0..PASSES {
        fewer_steps(&mut best, &fails, start);
        single_points(&mut best, &fails);
        for log in best.steps.clone().into_iter().filter_map(|step| step.call.log()) {
            fewer_records(&mut best, log, &fails, start);
        }
        plain_steps(&mut best, &fails);
        for which in 0..4 {
            zeros(&mut best, which, &fails, start);
        }
    }
    best
}

/// Deletes ever smaller stretches of steps.
fn fewer_steps(best: &mut Case, fails: &impl Fn(&Case) -> bool, start: Instant) {
    let mut size = best.steps.len();
    while size > 0 {
        let mut at = 0;
        while at < best.steps.len() && start.elapsed() < PATIENCE {
            let mut smaller = best.clone();
            smaller.steps.drain(at..(at + size).min(best.steps.len()));
            if fails(&smaller) {
                *best = smaller;
            } else {
                at += size;
            }
        }
        size /= 2;
    }
}

/// Asks for one point in place of all those of a line.
fn single_points(best: &mut Case, fails: &impl Fn(&Case) -> bool) {
    for at in 0..best.steps.len() {
        let Call::LinePoints(line) = best.steps[at].call else {
            continue;
        };
        let mut smaller = best.clone();
        for column in 0..256 {
            smaller.steps[at] = Call::Point(line, column).into();
            if fails(&smaller) {
                *best = smaller;
                break;
            }
        }
    }
}

/// Deletes what is wrong with a log where it does not matter, and ever smaller stretches of records.
fn fewer_records(best: &mut Case, log: usize, fails: &impl Fn(&Case) -> bool, start: Instant) {
    for at in (0..best.logs[log].harms.len()).rev() {
        let mut smaller = best.clone();
        smaller.logs[log].harms.remove(at);
        if fails(&smaller) {
            *best = smaller;
        }
    }
    let mut size = best.logs[log].records.len();
    while size > 0 {
        let mut at = 0;
        while at < best.logs[log].records.len() && start.elapsed() < PATIENCE {
            let mut smaller = best.clone();
            let records = &mut smaller.logs[log].records;
            records.drain(at..(at + size).min(records.len()));
            if fails(&smaller) {
                *best = smaller;
            } else {
                at += size;
            }
        }
        size /= 2;
    }
}

/// Takes wrong lengths and spoilt blocks away where they do not matter.
fn plain_steps(best: &mut Case, fails: &impl Fn(&Case) -> bool) {
    for at in 0..best.steps.len() {
        let mut smaller = best.clone();
        smaller.steps[at] = smaller.steps[at].call.into();
        if smaller.steps[at] != best.steps[at] && fails(&smaller) {
            *best = smaller;
        }
    }
}

fn bytes(case: &mut Case, which: usize) -> &mut Vec<u8> {
    match which {
        0 => &mut case.vram,
        1 => &mut case.map,
        2 => &mut case.notes,
        _ => &mut case.block,
    }
}

/// Sets ever smaller stretches of bytes to zero.
fn zeros(best: &mut Case, which: usize, fails: &impl Fn(&Case) -> bool, start: Instant) {
    let length = bytes(best, which).len();
    let mut size = length;
    while size > 0 && start.elapsed() < PATIENCE {
        for at in (0..length).step_by(size) {
            let range = at..(at + size).min(length);
            if bytes(best, which)[range.clone()].iter().all(|&byte| byte == 0) {
                continue;
            }
            let mut smaller = best.clone();
            bytes(&mut smaller, which)[range].fill(0);
            if fails(&smaller) {
                *best = smaller;
            }
        }
        size /= 2;
    }
}
