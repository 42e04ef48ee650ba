//! Times in nanoseconds.

use std::time::Instant;

pub struct Times {
    pub best: f64,
    pub median: f64,
}

/// One thing, so many times in a row, in so many rounds.
pub fn time(rounds: usize, in_a_row: usize, mut what: impl FnMut()) -> Times {
    what();
    summed((0..rounds).map(|_| once(in_a_row, &mut what)).collect())
}

/// Two things in turn, so that what disturbs one disturbs the other too.
pub fn in_turn<T>(
    rounds: usize,
    on: &mut T,
    first: impl Fn(&mut T),
    second: impl Fn(&mut T),
    seconds_in_a_row: usize,
) -> (Times, Times) {
    first(on);
    second(on);
    let both = (0..rounds).map(|_| (once(1, || first(on)), once(seconds_in_a_row, || second(on))));
    let (firsts, seconds) = both.unzip();
    (summed(firsts), summed(seconds))
}

/// The same, where the first is prepared each time, which is not timed.
pub fn prepared_in_turn<T>(
    rounds: usize,
    on: &mut T,
    prepare: impl Fn(&mut T),
    first: impl Fn(&mut T),
    second: impl Fn(&mut T),
) -> (Times, Times) {
    let both = (0..rounds).map(|_| {
        prepare(on);
        (once(1, || first(on)), once(1, || second(on)))
    });
    let (firsts, seconds) = both.unzip();
    (summed(firsts), summed(seconds))
}

/// Several things in turn.
pub fn all_in_turn<T, const N: usize>(rounds: usize, on: &mut T, what: [fn(&mut T); N]) -> [Times; N] {
    what.iter().for_each(|each| each(on));
    let mut times: [Vec<f64>; N] = std::array::from_fn(|_| Vec::with_capacity(rounds));
    for _ in 0..rounds {
        for (each, taken) in what.iter().zip(&mut times) {
            taken.push(once(1, || each(on)));
        }
    }
    times.map(summed)
}

fn once(in_a_row: usize, mut what: impl FnMut()) -> f64 {
    let start = Instant::now();
    for _ in 0..in_a_row {
        what();
    }
    start.elapsed().as_nanos() as f64 / in_a_row as f64
}

fn summed(mut times: Vec<f64>) -> Times {
    times.sort_by(f64::total_cmp);
    Times {
        best: times[0],
        median: times[times.len() / 2],
    }
}
