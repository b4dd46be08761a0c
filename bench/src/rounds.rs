//! Times, by many short rounds.

use std::hint::black_box;
use std::time::{Duration, Instant};

/// So many calls of a side, if there is such a side.
pub type Run = Option<Box<dyn Fn(u64)>>;

/// A round takes about this time; in a pass over all cases each case has so many.
const ROUND: Duration = Duration::from_micros(100);
const ROUNDS: usize = 100;
const PASSES: usize = 8;

pub fn times<R>(n: u64, call: impl Fn() -> R) {
    for _ in 0..n {
        let r = call();
        black_box(&r);
    }
}

/// Of each side of each case the least time of a call in ns, over many short rounds in which the sides take turns.
/// What disturbs the machine for a while falls on a pass, and not on all rounds of a case.
pub fn least(cases: &[&[Run]]) -> Vec<Vec<f64>> {
    let mut least: Vec<_> = cases.iter().map(|sides| vec![f64::INFINITY; sides.len()]).collect();
    for _ in 0..PASSES {
        for (sides, least) in cases.iter().zip(&mut least) {
            pass(sides, least);
        }
    }
    least
}

fn pass(sides: &[Run], least: &mut [f64]) {
    let calls: Vec<u64> =
        sides.iter().map(|s| s.as_ref().map_or(0, |run| calls_a_round(run))).collect();
    for _ in 0..ROUNDS {
        for (side, run) in sides.iter().enumerate() {
            if let Some(run) = run {
                let start = Instant::now();
                run(calls[side]);
                let ns = start.elapsed().as_nanos() as f64 / calls[side] as f64;
                least[side] = least[side].min(ns);
            }
        }
    }
}

fn calls_a_round(run: &dyn Fn(u64)) -> u64 {
    let mut calls = 1;
    loop {
        let start = Instant::now();
        run(calls);
        if start.elapsed() >= ROUND {
            return calls;
        }
        calls *= 2;
    }
}
