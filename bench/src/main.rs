//! Measures this library beside the published Rust of biblatex: the same
//! inputs, one driver, one run.
//!
//!     bench check               the answers of all sides to all inputs are the same
//!     bench list                a line each: number, group, name, calls to count, inputs of a call, sides
//!     bench times               a line each: group, name, ns an input by C, by the crate, by the Rust
//!     bench count CASE SIDE N   N calls of a side (c, crate, rust), to be counted by callgrind

use bench::cases::{self, Case, SIDES};
use bench::rounds::{self, Run};

fn main() {
    let args: Vec<String> = std::env::args().skip(1).collect();
    let cases = cases::all();
    match args.iter().map(String::as_str).collect::<Vec<_>>()[..] {
        ["check"] => check(&cases),
        ["list"] => list(&cases),
        ["times"] => times(&cases),
        ["count", case, side, n] => {
            let side = SIDES.iter().position(|s| *s == side).expect("c, crate or rust");
            let case = &cases[case.parse::<usize>().expect("a case's number")];
            if let Some(run) = &case.sides[side] {
                run(n.parse().expect("a number of calls"));
            }
        }
        _ => {
            eprintln!("bench check | list | times | count CASE SIDE N");
            std::process::exit(2);
        }
    }
}

fn list(cases: &[Case]) {
    for (i, c) in cases.iter().enumerate() {
        let there = SIDES.iter().zip(&c.sides).filter(|(_, run)| run.is_some());
        let sides: Vec<&str> = there.map(|(side, _)| *side).collect();
        let (group, name, sides) = (c.group, &c.name, sides.join(" "));
        println!("{i}\t{group}\t{name}\t{}\t{}\t{sides}", c.counted, c.inputs);
    }
}

/// Each side says what it answers; what the Rust does not have, it does not say.
fn check(cases: &[Case]) {
    let mut wrong = 0;
    for c in cases {
        let said: Vec<String> = c.says.iter().flatten().map(|say| say()).collect();
        if said.windows(2).any(|w| w[0] != w[1]) {
            println!("different answers to {}, {}: {said:#?}", c.group, c.name);
            wrong += 1;
        }
    }
    println!("{} cases, {wrong} with different answers", cases.len());
    if wrong > 0 {
        std::process::exit(1);
    }
}

fn times(cases: &[Case]) {
    let sides: Vec<&[Run]> = cases.iter().map(|c| &c.sides[..]).collect();
    for (c, least) in cases.iter().zip(rounds::least(&sides)) {
        let cell = |ns: f64| match ns.is_finite() {
            true => format!("{:.1}", ns / c.inputs as f64),
            false => "-".into(),
        };
        let cells: Vec<String> = least.into_iter().map(cell).collect();
        println!("{}\t{}\t{}", c.group, c.name, cells.join("\t"));
    }
}
