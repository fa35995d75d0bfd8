//! The yardstick for the time of a run: the mechanism of `crates/trade_line` in plain Rust, on the markets of
//! `crates/trade_bench`. It takes the arguments that `trade_bench` takes, and prints the columns that it prints.
mod arguments;
mod generator;
mod line;
mod markets;

use crate::line::{run, Outcome};
use crate::markets::{Market, NONE};
use std::hint::black_box;
use std::process::ExitCode;
use std::time::Instant;

// People and runs of one measurement, multiplied.
const TURNS: usize = 50_000;

// A number that tells the rooms of one run from those of another.
fn check(outcome: &Outcome) -> u64 {
    (outcome.rooms.iter()).fold(0, |sum: u64, &room| {
        let number = if room == NONE { 0 } else { room as u64 + 1 };
        sum.wrapping_mul(31).wrapping_add(number)
    })
}

// Nanoseconds a run.
fn time(market: &Market) -> u128 {
    let repeats = (TURNS / market.people()).max(1);
    let start = Instant::now();
    for _ in 0..repeats {
        black_box(run(black_box(market)));
    }
    start.elapsed().as_nanos() / repeats as u128
}

fn main() -> ExitCode {
    let words: Vec<String> = std::env::args().skip(1).collect();
    let Some((shapes, timed)) = arguments::parse(&words) else {
        eprintln!("{}", arguments::USAGE);
        return ExitCode::FAILURE;
    };
    for shape in shapes {
        let market = shape.market();
        let outcome = run(&market);
        print!("{} {} {} ", shape.people, shape.listed, shape.kind);
        print!("{} {} {}", outcome.asks, outcome.looks, check(&outcome));
        if timed {
            print!(" {}", time(&market));
        }
        println!();
    }
    ExitCode::SUCCESS
}
