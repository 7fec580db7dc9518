//! An outside test of the span allocator, written from the documents alone. See README.md.

mod alarm;
mod asked;
mod boundary;
mod calls;
mod check;
mod classes;
mod crate_beside;
mod desk;
mod draw;
mod example;
mod gauge;
mod gauge_calls;
mod guarded;
mod handles;
mod journal;
mod ledger;
mod old_words;
mod packet_calls;
mod packets;
mod part_classes;
mod part_gauge;
mod part_journal;
mod part_packets;
mod part_spans;
mod part_spoiled;
mod sizes;
mod sound;
mod spoil;
mod spoiled_others;
mod stretch;
mod tables;
mod tally;
mod words;

use std::panic::{catch_unwind, AssertUnwindSafe};
use std::time::Instant;

use draw::Draw;
use tally::Tally;

/// The parts and their share of a hundred rows.
const PARTS: [(&str, u64); 6] = [("classes", 8), ("spans", 36), ("spoiled", 28), ("packets", 13), ("journal", 9), ("gauge", 6)];
const ROWS: u64 = 30_000_000;

type OneRun<S> = fn(u64, &mut Draw, &mut S, &mut Tally) -> Result<(), String>;

/// Runs a part until it has its rows, or one run of it alone.
fn part<S>(at: usize, seed: u64, rows: u64, only: Option<u64>, mut stage: S, one: OneRun<S>) -> Tally {
    let mut tally = Tally::new(PARTS[at].0, seed, rows);
    alarm::part(tally.part);
    let begun = Instant::now();
    let mut number = only.unwrap_or(0);
    while tally.goes_on() {
        alarm::run(number);
        let mut draw = Draw::new(seed, at as u64, number);
        // A figure so wrong that this program itself stumbles over it is a difference too.
        let ended = catch_unwind(AssertUnwindSafe(|| one(number, &mut draw, &mut stage, &mut tally)));
        if let Err(what) = ended.unwrap_or_else(|_| Err("this program stopped at what it was told".into())) {
            tally.difference(number, &what);
        }
        number += 1;
        if only.is_some() {
            break;
        }
    }
    tally.print(begun.elapsed().as_secs_f64());
    tally
}

fn one_part(at: usize, seed: u64, rows: u64, only: Option<u64>) -> Tally {
    match PARTS[at].0 {
        "classes" => part(at, seed, rows, only, (), part_classes::run),
        "spans" => part(at, seed, rows, only, part_spans::Stage::new(), part_spans::run),
        "spoiled" => part(at, seed, rows, only, part_spoiled::Stage::new(), part_spoiled::run),
        "packets" => part(at, seed, rows, only, part_packets::Stage::new(), part_packets::run),
        "journal" => part(at, seed, rows, only, part_journal::Stage::new(), part_journal::run),
        _ => part(at, seed, rows, only, part_gauge::Stage::new(), part_gauge::run),
    }
}

fn usage() -> ! {
    let names: Vec<&str> = PARTS.iter().map(|p| p.0).collect();
    eprintln!("outside [SEED [ROWS [PART [RUN]]]]   PART: all, {}", names.join(", "));
    std::process::exit(2)
}

fn main() {
    let words: Vec<String> = std::env::args().skip(1).collect();
    let number = |k: usize, otherwise: u64| words.get(k).map_or(otherwise, |w| w.parse().unwrap_or_else(|_| usage()));
    let (seed, rows) = (number(0, 1), number(1, ROWS));
    let name = words.get(2).map_or("all", |w| w.as_str());
    let only = words.get(3).map(|_| number(3, 0));
    let chosen: Vec<usize> = (0..PARTS.len()).filter(|k| name == "all" || name == PARTS[*k].0).collect();
    if chosen.is_empty() || (only.is_some() && name == "all") {
        usage();
    }
    alarm::install(seed);
    println!("seed {seed}, {rows} rows");
    let (mut made, mut differences) = (0, 0);
    for at in chosen {
        let share = if name == "all" { (rows * PARTS[at].1).div_ceil(100) } else { rows };
        let tally = one_part(at, seed, share, only);
        made += tally.rows;
        differences += tally.differences;
    }
    println!("total: {made} rows, {differences} differences");
    std::process::exit(if differences == 0 { 0 } else { 1 });
}
