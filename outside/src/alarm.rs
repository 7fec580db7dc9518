//! A call that faults or does not end must still be found again: the handler prints the part, seed and run that were under way.

use std::sync::atomic::{AtomicU64, AtomicUsize, Ordering::Relaxed};

extern "C" {
    fn signal(number: i32, handler: usize) -> usize;
    fn alarm(seconds: u32) -> u32;
    fn write(fd: i32, bytes: *const u8, length: usize) -> isize;
    fn _exit(status: i32) -> !;
}

static PART: AtomicUsize = AtomicUsize::new(0);
static SEED: AtomicU64 = AtomicU64::new(0);
static RUN: AtomicU64 = AtomicU64::new(0);
static STEP: AtomicU64 = AtomicU64::new(0);
static NAMES: [&str; 6] = ["classes", "spans", "spoiled", "packets", "journal", "gauge"];

const ILLEGAL: i32 = 4;
const TRAP: i32 = 5;
const ABORT: i32 = 6;
const BUS: i32 = 7;
const ARITHMETIC: i32 = 8;
const FAULT: i32 = 11;
const ALARM: i32 = 14;

/// A run takes seconds at most; after this many it hangs.
const PATIENCE: u32 = 300;

fn say(text: &str) {
    unsafe { write(2, text.as_ptr(), text.len()) };
}

/// No memory may be asked for in a signal handler, so the digits are laid down by hand.
fn say_number(mut n: u64) {
    let mut digits = [b'0'; 20];
    let mut first = 19;
    loop {
        digits[first] = b'0' + (n % 10) as u8;
        n /= 10;
        if n == 0 {
            break;
        }
        first -= 1;
    }
    unsafe { write(2, digits[first..].as_ptr(), 20 - first) };
}

extern "C" fn caught(number: i32) {
    say(match number {
        ALARM => "DIFFERENCE: a call does not end",
        FAULT | BUS => "DIFFERENCE: a call touched memory that was not lent",
        _ => "DIFFERENCE: a call stopped the program",
    });
    say(" (signal ");
    say_number(number as u64);
    say("): part ");
    say(NAMES[PART.load(Relaxed)]);
    for (name, value) in [(" seed ", &SEED), (" run ", &RUN), (" step ", &STEP)] {
        say(name);
        say_number(value.load(Relaxed));
    }
    say("\n");
    unsafe { _exit(1) }
}

pub fn install(seed: u64) {
    SEED.store(seed, Relaxed);
    for number in [ILLEGAL, TRAP, ABORT, BUS, ARITHMETIC, FAULT, ALARM] {
        unsafe { signal(number, caught as *const () as usize) };
    }
}

pub fn part(name: &str) {
    PART.store(NAMES.iter().position(|n| *n == name).unwrap_or(0), Relaxed);
}

pub fn run(run: u64) {
    RUN.store(run, Relaxed);
    STEP.store(0, Relaxed);
    unsafe { alarm(PATIENCE) };
}

/// Called before each call; gives its number within the run.
pub fn step() -> u64 {
    STEP.fetch_add(1, Relaxed) + 1
}

pub fn last_step() -> u64 {
    STEP.load(Relaxed)
}
