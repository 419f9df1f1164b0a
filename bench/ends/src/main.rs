//! Holds one proved end in its host's memory against the plain model's: both take the same random steps, and frames from
//! nowhere reach them, so that 24 to 27 are given too. They must tell the same, and the proved end must stay in shape.
//! The first difference ends it. Usage: ends [ENDS]; by default 20,000, of 200 steps each.

mod sides;
mod steps;

use std::process::ExitCode;
use std::time::Instant;

use model::random::{self, Random, PROFILES};
use sides::Plain;

const FIRST_SEED: u64 = 1;
const DEFAULT: u64 = 20_000;
const STEPS: u32 = 200;
/// Answer numbers are below this.
const ANSWERS: usize = 28;

/// How often each number was answered.
type Tally = [u64; ANSWERS];

/// Steps both ends of a seed; says where they first differ.
fn compare(seed: u64, tally: &mut Tally) -> Result<(), String> {
    let mut random = Random::new(seed);
    let profile = PROFILES[(seed % PROFILES.len() as u64) as usize];
    let setup = random::setup(profile, &mut random);
    let side = random.below(2);
    let (mut proved, mut plain) = sides::start(&setup, side);
    for index in 0..STEPS {
        let step = steps::draw(&mut random, &plain);
        let (a, b) = (sides::proved(&mut proved, step), sides::plain(&mut plain, step));
        if a != b {
            return Err(format!("step {index}, {step:?}\nproved {a:?}\nplain  {b:?}"));
        }
        if !proved.in_shape() {
            return Err(format!("step {index}, {step:?}: the proved end is out of shape"));
        }
        tally[a.answer as usize] += 1;
    }
    retrains(u32::from(proved.retrains()), &plain)
}

fn retrains(proved: u32, plain: &Plain) -> Result<(), String> {
    if proved == plain.retrains {
        return Ok(());
    }
    Err(format!("retrains: proved {proved}, plain {}", plain.retrains))
}

/// The numbers that occurred, each with how often.
fn occurred(tally: &Tally) -> String {
    let some = tally.iter().enumerate().filter(|(_, &count)| count > 0);
    some.map(|(answer, count)| format!("{answer}: {count}")).collect::<Vec<_>>().join(", ")
}

fn main() -> ExitCode {
    let ends = std::env::args().nth(1).map_or(DEFAULT, |word| word.parse().expect("a number of ends"));
    let (start, last) = (Instant::now(), FIRST_SEED + ends - 1);
    let mut tally = [0; ANSWERS];
    for seed in FIRST_SEED..=last {
        if let Err(text) = compare(seed, &mut tally) {
            println!("ends: a difference, seed {seed}\n{text}");
            return ExitCode::FAILURE;
        }
    }
    let (steps, seconds) = (tally.iter().sum::<u64>(), start.elapsed().as_secs_f64());
    println!("ends: {ends} alike, seeds {FIRST_SEED} to {last}, {steps} steps, {seconds:.1} s");
    println!("  their answers: {}", occurred(&tally));
    ExitCode::SUCCESS
}
