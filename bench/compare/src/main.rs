//! Holds the proved library against the plain model: both read and run the same random scripts and malformed inputs,
//! and must show the same. The first difference ends it, with the input in a file.
//! Usage: compare [SCRIPTS [MALFORMED]]; by default 200,000 of each.

mod sides;

use std::fs;
use std::process::ExitCode;
use std::time::Instant;

use model::random::{self, Random, PROFILES};
use model::script::{RECORD_BYTES, SHORTEST};
use sides::{plain, proved, Case, Shown};

const FIRST_SEED: u64 = 1;
const DEFAULT: u64 = 200_000;
/// The most steps of a short script.
const SHORT: u32 = 59;
/// Of so many rounds of all profiles one has scripts of any length.
const ROUNDS: u64 = 30;
/// Answer numbers are below this.
const ANSWERS: usize = 28;
/// Where the input of a difference goes.
const FILE: &str = "target/difference.plrn";

/// What was compared: steps, and how often scripts and steps were answered with each number.
#[derive(Default)]
struct Tally {
    steps: u64,
    scripts: [u64; ANSWERS],
    answers: [u64; ANSWERS],
}

impl Tally {
    fn add(&mut self, shown: &Shown) {
        self.scripts[shown.ran.answer as usize] += 1;
        for pair in shown.answers.chunks_exact(2).take(shown.ran.count as usize) {
            self.steps += 1;
            self.answers[pair[0] as usize] += 1;
        }
    }
}

/// How many numbers the steps of some bytes take in a list, so many each.
fn whole(bytes: &[u8], each: usize) -> usize {
    bytes.len().saturating_sub(SHORTEST) / RECORD_BYTES * each
}

/// A script by its seed: all profiles in turn, short ones and some of any length. The lists lent have room to spare.
fn script(seed: u64) -> Case {
    let count = PROFILES.len() as u64;
    let profile = PROFILES[(seed % count) as usize];
    let bytes = if seed / count % ROUNDS == 0 {
        random::script(profile, seed)
    } else {
        random::short_script(profile, seed, SHORT)
    };
    let spare = (seed % 7) as usize;
    Case { numbers: whole(&bytes, 6) + spare, answers: whole(&bytes, 2) + spare, bytes }
}

/// A malformed input by its seed. Some of the lists lent are too short.
fn malformed(seed: u64) -> Case {
    let bytes = random::malformed(seed);
    let mut random = Random::new(!seed);
    let mut room = |whole: usize| {
        let spare = random.below(7) as usize;
        if random.percent(25) {
            random.below(whole as u32 + 1) as usize
        } else {
            whole + spare
        }
    };
    Case { numbers: room(whole(&bytes, 6)), answers: room(whole(&bytes, 2)), bytes }
}

/// Says where two runs first differ: the step, and what each gives.
fn difference(proved: &Shown, plain: &Shown) -> String {
    let mut text = format!("proved {:?}\nplain  {:?}\n", proved.ran, plain.ran);
    if proved.numbers != plain.numbers {
        text += "the lists of the steps' numbers differ\n";
    }
    let mut both = proved.answers.chunks(2).zip(plain.answers.chunks(2)).enumerate();
    if let Some((index, (a, b))) = both.find(|(_, (a, b))| a != b) {
        text += &format!("step {index}, answer and detail: proved {a:?}, plain {b:?}\n");
    }
    text
}

/// Compares the inputs of a row of seeds; none if two runs differ.
fn compare(name: &str, draw: fn(u64) -> Case, inputs: u64) -> Option<Tally> {
    let mut tally = Tally::default();
    for seed in FIRST_SEED..FIRST_SEED + inputs {
        let case = draw(seed);
        let (a, b) = (proved(&case), plain(&case));
        if a != b {
            print!("{name}: a difference, seed {seed}\n{}", difference(&a, &b));
            println!("lists lent: {} numbers for steps, {} for answers", case.numbers, case.answers);
            match fs::write(FILE, &case.bytes) {
                Ok(()) => println!("the input is in {FILE}"),
                Err(error) => println!("the input could not be written to {FILE}: {error}"),
            }
            return None;
        }
        tally.add(&a);
    }
    Some(tally)
}

/// The numbers that occurred, each with how often.
fn occurred(counts: &[u64]) -> String {
    let some = counts.iter().enumerate().filter(|(_, &count)| count > 0);
    some.map(|(answer, count)| format!("{answer}: {count}")).collect::<Vec<_>>().join(", ")
}

/// Compares and says what was compared; whether all are alike.
fn alike(name: &str, draw: fn(u64) -> Case, inputs: u64) -> bool {
    let start = Instant::now();
    let Some(tally) = compare(name, draw, inputs) else {
        return false;
    };
    let last = FIRST_SEED + inputs - 1;
    let (steps, seconds) = (tally.steps, start.elapsed().as_secs_f64());
    println!("{name}: {inputs} alike, seeds {FIRST_SEED} to {last}, {steps} steps, {seconds:.1} s");
    println!("  their answers: {}", occurred(&tally.scripts));
    println!("  their steps' answers: {}", occurred(&tally.answers));
    true
}

fn main() -> ExitCode {
    let mut words = std::env::args().skip(1);
    let mut number = || words.next().map_or(DEFAULT, |word| word.parse().expect("a number of inputs"));
    let (scripts, spoilt) = (number(), number());
    if alike("scripts", script, scripts) && alike("malformed inputs", malformed, spoilt) {
        ExitCode::SUCCESS
    } else {
        ExitCode::FAILURE
    }
}
