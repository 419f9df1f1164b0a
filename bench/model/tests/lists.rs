//! Demand 3 on random runs: the lists stay whole, no packet passes an earlier posted one, and none of 10 and 24 to 27
//! is answered.

mod common;

use common::Ledger;
use model::pair::Pair;
use model::random::{setup, steps, Profile, Random, PROFILES};
use model::setup::Setup;
use model::step::{Step, SEND};

/// Runs the steps, 10 asked at each one and the lists compared after every `every` steps. Counts the answers.
fn run(setup: &Setup, steps: &[Step], every: usize, answers: &mut [u64; 28]) -> Pair {
    let mut pair = Pair::start(setup).unwrap();
    let mut ledger = Ledger::new(setup);
    for (index, step) in steps.iter().enumerate() {
        let outcome = pair.step(step);
        answers[outcome.answer as usize] += 1;
        ledger.record(step, &outcome);
        if index % every == 0 {
            ledger.check(&pair);
        }
    }
    ledger.check(&pair);
    pair
}

#[test]
fn the_lists_stay_whole_and_arrivals_are_never_refused() {
    let mut answers = [0; 28];
    for profile in PROFILES {
        for seed in 0..30 {
            let mut random = Random::new(seed);
            let setup = setup(profile, &mut random);
            let steps = steps(profile, &mut random, &setup, 3000);
            run(&setup, &steps, 1, &mut answers);
        }
    }
    for never in [1, 2, 3, 4, 5, 6, 7, 10, 11, 24, 25, 26, 27] {
        assert_eq!(answers[never], 0, "answer {never}");
    }
    // The runs meet every other refusal, so that the above says something.
    for met in (12..=23).chain([0]) {
        assert!(answers[met] > 0, "answer {met}");
    }
}

/// No script is long enough for this, so it is shown on the pair itself.
#[test]
fn sequence_numbers_go_round() {
    for seed in 0..3 {
        let mut random = Random::new(seed);
        let setup = setup(Profile::Wrapping, &mut random);
        let mut all = steps(Profile::Wrapping, &mut random, &setup, 65_000);
        all.extend(steps(Profile::Wrapping, &mut random, &setup, 65_000));
        let mut pair = Pair::start(&setup).unwrap();
        let mut ledger = Ledger::new(&setup);
        let mut new = [0; 2];
        for (index, step) in all.iter().enumerate() {
            let outcome = pair.step(step);
            assert!(outcome.answer < 24 && outcome.answer != 10);
            ledger.record(step, &outcome);
            if step.number == SEND && outcome.detail == 5 {
                new[step.end as usize] += 1;
            }
            if index % 500 == 0 {
                ledger.check(&pair);
            }
        }
        ledger.check(&pair);
        assert!(new[0].max(new[1]) > 4096, "{new:?} new packets");
    }
}
