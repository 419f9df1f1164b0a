//! The run of a script and its listing.

use crate::pair::{Outcome, Pair};
use crate::script::{self, Refusal};
use crate::setup::Setup;
use crate::step::{Step, SUBMIT, TAKE};

/// What a run of a script leaves.
#[derive(Clone, Debug, PartialEq, Eq)]
pub struct Run {
    pub pair: Pair,
    /// One for each step.
    pub outcomes: Vec<Outcome>,
    /// Packets accepted by Submit, by end.
    pub accepted: [u32; 2],
    /// Packets taken, by end.
    pub taken: [u32; 2],
}

/// Runs the steps on a fresh pair, or 5.
pub fn run(setup: &Setup, steps: &[Step]) -> Result<Run, u32> {
    let mut pair = Pair::start(setup)?;
    let mut outcomes = Vec::new();
    let (mut accepted, mut taken) = ([0; 2], [0; 2]);
    for step in steps {
        let outcome = pair.act(step);
        if outcome.answer == 0 && step.number == SUBMIT {
            accepted[step.end as usize] += 1;
        }
        if outcome.answer == 0 && step.number == TAKE {
            taken[step.end as usize] += 1;
        }
        outcomes.push(outcome);
    }
    Ok(Run { pair, outcomes, accepted, taken })
}

/// The lines of a run.
pub fn lines(run: &Run) -> String {
    let mut text = String::from("step answer detail\n");
    for (index, outcome) in run.outcomes.iter().enumerate() {
        text += &format!("{index} {} {}\n", outcome.answer, outcome.detail);
    }
    for end in 0..2 {
        let (accepted, taken) = (run.accepted[end], run.taken[end]);
        let retrains = run.pair.ends[end].retrains;
        text += &format!("end {end} accepted {accepted} taken {taken} retrains {retrains}\n");
    }
    text
}

/// The one line of a bad script.
pub fn refusal(refusal: &Refusal) -> String {
    format!("refused {} at {}\n", refusal.answer, refusal.place)
}

/// What the program writes for a script's bytes.
pub fn listing(bytes: &[u8]) -> String {
    match script::read(bytes) {
        Ok((setup, steps)) => lines(&run(&setup, &steps).expect("the reader accepts no bad setup")),
        Err(bad) => refusal(&bad),
    }
}
