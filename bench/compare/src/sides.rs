//! The two sides: the proved library and the plain model, asked the same way.

use model::listing;
use model::script::{self, Refusal};

/// What stands in the lists lent before a run, so that a number written too far is seen.
const BLANK: u32 = 0xdead_beef;

/// A script's bytes, and how many numbers the lists lent for its steps and for its answers hold.
pub struct Case {
    pub bytes: Vec<u8>,
    pub numbers: usize,
    pub answers: usize,
}

/// The struct of the same name in `crates/runs_export`.
#[repr(C)]
#[derive(Clone, Copy, Debug, Default, PartialEq, Eq)]
pub struct Ran {
    pub answer: u32,
    pub place: u32,
    pub count: u32,
    pub accepted: [u32; 2],
    pub taken: [u32; 2],
    pub retrains: [u32; 2],
}

/// All that a run shows: what it gives, and both lists lent.
#[derive(PartialEq, Eq)]
pub struct Shown {
    pub ran: Ran,
    pub numbers: Vec<u32>,
    pub answers: Vec<u32>,
}

extern "C" {
    fn script_run(
        b: *const u8,
        b_len: usize,
        l: *mut u32,
        l_len: usize,
        out: *mut u32,
        out_len: usize,
    ) -> Ran;
}

fn lists(case: &Case) -> (Vec<u32>, Vec<u32>) {
    (vec![BLANK; case.numbers], vec![BLANK; case.answers])
}

pub fn proved(case: &Case) -> Shown {
    let (mut numbers, mut answers) = lists(case);
    let (b, l, out) = (&case.bytes, &mut numbers, &mut answers);
    let ran =
        unsafe { script_run(b.as_ptr(), b.len(), l.as_mut_ptr(), l.len(), out.as_mut_ptr(), out.len()) };
    Shown { ran, numbers, answers }
}

pub fn plain(case: &Case) -> Shown {
    let (mut numbers, mut answers) = lists(case);
    let ran = match script::read_into(&case.bytes, &mut numbers) {
        Ok(_) => run(&case.bytes, &mut answers),
        Err(Refusal { answer, place }) => Ran { answer, place: place as u32, ..Ran::default() },
    };
    Shown { ran, numbers, answers }
}

/// Runs a script that is in form, and fills as many pairs of answer and detail as have room.
fn run(bytes: &[u8], answers: &mut [u32]) -> Ran {
    let (setup, steps) = script::read(bytes).expect("a script in form");
    let run = listing::run(&setup, &steps).expect("a setup in range");
    for (pair, outcome) in answers.chunks_exact_mut(2).zip(&run.outcomes) {
        pair.copy_from_slice(&[outcome.answer, outcome.detail]);
    }
    let retrains = run.pair.ends.map(|end| end.retrains);
    let count = steps.len() as u32;
    Ran { answer: 0, place: 0, count, accepted: run.accepted, taken: run.taken, retrains }
}
