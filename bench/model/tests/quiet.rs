//! The quiet round: n untaken packets are all taken after n rounds.

mod common;

use common::{completion, pair, write, Ledger};
use model::pair::Pair;
use model::random::{setup, steps, Random, PROFILES};
use model::step::Step;
use model::units::Packet;

/// Rounds until nothing is untaken. Each must take something, and the lists stay whole.
fn rounds(pair: &mut Pair, ledger: &mut Ledger) -> usize {
    let mut rounds = 0;
    while ledger.untaken() > 0 {
        let before = ledger.untaken();
        pair.quiet_round(|step, outcome| ledger.record(step, outcome));
        assert!(ledger.untaken() < before, "a round took nothing");
        rounds += 1;
    }
    ledger.check(pair);
    rounds
}

#[test]
fn n_rounds_take_n_packets_on_random_states() {
    let (mut states, mut most) = (0, 0);
    for profile in PROFILES {
        for seed in 0..80 {
            let mut random = Random::new(1000 + seed);
            let setup = setup(profile, &mut random);
            let count = random.from_to(1, 1500) as usize;
            let steps = steps(profile, &mut random, &setup, count);
            let mut pair = Pair::start(&setup).unwrap();
            let mut ledger = Ledger::new(&setup);
            for step in &steps {
                let outcome = pair.act(step);
                ledger.record(step, &outcome);
            }
            let untaken = ledger.untaken();
            assert!(rounds(&mut pair, &mut ledger) <= untaken);
            assert!(pair.in_shape());
            states += 1;
            most = most.max(untaken);
        }
    }
    assert_eq!(states, 480);
    assert!(most > 60, "at most {most} untaken");
}

#[test]
fn the_steps_of_a_round_in_their_order() {
    let mut pair = pair(1, 1, 1);
    let mut made = Vec::new();
    pair.quiet_round(|step, outcome| made.push((*step, outcome.answer)));
    // An empty pair: Timers answer 23; three updates each way; each Take is refused once.
    assert_eq!(made.len(), 4 + 4 * 1024 + 6);
    let opening = [(Step::timer(0), 23), (Step::timer(1), 23), (Step::refresh(0), 0), (Step::refresh(1), 0)];
    assert_eq!(made[..4], opening);
    for exchange in 0..1024 {
        let (send, arrive) = if exchange < 3 { (0, 0) } else { (18, 19) };
        let at = 4 + 4 * exchange;
        let wanted = [
            (Step::send(0), send),
            (Step::arrive(1), arrive),
            (Step::send(1), send),
            (Step::arrive(0), arrive),
        ];
        assert_eq!(made[at..at + 4], wanted);
    }
    let takes = [(0, 0), (0, 1), (0, 2), (1, 0), (1, 1), (1, 2)];
    let wanted = takes.map(|(end, category)| (Step::take(end, 0, category), 21));
    assert_eq!(made[4 + 4096..], wanted);
}

/// Makes these steps on a pair with one channel and all units 1, then rounds until all is taken. The idents taken, by
/// round.
fn taken_by_round(steps: &[Step]) -> Vec<Vec<u32>> {
    let mut pair = pair(1, 1, 1);
    let mut ledger = Ledger::new(&pair.ends[0].setup);
    for step in steps {
        let outcome = pair.step(step);
        assert_eq!(outcome.answer, 0);
        ledger.record(step, &outcome);
    }
    let mut rounds = Vec::new();
    while ledger.untaken() > 0 {
        let mut taken = Vec::new();
        pair.quiet_round(|step, outcome| {
            ledger.record(step, outcome);
            taken.extend(outcome.packet.map(|packet| packet.ident));
        });
        rounds.push(taken);
    }
    rounds
}

fn submit(packet: Packet) -> Step {
    Step::submit(0, packet)
}

#[test]
fn n_rounds_are_tight_for_posted_packets() {
    // Header units 1: a round can send one, and its room comes back with the Take at the round's end.
    let eight: Vec<Step> = (1..9).map(|ident| submit(write(1, ident))).collect();
    let one_each = |most| (1..=most).map(|ident| vec![ident]).collect::<Vec<_>>();
    assert_eq!(taken_by_round(&eight), one_each(8));
    // A ninth waits at the receiver already; then the first round takes that one only.
    let mut nine = vec![submit(write(1, 1)), Step::send(0), Step::arrive(1)];
    nine.extend((2..10).map(|ident| submit(write(1, ident))));
    assert_eq!(taken_by_round(&nine), one_each(9));
}

#[test]
fn eight_posted_then_eight_completions_need_15_rounds() {
    // Each round takes one posted packet. Once the eighth has left the queue, in round 8, no older posted packet waits
    // there and the first completion, with a header unit of its own, follows in the same round. Then one a round.
    let mut steps: Vec<Step> = (1..9).map(|ident| submit(write(1, ident))).collect();
    steps.extend((9..17).map(|ident| submit(completion(ident))));
    let mut wanted: Vec<Vec<u32>> = (1..8).map(|ident| vec![ident]).collect();
    wanted.push(vec![8, 9]);
    wanted.extend((10..17).map(|ident| vec![ident]));
    assert_eq!(wanted.len(), 15);
    assert_eq!(taken_by_round(&steps), wanted);
}

#[test]
fn eight_completions_then_eight_posted_need_8_rounds() {
    // Nothing older and posted waits: a completion and a posted packet come through in each round.
    let mut steps: Vec<Step> = (9..17).map(|ident| submit(completion(ident))).collect();
    steps.extend((1..9).map(|ident| submit(write(1, ident))));
    let wanted: Vec<Vec<u32>> = (1..9).map(|ident| vec![ident, ident + 8]).collect();
    assert_eq!(taken_by_round(&steps), wanted);
}
