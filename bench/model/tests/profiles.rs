//! The random scripts do what their profiles are named for.

use model::listing::run;
use model::random::{malformed, script, Profile, PROFILES};
use model::script::{read, write, LONGEST};
use model::step::{Step, ARRIVE, DAMAGE, LOSE, SEND};
use model::units::{COMPLETION, POSTED};

/// How many steps of this number answered 0 with this detail.
fn count(steps: &[Step], run: &model::listing::Run, number: u32, detail: u32) -> usize {
    let pairs = steps.iter().zip(&run.outcomes);
    pairs.filter(|(step, o)| step.number == number && o.answer == 0 && o.detail == detail).count()
}

/// All scripts of a profile for some seeds, put through a test.
fn each(profile: Profile, seeds: u64, mut test: impl FnMut(&[Step], model::listing::Run)) {
    for seed in 0..seeds {
        let (setup, steps) = read(&script(profile, seed)).expect("a well-formed script");
        let run = run(&setup, &steps).unwrap();
        test(&steps, run);
    }
}

#[test]
fn the_same_seed_gives_the_same_script() {
    for profile in PROFILES {
        assert_eq!(script(profile, 5), script(profile, 5));
        assert_ne!(script(profile, 5), script(profile, 6));
    }
    assert_eq!(malformed(5), malformed(5));
}

#[test]
fn scripts_are_well_formed_and_are_written_back_alike() {
    for profile in PROFILES {
        for seed in 0..40 {
            let bytes = script(profile, seed);
            let (setup, steps) = read(&bytes).expect("a well-formed script");
            assert_eq!(write(&setup, &steps), Ok(bytes));
        }
    }
}

#[test]
fn wrapping_takes_header_and_data_counters_round() {
    let (mut header_rounds, mut data_rounds) = (0, 0);
    each(Profile::Wrapping, 12, |steps, run| {
        let (mut header, mut data) = ([0; 2], [0; 2]);
        for (step, outcome) in steps.iter().zip(&run.outcomes) {
            if let Some(packet) = outcome.packet {
                // On channel 0 and in one category nearly all of them.
                if step.channel == 0 && [POSTED, COMPLETION].contains(&packet.category()) {
                    header[step.end as usize] += 1;
                    data[step.end as usize] += packet.units().data;
                }
            }
        }
        header_rounds += u32::from(header[0].max(header[1]) > 300);
        data_rounds += u32::from(data[0].max(data[1]) > 8192);
    });
    assert!(header_rounds >= 3 && data_rounds >= 3, "{header_rounds} and {data_rounds} of 12");
}

#[test]
fn naks_bring_naks_replays_and_retrains() {
    let (mut naks, mut replays, mut retrains) = (0, 0, 0);
    each(Profile::Naks, 20, |steps, run| {
        naks += count(steps, &run, SEND, 1);
        replays += count(steps, &run, SEND, 4);
        retrains += run.pair.ends[0].retrains + run.pair.ends[1].retrains;
    });
    assert!(naks > 100 && replays > 300 && retrains > 20, "{naks} {replays} {retrains}");
}

#[test]
fn lossy_scripts_lose_and_damage() {
    let (mut lost, mut damaged, mut duplicates, mut out_of_order) = (0, 0, 0, 0);
    each(Profile::Lossy, 20, |steps, run| {
        lost += count(steps, &run, LOSE, 0);
        damaged += count(steps, &run, DAMAGE, 4);
        duplicates += count(steps, &run, ARRIVE, 2);
        out_of_order += count(steps, &run, ARRIVE, 3);
    });
    assert!(lost > 300 && damaged > 300, "{lost} {damaged}");
    assert!(duplicates > 100 && out_of_order > 100, "{duplicates} {out_of_order}");
}

#[test]
fn many_channels_use_all_four() {
    let mut taken = [0; 4];
    each(Profile::ManyChannels, 20, |steps, run| {
        for (step, outcome) in steps.iter().zip(&run.outcomes) {
            taken[step.channel as usize % 4] += u32::from(outcome.packet.is_some());
        }
    });
    assert!(taken.iter().all(|&count| count > 50), "{taken:?}");
}

#[test]
fn wild_scripts_meet_every_refusal_of_a_step() {
    let mut answers = [0; 28];
    each(Profile::Wild, 40, |_, run| {
        for outcome in &run.outcomes {
            answers[outcome.answer as usize] += 1;
        }
    });
    // The reader refuses an end that is not 0 or 1, so no script meets 11; and none meets 10 or 24 to 27.
    assert!(answers[12..=23].iter().all(|&count| count > 10), "{answers:?}");
    assert!([6, 10, 11, 24, 25, 26, 27].iter().all(|&answer| answers[answer] == 0), "{answers:?}");
}

#[test]
fn malformed_scripts_meet_every_refusal_of_the_reader() {
    let mut answers = [0; 8];
    let mut longest = 0;
    for seed in 0..2000 {
        let bytes = malformed(seed);
        longest = longest.max(bytes.len());
        match read(&bytes) {
            Ok((setup, steps)) => {
                answers[0] += 1;
                assert_eq!(write(&setup, &steps), Ok(bytes));
            }
            Err(refusal) => answers[refusal.answer as usize] += 1,
        }
    }
    assert!(answers[..7].iter().all(|&count| count > 10), "{answers:?}");
    assert_eq!(answers[7], 0);
    assert!(longest > LONGEST);
}
