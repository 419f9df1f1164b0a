// Times the proved link against the plain model: both read and run the same scripts, in turn, and must take as many
// packets. Prints nanoseconds for a step, the sum over the scripts of the least of a few runs each, and the ratio: for
// three profiles, then how it grows with the channels in use and with the length of a script.
use model::random::{self, Profile};
use model::{listing, script};
use std::hint::black_box;
use std::time::Instant;

extern "C" {
    fn script_taken(b: *const u8, b_len: usize, l: *mut u32, l_len: usize) -> u32;
}

const PROFILES: [Profile; 3] = [Profile::Mixed, Profile::Lossy, Profile::Wrapping];
const FIRST_SEED: u64 = 1;
const RUNS: usize = 5;

fn steps_in(bytes: &[u8]) -> usize {
    (bytes.len() - script::SHORTEST) / script::RECORD_BYTES
}

fn proved(bytes: &[u8], list: &mut [u32]) -> u32 {
    unsafe { script_taken(bytes.as_ptr(), bytes.len(), list.as_mut_ptr(), list.len()) }
}

fn plain(bytes: &[u8]) -> u32 {
    let (setup, steps) = script::read(bytes).expect("a script in form");
    let run = listing::run(&setup, &steps).expect("a setup in range");
    run.taken[0] + run.taken[1]
}

fn timed<F: FnMut() -> u32>(mut f: F) -> (u128, u32) {
    let start = Instant::now();
    let taken = f();
    (start.elapsed().as_nanos(), taken)
}

fn measure(name: &str, scripts: impl Iterator<Item = Vec<u8>>) {
    let (mut ours, mut model, mut steps, mut taken) = (0, 0, 0, 0);
    for (place, bytes) in scripts.enumerate() {
        let count = steps_in(&bytes);
        let mut list = vec![0u32; 6 * count];
        let mut least = [u128::MAX; 2];
        for _ in 0..RUNS {
            let (a, took) = timed(|| proved(black_box(&bytes), &mut list));
            let (b, expected) = timed(|| plain(black_box(&bytes)));
            assert_eq!(took, expected, "packets taken, {name}, script {place}");
            least = [least[0].min(a), least[1].min(b)];
        }
        taken += u64::from(plain(&bytes));
        ours += least[0];
        model += least[1];
        steps += count;
    }
    let each = |time: u128| time as f64 / steps as f64;
    println!(
        "{name}: {steps} steps, {taken} packets taken by both; proved {:.1} ns a step, plain {:.1}: {:.2} times",
        each(ours),
        each(model),
        ours as f64 / model as f64
    );
}

fn main() {
    let scripts = std::env::args().nth(1).map_or(20, |n| n.parse().expect("a number of scripts"));
    let seeds = FIRST_SEED..FIRST_SEED + scripts;
    println!("seeds {FIRST_SEED} to {}", FIRST_SEED + scripts - 1);
    for profile in PROFILES {
        measure(profile.name(), seeds.clone().map(|seed| random::script(profile, seed)));
    }
    for channels in 1..=4 {
        let sized = |seed| random::sized_script(Profile::Mixed, seed, channels, 2_000);
        measure(&format!("mixed, {channels} channels, 2000 steps"), seeds.clone().map(sized));
    }
    for count in [10, 100, 1_000, script::MOST_STEPS as u32] {
        let sized = |seed| random::sized_script(Profile::Mixed, seed, 2, count);
        measure(&format!("mixed, 2 channels, {count} steps"), seeds.clone().map(sized));
    }
}
