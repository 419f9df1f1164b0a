//! `generate PROFILE SEED` writes a random script to standard output. PROFILE is mixed, lossy, wrapping, naks,
//! many-channels, wild or malformed.

use std::io::{self, Write};
use std::process::ExitCode;

use model::random::{malformed, script, PROFILES};

/// The script asked for, or none if the words are not understood.
fn asked(name: &str, seed: &str) -> Option<Vec<u8>> {
    let seed = seed.parse().ok()?;
    if name == "malformed" {
        return Some(malformed(seed));
    }
    let profile = PROFILES.into_iter().find(|profile| profile.name() == name)?;
    Some(script(profile, seed))
}

fn main() -> ExitCode {
    let words: Vec<String> = std::env::args().skip(1).collect();
    let script = match words.as_slice() {
        [name, seed] => asked(name, seed),
        _ => None,
    };
    let Some(bytes) = script else {
        eprintln!(
            "generate PROFILE SEED: mixed, lossy, wrapping, naks, many-channels, wild or malformed, and a number"
        );
        return ExitCode::FAILURE;
    };
    match io::stdout().write_all(&bytes) {
        Ok(()) => ExitCode::SUCCESS,
        Err(_) => ExitCode::FAILURE,
    }
}
