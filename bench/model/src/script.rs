//! The script's reader and writer, with answers 1 to 7 and their places.

use crate::setup::{Setup, SETUP_BYTES};
use crate::step::Step;

pub const RECORD_BYTES: usize = 12;
pub const TRAILER_BYTES: usize = 12;
/// A script without steps.
pub const SHORTEST: usize = SETUP_BYTES + TRAILER_BYTES;
/// The most steps of a script.
pub const MOST_STEPS: usize = 5451;
/// A script with the most steps.
pub const LONGEST: usize = 65_528;
pub const MARK: &[u8; 4] = b"PLRN";

/// A refused script: the answer and its place.
#[derive(Clone, Copy, Debug, PartialEq, Eq)]
pub struct Refusal {
    pub answer: u32,
    pub place: usize,
}

fn refused<T>(answer: u32, place: usize) -> Result<T, Refusal> {
    Err(Refusal { answer, place })
}

/// The setup and the steps that a script means.
pub fn read(bytes: &[u8]) -> Result<(Setup, Vec<Step>), Refusal> {
    let length = bytes.len();
    if length < SHORTEST {
        return refused(1, 0);
    }
    if length > LONGEST {
        return refused(2, 0);
    }
    let trailer = &bytes[length - TRAILER_BYTES..];
    if &trailer[8..12] != MARK {
        return refused(3, 0);
    }
    let four = |at: usize| u32::from_le_bytes(trailer[at..at + 4].try_into().expect("four bytes"));
    let (offset, count) = (u64::from(four(0)), u64::from(four(4)));
    let records = RECORD_BYTES as u64 * count;
    if offset != records || records + SHORTEST as u64 != length as u64 || count > MOST_STEPS as u64 {
        return refused(4, 0);
    }
    let records = records as usize;
    let setup = Setup::from_bytes(&bytes[records..records + SETUP_BYTES]);
    if !setup.in_range() {
        return refused(5, records);
    }
    let mut steps = Vec::new();
    for (index, record) in bytes[..records].chunks(RECORD_BYTES).enumerate() {
        match Step::from_record(record) {
            Some(step) => steps.push(step),
            None => return refused(6, RECORD_BYTES * index),
        }
    }
    Ok((setup, steps))
}

/// Reads into a list that is lent, six numbers a step, and gives the setup and the count of steps. 7 if the list is
/// too short. Numbers past the last step stay as they were.
pub fn read_into(bytes: &[u8], list: &mut [u32]) -> Result<(Setup, usize), Refusal> {
    let (setup, steps) = read(bytes)?;
    if list.len() < 6 * steps.len() {
        return refused(7, 0);
    }
    for (six, step) in list.chunks_mut(6).zip(&steps) {
        let fields = [step.number, step.end, step.channel, step.kind, step.length, step.ident];
        six.copy_from_slice(&fields);
    }
    Ok((setup, steps.len()))
}

/// The script of a setup and steps: 4 too many, 5, 6.
pub fn write(setup: &Setup, steps: &[Step]) -> Result<Vec<u8>, Refusal> {
    if steps.len() > MOST_STEPS {
        return refused(4, 0);
    }
    let offset = RECORD_BYTES * steps.len();
    if !setup.in_range() {
        return refused(5, offset);
    }
    if let Some(index) = steps.iter().position(|step| !step.in_form() || !step.fits()) {
        return refused(6, RECORD_BYTES * index);
    }
    let mut bytes = Vec::new();
    for step in steps {
        bytes.extend(step.to_record());
    }
    bytes.extend(setup.to_bytes());
    bytes.extend((offset as u32).to_le_bytes());
    bytes.extend((steps.len() as u32).to_le_bytes());
    bytes.extend(MARK);
    Ok(bytes)
}

/// Writes into a buffer that is lent and gives the script's length. 7 if the buffer is too short. Later bytes stay as
/// they were.
pub fn write_into(setup: &Setup, steps: &[Step], buffer: &mut [u8]) -> Result<usize, Refusal> {
    let bytes = write(setup, steps)?;
    if buffer.len() < bytes.len() {
        return refused(7, 0);
    }
    buffer[..bytes.len()].copy_from_slice(&bytes);
    Ok(bytes.len())
}
