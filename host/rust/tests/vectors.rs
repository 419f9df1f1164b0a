//! Scripts with the listings that an independent model gives for them, played over two ends and two lines of 16 frames. The listing must
//! be the same, line for line. Scripts that are refused as a whole have no ends to play.
use link::{End, Frame, Packet, Refusal, Setup, SETUP_BYTES};
use std::collections::VecDeque;
use std::fs;

const FOLDER: &str = concat!(env!("CARGO_MANIFEST_DIR"), "/../../crates/vectors_test/data");
const RECORD: usize = 12;
const LINE: usize = 16;

/// Two ends, and the lines towards them.
struct Pair {
    ends: [End; 2],
    lines: [VecDeque<Frame>; 2],
}

fn number(refusal: Refusal) -> u8 {
    refusal.number()
}

impl Pair {
    /// Asks for a full line (17) after 18, and then changes nothing.
    fn send(&mut self, end: usize) -> Result<u32, u8> {
        let mut acting = self.ends[end].clone();
        let (frame, source) = acting.send().map_err(number)?;
        let line = &mut self.lines[1 - end];
        if line.len() == LINE {
            return Err(17);
        }
        line.push_back(frame);
        self.ends[end] = acting;
        Ok(source as u32)
    }

    /// The detail, or the refusal.
    fn step(&mut self, record: &[u8]) -> Result<u32, u8> {
        let (step, end, first, second) = (record[0], record[1] as usize, record[2], record[3]);
        let length = u16::from_le_bytes([record[4], record[5]]);
        let ident = u32::from_le_bytes([record[8], record[9], record[10], record[11]]);
        let packet = Packet { kind: second, class: first, length, ident };
        match step {
            1 => self.ends[end].submit(packet).map(|()| 0).map_err(number),
            2 => self.send(end),
            3..=5 => {
                let frame = self.lines[end].pop_front().ok_or(19)?;
                match step {
                    3 => self.ends[end].arrive(frame).map(|detail| detail as u32).map_err(number),
                    4 => self.ends[end].damage(frame).map(|detail| detail as u32).map_err(number),
                    _ => Ok(0),
                }
            }
            6 => self.ends[end].take(first, second).map_err(number),
            7 => self.ends[end].timer().map(|()| 0).map_err(number),
            _ => self.ends[end].refresh().map(|()| 0).map_err(number),
        }
    }
}

/// The listing of a script in form.
fn listing(script: &[u8]) -> String {
    let steps = script.len() - SETUP_BYTES - RECORD;
    let setup: [u8; SETUP_BYTES] = script[steps..steps + SETUP_BYTES].try_into().unwrap();
    let ends = [0, 1].map(|which| End::start(&Setup::from(setup), which).unwrap());
    let mut pair = Pair { ends, lines: Default::default() };
    let (mut accepted, mut taken) = ([0; 2], [0; 2]);
    let mut text = String::from("step answer detail\n");
    for (index, record) in script[..steps].chunks_exact(RECORD).enumerate() {
        let result = pair.step(record);
        accepted[record[1] as usize] += u32::from(result.is_ok() && record[0] == 1);
        taken[record[1] as usize] += u32::from(result.is_ok() && record[0] == 6);
        let (answer, detail) = result.map_or_else(|answer| (answer, 0), |detail| (0, detail));
        text += &format!("{index} {answer} {detail}\n");
    }
    for (end, state) in pair.ends.iter().enumerate() {
        assert!(state.in_shape());
        text += &format!(
            "end {end} accepted {} taken {} retrains {}\n",
            accepted[end],
            taken[end],
            state.retrains()
        );
    }
    text
}

#[test]
fn as_the_listings_say() {
    let mut played = 0;
    for entry in fs::read_dir(FOLDER).unwrap() {
        let path = entry.unwrap().path();
        if path.extension().is_none_or(|extension| extension != "plrn") {
            continue;
        }
        let expected = fs::read_to_string(path.with_extension("txt")).unwrap();
        if expected.starts_with("refused") {
            continue;
        }
        let got = listing(&fs::read(&path).unwrap());
        let other = got.lines().zip(expected.lines()).find(|(got, expected)| got != expected);
        assert!(got == expected, "{}: {other:?}", path.display());
        played += 1;
    }
    assert!(played >= 35, "{played} scripts played");
}
