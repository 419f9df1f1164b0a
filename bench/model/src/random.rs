//! Random scripts, the same for the same seed: profiles of well-formed ones, and malformed ones.

use crate::script;
use crate::setup::{Setup, CHANNELS};
use crate::step::{Step, SUBMIT, TAKE};
use crate::units::{kind, Packet, Units, CATEGORIES};

/// A small generator: xorshift over 64 bits, with a last multiplication.
#[derive(Clone, Debug)]
pub struct Random(u64);

impl Random {
    pub fn new(seed: u64) -> Random {
        // The state may not be 0, and seeds that are close together must part at once.
        let mut random = Random((seed ^ 0x9e37_79b9_7f4a_7c15).wrapping_mul(0x2545_f491_4f6c_dd1d) | 1);
        for _ in 0..8 {
            random.draw();
        }
        random
    }

    pub fn draw(&mut self) -> u64 {
        self.0 ^= self.0 >> 12;
        self.0 ^= self.0 << 25;
        self.0 ^= self.0 >> 27;
        self.0.wrapping_mul(0x2545_f491_4f6c_dd1d)
    }

    /// A number below `bound`, which is not 0.
    pub fn below(&mut self, bound: u32) -> u32 {
        ((self.draw() >> 32) % u64::from(bound)) as u32
    }

    /// A number from `least` to `most`.
    pub fn from_to(&mut self, least: u32, most: u32) -> u32 {
        least + self.below(most - least + 1)
    }

    pub fn percent(&mut self, chance: u32) -> bool {
        self.below(100) < chance
    }

    pub fn one_of<T: Copy>(&mut self, all: &[T]) -> T {
        all[self.below(all.len() as u32) as usize]
    }
}

#[derive(Clone, Copy, Debug, PartialEq, Eq)]
pub enum Profile {
    /// A bit of everything.
    Mixed,
    /// Many frames lost and damaged.
    Lossy,
    /// One category in turn from end to end: header and data counters go round.
    Wrapping,
    /// Damage and timers: Naks, replays, retrains.
    Naks,
    /// Four channels, classes spread over them, small buffers.
    ManyChannels,
    /// Steps in form whose numbers are often out of range, and lines that fill: every refusal that a script can meet.
    Wild,
}

pub const PROFILES: [Profile; 6] =
    [Profile::Mixed, Profile::Lossy, Profile::Wrapping, Profile::Naks, Profile::ManyChannels, Profile::Wild];

impl Profile {
    pub fn name(self) -> &'static str {
        match self {
            Profile::Mixed => "mixed",
            Profile::Lossy => "lossy",
            Profile::Wrapping => "wrapping",
            Profile::Naks => "naks",
            Profile::ManyChannels => "many-channels",
            Profile::Wild => "wild",
        }
    }

    /// How often each of the steps 1 to 8 is drawn.
    fn weights(self) -> [u32; 8] {
        match self {
            Profile::Mixed => [22, 26, 24, 1, 1, 20, 4, 2],
            Profile::Lossy => [18, 30, 20, 7, 7, 10, 6, 2],
            Profile::Wrapping => [10, 25, 25, 2, 2, 16, 15, 5],
            Profile::Naks => [14, 34, 18, 12, 4, 6, 11, 1],
            Profile::ManyChannels => [26, 26, 24, 1, 1, 18, 3, 1],
            Profile::Wild => [24, 34, 13, 2, 2, 14, 5, 6],
        }
    }

    /// How many channels there are.
    fn channels(self, random: &mut Random) -> u32 {
        match self {
            Profile::ManyChannels => CHANNELS as u32,
            Profile::Wrapping => random.from_to(1, 2),
            _ => random.from_to(1, CHANNELS as u32),
        }
    }

    /// The units of one channel and category.
    fn units(self, random: &mut Random) -> Units {
        match self {
            Profile::Wrapping => Units::new(random.from_to(4, 16), random.from_to(256, 2047)),
            Profile::ManyChannels => Units::new(random.from_to(1, 4), random.from_to(1, 64)),
            _ => {
                let most = random.one_of(&[(1, 1), (2, 8), (4, 64), (16, 256), (16, 2047)]);
                Units::new(random.from_to(1, most.0), random.from_to(1, most.1))
            }
        }
    }
}

/// A setup in range.
pub fn setup(profile: Profile, random: &mut Random) -> Setup {
    let channels = profile.channels(random);
    setup_with(profile, random, channels)
}

/// A setup in range with so many channels.
fn setup_with(profile: Profile, random: &mut Random, channels: u32) -> Setup {
    let mut setup = Setup { channels, ..Setup::default() };
    for channel in &mut setup.class_channels {
        *channel = random.below(setup.channels);
    }
    for end in &mut setup.units {
        for channel in end.iter_mut().take(setup.channels as usize) {
            for units in channel {
                *units = profile.units(random);
            }
        }
    }
    setup
}

/// Steps in form, as many as asked for. Accepted packets have idents of their own up to 65,536 steps.
pub fn steps(profile: Profile, random: &mut Random, setup: &Setup, count: usize) -> Vec<Step> {
    let mut steps = Vec::new();
    let sender = random.below(2);
    let carried = random.below(CATEGORIES as u32) as usize;
    while steps.len() < count {
        let ident = steps.len() as u32 | random.below(1 << 16) << 16;
        if profile == Profile::Wrapping && random.percent(92) {
            steps.extend(carry(random, sender, carried, ident));
        } else {
            steps.push(one(profile, random, setup, ident));
        }
    }
    steps.truncate(count);
    steps
}

/// One step of a profile.
fn one(profile: Profile, random: &mut Random, setup: &Setup, ident: u32) -> Step {
    let weights = profile.weights();
    let mut left = random.below(weights.iter().sum());
    let mut number = 1;
    for weight in weights {
        if left < weight {
            break;
        }
        left -= weight;
        number += 1;
    }
    let end = random.below(2);
    match number {
        SUBMIT if profile == Profile::Wild && random.percent(30) => {
            Step::submit(end, odd_packet(random, ident))
        }
        SUBMIT => Step::submit(end, any_packet(random, setup, end, ident)),
        TAKE if profile == Profile::Wild && random.percent(30) => {
            Step::take(end, odd(random, CHANNELS as u32, 256), odd(random, CATEGORIES as u32, 256))
        }
        TAKE => {
            // A few are out of range: 20.
            let channel = if random.percent(2) { random.below(256) } else { random.below(setup.channels) };
            let category = if random.percent(2) { random.below(256) } else { random.below(3) };
            Step::take(end, channel, category)
        }
        _ => Step::bare(number, end),
    }
}

/// A number in range or a little past it, at times anything that the field can hold.
fn odd(random: &mut Random, range: u32, whole: u32) -> u32 {
    let most = if random.percent(20) { whole } else { range + 2 };
    random.below(most)
}

/// A packet with each number in range or not, by itself.
fn odd_packet(random: &mut Random, ident: u32) -> Packet {
    let (kind, class) = (odd(random, 10, 256), odd(random, 8, 256));
    let longest = random.one_of(&[1, 4, 64, 1024]);
    Packet::new(kind, class, odd(random, longest, 1 << 16), ident)
}

/// Any packet, mostly one that Submit can accept; some break rules 12 to 15.
fn any_packet(random: &mut Random, setup: &Setup, end: u32, ident: u32) -> Packet {
    if random.percent(3) {
        let kind = if random.percent(50) { random.below(256) } else { random.below(10) };
        let class = if random.percent(50) { random.below(256) } else { random.below(8) };
        return Packet::new(kind, class, random.below(1 << 16), ident);
    }
    let number = random.below(10);
    good_packet(random, setup, end, number, ident)
}

/// A packet of a kind that Submit accepts at an end if the queue has room; one in a hundred may be too long: 15.
fn good_packet(random: &mut Random, setup: &Setup, end: u32, number: u32, ident: u32) -> Packet {
    let row = kind(number).expect("a kind of the table");
    let class = if (2..=5).contains(&number) { 0 } else { random.below(8) };
    let units = setup.units[1 - end as usize][setup.channel_of(class)][row.category];
    let room = 4 * units.data;
    let mut longest = row.longest;
    if row.payload && !random.percent(1) {
        longest = longest.min(room);
    }
    if random.percent(50) {
        longest = longest.min(row.shortest + 15);
    }
    Packet::new(number, class, random.from_to(row.shortest, longest.max(row.shortest)), ident)
}

/// A packet of a category all the way from one end to the other, and its Ack and update back. Class 0, so that all go
/// over one channel; the wrapping setups have room for the longest.
fn carry(random: &mut Random, end: u32, category: usize, ident: u32) -> Vec<Step> {
    let number = random.one_of([&[1, 6, 7][..], &[0, 3], &[8, 9]][category]);
    let row = kind(number).expect("a kind of the table");
    let packet = Packet::new(number, 0, random.from_to(row.shortest, row.longest), ident);
    let other = 1 - end;
    vec![
        Step::submit(end, packet),
        Step::send(end),
        Step::arrive(other),
        Step::take(other, 0, category as u32),
        Step::send(other),
        Step::arrive(end),
        Step::send(other),
        Step::arrive(end),
    ]
}

/// The bytes of a well-formed script of a profile, of any length that is allowed.
pub fn script(profile: Profile, seed: u64) -> Vec<u8> {
    let mut random = Random::new(seed);
    let setup = setup(profile, &mut random);
    let count = match profile {
        Profile::Wrapping => random.from_to(4000, script::MOST_STEPS as u32),
        _ => {
            let most = random.one_of(&[0, 20, 200, 2000, script::MOST_STEPS as u32]);
            random.from_to(0, most)
        }
    };
    written(profile, &mut random, &setup, count)
}

/// The bytes of a well-formed script of a profile, of at most so many steps.
pub fn short_script(profile: Profile, seed: u64, most: u32) -> Vec<u8> {
    let mut random = Random::new(seed);
    let setup = setup(profile, &mut random);
    let count = random.from_to(0, most);
    written(profile, &mut random, &setup, count)
}

/// A script of a profile with so many channels and steps.
pub fn sized_script(profile: Profile, seed: u64, channels: u32, count: u32) -> Vec<u8> {
    let mut random = Random::new(seed);
    let setup = setup_with(profile, &mut random, channels);
    written(profile, &mut random, &setup, count)
}

/// The bytes of a script of a setup and so many steps of a profile.
fn written(profile: Profile, random: &mut Random, setup: &Setup, count: u32) -> Vec<u8> {
    let steps = steps(profile, random, setup, count as usize);
    script::write(setup, &steps).expect("a setup in range and steps in form")
}

/// The bytes of a script that is spoilt in one way. A few are still well-formed, as when only an ident changed.
pub fn malformed(seed: u64) -> Vec<u8> {
    let mut random = Random::new(seed);
    let profile = random.one_of(&PROFILES);
    let setup = setup(profile, &mut random);
    let count = random.below(40) as usize;
    let steps = steps(profile, &mut random, &setup, count);
    let mut bytes = script::write(&setup, &steps).expect("a setup in range and steps in form");
    match random.below(8) {
        0 => change_bytes(&mut random, &mut bytes, 0),
        1 => bytes.truncate(random.below(bytes.len() as u32) as usize),
        2 => spoil_trailer(&mut random, &mut bytes),
        3 => spoil_setup(&mut random, &mut bytes, 12 * count),
        4 => change_bytes(&mut random, &mut bytes, 116),
        5 => {
            let more = random.from_to(1, 30);
            bytes.extend((0..more).map(|_| random.draw() as u8));
        }
        6 => too_long(&mut random, &mut bytes),
        _ => {
            let length = random.below(400);
            bytes = (0..length).map(|_| random.draw() as u8).collect();
        }
    }
    bytes
}

/// Changes one to three bytes, none of the last `kept`.
fn change_bytes(random: &mut Random, bytes: &mut [u8], kept: usize) {
    let places = (bytes.len() - kept) as u32;
    if places == 0 {
        return;
    }
    for _ in 0..random.from_to(1, 3) {
        bytes[random.below(places) as usize] = random.draw() as u8;
    }
}

/// Gives the trailer a wrong offset, count or mark.
fn spoil_trailer(random: &mut Random, bytes: &mut [u8]) {
    let at = bytes.len() - 12;
    let count = u32::from_le_bytes(bytes[at + 4..at + 8].try_into().expect("four bytes"));
    let change = random.one_of(&[1, 2, 1 << 30, 1 << 31, u32::MAX]);
    let other = count.wrapping_add(change);
    match random.below(4) {
        0 => bytes[at..at + 4].copy_from_slice(&other.wrapping_mul(12).to_le_bytes()),
        1 => bytes[at + 4..at + 8].copy_from_slice(&other.to_le_bytes()),
        2 => {
            bytes[at..at + 4].copy_from_slice(&other.wrapping_mul(12).to_le_bytes());
            bytes[at + 4..at + 8].copy_from_slice(&other.to_le_bytes());
        }
        _ => bytes[at + 8 + random.below(4) as usize] ^= 1 << random.below(8),
    }
}

/// Puts a number at the edge of its range, or anything, into one byte of the setup.
fn spoil_setup(random: &mut Random, bytes: &mut [u8], offset: usize) {
    let places = if random.percent(50) { 8 } else { 104 };
    let at = offset + random.below(places) as usize;
    let any = random.draw() as u8;
    bytes[at] = random.one_of(&[0, 1, 4, 5, 7, 8, 16, 17, 255, any]);
}

/// Makes a script over 65,528 bytes, with a trailer that agrees or does not.
fn too_long(random: &mut Random, bytes: &mut Vec<u8>) {
    let tail = bytes.split_off(bytes.len() - script::SHORTEST);
    let count = script::MOST_STEPS as u32 + random.from_to(1, 3);
    *bytes = Step::send(0).to_record().repeat(count as usize);
    bytes.extend(tail);
    if random.percent(70) {
        let at = bytes.len() - 12;
        bytes[at..at + 4].copy_from_slice(&(12 * count).to_le_bytes());
        bytes[at + 4..at + 8].copy_from_slice(&count.to_le_bytes());
    }
}
