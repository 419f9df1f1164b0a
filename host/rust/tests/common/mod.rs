//! What the tests share: setups, packets and numbers. Not each test uses all of it.
#![allow(dead_code)]
use link::{Category, Packet, Setup};

/// Numbers that look random and are the same in each run.
pub struct Numbers(pub u64);

impl Numbers {
    pub fn below(&mut self, n: u64) -> u64 {
        self.0 = self.0.wrapping_mul(6364136223846793005).wrapping_add(1442695040888963407);
        (self.0 >> 33) % n
    }
}

/// All classes on channel 0, and these units everywhere.
pub fn one_channel(header: u16, data: u16) -> Setup {
    all_units(Setup::new(1), 1, header, data)
}

/// Class 7 on channel 1, the others on channel 0, and these units everywhere.
pub fn two_channels(header: u16, data: u16) -> Setup {
    all_units(Setup::new(2).class(7, 1), 2, header, data)
}

fn all_units(mut setup: Setup, channels: usize, header: u16, data: u16) -> Setup {
    for slot in 0..6 * channels {
        let (end, channel, category) = (slot / (3 * channels), slot / 3 % channels, Category::ALL[slot % 3]);
        setup = setup.units(end, channel, category, header, data);
    }
    setup
}

pub fn packet(kind: u8, class: u8, length: u16, ident: u32) -> Packet {
    Packet { kind, class, length, ident }
}
