//! The setup: channels, the channel of each class, and the units that each end advertises. Rule 5 and its 104 bytes.

use crate::units::{Units, CATEGORIES};

/// A state has room for this many channels.
pub const CHANNELS: usize = 4;
/// The setup's bytes in a script.
pub const SETUP_BYTES: usize = 104;
/// The greatest numbers of units of one channel and category.
pub const MOST: Units = Units { header: 16, data: 2047 };

#[derive(Clone, Copy, Debug, Default, PartialEq, Eq)]
pub struct Setup {
    /// n, the channels in use: those below it.
    pub channels: u32,
    /// The channels of classes 1 to 7. Class 0 is on channel 0.
    pub class_channels: [u32; 7],
    /// The units by end, channel and category.
    pub units: [[[Units; CATEGORIES]; CHANNELS]; 2],
}

impl Setup {
    /// n channels, all classes on channel 0, the same units everywhere.
    pub fn even(channels: u32, units: Units) -> Setup {
        let mut setup = Setup { channels, ..Setup::default() };
        for end in &mut setup.units {
            for channel in end.iter_mut().take(channels as usize) {
                *channel = [units; CATEGORIES];
            }
        }
        setup
    }

    /// Rule 5: whether all is in range.
    pub fn in_range(&self) -> bool {
        (1..=CHANNELS as u32).contains(&self.channels)
            && self.class_channels.iter().all(|&channel| channel < self.channels)
            && self.units.iter().all(|end| self.units_in_range(end))
    }

    /// Channels in use have 1 to 16 header and 1 to 2,047 data units, unused ones hold zeros.
    fn units_in_range(&self, end: &[[Units; CATEGORIES]; CHANNELS]) -> bool {
        end.iter().enumerate().all(|(channel, categories)| {
            categories.iter().all(|units| {
                if (channel as u32) < self.channels {
                    units.header >= 1 && units.data >= 1 && units.within(MOST)
                } else {
                    *units == Units::default()
                }
            })
        })
    }

    /// The channel of a class, which is at most 7.
    pub fn channel_of(&self, class: u32) -> usize {
        if class == 0 {
            0
        } else {
            self.class_channels[class as usize - 1] as usize
        }
    }

    /// The setup that 104 bytes mean, in range or not.
    pub fn from_bytes(bytes: &[u8]) -> Setup {
        let two = |at: usize| u32::from(u16::from_le_bytes([bytes[at], bytes[at + 1]]));
        let mut setup = Setup { channels: u32::from(bytes[0]), ..Setup::default() };
        for (class, channel) in setup.class_channels.iter_mut().enumerate() {
            *channel = u32::from(bytes[1 + class]);
        }
        for end in 0..2 {
            for channel in 0..CHANNELS {
                for category in 0..CATEGORIES {
                    let at = units_offset(end, channel, category);
                    setup.units[end][channel][category] = Units::new(two(at), two(at + 2));
                }
            }
        }
        setup
    }

    /// The 104 bytes of a setup in range.
    pub fn to_bytes(&self) -> Vec<u8> {
        let mut bytes = vec![0; SETUP_BYTES];
        bytes[0] = self.channels as u8;
        for (class, &channel) in self.class_channels.iter().enumerate() {
            bytes[1 + class] = channel as u8;
        }
        for end in 0..2 {
            for channel in 0..CHANNELS {
                for category in 0..CATEGORIES {
                    let at = units_offset(end, channel, category);
                    let units = self.units[end][channel][category];
                    bytes[at..at + 2].copy_from_slice(&(units.header as u16).to_le_bytes());
                    bytes[at + 2..at + 4].copy_from_slice(&(units.data as u16).to_le_bytes());
                }
            }
        }
        bytes
    }
}

/// Where the units of an end, channel and category stand in the setup's bytes.
fn units_offset(end: usize, channel: usize, category: usize) -> usize {
    8 + 48 * end + 12 * channel + 4 * category
}
