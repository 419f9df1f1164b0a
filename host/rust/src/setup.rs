//! The setup of a link, made up part by part. Nothing is tested here: `End::start` refuses a setup that is out of range.
use crate::frame::Category;

/// The length of a setup in bytes.
pub const SETUP_BYTES: usize = 104;

/// A setup in the script's form. Both ends start from the same one.
#[derive(Clone, Copy, Debug, PartialEq, Eq)]
pub struct Setup {
    bytes: [u8; SETUP_BYTES],
}

impl Setup {
    /// So many channels, all classes on channel 0, and no units yet.
    pub fn new(channels: u8) -> Setup {
        let mut bytes = [0; SETUP_BYTES];
        bytes[0] = channels;
        Setup { bytes }
    }

    /// Puts a class from 1 to 7 on a channel. Class 0 is on channel 0 always.
    ///
    /// # Panics
    /// If there is no such class.
    pub fn class(mut self, class: usize, channel: u8) -> Setup {
        assert!((1..=7).contains(&class), "class 1 to 7");
        self.bytes[class] = channel;
        self
    }

    /// Gives an end header units and data units for a category of a channel.
    ///
    /// # Panics
    /// If the end is not 0 or 1, or the channel over 3.
    pub fn units(mut self, end: usize, channel: usize, category: Category, header: u16, data: u16) -> Setup {
        assert!(end < 2 && channel < 4, "end 0 or 1, channel 0 to 3");
        let at = 8 + 48 * end + 12 * channel + 4 * category as usize;
        self.bytes[at..at + 2].copy_from_slice(&header.to_le_bytes());
        self.bytes[at + 2..at + 4].copy_from_slice(&data.to_le_bytes());
        self
    }

    pub fn bytes(&self) -> &[u8; SETUP_BYTES] {
        &self.bytes
    }
}

impl From<[u8; SETUP_BYTES]> for Setup {
    fn from(bytes: [u8; SETUP_BYTES]) -> Setup {
        Setup { bytes }
    }
}
