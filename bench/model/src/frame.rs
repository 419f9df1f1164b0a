//! Frames: a packet with its number, or a link message. Rule 27.

use crate::units::{Packet, Units, CATEGORIES, NUMBER_RANGE};

#[derive(Clone, Copy, Debug, PartialEq, Eq)]
pub enum Frame {
    Packet { number: u32, packet: Packet },
    Link(Message),
}

#[derive(Clone, Copy, Debug, PartialEq, Eq)]
pub enum Message {
    Ack(u32),
    Nak(u32),
    Update { channel: u32, category: u32, limit: Units },
}

impl Frame {
    /// Rule 27: whether every field is in range, with n channels.
    pub fn in_range(&self, channels: u32) -> bool {
        match *self {
            Frame::Packet { number, packet } => number < NUMBER_RANGE && packet.check().is_ok(),
            Frame::Link(Message::Ack(number) | Message::Nak(number)) => number < NUMBER_RANGE,
            Frame::Link(Message::Update { channel, category, limit }) => {
                channel < channels && category < CATEGORIES as u32 && limit.in_range()
            }
        }
    }
}
