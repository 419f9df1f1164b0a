//! What an arrival does to an end: a frame that comes whole, and one that comes damaged.
//!
//! A frame that comes whole has its fields in range (27). `host` asks for that first; on a line of the pair it is
//! part of the shape.

use crate::end::{End, Owed};
use crate::frame::{Frame, Message};
use crate::units::{is_ahead, minus, place_of, plus, Packet, Place, Units, NUMBER_RANGE};

/// The details of an arrival.
pub const LINK_MESSAGE: u32 = 0;
pub const ACCEPTED: u32 = 1;
pub const DUPLICATE: u32 = 2;
pub const OUT_OF_ORDER: u32 = 3;
pub const DAMAGED: u32 = 4;

impl End {
    /// A frame reaches the end whole. The detail, or 24, 25, 26.
    pub fn arrive(&mut self, frame: &Frame) -> Result<u32, u32> {
        match *frame {
            Frame::Packet { number, packet } => self.packet_arrives(number, packet),
            Frame::Link(message) => {
                match message {
                    Message::Ack(number) => self.acknowledge(number)?,
                    Message::Nak(number) => {
                        self.acknowledge(number)?;
                        if !self.replay.is_empty() {
                            self.start_replay();
                        }
                    }
                    Message::Update { channel, category, limit } => {
                        self.update(channel as usize, category as usize, limit)?;
                    }
                }
                Ok(LINK_MESSAGE)
            }
        }
    }

    /// A frame reaches the end damaged. Damaged link messages are dropped. The detail.
    pub fn damage(&mut self, frame: &Frame) -> u32 {
        if let Frame::Packet { .. } = frame {
            self.owe_nak();
        }
        DAMAGED
    }

    /// A packet in sequence is accepted; a duplicate is answered with an Ack; one out of order with a Nak.
    fn packet_arrives(&mut self, number: u32, packet: Packet) -> Result<u32, u32> {
        match place_of(self.next_receive, number) {
            Place::InSequence => self.accept(packet),
            Place::Duplicate => {
                if self.owed != Owed::Nak {
                    self.owed = Owed::Ack;
                }
                Ok(DUPLICATE)
            }
            Place::OutOfOrder => {
                self.owe_nak();
                Ok(OUT_OF_ORDER)
            }
        }
    }

    /// Stores a packet in sequence, or 26 if it is over the free room.
    fn accept(&mut self, packet: Packet) -> Result<u32, u32> {
        let channel = &mut self.channels[self.setup.channel_of(packet.class)];
        let account = &mut channel.accounts[packet.category()];
        if !packet.units().within(account.allocated.minus(account.received)) {
            return Err(26);
        }
        account.received = account.received.plus(packet.units());
        channel.waiting.push_back(packet);
        self.next_receive = plus(NUMBER_RANGE, self.next_receive, 1);
        self.nak_sent = false;
        self.owed = Owed::Ack;
        Ok(ACCEPTED)
    }

    /// If the nak-sent flag is clear it is set, and a Nak becomes owed in place of anything owed.
    fn owe_nak(&mut self) {
        if !self.nak_sent {
            self.nak_sent = true;
            self.owed = Owed::Nak;
        }
    }

    /// An Ack or Nak number is accepted if it is the last acknowledged one or that of an unacknowledged packet. All
    /// up to it are released, and the replay count goes to 0.
    fn acknowledge(&mut self, number: u32) -> Result<(), u32> {
        let released = minus(NUMBER_RANGE, number, self.last_acknowledged) as usize;
        if released > self.replay.len() {
            return Err(24);
        }
        self.replay.drain(..released);
        self.last_acknowledged = number;
        self.replay_next = match self.replay_next {
            Some(place) if place >= released => Some(place - released),
            Some(_) if !self.replay.is_empty() => Some(0),
            _ => None,
        };
        self.replay_count = 0;
        Ok(())
    }

    /// Both limits are replaced, or 25 if they are not ahead.
    fn update(&mut self, channel: usize, category: usize, limit: Units) -> Result<(), u32> {
        let account = &mut self.channels[channel].accounts[category];
        if !is_ahead(limit, account.limit) {
            return Err(25);
        }
        account.limit = limit;
        Ok(())
    }
}
