//! The rules of shape: which states answer 10.

use crate::end::{Channel, End, QUEUE, REPLAY};
use crate::pair::{Pair, LINE};
use crate::setup::CHANNELS;
use crate::units::{plus, Packet, Units, CATEGORIES, NUMBER_RANGE, RETRAIN_RANGE};

impl End {
    /// Whether the state is in shape.
    pub fn in_shape(&self) -> bool {
        self.setup.in_range()
            && self.side <= 1
            && self.numbers_in_range()
            && self.replay_in_shape()
            && (0..CHANNELS).all(|channel| self.channel_in_shape(channel))
    }

    fn numbers_in_range(&self) -> bool {
        self.next_number < NUMBER_RANGE
            && self.last_acknowledged < NUMBER_RANGE
            && self.next_receive < NUMBER_RANGE
            && self.replay_count <= 3
            && self.retrains < RETRAIN_RANGE
    }

    /// The numbers run from the last acknowledged + 1 to the next to be given - 1, and a running replay's next packet
    /// is in the buffer.
    fn replay_in_shape(&self) -> bool {
        let mut number = plus(NUMBER_RANGE, self.last_acknowledged, 1);
        for sent in &self.replay {
            if sent.number != number || sent.packet.check().is_err() {
                return false;
            }
            number = plus(NUMBER_RANGE, number, 1);
        }
        self.replay.len() <= REPLAY
            && number == self.next_number
            && self.replay_next.is_none_or(|place| place < self.replay.len())
    }

    fn channel_in_shape(&self, number: usize) -> bool {
        let channel = &self.channels[number];
        let belongs =
            |packet: &Packet| packet.check().is_ok() && self.setup.channel_of(packet.class) == number;
        channel.queue.iter().all(belongs)
            && channel.waiting.iter().all(belongs)
            && (0..CATEGORIES)
                .all(|category| queued(channel, category) <= QUEUE && self.room_in_shape(number, category))
    }

    /// Counts in range, no mark on an unused channel, and free room and the units waiting add up to the setup's units.
    fn room_in_shape(&self, channel: usize, category: usize) -> bool {
        let account = &self.channels[channel].accounts[category];
        let counts = [account.consumed, account.limit, account.received, account.allocated];
        if counts.iter().any(|units| !units.in_range()) {
            return false;
        }
        if account.marked && channel as u32 >= self.setup.channels {
            return false;
        }
        let mut sum = account.allocated.minus(account.received);
        for packet in self.channels[channel].waiting.iter().filter(|p| p.category() == category) {
            let units = packet.units();
            sum = Units::new(sum.header + units.header, sum.data + units.data);
        }
        sum == self.setup.units[self.side][channel][category]
    }
}

/// How many of a category wait in the send queue.
fn queued(channel: &Channel, category: usize) -> usize {
    channel.queue.iter().filter(|packet| packet.category() == category).count()
}

impl Pair {
    /// Whether both ends and both lines are in shape. That the ends are the two ends of one setup is not asked.
    pub fn in_shape(&self) -> bool {
        self.ends.iter().all(End::in_shape)
            && self.ends.iter().zip(&self.lines).all(|(end, line)| {
                line.len() <= LINE && line.iter().all(|frame| frame.in_range(end.setup.channels))
            })
    }
}
