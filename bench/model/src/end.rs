//! The state of one end and its own steps: Submit, Send, Take, Timer, Refresh. What an arrival does stands in
//! `arrival`, the rules of shape in `shape`.
//!
//! These steps take a state that is in shape. `host` asks for that first.

use std::collections::VecDeque;

use crate::frame::{Frame, Message};
use crate::setup::{Setup, CHANNELS};
use crate::units::{
    may_be_sent, minus, plus, Packet, Units, CATEGORIES, NUMBER_RANGE, POSTED, RETRAIN_RANGE,
};

/// Packets of one category in a channel's send queue.
pub const QUEUE: usize = 8;
/// Packets in the replay buffer.
pub const REPLAY: usize = 16;

/// The counts of one channel and category.
#[derive(Clone, Copy, Debug, PartialEq, Eq)]
pub struct Account {
    /// As sender.
    pub consumed: Units,
    pub limit: Units,
    /// As receiver.
    pub received: Units,
    pub allocated: Units,
    /// A credit update waits to be sent.
    pub marked: bool,
}

#[derive(Clone, Debug, PartialEq, Eq)]
pub struct Channel {
    /// Packets waiting to be sent, oldest first, all categories.
    pub queue: VecDeque<Packet>,
    /// Packets that arrived and were not taken, oldest first, all categories.
    pub waiting: VecDeque<Packet>,
    pub accounts: [Account; CATEGORIES],
}

/// A packet in the replay buffer.
#[derive(Clone, Copy, Debug, PartialEq, Eq)]
pub struct Sent {
    pub number: u32,
    pub packet: Packet,
}

#[derive(Clone, Copy, Debug, PartialEq, Eq)]
pub enum Owed {
    Nothing,
    Ack,
    Nak,
}

#[derive(Clone, Debug, PartialEq, Eq)]
pub struct End {
    pub setup: Setup,
    /// Which end of the setup this is, 0 or 1.
    pub side: usize,
    pub channels: [Channel; CHANNELS],
    /// Packets sent and not acknowledged, oldest first.
    pub replay: VecDeque<Sent>,
    /// If a replay runs, the place of its next packet in the replay buffer.
    pub replay_next: Option<usize>,
    /// The number that the next new packet gets.
    pub next_number: u32,
    pub last_acknowledged: u32,
    pub replay_count: u32,
    pub retrains: u32,
    /// The number of the next packet to be accepted.
    pub next_receive: u32,
    pub nak_sent: bool,
    pub owed: Owed,
}

/// What a frame put on the line came from. Its number is the detail of Send.
#[derive(Clone, Copy, Debug, PartialEq, Eq)]
pub enum Source {
    Nak,
    Ack,
    Update { channel: usize, category: usize },
    Replay { place: usize },
    New { channel: usize, index: usize },
}

impl Source {
    pub fn detail(&self) -> u32 {
        match self {
            Source::Nak => 1,
            Source::Ack => 2,
            Source::Update { .. } => 3,
            Source::Replay { .. } => 4,
            Source::New { .. } => 5,
        }
    }
}

impl End {
    /// The end as it starts from an accepted setup.
    pub fn start(setup: &Setup, side: usize) -> End {
        let account = |channel: usize, category: usize| Account {
            consumed: Units::default(),
            limit: setup.units[1 - side][channel][category],
            received: Units::default(),
            allocated: setup.units[side][channel][category],
            marked: false,
        };
        End {
            setup: *setup,
            side,
            channels: std::array::from_fn(|channel| Channel {
                queue: VecDeque::new(),
                waiting: VecDeque::new(),
                accounts: std::array::from_fn(|category| account(channel, category)),
            }),
            replay: VecDeque::new(),
            replay_next: None,
            next_number: 0,
            last_acknowledged: NUMBER_RANGE - 1,
            replay_count: 0,
            retrains: 0,
            next_receive: 0,
            nak_sent: false,
            owed: Owed::Nothing,
        }
    }

    /// Submit: the packet joins its channel's send queue.
    pub fn submit(&mut self, packet: Packet) -> Result<(), u32> {
        packet.check()?;
        let channel = self.setup.channel_of(packet.class);
        let category = packet.category();
        if packet.units().data > self.setup.units[1 - self.side][channel][category].data {
            return Err(15);
        }
        let queue = &mut self.channels[channel].queue;
        if queue.iter().filter(|other| other.category() == category).count() >= QUEUE {
            return Err(16);
        }
        queue.push_back(packet);
        Ok(())
    }

    /// The first source that applies.
    pub fn source(&self) -> Option<Source> {
        match self.owed {
            Owed::Nak => return Some(Source::Nak),
            Owed::Ack => return Some(Source::Ack),
            Owed::Nothing => {}
        }
        if let Some(update) = self.marked_update() {
            return Some(update);
        }
        if let Some(place) = self.replay_next {
            return Some(Source::Replay { place });
        }
        if self.replay.len() >= REPLAY {
            return None;
        }
        self.new_packet()
    }

    /// The marked update of the lowest channel, then of P, NP, C.
    fn marked_update(&self) -> Option<Source> {
        for (channel, state) in self.channels.iter().enumerate() {
            for (category, account) in state.accounts.iter().enumerate() {
                if account.marked {
                    return Some(Source::Update { channel, category });
                }
            }
        }
        None
    }

    /// The oldest eligible packet of the highest channel that has one.
    fn new_packet(&self) -> Option<Source> {
        for channel in (0..CHANNELS).rev() {
            let length = self.channels[channel].queue.len();
            if let Some(index) = (0..length).find(|&index| self.eligible(channel, index)) {
                return Some(Source::New { channel, index });
            }
        }
        None
    }

    /// First of its category in its channel, credits suffice and, unless posted, no older posted packet waits there.
    fn eligible(&self, channel: usize, index: usize) -> bool {
        let Channel { queue, accounts, .. } = &self.channels[channel];
        let packet = &queue[index];
        let category = packet.category();
        let first = queue.iter().take(index).all(|older| older.category() != category);
        let behind_posted = queue.iter().take(index).any(|older| older.category() == POSTED);
        let account = &accounts[category];
        first
            && may_be_sent(account.limit, account.consumed, packet.units())
            && (category == POSTED || !behind_posted)
    }

    /// Send: the frame that goes on the line, and where it came from.
    pub fn send(&mut self) -> Result<(Frame, Source), u32> {
        let source = self.source().ok_or(18u32)?;
        let frame = match source {
            Source::Nak => {
                self.owed = Owed::Nothing;
                Frame::Link(Message::Nak(minus(NUMBER_RANGE, self.next_receive, 1)))
            }
            Source::Ack => {
                self.owed = Owed::Nothing;
                Frame::Link(Message::Ack(minus(NUMBER_RANGE, self.next_receive, 1)))
            }
            Source::Update { channel, category } => self.send_update(channel, category),
            Source::Replay { place } => self.send_replay(place),
            Source::New { channel, index } => self.send_new(channel, index),
        };
        Ok((frame, source))
    }

    /// An update carries both allocated counts and clears its mark.
    fn send_update(&mut self, channel: usize, category: usize) -> Frame {
        let account = &mut self.channels[channel].accounts[category];
        account.marked = false;
        Frame::Link(Message::Update {
            channel: channel as u32,
            category: category as u32,
            limit: account.allocated,
        })
    }

    /// A replay goes on with the next packet and ends after its last one. It adds to no counter.
    fn send_replay(&mut self, place: usize) -> Frame {
        let Sent { number, packet } = self.replay[place];
        self.replay_next = if place + 1 < self.replay.len() { Some(place + 1) } else { None };
        Frame::Packet { number, packet }
    }

    /// A new packet takes the next number, adds to consumed and enters the replay buffer.
    fn send_new(&mut self, channel: usize, index: usize) -> Frame {
        let Channel { queue, accounts, .. } = &mut self.channels[channel];
        let packet = queue.remove(index).expect("an eligible packet");
        let account = &mut accounts[packet.category()];
        account.consumed = account.consumed.plus(packet.units());
        let number = self.next_number;
        self.next_number = plus(NUMBER_RANGE, number, 1);
        self.replay.push_back(Sent { number, packet });
        Frame::Packet { number, packet }
    }

    /// Take: hands out the oldest packet of the channel and category, gives its room back and marks the update.
    pub fn take(&mut self, channel: u32, category: u32) -> Result<Packet, u32> {
        if channel >= self.setup.channels || category >= CATEGORIES as u32 {
            return Err(20);
        }
        let category = category as usize;
        let Channel { waiting, accounts, .. } = &mut self.channels[channel as usize];
        let Some(index) = waiting.iter().position(|packet| packet.category() == category) else {
            return Err(21);
        };
        let behind_posted = waiting.iter().take(index).any(|older| older.category() == POSTED);
        if category != POSTED && behind_posted {
            return Err(22);
        }
        let packet = waiting.remove(index).expect("a waiting packet");
        let account = &mut accounts[category];
        account.allocated = account.allocated.plus(packet.units());
        account.marked = true;
        Ok(packet)
    }

    /// Timer: a replay starts at the oldest unacknowledged packet, also while one runs.
    pub fn timer(&mut self) -> Result<(), u32> {
        if self.replay.is_empty() {
            return Err(23);
        }
        self.start_replay();
        Ok(())
    }

    /// Each start adds one to the replay count; from 3 it goes to 0 and the retrain count grows by one.
    pub(crate) fn start_replay(&mut self) {
        self.replay_next = Some(0);
        if self.replay_count == 3 {
            self.replay_count = 0;
            self.retrains = plus(RETRAIN_RANGE, self.retrains, 1);
        } else {
            self.replay_count += 1;
        }
    }

    /// Refresh: marks all updates of channels in use.
    pub fn refresh(&mut self) {
        for channel in self.channels.iter_mut().take(self.setup.channels as usize) {
            for account in &mut channel.accounts {
                account.marked = true;
            }
        }
    }
}
