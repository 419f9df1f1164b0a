//! What several tests share: small setups, runs of steps, and the ledger of demand 3.

#![allow(dead_code)]

use std::collections::VecDeque;

use model::pair::{Outcome, Pair};
use model::setup::{Setup, CHANNELS};
use model::step::{Step, SUBMIT, TAKE};
use model::units::{minus, Packet, Units, CATEGORIES, NUMBER_RANGE, POSTED};

/// A pair with n channels and the same units everywhere; class 1 is on channel 1 if there is one, and so on.
pub fn pair(channels: u32, header: u32, data: u32) -> Pair {
    Pair::start(&spread(channels, header, data)).expect("a setup in range")
}

pub fn spread(channels: u32, header: u32, data: u32) -> Setup {
    let mut setup = Setup::even(channels, Units::new(header, data));
    for class in 1..8 {
        setup.class_channels[class - 1] = class as u32 % channels;
    }
    setup
}

/// A memory write: P.
pub fn write(length: u32, ident: u32) -> Packet {
    Packet::new(1, 0, length, ident)
}

/// A memory read: NP.
pub fn read(ident: u32) -> Packet {
    Packet::new(0, 0, 1, ident)
}

/// A completion: C.
pub fn completion(ident: u32) -> Packet {
    Packet::new(8, 0, 0, ident)
}

/// Makes one step, 10 asked first, and gives answer and detail. A refusal must leave the pair as it was.
pub fn act(pair: &mut Pair, step: Step) -> (u32, u32) {
    let before = pair.clone();
    let outcome = pair.step(&step);
    if outcome.answer != 0 {
        assert_eq!(*pair, before, "a refused step changed the pair: {step:?}");
    }
    (outcome.answer, outcome.detail)
}

/// Makes steps that must all answer 0.
pub fn act_all(pair: &mut Pair, steps: &[Step]) {
    for &step in steps {
        assert_eq!(act(pair, step).0, 0, "{step:?}");
    }
}

/// What Submit accepted and Take handed out, kept from the history alone.
pub struct Ledger {
    setup: Setup,
    /// By the end that submits and by channel: the packets accepted, and whether each was taken.
    accepted: Vec<Vec<Vec<(Packet, bool)>>>,
    /// By the end that submitted, by channel and by category.
    taken: Vec<Vec<Vec<Vec<Packet>>>>,
}

impl Ledger {
    pub fn new(setup: &Setup) -> Ledger {
        Ledger {
            setup: *setup,
            accepted: vec![vec![Vec::new(); CHANNELS]; 2],
            taken: vec![vec![vec![Vec::new(); CATEGORIES]; CHANNELS]; 2],
        }
    }

    /// Adds what a step did. No packet is taken before a posted one accepted earlier on its channel.
    pub fn record(&mut self, step: &Step, outcome: &Outcome) {
        if outcome.answer != 0 {
            return;
        }
        if step.number == SUBMIT {
            let packet = step.packet();
            self.accepted[step.end as usize][self.setup.channel_of(packet.class)].push((packet, false));
        }
        if step.number == TAKE {
            let packet = outcome.packet.expect("what Take handed out");
            let (from, channel) = (1 - step.end as usize, step.channel as usize);
            assert_eq!(packet.category(), step.kind as usize);
            assert_eq!(packet.ident, outcome.detail);
            let list = &mut self.accepted[from][channel];
            let index = list.iter().position(|(other, taken)| !taken && *other == packet);
            let index = index.expect("a packet accepted and not taken yet");
            assert!(list[..index].iter().all(|(other, taken)| *taken || other.category() != POSTED));
            list[index].1 = true;
            self.taken[from][channel][packet.category()].push(packet);
        }
    }

    /// Packets accepted and not taken, both directions.
    pub fn untaken(&self) -> usize {
        self.accepted.iter().flatten().flatten().filter(|(_, taken)| !taken).count()
    }

    /// Taken, waiting at the receiver, sent and not yet received, waiting to be sent: together the accepted ones.
    pub fn check(&self, pair: &Pair) {
        for from in 0..2 {
            for channel in 0..CHANNELS {
                for category in 0..CATEGORIES {
                    self.check_list(pair, from, channel, category);
                }
            }
        }
    }

    fn check_list(&self, pair: &Pair, from: usize, channel: usize, category: usize) {
        let (sender, receiver) = (&pair.ends[from], &pair.ends[1 - from]);
        let here = |packet: &&Packet| {
            self.setup.channel_of(packet.class) == channel && packet.category() == category
        };
        let under_way: VecDeque<Packet> = sender
            .replay
            .iter()
            .filter(|sent| minus(NUMBER_RANGE, sent.number, receiver.next_receive) < 16)
            .map(|sent| sent.packet)
            .collect();
        let together = self.taken[from][channel][category]
            .iter()
            .chain(receiver.channels[channel].waiting.iter().filter(here))
            .chain(under_way.iter().filter(here))
            .chain(sender.channels[channel].queue.iter().filter(here));
        let accepted = self.accepted[from][channel].iter().map(|(packet, _)| packet).filter(here);
        assert!(together.eq(accepted), "direction {from}, channel {channel}, category {category}");
    }
}
