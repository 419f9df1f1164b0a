//! Two ends against each other, over lines of 16 frames that lose and damage. In the end every accepted packet is taken, once and in order.
mod common;
use common::{one_channel, packet, two_channels, Numbers};
use link::{End, Frame, Refusal, Setup};
use std::collections::VecDeque;

const LINE: usize = 16;

/// Packets by the receiving end, channel and category.
type Lists = [[[Vec<u32>; 3]; 2]; 2];

struct Link {
    ends: [End; 2],
    channels: u8,
    lines: [VecDeque<Frame>; 2],
    accepted: Lists,
    taken: Lists,
}

fn category_of(kind: u8) -> usize {
    match kind {
        1 | 6 | 7 => 0,
        0 | 2..=5 => 1,
        _ => 2,
    }
}

impl Link {
    fn start(setup: &Setup) -> Link {
        let ends = [End::start(setup, 0).unwrap(), End::start(setup, 1).unwrap()];
        let channels = setup.bytes()[0];
        Link {
            ends,
            channels,
            lines: Default::default(),
            accepted: Default::default(),
            taken: Default::default(),
        }
    }

    /// A packet of any kind. All lengths fit one data unit.
    fn submit(&mut self, numbers: &mut Numbers, ident: u32) {
        let (end, kind) = (numbers.below(2) as usize, numbers.below(10) as u8);
        let class = if (2..=5).contains(&kind) { 0 } else { numbers.below(8) as u8 };
        let length = if kind == 6 || kind == 8 { 0 } else { 1 };
        let channel = usize::from(class == 7 && self.channels == 2);
        match self.ends[end].submit(packet(kind, class, length, ident)) {
            Ok(()) => self.accepted[1 - end][channel][category_of(kind)].push(ident),
            Err(refusal) => assert_eq!(refusal, Refusal::QueueFull),
        }
    }

    fn send(&mut self, end: usize) {
        if self.lines[1 - end].len() == LINE {
            return;
        }
        match self.ends[end].send() {
            Ok((frame, _)) => self.lines[1 - end].push_back(frame),
            Err(refusal) => assert_eq!(refusal, Refusal::NoFrame),
        }
    }

    /// The oldest frame reaches the end, or with a fault is lost or damaged. Between two ends of one setup nothing is refused.
    fn reach(&mut self, end: usize, fault: u64) {
        let Some(frame) = self.lines[end].pop_front() else {
            return;
        };
        match fault {
            0 => (),
            1 => _ = self.ends[end].damage(frame).unwrap(),
            _ => _ = self.ends[end].arrive(frame).unwrap(),
        }
    }

    fn take(&mut self, end: usize, channel: u8, category: u8) -> bool {
        match self.ends[end].take(channel, category) {
            Ok(ident) => {
                self.taken[end][channel as usize][category as usize].push(ident);
                true
            }
            Err(refusal) => {
                assert!([20, 21, 22].contains(&refusal.number()));
                false
            }
        }
    }

    /// One step that the numbers choose.
    fn step(&mut self, numbers: &mut Numbers, ident: u32) {
        let end = numbers.below(2) as usize;
        match numbers.below(16) {
            0..=2 => self.submit(numbers, ident),
            3..=7 => self.send(end),
            8..=12 => self.reach(end, numbers.below(6)),
            13 => _ = self.take(end, numbers.below(3) as u8, numbers.below(4) as u8),
            14 => _ = self.ends[end].timer(),
            _ => self.ends[end].refresh().unwrap(),
        }
        assert!(self.ends[end].in_shape());
    }

    /// One frame each way, if there is one.
    fn exchange(&mut self, fault: impl Fn() -> u64) {
        self.send(0);
        self.reach(1, fault());
        self.send(1);
        self.reach(0, fault());
    }

    fn take_all(&mut self) {
        for slot in 0..12 {
            let (end, channel, category) = (slot / 6, slot / 3 % 2, slot % 3);
            while self.take(end as usize, channel, category) {}
        }
    }

    /// Replays start where something is unacknowledged, and all updates are marked.
    fn wake(&mut self) {
        let _ = (self.ends[0].timer(), self.ends[1].timer());
        self.ends.iter_mut().for_each(|end| end.refresh().unwrap());
    }

    /// Document 01's quiet round.
    fn quiet_round(&mut self) {
        self.wake();
        (0..1024).for_each(|_| self.exchange(|| 2));
        self.take_all();
    }

    fn untaken(&self) -> usize {
        let count = |lists: &Lists| lists.iter().flatten().flatten().map(Vec::len).sum::<usize>();
        count(&self.accepted) - count(&self.taken)
    }

    /// As many quiet rounds as packets are untaken; then all are taken, each list in its order.
    fn finish(&mut self) {
        (0..self.untaken()).for_each(|_| self.quiet_round());
        assert_eq!(self.untaken(), 0);
        assert_eq!(self.taken, self.accepted);
    }
}

/// So many steps with losses and damage.
fn run(setup: &Setup, seed: u64, steps: u32) {
    let mut link = Link::start(setup);
    let mut numbers = Numbers(seed);
    (0..steps).for_each(|ident| link.step(&mut numbers, ident));
    link.finish();
}

#[test]
fn narrow() {
    (0..10).for_each(|seed| run(&one_channel(1, 1), seed, 400));
}

#[test]
fn two_lanes() {
    (0..10).for_each(|seed| run(&two_channels(2, 3), seed, 400));
}

/// Header counters wrap at 256 and sequence numbers at 4,096: more packets of each category go over channel 0, and more over each line.
#[test]
fn past_the_wrap() {
    let mut link = Link::start(&two_channels(16, 2047));
    let mut numbers = Numbers(7);
    for ident in 0..12_000 {
        link.submit(&mut numbers, ident);
        let fault = numbers.below(50);
        (0..3).for_each(|_| link.exchange(|| fault));
        if ident % 40 == 0 {
            link.wake();
            link.take_all();
        }
    }
    link.finish();
    for lists in &link.taken {
        assert!(lists[0].iter().all(|list| list.len() > 256));
        assert!(lists.iter().flatten().map(Vec::len).sum::<usize>() > 4096);
    }
}

/// Only a replay brings a lost packet, and three starts without an Ack train the link again at the fourth.
#[test]
fn trains_again() {
    let mut link = Link::start(&one_channel(1, 1));
    link.ends[0].submit(packet(6, 0, 0, 9)).unwrap();
    link.send(0);
    link.reach(1, 0);
    for count in [0, 0, 0, 1] {
        link.ends[0].timer().unwrap();
        assert_eq!(link.ends[0].retrains(), count);
        link.send(0);
        link.reach(1, 0);
    }
    link.ends[0].timer().unwrap();
    link.send(0);
    link.reach(1, 2);
    assert!(link.take(1, 0, 0));
    assert_eq!(link.taken[1][0][0], [9]);
}
