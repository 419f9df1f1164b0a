//! Random steps of one end. Frames come from nowhere: their numbers are often those that the end waits for, or near them,
//! and at times anything that the field holds.

use link::{Category, Frame, Message, Packet};
use model::random::Random;

use crate::sides::{Plain, Step};

pub fn draw(random: &mut Random, end: &Plain) -> Step {
    match random.below(20) {
        0..=3 => Step::Submit(packet(random, end)),
        4..=8 => Step::Send,
        9..=14 => Step::Arrive(frame(random, end)),
        15 => Step::Damage(frame(random, end)),
        16..=17 => Step::Take(random.below(5) as u8, random.below(4) as u8),
        18 => Step::Timer,
        _ => Step::Refresh,
    }
}

/// Now and then a number has any bits.
fn wild(random: &mut Random) -> bool {
    random.percent(2)
}

/// A length that is mostly in the kind's range, and mostly within the other end's data units on channel 0.
fn length(random: &mut Random, end: &Plain, kind: u8) -> u16 {
    let longest = 4 * end.setup.units[1 - end.side][0][0].data;
    match kind {
        _ if wild(random) => random.draw() as u16,
        2..=5 => 1,
        6 | 8 => 0,
        _ => random.from_to(1, longest.min(1024)) as u16,
    }
}

/// A packet that is mostly in form.
fn packet(random: &mut Random, end: &Plain) -> Packet {
    let kind = if wild(random) { random.below(256) } else { random.below(10) } as u8;
    let class = match kind {
        _ if wild(random) => random.below(256),
        2..=5 => 0,
        _ => random.below(8),
    };
    Packet { kind, class: class as u8, length: length(random, end, kind), ident: random.draw() as u32 }
}

/// A number a little before or after another, modulo 4,096, or any.
fn near(random: &mut Random, number: u32) -> u16 {
    if wild(random) {
        return random.below(1 << 16) as u16;
    }
    let far = random.one_of(&[1, 1, 2, 20, 2047, 2048, 2049]);
    let after = random.below(far);
    let before = if random.percent(30) { random.below(far) } else { 0 };
    ((number + after + 4096 - before) % 4096) as u16
}

fn frame(random: &mut Random, end: &Plain) -> Frame {
    match random.below(10) {
        0..=4 => Frame::Packet(near(random, end.next_receive), packet(random, end)),
        5..=6 => Frame::Message(Message::Ack(near(random, end.last_acknowledged))),
        7 => Frame::Message(Message::Nak(near(random, end.last_acknowledged))),
        _ => Frame::Message(update(random, end)),
    }
}

/// An update near the limit that its channel and category have.
fn update(random: &mut Random, end: &Plain) -> Message {
    let channel = if wild(random) { random.below(256) } else { random.below(end.setup.channels + 1) };
    let category = random.one_of(&Category::ALL);
    let Some(known) = end.channels.get(channel as usize) else {
        return Message::Update { channel: channel as u8, category, header: 0, data: 0 };
    };
    let limit = known.accounts[category as usize].limit;
    let header = near(random, limit.header) % 256;
    Message::Update { channel: channel as u8, category, header: header as u8, data: near(random, limit.data) }
}
