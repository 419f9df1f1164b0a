//! Each rule of shape: one change to a state in shape makes it answer 10.

mod common;

use std::collections::VecDeque;

use common::{act, act_all, completion, pair, read, spread, write};
use model::end::{End, Sent};
use model::frame::{Frame, Message};
use model::pair::Pair;
use model::step::Step;
use model::units::{Packet, Units};

/// A pair in the middle of things: packets in the queue, on the line, in the replay buffer and waiting.
fn busy() -> Pair {
    let mut pair = pair(2, 4, 8);
    for ident in 0..3 {
        act_all(&mut pair, &[Step::submit(0, write(5, ident)), Step::send(0)]);
    }
    act_all(&mut pair, &[Step::arrive(1), Step::arrive(1), Step::send(1), Step::arrive(0)]);
    act_all(&mut pair, &[Step::submit(0, read(8)), Step::submit(0, completion(9)), Step::refresh(1)]);
    assert!(pair.in_shape());
    // The Ack of number 1 released two: number 2 alone is out.
    assert_eq!(pair.ends[0].replay, VecDeque::from([Sent { number: 2, packet: write(5, 2) }]));
    pair
}

/// A change to an end of the busy pair puts it out of shape.
fn breaks(what: &str, end: usize, change: impl Fn(&mut End)) {
    let mut pair = busy();
    change(&mut pair.ends[end]);
    assert!(!pair.ends[end].in_shape(), "{what}");
    assert_eq!(act(&mut pair, Step::refresh(0)), (10, 0), "{what}");
    assert_eq!(act(&mut pair, Step::refresh(1)), (10, 0), "{what}");
}

#[test]
fn setup_and_numbers() {
    breaks("rule 5", 0, |end| end.setup.channels = 0);
    breaks("side", 1, |end| end.side = 2);
    breaks("next number", 0, |end| end.next_number = 4096);
    breaks("last acknowledged", 0, |end| end.last_acknowledged = 4096 + 1);
    breaks("next receive", 1, |end| end.next_receive = 4096);
    breaks("replay count", 0, |end| end.replay_count = 4);
    breaks("retrains", 0, |end| end.retrains = 65_536);
    for category in 0..3 {
        breaks("consumed", 0, |end| end.channels[0].accounts[category].consumed.header = 256);
        breaks("limit", 0, |end| end.channels[3].accounts[category].limit.data = 4096);
        breaks("received", 1, |end| end.channels[1].accounts[category].received.header = 256);
        breaks("allocated", 1, |end| end.channels[1].accounts[category].allocated.data = 4096);
    }
}

#[test]
fn bounds() {
    let eight = |packet: Packet| move |end: &mut End| end.channels[0].queue = VecDeque::from(vec![packet; 9]);
    breaks("9 posted", 0, eight(write(1, 0)));
    breaks("9 completions", 0, eight(completion(0)));
    let mut pair = busy();
    pair.ends[0].channels[0].queue = [write(1, 0), read(0), completion(0)].repeat(8).into();
    assert!(pair.in_shape());
    breaks("17 in the replay buffer", 0, |end| {
        end.replay = (2..19).map(|number| Sent { number, packet: read(0) }).collect();
        end.next_number = 19;
    });
    let mut pair = busy();
    pair.ends[0].replay = (2..18).map(|number| Sent { number, packet: read(0) }).collect();
    pair.ends[0].next_number = 18;
    assert!(pair.in_shape());
}

#[test]
fn lines() {
    let mut pair = busy();
    pair.lines[0] = VecDeque::from(vec![Frame::Link(Message::Ack(0)); 16]);
    assert!(pair.in_shape());
    pair.lines[0].push_back(Frame::Link(Message::Ack(0)));
    assert_eq!(act(&mut pair, Step::refresh(1)), (10, 0));
    for bad in [Frame::Link(Message::Nak(4096)), Frame::Packet { number: 0, packet: write(0, 0) }] {
        let mut pair = busy();
        pair.lines[1].push_back(bad);
        assert_eq!(act(&mut pair, Step::refresh(0)), (10, 0));
    }
}

#[test]
fn ends_of_different_setups() {
    let mut mixed = pair(2, 4, 8);
    mixed.ends[1] = End::start(&spread(1, 2, 3), 0);
    assert!(mixed.in_shape());
    // Each line's frames are held to the channels of the end that it leads to.
    let update = Frame::Link(Message::Update { channel: 1, category: 0, limit: Units::new(4, 8) });
    mixed.lines[0].push_back(update);
    assert_eq!(act(&mut mixed, Step::refresh(0)), (0, 0));
    mixed.lines[1].push_back(update);
    assert_eq!(act(&mut mixed, Step::refresh(0)), (10, 0));
}

#[test]
fn packets_in_their_places() {
    breaks("class of channel 1 in queue 0", 0, |end| end.channels[0].queue[0].class = 1);
    breaks("class of channel 1 in buffer 0", 1, |end| end.channels[0].waiting[0].class = 1);
    breaks("kind in a queue", 0, |end| end.channels[0].queue[0].kind = 10);
    breaks("length in a queue", 0, |end| end.channels[0].queue[0].length = 0);
    breaks("length in a buffer", 1, |end| end.channels[0].waiting[0].length = 1025);
    breaks("a packet on an unused channel", 0, |end| end.channels[3].queue.push_back(write(1, 0)));
    breaks("class in the replay buffer", 0, |end| end.replay[0].packet.class = 8);
}

#[test]
fn replay_numbers() {
    breaks("number in the buffer", 0, |end| end.replay[0].number = 1);
    breaks("next to be given", 0, |end| end.next_number = 4);
    breaks("last acknowledged", 0, |end| end.last_acknowledged = 0);
    breaks("next of the replay", 0, |end| end.replay_next = Some(1));
    breaks("a replay of nothing", 1, |end| end.replay_next = Some(0));
    let mut pair = busy();
    pair.ends[0].replay_next = Some(0);
    assert!(pair.in_shape());
}

#[test]
fn marks_and_room() {
    breaks("mark", 0, |end| end.channels[2].accounts[0].marked = true);
    breaks("header room", 1, |end| end.channels[0].accounts[0].allocated.header = 5);
    breaks("data room", 1, |end| end.channels[0].accounts[0].received.data = 3);
    breaks("waiting", 1, |end| {
        end.channels[0].waiting.pop_front();
    });
    breaks("units of an unused channel", 0, |end| end.channels[3].accounts[1].allocated = Units::new(1, 1));
    // Both counts of an unused channel may stand anywhere, as long as they agree.
    let mut pair = busy();
    pair.ends[0].channels[3].accounts[1].allocated = Units::new(9, 9);
    pair.ends[0].channels[3].accounts[1].received = Units::new(9, 9);
    assert!(pair.in_shape());
}

#[test]
fn a_frame_that_the_end_refuses_stays_on_the_line() {
    let far = Message::Update { channel: 0, category: 0, limit: Units::new(200, 8) };
    let bad = [
        (24, Frame::Link(Message::Ack(9))),
        (25, Frame::Link(far)),
        (26, Frame::Packet { number: 0, packet: write(40, 0) }),
    ];
    for (answer, frame) in bad {
        let mut pair = busy();
        pair.lines[0] = VecDeque::from([frame]);
        assert_eq!(act(&mut pair, Step::arrive(0)), (answer, 0));
        assert_eq!(pair.lines[0].len(), 1);
    }
}
