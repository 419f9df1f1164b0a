//! Each source of Send, in the order of document 01, with the frames worked out by hand.

mod common;

use common::{act, act_all, completion, pair, read, write};
use model::frame::{Frame, Message};
use model::pair::Pair;
use model::step::Step;
use model::units::{Packet, Units};

/// Sends at an end and gives the detail and the frame.
fn send(pair: &mut Pair, end: u32) -> (u32, Frame) {
    let (answer, detail) = act(pair, Step::send(end));
    assert_eq!(answer, 0);
    (detail, *pair.lines[1 - end as usize].back().expect("the frame sent"))
}

fn packet(number: u32, packet: Packet) -> Frame {
    Frame::Packet { number, packet }
}

fn update(channel: u32, category: u32, header: u32, data: u32) -> Frame {
    Frame::Link(Message::Update { channel, category, limit: Units::new(header, data) })
}

#[test]
fn a_nak_carries_next_receive_less_one_and_goes_first() {
    let mut pair = pair(1, 2, 2);
    act_all(&mut pair, &[Step::submit(0, write(1, 7)), Step::send(0), Step::damage(1), Step::refresh(1)]);
    assert_eq!(send(&mut pair, 1), (1, Frame::Link(Message::Nak(4095))));
    assert_eq!(send(&mut pair, 1).0, 3);
}

#[test]
fn an_ack_carries_next_receive_less_one_and_goes_before_updates() {
    let mut pair = pair(1, 2, 2);
    act_all(&mut pair, &[Step::submit(0, write(1, 7)), Step::send(0), Step::arrive(1), Step::refresh(1)]);
    assert_eq!(send(&mut pair, 1), (2, Frame::Link(Message::Ack(0))));
    assert_eq!(send(&mut pair, 1).0, 3);
}

#[test]
fn updates_go_by_channel_then_category_and_carry_both_counts() {
    let mut pair = pair(2, 3, 9);
    // A write of 5 words on channel 1 takes 1 header and 2 data units, which Take gives back.
    let long = Packet::new(1, 1, 5, 7);
    act_all(&mut pair, &[Step::submit(0, long), Step::send(0), Step::arrive(1), Step::send(1)]);
    act_all(&mut pair, &[Step::take(1, 1, 0)]);
    assert_eq!(send(&mut pair, 1), (3, update(1, 0, 4, 11)));
    assert_eq!(act(&mut pair, Step::send(1)), (18, 0));
    act_all(&mut pair, &[Step::refresh(1)]);
    let wanted = [(0, 0, 3, 9), (0, 1, 3, 9), (0, 2, 3, 9), (1, 0, 4, 11), (1, 1, 3, 9), (1, 2, 3, 9)];
    for (channel, category, header, data) in wanted {
        assert_eq!(send(&mut pair, 1), (3, update(channel, category, header, data)));
    }
    assert_eq!(act(&mut pair, Step::send(1)), (18, 0));
}

#[test]
fn room_comes_back_at_take_not_at_arrival() {
    let mut pair = pair(1, 1, 1);
    act_all(&mut pair, &[Step::submit(0, write(1, 7)), Step::send(0), Step::arrive(1)]);
    assert_eq!(pair.ends[1].channels[0].accounts[0].allocated, Units::new(1, 1));
    act_all(&mut pair, &[Step::send(1), Step::refresh(1)]);
    assert_eq!(send(&mut pair, 1), (3, update(0, 0, 1, 1)));
    act_all(&mut pair, &[Step::take(1, 0, 0)]);
    assert_eq!(send(&mut pair, 1), (3, update(0, 0, 2, 2)));
}

#[test]
fn a_replay_goes_after_updates_before_new_packets_and_adds_to_no_counter() {
    let mut pair = pair(1, 3, 9);
    for ident in 0..3 {
        act_all(&mut pair, &[Step::submit(0, write(5, ident))]);
    }
    assert_eq!(send(&mut pair, 0), (5, packet(0, write(5, 0))));
    assert_eq!(send(&mut pair, 0), (5, packet(1, write(5, 1))));
    assert_eq!(pair.ends[0].channels[0].accounts[0].consumed, Units::new(2, 4));
    act_all(&mut pair, &[Step::timer(0), Step::refresh(0)]);
    for category in 0..3 {
        assert_eq!(send(&mut pair, 0), (3, update(0, category, 3, 9)));
    }
    assert_eq!(send(&mut pair, 0), (4, packet(0, write(5, 0))));
    assert_eq!(send(&mut pair, 0), (4, packet(1, write(5, 1))));
    assert_eq!(pair.ends[0].channels[0].accounts[0].consumed, Units::new(2, 4));
    // The replay has ended after its last packet.
    assert_eq!(send(&mut pair, 0), (5, packet(2, write(5, 2))));
    assert_eq!(pair.ends[0].channels[0].accounts[0].consumed, Units::new(3, 6));
    assert_eq!(act(&mut pair, Step::send(0)), (18, 0));
}

#[test]
fn a_timer_starts_a_running_replay_again() {
    let mut pair = pair(1, 3, 9);
    for ident in 0..2 {
        act_all(&mut pair, &[Step::submit(0, write(5, ident)), Step::send(0)]);
    }
    act_all(&mut pair, &[Step::timer(0)]);
    assert_eq!(send(&mut pair, 0), (4, packet(0, write(5, 0))));
    act_all(&mut pair, &[Step::timer(0)]);
    assert_eq!(send(&mut pair, 0), (4, packet(0, write(5, 0))));
    assert_eq!(send(&mut pair, 0), (4, packet(1, write(5, 1))));
    // Two starts so far; the fourth makes a retrain.
    assert_eq!((pair.ends[0].replay_count, pair.ends[0].retrains), (2, 0));
    act_all(&mut pair, &[Step::timer(0)]);
    assert_eq!((pair.ends[0].replay_count, pair.ends[0].retrains), (3, 0));
    act_all(&mut pair, &[Step::timer(0)]);
    assert_eq!((pair.ends[0].replay_count, pair.ends[0].retrains), (0, 1));
}

#[test]
fn a_new_packet_comes_from_the_highest_channel_and_is_its_oldest_eligible() {
    let mut pair = pair(3, 1, 2);
    // Class c is on channel c.
    let low = write(1, 1);
    let first = Packet::new(1, 2, 8, 2);
    let blocked = Packet::new(8, 2, 0, 4);
    let third = Packet::new(1, 2, 1, 3);
    for packet in [low, first, third, blocked] {
        act_all(&mut pair, &[Step::submit(0, packet)]);
    }
    assert_eq!(send(&mut pair, 0), (5, packet(0, first)));
    // The second write of channel 2 lacks credit, the completion stands behind it: channel 0 is next.
    assert_eq!(send(&mut pair, 0), (5, packet(1, low)));
    assert_eq!(act(&mut pair, Step::send(0)), (18, 0));
    assert_eq!(pair.ends[0].channels[2].accounts[0].consumed, Units::new(1, 2));
    assert_eq!(pair.ends[0].channels[0].accounts[0].consumed, Units::new(1, 1));
}

#[test]
fn posted_packets_pass_older_others_that_lack_credit() {
    let mut pair = pair(1, 1, 4);
    for packet in [read(1), read(2), completion(3), write(1, 4)] {
        act_all(&mut pair, &[Step::submit(0, packet)]);
    }
    // The second read lacks credit; the completion and the write pass it.
    assert_eq!(send(&mut pair, 0), (5, packet(0, read(1))));
    assert_eq!(send(&mut pair, 0), (5, packet(1, completion(3))));
    assert_eq!(send(&mut pair, 0), (5, packet(2, write(1, 4))));
    assert_eq!(act(&mut pair, Step::send(0)), (18, 0));
}

#[test]
fn no_packet_passes_an_older_one_of_its_category() {
    let mut pair = pair(1, 4, 2);
    // 2 data units: the first takes one, the second needs two, the third would need one.
    for (length, ident) in [(4, 1), (8, 2), (4, 3)] {
        act_all(&mut pair, &[Step::submit(0, write(length, ident))]);
    }
    assert_eq!(send(&mut pair, 0), (5, packet(0, write(4, 1))));
    assert_eq!(act(&mut pair, Step::send(0)), (18, 0));
}

#[test]
fn no_new_packet_while_the_replay_buffer_is_full() {
    let mut pair = pair(1, 16, 16);
    for ident in 0..8 {
        act_all(&mut pair, &[Step::submit(0, completion(ident)), Step::send(0), Step::arrive(1)]);
        act_all(&mut pair, &[Step::submit(0, read(ident)), Step::send(0), Step::arrive(1)]);
    }
    act_all(&mut pair, &[Step::submit(0, write(1, 99))]);
    assert_eq!(act(&mut pair, Step::send(0)), (18, 0));
    // One Ack for all sixteen.
    assert_eq!(send(&mut pair, 1), (2, Frame::Link(Message::Ack(15))));
    act_all(&mut pair, &[Step::arrive(0)]);
    assert_eq!(send(&mut pair, 0), (5, packet(16, write(1, 99))));
}
