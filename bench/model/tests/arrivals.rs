//! What an arrival does, on a single end, with frames from outside: 27, 24, 25, 26, and the rules of owing and release.

mod common;

use common::{spread, write};
use model::end::{End, Owed};
use model::frame::{Frame, Message};
use model::host;
use model::units::{Packet, Units};

fn end(header: u32, data: u32) -> End {
    End::start(&spread(2, header, data), 0)
}

/// Hands in a frame whole. A refusal must leave the end as it was.
fn arrive(end: &mut End, frame: Frame) -> Result<u32, u32> {
    let before = end.clone();
    let answer = host::arrive(end, &frame);
    if answer.is_err() {
        assert_eq!(*end, before);
    }
    answer
}

fn packet(number: u32, packet: Packet) -> Frame {
    Frame::Packet { number, packet }
}

fn ack(number: u32) -> Frame {
    Frame::Link(Message::Ack(number))
}

fn nak(number: u32) -> Frame {
    Frame::Link(Message::Nak(number))
}

fn update(channel: u32, category: u32, header: u32, data: u32) -> Frame {
    Frame::Link(Message::Update { channel, category, limit: Units::new(header, data) })
}

/// An end with this many packets out, numbers from 0.
fn sent(count: u32) -> End {
    let mut end = end(16, 16);
    for ident in 0..count {
        host::submit(&mut end, write(1, ident)).unwrap();
        host::send(&mut end).unwrap();
    }
    end
}

fn out_of_range() -> Vec<Frame> {
    vec![
        packet(0, Packet::new(10, 0, 0, 0)),
        packet(0, Packet::new(1, 8, 1, 0)),
        packet(0, Packet::new(2, 1, 1, 0)),
        packet(0, Packet::new(1, 0, 1025, 0)),
        packet(4096, write(1, 0)),
        ack(4096),
        nak(4096),
        update(2, 0, 1, 1),
        update(0, 3, 1, 1),
        update(0, 0, 256, 1),
        update(0, 0, 1, 4096),
    ]
}

#[test]
fn a_field_out_of_range_is_27() {
    for frame in out_of_range() {
        assert_eq!(arrive(&mut end(1, 1), frame), Err(27), "{frame:?}");
    }
}

#[test]
fn out_of_shape_is_10_before_27() {
    for frame in out_of_range() {
        let mut end = end(1, 1);
        end.replay_count = 4;
        assert_eq!(arrive(&mut end, frame), Err(10));
        assert_eq!(host::damage(&mut end, &frame), Err(10));
    }
}

#[test]
fn a_damaged_frame_is_never_refused_by_its_fields() {
    for frame in out_of_range() {
        let mut end = end(1, 1);
        assert_eq!(host::damage(&mut end, &frame), Ok(4));
        let is_packet = matches!(frame, Frame::Packet { .. });
        assert_eq!(end.owed == Owed::Nak, is_packet);
        assert_eq!(end.nak_sent, is_packet);
    }
    // An Ack, an update and a packet that would be 24, 25 and 26.
    for frame in [ack(5), update(0, 0, 200, 1), packet(0, write(1024, 0))] {
        assert_eq!(host::damage(&mut end(1, 1), &frame), Ok(4));
    }
}

#[test]
fn an_ack_or_nak_of_nothing_out_is_24() {
    for frame in [ack(3), nak(3), ack(4094), nak(4094), ack(2047)] {
        assert_eq!(arrive(&mut sent(3), frame), Err(24));
    }
    for number in [4095, 0, 1, 2] {
        assert_eq!(arrive(&mut sent(3), ack(number)), Ok(0));
        assert_eq!(arrive(&mut sent(3), nak(number)), Ok(0));
    }
}

#[test]
fn an_update_too_far_ahead_is_25() {
    // Limits are 1 and 1: 128 and 2,048 are 127 and 2,047 ahead.
    assert_eq!(arrive(&mut end(1, 1), update(0, 0, 129, 1)), Err(25));
    assert_eq!(arrive(&mut end(1, 1), update(0, 0, 1, 2049)), Err(25));
    assert_eq!(arrive(&mut end(1, 1), update(0, 0, 0, 1)), Err(25));
    assert_eq!(arrive(&mut end(1, 1), update(0, 0, 1, 0)), Err(25));
    let mut end = end(1, 1);
    assert_eq!(arrive(&mut end, update(1, 2, 128, 2048)), Ok(0));
    assert_eq!(end.channels[1].accounts[2].limit, Units::new(128, 2048));
    assert_eq!(end.channels[1].accounts[1].limit, Units::new(1, 1));
}

#[test]
fn a_packet_over_the_free_room_is_26_only_in_sequence() {
    // 2 header units and 3 data units.
    let mut end = end(2, 3);
    assert_eq!(arrive(&mut end, packet(0, write(13, 1))), Err(26));
    assert_eq!(arrive(&mut end, packet(1, write(13, 1))), Ok(3));
    assert_eq!(arrive(&mut end, packet(4095, write(13, 1))), Ok(2));
    assert_eq!(arrive(&mut end, packet(0, write(5, 1))), Ok(1));
    // One header and one data unit are left.
    assert_eq!(arrive(&mut end, packet(1, write(5, 2))), Err(26));
    assert_eq!(arrive(&mut end, packet(1, write(4, 2))), Ok(1));
    assert_eq!(arrive(&mut end, packet(2, Packet::new(6, 0, 0, 3))), Err(26));
    assert_eq!(host::take(&mut end, 0, 0), Ok(write(5, 1)));
    assert_eq!(arrive(&mut end, packet(2, Packet::new(6, 0, 0, 3))), Ok(1));
    assert_eq!(end.channels[0].accounts[0].received, Units::new(3, 3));
    assert_eq!(end.channels[0].accounts[0].allocated, Units::new(3, 5));
}

#[test]
fn what_becomes_owed() {
    let mut end = end(16, 16);
    // Out of order: a Nak, once, until a packet is accepted.
    assert_eq!(arrive(&mut end, packet(1, write(1, 1))), Ok(3));
    assert_eq!((end.owed, end.nak_sent), (Owed::Nak, true));
    // A duplicate does not turn it into an Ack, an accepted packet does.
    assert_eq!(arrive(&mut end, packet(4095, write(1, 1))), Ok(2));
    assert_eq!(end.owed, Owed::Nak);
    assert_eq!(arrive(&mut end, packet(0, write(1, 0))), Ok(1));
    assert_eq!((end.owed, end.nak_sent), (Owed::Ack, false));
    // A Nak takes the place of an Ack. The flag stays when the Nak leaves.
    assert_eq!(host::damage(&mut end, &packet(1, write(1, 1))), Ok(4));
    assert_eq!(end.owed, Owed::Nak);
    assert_eq!(host::send(&mut end).unwrap().0, nak(0));
    assert_eq!((end.owed, end.nak_sent), (Owed::Nothing, true));
    assert_eq!(arrive(&mut end, packet(2, write(1, 2))), Ok(3));
    assert_eq!(end.owed, Owed::Nothing);
    // A late copy is answered, and with the flag set a packet out of order leaves that Ack alone.
    assert_eq!(arrive(&mut end, packet(0, write(1, 0))), Ok(2));
    assert_eq!(end.owed, Owed::Ack);
    assert_eq!(arrive(&mut end, packet(2, write(1, 2))), Ok(3));
    assert_eq!((end.owed, end.nak_sent), (Owed::Ack, true));
    assert_eq!(host::send(&mut end).unwrap().0, ack(0));
    assert!(end.nak_sent);
}

#[test]
fn a_running_replay_stays_at_its_next_packet() {
    let mut end = sent(4);
    host::timer(&mut end).unwrap();
    for number in 0..2 {
        assert_eq!(host::send(&mut end).unwrap().0, packet(number, write(1, number)));
    }
    // The next is number 2. Releasing 0 and 1 leaves it there.
    assert_eq!(arrive(&mut end, ack(1)), Ok(0));
    assert_eq!(end.replay_next, Some(0));
    assert_eq!(host::send(&mut end).unwrap().0, packet(2, write(1, 2)));
    assert_eq!(end.replay_next, Some(1));
    assert_eq!(end.replay_count, 0);
}

#[test]
fn a_replay_whose_next_packet_is_released_goes_on_at_the_oldest_left() {
    let mut end = sent(4);
    host::timer(&mut end).unwrap();
    assert_eq!(arrive(&mut end, ack(1)), Ok(0));
    assert_eq!(host::send(&mut end).unwrap().0, packet(2, write(1, 2)));
    assert_eq!(arrive(&mut end, ack(3)), Ok(0));
    assert_eq!(end.replay_next, None);
    assert_eq!(host::send(&mut end), Err(18));
    assert_eq!(end.last_acknowledged, 3);
}

#[test]
fn a_nak_releases_then_starts_a_replay_at_the_oldest_left() {
    let mut end = sent(3);
    end.replay_count = 3;
    assert_eq!(arrive(&mut end, nak(0)), Ok(0));
    assert_eq!((end.replay_next, end.replay_count, end.retrains), (Some(0), 1, 0));
    assert_eq!(host::send(&mut end).unwrap().0, packet(1, write(1, 1)));
    // A Nak of the last acknowledged number starts it again.
    assert_eq!(arrive(&mut end, nak(0)), Ok(0));
    assert_eq!((end.replay_next, end.replay_count), (Some(0), 1));
    // A Nak that releases all starts none.
    assert_eq!(arrive(&mut end, nak(2)), Ok(0));
    assert_eq!((end.replay_next, end.replay_count), (None, 0));
}

#[test]
fn retrains_wrap_at_65536() {
    let mut end = sent(1);
    end.replay_count = 3;
    end.retrains = 65_535;
    host::timer(&mut end).unwrap();
    assert_eq!((end.replay_count, end.retrains), (0, 0));
}
