//! Each refusal of the pair, 6 and 10 to 23, with values worked out by hand.

mod common;

use common::{act, act_all, completion, pair, read, spread, write};
use model::pair::Pair;
use model::step::Step;
use model::units::Packet;

#[test]
fn start_refuses_a_bad_setup_with_5() {
    let mut setup = spread(2, 1, 1);
    setup.units[1][1][2].header = 17;
    assert_eq!(Pair::start(&setup), Err(5));
}

#[test]
fn out_of_shape_is_10_before_all_else() {
    let mut pair = pair(1, 1, 1);
    pair.ends[1].next_receive = 4096;
    assert_eq!(act(&mut pair, Step::bare(9, 2)), (10, 0));
    for number in 1..=8 {
        assert_eq!(act(&mut pair, Step::bare(number, 0)), (10, 0));
    }
}

#[test]
fn end_2_is_11_before_the_form() {
    let mut pair = pair(1, 1, 1);
    for number in 0..=9 {
        assert_eq!(act(&mut pair, Step::bare(number, 2)), (11, 0));
    }
}

#[test]
fn out_of_form_is_6() {
    let mut pair = pair(1, 1, 1);
    assert_eq!(act(&mut pair, Step::bare(0, 0)), (6, 0));
    assert_eq!(act(&mut pair, Step::bare(9, 1)), (6, 0));
    assert_eq!(act(&mut pair, Step { ident: 1, ..Step::send(0) }), (6, 0));
    assert_eq!(act(&mut pair, Step { channel: 1, ..Step::timer(0) }), (6, 0));
    assert_eq!(act(&mut pair, Step { kind: 1, ..Step::refresh(0) }), (6, 0));
    assert_eq!(act(&mut pair, Step { length: 1, ..Step::take(0, 0, 0) }), (6, 0));
}

fn submit(pair: &mut Pair, kind: u32, class: u32, length: u32) -> u32 {
    act(pair, Step::submit(0, Packet::new(kind, class, length, 1))).0
}

#[test]
fn submit_12_13_14_left_to_right() {
    let mut pair = pair(1, 16, 2047);
    assert_eq!(submit(&mut pair, 10, 8, 1025), 12);
    assert_eq!(submit(&mut pair, 9, 8, 1025), 13);
    assert_eq!(submit(&mut pair, 9, 7, 1025), 14);
    assert_eq!(submit(&mut pair, 9, 7, 1024), 0);
    for kind in 2..=5 {
        assert_eq!(submit(&mut pair, kind, 1, 2), 13);
        assert_eq!(submit(&mut pair, kind, 0, 2), 14);
        assert_eq!(submit(&mut pair, kind, 0, 0), 14);
        assert_eq!(submit(&mut pair, kind, 0, 1), 0);
    }
    for kind in [0, 1, 7, 9] {
        assert_eq!(submit(&mut pair, kind, 0, 0), 14);
        assert_eq!(submit(&mut pair, kind, 0, 1), 0);
    }
    for kind in [6, 8] {
        assert_eq!(submit(&mut pair, kind, 0, 1), 14);
        assert_eq!(submit(&mut pair, kind, 0, 0), 0);
    }
}

#[test]
fn submit_15_asks_the_other_ends_setup() {
    let mut setup = spread(1, 16, 2047);
    setup.units[1][0][0].data = 2;
    let mut pair = Pair::start(&setup).unwrap();
    // End 1 gives 2 data units: 8 words fit, 9 do not. End 0 gives 2,047.
    assert_eq!(act(&mut pair, Step::submit(0, write(9, 1))), (15, 0));
    assert_eq!(act(&mut pair, Step::submit(0, write(8, 1))), (0, 0));
    assert_eq!(act(&mut pair, Step::submit(1, write(1024, 1))), (0, 0));
    // A completion has units of its own, and the credits in use do not count here.
    assert_eq!(act(&mut pair, Step::submit(0, Packet::new(9, 0, 1024, 1))), (0, 0));
    act_all(&mut pair, &[Step::send(0)]);
    assert_eq!(act(&mut pair, Step::submit(0, write(8, 1))), (0, 0));
    assert_eq!(act(&mut pair, Step::submit(0, write(9, 1))), (15, 0));
}

#[test]
fn submit_16_counts_a_category_of_a_channel() {
    let mut pair = pair(2, 1, 1);
    for _ in 0..8 {
        assert_eq!(act(&mut pair, Step::submit(0, write(1, 1))), (0, 0));
    }
    assert_eq!(act(&mut pair, Step::submit(0, write(1, 1))), (16, 0));
    assert_eq!(act(&mut pair, Step::submit(0, write(5, 1))), (15, 0));
    assert_eq!(act(&mut pair, Step::submit(0, Packet::new(6, 2, 0, 1))), (16, 0));
    assert_eq!(act(&mut pair, Step::submit(0, Packet::new(6, 1, 0, 1))), (0, 0));
    assert_eq!(act(&mut pair, Step::submit(0, read(1))), (0, 0));
    assert_eq!(act(&mut pair, Step::submit(0, completion(1))), (0, 0));
    assert_eq!(act(&mut pair, Step::submit(1, write(1, 1))), (0, 0));
    // The first two sends take channel 1's packet and one of the eight.
    act_all(&mut pair, &[Step::send(0), Step::send(0), Step::submit(0, write(1, 1))]);
    assert_eq!(act(&mut pair, Step::submit(0, write(1, 1))), (16, 0));
}

#[test]
fn send_17_on_a_full_line_only_if_a_frame_applies() {
    let mut pair = pair(2, 16, 16);
    // Two refreshes give 6 updates each, then 4 packets: 16 frames.
    for _ in 0..2 {
        act_all(&mut pair, &[Step::refresh(0)]);
        act_all(&mut pair, &[Step::send(0); 6]);
    }
    for ident in 0..4 {
        act_all(&mut pair, &[Step::submit(0, write(1, ident)), Step::send(0)]);
    }
    assert_eq!(pair.lines[1].len(), 16);
    assert_eq!(act(&mut pair, Step::send(0)), (18, 0));
    act_all(&mut pair, &[Step::refresh(0)]);
    assert_eq!(act(&mut pair, Step::send(0)), (17, 0));
    act_all(&mut pair, &[Step::lose(1)]);
    assert_eq!(act(&mut pair, Step::send(0)), (0, 3));
    assert_eq!(act(&mut pair, Step::send(0)), (17, 0));
}

#[test]
fn send_18_at_rest() {
    let mut pair = pair(4, 16, 16);
    assert_eq!(act(&mut pair, Step::send(0)), (18, 0));
    assert_eq!(act(&mut pair, Step::send(1)), (18, 0));
}

#[test]
fn an_empty_line_is_19() {
    let mut pair = pair(1, 1, 1);
    act_all(&mut pair, &[Step::refresh(0), Step::send(0)]);
    // The frame is on the line towards end 1.
    for number in [3, 4, 5] {
        assert_eq!(act(&mut pair, Step::bare(number, 0)), (19, 0));
    }
    assert_eq!(act(&mut pair, Step::arrive(1)), (0, 0));
    for number in [3, 4, 5] {
        assert_eq!(act(&mut pair, Step::bare(number, 1)), (19, 0));
    }
}

#[test]
fn take_20_21() {
    let mut pair = pair(2, 1, 1);
    assert_eq!(act(&mut pair, Step::take(0, 2, 0)), (20, 0));
    assert_eq!(act(&mut pair, Step::take(0, 0, 3)), (20, 0));
    for channel in 0..2 {
        for category in 0..3 {
            assert_eq!(act(&mut pair, Step::take(0, channel, category)), (21, 0));
        }
    }
}

#[test]
fn take_22_behind_an_earlier_posted_packet() {
    let mut pair = pair(2, 4, 4);
    // Arrival on channel 0: completion 1, write 2, read 3, completion 4; on channel 1: completion 5.
    let packets = [completion(1), write(1, 2), read(3), completion(4), Packet::new(8, 1, 0, 5)];
    for packet in packets {
        act_all(&mut pair, &[Step::submit(0, packet), Step::send(0), Step::arrive(1)]);
    }
    assert_eq!(act(&mut pair, Step::take(1, 0, 1)), (22, 0));
    // The first completion arrived before the write, the second after it.
    assert_eq!(act(&mut pair, Step::take(1, 0, 2)), (0, 1));
    assert_eq!(act(&mut pair, Step::take(1, 0, 2)), (22, 0));
    assert_eq!(act(&mut pair, Step::take(1, 1, 2)), (0, 5));
    assert_eq!(act(&mut pair, Step::take(1, 0, 0)), (0, 2));
    assert_eq!(act(&mut pair, Step::take(1, 0, 2)), (0, 4));
    assert_eq!(act(&mut pair, Step::take(1, 0, 1)), (0, 3));
    assert_eq!(act(&mut pair, Step::take(1, 0, 1)), (21, 0));
}

#[test]
fn timer_23_with_nothing_unacknowledged() {
    let mut pair = pair(1, 1, 1);
    act_all(&mut pair, &[Step::submit(0, write(1, 1))]);
    assert_eq!(act(&mut pair, Step::timer(0)), (23, 0));
    act_all(&mut pair, &[Step::send(0), Step::timer(0), Step::arrive(1), Step::send(1), Step::arrive(0)]);
    assert_eq!(act(&mut pair, Step::timer(0)), (23, 0));
}
