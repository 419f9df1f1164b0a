//! One test for each answer number that a host can get of an end. Each refused call leaves the end as it was.
mod common;
use common::{one_channel, packet, two_channels, Numbers};
use link::{raw, Arrival, Category, End, Frame, Message, Refusal, Setup, Source, END_WORDS};

fn started(setup: &Setup) -> (End, End) {
    (End::start(setup, 0).unwrap(), End::start(setup, 1).unwrap())
}

/// The call is refused with this number, and changes nothing.
#[track_caller]
fn refused<T: std::fmt::Debug>(number: u8, end: &mut End, call: impl Fn(&mut End) -> Result<T, Refusal>) {
    let as_it_was = end.clone();
    assert_eq!(call(end).unwrap_err().number(), number);
    assert_eq!(*end, as_it_was);
}

fn update(channel: u8, header: u8, data: u16) -> Frame {
    Frame::Message(Message::Update { channel, category: Category::Posted, header, data })
}

/// The start is refused with this number.
#[track_caller]
fn not_started(number: u8, setup: &Setup, which: u8) {
    assert_eq!(End::start(setup, which).unwrap_err().number(), number);
}

#[test]
fn setup_out_of_range_5() {
    for setup in [Setup::new(0), Setup::new(5), one_channel(0, 1), one_channel(17, 1), one_channel(1, 2048)] {
        not_started(5, &setup, 0);
    }
    not_started(5, &one_channel(1, 1).class(3, 1), 0);
    not_started(5, &one_channel(1, 1).units(1, 1, Category::Posted, 1, 1), 0);
    // The setup is looked at before the end's number, and must have its length.
    not_started(5, &Setup::new(0), 2);
    let bytes = *one_channel(1, 1).bytes();
    assert_eq!(raw::start(&mut [0; END_WORDS], &bytes[..103], 0), 5);
    assert!(End::start(&one_channel(16, 2047), 1).is_ok());
}

/// Memory with a word too few or too many, or none: 7 at the start, 10 in each step, and nothing changes.
#[test]
fn memory_of_another_length_7_10() {
    let bytes = *one_channel(1, 1).bytes();
    let mut end = End::start(&one_channel(1, 1), 0).unwrap();
    end.submit(packet(6, 0, 0, 1)).unwrap();
    let mut long = [end.words(), [3; END_WORDS].as_slice()].concat();
    for words in [0, 1, END_WORDS - 1, END_WORDS + 1, 2 * END_WORDS] {
        let as_it_was = long.clone();
        let m = &mut long[..words];
        assert_eq!(raw::start(m, &bytes, 0), 7);
        assert_eq!(raw::start(m, &[], 2), 7);
        let none = raw::Said { answer: 10, detail: 0 };
        assert_eq!((raw::submit(m, 6, 0, 0, 2), raw::timer(m), raw::refresh(m)), (10, 10, 10));
        assert_eq!((raw::arrive(m, 0, 6), raw::damage(m, 0, 6), raw::take(m, 0, 0)), (none, none, none));
        assert_eq!(raw::send(m), raw::Sending { answer: 10, detail: 0, head: 0, rest: 0 });
        assert_eq!((raw::shape(m), raw::retrains(m)), (10, 0));
        assert_eq!(long, as_it_was);
    }
}

/// Words changed by hand, at the places of crates/words/specs/Memory.antt.
#[test]
fn state_out_of_shape_10() {
    let (end, _) = started(&two_channels(4, 16));
    let changed = |at: usize, bits: u64| {
        let mut words = *end.words();
        words[at] ^= bits;
        End::from_words(words)
    };
    assert_eq!(changed(0, 0), Ok(end.clone()));
    let changes = [
        (474, 2 ^ 5),   // five channels
        (48, 49),       // over the places of queue 0
        (244, 17),      // over the replay buffer's bound
        (257, 1),       // next to be given 1, and none is out
        (258, 1 << 12), // last acknowledged over 4,095
        (259, 1),       // a replay runs over no packet
        (261, 4),       // four starts
        (465, 1 << 48), // channel 2 marked
        (459, 1 << 32), // a data unit received, and nothing waits
        (471, 1 << 12), // next-receive over 4,095
    ];
    for (at, bits) in changes {
        assert_eq!(changed(at, bits), Err(Refusal::Shape), "word {at}");
    }
    // What does not count is no matter of shape: where a replay would go on if one ran, and bits left over.
    assert!(changed(260, 99).unwrap().in_shape());
    assert!(changed(257, 1 << 16).unwrap().in_shape());
}

#[test]
fn end_not_0_or_1_11() {
    not_started(11, &one_channel(1, 1), 2);
    not_started(11, &one_channel(1, 1), 255);
}

#[test]
fn kind_12() {
    let (mut end, _) = started(&one_channel(1, 1));
    refused(12, &mut end, |e| e.submit(packet(10, 8, 9999, 1)));
}

#[test]
fn class_13() {
    let (mut end, _) = started(&one_channel(1, 1));
    refused(13, &mut end, |e| e.submit(packet(1, 8, 0, 1)));
    for kind in 2..=5 {
        refused(13, &mut end, |e| e.submit(packet(kind, 1, 1, 1)));
    }
}

#[test]
fn length_14() {
    let (mut end, _) = started(&one_channel(1, 1));
    for (kind, length) in
        [(0, 0), (0, 1025), (1, 0), (1, 1025), (2, 2), (3, 0), (6, 1), (7, 0), (8, 1), (9, 1025)]
    {
        refused(14, &mut end, |e| e.submit(packet(kind, 0, length, 1)));
    }
}

#[test]
fn too_much_15() {
    let (mut end, _) = started(&one_channel(1, 1));
    refused(15, &mut end, |e| e.submit(packet(1, 0, 5, 1)));
    // A read has no payload: its length costs no data unit.
    assert_eq!(end.submit(packet(0, 0, 1024, 1)), Ok(()));
    assert_eq!(end.submit(packet(1, 0, 4, 1)), Ok(()));
}

#[test]
fn queue_full_16() {
    let (mut end, _) = started(&two_channels(1, 1));
    for ident in 0..8 {
        assert_eq!(end.submit(packet(6, 0, 0, ident)), Ok(()));
    }
    refused(16, &mut end, |e| e.submit(packet(1, 1, 4, 8)));
    assert_eq!(end.submit(packet(0, 0, 1, 9)), Ok(()));
    assert_eq!(end.submit(packet(6, 7, 0, 10)), Ok(()));
}

#[test]
fn no_frame_18() {
    let (mut end, _) = started(&one_channel(1, 1));
    refused(18, &mut end, |e| e.send());
    // The second waits for credits, the first is out.
    end.submit(packet(6, 0, 0, 1)).unwrap();
    end.submit(packet(6, 0, 0, 2)).unwrap();
    assert_eq!(end.send().unwrap().1, Source::New);
    refused(18, &mut end, |e| e.send());
}

#[test]
fn no_such_list_20() {
    let (mut end, _) = started(&two_channels(1, 1));
    refused(20, &mut end, |e| e.take(2, 0));
    refused(20, &mut end, |e| e.take(255, 255));
    refused(20, &mut end, |e| e.take(0, 3));
    refused(21, &mut end, |e| e.take(1, 2));
}

#[test]
fn none_waiting_21() {
    let (mut end, mut other) = started(&one_channel(1, 1));
    refused(21, &mut other, |e| e.take(0, 0));
    end.submit(packet(6, 0, 0, 7)).unwrap();
    let (frame, _) = end.send().unwrap();
    assert_eq!(other.arrive(frame), Ok(Arrival::Accepted));
    refused(21, &mut other, |e| e.take(0, 1));
    assert_eq!(other.take(0, 0), Ok(7));
    refused(21, &mut other, |e| e.take(0, 0));
}

#[test]
fn posted_first_22() {
    let (_, mut other) = started(&one_channel(2, 2));
    for (number, kind) in [(0, 8), (1, 6), (2, 2), (3, 8)] {
        let length = u16::from(kind == 2);
        let frame = Frame::Packet(number, packet(kind, 0, length, u32::from(number) + 50));
        assert_eq!(other.arrive(frame), Ok(Arrival::Accepted));
    }
    // The read came after the posted packet, the first completion before it.
    refused(22, &mut other, |e| e.take(0, 1));
    assert_eq!(other.take(0, 2), Ok(50));
    refused(22, &mut other, |e| e.take(0, 2));
    assert_eq!(other.take(0, 0), Ok(51));
    assert_eq!((other.take(0, 1), other.take(0, 2)), (Ok(52), Ok(53)));
}

#[test]
fn nothing_unacknowledged_23() {
    let (mut end, _) = started(&one_channel(1, 1));
    refused(23, &mut end, |e| e.timer());
    end.submit(packet(6, 0, 0, 1)).unwrap();
    refused(23, &mut end, |e| e.timer());
    end.send().unwrap();
    assert_eq!(end.timer(), Ok(()));
    assert_eq!(end.send().unwrap().1, Source::Replay);
}

#[test]
fn ack_24() {
    let (mut end, _) = started(&one_channel(3, 1));
    for ident in 0..3 {
        end.submit(packet(6, 0, 0, ident)).unwrap();
        end.send().unwrap();
    }
    // Numbers 0, 1 and 2 are out; 4095 is the last acknowledged.
    for number in [3, 4094, 2048] {
        refused(24, &mut end, |e| e.arrive(Frame::Message(Message::Ack(number))));
        refused(24, &mut end, |e| e.arrive(Frame::Message(Message::Nak(number))));
    }
    assert_eq!(end.arrive(Frame::Message(Message::Ack(4095))), Ok(Arrival::Message));
    assert_eq!(end.arrive(Frame::Message(Message::Ack(2))), Ok(Arrival::Message));
    refused(24, &mut end, |e| e.arrive(Frame::Message(Message::Ack(1))));
}

#[test]
fn update_25() {
    let (mut end, _) = started(&one_channel(1, 1));
    refused(25, &mut end, |e| e.arrive(update(0, 129, 1)));
    refused(25, &mut end, |e| e.arrive(update(0, 1, 2049)));
    refused(25, &mut end, |e| e.arrive(update(0, 0, 1)));
    assert_eq!(end.arrive(update(0, 128, 2048)), Ok(Arrival::Message));
}

#[test]
fn over_the_room_26() {
    let (_, mut other) = started(&one_channel(1, 1));
    refused(26, &mut other, |e| e.arrive(Frame::Packet(0, packet(1, 0, 5, 1))));
    assert_eq!(other.arrive(Frame::Packet(0, packet(6, 0, 0, 1))), Ok(Arrival::Accepted));
    refused(26, &mut other, |e| e.arrive(Frame::Packet(1, packet(6, 0, 0, 2))));
    // Out of sequence there is no refusal: 0 is a duplicate, 2 out of order.
    assert_eq!(other.arrive(Frame::Packet(0, packet(6, 0, 0, 2))), Ok(Arrival::Duplicate));
    assert_eq!(other.arrive(Frame::Packet(2, packet(6, 0, 0, 2))), Ok(Arrival::OutOfOrder));
}

#[test]
fn field_out_of_range_27() {
    let (mut end, _) = started(&two_channels(1, 1));
    let frames = [
        Frame::Packet(0, packet(10, 0, 0, 1)),
        Frame::Packet(0, packet(6, 8, 0, 1)),
        Frame::Packet(0, packet(6, 0, 1, 1)),
        Frame::Packet(4096, packet(6, 0, 0, 1)),
        Frame::Message(Message::Ack(4096)),
        Frame::Message(Message::Nak(65535)),
        update(2, 1, 1),
        update(0, 1, 4096),
    ];
    for frame in frames {
        refused(27, &mut end, |e| e.arrive(frame));
        // Damaged, none is refused.
        assert_eq!(end.clone().damage(frame), Ok(Arrival::Damaged));
    }
}

/// A step over any words at all: its answer.
fn any_step(m: &mut [u64], numbers: &mut Numbers) -> u8 {
    let small = numbers.below(4) as u8;
    match numbers.below(7) {
        0 => raw::submit(m, 6, small, 0, 1),
        1 => raw::send(m).answer,
        2 => raw::arrive(m, numbers.below(1 << 31), 6).answer,
        3 => raw::damage(m, numbers.below(1 << 31), 6).answer,
        4 => raw::take(m, small, numbers.below(4) as u8).answer,
        5 => raw::timer(m),
        _ => raw::refresh(m),
    }
}

/// No word is excluded, also where it makes no sense: each step ends, and a refused one leaves every bit.
#[test]
fn any_words() {
    let mut numbers = Numbers(11);
    let (mut done, mut refused) = (0, 0);
    for round in 0..400 {
        let over = [2, 50, 1 << 20, u64::MAX][round % 4];
        let mut m =
            [0; END_WORDS].map(|_: u64| (numbers.below(1 << 31) << 33 | numbers.below(1 << 31)) % over);
        for _ in 0..50 {
            let as_it_was = m;
            if any_step(&mut m, &mut numbers) == 0 {
                done += 1;
            } else {
                refused += 1;
                assert!(m == as_it_was);
            }
        }
    }
    assert!(done > 1000 && refused > 1000, "{done} done, {refused} refused");
}

#[test]
fn words() {
    assert_eq!(Refusal::NothingUnacknowledged.to_string(), "23 nothing unacknowledged");
    let numbers = [5, 7, 10, 11, 12, 13, 14, 15, 16, 18, 20, 21, 22, 23, 24, 25, 26, 27];
    assert_eq!(Refusal::ALL.map(Refusal::number), numbers);
}
