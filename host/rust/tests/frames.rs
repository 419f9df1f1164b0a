//! Frames and the two words that they are: the bits of crates/words/specs/Words.antt, worked out by hand, and the library's own reading.
mod common;
use common::{packet, two_channels, Numbers};
use link::{raw, Category, End, Frame, Message, Packet, Setup};

fn update(channel: u8, category: Category, header: u8, data: u16) -> Frame {
    Frame::Message(Message::Update { channel, category, header, data })
}

/// Frames and their words.
fn known() -> [(Frame, [u64; 2]); 8] {
    [
        (Frame::Packet(0, packet(0, 0, 0, 0)), [0, 0]),
        (Frame::Packet(4095, packet(1, 2, 3, 4)), [0x3ffc, 0x0000_0004_0003_0201]),
        (Frame::Packet(65535, packet(255, 255, 65535, u32::MAX)), [0x3_fffc, u64::MAX]),
        (Frame::Message(Message::Ack(5)), [0x15, 0]),
        (Frame::Message(Message::Nak(4095)), [0x3ffe, 0]),
        (update(0, Category::Posted, 0, 0), [0x3, 0]),
        (update(1, Category::NonPosted, 2, 3), [0x30_2407, 0]),
        (update(255, Category::Completion, 255, 65535), [0xf_ffff_fbff, 0]),
    ]
}

#[test]
fn round_trip() {
    for (frame, words) in known() {
        assert_eq!(<[u64; 2]>::from(frame), words);
        assert_eq!(Frame::from(words), frame);
    }
}

/// Bits left over have no meaning, and the category 3 is read as a completion.
#[test]
fn bits_left_over() {
    assert_eq!(Frame::from([0x15 | 1 << 18, 7]), Frame::Message(Message::Ack(5)));
    assert_eq!(Frame::from([0x3ffc | 1 << 63, 0]), Frame::Packet(4095, packet(0, 0, 0, 0)));
    assert_eq!(Frame::from([0x3 | 3 << 10 | 1 << 36, 9]), update(0, Category::Completion, 0, 0));
}

/// Words that often make a frame in range for an end that has sent and received little, with other bits in between.
fn words(numbers: &mut Numbers) -> [u64; 2] {
    let limits = numbers.below(6) << 12 | numbers.below(20) << 20;
    let head = match numbers.below(4) {
        3 => 3 | numbers.below(3) << 2 | numbers.below(4) << 10 | limits,
        kind => kind | [0, 1, 2, 4095, 4096][numbers.below(5) as usize] << 2,
    };
    let rest = numbers.below(11) | numbers.below(2) << 8 | numbers.below(3) << 16 | numbers.below(9) << 32;
    let over = if numbers.below(3) == 0 { 1 << 40 } else { 0 };
    [head | over, rest]
}

/// What is read here as a frame, the library reads as the same one: handed in as a frame or as its words, it does the same.
#[test]
fn as_the_library_reads() {
    let setup: Setup = two_channels(4, 16);
    let mut end = End::start(&setup, 0).unwrap();
    let mut numbers = Numbers(3);
    let mut answers = [0; 28];
    for ident in 0..20_000 {
        let [head, rest] = words(&mut numbers);
        let mut by_words = *end.words();
        let mut by_frame = end.clone();
        let said = raw::arrive(&mut by_words, head, rest);
        let result = by_frame.arrive([head, rest].into());
        assert_eq!(
            result.map_or_else(|refusal| (refusal.number(), 0), |detail| (0, detail as u32)),
            (said.answer, said.detail)
        );
        assert_eq!(*by_frame.words(), by_words);
        answers[usize::from(said.answer)] += 1;
        end = by_frame;
        let _ = end.submit(Packet { kind: 6, class: 0, length: 0, ident });
        let _ = (end.send(), end.take(0, 0), end.take(0, 1), end.take(0, 2));
    }
    assert!([0, 24, 25, 27].iter().all(|&answer: &usize| answers[answer] > 100), "{answers:?}");
}
