//! Two ends in this program's memory exchange packets over lines that lose and damage frames by a fixed rule. Each frame and each
//! packet taken is printed, and at the end the counts. host/c/example.c tells the same story in C.
use link::{Arrival, Category, End, Frame, Message, Packet, Refusal, Setup, Source};

/// What the story counts.
struct Story {
    ends: [End; 2],
    accepted: [u32; 2],
    taken: [u32; 2],
    frames: u32,
    lost: u32,
    damaged: u32,
}

/// End, then kind, class, length and ident.
const SUBMISSIONS: [(usize, u8, u8, u16, u32); 13] = [
    (0, 1, 0, 8, 101),  // memory write
    (0, 0, 0, 16, 102), // memory read
    (0, 6, 7, 0, 103),  // message
    (0, 1, 7, 5, 104),  // memory write
    (0, 3, 0, 1, 105),  // I/O write
    (0, 5, 0, 1, 106),  // configuration write
    (0, 7, 7, 4, 107),  // message with data
    (0, 1, 0, 32, 108), // memory write
    (0, 1, 7, 64, 109), // memory write, too large for channel 1
    (1, 9, 0, 16, 201), // completion with data
    (1, 9, 7, 4, 202),  // completion with data
    (1, 8, 0, 0, 203),  // completion
    (1, 2, 0, 1, 204),  // I/O read
];

/// Two channels; classes 1 to 6 are on channel 0, class 7 on channel 1. Both ends have the same units.
fn setup() -> Setup {
    let mut setup = Setup::new(2).class(7, 1);
    for end in 0..2 {
        for (channel, posted) in [(0, 2), (1, 1)] {
            setup = setup
                .units(end, channel, Category::Posted, posted, 8)
                .units(end, channel, Category::NonPosted, 1, 1)
                .units(end, channel, Category::Completion, 1, 4);
        }
    }
    setup
}

/// 0, or the refusal.
fn answer(result: Result<(), Refusal>) -> u8 {
    result.err().map_or(0, Refusal::number)
}

fn frame_words(frame: Frame, source: Source) -> String {
    match frame {
        Frame::Packet(number, packet) => {
            let source = if source == Source::Replay { "replay" } else { "new" };
            format!("packet {number} ident {} {source}", packet.ident)
        }
        Frame::Message(Message::Ack(number)) => format!("Ack {number}"),
        Frame::Message(Message::Nak(number)) => format!("Nak {number}"),
        Frame::Message(Message::Update { channel, category, header, data }) => {
            format!("update channel {channel} category {} header {header} data {data}", category as u8)
        }
    }
}

fn arrival_words(arrival: Result<Arrival, Refusal>) -> String {
    match arrival {
        Ok(Arrival::Message) => "link message".into(),
        Ok(Arrival::Accepted) => "accepted".into(),
        Ok(Arrival::Duplicate) => "duplicate".into(),
        Ok(Arrival::OutOfOrder) => "out of order".into(),
        Ok(Arrival::Damaged) => "damaged".into(),
        Err(refusal) => format!("refused {}", refusal.number()),
    }
}

impl Story {
    fn start(setup: &Setup) -> Result<Story, Refusal> {
        let ends = [End::start(setup, 0)?, End::start(setup, 1)?];
        Ok(Story { ends, accepted: [0; 2], taken: [0; 2], frames: 0, lost: 0, damaged: 0 })
    }

    fn submit_all(&mut self) {
        for (end, kind, class, length, ident) in SUBMISSIONS {
            let answer = answer(self.ends[end].submit(Packet { kind, class, length, ident }));
            println!("{end} submits ident {ident}: {answer}");
            self.accepted[end] += u32::from(answer == 0);
        }
    }

    /// One frame from an end to the other, if one applies. Of each seven frames the third is lost and the sixth damaged.
    fn send_one(&mut self, from: usize) -> bool {
        let Ok((frame, source)) = self.ends[from].send() else {
            return false;
        };
        let to = 1 - from;
        self.frames += 1;
        let fate = match self.frames % 7 {
            3 => {
                self.lost += 1;
                "lost".into()
            }
            6 => {
                self.damaged += 1;
                arrival_words(self.ends[to].damage(frame))
            }
            _ => arrival_words(self.ends[to].arrive(frame)),
        };
        println!("{from} to {to}: {}: {fate}", frame_words(frame, source));
        true
    }

    /// All that waits at an end is taken.
    fn take_all(&mut self, end: usize) {
        for (channel, category) in (0..6).map(|i| (i / 3, i % 3)) {
            while let Ok(ident) = self.ends[end].take(channel, category) {
                self.taken[end] += 1;
                println!("{end} takes ident {ident} from channel {channel} category {category}");
            }
        }
    }

    /// No end has a frame to send: replays start, and where nothing is unacknowledged, all updates are marked. True once all is done.
    fn wake(&mut self) -> bool {
        let timers = [0, 1].map(|end| answer(self.ends[end].timer()));
        println!("timers: {} {}", timers[0], timers[1]);
        if timers.contains(&0) {
            return false;
        }
        if self.taken == [self.accepted[1], self.accepted[0]] {
            return true;
        }
        let refreshes = [0, 1].map(|end| answer(self.ends[end].refresh()));
        println!("refresh: {} {}", refreshes[0], refreshes[1]);
        false
    }
}

fn main() -> Result<(), Refusal> {
    let mut story = Story::start(&setup())?;
    story.submit_all();
    loop {
        let sent = [0, 1].map(|end| story.send_one(end));
        story.take_all(0);
        story.take_all(1);
        if sent == [false, false] && story.wake() {
            break;
        }
    }
    for (end, state) in story.ends.iter().enumerate() {
        let shape = if state.in_shape() { 0 } else { 10 };
        let (accepted, taken) = (story.accepted[end], story.taken[end]);
        println!("end {end} accepted {accepted} taken {taken} retrains {} shape {shape}", state.retrains());
    }
    println!("frames {} lost {} damaged {}", story.frames, story.lost, story.damaged);
    Ok(())
}
