//! One end of a PCI Express link that lives in its host's memory, stepped there. Document 01 is the rule; the steps are proved.
//!
//! An `Err` is a refusal, and it changed nothing.
//!
//! ```
//! use link::{Arrival, Category, End, Packet, Refusal, Setup};
//!
//! let mut setup = Setup::new(1);
//! for end in 0..2 {
//!     for category in Category::ALL {
//!         setup = setup.units(end, 0, category, 1, 1);
//!     }
//! }
//! let (mut near, mut far) = (End::start(&setup, 0)?, End::start(&setup, 1)?);
//! near.submit(Packet { kind: 1, class: 0, length: 4, ident: 7 })?;
//! let (frame, _) = near.send()?;
//! assert_eq!(far.arrive(frame)?, Arrival::Accepted);
//! assert_eq!(far.take(0, 0)?, 7);
//! assert_eq!(far.take(0, 0), Err(Refusal::NoneWaiting));
//! # Ok::<(), Refusal>(())
//! ```
mod frame;
pub mod raw;
mod refusal;
mod setup;

pub use frame::{Category, Frame, Message, Packet};
pub use raw::END_WORDS;
pub use refusal::Refusal;
pub use setup::{Setup, SETUP_BYTES};

/// Where a frame that is sent comes from, with document 01's detail number.
#[derive(Clone, Copy, Debug, PartialEq, Eq)]
pub enum Source {
    Nak = 1,
    Ack = 2,
    Update = 3,
    Replay = 4,
    New = 5,
}

/// What became of a frame that reached an end, with document 01's detail number.
#[derive(Clone, Copy, Debug, PartialEq, Eq)]
pub enum Arrival {
    Message = 0,
    Accepted = 1,
    Duplicate = 2,
    OutOfOrder = 3,
    Damaged = 4,
}

/// An end: its words, and those of its setup. It holds no pointer and may be moved and kept.
#[derive(Clone, Debug, PartialEq, Eq)]
pub struct End {
    words: [u64; END_WORDS],
}

fn source(detail: u32) -> Source {
    match detail {
        1 => Source::Nak,
        2 => Source::Ack,
        3 => Source::Update,
        4 => Source::Replay,
        5 => Source::New,
        _ => unreachable!("Send has no detail {detail}"),
    }
}

fn arrival(said: raw::Said) -> Result<Arrival, Refusal> {
    Refusal::check(said.answer)?;
    Ok(match said.detail {
        0 => Arrival::Message,
        1 => Arrival::Accepted,
        2 => Arrival::Duplicate,
        3 => Arrival::OutOfOrder,
        4 => Arrival::Damaged,
        detail => unreachable!("Arrive and Damage have no detail {detail}"),
    })
}

impl End {
    /// Starts end 0 or 1 of a link. Refused with 5 or 11.
    pub fn start(setup: &Setup, which: u8) -> Result<End, Refusal> {
        let mut words = [0; END_WORDS];
        Refusal::check(raw::start(&mut words, setup.bytes(), which))?;
        Ok(End { words })
    }

    /// Takes an end whose words come from outside. Refused with 10.
    pub fn from_words(words: [u64; END_WORDS]) -> Result<End, Refusal> {
        let end = End { words };
        if end.in_shape() {
            Ok(end)
        } else {
            Err(Refusal::Shape)
        }
    }

    /// The words, to be kept. `crates/words/specs/Memory.antt` has their places.
    pub fn words(&self) -> &[u64; END_WORDS] {
        &self.words
    }

    /// A packet joins its channel's send queue. Refused with 12 to 16.
    pub fn submit(&mut self, packet: Packet) -> Result<(), Refusal> {
        let Packet { kind, class, length, ident } = packet;
        Refusal::check(raw::submit(&mut self.words, kind, class, length, ident))
    }

    /// The first frame that applies, for the host's line. Refused with 18.
    pub fn send(&mut self) -> Result<(Frame, Source), Refusal> {
        let sending = raw::send(&mut self.words);
        Refusal::check(sending.answer)?;
        Ok(([sending.head, sending.rest].into(), source(sending.detail)))
    }

    /// A frame reaches the end whole. Refused with 27, 24, 25 or 26.
    pub fn arrive(&mut self, frame: Frame) -> Result<Arrival, Refusal> {
        let [head, rest] = frame.into();
        arrival(raw::arrive(&mut self.words, head, rest))
    }

    /// A frame reaches the end damaged. It is never refused.
    pub fn damage(&mut self, frame: Frame) -> Result<Arrival, Refusal> {
        let [head, rest] = frame.into();
        arrival(raw::damage(&mut self.words, head, rest))
    }

    /// Hands out the ident of the oldest packet of a channel and category. Refused with 20, 21 or 22.
    pub fn take(&mut self, channel: u8, category: u8) -> Result<u32, Refusal> {
        let said = raw::take(&mut self.words, channel, category);
        Refusal::check(said.answer)?;
        Ok(said.detail)
    }

    /// A replay starts at the oldest unacknowledged packet. Refused with 23.
    pub fn timer(&mut self) -> Result<(), Refusal> {
        Refusal::check(raw::timer(&mut self.words))
    }

    /// All updates of channels in use are marked. It is never refused.
    pub fn refresh(&mut self) -> Result<(), Refusal> {
        Refusal::check(raw::refresh(&mut self.words))
    }

    /// Is the state in shape? An end that was started stays in shape, whatever the steps.
    pub fn in_shape(&self) -> bool {
        raw::shape(&self.words) == 0
    }

    /// How many times the link was trained again, modulo 65,536.
    pub fn retrains(&self) -> u16 {
        raw::retrains(&self.words)
    }
}
