//! The two sides: an end of the proved library and one of the plain model, asked the same way.

use link::{Category, Frame, Message, Packet, Refusal};
use model::{frame, host, setup, units};

pub type Proved = link::End;
pub type Plain = model::end::End;

#[derive(Clone, Copy, Debug)]
pub enum Step {
    Submit(Packet),
    Send,
    Arrive(Frame),
    Damage(Frame),
    Take(u8, u8),
    Timer,
    Refresh,
}

/// Answer and detail; for Send the frame.
#[derive(Debug, PartialEq, Eq)]
pub struct Told {
    pub answer: u32,
    pub detail: u32,
    pub frame: Option<Frame>,
}

fn told(answer: u32, detail: u32) -> Told {
    Told { answer, detail, frame: None }
}

/// Both start from the same setup, which is in range.
pub fn start(setup: &setup::Setup, side: u32) -> (Proved, Plain) {
    let bytes: [u8; link::SETUP_BYTES] = setup.to_bytes().try_into().expect("a setup's bytes");
    let proved = link::End::start(&bytes.into(), side as u8).expect("a setup in range");
    (proved, Plain::start(setup, side as usize))
}

pub fn proved(end: &mut Proved, step: Step) -> Told {
    let said: Result<(u32, Option<Frame>), Refusal> = match step {
        Step::Submit(packet) => end.submit(packet).map(|()| (0, None)),
        Step::Send => end.send().map(|(frame, source)| (source as u32, Some(frame))),
        Step::Arrive(frame) => end.arrive(frame).map(|arrival| (arrival as u32, None)),
        Step::Damage(frame) => end.damage(frame).map(|arrival| (arrival as u32, None)),
        Step::Take(channel, category) => end.take(channel, category).map(|ident| (ident, None)),
        Step::Timer => end.timer().map(|()| (0, None)),
        Step::Refresh => end.refresh().map(|()| (0, None)),
    };
    match said {
        Ok((detail, frame)) => Told { answer: 0, detail, frame },
        Err(refusal) => told(u32::from(refusal.number()), 0),
    }
}

pub fn plain(end: &mut Plain, step: Step) -> Told {
    let said = match step {
        Step::Submit(packet) => host::submit(end, plain_packet(packet)).map(|()| (0, None)),
        Step::Send => host::send(end).map(|(frame, source)| (source.detail(), Some(shown(frame)))),
        Step::Arrive(frame) => host::arrive(end, &plain_frame(frame)).map(|detail| (detail, None)),
        Step::Damage(frame) => host::damage(end, &plain_frame(frame)).map(|detail| (detail, None)),
        Step::Take(channel, category) => {
            host::take(end, channel.into(), category.into()).map(|packet| (packet.ident, None))
        }
        Step::Timer => host::timer(end).map(|()| (0, None)),
        Step::Refresh => host::refresh(end).map(|()| (0, None)),
    };
    match said {
        Ok((detail, frame)) => Told { answer: 0, detail, frame },
        Err(answer) => told(answer, 0),
    }
}

fn plain_packet(packet: Packet) -> units::Packet {
    let Packet { kind, class, length, ident } = packet;
    units::Packet::new(kind.into(), class.into(), length.into(), ident)
}

fn plain_frame(frame: Frame) -> frame::Frame {
    let message = match frame {
        Frame::Packet(number, packet) => {
            return frame::Frame::Packet { number: number.into(), packet: plain_packet(packet) };
        }
        Frame::Message(Message::Ack(number)) => frame::Message::Ack(number.into()),
        Frame::Message(Message::Nak(number)) => frame::Message::Nak(number.into()),
        Frame::Message(Message::Update { channel, category, header, data }) => {
            let limit = units::Units::new(header.into(), data.into());
            frame::Message::Update { channel: channel.into(), category: category as u32, limit }
        }
    };
    frame::Frame::Link(message)
}

/// A frame of the plain model as one of the library. What it sends is in range, so no number is cut.
fn shown(frame: frame::Frame) -> Frame {
    let message = match frame {
        frame::Frame::Packet { number, packet } => return Frame::Packet(number as u16, shown_packet(packet)),
        frame::Frame::Link(frame::Message::Ack(number)) => Message::Ack(number as u16),
        frame::Frame::Link(frame::Message::Nak(number)) => Message::Nak(number as u16),
        frame::Frame::Link(frame::Message::Update { channel, category, limit }) => Message::Update {
            channel: channel as u8,
            category: Category::ALL[category as usize],
            header: limit.header as u8,
            data: limit.data as u16,
        },
    };
    Frame::Message(message)
}

fn shown_packet(packet: units::Packet) -> Packet {
    let units::Packet { kind, class, length, ident } = packet;
    Packet { kind: kind as u8, class: class as u8, length: length as u16, ident }
}
