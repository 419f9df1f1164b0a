//! Frames: a packet with its number, or a link message; and the two words that a frame is in the library.
//!
//! Bits of the first word, the lowest first: 0 to 1 the kind (0 packet, 1 Ack, 2 Nak, 3 update); then of a packet, an Ack or a Nak its
//! number (16 bits), of an update channel (8), category (2), header units (8) and data units (16). The second word is the packet: kind (8),
//! class (8), length (16), ident (32). Bits left over have no meaning, and are 0 in a frame that is made.

#[derive(Clone, Copy, Debug, PartialEq, Eq, Hash)]
pub enum Category {
    Posted = 0,
    NonPosted = 1,
    Completion = 2,
}

impl Category {
    pub const ALL: [Category; 3] = [Category::Posted, Category::NonPosted, Category::Completion];
}

/// A packet. The length is in words of 4 bytes; the ident stands for the contents.
#[derive(Clone, Copy, Debug, PartialEq, Eq, Hash)]
pub struct Packet {
    pub kind: u8,
    pub class: u8,
    pub length: u16,
    pub ident: u32,
}

/// Ack and Nak carry the number up to which all was received. An update carries both allocated counts.
#[derive(Clone, Copy, Debug, PartialEq, Eq, Hash)]
pub enum Message {
    Ack(u16),
    Nak(u16),
    Update { channel: u8, category: Category, header: u8, data: u16 },
}

#[derive(Clone, Copy, Debug, PartialEq, Eq, Hash)]
pub enum Frame {
    Packet(u16, Packet),
    Message(Message),
}

impl From<u64> for Packet {
    fn from(word: u64) -> Packet {
        Packet {
            kind: word as u8,
            class: (word >> 8) as u8,
            length: (word >> 16) as u16,
            ident: (word >> 32) as u32,
        }
    }
}

impl From<Packet> for u64 {
    fn from(packet: Packet) -> u64 {
        let Packet { kind, class, length, ident } = packet;
        u64::from(kind) | u64::from(class) << 8 | u64::from(length) << 16 | u64::from(ident) << 32
    }
}

impl From<Message> for u64 {
    fn from(message: Message) -> u64 {
        match message {
            Message::Ack(number) => 1 | u64::from(number) << 2,
            Message::Nak(number) => 2 | u64::from(number) << 2,
            Message::Update { channel, category, header, data } => {
                let place = u64::from(channel) << 2 | (category as u64) << 10;
                3 | place | u64::from(header) << 12 | u64::from(data) << 20
            }
        }
    }
}

impl From<Frame> for [u64; 2] {
    fn from(frame: Frame) -> [u64; 2] {
        match frame {
            Frame::Packet(number, packet) => [u64::from(number) << 2, packet.into()],
            Frame::Message(message) => [message.into(), 0],
        }
    }
}

/// The number 3 is read as a completion.
fn category(bits: u64) -> Category {
    match bits & 3 {
        0 => Category::Posted,
        1 => Category::NonPosted,
        _ => Category::Completion,
    }
}

/// Every two words are a frame.
impl From<[u64; 2]> for Frame {
    fn from([head, rest]: [u64; 2]) -> Frame {
        let number = (head >> 2) as u16;
        let message = match head & 3 {
            0 => return Frame::Packet(number, rest.into()),
            1 => Message::Ack(number),
            2 => Message::Nak(number),
            _ => Message::Update {
                channel: (head >> 2) as u8,
                category: category(head >> 10),
                header: (head >> 12) as u8,
                data: (head >> 20) as u16,
            },
        };
        Frame::Message(message)
    }
}
