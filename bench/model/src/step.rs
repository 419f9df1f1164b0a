//! A step: six fields as numbers, and its form.

use crate::units::Packet;

/// The step numbers.
pub const SUBMIT: u32 = 1;
pub const SEND: u32 = 2;
pub const ARRIVE: u32 = 3;
pub const DAMAGE: u32 = 4;
pub const LOSE: u32 = 5;
pub const TAKE: u32 = 6;
pub const TIMER: u32 = 7;
pub const REFRESH: u32 = 8;

#[derive(Clone, Copy, Debug, Default, PartialEq, Eq)]
pub struct Step {
    pub number: u32,
    pub end: u32,
    /// Submit's class, Take's channel.
    pub channel: u32,
    /// Submit's kind, Take's category.
    pub kind: u32,
    pub length: u32,
    pub ident: u32,
}

impl Step {
    pub fn submit(end: u32, packet: Packet) -> Step {
        let Packet { kind, class, length, ident } = packet;
        Step { number: SUBMIT, end, channel: class, kind, length, ident }
    }

    pub fn take(end: u32, channel: u32, category: u32) -> Step {
        Step { number: TAKE, end, channel, kind: category, ..Step::default() }
    }

    pub fn send(end: u32) -> Step {
        Step::bare(SEND, end)
    }

    pub fn arrive(end: u32) -> Step {
        Step::bare(ARRIVE, end)
    }

    pub fn damage(end: u32) -> Step {
        Step::bare(DAMAGE, end)
    }

    pub fn lose(end: u32) -> Step {
        Step::bare(LOSE, end)
    }

    pub fn timer(end: u32) -> Step {
        Step::bare(TIMER, end)
    }

    pub fn refresh(end: u32) -> Step {
        Step::bare(REFRESH, end)
    }

    /// A step that uses no field but its end.
    pub fn bare(number: u32, end: u32) -> Step {
        Step { number, end, ..Step::default() }
    }

    /// The packet that Submit hands in.
    pub fn packet(&self) -> Packet {
        Packet::new(self.kind, self.channel, self.length, self.ident)
    }

    /// The form: a known step, end 0 or 1, zeros where the step has no use for a field.
    pub fn in_form(&self) -> bool {
        let bare = self.channel == 0 && self.kind == 0;
        let short = self.length == 0 && self.ident == 0;
        self.end <= 1
            && match self.number {
                SUBMIT => true,
                TAKE => short,
                SEND | ARRIVE | DAMAGE | LOSE | TIMER | REFRESH => bare && short,
                _ => false,
            }
    }

    /// Whether every field fits its bytes in a record.
    pub fn fits(&self) -> bool {
        self.number <= 0xff
            && self.end <= 0xff
            && self.channel <= 0xff
            && self.kind <= 0xff
            && self.length <= 0xffff
    }

    /// The step of a record's 12 bytes, or none if it is out of form.
    pub fn from_record(record: &[u8]) -> Option<Step> {
        let step = Step {
            number: u32::from(record[0]),
            end: u32::from(record[1]),
            channel: u32::from(record[2]),
            kind: u32::from(record[3]),
            length: u32::from(u16::from_le_bytes([record[4], record[5]])),
            ident: u32::from_le_bytes([record[8], record[9], record[10], record[11]]),
        };
        let zeros = record[6] == 0 && record[7] == 0;
        (zeros && step.in_form()).then_some(step)
    }

    /// The 12 bytes of a step that is in form and fits them.
    pub fn to_record(&self) -> [u8; 12] {
        let mut record = [0; 12];
        record[0] = self.number as u8;
        record[1] = self.end as u8;
        record[2] = self.channel as u8;
        record[3] = self.kind as u8;
        record[4..6].copy_from_slice(&(self.length as u16).to_le_bytes());
        record[8..12].copy_from_slice(&self.ident.to_le_bytes());
        record
    }
}
