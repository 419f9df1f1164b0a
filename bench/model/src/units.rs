//! Counters that go round, the kinds of packets, and what a packet costs.
//!
//! All numbers are held as `u32`, also those that are out of range, so that the rules can refuse them.

/// Header counters wrap at 256.
pub const HEADER_RANGE: u32 = 256;
/// Data counters wrap at 4,096.
pub const DATA_RANGE: u32 = 4096;
/// Sequence numbers wrap at 4,096.
pub const NUMBER_RANGE: u32 = 4096;
/// The retrain count is kept modulo 65,536.
pub const RETRAIN_RANGE: u32 = 65_536;

/// The categories.
pub const POSTED: usize = 0;
pub const NON_POSTED: usize = 1;
pub const COMPLETION: usize = 2;
/// How many categories there are.
pub const CATEGORIES: usize = 3;

/// `a + b` on a counter that wraps at `range`. Both are below or at the range.
pub fn plus(range: u32, a: u32, b: u32) -> u32 {
    (a + b) % range
}

/// `a - b` on a counter that wraps at `range`. Both are below or at the range.
pub fn minus(range: u32, a: u32, b: u32) -> u32 {
    (a + range - b) % range
}

/// Header units and data units, side by side. No sum takes one of each.
#[derive(Clone, Copy, Debug, Default, PartialEq, Eq)]
pub struct Units {
    pub header: u32,
    pub data: u32,
}

impl Units {
    pub fn new(header: u32, data: u32) -> Units {
        Units { header, data }
    }

    /// Each count plus that of `other`, round its own range.
    pub fn plus(self, other: Units) -> Units {
        Units {
            header: plus(HEADER_RANGE, self.header, other.header),
            data: plus(DATA_RANGE, self.data, other.data),
        }
    }

    /// Each count minus that of `other`, round its own range.
    pub fn minus(self, other: Units) -> Units {
        Units {
            header: minus(HEADER_RANGE, self.header, other.header),
            data: minus(DATA_RANGE, self.data, other.data),
        }
    }

    /// Both counts are numbers of their counters.
    pub fn in_range(self) -> bool {
        self.header < HEADER_RANGE && self.data < DATA_RANGE
    }

    /// Neither count is over that of `other`.
    pub fn within(self, other: Units) -> bool {
        self.header <= other.header && self.data <= other.data
    }
}

/// A packet that needs `need` may be sent: for header and for data, (limit - consumed - need) modulo the range is
/// at most half the range.
pub fn may_be_sent(limit: Units, consumed: Units, need: Units) -> bool {
    let half = Units::new(HEADER_RANGE / 2, DATA_RANGE / 2);
    limit.minus(consumed).minus(need).within(half)
}

/// An update's limits lie at most 127 header and 2,047 data units ahead of those stored.
pub fn is_ahead(update: Units, stored: Units) -> bool {
    update.minus(stored).within(Units::new(127, 2047))
}

/// What a packet's number is to a receiver.
#[derive(Clone, Copy, Debug, PartialEq, Eq)]
pub enum Place {
    InSequence,
    Duplicate,
    OutOfOrder,
}

/// Where a packet's number stands against the receiver's next-receive.
pub fn place_of(next_receive: u32, number: u32) -> Place {
    if number == next_receive {
        Place::InSequence
    } else if minus(NUMBER_RANGE, next_receive, number) <= NUMBER_RANGE / 2 {
        Place::Duplicate
    } else {
        Place::OutOfOrder
    }
}

/// One row of the table of kinds.
#[derive(Clone, Copy, Debug, PartialEq, Eq)]
pub struct Kind {
    pub category: usize,
    pub shortest: u32,
    pub longest: u32,
    pub payload: bool,
}

/// The row of a kind; none for a kind over 9.
pub fn kind(number: u32) -> Option<Kind> {
    let (category, shortest, longest, payload) = match number {
        0 => (NON_POSTED, 1, 1024, false),
        1 => (POSTED, 1, 1024, true),
        2 | 4 => (NON_POSTED, 1, 1, false),
        3 | 5 => (NON_POSTED, 1, 1, true),
        6 => (POSTED, 0, 0, false),
        7 => (POSTED, 1, 1024, true),
        8 => (COMPLETION, 0, 0, false),
        9 => (COMPLETION, 1, 1024, true),
        _ => return None,
    };
    Some(Kind { category, shortest, longest, payload })
}

/// A packet. The ident stands for its contents.
#[derive(Clone, Copy, Debug, Default, PartialEq, Eq)]
pub struct Packet {
    pub kind: u32,
    pub class: u32,
    pub length: u32,
    pub ident: u32,
}

impl Packet {
    pub fn new(kind: u32, class: u32, length: u32, ident: u32) -> Packet {
        Packet { kind, class, length, ident }
    }

    /// Rules 12 to 14, in this order.
    pub fn check(&self) -> Result<(), u32> {
        let Some(row) = kind(self.kind) else {
            return Err(12);
        };
        let needs_class_0 = (2..=5).contains(&self.kind);
        if self.class > 7 || (needs_class_0 && self.class != 0) {
            return Err(13);
        }
        if self.length < row.shortest || self.length > row.longest {
            return Err(14);
        }
        Ok(())
    }

    /// The category. The kind is one of the table.
    pub fn category(&self) -> usize {
        kind(self.kind).expect("a kind of the table").category
    }

    /// One header unit and, if it has payload, length/4 data units rounded up. The kind is one of the table.
    pub fn units(&self) -> Units {
        let row = kind(self.kind).expect("a kind of the table");
        let data = if row.payload { self.length.div_ceil(4) } else { 0 };
        Units::new(1, data)
    }
}
