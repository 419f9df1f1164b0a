//! Why a call was refused. A refused call changed nothing.
use std::error::Error;
use std::fmt;

macro_rules! refusals {
    ($($name:ident = $number:literal $words:literal)+) => {
        /// The numbers of document 01 that an end answers with.
        #[derive(Clone, Copy, Debug, PartialEq, Eq, Hash)]
        pub enum Refusal {
            $(#[doc = $words] $name = $number,)+
        }

        impl Refusal {
            pub const ALL: [Refusal; [$($number),+].len()] = [$(Refusal::$name),+];

            fn words(self) -> &'static str {
                match self {
                    $(Refusal::$name => $words,)+
                }
            }
        }
    };
}

refusals! {
    Setup = 5 "setup out of range"
    Memory = 7 "memory of another length, at the start"
    Shape = 10 "state out of shape, or memory of another length"
    End = 11 "end not 0 or 1"
    Kind = 12 "kind over 9"
    Class = 13 "class over 7, or not 0 for kinds 2 to 5"
    Length = 14 "length out of the kind's range"
    TooLarge = 15 "needs more data units than the other end's setup gives"
    QueueFull = 16 "queue full: 8 of its category wait on its channel"
    NoFrame = 18 "no frame applies"
    NoSuchList = 20 "channel not in use, or category over 2"
    NoneWaiting = 21 "none waiting"
    PostedFirst = 22 "not posted, and a posted packet that arrived earlier waits on that channel"
    NothingUnacknowledged = 23 "nothing unacknowledged"
    Number = 24 "Ack or Nak number not accepted"
    Update = 25 "update not accepted"
    Room = 26 "packet in sequence but over the free header or data room"
    Field = 27 "a field of a frame out of range"
}

impl Refusal {
    /// 0 is no refusal.
    ///
    /// # Panics
    /// If no end answers so: then the library is another one.
    pub(crate) fn check(answer: u8) -> Result<(), Refusal> {
        if answer == 0 {
            return Ok(());
        }
        let refusal = Refusal::ALL.into_iter().find(|refusal| refusal.number() == answer);
        Err(refusal.unwrap_or_else(|| panic!("no end answers {answer}")))
    }

    /// Document 01's number.
    pub fn number(self) -> u8 {
        self as u8
    }
}

impl fmt::Display for Refusal {
    fn fmt(&self, f: &mut fmt::Formatter<'_>) -> fmt::Result {
        write!(f, "{} {}", self.number(), self.words())
    }
}

impl Error for Refusal {}
