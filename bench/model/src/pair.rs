//! Two ends and the two lines between them, the eight steps, and the quiet round.

use std::collections::VecDeque;

use crate::end::End;
use crate::frame::Frame;
use crate::setup::Setup;
use crate::step::{Step, ARRIVE, DAMAGE, LOSE, REFRESH, SEND, SUBMIT, TAKE, TIMER};
use crate::units::{Packet, CATEGORIES};

/// Frames on one line.
pub const LINE: usize = 16;
/// Exchanges in a quiet round.
pub const EXCHANGES: usize = 1024;

#[derive(Clone, Debug, PartialEq, Eq)]
pub struct Pair {
    pub ends: [End; 2],
    /// By the end that the line leads to, oldest frame first.
    pub lines: [VecDeque<Frame>; 2],
}

/// What a step answers.
#[derive(Clone, Copy, Debug, PartialEq, Eq)]
pub struct Outcome {
    pub answer: u32,
    /// 0 for a refusal.
    pub detail: u32,
    /// What Take handed out.
    pub packet: Option<Packet>,
}

impl Outcome {
    fn done(detail: u32) -> Outcome {
        Outcome { answer: 0, detail, packet: None }
    }

    fn taken(packet: Packet) -> Outcome {
        Outcome { answer: 0, detail: packet.ident, packet: Some(packet) }
    }

    fn refused(answer: u32) -> Outcome {
        Outcome { answer, detail: 0, packet: None }
    }
}

impl Pair {
    /// The pair at the start, or 5.
    pub fn start(setup: &Setup) -> Result<Pair, u32> {
        if !setup.in_range() {
            return Err(5);
        }
        Ok(Pair {
            ends: [End::start(setup, 0), End::start(setup, 1)],
            lines: [VecDeque::new(), VecDeque::new()],
        })
    }

    /// One step on a state that may be out of shape: 10 first.
    pub fn step(&mut self, step: &Step) -> Outcome {
        if !self.in_shape() {
            return Outcome::refused(10);
        }
        self.act(step)
    }

    /// One step on a state in shape: 11, then 6, then the step's own row.
    pub fn act(&mut self, step: &Step) -> Outcome {
        if step.end > 1 {
            return Outcome::refused(11);
        }
        if !step.in_form() {
            return Outcome::refused(6);
        }
        self.row(step).unwrap_or_else(Outcome::refused)
    }

    fn row(&mut self, step: &Step) -> Result<Outcome, u32> {
        let at = step.end as usize;
        let end = &mut self.ends[at];
        match step.number {
            SUBMIT => end.submit(step.packet()).map(|()| Outcome::done(0)),
            SEND => self.send(at),
            ARRIVE => self.arrive(at),
            DAMAGE => self.damage(at),
            LOSE => self.lines[at].pop_front().map(|_| Outcome::done(0)).ok_or(19),
            TAKE => end.take(step.channel, step.kind).map(Outcome::taken),
            TIMER => end.timer().map(|()| Outcome::done(0)),
            REFRESH => {
                end.refresh();
                Ok(Outcome::done(0))
            }
            _ => Err(6),
        }
    }

    /// 18 no frame applies, then 17 the line is full.
    fn send(&mut self, at: usize) -> Result<Outcome, u32> {
        if self.ends[at].source().is_none() {
            return Err(18);
        }
        let line = &mut self.lines[1 - at];
        if line.len() >= LINE {
            return Err(17);
        }
        let (frame, source) = self.ends[at].send()?;
        line.push_back(frame);
        Ok(Outcome::done(source.detail()))
    }

    /// A frame that the end refuses stays on the line.
    fn arrive(&mut self, at: usize) -> Result<Outcome, u32> {
        let frame = self.lines[at].front().ok_or(19u32)?;
        let detail = self.ends[at].arrive(frame)?;
        self.lines[at].pop_front();
        Ok(Outcome::done(detail))
    }

    fn damage(&mut self, at: usize) -> Result<Outcome, u32> {
        let frame = self.lines[at].pop_front().ok_or(19u32)?;
        Ok(Outcome::done(self.ends[at].damage(&frame)))
    }

    /// The quiet round. Each of its steps and what it answered goes to `record`.
    pub fn quiet_round(&mut self, mut record: impl FnMut(&Step, &Outcome)) {
        let channels = self.ends.each_ref().map(|end| end.setup.channels);
        let mut act = |step: Step| {
            let outcome = self.act(&step);
            record(&step, &outcome);
            outcome.answer
        };
        for step in [Step::timer(0), Step::timer(1), Step::refresh(0), Step::refresh(1)] {
            act(step);
        }
        for _ in 0..EXCHANGES {
            for step in [Step::send(0), Step::arrive(1), Step::send(1), Step::arrive(0)] {
                act(step);
            }
        }
        for (end, channels) in (0..).zip(channels) {
            for channel in 0..channels {
                for category in 0..CATEGORIES as u32 {
                    while act(Step::take(end, channel, category)) == 0 {}
                }
            }
        }
    }
}
