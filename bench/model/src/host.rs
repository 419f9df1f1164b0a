//! A single end that lives with its host: each step first asks for the shape (10), and a frame from outside for its
//! fields (27). A refused call changes nothing.

use crate::end::{End, Source};
use crate::frame::Frame;
use crate::units::Packet;

fn shaped(end: &End) -> Result<(), u32> {
    if end.in_shape() {
        Ok(())
    } else {
        Err(10)
    }
}

pub fn submit(end: &mut End, packet: Packet) -> Result<(), u32> {
    shaped(end)?;
    end.submit(packet)
}

pub fn send(end: &mut End) -> Result<(Frame, Source), u32> {
    shaped(end)?;
    end.send()
}

/// A frame from outside comes whole: 27, then 24, 25, 26.
pub fn arrive(end: &mut End, frame: &Frame) -> Result<u32, u32> {
    shaped(end)?;
    if !frame.in_range(end.setup.channels) {
        return Err(27);
    }
    end.arrive(frame)
}

/// A frame from outside comes damaged. Only the shape can refuse it.
pub fn damage(end: &mut End, frame: &Frame) -> Result<u32, u32> {
    shaped(end)?;
    Ok(end.damage(frame))
}

pub fn take(end: &mut End, channel: u32, category: u32) -> Result<Packet, u32> {
    shaped(end)?;
    end.take(channel, category)
}

pub fn timer(end: &mut End) -> Result<(), u32> {
    shaped(end)?;
    end.timer()
}

pub fn refresh(end: &mut End) -> Result<(), u32> {
    shaped(end)?;
    end.refresh();
    Ok(())
}
