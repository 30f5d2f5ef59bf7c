//! What clients are told.

use crate::raw;
use crate::{Refusal, Reply};
use std::fmt;
use std::ops::Deref;

/// What a client is told.
#[derive(Clone, Copy, Debug, PartialEq, Eq, Hash)]
pub enum Event {
    /// A key or a button goes down, by its code 0..=767.
    Press(u32),
    /// It goes up.
    Release(u32),
    /// The pointer is at this column and row of the screen.
    Motion(u16, u16),
    /// The wheel turns by -127..=127.
    Wheel(i32),
    /// The pointer is another's from here on: it went to other pixels, or a mode began in which
    /// clients are told nothing of it.
    Leave,
    /// The client has the focus now.
    FocusEnter,
    /// The client has lost the focus.
    FocusLeave,
}

impl Event {
    pub(crate) fn of(event: &raw::Event) -> Option<Self> {
        Some(match event.kind {
            raw::PRESS => Event::Press(event.code),
            raw::RELEASE => Event::Release(event.code),
            raw::MOTION => Event::Motion(event.x, event.y),
            raw::WHEEL => Event::Wheel(event.turn),
            raw::LEAVE => Event::Leave,
            raw::FOCUS_ENTER => Event::FocusEnter,
            raw::FOCUS_LEAVE => Event::FocusLeave,
            _ => return None,
        })
    }
}

impl fmt::Display for Event {
    /// As a line of a journal has it.
    fn fmt(&self, f: &mut fmt::Formatter<'_>) -> fmt::Result {
        match self {
            Event::Press(code) => write!(f, "press {code}"),
            Event::Release(code) => write!(f, "release {code}"),
            Event::Motion(x, y) => write!(f, "motion {x} {y}"),
            Event::Wheel(turn) => write!(f, "wheel {turn}"),
            Event::Leave => f.write_str("leave"),
            Event::FocusEnter => f.write_str("focus-enter"),
            Event::FocusLeave => f.write_str("focus-leave"),
        }
    }
}

/// What something that the user did is to a client.
#[derive(Clone, Copy, Debug, PartialEq, Eq, Hash)]
pub enum Item {
    /// The event waits at its seat until it is taken, or its client leaves or is locked out; unless
    /// 64 wait there already: then it is lost.
    Event(Event),
    /// The client is locked out. That is no ban: one of its label may sit down again, where the
    /// host lets it.
    Kill,
}

impl fmt::Display for Item {
    fn fmt(&self, f: &mut fmt::Formatter<'_>) -> fmt::Result {
        match self {
            Item::Event(event) => event.fmt(f),
            Item::Kill => f.write_str("kill"),
        }
    }
}

/// An item, and the number of the seat that it went to.
#[derive(Clone, Copy, Debug, PartialEq, Eq, Hash)]
pub struct Delivery {
    /// The seat, from 0.
    pub seat: u32,
    /// What it was told.
    pub item: Item,
}

/// Whom one thing that the user did went to, in order: a slice of at most three.
#[derive(Clone, Copy, Debug)]
pub struct Deliveries {
    all: [Delivery; 3],
    count: usize,
}

impl Deliveries {
    pub(crate) fn of(routed: &raw::Routed) -> Reply<Self> {
        let none = Delivery {
            seat: 0,
            item: Item::Kill,
        };
        let (mut all, count) = ([none; 3], routed.count as usize);
        if routed.kind != raw::DONE {
            return Err(Refusal::of(routed.kind));
        }
        for (to, from) in all.iter_mut().zip(&routed.to).take(count) {
            to.seat = from.seat;
            to.item = match Event::of(&from.event) {
                Some(event) => Item::Event(event),
                None if from.event.kind == raw::KILL => Item::Kill,
                None => return Err(Refusal::Unknown(from.event.kind)),
            };
        }
        Ok(Deliveries {
            all,
            count: count.min(3),
        })
    }
}

impl Deref for Deliveries {
    type Target = [Delivery];

    fn deref(&self) -> &[Delivery] {
        &self.all[..self.count]
    }
}
