//! What the screen shows.

use crate::raw;
use crate::{done, Refusal, Reply, Server};
use std::ops::Deref;

/// A part of the screen.
#[derive(Clone, Copy, Debug, PartialEq, Eq, Hash)]
pub struct Rect {
    /// The left column.
    pub x: u32,
    /// The top row.
    pub y: u32,
    /// How many columns.
    pub w: u32,
    /// How many rows.
    pub h: u32,
}

impl Rect {
    /// The part that a look answers, where it is not refused.
    fn of(part: raw::Rect) -> Reply<Option<Self>> {
        let (x, y, w, h) = (part.x, part.y, part.w, part.h);
        match part.kind {
            raw::DONE => Ok((w > 0).then_some(Rect { x, y, w, h })),
            other => Err(Refusal::of(other)),
        }
    }
}

/// Parts of the screen: a slice of at most 16, no two of which meet.
#[derive(Clone, Copy, Debug)]
pub struct Damage {
    all: [Rect; 16],
    count: usize,
}

impl Damage {
    fn of(damage: &raw::Damage) -> Reply<Self> {
        let all = damage
            .part
            .map(|raw::Part { x, y, w, h }| Rect { x, y, w, h });
        let count = (damage.count as usize).min(all.len());
        done(damage.kind).map(|()| Damage { all, count })
    }
}

impl Deref for Damage {
    type Target = [Rect];

    fn deref(&self) -> &[Rect] {
        &self.all[..self.count]
    }
}

impl Server {
    /// Brings the words, one for each pixel, row by row from the top, up to date with what the
    /// screen shows. They have to be as the last look left them; before the first look they may be
    /// any, and are all to be shown after it. The least part outside of which no word changed is
    /// answered; none where none did. Of words that are not as the last look left them, only those
    /// in the part are surely right, and nothing tests that they are.
    ///
    /// # Errors
    /// [`Refusal::WrongFrame`].
    pub fn look(&mut self, out: &mut [u32]) -> Reply<Option<Rect>> {
        // SAFETY: the handle is ours, and the words are so many that nobody else has.
        Rect::of(unsafe { raw::nit_look(self.raw.get_mut(), out.as_mut_ptr(), out.len()) })
    }

    /// A look at words that may be any: of a host that has lost what the last look left. They are
    /// what the screen shows then.
    ///
    /// # Errors
    /// [`Refusal::WrongFrame`].
    pub fn look_anew(&mut self, out: &mut [u32]) -> Reply<Option<Rect>> {
        // SAFETY: the handle is ours, and the words are so many that nobody else has.
        Rect::of(unsafe { raw::nit_look_anew(self.raw.get_mut(), out.as_mut_ptr(), out.len()) })
    }

    /// A look without the copying: the parts of the screen in which pixels may have changed since
    /// the last look, of whichever kind. All that changed lies in them; those of the first look
    /// hold the whole screen. A click goes by it from now on. So the host copies the parts with
    /// [`Server::copy`], and shows them, before the next call of a client.
    ///
    /// # Errors
    /// None of a server that is open.
    ///
    /// ```
    /// # use nitpicker::{Plan, Refusal, SeatPlan, Server};
    /// # let seats = [SeatPlan { donation: 256, layer: 0, clicks: true }];
    /// # let plan = Plan { width: 8, height: 8, seats: &seats, ..Plan::default() };
    /// # let mut server = Server::open(&plan)?;
    /// let mut surface = [0; 8 * 10]; // of rows that are 10 words apart
    /// for part in server.damage()?.iter() {
    ///     let first = part.y as usize * 10 + part.x as usize;
    ///     server.copy(*part, &mut surface[first..], 10)?;
    /// }
    /// assert_eq!((surface[7], surface[8]), (0x20, 0));
    /// assert!(server.damage()?.is_empty());
    /// # Ok::<(), Refusal>(())
    /// ```
    pub fn damage(&mut self) -> Reply<Damage> {
        // SAFETY: the handle is ours.
        Damage::of(&unsafe { raw::nit_damage(self.raw.get_mut()) })
    }

    /// Puts the words of this part of the screen, as it is now: that of row r and column c of the
    /// part at `out[r * pitch + c]`. No other word changes. It is no look, and nothing that a call
    /// answers changes by it; but where the frame has to be made, it is made here.
    ///
    /// # Errors
    /// [`Refusal::BadRect`] where the part reaches beyond the screen, [`Refusal::WrongFrame`]
    /// where the words do not hold it.
    pub fn copy(&mut self, part: Rect, out: &mut [u32], pitch: usize) -> Reply {
        let Rect { x, y, w, h } = part;
        let (at, count) = (out.as_mut_ptr(), out.len());
        // SAFETY: the handle is ours, and the words are so many that nobody else has.
        done(unsafe { raw::nit_copy(self.raw.get_mut(), x, y, w, h, at, count, pitch) })
    }
}
