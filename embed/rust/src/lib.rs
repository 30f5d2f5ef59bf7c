//! The proved core of a display server, which a host program drives: the C library `nitpicker.h` as
//! Rust has it. The host owns the window, the devices and whatever its clients speak; each thing
//! that it does is one call. The rules are in `docs/RULES.md` of the repository, and what is proved
//! in `docs/EMBEDDING.md`: of the library, and not of this crate.
//!
//! ```
//! use nitpicker::{Event, Plan, Refusal, SeatPlan, Server};
//!
//! # fn main() -> Result<(), Refusal> {
//! let seats = [SeatPlan { donation: 65536, layer: 0, clicks: true }; 4];
//! let plan = Plan { width: 64, height: 48, bar: true, seats: &seats, ..Plan::default() };
//! let mut server = Server::open(&plan)?;
//!
//! let client = server.sit("clock", 0)?; // a client has come
//! let mut clock = server.seat(client);
//! let view = clock.view()?;
//! clock.buffer(16, 16)?;
//! clock.place(view, 8, 10, 16, 16)?;
//! clock.refresh(0, 0, 16, 16, &[0xFFFFFF; 256])?;
//!
//! server.motion(10, 12)?; // the user
//! assert_eq!(server.seat(client).take()?, Some(Event::Motion(10, 12)));
//!
//! let mut frame = vec![0; 64 * 48]; // what the screen shows
//! assert!(server.look(&mut frame)?.is_some()); // the part that changed
//! assert_eq!(frame[10 * 64 + 8], 0xFFFFFF);
//! assert_eq!(server.look(&mut frame)?, None);
//! # Ok(())
//! # }
//! ```
//!
//! A [`Server`] is not `Send`: all its calls come from the thread that opened it.
//!
//! ```compile_fail
//! fn send<T: Send>() {}
//! send::<nitpicker::Server>();
//! ```
//!
//! It cannot be copied either, and a seat borrows it as long as it is used. So of the duties that
//! the header lists these are left to a host: the thread has stack enough; the words of
//! [`Server::look`] are what the screen showed at the last look, and what a look tells is shown
//! before the next press of a button, the parts of [`Server::damage`] before the next call of a
//! client; what speaks for a client calls by this client's name alone; and each press has its
//! release. What a former client of a seat asks for late is refused with [`Refusal::OtherClient`].
//!
//! ```compile_fail
//! fn copy<T: Clone>() {}
//! copy::<nitpicker::Server>();
//! ```

mod answer;
mod event;
mod looking;
mod raw;
mod reading;
mod seat;
mod viewing;

pub use answer::{ConfigRefusal, Refusal, Reply};
pub use event::{Deliveries, Delivery, Event, Item};
pub use looking::{Damage, Rect};
pub use reading::{Account, Mode, SeatState, State, Status};
pub use seat::{Client, Seat, View};
pub use viewing::{Shown, ViewState};

use std::cell::UnsafeCell;

/// The columns of the widest screen.
pub const MOST_WIDTH: u32 = raw::MOST_WIDTH;
/// The rows of the highest screen.
pub const MOST_HEIGHT: u32 = raw::MOST_HEIGHT;
/// The most seats of a server.
pub const MOST_SEATS: u32 = raw::MOST_SEATS;
/// The smallest donation, in units.
pub const LEAST_UNITS: u32 = raw::LEAST_UNITS;
/// The largest donation, in units.
pub const MOST_UNITS: u32 = raw::MOST_UNITS;
/// The most views of a client.
pub const MOST_VIEWS: u32 = raw::MOST_VIEWS;

/// A seat of a plan, as long as the server stands.
#[derive(Clone, Copy, Debug, PartialEq, Eq)]
pub struct SeatPlan {
    /// 256..=268435456 units. Whoever sits there may use these, and as many again by
    /// [`Seat::upgrade`], but never more than 8388608, or 268435456 where they are over 8388608.
    pub donation: u32,
    /// 0..=7; 0 is the front-most.
    pub layer: u32,
    /// Whether a click on a view gives its client the focus.
    pub clicks: bool,
}

/// The glyphs that a text is drawn in.
#[derive(Clone, Copy, Debug, PartialEq, Eq)]
pub enum Glyphs {
    /// Each has 3 by 5 dots.
    Small,
    /// Each has 5 by 7 dots, and any two differ in at least five of them.
    Large,
}

/// How labels and the status bar are drawn.
///
/// The picture of a text of n characters is `scale * (4 * n + 1)` pixels wide and `scale * 7` high
/// in small glyphs, and `scale * (6 * n + 1)` wide and `scale * 9` high in large ones. A label is
/// such a picture; the status bar is as high, and as wide as the screen.
#[derive(Clone, Copy, Debug, PartialEq, Eq)]
pub struct Lettering {
    /// The glyphs of each text.
    pub glyphs: Glyphs,
    /// A dot is so many pixels wide and high, 1..=8.
    pub scale: u32,
}

/// Small glyphs, and dots of one pixel.
impl Default for Lettering {
    fn default() -> Self {
        Lettering {
            glyphs: Glyphs::Small,
            scale: 1,
        }
    }
}

/// A server that is to be opened. The default has no pixel and no seat, which is refused; it is
/// there for what a plan leaves out: `Plan { width, height, seats, ..Plan::default() }`.
#[derive(Clone, Copy, Debug, Default)]
pub struct Plan<'a> {
    /// The width of the screen, 1..=4096 pixels.
    pub width: u32,
    /// The height of the screen, 1..=4096 pixels.
    pub height: u32,
    /// Whether the topmost rows are the status bar; a row is left below.
    pub bar: bool,
    /// How labels and the status bar are drawn.
    pub lettering: Lettering,
    /// The seats, 1..=64 of them.
    pub seats: &'a [SeatPlan],
}

/// A server. Dropping it frees all of it.
#[derive(Debug)]
pub struct Server {
    /// What reads writes the handle's own bytes back, as they were.
    raw: UnsafeCell<raw::Server>,
}

/// A handle that has no server yet.
fn closed() -> raw::Server {
    raw::Server {
        at: std::ptr::null_mut(),
        mark: 0,
    }
}

/// The answer to the user's restacking of a view.
fn restacked(view: View, answer: u32) -> Reply {
    match answer {
        raw::NO_SUCH_VIEW => Err(Refusal::NoSuchView(view.0)),
        other => done(other),
    }
}

/// The handle of a server, to what reads.
fn read(server: &Server) -> *const raw::Server {
    server.raw.get()
}

fn done(answer: u32) -> Reply {
    match answer {
        raw::DONE => Ok(()),
        other => Err(Refusal::of(other)),
    }
}

impl Server {
    /// A server by an answer of opening. Where it was refused there is none to drop.
    fn of(answer: u32, raw: raw::Server) -> Reply<Self> {
        let raw = UnsafeCell::new(raw);
        done(answer).map(|()| Server { raw })
    }

    /// Opens a server whose seats are all free. All memory that it will ever use is taken here, but
    /// for that of [`Server::entry`].
    ///
    /// # Errors
    /// [`Refusal::BadPlan`], [`Refusal::NoMemory`].
    pub fn open(plan: &Plan<'_>) -> Reply<Self> {
        let words: Vec<u32> = plan
            .seats
            .iter()
            .take(MOST_SEATS as usize + 1)
            .flat_map(|seat| [seat.donation, seat.layer, u32::from(seat.clicks)])
            .collect();
        let mut raw = closed();
        // SAFETY: the handle is closed, and the words are so many that nobody else has.
        let answer = unsafe {
            raw::nit_open_seats_3(
                &mut raw,
                plan.width,
                plan.height,
                u32::from(plan.bar),
                u32::from(plan.lettering.glyphs == Glyphs::Large),
                plan.lettering.scale,
                words.as_ptr(),
                words.len(),
            )
        };
        Server::of(answer, raw)
    }

    /// Opens a server by the text of a configuration (`docs/FORMATS.md`). Its clients sit on the
    /// seats from the start, in their order. Its texts are drawn by [`Lettering::default`].
    ///
    /// # Errors
    /// [`Refusal::Config`], [`Refusal::NoMemory`].
    pub fn open_config(text: &str) -> Reply<Self> {
        let mut raw = closed();
        // SAFETY: the handle is closed, and the text has so many bytes.
        let answer = unsafe { raw::nit_open_config_3(&mut raw, text.as_ptr().cast(), text.len()) };
        Server::of(answer, raw)
    }

    /// The line, counted from 1, in which the text of a configuration stops being TOML: where
    /// opening refuses it as [`ConfigRefusal::Syntax`], a person looks there first. None where the
    /// text is TOML, is longer than 1,048,576 bytes, or memory runs out.
    #[must_use]
    pub fn config_line(text: &str) -> Option<u32> {
        // SAFETY: the text has so many bytes.
        match unsafe { raw::nit_config_line(text.as_ptr().cast(), text.len()) } {
            0 | raw::NONE => None,
            line => Some(line),
        }
    }

    /// A key or a button goes down: 0..=767, as in Linux's `input-event-codes.h`.
    ///
    /// A button that is pressed while nothing is held goes to the client that the last look showed
    /// under the pointer, or is refused with [`Refusal::Moved`]: then look again and show that, and
    /// let the user click again. Before the first look no client was shown.
    ///
    /// # Errors
    /// [`Refusal::BadDevice`], [`Refusal::Moved`], [`Refusal::WornOut`].
    pub fn press(&mut self, code: u32) -> Reply<Deliveries> {
        // SAFETY: the handle is ours.
        Deliveries::of(&unsafe { raw::nit_press(self.raw.get_mut(), code) })
    }

    /// It goes up.
    ///
    /// # Errors
    /// [`Refusal::BadDevice`], [`Refusal::WornOut`].
    pub fn release(&mut self, code: u32) -> Reply<Deliveries> {
        // SAFETY: the handle is ours.
        Deliveries::of(&unsafe { raw::nit_release(self.raw.get_mut(), code) })
    }

    /// The pointer moves to this column and row, each 0..=65535, or to the last one of the screen
    /// where that is past the edge.
    ///
    /// # Errors
    /// [`Refusal::BadDevice`], [`Refusal::WornOut`].
    pub fn motion(&mut self, x: u32, y: u32) -> Reply<Deliveries> {
        // SAFETY: the handle is ours.
        Deliveries::of(&unsafe { raw::nit_motion(self.raw.get_mut(), x, y) })
    }

    /// The wheel turns by -127..=127.
    ///
    /// # Errors
    /// [`Refusal::BadDevice`], [`Refusal::WornOut`].
    pub fn wheel(&mut self, turn: i32) -> Reply<Deliveries> {
        // SAFETY: the handle is ours.
        Deliveries::of(&unsafe { raw::nit_wheel(self.raw.get_mut(), turn) })
    }

    /// The user wants this view in front of all of its layer. It is no call of the client: this is
    /// told nothing, and its replies and events are as they would be without it.
    ///
    /// # Errors
    /// [`Refusal::OtherClient`], [`Refusal::NoSuchView`], [`Refusal::WornOut`].
    ///
    /// ```
    /// # use nitpicker::{Plan, Refusal, SeatPlan, Server};
    /// # let seats = [SeatPlan { donation: 512, layer: 0, clicks: true }];
    /// # let plan = Plan { width: 8, height: 8, seats: &seats, ..Plan::default() };
    /// # let mut server = Server::open(&plan)?;
    /// let client = server.sit("a", 0)?;
    /// let first = server.seat(client).view()?;
    /// let second = server.seat(client).view()?;
    /// server.raise(client, first)?;
    /// assert_eq!(server.views()[0].view, first);
    /// server.lower(client, first)?;
    /// assert_eq!(server.views()[0].view, second);
    /// # Ok::<(), Refusal>(())
    /// ```
    pub fn raise(&mut self, client: Client, view: View) -> Reply {
        // SAFETY: the handle is ours.
        restacked(view, unsafe {
            raw::nit_raise(self.raw.get_mut(), client.name(), view.0)
        })
    }

    /// The user wants it behind all of its layer, as [`Server::raise`] has it in front.
    ///
    /// # Errors
    /// Those of [`Server::raise`].
    pub fn lower(&mut self, client: Client, view: View) -> Reply {
        // SAFETY: the handle is ours.
        restacked(view, unsafe {
            raw::nit_lower(self.raw.get_mut(), client.name(), view.0)
        })
    }
}

impl Drop for Server {
    fn drop(&mut self) {
        // SAFETY: the handle is ours, and is not used any more.
        unsafe { raw::nit_close(self.raw.get_mut()) };
    }
}
