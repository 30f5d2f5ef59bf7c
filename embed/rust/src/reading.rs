//! What can be read of a server and of its seats.

use crate::raw;
use crate::{read, Client, Refusal, Reply, Server};

/// How the screen is shown.
#[derive(Clone, Copy, Debug, PartialEq, Eq, Hash)]
pub enum Mode {
    /// As the clients paint it.
    Flat,
    /// With labels, and unfocused clients dimmed.
    Xray,
    /// With labels, tinted; a click locks a client out.
    Kill,
}

/// What can be read of a server.
#[derive(Clone, Copy, Debug, PartialEq, Eq)]
pub struct State {
    /// The width of the screen in pixels.
    pub width: u32,
    /// The height of the screen in pixels.
    pub height: u32,
    /// How many seats there are.
    pub seats: u32,
    /// How the screen is shown.
    pub mode: Mode,
    /// The seat that has the focus.
    pub focus: Option<u32>,
    /// The seat that is told `Leave` when the pointer goes.
    pub hover: Option<u32>,
    /// The pointer's column and row.
    pub pointer: (u32, u32),
    /// The seat that gets what goes down and up while a code is held.
    pub receiver: Option<u32>,
}

/// Whether a client sits on a seat.
#[derive(Clone, Copy, Debug, PartialEq, Eq, Hash)]
pub enum Status {
    /// A client sits there.
    Live,
    /// It has left, or there was none yet.
    Closed,
    /// The user has locked it out.
    Killed,
}

/// What can be read of a seat.
#[derive(Clone, Copy, Debug, PartialEq, Eq)]
pub struct SeatState {
    /// Whether a client sits there.
    pub status: Status,
    /// How many events wait, 0..=64.
    pub waiting: u32,
    /// How many were lost since the seat was taken.
    pub lost: u64,
    /// Who sits there, or sat there last.
    pub client: Client,
}

/// What a seat's client has.
#[derive(Clone, Copy, Debug, PartialEq, Eq)]
pub struct Account {
    /// The layer of its views, 0..=7.
    pub layer: u32,
    /// In units: 256 go to each view, 8 to each word of the buffer.
    pub donation: u32,
    /// In units: what [`Seat::upgrade`] may still add.
    pub reserve: u32,
    /// The width and the height of its buffer, in words: 0 by 0 before it has one.
    pub buffer: (u32, u32),
}

fn some_seat(number: u32) -> Option<u32> {
    (number != raw::NONE).then_some(number)
}

impl Server {
    /// What can be read of the server.
    pub fn state(&self) -> State {
        // SAFETY: the handle is ours.
        let state = unsafe { raw::nit_state(read(self)) };
        State {
            width: state.width,
            height: state.height,
            seats: state.seats,
            mode: match state.mode {
                raw::MODE_FLAT => Mode::Flat,
                raw::MODE_XRAY => Mode::Xray,
                _ => Mode::Kill,
            },
            focus: some_seat(state.focus),
            hover: some_seat(state.hover),
            pointer: (state.x, state.y),
            receiver: some_seat(state.receiver),
        }
    }

    /// What can be read of a seat; none where the server has no such seat.
    pub fn seat_state(&self, seat: u32) -> Option<SeatState> {
        // SAFETY: the handle is ours.
        let state = unsafe { raw::nit_seat_state(read(self), seat) };
        (state.kind == raw::DONE).then_some(SeatState {
            status: match state.status {
                raw::SEAT_LIVE => Status::Live,
                raw::SEAT_CLOSED => Status::Closed,
                _ => Status::Killed,
            },
            waiting: state.waiting,
            lost: state.lost,
            client: Client::of(state.client),
        })
    }

    /// What a seat's client has; none where the server has no such seat.
    pub fn account(&self, seat: u32) -> Option<Account> {
        // SAFETY: the handle is ours.
        let account = unsafe { raw::nit_account(read(self), seat) };
        (account.kind == raw::DONE).then_some(Account {
            layer: account.layer,
            donation: account.donation,
            reserve: account.reserve,
            buffer: (account.width, account.height),
        })
    }

    /// The label of a seat's client, or at a free seat the one that waits there; empty where the
    /// server has no such seat.
    pub fn label(&self, seat: u32) -> String {
        let mut label = vec![0u8; 20];
        let (out, room) = (label.as_mut_ptr().cast(), label.len());
        // SAFETY: the handle is ours, and the bytes are so many that nobody else has.
        let length = unsafe { raw::nit_label(read(self), seat, out, room) };
        label.truncate(length);
        String::from_utf8_lossy(&label).into_owned()
    }

    /// The last step as a line of a journal (`docs/FORMATS.md`), with its line feed. None where
    /// none was done yet, or a client sat down or the user restacked since. This call takes memory
    /// for its time.
    ///
    /// # Errors
    /// [`Refusal::NoMemory`].
    ///
    /// ```
    /// # use nitpicker::{Plan, Refusal, SeatPlan, Server};
    /// # let seats = [SeatPlan { donation: 256, layer: 0, clicks: true }];
    /// # let plan = Plan { width: 8, height: 8, seats: &seats, ..Plan::default() };
    /// # let mut server = Server::open(&plan)?;
    /// server.motion(3, 9)?;
    /// assert_eq!(server.entry()?.as_deref(), Some("input motion 3 9\n"));
    /// # Ok::<(), Refusal>(())
    /// ```
    pub fn entry(&self) -> Reply<Option<String>> {
        let mut line = vec![0u8; 128];
        loop {
            let room = line.len();
            // SAFETY: the handle is ours, and the bytes are so many that nobody else has.
            let length = unsafe { raw::nit_entry(read(self), line.as_mut_ptr().cast(), room) };
            match length {
                0 => return Ok(None),
                usize::MAX => return Err(Refusal::NoMemory),
                _ if length > room => line.resize(length, 0),
                _ => {
                    line.truncate(length);
                    return Ok(Some(String::from_utf8_lossy(&line).into_owned()));
                }
            }
        }
    }
}
