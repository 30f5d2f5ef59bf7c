//! The calls of a client.

use crate::raw;
use crate::{done, read, Event, Refusal, Reply, Server};
use std::fmt;

/// A view of a client, by its handle: it names a view of its own seat alone.
#[derive(Clone, Copy, Debug, PartialEq, Eq, Hash)]
pub struct View(pub u32);

/// The name of a client: which one it is of those of its seat. A server gives each name once.
#[derive(Clone, Copy, Debug, PartialEq, Eq, Hash)]
pub struct Client(u64);

impl Client {
    pub(crate) fn of(name: u64) -> Self {
        Client(name)
    }

    pub(crate) fn name(self) -> u64 {
        self.0
    }

    /// The seat on which it sits, or sat: the number from 0.
    pub fn seat(self) -> u32 {
        (self.0 & 0xFFFF) as u32
    }

    /// How many clients had come to the server with it; 0 of one that sat there as it opened.
    pub fn turn(self) -> u64 {
        self.0 >> 16
    }
}

impl fmt::Display for Client {
    fn fmt(&self, f: &mut fmt::Formatter<'_>) -> fmt::Result {
        write!(f, "client {} of seat {}", self.turn(), self.seat())
    }
}

/// What a client asks for. The methods are its calls; they go by the rules of `docs/RULES.md`.
///
/// Each may be refused with [`Refusal::OtherClient`], [`Refusal::WornOut`], [`Refusal::Closed`] and
/// [`Refusal::Killed`], beside what stands at the call; [`Seat::view`] with
/// [`Refusal::HandlesUsedUp`] too. A client that left or was locked out keeps its name until the
/// next one sits down there; from then on all that is asked for by it is refused with
/// [`Refusal::OtherClient`], and reaches nobody.
#[derive(Debug)]
pub struct Seat<'a> {
    server: &'a mut raw::Server,
    client: Client,
}

fn served(reply: raw::Reply) -> Reply {
    match reply.kind {
        raw::DONE => Ok(()),
        _ => Err(Refusal::of_reply(&reply)),
    }
}

fn seated(seated: &raw::Seated) -> Reply<Client> {
    done(seated.kind).map(|()| Client::of(seated.client))
}

impl Server {
    /// A new client sits down on a seat of this layer: on the free one that had this label last, or
    /// else on the first free one, whatever its donation and clicks.
    ///
    /// # Errors
    /// [`Refusal::BadLabel`], [`Refusal::LabelTaken`], [`Refusal::NoFreeSeat`],
    /// [`Refusal::WornOut`].
    ///
    /// ```
    /// # use nitpicker::{Plan, Refusal, SeatPlan, Server};
    /// # let seats = [SeatPlan { donation: 256, layer: 0, clicks: true }; 2];
    /// # let plan = Plan { width: 8, height: 8, seats: &seats, ..Plan::default() };
    /// # let mut server = Server::open(&plan)?;
    /// let (a, b) = (server.sit("a", 0)?, server.sit("b", 0)?);
    /// assert_eq!((a.seat(), b.seat()), (0, 1));
    /// assert_eq!(server.sit("c", 0), Err(Refusal::NoFreeSeat));
    /// assert_eq!(server.sit("b", 0), Err(Refusal::LabelTaken));
    /// assert_eq!(server.sit("d e", 0), Err(Refusal::BadLabel));
    /// server.seat(b).leave()?;
    /// let c = server.sit("c", 0)?;
    /// assert_eq!(c.seat(), 1);
    /// assert_eq!(server.seat(b).view(), Err(Refusal::OtherClient));
    /// assert!(server.seat(c).view().is_ok());
    /// # Ok::<(), Refusal>(())
    /// ```
    pub fn sit(&mut self, label: &str, layer: u32) -> Reply<Client> {
        self.seat_for(label, layer)
            .and_then(|seat| self.sit_on(seat, label))
    }

    /// The number of the seat that takes a new client of this label in this layer.
    ///
    /// # Errors
    /// Those of [`Server::sit`].
    pub fn seat_for(&self, label: &str, layer: u32) -> Reply<u32> {
        let (at, length) = (label.as_ptr().cast(), label.len());
        // SAFETY: the handle is ours, and the label has so many bytes.
        let found = unsafe { raw::nit_seat_for(read(self), at, length, layer) };
        done(found.kind).map(|()| found.seat)
    }

    /// A new client sits down on this seat, under a label that no other seat has or had last.
    ///
    /// # Errors
    /// [`Refusal::NoSeat`], [`Refusal::BadLabel`], [`Refusal::SeatTaken`],
    /// [`Refusal::LabelTaken`], [`Refusal::WornOut`].
    pub fn sit_on(&mut self, seat: u32, label: &str) -> Reply<Client> {
        let (at, length) = (label.as_ptr().cast(), label.len());
        // SAFETY: the handle is ours, and the label has so many bytes.
        seated(&unsafe { raw::nit_seat(self.raw.get_mut(), seat, at, length) })
    }

    /// The seat of this client, to make its calls.
    pub fn seat(&mut self, client: Client) -> Seat<'_> {
        let server = self.raw.get_mut();
        Seat { server, client }
    }
}

impl Seat<'_> {
    /// Whose calls these are.
    pub fn client(&self) -> Client {
        self.client
    }

    /// The client's buffer has this width and height, in words, each 1..=4096. A word stays by its
    /// index, which is row * w + column, whatever w was before, and is 0 until it is handed in. So
    /// a client refreshes all of its buffer next.
    ///
    /// # Errors
    /// [`Refusal::BadSize`], [`Refusal::OutOfQuota`].
    ///
    /// ```
    /// # use nitpicker::{Plan, Refusal, SeatPlan, Server};
    /// # let seats = [SeatPlan { donation: 1000, layer: 0, clicks: true }];
    /// # let plan = Plan { width: 8, height: 8, seats: &seats, ..Plan::default() };
    /// # let mut server = Server::open(&plan)?;
    /// # let client = server.sit("a", 0)?;
    /// let mut seat = server.seat(client); // of 1000 units
    /// seat.view()?; // costs 256
    /// let refusal = Refusal::OutOfQuota { need: 800, left: 744 };
    /// assert_eq!(seat.buffer(10, 10), Err(refusal));
    /// seat.upgrade(56)?;
    /// assert_eq!(seat.buffer(10, 10), Ok(()));
    /// # Ok::<(), Refusal>(())
    /// ```
    pub fn buffer(&mut self, w: u32, h: u32) -> Reply {
        // SAFETY: the handle is that of a `Server`.
        served(unsafe { raw::nit_buffer(self.server, self.client.name(), w, h) })
    }

    /// A new view, in front of its layer, with the rectangle (0, 0, 0, 0).
    ///
    /// # Errors
    /// [`Refusal::TooManyViews`], [`Refusal::OutOfQuota`].
    pub fn view(&mut self) -> Reply<View> {
        // SAFETY: the handle is that of a `Server`.
        let reply = unsafe { raw::nit_view(self.server, self.client.name()) };
        match reply.kind {
            raw::HANDLE => Ok(View(reply.handle)),
            _ => Err(Refusal::of_reply(&reply)),
        }
    }

    /// The view has this rectangle of the screen: x and y -32768..=32767, w and h 0..=32767.
    ///
    /// # Errors
    /// [`Refusal::NoSuchView`], [`Refusal::BadRect`].
    pub fn place(&mut self, view: View, x: i32, y: i32, w: u32, h: u32) -> Reply {
        // SAFETY: the handle is that of a `Server`.
        served(unsafe { raw::nit_place(self.server, self.client.name(), view.0, x, y, w, h) })
    }

    /// The view shows the buffer moved by this many columns and rows, each -32768..=32767.
    ///
    /// # Errors
    /// [`Refusal::NoSuchView`], [`Refusal::BadRect`].
    pub fn offset(&mut self, view: View, x: i32, y: i32) -> Reply {
        // SAFETY: the handle is that of a `Server`.
        served(unsafe { raw::nit_offset(self.server, self.client.name(), view.0, x, y) })
    }

    /// The view stands in front of all of its layer.
    ///
    /// # Errors
    /// [`Refusal::NoSuchView`].
    pub fn front(&mut self, view: View) -> Reply {
        // SAFETY: the handle is that of a `Server`.
        served(unsafe { raw::nit_front(self.server, self.client.name(), view.0) })
    }

    /// The view stands behind all of its layer.
    ///
    /// # Errors
    /// [`Refusal::NoSuchView`].
    pub fn back(&mut self, view: View) -> Reply {
        // SAFETY: the handle is that of a `Server`.
        served(unsafe { raw::nit_back(self.server, self.client.name(), view.0) })
    }

    /// The view stands directly in front of the other one of the client. Nothing changes where the
    /// two are the same.
    ///
    /// # Errors
    /// [`Refusal::NoSuchView`], of the first before the second.
    pub fn above(&mut self, view: View, other: View) -> Reply {
        // SAFETY: the handle is that of a `Server`.
        served(unsafe { raw::nit_above(self.server, self.client.name(), view.0, other.0) })
    }

    /// The view has this title: 0 to 12 of `a`..`z`, `0`..`9`, `-`, `.`, `_` and the space.
    ///
    /// # Errors
    /// [`Refusal::BadText`], [`Refusal::NoSuchView`], [`Refusal::BadTitle`].
    pub fn title(&mut self, view: View, text: &str) -> Reply {
        let (at, length) = (text.as_ptr().cast(), text.len());
        // SAFETY: the handle is that of a `Server`, and the text has so many bytes.
        served(unsafe { raw::nit_title(self.server, self.client.name(), view.0, at, length) })
    }

    /// The view is gone.
    ///
    /// # Errors
    /// [`Refusal::NoSuchView`].
    pub fn destroy(&mut self, view: View) -> Reply {
        // SAFETY: the handle is that of a `Server`.
        served(unsafe { raw::nit_destroy(self.server, self.client.name(), view.0) })
    }

    /// What the client has drawn in this part of its buffer is shown: x and y -32768..=32767, w and
    /// h 0..=32767. The words are those of its whole buffer, row by row, each row as wide as the
    /// buffer. Those of the part are kept by their index until they are refreshed again, or the
    /// client leaves.
    ///
    /// # Errors
    /// [`Refusal::ShortWords`], [`Refusal::BadRect`].
    pub fn refresh(&mut self, x: i32, y: i32, w: u32, h: u32, words: &[u32]) -> Reply {
        let (at, count) = (words.as_ptr(), words.len());
        // SAFETY: the handle is that of a `Server`, and the words are so many.
        served(unsafe { raw::nit_refresh(self.server, self.client.name(), x, y, w, h, at, count) })
    }

    /// Takes the oldest event that waits.
    ///
    /// # Errors
    /// Those of each call.
    pub fn take(&mut self) -> Reply<Option<Event>> {
        // SAFETY: the handle is that of a `Server`.
        let reply = unsafe { raw::nit_take(self.server, self.client.name()) };
        match reply.kind {
            raw::NO_EVENT => Ok(None),
            raw::EVENT => match Event::of(&reply.event) {
                Some(event) => Ok(Some(event)),
                None => Err(Refusal::Unknown(reply.event.kind)),
            },
            _ => Err(Refusal::of_reply(&reply)),
        }
    }

    /// So many units of the client's reserve become donation.
    ///
    /// # Errors
    /// [`Refusal::NoReserve`].
    pub fn upgrade(&mut self, units: u32) -> Reply {
        // SAFETY: the handle is that of a `Server`.
        served(unsafe { raw::nit_upgrade(self.server, self.client.name(), units) })
    }

    /// The client leaves. Its views, its buffer and the events that wait for it are gone, and its
    /// seat is free.
    ///
    /// # Errors
    /// Those of each call.
    pub fn leave(&mut self) -> Reply {
        // SAFETY: the handle is that of a `Server`.
        served(unsafe { raw::nit_leave(self.server, self.client.name()) })
    }
}
