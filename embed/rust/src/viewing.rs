//! What stands on the screen, and what is held.

use crate::raw;
use crate::{read, Server, View};

/// A view, as it stands on the screen.
#[derive(Clone, Debug, PartialEq, Eq)]
pub struct ViewState {
    /// The seat of its client.
    pub seat: u32,
    /// The view.
    pub view: View,
    /// The column and the row of its rectangle, which may reach beyond the screen.
    pub place: (i32, i32),
    /// How many columns and rows it has.
    pub size: (u32, u32),
    /// By how many columns and rows the buffer is moved.
    pub offset: (i32, i32),
    /// Its title.
    pub title: String,
}

/// A view, as the last look had it.
#[derive(Clone, Copy, Debug, PartialEq, Eq)]
pub struct Shown {
    /// The seat of its client of then.
    pub seat: u32,
    /// The view.
    pub view: View,
    /// The column and the row of its rectangle, which may reach beyond the screen.
    pub place: (i32, i32),
    /// How many columns and rows it has.
    pub size: (u32, u32),
    /// By how many columns and rows the buffer is moved.
    pub offset: (i32, i32),
}

impl Server {
    /// All views, from front to rear.
    ///
    /// ```
    /// # use nitpicker::{Plan, Refusal, SeatPlan, Server};
    /// # let seats = [SeatPlan { donation: 1000, layer: 0, clicks: true }];
    /// # let plan = Plan { width: 8, height: 8, seats: &seats, ..Plan::default() };
    /// # let mut server = Server::open(&plan)?;
    /// # let client = server.sit("a", 0)?;
    /// let view = server.seat(client).view()?;
    /// server.seat(client).place(view, 2, 3, 4, 5)?;
    /// server.seat(client).title(view, "mail")?;
    /// let views = server.views();
    /// assert_eq!((views[0].place, views[0].size), ((2, 3), (4, 5)));
    /// assert_eq!(views[0].title, "mail");
    /// assert_eq!(server.owner(5, 7), Some((0, view)));
    /// assert_eq!(server.owner(1, 3), None);
    /// assert_eq!(server.shown(5, 7), None); // no look was made yet
    /// # Ok::<(), Refusal>(())
    /// ```
    pub fn views(&self) -> Vec<ViewState> {
        let mut views = Vec::new();
        while let Some(view) = self.view_at(views.len() as u32) {
            views.push(view);
        }
        views
    }

    /// The view at a place among all, 0 the front-most one.
    fn view_at(&self, place: u32) -> Option<ViewState> {
        // SAFETY: the handle is ours.
        let view = unsafe { raw::nit_view_at(read(self), place) };
        (view.kind == raw::DONE).then(|| ViewState {
            seat: view.seat,
            view: View(view.view),
            place: (view.x, view.y),
            size: (view.w, view.h),
            offset: (view.offset_x, view.offset_y),
            title: self.title_at(place),
        })
    }

    /// The title of the view at a place.
    fn title_at(&self, place: u32) -> String {
        let mut title = vec![0u8; 12];
        let (out, room) = (title.as_mut_ptr().cast(), title.len());
        // SAFETY: the handle is ours, and the bytes are so many that nobody else has.
        let length = unsafe { raw::nit_title_at(read(self), place, out, room) };
        title.truncate(length);
        String::from_utf8_lossy(&title).into_owned()
    }

    /// The seat and the view that own the pixel in this column and row: the front-most view that
    /// covers it. None own a pixel of the bar, or one that is not on the screen.
    pub fn owner(&self, x: u32, y: u32) -> Option<(u32, View)> {
        // SAFETY: the handle is ours.
        let view = unsafe { raw::nit_owner(read(self), x, y) };
        (view.kind == raw::DONE).then_some((view.seat, View(view.view)))
    }

    /// The view that owned this pixel as the last look had it, of whichever kind. None before the
    /// first look, and none own a pixel of the bar, or one that is not on the screen.
    pub fn shown(&self, x: u32, y: u32) -> Option<Shown> {
        // SAFETY: the handle is ours.
        let view = unsafe { raw::nit_shown(read(self), x, y) };
        (view.kind == raw::DONE).then_some(Shown {
            seat: view.seat,
            view: View(view.view),
            place: (view.x, view.y),
            size: (view.w, view.h),
            offset: (view.offset_x, view.offset_y),
        })
    }

    /// The codes that are held, in the order in which they went down.
    ///
    /// ```
    /// # use nitpicker::{Plan, Refusal, SeatPlan, Server};
    /// # let seats = [SeatPlan { donation: 256, layer: 0, clicks: true }];
    /// # let plan = Plan { width: 8, height: 8, seats: &seats, ..Plan::default() };
    /// # let mut server = Server::open(&plan)?;
    /// server.press(30)?;
    /// server.press(48)?;
    /// assert_eq!(server.held(), [30, 48]);
    /// for code in server.held() {
    ///     server.release(code)?;
    /// }
    /// assert_eq!(server.held(), []);
    /// # Ok::<(), Refusal>(())
    /// ```
    pub fn held(&self) -> Vec<u32> {
        // SAFETY: the handle is ours.
        (0..)
            .map(|place| unsafe { raw::nit_held(read(self), place) })
            .take_while(|code| *code != raw::NONE)
            .collect()
    }
}
