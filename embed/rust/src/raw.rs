//! The header `nitpicker.h`, line by line.

use std::ffi::{c_char, c_void};

pub const DONE: u32 = 1;
pub const HANDLE: u32 = 2;
pub const EVENT: u32 = 3;
pub const NO_EVENT: u32 = 4;
pub const NO_SUCH_VIEW: u32 = 5;
pub const BAD_RECT: u32 = 6;
pub const BAD_SIZE: u32 = 7;
pub const BAD_TITLE: u32 = 8;
pub const TOO_MANY_VIEWS: u32 = 9;
pub const OUT_OF_QUOTA: u32 = 10;
pub const NO_RESERVE: u32 = 11;
pub const SESSION_CLOSED: u32 = 12;
pub const SESSION_KILLED: u32 = 13;
pub const NO_SEAT: u32 = 32;
pub const SEAT_TAKEN: u32 = 33;
pub const LABEL_TAKEN: u32 = 34;
pub const BAD_LABEL: u32 = 35;
pub const BAD_TEXT: u32 = 36;
pub const BAD_DEVICE: u32 = 37;
pub const SHORT_WORDS: u32 = 38;
pub const WRONG_FRAME: u32 = 39;
pub const HANDLES_USED_UP: u32 = 40;
pub const WORN_OUT: u32 = 41;
pub const NO_MEMORY: u32 = 42;
pub const BAD_PLAN: u32 = 44;
pub const MOVED: u32 = 45;
pub const OTHER_CLIENT: u32 = 46;
pub const NO_FREE_SEAT: u32 = 47;

pub const CONFIG_TOO_LONG: u32 = 64;
pub const CONFIG_SYNTAX: u32 = 65;
pub const CONFIG_KIND: u32 = 66;
pub const CONFIG_MISSING: u32 = 67;
pub const CONFIG_UNKNOWN: u32 = 68;
pub const CONFIG_TOO_MANY: u32 = 69;
pub const CONFIG_RANGE: u32 = 70;
pub const CONFIG_LABEL: u32 = 71;
pub const CONFIG_TWICE: u32 = 72;

pub const PRESS: u32 = 1;
pub const RELEASE: u32 = 2;
pub const MOTION: u32 = 3;
pub const WHEEL: u32 = 4;
pub const LEAVE: u32 = 5;
pub const FOCUS_ENTER: u32 = 6;
pub const FOCUS_LEAVE: u32 = 7;
pub const KILL: u32 = 8;

pub const MODE_FLAT: u32 = 0;
pub const MODE_XRAY: u32 = 1;
pub const SEAT_LIVE: u32 = 1;
pub const SEAT_CLOSED: u32 = 2;

pub const NONE: u32 = u32::MAX;

pub const MOST_WIDTH: u32 = 4096;
pub const MOST_HEIGHT: u32 = 4096;
pub const MOST_SEATS: u32 = 64;
pub const LEAST_UNITS: u32 = 256;
pub const MOST_UNITS: u32 = 268_435_456;
pub const MOST_VIEWS: u32 = 64;

#[repr(C)]
#[derive(Debug)]
pub struct Server {
    pub at: *mut c_void,
    pub mark: u64,
}

#[repr(C)]
#[derive(Clone, Copy)]
pub struct Event {
    pub kind: u32,
    pub code: u32,
    pub x: u16,
    pub y: u16,
    pub turn: i32,
}

#[repr(C)]
#[derive(Clone, Copy)]
pub struct Seated {
    pub kind: u32,
    pub seat: u32,
    pub client: u64,
    pub zero: u64,
}

#[repr(C)]
#[derive(Clone, Copy)]
pub struct Reply {
    pub kind: u32,
    pub handle: u32,
    pub event: Event,
    pub need: u64,
    pub left: u64,
}

#[repr(C)]
#[derive(Clone, Copy)]
pub struct Delivery {
    pub seat: u32,
    pub event: Event,
}

#[repr(C)]
#[derive(Clone, Copy)]
pub struct Routed {
    pub kind: u32,
    pub count: u32,
    pub to: [Delivery; 3],
}

#[repr(C)]
#[derive(Clone, Copy)]
pub struct Rect {
    pub kind: u32,
    pub x: u32,
    pub y: u32,
    pub w: u32,
    pub h: u32,
}

#[repr(C)]
#[derive(Clone, Copy)]
pub struct Part {
    pub x: u32,
    pub y: u32,
    pub w: u32,
    pub h: u32,
}

#[repr(C)]
#[derive(Clone, Copy)]
pub struct Damage {
    pub kind: u32,
    pub count: u32,
    pub part: [Part; 16],
}

#[repr(C)]
#[derive(Clone, Copy)]
pub struct State {
    pub kind: u32,
    pub width: u32,
    pub height: u32,
    pub seats: u32,
    pub mode: u32,
    pub focus: u32,
    pub hover: u32,
    pub x: u32,
    pub y: u32,
    pub receiver: u32,
}

#[repr(C)]
#[derive(Clone, Copy)]
pub struct SeatState {
    pub kind: u32,
    pub status: u32,
    pub waiting: u32,
    pub zero: u32,
    pub lost: u64,
    pub client: u64,
}

#[repr(C)]
#[derive(Clone, Copy)]
pub struct Account {
    pub kind: u32,
    pub layer: u32,
    pub donation: u32,
    pub reserve: u32,
    pub width: u32,
    pub height: u32,
}

#[repr(C)]
#[derive(Clone, Copy)]
pub struct ViewState {
    pub kind: u32,
    pub seat: u32,
    pub view: u32,
    pub x: i32,
    pub y: i32,
    pub w: u32,
    pub h: u32,
    pub offset_x: i32,
    pub offset_y: i32,
}

extern "C" {
    pub fn nit_open_seats_3(
        server: *mut Server,
        width: u32,
        height: u32,
        bar: u32,
        glyphs: u32,
        scale: u32,
        seats: *const u32,
        words: usize,
    ) -> u32;
    pub fn nit_open_config_3(server: *mut Server, text: *const c_char, length: usize) -> u32;
    pub fn nit_config_line(text: *const c_char, length: usize) -> u32;
    pub fn nit_close(server: *mut Server) -> u32;
    pub fn nit_seat(server: *mut Server, seat: u32, label: *const c_char, length: usize) -> Seated;
    pub fn nit_seat_for(
        server: *const Server,
        label: *const c_char,
        length: usize,
        layer: u32,
    ) -> Seated;
    pub fn nit_buffer(server: *mut Server, client: u64, w: u32, h: u32) -> Reply;
    pub fn nit_view(server: *mut Server, client: u64) -> Reply;
    pub fn nit_place(
        server: *mut Server,
        client: u64,
        view: u32,
        x: i32,
        y: i32,
        w: u32,
        h: u32,
    ) -> Reply;
    pub fn nit_offset(server: *mut Server, client: u64, view: u32, x: i32, y: i32) -> Reply;
    pub fn nit_front(server: *mut Server, client: u64, view: u32) -> Reply;
    pub fn nit_back(server: *mut Server, client: u64, view: u32) -> Reply;
    pub fn nit_above(server: *mut Server, client: u64, view: u32, other: u32) -> Reply;
    pub fn nit_title(
        server: *mut Server,
        client: u64,
        view: u32,
        text: *const c_char,
        length: usize,
    ) -> Reply;
    pub fn nit_destroy(server: *mut Server, client: u64, view: u32) -> Reply;
    pub fn nit_take(server: *mut Server, client: u64) -> Reply;
    pub fn nit_upgrade(server: *mut Server, client: u64, units: u32) -> Reply;
    pub fn nit_leave(server: *mut Server, client: u64) -> Reply;
    pub fn nit_refresh(
        server: *mut Server,
        client: u64,
        x: i32,
        y: i32,
        w: u32,
        h: u32,
        words: *const u32,
        count: usize,
    ) -> Reply;
    pub fn nit_press(server: *mut Server, code: u32) -> Routed;
    pub fn nit_release(server: *mut Server, code: u32) -> Routed;
    pub fn nit_motion(server: *mut Server, x: u32, y: u32) -> Routed;
    pub fn nit_wheel(server: *mut Server, turn: i32) -> Routed;
    pub fn nit_look(server: *mut Server, out: *mut u32, count: usize) -> Rect;
    pub fn nit_look_anew(server: *mut Server, out: *mut u32, count: usize) -> Rect;
    pub fn nit_raise(server: *mut Server, client: u64, view: u32) -> u32;
    pub fn nit_lower(server: *mut Server, client: u64, view: u32) -> u32;
    pub fn nit_damage(server: *mut Server) -> Damage;
    pub fn nit_copy(
        server: *mut Server,
        x: u32,
        y: u32,
        w: u32,
        h: u32,
        out: *mut u32,
        count: usize,
        pitch: usize,
    ) -> u32;
    pub fn nit_state(server: *const Server) -> State;
    pub fn nit_seat_state(server: *const Server, seat: u32) -> SeatState;
    pub fn nit_account(server: *const Server, seat: u32) -> Account;
    pub fn nit_label(server: *const Server, seat: u32, out: *mut c_char, room: usize) -> usize;
    pub fn nit_view_at(server: *const Server, place: u32) -> ViewState;
    pub fn nit_title_at(server: *const Server, place: u32, out: *mut c_char, room: usize) -> usize;
    pub fn nit_owner(server: *const Server, x: u32, y: u32) -> ViewState;
    pub fn nit_shown(server: *const Server, x: u32, y: u32) -> ViewState;
    pub fn nit_held(server: *const Server, place: u32) -> u32;
    pub fn nit_entry(server: *const Server, out: *mut c_char, room: usize) -> usize;
}
