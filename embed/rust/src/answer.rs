//! What calls answer, as Rust has it.

use crate::raw;
use std::error::Error;
use std::fmt;

/// What a call answers: its result, or why it was refused.
pub type Reply<T = ()> = Result<T, Refusal>;

/// Why a call was refused. No view, no word and no event changed. Those of a client's session, down
/// to [`Refusal::Killed`], are steps of the server all the same.
#[derive(Clone, Copy, Debug, PartialEq, Eq, Hash)]
#[non_exhaustive]
pub enum Refusal {
    /// The client has no view of this handle.
    NoSuchView(u32),
    /// A number of a rectangle or an offset is out of range, or a part that is to be copied reaches
    /// beyond the screen.
    BadRect,
    /// A side of a buffer is 0 or over 4,096.
    BadSize,
    /// The text is no title: over 12 characters, or one that no title has.
    BadTitle,
    /// The client has 64 views.
    TooManyViews,
    /// The call needs more units than are left of the donation.
    OutOfQuota {
        /// So many are needed.
        need: u64,
        /// So many are left.
        left: u64,
    },
    /// The call needs more units than are left of the reserve.
    NoReserve {
        /// So many are needed.
        need: u64,
        /// So many are left.
        left: u64,
    },
    /// The client has left, or the seat was never taken.
    Closed,
    /// The user has locked the client out.
    Killed,
    /// The server has no seat of this number.
    NoSeat,
    /// The seat has another client than this one, or had one last.
    OtherClient,
    /// A client sits there.
    SeatTaken,
    /// Another seat has this label, or had it last; where a layer's seat is looked for: a client
    /// that sits has it, or a free seat of another layer had it last.
    LabelTaken,
    /// No seat of the layer is free.
    NoFreeSeat,
    /// The text is no label: 1 to 20 of `a`..`z`, `0`..`9`, `-`, `.`, `_`.
    BadLabel,
    /// The text has over 40 bytes, or one that is not 0x20..=0x7E.
    BadText,
    /// A code is over 767, a place over 65,535, or a turn beyond 127.
    BadDevice,
    /// There are fewer words than the client's buffer has.
    ShortWords,
    /// There is another number of words than the screen has pixels, or than the part needs that is
    /// to be copied.
    WrongFrame,
    /// The client asks for a view, and has made 4,294,967,293 of them.
    HandlesUsedUp,
    /// A button, while nothing is held, and the client under the pointer is not the one that the
    /// last look showed there.
    Moved,
    /// The server has done its 2^62 steps, or has had its 2^48 - 1 clients.
    WornOut,
    /// There was no memory.
    NoMemory,
    /// A number of the plan is out of range.
    BadPlan,
    /// The text of the configuration is refused.
    Config(ConfigRefusal),
    /// The library answers a number that this crate does not know.
    Unknown(u32),
}

/// Why the text of a configuration is refused.
#[derive(Clone, Copy, Debug, PartialEq, Eq, Hash)]
pub enum ConfigRefusal {
    /// It has over 1,048,576 bytes.
    TooLong,
    /// It is no TOML.
    Syntax,
    /// A value is of another kind.
    Kind,
    /// A required key is not there, or there is no client.
    Missing,
    /// There is a key that is none of a configuration.
    Unknown,
    /// There are more than 16 clients.
    TooMany,
    /// A number, a name or a word is out of range.
    Range,
    /// A label is none.
    Label,
    /// Two clients have the same label.
    Twice,
}

impl ConfigRefusal {
    fn of(kind: u32) -> Option<Self> {
        Some(match kind {
            raw::CONFIG_TOO_LONG => ConfigRefusal::TooLong,
            raw::CONFIG_SYNTAX => ConfigRefusal::Syntax,
            raw::CONFIG_KIND => ConfigRefusal::Kind,
            raw::CONFIG_MISSING => ConfigRefusal::Missing,
            raw::CONFIG_UNKNOWN => ConfigRefusal::Unknown,
            raw::CONFIG_TOO_MANY => ConfigRefusal::TooMany,
            raw::CONFIG_RANGE => ConfigRefusal::Range,
            raw::CONFIG_LABEL => ConfigRefusal::Label,
            raw::CONFIG_TWICE => ConfigRefusal::Twice,
            _ => return None,
        })
    }
}

impl fmt::Display for ConfigRefusal {
    fn fmt(&self, f: &mut fmt::Formatter<'_>) -> fmt::Result {
        f.write_str(match self {
            ConfigRefusal::TooLong => "it has over 1048576 bytes",
            ConfigRefusal::Syntax => "it is no TOML",
            ConfigRefusal::Kind => "a value is of another kind",
            ConfigRefusal::Missing => "a required key or client is missing",
            ConfigRefusal::Unknown => "a key is none of a configuration",
            ConfigRefusal::TooMany => "there are more than 16 clients",
            ConfigRefusal::Range => "a value is out of range",
            ConfigRefusal::Label => "a label is none",
            ConfigRefusal::Twice => "two clients have the same label",
        })
    }
}

impl Refusal {
    /// The refusal of a number that is none of those with fields.
    pub(crate) fn of(kind: u32) -> Self {
        match kind {
            raw::BAD_RECT => Refusal::BadRect,
            raw::BAD_SIZE => Refusal::BadSize,
            raw::BAD_TITLE => Refusal::BadTitle,
            raw::TOO_MANY_VIEWS => Refusal::TooManyViews,
            raw::SESSION_CLOSED => Refusal::Closed,
            raw::SESSION_KILLED => Refusal::Killed,
            raw::NO_SEAT => Refusal::NoSeat,
            raw::OTHER_CLIENT => Refusal::OtherClient,
            raw::NO_FREE_SEAT => Refusal::NoFreeSeat,
            raw::SEAT_TAKEN => Refusal::SeatTaken,
            raw::LABEL_TAKEN => Refusal::LabelTaken,
            raw::BAD_LABEL => Refusal::BadLabel,
            raw::BAD_TEXT => Refusal::BadText,
            raw::BAD_DEVICE => Refusal::BadDevice,
            raw::SHORT_WORDS => Refusal::ShortWords,
            raw::WRONG_FRAME => Refusal::WrongFrame,
            raw::HANDLES_USED_UP => Refusal::HandlesUsedUp,
            raw::MOVED => Refusal::Moved,
            raw::WORN_OUT => Refusal::WornOut,
            raw::NO_MEMORY => Refusal::NoMemory,
            raw::BAD_PLAN => Refusal::BadPlan,
            other => match ConfigRefusal::of(other) {
                Some(refusal) => Refusal::Config(refusal),
                None => Refusal::Unknown(other),
            },
        }
    }

    /// The refusal of a reply that is neither done, a handle, an event nor none.
    pub(crate) fn of_reply(reply: &raw::Reply) -> Self {
        let (need, left) = (reply.need, reply.left);
        match reply.kind {
            raw::NO_SUCH_VIEW => Refusal::NoSuchView(reply.handle),
            raw::OUT_OF_QUOTA => Refusal::OutOfQuota { need, left },
            raw::NO_RESERVE => Refusal::NoReserve { need, left },
            other => Refusal::of(other),
        }
    }

    fn says(self) -> &'static str {
        match self {
            Refusal::NoSuchView(_) => "the client has no view of this handle",
            Refusal::BadRect => "a number of a rectangle is out of range",
            Refusal::BadSize => "a side of the buffer is 0 or over 4096",
            Refusal::BadTitle => "the text is no title",
            Refusal::TooManyViews => "the client has 64 views",
            Refusal::OutOfQuota { .. } => "too few units are left of the donation",
            Refusal::NoReserve { .. } => "too few units are left of the reserve",
            Refusal::Closed => "the client has left",
            Refusal::Killed => "the client is locked out",
            Refusal::NoSeat => "the server has no such seat",
            Refusal::OtherClient => "the seat has another client",
            Refusal::SeatTaken => "a client sits there",
            Refusal::LabelTaken => "another seat has this label",
            Refusal::NoFreeSeat => "no seat of this layer is free",
            Refusal::BadLabel => "the text is no label",
            Refusal::BadText => "the bytes are no text",
            Refusal::BadDevice => "a number of the device is out of range",
            Refusal::ShortWords => "there are fewer words than the buffer has",
            Refusal::WrongFrame => "the words are not as many as the pixels need",
            Refusal::HandlesUsedUp => "the client has made all views that it ever may",
            Refusal::Moved => "another client is under the pointer than was shown",
            Refusal::WornOut => "the server has no step or no client left",
            Refusal::NoMemory => "there is no memory",
            Refusal::BadPlan => "a number of the plan is out of range",
            Refusal::Config(_) => "the configuration is refused",
            Refusal::Unknown(_) => "the library answers an unknown number",
        }
    }
}

impl fmt::Display for Refusal {
    fn fmt(&self, f: &mut fmt::Formatter<'_>) -> fmt::Result {
        f.write_str(self.says())?;
        match self {
            Refusal::NoSuchView(handle) => write!(f, ": {handle}"),
            Refusal::OutOfQuota { need, left } | Refusal::NoReserve { need, left } => {
                write!(f, ": {need} are needed and {left} are left")
            }
            Refusal::Config(why) => write!(f, ": {why}"),
            Refusal::Unknown(number) => write!(f, ": {number}"),
            _ => Ok(()),
        }
    }
}

impl Error for Refusal {}
