//! W7, the screen board: which screens can show an advert, from what was asked, answered
//! and cut.

use crate::SUCCESS;

/// An entry as it is lent: `length` bytes of `session` are its Session-Id, the rest mean
/// nothing. The place is a connected screen's, else 0.
#[derive(Clone, Copy, Debug, PartialEq, Eq)]
pub struct Screen {
    pub state: u32,
    pub place: u32,
    pub length: u32,
    pub session: [u8; LONGEST],
}

pub const LONGEST: usize = 128;
pub const MOST: usize = 64;

pub const OFF: u32 = 0;
pub const ASKED: u32 = 1;
pub const CONNECTED: u32 = 2;
pub const CUT: u32 = 3;

/// The request's kind: the two types of an authorization, and a termination.
pub const TYPE_0: u32 = 0;
pub const TYPE_1: u32 = 1;
pub const TERMINATION: u32 = 2;

/// What a board is fed about a Session-Id.
#[derive(Clone, Copy, Debug, PartialEq, Eq)]
pub enum Event {
    Request {
        which: u32,
    },
    Result {
        which: u32,
        code: u32,
        kind: u32,
        place: u32,
    },
    Notice,
}

/// State and place.
pub type Shown = (u32, u32);

impl Screen {
    /// Its Session-Id, if that has 1 to 128 bytes.
    pub fn named(&self) -> Option<&[u8]> {
        let length = self.length as usize;
        self.session.get(..length).filter(|text| !text.is_empty())
    }

    pub fn shown(&self) -> Shown {
        (self.state, self.place)
    }
}

/// The decisions that a program could take otherwise, one field each.
#[derive(Clone, Copy)]
pub struct BoardRules {
    pub length_is_right: fn(usize) -> bool,
    pub session_is_right: fn(&Screen) -> bool,
    pub same_session: fn(&Screen, &Screen) -> bool,
    pub list_is_right: fn(&BoardRules, &[Screen]) -> bool,
    pub entry_of: fn(&[Screen], &[u8]) -> Option<usize>,
    pub succeeded: fn(u32, u32) -> bool,
    pub after: fn(&BoardRules, Shown, &Event) -> Shown,
    pub feed: fn(&BoardRules, &mut [Screen], &[u8], &Event) -> u32,
    pub counts: fn(&Screen) -> bool,
    pub connected: fn(&BoardRules, &[Screen]) -> (u32, u32),
}

pub const REQUEST_W7: BoardRules = BoardRules {
    length_is_right: |length| length <= MOST,
    session_is_right: |screen| screen.named().is_some(),
    same_session: |one, other| one.named() == other.named(),
    list_is_right,
    entry_of,
    succeeded,
    after,
    feed,
    counts: |screen| screen.state == CONNECTED,
    connected,
};

/// Number 25 is given unless this holds: at most 64 entries, each with a Session-Id of its
/// own, of 1 to 128 bytes.
pub fn list_is_right(rules: &BoardRules, list: &[Screen]) -> bool {
    let twice = |(n, screen): (usize, &Screen)| {
        let mut before = list[..n].iter();
        before.any(|other| (rules.same_session)(screen, other))
    };
    (rules.length_is_right)(list.len())
        && list.iter().all(rules.session_is_right)
        && !list.iter().enumerate().any(twice)
}

/// The entry that a Session-Id is about. One of no bytes, or of more than 128, is on none.
pub fn entry_of(list: &[Screen], session: &[u8]) -> Option<usize> {
    list.iter().position(|s| s.named() == Some(session))
}

/// Result-Code 2001, by code and kind.
pub fn succeeded(code: u32, kind: u32) -> bool {
    kind == u32::from(SUCCESS.kind()) && code == u32::from(SUCCESS.number())
}

/// What a screen shows after an event. A screen that nothing here moves is left as it is,
/// and one that is moved has a place only if it is connected.
pub fn after(rules: &BoardRules, held: Shown, event: &Event) -> Shown {
    match (held.0, *event) {
        (OFF | CUT, Event::Request { which: TYPE_0 }) => (ASKED, 0),
        (
            ASKED,
            Event::Result {
                which: TYPE_0,
                code,
                kind,
                place,
            },
        ) => match ((rules.succeeded)(code, kind), place) {
            (true, 1..=8) => (CONNECTED, place),
            (true, _) => held,
            (false, _) => (OFF, 0),
        },
        (
            _,
            Event::Result {
                which: TERMINATION,
                code,
                kind,
                ..
            },
        ) if (rules.succeeded)(code, kind) => (OFF, 0),
        (_, Event::Notice) => (CUT, 0),
        _ => held,
    }
}

/// 25, then 24; else the entry of this Session-Id shows what comes after, and no other moves.
pub fn feed(rules: &BoardRules, list: &mut [Screen], session: &[u8], event: &Event) -> u32 {
    if !(rules.list_is_right)(rules, list) {
        return 25;
    }
    let Some(entry) = (rules.entry_of)(list, session) else {
        return 24;
    };
    let screen = &mut list[entry];
    (screen.state, screen.place) = (rules.after)(rules, screen.shown(), event);
    0
}

/// The number, and how many screens are connected, at whatever place.
pub fn connected(rules: &BoardRules, list: &[Screen]) -> (u32, u32) {
    if !(rules.list_is_right)(rules, list) {
        return (25, 0);
    }
    let count = list.iter().filter(|&screen| (rules.counts)(screen)).count();
    (0, count as u32)
}
