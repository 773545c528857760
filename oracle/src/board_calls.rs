//! Calls of the board made from a seed, with what is expected of each, and the script of
//! numbers in which they are written down: eight bytes each, the lowest first.

use crate::board_report::Came;
use crate::random::Random;
use crate::the_board::{
    ASKED, BoardRules, CONNECTED, CUT, Event, LONGEST, MOST, OFF, Screen, TERMINATION, TYPE_0,
    TYPE_1,
};

#[derive(Clone, Debug, PartialEq, Eq)]
pub enum BoardCall {
    Feed(Vec<Screen>, Vec<u8>, Event),
    Connected(Vec<Screen>),
}

/// The numbers that a call gave back: its own, then every byte of the list, or the number
/// of connected screens.
pub fn given(rules: &BoardRules, call: &BoardCall) -> Vec<u64> {
    match call {
        BoardCall::Feed(list, session, event) => {
            let mut list = list.clone();
            let number = (rules.feed)(rules, &mut list, session, event);
            let entries = list.iter().flat_map(entry);
            [u64::from(number)].into_iter().chain(entries).collect()
        }
        BoardCall::Connected(list) => {
            let (number, screens) = (rules.connected)(rules, list);
            vec![u64::from(number), u64::from(screens)]
        }
    }
}

/// An entry as nineteen numbers: state, place, length, and the room of its Session-Id.
fn entry(screen: &Screen) -> Vec<u64> {
    let mut numbers = [screen.state, screen.place, screen.length]
        .map(u64::from)
        .to_vec();
    numbers.extend(text(&screen.session));
    numbers
}

/// A text as numbers, zeros behind it.
fn text(bytes: &[u8]) -> Vec<u64> {
    let number = |chunk: &[u8]| {
        let mut eight = [0; 8];
        eight[..chunk.len()].copy_from_slice(chunk);
        u64::from_le_bytes(eight)
    };
    bytes.chunks(8).map(number).collect()
}

/// The first number of a script of this kind.
pub const MARK: u64 = u64::from_le_bytes(*b"WMBOARD1");

/// The mark and the number of calls; of each call what it is (0 request, 1 result, 2 notice,
/// 3 the number of connected screens), the list with its length, for a request its kind, for
/// a result its kind, code, kind of code and place; for these three the Session-Id with its
/// length; and what is expected.
pub fn script(calls: &[(BoardCall, Vec<u64>)]) -> Vec<u8> {
    let mut numbers = vec![MARK, calls.len() as u64];
    for (call, expected) in calls {
        let (what, list, brought) = match call {
            BoardCall::Feed(list, session, event) => {
                let (what, mut brought) = fed(event);
                brought.push(session.len() as u64);
                brought.extend(text(session));
                (what, list, brought)
            }
            BoardCall::Connected(list) => (3, list, Vec::new()),
        };
        numbers.extend([what, list.len() as u64]);
        numbers.extend(list.iter().flat_map(entry));
        numbers.extend(brought);
        numbers.extend(expected);
    }
    numbers.into_iter().flat_map(u64::to_le_bytes).collect()
}

fn fed(event: &Event) -> (u64, Vec<u64>) {
    match *event {
        Event::Request { which } => (0, vec![u64::from(which)]),
        Event::Result {
            which,
            code,
            kind,
            place,
        } => (1, [which, code, kind, place].map(u64::from).to_vec()),
        Event::Notice => (2, Vec::new()),
    }
}

/// A result.
pub const fn result(which: u32, code: u32, kind: u32, place: u32) -> Event {
    Event::Result {
        which,
        code,
        kind,
        place,
    }
}

/// A request.
pub const fn request(which: u32) -> Event {
    Event::Request { which }
}

/// The states that a list can say, 4 for those that do not exist.
pub const STATES: [u32; 5] = [OFF, ASKED, CONNECTED, CUT, 4];

/// Each of these events has to meet each state.
pub const EVENTS: &[(&str, Event)] = &[
    ("type 0 asked", request(TYPE_0)),
    ("type 1 asked", request(TYPE_1)),
    ("termination asked", request(TERMINATION)),
    ("kind 3 asked", request(3)),
    ("kind 256 asked", request(256)),
    ("type 0, 2001 at place 0", result(TYPE_0, 2001, 1, 0)),
    ("type 0, 2001 at place 1", result(TYPE_0, 2001, 1, 1)),
    ("type 0, 2001 at place 8", result(TYPE_0, 2001, 1, 8)),
    ("type 0, 2001 at place 9", result(TYPE_0, 2001, 1, 9)),
    ("type 0, 2001 at place 257", result(TYPE_0, 2001, 1, 257)),
    ("type 0, 5012", result(TYPE_0, 5012, 1, 0)),
    ("type 0, 5012 at place 1", result(TYPE_0, 5012, 1, 1)),
    ("type 0, 2002 at place 1", result(TYPE_0, 2002, 1, 1)),
    (
        "type 0, Experimental-Result 5044",
        result(TYPE_0, 5044, 2, 0),
    ),
    (
        "type 0, Experimental-Result 2001 at place 0",
        result(TYPE_0, 2001, 2, 0),
    ),
    (
        "type 0, Experimental-Result 2001 at place 1",
        result(TYPE_0, 2001, 2, 1),
    ),
    ("type 0, no answer", result(TYPE_0, 6, 0, 0)),
    (
        "type 0, 2001 as no answer at place 1",
        result(TYPE_0, 2001, 0, 1),
    ),
    (
        "type 0, 2001 of kind 3 at place 1",
        result(TYPE_0, 2001, 3, 1),
    ),
    (
        "type 0, 2001 of kind 257 at place 1",
        result(TYPE_0, 2001, 257, 1),
    ),
    ("type 0, 67537 at place 1", result(TYPE_0, 67_537, 1, 1)),
    ("type 1, 2001", result(TYPE_1, 2001, 1, 0)),
    ("type 1, 2001 at place 1", result(TYPE_1, 2001, 1, 1)),
    ("type 1, 5012", result(TYPE_1, 5012, 1, 0)),
    ("type 1, no answer", result(TYPE_1, 6, 0, 0)),
    ("termination, 2001", result(TERMINATION, 2001, 1, 0)),
    (
        "termination, 2001 at place 1",
        result(TERMINATION, 2001, 1, 1),
    ),
    (
        "termination, Result-Code 5012",
        result(TERMINATION, 5012, 1, 0),
    ),
    (
        "termination, Experimental-Result 5042",
        result(TERMINATION, 5042, 2, 0),
    ),
    (
        "termination, Experimental-Result 2001",
        result(TERMINATION, 2001, 2, 0),
    ),
    ("termination, no answer", result(TERMINATION, 7, 0, 0)),
    (
        "termination, 2001 as no answer",
        result(TERMINATION, 2001, 0, 0),
    ),
    ("kind 3, 2001", result(3, 2001, 1, 0)),
    ("kind 3, 2001 at place 1", result(3, 2001, 1, 1)),
    ("kind 3, 5012", result(3, 5012, 1, 0)),
    ("kind 256, 2001 at place 1", result(256, 2001, 1, 1)),
    ("kind 258, 2001", result(258, 2001, 1, 0)),
    ("a notice", Event::Notice),
];

/// Calls with what came up in them.
#[derive(Default)]
pub struct BoardCalls {
    pub calls: Vec<(BoardCall, Vec<u64>)>,
    pub came: Came,
}

/// Every third call goes through states and events in turn, the rest are by chance.
pub fn board_calls(rules: &BoardRules, seed: u64, calls: usize) -> BoardCalls {
    let mut random = Random::new(seed);
    let mut made = BoardCalls::default();
    for turn in 0..calls {
        let call = if turn % 3 == 0 {
            in_turn(turn / 3, &mut random)
        } else {
            by_chance(&mut random)
        };
        let expected = given(rules, &call);
        made.came.note(&call, expected[0], expected[1..].first());
        made.calls.push((call, expected));
    }
    made
}

fn in_turn(turn: usize, random: &mut Random) -> BoardCall {
    let state = STATES[turn % STATES.len()];
    let (_, event) = EVENTS[turn / STATES.len() % EVENTS.len()];
    let length = *random.pick(&[1, 2, 3, 4, 6, 12]);
    let mut list = list(length, random);
    let at = one_of(&list, random);
    list[at].state = state;
    let session = held(&list[at]);
    BoardCall::Feed(list, session, event)
}

fn by_chance(random: &mut Random) -> BoardCall {
    let length = *random.pick(&[0, 1, 1, 2, 2, 3, 4, 5, 8, MOST, MOST, MOST + 1]);
    let length = if random.once_in(80) { 257 } else { length };
    let mut list = list(length, random);
    if random.once_in(2) {
        alike(&mut list, random);
    }
    if random.below(5) < 2 {
        damage(&mut list, random);
    }
    let event = match random.below(4) {
        0 => request(*random.pick(&[0, 1, 2, 3, u32::MAX])),
        1 => any_result(random),
        2 => Event::Notice,
        _ => return BoardCall::Connected(list),
    };
    let session = brought(&list, random);
    BoardCall::Feed(list, session, event)
}

fn any_result(random: &mut Random) -> Event {
    result(
        *random.pick(&[0, 0, 0, 1, 2, 2, 3, 256]),
        *random.pick(&[2001, 2001, 2001, 2000, 2002, 5012, 5042, 1, 67_537]),
        *random.pick(&[0, 1, 1, 1, 2, 3, 257]),
        *random.pick(&[0, 1, 2, 7, 8, 9, 10, 255, 258, u32::MAX]),
    )
}

/// One of a list, the first more often, and the last one most.
fn one_of(list: &[Screen], random: &mut Random) -> usize {
    let any = random.below(list.len());
    *random.pick(&[0, list.len() - 1, list.len() - 1, any])
}

/// An entry's Session-Id as far as its room goes.
pub fn held(screen: &Screen) -> Vec<u8> {
    let length = LONGEST.min(screen.length as usize);
    screen.session[..length].to_vec()
}

/// A list in which no Session-Id stands twice, many of which are alike.
fn list(length: usize, random: &mut Random) -> Vec<Screen> {
    let mut sessions: Vec<Vec<u8>> = Vec::new();
    while sessions.len() < length {
        let session = match sessions.len() {
            0 => fresh(random),
            _ if random.once_in(6) => fresh(random),
            n => like(&sessions[random.below(n)], random),
        };
        if (1..=LONGEST).contains(&session.len()) && !sessions.contains(&session) {
            sessions.push(session);
        }
    }
    let mostly = *random.pick(&[OFF, ASKED, CONNECTED, CONNECTED, CUT]);
    let one = |session: &Vec<u8>| {
        let other = *random.pick(&[OFF, ASKED, CONNECTED, CUT, 4, u32::MAX]);
        let state = if random.once_in(4) { other } else { mostly };
        screen(session, state, random)
    };
    sessions.iter().map(one).collect()
}

fn fresh(random: &mut Random) -> Vec<u8> {
    let length = *random.pick(&[1, 1, 2, 5, 20, 127, 128, 128]);
    random.bytes(length)
}

/// A Session-Id that is another one but for a byte, or with a byte less or more.
fn like(session: &[u8], random: &mut Random) -> Vec<u8> {
    let mut like = session.to_vec();
    let last = like.len().saturating_sub(1);
    match random.below(5) {
        0 => drop(like.pop()),
        1 => like.push(*random.pick(&[0, 1, b'a', 255])),
        2 => change(&mut like, last, random),
        3 => change(&mut like, 0, random),
        _ => change(&mut like, random.below(last + 1), random),
    }
    like
}

fn change(text: &mut [u8], at: usize, random: &mut Random) {
    if let Some(byte) = text.get_mut(at) {
        *byte ^= 1 << random.below(8);
    }
}

/// The room behind the Session-Id is zero or anything. A place stands where it should, and
/// now and then where it should not.
fn screen(session: &[u8], state: u32, random: &mut Random) -> Screen {
    let rest = random.bytes(LONGEST);
    let mut screen = Screen {
        state,
        place: 0,
        length: session.len() as u32,
        session: [0; LONGEST],
    };
    if random.once_in(2) {
        screen.session.copy_from_slice(&rest);
    }
    screen.session[..session.len()].copy_from_slice(session);
    if state == CONNECTED {
        screen.place = *random.pick(&[1, 2, 3, 7, 8, 8, 0, 9, u32::MAX]);
    } else if random.once_in(4) {
        screen.place = *random.pick(&[1, 8, 9, u32::MAX]);
    }
    screen
}

/// Makes the whole list connected; or gives two entries the same room and lengths apart.
fn alike(list: &mut [Screen], random: &mut Random) {
    if random.once_in(3) || list.len() < 2 {
        list.iter_mut().for_each(|screen| screen.state = CONNECTED);
        return;
    }
    let at = one_of(list, random);
    let other = (at + 1 + random.below(list.len() - 1)) % list.len();
    let apart = list[other].length;
    let taken = |length: u32| {
        let text = &list[at].session[..length as usize];
        list.iter().any(|screen| screen.named() == Some(text))
    };
    if apart != list[at].length && !taken(apart) {
        list[other].session = list[at].session;
    }
}

/// Makes a list one that gets 25: an entry of a length that may not be, or one twice.
fn damage(list: &mut [Screen], random: &mut Random) {
    if list.is_empty() {
        return;
    }
    let at = one_of(list, random);
    let other = match random.below(3) {
        0 => list.len() - 1 - at,
        1 => (at + 1) % list.len(),
        _ => random.below(list.len()),
    };
    let length = *random.pick(&[0, 0, 0, 129, 129, 129, 257, u32::MAX]);
    if at == other || random.below(5) < 3 {
        list[at].length = length;
        return;
    }
    let twin = list[other].session;
    list[at].length = list[other].length;
    let behind = list[at].length as usize;
    let copied = if random.once_in(2) { LONGEST } else { behind };
    list[at].session[..copied].copy_from_slice(&twin[..copied]);
}

/// A Session-Id to bring: one of the list's, or one that is nearly so.
fn brought(list: &[Screen], random: &mut Random) -> Vec<u8> {
    if list.is_empty() || random.once_in(12) {
        let length = *random.pick(&[0, 0, 1, 20, 128, 129, 130, 200]);
        return random.bytes(length);
    }
    let screen = &list[one_of(list, random)];
    let mut room = screen.session.to_vec();
    match random.below(10) {
        0..=3 => held(screen),
        4 => room,
        5 => {
            room.push(random.byte());
            room
        }
        _ => like(&held(screen), random),
    }
}

/// What is expected of twelve calls is wrong, each time another number of it.
pub fn spoil(calls: &mut [(BoardCall, Vec<u64>)]) -> usize {
    const AT: [usize; 12] = [0, 1, 2, 3, 4, 19, 20, 21, 22, 39, 77, 1_001];
    for (nth, at) in AT.into_iter().enumerate() {
        let expected = &mut calls[nth * calls.len() / AT.len()].1;
        let at = at % expected.len();
        expected[at] ^= 1 << nth;
    }
    AT.len()
}
