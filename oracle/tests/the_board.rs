//! W7: the board by hand, its laws on calls by chance, and wrong programs told apart.

use oracle::board_calls::{BoardCall, EVENTS, STATES, board_calls, given, request, result};
use oracle::the_board::{
    ASKED, BoardRules, CONNECTED, CUT, Event, MOST, OFF, REQUEST_W7, Screen, Shown, TERMINATION,
    TYPE_0, TYPE_1, after, entry_of, feed, list_is_right,
};

fn screen(session: &[u8], state: u32, place: u32) -> Screen {
    let mut screen = Screen {
        state,
        place,
        length: session.len() as u32,
        session: [0xEE; 128],
    };
    screen.session[..session.len()].copy_from_slice(session);
    screen
}

/// As many screens as asked for, each with a Session-Id of its own.
fn screens(count: usize, state: u32) -> Vec<Screen> {
    let place = if state == CONNECTED { 1 } else { 0 };
    (0..count)
        .map(|n| screen(format!("s;{n}").as_bytes(), state, place))
        .collect()
}

fn fed(list: &[Screen], session: &[u8], event: Event) -> (u32, Vec<Screen>) {
    let mut list = list.to_vec();
    let number = (REQUEST_W7.feed)(&REQUEST_W7, &mut list, session, &event);
    (number, list)
}

fn connected(list: &[Screen]) -> (u32, u32) {
    (REQUEST_W7.connected)(&REQUEST_W7, list)
}

/// A screen's way: asked, connected at place 3, cut, asked again, refused.
#[test]
fn a_screen_on_its_way() {
    let mut list = screens(3, OFF);
    let way = [
        (request(TYPE_0), (ASKED, 0), 0),
        (request(TYPE_0), (ASKED, 0), 0),
        (result(TYPE_0, 2001, 1, 0), (ASKED, 0), 0),
        (result(TYPE_0, 2001, 1, 9), (ASKED, 0), 0),
        (result(TYPE_0, 2001, 1, 3), (CONNECTED, 3), 1),
        (request(TYPE_0), (CONNECTED, 3), 1),
        (result(TYPE_0, 5012, 1, 0), (CONNECTED, 3), 1),
        (request(TYPE_1), (CONNECTED, 3), 1),
        (result(TYPE_1, 2001, 1, 0), (CONNECTED, 3), 1),
        (request(TERMINATION), (CONNECTED, 3), 1),
        (result(TERMINATION, 5042, 2, 0), (CONNECTED, 3), 1),
        (Event::Notice, (CUT, 0), 0),
        (result(TYPE_0, 5012, 1, 0), (CUT, 0), 0),
        (request(TYPE_0), (ASKED, 0), 0),
        (result(TYPE_0, 6, 0, 0), (OFF, 0), 0),
        (result(TYPE_0, 2001, 1, 1), (OFF, 0), 0),
        (Event::Notice, (CUT, 0), 0),
        (result(TERMINATION, 2001, 1, 0), (OFF, 0), 0),
    ];
    for (event, shown, count) in way {
        let (number, after) = fed(&list, b"s;1", event);
        assert_eq!((number, after[1].shown()), (0, shown), "{event:?}");
        assert_eq!((after[0], after[2]), (list[0], list[2]));
        assert_eq!(connected(&after), (0, count), "{event:?}");
        list = after;
    }
}

/// The events that move a state, and where to, written out; all others leave it.
#[test]
fn each_state_with_each_event() {
    let refused = |event: &Event| {
        let Event::Result { which, .. } = event else {
            return false;
        };
        let success = [0, 1, 8, 9, 257].map(|place| result(TYPE_0, 2001, 1, place));
        *which == TYPE_0 && !success.contains(event)
    };
    let ended = [0, 1].map(|place| result(TERMINATION, 2001, 1, place));
    for state in STATES {
        let held = (state, 7);
        for (name, event) in EVENTS {
            let expected = match state {
                _ if *event == Event::Notice => (CUT, 0),
                _ if ended.contains(event) => (OFF, 0),
                OFF | CUT if *event == request(TYPE_0) => (ASKED, 0),
                ASKED if *event == result(TYPE_0, 2001, 1, 1) => (CONNECTED, 1),
                ASKED if *event == result(TYPE_0, 2001, 1, 8) => (CONNECTED, 8),
                ASKED if refused(event) => (OFF, 0),
                _ => held,
            };
            assert_eq!(
                after(&REQUEST_W7, held, event),
                expected,
                "state {state}: {name}"
            );
        }
    }
}

#[test]
fn lists_of_0_1_64_and_65() {
    assert_eq!(connected(&[]), (0, 0));
    assert_eq!(fed(&[], b"s;0", Event::Notice), (24, Vec::new()));
    assert_eq!(connected(&screens(1, CONNECTED)), (0, 1));
    assert_eq!(connected(&screens(64, CONNECTED)), (0, 64));
    assert_eq!(connected(&screens(65, CONNECTED)), (25, 0));
    let (number, list) = fed(&screens(64, OFF), b"s;63", Event::Notice);
    assert_eq!((number, list[63].shown()), (0, (CUT, 0)));
    let many = screens(65, OFF);
    assert_eq!(fed(&many, b"s;63", Event::Notice), (25, many.clone()));
    assert_eq!(fed(&many, b"elsewhere", Event::Notice), (25, many.clone()));
}

#[test]
fn session_ids_of_0_1_128_and_129() {
    let long = [b'x'; 129];
    let list = vec![screen(b"x", OFF, 0), screen(&long[..128], OFF, 0)];
    let cut = |number, at: Option<usize>| {
        let mut list = list.clone();
        if let Some(at) = at {
            list[at].state = CUT;
        }
        (number, list)
    };
    assert_eq!(fed(&list, b"x", Event::Notice), cut(0, Some(0)));
    assert_eq!(fed(&list, &long[..128], Event::Notice), cut(0, Some(1)));
    for nowhere in [&long[..0], &long[..2], &long[..127], &long] {
        assert_eq!(fed(&list, nowhere, Event::Notice), cut(24, None));
    }
    for length in [0, 129, u32::MAX] {
        let mut bad = list.clone();
        bad[1].length = length;
        assert_eq!(connected(&bad), (25, 0));
        for session in [&long[..0], b"x", &long[..128], &long, b"elsewhere"] {
            assert_eq!(fed(&bad, session, Event::Notice), (25, bad.clone()));
        }
    }
}

#[test]
fn a_session_id_that_stands_twice() {
    let one = screen(b"gw;1", CONNECTED, 1);
    let mut same = screen(b"gw;1", OFF, 0);
    same.session[127] = 0;
    let mut longer = one;
    longer.length = 5;
    for (other, number) in [
        (same, 25),
        (screen(b"gw;2", OFF, 0), 0),
        (screen(b"gw;", OFF, 0), 0),
        (screen(b"gw;1\0", OFF, 0), 0),
        (longer, 0),
    ] {
        let list = [screen(b"first", OFF, 0), one, screen(b"x", OFF, 0), other];
        assert_eq!(connected(&list).0, number, "{:?}", other.named());
        assert_eq!(fed(&list, b"gw;1", Event::Notice).0, number);
        let nowhere = if number == 25 { 25 } else { 24 };
        assert_eq!(fed(&list, b"nowhere", Event::Notice).0, nowhere);
    }
}

#[test]
fn only_connected_screens_are_counted() {
    let states = [OFF, ASKED, CUT, 4, u32::MAX, CONNECTED, CONNECTED];
    let mut list: Vec<Screen> = screens(7, OFF);
    for (screen, state) in list.iter_mut().zip(states) {
        screen.state = state;
        screen.place = 9;
    }
    assert_eq!(connected(&list), (0, 2));
}

/// At most the entry of the Session-Id is moved, no Session-Id is, and a refusal moves none;
/// the number of connected screens is one more, one less or the same.
#[test]
fn a_feed_moves_one_entry() {
    for (call, _) in board_calls(&REQUEST_W7, 7, 4_000).calls {
        let BoardCall::Feed(list, session, event) = call else {
            continue;
        };
        let (number, moved) = fed(&list, &session, event);
        let at = entry_of(&list, &session).filter(|_| number == 0);
        for (n, (before, after)) in list.iter().zip(&moved).enumerate() {
            let (state, place) = after.shown();
            let kept = Screen {
                state: before.state,
                place: before.place,
                ..*after
            };
            assert_eq!(kept, *before);
            assert!(at == Some(n) || (state, place) == before.shown());
        }
        if number == 0 {
            let (before, after) = (connected(&list).1, connected(&moved).1);
            assert!(before.abs_diff(after) <= 1 && after <= MOST as u32);
        }
    }
}

#[test]
fn nothing_is_missing() {
    for seed in 1..5 {
        let missing = board_calls(&REQUEST_W7, seed, 5_000).came.missing();
        assert!(missing.is_empty(), "seed {seed}: {missing:?}");
    }
}

/// The rules of the request with another answer for some events.
fn otherwise(after: fn(&BoardRules, Shown, &Event) -> Shown) -> BoardRules {
    BoardRules {
        after,
        ..REQUEST_W7
    }
}

fn right(held: Shown, event: &Event) -> Shown {
    after(&REQUEST_W7, held, event)
}

/// The result as if it were of another kind of request.
fn as_of(event: &Event, from: u32, to: u32) -> Event {
    match *event {
        Event::Result {
            which,
            code,
            kind,
            place,
        } if which == from => result(to, code, kind, place),
        Event::Request { which } if which == from => request(to),
        other => other,
    }
}

/// Programs that move a screen otherwise.
fn wrong_moves() -> Vec<(&'static str, BoardRules)> {
    vec![
        (
            "a success at place 0 connects",
            otherwise(|_, held, event| match (held.0, event) {
                (ASKED, Event::Result { place: 0, .. }) if *event == result(TYPE_0, 2001, 1, 0) => {
                    (CONNECTED, 0)
                }
                _ => right(held, event),
            }),
        ),
        (
            "a success at place 9 connects",
            otherwise(|_, held, event| {
                if held.0 == ASKED && *event == result(TYPE_0, 2001, 1, 9) {
                    (CONNECTED, 9)
                } else {
                    right(held, event)
                }
            }),
        ),
        (
            "a place is a byte",
            otherwise(|_, held, event| match *event {
                Event::Result {
                    which,
                    code,
                    kind,
                    place,
                } => right(held, &result(which, code, kind, place % 256)),
                other => right(held, &other),
            }),
        ),
        (
            "place 8 does not connect",
            otherwise(|_, held, event| match right(held, event) {
                (CONNECTED, 8) if held.0 == ASKED => held,
                shown => shown,
            }),
        ),
        (
            "a success without a place is a refusal",
            otherwise(|_, held, event| {
                if held.0 == ASKED && *event == result(TYPE_0, 2001, 1, 0) {
                    (OFF, 0)
                } else {
                    right(held, event)
                }
            }),
        ),
        (
            "a success connects a screen that was cut",
            otherwise(|_, held, event| match (held.0, right((ASKED, 0), event)) {
                (CUT, (CONNECTED, place)) => (CONNECTED, place),
                _ => right(held, event),
            }),
        ),
        (
            "a success connects a screen that is off",
            otherwise(|_, held, event| match (held.0, right((ASKED, 0), event)) {
                (OFF, (CONNECTED, place)) => (CONNECTED, place),
                _ => right(held, event),
            }),
        ),
        (
            "a success moves a connected screen",
            otherwise(|_, held, event| match (held.0, right((ASKED, 0), event)) {
                (CONNECTED, (CONNECTED, place)) => (CONNECTED, place),
                _ => right(held, event),
            }),
        ),
        (
            "a refusal puts a connected screen off",
            otherwise(|_, held, event| match (held.0, right((ASKED, 0), event)) {
                (CONNECTED, (OFF, 0)) => (OFF, 0),
                _ => right(held, event),
            }),
        ),
        (
            "a refusal puts a cut screen off",
            otherwise(|_, held, event| match (held.0, right((ASKED, 0), event)) {
                (CUT, (OFF, 0)) => (OFF, 0),
                _ => right(held, event),
            }),
        ),
        (
            "a refusal leaves an asked screen asked",
            otherwise(|_, held, event| match right(held, event) {
                (OFF, 0) if held.0 == ASKED && *event == result(TYPE_0, 5012, 1, 0) => held,
                shown => shown,
            }),
        ),
        (
            "no answer leaves an asked screen asked",
            otherwise(|_, held, event| match event {
                Event::Result {
                    which: TYPE_0,
                    kind: 0,
                    ..
                } => held,
                _ => right(held, event),
            }),
        ),
        (
            "a cut screen is not asked again",
            otherwise(|_, held, event| match (held.0, event) {
                (CUT, Event::Request { .. }) => held,
                _ => right(held, event),
            }),
        ),
        (
            "a request puts a connected screen to asked",
            otherwise(|_, held, event| match (held.0, event) {
                (CONNECTED, Event::Request { which: TYPE_0 }) => (ASKED, 0),
                _ => right(held, event),
            }),
        ),
        (
            "a request of type 1 asks",
            otherwise(|_, held, event| match event {
                Event::Request { .. } => right(held, &as_of(event, TYPE_1, TYPE_0)),
                _ => right(held, event),
            }),
        ),
        (
            "a termination request sets off",
            otherwise(|_, held, event| match event {
                Event::Request { which: TERMINATION } => (OFF, 0),
                _ => right(held, event),
            }),
        ),
        (
            "a success of type 1 connects",
            otherwise(
                |_, held, event| match (held.0, as_of(event, TYPE_1, TYPE_0)) {
                    (ASKED, Event::Result { .. }) => right(held, &as_of(event, TYPE_1, TYPE_0)),
                    _ => right(held, event),
                },
            ),
        ),
        (
            "a kind over 2 is a termination",
            otherwise(|_, held, event| right(held, &as_of(event, 3, TERMINATION))),
        ),
        (
            "a kind of request is a byte",
            otherwise(|_, held, event| match *event {
                Event::Result {
                    which,
                    code,
                    kind,
                    place,
                } => right(held, &result(which % 256, code, kind, place)),
                Event::Request { which } => right(held, &request(which % 256)),
                Event::Notice => right(held, event),
            }),
        ),
        (
            "a kind over 2 is of type 0",
            otherwise(|_, held, event| right(held, &as_of(event, 3, TYPE_0))),
        ),
        (
            "a termination leaves a cut screen cut",
            otherwise(|_, held, event| match (held.0, right(held, event)) {
                (CUT, (OFF, 0)) => held,
                (_, shown) => shown,
            }),
        ),
        (
            "a termination that was refused sets off",
            otherwise(|_, held, event| match event {
                Event::Result {
                    which: TERMINATION, ..
                } => (OFF, 0),
                _ => right(held, event),
            }),
        ),
        (
            "a notice cuts a connected screen alone",
            otherwise(|_, held, event| match event {
                Event::Notice if held.0 != CONNECTED => held,
                _ => right(held, event),
            }),
        ),
        (
            "a notice sets off",
            otherwise(|_, held, event| match event {
                Event::Notice => (OFF, 0),
                _ => right(held, event),
            }),
        ),
        (
            "a screen that is cut keeps its place",
            otherwise(|_, held, event| match event {
                Event::Notice => (CUT, held.1),
                _ => right(held, event),
            }),
        ),
        (
            "a screen that is set off keeps its place",
            otherwise(|_, held, event| match right(held, event) {
                (OFF, 0) => (OFF, held.1),
                shown => shown,
            }),
        ),
        (
            "a state over 3 is off",
            otherwise(|_, held, event| match held.0 {
                0..=3 => right(held, event),
                _ => right((OFF, 0), event),
            }),
        ),
        (
            "a state over 3 is never moved",
            otherwise(|_, held, event| match held.0 {
                0..=3 => right(held, event),
                _ => held,
            }),
        ),
    ]
}

/// Programs that take another answer for a success.
fn wrong_successes() -> Vec<(&'static str, BoardRules)> {
    let w7 = REQUEST_W7;
    vec![
        (
            "an Experimental-Result of 2001 is a success",
            BoardRules {
                succeeded: |code, kind| code == 2001 && (1..=2).contains(&kind),
                ..w7
            },
        ),
        (
            "2001 of any kind is a success",
            BoardRules {
                succeeded: |code, _| code == 2001,
                ..w7
            },
        ),
        (
            "2002 is a success",
            BoardRules {
                succeeded: |code, kind| kind == 1 && (2001..=2002).contains(&code),
                ..w7
            },
        ),
        (
            "a kind of code is a byte",
            BoardRules {
                succeeded: |code, kind| code == 2001 && kind % 256 == 1,
                ..w7
            },
        ),
        (
            "a code is 16 bits",
            BoardRules {
                succeeded: |code, kind| kind == 1 && code % 65_536 == 2001,
                ..w7
            },
        ),
    ]
}

/// An event that goes to another entry than its own.
fn goes_to(
    rules: &BoardRules,
    list: &mut [Screen],
    session: &[u8],
    event: &Event,
    other: Option<usize>,
) -> u32 {
    let number = feed(rules, &mut list.to_vec(), session, event);
    if let (0, Some(at)) = (number, other) {
        (list[at].state, list[at].place) = right(list[at].shown(), event);
    }
    number
}

/// Programs that move another entry than the one named, or more than one.
fn wrong_entries() -> Vec<(&'static str, BoardRules)> {
    let w7 = REQUEST_W7;
    vec![
        (
            "a notice cuts the first connected screen",
            BoardRules {
                feed: |rules, list, session, event| match event {
                    Event::Notice => {
                        let first = list.iter().position(|s| s.state == CONNECTED);
                        goes_to(rules, list, session, event, first)
                    }
                    _ => feed(rules, list, session, event),
                },
                ..w7
            },
        ),
        (
            "a result goes to the first asked screen",
            BoardRules {
                feed: |rules, list, session, event| match event {
                    Event::Result { .. } => {
                        let first = list.iter().position(|s| s.state == ASKED);
                        goes_to(rules, list, session, event, first)
                    }
                    _ => feed(rules, list, session, event),
                },
                ..w7
            },
        ),
        (
            "a success takes its place from another screen",
            BoardRules {
                feed: |rules, list, session, event| {
                    let number = feed(rules, list, session, event);
                    let at = entry_of(list, session);
                    let taken = at.map(|at| list[at].shown());
                    if let (0, Some((CONNECTED, place))) = (number, taken) {
                        for (n, screen) in list.iter_mut().enumerate() {
                            if Some(n) != at && screen.shown() == (CONNECTED, place) {
                                (screen.state, screen.place) = (CUT, 0);
                            }
                        }
                    }
                    number
                },
                ..w7
            },
        ),
        (
            "the Session-Id's beginning is enough",
            BoardRules {
                entry_of: |list, session| {
                    let begins = |s: &Screen| s.named().is_some_and(|t| t.starts_with(session));
                    list.iter().position(begins)
                },
                ..w7
            },
        ),
        (
            "the entry's Session-Id need only be the beginning",
            BoardRules {
                entry_of: |list, session| {
                    let begins = |s: &Screen| s.named().is_some_and(|t| session.starts_with(t));
                    list.iter().position(begins)
                },
                ..w7
            },
        ),
        (
            "the whole room is compared",
            BoardRules {
                entry_of: |list, session| {
                    let whole = |s: &Screen| s.session.starts_with(session);
                    list.iter().position(whole).filter(|_| !session.is_empty())
                },
                ..w7
            },
        ),
        (
            "a Session-Id is compared by its length and its last byte",
            BoardRules {
                entry_of: |list, session| {
                    let like = |s: &Screen| {
                        let text = s.named().unwrap_or_default();
                        text.len() == session.len() && text.last() == session.last()
                    };
                    list.iter().position(like)
                },
                ..w7
            },
        ),
        (
            "the room behind a Session-Id is cleared",
            BoardRules {
                feed: |rules, list, session, event| {
                    let number = feed(rules, list, session, event);
                    if let (0, Some(at)) = (number, entry_of(list, session)) {
                        list[at].session[session.len()..].fill(0);
                    }
                    number
                },
                ..w7
            },
        ),
        (
            "the last entry is not looked at",
            BoardRules {
                entry_of: |list, session| entry_of(&list[..list.len().saturating_sub(1)], session),
                ..w7
            },
        ),
    ]
}

/// Programs that give 25 and 24 otherwise.
fn wrong_numbers() -> Vec<(&'static str, BoardRules)> {
    let w7 = REQUEST_W7;
    vec![
        (
            "24 before 25",
            BoardRules {
                feed: |rules, list, session, event| match entry_of(list, session) {
                    None => 24,
                    Some(_) => feed(rules, list, session, event),
                },
                ..w7
            },
        ),
        (
            "a list of 64 is refused",
            BoardRules {
                length_is_right: |length| length < 64,
                ..w7
            },
        ),
        (
            "a list of 65 is taken",
            BoardRules {
                length_is_right: |length| length <= 65,
                ..w7
            },
        ),
        (
            "a list's length is a byte",
            BoardRules {
                length_is_right: |length| length % 256 <= 64,
                ..w7
            },
        ),
        (
            "an empty list is refused",
            BoardRules {
                length_is_right: |length| (1..=64).contains(&length),
                ..w7
            },
        ),
        (
            "an entry of 0 bytes is taken",
            BoardRules {
                session_is_right: |s| s.length <= 128,
                ..w7
            },
        ),
        (
            "an entry of 129 bytes is taken",
            BoardRules {
                session_is_right: |s| (1..=129).contains(&s.length),
                ..w7
            },
        ),
        (
            "an entry of 128 bytes is refused",
            BoardRules {
                session_is_right: |s| (1..=127).contains(&s.length),
                ..w7
            },
        ),
        (
            "an entry of 1 byte is refused",
            BoardRules {
                session_is_right: |s| (2..=128).contains(&s.length),
                ..w7
            },
        ),
        (
            "a length is a byte",
            BoardRules {
                session_is_right: |s| (1..=128).contains(&(s.length % 256)),
                ..w7
            },
        ),
        (
            "a Session-Id may stand twice",
            BoardRules {
                same_session: |_, _| false,
                ..w7
            },
        ),
        (
            "twice only if the rooms are the same",
            BoardRules {
                same_session: |one, other| {
                    one.length == other.length && one.session == other.session
                },
                ..w7
            },
        ),
        (
            "twice if one is the beginning of the other",
            BoardRules {
                same_session: |one, other| {
                    let length = one.length.min(other.length) as usize;
                    one.session[..length] == other.session[..length]
                },
                ..w7
            },
        ),
        (
            "twice if the lengths are the same",
            BoardRules {
                same_session: |one, other| one.length == other.length,
                ..w7
            },
        ),
        (
            "only neighbours are compared",
            BoardRules {
                list_is_right: |rules, list| {
                    let apart = |two: &[Screen]| list_is_right(rules, two) || two.len() < 2;
                    list.len() <= 64
                        && list.iter().all(rules.session_is_right)
                        && list.windows(2).all(apart)
                },
                ..w7
            },
        ),
        (
            "a refused list is moved in spite of its number",
            BoardRules {
                feed: |rules, list, session, event| {
                    let number = feed(rules, list, session, event);
                    if let (25, Some(at)) = (number, entry_of(list, session)) {
                        (list[at].state, list[at].place) = right(list[at].shown(), event);
                    }
                    number
                },
                ..w7
            },
        ),
        (
            "a request that moves nothing asks for nothing",
            BoardRules {
                feed: |rules, list, session, event| match event {
                    Event::Request { which: 1..=2 } => 0,
                    _ => feed(rules, list, session, event),
                },
                ..w7
            },
        ),
        (
            "a result of type 1 on no entry is 0",
            BoardRules {
                feed: |rules, list, session, event| match (feed(rules, list, session, event), event)
                {
                    (24, Event::Result { which: TYPE_1, .. }) => 0,
                    (number, _) => number,
                },
                ..w7
            },
        ),
    ]
}

/// Programs that count otherwise.
fn wrong_counts() -> Vec<(&'static str, BoardRules)> {
    let w7 = REQUEST_W7;
    vec![
        (
            "the count includes asked",
            BoardRules {
                counts: |s| s.state == CONNECTED || s.state == ASKED,
                ..w7
            },
        ),
        (
            "the count is of screens that are not off",
            BoardRules {
                counts: |s| s.state != OFF,
                ..w7
            },
        ),
        (
            "a state over 3 counts",
            BoardRules {
                counts: |s| s.state == CONNECTED || s.state > 3,
                ..w7
            },
        ),
        (
            "screens at a place 1 to 8 alone count",
            BoardRules {
                counts: |s| s.state == CONNECTED && (1..=8).contains(&s.place),
                ..w7
            },
        ),
        (
            "whatever has a place counts",
            BoardRules {
                counts: |s| s.place != 0,
                ..w7
            },
        ),
        (
            "a refused list is counted",
            BoardRules {
                connected: |rules, list| {
                    let (number, _) = (REQUEST_W7.connected)(rules, list);
                    let count = list.iter().filter(|s| s.state == CONNECTED).count();
                    (number, count as u32)
                },
                ..w7
            },
        ),
        (
            "counting asks for no list",
            BoardRules {
                connected: |_, list| {
                    let count = list.iter().filter(|s| s.state == CONNECTED).count();
                    (0, count as u32)
                },
                ..w7
            },
        ),
    ]
}

#[test]
fn wrong_programs_are_told_apart() {
    let calls = board_calls(&REQUEST_W7, 1, 5_000).calls;
    let agrees = |(call, expected): &(BoardCall, Vec<u64>)| given(&REQUEST_W7, call) == *expected;
    assert!(calls.iter().all(agrees));
    let wrong = [
        wrong_moves(),
        wrong_successes(),
        wrong_entries(),
        wrong_numbers(),
        wrong_counts(),
    ];
    for (name, rules) in wrong.into_iter().flatten() {
        let differs = calls
            .iter()
            .filter(|(call, expected)| given(&rules, call) != *expected)
            .count();
        println!("{differs:5} {name}");
        assert!(differs > 0, "{name} is not told");
    }
}
