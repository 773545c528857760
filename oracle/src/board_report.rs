//! What came up in calls of the board, and what has to.

use std::collections::BTreeMap;

use crate::board_calls::{BoardCall, EVENTS, STATES};
use crate::the_board::{ASKED, CONNECTED, Event, LONGEST, MOST, Screen};

/// How often each thing came up.
#[derive(Default)]
pub struct Came(pub BTreeMap<String, usize>);

const FEEDS: [&str; 3] = ["request", "result", "notice"];
const CALLS: [&str; 4] = ["request", "result", "notice", "connected"];

/// What is wrong with a list that gets 25.
const OVER_64: &str = "over 64 entries";
const OF_NONE: &str = "a Session-Id of 0 bytes";
const OF_129: &str = "a Session-Id of 129 bytes";
const TWICE: &str = "a Session-Id twice";
const FAULTS: [&str; 4] = [OVER_64, OF_NONE, OF_129, TWICE];

/// Lengths of a list, each with a number that a call on it gets.
const LISTS: [(usize, u64); 8] = [
    (0, 24),
    (1, 0),
    (1, 24),
    (1, 25),
    (64, 0),
    (64, 24),
    (64, 25),
    (65, 25),
];
const COUNTED: [(usize, u64); 6] = [(0, 0), (1, 0), (1, 25), (64, 0), (64, 25), (65, 25)];

/// Of every feed.
const FED: &[&str] = &[
    "found by 1 byte",
    "found by 128 bytes",
    "found in the first entry of several",
    "found in the last entry of several",
    "found in entry 64",
    "found, another is as long",
    "found, another begins with it",
    "found, it begins with another",
    "found, another has the same room",
    "24 for 0 bytes",
    "24 for 129 bytes that begin with an entry's",
    "24 for an entry's without its last byte",
    "24 for an entry's and a byte more",
    "24 for an entry's but for the last byte",
    "24 for an entry's but for the first byte",
    "24 for what stands in a room behind a Session-Id",
];

/// Of every call.
const REFUSED: &[&str] = &[
    "25 for the first entry's length",
    "25 for the last entry's length",
    "25 for the first and the last, which are the same",
    "25 for two neighbours, which are the same",
    "25 for two that are the same, other bytes behind them",
    "25 for a length of 2^32 - 1",
];

const NUMBERED: &[&str] = &[
    "connected: none of several",
    "connected: all 64",
    "connected: 1",
    "connected: asked ones beside",
    "connected: a state over 3 beside",
    "connected: one at place 0",
    "connected: one at place 9",
];

const OTHERS: &[&str] = &[
    "a list of 257 entries",
    "a place on a screen that is not connected goes",
    "a place on a screen that is not connected stays",
    "a place of a connected screen goes",
    "a place of a connected screen stays",
];

/// Everything that has to come up in a script.
pub fn wanted() -> Vec<String> {
    let mut wanted: Vec<String> = Vec::new();
    for state in STATES {
        wanted.extend(
            EVENTS
                .iter()
                .map(|(name, _)| format!("state {state}: {name}")),
        );
    }
    for feed in FEEDS {
        let of = |(length, number)| format!("{feed}: a list of {length}, {number}");
        wanted.extend(LISTS.map(of));
        wanted.extend(FED.iter().map(|what| format!("{feed}: {what}")));
        wanted.extend(FAULTS.map(|fault| format!("{feed}: 25 and 24, {fault}")));
        wanted.extend(FAULTS.map(|fault| format!("{feed}: 25 and found, {fault}")));
    }
    for call in CALLS {
        wanted.extend(FAULTS.map(|fault| format!("{call}: 25 for {fault} alone")));
        wanted.extend(REFUSED.iter().map(|what| format!("{call}: {what}")));
    }
    let of = |(length, number)| format!("connected: a list of {length}, {number}");
    wanted.extend(COUNTED.map(of));
    wanted.extend(NUMBERED.iter().chain(OTHERS).map(|what| what.to_string()));
    wanted
}

fn faults(list: &[Screen]) -> Vec<&'static str> {
    let bad = |length: u32| list.iter().any(|screen| screen.length == length);
    let all = [
        (list.len() > MOST, OVER_64),
        (bad(0), OF_NONE),
        (bad(129), OF_129),
        (!pairs_alike(list).is_empty(), TWICE),
    ];
    let there = all.into_iter().filter(|(is, _)| *is);
    there.map(|(_, fault)| fault).collect()
}

/// The pairs of entries, the first before the second, with one and the same Session-Id.
fn pairs_alike(list: &[Screen]) -> Vec<(usize, usize)> {
    let alike = |&(a, b): &(usize, usize)| list[a].named() == list[b].named();
    let named = |&(a, _): &(usize, usize)| list[a].named().is_some();
    let pairs = (0..list.len()).flat_map(|b| (0..b).map(move |a| (a, b)));
    pairs.filter(named).filter(alike).collect()
}

impl Came {
    fn add(&mut self, what: String) {
        *self.0.entry(what).or_default() += 1;
    }

    fn add_if(&mut self, when: bool, call: &str, what: &str) {
        if when {
            self.add(format!("{call}: {what}"));
        }
    }

    pub fn missing(&self) -> Vec<String> {
        let never = |what: &String| !self.0.contains_key(what);
        wanted().into_iter().filter(never).collect()
    }

    /// A call, its number, and what it gave behind that.
    pub fn note(&mut self, call: &BoardCall, number: u64, next: Option<&u64>) {
        let (name, list) = match call {
            BoardCall::Feed(list, _, Event::Request { .. }) => ("request", list),
            BoardCall::Feed(list, _, Event::Result { .. }) => ("result", list),
            BoardCall::Feed(list, _, Event::Notice) => ("notice", list),
            BoardCall::Connected(list) => ("connected", list),
        };
        self.add(format!("{name}: number {number}"));
        if [0, 1, MOST, MOST + 1].contains(&list.len()) {
            self.add(format!("{name}: a list of {}, {number}", list.len()));
        }
        if list.len() == 257 {
            self.add("a list of 257 entries".to_string());
        }
        if number == 25 {
            self.note_25(name, list);
        }
        match call {
            BoardCall::Feed(_, session, event) => {
                self.note_feed(name, list, session, event, number);
            }
            BoardCall::Connected(_) if number == 0 => {
                self.note_count(list, next.copied().unwrap_or(0));
            }
            BoardCall::Connected(_) => (),
        }
    }

    fn note_25(&mut self, call: &str, list: &[Screen]) {
        if let [fault] = faults(list)[..] {
            self.add(format!("{call}: 25 for {fault} alone"));
        }
        let last = list.len().saturating_sub(1);
        let bad: Vec<usize> = (0..list.len())
            .filter(|&n| list[n].named().is_none())
            .collect();
        let several = list.len() > 1;
        self.add_if(
            several && bad == [0],
            call,
            "25 for the first entry's length",
        );
        self.add_if(
            several && bad == [last],
            call,
            "25 for the last entry's length",
        );
        let greatest = list.iter().any(|s| s.length == u32::MAX);
        self.add_if(greatest, call, "25 for a length of 2^32 - 1");
        let [(a, b)] = pairs_alike(list)[..] else {
            return;
        };
        self.add_if(
            (a, b) == (0, last) && list.len() > 2,
            call,
            "25 for the first and the last, which are the same",
        );
        self.add_if(
            b == a + 1,
            call,
            "25 for two neighbours, which are the same",
        );
        self.add_if(
            list[a].session != list[b].session,
            call,
            "25 for two that are the same, other bytes behind them",
        );
    }

    fn note_feed(&mut self, call: &str, list: &[Screen], text: &[u8], event: &Event, number: u64) {
        let at = list.iter().position(|s| s.named() == Some(text));
        match (number, at) {
            (25, _) => {
                let by = if at.is_some() { "found" } else { "24" };
                for fault in faults(list) {
                    self.add(format!("{call}: 25 and {by}, {fault}"));
                }
            }
            (0, Some(at)) => {
                self.note_found(call, list, at);
                self.note_event(&list[at], event);
            }
            _ => self.note_24(call, list, text),
        }
    }

    fn note_found(&mut self, call: &str, list: &[Screen], at: usize) {
        let found = &list[at];
        let text = found.named().unwrap_or_default();
        let others = || list.iter().filter(|s| s.named() != Some(text));
        let last = list.len() - 1;
        let longer = others().any(|s| s.named().is_some_and(|other| other.starts_with(text)));
        let shorter = others().any(|s| s.named().is_some_and(|other| text.starts_with(other)));
        let all = [
            (text.len() == 1, "found by 1 byte"),
            (text.len() == LONGEST, "found by 128 bytes"),
            (last > 0 && at == 0, "found in the first entry of several"),
            (last > 0 && at == last, "found in the last entry of several"),
            (at == 63, "found in entry 64"),
            (
                others().any(|s| s.length == found.length),
                "found, another is as long",
            ),
            (longer, "found, another begins with it"),
            (shorter, "found, it begins with another"),
            (
                others().any(|s| s.session == found.session),
                "found, another has the same room",
            ),
        ];
        for (is, what) in all {
            self.add_if(is, call, what);
        }
    }

    fn note_event(&mut self, screen: &Screen, event: &Event) {
        let example = EVENTS.iter().find(|(_, e)| e == event);
        if let (Some((name, _)), true) = (example, STATES.contains(&screen.state)) {
            self.add(format!("state {}: {name}", screen.state));
        }
        if screen.place == 0 {
            return;
        }
        let rules = &crate::the_board::REQUEST_W7;
        let whose = match screen.state {
            CONNECTED => "of a connected screen",
            _ => "on a screen that is not connected",
        };
        let kept = (rules.after)(rules, screen.shown(), event).1 == screen.place;
        let does = if kept { "stays" } else { "goes" };
        self.add(format!("a place {whose} {does}"));
    }

    fn note_24(&mut self, call: &str, list: &[Screen], text: &[u8]) {
        let any = |is: &dyn Fn(&[u8]) -> bool| list.iter().any(|s| s.named().is_some_and(is));
        let longer = |o: &[u8]| o.len() == text.len() + 1 && o.starts_with(text);
        let but_for = |at: usize, other: &[u8]| {
            let same = |n: usize| text[n] == other[n];
            other.len() == text.len() && (0..text.len()).all(|n| same(n) != (n == at))
        };
        let several = text.len() > 1;
        let behind = |s: &Screen| text.len() > s.length as usize && s.session.starts_with(text);
        let all = [
            (text.is_empty(), "24 for 0 bytes"),
            (
                text.len() == 129 && any(&|other| other == &text[..LONGEST]),
                "24 for 129 bytes that begin with an entry's",
            ),
            (
                !text.is_empty() && any(&longer),
                "24 for an entry's without its last byte",
            ),
            (
                any(&|o| o.len() + 1 == text.len() && text.starts_with(o)),
                "24 for an entry's and a byte more",
            ),
            (
                several && any(&|o| but_for(text.len() - 1, o)),
                "24 for an entry's but for the last byte",
            ),
            (
                several && any(&|o| but_for(0, o)),
                "24 for an entry's but for the first byte",
            ),
            (
                list.iter().any(behind),
                "24 for what stands in a room behind a Session-Id",
            ),
        ];
        for (is, what) in all {
            self.add_if(is, call, what);
        }
    }

    fn note_count(&mut self, list: &[Screen], screens: u64) {
        let connected = |s: &&Screen| s.state == CONNECTED;
        let at = |place: u32| list.iter().filter(connected).any(|s| s.place == place);
        let beside = |is: fn(&Screen) -> bool| screens > 0 && list.iter().any(is);
        let all = [
            (screens == 0 && list.len() > 1, "none of several"),
            (screens == 64, "all 64"),
            (screens == 1, "1"),
            (beside(|s| s.state == ASKED), "asked ones beside"),
            (beside(|s| s.state > 3), "a state over 3 beside"),
            (at(0), "one at place 0"),
            (at(9), "one at place 9"),
        ];
        for (is, what) in all {
            self.add_if(is, "connected", what);
        }
    }
}
