//! W12, proof of age: on histories by chance the table shows what the calls and their results
//! say, and wrong servers and wrong readers of the calls are told apart.

mod by_hand;
mod wrong_readers;
mod wrong_servers;

use std::collections::BTreeMap;

use oracle::deciding::held_is_refused;
use oracle::history::{Cut, Event, History, Opening, REQUEST_W12, Tunnels, requests};
use oracle::history_calls::{Story, stories};
use oracle::past_the_rollover::{ROLLOVER, run};
use oracle::program::{Operation, Seen, perform};
use oracle::reading_a_message::SESSION_REQUEST_TYPE;
use oracle::rollover::OLD_SERVER;
use oracle::rules::{Rules, WITH_W11};

/// The server as it is until W11 lands.
const BEFORE_W11: Rules = Rules {
    held: held_is_refused,
    ..WITH_W11
};

/// The first history that breaks a law, and which.
fn broken(rules: &Rules, stories: &[Story]) -> Option<(usize, usize, &'static str)> {
    stories.iter().enumerate().find_map(|(nth, story)| {
        let played = story.play(&mut rules.clone(), &REQUEST_W12);
        played.err().map(|(call, law)| (nth, call, law))
    })
}

/// After every call of every history all laws hold, before W11 and with it.
#[test]
fn every_table_shows_its_history() {
    let stories = stories(120, 500);
    assert_eq!(broken(&BEFORE_W11, &stories), None);
    assert_eq!(broken(&WITH_W11, &stories), None);
}

/// What stands by the events, read backwards: a tunnel stands if nothing ended it after its
/// last opening, and these openings give the order.
fn line_by_events(events: &[Event]) -> Vec<Opening> {
    let mut met: Vec<&[u8]> = Vec::new();
    let mut line: Vec<Opening> = Vec::new();
    for event in events.iter().rev() {
        let session = match event {
            Event::Opened(opening) => &opening.session,
            Event::Cut(session) | Event::Terminated(session) => session,
        };
        if met.contains(&session.as_slice()) {
            continue;
        }
        met.push(session);
        if let Event::Opened(opening) = event {
            line.insert(0, opening.clone());
        }
    }
    line
}

/// The line that is kept from call to call is the one that all events together give, and
/// the counts are those of the events.
#[test]
fn the_fold_is_that_of_all_events() {
    let mut reopened = 0;
    for story in stories(121, 200) {
        let (history, _) = story.play(&mut WITH_W11.clone(), &REQUEST_W12).unwrap();
        for tunnels in history.accounts.values() {
            assert_eq!(tunnels.line, line_by_events(&tunnels.events));
            let total =
                |count: fn(&Event) -> bool| tunnels.events.iter().filter(|e| count(e)).count();
            let counts = || tunnels.counts.values();
            assert_eq!(
                counts().map(|n| n.opened).sum::<usize>(),
                total(|e| matches!(e, Event::Opened(_)))
            );
            assert_eq!(
                counts().map(|n| n.cut).sum::<usize>(),
                total(|e| matches!(e, Event::Cut(_)))
            );
            assert_eq!(
                counts().map(|n| n.terminated).sum::<usize>(),
                total(|e| matches!(e, Event::Terminated(_)))
            );
            reopened += usize::from(opened_again(tunnels));
        }
    }
    assert!(reopened > 50, "{reopened}");
}

/// Whether a Session-Id that stands was opened more than once.
fn opened_again(tunnels: &Tunnels) -> bool {
    let times = |session: &[u8]| {
        let is_it = |e: &&Event| matches!(e, Event::Opened(o) if o.session == session);
        tunnels.events.iter().filter(is_it).count()
    };
    tunnels.line.iter().any(|o| times(&o.session) > 1)
}

/// What of a call has to do with the laws.
fn signs(first: bool, call: &Operation, seen: &Seen) -> Vec<(&'static str, bool)> {
    let number = seen.numbers[0];
    let mut signs = match call {
        Operation::Clear { .. } => vec![("cleared anew", !first)],
        Operation::Enter { .. } => vec![("refused entering", number != 0)],
        Operation::Add { .. } => vec![("refused adding", number != 0)],
        Operation::Burst(_) => vec![
            ("refused burst", number == 18),
            ("burst with two cuts", seen.numbers[4] > 1),
        ],
        _ => vec![("no answer", seen.numbers[1] == 0)],
    };
    for told in requests(call, seen) {
        let (granted, ends) = (told.succeeded(), told.is_termination());
        let opened = told.numbers[3] != 0;
        let asks = told.text(SESSION_REQUEST_TYPE) == [0; 4];
        signs.extend([
            ("opened", opened),
            ("cut", told.numbers[4] != 0),
            ("granted without a place", granted && asks && !opened),
            ("terminated", granted && ends),
            ("refused termination", !granted && ends),
            ("refused opening", !granted && asks),
        ]);
    }
    signs
}

/// The same of a whole history.
fn signs_of_all(history: &History) -> Vec<(&'static str, bool)> {
    let accounts = &history.accounts;
    let shared = |(operator, name): &(u32, Vec<u8>)| {
        let mut others = accounts.keys().filter(|(other, _)| other != operator);
        others.any(|(_, other)| other == name)
    };
    let spelt = |cut: &Cut| cut.first.as_ref().is_some_and(|o| o.label != cut.label);
    vec![
        ("one name of two operators", accounts.keys().any(shared)),
        ("opened again", accounts.values().any(opened_again)),
        ("cut under another spelling", history.cuts.iter().any(spelt)),
    ]
}

/// The histories are of use: each thing that a law speaks of comes up in them.
#[test]
fn histories_tell_of_many_things() {
    let mut met: BTreeMap<&str, usize> = BTreeMap::new();
    let mut meet = |signs: Vec<(&'static str, bool)>| {
        for (what, holds) in signs {
            *met.entry(what).or_default() += usize::from(holds);
        }
    };
    for story in stories(122, 300) {
        let mut table = story.table.clone();
        let mut history = History::default();
        for (place, call) in story.calls.iter().enumerate() {
            let seen = perform(&mut WITH_W11.clone(), call, &mut table);
            meet(signs(place == 0, call, &seen));
            history.follow(&REQUEST_W12, call, &seen);
        }
        meet(signs_of_all(&history));
    }
    assert!(
        met.len() == 15 && met.values().all(|times| *times > 20),
        "{met:#?}"
    );
}

/// Seventy thousand openings on a full table: ours cuts the oldest throughout.
#[test]
fn past_the_rollover_the_oldest_is_cut() {
    let ours = run(&WITH_W11, 0..70_000, 1);
    assert!(ours.cuts > 60_000 && ours.terminations > 3_000, "{ours:?}");
    assert!(ours.not_the_oldest.is_empty() && ours.just_opened.is_empty());
    assert_eq!(ours.broken, None);
}

/// The old rule does so up to the rollover, and not behind it.
#[test]
fn past_the_rollover_the_old_rule_cuts_the_youngest() {
    let old = run(&OLD_SERVER, 58_000..70_000, 1);
    assert!(old.not_the_oldest.iter().all(|&opening| opening > ROLLOVER));
    assert!(
        old.not_the_oldest.len() > 1_000,
        "{}",
        old.not_the_oldest.len()
    );
    assert!(old.just_opened.len() > 1_000);
    assert_eq!(old.broken, None);
}
