//! Readers of calls and results that take one thing otherwise: histories of the right server
//! tell each of them apart.

use oracle::history::{
    Event, HistoryRules, Opening, REQUEST_W12 as RIGHT, Told, Tunnels, requests,
};
use oracle::history_calls::stories;
use oracle::program::Operation;
use oracle::reading_a_message::{SESSION_REQUEST_TYPE, USER_NAME, W_APN};
use oracle::rules::WITH_W11;

type Wrong = (&'static str, HistoryRules);

macro_rules! wrong {
    ($($name:literal: $field:ident = $value:expr;)+) => {
        vec![$(($name, HistoryRules { $field: $value, ..RIGHT })),+]
    };
}

fn asks_to_open(told: &Told) -> bool {
    !told.is_termination() && told.text(SESSION_REQUEST_TYPE) == [0; 4]
}

/// Where a Session-Id was opened first, if it was before.
fn first_opening(tunnels: &Tunnels, session: &[u8]) -> usize {
    let is_it = |event: &Event| matches!(event, Event::Opened(o) if o.session == session);
    let first = tunnels.events.iter().position(is_it);
    first.unwrap_or(tunnels.events.len())
}

fn keeps_its_place(tunnels: &mut Tunnels, opening: Opening) {
    let own = first_opening(tunnels, &opening.session);
    let later = |o: &Opening| first_opening(tunnels, &o.session) > own;
    let place = tunnels.line.iter().position(later);
    let end = tunnels.line.len();
    tunnels.line.insert(place.unwrap_or(end), opening);
}

fn head_label(tunnels: &Tunnels) -> Vec<u8> {
    let head = tunnels.line.first();
    head.map(|o| o.label.clone()).unwrap_or_default()
}

/// A burst's requests, the notices dealt out message by message.
fn a_notice_for_each<'a>(told: &mut [Told<'a>], room: &'a [u8], slot: usize) {
    let mut notices = room.chunks(slot);
    for told in told {
        told.notice = notices.next().unwrap_or_default();
    }
}

fn readers() -> Vec<Wrong> {
    wrong! {
        "an access that is opened again keeps its place": stand = keeps_its_place;
        "a new access stands at the front": stand = |tunnels, o| tunnels.line.insert(0, o);
        "cuts count under the label of the line's head": cut_label = |t, _| head_label(t);
        "cuts do not count under a label": cut_label = |_, _| Vec::new();
        "terminations count under the label of the line's head": ended_label = |t, _| head_label(t);
        "a refused termination counts": terminates = |told| told.is_termination();
        "any success is a termination": terminates = |told| told.succeeded();
        "no termination counts": terminates = |_| false;
        "labels count by their bytes": counts_as = |label| label.to_vec();
        "all labels count as one but for their first letter": counts_as = |label| label[..1].to_vec();
        "openings count under the label without its last byte": opened_label = |told| {
            let label = told.text(W_APN);
            label[..label.len().max(1) - 1].to_vec()
        };
        "W11's success counts as an opening": opens = |told| asks_to_open(told) && told.succeeded();
        "a refused opening counts": opens = |told| asks_to_open(told) && told.numbers[1] != 0;
        "any success but a termination opens": opens = |told| {
            told.succeeded() && !told.is_termination()
        };
        "only an opening with a cut counts": opens = |told| told.numbers[4] != 0;
        "accounts go by their name alone": who = |told| (0, told.text(USER_NAME).to_vec());
        "accounts go by their operator alone": who = |told| (told.operator, Vec::new());
        "clearing does not start again": starts_again = |_, _| false;
        "entering starts again": starts_again = |call, seen| {
            matches!(call, Operation::Clear { .. } | Operation::Enter { .. }) && seen.numbers[0] == 0
        };
        "a burst counts as nothing": requests = |call, seen| match call {
            Operation::Burst(_) => Vec::new(),
            _ => requests(call, seen),
        };
        "a burst counts by its first message": requests = |call, seen| {
            requests(call, seen).into_iter().take(1).collect()
        };
        "a burst's notices go by messages, not by cuts": requests = |call, seen| {
            let mut all = requests(call, seen);
            if let Operation::Burst(asked) = call {
                let slot = if asked.form == 1 { 256 } else { 384 };
                a_notice_for_each(&mut all, &seen.notice_room, slot);
            }
            all
        };
        "a burst's notices of form 2 are read as those of form 1": requests = |call, seen| {
            let mut all = requests(call, seen);
            if let Operation::Burst(_) = call {
                let mut notices = seen.notice_room.chunks(256);
                let cuts = all.iter_mut().filter(|told| told.numbers[4] != 0);
                cuts.for_each(|told| told.notice = notices.next().unwrap_or_default());
            }
            all
        };
        "a request alone counts as nothing": requests = |call, seen| match call {
            Operation::Handle(_) => Vec::new(),
            _ => requests(call, seen),
        };
    }
}

#[test]
fn every_wrong_reader_is_told_apart() {
    let stories = stories(123, 300);
    let breaks = |rules: &HistoryRules| {
        let played =
            |story: &oracle::history_calls::Story| story.play(&mut WITH_W11.clone(), rules);
        stories.iter().any(|story| played(story).is_err())
    };
    assert!(!breaks(&RIGHT));
    let readers = readers();
    let unnoticed = readers.iter().filter(|(_, rules)| !breaks(rules));
    let unnoticed: Vec<&str> = unnoticed.map(|(name, _)| *name).collect();
    assert!(unnoticed.is_empty(), "not told apart: {unnoticed:#?}");
}
