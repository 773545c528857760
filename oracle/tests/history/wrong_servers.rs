//! Servers that do one thing otherwise, the one before this among them: the laws of a history
//! do not hold on their tables.

use oracle::deciding::{held_stands, take_policy, terminate};
use oracle::handling::{Call, handle};
use oracle::history::REQUEST_W12;
use oracle::history_calls::stories;
use oracle::reading_a_message::{HEADER, SESSION_ID, walk_tests};
use oracle::rollover::OLD_SERVER;
use oracle::rules::{Rules, WITH_W11 as RIGHT};
use oracle::set_up::clear;
use oracle::the_table::{Form, Row, bears, decode, rows, store};
use oracle::writing_the_answer::notice;
use oracle::{Outcome, SUCCESS};

type Wrong = (&'static str, Rules);

macro_rules! wrong {
    ($($name:literal: $field:ident = $value:expr;)+) => {
        vec![$(($name, Rules { $field: $value, ..RIGHT })),+]
    };
}

fn on(row: &Row, entry: u8) -> impl Iterator<Item = u8> {
    let on_it = move |place: &u8| row.access(*place).is_some_and(|a| a.entry == entry);
    row.line.iter().copied().filter(on_it)
}

/// Moves a place to the end of the line.
fn last(row: &mut Row, place: u8) {
    row.line.retain(|other| *other != place);
    row.line.push(place);
}

/// Handles a request, and where it was granted without a place lets the tunnel that stands
/// go to the end of its line.
fn stands_anew(rules: &Rules, call: Call) -> Outcome {
    let (form, message) = (Form::numbered(call.form), call.message);
    let table = call.table;
    let outcome = handle(
        rules,
        Call {
            table: &mut *table,
            ..call
        },
    );
    let first = walk_tests(message.get(HEADER..).unwrap_or_default());
    let (Some(form), Ok(first)) = (form, first) else {
        return outcome;
    };
    if (outcome.code, outcome.place) != (SUCCESS, 0) || first.code != SESSION_ID.code {
        return outcome;
    }
    for index in 0..table.len() / form.row() {
        let row = decode(form, &table[index * form.row()..][..form.row()]);
        if let Some(mut row) = row.filter(|row| row.place_of(first.value).is_some()) {
            let place = row.place_of(first.value).unwrap_or(1);
            last(&mut row, place);
            store(rules, form, table, index, &row);
        }
    }
    outcome
}

fn servers() -> Vec<Wrong> {
    wrong! {
        "numbers tunnels with 16 bits and cuts the lowest": place_to_cut = OLD_SERVER.place_to_cut;
        "cuts the lowest place": place_to_cut = |row, entry| on(row, entry).min();
        "cuts the highest place": place_to_cut = |row, entry| on(row, entry).max();
        "cuts the one opened last": place_to_cut = |row, entry| on(row, entry).last();
        "cuts the second on the line, if there is one": place_to_cut = |row, entry| {
            on(row, entry).nth(1).or(on(row, entry).next())
        };
        "cuts the line's head, whatever its name": place_to_cut = |row, _| row.line.first().copied();
        "cuts nothing": at_limit = |_, _| false;
        "cuts one over the limit": at_limit = |row, entry| {
            row.open_on(entry) > row.entry(entry).map_or(0, |e| usize::from(e.limit))
        };
        "keeps the line by places": store = |rules, form, table, index, row| {
            let mut row = row.clone();
            row.line.sort_unstable();
            store(rules, form, table, index, &row);
        };
        "puts a new one before the last": store = |rules, form, table, index, row| {
            let mut row = row.clone();
            if let Some(last) = row.line.len().checked_sub(2) { row.line.swap(last, last + 1) }
            store(rules, form, table, index, &row);
        };
        "does not write a row with three tunnels": store = |rules, form, table, index, row| {
            if row.line.len() != 3 { store(rules, form, table, index, row) }
        };
        "closes the line up with the last one": terminate = |row, request| {
            let place = row.place_of(request.text(SESSION_ID));
            let at = row.line.iter().position(|p| Some(*p) == place);
            let end = row.line.len().max(1) - 1;
            terminate(row, request)?;
            if let Some(at) = at.filter(|at| *at < end) { row.line[at..].rotate_right(1) }
            Ok(())
        };
        "terminates under any label": terminate = |row, request| {
            match row.place_of(request.text(SESSION_ID)) {
                Some(place) => { row.free(place); Ok(()) }
                None => terminate(row, request),
            }
        };
        "a termination that is granted ends nothing": terminate = |row, request| {
            terminate(&mut row.clone(), request)
        };
        "a policy makes a tunnel young": take_policy = |row, request, wag| {
            take_policy(row, request, wag)?;
            let place = row.place_of(request.text(SESSION_ID));
            if let Some(place) = place { last(row, place) }
            Ok(())
        };
        "W11's success makes a tunnel young": handle = stands_anew;
        "opens a held session once more": held = |_, _, _| Ok(false);
        "takes a session held on another label for held": held = |row, entry, request| {
            Ok(held_stands(row, entry, request).unwrap_or(false))
        };
        "goes by the name alone": find = |_, form, table, _, name| {
            rows(form, table).position(|row| bears(row, name))
        };
        "does not tell of a cut": handle = |rules, call| {
            Outcome { cut: None, ..handle(rules, call) }
        };
        "tells no place where it cuts": handle = |rules, call| {
            let outcome = handle(rules, call);
            let place = if outcome.cut.is_some() { 0 } else { outcome.place };
            Outcome { place, ..outcome }
        };
        "tells a place for any success": handle = |rules, call| {
            let outcome = handle(rules, call);
            let place = if outcome.code == SUCCESS { outcome.place.max(1) } else { 0 };
            Outcome { place, ..outcome }
        };
        "its notice lacks the last byte": notice = |form, room, access| {
            let mut access = access.clone();
            access.session.pop();
            notice(form, room, &access);
        };
        "its notice tells of another gateway": notice = |form, room, access| {
            let mut access = access.clone();
            access.host.reverse();
            notice(form, room, &access);
        };
        "clears all but the last byte": clear = |rules, said, table| {
            let last = table.last().copied();
            let number = clear(rules, said, table);
            if let (Some(byte), Some(last)) = (table.last_mut(), last) { *byte = last }
            number
        };
    }
}

#[test]
fn every_wrong_server_is_told_apart() {
    let stories = stories(124, 300);
    let breaks = |rules: &Rules| {
        let mut played = stories
            .iter()
            .map(|s| s.play(&mut rules.clone(), &REQUEST_W12));
        played.any(|played| played.is_err())
    };
    assert!(!breaks(&RIGHT));
    let servers = servers();
    let unnoticed = servers.iter().filter(|(_, rules)| !breaks(rules));
    let unnoticed: Vec<&str> = unnoticed.map(|(name, _)| *name).collect();
    assert!(unnoticed.is_empty(), "not told apart: {unnoticed:#?}");
}
