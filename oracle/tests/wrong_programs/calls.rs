//! Wrong programs that differ in the calls as a whole or in set-up.

use oracle::handling::{Call, handle, no_answer};
use oracle::reading_a_message::*;
use oracle::rules::Rules;
use oracle::set_up::{NewEntry, add, form_lent, may_add, name_fits};
use oracle::the_table::*;
use oracle::writing_the_answer::*;
use oracle::{Code, Outcome, SUCCESS, plain};

use crate::{RIGHT, Wrong};

/// Handles a call rightly, but on a copy of the table, so that nothing is written.
fn on_a_copy(rules: &Rules, call: Call) -> Outcome {
    let mut copy = call.table.to_vec();
    handle(
        rules,
        Call {
            table: &mut copy,
            ..call
        },
    )
}

/// Every request that gets an answer gets the same code, and nothing is done.
pub fn same_code_for_all(rules: &Rules, call: Call, code: Code) -> Outcome {
    let number = no_answer(rules, &call);
    let Some(header) = header(call.message).filter(|_| number == 0) else {
        return Outcome::no_answer(number);
    };
    let reply = Reply {
        message: call.message,
        header,
        reached: Reached::Decision,
        avps: &walk(rules, call.message).unwrap_or_default(),
        request: &Request::default(),
        code,
        host: call.host,
        realm: call.realm,
    };
    let bytes = answer(rules, &reply);
    put(call.answer_room, 0, &bytes);
    Outcome {
        code,
        length: bytes.len(),
        place: 0,
        cut: None,
    }
}

/// Handles a call rightly and then changes the outcome.
pub fn then(rules: &Rules, call: Call, change: impl Fn(&mut Outcome)) -> Outcome {
    let mut outcome = handle(rules, call);
    change(&mut outcome);
    outcome
}

/// Handles a call rightly and then changes the answer that was written.
pub fn rewritten(rules: &Rules, call: Call, change: fn(&mut [u8])) -> Outcome {
    let room = call.answer_room;
    let outcome = handle(
        rules,
        Call {
            answer_room: &mut *room,
            ..call
        },
    );
    change(&mut room[..outcome.length]);
    outcome
}

/// How long a notice room has to be, by the form that is said.
fn least_notice(call: &Call) -> usize {
    Form::numbered(call.form).map_or(0, Form::notice)
}

pub fn programs() -> Vec<Wrong> {
    let mut all = wrong! {
        "answers 5012 to all": handle = |r, call| same_code_for_all(r, call, plain(5012));
        "answers 2001 to all": handle = |r, call| same_code_for_all(r, call, SUCCESS);
        "never writes the row": handle = on_a_copy;
        "invents an answer length": handle = |r, call| then(r, call, |o| {
            if o.length > 0 { o.length = 5_120 }
        });
        "answer length without the header": handle = |r, call| then(r, call, |o| {
            o.length = o.length.saturating_sub(20)
        });
        "no lengths of the cut texts": handle = |r, call| then(r, call, |o| {
            o.cut = o.cut.map(|_| [0; 3])
        });
        "takes every failure for a Result-Code": handle = |r, call| then(r, call, |o| {
            if let Code::Experimental(n) = o.code { o.code = plain(n) }
        });
        "takes a table of any number of rows": table_fits = |form, t| {
            !t.is_empty() && t.len().is_multiple_of(form.row())
        };
        "takes an empty table": table_fits = |form, t| {
            t.len().is_multiple_of(form.row()) && t.len() <= MOST_ROWS * form.row()
        };
        "takes a table with a rest": table_fits = |form, t| {
            (1..=MOST_ROWS).contains(&(t.len() / form.row()))
        };
        "takes at most 1,023 rows": table_fits = |form, t| {
            t.len().is_multiple_of(form.row()) && (1..MOST_ROWS).contains(&(t.len() / form.row()))
        };
        "tests the rooms before the names": no_answer = |r, call| {
            match no_answer(r, call) {
                2 if call.answer_room.len() < 5_120 => 3,
                number => number,
            }
        };
        "tests the notice room before the answer room": no_answer = |r, call| {
            match no_answer(r, call) {
                3 if call.notice_room.len() < least_notice(call) => 4,
                number => number,
            }
        };
        "looks for R before the length": no_answer = |r, call| match no_answer(r, call) {
            7 if call.message[4] & REQUEST == 0 => 8,
            number => number,
        };
        "rooms have to be larger": no_answer = |r, call| match no_answer(r, call) {
            0 if call.answer_room.len() == 5_120 => 3,
            0 if call.notice_room.len() == least_notice(call) => 4,
            number => number,
        };
        "does not limit own names": no_answer = |r, call| match no_answer(r, call) {
            2 if call.host.len().min(call.realm.len()) > 0 => 0,
            number => number,
        };
        "needs a notice room only for a cut": no_answer = |r, call| match no_answer(r, call) {
            4 => 0,
            number => number,
        };
    };
    all.extend(wrong! {
        "clears row by row only what is used": clear = |r, said, table| {
            let Some(form) = form_lent(r, said, table) else { return 1 };
            table.chunks_mut(form.row()).filter(|row| row[0] == 1).for_each(|row| row.fill(0));
            0
        };
        "a row is free if its first byte is zero": row_is_free = |row| row[0] == 0;
        "enters a name that an unsound row holds": enter = |r, said, table, new| {
            let form = form_lent(r, said, table);
            let held = form.and_then(|form| (r.find)(r, form, table, new.operator, new.name).map(|i| (form, i)));
            let free = held.is_some_and(|(form, i)| sound(r, form, row_at(form, table, i)).is_none());
            let other = Rules { find: |_, _, _, _, _| None, ..RIGHT };
            let rules = if free { &other } else { &RIGHT };
            (RIGHT.enter)(rules, said, table, new)
        };
        "enters names of any characters": enter = |_, said, table, new| {
            match (RIGHT.enter)(&RIGHT, said, table, new) {
                9 if (1..=15).contains(&new.name.len()) => 11,
                number => number,
            }
        };
        "tests the name on adding a W-APN": add = |r, said, table, of, new| {
            match add(r, said, table, of, new) { 12 if !name_fits(of.name) => 9, number => number }
        };
        "tests the new entry before the row": add = |r, said, table, of, new| {
            let bad = may_add(&Row::default(), new) == 14;
            match add(r, said, table, of, new) { 12 | 13 if bad => 14, number => number }
        };
        "tests the sum before the count": may_add = |row, new| match may_add(row, new) {
            16 if limit_sum(row) + u32::from(new.limit) > 8 => 17,
            number => number,
        };
        "tests the count before the label": may_add = |row, new| match may_add(row, new) {
            15 if row.entries.len() == 4 => 16,
            number => number,
        };
        "allows limits that sum to nine": may_add = |row, new| match may_add(row, new) {
            17 if limit_sum(row) + u32::from(new.limit) == 9 => 0,
            number => number,
        };
        "adds only the flags it knows": may_add = |row, new| match may_add(row, new) {
            14 if new.flags > 3 => may_add(row, &NewEntry { flags: 0, ..*new }),
            number => number,
        };
    });
    all
}
