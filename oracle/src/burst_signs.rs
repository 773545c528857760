//! What of a burst has to do with its boundaries, its rooms and its numbers (W2), for the
//! report.

use std::collections::BTreeSet;
use std::sync::LazyLock;

use crate::burst::{message_length, whole_messages};
use crate::burst_rounds::{IN_ORDER, SIZES, WORDS};
use crate::forms::NO_FORMS;
use crate::program::{Bursting, Operation, Seen};
use crate::reading_a_message::{SESSION_ID, SESSION_REQUEST_TYPE, number};
use crate::report::readable;
use crate::rules::DOCUMENT_01;
use crate::set_up::{operator_fits, table_fits};
use crate::the_table::Form;

/// What has to come up; of all that could be said of bursts, the report says no more.
pub static WANTED_OF_BURSTS: LazyLock<BTreeSet<String>> = LazyLock::new(wanted);

/// How a burst can end, whose messages were all taken.
const ENDS: [&str; 10] = [
    "0 bytes left",
    "1 bytes left",
    "2 bytes left",
    "3 bytes left",
    "4 bytes left",
    "a header of 0",
    "a header of 19",
    "a header of one byte more than is left",
    "a header past the end by its first byte",
    "a whole message behind a bad boundary",
];

/// What else has to come up.
const OTHERS: [&str; 14] = [
    "no messages",
    "12 messages",
    "a room of 65,536 for answers",
    "a room of 6,144 for notices",
    "two notices",
    "a notice behind a message without one",
    "as many words as messages: number 0",
    "a word more: number 0",
    "a word too few: number 18",
    "as many places as messages: number 0",
    "a place more: number 0",
    "a place too few: number 18",
    "no room for the first message: number 18",
    "fewer words than messages behind a bad boundary: number 0",
];

fn wanted() -> BTreeSet<String> {
    let mut all: Vec<String> = [&ENDS[..], &OTHERS]
        .concat()
        .into_iter()
        .map(str::to_string)
        .collect();
    for (place, first) in IN_ORDER.into_iter().enumerate() {
        let behind = IN_ORDER[place + 1..].iter();
        all.extend(behind.map(|second| beside_key(first, *second)));
    }
    for form in NO_FORMS {
        all.push(format!("form {form}: number 1"));
    }
    for name in ["host", "realm"] {
        let lengths = [(0, 2), (1, 0), (128, 0), (129, 2)];
        all.extend(lengths.map(|(length, number)| name_key(name, length, number)));
    }
    for form in [Form::One, Form::Two] {
        for which in [false, true] {
            all.extend([0, 1].map(|short| room_key(form, which, "the first message", short)));
            all.extend([0, 1].map(|short| room_key(form, which, "a later message", short)));
        }
    }
    all.extend(SIZES.map(size_key));
    for number in 5..=8 {
        all.push(format!("a result of {number}, and one behind it"));
        all.push(format!("no room for a message of {number}"));
    }
    all.extend(WORDS.map(|word| word_key(word, word != 0)));
    all.into_iter()
        .map(|sign| format!("burst, {sign}"))
        .collect()
}

fn beside_key(first: u16, second: u16) -> String {
    format!("{first} beside {second}")
}

fn name_key(name: &str, length: usize, number: u32) -> String {
    format!("{name} of {length}: number {number}")
}

/// The room is just enough for this message, or a byte short.
fn room_key(form: Form, of_notices: bool, message: &str, short: usize) -> String {
    let what = if of_notices { "notices" } else { "answers" };
    let left = if of_notices { form.notice() } else { 5_120 };
    format!(
        "form {}, {} bytes for {what} before {message}",
        form.number(),
        left - short
    )
}

fn size_key(size: usize) -> String {
    format!("a message of {size} bytes, and one behind it")
}

/// A policy is granted or refused by its own word.
fn word_key(word: u8, granted: bool) -> String {
    let came = if granted { "granted" } else { "refused" };
    format!("word {word}, a policy {came}")
}

pub fn signs_of_bursts(operation: &Operation, table: &[u8], seen: &Seen) -> Vec<String> {
    let Operation::Burst(asked) = operation else {
        return Vec::new();
    };
    let mut signs = signs_of_numbers(asked, table, seen.numbers[0]);
    if let Some(form) = Form::numbered(asked.form).filter(|_| seen.numbers[0] == 0) {
        signs.extend(sign_of_end(asked, seen));
        signs.extend(signs_of_rooms(form, asked, seen));
        signs.extend(signs_of_messages(asked, seen));
    }
    let mut signs: Vec<String> = signs
        .into_iter()
        .map(|sign| format!("burst, {sign}"))
        .collect();
    signs.retain(|sign| WANTED_OF_BURSTS.contains(sign));
    signs
}

fn these(signs: &[(bool, &str)]) -> Vec<String> {
    let there = signs.iter().filter(|(is_so, _)| *is_so);
    there.map(|(_, sign)| sign.to_string()).collect()
}

/// Which number was given, what is at its limit, and which number holds beside it.
fn signs_of_numbers(asked: &Bursting, table: &[u8], given: u32) -> Vec<String> {
    let whole = whole_messages(&DOCUMENT_01, &asked.messages).len();
    let form = Form::numbered(asked.form);
    let fits = |name: &[u8]| (1..=128).contains(&name.len());
    let holds = |number: u16| match number {
        1 => !form.is_some_and(|form| table_fits(form, table)),
        33 => !operator_fits(asked.operator),
        2 => !fits(&asked.host) || !fits(&asked.realm),
        _ => asked.wags.len() < whole || asked.places < whole,
    };
    let mut signs = Vec::new();
    for second in IN_ORDER
        .into_iter()
        .filter(|number| u32::from(*number) != given)
    {
        if given != 0 && holds(second) {
            signs.push(beside_key(given as u16, second));
        }
    }
    let with = |sign: String| format!("{sign}: number {given}");
    signs.push(with(format!("form {}", asked.form)));
    signs.push(name_key("host", asked.host.len(), given));
    signs.push(name_key("realm", asked.realm.len(), given));
    let (words, places) = (asked.wags.len(), asked.places);
    let lent = these(&[
        (words == whole, "as many words as messages"),
        (words == whole + 1, "a word more"),
        (words + 1 == whole && places >= whole, "a word too few"),
        (places == whole, "as many places as messages"),
        (places == whole + 1, "a place more"),
        (places + 1 == whole && words >= whole, "a place too few"),
        (
            asked.answer_room.length < 5_120,
            "no room for the first message",
        ),
        (
            words < any_boundary(asked),
            "fewer words than messages behind a bad boundary",
        ),
    ]);
    signs.extend(lent.into_iter().map(with));
    signs
}

/// How many messages there would be, if those behind one bad boundary of 20 bytes counted.
fn any_boundary(asked: &Bursting) -> usize {
    let whole = whole_messages(&DOCUMENT_01, &asked.messages);
    let taken: usize = whole.iter().map(|message| message.len()).sum();
    let behind = asked.messages.get(taken + 20..).unwrap_or_default();
    whole.len() + whole_messages(&DOCUMENT_01, behind).len()
}

/// What stands behind the messages, where all of them were taken.
fn sign_of_end(asked: &Bursting, seen: &Seen) -> Vec<String> {
    let rest = &asked.messages[seen.numbers[2] as usize..];
    if message_length(rest).is_some() {
        return Vec::new();
    }
    let mut signs = vec![format!("{} bytes left", rest.len())];
    if let Some(three) = rest.get(1..4) {
        let said = number(three) as usize;
        signs.extend(these(&[
            (said == 0, "a header of 0"),
            (said == 19, "a header of 19"),
            (
                said == rest.len() + 1,
                "a header of one byte more than is left",
            ),
            (
                said & 0xFFFF <= rest.len() && said & 0xFFFF >= 20,
                "a header past the end by its first byte",
            ),
            (
                rest.get(20..).and_then(message_length).is_some(),
                "a whole message behind a bad boundary",
            ),
        ]));
    }
    signs
}

/// How much was left of the rooms before each message, where it was just enough or a byte
/// short of it.
fn signs_of_rooms(form: Form, asked: &Bursting, seen: &Seen) -> Vec<String> {
    let mut signs = these(&[
        (
            asked.answer_room.length == 65_536,
            "a room of 65,536 for answers",
        ),
        (
            asked.notice_room.length == 6_144,
            "a room of 6,144 for notices",
        ),
    ]);
    let taken = seen.numbers[1] as usize;
    let mut left = [asked.answer_room.length, asked.notice_room.length].map(|n| n as usize);
    let whole = whole_messages(&DOCUMENT_01, &asked.messages);
    for (place, message) in whole.iter().enumerate().take(taken + 1) {
        let which = if place == 0 {
            "the first message"
        } else {
            "a later message"
        };
        let least = [5_120, form.notice()];
        for (of_notices, (left, least)) in left.into_iter().zip(least).enumerate() {
            for short in [0, 1] {
                // Just enough is told of a message that was taken, a byte less of the stop.
                if left + short == least && (place == taken) == (short == 1) {
                    signs.push(room_key(form, of_notices == 1, which, short));
                }
            }
        }
        if place < taken {
            left[0] -= seen.results[place][2] as usize;
            left[1] -= seen.results[place][4] as usize * form.notice();
        } else {
            signs.push(format!(
                "no room for a message of {}",
                number_alone(message)
            ));
        }
    }
    signs
}

/// The number from 5 to 8 that a message gets.
fn number_alone(message: &[u8]) -> u16 {
    match crate::handling::frame_number(message) {
        0 if message[4] & 0x80 == 0 => 8,
        number => number,
    }
}

/// The messages that were taken, and what came of them.
fn signs_of_messages(asked: &Bursting, seen: &Seen) -> Vec<String> {
    let taken = seen.numbers[1] as usize;
    let whole = whole_messages(&DOCUMENT_01, &asked.messages);
    let results = &seen.results[..taken];
    let cuts: Vec<usize> = (0..taken).filter(|&i| results[i][4] == 1).collect();
    let mut signs = these(&[
        (asked.messages.is_empty(), "no messages"),
        (taken == 12, "12 messages"),
        (cuts.len() > 1, "two notices"),
        (
            cuts.first().is_some_and(|&first| first > 0),
            "a notice behind a message without one",
        ),
    ]);
    for (place, message) in whole.iter().enumerate().take(taken) {
        let [code, kind, ..] = results[place];
        let is_last = place + 1 == taken;
        if !is_last {
            signs.push(size_key(message.len()));
        }
        if kind == 0 && !is_last {
            signs.push(format!("a result of {code}, and one behind it"));
        }
        if place > 0 && opened_before(&whole, results, place) {
            signs.push(word_key(asked.wags[place], code == 2001));
        }
    }
    signs
}

/// A policy for the access that the message before it opened: its word alone decides.
fn opened_before(whole: &[&[u8]], results: &[[u32; 8]], place: usize) -> bool {
    let sort = |message: &[u8]| readable(message, SESSION_REQUEST_TYPE).map(number);
    let (before, message) = (whole[place - 1], whole[place]);
    sort(before) == Some(0)
        && sort(message) == Some(1)
        && readable(before, SESSION_ID) == readable(message, SESSION_ID)
        && results[place - 1][0] == 2001
        && [2001, 5012].contains(&results[place][0])
}
