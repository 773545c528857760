//! Wrong programs of a burst (W2). Each handles a message that comes alone rightly.

use oracle::burst::*;
use oracle::reading_a_message::number;
use oracle::rules::Rules;
use oracle::the_table::*;
use oracle::{Outcome, SUCCESS};

use crate::{RIGHT, Wrong};

pub fn programs() -> Vec<Wrong> {
    [
        boundaries(),
        stops(),
        numbers(),
        refusals(),
        messages(),
        wags(),
        rooms(),
        results(),
        counts(),
    ]
    .concat()
}

// ---- Boundaries and stops ---------------------------------------------------------

/// What the header at the front says, if there are so many bytes.
fn said(rest: &[u8]) -> Option<usize> {
    rest.get(1..4).map(|bytes| number(bytes) as usize)
}

fn boundaries() -> Vec<Wrong> {
    wrong! {
        "asks for version 1 at a boundary": message_length = |rest| {
            message_length(rest).filter(|_| rest[0] == 1)
        };
        "asks for R at a boundary": message_length = |rest| {
            message_length(rest).filter(|_| rest[4] & 0x80 != 0)
        };
        "wants a length that is a multiple of 4": message_length = |rest| {
            message_length(rest).filter(|length| length % 4 == 0)
        };
        "wants a length of at most 4,096": message_length = |rest| {
            message_length(rest).filter(|length| *length <= 4_096)
        };
        "starts the next message at a multiple of 4": message_length = |rest| {
            message_length(rest).map(|length| length.next_multiple_of(4).min(rest.len()))
        };
        "takes a header length of 19": message_length = |rest| {
            said(rest).filter(|length| (19..=rest.len()).contains(length))
        };
        "takes any header length but 0": message_length = |rest| {
            said(rest).filter(|length| (1..=rest.len()).contains(length))
        };
        "wants more than a header": message_length = |rest| {
            message_length(rest).filter(|length| *length > 20)
        };
        "steps over a header of less than 20": message_length = |rest| {
            let least = said(rest)?.max(20);
            (least <= rest.len()).then_some(least)
        };
        "takes what is left of a message that is cut off": message_length = |rest| {
            said(rest).filter(|length| *length >= 20).map(|length| length.min(rest.len()))
        };
        "takes a message of which one byte is missing": message_length = |rest| {
            let length = said(rest).filter(|length| (20..=rest.len() + 1).contains(length))?;
            Some(length.min(rest.len()))
        };
        "does not take a message that ends with the burst": message_length = |rest| {
            message_length(rest).filter(|length| *length < rest.len())
        };
        "takes up to 3 bytes that are left": message_length = |rest| match rest.len() {
            1..4 => Some(rest.len()),
            _ => message_length(rest),
        };
        "takes a tail as a message": message_length = |rest| {
            message_length(rest).or((!rest.is_empty()).then_some(rest.len()))
        };
        "reads two bytes of the length": message_length = |rest| {
            let length = number(rest.get(2..4)?) as usize;
            (20..=rest.len()).contains(&length).then_some(length)
        };
        "reads the version as part of the length": message_length = |rest| {
            let length = number(rest.get(..4)?) as usize;
            (20..=rest.len()).contains(&length).then_some(length)
        };
    }
}

/// The burst that ends before, or behind, the first message of this sort; its refusals
/// are the right ones.
fn until(rules: &Rules, lent: &mut Burst, with: bool, sort: fn(&[u8]) -> bool) -> Taken {
    if burst_number(rules, lent) != 0 {
        return burst(rules, lent);
    }
    let all = lent.messages;
    let mut end = 0;
    for message in whole_messages(rules, all) {
        if sort(message) {
            end += if with { message.len() } else { 0 };
            lent.messages = &all[..end];
            break;
        }
        end += message.len();
    }
    burst(rules, lent)
}

/// The number from 5 to 8 that a message gets, else 0.
fn bad(message: &[u8]) -> u16 {
    if message.len() > 4_096 {
        5
    } else if message[0] != 1 {
        6
    } else if !message.len().is_multiple_of(4) {
        7
    } else if message[4] < 0x80 {
        8
    } else {
        0
    }
}

fn stops() -> Vec<Wrong> {
    wrong! {
        "stops at a message of number 5": burst = |r, b| until(r, b, false, |m| bad(m) == 5);
        "stops at a message of number 6": burst = |r, b| until(r, b, false, |m| bad(m) == 6);
        "stops at a message of number 7": burst = |r, b| until(r, b, false, |m| bad(m) == 7);
        "stops at a message of number 8": burst = |r, b| until(r, b, false, |m| bad(m) == 8);
        "stops behind a message of number 6": burst = |r, b| until(r, b, true, |m| bad(m) == 6);
        "stops behind a message without answer": burst = |r, b| until(r, b, true, |m| bad(m) != 0);
        "takes eight messages at most": burst = |r, b| {
            let whole = whole_messages(r, b.messages);
            let end = whole.iter().take(8).map(|message| message.len()).sum();
            if burst_number(r, b) == 0 { b.messages = &b.messages[..end] }
            burst(r, b)
        };
        "takes answer rooms of 5,119 bytes": room_for_one = |form, answers, notices| {
            answers >= 5_119 && notices >= form.notice()
        };
        "wants 5,121 bytes for an answer": room_for_one = |form, answers, notices| {
            answers > 5_120 && notices >= form.notice()
        };
        "takes notice rooms of 255 and 383 bytes": room_for_one = |form, answers, notices| {
            answers >= 5_120 && notices >= form.notice() - 1
        };
        "wants 257 and 385 bytes for a notice": room_for_one = |form, answers, notices| {
            answers >= 5_120 && notices > form.notice()
        };
        "256 bytes for a notice in form 2": room_for_one = |_, answers, notices| {
            answers >= 5_120 && notices >= 256
        };
        "384 bytes for a notice in form 1": room_for_one = |_, answers, notices| {
            answers >= 5_120 && notices >= 384
        };
        "does not ask for room for answers": room_for_one = |form, _, notices| notices >= form.notice();
        "does not ask for room for notices": room_for_one = |_, answers, _| answers >= 5_120;
        "one room will do": room_for_one = |form, answers, notices| {
            answers >= 5_120 || notices >= form.notice()
        };
        "takes any room that is not used up": room_for_one = |_, answers, notices| {
            answers > 0 && notices > 0
        };
        "asks for no room before a message of number 5 to 8": burst = no_room_for_bad;
        "asks for room before the first message alone": burst = |r, lent| {
            let first = RIGHT.room_for_one;
            let form = Form::numbered(lent.form).unwrap_or(Form::One);
            if !first(form, lent.answer_room.len(), lent.notice_room.len()) {
                return burst(r, lent);
            }
            burst(&Rules { room_for_one: |_, _, _| true, ..*r }, lent)
        };
        "takes all or nothing": burst = |r, lent| {
            let whole = whole_messages(r, lent.messages);
            let form = Form::numbered(lent.form).unwrap_or(Form::One);
            let fits = lent.answer_room.len() >= 5_120 * whole.len()
                && lent.notice_room.len() >= form.notice() * whole.len();
            if !fits && burst_number(r, lent) == 0 { lent.messages = &[] }
            burst(r, lent)
        };
    }
}

/// Takes messages of number 5 to 8 whatever is left of the rooms.
fn no_room_for_bad(rules: &Rules, lent: &mut Burst) -> Taken {
    let mut taken = Taken {
        number: burst_number(rules, lent),
        ..Taken::default()
    };
    let Some(form) = Form::numbered(lent.form).filter(|_| taken.number == 0) else {
        return taken;
    };
    for message in whole_messages(rules, lent.messages) {
        let answers = lent.answer_room.len() - taken.answers;
        let notices = lent.notice_room.len() - taken.notices * form.notice();
        if room_for_one(form, answers, notices) {
            take(rules, form, lent, &mut taken, message);
        } else if bad(message) != 0 {
            lent.results[taken.messages] = Outcome::no_answer(bad(message)).numbers();
            taken.messages += 1;
            taken.bytes += message.len();
        } else {
            break;
        }
    }
    taken
}

// ---- Numbers ----------------------------------------------------------------------

/// The first number of this order that holds of a burst.
fn in_order(rules: &Rules, lent: &Burst, order: [u16; 4]) -> u16 {
    let form = Form::numbered(lent.form).filter(|form| (rules.table_fits)(*form, lent.table));
    let fits = |name: &[u8]| (1..=128).contains(&name.len());
    let holds = |number: &u16| match number {
        1 => form.is_none(),
        33 => lent.operator > 15,
        2 => !fits(lent.host) || !fits(lent.realm),
        _ => few(rules, lent, |whole| whole),
    };
    order.into_iter().find(holds).unwrap_or(0)
}

/// Whether fewer WAG bytes or places are lent than this makes of the whole messages.
fn few(rules: &Rules, lent: &Burst, count: fn(usize) -> usize) -> bool {
    let count = count(whole_messages(rules, lent.messages).len());
    lent.wags.len() < count || lent.results.len() < count
}

/// The right number, but with 18 given where this holds.
fn with_18(rules: &Rules, lent: &Burst, holds: bool) -> u16 {
    match burst_number(rules, lent) {
        0 | 18 if holds => 18,
        18 => 0,
        number => number,
    }
}

/// How many messages the rooms would take.
fn rooms_allow(rules: &Rules, lent: &Burst) -> usize {
    let (mut table, count) = (lent.table.to_vec(), lent.messages.len());
    let (mut answers, mut notices) = (lent.answer_room.to_vec(), lent.notice_room.to_vec());
    let mut wags = lent.wags.to_vec();
    wags.resize(count, 0);
    let mut copy = Burst {
        table: &mut table,
        wags: &wags,
        answer_room: &mut answers,
        notice_room: &mut notices,
        results: &mut vec![[0; 8]; count],
        ..*lent
    };
    burst(&RIGHT, &mut copy)
        .messages
        .min(whole_messages(rules, lent.messages).len())
}

fn numbers() -> Vec<Wrong> {
    wrong! {
        "tests 2 before 33 in a burst": burst_number = |r, b| in_order(r, b, [1, 2, 33, 18]);
        "tests 33 before 1 in a burst": burst_number = |r, b| in_order(r, b, [33, 1, 2, 18]);
        "tests 18 before 2": burst_number = |r, b| in_order(r, b, [1, 33, 18, 2]);
        "tests 18 before 33": burst_number = |r, b| in_order(r, b, [1, 18, 33, 2]);
        "tests 18 before 1": burst_number = |r, b| in_order(r, b, [18, 1, 33, 2]);
        "never gives 18": burst_number = |r, b| with_18(r, b, false);
        "18 for what the rooms allow": burst_number = |r, b| {
            let allow = rooms_allow(r, b);
            with_18(r, b, b.wags.len() < allow || b.results.len() < allow)
        };
        "18 for WAG bytes alone": burst_number = |r, b| {
            with_18(r, b, b.wags.len() < whole_messages(r, b.messages).len())
        };
        "18 for places alone": burst_number = |r, b| {
            with_18(r, b, b.results.len() < whole_messages(r, b.messages).len())
        };
        "18 only if both are too few": burst_number = |r, b| {
            with_18(r, b, b.results.len().max(b.wags.len()) < whole_messages(r, b.messages).len())
        };
        "18 counts the tail": burst_number = |r, b| {
            let taken: usize = whole_messages(r, b.messages).iter().map(|m| m.len()).sum();
            let more = taken < b.messages.len();
            let holds = if more { few(r, b, |n| n + 1) } else { few(r, b, |n| n) };
            with_18(r, b, holds)
        };
        "18 unless one more is lent": burst_number = |r, b| with_18(r, b, few(r, b, |n| n + 1));
        "takes one WAG byte or place too few": burst_number = |r, b| {
            with_18(r, b, few(r, b, |n| n.saturating_sub(1)))
        };
        "18 for an empty burst": burst_number = |r, b| {
            with_18(r, b, b.messages.is_empty() || few(r, b, |n| n))
        };
        "18 for a bad tail": burst_number = |r, b| {
            let taken: usize = whole_messages(r, b.messages).iter().map(|m| m.len()).sum();
            with_18(r, b, taken < b.messages.len() || few(r, b, |n| n))
        };
        "18 if more are lent than needed": burst_number = |r, b| {
            let count = whole_messages(r, b.messages).len();
            with_18(r, b, b.wags.len() != count || b.results.len() < count)
        };
        "18 does not count messages without answer": burst_number = |r, b| {
            let whole = whole_messages(r, b.messages);
            let good = whole.iter().filter(|message| bad(message) == 0).count();
            with_18(r, b, b.wags.len() < good || b.results.len() < good)
        };
        "gives 3 for a room too small for the first": burst_number = |r, b| match burst_number(r, b) {
            0 if b.answer_room.len() < 5_120 => 3,
            number => number,
        };
        "gives 4 for a room too small for the first": burst_number = |r, b| match burst_number(r, b) {
            0 if b.notice_room.len() < 256 => 4,
            number => number,
        };
        "gives 5 for an empty burst": burst_number = |r, b| match burst_number(r, b) {
            0 if b.messages.is_empty() => 5,
            number => number,
        };
        "does not test the operator of a burst": burst_number = |r, b| {
            in_order(r, b, [1, 2, 18, 1])
        };
        "does not test the own names of a burst": burst_number = |r, b| {
            in_order(r, b, [1, 33, 18, 1])
        };
    }
}

/// Goes through as many messages as WAG bytes and places are lent for.
fn as_far_as_lent(rules: &Rules, lent: &mut Burst) -> Taken {
    let least = lent.wags.len().min(lent.results.len());
    let whole = whole_messages(rules, lent.messages);
    let end: usize = whole.iter().take(least).map(|message| message.len()).sum();
    lent.messages = &lent.messages[..end];
    burst(rules, lent)
}

fn refusals() -> Vec<Wrong> {
    wrong! {
        "18 behind the first messages": burst = |r, lent| {
            let number = burst_number(r, lent);
            let taken = as_far_as_lent(r, lent);
            if number == 18 { Taken { number, ..Taken::default() } } else { taken }
        };
        "stops where WAG bytes or places end": burst = as_far_as_lent;
        "tells with 18 how many messages there are": burst = |r, lent| {
            let taken = burst(r, lent);
            let messages = whole_messages(r, lent.messages).len();
            if taken.number == 18 { Taken { messages, ..taken } } else { taken }
        };
        "zeros the places of a refused burst": burst = |r, lent| {
            let taken = burst(r, lent);
            if taken.number != 0 { lent.results.fill([0; 8]) }
            taken
        };
        "puts the number into the first place": burst = |r, lent| {
            let taken = burst(r, lent);
            if let Some(place) = lent.results.first_mut().filter(|_| taken.number != 0) {
                *place = Outcome::no_answer(taken.number).numbers();
            }
            taken
        };
    }
}

// ---- Messages and the WAG's word --------------------------------------------------

/// Takes a message as if so many answers and notices were written before it; the counts
/// stay right.
fn take_at(
    rules: &Rules,
    (form, lent, taken): (Form, &mut Burst, &mut Taken),
    message: &[u8],
    (answers, notices): (usize, usize),
) {
    let mut there = Taken {
        answers,
        notices,
        ..*taken
    };
    take(rules, form, lent, &mut there, message);
    *taken = Taken {
        answers: taken.answers + there.answers - answers,
        notices: taken.notices + there.notices - notices,
        ..there
    };
}

/// Takes a message and leaves the table as it was.
fn take_on_a_copy(
    rules: &Rules,
    (form, lent, taken): (Form, &mut Burst, &mut Taken),
    message: &[u8],
) {
    let before = lent.table.to_vec();
    take(rules, form, lent, taken, message);
    lent.table.copy_from_slice(&before);
}

/// The place of the message that was taken last.
fn last<'b>(lent: &'b mut Burst, taken: &Taken) -> &'b mut [u32; 8] {
    &mut lent.results[taken.messages - 1]
}

fn messages() -> Vec<Wrong> {
    wrong! {
        "handles the first and echoes success for the rest": take = |r, form, lent, taken, message| {
            if taken.messages == 0 { return take(r, form, lent, taken, message) }
            take_on_a_copy(r, (form, lent, taken), message);
            let place = last(lent, taken);
            if place[1] != 0 { (place[0], place[1]) = (u32::from(SUCCESS.number()), 1) }
        };
        "gives the first result to all": take = |r, form, lent, taken, message| {
            take(r, form, lent, taken, message);
            let first = lent.results[0];
            *last(lent, taken) = first;
        };
        "handles each on the table as it was at first": take = |r, form, lent, taken, message| {
            take_on_a_copy(r, (form, lent, taken), message);
        };
        "writes the row of the last message alone": burst = |r, lent| {
            let before = lent.table.to_vec();
            let taken = burst(r, lent);
            if taken.number == 0 && taken.messages > 1 {
                let all = lent.messages;
                let whole = whole_messages(r, all);
                let at: usize = whole[..taken.messages - 1].iter().map(|m| m.len()).sum();
                let mut table = before;
                let mut alone = Burst {
                    table: &mut table,
                    messages: &all[at..taken.bytes],
                    wags: &lent.wags[taken.messages - 1..],
                    answer_room: &mut [0; 5_120],
                    notice_room: &mut [0; 384],
                    results: &mut [[0; 8]],
                    ..*lent
                };
                burst(r, &mut alone);
                lent.table.copy_from_slice(&table);
            }
            taken
        };
        "takes the table back if it stops before the end": burst = |r, lent| {
            let before = lent.table.to_vec();
            let taken = burst(r, lent);
            if taken.messages < whole_messages(r, lent.messages).len() {
                lent.table.copy_from_slice(&before);
            }
            taken
        };
        "operator 0 for all but the first": take = |r, form, lent, taken, message| {
            let operator = lent.operator;
            if taken.messages > 0 { lent.operator = 0 }
            take(r, form, lent, taken, message);
            lent.operator = operator;
        };
        "realm and host exchanged for all but the first": take = |r, form, lent, taken, message| {
            let (host, realm) = (lent.host, lent.realm);
            if taken.messages > 0 { (lent.host, lent.realm) = (realm, host) }
            take(r, form, lent, taken, message);
            (lent.host, lent.realm) = (host, realm);
        };
        "handles a message once more if it is the last": burst = |r, lent| {
            let mut taken = burst(r, lent);
            let whole = whole_messages(r, lent.messages);
            let form = Form::numbered(lent.form).filter(|_| taken.number == 0);
            if let (Some(message), Some(form)) = (whole.last(), form) {
                let left = lent.answer_room.len() - taken.answers;
                let notices = lent.notice_room.len() - taken.notices * form.notice();
                if taken.messages < lent.results.len() && room_for_one(form, left, notices) {
                    take(r, form, lent, &mut taken, message);
                }
            }
            taken
        };
        "hands on all that is left": take = |r, form, lent, taken, message| {
            let rest = &lent.messages[taken.bytes..];
            let bytes = taken.bytes;
            take(r, form, lent, taken, rest);
            taken.bytes = bytes + message.len();
        };
        "hands on one byte too few": take = |r, form, lent, taken, message| {
            take(r, form, lent, taken, &message[..message.len() - 1]);
            taken.bytes += 1;
        };
        "hands on multiples of 4": take = |r, form, lent, taken, message| {
            let size = message.len();
            take(r, form, lent, taken, &message[..size - size % 4]);
            taken.bytes += size % 4;
        };
    }
}

/// Takes a message with these WAG bytes instead of those lent.
fn take_with(
    rules: &Rules,
    (form, lent, taken): (Form, &mut Burst, &mut Taken),
    message: &[u8],
    wags: &[u8],
) {
    let mut other = Burst {
        table: &mut *lent.table,
        answer_room: &mut *lent.answer_room,
        notice_room: &mut *lent.notice_room,
        results: &mut *lent.results,
        wags,
        ..*lent
    };
    take(rules, form, &mut other, taken, message);
}

fn wags() -> Vec<Wrong> {
    wrong! {
        "the WAG byte of the message before": take = |r, form, lent, taken, message| {
            let wags = [&[0], lent.wags].concat();
            take_with(r, (form, lent, taken), message, &wags);
        };
        "the WAG byte of the message behind": take = |r, form, lent, taken, message| {
            let wags = lent.wags.get(1..).unwrap_or_default();
            take_with(r, (form, lent, taken), message, wags);
        };
        "the first WAG byte for all": take = |r, form, lent, taken, message| {
            let wags = vec![lent.wags[0]; lent.wags.len()];
            take_with(r, (form, lent, taken), message, &wags);
        };
        "takes a WAG byte of 1 alone for yes": take = |r, form, lent, taken, message| {
            let wags: Vec<u8> = lent.wags.iter().map(|wag| u8::from(*wag == 1)).collect();
            take_with(r, (form, lent, taken), message, &wags);
        };
        "reads the lowest bit of a WAG byte": take = |r, form, lent, taken, message| {
            let wags: Vec<u8> = lent.wags.iter().map(|wag| wag & 1).collect();
            take_with(r, (form, lent, taken), message, &wags);
        };
        "no WAG byte for messages without answer": take = |r, form, lent, taken, message| {
            let before = &lent.results[..taken.messages];
            let skipped = before.iter().filter(|place| place[1] == 0).count();
            let wags = [&vec![0; skipped], lent.wags].concat();
            take_with(r, (form, lent, taken), message, &wags);
        };
        "yes to all": take = |r, form, lent, taken, message| {
            let wags = vec![1; lent.wags.len()];
            take_with(r, (form, lent, taken), message, &wags);
        };
    }
}

// ---- Rooms, results, counts -------------------------------------------------------

fn rooms() -> Vec<Wrong> {
    wrong! {
        "writes each answer at the start": take = |r, form, lent, taken, message| {
            let notices = taken.notices;
            take_at(r, (form, lent, taken), message, (0, notices));
        };
        "writes each notice at the start": take = |r, form, lent, taken, message| {
            let answers = taken.answers;
            take_at(r, (form, lent, taken), message, (answers, 0));
        };
        "skips a notice without a cut": take = |r, form, lent, taken, message| {
            let before = taken.notices;
            take(r, form, lent, taken, message);
            taken.notices = before + 1;
        };
        "skips a notice without a cut and does not count it": take = |r, form, lent, taken, message| {
            let slots = lent.notice_room.len() / form.notice();
            let at = (taken.answers, taken.messages.min(slots - 1));
            take_at(r, (form, lent, taken), message, at);
        };
        "skips a notice for a refusal": take = |r, form, lent, taken, message| {
            take(r, form, lent, taken, message);
            if last(lent, taken)[3] == 0 && last(lent, taken)[1] != 0 { taken.notices += 1 }
        };
        "gives each answer 5,120 bytes": take = |r, form, lent, taken, message| {
            let slots = lent.answer_room.len() / 5_120;
            let at = (5_120 * taken.messages.min(slots - 1), taken.notices);
            take_at(r, (form, lent, taken), message, at);
        };
        "starts answers at multiples of 64": take = |r, form, lent, taken, message| {
            let fits = lent.answer_room.len() - 5_120;
            let at = (taken.answers.next_multiple_of(64).min(fits), taken.notices);
            take_at(r, (form, lent, taken), message, at);
        };
        "notices of form 2 at multiples of 256": take = |r, form, lent, taken, message| {
            let slot = taken.notices * (form.notice() - 256);
            lent.notice_room.rotate_right(slot);
            take(r, form, lent, taken, message);
            lent.notice_room.rotate_left(slot);
        };
        "leaves an empty answer for a number": take = |r, form, lent, taken, message| {
            let before = taken.answers;
            take(r, form, lent, taken, message);
            if taken.answers == before { lent.answer_room[before] = 0 }
        };
        "zeros the rest of the answer room": burst = |r, lent| {
            let taken = burst(r, lent);
            if taken.number == 0 { lent.answer_room[taken.answers..].fill(0) }
            taken
        };
        "zeros the rest of the notice room": burst = |r, lent| {
            let taken = burst(r, lent);
            let slot = Form::numbered(lent.form).map_or(0, Form::notice);
            if taken.number == 0 { lent.notice_room[taken.notices * slot..].fill(0) }
            taken
        };
        "zeros a notice for each message": take = |r, form, lent, taken, message| {
            let at = taken.notices * form.notice();
            lent.notice_room[at..at + form.notice()].fill(0);
            take(r, form, lent, taken, message);
        };
        "leaves the last answer out": take = |r, form, lent, taken, message| {
            let before = lent.answer_room.to_vec();
            let ends = taken.bytes + message.len() == lent.messages.len();
            take(r, form, lent, taken, message);
            if ends { lent.answer_room.copy_from_slice(&before) }
        };
    }
}

fn results() -> Vec<Wrong> {
    wrong! {
        "zeros the places that are not used": burst = |r, lent| {
            let taken = burst(r, lent);
            if taken.number == 0 { lent.results[taken.messages..].fill([0; 8]) }
            taken
        };
        "gives messages that it did not take a number": burst = |r, lent| {
            let taken = burst(r, lent);
            let whole = whole_messages(r, lent.messages).len();
            if taken.number == 0 {
                lent.results[taken.messages..whole].fill(Outcome::no_answer(3).numbers());
            }
            taken
        };
        "leaves the place of a message without answer": take = |r, form, lent, taken, message| {
            let before = lent.results[taken.messages];
            take(r, form, lent, taken, message);
            let place = last(lent, taken);
            if place[1] == 0 { *place = before }
        };
        "0 for a message without answer": take = |r, form, lent, taken, message| {
            take(r, form, lent, taken, message);
            let place = last(lent, taken);
            if place[1] == 0 { *place = [0; 8] }
        };
        "a number of 5 to 8 as a Result-Code": take = |r, form, lent, taken, message| {
            take(r, form, lent, taken, message);
            last(lent, taken)[1] |= u32::from(bad(message) != 0);
        };
        "7 for a message over 4,096": take = |r, form, lent, taken, message| {
            take(r, form, lent, taken, message);
            if message.len() % 4 != 0 { last(lent, taken)[0] = 7 }
        };
        "7 before 6 in a burst": take = |r, form, lent, taken, message| {
            take(r, form, lent, taken, message);
            let seven = bad(message) == 6 && message.len() % 4 != 0;
            if seven { last(lent, taken)[0] = 7 }
        };
        "results from the last place on": burst = |r, lent| {
            let taken = burst(r, lent);
            lent.results[..taken.messages].reverse();
            taken
        };
        "where the answer ends for its length": take = |r, form, lent, taken, message| {
            take(r, form, lent, taken, message);
            let end = taken.answers as u32;
            let place = last(lent, taken);
            if place[1] != 0 { place[2] = end }
        };
        "which notice for the cut": take = |r, form, lent, taken, message| {
            take(r, form, lent, taken, message);
            let which = taken.notices as u32;
            let place = last(lent, taken);
            if place[4] != 0 { place[4] = which }
        };
        "no realm of a cut in a burst": take = |r, form, lent, taken, message| {
            take(r, form, lent, taken, message);
            last(lent, taken)[7] = 0;
        };
    }
}

/// A burst with one count otherwise, unless it is refused.
fn recounted(rules: &Rules, lent: &mut Burst, change: fn(&Burst, &mut Taken)) -> Taken {
    let mut taken = burst(rules, lent);
    if taken.number == 0 {
        change(lent, &mut taken);
    }
    taken
}

fn counts() -> Vec<Wrong> {
    wrong! {
        "counts the bytes of a bad tail": burst = |r, lent| recounted(r, lent, |lent, taken| {
            if taken.messages == whole_messages(&RIGHT, lent.messages).len() {
                taken.bytes = lent.messages.len();
            }
        });
        "counts the bytes of all messages": burst = |r, lent| recounted(r, lent, |lent, taken| {
            let whole = whole_messages(&RIGHT, lent.messages);
            taken.bytes = whole.iter().map(|message| message.len()).sum();
        });
        "counts messages that were not taken": burst = |r, lent| recounted(r, lent, |lent, taken| {
            taken.messages = whole_messages(&RIGHT, lent.messages).len();
        });
        "does not count messages without answer": burst = |r, lent| recounted(r, lent, |lent, taken| {
            let places = &lent.results[..taken.messages];
            taken.messages = places.iter().filter(|place| place[1] != 0).count();
        });
        "counts notices in bytes": burst = |r, lent| recounted(r, lent, |lent, taken| {
            taken.notices *= Form::numbered(lent.form).map_or(0, Form::notice);
        });
        "counts answers": burst = |r, lent| recounted(r, lent, |lent, taken| {
            let places = &lent.results[..taken.messages];
            taken.answers = places.iter().filter(|place| place[1] != 0).count();
        });
        "counts the last answer alone": burst = |r, lent| recounted(r, lent, |lent, taken| {
            let places = &lent.results[..taken.messages];
            taken.answers = places.last().map_or(0, |place| place[2] as usize);
        });
        "one notice at most": burst = |r, lent| recounted(r, lent, |_, taken| {
            taken.notices = taken.notices.min(1);
        });
        "counts a notice for each opening": burst = |r, lent| recounted(r, lent, |lent, taken| {
            let places = &lent.results[..taken.messages];
            taken.notices = places.iter().filter(|place| place[3] != 0).count();
        });
        "18 for a burst that stops": burst = |r, lent| recounted(r, lent, |lent, taken| {
            if taken.messages < whole_messages(&RIGHT, lent.messages).len() { taken.number = 18 }
        });
    }
}
