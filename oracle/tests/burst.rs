//! W2, a burst: its boundaries and stops by hand, each from both sides, and its laws on
//! bursts by chance.

use std::collections::BTreeMap;

use oracle::burst::Taken;
use oracle::burst_calls::{
    BurstCall, Ground, Written, burst_call, burst_calls, given, narrow, tail, whole_call,
};
use oracle::drafts::Draft;
use oracle::generator::{add, enter};
use oracle::handling::Call;
use oracle::program::{Bursting, Room, perform};
use oracle::random::Random;
use oracle::rules::DOCUMENT_01;
use oracle::the_table::{FORMS, Form};

// ---- By hand ----------------------------------------------------------------------

const NAME: &[u8] = b"001010123456789";

/// The answer to an opening that succeeds, to a header alone and to an opening that is
/// refused, all with the names below.
const OPENED: usize = 136;
const BARE: usize = 80;
const REFUSED: usize = 92;

fn opening(session: u8) -> Vec<u8> {
    Draft::open(NAME, &[session], b"pdg", b"board").bytes()
}

/// A header that says this length, in front of so many bytes in all.
fn header(length: u32, size: usize) -> Vec<u8> {
    let [_, high, middle, low] = length.to_be_bytes();
    let mut bytes = vec![1, high, middle, low, 0x80, 0, 1, 9, 0, 0, 0, 1];
    bytes.resize(size.max(12), 0);
    bytes.truncate(size);
    bytes
}

/// A burst on a table of one subscriber, "board" with limit 2, with all that its messages
/// could ask for.
fn burst(form: Form, messages: &[Vec<u8>]) -> BurstCall {
    let mut table = vec![0; form.row()];
    let mut shares = [0; 16];
    shares[3] = 1;
    for operation in [
        enter(form, 3, &shares, NAME),
        add(form, 3, NAME, b"board", 2, 0),
    ] {
        perform(&mut DOCUMENT_01.clone(), &operation, &mut table);
    }
    let count = messages.len();
    let asked = Bursting {
        form: form.number(),
        operator: 3,
        host: b"aaa".to_vec(),
        realm: b"home".to_vec(),
        messages: messages.concat(),
        wags: vec![1; count],
        answer_room: Room {
            length: 5_120 * count as u32,
            seed: 3,
        },
        notice_room: Room {
            length: (form.notice() * count) as u32,
            seed: 5,
        },
        places: count,
    };
    BurstCall { table, asked }
}

fn taken(messages: usize, bytes: usize, answers: usize, notices: usize) -> Taken {
    Taken {
        number: 0,
        messages,
        bytes,
        answers,
        notices,
    }
}

fn gives(call: &BurstCall) -> Taken {
    given(&DOCUMENT_01, call).0
}

/// The codes of the results that were written.
fn codes(call: &BurstCall) -> Vec<u32> {
    let (taken, written) = given(&DOCUMENT_01, call);
    let written = &written.results[..taken.messages];
    written.iter().map(|result| result[0]).collect()
}

/// The call is refused by this number, and nothing changes.
fn refused(call: &BurstCall, number: u16) {
    let (taken, written) = given(&DOCUMENT_01, call);
    let none = Taken::default();
    assert_eq!(taken, Taken { number, ..none });
    assert!(written == call.fresh());
}

/// Three openings on a limit of two: three answers, one notice, three results.
#[test]
fn three_openings_and_a_cut() {
    for form in FORMS {
        let messages = [b'a', b'b', b'c'].map(opening);
        let length = messages[0].len();
        let mut call = burst(form, &messages);
        call.answer_room.length += 9;
        call.notice_room.length += 9;
        call.places += 1;
        let (counts, written) = given(&DOCUMENT_01, &call);
        assert_eq!(counts, taken(3, 3 * length, 3 * OPENED, 1));
        let realm = if form == Form::Two { 15 } else { 0 };
        let (long, before) = (OPENED as u32, call.fresh());
        assert_eq!(written.results[0], [2001, 1, long, 1, 0, 0, 0, 0]);
        assert_eq!(written.results[1], [2001, 1, long, 2, 0, 0, 0, 0]);
        assert_eq!(written.results[2], [2001, 1, long, 1, 1, 1, 3, realm]);
        assert_eq!(written.results[3], before.results[3]);
        for (answer, session) in written.answers.chunks(OPENED).zip(*b"abc") {
            assert_eq!(answer[..5], [1, 0, 0, OPENED as u8, 0x40]);
            assert_eq!(answer[28], session);
        }
        assert!(written.answers[3 * OPENED..] == before.answers[3 * OPENED..]);
        let slot = form.notice();
        assert_eq!(written.notices[..2], *b"a\0");
        assert_eq!(written.notices[128..132], *b"pdg\0");
        assert!(written.notices[slot..] == before.notices[slot..]);
        assert_eq!(written.table[20..23], [2, 1, 0]);
    }
}

/// A notice goes behind the one before, however many messages without a cut are between.
#[test]
fn notices_have_no_gaps() {
    for form in FORMS {
        let end = Draft::termination(NAME, b"d", b"pdg", b"board").bytes();
        let [a, b, c, d, e] = [b'a', b'b', b'c', b'd', b'e'].map(opening);
        let call = burst(form, &[a, b, c, d, end, e.clone(), opening(b'f'), e]);
        let (counts, written) = given(&DOCUMENT_01, &call);
        assert_eq!((counts.messages, counts.notices), (8, 3));
        let cuts: Vec<u32> = written.results.iter().map(|result| result[4]).collect();
        assert_eq!(cuts, [0, 0, 1, 1, 0, 0, 1, 0]);
        let slots = written.notices.chunks(form.notice());
        let sessions: Vec<u8> = slots.take(3).map(|slot| slot[0]).collect();
        assert_eq!(sessions, *b"abc");
        let behind = 3 * form.notice();
        assert!(written.notices[behind..] == call.fresh().notices[behind..]);
    }
}

/// No burst, and 1 to 4 bytes left, alone and behind a message.
#[test]
fn few_bytes_left() {
    for form in FORMS {
        assert_eq!(gives(&burst(form, &[])), taken(0, 0, 0, 0));
        for left in 0..=4 {
            for length in [0, 3, 4, 19, 20, 0xFF_FFFF] {
                let rest = header(length, left);
                let alone = burst(form, std::slice::from_ref(&rest));
                assert_eq!(gives(&alone), taken(0, 0, 0, 0));
                for (message, _, answer) in every_sort() {
                    let size = message.len();
                    let behind = burst(form, &[message, rest.clone()]);
                    assert_eq!(gives(&behind), taken(1, size, answer, 0));
                }
            }
        }
    }
}

/// A header's length of 19 stops, one of 20 is a message, and so it is behind another and
/// before another; 0 does not go on for ever.
#[test]
fn the_least_header_length() {
    let (first, last) = (opening(b'a'), opening(b'b'));
    let size = first.len();
    for (length, stops) in [(0, true), (4, true), (19, true), (20, false)] {
        let rest = header(length, 20);
        let alone = gives(&burst(Form::One, std::slice::from_ref(&rest)));
        let call = burst(Form::One, &[first.clone(), rest, last.clone()]);
        if stops {
            assert_eq!(alone, taken(0, 0, 0, 0));
            assert_eq!(gives(&call), taken(1, size, OPENED, 0));
        } else {
            assert_eq!(alone, taken(1, 20, BARE, 0));
            assert_eq!(gives(&call), taken(3, 2 * size + 20, 2 * OPENED + BARE, 0));
            assert_eq!(codes(&call), [2001, 5005, 2001]);
        }
    }
}

/// A message that runs one byte past the end, that ends there, or with a byte behind it.
#[test]
fn the_end_of_the_last_message() {
    let first = opening(b'a');
    let size = first.len();
    for (last, code, answer) in every_sort() {
        let whole = burst(Form::Two, &[first.clone(), last.clone()]);
        let all = taken(2, size + last.len(), OPENED + answer, 0);
        assert_eq!(gives(&whole), all);
        assert_eq!(codes(&whole), [2001, code]);
        let mut more = whole.clone();
        more.messages.push(1);
        assert_eq!(gives(&more), all);
        let mut cut = whole.clone();
        cut.messages.pop();
        assert_eq!(gives(&cut), taken(1, size, OPENED, 0));
        let mut past = whole.clone();
        let longer = (last.len() as u32 + 1).to_be_bytes();
        past.messages[size + 1..size + 4].copy_from_slice(&longer[1..]);
        assert_eq!(gives(&past), taken(1, size, OPENED, 0));
    }
    for (length, messages) in [(20, 1), (21, 0), (0x1_0014, 0), (0x10_0014, 0)] {
        let call = burst(Form::Two, &[header(length, 20)]);
        assert_eq!(gives(&call).messages, messages, "{length}");
    }
}

/// Cut off anywhere: what is whole before is taken, and nothing else.
#[test]
fn a_burst_that_is_cut_off_anywhere() {
    let mut odd = Draft::open(NAME, b"b", b"pdg", b"board");
    odd.size = Some(odd.bytes().len() + 1);
    let messages = [opening(b'a'), odd.bytes(), header(20, 20), opening(b'c')];
    let mut ends = vec![0];
    for message in &messages {
        ends.push(ends[ends.len() - 1] + message.len());
    }
    let call = burst(Form::One, &messages);
    for length in 0..=call.messages.len() {
        let whole = ends.iter().filter(|end| **end <= length).count() - 1;
        let mut part = call.clone();
        part.messages.truncate(length);
        let cut = gives(&part);
        assert_eq!((cut.number, cut.messages), (0, whole));
        assert_eq!(cut.bytes, ends[whole]);
        assert_eq!(
            cut.answers,
            [0, OPENED, OPENED, OPENED + BARE, 2 * OPENED + BARE][whole]
        );
    }
}

/// Answer rooms of 5,119 and 5,120 bytes before the first message and before the second,
/// also before one that gets no answer. Too little is no refusal.
#[test]
fn room_for_an_answer() {
    let first = opening(b'a');
    for (second, _, answer) in every_sort() {
        let bytes = [0, first.len(), first.len() + second.len()];
        let mut call = burst(Form::One, &[first.clone(), second.clone()]);
        for (length, messages) in [
            (0, 0),
            (5_119, 0),
            (5_120, 1),
            (5_119 + OPENED, 1),
            (5_120 + OPENED, 2),
        ] {
            call.answer_room.length = length as u32;
            let (counts, written) = given(&DOCUMENT_01, &call);
            let answers = [0, OPENED, OPENED + answer][messages];
            assert_eq!(counts, taken(messages, bytes[messages], answers, 0));
            let before = call.fresh();
            assert!(written.answers[answers..] == before.answers[answers..]);
            assert_eq!(written.results[messages..], before.results[messages..]);
            assert!(messages > 0 || written == before);
        }
        let mut alone = burst(Form::One, std::slice::from_ref(&second));
        for (length, messages) in [(5_119, 0), (5_120, 1)] {
            alone.answer_room.length = length;
            assert_eq!(
                (gives(&alone).number, gives(&alone).messages),
                (0, messages)
            );
        }
    }
}

/// Notice rooms of 255 and 256 bytes (383 and 384) before the first message, behind those
/// that cut nothing, and behind one that cut.
#[test]
fn room_for_a_notice() {
    for form in FORMS {
        let slot = form.notice();
        let messages = [b'a', b'b', b'c', b'd'].map(opening);
        let mut call = burst(form, &messages);
        for (length, taken, notices) in [
            (0, 0, 0),
            (255, 0, 0),
            (slot - 1, 0, 0),
            (slot, 3, 1),
            (2 * slot - 1, 3, 1),
            (2 * slot, 4, 2),
            (3 * slot, 4, 2),
        ] {
            call.notice_room.length = length as u32;
            let (counts, written) = given(&DOCUMENT_01, &call);
            assert_eq!(counts.number, 0);
            let met = (counts.messages, counts.notices);
            assert_eq!(met, (taken, notices), "{length}");
            let behind = notices * slot;
            assert!(written.notices[behind..] == call.fresh().notices[behind..]);
        }
        for (message, code, _) in every_sort() {
            let mut alone = burst(form, &[message]);
            alone.notice_room.length = slot as u32 - 1;
            assert_eq!(gives(&alone), taken(0, 0, 0, 0));
            alone.notice_room.length = slot as u32;
            assert_eq!(codes(&alone), [code]);
        }
    }
}

/// A message that gets an answer and those that get none, each with its code and with how
/// long its answer is.
fn every_sort() -> Vec<(Vec<u8>, u32, usize)> {
    let mut all = vec![(opening(b'z'), 2001, OPENED)];
    let none = without_answer();
    all.extend(none.map(|(message, number)| (message, number, 0)));
    all
}

/// Messages that get the numbers 5 to 8.
fn without_answer() -> [(Vec<u8>, u32); 5] {
    let good = Draft::open(NAME, b"n", b"pdg", b"board");
    let size = |size| Draft {
        size: Some(size),
        ..good.clone()
    };
    let mut answer = good.clone();
    answer.flags = 0x40;
    let mut version = good.clone();
    version.version = 2;
    [
        (size(4_097).bytes(), 5),
        (size(4_100).bytes(), 5),
        (version.bytes(), 6),
        (size(good.bytes().len() + 1).bytes(), 7),
        (answer.bytes(), 8),
    ]
}

/// Each is taken and has its number for a result; the next message starts right behind it,
/// at an odd byte too. A message of 4,096 bytes gets an answer.
#[test]
fn numbers_5_to_8_are_results() {
    for (message, number) in without_answer() {
        let size = message.len();
        let call = burst(Form::One, &[opening(b'a'), message, opening(b'b')]);
        let (counts, written) = given(&DOCUMENT_01, &call);
        let two = 2 * opening(b'a').len();
        assert_eq!(counts, taken(3, two + size, 2 * OPENED, 0), "{number}");
        assert_eq!(codes(&call), [2001, number, 2001]);
        assert_eq!(written.results[1], [number, 0, 0, 0, 0, 0, 0, 0]);
        assert_eq!(written.answers[OPENED + 28], b'b');
    }
    let mut long = Draft::open(NAME, b"n", b"pdg", b"board");
    long.size = Some(4_096);
    let call = burst(Form::One, &[long.bytes(), opening(b'b')]);
    assert_eq!(codes(&call), [5014, 2001]);
    assert_eq!(gives(&call).answers, REFUSED + OPENED);
    // A boundary asks for bytes 1 to 3 alone.
    let mut rest = header(21, 21);
    (rest[0], rest[4]) = (0xFF, 0);
    assert_eq!(codes(&burst(Form::Two, &[rest.clone(), rest])), [6, 6]);
}

/// One WAG byte or one place too few, for messages of every sort, whatever the rooms.
#[test]
fn too_few_wag_bytes_or_places() {
    for (last, ..) in every_sort() {
        for count in 1..4 {
            let mut messages: Vec<Vec<u8>> = (1..count).map(|n| opening(b'a' + n)).collect();
            messages.push(last.clone());
            let call = burst(Form::Two, &messages);
            assert_eq!(gives(&call).messages, usize::from(count));
            for rooms in [true, false] {
                let mut few = call.clone();
                if !rooms {
                    (few.answer_room.length, few.notice_room.length) = (5_119, 0);
                }
                few.wags.pop();
                refused(&few, 18);
                few.places -= 1;
                refused(&few, 18);
                few.wags.push(1);
                refused(&few, 18);
                few.places += 1;
                assert_eq!(gives(&few).number, 0);
                assert_eq!(gives(&few).messages > 0, rooms);
            }
        }
    }
}

/// Behind a bad boundary nothing counts, and the bad one itself does not.
#[test]
fn nothing_counts_behind_a_bad_boundary() {
    // The last one makes a header of what is behind it, which says a length past the end.
    for bad in [header(19, 20), header(0, 4), vec![1]] {
        let messages = [opening(b'a'), bad.clone(), opening(b'b'), opening(b'c')];
        let mut call = burst(Form::One, &messages);
        (call.wags, call.places) = (vec![1], 1);
        assert_eq!(gives(&call).messages, 1);
        call.places = 0;
        refused(&call, 18);
        call.messages = bad;
        call.wags.clear();
        assert_eq!(gives(&call), taken(0, 0, 0, 0));
    }
}

/// 1, then 33, then 2, then 18: of those that hold the first is given.
#[test]
fn numbers_in_their_order() {
    for form in FORMS {
        let good = burst(form, &[opening(b'a'), opening(b'b')]);
        let spoil = |call: &mut BurstCall, number: u16| match number {
            1 => call.table.push(0),
            33 => call.operator = 16,
            2 => call.realm = vec![b'r'; 129],
            _ => call.places = 1,
        };
        for held in 1..16u32 {
            let numbers = [1, 33, 2, 18];
            let mut which = (0..4usize).filter(|bit| held >> bit & 1 == 1);
            let mut call = good.clone();
            which.clone().for_each(|bit| spoil(&mut call, numbers[bit]));
            refused(&call, numbers[which.next().unwrap()]);
        }
        for said in [0, 3, form.other().number(), u32::MAX] {
            let mut call = good.clone();
            call.form = said;
            refused(&call, 1);
        }
        let mut empty = burst(form, &[]);
        empty.host.clear();
        refused(&empty, 2);
    }
}

/// A byte of the WAG for each message; any but 0 is yes.
#[test]
fn each_message_has_its_own_word() {
    let policy = Draft::policy(NAME, b"a", b"pdg", b"permit").bytes();
    let mut messages = vec![policy; 6];
    messages[0] = opening(b'a');
    let mut call = burst(Form::Two, &messages);
    call.wags = vec![0, 1, 0, 2, 0, 255, 0];
    assert_eq!(codes(&call), [2001, 2001, 5012, 2001, 5012, 2001]);
}

/// A hundred wait after a power dip.
#[test]
fn a_hundred_requests() {
    for form in FORMS {
        let messages: Vec<Vec<u8>> = (100..200).map(opening).collect();
        let call = burst(form, &messages);
        let (counts, written) = given(&DOCUMENT_01, &call);
        let bytes = call.messages.len();
        assert_eq!(counts, taken(100, bytes, 100 * OPENED, 98));
        for (index, slot) in written.notices.chunks(form.notice()).take(98).enumerate() {
            assert_eq!(slot[0], 100 + index as u8);
        }
        assert_eq!(one_by_one(&call), (counts, written));
    }
}

// ---- One by one -------------------------------------------------------------------

/// What came of one message: its result, its answer and its notice.
type Reply = ([u32; 8], Vec<u8>, Vec<u8>);

/// One message handled by itself, with rooms of its own.
fn alone(call: &BurstCall, table: &mut [u8], message: &[u8], wag: bool) -> Reply {
    let slot = if call.form == 1 { 256 } else { 384 };
    let (mut answer, mut notice) = (vec![0xAA; 5_120], vec![0xBB; slot]);
    let outcome = (DOCUMENT_01.handle)(
        &DOCUMENT_01,
        Call {
            form: call.form,
            table,
            operator: call.operator,
            host: &call.host,
            realm: &call.realm,
            message,
            wag,
            answer_room: &mut answer,
            notice_room: &mut notice,
        },
    );
    answer.truncate(outcome.length);
    if outcome.cut.is_none() {
        notice.clear();
    }
    (outcome.numbers(), answer, notice)
}

/// The whole messages, cut here once more.
fn cut(bytes: &[u8]) -> Vec<&[u8]> {
    let mut at = 0;
    let mut all = Vec::new();
    while bytes.len() - at >= 4 {
        let length = u32::from_be_bytes([0, bytes[at + 1], bytes[at + 2], bytes[at + 3]]) as usize;
        if length < 20 || length > bytes.len() - at {
            break;
        }
        all.push(&bytes[at..at + length]);
        at += length;
    }
    all
}

fn number(call: &BurstCall) -> u16 {
    let row = [4_608, 8_704][usize::from(call.form == 2)];
    let rows = call.table.len() / row;
    let name_fits = |name: &[u8]| !name.is_empty() && name.len() <= 128;
    let count = cut(&call.messages).len();
    if !(1..=2).contains(&call.form) || call.table.len() % row != 0 || !(1..=1_024).contains(&rows)
    {
        1
    } else if call.operator > 15 {
        33
    } else if !name_fits(&call.host) || !name_fits(&call.realm) {
        2
    } else if call.wags.len().min(call.places) < count {
        18
    } else {
        0
    }
}

/// What a burst has to give, from messages handled one by one.
fn one_by_one(call: &BurstCall) -> (Taken, Written) {
    let mut taken = Taken {
        number: number(call),
        ..Taken::default()
    };
    let mut written = call.fresh();
    if taken.number != 0 {
        return (taken, written);
    }
    let slot = if call.form == 1 { 256 } else { 384 };
    let (mut answers, mut notices) = (Vec::new(), Vec::new());
    for (message, wag) in cut(&call.messages).into_iter().zip(&call.wags) {
        if written.answers.len() < answers.len() + 5_120
            || written.notices.len() < notices.len() + slot
        {
            break;
        }
        let (result, answer, notice) = alone(call, &mut written.table, message, *wag > 0);
        written.results[taken.messages] = result;
        answers.extend(answer);
        notices.extend(notice);
        taken.messages += 1;
        taken.bytes += message.len();
    }
    written.answers[..answers.len()].copy_from_slice(&answers);
    written.notices[..notices.len()].copy_from_slice(&notices);
    (taken.answers, taken.notices) = (answers.len(), notices.len() / slot);
    (taken, written)
}

/// A burst gives what its messages give one by one. The bursts are of use: each number
/// comes up, as a refusal or as a result, and each way to stop.
#[test]
fn a_burst_is_its_messages_one_by_one() {
    let mut met: BTreeMap<&str, usize> = BTreeMap::new();
    for call in burst_calls(71, 3_000) {
        let (taken, written) = given(&DOCUMENT_01, &call);
        assert!((taken, written.clone()) == one_by_one(&call), "{call:?}");
        let mut meet = |what, comes_up| *met.entry(what).or_default() += usize::from(comes_up);
        for number in [(0, "0"), (1, "1"), (2, "2"), (18, "18"), (33, "33")] {
            meet(number.1, taken.number == number.0);
        }
        let results = &written.results[..taken.messages];
        for number in [(5, "5"), (6, "6"), (7, "7"), (8, "8"), (2001, "2001")] {
            meet(number.1, results.iter().any(|result| result[0] == number.0));
        }
        let count = cut(&call.messages).len();
        let all = taken.number == 0 && taken.messages == count;
        meet("all", all && count > 0);
        meet("a tail", all && taken.bytes < call.messages.len());
        let left = written.answers.len() - taken.answers;
        let slot = if call.form == 1 { 256 } else { 384 };
        let notices = written.notices.len() - taken.notices * slot;
        let stopped = taken.number == 0 && taken.messages < count;
        meet("stopped", stopped && taken.messages > 0);
        meet("5,119 left", stopped && left == 5_119 && notices >= slot);
        meet(
            "5,120 left before the last",
            all && count > 1 && {
                let last = results[count - 1][2] as usize;
                left + last == 5_120
            },
        );
        meet(
            "one byte short",
            stopped && notices == slot - 1 && left >= 5_120,
        );
        meet("two notices", taken.notices > 1);
    }
    assert!(met.values().all(|times| *times > 20), "{met:?}");
}

// ---- Two calls --------------------------------------------------------------------

/// A number up to this one, often near it.
fn up_to(most: usize, random: &mut Random) -> usize {
    match random.below(3) {
        0 => most,
        1 => most - random.below(most.min(6_000) + 1),
        _ => random.below(most + 1),
    }
}

/// A first call with some of the messages, rooms, WAG bytes and places, then a second with
/// all that is left: together they are one call with all, unless that gives 18.
#[test]
fn two_calls_are_one() {
    let mut random = Random::new(72);
    let (mut first_stopped, mut first_refused, mut both, mut of_18) = (0, 0, 0, 0);
    for _ in 0..3_000 {
        let call = burst_call(&mut random);
        let all = call.ends();
        let (one, expected) = given(&DOCUMENT_01, &call);
        if one.number != 0 {
            of_18 += usize::from(one.number == 18);
            continue;
        }
        let mut part = all;
        for end in [&mut part.messages, &mut part.answers, &mut part.notices] {
            *end = up_to(*end, &mut random);
        }
        if random.once_in(3) {
            part.wags = up_to(all.wags, &mut random);
            part.results = up_to(all.results, &mut random);
        }
        let mut written = call.fresh();
        let first = call.go_on(&DOCUMENT_01, &mut written, &Taken::default(), &part);
        assert!([0, 18].contains(&first.number));
        let second = call.go_on(&DOCUMENT_01, &mut written, &first, &all);
        let sum = Taken {
            number: second.number,
            messages: first.messages + second.messages,
            bytes: first.bytes + second.bytes,
            answers: first.answers + second.answers,
            notices: first.notices + second.notices,
        };
        assert!(sum == one && written == expected, "{call:?} {part:?}");
        // A third call finds nothing more to do.
        let third = call.go_on(&DOCUMENT_01, &mut written, &one, &all);
        assert!(third == Taken::default() && written == expected);
        first_stopped += usize::from(first.messages < one.messages);
        first_refused += usize::from(first.number == 18);
        both += usize::from(first.messages > 0 && second.messages > 0);
    }
    let met = [first_stopped, first_refused, both, of_18];
    assert!(met.into_iter().all(|times| times > 50), "{met:?}");
}

/// Where the one call gives 18, two are not that: the first takes what it is given.
#[test]
fn two_calls_are_not_a_refused_one() {
    let mut call = burst(Form::One, &[opening(b'a'), opening(b'b')]);
    call.wags.pop();
    refused(&call, 18);
    let mut written = call.fresh();
    let mut part = call.ends();
    part.messages = opening(b'a').len();
    let first = call.go_on(&DOCUMENT_01, &mut written, &Taken::default(), &part);
    assert_eq!((first.number, first.messages), (0, 1));
    let second = call.go_on(&DOCUMENT_01, &mut written, &first, &call.ends());
    assert_eq!((second.number, second.messages), (18, 0));
}

// ---- Order between subscribers ----------------------------------------------------

/// The replies of a burst, one for each message that was taken.
fn replies(call: &BurstCall) -> (Vec<Reply>, Vec<u8>) {
    let (taken, written) = given(&DOCUMENT_01, call);
    assert_eq!(taken.number, 0);
    let (mut answers, mut notices) = (&written.answers[..], &written.notices[..]);
    let slot = if call.form == 1 { 256 } else { 384 };
    let mut all = Vec::new();
    for result in &written.results[..taken.messages] {
        let (answer, rest) = answers.split_at(result[2] as usize);
        let (notice, behind) = notices.split_at(result[4] as usize * slot);
        all.push((*result, answer.to_vec(), notice.to_vec()));
        (answers, notices) = (rest, behind);
    }
    (all, written.table)
}

/// Whose a message is: its subscriber's, if it is read as far as the name. Nobody's name
/// is found in a table without rows.
fn whose(
    ground: &Ground,
    call: &BurstCall,
    (subscriber, message): &(usize, Vec<u8>),
) -> Option<usize> {
    let mut table = vec![0; ground.form.row()];
    let (result, ..) = alone(call, &mut table, message, true);
    (result[..2] == [5001, 2]).then_some(*subscriber)
}

/// Another order of chance, in which each subscriber's messages keep theirs.
fn reordered(owners: &[Option<usize>], random: &mut Random) -> Vec<usize> {
    let mut order: Vec<usize> = (0..owners.len()).collect();
    random.shuffle(&mut order);
    for owner in owners.iter().flatten() {
        let own = |index: &usize| owners[*index] == Some(*owner);
        let mut sorted: Vec<usize> = order.iter().copied().filter(own).collect();
        sorted.sort_unstable();
        let mut sorted = sorted.into_iter();
        for index in order.iter_mut().filter(|index| own(index)) {
            *index = sorted.next().unwrap_or(*index);
        }
    }
    order
}

/// Both orders of a burst: the replies by message, and the tables.
type Both = ([Vec<Option<Reply>>; 2], [Vec<u8>; 2]);

/// A burst by chance and the same one in another order, a bad tail last in both.
fn both_orders(enough: bool, random: &mut Random) -> Both {
    let ground = Ground::new(random);
    let messages = ground.messages(random.from_to(2, 9), random);
    let tail = tail(&ground, random);
    let mut first = whole_call(&ground, &messages, &tail, random);
    if !enough {
        narrow(&mut first, random);
    }
    let owners: Vec<Option<usize>> = messages
        .iter()
        .map(|message| whose(&ground, &first, message))
        .collect();
    let order = reordered(&owners, random);
    let mut second = first.clone();
    second.messages = order.iter().flat_map(|&i| messages[i].1.clone()).collect();
    second.messages.extend(tail);
    second.wags = order.iter().map(|&i| first.wags[i]).collect();
    let (of_first, table) = replies(&first);
    let (of_second, other) = replies(&second);
    let mut by_message = vec![None; messages.len()];
    for (index, reply) in order.into_iter().zip(of_second) {
        by_message[index] = Some(reply);
    }
    let mut of_first: Vec<Option<Reply>> = of_first.into_iter().map(Some).collect();
    of_first.resize(messages.len(), None);
    ([of_first, by_message], [table, other])
}

/// With room for all, tables and replies are the same in any order that keeps each
/// subscriber's own.
#[test]
fn order_does_not_matter_where_all_are_taken() {
    let mut random = Random::new(73);
    for _ in 0..1_500 {
        let ([one, other], [table, after]) = both_orders(true, &mut random);
        assert!(one.iter().all(Option::is_some));
        assert!(one == other && table == after);
    }
}

/// With any rooms, a message that both orders take gets the same reply in both; where both
/// take all, the tables are the same too. Which they take may differ.
#[test]
fn a_message_that_both_orders_take_gets_one_reply() {
    let mut random = Random::new(74);
    let (mut some, mut counts, mut tables) = (0, 0, 0);
    for _ in 0..3_000 {
        let ([one, other], [table, after]) = both_orders(false, &mut random);
        let both = one
            .iter()
            .zip(&other)
            .filter(|(one, other)| one.is_some() && other.is_some());
        assert!(both.clone().all(|(one, other)| one == other));
        let all = one.iter().chain(&other).all(Option::is_some);
        assert!(!all || table == after);
        let count = |list: &[Option<Reply>]| list.iter().flatten().count();
        some += usize::from(both.count() > 0 && !all);
        counts += usize::from(count(&one) != count(&other));
        tables += usize::from(table != after);
    }
    assert!(
        some > 300 && counts > 30 && tables > 100,
        "{some} {counts} {tables}"
    );
}

/// Without room for all the order does matter: an answer before or behind a message of
/// version 2 lets one message in or two, and of two openings the first alone.
#[test]
fn order_matters_where_rooms_end() {
    let version = {
        let mut draft = Draft::open(NAME, b"v", b"pdg", b"board");
        draft.version = 2;
        draft.bytes()
    };
    // Refused with 5005 by an answer of 20 + 32 + 12 + 12 + 12 bytes.
    let mut end = Draft::termination(NAME, &[b's'; 24], b"pdg", b"board");
    end.avps.truncate(1);
    let end = end.bytes();
    let with = |messages: &[Vec<u8>]| {
        let mut call = burst(Form::One, messages);
        call.answer_room.length = 5_121;
        call
    };
    let [one, two] = [
        with(&[end.clone(), version.clone()]),
        with(&[version.clone(), end.clone()]),
    ];
    assert_eq!(gives(&one), taken(1, end.len(), 88, 0));
    assert_eq!(gives(&two), taken(2, end.len() + version.len(), 88, 0));
    let mut of_nobody = Draft::open(b"1", b"v", b"pdg", b"board");
    of_nobody.application = 2;
    let other = of_nobody.bytes();
    let [one, two] = [
        with(&[opening(b'a'), other.clone()]),
        with(&[other, opening(b'a')]),
    ];
    let (table, after) = (
        given(&DOCUMENT_01, &one).1.table,
        given(&DOCUMENT_01, &two).1.table,
    );
    assert!(table != after && after == two.table);
}
