//! What of a call has to do with the disconnection (W6), for the report.

use std::collections::BTreeSet;
use std::sync::LazyLock;

use crate::abort_calls::NOTICE_ROOMS;
use crate::disconnecting::{ABORT_SESSION, LEAST_ROOM, RESULT_CODE};
use crate::program::{Aborting, Answering, Asked, Operation, Seen};
use crate::reading_a_message::{
    AVP_RESERVED, Avp, ERROR, HEADER, HEADER_RESERVED, Name, PROXIABLE, REQUEST, RETRANSMITTED,
    SESSION_ID, header, is, number, walk_tests,
};
use crate::rules::DOCUMENT_01;
use crate::the_table::FORMS;

/// What has to come up; of all that could be said of disconnections, the report says no
/// more.
pub static WANTED_OF_ABORTS: LazyLock<BTreeSet<String>> = LazyLock::new(wanted);

/// Lengths of an own name and of a text of the notice, and the number that comes of it.
const OWN: [(usize, u8); 4] = [(0, 2), (1, 0), (128, 0), (129, 2)];
const TEXTS: [(usize, u8); 8] = [
    (0, 22),
    (1, 0),
    (127, 0),
    (128, 0),
    (129, 22),
    (256, 22),
    (257, 22),
    (65_537, 22),
];
const NOTICES: [(usize, u8); 4] = [(256, 4), (383, 4), (384, 0), (385, 0)];
const ROOMS: [(usize, u8); 4] = [(712, 23), (1_023, 23), (1_024, 0), (1_025, 0)];

/// Each of these is all that is wrong with an answer.
const FAULTS: [&str; 29] = [
    "under 20 bytes",
    "over 4,096 bytes",
    "another version",
    "a length that is not true",
    "a length that is no multiple of 4",
    "under 8 bytes behind the last AVP",
    "reserved bits of an AVP",
    "an AVP shorter than its header",
    "an AVP past the end",
    "another command",
    "R set",
    "another Hop-by-Hop identifier",
    "another End-to-End identifier",
    "the identifiers exchanged",
    "no Session-Id",
    "the Session-Id with V",
    "the Session-Id not first",
    "the Session-Id behind one with V",
    "the Session-Id twice",
    "a second Session-Id of other bytes",
    "a Session-Id in another case",
    "a Session-Id that is longer",
    "a Session-Id that is shorter",
    "a Session-Id of other bytes",
    "no Result-Code",
    "the Result-Code with V",
    "an Experimental-Result for the Result-Code",
    "two Result-Codes",
    "a Result-Code that has not 4 bytes",
];

/// What stands in answers that belong.
const NO_FAULTS: [&str; 17] = [
    "flag P",
    "flag E",
    "flag T",
    "low bits of the flags",
    "no flags",
    "Application-Id 0",
    "Application-Id 1",
    "an AVP with M that is not known",
    "a Session-Id of 0 bytes",
    "a Session-Id of 129 bytes",
    "a Session-Id with V behind the other",
    "a Result-Code with V beside the other",
    "an Experimental-Result beside the Result-Code",
    "a Result-Code that is not 2001",
    "40 bytes",
    "4,096 bytes",
    "the same identifier twice",
];

fn wanted() -> BTreeSet<String> {
    let mut all = vec![answered_key(0).to_string(), answered_key(1).to_string()];
    all.extend([0, 2, 4, 22, 23].map(|n| format!("abort: number {n}")));
    let mut lengths = |what: &str, of: &[(usize, u8)]| {
        let key = |(length, number): &(usize, u8)| length_key(what, *length, u32::from(*number));
        all.extend(of.iter().map(key));
    };
    for what in ["own host", "own realm"] {
        lengths(what, &OWN);
    }
    for what in ["Session-Id", "host", "realm"] {
        lengths(what, &TEXTS);
    }
    lengths("notice", &NOTICES);
    lengths("room", &ROOMS);
    let numbers = [2, 4, 22, 23];
    for (place, first) in numbers.into_iter().enumerate() {
        let later = numbers[place + 1..].iter();
        all.extend(later.map(|second| format!("abort: {first} beside {second}")));
    }
    all.extend([TAIL, NO_TAIL].map(str::to_string));
    all.extend(FAULTS.map(fault_key));
    all.extend(NO_FAULTS.map(no_fault_key));
    for form in FORMS {
        for length in NOTICE_ROOMS {
            let fits = form.notice() <= length as usize;
            let came = if fits {
                "265 type 0: 2001"
            } else {
                "handle: number 4"
            };
            all.push(room_key(form.number(), length, came));
        }
    }
    all.into_iter().collect()
}

const TAIL: &str = "abort: written, not all zero behind the texts";
const NO_TAIL: &str = "abort: written, all zero behind the texts";

/// What the report says of judging an answer.
pub fn answered_key(code: u32) -> &'static str {
    if code == 1 {
        "answered: belongs"
    } else {
        "answered: does not belong"
    }
}

fn length_key(what: &str, length: usize, number: u32) -> String {
    format!("abort, {what} of {length}: number {number}")
}

fn fault_key(fault: &str) -> String {
    format!("does not belong: {fault}")
}

fn no_fault_key(sign: &str) -> String {
    format!("belongs: {sign}")
}

fn room_key(form: u32, length: u32, came: &str) -> String {
    format!("form {form}, a notice room of {length}, {came}")
}

/// `came` is what the report says of the call by itself.
pub fn signs_of_aborts(operation: &Operation, seen: &Seen, came: &str) -> Vec<String> {
    let mut signs = match operation {
        Operation::Abort(aborting) => signs_of_writing(aborting, seen.numbers[0]),
        Operation::Answered(asked) => signs_of_answer(asked, seen.numbers[0] == 1),
        Operation::Handle(asked) => vec![sign_of_room(asked, came)],
        _ => return Vec::new(),
    };
    signs.retain(|sign| WANTED_OF_ABORTS.contains(sign));
    signs
}

fn sign_of_room(asked: &Asked, came: &str) -> String {
    room_key(asked.form, asked.notice_room.length, came)
}

fn signs_of_writing(aborting: &Aborting, number: u32) -> Vec<String> {
    let [session, host, realm] = aborting.lengths.map(|n| n as usize);
    let room = aborting.room.length as usize;
    let said = [
        ("own host", aborting.host.len()),
        ("own realm", aborting.realm.len()),
        ("Session-Id", session),
        ("host", host),
        ("realm", realm),
        ("notice", aborting.notice.len()),
        ("room", room),
    ];
    let mut signs: Vec<String> = said
        .iter()
        .map(|(what, length)| length_key(what, *length, number))
        .collect();
    let text = |n: usize| (1..=128).contains(&n);
    let holding = [
        (2, !text(said[0].1) || !text(said[1].1)),
        (4, aborting.notice.len() < 384),
        (22, ![session, host, realm].into_iter().all(text)),
        (23, room < LEAST_ROOM),
    ];
    let beside = holding.iter().filter(|(n, holds)| *holds && *n != number);
    signs.extend(beside.map(|(n, _)| format!("abort: {number} beside {n}")));
    if number == 0 {
        let behind = |k: usize| &aborting.notice[128 * k + said[2 + k].1..128 * (k + 1)];
        let zero = (0..3).all(|k| behind(k).iter().all(|&byte| byte == 0));
        signs.push(if zero { NO_TAIL } else { TAIL }.to_string());
    }
    signs
}

fn signs_of_answer(asked: &Answering, belongs: bool) -> Vec<String> {
    let faults = faults(asked);
    match faults.as_slice() {
        [] if belongs => no_faults(asked).into_iter().map(no_fault_key).collect(),
        [alone] if !belongs => vec![fault_key(alone)],
        _ => Vec::new(),
    }
}

/// The AVPs in front of the first that is broken, and how that one is.
fn walked(answer: &[u8]) -> (Vec<Avp<'_>>, Option<&'static str>) {
    let mut avps = Vec::new();
    let mut rest = answer.get(HEADER..).unwrap_or_default();
    while !rest.is_empty() {
        let Ok(avp) = walk_tests(rest) else {
            return (avps, Some(broken(rest)));
        };
        rest = &rest[avp.whole.len()..];
        avps.push(avp);
    }
    (avps, None)
}

fn broken(rest: &[u8]) -> &'static str {
    if rest.len() < 8 {
        return "under 8 bytes behind the last AVP";
    }
    if rest[4] & AVP_RESERVED != 0 {
        return "reserved bits of an AVP";
    }
    let start = if rest[4] & 0x80 != 0 { 12 } else { 8 };
    if number(&rest[5..8]) < start {
        return "an AVP shorter than its header";
    }
    "an AVP past the end"
}

/// All that is wrong with an answer, as far as it can be read. Where the walk fails, or
/// the frame does, what it holds is not looked at.
fn faults(asked: &Answering) -> Vec<&'static str> {
    let answer = &asked.answer;
    let Some(header) = header(answer) else {
        return vec!["under 20 bytes"];
    };
    let length = answer.len();
    let (avps, broken) = walked(answer);
    let mut all = Vec::new();
    let mut say = |holds: bool, fault| all.extend(holds.then_some(fault));
    say(length > 4_096, "over 4,096 bytes");
    say(header.version != 1, "another version");
    let is_true = header.length as usize == length;
    say(!is_true, "a length that is not true");
    let odd = !length.is_multiple_of(4);
    say(is_true && odd, "a length that is no multiple of 4");
    say(header.command != ABORT_SESSION, "another command");
    say(header.flags & REQUEST != 0, "R set");
    let came = identifiers(answer);
    let [hop, end] = asked.identifiers;
    if came == [end, hop] && hop != end {
        say(true, "the identifiers exchanged");
    } else {
        say(came[0] != hop, "another Hop-by-Hop identifier");
        say(came[1] != end, "another End-to-End identifier");
    }
    match broken {
        Some(how) => say(!odd, how),
        None => {
            all.extend(faults_of_session(&avps, &asked.session));
            all.extend(faults_of_result(&avps));
        }
    }
    all
}

fn identifiers(answer: &[u8]) -> [u32; 2] {
    [number(&answer[12..16]), number(&answer[16..20])]
}

fn with_v(avps: &[Avp], name: Name) -> bool {
    let with_v = |avp: &Avp| avp.code == name.code && avp.vendor.is_some();
    avps.iter().any(with_v)
}

fn faults_of_session(avps: &[Avp], sent: &[u8]) -> Option<&'static str> {
    let found: Vec<&Avp> = avps.iter().filter(|avp| is(avp, SESSION_ID)).collect();
    let first = avps.first().is_some_and(|avp| is(avp, SESSION_ID));
    let of_v = with_v(avps, SESSION_ID);
    let came = found.first().map_or(&[][..], |avp| avp.value);
    let same = came == sent;
    match (found.len(), first) {
        (0, _) if of_v => Some("the Session-Id with V"),
        (0, _) => Some("no Session-Id"),
        (1, false) if same && with_v(&avps[..1], SESSION_ID) => {
            Some("the Session-Id behind one with V")
        }
        (1, false) if same => Some("the Session-Id not first"),
        (1, true) if same => None,
        (1, true) if came.eq_ignore_ascii_case(sent) => Some("a Session-Id in another case"),
        (1, true) if came.starts_with(sent) => Some("a Session-Id that is longer"),
        (1, true) if sent.starts_with(came) => Some("a Session-Id that is shorter"),
        (2, true) if same && found[1].value == sent => Some("the Session-Id twice"),
        (2, true) if same => Some("a second Session-Id of other bytes"),
        _ => Some("a Session-Id of other bytes"),
    }
}

fn faults_of_result(avps: &[Avp]) -> Option<&'static str> {
    let found: Vec<&Avp> = avps.iter().filter(|avp| is(avp, RESULT_CODE)).collect();
    match found.as_slice() {
        [] if with_v(avps, RESULT_CODE) => Some("the Result-Code with V"),
        [] if experimental(avps) => Some("an Experimental-Result for the Result-Code"),
        [] => Some("no Result-Code"),
        [one] if one.value.len() != 4 => Some("a Result-Code that has not 4 bytes"),
        [_] => None,
        _ => Some("two Result-Codes"),
    }
}

fn experimental(avps: &[Avp]) -> bool {
    avps.iter()
        .any(|avp| avp.code == 297 && avp.vendor.is_none())
}

/// What is in an answer that belongs, though it could be taken for a fault.
fn no_faults(asked: &Answering) -> Vec<&'static str> {
    let answer = &asked.answer;
    let (avps, _) = walked(answer);
    let mut all = Vec::new();
    let mut say = |holds: bool, sign| all.extend(holds.then_some(sign));
    let flags = answer[4];
    say(flags == PROXIABLE, "flag P");
    say(flags == ERROR, "flag E");
    say(flags == RETRANSMITTED, "flag T");
    let low = flags & HEADER_RESERVED;
    say(low != 0 && low == flags, "low bits of the flags");
    say(flags == 0, "no flags");
    let application = number(&answer[8..12]);
    say(application == 0, "Application-Id 0");
    say(application == 1, "Application-Id 1");
    let unknown = avps.iter().any(|avp| (DOCUMENT_01.supported)(avp).is_err());
    say(unknown, "an AVP with M that is not known");
    let session = asked.session.len();
    say(session == 0, "a Session-Id of 0 bytes");
    say(session == 129, "a Session-Id of 129 bytes");
    let beside = with_v(&avps, SESSION_ID);
    say(beside, "a Session-Id with V behind the other");
    let beside = with_v(&avps, RESULT_CODE);
    say(beside, "a Result-Code with V beside the other");
    let beside = experimental(&avps);
    say(beside, "an Experimental-Result beside the Result-Code");
    let result = avps.iter().find(|avp| is(avp, RESULT_CODE));
    let other = result.is_some_and(|avp| number(avp.value) != 2001);
    say(other, "a Result-Code that is not 2001");
    say(answer.len() == 40, "40 bytes");
    say(answer.len() == 4_096, "4,096 bytes");
    let [hop, end] = asked.identifiers;
    say(hop == end, "the same identifier twice");
    all
}
