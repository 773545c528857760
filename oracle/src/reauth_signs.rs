//! What of a call has to do with re-authorization at the gateway (W11), for the report.

use std::collections::BTreeSet;
use std::sync::LazyLock;

use crate::handling::message_number;
use crate::program::{Operation, Seen};
use crate::reading_a_message::{
    Avp, DESTINATION_HOST, PROXY_INFO, RE_AUTH_REQUEST_TYPE, SESSION_ID, USER_NAME, header, is,
    number,
};
use crate::reauth_calls::ReAuthCall;
use crate::report::loosely_read;

/// What has to come up; of all that could be said of the gateway's calls, the report says
/// no more.
pub static WANTED_OF_RE_AUTHS: LazyLock<BTreeSet<String>> = LazyLock::new(wanted);

/// Lengths of a text that is lent, and the number that comes of it; of a label and a
/// visited network those that differ.
const OWN: [(usize, u32); 4] = [(0, 2), (1, 0), (128, 0), (129, 2)];
const TEXTS: [(usize, u32); 4] = [(0, 22), (1, 0), (128, 0), (129, 22)];
const LABELS: [(usize, u32); 4] = [(0, 22), (1, 0), (100, 0), (101, 22)];
const VISITED: [(usize, u32); 4] = [(0, 0), (1, 0), (128, 0), (129, 22)];
const ROOMS: [(usize, u32); 3] = [(5_119, 3), (5_120, 0), (5_121, 0)];

/// The Result-Codes, 2001 for going on among them.
const CODES: [u32; 11] = [
    2001, 3001, 3007, 3008, 3009, 5001, 5002, 5004, 5005, 5009, 5013,
];

/// What stands in a request that goes on though it could be taken for a fault, and how one
/// is refused.
const SIGNS: [&str; 14] = [
    "2001, without a visited network",
    "2001, with a visited network",
    "2001, with a User-Name, which is not asked for",
    "2001, with a Proxy-Info",
    "2001, with Re-Auth-Request-Type under a vendor beside the other",
    "2001, of 4096 bytes",
    "3001 for command 265",
    "5001 for Re-Auth-Request-Type under a vendor, with M",
    "5004 for type 1",
    "5004 for a large type",
    "5005 without a type",
    "5005 without Destination-Host",
    "5009 for two types",
    "5014 for a type that has not 4 bytes",
];

fn wanted() -> BTreeSet<String> {
    let numbers = [2, 3, 22, 5, 6, 7, 8];
    let mut all: Vec<String> = numbers.map(|n| re_auth_key(0, n)).to_vec();
    all.extend(CODES.map(|code| re_auth_key(1, code)));
    all.push(re_auth_key(1, 5014));
    let mut lengths = |what: &str, of: &[(usize, u32)]| {
        all.extend(of.iter().map(|(length, n)| length_key(what, *length, *n)));
    };
    for what in ["own host", "own realm"] {
        lengths(what, &OWN);
    }
    for what in ["Session-Id", "user"] {
        lengths(what, &TEXTS);
    }
    lengths("label", &LABELS);
    lengths("visited network", &VISITED);
    for what in ["answer room", "request room"] {
        lengths(what, &ROOMS);
    }
    for (place, first) in numbers[..4].iter().enumerate() {
        let later = numbers[place + 1..4].iter();
        all.extend(later.map(|second| beside_key(*first, *second)));
    }
    all.extend(SIGNS.map(sign_key));
    all.into_iter().collect()
}

/// What the report says of a call: a number, or a code.
pub fn re_auth_key(kind: u32, code: u32) -> String {
    if kind == 0 {
        format!("reauth: number {code}")
    } else {
        format!("reauth: {code}")
    }
}

fn length_key(what: &str, length: usize, number: u32) -> String {
    format!("reauth, {what} of {length}: number {number}")
}

fn beside_key(first: u32, second: u32) -> String {
    format!("reauth: {first} beside {second}")
}

fn sign_key(sign: &str) -> String {
    format!("reauth: {sign}")
}

pub fn signs_of_re_auths(operation: &Operation, seen: &Seen) -> Vec<String> {
    let Operation::ReAuth(call) = operation else {
        return Vec::new();
    };
    let [code, kind] = [seen.numbers[0], seen.numbers[1]];
    let given = if kind == 0 { code } else { 0 };
    let mut signs = signs_of_lengths(call, given);
    signs.extend(signs_of_numbers(call, given));
    if kind != 0 {
        signs.extend(signs_of_message(call, code).into_iter().map(sign_key));
    }
    signs.retain(|sign| WANTED_OF_RE_AUTHS.contains(sign));
    signs
}

fn signs_of_lengths(call: &ReAuthCall, given: u32) -> Vec<String> {
    let said = [
        ("own host", call.host.len()),
        ("own realm", call.realm.len()),
        ("Session-Id", call.session.len()),
        ("user", call.user.len()),
        ("label", call.label.len()),
        ("visited network", call.visited.len()),
        ("answer room", call.answer_room.length as usize),
        ("request room", call.request_room.length as usize),
    ];
    said.map(|(what, length)| length_key(what, length, given))
        .to_vec()
}

/// Which of 2, 3, 22 and 5 hold of the call besides the one that was given.
fn signs_of_numbers(call: &ReAuthCall, given: u32) -> Vec<String> {
    let text = |bytes: &[u8]| (1..=128).contains(&bytes.len());
    let room = call.answer_room.length.min(call.request_room.length);
    let access = text(&call.session)
        && text(&call.user)
        && (1..=100).contains(&call.label.len())
        && call.visited.len() <= 128;
    let holding = [
        (2, !text(&call.host) || !text(&call.realm)),
        (3, room < 5_120),
        (22, !access),
        (5, message_number(&call.message) == 5),
    ];
    let beside = holding.iter().filter(|(n, holds)| *holds && *n != given);
    beside.map(|(n, _)| beside_key(given, *n)).collect()
}

fn signs_of_message(call: &ReAuthCall, code: u32) -> Vec<&'static str> {
    let (avps, _) = loosely_read(&call.message);
    match code {
        2001 => signs_of_going_on(call, &avps),
        3001 if header(&call.message).is_some_and(|h| h.command == 265) => {
            vec!["3001 for command 265"]
        }
        _ => sign_of_refusal(code, &avps).into_iter().collect(),
    }
}

fn under_vendor(avp: &Avp) -> bool {
    avp.code == RE_AUTH_REQUEST_TYPE.code && avp.vendor.is_some()
}

fn signs_of_going_on(call: &ReAuthCall, avps: &[Avp]) -> Vec<&'static str> {
    let mut all = Vec::new();
    let mut say = |holds: bool, sign| all.extend(holds.then_some(sign));
    let there = |name| avps.iter().any(|avp| is(avp, name));
    say(call.visited.is_empty(), "2001, without a visited network");
    say(!call.visited.is_empty(), "2001, with a visited network");
    let user = there(USER_NAME);
    say(user, "2001, with a User-Name, which is not asked for");
    say(there(PROXY_INFO), "2001, with a Proxy-Info");
    let beside = avps.iter().any(under_vendor);
    let sign = "2001, with Re-Auth-Request-Type under a vendor beside the other";
    say(beside, sign);
    say(call.message.len() == 4_096, "2001, of 4096 bytes");
    all
}

/// Whether the type, or Destination-Host, is what a request is refused for, as far as it
/// can be told.
fn sign_of_refusal(code: u32, avps: &[Avp]) -> Option<&'static str> {
    let types: Vec<&Avp> = avps
        .iter()
        .filter(|avp| is(avp, RE_AUTH_REQUEST_TYPE))
        .collect();
    let host = avps.iter().any(|avp| is(avp, DESTINATION_HOST));
    let first = avps.first().is_some_and(|avp| is(avp, SESSION_ID));
    match (code, types.as_slice()) {
        (5001, _) if avps.iter().any(|avp| under_vendor(avp) && avp.mandatory) => {
            Some("5001 for Re-Auth-Request-Type under a vendor, with M")
        }
        (5005, []) if first && host => Some("5005 without a type"),
        (5005, [_]) if first && !host => Some("5005 without Destination-Host"),
        (5009, [_, _, ..]) => Some("5009 for two types"),
        (5014, [one]) if one.value.len() != 4 => Some("5014 for a type that has not 4 bytes"),
        (5004, [one]) if one.value.len() == 4 => match number(one.value) {
            1 => Some("5004 for type 1"),
            2.. => Some("5004 for a large type"),
            0 => None,
        },
        _ => None,
    }
}
