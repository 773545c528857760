//! The gateway once more, as plainly as the papers have it: what a call has to give.

use oracle::reauth_calls::{Given, ReAuthCall};

/// Known without V (W1), Re-Auth-Request-Type among them.
const KNOWN: [u32; 59] = [
    1, 258, 263, 264, 266, 268, 274, 279, 283, 284, 293, 295, 296, 297, 298, 443, 444,
    450, // 01
    32, 4, 95, 5, 87, 61, 62, 2, 6, 24, 291, 276, 277, 19, 30, 31, 94, 77, 402, 60, 13, 96, 8, 9,
    12, 7, 70, 73, 74, 14, 98, 36, 35, 63, 34, 401, 578, 278, 282, // the AA-Request's grammar
    25,  // the termination's
    285, // W11
];
const KNOWN_OF_3GPP: [u32; 5] = [100, 304, 311, 312, 600];

/// The two results, the answer and the request, both empty where none is written.
#[derive(Debug, PartialEq, Eq)]
pub struct Wanted {
    pub numbers: [u32; 4],
    pub answer: Vec<u8>,
    pub request: Vec<u8>,
}

/// The rooms are as wanted: written at the front, and nothing behind.
pub fn is_wanted(call: &ReAuthCall, given: &Given) -> bool {
    let wanted = wanted(call);
    let mut rooms = [call.answer_room.fresh(), call.request_room.fresh()];
    for (room, bytes) in rooms.iter_mut().zip([&wanted.answer, &wanted.request]) {
        if !bytes.is_empty() {
            room[..bytes.len()].copy_from_slice(bytes);
        }
    }
    let [answer, request] = rooms;
    given.result.numbers() == wanted.numbers
        && given.answer_room == answer
        && given.request_room == request
}

pub fn wanted(call: &ReAuthCall) -> Wanted {
    let number = number(call);
    if number != 0 {
        return Wanted {
            numbers: [number, 0, 0, 0],
            answer: Vec::new(),
            request: Vec::new(),
        };
    }
    let message = &call.message;
    let avps = match header_code(message) {
        0 => walk(message),
        code => Err(code),
    };
    let code = match &avps {
        Err(code) => *code,
        Ok(avps) => code_behind_the_walk(call, avps),
    };
    let answer = answer(call, code, &avps.clone().unwrap_or_default());
    let request = match (&avps, code) {
        (Ok(avps), 2001) => request(call, avps),
        _ => Vec::new(),
    };
    let lengths = [answer.len() as u32, request.len() as u32];
    Wanted {
        numbers: [code, 1, lengths[0], lengths[1]],
        answer,
        request,
    }
}

fn big_endian(bytes: &[u8]) -> usize {
    let add = |sum: usize, byte: &u8| sum * 256 + usize::from(*byte);
    bytes.iter().fold(0, add)
}

fn number(call: &ReAuthCall) -> u32 {
    let bad = |text: &[u8]| text.is_empty() || text.len() > 128;
    let message = &call.message;
    if bad(&call.host) || bad(&call.realm) {
        2
    } else if call.answer_room.length.min(call.request_room.length) < 5_120 {
        3
    } else if bad(&call.session)
        || bad(&call.user)
        || call.label.is_empty()
        || call.label.len() > 100
        || call.visited.len() > 128
    {
        22
    } else if message.len() < 20 || message.len() > 4_096 {
        5
    } else if message[0] != 1 {
        6
    } else if big_endian(&message[1..4]) != message.len() || message.len() % 4 != 0 {
        7
    } else if message[4] < 0x80 {
        8
    } else {
        0
    }
}

fn header_code(message: &[u8]) -> u32 {
    if message[4] & 0x0F != 0 {
        5013
    } else if message[4] & 0x20 != 0 {
        3008
    } else if message[5..8] != [0, 1, 2] {
        3001
    } else if message[8..12] != [0, 0, 0, 1] {
        3007
    } else {
        0
    }
}

/// An AVP: its code, its vendor if V is set, its value, and all its bytes with padding.
type Avp<'m> = (u32, Option<u32>, &'m [u8], &'m [u8]);

/// The four tests of the AVP at the front, and what it is.
fn first(rest: &[u8]) -> Result<Avp<'_>, u32> {
    if rest.len() < 8 {
        return Err(5014);
    }
    if rest[4] & 0x1F != 0 {
        return Err(3009);
    }
    let (length, with_v) = (big_endian(&rest[5..8]), rest[4] & 0x80 != 0);
    let least = if with_v { 12 } else { 8 };
    let end = length.div_ceil(4) * 4;
    if length < least || end > rest.len() {
        return Err(5014);
    }
    let vendor = with_v.then(|| big_endian(&rest[8..12]) as u32);
    let code = big_endian(&rest[..4]) as u32;
    Ok((code, vendor, &rest[least..length], &rest[..end]))
}

fn walk(message: &[u8]) -> Result<Vec<Avp<'_>>, u32> {
    let mut at = 20;
    let mut avps = Vec::new();
    while at < message.len() {
        let avp = first(&message[at..])?;
        let known = match avp.1 {
            None => KNOWN.contains(&avp.0),
            Some(vendor) => vendor == 10_415 && KNOWN_OF_3GPP.contains(&avp.0),
        };
        if message[at + 4] & 0x40 != 0 && !known {
            return Err(5001);
        }
        at += avp.3.len();
        avps.push(avp);
    }
    Ok(avps)
}

/// All values under a code without V.
fn values<'m>(avps: &[Avp<'m>], code: u32) -> Vec<&'m [u8]> {
    let named = avps.iter().filter(|avp| (avp.0, avp.1) == (code, None));
    named.map(|avp| avp.2).collect()
}

/// The list in its order, then 5002, then 2001.
fn code_behind_the_walk(call: &ReAuthCall, avps: &[Avp]) -> u32 {
    if avps.first().is_none_or(|avp| (avp.0, avp.1) != (263, None)) {
        return 5005;
    }
    for (code, value) in [
        (263, None),
        (258, Some(1)),
        (264, None),
        (296, None),
        (283, None),
        (293, None),
        (285, Some(0)),
    ] {
        let values = values(avps, code);
        match (values.len(), value) {
            (0, _) => return 5005,
            (2.., _) => return 5009,
            (_, None) if !(1..=128).contains(&values[0].len()) => return 5014,
            (_, Some(_)) if values[0].len() != 4 => return 5014,
            (_, Some(right)) if big_endian(values[0]) != right => return 5004,
            _ => (),
        }
    }
    if avps[0].2 == call.session {
        2001
    } else {
        5002
    }
}

/// An AVP with M, with a vendor if there is one.
fn put(to: &mut Vec<u8>, code: u32, vendor: Option<u32>, value: &[u8]) {
    let head = if vendor.is_some() { 12 } else { 8 };
    to.extend(code.to_be_bytes());
    to.push(if vendor.is_some() { 0xC0 } else { 0x40 });
    to.extend(&((head + value.len()) as u32).to_be_bytes()[1..]);
    to.extend(vendor.into_iter().flat_map(u32::to_be_bytes));
    to.extend(value);
    while to.len() % 4 != 0 {
        to.push(0);
    }
}

fn with_length(mut message: Vec<u8>) -> Vec<u8> {
    let length = (message.len() as u32).to_be_bytes();
    message[1..4].copy_from_slice(&length[1..]);
    message
}

/// As a 275 is answered: no Auth AVPs and no Subscription-Id.
fn answer(call: &ReAuthCall, code: u32, avps: &[Avp]) -> Vec<u8> {
    let message = &call.message;
    let mut bytes = message[..20].to_vec();
    let error = if (3_000..4_000).contains(&code) {
        0x20
    } else {
        0
    };
    bytes[4] = message[4] & 0x40 | error;
    if let Ok((263, None, value, _)) = first(&message[20..])
        && (1..=128).contains(&value.len())
    {
        put(&mut bytes, 263, None, value);
    }
    put(&mut bytes, 268, None, &code.to_be_bytes());
    put(&mut bytes, 264, None, &call.host);
    put(&mut bytes, 296, None, &call.realm);
    let proxies = avps.iter().filter(|avp| (avp.0, avp.1) == (284, None));
    bytes.extend(proxies.flat_map(|avp| avp.3));
    with_length(bytes)
}

/// The AA-Request of type 0, to where the Re-Auth-Request came from.
fn request(call: &ReAuthCall, avps: &[Avp]) -> Vec<u8> {
    let mut bytes = vec![1, 0, 0, 0, 0xC0, 0, 1, 9, 0, 0, 0, 1];
    bytes.extend(call.identifiers.into_iter().flat_map(u32::to_be_bytes));
    let of_3gpp = Some(10_415);
    put(&mut bytes, 263, None, &call.session);
    put(&mut bytes, 258, None, &[0, 0, 0, 1]);
    put(&mut bytes, 264, None, &call.host);
    put(&mut bytes, 296, None, &call.realm);
    put(&mut bytes, 283, None, values(avps, 296)[0]);
    put(&mut bytes, 274, None, &[0, 0, 0, 2]);
    put(&mut bytes, 293, None, values(avps, 264)[0]);
    put(&mut bytes, 1, None, &call.user);
    put(&mut bytes, 311, of_3gpp, &[0; 4]);
    if !call.visited.is_empty() {
        put(&mut bytes, 600, of_3gpp, &call.visited);
    }
    put(&mut bytes, 100, of_3gpp, &call.label);
    with_length(bytes)
}
