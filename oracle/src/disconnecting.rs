//! The disconnection itself (W6): the Abort-Session-Request that is made of the notice of
//! a cut in form 2, and whether an answer belongs to one that was sent.

use crate::reading_a_message::{
    AUTH_APPLICATION_ID, Avp, DESTINATION_HOST, DESTINATION_REALM, HEADER, Header, Name,
    ORIGIN_HOST, ORIGIN_REALM, PROXIABLE, REQUEST, SESSION_ID, base, header, is, number, walk,
};
use crate::rules::Rules;
use crate::the_table::{Form, put};
use crate::writing_the_answer::{avp, number_avp};

pub const ABORT_SESSION: u32 = 274;
pub const RESULT_CODE: Name = base(268);
/// The room for a request has at least so many bytes.
pub const LEAST_ROOM: usize = 1_024;

/// What a request is made of: the own names, the notice of a cut with the three lengths
/// that came with it (Session-Id, host, realm), and the identifiers, Hop-by-Hop first.
#[derive(Clone, Copy, Debug, PartialEq, Eq)]
pub struct Abort<'a> {
    pub host: &'a [u8],
    pub realm: &'a [u8],
    pub notice: &'a [u8],
    pub lengths: [u32; 3],
    pub identifiers: [u32; 2],
}

/// What writing returns; the length is 0 unless the number is.
#[derive(Clone, Copy, Debug, PartialEq, Eq, Default)]
pub struct Written {
    pub number: u8,
    pub length: usize,
}

/// Number 2, then 4, then 22, then 23; 0 if the request can be written.
pub fn abort_number(abort: &Abort, room: usize) -> u8 {
    let fits = |name: &[u8]| (1..=128).contains(&name.len());
    if !fits(abort.host) || !fits(abort.realm) {
        return 2;
    }
    if abort.notice.len() < Form::Two.notice() {
        return 4;
    }
    if !abort.lengths.iter().all(|n| (1..=128).contains(n)) {
        return 22;
    }
    if room < LEAST_ROOM {
        return 23;
    }
    0
}

/// Session-Id, host and realm of the access that was cut. What is behind a text in its
/// 128 bytes is not looked at.
pub fn abort_texts<'a>(abort: &Abort<'a>) -> [&'a [u8]; 3] {
    let text = |k: usize| &abort.notice[128 * k..][..abort.lengths[k] as usize];
    [text(0), text(1), text(2)]
}

/// The AVPs in the order of the request.
pub fn abort_avps(abort: &Abort, [session, host, realm]: [&[u8]; 3]) -> Vec<Vec<u8>> {
    vec![
        avp(SESSION_ID.code, session),
        avp(ORIGIN_HOST.code, abort.host),
        avp(ORIGIN_REALM.code, abort.realm),
        avp(DESTINATION_REALM.code, realm),
        avp(DESTINATION_HOST.code, host),
        number_avp(AUTH_APPLICATION_ID.code, 1),
    ]
}

/// The header but for its length.
pub fn abort_header(abort: &Abort) -> [u8; HEADER] {
    let mut bytes = [0; HEADER];
    bytes[0] = 1;
    put(&mut bytes, 4, &ABORT_SESSION.to_be_bytes());
    bytes[4] = REQUEST | PROXIABLE;
    put(&mut bytes, 8, &1u32.to_be_bytes());
    put(&mut bytes, 12, &abort.identifiers[0].to_be_bytes());
    put(&mut bytes, 16, &abort.identifiers[1].to_be_bytes());
    bytes
}

/// Writes at the front of the room, and nothing with a number.
pub fn write_abort(rules: &Rules, abort: &Abort, room: &mut [u8]) -> Written {
    let number = (rules.abort_number)(abort, room.len());
    if number != 0 {
        return Written { number, length: 0 };
    }
    let mut bytes = (rules.abort_header)(abort).to_vec();
    let texts = (rules.abort_texts)(abort);
    bytes.extend((rules.abort_avps)(abort, texts).concat());
    let length = bytes.len();
    put(&mut bytes, 1, &(length as u32).to_be_bytes()[1..]);
    put(room, 0, &bytes);
    Written { number, length }
}

/// The request that was sent: its Session-Id, any bytes, and its identifiers.
#[derive(Clone, Copy, Debug, PartialEq, Eq)]
pub struct Sent<'a> {
    pub session: &'a [u8],
    pub identifiers: [u32; 2],
}

/// An answer whose walk passed, beside what was sent.
pub struct Received<'a> {
    pub header: Header,
    pub identifiers: [u32; 2],
    pub avps: Vec<Avp<'a>>,
    pub sent: &'a Sent<'a>,
}

impl<'a> Received<'a> {
    /// The values of all AVPs of a name.
    pub fn values(&self, name: Name) -> Vec<&'a [u8]> {
        let named = self.avps.iter().filter(|avp| is(avp, name));
        named.map(|avp| avp.value).collect()
    }
}

pub type AnswerTest = fn(&Received) -> bool;

/// What an answer has to be behind the walk; flags other than R, the Application-Id and
/// the code that it brings have no say.
pub const ANSWER_TESTS: &[AnswerTest] = &[
    |answer| answer.header.command == ABORT_SESSION,
    |answer| answer.header.flags & REQUEST == 0,
    |answer| answer.identifiers[0] == answer.sent.identifiers[0],
    |answer| answer.identifiers[1] == answer.sent.identifiers[1],
    |answer| answer.avps.first().is_some_and(|avp| is(avp, SESSION_ID)),
    |answer| answer.values(SESSION_ID).len() == 1,
    |answer| answer.values(SESSION_ID).first() == Some(&answer.sent.session),
    |answer| answer.values(RESULT_CODE).len() == 1,
    |answer| answer.values(RESULT_CODE).iter().all(|v| v.len() == 4),
];

/// Whether an answer belongs to what was sent: numbers 5 to 7 and the walk pass, in
/// which it does not matter whether an AVP is known, and then all tests.
pub fn belongs(rules: &Rules, sent: &Sent, answer: &[u8]) -> bool {
    let Some(header) = header(answer).filter(|_| (rules.answer_number)(answer) == 0) else {
        return false;
    };
    let of_answers = Rules {
        supported: rules.supported_in_answers,
        ..*rules
    };
    let Ok(avps) = walk(&of_answers, answer) else {
        return false;
    };
    let received = Received {
        header,
        identifiers: [number(&answer[12..16]), number(&answer[16..20])],
        avps,
        sent,
    };
    rules.answer_tests.iter().all(|holds| holds(&received))
}
