//! Wrong programs of the disconnection (W6): of the notice of form 2, of the
//! Abort-Session-Request, and of what is said of an answer.

use oracle::disconnecting::*;
use oracle::handling::{Call, frame_number, no_answer};
use oracle::known_avps::supported;
use oracle::reading_a_message::*;
use oracle::rules::Rules;
use oracle::the_table::*;
use oracle::writing_the_answer::{EXPERIMENTAL_RESULT, avp, cut_lengths, notice, number_avp};

use crate::calls::then;
use crate::{RIGHT, Wrong};

/// Those that write or judge otherwise: no other call tells them apart, and none of these
/// has to do with the table.
pub fn programs() -> Vec<Wrong> {
    [
        numbers(),
        headers(),
        texts(),
        avps(),
        rooms(),
        frames(),
        looked_at(),
        sessions(),
        results(),
    ]
    .concat()
}

/// The number of a call whose notice room has to have this many bytes.
fn with_notice_of(least: usize, rules: &Rules, call: &Call) -> u16 {
    match no_answer(rules, call) {
        4 if call.notice_room.len() >= least => 0,
        0 if call.notice_room.len() < least => 4,
        number => number,
    }
}

/// Those that tell of a cut otherwise.
pub fn notices() -> Vec<Wrong> {
    wrong! {
        "takes a notice room of 256 bytes in form 2": no_answer = |r, call| {
            with_notice_of(256, r, call)
        };
        "wants a notice room of 384 bytes in form 1": no_answer = |r, call| {
            with_notice_of(384, r, call)
        };
        "takes a notice room of 383 bytes in form 2": no_answer = |r, call| match no_answer(r, call) {
            4 if call.notice_room.len() == 383 => 0,
            number => number,
        };
        "leaves the realm out of the notice": notice = |_, room, cut| {
            notice(Form::One, room, cut);
        };
        "zeros for the realm in the notice": notice = |form, room, cut| {
            notice(form, room, &Access { realm: Vec::new(), ..cut.clone() });
        };
        "old bytes behind the notice's realm": notice = |form, room, cut| {
            notice(Form::One, room, cut);
            if form == Form::Two { put(room, 256, &cut.realm) }
        };
        "leaves the room alone for a realm of no bytes": notice = |form, room, cut| {
            notice(if cut.realm.is_empty() { Form::One } else { form }, room, cut);
        };
        "the realm before the host in the notice": notice = |form, room, cut| {
            let (host, realm) = (cut.realm.clone(), cut.host.clone());
            let cut = if form == Form::Two { &Access { host, realm, ..cut.clone() } } else { cut };
            notice(form, room, cut);
        };
        "a notice of 384 bytes in form 1 too": notice = |form, room, cut| {
            notice(if room.len() < 384 { form } else { Form::Two }, room, cut);
        };
        "clears a byte behind the notice": notice = |form, room, cut| {
            notice(form, room, cut);
            if let Some(byte) = room.get_mut(form.notice()) { *byte = 0 }
        };
        "does not tell the cut realm's length": cut_lengths = |cut| {
            let [session, host, _] = cut_lengths(cut);
            [session, host, 0]
        };
        "tells the room of the realm for its length": cut_lengths = |cut| {
            let [session, host, realm] = cut_lengths(cut);
            [session, host, if realm == 0 { 0 } else { 128 }]
        };
        "tells the host's length for the realm's": cut_lengths = |cut| {
            let [session, host, _] = cut_lengths(cut);
            [session, host, host]
        };
        "tells realm and host in another order": cut_lengths = |cut| {
            let [session, host, realm] = cut_lengths(cut);
            [session, realm, host]
        };
        "tells a cut realm without a cut": handle = |r, call| {
            let realm = call.realm.len();
            then(r, call, |o| if o.place > 0 && o.cut.is_none() { o.cut = Some([0, 0, realm]) })
        };
    }
}

/// Which numbers hold of a writing, in the order of the request.
fn holding(abort: &Abort, room: usize) -> Vec<u8> {
    let long = [b'x'; 384];
    let good = Abort {
        host: b"h",
        realm: b"r",
        notice: &long,
        lengths: [1; 3],
        ..*abort
    };
    let each = [
        abort_number(
            &Abort {
                host: abort.host,
                realm: abort.realm,
                ..good
            },
            1_024,
        ),
        abort_number(
            &Abort {
                notice: abort.notice,
                ..good
            },
            1_024,
        ),
        abort_number(
            &Abort {
                lengths: abort.lengths,
                ..good
            },
            1_024,
        ),
        abort_number(&good, room),
    ];
    each.into_iter().filter(|number| *number != 0).collect()
}

/// The first number of this order that holds.
fn in_order(abort: &Abort, room: usize, order: [u8; 4]) -> u8 {
    let holding = holding(abort, room);
    let first = order.into_iter().find(|number| holding.contains(number));
    first.unwrap_or(0)
}

/// The number as if these lengths were others.
fn as_if(abort: &Abort, room: usize, length: fn(u32) -> u32) -> u8 {
    let lengths = abort.lengths.map(length);
    abort_number(&Abort { lengths, ..*abort }, room)
}

fn numbers() -> Vec<Wrong> {
    wrong! {
        "tests 4 before 2": abort_number = |a, room| in_order(a, room, [4, 2, 22, 23]);
        "tests 22 before 4": abort_number = |a, room| in_order(a, room, [2, 22, 4, 23]);
        "tests 23 before 22": abort_number = |a, room| in_order(a, room, [2, 4, 23, 22]);
        "tests 23 before 4": abort_number = |a, room| in_order(a, room, [2, 23, 4, 22]);
        "tests 22 before 2": abort_number = |a, room| in_order(a, room, [22, 2, 4, 23]);
        "tests 23 first": abort_number = |a, room| in_order(a, room, [23, 2, 4, 22]);
        "takes a notice of 256 bytes for writing": abort_number = |a, room| match abort_number(a, room) {
            4 if a.notice.len() >= 256 => 22,
            number => number,
        };
        "takes notices of 384 bytes alone": abort_number = |a, room| match abort_number(a, room) {
            0 | 22 | 23 if a.notice.len() != 384 => 4,
            number => number,
        };
        "wants a notice of 385 bytes": abort_number = |a, room| match abort_number(a, room) {
            0 | 22 | 23 if a.notice.len() < 385 => 4,
            number => number,
        };
        "takes a Session-Id of no bytes": abort_number = |a, room| {
            let [session, host, realm] = a.lengths;
            abort_number(&Abort { lengths: [session.max(1), host, realm], ..*a }, room)
        };
        "takes a host of no bytes": abort_number = |a, room| {
            let [session, host, realm] = a.lengths;
            abort_number(&Abort { lengths: [session, host.max(1), realm], ..*a }, room)
        };
        "takes a realm of no bytes": abort_number = |a, room| {
            let [session, host, realm] = a.lengths;
            abort_number(&Abort { lengths: [session, host, realm.max(1)], ..*a }, room)
        };
        "takes lengths of at most 127": abort_number = |a, room| as_if(a, room, |n| n + u32::from(n == 128));
        "takes lengths of two bytes and more": abort_number = |a, room| as_if(a, room, |n| n - u32::from(n == 1));
        "refuses 129 with 23": abort_number = |a, room| match abort_number(a, room) {
            22 if a.lengths.contains(&129) => 23,
            number => number,
        };
        "takes rooms that are just long enough": abort_number = |a, room| match abort_number(a, room) {
            23 if room >= 712 => 0,
            number => number,
        };
        "takes a room of 1,023 bytes": abort_number = |a, room| abort_number(a, room + room % 2);
        "wants a room of 1,025 bytes": abort_number = |a, room| abort_number(a, room - usize::from(room == 1_024));
        "takes an own host of 129 bytes": abort_number = |a, room| match abort_number(a, room) {
            2 if a.host.len() == 129 => 0,
            number => number,
        };
        "takes an own realm of no bytes": abort_number = |a, room| match abort_number(a, room) {
            2 if a.realm.is_empty() => 0,
            number => number,
        };
        "does not test the own realm": abort_number = |a, room| {
            abort_number(&Abort { realm: b"r", ..*a }, room)
        };
    }
}

/// A header with one thing otherwise.
fn header_with(abort: &Abort, change: fn(&mut [u8; HEADER])) -> [u8; HEADER] {
    let mut bytes = abort_header(abort);
    change(&mut bytes);
    bytes
}

fn headers() -> Vec<Wrong> {
    wrong! {
        "exchanges the request's identifiers": abort_header = |a| {
            let [hop, end] = a.identifiers;
            abort_header(&Abort { identifiers: [end, hop], ..*a })
        };
        "one identifier for both": abort_header = |a| {
            abort_header(&Abort { identifiers: [a.identifiers[0]; 2], ..*a })
        };
        "no P in the request": abort_header = |a| header_with(a, |bytes| bytes[4] = REQUEST);
        "no R in the request": abort_header = |a| header_with(a, |bytes| bytes[4] = PROXIABLE);
        "T in the request": abort_header = |a| header_with(a, |bytes| bytes[4] |= RETRANSMITTED);
        "Application-Id 0 in the request": abort_header = |a| header_with(a, |bytes| bytes[11] = 0);
        "Application-Id of 3GPP in the request": abort_header = |a| header_with(a, |bytes| {
            put(bytes, 8, &VENDOR_3GPP.to_be_bytes())
        });
        "asks for a termination": abort_header = |a| header_with(a, |bytes| bytes[7] = 19);
        "version 0 in the request": abort_header = |a| header_with(a, |bytes| bytes[0] = 0);
    }
}

/// The 128 bytes of a text of the notice, whatever its length.
fn whole<'a>(abort: &Abort<'a>, place: usize) -> &'a [u8] {
    &abort.notice[128 * place..][..128]
}

fn without_zeros(bytes: &[u8]) -> &[u8] {
    let length = bytes
        .iter()
        .rposition(|&byte| byte != 0)
        .map_or(0, |at| at + 1);
    &bytes[..length]
}

fn texts() -> Vec<Wrong> {
    wrong! {
        "sends the tails of the notice": abort_texts = |a| [whole(a, 0), whole(a, 1), whole(a, 2)];
        "sends the tail of the realm": abort_texts = |a| {
            let [session, host, _] = abort_texts(a);
            [session, host, whole(a, 2)]
        };
        "goes by the zeros of the notice, not by the lengths": abort_texts = |a| {
            [0, 1, 2].map(|place| without_zeros(whole(a, place)))
        };
        "exchanges the gateway's host and realm": abort_texts = |a| {
            let [session, host, realm] = abort_texts(a);
            [session, realm, host]
        };
        "takes the realm at the host's length": abort_texts = |a| {
            let [session, host, _] = abort_texts(a);
            [session, host, &whole(a, 2)[..host.len()]]
        };
        "takes the texts one right behind another": abort_texts = |a| {
            let [session, host, realm] = a.lengths.map(|n| n as usize);
            let (behind, end) = (session + host, session + host + realm);
            [&a.notice[..session], &a.notice[session..behind], &a.notice[behind..end]]
        };
        "refuses a notice that is not zero behind its texts": abort = |r, a, room| {
            let number = abort_number(a, room.len());
            let clean = |place| abort_texts(a)[place] == without_zeros(whole(a, place));
            if number == 0 && !(0..3).all(clean) {
                return Written { number: 22, length: 0 };
            }
            write_abort(r, a, room)
        };
    }
}

/// The AVPs with some of them changed.
fn avps_with(abort: &Abort, texts: [&[u8]; 3], change: impl Fn(&mut Vec<Vec<u8>>)) -> Vec<Vec<u8>> {
    let mut all = abort_avps(abort, texts);
    change(&mut all);
    all
}

/// The padding counted into an AVP's length.
fn counted(bytes: &mut [u8]) {
    let length = bytes.len() as u32;
    put(bytes, 5, &length.to_be_bytes()[1..]);
}

fn avps() -> Vec<Wrong> {
    wrong! {
        "destinations for origins": abort_avps = |a, [session, host, realm]| {
            abort_avps(&Abort { host, realm, ..*a }, [session, a.host, a.realm])
        };
        "destination and origin hosts exchanged": abort_avps = |a, [session, host, realm]| {
            abort_avps(&Abort { host, ..*a }, [session, a.host, realm])
        };
        "Destination-Host before Destination-Realm": abort_avps = |a, t| {
            avps_with(a, t, |all| all.swap(3, 4))
        };
        "Origin-Realm before Origin-Host": abort_avps = |a, t| avps_with(a, t, |all| all.swap(1, 2));
        "destinations before origins": abort_avps = |a, t| avps_with(a, t, |all| {
            all[1..5].rotate_left(2)
        });
        "Auth-Application-Id behind the Session-Id": abort_avps = |a, t| avps_with(a, t, |all| {
            all[1..].rotate_right(1)
        });
        "the Session-Id last": abort_avps = |a, t| avps_with(a, t, |all| all.rotate_left(1));
        "no Auth-Application-Id": abort_avps = |a, t| avps_with(a, t, |all| all.truncate(5));
        "Auth-Application-Id 0": abort_avps = |a, t| avps_with(a, t, |all| {
            all[5] = number_avp(AUTH_APPLICATION_ID.code, 0)
        });
        "no Destination-Host": abort_avps = |a, t| avps_with(a, t, |all| { all.remove(4); });
        "counts the padding": abort_avps = |a, t| avps_with(a, t, |all| {
            all.iter_mut().for_each(|avp| counted(avp))
        });
        "counts the padding of the Session-Id": abort_avps = |a, t| avps_with(a, t, |all| counted(&mut all[0]));
        "does not pad": abort_avps = |a, t| avps_with(a, t, |all| {
            all.iter_mut().for_each(|avp| avp.truncate(usize::from(avp[7])))
        });
        "pads with the bytes of the notice": abort_avps = |a, t| avps_with(a, t, |all| {
            let length = usize::from(all[0][7]);
            let rest = whole(a, 0)[length - 8..].iter();
            all[0][length..].iter_mut().zip(rest).for_each(|(to, from)| *to = *from);
        });
        "no M on the Destination-Host": abort_avps = |a, t| avps_with(a, t, |all| all[4][4] = 0);
        "the realm under Origin-Realm's code": abort_avps = |a, t| avps_with(a, t, |all| {
            all[3] = avp(ORIGIN_REALM.code, t[2])
        });
        "an AVP more": abort_avps = |a, t| avps_with(a, t, |all| {
            all.push(number_avp(TERMINATION_CAUSE.code, 4))
        });
    }
}

fn rooms() -> Vec<Wrong> {
    wrong! {
        "clears the rest of the request's room": abort = |r, a, room| {
            if abort_number(a, room.len()) == 0 { room.fill(0) }
            write_abort(r, a, room)
        };
        "clears the room of a request that is refused": abort = |r, a, room| {
            let written = write_abort(r, a, room);
            if written.number != 0 { room.fill(0) }
            written
        };
        "writes the header before 22 is tested": abort = |r, a, room| {
            let written = write_abort(r, a, room);
            if written.number == 22 && room.len() >= HEADER { put(room, 0, &abort_header(a)) }
            written
        };
        "writes nothing": abort = |r, a, room| write_abort(r, a, &mut room.to_vec());
        "a request's length without its header": abort = |r, a, room| {
            let written = write_abort(r, a, room);
            Written { length: written.length.saturating_sub(20), ..written }
        };
        "a length with a number": abort = |r, a, room| {
            let written = write_abort(r, a, room);
            Written { length: written.length.max(20), ..written }
        };
        "a header length without the header": abort = |r, a, room| {
            let written = write_abort(r, a, room);
            if written.number == 0 {
                let length = (written.length as u32 - 20).to_be_bytes();
                put(room, 1, &length[1..]);
            }
            written
        };
        "the room's length in the header": abort = |r, a, room| {
            let written = write_abort(r, a, room);
            let length = (room.len() as u32).to_be_bytes();
            if written.number == 0 { put(room, 1, &length[1..]) }
            written
        };
    }
}

fn frames() -> Vec<Wrong> {
    wrong! {
        "all answers belong": belongs = |_, _, _| true;
        "no answer belongs": belongs = |_, _, _| false;
        "answers of any version": answer_number = |m| match frame_number(m) { 6 => 0, n => n };
        "answers of any length in the header": answer_number = |m| match frame_number(m) {
            7 if m.len().is_multiple_of(4) => 0,
            n => n,
        };
        "answers of over 4,096 bytes": answer_number = |m| match frame_number(m) {
            5 if m.len() > 4_096 => 0,
            n => n,
        };
        "answers of under 4,096 bytes": answer_number = |m| if m.len() == 4_096 { 5 } else { frame_number(m) };
        "answers of a room longer than the header says": belongs = |r, sent, m| {
            let said = header(m).map_or(0, |h| h.length as usize);
            belongs(r, sent, m.get(..said).unwrap_or(m))
        };
        "refuses an answer for an AVP that is not known": supported_in_answers = supported;
        "does not walk behind the Result-Code": walk_is_over = walk_is_over, belongs = |r, sent, m| {
            let mut end = HEADER.min(m.len());
            while let Ok(avp) = walk_tests(&m[end..]) {
                end += avp.whole.len();
                if is(&avp, RESULT_CODE) { break }
            }
            let mut shorter = m[..end].to_vec();
            let length = (end as u32).to_be_bytes();
            if end >= 4 && frame_number(m) == 0 { put(&mut shorter, 1, &length[1..]) }
            belongs(r, sent, m) || belongs(r, sent, &shorter)
        };
        "takes a rest of 4 bytes in an answer": belongs = |r, sent, m| {
            belongs(&Rules { walk_is_over: |rest| rest.len() < 8, ..*r }, sent, m)
        };
        "takes reserved bits of AVPs in an answer": belongs = |r, sent, m| {
            belongs(&Rules { walk_tests: without_reserved, ..*r }, sent, m)
        };
    }
}

/// The four tests but for the reserved bits.
fn without_reserved(rest: &[u8]) -> Result<Avp<'_>, oracle::Code> {
    let length = number(rest.get(5..8).unwrap_or_default()) as usize;
    let whole = rest.get(..length.next_multiple_of(4)).unwrap_or_default();
    match walk_tests(rest) {
        Err(code) if code == oracle::plain(3009) && length >= 8 && length <= whole.len() => {
            Ok(Avp {
                code: number(&rest[..4]),
                vendor: None,
                mandatory: false,
                value: &rest[8..length],
                whole,
            })
        }
        other => other,
    }
}

/// The tests of an answer, one of them exchanged.
fn tests_with(which: usize, test: AnswerTest) -> &'static [AnswerTest] {
    let mut all = ANSWER_TESTS.to_vec();
    all[which] = test;
    all.leak()
}

/// The tests of an answer and one more.
fn and(test: AnswerTest) -> &'static [AnswerTest] {
    [ANSWER_TESTS, &[test]].concat().leak()
}

const COMMAND: usize = 0;
const HOP: usize = 2;
const END: usize = 3;
const FIRST: usize = 4;
const ONCE: usize = 5;
const SAME: usize = 6;
const ONE_RESULT: usize = 7;
const FOUR_BYTES: usize = 8;

fn looked_at() -> Vec<Wrong> {
    wrong! {
        "takes R for an answer": answer_tests = tests_with(1, |_| true);
        "takes requests alone": answer_tests = tests_with(1, |a| a.header.flags & REQUEST != 0);
        "takes an answer to a termination": answer_tests = tests_with(COMMAND, |a| {
            [ABORT_SESSION, TERMINATION].contains(&a.header.command)
        });
        "the identifiers in the wrong order": answer_tests = {
            let [hop, end]: [AnswerTest; 2] = [
                |a| a.identifiers[0] == a.sent.identifiers[1],
                |a| a.identifiers[1] == a.sent.identifiers[0],
            ];
            let mut all = ANSWER_TESTS.to_vec();
            (all[HOP], all[END]) = (hop, end);
            all.leak()
        };
        "the identifiers in either order": answer_tests = {
            let both: AnswerTest = |a| {
                let [hop, end] = a.sent.identifiers;
                a.identifiers == [hop, end] || a.identifiers == [end, hop]
            };
            let mut all = ANSWER_TESTS.to_vec();
            (all[HOP], all[END]) = (both, both);
            all.leak()
        };
        "the low byte of an identifier": answer_tests = tests_with(END, |a| {
            (a.identifiers[1] ^ a.sent.identifiers[1]) & 255 == 0
        });
        "the high bytes of an identifier": answer_tests = tests_with(HOP, |a| {
            (a.identifiers[0] ^ a.sent.identifiers[0]) >> 8 == 0
        });
        "refuses E": answer_tests = and(|a| a.header.flags & ERROR == 0);
        "refuses T": answer_tests = and(|a| a.header.flags & RETRANSMITTED == 0);
        "asks for P": answer_tests = and(|a| a.header.flags & PROXIABLE != 0);
        "refuses low bits of the flags": answer_tests = and(|a| a.header.flags & HEADER_RESERVED == 0);
        "asks for Application-Id 1": answer_tests = and(|a| a.header.application == 1);
        "asks for an application that is served": answer_tests = and(|a| a.header.application <= 1);
        "asks for an Origin-Host": answer_tests = and(|a| !a.values(ORIGIN_HOST).is_empty());
    }
}

fn first_value<'a>(answer: &Received<'a>, name: Name) -> &'a [u8] {
    answer.values(name).first().copied().unwrap_or_default()
}

fn sessions() -> Vec<Wrong> {
    wrong! {
        "takes the Session-Id anywhere": answer_tests = tests_with(FIRST, |_| true);
        "takes the Session-Id first or second": answer_tests = tests_with(FIRST, |a| {
            a.avps.iter().take(2).any(|avp| is(avp, SESSION_ID))
        });
        "takes the Session-Id twice": answer_tests = tests_with(ONCE, |a| !a.values(SESSION_ID).is_empty());
        "takes the Session-Id twice if it is the same": answer_tests = tests_with(ONCE, |a| {
            a.values(SESSION_ID).windows(2).all(|two| two[0] == two[1])
        });
        "takes a Session-Id with V": answer_tests = {
            let mut all = ANSWER_TESTS.to_vec();
            all[FIRST] = |a| a.avps.first().is_some_and(|avp| avp.code == SESSION_ID.code);
            all[ONCE] = |_| true;
            all[SAME] = |a| a.avps.first().is_some_and(|avp| avp.value == a.sent.session);
            all.leak()
        };
        "counts Session-Ids with V": answer_tests = and(|a| {
            a.avps.iter().filter(|avp| avp.code == SESSION_ID.code).count() == 1
        });
        "Session-Ids in either case": answer_tests = tests_with(SAME, |a| {
            first_value(a, SESSION_ID).eq_ignore_ascii_case(a.sent.session)
        });
        "a Session-Id that begins with the one sent": answer_tests = tests_with(SAME, |a| {
            first_value(a, SESSION_ID).starts_with(a.sent.session)
        });
        "a Session-Id with which the one sent begins": answer_tests = tests_with(SAME, |a| {
            a.sent.session.starts_with(first_value(a, SESSION_ID))
        });
        "Session-Ids of the same length": answer_tests = tests_with(SAME, |a| {
            first_value(a, SESSION_ID).len() == a.sent.session.len()
        });
        "Session-Ids of 1 byte or more": answer_tests = and(|a| !a.sent.session.is_empty());
        "Session-Ids of at most 128 bytes": answer_tests = and(|a| a.sent.session.len() <= 128);
        "compares the padding of the Session-Id": answer_tests = and(|a| {
            a.avps.first().is_some_and(|avp| avp.whole[8 + avp.value.len()..].iter().all(|&b| b == 0))
        });
    }
}

fn results() -> Vec<Wrong> {
    wrong! {
        "takes two Result-Codes": answer_tests = tests_with(ONE_RESULT, |a| !a.values(RESULT_CODE).is_empty());
        "takes an answer without Result-Code": answer_tests = tests_with(ONE_RESULT, |a| {
            a.values(RESULT_CODE).len() <= 1
        });
        "takes an Experimental-Result": answer_tests = tests_with(ONE_RESULT, |a| {
            a.values(RESULT_CODE).len() == 1 || a.values(base(EXPERIMENTAL_RESULT)).len() == 1
        });
        "takes a Result-Code with V": answer_tests = tests_with(ONE_RESULT, |a| {
            a.avps.iter().filter(|avp| avp.code == RESULT_CODE.code).count() == 1
        });
        "counts the Result-Codes of 4 bytes": answer_tests = {
            let mut all = ANSWER_TESTS.to_vec();
            all[ONE_RESULT] = |a| a.values(RESULT_CODE).iter().filter(|v| v.len() == 4).count() == 1;
            all[FOUR_BYTES] = |_| true;
            all.leak()
        };
        "a Result-Code of at least 4 bytes": answer_tests = tests_with(FOUR_BYTES, |a| {
            a.values(RESULT_CODE).iter().all(|v| v.len() >= 4)
        });
        "a Result-Code of at most 4 bytes": answer_tests = tests_with(FOUR_BYTES, |a| {
            a.values(RESULT_CODE).iter().all(|v| v.len() <= 4)
        });
        "a Result-Code with its padding": answer_tests = tests_with(FOUR_BYTES, |a| {
            a.values(RESULT_CODE).iter().all(|v| v.len().next_multiple_of(4) == 4)
        });
        "asks for 2001": answer_tests = and(|a| number(first_value(a, RESULT_CODE)) == 2001);
        "asks for the Result-Code right behind the Session-Id": answer_tests = and(|a| {
            a.avps.get(1).is_some_and(|avp| is(avp, RESULT_CODE))
        });
        "refuses an Experimental-Result beside": answer_tests = and(|a| {
            a.values(base(EXPERIMENTAL_RESULT)).is_empty()
        });
    }
}
