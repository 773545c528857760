//! Wrong programs that differ in the answer or the notice.

use oracle::handling::{handle, no_answer};
use oracle::reading_a_message::*;
use oracle::rules::Rules;
use oracle::the_table::*;
use oracle::writing_the_answer::*;
use oracle::{Code, SUCCESS, plain};

use crate::calls::rewritten;
use crate::{RIGHT, Wrong};

/// A part of the answer that is left out if the condition holds.
fn unless(left_out: bool, part: Vec<u8>) -> Vec<u8> {
    if left_out { Vec::new() } else { part }
}

pub fn programs() -> Vec<Wrong> {
    let mut all = wrong! {
        "no Session-Id for an unknown AVP": session_part = |r| {
            unless(r.code == plain(5001), session_part(r))
        };
        "sets E for an unknown AVP": answer_flags = |asked, code| {
            answer_flags(asked, code) | if code == plain(5001) { ERROR } else { 0 }
        };
        "Proxy-Info for an unknown AVP": proxy_part = |r| {
            if r.code == plain(5001) {
                let all = walk(&Rules { supported: |_| Ok(()), ..RIGHT }, r.message);
                return proxy_part(&Reply { avps: &all.unwrap_or_default(), ..*r });
            }
            proxy_part(r)
        };
        "sets E for 5013": answer_flags = |asked, code| {
            answer_flags(asked, code) | if code == plain(5013) { ERROR } else { 0 }
        };
        "sets E for every failure": answer_flags = |asked, code| {
            answer_flags(asked, code) | if code != SUCCESS { ERROR } else { 0 }
        };
        "never sets E": answer_flags = |asked, code| answer_flags(asked, code) & !ERROR;
        "does not keep P": answer_flags = |_, code| answer_flags(0, code);
        "always sets P": answer_flags = |_, code| answer_flags(PROXIABLE, code);
        "keeps T": answer_flags = |asked, code| answer_flags(asked, code) | asked & RETRANSMITTED;
        "keeps R": answer_flags = |asked, code| answer_flags(asked, code) | asked & REQUEST;
        "no Session-Id on a header failure": session_part = |r| {
            unless(r.reached == Reached::Header, session_part(r))
        };
        "no Session-Id when the walk fails": session_part = |r| {
            unless(r.reached == Reached::Walk, session_part(r))
        };
        "no Session-Id when the lists fail": session_part = |r| {
            unless(r.reached == Reached::List, session_part(r))
        };
        "copies the Session-Id as it came": session_part = |r| match walk_tests(&r.message[HEADER..]) {
            Ok(first) if !session_part(r).is_empty() => first.whole.to_vec(),
            _ => Vec::new(),
        };
        "takes the Session-Id from anywhere": session_part = |r| {
            let found = r.avps.iter().find(|a| is(a, SESSION_ID) && (1..=128).contains(&a.value.len()));
            found.map_or(session_part(r), |a| avp(SESSION_ID.code, a.value))
        };
        "answers with a Session-Id of any length": session_part = |r| match walk_tests(&r.message[HEADER..]) {
            Ok(first) if is(&first, SESSION_ID) => avp(SESSION_ID.code, first.value),
            _ => Vec::new(),
        };
        "answers with a Session-Id that has V": session_part = |r| match walk_tests(&r.message[HEADER..]) {
            Ok(first) if first.code == 263 && (1..=128).contains(&first.value.len()) => {
                avp(SESSION_ID.code, first.value)
            }
            _ => Vec::new(),
        };
        "no Auth AVPs for 5013": auth_part = |r| unless(r.code == plain(5013), auth_part(r));
        "no Auth AVPs on a failure": auth_part = |r| unless(r.code != SUCCESS, auth_part(r));
        "Auth AVPs for 3xxx too": auth_part = |r| auth_part(&Reply { code: SUCCESS, avps: &[], ..*r });
        "Auth AVPs for 275 too": auth_part = |r| {
            auth_part(&Reply { header: Header { command: AA, ..r.header }, ..*r })
        };
    };
    all.extend(wrong! {
        "one order of Auth AVPs for another": auth_part = |r| {
            let mut part = auth_part(r);
            let half = part.len() / 2;
            part.rotate_left(half);
            part
        };
        "Experimental-Result without its vendor": result_part = |r| match r.code {
            Code::Experimental(n) => {
                avp(EXPERIMENTAL_RESULT, &number_avp(EXPERIMENTAL_RESULT_CODE, u32::from(n)))
            }
            _ => result_part(r),
        };
        "a Result-Code beside the Experimental-Result": result_part = |r| match r.code {
            Code::Experimental(_) => [number_avp(RESULT_CODE, 5012), result_part(r)].concat(),
            _ => result_part(r),
        };
        "no Subscription-Id for type 1": subscription_part = |r| {
            unless(r.request.session_type() == Some(1), subscription_part(r))
        };
        "a Subscription-Id on a failure too": subscription_part = |r| {
            let named = r.request.get(USER_NAME).is_some();
            unless(!named, subscription_part(&Reply { code: SUCCESS, ..*r }))
        };
        "a Subscription-Id for 275 too": subscription_part = |r| {
            subscription_part(&Reply { header: Header { command: AA, ..r.header }, ..*r })
        };
        "a group's length without the padding inside": subscription_part = |r| {
            let mut part = subscription_part(r);
            if let Some(length) = part.get_mut(7) {
                *length = 28 + r.request.text(USER_NAME).len() as u8;
            }
            part
        };
        "Subscription-Id-Type 0": subscription_part = |r| {
            let mut part = subscription_part(r);
            if let Some(kind) = part.get_mut(19) { *kind = 0 }
            part
        };
        "no Proxy-Info on a list failure": proxy_part = |r| {
            unless(r.reached == Reached::List, proxy_part(r))
        };
        "no Proxy-Info on a failure": proxy_part = |r| unless(r.code != SUCCESS, proxy_part(r));
        "only the first Proxy-Info": proxy_part = |r| {
            let first = r.avps.iter().find(|a| is(a, PROXY_INFO));
            first.map_or(Vec::new(), |a| a.whole.to_vec())
        };
        "writes Proxy-Info anew": proxy_part = |r| {
            let proxies = r.avps.iter().filter(|a| is(a, PROXY_INFO));
            proxies.flat_map(|a| avp(PROXY_INFO.code, a.value)).collect()
        };
        "Proxy-Info with V too": proxy_part = |r| {
            let proxies = r.avps.iter().filter(|a| a.code == PROXY_INFO.code);
            proxies.flat_map(|a| a.whole).copied().collect()
        };
        "Proxy-Info on a walk failure, as far as it was read": proxy_part = |r| {
            let mut bytes = proxy_part(r);
            let mut rest = &r.message[HEADER..];
            while let (Reached::Walk, Ok(avp)) = (r.reached, walk_tests(rest)) {
                bytes.extend(if is(&avp, PROXY_INFO) { avp.whole } else { &[] });
                rest = &rest[avp.whole.len()..];
            }
            bytes
        };
        "no Auth AVPs where the application is not 1": auth_part = |r| {
            unless(r.header.application != 1, auth_part(r))
        };
        "answers with application 1 always": handle = |r, call| rewritten(r, call, |answer| {
            put(answer, 8, &[0, 0, 0, 1])
        });
        "exchanges the two identifiers": handle = |r, call| rewritten(r, call, |answer| {
            if let Some(both) = answer.get_mut(12..20) { both.rotate_left(4) }
        });
        "writes no notice": notice = |_, _, _| ();
        "leaves old bytes behind the notice's texts": notice = |form, room, cut| {
            put(room, 0, &cut.session);
            put(room, 128, &cut.host);
            if form == Form::Two { put(room, 256, &cut.realm) }
        };
        "clears the room behind the notice": notice = |form, room, cut| {
            room.fill(0);
            notice(form, room, cut);
        };
        "writes the host right behind the session": notice = |form, room, cut| {
            notice(form, room, &Access { host: Vec::new(), ..cut.clone() });
            put(room, cut.session.len(), &cut.host);
        };
        "clears the rest of the answer room": handle = |r, call| {
            if no_answer(r, &call) == 0 { call.answer_room.fill(0) }
            handle(r, call)
        };
        "clears the notice room without a cut": handle = |r, call| {
            if no_answer(r, &call) == 0 { call.notice_room.fill(0) }
            handle(r, call)
        };
    });
    all
}
