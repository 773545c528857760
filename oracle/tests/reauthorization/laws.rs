//! The laws of W11 on calls and circles by chance.

use std::collections::BTreeMap;

use oracle::deciding::held_is_refused;
use oracle::handling::read;
use oracle::known_avps::supported;
use oracle::random::Random;
use oracle::reading_a_message::{
    AUTH_APPLICATION_ID, AUTH_REQUEST_TYPE, DESTINATION_HOST, DESTINATION_REALM, Name, ORIGIN_HOST,
    ORIGIN_REALM, RE_AUTH_REQUEST_TYPE, SESSION_ID, SESSION_REQUEST_TYPE, USER_NAME,
    VISITED_NETWORK, W_APN, header,
};
use oracle::reauth_calls::{Texts, given, good_call, re_auth_calls};
use oracle::reauth_circles::{Came, Circle, Meanwhile, circles};
use oracle::reauthorizing::of_gateway;
use oracle::rules::{Rules, WITH_W11};
use oracle::the_table::{BARRED, FORMS, Form, MAY_ROAM, Row, find, row_at, sound};
use oracle::{SUCCESS, plain};

use crate::by_the_paper::is_wanted;

/// The server as it is until W11 lands.
const BEFORE: Rules = Rules {
    held: held_is_refused,
    supported,
    ..WITH_W11
};

/// Every call gives what the paper says, in both rooms to the last byte. The calls are of
/// use: each number and each code comes up.
#[test]
fn every_call_is_as_the_paper_says() {
    let mut met: BTreeMap<u32, usize> = BTreeMap::new();
    for call in re_auth_calls(81, 20_000) {
        let given = given(&WITH_W11, &call);
        assert!(is_wanted(&call, &given), "{call:?} {given:?}");
        *met.entry(given.result.numbers()[0]).or_default() += 1;
    }
    let codes = [
        2, 3, 5, 6, 7, 8, 22, 2001, 3001, 3007, 3008, 3009, 5001, 5002, 5004, 5005, 5009, 5013,
        5014,
    ];
    let came: Vec<u32> = met.keys().copied().collect();
    assert_eq!(came, codes);
    assert!(met.values().all(|times| *times > 50), "{met:?}");
}

/// What is read of a message by these rules: every value under its name, in list order.
fn fields(rules: &Rules, form: Form, message: &[u8]) -> Vec<(Name, Vec<u8>)> {
    let header = header(message).unwrap();
    let request = read(rules, form, &header, message).request.unwrap();
    let owned = |(name, value): (Name, &[u8])| (name, value.to_vec());
    request.values.into_iter().map(owned).collect()
}

fn number(value: u32) -> Vec<u8> {
    value.to_be_bytes().to_vec()
}

/// The gateway reads the very fields from which a Re-Auth-Request is laid out.
#[test]
fn the_gateway_reads_the_very_fields() {
    let mut random = Random::new(82);
    for _ in 0..2_000 {
        let texts = Texts::new(&mut random);
        let wanted = [
            (SESSION_ID, texts.session.clone()),
            (AUTH_APPLICATION_ID, number(1)),
            (ORIGIN_HOST, texts.origin_host.clone()),
            (ORIGIN_REALM, texts.origin_realm.clone()),
            (DESTINATION_REALM, texts.destination_realm.clone()),
            (DESTINATION_HOST, texts.destination_host.clone()),
            (RE_AUTH_REQUEST_TYPE, number(0)),
        ];
        let message = texts.lay_out().bytes();
        let read = fields(&of_gateway(&WITH_W11), Form::One, &message);
        assert_eq!(read, wanted);
        let call = good_call(&texts, message, &mut random);
        assert_eq!(given(&WITH_W11, &call).result.code, SUCCESS);
    }
}

/// The server reads from the AA-Request the very fields that the gateway wrote, for every
/// call that goes on; today's server reads the same.
#[test]
fn the_server_reads_the_very_fields() {
    let (mut with, mut without) = (0, 0);
    for call in re_auth_calls(83, 6_000) {
        let given = given(&WITH_W11, &call);
        if given.result.code != SUCCESS {
            continue;
        }
        let asked = fields(&of_gateway(&WITH_W11), Form::One, &call.message);
        let origin = |name| asked.iter().find(|(n, _)| *n == name).unwrap().1.clone();
        let mut wanted = vec![
            (SESSION_ID, call.session),
            (AUTH_APPLICATION_ID, number(1)),
            (ORIGIN_HOST, call.host),
            (ORIGIN_REALM, call.realm),
            (DESTINATION_REALM, origin(ORIGIN_REALM)),
            (AUTH_REQUEST_TYPE, number(2)),
            (DESTINATION_HOST, origin(ORIGIN_HOST)),
            (USER_NAME, call.user),
            (SESSION_REQUEST_TYPE, number(0)),
            (W_APN, call.label),
        ];
        with += usize::from(!call.visited.is_empty());
        without += usize::from(call.visited.is_empty());
        if !call.visited.is_empty() {
            wanted.insert(9, (VISITED_NETWORK, call.visited));
        }
        for form in FORMS {
            for rules in [WITH_W11, BEFORE] {
                assert_eq!(fields(&rules, form, given.request()), wanted);
            }
        }
    }
    assert!(with > 300 && without > 300, "{with} {without}");
}

/// The sound row in which the server looks, if there is one.
fn row(circle: &Circle, table: &[u8]) -> Option<Row> {
    let index = find(circle.form, table, circle.operator, &circle.call.user)?;
    sound(&WITH_W11, circle.form, row_at(circle.form, table, index))
}

/// Whether the access stands and may go on standing.
fn stands(circle: &Circle) -> bool {
    let Some(row) = row(circle, &circle.table) else {
        return false;
    };
    let same = |label: &[u8]| label.eq_ignore_ascii_case(&circle.call.label);
    let Some(at) = row.entries.iter().position(|entry| same(&entry.label)) else {
        return false;
    };
    let mut accesses = row.places.iter().flatten();
    let held = accesses
        .any(|access| access.session == circle.call.session && usize::from(access.entry) == at + 1);
    let flags = row.entries[at].flags;
    held && flags & BARRED == 0 && (circle.call.visited.is_empty() || flags & MAY_ROAM != 0)
}

/// The AA-Request gets 2001 and changes nothing exactly if the row is sound, its label names
/// an entry on which the Session-Id stands, and that is not barred and may roam if need be.
#[test]
fn success_without_change_exactly_if_it_stands() {
    let mut met: BTreeMap<String, usize> = BTreeMap::new();
    for (meanwhile, circle) in circles(84, 6_000) {
        let came = circle.go_round(&WITH_W11);
        assert_eq!(came.given.result.code, SUCCESS);
        let unchanged = came.table == circle.table;
        let stands = stands(&circle);
        assert_eq!(came.outcome.code == SUCCESS && unchanged, stands);
        assert!(came.outcome.code == SUCCESS || unchanged);
        if stands {
            assert_eq!((came.outcome.place, came.outcome.cut), (0, None));
            let name = &circle.call.user;
            let answer = &came.answer[..came.outcome.length];
            assert!(answer.windows(name.len()).any(|part| part == name));
        }
        let code = came.outcome.numbers();
        let key = format!("{meanwhile:?}: {} {}", code[0], u8::from(unchanged));
        *met.entry(key).or_default() += 1;
    }
    for key in [
        "Stands: 2001 1",
        "Stands: 5003 1",
        "Stands: 5004 1",
        "Ended: 2001 0",
        "Cut: 2001 0",
        "Cut: 5003 1",
        "Cut: 5004 1",
        "OtherLabel: 5012 1",
        "OtherLabel: 5003 1",
        "OtherLabel: 5004 1",
        "NoLabel: 5044 1",
        "OtherUser: 5001 1",
        "OtherOperator: 5001 1",
        "Damaged: 5012 1",
    ] {
        assert!(met.get(key).is_some_and(|times| *times > 20), "{met:#?}");
    }
}

/// Until W11 the server differs in nothing but 5012 for what stands, and 5001 for
/// Re-Auth-Request-Type with M.
#[test]
fn nothing_else_of_the_server_changes() {
    for (_, circle) in circles(85, 3_000) {
        let (before, after) = (circle.go_round(&BEFORE), circle.go_round(&WITH_W11));
        let not_known = circle.added == Some(RE_AUTH_REQUEST_TYPE);
        if not_known || stands(&circle) {
            let code = if not_known { 5001 } else { 5012 };
            assert_eq!(before.outcome.code, plain(code));
            assert!(before.table == circle.table);
        } else {
            assert!(before == after);
        }
    }
}

/// An access that was cut meanwhile is opened again and cuts the first of its entry; from
/// then on it stands, and asking again changes nothing.
#[test]
fn an_access_that_was_cut_meanwhile() {
    let (mut cuts, mut opened) = (0, 0);
    for (meanwhile, circle) in circles(86, 4_000) {
        let came = circle.go_round(&WITH_W11);
        if !matches!(meanwhile, Meanwhile::Cut | Meanwhile::Ended) || came.outcome.code != SUCCESS {
            continue;
        }
        let before = row(&circle, &circle.table).unwrap();
        let after = row(&circle, &came.table).unwrap();
        let entry = before.entry_of(&circle.call.label).unwrap();
        let place = came.outcome.place;
        assert_eq!(after.line.last(), Some(&place));
        let access = after.access(place).unwrap();
        assert!(access.session == circle.call.session && access.host == circle.call.host);
        let on_it = |place: &&u8| before.access(**place).is_some_and(|a| a.entry == entry);
        let first = before.line.iter().find(on_it);
        let full = before.open_on(entry) == usize::from(before.entry(entry).unwrap().limit);
        assert_eq!(came.outcome.cut.is_some(), full);
        assert!(full || meanwhile == Meanwhile::Ended);
        if let Some(cut) = first.filter(|_| full) {
            let session = &before.access(*cut).unwrap().session;
            assert_eq!(&came.notice[..session.len()], session);
            assert_eq!(after.place_of(session), None);
            cuts += 1;
        }
        opened += 1;
        asked_again(&circle, came);
    }
    assert!(cuts > 200 && opened > cuts + 50, "{cuts} {opened}");
}

fn asked_again(circle: &Circle, came: Came) {
    let circle = Circle {
        table: came.table,
        ..circle.clone()
    };
    assert!(stands(&circle));
    let again = circle.go_round(&WITH_W11);
    assert_eq!((again.outcome.code, again.outcome.place), (SUCCESS, 0));
    assert!(again.table == circle.table && again.outcome.cut.is_none());
    assert!(again.notice == [0xBB; 384]);
}
