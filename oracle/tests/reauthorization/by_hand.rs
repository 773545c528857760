//! Worked cases in bytes, written out from the papers.

use oracle::generator::{add, enter};
use oracle::handling::Call;
use oracle::operators::all_rows;
use oracle::program::{Room, perform};
use oracle::reauth_calls::{Given, ReAuthCall, Texts, given};
use oracle::rules::{DOCUMENT_01, Rules, WITH_W11};
use oracle::the_table::{FORMS, Form};
use oracle::{Outcome, plain};

use crate::hex;

const NAME: &[u8] = b"001010123456789";

/// Session-Id of one letter, Auth-Application-Id 1, Origin-Host "aaa", Origin-Realm "home",
/// Destination-Realm "v", Destination-Host "pdg".
const UP_TO_THE_HOST: &str = "00000107 40000009 61000000  00000102 4000000C 00000001
    00000108 4000000B 61616100  00000128 4000000C 686F6D65
    0000011B 40000009 76000000  00000125 4000000B 70646700";
const AUTHORIZE_ONLY: &str = "0000011D 4000000C 00000000";
const AUTHORIZE_AUTHENTICATE: &str = "0000011D 4000000C 00000001";

/// A header with these flags, command and Application-Id, then the AVPs.
fn message(flags: &str, command: &str, application: u32, avps: &str) -> Vec<u8> {
    let avps = hex(avps);
    let length = 20 + avps.len();
    let mut bytes = hex(&format!(
        "01{length:06X} {flags} {command} {application:08X} 00000A0B 00000C0D"
    ));
    bytes.extend(avps);
    bytes
}

fn re_auth(kind: &str) -> Vec<u8> {
    message("C0", "000102", 1, &format!("{UP_TO_THE_HOST} {kind}"))
}

/// The gateway "pdg" in "v" lends "a" of 001010123456789 on "board".
fn call(message: Vec<u8>, visited: &[u8]) -> ReAuthCall {
    let room = |seed| Room {
        length: 5_120,
        seed,
    };
    ReAuthCall {
        host: b"pdg".to_vec(),
        realm: b"v".to_vec(),
        session: b"a".to_vec(),
        user: NAME.to_vec(),
        label: b"board".to_vec(),
        visited: visited.to_vec(),
        message,
        identifiers: [0x01020304, 0x05060708],
        answer_room: room(3),
        request_room: room(4),
    }
}

/// The answer to it: flags, code, and what stands behind the realm.
fn answer(flags: &str, code: u32, behind: &str) -> Vec<u8> {
    message(
        flags,
        "000102",
        1,
        &format!(
            "00000107 40000009 61000000  0000010C 4000000C {code:08X}
             00000108 4000000B 70646700  00000128 40000009 76000000 {behind}"
        ),
    )
}

/// The AA-Request for it, with these AVPs between type and label.
fn aa_request(visited: &str) -> Vec<u8> {
    let avps = format!(
        "00000107 40000009 61000000  00000102 4000000C 00000001
         00000108 4000000B 70646700  00000128 40000009 76000000
         0000011B 4000000C 686F6D65  00000112 4000000C 00000002
         00000125 4000000B 61616100
         00000001 40000017 303031303130313233343536373839 00
         00000137 C0000010 000028AF 00000000  {visited}
         00000064 C0000011 000028AF 626F617264 000000"
    );
    let mut bytes = message("C0", "000109", 1, &avps);
    bytes[12..20].copy_from_slice(&[1, 2, 3, 4, 5, 6, 7, 8]);
    bytes
}

/// Both rooms are written at the front and nowhere else.
fn gives(call: &ReAuthCall, answer: &[u8], request: &[u8]) -> Given {
    let given = given(&WITH_W11, call);
    let mut rooms = [call.answer_room.fresh(), call.request_room.fresh()];
    rooms[0][..answer.len()].copy_from_slice(answer);
    rooms[1][..request.len()].copy_from_slice(request);
    let lengths = [answer.len(), request.len()];
    assert_eq!(
        [given.result.length, given.result.request_length],
        lengths,
        "{given:?}"
    );
    assert!(given.answer_room == rooms[0] && given.request_room == rooms[1]);
    given
}

#[test]
fn the_gateway_goes_on() {
    let request = aa_request("");
    assert_eq!((request.len(), request[3]), (164, 0xA4));
    let done = answer("40", 2001, "");
    assert_eq!((done.len(), done[3]), (68, 0x44));
    let given = gives(&call(re_auth(AUTHORIZE_ONLY), b""), &done, &request);
    assert_eq!(given.result.numbers(), [2001, 1, 68, 164]);
}

#[test]
fn with_a_visited_network() {
    let request = aa_request("00000258 C000000E 000028AF 6E6F0000");
    assert_eq!((request.len(), request[3]), (180, 0xB4));
    let done = answer("40", 2001, "");
    gives(&call(re_auth(AUTHORIZE_ONLY), b"no"), &done, &request);
}

/// Refused: an answer, and nothing in the request's room.
#[test]
fn refusals() {
    let bits = |flags, code, answered: &str| {
        let message = message(flags, "000102", 1, UP_TO_THE_HOST);
        gives(&call(message, b""), &answer(answered, code, ""), &[]);
    };
    bits("C1", 5013, "40");
    bits("E0", 3008, "60");
    bits("A0", 3008, "20");
    bits("90", 5005, "00");
    gives(
        &call(re_auth(AUTHORIZE_AUTHENTICATE), b""),
        &answer("40", 5004, ""),
        &[],
    );
    let other = ReAuthCall {
        session: b"A".to_vec(),
        ..call(re_auth(AUTHORIZE_ONLY), b"")
    };
    gives(&other, &answer("40", 5002, ""), &[]);
    // The list's codes come before 5002.
    let both = ReAuthCall {
        message: re_auth(AUTHORIZE_AUTHENTICATE),
        ..other
    };
    gives(&both, &answer("40", 5004, ""), &[]);
    let application = re_auth(AUTHORIZE_ONLY);
    for (wrong, right) in [(0, 3007), (2, 3007), (10_415, 3007)] {
        let mut message = application.clone();
        message[8..12].copy_from_slice(&u32::to_be_bytes(wrong));
        let mut answer = answer("60", right, "");
        answer[8..12].copy_from_slice(&u32::to_be_bytes(wrong));
        gives(&call(message, b""), &answer, &[]);
    }
}

/// A header that says 265 gets no Auth AVPs for it, neither with 3001 nor with 5013.
#[test]
fn other_commands_are_answered_alike() {
    for (command, low) in [(265u32, 9), (275, 0x13), (274, 0x12)] {
        for (flags, code, answered) in [(0xC0, 3001, "60"), (0xC8, 5013, "40")] {
            let mut message = re_auth(AUTHORIZE_ONLY);
            message[4..8].copy_from_slice(&command.to_be_bytes());
            message[4] = flags;
            let mut answer = answer(answered, code, "");
            answer[7] = low;
            gives(&call(message, b""), &answer, &[]);
        }
    }
}

/// Proxy-Info comes back as it came once the walk has passed, with 2001, 5002 and the
/// list's codes, and not before.
#[test]
fn proxy_info() {
    let proxy = "0000011C 0000000A 78780102";
    let with = |kind: &str, more: &str| {
        let avps = format!("{UP_TO_THE_HOST} {proxy} {kind} {more}");
        call(message("C0", "000102", 1, &avps), b"")
    };
    let mut good = with(AUTHORIZE_ONLY, "");
    gives(&good, &answer("40", 2001, proxy), &aa_request(""));
    good.session = b"b".to_vec();
    gives(&good, &answer("40", 5002, proxy), &[]);
    let refused = with(AUTHORIZE_AUTHENTICATE, "");
    gives(&refused, &answer("40", 5004, proxy), &[]);
    let unknown = with(AUTHORIZE_ONLY, "00000021 40000008");
    gives(&unknown, &answer("40", 5001, ""), &[]);
    let broken = with(AUTHORIZE_ONLY, "00000021 00000007");
    gives(&broken, &answer("40", 5014, ""), &[]);
}

/// 285 is known without V alone; with another vendor it is refused with M and stepped over
/// without.
#[test]
fn re_auth_request_type_by_its_name() {
    for (beside, code) in [
        ("0000011D C0000010 000028AF 00000001", 5001),
        ("0000011D 80000010 000028AF 00000001", 2001),
        ("0000011D 00000008", 5009),
    ] {
        let avps = format!("{UP_TO_THE_HOST} {AUTHORIZE_ONLY} {beside}");
        let given = given(&WITH_W11, &call(message("C0", "000102", 1, &avps), b""));
        assert_eq!(given.result.code, plain(code));
    }
    let absent = given(&WITH_W11, &call(re_auth(""), b""));
    assert_eq!(absent.result.code, plain(5005));
}

/// 2, then 3, then 22, then 5 to 8: of those that hold the first is given, and both rooms
/// are as they were.
#[test]
fn numbers_in_their_order() {
    let spoil = |call: &mut ReAuthCall, number: u32| match number {
        2 => call.realm.clear(),
        3 => call.request_room.length = 5_119,
        22 => call.visited = vec![b'v'; 129],
        5 => call.message.resize(4_100, 0),
        6 => call.message[0] = 2,
        7 => call.message[3] ^= 4,
        _ => call.message[4] = 0x40,
    };
    let numbers = [2, 3, 22, 5, 6, 7, 8];
    for held in 1..128u32 {
        let mut call = call(re_auth(AUTHORIZE_ONLY), b"");
        let which: Vec<u32> = (0..7)
            .filter(|bit| held >> bit & 1 == 1)
            .map(|bit| numbers[bit])
            .collect();
        which.iter().for_each(|number| spoil(&mut call, *number));
        let given = gives(&call, &[], &[]);
        assert_eq!(given.result.numbers(), [which[0], 0, 0, 0]);
    }
}

/// The longest AA-Request, from the longest Re-Auth-Request of its AVPs alone.
#[test]
fn the_longest_request() {
    let long = |length| vec![b't'; length];
    let mut call = call(re_auth(AUTHORIZE_ONLY), &long(128));
    (call.host, call.realm) = (long(128), long(128));
    (call.session, call.user, call.label) = (long(128), long(128), long(100));
    let texts = Texts {
        session: long(128),
        origin_host: long(128),
        origin_realm: long(128),
        destination_realm: long(128),
        destination_host: long(128),
    };
    call.message = texts.lay_out().bytes();
    let given = given(&WITH_W11, &call);
    assert_eq!(given.result.numbers(), [2001, 1, 440, 1_128]);
}

// ---- The server -------------------------------------------------------------------

/// A row with "board" of limit 2, "hall" of limit 1 that may roam, and "yard" of limit 1,
/// barred.
fn table(form: Form) -> Vec<u8> {
    let mut table = vec![0; form.row()];
    let shares = all_rows(form, &table, 0);
    for operation in [
        enter(form, 0, &shares, NAME),
        add(form, 0, NAME, b"board", 2, 0),
        add(form, 0, NAME, b"hall", 1, 2),
        add(form, 0, NAME, b"yard", 1, 1),
    ] {
        let seen = perform(&mut DOCUMENT_01.clone(), &operation, &mut table);
        assert_eq!(seen.numbers[0], 0);
    }
    table
}

/// Sends a request to the server "aaa" in "home"; gives its answer too.
fn send(rules: &Rules, form: Form, table: &mut [u8], message: &[u8]) -> (Outcome, Vec<u8>) {
    let (mut answer, mut notice) = (vec![0xAA; 5_120], vec![0xBB; 384]);
    let outcome = (rules.handle)(
        rules,
        Call {
            form: form.number(),
            table,
            operator: 0,
            host: b"aaa",
            realm: b"home",
            message,
            wag: false,
            answer_room: &mut answer,
            notice_room: &mut notice,
        },
    );
    answer.truncate(outcome.length);
    (outcome, answer)
}

/// The AA-Request that the gateway writes for another Session-Id, label or visited network.
fn asked(session: u8, label: &[u8], visited: &[u8]) -> Vec<u8> {
    let mut message = re_auth(AUTHORIZE_ONLY);
    message[28] = session;
    let call = ReAuthCall {
        session: vec![session],
        label: label.to_vec(),
        ..call(message, visited)
    };
    given(&WITH_W11, &call).request().to_vec()
}

/// Opens a, b and c on "board", of which a is cut: case 3.
fn after_case_3(form: Form) -> Vec<u8> {
    let mut table = table(form);
    for (session, place) in [(b'a', 1), (b'b', 2), (b'c', 1)] {
        let (outcome, _) = send(&WITH_W11, form, &mut table, &asked(session, b"board", b""));
        assert_eq!((outcome.code, outcome.place), (plain(2001), place));
    }
    assert_eq!(table[20..23], [2, 1, 0]);
    table
}

/// Case 5 as W11 has it: b again, which stands in place 2.
#[test]
fn a_held_session_gets_2001() {
    for form in FORMS {
        let before = after_case_3(form);
        let mut table = before.clone();
        let again = asked(b'b', b"BOARD", b"");
        let (outcome, answer) = send(&WITH_W11, form, &mut table, &again);
        assert_eq!(outcome.numbers(), [2001, 1, 136, 0, 0, 0, 0, 0]);
        let wanted = hex("01000088 40000109 00000001 01020304 05060708
             00000107 40000009 62000000  00000102 4000000C 00000001
             00000112 4000000C 00000002  0000010C 4000000C 000007D1
             00000108 4000000B 61616100  00000128 4000000C 686F6D65
             000001BB 4000002C 000001C2 4000000C 00000001
             000001BC 40000017 303031303130313233343536373839 00");
        assert_eq!(answer, wanted);
        assert!(table == before);
    }
}

/// On another label, there or not; barring and roaming come before.
#[test]
fn a_held_session_is_refused_elsewhere() {
    for form in FORMS {
        let before = after_case_3(form);
        for (label, visited, code) in [
            (&b"hall"[..], &b""[..], (5012, 1)),
            (b"hall", b"no", (5012, 1)),
            (b"yard", b"", (5003, 1)),
            (b"yard", b"no", (5003, 1)),
            (b"board", b"no", (5004, 2)),
            (b"boar", b"", (5044, 2)),
        ] {
            let mut table = before.clone();
            let (outcome, _) = send(&WITH_W11, form, &mut table, &asked(b'b', label, visited));
            let numbers = outcome.numbers();
            assert_eq!((numbers[0], numbers[1]), code);
            assert!(table == before);
        }
    }
}

/// The access that was cut meanwhile is opened again, and cuts another.
#[test]
fn a_session_that_was_cut_is_opened_again() {
    for (form, realm) in [(Form::One, 0), (Form::Two, 1)] {
        let mut table = after_case_3(form);
        let (outcome, _) = send(&WITH_W11, form, &mut table, &asked(b'a', b"board", b""));
        assert_eq!(outcome.cut, Some([1, 3, realm]));
        assert_eq!(outcome.place, 2);
        assert_eq!(table[20..23], [1, 2, 0]);
    }
}

/// Where roaming is allowed, a visited network makes no difference.
#[test]
fn a_held_session_may_roam() {
    let mut table = table(Form::Two);
    send(
        &WITH_W11,
        Form::Two,
        &mut table,
        &asked(b'h', b"hall", b"no"),
    );
    let before = table.clone();
    for visited in [&b""[..], b"no"] {
        let (outcome, _) = send(
            &WITH_W11,
            Form::Two,
            &mut table,
            &asked(b'h', b"hall", visited),
        );
        assert_eq!((outcome.code, outcome.place), (plain(2001), 0));
        assert!(table == before);
    }
}

/// With W11 the server knows 285 without V; what it holds has no say.
#[test]
fn the_server_knows_re_auth_request_type() {
    for (beside, code) in [
        ("0000011D 4000000C 00000001", 2001),
        ("0000011D 40000008", 2001),
        ("0000011D C0000010 000028AF 00000000", 5001),
    ] {
        let mut message = asked(b'a', b"board", b"");
        message.extend(hex(beside));
        let length = message.len() as u8;
        message[3] = length;
        let mut table = table(Form::One);
        let (outcome, _) = send(&WITH_W11, Form::One, &mut table, &message);
        assert_eq!(outcome.code, plain(code));
    }
}
