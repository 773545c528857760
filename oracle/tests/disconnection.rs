//! The disconnection (W6) by hand: from a cut to the request, in bytes, and answers to it.

use oracle::disconnecting::{Abort, Sent, Written};
use oracle::drafts::Draft;
use oracle::generator::{add, enter, request};
use oracle::operators::all_rows;
use oracle::program::{Operation, Room, Seen, perform};
use oracle::random::Random;
use oracle::rules::DOCUMENT_01;
use oracle::the_table::Form;

const NAME: &[u8] = b"001010123456789";

/// Reads bytes written as pairs of hexadecimal digits.
fn hex(text: &str) -> Vec<u8> {
    let digits: Vec<u8> = text.bytes().filter(|b| !b.is_ascii_whitespace()).collect();
    let pair = |p: &[u8]| u8::from_str_radix(std::str::from_utf8(p).unwrap(), 16).unwrap();
    digits.chunks(2).map(pair).collect()
}

fn run(operation: &Operation, table: &mut [u8]) -> Seen {
    perform(&mut DOCUMENT_01.clone(), operation, table)
}

/// A table of one row whose W-APN has one place, in which "a" of "pdg" in
/// "visited.example" stands.
fn one_access(form: Form) -> Vec<u8> {
    let mut table = vec![0; form.row()];
    let shares = all_rows(form, &table, 0);
    run(&enter(form, 0, &shares, NAME), &mut table);
    run(&add(form, 0, NAME, b"board", 1, 0), &mut table);
    assert_eq!(run(&opening(form, b"a"), &mut table).numbers[0], 2001);
    table
}

fn opening(form: Form, session: &[u8]) -> Operation {
    let draft = Draft::open(NAME, session, b"pdg", b"board");
    request(form, 0, &draft, true, &mut Random::new(1))
}

fn write(abort: &Abort, room: &mut [u8]) -> Written {
    (DOCUMENT_01.abort)(&DOCUMENT_01, abort, room)
}

fn belongs(session: &[u8], identifiers: [u32; 2], answer: &[u8]) -> bool {
    let sent = Sent {
        session,
        identifiers,
    };
    (DOCUMENT_01.belongs)(&DOCUMENT_01, &sent, answer)
}

#[test]
fn from_a_cut_to_the_request() {
    let mut table = one_access(Form::Two);
    let seen = run(&opening(Form::Two, b"b"), &mut table);
    assert_eq!(seen.numbers[3..], [1, 1, 1, 3, 15]);
    let mut notice = vec![0; 384];
    notice[0] = b'a';
    notice[128..131].copy_from_slice(b"pdg");
    notice[256..271].copy_from_slice(b"visited.example");
    assert_eq!(seen.notice_room, notice);
    let abort = Abort {
        host: b"aaa",
        realm: b"home",
        notice: &notice,
        lengths: [1, 3, 15],
        identifiers: [0x01020304, 0x05060708],
    };
    let mut room = vec![0xAA; 1_024];
    let written = write(&abort, &mut room);
    let wanted = hex("01000068 C0000112 00000001 01020304 05060708
         00000107 40000009 61000000
         00000108 4000000B 61616100
         00000128 4000000C 686F6D65
         0000011B 40000017 76697369 7465642E 6578616D 706C6500
         00000125 4000000B 70646700
         00000102 4000000C 00000001");
    assert_eq!(wanted.len(), 0x68);
    let done = Written {
        number: 0,
        length: wanted.len(),
    };
    assert_eq!(written, done);
    assert_eq!(room[..wanted.len()], wanted);
    assert!(room[wanted.len()..].iter().all(|&byte| byte == 0xAA));
}

/// In form 1 the notice has 256 bytes, and a longer room keeps the rest.
#[test]
fn form_1_tells_no_realm() {
    let mut table = one_access(Form::One);
    let Operation::Handle(mut asked) = opening(Form::One, b"b") else {
        return;
    };
    asked.notice_room = Room {
        length: 384,
        seed: 9,
    };
    let rest = asked.notice_room.fresh();
    let seen = run(&Operation::Handle(asked), &mut table);
    assert_eq!(seen.numbers[3..], [1, 1, 1, 3, 0]);
    assert_eq!(seen.notice_room[256..], rest[256..]);
}

/// An access that was moved to form 2 has no realm: its notice has zeros there, and no
/// request can be made of it until the tunnel is opened anew.
#[test]
fn an_access_that_was_moved() {
    let mut table = one_access(Form::One);
    let target = Room {
        length: Form::Two.row() as u32,
        seed: 5,
    };
    let form = 2;
    let mut moved = run(&Operation::Move { form, target }, &mut table).answer_room;
    let seen = run(&opening(Form::Two, b"b"), &mut moved);
    assert_eq!(seen.numbers[3..], [1, 1, 1, 3, 0]);
    assert!(seen.notice_room[256..].iter().all(|&byte| byte == 0));
    let mut abort = Abort {
        host: b"aaa",
        realm: b"home",
        notice: &seen.notice_room,
        lengths: [1, 3, 0],
        identifiers: [1, 2],
    };
    let mut room = vec![0xAA; 1_024];
    let number = |number| Written { number, length: 0 };
    assert_eq!(write(&abort, &mut room), number(22));
    assert_eq!(write(&abort, &mut room[..1_023]), number(22));
    let seen = run(&opening(Form::Two, b"c"), &mut moved);
    abort.notice = &seen.notice_room;
    abort.lengths = [seen.numbers[5], seen.numbers[6], seen.numbers[7]];
    assert_eq!(abort.lengths, [1, 3, 15]);
    assert_eq!(write(&abort, &mut room[..1_023]), number(23));
    assert!(room.iter().all(|&byte| byte == 0xAA));
    assert_eq!(write(&abort, &mut room).number, 0);
}

/// The longest request: every text has 128 bytes. What is behind the 384 bytes of the
/// notice has no say.
#[test]
fn the_longest_request() {
    let notice = [b'n'; 400];
    let abort = Abort {
        host: &[b'h'; 128],
        realm: &[b'r'; 128],
        notice: &notice,
        lengths: [128; 3],
        identifiers: [u32::MAX; 2],
    };
    let mut room = vec![0xAA; 1_024];
    let length = 20 + 5 * 136 + 12;
    assert_eq!(write(&abort, &mut room), Written { number: 0, length });
    assert_eq!(room[1..4], [0, 2, 0xC8]);
}

/// The answer in bytes, and what one change of it makes.
#[test]
fn answers_by_hand() {
    let good = hex("01000030 40000112 00000001 01020304 05060708
         00000107 40000009 61000000
         0000010C 4000000C 000007D1
         00000000");
    let good = &good[..44];
    let changed = |at: usize, byte: u8| {
        let mut bytes = good.to_vec();
        bytes[at] = byte;
        bytes
    };
    let identifiers = [0x01020304, 0x05060708];
    let answer = changed(3, 44);
    assert!(belongs(b"a", identifiers, &answer));
    // Not the length that the header says.
    assert!(!belongs(b"a", identifiers, good));
    for (at, byte, right) in [
        (0, 2, false),
        (4, 0x00, true),
        (4, 0x7F, true),
        (4, 0x80, false),
        (4, 0xC0, false),
        (7, 0x13, false),
        (11, 0, true),
        (12, 0, false),
        (19, 0, false),
        (22, 0, false),
        (24, 0x00, true),
        (24, 0x60, true),
        (24, 0x41, false),
        (27, 10, false),
        (28, b'A', false),
        (29, 1, true),
        (35, 0x0D, false),
        (36, 0x50, false),
        (39, 11, false),
        (43, 0, true),
    ] {
        let mut bytes = answer.clone();
        bytes[at] = byte;
        assert_eq!(belongs(b"a", identifiers, &bytes), right, "{at}, {byte}");
    }
    for (session, identifiers) in [
        (&b"b"[..], identifiers),
        (b"", identifiers),
        (b"a\0", identifiers),
        (b"a", [0x05060708, 0x01020304]),
        (b"a", [0x01020304, 0x05060709]),
        (b"a", [0x01020305, 0x05060708]),
    ] {
        assert!(!belongs(session, identifiers, &answer));
    }
    assert!(!belongs(b"a", identifiers, &[]));
}
