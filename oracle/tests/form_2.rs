//! Worked cases on tables of form 2, and moves there and back (W5), with bytes written out
//! by hand.

use oracle::drafts::{Draft, DraftAvp};
use oracle::generator::{add, clear, enter, request};
use oracle::program::{Operation, Room, Seen, perform};
use oracle::random::Random;
use oracle::reading_a_message::{ORIGIN_REALM, ROUTING_POLICY};
use oracle::rules::DOCUMENT_01;
use oracle::the_table::{Form, decode, encode, sound, sums};

const NAME: &[u8] = b"001010123456789";

/// Where the blocks of places 1 and 2 start in a row of form 2.
const PLACE_1: usize = 512;
const SECOND_1: usize = 1_024;
const PLACE_2: usize = 1_536;
const SECOND_2: usize = 2_048;

/// A table of one row, in either form.
#[derive(Clone)]
struct Bench {
    form: Form,
    table: Vec<u8>,
}

impl Bench {
    /// The subscriber of the paper's cases, of operator 3.
    fn new(form: Form) -> Bench {
        let mut bench = Bench {
            form,
            table: vec![0; form.row()],
        };
        let mut shares = vec![0; 16];
        shares[3] = 1;
        for operation in [
            enter(form, 3, &shares, NAME),
            add(form, 3, NAME, b"board", 2, 0),
            add(form, 3, NAME, b"yard", 1, 1),
        ] {
            assert_eq!(bench.run(&operation).numbers[0], 0);
        }
        bench
    }

    fn run(&mut self, operation: &Operation) -> Seen {
        perform(&mut DOCUMENT_01.clone(), operation, &mut self.table)
    }

    /// Sends a request; gives code, place and whether an access was cut.
    fn send(&mut self, draft: &Draft) -> [u32; 3] {
        let asked = request(self.form, 3, draft, true, &mut Random::new(1));
        let seen = self.run(&asked);
        [seen.numbers[0], seen.numbers[3], seen.numbers[4]]
    }

    fn open(&mut self, session: &[u8], realm: &[u8]) -> [u32; 3] {
        self.send(&opening(session, realm))
    }

    fn policies(&mut self, session: &[u8], policies: &[&[u8]]) -> u32 {
        self.send(&policy(session, policies))[0]
    }

    /// The table in the other form; the error is the number.
    fn moved(&mut self) -> Result<Bench, u32> {
        let to = self.form.other();
        let rows = self.table.len() / self.form.row();
        let target = Room {
            length: (rows * to.row()) as u32,
            seed: 9,
        };
        let seen = self.run(&Operation::Move {
            form: to.number(),
            target,
        });
        match seen.numbers[0] {
            0 => Ok(Bench {
                form: to,
                table: seen.answer_room,
            }),
            number => {
                assert!(seen.answer_room == target.fresh());
                Err(number)
            }
        }
    }

    fn block(&self, start: usize) -> &[u8] {
        &self.table[start..][..512]
    }
}

fn opening(session: &[u8], realm: &[u8]) -> Draft {
    let mut draft = Draft::open(NAME, session, b"pdg", b"board");
    draft.avp(ORIGIN_REALM).unwrap().value = realm.to_vec();
    draft
}

fn policy(session: &[u8], policies: &[&[u8]]) -> Draft {
    let mut draft = Draft::policy(NAME, session, b"another pdg", b"");
    draft.avps.retain(|avp| avp.name != ROUTING_POLICY);
    for policy in policies {
        draft.avps.push(DraftAvp::new(ROUTING_POLICY, policy));
    }
    draft
}

fn is_zero(bytes: &[u8]) -> bool {
    bytes.iter().all(|&byte| byte == 0)
}

/// A second block: lengths, then the three texts.
fn second(realm: &[u8], second: &[u8], third: &[u8]) -> Vec<u8> {
    let mut block = vec![0; 512];
    let lengths = [realm, second, third].map(|text| text.len() as u8);
    block[..5].copy_from_slice(&[3, lengths[0], 0, lengths[1], lengths[2]]);
    block[8..8 + realm.len()].copy_from_slice(realm);
    block[136..136 + second.len()].copy_from_slice(second);
    block[264..264 + third.len()].copy_from_slice(third);
    let right = sums(&block[..510]);
    block[510..].copy_from_slice(&right);
    block
}

#[test]
fn a_row_has_17_blocks() {
    assert_eq!(Form::One.row(), 4_608);
    assert_eq!(Form::Two.row(), 8_704);
    assert_eq!([1, 2, 8].map(|p| Form::Two.start(p)), [512, 1_536, 7_680]);
    assert_eq!([1, 2, 8].map(|p| Form::One.start(p)), [512, 1_024, 4_096]);
    assert_eq!(Form::numbered(1), Some(Form::One));
    assert_eq!(Form::numbered(2), Some(Form::Two));
    assert_eq!([0, 3, 257, u32::MAX].map(Form::numbered), [None; 4]);
}

/// The first block is form 1's byte for byte, and so is block 0; the second keeps the realm.
#[test]
fn an_opening_keeps_the_realm() {
    let mut bench = Bench::new(Form::Two);
    let mut old = Bench::new(Form::One);
    assert_eq!(bench.open(b"a", b"visited"), [2001, 1, 0]);
    assert_eq!(old.open(b"a", b"visited"), [2001, 1, 0]);
    assert_eq!(bench.table[..SECOND_1], old.table[..1_024]);
    let block = bench.block(SECOND_1);
    assert_eq!(block[..15], *b"\x03\x07\0\0\0\0\0\0visited");
    assert!(is_zero(&block[15..510]));
    // First sum: 3 + 7 + 118 + 105 + 115 + 105 + 116 + 101 + 100 = 770, which is 5 modulo 255.
    // Second sum: byte i counts 510 - i times, so it is minus the sum of i times byte i:
    // -(7 + 944 + 945 + 1150 + 1155 + 1392 + 1313 + 1400) = -8306, which is 109 modulo 255.
    assert_eq!(block[510..], [109, 5]);
    assert!(is_zero(&bench.table[PLACE_2..]));
}

#[test]
fn three_policies_and_then_one() {
    let mut bench = Bench::new(Form::Two);
    bench.open(b"a", b"r");
    let first = bench.block(PLACE_1).to_vec();
    assert_eq!(bench.policies(b"a", &[b"one", b"second", b"3"]), 2001);
    assert_eq!(bench.block(SECOND_1), second(b"r", b"second", b"3"));
    let block = bench.block(PLACE_1);
    assert_eq!(block[..6], [2, 1, 1, 3, 1, 3]);
    assert_eq!(block[264..268], *b"one\0");
    // Session-Id and host are those of the opening.
    assert_eq!(block[8..264], first[8..264]);
    assert_eq!(bench.policies(b"a", &[b"4"]), 2001);
    assert_eq!(bench.block(SECOND_1), second(b"r", b"", b""));
    assert_eq!(bench.block(PLACE_1)[4..6], [1, 1]);
    assert_eq!(bench.block(PLACE_1)[264..268], *b"4\0\0\0");
    assert_eq!(bench.policies(b"a", &[b"x", b"y"]), 2001);
    assert_eq!(bench.block(SECOND_1), second(b"r", b"y", b""));
}

/// How many policies may come, and how long they may be, in each form and type.
#[test]
fn numbers_and_lengths_of_policies() {
    let (full, over) = ([b'p'; 128], [b'p'; 129]);
    let two: [(&[&[u8]], u32); 11] = [
        (&[], 5005),
        (&[b"1"], 2001),
        (&[&full, &full, &full], 2001),
        (&[&over, b"2", b"3"], 5014),
        (&[b"1", &over, b"3"], 5014),
        (&[b"1", b"2", &over], 5014),
        (&[b"1", b"", b"3"], 5014),
        (&[b"1", b"2", b""], 5014),
        (&[b"1", b"2", b"3", b"4"], 5009),
        (&[&over, b"2", b"3", b"4"], 5009),
        (&[b"1", b"2", b"3", b"4", b"5"], 5009),
    ];
    for (policies, code) in two {
        let mut bench = Bench::new(Form::Two);
        bench.open(b"a", b"r");
        let before = bench.table.clone();
        assert_eq!(bench.policies(b"a", policies), code, "{policies:?}");
        assert_eq!(bench.table == before, code != 2001);
        // In an opening they are tested alike, and then ignored.
        let mut draft = opening(b"b", b"r");
        for policy in policies {
            draft.avps.insert(3, DraftAvp::new(ROUTING_POLICY, policy));
        }
        let code = if code == 5005 { 2001 } else { code };
        assert_eq!(bench.send(&draft)[0], code, "{policies:?}");
        if code == 2001 {
            assert_eq!(bench.block(PLACE_2)[4..6], [0, 0]);
            assert_eq!(bench.block(SECOND_2), second(b"r", b"", b""));
        }
    }
    let mut bench = Bench::new(Form::One);
    bench.open(b"a", b"r");
    assert_eq!(bench.policies(b"a", &[b"1", b"2"]), 5009);
    assert_eq!(bench.policies(b"a", &[b"1"]), 2001);
}

/// Case 3 and 4 of the paper: both blocks of what was cut are those of what is new.
#[test]
fn a_cut_and_what_takes_its_place() {
    let mut bench = Bench::new(Form::Two);
    bench.open(b"a", b"a long realm");
    bench.policies(b"a", &[b"one", b"two", b"three"]);
    bench.open(b"b", b"rb");
    let asked = request(
        Form::Two,
        3,
        &opening(b"c", b"rc"),
        true,
        &mut Random::new(1),
    );
    let seen = bench.run(&asked);
    assert_eq!(seen.numbers[..2], [2001, 1]);
    assert_eq!(seen.numbers[3..], [1, 1, 1, 3, 12]);
    assert_eq!(seen.notice_room.len(), 384);
    assert_eq!(seen.notice_room[..2], *b"a\0");
    assert_eq!(seen.notice_room[128..132], *b"pdg\0");
    assert_eq!(seen.notice_room[256..269], *b"a long realm\0");
    assert!(is_zero(&seen.notice_room[269..]));
    assert_eq!(bench.block(SECOND_1), second(b"rc", b"", b""));
    assert_eq!(bench.table[20..23], [2, 1, 0]);
    assert!(sound(&DOCUMENT_01, Form::Two, &bench.table).is_some());
}

/// After a termination in place 1 the next opening takes it, whose second block was zeroed;
/// a cut in place 2 then leaves place 2 free.
#[test]
fn a_place_that_was_freed() {
    let mut bench = Bench::new(Form::Two);
    for (session, realm) in [(b"a", b"ra"), (b"b", b"rb")] {
        bench.open(session, realm);
        bench.policies(session, &[b"1", b"2", b"3"]);
    }
    let end = Draft::termination(NAME, b"a", b"pdg", b"board");
    assert_eq!(bench.send(&end), [2001, 0, 0]);
    assert!(is_zero(&bench.table[PLACE_1..PLACE_2]));
    assert_eq!(bench.block(SECOND_2), second(b"rb", b"2", b"3"));
    assert_eq!(bench.open(b"c", b"rc"), [2001, 1, 0]);
    let end = Draft::termination(NAME, b"c", b"pdg", b"board");
    assert_eq!(bench.send(&end), [2001, 0, 0]);
    let before = bench.clone();
    assert_eq!(bench.open(b"d", b"rd"), [2001, 1, 0]);
    assert_eq!(bench.open(b"e", b"re"), [2001, 2, 1]);
    assert_eq!(bench.block(SECOND_2), second(b"re", b"", b""));
    assert_eq!(before.block(SECOND_1), [0; 512]);
}

/// Each second block spoilt by one byte, with sums that agree: unsound.
#[test]
fn every_byte_of_a_second_block_counts() {
    let mut bench = Bench::new(Form::Two);
    bench.open(b"a", b"r");
    bench.policies(b"a", &[b"1", b"2", b"3"]);
    for at in (0..512).chain(1_024..1_536) {
        let mut row = bench.table.clone();
        row[SECOND_1 + at] ^= 0x80;
        let right = sums(&row[SECOND_1..][..510]);
        if at < 510 {
            row[SECOND_1 + 510..][..2].copy_from_slice(&right);
        }
        let text = [8, 136, 264].contains(&at);
        assert_eq!(sound(&DOCUMENT_01, Form::Two, &row).is_some(), text, "{at}");
    }
}

#[test]
fn policies_leave_no_gap() {
    let mut bench = Bench::new(Form::Two);
    bench.open(b"a", b"r");
    let row = decode(Form::Two, &bench.table).unwrap();
    for bits in 0..8u8 {
        let mut row = row.clone();
        let held = [0, 1, 2].map(|bit| (bits >> bit & 1 == 1).then(|| b"policy".to_vec()));
        row.places[0].as_mut().unwrap().policies = held;
        let bytes = encode(&DOCUMENT_01, Form::Two, &row);
        let right = [0, 1, 3, 7].contains(&bits);
        assert_eq!(sound(&DOCUMENT_01, Form::Two, &bytes).is_some(), right);
    }
}

/// There and back: the same bytes, operator and all. A realm of no bytes is kept there.
#[test]
fn a_move_there_and_back() {
    let mut old = Bench::new(Form::One);
    old.open(b"a", b"ra");
    old.open(b"b", b"rb");
    old.policies(b"b", &[b"permit"]);
    let mut new = old.moved().unwrap();
    assert_eq!(new.table[..1_024], old.table[..1_024]);
    assert_eq!(new.block(PLACE_2), old.block(1_024));
    assert_eq!(new.block(SECOND_1), second(b"", b"", b""));
    assert_eq!(new.block(SECOND_2), second(b"", b"", b""));
    assert!(is_zero(&new.table[PLACE_2 + 1_024..]));
    assert_eq!(new.table[19], 3);
    assert!(new.moved().unwrap().table == old.table);
    // In form 2 they are cut like any other.
    assert_eq!(new.open(b"c", b"rc"), [2001, 1, 1]);
    assert_eq!(new.moved().err(), Some(21));
}

/// What stands in form 2 alone keeps a table there until it is gone.
#[test]
fn a_move_back_is_refused() {
    let mut new = Bench::new(Form::One);
    new.open(b"a", b"ra");
    let mut new = new.moved().unwrap();
    new.policies(b"a", &[b"1", b"2"]);
    assert_eq!(new.moved().err(), Some(21));
    new.policies(b"a", &[b"1"]);
    assert!(new.moved().is_ok());
    let mut realm = Bench::new(Form::Two);
    realm.open(b"a", b"r");
    assert_eq!(realm.moved().err(), Some(21));
    realm.send(&Draft::termination(NAME, b"a", b"pdg", b"board"));
    assert!(realm.moved().is_ok());
}

/// All rows are looked at for 20 before any is for 21, and a zero row is no hindrance.
#[test]
fn every_row_is_looked_at() {
    let mut holds = Bench::new(Form::Two);
    holds.open(b"a", b"r");
    let free = vec![0; Form::Two.row()];
    let mut odd = free.clone();
    odd[8_703] = 1;
    let mut over = holds.table.clone();
    over[19] = 16;
    let right = sums(&over[..510]);
    over[510..512].copy_from_slice(&right);
    let plain = Bench::new(Form::Two).table;
    let cases: [(&[&Vec<u8>], Option<u32>); 7] = [
        (&[&plain, &free, &plain], None),
        (&[&holds.table, &free, &odd], Some(20)),
        (&[&odd, &holds.table], Some(20)),
        (&[&plain, &over], Some(20)),
        (&[&plain, &plain, &holds.table], Some(21)),
        (&[&holds.table, &plain, &plain], Some(21)),
        (&[&free], None),
    ];
    for (rows, number) in cases {
        let rows: Vec<&[u8]> = rows.iter().map(|row| row.as_slice()).collect();
        let mut bench = Bench {
            form: Form::Two,
            table: rows.concat(),
        };
        assert_eq!(bench.moved().err(), number);
    }
}

/// Numbers 1 and 19 by every length around the right ones, and by forms that are not.
#[test]
fn lengths_of_a_move() {
    let table = [0; 2 * Form::One.row()];
    let move_to = |form: u32, source: &[u8], length: usize| {
        let mut target = vec![5; length];
        (DOCUMENT_01.move_table)(&DOCUMENT_01, source, &mut target, form)
    };
    let right = 2 * Form::Two.row();
    assert_eq!(move_to(2, &table, right), 0);
    for length in [0, 1, Form::Two.row(), right - 1, right + 1, 3 * right / 2] {
        assert_eq!(move_to(2, &table, length), 19, "{length}");
    }
    for form in [0, 1, 3, 258, u32::MAX] {
        assert_eq!(move_to(form, &table, right), 1, "{form}");
    }
    for length in [0, 1, Form::One.row() - 1, Form::One.row() + 1] {
        assert_eq!(move_to(2, &table[..length], right), 1, "{length}");
    }
    let most = vec![0; 1_025 * Form::Two.row()];
    assert_eq!(move_to(1, &most, 1_025 * Form::One.row()), 1);
    let most = &most[Form::Two.row()..];
    assert_eq!(move_to(1, most, 1_024 * Form::One.row()), 0);
}

/// The same length in both forms: only what is said tells them apart.
#[test]
fn the_form_is_the_callers_word() {
    let mut table = vec![0; 17 * Form::One.row()];
    assert_eq!(table.len(), 9 * Form::Two.row());
    let mut shares = vec![0; 16];
    for (form, rows) in [(Form::One, 17), (Form::Two, 9)] {
        for (rows, number) in [(rows + 1, 26), (rows, 0)] {
            shares[0] = rows;
            let entering = enter(form, 0, &shares, b"1");
            let seen = perform(&mut DOCUMENT_01.clone(), &entering, &mut table);
            assert_eq!(seen.numbers[0], number);
        }
        let cleared = perform(&mut DOCUMENT_01.clone(), &clear(form), &mut table);
        assert_eq!(cleared.numbers[0], 0);
        for said in [0, 3, 257, u32::MAX] {
            let seen = perform(
                &mut DOCUMENT_01.clone(),
                &clear(form).saying(said),
                &mut table,
            );
            assert_eq!(seen.numbers[0], 1);
        }
    }
}
