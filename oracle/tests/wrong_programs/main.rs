//! Wrong programs, each with one rule taken otherwise, and that the generated calls
//! tell every one of them apart from the right program.

/// Writes a list of wrong programs: a name, and the fields that are exchanged.
macro_rules! wrong {
    ($($name:literal: $($field:ident = $value:expr),+;)+) => {
        vec![$(($name, Rules { $($field: $value,)+ ..RIGHT })),+]
    };
}

mod aa_requests;
mod aborts;
mod bursts;
mod calls;
mod deciding;
mod forms;
mod gateways;
mod held_sessions;
mod labels;
mod lists;
mod operators;
mod reading;
mod table;
mod writing;

use oracle::burst::{Burst, Taken};
use oracle::burst_calls::{burst_calls, given};
use oracle::burst_rounds::{BurstDecks, bursts as round_of_bursts};
use oracle::disconnecting::{ANSWER_TESTS, Abort, Sent, Written};
use oracle::framing::{read, write};
use oracle::generator::generate;
use oracle::handling::{Call, no_answer};
use oracle::judging::{Judged, Judgement, Rooms};
use oracle::program::{Operation, Program};
use oracle::random::Random;
use oracle::reading_a_message::{Name, is, walk};
use oracle::reauth_calls::{self, ReAuthDecks, re_auth_calls, re_auths};
use oracle::reauth_circles::circles;
use oracle::reauthorizing::{ReAuth, ReAuthorized};
use oracle::recorder::Recorder;
use oracle::rules::{DOCUMENT_01, Rules, WITH_W11};
use oracle::script::{Record, judge};
use oracle::set_up::{Account, NewEntry, NewRow};
use oracle::the_table::CONDITIONS;
use oracle::{Outcome, SUCCESS};

const RIGHT: Rules = DOCUMENT_01;

/// Returns at which record a program first differs from the right one.
fn told_apart(program: &mut dyn Program, records: &[Record]) -> Option<usize> {
    let mut table = Vec::new();
    let differs = |record: &Record| judge(program, record, &mut table).is_err();
    records.iter().position(differs)
}

#[test]
fn the_right_program_is_not_told_apart() {
    let records = generate(11, 6_000).records;
    assert_eq!(told_apart(&mut DOCUMENT_01.clone(), &records), None);
}

#[test]
fn every_wrong_program_is_told_apart() {
    let records = generate(12, 18_000).records;
    let mut unnoticed: Vec<String> = Vec::new();
    let mut programs = [
        aborts::notices(),
        calls::programs(),
        reading::programs(),
        lists::programs(),
        lists::programs_of_order(),
        table::programs(),
        deciding::programs(),
        forms::programs(),
        labels::programs(),
        operators::programs(),
        writing::programs(),
    ]
    .concat();
    assert!(programs.len() > 275);
    for (name, rules) in &mut programs {
        if told_apart(rules, &records).is_none() {
            unnoticed.push(name.to_string());
        }
    }
    for left_out in 0..CONDITIONS.len() {
        let mut rules = without_condition(left_out);
        if told_apart(&mut rules, &records).is_none() {
            unnoticed.push(format!("does not test condition {left_out} of a sound row"));
        }
    }
    if told_apart(&mut Echo::default(), &records).is_none() {
        unnoticed.push("echoes success after the first message".to_string());
    }
    assert!(unnoticed.is_empty(), "not told apart: {unnoticed:#?}");
}

/// The programs that differ in nothing but what is written and judged for a
/// disconnection: the calls of that alone have to tell.
#[test]
fn every_wrong_disconnection_is_told_apart() {
    let mut records = generate(13, 12_000).records;
    records.retain(|record| {
        matches!(
            record,
            Record::Call(Operation::Abort(_) | Operation::Answered(_), _)
        )
    });
    assert!(records.len() > 400);
    for record in &mut records {
        if let Record::Call(_, expected) = record {
            expected.digests = None;
        }
    }
    assert_eq!(told_apart(&mut DOCUMENT_01.clone(), &records), None);
    let mut unnoticed: Vec<String> = Vec::new();
    let mut programs = aborts::programs();
    assert!(programs.len() > 110);
    for (name, rules) in &mut programs {
        if told_apart(rules, &records).is_none() {
            unnoticed.push(name.to_string());
        }
    }
    for left_out in 0..ANSWER_TESTS.len() {
        let mut rules = without_answer_test(left_out);
        if told_apart(&mut rules, &records).is_none() {
            unnoticed.push(format!("does not make test {left_out} of an answer"));
        }
    }
    assert!(unnoticed.is_empty(), "not told apart: {unnoticed:#?}");
}

/// The programs that handle each message alone rightly: only bursts tell.
#[test]
fn every_wrong_burst_is_told_apart() {
    let calls = burst_calls(14, 2_000);
    let expected: Vec<_> = calls.iter().map(|call| given(&RIGHT, call)).collect();
    let programs = bursts::programs();
    assert!(programs.len() > 110);
    let unnoticed: Vec<&str> = programs
        .iter()
        .filter(|(_, rules)| {
            let mut each = calls.iter().zip(&expected);
            each.all(|(call, expected)| given(rules, call) == *expected)
        })
        .map(|(name, _)| *name)
        .collect();
    assert!(unnoticed.is_empty(), "not told apart: {unnoticed:#?}");
}

/// The same by the bursts that stand in scripts.
#[test]
fn every_wrong_burst_is_told_apart_by_a_script() {
    let mut recorder = Recorder::new(1_500);
    let (mut decks, mut random) = (BurstDecks::new(), Random::new(15));
    while !recorder.is_full() {
        round_of_bursts(&mut recorder, &mut decks, &mut random);
    }
    let records = read(&write(&recorder.records)).unwrap();
    assert_eq!(told_apart(&mut DOCUMENT_01.clone(), &records), None);
    let mut programs = bursts::programs();
    programs.retain_mut(|(_, rules)| told_apart(rules, &records).is_none());
    let unnoticed: Vec<&str> = programs.iter().map(|(name, _)| *name).collect();
    assert!(unnoticed.is_empty(), "not told apart: {unnoticed:#?}");
}

/// The gateways that read or write otherwise (W11).
#[test]
fn every_wrong_gateway_is_told_apart() {
    let calls = re_auth_calls(15, 6_000);
    let given = |rules: &Rules, at: usize| reauth_calls::given(rules, &calls[at]);
    let programs = [gateways::programs(), aa_requests::programs()].concat();
    assert!(programs.len() > 110);
    every_one_is_told_apart(&programs, calls.len(), given);
}

/// The same by the calls that stand in scripts.
#[test]
fn every_wrong_gateway_is_told_apart_by_a_script() {
    let mut recorder = Recorder::new(6_000);
    let (mut decks, mut random) = (ReAuthDecks::default(), Random::new(17));
    while !recorder.is_full() {
        re_auths(&mut recorder, &mut decks, &mut random);
    }
    let records = read(&write(&recorder.records)).unwrap();
    assert_eq!(told_apart(&mut WITH_W11.clone(), &records), None);
    let mut programs = [gateways::programs(), aa_requests::programs()].concat();
    programs.retain_mut(|(_, rules)| told_apart(rules, &records).is_none());
    let unnoticed: Vec<&str> = programs.iter().map(|(name, _)| *name).collect();
    assert!(unnoticed.is_empty(), "not told apart: {unnoticed:#?}");
}

/// The servers for which W11's rule is another: whole circles have to tell.
#[test]
fn every_wrong_held_session_is_told_apart() {
    let circles = circles(16, 2_000);
    let given = |rules: &Rules, at: usize| circles[at].1.go_round(rules);
    let programs = held_sessions::programs();
    assert!(programs.len() > 20);
    every_one_is_told_apart(&programs, circles.len(), given);
}

/// Each program gives something else than the right one for some call.
fn every_one_is_told_apart<Given: PartialEq>(
    programs: &[Wrong],
    calls: usize,
    given: impl Fn(&Rules, usize) -> Given,
) {
    let expected: Vec<Given> = (0..calls).map(|at| given(&WITH_W11, at)).collect();
    let unnoticed: Vec<&str> = programs
        .iter()
        .filter(|(_, rules)| (0..calls).all(|at| given(rules, at) == expected[at]))
        .map(|(name, _)| *name)
        .collect();
    assert!(unnoticed.is_empty(), "not told apart: {unnoticed:#?}");
}

type Wrong = (&'static str, Rules);

/// Handles the first message and answers all others like a success, without change.
#[derive(Default)]
struct Echo {
    handled: bool,
}

impl Program for Echo {
    fn clear(&mut self, form: u32, table: &mut [u8]) -> u8 {
        RIGHT.clone().clear(form, table)
    }

    fn enter(&mut self, form: u32, table: &mut [u8], new: &NewRow) -> u8 {
        RIGHT.clone().enter(form, table, new)
    }

    fn add(&mut self, form: u32, table: &mut [u8], of: &Account, new: &NewEntry) -> u8 {
        RIGHT.clone().add(form, table, of, new)
    }

    fn move_table(&mut self, source: &[u8], target: &mut [u8], form: u32) -> u8 {
        RIGHT.clone().move_table(source, target, form)
    }

    fn abort(&mut self, abort: &Abort, room: &mut [u8]) -> Written {
        RIGHT.clone().abort(abort, room)
    }

    fn belongs(&mut self, sent: &Sent, answer: &[u8]) -> bool {
        RIGHT.clone().belongs(sent, answer)
    }

    fn burst(&mut self, burst: &mut Burst) -> Taken {
        RIGHT.clone().burst(burst)
    }

    fn re_authorize(&mut self, call: &mut ReAuth) -> ReAuthorized {
        RIGHT.clone().re_authorize(call)
    }

    fn judge(&mut self, judged: &Judged, rooms: Rooms) -> Judgement {
        RIGHT.clone().judge(judged, rooms)
    }

    fn handle(&mut self, call: Call) -> Outcome {
        if no_answer(&RIGHT, &call) != 0 || !self.handled {
            self.handled = true;
            return RIGHT.clone().handle(call);
        }
        let mut copy = call.table.to_vec();
        let mut outcome = RIGHT.clone().handle(Call {
            table: &mut copy,
            ..call
        });
        outcome.code = SUCCESS;
        outcome
    }
}

/// A program for which one condition of a sound row does not count.
fn without_condition(left_out: usize) -> Rules {
    let mut kept = CONDITIONS.to_vec();
    kept.remove(left_out);
    Rules {
        conditions: kept.leak(),
        ..RIGHT
    }
}

/// A program for which one test of an answer (W6) does not count.
fn without_answer_test(left_out: usize) -> Rules {
    let mut kept = ANSWER_TESTS.to_vec();
    kept.remove(left_out);
    Rules {
        answer_tests: kept.leak(),
        ..RIGHT
    }
}

/// The value of an AVP of the message, empty if there is none.
fn asked_about(message: &[u8], name: Name) -> Vec<u8> {
    let avps = walk(&RIGHT, message).unwrap_or_default();
    let found = avps.iter().find(|a| is(a, name));
    found.map(|a| a.value.to_vec()).unwrap_or_default()
}
