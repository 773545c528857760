//! Labels, Session-Ids and names in another case than they are held in (W3): calls that
//! bring them, and how they are told in the report.

use crate::cases::{Case, SORTS, Sort, digits, text};
use crate::drafts::Draft;
use crate::generator::{add, record, request};
use crate::random::Random;
use crate::reading_a_message::{SESSION_ID, USER_NAME, W_APN};
use crate::recorder::Recorder;
use crate::rules::DOCUMENT_01;
use crate::the_table::{
    Entry, FORMS, Form, NAME, Row, bears, decode, encode, find, is_of, row_at, rows, same_label,
};

/// Bytes that differ as the two cases of a letter do, each way round: the first and the
/// last letter, the bytes next to them, and a letter of Latin-1. The first is held.
pub const PAIRS: [(u8, u8); 10] = [
    (0x40, 0x60),
    (0x60, 0x40),
    (0x41, 0x61),
    (0x61, 0x41),
    (0x5A, 0x7A),
    (0x7A, 0x5A),
    (0x5B, 0x7B),
    (0x7B, 0x5B),
    (0xC1, 0xE1),
    (0xE1, 0xC1),
];

/// Where labels are compared.
pub const PLACES_OF_LABELS: [&str; 4] = ["opening", "termination", "adding", "a row"];

pub fn pair_key((held, asked): (u8, u8), place: &str) -> String {
    format!("bytes {held:02X} and {asked:02X}, {place}")
}

/// The same label as others may type it: half the time some letters in the other case.
pub fn typed(label: &[u8], random: &mut Random) -> Vec<u8> {
    let often = *random.pick(&[0, 0, 1, 2]);
    let turns = |byte: u8, random: &mut Random| {
        byte.is_ascii_alphabetic() && often > 0 && random.once_in(often)
    };
    let other = |&byte| byte ^ u8::from(turns(byte, random)) << 5;
    label.iter().map(other).collect()
}

/// One call for each place where labels are compared, about two labels that differ in
/// these bytes alone; then Session-Ids and a name in another case.
pub fn either_case(recorder: &mut Recorder, pair: (u8, u8), random: &mut Random) {
    for sort in [Sort::Open, Sort::Termination] {
        let mut case = Case::good(sort, random);
        let (held, asked) = two_labels(pair, random);
        if let Some(entry) = case.entry() {
            entry.label = held;
        }
        set(&mut case.draft, W_APN, &asked);
        case.write_row();
        record(recorder, &case);
    }
    let (held, asked) = two_labels(pair, random);
    let name = digits(random);
    let form = *random.pick(&FORMS);
    recorder.set_table(&row_of(form, &name, &[&held]));
    recorder.call(add(form, 0, &name, &asked, 1, 0), false);
    recorder.set_table(&row_of(form, &name, &[&held, &asked]));
    recorder.call(add(form, 0, &name, b"one more", 1, 0), false);
    for draft in [
        Draft::open(&name, b"s", b"pdg", &asked),
        Draft::termination(&name, b"s", b"pdg", &held),
    ] {
        recorder.set_table(&row_of(form, &name, &[&held, &asked]));
        recorder.call(request(form, 0, &draft, true, random), false);
    }
    other_texts(recorder, random);
}

/// Texts that are no labels: here case counts.
fn other_texts(recorder: &mut Recorder, random: &mut Random) {
    for sort in SORTS {
        let mut case = Case::good(sort, random);
        let held = case.row.access(*random.pick(&case.row.line));
        let held = held.map(|a| a.session.clone()).unwrap_or_default();
        set(&mut case.draft, SESSION_ID, &turned(&held));
        record(recorder, &case);
    }
    let mut case = Case::good(Sort::Open, random);
    case.row.name[0] = b'a';
    case.write_row();
    set(&mut case.draft, USER_NAME, &turned(&case.row.name));
    record(recorder, &case);
}

fn turned(text: &[u8]) -> Vec<u8> {
    let turn = |&byte: &u8| byte ^ u8::from(byte.is_ascii_alphabetic()) << 5;
    text.iter().map(turn).collect()
}

/// A label with one of the bytes somewhere, and the same label with the other.
fn two_labels((held, asked): (u8, u8), random: &mut Random) -> (Vec<u8>, Vec<u8>) {
    let mut first = text(random, 99);
    let at = random.below(first.len() + 1);
    first.insert(at, held);
    let mut second = first.clone();
    second[at] = asked;
    (first, second)
}

fn set(draft: &mut Draft, name: crate::reading_a_message::Name, value: &[u8]) {
    if let Some(avp) = draft.avp(name) {
        avp.value = value.to_vec();
    }
}

/// A row of a subscriber with these labels.
fn row_of(form: Form, name: &[u8], labels: &[&[u8]]) -> Vec<u8> {
    let entry = |label: &&[u8]| Entry {
        label: label.to_vec(),
        flags: 0,
        limit: 2,
    };
    let row = Row {
        name: name.to_vec(),
        entries: labels.iter().map(entry).collect(),
        ..Row::default()
    };
    encode(&DOCUMENT_01, form, &row)
}

/// What a call brings that is compared with a row, and where its label is compared.
#[derive(Default)]
pub struct Texts<'a> {
    pub place: &'static str,
    pub operator: u32,
    pub name: &'a [u8],
    pub label: &'a [u8],
    pub session: &'a [u8],
}

/// What of a call has to do with the case of letters, for the report.
pub fn signs(texts: &Texts, form: Form, table: &[u8]) -> Vec<String> {
    let mut signs = Vec::new();
    let index = find(form, table, texts.operator, texts.name);
    let Some(row) = index.and_then(|i| decode(form, row_at(form, table, i))) else {
        if name_in_another_case(texts.operator, texts.name, form, table) {
            signs.push("name in another case".to_string());
        }
        return signs;
    };
    let labels: Vec<&[u8]> = row.entries.iter().map(|e| e.label.as_slice()).collect();
    for (n, held) in labels.iter().enumerate() {
        signs.extend(pair_in(held, texts.label).map(|pair| pair_key(pair, texts.place)));
        for later in &labels[n + 1..] {
            signs.extend(pair_in(held, later).map(|pair| pair_key(pair, "a row")));
            if in_another_case(held, later) {
                signs.push("label twice but for case".to_string());
            }
        }
    }
    if labels.iter().any(|held| in_another_case(held, texts.label)) {
        signs.push("label in another case".to_string());
    }
    let mut sessions = row.places.iter().flatten().map(|a| &a.session);
    let exactly = row.place_of(texts.session).is_some();
    if !exactly && sessions.any(|held| in_another_case(held, texts.session)) {
        signs.push("Session-Id in another case".to_string());
    }
    signs
}

fn in_another_case(one: &[u8], other: &[u8]) -> bool {
    one != other && same_label(one, other)
}

/// The one pair of bytes in which two labels differ, if it is one of those above.
fn pair_in(one: &[u8], other: &[u8]) -> Option<(u8, u8)> {
    let pairs = one.iter().copied().zip(other.iter().copied());
    let mut differing = pairs.filter(|(a, b)| a != b);
    let pair = differing.next()?;
    let alone = differing.next().is_none() && one.len() == other.len();
    (alone && PAIRS.contains(&pair)).then_some(pair)
}

fn name_in_another_case(operator: u32, name: &[u8], form: Form, table: &[u8]) -> bool {
    let held = |row: &[u8]| row[NAME..].get(..name.len()).unwrap_or_default().to_vec();
    let bears_it = |row: &[u8]| in_another_case(&held(row), name) && bears(row, &held(row));
    rows(form, table).any(|row| is_of(row, operator) && bears_it(row))
}
