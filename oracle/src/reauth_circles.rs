//! The whole circle of a re-authorization (W11), made from a seed: a Re-Auth-Request that
//! is laid out, the access that the gateway lends, and the table on which the server meets
//! the AA-Request, where the access stands or has gone meanwhile.

use crate::Outcome;
use crate::cases::{access, digits, sound_row, text};
use crate::drafts::DraftAvp;
use crate::either_case::typed;
use crate::handling::Call;
use crate::operators::namesake;
use crate::random::Random;
use crate::reading_a_message::{Name, RE_AUTH_REQUEST_TYPE, base};
use crate::reauth_calls::{Given, ReAuthCall, Texts, given, good_call};
use crate::rules::{DOCUMENT_01, Rules};
use crate::the_table::{BARRED, FORMS, Form, MAY_ROAM, Row, encode, put};

/// A table, its server's names, the texts of a Re-Auth-Request, the gateway's call, and
/// what stands behind the AA-Request once it comes to the server: an AVP with M that is
/// known, as a proxy may add one.
#[derive(Clone, Debug, PartialEq, Eq)]
pub struct Circle {
    pub form: Form,
    pub operator: u32,
    pub table: Vec<u8>,
    pub host: Vec<u8>,
    pub realm: Vec<u8>,
    pub texts: Texts,
    pub call: ReAuthCall,
    pub added: Option<Name>,
}

/// What came of it: at the gateway, then at the server, with table, answer and notice.
#[derive(Clone, Debug, PartialEq, Eq)]
pub struct Came {
    pub given: Given,
    pub outcome: Outcome,
    pub table: Vec<u8>,
    pub answer: Vec<u8>,
    pub notice: Vec<u8>,
}

impl Circle {
    /// Puts the Re-Auth-Request to the gateway, and what it writes to the server.
    pub fn go_round(&self, rules: &Rules) -> Came {
        let given = given(rules, &self.call);
        let message = with_added(given.request(), self.added);
        let mut table = self.table.clone();
        let (mut answer, mut notice) = (vec![0xAA; 5_120], vec![0xBB; 384]);
        let outcome = (rules.handle)(
            rules,
            Call {
                form: self.form.number(),
                table: &mut table,
                operator: self.operator,
                host: &self.host,
                realm: &self.realm,
                message: &message,
                wag: false,
                answer_room: &mut answer,
                notice_room: &mut notice,
            },
        );
        Came {
            given,
            outcome,
            table,
            answer,
            notice,
        }
    }
}

/// The message with an AVP of this name behind its last, if there is a message.
fn with_added(message: &[u8], name: Option<Name>) -> Vec<u8> {
    let mut bytes = message.to_vec();
    if let (Some(name), 20..) = (name, message.len()) {
        bytes.extend(DraftAvp::number(name, 1).bytes());
        let length = (bytes.len() as u32).to_be_bytes();
        put(&mut bytes, 1, &length[1..]);
    }
    bytes
}

const ROUTE_RECORD: Name = base(282);

/// What became of the access since the gateway opened it.
#[derive(Clone, Copy, Debug, PartialEq, Eq)]
pub enum Meanwhile {
    Stands,
    Ended,
    /// Its entry is at its limit without it.
    Cut,
    /// It stands under another label than the gateway's.
    OtherLabel,
    NoLabel,
    OtherUser,
    OtherOperator,
    Damaged,
}

use Meanwhile::*;

const ALL: [Meanwhile; 12] = [
    Stands,
    Stands,
    Stands,
    Stands,
    Ended,
    Cut,
    Cut,
    OtherLabel,
    NoLabel,
    OtherUser,
    OtherOperator,
    Damaged,
];

/// A circle on a table of its own, and what became of the access on it.
pub fn circle(random: &mut Random) -> (Meanwhile, Circle) {
    let form = *random.pick(&FORMS);
    let mut row = open_row(form, random);
    let place = *random.pick(&row.line);
    let meanwhile = *random.pick(&ALL);
    let (session, label) = lent(form, &mut row, place, meanwhile, random);
    let texts = Texts {
        session,
        ..Texts::new(random)
    };
    let mut call = good_call(&texts, texts.lay_out().bytes(), random);
    (call.user, call.label) = (row.name.clone(), label);
    if meanwhile == OtherUser {
        call.user = other_user(&row.name, random);
    }
    let other = meanwhile == OtherOperator;
    let circle = Circle {
        form,
        operator: u32::from(row.operator ^ u8::from(other)),
        table: table(form, &row, meanwhile, random),
        host: text(random, 128),
        realm: text(random, 128),
        texts,
        call,
        added: *random.pick(&[None, None, Some(ROUTE_RECORD), Some(RE_AUTH_REQUEST_TYPE)]),
    };
    (meanwhile, circle)
}

/// A subscriber with at least one access, most of whose entries are not barred.
fn open_row(form: Form, random: &mut Random) -> Row {
    let name = digits(random);
    let mut row = sound_row(form, &name, random);
    row.operator = *random.pick(&[0, 0, 1, 9, 15]);
    for entry in &mut row.entries {
        if !random.once_in(5) {
            entry.flags &= !BARRED;
        }
        if random.once_in(2) {
            entry.flags |= MAY_ROAM;
        }
    }
    if row.line.is_empty() {
        row.places[4] = Some(access(form, 1, b"only".to_vec(), random));
        row.line.push(5);
    }
    row
}

/// The Session-Id and the label that the gateway lends for the access at this place, which
/// leaves the row where it has gone meanwhile.
fn lent(
    form: Form,
    row: &mut Row,
    place: u8,
    meanwhile: Meanwhile,
    random: &mut Random,
) -> (Vec<u8>, Vec<u8>) {
    let held = row.access(place).cloned();
    let held = held.unwrap_or_else(|| access(form, 1, b"only".to_vec(), random));
    let number = usize::from(held.entry) - 1;
    let mut label = row.entries[number].label.clone();
    match meanwhile {
        Ended => drop(row.free(place)),
        Cut => {
            row.free(place);
            fill_entry(form, row, held.entry, random);
        }
        OtherLabel if row.entries.len() > 1 => {
            let count = row.entries.len();
            let other = (number + random.from_to(1, count - 1)) % count;
            label = row.entries[other].label.clone();
        }
        NoLabel => label = b"not entered".to_vec(),
        _ => (),
    }
    (held.session, typed(&label, random))
}

/// Opens accesses on an entry until it is at its limit.
fn fill_entry(form: Form, row: &mut Row, entry: u8, random: &mut Random) {
    let limit = row.entry(entry).map_or(0, |entry| usize::from(entry.limit));
    for place in 1..=8u8 {
        if row.open_on(entry) < limit && row.access(place).is_none() {
            let session = vec![b'n', b'0' + place];
            row.places[usize::from(place) - 1] = Some(access(form, entry, session, random));
            row.line.push(place);
        }
    }
}

/// A name that is another subscriber's, or that no subscriber can have.
fn other_user(name: &[u8], random: &mut Random) -> Vec<u8> {
    let mut name = name.to_vec();
    match random.below(3) {
        0 => name[0] = if name[0] == b'9' { b'0' } else { name[0] + 1 },
        1 => name.push(b'0'),
        _ => name.resize(128, b'1'),
    }
    name
}

/// The row, damaged or not, now and then behind one of another operator and before a
/// free one.
fn table(form: Form, row: &Row, meanwhile: Meanwhile, random: &mut Random) -> Vec<u8> {
    let mut table = Vec::new();
    if random.once_in(3) {
        table.extend(namesake(form, row, random));
    }
    let mut bytes = encode(&DOCUMENT_01, form, row);
    let at = random.from_to(20, form.row() - 1);
    bytes[at] ^= u8::from(meanwhile == Damaged);
    table.extend(bytes);
    table.extend(vec![0; form.row() * random.below(2)]);
    table
}

/// So many circles, the same for one seed on every machine.
pub fn circles(seed: u64, count: usize) -> Vec<(Meanwhile, Circle)> {
    let mut random = Random::new(seed);
    (0..count).map(|_| circle(&mut random)).collect()
}
