//! How often each number, code, place and kind of cut came up in a script.

use std::collections::BTreeMap;
use std::fmt;

use crate::abort_signs::{WANTED_OF_ABORTS, answered_key, signs_of_aborts};
use crate::burst_signs::{WANTED_OF_BURSTS, signs_of_bursts};
use crate::either_case::{PAIRS, PLACES_OF_LABELS, Texts, pair_key, signs};
use crate::form_signs::{WANTED_OF_FORMS, signs_of_forms};
use crate::judge_signs::{WANTED_OF_JUDGEMENTS, judge_key, signs_of_judgements};
use crate::known_avps::{known_and_ignored, unknown};
use crate::operator_signs::{Subject, WANTED_OF_OPERATORS, signs_of_operators};
use crate::program::{Asked, Operation, Seen};
use crate::reading_a_message::{
    AA, Avp, HEADER, MANDATORY, Name, SESSION_ID, SESSION_REQUEST_TYPE, TERMINATION, USER_NAME,
    VENDOR, W_APN, header, is, number, walk_tests,
};
use crate::reauth_signs::{WANTED_OF_RE_AUTHS, re_auth_key, signs_of_re_auths};
use crate::rules::DOCUMENT_01;
use crate::the_table::{FORMS, Form, Row, decode, find, row_at};

#[derive(Clone, Debug, Default)]
pub struct Report {
    counts: BTreeMap<String, usize>,
}

/// The codes that each sort of request can be given; E marks Experimental-Results.
const WANTED: [(&str, &str); 4] = [
    (
        "265 type 0",
        "2001 3007 3008 3009 5001 5003 5004 5005 5009 5012 5013 5014 E5001 E5004 E5044",
    ),
    (
        "265 type 1",
        "2001 3007 3008 3009 5001 5004 5005 5009 5012 5013 5014 E5001",
    ),
    (
        "275",
        "2001 3007 3008 3009 5001 5004 5005 5009 5012 5013 5014 E5001 E5042",
    ),
    ("other command", "3001 3008 5013"),
];

/// The numbers of the seven operations that look at a table, apart from the codes above and
/// from 32.
const NUMBERS: [(&str, &[u32]); 7] = [
    ("clear", &[0, 1]),
    ("enter", &[0, 1, 33, 26, 9, 10, 27, 11]),
    ("add", &[0, 1, 33, 12, 13, 14, 15, 16, 17]),
    ("handle", &[1, 33, 2, 3, 4, 5, 6, 7, 8]),
    ("move", &[0, 1, 19, 20, 21]),
    ("burst", &[0, 1, 33, 2, 18]),
    ("judge", &[0, 1, 33, 2, 3, 4, 31]),
];

/// Everything that has to come up at least once.
fn wanted() -> Vec<String> {
    let mut all = numbers_and_codes();
    let in_form = |form: Form| move |key: &String| format!("form {}, {key}", form.number());
    for form in FORMS {
        let those = numbers_and_codes().into_iter();
        let those = those.filter(|key| !key.starts_with("move"));
        all.extend(those.map(|key| in_form(form)(&key)));
    }
    all.extend((1..=8).map(|place| format!("place {place}")));
    all.extend((1..=8).map(|place| format!("cut from line position {place}")));
    all.extend((1..=4).map(|entry| format!("cut of entry {entry}")));
    all.extend([RETAKEN.to_string(), LOWER.to_string()]);
    for place in PLACES_OF_LABELS {
        all.extend(PAIRS.map(|pair| pair_key(pair, place)));
    }
    all.extend(CASES_OF_LETTERS.map(str::to_string));
    all.extend(HELD.map(str::to_string));
    all.extend(known_and_ignored().into_iter().map(known_key));
    all.extend(unknown().into_iter().map(unknown_key));
    all.extend([AT_FIRST, LATER, BEFORE_BROKEN, BEHIND_BROKEN].map(str::to_string));
    all.extend([3001, 3007, 3008, 5013].map(beside_key));
    all.extend(WANTED_OF_OPERATORS.iter().cloned());
    all.extend(WANTED_OF_FORMS.iter().cloned());
    all.extend(WANTED_OF_ABORTS.iter().cloned());
    all.extend(WANTED_OF_BURSTS.iter().cloned());
    all.extend(WANTED_OF_RE_AUTHS.iter().cloned());
    all.extend(WANTED_OF_JUDGEMENTS.iter().cloned());
    all
}

/// What each operation and each sort of request can be given; all but moves come up in
/// both forms.
fn numbers_and_codes() -> Vec<String> {
    let mut all = Vec::new();
    for (operation, numbers) in NUMBERS {
        all.extend(numbers.iter().map(|n| number_key(operation, *n)));
    }
    for (sort, codes) in WANTED {
        all.extend(codes.split(' ').map(|code| format!("{sort}: {code}")));
    }
    all
}

/// What has to be asked in another case than it is held in, and what comes of it.
const CASES_OF_LETTERS: [&str; 12] = [
    "label in another case, 265 type 0: 2001",
    "label in another case, 265 type 0: 5003",
    "label in another case, 265 type 0: E5004",
    "label in another case, 275: 2001",
    "label in another case, add: number 15",
    "label twice but for case, 265 type 0: 5012",
    "label twice but for case, 275: 5012",
    "label twice but for case, add: number 13",
    "Session-Id in another case, 265 type 0: 2001",
    "Session-Id in another case, 265 type 1: 5012",
    "Session-Id in another case, 275: E5042",
    "name in another case, 265 type 0: E5001",
];

/// A request of type 0 whose Session-Id stands in the row (W11).
const HELD: [&str; 2] = [
    "Session-Id held on that label, 265 type 0: 2001",
    "Session-Id held on another label, 265 type 0: 5012",
];

const RETAKEN: &str = "cut, the freed place taken again";
const LOWER: &str = "cut, a lower place taken";

const AT_FIRST: &str = "5001 for the first AVP";
const LATER: &str = "5001 for a later AVP";
const BEFORE_BROKEN: &str = "5001 before a broken AVP";
const BEHIND_BROKEN: &str = "3009 before an AVP that is not known";

fn known_key(name: Name) -> String {
    format!("2001 with M on {}", name_key(name))
}

fn unknown_key(name: Name) -> String {
    format!("5001 for {}", name_key(name))
}

fn beside_key(code: u32) -> String {
    format!("{code} beside an AVP that is not known")
}

fn name_key(name: Name) -> String {
    match name.vendor {
        None => format!("AVP {}", name.code),
        Some(vendor) => format!("AVP {} of vendor {vendor}", name.code),
    }
}

pub fn number_key(operation: &str, number: u32) -> String {
    format!("{operation}: number {number}")
}

impl Report {
    pub fn add(&mut self, key: String) {
        *self.counts.entry(key).or_default() += 1;
    }

    /// Counts one call, from the table before it and what came of it.
    pub fn count(&mut self, operation: &Operation, table: &[u8], seen: &Seen) {
        let code = seen.numbers[0];
        let key = match operation {
            Operation::Clear { .. } => number_key("clear", code),
            Operation::Move { .. } => number_key("move", code),
            Operation::Enter { .. } => number_key("enter", code),
            Operation::Add { .. } => number_key("add", code),
            Operation::Abort(_) => number_key("abort", code),
            Operation::Answered(_) => answered_key(code).to_string(),
            Operation::Burst(_) => number_key("burst", code),
            Operation::ReAuth(_) => re_auth_key(seen.numbers[1], code),
            Operation::Judge(_) => judge_key(code, seen.numbers[1]),
            Operation::Handle(_) if seen.numbers[1] == 0 => number_key("handle", code),
            Operation::Handle(asked) => {
                self.count_place(asked, table, seen);
                self.count_known(&asked.message, seen);
                let mark = if seen.numbers[1] == 2 { "E" } else { "" };
                format!("{}: {mark}{code}", sort(&asked.message))
            }
        };
        if let Some(held) = held_sign(operation, table) {
            self.add(format!("{held}, {key}"));
        }
        let form = operation.form().and_then(Form::numbered);
        let subject = subject(operation);
        for sign in form.map_or(Vec::new(), |form| signs(&texts(operation), form, table)) {
            let of_bytes = sign.starts_with("bytes");
            self.add(if of_bytes {
                sign
            } else {
                format!("{sign}, {key}")
            });
        }
        for sign in signs_of_operators(operation, &subject, table, &key) {
            self.add(sign);
        }
        for sign in signs_of_forms(operation, &subject, table, seen, &key) {
            self.add(sign);
        }
        for sign in signs_of_aborts(operation, seen, &key) {
            self.add(sign);
        }
        for sign in signs_of_bursts(operation, table, seen) {
            self.add(sign);
        }
        for sign in signs_of_re_auths(operation, seen) {
            self.add(sign);
        }
        for sign in signs_of_judgements(operation, table, seen) {
            self.add(sign);
        }
        self.add(key);
    }

    /// Which AVPs with M made no difference because they are known, and which did.
    fn count_known(&mut self, message: &[u8], seen: &Seen) {
        let (avps, broken) = loosely_read(message);
        let with_m = avps.iter().filter(|avp| avp.mandatory);
        let not_known = avps
            .iter()
            .position(|avp| (DOCUMENT_01.supported)(avp).is_err());
        match (&seen.numbers[..2], not_known) {
            ([2001, 1], _) => {
                let known = known_and_ignored().into_iter();
                let there = known.filter(|name| with_m.clone().any(|avp| is(avp, *name)));
                there.for_each(|name| self.add(known_key(name)));
            }
            ([5001, 1], Some(at)) => {
                let known = unknown().into_iter().find(|name| is(&avps[at], *name));
                known
                    .into_iter()
                    .for_each(|name| self.add(unknown_key(name)));
                self.add(if at == 0 { AT_FIRST } else { LATER }.to_string());
                if broken.is_some() {
                    self.add(BEFORE_BROKEN.to_string());
                }
            }
            ([code @ (3001 | 3007 | 3008 | 5013), 1], Some(_)) => self.add(beside_key(*code)),
            ([3009, 1], Some(at)) if broken.is_some_and(|place| place < at) => {
                self.add(BEHIND_BROKEN.to_string());
            }
            _ => (),
        }
    }

    fn count_place(&mut self, asked: &Asked, table: &[u8], seen: &Seen) {
        let place = seen.numbers[3];
        if place == 0 {
            return;
        }
        self.add(format!("place {place}"));
        if let (1, Some(row)) = (seen.numbers[4], row_of(asked, table)) {
            self.count_cut(&row, seen);
        }
    }

    /// The cut access is the one whose Session-Id stands in the notice.
    fn count_cut(&mut self, row: &Row, seen: &Seen) {
        let session = &seen.notice_room[..seen.numbers[5] as usize];
        let Some(freed) = row.place_of(session) else {
            return;
        };
        let position = row.line.iter().position(|&p| p == freed);
        let entry = row.access(freed).map_or(0, |access| access.entry);
        let position = position.map_or(0, |p| p + 1);
        self.add(format!("cut from line position {position}"));
        self.add(format!("cut of entry {entry}"));
        let again = u32::from(freed) == seen.numbers[3];
        self.add(if again { RETAKEN } else { LOWER }.to_string());
    }

    /// What never came up though it should.
    pub fn missing(&self) -> Vec<String> {
        let absent = |key: &String| !self.counts.contains_key(key);
        wanted().into_iter().filter(absent).collect()
    }
}

impl fmt::Display for Report {
    fn fmt(&self, f: &mut fmt::Formatter) -> fmt::Result {
        for (key, count) in &self.counts {
            writeln!(f, "{count:>8}  {key}")?;
        }
        for key in self.missing() {
            writeln!(f, "   never  {key}")?;
        }
        Ok(())
    }
}

/// The AVPs as far as lengths lead, and which of them or what behind them is broken;
/// one with reserved bits is stepped over here.
pub fn loosely_read(message: &[u8]) -> (Vec<Avp<'_>>, Option<usize>) {
    let (mut avps, mut broken) = (Vec::new(), None);
    let mut rest = message.get(HEADER..).unwrap_or_default();
    while !rest.is_empty() {
        if walk_tests(rest).is_err() {
            broken = broken.or(Some(avps.len()));
        }
        let Some(avp) = by_length(rest) else {
            break;
        };
        rest = &rest[avp.whole.len()..];
        avps.push(avp);
    }
    (avps, broken)
}

/// The AVP at the front, whatever its reserved bits.
fn by_length(rest: &[u8]) -> Option<Avp<'_>> {
    let flags = *rest.get(4)?;
    let start = if flags & VENDOR != 0 { 12 } else { 8 };
    let length = number(rest.get(5..8)?) as usize;
    Some(Avp {
        code: number(&rest[..4]),
        vendor: (start == 12).then(|| number(rest.get(8..12).unwrap_or_default())),
        mandatory: flags & MANDATORY != 0,
        value: rest.get(start..length)?,
        whole: rest.get(..length.next_multiple_of(4))?,
    })
}

/// The AVPs that can be read before one fails, by name and value.
pub fn readable(message: &[u8], name: Name) -> Option<&[u8]> {
    let mut rest = message.get(HEADER..)?;
    while let Ok(avp) = walk_tests(rest) {
        if is(&avp, name) {
            return Some(avp.value);
        }
        rest = &rest[avp.whole.len()..];
    }
    None
}

/// The sort of request, by what can be read of it.
fn sort(message: &[u8]) -> &'static str {
    let session_type = readable(message, SESSION_REQUEST_TYPE).map(number);
    match (header(message).map(|h| h.command), session_type) {
        (Some(AA), Some(0)) => "265 type 0",
        (Some(AA), Some(1)) => "265 type 1",
        (Some(AA), _) => "265 of no type",
        (Some(TERMINATION), _) => "275",
        _ => "other command",
    }
}

/// Who calls, and for which name.
fn subject(operation: &Operation) -> Subject<'_> {
    let (operator, name) = match operation {
        Operation::Clear { .. }
        | Operation::Move { .. }
        | Operation::Abort(_)
        | Operation::Answered(_)
        | Operation::Burst(_)
        | Operation::ReAuth(_)
        | Operation::Judge(_) => (0, &[][..]),
        Operation::Enter { operator, name, .. } | Operation::Add { operator, name, .. } => {
            (*operator, name.as_slice())
        }
        Operation::Handle(asked) => {
            let name = readable(&asked.message, USER_NAME);
            (asked.operator, name.unwrap_or_default())
        }
    };
    Subject { operator, name }
}

/// The texts that a call brings and that are looked up in a row.
fn texts(operation: &Operation) -> Texts<'_> {
    match operation {
        Operation::Add {
            operator,
            name,
            label,
            ..
        } => Texts {
            place: "adding",
            operator: *operator,
            name,
            label,
            session: &[],
        },
        Operation::Handle(asked) => {
            let text = |name| readable(&asked.message, name).unwrap_or_default();
            let place = match sort(&asked.message) {
                "265 type 0" => "opening",
                "275" => "termination",
                _ => "",
            };
            let label = if place.is_empty() { &[] } else { text(W_APN) };
            Texts {
                place,
                operator: asked.operator,
                name: text(USER_NAME),
                label,
                session: text(SESSION_ID),
            }
        }
        _ => Texts::default(),
    }
}

/// Whether a request of type 0 finds its Session-Id in the row, and on which label.
fn held_sign(operation: &Operation, table: &[u8]) -> Option<&'static str> {
    let Operation::Handle(asked) = operation else {
        return None;
    };
    if sort(&asked.message) != "265 type 0" {
        return None;
    }
    let row = row_of(asked, table)?;
    let place = row.place_of(readable(&asked.message, SESSION_ID)?)?;
    let entry = row.entry_of(readable(&asked.message, W_APN)?)?;
    let same = row.access(place)?.entry == entry;
    Some(if same {
        "Session-Id held on that label"
    } else {
        "Session-Id held on another label"
    })
}

fn row_of(asked: &Asked, table: &[u8]) -> Option<Row> {
    let name = readable(&asked.message, USER_NAME)?;
    let form = Form::numbered(asked.form)?;
    let index = find(form, table, asked.operator, name)?;
    decode(form, row_at(form, table, index))
}
