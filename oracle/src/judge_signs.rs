//! What of a judgement (W10) has to do with its numbers, its mismatches and its limits, for the
//! report. What was planted in an answer only its generator can say (`judge_rounds`).

use std::collections::BTreeSet;
use std::sync::LazyLock;

use crate::judge_rounds::{
    FIELDS, NUMBERS, Way, depth, kind_name, limits, pairs, planted_key, two_key, two_told,
};
use crate::judging::{FAILED_AVP, Kind, avps_of, same_name};
use crate::planting::PLANTS;
use crate::program::{Judging, Operation, Seen};
use crate::reading_a_message::{Avp, HEADER, is};
use crate::report::number_key;
use crate::the_table::{FORMS, Form};

/// What has to come up; of all that could be said of judgements, the report says no more.
pub static WANTED_OF_JUDGEMENTS: LazyLock<BTreeSet<String>> = LazyLock::new(wanted);

const KINDS: [Kind; 6] = [
    Kind::Header,
    Kind::Walk,
    Kind::Avp,
    Kind::Missing,
    Kind::Notice,
    Kind::Row,
];

/// What stands in an answer that is accepted though it is not ours byte for byte, and what else
/// is compared.
const ACCEPTED: [&str; 6] = [
    "AVPs in another order",
    "other padding",
    "one without M that ours lacks",
    "Failed-AVP",
    "a notice",
    "a row that changes",
];

fn wanted() -> BTreeSet<String> {
    let mut all = BTreeSet::new();
    for form in FORMS {
        let said = form.number();
        all.extend(KINDS.map(|kind| format!("form {said}, {}", judge_key(32, kind as u32))));
        all.extend(FIELDS.map(|(field, _)| field_key(said, field)));
        all.extend(limits(form).iter().map(|(way, n)| way_key(said, *way, *n)));
        all.extend(pairs(&NUMBERS).into_iter().map(|two| beside_key(said, two)));
        all.extend(ACCEPTED.map(|sign| accepted_key(said, sign)));
        all.extend(PLANTS.map(|(_, name, _)| planted_key(form, name)));
        all.extend(two_told().into_iter().map(|two| two_key(form, two)));
    }
    all
}

/// What the report says of a judgement by itself: its number, with 32 the kind of the mismatch.
pub fn judge_key(number: u32, mismatch: u32) -> String {
    let by_itself = number_key("judge", number);
    match KINDS.into_iter().find(|kind| *kind as u32 == mismatch) {
        Some(kind) => format!("{by_itself}, {}", kind_name(kind)),
        None => by_itself,
    }
}

fn field_key(form: u32, field: &str) -> String {
    format!("form {form}, judge, {field} of the header: number 32")
}

fn way_key(form: u32, way: Way, number: u16) -> String {
    format!("form {form}, judge, {way}: number {number}")
}

fn beside_key(form: u32, [first, second]: [u16; 2]) -> String {
    format!("form {form}, judge: {first} beside {second}")
}

fn accepted_key(form: u32, sign: &str) -> String {
    format!("form {form}, judge, {sign}: number 0")
}

pub fn signs_of_judgements(operation: &Operation, table: &[u8], seen: &Seen) -> Vec<String> {
    let Operation::Judge(judging) = operation else {
        return Vec::new();
    };
    let form = judging.asked.form;
    let [given, mismatch, byte, ..] = seen.numbers;
    let ways = Way::all(judging, table).into_iter();
    let mut signs: Vec<String> = ways.map(|way| way_key(form, way, given as u16)).collect();
    let beside = holding(judging, table).into_iter();
    signs.extend(beside.map(|second| beside_key(form, [given as u16, second])));
    if mismatch == Kind::Header as u32 && seen.ours[0] > 0 && judging.answer.len() >= HEADER {
        let mut fields = FIELDS.into_iter();
        let field = fields.find(|(_, bytes)| bytes.contains(&(byte as usize)));
        signs.extend(field.map(|(field, _)| field_key(form, field)));
    }
    if given == 0 {
        let accepted = signs_of_accepted(judging, table, seen).into_iter();
        signs.extend(accepted.map(|sign| accepted_key(form, sign)));
    }
    signs.retain(|sign| WANTED_OF_JUDGEMENTS.contains(sign));
    signs
}

/// Which numbers hold of the call, whatever comes before them.
fn holding(judging: &Judging, table: &[u8]) -> Vec<u16> {
    let said = Form::numbered(judging.asked.form);
    let one_row = |form: Form| [table.len(), judging.after.len()] == [form.row(); 2];
    let named = |name: &[u8]| (1..=128).contains(&name.len());
    let names = [&judging.asked.host, &judging.asked.realm];
    let rooms = judging.rooms();
    let holding = [
        !said.is_some_and(one_row),
        judging.asked.operator > 15,
        !names.into_iter().all(|name| named(name)),
        rooms.answer < 5_120,
        said.is_some_and(|form| rooms.notice < form.notice()),
        depth(&judging.answer) > 4,
    ];
    let numbers = NUMBERS.into_iter().zip(holding);
    numbers
        .filter_map(|(n, holds)| holds.then_some(n))
        .collect()
}

fn signs_of_accepted(judging: &Judging, table: &[u8], seen: &Seen) -> Vec<&'static str> {
    let ours = avps_of(&seen.answer_room[..seen.ours[0]]);
    let theirs = avps_of(&judging.answer);
    let of_ours = |avp: &&Avp| ours.iter().any(|own| same_name(own, avp));
    let names = |avps: &[Avp]| -> Vec<_> {
        let ours = avps.iter().filter(of_ours);
        ours.map(|avp| (avp.code, avp.vendor)).collect()
    };
    let padded = |avp: &Avp| {
        let same = |own: &Avp| own.value == avp.value && own.whole != avp.whole;
        ours.iter().any(|own| same_name(own, avp) && same(own))
    };
    let lacking = |avp: &Avp| !of_ours(&avp) && !is(avp, FAILED_AVP);
    let holding = [
        names(&theirs) != names(&ours),
        theirs.iter().any(padded),
        theirs.iter().any(lacking),
        theirs.iter().any(|avp| is(avp, FAILED_AVP)),
        seen.ours[1] > 0,
        table != judging.after,
    ];
    let signs = ACCEPTED.into_iter().zip(holding);
    signs
        .filter_map(|(sign, holds)| holds.then_some(sign))
        .collect()
}
