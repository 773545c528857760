//! Calls about the two forms of a table (W5): how many policies come and how long they
//! are, what an access holds before and after, the clauses of second blocks, and forms
//! that no table has.

use crate::cases::{
    Case, SORTS, Sort, access, digits, more_policies, some_policies, sound_row, text,
};
use crate::drafts::DraftAvp;
use crate::faults::Fault;
use crate::generator::{Deck, add, clear, enter, record};
use crate::known_avps::unknown;
use crate::moves::{Moving, move_to, moves, moving};
use crate::operators::all_rows;
use crate::random::Random;
use crate::reading_a_message::{ORIGIN_REALM, ROUTING_POLICY, SESSION_ID};
use crate::recorder::Recorder;
use crate::rules::DOCUMENT_01;
use crate::second_blocks::{CLAUSES, break_clause};
use crate::the_table::{FORMS, Form, Row, encode, put};

/// Forms that a caller can say and that no table has.
pub const NO_FORMS: [u32; 6] = [0, 3, 257, 258, 1 << 31 | 2, u32::MAX];

/// Policies of these lengths in a request of this type.
type Brought = (Form, Sort, Vec<usize>);

/// What is still to come of each sort of call.
pub struct FormDecks {
    policies: Deck<Brought>,
    replaced: Deck<(usize, usize)>,
    realms: Deck<(Form, usize)>,
    clauses: Deck<(usize, usize)>,
    no_forms: Deck<(usize, u32, Form)>,
    early: Deck<(Form, Sort, Fault)>,
    moves: Deck<Moving>,
}

impl FormDecks {
    pub fn new() -> FormDecks {
        let pairs = |n: usize, m: usize| (0..n).flat_map(move |a| (0..m).map(move |b| (a, b)));
        let realm = |form| [0, 1, 127, 128, 129].map(|length| (form, length));
        let no_forms = NO_FORMS.into_iter().zip(FORMS.into_iter().cycle());
        let kinds =
            (0..4).flat_map(|kind| no_forms.clone().map(move |(said, form)| (kind, said, form)));
        FormDecks {
            policies: Deck::new(brought()),
            replaced: Deck::new(pairs(4, 3).map(|(n, m)| (n, m + 1)).collect()),
            realms: Deck::new(FORMS.map(realm).concat()),
            clauses: Deck::new(pairs(CLAUSES.len(), 3).collect()),
            no_forms: Deck::new(kinds.collect()),
            early: Deck::new(early()),
            moves: Deck::new(moves()),
        }
    }
}

impl Default for FormDecks {
    fn default() -> FormDecks {
        FormDecks::new()
    }
}

/// Every number of policies up to two too many, each one at the limits of its length.
fn brought() -> Vec<Brought> {
    let in_form_1: [&[usize]; 9] = [
        &[],
        &[1],
        &[128],
        &[0],
        &[129],
        &[1, 1],
        &[1, 129],
        &[0, 1],
        &[1, 1, 1],
    ];
    let in_form_2: [&[usize]; 16] = [
        &[128, 128],
        &[129, 1],
        &[129, 0],
        &[1, 128, 1],
        &[128, 128, 128],
        &[0, 1, 1],
        &[1, 0, 1],
        &[1, 1, 0],
        &[129, 1, 1],
        &[1, 129, 1],
        &[1, 1, 129],
        &[1, 1, 1, 1],
        &[128, 128, 128, 128],
        &[0, 1, 1, 1],
        &[1, 1, 1, 129],
        &[1, 1, 1, 1, 1],
    ];
    let mut all = Vec::new();
    for sort in [Sort::Open, Sort::Policy] {
        for lengths in in_form_1 {
            all.extend(FORMS.map(|form| (form, sort, lengths.to_vec())));
        }
        all.extend(in_form_2.map(|lengths| (Form::Two, sort, lengths.to_vec())));
    }
    all
}

/// Failures before the lists, which know nothing of forms.
fn early() -> Vec<(Form, Sort, Fault)> {
    let faults = [
        Fault::HeaderFlags(1),
        Fault::HeaderFlags(0x20),
        Fault::Application(2),
        Fault::Tail(&[0, 0, 0, 25, 1, 0, 0, 8]),
        Fault::Unknown(unknown()[0]),
        Fault::Tail(&[0; 4]),
    ];
    let mut all = Vec::new();
    for (form, sort) in FORMS
        .into_iter()
        .flat_map(|form| SORTS.map(|sort| (form, sort)))
    {
        all.extend(faults.clone().map(|fault| (form, sort, fault)));
    }
    all
}

/// Some calls of every sort.
pub fn in_forms(recorder: &mut Recorder, decks: &mut FormDecks, random: &mut Random) {
    for _ in 0..6 {
        let (form, sort, lengths) = decks.policies.draw(random).clone();
        bring(recorder, form, sort, &lengths, random);
    }
    let (held, brought) = *decks.replaced.draw(random);
    replace(recorder, held, brought, random);
    let (form, length) = *decks.realms.draw(random);
    realm(recorder, form, length, random);
    for _ in 0..4 {
        let (clause, kind) = *decks.clauses.draw(random);
        broken(recorder, clause, kind, random);
    }
    for _ in 0..2 {
        let (kind, said, form) = *decks.no_forms.draw(random);
        no_form(recorder, kind, said, form, random);
    }
    for _ in 0..3 {
        let (form, sort, fault) = decks.early.draw(random).clone();
        let mut case = Case::in_form(form, sort, random);
        fault.apply(&mut case, random);
        record(recorder, &case);
    }
    for _ in 0..8 {
        let how = decks.moves.draw(random).clone();
        moving(recorder, &how, random);
    }
    freed(recorder, random);
    length_of_both(recorder, random);
}

/// A request with policies of these lengths and no others, in this order.
fn bring(recorder: &mut Recorder, form: Form, sort: Sort, lengths: &[usize], random: &mut Random) {
    let mut case = Case::in_form(form, sort, random);
    case.draft.avps.retain(|avp| avp.name != ROUTING_POLICY);
    let mut places: Vec<usize> = lengths
        .iter()
        .map(|_| random.from_to(1, case.draft.avps.len()))
        .collect();
    places.sort_unstable();
    for (before, (place, length)) in places.into_iter().zip(lengths).enumerate() {
        let policy = DraftAvp::new(ROUTING_POLICY, &random.bytes(*length));
        case.draft.avps.insert(place + before, policy);
    }
    record(recorder, &case);
}

/// So many policies brought for an access of form 2 that holds so many.
fn replace(recorder: &mut Recorder, held: usize, brought: usize, random: &mut Random) {
    let mut case = Case::in_form(Form::Two, Sort::Policy, random);
    let session = case.draft.avp(SESSION_ID).map(|avp| avp.value.clone());
    let place = session.and_then(|session| case.row.place_of(&session));
    let access = place.and_then(|place| case.row.places[usize::from(place) - 1].as_mut());
    if let Some(access) = access {
        access.policies = some_policies(held, random);
        case.write_row();
    }
    case.draft.avps.retain(|avp| avp.name != ROUTING_POLICY);
    more_policies(&mut case.draft, brought, random);
    record(recorder, &case);
}

/// An opening from a gateway whose realm has this length.
fn realm(recorder: &mut Recorder, form: Form, length: usize, random: &mut Random) {
    let mut case = Case::in_form(form, Sort::Open, random);
    if let Some(realm) = case.draft.avp(ORIGIN_REALM) {
        realm.value = random.bytes(length);
    }
    record(recorder, &case);
}

/// A row that breaks one clause of its second blocks: a request, an adding, a move.
fn broken(recorder: &mut Recorder, clause: usize, kind: usize, random: &mut Random) {
    let sort = *random.pick(&SORTS);
    let mut case = Case::in_form(Form::Two, sort, random);
    break_clause(&mut case, &CLAUSES[clause], random);
    if kind < 2 {
        recorder.set_table(&case.table);
        let new = add(Form::Two, case.operator, &case.row.name, b"new", 1, 0);
        let calls = [case.operation(), new];
        recorder.call(calls[kind].clone(), false);
        return;
    }
    // Rows that could be moved stand around it.
    let row = case.row_bytes().to_vec();
    let mut rows = vec![row, vec![0; Form::Two.row()]];
    let other = sound_row(Form::Two, &digits(random), random);
    rows.push(encode(&DOCUMENT_01, Form::Two, &other));
    random.shuffle(&mut rows);
    recorder.set_table(&rows.concat());
    move_to(recorder, Form::One, random);
}

/// Each operation on a table that would do for this form, with a form said that there
/// is not.
fn no_form(recorder: &mut Recorder, kind: usize, said: u32, form: Form, random: &mut Random) {
    let sort = *random.pick(&SORTS);
    let case = Case::in_form(form, sort, random);
    let operator = case.operator;
    recorder.set_table(&case.table);
    let shares = all_rows(form, &case.table, operator);
    let operation = match kind {
        0 => clear(form),
        1 => enter(form, operator, &shares, &digits(random)),
        2 => add(form, operator, &case.row.name, b"new", 1, 0),
        _ => case.operation(),
    };
    // The other form has no rows of this length either.
    for said in [said, form.other().number()] {
        recorder.call(operation.clone().saying(said), false);
    }
}

/// A row of form 2 whose accesses say all that they can: one is cut for a new access,
/// half the time with a lower place free, and one is ended.
fn freed(recorder: &mut Recorder, random: &mut Random) {
    let mut case = Case::full(Form::Two, random);
    say_all(&mut case.row, random);
    let on_last = |place: &&u8| case.row.access(**place).is_some_and(|a| a.entry == 2);
    let cut = case.row.line.iter().find(on_last).copied().unwrap_or(1);
    let lower = |place: &&u8| **place < cut && !on_last(place);
    let lower = case.row.line.iter().find(lower).copied();
    if let Some(place) = lower.filter(|_| random.once_in(2)) {
        case.row.free(place);
    }
    case.write_row();
    record(recorder, &case);
    let mut case = Case::in_form(Form::Two, Sort::Termination, random);
    say_all(&mut case.row, random);
    case.write_row();
    record(recorder, &case);
}

fn say_all(row: &mut Row, random: &mut Random) {
    for access in row.places.iter_mut().flatten() {
        access.realm = text(random, 128);
        access.policies = some_policies(3, random);
    }
}

/// Seventeen rows of form 1 are as long as nine of form 2: only the form that is said
/// tells which they are.
fn length_of_both(recorder: &mut Recorder, random: &mut Random) {
    let form = *random.pick(&FORMS);
    let name = digits(random);
    let mut row = sound_row(form, &name, random);
    row.line.clear();
    row.places = Default::default();
    row.entries.truncate(1);
    row.entries[0].limit = 2;
    if random.once_in(2) {
        let access = access(form, 1, b"first".to_vec(), random);
        row.places[0] = Some(access);
        row.line.push(1);
    }
    let mut table = vec![0; 17 * Form::One.row()];
    let count = table.len() / form.row();
    let index = *random.pick(&[0, 0, count - 1]);
    put(
        &mut table,
        index * form.row(),
        &encode(&DOCUMENT_01, form, &row),
    );
    recorder.set_table(&table);
    for said in [form.other(), form] {
        let label = [b'0' + said.number() as u8];
        recorder.call(add(said, 0, &name, &label, 1, 0), false);
        let mut shares = all_rows(said, &table, 0);
        shares[15] = 1;
        recorder.call(enter(said, 0, &shares, &digits(random)), false);
        shares[15] = 0;
        recorder.call(enter(said, 0, &shares, &digits(random)), false);
    }
}
