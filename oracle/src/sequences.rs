//! Long sequences for several subscribers on one table.

use crate::cases::{digits, entries, garnish, more_policies, text};
use crate::damages::odd_row;
use crate::drafts::{Draft, DraftAvp};
use crate::either_case::typed;
use crate::generator::{add, enter, request};
use crate::moves::move_to;
use crate::random::Random;
use crate::reading_a_message::{Name, ORIGIN_REALM, PROXY_INFO, VISITED_NETWORK};
use crate::recorder::Recorder;
use crate::the_table::{BARRED, FORMS, Form, Row, decode, find, row_at};

/// An operator and one of its names.
type Subject = (u32, Vec<u8>);

/// Enters two to four subscribers, of several operators and of few names, then sends
/// requests for all of them in turn by chance, all in one form. How often accesses are
/// ended differs, so that some rows stay full. In the end the table is moved.
pub fn sequence(recorder: &mut Recorder, random: &mut Random) {
    let form = *random.pick(&FORMS);
    let length = form.row();
    let count = random.from_to(2, 4);
    let mut table = vec![0; length * (count + random.below(3))];
    if random.once_in(3) {
        table[..length].copy_from_slice(&odd_row(form, random));
        table.extend(vec![0; length]);
    }
    recorder.set_table(&table);
    let subjects = subjects(count, random);
    let shares = shares_of(&subjects);
    set_up(recorder, form, (&subjects, &shares), random);
    requests(recorder, form, (&subjects, &shares), random);
    move_to(recorder, form.other(), random);
}

fn requests(
    recorder: &mut Recorder,
    form: Form,
    (subjects, shares): (&[Subject], &[u32]),
    random: &mut Random,
) {
    let ends = *random.pick(&[2, 4, 12]);
    for _ in 0..random.from_to(15, 70) {
        let (operator, name) = random.pick(subjects).clone();
        if random.once_in(30) {
            let names = [name.clone(), digits(random)];
            let again = enter(form, operator, shares, &names[random.below(2)]);
            recorder.call(again, false);
        }
        let index = find(form, &recorder.table, operator, &name);
        let row = index.and_then(|i| decode(form, row_at(form, &recorder.table, i)));
        let Some(row) = row.filter(|_| !recorder.is_full()) else {
            return;
        };
        let (mut draft, wag) = next_request(form, &row, ends, random);
        if random.once_in(3) {
            garnish(&mut draft, random);
        }
        recorder.call(request(form, operator, &draft, wag, random), false);
    }
}

/// Two names and three operators, some of the six that these make.
fn subjects(count: usize, random: &mut Random) -> Vec<Subject> {
    let names = [digits(random), digits(random)];
    let operators = [0, *random.pick(&[1, 15]), random.below(16) as u32];
    let one = |random: &mut Random| (*random.pick(&operators), random.pick(&names).clone());
    let mut all: Vec<Subject> = (0..count).map(|_| one(random)).collect();
    all.sort_unstable();
    all.dedup();
    random.shuffle(&mut all);
    all
}

/// A row for each subscriber.
fn shares_of(subjects: &[Subject]) -> Vec<u32> {
    let mut shares = vec![0; 16];
    for (operator, _) in subjects {
        shares[*operator as usize] += 1;
    }
    shares
}

/// Enters subscribers with W-APNs; an entry is barred only now and then.
fn set_up(
    recorder: &mut Recorder,
    form: Form,
    (subjects, shares): (&[Subject], &[u32]),
    random: &mut Random,
) {
    for (operator, name) in subjects {
        let operator = *operator;
        recorder.call(enter(form, operator, shares, name), false);
        for entry in entries(random) {
            let barred = if random.once_in(8) { BARRED } else { 0 };
            let flags = entry.flags & !BARRED | barred;
            let new = add(form, operator, name, &entry.label, entry.limit, flags);
            recorder.call(new, false);
        }
    }
}

/// The next request of a subscriber, and the WAG's word.
fn next_request(form: Form, row: &Row, ends: usize, random: &mut Random) -> (Draft, bool) {
    let host = [b'p', b'd', b'g', *random.pick(b"12345")];
    let (mut session, mut label) = new_access(row, random);
    if random.below(12) >= 2 + 8 / ends {
        let mut draft = Draft::open(&row.name, &session, &host, &label);
        if let Some(realm) = draft.avp(ORIGIN_REALM) {
            realm.value = text(random, 128);
        }
        company(&mut draft, random);
        // The WAG's word has no say in an opening.
        return (draft, random.once_in(2));
    }
    // About an access that is open, more often than not under its own label.
    let place = row.line.get(random.below(8));
    if let Some(access) = place.and_then(|&p| row.access(p)) {
        session = access.session.clone();
        let own = row.entry(access.entry).map(|e| e.label.clone());
        let own = own.filter(|_| !random.once_in(6));
        label = own.map_or(label, |own| typed(&own, random));
    }
    if random.once_in(ends) {
        return (Draft::termination(&row.name, &session, &host, &label), true);
    }
    let mut draft = Draft::policy(&row.name, &session, &host, &text(random, 128));
    more_policies(&mut draft, random.below(form.policies()), random);
    (draft, !random.once_in(5))
}

/// A Session-Id out of twenty, which are ten but for their case, and one of the row's
/// labels, seldom another one.
fn new_access(row: &Row, random: &mut Random) -> (Vec<u8>, Vec<u8>) {
    let session = [b's', b';', *random.pick(b"abcdefghijABCDEFGHIJ")];
    let label = typed(&random.pick(&row.entries).label, random);
    let nowhere = random.once_in(20);
    let label = if nowhere { b"nowhere".to_vec() } else { label };
    (session.to_vec(), label)
}

/// A visited network now and then, and AVPs that others put in on the way.
fn company(draft: &mut Draft, random: &mut Random) {
    if random.once_in(8) {
        draft
            .avps
            .push(DraftAvp::new(VISITED_NETWORK, b"mnc020.mcc262"));
    }
    if random.once_in(6) {
        let route_record = Name {
            code: 282,
            vendor: None,
        };
        draft
            .avps
            .push(DraftAvp::new(PROXY_INFO, &text(random, 20)));
        draft.avps.push(DraftAvp::new(route_record, b"relay"));
    }
}
