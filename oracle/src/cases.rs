//! Single calls in the making: a table with a sound row, and a good request about it.

use crate::drafts::{Draft, DraftAvp};
use crate::either_case::typed;
use crate::known_avps::known_and_ignored;
use crate::operators::namesake;
use crate::program::{Asked, Operation, Room};
use crate::random::Random;
use crate::reading_a_message::{
    Name, ORIGIN_REALM, PROXY_INFO, ROUTING_POLICY, SESSION_REQUEST_TYPE, TERMINATION_CAUSE,
    VISITED_NETWORK, W_APN,
};
use crate::rules::DOCUMENT_01;
use crate::the_table::{
    Access, Entry, FORMS, Form, MAY_ROAM, PLACES, Policies, Row, encode, put, same_label,
};

#[derive(Clone, Copy, Debug, PartialEq, Eq)]
pub enum Sort {
    Open,
    Policy,
    Termination,
}

pub const SORTS: [Sort; 3] = [Sort::Open, Sort::Policy, Sort::Termination];

/// One call with all its inputs, each of which can still be spoilt. `row` is the
/// subscriber's, at `index` in the table, which stands in `form`; `said` is the form that
/// the call says.
pub struct Case {
    pub sort: Sort,
    pub form: Form,
    pub said: u32,
    pub operator: u32,
    pub row: Row,
    pub index: usize,
    pub table: Vec<u8>,
    pub draft: Draft,
    pub host: Vec<u8>,
    pub realm: Vec<u8>,
    pub wag: bool,
    pub answer_room: Room,
    pub notice_room: Room,
}

impl Case {
    /// A case that is answered with 2001, on a table of either form.
    pub fn good(sort: Sort, random: &mut Random) -> Case {
        Case::in_form(*random.pick(&FORMS), sort, random)
    }

    pub fn in_form(form: Form, sort: Sort, random: &mut Random) -> Case {
        let name = digits(random);
        let mut row = sound_row(form, &name, random);
        row.operator = *random.pick(&[0, 0, 1, 2, 9, 14, 15]);
        let draft = good_draft(form, sort, &mut row, random);
        let index = random.below(2);
        let mut case = Case {
            sort,
            form,
            said: form.number(),
            operator: u32::from(row.operator),
            row,
            index,
            table: vec![0; form.row() * random.from_to(index + 1, 3)],
            draft,
            host: text(random, 128),
            realm: text(random, 128),
            wag: true,
            answer_room: Room {
                length: *random.pick(&[5_120, 5_121, 6_000]),
                seed: random.byte(),
            },
            notice_room: Room {
                length: form.notice() as u32 + *random.pick(&[0, 1, 44]),
                seed: random.byte(),
            },
        };
        case.write_row();
        case.write_namesakes(random);
        case
    }

    /// Gives the name to other operators too: in the row before, and now and then in one
    /// behind.
    fn write_namesakes(&mut self, random: &mut Random) {
        let length = self.form.row();
        for index in 0..self.table.len() / length {
            if index < self.index || index > self.index && random.once_in(6) {
                let bytes = namesake(self.form, &self.row, random);
                put(&mut self.table, index * length, &bytes);
            }
        }
    }

    /// A row with no place free and a new access on an entry whose accesses were all
    /// opened after those of the other.
    pub fn full(form: Form, random: &mut Random) -> Case {
        let mut case = Case::in_form(form, Sort::Open, random);
        let last = random.from_to(1, 4) as u8;
        let limits = [8 - last, last];
        let asked = case.draft.avp(W_APN).map(|avp| avp.value.clone());
        let labels = [b"other label".to_vec(), asked.unwrap_or_default()];
        case.row.entries.clear();
        case.row.line.clear();
        for (label, limit) in labels.into_iter().zip(limits) {
            let flags = MAY_ROAM;
            case.row.entries.push(Entry {
                label,
                flags,
                limit,
            });
        }
        let mut places: Vec<u8> = (1..=PLACES).collect();
        random.shuffle(&mut places);
        for (opened, place) in places.into_iter().enumerate() {
            let entry = if opened < usize::from(limits[0]) {
                1
            } else {
                2
            };
            let session = vec![b's', place];
            let access = access(case.form, entry, session, random);
            case.row.places[usize::from(place) - 1] = Some(access);
            case.row.line.push(place);
        }
        case.write_row();
        case
    }

    /// Puts the row, as it now is, into the table.
    pub fn write_row(&mut self) {
        let bytes = encode(&DOCUMENT_01, self.form, &self.row);
        self.row_bytes().copy_from_slice(&bytes);
    }

    pub fn row_bytes(&mut self) -> &mut [u8] {
        let length = self.form.row();
        &mut self.table[self.index * length..][..length]
    }

    /// The entry the request is about.
    pub fn entry(&mut self) -> Option<&mut Entry> {
        let label = self.draft.avp(W_APN)?.value.clone();
        let mut entries = self.row.entries.iter_mut();
        entries.find(|e| same_label(&e.label, &label))
    }

    pub fn operation(&self) -> Operation {
        Operation::Handle(Asked {
            form: self.said,
            operator: self.operator,
            host: self.host.clone(),
            realm: self.realm.clone(),
            message: self.draft.bytes(),
            wag: self.wag,
            answer_room: self.answer_room,
            notice_room: self.notice_room,
        })
    }
}

/// A request that the row grants; the row is altered where it would not.
fn good_draft(form: Form, sort: Sort, row: &mut Row, random: &mut Random) -> Draft {
    let gateway = text(random, 128);
    if row.line.is_empty() {
        let access = access(form, 1, b"only".to_vec(), random);
        let place = random.from_to(1, 8);
        row.places[place - 1] = Some(access);
        row.line.push(place as u8);
    }
    let held = row.access(*random.pick(&row.line)).cloned();
    let held = held.unwrap_or_else(|| access(form, 1, Vec::new(), random));
    let label = row.entries[usize::from(held.entry) - 1].label.clone();
    let mut draft = match sort {
        Sort::Open => {
            let entry = random.below(row.entries.len());
            let entry = &mut row.entries[entry];
            entry.flags &= MAY_ROAM;
            let mut session = text(random, 127);
            session.push(b'+');
            let label = typed(&entry.label, random);
            Draft::open(&row.name, &session, &gateway, &label)
        }
        Sort::Policy => Draft::policy(&row.name, &held.session, &gateway, &text(random, 128)),
        Sort::Termination => {
            let label = typed(&label, random);
            Draft::termination(&row.name, &held.session, &gateway, &label)
        }
    };
    if let Some(realm) = draft.avp(ORIGIN_REALM) {
        realm.value = text(random, 128);
    }
    let roams = sort != Sort::Open || row.entries.iter().all(|e| e.flags & MAY_ROAM != 0);
    if roams && random.once_in(2) {
        draft.insert(random.below(9), DraftAvp::new(VISITED_NETWORK, b"mnc010"));
    }
    if sort == Sort::Policy {
        more_policies(&mut draft, random.below(form.policies()), random);
    }
    ignored(form, &mut draft, sort, random);
    garnish(&mut draft, random);
    draft
}

/// So many more policies, anywhere in the message.
pub fn more_policies(draft: &mut Draft, count: usize, random: &mut Random) {
    for _ in 0..count {
        let policy = DraftAvp::new(ROUTING_POLICY, &text(random, 128));
        draft.insert(random.below(20), policy);
    }
}

/// AVPs that are known but have no say in this sort of request, for 275 even with
/// values that its own list would not allow.
fn ignored(form: Form, draft: &mut Draft, sort: Sort, random: &mut Random) {
    if random.once_in(3) {
        let avp = match sort {
            Sort::Open => {
                more_policies(draft, random.below(form.policies()), random);
                DraftAvp::new(ROUTING_POLICY, &text(random, 128))
            }
            Sort::Policy => DraftAvp::new(W_APN, &text(random, 100)),
            Sort::Termination => DraftAvp::number(SESSION_REQUEST_TYPE, random.below(9) as u32),
        };
        draft.insert(random.below(20), avp);
    }
    if sort != Sort::Termination && random.once_in(6) {
        draft.insert(random.below(20), DraftAvp::new(TERMINATION_CAUSE, b"?"));
    }
}

/// What must make no difference: flags, padding, identifiers, other AVPs, the order of
/// the AVPs, and Proxy-Info of any shape.
pub fn garnish(draft: &mut Draft, random: &mut Random) {
    draft.flags = *random.pick(&[0x80, 0x90, 0xC0, 0xD0]);
    draft.identifiers = random.draw().to_be_bytes();
    for avp in &mut draft.avps {
        if random.once_in(4) {
            avp.flags = *random.pick(&[0, 0x20, 0x40, 0x60]);
        }
        avp.padding = if random.once_in(2) { random.byte() } else { 0 };
    }
    if random.once_in(4) {
        random.shuffle(&mut draft.avps[1..]);
    }
    if draft.command == 275 && random.once_in(2) {
        draft.application = 0;
    }
    while random.once_in(3) {
        let length = random.below(14);
        let mut avp = DraftAvp::new(stranger(random), &random.bytes(length));
        avp.padding = random.byte();
        let flags = [0, 0x20, 0x40, 0x60];
        avp.flags = *random.pick(&flags[..flags_of(avp.name)]);
        draft.insert(random.below(20), avp);
    }
}

/// How many of the flags 0, P, M, and M with P an AVP may have without being refused:
/// none with M if it is not known.
fn flags_of(name: Name) -> usize {
    let known = name == PROXY_INFO || known_and_ignored().contains(&name);
    if known { 4 } else { 2 }
}

/// A name that is in no list: Proxy-Info, an AVP that is known and ignored, one of no
/// meaning here, or one that has only the code of a known one.
fn stranger(random: &mut Random) -> Name {
    const VENDORS: [Option<u32>; 4] = [None, Some(0), Some(9), Some(10_415)];
    const CODES: [u32; 18] = [
        1, 100, 258, 263, 264, 274, 283, 284, 293, 295, 296, 311, 312, 600, 25, 33, 282, 99_999,
    ];
    if random.once_in(2) {
        return PROXY_INFO;
    }
    if random.once_in(3) {
        return *random.pick(&known_and_ignored());
    }
    loop {
        let vendor = *random.pick(&VENDORS);
        let code = *random.pick(&CODES);
        let of_3gpp = matches!(code, 100 | 311 | 312 | 600);
        let plain = matches!(code, 25 | 33 | 282 | 284 | 99_999);
        let own = if of_3gpp { Some(10_415) } else { None };
        if plain || vendor != own {
            return Name { code, vendor };
        }
    }
}

/// A subscriber's name.
pub fn digits(random: &mut Random) -> Vec<u8> {
    let length = *random.pick(&[1, 2, 8, 14, 15, 15]);
    (0..length).map(|_| b'0' + random.below(10) as u8).collect()
}

/// A text of at least one byte, now and then as long as may be or of odd bytes.
pub fn text(random: &mut Random, most: usize) -> Vec<u8> {
    let short = random.from_to(1, 12);
    let length = *random.pick(&[1, short, short, short, short, most - 1, most]);
    if random.once_in(12) {
        return random.bytes(length);
    }
    (0..length)
        .map(|_| *random.pick(b"abcdefghij.;@0123"))
        .collect()
}

/// A sound row in any state that limits, places and order line can have, with what an
/// access can say in this form.
pub fn sound_row(form: Form, name: &[u8], random: &mut Random) -> Row {
    let mut row = Row {
        name: name.to_vec(),
        entries: entries(random),
        ..Row::default()
    };
    let mut places: Vec<u8> = (1..=PLACES).collect();
    random.shuffle(&mut places);
    for index in 0..row.entries.len() {
        let limit = usize::from(row.entries[index].limit);
        let open = limit - random.below(limit + 1) * random.below(2);
        for count in 0..open {
            let mut session = text(random, 120);
            session.extend([b'-', b'0' + index as u8, b'0' + count as u8]);
            let place = places.pop().unwrap_or(1);
            let access = access(form, index as u8 + 1, session, random);
            row.places[usize::from(place) - 1] = Some(access);
            row.line.push(place);
        }
    }
    random.shuffle(&mut row.line);
    row
}

/// One to four entries whose limits fit, half the time with nothing to spare.
pub fn entries(random: &mut Random) -> Vec<Entry> {
    let count = random.from_to(1, 4);
    let all = random.once_in(2);
    let mut spare = 8 - count;
    let mut entries: Vec<Entry> = Vec::new();
    for index in 0..count {
        let more = if index + 1 == count && all {
            spare
        } else {
            random.below(spare + 1)
        };
        spare -= more;
        let mut label = typed(&text(random, 99), random);
        label.push(b'A' + index as u8);
        entries.push(Entry {
            label,
            flags: random.below(4) as u8,
            limit: 1 + more as u8,
        });
    }
    random.shuffle(&mut entries);
    entries
}

pub fn access(form: Form, entry: u8, session: Vec<u8>, random: &mut Random) -> Access {
    let realm = form == Form::Two && !random.once_in(4);
    let count = random.below(form.policies() + 1);
    Access {
        entry,
        session,
        host: text(random, 128),
        realm: if realm { text(random, 128) } else { Vec::new() },
        policies: some_policies(count, random),
    }
}

/// So many policies.
pub fn some_policies(count: usize, random: &mut Random) -> Policies {
    let mut policies = Policies::default();
    for policy in policies.iter_mut().take(count) {
        *policy = Some(text(random, 128));
    }
    policies
}
