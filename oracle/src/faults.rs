//! Everything that can be wrong with a request's call, check by check.

use crate::cases::{Case, Sort, text};
use crate::damages::any_damage;
use crate::drafts::{Draft, DraftAvp};
use crate::known_avps::unknown;
use crate::random::Random;
use crate::reading_a_message::{
    AA, Field, LIST_BOTH, MANDATORY, Name, Needed, ROUTING_POLICY, SESSION_ID, TERMINATION,
    USER_NAME, VISITED_NETWORK, ValueForm, W_APN, list,
};
use crate::the_table::{BARRED, Form, MAY_ROAM, same_label};

#[derive(Clone, Debug)]
pub enum Fault {
    /// The table has this many rows, and so many bytes more or less.
    TableSize(usize, isize),
    /// The table has one row of the form that is not said.
    OtherRow,
    /// The call says a form that no table has.
    NoForm(u32),
    Operator(u32),
    Host(usize),
    Realm(usize),
    AnswerRoom(u32),
    /// So many bytes too short, or without any.
    NoticeRoom(u32),
    /// The message has this many bytes.
    Size(usize),
    Version(u8),
    /// The header's length is off by so much.
    LengthOff(i32),
    NotRequest,
    HeaderFlags(u8),
    Command(u32),
    Application(u32),
    /// These bytes stand behind the last AVP.
    Tail(&'static [u8]),
    AvpFlags(u8),
    /// An AVP claims this length.
    Claim(u32),
    Absent(Name),
    /// An AVP that is not known, with M: anywhere, as the first or as the last.
    Unknown(Name),
    UnknownFirst(Name),
    UnknownLast(Name),
    /// An AVP has another vendor, or none, and so is another AVP, not known and without M.
    Renamed(Name, Name),
    NotFirst,
    /// One more than may be, or still more.
    TooOften(Field),
    /// A value of this many bytes.
    Length(Field, usize),
    Value(Name, u32),
    UnknownUser,
    DamagedRow,
    OtherLabel,
    NearLabel,
    Barred,
    Visitor,
    Held,
    UnknownSession,
    WagSaysNo,
}

/// For each check of a sort of request, the ways to fail it.
pub fn checks(sort: Sort) -> Vec<Vec<Fault>> {
    let mut all = call_checks();
    all.extend(header_checks(sort));
    for field in LIST_BOTH {
        all.extend(field_checks(field, None));
    }
    all.extend(own_checks(sort));
    all
}

/// The checks from the command's own list on; those before are the same for all.
pub fn own_checks(sort: Sort) -> Vec<Vec<Fault>> {
    let mut all = Vec::new();
    let (command, session_type) = match sort {
        Sort::Open => (AA, Some(0)),
        Sort::Policy => (AA, Some(1)),
        Sort::Termination => (TERMINATION, None),
    };
    for field in list(Form::One, command).into_iter().skip(LIST_BOTH.len()) {
        all.extend(field_checks(field, session_type));
    }
    all.push(vec![Fault::UnknownUser]);
    all.push(vec![Fault::DamagedRow]);
    all.extend(deciding_checks(sort));
    all
}

fn call_checks() -> Vec<Vec<Fault>> {
    use Fault::*;
    let lengths = [0, 129, 130, 300];
    vec![
        vec![
            TableSize(0, 0),
            TableSize(0, 1),
            TableSize(1, -1),
            TableSize(1, 1),
            OtherRow,
            NoForm(0),
            NoForm(3),
            NoForm(258),
        ],
        [16, 17, 255, 256, 1 << 16, u32::MAX].map(Operator).to_vec(),
        [lengths.map(Host), lengths.map(Realm)].concat(),
        [0, 1, 5_119].map(AnswerRoom).to_vec(),
        [1, 128, 129, 384].map(NoticeRoom).to_vec(),
        [0, 1, 19, 4_100, 4_097, 5_000].map(Size).to_vec(),
        [0, 2, 17, 255].map(Version).to_vec(),
        [-4, 4, 1, -1, 1 << 16].map(LengthOff).to_vec(),
        vec![NotRequest],
    ]
}

pub fn header_checks(sort: Sort) -> Vec<Vec<Fault>> {
    use Fault::*;
    let commands = [0, 257, 258, 264, 274, 276, 265 + (1 << 16), 0x00FF_FFFF];
    let mut applications = [0, 2, 10_415, 1 << 24, 257, u32::MAX]
        .map(Application)
        .to_vec();
    if sort == Sort::Termination {
        applications.remove(0);
    }
    vec![
        [1, 2, 4, 8, 15].map(HeaderFlags).to_vec(),
        vec![HeaderFlags(0x20)],
        commands.map(Command).to_vec(),
        applications,
        vec![Tail(&[0; 4]), Tail(&[0, 0, 1, 28]), Size(24)],
        [1, 2, 4, 8, 16, 31].map(AvpFlags).to_vec(),
        [0, 1, 7, 8, 11].map(Claim).to_vec(),
        [4_090, 1 << 16, 0x00FF_FFFF].map(Claim).to_vec(),
        vec![Tail(&[0, 0, 0, 25, 0x80, 0, 0, 8])],
        vec![Tail(&[0, 0, 0, 25, 0x80, 0, 0, 12])],
        unknown().into_iter().map(Unknown).collect(),
    ]
}

pub fn field_checks(field: Field, session_type: Option<u32>) -> Vec<Vec<Fault>> {
    let needed = match field.needed {
        Needed::ForType(which) => session_type == Some(which),
        other => other != Needed::Never,
    };
    let mut checks = vec![vec![Fault::TooOften(field)], lengths(field)];
    if needed {
        checks.push(ways_to_miss(field));
    }
    if let ValueForm::Number(..) = field.form {
        checks.push(values(field));
    }
    checks
}

fn ways_to_miss(field: Field) -> Vec<Fault> {
    let name = field.name;
    let others: &[Option<u32>] = match name.vendor {
        None => &[Some(0), Some(10_415), Some(1)],
        Some(_) => &[None, Some(0), Some(10_416), Some(9)],
    };
    let renamed = |&vendor: &Option<u32>| {
        let code = name.code;
        Fault::Renamed(name, Name { code, vendor })
    };
    let mut ways: Vec<Fault> = others.iter().map(renamed).collect();
    ways.push(Fault::Absent(name));
    if name == SESSION_ID {
        ways.extend([Fault::NotFirst, Fault::NotFirst]);
    }
    ways
}

fn lengths(field: Field) -> Vec<Fault> {
    let wrong: &[usize] = match field.form {
        ValueForm::Number(..) => &[0, 1, 2, 3, 5, 8, 100, 128],
        ValueForm::Text(100) => &[0, 101, 102, 104, 128, 129],
        ValueForm::Text(_) => &[0, 129, 130, 132, 256, 1_000],
    };
    wrong.iter().map(|&n| Fault::Length(field, n)).collect()
}

/// Values beside the right ones, and right ones in the wrong byte.
fn values(field: Field) -> Vec<Fault> {
    let ValueForm::Number(low, high) = field.form else {
        return Vec::new();
    };
    let wrong = [
        low.wrapping_sub(1),
        high + 1,
        high << 24,
        high << 8 | 1 << 31,
        u32::MAX,
    ];
    let outside = |v: &u32| !(low..=high).contains(v);
    let wrong = wrong.into_iter().filter(outside);
    wrong.map(|v| Fault::Value(field.name, v)).collect()
}

/// What only deciding can find, beyond an unknown or damaged row.
pub fn deciding_checks(sort: Sort) -> Vec<Vec<Fault>> {
    use Fault::*;
    match sort {
        Sort::Open => vec![
            vec![OtherLabel, NearLabel],
            vec![Barred],
            vec![Visitor],
            vec![Held],
        ],
        Sort::Policy => vec![vec![UnknownSession], vec![WagSaysNo]],
        Sort::Termination => vec![vec![UnknownSession, OtherLabel, NearLabel]],
    }
}

impl Fault {
    pub fn apply(&self, case: &mut Case, random: &mut Random) {
        match self {
            Fault::TableSize(rows, more) => {
                let length = (case.form.row() * rows).saturating_add_signed(*more);
                case.table.resize(length, 0);
            }
            Fault::OtherRow => case.table.resize(case.form.other().row(), 0),
            Fault::NoForm(form) => case.said = *form,
            Fault::Operator(operator) => case.operator = *operator,
            Fault::Host(length) => case.host = vec![b'h'; *length],
            Fault::Realm(length) => case.realm = vec![b'r'; *length],
            Fault::AnswerRoom(length) => case.answer_room.length = *length,
            Fault::NoticeRoom(short) => {
                let least = case.form.notice() as u32;
                case.notice_room.length = least.saturating_sub(*short);
            }
            Fault::WagSaysNo => case.wag = false,
            Fault::DamagedRow => any_damage(case, random),
            Fault::UnknownUser => unknown_user(case, random),
            Fault::Barred => set_flags(case, BARRED, 0),
            Fault::Visitor => {
                set_flags(case, 0, MAY_ROAM);
                let network = DraftAvp::new(VISITED_NETWORK, &text(random, 128));
                case.draft.avps.retain(|avp| avp.name != VISITED_NETWORK);
                case.draft.insert(random.below(20), network);
            }
            Fault::Held => hold_session(case, random),
            Fault::UnknownSession => set(&mut case.draft, SESSION_ID, b"never opened"),
            Fault::OtherLabel => other_label(case, random),
            Fault::NearLabel => near_label(case, random),
            Fault::TooOften(field) => {
                let policies = field.name == ROUTING_POLICY;
                let most = if policies { case.form.policies() } else { 1 };
                too_often(&mut case.draft, field, most, random);
            }
            on_message => on_message.apply_to(&mut case.draft, random),
        }
    }

    pub fn apply_to(&self, draft: &mut Draft, random: &mut Random) {
        match self {
            Fault::Size(size) => draft.size = Some(*size),
            Fault::Version(version) => draft.version = *version,
            Fault::LengthOff(off) => draft.length_off = *off,
            Fault::NotRequest => draft.flags &= 0x7F,
            Fault::HeaderFlags(bits) => draft.flags |= bits,
            Fault::Command(command) => draft.command = *command,
            Fault::Application(application) => draft.application = *application,
            Fault::Tail(tail) => draft.tail = tail.to_vec(),
            Fault::AvpFlags(bits) => any_avp(draft, random, |avp| avp.flags |= bits),
            Fault::Claim(length) => any_avp(draft, random, |avp| avp.length = Some(*length)),
            Fault::Absent(name) => draft.avps.retain(|avp| avp.name != *name),
            Fault::Renamed(name, other) => {
                for avp in draft.avps.iter_mut().filter(|avp| avp.name == *name) {
                    avp.name = *other;
                    avp.flags &= !MANDATORY;
                }
            }
            Fault::Unknown(name) => {
                let place = random.below(draft.avps.len() + 1);
                unknown_avp(draft, place, *name, random);
            }
            Fault::UnknownFirst(name) => unknown_avp(draft, 0, *name, random),
            Fault::UnknownLast(name) => unknown_avp(draft, draft.avps.len(), *name, random),
            Fault::NotFirst => not_first(draft, random),
            Fault::Length(field, length) => {
                present(draft, field, random);
                let some = text(random, 128).into_iter().cycle();
                let value: Vec<u8> = some.take(*length).collect();
                set_any(draft, field.name, &value, random);
            }
            Fault::Value(name, value) => set(draft, *name, &value.to_be_bytes()),
            _ => (),
        }
    }
}

/// Changes an AVP by chance, more often than others the last: there, all before it
/// has been read in vain.
fn any_avp(draft: &mut Draft, random: &mut Random, change: impl Fn(&mut DraftAvp)) {
    let last = draft.avps.len().saturating_sub(1);
    let place = if random.once_in(3) {
        last
    } else {
        random.below(last + 1)
    };
    if let Some(avp) = draft.avps.get_mut(place) {
        change(avp);
    }
}

fn set(draft: &mut Draft, name: Name, value: &[u8]) {
    if let Some(avp) = draft.avp(name) {
        avp.value = value.to_vec();
    }
}

/// Sets one of the AVPs of this name.
fn set_any(draft: &mut Draft, name: Name, value: &[u8], random: &mut Random) {
    let mut named: Vec<_> = draft.avps.iter_mut().filter(|a| a.name == name).collect();
    let chosen = random.below(named.len());
    if let Some(avp) = named.get_mut(chosen) {
        avp.value = value.to_vec();
    }
}

/// Adds the field with a good value if it is not there.
fn present(draft: &mut Draft, field: &Field, random: &mut Random) {
    if draft.position(field.name).is_none() {
        let avp = good_avp(field, random);
        draft.insert(random.below(20), avp);
    }
}

fn good_avp(field: &Field, random: &mut Random) -> DraftAvp {
    match field.form {
        ValueForm::Number(low, _) => DraftAvp::number(field.name, low),
        ValueForm::Text(most) => DraftAvp::new(field.name, &text(random, most)),
    }
}

/// More copies than may be, before or behind the first, good or of a wrong length, now
/// and then one more still.
pub fn too_often(draft: &mut Draft, field: &Field, most: usize, random: &mut Random) {
    present(draft, field, random);
    loop {
        let mut copy = good_avp(field, random);
        if random.once_in(2) {
            copy.value = vec![0; *random.pick(&[0, 1, 5, 129])];
        }
        draft.insert(random.below(20), copy);
        let copies = draft.avps.iter().filter(|avp| avp.name == field.name);
        if copies.count() > most && !random.once_in(4) {
            return;
        }
    }
}

/// An AVP that is not known, with M, in this place.
fn unknown_avp(draft: &mut Draft, place: usize, name: Name, random: &mut Random) {
    let length = random.below(14);
    let mut avp = DraftAvp::new(name, &random.bytes(length));
    avp.flags = *random.pick(&[0x40, 0x60]);
    draft.avps.insert(place, avp);
}

/// Another AVP before the Session-Id, which may stand there twice then.
fn not_first(draft: &mut Draft, random: &mut Random) {
    if draft.avps.len() < 2 {
        return;
    }
    let other = random.from_to(1, draft.avps.len() - 1);
    draft.avps.swap(0, other);
    if random.once_in(3) {
        let length = random.below(140);
        draft.insert(
            random.below(20),
            DraftAvp::new(SESSION_ID, &random.bytes(length)),
        );
    }
}

/// A name that no row bears: one digit off, too long, or of no digits.
fn unknown_user(case: &mut Case, random: &mut Random) {
    let mut name = case.row.name.clone();
    match random.below(7) {
        0 => name[0] = if name[0] == b'9' { b'0' } else { name[0] + 1 },
        1 => name.push(b'0'),
        2 => name = text(random, 128),
        3 => name.insert(0, b'+'),
        4 => name.resize(16, b'1'),
        5 => name.resize(128, b'0'),
        _ => name.truncate(name.len().div_ceil(2)),
    }
    if name == case.row.name {
        name.push(b'x');
    }
    set(&mut case.draft, USER_NAME, &name);
}

fn set_flags(case: &mut Case, on: u8, off: u8) {
    if let Some(entry) = case.entry() {
        entry.flags = (entry.flags | on) & !off;
        case.write_row();
    }
}

/// The session asked for is open already, on any entry.
fn hold_session(case: &mut Case, random: &mut Random) {
    let open: Vec<_> = case.row.places.iter().flatten().collect();
    if !open.is_empty() {
        let session = random.pick(&open).session.clone();
        set(&mut case.draft, SESSION_ID, &session);
    }
}

/// A label that is not the access's: one of the row's others, or one not entered.
fn other_label(case: &mut Case, random: &mut Random) {
    let old = case.draft.avp(W_APN).map(|avp| avp.value.clone());
    let others = case.row.entries.iter().map(|e| e.label.clone());
    let other = |label: &Vec<u8>| !old.as_ref().is_some_and(|old| same_label(label, old));
    let others: Vec<_> = others.filter(other).collect();
    let label = match case.sort {
        Sort::Termination if !others.is_empty() => random.pick(&others).clone(),
        _ => b"not entered".to_vec(),
    };
    set(&mut case.draft, W_APN, &label);
}

/// What makes the two cases of a letter, done to a byte that is none. A label that another fault emptied stays so.
fn like_a_case(label: &mut [u8]) {
    let place = label.iter().position(|byte| !byte.is_ascii_alphabetic());
    match (place, label.first_mut()) {
        (Some(place), _) => label[place] ^= 0x20,
        (None, Some(first)) => *first ^= 0x80,
        (None, None) => {}
    }
}

/// A label that differs from the right one in little.
fn near_label(case: &mut Case, random: &mut Random) {
    let Some(avp) = case.draft.avp(W_APN) else {
        return;
    };
    match random.below(3) {
        0 => like_a_case(&mut avp.value),
        1 => drop(avp.value.pop()),
        _ => avp.value.insert(0, b'.'),
    }
    if avp.value.is_empty() {
        avp.value.push(b'?');
    }
}
