//! Deciding: what a request that passed its lists does to the subscriber's row.

use crate::reading_a_message::{
    AA, ORIGIN_HOST, ORIGIN_REALM, ROUTING_POLICY, Request, SESSION_ID, USER_NAME, VISITED_NETWORK,
    W_APN,
};
use crate::rules::Rules;
use crate::the_table::{
    Access, BARRED, Form, MAY_ROAM, PLACES, Policies, Row, row_at, same_label, sound,
};
use crate::{Code, SUCCESS, experimental, plain};

/// Numbers of TS 29.229 and of TS 29.234, 10.3.1.
pub const USER_UNKNOWN: Code = experimental(5001);
pub const ROAMING_NOT_ALLOWED: Code = experimental(5004);
pub const W_APN_UNUSED_BY_USER: Code = experimental(5042);
pub const USER_NO_W_APN_SUBSCRIPTION: Code = experimental(5044);

/// What was decided. The table is already changed if the code is 2001.
#[derive(Clone, Debug, PartialEq, Eq)]
pub struct Decision {
    pub code: Code,
    pub place: u8,
    pub cut: Option<Access>,
}

impl Decision {
    pub fn refused(code: Code) -> Decision {
        Decision {
            code,
            place: 0,
            cut: None,
        }
    }
}

/// The new access's place, or 0, and the access that was cut for it.
type Done = (u8, Option<Access>);

/// What is decided about: the request of an operator on a table of some form, with the
/// wireless gateway's word.
pub struct Asking<'a> {
    pub form: Form,
    pub operator: u32,
    pub request: &'a Request<'a>,
    pub wag: bool,
}

pub fn decide(rules: &Rules, table: &mut [u8], asking: &Asking) -> Decision {
    match change(rules, table, asking) {
        Ok((place, cut)) => Decision {
            code: SUCCESS,
            place,
            cut,
        },
        Err(code) => Decision::refused(code),
    }
}

/// Changes a copy of the row and stores it only when nothing was refused.
fn change(rules: &Rules, table: &mut [u8], asking: &Asking) -> Result<Done, Code> {
    let (form, request) = (asking.form, asking.request);
    let name = request.text(USER_NAME);
    let index = (rules.find)(rules, form, table, asking.operator, name).ok_or(USER_UNKNOWN)?;
    let mut row = sound(rules, form, row_at(form, table, index)).ok_or(plain(5012))?;
    let done = match (request.command, request.session_type()) {
        (AA, Some(0)) => open(rules, form, &mut row, request)?,
        (AA, _) => (rules.take_policy)(&mut row, request, asking.wag).map(|()| (0, None))?,
        _ => (rules.terminate)(&mut row, request).map(|()| (0, None))?,
    };
    (rules.store)(rules, form, table, index, &row);
    Ok(done)
}

/// Type 0: a new access, for which the entry's oldest may have to go, unless it stands
/// already.
fn open(rules: &Rules, form: Form, row: &mut Row, request: &Request) -> Result<Done, Code> {
    let entry = (rules.may_open)(row, request)?;
    if (rules.held)(row, entry, request)? {
        return Ok((0, None));
    }
    let mut cut = None;
    let mut freed = None;
    if (rules.at_limit)(row, entry) {
        freed = (rules.place_to_cut)(row, entry);
        cut = freed.and_then(|place| row.free(place));
    }
    // A sound row's limits leave a place free here, so this never refuses.
    let place = (rules.place_to_take)(row, freed).ok_or(plain(5012))?;
    let access = Access {
        entry,
        session: request.text(SESSION_ID).to_vec(),
        host: request.text(ORIGIN_HOST).to_vec(),
        realm: (rules.realm_to_keep)(form, request),
        policies: Policies::default(),
    };
    row.places[usize::from(place - 1)] = Some(access);
    row.line.push(place);
    Ok((place, cut))
}

/// The gateway's realm, for which form 1 has no room.
pub fn realm_to_keep(form: Form, request: &Request) -> Vec<u8> {
    match form {
        Form::One => Vec::new(),
        Form::Two => request.text(ORIGIN_REALM).to_vec(),
    }
}

/// The tests of label, barring and roaming of type 0; gives the number of the entry.
pub fn may_open(row: &Row, request: &Request) -> Result<u8, Code> {
    let number = row.entry_of(request.text(W_APN));
    let number = number.ok_or(USER_NO_W_APN_SUBSCRIPTION)?;
    let flags = row.entry(number).map_or(0, |entry| entry.flags);
    if flags & BARRED != 0 {
        return Err(plain(5003));
    }
    if request.get(VISITED_NETWORK).is_some() && flags & MAY_ROAM == 0 {
        return Err(ROAMING_NOT_ALLOWED);
    }
    Ok(number)
}

/// Until W11: a Session-Id that is in the row already is refused.
pub fn held_is_refused(row: &Row, _entry: u8, request: &Request) -> Result<bool, Code> {
    match row.place_of(request.text(SESSION_ID)) {
        Some(_) => Err(plain(5012)),
        None => Ok(false),
    }
}

/// From W11 on: true if the access stands on the entry asked for, and then nothing is
/// opened, cut or moved; on another entry it is refused as before.
pub fn held_stands(row: &Row, entry: u8, request: &Request) -> Result<bool, Code> {
    let place = row.place_of(request.text(SESSION_ID));
    match place.and_then(|place| row.access(place)) {
        Some(access) if access.entry == entry => Ok(true),
        Some(_) => Err(plain(5012)),
        None => Ok(false),
    }
}

/// An entry's accesses are counted on that entry alone.
pub fn at_limit(row: &Row, entry: u8) -> bool {
    let limit = row.entry(entry).map_or(0, |e| usize::from(e.limit));
    row.open_on(entry) >= limit
}

/// The first place on the order line whose access is on this entry.
pub fn place_to_cut(row: &Row, entry: u8) -> Option<u8> {
    let on_it = |&place: &u8| row.access(place).is_some_and(|a| a.entry == entry);
    row.line.iter().copied().find(on_it)
}

/// Counted up from place 1, the first that is free, emptied by a cut or not.
pub fn place_to_take(row: &Row, _freed: Option<u8>) -> Option<u8> {
    (1..=PLACES).find(|&place| row.access(place).is_none())
}

/// Type 1: the policies of an open access, found by Session-Id alone. Those that the
/// request brings take the place of all that were held.
pub fn take_policy(row: &mut Row, request: &Request, wag: bool) -> Result<(), Code> {
    let session = request.text(SESSION_ID);
    let mut accesses = row.places.iter_mut().flatten();
    let access = accesses.find(|a| a.session == session).ok_or(plain(5012))?;
    if !wag {
        return Err(plain(5012));
    }
    let mut brought = request.all(ROUTING_POLICY).into_iter();
    access.policies = access
        .policies
        .each_ref()
        .map(|_| brought.next().map(<[u8]>::to_vec));
    Ok(())
}

/// Termination: Session-Id and label have to point at one and the same access.
pub fn terminate(row: &mut Row, request: &Request) -> Result<(), Code> {
    let place = row.place_of(request.text(SESSION_ID));
    let place = place.ok_or(W_APN_UNUSED_BY_USER)?;
    let entry = row.access(place).and_then(|a| row.entry(a.entry));
    if entry.is_none_or(|e| !same_label(&e.label, request.text(W_APN))) {
        return Err(W_APN_UNUSED_BY_USER);
    }
    row.free(place);
    Ok(())
}
