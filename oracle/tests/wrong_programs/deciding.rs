//! Wrong programs that differ in what is granted, cut, taken and ended.

use oracle::deciding::*;
use oracle::handling::{Call, handle};
use oracle::reading_a_message::*;
use oracle::rules::Rules;
use oracle::the_table::*;
use oracle::{Code, SUCCESS, experimental, plain};

use crate::calls::then;
use crate::{RIGHT, Wrong, asked_about};

/// The right tests, for a request without its visited network.
fn may_open_without(row: &Row, request: &Request, name: Name) -> Result<u8, Code> {
    let mut fewer = request.clone();
    fewer.values.retain(|(n, _)| *n != name);
    may_open(row, &fewer)
}

fn roaming_first(row: &Row, request: &Request) -> Result<u8, Code> {
    let entry = row.entry_of(request.text(W_APN)).and_then(|n| row.entry(n));
    let stays = entry.is_some_and(|e| e.flags & MAY_ROAM == 0);
    if stays && request.get(VISITED_NETWORK).is_some() {
        return Err(ROAMING_NOT_ALLOWED);
    }
    may_open(row, request)
}

fn session_first(row: &Row, request: &Request) -> Result<u8, Code> {
    match row.place_of(request.text(SESSION_ID)) {
        Some(_) => Err(plain(5012)),
        None => may_open(row, request),
    }
}

/// A held Session-Id is refused only on the entry asked for.
fn held_on_entry(row: &Row, number: u8, request: &Request) -> Result<bool, Code> {
    let place = row.place_of(request.text(SESSION_ID));
    match place.and_then(|p| row.access(p)) {
        Some(access) if access.entry == number => Err(plain(5012)),
        _ => Ok(false),
    }
}

/// A held Session-Id is granted where its own access would be cut.
fn held_but_cut(row: &Row, number: u8, request: &Request) -> Result<bool, Code> {
    let cut = place_to_cut(row, number).filter(|_| at_limit(row, number));
    match row.place_of(request.text(SESSION_ID)) {
        Some(place) if Some(place) != cut => Err(plain(5012)),
        _ => Ok(false),
    }
}

pub fn programs() -> Vec<Wrong> {
    let mut all = wrong! {
        "tests roaming before barring": may_open = roaming_first;
        "tests the session before the label": may_open = session_first;
        "refuses a held session on its own label only": held = held_on_entry;
        "grants a held session that would be cut": held = held_but_cut;
        "does not test roaming": may_open = |row, q| may_open_without(row, q, VISITED_NETWORK);
        "does not test the session": held = |_, _, _| Ok(false);
        "lets roam who is not barred": may_open = |row, q| match may_open(row, q) {
            Err(ROAMING_NOT_ALLOWED) => may_open_without(row, q, VISITED_NETWORK),
            other => other,
        };
        "gives ROAMING_NOT_ALLOWED as a Result-Code": may_open = |row, q| {
            may_open(row, q).map_err(|c| if c == ROAMING_NOT_ALLOWED { plain(5004) } else { c })
        };
        "cuts below the limit": at_limit = |row, entry| {
            let limit = row.entry(entry).map_or(0, |e| usize::from(e.limit));
            row.open_on(entry) + 1 >= limit
        };
        "cuts one too late": at_limit = |row, entry| {
            let limit = row.entry(entry).map_or(0, |e| usize::from(e.limit));
            row.open_on(entry) > limit
        };
        "counts over all names": at_limit = |row, entry| {
            let limit = row.entry(entry).map_or(0, |e| usize::from(e.limit));
            row.line.len() >= limit
        };
        "cuts only when no place is free": at_limit = |row, entry| {
            row.line.len() == 8 && at_limit(row, entry)
        };
        "cuts the entry's lowest place": place_to_cut = |row, entry| {
            (1..=8).find(|&p| row.access(p).is_some_and(|a| a.entry == entry))
        };
        "cuts the head of the line": place_to_cut = |row, _| row.line.first().copied();
        "cuts the entry's last opened": place_to_cut = |row, entry| {
            let on_it = |p: &&u8| row.access(**p).is_some_and(|a| a.entry == entry);
            row.line.iter().rev().find(on_it).copied()
        };
        "takes the highest free place": place_to_take = |row, _| {
            (1..=8).rev().find(|&p| row.access(p).is_none())
        };
        "takes the freed place though a lower one is free": place_to_take = |row, freed| {
            freed.or(place_to_take(row, None))
        };
        "does not take the freed place if it can": place_to_take = |row, freed| {
            let free = |&p: &u8| row.access(p).is_none();
            (1..=8).find(|p| free(p) && Some(*p) != freed).or(freed)
        };
        "takes the place after the highest in use": place_to_take = |row, _| {
            let last = (1..=8).rev().find(|&p| row.access(p).is_some()).unwrap_or(0);
            Some(last + 1).filter(|&p| p <= 8).or(place_to_take(row, None))
        };
    };
    all.extend(wrong! {
        "stores the policy against the WAG": take_policy = |row, q, _| take_policy(row, q, true);
        "stores the policy and then refuses": take_policy = |row, q, wag| {
            take_policy(row, q, true)?;
            if wag { Ok(()) } else { Err(plain(5003)) }
        };
        "asks the WAG in type 0 too": handle = |r, call| {
            if call.wag { handle(r, call) } else {
                handle(&Rules { may_open: |_, _| Err(plain(5012)), ..*r }, call)
            }
        };
        "keeps the first policy": take_policy = |row, q, wag| {
            let old = row.clone();
            take_policy(row, q, wag)?;
            for (new, old) in row.places.iter_mut().flatten().zip(old.places.iter().flatten()) {
                new.policies[0] = old.policies[0].clone().or(new.policies[0].take());
            }
            Ok(())
        };
        "wants the gateway of the opening for a policy": take_policy = |row, q, wag| {
            let place = row.place_of(q.text(SESSION_ID));
            match place.and_then(|p| row.access(p)) {
                Some(access) if access.host != q.text(ORIGIN_HOST) => Err(plain(5012)),
                _ => take_policy(row, q, wag),
            }
        };
        "wants the W-APN of the opening for a policy": take_policy = |row, q, wag| {
            let place = row.place_of(q.text(SESSION_ID)).and_then(|p| row.access(p));
            let label = place.and_then(|a| row.entry(a.entry)).map(|e| e.label.as_slice());
            match q.get(W_APN) {
                Some(asked) if label != Some(asked) => Err(plain(5012)),
                _ => take_policy(row, q, wag),
            }
        };
        "ends a session whatever its label": terminate = |row, q| {
            let place = row.place_of(q.text(SESSION_ID)).ok_or(W_APN_UNUSED_BY_USER)?;
            row.free(place);
            Ok(())
        };
        "knows no subscription on termination": terminate = |row, q| {
            row.entry_of(q.text(W_APN)).ok_or(USER_NO_W_APN_SUBSCRIPTION)?;
            terminate(row, q)
        };
        "does not end accesses of a barred entry": terminate = |row, q| {
            let entry = row.entry_of(q.text(W_APN)).and_then(|n| row.entry(n));
            if entry.is_some_and(|e| e.flags & BARRED != 0) { return Err(plain(5003)) }
            terminate(row, q)
        };
        "gives 5002 for an unknown session": terminate = |row, q| {
            terminate(row, q).map_err(|_| plain(5002))
        };
        "exchanges the two numbers of W-APN errors": may_open = |row, q| {
            may_open(row, q).map_err(|c| match c {
                USER_NO_W_APN_SUBSCRIPTION => W_APN_UNUSED_BY_USER,
                other => other,
            })
        };
        "exchanges the numbers on termination": terminate = |row, q| {
            terminate(row, q).map_err(|_| experimental(5044))
        };
        "gives the place of a policy": handle = |r, call| {
            let row = row_asked_about(&call);
            let session = asked_about(call.message, SESSION_ID);
            then(r, call, |o| {
                if let (SUCCESS, 0, Some(row)) = (o.code, o.place, &row) {
                    o.place = row.place_of(&session).unwrap_or(0);
                }
            })
        };
        "gives 5030 for an unknown user": handle = |r, call| then(r, call, |o| {
            if o.code == USER_UNKNOWN { o.code = plain(5030) }
        });
    });
    all
}

fn row_asked_about(call: &Call) -> Option<Row> {
    let name = asked_about(call.message, USER_NAME);
    let form = Form::numbered(call.form)?;
    let index = find(form, call.table, call.operator, &name)?;
    decode(form, row_at(form, call.table, index))
}
