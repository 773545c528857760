//! Wrong servers of W11: what becomes of a request of type 0 whose Session-Id is held.

use oracle::deciding::{
    ROAMING_NOT_ALLOWED, at_limit, held_is_refused, held_stands, may_open, place_to_cut,
};
use oracle::handling::{Call, handle};
use oracle::reading_a_message::*;
use oracle::rules::{Rules, WITH_W11 as RIGHT};
use oracle::the_table::*;
use oracle::{Code, Outcome, SUCCESS, known_avps, plain};

use crate::{Wrong, asked_about};

pub fn programs() -> Vec<Wrong> {
    [refused(), granted(), changed(), answered()].concat()
}

/// The access whose Session-Id is asked for, if it stands.
fn held<'a>(row: &'a Row, request: &Request) -> Option<&'a Access> {
    row.access(row.place_of(request.text(SESSION_ID))?)
}

/// The right answer, but 5012 for a held Session-Id unless this holds of its access.
fn only_if(
    row: &Row,
    entry: u8,
    request: &Request,
    fits: impl Fn(&Access) -> bool,
) -> Result<bool, Code> {
    match held(row, request) {
        Some(access) if !fits(access) => Err(plain(5012)),
        _ => held_stands(row, entry, request),
    }
}

fn refused() -> Vec<Wrong> {
    wrong! {
        "refuses a held session": held = held_is_refused;
        "refuses a held session of another host": held = |row, entry, q| {
            only_if(row, entry, q, |access| access.host == q.text(ORIGIN_HOST))
        };
        "refuses a held session at the limit": held = |row, entry, q| {
            only_if(row, entry, q, |_| !at_limit(row, entry))
        };
        "refuses a held session under a label in another case": held = |row, number, q| {
            let label = row.entry(number).map(|entry| &entry.label[..]);
            only_if(row, number, q, |_| label == Some(q.text(W_APN)))
        };
        "refuses a held session that has a policy": held = |row, entry, q| {
            only_if(row, entry, q, |access| access.policies[0].is_none())
        };
        "gives 5002 for a session held on another label": held = |row, entry, q| {
            held_stands(row, entry, q).map_err(|_| plain(5002))
        };
        "does not know Re-Auth-Request-Type at the server": supported = known_avps::supported;
    }
}

/// The right tests, for a request whose Session-Id is held on the entry that it names
/// without those that this leaves out.
fn may_open_if_held(row: &Row, request: &Request, left_out: fn(&Code) -> bool) -> Result<u8, Code> {
    match (may_open(row, request), row.entry_of(request.text(W_APN))) {
        (Err(code), Some(entry)) if left_out(&code) => match held_stands(row, entry, request) {
            Ok(true) => Ok(entry),
            _ => Err(code),
        },
        (other, _) => other,
    }
}

fn granted() -> Vec<Wrong> {
    wrong! {
        "held on another label succeeds": held = |row, _, q| Ok(held(row, q).is_some());
        "opens a session that is held on another label": held = |row, entry, q| {
            Ok(held(row, q).is_some_and(|access| access.entry == entry))
        };
        "opens a held session once more": held = |_, _, _| Ok(false);
        "does not ask whether a held session is barred": may_open = |row, q| {
            may_open_if_held(row, q, |code| *code == plain(5003))
        };
        "does not ask whether a held session may roam": may_open = |row, q| {
            may_open_if_held(row, q, |code| *code == ROAMING_NOT_ALLOWED)
        };
        "takes any access of the entry for the held one": held = |row, entry, q| {
            Ok(held_stands(row, entry, q)? || row.open_on(entry) > 0)
        };
        "tests a held session before its label": may_open = |row, q| {
            if held(row, q).is_some() && row.entry_of(q.text(W_APN)).is_none() {
                return Err(plain(5012));
            }
            may_open(row, q)
        };
    }
}

/// What a call comes to, on copies of all that is lent.
fn tried(rules: &Rules, call: &Call) -> Outcome {
    let copy = Call {
        table: &mut call.table.to_vec(),
        answer_room: &mut call.answer_room.to_vec(),
        notice_room: &mut call.notice_room.to_vec(),
        ..*call
    };
    handle(rules, copy)
}

/// The row, its index and the access's place, where the request is granted because the
/// access stands.
fn standing(rules: &Rules, call: &Call) -> Option<(Form, usize, Row, u8)> {
    let outcome = tried(rules, call);
    if (outcome.code, outcome.place) != (SUCCESS, 0) {
        return None;
    }
    let form = Form::numbered(call.form)?;
    let name = asked_about(call.message, USER_NAME);
    let index = find(form, call.table, call.operator, &name)?;
    let row = decode(form, row_at(form, call.table, index))?;
    let place = row.place_of(&asked_about(call.message, SESSION_ID))?;
    Some((form, index, row, place))
}

/// Handles a request, and changes the row if its access stood already.
fn and_then(rules: &Rules, call: Call, change: impl Fn(&mut Row, u8)) -> Outcome {
    let Some((form, index, mut row, place)) = standing(rules, &call) else {
        return handle(rules, call);
    };
    change(&mut row, place);
    let table = &mut call.table.to_vec();
    let outcome = handle(rules, Call { table, ..call });
    store(rules, form, call.table, index, &row);
    outcome
}

fn changed() -> Vec<Wrong> {
    wrong! {
        "moves a held session to the end of the line": handle = |r, call| {
            and_then(r, call, |row, place| {
                row.line.retain(|other| *other != place);
                row.line.push(place);
            })
        };
        "clears the policies of a held session": handle = |r, call| {
            and_then(r, call, |row, place| {
                let access = row.places[usize::from(place) - 1].as_mut();
                access.unwrap().policies = Policies::default();
            })
        };
        "keeps the gateway of the last request": handle = |r, call| {
            let host = asked_about(call.message, ORIGIN_HOST);
            and_then(r, call, |row, place| {
                let access = row.places[usize::from(place) - 1].as_mut();
                access.unwrap().host = host.clone();
            })
        };
        "cuts another for a held session": handle = |r, call| and_then(r, call, |row, place| {
            let entry = row.access(place).map_or(0, |access| access.entry);
            let first = place_to_cut(row, entry);
            if let Some(first) = first.filter(|first| *first != place) { row.free(first); }
        });
        "closes a held session": handle = |r, call| and_then(r, call, |row, place| {
            row.free(place);
        });
        "moves a held session to the lowest free place": handle = |r, call| {
            and_then(r, call, |row, place| {
                let free = (1..place).find(|other| row.access(*other).is_none());
                if let Some(free) = free {
                    row.places.swap(usize::from(free) - 1, usize::from(place) - 1);
                    row.line.iter_mut().filter(|p| **p == place).for_each(|p| *p = free);
                }
            })
        };
    }
}

fn answered() -> Vec<Wrong> {
    wrong! {
        "gives the place of a held session": handle = |r, call| {
            let place = standing(r, &call).map(|(.., place)| place);
            let mut outcome = handle(r, call);
            outcome.place = place.unwrap_or(outcome.place);
            outcome
        };
        "no Subscription-Id for a held session": handle = |r, call| {
            match standing(r, &call) {
                Some(_) => handle(&Rules { subscription_part: |_| Vec::new(), ..*r }, call),
                None => handle(r, call),
            }
        };
        "clears the notice for a held session": handle = |r, call| {
            if standing(r, &call).is_some() { call.notice_room.fill(0) }
            handle(r, call)
        };
        "tells of a cut for a held session": handle = |r, call| {
            let stands = standing(r, &call).is_some();
            let mut outcome = handle(r, call);
            if stands { outcome.cut = Some([0; 3]) }
            outcome
        };
    }
}
