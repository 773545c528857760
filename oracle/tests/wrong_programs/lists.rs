//! Wrong programs that differ in what the lists ask for, and in which order.

use oracle::handling::handle;
use oracle::reading_a_message::*;
use oracle::rules::Rules;
use oracle::the_table::Form;
use oracle::{Code, plain};

use crate::calls::same_code_for_all;
use crate::{RIGHT, Wrong, asked_about};

/// The right list with one field changed.
fn with_field(form: Form, command: u32, name: Name, change: impl Fn(&mut Field)) -> Vec<Field> {
    let mut fields = list(form, command);
    fields
        .iter_mut()
        .filter(|f| f.name == name)
        .for_each(change);
    fields
}

fn without(form: Form, command: u32, name: Name) -> Vec<Field> {
    let mut fields = list(form, command);
    fields.retain(|f| f.name != name);
    fields
}

/// Takes as many copies as may be, with the test for one more left out or put last.
fn once<'m>(
    rules: &Rules,
    avps: &[Avp<'m>],
    field: &Field,
    late: bool,
) -> Result<Vec<&'m [u8]>, Code> {
    let mut copies = copies(rules, avps, field);
    for value in copies.iter().take(field.most) {
        length_and_value(value, field.form)?;
    }
    if late && copies.len() > field.most {
        return Err(plain(5009));
    }
    copies.truncate(field.most);
    Ok(copies)
}

/// Looks for missing AVPs in the whole list before it looks at any value.
fn test_by_test<'m>(
    rules: &Rules,
    form: Form,
    command: u32,
    avps: &[Avp<'m>],
) -> Result<Request<'m>, Code> {
    for field in list(form, command) {
        let needed = matches!(field.needed, Needed::Always | Needed::First);
        if needed && copies(rules, avps, &field).is_empty() {
            return Err(plain(5005));
        }
    }
    read_list(rules, form, command, avps)
}

/// The list of one command with the field at this index and the next one exchanged.
fn swapped<const COMMAND: u32, const AT: usize>(form: Form, command: u32) -> Vec<Field> {
    let mut fields = list(form, command);
    if command == COMMAND {
        fields.swap(AT, AT + 1);
    }
    fields
}

/// Each two neighbours of both lists in the wrong order.
pub fn programs_of_order() -> Vec<Wrong> {
    wrong! {
        "265: Auth-Application-Id before Session-Id": list = swapped::<265, 0>;
        "265: Origin-Host before Auth-Application-Id": list = swapped::<265, 1>;
        "265: Origin-Realm before Origin-Host": list = swapped::<265, 2>;
        "265: Destination-Realm before Origin-Realm": list = swapped::<265, 3>;
        "265: Auth-Request-Type before Destination-Realm": list = swapped::<265, 4>;
        "265: Destination-Host before Auth-Request-Type": list = swapped::<265, 5>;
        "265: User-Name before Destination-Host": list = swapped::<265, 6>;
        "265: Session-Request-Type before User-Name": list = swapped::<265, 7>;
        "265: visited network before Session-Request-Type": list = swapped::<265, 8>;
        "265: W-APN before visited network": list = swapped::<265, 9>;
        "265: Routing-Policy before W-APN": list = swapped::<265, 10>;
        "275: Auth-Application-Id before Session-Id": list = swapped::<275, 0>;
        "275: Origin-Host before Auth-Application-Id": list = swapped::<275, 1>;
        "275: Origin-Realm before Origin-Host": list = swapped::<275, 2>;
        "275: Destination-Realm before Origin-Realm": list = swapped::<275, 3>;
        "275: Termination-Cause before Destination-Realm": list = swapped::<275, 4>;
        "275: Destination-Host before Termination-Cause": list = swapped::<275, 5>;
        "275: User-Name before Destination-Host": list = swapped::<275, 6>;
        "275: W-APN before User-Name": list = swapped::<275, 7>;
    }
}

pub fn programs() -> Vec<Wrong> {
    let mut all = wrong! {
        "tests for a second copy after the length": read_field = |r, avps, f| once(r, avps, f, true);
        "does not test for a second copy": read_field = |r, avps, f| once(r, avps, f, false);
        "looks for missing AVPs first": read_list = test_by_test;
        "takes a Session-Id anywhere": list = |form, c| {
            with_field(form, c, SESSION_ID, |f| f.needed = Needed::Always)
        };
        "takes a second Session-Id": read_field = |r, avps, f| {
            once(r, avps, f, true).or_else(|code| match f.name {
                SESSION_ID => once(r, avps, f, false),
                _ => Err(code),
            }).and_then(|value| match f.name {
                SESSION_ID => Ok(value),
                _ => read_field(r, avps, f),
            })
        };
        "gives 5009 for a Session-Id twice but not first": read_field = |r, avps, f| {
            let twice = avps.iter().filter(|a| is(a, SESSION_ID)).count() > 1;
            if twice && f.name == SESSION_ID { Err(plain(5009)) } else { read_field(r, avps, f) }
        };
        "wants the W-APN in type 1": list = |form, c| with_field(form, c, W_APN, |f| f.needed = Needed::Always);
        "does not want the W-APN in type 0": list = |form, c| {
            with_field(form, c, W_APN, |f| if c == AA { f.needed = Needed::Never })
        };
        "wants the policy in type 0": list = |form, c| {
            with_field(form, c, ROUTING_POLICY, |f| f.needed = Needed::Always)
        };
        "does not want the policy in type 1": list = |form, c| {
            with_field(form, c, ROUTING_POLICY, |f| f.needed = Needed::Never)
        };
        "wants the visited network": list = |form, c| {
            with_field(form, c, VISITED_NETWORK, |f| f.needed = Needed::Always)
        };
        "does not look at the visited network in type 1": read_list = |r, form, command, avps| {
            let other = Rules { list: |form, c| without(form, c, VISITED_NETWORK), ..*r };
            let type_1 = |a: &Avp| is(a, SESSION_REQUEST_TYPE) && number(a.value) == 1;
            let rules = if avps.iter().any(type_1) { &other } else { r };
            read_list(rules, form, command, avps)
        };
        "does not look at the policy in type 0": read_list = |r, form, command, avps| {
            let other = Rules { list: |form, c| without(form, c, ROUTING_POLICY), ..*r };
            let type_0 = |a: &Avp| is(a, SESSION_REQUEST_TYPE) && number(a.value) == 0;
            let rules = if avps.iter().any(type_0) { &other } else { r };
            read_list(rules, form, command, avps)
        };
        "labels may have 128 bytes": list = |form, c| with_field(form, c, W_APN, |f| f.form = ValueForm::Text(128));
        "texts may have 129 bytes": list = |form, c| {
            with_field(form, c, SESSION_ID, |f| f.form = ValueForm::Text(129))
        };
        "texts may have 127 bytes": list = |form, c| {
            with_field(form, c, ORIGIN_HOST, |f| f.form = ValueForm::Text(127))
        };
        "User-Name may have 15 bytes": list = |form, c| with_field(form, c, USER_NAME, |f| f.form = ValueForm::Text(15));
    };
    all.extend(wrong! {
        "Session-Request-Type may be 2": list = |form, c| {
            with_field(form, c, SESSION_REQUEST_TYPE, |f| f.form = ValueForm::Number(0, 2))
        };
        "Termination-Cause may be 0": list = |form, c| {
            with_field(form, c, TERMINATION_CAUSE, |f| f.form = ValueForm::Number(0, 8))
        };
        "Termination-Cause may be 9": list = |form, c| {
            with_field(form, c, TERMINATION_CAUSE, |f| f.form = ValueForm::Number(1, 9))
        };
        "Auth-Request-Type may be 3": list = |form, c| {
            with_field(form, c, AUTH_REQUEST_TYPE, |f| f.form = ValueForm::Number(2, 3))
        };
        "Auth-Application-Id may be 0 for 275": list = |form, c| {
            with_field(form, c, AUTH_APPLICATION_ID, |f| if c == TERMINATION { f.form = ValueForm::Number(0, 1) })
        };
        "wants no Destination-Host": list = |form, c| {
            with_field(form, c, DESTINATION_HOST, |f| f.needed = Needed::Never)
        };
        "compares Destination-Realm with its own": handle = |r, call| {
            let strange = asked_about(call.message, DESTINATION_REALM) != call.realm;
            if strange { same_code_for_all(r, call, plain(3003)) } else { handle(r, call) }
        };
        "compares Destination-Host with its own": handle = |r, call| {
            let strange = asked_about(call.message, DESTINATION_HOST) != call.host;
            if strange { same_code_for_all(r, call, plain(3002)) } else { handle(r, call) }
        };
        "tests the type in 275 too": list = |form, c| {
            let kind = list(form, AA).into_iter().filter(|f| f.name == SESSION_REQUEST_TYPE);
            let kind = kind.map(|f| Field { needed: Needed::Never, ..f });
            list(form, c).into_iter().chain(kind.filter(|_| c == TERMINATION)).collect()
        };
        "tests the cause in 265 too": list = |form, c| {
            let cause = list(form, TERMINATION).into_iter().filter(|f| f.name == TERMINATION_CAUSE);
            let cause = cause.map(|f| Field { needed: Needed::Never, ..f });
            list(form, c).into_iter().chain(cause.filter(|_| c == AA)).collect()
        };
        "wants printable texts": read_field = |r, avps, f| {
            let values = read_field(r, avps, f)?;
            let printable = values.iter().all(|v| v.iter().all(u8::is_ascii_graphic));
            let text = matches!(f.form, ValueForm::Text(_));
            if text && !printable { Err(plain(5004)) } else { Ok(values) }
        };
        "gives 5004 for a User-Name of no digits": read_field = |r, avps, f| {
            let values = read_field(r, avps, f)?;
            let digits = values.iter().all(|v| v.len() <= 15 && v.iter().all(u8::is_ascii_digit));
            if f.name == USER_NAME && !digits { Err(plain(5004)) } else { Ok(values) }
        };
        "gives 5004 for a wrong length": read_field = |r, avps, f| {
            read_field(r, avps, f).map_err(|code| if code == plain(5014) { plain(5004) } else { code })
        };
    });
    all
}
