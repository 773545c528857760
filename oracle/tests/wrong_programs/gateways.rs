//! Wrong gateways (W11), which read a Re-Auth-Request otherwise.

use oracle::handling::message_number;
use oracle::known_avps::supported;
use oracle::reading_a_message::*;
use oracle::reauthorizing::*;
use oracle::rules::{Rules, WITH_W11 as RIGHT};
use oracle::the_table::Form;
use oracle::{experimental, plain};

use crate::Wrong;

pub fn programs() -> Vec<Wrong> {
    [numbers(), headers(), lists(), sessions()].concat()
}

/// The number of a call with other inputs than its own.
fn number_with(call: &ReAuth, change: impl Fn(&mut ReAuth)) -> u16 {
    let mut other = ReAuth {
        answer_room: &mut call.answer_room.to_vec(),
        request_room: &mut call.request_room.to_vec(),
        ..*call
    };
    change(&mut other);
    re_auth_number(&other)
}

/// Whether this number holds of the call, whatever comes before it.
fn holds(call: &ReAuth, number: u16) -> bool {
    let (mut answers, mut requests) = ([0; 5_120], [0; 5_120]);
    let short = |room: &[u8]| room.len() < 5_120;
    match number {
        2 => re_auth_number(call) == 2,
        3 => short(call.answer_room) || short(call.request_room),
        22 => {
            let good = ReAuth {
                host: b"h",
                realm: b"r",
                answer_room: &mut answers,
                request_room: &mut requests,
                ..*call
            };
            re_auth_number(&good) == 22
        }
        _ => message_number(call.message) == number,
    }
}

fn in_order(call: &ReAuth, order: [u16; 7]) -> u16 {
    order
        .into_iter()
        .find(|number| holds(call, *number))
        .unwrap_or(0)
}

fn numbers() -> Vec<Wrong> {
    wrong! {
        "tests 3 before 2": re_auth_number = |call| in_order(call, [3, 2, 22, 5, 6, 7, 8]);
        "tests 22 before 3": re_auth_number = |call| in_order(call, [2, 22, 3, 5, 6, 7, 8]);
        "tests 22 before 2": re_auth_number = |call| in_order(call, [22, 2, 3, 5, 6, 7, 8]);
        "tests the access behind the message": re_auth_number = |call| {
            in_order(call, [2, 3, 5, 6, 7, 8, 22])
        };
        "tests the message first": re_auth_number = |call| in_order(call, [5, 6, 7, 8, 2, 3, 22]);
        "does not test the request's room": re_auth_number = |call| {
            number_with(call, |other| if other.request_room.len() < 5_120 {
                other.request_room = Box::leak(Box::new([0; 5_120]));
            })
        };
        "takes a request's room that is just long enough": re_auth_number = |call| {
            number_with(call, |other| if (1_128..5_120).contains(&other.request_room.len()) {
                other.request_room = Box::leak(Box::new([0; 5_120]));
            })
        };
        "does not test the answer's room": re_auth_number = |call| {
            number_with(call, |other| if other.answer_room.len() < 5_120 {
                other.answer_room = Box::leak(Box::new([0; 5_120]));
            })
        };
        "takes a label of 128 bytes": re_auth_number = |call| number_with(call, |other| {
            if other.access.label.len() <= 128 && !other.access.label.is_empty() {
                other.access.label = b"l";
            }
        });
        "takes a label of no bytes": re_auth_number = |call| number_with(call, |other| {
            if other.access.label.is_empty() { other.access.label = b"l" }
        });
        "wants a visited network": re_auth_number = |call| match re_auth_number(call) {
            0 | 5..=8 if call.access.visited.is_empty() => 22,
            number => number,
        };
        "takes a visited network of any length": re_auth_number = |call| {
            number_with(call, |other| other.access.visited = b"")
        };
        "wants a user name of at most 15 bytes": re_auth_number = |call| match re_auth_number(call) {
            0 | 5..=8 if call.access.user.len() > 15 => 22,
            number => number,
        };
        "takes a user name of no bytes": re_auth_number = |call| number_with(call, |other| {
            if other.access.user.is_empty() { other.access.user = b"1" }
        });
        "takes a Session-Id of 129 bytes": re_auth_number = |call| number_with(call, |other| {
            if other.access.session.len() == 129 { other.access.session = b"s" }
        });
        "does not test the own realm": re_auth_number = |call| {
            number_with(call, |other| other.realm = b"r")
        };
        "gives 1 for a label of no bytes": re_auth_number = |call| match re_auth_number(call) {
            22 if call.access.label.is_empty() => 1,
            number => number,
        };
        "reads an answer as a request": re_auth_number = |call| match re_auth_number(call) {
            8 => 0,
            number => number,
        };
    }
}

fn headers() -> Vec<Wrong> {
    wrong! {
        "3001 before the flags": re_auth_header_tests = |header| {
            if header.command != RE_AUTH { return Err(plain(3001)) }
            re_auth_header_tests(header)
        };
        "3008 before 5013": re_auth_header_tests = |header| {
            if header.flags & ERROR != 0 { return Err(plain(3008)) }
            re_auth_header_tests(header)
        };
        "3007 before 3001": re_auth_header_tests = |header| {
            flag_tests(header)?;
            if header.application != 1 { return Err(plain(3007)) }
            re_auth_header_tests(header)
        };
        "takes Application-Id 0": re_auth_header_tests = |header| {
            let application = header.application.max(1);
            re_auth_header_tests(&Header { application, ..*header })
        };
        "takes the commands of the server": re_auth_header_tests = |header| {
            header_tests(header).or(re_auth_header_tests(header))
        };
        "reads two bytes of the command": re_auth_header_tests = |header| {
            let command = header.command & 0xFFFF;
            re_auth_header_tests(&Header { command, ..*header })
        };
        "does not know Re-Auth-Request-Type": supported_at_gateway = supported;
        "knows Re-Auth-Request-Type by its code": supported_at_gateway = |avp| match avp.code {
            285 => Ok(()),
            _ => supported(avp),
        };
        "steps over every unknown AVP": supported_at_gateway = |_| Ok(());
        "knows no AVP of a request but its own": supported_at_gateway = |avp| {
            let asked = re_auth_list(Form::One, RE_AUTH);
            let own = asked.iter().any(|field| is(avp, field.name)) || is(avp, PROXY_INFO);
            if own || !avp.mandatory { Ok(()) } else { Err(plain(5001)) }
        };
    }
}

/// The list with some of it changed.
pub fn list_with(change: fn(&mut Vec<Field>)) -> Vec<Field> {
    let mut fields = re_auth_list(Form::One, RE_AUTH);
    change(&mut fields);
    fields
}

fn lists() -> Vec<Wrong> {
    wrong! {
        "takes AUTHORIZE_AUTHENTICATE": re_auth_list = |_, _| list_with(|fields| {
            fields[6].form = ValueForm::Number(0, 1);
        });
        "takes any type": re_auth_list = |_, _| list_with(|fields| {
            fields[6].form = ValueForm::Number(0, u32::MAX);
        });
        "takes AUTHORIZE_AUTHENTICATE alone": re_auth_list = |_, _| list_with(|fields| {
            fields[6].form = ValueForm::Number(1, 1);
        });
        "needs no type": re_auth_list = |_, _| list_with(|fields| fields[6].needed = Needed::Never);
        "does not look at the type": re_auth_list = |_, _| list_with(|fields| { fields.pop(); });
        "needs no Destination-Host": re_auth_list = |_, _| list_with(|fields| {
            fields[5].needed = Needed::Never;
        });
        "the type before the Destination-Host": re_auth_list = |_, _| list_with(|fields| {
            fields.swap(5, 6);
        });
        "the Destination-Host behind the Session-Id": re_auth_list = |_, _| list_with(|fields| {
            fields[1..6].rotate_right(1);
        });
        "Destination-Realm before the origins": re_auth_list = |_, _| list_with(|fields| {
            fields[2..5].rotate_right(1);
        });
        "the type first": re_auth_list = |_, _| list_with(|fields| fields.rotate_right(1));
        "wants a User-Name": re_auth_list = |_, _| list_with(|fields| fields.push(LIST_265[2]));
        "reads a User-Name that is there": re_auth_list = |_, _| list_with(|fields| {
            fields.push(Field { needed: Needed::Never, ..LIST_265[2] });
        });
        "wants an Auth-Request-Type": re_auth_list = |_, _| list_with(|fields| {
            fields.insert(5, LIST_265[0]);
        });
        "the Session-Id anywhere": re_auth_list = |_, _| list_with(|fields| {
            fields[0].needed = Needed::Always;
        });
        "a second Re-Auth-Request-Type": re_auth_list = |_, _| list_with(|fields| fields[6].most = 2);
        "any Auth-Application-Id": re_auth_list = |_, _| list_with(|fields| {
            fields[1].form = ValueForm::Number(0, u32::MAX);
        });
    }
}

/// The right call, but 5002 as soon as so much of the list has passed.
fn early_5002(rules: &Rules, call: &mut ReAuth, list: fn(Form, u32) -> Vec<Field>) -> ReAuthorized {
    let short = Rules {
        re_auth_list: list,
        ..*rules
    };
    let tried = re_authorize(
        &short,
        &mut ReAuth {
            answer_room: &mut call.answer_room.to_vec(),
            request_room: &mut call.request_room.to_vec(),
            ..*call
        },
    );
    let rules = if tried.code == plain(5002) {
        &short
    } else {
        rules
    };
    re_authorize(rules, call)
}

fn sessions() -> Vec<Wrong> {
    wrong! {
        "5002 before the list's codes": re_authorize = |r, call| {
            early_5002(r, call, |_, _| vec![LIST_BOTH[0]])
        };
        "5002 before the type": re_authorize = |r, call| {
            early_5002(r, call, |_, _| list_with(|fields| { fields.pop(); }))
        };
        "does not compare the Session-Id": is_of_access = |_, _| Ok(());
        "compares Session-Ids in any case": is_of_access = |access, request| {
            let same = request.text(SESSION_ID).eq_ignore_ascii_case(access.session);
            if same { Ok(()) } else { Err(plain(5002)) }
        };
        "compares the beginnings of Session-Ids": is_of_access = |access, request| {
            let (one, other) = (request.text(SESSION_ID), access.session);
            if one.starts_with(other) || other.starts_with(one) { return Ok(()) }
            is_of_access(access, request)
        };
        "5012 for another Session-Id": is_of_access = |access, request| {
            is_of_access(access, request).map_err(|_| plain(5012))
        };
        "an Experimental-Result for another Session-Id": is_of_access = |access, request| {
            is_of_access(access, request).map_err(|_| experimental(5002))
        };
        "compares the destination with the own host": re_authorize = |r, call| {
            let host = call.host.to_vec();
            let avps = walk(&of_gateway(r), call.message).unwrap_or_default();
            let named = avps.iter().find(|avp| is(avp, DESTINATION_HOST));
            if named.is_some_and(|avp| avp.value != host) {
                return re_authorize(&Rules { is_of_access: |_, _| Err(plain(3002)), ..*r }, call);
            }
            re_authorize(r, call)
        };
    }
}
