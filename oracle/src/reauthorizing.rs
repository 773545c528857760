//! Re-authorization at the gateway (W11): a Re-Auth-Request about the one access that is
//! lent, the answer to it, and the AA-Request with which the gateway goes on.

use crate::handling::{ANSWER_ROOM, message_number, read};
use crate::reading_a_message::{
    AA, AUTH_APPLICATION_ID, AUTH_REQUEST_TYPE, DESTINATION_HOST, DESTINATION_REALM, Field, HEADER,
    Header, LIST_258, LIST_BOTH, Name, ORIGIN_HOST, ORIGIN_REALM, PROXIABLE, RE_AUTH, REQUEST,
    Request, SESSION_ID, SESSION_REQUEST_TYPE, USER_NAME, VENDOR, VISITED_NETWORK, W_APN,
    flag_tests, header,
};
use crate::rules::Rules;
use crate::the_table::{Form, put};
use crate::writing_the_answer::{Reply, answer, avp};
use crate::{Code, SUCCESS, plain};

/// The access that is lent; a visited network of no bytes is none.
#[derive(Clone, Copy, Debug, PartialEq, Eq)]
pub struct LentAccess<'a> {
    pub session: &'a [u8],
    pub user: &'a [u8],
    pub label: &'a [u8],
    pub visited: &'a [u8],
}

/// One call's inputs: the gateway's own names, the access, the message, and the
/// identifiers for the AA-Request, Hop-by-Hop first. The rooms hold the results afterwards.
pub struct ReAuth<'a> {
    pub host: &'a [u8],
    pub realm: &'a [u8],
    pub access: LentAccess<'a>,
    pub message: &'a [u8],
    pub identifiers: [u32; 2],
    pub answer_room: &'a mut [u8],
    pub request_room: &'a mut [u8],
}

/// What a call returns: the length of the Re-Auth-Answer, and that of the AA-Request, 0
/// unless the code is 2001.
#[derive(Clone, Copy, Debug, PartialEq, Eq)]
pub struct ReAuthorized {
    pub code: Code,
    pub length: usize,
    pub request_length: usize,
}

impl ReAuthorized {
    /// Code, kind and the two lengths.
    pub fn numbers(&self) -> [u32; 4] {
        [
            u32::from(self.code.number()),
            u32::from(self.code.kind()),
            self.length as u32,
            self.request_length as u32,
        ]
    }
}

/// Number 2, then 3 for either room, then 22 for the texts of the access, then 5 to 8; 0
/// for a call that gets an answer.
pub fn re_auth_number(call: &ReAuth) -> u16 {
    let fits = |text: &[u8]| (1..=128).contains(&text.len());
    if !fits(call.host) || !fits(call.realm) {
        return 2;
    }
    if call.answer_room.len() < ANSWER_ROOM || call.request_room.len() < ANSWER_ROOM {
        return 3;
    }
    let access = &call.access;
    let label_fits = (1..=100).contains(&access.label.len());
    let visited_fits = access.visited.is_empty() || fits(access.visited);
    if !fits(access.session) || !fits(access.user) || !label_fits || !visited_fits {
        return 22;
    }
    message_number(call.message)
}

/// The header tests of document 01, for the one command that the gateway serves.
pub fn re_auth_header_tests(header: &Header) -> Result<(), Code> {
    flag_tests(header)?;
    if header.command != RE_AUTH {
        return Err(plain(3001));
    }
    if header.application != 1 {
        return Err(plain(3007));
    }
    Ok(())
}

/// What the lists of the server have in common, then the gateway's own, whatever the form.
pub fn re_auth_list(_form: Form, _command: u32) -> Vec<Field> {
    [&LIST_BOTH[..], &LIST_258].concat()
}

/// What is left once the list has passed: whether the request is about this access.
pub fn is_of_access(access: &LentAccess, request: &Request) -> Result<(), Code> {
    if request.text(SESSION_ID) == access.session {
        return Ok(());
    }
    Err(plain(5002))
}

/// The answer to a request that is no 265, whatever its header says: neither the Auth AVPs
/// nor a Subscription-Id.
pub fn re_auth_answer(rules: &Rules, reply: &Reply) -> Vec<u8> {
    let no_part = |_: &Reply| Vec::new();
    let of_gateway = Rules {
        auth_part: no_part,
        subscription_part: no_part,
        ..*rules
    };
    answer(&of_gateway, reply)
}

/// An AVP with M under its own vendor, padded with zeros.
pub fn named_avp(name: Name, value: &[u8]) -> Vec<u8> {
    let Some(vendor) = name.vendor else {
        return avp(name.code, value);
    };
    let mut bytes = avp(name.code, &[&vendor.to_be_bytes(), value].concat());
    bytes[4] |= VENDOR;
    bytes
}

/// The AVPs of the AA-Request of type 0, in the order of document 01's lists. It goes to
/// where the Re-Auth-Request came from.
pub fn aa_avps(call: &ReAuth, request: &Request) -> Vec<Vec<u8>> {
    let access = &call.access;
    let number = |name: Name, value: u32| named_avp(name, &value.to_be_bytes());
    let mut avps = vec![
        named_avp(SESSION_ID, access.session),
        number(AUTH_APPLICATION_ID, 1),
        named_avp(ORIGIN_HOST, call.host),
        named_avp(ORIGIN_REALM, call.realm),
        named_avp(DESTINATION_REALM, request.text(ORIGIN_REALM)),
        number(AUTH_REQUEST_TYPE, 2),
        named_avp(DESTINATION_HOST, request.text(ORIGIN_HOST)),
        named_avp(USER_NAME, access.user),
        number(SESSION_REQUEST_TYPE, 0),
    ];
    if !access.visited.is_empty() {
        avps.push(named_avp(VISITED_NETWORK, access.visited));
    }
    avps.push(named_avp(W_APN, access.label));
    avps
}

/// The header of the AA-Request but for its length.
pub fn aa_header(identifiers: [u32; 2]) -> [u8; HEADER] {
    let mut bytes = [0; HEADER];
    bytes[0] = 1;
    put(&mut bytes, 4, &AA.to_be_bytes());
    bytes[4] = REQUEST | PROXIABLE;
    put(&mut bytes, 8, &1u32.to_be_bytes());
    put(&mut bytes, 12, &identifiers[0].to_be_bytes());
    put(&mut bytes, 16, &identifiers[1].to_be_bytes());
    bytes
}

fn aa_request(rules: &Rules, call: &ReAuth, request: &Request) -> Vec<u8> {
    let mut bytes = (rules.aa_header)(call.identifiers).to_vec();
    bytes.extend((rules.aa_avps)(call, request).concat());
    let length = (bytes.len() as u32).to_be_bytes();
    put(&mut bytes, 1, &length[1..]);
    bytes
}

/// The gateway reads by document 01's rules, with its own header tests and list; to it
/// Re-Auth-Request-Type is known.
pub fn of_gateway(rules: &Rules) -> Rules {
    Rules {
        header_tests: rules.re_auth_header_tests,
        supported: rules.supported_at_gateway,
        list: rules.re_auth_list,
        ..*rules
    }
}

pub fn re_authorize(rules: &Rules, call: &mut ReAuth) -> ReAuthorized {
    let number = (rules.re_auth_number)(call);
    let Some(header) = header(call.message).filter(|_| number == 0) else {
        return ReAuthorized {
            code: Code::NoAnswer(number),
            length: 0,
            request_length: 0,
        };
    };
    let read = read(&of_gateway(rules), Form::One, &header, call.message);
    let granted = read.request.clone().and_then(|request| {
        (rules.is_of_access)(&call.access, &request)?;
        Ok(request)
    });
    let code = granted.as_ref().map_or_else(|code| *code, |_| SUCCESS);
    let reply = Reply {
        message: call.message,
        header,
        reached: read.reached,
        avps: &read.avps,
        request: &read.request.unwrap_or_default(),
        code,
        host: call.host,
        realm: call.realm,
    };
    let answer = (rules.re_auth_answer)(rules, &reply);
    let request = granted.map_or(Vec::new(), |request| aa_request(rules, call, &request));
    put(call.answer_room, 0, &answer);
    put(call.request_room, 0, &request);
    ReAuthorized {
        code,
        length: answer.len(),
        request_length: request.len(),
    }
}
