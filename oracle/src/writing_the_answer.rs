//! Writing the answer and the cut notice.

use crate::reading_a_message::{
    AA, AUTH_APPLICATION_ID, AUTH_REQUEST_TYPE, Avp, ERROR, HEADER, Header, ORIGIN_HOST,
    ORIGIN_REALM, PROXIABLE, PROXY_INFO, Request, SESSION_ID, USER_NAME, VENDOR_3GPP, is,
    walk_tests,
};
use crate::rules::Rules;
use crate::the_table::{Access, Form, put};
use crate::{Code, SUCCESS};

pub const RESULT_CODE: u32 = 268;
pub const EXPERIMENTAL_RESULT: u32 = 297;
pub const EXPERIMENTAL_RESULT_CODE: u32 = 298;
pub const VENDOR_ID: u32 = 266;
pub const SUBSCRIPTION_ID: u32 = 443;
pub const SUBSCRIPTION_ID_DATA: u32 = 444;
pub const SUBSCRIPTION_ID_TYPE: u32 = 450;
pub const IMSI: u32 = 1;

/// How far a message came before its code was settled.
#[derive(Clone, Copy, Debug, PartialEq, Eq)]
pub enum Reached {
    Header,
    Walk,
    List,
    Decision,
}

/// Everything an answer is made of. `avps` is empty unless the whole walk passed,
/// `request` unless the lists did.
pub struct Reply<'a> {
    pub message: &'a [u8],
    pub header: Header,
    pub reached: Reached,
    pub avps: &'a [Avp<'a>],
    pub request: &'a Request<'a>,
    pub code: Code,
    pub host: &'a [u8],
    pub realm: &'a [u8],
}

/// An AVP without vendor, M set, padded with zeros.
pub fn avp(code: u32, value: &[u8]) -> Vec<u8> {
    let length = (8 + value.len()) as u32;
    let mut bytes = code.to_be_bytes().to_vec();
    bytes.extend((0x4000_0000 | length).to_be_bytes());
    bytes.extend(value);
    bytes.resize(bytes.len().next_multiple_of(4), 0);
    bytes
}

pub fn number_avp(code: u32, value: u32) -> Vec<u8> {
    avp(code, &value.to_be_bytes())
}

/// The whole answer, part after part, then the header with its true length.
pub fn answer(rules: &Rules, reply: &Reply) -> Vec<u8> {
    let mut bytes = vec![0; HEADER];
    bytes.extend((rules.session_part)(reply));
    bytes.extend((rules.auth_part)(reply));
    bytes.extend((rules.result_part)(reply));
    bytes.extend(avp(ORIGIN_HOST.code, reply.host));
    bytes.extend(avp(ORIGIN_REALM.code, reply.realm));
    bytes.extend((rules.subscription_part)(reply));
    bytes.extend((rules.proxy_part)(reply));
    let length = (bytes.len() as u32).to_be_bytes();
    put(&mut bytes, 0, &reply.message[..HEADER]);
    put(&mut bytes, 0, &[1, length[1], length[2], length[3]]);
    bytes[4] = (rules.answer_flags)(reply.header.flags, reply.code);
    bytes
}

/// P is kept, E goes by the number, all else is clear.
pub fn answer_flags(asked: u8, code: Code) -> u8 {
    let error = if is_protocol_error(code) { ERROR } else { 0 };
    asked & PROXIABLE | error
}

pub fn is_protocol_error(code: Code) -> bool {
    code.number() / 1_000 == 3
}

/// The first AVP decides alone, whatever failed elsewhere, and is written anew.
pub fn session_part(reply: &Reply) -> Vec<u8> {
    match walk_tests(&reply.message[HEADER..]) {
        Ok(first) if is(&first, SESSION_ID) && (1..=128).contains(&first.value.len()) => {
            avp(SESSION_ID.code, first.value)
        }
        _ => Vec::new(),
    }
}

/// Goes by command and number; the Application-Id received has no say in it.
pub fn auth_part(reply: &Reply) -> Vec<u8> {
    if reply.header.command != AA || is_protocol_error(reply.code) {
        return Vec::new();
    }
    let application = number_avp(AUTH_APPLICATION_ID.code, 1);
    [application, number_avp(AUTH_REQUEST_TYPE.code, 2)].concat()
}

pub fn result_part(reply: &Reply) -> Vec<u8> {
    let number = u32::from(reply.code.number());
    match reply.code {
        Code::Experimental(_) => {
            let vendor = number_avp(VENDOR_ID, VENDOR_3GPP);
            let inside = [vendor, number_avp(EXPERIMENTAL_RESULT_CODE, number)];
            avp(EXPERIMENTAL_RESULT, &inside.concat())
        }
        _ => number_avp(RESULT_CODE, number),
    }
}

/// For both types of 265. Zeros behind the name belong to the group and to its length.
pub fn subscription_part(reply: &Reply) -> Vec<u8> {
    if reply.header.command != AA || reply.code != SUCCESS {
        return Vec::new();
    }
    let name = avp(SUBSCRIPTION_ID_DATA, reply.request.text(USER_NAME));
    let inside = [number_avp(SUBSCRIPTION_ID_TYPE, IMSI), name];
    avp(SUBSCRIPTION_ID, &inside.concat())
}

/// Every Proxy-Info as it came, flags, length and padding included.
pub fn proxy_part(reply: &Reply) -> Vec<u8> {
    let proxies = reply.avps.iter().filter(|a| is(a, PROXY_INFO));
    proxies.flat_map(|a| a.whole).copied().collect()
}

/// The notice: two texts in form 1, three in form 2 (W6), each with zeros behind it.
pub fn notice(form: Form, room: &mut [u8], cut: &Access) {
    let mut bytes = vec![0; form.notice()];
    put(&mut bytes, 0, &cut.session);
    put(&mut bytes, 128, &cut.host);
    if form == Form::Two {
        put(&mut bytes, 256, &cut.realm);
    }
    put(room, 0, &bytes);
}

/// The lengths that go with the notice; the realm of form 1 has none.
pub fn cut_lengths(cut: &Access) -> [usize; 3] {
    [cut.session.len(), cut.host.len(), cut.realm.len()]
}
