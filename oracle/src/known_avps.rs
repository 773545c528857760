//! W1: the AVPs that are known. What is not among them is refused if its M bit is set, and
//! passed over if not.

use crate::reading_a_message::{
    AUTH_APPLICATION_ID, AUTH_REQUEST_TYPE, Avp, DESTINATION_HOST, DESTINATION_REALM, Name,
    ORIGIN_HOST, ORIGIN_REALM, PROXY_INFO, RE_AUTH_REQUEST_TYPE, ROUTING_POLICY, SESSION_ID,
    SESSION_REQUEST_TYPE, TERMINATION_CAUSE, USER_NAME, VISITED_NETWORK, W_APN, base, is, of_3gpp,
};
use crate::rules::DOCUMENT_01;
use crate::{Code, plain};

/// What document 01 names in requests.
pub const IN_REQUESTS: [Name; 14] = [
    SESSION_ID,
    AUTH_APPLICATION_ID,
    ORIGIN_HOST,
    ORIGIN_REALM,
    DESTINATION_REALM,
    AUTH_REQUEST_TYPE,
    DESTINATION_HOST,
    USER_NAME,
    SESSION_REQUEST_TYPE,
    VISITED_NETWORK,
    W_APN,
    ROUTING_POLICY,
    TERMINATION_CAUSE,
    PROXY_INFO,
];

/// What document 01 names in answers, those it leaves out of them included:
/// Failed-AVP (279) and Charging-Data (304 of 3GPP).
pub const IN_ANSWERS: [Name; 9] = [
    base(268),
    base(297),
    base(266),
    base(298),
    base(443),
    base(450),
    base(444),
    base(279),
    of_3gpp(304),
];

/// What else the AA-Request grammar of TS 29.234, 8.4.2, has, in its order from
/// QoS-Capability to Route-Record.
pub const AA_REQUEST: [u32; 39] = [
    578, 32, 4, 95, 5, 87, 61, 278, 62, 2, 6, 24, 291, 276, 277, 19, 30, 31, 94, 77, 402, 60, 13,
    96, 8, 9, 12, 7, 70, 73, 74, 14, 98, 36, 35, 63, 34, 401, 282,
];

/// What else the Session-Termination-Request grammar of RFC 3588 has: Class.
pub const TERMINATION_REQUEST: [u32; 1] = [25];

fn in_answers_and_grammars() -> impl Iterator<Item = Name> {
    let grammars = AA_REQUEST.into_iter().chain(TERMINATION_REQUEST);
    IN_ANSWERS.into_iter().chain(grammars.map(base))
}

/// The known AVPs that no list of the server asks for and that an answer does not copy.
pub fn known_and_ignored() -> Vec<Name> {
    let of_w11 = Some(RE_AUTH_REQUEST_TYPE).filter(|name| !is_refused(name));
    in_answers_and_grammars().chain(of_w11).collect()
}

/// By code, V bit and vendor together, whatever the command.
pub fn is_known(avp: &Avp) -> bool {
    let mut all = IN_REQUESTS.into_iter().chain(in_answers_and_grammars());
    all.any(|name| is(avp, name))
}

/// The fifth test of an AVP, made behind the four of the walk.
pub fn supported(avp: &Avp) -> Result<(), Code> {
    if avp.mandatory && !is_known(avp) {
        return Err(plain(5001));
    }
    Ok(())
}

/// The same from W11 on, and at the gateway: Re-Auth-Request-Type is known too.
pub fn supported_with_re_auth(avp: &Avp) -> Result<(), Code> {
    if is(avp, RE_AUTH_REQUEST_TYPE) {
        return Ok(());
    }
    supported(avp)
}

/// Whether the program as it stands refuses an AVP of this name with M.
fn is_refused(name: &Name) -> bool {
    let avp = Avp {
        code: name.code,
        vendor: name.vendor,
        mandatory: true,
        value: &[],
        whole: &[],
    };
    (DOCUMENT_01.supported)(&avp).is_err()
}

/// The AVPs that one could take for known, and are not.
pub fn unknown() -> Vec<Name> {
    LIKE_KNOWN.into_iter().filter(is_refused).collect()
}

/// PDG-Charging-Id (in a table of TS 29.234, not in the grammar), what stands only inside
/// Proxy-Info, Re-Auth-Request-Type (until W11), two of RFC 4005's grammar alone, known
/// codes with another V bit or vendor, and codes of no meaning.
const LIKE_KNOWN: [Name; 17] = [
    of_3gpp(896),
    base(33),
    base(280),
    RE_AUTH_REQUEST_TYPE,
    base(97),
    base(408),
    of_vendor(263, 0),
    of_3gpp(263),
    of_3gpp(1),
    base(100),
    base(312),
    base(600),
    of_vendor(100, 9),
    of_vendor(600, 10_416),
    of_3gpp(25),
    base(304),
    base(99_999),
];

const fn of_vendor(code: u32, vendor: u32) -> Name {
    let vendor = Some(vendor);
    Name { code, vendor }
}
