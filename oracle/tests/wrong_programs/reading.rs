//! Wrong programs that differ in the header tests, the walk, or in how AVPs are known.

use oracle::known_avps::{self, AA_REQUEST, supported_with_re_auth as supported};
use oracle::reading_a_message::*;
use oracle::rules::Rules;
use oracle::{Code, plain};

use crate::{RIGHT, Wrong};

fn with_application(header: &Header, application: u32) -> Header {
    Header {
        application,
        ..*header
    }
}

/// A walk that counts padding as part of an AVP's value.
fn padding_in_the_value(rest: &[u8]) -> Result<Avp<'_>, Code> {
    let avp = walk_tests(rest)?;
    let start = if avp.vendor.is_some() { 12 } else { 8 };
    let value = &avp.whole[start..];
    Ok(Avp { value, ..avp })
}

/// A walk that takes the length as already padded, and so steps on by it alone.
fn no_padding(rest: &[u8]) -> Result<Avp<'_>, Code> {
    let avp = walk_tests(rest)?;
    let start = if avp.vendor.is_some() { 12 } else { 8 };
    let whole = &avp.whole[..start + avp.value.len()];
    Ok(Avp { whole, ..avp })
}

pub fn programs() -> Vec<Wrong> {
    let mut all = wrong! {
        "refuses the T bit": header_tests = |h| match h.flags & RETRANSMITTED {
            0 => header_tests(h),
            _ => Err(plain(5013)),
        };
        "tests E before the reserved bits": header_tests = |h| match h.flags & ERROR {
            0 => header_tests(h),
            _ => Err(plain(3008)),
        };
        "does not test E": header_tests = |h| header_tests(&Header { flags: h.flags & !ERROR, ..*h });
        "does not test the reserved bits": header_tests = |h| {
            header_tests(&Header { flags: h.flags & 0xF0, ..*h })
        };
        "gives 3008 for reserved bits": header_tests = |h| match header_tests(h) {
            Err(Code::Plain(5013)) => Err(plain(3008)),
            other => other,
        };
        "tests the command before the flags": header_tests = |h| {
            header_tests(&Header { flags: 0, ..*h })?;
            header_tests(h)
        };
        "wants application 1 for 275 too": header_tests = |h| {
            header_tests(h)?;
            if h.application == 1 { Ok(()) } else { Err(plain(3007)) }
        };
        "takes application 0 for 265 too": header_tests = |h| match h.application {
            0 => header_tests(&with_application(h, 1)),
            _ => header_tests(h),
        };
        "does not look at the application": header_tests = |h| header_tests(&with_application(h, 1));
        "tests the header after the walk": header_tests = |_| Ok(()), read_list = |r, form, command, avps| {
            if command != AA && command != TERMINATION { return Err(plain(3001)) }
            read_list(r, form, command, avps)
        };
        "counts padding in the length": walk_tests = padding_in_the_value;
        "steps on without padding": walk_tests = no_padding;
        "lets a rest of four bytes pass": walk_is_over = |rest| rest.len() < 8;
        "does not test the AVP's reserved bits": walk_tests = |rest| {
            let mut cleared = rest.to_vec();
            if let Some(flags) = cleared.get_mut(4) { *flags &= !AVP_RESERVED }
            let length = walk_tests(&cleared)?.value.len();
            let start = if rest[4] & VENDOR != 0 { 12 } else { 8 };
            Ok(Avp {
                code: number(&rest[..4]),
                vendor: (start == 12).then(|| number(&rest[8..12])),
                mandatory: rest[4] & MANDATORY != 0,
                value: &rest[start..start + length],
                whole: &rest[..(start + length).next_multiple_of(4)],
            })
        };
        "refuses the AVP's P bit": walk_tests = |rest| match rest.get(4) {
            Some(flags) if flags & 0x20 != 0 && rest.len() >= 8 => Err(plain(3009)),
            _ => walk_tests(rest),
        };
        "tests the AVP's length before its flags": walk_tests = |rest| match walk_tests(rest) {
            Err(Code::Plain(3009)) => {
                let mut cleared = rest.to_vec();
                cleared[4] &= !AVP_RESERVED;
                Err(walk_tests(&cleared).err().unwrap_or(plain(3009)))
            }
            other => other,
        };
        "gives 3009 for a broken length": walk_tests = |rest| walk_tests(rest).map_err(|_| plain(3009));
    };
    all.extend(wrong! {
        "lets a length under 12 pass with V": walk_tests = |rest| match walk_tests(rest) {
            Err(_) if rest.len() >= 8 && rest[4] == VENDOR && (8..12).contains(&number(&rest[5..8])) => {
                let whole = &rest[..number(&rest[5..8]).next_multiple_of(4).min(8) as usize];
                Ok(Avp { code: number(&rest[..4]), vendor: Some(0), mandatory: false, value: &[], whole })
            }
            other => other,
        };
        "ends the walk at a broken AVP": walk_is_over = |rest| {
            rest.is_empty() || walk_tests(rest).is_err()
        };
        "wants M on every AVP": walk_tests = |rest| match rest.get(4) {
            Some(flags) if flags & 0x40 == 0 && rest.len() >= 8 => Err(plain(3009)),
            _ => walk_tests(rest),
        };
        "knows a base AVP with V at vendor 0": is = |avp, name| {
            is(avp, name) || name.vendor.is_none() && avp.code == name.code && avp.vendor == Some(0)
        };
        "knows a base AVP with any vendor": is = |avp, name| {
            is(avp, name) || name.vendor.is_none() && avp.code == name.code
        };
        "knows a 3GPP AVP by code alone": is = |avp, name| {
            is(avp, name) || name.vendor.is_some() && avp.code == name.code
        };
        "knows a 3GPP AVP without V": is = |avp, name| {
            is(avp, name) || name.vendor.is_some() && avp.code == name.code && avp.vendor.is_none()
        };
        "knows a 3GPP AVP of any vendor": is = |avp, name| {
            is(avp, name) || name.vendor.is_some() && avp.code == name.code && avp.vendor.is_some()
        };
    });
    all.extend(of_known_avps());
    all
}

/// W1: what is known, and what comes of an AVP that is not.
fn of_known_avps() -> Vec<Wrong> {
    wrong! {
        "steps over every unknown AVP": supported = |_| Ok(());
        "refuses an unknown AVP without M": supported = |avp| {
            supported(&Avp { mandatory: true, ..*avp })
        };
        "refuses an unknown AVP only behind the whole walk": supported = |_| Ok(()), read_list = |r, form, command, avps| {
            avps.iter().try_for_each(supported)?;
            read_list(r, form, command, avps)
        };
        "refuses an unknown AVP only behind the lists": supported = |_| Ok(()), read_list = |r, form, command, avps| {
            let request = read_list(r, form, command, avps)?;
            avps.iter().try_for_each(supported)?;
            Ok(request)
        };
        "refuses an unknown AVP before its four tests": walk_tests = |rest| match rest.get(..8) {
            Some(head) if walk_tests(rest).is_err() && !head[4] & MANDATORY == 0 => {
                let avp = Avp { code: number(&head[..4]), vendor: None, mandatory: true, value: &[], whole: head };
                if head[4] & VENDOR == 0 { supported(&avp)? }
                walk_tests(rest)
            }
            _ => walk_tests(rest),
        };
        "gives an Experimental-Result for an unknown AVP": supported = |avp| {
            supported(avp).map_err(|_| oracle::experimental(5001))
        };
        "lets the first AVP be unknown": supported = |_| Ok(()), read_list = |r, form, command, avps| {
            avps.iter().skip(1).try_for_each(supported)?;
            read_list(r, form, command, avps)
        };
        "knows every AVP by its code alone": supported = |avp| {
            let base = supported(&Avp { vendor: None, ..*avp });
            base.or(supported(&Avp { vendor: Some(VENDOR_3GPP), ..*avp }))
        };
        "does not know Class": supported = |avp| match avp.code {
            25 if avp.mandatory => Err(plain(5001)),
            _ => supported(avp),
        };
        "does not know what stands in answers alone": supported = |avp| match avp.code {
            268 | 279 | 443 if avp.mandatory => Err(plain(5001)),
            _ => supported(avp),
        };
        "knows what stands inside Proxy-Info": supported = |avp| match avp.code {
            33 | 280 => Ok(()),
            _ => supported(avp),
        };
        "does not know Re-Auth-Request-Type": supported = known_avps::supported;
        "knows the grammar of RFC 4005 too": supported = |avp| match avp.code {
            97 | 408 => Ok(()),
            _ => supported(avp),
        };
        "knows PDG-Charging-Id": supported = |avp| match avp.code {
            896 => Ok(()),
            _ => supported(avp),
        };
        "knows the AA-Request's AVPs only in a 265": supported = |_| Ok(()), read_list = |r, form, command, avps| {
            let foreign = |avp: &&Avp| command == TERMINATION && AA_REQUEST.contains(&avp.code) && avp.vendor.is_none();
            match avps.iter().find(|avp| avp.mandatory && foreign(avp)) {
                Some(_) => Err(plain(5001)),
                None => avps.iter().try_for_each(supported).and_then(|_| read_list(r, form, command, avps)),
            }
        };
    }
}
