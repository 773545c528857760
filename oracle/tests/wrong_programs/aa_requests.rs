//! Wrong gateways (W11), which answer otherwise or write another AA-Request.

use oracle::reading_a_message::*;
use oracle::reauthorizing::*;
use oracle::rules::{Rules, WITH_W11 as RIGHT};
use oracle::the_table::put;
use oracle::writing_the_answer::{Reply, answer, avp, number_avp};
use oracle::{Code, SUCCESS, plain};

use crate::Wrong;
use crate::gateways::list_with;

pub fn programs() -> Vec<Wrong> {
    [answers(), turned_round(), avps(), aa_headers(), rooms()].concat()
}

/// The answer with some of the reply changed.
fn answer_with(rules: &Rules, reply: &Reply, change: impl Fn(&mut Vec<u8>)) -> Vec<u8> {
    let mut bytes = re_auth_answer(rules, reply);
    change(&mut bytes);
    bytes
}

fn answers() -> Vec<Wrong> {
    wrong! {
        "answers a header of 265 as the server does": re_auth_answer = |r, reply| answer(r, reply);
        "Auth AVPs in each answer": re_auth_answer = |r, reply| {
            let header = Header { command: AA, ..reply.header };
            answer(&Rules { subscription_part: |_| Vec::new(), ..*r }, &Reply { header, ..*reply })
        };
        "Auth-Application-Id in the answer": re_auth_answer = |r, reply| {
            let auth = |_: &Reply| number_avp(AUTH_APPLICATION_ID.code, 1);
            let none = |_: &Reply| Vec::new();
            answer(&Rules { auth_part: auth, subscription_part: none, ..*r }, reply)
        };
        "a Subscription-Id in the answer": re_auth_answer = |r, reply| {
            let subscription = |reply: &Reply| match reply.code {
                SUCCESS => avp(443, &number_avp(450, 1)),
                _ => Vec::new(),
            };
            re_auth_answer(&Rules { proxy_part: subscription, ..*r }, reply)
        };
        "no Proxy-Info in the answer": re_auth_answer = |r, reply| {
            re_auth_answer(&Rules { proxy_part: |_| Vec::new(), ..*r }, reply)
        };
        "Proxy-Info on success alone": re_auth_answer = |r, reply| {
            let none = |_: &Reply| Vec::new();
            let part = if reply.code == SUCCESS { r.proxy_part } else { none };
            re_auth_answer(&Rules { proxy_part: part, ..*r }, reply)
        };
        "no Session-Id with 5002": re_auth_answer = |r, reply| {
            let none = |_: &Reply| Vec::new();
            let part = if reply.code == plain(5002) { none } else { r.session_part };
            re_auth_answer(&Rules { session_part: part, ..*r }, reply)
        };
        "the names of the gateway exchanged": re_auth_answer = |r, reply| {
            re_auth_answer(r, &Reply { host: reply.realm, realm: reply.host, ..*reply })
        };
        "E with 5002": re_auth_answer = |r, reply| answer_with(r, reply, |bytes| {
            if reply.code == plain(5002) { bytes[4] |= ERROR }
        });
        "R in the answer": re_auth_answer = |r, reply| answer_with(r, reply, |bytes| bytes[4] |= REQUEST);
        "P in each answer": re_auth_answer = |r, reply| answer_with(r, reply, |bytes| bytes[4] |= PROXIABLE);
        "258 in each answer": re_auth_answer = |r, reply| answer_with(r, reply, |bytes| {
            put(bytes, 5, &[0, 1, 2]);
        });
        "DIAMETER_LIMITED_SUCCESS for going on": re_auth_answer = |r, reply| {
            let code = if reply.code == SUCCESS { plain(2002) } else { reply.code };
            re_auth_answer(r, &Reply { code, ..*reply })
        };
        "the access's Session-Id in the answer": re_authorize = |r, call| {
            let session = call.access.session.to_vec();
            let mut done = re_authorize(r, call);
            if done.code == plain(5002) {
                let bytes = call.answer_room[..done.length].to_vec();
                let rest = 20 + walk_tests(&bytes[20..]).unwrap().whole.len();
                let mut other = [&bytes[..20], &avp(263, &session), &bytes[rest..]].concat();
                let length = (other.len() as u32).to_be_bytes();
                put(&mut other, 1, &length[1..]);
                put(call.answer_room, 0, &other);
                done.length = other.len();
            }
            done
        };
    }
}

/// The AVPs as if the request had brought other values under these names.
fn with_values(call: &ReAuth, request: &Request, pairs: [(Name, Name); 2]) -> Vec<Vec<u8>> {
    let mut other = request.clone();
    for (name, value) in &mut other.values {
        if let Some((_, from)) = pairs.iter().find(|(to, _)| to == name) {
            *value = request.text(*from);
        }
    }
    aa_avps(call, &other)
}

fn turned_round() -> Vec<Wrong> {
    wrong! {
        "origins and destinations not turned round": aa_avps = |call, request| {
            let (host, realm) = (request.text(ORIGIN_HOST), request.text(ORIGIN_REALM));
            let rooms: [&mut [u8]; 2] = [&mut [], &mut []];
            let [answer_room, request_room] = rooms;
            let turned = ReAuth { host, realm, answer_room, request_room, ..*call };
            let pairs = [(ORIGIN_HOST, DESTINATION_HOST), (ORIGIN_REALM, DESTINATION_REALM)];
            with_values(&turned, request, pairs)
        };
        "destinations from the destinations": aa_avps = |call, request| {
            let pairs = [(ORIGIN_HOST, DESTINATION_HOST), (ORIGIN_REALM, DESTINATION_REALM)];
            with_values(call, request, pairs)
        };
        "the host not turned round": aa_avps = |call, request| {
            with_values(call, request, [(ORIGIN_HOST, DESTINATION_HOST); 2])
        };
        "the realm not turned round": aa_avps = |call, request| {
            with_values(call, request, [(ORIGIN_REALM, DESTINATION_REALM); 2])
        };
        "host and realm exchanged": aa_avps = |call, request| {
            with_values(call, request, [(ORIGIN_HOST, ORIGIN_REALM), (ORIGIN_REALM, ORIGIN_HOST)])
        };
        "the own names as the request addresses them": aa_avps = |call, request| {
            let (host, realm) = (request.text(DESTINATION_HOST), request.text(DESTINATION_REALM));
            let rooms: [&mut [u8]; 2] = [&mut [], &mut []];
            let [answer_room, request_room] = rooms;
            aa_avps(&ReAuth { host, realm, answer_room, request_room, ..*call }, request)
        };
        "origins for destinations": aa_avps = |call, request| {
            let mut other = request.clone();
            other.values.retain(|(name, _)| ![ORIGIN_HOST, ORIGIN_REALM].contains(name));
            other.values.extend([(ORIGIN_HOST, call.host), (ORIGIN_REALM, call.realm)]);
            aa_avps(call, &other)
        };
    }
}

/// The AVPs of the AA-Request with some of them changed; the label is the last.
fn avps_with(call: &ReAuth, request: &Request, change: impl Fn(&mut Vec<Vec<u8>>)) -> Vec<Vec<u8>> {
    let mut all = aa_avps(call, request);
    change(&mut all);
    all
}

fn last(all: &mut [Vec<u8>]) -> &mut Vec<u8> {
    let at = all.len() - 1;
    &mut all[at]
}

fn avps() -> Vec<Wrong> {
    wrong! {
        "the visited network left out": aa_avps = |call, q| avps_with(call, q, |all| {
            if !call.access.visited.is_empty() { all.remove(9); }
        });
        "a visited network of no bytes": aa_avps = |call, q| avps_with(call, q, |all| {
            if call.access.visited.is_empty() { all.insert(9, named_avp(VISITED_NETWORK, b"")) }
        });
        "the visited network behind the label": aa_avps = |call, q| avps_with(call, q, |all| {
            if !call.access.visited.is_empty() { all.swap(9, 10) }
        });
        "the own realm for the visited network": aa_avps = |call, q| avps_with(call, q, |all| {
            if !call.access.visited.is_empty() { all[9] = named_avp(VISITED_NETWORK, call.realm) }
        });
        "type 1": aa_avps = |call, q| avps_with(call, q, |all| {
            all[8] = named_avp(SESSION_REQUEST_TYPE, &[0, 0, 0, 1])
        });
        "a request to authenticate": aa_avps = |call, q| avps_with(call, q, |all| {
            all[5] = number_avp(AUTH_REQUEST_TYPE.code, 3)
        });
        "a Routing-Policy": aa_avps = |call, q| avps_with(call, q, |all| {
            all.push(named_avp(ROUTING_POLICY, b"permit"))
        });
        "a Re-Auth-Request-Type in the AA-Request": aa_avps = |call, q| avps_with(call, q, |all| {
            all.push(number_avp(RE_AUTH_REQUEST_TYPE.code, 0))
        });
        "no Auth-Application-Id": aa_avps = |call, q| avps_with(call, q, |all| { all.remove(1); });
        "no label": aa_avps = |call, q| avps_with(call, q, |all| { all.pop(); });
        "the grammar's order": aa_avps = |call, q| avps_with(call, q, |all| all.swap(4, 5));
        "Destination-Host behind Destination-Realm": aa_avps = |call, q| avps_with(call, q, |all| all.swap(5, 6));
        "User-Name last": aa_avps = |call, q| avps_with(call, q, |all| {
            let user = all.remove(7);
            all.push(user);
        });
        "the label in small letters": aa_avps = |call, q| avps_with(call, q, |all| {
            *last(all) = named_avp(W_APN, &call.access.label.to_ascii_lowercase())
        });
        "the label without its vendor": aa_avps = |call, q| avps_with(call, q, |all| {
            *last(all) = avp(W_APN.code, call.access.label)
        });
        "no V on the label": aa_avps = |call, q| avps_with(call, q, |all| last(all)[4] = MANDATORY);
        "no M on AVPs of 3GPP": aa_avps = |call, q| avps_with(call, q, |all| {
            all.iter_mut().skip(8).for_each(|avp| avp[4] = VENDOR)
        });
        "no M on the Session-Id": aa_avps = |call, q| avps_with(call, q, |all| all[0][4] = 0);
        "counts the padding of the label": aa_avps = |call, q| avps_with(call, q, |all| {
            let length = last(all).len() as u32;
            put(last(all), 5, &length.to_be_bytes()[1..]);
        });
        "does not count the vendor": aa_avps = |call, q| avps_with(call, q, |all| {
            let length = (8 + call.access.label.len()) as u32;
            put(last(all), 5, &length.to_be_bytes()[1..]);
        });
        "the user name of the request": aa_avps = |call, q| avps_with(call, q, |all| {
            let avps = walk(&Rules { supported: |_| Ok(()), ..RIGHT }, call.message).unwrap();
            let named = avps.iter().find(|avp| is(avp, USER_NAME));
            if let Some(user) = named { all[7] = avp(USER_NAME.code, user.value) }
        });
        "hands Proxy-Info on": aa_avps = |call, q| avps_with(call, q, |all| {
            let avps = walk(&Rules { supported: |_| Ok(()), ..RIGHT }, call.message).unwrap();
            let proxies = avps.iter().filter(|avp| is(avp, PROXY_INFO));
            all.extend(proxies.map(|avp| avp.whole.to_vec()));
        });
    }
}

/// A header with one thing otherwise.
fn header_with(identifiers: [u32; 2], change: fn(&mut [u8; HEADER])) -> [u8; HEADER] {
    let mut bytes = aa_header(identifiers);
    change(&mut bytes);
    bytes
}

fn aa_headers() -> Vec<Wrong> {
    wrong! {
        "identifiers exchanged": aa_header = |[hop, end]| aa_header([end, hop]);
        "one identifier for both": aa_header = |[hop, _]| aa_header([hop; 2]);
        "no P in the AA-Request": aa_header = |ids| header_with(ids, |bytes| bytes[4] = REQUEST);
        "T in the AA-Request": aa_header = |ids| header_with(ids, |bytes| bytes[4] |= RETRANSMITTED);
        "Application-Id 0 in the AA-Request": aa_header = |ids| header_with(ids, |bytes| bytes[11] = 0);
        "a 258 for the AA-Request": aa_header = |ids| header_with(ids, |bytes| bytes[7] = 2);
        "the identifiers of the Re-Auth-Request": re_authorize = |r, call| {
            let done = re_authorize(r, call);
            if done.code == SUCCESS { put(call.request_room, 12, &call.message[12..20]) }
            done
        };
    }
}

/// Writes the AA-Request into its room although the call is refused.
fn written_for(rules: &Rules, call: &mut ReAuth, which: fn(Code) -> bool) -> ReAuthorized {
    let done = re_authorize(rules, call);
    if which(done.code) {
        let all = Rules {
            re_auth_list: |_, _| {
                list_with(|fields| fields[6].form = ValueForm::Number(0, u32::MAX))
            },
            is_of_access: |_, _| Ok(()),
            ..*rules
        };
        let mut other = ReAuth {
            answer_room: &mut call.answer_room.to_vec(),
            request_room: &mut *call.request_room,
            ..*call
        };
        re_authorize(&all, &mut other);
    }
    done
}

fn rooms() -> Vec<Wrong> {
    wrong! {
        "an AA-Request for another Session-Id": re_authorize = |r, call| {
            written_for(r, call, |code| code == plain(5002))
        };
        "an AA-Request for another type": re_authorize = |r, call| {
            written_for(r, call, |code| code == plain(5004))
        };
        "tells the length of an AA-Request that is not written": re_authorize = |r, call| {
            let mut done = re_authorize(r, call);
            if done.code == plain(5002) { done.request_length = 164 }
            done
        };
        "clears the rest of the request's room": re_authorize = |r, call| {
            let done = re_authorize(r, call);
            if done.code == SUCCESS { call.request_room[done.request_length..].fill(0) }
            done
        };
        "clears the request's room on a refusal": re_authorize = |r, call| {
            let done = re_authorize(r, call);
            if done.code != SUCCESS { call.request_room.fill(0) }
            done
        };
        "clears the answer's room with a number": re_authorize = |r, call| {
            let done = re_authorize(r, call);
            if done.length == 0 { call.answer_room.fill(0) }
            done
        };
        "clears the rest of the answer's room": re_authorize = |r, call| {
            let done = re_authorize(r, call);
            if done.length > 0 { call.answer_room[done.length..].fill(0) }
            done
        };
        "no answer where it goes on": re_authorize = |r, call| {
            let before = call.answer_room.to_vec();
            let mut done = re_authorize(r, call);
            if done.code == SUCCESS {
                call.answer_room.copy_from_slice(&before);
                done.length = 0;
            }
            done
        };
        "no AA-Request at all": re_authorize = |r, call| {
            let before = call.request_room.to_vec();
            let mut done = re_authorize(r, call);
            call.request_room.copy_from_slice(&before);
            done.request_length = 0;
            done
        };
        "answer and AA-Request in each other's room": re_authorize = |r, call| {
            let done = re_authorize(r, call);
            let least = call.answer_room.len().min(call.request_room.len());
            if done.code == SUCCESS {
                call.answer_room[..least].swap_with_slice(&mut call.request_room[..least]);
            }
            done
        };
    }
}
