//! The same answer, defined apart from the judge: not place by place, but name by name.

use oracle::judging_calls::JudgeCall;
use oracle::program::{Asked, Operation, Room, perform};
use oracle::rules::WITH_W11;

/// Code and, with V, vendor; flags; value.
type Read<'a> = ((u32, Option<u32>), u8, &'a [u8]);

const SESSION_ID: (u32, Option<u32>) = (263, None);
const FAILED: (u32, Option<u32>) = (279, None);
const GROUPS: [(u32, Option<u32>); 3] = [(297, None), (443, None), FAILED];

fn word(bytes: &[u8]) -> u32 {
    u32::from_be_bytes([bytes[0], bytes[1], bytes[2], bytes[3]])
}

/// The AVPs, if these bytes are AVPs from end to end, so are the insides of their groups, and
/// no more than four of them are around anything.
fn read(bytes: &[u8], around: usize) -> Option<Vec<Read<'_>>> {
    let mut all = Vec::new();
    let mut at = 0;
    while at < bytes.len() {
        if bytes.len() - at < 8 {
            return None;
        }
        let (code, second) = (word(&bytes[at..]), word(&bytes[at + 4..]));
        let (flags, length) = ((second >> 24) as u8, (second & 0xFF_FFFF) as usize);
        let with_vendor = flags >= 0x80;
        let front = 8 + 4 * usize::from(with_vendor);
        let room = length.div_ceil(4) * 4;
        if flags % 32 != 0 || length < front || at + room > bytes.len() {
            return None;
        }
        let vendor = with_vendor.then(|| word(&bytes[at + 8..]));
        let value = &bytes[at + front..at + length];
        if GROUPS.contains(&(code, vendor)) {
            if around == 4 {
                return None;
            }
            read(value, around + 1)?;
        }
        all.push(((code, vendor), flags, value));
        at += room;
    }
    Some(all)
}

/// Whether this answer says what ours says.
fn same(ours: &[u8], theirs: &[u8]) -> bool {
    if ours.is_empty() || theirs.is_empty() {
        return ours == theirs;
    }
    let true_length =
        |bytes: &[u8]| bytes.len() >= 20 && (word(bytes) & 0xFF_FFFF) as usize == bytes.len();
    if !true_length(theirs) || theirs[0] != ours[0] || theirs[4..20] != ours[4..20] {
        return false;
    }
    let (Some(mine), Some(read)) = (read(&ours[20..], 0), read(&theirs[20..], 0)) else {
        return false;
    };
    let of = |all: &[Read], name| -> Vec<(u8, Vec<u8>)> {
        let named = all.iter().filter(|avp| avp.0 == name);
        named.map(|avp| (avp.1, avp.2.to_vec())).collect()
    };
    let begins = mine[0].0 != SESSION_ID || read.first() == Some(&mine[0]);
    let each = mine.iter().all(|avp| of(&mine, avp.0) == of(&read, avp.0));
    let beside = read.iter().all(|avp| {
        let held = mine.iter().any(|other| other.0 == avp.0);
        held || avp.0 == FAILED || avp.1 & 0x40 == 0
    });
    begins && each && beside
}

/// Whether answer, notice and row are those of one call on a table of the row.
pub fn is_the_same(call: &JudgeCall) -> bool {
    let row = match call.form {
        1 => 9 * 512,
        2 => 17 * 512,
        _ => return false,
    };
    let named = |name: &[u8]| !name.is_empty() && name.len() <= 128;
    let lent = [call.before.len(), call.after.len()] == [row; 2] && call.operator <= 15;
    if !lent || !named(&call.host) || !named(&call.realm) {
        return false;
    }
    let room = |length| Room { length, seed: 3 };
    let asked = Asked {
        form: call.form,
        operator: call.operator,
        host: call.host.clone(),
        realm: call.realm.clone(),
        message: call.message.clone(),
        wag: call.wag,
        answer_room: room(5_120),
        notice_room: room(128 * (call.form + 1)),
    };
    let mut table = call.before.clone();
    let seen = perform(&mut WITH_W11.clone(), &Operation::Handle(asked), &mut table);
    let ours = &seen.answer_room[..seen.numbers[2] as usize];
    let cut = seen.numbers[4] != 0;
    let notice = if cut { &seen.notice_room[..] } else { &[] };
    same(ours, &call.answer) && call.notice == notice && call.after == table
}
