//! W10: the mismatches that are planted in an old server's answer, each with its name. One that
//! can not be planted in this answer, or not beside what is planted already, gives none.

use crate::drafts::DraftAvp;
use crate::judging::{EXPERIMENTAL_RESULT, FAILED_AVP, Kind, RESULT_CODE, SUBSCRIPTION_ID};
use crate::old_answers::{EXTRAS, Front, Item, Mark, Old, plain};
use crate::random::Random;
use crate::reading_a_message::{HEADER, Name, PROXY_INFO, base};

/// A mismatch that can be planted: the kind that is told of it, none where it is 31, its name,
/// and how it is planted, if it can be.
pub type Plant = (Option<Kind>, &'static str, Planting);
type Planting = fn(&mut Old, &mut Random) -> Option<()>;

const DEEP: Option<Kind> = None;
const FRONT: Option<Kind> = Some(Kind::Header);
const WALK: Option<Kind> = Some(Kind::Walk);
const AVP: Option<Kind> = Some(Kind::Avp);
const MISSING: Option<Kind> = Some(Kind::Missing);
const NOTICE: Option<Kind> = Some(Kind::Notice);
const ROW: Option<Kind> = Some(Kind::Row);

pub const PLANTS: [Plant; 27] = [
    (FRONT, "no answer where one is due", no_answer),
    (FRONT, "an answer under 20 bytes", short_answer),
    (FRONT, "an answer where none is due", answer_not_due),
    (FRONT, "header length", header_length),
    (FRONT, "header byte", header_byte),
    (WALK, "an AVP that fails", failing_avp),
    (WALK, "an AVP that fails in a group", failing_in_a_group),
    (WALK, "an answer that is cut off", cut_off),
    (WALK, "bytes behind the last AVP", bytes_behind),
    (DEEP, "a group in four", fifth_group),
    (AVP, "another value", other_value),
    (AVP, "other flags", other_flags),
    (AVP, "one twice", twice),
    (MISSING, "one is missing", missing),
    (MISSING, "one is missing", missing),
    (AVP, "one with M that ours lacks", with_m),
    (AVP, "one more of a name, without M", of_a_name_without_m),
    (AVP, "Session-Id not first", not_first),
    (AVP, "Proxy-Infos in another order", another_order),
    (AVP, "Proxy-Infos in another order", another_order),
    (AVP, "one more Proxy-Info", one_more_proxy),
    (NOTICE, "a notice that is not due", notice_not_due),
    (NOTICE, "notice byte", notice_byte),
    (NOTICE, "the last byte of a notice", last_notice_byte),
    (NOTICE, "a notice of another length", notice_length),
    (NOTICE, "no notice where one is due", no_notice),
    (ROW, "row byte", row_byte),
];

const GROUPS: [Name; 3] = [FAILED_AVP, EXPERIMENTAL_RESULT, SUBSCRIPTION_ID];

// The header.

fn in_front(old: &mut Old, front: Front) -> Option<()> {
    let due = !old.call.answer.is_empty();
    if old.front != Front::Right || due == (front == Front::NotDue) {
        return None;
    }
    old.front = front;
    Some(())
}

fn no_answer(old: &mut Old, _: &mut Random) -> Option<()> {
    in_front(old, Front::Empty)
}

fn short_answer(old: &mut Old, random: &mut Random) -> Option<()> {
    let front = Front::Short(random.from_to(1, HEADER - 1));
    in_front(old, front)
}

fn answer_not_due(old: &mut Old, _: &mut Random) -> Option<()> {
    in_front(old, Front::NotDue)?;
    let result = DraftAvp::number(RESULT_CODE, 3_009);
    old.items.push(Item::added(result, None));
    Some(())
}

fn header_length(old: &mut Old, random: &mut Random) -> Option<()> {
    let front = Front::Spoilt(random.from_to(1, 3), 1 << random.below(8));
    in_front(old, front)
}

fn header_byte(old: &mut Old, random: &mut Random) -> Option<()> {
    let front = Front::Spoilt(random.below(HEADER), 1 << random.below(8));
    in_front(old, front)
}

// The walk.

/// Makes an AVP fail one of the four tests.
fn spoil(avp: &mut DraftAvp, random: &mut Random) {
    let least = if avp.name.vendor.is_some() { 12 } else { 8 };
    match random.below(4) {
        0 => avp.flags |= 1 << random.below(5),
        1 => avp.length = Some(random.below(least) as u32),
        2 => avp.length = Some(least as u32 - 1),
        _ => avp.length = Some(0xFF_FFFF - random.below(9) as u32),
    }
}

fn failing_avp(old: &mut Old, random: &mut Random) -> Option<()> {
    let item = mark_one(old, Mark::Walk(0), random)?;
    spoil(&mut item.avp, random);
    Some(())
}

fn failing_in_a_group(old: &mut Old, random: &mut Random) -> Option<()> {
    let mut core = plain(random);
    core.name = *random.pick(&[core.name, FAILED_AVP]);
    spoil(&mut core, random);
    let too_few = vec![0; *random.pick(&[1, 4, 7])];
    let bytes = random.pick(&[core.bytes(), core.bytes(), too_few]).clone();
    let levels = random.from_to(1, 4);
    let (avp, start) = old.nested(levels, &bytes, random);
    add(old, avp, Mark::Walk(start), random)
}

fn cut_off(old: &mut Old, random: &mut Random) -> Option<()> {
    if old.items.is_empty() || old.popped > 0 || !old.tail.is_empty() {
        return None;
    }
    old.popped = random.from_to(1, 3);
    Some(())
}

fn bytes_behind(old: &mut Old, random: &mut Random) -> Option<()> {
    if old.items.is_empty() || old.popped > 0 || !old.tail.is_empty() {
        return None;
    }
    old.tail = vec![0; random.from_to(1, 7)];
    Some(())
}

fn fifth_group(old: &mut Old, random: &mut Random) -> Option<()> {
    let inside = *random.pick(&[&b""[..], b"1234"]);
    let core = DraftAvp::new(*random.pick(&GROUPS), inside).bytes();
    let (avp, _) = old.nested(4, &core, random);
    add(old, avp, Mark::Deep, random)
}

// An AVP.

/// Puts a marked AVP anywhere behind the Session-Id, if there are AVPs.
fn add(old: &mut Old, avp: DraftAvp, mark: Mark, random: &mut Random) -> Option<()> {
    let some = !old.items.is_empty();
    old.insert(Item::added(avp, Some(mark)), random);
    some.then_some(())
}

/// One of ours that nothing was done to, at this place or behind.
fn untouched(old: &Old, from: usize, random: &mut Random) -> Option<usize> {
    let free = |at: &usize| old.items[*at].ours && !old.items[*at].locked;
    let places: Vec<usize> = (from..old.items.len()).filter(free).collect();
    (!places.is_empty()).then(|| *random.pick(&places))
}

fn mark_one<'a>(old: &'a mut Old, mark: Mark, random: &mut Random) -> Option<&'a mut Item> {
    let at = untouched(old, 0, random)?;
    let item = &mut old.items[at];
    (item.locked, item.mark) = (true, Some(mark));
    Some(item)
}

/// Groups stay whole, so that the walk passes.
fn other_value(old: &mut Old, random: &mut Random) -> Option<()> {
    let avp = &mut mark_one(old, Mark::Avp, random)?.avp;
    match avp.value.last_mut() {
        _ if GROUPS.contains(&avp.name) => avp.value = DraftAvp::number(base(1), 7).bytes(),
        Some(byte) if random.once_in(2) => *byte ^= 1,
        _ => avp.value.push(0),
    }
    Some(())
}

fn other_flags(old: &mut Old, random: &mut Random) -> Option<()> {
    let item = mark_one(old, Mark::Avp, random)?;
    item.avp.flags ^= *random.pick(&[0x20, 0x40, 0x60]);
    Some(())
}

/// The second of two is the one that is too many, with M or without.
fn twice(old: &mut Old, random: &mut Random) -> Option<()> {
    let at = untouched(old, 0, random)?;
    let mut avp = old.items[at].avp.clone();
    if avp.name == PROXY_INFO {
        return None;
    }
    avp.flags &= *random.pick(&[0x20, 0x60]);
    old.items[at].locked = true;
    let place = random.from_to(at + 1, old.items.len());
    old.items.insert(place, Item::added(avp, Some(Mark::Avp)));
    Some(())
}

/// Of several Proxy-Infos only the last can go without another one being in its place.
fn missing(old: &mut Old, random: &mut Random) -> Option<()> {
    let at = untouched(old, old.own_first(), random)?;
    let is_proxy = |item: &Item| item.avp.name == PROXY_INFO;
    if is_proxy(&old.items[at]) && old.items[at + 1..].iter().any(is_proxy) {
        return None;
    }
    old.items.remove(at);
    old.missing = true;
    Some(())
}

fn with_m(old: &mut Old, random: &mut Random) -> Option<()> {
    let name = *random.pick(&EXTRAS);
    if !old.lacks(name) {
        return None;
    }
    let mut avp = DraftAvp::new(name, b"extra");
    avp.flags = *random.pick(&[0x40, 0x60]);
    add(old, avp, Mark::Avp, random)
}

/// Before the one of ours it is not that, behind it one too many.
fn of_a_name_without_m(old: &mut Old, random: &mut Random) -> Option<()> {
    let at = untouched(old, old.own_first(), random)?;
    let name = old.items[at].avp.name;
    if name == PROXY_INFO {
        return None;
    }
    old.items[at].locked = true;
    let mut avp = DraftAvp::new(name, &DraftAvp::number(base(1), 9).bytes());
    avp.flags = 0;
    add(old, avp, Mark::Avp, random)
}

/// What would be passed over anywhere else.
fn not_first(old: &mut Old, random: &mut Random) -> Option<()> {
    if old.own_first() == 0 {
        return None;
    }
    let mut other = plain(random);
    let (group, _) = old.nested(1, &other.bytes(), random);
    other.flags = 0;
    let avp = random.pick(&[other, group]).clone();
    old.items.insert(0, Item::added(avp, Some(Mark::Avp)));
    Some(())
}

/// Where the Proxy-Infos of ours stand, if none was touched.
fn proxies(old: &Old) -> Vec<usize> {
    let is_proxy = |at: &usize| old.items[*at].ours && old.items[*at].avp.name == PROXY_INFO;
    let all: Vec<usize> = (0..old.items.len()).filter(is_proxy).collect();
    if all.iter().any(|at| old.items[*at].locked) {
        return Vec::new();
    }
    all
}

fn another_order(old: &mut Old, _: &mut Random) -> Option<()> {
    let proxies = proxies(old);
    let differ = |pair: &&[usize]| {
        let [one, other] = [pair[0], pair[1]].map(|at| &old.items[at].avp);
        (one.flags, &one.value) != (other.flags, &other.value)
    };
    let pair = proxies.windows(2).find(differ)?;
    old.items.swap(pair[0], pair[1]);
    old.items[pair[0]].mark = Some(Mark::Avp);
    for at in &proxies {
        old.items[*at].locked = true;
    }
    Some(())
}

fn one_more_proxy(old: &mut Old, random: &mut Random) -> Option<()> {
    let last = *proxies(old).last()?;
    old.items[last].locked = true;
    let mut avp = DraftAvp::new(PROXY_INFO, b"one more");
    avp.flags = *random.pick(&[0, 0x40]);
    let item = Item::added(avp, Some(Mark::Avp));
    old.items.insert(last + 1, item);
    Some(())
}

// The notice and the row.

/// A notice that is due and was not touched.
fn due_notice(old: &mut Old) -> Option<&mut Vec<u8>> {
    let untouched = old.notice.is_none() && !old.call.notice.is_empty();
    untouched.then_some(&mut old.call.notice)
}

fn notice_not_due(old: &mut Old, random: &mut Random) -> Option<()> {
    if old.notice.is_some() || !old.call.notice.is_empty() {
        return None;
    }
    old.call.notice = vec![0; *random.pick(&[1, 256, 384])];
    old.notice = Some(0);
    Some(())
}

fn notice_byte(old: &mut Old, random: &mut Random) -> Option<()> {
    let notice = due_notice(old)?;
    let at = random.below(notice.len());
    notice[at] ^= 1 << random.below(8);
    old.notice = Some(at);
    Some(())
}

fn last_notice_byte(old: &mut Old, _: &mut Random) -> Option<()> {
    let notice = due_notice(old)?;
    let at = notice.len() - 1;
    notice[at] ^= 1;
    old.notice = Some(at);
    Some(())
}

fn notice_length(old: &mut Old, random: &mut Random) -> Option<()> {
    let notice = due_notice(old)?;
    let longer = random.once_in(2);
    let short = random.from_to(1, notice.len() - 1);
    let at = if longer { notice.len() } else { short };
    notice.resize(if longer { at + 1 } else { at }, 0);
    old.notice = Some(at);
    Some(())
}

fn no_notice(old: &mut Old, _: &mut Random) -> Option<()> {
    due_notice(old)?.clear();
    old.notice = Some(0);
    Some(())
}

/// Any byte, or one of the two sums of a block.
fn row_byte(old: &mut Old, random: &mut Random) -> Option<()> {
    if old.row.is_some() {
        return None;
    }
    let length = old.call.after.len();
    let end = 512 * random.from_to(1, length / 512);
    let any = random.below(length);
    let at = *random.pick(&[any, end - 2, end - 1]);
    old.call.after[at] ^= 1 << random.below(8);
    old.row = Some(at);
    Some(())
}
