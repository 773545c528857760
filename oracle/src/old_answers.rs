//! W10: the old server's answer in the making. It is ours in another order, with other padding
//! and with more in it, and what is wrong with it is marked, so that what has to be told follows.

use crate::drafts::DraftAvp;
use crate::judging::{
    EXPERIMENTAL_RESULT, FAILED_AVP, Kind, RESULT_CODE, SUBSCRIPTION_ID, Verdict, avps_of,
};
use crate::judging_calls::JudgeCall;
use crate::random::Random;
use crate::reading_a_message::{Avp, HEADER, Name, PROXY_INFO, SESSION_ID, VENDOR, base, of_3gpp};
use crate::the_table::put;

/// What is wrong with an AVP of the old answer.
#[derive(Clone, Copy, PartialEq, Eq)]
pub enum Mark {
    Avp,
    /// The walk fails so many bytes behind its start.
    Walk(usize),
    Deep,
}

/// An AVP in the making; a locked one is not to be changed any more.
#[derive(Clone)]
pub struct Item {
    pub avp: DraftAvp,
    pub ours: bool,
    pub locked: bool,
    pub mark: Option<Mark>,
}

impl Item {
    /// An AVP of ours.
    fn of(avp: &Avp) -> Item {
        let (code, vendor) = (avp.code, avp.vendor);
        let mut draft = DraftAvp::new(Name { code, vendor }, avp.value);
        draft.flags = avp.whole[4] & !VENDOR;
        Item {
            avp: draft,
            ours: true,
            locked: false,
            mark: None,
        }
    }

    /// One that the old server adds.
    pub fn added(avp: DraftAvp, mark: Option<Mark>) -> Item {
        Item {
            avp,
            ours: false,
            locked: true,
            mark,
        }
    }
}

/// What becomes of the header.
#[derive(Clone, Copy, PartialEq, Eq)]
pub enum Front {
    Right,
    /// This byte is another one.
    Spoilt(usize, u8),
    Empty,
    /// So many bytes and no more.
    Short(usize),
    NotDue,
}

/// The old server's answer in the making.
#[derive(Clone)]
pub struct Old {
    pub call: JudgeCall,
    /// The names of our answer's AVPs.
    pub names: Vec<Name>,
    pub items: Vec<Item>,
    pub front: Front,
    /// Bytes behind the last AVP, or so many taken from its end.
    pub tail: Vec<u8>,
    pub popped: usize,
    pub missing: bool,
    pub notice: Option<usize>,
    pub row: Option<usize>,
}

/// Names that an old server may add, if ours lacks them.
pub const EXTRAS: [Name; 12] = [
    base(25),
    base(278),
    base(281),
    base(282),
    PROXY_INFO,
    RESULT_CODE,
    of_3gpp(268),
    of_3gpp(263),
    of_3gpp(304),
    of_3gpp(279),
    base(99_999),
    base(274),
];

impl Old {
    /// Our own answer.
    pub fn new(call: JudgeCall) -> Old {
        let items: Vec<Item> = avps_of(&call.answer).iter().map(Item::of).collect();
        Old {
            names: items.iter().map(|item| item.avp.name).collect(),
            call,
            items,
            front: Front::Right,
            tail: Vec::new(),
            popped: 0,
            missing: false,
            notice: None,
            row: None,
        }
    }

    /// 1 if the first place is Session-Id's own and it stands there, else 0.
    pub fn own_first(&self) -> usize {
        let first = self.items.first();
        usize::from(first.is_some_and(|item| item.ours && item.avp.name == SESSION_ID))
    }

    pub fn lacks(&self, name: Name) -> bool {
        !self.names.contains(&name)
    }

    /// Any order behind the Session-Id, the Proxy-Infos in their own; any padding.
    pub fn reorder(&mut self, random: &mut Random) {
        let first = self.own_first();
        for item in &mut self.items {
            item.avp.padding = random.byte();
        }
        if random.once_in(3) {
            return;
        }
        let is_proxy = |item: &Item| item.avp.name == PROXY_INFO;
        let proxies: Vec<Item> = self.items.iter().filter(|i| is_proxy(i)).cloned().collect();
        random.shuffle(&mut self.items[first..]);
        let places = self.items.iter_mut().filter(|item| is_proxy(item));
        for (place, proxy) in places.zip(proxies) {
            *place = proxy;
        }
    }

    /// Anywhere but before the Session-Id; an answer of no AVPs stays as it is.
    pub fn insert(&mut self, item: Item, random: &mut Random) {
        if !self.items.is_empty() {
            let place = random.from_to(self.own_first(), self.items.len());
            self.items.insert(place, item);
        }
    }

    /// What passes: AVPs without M of names that ours lacks, and groups in one another.
    pub fn add_to(&mut self, random: &mut Random) {
        while random.once_in(2) {
            let name = *random.pick(&EXTRAS);
            if self.lacks(name) {
                let value = *random.pick(&[&b""[..], b"x", b"1234", b"more than that"]);
                let mut avp = DraftAvp::new(name, value);
                (avp.flags, avp.padding) = (*random.pick(&[0, 0x20]), random.byte());
                self.insert(Item::added(avp, None), random);
            }
        }
        while random.once_in(2) {
            let levels = random.from_to(1, 4);
            let core = plain(random).bytes();
            let (avp, _) = self.nested(levels, &core, random);
            self.insert(Item::added(avp, None), random);
        }
    }

    /// A group with so many groups in one another, itself among them, around this core; and
    /// where the core starts. Whatever it is, it is passed over.
    pub fn nested(&self, levels: usize, core: &[u8], random: &mut Random) -> (DraftAvp, usize) {
        let (mut inside, mut start) = (core.to_vec(), 0);
        for _ in 1..levels {
            let name = *random.pick(&[FAILED_AVP, EXPERIMENTAL_RESULT, SUBSCRIPTION_ID]);
            let mut group = DraftAvp::new(name, &inside);
            group.flags = some_flags(random);
            let beside = [(); 2].map(|()| match random.below(2) {
                0 => Vec::new(),
                _ => plain(random).bytes(),
            });
            start += beside[0].len() + 8;
            inside = [&beside[0][..], &group.bytes(), &beside[1]].concat();
        }
        let mut group = DraftAvp::new(FAILED_AVP, &inside);
        group.flags = some_flags(random);
        let other = *random.pick(&[EXPERIMENTAL_RESULT, SUBSCRIPTION_ID]);
        if random.once_in(3) && self.lacks(other) {
            group.name = other;
            group.flags &= 0x20;
        }
        (group, start + 8)
    }

    /// Writes the answer, and says what is wanted: 31, or the first of what is wrong.
    pub fn finish(mut self) -> JudgeCall {
        let (mut bytes, [mut walk, mut avp]) = self.write_avps();
        let header = self.write_front(&mut bytes);
        if bytes.len() < HEADER {
            (walk, avp) = (None, None);
        }
        let missing = self.missing.then_some(Verdict::Mismatch(Kind::Missing, 0));
        let notice = self.notice.map(|at| Verdict::Mismatch(Kind::Notice, at));
        let row = self.row.map(|at| Verdict::Mismatch(Kind::Row, at));
        let deep = walk.filter(|verdict| *verdict == Verdict::Refused(31));
        let all = [deep, header, walk, avp, missing, notice, row];
        let first = all.into_iter().flatten().next();
        self.call.wanted = first.unwrap_or(Verdict::Accepted);
        self.call.answer = bytes;
        self.call
    }

    /// The header of ours and all AVPs, with what the walk and the places have to tell.
    fn write_avps(&self) -> (Vec<u8>, [Option<Verdict>; 2]) {
        let header = self.call.answer.get(..HEADER);
        let mut bytes = header.unwrap_or(&[1; HEADER]).to_vec();
        let (mut walk, mut avp) = (None, None);
        for (nth, item) in self.items.iter().enumerate() {
            let at = bytes.len();
            // What is cut off fails before anybody looks inside.
            let cut_off = self.popped > 0 && nth + 1 == self.items.len();
            match item.mark {
                _ if cut_off => walk = walk.or(Some(Verdict::Mismatch(Kind::Walk, at))),
                Some(Mark::Deep) => walk = walk.or(Some(Verdict::Refused(31))),
                Some(Mark::Walk(start)) => {
                    walk = walk.or(Some(Verdict::Mismatch(Kind::Walk, at + start)));
                }
                Some(Mark::Avp) => avp = avp.or(Some(Verdict::Mismatch(Kind::Avp, at))),
                None => (),
            }
            bytes.extend(item.avp.bytes());
        }
        if !self.tail.is_empty() {
            walk = walk.or(Some(Verdict::Mismatch(Kind::Walk, bytes.len())));
        }
        bytes.extend(&self.tail);
        bytes.truncate(bytes.len() - self.popped);
        (bytes, [walk, avp])
    }

    /// The header with the true length, and what is wrong with it.
    fn write_front(&self, bytes: &mut Vec<u8>) -> Option<Verdict> {
        let at = match self.front {
            Front::Right if self.call.answer.is_empty() => {
                bytes.clear();
                return None;
            }
            Front::Empty => {
                bytes.clear();
                return Some(Verdict::Mismatch(Kind::Header, 0));
            }
            Front::Short(length) => {
                bytes.truncate(length);
                Some(length)
            }
            Front::NotDue => Some(0),
            Front::Right => None,
            Front::Spoilt(at, _) => Some(at),
        };
        let length = (bytes.len() as u32).to_be_bytes();
        put(bytes, 1, &length[1..]);
        if let Front::Spoilt(at, by) = self.front {
            bytes[at] ^= by;
        }
        at.map(|at| Verdict::Mismatch(Kind::Header, at))
    }
}

/// An AVP that is no group: some have the code of one, or the name of a group elsewhere.
pub fn plain(random: &mut Random) -> DraftAvp {
    let name = *random.pick(&[
        SESSION_ID,
        PROXY_INFO,
        of_3gpp(279),
        of_3gpp(443),
        base(33),
        base(268),
    ]);
    let value = *random.pick(&[&b""[..], b"x", b"ab", b"1234", b"12345678901"]);
    let mut avp = DraftAvp::new(name, value);
    avp.flags = some_flags(random);
    avp.padding = random.byte();
    avp
}

/// Neither V nor what the walk forbids.
fn some_flags(random: &mut Random) -> u8 {
    *random.pick(&[0, 0x20, 0x40, 0x60])
}
