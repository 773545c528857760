//! The table: what a row holds, how it stands in bytes in each of the two forms, when
//! it is sound, and how a subscriber's row is found.
//!
//! A row is judged by reading it into `Row`, writing that `Row` anew, and asking
//! for the same bytes. So every unused byte, every sum and the bits of the places
//! in use are tested at once; what remains are the conditions listed below. One `Row`
//! serves both forms: in form 1 no access says a realm or more than one policy.

use crate::rules::Rules;

pub const BLOCK: usize = 512;
pub const MOST_ROWS: usize = 1_024;
pub const PLACES: u8 = 8;
pub const MOST_ENTRIES: usize = 4;

/// Offsets inside block 0.
pub const NAME: usize = 2;
pub const IN_USE: usize = 17;
pub const ENTRY_COUNT: usize = 18;
pub const OPERATOR: usize = 19;
pub const LINE: usize = 20;
pub const ENTRIES: usize = 32;
pub const ENTRY: usize = 104;

/// Offsets inside the first block of a place.
pub const SESSION: usize = 8;
pub const HOST: usize = 136;
pub const POLICY: usize = 264;

/// Offsets inside its second block, which form 2 alone has.
pub const REALM: usize = 8;
pub const SECOND_POLICY: usize = 136;
pub const THIRD_POLICY: usize = 264;

/// Both sums stand at the end of each block, the second sum first.
pub const SUMS: usize = 510;

/// No operator has a higher number (W8).
pub const LAST_OPERATOR: u8 = 15;

/// How a table stands in bytes (W5): in form 2 each place has a second block.
#[derive(Clone, Copy, Debug, PartialEq, Eq, PartialOrd, Ord)]
pub enum Form {
    One,
    Two,
}

pub const FORMS: [Form; 2] = [Form::One, Form::Two];

impl Form {
    /// The form that goes by this number; no other number has one.
    pub fn numbered(number: u32) -> Option<Form> {
        FORMS.into_iter().find(|form| form.number() == number)
    }

    pub const fn number(self) -> u32 {
        match self {
            Form::One => 1,
            Form::Two => 2,
        }
    }

    pub const fn other(self) -> Form {
        match self {
            Form::One => Form::Two,
            Form::Two => Form::One,
        }
    }

    /// How many bytes a place takes: its blocks are as many as the form's number.
    pub const fn place(self) -> usize {
        BLOCK * self.number() as usize
    }

    /// How many bytes a row takes: block 0, then the places one after another.
    pub const fn row(self) -> usize {
        BLOCK + self.place() * PLACES as usize
    }

    /// Where a place's first block starts in its row.
    pub fn start(self, place: u8) -> usize {
        BLOCK + self.place() * (usize::from(place) - 1)
    }

    /// How many policies an access can hold.
    pub const fn policies(self) -> usize {
        match self {
            Form::One => 1,
            Form::Two => MOST_POLICIES,
        }
    }

    /// How many bytes the notice of a cut takes: 128 for each text, the realm of the
    /// gateway in form 2 alone (W6).
    pub const fn notice(self) -> usize {
        match self {
            Form::One => 256,
            Form::Two => 384,
        }
    }
}

pub const MOST_POLICIES: usize = 3;

pub const BARRED: u8 = 1;
pub const MAY_ROAM: u8 = 2;

/// A W-APN the subscriber may use.
#[derive(Clone, Debug, PartialEq, Eq)]
pub struct Entry {
    pub label: Vec<u8>,
    pub flags: u8,
    pub limit: u8,
}

/// What an access holds for its first, second and third policy.
pub type Policies = [Option<Vec<u8>>; MOST_POLICIES];

/// An open tunnel. `entry` counts from 1. The realm is of no bytes where none is kept.
#[derive(Clone, Debug, PartialEq, Eq)]
pub struct Access {
    pub entry: u8,
    pub session: Vec<u8>,
    pub host: Vec<u8>,
    pub realm: Vec<u8>,
    pub policies: Policies,
}

/// One subscriber of one operator. `places[k]` is place k + 1; `line` holds place
/// numbers.
#[derive(Clone, Debug, PartialEq, Eq, Default)]
pub struct Row {
    pub operator: u8,
    pub name: Vec<u8>,
    pub entries: Vec<Entry>,
    pub line: Vec<u8>,
    pub places: [Option<Access>; PLACES as usize],
}

impl Row {
    pub fn access(&self, place: u8) -> Option<&Access> {
        let index = usize::from(place).checked_sub(1)?;
        self.places.get(index)?.as_ref()
    }

    /// The place of the access with this Session-Id.
    pub fn place_of(&self, session: &[u8]) -> Option<u8> {
        (1..=PLACES).find(|&p| self.access(p).is_some_and(|a| a.session == session))
    }

    /// The number, counted from 1, of the first entry with this label.
    pub fn entry_of(&self, label: &[u8]) -> Option<u8> {
        (1..=PLACES)
            .zip(&self.entries)
            .find(|(_, entry)| same_label(&entry.label, label))
            .map(|(number, _)| number)
    }

    pub fn entry(&self, number: u8) -> Option<&Entry> {
        self.entries.get(usize::from(number).checked_sub(1)?)
    }

    /// How many accesses are open on one entry.
    pub fn open_on(&self, entry: u8) -> usize {
        let on_it = |access: &&Access| access.entry == entry;
        self.places.iter().flatten().filter(on_it).count()
    }

    /// Empties a place; the order line closes up.
    pub fn free(&mut self, place: u8) -> Option<Access> {
        self.line.retain(|&p| p != place);
        self.places
            .get_mut(usize::from(place).checked_sub(1)?)?
            .take()
    }
}

/// Two labels are the same if their bytes are, an ASCII letter in either case (W3).
/// Session-Ids, hosts and names are compared as they stand.
pub fn same_label(one: &[u8], other: &[u8]) -> bool {
    one.eq_ignore_ascii_case(other)
}

/// Fletcher-16 over a block's first 510 bytes, in the order in which it is stored.
pub fn sums(bytes: &[u8]) -> [u8; 2] {
    let (mut first, mut second) = (0u32, 0u32);
    for &byte in bytes {
        first = (first + u32::from(byte)) % 255;
        second = (second + first) % 255;
    }
    [second as u8, first as u8]
}

/// Reads a row. `None` where a count or a length is beyond the field it speaks of.
pub fn decode(form: Form, bytes: &[u8]) -> Option<Row> {
    if bytes.len() != form.row() {
        return None;
    }
    let (head, rest) = bytes.split_at(BLOCK);
    let count = usize::from(head[ENTRY_COUNT]);
    if count > MOST_ENTRIES {
        return None;
    }
    let mut row = Row {
        operator: head[OPERATOR],
        name: text(head, NAME, head[1], 15)?,
        ..Row::default()
    };
    for index in 0..count {
        row.entries
            .push(decode_entry(&head[ENTRIES + ENTRY * index..][..ENTRY])?);
    }
    let line = &head[LINE..LINE + usize::from(PLACES)];
    row.line = line
        .iter()
        .copied()
        .take_while(|&place| place != 0)
        .collect();
    for (place, blocks) in row.places.iter_mut().zip(rest.chunks(form.place())) {
        if blocks[0] == 2 {
            *place = Some(decode_access(blocks)?);
        }
    }
    Some(row)
}

fn decode_entry(bytes: &[u8]) -> Option<Entry> {
    Some(Entry {
        label: text(bytes, 1, bytes[0], 100)?,
        flags: bytes[101],
        limit: bytes[102],
    })
}

/// An access from the one or two blocks of its place.
fn decode_access(blocks: &[u8]) -> Option<Access> {
    let (first, second) = blocks.split_at(BLOCK);
    let policy = text(first, POLICY, first[5], 128)?;
    let mut access = Access {
        entry: first[1],
        session: text(first, SESSION, first[2], 128)?,
        host: text(first, HOST, first[3], 128)?,
        realm: Vec::new(),
        policies: [(first[4] != 0).then_some(policy), None, None],
    };
    if !second.is_empty() {
        access.realm = text(second, REALM, second[1], 128)?;
        let policy = text(second, SECOND_POLICY, second[3], 128)?;
        access.policies[1] = (second[3] != 0).then_some(policy);
        let policy = text(second, THIRD_POLICY, second[4], 128)?;
        access.policies[2] = (second[4] != 0).then_some(policy);
    }
    Some(access)
}

fn text(bytes: &[u8], start: usize, length: u8, most: u8) -> Option<Vec<u8>> {
    let end = start + usize::from(length);
    (length <= most).then(|| bytes[start..end].to_vec())
}

/// Writes a row: all its bytes, zero where nothing is said, with the sums of every
/// block. A free place has sums of zero.
pub fn encode(rules: &Rules, form: Form, row: &Row) -> Vec<u8> {
    let mut bytes = vec![0; form.row()];
    let (head, rest) = bytes.split_at_mut(BLOCK);
    encode_head(head, row);
    for (place, blocks) in row.places.iter().zip(rest.chunks_mut(form.place())) {
        if let Some(access) = place {
            let (first, second) = blocks.split_at_mut(BLOCK);
            encode_first(first, access);
            encode_second(second, access);
        }
    }
    for block in bytes.chunks_mut(BLOCK) {
        let sums = (rules.sums)(&block[..SUMS]);
        put(block, SUMS, &sums);
    }
    bytes
}

fn encode_head(head: &mut [u8], row: &Row) {
    put(head, 0, &[1, row.name.len() as u8]);
    put(head, NAME, &row.name);
    for (bit, place) in row.places.iter().enumerate() {
        head[IN_USE] |= u8::from(place.is_some()) << bit;
    }
    head[ENTRY_COUNT] = row.entries.len() as u8;
    head[OPERATOR] = row.operator;
    put(head, LINE, &row.line);
    for (index, entry) in row.entries.iter().enumerate() {
        let start = ENTRIES + ENTRY * index;
        put(head, start, &[entry.label.len() as u8]);
        put(head, start + 1, &entry.label);
        put(head, start + 101, &[entry.flags, entry.limit]);
    }
}

fn encode_first(block: &mut [u8], access: &Access) {
    let held = &access.policies[0];
    let policy = held.as_deref().unwrap_or_default();
    let lengths = [access.session.len() as u8, access.host.len() as u8];
    put(block, 0, &[2, access.entry, lengths[0], lengths[1]]);
    put(block, 4, &[u8::from(held.is_some()), policy.len() as u8]);
    put(block, SESSION, &access.session);
    put(block, HOST, &access.host);
    put(block, POLICY, policy);
}

/// In form 1 there is no second block, and nothing is written.
fn encode_second(block: &mut [u8], access: &Access) {
    let [_, second, third] = &access.policies;
    let second = second.as_deref().unwrap_or_default();
    let third = third.as_deref().unwrap_or_default();
    let lengths = [access.realm.len(), 0, second.len(), third.len()];
    put(block, 0, &[3]);
    put(block, 1, &lengths.map(|length| length as u8));
    put(block, REALM, &access.realm);
    put(block, SECOND_POLICY, second);
    put(block, THIRD_POLICY, third);
}

/// Writes `from` at `start`, as far as there is room.
pub fn put(to: &mut [u8], start: usize, from: &[u8]) {
    for (slot, byte) in to.iter_mut().skip(start).zip(from) {
        *slot = *byte;
    }
}

/// What a row that stands in the right form must keep besides.
pub const CONDITIONS: &[fn(&Row) -> bool] = &[
    operator_in_range,
    name_is_digits,
    labels_have_length,
    flags_in_range,
    limits_in_range,
    labels_differ,
    limits_fit,
    texts_have_length,
    policies_not_empty,
    no_second_without_a_first,
    no_third_without_a_second,
    line_lists_places,
    sessions_differ,
    entries_exist,
    within_limits,
];

fn operator_in_range(row: &Row) -> bool {
    row.operator <= LAST_OPERATOR
}

fn name_is_digits(row: &Row) -> bool {
    !row.name.is_empty() && row.name.iter().all(u8::is_ascii_digit)
}

fn labels_have_length(row: &Row) -> bool {
    row.entries.iter().all(|e| !e.label.is_empty())
}

fn flags_in_range(row: &Row) -> bool {
    row.entries.iter().all(|e| e.flags <= BARRED | MAY_ROAM)
}

fn limits_in_range(row: &Row) -> bool {
    row.entries.iter().all(|e| (1..=8).contains(&e.limit))
}

fn labels_differ(row: &Row) -> bool {
    let labels = row.entries.iter().map(|e| &e.label).enumerate();
    let held_before = |(n, label): (usize, &Vec<u8>)| {
        let mut before = row.entries.iter().take(n);
        before.any(|e| same_label(&e.label, label))
    };
    !labels.into_iter().any(held_before)
}

fn limits_fit(row: &Row) -> bool {
    limit_sum(row) <= 8
}

pub fn limit_sum(row: &Row) -> u32 {
    row.entries.iter().map(|e| u32::from(e.limit)).sum()
}

fn texts_have_length(row: &Row) -> bool {
    let mut accesses = row.places.iter().flatten();
    accesses.all(|a| !a.session.is_empty() && !a.host.is_empty())
}

fn policies_not_empty(row: &Row) -> bool {
    let accesses = row.places.iter().flatten();
    let mut policies = accesses.flat_map(|a| a.policies.iter().flatten());
    policies.all(|policy| !policy.is_empty())
}

fn no_second_without_a_first(row: &Row) -> bool {
    no_gap(row, 1)
}

fn no_third_without_a_second(row: &Row) -> bool {
    no_gap(row, 2)
}

/// Where the policy with this index is held, the one before it is.
fn no_gap(row: &Row, index: usize) -> bool {
    let mut accesses = row.places.iter().flatten();
    accesses.all(|a| a.policies[index].is_none() || a.policies[index - 1].is_some())
}

fn line_lists_places(row: &Row) -> bool {
    let mut listed = row.line.clone();
    listed.sort_unstable();
    let in_use = (1..=PLACES).filter(|&p| row.access(p).is_some());
    in_use.eq(listed)
}

fn sessions_differ(row: &Row) -> bool {
    all_differ(row.places.iter().flatten().map(|a| &a.session))
}

fn entries_exist(row: &Row) -> bool {
    let mut accesses = row.places.iter().flatten();
    accesses.all(|a| row.entry(a.entry).is_some())
}

fn within_limits(row: &Row) -> bool {
    let fits = |(number, entry): (u8, &Entry)| row.open_on(number) <= usize::from(entry.limit);
    (1..=PLACES).zip(&row.entries).all(fits)
}

fn all_differ<'a>(texts: impl Iterator<Item = &'a Vec<u8>>) -> bool {
    let mut seen: Vec<&Vec<u8>> = texts.collect();
    let all = seen.len();
    seen.sort_unstable();
    seen.dedup();
    seen.len() == all
}

/// The row, if its bytes are sound.
pub fn sound(rules: &Rules, form: Form, bytes: &[u8]) -> Option<Row> {
    let row = decode(form, bytes)?;
    let kept = rules.conditions.iter().all(|condition| condition(&row));
    let written = encode(rules, form, &row);
    (kept && (rules.same_row)(form, bytes, &written)).then_some(row)
}

/// The rows of a table, one after another.
pub fn rows(form: Form, table: &[u8]) -> std::slice::ChunksExact<'_, u8> {
    table.chunks_exact(form.row())
}

/// The index of the first row of this operator that bears this name, sound or not.
pub fn find(form: Form, table: &[u8], operator: u32, name: &[u8]) -> Option<usize> {
    let matches = |row: &[u8]| is_of(row, operator) && bears(row, name);
    rows(form, table).position(matches)
}

pub fn is_of(row: &[u8], operator: u32) -> bool {
    u32::from(row[OPERATOR]) == operator
}

pub fn bears(row: &[u8], name: &[u8]) -> bool {
    (1..=15).contains(&name.len())
        && row[0] == 1
        && usize::from(row[1]) == name.len()
        && row[NAME..].starts_with(name)
}

/// The bytes of the row with this index.
pub fn row_at(form: Form, table: &[u8], index: usize) -> &[u8] {
    rows(form, table).nth(index).unwrap_or_default()
}

/// A row may be taken only if all its bytes are zero.
pub fn row_is_free(row: &[u8]) -> bool {
    row.iter().all(|&byte| byte == 0)
}

/// Puts a row back in its place in the table.
pub fn store(rules: &Rules, form: Form, table: &mut [u8], index: usize, row: &Row) {
    put(table, index * form.row(), &encode(rules, form, row));
}
