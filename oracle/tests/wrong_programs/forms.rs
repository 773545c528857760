//! Wrong programs that take the two forms of a table, or a move between them (W5), in
//! another way.

use oracle::Code;
use oracle::deciding::*;
use oracle::moving::*;
use oracle::plain;
use oracle::reading_a_message::*;
use oracle::rules::Rules;
use oracle::set_up::{shares_fit, table_fits};
use oracle::the_table::*;

use crate::{RIGHT, Wrong};

pub fn programs() -> Vec<Wrong> {
    [
        said(),
        second_blocks(),
        kept(),
        policies(),
        orders_of_moves(),
        rows_of_moves(),
        written_by_moves(),
    ]
    .concat()
}

/// Which form is lent, and what goes by its length.
fn said() -> Vec<Wrong> {
    wrong! {
        "takes form 0 for form 1": form_numbered = |n| Form::numbered(n.max(1));
        "takes form 3 for form 2": form_numbered = |n| Form::numbered(if n == 3 { 2 } else { n });
        "takes every other form for form 1": form_numbered = |n| Form::numbered(n).or(Some(Form::One));
        "takes a form by its low byte": form_numbered = |n| Form::numbered(n & 255);
        "takes a form by its low bits": form_numbered = |n| Form::numbered(n & 0x7FFF_FFFF);
        "knows form 1 alone": form_numbered = |n| Form::numbered(n).filter(|f| *f == Form::One);
        "tells the form by the length": form_numbered = |n| Form::numbered(n),
            table_fits = |_, t| FORMS.iter().any(|form| table_fits(*form, t));
        "limits form 2 by the bytes of form 1": table_fits = |form, t| {
            table_fits(form, t) && t.len() <= MOST_ROWS * Form::One.row()
        };
        "limits form 1 by the bytes of form 2": table_fits = |form, t| {
            t.len().is_multiple_of(form.row()) && !t.is_empty() && t.len() <= MOST_ROWS * Form::Two.row()
        };
        "counts rows of form 1 for the shares": shares_fit = |_, table, shares| {
            shares_fit(Form::One, table, shares)
        };
        "looks for rows of form 1 in form 2": find = |_, form, table, operator, name| {
            let index = find(Form::One, table, operator, name)?;
            Some(index).filter(|i| (i + 1) * form.row() <= table.len())
        };
    }
}

/// Whether a byte of a row stands in the second block of a place, and where in it.
fn in_second(form: Form, index: usize) -> Option<usize> {
    let of_place = index.checked_sub(BLOCK)? % form.place();
    of_place.checked_sub(BLOCK)
}

/// The same row but for some bytes of second blocks. The sums that are held have to fit
/// the bytes that are held.
fn same_but(form: Form, held: &[u8], written: &[u8], left_out: fn(usize) -> bool) -> bool {
    let looked_at = |index: usize| match in_second(form, index) {
        Some(at) => at < SUMS && !left_out(at),
        None => true,
    };
    let mut pairs = held.iter().zip(written).enumerate();
    let summed = |block: &[u8]| sums(&block[..SUMS]) == block[SUMS..];
    pairs.all(|(index, (a, b))| a == b || !looked_at(index)) && held.chunks(BLOCK).all(summed)
}

/// The same row but for the sums of second blocks that this leaves out.
fn same_but_sums(form: Form, held: &[u8], written: &[u8], left_out: usize) -> bool {
    let looked_at = |index| in_second(form, index) != Some(left_out);
    let mut pairs = held.iter().zip(written).enumerate();
    pairs.all(|(index, (a, b))| a == b || !looked_at(index))
}

/// The conditions without those that forbid a policy whose predecessor is not held.
fn with_gap(held: [bool; 3]) -> &'static [fn(&Row) -> bool] {
    let policy = |held: bool| held.then(|| b"policy".to_vec());
    let access = Access {
        entry: 1,
        session: b"s".to_vec(),
        host: b"h".to_vec(),
        realm: Vec::new(),
        policies: held.map(policy),
    };
    let entry = Entry {
        label: b"board".to_vec(),
        flags: 0,
        limit: 1,
    };
    let mut row = Row {
        name: b"1".to_vec(),
        entries: vec![entry],
        line: vec![1],
        ..Row::default()
    };
    row.places[0] = Some(access);
    let kept = CONDITIONS.iter().copied().filter(|holds| holds(&row));
    kept.collect::<Vec<_>>().leak()
}

fn realms_have_length(row: &Row) -> bool {
    row.places.iter().flatten().all(|a| !a.realm.is_empty())
}

fn second_blocks() -> Vec<Wrong> {
    wrong! {
        "does not look at second blocks": same_row = |form, held, written| {
            let looked_at = |index| in_second(form, index).is_none();
            let mut pairs = held.iter().zip(written).enumerate();
            pairs.all(|(index, (a, b))| a == b || !looked_at(index))
        };
        "does not look at second blocks of free places": same_row = |form, held, written| {
            let free = |index: usize| written[index / BLOCK * BLOCK] == 0;
            let mut pairs = held.iter().zip(written).enumerate();
            pairs.all(|(i, (a, b))| a == b || in_second(form, i).is_some() && free(i))
        };
        "takes any byte 0 of a second block": same_row = |f, h, w| same_but(f, h, w, |at| at == 0);
        "does not look at byte 2 of a second block": same_row = |f, h, w| same_but(f, h, w, |at| at == 2);
        "does not look at bytes 5 to 7": same_row = |f, h, w| same_but(f, h, w, |at| (5..8).contains(&at));
        "does not look behind the realm": same_row = |f, h, w| {
            same_but(f, h, w, |at| (REALM..SECOND_POLICY).contains(&at))
        };
        "does not look behind the second policy": same_row = |f, h, w| {
            same_but(f, h, w, |at| (SECOND_POLICY..THIRD_POLICY).contains(&at))
        };
        "does not look behind the third policy": same_row = |f, h, w| {
            same_but(f, h, w, |at| (THIRD_POLICY..392).contains(&at))
        };
        "does not look at the end of a second block": same_row = |f, h, w| same_but(f, h, w, |at| at >= 392);
        "does not look at a second block's second sum": same_row = |f, h, w| same_but_sums(f, h, w, SUMS);
        "does not look at a second block's first sum": same_row = |f, h, w| same_but_sums(f, h, w, SUMS + 1);
        "takes a third policy without a second": conditions = with_gap([true, false, true]);
        "takes a second policy without a first": conditions = with_gap([false, true, false]);
        "wants a realm in every access": conditions = {
            [CONDITIONS, &[realms_have_length]].concat().leak()
        };
        "leaves the second block of a freed place": store = second_block_left;
        "leaves the end of a longer second policy": store = second_tail_left;
        "leaves the sums of a second block": store = second_sums_left;
    }
}

/// The places that were in use and are free now.
fn freed(form: Form, old: &[u8], row: &Row) -> Vec<usize> {
    let was = |place: &u8| old[IN_USE] >> (place - 1) & 1 == 1;
    let places = (1..=PLACES).filter(|p| was(p) && row.access(*p).is_none());
    places.map(|place| form.start(place) + BLOCK).collect()
}

fn second_block_left(rules: &Rules, form: Form, table: &mut [u8], index: usize, row: &Row) {
    let old = row_at(form, table, index).to_vec();
    store(rules, form, table, index, row);
    if form == Form::Two {
        for start in freed(form, &old, row) {
            let left = &old[start..][..BLOCK];
            put(table, index * form.row() + start, left);
        }
    }
}

fn second_tail_left(rules: &Rules, form: Form, table: &mut [u8], index: usize, row: &Row) {
    let old = decode(form, row_at(form, table, index)).unwrap_or_default();
    let mut row = row.clone();
    for (new, old) in row.places.iter_mut().zip(&old.places) {
        if let (Some(new), Some(old)) = (new, old)
            && let (Some(new), Some(old)) = (&mut new.policies[1], &old.policies[1])
            && new.len() < old.len()
        {
            new.extend(&old[new.len()..]);
        }
    }
    store(rules, form, table, index, &row);
}

fn second_sums_left(rules: &Rules, form: Form, table: &mut [u8], index: usize, row: &Row) {
    let old = row_at(form, table, index).to_vec();
    store(rules, form, table, index, row);
    for at in (0..form.row()).filter(|&at| in_second(form, at).is_some_and(|at| at >= SUMS)) {
        table[index * form.row() + at] = old[at];
    }
}

/// Changes what a type 1 request leaves, from what was held before.
fn then_policies(
    row: &mut Row,
    request: &Request,
    wag: bool,
    change: fn(&mut Access, &Access),
) -> Result<(), Code> {
    let old = row.clone();
    take_policy(row, request, wag)?;
    let place = row.place_of(request.text(SESSION_ID)).unwrap_or(1);
    let new = &mut row.places[usize::from(place) - 1];
    if let (Some(new), Some(old)) = (new, old.access(place)) {
        change(new, old);
    }
    Ok(())
}

/// What an opening and a policy leave in the row.
fn kept() -> Vec<Wrong> {
    wrong! {
        "keeps Destination-Realm": realm_to_keep = |form, q| match form {
            Form::One => Vec::new(),
            Form::Two => q.text(DESTINATION_REALM).to_vec(),
        };
        "keeps Origin-Host for the realm": realm_to_keep = |form, q| match form {
            Form::One => Vec::new(),
            Form::Two => q.text(ORIGIN_HOST).to_vec(),
        };
        "keeps no realm": realm_to_keep = |_, _| Vec::new();
        "keeps 127 bytes of a realm": realm_to_keep = |form, q| {
            let mut realm = realm_to_keep(form, q);
            realm.truncate(127);
            realm
        };
        "keeps a second policy that was held": take_policy = |row, q, wag| then_policies(row, q, wag, |new, old| {
            if new.policies[1].is_none() { new.policies[1] = old.policies[1].clone() }
        });
        "keeps a third policy that was held": take_policy = |row, q, wag| then_policies(row, q, wag, |new, old| {
            if new.policies[1].is_some() && new.policies[2].is_none() {
                new.policies[2] = old.policies[2].clone();
            }
        });
        "adds policies to those held": take_policy = |row, q, wag| then_policies(row, q, wag, |new, old| {
            let mut all = old.policies.iter().chain(&new.policies.clone()).flatten().cloned().collect::<Vec<_>>();
            all.reverse();
            new.policies = new.policies.each_ref().map(|_| all.pop());
        });
        "takes policies from the last": take_policy = |row, q, wag| then_policies(row, q, wag, |new, _| {
            let mut all: Vec<_> = new.policies.iter().flatten().cloned().collect();
            new.policies = new.policies.each_ref().map(|_| all.pop());
        });
        "keeps the first policy only": take_policy = |row, q, wag| then_policies(row, q, wag, |new, _| {
            new.policies[1..].fill(None);
        });
        "keeps two policies": take_policy = |row, q, wag| then_policies(row, q, wag, |new, _| {
            new.policies[2] = None;
        });
        "forgets the realm with a policy": take_policy = |row, q, wag| then_policies(row, q, wag, |new, _| {
            new.realm.clear();
        });
        "takes the realm anew with a policy": take_policy = |row, q, wag| {
            take_policy(row, q, wag)?;
            let place = row.place_of(q.text(SESSION_ID)).unwrap_or(1);
            let realm = q.text(ORIGIN_REALM).to_vec();
            row.places[usize::from(place) - 1].iter_mut().for_each(|a| a.realm = realm.clone());
            Ok(())
        };
    }
}

/// The list with so many policies allowed in form 2 and in form 1.
fn allowing(form: Form, command: u32, one: usize, two: usize) -> Vec<Field> {
    let mut fields = list(form, command);
    for field in fields.iter_mut().filter(|f| f.name == ROUTING_POLICY) {
        field.most = if form == Form::One { one } else { two };
    }
    fields
}

/// Reads the lists by another rule where the request is of this type.
fn for_type<'m>(
    (rules, other): (&Rules, Rules),
    which: u32,
    (form, command): (Form, u32),
    avps: &[Avp<'m>],
) -> Result<Request<'m>, Code> {
    let of_type = |a: &Avp| is(a, SESSION_REQUEST_TYPE) && number(a.value) == which;
    let rules = if avps.iter().any(of_type) {
        &other
    } else {
        rules
    };
    read_list(rules, form, command, avps)
}

const ANY_NUMBER: Rules = Rules {
    list: |form, c| allowing(form, c, 1, 99),
    ..RIGHT
};

fn policies() -> Vec<Wrong> {
    wrong! {
        "takes a fourth policy": list = |form, c| allowing(form, c, 1, 4);
        "takes any number of policies": list = |form, c| allowing(form, c, 1, 99);
        "takes two policies only": list = |form, c| allowing(form, c, 1, 2);
        "takes one policy only": list = |form, c| allowing(form, c, 1, 1);
        "takes three policies in form 1": list = |form, c| allowing(form, c, 3, 3);
        "takes a second policy in form 1": list = |form, c| allowing(form, c, 2, 3);
        "takes a fourth policy in type 0": read_list = |r, form, command, avps| {
            for_type((r, ANY_NUMBER), 0, (form, command), avps)
        };
        "takes a fourth policy in type 1": read_list = |r, form, command, avps| {
            for_type((r, ANY_NUMBER), 1, (form, command), avps)
        };
        "takes one policy in type 0 of form 2": read_list = |r, form, command, avps| {
            let one = Rules { list: |form, c| allowing(form, c, 1, 1), ..*r };
            for_type((r, one), 0, (form, command), avps)
        };
        "tests the first policy's length alone": read_field = |r, avps, f| {
            let copies = copies(r, avps, f);
            if copies.len() > f.most { return Err(plain(5009)) }
            copies.first().map_or(Ok(()), |value| length_and_value(value, f.form))?;
            Ok(copies.into_iter().filter(|v| v.len() <= 128).collect())
        };
        "tests the last policy's length alone": read_field = |r, avps, f| {
            let copies = copies(r, avps, f);
            if copies.len() > f.most { return Err(plain(5009)) }
            copies.last().map_or(Ok(()), |value| length_and_value(value, f.form))?;
            Ok(copies.into_iter().filter(|v| v.len() <= 128).collect())
        };
        "tests policies one by one": read_field = |r, avps, f| {
            for value in copies(r, avps, f).iter().take(f.most) {
                length_and_value(value, f.form)?;
            }
            read_field(r, avps, f)
        };
        "drops policies of no bytes": read_field = |r, avps, f| {
            let empty = |a: &Avp| f.most > 1 && is(a, f.name) && a.value.is_empty();
            let others: Vec<_> = avps.iter().copied().filter(|a| !empty(a)).collect();
            read_field(r, &others, f)
        };
    }
}

/// Moves with the tests of these numbers, in this order.
fn move_in(rules: &Rules, source: &[u8], target: &mut [u8], said: u32, order: [u8; 4]) -> u8 {
    let Some(to) = Form::numbered(said) else {
        return 1;
    };
    let from = to.other();
    let holds = |number: &u8| match number {
        1 => !table_fits(from, source),
        19 => target.len() != length_in(from, to, source),
        20 => !rows(from, source).all(|row| row_may_move(rules, from, row)),
        _ => to == Form::One && !rows(from, source).all(|row| fits_form_1(rules, row)),
    };
    match order.into_iter().find(holds) {
        Some(number) => number,
        None => move_table(rules, source, target, said),
    }
}

fn orders_of_moves() -> Vec<Wrong> {
    wrong! {
        "tests 19 before 1": move_table = |r, s, t, f| move_in(r, s, t, f, [19, 1, 20, 21]);
        "tests 20 before 19": move_table = |r, s, t, f| move_in(r, s, t, f, [1, 20, 19, 21]);
        "tests 21 before 19": move_table = |r, s, t, f| move_in(r, s, t, f, [1, 21, 19, 20]);
        "tests 21 before 20": move_table = |r, s, t, f| move_in(r, s, t, f, [1, 19, 21, 20]);
        "tests 20 and 21 row by row": move_table = |r, s, t, f| {
            let row_by_row = |row: &[u8]| match row_may_move(r, Form::Two, row) {
                false => Some(20),
                true => (!fits_form_1(r, row)).then_some(21),
            };
            match move_table(r, s, t, f) {
                20 if f == 1 => rows(Form::Two, s).find_map(row_by_row).unwrap_or(20),
                number => number,
            }
        };
        "moves a table in the form that is said": move_table = |r, s, t, f| {
            move_table(r, s, t, Form::numbered(f).map_or(f, |form| form.other().number()))
        };
        "moves into a longer target": move_table = |r, s, t, f| {
            let right = forms(r, s, f).map_or(0, |(from, to)| length_in(from, to, s));
            let length = if t.len() > right { right } else { t.len() };
            move_table(r, s, &mut t[..length], f)
        };
        "moves as many rows as there is room for": move_table = |r, s, t, f| match forms(r, s, f) {
            Some((from, to)) if t.len() < length_in(from, to, s) && t.len() / to.row() > 0 => {
                let count = t.len() / to.row();
                move_table(r, &s[..count * from.row()], &mut t[..count * to.row()], f)
            }
            _ => move_table(r, s, t, f),
        };
        "gives 20 for what does not fit form 1": move_table = |r, s, t, f| match move_table(r, s, t, f) {
            21 => 20,
            number => number,
        };
        "gives 1 for a wrong target": move_table = |r, s, t, f| match move_table(r, s, t, f) {
            19 => 1,
            number => number,
        };
    }
}

/// Moves where a test looks at some rows alone; the others are taken for right.
fn looking_at(
    (rules, which): (&Rules, fn(usize) -> bool),
    source: &[u8],
    target: &mut [u8],
    said: u32,
    number: u8,
) -> u8 {
    let given = move_table(rules, source, target, said);
    let Some((from, to)) = forms(rules, source, said).filter(|_| given == number) else {
        return given;
    };
    let fails = |row: &[u8]| match number {
        20 => !row_may_move(rules, from, row),
        _ => !fits_form_1(rules, row),
    };
    if (0..)
        .zip(rows(from, source))
        .any(|(index, row)| which(index) && fails(row))
    {
        return number;
    }
    write(rules, (from, to), source, target);
    0
}

fn rows_of_moves() -> Vec<Wrong> {
    wrong! {
        "21 for the first row alone": move_table = |r, s, t, f| looking_at((r, |i| i == 0), s, t, f, 21);
        "21 not for the first row": move_table = |r, s, t, f| looking_at((r, |i| i > 0), s, t, f, 21);
        "20 for the first row alone": move_table = |r, s, t, f| looking_at((r, |i| i == 0), s, t, f, 20);
        "20 not for the first row": move_table = |r, s, t, f| looking_at((r, |i| i > 0), s, t, f, 20);
        "20 for rows that begin like one alone": row_may_move = |r, form, row| {
            row[0] != 1 || row_may_move(r, form, row)
        };
        "20 for rows that a lookup finds alone": row_may_move = |r, form, row| {
            row[0] != 1 || row[OPERATOR] > LAST_OPERATOR || row_may_move(r, form, row)
        };
        "20 for a wholly zero row": row_may_move = |r, form, row| sound(r, form, row).is_some();
        "20 for no row": row_may_move = |_, _, _| true;
        "20 for a name that stands twice": move_table = |r, s, t, f| {
            let Some((from, _)) = forms(r, s, f) else { return move_table(r, s, t, f) };
            let mut names: Vec<&[u8]> = rows(from, s).filter(|row| row[0] == 1).map(|row| &row[..NAME + 15]).collect();
            let all = names.len();
            names.sort_unstable();
            names.dedup();
            if names.len() < all && t.len() == length_in(from, from.other(), s) { return 20 }
            move_table(r, s, t, f)
        };
        "21 for a realm alone": says_form_1 = |row| row.places.iter().flatten().all(|a| a.realm.is_empty());
        "21 for a second policy alone": says_form_1 = |row| {
            row.places.iter().flatten().all(|a| a.policies[1].is_none())
        };
        "21 for a third policy alone": says_form_1 = |row| {
            row.places.iter().flatten().all(|a| a.realm.is_empty() && a.policies[2].is_none())
        };
        "21 for any policy": says_form_1 = |row| {
            says_form_1(row) && row.places.iter().flatten().all(|a| a.policies[0].is_none())
        };
        "21 for no row": says_form_1 = |_| true;
    }
}

/// Writes rows up to the first that can not be moved, whatever is given in the end.
fn eagerly(rules: &Rules, source: &[u8], target: &mut [u8], said: u32, number: u8) -> u8 {
    let given = move_table(rules, source, target, said);
    if let Some((from, to)) = forms(rules, source, said).filter(|_| given == number) {
        let stays = |row: &[u8]| !row_may_move(rules, from, row);
        let end = rows(from, source)
            .position(stays)
            .unwrap_or(source.len() / from.row());
        let (source, target) = (&source[..end * from.row()], &mut target[..end * to.row()]);
        write(rules, (from, to), source, target);
    }
    given
}

/// Moves rows as this changes them.
fn changed(rules: &Rules, source: &[u8], target: &mut [u8], said: u32, change: fn(&mut Row)) -> u8 {
    let given = move_table(rules, source, target, said);
    if let Some((from, to)) = forms(rules, source, said).filter(|_| given == 0) {
        for (index, bytes) in rows(from, source)
            .enumerate()
            .filter(|(_, b)| !row_is_free(b))
        {
            let mut row = decode(from, bytes).unwrap_or_default();
            change(&mut row);
            store(rules, to, target, index, &row);
        }
    }
    given
}

fn written_by_moves() -> Vec<Wrong> {
    wrong! {
        "writes the target before 20 is known": move_table = |r, s, t, f| eagerly(r, s, t, f, 20);
        "writes the target before 21 is known": move_table = |r, s, t, f| eagerly(r, s, t, f, 21);
        "clears a target that it does not write": move_table = |r, s, t, f| {
            let number = move_table(r, s, t, f);
            if number != 0 { t.fill(0) }
            number
        };
        "does not write wholly zero rows": move_table = |r, s, t, f| {
            let old = t.to_vec();
            let number = move_table(r, s, t, f);
            if let Some((from, to)) = forms(r, s, f).filter(|_| number == 0) {
                for (index, _) in rows(from, s).enumerate().filter(|(_, row)| row_is_free(row)) {
                    put(t, index * to.row(), row_at(to, &old, index));
                }
            }
            number
        };
        "moves nothing": move_table = |r, s, t, f| move_table(r, s, &mut t.to_vec(), f);
        "forgets the operator on moving": move_table = |r, s, t, f| changed(r, s, t, f, |row| row.operator = 0);
        "forgets the policy on moving": move_table = |r, s, t, f| changed(r, s, t, f, |row| {
            row.places.iter_mut().flatten().for_each(|a| a.policies = Policies::default());
        });
        "sorts the order line on moving": move_table = |r, s, t, f| changed(r, s, t, f, |row| row.line.sort_unstable());
        "moves the host into the realm": move_table = |r, s, t, f| {
            if f != 2 { return move_table(r, s, t, f) }
            changed(r, s, t, f, |row| row.places.iter_mut().flatten().for_each(|a| a.realm = a.host.clone()))
        };
        "moves no second blocks": move_table = |r, s, t, f| {
            let number = move_table(r, s, t, f);
            if number == 0 && f == 2 {
                let second = |at: usize| in_second(Form::Two, at % Form::Two.row()).is_some();
                (0..t.len()).filter(|&at| second(at)).for_each(|at| t[at] = 0);
            }
            number
        };
        "moves places behind one another": move_table = |r, s, t, f| {
            let number = move_table(r, s, t, f);
            if number == 0 && f == 2 {
                t.fill(0);
                for (index, row) in rows(Form::One, s).enumerate() { put(t, index * Form::Two.row(), row) }
            }
            number
        };
    }
}
