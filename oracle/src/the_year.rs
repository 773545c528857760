//! W9, the year by hour: results counted by the hour in which they were given.

use crate::{Code, SUCCESS};

/// The totals of each hour: opened, cuts, terminations, others.
pub type Report = [[u64; 4]; HOURS];

/// The same with room to spare, before anybody asks whether 64 bits hold it.
type Wide = [[u128; 4]; HOURS];

pub const HOURS: usize = 24;
pub const OPENED: usize = 0;
pub const CUTS: usize = 1;
pub const TERMINATIONS: usize = 2;
pub const OTHERS: usize = 3;

/// A result as it is told: the request's kind is 0 or 1 for the two types of an
/// authorization and 2 for a termination; the rest is of its outcome.
#[derive(Clone, Copy, Debug, PartialEq, Eq)]
pub struct Told {
    pub hour: u32,
    pub which: u32,
    pub code: u32,
    pub kind: u32,
    pub place: u32,
    pub cut: u32,
}

/// Number, cuts and opened.
#[derive(Clone, Copy, Debug, PartialEq, Eq)]
pub struct Rate {
    pub number: u32,
    pub cuts: u64,
    pub opened: u64,
}

/// The decisions that a program could take otherwise, one field each.
#[derive(Clone, Copy)]
pub struct YearRules {
    pub columns: fn(&Told) -> [bool; 4],
    pub hour_is_right: fn(u32) -> bool,
    pub held: fn(&Wide) -> bool,
    pub count: fn(&YearRules, &mut Report, &[Told]) -> u32,
    pub add: fn(&YearRules, &mut Report, &Report) -> u32,
    pub lowest: fn(u64, u64) -> (u64, u64),
    pub rate: fn(&YearRules, &Report) -> Rate,
}

pub const REQUEST_W9: YearRules = YearRules {
    columns,
    hour_is_right: |hour| hour <= 23,
    held,
    count,
    add,
    lowest,
    rate,
};

/// A place says that an access was opened, and the cut that it made goes beside it. What
/// opened nothing is a termination that succeeded, or anything else.
pub fn columns(told: &Told) -> [bool; 4] {
    let opened = told.place != 0;
    let ended = told.which == 2
        && told.kind == u32::from(SUCCESS.kind())
        && told.code == u32::from(SUCCESS.number());
    [
        opened,
        opened && told.cut != 0,
        !opened && ended,
        !opened && !ended,
    ]
}

pub fn widened(report: &Report) -> Wide {
    report.map(|hour| hour.map(u128::from))
}

pub fn year(report: &Wide, column: usize) -> u128 {
    report.iter().map(|hour| hour[column]).sum()
}

/// 64 bits hold every total of an hour and of the year.
pub fn held(report: &Wide) -> bool {
    let fits = |total: u128| u64::try_from(total).is_ok();
    report.iter().flatten().all(|&total| fits(total))
        && (0..4).all(|column| fits(year(report, column)))
}

/// What was held, as a report.
fn narrowed(report: &Wide) -> Report {
    report.map(|hour| hour.map(|total| total as u64))
}

/// 29 for the whole list first, then 30; counted whole or not at all.
pub fn count(rules: &YearRules, report: &mut Report, list: &[Told]) -> u32 {
    if !list.iter().all(|told| (rules.hour_is_right)(told.hour)) {
        return 29;
    }
    let mut after = widened(report);
    for told in list {
        for (column, counts) in (rules.columns)(told).into_iter().enumerate() {
            after[told.hour as usize % HOURS][column] += u128::from(counts);
        }
    }
    if !(rules.held)(&after) {
        return 30;
    }
    *report = narrowed(&after);
    0
}

pub fn add(rules: &YearRules, report: &mut Report, other: &Report) -> u32 {
    let mut after = widened(report);
    for (hour, more) in after.iter_mut().zip(widened(other)) {
        for (total, gain) in hour.iter_mut().zip(more) {
            *total += gain;
        }
    }
    if !(rules.held)(&after) {
        return 30;
    }
    *report = narrowed(&after);
    0
}

/// Both divided by their greatest common measure, which is found by halving and taking away.
pub fn lowest(cuts: u64, opened: u64) -> (u64, u64) {
    let common = measure(cuts, opened);
    (cuts / common, opened / common)
}

fn measure(a: u64, b: u64) -> u64 {
    if a == 0 || b == 0 {
        return a.max(b);
    }
    let twos = (a | b).trailing_zeros();
    let mut a = a >> a.trailing_zeros();
    let mut b = b;
    while b != 0 {
        b >>= b.trailing_zeros();
        (a, b) = (a.min(b), a.abs_diff(b));
    }
    a << twos
}

pub fn rate(rules: &YearRules, report: &Report) -> Rate {
    let report = widened(report);
    if !(rules.held)(&report) {
        return Rate {
            number: 30,
            cuts: 0,
            opened: 1,
        };
    }
    let (cuts, opened) = (year(&report, CUTS) as u64, year(&report, OPENED) as u64);
    let (cuts, opened) = if opened == 0 {
        (0, 1)
    } else {
        (rules.lowest)(cuts, opened)
    };
    Rate {
        number: 0,
        cuts,
        opened,
    }
}

/// An outcome as it is told.
pub fn told(hour: u32, which: u32, outcome: &crate::Outcome) -> Told {
    let code: Code = outcome.code;
    Told {
        hour,
        which,
        code: u32::from(code.number()),
        kind: u32::from(code.kind()),
        place: u32::from(outcome.place),
        cut: u32::from(outcome.cut.is_some()),
    }
}
