//! Calls of the report made from a seed, with what is expected of each, and the script of
//! numbers in which they are written down: eight bytes each, the lowest first.

use std::collections::BTreeMap;

use crate::random::Random;
use crate::the_year::{CUTS, HOURS, OPENED, Report, Told, YearRules, widened, year};

#[derive(Clone, Debug, PartialEq, Eq)]
pub enum YearCall {
    Count(Report, Vec<Told>),
    Add(Report, Report),
    Rate(Report),
}

/// The numbers that a call gave back: its own, then the 96 of the report or the two of the
/// rate.
pub fn given(rules: &YearRules, call: &YearCall) -> Vec<u64> {
    let left = |number: u32, report: Report| {
        let totals = report.into_iter().flatten();
        [u64::from(number)].into_iter().chain(totals).collect()
    };
    match call {
        YearCall::Count(report, list) => {
            let mut report = *report;
            left((rules.count)(rules, &mut report, list), report)
        }
        YearCall::Add(report, other) => {
            let mut report = *report;
            left((rules.add)(rules, &mut report, other), report)
        }
        YearCall::Rate(report) => {
            let rate = (rules.rate)(rules, report);
            vec![u64::from(rate.number), rate.cuts, rate.opened]
        }
    }
}

/// The first number of a script of this kind.
pub const MARK: u64 = u64::from_le_bytes(*b"WMYEAR01");

/// The mark and the number of calls; of each call what it is (0 count, 1 add, 2 rate), the
/// report, the list with its length or the other report, and what is expected.
pub fn script(calls: &[(YearCall, Vec<u64>)]) -> Vec<u8> {
    let mut numbers = vec![MARK, calls.len() as u64];
    for (call, expected) in calls {
        match call {
            YearCall::Count(report, list) => {
                numbers.push(0);
                numbers.extend(report.iter().flatten());
                numbers.push(list.len() as u64);
                for t in list {
                    let six = [t.hour, t.which, t.code, t.kind, t.place, t.cut];
                    numbers.extend(six.map(u64::from));
                }
            }
            YearCall::Add(report, other) => {
                numbers.push(1);
                numbers.extend(report.iter().flatten());
                numbers.extend(other.iter().flatten());
            }
            YearCall::Rate(report) => {
                numbers.push(2);
                numbers.extend(report.iter().flatten());
            }
        }
        numbers.extend(expected);
    }
    numbers.into_iter().flat_map(u64::to_le_bytes).collect()
}

/// What has to come up in a script.
const WANTED: &[&str] = &[
    "count: 0",
    "count: 29",
    "count: 30",
    "count: an empty list",
    "count: an empty list, 30",
    "count: the last hour is bad",
    "count: the first hour is bad",
    "count: hour 23",
    "count: hour 24",
    "count: hours bad and totals passed",
    "count: an hour's total of 2^64 - 1",
    "count: a year's total of 2^64 - 1",
    "count: an hour's total of 2^64",
    "count: a year's total of 2^64, no hour's",
    "count: passed in column 0 alone",
    "count: passed in column 1 alone",
    "count: passed in column 2 alone",
    "count: passed in column 3 alone",
    "count: a cut without a place",
    "count: a cut of 2",
    "count: a place of 9 or more",
    "count: a termination with a place",
    "count: a termination refused",
    "count: a termination with an Experimental-Result of 2001",
    "count: a type 1 of 2001",
    "count: a kind of request over 2",
    "add: 0",
    "add: 30",
    "add: a year's total of 2^64 - 1",
    "add: the first passes by itself",
    "add: the second passes by itself",
    "add: passed in column 0 alone",
    "add: passed in column 1 alone",
    "add: passed in column 2 alone",
    "add: passed in column 3 alone",
    "rate: 0",
    "rate: 30",
    "rate: passed in column 0 alone",
    "rate: passed in column 1 alone",
    "rate: passed in column 2 alone",
    "rate: passed in column 3 alone",
    "rate: none opened",
    "rate: cuts and none opened",
    "rate: no cuts",
    "rate: more cuts than opened",
    "rate: 1 to 1",
    "rate: in lowest terms already",
    "rate: a common divisor",
    "rate: 2^64 - 1 opened",
];

/// Calls with what came up in them.
#[derive(Default)]
pub struct YearCalls {
    pub calls: Vec<(YearCall, Vec<u64>)>,
    pub came_up: BTreeMap<String, usize>,
}

impl YearCalls {
    fn note(&mut self, what: String) {
        *self.came_up.entry(what).or_default() += 1;
    }

    fn note_if(&mut self, when: bool, what: &str) {
        if when {
            self.note(what.to_string());
        }
    }

    pub fn missing(&self) -> Vec<&'static str> {
        let never = |what: &&&str| !self.came_up.contains_key(**what);
        WANTED.iter().filter(never).copied().collect()
    }

    fn push(&mut self, rules: &YearRules, call: YearCall) {
        let expected = given(rules, &call);
        match &call {
            YearCall::Count(report, list) => self.note_count(report, list, expected[0]),
            YearCall::Add(report, other) => self.note_add(report, other, expected[0]),
            YearCall::Rate(report) => self.note_rate(report, &expected),
        }
        self.calls.push((call, expected));
    }

    fn note_passed(&mut self, what: &str, years: [u128; 4]) {
        let passed: Vec<usize> = (0..4).filter(|&k| years[k] > MOST).collect();
        if let [column] = passed[..] {
            self.note(format!("{what}: passed in column {column} alone"));
        }
    }

    fn note_count(&mut self, report: &Report, list: &[Told], number: u64) {
        self.note(format!("count: {number}"));
        self.note_if(list.is_empty(), "count: an empty list");
        self.note_if(list.is_empty() && number == 30, "count: an empty list, 30");
        let bad = |t: &Told| t.hour > 23;
        self.note_if(list.iter().any(|t| t.hour == 24), "count: hour 24");
        self.note_if(
            list.len() > 1 && list.first().is_some_and(bad),
            "count: the first hour is bad",
        );
        let last = list.len() > 1
            && list.last().is_some_and(bad)
            && !list[..list.len() - 1].iter().any(bad);
        self.note_if(last, "count: the last hour is bad");
        let mut after = widened(report);
        for t in list.iter().filter(|t| t.hour < 24) {
            for (column, counts) in crate::the_year::columns(t).into_iter().enumerate() {
                after[t.hour as usize][column] += u128::from(counts);
            }
        }
        let years = [0, 1, 2, 3].map(|column| year(&after, column));
        let any = |total: u128| after.iter().flatten().any(|&t| t == total);
        let over = years.iter().any(|&y| y > MOST);
        self.note_if(number == 29 && over, "count: hours bad and totals passed");
        if number == 29 {
            return;
        }
        self.note_if(
            number == 0 && any(MOST),
            "count: an hour's total of 2^64 - 1",
        );
        self.note_if(
            number == 0 && years.contains(&MOST),
            "count: a year's total of 2^64 - 1",
        );
        self.note_if(any(MOST + 1), "count: an hour's total of 2^64");
        let hours_fit = after.iter().flatten().all(|&t| t <= MOST);
        self.note_if(
            hours_fit && years.contains(&(MOST + 1)),
            "count: a year's total of 2^64, no hour's",
        );
        self.note_passed("count", years);
        if number != 0 {
            return;
        }
        for t in list {
            let ends = t.which == 2 && t.place == 0;
            self.note_if(t.hour == 23, "count: hour 23");
            self.note_if(t.cut != 0 && t.place == 0, "count: a cut without a place");
            self.note_if(t.cut == 2 && t.place != 0, "count: a cut of 2");
            self.note_if(t.place > 8, "count: a place of 9 or more");
            self.note_if(
                t.which == 2 && t.place != 0,
                "count: a termination with a place",
            );
            self.note_if(
                ends && t.kind == 1 && t.code != 2001,
                "count: a termination refused",
            );
            let experimental = ends && t.kind == 2 && t.code == 2001;
            self.note_if(
                experimental,
                "count: a termination with an Experimental-Result of 2001",
            );
            let plain = t.place == 0 && t.kind == 1 && t.code == 2001;
            self.note_if(t.which == 1 && plain, "count: a type 1 of 2001");
            self.note_if(t.which > 2 && plain, "count: a kind of request over 2");
        }
    }

    fn note_add(&mut self, report: &Report, other: &Report, number: u64) {
        self.note(format!("add: {number}"));
        let (a, b) = (widened(report), widened(other));
        let years = [0, 1, 2, 3].map(|column| year(&a, column) + year(&b, column));
        let passes = |r| (0..4).any(|column| year(r, column) > MOST);
        self.note_if(
            number == 0 && years.contains(&MOST),
            "add: a year's total of 2^64 - 1",
        );
        self.note_if(passes(&a), "add: the first passes by itself");
        self.note_if(passes(&b), "add: the second passes by itself");
        self.note_passed("add", years);
    }

    fn note_rate(&mut self, report: &Report, expected: &[u64]) {
        self.note(format!("rate: {}", expected[0]));
        let report = widened(report);
        self.note_passed("rate", [0, 1, 2, 3].map(|column| year(&report, column)));
        if expected[0] != 0 {
            return;
        }
        let (cuts, opened) = (year(&report, CUTS), year(&report, OPENED));
        self.note_if(opened == 0 && cuts == 0, "rate: none opened");
        self.note_if(opened == 0 && cuts != 0, "rate: cuts and none opened");
        self.note_if(opened != 0 && cuts == 0, "rate: no cuts");
        self.note_if(opened != 0 && cuts > opened, "rate: more cuts than opened");
        self.note_if(opened > 1 && cuts == opened, "rate: 1 to 1");
        let same = u128::from(expected[2]) == opened;
        self.note_if(
            opened > 1 && cuts != 0 && same,
            "rate: in lowest terms already",
        );
        self.note_if(cuts != 0 && opened != 0 && !same, "rate: a common divisor");
        self.note_if(opened == MOST, "rate: 2^64 - 1 opened");
    }
}

const MOST: u128 = u64::MAX as u128;

pub fn year_calls(rules: &YearRules, seed: u64, calls: usize) -> YearCalls {
    let mut random = Random::new(seed);
    let mut made = YearCalls::default();
    while made.calls.len() < calls {
        let report = report(&mut random);
        let call = match random.below(10) {
            0..=5 => YearCall::Count(report, list(&mut random)),
            6 | 7 => YearCall::Add(report, near(&mut random, &report)),
            _ => YearCall::Rate(report),
        };
        made.push(rules, call);
    }
    made
}

/// A report by chance: empty, small, or with a column whose year is near the limit.
fn report(random: &mut Random) -> Report {
    let mut report = [[0; 4]; HOURS];
    if random.once_in(6) {
        return report;
    }
    let scale = 1 << random.below(30);
    for hour in &mut report {
        for total in hour {
            *total = if random.once_in(3) {
                0
            } else {
                random.draw() % scale
            };
        }
    }
    let column = random.below(4);
    let hour = random.below(HOURS);
    match random.below(8) {
        0 => report.iter_mut().for_each(|h| h[OPENED] = 0),
        1 => report.iter_mut().for_each(|h| h[CUTS] = 0),
        2 => report.iter_mut().for_each(|h| h[CUTS] = h[OPENED]),
        3 | 4 => {
            let others: u64 = (0..HOURS)
                .filter(|&h| h != hour)
                .map(|h| report[h][column])
                .sum();
            let about = [u64::MAX - 3, u64::MAX - 2, u64::MAX - 1, u64::MAX, u64::MAX];
            report[hour][column] = random.pick(&about) - others;
        }
        5 => {
            report.iter_mut().for_each(|h| h[column] = 0);
            report[hour][column] = u64::MAX - random.draw() % 3;
        }
        6 => {
            report[hour][column] = u64::MAX - random.draw() % 2;
            report[(hour + 1) % HOURS][column] += random.draw() % 3;
        }
        _ => (),
    }
    report
}

/// A second report: by chance, or what is left to the limit in one column, or one more.
fn near(random: &mut Random, first: &Report) -> Report {
    if random.once_in(2) {
        return report(random);
    }
    let mut other = [[0; 4]; HOURS];
    let column = random.below(4);
    let total = year(&widened(first), column);
    if let Ok(left) = u64::try_from(MOST.saturating_sub(total)) {
        other[random.below(HOURS)][column] = left.saturating_add(random.draw() % 2);
    }
    other
}

fn list(random: &mut Random) -> Vec<Told> {
    let length = *random.pick(&[0, 1, 1, 2, 3, 5, 9, 40]);
    let one_hour = random.once_in(3).then(|| random.below(HOURS) as u32);
    let mut list: Vec<Told> = (0..length).map(|_| told(random, one_hour)).collect();
    if random.once_in(6) && !list.is_empty() {
        let place = *random.pick(&[0, list.len() - 1, list.len() / 2]);
        list[place].hour = *random.pick(&[24, 24, 25, 47, 255, u32::MAX]);
    }
    list
}

fn told(random: &mut Random, one_hour: Option<u32>) -> Told {
    let hour = one_hour.unwrap_or_else(|| *random.pick(&[0, 1, 5, 11, 12, 22, 23, 23]));
    Told {
        hour,
        which: *random.pick(&[0, 0, 1, 2, 2, 2, 3, u32::MAX]),
        code: *random.pick(&[2001, 2001, 2001, 2002, 2000, 5012, 5042, 6]),
        kind: *random.pick(&[1, 1, 1, 1, 2, 0, 3]),
        place: *random.pick(&[0, 0, 0, 1, 2, 8, 9, u32::MAX]),
        cut: *random.pick(&[0, 0, 0, 1, 1, 2, 256]),
    }
}

/// What is expected of twelve calls is wrong, each time another number of it.
pub fn spoil(calls: &mut [(YearCall, Vec<u64>)]) -> usize {
    let places = (0..12).map(|i| i * calls.len() / 12).collect::<Vec<_>>();
    for (nth, place) in places.iter().enumerate() {
        let expected = &mut calls[*place].1;
        let at = nth * 8 % expected.len();
        expected[at] ^= 1 << nth;
    }
    places.len()
}
