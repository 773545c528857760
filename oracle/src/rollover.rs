//! The fault of the server before this one, shown: a month of openings under its rule for a
//! cut and under document 01's, and a picture of how old each tunnel was that was cut.

use std::fmt::Write;

use crate::random::Random;
use crate::rules::{DOCUMENT_01, Rules};
use crate::the_table::{Access, Entry, Policies, Row};

/// The old rule: the server numbers its tunnels with 16 bits, and the lowest number is cut. A
/// Session-Id here ends in the count of all openings, from which that number follows.
pub const OLD_SERVER: Rules = Rules {
    place_to_cut: |row, entry| {
        let on_it = |place: &u8| row.access(*place).is_some_and(|a| a.entry == entry);
        let number = |place: &u8| row.access(*place).map_or(0, |a| opening(a) % 65_536);
        row.line.iter().copied().filter(on_it).min_by_key(number)
    },
    ..DOCUMENT_01
};

const HOURS: f64 = 720.0;
/// At this load 65,536 tunnels are opened in so many hours.
pub const ROLLOVER: f64 = 26.5;
const ACCOUNTS: usize = 1_024;
const LIMIT: u8 = 8;
/// A tunnel that is not cut is terminated after one to five hours.
const LONGEST: f64 = 5.0;

/// A cut: when, how old the tunnel was, and whether an older one of the account stood.
#[derive(Clone, Copy, Debug, PartialEq)]
pub struct Cut {
    pub hour: f64,
    pub age: f64,
    pub older_stood: bool,
}

fn opening(access: &Access) -> u64 {
    let digits = access.session.rsplit(|&b| b == b';').next();
    let digits = std::str::from_utf8(digits.unwrap_or_default()).unwrap_or_default();
    digits.parse().unwrap_or_default()
}

/// The hour at which an opening took place: they are evenly spread.
fn hour_of(opening: u64) -> f64 {
    opening as f64 * ROLLOVER / 65_536.0
}

/// A month of openings by accounts drawn at random, each with terminations in between.
pub fn month(rules: &Rules, seed: u64) -> Vec<Cut> {
    let mut random = Random::new(seed);
    let entry = Entry {
        label: b"board".to_vec(),
        flags: 0,
        limit: LIMIT,
    };
    let account = Row {
        entries: vec![entry],
        ..Row::default()
    };
    let mut rows = vec![account; ACCOUNTS];
    let mut ends: Vec<[f64; LIMIT as usize]> = vec![[0.0; LIMIT as usize]; ACCOUNTS];
    let mut cuts = Vec::new();
    let mut count: u64 = 0;
    while hour_of(count) < HOURS {
        let now = hour_of(count);
        let at = random.below(ACCOUNTS);
        let (row, ends) = (&mut rows[at], &mut ends[at]);
        for place in 1..=LIMIT {
            if row.access(place).is_some() && ends[usize::from(place - 1)] <= now {
                row.free(place);
            }
        }
        if (rules.at_limit)(row, 1) {
            let first = row
                .line
                .first()
                .and_then(|&place| row.access(place))
                .map(opening);
            let cut = (rules.place_to_cut)(row, 1).and_then(|place| row.free(place));
            if let Some(access) = cut {
                cuts.push(Cut {
                    hour: now,
                    age: now - hour_of(opening(&access)),
                    older_stood: first != Some(opening(&access)),
                });
            }
        }
        let lasts = 1.0 + (LONGEST - 1.0) * random.below(10_000) as f64 / 10_000.0;
        if let Some(place) = (rules.place_to_take)(row, None) {
            row.places[usize::from(place - 1)] = Some(Access {
                entry: 1,
                session: format!("gw.example;{count}").into_bytes(),
                host: b"gw.example".to_vec(),
                realm: Vec::new(),
                policies: Policies::default(),
            });
            row.line.push(place);
            ends[usize::from(place - 1)] = now + lasts;
        }
        count += 1;
    }
    cuts
}

const LEFT: f64 = 60.0;
const WIDTH: f64 = 1_080.0;
const HEIGHT: f64 = 190.0;
/// A bar of the picture is so many hours wide.
const STEP: f64 = 0.25;

/// Both months, one above the other.
pub fn picture(seed: u64) -> String {
    let mut svg = String::new();
    let total = LEFT + WIDTH + 20.0;
    let _ = writeln!(
        svg,
        "<svg xmlns=\"http://www.w3.org/2000/svg\" viewBox=\"0 0 {total} 600\" font-family=\"sans-serif\" font-size=\"12\">\n\
         <rect width=\"{total}\" height=\"600\" fill=\"#fff\"/>\n\
         <text x=\"{LEFT}\" y=\"24\" font-size=\"16\">How old a tunnel was when it was cut, over a month in which 65,536 tunnels are opened every {ROLLOVER} hours</text>\n\
         <text x=\"{LEFT}\" y=\"42\" fill=\"#555\">a bar spans all cuts of a quarter of an hour; red where an older tunnel of the same account stood; dashed: the 16-bit number rolls over</text>"
    );
    panel(
        &mut svg,
        80.0,
        "old server: the lowest of 16-bit numbers is cut",
        &month(&OLD_SERVER, seed),
        true,
    );
    panel(
        &mut svg,
        340.0,
        "document 01: the tunnel opened first is cut",
        &month(&DOCUMENT_01, seed),
        false,
    );
    let _ = writeln!(
        svg,
        "<text x=\"{}\" y=\"588\" text-anchor=\"middle\" fill=\"#555\">day of the run</text>\n</svg>",
        LEFT + WIDTH / 2.0
    );
    svg
}

fn panel(svg: &mut String, top: f64, title: &str, cuts: &[Cut], rolls: bool) {
    let x = |hour: f64| LEFT + WIDTH * hour / HOURS;
    let y = |age: f64| top + HEIGHT * (1.0 - age / LONGEST);
    let wrong = cuts.iter().filter(|cut| cut.older_stood).count();
    let _ = writeln!(
        svg,
        "<text x=\"{LEFT}\" y=\"{}\"><tspan font-weight=\"bold\">{title}</tspan>: {} cuts, {wrong} of a tunnel that was not the oldest</text>",
        top - 10.0,
        cuts.len()
    );
    for age in 0..=5 {
        let at = y(f64::from(age));
        let _ = writeln!(
            svg,
            "<path d=\"M{LEFT} {at}H{}\" stroke=\"#ddd\"/><text x=\"{}\" y=\"{}\" text-anchor=\"end\" fill=\"#555\">{age} h</text>",
            LEFT + WIDTH,
            LEFT - 6.0,
            at + 4.0
        );
    }
    for day in (0..=30).step_by(5) {
        let at = x(f64::from(day) * 24.0);
        let low = top + HEIGHT + 16.0;
        let _ = writeln!(
            svg,
            "<text x=\"{at}\" y=\"{low}\" text-anchor=\"middle\" fill=\"#555\">{day}</text>"
        );
    }
    for (older, colour) in [(false, "#4477aa"), (true, "#cc3311")] {
        let mut bars = String::new();
        let mut spans: Vec<Option<(f64, f64)>> = vec![None; (HOURS / STEP) as usize];
        for cut in cuts.iter().filter(|cut| cut.older_stood == older) {
            let span = &mut spans[(cut.hour / STEP) as usize];
            let (low, high) = span.unwrap_or((cut.age, cut.age));
            *span = Some((low.min(cut.age), high.max(cut.age)));
        }
        for (step, span) in spans.iter().enumerate() {
            if let Some((low, high)) = span {
                let at = x((step as f64 + 0.5) * STEP);
                let _ = write!(bars, "M{at:.1} {:.1}V{:.1}", y(*low) + 0.5, y(*high));
            }
        }
        let _ = writeln!(
            svg,
            "<path d=\"{bars}\" stroke=\"{colour}\" stroke-width=\"0.6\" fill=\"none\"/>"
        );
    }
    if rolls {
        let mut lines = String::new();
        let mut hour = ROLLOVER;
        while hour < HOURS {
            let _ = write!(lines, "M{:.1} {top}v{HEIGHT}", x(hour));
            hour += ROLLOVER;
        }
        let _ = writeln!(
            svg,
            "<path d=\"{lines}\" stroke=\"#000\" stroke-width=\"0.5\" stroke-dasharray=\"3 3\"/>"
        );
    }
}
