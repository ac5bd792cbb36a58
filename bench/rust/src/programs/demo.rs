//! The demonstration: persons, organisations and dates, and what stands close to each other. Once as the program says it, view
//! by view, and once with token-bounded patterns tried only beside what is found without them.
use extract::corpus::{self, write};
use extract::dictionary::Dictionaries;
use extract::document::{Document, Shown};
use extract::search::{behind, matches, outermost, token_run, token_runs, whole};
use extract::tokens::Span;
use regex::Regex;
use serde::Serialize;
use std::collections::BTreeMap;
use std::io;

const FIRST_NAMES: &[&str] = &["Ann", "John", "Maria", "Paul"];
const TITLES: &[&str] = &["Dr", "Mr", "Mrs", "Ms"];
const CITIES: &[&str] = &["New York", "Paris", "Rome"];
const ORG_ENDS: &[&str] = &["Corp", "Inc", "Ltd"];
const ROLES: &[&str] = &["Chief Technology Officer", "Engineer"];
const MONTHS: &[&str] = &["January", "May", "June"];

#[derive(Serialize)]
struct Row<'d> {
    m: Shown<'d>,
}

#[derive(Serialize)]
struct Digits<'d> {
    n: u64,
    t: &'d str,
}

#[derive(Serialize)]
struct PersonCity<'d> {
    city: Shown<'d>,
    person: Shown<'d>,
}

#[derive(Serialize)]
struct PersonOrg<'d> {
    org: Shown<'d>,
    person: Shown<'d>,
}

#[derive(Serialize)]
struct PersonPhone<'d> {
    person: Shown<'d>,
    phone: Shown<'d>,
}

#[derive(Serialize)]
struct PersonRole<'d> {
    person: Shown<'d>,
    role: Shown<'d>,
}

#[derive(Serialize)]
#[serde(rename_all = "PascalCase")]
struct Views<'d> {
    date: Vec<Row<'d>>,
    digits: Vec<Digits<'d>>,
    first_person: Vec<Row<'d>>,
    long_name: Vec<Row<'d>>,
    lower_name: Vec<Row<'d>>,
    number_run: Vec<Row<'d>>,
    person: Vec<Row<'d>>,
    person_city: Vec<PersonCity<'d>>,
    person_org: Vec<PersonOrg<'d>>,
    person_phone: Vec<PersonPhone<'d>>,
    person_role: Vec<PersonRole<'d>>,
}

/// What is found of dictionaries, and of patterns without a token bound, each in order.
struct Parts {
    firsts: Vec<Span>,
    titles: Vec<Span>,
    cities: Vec<Span>,
    org_ends: Vec<Span>,
    roles: Vec<Span>,
    months: Vec<Span>,
    numbers: Vec<Span>,
    phones: Vec<Span>,
}

/// What token-bounded patterns are joined to: names as they are found, some within others; organisations and dates in order.
struct Joined {
    names: Vec<Span>,
    orgs: Vec<Span>,
    dates: Vec<Span>,
}

/// The patterns and the dictionaries.
struct Finders {
    dictionaries: Dictionaries<6>,
    caps: Regex,
    caps_run: Regex,
    number: Regex,
    phone: Regex,
    year: Regex,
}

impl Finders {
    fn new() -> Result<Finders, regex::Error> {
        Ok(Finders {
            dictionaries: Dictionaries::new([FIRST_NAMES, TITLES, CITIES, ORG_ENDS, ROLES, MONTHS]),
            caps: whole("[A-Z][a-z]+"),
            caps_run: whole("[A-Z][a-z]+( [A-Z][a-z]+)*"),
            number: Regex::new("[0-9]+")?,
            phone: Regex::new("555-[0-9]{4}")?,
            year: whole("(19|20)[0-9]{2}"),
        })
    }

    fn parts(&self, doc: &Document<'_>) -> Parts {
        let [firsts, titles, cities, org_ends, roles, months] = self.dictionaries.matches(doc);
        let (numbers, phones) = (matches(&self.number, doc), matches(&self.phone, doc));
        Parts { firsts, titles, cities, org_ends, roles, months, numbers, phones }
    }

    /// A list for each view, and their joins.
    fn joined(&self, doc: &Document<'_>, parts: &Parts) -> Joined {
        let beside = within_tokens(doc, 0);
        let caps = token_runs(&self.caps, doc, 1, 1);
        let caps_runs = token_runs(&self.caps_run, doc, 1, 4);
        let years = token_runs(&self.year, doc, 1, 1);
        let mut names: Vec<Span> = pairs(&parts.firsts, &caps, beside).map(combined).collect();
        names.extend(pairs(&parts.titles, &caps_runs, within_tokens(doc, 1)).map(combined));
        Joined {
            names,
            orgs: left_to_right(pairs(&caps, &parts.org_ends, beside).map(combined)),
            dates: pairs(&day_months(doc, parts), &years, beside).map(combined).collect(),
        }
    }

    /// The same, found beside the matches of dictionaries.
    fn joined_near(&self, doc: &Document<'_>, parts: &Parts) -> Joined {
        // from a span to the runs of words behind it that begin with at most so many tokens between
        let behind_by = |span: &Span, most, regex, words| {
            let (span, next) = (*span, doc.tokens_before_end(*span));
            let runs = (next..=next + most).filter_map(move |token| token_run(regex, doc, token, words));
            runs.map(move |run| combined((span, run)))
        };
        let before = |end: &Span| {
            let caps = token_run(&self.caps, doc, doc.tokens_before(*end).checked_sub(1)?, 1)?;
            Some(combined((caps, *end)))
        };
        let mut names: Vec<Span> = parts.firsts.iter().flat_map(|first| behind_by(first, 0, &self.caps, 1)).collect();
        names.extend(parts.titles.iter().flat_map(|title| behind_by(title, 1, &self.caps_run, 4)));
        Joined {
            names,
            orgs: left_to_right(parts.org_ends.iter().filter_map(before)),
            dates: day_months(doc, parts).iter().flat_map(|day| behind_by(day, 0, &self.year, 1)).collect(),
        }
    }
}

/// The pairs of a left span and one of `right`, which stands in order, that begins behind it and is close to it.
fn pairs<'s>(
    left: &'s [Span],
    right: &'s [Span],
    is_close: impl Fn(Span, Span) -> bool + Copy + 's,
) -> impl Iterator<Item = (Span, Span)> + 's {
    left.iter().flat_map(move |a| {
        behind(*a, right).take_while(move |b| is_close(*a, *b)).map(move |b| (*a, b))
    })
}

/// Whether one span follows another with at most so many characters between.
fn within<'s>(doc: &'s Document<'_>, most: usize) -> impl Fn(Span, Span) -> bool + Copy + 's {
    move |a, b| doc.gap(a, b).is_some_and(|gap| gap <= most)
}

/// The same with tokens.
fn within_tokens<'s>(doc: &'s Document<'_>, most: usize) -> impl Fn(Span, Span) -> bool + Copy + 's {
    move |a, b| doc.token_gap(a, b).is_some_and(|gap| gap <= most)
}

/// From the begin of the one to the end of the other.
fn combined((a, b): (Span, Span)) -> Span {
    Span { begin: a.begin, end: b.end }
}

/// The spans, in order, that overlap none before them that stays.
fn left_to_right(spans: impl Iterator<Item = Span>) -> Vec<Span> {
    let mut kept: Vec<Span> = Vec::new();
    for span in spans {
        if kept.last().is_none_or(|last| last.end <= span.begin) {
            kept.push(span);
        }
    }
    kept
}

/// The runs of two or three numbers with at most 30 characters from each to the next.
fn number_runs<'d>(doc: &Document<'d>, numbers: &[Span]) -> Vec<Row<'d>> {
    let is_close = within(doc, 30);
    let mut runs = Vec::new();
    for (index, first) in numbers.iter().enumerate() {
        let neighbours = numbers[index..].windows(2).take(2).take_while(|two| is_close(two[0], two[1]));
        runs.extend(neighbours.map(|two| Row { m: doc.shown(combined((*first, two[1]))) }));
    }
    runs
}

/// How often each number stands outside of dates.
fn digits<'d>(doc: &Document<'d>, numbers: &[Span], dates: &[Span]) -> Vec<Digits<'d>> {
    let mut counts = BTreeMap::new();
    for number in numbers {
        // the last date that begins there or before ends behind all others that do
        let begun = &dates[..dates.partition_point(|date| date.begin <= number.begin)];
        if begun.last().is_none_or(|date| date.end < number.end) {
            *counts.entry(doc.text_of(*number)).or_insert(0) += 1;
        }
    }
    counts.into_iter().map(|(t, n)| Digits { n, t }).collect()
}

/// The numbers with a month behind them.
fn day_months(doc: &Document<'_>, parts: &Parts) -> Vec<Span> {
    pairs(&parts.numbers, &parts.months, within_tokens(doc, 0)).map(combined).collect()
}

fn views<'d>(doc: &Document<'d>, parts: &Parts, joined: Joined) -> Views<'d> {
    let Joined { names, orgs, dates } = joined;
    let persons = outermost(names);
    let shown = |span| doc.shown(span);
    let row = |span: &Span| Row { m: shown(*span) };
    let is_long = |span: &&Span| doc.length(**span) > 8;
    let is_lower = |span: &&Span| !FIRST_NAMES.contains(&doc.text_of(**span));
    Views {
        date: dates.iter().map(row).collect(),
        digits: digits(doc, &parts.numbers, &dates),
        first_person: persons.iter().take(1).map(row).collect(),
        long_name: persons.iter().filter(is_long).map(row).collect(),
        lower_name: parts.firsts.iter().filter(is_lower).map(row).collect(),
        number_run: number_runs(doc, &parts.numbers),
        person: persons.iter().map(row).collect(),
        person_city: pairs(&persons, &parts.cities, within(doc, 10))
            .map(|(person, city)| PersonCity { city: shown(city), person: shown(person) })
            .collect(),
        person_org: pairs(&persons, &orgs, within(doc, 10))
            .map(|(person, org)| PersonOrg { org: shown(org), person: shown(person) })
            .collect(),
        person_phone: pairs(&persons, &parts.phones, within(doc, 40))
            .map(|(person, phone)| PersonPhone { person: shown(person), phone: shown(phone) })
            .collect(),
        person_role: pairs(&persons, &parts.roles, within_tokens(doc, 2))
            .map(|(person, role)| PersonRole { person: shown(person), role: shown(role) })
            .collect(),
    }
}

/// `near`: with token-bounded patterns tried only beside what is found without them.
pub fn run(near: bool) -> io::Result<()> {
    let finders = Finders::new().map_err(io::Error::other)?;
    corpus::run(true, |doc, out| {
        let parts = finders.parts(doc);
        let joined = if near { finders.joined_near(doc, &parts) } else { finders.joined(doc, &parts) };
        write(out, &views(doc, &parts, joined))
    })
}
