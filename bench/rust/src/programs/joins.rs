//! Two views of a long document, joined by their spans in sorted order.
use extract::corpus::{self, write};
use extract::document::Shown;
use extract::search::{behind, matches};
use extract::tokens::Span;
use regex::Regex;
use serde::Serialize;
use std::io;

#[derive(Serialize)]
struct Follows<'d> {
    placed: Shown<'d>,
    state: Shown<'d>,
}

#[derive(Serialize)]
struct Contains<'d> {
    customer: Shown<'d>,
    placed: Shown<'d>,
}

#[derive(Serialize)]
struct Overlaps<'d> {
    mention: Shown<'d>,
    placed: Shown<'d>,
}

#[derive(Serialize)]
#[serde(rename_all = "PascalCase")]
struct Views<R> {
    joined: Vec<R>,
}

fn both(right: &str) -> io::Result<(Regex, Regex)> {
    let made = |pattern| Regex::new(pattern).map_err(io::Error::other);
    Ok((made("no [0-9]+ [A-Z][a-z]+")?, made(right)?))
}

/// The spans that begin at or behind a byte, of spans in order.
fn begun_from(begin: usize, spans: &[Span]) -> impl Iterator<Item = Span> + '_ {
    spans[spans.partition_point(|span| span.begin < begin)..].iter().copied()
}

/// The spans that end behind a byte, of spans in order that don't overlap.
fn ended_behind(end: usize, spans: &[Span]) -> impl Iterator<Item = Span> + '_ {
    spans[spans.partition_point(|span| span.end <= end)..].iter().copied()
}

pub fn follows() -> io::Result<()> {
    let (sale, state) = both("paid|open|late")?;
    corpus::run(true, |doc, out| {
        let states = matches(&state, doc);
        let mut joined = Vec::new();
        for a in matches(&sale, doc) {
            let near = behind(a, &states).take_while(|b| doc.token_gap(a, *b).is_some_and(|gap| gap <= 2));
            joined.extend(near.map(|b| Follows { placed: doc.shown(a), state: doc.shown(b) }));
        }
        write(out, &Views { joined })
    })
}

pub fn contains() -> io::Result<()> {
    let (sale, customer) = both("[A-Z][a-z]+")?;
    corpus::run(false, |doc, out| {
        let customers = matches(&customer, doc);
        let mut joined = Vec::new();
        for a in matches(&sale, doc) {
            let within = begun_from(a.begin, &customers).take_while(|b| b.end <= a.end);
            joined.extend(within.map(|b| Contains { customer: doc.shown(b), placed: doc.shown(a) }));
        }
        write(out, &Views { joined })
    })
}

pub fn overlaps() -> io::Result<()> {
    let (sale, mention) = both("[A-Z][a-z]+ of [a-z]+")?;
    corpus::run(false, |doc, out| {
        let mentions = matches(&mention, doc);
        let mut joined = Vec::new();
        for a in matches(&sale, doc) {
            let over = ended_behind(a.begin, &mentions).take_while(|b| b.begin < a.end);
            joined.extend(over.map(|b| Overlaps { mention: doc.shown(b), placed: doc.shown(a) }));
        }
        write(out, &Views { joined })
    })
}
