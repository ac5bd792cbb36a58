//! Numbers, customers and amounts that stand beside each other: joins of three views.
use extract::corpus::{self, write};
use extract::document::{Document, Shown};
use extract::search::{behind, innermost, matches, token_runs, whole};
use extract::tokens::Span;
use regex::Regex;
use serde::Serialize;
use std::collections::{BTreeMap, HashSet};
use std::io;

#[derive(Serialize)]
struct Customer<'d> {
    customer: &'d str,
    orders: u64,
}

#[derive(Serialize)]
struct Order<'d> {
    amount: Shown<'d>,
    customer: Shown<'d>,
    number: Shown<'d>,
}

#[derive(Serialize)]
#[serde(rename_all = "PascalCase")]
struct Views<'d> {
    customers: Vec<Customer<'d>>,
    orders: Vec<Order<'d>>,
}

struct Candidate {
    number: Span,
    customer: Span,
    amount: Span,
}

impl Candidate {
    fn mention(&self) -> Span {
        Span { begin: self.number.begin, end: self.amount.end }
    }
}

/// The spans in order that begin at most 60 characters behind another.
fn close<'r>(doc: &'r Document<'_>, left: Span, right: &'r [Span]) -> impl Iterator<Item = Span> + 'r {
    behind(left, right).take_while(move |span| doc.gap(left, *span).is_some_and(|gap| gap <= 60))
}

fn views<'d>(doc: &Document<'d>, numbers: &[Span], customers: &[Span], amounts: &[Span]) -> Views<'d> {
    let mut candidates = Vec::new();
    for number in numbers {
        for customer in close(doc, *number, customers) {
            candidates.extend(close(doc, customer, amounts).map(|amount| Candidate { number: *number, customer, amount }));
        }
    }
    // the first row of each innermost mention stays
    let mut mentions: HashSet<Span> = innermost(candidates.iter().map(Candidate::mention).collect()).into_iter().collect();
    candidates.retain(|row| mentions.remove(&row.mention()));
    let mut counts = BTreeMap::new();
    for row in &candidates {
        *counts.entry(doc.text_of(row.customer)).or_insert(0) += 1;
    }
    let order = |row: &Candidate| Order {
        amount: doc.shown(row.amount),
        customer: doc.shown(row.customer),
        number: doc.shown(row.number),
    };
    Views {
        customers: counts.into_iter().map(|(customer, orders)| Customer { customer, orders }).collect(),
        orders: candidates.iter().map(order).collect(),
    }
}

pub fn run() -> io::Result<()> {
    let number = Regex::new("[0-9]{4,7}").map_err(io::Error::other)?;
    let customer = whole("[A-Z][a-z]+( [A-Z][a-z]+)*");
    let amount = Regex::new("[0-9]+[.,][0-9]+").map_err(io::Error::other)?;
    corpus::run(true, |doc, out| {
        let customers = token_runs(&customer, doc, 1, 3);
        write(out, &views(doc, &matches(&number, doc), &customers, &matches(&amount, doc)))
    })
}
