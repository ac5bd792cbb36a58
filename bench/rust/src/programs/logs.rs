//! Records of logs by groups of a pattern, with counts.
use extract::corpus::{self, write};
use extract::document::{Document, Shown};
use extract::tokens::Span;
use regex::{Captures, Regex};
use serde::Serialize;
use std::collections::BTreeMap;
use std::io;

#[derive(Serialize)]
struct Record<'d> {
    date: Shown<'d>,
    message: Shown<'d>,
    source: Shown<'d>,
    time: Shown<'d>,
}

#[derive(Serialize)]
struct Change<'d> {
    date: Shown<'d>,
    mail: Shown<'d>,
    name: Shown<'d>,
    year: Shown<'d>,
}

#[derive(Serialize)]
struct Source<'d> {
    records: u64,
    source: &'d str,
}

#[derive(Serialize)]
struct Author<'d> {
    changes: u64,
    first: &'d str,
    last: &'d str,
    mail: &'d str,
}

#[derive(Serialize)]
#[serde(rename_all = "PascalCase")]
struct Views<'d> {
    authors: Vec<Author<'d>>,
    change: Vec<Change<'d>>,
    entry: Vec<Change<'d>>,
    record: Vec<Record<'d>>,
    sources: Vec<Source<'d>>,
}

/// The span of a group that takes part in each match.
fn group(captures: &Captures<'_>, number: usize) -> Span {
    captures.get(number).map_or(Span { begin: 0, end: 0 }, |at| Span { begin: at.start(), end: at.end() })
}

/// The matches of a pattern with groups for a name, a mail address, a date and its year, which are counted by address.
fn changes<'d>(
    doc: &Document<'d>,
    regex: &Regex,
    [name, mail, date, year]: [usize; 4],
    authors: &mut BTreeMap<&'d str, Author<'d>>,
) -> Vec<Change<'d>> {
    let mut rows = Vec::new();
    for found in regex.captures_iter(doc.text) {
        let shown = |number| doc.shown(group(&found, number));
        rows.push(Change { name: shown(name), mail: shown(mail), date: shown(date), year: shown(year) });
        let (mail, year) = (doc.text_of(group(&found, mail)), doc.text_of(group(&found, year)));
        let author = authors.entry(mail).or_insert(Author { changes: 0, first: year, last: year, mail });
        author.changes += 1;
        author.first = author.first.min(year);
        author.last = author.last.max(year);
    }
    rows
}

fn views<'d>(doc: &Document<'d>, records: &Regex, lasts: &Regex, firsts: &Regex) -> Views<'d> {
    let (mut record, mut sources) = (Vec::new(), BTreeMap::new());
    for found in records.captures_iter(doc.text) {
        let shown = |number| doc.shown(group(&found, number));
        record.push(Record { date: shown(1), time: shown(2), source: shown(3), message: shown(4) });
        *sources.entry(doc.text_of(group(&found, 3))).or_insert(0) += 1;
    }
    let mut authors = BTreeMap::new();
    let change = changes(doc, lasts, [1, 2, 3, 4], &mut authors);
    let entry = changes(doc, firsts, [3, 4, 1, 2], &mut authors);
    let sources = sources.into_iter().map(|(source, records)| Source { records, source }).collect();
    Views { authors: authors.into_values().collect(), change, entry, record, sources }
}

pub fn run() -> io::Result<()> {
    let records = Regex::new(
        r"(?m)^([0-9]{4}-[0-9]{2}-[0-9]{2}|[A-Z][a-z]{2} [ 0-9][0-9]) ([0-9]{2}:[0-9]{2}:[0-9]{2}) (\S+) ([^\n]*)",
    );
    let lasts = Regex::new(
        r"(?m)^ ?-- ([^<\n]+) <([^>\n]+)>  ([A-Z][a-z]{2}, [ 0-9]{2} [A-Z][a-z]{2} ([0-9]{4}) [0-9:]{8} [+-][0-9]{4})",
    );
    let firsts = Regex::new(r"(?m)^(([0-9]{4})-[0-9]{2}-[0-9]{2})  ([^<\n]+)  <([^>\n]+)>");
    let compiled = |regex: Result<Regex, regex::Error>| regex.map_err(io::Error::other);
    let (records, lasts, firsts) = (compiled(records)?, compiled(lasts)?, compiled(firsts)?);
    corpus::run(false, |doc, out| write(out, &views(doc, &records, &lasts, &firsts)))
}
