//! Two patterns with a token bound, and a dictionary.
use extract::corpus::{self, write};
use extract::dictionary::Dictionary;
use extract::search::{Found, rows, token_runs, whole};
use serde::Serialize;
use std::io;

#[derive(Serialize)]
#[serde(rename_all = "PascalCase")]
struct Two<'d> {
    capitalised: Vec<Found<'d>>,
    identifier: Vec<Found<'d>>,
}

#[derive(Serialize)]
#[serde(rename_all = "PascalCase")]
struct One<'d> {
    r#match: Vec<Found<'d>>,
}

pub fn two() -> io::Result<()> {
    let capitalised = whole("[A-Z][a-z]+( [A-Z][a-z]+)*");
    let identifier = whole("[a-z]+([._-][a-z0-9]+)+");
    corpus::run(true, |doc, out| {
        let found = |regex, low, high| rows(doc, &token_runs(regex, doc, low, high));
        write(out, &Two { capitalised: found(&capitalised, 1, 4), identifier: found(&identifier, 3, 5) })
    })
}

/// The entries stand in a file, one a line.
pub fn dictionary(entries: &str) -> io::Result<()> {
    let text = std::fs::read_to_string(entries)?;
    let words = Dictionary::new(text.lines());
    corpus::run(true, |doc, out| write(out, &One { r#match: rows(doc, &words.matches(doc)) }))
}
