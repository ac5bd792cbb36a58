//! One pattern, and four.
use extract::corpus::{self, write};
use extract::search::{Found, matches, rows};
use regex::Regex;
use serde::Serialize;
use std::io;

#[derive(Serialize)]
#[serde(rename_all = "PascalCase")]
struct One<'d> {
    r#match: Vec<Found<'d>>,
}

#[derive(Serialize)]
#[serde(rename_all = "PascalCase")]
struct Four<'d> {
    address: Vec<Found<'d>>,
    amount: Vec<Found<'d>>,
    date: Vec<Found<'d>>,
    phone: Vec<Found<'d>>,
}

fn compiled(pattern: &str) -> io::Result<Regex> {
    Regex::new(pattern).map_err(io::Error::other)
}

pub fn one(pattern: &str) -> io::Result<()> {
    let regex = compiled(pattern)?;
    corpus::run(false, |doc, out| write(out, &One { r#match: rows(doc, &matches(&regex, doc)) }))
}

pub fn four() -> io::Result<()> {
    let address = compiled(r"[A-Za-z0-9._%+-]+@[A-Za-z0-9-]+(\.[A-Za-z0-9-]+)+")?;
    let phone = compiled(r"(\+[0-9]{1,3}[ -])?(\([0-9]{3}\) ?|[0-9]{3}-)?[0-9]{3}-[0-9]{4}")?;
    let amount = compiled(r"[$€£] ?[0-9]+([.,][0-9]+)*|[0-9]+([.,][0-9]+)* ?(EUR|USD|KB|MB|GB)")?;
    let date = compiled(
        r"[0-9]{4}-[0-9]{2}-[0-9]{2}|[0-9]{1,2} (Jan|Feb|Mar|Apr|May|Jun|Jul|Aug|Sep|Oct|Nov|Dec)[a-z]* [0-9]{4}",
    )?;
    corpus::run(false, |doc, out| {
        let found = |regex| rows(doc, &matches(regex, doc));
        write(out, &Four { address: found(&address), amount: found(&amount), date: found(&date), phone: found(&phone) })
    })
}
