//! Names of persons: a dictionary, capitalised words, distances and a consolidation.
use extract::corpus::{self, write};
use extract::dictionary::Dictionary;
use extract::document::{Document, Shown};
use extract::search::{Found, behind, matches, outermost, rows, token_runs, whole};
use extract::tokens::Span;
use regex::Regex;
use serde::Serialize;
use std::io;

const FIRST_NAMES: &[&str] = &[
    "Adam", "Alex", "Andreas", "Andrew", "Ann", "Anna", "Anton", "Ben", "Bernhard", "Bill", "Bob", "Brian",
    "Bruno", "Carlos", "Charles", "Chris", "Christian", "Christoph", "Clint", "Colin", "Daniel", "David",
    "Denis", "Emilio", "Eric", "Francesco", "Frank", "Gabriel", "George", "Guillem", "Hans", "Helmut", "Ian",
    "Ivan", "Jakub", "James", "Jan", "Jean", "Jim", "Joe", "Joey", "Johannes", "John", "José", "Joseph",
    "Josh", "Juan", "Julien", "Karl", "Kevin", "Kurt", "Luca", "Luis", "Marco", "Marcus", "Maria", "Mark",
    "Martin", "Matthew", "Matthias", "Michael", "Miguel", "Mike", "Nicolas", "Niels", "Oliver", "Pablo",
    "Paul", "Pedro", "Peter", "Petr", "Philippe", "Richard", "Robert", "Roland", "Russ", "Salvatore",
    "Samuel", "Santiago", "Sean", "Sebastian", "Sébastien", "Simon", "Stefan", "Stephen", "Steve", "Sven",
    "Thomas", "Tim", "Tobias", "Tom", "Víctor", "Werner", "Yuri", "Zoë",
];
const TITLES: &[&str] = &["Dr", "Miss", "Mr", "Mrs", "Ms", "Prof", "Sir"];

#[derive(Serialize)]
struct PersonAddress<'d> {
    address: Shown<'d>,
    person: Shown<'d>,
}

#[derive(Serialize)]
#[serde(rename_all = "PascalCase")]
struct Views<'d> {
    person: Vec<Found<'d>>,
    person_address: Vec<PersonAddress<'d>>,
}

/// From the begin of each left span to the end of each right one that has at most so many tokens between.
fn push_joined(names: &mut Vec<Span>, doc: &Document<'_>, left: &[Span], right: &[Span], most: usize) {
    for a in left {
        for b in behind(*a, right) {
            if doc.token_gap(*a, b).is_none_or(|gap| gap > most) {
                break;
            }
            names.push(Span { begin: a.begin, end: b.end });
        }
    }
}

pub fn run() -> io::Result<()> {
    let firsts = Dictionary::new(FIRST_NAMES.iter().copied());
    let titles = Dictionary::new(TITLES.iter().copied());
    let caps = whole("[A-Z][a-z]+");
    let caps_run = whole("[A-Z][a-z]+( [A-Z][a-z]+)*");
    let address = Regex::new("[A-Za-z0-9.]+@[A-Za-z0-9.]+").map_err(io::Error::other)?;
    corpus::run(true, |doc, out| {
        let mut names = Vec::new();
        push_joined(&mut names, doc, &firsts.matches(doc), &token_runs(&caps, doc, 1, 1), 0);
        push_joined(&mut names, doc, &titles.matches(doc), &token_runs(&caps_run, doc, 1, 4), 1);
        let persons = outermost(names);
        let addresses = matches(&address, doc);
        let mut person_address = Vec::new();
        for person in &persons {
            for at in behind(*person, &addresses) {
                if doc.gap(*person, at).is_none_or(|gap| gap > 40) {
                    break;
                }
                person_address.push(PersonAddress { address: doc.shown(at), person: doc.shown(*person) });
            }
        }
        write(out, &Views { person: rows(doc, &persons), person_address })
    })
}
