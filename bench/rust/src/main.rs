//! What aqlx does with the programs in `bench/programs` and `examples/demo`, written by hand over the crates `regex` and `serde_json`:
//! JSON lines from standard input, for each document a JSON line with its views. For comparison only.
//!
//! usage: extract PROGRAM [ENTRIES]      ENTRIES: a file with the entries of the dictionary, one a line
mod programs {
    pub mod demo;
    pub mod joins;
    pub mod logs;
    pub mod names;
    pub mod orders;
    pub mod patterns;
    pub mod tokens;
}
use programs::{demo, joins, logs, names, orders, patterns, tokens};

fn main() -> std::io::Result<()> {
    let words: Vec<String> = std::env::args().skip(1).collect();
    let words: Vec<&str> = words.iter().map(String::as_str).collect();
    match words.as_slice() {
        ["digits"] => patterns::one("[0-9]+"),
        ["numbers"] => patterns::one("[0-9]{3}-[0-9]{4}"),
        ["addresses"] => patterns::one("[A-Za-z0-9.]+@[A-Za-z0-9.]+"),
        ["patterns"] => patterns::four(),
        ["tokens"] => tokens::two(),
        ["dictionary", entries] => tokens::dictionary(entries),
        ["logs"] => logs::run(),
        ["names"] => names::run(),
        ["orders"] => orders::run(),
        ["demo"] => demo::run(false),
        ["demo-near"] => demo::run(true),
        ["follows"] => joins::follows(),
        ["contains"] => joins::contains(),
        ["overlaps"] => joins::overlaps(),
        _ => {
            eprintln!("usage: extract PROGRAM [ENTRIES]");
            std::process::exit(2);
        }
    }
}
