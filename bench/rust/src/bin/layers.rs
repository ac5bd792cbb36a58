//! The work of the benches of `aql_bench`, written by hand over the crate `regex` and std. For comparison only.
//!
//! usage: layers NAME FILE ROUNDS
#[path = "../filters.rs"]
mod filters;

use extract::tokens::{CLASSES, Class, class_of};
use smallvec::{SmallVec, smallvec};
use std::collections::HashMap;
use std::time::{Duration, Instant};

/// A span of characters, half-open, from 0.
#[derive(Clone, Copy, PartialEq, Eq, PartialOrd, Ord, Hash)]
struct Span {
    begin: u32,
    end: u32,
}

/// A value of a row.
#[derive(Clone, Copy, PartialEq, Eq, PartialOrd, Ord, Hash)]
#[allow(dead_code)]
enum Value<'d> {
    Null,
    Int(i64),
    Bool(bool),
    Text(&'d str),
    Span(Span),
}

fn ascii_tokens(bytes: &[u8]) -> Vec<Span> {
    let mut spans = Vec::new();
    let mut at = 0;
    while at < bytes.len() {
        match CLASSES[bytes[at] as usize] {
            Class::Space => at += 1,
            Class::Other => {
                spans.push(Span { begin: at as u32, end: at as u32 + 1 });
                at += 1;
            }
            Class::Word => {
                let begin = at;
                while at < bytes.len() && CLASSES[bytes[at] as usize] == Class::Word {
                    at += 1;
                }
                spans.push(Span { begin: begin as u32, end: at as u32 });
            }
        }
    }
    spans
}

fn decoded_tokens(text: &str) -> Vec<Span> {
    let mut spans = Vec::new();
    let mut word = None;
    let mut place = 0;
    for c in text.chars() {
        match (class_of(c), word) {
            (Class::Word, None) => word = Some(place),
            (Class::Word, Some(_)) => {}
            (class, before) => {
                if let Some(begin) = before {
                    spans.push(Span { begin, end: place });
                    word = None;
                }
                if class == Class::Other {
                    spans.push(Span { begin: place, end: place + 1 });
                }
            }
        }
        place += 1;
    }
    if let Some(begin) = word {
        spans.push(Span { begin, end: place });
    }
    spans
}

fn spans_of(text: &str) -> Vec<Span> {
    if text.is_ascii() { ascii_tokens(text.as_bytes()) } else { decoded_tokens(text) }
}

/// The number of characters before each block of 64 bytes.
fn blocks(text: &str) -> Vec<u32> {
    let mut counts = Vec::with_capacity(text.len() / 64 + 1);
    let mut count = 0;
    for block in text.as_bytes().chunks(64) {
        counts.push(count);
        count += block.iter().filter(|byte| (**byte & 0xc0) != 0x80).count() as u32;
    }
    counts
}

/// A text with what a document keeps of it.
struct Document<'t> {
    text: &'t str,
    tokens: Vec<Span>,
    blocks: Option<Vec<u32>>,
}

impl<'t> Document<'t> {
    fn new(text: &'t str) -> Document<'t> {
        if text.is_ascii() {
            Document { text, tokens: ascii_tokens(text.as_bytes()), blocks: None }
        } else {
            Document { text, tokens: decoded_tokens(text), blocks: Some(blocks(text)) }
        }
    }

    /// The number of characters before a byte.
    fn place(&self, byte: usize) -> u32 {
        match &self.blocks {
            None => byte as u32,
            Some(blocks) => {
                let block = byte / 64;
                let (before, from) = match blocks.get(block) {
                    Some(count) => (*count, block * 64),
                    None => (*blocks.last().unwrap_or(&0), (blocks.len().max(1) - 1) * 64),
                };
                let bytes = &self.text.as_bytes()[from..byte];
                before + bytes.iter().filter(|byte| (**byte & 0xc0) != 0x80).count() as u32
            }
        }
    }

    /// The byte at which a character begins.
    fn byte(&self, place: u32) -> usize {
        match &self.blocks {
            None => place as usize,
            Some(blocks) => {
                let block = blocks.partition_point(|count| *count <= place).max(1) - 1;
                let mut at = block * 64;
                let bytes = self.text.as_bytes();
                while at < bytes.len() && (bytes[at] & 0xc0) == 0x80 {
                    at += 1;
                }
                let mut count = blocks.get(block).copied().unwrap_or(0);
                while count < place {
                    at += 1;
                    while at < bytes.len() && (bytes[at] & 0xc0) == 0x80 {
                        at += 1;
                    }
                    count += 1;
                }
                at
            }
        }
    }
}

fn documents(text: &str) -> Vec<Document<'_>> {
    text.lines().map(Document::new).collect()
}

/// Runs a bench so many times and prints the speed of its best round.
fn run(name: &str, bytes: usize, rounds: u32, mut round: impl FnMut() -> u64) {
    let mut best = Duration::MAX;
    let mut came = 0;
    for _ in 0..rounds.max(1) {
        let start = Instant::now();
        came = round();
        best = best.min(start.elapsed());
    }
    let nanos = best.as_nanos().max(1);
    let speed = bytes as u128 * 1000 / nanos;
    eprintln!("{name}: {speed} MB/s, best of {rounds}, {} us, came to {came}", nanos / 1000);
}

fn matches(name: &str, text: &str, rounds: u32, pattern: &str) {
    let regex = regex::Regex::new(pattern).expect("a pattern");
    let docs = documents(text);
    let mut found = Vec::new();
    run(name, text.len(), rounds, || {
        let mut count = 0;
        for doc in &docs {
            found.clear();
            for at in regex.find_iter(doc.text) {
                found.push(Some(Span { begin: doc.place(at.start()), end: doc.place(at.end()) }));
            }
            count += found.len() as u64;
        }
        count
    });
}

fn token_runs(name: &str, text: &str, rounds: u32, pattern: &str) {
    let regex = regex::Regex::new(&format!("^(?:{pattern})$")).expect("a pattern");
    let docs = documents(text);
    let mut found = Vec::new();
    run(name, text.len(), rounds, || {
        let mut count = 0;
        for doc in &docs {
            found.clear();
            for i in 0..doc.tokens.len() {
                let begin = doc.byte(doc.tokens[i].begin);
                for k in (1..=4.min(doc.tokens.len() - i)).rev() {
                    let end = doc.byte(doc.tokens[i + k - 1].end);
                    if regex.is_match(&doc.text[begin..end]) {
                        found.push(Some(Span { begin: doc.tokens[i].begin, end: doc.tokens[i + k - 1].end }));
                        break;
                    }
                }
            }
            count += found.len() as u64;
        }
        count
    });
}

/// Swaps each element with one far from it.
fn mix<T>(items: &mut [T]) {
    let count = items.len();
    let mut other = 0usize;
    for i in 0..count {
        other = other.wrapping_add(0x9e37_79b9) % count;
        items.swap(i, other);
    }
}

/// Rows of two spans in one flat list, made and walked; sorted by their numbers where they aren't in order.
fn rows(name: &str, text: &str, rounds: u32, order: &str) {
    let spans = spans_of(text);
    let mut pairs: Vec<(Span, Span)> = spans.iter().copied().zip(spans.iter().copied().skip(1)).collect();
    match order {
        "falling" => pairs.reverse(),
        "mixed" => mix(&mut pairs),
        _ => {}
    }
    run(name, text.len(), rounds, || {
        let mut values: Vec<Value> = Vec::new();
        for (first, second) in &pairs {
            values.push(Value::Span(*first));
            values.push(Value::Span(*second));
        }
        let mut sum = 0u64;
        let mut walk = |row: &[Value]| {
            for value in row {
                if let Value::Span(span) = value {
                    sum = sum.wrapping_mul(31).wrapping_add(u64::from(span.begin));
                }
            }
        };
        let row = |i: u32| &values[2 * i as usize..2 * i as usize + 2];
        if values.chunks(2).zip(values.chunks(2).skip(1)).all(|(a, b)| a <= b) {
            values.chunks(2).for_each(&mut walk);
        } else {
            let mut numbers: Vec<u32> = (0..pairs.len() as u32).collect();
            numbers.sort_unstable_by(|a, b| row(*a).cmp(row(*b)));
            numbers.iter().for_each(|i| walk(row(*i)));
        }
        sum
    });
}

/// So many entries: each tenth is a token of the documents, the others stand in no text.
fn entries(docs: &[Document<'_>], number: usize) -> Vec<String> {
    let mut entries = Vec::new();
    for i in 0..number {
        if i % 10 == 0 && !docs.is_empty() {
            let doc = &docs[i % docs.len()];
            if !doc.tokens.is_empty() {
                let token = doc.tokens[i % doc.tokens.len()];
                entries.push(doc.text[doc.byte(token.begin)..doc.byte(token.end)].to_owned());
                continue;
            }
        }
        entries.push(format!("zq{i}"));
    }
    entries
}

/// Folds a token into the buffer: ASCII letter by letter, anything else by std.
fn fold(token: &str, into: &mut String) {
    into.clear();
    if token.is_ascii() {
        into.push_str(token);
        into.make_ascii_lowercase();
    } else {
        into.push_str(&token.to_lowercase());
    }
}

/// The text of a document's tokens is folded into one buffer and looked up in a map.
fn dictionary(name: &str, text: &str, rounds: u32, number: usize) {
    let mut buffer = String::new();
    let mut map: HashMap<String, usize> = HashMap::new();
    for entry in entries(&documents(text), number) {
        fold(&entry, &mut buffer);
        map.insert(buffer.clone(), 0);
    }
    let mut found: Vec<(usize, Span)> = Vec::new();
    run(name, text.len(), rounds, || {
        let mut count = 0;
        for line in text.lines() {
            let doc = Document::new(line);
            found.clear();
            for token in &doc.tokens {
                fold(&doc.text[doc.byte(token.begin)..doc.byte(token.end)], &mut buffer);
                if let Some(dict) = map.get(buffer.as_str()) {
                    found.push((*dict, *token));
                }
            }
            count += found.len() as u64;
        }
        count
    });
}

/// From each span's begin to the end of one of the five from it on; in mixed order.
fn nested(spans: &[Span]) -> Vec<Span> {
    let of = |(i, span): (usize, &Span)| {
        let last = spans.get(i + i % 5).unwrap_or(span);
        Span { begin: span.begin, end: last.end.max(span.end) }
    };
    let mut nested: Vec<Span> = spans.iter().enumerate().map(of).collect();
    mix(&mut nested);
    nested
}

/// Rows of one span, made, and sorted where that is asked. The policies are measured against the sort.
fn span_rows(name: &str, text: &str, rounds: u32, sorted: bool) {
    let spans = nested(&spans_of(text));
    run(name, text.len(), rounds, || {
        let mut values: Vec<Value> = spans.iter().map(|span| Value::Span(*span)).collect();
        if sorted && !values.is_sorted() {
            values.sort_unstable();
        }
        values.len() as u64
    });
}

/// A row: up to four values, kept inline.
#[derive(Clone, Copy, PartialEq, Eq, PartialOrd, Ord, Hash)]
struct Row<'d> {
    values: [Value<'d>; 4],
    count: u32,
}

fn row_of<'d>(values: &[Value<'d>]) -> Row<'d> {
    let mut row = Row { values: [Value::Null; 4], count: values.len() as u32 };
    row.values[..values.len()].copy_from_slice(values);
    row
}

/// A row of two numbers for each token: the number of its group, and its begin.
fn numbered_rows(text: &str, groups: usize) -> Vec<Row<'static>> {
    let spans = spans_of(text);
    let groups = groups.min(spans.len()).max(1);
    let key = |i: usize| Value::Int((i.wrapping_mul(0x9e37_79b9) % groups) as i64);
    spans.iter().enumerate().map(|(i, span)| row_of(&[key(i), Value::Int(i64::from(span.begin))])).collect()
}

/// How many rows of a group there are, and what their second column comes to.
#[derive(Clone, Copy, Default)]
struct Total {
    count: u64,
    sum: i128,
}

/// One row for each number in the first column, with how often it comes and the sum of the second, by std's map.
fn groups(name: &str, text: &str, rounds: u32, number: usize) {
    let rows = numbered_rows(text, number);
    run(name, text.len(), rounds, || {
        let mut known: HashMap<Value, usize> = HashMap::new();
        let mut totals: Vec<(Value, Total)> = Vec::new();
        for row in &rows {
            let group = *known.entry(row.values[0]).or_insert(totals.len());
            if group == totals.len() {
                totals.push((row.values[0], Total::default()));
            }
            if let Value::Int(n) = row.values[1] {
                totals[group].1.count += 1;
                totals[group].1.sum += i128::from(n);
            }
        }
        let out: Vec<Row> = totals
            .iter()
            .map(|(key, total)| row_of(&[*key, Value::Int(total.count as i64), Value::Int(total.sum.clamp(i128::from(i64::MIN), i128::from(i64::MAX)) as i64)]))
            .collect();
        out.len() as u64
    });
}

/// What is done with a copy of the rows: nothing, a sort, or the first ten by the second column and then whole.
enum Keep {
    Copy,
    Sort,
    FirstTen,
}

fn first_rows(name: &str, text: &str, rounds: u32, keep: Keep) {
    let mut rows = numbered_rows(text, 1000);
    mix(&mut rows);
    run(name, text.len(), rounds, || {
        let mut out = std::hint::black_box(rows.clone());
        match keep {
            Keep::Copy => {}
            Keep::Sort => out.sort_unstable(),
            Keep::FirstTen => {
                let key = |row: &Row<'static>| (row.values[1], *row);
                if out.len() > 10 {
                    out.select_nth_unstable_by_key(10, key);
                    out.truncate(10);
                }
                out.sort_unstable_by_key(key);
            }
        }
        out.len() as u64
    });
}

/// Rows of one span.
fn single_rows(spans: &[Span]) -> Vec<OpenRow<'static>> {
    spans.iter().map(|span| smallvec![Value::Span(*span)]).collect()
}

/// Each second token; each tenth of them reaches to the end of the token after it, where that is asked.
fn every_second(spans: &[Span], from: usize, wide: bool) -> Vec<Span> {
    let mut side = Vec::new();
    for i in (from..spans.len()).step_by(2) {
        let mut span = spans[i];
        if wide && i % 20 == 0 && i + 1 < spans.len() {
            span.end = spans[i + 1].end;
        }
        side.push(span);
    }
    side
}

/// The two sides of a join, in order: with few pairs each second token on either side; with all pairs, for the
/// predicates of order 1,000 tokens and the 1,000 after them, and for the others 1,000 times the span of the text.
fn sides(text: &str, all: bool, around: bool) -> (Vec<OpenRow<'static>>, Vec<OpenRow<'static>>) {
    let spans = spans_of(text);
    if !all {
        return (single_rows(&every_second(&spans, 0, around)), single_rows(&every_second(&spans, 1, false)));
    }
    let first: Vec<Span> = spans.iter().copied().take(1000).collect();
    if around {
        let whole = Span { begin: 0, end: text.chars().count() as u32 };
        return (single_rows(&[whole; 1000]), single_rows(&first));
    }
    let next: Vec<Span> = spans.iter().copied().skip(1000).take(1000).collect();
    (single_rows(&first), single_rows(&next))
}

/// A row of any number of values, of which up to four are kept inline: the form of the rows of `aqlx`.
type OpenRow<'d> = SmallVec<[Value<'d>; 4]>;

fn joined<'d>(left: &OpenRow<'d>, right: &OpenRow<'d>) -> OpenRow<'d> {
    let mut row = OpenRow::new();
    row.extend_from_slice(left);
    row.extend_from_slice(right);
    row
}

fn span_in(row: &OpenRow<'_>) -> Option<Span> {
    match row[0] {
        Value::Span(span) => Some(span),
        _ => None,
    }
}

/// A merge: for each left row the right rows from the first that isn't too near, up to the first that is too far.
fn merged(name: &str, text: &str, rounds: u32, all: bool, high: u64, gap: impl Fn(Span, Span) -> Option<u64>) {
    let (left, right) = sides(text, all, false);
    run(name, text.len(), rounds, || {
        let mut out = Vec::new();
        let mut from = 0;
        for l in &left {
            let Some(a) = span_in(l) else { continue };
            while from < right.len() && span_in(&right[from]).is_none_or(|b| gap(a, b).is_none()) {
                from += 1;
            }
            for r in &right[from..] {
                let Some(b) = span_in(r) else { continue };
                if gap(a, b).is_none_or(|gap| gap > high) {
                    break;
                }
                out.push(joined(l, r));
            }
        }
        out.len() as u64
    });
}

/// A sweep over both sides by begin: for each left row the right rows that may meet it.
fn swept(name: &str, text: &str, rounds: u32, all: bool, fits: impl Fn(Span, Span) -> bool) {
    let (left, right) = sides(text, all, true);
    run(name, text.len(), rounds, || {
        let mut out = Vec::new();
        let mut from = 0;
        for l in &left {
            let Some(a) = span_in(l) else { continue };
            while from < right.len() && span_in(&right[from]).is_none_or(|b| b.end < a.begin) {
                from += 1;
            }
            for r in &right[from..] {
                let Some(b) = span_in(r) else { continue };
                if b.begin > a.end {
                    break;
                }
                if fits(a, b) {
                    out.push(joined(l, r));
                }
            }
        }
        out.len() as u64
    });
}

/// A join of one kind.
fn join(name: &str, text: &str, rounds: u32, kind: &str, all: bool) {
    let high = if all { u64::MAX } else { 1 };
    match kind {
        "follows" => merged(name, text, rounds, all, high, |a, b| b.begin.checked_sub(a.end).map(u64::from)),
        "follows-tok" => {
            let tokens = spans_of(text);
            let high = if all { u64::MAX } else { 0 };
            merged(name, text, rounds, all, high, |a, b| {
                let first = tokens.partition_point(|token| token.begin < a.end);
                let last = tokens.partition_point(|token| token.end <= b.begin);
                (a.end <= b.begin).then(|| last.saturating_sub(first) as u64)
            });
        }
        "overlaps" => swept(name, text, rounds, all, |a, b| (a.begin < b.end && b.begin < a.end) || a == b),
        _ => swept(name, text, rounds, all, |a, b| a.begin <= b.begin && b.end <= a.end),
    }
}

fn main() {
    let words: Vec<String> = std::env::args().collect();
    let [_, name, file, rounds] = words.as_slice() else {
        eprintln!("usage: layers NAME FILE ROUNDS");
        std::process::exit(2);
    };
    let text = std::fs::read_to_string(file).expect("the file");
    let rounds: u32 = rounds.parse().expect("the number of rounds");
    let found = |pattern| matches(name, &text, rounds, pattern);
    match name.as_str() {
        "tokens" => run(name, text.len(), rounds, || {
            text.lines().map(|line| Document::new(line).tokens.len() as u64).sum()
        }),
        "digits" => found("[0-9]+"),
        "dates" => found(r"\b\d{4}-\d{2}-\d{2}\b"),
        "addresses" => found(r"[A-Za-z0-9._%+-]+@[A-Za-z0-9.-]+\.[A-Za-z]{2,}"),
        "words" => found("about|after|again|below|could|every|first|found|great|house|large|never|other|place|right|small|sound|still|their|where"),
        "folded" => found(r"(?i)\b(meeting|agreement|contract|energy|power)\b"),
        "names" => token_runs(name, &text, rounds, "[A-Z][a-z]+( [A-Z][a-z]+)*"),
        "nested-repeat" => found("(a+)+$"),
        "twofold-choice" => found("(a|a)*b"),
        "optional-letters" => found("(?:a?){50}a{50}"),
        "thousand-letters" => found(r"\w{1000}"),
        "rows-rising" => rows(name, &text, rounds, "rising"),
        "rows-falling" => rows(name, &text, rounds, "falling"),
        "rows-mixed" => rows(name, &text, rounds, "mixed"),
        "dictionary-10" => dictionary(name, &text, rounds, 10),
        "dictionary-10000" => dictionary(name, &text, rounds, 10_000),
        "spans-made" => span_rows(name, &text, rounds, false),
        "spans-sorted" => span_rows(name, &text, rounds, true),
        "groups-10" => groups(name, &text, rounds, 10),
        "groups-1000" => groups(name, &text, rounds, 1000),
        "groups-all" => groups(name, &text, rounds, usize::MAX),
        "rows-copied" => first_rows(name, &text, rounds, Keep::Copy),
        "rows-sorted" => first_rows(name, &text, rounds, Keep::Sort),
        "first-ten" => first_rows(name, &text, rounds, Keep::FirstTen),
        "follows-few" => join(name, &text, rounds, "follows", false),
        "follows-all" => join(name, &text, rounds, "follows", true),
        "follows-tok-few" => join(name, &text, rounds, "follows-tok", false),
        "follows-tok-all" => join(name, &text, rounds, "follows-tok", true),
        "overlaps-few" => join(name, &text, rounds, "overlaps", false),
        "overlaps-all" => join(name, &text, rounds, "overlaps", true),
        "contains-few" => join(name, &text, rounds, "contains", false),
        "contains-all" => join(name, &text, rounds, "contains", true),
        "equal-numbers" | "long-spans" | "digit-spans" | "dictionary-behind" => filters::filter(name, &text, rounds),
        _ => {
            eprintln!("no bench has the name {name}");
            std::process::exit(2);
        }
    }
}
