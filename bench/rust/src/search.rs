//! Matches of patterns, joins of sorted spans, and consolidation.
use crate::document::{Document, Shown};
use crate::tokens::Span;
use regex::Regex;
use serde::Serialize;

/// A row of one span.
#[derive(Serialize)]
pub struct Found<'d> {
    found: Shown<'d>,
}

/// Spans as rows.
pub fn rows<'d>(doc: &Document<'d>, spans: &[Span]) -> Vec<Found<'d>> {
    spans.iter().map(|span| Found { found: doc.shown(*span) }).collect()
}

/// The successive matches of a pattern.
pub fn matches(regex: &Regex, doc: &Document<'_>) -> Vec<Span> {
    regex.find_iter(doc.text).map(|at| Span { begin: at.start(), end: at.end() }).collect()
}

/// The form of a pattern that matches whole texts.
pub fn whole(pattern: &str) -> Regex {
    Regex::new(&format!(r"\A(?:{pattern})\z")).expect("a pattern")
}

/// From each token the longest run of `low` to `high` tokens that a whole-text pattern matches.
pub fn token_runs(regex: &Regex, doc: &Document<'_>, low: usize, high: usize) -> Vec<Span> {
    let tokens = &doc.tokens;
    let mut found = Vec::new();
    for (number, first) in tokens.iter().enumerate() {
        for count in (low..=high.min(tokens.len() - number)).rev() {
            let run = Span { begin: first.begin, end: tokens[number + count - 1].end };
            if regex.is_match(doc.text_of(run)) {
                found.push(run);
                break;
            }
        }
    }
    found
}

/// From the token with that number the longest run of at most so many tokens that a whole-text pattern matches.
pub fn token_run(regex: &Regex, doc: &Document<'_>, number: usize, most: usize) -> Option<Span> {
    let tokens = doc.tokens.get(number..)?;
    let begin = tokens.first()?.begin;
    let mut runs = tokens.iter().take(most).map(|last| Span { begin, end: last.end }).rev();
    runs.find(|run| regex.is_match(doc.text_of(*run)))
}

/// The spans of `right`, which stands in order, that begin at or behind the end of `left`, in order.
pub fn behind(left: Span, right: &[Span]) -> impl Iterator<Item = Span> + '_ {
    right[right.partition_point(|span| span.begin < left.end)..].iter().copied()
}

/// The distinct spans that no other contains, in order.
pub fn outermost(mut spans: Vec<Span>) -> Vec<Span> {
    spans.sort_unstable_by_key(|span| (span.begin, std::cmp::Reverse(span.end)));
    let mut end = None;
    spans.retain(|span| {
        let stays = end.is_none_or(|end| span.end > end);
        if stays {
            end = Some(span.end);
        }
        stays
    });
    spans
}

/// The distinct spans that contain no other.
pub fn innermost(mut spans: Vec<Span>) -> Vec<Span> {
    spans.sort_unstable_by_key(|span| (std::cmp::Reverse(span.begin), span.end));
    let mut end = None;
    spans.retain(|span| {
        let stays = end.is_none_or(|end| span.end < end);
        if stays {
            end = Some(span.end);
        }
        stays
    });
    spans
}
