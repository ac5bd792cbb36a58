//! Dictionaries: a hash map from the texts of runs of tokens.
use crate::document::Document;
use crate::tokens::{Span, tokens_of};
use std::collections::HashMap;

/// The entries and their beginnings, as texts of tokens with a blank between; true for an entry.
pub struct Dictionary {
    runs: HashMap<String, bool>,
}

/// Puts the full case folding of a token behind `key`.
fn push_folded(key: &mut String, token: &str) {
    if token.is_ascii() {
        key.extend(token.bytes().map(|byte| char::from(byte.to_ascii_lowercase())));
        return;
    }
    for c in token.chars() {
        match c {
            'ẞ' => key.push_str("ss"),
            'ı' => key.push('ı'),
            _ => key.extend(c.to_uppercase().flat_map(char::to_lowercase)),
        }
    }
}

/// Gives each beginning of an entry, as the text of its tokens, with whether it is the whole entry.
fn for_beginnings(entry: &str, mut put: impl FnMut(&str, bool)) {
    let tokens = tokens_of(entry);
    let mut key = String::new();
    for (number, token) in tokens.iter().enumerate() {
        if number > 0 {
            key.push(' ');
        }
        push_folded(&mut key, &entry[token.begin..token.end]);
        put(&key, number + 1 == tokens.len());
    }
}

/// Gives the runs of tokens that the map has, in order, with what it has for them.
fn for_runs<T: Copy>(doc: &Document<'_>, runs: &HashMap<String, T>, mut give: impl FnMut(Span, T)) {
    let mut key = String::new();
    for (number, first) in doc.tokens.iter().enumerate() {
        key.clear();
        for token in &doc.tokens[number..] {
            if !key.is_empty() {
                key.push(' ');
            }
            push_folded(&mut key, doc.text_of(*token));
            match runs.get(&key) {
                Some(run) => give(Span { begin: first.begin, end: token.end }, *run),
                None => break,
            }
        }
    }
}

impl Dictionary {
    pub fn new<'e>(entries: impl IntoIterator<Item = &'e str>) -> Dictionary {
        let mut runs = HashMap::new();
        for entry in entries {
            for_beginnings(entry, |key, is_entry| *runs.entry(key.to_owned()).or_insert(false) |= is_entry);
        }
        Dictionary { runs }
    }

    /// The spans of the runs of tokens that are entries, in order.
    pub fn matches(&self, doc: &Document<'_>) -> Vec<Span> {
        let mut found = Vec::new();
        for_runs(doc, &self.runs, |span, is_entry| {
            if is_entry {
                found.push(span);
            }
        });
        found
    }
}

/// Several dictionaries in one map: a bit for each of which a run is an entry, none for a beginning alone.
pub struct Dictionaries<const N: usize> {
    runs: HashMap<String, u32>,
}

impl<const N: usize> Dictionaries<N> {
    pub fn new(dictionaries: [&[&str]; N]) -> Dictionaries<N> {
        let mut runs = HashMap::new();
        for (number, entries) in dictionaries.iter().enumerate() {
            for entry in *entries {
                for_beginnings(entry, |key, is_entry| {
                    *runs.entry(key.to_owned()).or_insert(0) |= u32::from(is_entry) << number;
                });
            }
        }
        Dictionaries { runs }
    }

    /// For each dictionary the spans of the runs of tokens that are its entries, in order.
    pub fn matches(&self, doc: &Document<'_>) -> [Vec<Span>; N] {
        let mut found = [const { Vec::new() }; N];
        for_runs(doc, &self.runs, |span, bits: u32| {
            for (number, spans) in found.iter_mut().enumerate() {
                if bits >> number & 1 == 1 {
                    spans.push(span);
                }
            }
        });
        found
    }
}
