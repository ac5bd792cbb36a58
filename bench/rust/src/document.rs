//! A document: its text, its tokens, and what shows its spans in characters.
use crate::tokens::{Span, tokens_of};
use serde::Serialize;

/// A span as it is written: in characters, with its text.
#[derive(Serialize)]
pub struct Shown<'d> {
    begin: usize,
    end: usize,
    text: &'d str,
}

pub struct Document<'t> {
    pub text: &'t str,
    /// The tokens, or none where the program asks for none.
    pub tokens: Vec<Span>,
    /// The number of characters before each block of 64 bytes; none for ASCII.
    blocks: Option<Vec<usize>>,
}

/// The characters that begin in the bytes.
fn count(bytes: &[u8]) -> usize {
    bytes.iter().filter(|byte| (**byte & 0xc0) != 0x80).count()
}

fn blocks(text: &str) -> Vec<usize> {
    let mut counts = Vec::with_capacity(text.len() / 64 + 2);
    let mut before = 0;
    for block in text.as_bytes().chunks(64) {
        counts.push(before);
        before += count(block);
    }
    counts.push(before);
    counts
}

impl<'t> Document<'t> {
    pub fn new(text: &'t str, with_tokens: bool) -> Document<'t> {
        Document {
            text,
            tokens: if with_tokens { tokens_of(text) } else { Vec::new() },
            blocks: if text.is_ascii() { None } else { Some(blocks(text)) },
        }
    }

    pub fn text_of(&self, span: Span) -> &'t str {
        &self.text[span.begin..span.end]
    }

    /// The number of characters before a byte.
    fn place(&self, byte: usize) -> usize {
        match &self.blocks {
            None => byte,
            Some(blocks) => blocks[byte / 64] + count(&self.text.as_bytes()[byte / 64 * 64..byte]),
        }
    }

    pub fn shown(&self, span: Span) -> Shown<'t> {
        Shown { begin: self.place(span.begin), end: self.place(span.end), text: self.text_of(span) }
    }

    /// The number of characters in a span.
    pub fn length(&self, span: Span) -> usize {
        self.place(span.end) - self.place(span.begin)
    }

    /// The number of characters from the end of one span to the begin of another, none where they don't follow.
    pub fn gap(&self, a: Span, b: Span) -> Option<usize> {
        (a.end <= b.begin).then(|| self.place(b.begin) - self.place(a.end))
    }

    /// The number of tokens that begin before the end of a span.
    pub fn tokens_before_end(&self, span: Span) -> usize {
        self.tokens.partition_point(|token| token.begin < span.end)
    }

    /// The number of tokens wholly before a span.
    pub fn tokens_before(&self, span: Span) -> usize {
        self.tokens.partition_point(|token| token.end <= span.begin)
    }

    /// The number of tokens wholly from the end of one span to the begin of another, none where they don't follow.
    pub fn token_gap(&self, a: Span, b: Span) -> Option<usize> {
        if a.end > b.begin {
            return None;
        }
        let first = self.tokens_before_end(a);
        let past = self.tokens_before(b);
        Some(past.saturating_sub(first))
    }
}
