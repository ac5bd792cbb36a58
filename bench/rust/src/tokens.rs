//! The tokens of a text: longest runs of word characters, and each other character that isn't white space.
use regex_syntax::hir::{Class as Classes, HirKind};
use std::sync::OnceLock;

/// A span of bytes of a text, half-open, from 0.
#[derive(Clone, Copy, PartialEq, Eq, PartialOrd, Ord, Hash)]
pub struct Span {
    pub begin: usize,
    pub end: usize,
}

/// What a character is for tokens.
#[derive(Clone, Copy, PartialEq, Eq)]
pub enum Class {
    Space,
    Word,
    Other,
}

const fn class_of_byte(byte: u8) -> Class {
    match byte {
        b' ' | b'\t' | b'\n' | b'\r' | 0x0b | 0x0c => Class::Space,
        b'0'..=b'9' | b'A'..=b'Z' | b'a'..=b'z' => Class::Word,
        _ => Class::Other,
    }
}

/// The classes of the ASCII characters.
pub const CLASSES: [Class; 128] = {
    let mut classes = [Class::Other; 128];
    let mut byte = 0;
    while byte < 128 {
        classes[byte] = class_of_byte(byte as u8);
        byte += 1;
    }
    classes
};

/// A bit for each character, set where it is a word character by Unicode's tables.
fn word_bits() -> Vec<u64> {
    let mut bits = vec![0; 0x11_0000 / 64];
    let words = regex_syntax::Parser::new().parse(r"[\p{Alphabetic}\p{Nd}\p{Nl}\p{No}\p{Mn}\p{Mc}]");
    if let Ok(HirKind::Class(Classes::Unicode(class))) = words.map(|hir| hir.into_kind()) {
        for range in class.ranges() {
            for c in u32::from(range.start())..=u32::from(range.end()) {
                bits[c as usize / 64] |= 1 << (c % 64);
            }
        }
    }
    bits
}

/// The class of a character.
pub fn class_of(c: char) -> Class {
    static WORDS: OnceLock<Vec<u64>> = OnceLock::new();
    let code = c as usize;
    if code < 128 {
        CLASSES[code]
    } else if WORDS.get_or_init(word_bits)[code / 64] >> (code % 64) & 1 == 1 {
        Class::Word
    } else if c.is_whitespace() {
        Class::Space
    } else {
        Class::Other
    }
}

/// The tokens of a text, in order.
pub fn tokens_of(text: &str) -> Vec<Span> {
    let bytes = text.as_bytes();
    let mut tokens = Vec::with_capacity(text.len() / 4);
    let mut at = 0;
    while at < bytes.len() {
        let (class, size) = class_at(text, at);
        let begin = at;
        at += size;
        match class {
            Class::Space => continue,
            Class::Other => {}
            Class::Word => {
                while at < bytes.len() {
                    match class_at(text, at) {
                        (Class::Word, size) => at += size,
                        _ => break,
                    }
                }
            }
        }
        tokens.push(Span { begin, end: at });
    }
    tokens
}

/// The class of the character that begins at a byte, and its size.
fn class_at(text: &str, at: usize) -> (Class, usize) {
    let byte = text.as_bytes()[at];
    if byte < 128 {
        return (CLASSES[usize::from(byte)], 1);
    }
    match text[at..].chars().next() {
        Some(c) => (class_of(c), c.len_utf8()),
        None => (Class::Space, 1),
    }
}
