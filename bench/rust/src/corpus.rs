//! JSON lines from standard input, and for each document a JSON line with its views.
use crate::document::Document;
use serde::{Deserialize, Serialize};
use std::io::{self, BufRead, BufReader, BufWriter, StdoutLock, Write};

/// What is read of a line.
#[derive(Deserialize)]
struct Line {
    label: Option<String>,
    text: String,
}

/// Where lines are written.
pub type Output = BufWriter<StdoutLock<'static>>;

/// A part of a line as JSON.
pub fn write(out: &mut Output, part: &impl Serialize) -> io::Result<()> {
    serde_json::to_writer(out, part).map_err(io::Error::other)
}

/// Reads documents and writes their lines; `views` writes the value of the member `views`.
pub fn run(with_tokens: bool, mut views: impl FnMut(&Document<'_>, &mut Output) -> io::Result<()>) -> io::Result<()> {
    let mut corpus = BufReader::with_capacity(1 << 16, io::stdin().lock());
    let mut out = BufWriter::with_capacity(1 << 16, io::stdout().lock());
    let mut line = Vec::new();
    loop {
        line.clear();
        if corpus.read_until(b'\n', &mut line)? == 0 {
            return out.flush();
        }
        if line.iter().all(|byte| matches!(byte, b' ' | b'\t' | b'\r' | b'\n')) {
            continue;
        }
        let document: Line = serde_json::from_slice(&line)?;
        out.write_all(b"{")?;
        if let Some(label) = &document.label {
            out.write_all(b"\"label\":")?;
            write(&mut out, label)?;
            out.write_all(b",")?;
        }
        out.write_all(b"\"views\":")?;
        views(&Document::new(&document.text, with_tokens), &mut out)?;
        out.write_all(b"}\n")?;
    }
}
