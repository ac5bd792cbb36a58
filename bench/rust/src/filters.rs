//! Rows of a span and two numbers, filtered by a condition: a tree of operators that is gone through for each row, since
//! only the text of a program says what it is.
use crate::{Document, OpenRow, Span, Value, entries, fold, run};
use smallvec::smallvec;
use std::collections::HashSet;

/// What a call does; a pattern or a dictionary by its number.
#[derive(Clone, Copy)]
enum Op {
    Equals,
    GreaterThan,
    GetLength,
    RightContextTok,
    MatchesRegex(usize),
    ContainsDict(usize),
}

enum Expr {
    Column(usize),
    Int(i64),
    Call(Op, Vec<Expr>),
}

/// The patterns in their whole-text form, the folded entries of the dictionaries, and room for a folded token.
struct Tools {
    patterns: Vec<regex::Regex>,
    dicts: Vec<HashSet<String>>,
    buffer: String,
}

impl Document<'_> {
    fn text_of(&self, span: Span) -> &str {
        &self.text[self.byte(span.begin)..self.byte(span.end)]
    }

    fn right_context(&self, span: Span, count: i64) -> Span {
        let first = self.tokens.partition_point(|token| token.begin < span.end);
        let past = first.saturating_add(usize::try_from(count).unwrap_or(0)).min(self.tokens.len());
        let end = if past > first { self.tokens[past - 1].end } else { span.end };
        Span { begin: span.end, end }
    }
}

impl Tools {
    /// Whether a token in the span, folded, is an entry.
    fn has_entry(&mut self, dict: usize, doc: &Document<'_>, span: Span) -> bool {
        let Some(dict) = self.dicts.get(dict) else { return false };
        let first = doc.tokens.partition_point(|token| token.begin < span.begin);
        for token in &doc.tokens[first..] {
            if token.end > span.end {
                break;
            }
            fold(doc.text_of(*token), &mut self.buffer);
            if dict.contains(self.buffer.as_str()) {
                return true;
            }
        }
        false
    }

    fn applied_to_one<'d>(&mut self, doc: &Document<'d>, op: Op, a: Value<'d>) -> Value<'d> {
        match (op, a) {
            (Op::GetLength, Value::Span(s)) => Value::Int(i64::from(s.end - s.begin)),
            (Op::MatchesRegex(p), Value::Span(s)) => {
                Value::Bool(self.patterns.get(p).is_some_and(|pattern| pattern.is_match(doc.text_of(s))))
            }
            (Op::ContainsDict(d), Value::Span(s)) => Value::Bool(self.has_entry(d, doc, s)),
            (Op::MatchesRegex(_) | Op::ContainsDict(_), _) => Value::Bool(false),
            _ => Value::Null,
        }
    }
}

fn applied_to_two<'d>(doc: &Document<'d>, op: Op, a: Value<'d>, b: Value<'d>) -> Value<'d> {
    match (op, a, b) {
        (Op::Equals, a, b) => Value::Bool(a != Value::Null && a == b),
        (Op::GreaterThan, Value::Int(m), Value::Int(n)) => Value::Bool(m > n),
        (Op::GreaterThan, _, _) => Value::Bool(false),
        (Op::RightContextTok, Value::Span(s), Value::Int(n)) => Value::Span(doc.right_context(s, n)),
        _ => Value::Null,
    }
}

fn eval<'d>(tools: &mut Tools, doc: &Document<'d>, row: &OpenRow<'d>, expr: &Expr) -> Value<'d> {
    match expr {
        Expr::Column(n) => row.get(*n).copied().unwrap_or(Value::Null),
        Expr::Int(n) => Value::Int(*n),
        Expr::Call(op, args) => match args.as_slice() {
            [a] => {
                let a = eval(tools, doc, row, a);
                tools.applied_to_one(doc, *op, a)
            }
            [a, b] => {
                let a = eval(tools, doc, row, a);
                let b = eval(tools, doc, row, b);
                applied_to_two(doc, *op, a, b)
            }
            _ => Value::Null,
        },
    }
}

fn cond_of(name: &str) -> Expr {
    let column = |n| Expr::Column(n);
    match name {
        "equal-numbers" => Expr::Call(Op::Equals, vec![column(1), column(2)]),
        "long-spans" => {
            let length = Expr::Call(Op::GetLength, vec![column(0)]);
            Expr::Call(Op::GreaterThan, vec![length, Expr::Int(8)])
        }
        "digit-spans" => Expr::Call(Op::MatchesRegex(0), vec![column(0)]),
        _ => {
            let behind = Expr::Call(Op::RightContextTok, vec![column(0), Expr::Int(4)]);
            Expr::Call(Op::ContainsDict(0), vec![behind])
        }
    }
}

/// A row for each token, up to 100,000, filtered by the condition that is named.
pub(crate) fn filter(name: &str, text: &str, rounds: u32) {
    let mut buffer = String::new();
    let mut dict = HashSet::new();
    for entry in entries(&crate::documents(text), 100) {
        fold(&entry, &mut buffer);
        dict.insert(buffer.clone());
    }
    let pattern = regex::Regex::new(r"\A(?:[0-9]+)\z").expect("a pattern");
    let mut tools = Tools { patterns: vec![pattern], dicts: vec![dict], buffer };
    let conds = [cond_of(name)];
    let doc = Document::new(text);
    let rows: Vec<OpenRow<'_>> = doc
        .tokens
        .iter()
        .take(100_000)
        .enumerate()
        .map(|(i, token)| smallvec![Value::Span(*token), Value::Int(i as i64 % 10), Value::Int(i as i64 / 10 % 10)])
        .collect();
    run(name, text.len(), rounds, || {
        let mut count = 0;
        for row in &rows {
            if conds.iter().all(|cond| eval(&mut tools, &doc, row, cond) == Value::Bool(true)) {
                count += 1;
            }
        }
        count
    });
}
