//! What the programs of `extract` share: reading and writing, documents with their tokens, and the searches that the
//! language has and the crate `regex` hasn't.
pub mod corpus;
pub mod dictionary;
pub mod document;
pub mod search;
pub mod tokens;
