//! Calls in words: lines such as `fix 3 of 0 0`, the listing's 16-byte records, and what each answer means.
pub mod known;
pub mod line;
pub mod listing;
pub mod record;
pub mod recording;
pub mod refusal;
pub mod replay;
pub mod rules;
