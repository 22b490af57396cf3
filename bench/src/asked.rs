//! The rows that are asked for, by how they begin.

/// Words, each how a row begins: all rows that begin with one of them, or all where there is none. A - before a word leaves its
/// rows out.
pub struct Asked<'a>(pub &'a [&'a str]);

impl Asked<'_> {
    pub const ALL: Asked<'static> = Asked(&[]);

    pub fn has(&self, label: &str) -> bool {
        let begins = |word: &&str| label.starts_with(word);
        let (left_out, wanted): (Vec<&str>, Vec<&str>) =
            self.0.iter().partition(|word| word.starts_with('-'));
        (wanted.is_empty() || wanted.iter().any(begins)) && !left_out.iter().any(|word| begins(&&word[1..]))
    }
}

/// Each name once, in the order in which they come first.
pub fn once(names: impl Iterator<Item = &'static str>) -> Vec<&'static str> {
    let mut once = Vec::new();
    for name in names {
        if !once.contains(&name) {
            once.push(name);
        }
    }
    once
}
