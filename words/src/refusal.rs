//! What each refusal's number means, in the words of `rules.txt`.
use crate::rules::Table;

/// What a number in the second column of a listing means, also in a listing from before a request; 0 is accepted. The error says
/// which numbers there are.
pub fn meaning(table: &Table, number: &str) -> Result<&'static str, String> {
    let told = number.parse().ok().and_then(|number| table.sentence(number));
    told.ok_or_else(|| format!("expected a number of rules.txt, found '{number}'"))
}

/// What a refusal's number means of a tally, as a line; nothing where no call of a tally is refused by it.
pub fn of_tally(table: &Table, number: &str) -> String {
    let refused = number.parse().ok().filter(|number| *number != 0);
    let told = refused.and_then(|number| table.tally_sentence(number));
    told.map(|sentence| format!("{number} of a tally: {sentence}\n")).unwrap_or_default()
}

/// A line of a listing with the meaning of its refusal behind it; the line alone where it was accepted.
pub fn explain(table: &Table, line: &str) -> Result<String, String> {
    let numbers: Vec<&str> = line.split_whitespace().take_while(|word| word.parse::<u16>().is_ok()).collect();
    match numbers[..] {
        [_, "0", _, _] => Ok(line.to_string()),
        [_, number, _, _] => Ok(format!("{line}  # {number}: {}", meaning(table, number)?)),
        _ => Err(format!("expected four numbers, found '{line}'")),
    }
}
