//! The table of rules against the C header and the Rust package: numbers, names, and which call is refused by which, in which
//! order. And that a number which the table's head calls a hole stays one.
use pagepool::{NoRule, Refusal};
use pool_tests::calls::{DRAW, NAMES};
use std::fs;
use words::rules::Table;

const HEADER: &str = include_str!("../../include/pagepool.h");

/// The calls of a tally, `pool_tally_add` and so on.
const TALLY_CALLS: [&str; 3] = ["add", "share", "report"];

/// The package's sources, one after the other.
fn package() -> String {
    let folder = concat!(env!("CARGO_MANIFEST_DIR"), "/../rust/src");
    let files = fs::read_dir(folder).expect(folder).map(|entry| entry.expect(folder).path());
    files.map(|path| fs::read_to_string(&path).expect("a source")).collect()
}

/// The lines of an enum that give a name its number, as `NAME = NUMBER,`.
fn named_numbers<'a>(source: &'a str, opening: &str) -> Vec<(&'a str, u8)> {
    let body = source.split_once(opening).and_then(|(_, after)| after.split_once('}')).expect(opening).0;
    let lines = body.lines().map(str::trim).filter(|line| !line.starts_with('/'));
    let pairs = lines.filter_map(|line| line.trim_end_matches(',').split_once(" = "));
    pairs.map(|(name, number)| (name, number.parse().expect(name))).collect()
}

/// The numbers after "Refused:" in the comment that ends before a function's declaration, as they stand there.
fn refused(source: &str, declaration: &str) -> Vec<u8> {
    let before = source.split_once(declaration).unwrap_or_else(|| panic!("no '{declaration}'")).0;
    let sentence = before.rsplit_once("Refused:").expect(declaration).1.split('.').next().unwrap_or_default();
    let words = sentence.split(|sign: char| !sign.is_ascii_digit()).filter(|word| !word.is_empty());
    words.map(|word| word.parse().expect(declaration)).collect()
}

/// `POOL_BAD_SLOT` as Rust writes it, `BadSlot`.
fn in_rust(name: &str) -> String {
    let words = name.trim_start_matches("POOL_").split('_');
    words.map(|word| word[..1].to_string() + &word[1..].to_lowercase()).collect()
}

#[test]
fn the_tables_calls_are_those_of_the_tests() {
    assert_eq!(Table::standing().calls, [&NAMES[..], &[DRAW]].concat());
}

#[test]
fn the_headers_enum() {
    let table = Table::standing();
    let rules: Vec<_> = table.rules.iter().filter_map(|rule| Some((rule.name?, rule.number))).collect();
    assert_eq!(named_numbers(HEADER, "enum pool_refusal {"), rules);
}

#[test]
fn the_packages_refusals() {
    let table = Table::standing();
    let refusals = table.rules.iter().filter(|rule| rule.number != 0);
    let rules: Vec<_> = refusals.filter_map(|rule| Some((in_rust(rule.name?), rule.number))).collect();
    let named = Refusal::ALL.iter().map(|refusal| (format!("{refusal:?}"), refusal.number()));
    assert_eq!(named.collect::<Vec<_>>(), rules);
}

/// The header and the package say each rule in the same words.
#[test]
fn the_same_sentences() {
    for (refusal, rule) in Refusal::ALL.iter().zip(&Table::standing().rules[1..]) {
        let entry =
            format!("/* {} */\n    {} = {}", refusal.sentence(), rule.name.unwrap_or("-"), refusal.number());
        assert!(HEADER.contains(&entry), "no '{entry}'");
    }
}

/// What a call is refused by, in checking order, as the header and the package say beside it.
fn expect_refused(package: &str, call: &str, rules: &[u8]) {
    let name = format!(" pool_{call}(");
    let in_header = |line: &&str| !line.starts_with(' ') && line.contains(&name);
    let declared = HEADER.lines().find(in_header).expect(call);
    assert_eq!(refused(HEADER, declared), rules, "include/pagepool.h, pool_{call}");
    let declaration = ["(", "<"].map(|sign| format!("\npub fn {call}{sign}"));
    let declared = declaration.iter().find(|text| package.contains(*text)).expect(call);
    assert_eq!(refused(package, declared), rules, "rust/src, {call}");
}

#[test]
fn refused_by_which() {
    let (table, package) = (Table::standing(), package());
    for call in &table.calls {
        let rules: Vec<u8> = table.answers(call).filter(|number| *number != 0).collect();
        expect_refused(&package, call, &rules);
    }
}

/// A tally's calls answer numbers of the table, in its order, and header and package say by which they are refused.
#[test]
fn a_tallys_calls() {
    let (table, package) = (Table::standing(), package());
    let of_tally = |number: &u8| table.tally_sentence(*number).is_some();
    let order: Vec<u8> = table.rules.iter().map(|rule| rule.number).filter(of_tally).collect();
    assert_eq!(table.tally.iter().map(|rule| rule.number).collect::<Vec<_>>(), order);
    for call in TALLY_CALLS {
        let answers = table.tally.iter().filter(|rule| rule.calls.contains(&call)).map(|rule| rule.number);
        let (accepted, rules): (Vec<u8>, Vec<u8>) = answers.partition(|number| *number == 0);
        assert_eq!(accepted, [0], "{call}");
        expect_refused(&package, &format!("tally_{call}"), &rules);
    }
    let calls: Vec<_> = table.tally.iter().flat_map(|rule| &rule.calls).collect();
    assert!(calls.iter().all(|call| TALLY_CALLS.contains(call)), "{calls:?}");
}

/// A number that is a hole is no rule, in the table, the header or the package.
#[test]
fn holes_stay_empty() {
    let (table, named) = (Table::standing(), named_numbers(HEADER, "enum pool_refusal {"));
    assert!(!table.holes.is_empty());
    for (hole, _) in table.holes.clone() {
        assert_eq!(table.rule(hole), None);
        assert!(named.iter().all(|(_, number)| *number != hole), "include/pagepool.h, {hole}");
        assert_eq!(Refusal::try_from(hole), Err(NoRule(hole)));
    }
}
