//! Lines to records and back, and the meanings of refusals.
use words::line::{format, parse};
use words::record::{Record, SIZE};
use words::refusal::{explain, meaning};
use words::rules::Table;

fn record(line: &str) -> Record {
    parse(line).expect(line).expect("a call")
}

/// The document's example, as records of its text.
#[test]
fn the_documents_example() {
    let lines = ["root", "link 7 3 of 0 0", "fix 3 of 0 0", "evict 7", "unfix 1 7", "evict 7"];
    let records: Vec<Record> = lines.iter().map(|line| record(line)).collect();
    assert_eq!(records[0][..7], [1, 0, 0, 0, 0, 0, 0]);
    assert_eq!(records[1][..9], [5, 0, 7, 0, 3, 0, 0, 0, 0]);
    assert_eq!(records[2][..7], [2, 0, 0, 0, 3, 0, 0]);
    assert_eq!(records[3][..7], [7, 0, 7, 0, 0, 0, 0]);
    assert_eq!(records[4][..7], [3, 1, 7, 0, 0, 0, 0]);
    for (line, record) in lines.iter().zip(&records) {
        assert_eq!(&format(record), line);
    }
}

#[test]
fn each_field_has_its_place() {
    assert_eq!(record("write 191 0aff of 2 258"), [4, 2, 2, 1, 0, 191, 2, 0x0a, 0xff, 0, 0, 0, 0, 0, 0, 0]);
    assert_eq!(record("write 192 - of 0 0")[6], 0);
    assert_eq!(record("link 4095 15 of 63 513"), [5, 63, 255, 15, 15, 0, 0, 1, 2, 0, 0, 0, 0, 0, 0, 0]);
    assert_eq!(record("unlink 16 of 1 7")[..5], [6, 1, 7, 0, 16]);
    assert_eq!(record("settle")[0], 8);
    assert_eq!(record("find 300")[..4], [9, 0, 44, 1]);
}

/// Every record is made again by its line, whatever its bytes are.
#[test]
fn any_record_comes_back() {
    let mut seed: u64 = 0x9e37_79b9_7f4a_7c15;
    for round in 0..200_000 {
        let mut bytes = [0; SIZE];
        for byte in &mut bytes {
            seed ^= seed << 13;
            seed ^= seed >> 7;
            seed ^= seed << 17;
            // most bytes small, so that calls, slots and lengths are often good ones
            *byte = if seed.is_multiple_of(3) { (seed >> 32) as u8 } else { (seed >> 32) as u8 % 12 };
        }
        if round % 2 == 0 {
            bytes[10..].fill(0);
        }
        assert_eq!(record(&format(&bytes)), bytes);
    }
}

#[test]
fn a_bad_line_says_what_was_expected() {
    for (line, expected) in [
        ("pin 3", "expected a call, found 'pin'"),
        ("fix", "expected fix SLOT of FRAME PAGE"),
        ("fix 3 0 0", "expected fix SLOT of FRAME PAGE"),
        ("root 0", "expected root"),
        ("fix 256 of 0 0", "expected a slot from 0 to 255, found '256'"),
        ("unfix 0 65536", "expected a page from 0 to 65535, found '65536'"),
        ("evict seven", "expected a page from 0 to 65535, found 'seven'"),
        ("write 0 00112233445566778899 of 0 0", "expected up to 9 bytes in hexadecimal"),
        ("write 0 0a0 of 0 0", "expected up to 9 bytes in hexadecimal"),
        ("record 00", "expected 32 hexadecimal digits, found '00'"),
    ] {
        let why = parse(line).expect_err(line);
        assert!(why.starts_with(expected), "{line}: {why}");
    }
    assert_eq!(parse("   # a comment"), Ok(None));
    assert_eq!(parse(""), Ok(None));
}

#[test]
fn refusals_are_explained() {
    let table = Table::standing();
    let pinned = meaning(&table, "21").unwrap();
    assert_eq!(pinned, "Evict's page is pinned. Unfix it until its pins are gone.");
    assert_eq!(explain(&table, "7 21 0 0").unwrap(), format!("7 21 0 0  # 21: {pinned}"));
    assert_eq!(explain(&table, "2 0 1 7").unwrap(), "2 0 1 7");
    assert!(explain(&table, "7 255 0 0").is_err());
    assert!(explain(&table, "7 21 0").is_err());
    assert_eq!(meaning(&table, "4"), Ok("The slot is above 15."));
    assert_eq!(meaning(&table, "28"), Ok("The store number isn't below T."));
    let [below, at] = ["15", "27"].map(|number| meaning(&table, number).expect(number));
    assert!(below.contains("for a store below its ceiling") && at.starts_with("The store is at its ceiling"));
    let [(hole, said)] = table.holes[..] else { panic!("{:?}", table.holes) };
    assert_eq!(explain(&table, &format!("7 {hole} 0 0")), Ok(format!("7 {hole} 0 0  # {hole}: {said}")));
    assert!(said.starts_with("Evict's page is the root, pinned, or has a swizzled word."));
    assert!(meaning(&table, "255").is_err());
}
