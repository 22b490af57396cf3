//! Recordings as text: what is a recording, what is a comment, and what is neither.
use hits::pages::{Line, Lines, LINE_MOST};
use std::io::BufReader;

/// A line as a text: its pages, `comment`, or what is wrong with it.
fn lines(text: &[u8]) -> Vec<String> {
    // a block of a few bytes, so that lines and numbers lie across blocks
    let mut lines = Lines::new(BufReader::with_capacity(3, text));
    let mut read = Vec::new();
    while let Some(line) = lines.read().expect("bytes") {
        read.push(match line {
            Line::Recording(pages) => format!("{pages:?}"),
            Line::Comment => "comment".to_string(),
            Line::Other(why) => why,
        });
        assert_eq!(lines.number(), read.len() as u64);
    }
    read
}

#[test]
fn pages_stand_between_blanks() {
    assert_eq!(lines(b"1 2 3\n"), ["[1, 2, 3]"]);
    assert_eq!(lines(b"  7\t\t8 \n"), ["[7, 8]"]);
    assert_eq!(lines(b"0 007 4095 4096 65535"), ["[0, 7, 4095, 4096, 65535]"]);
    assert_eq!(lines(b"1\r\n2 3\r\n"), ["[1]", "[2, 3]"]);
    assert_eq!(lines(b"\xef\xbb\xbf5 6\n7\n"), ["[5, 6]", "[7]"]);
}

/// A page that no number of 16 bits holds is one that no tally takes.
#[test]
fn a_large_number_stays_large() {
    assert_eq!(lines(b"65536 99999999999999999999 00000000000000000001"), ["[65535, 65535, 1]"]);
}

#[test]
fn an_empty_line_is_a_recording_and_a_comment_is_none() {
    assert_eq!(lines(b""), [""; 0]);
    assert_eq!(lines(b"\n"), ["[]"]);
    assert_eq!(lines(b"1\n\n2\n \t\r\n"), ["[1]", "[]", "[2]", "[]"]);
    assert_eq!(
        lines(b"#\n  # 1 2\n1 2 # 3\n4#5\n# at the end"),
        ["comment", "comment", "[1, 2]", "[4]", "comment"]
    );
}

#[test]
fn other_words_are_shown_with_their_place() {
    for (line, place, word) in [
        ("root", 1, "root"),
        ("1 2 x 3", 3, "x"),
        ("12x", 1, "12x"),
        ("x12", 1, "x12"),
        ("1 -2", 2, "-2"),
        ("+1", 1, "+1"),
        ("1,2", 1, "1,2"),
        ("1.0", 1, "1.0"),
        ("0x10", 1, "0x10"),
        ("1 2\u{a0}3", 2, "2\\u{a0}3"),
        ("5 5\r9 7", 2, "5\\r9"),
        ("1 abc#d", 2, "abc"),
        ("\u{661}", 1, "\u{661}"),
        ("1 ab\0c", 2, "ab\\0c"),
        ("abcdefghijklmnopqrst", 1, "abcdefghijklmnopqrst"),
        ("abcdefghijklmnopqrstu", 1, "abcdefghijklmnopqrst.."),
    ] {
        let why = format!("place {place} has '{word}', which is no page number");
        assert_eq!(lines(format!("1\n{line}\n2").as_bytes()), ["[1]", &why, "[2]"], "{line}");
    }
    let why = "a carriage return in the comment: a line ends with a line feed";
    assert_eq!(lines(b"# a\r1 2\r\n3 # b\r4\n5 # c\r\n"), [why, why, "[5]"]);
    assert_eq!(lines(b"5 \xff\xfe"), ["place 2 has '\u{fffd}\u{fffd}', which is no page number"]);
    assert_eq!(lines(b"1\n\xef\xbb\xbf5"), ["[1]", "place 1 has '\\u{feff}5', which is no page number"]);
}

#[test]
fn a_line_has_an_end() {
    let longest = [&b"7"[..], &vec![b' '; LINE_MOST - 1]].concat();
    let longer = [&longest[..], b" "].concat();
    for end in [&b""[..], b"\n", b"\n8\n"] {
        let after = if end.len() > 1 { vec!["[8]".to_string()] } else { Vec::new() };
        let why = "more than 1,048,576 bytes: a recording ends with its line".to_string();
        assert_eq!(lines(&[&longest, end].concat()), [vec!["[7]".to_string()], after.clone()].concat());
        assert_eq!(lines(&[&longer, end].concat()), [vec![why], after].concat());
    }
}
