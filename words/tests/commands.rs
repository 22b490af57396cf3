//! The commands as a technician runs them: what they print, and how they end.
use std::fs::{self, File, OpenOptions};
use std::io::Write;
use std::os::unix::fs::PermissionsExt;
use std::path::PathBuf;
use std::process::{Command, Output, Stdio};
use words::rules::Table;

const LISTING: &str = concat!(env!("CARGO_MANIFEST_DIR"), "/../listing");

fn run(arguments: &[&str], input: &[u8], output: Stdio) -> Output {
    run_to(arguments, input, output, Stdio::piped())
}

fn run_to(arguments: &[&str], input: &[u8], output: Stdio, errors: Stdio) -> Output {
    let mut words = Command::new(env!("CARGO_BIN_EXE_words"));
    words.args(arguments).stdin(Stdio::piped()).stdout(output).stderr(errors);
    let mut run = words.spawn().expect("words");
    // a command that is wrong reads nothing
    let _ = run.stdin.take().expect("a pipe").write_all(input);
    run.wait_with_output().expect("words")
}

fn words(arguments: &[&str], input: &[u8]) -> (i32, String, String) {
    ended(run(arguments, input, Stdio::piped()))
}

fn ended(output: Output) -> (i32, String, String) {
    let text = |bytes: Vec<u8>| String::from_utf8_lossy(&bytes).into_owned();
    (output.status.code().expect("a status"), text(output.stdout), text(output.stderr))
}

/// A command that stands in for the listing.
fn stand_in(name: &str, script: &str) -> String {
    let path = PathBuf::from(env!("CARGO_TARGET_TMPDIR")).join(name);
    fs::write(&path, format!("#!/bin/sh\n{script}\n")).expect("a script");
    fs::set_permissions(&path, fs::Permissions::from_mode(0o755)).expect("a script");
    path.to_str().expect("a path").to_string()
}

const CALLS: &str = "\
# every call, and a record that is none
root
link 7 3 of 0 0
fix 3 of 0 0
evict 7
find 7
find 9
find 0
write 190 0102 of 1 7
write 192 - of 1 7
link 8 3 of 0 0
link 7 3 of 0 0
link 7 5 of 0 0
unlink 3 of 0 0
fix 4 of 0 0
unfix 1 7
unfix 2 7
evict 7
unlink 3 of 0 0
fix 3 of 0 0
settle
record 0b000000000000000000000000000000
";

const TOLD: &str = "\
1  root: page 0 in frame 0
2  link page 7 at slot 3 of page 0 in frame 0: done
3  fix slot 3 (page 7) of page 0 in frame 0: page 7 in frame 1
4  evict page 7: refused by rule 21: Evict's page is pinned. Unfix it until its pins are gone. It has 1 pin in frame 1.
5  find page 7: in frame 1
6  find page 9: absent
7  find page 0: in frame 0
8  write 0102 at 190 of page 7 in frame 1: done
9  write nothing at 192 of page 7 in frame 1: done
10  link page 8 at slot 3 (page 7) of page 0 in frame 0: refused by rule 8: Link meets a word that isn't 0. An empty slot takes it.
11  link page 7 at slot 3 (page 7) of page 0 in frame 0: refused by rule 9: Link's page is already named by a word of any page, resident pages taken by their images and the others from the store. Slot 3 of page 0 names it.
12  link page 7 at slot 5 of page 0 in frame 0: refused by rule 9: Link's page is already named by a word of any page, resident pages taken by their images and the others from the store. Slot 3 of page 0 names it.
13  unlink slot 3 (page 7) of page 0 in frame 0: refused by rule 10: Unlink's page is resident.
14  fix slot 4 of page 0 in frame 0: refused by rule 7: Fix or unlink meets a word of 0.
15  unfix page 7 in frame 1: done
16  unfix page 7 in frame 2: refused by rule 3: The handle's frame index isn't below F, that frame doesn't hold its page, or its pins are 0.
17  evict page 7: done
18  unlink slot 3 (page 7) of page 0 in frame 0: done
19  fix slot 3 of page 0 in frame 0: refused by rule 7: Fix or unlink meets a word of 0.
20  settle: done
21  record 0b000000000000000000000000000000: refused by rule 17: The listing program's record has a call outside 1 to 9 or a length above 9 (tested there before all others).
";

#[test]
fn a_recording_is_told_from_words_and_from_records() {
    assert_eq!(words(&["replay", LISTING, "-"], CALLS.as_bytes()), (0, TOLD.to_string(), String::new()));
    let records = run(&["records"], CALLS.as_bytes(), Stdio::piped()).stdout;
    assert_eq!(records.len(), 21 * 16);
    assert_eq!(words(&["replay", LISTING, "-"], &records).1, TOLD);
    let lines = words(&["lines"], &records).1;
    assert_eq!(words(&["replay", LISTING, "-"], lines.as_bytes()).1, TOLD);
}

/// A rule that the pool and a tally share says what it means of both.
#[test]
fn rules_of_a_tally() {
    let table = Table::standing();
    for rule in &table.rules {
        let number = rule.number.to_string();
        let told = words(&["rule", &number], b"").1;
        let of_tally = match rule.number {
            1 | 2 | 6 => {
                format!("{number} of a tally: {}\n", table.tally_sentence(rule.number).expect("a sentence"))
            }
            _ => String::new(),
        };
        assert_eq!(told, format!("{number}: {}\n{of_tally}", rule.sentence));
    }
}

/// A page that stays, for each reason, and what helps, done.
const STAYING: &str = "\
evict 0
root
evict 0
link 7 3 of 0 0
fix 3 of 0 0
link 9 0 of 1 7
link 11 4 of 1 7
fix 0 of 1 7
fix 0 of 1 7
evict 9
evict 7
fix 4 of 1 7
unfix 1 7
evict 7
evict 0
unfix 3 11
evict 11
evict 7
unfix 2 9
evict 9
unfix 2 9
evict 9
evict 7
unfix 0 0
evict 0
";

const STAYING_TOLD: &str = "\
1  evict page 0: refused by rule 20: Evict's page is the root. It never leaves its frame.
2  root: page 0 in frame 0
3  evict page 0: refused by rule 20: Evict's page is the root. It never leaves its frame.
4  link page 7 at slot 3 of page 0 in frame 0: done
5  fix slot 3 (page 7) of page 0 in frame 0: page 7 in frame 1
6  link page 9 at slot 0 of page 7 in frame 1: done
7  link page 11 at slot 4 of page 7 in frame 1: done
8  fix slot 0 (page 9) of page 7 in frame 1: page 9 in frame 2
9  fix slot 0 (page 9) of page 7 in frame 1: page 9 in frame 2
10  evict page 9: refused by rule 21: Evict's page is pinned. Unfix it until its pins are gone. It has 2 pins in frame 2.
11  evict page 7: refused by rule 21: Evict's page is pinned. Unfix it until its pins are gone. It has 1 pin in frame 1.
12  fix slot 4 (page 11) of page 7 in frame 1: page 11 in frame 3
13  unfix page 7 in frame 1: done
14  evict page 7: refused by rule 22: Evict's page has a swizzled word. First evict the resident pages that it names. Its slot 0 names page 9. Its slot 4 names page 11.
15  evict page 0: refused by rule 20: Evict's page is the root. It never leaves its frame.
16  unfix page 11 in frame 3: done
17  evict page 11: done
18  evict page 7: refused by rule 22: Evict's page has a swizzled word. First evict the resident pages that it names. Its slot 0 names page 9.
19  unfix page 9 in frame 2: done
20  evict page 9: refused by rule 21: Evict's page is pinned. Unfix it until its pins are gone. It has 1 pin in frame 2.
21  unfix page 9 in frame 2: done
22  evict page 9: done
23  evict page 7: done
24  unfix page 0 in frame 0: done
25  evict page 0: refused by rule 20: Evict's page is the root. It never leaves its frame.
";

#[test]
fn a_page_that_stays_is_told_with_what_to_do() {
    assert_eq!(
        words(&["replay", LISTING, "-"], STAYING.as_bytes()),
        (0, STAYING_TOLD.to_string(), String::new())
    );
}

/// A load that is denied a frame, and what helps, done: an unfix of a page that names no resident one, until its pins are gone.
const DENIED: &str = "\
root
link 10 0 of 0 0
link 11 1 of 0 0
link 12 2 of 0 0
fix 0 of 0 0
link 13 0 of 1 10
fix 0 of 1 10
fix 0 of 1 10
fix 1 of 0 0
fix 2 of 0 0
unfix 1 10
unfix 2 13
fix 2 of 0 0
unfix 2 13
fix 2 of 0 0
";

const DENIED_TOLD: &str = "\
1  root: page 0 in frame 0
2  link page 10 at slot 0 of page 0 in frame 0: done
3  link page 11 at slot 1 of page 0 in frame 0: done
4  link page 12 at slot 2 of page 0 in frame 0: done
5  fix slot 0 (page 10) of page 0 in frame 0: page 10 in frame 1
6  link page 13 at slot 0 of page 10 in frame 1: done
7  fix slot 0 (page 13) of page 10 in frame 1: page 13 in frame 2
8  fix slot 0 (page 13) of page 10 in frame 1: page 13 in frame 2
9  fix slot 1 (page 11) of page 0 in frame 0: page 11 in frame 3
10  fix slot 2 (page 12) of page 0 in frame 0: refused by rule 27: The store is at its ceiling and has no page of its own that a sweep could take. First unfix one that names no resident page until its pins are gone. Page 13 has 2 pins in frame 2. Page 11 has 1 pin in frame 3.
11  unfix page 10 in frame 1: done
12  unfix page 13 in frame 2: done
13  fix slot 2 (page 12) of page 0 in frame 0: refused by rule 27: The store is at its ceiling and has no page of its own that a sweep could take. First unfix one that names no resident page until its pins are gone. Page 13 has 1 pin in frame 2. Page 11 has 1 pin in frame 3.
14  unfix page 13 in frame 2: done
15  fix slot 2 (page 12) of page 0 in frame 0: page 12 in frame 2
";

#[test]
fn a_denied_load_is_told_with_what_to_do() {
    assert_eq!(
        words(&["replay", LISTING, "-"], DENIED.as_bytes()),
        (0, DENIED_TOLD.to_string(), String::new())
    );
}

#[test]
fn a_record_that_sets_bytes_which_it_does_not_use_is_told() {
    let mut records = [0xff; 16];
    records[0] = 1;
    records[6] = 9;
    assert_eq!(words(&["replay", LISTING, "-"], &records).1, "1  root: page 0 in frame 0\n");
}

#[test]
fn every_bad_line_is_named_and_nothing_is_written() {
    for arguments in [&["records"][..], &["replay", LISTING, "-"]] {
        let (status, out, why) = words(arguments, b"root\nfix 3\n\nevict 7\nhello world\n");
        assert_eq!((status, out.as_str()), (2, ""));
        let named = "line 2: expected fix SLOT of FRAME PAGE\nline 5: expected a call, found 'hello'\n";
        assert!(why.starts_with(named) && why.contains("a recording is"), "{why}");
    }
}

#[test]
fn a_hint_where_the_input_is_no_recording() {
    let zeros = [0; 320];
    for input in [&zeros[..], b"", b"\x7fELF\x02"] {
        let (status, _, why) = words(&["replay", LISTING, "-"], input);
        assert_eq!(status, 0);
        assert!(why.contains("a recording is"), "{why}");
    }
    let mut cut = run(&["records"], b"root\nsettle\n", Stdio::piped()).stdout;
    cut.truncate(21);
    let told = "1  root: page 0 in frame 0\n".to_string();
    let why = "a part record of 5 bytes at the end is left out\n".to_string();
    assert_eq!(words(&["replay", LISTING, "-"], &cut), (0, told, why));
    assert_eq!(words(&["replay", LISTING, "no/such/file"], b"").0, 2);
}

fn full() -> File {
    OpenOptions::new().write(true).open("/dev/full").expect("/dev/full")
}

#[test]
fn a_mark_in_front_of_words_is_none_of_them() {
    let marked = [&b"\xef\xbb\xbf"[..], CALLS.as_bytes()].concat();
    for arguments in [&["records"][..], &["replay", LISTING, "-"]] {
        assert_eq!(words(arguments, &marked), words(arguments, CALLS.as_bytes()), "{arguments:?}");
    }
    assert_eq!(words(&["records"], "\u{feff}root\n".as_bytes()).0, 0);
    let why = words(&["records"], "root\n\u{feff}root\n".as_bytes()).2;
    assert!(why.starts_with("line 2: expected a call, found"), "{why}");
}

#[test]
fn where_nothing_can_be_said_the_status_is_the_same() {
    let status = |arguments: &[&str], input: &[u8], output: Stdio| {
        ended(run_to(arguments, input, output, full().into())).0
    };
    // a part record is left out, and what is no recording told all the same
    assert_eq!(status(&["replay", LISTING, "-"], &[1; 21], Stdio::piped()), 0);
    assert_eq!(status(&["replay", LISTING, "-"], b"", Stdio::piped()), 0);
    assert_eq!(status(&["rule", "4"], b"", full().into()), 1);
    assert_eq!(status(&["records"], b"hop\n", Stdio::piped()), 2);
    assert_eq!(status(&["nosuch"], b"", Stdio::piped()), 2);
}

#[test]
fn lost_output_is_told_by_the_status() {
    for arguments in [&["records"][..], &["replay", LISTING, "-"], &["rule", "4"], &["--help"]] {
        let (status, _, why) = ended(run(arguments, b"root\n", full().into()));
        assert_eq!(status, 1, "{arguments:?}");
        assert!(why.contains("output was lost"), "{why}");
    }
    assert_eq!(ended(run(&["lines"], &[1; 16], full().into())).0, 1);
    assert_eq!(ended(run(&["explain"], b"1 0 0 0\n", full().into())).0, 1);
}

#[test]
fn a_listing_that_lost_its_output_is_told_by_the_status() {
    for (name, script) in [
        ("silent", "cat >/dev/null"),
        ("shorter", "cat >/dev/null; echo 1 0 0 0"),
        ("longer", "cat >/dev/null; printf '1 0 0 0\\n8 0 0 0\\n8 0 0 0\\n'"),
        ("failing", "cat >/dev/null; printf '1 0 0 0\\n8 0 0 0\\n'; exit 1"),
        ("other", "cat >/dev/null; printf '1 0 0 0\\n7 0 0 0\\n'"),
        ("cut", "cat >/dev/null; printf '1 0 0 0\\n8 0'"),
    ] {
        let (status, out, why) = words(&["replay", &stand_in(name, script), "-"], b"root\nsettle\n");
        assert_eq!((status, out.as_str()), (1, ""), "{name}: {why}");
    }
    let whole = stand_in("whole", "cat >/dev/null; printf '1 0 0 0\\n8 0 0 0\\n'");
    assert_eq!(words(&["replay", &whole, "-"], b"root\nsettle\n").0, 0);
}

/// A listing from before a request has a number that is a hole now.
#[test]
fn an_older_listing_is_told_too() {
    for (hole, said) in Table::standing().holes {
        let older = stand_in("older", &format!("cat >/dev/null; echo 7 {hole} 0 0"));
        let told = format!("1  evict page 7: refused by rule {hole}: {said}\n");
        assert_eq!(words(&["replay", &older, "-"], b"evict 7\n"), (0, told, String::new()));
    }
}

#[test]
fn help_is_no_error() {
    for word in ["--help", "-h", "help"] {
        let (status, out, why) = words(&[word], b"");
        assert_eq!((status, why.as_str()), (0, ""));
        assert!(out.starts_with("usage: words replay"), "{out}");
    }
    let (status, out, why) = words(&["nosuch"], b"");
    assert_eq!((status, out.as_str()), (2, ""));
    assert!(why.starts_with("usage: words replay"), "{why}");
}
