//! The words of a command line.
use hits::arguments::{Arguments, Form, Source};

fn read(line: &str) -> Result<Arguments, String> {
    Arguments::read(&line.split(' ').filter(|word| !word.is_empty()).map(String::from).collect::<Vec<_>>())
}

fn source(form: Form, file: &str) -> Source {
    Source { form, file: file.to_string() }
}

#[test]
fn options_may_stand_anywhere() {
    let wanted = Arguments {
        sources: vec![
            source(Form::Pages, "a"),
            source(Form::Pages, "b"),
            source(Form::Calls, "c"),
            source(Form::Calls, "-"),
        ],
        sizes: vec![8, 16, 8, 0],
        curve: Some("d.svg".to_string()),
        depths: false,
    };
    for line in [
        "a b --calls c - --sizes 8,16 --sizes 8,0 --svg d.svg --no-depths",
        "--no-depths --svg d.svg --sizes 8,16,8,0 a b --calls c --calls -",
        "a --sizes 8,16 b --svg d.svg --calls c --sizes 8 - --sizes 0 --no-depths --no-depths",
    ] {
        assert_eq!(read(line), Ok(wanted.clone()), "{line}");
    }
    let plain =
        Arguments { sources: vec![source(Form::Pages, "-")], sizes: vec![], curve: None, depths: true };
    assert_eq!(read("-"), Ok(plain));
    assert_eq!(read("a --sizes 007,18446744073709551615").map(|read| read.sizes), Ok(vec![7, u64::MAX]));
}

#[test]
fn what_makes_no_sense_is_named() {
    let none = |word| {
        format!(
            "a size has to be a whole number, and '{word}' is none; \
             --sizes 8,16,64 names three, with no blank between them"
        )
    };
    for (line, why) in [
        ("", "give recordings: ./sizing FILE.., ./sizing - or ./sizing --calls FILE.."),
        ("--sizes 8", "give recordings: ./sizing FILE.., ./sizing - or ./sizing --calls FILE.."),
        ("--calls", "--calls has no FILE behind it: the FILEs behind it are recordings of calls"),
        ("a --calls", "--calls has no FILE behind it: the FILEs behind it are recordings of calls"),
        ("--calls --sizes 8 a", "--calls has no FILE behind it: the FILEs behind it are recordings of calls"),
        ("- --calls -", "- is there twice, and standard input can be read once"),
        ("a --svg", "--svg needs a FILE behind it, for the curve"),
        ("a --svg -", "--svg needs a FILE behind it, for the curve"),
        ("--svg --no-depths a", "--svg needs a FILE behind it, for the curve"),
        ("a --svg b --svg c", "--svg is there twice, and there is one curve"),
        ("a --sizes", "--sizes needs whole numbers behind it, as in --sizes 8,16,64"),
        ("--sizes --svg a", "--sizes needs whole numbers behind it, as in --sizes 8,16,64"),
        ("a --sizes 8,,9", &none("")),
        ("a --sizes 8,x", &none("x")),
        ("a --sizes +8", &none("+8")),
        ("a --sizes 8.5", &none("8.5")),
        (
            "a --sizes 18446744073709551616",
            "a size has to be a whole number up to 18446744073709551615, and 18446744073709551616 is larger",
        ),
        (
            "a --svg b --sizes 1,2,3,4,5,6,7,8,9,10,11,12,13",
            "--svg marks up to 12 sizes, and 13 are asked for",
        ),
        ("a --nosuch", "no such option: --nosuch; ./sizing --help tells which there are"),
        ("-x a", "no such option: -x; ./sizing --help tells which there are"),
        ("a --sizes=8", "no such option: --sizes=8; ./sizing --help tells which there are"),
        ("-- a", "no such option: --; ./sizing --help tells which there are"),
    ] {
        assert_eq!(read(line), Err(why.to_string()), "{line}");
    }
}

/// Sizes that the curve marks once count once.
#[test]
fn many_sizes_can_be_few_marks() {
    assert!(read("a --svg b --sizes 1,2,3,4,5,6,7,8,9,10,11,12,12,1").is_ok());
    assert!(read("a --svg b --sizes 1,2,3,4,5,6,7,8,9,10,11,5000,6000,7000").is_ok());
    assert!(read("a --sizes 1,2,3,4,5,6,7,8,9,10,11,12,13").is_ok());
}
