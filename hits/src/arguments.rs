//! What the command is asked for.
use crate::curve;

/// How a file holds recordings.
#[derive(Clone, Copy, Debug, PartialEq, Eq)]
pub enum Form {
    /// Page numbers, a recording a line.
    Pages,
    /// Calls, a recording a file.
    Calls,
}

/// A file of recordings; `-` is standard input.
#[derive(Clone, Debug, PartialEq, Eq)]
pub struct Source {
    pub form: Form,
    pub file: String,
}

#[derive(Clone, Debug, PartialEq, Eq)]
pub struct Arguments {
    pub sources: Vec<Source>,
    /// The sizes whose shares are printed, in the order in which they were named.
    pub sizes: Vec<u64>,
    /// The file that the curve is drawn into.
    pub curve: Option<String>,
    /// Whether the depths are printed.
    pub depths: bool,
}

impl Arguments {
    /// The words of a command line. The error says which word makes no sense, and why.
    pub fn read(words: &[String]) -> Result<Arguments, String> {
        let mut read = Arguments { sources: Vec::new(), sizes: Vec::new(), curve: None, depths: true };
        let mut form = Form::Pages;
        let mut words = words.iter().map(String::as_str).peekable();
        while let Some(word) = words.next() {
            match word {
                "--calls" => {
                    form = Form::Calls;
                    if words.peek().is_none_or(|word| is_option(word)) {
                        return Err(
                            "--calls has no FILE behind it: the FILEs behind it are recordings of calls"
                                .into(),
                        );
                    }
                }
                "--sizes" => read.sizes.extend(sizes(words.next_if(|word| !is_option(word)))?),
                "--svg" => {
                    let file = words.next_if(|word| !is_option(word) && !["", "-"].contains(word));
                    let file = file.ok_or("--svg needs a FILE behind it, for the curve")?;
                    if read.curve.replace(file.into()).is_some() {
                        return Err("--svg is there twice, and there is one curve".into());
                    }
                }
                "--no-depths" => read.depths = false,
                _ if is_option(word) => {
                    return Err(format!("no such option: {word}; ./sizing --help tells which there are"));
                }
                file => read.sources.push(Source { form, file: file.into() }),
            }
        }
        let marked = curve::marked(&read.sizes).len();
        if read.curve.is_some() && marked > curve::MOST_MARKED {
            return Err(format!(
                "--svg marks up to {} sizes, and {marked} are asked for",
                curve::MOST_MARKED
            ));
        }
        match read.sources.iter().filter(|source| source.file == "-").count() {
            _ if read.sources.is_empty() => {
                Err("give recordings: ./sizing FILE.., ./sizing - or ./sizing --calls FILE..".into())
            }
            0 | 1 => Ok(read),
            _ => Err("- is there twice, and standard input can be read once".into()),
        }
    }
}

/// `-` alone is standard input.
fn is_option(word: &str) -> bool {
    word.starts_with('-') && word != "-"
}

/// Whole numbers with commas between them.
fn sizes(word: Option<&str>) -> Result<Vec<u64>, String> {
    let word = word.ok_or("--sizes needs whole numbers behind it, as in --sizes 8,16,64")?;
    word.split(',').map(size).collect()
}

fn size(word: &str) -> Result<u64, String> {
    let is_number = !word.is_empty() && word.bytes().all(|byte| byte.is_ascii_digit());
    if !is_number {
        return Err(format!(
            "a size has to be a whole number, and '{word}' is none; \
             --sizes 8,16,64 names three, with no blank between them"
        ));
    }
    word.parse()
        .map_err(|_| format!("a size has to be a whole number up to {}, and {word} is larger", u64::MAX))
}
