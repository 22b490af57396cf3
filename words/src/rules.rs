//! The table of rules, `rules.txt`.

/// One row: a number that calls answer, 0 for accepted.
#[derive(Clone, Debug, PartialEq, Eq)]
pub struct Rule {
    pub number: u8,
    /// The name in the C header; none for the listing's own.
    pub name: Option<&'static str>,
    /// The calls that can answer it.
    pub calls: Vec<&'static str>,
    /// Whether the listing can answer it.
    pub listed: bool,
    /// What was broken, and for a request's rules what to do.
    pub sentence: &'static str,
}

#[derive(Clone, Debug, PartialEq, Eq)]
pub struct Table {
    /// Every call, in the order of the columns.
    pub calls: Vec<&'static str>,
    /// Every row: 0, the calls' rules in checking order, and the listing's own.
    pub rules: Vec<Rule>,
    /// The numbers that are given no more, each with what it says in an older listing.
    pub holes: Vec<(u8, &'static str)>,
    /// The numbers that the calls of a tally answer, in checking order: these calls, and what the number says of a tally.
    pub tally: Vec<Rule>,
}

impl Table {
    /// The table as it stands in the repository.
    pub fn standing() -> Table {
        Table::read(include_str!("../../rules.txt")).unwrap_or_else(|why| panic!("rules.txt: {why}"))
    }

    /// The table of a text. The error names the line that is none.
    pub fn read(text: &'static str) -> Result<Table, String> {
        let mut lines =
            text.lines().enumerate().filter(|(_, line)| !line.is_empty() && !line.starts_with('#'));
        let (_, head) = lines.next().ok_or("no line names the columns")?;
        let calls = match &head.split_whitespace().collect::<Vec<_>>()[..] {
            ["number", "name", calls @ .., "listing", "sentence"] => calls.to_vec(),
            _ => return Err(format!("expected number, name, the calls, listing, sentence, found '{head}'")),
        };
        let holes = text.lines().filter_map(hole).collect();
        let mut table = Table { calls, rules: Vec::new(), holes, tally: Vec::new() };
        for (index, line) in lines {
            let rule = row(&table.calls, line).map_err(|why| format!("line {}: {why}", index + 1))?;
            if table.rule(rule.number).is_some() {
                return Err(format!("line {}: rule {} stands twice", index + 1, rule.number));
            }
            table.rules.push(rule);
        }
        table.tally = text.lines().filter_map(|line| of_tally(&table.rules, line)).collect();
        Ok(table)
    }

    pub fn rule(&self, number: u8) -> Option<&Rule> {
        self.rules.iter().find(|rule| rule.number == number)
    }

    /// What a number says: a row's sentence, or what a hole says in an older listing.
    pub fn sentence(&self, number: u8) -> Option<&'static str> {
        let hole = || self.holes.iter().find(|(hole, _)| *hole == number).map(|(_, said)| *said);
        self.rule(number).map(|rule| rule.sentence).or_else(hole)
    }

    /// What a number says where a call of a tally answers it.
    pub fn tally_sentence(&self, number: u8) -> Option<&'static str> {
        self.tally.iter().find(|rule| rule.number == number).map(|rule| rule.sentence)
    }

    /// The numbers that a call can answer, in checking order.
    pub fn answers<'a>(&'a self, call: &'a str) -> impl Iterator<Item = u8> + 'a {
        self.rules.iter().filter(move |rule| rule.calls.contains(&call)).map(|rule| rule.number)
    }
}

/// A line of the head that begins with `# hole` and a number.
fn hole(line: &'static str) -> Option<(u8, &'static str)> {
    let (number, said) = line.strip_prefix("# hole ")?.split_once(' ')?;
    Some((number.parse().ok()?, said.trim_start()))
}

/// A line of the head that begins with `# tally` and a number: calls, a colon and the sentence. The name is that of the number's row.
fn of_tally(rules: &[Rule], line: &'static str) -> Option<Rule> {
    let (number, said) = line.strip_prefix("# tally ")?.split_once(' ')?;
    let (number, (calls, sentence)) = (number.parse().ok()?, said.split_once(": ")?);
    let name = rules.iter().find(|rule| rule.number == number).and_then(|rule| rule.name);
    Some(Rule { number, name, calls: calls.split_whitespace().collect(), listed: false, sentence })
}

fn row(calls: &[&'static str], line: &'static str) -> Result<Rule, String> {
    let mut rest = line;
    let mut field = || {
        let (word, after) = rest.trim_start().split_once(char::is_whitespace).ok_or("a field is missing")?;
        rest = after;
        Ok::<_, String>(word)
    };
    let number = field()?;
    let number = number.parse().map_err(|_| format!("expected a number to 255, found '{number}'"))?;
    let name = Some(field()?).filter(|name| *name != "-");
    let mut marked = Vec::new();
    for call in calls {
        if mark(field()?)? {
            marked.push(*call);
        }
    }
    let listed = mark(field()?)?;
    match rest.trim() {
        "" => Err("no sentence".to_string()),
        sentence => Ok(Rule { number, name, calls: marked, listed, sentence }),
    }
}

fn mark(word: &str) -> Result<bool, String> {
    match word {
        "x" => Ok(true),
        "." => Ok(false),
        _ => Err(format!("expected x or ., found '{word}'")),
    }
}
