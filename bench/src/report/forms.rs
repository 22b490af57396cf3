//! The forms of counting depths, side by side, and those of the directory's test.
use super::{machine, nanoseconds};
use crate::contest::{Figure, Tested};
use pool_bench::chains;
use pool_bench::forms::FORMS;

/// A column for each form, with the bytes of its tables; the times in microseconds.
pub fn text(figures: &[Figure]) -> String {
    let columns = |cell: fn(usize) -> String| (0..FORMS.len()).map(cell).collect::<String>();
    let names = columns(|form| format!(" {} |", FORMS[form].name));
    let tables = columns(|form| format!(" {} |", FORMS[form].tables));
    let lines: String = figures.iter().map(line).collect();
    format!(
        "{}\n\n| µs, by recording | references |{names}\n|---|--:|{}\n{lines}| bytes of tables | |{tables}\n",
        machine(),
        "--:|".repeat(FORMS.len())
    )
}

fn line(figure: &Figure) -> String {
    let cells: String =
        figure.times.iter().map(|time| format!(" {} |", nanoseconds(time / 1000.0))).collect();
    format!("| {} | {} |{cells}\n", figure.added.name(), figure.added.length)
}

/// A column for each form of the directory's test, a row for each state.
pub fn chains_text(rows: &[Tested]) -> String {
    let names: String = chains::FORMS.iter().map(|form| format!(" {} |", form.name)).collect();
    let lines: String = rows.iter().map(tested_line).collect();
    format!("\n| ns, by shape | F | N |{names}\n|---|--:|--:|{}\n{lines}", "--:|".repeat(chains::FORMS.len()))
}

fn tested_line(row: &Tested) -> String {
    let cells: String = row.times.iter().map(|time| format!(" {} |", nanoseconds(*time))).collect();
    format!("| {} | {} | {} |{cells}\n", row.shape.name(), row.count, row.pages)
}
