//! One call, or the draw of a record, on the machine under test, through the package's wrappers, both of them, and on the model,
//! from the same state.
use crate::calls::{Answer, Call};
use crate::coverage::Coverage;
use crate::ensure;
use crate::model::{chains, drawing, figures, locks, search, sharing, stays, taken, warmth, Model};
use crate::pool::{Machine, Refusal};
use crate::records::{page, Entry, Generator, PageNumber, State};

/// Makes a call, which must answer what is wanted and leave what is expected.
fn compare(
    machine: &impl Machine,
    state: &mut State,
    call: &Call,
    wanted: &Answer,
    expected: &State,
) -> Result<Answer, String> {
    let before = state.pool;
    let answer = call.make(machine, state);
    ensure!(answer == *wanted, "{call:?} answers {answer:?}, not {wanted:?}, on {before:?}");
    if let Some(difference) = state.difference(expected) {
        return Err(format!("{call:?}, {answer:?}, leaves other {difference}"));
    }
    Ok(answer)
}

/// All must answer and leave the same, and a refused call must leave all as found. Link must answer as document 01's order does
/// but where request A.9 changes it, evict be refused by the reason for which the page stays, fix take the frame that document
/// 01's sweep takes and leave the usages that request A.5 asks for, find and peek answer as document 01's do, with the entries
/// compared of request A.3, and every call leave the directory's chains as that says. An edit must be refused where request A.8
/// says so and nowhere else, and every other call leave what words name and mark. No store may be above its ceiling, and a load be
/// denied where request A.11 says so and nowhere else, and leave the other stores what they were.
pub fn step(
    machine: &impl Machine,
    state: &mut State,
    call: &Call,
    coverage: &mut Coverage,
) -> Result<Answer, String> {
    let before = state.clone();
    let mut expected = state.clone();
    let wanted = call.make(&Model, &mut expected);
    #[cfg(feature = "host")]
    {
        compare(&crate::package::Package, &mut before.clone(), call, &wanted, &expected)
            .map_err(|fault| format!("wrapped {fault}"))?;
        if crate::held::can_hold(&before) {
            compare(&crate::held::Held, &mut before.clone(), call, &wanted, &expected)
                .map_err(|fault| format!("held {fault}"))?;
        }
    }
    let answer = compare(machine, state, call, &wanted, &expected)?;
    if !answer.accepted() && *state != before {
        return Err(format!("{call:?}, {answer:?}, changes something"));
    }
    coverage.count(call, &answer);
    requests((&before, state), call, &answer, coverage).map_err(|fault| format!("{call:?}: {fault}"))?;
    Ok(answer)
}

/// What the requests say of an answer, and of the state before the call and after it.
fn requests(
    (before, after): (&State, &State),
    call: &Call,
    answer: &Answer,
    coverage: &mut Coverage,
) -> Result<(), String> {
    let number = answer.number();
    match call {
        Call::Fix(handle, slot) => {
            coverage.count_warmths(warmth::compare(before, after, (*handle, *slot), answer)?);
        }
        Call::Link(handle, slot, page, _) => {
            coverage.count_namer(taken::compare(before, *handle, *slot, PageNumber(*page), number)?);
        }
        Call::Evict(store, of) => coverage.count_stay(stays::compare(before, page(*store, *of), number)?),
        Call::Find(store, of) => coverage.count_met(search::compare_find(before, page(*store, *of), answer)?),
        Call::Peek(store, of) => search::compare_peek(before, page(*store, *of), answer)?,
        _ => (),
    }
    coverage.count_turns(chains::compare((before, after), call, answer)?);
    coverage.count_locks(locks::compare((before, after), call, answer)?);
    coverage.count_sharings(sharing::compare((before, after), call, answer)?);
    coverage.count_figures(figures::met(before, call, answer));
    Ok(())
}

/// Draws a record, which must be the one that is wanted, or the refusal, and leave the generator where it is expected and the
/// state as it was.
fn compare_draw(
    machine: &impl Machine,
    state: &State,
    mut generator: Generator,
    wanted: Result<Entry, Refusal>,
    expected: Generator,
) -> Result<(), String> {
    let (lent, before) = (state.clone(), generator);
    let answer = machine.draw(&lent, &mut generator);
    ensure!(answer == wanted, "a draw by {before:?} gives {answer:?}, not {wanted:?}, on {:?}", state.pool);
    ensure!(
        generator == expected,
        "a draw by {before:?}, {answer:?}, leaves {generator:?}, not {expected:?}"
    );
    if let Some(difference) = lent.difference(state) {
        return Err(format!("a draw by {before:?}, {answer:?}, leaves other {difference}"));
    }
    Ok(())
}

/// Draws a record of a state, and moves the generator on. All must draw the same and change nothing else, and the record be as
/// request A.10 says of every one.
pub fn draw(
    machine: &impl Machine,
    state: &State,
    generator: &mut Generator,
    coverage: &mut Coverage,
) -> Result<Result<Entry, Refusal>, String> {
    let before = *generator;
    let wanted = Model.draw(state, generator);
    #[cfg(feature = "host")]
    {
        compare_draw(&crate::package::Package, state, before, wanted, *generator)
            .map_err(|fault| format!("wrapped, {fault}"))?;
        if crate::held::can_hold(state) {
            compare_draw(&crate::held::Held, state, before, wanted, *generator)
                .map_err(|fault| format!("held, {fault}"))?;
        }
    }
    compare_draw(machine, state, before, wanted, *generator)?;
    let shown = drawing::compare(state, (before, *generator), wanted)?;
    coverage.count_draw(wanted.err().unwrap_or(0), shown);
    Ok(wanted)
}
