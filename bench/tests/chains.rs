//! Every form of the directory's test answers alike: on right directories, on such with a chain turned round, and on such with one
//! or more bytes changed.
use pagepool::{BUCKETS, DIRECTORY_SIZE};
use pool_bench::chains::{Lent, FORMS};
use pool_bench::shapes::{reverse_chain, sharing, Shape, State};
use random::Random;

/// What the forms answer, which is the same.
fn agreed(state: &State) -> bool {
    let lent = Lent::new(&state.records, state.directory);
    let answers = FORMS.map(|form| (form.agrees)(&lent));
    assert!(answers.iter().all(|answer| *answer == answers[0]), "{answers:?}: {:?}", state.directory);
    answers[0]
}

/// Changes a byte: any, or one that leads to a frame or from it on, to lead to any frame or to none.
fn change(random: &mut Random, state: &mut State) {
    let count = usize::from(state.records.count);
    let (any, frame) = (random.below(DIRECTORY_SIZE), random.below(count));
    let page = usize::from(state.records.records[frame].page);
    let at = random.pick(&[any, page % BUCKETS, BUCKETS + frame]);
    state.directory[at] = random.pick(&[0, 1, frame + 1, count, count + 1, 64, 65, 255]) as u8;
}

/// Turns a resident page's chain round. The directory is right before and after.
fn turn(random: &mut Random, state: &mut State) {
    let used = state.records.records.iter().filter(|record| record.is_used());
    let page = random.choose(used.map(|record| record.page)).expect("the root is resident");
    reverse_chain(state, page);
}

#[test]
fn forms_agree() {
    let (mut random, mut answers) = (Random::new(1), [0; 2]);
    let alone = [
        (Shape::Full, 4),
        (Shape::Full, 64),
        (Shape::Opened, 16),
        (Shape::Leaves, 16),
        (Shape::Four, 16),
        (Shape::FourOpened, 8),
    ];
    for (shape, count, pages) in alone.map(|(shape, count)| (shape, count, 256)).into_iter().chain(sharing())
    {
        let state = shape.state(count, pages);
        assert!(agreed(&state), "{shape:?}");
        for _ in 0..5000 {
            let mut changed = state.clone();
            if random.percent(50) {
                turn(&mut random, &mut changed);
            }
            for _ in 0..random.pick(&[0, 1, 1, 2, 3]) {
                change(&mut random, &mut changed);
            }
            if changed.directory != state.directory {
                answers[usize::from(agreed(&changed))] += 1;
            }
        }
    }
    println!("changed, wrong and right: {answers:?}");
    assert!(answers.iter().all(|times| *times > 1000), "changed, wrong and right: {answers:?}");
}
