//! Alterations of records, frames, store and directory from outside.
mod buffers;
pub mod directory;
mod marks;
mod records;
mod shapes;

use crate::records::{FrameIndex, State};
use random::Random;

type Change = fn(&mut Random, &mut State);

/// Changes of any part, most of which break rule 1 or 2.
const DAMAGES: [Change; 42] = [
    records::field,
    records::field,
    records::bit,
    records::whole,
    records::figure,
    records::store,
    records::store,
    records::stores,
    records::stores,
    buffers::bit,
    buffers::word,
    buffers::word,
    buffers::page,
    buffers::lengths,
    shapes::parent_loop,
    shapes::number_twice,
    shapes::moved_child,
    shapes::moved_store,
    shapes::other_roots_word,
    shapes::slot_in_payload,
    shapes::below_empty,
    shapes::first_word,
    shapes::spoilt_load,
    marks::turned,
    marks::turned_in_store,
    marks::alone,
    marks::other_mark_too,
    marks::swizzled,
    directory::length,
    directory::byte,
    directory::byte,
    directory::link,
    directory::whole,
    directory::cycle,
    directory::loose_cycle,
    directory::shared_tail,
    directory::wrong_bucket,
    directory::empty_entry,
    directory::missing_entry,
    directory::second_entry,
    directory::loose_byte,
    directory::reordered,
];

/// Changes that leave records, frames and directory in agreement, so that calls go on from there.
const ALTERATIONS: [Change; 11] = [
    records::counts,
    records::ceiling,
    records::ceiling,
    records::most_pins,
    buffers::payload,
    buffers::stored_word,
    buffers::stored_page,
    shapes::spoilt_load,
    marks::turned,
    marks::turned_in_store,
    directory::reordered,
];

/// Damages a state in one to three places.
pub fn damage(random: &mut Random, state: &mut State) {
    apply(random, state, &DAMAGES);
}

/// Alters a state in one to three places so that rules 1 and 2 still hold.
pub fn alter(random: &mut Random, state: &mut State) {
    apply(random, state, &ALTERATIONS);
}

fn apply(random: &mut Random, state: &mut State, changes: &[Change]) {
    let times = random.pick(&[1, 1, 1, 2, 3]);
    for _ in 0..times {
        random.pick(changes)(random, state);
    }
}

/// An occupied frame, if there is one.
fn occupied(random: &mut Random, state: &State) -> Option<FrameIndex> {
    random.choose(state.occupied().map(|(frame, _)| frame))
}
