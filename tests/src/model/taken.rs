//! Links into a taken slot, request A.9. Document 01's order, 8 before 9, is kept here for the comparison alone.
use super::rules::{self, image_names, rule};
use super::{frame_of, frame_word, held, unswizzled};
use crate::ensure;
use crate::pool::Refusal;
use crate::records::{page_of, unmarked, word_in, Handle, Page, PageNumber, State, SLOTS, SWIZZLE_BIT};
use std::collections::BTreeSet;

/// What names the page of a link into a taken slot.
#[derive(Clone, Copy, Debug, PartialEq, Eq, PartialOrd, Ord)]
pub enum Namer {
    /// No word: the link is refused by 8, and with every other namer by 9.
    Nothing,
    /// The word in that very slot, swizzled.
    SwizzledThere,
    /// The word in that very slot, a number.
    NumberThere,
    /// Another word of a resident page.
    Resident,
    /// Only pages that aren't resident, one of them below the root.
    Stored,
    /// Only pages that aren't resident, none of them below the root.
    OutOfReach,
}

impl Namer {
    pub const ALL: [Namer; 6] = [
        Namer::Nothing,
        Namer::SwizzledThere,
        Namer::NumberThere,
        Namer::Resident,
        Namer::Stored,
        Namer::OutOfReach,
    ];
}

/// "The answers that change are exactly those that were 8 for a page already named, the page in that very slot included:
/// 8 becomes 9." Gives what names the page where the slot is taken and no rule before that is broken.
pub fn compare(
    state: &State,
    handle: Handle,
    slot: usize,
    page: PageNumber,
    answer: Refusal,
) -> Result<Option<Namer>, String> {
    let before = in_former_order(state, handle, slot, page).err().unwrap_or(0);
    let namer = (before == 8).then(|| namer(state, handle, slot, page));
    let changes = namer.is_some_and(|namer| namer != Namer::Nothing);
    let wanted = if changes { 9 } else { before };
    ensure!(answer == wanted, "link answers {answer}, in document 01's order {before}, named by {namer:?}");
    Ok(namer)
}

/// Link's rules in document 01's order, with request A.8's 26 where it stands.
fn in_former_order(state: &State, handle: Handle, slot: usize, page: PageNumber) -> Result<(), Refusal> {
    rules::state(state)?;
    rules::handle(&state.pool, handle)?;
    rules::slot(slot)?;
    rules::unlocked(state, handle)?;
    rules::linked_page(&state.pool, page)?;
    rule(8, frame_word(&state.frames, handle.frame, slot) == 0)?;
    rules::unnamed(state, Page::from(handle).beside(page))
}

fn namer(state: &State, handle: Handle, slot: usize, page: PageNumber) -> Namer {
    let (word, number) = (frame_word(&state.frames, handle.frame, slot), u32::from(page));
    let page = Page::from(handle).beside(page);
    if unmarked(unswizzled(&state.pool, word)) == number {
        if word >= SWIZZLE_BIT {
            Namer::SwizzledThere
        } else {
            Namer::NumberThere
        }
    } else if rules::unnamed(state, page).is_ok() {
        Namer::Nothing
    } else if held(&state.pool, page.store).any(|frame| image_names(state, frame, number)) {
        Namer::Resident
    } else if named_in_reach(state, page) {
        Namer::Stored
    } else {
        Namer::OutOfReach
    }
}

/// The root of its store, or a page below that, names a page.
fn named_in_reach(state: &State, page: Page) -> bool {
    let names_it = |other| words_of(state, other).any(|word| unmarked(word) == u32::from(page.number));
    reached(state, Page::root(page.store)).into_iter().any(names_it)
}

/// A root and the pages below it.
pub fn reached(state: &State, root: Page) -> BTreeSet<Page> {
    let (mut reached, mut next) = (BTreeSet::from([root]), vec![root]);
    while let Some(page) = next.pop() {
        let named = words_of(state, page).map(unmarked);
        let pages = named.filter(|number| *number < state.pool.pages.into());
        let pages = pages.map(|number| root.beside(PageNumber(number as u16)));
        next.extend(pages.filter(|page| reached.insert(*page)));
    }
    reached
}

/// The words of a page: those of its image if it is resident, otherwise those in its store.
pub fn words_of(state: &State, page: Page) -> impl Iterator<Item = u32> + '_ {
    let (frame, place) = (frame_of(&state.pool, page), page.place(state.pool.pages));
    (0..SLOTS).map(move |slot| match frame {
        Some(frame) => unswizzled(&state.pool, frame_word(&state.frames, frame, slot)),
        None => word_in(page_of(&state.store, place), slot),
    })
}
