//! Tables of page numbers.
use pagepool::{PageNumber, StoreNumber};

/// By number whether it was added. 0 counts as added, since no word may name page 0.
pub struct Numbers<const MOST: usize>([bool; MOST]);

impl<const MOST: usize> Numbers<MOST> {
    /// Adds a number: whether it was there.
    pub fn add(&mut self, number: u32) -> bool {
        std::mem::replace(&mut self.0[number as usize % MOST], true)
    }

    pub fn has(&self, page: PageNumber) -> bool {
        self.0[usize::from(page)]
    }
}

/// The numbers of so many stores, of each by itself.
pub struct Seen<const MOST: usize, const STORES: usize>([Numbers<MOST>; STORES]);

impl<const MOST: usize, const STORES: usize> Seen<MOST, STORES> {
    pub fn new() -> Self {
        let mut seen = Seen([const { Numbers([false; MOST]) }; STORES]);
        seen.0.iter_mut().for_each(|numbers| numbers.0[0] = true);
        seen
    }

    pub fn of(&mut self, store: StoreNumber) -> &mut Numbers<MOST> {
        &mut self.0[usize::from(store) % STORES]
    }
}

/// Evaluates something with an empty table that has room for so many stores and pages, and isn't much larger: it takes longer to
/// clear then.
macro_rules! with_table {
    ($stores:expr, $pages:expr, |$seen:ident| $body:expr) => {
        match ($stores, usize::from($pages)) {
            (1, ..=256) => with_table!(256, 1, $seen, $body),
            (1, _) => with_table!({ pagepool::MOST_PAGES }, 1, $seen, $body),
            (_, ..=256) => with_table!(256, { pagepool::MOST_STORES }, $seen, $body),
            (_, ..=1024) => with_table!(1024, { pagepool::MOST_STORES }, $seen, $body),
            _ => with_table!({ pagepool::MOST_PAGES }, { pagepool::MOST_STORES }, $seen, $body),
        }
    };
    ($most:expr, $stores:expr, $seen:ident, $body:expr) => {{
        let $seen = &mut $crate::baseline::seen::Seen::<$most, $stores>::new();
        $body
    }};
}
pub(super) use with_table;
