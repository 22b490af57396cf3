//! "a flat cache of f pages without pins, empty at each recording's start, replacing the least recently used": a plain queue, which
//! knows no depths.
use super::model::LAST_PAGE;
use std::collections::VecDeque;

pub struct Cache {
    size: u64,
    /// From the most recently used one on.
    pages: VecDeque<u16>,
}

impl Cache {
    pub fn empty(size: u64) -> Cache {
        Cache { size, pages: VecDeque::new() }
    }

    /// Refers to a page, which then is the most recently used one; where there is no room for it, the least recently used one goes.
    /// Whether it was a hit.
    pub fn refer(&mut self, page: u16) -> bool {
        let place = self.pages.iter().position(|other| *other == page);
        if let Some(place) = place {
            self.pages.remove(place);
        }
        self.pages.push_front(page);
        if self.pages.len() as u64 > self.size {
            self.pages.pop_back();
        }
        place.is_some()
    }

    pub fn contains(&self, smaller: &Cache) -> bool {
        let mut held = [false; LAST_PAGE as usize + 1];
        self.pages.iter().for_each(|page| held[usize::from(*page)] = true);
        smaller.pages.iter().all(|page| held[usize::from(*page)])
    }
}

/// The hits of a cache of each size over a recording, sizes rising. "a larger one always contains the smaller": asked at every
/// point.
pub fn hits(sizes: &[u64], recording: &[u16]) -> Result<Vec<u64>, String> {
    let mut caches: Vec<Cache> = sizes.iter().copied().map(Cache::empty).collect();
    let mut hits = vec![0; sizes.len()];
    for (reference, page) in recording.iter().enumerate() {
        for (cache, hits) in caches.iter_mut().zip(&mut hits) {
            *hits += u64::from(cache.refer(*page));
        }
        if let Some(pair) = caches.windows(2).find(|pair| !pair[1].contains(&pair[0])) {
            let (smaller, larger) = (pair[0].size, pair[1].size);
            return Err(format!(
                "after reference {reference} a cache of {larger} pages lacks one of {smaller}"
            ));
        }
    }
    Ok(hits)
}
