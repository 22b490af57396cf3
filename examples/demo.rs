//! A pool of 4 frames over a store of 80 empty pages: links and fixes a few pages, writes, reads back, locks a page, settles, and
//! reads the store again through a new pool, where the page is freed. Then tells from its fixes what caches of a few sizes hit.
//! Prints what it did, as demo.c does.
use pagepool::{
    Found, Handle, Named, PageNumber, PagePool, Refusal, Share, StoreNumber, Stores, Tally,
    PAGE_SIZE,
};

/// The only store.
const ONLY: StoreNumber = StoreNumber(0);

/// The pool with its buffers. Each method makes a call and prints it.
struct Demo {
    pool: PagePool<[u8; 4 * PAGE_SIZE], [u8; 80 * PAGE_SIZE]>,
    /// The recording: the page of each fix.
    recorded: Vec<u16>,
}

/// What is said of a page that is locked.
fn mark(locked: bool) -> &'static str {
    if locked {
        ", locked"
    } else {
        ""
    }
}

/// A payload's text, up to the first byte of 0.
fn text(payload: &[u8]) -> String {
    let bytes = payload
        .iter()
        .copied()
        .take_while(|&byte| byte != 0)
        .collect();
    String::from_utf8(bytes).expect("the text that was written")
}

impl Demo {
    /// Opens the pool, and pins its root.
    fn open(&mut self) -> Result<Handle, Refusal> {
        self.pool.open(Stores::one(4))?;
        println!(
            "open: {} pages, {} frames",
            self.pool.records.pages, self.pool.records.count
        );
        let root = self.pool.root(ONLY)?.handle;
        println!("root: page {} in frame {}", root.page, root.frame);
        Ok(root)
    }

    fn link(
        &mut self,
        parent: Handle,
        slot: usize,
        page: PageNumber,
        locked: bool,
    ) -> Result<(), Refusal> {
        self.pool.link(parent, slot, page, locked)?;
        println!(
            "link page {page} to slot {slot} of page {}{}",
            parent.page,
            mark(locked)
        );
        Ok(())
    }

    fn unlink(&mut self, parent: Handle, slot: usize) -> Result<(), Refusal> {
        self.pool.unlink(parent, slot)?;
        println!("unlink slot {slot} of page {}", parent.page);
        Ok(())
    }

    fn fix(&mut self, parent: Handle, slot: usize) -> Result<Handle, Refusal> {
        let fixed = self.pool.fix(parent, slot)?;
        let Handle { frame, page, .. } = fixed.handle;
        self.recorded.push(page.0);
        let looks = fixed.looks;
        println!(
            "fix slot {slot} of page {}: page {page} in frame {frame}, {looks} looks",
            parent.page
        );
        Ok(fixed.handle)
    }

    fn unfix(&mut self, handle: Handle) -> Result<(), Refusal> {
        self.pool.unfix(handle)?;
        println!("unfix page {}", handle.page);
        Ok(())
    }

    fn write(&mut self, handle: Handle, text: &str) {
        match self.pool.write(handle, 0, text.as_bytes()) {
            Ok(()) => println!("write to page {}: {text}", handle.page),
            Err(refusal) => println!("write to page {}: {refusal}", handle.page),
        }
    }

    fn evict(&mut self, page: PageNumber) {
        match self.pool.evict(ONLY, page) {
            Ok(()) => println!("evict page {page}"),
            Err(refusal) => println!("evict page {page}: {refusal}"),
        }
    }

    /// Locks a pinned page, or frees it: it is unfixed, evicted, unlinked, and linked again with the mark or without.
    fn relink(
        &mut self,
        parent: Handle,
        slot: usize,
        handle: Handle,
        locked: bool,
    ) -> Result<(), Refusal> {
        self.unfix(handle)?;
        self.evict(handle.page);
        self.unlink(parent, slot)?;
        self.link(parent, slot, handle.page, locked)
    }

    fn find(&self, page: PageNumber) -> Result<(), Refusal> {
        let Found { frame, compared } = self.pool.find(ONLY, page)?;
        match frame {
            Some(frame) => println!("find page {page}: frame {frame}, {compared} compared"),
            None => println!("find page {page}: absent, {compared} compared"),
        }
        Ok(())
    }

    fn show(&self, handle: Handle) -> Result<(), Refusal> {
        println!(
            "show page {}: {}",
            handle.page,
            text(self.pool.show(handle)?)
        );
        Ok(())
    }

    fn peek(&self, page: PageNumber) -> Result<(), Refusal> {
        println!("peek page {page}: {}", text(self.pool.peek(ONLY, page)?));
        Ok(())
    }

    fn word(&self, handle: Handle, slot: usize) -> Result<(), Refusal> {
        let said = match self.pool.word(handle, slot)? {
            Some(Named { page, locked }) => format!("page {page}{}", mark(locked)),
            None => "nothing".to_string(),
        };
        println!("word in slot {slot} of page {}: {said}", handle.page);
        Ok(())
    }

    fn settle(&mut self) -> Result<(), Refusal> {
        self.pool.settle()?;
        println!("settle");
        Ok(())
    }

    /// How many frames to buy: what a flat cache of a size, which replaces the page least recently used, hits of the fixes.
    fn hits(&self, most: u64) -> Result<(), Refusal> {
        let mut tally = Tally::new();
        tally.add(&self.recorded)?;
        for size in 2..=most {
            let Share { within, all } = tally.share(size);
            println!("a cache of {size} pages hits {within} of {all} fixes");
        }
        Ok(())
    }
}

fn main() -> Result<(), Refusal> {
    let mut demo = Demo {
        pool: PagePool::new([0; 4 * PAGE_SIZE], [0; 80 * PAGE_SIZE]),
        recorded: Vec::new(),
    };
    let root = demo.open()?;
    demo.link(root, 3, PageNumber(7), false)?;
    let parent = demo.fix(root, 3)?;
    demo.write(parent, "a parent");
    demo.link(parent, 0, PageNumber(74), false)?;
    let child = demo.fix(parent, 0)?;
    demo.write(child, "its child");
    demo.word(root, 3)?;

    // Both have remainder 7 by 67: in their chain the one loaded last stands first.
    demo.find(PageNumber(74))?;
    demo.find(PageNumber(7))?;

    // The root never goes, a pinned page goes once it is unfixed, and a parent after its child.
    demo.evict(PageNumber(0));
    demo.evict(PageNumber(7));
    demo.unfix(parent)?;
    demo.evict(PageNumber(7));
    demo.unfix(child)?;
    demo.evict(PageNumber(74));
    demo.evict(PageNumber(7));
    demo.find(PageNumber(74))?;
    demo.peek(PageNumber(74))?;
    let parent = demo.fix(root, 3)?;

    // More pages than frames: the third of them has to be swept for.
    for page in 10..13 {
        demo.link(root, page.into(), PageNumber(page), false)?;
        let handle = demo.fix(root, page.into())?;
        demo.unfix(handle)?;
    }
    demo.show(parent)?;
    demo.unlink(parent, 0)?;

    // A locked page is read as any other, and not changed until it is freed: not after a new open either.
    demo.relink(root, 3, parent, true)?;
    demo.settle()?;

    let root = demo.open()?;
    demo.word(root, 3)?;
    let parent = demo.fix(root, 3)?;
    demo.show(parent)?;
    demo.word(parent, 0)?;
    demo.write(parent, "a change");
    demo.relink(root, 3, parent, false)?;
    let parent = demo.fix(root, 3)?;
    demo.write(parent, "a change");
    demo.hits(5)
}
