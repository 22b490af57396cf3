//! The page pool for Rust: safe functions over the proved library `pagepool`.
//!
//! The host owns the store, the frames, the directory and the pool's records, and lends all four to each call. [`PagePool`] holds
//! the four together and has the calls as methods, with examples; the functions here take them apart. A call that is refused
//! gives the first broken rule, a [`Refusal`], and changes nothing. What each call does says `include/pagepool.h`. [`draw`] gives
//! the record of the next call of a workload that anyone can repeat. A [`Tally`] tells from recorded fixes how many frames to buy.
//!
//! # Stores
//!
//! One set of frames serves T stores, 1 to 4, each a tree of its own below its own page 0. They have N pages each and are lent one
//! after another as one buffer: page p of store t begins at byte 256 (t N + p). [`open`] is told T and a ceiling for each store, by
//! [`Stores`], and finds N by the buffer's length; the records keep them. A page is named by its [`StoreNumber`] and its number
//! there: a [`Handle`] has both, [`root`] takes the store, [`peek`], [`find`] and [`evict`] take both, and what a word names is a
//! page of the store that the word stands in. F is at least T + 1, since frame t holds the root of store t for as long as the pool
//! is open.
//!
//! A ceiling, 1 to F, is the most pages of its store that are resident at once, the root among them. A store below its ceiling
//! loads a page into an empty frame, and where there is none a sweep goes over the pages of all stores, so that it may evict a
//! neighbour's: which is as before nevertheless, its words, its payload and what is pinned of it, and comes in again when it is
//! fixed. A store at its ceiling makes room by a sweep of its own pages alone, even where frames are empty. So ceilings that come
//! to F in all keep frames for each store, and ceilings of F leave the frames to whoever fixes. A store whose ceiling is 1 holds
//! its root alone.
//!
//! A load that finds no frame is refused by [`NoFrame`](Refusal::NoFrame) where its store is below its ceiling: no frame is empty,
//! and each page of all stores but the roots is pinned or has a resident child. By [`AtCeiling`](Refusal::AtCeiling) where its
//! store is at its ceiling: each of its own resident pages but its root is pinned or has a resident child. With one store
//! `AtCeiling` is answered and never `NoFrame`: where no frame is empty, one store is at its ceiling.
//!
//! A program with one store opens with [`Stores::one`], and names `StoreNumber(0)` throughout.
//!
//! # Directory
//!
//! In its 131 bytes [`find`] and [`peek`] look up the resident pages of all stores, each in the chain of its number's remainder by
//! 67. Byte b below 67 holds 1 plus the frame at the head of chain b, byte 67 + f holds 1 plus the frame after f in its chain, and
//! either 0 where there is none. [`open`] sets it, whatever it held, with the roots alone in it, entered from store 0 on. Loading a
//! page puts it at its chain's head, and evicting one takes it out, by [`evict`] or by a sweep of [`fix`]; the others of a chain
//! keep their order. No other call changes it, and a refused one leaves it byte for byte, [`open`] too. Lend it to the next call as
//! it was left. Another length is refused by [`WrongLength`](Refusal::WrongLength), and by [`Disagree`](Refusal::Disagree) a
//! directory whose chains don't give exactly the resident pages of their remainders, each once in any order, or with another byte
//! that isn't 0: that of a frame which is empty or not below F.
//!
//! # Locked pages
//!
//! A word can mark the page that it names as locked; [`link`] puts the mark there, and [`word`] tells it. [`write`](fn@write),
//! [`link`] and [`unlink`] in a locked page are refused by [`IsLocked`](Refusal::IsLocked), so that its payload and its words stay
//! as they are while the marked word stands: it is never dirty, and the store holds its bytes. It is fixed, shown, loaded and
//! evicted as any other, and so are the pages that it names, which are locked only where their own words are marked. A root is
//! never locked, since no word names it. Loading, evicting, settling and sweeps keep each mark. To lock a page that is linked
//! without the mark, evict it if it is resident (as [`evict`] asks, without pins and with the pages that it names out of their
//! frames), unlink the word that names it, and link it again with the mark; to free it, the same without. Both change the page that
//! has the word, which mustn't be locked itself: else free that one first. The mark gets to the store with that page: settle before
//! [`open`], as after any change.
#![warn(missing_docs)]

mod calls;
mod page_pool;
mod records;
mod refusal;
mod tally;

pub mod raw;

pub use calls::*;
pub use page_pool::PagePool;
pub use records::*;
pub use refusal::{NoRule, Refusal};
pub use tally::*;
