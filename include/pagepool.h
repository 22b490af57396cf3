/*
 * The page pool for C99 or later and C++11 or later, on x86-64.
 *
 * `./install PREFIX` copies this header, the archive and a pkg-config file below PREFIX:
 *     cc program.c $(PKG_CONFIG_PATH=PREFIX/lib/pkgconfig pkg-config --cflags --libs pagepool)
 * In this tree, `./archive` writes target/staticlib/libpagepool.a; examples/demo.c is a program that links it.
 *
 * The host owns everything. It keeps the store (N pages of 256 bytes, or up to four stores of so many, one after another), the
 * frames (F of 256 bytes), the directory (131 bytes) and the pool's records, and hands all four to every call; a call keeps
 * nothing. The records are passed by value: go on with those in the answer. A tally of recorded fixes stands by itself: its calls
 * take no pool.
 *
 * Answers. `refusal` is 0 where the call was accepted, and otherwise the number of the first broken rule (enum pool_refusal).
 * An accepted answer's fields all count. A refused call has changed nothing: the records in its answer are those that it was
 * handed, to go on with, and so are the generator in draw's and the tally in add's; every other field is 0. Open alone takes no
 * records: refused, it answers all-zero ones, and the host goes on with its old ones.
 *
 * Handles. A handle is a frame and the page in it, by its store and its number there. It is good from the answer of root or fix
 * that gave it until each of the page's pins was taken off by an unfix: as long as the page is pinned it stays in that frame,
 * whatever else is called but open. A stale handle is refused by 3 and never reaches another page, of its store or of another; it
 * is good again where its page is pinned in that frame again.
 *
 * Payloads. Show and peek answer a place in the host's own buffers, to be read there until the next call that takes that
 * buffer without const. A part of frames or store must not be handed to write as its bytes. To copy a payload to another
 * page, copy it to a buffer of one's own, and hand that to write:
 *     uint8_t copy[POOL_PAYLOAD_SIZE];
 *     memcpy(copy, pool_payload(place, frames, store), sizeof copy);
 *
 * Stores. One set of frames serves T stores, 1 to 4, each a tree of its own below its own page 0. They have N pages each and are
 * lent one after another as one buffer: page p of store t begins at byte 256 * (t * N + p). Open is told T and a ceiling for each
 * store, and finds N by the buffer's size; the records keep them, and every call goes by those. A page is named by its store, 0 to
 * T - 1, and its number there: handles have both, root takes the store, peek, find and evict take both, and what a word names is a
 * page of the store that the word stands in. Two stores can have the same page numbers, and neither knows of the other's. F is at
 * least T + 1, since frame t holds the root of store t for as long as the pool is open.
 *
 * A ceiling, 1 to F, is the most pages of its store that are resident at once, the root among them. A store below its ceiling loads
 * a page into an empty frame, and where there is none a sweep goes over the pages of all stores, so that it may evict a
 * neighbour's: which is as before nevertheless, its words, its payload and what is pinned of it, and comes in again when it is
 * fixed. A store at its ceiling makes room by a sweep of its own pages alone, even where frames are empty: a frame that is empty, a
 * neighbour's or a root's costs a look and stays as it is. So ceilings that come to F in all keep frames for each store, and
 * ceilings of F leave the frames to whoever fixes. A store whose ceiling is 1 holds its root alone.
 *
 * A load that finds no frame is refused by one of two numbers. By 15 where its store is below its ceiling: no frame is empty, and
 * each page of all stores but the roots is pinned or has a resident child. By 27 where its store is at its ceiling: each of its own
 * resident pages but its root is pinned or has a resident child, whatever the neighbours and the empty frames are. With one store
 * 27 is answered and never 15: where no frame is empty, one store is at its ceiling.
 *
 * A program with one store opens with T 1 and ceilings {F, 0, 0, 0}, and names store 0 throughout.
 *
 * Directory. In its 131 bytes find and peek look up the resident pages of all stores, each in the chain of its number's remainder
 * by 67. Byte b below 67 holds 1 plus the frame at the head of chain b, byte 67 + f holds 1 plus the frame after f in its chain,
 * and either 0 where there is none. Open sets it, whatever it held, with the roots alone in it, entered from store 0 on. Loading a
 * page puts it at its chain's head, and evicting one takes it out, by evict or by a sweep of fix; the others of a chain keep their
 * order. No other call changes it, and a refused one leaves it byte for byte, open too. Go on with it as it was left. Another
 * length is refused by 1, and by 2 a directory whose chains don't give exactly the resident pages of their remainders, each once in
 * any order, or with another byte that isn't 0: that of a frame which is empty or not below F.
 *
 * Locked pages. A word can mark the page that it names as locked; link puts the mark there, and word tells it. Write, link and
 * unlink in a locked page are refused by 26, so that its payload and its words stay as they are while the marked word stands: it
 * is never dirty, and the store holds its bytes. It is fixed, shown, loaded and evicted as any other, and so are the pages that
 * it names, which are locked only where their own words are marked. A root is never locked, since no word names it. Loading,
 * evicting, settling and sweeps keep each mark. To lock a page that is linked without the mark, evict it if it is resident (as
 * evict asks, without pins and with the pages that it names out of their frames), unlink the word that names it, and link it again
 * with the mark; to free it, the same without. Both change the page that has the word, which mustn't be locked itself: else free
 * that one first. The mark gets to the store with that page: settle before open, as after any change.
 *
 * Arguments. A call takes any lengths, records, handle, slot, offset, store number, page number, T, ceilings and tally, and refuses
 * what it can't use. Of the pointers it asks what C asks: each has as many bytes behind it as its size says, or elements as its
 * length says, and a buffer that is not const overlaps no other. NULL with a length of 0 is fine throughout: frames, store,
 * directory, counters, hits and recordings of no length are refused by 1, and a write of no bytes changes nothing. NULL with any
 * other length is not.
 */
#ifndef PAGEPOOL_H
#define PAGEPOOL_H

#include <stdbool.h>
#include <stddef.h>
#include <stdint.h>

#ifdef __cplusplus
extern "C" {
#endif

/*
 * ---- version
 *
 * Raised by each new call and by each change of a signature, a struct or an answer: MINOR where programs that were written and
 * compiled for the version before go on working with the new archive, otherwise MAJOR.
 */
#define PAGEPOOL_VERSION_MAJOR 6
#define PAGEPOOL_VERSION_MINOR 0
#define PAGEPOOL_VERSION (1000 * PAGEPOOL_VERSION_MAJOR + PAGEPOOL_VERSION_MINOR)

/* ---- figures */

#define POOL_PAGE_SIZE 256
/* A page is 16 words of 4 bytes, then 192 payload bytes. */
#define POOL_SLOTS 16
#define POOL_PAYLOAD_START 64
#define POOL_PAYLOAD_SIZE 192
/*
 * A word in the store is a page number, little-endian, or 0 for none. Bit 30 of it marks the page that it names as locked, and is
 * no part of the number. On a word that is otherwise 0 it is refused: by 16 in open, by 14 where the page is to be loaded, and by 2
 * in a frame that holds a page.
 */
#define POOL_LOCK_BIT 0x40000000u
/* N is at most this, and at least 1. */
#define POOL_MOST_PAGES 4096
/* T is at most this, and at least 1. */
#define POOL_MOST_STORES 4
/* F, which is at least T + 1 too. */
#define POOL_LEAST_FRAMES 2
#define POOL_MOST_FRAMES 64
#define POOL_MAX_USAGE 3
#define POOL_MAX_PINS 65535
/* The chains of the directory, and its bytes: one for the head of each chain, then one for each of 64 frames. */
#define POOL_BUCKETS 67
#define POOL_DIRECTORY_SIZE 131
/* A tally has a counter for each depth from 1 to this. */
#define POOL_DEPTHS 4095
/* A recording has 1 to so many page numbers, each below POOL_MOST_PAGES. */
#define POOL_MOST_REFERENCES 4096
#define POOL_MOST_RECORDINGS 65535

/* ---- refusals, in checking order: 28 is tested after 2, 26 after 5, 9 before 8, 20 to 22 after 11, and 27 beside 15 */

enum pool_refusal {
    POOL_ACCEPTED = 0,
    /* A wrong length (frames, store, directory, counters, hits, recording), T or a ceiling out of its range, or a full tally. */
    POOL_WRONG_LENGTH = 1,
    /* Records, frames, directory and ceilings don't agree, or a tally's references with its recordings or its counters. */
    POOL_DISAGREE = 2,
    /* The store number isn't below T. */
    POOL_BAD_STORE = 28,
    /* The handle's frame isn't below F or doesn't hold its page of its store, or that has no pins. */
    POOL_BAD_HANDLE = 3,
    /* The slot is above 15. */
    POOL_BAD_SLOT = 4,
    /* The offset is above 192, or the length above 192 - offset. */
    POOL_BAD_RANGE = 5,
    /* The handle's page is locked. To free it, unfix, evict and unlink it, and link it again without the mark. */
    POOL_IS_LOCKED = 26,
    /* The page number isn't below N, is 0 in link, or is above 4,095 in a recording. */
    POOL_BAD_PAGE = 6,
    /* Fix or unlink meets a word of 0. */
    POOL_EMPTY_SLOT = 7,
    /* Link's page is named already, by a word of any page of its store. */
    POOL_ALREADY_NAMED = 9,
    /* Link meets a word that isn't 0. */
    POOL_FULL_SLOT = 8,
    /* Unlink's page is resident. */
    POOL_RESIDENT = 10,
    /* Evict's page isn't resident. */
    POOL_NOT_RESIDENT = 11,
    /* Evict's page is the root. It never leaves its frame. */
    POOL_IS_ROOT = 20,
    /* Evict's page is pinned. Unfix it until its pins are gone. */
    POOL_IS_PINNED = 21,
    /* Evict's page names a resident page. First evict the resident pages that it names. */
    POOL_IS_PARENT = 22,
    /* A resident page to be pinned has 65,535 pins. */
    POOL_TOO_MANY_PINS = 13,
    /* The stored page to be loaded has words that it can't have: only after the store was altered from outside. */
    POOL_BAD_STORED_PAGE = 14,
    /* The store is below its ceiling, no frame is empty, and a sweep could take none. */
    POOL_NO_FRAME = 15,
    /* The store is at its ceiling, and has no page of its own that a sweep could take. */
    POOL_AT_CEILING = 27,
    /* A store of open isn't sound: a word names no page below N, or a number stands in two words of it. */
    POOL_UNSOUND_STORE = 16
};

/* ---- records */

typedef uint8_t pool_frame_index;
typedef uint8_t pool_store_number;
typedef uint16_t pool_page_number;

/*
 * What is known of one frame. The all-zero record is the empty frame's. A field out of its range, such as a `used` or a
 * `dirty` above 1, is refused by 2.
 */
struct pool_record {
    /* 1 where the frame holds a page, and 1 where that was changed since it was loaded or settled; otherwise 0. */
    uint8_t used;
    uint8_t dirty;
    /*
     * The usage count of the clock sweep, 0 to 3. Up to 3 each pin raises it by one, and so does each look of a sweep that
     * passes over the page while it is pinned, unless it is a root; a look at a page that evict would accept lowers it by
     * one, and at 0 takes the page. A sweep for a store at its ceiling leaves the usages of all other stores.
     */
    uint8_t usage;
    /* The slot of the parent's word that names the page, and the parent's frame. Both are 0 for a root. */
    uint8_t slot;
    pool_frame_index parent;
    /* The store that the page is of, and its parent too. */
    pool_store_number store;
    uint16_t pins;
    pool_page_number page;
};

/* The pool's records: one for each of up to 64 frames, F, N, T, the stores' ceilings and the clock hand. */
struct pool {
    struct pool_record records[POOL_MOST_FRAMES];
    /* F, N and T. */
    uint16_t count;
    uint16_t pages;
    uint8_t stores;
    /* The most resident pages of each store, its root included; 0 from T on. */
    uint8_t ceilings[POOL_MOST_STORES];
    pool_frame_index hand;
};

/* The ceilings as open takes them: 1 to F for each of the T stores, and 0 for the others. */
struct pool_ceilings {
    uint8_t most[POOL_MOST_STORES];
};

/* A pinned page: its frame, its store and its number there. */
struct pool_handle {
    pool_frame_index frame;
    pool_store_number store;
    pool_page_number page;
};

/*
 * The generator of a workload: a number that is handed to each draw, which answers the one to go on with. Any number will do.
 * From 0 each draw gives 0: no seed gives it, and no draw leads there from another number.
 */
struct pool_generator {
    uint32_t number;
};

/*
 * The head of a tally: the recordings that were added, and all their references. Its 4,095 counters are lent beside it. With all
 * of them 0 it is the tally of no recordings.
 */
struct pool_tally {
    uint16_t recordings;
    uint32_t references;
};

/* ---- answers */

struct pool_done {
    struct pool pool;
    uint8_t refusal;
};

/* The handle of the page that was pinned, and the looks of the sweep that made room for it, 0 if none. */
struct pool_fixed {
    struct pool pool;
    uint8_t refusal;
    struct pool_handle handle;
    uint16_t looks;
};

/* The page number in a slot, 0 for none, and whether the word there marks that page as locked. */
struct pool_named {
    uint8_t refusal;
    bool locked;
    pool_page_number page;
};

/*
 * Whether a page is resident; its frame, 0 where it isn't; and the entries of its chain that were compared: its place there, from
 * 1, or the chain's length where it isn't resident.
 */
struct pool_found {
    uint8_t refusal;
    bool present;
    pool_frame_index frame;
    uint16_t compared;
};

/* Where a payload lies: in the store or in the frames, from `start` on. Beside a refusal, no bytes at the frames' start. */
struct pool_place {
    uint8_t refusal;
    bool in_store;
    size_t start;
    size_t size;
};

/*
 * A record of the call listing, and the generator to go on with. Beside a refusal the record is all zero, and the generator is
 * the one that was handed in.
 */
struct pool_drawn {
    uint8_t refusal;
    /*
     * By byte: 0 the call, 1 the frame, 2 and 3 the page (little-endian), 4 the slot, 5 the offset, 6 the length, 7 to 15 the
     * data. The calls are 1 root, 2 fix, 3 unfix, 4 write, 5 link, 6 unlink, 7 evict, 8 settle, 9 find. Frame and page are a
     * handle, but that evict and find go by the page alone, and that link's handle has its page in 7 and 8 (little-endian):
     * 2 and 3 are the page to be linked. A record has no mark: its link is made with `locked` false.
     */
    uint8_t entry[16];
    struct pool_generator generator;
};

/* The tally to go on with. Beside a refusal it is the one that was handed in. */
struct pool_added {
    uint8_t refusal;
    struct pool_tally tally;
};

/* The references whose depth is at most a size, which are the hits of a cache of that size, and all references. */
struct pool_share {
    uint8_t refusal;
    uint64_t within;
    uint64_t all;
};

/* The payload there, in the host's own buffer: `place.size` bytes. */
static inline const uint8_t *pool_payload(struct pool_place place, const uint8_t *frames, const uint8_t *store)
{
    return (place.in_store ? store : frames) + place.start;
}

/* ---- the calls */

/*
 * Begins with the stores as they are: page 0 of store t is copied to frame t, not pinned, and every other frame is empty. F is the
 * frames' size over 256, N the store's over 256 * stores. Gives the records, and sets the directory over what it held. Whatever
 * earlier records of these stores had not settled is forgotten, and their handles are stale: settle first. Refused: 1, 16.
 *
 * By 1 where `stores`, T, isn't 1 to 4 or doesn't divide the store into whole pages, where F isn't T + 1 to 64 or N not 1 to 4,096,
 * where the ceiling of a store isn't 1 to F, and where one from T on isn't 0. T and the ceilings can be others at each open. By 16
 * where any of the stores isn't sound; a number may stand in two of them.
 */
struct pool_done pool_open(uint8_t *frames, size_t frames_size, const uint8_t *store, size_t store_size, uint8_t *directory,
                           size_t directory_size, uint8_t stores, struct pool_ceilings ceilings);

/* Pins page 0 of a store and gives its handle. Refused: 1, 2, 28, 13. */
struct pool_fixed pool_root(struct pool pool, const uint8_t *frames, size_t frames_size, const uint8_t *store,
                            size_t store_size, const uint8_t *directory, size_t directory_size, pool_store_number of_store);

/*
 * Pins the page that a slot of the handle's page names, and gives its handle. A page that isn't resident is loaded first,
 * into an empty frame or one that a sweep takes, whose page is evicted. Refused: 1, 2, 28, 3, 4, 7; 13 if it is resident, 14, 15
 * and 27 if not.
 *
 * A sweep takes a page that evict would accept: one of least usage, of several the first from the hand on. Pinned pages that it
 * passes over, the roots excepted, gain usage by each look, to 3 at most, so that a page which was held is still warm once its pins
 * are gone. A fix that makes no sweep leaves the usage of every other page as it was. Where the store is at its ceiling the sweep
 * takes, warms and cools its own pages alone. A sweep takes at most 4 * F looks, whose number is in the answer.
 *
 * After 15 every frame holds a root, a pinned page or a page with a resident child. Unfix a page that has none until its pins are
 * gone, whichever store it is of, and fix again; before that, evict would be refused for every resident page too, by 20, 21 or 22.
 * After 27 the same is so of the store's own pages: unfix one of these, or unfix and evict one. A host that keeps so many pages
 * pinned at once needs more frames, or a higher ceiling for that store: settle, and open with a larger F, or with other ceilings.
 */
struct pool_fixed pool_fix(struct pool pool, uint8_t *frames, size_t frames_size, uint8_t *store, size_t store_size,
                           uint8_t *directory, size_t directory_size, struct pool_handle handle, size_t slot);

/* Takes one pin off the handle's page. Refused: 1, 2, 28, 3. */
struct pool_done pool_unfix(struct pool pool, const uint8_t *frames, size_t frames_size, const uint8_t *store,
                            size_t store_size, const uint8_t *directory, size_t directory_size, struct pool_handle handle);

/* Gives the place of the payload of the handle's page. Refused: 1, 2, 28, 3. */
struct pool_place pool_show(struct pool pool, const uint8_t *frames, size_t frames_size, const uint8_t *store,
                            size_t store_size, const uint8_t *directory, size_t directory_size, struct pool_handle handle);

/* Gives the place of the payload of a page: in its frame if it is resident, otherwise in its store. Refused: 1, 2, 28, 6. */
struct pool_place pool_peek(struct pool pool, const uint8_t *frames, size_t frames_size, const uint8_t *store,
                            size_t store_size, const uint8_t *directory, size_t directory_size, pool_store_number of_store,
                            pool_page_number page);

/* Gives the page number in a slot of the handle's page, 0 for none, and whether that page is locked. Refused: 1, 2, 28, 3, 4. */
struct pool_named pool_word(struct pool pool, const uint8_t *frames, size_t frames_size, const uint8_t *store,
                            size_t store_size, const uint8_t *directory, size_t directory_size, struct pool_handle handle,
                            size_t slot);

/*
 * Puts bytes at an offset of the payload of the handle's page, which is then dirty unless there are none. In a locked page a write
 * of no bytes is refused too. Refused: 1, 2, 28, 3, 5, 26.
 */
struct pool_done pool_write(struct pool pool, uint8_t *frames, size_t frames_size, const uint8_t *store, size_t store_size,
                            const uint8_t *directory, size_t directory_size, struct pool_handle handle, size_t offset,
                            const uint8_t *bytes, size_t bytes_size);

/*
 * Stores a page number in an empty slot of the handle's page, which is then dirty; with `locked`, the word marks the page of that
 * number, of the handle's store, as locked. Refused: 1, 2, 28, 3, 4, 26, 6, 9, 8.
 *
 * A page that is named already is refused by 9 whether the slot is taken or not, also where that very slot names it. So after 8
 * the page can go into an empty slot, and after 9 into none until the word that names it is unlinked. Words of other stores name
 * other pages: they don't count.
 *
 * A linked page gets the mark, or loses it, by three calls: evict it if it is resident, unlink it, and link it anew. 26 is about
 * the page that it is linked in, whether the mark is put or not.
 */
struct pool_done pool_link(struct pool pool, uint8_t *frames, size_t frames_size, const uint8_t *store, size_t store_size,
                           const uint8_t *directory, size_t directory_size, struct pool_handle handle, size_t slot,
                           pool_page_number page, bool locked);

/* Clears a slot of the handle's page, which is then dirty. A mark there goes with it. Refused: 1, 2, 28, 3, 4, 26, 7, 10. */
struct pool_done pool_unlink(struct pool pool, uint8_t *frames, size_t frames_size, const uint8_t *store, size_t store_size,
                             const uint8_t *directory, size_t directory_size, struct pool_handle handle, size_t slot);

/*
 * Takes a page out of its frame, to its store if it is dirty. Refused: 1, 2, 28, 6, 11, 20, 21, 22.
 *
 * A resident page that has to stay is refused by the first of three reasons that holds. After 20 nothing helps: a root stays,
 * pinned or not. After 21 unfix the page until its pins are gone; one that names resident pages too is refused by 22 then. After
 * 22 first evict the resident pages that it names: the used records whose parent is its frame have their numbers. Where one of
 * them is refused by 21 or 22 in turn, do there what is said here.
 */
struct pool_done pool_evict(struct pool pool, uint8_t *frames, size_t frames_size, uint8_t *store, size_t store_size,
                            uint8_t *directory, size_t directory_size, pool_store_number of_store, pool_page_number page);

/* Writes each dirty page to its store, in all stores, and marks it clean. Refused: 1, 2. */
struct pool_done pool_settle(struct pool pool, const uint8_t *frames, size_t frames_size, uint8_t *store, size_t store_size,
                             const uint8_t *directory, size_t directory_size);

/*
 * Tells whether a page is resident, in which frame, and how many entries of its chain were compared. Refused: 1, 2, 28, 6.
 *
 * It goes along the page's chain in the directory from the head on, and ends at the page's entry. A page that is absent takes the
 * whole chain, as the last one in it does: `present` tells them apart. So it never takes more than there are resident pages with
 * the page's remainder by 67, of all stores: their entries share the chains, and each that is compared counts.
 */
struct pool_found pool_find(struct pool pool, const uint8_t *frames, size_t frames_size, const uint8_t *store,
                            size_t store_size, const uint8_t *directory, size_t directory_size, pool_store_number of_store,
                            pool_page_number page);

/*
 * ---- a workload that anyone can repeat
 *
 * It begins with a pool just opened and the generator of a seed. Draw a record on the pool as it is, make the record's call, and
 * so on:
 *     struct pool_generator generator = pool_seeded(7);
 *     struct pool_drawn drawn = pool_draw(pool, frames, sizeof frames, store, sizeof store, directory, sizeof directory,
 *                                         generator);
 *     generator = drawn.generator;
 * and then the call of drawn.entry. The same seed, F, N and store give the same records and answers on every machine. Kept one
 * after the other the records are a recording; ./listing gives the same answers for it where the pool is the listing's, 4 frames
 * and one store of 16 pages of zeros, with a ceiling of 4. A record names no store: on a pool of several, which one its call is
 * made in is for the host to say, in the same way on every machine.
 */

/* Gives the generator of a seed. A seed of 0 is read as 1. */
struct pool_generator pool_seeded(uint32_t seed);

/*
 * Draws five numbers, and makes a record of the call listing of them. The pool stays as it is: a record is drawn, not run.
 * Refused: 1, 2.
 *
 * The numbers are those of the 32-bit xorshift generator of Marsaglia with shifts left 13, right 17, left 5. Call, frame, page,
 * slot and offset are their remainders by 9 (plus 1), F, N, 16 and 193, in this order, whichever the call uses. Length and data
 * are 0, but that link's handle has the page that is in the drawn frame, or 0 where that is empty.
 */
struct pool_drawn pool_draw(struct pool pool, const uint8_t *frames, size_t frames_size, const uint8_t *store,
                            size_t store_size, const uint8_t *directory, size_t directory_size,
                            struct pool_generator generator);

/*
 * ---- how many frames to buy
 *
 * A recording is a list of page numbers, one for each recorded fix, in their order: 1 to 4,096 of them, none above 4,095. Each is
 * a reference to its page. The depth of a reference is 1 plus the count of different other pages since the last reference to the
 * same page; the first reference to a page in its recording has none:
 *     page    5  7  5  5  9  7
 *     depth   -  -  2  1  -  3
 * A cache of f pages hits exactly the references whose depth is at most f, and so the depths give the hits of every size at once.
 * That cache is flat and without pins, is empty at each recording's start, and replaces the page least recently used; a larger one
 * always contains the smaller. The pool goes by its sweep, and keeps the root, pinned pages and parents, so that its own hits can
 * differ.
 *
 * A tally sums up to 65,535 recordings: its head counts them and all their references, the first ones included, and counts[k] the
 * references of depth k + 1. The host keeps head and counters, sets both to 0 at the start, and goes on with the answer's head:
 *     static uint32_t counts[POOL_DEPTHS];
 *     struct pool_tally tally = {0, 0};
 *     struct pool_added added = pool_tally_add(tally, counts, POOL_DEPTHS, pages, length);
 *     tally = added.tally;
 * Lengths are in elements, not in bytes, and the counters must be 4,095.
 */

/*
 * Adds a recording to a tally: its references, and to the counter of each depth those of that depth. Refused: 1, 2, 6.
 *
 * By 1 where the counters aren't 4,095, where the recording has no page or more than 4,096, and where the tally is full, with
 * 65,535 recordings. By 2 where the tally so far can't be one: it has more references than 4,096 for each recording, or fewer
 * than its counters come to. By 6 where a page is above 4,095, wherever it stands. Refused, nothing is added: head and counters
 * are as they were. After 6, or where only the recording's length was wrong, other recordings can be added.
 */
struct pool_added pool_tally_add(struct pool_tally tally, uint32_t *counts, size_t counts_length, const uint16_t *pages,
                                 size_t pages_length);

/*
 * Gives the hits of a cache of a size, and all references: the share that a cache of so many pages hits. Any size will do: 0 has
 * no hits, and from 4,095 on every depth is within it. Refused: 1.
 *
 * By 1 where the counters aren't 4,095. Nothing else of a tally is tested: share and report sum its counters as they are, in 64
 * bits.
 */
struct pool_share pool_tally_share(struct pool_tally tally, const uint32_t *counts, size_t counts_length, uint64_t size);

/*
 * Reports every size at once: hits[k] becomes the hits of a cache of k + 1 pages, the sum of the counters from 0 to k. Beside it
 * stands counts[k], the references of depth k + 1. Answers the refusal's number alone. Refused: 1.
 *
 * By 1 where counters or hits aren't 4,095; the hits then stay as they were.
 */
uint8_t pool_tally_report(const uint32_t *counts, size_t counts_length, uint64_t *hits, size_t hits_length);

/* ---- the layout of these structs, as the archive has it */

#if defined(__cplusplus)
#define POOL_ASSERT(name, condition) static_assert(condition, #name)
#elif __STDC_VERSION__ >= 201112L
#define POOL_ASSERT(name, condition) _Static_assert(condition, #name)
#else
#define POOL_ASSERT(name, condition) typedef char pool_assert_##name[(condition) ? 1 : -1]
#endif
#define POOL_SIZE(kind, size) POOL_ASSERT(size_of_##kind, sizeof(struct kind) == (size))
#define POOL_OFFSET(kind, field, at) POOL_ASSERT(kind##_##field, offsetof(struct kind, field) == (at))

POOL_SIZE(pool_record, 10);
POOL_OFFSET(pool_record, used, 0);
POOL_OFFSET(pool_record, dirty, 1);
POOL_OFFSET(pool_record, usage, 2);
POOL_OFFSET(pool_record, slot, 3);
POOL_OFFSET(pool_record, parent, 4);
POOL_OFFSET(pool_record, store, 5);
POOL_OFFSET(pool_record, pins, 6);
POOL_OFFSET(pool_record, page, 8);

POOL_SIZE(pool, 650);
POOL_OFFSET(pool, records, 0);
POOL_OFFSET(pool, count, 640);
POOL_OFFSET(pool, pages, 642);
POOL_OFFSET(pool, stores, 644);
POOL_OFFSET(pool, ceilings, 645);
POOL_OFFSET(pool, hand, 649);

POOL_SIZE(pool_ceilings, 4);
POOL_OFFSET(pool_ceilings, most, 0);

POOL_SIZE(pool_handle, 4);
POOL_OFFSET(pool_handle, frame, 0);
POOL_OFFSET(pool_handle, store, 1);
POOL_OFFSET(pool_handle, page, 2);

POOL_SIZE(pool_done, 652);
POOL_OFFSET(pool_done, pool, 0);
POOL_OFFSET(pool_done, refusal, 650);

POOL_SIZE(pool_fixed, 658);
POOL_OFFSET(pool_fixed, pool, 0);
POOL_OFFSET(pool_fixed, refusal, 650);
POOL_OFFSET(pool_fixed, handle, 652);
POOL_OFFSET(pool_fixed, looks, 656);

POOL_SIZE(pool_named, 4);
POOL_OFFSET(pool_named, refusal, 0);
POOL_OFFSET(pool_named, locked, 1);
POOL_OFFSET(pool_named, page, 2);

POOL_SIZE(pool_found, 6);
POOL_OFFSET(pool_found, refusal, 0);
POOL_OFFSET(pool_found, present, 1);
POOL_OFFSET(pool_found, frame, 2);
POOL_OFFSET(pool_found, compared, 4);

POOL_SIZE(pool_place, 24);
POOL_OFFSET(pool_place, refusal, 0);
POOL_OFFSET(pool_place, in_store, 1);
POOL_OFFSET(pool_place, start, 8);
POOL_OFFSET(pool_place, size, 16);

POOL_SIZE(pool_generator, 4);
POOL_OFFSET(pool_generator, number, 0);

POOL_SIZE(pool_drawn, 24);
POOL_OFFSET(pool_drawn, refusal, 0);
POOL_OFFSET(pool_drawn, entry, 1);
POOL_OFFSET(pool_drawn, generator, 20);

POOL_SIZE(pool_tally, 8);
POOL_OFFSET(pool_tally, recordings, 0);
POOL_OFFSET(pool_tally, references, 4);

POOL_SIZE(pool_added, 12);
POOL_OFFSET(pool_added, refusal, 0);
POOL_OFFSET(pool_added, tally, 4);

POOL_SIZE(pool_share, 24);
POOL_OFFSET(pool_share, refusal, 0);
POOL_OFFSET(pool_share, within, 8);
POOL_OFFSET(pool_share, all, 16);

#undef POOL_OFFSET
#undef POOL_SIZE
#undef POOL_ASSERT

/* Structs with a value of its own in every field, by which tests/host/layout.c compares these declarations with the archive. */

struct pool_done pool_layout_done(void);
struct pool_fixed pool_layout_fixed(void);
struct pool_named pool_layout_named(void);
struct pool_found pool_layout_found(void);
struct pool_place pool_layout_place(void);
struct pool_drawn pool_layout_drawn(void);
struct pool_added pool_layout_added(void);
struct pool_share pool_layout_share(void);

#ifdef __cplusplus
}
#endif

#endif
