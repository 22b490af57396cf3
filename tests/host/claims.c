/*
 * Tries what the header says of answers, handles, usages, looks, stores, the directory, locks, workloads, tallies, payloads and
 * pointers. Names each failing claim.
 */
#include "pagepool.h"

#include <stdio.h>
#include <string.h>

#define FRAMES 3
#define PAGES 8
/* The larger pool, whose pages 5, 72, 139 and 206 are of one chain. */
#define WIDE_FRAMES 5
#define WIDE_PAGES 210
/* The pool of three stores, each of the smaller one's pages. */
#define STORES 3
#define SHARED_FRAMES 7

static uint8_t store[WIDE_PAGES * POOL_PAGE_SIZE];
static uint8_t frames[SHARED_FRAMES * POOL_PAGE_SIZE];
/* And one byte more. */
static uint8_t directory[POOL_DIRECTORY_SIZE + 1];
/* What each call below is lent: of the smaller pool, of the larger, of the shared one, and of the one that has these records. */
#define BUFFERS frames, FRAMES * POOL_PAGE_SIZE, store, PAGES * POOL_PAGE_SIZE
#define LENT BUFFERS, directory, POOL_DIRECTORY_SIZE
#define WIDE frames, WIDE_FRAMES * POOL_PAGE_SIZE, store, sizeof store, directory, POOL_DIRECTORY_SIZE
#define SHARED frames, sizeof frames, store, STORES * PAGES * POOL_PAGE_SIZE, directory, POOL_DIRECTORY_SIZE
#define LENT_TO(pool)                                                                                                  \
    frames, (size_t)(pool).count * POOL_PAGE_SIZE, store, (size_t)(pool).stores * (pool).pages * POOL_PAGE_SIZE,       \
        directory, POOL_DIRECTORY_SIZE
#define NOTHING NULL, 0, NULL, 0, NULL, 0
/* What open takes besides: one store, which may fill every frame of the smaller pool, or of the larger. */
#define ONE 1, (struct pool_ceilings){{FRAMES}}
#define WIDE_ONE 1, (struct pool_ceilings){{WIDE_FRAMES}}

static int failures;

static void claim(const char *words, bool holds)
{
    if (!holds) {
        printf("fails: %s\n", words);
        failures++;
    }
}

/* What the three buffers held when they were last noted. */
static struct {
    uint8_t frames[sizeof frames], store[sizeof store], directory[sizeof directory];
} noted;

static void note(void)
{
    memcpy(noted.frames, frames, sizeof frames);
    memcpy(noted.store, store, sizeof store);
    memcpy(noted.directory, directory, sizeof directory);
}

static bool is_as_noted(void)
{
    return memcmp(noted.frames, frames, sizeof frames) == 0 && memcmp(noted.store, store, sizeof store) == 0 &&
           memcmp(noted.directory, directory, sizeof directory) == 0;
}

/* A claim of several about the same, which holds only where the buffers are as noted. Otherwise they are put back for the next. */
static void claim_of(const char *about, const char *words, bool holds)
{
    holds = holds && is_as_noted();
    if (!holds)
        printf("of %s, ", about);
    claim(words, holds);
    memcpy(frames, noted.frames, sizeof frames);
    memcpy(store, noted.store, sizeof store);
    memcpy(directory, noted.directory, sizeof directory);
}

static bool same_pool(const struct pool *a, const struct pool *b)
{
    for (int i = 0; i < POOL_MOST_FRAMES; i++) {
        const struct pool_record *x = &a->records[i], *y = &b->records[i];
        if (x->used != y->used || x->dirty != y->dirty || x->usage != y->usage || x->slot != y->slot ||
            x->parent != y->parent || x->store != y->store || x->pins != y->pins || x->page != y->page)
            return false;
    }
    return a->count == b->count && a->pages == b->pages && a->stores == b->stores &&
           memcmp(a->ceilings, b->ceilings, sizeof a->ceilings) == 0 && a->hand == b->hand;
}

/* A refused answer: its number, the records that were handed in, and 0 in every other field. */

static bool done_refused(struct pool_done answer, uint8_t refusal, struct pool pool)
{
    return answer.refusal == refusal && same_pool(&answer.pool, &pool);
}

static bool fixed_refused(struct pool_fixed answer, uint8_t refusal, struct pool pool)
{
    return answer.refusal == refusal && same_pool(&answer.pool, &pool) && answer.handle.frame == 0 &&
           answer.handle.store == 0 && answer.handle.page == 0 && answer.looks == 0;
}

static bool place_refused(struct pool_place answer, uint8_t refusal)
{
    return answer.refusal == refusal && !answer.in_store && answer.start == 0 && answer.size == 0;
}

static bool named_refused(struct pool_named answer, uint8_t refusal)
{
    return answer.refusal == refusal && !answer.locked && answer.page == 0;
}

static bool found_refused(struct pool_found answer, uint8_t refusal)
{
    return answer.refusal == refusal && !answer.present && answer.frame == 0 && answer.compared == 0;
}

static bool drawn_refused(struct pool_drawn answer, uint8_t refusal, struct pool_generator generator)
{
    static const uint8_t zeros[sizeof answer.entry];
    return answer.refusal == refusal && memcmp(answer.entry, zeros, sizeof zeros) == 0 &&
           answer.generator.number == generator.number;
}

/* What an accepted find answers. */

static bool is_found(struct pool pool, pool_page_number page, pool_frame_index frame, uint16_t compared)
{
    struct pool_found found = pool_find(pool, LENT_TO(pool), 0, page);
    return found.refusal == POOL_ACCEPTED && found.present && found.frame == frame && found.compared == compared;
}

static bool is_absent(struct pool pool, pool_page_number page, uint16_t compared)
{
    struct pool_found found = pool_find(pool, LENT_TO(pool), 0, page);
    return found.refusal == POOL_ACCEPTED && !found.present && found.frame == 0 && found.compared == compared;
}

/* Zeros, but that the root names these pages in its slots from 1 on. What is in the directory is for open to set. */
static void clear(const uint8_t *named, size_t count)
{
    memset(store, 0, sizeof store);
    memset(frames, 0, sizeof frames);
    memset(directory, 0xff, sizeof directory);
    for (size_t i = 0; i < count; i++)
        store[4 * (i + 1)] = named[i];
}

/* The opened pool, with the root pinned. */
static struct pool rooted(struct pool_done opened)
{
    claim("a sound store opens", opened.refusal == POOL_ACCEPTED);
    return pool_root(opened.pool, LENT_TO(opened.pool), 0).pool;
}

/* A pool over a store whose root names pages 1, 2 and 3 in its slots 1, 2 and 3. No two of its pages are of one chain. */
static struct pool begin(void)
{
    static const uint8_t named[] = {1, 2, 3};
    clear(named, sizeof named);
    return rooted(pool_open(LENT, ONE));
}

/* The larger pool, whose root names pages 5, 72, 139, 6 and 206 in its slots 1 to 5. */
static struct pool begin_wide(void)
{
    static const uint8_t named[] = {5, 72, 139, 6, 206};
    clear(named, sizeof named);
    return rooted(pool_open(WIDE, WIDE_ONE));
}

static const struct pool_handle root = {0, 0, 0};
static const struct pool_generator generator = {77};

/* Each call but open is refused with these buffers, and changes nothing. */
static void claim_refused(const char *about, uint8_t refusal, struct pool pool, uint8_t *frame_bytes, size_t frame_size,
                          uint8_t *pages, size_t pages_size, uint8_t *chains, size_t chains_size)
{
#define HANDED frame_bytes, frame_size, pages, pages_size, chains, chains_size
    note();
    claim_of(about, "root", fixed_refused(pool_root(pool, HANDED, 0), refusal, pool));
    claim_of(about, "fix", fixed_refused(pool_fix(pool, HANDED, root, 1), refusal, pool));
    claim_of(about, "unfix", done_refused(pool_unfix(pool, HANDED, root), refusal, pool));
    claim_of(about, "show", place_refused(pool_show(pool, HANDED, root), refusal));
    claim_of(about, "peek", place_refused(pool_peek(pool, HANDED, 0, 1), refusal));
    claim_of(about, "word", named_refused(pool_word(pool, HANDED, root, 1), refusal));
    claim_of(about, "write", done_refused(pool_write(pool, HANDED, root, 0, (const uint8_t *)"new", 3), refusal, pool));
    claim_of(about, "link", done_refused(pool_link(pool, HANDED, root, 0, 4, false), refusal, pool));
    claim_of(about, "unlink", done_refused(pool_unlink(pool, HANDED, root, 3), refusal, pool));
    claim_of(about, "evict", done_refused(pool_evict(pool, HANDED, 0, 2), refusal, pool));
    claim_of(about, "settle", done_refused(pool_settle(pool, HANDED), refusal, pool));
    claim_of(about, "find", found_refused(pool_find(pool, HANDED, 0, 1), refusal));
    claim_of(about, "draw", drawn_refused(pool_draw(pool, HANDED, generator), refusal, generator));
#undef HANDED
}

static void null_and_0(void)
{
    struct pool pool = begin(), zero;
    memset(&zero, 0, sizeof zero);
    claim("open", done_refused(pool_open(NOTHING, ONE), POOL_WRONG_LENGTH, zero));
    claim("open, no frames",
          done_refused(pool_open(NULL, 0, store, sizeof store, directory, POOL_DIRECTORY_SIZE, ONE), POOL_WRONG_LENGTH, zero));
    claim("open, no store",
          done_refused(pool_open(frames, sizeof frames, NULL, 0, directory, POOL_DIRECTORY_SIZE, ONE), POOL_WRONG_LENGTH, zero));
    claim("open, no directory", done_refused(pool_open(BUFFERS, NULL, 0, ONE), POOL_WRONG_LENGTH, zero));
    claim_refused("no buffers", POOL_WRONG_LENGTH, pool, NOTHING);
    claim_refused("no directory", POOL_WRONG_LENGTH, pool, BUFFERS, NULL, 0);

    struct pool_done written = pool_write(pool, LENT, root, POOL_PAYLOAD_SIZE, NULL, 0);
    claim("a write of no bytes changes nothing", written.refusal == 0 && same_pool(&written.pool, &pool));
    claim("nor beyond the payload", done_refused(pool_write(pool, LENT, root, 193, NULL, 0), POOL_BAD_RANGE, pool));
}

/* Rules other than 1, with answers of each kind. */
static void refused_answers(void)
{
    struct pool pool = begin(), zero;
    const struct pool_handle stale = {1, 0, 1};
    memset(&zero, 0, sizeof zero);
    claim("fix by a stale handle", fixed_refused(pool_fix(pool, LENT, stale, 1), POOL_BAD_HANDLE, pool));
    claim("fix of an empty slot", fixed_refused(pool_fix(pool, LENT, root, 0), POOL_EMPTY_SLOT, pool));
    claim("show by a stale handle", place_refused(pool_show(pool, LENT, stale), POOL_BAD_HANDLE));
    claim("peek beyond N", place_refused(pool_peek(pool, LENT, 0, PAGES), POOL_BAD_PAGE));
    claim("word beyond slot 15", named_refused(pool_word(pool, LENT, root, 16), POOL_BAD_SLOT));
    claim("find beyond N", found_refused(pool_find(pool, LENT, 0, PAGES), POOL_BAD_PAGE));
    claim("unlink of an empty slot", done_refused(pool_unlink(pool, LENT, root, 0), POOL_EMPTY_SLOT, pool));
    struct pool altered = pool;
    altered.records[0].usage = POOL_MAX_USAGE + 1;
    claim("altered records", fixed_refused(pool_root(altered, LENT, 0), POOL_DISAGREE, altered));
    claim("find in altered records", found_refused(pool_find(altered, LENT, 0, 1), POOL_DISAGREE));
    claim("draw of altered records", drawn_refused(pool_draw(altered, LENT, generator), POOL_DISAGREE, generator));
    for (unsigned flag = 2; flag < 256; flag++) {
        struct pool used = pool, dirty = pool;
        used.records[0].used = (uint8_t)flag;
        dirty.records[0].dirty = (uint8_t)flag;
        claim("a flag of neither 0 nor 1", done_refused(pool_settle(used, LENT), POOL_DISAGREE, used));
        claim("a flag of neither 0 nor 1", done_refused(pool_settle(dirty, LENT), POOL_DISAGREE, dirty));
    }
    store[4 * 5] = 1;
    claim("a refused open", done_refused(pool_open(LENT, ONE), POOL_UNSOUND_STORE, zero));
}

static void handles(void)
{
    struct pool_fixed fixed = pool_fix(begin(), LENT, root, 1);
    struct pool_handle one = fixed.handle;
    fixed = pool_fix(fixed.pool, LENT, root, 1);
    claim("a page pinned twice has one handle", fixed.handle.frame == one.frame && fixed.handle.page == one.page);
    struct pool_done done = pool_unfix(fixed.pool, LENT, one);
    claim("good while a pin is left", pool_show(done.pool, LENT, one).refusal == 0);
    done = pool_unfix(done.pool, LENT, one);
    claim("stale without pins", pool_show(done.pool, LENT, one).refusal == POOL_BAD_HANDLE);
    done = pool_evict(done.pool, LENT, 0, 1);
    fixed = pool_fix(done.pool, LENT, root, 2);
    claim("the frame holds another page", fixed.handle.frame == one.frame && fixed.handle.page == 2);
    claim("which the handle doesn't reach", pool_show(fixed.pool, LENT, one).refusal == POOL_BAD_HANDLE);
    done = pool_evict(pool_unfix(fixed.pool, LENT, fixed.handle).pool, LENT, 0, 2);
    fixed = pool_fix(done.pool, LENT, root, 1);
    claim("good again in the same frame", pool_show(fixed.pool, LENT, one).refusal == 0);
}

static void no_frame(void)
{
    struct pool_fixed one = pool_fix(begin(), LENT, root, 1);
    struct pool_fixed two = pool_fix(one.pool, LENT, root, 2);
    struct pool_fixed three = pool_fix(two.pool, LENT, root, 3);
    claim("all frames are pinned", fixed_refused(three, POOL_AT_CEILING, two.pool));
    for (pool_page_number page = 0; page < 3; page++)
        claim("evict is refused too",
              pool_evict(three.pool, LENT, 0, page).refusal == (page == 0 ? POOL_IS_ROOT : POOL_IS_PINNED));
    struct pool_done done = pool_unfix(three.pool, LENT, one.handle);
    three = pool_fix(done.pool, LENT, root, 3);
    claim("an unfix makes room", three.refusal == 0 && three.handle.frame == one.handle.frame && three.looks > 0);
}

/* A look warms a pinned page, the root excepted, so that it outlives one that came in with the sweep. */
static void pages_in_use(void)
{
    struct pool_fixed one = pool_fix(begin(), LENT, root, 1);
    struct pool_fixed two = pool_fix(one.pool, LENT, root, 2);
    const struct pool_record *records = two.pool.records;
    claim("the first pin gives usage 1", records[0].usage == 1 && records[1].usage == 1 && records[2].usage == 1);
    struct pool_fixed three = pool_fix(two.pool, LENT, root, 3);
    claim("a denied load warms nothing", fixed_refused(three, POOL_AT_CEILING, two.pool));

    struct pool pool = pool_unfix(two.pool, LENT, two.handle).pool;
    three = pool_fix(pool, LENT, root, 3);
    claim("the page without pins goes", three.handle.frame == two.handle.frame && three.looks == 6);
    records = three.pool.records;
    claim("both looks at the pinned one raise it", records[1].usage == POOL_MAX_USAGE);
    claim("but not the root", records[0].usage == 1 && records[0].pins == 1);

    pool = pool_unfix(three.pool, LENT, one.handle).pool;
    pool = pool_unfix(pool, LENT, three.handle).pool;
    two = pool_fix(pool, LENT, root, 2);
    claim("the page that came in goes first", two.handle.frame == three.handle.frame && two.looks == 6);
    claim("the one that was held is still there", is_found(two.pool, 1, one.handle.frame, 1));
    claim("and is cooler by each look", two.pool.records[1].usage == 1);
}

/* A byte of the directory. */
struct byte {
    uint8_t at, value;
};
#define LINK(frame) (POOL_BUCKETS + (frame))

/* Whether the directory has these bytes, and 0 everywhere else; the byte beyond is as it was. */
static bool has_bytes(const struct byte *bytes, size_t count)
{
    uint8_t expected[sizeof directory] = {0};
    for (size_t i = 0; i < count; i++)
        expected[bytes[i].at] = bytes[i].value;
    expected[POOL_DIRECTORY_SIZE] = 0xff;
    return memcmp(directory, expected, sizeof expected) == 0;
}

#define HAS(...) has_bytes((const struct byte[]){__VA_ARGS__}, sizeof(const struct byte[]){__VA_ARGS__} / sizeof(struct byte))

static struct pool unfixed(struct pool pool, pool_frame_index frame, pool_page_number page)
{
    const struct pool_handle handle = {frame, 0, page};
    return pool_unfix(pool, LENT_TO(pool), handle).pool;
}

/* Three pages of one chain, in frames 1 to 3: 139 at its head, then 72, then 5. */
static struct pool begin_chain(void)
{
    struct pool pool = begin_wide();
    for (size_t slot = 1; slot <= 3; slot++)
        pool = pool_fix(pool, WIDE, root, slot).pool;
    return pool;
}

/* Loading puts a page at its chain's head, evicting takes it out, and the others keep their order. */
static void chains_kept(void)
{
    struct pool pool = begin_wide();
    claim("open leaves page 0 alone, whatever was there", HAS({0, 1}));
    pool = pool_fix(pool, WIDE, root, 1).pool;
    claim("a page is entered", HAS({0, 1}, {5, 2}));
    pool = pool_fix(pool, WIDE, root, 2).pool;
    claim("the next of its chain before it", HAS({0, 1}, {5, 3}, {LINK(2), 2}));
    pool = pool_fix(pool, WIDE, root, 3).pool;
    claim("and the next before both", HAS({0, 1}, {5, 4}, {LINK(3), 3}, {LINK(2), 2}));
    pool = pool_fix(pool, WIDE, root, 1).pool;
    claim("a page that is there stays where it is", HAS({0, 1}, {5, 4}, {LINK(3), 3}, {LINK(2), 2}));
    pool = pool_evict(unfixed(pool, 2, 72), WIDE, 0, 72).pool;
    claim("out of the middle", HAS({0, 1}, {5, 4}, {LINK(3), 2}));
    pool = pool_fix(pool, WIDE, root, 2).pool;
    claim("back at the head", HAS({0, 1}, {5, 3}, {LINK(2), 4}, {LINK(3), 2}));
    pool = pool_fix(pool, WIDE, root, 4).pool;
    claim("a chain of its own", HAS({0, 1}, {5, 3}, {LINK(2), 4}, {LINK(3), 2}, {6, 5}));
    claim("a denied load changes nothing", pool_fix(pool, WIDE, root, 5).refusal == POOL_AT_CEILING &&
                                               HAS({0, 1}, {5, 3}, {LINK(2), 4}, {LINK(3), 2}, {6, 5}));
    struct pool_fixed fixed = pool_fix(unfixed(pool, 3, 139), WIDE, root, 5);
    claim("a sweep takes one out, and another comes in", fixed.looks > 0 && fixed.handle.frame == 3 &&
                                                             HAS({0, 1}, {5, 4}, {LINK(3), 3}, {LINK(2), 2}, {6, 5}));
    pool = pool_evict(unfixed(fixed.pool, 3, 206), WIDE, 0, 206).pool;
    claim("off the head", HAS({0, 1}, {5, 3}, {LINK(2), 2}, {6, 5}));
    pool = pool_evict(unfixed(unfixed(pool, 1, 5), 1, 5), WIDE, 0, 5).pool;
    claim("off the end", HAS({0, 1}, {5, 3}, {6, 5}));
    pool = pool_evict(unfixed(pool, 2, 72), WIDE, 0, 72).pool;
    claim("and the last of its chain", HAS({0, 1}, {6, 5}));
    claim("by calls that were accepted", is_found(pool, 6, 4, 1) && pool_open(WIDE, WIDE_ONE).refusal == POOL_ACCEPTED);
    claim("open leaves page 0 alone again", HAS({0, 1}));
}

/* Find gives a page's place in its chain, from 1, or the chain's length where the page is absent. */
static void entries_compared(void)
{
    struct pool pool = begin_chain();
    claim("the root", is_found(pool, 0, 0, 1));
    claim("the first of a chain", is_found(pool, 139, 3, 1));
    claim("the second", is_found(pool, 72, 2, 2));
    claim("the third", is_found(pool, 5, 1, 3));
    claim("absent from it", is_absent(pool, 206, 3));
    claim("absent from the root's", is_absent(pool, 67, 1) && is_absent(pool, 201, 1));
    claim("absent from an empty one", is_absent(pool, 6, 0) && is_absent(pool, 66, 0));
    struct pool_place place = pool_peek(pool, WIDE, 0, 5);
    claim("peek finds the third", !place.in_store && place.start == POOL_PAGE_SIZE + POOL_PAYLOAD_START);
    place = pool_peek(pool, WIDE, 0, 206);
    claim("and the absent one in the store", place.in_store && place.start == 206 * POOL_PAGE_SIZE + POOL_PAYLOAD_START);
    pool = pool_evict(unfixed(pool, 2, 72), WIDE, 0, 72).pool;
    claim("after the second left", is_found(pool, 139, 3, 1) && is_found(pool, 5, 1, 2) && is_absent(pool, 72, 2));

    /* Any order will do, and the count goes by the one that stands. */
    pool = begin_chain();
    directory[5] = 2;
    directory[LINK(1)] = 4;
    directory[LINK(3)] = 3;
    directory[LINK(2)] = 0;
    claim("in another order", is_found(pool, 5, 1, 1) && is_found(pool, 139, 3, 2) && is_found(pool, 72, 2, 3));
    pool = pool_evict(unfixed(pool, 3, 139), WIDE, 0, 139).pool;
    claim("which is kept", is_found(pool, 5, 1, 1) && is_found(pool, 72, 2, 2) && HAS({0, 1}, {5, 2}, {LINK(1), 3}));
}

/* A directory of another length, which is refused by 1 in every call, open among them. */
static void directory_lengths(void)
{
    static const size_t lengths[] = {0, 1, POOL_BUCKETS, POOL_DIRECTORY_SIZE - 1, POOL_DIRECTORY_SIZE + 1};
    struct pool pool = pool_fix(begin(), LENT, root, 2).pool, zero, altered;
    memset(&zero, 0, sizeof zero);
    pool = unfixed(pool, 1, 2);
    altered = pool;
    altered.records[0].usage = POOL_MAX_USAGE + 1;
    for (size_t i = 0; i < sizeof lengths / sizeof lengths[0]; i++) {
        const size_t length = lengths[i];
        claim_refused("another length", POOL_WRONG_LENGTH, pool, BUFFERS, directory, length);
        claim_refused("1 before 2", POOL_WRONG_LENGTH, altered, BUFFERS, directory, length);
        struct pool_done opened = pool_open(BUFFERS, directory, length, ONE);
        claim("another length in open", done_refused(opened, POOL_WRONG_LENGTH, zero) && is_as_noted());
        store[4 * 5] = 1;
        note();
        opened = pool_open(BUFFERS, directory, length, ONE);
        claim("1 before 16", done_refused(opened, POOL_WRONG_LENGTH, zero) && is_as_noted());
        store[4 * 5] = 0;
    }
    claim("the right length is accepted", is_found(pool, 2, 1, 1));
}

/* A directory that doesn't give the resident pages: refused by 2 in every call but open, which sets it. */
static void damaged_chains(void)
{
    struct pool pool = pool_fix(begin(), LENT, root, 2).pool, zero;
    memset(&zero, 0, sizeof zero);
    pool = unfixed(pool, 1, 2);
    uint8_t intact[sizeof directory];
    memcpy(intact, directory, sizeof intact);
    directory[2] = 0;
    claim_refused("a page in no chain", POOL_DISAGREE, pool, LENT);
    directory[3] = 2;
    claim_refused("a page in another chain", POOL_DISAGREE, pool, LENT);
    memcpy(directory, intact, sizeof intact);
    directory[LINK(1)] = 2;
    claim_refused("a chain into itself", POOL_DISAGREE, pool, LENT);
    directory[LINK(1)] = 1;
    claim_refused("a chain into another", POOL_DISAGREE, pool, LENT);
    memcpy(directory, intact, sizeof intact);
    directory[4] = 3;
    claim_refused("an empty frame in a chain", POOL_DISAGREE, pool, LENT);
    memcpy(directory, intact, sizeof intact);
    directory[LINK(2)] = 1;
    claim_refused("a byte of an empty frame", POOL_DISAGREE, pool, LENT);
    memcpy(directory, intact, sizeof intact);
    directory[LINK(63)] = 1;
    claim_refused("a byte of frame 63", POOL_DISAGREE, pool, LENT);
    memset(directory, 0xff, sizeof directory);
    claim_refused("bytes of any kind", POOL_DISAGREE, pool, LENT);
    store[4 * 5] = 1;
    note();
    claim("a refused open leaves them", done_refused(pool_open(LENT, ONE), POOL_UNSOUND_STORE, zero) && is_as_noted());
    store[4 * 5] = 0;
    claim("an accepted one sets it over them", pool_open(LENT, ONE).refusal == POOL_ACCEPTED && HAS({0, 1}));

    /* Each byte of a directory with a chain of three, at each other value. */
    pool = begin_chain();
    memcpy(intact, directory, sizeof intact);
    for (size_t at = 0; at < POOL_DIRECTORY_SIZE; at++) {
        for (unsigned more = 1; more < 256; more++) {
            directory[at] = (uint8_t)(intact[at] + more);
            claim("any other byte", found_refused(pool_find(pool, WIDE, 0, 5), POOL_DISAGREE));
        }
        directory[at] = intact[at];
    }
    claim("the right ones are accepted", is_found(pool, 5, 1, 3));
}

/* A word of the store's page in this place: a byte of it. */
static uint8_t *stored(pool_store_number of_store, size_t page, size_t at)
{
    return store + (of_store * PAGES + page) * POOL_PAGE_SIZE + at;
}

/* The root of a store. */
static struct pool_handle root_of(pool_store_number of_store)
{
    const struct pool_handle handle = {of_store, of_store, 0};
    return handle;
}

/* Whether a call answers this handle, after so many looks. */
static bool is_fixed(struct pool_fixed fixed, pool_frame_index frame, pool_store_number of_store, pool_page_number page,
                     uint16_t looks)
{
    return fixed.refusal == POOL_ACCEPTED && fixed.handle.frame == frame && fixed.handle.store == of_store &&
           fixed.handle.page == page && fixed.looks == looks;
}

/* Whether a page of the shared pool is in a frame, found by so many entries. */
static bool is_shared_in(struct pool pool, pool_store_number of_store, pool_page_number page, pool_frame_index frame,
                         uint16_t compared)
{
    struct pool_found found = pool_find(pool, SHARED, of_store, page);
    return found.refusal == POOL_ACCEPTED && found.present && found.frame == frame && found.compared == compared;
}

/* The text at the start of a payload. */
static bool has_text(struct pool_place place, const char *text)
{
    return place.refusal == POOL_ACCEPTED && memcmp(pool_payload(place, frames, store), text, strlen(text)) == 0;
}

/* Three stores over seven frames, with these ceilings: the root of each names pages 1, 2 and 3 in its slots 1, 2 and 3. */
static struct pool_done open_shared(uint8_t first, uint8_t second, uint8_t third)
{
    const struct pool_ceilings ceilings = {{first, second, third}};
    clear(NULL, 0);
    for (pool_store_number of_store = 0; of_store < STORES; of_store++) {
        for (uint8_t page = 1; page <= 3; page++)
            *stored(of_store, 0, 4 * page) = page;
        *stored(of_store, 0, POOL_PAYLOAD_START) = (uint8_t)('a' + of_store);
    }
    return pool_open(SHARED, STORES, ceilings);
}

/* The same, with each root pinned. */
static struct pool begin_shared(uint8_t first, uint8_t second, uint8_t third)
{
    struct pool_done opened = open_shared(first, second, third);
    claim("three sound stores open", opened.refusal == POOL_ACCEPTED);
    struct pool pool = opened.pool;
    for (pool_store_number of_store = 0; of_store < STORES; of_store++) {
        struct pool_fixed fixed = pool_root(pool, SHARED, of_store);
        claim("each has its root in its frame", is_fixed(fixed, of_store, of_store, 0, 0));
        pool = fixed.pool;
    }
    return pool;
}

/* The same, with page 1 of each store in frames 3 to 5, pinned, with a text of its own. */
static struct pool begin_equal(uint8_t first, uint8_t second, uint8_t third)
{
    static const char *const texts[] = {"first", "second", "third"};
    struct pool pool = begin_shared(first, second, third);
    for (pool_store_number of_store = 0; of_store < STORES; of_store++) {
        struct pool_fixed fixed = pool_fix(pool, SHARED, root_of(of_store), 1);
        claim("each has its own page 1", is_fixed(fixed, (pool_frame_index)(3 + of_store), of_store, 1, 0));
        struct pool_done done = pool_write(fixed.pool, SHARED, fixed.handle, 0, (const uint8_t *)texts[of_store], 6);
        claim("which is written", done.refusal == POOL_ACCEPTED);
        pool = done.pool;
    }
    return pool;
}

/* What open leaves of several stores. */
static void opened_stores(void)
{
    struct pool_done opened = open_shared(7, 4, 1);
    claim("F, N and T", opened.pool.count == SHARED_FRAMES && opened.pool.pages == PAGES && opened.pool.stores == STORES);
    claim("and the ceilings", memcmp(opened.pool.ceilings, "\7\4\1", POOL_MOST_STORES) == 0);
    for (pool_store_number of_store = 0; of_store < POOL_MOST_FRAMES; of_store++) {
        const struct pool_record *record = &opened.pool.records[of_store];
        const bool is_root = of_store < STORES;
        claim("the roots alone", record->used == is_root && record->store == (is_root ? of_store : 0) && record->page == 0);
        claim("not pinned", record->pins == 0 && record->usage == 0 && record->parent == 0 && record->slot == 0);
        claim("with their bytes", !is_root || frames[of_store * POOL_PAGE_SIZE + POOL_PAYLOAD_START] == 'a' + of_store);
    }
    claim("entered in the directory from store 0 on", HAS({0, 3}, {LINK(2), 2}, {LINK(1), 1}));
    struct pool_fixed fixed = pool_root(opened.pool, SHARED, 2);
    claim("a root that is pinned", is_fixed(fixed, 2, 2, 0, 0) && fixed.pool.records[2].pins == 1);
    claim("and no other", fixed.pool.records[0].pins == 0 && fixed.pool.records[1].pins == 0);
    claim("each is found", is_shared_in(fixed.pool, 2, 0, 2, 1) && is_shared_in(fixed.pool, 1, 0, 1, 2) &&
                               is_shared_in(fixed.pool, 0, 0, 0, 3));
}

/* Two stores can have the same page numbers, and neither knows of the other's. */
static void equal_numbers(void)
{
    struct pool pool = begin_equal(7, 7, 7);
    claim("the last of a chain is the first that came", is_shared_in(pool, 0, 1, 3, 3) && is_shared_in(pool, 2, 1, 5, 1));
    struct pool_handle one = {3, 0, 1};
    claim("each shows its own text", has_text(pool_show(pool, SHARED, one), "first") &&
                                         has_text(pool_peek(pool, SHARED, 1, 1), "second") &&
                                         has_text(pool_peek(pool, SHARED, 2, 1), "third"));
    one.store = 1;
    claim("a handle of another store's page", place_refused(pool_show(pool, SHARED, one), POOL_BAD_HANDLE));
    one.store = 3;
    claim("a handle of no store's", place_refused(pool_show(pool, SHARED, one), POOL_BAD_STORE));
    one.store = 0;

    struct pool_done done = pool_link(pool, SHARED, one, 0, 4, false);
    claim("a page is linked", done.refusal == POOL_ACCEPTED);
    claim("and not again in its store",
          done_refused(pool_link(done.pool, SHARED, root, 4, 4, false), POOL_ALREADY_NAMED, done.pool));
    done = pool_link(done.pool, SHARED, root_of(1), 4, 4, true);
    claim("but in another, with the mark", done.refusal == POOL_ACCEPTED);
    struct pool_fixed four = pool_fix(done.pool, SHARED, root_of(1), 4);
    done = pool_write(four.pool, SHARED, four.handle, 0, NULL, 0);
    claim("where it is locked", is_fixed(four, 6, 1, 4, 0) && done_refused(done, POOL_IS_LOCKED, four.pool));
    claim("and resident", pool_find(four.pool, SHARED, 1, 4).present && !pool_find(four.pool, SHARED, 0, 4).present);
    claim("an evict of the other", done_refused(pool_evict(four.pool, SHARED, 0, 4), POOL_NOT_RESIDENT, four.pool));
    claim("an unlink of the other", pool_unlink(four.pool, SHARED, one, 0).refusal == POOL_ACCEPTED);
    for (pool_store_number of_store = 0; of_store < STORES; of_store++)
        claim("no root goes", done_refused(pool_evict(four.pool, SHARED, of_store, 0), POOL_IS_ROOT, four.pool));
    done = pool_unfix(four.pool, SHARED, four.handle);
    done = pool_evict(done.pool, SHARED, 1, 4);
    claim("it leaves", done.refusal == POOL_ACCEPTED && !pool_find(done.pool, SHARED, 1, 4).present);

    note();
    done = pool_settle(done.pool, SHARED);
    claim("settle is accepted", done.refusal == POOL_ACCEPTED);
    claim("and writes every store", memcmp(stored(0, 1, POOL_PAYLOAD_START), "first", 5) == 0 &&
                                        memcmp(stored(1, 1, POOL_PAYLOAD_START), "second", 6) == 0 &&
                                        memcmp(stored(2, 1, POOL_PAYLOAD_START), "third", 5) == 0);
    for (pool_store_number of_store = 0; of_store < STORES; of_store++) {
        for (size_t page = 0; page < PAGES; page++) {
            const uint8_t *now = stored(of_store, page, 0), *before = noted.store + (now - store);
            const bool changed = page == 1 || (of_store == 1 && page == 0);
            claim("where a page changed", (memcmp(before, now, POOL_PAGE_SIZE) != 0) == changed);
        }
    }
}

/* A store number not below T is refused by 28: after 2, and before all else. */
static void store_numbers(void)
{
    static const pool_store_number numbers[] = {STORES, 4, 255};
    struct pool pool = begin_equal(7, 7, 7), altered = pool;
    altered.records[0].usage = POOL_MAX_USAGE + 1;
    for (size_t i = 0; i < sizeof numbers; i++) {
        const pool_store_number number = numbers[i];
        const struct pool_handle one = {3, number, 1}, none = {64, number, PAGES};
        note();
        claim_of("28", "root", fixed_refused(pool_root(pool, SHARED, number), POOL_BAD_STORE, pool));
        claim_of("28", "fix", fixed_refused(pool_fix(pool, SHARED, one, 16), POOL_BAD_STORE, pool));
        claim_of("28", "unfix", done_refused(pool_unfix(pool, SHARED, one), POOL_BAD_STORE, pool));
        claim_of("28", "show", place_refused(pool_show(pool, SHARED, none), POOL_BAD_STORE));
        claim_of("28", "peek", place_refused(pool_peek(pool, SHARED, number, PAGES), POOL_BAD_STORE));
        claim_of("28", "word", named_refused(pool_word(pool, SHARED, one, 16), POOL_BAD_STORE));
        claim_of("28", "write", done_refused(pool_write(pool, SHARED, one, 193, NULL, 0), POOL_BAD_STORE, pool));
        claim_of("28", "link", done_refused(pool_link(pool, SHARED, none, 16, 0, true), POOL_BAD_STORE, pool));
        claim_of("28", "unlink", done_refused(pool_unlink(pool, SHARED, none, 16), POOL_BAD_STORE, pool));
        claim_of("28", "evict", done_refused(pool_evict(pool, SHARED, number, PAGES), POOL_BAD_STORE, pool));
        claim_of("28", "find", found_refused(pool_find(pool, SHARED, number, 1), POOL_BAD_STORE));
        claim_of("2 before 28", "root", fixed_refused(pool_root(altered, SHARED, number), POOL_DISAGREE, altered));
        claim_of("2 before 28", "show", place_refused(pool_show(altered, SHARED, one), POOL_DISAGREE));
        claim_of("1 before 28", "find", found_refused(pool_find(pool, NOTHING, number, 1), POOL_WRONG_LENGTH));
    }
    struct pool_done done = pool_open(LENT, ONE);
    claim("of one store, 1 is none", fixed_refused(pool_root(done.pool, LENT, 1), POOL_BAD_STORE, done.pool));
}

/* Whether open refuses this T and these ceilings by 1, over frames and store of these sizes, and leaves all as it is. */
static bool open_refused(size_t frame_count, size_t page_count, uint8_t stores, struct pool_ceilings ceilings)
{
    struct pool zero;
    memset(&zero, 0, sizeof zero);
    note();
    struct pool_done opened = pool_open(frames, frame_count * POOL_PAGE_SIZE, store, page_count * POOL_PAGE_SIZE, directory,
                                        POOL_DIRECTORY_SIZE, stores, ceilings);
    return done_refused(opened, POOL_WRONG_LENGTH, zero) && is_as_noted();
}

/* T, F and ceilings outside their figures are refused by 1, in open by its arguments and in every other call by the records. */
static void stores_figures(void)
{
    static const struct pool_ceilings fit = {{7, 4, 2}};
    struct pool pool = begin_equal(7, 4, 2), altered;
    claim("no store", open_refused(7, 24, 0, (struct pool_ceilings){{0}}));
    claim("no store with ceilings", open_refused(7, 24, 0, fit));
    claim("five stores", open_refused(7, 25, 5, (struct pool_ceilings){{7, 7, 7, 7}}));
    claim("255 stores", open_refused(7, 0, 255, (struct pool_ceilings){{7, 7, 7, 7}}));
    claim("a T that doesn't divide", open_refused(7, 23, 3, fit));
    claim("nor the last page", open_refused(7, 25, 3, fit));
    claim("no page for each", open_refused(7, 2, 3, fit));
    claim("as many frames as stores", open_refused(3, 24, 3, (struct pool_ceilings){{2, 2, 2}}));
    for (pool_store_number of_store = 0; of_store < POOL_MOST_STORES; of_store++) {
        for (unsigned most = 0; most < 256; most++) {
            struct pool_ceilings ceilings = fit;
            ceilings.most[of_store] = (uint8_t)most;
            const bool fits = of_store < STORES ? 1 <= most && most <= SHARED_FRAMES : most == 0;
            claim("a ceiling out of its range", fits || open_refused(7, 24, 3, ceilings));
            altered = pool;
            altered.ceilings[of_store] = (uint8_t)most;
            if (!fits)
                claim_refused("a ceiling out of its range", POOL_WRONG_LENGTH, altered, SHARED);
        }
    }
    for (unsigned stores = 0; stores < 256; stores++) {
        altered = pool;
        altered.stores = (uint8_t)stores;
        if (stores != STORES)
            claim_refused("another T", POOL_WRONG_LENGTH, altered, SHARED);
    }
    altered = pool;
    altered.records[0].usage = POOL_MAX_USAGE + 1;
    altered.ceilings[3] = 1;
    claim_refused("1 before 2", POOL_WRONG_LENGTH, altered, SHARED);
    altered = pool;
    altered.ceilings[0] = 1;
    claim_refused("more pages than the ceiling", POOL_DISAGREE, altered, SHARED);
    altered.ceilings[0] = 2;
    claim("as many pages as the ceiling", pool_settle(altered, SHARED).refusal == POOL_ACCEPTED);

    *stored(2, 7, 4 * 15 + 1) = 1;
    claim("1 before 16", open_refused(7, 24, 4, fit));
    struct pool_done opened = pool_open(SHARED, STORES, fit);
    memset(&altered, 0, sizeof altered);
    claim("16 is for any store", done_refused(opened, POOL_UNSOUND_STORE, altered));
    *stored(2, 7, 4 * 15 + 1) = 0;
    *stored(2, 7, 4 * 15) = 3;
    claim("and for a number twice in one", pool_open(SHARED, STORES, fit).refusal == POOL_UNSOUND_STORE);
    *stored(2, 7, 4 * 15) = 4;
    *stored(1, 7, 4 * 15) = 4;
    claim("not in two of them", pool_open(SHARED, STORES, fit).refusal == POOL_ACCEPTED);
    claim("as one store they aren't sound",
          pool_open(SHARED, 1, (struct pool_ceilings){{7}}).refusal == POOL_UNSOUND_STORE);
    memset(store, 0, sizeof store);
    for (uint8_t stores = 1; stores <= POOL_MOST_STORES; stores++) {
        const struct pool_ceilings ones = {{1, stores > 1, stores > 2, stores > 3}};
        opened = pool_open(frames, (stores + 1u) * POOL_PAGE_SIZE, store, stores * 50u * POOL_PAGE_SIZE, directory,
                           POOL_DIRECTORY_SIZE, stores, ones);
        claim("one frame more than stores", opened.refusal == POOL_ACCEPTED && opened.pool.pages == 50);
    }
}

/* Every alteration of a record's store number is refused by 2. */
static void records_stores(void)
{
    struct pool pool = begin_equal(7, 7, 7);
    for (size_t frame = 0; frame < POOL_MOST_FRAMES; frame++) {
        for (unsigned number = 0; number < 256; number++) {
            struct pool altered = pool;
            altered.records[frame].store = (pool_store_number)number;
            if (number != pool.records[frame].store)
                claim("another store", done_refused(pool_settle(altered, SHARED), POOL_DISAGREE, altered));
        }
    }
    struct pool altered = pool;
    for (size_t frame = 3; frame < 6; frame++)
        altered.records[frame].store = (pool_store_number)((pool.records[frame].store + 1) % STORES);
    claim_refused("children of another store than their parents", POOL_DISAGREE, altered, SHARED);
}

/* At its ceiling a store sweeps its own pages alone, even where frames are empty. Page 1 of it is in frame 4 of 7. */
static void at_the_ceiling(void)
{
    struct pool pool = begin_equal(7, 2, 7);
    struct pool_fixed two = pool_fix(pool, SHARED, root_of(1), 2);
    claim("27 with an empty frame", fixed_refused(two, POOL_AT_CEILING, pool));
    const struct pool_handle of_first = {3, 0, 1}, own = {4, 1, 1}, of_third = {5, 2, 1};
    pool = pool_unfix(pool, SHARED, of_first).pool;
    claim("27 where a neighbour's could go", fixed_refused(pool_fix(pool, SHARED, root_of(1), 2), POOL_AT_CEILING, pool));
    claim("a page that is there isn't denied", pool_fix(pool, SHARED, root_of(1), 1).refusal == POOL_ACCEPTED);
    pool = pool_unfix(pool, SHARED, own).pool;
    struct pool before = pool;
    two = pool_fix(pool, SHARED, root_of(1), 2);
    claim("its own page goes, after a round and five looks", is_fixed(two, 4, 1, 2, 12));
    before.records[4] = two.pool.records[4];
    before.hand = 5;
    claim("every other record stays", same_pool(&before, &two.pool));
    claim("its text is in its store", has_text(pool_peek(two.pool, SHARED, 1, 1), "second"));
    claim("the neighbour's page stays", is_shared_in(two.pool, 0, 1, 3, 2));

    /* A pinned page of its own gains by each look, and those of others don't. */
    pool = begin_equal(7, 3, 7);
    two = pool_fix(pool, SHARED, root_of(1), 2);
    claim("the last empty frame", is_fixed(two, 6, 1, 2, 0));
    pool = pool_unfix(two.pool, SHARED, two.handle).pool;
    struct pool_fixed three = pool_fix(pool, SHARED, root_of(1), 3);
    claim("page 2 goes at the 14th look", is_fixed(three, 6, 1, 3, 14) && three.pool.hand == 0);
    const struct pool_record *records = three.pool.records;
    claim("its own pinned page is warmer", records[4].usage == POOL_MAX_USAGE);
    claim("a neighbour's isn't", records[3].usage == 1 && records[5].usage == 1);
    claim("nor is a root", records[0].usage == 1 && records[1].usage == 1 && records[2].usage == 1);
    claim("of_third is as it was", has_text(pool_show(three.pool, SHARED, of_third), "third"));

    pool = begin_shared(7, 1, 7);
    claim("a ceiling of 1", fixed_refused(pool_fix(pool, SHARED, root_of(1), 1), POOL_AT_CEILING, pool));
    pool = begin();
    pool.ceilings[0] = 2;
    pool = pool_fix(pool, LENT, root, 1).pool;
    claim("one store, at 2 of 3", fixed_refused(pool_fix(pool, LENT, root, 2), POOL_AT_CEILING, pool));
}

/* Below its ceiling a store loads into an empty frame, and otherwise takes any store's page, which is as before nevertheless. */
static void below_the_ceiling(void)
{
    struct pool pool = begin_equal(7, 2, 2);
    struct pool_fixed two = pool_fix(pool, SHARED, root, 2);
    claim("into the empty frame", is_fixed(two, 6, 0, 2, 0));
    pool = two.pool;
    claim("15 where no frame is left", fixed_refused(pool_fix(pool, SHARED, root, 3), POOL_NO_FRAME, pool));
    claim("27 for a store at its ceiling", fixed_refused(pool_fix(pool, SHARED, root_of(1), 3), POOL_AT_CEILING, pool));
    const struct pool_handle of_third = {5, 2, 1};
    pool = pool_unfix(pool, SHARED, of_third).pool;
    claim("27 still", fixed_refused(pool_fix(pool, SHARED, root_of(1), 3), POOL_AT_CEILING, pool));
    claim("the store isn't written yet", memcmp(stored(2, 1, POOL_PAYLOAD_START), "third", 5) != 0);
    struct pool_fixed three = pool_fix(pool, SHARED, root, 3);
    claim("the neighbour's page goes", is_fixed(three, 5, 0, 3, 13));
    claim("to its place in its store", memcmp(stored(2, 1, POOL_PAYLOAD_START), "third", 5) == 0);
    claim("where it is as before", has_text(pool_peek(three.pool, SHARED, 2, 1), "third"));
    struct pool_named named = pool_word(three.pool, SHARED, root_of(2), 1);
    claim("named as before", named.refusal == POOL_ACCEPTED && named.page == 1 && !named.locked);
    claim("and not resident", !pool_find(three.pool, SHARED, 2, 1).present);
    claim("its handle is stale", place_refused(pool_show(three.pool, SHARED, of_third), POOL_BAD_HANDLE));
    claim("pinned pages gained", three.pool.records[3].usage == 3 && three.pool.records[4].usage == 3);
    claim("roots didn't", three.pool.records[1].usage == 1 && three.pool.records[2].usage == 1);
    claim("the neighbour is below its ceiling now",
          fixed_refused(pool_fix(three.pool, SHARED, root_of(2), 1), POOL_NO_FRAME, three.pool));
    pool = pool_unfix(three.pool, SHARED, three.handle).pool;
    struct pool_fixed again = pool_fix(pool, SHARED, root_of(2), 1);
    claim("and comes in again", again.refusal == POOL_ACCEPTED && again.handle.frame == 5 && again.looks > 0);
    claim("with its text", has_text(pool_show(again.pool, SHARED, again.handle), "third"));
}

/* After 8 an empty slot takes the page, after 9 none does until the word that names it is unlinked. */
static void taken_slots(void)
{
    struct pool pool = begin();
    claim("a named page into another's slot", done_refused(pool_link(pool, LENT, root, 1, 2, false), POOL_ALREADY_NAMED, pool));
    claim("a named page into its own slot", done_refused(pool_link(pool, LENT, root, 1, 1, false), POOL_ALREADY_NAMED, pool));
    claim("a named page into an empty slot", done_refused(pool_link(pool, LENT, root, 0, 1, false), POOL_ALREADY_NAMED, pool));
    claim("page 0 into a taken slot", done_refused(pool_link(pool, LENT, root, 1, 0, false), POOL_BAD_PAGE, pool));
    claim("an unnamed page into a taken slot", done_refused(pool_link(pool, LENT, root, 1, 4, false), POOL_FULL_SLOT, pool));
    struct pool_done done = pool_link(pool, LENT, root, 0, 4, false);
    claim("which an empty slot takes", done.refusal == POOL_ACCEPTED);
    pool = pool_unlink(done.pool, LENT, root, 1).pool;
    claim("an unlinked page into a taken slot", done_refused(pool_link(pool, LENT, root, 0, 1, false), POOL_FULL_SLOT, pool));
    claim("which an empty slot takes", pool_link(pool, LENT, root, 5, 1, false).refusal == POOL_ACCEPTED);
}

/* After 20 nothing helps, after 21 as many unfixes as there were pins, after 22 an evict of the page that it names. */
static void staying_pages(void)
{
    struct pool pool = pool_unfix(begin(), LENT, root).pool;
    claim("the root without pins", done_refused(pool_evict(pool, LENT, 0, 0), POOL_IS_ROOT, pool));
    pool = pool_root(pool, LENT, 0).pool;
    claim("the pinned root", done_refused(pool_evict(pool, LENT, 0, 0), POOL_IS_ROOT, pool));
    claim("a page that isn't resident", done_refused(pool_evict(pool, LENT, 0, 1), POOL_NOT_RESIDENT, pool));
    claim("a page beyond N", done_refused(pool_evict(pool, LENT, 0, PAGES), POOL_BAD_PAGE, pool));

    struct pool_fixed fixed = pool_fix(pool, LENT, root, 1);
    struct pool_handle one = fixed.handle;
    fixed = pool_fix(fixed.pool, LENT, root, 1);
    claim("a pinned page", done_refused(pool_evict(fixed.pool, LENT, 0, 1), POOL_IS_PINNED, fixed.pool));
    pool = pool_link(fixed.pool, LENT, one, 15, 4, false).pool;
    fixed = pool_fix(pool, LENT, one, 15);
    struct pool_handle four = fixed.handle;
    claim("a pinned parent", done_refused(pool_evict(fixed.pool, LENT, 0, 1), POOL_IS_PINNED, fixed.pool));
    pool = pool_unfix(fixed.pool, LENT, one).pool;
    claim("unfixed once of two", done_refused(pool_evict(pool, LENT, 0, 1), POOL_IS_PINNED, pool));
    pool = pool_unfix(pool, LENT, one).pool;
    claim("a parent without pins", done_refused(pool_evict(pool, LENT, 0, 1), POOL_IS_PARENT, pool));
    claim("whose child is pinned", done_refused(pool_evict(pool, LENT, 0, 4), POOL_IS_PINNED, pool));
    pool = pool_unfix(pool, LENT, four).pool;
    claim("and not yet evicted", done_refused(pool_evict(pool, LENT, 0, 1), POOL_IS_PARENT, pool));
    struct pool_done done = pool_evict(pool, LENT, 0, 4);
    claim("the child can go", done.refusal == POOL_ACCEPTED);
    done = pool_evict(done.pool, LENT, 0, 1);
    claim("and then its parent", done.refusal == POOL_ACCEPTED);
    claim("but never the root", done_refused(pool_evict(done.pool, LENT, 0, 0), POOL_IS_ROOT, done.pool));
}

/* What an accepted word answers. */
static bool is_word(struct pool pool, struct pool_handle handle, size_t slot, pool_page_number page, bool locked)
{
    struct pool_named named = pool_word(pool, LENT, handle, slot);
    return named.refusal == POOL_ACCEPTED && named.page == page && named.locked == locked;
}

/* The word in a slot of a page of the store, or of a frame. */
static uint32_t word_in(const uint8_t *buffer, size_t page, size_t slot)
{
    const uint8_t *bytes = buffer + page * POOL_PAGE_SIZE + 4 * slot;
    return bytes[0] | (uint32_t)bytes[1] << 8 | (uint32_t)bytes[2] << 16 | (uint32_t)bytes[3] << 24;
}

/* Links page 1 anew in slot 1 of the root, with the mark or without. It is resident, and has no pins. */
static struct pool relinked(struct pool pool, bool locked)
{
    struct pool_done done = pool_evict(pool, LENT, 0, 1);
    claim("a page to be linked anew leaves", done.refusal == POOL_ACCEPTED);
    done = pool_unlink(done.pool, LENT, root, 1);
    claim("is unlinked", done.refusal == POOL_ACCEPTED);
    done = pool_link(done.pool, LENT, root, 1, 1, locked);
    claim("and linked", done.refusal == POOL_ACCEPTED);
    return done.pool;
}

/*
 * A pool in which page 1 is locked and resident, without pins, and the root is pinned. Page 1 has the payload "kept", and names
 * page 4 in slot 5, locked or not, and page 5 in slot 6, not locked.
 */
static struct pool begin_locked(bool child_locked)
{
    struct pool_fixed one = pool_fix(begin(), LENT, root, 1);
    struct pool pool = pool_write(one.pool, LENT, one.handle, 0, (const uint8_t *)"kept", 4).pool;
    pool = pool_link(pool, LENT, one.handle, 5, 4, child_locked).pool;
    pool = pool_link(pool, LENT, one.handle, 6, 5, false).pool;
    pool = relinked(pool_unfix(pool, LENT, one.handle).pool, true);
    one = pool_fix(pool, LENT, root, 1);
    claim("a locked page is fixed as any other", one.refusal == POOL_ACCEPTED && one.handle.page == 1);
    return pool_unfix(one.pool, LENT, one.handle).pool;
}

/* Whether a change of a locked page was refused. */
static bool is_locked(struct pool_done answer, struct pool pool)
{
    return done_refused(answer, POOL_IS_LOCKED, pool);
}

/* What changes a locked page is refused: after 1 to 5, and before all other rules. */
static void locked_pages(void)
{
    static const struct pool_handle one = {1, 0, 1}, other = {1, 0, 2};
    static const uint8_t *const kept = (const uint8_t *)"kept";
    uint8_t before[sizeof frames];
    struct pool pool = begin();
    claim("a named page isn't marked", done_refused(pool_link(pool, LENT, root, 4, 1, true), POOL_ALREADY_NAMED, pool));
    claim("nor in its own slot", done_refused(pool_link(pool, LENT, root, 1, 1, true), POOL_ALREADY_NAMED, pool));
    pool = pool_link(pool, LENT, root, 0, 4, true).pool;
    claim("the root is never locked", pool_write(pool, LENT, root, 0, NULL, 0).refusal == POOL_ACCEPTED);

    pool = begin_locked(false);
    claim("without pins its handle is stale", done_refused(pool_write(pool, LENT, one, 0, kept, 4), POOL_BAD_HANDLE, pool));
    pool = pool_fix(pool, LENT, root, 1).pool;
    pool = pool_fix(pool, LENT, one, 5).pool;
    memcpy(before, frames, sizeof frames);
    claim("write", is_locked(pool_write(pool, LENT, one, 4, kept, 4), pool));
    claim("a write of what stands there", is_locked(pool_write(pool, LENT, one, 0, kept, 4), pool));
    claim("a write of no bytes", is_locked(pool_write(pool, LENT, one, 0, NULL, 0), pool));
    claim("3 before 26 in write", done_refused(pool_write(pool, LENT, other, 0, kept, 4), POOL_BAD_HANDLE, pool));
    claim("5 before 26", done_refused(pool_write(pool, LENT, one, 189, kept, 4), POOL_BAD_RANGE, pool));
    claim("5 before 26 without bytes", done_refused(pool_write(pool, LENT, one, 193, NULL, 0), POOL_BAD_RANGE, pool));

    claim("link", is_locked(pool_link(pool, LENT, one, 0, 6, false), pool));
    claim("link with the mark", is_locked(pool_link(pool, LENT, one, 0, 6, true), pool));
    claim("3 before 26 in link", done_refused(pool_link(pool, LENT, other, 0, 6, true), POOL_BAD_HANDLE, pool));
    claim("4 before 26 in link", done_refused(pool_link(pool, LENT, one, 16, 6, true), POOL_BAD_SLOT, pool));
    claim("26 before 6, page 0", is_locked(pool_link(pool, LENT, one, 0, 0, false), pool));
    claim("26 before 6, beyond N", is_locked(pool_link(pool, LENT, one, 0, PAGES, false), pool));
    claim("26 before 9", is_locked(pool_link(pool, LENT, one, 0, 2, false), pool));
    claim("26 before 8", is_locked(pool_link(pool, LENT, one, 6, 6, false), pool));

    claim("unlink", is_locked(pool_unlink(pool, LENT, one, 6), pool));
    claim("3 before 26 in unlink", done_refused(pool_unlink(pool, LENT, other, 6), POOL_BAD_HANDLE, pool));
    claim("4 before 26 in unlink", done_refused(pool_unlink(pool, LENT, one, 16), POOL_BAD_SLOT, pool));
    claim("26 before 7", is_locked(pool_unlink(pool, LENT, one, 0), pool));
    claim("26 before 10", is_locked(pool_unlink(pool, LENT, one, 5), pool));
    claim("and nothing changed", memcmp(before, frames, sizeof frames) == 0);
    claim("1 before 26", done_refused(pool_write(pool, NOTHING, one, 0, NULL, 0), POOL_WRONG_LENGTH, pool));
    pool.records[1].usage = POOL_MAX_USAGE + 1;
    claim("2 before 26", done_refused(pool_write(pool, LENT, one, 0, NULL, 0), POOL_DISAGREE, pool));
}

/* A mark is told and kept wherever its page is, and the locked page is clean. */
static void marks_kept(void)
{
    struct pool pool = begin_locked(false);
    pool = pool_root(pool_open(LENT, ONE).pool, LENT, 0).pool;
    claim("an open without a settle loses the mark", is_word(pool, root, 1, 1, false));
    struct pool_fixed one = pool_fix(pool, LENT, root, 1);
    claim("and with it the lock", pool_write(one.pool, LENT, one.handle, 0, NULL, 0).refusal == POOL_ACCEPTED);

    pool = begin_locked(false);
    claim("word tells the mark of a resident page", is_word(pool, root, 1, 1, true));
    claim("and where there is none", is_word(pool, root, 2, 2, false) && is_word(pool, root, 0, 0, false));
    claim("find goes by the number", is_found(pool, 1, 1, 1));
    claim("the locked page is clean", pool.records[1].used == 1 && pool.records[1].dirty == 0);
    claim("and the store has it", memcmp(store + POOL_PAGE_SIZE + POOL_PAYLOAD_START, "kept", 4) == 0);
    claim("the mark comes there with the root", pool.records[0].dirty == 1 && word_in(store, 0, 1) == 1);
    pool = pool_settle(pool, LENT).pool;
    claim("by a settle", word_in(store, 0, 1) == (1 | POOL_LOCK_BIT));
    pool = pool_evict(pool, LENT, 0, 1).pool;
    claim("evict goes by the number", is_absent(pool, 1, 0));
    claim("and keeps the mark", is_word(pool, root, 1, 1, true));

    struct pool_done opened = pool_open(LENT, ONE);
    claim("a store with a mark opens", opened.refusal == POOL_ACCEPTED);
    pool = pool_root(opened.pool, LENT, 0).pool;
    claim("and has it after a settle", is_word(pool, root, 1, 1, true));
    one = pool_fix(pool, LENT, root, 1);
    claim("and its page is locked", is_locked(pool_write(one.pool, LENT, one.handle, 0, NULL, 0), one.pool));
    pool = pool_unfix(one.pool, LENT, one.handle).pool;
    struct pool_fixed two = pool_fix(pool, LENT, root, 2);
    struct pool_fixed three = pool_fix(two.pool, LENT, root, 3);
    claim("a sweep takes it as any other", three.looks > 0 && is_absent(three.pool, 1, 0));
    claim("and keeps the mark", is_word(three.pool, root, 1, 1, true));
    one = pool_fix(pool_unfix(three.pool, LENT, two.handle).pool, LENT, root, 1);
    claim("and so does one that loads it", one.looks > 0 && is_word(one.pool, root, 1, 1, true));
    claim("so that it is locked still", is_locked(pool_write(one.pool, LENT, one.handle, 0, NULL, 0), one.pool));
    claim("with its parent clean", one.pool.records[0].dirty == 0);
}

/* The pages that a locked page names come and go, and are locked by their own words alone. */
static void below_a_lock(void)
{
    static const struct pool_handle one = {1, 0, 1};
    struct pool pool = pool_fix(begin_locked(false), LENT, root, 1).pool;
    struct pool_fixed child = pool_fix(pool, LENT, one, 5);
    claim("a child comes in", child.refusal == POOL_ACCEPTED && child.handle.page == 4);
    claim("and its parent stays clean", child.pool.records[1].dirty == 0 && is_word(child.pool, one, 5, 4, false));
    struct pool_done done = pool_write(child.pool, LENT, child.handle, 0, (const uint8_t *)"free", 4);
    claim("it can be changed", done.refusal == POOL_ACCEPTED);
    done = pool_link(done.pool, LENT, child.handle, 0, 6, true);
    claim("and lock another", done.refusal == POOL_ACCEPTED);
    done = pool_unlink(done.pool, LENT, child.handle, 0);
    claim("and free it", done.refusal == POOL_ACCEPTED);
    done = pool_evict(pool_unfix(done.pool, LENT, child.handle).pool, LENT, 0, 4);
    claim("it leaves", done.refusal == POOL_ACCEPTED && is_word(done.pool, one, 5, 4, false));
    claim("changed", memcmp(store + 4 * POOL_PAGE_SIZE + POOL_PAYLOAD_START, "free", 4) == 0);
    claim("and its parent isn't", done.pool.records[1].dirty == 0 && word_in(frames, 1, 5) == 4);

    pool = pool_fix(begin_locked(true), LENT, root, 1).pool;
    child = pool_fix(pool, LENT, one, 5);
    claim("a child with a mark is locked", is_locked(pool_write(child.pool, LENT, child.handle, 0, NULL, 0), child.pool));
    pool = pool_evict(pool_unfix(child.pool, LENT, child.handle).pool, LENT, 0, 4).pool;
    claim("and keeps it in a locked page", is_word(pool, one, 5, 4, true) && is_locked(pool_unlink(pool, LENT, one, 5), pool));
    pool = relinked(pool_unfix(pool, LENT, one).pool, false);
    claim("until that is linked without its own", is_word(pool, root, 1, 1, false));
    pool = pool_fix(pool, LENT, root, 1).pool;
    claim("the child is locked still", is_word(pool, one, 5, 4, true));
    done = pool_write(pool, LENT, one, 0, (const uint8_t *)"free", 4);
    claim("and the parent can be changed", done.refusal == POOL_ACCEPTED && done.pool.records[1].dirty == 1);
    done = pool_unlink(done.pool, LENT, one, 5);
    claim("the mark goes with its word", done.refusal == POOL_ACCEPTED && is_word(done.pool, one, 5, 0, false));
    done = pool_link(done.pool, LENT, one, 5, 4, false);
    claim("and the child is free", done.refusal == POOL_ACCEPTED && is_word(done.pool, one, 5, 4, false));
}

/* Bit 30 on a word that is otherwise 0, and numbers that differ in it alone. */
static void bit_30(void)
{
    struct pool zero;
    memset(&zero, 0, sizeof zero);
    begin();
    store[3] = 0x40;
    claim("on nothing in the root", done_refused(pool_open(LENT, ONE), POOL_UNSOUND_STORE, zero));
    begin();
    store[7 * POOL_PAGE_SIZE + 4 * 15 + 3] = 0x40;
    claim("on nothing out of reach", done_refused(pool_open(LENT, ONE), POOL_UNSOUND_STORE, zero));
    begin();
    store[4 * 5] = 1;
    store[4 * 5 + 3] = 0x40;
    claim("on a number that stands without it", done_refused(pool_open(LENT, ONE), POOL_UNSOUND_STORE, zero));
    begin();
    store[4 * 1 + 3] = 0x40;
    claim("on a number that stands once", pool_open(LENT, ONE).refusal == POOL_ACCEPTED);

    struct pool pool = begin();
    store[2 * POOL_PAGE_SIZE + 3] = 0x40;
    claim("on nothing in a page to be loaded", fixed_refused(pool_fix(pool, LENT, root, 2), POOL_BAD_STORED_PAGE, pool));
    frames[3] = 0x40;
    claim("on nothing in a frame", done_refused(pool_settle(pool, LENT), POOL_DISAGREE, pool));
    frames[3] = 0;
    frames[4 * 1 + 3] = 0x40;
    claim("on a number in a frame", pool_settle(pool, LENT).refusal == POOL_ACCEPTED && is_word(pool, root, 1, 1, true));
}

static pool_page_number page_in(const uint8_t *bytes)
{
    return (pool_page_number)(bytes[0] | bytes[1] << 8);
}

/* Makes the call of a record of root, link, evict or settle. */
static struct pool_done made(struct pool pool, const uint8_t *entry)
{
    if (entry[0] == 1) {
        struct pool_fixed fixed = pool_root(pool, LENT, 0);
        struct pool_done done = {fixed.pool, fixed.refusal};
        return done;
    }
    const struct pool_handle parent = {entry[1], 0, page_in(entry + 7)};
    if (entry[0] == 5)
        return pool_link(pool, LENT, parent, entry[4], page_in(entry + 2), false);
    return entry[0] == 7 ? pool_evict(pool, LENT, 0, page_in(entry + 2)) : pool_settle(pool, LENT);
}

/* Records are drawn of the pool as the calls before left it: here the second has page 1 for its parent, and the fourth none. */
static void workloads(void)
{
    static const uint8_t entries[][16] = {
        {1, 2, 6, 0, 10, 158}, {5, 1, 3, 0, 4, 63, 0, 1}, {7, 2, 1, 0, 10, 191},
        {5, 1, 3, 0, 10, 169}, {7, 2, 0, 0, 8, 86},       {8, 1, 5, 0, 7, 98},
    };
    static const uint8_t answers[] = {0, POOL_BAD_HANDLE, 0, POOL_BAD_HANDLE, POOL_IS_ROOT, 0};
    struct pool_fixed one = pool_fix(begin(), LENT, root, 1);
    struct pool pool = pool_unfix(one.pool, LENT, one.handle).pool;
    struct pool_generator along = pool_seeded(344);
    for (size_t i = 0; i < sizeof answers; i++) {
        note();
        struct pool_drawn drawn = pool_draw(pool, LENT, along);
        claim("a record is drawn", drawn.refusal == 0 && memcmp(drawn.entry, entries[i], sizeof entries[i]) == 0);
        claim("which alters nothing", is_as_noted());
        along = drawn.generator;
        struct pool_done done = made(pool, drawn.entry);
        claim("and run", done.refusal == answers[i]);
        pool = done.pool;
    }
    claim("five draws a record", along.number == 3957910735);
    claim("a seed of 0 is read as 1", pool_seeded(0).number == 1 && pool_seeded(1).number == 1);
    claim("any other is the number", pool_seeded(UINT32_MAX).number == UINT32_MAX);

    static const uint8_t of_zero[16] = {1};
    const struct pool_generator zero = {0};
    struct pool_drawn drawn = pool_draw(pool, LENT, zero);
    claim("from 0 each draw gives 0", memcmp(drawn.entry, of_zero, sizeof of_zero) == 0 && drawn.generator.number == 0);
}

/* A tally's counters and a report's hits, and one more of each. */
static uint32_t counts[POOL_DEPTHS + 1];
static uint64_t hits[POOL_DEPTHS + 1];
/* A recording, and one more page. */
static uint16_t recorded[POOL_MOST_REFERENCES + 1];
#define COUNTS counts, POOL_DEPTHS

/* The tally of no recordings. The counter beyond its own is one that no sum should have in it. */
static struct pool_tally empty_tally(void)
{
    const struct pool_tally tally = {0, 0};
    memset(counts, 0, sizeof counts);
    counts[POOL_DEPTHS] = UINT32_MAX;
    return tally;
}

static bool is_tally(struct pool_tally tally, uint32_t recordings, uint32_t references)
{
    return tally.recordings == recordings && tally.references == references;
}

/* Adds a recording of the pages from first on, each one more than the one before it, and then of a last one. */
static struct pool_added add_rising(struct pool_tally tally, uint16_t first, size_t count, uint16_t last)
{
    for (size_t i = 0; i < count; i++)
        recorded[i] = (uint16_t)(first + i);
    recorded[count] = last;
    return pool_tally_add(tally, COUNTS, recorded, count + 1);
}

/* Whether a recording is refused, and adds nothing. */
static bool add_refused(uint8_t refusal, struct pool_tally tally, size_t counts_length, const uint16_t *pages, size_t length)
{
    static uint32_t before[POOL_DEPTHS + 1];
    memcpy(before, counts, sizeof before);
    struct pool_added added = pool_tally_add(tally, counts, counts_length, pages, length);
    return added.refusal == refusal && is_tally(added.tally, tally.recordings, tally.references) &&
           memcmp(before, counts, sizeof before) == 0;
}

static bool is_share(struct pool_tally tally, uint64_t size, uint64_t within)
{
    struct pool_share share = pool_tally_share(tally, COUNTS, size);
    return share.refusal == POOL_ACCEPTED && share.within == within && share.all == tally.references;
}

/* The depths of the header's recording, and of the longest ones. */
static void depths(void)
{
    static const uint16_t pages[] = {5, 7, 5, 5, 9, 7}, others[] = {7, 5, 7};
    struct pool_added added = pool_tally_add(empty_tally(), COUNTS, pages, 6);
    claim("a recording is added", added.refusal == POOL_ACCEPTED && is_tally(added.tally, 1, 6));
    claim("with a reference of depths 1, 2 and 3 each", counts[0] == 1 && counts[1] == 1 && counts[2] == 1);
    claim("and no other", is_share(added.tally, POOL_DEPTHS, 3));
    added = pool_tally_add(added.tally, COUNTS, others, 3);
    claim("each recording begins anew", added.refusal == POOL_ACCEPTED && is_tally(added.tally, 2, 9));
    claim("with one of depth 2", counts[1] == 2 && is_share(added.tally, POOL_DEPTHS, 4));

    added = add_rising(empty_tally(), 0, 4095, 4095);
    claim("first references have no depth", is_tally(added.tally, 1, 4096) && is_share(added.tally, POOL_DEPTHS, 0));
    added = add_rising(added.tally, 1, 4095, 1);
    claim("the largest depth", is_tally(added.tally, 2, 8192) && counts[POOL_DEPTHS - 1] == 1);
    memset(recorded, 0xf, sizeof recorded);
    added = pool_tally_add(added.tally, COUNTS, recorded, POOL_MOST_REFERENCES);
    claim("the least", is_tally(added.tally, 3, 12288) && counts[0] == 4095 && is_share(added.tally, 4095, 4096));
}

/* A recording for each depth, and the shares and the report that they come to. */
static void every_depth(void)
{
    struct pool_tally tally = empty_tally();
    for (uint16_t depth = 1; depth <= POOL_DEPTHS; depth++)
        tally = add_rising(tally, (uint16_t)(4096 - depth), depth, (uint16_t)(4096 - depth)).tally;
    claim("a recording of each depth is added", is_tally(tally, POOL_DEPTHS, 4095 * 4098 / 2));
    hits[POOL_DEPTHS] = 77;
    claim("a report is accepted", pool_tally_report(COUNTS, hits, POOL_DEPTHS) == POOL_ACCEPTED);
    bool are_counted = true, are_reported = true, are_shared = true;
    for (uint64_t size = 1; size <= POOL_DEPTHS; size++) {
        are_counted = are_counted && counts[size - 1] == 1;
        are_reported = are_reported && hits[size - 1] == size;
        are_shared = are_shared && is_share(tally, size, size);
    }
    claim("each depth has a reference", are_counted);
    claim("so that each size has a hit more", are_reported && are_shared);
    claim("the hits end there", hits[POOL_DEPTHS] == 77);
    claim("size 0 has none", is_share(tally, 0, 0));
    claim("beyond the largest depth are no more", is_share(tally, 4096, 4095) && is_share(tally, 1ULL << 32, 4095) &&
                                                      is_share(tally, UINT64_MAX, 4095));
}

static void refused_recordings(void)
{
    struct pool_tally tally = empty_tally();
    const struct pool_tally last = {65534, 65534u * 4096}, full = {65535, 0}, none = tally;
    memset(recorded, 0, sizeof recorded);
    claim("4,094 counters", add_refused(POOL_WRONG_LENGTH, tally, 4094, recorded, 1));
    claim("4,096 counters", add_refused(POOL_WRONG_LENGTH, tally, 4096, recorded, 1));
    claim("no counters", pool_tally_add(tally, NULL, 0, recorded, 1).refusal == POOL_WRONG_LENGTH);
    claim("no page", add_refused(POOL_WRONG_LENGTH, tally, 4095, recorded, 0));
    claim("no page at NULL", add_refused(POOL_WRONG_LENGTH, tally, 4095, NULL, 0));
    claim("4,097 pages", add_refused(POOL_WRONG_LENGTH, tally, 4095, recorded, 4097));
    claim("a full tally", add_refused(POOL_WRONG_LENGTH, full, 4095, recorded, 1));
    struct pool_added added = pool_tally_add(last, COUNTS, recorded, 4096);
    claim("the last recording", added.refusal == POOL_ACCEPTED && is_tally(added.tally, 65535, 65535u * 4096));
    claim("and one too many", add_refused(POOL_WRONG_LENGTH, added.tally, 4095, recorded, 1));

    tally = empty_tally();
    for (uint16_t recordings = 0; recordings < 65535; recordings = (uint16_t)(2 * recordings + 1)) {
        tally.recordings = recordings;
        tally.references = recordings * 4096u + 1;
        claim("a reference too many", add_refused(POOL_DISAGREE, tally, 4095, recorded, 1));
        tally.references = UINT32_MAX;
        claim("far too many", add_refused(POOL_DISAGREE, tally, 4095, recorded, 1));
        tally.references = recordings * 4096u;
        added = pool_tally_add(tally, COUNTS, recorded, 1);
        claim("as many as there can be", added.refusal == POOL_ACCEPTED && added.tally.references == tally.references + 1);
    }
    counts[0] = 3;
    counts[POOL_DEPTHS - 1] = 2;
    tally.recordings = 1;
    tally.references = 4;
    claim("fewer than the counters", add_refused(POOL_DISAGREE, tally, 4095, recorded, 1));
    tally.references = 5;
    claim("as many as the counters", pool_tally_add(tally, COUNTS, recorded, 1).refusal == POOL_ACCEPTED);
    counts[0] = UINT32_MAX;
    claim("counters beyond 32 bits", add_refused(POOL_DISAGREE, tally, 4095, recorded, 1));

    tally = empty_tally();
    recorded[2] = 4096;
    claim("page 4,096", add_refused(POOL_BAD_PAGE, tally, 4095, recorded, 3));
    recorded[2] = UINT16_MAX;
    claim("page 65,535", add_refused(POOL_BAD_PAGE, tally, 4095, recorded, 4096));
    recorded[2] = 4095;
    claim("page 4,095", pool_tally_add(tally, COUNTS, recorded, 3).refusal == POOL_ACCEPTED && counts[0] == 1);

    recorded[0] = 4096;
    counts[1] = 1;
    claim("1 before 2", add_refused(POOL_WRONG_LENGTH, none, 4095, recorded, 4097));
    claim("2 before 6", add_refused(POOL_DISAGREE, none, 4095, recorded, 1));
    claim("1 before 6", add_refused(POOL_WRONG_LENGTH, full, 4095, recorded, 1));
    tally.recordings = 1;
    tally.references = 2;
    claim("and 6 by itself", add_refused(POOL_BAD_PAGE, tally, 4095, recorded, 1));
}

static void refused_figures(void)
{
    static uint32_t counts_before[POOL_DEPTHS + 1];
    const struct pool_tally any = {1, UINT32_MAX};
    memset(counts, 0xff, sizeof counts);
    memcpy(counts_before, counts, sizeof counts);
    memset(hits, 0, sizeof hits);
    for (size_t length = 4094; length <= 4096; length += 2) {
        struct pool_share share = pool_tally_share(any, counts, length, 1);
        claim("a share of other counters", share.refusal == POOL_WRONG_LENGTH && share.within == 0 && share.all == 0);
        claim("a report of other counters", pool_tally_report(counts, length, hits, 4095) == POOL_WRONG_LENGTH);
        claim("a report to other hits", pool_tally_report(counts, 4095, hits, length) == POOL_WRONG_LENGTH);
    }
    struct pool_share share = pool_tally_share(any, NULL, 0, 1);
    claim("a share of no counters", share.refusal == POOL_WRONG_LENGTH && share.within == 0 && share.all == 0);
    claim("a report of none", pool_tally_report(NULL, 0, hits, 4095) == POOL_WRONG_LENGTH);
    claim("a report to none", pool_tally_report(counts, 4095, NULL, 0) == POOL_WRONG_LENGTH);
    bool are_kept = true, are_reported = true, are_shared = true;
    for (size_t i = 0; i <= POOL_DEPTHS; i++)
        are_kept = are_kept && hits[i] == 0;
    claim("refused, the hits stay", are_kept);

    claim("any counters are reported", pool_tally_report(COUNTS, hits, POOL_DEPTHS) == POOL_ACCEPTED);
    for (uint64_t size = 1; size <= POOL_DEPTHS; size++) {
        are_reported = are_reported && hits[size - 1] == size * UINT32_MAX;
        are_shared = are_shared && is_share(any, size, size * UINT32_MAX);
    }
    claim("and summed in 64 bits", are_reported);
    claim("by share too, up to any size", are_shared && is_share(any, UINT64_MAX, 4095 * (uint64_t)UINT32_MAX));
    claim("and stay as they are", memcmp(counts, counts_before, sizeof counts) == 0);
    claim("an add finds that they can't be", add_refused(POOL_DISAGREE, any, 4095, recorded, 1));
}

static void payloads(void)
{
    struct pool_fixed one = pool_fix(begin(), LENT, root, 1);
    struct pool_fixed two = pool_fix(one.pool, LENT, root, 2);
    struct pool pool = pool_write(two.pool, LENT, one.handle, 5, (const uint8_t *)"bytes", 5).pool;
    struct pool_place place = pool_show(pool, LENT, one.handle);
    uint8_t copy[POOL_PAYLOAD_SIZE];
    claim("a payload is 192 bytes", place.size == sizeof copy);
    memcpy(copy, pool_payload(place, frames, store), sizeof copy);
    pool = pool_write(pool, LENT, two.handle, 0, copy, sizeof copy).pool;
    place = pool_show(pool, LENT, two.handle);
    claim("a page copied", memcmp(pool_payload(place, frames, store), "\0\0\0\0\0bytes", 11) == 0);
    place = pool_peek(pool, LENT, 0, 3);
    claim("peek in the store", place.in_store && pool_payload(place, frames, store) == store + 3 * 256 + 64);
}

static void open_forgets(void)
{
    struct pool pool = pool_write(begin(), LENT, root, 0, (const uint8_t *)"lost", 4).pool;
    struct pool_done done = pool_open(LENT, ONE);
    claim("handles are stale after open", pool_show(done.pool, LENT, root).refusal == POOL_BAD_HANDLE);
    claim("unsettled changes are forgotten", frames[POOL_PAYLOAD_START] == 0 && store[POOL_PAYLOAD_START] == 0);
    pool = pool_write(pool_root(done.pool, LENT, 0).pool, LENT, root, 0, (const uint8_t *)"kept", 4).pool;
    done = pool_settle(pool, LENT);
    done = pool_open(LENT, ONE);
    claim("settled ones are not", memcmp(frames + POOL_PAYLOAD_START, "kept", 4) == 0 && done.refusal == 0);
}

int main(void)
{
    null_and_0();
    refused_answers();
    handles();
    no_frame();
    pages_in_use();
    chains_kept();
    entries_compared();
    directory_lengths();
    damaged_chains();
    opened_stores();
    equal_numbers();
    store_numbers();
    stores_figures();
    records_stores();
    at_the_ceiling();
    below_the_ceiling();
    taken_slots();
    staying_pages();
    locked_pages();
    marks_kept();
    below_a_lock();
    bit_30();
    workloads();
    depths();
    every_depth();
    refused_recordings();
    refused_figures();
    payloads();
    open_forgets();
    return failures != 0;
}
