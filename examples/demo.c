/*
 * A pool of 4 frames over a store of 80 empty pages: links and fixes a few pages, writes, reads back, locks a page, settles, and
 * reads the store again through a new pool, where the page is freed. Then tells from its fixes what caches of a few sizes hit.
 * Prints what it did, as demo.rs does. stores.c has several stores over one set of frames.
 */
#include "pagepool.h"

#include <inttypes.h>
#include <stdio.h>
#include <stdlib.h>
#include <string.h>

#define PAGES 80
#define FRAMES 4

static uint8_t store[PAGES * POOL_PAGE_SIZE];
static uint8_t frames[FRAMES * POOL_PAGE_SIZE];
static uint8_t directory[POOL_DIRECTORY_SIZE];
/* What every call on the pool is lent. */
#define LENT frames, sizeof frames, store, sizeof store, directory, sizeof directory
/* The only store, by its number, which may fill every frame. */
#define ONLY 0
static const struct pool_ceilings ceilings = {{FRAMES}};
static struct pool pool;
/* The recording: the page of each fix. */
static uint16_t recorded[POOL_MOST_REFERENCES];
static size_t fixes;

/* Ends the program where a call was refused that should not be. */
static void accept(uint8_t refusal)
{
    if (refusal != POOL_ACCEPTED) {
        printf("refused by rule %d\n", refusal);
        exit(1);
    }
}

/* Goes on with the records that a call gave. */
static void done(struct pool_done answer)
{
    accept(answer.refusal);
    pool = answer.pool;
}

static struct pool_handle open_pool(void)
{
    done(pool_open(LENT, 1, ceilings));
    printf("open: %d pages, %d frames\n", pool.pages, pool.count);

    struct pool_fixed fixed = pool_root(pool, LENT, ONLY);
    accept(fixed.refusal);
    pool = fixed.pool;
    printf("root: page %d in frame %d\n", fixed.handle.page, fixed.handle.frame);
    return fixed.handle;
}

static void link_page(struct pool_handle parent, size_t slot, pool_page_number page, bool locked)
{
    done(pool_link(pool, LENT, parent, slot, page, locked));
    printf("link page %d to slot %zu of page %d%s\n", page, slot, parent.page, locked ? ", locked" : "");
}

static void unlink_slot(struct pool_handle parent, size_t slot)
{
    done(pool_unlink(pool, LENT, parent, slot));
    printf("unlink slot %zu of page %d\n", slot, parent.page);
}

static struct pool_handle fix_slot(struct pool_handle parent, size_t slot)
{
    struct pool_fixed fixed = pool_fix(pool, LENT, parent, slot);
    accept(fixed.refusal);
    pool = fixed.pool;
    if (fixes < POOL_MOST_REFERENCES)
        recorded[fixes++] = fixed.handle.page;
    printf("fix slot %zu of page %d: page %d in frame %d, %d looks\n", slot, parent.page, fixed.handle.page,
           fixed.handle.frame, fixed.looks);
    return fixed.handle;
}

static void unfix_page(struct pool_handle handle)
{
    done(pool_unfix(pool, LENT, handle));
    printf("unfix page %d\n", handle.page);
}

/* Why a write or an evict was refused, and what to do. */
static const char *reason(uint8_t refusal)
{
    switch (refusal) {
    case POOL_IS_LOCKED:
        return "The handle's page is locked. To free it, unfix, evict and unlink it, and link it again without the mark.";
    case POOL_IS_ROOT:
        return "Evict's page is the root. It never leaves its frame.";
    case POOL_IS_PINNED:
        return "Evict's page is pinned. Unfix it until its pins are gone.";
    case POOL_IS_PARENT:
        return "Evict's page names a resident page. First evict the resident pages that it names.";
    default:
        return "See enum pool_refusal.";
    }
}

static void write_text(struct pool_handle handle, const char *text)
{
    struct pool_done answer = pool_write(pool, LENT, handle, 0, (const uint8_t *)text, strlen(text));
    if (answer.refusal != POOL_ACCEPTED) {
        printf("write to page %d: refused by rule %d: %s\n", handle.page, answer.refusal, reason(answer.refusal));
        return;
    }
    pool = answer.pool;
    printf("write to page %d: %s\n", handle.page, text);
}

static void evict_page(pool_page_number page)
{
    struct pool_done answer = pool_evict(pool, LENT, ONLY, page);
    if (answer.refusal != POOL_ACCEPTED) {
        printf("evict page %d: refused by rule %d: %s\n", page, answer.refusal, reason(answer.refusal));
        return;
    }
    pool = answer.pool;
    printf("evict page %d\n", page);
}

/* Locks a pinned page, or frees it: it is unfixed, evicted, unlinked, and linked again with the mark or without. */
static void relink_page(struct pool_handle parent, size_t slot, struct pool_handle handle, bool locked)
{
    unfix_page(handle);
    evict_page(handle.page);
    unlink_slot(parent, slot);
    link_page(parent, slot, handle.page, locked);
}

static void find_page(pool_page_number page)
{
    struct pool_found found = pool_find(pool, LENT, ONLY, page);
    accept(found.refusal);
    if (found.present)
        printf("find page %d: frame %d, %d compared\n", page, found.frame, found.compared);
    else
        printf("find page %d: absent, %d compared\n", page, found.compared);
}

/* Prints the text at the start of a payload, read in place. */
static void print_payload(const char *call, pool_page_number page, struct pool_place place)
{
    accept(place.refusal);
    const char *text = (const char *)pool_payload(place, frames, store);
    size_t length = 0;
    while (length < place.size && text[length] != 0)
        length++;
    printf("%s page %d: %.*s\n", call, page, (int)length, text);
}

static void show_page(struct pool_handle handle)
{
    print_payload("show", handle.page, pool_show(pool, LENT, handle));
}

static void peek_page(pool_page_number page)
{
    print_payload("peek", page, pool_peek(pool, LENT, ONLY, page));
}

static void print_word(struct pool_handle handle, size_t slot)
{
    struct pool_named named = pool_word(pool, LENT, handle, slot);
    accept(named.refusal);
    if (named.page != 0)
        printf("word in slot %zu of page %d: page %d%s\n", slot, handle.page, named.page, named.locked ? ", locked" : "");
    else
        printf("word in slot %zu of page %d: nothing\n", slot, handle.page);
}

static void settle(void)
{
    done(pool_settle(pool, LENT));
    printf("settle\n");
}

/* How many frames to buy: what a flat cache of a size, which replaces the page least recently used, hits of the fixes. */
static void print_hits(uint64_t most)
{
    static uint32_t counts[POOL_DEPTHS];
    const struct pool_tally none = {0, 0};
    struct pool_added added = pool_tally_add(none, counts, POOL_DEPTHS, recorded, fixes);
    accept(added.refusal);
    for (uint64_t size = 2; size <= most; size++) {
        struct pool_share share = pool_tally_share(added.tally, counts, POOL_DEPTHS, size);
        accept(share.refusal);
        printf("a cache of %" PRIu64 " pages hits %" PRIu64 " of %" PRIu64 " fixes\n", size, share.within, share.all);
    }
}

int main(void)
{
    struct pool_handle root = open_pool();
    link_page(root, 3, 7, false);
    struct pool_handle parent = fix_slot(root, 3);
    write_text(parent, "a parent");
    link_page(parent, 0, 74, false);
    struct pool_handle child = fix_slot(parent, 0);
    write_text(child, "its child");
    print_word(root, 3);

    /* Both have remainder 7 by 67: in their chain the one loaded last stands first. */
    find_page(74);
    find_page(7);

    /* The root never goes, a pinned page goes once it is unfixed, and a parent after its child. */
    evict_page(0);
    evict_page(7);
    unfix_page(parent);
    evict_page(7);
    unfix_page(child);
    evict_page(74);
    evict_page(7);
    find_page(74);
    peek_page(74);
    parent = fix_slot(root, 3);

    /* More pages than frames: the third of them has to be swept for. */
    for (pool_page_number page = 10; page < 13; page++) {
        link_page(root, page, page, false);
        unfix_page(fix_slot(root, page));
    }
    show_page(parent);
    unlink_slot(parent, 0);

    /* A locked page is read as any other, and not changed until it is freed: not after a new open either. */
    relink_page(root, 3, parent, true);
    settle();

    root = open_pool();
    print_word(root, 3);
    parent = fix_slot(root, 3);
    show_page(parent);
    print_word(parent, 0);
    write_text(parent, "a change");
    relink_page(root, 3, parent, false);
    parent = fix_slot(root, 3);
    write_text(parent, "a change");
    print_hits(5);
    return 0;
}
