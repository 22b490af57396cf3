/*
 * A pool of 8 frames over four stores of 16 empty pages each: the same page numbers in every store, a store that takes a frame
 * from a neighbour, one that is kept to its ceiling, and other ceilings at a new open. Prints what it did.
 */
#include "pagepool.h"

#include <stdio.h>
#include <stdlib.h>
#include <string.h>

#define STORES 4
#define PAGES 16
#define FRAMES 8

/* The stores, one after another. */
static uint8_t store[STORES * PAGES * POOL_PAGE_SIZE];
static uint8_t frames[FRAMES * POOL_PAGE_SIZE];
static uint8_t directory[POOL_DIRECTORY_SIZE];
/* What every call on the pool is lent. */
#define LENT frames, sizeof frames, store, sizeof store, directory, sizeof directory
static struct pool pool;

/* Ends the program where a call was refused that should not be. */
static void accept(uint8_t refusal)
{
    if (refusal != POOL_ACCEPTED) {
        printf("refused by rule %d\n", refusal);
        exit(1);
    }
}

/* Goes on with the records that a call gave. */
static void done(struct pool_done answer)
{
    accept(answer.refusal);
    pool = answer.pool;
}

/* Opens the stores with these ceilings, and pins each root. */
static void open_stores(struct pool_ceilings ceilings, struct pool_handle roots[STORES])
{
    done(pool_open(LENT, STORES, ceilings));
    printf("open: %d stores of %d pages, %d frames, ceilings", pool.stores, pool.pages, pool.count);
    for (size_t i = 0; i < STORES; i++)
        printf(" %d", pool.ceilings[i]);
    printf("\n");
    for (pool_store_number of_store = 0; of_store < STORES; of_store++) {
        struct pool_fixed fixed = pool_root(pool, LENT, of_store);
        accept(fixed.refusal);
        pool = fixed.pool;
        roots[of_store] = fixed.handle;
        printf("root of store %d in frame %d\n", of_store, fixed.handle.frame);
    }
}

static void link_page(struct pool_handle parent, size_t slot, pool_page_number page)
{
    done(pool_link(pool, LENT, parent, slot, page, false));
    printf("link page %d of store %d to slot %zu of page %d\n", page, parent.store, slot, parent.page);
}

/* Why a fix was refused, and what to do. */
static const char *reason(uint8_t refusal)
{
    switch (refusal) {
    case POOL_NO_FRAME:
        return "No frame is empty, and none can be taken from any store. Unfix a page.";
    case POOL_AT_CEILING:
        return "The store is at its ceiling, and none of its own pages can go. Unfix one of these.";
    case POOL_BAD_STORE:
        return "There is no such store.";
    default:
        return "See enum pool_refusal.";
    }
}

static struct pool_handle fix_slot(struct pool_handle parent, size_t slot)
{
    struct pool_fixed fixed = pool_fix(pool, LENT, parent, slot);
    printf("fix slot %zu of page %d of store %d: ", slot, parent.page, parent.store);
    if (fixed.refusal != POOL_ACCEPTED)
        printf("refused by rule %d: %s\n", fixed.refusal, reason(fixed.refusal));
    else
        printf("page %d in frame %d, %d looks\n", fixed.handle.page, fixed.handle.frame, fixed.looks);
    pool = fixed.pool;
    return fixed.handle;
}

static void unfix_page(struct pool_handle handle)
{
    done(pool_unfix(pool, LENT, handle));
    printf("unfix page %d of store %d\n", handle.page, handle.store);
}

static void write_text(struct pool_handle handle, const char *text)
{
    done(pool_write(pool, LENT, handle, 0, (const uint8_t *)text, strlen(text)));
    printf("write to page %d of store %d: %s\n", handle.page, handle.store, text);
}

static void peek_page(pool_store_number of_store, pool_page_number page)
{
    struct pool_place place = pool_peek(pool, LENT, of_store, page);
    accept(place.refusal);
    const char *text = (const char *)pool_payload(place, frames, store);
    size_t length = 0;
    while (length < place.size && text[length] != 0)
        length++;
    printf("peek page %d of store %d, in %s: %.*s\n", page, of_store, place.in_store ? "its store" : "a frame", (int)length,
           text);
}

static void find_page(pool_store_number of_store, pool_page_number page)
{
    struct pool_found found = pool_find(pool, LENT, of_store, page);
    accept(found.refusal);
    if (found.present)
        printf("find page %d of store %d: frame %d, %d compared\n", page, of_store, found.frame, found.compared);
    else
        printf("find page %d of store %d: absent, %d compared\n", page, of_store, found.compared);
}

int main(void)
{
    /* Stores 0 and 1 may fill every frame, store 2 has at most 3 pages in frames, and store 3 at most 2, their roots included. */
    const struct pool_ceilings ceilings = {{FRAMES, FRAMES, 3, 2}}, open_to_all = {{FRAMES, FRAMES, FRAMES, FRAMES}};
    static const char *const texts[STORES] = {"first", "second", "third", "fourth"};
    struct pool_handle roots[STORES], fives[STORES];
    open_stores(ceilings, roots);

    /* Each store has a page 5 of its own. Their entries share a chain of the directory: the one loaded last stands first. */
    for (size_t i = 0; i < STORES; i++) {
        link_page(roots[i], 0, 5);
        link_page(roots[i], 1, 6);
        fives[i] = fix_slot(roots[i], 0);
        write_text(fives[i], texts[i]);
    }
    find_page(0, 5);
    find_page(3, 5);

    /* Every frame holds a root or a pinned page. Store 2 is below its ceiling and store 3 at its own: two reasons. */
    fix_slot(roots[2], 1);
    fix_slot(roots[3], 1);

    /* Once store 0 lets go of its page, store 2 can take its frame, and store 3 can't. The page is then in its store. */
    unfix_page(fives[0]);
    fix_slot(roots[3], 1);
    struct pool_handle six = fix_slot(roots[2], 1);
    find_page(0, 5);
    peek_page(0, 5);

    /* A store at its ceiling makes room among its own pages, though a frame is empty. */
    unfix_page(six);
    done(pool_evict(pool, LENT, 2, 6));
    printf("evict page 6 of store 2\n");
    fix_slot(roots[3], 1);
    unfix_page(fives[3]);
    fix_slot(roots[3], 1);
    peek_page(3, 5);

    /* All stores are settled at once, and opened with other ceilings: there is room for both pages of store 3 now. */
    done(pool_settle(pool, LENT));
    printf("settle\n");
    open_stores(open_to_all, roots);
    fix_slot(roots[3], 0);
    fix_slot(roots[3], 1);
    peek_page(3, 5);

    const struct pool_handle none = {0, STORES, 0};
    fix_slot(none, 0);
    return 0;
}
