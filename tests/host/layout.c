/* Reads back every field of the structs that the library fills with values of their own. Names each field that differs. */
#include "pagepool.h"

#include <stdio.h>

static int differences;

#define EXPECT(field, value)                                                                                           \
    do {                                                                                                               \
        unsigned long long got = (unsigned long long)(field), wanted = (unsigned long long)(value);                    \
        if (got != wanted) {                                                                                           \
            printf("%s is %llu, not %llu\n", #field, got, wanted);                                                     \
            differences++;                                                                                             \
        }                                                                                                              \
    } while (0)

static void expect_pool(struct pool pool)
{
    for (unsigned i = 0; i < POOL_MOST_FRAMES; i++) {
        struct pool_record record = pool.records[i];
        EXPECT(record.used, 192 + i);
        EXPECT(record.dirty, 255 - i);
        EXPECT(record.usage, i);
        EXPECT(record.slot, 64 + i);
        EXPECT(record.parent, 128 + i);
        EXPECT(record.store, 63 - i);
        EXPECT(record.pins, 1000 + i);
        EXPECT(record.page, 2000 + i);
    }
    EXPECT(pool.count, 3001);
    EXPECT(pool.pages, 3002);
    EXPECT(pool.stores, 227);
    for (unsigned i = 0; i < POOL_MOST_STORES; i++)
        EXPECT(pool.ceilings[i], 228 + i);
    EXPECT(pool.hand, 200);
}

int main(void)
{
    struct pool_done done = pool_layout_done();
    EXPECT(done.refusal, 201);
    expect_pool(done.pool);

    struct pool_fixed fixed = pool_layout_fixed();
    EXPECT(fixed.refusal, 202);
    EXPECT(fixed.handle.frame, 203);
    EXPECT(fixed.handle.store, 232);
    EXPECT(fixed.handle.page, 4001);
    EXPECT(fixed.looks, 4002);
    expect_pool(fixed.pool);

    struct pool_named named = pool_layout_named();
    EXPECT(named.refusal, 204);
    EXPECT(named.locked, true);
    EXPECT(named.page, 4003);

    struct pool_found found = pool_layout_found();
    EXPECT(found.refusal, 205);
    EXPECT(found.present, true);
    EXPECT(found.frame, 206);
    EXPECT(found.compared, 4004);

    struct pool_place place = pool_layout_place();
    EXPECT(place.refusal, 207);
    EXPECT(place.in_store, true);
    EXPECT(place.start, 5001);
    EXPECT(place.size, 5002);

    struct pool_drawn drawn = pool_layout_drawn();
    EXPECT(drawn.refusal, 208);
    for (unsigned i = 0; i < sizeof drawn.entry; i++)
        EXPECT(drawn.entry[i], 209 + i);
    EXPECT(drawn.generator.number, 5003);

    struct pool_added added = pool_layout_added();
    EXPECT(added.refusal, 225);
    EXPECT(added.tally.recordings, 5004);
    EXPECT(added.tally.references, 70005);

    struct pool_share share = pool_layout_share();
    EXPECT(share.refusal, 226);
    EXPECT(share.within, 5000000006);
    EXPECT(share.all, 5000000007);

    return differences != 0;
}
