/* Whole updates: rail_update beside deliveries one by one, its limits, its pieces and updates over 65,535 bytes. */
#include "check.h"

#include <stdlib.h>
#include <string.h>

static uint8_t update[4096];
static size_t update_size;

static void add(const uint8_t *bytes, size_t size) {
    memcpy(update + update_size, bytes, size);
    update_size += size;
}

static void add_window(uint32_t id) {
    begin_window(WINDOW_ORDER_STATE_NEW, id);
    order.at[1] = (uint8_t)order.size;
    order.at[2] = 0;
    add(order.at, order.size);
}

static int is(uint64_t report, uint32_t number, uint32_t orders, uint32_t bytes) {
    return rail_number(rail_update_answer(report)) == number && rail_update_orders(report) == orders && rail_update_bytes(report) == bytes;
}

static int stand(uint64_t report, uint32_t count, uint32_t bytes) {
    return rail_count(rail_update_answer(report)) == count && rail_bytes(rail_update_answer(report)) == bytes;
}

/* The update's first orders, delivered one by one: the same memory, to the byte. */
static void alike(uint32_t orders) {
    static struct rail_state other;
    size_t at = 0;
    memset(&other, 0, sizeof other);
    CHECK(rail_state_reset(&other) == RAIL_DONE);
    for (; orders != 0; orders--) {
        const size_t size = rail_order_size(update + at, update_size - at);
        CHECK(rail_number(rail_state_deliver(&other, update + at, size)) == RAIL_DONE);
        at += size;
    }
    CHECK(memcmp(other.index, now.index, RAIL_INDEX_SIZE) == 0);
    CHECK(memcmp(other.bodies, now.bodies, RAIL_BODIES_SIZE) == 0);
    CHECK(filled(now.store[0], now.store_size[0], 0) && filled(now.store[4], now.store_size[4], 0));
    CHECK(memcmp(other.journal, now.journal, RAIL_JOURNAL_SIZE) == 0);
}

/* Zeros, emptied. */
static void fresh_state(void) {
    int i;
    memset(now.index, 0, RAIL_INDEX_SIZE);
    memset(now.bodies, 0, RAIL_BODIES_SIZE);
    memset(now.journal, 0, RAIL_JOURNAL_SIZE);
    for (i = 0; i < RAIL_STORE_PARTS; i++)
        memset(now.store[i], 0, now.store_size[i]);
    empty_state();
}

static void limits(void) {
    uint32_t limit;
    update_size = 0;
    for (limit = 1; limit <= 5; limit++)
        add_window(limit);
    for (limit = 0; limit <= 7; limit++) {
        const uint32_t orders = limit < 5 ? limit : 5;
        uint64_t report;
        fresh_state();
        report = rail_update(NOW, limit, update, update_size);
        CHECK(is(report, RAIL_DONE, orders, 11 * orders) && stand(report, orders, 11 * orders));
        alike(orders);
    }
    /* the next begins where the granted ones end */
    fresh_state();
    CHECK(is(rail_update(NOW, 2, update, update_size), RAIL_DONE, 2, 22));
    CHECK(stand(rail_update(NOW, UINT32_MAX, update + 22, update_size - 22), 5, 55));
    alike(5);
    /* no bytes */
    CHECK(is(rail_update(NOW, 1, update, 0), RAIL_DONE, 0, 0));
    alike(5);
}

static void refusals(void) {
    static const uint8_t none[] = RAIL_ORDER_DESKTOP_NONE, other[] = {0x2F, 7, 0, 1, 0, 0, 4}, cut[] = {0x2E, 7}, under[] = {0x2E, 6, 0, 1, 0, 0, 4},
                         past[] = {0x2E, 8, 0, 1, 0, 0, 4};
    uint64_t report;
    update_size = 0;
    add_window(1);
    add_window(2);
    add_window(1); /* 9 */
    add_window(3);
    fresh_state();
    report = rail_update(NOW, 4, update, update_size);
    CHECK(is(report, RAIL_UNKNOWN_ID, 2, 22) && stand(report, 2, 22));
    alike(2);
    CHECK(is(rail_update(NOW, 4, update + 22, update_size - 22), RAIL_UNKNOWN_ID, 0, 0));
    alike(2);
    CHECK(is(rail_update(NOW, 4, update + 33, update_size - 33), RAIL_DONE, 1, 11));
    fresh_state();
    update_size = 0;
    add(none, sizeof none);
    add(cut, sizeof cut);
    CHECK(is(rail_update(NOW, 9, update, update_size), RAIL_TOO_SHORT, 1, 7));
    update_size = 7;
    add(under, sizeof under);
    add(none, sizeof none);
    CHECK(is(rail_update(NOW, 9, update, update_size), RAIL_LENGTH_DIFFERS, 1, 7));
    update_size = 7;
    add(past, sizeof past);
    CHECK(is(rail_update(NOW, 9, update, update_size), RAIL_LENGTH_DIFFERS, 1, 7));
    update_size = 7;
    add(other, sizeof other);
    add(none, sizeof none);
    CHECK(is(rail_update(NOW, 9, update, update_size), RAIL_UNKNOWN_TYPE, 1, 7));
    CHECK(stand(rail_update(NOW, 0, update, update_size), 4, 28));
}

/* 1 comes before all, and no byte changes. */
static void unfit(void) {
    update_size = 0;
    add_window(1);
    fresh_state();
    CHECK(rail_update(PARTS(RAIL_INDEX_SIZE - 1, RAIL_BODIES_SIZE, RAIL_JOURNAL_SIZE), 1, update, update_size) == RAIL_BAD_STATE);
    CHECK(rail_update(PARTS(RAIL_INDEX_SIZE, RAIL_BODIES_SIZE, RAIL_JOURNAL_SIZE - 1), 0, update, 0) == RAIL_BAD_STATE);
    alike(0);
    now.journal[0] = 129;
    CHECK(rail_update(NOW, 0, update, 0) == RAIL_BAD_STATE);
    CHECK(now.journal[0] == 129);
}

/* Updates longer than an OrderSize can say: 20,000 orders of 7 bytes, taken with marks between; then a rest of over 65,535. */
static void longer(void) {
    static const uint8_t none[] = RAIL_ORDER_DESKTOP_NONE;
    const size_t size = 140000;
    uint8_t *const all = (uint8_t *)malloc(size);
    size_t at = 0, orders = 0;
    CHECK(all != NULL);
    if (all == NULL)
        return;
    for (at = 0; at < size; at += sizeof none)
        memcpy(all + at, none, sizeof none);
    fresh_state();
    for (at = 0; at < size;) {
        const uint64_t report = rail_update(NOW, UINT32_MAX, all + at, size - at);
        const uint32_t number = rail_number(rail_update_answer(report));
        at += rail_update_bytes(report);
        orders += rail_update_orders(report);
        CHECK(number == (at < size ? RAIL_HISTORY_FULL : RAIL_DONE));
        if (number != RAIL_HISTORY_FULL || rail_number(rail_checkpoint(NOW)) != RAIL_DONE)
            break;
    }
    CHECK(at == size && orders == size / sizeof none);
    fresh_state();
    all[7 + 1] = 0; /* under 7: the rest of 139,993 bytes is one */
    CHECK(is(rail_update(NOW, 9, all, size), RAIL_LENGTH_DIFFERS, 1, 7));
    all[7 + 1] = (139993 & 255);
    all[7 + 2] = (139993 >> 8 & 255); /* the length modulo 65,536, and so within: cut there */
    CHECK(is(rail_update(NOW, 9, all, size), RAIL_FIELDS_MISFIT, 1, 7));
    free(all);
}

/* Where a synchronization begins. */
static void before_sync(void) {
    static const uint8_t began[] = {0x2E, 7, 0, 8, 0, 0, 4};
    update_size = 0;
    CHECK(rail_orders_before_sync(update, 0) == 0);
    add_window(1);
    add_window(2);
    CHECK(rail_orders_before_sync(update, update_size) == 2);
    add(began, sizeof began);
    add_window(1);
    CHECK(rail_orders_before_sync(update, update_size) == 2);
    CHECK(rail_orders_before_sync(update + 22, update_size - 22) == 0);
}

void test_updates(void) {
    limits();
    refusals();
    unfit();
    longer();
    before_sync();
}
