/* Tests of rail.h against the library: its constants, layouts, numbers and inline functions. Built as C11 and as C++17 and run by
 * tests/c/run. The last line is `N passed, M failed`, and the exit status is 0 only where M is 0. */
#ifndef _DEFAULT_SOURCE
#define _DEFAULT_SOURCE
#endif
#include "check.h"

#include <stdio.h>
#include <stdlib.h>
#include <sys/mman.h>
#include <unistd.h>

struct parts now;
static struct parts kept;
struct bytes order;
static int passed, failed;

void check(int holds, const char *what, const char *file, int line) {
    if (holds) {
        passed++;
    } else {
        failed++;
        printf("FAILED: %s:%d: %s\n", file, line, what);
    }
}

uint8_t *fenced(size_t size) {
    const size_t page = (size_t)sysconf(_SC_PAGESIZE);
    const size_t whole = (size + page - 1) / page * page;
    void *at = mmap(NULL, whole + page, PROT_READ | PROT_WRITE, MAP_PRIVATE | MAP_ANONYMOUS, -1, 0);
    if (at == MAP_FAILED || mprotect((uint8_t *)at + whole, page, PROT_NONE) != 0) {
        perror("fenced");
        exit(2);
    }
    return (uint8_t *)at + whole - size;
}

int filled(const uint8_t *p, size_t size, uint8_t value) {
    size_t i;
    for (i = 0; i < size; i++)
        if (p[i] != value)
            return 0;
    return 1;
}

struct parts new_parts(const size_t store_size[RAIL_STORE_PARTS], uint8_t value) {
    struct parts parts;
    int i;
    parts.index = (uint8_t *)memset(fenced(RAIL_INDEX_SIZE), value, RAIL_INDEX_SIZE);
    parts.bodies = (uint8_t *)memset(fenced(RAIL_BODIES_SIZE), value, RAIL_BODIES_SIZE);
    parts.journal = (uint8_t *)memset(fenced(RAIL_JOURNAL_SIZE), value, RAIL_JOURNAL_SIZE);
    for (i = 0; i < RAIL_STORE_PARTS; i++) {
        parts.store_size[i] = store_size[i];
        parts.store[i] = (uint8_t *)memset(fenced(store_size[i]), value, store_size[i]);
    }
    return parts;
}

void empty_state(void) {
    CHECK(rail_reset(NOW) == RAIL_DONE);
}

/* The copy has room for the greatest store that a test lends. */
void remember(void) {
    int i;
    memcpy(kept.index, now.index, RAIL_INDEX_SIZE);
    memcpy(kept.bodies, now.bodies, RAIL_BODIES_SIZE);
    memcpy(kept.journal, now.journal, RAIL_JOURNAL_SIZE);
    for (i = 0; i < RAIL_STORE_PARTS; i++)
        memcpy(kept.store[i], now.store[i], now.store_size[i]);
}

int unchanged(void) {
    int i;
    for (i = 0; i < RAIL_STORE_PARTS; i++)
        if (memcmp(kept.store[i], now.store[i], now.store_size[i]) != 0)
            return 0;
    return memcmp(kept.index, now.index, RAIL_INDEX_SIZE) == 0 && memcmp(kept.bodies, now.bodies, RAIL_BODIES_SIZE) == 0 &&
           memcmp(kept.journal, now.journal, RAIL_JOURNAL_SIZE) == 0;
}

void put8(uint32_t number) {
    order.at[order.size++] = (uint8_t)number;
}

void put16(uint32_t number) {
    put8(number & 255);
    put8(number >> 8);
}

void put32(uint32_t number) {
    put16(number & 65535);
    put16(number >> 16);
}

void put_run(size_t size, uint8_t first) {
    size_t i;
    for (i = 0; i < size; i++)
        put8((uint32_t)(first + i) & 255);
}

void put_string(size_t size, uint8_t first) {
    put16((uint32_t)size);
    put_run(size, first);
}

void put_rectangles(uint32_t count, uint8_t first) {
    put16(count);
    put_run(8 * count, first);
}

void begin_window(uint32_t flags, uint32_t window_id) {
    order.size = 0;
    put8(RAIL_ORDER_HEADER);
    put16(0);
    put32(flags | WINDOW_ORDER_TYPE_WINDOW);
    put32(window_id);
}

void begin_notification(uint32_t flags, uint32_t window_id, uint32_t notify_icon_id) {
    order.size = 0;
    put8(RAIL_ORDER_HEADER);
    put16(0);
    put32(flags | WINDOW_ORDER_TYPE_NOTIFY);
    put32(window_id);
    put32(notify_icon_id);
}

void begin_desktop(uint32_t flags) {
    order.size = 0;
    put8(RAIL_ORDER_HEADER);
    put16(0);
    put32(flags | WINDOW_ORDER_TYPE_DESKTOP);
}

void begin_message(uint32_t type) {
    order.size = 0;
    put16(type);
    put16(0);
}

void put_icon(uint32_t entry, uint32_t cache, uint32_t bpp, size_t mask, size_t table, size_t color, uint8_t first) {
    put16(entry);
    put8(cache);
    put8(bpp);
    put16(RAIL_ICON_SIDE_MAX);
    put16(1);
    if (bpp == 1 || bpp == 4 || bpp == 8)
        put16((uint32_t)table);
    put16((uint32_t)mask);
    put16((uint32_t)color);
    put_run(mask + table + color, first);
}

uint32_t deliver(void) {
    order.at[1] = (uint8_t)(order.size & 255);
    order.at[2] = (uint8_t)(order.size >> 8);
    return rail_deliver(NOW, order.at, order.size);
}

void grant(void) {
    CHECK(rail_number(deliver()) == RAIL_DONE);
}

void refuse(uint32_t number) {
    remember();
    CHECK(deliver() == number); /* count and bytes are 0 */
    CHECK(unchanged());
}

int main(void) {
    static const size_t usual[RAIL_STORE_PARTS] = {15 * RAIL_PLACE_SIZE, 15 * RAIL_PLACE_SIZE, 15 * RAIL_PLACE_SIZE,
                                                   15 * RAIL_PLACE_SIZE, 4 * RAIL_PLACE_SIZE};
    static const size_t greatest[RAIL_STORE_PARTS] = {131072, 131072, 131072, 131072, 131072};
    now = new_parts(usual, 0xA5);
    kept = new_parts(greatest, 0);
    order.at = fenced(70000);
    test_constants();
    test_window();
    test_notification();
    test_desktop();
    test_pictures();
    test_kept_pictures();
    test_sent_once();
    test_newer();
    test_store();
    test_lookups();
    test_orders();
    test_memory();
    test_state_refusals();
    test_order_refusals();
    test_table_refusals();
    test_longer_parts();
    test_history();
    test_wrappers();
    test_decoders();
    test_reading();
    test_writing();
    test_counter();
    test_chunks();
    test_session_record();
    test_explanations();
    test_lists();
    test_figure();
    test_script();
    test_updates();
    test_stack();
    printf("%d passed, %d failed\n", passed, failed);
    return failed == 0 && passed > 0 ? 0 : 1;
}
