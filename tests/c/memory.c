/* What the header promises of bytes: zeros are no state, emptying erases nothing, and rail_wipe erases. And its version. */
#include "check.h"

#include <stdio.h>
#include <stdlib.h>

#if RAIL_VERSION_NUMBER < RAIL_VERSION_OF(0, 2, 0) || RAIL_VERSION_NUMBER >= RAIL_VERSION_OF(RAIL_VERSION_MAJOR + 1, 0, 0)
#error "versions do not compare"
#endif

static struct rail_state zeroed; /* until it is emptied */

static int all_zero(const struct rail_state *s) {
    return filled((const uint8_t *)s, sizeof *s, 0);
}

/* Every call but emptying meets 1 and changes nothing. */
static void zeros_are_no_state(void) {
    static const uint8_t hooked[] = RAIL_ORDER_DESKTOP_HOOKED;
    static uint8_t record[RAIL_WINDOW_SIZE];
    memset(record, 0xEE, sizeof record);
    CHECK(rail_state_history(&zeroed) == RAIL_BAD_STATE && rail_state_checkpoint(&zeroed) == RAIL_BAD_STATE);
    CHECK(rail_state_desktop(&zeroed, record) == RAIL_BAD_STATE && rail_state_windows(&zeroed, record) == RAIL_BAD_STATE);
    CHECK(rail_state_window(&zeroed, 0, record) == RAIL_BAD_STATE && rail_state_cell(&zeroed, 0, 0, record) == RAIL_BAD_STATE);
    CHECK(rail_state_notification(&zeroed, 0, 0, record) == RAIL_BAD_STATE);
    CHECK(rail_state_shared(&zeroed, rail_cell_holder(0, 0), rail_cell_holder(0, 0), record) == RAIL_BAD_STATE);
    CHECK(rail_state_deliver(&zeroed, hooked, sizeof hooked) == RAIL_BAD_STATE);
    CHECK(rail_state_update(&zeroed, 1, hooked, sizeof hooked) == RAIL_BAD_STATE);
    CHECK(all_zero(&zeroed) && filled(record, sizeof record, 0xEE));
}

/* After that: nothing listed, no cell filled, nothing after the mark. */
static void emptied(struct rail_state *s) {
    static uint8_t record[RAIL_WINDOW_SIZE];
    uint32_t i;
    CHECK(rail_state_history(s) == RAIL_DONE);
    CHECK(rail_state_desktop(s, record) == RAIL_DONE && filled(record, RAIL_DESKTOP_SIZE, 0));
    CHECK(rail_state_windows(s, record) == RAIL_DONE && filled(record, RAIL_LIST_SIZE, 0));
    CHECK(rail_state_notifications(s, record) == RAIL_DONE && filled(record, RAIL_LIST_SIZE, 0));
    for (i = 0; i < RAIL_ICON_CACHES * RAIL_ICON_CACHE_ENTRIES; i++)
        CHECK(rail_state_cell(s, (uint8_t)(i / RAIL_ICON_CACHE_ENTRIES), (uint16_t)(i % RAIL_ICON_CACHE_ENTRIES), record) ==
              RAIL_UNKNOWN_ID);
    CHECK(rail_state_checkpoint(s) == RAIL_DONE);
}

/* `size` bytes of a value stand one after another somewhere in a part. */
static int holds(const uint8_t *part, size_t part_size, uint8_t value, size_t size) {
    size_t at, run = 0;
    for (at = 0; at < part_size && run < size; at++)
        run = part[at] == value ? run + 1 : 0;
    return run == size;
}

static void new_window(struct rail_state *s, uint32_t id) {
    uint32_t i;
    begin_window(WINDOW_ORDER_STATE_NEW | WINDOW_ORDER_FIELD_TITLE, id);
    put16(40);
    for (i = 0; i < 40; i++)
        put8(0xA7);
    order.at[1] = (uint8_t)order.size;
    CHECK(rail_number(rail_state_deliver(s, order.at, order.size)) == RAIL_DONE);
}

static void new_icon(struct rail_state *s, uint32_t id) {
    uint32_t i;
    begin_window(WINDOW_ORDER_ICON, id);
    put_icon(0, 0, 32, 0, 0, 40, 0);
    for (i = 1; i <= 40; i++)
        order.at[order.size - i] = 0xA7;
    order.at[1] = (uint8_t)order.size;
    CHECK(rail_number(rail_state_deliver(s, order.at, order.size)) == RAIL_DONE);
}

/* A title at the mark, and one after it; then a picture. */
static void erasing(void) {
    struct rail_state *s = (struct rail_state *)malloc(sizeof *s);
    CHECK(s != NULL);
    if (s == NULL)
        return;
    memset(s, 0xA7, sizeof *s);
    CHECK(rail_state_wipe(s) == RAIL_DONE);
    emptied(s);
    new_window(s, 7);
    CHECK(rail_number(rail_state_checkpoint(s)) == RAIL_DONE);
    new_window(s, 8);
    CHECK(rail_state_reset(s) == RAIL_DONE);
    CHECK(holds(s->bodies, sizeof s->bodies, 0xA7, 40) && holds(s->journal, sizeof s->journal, 0xA7, 40));
    new_window(s, 9);
    new_icon(s, 9);
    CHECK(rail_number(rail_state_checkpoint(s)) == RAIL_DONE && holds(s->store, sizeof s->store, 0xA7, 40));
    CHECK(rail_state_wipe(s) == RAIL_DONE);
    CHECK(!holds((const uint8_t *)s, sizeof *s, 0xA7, 1) && filled(s->store, sizeof s->store, 0));
    emptied(s);
    memset(order.at, 0xA7, 4);
    rail_wipe(order.at, 3);
    CHECK(filled(order.at, 3, 0) && order.at[3] == 0xA7);
    free(s);
}

static void version(void) {
    char text[40];
    snprintf(text, sizeof text, "%d.%d.%d", RAIL_VERSION_MAJOR, RAIL_VERSION_MINOR, RAIL_VERSION_PATCH);
    CHECK(strcmp(text, rail_version()) == 0 && strcmp(text, RAIL_VERSION) == 0);
}

void test_memory(void) {
    version();
    zeros_are_no_state();
    CHECK(rail_state_reset(&zeroed) == RAIL_DONE);
    emptied(&zeroed);
    erasing();
}
