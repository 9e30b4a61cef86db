/* Every number that a state call can answer, and that a refusal changes no byte. */
#include "check.h"

#define CALLS 12
#define STATE_PARTS (3 + RAIL_STORE_PARTS)
#define OUT_SIZE RAIL_WINDOW_SIZE /* the longest record */

/* The parts at their measure, with a store of 64 places. */
static const size_t whole[STATE_PARTS] = {RAIL_INDEX_SIZE, RAIL_BODIES_SIZE, 15 * RAIL_PLACE_SIZE, 15 * RAIL_PLACE_SIZE,
                                          15 * RAIL_PLACE_SIZE, 15 * RAIL_PLACE_SIZE, 4 * RAIL_PLACE_SIZE, RAIL_JOURNAL_SIZE};

/* Call `which` of the state calls on memory whose parts have these sizes. */
static uint32_t call(int which, const size_t size[STATE_PARTS], uint8_t *out) {
#define SIZED                                                                                                       \
    now.index, size[0], now.bodies, size[1], now.store[0], size[2], now.store[1], size[3], now.store[2], size[4],   \
        now.store[3], size[5], now.store[4], size[6], now.journal, size[7]
    switch (which) {
    case 0: return rail_reset(SIZED);
    case 1: return rail_deliver(SIZED, order.at, order.size);
    case 2: return rail_checkpoint(SIZED);
    case 3: return rail_undo(SIZED, 0);
    case 4: return rail_window(SIZED, 7, out, OUT_SIZE);
    case 5: return rail_notification(SIZED, 7, 9, out, OUT_SIZE);
    case 6: return rail_cell(SIZED, 0, 0, out, OUT_SIZE);
    case 7: return rail_windows(SIZED, out, OUT_SIZE);
    case 8: return rail_notifications(SIZED, out, OUT_SIZE);
    case 9: return rail_shared(SIZED, RAIL_HOLDER_CELL, 0, 0, RAIL_HOLDER_SMALL_ICON, 7, 0, out, OUT_SIZE);
    case 10: return rail_explain(SIZED, order.at, order.size);
    default: return rail_desktop(SIZED, out, OUT_SIZE);
    }
}

/* All calls from `first` on answer 1 and change nothing. */
static void all_meet_1(int first, const size_t size[STATE_PARTS], uint8_t *out) {
    int which;
    remember();
    memset(out, 0xEE, OUT_SIZE);
    for (which = first; which < CALLS; which++)
        CHECK(call(which, size, out) == RAIL_BAD_STATE);
    CHECK(unchanged() && filled(out, OUT_SIZE, 0xEE));
}

/* A byte changed: all calls but emptying meet 1. It is changed back. */
static void unformed(uint8_t *at, uint8_t value, uint8_t *out) {
    const uint8_t before = *at;
    *at = value;
    all_meet_1(1, whole, out);
    *at = before;
    CHECK(rail_number(call(3, whole, out)) == RAIL_DONE);
}

/* The index (docs/MEMORY.md): the number of places, the pointers of 12 cells and of the slots' icons, the slots. */
static void unformed_index(uint8_t *out) {
    unformed(now.index, RAIL_PLACES_MIN - 1, out);
    unformed(now.index, RAIL_PLACES_MAX + 1, out);
    unformed(now.index, 0, out);
    unformed(now.index + 1, RAIL_PLACES_MAX + 1, out); /* a cell past the places */
    unformed(now.index + 13 + 3 * 47, 1, out);         /* an icon of a slot that has no record */
    unformed(now.index + 157, 2, out);                 /* neither free nor used */
}

/* With pictures at the mark: two cells at one place, and a head outside its set where something points at its place. */
static void unformed_pictures(uint8_t *out) {
    uint8_t *heads = now.bodies + 32 * 1392 + 17 * 916, *cells = now.index + 1;
    uint32_t place;
    begin_window(WINDOW_ORDER_ICON, 7);
    put_icon(0, 0, 32, 1, 0, 1, 0);
    grant();
    begin_window(WINDOW_ORDER_ICON | WINDOW_ORDER_FIELD_ICON_BIG, 7);
    put_icon(1, 0, 32, 1, 0, 1, 0);
    grant();
    CHECK(rail_checkpoint(NOW) == RAIL_DONE);
    CHECK(cells[0] != 0 && cells[1] != 0 && cells[0] != cells[1] && cells[2] == 0);
    unformed(cells + 1, cells[0], out);
    unformed(cells + 2, cells[0], out);
    for (place = 1; place <= RAIL_PLACES_MAX; place++) {
        uint8_t *head = heads + 14 * (place - 1);
        if (place != cells[0] && place != cells[1])
            continue;
        unformed(head + 3, 2, out);                      /* bits per pixel */
        unformed(head + 4, 0, out);                      /* the width */
        unformed(head + 6, RAIL_ICON_SIDE_MAX + 1, out); /* the height */
        unformed(head + 11, 0xFF, out);                  /* a length of color that the place has not */
    }
}

void test_state_refusals(void) {
    uint8_t *out = fenced(OUT_SIZE);
    size_t size[STATE_PARTS];
    int part;
    empty_state();
    begin_window(WINDOW_ORDER_STATE_NEW, 7);
    grant();
    for (part = 0; part < STATE_PARTS; part++) {
        const int first = part >= 2 && part < 7; /* emptying takes a smaller store */
        memcpy(size, whole, sizeof size);
        size[part] = whole[part] - 1;
        all_meet_1(first, size, out);
        size[part] = 0;
        all_meet_1(first, size, out);
    }
    unformed_index(out);
    CHECK(rail_checkpoint(NOW) == RAIL_DONE);
    unformed_index(out);
    unformed_pictures(out);
    now.index[157] = 2;
    CHECK(call(0, whole, out) == RAIL_DONE); /* emptying takes any contents */
    now.journal[0] = RAIL_HISTORY_ORDERS_MAX + 1;
    all_meet_1(1, whole, out);
    CHECK(call(0, whole, out) == RAIL_DONE);
    now.journal[0] = 1; /* one order, and its first byte is wrong */
    now.journal[2] = 0;
    all_meet_1(1, whole, out);
    CHECK(call(0, whole, out) == RAIL_DONE);
    CHECK(call(2, whole, out) == RAIL_DONE);
}

/* Parts longer than needed: the calls answer as on the measure, and what lies behind is untouched. */
void test_longer_parts(void) {
    static const size_t longer[STATE_PARTS] = {RAIL_INDEX_SIZE + 999, RAIL_BODIES_SIZE + 999, 15 * RAIL_PLACE_SIZE + 999,
                                               15 * RAIL_PLACE_SIZE + 999, 15 * RAIL_PLACE_SIZE + 999, 15 * RAIL_PLACE_SIZE + 999,
                                               5 * RAIL_PLACE_SIZE + 999, 65536};
    const struct parts exact = now;
    uint8_t *out = fenced(OUT_SIZE);
    int which;
    now.index = (uint8_t *)memset(fenced(longer[0]), 0xEE, longer[0]);
    now.bodies = (uint8_t *)memset(fenced(longer[1]), 0xEE, longer[1]);
    for (which = 0; which < RAIL_STORE_PARTS; which++)
        now.store[which] = (uint8_t *)memset(fenced(longer[2 + which]), 0xEE, longer[2 + which]);
    now.journal = (uint8_t *)memset(fenced(longer[7]), 0xEE, longer[7]);
    begin_window(WINDOW_ORDER_STATE_NEW, 7);
    order.at[1] = (uint8_t)order.size;
    CHECK(call(0, longer, out) == RAIL_DONE);
    CHECK(call(1, longer, out) == 65536 * 11 + 256);
    for (which = 3; which < CALLS; which++)
        if (which != 10)
            CHECK(call(which, longer, out) == (which == 5 || which == 6 || which == 9 ? RAIL_UNKNOWN_ID : 65536 * 11 + 256));
    CHECK(call(10, longer, out) == RAIL_UNKNOWN_ID + 65536 * 7); /* the window is listed by now */
    CHECK(call(2, longer, out) == RAIL_DONE);
    CHECK(call(4, longer, out) == RAIL_DONE);
    CHECK(filled(now.index + RAIL_INDEX_SIZE, 999, 0xEE) && filled(now.bodies + RAIL_BODIES_SIZE, 999, 0xEE));
    for (which = 0; which < RAIL_STORE_PARTS; which++)
        CHECK(filled(now.store[which], longer[2 + which], 0xEE)); /* no picture was brought */
    CHECK(filled(now.journal + RAIL_JOURNAL_SIZE, 65536 - RAIL_JOURNAL_SIZE, 0xEE));
    now = exact;
}

/* Delivers `size` bytes as they stand. */
static void refuse_bytes(size_t size, uint32_t number) {
    remember();
    CHECK(rail_deliver(NOW, order.at, size) == number);
    CHECK(unchanged());
}

static void refuse_window(uint32_t flags, uint32_t number) {
    begin_window(flags, 7);
    refuse(number);
}

static void refuse_desktop(uint32_t flags, uint32_t number) {
    begin_desktop(flags);
    refuse(number);
}

/* 2, 3, 4, 5 and 6: bytes, type and flags. */
static void refuse_headers(void) {
    begin_window(0, 7);
    refuse_bytes(0, RAIL_TOO_SHORT);
    refuse_bytes(6, RAIL_TOO_SHORT);
    refuse_bytes(7, RAIL_LENGTH_DIFFERS);
    order.at[1] = 12;
    refuse_bytes(11, RAIL_LENGTH_DIFFERS);
    order.at[1] = 11;
    order.at[0] = 0x2F;
    refuse_bytes(11, RAIL_UNKNOWN_TYPE);
    begin_window(WINDOW_ORDER_TYPE_NOTIFY, 7);
    refuse(RAIL_UNKNOWN_TYPE);
    begin_window(0, 7);
    order.at[6] = 0; /* no type bit */
    refuse(RAIL_UNKNOWN_TYPE);
    refuse_window(0x00000020, RAIL_UNKNOWN_FLAG); /* the only bit, beside the type bits, that no window order has */
    refuse_desktop(WINDOW_ORDER_STATE_NEW, RAIL_UNKNOWN_FLAG);
    begin_notification(WINDOW_ORDER_FIELD_ICON_BIG, 7, 9);
    refuse(RAIL_UNKNOWN_FLAG);
    refuse_window(WINDOW_ORDER_STATE_DELETED | WINDOW_ORDER_STATE_NEW, RAIL_FLAGS_CLASH);
    refuse_window(WINDOW_ORDER_ICON | WINDOW_ORDER_CACHEDICON, RAIL_FLAGS_CLASH);
    refuse_window(WINDOW_ORDER_ICON | WINDOW_ORDER_FIELD_TITLE, RAIL_FLAGS_CLASH);
    refuse_window(WINDOW_ORDER_FIELD_ICON_BIG, RAIL_FLAGS_CLASH);
    refuse_window(WINDOW_ORDER_FIELD_ICON_OVERLAY, RAIL_FLAGS_CLASH);
    refuse_window(WINDOW_ORDER_ICON | WINDOW_ORDER_FIELD_ICON_OVERLAY | WINDOW_ORDER_FIELD_ICON_BIG, RAIL_FLAGS_CLASH);
    refuse_window(WINDOW_ORDER_ICON | WINDOW_ORDER_FIELD_ICON_OVERLAY_NULL, RAIL_FLAGS_CLASH);
    refuse_window(WINDOW_ORDER_STATE_DELETED | WINDOW_ORDER_FIELD_ICON_OVERLAY_NULL, RAIL_FLAGS_CLASH);
    refuse_desktop(WINDOW_ORDER_FIELD_DESKTOP_NONE | WINDOW_ORDER_FIELD_DESKTOP_HOOKED, RAIL_FLAGS_CLASH);
    refuse_desktop(WINDOW_ORDER_FIELD_DESKTOP_ARC_COMPLETED | WINDOW_ORDER_FIELD_DESKTOP_ARC_BEGAN, RAIL_FLAGS_CLASH);
}

static void refuse_byte(uint32_t flag, uint32_t number) {
    begin_window(flag, 7);
    put8(number);
    refuse(RAIL_BAD_VALUE);
}

/* 8: a string, a list or a number that passes its limit by the least. */
static void refuse_values(void) {
    begin_window(WINDOW_ORDER_FIELD_TITLE, 7);
    put_string(RAIL_TITLE_MAX + 2, 0);
    refuse(RAIL_BAD_VALUE);
    begin_window(WINDOW_ORDER_FIELD_TITLE, 7);
    put_string(3, 0); /* odd */
    refuse(RAIL_BAD_VALUE);
    begin_window(WINDOW_ORDER_FIELD_WNDRECTS, 7);
    put_rectangles(RAIL_RECTANGLES_MAX + 1, 0);
    refuse(RAIL_BAD_VALUE);
    begin_window(WINDOW_ORDER_FIELD_VISIBILITY, 7);
    put_rectangles(RAIL_RECTANGLES_MAX + 1, 0);
    refuse(RAIL_BAD_VALUE);
    refuse_byte(WINDOW_ORDER_FIELD_RPCONTENT, 2);
    refuse_byte(WINDOW_ORDER_FIELD_TASKBAR_BUTTON, 2);
    refuse_byte(WINDOW_ORDER_FIELD_ENFORCE_SERVER_ZORDER, 2);
    refuse_byte(WINDOW_ORDER_FIELD_APPBAR_STATE, 2);
    refuse_byte(WINDOW_ORDER_FIELD_APPBAR_EDGE, 4);
    begin_window(WINDOW_ORDER_FIELD_OVERLAY_DESCRIPTION, 7);
    put_string(RAIL_OVERLAY_DESCRIPTION_MAX + 2, 0);
    refuse(RAIL_BAD_VALUE);
    begin_window(WINDOW_ORDER_FIELD_OVERLAY_DESCRIPTION, 7);
    put_string(3, 0);
    refuse(RAIL_BAD_VALUE);
    begin_notification(WINDOW_ORDER_FIELD_NOTIFY_TIP, 7, 9);
    put_string(RAIL_TOOL_TIP_MAX + 2, 0);
    refuse(RAIL_BAD_VALUE);
    begin_notification(WINDOW_ORDER_FIELD_NOTIFY_INFO_TIP, 7, 9);
    put_run(8, 0);
    put_string(RAIL_INFO_TIP_TEXT_MAX + 2, 0);
    put_string(0, 0);
    refuse(RAIL_BAD_VALUE);
    begin_notification(WINDOW_ORDER_FIELD_NOTIFY_INFO_TIP, 7, 9);
    put_run(8, 0);
    put_string(0, 0);
    put_string(RAIL_INFO_TIP_TITLE_MAX + 2, 0);
    refuse(RAIL_BAD_VALUE);
    begin_desktop(WINDOW_ORDER_FIELD_DESKTOP_ZORDER);
    put8(RAIL_WINDOW_IDS_MAX + 1);
    put_run(4 * (RAIL_WINDOW_IDS_MAX + 1), 0);
    refuse(RAIL_BAD_VALUE);
}

static void refuse_icon(uint32_t entry, uint32_t cache, uint32_t bpp, size_t color, uint32_t number) {
    begin_window(WINDOW_ORDER_ICON, 7);
    put_icon(entry, cache, bpp, 0, 0, color, 0);
    refuse(number);
}

/* Of all 256 show states exactly the named four are granted. */
static void show_states(void) {
    uint32_t state, granted = 0;
    for (state = 0; state < 256; state++) {
        uint32_t number;
        begin_window(WINDOW_ORDER_FIELD_SHOW, 7);
        put8(state);
        number = rail_number(deliver());
        if (state == RAIL_SHOW_HIDDEN || state == RAIL_SHOW_MINIMIZED || state == RAIL_SHOW_MAXIMIZED || state == RAIL_SHOW_NORMAL)
            granted += number == RAIL_DONE;
        else
            granted += number == RAIL_BAD_VALUE;
    }
    CHECK(granted == 256);
}

void test_order_refusals(void) {
    empty_state();
    begin_window(WINDOW_ORDER_STATE_NEW, 7);
    grant();
    begin_notification(WINDOW_ORDER_STATE_NEW, 7, 9);
    grant();
    refuse_headers();
    begin_window(WINDOW_ORDER_FIELD_OWNER, 7);
    put_run(3, 0); /* one byte less than the field has */
    refuse(RAIL_FIELDS_MISFIT);
    put_run(2, 0); /* one byte more */
    refuse(RAIL_FIELDS_MISFIT);
    refuse_values();
    show_states();
    refuse_icon(0, RAIL_ICON_CACHES, 32, 1, RAIL_BAD_VALUE);
    refuse_icon(RAIL_ICON_CACHE_ENTRIES, 0, 32, 1, RAIL_BAD_VALUE);
    refuse_icon(0, 0, 2, 1, RAIL_BAD_VALUE);
    refuse_icon(0, 0, 32, RAIL_ICON_BITS_MAX + 1, RAIL_BAD_VALUE);
    refuse_icon(0, 0xFF, 2, 1, RAIL_BAD_VALUE); /* FF excuses the entry alone */
    begin_window(WINDOW_ORDER_ICON, 7);
    put_icon(0, 0, 32, 0, 0, 1, 0);
    order.at[15] = RAIL_ICON_SIDE_MAX + 1; /* the width */
    refuse(RAIL_BAD_VALUE);
    order.at[15] = 0;
    refuse(RAIL_BAD_VALUE);
    begin_window(WINDOW_ORDER_CACHEDICON, 7);
    put16(0);
    put8(0);
    refuse(RAIL_NO_CELL);
}

/* 9: an absent id, and one that is there; lookups of what is not there, for which 9 comes before 14. */
static void refuse_ids(uint8_t *out) {
    begin_window(0, 8);
    refuse(RAIL_UNKNOWN_ID);
    begin_window(WINDOW_ORDER_STATE_DELETED, 8);
    refuse(RAIL_UNKNOWN_ID);
    begin_window(WINDOW_ORDER_STATE_NEW, 0);
    refuse(RAIL_UNKNOWN_ID);
    begin_notification(0, 0, 9);
    refuse(RAIL_UNKNOWN_ID);
    begin_notification(WINDOW_ORDER_STATE_NEW, 0, 0);
    refuse(RAIL_UNKNOWN_ID);
    memset(out, 0xEE, OUT_SIZE);
    CHECK(rail_window(NOW, 99, out, 0) == RAIL_UNKNOWN_ID);
    CHECK(rail_notification(NOW, 9, 0, out, 0) == RAIL_UNKNOWN_ID);
    CHECK(rail_notification(NOW, 0, 9, out, OUT_SIZE) == RAIL_UNKNOWN_ID);
    CHECK(rail_cell(NOW, 0, 0, out, OUT_SIZE) == RAIL_UNKNOWN_ID);
    CHECK(rail_cell(NOW, 0, RAIL_ICON_CACHE_ENTRIES, out, OUT_SIZE) == RAIL_UNKNOWN_ID);
    CHECK(rail_cell(NOW, RAIL_ICON_CACHES, 0, out, OUT_SIZE) == RAIL_UNKNOWN_ID);
    CHECK(rail_cell(NOW, 255, 65535, out, 0) == RAIL_UNKNOWN_ID);
    CHECK(filled(out, OUT_SIZE, 0xEE) && unchanged());
}

/* 10: the window after the last. A delete makes a place. */
static void fill_windows(uint8_t *out) {
    uint32_t id;
    for (id = 1; id < RAIL_WINDOWS_MAX; id++) {
        begin_window(WINDOW_ORDER_STATE_NEW, id);
        grant();
    }
    begin_window(WINDOW_ORDER_STATE_NEW, id);
    refuse(RAIL_TABLE_FULL);
    begin_window(WINDOW_ORDER_STATE_DELETED, 5);
    grant();
    CHECK(rail_window(NOW, 5, out, OUT_SIZE) == RAIL_UNKNOWN_ID);
    begin_window(WINDOW_ORDER_STATE_NEW, id);
    grant();
}

static void fill_notifications(uint8_t *out) {
    uint32_t id;
    for (id = 1; id < RAIL_NOTIFICATIONS_MAX; id++) {
        begin_notification(WINDOW_ORDER_STATE_NEW, 0, id);
        grant();
    }
    begin_notification(WINDOW_ORDER_STATE_NEW, 0, id);
    refuse(RAIL_TABLE_FULL);
    begin_notification(WINDOW_ORDER_STATE_DELETED, 0, 3);
    grant();
    CHECK(rail_notification(NOW, 0, 3, out, OUT_SIZE) == RAIL_UNKNOWN_ID);
}

void test_table_refusals(void) {
    uint8_t *out = fenced(OUT_SIZE);
    empty_state();
    begin_window(WINDOW_ORDER_STATE_NEW, 0);
    grant();
    begin_notification(WINDOW_ORDER_STATE_NEW, 0, 0);
    grant();
    refuse_ids(out);
    fill_windows(out);
    fill_notifications(out);
}
