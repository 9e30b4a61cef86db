/* Icons: the cells that they fill and the pictures that records show. Lookups into memory too small, just enough and more. */
#include "check.h"

/* The picture that put_icon makes stands in the cell, with zeros behind. */
static void check_picture(const uint8_t *r, uint32_t bpp, size_t mask, size_t table, size_t color, uint8_t first) {
    const size_t start = bpp == 1 || bpp == 4 || bpp == 8 ? 11 : 9, all = mask + table + color;
    struct rail_picture p;
    size_t i, wrong = 0;
    rail_picture_decode(&p, r);
    CHECK(p.present == 1 && r[RAIL_PICTURE_AT_BPP] == bpp && p.bpp == bpp);
    CHECK(rail_get16(r + RAIL_PICTURE_AT_WIDTH) == RAIL_ICON_SIDE_MAX && p.width == RAIL_ICON_SIDE_MAX);
    CHECK(rail_get16(r + RAIL_PICTURE_AT_HEIGHT) == 1 && p.height == 1);
    CHECK(p.cb_bits_mask == mask && p.cb_color_table == table && p.cb_bits_color == color);
    CHECK(p.bits_mask == r + start && p.color_table == p.bits_mask + mask && p.bits_color == p.color_table + table);
    for (i = 0; i < all; i++)
        wrong += r[start + i] != (uint8_t)(first + i);
    CHECK(wrong == 0);
    CHECK(filled(r + start + all, RAIL_PICTURE_SIZE - start - all, 0));
}

static void give_window_icon(uint32_t flags, uint32_t entry, uint32_t cache, uint8_t first) {
    begin_window(flags | WINDOW_ORDER_ICON, 7);
    put_icon(entry, cache, 32, 3, 0, 5, first);
    grant();
}

/* The struct and its accessor alone have the picture that stands in the record. */
static void check_shown(struct rail_picture shown, struct rail_picture alone, const uint8_t *picture) {
    struct rail_picture p;
    rail_picture_decode(&p, picture);
    CHECK(shown.present == 1 && shown.bpp == p.bpp && shown.width == p.width && shown.height == p.height);
    CHECK(shown.bits_mask == p.bits_mask && shown.color_table == p.color_table && shown.bits_color == p.bits_color);
    CHECK(shown.cb_bits_mask == p.cb_bits_mask && shown.cb_color_table == p.cb_color_table && shown.cb_bits_color == p.cb_bits_color);
    CHECK(alone.present == 1 && alone.bits_mask == p.bits_mask && alone.cb_bits_color == p.cb_bits_color);
}

static int shows_nothing(struct rail_picture shown) {
    return shown.present == 0 && shown.bpp == 0 && shown.width == 0 && shown.bits_mask == NULL && shown.cb_bits_color == 0;
}

/* Fills all cells, in turn for the small and the big icon of the window, which shows the last of each. */
static void fill_cells(uint8_t *window, uint8_t *picture) {
    uint32_t cell;
    struct rail_window w;
    for (cell = 0; cell < RAIL_ICON_CACHES * RAIL_ICON_CACHE_ENTRIES; cell++) {
        const uint32_t cache = cell / RAIL_ICON_CACHE_ENTRIES, entry = cell % RAIL_ICON_CACHE_ENTRIES;
        const int big = cell % 2 == 1;
        CHECK(rail_cell(NOW, (uint8_t)cache, (uint16_t)entry, picture, RAIL_PICTURE_SIZE) == RAIL_UNKNOWN_ID);
        give_window_icon(big ? WINDOW_ORDER_FIELD_ICON_BIG : 0, entry, cache, (uint8_t)(16 * cell));
        CHECK(rail_number(rail_cell(NOW, (uint8_t)cache, (uint16_t)entry, picture, RAIL_PICTURE_SIZE)) == RAIL_DONE);
        check_picture(picture, 32, 3, 0, 5, (uint8_t)(16 * cell));
        CHECK(rail_number(rail_window(NOW, 7, window, RAIL_WINDOW_SIZE)) == RAIL_DONE);
        rail_window_decode(&w, window);
        CHECK(window[RAIL_WINDOW_AT_SMALL_ICON] == 1 && window[RAIL_WINDOW_AT_BIG_ICON] == (cell == 0 ? 0 : 1));
        check_picture(window + RAIL_WINDOW_AT_SMALL_PICTURE, 32, 3, 0, 5, (uint8_t)(16 * (big ? cell - 1 : cell)));
        check_shown(w.small_icon, rail_window_small_icon(window), window + RAIL_WINDOW_AT_SMALL_PICTURE);
        if (cell == 0) {
            CHECK(shows_nothing(w.big_icon) && shows_nothing(rail_window_big_icon(window)));
            CHECK(filled(window + RAIL_WINDOW_AT_BIG_PICTURE, RAIL_PICTURE_SIZE, 0));
        } else {
            check_picture(window + RAIL_WINDOW_AT_BIG_PICTURE, 32, 3, 0, 5, (uint8_t)(16 * (big ? cell : cell - 1)));
            check_shown(w.big_icon, rail_window_big_icon(window), window + RAIL_WINDOW_AT_BIG_PICTURE);
        }
    }
}

static void notification_icons(uint8_t *notification, uint8_t *picture) {
    struct rail_notification n;
    begin_notification(WINDOW_ORDER_STATE_NEW, 7, 8);
    grant();
    CHECK(rail_number(rail_notification(NOW, 7, 8, notification, RAIL_NOTIFICATION_SIZE)) == RAIL_DONE);
    rail_notification_decode(&n, notification);
    CHECK(shows_nothing(n.icon) && shows_nothing(rail_notification_icon(notification)));
    CHECK(filled(notification, RAIL_NOTIFICATION_SIZE, 0));
    begin_notification(WINDOW_ORDER_STATE_NEW | WINDOW_ORDER_ICON, 7, 9);
    put_icon(4, 1, 8, 7, 11, 13, 0x40);
    grant();
    CHECK(rail_number(rail_cell(NOW, 1, 4, picture, RAIL_PICTURE_SIZE)) == RAIL_DONE);
    check_picture(picture, 8, 7, 11, 13, 0x40);
    CHECK(rail_number(rail_notification(NOW, 7, 9, notification, RAIL_NOTIFICATION_SIZE)) == RAIL_DONE);
    rail_notification_decode(&n, notification);
    CHECK(notification[RAIL_NOTIFICATION_AT_ICON] == 1 && notification[1] == 0);
    check_picture(notification + RAIL_NOTIFICATION_AT_PICTURE, 8, 7, 11, 13, 0x40);
    check_shown(n.icon, rail_notification_icon(notification), notification + RAIL_NOTIFICATION_AT_PICTURE);
    begin_notification(WINDOW_ORDER_CACHED_ICON, 7, 9);
    put16(2);
    put8(0);
    grant();
    CHECK(rail_number(rail_notification(NOW, 7, 9, notification, RAIL_NOTIFICATION_SIZE)) == RAIL_DONE);
    check_picture(notification + RAIL_NOTIFICATION_AT_PICTURE, 32, 3, 0, 5, 2 * 16); /* what cell 0/2 holds */
}

void test_pictures(void) {
    static const uint8_t depths[] = {1, 4, 8, 16, 24, 32};
    uint8_t *window = fenced(RAIL_WINDOW_SIZE), *picture = fenced(RAIL_PICTURE_SIZE);
    uint8_t *notification = fenced(RAIL_NOTIFICATION_SIZE);
    size_t i;
    empty_state();
    begin_window(WINDOW_ORDER_STATE_NEW, 7);
    grant();
    fill_cells(window, picture);
    CHECK(rail_cell(NOW, 0, RAIL_ICON_CACHE_ENTRIES, picture, RAIL_PICTURE_SIZE) == RAIL_UNKNOWN_ID); /* not cell 1/0 */
    CHECK(rail_cell(NOW, 0, 256, picture, RAIL_PICTURE_SIZE) == RAIL_UNKNOWN_ID);
    CHECK(rail_cell(NOW, RAIL_ICON_CACHES, 0, picture, RAIL_PICTURE_SIZE) == RAIL_UNKNOWN_ID);
    notification_icons(notification, picture);
    begin_window(WINDOW_ORDER_CACHEDICON | WINDOW_ORDER_FIELD_ICON_BIG, 7);
    put16(5);
    put8(0);
    grant();
    CHECK(rail_number(rail_window(NOW, 7, window, RAIL_WINDOW_SIZE)) == RAIL_DONE);
    check_picture(window + RAIL_WINDOW_AT_BIG_PICTURE, 32, 3, 0, 5, 5 * 16);
    check_picture(window + RAIL_WINDOW_AT_SMALL_PICTURE, 32, 3, 0, 5, 10 * 16); /* cell 1/4 was filled again, the window keeps its own */
    for (i = 0; i < sizeof depths; i++) { /* the greatest picture of each depth */
        const size_t table = depths[i] < 16 ? 1024 : 0;
        begin_window(WINDOW_ORDER_ICON, 7);
        put_icon(3, 1, depths[i], 128, table, RAIL_ICON_BITS_MAX - 128 - table, (uint8_t)i);
        grant();
        CHECK(rail_number(rail_cell(NOW, 1, 3, picture, RAIL_PICTURE_SIZE)) == RAIL_DONE);
        check_picture(picture, depths[i], 128, table, RAIL_ICON_BITS_MAX - 128 - table, (uint8_t)i);
        CHECK(rail_number(rail_window(NOW, 7, window, RAIL_WINDOW_SIZE)) == RAIL_DONE);
        CHECK(memcmp(window + RAIL_WINDOW_AT_SMALL_PICTURE, picture, RAIL_PICTURE_SIZE) == 0);
        CHECK(rail_number(rail_checkpoint(NOW)) == RAIL_DONE); /* the same from the store */
        CHECK(rail_number(rail_window(NOW, 7, window, RAIL_WINDOW_SIZE)) == RAIL_DONE);
        CHECK(memcmp(window + RAIL_WINDOW_AT_SMALL_PICTURE, picture, RAIL_PICTURE_SIZE) == 0);
    }
}

/* One call of each lookup. */
static uint32_t look(int which, uint8_t *out, size_t size) {
    switch (which) {
    case 0: return rail_window(NOW, 7, out, size);
    case 1: return rail_notification(NOW, 7, 9, out, size);
    case 2: return rail_cell(NOW, 1, 5, out, size);
    case 3: return rail_windows(NOW, out, size);
    case 4: return rail_notifications(NOW, out, size);
    case 5: return rail_shared(NOW, RAIL_HOLDER_CELL, 1, 5, RAIL_HOLDER_SMALL_ICON, 7, 0, out, size);
    default: return rail_desktop(NOW, out, size);
    }
}

void test_lookups(void) {
    static const size_t sizes[] = {RAIL_WINDOW_SIZE, RAIL_NOTIFICATION_SIZE, RAIL_PICTURE_SIZE,
                                   RAIL_LIST_SIZE, RAIL_LIST_SIZE, RAIL_SHARED_SIZE, RAIL_DESKTOP_SIZE};
    int which;
    uint32_t history;
    empty_state();
    begin_window(WINDOW_ORDER_STATE_NEW, 7);
    grant();
    give_window_icon(0, 5, 1, 1);
    begin_notification(WINDOW_ORDER_STATE_NEW, 7, 9);
    history = deliver();
    CHECK(rail_number(history) == RAIL_DONE && rail_count(history) == 3 && rail_bytes(history) == 11 + 11 + 20 + 15);
    for (which = 0; which < 7; which++) {
        const size_t size = sizes[which];
        uint8_t *less = fenced(size - 1), *more = fenced(size + 999);
        memset(less, 0xEE, size - 1);
        memset(more, 0xEE, size + 999);
        remember();
        CHECK(look(which, less, size - 1) == RAIL_OUTPUT_TOO_SMALL);
        CHECK(look(which, less, 0) == RAIL_OUTPUT_TOO_SMALL);
        CHECK(filled(less, size - 1, 0xEE));
        CHECK(look(which, more, size + 999) == history); /* a lookup reports the history too */
        CHECK(!filled(more, size, 0xEE) && filled(more + size, 999, 0xEE));
        memset(more, 0x11, size);
        CHECK(look(which, more, size) == history);
        CHECK(filled(more + size, 999, 0xEE));
        CHECK(unchanged());
    }
}
