/* Newer servers' fields: the places of all others are where they were, the overlay icon is a third one, and overlays hold places. */
#include "check.h"

static uint8_t *window;

/* A window's record of the header before these fields: 9,320 bytes, of which each has the meaning that it had. */
static void old_places(void) {
    CHECK(RAIL_WINDOW_AT_SMALL_ICON == 0 && RAIL_WINDOW_AT_BIG_ICON == 1 && RAIL_WINDOW_AT_OWNER_WINDOW_ID == 2);
    CHECK(RAIL_WINDOW_AT_STYLE == 6 && RAIL_WINDOW_AT_EXTENDED_STYLE == 10 && RAIL_WINDOW_AT_SHOW_STATE == 14);
    CHECK(RAIL_WINDOW_AT_TITLE_BYTES == 15 && RAIL_WINDOW_AT_TITLE == 17 && RAIL_WINDOW_AT_CLIENT_OFFSET_X == 537);
    CHECK(RAIL_WINDOW_AT_CLIENT_OFFSET_Y == 541 && RAIL_WINDOW_AT_CLIENT_AREA_WIDTH == 545 && RAIL_WINDOW_AT_CLIENT_AREA_HEIGHT == 549);
    CHECK(RAIL_WINDOW_AT_RP_CONTENT == 553 && RAIL_WINDOW_AT_ROOT_PARENT_HANDLE == 554 && RAIL_WINDOW_AT_WINDOW_OFFSET_X == 558);
    CHECK(RAIL_WINDOW_AT_WINDOW_OFFSET_Y == 562 && RAIL_WINDOW_AT_CLIENT_DELTA_X == 566 && RAIL_WINDOW_AT_CLIENT_DELTA_Y == 570);
    CHECK(RAIL_WINDOW_AT_WINDOW_WIDTH == 574 && RAIL_WINDOW_AT_WINDOW_HEIGHT == 578 && RAIL_WINDOW_AT_NUM_WINDOW_RECTS == 582);
    CHECK(RAIL_WINDOW_AT_WINDOW_RECTS == 584 && RAIL_WINDOW_AT_VISIBLE_OFFSET_X == 712 && RAIL_WINDOW_AT_VISIBLE_OFFSET_Y == 716);
    CHECK(RAIL_WINDOW_AT_NUM_VISIBILITY_RECTS == 720 && RAIL_WINDOW_AT_VISIBILITY_RECTS == 722);
    CHECK(RAIL_WINDOW_AT_SMALL_PICTURE == 850 && RAIL_WINDOW_AT_BIG_PICTURE == 5085 && RAIL_WINDOW_AT_OVERLAY_ICON == 9320);
    CHECK(RAIL_WINDOW_AT_OVERLAY_PICTURE + RAIL_PICTURE_SIZE == RAIL_WINDOW_AT_PIXELS);
}

static void icon(uint32_t id, uint32_t which, uint32_t cache, uint32_t entry, uint8_t first) {
    begin_window(which | WINDOW_ORDER_ICON, id);
    put_icon(entry, cache, 32, 3, 0, 5, first);
}

static void cached(uint32_t id, uint32_t which, uint32_t cache, uint32_t entry) {
    begin_window(which | WINDOW_ORDER_CACHEDICON, id);
    put16(entry);
    put8(cache);
}

/* The first byte of each of the three pictures of window 7, or -1. */
static int shows(int small, int big, int overlay) {
    struct rail_window w;
    if (rail_number(rail_window(NOW, 7, window, RAIL_WINDOW_SIZE)) != RAIL_DONE)
        return 0;
    rail_window_decode(&w, window);
    CHECK(window[RAIL_WINDOW_AT_OVERLAY_ICON] == (overlay < 0 ? 0 : 1) && window[RAIL_WINDOW_AT_OVERLAY_ICON + 1] == 0);
    CHECK(overlay >= 0 || filled(window + RAIL_WINDOW_AT_OVERLAY_PICTURE, RAIL_PICTURE_SIZE, 0));
    CHECK(rail_window_overlay_icon(window).bits_mask == w.overlay_icon.bits_mask);
    return (w.small_icon.present ? w.small_icon.bits_mask[0] : -1) == small && (w.big_icon.present ? w.big_icon.bits_mask[0] : -1) == big &&
           (w.overlay_icon.present ? w.overlay_icon.bits_mask[0] : -1) == overlay;
}

static int shared(struct rail_holder one, struct rail_holder two) {
    uint8_t out = 0xEE;
    const uint32_t number = rail_number(
        rail_shared(NOW, (uint8_t)one.kind, one.first, one.second, (uint8_t)two.kind, two.first, two.second, &out, RAIL_SHARED_SIZE));
    return number == RAIL_DONE ? out : -(int)number;
}

/* The overlay icon keeps its picture beside the others, shares as they do, and becomes none. */
static void overlay_icon(void) {
    const struct rail_holder overlay = rail_overlay_icon_holder(7), big = rail_big_icon_holder(7), small = rail_small_icon_holder(7);
    empty_state();
    begin_window(WINDOW_ORDER_STATE_NEW | WINDOW_ORDER_FIELD_ICON_OVERLAY_NULL, 7);
    grant();
    CHECK(shows(-1, -1, -1) && shared(overlay, overlay) == -9);
    icon(7, WINDOW_ORDER_FIELD_ICON_OVERLAY | WINDOW_ORDER_STATE_NEW, 0, 4, 0x10); /* beside an icon the new bit says nothing */
    grant();
    CHECK(shows(-1, -1, 0x10));
    icon(7, 0, 1, 4, 0x20);
    grant();
    cached(7, WINDOW_ORDER_FIELD_ICON_BIG, 0, 4);
    grant();
    CHECK(shows(0x20, 0x10, 0x10) && shared(overlay, big) == 1 && shared(overlay, small) == 0);
    CHECK(shared(overlay, rail_cell_holder(0, 4)) == 1 && shared(overlay, overlay) == 1 && shared(rail_overlay_icon_holder(8), small) == -9);
    CHECK(rail_number(rail_checkpoint(NOW)) == RAIL_DONE);
    CHECK(shows(0x20, 0x10, 0x10) && shared(overlay, big) == 1); /* from the store */
    begin_window(WINDOW_ORDER_FIELD_ICON_OVERLAY_NULL | WINDOW_ORDER_FIELD_OVERLAY_DESCRIPTION, 7);
    put_string(4, 0x41);
    grant();
    CHECK(rail_change_of(order.at, order.size).kind == RAIL_CHANGE_WINDOW_UPDATED);
    CHECK(shows(0x20, 0x10, -1) && shared(overlay, big) == -9 && rail_get16(window + RAIL_WINDOW_AT_OVERLAY_DESCRIPTION_BYTES) == 4);
    cached(7, WINDOW_ORDER_FIELD_ICON_OVERLAY, 1, 4);
    grant();
    CHECK(shows(0x20, 0x10, 0x20) && shared(overlay, small) == 1);
    CHECK(rail_number(rail_undo(NOW, 2)) == RAIL_DONE);
    CHECK(shows(0x20, 0x10, 0x10) && shared(overlay, big) == 1 && rail_get16(window + RAIL_WINDOW_AT_OVERLAY_DESCRIPTION_BYTES) == 0);
    cached(7, WINDOW_ORDER_FIELD_ICON_OVERLAY, 1, 5);
    refuse(RAIL_NO_CELL);
}

/* Overlays of all windows and 32 small icons hold every place: the next picture meets 17 until an overlay is none. */
static void overlays_hold_places(void) {
    uint32_t id;
    empty_state();
    for (id = 0; id < RAIL_WINDOWS_MAX; id++) {
        begin_window(WINDOW_ORDER_STATE_NEW, id);
        grant();
        icon(id, WINDOW_ORDER_FIELD_ICON_OVERLAY, 0xFF, 0, (uint8_t)id);
        grant();
        icon(id, 0, 0xFF, 0, (uint8_t)(128 + id));
        grant();
    }
    icon(7, WINDOW_ORDER_FIELD_ICON_BIG, 0xFF, 0, 99);
    refuse(RAIL_NO_PLACE);
    icon(7, WINDOW_ORDER_FIELD_ICON_OVERLAY, 0xFF, 0, 98); /* its own place */
    grant();
    CHECK(shows(128 + 7, -1, 98));
    CHECK(rail_number(rail_checkpoint(NOW)) == RAIL_DONE);
    begin_window(WINDOW_ORDER_FIELD_ICON_OVERLAY_NULL, 9);
    grant();
    icon(7, WINDOW_ORDER_FIELD_ICON_BIG, 0xFF, 0, 99);
    grant();
    CHECK(shows(128 + 7, 99, 98));
    CHECK(rail_number(rail_checkpoint(NOW)) == RAIL_DONE);
    CHECK(shows(128 + 7, 99, 98) && shared(rail_overlay_icon_holder(9), rail_overlay_icon_holder(9)) == -9);
    begin_window(WINDOW_ORDER_STATE_DELETED, 7);
    grant();
    for (id = 0; id < 3; id++) { /* the three places of window 7 */
        icon(8 + id, WINDOW_ORDER_FIELD_ICON_BIG, 0xFF, 0, 97);
        grant();
    }
    icon(11, WINDOW_ORDER_FIELD_ICON_BIG, 0xFF, 0, 97);
    refuse(RAIL_NO_PLACE);
}

void test_newer(void) {
    window = fenced(RAIL_WINDOW_SIZE);
    old_places();
    overlay_icon();
    overlays_hold_places();
}
