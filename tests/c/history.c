/* The mark and steps back, the room of the history, and the calls on struct rail_state. Decoders on bytes of any kind. */
#include "check.h"

static uint32_t answer(uint32_t count, uint32_t bytes) {
    return RAIL_DONE + 256 * count + 65536 * bytes;
}

static uint32_t undo(uint64_t steps) {
    return rail_undo(NOW, steps);
}

static void refuse_undo(uint64_t steps) {
    remember();
    CHECK(undo(steps) == RAIL_TOO_MANY_STEPS);
    CHECK(unchanged());
}

static uint32_t owner(uint32_t window_id) {
    uint8_t record[RAIL_WINDOW_SIZE];
    struct rail_window w;
    CHECK(rail_number(rail_window(NOW, window_id, record, sizeof record)) == RAIL_DONE);
    rail_window_decode(&w, record);
    return w.owner_window_id;
}

static void set_owner(uint32_t owner_id) {
    begin_window(WINDOW_ORDER_FIELD_OWNER, 7);
    put32(owner_id);
}

/* A step back restores the cell that its order overwrote, and what the window shows. */
static void undo_of_icon(void) {
    static uint8_t one[RAIL_PICTURE_SIZE], other[RAIL_PICTURE_SIZE], before[RAIL_WINDOW_SIZE], after[RAIL_WINDOW_SIZE];
    begin_window(WINDOW_ORDER_ICON, 7);
    put_icon(2, 1, 24, 4, 0, 8, 0x10);
    grant();
    CHECK(rail_number(rail_cell(NOW, 1, 2, one, sizeof one)) == RAIL_DONE);
    CHECK(rail_number(rail_checkpoint(NOW)) == RAIL_DONE);
    CHECK(rail_number(rail_window(NOW, 7, before, sizeof before)) == RAIL_DONE);
    begin_window(WINDOW_ORDER_ICON, 7);
    put_icon(2, 1, 24, 8, 0, 4, 0x60);
    grant();
    CHECK(rail_number(rail_cell(NOW, 1, 2, other, sizeof other)) == RAIL_DONE);
    CHECK(memcmp(one, other, sizeof one) != 0);
    CHECK(rail_number(rail_window(NOW, 7, after, sizeof after)) == RAIL_DONE && memcmp(before, after, sizeof before) != 0);
    CHECK(undo(1) == RAIL_DONE);
    CHECK(rail_number(rail_cell(NOW, 1, 2, other, sizeof other)) == RAIL_DONE);
    CHECK(memcmp(one, other, sizeof one) == 0);
    CHECK(rail_number(rail_window(NOW, 7, after, sizeof after)) == RAIL_DONE && memcmp(before, after, sizeof before) == 0);
}

/* 128 orders after a mark and no more. */
static void room_for_orders(void) {
    uint32_t i;
    CHECK(rail_checkpoint(NOW) == RAIL_DONE);
    begin_window(0, 7);
    for (i = 1; i <= RAIL_HISTORY_ORDERS_MAX; i++)
        CHECK(deliver() == answer(i, 11 * i));
    refuse(RAIL_HISTORY_FULL);
    begin_window(0, 8);
    refuse(RAIL_UNKNOWN_ID); /* before 12 */
    CHECK(undo(1) == answer(RAIL_HISTORY_ORDERS_MAX - 1, 11 * (RAIL_HISTORY_ORDERS_MAX - 1)));
    begin_window(0, 7);
    grant();
    refuse(RAIL_HISTORY_FULL);
}

/* 32,768 bytes and no more. */
static void room_for_bytes(void) {
    uint32_t i;
    CHECK(rail_checkpoint(NOW) == RAIL_DONE);
    begin_window(WINDOW_ORDER_ICON, 7);
    put_icon(0, 0, 32, 0, 0, 4096 - 23, 0); /* 4,096 bytes in all */
    for (i = 1; i <= 7; i++)
        CHECK(deliver() == answer(i, 4096 * i));
    begin_window(WINDOW_ORDER_ICON, 7);
    put_icon(0, 0, 32, 0, 0, 4096 - 23 - 11, 0);
    CHECK(deliver() == answer(8, RAIL_HISTORY_BYTES_MAX - 11));
    begin_window(WINDOW_ORDER_FIELD_SHOW, 7);
    put8(RAIL_SHOW_NORMAL);
    refuse(RAIL_HISTORY_FULL); /* one byte too many */
    begin_window(0, 7);
    CHECK(deliver() == answer(9, RAIL_HISTORY_BYTES_MAX));
    CHECK(undo(0) == answer(9, RAIL_HISTORY_BYTES_MAX));
    CHECK(rail_checkpoint(NOW) == RAIL_DONE);
}

void test_history(void) {
    empty_state();
    begin_window(WINDOW_ORDER_STATE_NEW, 7);
    CHECK(deliver() == answer(1, 11));
    set_owner(100);
    CHECK(deliver() == answer(2, 26));
    set_owner(200);
    CHECK(deliver() == answer(3, 41));
    CHECK(owner(7) == 200);
    CHECK(undo(0) == answer(3, 41));
    refuse_undo(4);
    refuse_undo(UINT64_C(1) << 32);
    refuse_undo(UINT64_MAX);
    CHECK(undo(1) == answer(2, 26));
    CHECK(owner(7) == 100);
    CHECK(rail_checkpoint(NOW) == RAIL_DONE);
    CHECK(owner(7) == 100);
    refuse_undo(1);
    set_owner(300);
    CHECK(deliver() == answer(1, 15));
    begin_window(WINDOW_ORDER_STATE_DELETED, 7);
    CHECK(deliver() == answer(2, 26));
    CHECK(undo(2) == RAIL_DONE);
    CHECK(owner(7) == 100);
    undo_of_icon();
    room_for_orders();
    room_for_bytes();
    CHECK(owner(7) == 100);
}

/* Delivers the order to both states. */
static void deliver_to(struct rail_state *s) {
    const uint32_t first = deliver();
    CHECK(rail_state_deliver(s, order.at, order.size) == first);
}

/* Both states hold the same bytes in every part that has a meaning, and answer alike. */
static void compare(const struct rail_state *s) {
    static uint8_t one[RAIL_WINDOW_SIZE], other[RAIL_WINDOW_SIZE];
    CHECK(rail_state_window(s, 7, one) == rail_window(NOW, 7, other, RAIL_WINDOW_SIZE));
    CHECK(memcmp(one, other, RAIL_WINDOW_SIZE) == 0);
    CHECK(rail_state_notification(s, 7, 9, one) == rail_notification(NOW, 7, 9, other, RAIL_NOTIFICATION_SIZE));
    CHECK(memcmp(one, other, RAIL_NOTIFICATION_SIZE) == 0);
    CHECK(rail_state_cell(s, 1, 5, one) == rail_cell(NOW, 1, 5, other, RAIL_PICTURE_SIZE));
    CHECK(memcmp(one, other, RAIL_PICTURE_SIZE) == 0);
    CHECK(rail_state_desktop(s, one) == rail_desktop(NOW, other, RAIL_DESKTOP_SIZE));
    CHECK(memcmp(one, other, RAIL_DESKTOP_SIZE) == 0);
    CHECK(rail_state_windows(s, one) == rail_windows(NOW, other, RAIL_LIST_SIZE));
    CHECK(memcmp(one, other, RAIL_LIST_SIZE) == 0);
    CHECK(rail_state_notifications(s, one) == rail_notifications(NOW, other, RAIL_LIST_SIZE));
    CHECK(memcmp(one, other, RAIL_LIST_SIZE) == 0);
    CHECK(rail_state_cell(s, 0, 5, one) == RAIL_UNKNOWN_ID);
}

/* The cell of the icon, the window that it was sent for and the notification icon that took it from the cell share one place. */
static void compare_holders(const struct rail_state *s) {
    const struct rail_holder cell = rail_cell_holder(1, 5), small = rail_small_icon_holder(7), big = rail_big_icon_holder(7);
    const struct rail_holder icon = rail_notification_holder(7, 9);
    uint8_t shared = 0xEE, raw = 0xEE;
    CHECK(rail_state_shared(s, cell, small, &shared) == rail_shared(NOW, 0, 1, 5, 1, 7, 0, &raw, 1) && shared == 1 && raw == 1);
    shared = raw = 0xEE;
    CHECK(rail_state_shared(s, icon, small, &shared) == rail_shared(NOW, 3, 7, 9, 1, 7, 0, &raw, 1) && shared == 1 && raw == 1);
    shared = raw = 0xEE;
    CHECK(rail_state_shared(s, big, small, &shared) == RAIL_UNKNOWN_ID && rail_shared(NOW, 2, 7, 0, 1, 7, 0, &raw, 1) == RAIL_UNKNOWN_ID);
    CHECK(rail_state_shared(s, cell, rail_cell_holder(0, 5), &shared) == RAIL_UNKNOWN_ID);
    CHECK(rail_state_shared(s, cell, rail_notification_holder(9, 7), &shared) == RAIL_UNKNOWN_ID);
    CHECK(shared == 0xEE && raw == 0xEE);
}

void test_wrappers(void) {
    struct rail_state *s = (struct rail_state *)(void *)fenced(sizeof *s);
    CHECK(RAIL_PLACES == 64 && sizeof *s == 364847);
    CHECK(rail_state_reset(s) == RAIL_DONE);
    empty_state();
    begin_window(WINDOW_ORDER_STATE_NEW | WINDOW_ORDER_FIELD_TITLE, 7);
    put_string(10, 0x41);
    deliver_to(s);
    begin_window(WINDOW_ORDER_ICON, 7);
    put_icon(5, 1, 16, 2, 0, 4, 0x20);
    deliver_to(s);
    begin_notification(WINDOW_ORDER_STATE_NEW | WINDOW_ORDER_CACHED_ICON, 7, 9);
    put16(5);
    put8(1);
    deliver_to(s);
    begin_desktop(WINDOW_ORDER_FIELD_DESKTOP_ACTIVEWND);
    put32(7);
    deliver_to(s);
    compare(s);
    compare_holders(s);
    CHECK(rail_state_deliver(s, NULL, 0) == RAIL_TOO_SHORT);
    CHECK(rail_state_history(s) == undo(0) && rail_count(undo(0)) == 4);
    CHECK(rail_state_undo(s, 1) == undo(1));
    CHECK(rail_state_undo(s, 9) == RAIL_TOO_MANY_STEPS);
    compare(s);
    CHECK(rail_state_checkpoint(s) == rail_checkpoint(NOW));
    compare(s);
    CHECK(rail_state_history(s) == answer(0, 0));
}

/* Lengths past their limits are cut; a read past the record would meet the fence. */
static void decode_any(uint8_t *w, uint8_t *n, uint8_t *d, uint8_t *p) {
    struct rail_window window;
    struct rail_notification notification;
    struct rail_desktop desktop;
    struct rail_picture picture;
    struct rail_windows windows;
    struct rail_notifications icons;
    rail_window_decode(&window, w);
    CHECK(window.title.bytes <= RAIL_TITLE_MAX && window.overlay_description.bytes <= RAIL_OVERLAY_DESCRIPTION_MAX);
    CHECK(window.num_window_rects <= RAIL_RECTANGLES_MAX && window.num_visibility_rects <= RAIL_RECTANGLES_MAX);
    CHECK(window.small_icon.present == 1 && window.big_icon.present == 1 && window.overlay_icon.present == 1);
    CHECK(window.small_icon.bits_color + window.small_icon.cb_bits_color <= w + RAIL_WINDOW_AT_BIG_PICTURE);
    CHECK(window.big_icon.bits_color + window.big_icon.cb_bits_color <= w + RAIL_WINDOW_AT_OVERLAY_ICON);
    CHECK(window.overlay_icon.bits_color + window.overlay_icon.cb_bits_color <= w + RAIL_WINDOW_AT_PIXELS);
    rail_notification_decode(&notification, n);
    CHECK(notification.tool_tip.bytes <= RAIL_TOOL_TIP_MAX && notification.info_tip_text.bytes <= RAIL_INFO_TIP_TEXT_MAX);
    CHECK(notification.title.bytes <= RAIL_INFO_TIP_TITLE_MAX);
    CHECK(notification.icon.present == 1 && notification.icon.bits_color + notification.icon.cb_bits_color <= n + RAIL_NOTIFICATION_SIZE);
    rail_desktop_decode(&desktop, d);
    CHECK(desktop.num_window_ids <= RAIL_WINDOW_IDS_MAX);
    rail_windows_decode(&windows, w + RAIL_WINDOW_SIZE - RAIL_LIST_SIZE);
    CHECK(windows.count == RAIL_WINDOWS_MAX);
    rail_notifications_decode(&icons, w + RAIL_WINDOW_SIZE - RAIL_LIST_SIZE);
    CHECK(icons.count == RAIL_NOTIFICATIONS_MAX);
    rail_picture_decode(&picture, p);
    CHECK(picture.bits_mask + picture.cb_bits_mask == picture.color_table);
    CHECK(picture.color_table + picture.cb_color_table == picture.bits_color);
    CHECK(picture.bits_color + picture.cb_bits_color <= p + RAIL_PICTURE_SIZE);
}

void test_decoders(void) {
    uint8_t *w = fenced(RAIL_WINDOW_SIZE), *n = fenced(RAIL_NOTIFICATION_SIZE), *d = fenced(RAIL_DESKTOP_SIZE);
    uint8_t *p = fenced(RAIL_PICTURE_SIZE);
    uint32_t bpp;
    memset(w, 0xFF, RAIL_WINDOW_SIZE);
    memset(n, 0xFF, RAIL_NOTIFICATION_SIZE);
    memset(d, 0xFF, RAIL_DESKTOP_SIZE);
    for (bpp = 0; bpp < 256; bpp += 4) {
        memset(p, (int)(255 - bpp / 4), RAIL_PICTURE_SIZE);
        p[RAIL_PICTURE_AT_BPP] = (uint8_t)bpp;
        decode_any(w, n, d, p);
    }
    CHECK(rail_word_coordinate(0) == 0 && rail_word_coordinate(0x7FFF) == 32767);
    CHECK(rail_word_coordinate(0xFFFF8000u) == -32768 && rail_word_coordinate(0xFFFFFFFFu) == -1);
    CHECK(rail_coordinate_word(-1) == 0xFFFFFFFFu && rail_coordinate_word(-32768) == 0xFFFF8000u && rail_coordinate_word(7) == 7);
    CHECK(rail_number(RAIL_HISTORY_BYTES_MAX * 65536u + RAIL_HISTORY_ORDERS_MAX * 256u + 14u) == 14);
    CHECK(rail_number(RAIL_MESSAGE_MAX * 65536u) == RAIL_DONE && rail_bytes(RAIL_MESSAGE_MAX * 65536u) == RAIL_MESSAGE_MAX);
    CHECK(strcmp(rail_number_words(RAIL_OUTPUT_TOO_SMALL), "output memory too small") == 0);
    CHECK(strcmp(rail_number_words(RAIL_CHUNK_TOO_SHORT), "chunk under 8 bytes") == 0);
    CHECK(strcmp(rail_number_words(RAIL_NO_PLACE), "every place is pointed at") == 0);
    CHECK(strcmp(rail_number_words(RAIL_BAD_CHUNK), rail_number_words(22)) != 0);
    CHECK(strcmp(rail_number_words(RAIL_FLAGS_CLASH), "order flags clash") == 0);
    CHECK(strcmp(rail_number_words(22), rail_number_words(UINT32_MAX)) == 0);
    CHECK(strcmp(rail_number_words(RAIL_RECORD_CUT), rail_number_words(22)) != 0);
    CHECK(strcmp(rail_number_words(RAIL_RECORD_DIFFERS), rail_number_words(22)) != 0);
    CHECK(strcmp(rail_number_words(RAIL_WRONG_END), "a kind from the wrong end") == 0);
    CHECK(strcmp(rail_number_words(RAIL_NOT_PERMITTED), "a program not permitted") == 0);
}
