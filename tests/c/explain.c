/* Why an order is refused: the number of rail_deliver for each, the offset of the field at fault, and that no byte changes. */
#include "check.h"

#include <string.h>

/* Sets OrderSize; the explanation and then the delivery have the same number, and this offset is told. */
static void told(uint32_t number, size_t offset) {
    uint32_t explained;
    remember();
    order.at[1] = (uint8_t)(order.size & 255);
    order.at[2] = (uint8_t)(order.size >> 8);
    explained = rail_explain(NOW, order.at, order.size);
    CHECK(unchanged());
    CHECK(rail_number(explained) == number && rail_count(explained) == 0);
    CHECK(rail_offset(explained) == offset);
    CHECK(rail_number(rail_deliver(NOW, order.at, order.size)) == number);
}

/* The same of bytes as they stand. */
static void told_bytes(size_t size, uint32_t number, size_t offset) {
    CHECK(rail_explain(NOW, order.at, size) == number + 65536 * offset);
    CHECK(rail_deliver(NOW, order.at, size) == number);
}

/* 2 to 6: the header. */
static void headers(void) {
    begin_desktop(WINDOW_ORDER_FIELD_DESKTOP_HOOKED);
    order.at[1] = 7;
    told_bytes(0, RAIL_TOO_SHORT, 0);
    told_bytes(6, RAIL_TOO_SHORT, 0);
    order.at[1] = 8;
    told_bytes(7, RAIL_LENGTH_DIFFERS, 1);
    order.at[0] = 0x2F;
    told(RAIL_UNKNOWN_TYPE, 0);
    order.at[6] = 0;
    told(RAIL_UNKNOWN_TYPE, 0);
    order.at[0] = RAIL_ORDER_HEADER;
    told(RAIL_UNKNOWN_TYPE, 3);
    begin_desktop(WINDOW_ORDER_STATE_NEW);
    told(RAIL_UNKNOWN_FLAG, 3);
    begin_desktop(WINDOW_ORDER_FIELD_DESKTOP_NONE | WINDOW_ORDER_FIELD_DESKTOP_HOOKED);
    told(RAIL_FLAGS_CLASH, 3);
}

/* 7: the first field that does not fit whole, or the first byte left over. */
static void misfits(void) {
    begin_window(WINDOW_ORDER_FIELD_WNDRECTS, 7);
    put16(1);
    told(RAIL_FIELDS_MISFIT, 13); /* the order ends where the rectangle begins */
    put16(5);
    put8(5);
    told(RAIL_FIELDS_MISFIT, 15); /* its top is cut */
    begin_window(WINDOW_ORDER_FIELD_TITLE, 7);
    put16(4);
    put_run(3, 0);
    told(RAIL_FIELDS_MISFIT, 13); /* a string that is not whole, at its first byte */
    put_run(2, 0);
    told(RAIL_FIELDS_MISFIT, 17); /* a byte left over */
    begin_notification(WINDOW_ORDER_FIELD_NOTIFY_INFO_TIP, 7, 9);
    put_run(8, 0);
    put_string(2, 0);
    told(RAIL_FIELDS_MISFIT, 27); /* no length of the title */
    begin_desktop(WINDOW_ORDER_FIELD_DESKTOP_ZORDER);
    put8(2);
    put32(7);
    put_run(3, 0);
    told(RAIL_FIELDS_MISFIT, 12); /* the second id is cut */
    begin_window(WINDOW_ORDER_ICON, 7);
    put_icon(0, 0, 8, 3, 4, 5, 0);
    order.size -= 6;
    told(RAIL_FIELDS_MISFIT, 28); /* the color table is not whole, the mask is */
    begin_window(WINDOW_ORDER_ICON, 7);
    put_icon(0, 0, 8, 0, 4, 0, 0);
    order.at[14] = 2;
    told(RAIL_FIELDS_MISFIT, 27); /* 2 bits have no color table, so its length is the mask's, and two bytes are left over */
}

/* 8: the first field outside its set. */
static void outside(void) {
    begin_window(WINDOW_ORDER_FIELD_SHOW | WINDOW_ORDER_FIELD_TITLE | WINDOW_ORDER_FIELD_RPCONTENT, 7);
    put8(5);
    put_string(3, 0);
    put8(2);
    told(RAIL_BAD_VALUE, 12); /* the title's length, and RPContent after it is outside too */
    begin_window(WINDOW_ORDER_FIELD_VISIBILITY, 7);
    put_rectangles(RAIL_RECTANGLES_MAX + 1, 0);
    told(RAIL_BAD_VALUE, 11);
    begin_window(WINDOW_ORDER_ICON, 7);
    put_icon(6, 2, 32, 0, 0, 1, 0);
    told(RAIL_BAD_VALUE, 11); /* entry and cache id */
    begin_window(WINDOW_ORDER_CACHEDICON, 7);
    put16(6);
    put8(0xFF);
    told(RAIL_BAD_VALUE, 11); /* entry beside FF in a cached icon */
    begin_window(WINDOW_ORDER_CACHEDICON, 7);
    put16(5);
    put8(0xFF);
    told(RAIL_BAD_VALUE, 13);
    begin_window(WINDOW_ORDER_ICON, 7);
    put_icon(0, 0, 32, RAIL_ICON_BITS_MAX, 0, 1, 0);
    told(RAIL_BAD_VALUE, 21); /* the color length, though the mask is long */
    begin_window(WINDOW_ORDER_ICON, 7);
    put_icon(0, 0, 8, 0, 1, RAIL_ICON_BITS_MAX, 0);
    told(RAIL_BAD_VALUE, 23);
    order.at[15] = 0;
    told(RAIL_BAD_VALUE, 15); /* the width, and the picture is too long as well */
}

/* 9, 10, 11, 17 and 12: what follows the flags. */
static void on_the_table(void) {
    uint32_t i;
    begin_window(WINDOW_ORDER_STATE_NEW, 7);
    told(RAIL_UNKNOWN_ID, 7);
    begin_window(WINDOW_ORDER_CACHEDICON, 7);
    put16(0);
    put8(0);
    told(RAIL_NO_CELL, 7);
    for (i = 100; i < 100 + RAIL_WINDOWS_MAX - 1; i++) {
        begin_window(WINDOW_ORDER_STATE_NEW, i);
        told(RAIL_DONE, 0);
    }
    begin_window(WINDOW_ORDER_STATE_NEW, 99);
    told(RAIL_TABLE_FULL, 7);
    for (i = 0; i < RAIL_PLACES_MAX; i++) {
        begin_window(WINDOW_ORDER_ICON | (i % 2 ? WINDOW_ORDER_FIELD_ICON_BIG : 0), i < 2 ? 7 : 99 + i / 2);
        put_icon(0, 0xFF, 32, 0, 0, 1, 0);
        told(RAIL_DONE, 0);
    }
    begin_notification(WINDOW_ORDER_STATE_NEW | WINDOW_ORDER_ICON, 7, 9);
    put_icon(0, 0, 32, 0, 0, 1, 0);
    told(RAIL_NO_PLACE, 7);
    CHECK(rail_checkpoint(NOW) == RAIL_DONE);
    told(RAIL_NO_PLACE, 7);
    for (i = 0; i < RAIL_HISTORY_ORDERS_MAX; i++) {
        begin_desktop(WINDOW_ORDER_FIELD_DESKTOP_HOOKED);
        told(RAIL_DONE, 0);
    }
    told(RAIL_HISTORY_FULL, 7); /* 7 is past the end of these 7 bytes */
}

/* 1 comes before all, at 0. */
static void unfit(void) {
    begin_desktop(0);
    order.at[0] = 0;
    CHECK(rail_explain(PARTS(RAIL_INDEX_SIZE - 1, RAIL_BODIES_SIZE, RAIL_JOURNAL_SIZE), order.at, order.size) == RAIL_BAD_STATE);
    CHECK(rail_explain(PARTS(RAIL_INDEX_SIZE, RAIL_BODIES_SIZE, RAIL_JOURNAL_SIZE - 1), order.at, 0) == RAIL_BAD_STATE);
    now.index[0] = 0;
    CHECK(rail_explain(NOW, order.at, order.size) == RAIL_BAD_STATE);
    empty_state();
}

/* More bytes than OrderSize can tell. */
static void long_orders(void) {
    begin_desktop(WINDOW_ORDER_FIELD_DESKTOP_NONE);
    memset(order.at + 7, 0, 65536);
    order.at[1] = 7;
    told_bytes(65536 + 7, RAIL_LENGTH_DIFFERS, 1);
    order.at[1] = 0;
    told_bytes(65536, RAIL_LENGTH_DIFFERS, 1);
    order.at[1] = order.at[2] = 255;
    told_bytes(65535, RAIL_FIELDS_MISFIT, 7);
    begin_window(WINDOW_ORDER_FIELD_TITLE, 7);
    put16(65535 - 13 - 1);
    order.size = 65535;
    told(RAIL_FIELDS_MISFIT, 65534); /* the last byte is left over */
}

/* The same on the struct; an order of no bytes may be NULL. */
static void on_the_struct(void) {
    static struct rail_state state;
    static const uint8_t none[] = {RAIL_ORDER_HEADER, 7, 0, 1, 0, 0, 4};
    CHECK(rail_state_explain(&state, none, sizeof none) == RAIL_BAD_STATE);
    CHECK(rail_state_reset(&state) == RAIL_DONE);
    CHECK(rail_state_explain(&state, none, sizeof none) == RAIL_DONE);
    CHECK(rail_state_explain(&state, none, sizeof none - 1) == RAIL_TOO_SHORT);
    CHECK(rail_state_explain(&state, NULL, 0) == RAIL_TOO_SHORT);
}

void test_explanations(void) {
    empty_state();
    headers();
    begin_window(WINDOW_ORDER_STATE_NEW, 7);
    told(RAIL_DONE, 0);
    misfits();
    outside();
    on_the_table();
    empty_state();
    long_orders();
    unfit();
    on_the_struct();
}
