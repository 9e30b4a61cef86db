/* rail/orders.h: cutting an update, what a granted order changed, and the orders for a synchronization. */
#include "check.h"

/* What the order in `order` changes; it is granted first. */
static struct rail_change granted(void) {
    grant();
    return rail_change_of(order.at, order.size);
}

static int is(struct rail_change c, enum rail_change_kind kind, uint32_t window_id, uint32_t notify_icon_id) {
    return c.kind == kind && c.window_id == window_id && c.notify_icon_id == notify_icon_id && c.flags == rail_get32(order.at + 3);
}

static int fills(struct rail_change c, uint8_t cache_id, uint16_t cache_entry) {
    return c.filled.present == 1 && c.filled.cache_id == cache_id && c.filled.cache_entry == cache_entry;
}

static int fills_nothing(struct rail_change c) {
    return c.filled.present == 0 && c.filled.cache_id == 0 && c.filled.cache_entry == 0;
}

static void changed_windows(void) {
    struct rail_change c;
    begin_window(WINDOW_ORDER_STATE_NEW | WINDOW_ORDER_FIELD_TITLE, 7);
    put_string(4, 0x40);
    c = granted();
    CHECK(is(c, RAIL_CHANGE_WINDOW_NEW, 7, 0) && fills_nothing(c));
    begin_window(WINDOW_ORDER_FIELD_SHOW, 7);
    put8(RAIL_SHOW_NORMAL);
    c = granted();
    CHECK(is(c, RAIL_CHANGE_WINDOW_UPDATED, 7, 0) && fills_nothing(c));
    begin_window(WINDOW_ORDER_ICON | WINDOW_ORDER_STATE_NEW, 7); /* beside an icon the new bit says nothing */
    put_icon(5, 1, 24, 4, 0, 8, 0x10);
    c = granted();
    CHECK(is(c, RAIL_CHANGE_WINDOW_UPDATED, 7, 0) && fills(c, 1, 5));
    begin_window(WINDOW_ORDER_CACHEDICON | WINDOW_ORDER_FIELD_ICON_BIG, 7); /* only points */
    put16(5);
    put8(1);
    c = granted();
    CHECK(is(c, RAIL_CHANGE_WINDOW_UPDATED, 7, 0) && fills_nothing(c));
    begin_window(WINDOW_ORDER_STATE_DELETED, 7);
    c = granted();
    CHECK(is(c, RAIL_CHANGE_WINDOW_DELETED, 7, 0) && fills_nothing(c));
}

/* The icon of a notification order stands behind all its other fields, of which any may be absent. */
static void changed_notifications(void) {
    struct rail_change c;
    uint32_t fields;
    for (fields = 0; fields < 16; fields++) {
        const uint32_t entry = fields % RAIL_ICON_CACHE_ENTRIES;
        begin_notification(WINDOW_ORDER_STATE_NEW | WINDOW_ORDER_ICON | fields, 8, fields);
        if ((fields & WINDOW_ORDER_FIELD_NOTIFY_VERSION) != 0)
            put32(4);
        if ((fields & WINDOW_ORDER_FIELD_NOTIFY_TIP) != 0)
            put_string(6, 0x40);
        if ((fields & WINDOW_ORDER_FIELD_NOTIFY_INFO_TIP) != 0) {
            put32(1);
            put32(2);
            put_string(8, 0x50);
            put_string(2, 0x60);
        }
        if ((fields & WINDOW_ORDER_FIELD_NOTIFY_STATE) != 0)
            put32(3);
        put_icon(entry, 1, 24, 4, 0, 8, 0x10);
        c = granted();
        CHECK(is(c, RAIL_CHANGE_NOTIFICATION_NEW, 8, fields) && fills(c, 1, (uint16_t)entry));
    }
    begin_notification(WINDOW_ORDER_CACHEDICON, 8, 3);
    put16(0);
    put8(1);
    c = granted();
    CHECK(is(c, RAIL_CHANGE_NOTIFICATION_UPDATED, 8, 3) && fills_nothing(c));
    begin_notification(WINDOW_ORDER_STATE_DELETED, 8, 3);
    c = granted();
    CHECK(is(c, RAIL_CHANGE_NOTIFICATION_DELETED, 8, 3) && fills_nothing(c));
}

static void changed_desktop(void) {
    static const uint8_t none[] = RAIL_ORDER_DESKTOP_NONE, hooked[] = RAIL_ORDER_DESKTOP_HOOKED;
    uint8_t record[RAIL_DESKTOP_SIZE];
    begin_desktop(WINDOW_ORDER_FIELD_DESKTOP_HOOKED | WINDOW_ORDER_FIELD_DESKTOP_ARC_BEGAN);
    CHECK(is(granted(), RAIL_CHANGE_DESKTOP, 0, 0) && rail_begins_sync(order.at, order.size));
    begin_desktop(WINDOW_ORDER_FIELD_DESKTOP_ARC_COMPLETED);
    CHECK(is(granted(), RAIL_CHANGE_DESKTOP, 0, 0) && !rail_begins_sync(order.at, order.size));
    begin_desktop(WINDOW_ORDER_FIELD_DESKTOP_NONE);
    CHECK(is(granted(), RAIL_CHANGE_ALL_GONE, 0, 0) && !rail_begins_sync(order.at, order.size));
    CHECK(order.size == sizeof none && memcmp(order.at, none, sizeof none) == 0);
    CHECK(rail_number(rail_deliver(NOW, hooked, sizeof hooked)) == RAIL_DONE);
    CHECK(rail_number(rail_desktop(NOW, record, sizeof record)) == RAIL_DONE && record[RAIL_DESKTOP_AT_HOOKED] == 1);
    CHECK(rail_number(rail_deliver(NOW, none, sizeof none)) == RAIL_DONE);
    CHECK(rail_number(rail_desktop(NOW, record, sizeof record)) == RAIL_DONE && record[RAIL_DESKTOP_AT_HOOKED] == 0);
    begin_window(WINDOW_ORDER_FIELD_STYLE, 7); /* 8 is a style there */
    CHECK(!rail_begins_sync(order.at, order.size));
}

/* Bytes that are no order, and orders cut anywhere: nothing past their end is read, where a fence stands. */
static void changed_by_no_order(void) {
    static const uint8_t whole[] = {0x2E, 21, 0, 3, 0, 0, 0x52, 8, 0, 0, 0, 1, 0, 0, 0, 0xFF, 0xFF, 0xFF, 0xFF, 0xFF, 0xFF};
    size_t size;
    for (size = 0; size <= sizeof whole; size++) {
        uint8_t *cut = fenced(size);
        struct rail_change c;
        memcpy(cut, whole, size);
        c = rail_change_of(cut, size);
        CHECK(size == sizeof whole ? c.kind == RAIL_CHANGE_NOTIFICATION_NEW && fills_nothing(c) : c.kind == RAIL_CHANGE_NONE);
        if (size >= 3) { /* its OrderSize tells the cut */
            cut[1] = (uint8_t)size;
            c = rail_change_of(cut, size);
            CHECK((c.kind == RAIL_CHANGE_NOTIFICATION_NEW) == (size >= RAIL_NOTIFICATION_HEADER_SIZE) && fills_nothing(c));
        }
        CHECK(rail_order_size(cut, size) == size);
    }
    begin_window(WINDOW_ORDER_TYPE_DESKTOP, 7); /* two types */
    order.at[1] = (uint8_t)order.size;
    CHECK(rail_change_of(order.at, order.size).kind == RAIL_CHANGE_NONE);
    order.at[0] = 0x2D;
    CHECK(rail_change_of(order.at, order.size).kind == RAIL_CHANGE_NONE);
}

static void cut_updates(void) {
    static const uint8_t update[] = {0x2E, 7, 0, 0, 0, 0, 4, 0x2E, 6, 0, 0, 0, 0, 4, 0x2E, 7, 0};
    static const uint8_t past[] = {0x2E, 9, 0, 0, 0, 0, 4, 0};
    CHECK(rail_order_size(update, sizeof update) == 7);
    CHECK(rail_order_size(update + 7, sizeof update - 7) == sizeof update - 7); /* under 7: all that is left */
    CHECK(rail_order_size(update + 14, 3) == 3);
    CHECK(rail_order_size(past, sizeof past) == sizeof past);
}

/* The names here are those of the document. */
static void bits(void) {
    CHECK(RAIL_BIT_WINDOW == WINDOW_ORDER_TYPE_WINDOW && RAIL_BIT_NOTIFICATION == WINDOW_ORDER_TYPE_NOTIFY);
    CHECK(RAIL_BIT_DESKTOP == WINDOW_ORDER_TYPE_DESKTOP && RAIL_BIT_NEW == WINDOW_ORDER_STATE_NEW);
    CHECK(RAIL_BIT_DELETED == WINDOW_ORDER_STATE_DELETED && RAIL_BIT_ICON == WINDOW_ORDER_ICON);
    CHECK(RAIL_BIT_CACHED_ICON == WINDOW_ORDER_CACHEDICON && RAIL_BIT_NOTIFY_TIP == WINDOW_ORDER_FIELD_NOTIFY_TIP);
    CHECK(RAIL_BIT_NOTIFY_INFO_TIP == WINDOW_ORDER_FIELD_NOTIFY_INFO_TIP && RAIL_BIT_NOTIFY_STATE == WINDOW_ORDER_FIELD_NOTIFY_STATE);
    CHECK(RAIL_BIT_NOTIFY_VERSION == WINDOW_ORDER_FIELD_NOTIFY_VERSION && RAIL_BIT_DESKTOP_NONE == WINDOW_ORDER_FIELD_DESKTOP_NONE);
    CHECK(RAIL_BIT_DESKTOP_ARC_BEGAN == WINDOW_ORDER_FIELD_DESKTOP_ARC_BEGAN && RAIL_ORDER_FIRST_BYTE == RAIL_ORDER_HEADER);
}

void test_orders(void) {
    empty_state();
    changed_windows();
    changed_notifications();
    changed_desktop();
    changed_by_no_order();
    cut_updates();
    bits();
}
