/* Orders on their way: cutting an update into orders, and what a granted order changed. Not proved, like all inline functions here.
 * Included by rail.h. */
#ifndef RAIL_ORDERS_H
#define RAIL_ORDERS_H

#include <stddef.h>
#include <stdint.h>

/* ---- FieldsPresentFlags, as far as they are needed here; rail/protocol.h has all of them under the document's names. */

#define RAIL_BIT_WINDOW 0x01000000u
#define RAIL_BIT_NOTIFICATION 0x02000000u
#define RAIL_BIT_DESKTOP 0x04000000u
#define RAIL_BIT_NEW 0x10000000u
#define RAIL_BIT_DELETED 0x20000000u
#define RAIL_BIT_ICON 0x40000000u
#define RAIL_BIT_CACHED_ICON 0x80000000u
#define RAIL_BIT_NOTIFY_TIP 0x00000001u
#define RAIL_BIT_NOTIFY_INFO_TIP 0x00000002u
#define RAIL_BIT_NOTIFY_STATE 0x00000004u
#define RAIL_BIT_NOTIFY_VERSION 0x00000008u
#define RAIL_BIT_DESKTOP_NONE 0x00000001u
#define RAIL_BIT_DESKTOP_ARC_BEGAN 0x00000008u

/* ---- Headers: the bytes before an order's first field. */

#define RAIL_ORDER_FIRST_BYTE 0x2E
#define RAIL_DESKTOP_HEADER_SIZE 7
#define RAIL_WINDOW_HEADER_SIZE 11
#define RAIL_NOTIFICATION_HEADER_SIZE 15

/* The bytes of the first order of an update of which `left` bytes are left, by its OrderSize. Where this cannot be, all that is left:
 * delivered so it is refused, and nothing behind it can be cut. */
static inline size_t rail_order_size(const uint8_t *update, size_t left) {
    const size_t size = left < 3 ? 0 : rail_get16(update + 1);
    return size < RAIL_DESKTOP_HEADER_SIZE || size > left ? left : size;
}

/* ---- What a granted order changed, so that a terminal draws only that again. */

enum rail_change_kind {
    RAIL_CHANGE_NONE = 0, /* the bytes are no order */
    RAIL_CHANGE_WINDOW_NEW = 1,
    RAIL_CHANGE_WINDOW_UPDATED = 2, /* fields of it, or one of its icons */
    RAIL_CHANGE_WINDOW_DELETED = 3,
    RAIL_CHANGE_NOTIFICATION_NEW = 4,
    RAIL_CHANGE_NOTIFICATION_UPDATED = 5,
    RAIL_CHANGE_NOTIFICATION_DELETED = 6,
    RAIL_CHANGE_DESKTOP = 7, /* the desktop state, and no window */
    RAIL_CHANGE_ALL_GONE = 8 /* desktop none: no window, no notification icon, no z-order */
};

/* A cell of the icon cache. */
struct rail_icon {
    uint8_t present; /* 0: none, and the next two are 0 */
    uint8_t cache_id;
    uint16_t cache_entry;
};

struct rail_change {
    enum rail_change_kind kind;
    uint32_t flags;          /* FieldsPresentFlags */
    uint32_t window_id;      /* 0 for the desktop */
    uint32_t notify_icon_id; /* 0 but for a notification icon */
    struct rail_icon filled; /* the cell with a new picture, none with cache id FF: no record but this order's shows it */
};

/* Behind a string whose length stands at `at`; `size` where it does not lie in the order. */
static inline size_t rail_behind_string(const uint8_t *order, size_t size, size_t at) {
    const size_t end = at + 2 <= size ? at + 2 + rail_get16(order + at) : size;
    return end < size ? end : size;
}

/* Where the icon of a notification order begins: behind the fields that come before it. */
static inline size_t rail_notification_icon_at(const uint8_t *order, size_t size, uint32_t flags) {
    size_t at = RAIL_NOTIFICATION_HEADER_SIZE;
    if ((flags & RAIL_BIT_NOTIFY_VERSION) != 0)
        at += 4;
    if ((flags & RAIL_BIT_NOTIFY_TIP) != 0)
        at = rail_behind_string(order, size, at);
    if ((flags & RAIL_BIT_NOTIFY_INFO_TIP) != 0)
        at = rail_behind_string(order, size, rail_behind_string(order, size, at + 8));
    return (flags & RAIL_BIT_NOTIFY_STATE) != 0 ? at + 4 : at;
}

/* The cell that an icon at `at` fills: entry (2 bytes), cache id (1). Cache id FF fills none. */
static inline struct rail_icon rail_filled_cell(const uint8_t *order, size_t size, size_t at) {
    struct rail_icon cell = {0, 0, 0};
    if (at + 3 <= size && order[at + 2] < RAIL_ICON_CACHES && rail_get16(order + at) < RAIL_ICON_CACHE_ENTRIES) {
        cell.present = 1;
        cell.cache_id = order[at + 2];
        cell.cache_entry = (uint16_t)rail_get16(order + at);
    }
    return cell;
}

/* What the order would do or, once it was granted, has done. It judges no field: whether an order is granted only a delivery tells.
 * A step back undoes the same: draw all again after one. */
static inline struct rail_change rail_change_of(const uint8_t *order, size_t size) {
    struct rail_change change = {RAIL_CHANGE_NONE, 0, 0, 0, {0, 0, 0}};
    uint32_t flags;
    if (size < RAIL_DESKTOP_HEADER_SIZE || order[0] != RAIL_ORDER_FIRST_BYTE || rail_get16(order + 1) != size)
        return change;
    flags = rail_get32(order + 3);
    switch (flags & (RAIL_BIT_WINDOW | RAIL_BIT_NOTIFICATION | RAIL_BIT_DESKTOP)) {
    case RAIL_BIT_WINDOW:
        if (size < RAIL_WINDOW_HEADER_SIZE)
            return change;
        change.kind = RAIL_CHANGE_WINDOW_UPDATED;
        if ((flags & RAIL_BIT_DELETED) != 0)
            change.kind = RAIL_CHANGE_WINDOW_DELETED;
        else if ((flags & (RAIL_BIT_ICON | RAIL_BIT_CACHED_ICON)) == 0 && (flags & RAIL_BIT_NEW) != 0)
            change.kind = RAIL_CHANGE_WINDOW_NEW; /* beside an icon the new bit says nothing */
        change.window_id = rail_get32(order + 7);
        if ((flags & RAIL_BIT_ICON) != 0)
            change.filled = rail_filled_cell(order, size, RAIL_WINDOW_HEADER_SIZE);
        break;
    case RAIL_BIT_NOTIFICATION:
        if (size < RAIL_NOTIFICATION_HEADER_SIZE)
            return change;
        change.kind = RAIL_CHANGE_NOTIFICATION_UPDATED;
        if ((flags & RAIL_BIT_DELETED) != 0)
            change.kind = RAIL_CHANGE_NOTIFICATION_DELETED;
        else if ((flags & RAIL_BIT_NEW) != 0)
            change.kind = RAIL_CHANGE_NOTIFICATION_NEW;
        change.window_id = rail_get32(order + 7);
        change.notify_icon_id = rail_get32(order + 11);
        if ((flags & RAIL_BIT_ICON) != 0)
            change.filled = rail_filled_cell(order, size, rail_notification_icon_at(order, size, flags));
        break;
    case RAIL_BIT_DESKTOP:
        change.kind = (flags & RAIL_BIT_DESKTOP_NONE) != 0 ? RAIL_CHANGE_ALL_GONE : RAIL_CHANGE_DESKTOP;
        break;
    default:
        return change;
    }
    change.flags = flags;
    return change;
}

/* The order begins a synchronization (desktop 8): the server will tell all its windows as new. Those still listed would meet 9 then, so
 * they have to go first, by the first of the two orders below; the second one hooks the desktop again where it was hooked.
 * examples/terminal.c does so. */
#define RAIL_ORDER_DESKTOP_NONE {RAIL_ORDER_FIRST_BYTE, 7, 0, 1, 0, 0, 4}
#define RAIL_ORDER_DESKTOP_HOOKED {RAIL_ORDER_FIRST_BYTE, 7, 0, 2, 0, 0, 4}
static inline int rail_begins_sync(const uint8_t *order, size_t size) {
    const struct rail_change change = rail_change_of(order, size);
    return change.kind == RAIL_CHANGE_DESKTOP && (change.flags & RAIL_BIT_DESKTOP_ARC_BEGAN) != 0;
}

/* How many orders of an update stand before the first that begins a synchronization: a limit for rail_update. */
static inline uint32_t rail_orders_before_sync(const uint8_t *update, size_t left) {
    uint32_t count = 0;
    while (left != 0) {
        const size_t size = rail_order_size(update, left);
        if (rail_begins_sync(update, size))
            break;
        count++;
        update += size;
        left -= size;
    }
    return count;
}

#endif
