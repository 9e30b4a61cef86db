/* The store of pictures: what a record shows while cells are filled again, who shares a place, stores of every number of places in odd
 * cuts, full ones and 17, and stores lent shorter or longer than emptying fixed. */
#include "check.h"

static uint8_t *window, *other; /* each ends before a fence */

/* An order that gives a window its small or big icon by way of a cell; the picture's bytes begin with `first`. */
static void window_icon(uint32_t id, int big, uint32_t cache, uint32_t entry, size_t color, uint8_t first) {
    begin_window((big ? WINDOW_ORDER_FIELD_ICON_BIG : 0u) | WINDOW_ORDER_ICON, id);
    put_icon(entry, cache, 32, 3, 0, color, first);
}

static void cached_icon(uint32_t id, int big, uint32_t cache, uint32_t entry) {
    begin_window((big ? WINDOW_ORDER_FIELD_ICON_BIG : 0u) | WINDOW_ORDER_CACHEDICON, id);
    put16(entry);
    put8(cache);
}

static void new_window(uint32_t id) {
    begin_window(WINDOW_ORDER_STATE_NEW, id);
}

/* Delivers the order; where the history is full, after a mark. */
static uint32_t deliver_marked(void) {
    const uint32_t answer = deliver();
    if (answer != RAIL_HISTORY_FULL)
        return rail_number(answer);
    CHECK(rail_checkpoint(NOW) == RAIL_DONE);
    return rail_number(deliver());
}

/* The first byte of the picture that a window shows, or -1 where it shows none. */
static int shown(uint32_t id, int big) {
    struct rail_window w;
    struct rail_picture p;
    CHECK(rail_number(rail_window(NOW, id, window, RAIL_WINDOW_SIZE)) == RAIL_DONE);
    rail_window_decode(&w, window);
    p = big ? w.big_icon : w.small_icon;
    return p.present ? p.bits_mask[0] : -1;
}

static int shown_by_icon(uint32_t id, uint32_t icon) {
    struct rail_picture p;
    CHECK(rail_number(rail_notification(NOW, id, icon, other, RAIL_NOTIFICATION_SIZE)) == RAIL_DONE);
    p = rail_notification_icon(other);
    return p.present ? p.bits_mask[0] : -1;
}

static int in_cell(uint8_t cache, uint16_t entry) {
    struct rail_picture p;
    CHECK(rail_number(rail_cell(NOW, cache, entry, other, RAIL_PICTURE_SIZE)) == RAIL_DONE);
    rail_picture_decode(&p, other);
    return p.bits_mask[0];
}

/* 1, 0, or a refusal as its negative number. */
static int shared(struct rail_holder one, struct rail_holder two) {
    uint8_t out[2] = {0xEE, 0xEE};
    const uint32_t number = rail_number(rail_shared(NOW, (uint8_t)one.kind, one.first, one.second, (uint8_t)two.kind, two.first,
                                                    two.second, out, RAIL_SHARED_SIZE));
    CHECK(out[1] == 0xEE && (number == RAIL_DONE ? out[0] <= 1 : out[0] == 0xEE));
    return number == RAIL_DONE ? out[0] : -(int)number;
}

/* Windows 1 and 2 were given different pictures by way of one cell, and 3 took the second from there, as did an icon. */
static void check_kept(void) {
    const struct rail_holder cell = rail_cell_holder(0, 4), one = rail_small_icon_holder(1), two = rail_small_icon_holder(2);
    const struct rail_holder three = rail_big_icon_holder(3), icon = rail_notification_holder(2, 2);
    CHECK(shown(1, 0) == 0x10 && shown(1, 1) == -1 && shown(2, 0) == 0x20 && shown(3, 1) == 0x20 && shown(3, 0) == -1);
    CHECK(in_cell(0, 4) == 0x20 && shown_by_icon(2, 2) == 0x20);
    CHECK(shared(cell, two) == 1 && shared(two, three) == 1 && shared(three, icon) == 1 && shared(icon, cell) == 1);
    CHECK(shared(one, cell) == 0 && shared(one, two) == 0 && shared(icon, one) == 0 && shared(one, one) == 1);
    CHECK(shared(one, rail_big_icon_holder(1)) == -9 && shared(rail_small_icon_holder(9), one) == -9);
    CHECK(shared(one, rail_cell_holder(0, 5)) == -9 && shared(one, rail_cell_holder(2, 0)) == -9);
    CHECK(shared(one, rail_cell_holder(0, 6)) == -9 && shared(rail_notification_holder(1, 2), one) == -9);
}

void test_kept_pictures(void) {
    window = fenced(RAIL_WINDOW_SIZE);
    other = fenced(RAIL_NOTIFICATION_SIZE);
    empty_state();
    new_window(1);
    grant();
    new_window(2);
    grant();
    new_window(3);
    grant();
    window_icon(1, 0, 0, 4, 5, 0x10);
    grant();
    window_icon(2, 0, 0, 4, 5, 0x20); /* the cell is filled again */
    grant();
    cached_icon(3, 1, 0, 4);
    grant();
    begin_notification(WINDOW_ORDER_STATE_NEW | WINDOW_ORDER_CACHED_ICON, 2, 2);
    put16(4);
    put8(0);
    grant();
    check_kept();
    CHECK(rail_checkpoint(NOW) == RAIL_DONE);
    check_kept(); /* from the store */
    window_icon(1, 1, 0, 4, 5, 0x20); /* equal bytes in another order: a place of its own */
    grant();
    CHECK(shown(1, 1) == 0x20 && shared(rail_big_icon_holder(1), rail_small_icon_holder(2)) == 0);
    CHECK(shared(rail_big_icon_holder(1), rail_cell_holder(0, 4)) == 1 && shared(rail_small_icon_holder(2), rail_cell_holder(0, 4)) == 0);
    begin_window(WINDOW_ORDER_STATE_DELETED, 2);
    grant();
    CHECK(shown(3, 1) == 0x20 && shown_by_icon(2, 2) == 0x20 && shared(rail_small_icon_holder(2), rail_big_icon_holder(3)) == -9);
    CHECK(rail_number(rail_undo(NOW, 2)) == RAIL_DONE);
    check_kept();
    cached_icon(1, 0, 0, 4); /* it lets its own picture go, and takes the cell's for both */
    grant();
    cached_icon(1, 1, 0, 4);
    grant();
    CHECK(shown(1, 0) == 0x20 && shown(1, 1) == 0x20 && shared(rail_small_icon_holder(1), rail_big_icon_holder(1)) == 1);
    begin_desktop(WINDOW_ORDER_FIELD_DESKTOP_NONE);
    grant();
    CHECK(in_cell(0, 4) == 0x20 && shared(rail_cell_holder(0, 4), rail_cell_holder(0, 4)) == 1);
    CHECK(rail_number(rail_undo(NOW, 3)) == RAIL_DONE);
    check_kept();
}

/* Pictures sent once (cache id FF): of their window or notification icon alone; no cell changes. */
void test_sent_once(void) {
    const struct rail_holder cell = rail_cell_holder(0, 4), small = rail_small_icon_holder(1), big = rail_big_icon_holder(1);
    window = fenced(RAIL_WINDOW_SIZE);
    other = fenced(RAIL_NOTIFICATION_SIZE);
    empty_state();
    new_window(1);
    grant();
    window_icon(1, 0, 0, 4, 5, 0x10);
    grant();
    cached_icon(1, 1, 0, 4);
    grant();
    window_icon(1, 0, 0xFF, 4, 5, 0x20); /* the entry says nothing */
    CHECK(rail_change_of(order.at, order.size).filled.present == 0);
    grant();
    CHECK(shown(1, 0) == 0x20 && shown(1, 1) == 0x10 && in_cell(0, 4) == 0x10);
    CHECK(shared(small, cell) == 0 && shared(small, big) == 0 && shared(big, cell) == 1);
    begin_notification(WINDOW_ORDER_STATE_NEW | WINDOW_ORDER_ICON, 1, 2);
    put_icon(0xFFFF, 0xFF, 32, 3, 0, 5, 0x20);
    grant();
    CHECK(shown_by_icon(1, 2) == 0x20 && shared(small, rail_notification_holder(1, 2)) == 0); /* equal bytes, another place */
    CHECK(rail_checkpoint(NOW) == RAIL_DONE);
    CHECK(shown(1, 0) == 0x20 && shown_by_icon(1, 2) == 0x20 && in_cell(0, 4) == 0x10); /* from the store */
    window_icon(1, 0, 0xFF, 0, 5, 0x30);
    grant();
    CHECK(shown(1, 0) == 0x30);
    CHECK(rail_number(rail_undo(NOW, 1)) == RAIL_DONE);
    CHECK(shown(1, 0) == 0x20 && shared(small, small) == 1 && shared(small, cell) == 0);
    cached_icon(1, 0, 0xFF, 4); /* a cached icon names a cell */
    refuse(RAIL_BAD_VALUE);
    cached_icon(1, 0, 0, 5);
    refuse(RAIL_NO_CELL);
}

/* ---- Stores */

#define P RAIL_PLACE_SIZE

struct cut {
    uint32_t places;
    size_t size[RAIL_STORE_PARTS];
};

static const struct cut cuts[] = { /* of 70 places 64 are used */
    {12, {0, 5 * P + 1, P - 1, 7 * P + 4000, 0}},
    {12, {2 * P, 3 * P, 0, 4 * P, 3 * P}},
    {13, {13 * P, 0, 0, 0, 0}},
    {13, {P - 1, P - 1, P - 1, P - 1, 13 * P + P - 1}},
    {63, {65536, 15 * P + 1, 15 * P, 15 * P + 999, 3 * P + 5}},
    {63, {3 * P, 15 * P, 15 * P, 15 * P, 15 * P}},
    {64, {15 * P, 15 * P, 15 * P, 15 * P, 4 * P}},
    {64, {4 * P + 17, 65536, 65536, 65536, 65536}},
    {64, {30 * P, 0, 30 * P, 0, 4 * P}}, /* a part may be longer than 64 KiB */
    {70, {14 * P + 7, 14 * P, 14 * P + 1, 14 * P, 14 * P + 9}},
};

/* Picture number k, by way of cell 1/5 for a window's small or big icon. The cell then shares the place of the last one. */
static void picture_order(uint32_t k, size_t color) {
    window_icon(k / 2, (int)(k % 2), 1, 5, color, (uint8_t)k);
}

#define FIRST_EXTRA 100

/* A further picture, for a notification icon that shows none. */
static void extra_order(uint32_t k) {
    begin_notification(WINDOW_ORDER_ICON, 0, FIRST_EXTRA + k);
    put_icon(5, 1, 32, 3, 0, 5, (uint8_t)(FIRST_EXTRA + k));
}

static void list_holders(void) {
    uint32_t id;
    for (id = 0; id < RAIL_WINDOWS_MAX; id++) {
        new_window(id);
        grant();
    }
    for (id = 0; id < 3; id++) {
        begin_notification(WINDOW_ORDER_STATE_NEW, 0, FIRST_EXTRA + id);
        grant();
    }
}

/* How many of the pictures from 0 on are shown, to the byte. */
static uint32_t pictures_shown(uint32_t count, size_t color) {
    const size_t head = RAIL_WINDOW_HEADER_SIZE + 3; /* the header, entry and cache id */
    uint32_t k, good = 0;
    for (k = 0; k < count; k++) {
        const uint8_t *at = window + (k % 2 == 0 ? RAIL_WINDOW_AT_SMALL_PICTURE : RAIL_WINDOW_AT_BIG_PICTURE);
        picture_order(k, color);
        CHECK(rail_number(rail_window(NOW, k / 2, window, RAIL_WINDOW_SIZE)) == RAIL_DONE);
        good += window[k % 2] == 1 && memcmp(at, order.at + head, order.size - head) == 0;
    }
    return good;
}

/* The bytes of each part past its whole places, and the places past the fixed number, are as they were. */
static void check_past(const struct cut *cut, uint32_t fixed) {
    size_t left = fixed;
    int i;
    for (i = 0; i < RAIL_STORE_PARTS; i++) {
        const size_t used = cut->size[i] / P < left ? cut->size[i] / P : left;
        CHECK(filled(now.store[i] + used * P, cut->size[i] - used * P, 0xEE));
        left -= used;
    }
    CHECK(left == 0);
}

static void step_back(uint32_t steps) {
    CHECK(rail_undo(NOW, steps) == RAIL_DONE); /* to the mark */
    extra_order(0);
    refuse(RAIL_NO_PLACE);
}

/* A store with pictures 0 to `places` - 1 after a mark: 17, what comes before it and after it, and what makes room. */
static void check_full(uint32_t places) {
    uint32_t i;
    CHECK(rail_checkpoint(NOW) == RAIL_DONE);
    step_back(0);
    begin_window(WINDOW_ORDER_ICON, 99);
    put_icon(5, 1, 32, 3, 0, 5, 0);
    refuse(RAIL_UNKNOWN_ID);
    begin_notification(WINDOW_ORDER_ICON, 0, FIRST_EXTRA); /* sent once: it needs a place too */
    put_icon(5, 0xFF, 32, 3, 0, 5, 0);
    refuse(RAIL_NO_PLACE);
    window_icon(3, 0, 0xFF, 0xFFFF, 5, 0); /* the pointer's own, once it has let go */
    grant();
    step_back(1);
    picture_order(places - 1, 5); /* the place is its own once it and its cell have let go */
    grant();
    step_back(1);
    picture_order(0, 5); /* so is that of another window */
    grant();
    step_back(1);
    cached_icon(0, 0, 1, 5); /* needs no place and lets one go */
    grant();
    extra_order(0);
    grant();
    extra_order(1);
    refuse(RAIL_NO_PLACE);
    step_back(2);
    begin_window(WINDOW_ORDER_STATE_DELETED, 0); /* two pictures go */
    grant();
    extra_order(0);
    grant();
    extra_order(1);
    grant();
    CHECK(shown_by_icon(0, FIRST_EXTRA) == FIRST_EXTRA && shown_by_icon(0, FIRST_EXTRA + 1) == FIRST_EXTRA + 1);
    extra_order(2);
    refuse(RAIL_NO_PLACE);
    step_back(3);
    begin_desktop(WINDOW_ORDER_FIELD_DESKTOP_NONE); /* all go but the cell's */
    grant();
    for (i = 0; i < 8; i++) {
        new_window(i);
        grant();
    }
    for (i = 0; i + 1 < places && i < 16; i++) {
        picture_order(i, 5);
        grant();
    }
    step_back(9 + i);
    for (i = 0; i < RAIL_HISTORY_ORDERS_MAX; i++) {
        begin_desktop(WINDOW_ORDER_FIELD_DESKTOP_HOOKED);
        grant();
    }
    extra_order(0);
    refuse(RAIL_NO_PLACE); /* 12 holds too, and comes after it */
    picture_order(places - 1, 5);
    refuse(RAIL_HISTORY_FULL);
    step_back(RAIL_HISTORY_ORDERS_MAX);
}

/* Fills all places with pictures of 4,224 bytes: those of the last place of a part end before its fence, where nothing is left over. */
static void fill(uint32_t places) {
    uint32_t k;
    list_holders();
    for (k = 0; k < places; k++) {
        picture_order(k, RAIL_ICON_BITS_MAX - 3);
        CHECK(deliver_marked() == RAIL_DONE);
    }
    check_full(places);
    CHECK(pictures_shown(places, RAIL_ICON_BITS_MAX - 3) == places);
}

/* Every call but emptying meets 1 and changes nothing. */
static void all_meet_1(void) {
    remember();
    memset(window, 0xEE, RAIL_WINDOW_SIZE);
    new_window(50);
    CHECK(deliver() == RAIL_BAD_STATE && rail_update(NOW, 1, order.at, order.size) == RAIL_BAD_STATE);
    CHECK(rail_checkpoint(NOW) == RAIL_BAD_STATE && rail_undo(NOW, 0) == RAIL_BAD_STATE);
    CHECK(rail_window(NOW, 0, window, RAIL_WINDOW_SIZE) == RAIL_BAD_STATE);
    CHECK(rail_notification(NOW, 0, FIRST_EXTRA, window, RAIL_WINDOW_SIZE) == RAIL_BAD_STATE);
    CHECK(rail_cell(NOW, 1, 5, window, RAIL_WINDOW_SIZE) == RAIL_BAD_STATE);
    CHECK(rail_desktop(NOW, window, RAIL_WINDOW_SIZE) == RAIL_BAD_STATE);
    CHECK(rail_windows(NOW, window, RAIL_WINDOW_SIZE) == RAIL_BAD_STATE);
    CHECK(rail_notifications(NOW, window, RAIL_WINDOW_SIZE) == RAIL_BAD_STATE);
    CHECK(rail_record_write(NOW, window, RAIL_WINDOW_SIZE) == RAIL_BAD_STATE);
    CHECK(shared(rail_cell_holder(1, 5), rail_cell_holder(1, 5)) == -(int)RAIL_BAD_STATE);
    CHECK(unchanged() && filled(window, RAIL_WINDOW_SIZE, 0xEE));
}

/* Lent with a place less, in each part that has one: 1. Lent without what lies past the whole places: as before. */
static void lend_shorter(const struct cut *cut, uint32_t fixed) {
    int i;
    for (i = 0; i < RAIL_STORE_PARTS; i++)
        now.store_size[i] = cut->size[i] / P * P;
    CHECK(pictures_shown(fixed, RAIL_ICON_BITS_MAX - 3) == fixed);
    for (i = 0; i < RAIL_STORE_PARTS; i++) {
        const size_t before = now.store_size[i];
        if (before == 0 || cut->places > fixed)
            continue;
        now.store_size[i] = before - 1;
        all_meet_1();
        now.store_size[i] = 0;
        all_meet_1();
        now.store_size[i] = before;
    }
    if (cut->places > fixed) { /* room past the fixed number is not needed */
        now.store_size[4] -= (cut->places - fixed) * P;
        CHECK(pictures_shown(fixed, RAIL_ICON_BITS_MAX - 3) == fixed);
        now.store_size[4] -= 1;
        all_meet_1();
    }
    memcpy(now.store_size, cut->size, sizeof now.store_size);
    CHECK(pictures_shown(fixed, RAIL_ICON_BITS_MAX - 3) == fixed);
}

/* Emptied with 12 places and then lent 13: the last is left alone. */
static void lend_longer(void) {
    static const struct cut cut = {13, {13 * P, 0, 0, 0, 0}};
    now = new_parts(cut.size, 0xEE);
    now.store_size[0] = 12 * P;
    empty_state();
    now.store_size[0] = 13 * P;
    fill(12);
    check_past(&cut, 12);
    empty_state(); /* and now 13 are fixed */
    fill(13);
    check_past(&cut, 13);
}

/* Under 12 places: 1, and nothing changes. */
static void too_few(void) {
    static const size_t few[][RAIL_STORE_PARTS] = {{P, 2 * P, 3 * P, 4 * P, P + P - 1}, {12 * P - 1, 0, 0, 0, 0}, {0, 0, 0, 0, 0}};
    size_t i;
    for (i = 0; i < sizeof few / sizeof few[0]; i++) {
        now = new_parts(few[i], 0xEE);
        remember();
        CHECK(rail_reset(NOW) == RAIL_BAD_STATE && unchanged());
    }
}

void test_store(void) {
    const struct parts usual = now;
    size_t i;
    window = fenced(RAIL_WINDOW_SIZE);
    other = fenced(RAIL_NOTIFICATION_SIZE);
    for (i = 0; i < sizeof cuts / sizeof cuts[0]; i++) {
        const uint32_t fixed = cuts[i].places < RAIL_PLACES_MAX ? cuts[i].places : RAIL_PLACES_MAX;
        now = new_parts(cuts[i].size, 0xEE);
        empty_state();
        fill(fixed);
        check_past(&cuts[i], fixed);
        lend_shorter(&cuts[i], fixed);
    }
    lend_longer();
    too_few();
    now = usual;
}
