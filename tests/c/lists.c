/* The lists of ids: each once and ascending, with the table full, after orders of every kind, steps back and marks. */
#include "check.h"

static struct rail_windows windows(void) {
    uint8_t *list = fenced(RAIL_LIST_SIZE);
    struct rail_windows w;
    memset(list, 0xEE, RAIL_LIST_SIZE);
    CHECK(rail_number(rail_windows(NOW, list, RAIL_LIST_SIZE)) == RAIL_DONE);
    rail_windows_decode(&w, list);
    CHECK(w.count <= RAIL_WINDOWS_MAX && filled(list + RAIL_LIST_AT_IDS + 4 * w.count, 4 * (RAIL_WINDOWS_MAX - w.count), 0));
    return w;
}

static struct rail_notifications icons(void) {
    uint8_t *list = fenced(RAIL_LIST_SIZE);
    struct rail_notifications n;
    memset(list, 0xEE, RAIL_LIST_SIZE);
    CHECK(rail_number(rail_notifications(NOW, list, RAIL_LIST_SIZE)) == RAIL_DONE);
    rail_notifications_decode(&n, list);
    CHECK(n.count <= RAIL_NOTIFICATIONS_MAX &&
          filled(list + RAIL_LIST_AT_IDS + 8 * n.count, 8 * (RAIL_NOTIFICATIONS_MAX - n.count), 0));
    return n;
}

/* `count` windows, the i-th with the id first + i * step. */
static int are_windows(uint32_t count, uint32_t first, uint32_t step) {
    const struct rail_windows w = windows();
    uint32_t i;
    for (i = 0; i < w.count; i++)
        if (w.window_ids[i] != first + i * step)
            return 0;
    return w.count == count;
}

static void full_windows(void) {
    uint32_t i;
    for (i = RAIL_WINDOWS_MAX; i-- > 0;) {
        begin_window(WINDOW_ORDER_STATE_NEW, i * 0x08000000u + 0x07FFFFFFu);
        grant();
    }
    CHECK(are_windows(RAIL_WINDOWS_MAX, 0x07FFFFFFu, 0x08000000u)); /* the last is FFFFFFFF */
    begin_window(WINDOW_ORDER_STATE_NEW, 7);
    refuse(RAIL_TABLE_FULL);
    begin_window(WINDOW_ORDER_STATE_DELETED, 0x07FFFFFFu);
    grant();
    CHECK(are_windows(RAIL_WINDOWS_MAX - 1, 0x0FFFFFFFu, 0x08000000u));
    CHECK(rail_number(rail_undo(NOW, 1)) == RAIL_DONE && are_windows(RAIL_WINDOWS_MAX, 0x07FFFFFFu, 0x08000000u));
    CHECK(rail_checkpoint(NOW) == RAIL_DONE && are_windows(RAIL_WINDOWS_MAX, 0x07FFFFFFu, 0x08000000u));
}

static void full_icons(void) {
    struct rail_notifications n;
    uint32_t i;
    for (i = RAIL_NOTIFICATIONS_MAX; i-- > 0;) {
        begin_notification(WINDOW_ORDER_STATE_NEW, i % 2 == 0 ? 0xFFFFFFFFu : 0, i == 14 ? 0xFFFFFFFFu : i);
        grant();
    }
    n = icons();
    CHECK(n.count == RAIL_NOTIFICATIONS_MAX);
    for (i = 0; i < 8; i++) {
        CHECK(n.ids[i].window_id == 0 && n.ids[i].notify_icon_id == 2 * i + 1);
        CHECK(n.ids[8 + i].window_id == 0xFFFFFFFFu && n.ids[8 + i].notify_icon_id == (i == 7 ? 0xFFFFFFFFu : 2 * i));
    }
    CHECK(are_windows(RAIL_WINDOWS_MAX, 0x07FFFFFFu, 0x08000000u)); /* one list says nothing of the other */
}

void test_lists(void) {
    empty_state();
    CHECK(windows().count == 0 && icons().count == 0);
    full_windows();
    full_icons();
    begin_desktop(WINDOW_ORDER_FIELD_DESKTOP_NONE);
    grant();
    CHECK(windows().count == 0 && icons().count == 0);
    CHECK(rail_number(rail_undo(NOW, 1)) == RAIL_DONE && windows().count == RAIL_WINDOWS_MAX && icons().count == RAIL_NOTIFICATIONS_MAX);
}
